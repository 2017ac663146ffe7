/* The library beside the plain versions: compares them call by call, and times them. bench/run builds and runs this.
   bench compare CALLS SEED | bench time | bench count CASE VERSION */
#include "plain.h"
#include <stdio.h>
#include <stdlib.h>
#include <string.h>
#include <time.h>

/* ---- the versions: where the library takes a record by value, the one it hands back is put in its place */

PLAIN(library);

#define BY_VALUE(name, parameters, call)                                                                               \
    uint32_t name parameters {                                                                                         \
        struct xenpak_called c = call;                                                                                 \
        *m = c.next;                                                                                                   \
        return (uint32_t)c.refusal << 24;                                                                              \
    }

BY_VALUE(library_make,
         (struct xenpak_module * m, uint8_t port, const uint8_t *image, size_t image_size, const uint8_t *thresholds,
          size_t thresholds_size),
         xenpak_make(port, image, image_size, thresholds, thresholds_size))
BY_VALUE(library_power_on, (struct xenpak_module * m), xenpak_power_on(*m))
BY_VALUE(library_cut, (struct xenpak_module * m), xenpak_cut(*m))
BY_VALUE(library_cut_torn, (struct xenpak_module * m, uint8_t byte), xenpak_cut_torn(*m, byte))
BY_VALUE(library_reset_pin, (struct xenpak_module * m), xenpak_reset_pin(*m))
BY_VALUE(library_lines, (struct xenpak_module * m, struct xenpak_lines given), xenpak_lines(*m, given))
BY_VALUE(library_sample, (struct xenpak_module * m, struct xenpak_sample given), xenpak_sample(*m, given))

uint32_t library_settle(struct xenpak_module *m, uint32_t budget) {
    struct xenpak_settled s = xenpak_settle(*m, budget);
    *m = s.next;
    return (uint32_t)s.refusal << 24 | s.ticks;
}

bool library_line(const struct xenpak_module *m) { return xenpak_line(*m); }

uint16_t library_counter(const struct xenpak_module *m) { return xenpak_counter(*m); }

uint8_t library_stored(const struct xenpak_module *m, uint8_t offset) { return xenpak_stored(*m, offset); }

struct version {
    const char *name;
    uint32_t (*frame)(struct xenpak_module *, uint32_t);
    uint32_t (*tick)(struct xenpak_module *);
    uint32_t (*unsaved)(const struct xenpak_module *);
    int16_t (*tenths)(int16_t);
    uint32_t (*make)(struct xenpak_module *, uint8_t, const uint8_t *, size_t, const uint8_t *, size_t);
    uint32_t (*power_on)(struct xenpak_module *);
    uint32_t (*cut)(struct xenpak_module *);
    uint32_t (*cut_torn)(struct xenpak_module *, uint8_t);
    uint32_t (*reset_pin)(struct xenpak_module *);
    uint32_t (*lines)(struct xenpak_module *, struct xenpak_lines);
    uint32_t (*sample)(struct xenpak_module *, struct xenpak_sample);
    uint32_t (*settle)(struct xenpak_module *, uint32_t);
    bool (*line)(const struct xenpak_module *);
    uint16_t (*counter)(const struct xenpak_module *);
    uint8_t (*stored)(const struct xenpak_module *, uint8_t);
};

#define VERSION(name, entry)                                                                                           \
    {                                                                                                                  \
        #name, entry##_frame, entry##_tick, entry##_unsaved, entry##_tenths, name##_make, name##_power_on,             \
            name##_cut, name##_cut_torn, name##_reset_pin, name##_lines, name##_sample, name##_settle, name##_line,   \
            name##_counter, name##_stored                                                                              \
    }

enum { VERSIONS = 3 };

static const struct version versions[VERSIONS] = {VERSION(library, xenpak), VERSION(plain, plain), VERSION(rust, rust)};

enum name {
    FRAME, TICK, LINES, SAMPLE, SETTLE, RESET, CUT, CUT_TORN, POWER_ON, MAKE, LINE, COUNTER, STORED, TENTHS, UNSAVED
};

static const char *const names[] = {"frame",    "tick", "lines", "sample",  "settle", "reset pin", "cut",    "cut torn",
                                    "power-on", "make", "line",  "counter", "stored", "tenths",    "unsaved"};

/* A call with what it is given. `number` is a frame's word, a budget, a byte, a port, an offset or a code. */
struct call {
    enum name name;
    uint32_t number;
    struct xenpak_lines lines;
    struct xenpak_sample sample;
    uint8_t image[258], thresholds[42];
    size_t image_size, thresholds_size;
};

/* The answer's word. */
static uint32_t answer(const struct version *v, struct xenpak_module *m, const struct call *c) {
    switch (c->name) {
    case FRAME: return v->frame(m, c->number);
    case TICK: return v->tick(m);
    case LINES: return v->lines(m, c->lines);
    case SAMPLE: return v->sample(m, c->sample);
    case SETTLE: return v->settle(m, c->number);
    case RESET: return v->reset_pin(m);
    case CUT: return v->cut(m);
    case CUT_TORN: return v->cut_torn(m, c->number);
    case POWER_ON: return v->power_on(m);
    case MAKE: return v->make(m, c->number, c->image, c->image_size, c->thresholds, c->thresholds_size);
    case LINE: return v->line(m);
    case COUNTER: return v->counter(m);
    case STORED: return v->stored(m, c->number);
    case TENTHS: return (uint16_t)v->tenths(c->number);
    default: return v->unsaved(m);
    }
}

/* ---- random and hostile calls */

static uint64_t state;

/* A number below a bound (splitmix64). */
static uint32_t below(uint32_t bound) {
    uint64_t z = state += 0x9e3779b97f4a7c15;
    z = (z ^ z >> 30) * 0xbf58476d1ce4e5b9;
    z = (z ^ z >> 27) * 0x94d049bb133111eb;
    return (uint32_t)((z ^ z >> 31) >> 32) % bound;
}

static bool one_in(uint32_t n) { return below(n) == 0; }

static uint32_t word16(void) { return below(0x10000); }

/* Mostly an address that means something, or one beside it. */
static uint32_t some_address(void) {
    static const uint16_t first[] = {0x0000, 0x8000, 0x8000, 0x8000, 0x8007, 0x807d, 0x807d, 0x8106,
                                     0x9000, 0x9000, 0x9000, 0xa000, 0xa060, 0xa070, 0xfffe, 0x0000};
    static const uint32_t many[] = {1, 1, 1, 1, 256, 50, 50, 2, 9, 9, 9, 41, 11, 7, 2, 0x10000};
    uint32_t i = below(16);
    return first[i] + below(many[i]);
}

/* A byte for an offset: often zero, the store's or the copy's. */
static uint8_t some_byte(const struct xenpak_module *m, uint8_t at) {
    switch (below(6)) {
    case 0: return 0;
    case 1: return m->store[at];
    case 2: return m->copy[at];
    default: return below(256);
    }
}

/* Mostly a frame for this module, and seldom a reset. */
static uint32_t some_frame(const struct xenpak_module *m) {
    uint32_t operation = below(4), data = operation == 0 ? some_address() : word16();
    if (operation == 1 && m->bus.address - 0x807eu < 48)
        data = (data & 0xff00) | some_byte(m, m->bus.address - 0x8007);
    if (operation == 1 && m->bus.address == 0 && !one_in(16)) data &= 0x7fff;
    uint32_t frame = operation << 28 | (uint32_t)m->port << 23 | 1 << 18 | 2 << 16 | data;
    switch (below(16)) {
    case 0: return word16() << 16 | data;
    case 1: return frame ^ 1u << below(32);
    default: return frame;
    }
}

/* Mostly a reading at a threshold or beside it. */
static uint16_t some_reading(const struct xenpak_module *m) {
    const uint8_t *t = m->thresholds + 2 * below(20);
    return one_in(3) ? word16() : (t[0] << 8 | t[1]) + below(3) - 1;
}

/* Four codes of a row, mostly in order: low alarm, low warning, high warning, high alarm. */
static void some_row(uint8_t *row, bool is_signed) {
    static const int places[] = {2, 6, 4, 0};
    int32_t codes[4];
    for (int i = 0; i < 4; i++) {
        int32_t code = is_signed ? (int16_t)word16() : (int32_t)word16();
        int at = i;
        for (; at > 0 && codes[at - 1] > code; at--) codes[at] = codes[at - 1];
        codes[at] = code;
    }
    if (one_in(30)) codes[below(4)] = codes[below(4)];
    for (int i = 0; i < 4; i++) {
        row[places[i]] = codes[i] >> 8 & 0xff;
        row[places[i] + 1] = codes[i] & 0xff;
    }
}

/* Mostly a making that is accepted. */
static void some_making(struct call *c) {
    uint8_t sum = 0;
    c->name = MAKE;
    c->number = one_in(8) ? below(256) : below(32);
    for (int i = 0; i < 258; i++) c->image[i] = below(256);
    for (int i = 0; i < 118; i++) sum += c->image[i];
    if (!one_in(8)) c->image[118] = sum;
    for (int row = 0; row < 40; row += 8) some_row(c->thresholds + row, row == 0);
    c->image_size = one_in(8) ? below(259) : 256;
    c->thresholds_size = one_in(8) ? below(43) : 40;
}

static void some_call(struct call *c, const struct xenpak_module *m) {
    static const uint16_t until[] = {700, 850, 890, 940, 950, 952, 954, 957, 965, 966, 985, 990, 995, 998, 1000};
    uint32_t chance = below(1000);
    c->name = FRAME;
    while (chance >= until[c->name]) c->name++;
    if (!m->powered && one_in(8)) c->name = POWER_ON;
    c->number = word16() << 16 | word16();
    if (c->name == FRAME) c->number = some_frame(m);
    if (c->name == CUT_TORN) c->number = some_byte(m, m->job.due);
    if (c->name == SETTLE && one_in(2)) c->number = below(300);
    if (c->name == LINES) c->lines = (struct xenpak_lines){word16(), word16(), !one_in(8), !one_in(8), !one_in(8)};
    if (c->name == SAMPLE)
        c->sample = (struct xenpak_sample){some_reading(m), some_reading(m), some_reading(m), some_reading(m)};
    if (c->name == MAKE) some_making(c);
}

/* ---- comparison */

static struct xenpak_module records[VERSIONS];

/* A counter that is close to its end, in every record. */
static void nearly_full(void) {
    for (int v = 0; v < VERSIONS; v++) records[v].bus.counter |= 0xfff8;
}

/* How much a version's record has unsaved. */
static uint32_t unsaved(int v) { return versions[v].unsaved(&records[v]); }

/* Up to its last field a record has no hole. */
enum { WHOLE = offsetof(struct xenpak_module, monitor.byte) + 1 };

/* Whether a version's answer, what it has unsaved or its record is another than the library's. */
static bool differs(int v, const uint32_t *answers) {
    return answers[v] != answers[0] || unsaved(v) != unsaved(0) || memcmp(&records[v], &records[0], WHOLE);
}

/* The first byte of a version's record that is another than the library's; WHOLE where none is. */
static int differing_byte(int v) {
    const uint8_t *a = (const uint8_t *)&records[v], *b = (const uint8_t *)&records[0];
    int at = 0;
    while (at < WHOLE && a[at] == b[at]) at++;
    return at;
}

/* Reads out every temperature code: how often a version gives other tenths than the library. */
static unsigned long long readouts(void) {
    unsigned long long differences = 0;
    for (int32_t code = INT16_MIN; code <= INT16_MAX; code++)
        for (int v = 1; v < VERSIONS; v++)
            if (versions[v].tenths(code) != versions[0].tenths(code) && differences++ < 10)
                printf("code %d: library %d tenths, %s %d\n", code, versions[0].tenths(code), versions[v].name,
                       versions[v].tenths(code));
    printf("65536 codes read out by each version, %llu differences\n", differences);
    return differences;
}

static int compare(unsigned long long calls, uint64_t seed) {
    static struct call c;
    unsigned long long differences = 0, refused[256] = {0}, ticked[256] = {0}, framed[256] = {0}, bytes[256] = {0};
    state = seed;
    some_making(&c);
    for (unsigned long long i = 0; i < calls; i++, some_call(&c, &records[0])) {
        uint32_t answers[VERSIONS];
        if (c.name == COUNTER && one_in(4)) nearly_full();
        for (int v = 0; v < VERSIONS; v++) answers[v] = answer(&versions[v], &records[v], &c);
        for (int v = 1; v < VERSIONS; v++)
            if (differs(v, answers) && differences++ < 10)
                printf("call %llu, %s: library %08x, unsaved %08x; %s %08x, %08x; records alike up to byte %d of %d\n",
                       i, names[c.name], answers[0], unsaved(0), versions[v].name, answers[v], unsaved(v),
                       differing_byte(v), WHOLE);
        if (records[0].powered) bytes[XENPAK_BYTE(unsaved(0))]++;
        refused[XENPAK_REFUSAL(answers[0])]++;
        if (XENPAK_REFUSAL(answers[0])) continue;
        if (c.name == FRAME) framed[XENPAK_WHICH(answers[0])]++;
        if (c.name == TICK) ticked[XENPAK_WHICH(answers[0])]++;
    }
    printf("%llu calls of each version, %llu differences\n", calls, differences);
    printf("  frames: silent %llu, set %llu, written %llu, dropped %llu, data %llu\n", framed[XENPAK_SILENT],
           framed[XENPAK_SET], framed[XENPAK_WRITTEN], framed[XENPAK_DROPPED], framed[XENPAK_DATA]);
    printf("  ticks: nothing %llu, loaded %llu, burned %llu; refusals 1 to 8:", ticked[XENPAK_NOTHING],
           ticked[XENPAK_LOADED], ticked[XENPAK_BURNED]);
    for (int number = 1; number <= 8; number++) printf(" %llu", refused[number]);
    for (int n = 2; n < 48; n++) bytes[1] += bytes[n];
    printf("\n  unsaved after a call: no byte %llu, 1 to 47 %llu, all 48 %llu\n", bytes[0], bytes[1], bytes[48]);
    return readouts() + differences != 0;
}

/* ---- speed: the same call again and again */

struct timed {
    const char *name;
    enum name call;
    uint8_t kind;
    uint16_t address;
    uint32_t word;
};

/* A call, the job's kind, the address register, the frame's word. */
static const struct timed cases[] = {
    {"tick that loads", TICK, 1, 0, 0},
    {"tick that burns", TICK, 2, 0, 0},
    {"tick with no job", TICK, 0, 0, 0},
    {"address frame", FRAME, 0, 0x9001, 0x00069001},
    {"control read (9001)", FRAME, 0, 0x9001, 0x30060000},
    {"read that clears (9003)", FRAME, 0, 0x9003, 0x30060000},
    {"customer write (8080)", FRAME, 0, 0x8080, 0x100600aa},
    {"silent frame", FRAME, 0, 0x9001, 0x30860000},
    {"how much is unsaved", UNSAVED, 0, 0, 0},
    {"sample", SAMPLE, 0, 0, 0},
    {"lines", LINES, 0, 0, 0},
};

enum { CASES = sizeof cases / sizeof *cases, BATCH = 4000, ROUNDS = 5000, COUNTED = 2000 };

/* Loads go through all offsets, burns through the customer bytes. */
static uint8_t first_offset(const struct timed *t) { return t->kind == 2 ? 119 : 0; }

static struct xenpak_module prepared(const struct timed *t) {
    struct xenpak_module m;
    memset(&m, 0, sizeof m);
    for (int i = 0; i < 256; i++) m.store[i] = 7 * i;
    for (int i = 0; i < 40; i++) m.thresholds[i] = i;
    m.differing = (struct xenpak_differing){.copy = 48, .zero = 48};
    m.powered = true;
    m.job = (struct xenpak_job){.due = first_offset(t), .last = t->kind == 2 ? 166 : 255, .ended = 0, .kind = t->kind};
    m.bus.address = t->address;
    return m;
}

static uint32_t repeat(const struct version *v, const struct timed *t, uint32_t times) {
    _Alignas(64) struct xenpak_module m = prepared(t);
    uint32_t sum = 0;
    for (uint32_t i = 0; t->call == TICK && i < times; i++) {
        if (m.job.due == m.job.last) m.job.due = first_offset(t);
        sum += v->tick(&m);
    }
    for (uint32_t i = 0; t->call == FRAME && i < times; i++) sum += v->frame(&m, t->word);
    for (uint32_t i = 0; t->call == UNSAVED && i < times; i++) sum += v->unsaved(&m);
    for (uint32_t i = 0; t->call == SAMPLE && i < times; i++)
        sum += v->sample(&m, (struct xenpak_sample){i & 0x3fff, i, i, i});
    for (uint32_t i = 0; t->call == LINES && i < times; i++)
        sum += v->lines(&m, (struct xenpak_lines){i, i, i & 1, true, true});
    return sum;
}

static double seconds(void) {
    struct timespec t;
    clock_gettime(CLOCK_MONOTONIC, &t);
    return t.tv_sec + t.tv_nsec * 1e-9;
}

/* The time of a batch, whose stack begins somewhere else in a page with each round. */
static double batch(const struct version *v, const struct timed *t, int round) {
    static volatile uint32_t sink;
    volatile char shift[16 * (round % 256) + 1];
    shift[0] = 0;
    double start = seconds();
    sink += repeat(v, t, BATCH) + shift[0];
    return seconds() - start;
}

/* The best of many batches, cases and versions taking turns: a line for each case, in nanoseconds for each call. */
static int time_all(void) {
    static double best[CASES][VERSIONS];
    for (int round = 0; round < ROUNDS; round++)
        for (int c = 0; c < CASES; c++)
            for (int v = 0; v < VERSIONS; v++) {
                double took = batch(&versions[v], &cases[c], round);
                if (round == 0 || took < best[c][v]) best[c][v] = took;
            }
    for (int c = 0; c < CASES; c++) {
        printf("%s", cases[c].name);
        for (int v = 0; v < VERSIONS; v++) printf("|%.1f", best[c][v] * 1e9 / BATCH);
        printf("\n");
    }
    return 0;
}

/* A case's calls alone, for a count of instructions. */
static int count(int c, int v) { return repeat(&versions[v % VERSIONS], &cases[c % CASES], COUNTED) == 1; }

int main(int argc, char **argv) {
    if (argc == 4 && !strcmp(argv[1], "compare")) return compare(strtoull(argv[2], 0, 10), strtoull(argv[3], 0, 10));
    if (argc == 2 && !strcmp(argv[1], "time")) return time_all();
    if (argc == 4 && !strcmp(argv[1], "count")) return count(atoi(argv[2]), atoi(argv[3]));
    fprintf(stderr, "bench compare CALLS SEED | bench time | bench count CASE VERSION\n");
    return 2;
}
