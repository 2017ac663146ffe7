/* Where the library has each field of xenpak.h: values that C puts there come back from the library's own calls. */
#include "../include/xenpak.h"
#include <stdio.h>
#include <string.h>

/* What is given to the library: a powered module without a job, and what its lines and its monitor report. */
struct given {
    struct xenpak_module module;
    struct xenpak_lines lines;
    struct xenpak_sample sample;
};

static struct given base(void) {
    struct given g;
    memset(&g, 0, sizeof g);
    g.module.powered = true;
    for (int i = 0; i < 256; i++) g.module.copy[i] = i;
    g.module.monitor.quantity = 1;
    g.module.monitor.byte = 0x55;
    g.lines.signal = g.lines.block = g.lines.lanes = true;
    return g;
}

/* ---- what the library shows of a field; `at` is a register or an offset */

static uint32_t frame(struct xenpak_module *m, uint32_t operation, uint32_t port, uint16_t data) {
    return xenpak_frame(m, operation << 28 | port << 23 | 1 << 18 | 2 << 16 | data);
}

static uint16_t read(struct xenpak_module *m, uint16_t address) {
    frame(m, 0, 0, address);
    return XENPAK_VALUE(frame(m, 3, 0, 0));
}

static uint16_t value(struct given g, uint16_t at) { return read(&g.module, at); }

static uint16_t stored(struct given g, uint16_t at) { return xenpak_stored(g.module, at); }

static uint16_t counter(struct given g, uint16_t at) { return (void)at, xenpak_counter(g.module); }

static uint16_t unsaved(struct given g, uint16_t at) { return (void)at, XENPAK_VALUE(xenpak_unsaved(&g.module)); }

/* After a start as many bytes are unsaved as differ from zero. */
static uint16_t zero(struct given g, uint16_t at) {
    g.module = xenpak_reset_pin(g.module).next;
    return unsaved(g, at);
}

/* The code of a quantity, from its two registers. */
static uint16_t code(struct given g, uint16_t at) { return read(&g.module, at) << 8 | read(&g.module, at + 1); }

/* What a second read shows, and what the first one showed besides. */
static uint16_t live(struct given g, uint16_t at) {
    read(&g.module, at);
    return read(&g.module, at);
}

static uint16_t since(struct given g, uint16_t at) { return value(g, at) & ~live(g, at); }

static uint16_t status(struct given g, uint16_t at) { return value(g, at) >> 2; }

static uint16_t due(struct given g, uint16_t at) {
    g.module.job.kind = at;
    g.module.job.last = 255;
    return XENPAK_OFFSET(xenpak_tick(&g.module));
}

static uint16_t last(struct given g, uint16_t at) {
    g.module.job.kind = at;
    return xenpak_settle(g.module, 1000).ticks - 1;
}

static uint16_t kind(struct given g, uint16_t at) {
    return (void)at, XENPAK_WHICH(xenpak_tick(&g.module)) - XENPAK_NOTHING;
}

static uint16_t powered(struct given g, uint16_t at) {
    return (void)at, XENPAK_REFUSAL(xenpak_tick(&g.module)) != XENPAK_POWERED_OFF;
}

static uint16_t port(struct given g, uint16_t at) {
    while (at < 32 && XENPAK_WHICH(frame(&g.module, 0, at, 0)) != XENPAK_SET) at++;
    return at;
}

/* The copy has its own offsets as bytes. */
static uint16_t address(struct given g, uint16_t at) { return at + XENPAK_VALUE(frame(&g.module, 3, 0, 0)); }

static uint16_t held(struct given g, uint16_t at) { return value(g, at) == 0x55; }

static uint16_t byte(struct given g, uint16_t at) {
    g.module.monitor.held = true;
    return value(g, at);
}

static uint16_t quantity(struct given g, uint16_t at) {
    static const uint16_t low[] = {0xa061, 0xa065, 0xa067, 0xa069};
    while (at < 4 && byte(g, low[at]) != 0x55) at++;
    return at;
}

static uint16_t by_lines(struct given g, uint16_t at) {
    g.module = xenpak_lines(g.module, g.lines).next;
    return value(g, at);
}

static uint16_t link_was(struct given g, uint16_t at) { return !by_lines(g, at); }

static uint16_t by_sample(struct given g, uint16_t at) {
    g.module = xenpak_sample(g.module, g.sample).next;
    return code(g, at);
}

/* ---- every field, in order, with two values to put there; each byte of an array is put by itself */

struct row {
    const char *name;
    size_t at_given, at, size;
    uint16_t (*seen)(struct given g, uint16_t at);
    uint16_t where, values[2];
};

#define ROW(part, field, seen, where, a, b)                                                                            \
    {"xenpak_" #part "." #field,                                                                                       \
     offsetof(struct given, part.field),                                                                               \
     offsetof(struct xenpak_##part, field),                                                                            \
     sizeof((struct given *)0)->part.field,                                                                            \
     seen,                                                                                                             \
     where,                                                                                                            \
     {a, b}}

#define LATCH(name, where)                                                                                             \
    ROW(module, alarms.name.live, live, where, 0x0321, 0xfcde),                                                        \
        ROW(module, alarms.name.since, since, where, 0x0321, 0xfcde)

static const struct row rows[] = {
    ROW(module, copy, value, 0x8007, 0x5a, 0xa5),
    ROW(module, job.due, due, 1, 17, 200),
    ROW(module, job.last, last, 1, 17, 200),
    ROW(module, job.ended, status, 0x8000, 1, 3),
    ROW(module, job.kind, kind, 0, 1, 2),
    ROW(module, store, stored, 0, 0x5a, 0xa5),
    ROW(module, differing.copy, unsaved, 0, 17, 200),
    ROW(module, differing.zero, zero, 0, 17, 200),
    ROW(module, powered, powered, 0, 0, 1),
    ROW(module, port, port, 0, 21, 10),
    ROW(module, thresholds, value, 0xa000, 0x5a, 0xa5),
    ROW(module, command, value, 0x8000, 0xab23, 0x5420),
    ROW(module, bus.address, address, 0x8007, 0x80e5, 0x8106),
    ROW(module, bus.counter, counter, 0, 0x1234, 0xfedc),
    ROW(module, alarms.controls.rxalarm, value, 0x9000, 0x1234, 0xfedc),
    ROW(module, alarms.controls.txalarm, value, 0x9001, 0x1234, 0xfedc),
    ROW(module, alarms.controls.lasi, value, 0x9002, 0x1234, 0xfedc),
    ROW(module, alarms.controls.txflag, value, 0x9006, 0x1234, 0xfedc),
    ROW(module, alarms.controls.rxflag, value, 0x9007, 0x1234, 0xfedc),
    LATCH(rxfaults, 0x9003),
    LATCH(txfaults, 0x9004),
    LATCH(txalarm, 0xa070),
    LATCH(rxalarm, 0xa071),
    LATCH(txwarning, 0xa074),
    LATCH(rxwarning, 0xa075),
    ROW(module, alarms.link, link_was, 0x9005, 0, 1),
    ROW(module, alarms.changed, value, 0x9005, 0, 1),
    ROW(module, monitor.sample.temperature, code, 0xa060, 0x1234, 0xfedc),
    ROW(module, monitor.sample.bias, code, 0xa064, 0x1234, 0xfedc),
    ROW(module, monitor.sample.transmit, code, 0xa066, 0x1234, 0xfedc),
    ROW(module, monitor.sample.receive, code, 0xa068, 0x1234, 0xfedc),
    ROW(module, monitor.held, held, 0xa065, 0, 1),
    ROW(module, monitor.quantity, quantity, 0, 2, 3),
    ROW(module, monitor.byte, byte, 0xa065, 0x5a, 0xa5),
    ROW(lines, receive, by_lines, 0x9003, 0x0011, 0x0028),
    ROW(lines, transmit, by_lines, 0x9004, 0x0151, 0x0288),
    ROW(lines, signal, by_lines, 0x9005, 0, 1),
    ROW(lines, block, by_lines, 0x9005, 0, 1),
    ROW(lines, lanes, by_lines, 0x9005, 0, 1),
    ROW(sample, temperature, by_sample, 0xa060, 0x1234, 0xfedc),
    ROW(sample, bias, by_sample, 0xa064, 0x1234, 0xfedc),
    ROW(sample, transmit, by_sample, 0xa066, 0x1234, 0xfedc),
    ROW(sample, receive, by_sample, 0xa068, 0x1234, 0xfedc),
};

enum { ROWS = sizeof rows / sizeof *rows };

static int wrong;

static void expect(bool holds, const char *name) {
    if (holds) return;
    printf("xenpak.h: the library has no %s there\n", name);
    wrong = 1;
}

static void check(const struct row *r) {
    size_t width = r->size > 2 ? 1 : r->size;
    for (size_t i = 0; i < r->size / width; i++)
        for (int k = 0; k < 2; k++) {
            struct given g = base();
            memcpy((uint8_t *)&g + r->at_given + i * width, &r->values[k], width);
            expect(r->seen(g, r->where + i) == r->values[k], r->name);
        }
}

/* Whether row i is the first of its struct, or behind every row. */
static bool starts(int i) {
    return i == 0 || i == ROWS || strncmp(rows[i - 1].name, rows[i].name, strcspn(rows[i].name, ".") + 1);
}

/* A struct's fields follow each other without a hole, and its last one shows a value of its whole width. */
static void follows(int i) {
    const struct row *r = &rows[i];
    expect(r->at == (starts(i) ? 0 : rows[i - 1].at + rows[i - 1].size), r->name);
    expect(!starts(i + 1) || r->values[1] >> 8 * (r->size - 1), r->name);
}

/* What is answered beside a record stands behind the whole record; a refusal's number is one byte. */
static void answers(void) {
    struct xenpak_module on = base().module, off = on;
    off.powered = false;
    struct xenpak_called called = xenpak_cut(off);
    expect(called.refusal == XENPAK_POWERED_OFF && sizeof called.refusal == 1, "xenpak_called.refusal");
    expect(!memcmp(&called.next, &off, offsetof(struct xenpak_module, monitor.byte) + 1), "xenpak_called.next");
    struct xenpak_settled settled = xenpak_settle(off, 1000);
    expect(settled.ticks == 0 && settled.refusal == XENPAK_POWERED_OFF && sizeof settled.refusal == 1,
           "xenpak_settled.refusal");
    on.job = (struct xenpak_job){.due = 0, .last = 255, .ended = 0, .kind = 1};
    settled = xenpak_settle(on, 1000);
    expect(settled.ticks == 256 && settled.refusal == 0, "xenpak_settled.ticks");
    on.job = (struct xenpak_job){.due = 255, .last = 255, .ended = 1, .kind = 0};
    expect(!memcmp(&settled.next.job, &on.job, sizeof on.job), "xenpak_settled.next");
}

int main(void) {
    for (int i = 0; i < ROWS; i++) {
        check(&rows[i]);
        follows(i);
    }
    answers();
    if (wrong) return 1;
    printf("xenpak.h: %d fields and 5 places of an answer are where the library has them; a record has %zu bytes\n",
           ROWS, sizeof(struct xenpak_module));
    return 0;
}
