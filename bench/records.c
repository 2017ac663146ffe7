/* Writes bench recordings (document 02, P1) to standard output.
   records NAME                   one of those in examples/, or edge, which the gate plays
   records ending KIND N UP AT    from byte AT on a kind and N bytes, then nothing; the alarm line is up (1) or not (0)
   records random N [SEED]        N records of random kinds with random bodies
   records lively N [SEED]        the same, but most frames are for the module, at addresses where something happens */
#include <stdint.h>
#include <stdio.h>
#include <stdlib.h>
#include <string.h>

enum { POWER_ON = 1, CLEAN_CUT, TORN_CUT, RESET, FRAME, TICK, SAMPLE, LINES };

static unsigned written;

static void byte(unsigned b) {
    putchar(b & 0xff);
    written++;
}

/* Numbers come high byte first. */
static void word(unsigned w) {
    byte(w >> 8);
    byte(w);
}

static void frame(uint32_t w) {
    byte(FRAME);
    word(w >> 16);
    word(w);
}

/* Frames to port 0, device 1. */
static void address(unsigned a) { frame(0x00060000 | a); }

static void write_at(unsigned a, unsigned v) {
    address(a);
    frame(0x10060000 | v);
}

static void read_here(void) { frame(0x30040000); }

static void read_at(unsigned a) {
    address(a);
    read_here();
}

static void read_increment(void) { frame(0x20040000); }

static void ticks(int n) {
    while (n-- > 0) byte(TICK);
}

static void sample(unsigned temperature, unsigned bias, unsigned transmit, unsigned receive) {
    byte(SAMPLE);
    word(temperature);
    word(bias);
    word(transmit);
    word(receive);
}

static void lines(unsigned receive, unsigned transmit, unsigned levels) {
    byte(LINES);
    word(receive);
    word(transmit);
    byte(levels);
}

static void torn_cut(unsigned b) {
    byte(TORN_CUT);
    byte(b);
}

/* ---- the examples */

static void power_on_and_load(void) {
    byte(POWER_ON);
    ticks(256);
    read_at(0x8000);
}

/* Power-on and load; the tag goes into the customer area and is burned, then read back; the power goes. */
static void asset_tag(void) {
    static const char tag[] = "ASSET 4711";
    power_on_and_load();
    for (unsigned i = 0; tag[i]; i++) write_at(0x807e + i, (unsigned char)tag[i]);
    write_at(0x8000, 0x0023);
    ticks(48);
    read_at(0x8000);
    address(0x807e);
    for (unsigned i = 0; tag[i]; i++) read_increment();
    byte(CLEAN_CUT);
}

/* The power goes at the third byte of the burn, which is torn (document 02: struck); what is sent to the module that is off is
   refused; powered on again, it loads what was stored. */
static void power_lost(void) {
    power_on_and_load();
    write_at(0x807e, 0xaa);
    write_at(0x807f, 0xbb);
    write_at(0x8000, 0x0023);
    ticks(2);
    torn_cut(0x55);
    ticks(1);
    read_here();
    power_on_and_load();
    address(0x807e);
    for (int i = 0; i < 3; i++) read_increment();
}

/* A receive fault raises the alarm line. */
static void alarm_up(void) {
    write_at(0x9000, 0x003b);
    write_at(0x9002, 0x0004);
    lines(0x0008, 0x0000, 7);
}

/* A read while the fault lasts leaves the line, one after it is gone clears it. Then the temperature, by its flag, and the
   link. */
static void alarm(void) {
    power_on_and_load();
    alarm_up();
    read_at(0x9003);
    lines(0x0008, 0x0000, 7);
    lines(0x0000, 0x0000, 7);
    read_here();
    write_at(0x9006, 0x0080);
    write_at(0x9001, 0x0002);
    write_at(0x9002, 0x0002);
    sample(0x1900, 0, 0, 0);
    sample(0x0000, 0, 0, 0);
    read_at(0xa070);
    write_at(0x9002, 0x0001);
    read_at(0x9005);
    lines(0x0000, 0x0000, 6);
    read_here();
}

/* 7 for each call to a module that is off, before 6; 8 for power-on when powered; 6 for a temperature out of range. */
static void refusals(void) {
    byte(CLEAN_CUT);
    torn_cut(0x55);
    byte(RESET);
    frame(0x30040000);
    byte(TICK);
    sample(0x7d01, 0, 0, 0);
    lines(0x0008, 0x0000, 7);
    byte(POWER_ON);
    byte(POWER_ON);
    sample(0x7d01, 0, 0, 0);
    sample(0xd7ff, 0, 0, 0);
    sample(0x7d00, 0, 0, 0);
    sample(0xd800, 0, 0, 0);
}

/* The third record has a kind that is none of 01 to 08: 9, and what follows is not played. */
static void unknown_kind(void) {
    byte(POWER_ON);
    byte(TICK);
    byte(0xff);
    byte(TICK);
}

/* The last record is a frame of which two bytes are missing: 10. */
static void cut_short(void) {
    byte(POWER_ON);
    byte(TICK);
    byte(FRAME);
    word(0x3004);
}

/* Document 02's example; then the alarm line goes up and down, while a frame, a sample and a lines call cross the edges of the
   blocks of 8,192 bytes; the last body is cut short. The gate plays this. */
static void edge(void) {
    byte(POWER_ON);
    byte(TICK);
    byte(CLEAN_CUT);
    byte(TICK);
    power_on_and_load();
    alarm_up();
    address(0x9003);
    for (unsigned i = 0; written < 3 * 8192; i++) {
        sample(i % 3 ? 0x1900 : 0x7d01, i, 0, 0);
        lines(i % 4 < 2 ? 0x0008 : 0x0000, 0x0000, 7);
        read_here();
        ticks(i % 2);
    }
    lines(0x0008, 0x0000, 7);
    byte(FRAME);
    word(0x3004);
}

static void ending(unsigned kind, unsigned n, int up, unsigned at) {
    power_on_and_load();
    if (up) alarm_up();
    while (written < at) byte(TICK);
    byte(kind);
    while (n-- > 0) byte(0xff);
}

/* ---- random ones */

static uint32_t state;

static uint32_t draw(void) {
    state ^= state << 13;
    state ^= state >> 17;
    state ^= state << 5;
    return state;
}

static unsigned lively_address(void) {
    static const uint16_t addresses[] = {0x0000, 0x8000, 0x8000, 0x807e, 0x80ad, 0x8106, 0x9000, 0x9001, 0x9002, 0x9003, 0x9004,
                                         0x9005, 0x9006, 0x9007, 0xa010, 0xa060, 0xa064, 0xa070, 0xa071, 0xa074, 0xa075, 0xffff};
    return addresses[draw() % (sizeof addresses / sizeof *addresses)];
}

static void lively_frame(void) {
    switch (draw() % 8) {
    case 0: frame(draw()); break;
    case 1: case 2: case 3: address(lively_address()); break;
    case 4: case 5: frame(0x10060000 | (draw() & 0xffff)); break;
    case 6: read_increment(); break;
    default: read_here();
    }
}

static void random_records(long n, int is_lively) {
    static const int lengths[] = {0, 0, 0, 1, 0, 4, 0, 8, 5};
    for (; n > 0; n--) {
        int kind = draw() % 8 + 1;
        /* a lively module is seldom off */
        if (is_lively && (kind == CLEAN_CUT || kind == TORN_CUT || kind == RESET) && draw() % 64) kind = TICK;
        if (is_lively && kind == FRAME) {
            lively_frame();
            continue;
        }
        byte(kind);
        for (int i = 0; i < lengths[kind]; i++) byte(draw());
    }
}

int main(int argc, char **argv) {
    static const struct {
        const char *name;
        void (*write)(void);
    } examples[] = {{"asset_tag", asset_tag}, {"power_lost", power_lost},     {"alarm", alarm},
                    {"refusals", refusals},   {"unknown_kind", unknown_kind}, {"cut_short", cut_short},
                    {"edge", edge}};
    const char *name = argc > 1 ? argv[1] : "";
    int is_lively = !strcmp(name, "lively");
    if (argc > 2 && (is_lively || !strcmp(name, "random"))) {
        state = argc > 3 ? strtoul(argv[3], NULL, 10) : 1;
        random_records(atol(argv[2]), is_lively);
        return 0;
    }
    if (argc == 6 && !strcmp(name, "ending")) {
        ending(atoi(argv[2]), atoi(argv[3]), atoi(argv[4]), atoi(argv[5]));
        return 0;
    }
    for (size_t i = 0; i < sizeof examples / sizeof *examples; i++)
        if (!strcmp(name, examples[i].name)) {
            examples[i].write();
            return 0;
        }
    fprintf(stderr, "records: %s is no recording; they are listed in records.c\n", name);
    return 2;
}
