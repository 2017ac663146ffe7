/* The XENPAK management core for C: the module's record, and its calls. Link libfirmware.a (tools/staticlib).
   Every call takes every value; a record is made by xenpak_make, and each bool in it or in an argument is 0 or 1. */
#ifndef XENPAK_H
#define XENPAK_H

#include <stdbool.h>
#include <stddef.h>
#include <stdint.h>

#ifdef __cplusplus
extern "C" {
#endif

/* The job: the offset due and the last one; the status that the latest job left (0 idle, 1 done, 3 failed);
   0 no job, 1 load, 2 burn, 3 the first load after power-on or reset. */
struct xenpak_job {
    uint8_t due;
    uint8_t last;
    uint8_t ended;
    uint8_t kind;
};

/* How many customer bytes of the store differ: from the copy, which are unsaved; from zero, which are unsaved once a
   start has zeroed the copy. */
struct xenpak_differing {
    uint8_t copy;
    uint8_t zero;
};

/* The address register, and the data answers since power-on or reset. */
struct xenpak_bus {
    uint16_t address;
    uint16_t counter;
};

/* 9000, 9001, 9002, 9006, 9007. */
struct xenpak_controls {
    uint16_t rxalarm;
    uint16_t txalarm;
    uint16_t lasi;
    uint16_t txflag;
    uint16_t rxflag;
};

/* The latest word, and every bit that one had since a read. */
struct xenpak_latch {
    uint16_t live;
    uint16_t since;
};

/* Receive and transmit faults; A070, A071, A074, A075; the link is up; the link alarm, bit 0 of 9005. */
struct xenpak_alarms {
    struct xenpak_controls controls;
    struct xenpak_latch rxfaults;
    struct xenpak_latch txfaults;
    struct xenpak_latch txalarm;
    struct xenpak_latch rxalarm;
    struct xenpak_latch txwarning;
    struct xenpak_latch rxwarning;
    bool link;
    bool changed;
};

/* Temperature in 1/256 degree, bias, transmit power, receive power. */
struct xenpak_sample {
    int16_t temperature;
    uint16_t bias;
    uint16_t transmit;
    uint16_t receive;
};

/* The last sample; whether a low byte is held, of which quantity (0 to 3), and the byte. */
struct xenpak_monitor {
    struct xenpak_sample sample;
    bool held;
    uint8_t quantity;
    uint8_t byte;
};

/* A module. `command` is the word at 8000 without its status. */
struct xenpak_module {
    uint8_t copy[256];
    struct xenpak_job job;
    uint8_t store[256];
    struct xenpak_differing differing;
    bool powered;
    uint8_t port;
    uint8_t thresholds[40];
    uint16_t command;
    struct xenpak_bus bus;
    struct xenpak_alarms alarms;
    struct xenpak_monitor monitor;
};

/* Receive and transmit faults, and the link levels: signal detect, block lock, lane alignment. */
struct xenpak_lines {
    uint16_t receive;
    uint16_t transmit;
    bool signal;
    bool block;
    bool lanes;
};

/* The record after a call, and the refusal's number: 0 where the call was accepted. */
struct xenpak_called {
    struct xenpak_module next;
    uint8_t refusal;
};

/* The record after settling, the ticks made, and the refusal's number or 0. */
struct xenpak_settled {
    struct xenpak_module next;
    uint32_t ticks;
    uint8_t refusal;
};

/* The refusals' numbers. A refused call leaves the record as it was; a refused making gives the blank module. */
enum xenpak_refusal {
    XENPAK_ACCEPTED = 0,
    XENPAK_PORT = 1,
    XENPAK_IMAGE_LENGTH = 2,
    XENPAK_THRESHOLDS_LENGTH = 3,
    XENPAK_CHECKSUM = 4,
    XENPAK_THRESHOLD_ORDER = 5,
    XENPAK_TEMPERATURE = 6,
    XENPAK_POWERED_OFF = 7,
    XENPAK_POWERED_ON = 8
};

/* The answer of a call on a lent record: bits 31:24 the refusal's number or 0, 23:16 which answer it is, 0 where it is
   refused, 15:0 its value; for loaded and burned bits 15:8 the offset and 7:0 the byte. */
#define XENPAK_REFUSAL(answer) ((answer) >> 24)
#define XENPAK_WHICH(answer) ((answer) >> 16 & 0xff)
#define XENPAK_VALUE(answer) ((answer) & 0xffff)
#define XENPAK_OFFSET(answer) ((answer) >> 8 & 0xff)
#define XENPAK_BYTE(answer) ((answer) & 0xff)

enum xenpak_tick_answer { XENPAK_NOTHING = 1, XENPAK_LOADED, XENPAK_BURNED };

enum xenpak_frame_answer { XENPAK_SILENT = 1, XENPAK_SET, XENPAK_WRITTEN, XENPAK_DROPPED, XENPAK_DATA };

enum xenpak_unsaved_answer { XENPAK_UNSAVED = 1 };

/* ---- on a lent record, updated there */

/* One byte of the job: nothing, loaded or burned with offset and byte.
   Refused with 7 when off. */
uint32_t xenpak_tick(struct xenpak_module *m);

/* A Clause 45 frame: silent, set, written, dropped, or data with its value.
   Refused with 7 when off. */
uint32_t xenpak_frame(struct xenpak_module *m, uint32_t word);

/* ---- on a lent record, left as it is */

/* How many of the 48 customer bytes differ between copy and store: unsaved, with the count. The record keeps it; no
   byte is compared.
   Refused with 7 when off. */
uint32_t xenpak_unsaved(const struct xenpak_module *m);

/* ---- by value: m = xenpak_power_on(m).next */

/* A fresh module, powered off, of a port, an image and thresholds, as bytes and how many.
   Refused with 1 to 5, the lowest that applies: port above 31, image not 256, thresholds not 40, checksum, order. */
struct xenpak_called xenpak_make(uint8_t port, const uint8_t *image, size_t image_size, const uint8_t *thresholds,
                                 size_t thresholds_size);

/* Power-on: the first load starts, the lines are zero.
   Refused with 8 when powered. */
struct xenpak_called xenpak_power_on(struct xenpak_module m);

/* A clean cut: the power goes, everything else stays until power-on.
   Refused with 7 when off. */
struct xenpak_called xenpak_cut(struct xenpak_module m);

/* A torn cut (document 01: struck): where a burn is due, the byte goes to the offset due.
   Refused with 7 when off. */
struct xenpak_called xenpak_cut_torn(struct xenpak_module m, uint8_t byte);

/* The reset pin: the first load starts, the lines stay.
   Refused with 7 when off. */
struct xenpak_called xenpak_reset_pin(struct xenpak_module m);

/* The lines report faults, under masks 0039 and 03D9, and link levels.
   Refused with 7 when off. */
struct xenpak_called xenpak_lines(struct xenpak_module m, struct xenpak_lines given);

/* The monitor reports a sample.
   Refused with 7 when off, then with 6 where the temperature is below D800 or above 7D00. */
struct xenpak_called xenpak_sample(struct xenpak_module m, struct xenpak_sample given);

/* Ticks until no job is due or the budget is spent.
   Refused with 7 when off. */
struct xenpak_settled xenpak_settle(struct xenpak_module m, uint32_t budget);

/* The alarm line, LASI: asserted or not.
   Never refused; not asserted when off. */
bool xenpak_line(struct xenpak_module m);

/* Data answers since power-on or reset; it stops at 65,535.
   Never refused. */
uint16_t xenpak_counter(struct xenpak_module m);

/* The byte of the store at an offset.
   Never refused. */
uint8_t xenpak_stored(struct xenpak_module m, uint8_t offset);

/* A temperature code in tenths of a degree: code x 10 / 256 to the nearest tenth, a half to the even one.
   Needs no record. */
int16_t xenpak_tenths(int16_t code);

#ifdef __cplusplus
}
#endif

#endif
