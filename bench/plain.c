/* The module in plain C, changed in place: written from the papers, to compare the library with. */
#include "plain.h"
#include <string.h>

enum { NONE, LOAD, BURN, FIRST };

static uint32_t refused(uint32_t number) { return number << 24; }

static uint32_t answer(uint32_t which, uint32_t value) { return which << 16 | value; }

/* ---- bytes */

static bool customer(uint8_t at) { return at >= 119 && at <= 166; }

/* Puts a byte into the copy, and counts what a customer byte was and is. */
static void put_copy(struct xenpak_module *m, uint8_t at, uint8_t byte) {
    uint8_t store = m->store[at], copy = m->copy[at];
    m->copy[at] = byte;
    if (customer(at)) m->differing.copy += (store != byte) - (store != copy);
}

/* The same for the store. */
static void put_store(struct xenpak_module *m, uint8_t at, uint8_t byte) {
    uint8_t store = m->store[at], copy = m->copy[at];
    m->store[at] = byte;
    if (!customer(at)) return;
    m->differing.copy += (byte != copy) - (store != copy);
    m->differing.zero += (byte != 0) - (store != 0);
}

/* The full count. */
uint32_t plain_unsaved(const struct xenpak_module *m) {
    uint32_t bytes = 0;
    if (!m->powered) return refused(XENPAK_POWERED_OFF);
    for (int at = 119; at <= 166; at++) bytes += m->store[at] != m->copy[at];
    return answer(XENPAK_UNSAVED, bytes);
}

/* ---- starts */

/* What power-on and reset share. The lines' part of the alarms is left to them. */
static void start(struct xenpak_module *m) {
    struct xenpak_alarms *a = &m->alarms;
    memset(m->copy, 0, sizeof m->copy);
    m->differing.copy = m->differing.zero;
    m->job = (struct xenpak_job){.due = 0, .last = 255, .ended = 0, .kind = FIRST};
    m->command = 0x0003;
    memset(&m->bus, 0, sizeof m->bus);
    memset(&m->monitor, 0, sizeof m->monitor);
    memset(&a->controls, 0, sizeof a->controls);
    a->rxfaults.since = a->txfaults.since = 0;
    memset(&a->txalarm, 0, sizeof a->txalarm);
    memset(&a->rxalarm, 0, sizeof a->rxalarm);
    memset(&a->txwarning, 0, sizeof a->txwarning);
    memset(&a->rxwarning, 0, sizeof a->rxwarning);
    a->changed = false;
}

uint32_t plain_power_on(struct xenpak_module *m) {
    if (m->powered) return refused(XENPAK_POWERED_ON);
    start(m);
    m->alarms.rxfaults.live = m->alarms.txfaults.live = 0;
    m->alarms.link = false;
    m->powered = true;
    return 0;
}

uint32_t plain_reset_pin(struct xenpak_module *m) {
    if (!m->powered) return refused(XENPAK_POWERED_OFF);
    start(m);
    return 0;
}

uint32_t plain_cut(struct xenpak_module *m) {
    if (!m->powered) return refused(XENPAK_POWERED_OFF);
    m->powered = false;
    return 0;
}

uint32_t plain_cut_torn(struct xenpak_module *m, uint8_t byte) {
    if (!m->powered) return refused(XENPAK_POWERED_OFF);
    if (m->job.kind == BURN) put_store(m, m->job.due, byte);
    m->powered = false;
    return 0;
}

/* ---- ticks */

uint32_t plain_tick(struct xenpak_module *m) {
    struct xenpak_job *j = &m->job;
    uint8_t at = j->due, kind = j->kind, byte;
    if (!m->powered) return refused(XENPAK_POWERED_OFF);
    if (kind == NONE) return answer(XENPAK_NOTHING, 0);
    if (at < j->last) {
        j->due = at + 1;
    } else {
        j->kind = NONE;
        j->ended = 1;
    }
    if (kind == BURN) {
        put_store(m, at, byte = m->copy[at]);
        return answer(XENPAK_BURNED, at << 8 | byte);
    }
    put_copy(m, at, byte = m->store[at]);
    return answer(XENPAK_LOADED, at << 8 | byte);
}

uint32_t plain_settle(struct xenpak_module *m, uint32_t budget) {
    uint32_t ticks = 0;
    if (!m->powered) return refused(XENPAK_POWERED_OFF);
    for (; ticks < budget && m->job.kind != NONE; ticks++) plain_tick(m);
    return ticks;
}

/* ---- what the registers read */

static uint16_t standing(struct xenpak_latch l) { return l.live | l.since; }

static uint16_t receive_alarms(const struct xenpak_alarms *a) {
    return standing(a->rxfaults) | (standing(a->rxalarm) & a->controls.rxflag ? 2 : 0);
}

static uint16_t transmit_alarms(const struct xenpak_alarms *a) {
    return standing(a->txfaults) | (standing(a->txalarm) & a->controls.txflag ? 2 : 0);
}

static uint16_t lasi_status(const struct xenpak_alarms *a) {
    return (receive_alarms(a) & a->controls.rxalarm ? 4 : 0) | (transmit_alarms(a) & a->controls.txalarm ? 2 : 0) |
           (a->changed ? 1 : 0);
}

bool plain_line(const struct xenpak_module *m) {
    return m->powered && lasi_status(&m->alarms) & m->alarms.controls.lasi;
}

uint16_t plain_counter(const struct xenpak_module *m) { return m->bus.counter; }

uint8_t plain_stored(const struct xenpak_module *m, uint8_t offset) { return m->store[offset]; }

static uint16_t sample_code(const struct xenpak_sample *s, unsigned quantity) {
    switch (quantity) {
    case 0: return (uint16_t)s->temperature;
    case 1: return s->bias;
    case 2: return s->transmit;
    default: return s->receive;
    }
}

/* The high byte of a quantity is read, and its low byte held. */
static uint16_t read_high(struct xenpak_monitor *d, unsigned quantity) {
    uint16_t code = sample_code(&d->sample, quantity);
    d->held = true;
    d->quantity = quantity;
    d->byte = code & 0xff;
    return code >> 8;
}

/* The low byte of a quantity is read: the one held for it, which is forgotten, or the current one. */
static uint16_t read_low(struct xenpak_monitor *d, unsigned quantity) {
    if (d->held && d->quantity == quantity) {
        d->held = false;
        return d->byte;
    }
    return sample_code(&d->sample, quantity) & 0xff;
}

static uint16_t read_flags(struct xenpak_latch *l) {
    uint16_t word = standing(*l);
    l->since = 0;
    return word;
}

/* The value at an address, and what the read clears. */
static uint16_t read_at(struct xenpak_module *m, uint16_t address) {
    struct xenpak_alarms *a = &m->alarms;
    uint16_t word;
    if (address >= 0x8007 && address <= 0x8106) return m->copy[address - 0x8007];
    if (address >= 0xa000 && address <= 0xa027) return m->thresholds[address - 0xa000];
    switch (address) {
    case 0x0000: return m->job.kind == FIRST ? 0xa040 : 0x2040;
    case 0x8000:
        word = m->command | (m->job.kind != NONE ? 2 : m->job.ended) << 2;
        m->job.ended = 0;
        return word;
    case 0x9000: return a->controls.rxalarm;
    case 0x9001: return a->controls.txalarm;
    case 0x9002: return a->controls.lasi;
    case 0x9003:
        word = receive_alarms(a);
        a->rxfaults.since = 0;
        return word;
    case 0x9004:
        word = transmit_alarms(a);
        a->txfaults.since = 0;
        return word;
    case 0x9005:
        word = lasi_status(a);
        a->changed = false;
        return word;
    case 0x9006: return a->controls.txflag;
    case 0x9007: return a->controls.rxflag;
    case 0xa060: return read_high(&m->monitor, 0);
    case 0xa061: return read_low(&m->monitor, 0);
    case 0xa064: return read_high(&m->monitor, 1);
    case 0xa065: return read_low(&m->monitor, 1);
    case 0xa066: return read_high(&m->monitor, 2);
    case 0xa067: return read_low(&m->monitor, 2);
    case 0xa068: return read_high(&m->monitor, 3);
    case 0xa069: return read_low(&m->monitor, 3);
    case 0xa070: return read_flags(&a->txalarm);
    case 0xa071: return read_flags(&a->rxalarm);
    case 0xa074: return read_flags(&a->txwarning);
    case 0xa075: return read_flags(&a->rxwarning);
    default: return 0;
    }
}

/* ---- writes */

static void command(struct xenpak_module *m, uint16_t data) {
    uint8_t offset = data >> 8;
    bool write = data >> 5 & 1;
    m->command = data & 0xff23;
    m->job = (struct xenpak_job){.due = 0, .last = 0, .ended = 3, .kind = NONE};
    if ((data & 3) == 3) {
        m->job = write ? (struct xenpak_job){.due = 119, .last = 166, .ended = 0, .kind = BURN}
                       : (struct xenpak_job){.due = 0, .last = 255, .ended = 0, .kind = LOAD};
    } else if ((data & 3) == 2 && (!write || (offset >= 119 && offset <= 166))) {
        m->job = (struct xenpak_job){.due = offset, .last = offset, .ended = 0, .kind = write ? BURN : LOAD};
    }
}

static uint32_t write_at(struct xenpak_module *m, uint16_t address, uint16_t data) {
    struct xenpak_controls *k = &m->alarms.controls;
    bool busy = m->job.kind != NONE;
    if (address >= 0x807e && address <= 0x80ad) {
        if (busy) return answer(XENPAK_DROPPED, 0);
        put_copy(m, address - 0x8007, data & 0xff);
        return answer(XENPAK_WRITTEN, 0);
    }
    switch (address) {
    case 0x0000:
        if (!(data & 0x8000)) return answer(XENPAK_DROPPED, 0);
        start(m);
        break;
    case 0x8000:
        if (busy) return answer(XENPAK_DROPPED, 0);
        command(m, data);
        break;
    case 0x9000: k->rxalarm = data & 0x003b; break;
    case 0x9001: k->txalarm = data & 0x03db; break;
    case 0x9002: k->lasi = data & 0x0007; break;
    case 0x9006: k->txflag = data & 0x00cf; break;
    case 0x9007: k->rxflag = data & 0x00c0; break;
    default: return answer(XENPAK_DROPPED, 0);
    }
    return answer(XENPAK_WRITTEN, 0);
}

/* ---- frames */

uint32_t plain_frame(struct xenpak_module *m, uint32_t word) {
    struct xenpak_bus *bus = &m->bus;
    unsigned operation = word >> 28 & 3;
    uint16_t address = bus->address, data = word & 0xffff, value;
    if (!m->powered) return refused(XENPAK_POWERED_OFF);
    if (word >> 30 != 0 || (word >> 23 & 31) != m->port || (word >> 18 & 31) != 1) return answer(XENPAK_SILENT, 0);
    if (operation < 2 && (word >> 16 & 3) != 2) return answer(XENPAK_SILENT, 0);
    if (operation == 0) {
        bus->address = data;
        return answer(XENPAK_SET, 0);
    }
    if (operation == 1) return write_at(m, address, data);
    value = read_at(m, address);
    if (bus->counter < 65535) bus->counter++;
    if (operation == 2 && address < 0xffff) bus->address = address + 1;
    return answer(XENPAK_DATA, value);
}

/* ---- lines, samples */

static void feed(struct xenpak_latch *l, uint16_t word) {
    l->live = word;
    l->since |= word;
}

uint32_t plain_lines(struct xenpak_module *m, struct xenpak_lines given) {
    struct xenpak_alarms *a = &m->alarms;
    bool up = given.signal && given.block && given.lanes;
    if (!m->powered) return refused(XENPAK_POWERED_OFF);
    feed(&a->rxfaults, given.receive & 0x0039);
    feed(&a->txfaults, given.transmit & 0x03d9);
    if (a->link != up) a->changed = true;
    a->link = up;
    return 0;
}

int16_t plain_tenths(int16_t code) {
    int32_t down = code * 10 >> 8, rest = code * 10 & 255;
    return down + (rest > 128 || (rest == 128 && down & 1));
}

static int32_t unsigned_code(const uint8_t *bytes) { return bytes[0] << 8 | bytes[1]; }

static int32_t signed_code(const uint8_t *bytes) { return (int16_t)(bytes[0] << 8 | bytes[1]); }

/* Bit 1 where a reading is above the high threshold, bit 0 where it is below the low one. */
static uint16_t crossed(int32_t reading, int32_t high, int32_t low) { return (reading > high) << 1 | (reading < low); }

uint32_t plain_sample(struct xenpak_module *m, struct xenpak_sample given) {
    struct xenpak_alarms *a = &m->alarms;
    uint16_t tx[2], rx[2];
    if (!m->powered) return refused(XENPAK_POWERED_OFF);
    if (given.temperature < -0x2800 || given.temperature > 0x7d00) return refused(XENPAK_TEMPERATURE);
    for (int level = 0; level < 2; level++) {
        const uint8_t *t = m->thresholds + 4 * level;
        tx[level] = crossed(given.temperature, signed_code(t), signed_code(t + 2)) << 6 |
                    crossed(given.bias, unsigned_code(t + 16), unsigned_code(t + 18)) << 2 |
                    crossed(given.transmit, unsigned_code(t + 24), unsigned_code(t + 26));
        rx[level] = crossed(given.receive, unsigned_code(t + 32), unsigned_code(t + 34)) << 6;
    }
    feed(&a->txalarm, tx[0]);
    feed(&a->rxalarm, rx[0]);
    feed(&a->txwarning, tx[1]);
    feed(&a->rxwarning, rx[1]);
    m->monitor.sample = given;
    return 0;
}

/* ---- making */

static bool in_order(const uint8_t *t, int32_t (*code)(const uint8_t *)) {
    int32_t high_alarm = code(t), low_alarm = code(t + 2), high_warning = code(t + 4), low_warning = code(t + 6);
    return low_alarm <= low_warning && low_warning <= high_warning && high_warning <= high_alarm;
}

static uint32_t refusal(uint8_t port, const uint8_t *image, size_t image_size, const uint8_t *t,
                        size_t thresholds_size) {
    uint8_t sum = 0;
    if (port > 31) return XENPAK_PORT;
    if (image_size != 256) return XENPAK_IMAGE_LENGTH;
    if (thresholds_size != 40) return XENPAK_THRESHOLDS_LENGTH;
    for (int i = 0; i < 118; i++) sum += image[i];
    if (sum != image[118]) return XENPAK_CHECKSUM;
    if (!in_order(t, signed_code)) return XENPAK_THRESHOLD_ORDER;
    for (int at = 16; at < 40; at += 8)
        if (!in_order(t + at, unsigned_code)) return XENPAK_THRESHOLD_ORDER;
    return 0;
}

uint32_t plain_make(struct xenpak_module *m, uint8_t port, const uint8_t *image, size_t image_size,
                    const uint8_t *thresholds, size_t thresholds_size) {
    uint32_t number = refusal(port, image, image_size, thresholds, thresholds_size);
    memset(m, 0, sizeof *m);
    if (number) return refused(number);
    m->port = port;
    for (int at = 0; at < 256; at++) put_store(m, at, image[at]);
    memcpy(m->thresholds, thresholds, 40);
    return 0;
}
