/* The player in plain C, on the module in plain C: written from document 02, P1, to compare the program with. */
#include "plain.h"
#include <stdio.h>
#include <stdlib.h>
#include <unistd.h>

static uint8_t input[65536], output[65536];
static size_t input_at, input_end, output_end;

/* The next byte of standard input, or -1 at its end. */
static int next(void) {
    if (input_at == input_end) {
        ssize_t got = read(0, input, sizeof input);
        if (got <= 0) return -1;
        input_at = 0;
        input_end = got;
    }
    return input[input_at++];
}

static void flush(void) {
    for (size_t at = 0; at < output_end;) {
        ssize_t put = write(1, output + at, output_end - at);
        if (put <= 0) exit(1);
        at += put;
    }
    output_end = 0;
}

static void put_decimal(uint64_t n) {
    uint8_t digits[20];
    int count = 0;
    do digits[count++] = '0' + n % 10;
    while (n /= 10);
    while (count) output[output_end++] = digits[--count];
}

static void put_line(uint64_t index, unsigned kind, unsigned refusal, bool alarm) {
    static const char hex[] = "0123456789abcdef";
    if (output_end + 64 > sizeof output) flush();
    put_decimal(index);
    output[output_end++] = ' ';
    output[output_end++] = hex[kind >> 4];
    output[output_end++] = hex[kind & 15];
    output[output_end++] = ' ';
    if (refusal)
        put_decimal(refusal);
    else
        output[output_end++] = '-';
    output[output_end++] = ' ';
    output[output_end++] = alarm ? '1' : '0';
    output[output_end++] = '\n';
}

static uint16_t word(const uint8_t *b) { return b[0] << 8 | b[1]; }

/* A call's answer; its refusal is in bits 31:24. */
static uint32_t call(struct xenpak_module *m, int kind, const uint8_t *b) {
    switch (kind) {
    case 1: return plain_power_on(m);
    case 2: return plain_cut(m);
    case 3: return plain_cut_torn(m, b[0]);
    case 4: return plain_reset_pin(m);
    case 5: return plain_frame(m, (uint32_t)word(b) << 16 | word(b + 2));
    case 6: return plain_tick(m);
    case 7:
        return plain_sample(m, (struct xenpak_sample){.temperature = (int16_t)word(b),
                                                      .bias = word(b + 2),
                                                      .transmit = word(b + 4),
                                                      .receive = word(b + 6)});
    default:
        return plain_lines(m, (struct xenpak_lines){.receive = word(b),
                                                    .transmit = word(b + 2),
                                                    .signal = b[4] & 4,
                                                    .block = b[4] & 2,
                                                    .lanes = b[4] & 1});
    }
}

int main(void) {
    static const int lengths[] = {0, 0, 0, 1, 0, 4, 0, 8, 5};
    static const uint8_t zeros[256];
    static struct xenpak_module m;
    uint8_t body[8];
    int kind;
    plain_make(&m, 0, zeros, 256, zeros, 40);
    for (uint64_t index = 0; (kind = next()) >= 0; index++) {
        int count = 0, b = 0;
        if (kind < 1 || kind > 8) {
            put_line(index, kind, 9, plain_line(&m));
            break;
        }
        while (count < lengths[kind] && (b = next()) >= 0) body[count++] = b;
        if (b < 0) {
            put_line(index, kind, 10, plain_line(&m));
            break;
        }
        uint32_t refusal = call(&m, kind, body) >> 24;
        put_line(index, kind, refusal, plain_line(&m));
    }
    flush();
    return 0;
}
