/* The calls of the plain versions, plain.c and plain.rs, which change a module in place. Each answers as the library's
   call of the same name does, in a word: bits 31:24 the refusal's number, below them what xenpak.h says, or the ticks
   that settling made. */
#include "../include/xenpak.h"

#define PLAIN(name)                                                                                                    \
    uint32_t name##_make(struct xenpak_module *m, uint8_t port, const uint8_t *image, size_t image_size,               \
                         const uint8_t *thresholds, size_t thresholds_size);                                           \
    uint32_t name##_power_on(struct xenpak_module *m);                                                                 \
    uint32_t name##_cut(struct xenpak_module *m);                                                                      \
    uint32_t name##_cut_torn(struct xenpak_module *m, uint8_t byte);                                                 \
    uint32_t name##_reset_pin(struct xenpak_module *m);                                                                \
    uint32_t name##_frame(struct xenpak_module *m, uint32_t word);                                                     \
    uint32_t name##_tick(struct xenpak_module *m);                                                                     \
    uint32_t name##_lines(struct xenpak_module *m, struct xenpak_lines given);                                         \
    uint32_t name##_sample(struct xenpak_module *m, struct xenpak_sample given);                                       \
    uint32_t name##_settle(struct xenpak_module *m, uint32_t budget);                                                  \
    bool name##_line(const struct xenpak_module *m);                                                                   \
    uint16_t name##_counter(const struct xenpak_module *m);                                                            \
    uint8_t name##_stored(const struct xenpak_module *m, uint8_t offset);                                              \
    uint32_t name##_unsaved(const struct xenpak_module *m);                                                            \
    int16_t name##_tenths(int16_t code)

PLAIN(plain);
PLAIN(rust);
