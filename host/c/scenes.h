/* Cores that play something, for the tests. */
#ifndef SCENES_H
#define SCENES_H

#include "core.h"

enum { SMALL = 65536, LARGE = 524288 };

/* Ends the program if memory runs out. */
void must_make(struct core *core, uint32_t size);

/* All voices play. With an odd seed there are reverb, CD and an interrupt; with an even seed the voices run into memory
 * that nobody loaded. */
void must_make_composed(struct core *core, uint32_t size, uint64_t seed);

struct setting {
    uint32_t offset;
    uint32_t value;
};

void write_all(struct core *core, const struct setting *settings, size_t count);

#define WRITE_ALL(core, ...)                                                                                           \
    write_all(core, (const struct setting[]){__VA_ARGS__},                                                             \
              sizeof(const struct setting[]){__VA_ARGS__} / sizeof(struct setting))

/* Writes SPUCNT and makes a tick, which applies its transfer mode. */
void apply_control(struct core *core, uint32_t control);

#endif
