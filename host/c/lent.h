/* What is lent to one call, the calls in one shape, and the number that each must return. This is the tests' own
 * reading of the rules, from the layout of a state (docs/STATE.md). */
#ifndef LENT_H
#define LENT_H

#include "../tenonwhisk.h"

enum which { STATE, RAM, MARKS, VALUES, OUTWARD, CD, SAMPLES, FLOATS, BUFFERS };

struct lent {
    struct buffer {
        void *data; /* allocated at its exact length, so that memcheck sees an access outside it */
        size_t count;
    } buffers[BUFFERS];
    uint32_t offset;  /* of a read or a write */
    uint16_t value;   /* of a write */
    uint32_t address; /* of a view */
};

/* Allocates room for so many bytes, or ends the program. */
void *lent_allocate(size_t bytes);

/* Lends a fresh state with zero RAM and marks. The other buffers have lengths that are accepted, and hold A5h. */
void lent_make(struct lent *lent, uint32_t size);
void lent_free(struct lent *lent);
void lent_copy(struct lent *to, const struct lent *from);
bool lent_same(const struct lent *a, const struct lent *b);
/* Gives a buffer another length. It keeps what fits, and holds A5h after it. */
void lent_resize(struct lent *lent, enum which which, size_t count);
uint16_t *lent_state(const struct lent *lent);

struct outcome {
    uint8_t number;
    bool empty; /* all results but the number are zero */
};

struct call {
    const char *name;
    struct outcome (*run)(const struct lent *lent);
    bool takes_ram;
    bool takes_marks;
    uint8_t (*own_number)(const struct lent *lent); /* for its other arguments and the state: above 2, or 0 */
    uint32_t ticks;                                 /* that it makes with the buffers of lent_make */
};

enum { RESET, STATUS, WRITE, READ, TRANSFER_IN, TRANSFER_OUT, TICK, TICK_FLOATS, RUN, RUN_FLOATS, VIEW, CALLS };
extern const struct call calls[CALLS];

/* The halfwords at which a state's fields stand. A field of 32 bits has its low half there. Voice n has its part of an
 * array n places after its first. */
enum {
    VOICES = 24,
    AT_TAG = 0,
    AT_SIZE = 2,
    AT_REGISTERS = 4,
    AT_PHASES = 260,
    AT_LEVELS = 284,
    AT_WAITS = 308, /* two for each voice: low half, high half */
    AT_COUNTERS = 356,
    AT_INDICES = 380,
    AT_ADDRESSES = 404,
    AT_LOADED = 452,
    AT_FLAGS = 476,
    AT_ENDED = 500,
    AT_SAMPLES = 524,
    AT_NOISE = 1268,
    AT_TIMER = 1269,
    AT_APPLIED = 1271,
    AT_LATCH = 1272,
    AT_DOUBT = 1273,
    AT_CAPTURE = 1274,
    AT_REVERB_PLACE = 1275,
    AT_REVERB_RIGHT = 1277,
    AT_TICK = 1280,
    AT_TRANSFER = 1282,
};

/* Whether the halfwords are a state: its length and tag, and every field in its range. */
bool is_state(const uint16_t *halfwords, size_t length);
/* The number that the call must return. */
uint8_t expected_number(const struct call *call, const struct lent *lent);

#endif
