#include "lent.h"

#include <stdio.h>
#include <stdlib.h>
#include <string.h>

enum { LENT_HALFWORDS = 32, LENT_PAIRS = 5, FILLER = 0xA5 };

/* ---- buffers */

static size_t width(enum which which)
{
    static const size_t widths[BUFFERS] = {2, 1, 1, 2, 2, 2, 2, sizeof(float)};
    return widths[which];
}

void *lent_allocate(size_t bytes)
{
    void *data = malloc(bytes > 0 ? bytes : 1);
    if (!data) {
        fputs("not enough memory\n", stderr);
        exit(EXIT_FAILURE);
    }
    return data;
}

void lent_resize(struct lent *lent, enum which which, size_t count)
{
    struct buffer *buffer = &lent->buffers[which];
    size_t kept = (count < buffer->count ? count : buffer->count) * width(which);
    uint8_t *data = lent_allocate(count * width(which));
    if (kept > 0)
        memcpy(data, buffer->data, kept);
    memset(data + kept, FILLER, count * width(which) - kept);
    free(buffer->data);
    *buffer = (struct buffer){data, count};
}

void lent_make(struct lent *lent, uint32_t size)
{
    const size_t counts[BUFFERS] = {TENONWHISK_STATE_HALFWORDS,
                                    size,
                                    size / 16,
                                    LENT_HALFWORDS,
                                    LENT_HALFWORDS,
                                    2 * LENT_PAIRS,
                                    2 * LENT_PAIRS,
                                    2 * LENT_PAIRS};
    *lent = (struct lent){0};
    for (enum which k = 0; k < BUFFERS; k++)
        lent_resize(lent, k, counts[k]);
    tenonwhisk_make(size, lent_state(lent), TENONWHISK_STATE_HALFWORDS);
    memset(lent->buffers[RAM].data, 0, size);
    memset(lent->buffers[MARKS].data, 0, size / 16);
}

void lent_free(struct lent *lent)
{
    for (enum which k = 0; k < BUFFERS; k++)
        free(lent->buffers[k].data);
    *lent = (struct lent){0};
}

void lent_copy(struct lent *to, const struct lent *from)
{
    *to = *from;
    for (enum which k = 0; k < BUFFERS; k++) {
        size_t bytes = from->buffers[k].count * width(k);
        to->buffers[k].data = lent_allocate(bytes);
        memcpy(to->buffers[k].data, from->buffers[k].data, bytes);
    }
}

bool lent_same(const struct lent *a, const struct lent *b)
{
    for (enum which k = 0; k < BUFFERS; k++)
        if (a->buffers[k].count != b->buffers[k].count ||
            memcmp(a->buffers[k].data, b->buffers[k].data, a->buffers[k].count * width(k)) != 0)
            return false;
    return true;
}

uint16_t *lent_state(const struct lent *lent)
{
    return lent->buffers[STATE].data;
}

/* ---- calls */

#define LEND(which) lent->buffers[which].data, lent->buffers[which].count

static struct outcome run_reset(const struct lent *lent)
{
    return (struct outcome){tenonwhisk_reset(LEND(STATE)), true};
}

static struct outcome run_status(const struct lent *lent)
{
    struct tenonwhisk_overview overview = tenonwhisk_status(LEND(STATE));
    return (struct outcome){overview.number, !overview.doubt && overview.size == 0 && overview.tick == 0};
}

static struct outcome run_write(const struct lent *lent)
{
    return (struct outcome){tenonwhisk_write(LEND(STATE), lent->offset, lent->value), true};
}

static struct outcome run_read(const struct lent *lent)
{
    struct tenonwhisk_reading reading = tenonwhisk_read(LEND(STATE), lent->offset);
    return (struct outcome){reading.number, reading.value == 0};
}

static struct outcome moved(struct tenonwhisk_moved moved)
{
    return (struct outcome){moved.number, !moved.irq && !moved.doubt && moved.count == 0};
}

static struct outcome run_transfer_in(const struct lent *lent)
{
    return moved(tenonwhisk_transfer_in(LEND(STATE), LEND(RAM), LEND(MARKS), LEND(VALUES)));
}

static struct outcome run_transfer_out(const struct lent *lent)
{
    return moved(tenonwhisk_transfer_out(LEND(STATE), LEND(RAM), LEND(MARKS), LEND(OUTWARD)));
}

static struct outcome run_tick(const struct lent *lent)
{
    struct tenonwhisk_ticked ticked = tenonwhisk_tick(LEND(STATE), LEND(RAM), LEND(MARKS), 0x1234, -0x4321);
    return (struct outcome){ticked.number, !ticked.irq && !ticked.doubt && ticked.left == 0 && ticked.right == 0};
}

static struct outcome run_tick_floats(const struct lent *lent)
{
    struct tenonwhisk_ticked_floats ticked =
        tenonwhisk_tick_floats(LEND(STATE), LEND(RAM), LEND(MARKS), 0x1234, -0x4321);
    return (struct outcome){ticked.number, !ticked.irq && !ticked.doubt && ticked.left == 0 && ticked.right == 0};
}

static struct outcome ran(struct tenonwhisk_ran ran)
{
    return (struct outcome){ran.number, ran.count == 0 && ran.irq == 0 && ran.doubt == 0};
}

static struct outcome run_run(const struct lent *lent)
{
    return ran(tenonwhisk_run(LEND(STATE), LEND(RAM), LEND(MARKS), LEND(CD), LEND(SAMPLES)));
}

static struct outcome run_run_floats(const struct lent *lent)
{
    return ran(tenonwhisk_run_floats(LEND(STATE), LEND(RAM), LEND(MARKS), LEND(CD), LEND(SAMPLES), LEND(FLOATS)));
}

static struct outcome run_view(const struct lent *lent)
{
    bool empty = tenonwhisk_block_view(LEND(STATE), LEND(RAM), lent->address) == NULL;
    return (struct outcome){tenonwhisk_view_number(LEND(STATE), LEND(RAM), lent->address), empty};
}

/* ---- numbers 1 and 2: the fields of a state */

static uint32_t wide(uint16_t low, uint16_t high)
{
    return low | (uint32_t)high << 16;
}

static uint32_t word_at(const uint16_t *state, size_t at)
{
    return wide(state[at], state[at + 1]);
}

static bool is_tagged(const uint16_t *halfwords, size_t length)
{
    return length == TENONWHISK_STATE_HALFWORDS && halfwords[AT_TAG] == 0x5754 && halfwords[AT_TAG + 1] == 0x0032;
}

static bool envelope_is_in_range(const uint16_t *state, size_t n)
{
    uint32_t phase = state[AT_PHASES + n], wait = wide(state[AT_WAITS + 2 * n], state[AT_WAITS + 2 * n + 1]);
    bool moves = phase >= 1 && phase <= 4;
    return phase <= 5 && state[AT_LEVELS + n] <= 0x7FFF && wait <= 0x400000 && (wait >= 1 || !moves);
}

static bool voice_is_in_range(const uint16_t *state, size_t n)
{
    return envelope_is_in_range(state, n) && state[AT_COUNTERS + n] < 0x1000 && state[AT_INDICES + n] <= 27 &&
           state[AT_ADDRESSES + n] < word_at(state, AT_SIZE) / 8 && state[AT_LOADED + n] <= 1 &&
           state[AT_FLAGS + n] <= 0xFF && state[AT_ENDED + n] <= 1;
}

static bool control_is_in_range(const uint16_t *state)
{
    return word_at(state, AT_TIMER) <= 0x20000 && state[AT_LATCH] <= 1 && state[AT_DOUBT] <= 1;
}

static bool places_are_in_range(const uint16_t *state)
{
    uint32_t size = word_at(state, AT_SIZE), place = word_at(state, AT_REVERB_PLACE);
    uint32_t base = state[AT_REGISTERS + 0x1A2 / 2] * 8u % size / 2;
    return state[AT_CAPTURE] < 0x200 && place >= base && place < size / 2 && state[AT_REVERB_RIGHT] <= 1 &&
           word_at(state, AT_TRANSFER) < size / 2;
}

bool is_state(const uint16_t *halfwords, size_t length)
{
    if (!is_tagged(halfwords, length))
        return false;
    uint32_t size = word_at(halfwords, AT_SIZE);
    if (size != 65536 && size != 524288)
        return false;
    for (size_t n = 0; n < VOICES; n++)
        if (!voice_is_in_range(halfwords, n))
            return false;
    return control_is_in_range(halfwords) && places_are_in_range(halfwords);
}

/* ---- numbers above 2 */

static bool is_listed(uint32_t offset)
{
    return offset % 2 == 0 && offset < 0x200 && offset != 0x1A0 && offset != 0x1BC && offset != 0x1BE;
}

static bool is_read_only(uint32_t offset)
{
    return offset == 0x19C || offset == 0x19E || offset == 0x1AE || offset == 0x1B8 || offset == 0x1BA;
}

static uint16_t undocumented_bits(uint32_t offset)
{
    if (offset < 0x180)
        return offset % 16 == 0xA ? 1 << 13 : 0;
    switch (offset) {
    case 0x18A:
    case 0x18E:
    case 0x192:
    case 0x196:
    case 0x19A:
        return 0xFF00;
    case 0x1AC:
        return 0xFFF1;
    default:
        return 0;
    }
}

static bool is_limited_volume(uint32_t offset)
{
    return offset == 0x180 || offset == 0x182 || (offset < 0x180 && offset % 16 <= 2);
}

static bool is_carried(uint32_t offset, uint16_t value)
{
    if (is_limited_volume(offset))
        return value < 0x8000;
    if (offset == 0x1AC)
        return (value >> 1 & 7) == 2;
    return offset != 0x1A8 && !(offset < 0x180 && offset % 16 == 0xC);
}

static uint8_t number_of_write(const struct lent *lent)
{
    if (!is_listed(lent->offset))
        return 3;
    if (is_read_only(lent->offset))
        return 4;
    if (lent->value & undocumented_bits(lent->offset))
        return 11;
    return is_carried(lent->offset, lent->value) ? 0 : 5;
}

static uint8_t number_of_read(const struct lent *lent)
{
    if (!is_listed(lent->offset))
        return 3;
    return lent->offset == 0x1A8 ? 5 : 0;
}

static uint32_t applied_mode(const struct lent *lent)
{
    return lent_state(lent)[AT_APPLIED] >> 4 & 3;
}

static uint8_t number_of_count(size_t count)
{
    return count >= 1 && count <= 32 ? 0 : 7;
}

static uint8_t number_of_transfer_in(const struct lent *lent)
{
    uint32_t mode = applied_mode(lent);
    return mode == 1 || mode == 2 ? number_of_count(lent->buffers[VALUES].count) : 6;
}

static uint8_t number_of_transfer_out(const struct lent *lent)
{
    return applied_mode(lent) == 3 ? number_of_count(lent->buffers[OUTWARD].count) : 6;
}

static uint8_t number_of_run(const struct lent *lent)
{
    size_t count = lent->buffers[SAMPLES].count, cd = lent->buffers[CD].count;
    return count % 2 == 0 && (cd == count || cd == 0) ? 0 : 25;
}

static uint8_t number_of_run_floats(const struct lent *lent)
{
    return lent->buffers[FLOATS].count == lent->buffers[SAMPLES].count ? number_of_run(lent) : 25;
}

static uint8_t number_of_view(const struct lent *lent)
{
    return lent->address % 8 == 0 && lent->address <= word_at(lent_state(lent), AT_SIZE) - 16 ? 0 : 8;
}

static uint8_t no_number(const struct lent *lent)
{
    (void)lent;
    return 0;
}

const struct call calls[CALLS] = {
    [RESET] = {"reset", run_reset, false, false, no_number, 0},
    [STATUS] = {"status", run_status, false, false, no_number, 0},
    [WRITE] = {"write", run_write, false, false, number_of_write, 0},
    [READ] = {"read", run_read, false, false, number_of_read, 0},
    [TRANSFER_IN] = {"transfer_in", run_transfer_in, true, true, number_of_transfer_in, 0},
    [TRANSFER_OUT] = {"transfer_out", run_transfer_out, true, true, number_of_transfer_out, 0},
    [TICK] = {"tick", run_tick, true, true, no_number, 1},
    [TICK_FLOATS] = {"tick_floats", run_tick_floats, true, true, no_number, 1},
    [RUN] = {"run", run_run, true, true, number_of_run, LENT_PAIRS},
    [RUN_FLOATS] = {"run_floats", run_run_floats, true, true, number_of_run_floats, LENT_PAIRS},
    [VIEW] = {"view", run_view, true, false, number_of_view, 0},
};

uint8_t expected_number(const struct call *call, const struct lent *lent)
{
    const uint16_t *state = lent_state(lent);
    size_t length = lent->buffers[STATE].count;
    if (!is_tagged(state, length))
        return 2;
    uint32_t size = word_at(state, AT_SIZE);
    if (call->takes_ram && lent->buffers[RAM].count != size)
        return 1;
    if (call->takes_marks && lent->buffers[MARKS].count != size / 16)
        return 1;
    return is_state(state, length) ? call->own_number(lent) : 2;
}
