/* test [STATES]: tests through the C interface. STATES damaged states are tried, 20,000 if it is not given, and a
 * hundredth as many of the large sound RAM. Every 217th noise level is tried, and every one if it is not given. */
#include "check.h"
#include "lent.h"
#include "scenes.h"
#include "test_banks.h"
#include "test_encoder.h"
#include "test_xa.h"

#include <stdio.h>
#include <stdlib.h>
#include <string.h>

enum { PAIRS = 1000, DAMAGED = 20000, MOST_STATE = 1600, MOST_REFUSALS = 5 };

static void random_samples(uint64_t *seed, int16_t *samples, size_t count)
{
    for (size_t k = 0; k < count; k++)
        samples[k] = (int16_t)((int32_t)below(seed, 0x10000) - 0x8000);
}

static bool same_cores(const struct core *a, const struct core *b)
{
    return memcmp(a->state, b->state, sizeof a->state) == 0 && memcmp(a->ram, b->ram, a->size) == 0 &&
           memcmp(a->marks, b->marks, a->size / 16) == 0;
}

/* ---- numbers: what is refused leaves everything as it was */

static bool seen[CALLS][UINT8_MAX + 1];

/* The call on a copy gives the number. If refused it gives nothing else and changes nothing; if not, it leaves a state,
 * and its ticks are counted. */
static void expect(const struct lent *lent, int which, uint8_t number)
{
    const struct call *call = &calls[which];
    struct lent after;
    lent_copy(&after, lent);
    struct outcome outcome = call->run(&after);
    check(outcome.number == number, "%s gives %d, not %d", call->name, outcome.number, number);
    seen[which][outcome.number] = true;
    if (outcome.number != 0) {
        check(outcome.empty && lent_same(lent, &after), "%s refused with %d changes nothing", call->name, number);
    } else {
        const uint16_t *state = lent_state(&after);
        check(is_state(state, after.buffers[STATE].count), "%s leaves a state", call->name);
        uint32_t before = tenonwhisk_status(lent_state(lent), TENONWHISK_STATE_HALFWORDS).tick;
        uint32_t tick = tenonwhisk_status(state, TENONWHISK_STATE_HALFWORDS).tick;
        check(tick == (which == RESET ? 0 : before + call->ticks), "%s counts its ticks", call->name);
    }
    lent_free(&after);
}

static void expect_all_as_ruled(const struct lent *lent)
{
    for (int which = 0; which < CALLS; which++)
        expect(lent, which, expected_number(&calls[which], lent));
}

static void expect_resized(const struct lent *lent, int which, enum which buffer, size_t count, uint8_t number)
{
    struct lent resized;
    lent_copy(&resized, lent);
    lent_resize(&resized, buffer, count);
    expect(&resized, which, number);
    lent_free(&resized);
}

static void test_lengths(uint32_t size)
{
    struct lent lent;
    lent_make(&lent, size);
    const size_t rams[] = {0, size - 1, size + 1, size == SMALL ? LARGE : SMALL};
    const size_t states[] = {0, 1, 3, TENONWHISK_STATE_HALFWORDS - 1, TENONWHISK_STATE_HALFWORDS + 1, MOST_STATE};
    for (int which = 0; which < CALLS; which++) {
        for (size_t k = 0; k < sizeof rams / sizeof *rams; k++) {
            if (calls[which].takes_ram)
                expect_resized(&lent, which, RAM, rams[k], 1);
            if (calls[which].takes_marks)
                expect_resized(&lent, which, MARKS, rams[k] / 16 + (rams[k] == size + 1), 1);
        }
        for (size_t k = 0; k < sizeof states / sizeof *states; k++)
            expect_resized(&lent, which, STATE, states[k], 2);
    }
    lent_free(&lent);
}

static void test_registers(void)
{
    struct lent lent;
    lent_make(&lent, SMALL);
    const uint16_t values[] = {0, 4, 6, 0x7FFF, 0x8000, 0xDFFF, 0xFFFF};
    for (lent.offset = 0; lent.offset < 0x240; lent.offset++)
        for (size_t k = 0; k < sizeof values / sizeof *values; k++) {
            lent.value = values[k];
            expect(&lent, WRITE, expected_number(&calls[WRITE], &lent));
            expect(&lent, READ, expected_number(&calls[READ], &lent));
        }
    lent.offset = 0x10000; /* its low 16 bits are those of a register */
    expect(&lent, WRITE, 3);
    expect(&lent, READ, 3);
    lent_free(&lent);
}

/* Each bit by itself, of the registers with undocumented bits and of those beside them. */
static void test_bits(void)
{
    struct lent lent;
    lent_make(&lent, SMALL);
    for (lent.offset = 8; lent.offset < 0x1B0; lent.offset += 2) {
        bool adsr = lent.offset < 0x180 && (lent.offset % 16 == 8 || lent.offset % 16 == 0xA);
        bool flags = lent.offset >= 0x188 && lent.offset <= 0x19E;
        for (unsigned k = 0; k < 16 && (adsr || flags || lent.offset == 0x1AC); k++) {
            lent.value = (uint16_t)(1 << k);
            expect(&lent, WRITE, expected_number(&calls[WRITE], &lent));
            lent.value |= 4; /* with transfer type 2, where it is 1ACh */
            expect(&lent, WRITE, expected_number(&calls[WRITE], &lent));
        }
    }
    lent_free(&lent);
}

/* A number goes before those that apply too. */
static void test_order(void)
{
    static const struct {
        uint32_t offset;
        uint16_t value;
        uint8_t number;
    } cases[] = {
        {0x1AC, 0x0004, 0},  {0x1AC, 0x0006, 5},  {0x1AC, 0x0014, 11}, {0x1AC, 0x0010, 11}, {0x1AC, 0xFFFF, 11},
        {0x19E, 0xFF00, 4},  {0x19B, 0xFF00, 3},  {0x1AD, 0xFFFF, 3},  {0x00B, 0x2000, 3},  {0x00A, 0x2000, 11},
        {0x00A, 0xDFFF, 0},  {0x17A, 0xFFFF, 11}, {0x18A, 0x0100, 11}, {0x18E, 0x8000, 11}, {0x192, 0xFF00, 11},
        {0x196, 0xFFFF, 11}, {0x19A, 0x0100, 11}, {0x19A, 0x00FF, 0},  {0x198, 0xFFFF, 0},  {0x190, 0x0001, 0},
    };
    struct lent lent;
    lent_make(&lent, SMALL);
    for (size_t k = 0; k < sizeof cases / sizeof *cases; k++) {
        lent.offset = cases[k].offset;
        lent.value = cases[k].value;
        expect(&lent, WRITE, cases[k].number);
    }
    lent_free(&lent);
}

static void test_transfers(void)
{
    for (uint16_t mode = 0; mode < 4; mode++) {
        struct lent lent;
        lent_make(&lent, SMALL);
        tenonwhisk_write(lent_state(&lent), TENONWHISK_STATE_HALFWORDS, 0x1AA, (uint16_t)(0xC000 | mode << 4));
        expect(&lent, TRANSFER_IN, 6); /* no mode before the next tick */
        expect(&lent, TRANSFER_OUT, 6);
        calls[TICK].run(&lent);
        bool in = mode == 1 || mode == 2, out = mode == 3;
        for (size_t count = 0; count <= 40; count++) {
            bool moves = count >= 1 && count <= 32;
            expect_resized(&lent, TRANSFER_IN, VALUES, count, !in ? 6 : moves ? 0 : 7);
            expect_resized(&lent, TRANSFER_OUT, OUTWARD, count, !out ? 6 : moves ? 0 : 7);
        }
        lent_free(&lent);
    }
}

static void test_run_buffers(void)
{
    const enum which buffers[] = {CD, SAMPLES, FLOATS};
    struct lent lent;
    lent_make(&lent, SMALL);
    expect(&lent, RUN, 0);
    expect(&lent, RUN_FLOATS, 0);
    for (size_t k = 0; k < 3; k++)
        for (size_t count = 0; count < 14; count++) {
            bool no_cd = buffers[k] == CD && count == 0;
            uint8_t number = no_cd || count == lent.buffers[CD].count ? 0 : 25;
            expect_resized(&lent, RUN, buffers[k], count, buffers[k] == FLOATS ? 0 : number);
            expect_resized(&lent, RUN_FLOATS, buffers[k], count, number);
        }
    for (size_t k = 0; k < 3; k++)
        lent_resize(&lent, buffers[k], 7);
    expect(&lent, RUN, 25);
    expect(&lent, RUN_FLOATS, 25);
    lent_resize(&lent, CD, 0);
    expect(&lent, RUN, 25);
    expect(&lent, RUN_FLOATS, 25);
    lent_free(&lent);
}

static void test_views(uint32_t size)
{
    struct lent lent;
    lent_make(&lent, size);
    const uint32_t good[] = {0, 8, 16, size / 2, size - 24, size - 16};
    const uint32_t bad[] = {1, 2, 4, 12, size - 15, size - 8, size, size + 8, 0x7FFFFFF8, 0xFFFFFFF0, 0xFFFFFFFF};
    for (size_t k = 0; k < sizeof good / sizeof *good; k++) {
        lent.address = good[k];
        expect(&lent, VIEW, 0);
        const uint8_t *ram = lent.buffers[RAM].data;
        const uint8_t *view = tenonwhisk_block_view(lent_state(&lent), TENONWHISK_STATE_HALFWORDS, ram, size, good[k]);
        check(view == ram + good[k], "a view is the host's own RAM");
    }
    for (size_t k = 0; k < sizeof bad / sizeof *bad; k++) {
        lent.address = bad[k];
        expect(&lent, VIEW, 8);
    }
    lent_free(&lent);
}

/* ---- ranges of a state's fields */

struct field {
    size_t at;
    size_t high; /* of a field of 32 bits, its high half; else 0 */
};

static void put(struct lent *lent, struct field field, uint32_t value)
{
    lent_state(lent)[field.at] = (uint16_t)value;
    if (field.high != 0)
        lent_state(lent)[field.high] = (uint16_t)(value >> 16);
}

struct range {
    struct field field;
    uint32_t good;
    uint32_t bad;
};

/* A bad length of RAM or marks goes before a bad field, but not before a bad tag. */
static void test_number_1_first(const struct lent *lent, bool tagged)
{
    for (int which = 0; which < CALLS; which++) {
        if (calls[which].takes_ram)
            expect_resized(lent, which, RAM, lent->buffers[RAM].count - 1, tagged ? 1 : 2);
        if (calls[which].takes_marks)
            expect_resized(lent, which, MARKS, lent->buffers[MARKS].count + 1, tagged ? 1 : 2);
    }
}

static void test_range(struct lent *lent, struct range range)
{
    struct lent changed;
    lent_copy(&changed, lent);
    put(&changed, range.field, range.good);
    expect(&changed, STATUS, 0);
    expect_all_as_ruled(&changed);
    put(&changed, range.field, range.bad);
    for (int which = 0; which < CALLS; which++)
        expect(&changed, which, 2);
    test_number_1_first(&changed, range.field.at >= AT_SIZE);
    lent_free(&changed);
}

static void test_voice_ranges(struct lent *lent, size_t n, uint32_t size)
{
    const struct field phase = {AT_PHASES + n, 0}, wait = {AT_WAITS + 2 * n, AT_WAITS + 2 * n + 1};
    const struct range ranges[] = {
        {phase, 5, 6},
        {phase, 0, 0x100},
        {{AT_LEVELS + n, 0}, 0x7FFF, 0x8000},
        {wait, 0x400000, 0x400001},
        {wait, 0xFFFF, 0x800000},
        {{AT_COUNTERS + n, 0}, 0xFFF, 0x1000},
        {{AT_INDICES + n, 0}, 27, 28},
        {{AT_LOADED + n, 0}, 1, 2},
        {{AT_FLAGS + n, 0}, 0xFF, 0x100},
        {{AT_ENDED + n, 0}, 1, 2},
    };
    for (size_t k = 0; k < sizeof ranges / sizeof *ranges; k++)
        test_range(lent, ranges[k]);
    if (size == SMALL) /* any halfword is an address in the large sound RAM */
        test_range(lent, (struct range){{AT_ADDRESSES + n, 0}, SMALL / 8 - 1, SMALL / 8});
    for (uint32_t moving = 1; moving <= 4; moving++) {
        put(lent, phase, moving);
        test_range(lent, (struct range){wait, 1, 0});
        test_range(lent, (struct range){wait, 0x10000, 0}); /* the low half is 0 in both */
    }
    put(lent, phase, 0);
}

static void test_ranges(uint32_t size)
{
    const struct field place = {AT_REVERB_PLACE, AT_REVERB_PLACE + 1};
    const struct range ranges[] = {
        {{AT_TAG, 0}, 0x5754, 0x5457}, /* the other byte order */
        {{AT_TAG, 0}, 0x5754, 0x5755},
        {{AT_TAG + 1, 0}, 0x0032, 0x0031}, /* the bytes "TW1" and 0, of another layout */
        {{AT_TIMER, AT_TIMER + 1}, 0x20000, 0x20001},
        {{AT_LATCH, 0}, 1, 2},
        {{AT_DOUBT, 0}, 1, 2},
        {{AT_CAPTURE, 0}, 0x1FF, 0x200},
        {place, size / 2 - 1, size / 2},
        {place, 8, 7}, /* from its base on */
        {{AT_REVERB_RIGHT, 0}, 1, 2},
        {{AT_TRANSFER, AT_TRANSFER + 1}, size / 2 - 1, size / 2},
    };
    struct lent lent;
    lent_make(&lent, size);
    tenonwhisk_write(lent_state(&lent), TENONWHISK_STATE_HALFWORDS, 0x1A2, 2); /* the reverb's base is 10h */
    for (size_t k = 0; k < sizeof ranges / sizeof *ranges; k++)
        test_range(&lent, ranges[k]);
    test_voice_ranges(&lent, 0, size);
    test_voice_ranges(&lent, VOICES - 1, size);
    lent_free(&lent);
}

/* Lengths are compared with the L that stands in the state, whatever it is. An L other than the two is out of range. */
static void test_sizes(void)
{
    const uint32_t sizes[] = {0, 1, 15, 16, SMALL - 1, SMALL + 1, SMALL + 16, 2 * SMALL, LARGE - 1, LARGE + 1};
    struct lent lent;
    lent_make(&lent, SMALL);
    for (size_t k = 0; k < sizeof sizes / sizeof *sizes; k++) {
        put(&lent, (struct field){AT_SIZE, AT_SIZE + 1}, sizes[k]);
        lent_resize(&lent, RAM, SMALL);
        lent_resize(&lent, MARKS, SMALL / 16);
        for (int which = 0; which < CALLS; which++)
            expect(&lent, which, calls[which].takes_ram ? 1 : 2);
        lent_resize(&lent, RAM, sizes[k]);
        lent_resize(&lent, MARKS, sizes[k] / 16);
        for (int which = 0; which < CALLS; which++)
            expect(&lent, which, 2);
    }
    lent_free(&lent);
}

/* ---- damaged states */

static void flip_bits(uint64_t *seed, uint16_t *state, size_t from, uint32_t count)
{
    for (uint32_t left = 1 + below(seed, 8); left > 0; left--)
        state[from + below(seed, count)] ^= (uint16_t)(1 << below(seed, 16));
}

static void replace(uint64_t *seed, uint16_t *state, size_t from, size_t count)
{
    for (size_t k = from; k < from + count; k++)
        state[k] = (uint16_t)random32(seed);
}

/* Replaces everything, or everything but the tag, or everything but the tag and L. */
static void replace_all(uint64_t *seed, uint16_t *state)
{
    const size_t froms[] = {AT_TAG, AT_SIZE, AT_REGISTERS};
    size_t from = froms[below(seed, 3)];
    replace(seed, state, from, TENONWHISK_STATE_HALFWORDS - from);
}

static void damage(uint64_t *seed, struct lent *lent)
{
    uint16_t *state = lent_state(lent);
    uint32_t from = below(seed, TENONWHISK_STATE_HALFWORDS);
    switch (below(seed, 7)) {
    case 0:
    case 1:
        flip_bits(seed, state, 0, TENONWHISK_STATE_HALFWORDS);
        break;
    case 2:
        flip_bits(seed, state, AT_PHASES, AT_SAMPLES - AT_PHASES);
        break;
    case 3:
        replace(seed, state, from, 1);
        break;
    case 4:
        replace(seed, state, from, 1 + below(seed, TENONWHISK_STATE_HALFWORDS - from));
        break;
    case 5:
        replace_all(seed, state);
        break;
    case 6:
        lent_resize(lent, STATE, below(seed, MOST_STATE + 1));
        break;
    }
}

static void test_damaged_states(uint32_t size, unsigned long states)
{
    uint64_t seed = 1;
    struct core core;
    struct lent lent;
    must_make_composed(&core, size, 1);
    lent_make(&lent, size);
    memcpy(lent.buffers[RAM].data, core.ram, size);
    for (; states > 0; states--) {
        lent_resize(&lent, STATE, TENONWHISK_STATE_HALFWORDS);
        memcpy(lent_state(&lent), core.state, sizeof core.state);
        damage(&seed, &lent);
        lent.offset = 2 * below(&seed, 0x110);
        lent.value = (uint16_t)random32(&seed);
        lent.address = 8 * below(&seed, size / 8 + 2);
        expect_all_as_ruled(&lent);
    }
    lent_free(&lent);
    core_free(&core);
}

/* Each call has given each number that it can give, and no other. */
static void test_seen(void)
{
    static const uint8_t refusals[CALLS][MOST_REFUSALS] = {
        [RESET] = {2},
        [STATUS] = {2},
        [WRITE] = {2, 3, 4, 5, 11},
        [READ] = {2, 3, 5},
        [TRANSFER_IN] = {1, 2, 6, 7},
        [TRANSFER_OUT] = {1, 2, 6, 7},
        [TICK] = {1, 2},
        [TICK_FLOATS] = {1, 2},
        [RUN] = {1, 2, 25},
        [RUN_FLOATS] = {1, 2, 25},
        [VIEW] = {1, 2, 8},
    };
    for (int which = 0; which < CALLS; which++) {
        bool can[UINT8_MAX + 1] = {[0] = true};
        for (size_t k = 0; k < MOST_REFUSALS; k++)
            can[refusals[which][k]] = true;
        for (int number = 0; number <= UINT8_MAX; number++)
            check(seen[which][number] == can[number], "%s gives %d: %s", calls[which].name, number,
                  can[number] ? "never" : "once");
    }
}

/* ---- making, resetting, tick numbers */

static void test_make(void)
{
    enum { LENGTH = TENONWHISK_STATE_HALFWORDS };
    uint16_t small[LENGTH], other[LENGTH + 1], untouched[LENGTH + 1];
    const uint32_t wrong[] = {0, 1, SMALL - 1, SMALL + 1, LARGE - 1, LARGE + 1, 0xFFFFFFFF};
    check(tenonwhisk_make(SMALL, small, LENGTH) == 0 && is_state(small, LENGTH), "make");
    for (size_t k = 0; k < sizeof wrong / sizeof *wrong; k++) {
        check(tenonwhisk_make(wrong[k], other, LENGTH) == 1, "make of another size gives 1");
        check(memcmp(other, small, sizeof small) == 0, "and the state for 65,536");
    }
    memset(other, 0xA5, sizeof other);
    memcpy(untouched, other, sizeof other);
    check(tenonwhisk_make(LARGE, other, LENGTH + 1) == 2, "make of more halfwords gives 2");
    check(tenonwhisk_make(LARGE, other, LENGTH - 1) == 2, "make of fewer halfwords gives 2");
    check(tenonwhisk_make(LARGE + 1, other, LENGTH + 1) == 1, "and 1 if the size is wrong too");
    check(tenonwhisk_make(0, other, LENGTH - 1) == 1, "and 1 if the size is wrong too");
    check(memcmp(other, untouched, sizeof other) == 0, "and writes none");
    check(tenonwhisk_make(LARGE, other, LENGTH) == 0 && is_state(other, LENGTH), "make");
    struct tenonwhisk_overview overview = tenonwhisk_status(other, LENGTH);
    check(overview.number == 0 && overview.size == LARGE && overview.tick == 0 && !overview.doubt,
          "status of a fresh state");
}

static void test_reset(uint32_t size)
{
    struct core core, before;
    uint16_t made[TENONWHISK_STATE_HALFWORDS];
    static uint8_t ram[LARGE], marks[LARGE / 16];
    int16_t cd[200] = {0}, out[200];
    must_make_composed(&core, size, 2);
    core_run(&core, cd, out, 100);
    before = core;
    before.ram = memcpy(ram, core.ram, size);
    before.marks = memcpy(marks, core.marks, size / 16);
    check(core_reset(&core) == 0, "reset");
    tenonwhisk_make(size, made, TENONWHISK_STATE_HALFWORDS);
    memcpy(before.state, made, sizeof made);
    check(same_cores(&core, &before), "reset gives the state as made; RAM and marks stay");
    core_free(&core);
}

static void test_tick_number(void)
{
    struct core core;
    must_make(&core, SMALL);
    core.state[AT_TICK] = core.state[AT_TICK + 1] = 0xFFFF;
    check(core_status(&core).tick == 0xFFFFFFFF, "the tick number stands in its place");
    check(core_tick(&core, 0, 0).number == 0 && core_status(&core).tick == 0, "it passes from FFFFFFFFh to 0");
    core_free(&core);
}

/* ---- noise */

/* "2·level modulo 10000h plus (bits 15, 12, 11, 10 xored, inverted)" */
static uint16_t shifted(uint32_t level)
{
    uint32_t xored = (level >> 15 ^ level >> 12 ^ level >> 11 ^ level >> 10) & 1;
    return (uint16_t)(2 * level + (1 - xored));
}

/* The level after a tick, for 0 pairs, or after a run. */
static uint16_t next_level(struct core *core, uint32_t level, uint16_t timer, size_t pairs)
{
    int16_t out[2 * 2];
    core->state[AT_NOISE] = (uint16_t)level;
    core->state[AT_TIMER] = timer;
    core->state[AT_TIMER + 1] = 0;
    uint8_t number = pairs == 0 ? core_tick(core, 0, 0).number : core_run(core, NULL, out, pairs).number;
    check(number == 0, "noise %04Xh is accepted", (unsigned)level);
    return core->state[AT_NOISE];
}

/* Each tick takes 4 from the timer. So the noise moves in a single tick, in the first tick of a run and in the second:
 * the compiled library has code of its own for each. With an odd step, every bit of the level varies. */
static void test_noise(uint32_t step)
{
    struct core core;
    must_make(&core, SMALL);
    for (uint32_t level = 0; level <= UINT16_MAX; level += step) {
        uint16_t next = shifted(level);
        check(next_level(&core, level, 0, 0) == next, "noise %04Xh in a single tick", (unsigned)level);
        check(next_level(&core, level, 0, 1) == next, "noise %04Xh in a run's first tick", (unsigned)level);
        check(next_level(&core, level, 4, 2) == next, "noise %04Xh in a run's second tick", (unsigned)level);
    }
    core_free(&core);
}

/* ---- runs */

struct played {
    int16_t out[2 * PAIRS];
    float floats[2 * PAIRS];
    struct tenonwhisk_ran ran;
};

static void play_singly(struct core *core, const int16_t *cd, size_t pairs, struct played *played)
{
    played->ran = (struct tenonwhisk_ran){0, pairs, pairs, pairs};
    for (size_t k = 0; k < pairs; k++) {
        struct tenonwhisk_ticked ticked = core_tick(core, cd[2 * k], cd[2 * k + 1]);
        check(ticked.number == 0, "tick");
        played->out[2 * k] = ticked.left;
        played->out[2 * k + 1] = ticked.right;
        if (ticked.irq)
            played->ran.irq = k;
        if (ticked.doubt)
            played->ran.doubt = k;
    }
}

static void play_floats_singly(struct core *core, const int16_t *cd, size_t pairs, float *floats)
{
    for (size_t k = 0; k < pairs; k++) {
        struct tenonwhisk_ticked_floats ticked = core_tick_floats(core, cd[2 * k], cd[2 * k + 1]);
        check(ticked.number == 0, "tick_floats");
        floats[2 * k] = ticked.left;
        floats[2 * k + 1] = ticked.right;
    }
}

static bool same_ran(struct tenonwhisk_ran a, struct tenonwhisk_ran b)
{
    return a.number == b.number && a.count == b.count && a.irq == b.irq && a.doubt == b.doubt;
}

static bool are_floats_of(const float *floats, const int16_t *samples, size_t count)
{
    for (size_t k = 0; k < count; k++)
        if (floats[k] != (float)samples[k] / 32768.0f)
            return false;
    return true;
}

static bool sounds(const int16_t *samples, size_t count)
{
    for (size_t k = 0; k < count; k++)
        if (samples[k] != 0)
            return true;
    return false;
}

static void test_run(uint32_t size, uint64_t seed, size_t pairs)
{
    static struct played run, single, floats;
    static float single_floats[2 * PAIRS];
    static int16_t cd[2 * PAIRS];
    struct core cores[4];
    uint64_t cd_seed = 7;
    random_samples(&cd_seed, cd, 2 * pairs);
    for (int k = 0; k < 4; k++)
        must_make_composed(&cores[k], size, seed);
    run.ran = core_run(&cores[0], cd, run.out, pairs);
    play_singly(&cores[1], cd, pairs, &single);
    floats.ran = core_run_floats(&cores[2], cd, floats.out, floats.floats, pairs);
    play_floats_singly(&cores[3], cd, pairs, single_floats);
    size_t bytes = 2 * pairs * sizeof *cd;
    check(same_ran(run.ran, single.ran) && same_ran(floats.ran, single.ran), "a run reports as its ticks do");
    check(memcmp(run.out, single.out, bytes) == 0, "a run of %zu gives the pairs of %zu ticks", pairs, pairs);
    check(memcmp(floats.out, run.out, bytes) == 0, "run_floats gives the pairs of run");
    check(are_floats_of(floats.floats, run.out, 2 * pairs), "run_floats gives the floats of run");
    check(are_floats_of(single_floats, run.out, 2 * pairs), "tick_floats gives the floats of run");
    for (int k = 1; k < 4; k++)
        check(same_cores(&cores[0], &cores[k]), "all leave the same state, RAM and marks");
    if (pairs == PAIRS) {
        check(run.ran.irq < pairs || seed % 2 == 0, "the interrupt came");
        check(run.ran.doubt < pairs || seed % 2 == 1, "the doubt came");
        check(sounds(run.out, 2 * pairs), "it sounds");
    }
    for (int k = 0; k < 4; k++)
        core_free(&cores[k]);
}

static void test_no_cd(uint32_t size, uint64_t seed)
{
    static const int16_t silence[2 * PAIRS];
    static struct played silent, none, floats;
    struct core cores[3];
    for (int k = 0; k < 3; k++)
        must_make_composed(&cores[k], size, seed);
    silent.ran = core_run(&cores[0], silence, silent.out, PAIRS);
    none.ran = core_run(&cores[1], NULL, none.out, PAIRS);
    floats.ran = core_run_floats(&cores[2], NULL, floats.out, floats.floats, PAIRS);
    check(same_ran(none.ran, silent.ran) && same_ran(floats.ran, silent.ran), "no CD reports as a silent one does");
    check(memcmp(none.out, silent.out, sizeof silent.out) == 0, "run gives the pairs of a silent CD");
    check(memcmp(floats.out, silent.out, sizeof silent.out) == 0, "run_floats gives the pairs of a silent CD");
    check(are_floats_of(floats.floats, silent.out, 2 * PAIRS), "run_floats gives the floats of a silent CD");
    check(same_cores(&cores[0], &cores[1]) && same_cores(&cores[0], &cores[2]),
          "no CD leaves what a silent one leaves");
    for (int k = 0; k < 3; k++)
        core_free(&cores[k]);
}

static void test_runs(void)
{
    const size_t lengths[] = {0, 1, 2, 3, 29, PAIRS};
    for (size_t k = 0; k < sizeof lengths / sizeof *lengths; k++)
        for (uint64_t seed = 1; seed <= 4; seed++)
            test_run(seed <= 2 ? SMALL : LARGE, seed, lengths[k]);
    for (uint64_t seed = 1; seed <= 4; seed++)
        test_no_cd(seed <= 2 ? SMALL : LARGE, seed);
}

/* ---- cores and states apart from each other */

static void test_side_by_side(void)
{
    static int16_t cd[2 * PAIRS];
    static struct played alone[2], beside[2];
    struct core cores[2], others[2];
    uint64_t seed = 11;
    random_samples(&seed, cd, 2 * PAIRS);
    for (int n = 0; n < 2; n++) {
        must_make_composed(&cores[n], n == 0 ? SMALL : LARGE, 5 + (uint64_t)n);
        must_make_composed(&others[n], cores[n].size, 5 + (uint64_t)n);
        play_singly(&cores[n], cd, PAIRS, &alone[n]);
    }
    for (size_t k = 0; k < PAIRS; k++)
        for (int n = 0; n < 2; n++) {
            struct tenonwhisk_ticked ticked = core_tick(&others[n], cd[2 * k], cd[2 * k + 1]);
            beside[n].out[2 * k] = ticked.left;
            beside[n].out[2 * k + 1] = ticked.right;
        }
    for (int n = 0; n < 2; n++) {
        check(memcmp(alone[n].out, beside[n].out, sizeof alone[n].out) == 0, "two cores give what each gives alone");
        check(same_cores(&cores[n], &others[n]), "and leave what each leaves alone");
        core_free(&cores[n]);
        core_free(&others[n]);
    }
}

static void test_restored(void)
{
    static int16_t cd[2 * PAIRS], out[2 * PAIRS], again[2 * PAIRS];
    struct core core, kept;
    must_make_composed(&core, SMALL, 9);
    core_run(&core, cd, out, PAIRS);
    must_make(&kept, SMALL);
    memcpy(kept.state, core.state, sizeof core.state);
    memcpy(kept.ram, core.ram, SMALL);
    memcpy(kept.marks, core.marks, SMALL / 16);
    core_run(&core, cd, out, PAIRS);
    core_run(&kept, cd, again, PAIRS);
    check(memcmp(out, again, sizeof out) == 0, "a copied state goes on the same");
    check(same_cores(&core, &kept), "and leaves the same");
    core_free(&core);
    core_free(&kept);
}

/* Sets bits of a register in the state, past the calls. */
static void hold(struct core *core, uint32_t offset, uint16_t bits)
{
    uint16_t held = core_read(core, offset).value | bits;
    core->state[AT_REGISTERS + offset / 2] = held;
    struct tenonwhisk_reading reading = core_read(core, offset);
    check(reading.number == 0 && reading.value == held, "%03Xh holds %04Xh", (unsigned)offset, held);
}

/* A state from elsewhere may hold undocumented bits. It is good, and no rule looks at them. */
static void test_undocumented_held(void)
{
    static int16_t cd[2 * PAIRS], out[2 * PAIRS], again[2 * PAIRS];
    struct core core, holding;
    struct core *both[] = {&core, &holding};
    for (int k = 0; k < 2; k++) {
        must_make_composed(both[k], SMALL, 1);
        for (uint32_t at = 0; at < 0x180; at += 0x10)
            WRITE_ALL(both[k], {at + 10, 0x4840}); /* sustain falls, so that its shift is heard */
    }
    for (uint32_t at = 0; at < 0x180; at += 0x10)
        hold(&holding, at + 10, 0x2000);
    for (uint32_t offset = 0x18A; offset <= 0x19A; offset += 4)
        hold(&holding, offset, 0xFF00);
    hold(&holding, 0x1AC, 0xFFF1);
    struct tenonwhisk_ran ran = core_run(&core, cd, out, PAIRS);
    check(same_ran(ran, core_run(&holding, cd, again, PAIRS)), "undocumented bits that a state holds change no report");
    check(sounds(out, 2 * PAIRS) && memcmp(out, again, sizeof out) == 0, "and no sound");
    check(memcmp(core.ram, holding.ram, SMALL) == 0 && memcmp(core.marks, holding.marks, SMALL / 16) == 0,
          "and nothing in RAM and marks");
    check(core_read(&holding, 0x1AC).value == 0xFFF5 && core_read(&holding, 0x18A).value == 0xFFFF, "and stay");
    core_free(&core);
    core_free(&holding);
}

/* ---- the edges of document 01 that are run and compared */

static void test_lowest_mix(void)
{
    struct core core;
    const uint16_t lowest[8] = {0x0700, 0x8888, 0x8888, 0x8888, 0x8888, 0x8888, 0x8888, 0x8888};
    must_make(&core, SMALL);
    apply_control(&core, 0xC010);
    WRITE_ALL(&core, {0x180, 0x4000}, {0x182, 0x3FFF}, {0x1A6, 0x200});
    core_transfer_in(&core, lowest, 8);
    for (uint32_t at = 0; at <= 0x10; at += 0x10)
        WRITE_ALL(&core, {at, 0x3FFF}, {at + 2, 0x3FFF}, {at + 4, 0x1000}, {at + 6, 0x200}, {at + 8, 0x000F});
    WRITE_ALL(&core, {0x188, 3});
    struct tenonwhisk_ticked ticked = {0};
    for (int k = 0; k < 12; k++)
        ticked = core_tick(&core, 0, 0);
    check(ticked.left == 0x7FFF, "a mix of -8000h at main volume 4000h answers 7FFFh, not %d", ticked.left);
    check(ticked.right == -0x7FFE, "and at 3FFFh -7FFEh, not %d", ticked.right);
    core_free(&core);
}

static void test_33_halfwords(void)
{
    struct core core;
    uint16_t values[33], back[33];
    must_make(&core, SMALL);
    for (uint16_t k = 0; k < 33; k++)
        values[k] = (uint16_t)(0x1111 * k + 1);
    apply_control(&core, 0xC020);
    WRITE_ALL(&core, {0x1A6, 0x200});
    check(core_transfer_in(&core, values, 33).number == 7, "33 halfwords give 7");
    check(core_transfer_in(&core, values, 32).count == 32, "32 halfwords move");
    apply_control(&core, 0xC030);
    WRITE_ALL(&core, {0x1A6, 0x200});
    check(core_transfer_out(&core, back, 33).number == 7, "33 outward too");
    check(core_transfer_out(&core, back, 32).count == 32, "and 32 move");
    check(memcmp(values, back, 32 * sizeof *back) == 0, "and are the same");
    core_free(&core);
}

/* A voice plays a block at L-8, of which so many halfwords are loaded. */
static void start_at_end(struct core *core, size_t loaded)
{
    const uint16_t block[8] = {0x0700, 0x7777, 0x7777, 0x7777, 0x7777, 0x7777, 0x7777, 0x7777};
    must_make(core, SMALL);
    apply_control(core, 0xC010);
    WRITE_ALL(core, {0x180, 0x3FFF}, {0x182, 0x3FFF}, {0x1A6, 0x1FFF}, {0, 0x3FFF}, {2, 0x3FFF}, {4, 0x1000},
              {6, 0x1FFF}, {8, 0x000F});
    core_transfer_in(core, block, loaded);
    WRITE_ALL(core, {0x188, 1});
}

static void test_block_at_end(void)
{
    const int16_t cd[2 * 28] = {0};
    int16_t out[2 * 28];
    struct core core;
    start_at_end(&core, 8);
    check(core_run(&core, cd, out, 27).doubt == 27, "a block at L-8 is loaded wrapped");
    check(out[2 * 6] > 0x6000 && out[2 * 26] > 0x6000, "and plays, its second half too");
    check(core_view_number(&core, SMALL - 8) == 8 && !core_block_view(&core, SMALL - 8), "its view gives 8");
    core_free(&core);
    start_at_end(&core, 4);
    check(core_tick(&core, 0, 0).doubt, "its second half are the bytes at 0, which nobody loaded here");
    core_free(&core);
}

/* ---- words */

static void test_words(void)
{
    const char *none = "a number that no call gives";
    check(strcmp(tenonwhisk_words(TENONWHISK_DONE), "done") == 0, "0 is done");
    for (unsigned number = 0; number <= UINT8_MAX; number++) {
        const char *words = tenonwhisk_words((uint8_t)number);
        bool given = number <= TENONWHISK_XA_LENGTH || (number >= TENONWHISK_ENCODER && number <= TENONWHISK_BUFFERS);
        check((strcmp(words, none) != 0) == given, "words of %u", number);
        for (unsigned other = 0; given && other < number; other++)
            check(strcmp(words, tenonwhisk_words((uint8_t)other)) != 0, "%u and %u differ", number, other);
    }
}

static void test_size(uint32_t size)
{
    test_lengths(size);
    test_views(size);
    test_ranges(size);
    test_reset(size);
}

int main(int argc, char **argv)
{
    unsigned long states = argc > 1 ? strtoul(argv[1], NULL, 10) : DAMAGED;
    test_make();
    test_size(SMALL);
    test_size(LARGE);
    test_registers();
    test_bits();
    test_order();
    test_transfers();
    test_run_buffers();
    test_sizes();
    test_damaged_states(SMALL, states);
    test_damaged_states(LARGE, states / 100);
    test_seen();
    test_tick_number();
    test_noise(argc > 1 ? 217 : 1);
    test_runs();
    test_side_by_side();
    test_restored();
    test_undocumented_held();
    test_lowest_mix();
    test_33_halfwords();
    test_block_at_end();
    test_words();
    test_banks();
    test_xa();
    test_encoder();
    return all_passed() ? EXIT_SUCCESS : EXIT_FAILURE;
}
