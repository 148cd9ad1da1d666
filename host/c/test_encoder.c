#include "test_encoder.h"
#include "../tenonwhisk.h"
#include "check.h"
#include "lent.h"

#include <stdlib.h>
#include <string.h>

enum { BYTES = TENONWHISK_BLOCK_BYTES, IN_BLOCK = TENONWHISK_BLOCK_SAMPLES, MOST_BLOCKS = 4, FILLER = 0xA5 };

/* Headers of blocks, byte 0: the shift in the low half, the filter above it. Filter 0 and shift 12 give each sample as
 * its 4 bits. */
enum { PLAIN = 0x0C, FILTER_5 = 0x5C };
enum { NO_FLAG = 0, END = 1 };

/* ---- sounds: originals and encoded bytes, of which the first few are handed in */

struct sound {
    int16_t originals[MOST_BLOCKS * IN_BLOCK];
    uint8_t bytes[MOST_BLOCKS * BYTES];
    size_t samples;
    size_t length; /* of the encoded bytes */
};

static void put_header(struct sound *sound, size_t block, int header, int flags)
{
    sound->bytes[block * BYTES] = (uint8_t)header;
    sound->bytes[block * BYTES + 1] = (uint8_t)flags;
}

/* Puts the 4 bits of a sample in the place of zeros. */
static void put_sample(struct sound *sound, size_t sample, int bits)
{
    size_t within = sample % IN_BLOCK;
    sound->bytes[sample / IN_BLOCK * BYTES + 2 + within / 2] |= (uint8_t)(bits << 4 * (within % 2));
}

/* Groups of zeros, and blocks of zeros of which the last has the end flag. */
static struct sound silence(size_t groups, size_t blocks)
{
    struct sound sound = {.samples = groups * IN_BLOCK, .length = blocks * BYTES};
    for (size_t n = 0; n < blocks; n++)
        put_header(&sound, n, PLAIN, n + 1 == blocks ? END : NO_FLAG);
    return sound;
}

/* ---- the call, on memory that is allocated at its exact length, so that memcheck sees an access outside it */

static struct tenonwhisk_encoder_verdict verdict_on(const struct sound *sound, uint16_t largest)
{
    size_t bytes = sound->samples * sizeof *sound->originals;
    int16_t *originals = memcpy(lent_allocate(bytes), sound->originals, bytes);
    uint8_t *blocks = memcpy(lent_allocate(sound->length), sound->bytes, sound->length);
    struct tenonwhisk_encoder_verdict verdict =
        tenonwhisk_encoder_check(originals, sound->samples, blocks, sound->length, largest);
    check(memcmp(originals, sound->originals, bytes) == 0 && memcmp(blocks, sound->bytes, sound->length) == 0,
          "the check only reads");
    free(originals);
    free(blocks);
    return verdict;
}

static void expect(const struct sound *sound, uint16_t largest, struct tenonwhisk_encoder_verdict expected)
{
    struct tenonwhisk_encoder_verdict given = verdict_on(sound, largest);
    check(given.number == expected.number && given.yes == expected.yes && given.unpaired == expected.unpaired &&
              given.end_flag == expected.end_flag && given.filter == expected.filter && given.block == expected.block &&
              given.sample == expected.sample,
          "verdict on %zu samples and %zu bytes, largest %d: number %d, yes %d, unpaired %d, end flag %d, filter %d, "
          "block %zu, sample %zu; not %d, %d, %d, %d, %d, %zu, %zu",
          sound->samples, sound->length, largest, given.number, given.yes, given.unpaired, given.end_flag, given.filter,
          given.block, given.sample, expected.number, expected.yes, expected.unpaired, expected.end_flag,
          expected.filter, expected.block, expected.sample);
}

static void expect_yes(const struct sound *sound, uint16_t largest)
{
    expect(sound, largest, (struct tenonwhisk_encoder_verdict){.yes = true});
}

static void expect_refused(const struct sound *sound, uint16_t largest)
{
    expect(sound, largest, (struct tenonwhisk_encoder_verdict){.number = 23});
}

static void expect_unpaired(const struct sound *sound, uint16_t largest, size_t block)
{
    expect(sound, largest, (struct tenonwhisk_encoder_verdict){.unpaired = true, .block = block, .sample = IN_BLOCK});
}

static void expect_end_flag(const struct sound *sound, uint16_t largest, size_t block)
{
    expect(sound, largest, (struct tenonwhisk_encoder_verdict){.end_flag = true, .block = block, .sample = IN_BLOCK});
}

static void expect_filter(const struct sound *sound, uint16_t largest, size_t block)
{
    expect(sound, largest, (struct tenonwhisk_encoder_verdict){.filter = true, .block = block, .sample = IN_BLOCK});
}

/* The sample is counted from the sound's start. */
static void expect_far(const struct sound *sound, uint16_t largest, size_t sample)
{
    struct tenonwhisk_encoder_verdict expected = {.block = sample / IN_BLOCK, .sample = sample % IN_BLOCK};
    expect(sound, largest, expected);
}

/* The sample is within this distance of its original, and no smaller one. */
static void expect_distance(const struct sound *sound, size_t sample, uint16_t distance)
{
    expect_yes(sound, distance);
    expect_yes(sound, UINT16_MAX);
    if (distance > 0) {
        expect_far(sound, (uint16_t)(distance - 1), sample);
        expect_far(sound, 0, sample);
    }
}

/* The sample decodes to this value, if those before it are equal to their originals. Leaves it as the original. */
static void expect_value(struct sound *sound, size_t sample, int16_t value)
{
    sound->originals[sample] = (int16_t)(value > 0 ? value - 1 : value + 1);
    expect_far(sound, 0, sample);
    sound->originals[sample] = value;
    struct tenonwhisk_encoder_verdict verdict = verdict_on(sound, 0);
    check(verdict.yes || verdict.block * IN_BLOCK + verdict.sample > sample, "sample %zu decodes to %d", sample, value);
}

/* ---- lengths and counts */

/* 23 goes before everything: the blocks have a filter and flags that are wrong, and all samples are far off. */
static void test_lengths(void)
{
    struct sound sound;
    memset(&sound, 0xFF, sizeof sound);
    for (sound.samples = 0; sound.samples <= 3 * IN_BLOCK; sound.samples++)
        for (sound.length = 0; sound.length <= 3 * BYTES; sound.length++)
            if (sound.samples % IN_BLOCK != 0 || sound.length % BYTES != 0)
                expect_refused(&sound, (uint16_t)(sound.samples % 2 * UINT16_MAX));
}

static void test_counts(void)
{
    for (size_t groups = 0; groups <= MOST_BLOCKS; groups++)
        for (size_t blocks = 0; blocks <= MOST_BLOCKS; blocks++) {
            struct sound sound = silence(groups, blocks);
            if (groups == blocks && blocks > 0)
                expect_yes(&sound, 0);
            else
                expect_unpaired(&sound, 0, groups < blocks ? groups : blocks);
        }
}

/* A block without originals is not looked at. */
static void test_unpaired_block(void)
{
    struct sound sound = silence(2, 3);
    put_header(&sound, 2, FILTER_5, NO_FLAG);
    put_sample(&sound, 2 * IN_BLOCK, 7);
    expect_unpaired(&sound, 0, 2);
    sound.samples = 0;
    expect_unpaired(&sound, 0, 0);
    put_header(&sound, 1, FILTER_5, NO_FLAG);
    sound.samples = IN_BLOCK;
    expect_unpaired(&sound, 0, 1);
    sound.samples = 2 * IN_BLOCK;
    expect_filter(&sound, 0, 1);
}

/* ---- the end flag and the filter */

/* Every set of end flags. The last block is that of the encoded bytes, however many originals there are. The other bits
 * of byte 1 say nothing. */
static void test_end_flags(void)
{
    for (unsigned flags = 0; flags < 1 << MOST_BLOCKS; flags++)
        for (size_t groups = 1; groups <= MOST_BLOCKS; groups++)
            for (size_t blocks = 1; blocks <= MOST_BLOCKS; blocks++) {
                struct sound sound = silence(groups, blocks);
                for (size_t n = 0; n < blocks; n++)
                    put_header(&sound, n, PLAIN, (flags >> n & 1) | (groups % 2 ? 0xFE : 0));
                size_t both = groups < blocks ? groups : blocks, first = 0;
                while (first < both && (flags >> first & 1) == (first + 1 == blocks))
                    first++;
                if (first < both)
                    expect_end_flag(&sound, 0, first);
                else if (groups == blocks)
                    expect_yes(&sound, 0);
                else
                    expect_unpaired(&sound, 0, both);
            }
}

/* Every byte 0, in every block: filters from 5 on are faults, shifts from 13 on are not, and bit 7 says nothing. */
static void test_headers(void)
{
    for (size_t block = 0; block < MOST_BLOCKS; block++)
        for (int header = 0; header <= UINT8_MAX; header++) {
            struct sound sound = silence(MOST_BLOCKS, MOST_BLOCKS);
            sound.bytes[block * BYTES] = (uint8_t)header;
            if ((header >> 4 & 7) <= 4)
                expect_yes(&sound, 0);
            else
                expect_filter(&sound, UINT16_MAX, block);
        }
}

/* ---- samples */

/* Each of the samples by itself is off by 7 or 8. */
static void test_places(void)
{
    for (size_t sample = 0; sample < 3 * IN_BLOCK; sample++)
        for (int negative = 0; negative < 2; negative++) {
            struct sound sound = silence(3, 3);
            put_sample(&sound, sample, negative ? 8 : 7);
            expect_distance(&sound, sample, negative ? 8 : 7);
            sound.originals[sample] = negative ? -8 : 7;
            expect_distance(&sound, sample, 0);
            sound.originals[sample] = 100;
            expect_distance(&sound, sample, negative ? 108 : 93);
            sound.originals[sample] = -100;
            expect_distance(&sound, sample, negative ? 92 : 107);
        }
}

/* The first sample of block 1, worked out by hand: its bits x 2^(12 - shift) + (K0 old + K1 older + 32) / 64, rounded
 * down and limited, where K0 and K1 are 0 and 0, 60 and 0, 115 and -52, 98 and -55, 122 and -60. The last two samples
 * of block 0 are 2 x 4,096 = 8,192 and 6 x 4,096 = 24,576, or the same with a minus. */
static void test_filters(void)
{
    static const struct {
        int header;
        int bits;
        int16_t after;       /* 8,192 and 24,576 */
        int16_t after_minus; /* -8,192 and -24,576 */
    } cases[] = {
        {0x0C, 0x7, 7, 7},           /* 7 x 1 */
        {0x00, 0x9, -28672, -28672}, /* -7 x 4,096 */
        {0x1C, 0x0, 23040, -23040},  /* 1,474,592 / 64 = 23,040.5, -1,474,528 / 64 = -23,039.5 */
        {0x2C, 0x0, 32767, -32768},  /* 37,504 and -37,504, limited */
        {0x2C, 0xC, 32767, -32768},  /* and 4 less */
        {0x20, 0x8, 4736, -32768},   /* 37,504 - 32,768 */
        {0x3C, 0x1, 30593, -30591},  /* 30,592 + 1 */
        {0x4C, 0x0, 32767, -32768},  /* 39,168, limited */
        {0x40, 0x9, 10496, -32768},  /* 39,168 - 28,672 */
        {0x19, 0x9, 22984, -23096},  /* 23,040 - 56 */
        {0x1D, 0x9, 22984, -23096},  /* shift 13 is 9 */
        {0x1E, 0x9, 22984, -23096},  /* so is 14 */
        {0x1F, 0x9, 22984, -23096},  /* and 15 */
        {0x9F, 0x9, 22984, -23096},  /* bit 7 says nothing */
        {0x1B, 0xF, 23038, -23042},  /* 23,040 - 2 */
        {0x11, 0x7, 32767, -8704},   /* 23,040 + 14,336, limited; -23,040 + 14,336 */
    };
    for (size_t k = 0; k < sizeof cases / sizeof *cases; k++)
        for (int minus = 0; minus < 2; minus++) {
            struct sound sound = silence(2, 2);
            put_header(&sound, 0, 0x00, NO_FLAG);
            put_header(&sound, 1, cases[k].header, END);
            put_sample(&sound, IN_BLOCK - 2, minus ? 0xE : 0x2);
            put_sample(&sound, IN_BLOCK - 1, minus ? 0xA : 0x6);
            put_sample(&sound, IN_BLOCK, cases[k].bits);
            sound.originals[IN_BLOCK - 2] = minus ? -8192 : 8192;
            sound.originals[IN_BLOCK - 1] = minus ? -24576 : 24576;
            expect_value(&sound, IN_BLOCK, minus ? cases[k].after_minus : cases[k].after);
        }
}

/* The first samples of a sound, by the same formula: 4,096, and then without bits. */
static void test_beginnings(void)
{
    static const struct {
        int header;
        int16_t values[4];
    } cases[] = {
        {0x00, {4096, 0, 0, 0}},
        {0x10, {4096, 3840, 3600, 3375}},
        {0x20, {4096, 7360, 9897, 11804}}, /* 471,072 / 64, 633,440 / 64, 755,467 / 64 */
        {0x30, {4096, 6272, 6084, 3926}},  /* 401,440 / 64, 389,408 / 64, 251,304 / 64 */
        {0x40, {4096, 7808, 11044, 13733}} /* 499,744 / 64, 706,848 / 64, 878,920 / 64 */
    };
    for (size_t k = 0; k < sizeof cases / sizeof *cases; k++) {
        struct sound sound = silence(1, 1);
        put_header(&sound, 0, cases[k].header, END);
        put_sample(&sound, 0, 1);
        for (size_t n = 0; n < 4; n++)
            expect_value(&sound, n, cases[k].values[n]);
    }
}

/* Filter 1 without bits: each sample is 60/64 of the one before, from block to block. */
static void test_carried(void)
{
    struct sound sound = silence(3, 3);
    for (size_t n = 0; n < 3; n++)
        put_header(&sound, n, 0x10, n == 2 ? END : NO_FLAG);
    put_sample(&sound, 0, 7);
    sound.originals[0] = 28672;
    for (size_t n = 1; n < 3 * IN_BLOCK; n++)
        sound.originals[n] = (int16_t)((60 * sound.originals[n - 1] + 32) / 64);
    check(sound.originals[2] == 25200 && sound.originals[IN_BLOCK] > 4000, "samples that are not zero");
    expect_yes(&sound, 0);
    for (size_t n = 0; n < 3 * IN_BLOCK; n++) {
        sound.originals[n] -= 5;
        expect_distance(&sound, n, 5);
        sound.originals[n] += 5;
    }
}

/* The largest differences: from 32,767 to -32,768. */
static void test_farthest(void)
{
    struct sound low = silence(1, 1), high = silence(1, 1);
    put_header(&low, 0, 0x00, END);
    put_sample(&low, 3, 8);
    low.originals[3] = INT16_MAX;
    expect_distance(&low, 3, UINT16_MAX);
    low.originals[3] = INT16_MAX - 1;
    expect_distance(&low, 3, UINT16_MAX - 1);
    low.originals[3] = 0;
    expect_distance(&low, 3, 32768);
    low.originals[3] = -1;
    expect_distance(&low, 3, 32767);

    put_header(&high, 0, 0x10, END); /* filter 1: 28,672, and then 28,672 + 26,880, limited */
    put_sample(&high, 0, 7);
    put_sample(&high, 1, 7);
    high.originals[1] = INT16_MIN;
    expect_yes(&high, UINT16_MAX);
    expect_far(&high, UINT16_MAX - 1, 1);
    high.originals[1] = 0;
    expect_yes(&high, 32767);
    expect_far(&high, 32766, 1);
}

/* ---- more than one fault */

static void test_first(void)
{
    struct sound sound = silence(4, 4);
    put_header(&sound, 1, 0x7C, END);
    put_header(&sound, 2, FILTER_5, END);
    put_sample(&sound, IN_BLOCK + 9, 3);
    put_sample(&sound, IN_BLOCK + 20, 12);
    put_sample(&sound, 2 * IN_BLOCK, 7);
    struct tenonwhisk_encoder_verdict all = {.end_flag = true, .filter = true, .block = 1, .sample = 9};
    expect(&sound, 2, all);
    all.sample = 20;
    expect(&sound, 3, all);
    all.sample = IN_BLOCK;
    expect(&sound, 4, all);
    put_sample(&sound, IN_BLOCK - 1, 7);
    expect_far(&sound, 6, IN_BLOCK - 1);
    expect(&sound, 7, all);
}

/* Unequal counts are one fault among others. */
static void test_before_unpaired(void)
{
    struct sound long_sound = silence(4, 2), many_blocks = silence(2, 4);
    long_sound.originals[IN_BLOCK + 1] = many_blocks.originals[IN_BLOCK + 1] = 1;
    expect_far(&long_sound, 0, IN_BLOCK + 1);
    expect_far(&many_blocks, 0, IN_BLOCK + 1);
    expect_unpaired(&long_sound, 1, 2);
    expect_unpaired(&many_blocks, 1, 2);
    put_header(&long_sound, 1, PLAIN, NO_FLAG);
    put_header(&many_blocks, 1, PLAIN, END);
    expect_end_flag(&long_sound, 1, 1);
    expect_end_flag(&many_blocks, 1, 1);
}

/* ---- memory */

static void test_guards(void)
{
    enum { GUARD = 64 };
    struct sound sound = silence(2, 2);
    uint8_t bytes[2 * BYTES + 2 * GUARD];
    int16_t originals[2 * IN_BLOCK + 2 * GUARD];
    memset(bytes, FILLER, sizeof bytes);
    memset(originals, FILLER, sizeof originals);
    memcpy(bytes + GUARD, sound.bytes, sound.length);
    memcpy(originals + GUARD, sound.originals, sizeof *originals * sound.samples);
    check(tenonwhisk_encoder_check(originals + GUARD, sound.samples, bytes + GUARD, sound.length, 0).yes,
          "the check looks at nothing around what is lent");
    check(tenonwhisk_encoder_check(originals + GUARD, 0, bytes + GUARD, 0, 0).unpaired,
          "nor at what is lent with length 0");
}

void test_encoder(void)
{
    test_lengths();
    test_counts();
    test_unpaired_block();
    test_end_flags();
    test_headers();
    test_places();
    test_filters();
    test_beginnings();
    test_carried();
    test_farthest();
    test_first();
    test_before_unpaired();
    test_guards();
}
