#include "test_xa.h"
#include "../tenonwhisk.h"
#include "check.h"
#include "lent.h"

#include <stdlib.h>
#include <string.h>

enum { SECTOR_BYTES = TENONWHISK_XA_SECTOR_BYTES, SECTOR_SAMPLES = TENONWHISK_XA_SAMPLES, FILLER = 0xA5 };
enum { GROUPS = 18, GROUP_BYTES = 128, HEADER_BYTES = 16, UNITS = 8, UNIT_SAMPLES = 28 };

static const struct tenonwhisk_xa_histories some = {{1, -2}, {300, -400}, {32767, -32768}};

/* ---- sectors */

/* The copy of a header byte. */
static int copy_of(int byte)
{
    return byte ^ 4;
}

static void put_header(uint8_t *sector, int group, int unit, uint8_t header)
{
    uint8_t *bytes = sector + group * GROUP_BYTES;
    bytes[4 + unit] = bytes[copy_of(4 + unit)] = header;
}

/* Puts the 4 bits of a sample in the place of zeros. */
static void put_sample(uint8_t *sector, int group, int unit, int sample, int bits)
{
    sector[group * GROUP_BYTES + HEADER_BYTES + 4 * sample + unit / 2] |= (uint8_t)(bits << 4 * (unit % 2));
}

static void make_silent(uint8_t *sector, uint8_t header)
{
    memset(sector, 0, SECTOR_BYTES);
    for (int n = 0; n < GROUPS * UNITS; n++)
        put_header(sector, n / UNITS, n % UNITS, header);
}

/* Where a sample comes out. */
static int place_of(bool stereo, int group, int unit, int sample)
{
    int in_group = stereo ? 2 * UNIT_SAMPLES * (unit / 2) + 2 * sample + unit % 2 : UNIT_SAMPLES * unit + sample;
    return UNITS * UNIT_SAMPLES * group + in_group;
}

/* ---- calls on memory that is allocated at its exact length, so that memcheck sees an access outside it */

static bool same_histories(struct tenonwhisk_xa_histories a, struct tenonwhisk_xa_histories b)
{
    return a.left.old == b.left.old && a.left.older == b.left.older && a.right.old == b.right.old &&
           a.right.older == b.right.older && a.mono.old == b.mono.old && a.mono.older == b.mono.older;
}

static void *filled(size_t bytes)
{
    return memset(lent_allocate(bytes), FILLER, bytes);
}

static bool is_filled(const void *memory, size_t bytes)
{
    const uint8_t *at = memory;
    for (size_t k = 0; k < bytes; k++)
        if (at[k] != FILLER)
            return false;
    return true;
}

/* The sector is cut to its length, or filled up. */
static void expect_refused(const uint8_t *sector, size_t sector_len, size_t out_len, bool stereo, bool eight_bit,
                           uint8_t expected)
{
    uint8_t *lent = filled(sector_len), *before = lent_allocate(sector_len);
    int16_t *out = filled(out_len * sizeof *out);
    memcpy(lent, sector, sector_len < SECTOR_BYTES ? sector_len : SECTOR_BYTES);
    memcpy(before, lent, sector_len);
    struct tenonwhisk_xa_decoded decoded =
        tenonwhisk_xa_decode(lent, sector_len, stereo, eight_bit, some, out, out_len);
    check(decoded.number == expected, "decode of %zu bytes to %zu samples gives %d, not %d", sector_len, out_len,
          decoded.number, expected);
    check(same_histories(decoded.histories, some), "decode refused with %d hands the histories back", expected);
    check(memcmp(lent, before, sector_len) == 0 && is_filled(out, out_len * sizeof *out),
          "decode refused with %d changes nothing", expected);
    free(lent);
    free(before);
    free(out);
}

/* Decodes a sector to samples, and returns the histories after it. */
static struct tenonwhisk_xa_histories decode(const uint8_t *sector, bool stereo, struct tenonwhisk_xa_histories before,
                                             int16_t *samples)
{
    uint8_t *lent = memcpy(lent_allocate(SECTOR_BYTES), sector, SECTOR_BYTES);
    int16_t *out = filled(SECTOR_SAMPLES * sizeof *out);
    struct tenonwhisk_xa_decoded decoded =
        tenonwhisk_xa_decode(lent, SECTOR_BYTES, stereo, false, before, out, SECTOR_SAMPLES);
    check(decoded.number == 0, "decode gives %d, not 0", decoded.number);
    check(memcmp(lent, sector, SECTOR_BYTES) == 0, "decode only reads the sector");
    memcpy(samples, out, SECTOR_SAMPLES * sizeof *out);
    free(lent);
    free(out);
    return decoded.histories;
}

/* ---- refusals */

/* The length goes first, then the bits, then the copies. */
static void test_order(void)
{
    static const size_t sectors[] = {
        0, 1, 128, SECTOR_BYTES - 1, SECTOR_BYTES, SECTOR_BYTES + 1, 2336, 2352, 2 * SECTOR_BYTES};
    static const size_t outs[] = {
        0, 1, SECTOR_SAMPLES / 2, SECTOR_SAMPLES - 1, SECTOR_SAMPLES, SECTOR_SAMPLES + 1, 2 * SECTOR_SAMPLES};
    uint8_t sector[SECTOR_BYTES];
    for (unsigned k = 0; k < 8; k++) {
        bool stereo = k & 1, eight_bit = k & 2, damaged = k & 4;
        make_silent(sector, 0x0C);
        sector[SECTOR_BYTES - GROUP_BYTES + 12] ^= damaged;
        for (size_t n = 0; n < sizeof sectors / sizeof *sectors; n++)
            for (size_t m = 0; m < sizeof outs / sizeof *outs; m++)
                if (sectors[n] != SECTOR_BYTES || outs[m] != SECTOR_SAMPLES)
                    expect_refused(sector, sectors[n], outs[m], stereo, eight_bit, 14);
        if (eight_bit || damaged)
            expect_refused(sector, SECTOR_BYTES, SECTOR_SAMPLES, stereo, eight_bit, eight_bit ? 13 : 12);
    }
}

/* Every bit of every header byte is compared with its copy. */
static void test_copies(void)
{
    uint8_t sector[SECTOR_BYTES];
    int16_t samples[SECTOR_SAMPLES];
    make_silent(sector, 0x1C);
    for (int group = 0; group < GROUPS; group++)
        for (int byte = 0; byte < HEADER_BYTES; byte++)
            for (int bit = 0; bit < 8; bit++) {
                uint8_t *header = sector + group * GROUP_BYTES;
                header[byte] ^= (uint8_t)(1 << bit);
                expect_refused(sector, SECTOR_BYTES, SECTOR_SAMPLES, bit % 2, false, 12);
                header[copy_of(byte)] = header[byte];
                decode(sector, bit % 2, some, samples);
                header[byte] = header[copy_of(byte)] = 0x1C;
            }
}

/* Any data is good. */
static void test_data(void)
{
    uint8_t sector[SECTOR_BYTES];
    int16_t samples[SECTOR_SAMPLES];
    make_silent(sector, 0x1C);
    for (int at = 0; at < SECTOR_BYTES; at++)
        if (at % GROUP_BYTES >= HEADER_BYTES) {
            sector[at] = (uint8_t)(1 << at % 8);
            decode(sector, at / 8 % 2, some, samples);
        }
}

/* ---- samples */

/* With filter 0 a sample is its 4 bits, moved up by 12 and down by the unit's shift. Shifts from 13 on act as 9. */
static void test_places(void)
{
    static const int shifts[16] = {0, 1, 2, 3, 4, 5, 6, 7, 8, 9, 10, 11, 12, 9, 9, 9};
    uint8_t sector[SECTOR_BYTES] = {0};
    int16_t samples[SECTOR_SAMPLES], expected[2][SECTOR_SAMPLES];
    for (int n = 0; n < SECTOR_SAMPLES; n++) {
        int group = n / 224, unit = n / UNIT_SAMPLES % UNITS, sample = n % UNIT_SAMPLES;
        int header = (3 * group + unit) % 16, bits = (5 * group + 3 * unit + 7 * sample) % 16;
        put_header(sector, group, unit, (uint8_t)header);
        put_sample(sector, group, unit, sample, bits);
        int16_t value = (int16_t)((bits < 8 ? bits : bits - 16) * 4096 / (1 << shifts[header]));
        for (int stereo = 0; stereo < 2; stereo++)
            expected[stereo][place_of(stereo, group, unit, sample)] = value;
    }
    for (int stereo = 0; stereo < 2; stereo++) {
        decode(sector, stereo, some, samples);
        check(memcmp(samples, expected[stereo], sizeof samples) == 0, "each sample comes out in its place");
    }
}

/* The first sample of a unit, worked out by hand: bits / 2^shift + (K0 old + K1 older + 32) / 64, rounded down and
 * limited, where K0 and K1 are 0 and 0, 60 and 0, 115 and -52, 98 and -55. */
static void test_filters(void)
{
    static const struct {
        uint8_t header;
        int bits;
        int16_t old;
        int16_t older;
        int16_t expected;
    } cases[] = {
        {0x00, 0x7, 1000, 500, 28672},                                        /* 7000h */
        {0x0C, 0xF, 1000, 500, -1},                                           /* F000h, moved down by 12 */
        {0x1C, 0x0, 1000, 500, 938},                                          /* 60,032 / 64 */
        {0x2C, 0x0, 1000, 500, 1391},                                         /* 89,032 / 64 = 1,391.1 */
        {0x3C, 0x0, 1000, 500, 1102},                                         /* 70,532 / 64 = 1,102.1 */
        {0x1C, 0x0, -1000, 500, -937},                                        /* -59,968 / 64 */
        {0x2C, 0x0, -1000, 500, -2203},                                       /* -140,968 / 64 = -2,202.6 */
        {0x3C, 0x0, -1000, 500, -1961},                                       /* -125,468 / 64 = -1,960.4 */
        {0x19, 0x9, 1000, 0, 882},                                            /* 938 - 56 */
        {0x1D, 0x9, 1000, 0, 882},                                            /* shift 13 is 9 */
        {0x1F, 0x9, 1000, 0, 882},                                            /* so is 15 */
        {0xD9, 0x9, 1000, 0, 882},                                            /* bits 6 and 7 say nothing */
        {0xC0, 0x8, 32767, 32767, -32768},                                    /* filter 0 */
        {0x10, 0x7, 32767, 0, 32767},                                         /* 28,672 + 30,719 */
        {0x10, 0x8, -32768, 0, -32768},                                       /* -32,768 - 30,720 */
        {0x2C, 0x7, 32767, -32768, 32767},                                    /* 7 + 85,502 */
        {0x2C, 0x8, -32768, 32767, -32768}, {0x3C, 0x0, 32767, 32767, 22015}, /* 1,409,013 / 64 = 22,015.8 */
    };
    uint8_t sector[SECTOR_BYTES];
    int16_t samples[SECTOR_SAMPLES];
    for (size_t k = 0; k < sizeof cases / sizeof *cases; k++) {
        make_silent(sector, 0);
        for (int unit = 0; unit < 2; unit++) {
            put_header(sector, 0, unit, cases[k].header);
            put_sample(sector, 0, unit, 0, cases[k].bits);
        }
        struct tenonwhisk_xa_history history = {cases[k].old, cases[k].older}, other = {-12345, 23456};
        int16_t expected = cases[k].expected;
        decode(sector, false, (struct tenonwhisk_xa_histories){other, other, history}, samples);
        check(samples[0] == expected, "mono sample of case %zu: %d, not %d", k, samples[0], expected);
        decode(sector, true, (struct tenonwhisk_xa_histories){history, other, other}, samples);
        check(samples[0] == expected, "left sample of case %zu: %d, not %d", k, samples[0], expected);
        decode(sector, true, (struct tenonwhisk_xa_histories){other, history, other}, samples);
        check(samples[1] == expected, "right sample of case %zu: %d, not %d", k, samples[1], expected);
    }
}

/* ---- histories */

static void test_fresh(void)
{
    check(same_histories(tenonwhisk_xa_fresh(), (struct tenonwhisk_xa_histories){{0, 0}, {0, 0}, {0, 0}}),
          "fresh histories are zero");
}

/* A sector leaves the last two samples of its channels, and the histories of the others as they were. */
static void test_histories(void)
{
    uint64_t seed = 1;
    uint8_t sector[SECTOR_BYTES] = {0};
    int16_t out[SECTOR_SAMPLES];
    const int16_t *end = out + SECTOR_SAMPLES;
    for (int n = 0; n < SECTOR_SAMPLES; n++)
        put_sample(sector, n / 224, n / UNIT_SAMPLES % UNITS, n % UNIT_SAMPLES, (int)below(&seed, 16));
    for (int n = 0; n < GROUPS * UNITS; n++)
        put_header(sector, n / UNITS, n % UNITS, (uint8_t)random32(&seed));
    struct tenonwhisk_xa_histories mono = decode(sector, false, some, out);
    check(same_histories(mono, (struct tenonwhisk_xa_histories){some.left, some.right, {end[-1], end[-2]}}),
          "histories after mono");
    struct tenonwhisk_xa_histories stereo = decode(sector, true, mono, out);
    check(same_histories(stereo, (struct tenonwhisk_xa_histories){{end[-2], end[-4]}, {end[-1], end[-3]}, mono.mono}),
          "histories after stereo");
}

/* Filter 1 without bits: each sample is 60/64 of the one before, from unit to unit and from group to group. */
static void test_carried(void)
{
    uint8_t sector[SECTOR_BYTES];
    int16_t out[SECTOR_SAMPLES];
    make_silent(sector, 0x10);
    struct tenonwhisk_xa_histories from = {{32000, 0}, {-32000, 0}, {25000, 0}}, after[2];
    for (int stereo = 0; stereo < 2; stereo++) {
        int16_t last[2] = {stereo ? from.left.old : from.mono.old, from.right.old};
        bool same = true;
        after[stereo] = decode(sector, stereo, from, out);
        for (int n = 0; n < SECTOR_SAMPLES; n++) {
            int16_t *old = &last[stereo ? n % 2 : 0];
            int sum = 60 * *old + 32;
            *old = (int16_t)((sum - (sum & 63)) / 64);
            same = same && out[n] == *old;
        }
        check(same, "samples rest on those before them, %s", stereo ? "stereo" : "mono");
    }
    check(after[0].left.old == 32000 && after[1].mono.old == 25000, "and on no other channel");
}

/* ---- memory */

static void test_guards(void)
{
    enum { GUARD = 64 };
    static uint8_t bytes[SECTOR_BYTES + 2 * GUARD];
    static int16_t out[SECTOR_SAMPLES + 2 * GUARD];
    for (int stereo = 0; stereo < 2; stereo++) {
        memset(bytes, FILLER, sizeof bytes);
        memset(out, FILLER, sizeof out);
        make_silent(bytes + GUARD, 0x00);
        check(tenonwhisk_xa_decode(bytes + GUARD, SECTOR_BYTES, stereo, false, some, out + GUARD, SECTOR_SAMPLES)
                      .number == 0,
              "decode between guards");
        check(out[GUARD] == 0 && out[GUARD + SECTOR_SAMPLES - 1] == 0, "it writes the first sample and the last");
        check(is_filled(out, sizeof *out * GUARD) && is_filled(out + GUARD + SECTOR_SAMPLES, sizeof *out * GUARD) &&
                  is_filled(bytes, GUARD) && is_filled(bytes + GUARD + SECTOR_BYTES, GUARD),
              "and nothing around them");
    }
}

void test_xa(void)
{
    test_fresh();
    test_order();
    test_copies();
    test_data();
    test_places();
    test_filters();
    test_histories();
    test_carried();
    test_guards();
}
