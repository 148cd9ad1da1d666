/* xa SCENE CALLS: decodes sectors of a scene through the C interface, one after the other, and prints the nanoseconds of
 * a sector. Two runs that differ in CALLS alone differ by the calls between them alone. */
#define _POSIX_C_SOURCE 200809L
#include "../host/tenonwhisk.h"

#include <stdio.h>
#include <stdlib.h>
#include <string.h>
#include <time.h>

enum { GROUPS = 18, UNITS = 8, SECTORS = 16 };

static uint8_t sectors[SECTORS][TENONWHISK_XA_SECTOR_BYTES];
static int16_t out[TENONWHISK_XA_SAMPLES];

/* The next of a row of numbers without a pattern. */
static uint8_t next(void)
{
    static uint32_t seed = 1;
    seed = seed * 1664525 + 1013904223;
    return (uint8_t)(seed >> 24);
}

static void set_header(uint8_t *group, int unit, uint8_t header)
{
    group[4 + unit] = header;
    group[unit < 4 ? unit : 8 + unit] = header;
}

/* All filters by turns. Loud sectors reach the ends of the range, quiet ones hardly ever. */
static void make_sector(uint8_t *sector, bool loud)
{
    for (int k = 0; k < TENONWHISK_XA_SECTOR_BYTES; k++)
        sector[k] = next();
    for (int k = 0; k < GROUPS * UNITS; k++)
        set_header(sector + 128 * (k / UNITS), k % UNITS, (uint8_t)((k / 2 + k) % 4 << 4 | (loud ? 0 : 6 + next() % 4)));
}

struct scene {
    const char *name;
    bool stereo;
    bool loud;
    uint8_t number;
};

static const struct scene scenes[] = {
    {"mono", false, false, TENONWHISK_DONE},          {"stereo", true, false, TENONWHISK_DONE},
    {"mono-loud", false, true, TENONWHISK_DONE},      {"stereo-loud", true, true, TENONWHISK_DONE},
    {"refused-12", true, false, TENONWHISK_XA_COPIES},
};

static const struct scene *find(const char *name)
{
    for (size_t k = 0; k < sizeof scenes / sizeof *scenes; k++)
        if (strcmp(scenes[k].name, name) == 0)
            return &scenes[k];
    return NULL;
}

static void make(const struct scene *scene)
{
    for (int k = 0; k < SECTORS; k++) {
        make_sector(sectors[k], scene->loud);
        if (scene->number == TENONWHISK_XA_COPIES)
            sectors[k][128 * (GROUPS - 1) + 15] ^= 1;
    }
}

static int run(const struct scene *scene, long calls)
{
    struct tenonwhisk_xa_histories histories = tenonwhisk_xa_fresh();
    struct timespec begin, end;
    clock_gettime(CLOCK_MONOTONIC, &begin);
    for (long k = 0; k < calls; k++) {
        struct tenonwhisk_xa_decoded decoded =
            tenonwhisk_xa_decode(sectors[k % SECTORS], TENONWHISK_XA_SECTOR_BYTES, scene->stereo, false, histories, out,
                                 TENONWHISK_XA_SAMPLES);
        if (decoded.number != scene->number) {
            fprintf(stderr, "xa: refused: %s\n", tenonwhisk_words(decoded.number));
            return EXIT_FAILURE;
        }
        histories = decoded.histories;
    }
    clock_gettime(CLOCK_MONOTONIC, &end);
    printf("%ld\n", ((end.tv_sec - begin.tv_sec) * 1000000000L + (end.tv_nsec - begin.tv_nsec)) / calls);
    return EXIT_SUCCESS;
}

int main(int argc, char **argv)
{
    const struct scene *scene = argc == 3 ? find(argv[1]) : NULL;
    long calls = scene ? atol(argv[2]) : 0;
    if (calls < 1) {
        fprintf(stderr, "usage: xa SCENE CALLS\n");
        return EXIT_FAILURE;
    }
    make(scene);
    return run(scene, calls);
}
