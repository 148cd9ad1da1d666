/* encoder SCENE CALLS: checks a sound of a scene through the C interface, again and again, and prints the nanoseconds of
 * a call. Two runs that differ in CALLS alone differ by the calls between them alone. */
#define _POSIX_C_SOURCE 200809L
#include "../host/tenonwhisk.h"

#include <stdio.h>
#include <stdlib.h>
#include <string.h>
#include <time.h>

enum { BLOCKS = 256 };

static int16_t originals[BLOCKS * TENONWHISK_BLOCK_SAMPLES];
static uint8_t blocks[BLOCKS * TENONWHISK_BLOCK_BYTES];

struct scene {
    const char *name;
    uint16_t largest;
    size_t originals; /* how many are lent */
    uint8_t number;
    bool yes;
};

static const struct scene scenes[] = {
    {"yes", UINT16_MAX, BLOCKS * TENONWHISK_BLOCK_SAMPLES, TENONWHISK_DONE, true},
    {"no-at-last", UINT16_MAX, BLOCKS * TENONWHISK_BLOCK_SAMPLES, TENONWHISK_DONE, false},
    {"no-at-first", 0, BLOCKS * TENONWHISK_BLOCK_SAMPLES, TENONWHISK_DONE, false},
    {"refused-23", UINT16_MAX, BLOCKS * TENONWHISK_BLOCK_SAMPLES - 1, TENONWHISK_ENCODER, false},
};

static const struct scene *find(const char *name)
{
    for (size_t k = 0; k < sizeof scenes / sizeof *scenes; k++)
        if (strcmp(scenes[k].name, name) == 0)
            return &scenes[k];
    return NULL;
}

/* The next of a row of numbers without a pattern. */
static uint8_t next(void)
{
    static uint32_t seed = 1;
    seed = seed * 1664525 + 1013904223;
    return (uint8_t)(seed >> 24);
}

/* All filters by turns, at shifts with which a sample hardly ever reaches the ends of the range. */
static void make(const struct scene *scene)
{
    for (size_t k = 0; k < sizeof originals / sizeof *originals; k++)
        originals[k] = (int16_t)(next() - 128);
    for (size_t k = 0; k < sizeof blocks; k++)
        blocks[k] = next();
    for (size_t n = 0; n < BLOCKS; n++) {
        uint8_t *block = blocks + n * TENONWHISK_BLOCK_BYTES;
        block[0] = (uint8_t)(n % 5 << 4 | (6 + next() % 4));
        block[1] = n + 1 == BLOCKS;
    }
    if (scene->largest != 0 && !scene->yes)
        blocks[sizeof blocks - 15] = 0;
}

static int run(const struct scene *scene, long calls)
{
    struct timespec begin, end;
    clock_gettime(CLOCK_MONOTONIC, &begin);
    for (long k = 0; k < calls; k++) {
        struct tenonwhisk_encoder_verdict verdict =
            tenonwhisk_encoder_check(originals, scene->originals, blocks, sizeof blocks, scene->largest);
        if (verdict.number != scene->number || verdict.yes != scene->yes) {
            fprintf(stderr, "encoder: another verdict: number %d, yes %d\n", verdict.number, verdict.yes);
            return EXIT_FAILURE;
        }
    }
    clock_gettime(CLOCK_MONOTONIC, &end);
    printf("%ld\n", ((end.tv_sec - begin.tv_sec) * 1000000000L + (end.tv_nsec - begin.tv_nsec)) / calls);
    return EXIT_SUCCESS;
}

int main(int argc, char **argv)
{
    const struct scene *scene = argc == 3 ? find(argv[1]) : NULL;
    long calls = scene ? atol(argv[2]) : 0;
    if (calls < 1) {
        fprintf(stderr, "usage: encoder SCENE CALLS\n");
        return EXIT_FAILURE;
    }
    make(scene);
    return run(scene, calls);
}
