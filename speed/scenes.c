/* scenes SCENE SIZE RUNS TICKS: plays a scene, RUNS runs of TICKS ticks each, of 1 by single calls, through the C interface, and prints a sum of what is heard and the
 * nanoseconds of a tick. Two calls that differ in RUNS alone differ by the ticks between them alone. */
#define _POSIX_C_SOURCE 200809L
#include "../host/c/core.h"

#include <stdio.h>
#include <stdlib.h>
#include <string.h>
#include <time.h>

enum { MOST_TICKS = 4096 };

/* 24 looping voices, the reverb and capture on, everything marked. */
struct scene {
    const char *name;
    uint16_t pitch, pitch_step; /* of voice n: pitch + n * pitch_step */
    bool reverb;
    bool idle;
    bool noise; /* which every voice plays, and which moves in every tick */
};

static const struct scene scenes[] = {
    {"main", 0x400, 368, true, false, false}, /* pitches from 400h to 2510h */
    {"pitch-1000h", 0x1000, 0, true, false, false},
    {"pitch-3FFFh", 0x3FFF, 0, true, false, false},
    {"no-reverb", 0x400, 368, false, false, false},
    {"noise", 0x400, 368, true, false, true},
    {"idle", 0x400, 368, true, true, false},
};

/* 1C0h..1FEh, as the public page lists them for a hall. */
static const uint16_t hall[32] = {
    0x01A5, 0x0139, 0x6000, 0x5000, 0x4C00, 0xB800, 0xBC00, 0xC000, 0x6000, 0x5C00, 0x15BA,
    0x11BB, 0x14C2, 0x10BD, 0x11BC, 0x0DC1, 0x11C0, 0x0DC3, 0x0DC0, 0x09C1, 0x0BC4, 0x07C1,
    0x0A00, 0x06CD, 0x09C2, 0x05C1, 0x05C0, 0x041A, 0x0274, 0x013A, 0x8000, 0x8000,
};

static void set(struct core *core, uint32_t offset, uint32_t value)
{
    uint8_t number = core_write(core, offset, (uint16_t)value);
    if (number == 0)
        return;
    fprintf(stderr, "register %X: %s\n", (unsigned)offset, tenonwhisk_words(number));
    exit(EXIT_FAILURE);
}

/* Loops of 16 blocks in all of sound RAM, and everything marked. */
static void fill(struct core *core)
{
    for (uint32_t k = 0; k < core->size; k++)
        core->ram[k] = (uint8_t)(k % 251 * 7);
    for (uint32_t block = 0; block < core->size / 16; block++) {
        core->ram[16 * block] = 0x12;
        core->ram[16 * block + 1] = block % 16 == 0 ? 4 : block % 16 == 15 ? 3 : 0;
    }
    memset(core->marks, 0xFF, core->size / 16);
}

static void set_voice(struct core *core, const struct scene *scene, uint32_t n)
{
    uint32_t at = 0x10 * n;
    set(core, at, 0x1800);
    set(core, at + 2, 0x1400);
    set(core, at + 4, scene->pitch + n * scene->pitch_step);
    set(core, at + 6, 0x200 + n * 0x20);
    set(core, at + 8, 0x80FF);
    set(core, at + 0xA, 0x5FC0);
}

static void set_reverb(struct core *core, bool on)
{
    set(core, 0x1A2, (core->size - 0xADE0) / 8);
    for (uint32_t k = 0; k < 32; k++)
        set(core, 0x1C0 + 2 * k, hall[k]);
    set(core, 0x184, on ? 0x3000 : 0);
    set(core, 0x186, on ? 0x3000 : 0);
    set(core, 0x198, on ? 0xFFFF : 0);
    set(core, 0x19A, on ? 0x00FF : 0);
}

static void compose(struct core *core, const struct scene *scene)
{
    fill(core);
    set(core, 0x1AA, (scene->reverb ? 0xC085 : 0xC001) | (scene->noise ? 0x3C00 : 0));
    set(core, 0x180, 0x3FFF);
    set(core, 0x182, 0x3FFF);
    set(core, 0x1B0, 0x4000);
    set(core, 0x1B2, 0x4000);
    set_reverb(core, scene->reverb);
    for (uint32_t n = 0; n < 24; n++)
        set_voice(core, scene, n);
    set(core, 0x194, scene->noise ? 0xFFFF : 0);
    set(core, 0x196, scene->noise ? 0x00FF : 0);
    set(core, 0x188, scene->idle ? 0 : 0xFFFF);
    set(core, 0x18A, scene->idle ? 0 : 0x00FF);
}

static uint32_t play(struct core *core, uint32_t runs, uint32_t ticks)
{
    static int16_t cd[2 * MOST_TICKS], out[2 * MOST_TICKS];
    uint32_t sum = 0;
    for (size_t k = 0; k < 2 * MOST_TICKS; k++)
        cd[k] = 0x1234;
    for (uint32_t k = 0; k < runs; k++) {
        if (ticks == 1) {
            struct tenonwhisk_ticked ticked = core_tick(core, cd[0], cd[1]);
            sum = sum * 31 + (uint16_t)ticked.left + (uint16_t)ticked.right;
        } else {
            core_run(core, cd, out, ticks);
            sum = sum * 31 + (uint16_t)out[0] + (uint16_t)out[2 * ticks - 1];
        }
    }
    return sum;
}

static double now(void)
{
    struct timespec time;
    clock_gettime(CLOCK_MONOTONIC, &time);
    return (double)time.tv_sec * 1e9 + (double)time.tv_nsec;
}

static const struct scene *find(const char *name)
{
    for (size_t k = 0; k < sizeof scenes / sizeof *scenes; k++)
        if (strcmp(scenes[k].name, name) == 0)
            return &scenes[k];
    return NULL;
}

int main(int argc, char **argv)
{
    const struct scene *scene = argc == 5 ? find(argv[1]) : NULL;
    uint32_t runs = scene ? (uint32_t)strtoul(argv[3], NULL, 0) : 0;
    uint32_t ticks = scene ? (uint32_t)strtoul(argv[4], NULL, 0) : 0;
    struct core core;
    if (ticks == 0 || ticks > MOST_TICKS || !core_make(&core, (uint32_t)strtoul(argv[2], NULL, 0))) {
        fputs("usage: scenes main|pitch-1000h|pitch-3FFFh|no-reverb|noise|idle 65536|524288 RUNS TICKS\n", stderr);
        return EXIT_FAILURE;
    }
    compose(&core, scene);
    double start = now();
    uint32_t sum = play(&core, runs, ticks);
    printf("%u %.0f\n", (unsigned)sum, (now() - start) / runs / ticks);
    core_free(&core);
    return EXIT_SUCCESS;
}
