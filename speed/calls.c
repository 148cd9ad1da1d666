/* calls SCENE CALLS: makes one call again and again through the C interface, and prints the nanoseconds of a call. Two runs that differ in CALLS alone differ by the
 * calls between them alone. */
#define _POSIX_C_SOURCE 200809L
#include "../host/c/core.h"

#include <stdio.h>
#include <stdlib.h>
#include <string.h>
#include <time.h>

enum { HALFWORDS = 32 };

struct scene {
    const char *name;
    uint8_t (*call)(struct core *core, const struct scene *scene);
    uint8_t number; /* that the call gives */
    uint32_t offset;
    uint16_t value;
};

static uint8_t write_register(struct core *core, const struct scene *scene)
{
    return core_write(core, scene->offset, scene->value);
}

static uint8_t read_register(struct core *core, const struct scene *scene)
{
    return core_read(core, scene->offset).number;
}

static uint8_t transfer(struct core *core, const struct scene *scene)
{
    static const uint16_t values[HALFWORDS] = {0x1234, 0x5678};
    (void)scene;
    return core_transfer_in(core, values, HALFWORDS).number;
}

static const struct scene scenes[] = {
    {"write-pitch", write_register, TENONWHISK_DONE, 0x004, 0x1000},
    {"write-adsr", write_register, TENONWHISK_DONE, 0x00A, 0x5FC0},
    {"write-flags", write_register, TENONWHISK_DONE, 0x19A, 0x00FF},
    {"write-keys", write_register, TENONWHISK_DONE, 0x188, 0xFFFF}, /* 16 voices start */
    {"write-control", write_register, TENONWHISK_DONE, 0x1AA, 0xC000},
    {"refused-5", write_register, TENONWHISK_NOT_CARRIED, 0x1AC, 0x0006},
    {"refused-11", write_register, TENONWHISK_UNDOCUMENTED, 0x1AC, 0x0014},
    {"read-status", read_register, TENONWHISK_DONE, 0x1AE, 0}, /* SPUSTAT */
    {"read-endx", read_register, TENONWHISK_DONE, 0x19C, 0},
    {"transfer-32", transfer, TENONWHISK_DONE, 0, 0}, /* inward */
};

static double now(void)
{
    struct timespec time;
    clock_gettime(CLOCK_MONOTONIC, &time);
    return (double)time.tv_sec * 1e9 + (double)time.tv_nsec;
}

static const struct scene *find(const char *name)
{
    for (size_t k = 0; k < sizeof scenes / sizeof *scenes; k++)
        if (strcmp(scenes[k].name, name) == 0)
            return &scenes[k];
    return NULL;
}

int main(int argc, char **argv)
{
    const struct scene *scene = argc == 3 ? find(argv[1]) : NULL;
    uint32_t calls = scene ? (uint32_t)strtoul(argv[2], NULL, 0) : 0;
    struct core core;
    if (calls == 0 || !core_make(&core, 65536)) {
        fputs("usage: calls SCENE CALLS\n", stderr);
        return EXIT_FAILURE;
    }
    core_write(&core, 0x1AA, 0xC010);
    core_tick(&core, 0, 0); /* applies the transfer mode */
    double start = now();
    for (uint32_t k = 0; k < calls; k++)
        if (scene->call(&core, scene) != scene->number) {
            fprintf(stderr, "%s does not give %d\n", scene->name, scene->number);
            return EXIT_FAILURE;
        }
    printf("%.0f\n", (now() - start) / calls);
    core_free(&core);
    return EXIT_SUCCESS;
}
