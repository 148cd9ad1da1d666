#include "scenes.h"
#include "check.h"

#include <stdio.h>
#include <stdlib.h>
#include <string.h>

void must_make(struct core *core, uint32_t size)
{
    if (core_make(core, size))
        return;
    fputs("not enough memory\n", stderr);
    exit(EXIT_FAILURE);
}

void write_all(struct core *core, const struct setting *settings, size_t count)
{
    for (size_t k = 0; k < count; k++)
        check(core_write(core, settings[k].offset, (uint16_t)settings[k].value) == 0, "write");
}

void apply_control(struct core *core, uint32_t control)
{
    WRITE_ALL(core, {0x1AA, control});
    core_tick(core, 0, 0);
}

/* Loads four random blocks at unit 200h, which loop or run on into what follows. */
static void load_sample(struct core *core, uint64_t *seed, bool looped)
{
    uint16_t halfwords[32];
    for (size_t k = 0; k < 32; k++)
        halfwords[k] = (uint16_t)random32(seed);
    for (size_t block = 0; block < 4; block++) {
        uint32_t flags = block == 0 ? 4 : block == 3 && looped ? 3 : 0;
        halfwords[8 * block] = (uint16_t)(flags << 8 | below(seed, 5) << 4 | below(seed, 5));
    }
    apply_control(core, 0xC010);
    WRITE_ALL(core, {0x1A6, 0x200});
    check(core_transfer_in(core, halfwords, 32).count == 32, "a sample is loaded");
}

static void start_voices(struct core *core, uint64_t *seed)
{
    for (uint32_t at = 0; at < 0x180; at += 0x10)
        WRITE_ALL(core, {at, below(seed, 0x8000)}, {at + 2, below(seed, 0x8000)}, {at + 4, 0x800 + below(seed, 0x1000)},
                  {at + 6, 0x200}, {at + 8, 0x80FF}, {at + 10, 0x1FC0});
    WRITE_ALL(core, {0x190, 0x0A0A}, {0x194, 0x0400}, {0x188, 0xFFFF}, {0x18A, 0xFF});
}

/* Marks everything. The reverb has random registers, and the interrupt comes when capture reaches 200h. */
static void start_reverb(struct core *core, uint64_t *seed)
{
    memset(core->marks, 0xFF, core->size / 16);
    WRITE_ALL(core, {0x1A2, core->size / 8 - 0x800}, {0x184, 0x7FFF}, {0x186, 0x5000}, {0x198, 0xFFFF}, {0x19A, 0xFF},
              {0x1B0, 0x4000}, {0x1B2, 0x6000}, {0x1A4, 0x40});
    for (uint32_t offset = 0x1C0; offset < 0x200; offset += 2)
        WRITE_ALL(core, {offset, below(seed, 0x8000)});
    WRITE_ALL(core, {0x1AA, 0xC0C5});
}

static void compose(struct core *core, uint64_t seed)
{
    bool reverb = seed % 2 == 1;
    WRITE_ALL(core, {0x180, 0x3FFF}, {0x182, 0x2FFF});
    load_sample(core, &seed, reverb);
    start_voices(core, &seed);
    if (reverb)
        start_reverb(core, &seed);
}

void must_make_composed(struct core *core, uint32_t size, uint64_t seed)
{
    must_make(core, size);
    compose(core, seed);
}
