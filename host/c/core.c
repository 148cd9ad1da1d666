#include "core.h"

#include <stdlib.h>

#define STATE core->state, TENONWHISK_STATE_HALFWORDS
#define RAM core->ram, core->size
#define MARKS core->marks, core->size / 16

bool core_make(struct core *core, uint32_t size)
{
    *core = (struct core){.size = size};
    if (tenonwhisk_make(size, STATE) != 0)
        return false;
    core->ram = calloc(size, 1);
    core->marks = calloc(size / 16, 1);
    if (core->ram && core->marks)
        return true;
    core_free(core);
    return false;
}

void core_free(struct core *core)
{
    free(core->ram);
    free(core->marks);
    core->ram = core->marks = NULL;
}

struct tenonwhisk_overview core_status(const struct core *core)
{
    return tenonwhisk_status(STATE);
}

uint8_t core_reset(struct core *core)
{
    return tenonwhisk_reset(STATE);
}

uint8_t core_write(struct core *core, uint32_t offset, uint16_t value)
{
    return tenonwhisk_write(STATE, offset, value);
}

struct tenonwhisk_reading core_read(const struct core *core, uint32_t offset)
{
    return tenonwhisk_read(STATE, offset);
}

struct tenonwhisk_moved core_transfer_in(struct core *core, const uint16_t *values, size_t count)
{
    return tenonwhisk_transfer_in(STATE, RAM, MARKS, values, count);
}

struct tenonwhisk_moved core_transfer_out(struct core *core, uint16_t *out, size_t count)
{
    return tenonwhisk_transfer_out(STATE, RAM, MARKS, out, count);
}

struct tenonwhisk_ticked core_tick(struct core *core, int16_t cd_left, int16_t cd_right)
{
    return tenonwhisk_tick(STATE, RAM, MARKS, cd_left, cd_right);
}

struct tenonwhisk_ticked_floats core_tick_floats(struct core *core, int16_t cd_left, int16_t cd_right)
{
    return tenonwhisk_tick_floats(STATE, RAM, MARKS, cd_left, cd_right);
}

struct tenonwhisk_ran core_run(struct core *core, const int16_t *cd, int16_t *out, size_t pairs)
{
    if (!cd)
        return tenonwhisk_run(STATE, RAM, MARKS, TENONWHISK_NO_CD, out, 2 * pairs);
    return tenonwhisk_run(STATE, RAM, MARKS, cd, 2 * pairs, out, 2 * pairs);
}

struct tenonwhisk_ran core_run_floats(struct core *core, const int16_t *cd, int16_t *out, float *floats, size_t pairs)
{
    if (!cd)
        return tenonwhisk_run_floats(STATE, RAM, MARKS, TENONWHISK_NO_CD, out, 2 * pairs, floats, 2 * pairs);
    return tenonwhisk_run_floats(STATE, RAM, MARKS, cd, 2 * pairs, out, 2 * pairs, floats, 2 * pairs);
}

uint8_t core_view_number(const struct core *core, uint32_t address)
{
    return tenonwhisk_view_number(STATE, RAM, address);
}

const uint8_t *core_block_view(const struct core *core, uint32_t address)
{
    return tenonwhisk_block_view(STATE, RAM, address);
}
