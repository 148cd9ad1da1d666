/* A core with memory of its own, for the programs here: each call of tenonwhisk.h, with everything lent. */
#ifndef CORE_H
#define CORE_H

#include "../tenonwhisk.h"

struct core {
    uint16_t state[TENONWHISK_STATE_HALFWORDS];
    uint32_t size;
    uint8_t *ram;
    uint8_t *marks;
};

/* Makes a fresh state, with RAM and marks zero. Returns false for a size other than the two, or if memory runs out. */
bool core_make(struct core *core, uint32_t size);
void core_free(struct core *core);

struct tenonwhisk_overview core_status(const struct core *core);
uint8_t core_reset(struct core *core);
uint8_t core_write(struct core *core, uint32_t offset, uint16_t value);
struct tenonwhisk_reading core_read(const struct core *core, uint32_t offset);
struct tenonwhisk_moved core_transfer_in(struct core *core, const uint16_t *values, size_t count);
struct tenonwhisk_moved core_transfer_out(struct core *core, uint16_t *out, size_t count);
struct tenonwhisk_ticked core_tick(struct core *core, int16_t cd_left, int16_t cd_right);
struct tenonwhisk_ticked_floats core_tick_floats(struct core *core, int16_t cd_left, int16_t cd_right);
/* In a run, cd is NULL for no CD. */
struct tenonwhisk_ran core_run(struct core *core, const int16_t *cd, int16_t *out, size_t pairs);
struct tenonwhisk_ran core_run_floats(struct core *core, const int16_t *cd, int16_t *out, float *floats, size_t pairs);
uint8_t core_view_number(const struct core *core, uint32_t address);
const uint8_t *core_block_view(const struct core *core, uint32_t address);

#endif
