/* One second of a tone at 440 Hz: each step of a host, with its refusal handled. */
#include "../tenonwhisk.h"

#include <stdio.h>
#include <stdlib.h>

enum { TICKS = 44100, RAM_BYTES = 65536 };

#define STATE state, TENONWHISK_STATE_HALFWORDS
#define MEMORY STATE, ram, sizeof ram, marks, sizeof marks

static uint16_t state[TENONWHISK_STATE_HALFWORDS];
static uint8_t ram[RAM_BYTES], marks[RAM_BYTES / 16];
static int16_t out[2 * TICKS]; /* left, right, left, .. */

/* One period of a sine in an ADPCM block that loops on itself: shift 0, filter 0, flags 7, and 28 samples. */
static const uint16_t block[8] = {0x0700, 0x4320, 0x7765, 0x4567, 0xE023, 0xABCD, 0xA999, 0xEDCB};

static void must(const char *step, uint8_t number)
{
    if (number == TENONWHISK_DONE)
        return;
    fprintf(stderr, "%s is refused: %s\n", step, tenonwhisk_words(number));
    exit(EXIT_FAILURE);
}

static void set(uint32_t offset, uint16_t value)
{
    must("a write", tenonwhisk_write(STATE, offset, value));
}

static void load_block(void)
{
    set(0x1AA, 0xC010);                                   /* SPUCNT: on, unmuted, transfers inward */
    must("a tick", tenonwhisk_tick(MEMORY, 0, 0).number); /* a tick applies the transfer mode */
    set(0x1A6, 0x1000 / 8);                               /* transfer address */
    must("a transfer", tenonwhisk_transfer_in(MEMORY, block, 8).number);
}

static void key_on(void)
{
    set(0x180, 0x3FFF);     /* main volume, left */
    set(0x182, 0x3FFF);     /* main volume, right */
    set(0x000, 0x2000);     /* voice 0: volume, left */
    set(0x002, 0x2000);     /* volume, right */
    set(0x004, 0x0478);     /* pitch: 440 Hz, where 1000h is 44100 samples a second */
    set(0x006, 0x1000 / 8); /* start address */
    set(0x008, 0x000F);     /* envelope: at once to its highest level, and stay there */
    set(0x188, 1 << 0);     /* key voice 0 on */
}

static int peak(void)
{
    int highest = 0;
    for (int k = 0; k < 2 * TICKS; k++)
        highest = abs(out[k]) > highest ? abs(out[k]) : highest;
    return highest;
}

int main(void)
{
    must("a state", tenonwhisk_make(sizeof ram, STATE));
    load_block();
    key_on();
    struct tenonwhisk_ran ran = tenonwhisk_run(MEMORY, TENONWHISK_NO_CD, out, 2 * TICKS);
    must("a run", ran.number);
    printf("%zu ticks, peak %d of 32767\n", ran.count, peak());
    printf("in doubt: %s\n", tenonwhisk_status(STATE).doubt ? "yes" : "no");
    printf("a write to 1AEh: %s\n", tenonwhisk_words(tenonwhisk_write(STATE, 0x1AE, 0)));
    return EXIT_SUCCESS;
}
