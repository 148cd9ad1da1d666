/* stack: prints how many bytes of stack each call uses at most, done and refused, with both sizes of sound RAM. Fails
 * if one uses more than TENONWHISK_STACK_BYTES.
 *
 * Each call runs on a thread whose stack was filled with a pattern. What the call used reaches from the thread's own
 * frame to the lowest word that does not hold the pattern any more. */
#define _POSIX_C_SOURCE 200809L
#include "check.h"
#include "lent.h"
#include "scenes.h"

#include <pthread.h>
#include <stdio.h>
#include <stdlib.h>
#include <string.h>

enum { STACK_WORDS = 1 << 17, STACK_BYTES = STACK_WORDS * sizeof(uint32_t), ALIGNMENT = 4096 };
enum { MAKE = CALLS, CALLS_ON_STATES };
enum { BANK_FIND = CALLS_ON_STATES, BANK_CHECK, BANK_ENTRY, BANK_WRITE, XA_FRESH, XA_DECODE, ENCODER_CHECK, ALL_CALLS };

static uint32_t *stack;
static size_t largest[ALL_CALLS];
static unsigned long runs;

/* ---- one call on a stack of its own */

static uint32_t pattern(size_t k)
{
    return (uint32_t)k * 2654435761u + 0x9E3779B9u;
}

static void paint(void)
{
    for (size_t k = 0; k < STACK_WORDS; k++)
        stack[k] = pattern(k);
}

static size_t untouched_words(void)
{
    size_t k = 0;
    while (k < STACK_WORDS && stack[k] == pattern(k))
        k++;
    return k;
}

struct job {
    struct outcome (*run)(const struct lent *lent);
    const struct lent *lent;
    uint8_t number;
    uintptr_t frame;
};

static void *do_job(void *argument)
{
    struct job *job = argument;
    uint8_t here = 0;
    job->frame = (uintptr_t)&here;
    job->number = job->run(job->lent).number;
    return NULL;
}

static void must(bool good, const char *what)
{
    if (good)
        return;
    fprintf(stderr, "%s failed\n", what);
    exit(EXIT_FAILURE);
}

static size_t stack_used(struct job *job)
{
    pthread_attr_t attributes;
    pthread_t thread;
    paint();
    must(pthread_attr_init(&attributes) == 0 && pthread_attr_setstack(&attributes, stack, STACK_BYTES) == 0 &&
             pthread_create(&thread, &attributes, do_job, job) == 0 && pthread_join(thread, NULL) == 0,
         "a thread");
    pthread_attr_destroy(&attributes);
    return job->frame - (uintptr_t)(stack + untouched_words());
}

/* ---- all calls */

static struct outcome run_make(const struct lent *lent)
{
    uint32_t size = (uint32_t)lent->buffers[RAM].count;
    return (struct outcome){tenonwhisk_make(size, lent_state(lent), lent->buffers[STATE].count), true};
}

static const char *name_of(int which)
{
    static const char *const others[] = {"make",       "bank_find", "bank_check", "bank_entry",
                                         "bank_write", "xa_fresh",  "xa_decode",  "encoder_check"};
    return which < CALLS ? calls[which].name : others[which - CALLS];
}

static void measure_job(int which, struct job *job)
{
    size_t used = stack_used(job);
    if (used > largest[which])
        largest[which] = used;
    check(used <= TENONWHISK_STACK_BYTES, "%s uses %zu bytes of stack", name_of(which), used);
    runs++;
}

static void measure(int which, const struct lent *lent)
{
    struct lent copy;
    lent_copy(&copy, lent);
    struct job job = {.run = which == MAKE ? run_make : calls[which].run, .lent = &copy};
    measure_job(which, &job);
    check(which == MAKE || job.number == expected_number(&calls[which], lent), "%s gives its number", name_of(which));
    lent_free(&copy);
}

static void measure_all(const struct lent *lent)
{
    for (int which = 0; which < CALLS_ON_STATES; which++)
        measure(which, lent);
}

static void measure_resized(const struct lent *lent, enum which buffer, size_t count)
{
    struct lent resized;
    lent_copy(&resized, lent);
    lent_resize(&resized, buffer, count);
    measure_all(&resized);
    lent_free(&resized);
}

/* ---- what they are lent */

static void lend_core(struct lent *lent, const struct core *core)
{
    lent_make(lent, core->size);
    memcpy(lent->buffers[STATE].data, core->state, sizeof core->state);
    memcpy(lent->buffers[RAM].data, core->ram, core->size);
    memcpy(lent->buffers[MARKS].data, core->marks, core->size / 16);
}

static void measure_registers(struct lent *lent)
{
    const uint16_t values[] = {0, 4, 0x7FFF, 0xFFFF};
    for (lent->offset = 0; lent->offset <= 0x200; lent->offset++)
        for (size_t k = 0; k < sizeof values / sizeof *values; k++) {
            lent->value = values[k];
            measure(WRITE, lent);
            measure(READ, lent);
        }
    lent->offset = 0;
}

static void measure_refused(struct lent *lent)
{
    const enum which buffers[] = {STATE, RAM, MARKS, VALUES, OUTWARD, CD, SAMPLES, FLOATS};
    for (size_t k = 0; k < sizeof buffers / sizeof *buffers; k++) {
        measure_resized(lent, buffers[k], 0);
        measure_resized(lent, buffers[k], lent->buffers[buffers[k]].count + 1);
    }
    lent->address = 4;
    measure_all(lent);
    lent->address = 0;
    for (size_t k = 0; k < TENONWHISK_STATE_HALFWORDS; k += 50) {
        lent_state(lent)[k] ^= 0xFFFF;
        measure_all(lent);
        lent_state(lent)[k] ^= 0xFFFF;
    }
}

/* A core that plays, with a transfer mode applied. */
static void measure_playing(uint32_t size, uint64_t seed, uint32_t control)
{
    static int16_t cd[200], out[200];
    struct core core;
    struct lent lent;
    must_make_composed(&core, size, seed);
    apply_control(&core, control);
    core_run(&core, cd, out, 100);
    lend_core(&lent, &core);
    measure_all(&lent);
    measure_refused(&lent);
    if (size == SMALL)
        measure_registers(&lent);
    lent_free(&lent);
    core_free(&core);
}

static void measure_fresh(uint32_t size)
{
    struct lent lent;
    lent_make(&lent, size);
    measure_all(&lent);
    lent_free(&lent);
}

/* ---- sound banks, which need no state */

enum { ENTRIES = TENONWHISK_BANK_ENTRIES, SOUND_AT = 10256 };

/* The largest bank: a sound, and a chain of 1,023 aliases that lead to it. */
static struct {
    uint16_t kinds[ENTRIES];
    uint32_t offsets[ENTRIES];
    uint32_t counts[ENTRIES];
    uint8_t data[SOUND_AT + 16 - (2 + 10 * ENTRIES)];
    uint8_t bytes[SOUND_AT + 16];
    size_t length;
} bank;

static struct outcome run_bank_find(const struct lent *lent)
{
    (void)lent;
    uint8_t number = tenonwhisk_bank_find(TENONWHISK_NO_BANK, bank.bytes, bank.length, ENTRIES - 1).number;
    return (struct outcome){number, true};
}

static struct outcome run_bank_check(const struct lent *lent)
{
    (void)lent;
    return (struct outcome){tenonwhisk_bank_check(bank.bytes, bank.length).place, true};
}

static struct outcome run_bank_entry(const struct lent *lent)
{
    (void)lent;
    return (struct outcome){tenonwhisk_bank_entry(bank.bytes, bank.length, ENTRIES - 1).number, true};
}

static struct outcome run_bank_write(const struct lent *lent)
{
    (void)lent;
    struct tenonwhisk_bank_written written =
        tenonwhisk_bank_write(bank.kinds, ENTRIES, bank.offsets, ENTRIES, bank.counts, ENTRIES, bank.data,
                              sizeof bank.data, bank.bytes, bank.length);
    return (struct outcome){written.number, true};
}

static void measure_stateless(int which, struct outcome (*run)(const struct lent *lent), uint8_t number)
{
    struct job job = {.run = run};
    measure_job(which, &job);
    check(job.number == number, "%s gives %d, not %d", name_of(which), job.number, number);
}

static void measure_banks(void)
{
    bank.offsets[0] = SOUND_AT;
    bank.counts[0] = 1;
    for (uint32_t n = 1; n < ENTRIES; n++) {
        bank.kinds[n] = TENONWHISK_BANK_ALIAS;
        bank.offsets[n] = n - 1;
    }
    bank.length = sizeof bank.bytes - 1;
    measure_stateless(BANK_WRITE, run_bank_write, 24);
    bank.length = sizeof bank.bytes;
    measure_stateless(BANK_WRITE, run_bank_write, 0);
    measure_stateless(BANK_FIND, run_bank_find, 0);
    measure_stateless(BANK_CHECK, run_bank_check, TENONWHISK_BANK_GOOD);
    measure_stateless(BANK_ENTRY, run_bank_entry, 0);
    bank.counts[ENTRIES - 1] = 1;
    measure_stateless(BANK_WRITE, run_bank_write, 9);
    bank.length = 2 + 10 * ENTRIES;
    measure_stateless(BANK_FIND, run_bank_find, 9);
    measure_stateless(BANK_CHECK, run_bank_check, TENONWHISK_BANK_AT_ENTRY);
    bank.length = 1;
    measure_stateless(BANK_CHECK, run_bank_check, TENONWHISK_BANK_IN_HEADER);
    measure_stateless(BANK_ENTRY, run_bank_entry, 9);
}

/* ---- XA speech, which needs no state */

static struct {
    uint8_t sector[TENONWHISK_XA_SECTOR_BYTES];
    int16_t out[TENONWHISK_XA_SAMPLES];
    size_t length;
    bool stereo;
    bool eight_bit;
} xa;

static struct outcome run_xa_fresh(const struct lent *lent)
{
    (void)lent;
    return (struct outcome){tenonwhisk_xa_fresh().mono.old != 0, true};
}

static struct outcome run_xa_decode(const struct lent *lent)
{
    (void)lent;
    struct tenonwhisk_xa_histories histories = {{1, 2}, {3, 4}, {5, 6}};
    struct tenonwhisk_xa_decoded decoded =
        tenonwhisk_xa_decode(xa.sector, xa.length, xa.stereo, xa.eight_bit, histories, xa.out, TENONWHISK_XA_SAMPLES);
    return (struct outcome){decoded.number, true};
}

static void measure_xa(void)
{
    measure_stateless(XA_FRESH, run_xa_fresh, 0);
    for (uint8_t filter = 0; filter < 8; filter++) {
        xa.stereo = filter % 2;
        memset(xa.sector, filter << 4, sizeof xa.sector);
        xa.length = sizeof xa.sector;
        measure_stateless(XA_DECODE, run_xa_decode, 0);
        xa.sector[sizeof xa.sector - 116] ^= 1; /* byte 12 of the last sound group */
        measure_stateless(XA_DECODE, run_xa_decode, 12);
        xa.eight_bit = true;
        measure_stateless(XA_DECODE, run_xa_decode, 13);
        xa.length--;
        measure_stateless(XA_DECODE, run_xa_decode, 14);
        xa.eight_bit = false;
    }
}

/* ---- the check of encoders, which needs no state */

enum { BLOCKS = 4096 }; /* the stack does not grow with them */

static struct {
    int16_t originals[BLOCKS * TENONWHISK_BLOCK_SAMPLES];
    uint8_t blocks[BLOCKS * TENONWHISK_BLOCK_BYTES];
    size_t length;  /* of the blocks */
    uint16_t error; /* the largest that is allowed */
    bool yes;       /* what the verdict was */
} encoder;

static struct outcome run_encoder_check(const struct lent *lent)
{
    (void)lent;
    struct tenonwhisk_encoder_verdict verdict = tenonwhisk_encoder_check(
        encoder.originals, BLOCKS * TENONWHISK_BLOCK_SAMPLES, encoder.blocks, encoder.length, encoder.error);
    encoder.yes = verdict.yes;
    return (struct outcome){verdict.number, true};
}

static void measure_verdict(uint8_t number, bool yes)
{
    measure_stateless(ENCODER_CHECK, run_encoder_check, number);
    check(encoder.yes == yes, "%s says %s", name_of(ENCODER_CHECK), yes ? "yes" : "no");
}

static void measure_encoder(void)
{
    for (uint8_t filter = 0; filter < 8; filter++) {
        memset(encoder.blocks, filter << 4 | 1, sizeof encoder.blocks);
        for (size_t n = 0; n < BLOCKS; n++)
            encoder.blocks[n * TENONWHISK_BLOCK_BYTES + 1] = n + 1 == BLOCKS;
        encoder.length = sizeof encoder.blocks;
        encoder.error = UINT16_MAX;
        measure_verdict(0, filter < 5);
        encoder.error = 0;
        measure_verdict(0, false);
        encoder.length -= TENONWHISK_BLOCK_BYTES;
        encoder.error = UINT16_MAX;
        measure_verdict(0, false);
        encoder.length--;
        measure_verdict(23, false);
    }
}

static void print_largest(void)
{
    printf("bytes of stack, in %lu calls:\n", runs);
    for (int which = 0; which < ALL_CALLS; which++)
        printf("%-13s %6zu\n", name_of(which), largest[which]);
    printf("%-13s %6d\n", "allowed", TENONWHISK_STACK_BYTES);
}

int main(void)
{
    stack = aligned_alloc(ALIGNMENT, STACK_BYTES);
    must(stack != NULL, "memory for a stack");
    const uint32_t sizes[] = {SMALL, LARGE};
    for (size_t k = 0; k < 2; k++) {
        measure_fresh(sizes[k]);
        measure_playing(sizes[k], 1, 0xC0D5);
        measure_playing(sizes[k], 2, 0xC030);
    }
    measure_banks();
    measure_xa();
    measure_encoder();
    free(stack);
    print_largest();
    return all_passed() ? EXIT_SUCCESS : EXIT_FAILURE;
}
