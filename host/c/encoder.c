/* encoder: checks encoded sounds through the C interface, for reference/encoder_fuzz.py.
 *
 * A call on standard input is the largest error in 2 bytes, the numbers of originals and of encoded bytes in 4 bytes
 * each, the originals and the encoded bytes. The answer on standard output is the number, the four other bytes of the
 * verdict in their order, a byte of enum change, and block and sample in 8 bytes each. Numbers are those of the
 * machine, low byte first. */
#include "../tenonwhisk.h"

#include <errno.h>
#include <stdio.h>
#include <stdlib.h>
#include <string.h>

/* What the call changed of what it was lent: nothing, or one of these, or both. */
enum change { ORIGINALS = 1, BLOCKS = 2 };

static void fail(const char *words)
{
    fprintf(stderr, "encoder: %s\n", words);
    exit(EXIT_FAILURE);
}

/* Allocates the exact length, even 0, so that memcheck sees an access outside it. */
static void *make(size_t bytes)
{
    void *made = malloc(bytes);
    if (!made)
        fail("not enough memory");
    return made;
}

static void take(void *bytes, size_t count)
{
    if (fread(bytes, 1, count, stdin) != count)
        fail(ferror(stdin) ? strerror(errno) : "the input ends inside a call");
}

static bool no_more_calls(void)
{
    int next = getchar();
    return next == EOF || ungetc(next, stdin) == EOF;
}

static void put(const void *bytes, size_t count)
{
    fwrite(bytes, 1, count, stdout);
}

static void put_size(size_t size)
{
    uint64_t wide = size;
    put(&wide, sizeof wide);
}

static void *copy_of(const void *bytes, size_t count)
{
    return memcpy(make(count), bytes, count);
}

static void answer_call(void)
{
    uint16_t largest;
    uint32_t originals_len, blocks_len;
    take(&largest, sizeof largest);
    take(&originals_len, sizeof originals_len);
    take(&blocks_len, sizeof blocks_len);

    size_t originals_bytes = originals_len * sizeof(int16_t);
    int16_t *originals = make(originals_bytes);
    uint8_t *blocks = make(blocks_len);
    take(originals, originals_bytes);
    take(blocks, blocks_len);
    void *originals_before = copy_of(originals, originals_bytes), *blocks_before = copy_of(blocks, blocks_len);

    struct tenonwhisk_encoder_verdict verdict =
        tenonwhisk_encoder_check(originals, originals_len, blocks, blocks_len, largest);

    uint8_t changed = (memcmp(originals, originals_before, originals_bytes) != 0 ? ORIGINALS : 0) |
                      (memcmp(blocks, blocks_before, blocks_len) != 0 ? BLOCKS : 0);
    put(&verdict.number, sizeof verdict.number);
    put(&verdict.yes, sizeof verdict.yes);
    put(&verdict.unpaired, sizeof verdict.unpaired);
    put(&verdict.end_flag, sizeof verdict.end_flag);
    put(&verdict.filter, sizeof verdict.filter);
    put(&changed, sizeof changed);
    put_size(verdict.block);
    put_size(verdict.sample);
    free(originals);
    free(originals_before);
    free(blocks);
    free(blocks_before);
}

int main(void)
{
    while (!no_more_calls()) {
        answer_call();
        if (fflush(stdout) != 0) /* after each call, so that a crash shows its call */
            fail(strerror(errno));
    }
    if (ferror(stdin))
        fail(strerror(errno));
    return EXIT_SUCCESS;
}
