/* xa: decodes XA sectors through the C interface, for reference/xa_fuzz.py.
 *
 * A call on standard input is a byte of enum flag, the histories to be used if they are GIVEN, the lengths of the
 * sector and of the output in 4 bytes each, and the sector. The answer on standard output is the number, the histories,
 * whether the sector changed, and the whole output. Numbers are those of the machine, low byte first. */
#include "../tenonwhisk.h"

#include <errno.h>
#include <stdio.h>
#include <stdlib.h>
#include <string.h>

/* A call that is neither FRESH nor GIVEN begins with the histories that the call before it left. */
enum flag { STEREO = 1, EIGHT_BIT = 2, FRESH = 4, GIVEN = 8 };

enum { BEFORE = 0xA5 }; /* each byte of the output before the call */

_Static_assert(sizeof(struct tenonwhisk_xa_histories) == 12, "six samples and nothing between them");

static void fail(const char *words)
{
    fprintf(stderr, "xa: %s\n", words);
    exit(EXIT_FAILURE);
}

/* Allocates the exact length, even 0, so that memcheck sees an access outside it. */
static void *make(size_t bytes)
{
    void *made = malloc(bytes);
    if (!made)
        fail("not enough memory");
    return made;
}

static void take(void *bytes, size_t count)
{
    if (fread(bytes, 1, count, stdin) != count)
        fail(ferror(stdin) ? strerror(errno) : "the input ends inside a call");
}

static bool no_more_calls(void)
{
    int next = getchar();
    return next == EOF || ungetc(next, stdin) == EOF;
}

static void put(const void *bytes, size_t count)
{
    fwrite(bytes, 1, count, stdout);
}

static void answer_call(struct tenonwhisk_xa_histories *histories)
{
    uint8_t flags;
    struct tenonwhisk_xa_histories given;
    uint32_t sector_len, out_len;
    take(&flags, sizeof flags);
    take(&given, sizeof given);
    take(&sector_len, sizeof sector_len);
    take(&out_len, sizeof out_len);

    uint8_t *sector = make(sector_len), *before = make(sector_len);
    take(sector, sector_len);
    memcpy(before, sector, sector_len);
    size_t out_bytes = out_len * sizeof(int16_t);
    int16_t *out = make(out_bytes);
    memset(out, BEFORE, out_bytes);

    if (flags & FRESH)
        *histories = tenonwhisk_xa_fresh();
    else if (flags & GIVEN)
        *histories = given;
    struct tenonwhisk_xa_decoded decoded =
        tenonwhisk_xa_decode(sector, sector_len, flags & STEREO, flags & EIGHT_BIT, *histories, out, out_len);
    *histories = decoded.histories;

    uint8_t changed = memcmp(sector, before, sector_len) != 0;
    put(&decoded.number, sizeof decoded.number);
    put(&decoded.histories, sizeof decoded.histories);
    put(&changed, sizeof changed);
    put(out, out_bytes);
    free(sector);
    free(before);
    free(out);
}

int main(void)
{
    struct tenonwhisk_xa_histories histories = tenonwhisk_xa_fresh();
    while (!no_more_calls()) {
        answer_call(&histories);
        if (fflush(stdout) != 0) /* after each call, so that a crash shows its call */
            fail(strerror(errno));
    }
    if (ferror(stdin))
        fail(strerror(errno));
    return EXIT_SUCCESS;
}
