/* banks: answers cases of sound banks through the C interface, for reference/bank_fuzz.py.
 *
 * A case on standard input is eight lists in the order of enum which. A list is its count in 8 bytes, then its
 * elements. Numbers are those of the machine, low byte first. The answers go to standard output in the order in which
 * answers() of bank_fuzz.py expects them. */
#include "../tenonwhisk.h"

#include <errno.h>
#include <stdio.h>
#include <stdlib.h>
#include <string.h>

enum which { TITLE, HOUSE, NUMBERS, KINDS, OFFSETS, COUNTS, DATA, OUT, LISTS };

static const size_t widths[LISTS] = {1, 1, 4, 2, 4, 4, 1, 1};

struct list {
    void *elements; /* allocated at its exact length, even at 0, so that memcheck sees an access outside it */
    size_t count;
};

#define LEND(list) (list).elements, (list).count

static void fail(const char *words)
{
    fprintf(stderr, "banks: %s\n", words);
    exit(EXIT_FAILURE);
}

/* ---- lists */

static struct list make(size_t count, size_t width)
{
    struct list list = {malloc(count * width), count};
    if (!list.elements)
        fail("not enough memory");
    return list;
}

static struct list copy(struct list from, size_t count, size_t width)
{
    struct list list = make(count, width);
    memcpy(list.elements, from.elements, count * width);
    return list;
}

static bool same(struct list a, struct list b, size_t width)
{
    return a.count == b.count && memcmp(a.elements, b.elements, a.count * width) == 0;
}

static void take(void *bytes, size_t count)
{
    if (fread(bytes, 1, count, stdin) != count)
        fail(ferror(stdin) ? strerror(errno) : "the input ends inside a case");
}

static struct list take_list(size_t width)
{
    uint64_t count;
    take(&count, sizeof count);
    struct list list = make(count, width);
    take(list.elements, count * width);
    return list;
}

static bool no_more_cases(void)
{
    int next = getchar();
    return next == EOF || ungetc(next, stdin) == EOF;
}

/* ---- answers */

static void put(uint64_t value, size_t bytes)
{
    fwrite(&value, bytes, 1, stdout);
}

static void answer_check(struct list bank)
{
    struct tenonwhisk_bank_damage damage = tenonwhisk_bank_check(LEND(bank));
    put(damage.number, 1);
    put(damage.place, 1);
    put(damage.entry, 4);
}

static void answer_entry(struct list bank, uint32_t n)
{
    struct tenonwhisk_bank_fields fields = tenonwhisk_bank_entry(LEND(bank), n);
    put(fields.number, 1);
    put(fields.kind, 2);
    put(fields.offset, 4);
    put(fields.count, 4);
}

/* Answers what is found, the bytes of the sound, and whether tenonwhisk_bank_lookup gives just these bytes. */
static void answer_find(struct list title, struct list house, uint32_t number)
{
    struct tenonwhisk_bank_found found = tenonwhisk_bank_find(LEND(title), LEND(house), number);
    put(found.number, 1);
    put(found.house, 1);
    put(found.entry, 4);
    put(found.offset, 8);
    put(found.length, 8);

    struct list bank = found.house ? house : title;
    const uint8_t *sound = found.number == TENONWHISK_DONE ? (const uint8_t *)bank.elements + found.offset : NULL;
    if (found.offset <= bank.count && found.length <= bank.count - found.offset && sound)
        fwrite(sound, 1, found.length, stdout);
    size_t length = SIZE_MAX;
    bool given = tenonwhisk_bank_lookup(LEND(title), LEND(house), number, &length) == sound;
    put(given && length == found.length, 1);
}

static void answer_bank(struct list bank, struct list numbers)
{
    const uint32_t *number = numbers.elements;
    answer_check(bank);
    for (size_t k = 0; k < numbers.count; k++)
        answer_entry(bank, number[k]);
}

static void answer_pair(struct list title, struct list house, struct list numbers)
{
    const uint32_t *number = numbers.elements;
    answer_bank(title, numbers);
    for (size_t k = 0; k < numbers.count; k++)
        answer_find(title, house, number[k]);
}

/* Answers what is written, the whole buffer, and what is read back from the written part and from the whole buffer. */
static void answer_write(const struct list *lists, struct list *before)
{
    struct list out = lists[OUT];
    struct tenonwhisk_bank_written written = tenonwhisk_bank_write(LEND(lists[KINDS]), LEND(lists[OFFSETS]),
                                                                   LEND(lists[COUNTS]), LEND(lists[DATA]), LEND(out));
    put(written.number, 1);
    put(written.length, 8);
    fwrite(out.elements, 1, out.count, stdout);
    memcpy(before[OUT].elements, out.elements, out.count); /* from here on it may not change either */
    if (written.number != TENONWHISK_DONE || written.length > out.count)
        return;
    struct list part = copy(out, written.length, 1);
    answer_pair(part, lists[HOUSE], lists[NUMBERS]);
    free(part.elements);
    answer_pair(out, lists[HOUSE], lists[NUMBERS]);
}

/* Answers a bit for each list of which a byte changed. */
static void answer_changes(const struct list *lists, const struct list *before)
{
    uint8_t changes = 0;
    for (enum which k = 0; k < LISTS; k++)
        changes |= (uint8_t)(!same(lists[k], before[k], widths[k]) << k);
    put(changes, 1);
}

static void answer_case(void)
{
    struct list lists[LISTS], before[LISTS];
    for (enum which k = 0; k < LISTS; k++) {
        lists[k] = take_list(widths[k]);
        before[k] = copy(lists[k], lists[k].count, widths[k]);
    }
    answer_bank(lists[HOUSE], lists[NUMBERS]);
    answer_pair(lists[TITLE], lists[HOUSE], lists[NUMBERS]);
    answer_write(lists, before);
    answer_changes(lists, before);
    for (enum which k = 0; k < LISTS; k++) {
        free(lists[k].elements);
        free(before[k].elements);
    }
}

int main(void)
{
    while (!no_more_cases()) {
        answer_case();
        if (fflush(stdout) != 0) /* after each case, so that a crash shows its case */
            fail(strerror(errno));
    }
    if (ferror(stdin))
        fail(strerror(errno));
    return EXIT_SUCCESS;
}
