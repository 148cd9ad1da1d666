#include "test_banks.h"
#include "../tenonwhisk.h"
#include "check.h"
#include "lent.h"

#include <stdlib.h>
#include <string.h>

enum { FILLER = 0xA5, MOST = TENONWHISK_BANK_ENTRIES };

/* ---- banks, allocated at their exact lengths, so that memcheck sees an access outside them */

struct bank {
    uint8_t *bytes;
    size_t length;
};

struct entry {
    uint16_t kind;
    uint32_t offset;
    uint32_t count;
};

static struct bank bank_filled(size_t length)
{
    struct bank bank = {lent_allocate(length), length};
    memset(bank.bytes, FILLER, length);
    return bank;
}

static void put(uint8_t *at, size_t bytes, uint32_t value)
{
    for (size_t k = 0; k < bytes; k++)
        at[k] = (uint8_t)(value >> 8 * k);
}

static void put_entry(struct bank bank, size_t n, struct entry entry)
{
    uint8_t *at = bank.bytes + 2 + 10 * n;
    put(at, 2, entry.kind);
    put(at + 2, 4, entry.offset);
    put(at + 6, 4, entry.count);
}

/* A bank of so many bytes, good or not, as long as they hold its header. */
static struct bank bank_of(size_t length, const struct entry *entries, size_t count)
{
    struct bank bank = bank_filled(length);
    put(bank.bytes, 2, (uint32_t)count);
    for (size_t n = 0; n < count; n++)
        put_entry(bank, n, entries[n]);
    return bank;
}

static struct bank bank_cut(struct bank from, size_t length)
{
    struct bank bank = bank_filled(length);
    memcpy(bank.bytes, from.bytes, length);
    return bank;
}

static bool same_banks(struct bank a, struct bank b)
{
    return a.length == b.length && memcmp(a.bytes, b.bytes, a.length) == 0;
}

/* ---- the calls that look: what they are lent stays */

#define LEND(bank) (bank).bytes, (bank).length

static struct tenonwhisk_bank_found find(struct bank title, struct bank house, uint32_t number)
{
    struct bank titles = bank_cut(title, title.length), houses = bank_cut(house, house.length);
    struct tenonwhisk_bank_found found = tenonwhisk_bank_find(LEND(titles), LEND(houses), number);
    size_t length = 1;
    const uint8_t *sound = tenonwhisk_bank_lookup(LEND(titles), LEND(houses), number, &length);
    const uint8_t *bank = found.house ? houses.bytes : titles.bytes;
    check(sound == (found.number == 0 ? bank + found.offset : NULL), "a sound stands in the host's own bank");
    check(length == found.length, "lookup writes the sound's length");
    check(found.number == 0 || (!found.house && found.entry == 0 && found.offset == 0 && found.length == 0),
          "find refused with %d gives nothing else", found.number);
    check(same_banks(title, titles) && same_banks(house, houses), "find only reads");
    free(titles.bytes);
    free(houses.bytes);
    return found;
}

static void expect_found(struct bank title, struct bank house, uint32_t number, struct tenonwhisk_bank_found expected)
{
    struct tenonwhisk_bank_found found = find(title, house, number);
    check(found.number == 0 && found.house == expected.house && found.entry == expected.entry &&
              found.offset == expected.offset && found.length == expected.length,
          "sound %u is found where it stands", number);
}

static void expect_refused(struct bank title, struct bank house, uint32_t number, uint8_t expected)
{
    uint8_t given = find(title, house, number).number;
    check(given == expected, "find of %u gives %d, not %d", number, given, expected);
}

static void expect_damage(struct bank bank, enum tenonwhisk_bank_place place, uint32_t entry)
{
    struct bank copy = bank_cut(bank, bank.length), none = {(uint8_t[]){0, 0}, 2};
    struct tenonwhisk_bank_damage damage = tenonwhisk_bank_check(LEND(copy));
    check(damage.number == (place == TENONWHISK_BANK_GOOD ? 0 : 9), "check gives %d", damage.number);
    check(damage.place == place && damage.entry == entry, "damage at place %d, entry %u, not %d, %u", damage.place,
          damage.entry, place, entry);
    struct tenonwhisk_bank_fields fields = tenonwhisk_bank_entry(LEND(copy), 0xFFFFFFFF);
    check(fields.number == (place == TENONWHISK_BANK_IN_HEADER ? 9 : 10), "an entry that is not there");
    check(fields.kind == 0 && fields.offset == 0 && fields.count == 0, "a refused entry has no fields");
    check(same_banks(bank, copy), "check and entry only read");
    if (place != TENONWHISK_BANK_GOOD) {
        expect_refused(bank, none, 0, 9);
        expect_refused(none, bank, 0, 9);
        expect_refused(none, bank, 0xFFFFFFFF, 9);
    }
    free(copy.bytes);
}

/* ---- finding */

static void test_finding(void)
{
    const struct entry of_title[] = {{0, 48, 1}, {0, 64, 2}, {1, 1, 0}};
    const struct entry of_house[] = {{0, 112, 1}, {0, 64, 3}, {0, 64, 1}, {1, 0, 0}, {1, 3, 0}};
    struct bank title = bank_of(96, of_title, 3), house = bank_of(130, of_house, 5), none = bank_of(2, NULL, 0);
    expect_found(title, house, 0, (struct tenonwhisk_bank_found){0, false, 0, 48, 16});
    expect_found(title, house, 1, (struct tenonwhisk_bank_found){0, false, 1, 64, 32});
    expect_found(title, house, 2, (struct tenonwhisk_bank_found){0, false, 1, 64, 32});
    expect_found(title, house, 3, (struct tenonwhisk_bank_found){0, true, 0, 112, 16});
    expect_found(title, house, 4, (struct tenonwhisk_bank_found){0, true, 0, 112, 16});
    expect_found(title, none, 1, (struct tenonwhisk_bank_found){0, false, 1, 64, 32});
    expect_found(none, house, 1, (struct tenonwhisk_bank_found){0, true, 1, 64, 48});
    const uint32_t missing[] = {5, 1024, 0x10000, 0x10001, 0x80000000, 0xFFFFFFFF};
    for (size_t k = 0; k < sizeof missing / sizeof *missing; k++)
        expect_refused(title, house, missing[k], 10);
    expect_refused(title, none, 3, 10);
    expect_refused(none, none, 0, 10);
    size_t length;
    check(tenonwhisk_bank_lookup(LEND(house), LEND(house), 1, &length) == house.bytes + 64, "one bank as both");
    check(tenonwhisk_bank_lookup(LEND(title), TENONWHISK_NO_BANK, 0, &length) == title.bytes + 48, "no house's bank");
    free(title.bytes);
    free(house.bytes);
    free(none.bytes);
}

/* ---- damage */

static void test_headers(void)
{
    const struct entry entries[] = {{0, 48, 1}, {1, 0, 0}, {1, 1, 0}};
    struct bank whole = bank_of(64, entries, 3);
    for (size_t length = 0; length <= whole.length; length++) {
        struct bank cut = bank_cut(whole, length);
        enum tenonwhisk_bank_place place = length < 32   ? TENONWHISK_BANK_IN_HEADER
                                           : length < 64 ? TENONWHISK_BANK_AT_ENTRY
                                                         : TENONWHISK_BANK_GOOD;
        expect_damage(cut, place, 0);
        free(cut.bytes);
    }
    free(whole.bytes);
    const uint32_t counts[] = {0, MOST, MOST + 1, 2 * MOST, 0xFFFF};
    for (size_t k = 0; k < sizeof counts / sizeof *counts; k++) {
        struct bank bank = bank_filled(tenonwhisk_bank_length(0xFFFF, 0));
        put(bank.bytes, 2, counts[k]);
        enum tenonwhisk_bank_place place = counts[k] == 0      ? TENONWHISK_BANK_GOOD
                                           : counts[k] == MOST ? TENONWHISK_BANK_AT_ENTRY
                                                               : TENONWHISK_BANK_IN_HEADER;
        expect_damage(bank, place, 0);
        free(bank.bytes);
    }
}

static void test_entries(void)
{
    const struct entry good[] = {{0, 64, 4}, {0, 112, 1}, {1, 0, 0}, {1, 3, 0}};
    const struct entry bad[] = {
        {2, 64, 1},          {0x100, 64, 1},      {0xFFFF, 64, 1},
        {0, 64, 0},          {0, 48, 1},          {0, 0, 1},
        {0, 72, 1},          {0, 65, 1},          {0, 64, 5},
        {0, 112, 2},         {0, 128, 1},         {0, 0x10040, 1},
        {0, 0xFFFFFFF0, 1},  {0, 0xFFFFFFF0, 16}, {0, 64, 0x10000000},
        {0, 64, 0x10000001}, {0, 64, 0xFFFFFFFF}, {0, 0xFFFFFFF0, 0xFFFFFFFF},
        {1, 4, 0},           {1, 5, 0},           {1, 0x10000, 0},
        {1, 0xFFFFFFFF, 0},  {1, 0, 1},           {1, 0, 0x10000},
        {1, 0, 0x80000000},
    };
    const struct entry entries[] = {{0, 64, 1}, {0, 64, 4}, {0, 96, 1}, {1, 2, 0}, {0, 64, 1}};
    struct bank bank = bank_of(128, entries, 5);
    for (size_t k = 0; k < sizeof good / sizeof *good; k++) {
        put_entry(bank, 4, good[k]);
        expect_damage(bank, TENONWHISK_BANK_GOOD, 0);
    }
    for (size_t k = 0; k < sizeof bad / sizeof *bad; k++) {
        put_entry(bank, 4, bad[k]);
        expect_damage(bank, TENONWHISK_BANK_AT_ENTRY, 4);
        struct tenonwhisk_bank_fields fields = tenonwhisk_bank_entry(LEND(bank), 4);
        check(fields.number == 0 && fields.kind == bad[k].kind && fields.offset == bad[k].offset &&
                  fields.count == bad[k].count,
              "an entry is read as it stands");
    }
    put_entry(bank, 0, (struct entry){1, 0, 0});
    expect_damage(bank, TENONWHISK_BANK_AT_ENTRY, 0);
    free(bank.bytes);
}

/* ---- writing */

struct lists {
    uint16_t kinds[MOST + 1];
    uint32_t offsets[MOST + 1];
    uint32_t counts[MOST + 1];
};

/* A sound after the header of so many entries, and aliases, each of the one before it. */
static void chain(struct lists *lists, size_t count)
{
    *lists = (struct lists){0};
    lists->offsets[0] = (uint32_t)(tenonwhisk_bank_length(count, 15) / 16 * 16);
    lists->counts[0] = 1;
    for (uint32_t n = 1; n < count; n++) {
        lists->kinds[n] = TENONWHISK_BANK_ALIAS;
        lists->offsets[n] = n - 1;
    }
}

static struct tenonwhisk_bank_written write_bank(const struct lists *lists, const size_t lengths[3], struct bank data,
                                                 struct bank out)
{
    return tenonwhisk_bank_write(lists->kinds, lengths[0], lists->offsets, lengths[1], lists->counts, lengths[2],
                                 LEND(data), LEND(out));
}

static void expect_unwritten(const struct lists *lists, const size_t lengths[3], struct bank data, size_t room,
                             uint8_t expected)
{
    struct bank out = bank_filled(room), before = bank_filled(room);
    struct tenonwhisk_bank_written written = write_bank(lists, lengths, data, out);
    check(written.number == expected, "write gives %d, not %d", written.number, expected);
    check(written.length == 0 && same_banks(out, before), "write refused with %d changes nothing", expected);
    free(out.bytes);
    free(before.bytes);
}

static void expect_written(const struct lists *lists, size_t count, struct bank data, size_t room)
{
    struct bank out = bank_filled(room), expected = bank_filled(room);
    size_t header = tenonwhisk_bank_length(count, 0), length = header + data.length;
    put(expected.bytes, 2, (uint32_t)count);
    for (size_t n = 0; n < count; n++)
        put_entry(expected, n, (struct entry){lists->kinds[n], lists->offsets[n], lists->counts[n]});
    memcpy(expected.bytes + header, data.bytes, data.length);
    struct tenonwhisk_bank_written written = write_bank(lists, (size_t[]){count, count, count}, data, out);
    check(written.number == 0 && written.length == length, "write of %zu entries", count);
    check(same_banks(out, expected), "it writes header and data, and bytes past them stay");
    check(tenonwhisk_bank_check(LEND(out)).place == TENONWHISK_BANK_GOOD, "the whole buffer is a good bank");
    check(tenonwhisk_bank_check(out.bytes, length).place == TENONWHISK_BANK_GOOD, "and so is the written part");
    free(out.bytes);
    free(expected.bytes);
}

static void test_writing(void)
{
    static struct lists lists;
    struct bank data = bank_filled(31), none = bank_filled(0);
    const size_t counts[] = {1, 2, 3, 511, MOST - 1, MOST};
    for (size_t k = 0; k < data.length; k++)
        data.bytes[k] = (uint8_t)(k + 1);
    for (size_t k = 0; k < sizeof counts / sizeof *counts; k++) {
        size_t count = counts[k], length = tenonwhisk_bank_length(count, data.length);
        chain(&lists, count);
        expect_written(&lists, count, data, length);
        expect_written(&lists, count, data, length + 1);
        expect_written(&lists, count, data, length + 1000);
        expect_unwritten(&lists, (size_t[]){count, count, count}, data, length - 1, 24);
        expect_unwritten(&lists, (size_t[]){count, count, count}, data, 0, 24);
        expect_unwritten(&lists, (size_t[]){count, count, count}, none, length, 9);
        expect_unwritten(&lists, (size_t[]){count, count, count}, none, 0, 9);
        expect_unwritten(&lists, (size_t[]){count - 1, count, count}, data, length, 9);
        expect_unwritten(&lists, (size_t[]){count, count - 1, count}, data, length, 9);
        expect_unwritten(&lists, (size_t[]){count, count, count - 1}, data, 0, 9);
    }
    chain(&lists, MOST + 1);
    expect_unwritten(&lists, (size_t[]){MOST + 1, MOST + 1, MOST + 1}, data, 20000, 9);
    expect_written(&lists, 0, data, 33);
    expect_written(&lists, 0, none, 2);
    expect_unwritten(&lists, (size_t[]){0, 0, 0}, none, 1, 24);
    lists.offsets[0] = 16;
    lists.counts[0] = 2; /* it ends in the buffer, but past the bank */
    expect_unwritten(&lists, (size_t[]){1, 1, 1}, data, 100, 9);
    free(data.bytes);
    free(none.bytes);
}

static void test_longest_chain(void)
{
    static struct lists lists;
    struct bank data = bank_filled(31), none = bank_of(2, NULL, 0);
    struct bank bank = bank_filled(tenonwhisk_bank_length(MOST, data.length));
    chain(&lists, MOST);
    check(write_bank(&lists, (size_t[]){MOST, MOST, MOST}, data, bank).number == 0, "a chain of 1,023 aliases");
    struct tenonwhisk_bank_found first = {0, false, 0, lists.offsets[0], 16};
    expect_found(bank, none, MOST - 1, first);
    expect_refused(bank, bank, MOST, 10);
    first.house = true;
    expect_found(none, bank, MOST - 1, first);
    free(data.bytes);
    free(none.bytes);
    free(bank.bytes);
}

void test_banks(void)
{
    test_finding();
    test_headers();
    test_entries();
    test_writing();
    test_longest_chain();
}
