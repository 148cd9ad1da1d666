/* banks SCENE CALLS: makes the calls of a scene on two sound banks through the C interface, and prints the nanoseconds
 * of a call. Two runs that differ in CALLS alone differ by the calls between them alone. */
#define _POSIX_C_SOURCE 200809L
#include "../host/tenonwhisk.h"

#include <stdio.h>
#include <stdlib.h>
#include <string.h>
#include <time.h>

enum { MOST = 1024, HEADER = 2 + 10 * MOST, FIRST = (HEADER + 15) / 16 * 16, DATA = 65536, LENGTH = HEADER + DATA };

struct bank {
    size_t count;
    uint16_t kinds[MOST];
    uint32_t offsets[MOST];
    uint32_t counts[MOST];
    uint8_t data[DATA];
    uint8_t file[LENGTH];
    size_t length; /* of the bank in file */
};

static struct bank title, house;

static struct tenonwhisk_bank_written write_bank(struct bank *bank)
{
    return tenonwhisk_bank_write(bank->kinds, bank->count, bank->offsets, bank->count, bank->counts, bank->count,
                                 bank->data, sizeof bank->data, bank->file, sizeof bank->file);
}

/* Entry 0 is a sound. The others are sounds too, or each is an alias of the one before it. */
static void make_bank(struct bank *bank, size_t count, bool aliases)
{
    bank->count = count;
    for (uint32_t k = 0; k < count; k++) {
        bool alias = aliases && k > 0;
        bank->kinds[k] = alias;
        bank->offsets[k] = alias ? k - 1 : FIRST + 16 * k;
        bank->counts[k] = alias ? 0 : 1 + k % 8;
    }
    for (size_t k = 0; k < sizeof bank->data; k++)
        bank->data[k] = (uint8_t)(k % 251);
    bank->length = write_bank(bank).length;
}

/* ---- calls: each says whether it gives what its scene is for */

static struct tenonwhisk_bank_found look_up(uint32_t number)
{
    return tenonwhisk_bank_find(title.file, title.length, house.file, house.length, number);
}

static bool find_in_title(void)
{
    struct tenonwhisk_bank_found found = look_up(MOST - 1);
    return found.number == TENONWHISK_DONE && !found.house && found.entry == MOST - 1;
}

static bool find_in_title_by_chain(void)
{
    struct tenonwhisk_bank_found found = look_up(MOST - 1);
    return found.number == TENONWHISK_DONE && !found.house && found.entry == 0;
}

static bool find_in_house_by_chain(void)
{
    struct tenonwhisk_bank_found found = look_up(MOST - 1);
    return found.number == TENONWHISK_DONE && found.house && found.entry == 0;
}

static bool find_nowhere(void)
{
    return look_up(MOST).number == TENONWHISK_NO_ENTRY;
}

static bool check_title(void)
{
    return tenonwhisk_bank_check(title.file, title.length).place == TENONWHISK_BANK_GOOD;
}

static bool write_title(void)
{
    struct tenonwhisk_bank_written written = write_bank(&title);
    return written.number == TENONWHISK_DONE && written.length == LENGTH;
}

/* The house has 1,024 entries. The title has 1,024 too, or 1,023: all numbers below its count are the title's, so a
 * chain of 1,023 aliases in the house is out of reach of a title of 1,024. */
static const struct scene {
    const char *name;
    size_t title_count;
    bool title_aliases;
    bool house_aliases;
    bool (*call)(void);
} scenes[] = {
    {"find-title", MOST, false, false, find_in_title},
    {"find-title-chain", MOST, true, false, find_in_title_by_chain},
    {"find-house-chain", MOST - 1, false, true, find_in_house_by_chain},
    {"find-none", MOST, false, false, find_nowhere},
    {"check-sounds", MOST, false, false, check_title},
    {"check-aliases", MOST, true, false, check_title},
    {"write-sounds", MOST, false, false, write_title},
    {"write-aliases", MOST, true, false, write_title},
};

static double now(void)
{
    struct timespec time;
    clock_gettime(CLOCK_MONOTONIC, &time);
    return (double)time.tv_sec * 1e9 + (double)time.tv_nsec;
}

static const struct scene *scene_of(const char *name)
{
    for (size_t k = 0; k < sizeof scenes / sizeof *scenes; k++)
        if (strcmp(scenes[k].name, name) == 0)
            return &scenes[k];
    return NULL;
}

int main(int argc, char **argv)
{
    const struct scene *scene = argc == 3 ? scene_of(argv[1]) : NULL;
    uint32_t calls = scene ? (uint32_t)strtoul(argv[2], NULL, 0) : 0;
    if (calls == 0) {
        fputs("usage: banks SCENE CALLS\n", stderr);
        return EXIT_FAILURE;
    }
    make_bank(&title, scene->title_count, scene->title_aliases);
    make_bank(&house, MOST, scene->house_aliases);
    double start = now();
    for (uint32_t k = 0; k < calls; k++)
        if (!scene->call()) {
            fprintf(stderr, "%s does not give what it is for\n", scene->name);
            return EXIT_FAILURE;
        }
    printf("%.0f\n", (now() - start) / calls);
    return EXIT_SUCCESS;
}
