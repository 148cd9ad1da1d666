/* Checks that are counted, and random numbers. */
#ifndef CHECK_H
#define CHECK_H

#include <stdbool.h>
#include <stdint.h>

/* Counts a check. If it is not good, prints what failed to standard error. */
void check(bool good, const char *format, ...);
/* Prints how many checks there were and how many failed. Returns whether none did. */
bool all_passed(void);

/* The next random number. A seed is never 0. */
uint32_t random32(uint64_t *seed);
uint32_t below(uint64_t *seed, uint32_t limit);

#endif
