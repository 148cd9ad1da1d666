#include "check.h"

#include <stdarg.h>
#include <stdio.h>

static unsigned long checks, failures;

void check(bool good, const char *format, ...)
{
    checks++;
    if (good)
        return;
    failures++;
    va_list arguments;
    va_start(arguments, format);
    fputs("failed: ", stderr);
    vfprintf(stderr, format, arguments);
    fputc('\n', stderr);
    va_end(arguments);
}

bool all_passed(void)
{
    printf("%lu checks, %lu failed\n", checks, failures);
    return failures == 0;
}

/* xorshift64* */
uint32_t random32(uint64_t *seed)
{
    *seed ^= *seed >> 12;
    *seed ^= *seed << 25;
    *seed ^= *seed >> 27;
    return (uint32_t)(*seed * 0x2545F4914F6CDD1D >> 32);
}

uint32_t below(uint64_t *seed, uint32_t limit)
{
    return random32(seed) % limit;
}
