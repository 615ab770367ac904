/* What the tests from C share: a fact that has to hold, and numbers at random. */
#define _DEFAULT_SOURCE
#include "gibbonplate.h"
#include <stdio.h>
#include <stdlib.h>
#include <string.h>
#include <sys/mman.h>
#include <unistd.h>

#define CHECK(fact) ((fact) ? (void)0 : failed(__FILE__, #fact, __LINE__))

static void failed(const char *file, const char *fact, int line)
{
    fprintf(stderr, "%s:%d: not so: %s\n", file, line, fact);
    exit(1);
}

static uint64_t seed = 0x2545F4914F6CDD1D;

static inline uint64_t random64(void)
{
    seed ^= seed << 13;
    seed ^= seed >> 7;
    seed ^= seed << 17;
    return seed * 0x2545F4914F6CDD1D;
}

static inline uint32_t below(uint32_t n)
{
    return (uint32_t)((random64() >> 11) % n);
}
