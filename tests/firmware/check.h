/* What the tests use: checks, counted; numbers of four bytes, big-endian; and pseudo-random numbers. Valid C99 and C++11. */
#ifndef CHECK_H
#define CHECK_H

#include <stdint.h>
#include <stdio.h>
#include <stdlib.h>

static unsigned long checks;

/* The checks are the same in every run, so how many came before one that fails tells which call it was. */
static void check_in(const char *file, int line, int holds, const char *what) {
    if (!holds) {
        fprintf(stderr, "%s:%d: not so: %s (after %lu checks)\n", file, line, what, checks);
        exit(1);
    }
    checks++;
}

#define check(holds, line, what) check_in(__FILE__, line, holds, what)
#define CHECK(x) check((x) ? 1 : 0, __LINE__, #x)

static inline uint32_t get(const uint8_t *p) { /* inline: not every test uses it */
    return (uint32_t)p[0] << 24 | (uint32_t)p[1] << 16 | (uint32_t)p[2] << 8 | (uint32_t)p[3];
}

static void put(uint8_t *p, uint32_t x) {
    p[0] = (uint8_t)(x >> 24);
    p[1] = (uint8_t)(x >> 16);
    p[2] = (uint8_t)(x >> 8);
    p[3] = (uint8_t)x;
}

static uint64_t seed = 20100725;

static uint32_t number(void) { /* xorshift64*, upper half */
    seed ^= seed >> 12;
    seed ^= seed << 25;
    seed ^= seed >> 27;
    return (uint32_t)((seed * 2685821657736338717u) >> 32);
}

#endif
