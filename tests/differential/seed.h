/* Numbers by seed, for all that make cases: the same seed gives the same ones on every machine. */
#ifndef SEED_H
#define SEED_H

#include <stdint.h>

static uint64_t state;

static inline uint64_t mix(uint64_t z) {
    z = (z ^ (z >> 30)) * 0xBF58476D1CE4E5B9u;
    z = (z ^ (z >> 27)) * 0x94D049BB133111EBu;
    return z ^ (z >> 31);
}

static inline uint64_t next(void) { return mix(state += 0x9E3779B97F4A7C15u); }

static inline uint32_t below(uint32_t n) { return (uint32_t)(((next() >> 32) * n) >> 32); }

static inline uint32_t between(uint32_t low, uint32_t high) { return low + below(high - low + 1); }

static inline int percent(unsigned p) { return below(100) < p; }

static inline uint32_t one_of(const uint32_t *list, uint32_t n) { return list[below(n)]; }
#define ONE_OF(...) one_of((const uint32_t[]){__VA_ARGS__}, sizeof((const uint32_t[]){__VA_ARGS__}) / sizeof(uint32_t))

static inline uint8_t printable(void) { return (uint8_t)between(0x20, 0x7E); }

#endif
