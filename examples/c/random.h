/* Bytes that are the same each time: xorshift64 from a fixed start. */
#ifndef RANDOM_H
#define RANDOM_H

#include <stdint.h>

#define RANDOM_START UINT64_C(88172645463325252)

static inline uint8_t random_byte(uint64_t *state) {
    *state ^= *state << 13;
    *state ^= *state >> 7;
    *state ^= *state << 17;
    return (uint8_t)*state;
}

#endif
