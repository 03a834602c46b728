/* A number of so many bytes, little-endian, as a picture's head and a stored list have it. */
#ifndef BYTES_H
#define BYTES_H

#include <stdint.h>

static inline uint64_t number(const uint8_t *p, int bytes) {
    uint64_t n = 0;
    while (bytes--)
        n = n << 8 | p[bytes];
    return n;
}

#endif
