/* Numbers in octets, high octet first, and the sum of docs/EDGES.md. Written for the tests alone: nothing here comes
 * from what is tested. */
#ifndef OCTETS_H
#define OCTETS_H

#include <stddef.h>
#include <stdint.h>

static inline uint64_t number_at(const uint8_t *octets, size_t size) {
    uint64_t number = 0;
    for (size_t i = 0; i < size; i++) number = number * 256 + octets[i];
    return number;
}

static inline void lay(uint8_t *octets, size_t size, uint64_t number) {
    for (size_t i = size; i > 0; i--) {
        octets[i - 1] = (uint8_t)(number % 256);
        number /= 256;
    }
}

/* "s = 7; then, for each octet in order, s = (31 * s + octet) mod 2^32" */
static inline uint32_t sum(const uint8_t *octets, size_t length) {
    uint32_t s = 7;
    for (size_t i = 0; i < length; i++) s = 31 * s + octets[i];
    return s;
}

#endif
