/* Fault sections, their octets laid from their parts as 02's item 2 has them behind one another. Written for the tests
 * alone: nothing here comes from what is tested. */
#ifndef SECTION_H
#define SECTION_H

#include "octets.h"

#include <string.h>

/* Some more than fit. */
enum { MOST_BITS = 1400, MOST_NUMBERS = 700, MOST_OPTIONS = 1400, MOST_SECTION = 4400 };

struct parts {
    uint32_t modules;
    size_t octets; /* of bits */
    uint8_t bits[MOST_BITS];
    size_t numbers;
    uint16_t errors[MOST_NUMBERS]; /* module, error, module, error, .. */
    uint8_t name[8];
    size_t length;
    uint8_t options[MOST_OPTIONS];
};

struct section {
    size_t length;
    uint8_t octets[MOST_SECTION];
};

static inline void put_number(struct section *s, size_t size, uint64_t number) {
    lay(s->octets + s->length, size, number);
    s->length += size;
}

static inline void put_octets(struct section *s, const uint8_t *octets, size_t length) {
    memcpy(s->octets + s->length, octets, length);
    s->length += length;
}

/* "module count, module bits in L octets, error count, eight-octet name, errors of two 16-bit numbers (module, from 1,
 * and error), option count, options" */
static inline struct section section_of(const struct parts *p) {
    struct section s = {.length = 0};
    put_number(&s, 4, p->modules);
    put_octets(&s, p->bits, p->octets);
    put_number(&s, 4, p->numbers / 2);
    put_octets(&s, p->name, sizeof p->name);
    for (size_t i = 0; i < p->numbers; i++) put_number(&s, 2, p->errors[i]);
    put_number(&s, 4, p->length);
    put_octets(&s, p->options, p->length);
    return s;
}

/* "Module X has bit (X - 1) mod 8, lowest first, of octet (X - 1) / 8, set when dead" */
static inline void set_dead(struct parts *p, uint32_t x) {
    p->bits[(x - 1) / 8] |= (uint8_t)(1 << (x - 1) % 8);
}

/* 33 modules, of which 1, 8, 9 and 33 are dead; two errors, 515 of module 1 and 0 of module 65,535; a name, PUMP and 0,
 * 0, 0, 1; three octets of options. */
static const struct section BY_HAND = {
    39, {0, 0, 0, 33, 0x81, 0x01, 0, 0, 0x01, 0, 0, 0, 0, 0, 0, 2, 'P', 'U', 'M', 'P', 0, 0, 0, 1,
         0, 1, 2, 3, 255, 255, 0, 0, 0, 0, 0, 3, 9, 8, 7}};

static inline struct parts parts_by_hand(void) {
    return (struct parts){33, 8, {0x81, 0x01, 0, 0, 0x01}, 4, {1, 515, 65535, 0}, {'P', 'U', 'M', 'P', 0, 0, 0, 1},
                          3, {9, 8, 7}};
}

/* So many modules, of which 1, 4, 7 and so on are dead, in so many octets; errors, and octets of options. */
static inline struct parts example(uint32_t modules, size_t octets, size_t errors, size_t options) {
    struct parts p = {.modules = modules, .octets = octets, .numbers = 2 * errors, .length = options};
    memcpy(p.name, "ABCDEFGH", sizeof p.name);
    for (uint32_t x = 1; x <= modules; x += 3) set_dead(&p, x);
    for (size_t i = 0; i < p.numbers; i++) p.errors[i] = (uint16_t)(i % 2 == 0 ? i / 2 + 1 : 257 * i + 3);
    for (size_t i = 0; i < options; i++) p.options[i] = (uint8_t)(11 * i + 5);
    return p;
}

static inline struct section with_number(struct section s, size_t at, size_t size, uint64_t number) {
    lay(s.octets + at, size, number);
    return s;
}

/* Cut off behind, or lengthened with 0. */
static inline struct section of_length(struct section s, size_t length) {
    struct section made_of = {.length = length};
    memcpy(made_of.octets, s.octets, length < s.length ? length : s.length);
    return made_of;
}

/* The octets of so many modules' bits: whole words of 32. */
static inline size_t octets_for(uint32_t modules) {
    size_t octets = 0;
    while (8 * octets < modules) octets += 4;
    return octets;
}

#endif
