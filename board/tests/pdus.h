/* PDUs of the tests that are told by a few numbers. Written for the tests alone: nothing here comes from what is
 * tested. */
#ifndef PDUS_H
#define PDUS_H

#include "adp.h"
#include "octets.h"

#include <string.h>

/* There is room for an alive signal that is one octet too long. */
struct pdu {
    size_t length;
    uint8_t octets[ADP_LONGEST_ALIVE + 1];
};

static inline struct pdu header(uint8_t field, uint16_t node, uint64_t ml, uint8_t cbn, uint8_t tbn, size_t length) {
    struct pdu p = {.length = length};
    memcpy(p.octets, "NUXM", 4);
    lay(p.octets + 4, 4, ml);
    p.octets[9] = field;
    lay(p.octets + 10, 2, node);
    p.octets[54] = 1;
    p.octets[56] = cbn;
    p.octets[57] = tbn;
    lay(p.octets + 58, 2, length);
    return p;
}

/* Version 5, SEQ 100, code 1; `n` octets in pieces of `u`, all octets 0. */
static inline struct pdu piece(uint8_t field, uint16_t node, size_t n, size_t u, uint8_t number) {
    size_t tbn = n <= u ? 1 : (n + u - 1) / u;
    size_t p = number < tbn ? u : n - (tbn - 1) * u;
    struct pdu made_of = header(field, node, n + ADP_HEADER, number, (uint8_t)tbn, p + ADP_HEADER);
    lay(made_of.octets + 12, 4, 65537);
    lay(made_of.octets + 16, 4, 5);
    lay(made_of.octets + 20, 4, 100);
    lay(made_of.octets + 24, 4, 2147483648);
    lay(made_of.octets + 40, 2, 1);
    return made_of;
}

/* An alive signal of ADP_ALIVE octets, al_tm_out 60. */
static inline struct pdu signal_of(uint8_t field, uint16_t node, uint8_t mode) {
    struct pdu p = header(field, node, 128, 1, 1, 128);
    lay(p.octets + 12, 4, 65536);
    lay(p.octets + 40, 2, 60003);
    p.octets[55] = 1;
    lay(p.octets + 84, 4, 60);
    p.octets[90] = mode;
    p.octets[91] = 4;
    p.octets[105] = 1;
    return p;
}

/* The same with so many octets behind it; ML and BSIZE count them. */
static inline struct pdu signal_with(uint8_t mode, const uint8_t *octets, size_t length) {
    struct pdu p = signal_of(1, 7, mode);
    if (length > 0) memcpy(p.octets + p.length, octets, length);
    p.length += length;
    lay(p.octets + 4, 4, p.length);
    lay(p.octets + 58, 2, p.length);
    return p;
}

#endif
