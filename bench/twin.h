/* The calls that the bench makes, the same for each side: by value, of the library that is built from
 * crates/bench_nights; through the calls of include/adp.h, of board.c; and the twin's, of twin.c. A slice is a pointer
 * and a length. All sides take and answer the same. Fault sections have no side by value; what is answered of them has
 * the types of include/adp.h. */
#ifndef TWIN_H
#define TWIN_H

#include "adp.h"

#include <stddef.h>
#include <stdint.h>

enum { HEADER = 64, AREA = 16384, PLACES = 16, LONGEST = 1460 };

/* the most groups, the entries of each sender and group in either table, the most entries, and the most octets of a
 * PDU to a group */
enum { GROUPS = 8, PRIORITIES = 8, MOST_ENTRIES = PLACES * GROUPS * PRIORITIES, LONGEST_GROUP = 1472 };

/* the most octets of a fault section, and the most errors in one */
enum { SECTION = 1344, MOST_ERRORS = 331 };

/* a section's parts, as they are given to be written */
struct parts {
    uint32_t modules;
    const uint8_t *bits;
    size_t octets;
    const uint16_t *errors;
    size_t numbers;
    const uint8_t *name, *options;
    size_t length;
};

/* what a maintenance page shows of a section */
struct shown {
    struct adp_fault fault;
    struct adp_error errors[MOST_ERRORS];
    struct adp_options options;
};

typedef uint64_t night_call(uint8_t mode, uint16_t n1, uint32_t t, uint8_t senders, const uint8_t *packets,
                            size_t octets, const uint16_t *sizes, size_t count, uint8_t *storage, size_t room);
/* a night, and then how many pieces are held at these places, of each one */
typedef uint64_t pages_call(uint8_t mode, uint16_t n1, uint32_t t, uint8_t senders, const uint8_t *packets,
                            size_t octets, const uint16_t *sizes, size_t count, uint8_t *storage, size_t room,
                            const uint8_t *places, size_t asked);
/* a night of packets to groups, the groups 1 to `groups` registered: packet i came to to[i] */
typedef uint64_t casts_call(uint8_t mode, uint16_t n1, uint32_t t, uint8_t senders, uint8_t groups,
                            const uint8_t *packets, size_t octets, const uint16_t *sizes, const uint8_t *to,
                            size_t count, uint32_t *versions, uint32_t *numbers, size_t entries);
typedef uint64_t cuts_call(uint32_t number, const uint8_t *message, size_t n, uint16_t u, uint8_t last, uint8_t *buffer,
                           size_t room);
/* sections of one size, one behind the other: each judged; each judged, and every error and the options handed over;
 * and each written, into buffers that lie one behind the other */
typedef void reads_call(const uint8_t *sections, size_t size, size_t count, struct adp_fault *answers);
typedef void shows_call(const uint8_t *sections, size_t size, size_t count, struct shown *answers);
typedef void writes_call(const struct parts *given, size_t count, uint8_t *buffers, size_t room,
                         struct adp_written *answers);
/* writes the 64 octets of a header where there is room for them, and otherwise nothing; for bench/stores alone */
typedef void head_call(uint32_t number, uint32_t ml, uint16_t bsize, uint8_t cbn, uint8_t tbn, uint8_t *buffer,
                       size_t room);

night_call adp_night, board_night, twin_night;
pages_call adp_pages, board_pages, twin_pages;
casts_call board_casts, twin_casts;
cuts_call adp_cuts, board_cuts, twin_cuts;
head_call adp_head;
reads_call board_reads, twin_reads;
shows_call board_shows, twin_shows;
writes_call board_writes, twin_writes;

#endif
