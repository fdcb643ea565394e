/* adp_multicast on any words: they and the packet are lent as const, and like the two tables in rooms of room.h. Where
 * it answers otherwise than it must, or leaves other entries, that is said on standard error and ends the run. */
#ifndef MULTICAST_H
#define MULTICAST_H

#include "pdus.h"

/* A PDU that came to a group: how many entries of each table are lent, and which of them a delivery writes. */
struct cast {
    struct pdu pdu;
    uint8_t group;
    size_t versions, numbers, place;
};

/* A message of ten octets, version 5, SEQ 100, PRI 2, with as many entries of both tables. */
struct cast cast_to(uint8_t group, struct adp_address sender, size_t entries, size_t place);

/* Where its entry stands, by the places of its sender and its group, from 0, where there are so many groups. */
size_t entry_of(size_t sender, size_t groups, size_t group);

/* It answers this number, with all that is lent against the one and against the other inaccessible page. Each entry was
 * another one before: a delivery writes version and number to its own and leaves the others, a refusal leaves all. */
void multicast_is(const char *name, const uint64_t *state, size_t words, const struct cast *c, unsigned number);

/* Words past the senders, which it does not look at, and NULL for what has no octets, words or entries. */
void test_multicast(void);

/* How many calls were made. */
unsigned long multicast_calls(void);

#endif
