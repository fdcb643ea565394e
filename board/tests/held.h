/* adp_held, which takes any words: they are lent as const, in a room of room.h. Where it gives another number than it
 * must, or an octet changes, that is said on standard error and ends the run. */
#ifndef HELD_H
#define HELD_H

#include "adp.h"

/* The most words that are lent. */
enum { MOST_WORDS = 2 * ADP_STATE_WORDS };

/* It gives this number for a place, with the words against the one and against the other inaccessible page. */
void held_is(const char *name, const uint64_t *state, size_t words, uint8_t place, unsigned held);

/* Words that are far from a state, fewer and more of them, and NULL for none. */
void test_held(void);

/* How many calls were made. */
unsigned long held_calls(void);

#endif
