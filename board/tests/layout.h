/* Where the values of a state stand in its words. Only these tests know it, to show states and to damage them; it is no
 * part of adp.h, and a board has no use for it. */
#ifndef LAYOUT_H
#define LAYOUT_H

#include "adp.h"

enum {
    WORD_TEST = 0,
    WORD_N1 = 1,
    WORD_T = 2,
    WORD_CLOCK = 3,
    WORD_COUNT = 4,
    WORD_GROUP_COUNT = 5,
    WORD_GROUPS = 6, /* an octet each, the first lowest */
    FIRST_SENDER = 7,
    WORDS_EACH = 10
};

/* The words of a sender. */
enum {
    OF_ADDRESS = 0, /* data field * 2^16 + node */
    OF_LAST = 1,    /* version * 2^32 + number */
    OF_OPEN = 2,    /* 1 where a message is open, otherwise 0 */
    OF_MESSAGE = 3, /* version * 2^32 + number */
    OF_CUT = 4,     /* TCD * 2^48 + n * 2^32 + u * 2^16 + pieces held * 2^8 + TBN */
    OF_MAP = 5,
    OF_STAMP = 6,
    OF_ALIVE = 7, /* 1 where the sender is alive, otherwise 0 */
    OF_HEARD = 8,
    OF_TIMEOUT = 9 /* al_tm_out */
};

/* The word of eight groups, and the group at a place of such a word. */
static inline uint64_t groups_word(const uint8_t *groups) {
    uint64_t word = 0;
    for (size_t i = ADP_GROUPS; i > 0; i--) word = word * 256 + groups[i - 1];
    return word;
}

static inline uint8_t group_in(uint64_t word, size_t place) {
    for (; place > 0; place--) word /= 256;
    return word % 256;
}

static inline size_t word_of(size_t sender, size_t which) {
    return FIRST_SENDER + WORDS_EACH * sender + which;
}

#endif
