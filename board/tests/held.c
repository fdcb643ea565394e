/* See held.h. What adp_held must give follows from what adp.h says of it and from where layout.h has the values, and is
 * written out here. */
#include "held.h"

#include "layout.h"
#include "room.h"

#include <inttypes.h>
#include <stdio.h>
#include <stdlib.h>

static const uint64_t ANY = UINT64_MAX;
static const uint64_t HALF = (uint64_t)1 << 32;

static struct room room;
static unsigned long made;

static void need_held(const char *name, uint8_t place, unsigned got, unsigned wanted) {
    made++;
    if (got == wanted) return;
    fprintf(stderr, "words: %s: held gives %u for place %u, not %u\n", name, got, place, wanted);
    exit(1);
}

void held_is(const char *name, const uint64_t *state, size_t words, uint8_t place, unsigned held) {
    if (room.size == 0) open_room(&room, MOST_WORDS * sizeof *state);
    for (int way = AT_END; way <= AT_START; way++) {
        const uint64_t *lent = lend_constant(&room, (enum way)way, state, words * sizeof *state);
        need_held(name, place, adp_held(lent, words, place), held);
        bool left = same(&room, state);
        if (take_back(&room, NULL) && left) continue;
        fprintf(stderr, "words: %s: held changes octets\n", name);
        exit(1);
    }
}

unsigned long held_calls(void) {
    return made;
}

/* ---- words that are far from a state */

/* At every place a message is open; 100 is the number kept at place 0, 101 at place 1, and so on, also past the 16
 * places, in words that no state has. All else is all ones. */
static void make_words(uint64_t *words) {
    for (size_t at = 0; at < MOST_WORDS; at++) words[at] = ANY;
    for (size_t i = 0; word_of(i + 1, 0) <= MOST_WORDS; i++) {
        words[word_of(i, OF_OPEN)] = 1;
        words[word_of(i, OF_CUT)] = ANY - 255 * 256 + (100 + i) * 256;
    }
}

/* The first so many places give what is kept there, and all others 0. */
static void first_give(const char *name, const uint64_t *state, size_t words, unsigned senders) {
    const uint8_t places[] = {0, 1, 2, 14, 15, 16, 17, 31, 255};
    for (size_t i = 0; i < sizeof places; i++)
        held_is(name, state, words, places[i], places[i] < senders ? 100u + places[i] : 0);
}

/* ---- how many senders there are */

/* The whole word is the count, not its lowest octets; more than 16 places there are not. */
static void test_counts(void) {
    const struct {
        uint64_t count;
        unsigned senders;
    } rows[] = {
        {0, 0}, {1, 1}, {2, 2}, {15, 15}, {16, 16}, {17, 16}, {255, 16}, {256, 16}, {256 + 2, 16},
        {65536 + 2, 16}, {HALF, 16}, {HALF + 2, 16}, {HALF << 31, 16}, {ANY, 16},
    };
    uint64_t words[MOST_WORDS];
    make_words(words);
    for (size_t i = 0; i < sizeof rows / sizeof *rows; i++) {
        char name[40];
        snprintf(name, sizeof name, "a count of %" PRIu64, rows[i].count);
        words[WORD_COUNT] = rows[i].count;
        first_give(name, words, ADP_STATE_WORDS, rows[i].senders);
        first_give(name, words, MOST_WORDS, rows[i].senders);
    }
}

/* A sender is there where all its ten words are, and nobody is where the count is not. */
static void test_numbers_of_words(void) {
    const struct {
        size_t words;
        unsigned senders;
    } rows[] = {
        {0, 0}, {1, 0}, {4, 0}, {5, 0}, {6, 0}, {7, 0}, {15, 0}, {16, 0}, {17, 1}, {25, 1}, {26, 1}, {27, 2},
        {156, 14}, {157, 15}, {165, 15}, {166, 15}, {167, 16}, {168, 16}, {334, 16},
    };
    uint64_t words[MOST_WORDS];
    make_words(words);
    for (size_t i = 0; i < sizeof rows / sizeof *rows; i++) {
        char name[40];
        snprintf(name, sizeof name, "%zu words", rows[i].words);
        first_give(name, words, rows[i].words, rows[i].senders);
    }
}

/* ---- what one sender's words say */

/* Only 1 says that a message is open. */
static void test_open_flags(void) {
    const uint64_t shut[] = {0, 2, 3, 255, 256, 256 + 1, 65536 + 1, HALF, HALF + 1, (HALF << 31) + 1, ANY};
    const uint8_t places[] = {0, 1, 15};
    for (size_t i = 0; i < sizeof places; i++)
        for (size_t j = 0; j < sizeof shut / sizeof *shut; j++) {
            uint64_t words[MOST_WORDS];
            char name[60];
            make_words(words);
            words[word_of(places[i], OF_OPEN)] = shut[j];
            snprintf(name, sizeof name, "an open flag of %" PRIu64 " at place %u", shut[j], places[i]);
            held_is(name, words, ADP_STATE_WORDS, places[i], 0);
            held_is(name, words, ADP_STATE_WORDS, 7, 107);
        }
}

/* The number is the second lowest octet of the cut word, as it stands there, whatever the map and the rest hold: all
 * ones, or nothing. */
static void test_octet(void) {
    uint64_t ones[MOST_WORDS], nothing[MOST_WORDS] = {[WORD_COUNT] = 2};
    make_words(ones);
    nothing[word_of(1, OF_OPEN)] = 1;
    for (unsigned held = 0; held < 256; held++) {
        ones[word_of(1, OF_CUT)] = ANY - 255 * 256 + held * 256;
        nothing[word_of(1, OF_CUT)] = held * 256;
        held_is("all else ones", ones, ADP_STATE_WORDS, 1, held);
        held_is("nothing else", nothing, ADP_STATE_WORDS, 1, held);
    }
}

/* ---- NULL */

static void test_null(void) {
    const uint8_t places[] = {0, 15, 16, 255};
    for (size_t i = 0; i < sizeof places; i++)
        need_held("NULL for words", places[i], adp_held(NULL, 0, places[i]), 0);
}

void test_held(void) {
    test_counts();
    test_numbers_of_words();
    test_open_flags();
    test_octet();
    test_null();
}
