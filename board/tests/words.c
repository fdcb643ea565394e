/* Words that are no state, numbers of words that no state has, words that are never looked at, and NULL for what has no
 * octets: what the calls by value cannot be given; and the number of pieces held, and groups, where they stand in the
 * words. What must come back follows from 01's row 9, from 02's items 1 and 5 and from adp.h, and is written out here.
 *
 * Each call is made twice, with all that it is lent against the one and against the other inaccessible page; those with
 * NULL once. It prints how many calls it made. */
#include "adp.h"
#include "held.h"
#include "layout.h"
#include "multicast.h"
#include "octets.h"
#include "pdus.h"
#include "room.h"

#include <inttypes.h>
#include <stdio.h>
#include <stdlib.h>
#include <string.h>

enum { ROOM = 2 * ADP_AREA, FILL = 170 };

static const uint64_t ANY = UINT64_MAX;
static const uint64_t HALF = (uint64_t)1 << 32;

static struct room state_room, storage_room, packet_room, tally_room;
static uint8_t storage[ROOM];
static unsigned long made;

static void need(bool good, const char *name, const char *what) {
    if (good) return;
    fprintf(stderr, "words: %s: %s\n", name, what);
    exit(1);
}

static void need_number(unsigned got, unsigned wanted, const char *name, const char *what) {
    if (got == wanted) return;
    fprintf(stderr, "words: %s: %s answers %u, not %u\n", name, what, got, wanted);
    exit(1);
}

/* The word of the cut of a message of code 1. */
static uint64_t cut_word(uint64_t n, uint64_t u, uint64_t held, uint64_t tbn) {
    return 65536 * HALF + n * HALF + u * 65536 + held * 256 + tbn;
}

/* ---- calls */

enum kind { SETUP, MESSAGE, TALLIED, ALIVE, CLOCK, QUESTION, KINDS };

static const char *const KIND[KINDS] = {"setup", "message", "message_tallied", "alive", "clock", "question"};

struct call {
    enum kind kind;
    struct pdu pdu;
    uint64_t ms;
    struct adp_settings settings;
};

static const struct adp_address FIRST = {1, 7}, SECOND = {2, 9};

/* In three groups. */
static const struct adp_groups THREE = {3, {5, 1, 255}};

static struct adp_settings two_senders(uint16_t n1) {
    struct adp_settings s = {.n1 = n1, .t = 15000, .count = 2, .groups = THREE};
    s.senders[0] = FIRST;
    s.senders[1] = SECOND;
    return s;
}

static uint8_t tallied(uint64_t *state, size_t words, uint8_t *lent, const uint8_t *packet, size_t size, enum way way) {
    uint32_t counts[2] = {3, 4};
    uint32_t *tally = lend(&tally_room, way, counts, sizeof counts);
    uint8_t number = adp_message_tallied(state, words, lent, ROOM, packet, size, tally).number;
    counts[number < 9 ? 0 : 1]++;
    need(same(&tally_room, counts), KIND[TALLIED], "the tally is not counted up by one");
    need(take_back(&tally_room, NULL), KIND[TALLIED], "octets beside the tally change");
    return number;
}

static uint8_t number_of(const struct call *c, uint64_t *state, size_t words, enum way way) {
    const uint8_t *packet = lend_constant(&packet_room, way, c->pdu.octets, c->pdu.length);
    uint8_t *lent = lend(&storage_room, way, storage, ROOM);
    switch (c->kind) {
    case SETUP: return adp_setup(state, words, c->settings);
    case MESSAGE: return adp_message(state, words, lent, ROOM, packet, c->pdu.length).number;
    case TALLIED: return tallied(state, words, lent, packet, c->pdu.length, way);
    case ALIVE: return adp_alive(state, words, packet, c->pdu.length);
    case CLOCK: return adp_clock(state, words, c->ms).number;
    default: return adp_question(state, words).number;
    }
}

/* Makes a call on a copy of the words, and leaves what it makes of them in `after`. */
static uint8_t call_on(const struct call *c, const uint64_t *state, size_t words, enum way way, uint64_t *after) {
    size_t octets = words * sizeof *state;
    uint64_t *lent = c->kind == QUESTION ? (uint64_t *)(uintptr_t)lend_constant(&state_room, way, state, octets)
                                         : lend(&state_room, way, state, octets);
    uint8_t number = number_of(c, lent, words, way);
    need(take_back(&state_room, after), KIND[c->kind], "octets beside the state change");
    need(take_back(&packet_room, NULL), KIND[c->kind], "octets beside the packet change");
    need(number < 9 || same(&storage_room, storage), KIND[c->kind], "a refusal changes the storage");
    need(take_back(&storage_room, NULL), KIND[c->kind], "octets beside the storage change");
    made++;
    return number;
}

/* The call answers this number both ways, and makes of the words these. */
static void expect(const char *name, const struct call *c, const uint64_t *state, size_t words, unsigned number,
                   const uint64_t *wanted) {
    for (int way = AT_END; way <= AT_START; way++) {
        uint64_t after[MOST_WORDS];
        need_number(call_on(c, state, words, (enum way)way, after), number, name, KIND[c->kind]);
        if (memcmp(after, wanted, words * sizeof *state) == 0) continue;
        size_t i = 0;
        while (after[i] == wanted[i]) i++;
        fprintf(stderr, "words: %s: %s makes word %zu %" PRIu64 ", not %" PRIu64 "\n", name, KIND[c->kind], i, after[i],
                wanted[i]);
        exit(1);
    }
}

/* ---- words that are no state */

/* The calls that the past below takes: at its end, at the clock 1000, the first of two senders is alive and has pieces
 * 2 and 4 of four, and the second is not alive and has pieces 1, 7 and 12 of twelve. */
static struct call taken[KINDS];
static struct cast taken_by_group; /* the second group: its entry is (0 * 3 + 1) * 8 + 2 */

static struct call message(uint8_t field, uint16_t node, size_t n, size_t u, uint8_t number) {
    return (struct call){.kind = MESSAGE, .pdu = piece(field, node, n, u, number)};
}

static void make_calls(void) {
    taken[SETUP] = (struct call){.kind = SETUP, .settings = two_senders(16)};
    taken[MESSAGE] = taken[TALLIED] = message(1, 7, 4500, 1332, 1);
    taken[TALLIED].kind = TALLIED;
    taken[ALIVE] = (struct call){.kind = ALIVE, .pdu = signal_of(1, 7, 1)};
    taken[CLOCK] = (struct call){.kind = CLOCK, .ms = 1001};
    taken[QUESTION] = (struct call){.kind = QUESTION};
    taken_by_group = cast_to(1, FIRST, 48, 10);
}

static void make_past(uint64_t *state) {
    struct call clock = {.kind = CLOCK, .ms = 1000};
    struct call opens = message(1, 7, 4500, 1332, 2), joins = message(1, 7, 4500, 1332, 4);
    struct call last = message(2, 9, 16384, 1396, 12), first = message(2, 9, 16384, 1396, 1);
    struct call between = message(2, 9, 16384, 1396, 7);
    const struct call *past[] = {&taken[SETUP], &clock, &taken[ALIVE], &opens, &last, &first, &joins, &between};
    memset(state, FILL, MOST_WORDS * sizeof *state);
    for (size_t i = 0; i < sizeof past / sizeof *past; i++)
        need_number(call_on(past[i], state, ADP_STATE_WORDS, AT_END, state), 0, "the past", KIND[past[i]->kind]);
    for (int kind = MESSAGE; kind < KINDS; kind++) {
        uint64_t after[MOST_WORDS];
        unsigned number = call_on(&taken[kind], state, ADP_STATE_WORDS, AT_END, after);
        need_number(number, 0, "undamaged", KIND[kind]);
    }
    multicast_is("undamaged", state, ADP_STATE_WORDS, &taken_by_group, ADP_DELIVERED);
}

/* What setup makes of any words. */
static void make_new(uint64_t *wanted) {
    memset(wanted, 0, ADP_STATE_WORDS * sizeof *wanted);
    wanted[WORD_N1] = 16;
    wanted[WORD_T] = 15000;
    wanted[WORD_COUNT] = 2;
    wanted[WORD_GROUP_COUNT] = 3;
    wanted[WORD_GROUPS] = 5 + 1 * 256 + 255 * 65536;
    wanted[word_of(0, OF_ADDRESS)] = 1 * 65536 + 7;
    wanted[word_of(1, OF_ADDRESS)] = 2 * 65536 + 9;
}

/* What adp_held gives of the two senders; of nobody else a message is open. */
static void kept(const char *name, const uint64_t *state, unsigned first, unsigned second) {
    const uint8_t others[] = {2, 15, 16, 17, 255};
    held_is(name, state, ADP_STATE_WORDS, 0, first);
    held_is(name, state, ADP_STATE_WORDS, 1, second);
    for (size_t i = 0; i < sizeof others; i++) held_is(name, state, ADP_STATE_WORDS, others[i], 0);
}

/* The words that the past leaves, and those that one more piece leaves. */
static void test_past(const uint64_t *state) {
    uint64_t wanted[ADP_STATE_WORDS];
    uint64_t *first = wanted + word_of(0, 0), *second = wanted + word_of(1, 0);
    make_new(wanted);
    wanted[WORD_CLOCK] = first[OF_STAMP] = first[OF_HEARD] = second[OF_STAMP] = 1000;
    first[OF_OPEN] = first[OF_ALIVE] = second[OF_OPEN] = 1;
    first[OF_MESSAGE] = second[OF_MESSAGE] = 5 * HALF + 100;
    first[OF_CUT] = cut_word(4500, 1332, 2, 4);
    first[OF_MAP] = 2 + 8;
    first[OF_TIMEOUT] = 60;
    second[OF_CUT] = cut_word(16384, 1396, 3, 12);
    second[OF_MAP] = 1 + 64 + 2048;
    expect("the past", &taken[QUESTION], state, ADP_STATE_WORDS, 0, wanted);
    kept("the past", state, 2, 3);
    first[OF_CUT] = cut_word(4500, 1332, 3, 4);
    first[OF_MAP] = 1 + 2 + 8;
    expect("one piece more", &taken[MESSAGE], state, ADP_STATE_WORDS, 0, wanted);
    expect("one piece more", &taken[TALLIED], state, ADP_STATE_WORDS, 0, wanted);
    kept("one piece more", wanted, 3, 3);
}

/* Every call but setup answers 9 and changes nothing. */
static void all_nine(const char *name, const uint64_t *state, size_t words) {
    for (int kind = MESSAGE; kind < KINDS; kind++) expect(name, &taken[kind], state, words, 9, state);
    multicast_is(name, state, words, &taken_by_group, ADP_BAD_STATE);
}

/* Setup makes such words a state, and adp_held gives what is kept in them, all the same. */
static void no_state(const char *name, const uint64_t *words, unsigned first, unsigned second) {
    uint64_t wanted[ADP_STATE_WORDS];
    all_nine(name, words, ADP_STATE_WORDS);
    make_new(wanted);
    expect(name, &taken[SETUP], words, ADP_STATE_WORDS, 0, wanted);
    kept(name, words, first, second);
}

struct damage {
    const char *name;
    size_t word;
    uint64_t value;
};

/* With what adp_held then gives of the two senders. */
static void test_damages(const uint64_t *state, const struct damage *damages, size_t count, unsigned first,
                         unsigned second) {
    for (size_t i = 0; i < count; i++) {
        uint64_t damaged[MOST_WORDS];
        memcpy(damaged, state, sizeof damaged);
        damaged[damages[i].word] = damages[i].value;
        no_state(damages[i].name, damaged, first, second);
    }
}

/* No field can hold these, or 01's limits are below or above them; of most, the octets that the value was to have are
 * those that it had. */
static void test_settings(const uint64_t *state) {
    const struct damage damages[] = {
        {"a test flag of 2", WORD_TEST, 2}, {"a test flag of 256", WORD_TEST, 256},
        {"a test flag of 2^32", WORD_TEST, HALF}, {"a test flag of 2^64 - 1", WORD_TEST, ANY},
        {"N1 0", WORD_N1, 0}, {"N1 65,552", WORD_N1, 65536 + 16}, {"N1 2^32 + 16", WORD_N1, HALF + 16},
        {"T 0", WORD_T, 0}, {"T 2^32 + 15,000", WORD_T, HALF + 15000},
        {"T 2^63 + 15,000", WORD_T, (HALF << 31) + 15000},
        {"a clock of 2^40 + 1", WORD_CLOCK, (HALF << 8) + 1}, {"a clock of 2^64 - 1", WORD_CLOCK, ANY},
        {"a count of 17", WORD_COUNT, 17}, {"a count of 258", WORD_COUNT, 256 + 2},
        {"a count of 300", WORD_COUNT, 300}, {"a count of 2^32 + 2", WORD_COUNT, HALF + 2},
        {"a count of 2^64 - 1", WORD_COUNT, ANY},
    };
    const struct damage nobody = {"no senders, and not the empty state", WORD_COUNT, 0};
    test_damages(state, damages, sizeof damages / sizeof *damages, 2, 3);
    test_damages(state, &nobody, 1, 0, 0);
}

/* Likewise, of senders below the count. */
static void test_senders(const uint64_t *state) {
    const size_t address = word_of(0, OF_ADDRESS), second = word_of(1, OF_ADDRESS), last = word_of(0, OF_LAST);
    const size_t alive = word_of(0, OF_ALIVE), timeout = word_of(0, OF_TIMEOUT);
    const struct damage damages[] = {
        {"data field 0", address, 7}, {"node 4,096", address, 65536 + 4096},
        {"an address of 2^24", address, 1 << 24}, {"data field 257", address, (1 << 24) + 65536 + 7},
        {"an address of 2^32 + 65,543", address, HALF + 65536 + 7},
        {"the second address 2^24", second, 1 << 24},
        {"the second data field 258", second, (1 << 24) + 2 * 65536 + 9},
        {"the second address again the first", second, 65536 + 7},
        {"the last number 2^31", last, 5 * HALF + HALF / 2}, {"the last number 0 of version 5", last, 5 * HALF},
        {"an alive flag of 2", alive, 2}, {"an alive flag of 257", alive, 256 + 1},
        {"an alive flag of 2^32 + 1", alive, HALF + 1}, {"an alive flag of 2^64 - 1", alive, ANY},
        {"the second alive flag 2", word_of(1, OF_ALIVE), 2},
        {"the second alive flag 2^63", word_of(1, OF_ALIVE), HALF << 31},
        {"heard after the clock", word_of(0, OF_HEARD), 1001},
        {"al_tm_out 2^32", timeout, HALF}, {"al_tm_out 2^32 + 60", timeout, HALF + 60},
        {"al_tm_out 2^64 - 1", timeout, ANY},
    };
    test_damages(state, damages, sizeof damages / sizeof *damages, 2, 3);
}

/* A flag that is not 1 is of no open message, and adp_held gives 0. */
static void test_open_flags(const uint64_t *state) {
    const size_t opened = word_of(0, OF_OPEN);
    const struct damage first[] = {
        {"an open flag of 2", opened, 2}, {"an open flag of 257", opened, 256 + 1},
        {"an open flag of 2^32 + 1", opened, HALF + 1}, {"an open flag of 2^64 - 1", opened, ANY},
    };
    const struct damage second[] = {
        {"the second open flag 2", word_of(1, OF_OPEN), 2},
        {"the second open flag 2^63", word_of(1, OF_OPEN), HALF << 31},
    };
    test_damages(state, first, sizeof first / sizeof *first, 0, 3);
    test_damages(state, second, sizeof second / sizeof *second, 2, 0);
}

/* 01's limits of an open message, but for its cut and its map. */
static void test_open_messages(const uint64_t *state) {
    const struct damage damages[] = {
        {"SEQ 0 of the open message", word_of(0, OF_MESSAGE), 5 * HALF},
        {"code 60,000 of the open message", word_of(0, OF_CUT), cut_word(4500, 1332, 2, 4) + 59999 * HALF * 65536},
        {"a stamp after the clock", word_of(0, OF_STAMP), 1001},
        {"the second stamp after the clock", word_of(1, OF_STAMP), 1001},
    };
    test_damages(state, damages, sizeof damages / sizeof *damages, 2, 3);
}

/* The words are a state, with more behind them or less. Setup gets others, which no setup would write. */
static void test_numbers_of_words(const uint64_t *state) {
    const size_t numbers[] = {0, 1, FIRST_SENDER, ADP_STATE_WORDS - 2, ADP_STATE_WORDS - 1, ADP_STATE_WORDS + 1,
                              MOST_WORDS};
    struct call refused = {.kind = SETUP, .settings = two_senders(0)};
    uint64_t junk[MOST_WORDS];
    memset(junk, FILL, sizeof junk);
    for (size_t i = 0; i < sizeof numbers / sizeof *numbers; i++) {
        char name[40];
        snprintf(name, sizeof name, "%zu words", numbers[i]);
        all_nine(name, state, numbers[i]);
        expect(name, &taken[SETUP], junk, numbers[i], 10, junk);
        expect(name, &refused, junk, numbers[i], 10, junk);
    }
}

/* ---- what setup writes */

static void test_setup(void) {
    struct call refused = {.kind = SETUP, .settings = two_senders(0)};
    uint64_t junk[ADP_STATE_WORDS], wanted[ADP_STATE_WORDS] = {0};
    memset(junk, FILL, sizeof junk);
    wanted[WORD_N1] = 1;
    wanted[WORD_T] = 1;
    expect("the empty state", &refused, junk, ADP_STATE_WORDS, 10, wanted);
    kept("the empty state", wanted, 0, 0);
    make_new(wanted);
    expect("a new state", &taken[SETUP], junk, ADP_STATE_WORDS, 0, wanted);
    kept("a new state", wanted, 0, 0);
}

/* ---- what is never looked at */

/* Nobody is alive and nothing is open; everything else but flags, addresses and last numbers is junk. Past the count
 * flags are junk as well; there the one address is of nobody else, and the other stands below the count. Past the
 * groups stand some of them again, group 0, and group 77, which is none of them. */
static void make_junk(uint64_t *state) {
    struct call clock = {.kind = CLOCK, .ms = 1000};
    call_on(&taken[SETUP], state, ADP_STATE_WORDS, AT_END, state);
    call_on(&clock, state, ADP_STATE_WORDS, AT_END, state);
    for (size_t i = 0; i < 2; i++)
        for (size_t which = OF_MESSAGE; which < WORDS_EACH; which++)
            if (which != OF_ALIVE) state[word_of(i, which)] = ANY - which;
    for (size_t at = word_of(2, 0); at < ADP_STATE_WORDS; at++) state[at] = ANY - at;
    state[WORD_GROUPS] = groups_word((const uint8_t[]){5, 1, 255, 5, 0, 77, 1, 255});
    state[word_of(2, OF_ADDRESS)] = 65536 + 9;
    state[word_of(3, OF_ADDRESS)] = 65536 + 7;
}

static void junk_of_time(const uint64_t *state) {
    uint64_t wanted[ADP_STATE_WORDS];
    memcpy(wanted, state, sizeof wanted);
    expect("junk", &taken[QUESTION], state, ADP_STATE_WORDS, 0, state);
    struct call late = {.kind = CLOCK, .ms = (HALF << 8)}, back = {.kind = CLOCK, .ms = 999};
    wanted[WORD_CLOCK] = late.ms;
    expect("junk", &late, state, ADP_STATE_WORDS, 0, wanted);
    expect("junk", &back, state, ADP_STATE_WORDS, 21, state);
}

static void junk_of_alive(const uint64_t *state) {
    uint64_t wanted[ADP_STATE_WORDS];
    struct call dead = {.kind = ALIVE, .pdu = signal_of(1, 7, 2)}, unknown = {.kind = ALIVE, .pdu = signal_of(1, 9, 1)};
    memcpy(wanted, state, sizeof wanted);
    wanted[word_of(0, OF_HEARD)] = 0;
    wanted[word_of(0, OF_TIMEOUT)] = 0;
    expect("junk", &dead, state, ADP_STATE_WORDS, 0, wanted);
    wanted[word_of(0, OF_HEARD)] = 1000;
    wanted[word_of(0, OF_TIMEOUT)] = 60;
    wanted[word_of(0, OF_ALIVE)] = 1;
    expect("junk", &taken[ALIVE], state, ADP_STATE_WORDS, 0, wanted);
    expect("junk", &unknown, state, ADP_STATE_WORDS, 14, state);
}

/* A delivery writes its sender's record with 0, a message that opens writes its own there; when that sender was heard
 * and its al_tm_out, of one who is not alive, stay. */
static void junk_of_messages(const uint64_t *state) {
    uint64_t wanted[ADP_STATE_WORDS];
    struct call one = message(2, 9, 10, 256, 1), unknown = message(1, 9, 10, 256, 1);
    struct call two = {.kind = TALLIED, .pdu = piece(2, 9, 300, 256, 2)};
    memcpy(wanted, state, sizeof wanted);
    kept("junk", state, 0, 0);
    for (size_t which = OF_MESSAGE; which <= OF_STAMP; which++) wanted[word_of(1, which)] = 0;
    wanted[word_of(1, OF_LAST)] = 5 * HALF + 100;
    expect("junk", &one, state, ADP_STATE_WORDS, 1, wanted);
    kept("junk", wanted, 0, 0);
    wanted[word_of(1, OF_LAST)] = 0;
    wanted[word_of(1, OF_MESSAGE)] = 5 * HALF + 100;
    wanted[word_of(1, OF_CUT)] = cut_word(300, 256, 1, 2);
    wanted[word_of(1, OF_MAP)] = 2;
    wanted[word_of(1, OF_STAMP)] = 1000;
    wanted[word_of(1, OF_OPEN)] = 1;
    expect("junk", &two, state, ADP_STATE_WORDS, 0, wanted);
    kept("junk", wanted, 0, 1);
    expect("junk", &unknown, state, ADP_STATE_WORDS, 14, state);
}

/* Who is not registered comes before a group that is not. */
static void junk_of_groups(const uint64_t *state) {
    const struct adp_address unknown = {1, 9};
    struct cast heard = cast_to(255, SECOND, 48, entry_of(1, 3, 2)), past = cast_to(77, SECOND, 48, 0);
    struct cast none = cast_to(0, SECOND, 48, 0), both = cast_to(77, unknown, 48, 0);
    multicast_is("junk", state, ADP_STATE_WORDS, &taken_by_group, ADP_DELIVERED);
    multicast_is("junk", state, ADP_STATE_WORDS, &heard, ADP_DELIVERED);
    multicast_is("junk", state, ADP_STATE_WORDS, &past, ADP_NO_GROUP);
    multicast_is("junk", state, ADP_STATE_WORDS, &none, ADP_NO_GROUP);
    multicast_is("junk", state, ADP_STATE_WORDS, &both, ADP_UNKNOWN);
}

/* The empty state, all else junk: only the clock can change it. */
static void junk_of_nobody(void) {
    uint64_t state[MOST_WORDS], wanted[MOST_WORDS];
    struct call late = {.kind = CLOCK, .ms = 1000};
    struct cast unknown = cast_to(1, FIRST, 0, 0);
    for (size_t at = 0; at < MOST_WORDS; at++) state[at] = at < FIRST_SENDER ? 0 : ANY - at;
    state[WORD_N1] = state[WORD_T] = 1;
    state[WORD_GROUPS] = ANY - WORD_GROUPS;
    memcpy(wanted, state, sizeof wanted);
    wanted[WORD_CLOCK] = late.ms;
    expect("no senders", &late, state, ADP_STATE_WORDS, 0, wanted);
    expect("no senders", &taken[QUESTION], state, ADP_STATE_WORDS, 0, state);
    expect("no senders", &taken[MESSAGE], state, ADP_STATE_WORDS, 11, state);
    expect("no senders", &taken[TALLIED], state, ADP_STATE_WORDS, 11, state);
    expect("no senders", &taken[ALIVE], state, ADP_STATE_WORDS, 14, state);
    multicast_is("no senders", state, ADP_STATE_WORDS, &taken_by_group, ADP_BAD_TABLES);
    multicast_is("no senders", state, ADP_STATE_WORDS, &unknown, ADP_UNKNOWN);
    kept("no senders", state, 0, 0);
}

/* The senders, one or two, are heard in each of these groups, and not in group 0 or one more. */
static void heard_in(const char *name, const uint64_t *state, const struct adp_groups *groups, uint8_t more) {
    const size_t senders = (size_t)state[WORD_COUNT], entries = senders * groups->count * ADP_PRIORITIES;
    const struct cast none = cast_to(0, FIRST, entries, 0), other = cast_to(more, FIRST, entries, 0);
    for (size_t sender = 0; sender < senders; sender++)
        for (size_t i = 0; i < groups->count; i++) {
            struct cast c = cast_to(groups->list[i], sender == 0 ? FIRST : SECOND, entries,
                                    entry_of(sender, groups->count, i));
            multicast_is(name, state, ADP_STATE_WORDS, &c, ADP_DELIVERED);
        }
    multicast_is(name, state, ADP_STATE_WORDS, &none, ADP_NO_GROUP);
    multicast_is(name, state, ADP_STATE_WORDS, &other, ADP_NO_GROUP);
}

/* Whether the words are a state: the question and the clock, 1 ms later, are answered, and nothing is too old. */
static void is_state(const char *name, const uint64_t *state) {
    uint64_t wanted[ADP_STATE_WORDS];
    memcpy(wanted, state, sizeof wanted);
    wanted[WORD_CLOCK] = taken[CLOCK].ms;
    expect(name, &taken[QUESTION], state, ADP_STATE_WORDS, 0, state);
    expect(name, &taken[CLOCK], state, ADP_STATE_WORDS, 0, wanted);
}

/* The same, and the three groups are heard. */
static void passes(const char *name, const uint64_t *state) {
    is_state(name, state);
    heard_in(name, state, &THREE, 77);
}

/* Of a sender who is not alive, or has nothing open. */
static void junk_of_one(const uint64_t *past) {
    uint64_t state[MOST_WORDS];
    memcpy(state, past, sizeof state);
    state[word_of(1, OF_TIMEOUT)] = HALF;
    passes("al_tm_out 2^32 of a sender who is not alive", state);
    state[word_of(0, OF_ALIVE)] = 0;
    state[word_of(0, OF_HEARD)] = state[word_of(0, OF_TIMEOUT)] = ANY;
    passes("junk where a sender was heard who is not alive", state);
    memcpy(state, past, sizeof state);
    state[word_of(0, OF_OPEN)] = 0;
    for (size_t which = OF_MESSAGE; which <= OF_STAMP; which++) state[word_of(0, which)] = ANY;
    passes("junk in the record of a sender with nothing open", state);
}

static void test_junk(const uint64_t *past) {
    uint64_t state[MOST_WORDS];
    memset(state, FILL, sizeof state);
    make_junk(state);
    junk_of_time(state);
    junk_of_alive(state);
    junk_of_messages(state);
    junk_of_groups(state);
    junk_of_nobody();
    junk_of_one(past);
}

/* ---- the number of pieces held */

/* An open message of code 1: what the word of its cut holds, and its map. */
struct cut {
    const char *name;
    uint64_t n, u, held, tbn, map;
};

static void with_cut(uint64_t *state, const uint64_t *past, size_t sender, const struct cut *c) {
    memcpy(state, past, MOST_WORDS * sizeof *state);
    state[word_of(sender, OF_CUT)] = cut_word(c->n, c->u, c->held, c->tbn);
    state[word_of(sender, OF_MAP)] = c->map;
}

/* 02: in an open record the number kept is the number of ones in the map. The word of the cut has an octet for it and
 * one for TBN; what it held before the number was kept, 0 and TBN, is no open message. */
static void test_kept(const uint64_t *past) {
    const struct cut first[] = {
        {"0 kept of 2, as before the number was kept", 4500, 1332, 0, 4, 2 + 8},
        {"1 kept of 2", 4500, 1332, 1, 4, 2 + 8}, {"3 kept of 2", 4500, 1332, 3, 4, 2 + 8},
        {"4 kept of 2, as many as TBN", 4500, 1332, 4, 4, 2 + 8},
        {"10 kept of 2, which is the map", 4500, 1332, 10, 4, 2 + 8},
        {"130 kept of 2, by one bit", 4500, 1332, 130, 4, 2 + 8}, {"255 kept of 2", 4500, 1332, 255, 4, 2 + 8},
        {"2 kept of 1", 4500, 1332, 2, 4, 8}, {"2 kept of 3", 4500, 1332, 2, 4, 2 + 4 + 8},
        {"62 kept of 63", 16384, 256, 62, 64, ANY - 1}, {"64 kept of 63", 16384, 256, 64, 64, ANY - 1},
        {"the number kept and TBN in each other's place", 4500, 1332, 4, 2, 2 + 8},
    };
    const struct cut second[] = {
        {"the second's 0 kept of 3", 16384, 1396, 0, 12, 1 + 64 + 2048},
        {"the second's 2 kept of 3", 16384, 1396, 2, 12, 1 + 64 + 2048},
        {"the second's 4 kept of 3", 16384, 1396, 4, 12, 1 + 64 + 2048},
        {"the second's 255 kept of 3", 16384, 1396, 255, 12, 1 + 64 + 2048},
    };
    uint64_t state[MOST_WORDS];
    for (size_t i = 0; i < sizeof first / sizeof *first; i++) {
        with_cut(state, past, 0, &first[i]);
        no_state(first[i].name, state, (unsigned)first[i].held, 3);
    }
    for (size_t i = 0; i < sizeof second / sizeof *second; i++) {
        with_cut(state, past, 1, &second[i]);
        no_state(second[i].name, state, 2, (unsigned)second[i].held);
    }
}

/* The number kept is right, and the cut or the map is not. */
static void test_cuts(const uint64_t *past) {
    const struct cut cuts[] = {
        {"TBN 0", 4500, 1332, 2, 0, 2 + 8}, {"TBN 1", 4500, 1332, 2, 1, 2 + 8}, {"TBN 3", 4500, 1332, 2, 3, 1 + 2},
        {"TBN 5", 4500, 1332, 2, 5, 2 + 8}, {"TBN 132, by one bit", 4500, 1332, 2, 132, 2 + 8},
        {"TBN 255", 4500, 1332, 2, 255, 2 + 8}, {"n 3,996", 3996, 1332, 2, 4, 2 + 8},
        {"u 255", 1000, 255, 2, 4, 2 + 8}, {"no piece held", 4500, 1332, 0, 4, 0},
        {"all pieces held", 4500, 1332, 4, 4, 15}, {"piece 5 of 4 held", 4500, 1332, 2, 4, 2 + 16},
    };
    uint64_t state[MOST_WORDS];
    for (size_t i = 0; i < sizeof cuts / sizeof *cuts; i++) {
        with_cut(state, past, 0, &cuts[i]);
        no_state(cuts[i].name, state, (unsigned)cuts[i].held, 3);
    }
}

/* What differs from some of those above in the number kept, or in the map, alone. */
static void test_rightly_kept(const uint64_t *past) {
    const struct cut cuts[] = {
        {"1 kept of 1", 4500, 1332, 1, 4, 8}, {"2 kept of 2", 4500, 1332, 2, 4, 2 + 8},
        {"3 kept of 3", 4500, 1332, 3, 4, 2 + 4 + 8}, {"63 kept of 63", 16384, 256, 63, 64, ANY - 1},
    };
    uint64_t state[MOST_WORDS];
    for (size_t i = 0; i < sizeof cuts / sizeof *cuts; i++) {
        with_cut(state, past, 0, &cuts[i]);
        passes(cuts[i].name, state);
        kept(cuts[i].name, state, (unsigned)cuts[i].held, 3);
    }
}

/* Where nothing is open, any number may stand; the message that opens there is not counted from it. */
static void test_closed(const uint64_t *past) {
    const uint64_t numbers[] = {0, 1, 2, 3, 130, 255};
    for (size_t i = 0; i < sizeof numbers / sizeof *numbers; i++) {
        const struct cut old = {"a number kept where nothing is open", 4500, 1332, numbers[i], 4, 2 + 8};
        const struct cut opened = {old.name, 4500, 1332, 1, 4, 1};
        uint64_t state[MOST_WORDS], wanted[MOST_WORDS];
        with_cut(state, past, 0, &old);
        state[word_of(0, OF_OPEN)] = 0;
        passes(old.name, state);
        expect(old.name, &taken[ALIVE], state, ADP_STATE_WORDS, 0, state);
        kept(old.name, state, 0, 3);
        with_cut(wanted, past, 0, &opened);
        expect(old.name, &taken[MESSAGE], state, ADP_STATE_WORDS, 0, wanted);
        kept(old.name, wanted, 1, 3);
    }
}

/* Past the senders likewise, though a message is open there. */
static void test_past_the_count(const uint64_t *past) {
    const struct cut wrong = {"255 kept of 3 past the senders", 16384, 1396, 255, 12, 1 + 64 + 2048};
    uint64_t state[MOST_WORDS];
    with_cut(state, past, 1, &wrong);
    state[WORD_COUNT] = 1;
    passes(wrong.name, state);
    kept(wrong.name, state, 2, 0);
}

/* ---- groups */

static void with_groups(uint64_t *state, const uint64_t *past, const struct adp_groups *groups) {
    memcpy(state, past, MOST_WORDS * sizeof *state);
    state[WORD_GROUP_COUNT] = groups->count;
    state[WORD_GROUPS] = groups_word(groups->list);
}

/* 02: 0 to 8 groups. The whole word is their number, not its lowest octet; at all eight places good ones stand. */
static void test_group_counts(const uint64_t *past) {
    const struct damage damages[] = {
        {"9 groups", WORD_GROUP_COUNT, 9}, {"16 groups", WORD_GROUP_COUNT, 16}, {"255 groups", WORD_GROUP_COUNT, 255},
        {"256 groups", WORD_GROUP_COUNT, 256}, {"259 groups", WORD_GROUP_COUNT, 256 + 3},
        {"65,539 groups", WORD_GROUP_COUNT, 65536 + 3}, {"2^32 groups", WORD_GROUP_COUNT, HALF},
        {"2^32 + 3 groups", WORD_GROUP_COUNT, HALF + 3}, {"2^63 + 3 groups", WORD_GROUP_COUNT, (HALF << 31) + 3},
        {"2^64 - 1 groups", WORD_GROUP_COUNT, ANY},
    };
    struct adp_groups eight = {8, {20, 19, 18, 17, 16, 15, 14, 255}};
    uint64_t state[MOST_WORDS];
    with_groups(state, past, &eight);
    test_damages(state, damages, sizeof damages / sizeof *damages, 2, 3);
    for (uint8_t count = 0; count <= ADP_GROUPS; count++) {
        char name[40];
        snprintf(name, sizeof name, "%u of eight groups", count);
        eight.count = count;
        with_groups(state, past, &eight);
        is_state(name, state);
        heard_in(name, state, &eight, count < ADP_GROUPS ? eight.list[count] : 21);
    }
}

struct grouped {
    const char *name;
    struct adp_groups groups;
};

/* Group 0, and one twice. */
static void test_wrong_groups(const uint64_t *past) {
    const struct grouped wrong[] = {
        {"group 0 first", {3, {0, 1, 255}}}, {"group 0 second", {3, {5, 0, 255}}}, {"group 0 last", {3, {5, 1, 0}}},
        {"group 0 alone", {1, {0, 1, 255}}}, {"one more, group 0", {4, {5, 1, 255}}},
        {"group 5 first and second", {3, {5, 5, 255}}}, {"group 5 first and last", {3, {5, 1, 5}}},
        {"group 1 second and last", {3, {5, 1, 1}}}, {"group 255 twice", {2, {255, 255}}},
        {"one more, group 1 again", {4, {5, 1, 255, 1}}},
    };
    uint64_t state[MOST_WORDS];
    for (size_t i = 0; i < sizeof wrong / sizeof *wrong; i++) {
        with_groups(state, past, &wrong[i].groups);
        no_state(wrong[i].name, state, 2, 3);
    }
}

/* Of eight, each of them 0, and each two the same. */
static void test_each_of_eight(const uint64_t *past) {
    const struct adp_groups eight = {8, {11, 12, 13, 14, 15, 16, 17, 18}};
    for (size_t i = 0; i < ADP_GROUPS; i++)
        for (size_t j = i; j < ADP_GROUPS; j++) {
            struct adp_groups groups = eight;
            uint64_t state[MOST_WORDS];
            char name[60];
            groups.list[j] = i == j ? 0 : groups.list[i];
            snprintf(name, sizeof name, "at place %zu of eight group %u", j, groups.list[j]);
            with_groups(state, past, &groups);
            no_state(name, state, 2, 3);
        }
}

/* Past the groups anything may stand; any numbers from 1 to 255 are groups. */
static void test_groups(const uint64_t *past) {
    const struct grouped good[] = {
        {"nothing past no groups", {0, {0}}}, {"junk past no groups", {0, {9, 9, 0, 5, 9, 9, 255, 9}}},
        {"group 1 alone", {1, {1}}}, {"group 255 alone", {1, {255}}},
        {"one group again and again", {1, {1, 1, 1, 1, 1, 1, 1, 1}}}, {"two of the groups", {2, {5, 1, 255}}},
        {"some of three groups again", {3, {5, 1, 255, 5, 0, 1, 255, 7}}},
        {"the last of seven groups again", {7, {1, 2, 3, 4, 5, 6, 7, 7}}},
        {"seven groups and 0", {7, {255, 254, 253, 252, 251, 250, 249}}},
        {"the first eight groups", {8, {1, 2, 3, 4, 5, 6, 7, 8}}},
        {"the last eight groups", {8, {255, 254, 253, 252, 251, 250, 249, 248}}},
    };
    uint64_t state[MOST_WORDS];
    for (size_t i = 0; i < sizeof good / sizeof *good; i++) {
        with_groups(state, past, &good[i].groups);
        is_state(good[i].name, state);
        expect(good[i].name, &taken[ALIVE], state, ADP_STATE_WORDS, 0, state);
        heard_in(good[i].name, state, &good[i].groups, 77);
        kept(good[i].name, state, 2, 3);
    }
}

/* The empty state has no groups either. */
static void test_groups_of_nobody(void) {
    const struct grouped wrong[] = {
        {"no senders, and a group", {1, {5}}}, {"no senders, and group 0", {1, {0}}},
        {"no senders, and eight groups", {8, {1, 2, 3, 4, 5, 6, 7, 8}}},
        {"no senders, and 255 groups", {255, {1, 2, 3, 4, 5, 6, 7, 8}}},
    };
    uint64_t empty[MOST_WORDS] = {[WORD_N1] = 1, [WORD_T] = 1}, state[MOST_WORDS];
    for (size_t i = 0; i < sizeof wrong / sizeof *wrong; i++) {
        with_groups(state, empty, &wrong[i].groups);
        no_state(wrong[i].name, state, 0, 0);
    }
}

/* ---- what setup makes of groups */

/* Past their number it writes 0, whatever it was given there. */
static void setup_writes(const struct adp_groups *given) {
    const char *name = "a new state with groups";
    struct call call = {.kind = SETUP, .settings = two_senders(16)};
    struct adp_groups groups = {.count = given->count};
    uint64_t junk[ADP_STATE_WORDS], wanted[ADP_STATE_WORDS];
    memset(junk, FILL, sizeof junk);
    call.settings.groups = *given;
    memcpy(groups.list, given->list, given->count);
    make_new(wanted);
    wanted[WORD_GROUP_COUNT] = groups.count;
    wanted[WORD_GROUPS] = groups_word(groups.list);
    expect(name, &call, junk, ADP_STATE_WORDS, 0, wanted);
    heard_in(name, wanted, &groups, 77);
}

/* What it then writes is the empty state. */
static void setup_refuses(const struct adp_groups *given) {
    struct call call = {.kind = SETUP, .settings = two_senders(16)};
    uint64_t junk[ADP_STATE_WORDS], wanted[ADP_STATE_WORDS] = {[WORD_N1] = 1, [WORD_T] = 1};
    memset(junk, FILL, sizeof junk);
    call.settings.groups = *given;
    expect("groups outside their limits", &call, junk, ADP_STATE_WORDS, 10, wanted);
}

static void test_setup_groups(void) {
    const struct adp_groups wrong[] = {
        {9, {1, 2, 3, 4, 5, 6, 7, 8}}, {255, {1, 2, 3, 4, 5, 6, 7, 8}}, {1, {0}}, {3, {5, 1, 0}}, {3, {5, 1, 5}},
        {8, {1, 2, 3, 4, 5, 6, 7, 1}}, {8, {1, 2, 3, 4, 5, 6, 7, 0}},
    };
    struct adp_groups eight = {0, {20, 19, 18, 17, 16, 15, 14, 255}}, again = {0, {9, 9, 0, 9, 9, 0, 9, 9}};
    for (; eight.count <= ADP_GROUPS; eight.count++) setup_writes(&eight);
    for (; again.count <= 1; again.count++) setup_writes(&again);
    for (size_t i = 0; i < sizeof wrong / sizeof *wrong; i++) setup_refuses(&wrong[i]);
}

/* ---- NULL */

static void answers(unsigned got, unsigned wanted, const char *name, enum kind kind) {
    need_number(got, wanted, name, KIND[kind]);
    made++;
}

/* No words at all. */
static void null_words(void) {
    const char *name = "NULL for words";
    uint32_t tally[2] = {3, 4};
    answers(adp_setup(NULL, 0, two_senders(16)), 10, name, SETUP);
    answers(adp_message(NULL, 0, NULL, 0, NULL, 0).number, 9, name, MESSAGE);
    answers(adp_message_tallied(NULL, 0, NULL, 0, NULL, 0, tally).number, 9, name, TALLIED);
    answers(adp_alive(NULL, 0, NULL, 0), 9, name, ALIVE);
    answers(adp_clock(NULL, 0, 0).number, 9, name, CLOCK);
    answers(adp_question(NULL, 0).number, 9, name, QUESTION);
    need(tally[0] == 3 && tally[1] == 5, name, "the tally is not counted up by one");
}

/* The empty state has no storage; there NULL is of the right length, and the packet is looked at. */
static void null_octets(const uint64_t *past) {
    const char *name = "NULL for octets";
    uint64_t state[ADP_STATE_WORDS], empty[ADP_STATE_WORDS], was[ADP_STATE_WORDS];
    const struct pdu *pdu = &taken[MESSAGE].pdu;
    memcpy(state, past, sizeof state);
    answers(adp_message(state, ADP_STATE_WORDS, NULL, 0, pdu->octets, pdu->length).number, 11, name, MESSAGE);
    answers(adp_message(state, ADP_STATE_WORDS, storage, ROOM, NULL, 0).number, 12, name, MESSAGE);
    answers(adp_alive(state, ADP_STATE_WORDS, NULL, 0), 12, name, ALIVE);
    need(memcmp(state, past, sizeof state) == 0, name, "a refusal changes the state");
    answers(adp_setup(empty, ADP_STATE_WORDS, two_senders(0)), 10, name, SETUP);
    memcpy(was, empty, sizeof was);
    answers(adp_message(empty, ADP_STATE_WORDS, NULL, 0, NULL, 0).number, 12, name, MESSAGE);
    answers(adp_message(empty, ADP_STATE_WORDS, NULL, 0, pdu->octets, pdu->length).number, 14, name, MESSAGE);
    need(memcmp(empty, was, sizeof was) == 0, name, "a refusal changes the empty state");
}

/* A message of no octets is one piece. */
static void null_cut(void) {
    struct adp_given given = {.field = 1, .node = 7, .version = 5, .number = 100, .tcd = 1};
    const uint8_t message[10] = {0};
    uint8_t buffer[ADP_HEADER];
    struct adp_cutting cutting = adp_cut(given, NULL, 0, ADP_LEAST_UNIT, 1, buffer, sizeof buffer);
    need_number(cutting.number, ADP_DONE, "NULL for a message", "cut");
    need(cutting.length == ADP_HEADER && number_at(buffer + 4, 4) == ADP_HEADER, "NULL for a message", "not its PDU");
    cutting = adp_cut(given, message, sizeof message, ADP_LEAST_UNIT, 1, NULL, 0);
    need_number(cutting.number, ADP_BAD_PIECE, "NULL for a buffer", "cut");
    cutting = adp_cut(given, NULL, 0, ADP_LEAST_UNIT, 1, NULL, 0);
    need_number(cutting.number, ADP_BAD_PIECE, "NULL for both", "cut");
    made += 3;
}

int main(void) {
    uint64_t state[MOST_WORDS];
    open_room(&state_room, sizeof state);
    open_room(&storage_room, ROOM);
    open_room(&packet_room, ADP_LONGEST);
    open_room(&tally_room, 2 * sizeof(uint32_t));
    memset(storage, FILL, sizeof storage);
    make_calls();
    make_past(state);
    test_past(state);
    test_settings(state);
    test_senders(state);
    test_open_flags(state);
    test_open_messages(state);
    test_numbers_of_words(state);
    test_setup();
    test_junk(state);
    test_kept(state);
    test_cuts(state);
    test_rightly_kept(state);
    test_closed(state);
    test_past_the_count(state);
    test_held();
    test_group_counts(state);
    test_wrong_groups(state);
    test_each_of_eight(state);
    test_groups(state);
    test_groups_of_nobody();
    test_setup_groups();
    test_multicast();
    null_words();
    null_octets(state);
    null_cut();
    printf("%lu\n", made + held_calls() + multicast_calls());
    return 0;
}
