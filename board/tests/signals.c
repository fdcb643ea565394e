/* See signals.h. What must come back follows from 02's item 2, and is written out here. */
#include "signals.h"

#include "adp.h"
#include "layout.h"
#include "pdus.h"
#include "room.h"
#include "section.h"

#include <inttypes.h>
#include <stdio.h>
#include <stdlib.h>
#include <string.h>

static struct room packet_room, state_room;
static unsigned long made;

static void need(bool good, const char *name, const char *what) {
    if (good) return;
    fprintf(stderr, "signals: %s: %s\n", name, what);
    exit(1);
}

static void need_number(uint64_t got, uint64_t wanted, const char *name, const char *what) {
    if (got == wanted) return;
    fprintf(stderr, "signals: %s: %s is %" PRIu64 ", not %" PRIu64 "\n", name, what, got, wanted);
    exit(1);
}

/* The call answers this number, and makes of the state this. */
static void alive_is(const char *name, const uint64_t *state, const struct pdu *p, unsigned number,
                     const uint64_t *wanted) {
    for (int way = AT_END; way <= AT_START; way++) {
        const uint8_t *packet = lend_constant(&packet_room, (enum way)way, p->octets, p->length);
        uint64_t *lent = lend(&state_room, (enum way)way, state, ADP_STATE_WORDS * sizeof *state);
        uint8_t got = adp_alive(lent, ADP_STATE_WORDS, packet, p->length);
        made++;
        need_number(got, number, name, "the number of the alive call");
        need(take_back(&packet_room, NULL), name, "octets beside the packet change");
        need(same(&state_room, wanted), name, "the alive call leaves another state");
        need(take_back(&state_room, NULL), name, "octets beside the state change");
    }
}

/* One sender, 1:7, of whom nothing was heard, at the clock 1000. */
static void make_state(uint64_t *state) {
    struct adp_settings settings = {.n1 = 16, .t = 15000, .count = 1, .senders = {{1, 7}}};
    need_number(adp_setup(state, ADP_STATE_WORDS, settings), 0, "the state", "the number of setup");
    need_number(adp_clock(state, ADP_STATE_WORDS, 1000).number, 0, "the state", "the number of the clock");
    made += 2;
}

/* The same with the sender alive since then. */
static void make_alive(uint64_t *state) {
    make_state(state);
    state[word_of(0, OF_ALIVE)] = 1;
    state[word_of(0, OF_HEARD)] = 1000;
    state[word_of(0, OF_TIMEOUT)] = 60;
}

/* So many octets of 0 behind the first 128: nothing, or the empty section, or neither. */
static void test_lengths(const uint64_t *silent, const uint64_t *alive) {
    const struct {
        size_t length;
        unsigned number;
    } rows[] = {{128, 0}, {129, 24}, {132, 24}, {147, 24}, {148, 0}, {149, 24}, {1472, 24}, {1473, 12}};
    static const uint8_t zeros[ADP_LONGEST_ALIVE + 1 - ADP_ALIVE];
    for (size_t i = 0; i < sizeof rows / sizeof *rows; i++) {
        struct pdu p = signal_with(1, zeros, rows[i].length - 128);
        char name[40];
        snprintf(name, sizeof name, "a signal of %zu octets", p.length);
        need_number(p.length, rows[i].length, name, "the length of the test's own signal");
        alive_is(name, silent, &p, rows[i].number, rows[i].number == 0 ? alive : silent);
    }
}

/* A good section changes nothing but what the signal changes without it; a broken one nothing at all. */
static void test_modes(const uint64_t *silent, const uint64_t *alive) {
    const struct section broken = with_number(BY_HAND, 32, 4, 2);
    for (uint8_t mode = 1; mode <= 3; mode++) {
        struct pdu p = signal_with(mode, BY_HAND.octets, BY_HAND.length);
        const uint64_t *wanted = mode == 1 ? alive : silent;
        alive_is("a good section", silent, &p, 0, wanted);
        alive_is("a good section", alive, &p, 0, wanted);
        p = signal_with(mode, broken.octets, broken.length);
        alive_is("a broken section", silent, &p, 24, silent);
        alive_is("a broken section", alive, &p, 24, alive);
    }
}

/* Where adp.h says that it stands. */
static void test_place(void) {
    struct pdu p = signal_with(1, BY_HAND.octets, BY_HAND.length);
    struct adp_fault got = adp_fault_read(p.octets + ADP_ALIVE, p.length - ADP_ALIVE);
    bool good = got.number == 0 && got.modules == 33 && got.errors == 2 && got.options == 3;
    need(good, "behind a signal", "another section is read");
    got = adp_fault_read(p.octets + ADP_ALIVE, 0);
    need_number(got.number, 24, "behind a signal of 128 octets", "the number read");
    made += 2;
}

/* As long as they may be, and one octet longer. */
static void test_longest(const uint64_t *silent, const uint64_t *alive) {
    struct parts parts = example(0, 0, 331, 0);
    struct section s = section_of(&parts);
    struct pdu p = signal_with(1, s.octets, s.length);
    need_number(p.length, 1472, "the longest signal", "the length of the test's own signal");
    alive_is("331 errors", silent, &p, 0, alive);
    s = with_number(s, 1340, 4, 1);
    p = signal_with(1, s.octets, s.length);
    alive_is("331 errors, and an octet of options that is not there", silent, &p, 24, silent);
    p = signal_with(1, s.octets, s.length + 1);
    alive_is("331 errors and an octet of options", silent, &p, 12, silent);
}

/* The lowest number is given: 24 comes behind 9, 13, 14 and 22. */
static void test_order(const uint64_t *silent) {
    const struct {
        const char *name;
        size_t at, size;
        uint64_t value;
        unsigned number;
    } rows[] = {
        {"PRI 8 and a broken section", 55, 1, 8, 13}, {"an unknown sender and a broken section", 10, 2, 8, 14},
        {"al_mode 0 and a broken section", 90, 1, 0, 22}, {"al_mode 4 and a broken section", 90, 1, 4, 22},
        {"ML 128 and a broken section", 4, 4, 128, 22}, {"al_ver 2 and a broken section", 105, 1, 2, 22},
        {"a broken section and nothing else", 105, 1, 1, 24},
    };
    const struct section broken = with_number(BY_HAND, 32, 4, 4);
    uint64_t no_state[ADP_STATE_WORDS];
    memcpy(no_state, silent, sizeof no_state);
    no_state[WORD_N1] = 0;
    for (size_t i = 0; i < sizeof rows / sizeof *rows; i++) {
        struct pdu p = signal_with(1, broken.octets, broken.length);
        lay(p.octets + rows[i].at, rows[i].size, rows[i].value);
        alive_is(rows[i].name, silent, &p, rows[i].number, silent);
        alive_is(rows[i].name, no_state, &p, 9, no_state);
    }
}

unsigned long signal_calls(void) {
    return made;
}

void test_signals(void) {
    uint64_t silent[ADP_STATE_WORDS], alive[ADP_STATE_WORDS];
    open_room(&packet_room, ADP_LONGEST_ALIVE + 1);
    open_room(&state_room, sizeof silent);
    make_state(silent);
    make_alive(alive);
    test_lengths(silent, alive);
    test_modes(silent, alive);
    test_place();
    test_longest(silent, alive);
    test_order(silent);
}
