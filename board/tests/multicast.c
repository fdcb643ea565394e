/* See multicast.h. What adp_multicast must answer follows from 01's rows, from 02's item 5 and from adp.h, and is
 * written out here. */
#include "multicast.h"

#include "held.h"
#include "layout.h"
#include "room.h"

#include <stdio.h>
#include <stdlib.h>
#include <string.h>

/* The entries of the largest tables. */
enum { MOST_ENTRIES = ADP_SENDERS * ADP_GROUPS * ADP_PRIORITIES };

/* What each message here has; `piece` of pdus.h lays the first two. */
enum { VERSION = 5, NUMBER = 100, PRI = 2, LENGTH = 10 };

static const uint64_t ANY = UINT64_MAX;

static struct room state_room, packet_room, versions_room, numbers_room;
static unsigned long made;

static void need(bool good, const char *name, const char *what) {
    if (good) return;
    fprintf(stderr, "words: %s: multicast: %s\n", name, what);
    exit(1);
}

static void need_number(unsigned got, unsigned wanted, const char *name) {
    made++;
    if (got == wanted) return;
    fprintf(stderr, "words: %s: multicast answers %u, not %u\n", name, got, wanted);
    exit(1);
}

/* ---- a call */

struct cast cast_to(uint8_t group, struct adp_address sender, size_t entries, size_t place) {
    struct cast c = {piece(sender.field, sender.node, LENGTH, ADP_LEAST_UNIT, 1), group, entries, entries, place};
    c.pdu.octets[55] = PRI;
    return c;
}

size_t entry_of(size_t sender, size_t groups, size_t group) {
    return (sender * groups + group) * ADP_PRIORITIES + PRI;
}

struct tables {
    uint32_t versions[MOST_ENTRIES], numbers[MOST_ENTRIES];
};

/* No two entries are alike, and none has the version of a message here. */
static void make_tables(struct tables *t) {
    for (uint32_t i = 0; i < MOST_ENTRIES; i++) {
        t->versions[i] = VERSION + 1 + i;
        t->numbers[i] = 1000000 + i;
    }
}

static void open_rooms(void) {
    if (state_room.size > 0) return;
    open_room(&state_room, MOST_WORDS * sizeof(uint64_t));
    open_room(&packet_room, sizeof(struct pdu));
    open_room(&versions_room, MOST_ENTRIES * sizeof(uint32_t));
    open_room(&numbers_room, MOST_ENTRIES * sizeof(uint32_t));
}

/* A delivery behind one of another version; otherwise the number, and nothing more. */
static void answer_is(const char *name, struct adp_answer a, unsigned number) {
    bool delivered = number == ADP_DELIVERED;
    need_number(a.number, number, name);
    need(a.verdict == (delivered ? ADP_RESTART : 0), name, "another verdict");
    need(a.slice == (delivered ? ADP_IN_PACKET : ADP_IN_NOTHING), name, "the message lies elsewhere");
    need(a.start == (delivered ? ADP_HEADER : 0) && a.length == (delivered ? LENGTH : 0), name, "another part");
    need(a.held == 0 && a.skipped == 0 && a.age == 0, name, "pieces are held, numbers skipped, or a repeat is told");
    need(a.dropped_version == 0 && a.dropped_number == 0, name, "a message is dropped");
}

static struct adp_answer answer_of(const struct cast *c, const uint64_t *state, size_t words, enum way way,
                                   const struct tables *t) {
    const uint64_t *lent = lend_constant(&state_room, way, state, words * sizeof *state);
    const uint8_t *packet = lend_constant(&packet_room, way, c->pdu.octets, c->pdu.length);
    uint32_t *versions = lend(&versions_room, way, t->versions, c->versions * sizeof *versions);
    uint32_t *numbers = lend(&numbers_room, way, t->numbers, c->numbers * sizeof *numbers);
    return adp_multicast(lent, words, versions, c->versions, numbers, c->numbers, c->group, packet, c->pdu.length);
}

static void take_all(const char *name) {
    need(take_back(&state_room, NULL), name, "octets beside the state change");
    need(take_back(&packet_room, NULL), name, "octets beside the packet change");
    need(take_back(&versions_room, NULL), name, "octets beside the versions change");
    need(take_back(&numbers_room, NULL), name, "octets beside the numbers change");
}

void multicast_is(const char *name, const uint64_t *state, size_t words, const struct cast *c, unsigned number) {
    open_rooms();
    for (int way = AT_END; way <= AT_START; way++) {
        struct tables t;
        make_tables(&t);
        answer_is(name, answer_of(c, state, words, (enum way)way, &t), number);
        if (number == ADP_DELIVERED) {
            t.versions[c->place] = VERSION;
            t.numbers[c->place] = NUMBER;
        }
        need(same(&state_room, state), name, "the state changes");
        need(same(&versions_room, t.versions), name, "other versions are left");
        need(same(&numbers_room, t.numbers), name, "other numbers are left");
        take_all(name);
    }
}

unsigned long multicast_calls(void) {
    return made;
}

/* ---- words past the senders */

/* The senders are 1:7, 2:8, 3:9 and so on, the groups 5, 1 and 255. */
static struct adp_address sender_at(size_t place) {
    return (struct adp_address){(uint8_t)(1 + place), (uint16_t)(7 + place)};
}

static void make_state(uint64_t *state, uint8_t count) {
    struct adp_settings settings = {.n1 = 16, .t = 15000, .count = count, .groups = {3, {5, 1, 255}}};
    for (size_t i = 0; i < ADP_SENDERS; i++) settings.senders[i] = sender_at(i);
    need(adp_setup(state, ADP_STATE_WORDS, settings) == ADP_DONE, "a new state", "setup refuses it");
    made++;
}

/* The last sender is heard as ever, and one more, who may stand past the senders, is not registered. */
static void last_is_heard(const char *name, const uint64_t *state, size_t count) {
    size_t entries = count * 3 * ADP_PRIORITIES;
    struct cast last = cast_to(255, sender_at(count - 1), entries, entry_of(count - 1, 3, 2));
    struct cast more = cast_to(255, sender_at(count), entries, 0);
    multicast_is(name, state, ADP_STATE_WORDS, &last, ADP_DELIVERED);
    multicast_is(name, state, ADP_STATE_WORDS, &more, ADP_UNKNOWN);
}

/* Each word there is all ones, first by itself and then with all the others. Then one sender stands at each place
 * there, with flags that are none. */
static void test_past_the_senders(uint8_t count) {
    const struct adp_address more = sender_at(count);
    uint64_t state[ADP_STATE_WORDS], all[ADP_STATE_WORDS];
    char name[80];
    make_state(state, count);
    memcpy(all, state, sizeof all);
    for (size_t at = word_of(count, 0); at < ADP_STATE_WORDS; at++) {
        snprintf(name, sizeof name, "%u senders, and word %zu all ones", count, at);
        state[at] = all[at] = ANY;
        last_is_heard(name, state, count);
        state[at] = 0;
    }
    snprintf(name, sizeof name, "%u senders, and all words past them ones", count);
    last_is_heard(name, all, count);
    for (size_t i = count; i < ADP_SENDERS; i++) {
        all[word_of(i, OF_ADDRESS)] = more.field * 65536u + more.node;
        all[word_of(i, OF_OPEN)] = all[word_of(i, OF_ALIVE)] = 2;
    }
    snprintf(name, sizeof name, "%u senders, and one more at each place past them", count);
    last_is_heard(name, all, count);
}

/* ---- NULL */

/* What is lent, and the refusal that it meets. */
struct lent {
    size_t versions, numbers, octets;
    unsigned number;
};

/* A message of the first sender to the first group, with NULL for what has no words, entries or octets. */
static void null_is(const char *name, const uint64_t *state, const struct lent *lent) {
    const struct pdu pdu = cast_to(5, sender_at(0), 0, 0).pdu;
    struct tables t, was;
    make_tables(&t);
    make_tables(&was);
    struct adp_answer a = adp_multicast(state, state ? ADP_STATE_WORDS : 0, lent->versions > 0 ? t.versions : NULL,
                                        lent->versions, lent->numbers > 0 ? t.numbers : NULL, lent->numbers, 5,
                                        lent->octets > 0 ? pdu.octets : NULL, lent->octets);
    answer_is(name, a, lent->number);
    need(memcmp(&t, &was, sizeof t) == 0, name, "a refusal changes a table");
}

static void test_null(void) {
    const struct lent no_words[] = {{0, 0, 0, 9}, {48, 48, 74, 9}};
    const struct lent groups[] = {{0, 0, 0, 26}, {0, 0, 74, 26}, {0, 48, 74, 26}, {48, 0, 74, 26}, {48, 48, 0, 12}};
    const struct lent no_groups[] = {{0, 0, 0, 12}, {0, 0, 74, 25}, {0, 1, 74, 26}, {1, 0, 74, 26}, {1, 0, 0, 26}};
    const struct lent nobody[] = {{0, 0, 0, 12}, {0, 0, 74, 14}, {0, 1, 74, 26}, {1, 0, 74, 26}, {1, 0, 0, 26}};
    uint64_t state[ADP_STATE_WORDS];
    for (size_t i = 0; i < 2; i++) null_is("NULL for words", NULL, &no_words[i]);
    make_state(state, 2);
    for (size_t i = 0; i < 5; i++) null_is("NULL where there are groups", state, &groups[i]);
    state[WORD_GROUP_COUNT] = 0;
    for (size_t i = 0; i < 5; i++) null_is("NULL where there are no groups", state, &no_groups[i]);
    state[WORD_COUNT] = 0;
    state[WORD_N1] = state[WORD_T] = 1;
    for (size_t i = 0; i < 5; i++) null_is("NULL at the empty state", state, &nobody[i]);
}

void test_multicast(void) {
    const uint8_t counts[] = {1, 2, 8, 15};
    for (size_t i = 0; i < sizeof counts; i++) test_past_the_senders(counts[i]);
    test_null();
}
