/* Prepares a night's packets, and has one side run through them:   harness NIGHT value|board|twin|none|all ROUNDS
 * `none` only prepares, so that its count can be taken off. `all` compares what the sides answered and wrote, and fails
 * where they differ. It prints how many packets ROUNDS rounds have.   harness list   prints the nights, and the sides
 * of each. */
#include "sections.h"
#include "twin.h"

#include <stdbool.h>
#include <stdio.h>
#include <stdlib.h>
#include <string.h>

enum { ML = 4, V_SEQ = 16, SEQ = 20, NODE = 10, TCD = 40, MODE = 52, PRI = 55, CBN = 56, BSIZE = 58, FUI = 60 };
enum { MODE_ONLINE = 0, N1 = 8, T = 1000, MOST_ROUNDS = 4096, SIDES = 3 };

/* the packets of a night, one behind the other */
static uint8_t *packets;
static uint16_t *sizes;
static size_t octets, count;
static uint8_t content[AREA], pdus[65][LONGEST_GROUP];
static uint8_t storages[SIDES][PLACES * AREA];
/* of a multicast, the group that each packet came to, and the lent tables */
static uint8_t *to;
static uint32_t versions[SIDES][MOST_ENTRIES], numbers[SIDES][MOST_ENTRIES];
/* the places that the page asks, one behind the other */
static uint8_t places[MOST_ROUNDS * PLACES];

struct night {
    const char *name;
    /* SHORT_CAST: a multicast with tables that are an entry short */
    enum { JOIN, REFUSED, MIXED, PAGE, CAST, SHORT_CAST, CUT, SECTION_READ, SECTION_SHOWN, SECTION_WRITTEN } kind;
    /* of a join, a page, a multicast and a cutting: n octets in pieces of u; of a fault section: n modules, u errors */
    uint16_t n, u;
    uint8_t senders;
    bool reversed;
    /* of a refusal, its number */
    uint8_t number;
};

static const struct night nights[] = {
    {"12 pieces, in order, 1 sender", JOIN, 16384, 1396, 1, false, 0},
    {"12 pieces, reversed, 1 sender", JOIN, 16384, 1396, 1, true, 0},
    {"64 pieces, in order, 1 sender", JOIN, 16384, 256, 1, false, 0},
    {"64 pieces, reversed, 1 sender", JOIN, 16384, 256, 1, true, 0},
    {"12 pieces, in order, 16 senders", JOIN, 16384, 1396, 16, false, 0},
    {"12 pieces, reversed, 16 senders", JOIN, 16384, 1396, 16, true, 0},
    {"64 pieces, in order, 16 senders", JOIN, 16384, 256, 16, false, 0},
    {"64 pieces, reversed, 16 senders", JOIN, 16384, 256, 16, true, 0},
    {"1 piece of 1396, 1 sender", JOIN, 1396, 1396, 1, false, 0},
    {"1 piece of 1396, 16 senders", JOIN, 1396, 1396, 16, false, 0},
    {"1 piece of 16, 1 sender", JOIN, 16, 1396, 1, false, 0},
    {"refused with 11, 1 sender", REFUSED, 1396, 1396, 1, false, 11},
    {"refused with 12, 1 sender", REFUSED, 1396, 1396, 1, false, 12},
    {"refused with 12, 16 senders", REFUSED, 1396, 1396, 16, false, 12},
    {"refused with 13, 1 sender", REFUSED, 1396, 1396, 1, false, 13},
    {"refused with 14, 1 sender", REFUSED, 1396, 1396, 1, false, 14},
    {"refused with 14, 16 senders", REFUSED, 1396, 1396, 16, false, 14},
    {"refused with 15, 1 sender", REFUSED, 1396, 1396, 1, false, 15},
    {"refused with 16, 1 sender", REFUSED, 1396, 1396, 1, false, 16},
    {"refused with 17, 1 sender", REFUSED, 1396, 1396, 1, false, 17},
    {"refused with 18, 1 sender", REFUSED, 2792, 1396, 1, false, 18},
    {"refused with 19, 1 sender", REFUSED, 2792, 1396, 1, false, 19},
    {"refused with 20, 1 sender", REFUSED, 2792, 1396, 1, false, 20},
    {"a mixture, 4 senders", MIXED, 2792, 1396, 4, false, 0},
    {"the page, 16 senders", PAGE, 16384, 1396, 16, false, 0},
    {"multicast of 10, 1024 entries", CAST, 10, 1408, 16, false, 0},
    {"multicast of 1408, 1024 entries", CAST, 1408, 1408, 16, false, 0},
    {"multicast refused with 17, 1024 entries", CAST, 1408, 1408, 16, false, 17},
    {"multicast refused with 25, 1024 entries", CAST, 1408, 1408, 16, false, 25},
    {"multicast refused with 26, 1024 entries", CAST, 1408, 1408, 16, false, 26},
    {"multicast refused with 26, 1023 entries", SHORT_CAST, 1408, 1408, 16, false, 26},
    {"multicast of 10, 8 entries", CAST, 10, 1408, 1, false, 0},
    {"multicast of 1408, 8 entries", CAST, 1408, 1408, 1, false, 0},
    {"multicast refused with 17, 8 entries", CAST, 1408, 1408, 1, false, 17},
    {"multicast refused with 25, 8 entries", CAST, 1408, 1408, 1, false, 25},
    {"multicast refused with 26, 8 entries", CAST, 1408, 1408, 1, false, 26},
    {"multicast refused with 26, 7 entries", SHORT_CAST, 1408, 1408, 1, false, 26},
    {"cut into 12 pieces", CUT, 16384, 1396, 1, false, 0},
    {"cut into 64 pieces", CUT, 16384, 256, 1, false, 0},
    {"cut into 1 piece of 1396", CUT, 1396, 1396, 1, false, 0},
    {"cut into 1 piece of 16", CUT, 16, 1396, 1, false, 0},
    {"cutting refused with 23", CUT, 16384, 1397, 1, false, 23},
    {"section read, 331 errors", SECTION_READ, 0, 331, 1, false, 0},
    {"section read, 10592 modules", SECTION_READ, 10592, 0, 1, false, 0},
    {"section read, 1324 of options", SECTION_READ, 0, 0, 1, false, 0},
    {"section read, a mixture", SECTION_READ, 290, 200, 1, false, 0},
    {"section refused with 24", SECTION_READ, 0, 331, 1, false, 24},
    {"section shown, a mixture", SECTION_SHOWN, 290, 200, 1, false, 0},
    {"section written, 331 errors", SECTION_WRITTEN, 0, 331, 1, false, 0},
    {"section written, 10592 modules", SECTION_WRITTEN, 10592, 0, 1, false, 0},
    {"section written, 1324 of options", SECTION_WRITTEN, 0, 0, 1, false, 0},
    {"section written, a mixture", SECTION_WRITTEN, 290, 200, 1, false, 0},
    {"writing refused with 24", SECTION_WRITTEN, 0, 331, 1, false, 24},
    {"writing refused with 23", SECTION_WRITTEN, 0, 331, 1, false, 23},
};

static void fail(const char *what, const char *which) {
    fprintf(stderr, "bench: %s: %s\n", which, what);
    exit(1);
}

static bool is_section(const struct night *k) { return k->kind >= SECTION_READ; }

static bool is_cast(const struct night *k) { return k->kind == CAST || k->kind == SHORT_CAST; }

static enum sections section_work(const struct night *k) {
    return k->kind == SECTION_READ ? READ : k->kind == SECTION_SHOWN ? SHOWN : WRITTEN;
}

static unsigned pieces(const struct night *k) { return k->n <= k->u ? 1 : (k->n - 1u) / k->u + 1u; }

/* Of a multicast, how many groups there are, one for two senders, and how many entries the tables should have. */
static unsigned groups(const struct night *k) { return (k->senders + 1u) / 2; }

static size_t entries(const struct night *k) { return (size_t)k->senders * groups(k) * PRIORITIES; }

/* How many pieces of the sender at a place are held when the page asks: not all, and not as many as of the next. */
static unsigned held(const struct night *k, unsigned place) {
    return place < k->senders ? 1 + place % (pieces(k) - 1) : 0;
}

static uint64_t all_held(const struct night *k) {
    uint64_t all = 0;
    for (unsigned place = 0; place < PLACES; place++) all += held(k, place);
    return all;
}

/* ---- packets */

/* The pieces of the message, each once: what differs from round to round is then only written over. */
static void cut_all(const struct night *k) {
    for (unsigned c = 1; c <= pieces(k); c++) twin_cuts(1, content, k->n, k->u, (uint8_t)c, pdus[c], LONGEST);
}

/* The one PDU of a multicast, which may be longer than what the cutter makes. */
static void make_cast(const struct night *k) {
    unsigned size = HEADER + k->n;
    twin_cuts(1, content, 0, 1396, 1, pdus[1], LONGEST);
    memcpy(pdus[1] + HEADER, content, k->n);
    pdus[1][ML + 2] = pdus[1][BSIZE] = (uint8_t)(size >> 8);
    pdus[1][ML + 3] = pdus[1][BSIZE + 1] = (uint8_t)size;
}

/* Puts piece c of the message with this number from this node behind the others, and hands it back to be changed. */
static uint8_t *put(const struct night *k, unsigned node, uint32_t number, unsigned c) {
    uint8_t *packet = packets + octets;
    size_t own = c < pieces(k) ? k->u : k->n - (c - 1) * (size_t)k->u;
    memcpy(packet, pdus[c], HEADER + own);
    packet[NODE + 1] = (uint8_t)node;
    packet[SEQ + 2] = (uint8_t)(number >> 8);
    packet[SEQ + 3] = (uint8_t)number;
    octets += HEADER + own;
    sizes[count++] = (uint16_t)(HEADER + own);
    return packet;
}

/* A round of joins: a message from every sender, their pieces in turn. */
static void join_round(const struct night *k, unsigned round) {
    unsigned t = pieces(k);
    for (unsigned i = 1; i <= t; i++)
        for (unsigned node = 1; node <= k->senders; node++) put(k, node, round + 1, k->reversed ? t + 1 - i : i);
}

/* How far back a repeat lies. */
enum { AGE = 3 };

/* One packet that is refused. What the refusal needs comes first, once. */
static void refused_round(const struct night *k, unsigned round) {
    unsigned node = k->senders;
    if (round == 0 && k->number >= 17) put(k, node, 9, 1);
    if (k->number == 14) node = PLACES + 1;
    uint8_t *packet = put(k, node, k->number == 17 ? 9 - AGE : k->number == 18 ? 8 : 9, 1);
    if (k->number == 12) packet[BSIZE + 1] ^= 1;
    if (k->number == 13) packet[FUI + 3] = 1;
    if (k->number == 15) packet[MODE + 1] = 1;
    if (k->number == 16) packet[CBN] = 2;
    if (k->number == 19) packet[TCD + 1] = 2;
}

/* The pieces that are held when the page asks, and what it asks: all places, in each round. */
static void page_rounds(const struct night *k, unsigned rounds) {
    for (unsigned node = 1; node <= k->senders; node++)
        for (unsigned c = 1; c <= held(k, node - 1); c++) put(k, node, 1, c);
    for (unsigned i = 0; i < rounds * PLACES; i++) places[i] = (uint8_t)(i % PLACES);
}

/* The priority of what a sender sends to a group. */
static unsigned priority(unsigned node, unsigned group) { return (node + group) % PRIORITIES; }

/* A round of multicasts: a message from every sender to every group. */
static void cast_round(const struct night *k, unsigned round) {
    for (unsigned node = 1; node <= k->senders; node++)
        for (unsigned group = 1; group <= groups(k); group++) {
            to[count] = (uint8_t)(k->number == 25 ? GROUPS + 1 : group);
            put(k, node, k->number == 17 ? 1 : round + 1, 1)[PRI] = (uint8_t)priority(node, group);
        }
}

/* The lent tables before a night: nothing was delivered, but for 26 the last entry is 0 under a version not 0. */
static void prepare_tables(const struct night *k) {
    for (unsigned side = 0; side < SIDES; side++)
        if (k->kind == CAST && k->number == 26) versions[side][entries(k) - 1] = 1;
}

/* A number below `below`, the same in every run. */
static unsigned chance(unsigned below) {
    static uint32_t seed = 1;
    seed = seed * 1664525u + 1013904223u;
    return (seed >> 16) % below;
}

/* Packets of which most are refused for one reason or another: pieces in any order, and now and then a header octet or
 * the length changed. */
static void mixed_round(const struct night *k, unsigned round) {
    for (unsigned i = 0; i < 16; i++) {
        uint8_t *packet = put(k, 1 + chance(k->senders), 1 + round / 2 + chance(3), 1 + chance(pieces(k)));
        packet[V_SEQ + 3] = (uint8_t)(chance(16) == 0 ? chance(3) : 1);
        if (chance(4) == 0) packet[chance(HEADER)] ^= (uint8_t)(1u << chance(8));
        if (chance(16) == 0) {
            octets--;
            sizes[count - 1]--;
        }
    }
}

static void prepare(const struct night *k, unsigned rounds) {
    if (is_section(k)) {
        sections_prepare(k->n, k->u, k->number, rounds);
        return;
    }
    size_t most = (size_t)(rounds + 1) * PLACES * (is_cast(k) ? GROUPS : pieces(k));
    packets = malloc(most * LONGEST_GROUP);
    sizes = malloc(most * sizeof *sizes);
    to = malloc(most * sizeof *to);
    if (packets == NULL || sizes == NULL || to == NULL) fail("no memory", k->name);
    for (size_t i = 0; i < sizeof content; i++) content[i] = (uint8_t)(i * 7 + i / 251);
    if (k->kind == CUT) return;
    if (is_cast(k)) {
        make_cast(k);
        prepare_tables(k);
    } else
        cut_all(k);
    if (k->kind == PAGE) page_rounds(k, rounds);
    for (unsigned round = 0; round < rounds; round++) {
        if (k->kind == JOIN) join_round(k, round);
        if (k->kind == REFUSED) refused_round(k, round);
        if (k->kind == MIXED) mixed_round(k, round);
        if (is_cast(k)) cast_round(k, round);
    }
}

/* ---- the sides */

/* The first of them is the one whose answers and octets are held against what a night must come to. */
static const struct side {
    const char *name;
    night_call *night;
    pages_call *pages;
    casts_call *casts;
    cuts_call *cuts;
    struct section_calls sections;
} sides[SIDES] = {
    {"value", adp_night, adp_pages, NULL, adp_cuts, {NULL, NULL, NULL}},
    {"board", board_night, board_pages, board_casts, board_cuts, {board_reads, board_shows, board_writes}},
    {"twin", twin_night, twin_pages, twin_casts, twin_cuts, {twin_reads, twin_shows, twin_writes}},
};

/* Multicasts and fault sections have no side by value. */
static bool has(const struct night *k, unsigned side) {
    return (!is_section(k) || sides[side].sections.reads != NULL) && (!is_cast(k) || sides[side].casts != NULL);
}

static uint64_t run_night(const struct night *k, night_call *call, uint8_t *storage) {
    size_t room = (size_t)k->senders * AREA - (k->number == 11);
    return call(MODE_ONLINE, N1, T, k->senders, packets, octets, sizes, count, storage, room);
}

static uint64_t run_pages(const struct night *k, unsigned side, const uint8_t *asked, size_t many) {
    size_t room = (size_t)k->senders * AREA;
    return sides[side].pages(MODE_ONLINE, N1, T, k->senders, packets, octets, sizes, count, storages[side], room, asked,
                             many);
}

static uint64_t run_casts(const struct night *k, unsigned side) {
    return sides[side].casts(MODE_ONLINE, N1, T, k->senders, (uint8_t)groups(k), packets, octets, sizes, to, count,
                             versions[side], numbers[side], entries(k) - (k->kind == SHORT_CAST));
}

static uint64_t run_cuts(const struct night *k, cuts_call *call, uint8_t *buffer, unsigned rounds) {
    uint64_t sum = 0;
    for (unsigned round = 0; round < rounds; round++)
        sum += call(round + 1, content, k->n, k->u, (uint8_t)pieces(k), buffer, LONGEST);
    return sum;
}

static uint64_t run(const struct night *k, unsigned side, unsigned rounds) {
    if (k->kind == CUT) return run_cuts(k, sides[side].cuts, storages[side], rounds);
    if (k->kind == PAGE) return run_pages(k, side, places, (size_t)rounds * PLACES);
    if (is_cast(k)) return run_casts(k, side);
    return run_night(k, sides[side].night, storages[side]);
}

/* Whether each side's octets are the first's. */
static bool wrote_alike(void) {
    for (unsigned side = 1; side < SIDES; side++)
        if (memcmp(storages[side], storages[0], sizeof storages[0]) != 0) return false;
    return true;
}

/* Each piece by itself: the last call of a round alone would show only the last one. */
static void compare_cuts(const struct night *k) {
    for (unsigned c = 0; c <= pieces(k) + 1; c++) {
        uint64_t sums[SIDES];
        for (unsigned side = 0; side < SIDES; side++) {
            sums[side] = sides[side].cuts(c + 1, content, k->n, k->u, (uint8_t)c, storages[side], LONGEST);
            if (sums[side] != sums[0]) fail("the sides cut differently", k->name);
        }
        if (!wrote_alike()) fail("the sides cut differently", k->name);
    }
}

/* Each place by itself, and one that no sender has: in a sum one might stand for another. */
static void compare_pages(const struct night *k) {
    for (unsigned side = 0; side < SIDES; side++)
        for (unsigned place = 0; place <= PLACES; place++) {
            const uint8_t asked = (uint8_t)place;
            if (run_pages(k, side, &asked, 1) != held(k, place)) fail("a place holds not what it was sent", k->name);
        }
}

/* Whether each sender's area has the message that was sent. */
static bool joined_right(const struct night *k) {
    for (unsigned i = 0; i < k->senders; i++)
        if (memcmp(storages[0] + (size_t)i * AREA, content, k->n) != 0) return false;
    return true;
}

/* What a night must come to besides: that all sides refuse all is no comparison. */
static void expect(const struct night *k, uint64_t sum, unsigned rounds) {
    uint64_t join = 0, t = pieces(k);
    for (uint64_t held = 1; held < t; held++) join += held * 256;
    if (k->kind == JOIN && sum != k->senders * (rounds * (join + k->n) + 1 + (rounds - 1) * 2ull))
        fail("not every message was joined", k->name);
    if (k->kind == JOIN && t > 1 && !joined_right(k)) fail("a message was joined wrongly", k->name);
    if (k->kind == PAGE && sum != rounds * all_held(k)) fail("not every place was asked", k->name);
    if (k->kind == REFUSED && k->number < 17 && sum != (uint64_t)k->number * rounds)
        fail("not every packet was refused with its number", k->name);
    if (k->kind == REFUSED && k->number == 17 && sum != (17ull + AGE) * rounds + 1 + k->n)
        fail("not every repeat was refused, with its age", k->name);
    if (k->kind == REFUSED && k->number > 17 && sum != (uint64_t)k->number * rounds + 256)
        fail("not every packet was refused with its number", k->name);
}

/* Whether a side's tables have the last number that was delivered, under version 1, and else what they began with. */
static bool tables_right(const struct night *k, unsigned side, unsigned rounds) {
    static uint32_t right_versions[MOST_ENTRIES], right_numbers[MOST_ENTRIES];
    memset(right_versions, 0, sizeof right_versions);
    memset(right_numbers, 0, sizeof right_numbers);
    if (k->kind == CAST && k->number == 26) right_versions[entries(k) - 1] = 1;
    for (unsigned node = 1; node <= k->senders && k->number < 25; node++)
        for (unsigned group = 1; group <= groups(k); group++) {
            size_t at = ((node - 1u) * groups(k) + group - 1) * PRIORITIES + priority(node, group);
            right_versions[at] = 1;
            right_numbers[at] = k->number == 17 ? 1 : rounds;
        }
    return memcmp(versions[side], right_versions, sizeof right_versions) == 0 &&
           memcmp(numbers[side], right_numbers, sizeof right_numbers) == 0;
}

/* Each side's sum and tables against what they must be: first, and then next, 17, or the number. */
static void compare_casts(const struct night *k, unsigned rounds) {
    uint64_t more = rounds - 1, each = 1 + k->n + more * (2u + k->n);
    if (k->number == 17) each = 1 + k->n + more * 17;
    if (k->number > 17) each = (uint64_t)rounds * k->number;
    for (unsigned side = 0; side < SIDES; side++) {
        if (!has(k, side)) continue;
        if (run(k, side, rounds) != (uint64_t)k->senders * groups(k) * each)
            fail("a multicast is not answered right", k->name);
        if (!tables_right(k, side, rounds)) fail("the tables are not what was delivered", k->name);
    }
}

/* Each answer and each octet against what it must be. */
static void compare_sections(const struct night *k, unsigned rounds) {
    for (unsigned side = 0; side < SIDES; side++)
        if (has(k, side) && !sections_right(section_work(k), &sides[side].sections, rounds))
            fail("a section is not what was given", k->name);
}

static void compare(const struct night *k, unsigned rounds) {
    if (is_section(k)) {
        compare_sections(k, rounds);
        return;
    }
    if (is_cast(k)) {
        compare_casts(k, rounds);
        return;
    }
    uint64_t first = run(k, 0, rounds);
    for (unsigned side = 1; side < SIDES; side++)
        if (run(k, side, rounds) != first) fail("the sides answer differently", k->name);
    if (!wrote_alike()) fail("the sides write differently", k->name);
    expect(k, first, rounds);
    if (k->kind == PAGE) compare_pages(k);
    if (k->kind == CUT) compare_cuts(k);
}

/* Runs a side with the stack at a fixed place of 4,096 octets. Where it stands in main, the lengths of the environment
 * and of the arguments decide, and a state that is copied takes more instructions at some places than at others. */
static uint64_t run_counted(const struct night *k, unsigned side, unsigned rounds) {
    volatile uint8_t *passed = __builtin_alloca((uintptr_t)__builtin_frame_address(0) % 4096 + 1);
    passed[0] = 0;
    if (!is_section(k)) return run(k, side, rounds);
    sections_run(section_work(k), &sides[side].sections, rounds);
    return 0;
}

/* Has the side of this name run the night, all of them, or none. */
static void run_named(const struct night *k, const char *name, unsigned rounds) {
    /* volatile: so that the night is run though nothing more is made of its sum */
    volatile uint64_t sum = 0;
    if (strcmp(name, "none") == 0) return;
    if (strcmp(name, "all") == 0) {
        compare(k, rounds);
        return;
    }
    for (unsigned side = 0; side < SIDES; side++)
        if (strcmp(name, sides[side].name) == 0 && has(k, side)) {
            sum = run_counted(k, side, rounds);
            (void)sum;
            return;
        }
    fail("no such side", name);
}

static void list(size_t which) {
    printf("%zu\t%s\t", which, nights[which].name);
    for (unsigned side = 0; side < SIDES; side++)
        if (has(&nights[which], side)) printf(" %s", sides[side].name);
    printf("\n");
}

int main(int argc, char **argv) {
    size_t all = sizeof nights / sizeof nights[0];
    if (argc == 2 && strcmp(argv[1], "list") == 0) {
        for (size_t i = 0; i < all; i++) list(i);
        return 0;
    }
    if (argc != 4) fail("NIGHT value|board|twin|none|all ROUNDS are needed", argv[0]);
    size_t which = strtoul(argv[1], NULL, 10);
    unsigned rounds = (unsigned)strtoul(argv[3], NULL, 10);
    if (which >= all || rounds < 1 || rounds > MOST_ROUNDS) fail("no such night, or too many rounds", argv[1]);
    const struct night *k = &nights[which];
    prepare(k, rounds);
    run_named(k, argv[2], rounds);
    printf("%zu\n", k->kind == CUT ? (size_t)pieces(k) * rounds : k->kind == PAGE || is_section(k) ? rounds : count);
    return 0;
}
