/* Makes the calls whose loads and stores bench/stores lists:   storing CASE
 * Before each call it prints `call OFFSET LENGTH`: from this octet of `lent` on, so many are to be stored, 0 where the
 * call is to be refused; a call that writes several PDUs has a length for each. It fails where an answer is not what it
 * must be.   storing list   prints the cases, and, of a wrong one, the fault that is to be found. */
#include "twin.h"

#include <stdio.h>
#include <stdlib.h>
#include <string.h>

enum { PAGE = 4096, WRONG = 80 };

/* What is lent, from the second page on. All of it is watched, so that a store in front of the buffer or behind it, be
 * it a whole message, shows as well. Only the calls touch it, and the wrong ones. */
uint8_t lent[7 * PAGE] __attribute__((aligned(PAGE)));
static uint8_t *const buffer = lent + PAGE;

/* The message; at a fixed place of a page, since how it is moved may depend on that. */
static uint8_t content[AREA + 16] __attribute__((aligned(PAGE)));

struct one {
    const char *name;
    void (*make)(const struct one *);
    /* n octets in pieces of u, and which of them; where all are cut, which is the last */
    uint16_t n, u;
    uint8_t piece;
};

static void fail(const char *what, const char *which) {
    fprintf(stderr, "bench: %s: %s\n", which, what);
    exit(1);
}

static unsigned pieces(size_t n, uint16_t u) { return n <= u ? 1 : (unsigned)((n - 1) / u + 1); }

/* How long the PDU of a piece is. */
static size_t pdu(size_t n, uint16_t u, unsigned piece) {
    return HEADER + (piece < pieces(n, u) ? u : n - (piece - 1) * (size_t)u);
}

static void announce(const uint8_t *place, size_t length) { printf("call %td %zu\n", place - lent, length); }

/* Holds an answer against what was to be stored. */
static void expect(const char *name, struct adp_cutting a, size_t length) {
    if (a.number != (length > 0 ? ADP_DONE : ADP_BAD_PIECE)) fail("a call answers another number", name);
    if (a.length != length) fail("a call answers another length", name);
}

/* ---- through adp_cut */

static const struct adp_given usual = {.field = 1, .node = 1, .version = 1, .number = 1, .tcd = 1};

static void cut(const struct one *k) {
    size_t length = pdu(k->n, k->u, k->piece);
    announce(buffer, length);
    expect(k->name, adp_cut(usual, content, k->n, k->u, k->piece, buffer, LONGEST), length);
}

static void cut_lengths(const struct one *k) {
    for (size_t n = 0; n <= ADP_MOST_UNIT; n++) {
        announce(buffer, HEADER + n);
        expect(k->name, adp_cut(usual, content, n, ADP_MOST_UNIT, 1, buffer, LONGEST), HEADER + n);
    }
}

/* A message of n octets from each of a few places, into a buffer just long enough from each place but the first. */
static void cut_shifted(const struct one *k, size_t n) {
    for (size_t to = 1; to < 16; to++)
        for (size_t from = 0; from < 16; from += 5) {
            announce(buffer + to, HEADER + n);
            expect(k->name, adp_cut(usual, content + from, n, ADP_MOST_UNIT, 1, buffer + to, HEADER + n), HEADER + n);
        }
}

static void cut_places(const struct one *k) {
    static const size_t lengths[] = {0, 1, 7, 8, 15, 16, 17, 31, 33, 255, 1395, 1396};
    for (size_t i = 0; i < sizeof lengths / sizeof lengths[0]; i++) cut_shifted(k, lengths[i]);
}

/* One piece, a front one and a last one, whose buffers are just long enough, or an octet short. */
static const struct {
    size_t n;
    uint8_t piece;
} tight[] = {{16, 1}, {2000, 1}, {2000, 2}};

static void cut_tight(const struct one *k, size_t missing) {
    for (size_t i = 0; i < sizeof tight / sizeof tight[0]; i++) {
        size_t length = pdu(tight[i].n, ADP_MOST_UNIT, tight[i].piece), stored = missing > 0 ? 0 : length;
        announce(buffer, stored);
        expect(k->name,
               adp_cut(usual, content, tight[i].n, ADP_MOST_UNIT, tight[i].piece, buffer, length - missing), stored);
    }
}

static void cut_enough(const struct one *k) { cut_tight(k, 0); }

static void refuse(const struct one *k, struct adp_given given, size_t n, uint16_t u, uint8_t piece) {
    announce(buffer, 0);
    expect(k->name, adp_cut(given, content, n, u, piece, buffer, LONGEST), 0);
}

/* The first of two pieces, which is cut where nothing is changed, with a header value that is. */
static void refuse_given(const struct one *k, struct adp_given given) {
    refuse(k, given, tight[1].n, ADP_MOST_UNIT, tight[1].piece);
}

static struct adp_given numbered(uint32_t number) {
    struct adp_given given = usual;
    given.number = number;
    return given;
}

static struct adp_given from_node(uint8_t field, uint16_t node) {
    struct adp_given given = usual;
    given.field = field;
    given.node = node;
    return given;
}

static struct adp_given coded(uint16_t tcd, uint16_t mode, uint8_t pri) {
    struct adp_given given = usual;
    given.tcd = tcd;
    given.mode = mode;
    given.pri = pri;
    return given;
}

/* Each reason alone. */
static void cut_refused(const struct one *k) {
    refuse(k, usual, AREA + 1, ADP_MOST_UNIT, 1);
    refuse(k, usual, tight[1].n, ADP_LEAST_UNIT - 1, 1);
    refuse(k, usual, tight[1].n, ADP_MOST_UNIT + 1, 1);
    refuse(k, usual, tight[1].n, ADP_MOST_UNIT, 0);
    refuse(k, usual, tight[1].n, ADP_MOST_UNIT, 3);
    refuse_given(k, from_node(0, 1));
    refuse_given(k, from_node(1, 0));
    refuse_given(k, from_node(1, 4096));
    refuse_given(k, numbered(0));
    refuse_given(k, numbered(2147483648u));
    refuse_given(k, coded(0, 0, 0));
    refuse_given(k, coded(60000, 0, 0));
    refuse_given(k, coded(1, 2, 0));
    refuse_given(k, coded(1, 0, 8));
    cut_tight(k, 1);
}

/* ---- by value */

/* Every piece of a message, in one call. */
static void cut_all(const struct one *k, cuts_call *cuts) {
    uint64_t sum = 0;
    printf("call %td", buffer - lent);
    for (unsigned c = 1; c <= k->piece; c++) {
        printf(" %zu", pdu(k->n, k->u, c));
        sum += pdu(k->n, k->u, c);
    }
    printf("\n");
    if (cuts(1, content, k->n, k->u, k->piece, buffer, LONGEST) != sum) fail("another sum is answered", k->name);
}

static void value(const struct one *k) { cut_all(k, adp_cuts); }

/* The twin, which the bench counts beside ours, does the same work. */
static void plain(const struct one *k) { cut_all(k, twin_cuts); }

static void head(const struct one *k) {
    static const size_t rooms[] = {HEADER, LONGEST, HEADER - 1, 0};
    (void)k;
    for (size_t i = 0; i < sizeof rooms / sizeof rooms[0]; i++) {
        announce(buffer, rooms[i] < HEADER ? 0 : HEADER);
        adp_head(1, 16, 16, 1, 1, buffer, rooms[i]);
    }
}

/* ---- wrong ones, which show that a fault is found */

static const struct adp_cutting done = {ADP_DONE, WRONG}, refused = {ADP_BAD_PIECE, 0};

/* The octets up to `end`, one by one. */
static void put(volatile uint8_t *b, size_t begin, size_t end) {
    for (size_t i = begin; i < end; i++) b[i] = 1;
}

static void put_eight(volatile uint8_t *b, size_t begin) {
    typedef uint64_t __attribute__((aligned(1), may_alias)) eight;
    *(volatile eight *)(b + begin) = 1;
}

static struct adp_cutting twice(volatile uint8_t *b) {
    put(b, 0, 9);
    put(b, 8, WRONG);
    return done;
}

/* The last 12 octets by eights, as memmove stores them. */
static struct adp_cutting overlapping(volatile uint8_t *b) {
    put(b, 0, WRONG - 12);
    put_eight(b, WRONG - 12);
    put_eight(b, WRONG - 8);
    return done;
}

static struct adp_cutting falling(volatile uint8_t *b) {
    for (size_t i = WRONG; i > 0; i--) b[i - 1] = 1;
    return done;
}

static struct adp_cutting swapped(volatile uint8_t *b) {
    put_eight(b, 0);
    put_eight(b, 16);
    put_eight(b, 8);
    put(b, 24, WRONG);
    return done;
}

static struct adp_cutting gap(volatile uint8_t *b) {
    put(b, 0, 5);
    put(b, 6, WRONG);
    return done;
}

static struct adp_cutting ended_early(volatile uint8_t *b) {
    put(b, 0, WRONG - 1);
    return done;
}

static struct adp_cutting nothing(volatile uint8_t *b) {
    (void)b;
    return done;
}

static struct adp_cutting behind(volatile uint8_t *b) {
    put(b, 0, WRONG + 1);
    return done;
}

static struct adp_cutting in_front(volatile uint8_t *b) {
    b[-1] = 1;
    put(b, 0, WRONG);
    return done;
}

static struct adp_cutting reading(volatile uint8_t *b) {
    put(b, 0, WRONG);
    (void)b[3];
    return done;
}

static struct adp_cutting refused_late(volatile uint8_t *b) {
    put(b, 0, 1);
    return refused;
}

static struct adp_cutting refused_reading(volatile uint8_t *b) {
    (void)b[0];
    return refused;
}

/* ---- the cases */

static const struct one cases[] = {
    {"cut, 1 piece of 0", cut, 0, 1396, 1},
    {"cut, 1 piece of 16", cut, 16, 1396, 1},
    {"cut, 1 piece of 1396", cut, 1396, 1396, 1},
    {"cut, piece 1 of 12", cut, 16384, 1396, 1},
    {"cut, piece 11 of 12", cut, 16384, 1396, 11},
    {"cut, piece 12 of 12", cut, 16384, 1396, 12},
    {"cut, piece 1 of 64", cut, 16384, 256, 1},
    {"cut, piece 64 of 64", cut, 16384, 256, 64},
    {"cut, piece 2 of 2, 1 octet", cut, 257, 256, 2},
    {"cut, 1 piece of 0 to 1396", cut_lengths, 0, 0, 0},
    {"cut, buffers at odd places", cut_places, 0, 0, 0},
    {"cut, buffers just long enough", cut_enough, 0, 0, 0},
    {"cut, refused with 23", cut_refused, 0, 0, 0},
    {"by value, 12 pieces", value, 16384, 1396, 12},
    {"by value, 1 piece of 16", value, 16, 1396, 1},
    {"the header alone", head, 0, 0, 0},
    {"plain C, 12 pieces", plain, 16384, 1396, 12},
    {"plain C, 1 piece of 16", plain, 16, 1396, 1},
};

/* The wrong ones: what is to be stored, and what is to be found. */
static const struct {
    const char *name;
    struct adp_cutting (*call)(volatile uint8_t *);
    uint16_t length;
    const char *fault;
} wrongs[] = {
    {"wrong: an octet twice", twice, WRONG, "octet 8 stored twice"},
    {"wrong: two stores overlap", overlapping, WRONG, "octet 72 stored twice"},
    {"wrong: falling", falling, WRONG, "octet 78 stored after 79"},
    {"wrong: two stores swapped", swapped, WRONG, "octet 8 stored after 23"},
    {"wrong: an octet less", gap, WRONG, "octet 5 left out"},
    {"wrong: the last octet less", ended_early, WRONG, "octet 79 left out"},
    {"wrong: nothing at all", nothing, WRONG, "octet 0 left out"},
    {"wrong: an octet more", behind, WRONG, "octet 80 stored behind the PDU"},
    {"wrong: an octet in front", in_front, WRONG, "octet -1 stored in front of the PDU"},
    {"wrong: an octet read", reading, WRONG, "octet 3 read"},
    {"wrong: stored and refused", refused_late, 0, "octet 0 stored, though refused"},
    {"wrong: read and refused", refused_reading, 0, "octet 0 read, though refused"},
};

enum { CASES = sizeof cases / sizeof cases[0], WRONGS = sizeof wrongs / sizeof wrongs[0] };

static void list(void) {
    for (size_t i = 0; i < CASES; i++) printf("%s\t\n", cases[i].name);
    for (size_t i = 0; i < WRONGS; i++) printf("%s\t%s\n", wrongs[i].name, wrongs[i].fault);
}

/* Makes the calls of the case of this name. */
static void make(const char *name) {
    for (size_t i = 0; i < CASES; i++)
        if (strcmp(name, cases[i].name) == 0) {
            cases[i].make(&cases[i]);
            return;
        }
    for (size_t i = 0; i < WRONGS; i++)
        if (strcmp(name, wrongs[i].name) == 0) {
            announce(buffer, wrongs[i].length);
            expect(name, wrongs[i].call(buffer), wrongs[i].length);
            return;
        }
    fail("no such case", name);
}

int main(int argc, char **argv) {
    if (argc != 2) fail("CASE or list is needed", argv[0]);
    if (strcmp(argv[1], "list") == 0) {
        list();
        return 0;
    }
    /* so that a line is out before its call is made */
    setvbuf(stdout, NULL, _IOLBF, 0);
    for (size_t i = 0; i < sizeof content; i++) content[i] = (uint8_t)(i * 7 + i / 251);
    make(argv[1]);
    return 0;
}
