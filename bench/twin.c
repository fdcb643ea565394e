/* The same work in plain C, written for speed: the state stays behind a pointer, a sender's record is changed in place, and a PDU's fields are
 * read where they lie. It makes the same checks, 9 and 11 to 20, of a packet to a group 25 and 26, the cutter's 23, a section's 24 and its
 * writer's 23, in the same order, and gives the same answers. */
#include "twin.h"

#include <stdbool.h>
#include <string.h>

#define M 2147483647u
#define HALF 1073741823u
#define CLOCK_MOST 1099511627776ull

/* where the fields of the header stand */
enum {
    H_TYPE = 0, ML = 4, DOMAIN = 8, DATA_FIELD = 9, NODE = 10, DA = 12, V_SEQ = 16, SEQ = 20, M_CTL = 24, INQ_ID = 28, TCD = 40, VER = 42,
    GTID = 44, MODE = 52, PVER = 54, PRI = 55, CBN = 56, TBN = 57, BSIZE = 58, FUI = 60
};

struct message {
    uint32_t version, number;
    uint64_t map, stamp;
    uint16_t tcd, n, u;
    uint8_t tbn, held;
};

struct sender {
    uint8_t field;
    bool open, alive;
    uint16_t node;
    uint32_t last_version, last_number, timeout;
    uint64_t heard;
    struct message message;
};

struct receiver {
    bool test;
    uint8_t count, group_count;
    uint8_t groups[GROUPS];
    uint16_t n1;
    uint32_t t;
    uint64_t clock;
    struct sender senders[PLACES];
};

enum verdict { REPEAT = 0, FIRST = 1, NEXT = 2, RESTART = 3, GAP = 4, UNCHECKED = 5 };

/* number: 0 stored, 1 delivered, 9 or more refused; the delivered octets lie at `part` */
struct answer {
    uint8_t number, verdict, held;
    uint32_t skipped, age, dropped_version, dropped_number;
    const uint8_t *part;
    size_t length;
};

/* what the cut of a PDU says */
struct cut {
    uint32_t n, p, u;
    uint8_t cbn, tbn;
};

/* ---- numbers, the high octet first */

static inline uint16_t read2(const uint8_t *s) {
    uint16_t x;
    memcpy(&x, s, sizeof x);
    return __builtin_bswap16(x);
}

static inline uint32_t read4(const uint8_t *s) {
    uint32_t x;
    memcpy(&x, s, sizeof x);
    return __builtin_bswap32(x);
}

static inline uint64_t read8(const uint8_t *s) {
    uint64_t x;
    memcpy(&x, s, sizeof x);
    return __builtin_bswap64(x);
}

static inline void write2(uint8_t *s, uint16_t x) {
    x = __builtin_bswap16(x);
    memcpy(s, &x, sizeof x);
}

static inline void write4(uint8_t *s, uint32_t x) {
    x = __builtin_bswap32(x);
    memcpy(s, &x, sizeof x);
}

/* ---- limits */

static inline bool is_number(uint32_t x) { return x - 1 < M; }

static inline bool is_user(uint16_t tcd) { return tcd - 1u < 59999; }

static inline bool is_unit(uint32_t u) { return 256 <= u && u <= 1396; }

static inline bool is_address(uint8_t field, uint16_t node) { return field != 0 && node - 1u < 4095; }

static inline uint64_t full(uint8_t t) { return t == 0 ? 0 : ~0ull >> (64 - t); }

/* n octets in t pieces of u, t from 2 */
static inline bool several(uint32_t n, uint8_t t, uint32_t u) { return is_unit(u) && (t - 1u) * u < n && n <= t * u; }

static inline bool message_within(const struct message *m, uint64_t clock) {
    return is_number(m->number) && is_user(m->tcd) && m->tbn > 1 && m->n <= AREA && several(m->n, m->tbn, m->u) && 0 < m->map &&
           (64 < m->tbn || m->map < full(m->tbn)) && m->held == __builtin_popcountll(m->map) && m->stamp <= clock;
}

static inline bool sender_within(const struct sender *s, uint64_t clock) {
    return is_address(s->field, s->node) && s->last_number <= M && (s->last_version == 0 || s->last_number > 0) &&
           (!s->open || message_within(&s->message, clock)) && (!s->alive || s->heard <= clock);
}

/* Groups are 1 to 255, none twice: each is marked in a set of bits, 0 from the start. */
static inline bool groups_within(const struct receiver *r) {
    if (r->group_count == 0) return true;
    if (r->group_count > GROUPS) return false;
    uint64_t seen[4] = {1};
    for (unsigned i = 0; i < r->group_count; i++) {
        uint64_t *part = &seen[r->groups[i] / 64], bit = 1ull << r->groups[i] % 64;
        if (*part & bit) return false;
        *part |= bit;
    }
    return true;
}

static inline bool settings_within(const struct receiver *r) {
    return r->clock <= CLOCK_MOST && r->count <= PLACES && r->n1 - 1u < 1024 && r->t - 1 < 600000 && groups_within(r) &&
           (r->count > 0 || (!r->test && r->n1 == 1 && r->t == 1 && r->group_count == 0));
}

/* One pass over the table: 9, or the place of the sender with this address, the count where none has it. */
static inline bool look(const struct receiver *r, uint32_t address, unsigned *at) {
    uint32_t seen[PLACES];
    unsigned found = r->count;
    if (!settings_within(r)) return false;
    for (unsigned i = 0; i < r->count; i++) {
        const struct sender *s = &r->senders[i];
        uint32_t own = (uint32_t)s->field << 16 | s->node, twice = 0;
        if (!sender_within(s, r->clock)) return false;
        for (unsigned j = 0; j < i; j++) twice |= seen[j] == own;
        if (twice) return false;
        seen[i] = own;
        if (own == address && found == r->count) found = i;
    }
    *at = found;
    return true;
}

/* ---- a PDU */

static inline bool head_within(const uint8_t *p) {
    uint64_t inquiry = read8(p + INQ_ID) | read4(p + INQ_ID + 8);
    return memcmp(p + H_TYPE, "NUXM", 4) == 0 && p[DOMAIN] == 0 && inquiry == 0 && read2(p + VER) == 0 && read8(p + GTID) == 0 &&
           p[PVER] == 1 && read4(p + FUI) == 0 && p[PRI] <= 7 && read2(p + MODE) <= 1 && is_user(read2(p + TCD)) &&
           is_number(read4(p + SEQ));
}

/* Whether the cut is possible; what it says is then in `c`. */
static inline bool possible(const uint8_t *packet, size_t size, struct cut *c) {
    uint32_t ml = read4(packet + ML);
    c->cbn = packet[CBN];
    c->tbn = packet[TBN];
    if (ml < HEADER || ml - HEADER > AREA || c->cbn == 0 || c->tbn < c->cbn) return false;
    uint32_t n = c->n = ml - HEADER, p = c->p = (uint32_t)size - HEADER;
    if (c->tbn == 1) {
        c->u = n;
        return p == n;
    }
    if (c->cbn < c->tbn) {
        c->u = p;
        return several(n, c->tbn, p);
    }
    if (n <= p || (n - p) % (c->tbn - 1u) != 0) return false;
    c->u = (n - p) / (c->tbn - 1u);
    return is_unit(c->u) && 1 <= p && p <= c->u;
}

/* How far back `this` lies behind `last` on the ring 1 to M. */
static inline uint32_t back_of(uint32_t last, uint32_t this) {
    last %= M;
    this %= M;
    return last >= this ? last - this : last + M - this;
}

static inline enum verdict number_check(const struct receiver *r, uint32_t last_version, uint32_t last_number, uint32_t version,
                                        uint32_t number, struct answer *a) {
    if (version == 0 && number == 1) return UNCHECKED;
    if (last_version == 0) return FIRST;
    if (version != last_version) return RESTART;
    uint32_t back = back_of(last_number, number);
    if (back < r->n1) {
        a->age = back;
        return REPEAT;
    }
    if (back == M - 1) return NEXT;
    a->skipped = M - 1 - back;
    return GAP;
}

static inline uint8_t packet_number(const struct receiver *r, size_t room, const uint8_t *packet, size_t size, unsigned *at) {
    uint32_t address = size < HEADER ? 0 : (uint32_t)packet[DATA_FIELD] << 16 | read2(packet + NODE);
    if (!look(r, address, at)) return 9;
    if (room != (size_t)r->count * AREA) return 11;
    if (size < HEADER || size > LONGEST || size != read2(packet + BSIZE)) return 12;
    if (!head_within(packet)) return 13;
    return *at >= r->count ? 14 : 0;
}

/* 15 to 20; the cut and the verdict are then known. */
static inline uint8_t sender_number(const struct receiver *r, const struct sender *s, const uint8_t *packet, size_t size, struct cut *c, struct answer *a) {
    const struct message *m = &s->message;
    uint32_t version = read4(packet + V_SEQ), number = read4(packet + SEQ);
    if (read2(packet + MODE) == 1 && !r->test) return 15;
    if (!possible(packet, size, c)) return 16;
    a->verdict = number_check(r, s->last_version, s->last_number, version, number, a);
    if (a->verdict == REPEAT) return 17;
    if (!s->open || m->version != version) return 0;
    if (number != m->number) return back_of(m->number, number) <= HALF ? 18 : 0;
    if (m->tcd != read2(packet + TCD) || m->n != c->n || m->tbn != c->tbn || m->u != c->u) return 19;
    return m->map >> (c->cbn - 1) & 1 ? 20 : 0;
}

/* What an admitted PDU does to its sender's record and area. */
static inline void admit(const struct receiver *r, struct sender *s, uint8_t *area, const uint8_t *packet, const struct cut *c, struct answer *a) {
    struct message *m = &s->message;
    uint32_t version = read4(packet + V_SEQ), number = read4(packet + SEQ);
    bool rejoins = s->open && m->version == version && m->number == number;
    uint64_t map = (rejoins ? m->map : 0) | 1ull << (c->cbn - 1);
    uint8_t held = (uint8_t)((rejoins ? m->held : 0) + 1);
    if (s->open && !rejoins) {
        a->dropped_version = m->version;
        a->dropped_number = m->number;
    }
    if (c->tbn != 1) memcpy(area + (c->cbn - 1u) * c->u, packet + HEADER, c->p);
    if (map != full(c->tbn)) {
        *m = (struct message){version, number, map, r->clock, read2(packet + TCD), (uint16_t)c->n, (uint16_t)c->u, c->tbn, held};
        s->open = true;
        a->number = 0;
        a->verdict = 0;
        a->held = held;
        return;
    }
    if (a->verdict != UNCHECKED) {
        s->last_version = version;
        s->last_number = number;
    }
    *m = (struct message){0};
    s->open = false;
    a->number = 1;
    a->part = c->tbn == 1 ? packet + HEADER : area;
    a->length = c->n;
}

static inline struct answer message(struct receiver *r, uint8_t *storage, size_t room, const uint8_t *packet, size_t size) {
    struct answer a = {0};
    struct cut c;
    unsigned at;
    a.number = packet_number(r, room, packet, size, &at);
    if (a.number != 0) return a;
    a.number = sender_number(r, &r->senders[at], packet, size, &c, &a);
    if (a.number != 0) {
        a.verdict = 0;
        return a;
    }
    admit(r, &r->senders[at], storage + (size_t)at * AREA, packet, &c, &a);
    return a;
}

/* ---- a PDU to a group */

/* The lent tables, of so many entries each. */
struct tables {
    uint32_t *versions, *numbers;
    size_t version_entries, number_entries;
};

/* 26 otherwise. All entries are looked at, so that it compiles to comparisons of four at once: what is above M, and what stands over a number
 * of 0, stays. */
static inline bool tables_within(const struct tables *l, size_t entries) {
    uint32_t high = 0, over = 0;
    if (l->version_entries != entries || l->number_entries != entries) return false;
    for (size_t i = 0; i < entries; i++) {
        uint32_t version = l->versions[i], number = l->numbers[i];
        high |= number;
        over |= number == 0 ? version : 0;
    }
    return high <= M && over == 0;
}

static inline unsigned group_place(const struct receiver *r, uint8_t group) {
    unsigned i = 0;
    while (i < r->group_count && r->groups[i] != group) i++;
    return i;
}

/* All but 17; the entry is then known. */
static inline uint8_t cast_number(const struct receiver *r, const struct tables *l, uint8_t group, const uint8_t *packet, size_t size, size_t *entry) {
    uint32_t address = size < HEADER ? 0 : (uint32_t)packet[DATA_FIELD] << 16 | read2(packet + NODE);
    unsigned at, place;
    if (!look(r, address, &at)) return 9;
    if (!tables_within(l, (size_t)r->count * r->group_count * PRIORITIES)) return 26;
    if (size < HEADER || size > LONGEST_GROUP || size != read2(packet + BSIZE)) return 12;
    if (!head_within(packet)) return 13;
    if (at >= r->count) return 14;
    place = group_place(r, group);
    if (place >= r->group_count) return 25;
    if (read2(packet + MODE) == 1 && !r->test) return 15;
    if (packet[CBN] != 1 || packet[TBN] != 1 || read4(packet + ML) != size) return 16;
    *entry = ((size_t)at * r->group_count + place) * PRIORITIES + packet[PRI];
    return 0;
}

static inline struct answer multicast(const struct receiver *r, const struct tables *l, uint8_t group, const uint8_t *packet, size_t size) {
    struct answer a = {0};
    size_t entry;
    a.number = cast_number(r, l, group, packet, size, &entry);
    if (a.number != 0) return a;
    uint32_t version = read4(packet + V_SEQ), number = read4(packet + SEQ);
    a.verdict = number_check(r, l->versions[entry], l->numbers[entry], version, number, &a);
    if (a.verdict == REPEAT) {
        a.number = 17;
        return a;
    }
    if (a.verdict != UNCHECKED) {
        l->versions[entry] = version;
        l->numbers[entry] = number;
    }
    a.number = 1;
    a.part = packet + HEADER;
    a.length = size - HEADER;
    return a;
}

/* ---- a night */

/* Setup, for the nodes 1 to `senders` of data field 1 and the groups 1 to `groups`. */
static void begin(struct receiver *r, uint8_t mode, uint16_t n1, uint32_t t, uint8_t senders, uint8_t groups) {
    memset(r, 0, sizeof *r);
    r->n1 = 1;
    r->t = 1;
    if (mode > 1 || n1 - 1u >= 1024 || t - 1 >= 600000 || senders - 1u >= PLACES || groups > GROUPS) return;
    r->test = mode == 1;
    r->n1 = n1;
    r->t = t;
    r->count = senders;
    r->group_count = groups;
    for (unsigned i = 0; i < senders; i++) {
        r->senders[i].field = 1;
        r->senders[i].node = (uint16_t)(i + 1);
    }
    for (unsigned i = 0; i < groups; i++) r->groups[i] = (uint8_t)(i + 1);
}

/* How many pieces of the sender at a place are held: the number kept. */
static inline uint8_t held(const struct receiver *r, uint8_t place) {
    return place < r->count && r->senders[place].open ? r->senders[place].message.held : 0;
}

/* Packet after packet. One function for both calls below: called from two places, `message` would not be inlined. */
__attribute__((noinline, noclone)) static uint64_t night(uint8_t mode, uint16_t n1, uint32_t t, uint8_t senders, const uint8_t *packets,
                                                         size_t octets, const uint16_t *sizes, size_t count, uint8_t *storage, size_t room,
                                                         struct receiver *left) {
    struct receiver r;
    uint64_t sum = 0;
    size_t at = 0;
    begin(&r, mode, n1, t, senders, 0);
    for (size_t i = 0; i < count; i++) {
        size_t size = sizes[i] < octets - at ? sizes[i] : octets - at;
        struct answer a = message(&r, storage, room, packets + at, size);
        sum += (a.number > 1 ? a.number : a.verdict) + a.age + a.held * 256ull + a.length;
        at += size;
    }
    *left = r;
    return sum;
}

uint64_t twin_night(uint8_t mode, uint16_t n1, uint32_t t, uint8_t senders, const uint8_t *packets, size_t octets, const uint16_t *sizes,
                    size_t count, uint8_t *storage, size_t room) {
    struct receiver r;
    return night(mode, n1, t, senders, packets, octets, sizes, count, storage, room, &r);
}

uint64_t twin_pages(uint8_t mode, uint16_t n1, uint32_t t, uint8_t senders, const uint8_t *packets, size_t octets, const uint16_t *sizes,
                    size_t count, uint8_t *storage, size_t room, const uint8_t *places, size_t asked) {
    struct receiver r;
    uint64_t sum = 0;
    night(mode, n1, t, senders, packets, octets, sizes, count, storage, room, &r);
    for (size_t i = 0; i < asked; i++) sum += held(&r, places[i]);
    return sum;
}

/* Packet after packet, each to its group. A function by itself: where the setup is seen, which no packet to a group changes, the limits of the
 * senders would not be looked at. */
__attribute__((noipa)) static uint64_t casts(const struct receiver *r, const uint8_t *packets, size_t octets, const uint16_t *sizes,
                                             const uint8_t *to, size_t count, const struct tables *lent) {
    uint64_t sum = 0;
    size_t at = 0;
    for (size_t i = 0; i < count; i++) {
        size_t size = sizes[i] < octets - at ? sizes[i] : octets - at;
        struct answer a = multicast(r, lent, to[i], packets + at, size);
        sum += (a.number > 1 ? a.number : a.verdict) + a.age + a.held * 256ull + a.length;
        at += size;
    }
    return sum;
}

uint64_t twin_casts(uint8_t mode, uint16_t n1, uint32_t t, uint8_t senders, uint8_t groups, const uint8_t *packets, size_t octets,
                    const uint16_t *sizes, const uint8_t *to, size_t count, uint32_t *versions, uint32_t *numbers, size_t entries) {
    const struct tables lent = {versions, numbers, entries, entries};
    struct receiver r;
    begin(&r, mode, n1, t, senders, groups);
    return casts(&r, packets, octets, sizes, to, count, &lent);
}

/* ---- cutting */

/* Stores each octet of a run once, in rising order, as the other sides do: what is volatile the compiler neither moves
 * nor joins, and the C library's memcpy is not called, which stores some octets twice. */
static inline void store_once(uint8_t *to, const uint8_t *from, size_t n) {
    typedef uint64_t __attribute__((vector_size(16), aligned(1), may_alias)) sixteen;
    typedef uint32_t __attribute__((aligned(1), may_alias)) four;
    size_t i = 0;
    for (; i + 64 <= n; i += 64)
        for (size_t k = 0; k < 64; k += 16) *(volatile sixteen *)(to + i + k) = *(const sixteen *)(from + i + k);
    for (; i + 16 <= n; i += 16) *(volatile sixteen *)(to + i) = *(const sixteen *)(from + i);
    for (; i + 4 <= n; i += 4) *(volatile four *)(to + i) = *(const four *)(from + i);
    for (; i < n; i++) *(volatile uint8_t *)(to + i) = from[i];
}

/* The PDU of piece c of the message with this number: its length, or 0 on a refusal with 23. */
static inline size_t cut(uint32_t number, const uint8_t *message, size_t n, uint16_t u, uint8_t c, uint8_t *buffer, size_t room) {
    size_t pieces = n <= u ? 1 : u == 0 ? 0 : (n - 1) / u + 1;
    if (!is_number(number) || n > AREA || !is_unit(u) || c == 0 || c > pieces) return 0;
    size_t start = (size_t)(c - 1) * u, own = c < pieces ? u : n - start;
    if (room < HEADER + own) return 0;
    uint8_t head[HEADER] = {0};
    memcpy(head + H_TYPE, "NUXM", 4);
    write4(head + ML, (uint32_t)n + HEADER);
    head[DATA_FIELD] = 1;
    write2(head + NODE, 1);
    write4(head + V_SEQ, 1);
    write4(head + SEQ, number);
    write2(head + TCD, 1);
    head[PVER] = 1;
    head[CBN] = c;
    head[TBN] = (uint8_t)pieces;
    write2(head + BSIZE, (uint16_t)(own + HEADER));
    store_once(buffer, head, HEADER);
    store_once(buffer + HEADER, message + start, own);
    return HEADER + own;
}

uint64_t twin_cuts(uint32_t number, const uint8_t *message, size_t n, uint16_t u, uint8_t last, uint8_t *buffer, size_t room) {
    uint64_t sum = 0;
    for (unsigned c = 1; c <= last; c++) {
        size_t length = cut(number, message, n, u, (uint8_t)c, buffer, room);
        sum += length == 0 ? 23 : length;
    }
    return sum;
}

/* ---- fault sections */

/* the octets of a section without modules, errors and options, and where in it the first error stands but for the bits */
enum { EMPTY = 20, LIST = 16, NAME = 8 };

static inline size_t bits_size(uint32_t modules) { return ((size_t)modules + 31) / 32 * 4; }

/* A bit above the count stands in the last four octets, if anywhere; as one number, the first octet lowest, its bits lie in order. */
static inline bool none_above(uint32_t modules, const uint8_t *bits) {
    uint32_t last;
    if (modules % 32 == 0) return true;
    memcpy(&last, bits + modules / 32 * 4, sizeof last);
    return last >> modules % 32 == 0;
}

/* Whether no error of n names the module 0. All are looked at, so that it compiles to comparisons of four at once. An error is loaded whole:
 * its first two octets are the low half, be they a section's or a number in memory. */
static inline bool are_errors(const void *list, size_t n) {
    const uint8_t *s = list;
    uint32_t zero = 0;
    for (size_t k = 0; k < n; k++) {
        uint32_t x;
        memcpy(&x, s + 4 * k, sizeof x);
        zero |= (x & 0xffff) == 0 ? ~0u : 0;
    }
    return zero == 0;
}

static inline struct adp_fault fault_read(const uint8_t *s, size_t size) {
    const struct adp_fault refused = {.number = 24};
    struct adp_fault f = {.number = 0};
    if (size < EMPTY || SECTION < size) return refused;
    size_t left = size - EMPTY, bits = bits_size(f.modules = read4(s));
    if (left < bits) return refused;
    left -= bits;
    f.errors = read4(s + 4 + bits);
    if (left / 4 < f.errors) return refused;
    left -= 4 * f.errors;
    f.options = read4(s + size - left - 4);
    if (left != f.options || !none_above(f.modules, s + 4) || !are_errors(s + LIST + bits, f.errors)) return refused;
    memcpy(f.name, s + LIST - NAME + bits, NAME);
    return f;
}

/* Error k of a section that was judged. */
static inline struct adp_error fault_error(const uint8_t *s, uint32_t k) {
    size_t bits = bits_size(read4(s));
    if (read4(s + 4 + bits) <= k) return (struct adp_error){0, 0};
    const uint8_t *e = s + LIST + bits + 4 * (size_t)k;
    return (struct adp_error){read2(e), read2(e + 2)};
}

/* Where the options of a section that was judged stand. */
static inline struct adp_options fault_options(const uint8_t *s) {
    size_t bits = bits_size(read4(s)), count = LIST + bits + 4 * (size_t)read4(s + 4 + bits);
    uint32_t length = read4(s + count);
    return (struct adp_options){length == 0 ? 0 : count + 4, length};
}

/* No sum wraps: what is lent is in memory. */
static inline struct adp_written fault_write(const struct parts *p, uint8_t *restrict buffer, size_t room) {
    size_t bits = bits_size(p->modules), size = EMPTY + bits + 2 * p->numbers + p->length;
    if (room < size) return (struct adp_written){23, 0};
    if (SECTION < size || p->octets != bits || p->numbers % 2 != 0 || !none_above(p->modules, p->bits) || !are_errors(p->errors, p->numbers / 2))
        return (struct adp_written){24, 0};
    uint8_t *at = buffer + LIST + bits;
    write4(buffer, p->modules);
    memcpy(buffer + 4, p->bits, bits);
    write4(at - 12, (uint32_t)p->numbers / 2);
    memcpy(at - NAME, p->name, NAME);
    for (size_t i = 0; i < p->numbers; i++) write2(at + 2 * i, p->errors[i]);
    write4(at + 2 * p->numbers, (uint32_t)p->length);
    memcpy(at + 2 * p->numbers + 4, p->options, p->length);
    return (struct adp_written){0, (uint16_t)size};
}

void twin_reads(const uint8_t *sections, size_t size, size_t count, struct adp_fault *restrict answers) {
    for (size_t i = 0; i < count; i++) answers[i] = fault_read(sections + i * size, size);
}

void twin_shows(const uint8_t *sections, size_t size, size_t count, struct shown *restrict answers) {
    for (size_t i = 0; i < count; i++) {
        const uint8_t *section = sections + i * size;
        struct shown *a = &answers[i];
        struct adp_fault f = a->fault = fault_read(section, size);
        if (f.number != 0) continue;
        for (uint32_t k = 0; k < f.errors; k++) a->errors[k] = fault_error(section, k);
        a->options = fault_options(section);
    }
}

void twin_writes(const struct parts *given, size_t count, uint8_t *buffers, size_t room, struct adp_written *answers) {
    for (size_t i = 0; i < count; i++) answers[i] = fault_write(&given[i], buffers + i * room, room);
}
