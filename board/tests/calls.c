/* See calls.h. Assumes fields as docs/EDGES.md has them, "The calls as fields". */
#include "calls.h"

#include "adp.h"
#include "layout.h"
#include "octets.h"

#include <inttypes.h>
#include <stdlib.h>
#include <string.h>

/* What storage and buffers are filled with. */
enum { FILL = 170 };

enum { STORAGE = ADP_SENDERS * ADP_AREA, ENTRIES = 1040, CONTENTS = 65535 };

/* The least number that is a refusal. */
enum { REFUSAL = 9 };

/* A tally stops here. */
static const uint32_t MOST = 4294967295u;

/* A table of multicast calls: its entries between calls, and where they lie during one. */
struct table {
    uint32_t entries[ENTRIES];
    struct room room;
};

struct caller {
    const char *name;
    enum way way;
    bool tallied;
    FILE *out;
    unsigned long fields;
    char doing[120];
    uint8_t tag;
    size_t length;
    uint8_t contents[CONTENTS];
    /* The state in use, the storage and the tally, between calls. */
    uint64_t state[ADP_STATE_WORDS];
    uint8_t storage[STORAGE];
    uint32_t tally[2];
    /* Where they lie during calls. */
    struct room state_room, storage_room, tally_room;
    struct room packet_room, buffer_room;
    struct room bits_room, errors_room, name_room;
    struct table versions, numbers;
};

static void need(const struct caller *c, bool good, const char *what) {
    if (good) return;
    fflush(c->out);
    fprintf(stderr, "%s%s\n", c->doing, what);
    exit(1);
}

/* ---- what is lent */

static uint64_t *lend_state(struct caller *c) {
    return lend(&c->state_room, c->way, c->state, sizeof c->state);
}

static const uint64_t *lend_constant_state(struct caller *c) {
    return lend_constant(&c->state_room, c->way, c->state, sizeof c->state);
}

/* The state is handed on as the call leaves it. */
static void take_state(struct caller *c, unsigned number) {
    need(c, number < REFUSAL || same(&c->state_room, c->state), "a refusal changes the state");
    need(c, take_back(&c->state_room, c->state), "octets beside the state change");
}

static const uint8_t *lend_packet(struct caller *c, size_t from) {
    return lend_constant(&c->packet_room, c->way, c->contents + from, c->length - from);
}

static void take_packet(struct caller *c) {
    need(c, take_back(&c->packet_room, NULL), "octets beside the packet change");
}

/* "the small one makes the same call and prints nothing" */
static bool told(const struct caller *c) {
    return c->tag < 'a';
}

/* ---- setup */

static struct adp_settings settings_in(const uint8_t *octets) {
    struct adp_settings s;
    /* Octets between the values may hold anything. */
    memset(&s, FILL, sizeof s);
    s.mode = octets[0];
    s.n1 = (uint16_t)number_at(octets + 1, 2);
    s.t = (uint32_t)number_at(octets + 3, 4);
    s.count = octets[7];
    for (size_t i = 0; i < ADP_SENDERS; i++) {
        s.senders[i].field = octets[8 + 3 * i];
        s.senders[i].node = (uint16_t)number_at(octets + 9 + 3 * i, 2);
    }
    s.groups.count = octets[8 + 3 * ADP_SENDERS];
    memcpy(s.groups.list, octets + 9 + 3 * ADP_SENDERS, ADP_GROUPS);
    return s;
}

/* "Fills the storage and clears the tables before" */
static void make_anew(struct caller *c) {
    memset(c->storage, FILL, sizeof c->storage);
    memset(c->versions.entries, 0, sizeof c->versions.entries);
    memset(c->numbers.entries, 0, sizeof c->numbers.entries);
}

static void call_setup(struct caller *c) {
    need(c, c->length == 9 + 3 * ADP_SENDERS + ADP_GROUPS, "a setup of a wrong length");
    make_anew(c);
    uint8_t number = adp_setup(lend_state(c), ADP_STATE_WORDS, settings_in(c->contents));
    /* Its refusal is to change the state. */
    take_state(c, 0);
    if (told(c)) fprintf(c->out, "S %u\n", number);
}

/* ---- the message call */

static void take_tally(struct caller *c, unsigned number) {
    uint32_t *count = &c->tally[number < REFUSAL ? 0 : 1];
    if (*count < MOST) *count += 1;
    need(c, same(&c->tally_room, c->tally), "the tally is not counted up by one");
    need(c, take_back(&c->tally_room, NULL), "octets beside the tally change");
}

static struct adp_answer answer_of(struct caller *c, uint8_t *storage, size_t room) {
    const uint8_t *packet = lend_packet(c, 4);
    size_t size = c->length - 4;
    uint64_t *state = lend_state(c);
    if (!c->tallied) return adp_message(state, ADP_STATE_WORDS, storage, room, packet, size);
    uint32_t *tally = lend(&c->tally_room, c->way, c->tally, sizeof c->tally);
    struct adp_answer a = adp_message_tallied(state, ADP_STATE_WORDS, storage, room, packet, size, tally);
    take_tally(c, a.number);
    return a;
}

/* The delivered octets, of the packet or of the storage. */
static const uint8_t *part_of(const struct caller *c, struct adp_answer a) {
    const struct room *room = a.slice == ADP_IN_PACKET ? &c->packet_room : &c->storage_room;
    if (a.number != ADP_DELIVERED) {
        need(c, a.slice == ADP_IN_NOTHING && a.start == 0 && a.length == 0, "a part, and nothing is delivered");
        return NULL;
    }
    need(c, a.slice == ADP_IN_PACKET || a.slice == ADP_IN_STORAGE, "a delivery that lies nowhere");
    need(c, a.start <= room->length && a.length <= room->length - a.start, "a part that does not fit what was lent");
    return room->at + a.start;
}

static void call_message(struct caller *c) {
    need(c, c->length >= 4, "a message call of a wrong length");
    size_t room = (size_t)number_at(c->contents, 4);
    if (room > STORAGE) room = STORAGE;
    uint8_t *storage = lend(&c->storage_room, c->way, c->storage, room);
    struct adp_answer a = answer_of(c, storage, room);
    uint32_t part_sum = sum(part_of(c, a), a.length);
    uint32_t storage_sum = sum(storage, room);
    take_packet(c);
    take_state(c, a.number);
    need(c, a.number < REFUSAL || same(&c->storage_room, c->storage), "a refusal changes the storage");
    need(c, take_back(&c->storage_room, c->storage), "octets beside the storage change");
    if (!told(c)) return;
    fprintf(c->out, "P %u %u %u %zu %" PRIu32 " %" PRIu32 " %" PRIu32 " %" PRIu32 " %" PRIu32 " %" PRIu32 "\n", a.number,
            a.verdict, a.held, a.length, a.skipped, a.age, a.dropped_version, a.dropped_number, part_sum, storage_sum);
}

/* ---- the multicast call */

static uint32_t *lend_table(struct caller *c, struct table *table, size_t count) {
    need(c, count <= ENTRIES, "more entries than a table has");
    return lend(&table->room, c->way, table->entries, count * sizeof *table->entries);
}

/* A table is handed on as the call leaves it. Answers the sum of what was lent, "each entry as four octets, high octet
 * first". */
static uint32_t take_table(struct caller *c, struct table *table, unsigned number) {
    uint8_t octets[4 * ENTRIES];
    size_t count = table->room.length / sizeof *table->entries;
    need(c, number < REFUSAL || same(&table->room, table->entries), "a refusal changes a table");
    need(c, take_back(&table->room, table->entries), "octets beside a table change");
    for (size_t i = 0; i < count; i++) lay(octets + 4 * i, 4, table->entries[i]);
    return sum(octets, 4 * count);
}

/* What the line does not show. */
static void need_one_piece(const struct caller *c, struct adp_answer a) {
    need(c, a.held == 0, "a multicast call holds pieces");
    need(c, a.dropped_version == 0 && a.dropped_number == 0, "a multicast call drops a message");
    need(c, a.slice != ADP_IN_STORAGE, "a multicast call was lent no storage, and its message lies there");
}

static struct adp_answer group_answer_of(struct caller *c) {
    size_t version_entries = (size_t)number_at(c->contents, 2), number_entries = (size_t)number_at(c->contents + 2, 2);
    const uint64_t *state = lend_constant_state(c);
    uint32_t *versions = lend_table(c, &c->versions, version_entries);
    uint32_t *numbers = lend_table(c, &c->numbers, number_entries);
    const uint8_t *packet = lend_packet(c, 5);
    struct adp_answer a = adp_multicast(state, ADP_STATE_WORDS, versions, version_entries, numbers, number_entries,
                                        c->contents[4], packet, c->length - 5);
    need(c, same(&c->state_room, c->state), "a multicast call changes the state");
    take_state(c, a.number);
    return a;
}

static void call_multicast(struct caller *c) {
    need(c, c->length >= 5, "a multicast call of a wrong length");
    struct adp_answer a = group_answer_of(c);
    need_one_piece(c, a);
    uint32_t part_sum = sum(part_of(c, a), a.length);
    take_packet(c);
    uint32_t versions_sum = take_table(c, &c->versions, a.number);
    uint32_t numbers_sum = take_table(c, &c->numbers, a.number);
    if (!told(c)) return;
    fprintf(c->out, "M %u %u %zu %" PRIu32 " %" PRIu32 " %" PRIu32 " %" PRIu32 " %" PRIu32 "\n", a.number, a.verdict,
            a.length, a.skipped, a.age, part_sum, versions_sum, numbers_sum);
}

/* ---- alive signals, the clock, the question, how many pieces are held */

static void call_alive(struct caller *c) {
    const uint8_t *packet = lend_packet(c, 0);
    uint8_t number = adp_alive(lend_state(c), ADP_STATE_WORDS, packet, c->length);
    take_packet(c);
    take_state(c, number);
    if (told(c)) fprintf(c->out, "A %u\n", number);
}

static void call_clock(struct caller *c) {
    need(c, c->length == 8, "a clock of a wrong length");
    struct adp_ticked ticked = adp_clock(lend_state(c), ADP_STATE_WORDS, number_at(c->contents, 8));
    take_state(c, ticked.number);
    if (told(c)) fprintf(c->out, "C %u %u %u\n", ticked.number, ticked.dropped, ticked.dead);
}

/* "trailing ones give the lowest missing piece" */
static unsigned by_ones(const struct caller *c, struct adp_missing missing) {
    if (!missing.open) return 0;
    need(c, missing.sender < ADP_SENDERS, "the question names no sender");
    uint64_t map = c->state[word_of(missing.sender, OF_MAP)];
    unsigned piece = 1;
    for (; map % 2 == 1; map /= 2) piece++;
    return piece;
}

static void call_question(struct caller *c) {
    struct adp_missing missing = adp_question(lend_constant_state(c), ADP_STATE_WORDS);
    take_state(c, missing.number);
    fprintf(c->out, "Q %u %u %u %u %u\n", missing.number, missing.open, missing.sender, missing.piece,
            by_ones(c, missing));
}

static void call_held(struct caller *c) {
    need(c, c->length == 1, "a held call of a wrong length");
    uint8_t held = adp_held(lend_constant_state(c), ADP_STATE_WORDS, c->contents[0]);
    /* What it gives is a count, and never a refusal. */
    take_state(c, 0);
    fprintf(c->out, "H %u\n", held);
}

/* ---- the cutter */

static struct adp_given given_in(const uint8_t *octets) {
    struct adp_given given;
    memset(&given, FILL, sizeof given);
    given.field = octets[0];
    given.node = (uint16_t)number_at(octets + 1, 2);
    given.da = (uint32_t)number_at(octets + 3, 4);
    given.version = (uint32_t)number_at(octets + 7, 4);
    given.number = (uint32_t)number_at(octets + 11, 4);
    given.m_ctl = (uint32_t)number_at(octets + 15, 4);
    given.tcd = (uint16_t)number_at(octets + 19, 2);
    given.mode = (uint16_t)number_at(octets + 21, 2);
    given.pri = octets[23];
    return given;
}

static void cutting_lines(struct caller *c, struct adp_cutting cutting) {
    const struct room *buffer = &c->buffer_room;
    need(c, cutting.length <= buffer->length, "a PDU longer than its buffer");
    fprintf(c->out, "K %u %u %" PRIu32 " %" PRIu32 "\n", cutting.number, cutting.length,
            sum(buffer->at, cutting.length), sum(buffer->at + cutting.length, buffer->length - cutting.length));
    if (cutting.number != ADP_DONE) return;
    need(c, buffer->length >= ADP_HEADER, "a PDU shorter than its header");
    fputc('k', c->out);
    for (size_t i = 0; i < ADP_HEADER; i++) fprintf(c->out, " %u", buffer->at[i]);
    fputc('\n', c->out);
}

static void call_cut(struct caller *c) {
    need(c, c->length >= 29, "a cut of a wrong length");
    uint8_t before[CONTENTS];
    memset(before, FILL, sizeof before);
    size_t room = (size_t)number_at(c->contents, 2);
    uint8_t *buffer = lend(&c->buffer_room, c->way, before, room);
    const uint8_t *message = lend_packet(c, 29);
    struct adp_cutting cutting = adp_cut(given_in(c->contents + 5), message, c->length - 29,
                                         (uint16_t)number_at(c->contents + 2, 2), c->contents[4], buffer, room);
    take_packet(c);
    cutting_lines(c, cutting);
    need(c, cutting.number < REFUSAL || same(&c->buffer_room, before), "a refusal changes the buffer");
    need(c, take_back(&c->buffer_room, NULL), "octets beside the buffer change");
}

/* ---- the fault section */

static void call_read(struct caller *c) {
    struct adp_fault fault = adp_fault_read(lend_packet(c, 0), c->length);
    take_packet(c);
    fprintf(c->out, "G %u %" PRIu32 " %" PRIu32 " %" PRIu32, fault.number, fault.modules, fault.errors, fault.options);
    for (size_t i = 0; i < sizeof fault.name; i++) fprintf(c->out, " %u", fault.name[i]);
    fputc('\n', c->out);
}

static void call_dead(struct caller *c) {
    need(c, c->length >= 4, "a call for a module of a wrong length");
    bool dead = adp_fault_dead(lend_packet(c, 4), c->length - 4, (uint32_t)number_at(c->contents, 4));
    take_packet(c);
    fprintf(c->out, "B %u\n", dead);
}

static void call_error(struct caller *c) {
    need(c, c->length >= 4, "a call for an error of a wrong length");
    struct adp_error error =
        adp_fault_error(lend_packet(c, 4), c->length - 4, (uint32_t)number_at(c->contents, 4));
    take_packet(c);
    fprintf(c->out, "L %u %u\n", error.module, error.error);
}

static void call_options(struct caller *c) {
    const uint8_t *section = lend_packet(c, 0);
    struct adp_options options = adp_fault_options(section, c->length);
    need(c, options.start <= c->length && options.length <= c->length - options.start,
         "options that do not fit what was lent");
    need(c, options.length > 0 || options.start == 0, "no options, and they start somewhere");
    uint32_t options_sum = sum(section + options.start, options.length);
    take_packet(c);
    fprintf(c->out, "O %zu %" PRIu32 "\n", options.length, options_sum);
}

/* The parts of a section in a field: where they stand in its contents, and how many there are. */
struct given_parts {
    size_t bits, octets, errors, numbers, name, options;
};

static struct given_parts parts_in(const struct caller *c) {
    struct given_parts p = {.bits = 8};
    need(c, c->length >= p.bits, "a section to write of a wrong length");
    p.octets = (size_t)number_at(c->contents + 6, 2);
    p.errors = p.bits + p.octets + 2;
    need(c, c->length >= p.errors, "a section to write whose bits are cut");
    p.numbers = (size_t)number_at(c->contents + p.errors - 2, 2);
    p.name = p.errors + 2 * p.numbers;
    p.options = p.name + 8;
    need(c, c->length >= p.options, "a section to write whose errors or name are cut");
    return p;
}

static const uint16_t *lend_errors(struct caller *c, const struct given_parts *p) {
    uint16_t numbers[CONTENTS / 2];
    for (size_t i = 0; i < p->numbers; i++) numbers[i] = (uint16_t)number_at(c->contents + p->errors + 2 * i, 2);
    return lend_constant(&c->errors_room, c->way, numbers, p->numbers * sizeof *numbers);
}

static struct adp_written written_into(struct caller *c, uint8_t *buffer, size_t room) {
    const struct given_parts p = parts_in(c);
    const uint8_t *bits = lend_constant(&c->bits_room, c->way, c->contents + p.bits, p.octets);
    const uint16_t *errors = lend_errors(c, &p);
    const uint8_t *name = lend_constant(&c->name_room, c->way, c->contents + p.name, 8);
    const uint8_t *options = lend_packet(c, p.options);
    struct adp_written written = adp_fault_write((uint32_t)number_at(c->contents + 2, 4), bits, p.octets, errors,
                                                 p.numbers, name, options, c->length - p.options, buffer, room);
    take_packet(c);
    need(c, take_back(&c->bits_room, NULL), "octets beside the bits change");
    need(c, take_back(&c->errors_room, NULL), "octets beside the errors change");
    need(c, take_back(&c->name_room, NULL), "octets beside the name change");
    return written;
}

static void call_write(struct caller *c) {
    need(c, c->length >= 2, "a section to write of a wrong length");
    uint8_t before[CONTENTS];
    memset(before, FILL, sizeof before);
    size_t room = (size_t)number_at(c->contents, 2);
    uint8_t *buffer = lend(&c->buffer_room, c->way, before, room);
    struct adp_written written = written_into(c, buffer, room);
    need(c, written.length <= room, "a section longer than its buffer");
    fprintf(c->out, "Z %u %u %" PRIu32 " %" PRIu32 "\n", written.number, written.length,
            sum(buffer, written.length), sum(buffer + written.length, room - written.length));
    need(c, written.number < REFUSAL || same(&c->buffer_room, before), "a refusal changes the buffer");
    need(c, take_back(&c->buffer_room, NULL), "octets beside the buffer change");
}

/* ---- the state and the tables, shown and damaged */

static void show_sender(struct caller *c, size_t i) {
    const uint64_t *s = c->state + word_of(i, 0);
    uint64_t cut = s[OF_CUT];
    fprintf(c->out, "w %zu %" PRIu64 " %" PRIu64 " %" PRIu64 " %" PRIu64, i, s[OF_ADDRESS] >> 16,
            s[OF_ADDRESS] & 65535, s[OF_LAST] >> 32, s[OF_LAST] & 4294967295);
    fprintf(c->out, " %" PRIu64 " %" PRIu64 " %" PRIu64, s[OF_OPEN], s[OF_MESSAGE] >> 32, s[OF_MESSAGE] & 4294967295);
    fprintf(c->out, " %" PRIu64 " %" PRIu64 " %" PRIu64 " %" PRIu64, cut >> 48, cut >> 32 & 65535, cut & 255,
            cut >> 16 & 65535);
    fprintf(c->out, " %" PRIu64 " %" PRIu64 " %" PRIu64, s[OF_MAP], cut >> 8 & 255, s[OF_STAMP]);
    fprintf(c->out, " %" PRIu64 " %" PRIu64 " %" PRIu64 "\n", s[OF_ALIVE], s[OF_HEARD], s[OF_TIMEOUT]);
}

static void show(struct caller *c) {
    const uint64_t *w = c->state;
    fprintf(c->out, "W %" PRIu64 " %" PRIu64 " %" PRIu64 " %" PRIu64 " %" PRIu64 " %" PRIu64, w[WORD_TEST], w[WORD_N1],
            w[WORD_T], w[WORD_CLOCK], w[WORD_COUNT], w[WORD_GROUP_COUNT]);
    for (size_t i = 0; i < ADP_GROUPS; i++) fprintf(c->out, " %u", group_in(w[WORD_GROUPS], i));
    fputc('\n', c->out);
    for (size_t i = 0; i < ADP_SENDERS && i < w[WORD_COUNT]; i++) show_sender(c, i);
}

static void damage_settings(struct caller *c) {
    const uint8_t *octets = c->contents;
    need(c, c->length == 17 + ADP_GROUPS, "a damage of a wrong length");
    c->state[WORD_TEST] = octets[0] == 1;
    c->state[WORD_N1] = number_at(octets + 1, 2);
    c->state[WORD_T] = number_at(octets + 3, 4);
    c->state[WORD_CLOCK] = number_at(octets + 7, 8);
    c->state[WORD_COUNT] = octets[15];
    c->state[WORD_GROUP_COUNT] = octets[16];
    c->state[WORD_GROUPS] = groups_word(octets + 17);
}

static void damage_sender(struct caller *c) {
    const uint8_t *octets = c->contents;
    need(c, c->length == 58 && octets[0] < ADP_SENDERS, "a damage of a wrong length or place");
    uint64_t *s = c->state + word_of(octets[0], 0);
    s[OF_ADDRESS] = number_at(octets + 1, 1) << 16 | number_at(octets + 2, 2);
    s[OF_LAST] = number_at(octets + 4, 8);
    s[OF_OPEN] = octets[12] == 1;
    s[OF_MESSAGE] = number_at(octets + 13, 8);
    s[OF_CUT] = number_at(octets + 21, 4) << 32 | number_at(octets + 26, 2) << 16 | number_at(octets + 36, 1) << 8 |
                octets[25];
    s[OF_MAP] = number_at(octets + 28, 8);
    s[OF_STAMP] = number_at(octets + 37, 8);
    s[OF_ALIVE] = octets[45] == 1;
    s[OF_HEARD] = number_at(octets + 46, 8);
    s[OF_TIMEOUT] = number_at(octets + 54, 4);
}

static bool is_used(const struct caller *c, size_t place) {
    return c->versions.entries[place] != 0 || c->numbers.entries[place] != 0;
}

static void show_tables(struct caller *c) {
    size_t count = 0;
    for (size_t i = 0; i < ENTRIES; i++) count += is_used(c, i);
    fprintf(c->out, "E %zu\n", count);
    for (size_t i = 0; i < ENTRIES; i++)
        if (is_used(c, i))
            fprintf(c->out, "e %zu %" PRIu32 " %" PRIu32 "\n", i, c->versions.entries[i], c->numbers.entries[i]);
}

static void damage_entry(struct caller *c) {
    size_t place = (size_t)number_at(c->contents, 2);
    need(c, c->length == 10 && place < ENTRIES, "a damage of an entry of a wrong length or place");
    c->versions.entries[place] = (uint32_t)number_at(c->contents + 2, 4);
    c->numbers.entries[place] = (uint32_t)number_at(c->contents + 6, 4);
}

/* ---- fields */

static void print_title(struct caller *c) {
    fputs("# ", c->out);
    fwrite(c->contents, 1, c->length, c->out);
    fputc('\n', c->out);
}

static void make_call(struct caller *c) {
    switch (c->tag) {
    case '#': print_title(c); break;
    case 'S': case 's': call_setup(c); break;
    case 'P': case 'p': call_message(c); break;
    case 'M': case 'm': call_multicast(c); break;
    case 'A': case 'a': call_alive(c); break;
    case 'C': case 'c': call_clock(c); break;
    case 'Q': call_question(c); break;
    case 'H': call_held(c); break;
    case 'K': call_cut(c); break;
    case 'G': call_read(c); break;
    case 'B': call_dead(c); break;
    case 'L': call_error(c); break;
    case 'O': call_options(c); break;
    case 'Z': call_write(c); break;
    case 'W': show(c); break;
    case 't': damage_settings(c); break;
    case 'r': damage_sender(c); break;
    case 'E': show_tables(c); break;
    case 'e': damage_entry(c); break;
    case 'R': case 'F': break;
    default: need(c, false, "there is no such tag");
    }
}

static bool read_field(struct caller *c, FILE *in) {
    uint8_t head[3];
    size_t read = fread(head, 1, sizeof head, in);
    if (read == 0) return false;
    c->fields++;
    c->tag = head[0];
    snprintf(c->doing, sizeof c->doing, "%s: field %lu, tag %c\n", c->name, c->fields, c->tag);
    need(c, read == sizeof head, "its head is cut");
    c->length = (size_t)number_at(head + 1, 2);
    need(c, fread(c->contents, 1, c->length, in) == c->length, "its contents are cut");
    return true;
}

void run_calls(struct caller *c, FILE *in) {
    while (read_field(c, in)) make_call(c);
    need(c, !ferror(in) && fflush(c->out) == 0, "input or output fails");
}

const char *doing(const struct caller *c) {
    return c->doing;
}

struct caller *new_caller(const char *name, enum way way, bool tallied, FILE *out) {
    struct caller *c = calloc(1, sizeof *c);
    if (!c) {
        perror(name);
        exit(2);
    }
    c->name = name;
    c->way = way;
    c->tallied = tallied;
    c->out = out;
    /* "Before a setup the empty state serves" */
    c->state[WORD_N1] = 1;
    c->state[WORD_T] = 1;
    /* One way counts from nought, the other comes to where a tally stops. */
    if (way == AT_START) c->tally[0] = c->tally[1] = MOST - 50;
    open_room(&c->state_room, sizeof c->state);
    open_room(&c->storage_room, STORAGE);
    open_room(&c->tally_room, sizeof c->tally);
    open_room(&c->packet_room, CONTENTS);
    open_room(&c->buffer_room, CONTENTS);
    open_room(&c->bits_room, CONTENTS);
    open_room(&c->errors_room, CONTENTS);
    open_room(&c->name_room, 8);
    open_room(&c->versions.room, sizeof c->versions.entries);
    open_room(&c->numbers.room, sizeof c->numbers.entries);
    return c;
}
