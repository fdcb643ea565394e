/* Makes the sections octet after octet, so that what a side reads and what it must write is the work of no side. */
#include "sections.h"

#include <stdio.h>
#include <stdlib.h>
#include <string.h>

enum { NAME = 8, UNTOUCHED = 0xee };

/* what is given, the same in each round but for the name */
static uint8_t bits[SECTION], options[SECTION];
static uint16_t errors[2 * MOST_ERRORS];
static uint8_t refusal;
static struct parts *given;
static uint8_t (*names)[NAME];
/* the sections, one behind the other */
static uint8_t *octets;

/* what a side answered and wrote */
static struct adp_fault *faults;
static struct shown *pages;
static struct adp_written *answers;
static uint8_t *buffers;

static void *room_for(size_t count, size_t size) {
    void *room = calloc(count, size);
    if (room == NULL) {
        fprintf(stderr, "bench: no memory\n");
        exit(1);
    }
    return room;
}

/* ---- sections */

static uint8_t *put(uint8_t *at, size_t width, uint32_t number) {
    for (size_t i = 0; i < width; i++) at[i] = (uint8_t)(number >> 8 * (width - 1 - i));
    return at + width;
}

static uint8_t *put_all(uint8_t *at, const uint8_t *from, size_t count) {
    memcpy(at, from, count);
    return at + count;
}

/* The section of these parts, octet after octet. */
static void put_section(uint8_t *at, const struct parts *p) {
    at = put(at, 4, p->modules);
    at = put_all(at, p->bits, p->octets);
    at = put(at, 4, (uint32_t)p->numbers / 2);
    at = put_all(at, p->name, NAME);
    for (size_t i = 0; i < p->numbers; i++) at = put(at, 2, p->errors[i]);
    at = put(at, 4, (uint32_t)p->length);
    put_all(at, p->options, p->length);
}

void sections_prepare(uint32_t modules, uint32_t count, uint8_t number, unsigned rounds) {
    size_t size = (modules + 31) / 32 * 4, length = SECTION - 20 - size - 4 * count;
    refusal = number;
    for (uint32_t x = 0; x < modules; x++)
        if (x * x % 7 < 3) bits[x / 8] |= (uint8_t)(1u << x % 8);
    for (uint32_t k = 0; k < count; k++) {
        errors[2 * k] = (uint16_t)(1 + k * 7919 % 65535);
        errors[2 * k + 1] = (uint16_t)(k * 40503);
    }
    if (number == 24) errors[2 * count - 2] = 0;
    for (size_t i = 0; i < sizeof options; i++) options[i] = (uint8_t)(i * 7 + i / 251);
    given = room_for(rounds, sizeof *given);
    names = room_for(rounds, sizeof *names);
    octets = room_for(rounds, SECTION);
    for (unsigned i = 0; i < rounds; i++) {
        for (unsigned j = 0; j < NAME; j++) names[i][j] = (uint8_t)(i * 31 + j * 7 + 1);
        given[i] = (struct parts){modules, bits, size, errors, 2 * count, names[i], options, length};
        put_section(octets + (size_t)i * SECTION, &given[i]);
    }
    faults = room_for(rounds, sizeof *faults);
    pages = room_for(rounds, sizeof *pages);
    answers = room_for(rounds, sizeof *answers);
    buffers = room_for(rounds, SECTION);
}

/* ---- a side */

static size_t room(void) { return SECTION - (refusal == 23); }

void sections_run(enum sections what, const struct section_calls *side, unsigned rounds) {
    if (what == READ) side->reads(octets, SECTION, rounds, faults);
    if (what == SHOWN) side->shows(octets, SECTION, rounds, pages);
    if (what == WRITTEN) side->writes(given, rounds, buffers, room(), answers);
}

static bool read_right(const struct adp_fault *f, const struct parts *p) {
    static const uint8_t no_name[NAME];
    if (refusal != 0)
        return f->number == refusal && f->modules == 0 && f->errors == 0 && f->options == 0 &&
               memcmp(f->name, no_name, NAME) == 0;
    return f->number == 0 && f->modules == p->modules && f->errors == p->numbers / 2 && f->options == p->length &&
           memcmp(f->name, p->name, NAME) == 0;
}

static bool shown_right(const struct shown *s, const struct parts *p) {
    if (!read_right(&s->fault, p)) return false;
    for (size_t k = 0; k < p->numbers / 2; k++)
        if (s->errors[k].module != p->errors[2 * k] || s->errors[k].error != p->errors[2 * k + 1]) return false;
    return s->options.start == (p->length == 0 ? 0 : SECTION - p->length) && s->options.length == p->length;
}

static bool written_right(unsigned i) {
    const uint8_t *buffer = buffers + i * room(), *section = octets + (size_t)i * SECTION;
    if (answers[i].number != refusal || answers[i].length != (refusal == 0 ? SECTION : 0)) return false;
    if (refusal == 0) return memcmp(buffer, section, SECTION) == 0;
    for (size_t j = 0; j < room(); j++)
        if (buffer[j] != UNTOUCHED) return false;
    return true;
}

bool sections_right(enum sections what, const struct section_calls *side, unsigned rounds) {
    memset(faults, UNTOUCHED, rounds * sizeof *faults);
    memset(pages, UNTOUCHED, rounds * sizeof *pages);
    memset(answers, UNTOUCHED, rounds * sizeof *answers);
    memset(buffers, UNTOUCHED, (size_t)rounds * SECTION);
    sections_run(what, side, rounds);
    for (unsigned i = 0; i < rounds; i++) {
        if (what == READ && !read_right(&faults[i], &given[i])) return false;
        if (what == SHOWN && !shown_right(&pages[i], &given[i])) return false;
        if (what == WRITTEN && !written_right(i)) return false;
    }
    return true;
}
