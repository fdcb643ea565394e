/* The calls of the fault section, and sections behind alive signals. What must come back follows from 02's item 2 and
 * from adp.h, and is written out here; the longer sections are laid by section.h.
 *
 *   fault SEED      the sections that are made by chance follow from SEED
 *
 * Each call is made twice, with all that it is lent against the one and against the other inaccessible page, what is
 * lent as const in read-only pages; those with NULL, or with a buffer that is never written, once. It prints how many
 * calls it made. */
#define _DEFAULT_SOURCE
#include "adp.h"
#include "room.h"
#include "section.h"
#include "signals.h"

#include <inttypes.h>
#include <stdio.h>
#include <stdlib.h>
#include <string.h>
#include <sys/mman.h>

enum { ROOM = 4096 };

static struct room section_room, bits_room, errors_room, name_room, options_room, buffer_room;
static unsigned long made;

static void need(bool good, const char *name, const char *what) {
    if (good) return;
    fprintf(stderr, "fault: %s: %s\n", name, what);
    exit(1);
}

static void need_number(uint64_t got, uint64_t wanted, const char *name, const char *what) {
    if (got == wanted) return;
    fprintf(stderr, "fault: %s: %s is %" PRIu64 ", not %" PRIu64 "\n", name, what, got, wanted);
    exit(1);
}

/* ---- what is read */

static const uint8_t *lend_section(enum way way, const struct section *s) {
    return lend_constant(&section_room, way, s->octets, s->length);
}

static void take_section(const char *name) {
    need(take_back(&section_room, NULL), name, "octets beside the section change");
    made++;
}

static void report_is(const char *name, struct adp_fault got, struct adp_fault wanted) {
    need_number(got.number, wanted.number, name, "the number read");
    need_number(got.modules, wanted.modules, name, "the count of modules");
    need_number(got.errors, wanted.errors, name, "the count of errors");
    need_number(got.options, wanted.options, name, "the count of options");
    need(memcmp(got.name, wanted.name, sizeof wanted.name) == 0, name, "another name is read");
}

static void reads(const char *name, const struct section *s, struct adp_fault wanted) {
    for (int way = AT_END; way <= AT_START; way++) {
        struct adp_fault got = adp_fault_read(lend_section((enum way)way, s), s->length);
        take_section(name);
        report_is(name, got, wanted);
    }
}

/* 24, and nothing more. */
static void refuses(const char *name, const struct section *s) {
    reads(name, s, (struct adp_fault){.number = 24});
}

static void dead_is(const char *name, const struct section *s, uint32_t x, bool dead) {
    for (int way = AT_END; way <= AT_START; way++) {
        bool got = adp_fault_dead(lend_section((enum way)way, s), s->length, x);
        take_section(name);
        need_number(got, dead, name, "whether a module is dead");
    }
}

static void error_is(const char *name, const struct section *s, uint32_t index, unsigned module, unsigned error) {
    for (int way = AT_END; way <= AT_START; way++) {
        struct adp_error got = adp_fault_error(lend_section((enum way)way, s), s->length, index);
        take_section(name);
        need_number(got.module, module, name, "an error's module");
        need_number(got.error, error, name, "an error");
    }
}

static void options_are(const char *name, const struct section *s, size_t start, size_t length) {
    for (int way = AT_END; way <= AT_START; way++) {
        struct adp_options got = adp_fault_options(lend_section((enum way)way, s), s->length);
        take_section(name);
        need_number(got.start, start, name, "where the options start");
        need_number(got.length, length, name, "the options' length");
    }
}

/* What these calls read of octets that are lent, as parts. */
static struct parts read_parts(const char *name, const uint8_t *lent, size_t size) {
    struct adp_fault report = adp_fault_read(lent, size);
    struct adp_options options = adp_fault_options(lent, size);
    need_number(report.number, 0, name, "the number read");
    need(report.modules <= 8 * MOST_BITS && report.errors <= MOST_NUMBERS / 2, name, "counts that nobody wrote");
    struct parts p = {.modules = report.modules, .octets = octets_for(report.modules), .numbers = 2 * report.errors};
    memcpy(p.name, report.name, sizeof p.name);
    for (uint32_t x = 1; x <= p.modules; x++)
        if (adp_fault_dead(lent, size, x)) set_dead(&p, x);
    for (uint32_t k = 0; k < report.errors; k++) {
        struct adp_error error = adp_fault_error(lent, size, k);
        p.errors[2 * k] = error.module;
        p.errors[2 * k + 1] = error.error;
    }
    need_number(options.length, report.options, name, "the options' length");
    need(options.length <= MOST_OPTIONS && options.length <= size, name, "options that nobody wrote");
    need_number(options.start, options.length == 0 ? 0 : size - options.length, name, "where the options start");
    p.length = options.length;
    if (options.length > 0) memcpy(p.options, lent + options.start, options.length);
    made += 2 + p.modules + report.errors;
    return p;
}

static void same_parts(const char *name, const struct parts *got, const struct parts *wanted) {
    need_number(got->modules, wanted->modules, name, "the count of modules");
    need_number(got->octets, wanted->octets, name, "the octets of bits");
    need(memcmp(got->bits, wanted->bits, sizeof got->bits) == 0, name, "another module is dead");
    need_number(got->numbers, wanted->numbers, name, "twice the count of errors");
    need(memcmp(got->errors, wanted->errors, sizeof got->errors) == 0, name, "another error is read");
    need(memcmp(got->name, wanted->name, sizeof got->name) == 0, name, "another name is read");
    need_number(got->length, wanted->length, name, "the count of options");
    need(memcmp(got->options, wanted->options, sizeof got->options) == 0, name, "other options are read");
}

/* All of it, and nothing past the counts. */
static void reads_back(const char *name, const struct section *s, const struct parts *wanted) {
    for (int way = AT_END; way <= AT_START; way++) {
        struct parts got = read_parts(name, lend_section((enum way)way, s), s->length);
        take_section(name);
        same_parts(name, &got, wanted);
    }
    const uint32_t past[] = {1, 2, 8, 32};
    dead_is(name, s, 0, false);
    dead_is(name, s, UINT32_MAX, false);
    for (size_t i = 0; i < sizeof past / sizeof *past; i++) {
        dead_is(name, s, wanted->modules + past[i], false);
        error_is(name, s, (uint32_t)wanted->numbers / 2 + past[i] - 1, 0, 0);
    }
    error_is(name, s, UINT32_MAX, 0, 0);
}

/* ---- what is written */

static void take_parts(const char *name) {
    need(take_back(&bits_room, NULL), name, "octets beside the bits change");
    need(take_back(&errors_room, NULL), name, "octets beside the errors change");
    need(take_back(&name_room, NULL), name, "octets beside the name change");
    need(take_back(&options_room, NULL), name, "octets beside the options change");
    made++;
}

static struct adp_written write_parts(const struct parts *p, enum way way, uint8_t *buffer, size_t room) {
    const uint8_t *bits = lend_constant(&bits_room, way, p->bits, p->octets);
    const uint16_t *errors = lend_constant(&errors_room, way, p->errors, p->numbers * sizeof *p->errors);
    const uint8_t *given = lend_constant(&name_room, way, p->name, sizeof p->name);
    const uint8_t *options = lend_constant(&options_room, way, p->options, p->length);
    return adp_fault_write(p->modules, bits, p->octets, errors, p->numbers, given, options, p->length, buffer, room);
}

/* Answers this number for a buffer of so many octets; these octets are then written, none on a refusal, and all others
 * stay. */
static void writes(const char *name, const struct parts *p, size_t room, unsigned number, const struct section *s) {
    for (int way = AT_END; way <= AT_START; way++) {
        uint8_t wanted[ROOM];
        memset(wanted, way == AT_END ? 170 : 85, sizeof wanted);
        uint8_t *buffer = lend(&buffer_room, (enum way)way, wanted, room);
        struct adp_written got = write_parts(p, (enum way)way, buffer, room);
        take_parts(name);
        need_number(got.number, number, name, "the number of the write");
        need_number(got.length, number == 0 ? s->length : 0, name, "the length that was written");
        if (number == 0) memcpy(wanted, s->octets, s->length);
        bool good = same(&buffer_room, wanted);
        need(good, name, number == 0 ? "other octets are written" : "a refusal changes the buffer");
        need(take_back(&buffer_room, NULL), name, "octets beside the buffer change");
    }
}

/* It fits from so many octets on. */
static void fits(const char *name, const struct parts *p, const struct section *s) {
    writes(name, p, s->length, 0, s);
    writes(name, p, s->length + 1, 0, s);
    writes(name, p, ROOM, 0, s);
    writes(name, p, s->length - 1, 23, s);
    writes(name, p, 0, 23, s);
}

/* Parts that break a rule and need so many octets: 23 comes before 24. */
static void breaks(const char *name, const struct parts *p, size_t needed) {
    writes(name, p, needed, 24, NULL);
    writes(name, p, needed + 1, 24, NULL);
    writes(name, p, ROOM, 24, NULL);
    writes(name, p, needed - 1, 23, NULL);
}

/* ---- one by hand */

static void test_structs(void) {
    const char *name = "the structs";
    need(sizeof(struct adp_fault) == 24 && offsetof(struct adp_fault, modules) == 4, name, "adp_fault");
    need(offsetof(struct adp_fault, errors) == 8 && offsetof(struct adp_fault, options) == 12, name, "adp_fault");
    need(offsetof(struct adp_fault, name) == 16, name, "adp_fault");
    need(sizeof(struct adp_error) == 4 && offsetof(struct adp_error, error) == 2, name, "adp_error");
    need(sizeof(struct adp_options) == 16 && offsetof(struct adp_options, length) == 8, name, "adp_options");
    need(sizeof(struct adp_written) == 4 && offsetof(struct adp_written, length) == 2, name, "adp_written");
}

static void test_by_hand(void) {
    const char *name = "by hand";
    struct parts p = parts_by_hand();
    reads(name, &BY_HAND, (struct adp_fault){0, 33, 2, 3, {'P', 'U', 'M', 'P', 0, 0, 0, 1}});
    for (uint32_t x = 0; x <= 35; x++) dead_is(name, &BY_HAND, x, x == 1 || x == 8 || x == 9 || x == 33);
    error_is(name, &BY_HAND, 0, 1, 515);
    error_is(name, &BY_HAND, 1, 65535, 0);
    error_is(name, &BY_HAND, 2, 0, 0);
    options_are(name, &BY_HAND, 36, 3);
    reads_back(name, &BY_HAND, &p);
    fits(name, &p, &BY_HAND);
}

/* No other length is a section, down to none at all. */
static void test_lengths(void) {
    const struct section empty = {20, {0}};
    for (size_t length = 0; length <= 60; length++) {
        struct section zeros = of_length(empty, length), cut = of_length(BY_HAND, length);
        char name[40];
        snprintf(name, sizeof name, "%zu octets", length);
        if (length == 20) reads(name, &zeros, (struct adp_fault){.number = 0});
        else refuses(name, &zeros);
        if (length != 39) refuses(name, &cut);
    }
}

/* ---- both sides of the limits */

struct sizes {
    uint32_t modules;
    size_t octets, errors, options, length;
};

static void test_sizes(void) {
    const struct sizes rows[] = {
        {0, 0, 0, 0, 20}, {1, 4, 0, 0, 24}, {8, 4, 0, 0, 24}, {9, 4, 0, 0, 24}, {31, 4, 0, 0, 24}, {32, 4, 0, 0, 24},
        {33, 8, 0, 0, 28}, {64, 8, 0, 0, 28}, {65, 12, 0, 0, 32}, {33, 8, 2, 5, 41}, {0, 0, 1, 0, 24},
        {0, 0, 331, 0, 1344}, {0, 0, 330, 4, 1344}, {0, 0, 0, 1323, 1343}, {0, 0, 0, 1324, 1344},
        {10592, 1324, 0, 0, 1344}, {10560, 1320, 1, 0, 1344}, {10560, 1320, 0, 4, 1344},
    };
    for (size_t i = 0; i < sizeof rows / sizeof *rows; i++) {
        const struct sizes *r = &rows[i];
        struct parts p = example(r->modules, r->octets, r->errors, r->options);
        struct section s = section_of(&p), shorter = of_length(s, r->length - 1), longer = of_length(s, r->length + 1);
        char name[80];
        snprintf(name, sizeof name, "%" PRIu32 " modules, %zu errors, %zu octets of options", r->modules, r->errors,
                 r->options);
        need_number(s.length, r->length, name, "the length of the test's own section");
        reads_back(name, &s, &p);
        fits(name, &p, &s);
        refuses(name, &shorter);
        refuses(name, &longer);
    }
}

/* "the total of 1,344 octets decides" */
static void test_too_long(void) {
    const struct sizes rows[] = {
        {0, 0, 0, 1325, 1345}, {0, 0, 331, 1, 1345}, {0, 0, 332, 0, 1348}, {1, 4, 331, 0, 1348},
        {10593, 1328, 0, 0, 1348}, {10592, 1324, 1, 0, 1348}, {10592, 1324, 0, 1, 1345},
    };
    for (size_t i = 0; i < sizeof rows / sizeof *rows; i++) {
        struct parts p = example(rows[i].modules, rows[i].octets, rows[i].errors, rows[i].options);
        struct section s = section_of(&p);
        char name[40];
        snprintf(name, sizeof name, "%zu octets in all", rows[i].length);
        need_number(s.length, rows[i].length, name, "the length of the test's own section");
        refuses(name, &s);
        breaks(name, &p, s.length);
    }
}

/* L is 4 for each 32 modules that are begun, and no other number of octets will do. */
static void test_octets_of_bits(void) {
    const struct {
        uint32_t modules;
        size_t octets, needed;
    } rows[] = {
        {0, 1, 20}, {0, 4, 20}, {1, 0, 24}, {1, 1, 24}, {1, 3, 24}, {1, 5, 24}, {1, 8, 24}, {32, 3, 24}, {32, 5, 24},
        {32, 8, 24}, {33, 0, 28}, {33, 4, 28}, {33, 7, 28}, {33, 9, 28}, {33, 12, 28}, {10592, 1323, 1344},
        {10592, 1325, 1344},
    };
    for (size_t i = 0; i < sizeof rows / sizeof *rows; i++) {
        struct parts p = example(rows[i].modules, rows[i].octets, 0, 0);
        struct section s = section_of(&p);
        char name[60];
        snprintf(name, sizeof name, "%" PRIu32 " modules in %zu octets of bits", rows[i].modules, rows[i].octets);
        refuses(name, &s);
        breaks(name, &p, rows[i].needed);
    }
}

/* "bits above the count are written 0 and must be 0" */
static void test_bits_above(void) {
    const struct {
        uint32_t modules;
        size_t octets;
        uint32_t bits;
    } rows[] = {{1, 4, 32}, {7, 4, 32}, {8, 4, 32}, {9, 4, 32}, {31, 4, 32}, {32, 4, 32}, {33, 8, 64}, {63, 8, 64},
                {64, 8, 64}, {65, 12, 96}};
    for (size_t i = 0; i < sizeof rows / sizeof *rows; i++)
        for (uint32_t x = 1; x <= rows[i].bits; x++) {
            struct parts p = {.modules = rows[i].modules, .octets = rows[i].octets};
            set_dead(&p, x);
            struct section s = section_of(&p);
            char name[60];
            snprintf(name, sizeof name, "bit %" PRIu32 " of %" PRIu32 " modules", x, p.modules);
            dead_is(name, &s, x, x <= p.modules);
            if (x <= p.modules) {
                reads_back(name, &s, &p);
                writes(name, &p, s.length, 0, &s);
            } else {
                refuses(name, &s);
                breaks(name, &p, s.length);
            }
        }
}

/* "module, from 1": up to 65,535, above the module count too. The error's number is any. */
static void test_errors(void) {
    const struct {
        size_t number;
        uint16_t value;
        bool good;
    } rows[] = {{0, 0, false}, {2, 0, false}, {4, 0, false}, {0, 1, true}, {2, 1, true}, {4, 1, true},
                {0, 65535, true}, {2, 65535, true}, {4, 65535, true}, {1, 0, true}, {3, 0, true}, {5, 0, true},
                {1, 65535, true}, {5, 65535, true}, {0, 256, true}, {4, 256, true}};
    for (size_t i = 0; i < sizeof rows / sizeof *rows; i++) {
        struct parts p = example(2, 4, 3, 1);
        p.errors[rows[i].number] = rows[i].value;
        struct section s = section_of(&p);
        char name[60];
        snprintf(name, sizeof name, "%u as number %zu of three errors", rows[i].value, rows[i].number);
        if (rows[i].good) {
            reads_back(name, &s, &p);
            fits(name, &p, &s);
        } else {
            refuses(name, &s);
            error_is(name, &s, (uint32_t)rows[i].number / 2, 0, p.errors[rows[i].number + 1]);
            breaks(name, &p, 37);
        }
    }
}

/* An odd number of them, also where the last is 0. */
static void test_odd_numbers(void) {
    const struct {
        size_t numbers, needed;
    } rows[] = {{1, 22}, {3, 26}, {5, 30}, {661, 1342}};
    for (size_t i = 0; i < sizeof rows / sizeof *rows; i++) {
        struct parts p = example(0, 0, 331, 0);
        p.numbers = rows[i].numbers;
        breaks("an odd number of numbers", &p, rows[i].needed);
        p.errors[p.numbers - 1] = 0;
        breaks("an odd number of numbers, the last 0", &p, rows[i].needed);
    }
}

/* ---- counts that are far from what is there */

/* No sum wraps: in 32 bits, some of these would come to the 20 octets that are there. */
static void test_wrapping(void) {
    const struct section empty = {20, {0}};
    const struct {
        const char *name;
        size_t at;
        uint64_t count;
    } rows[] = {
        {"4,294,967,295 modules", 0, 4294967295}, {"4,294,967,265 modules", 0, 4294967265},
        {"4,294,967,264 modules", 0, 4294967264}, {"1,073,741,824 errors", 4, 1073741824},
        {"2,147,483,648 errors", 4, 2147483648}, {"4,294,967,295 errors", 4, 4294967295},
        {"4,294,967,295 octets of options", 16, 4294967295}, {"1 octet of options", 16, 1},
    };
    for (size_t i = 0; i < sizeof rows / sizeof *rows; i++) {
        struct section s = with_number(empty, rows[i].at, 4, rows[i].count);
        refuses(rows[i].name, &s);
        dead_is(rows[i].name, &s, 1, false);
        error_is(rows[i].name, &s, 0, 0, 0);
        options_are(rows[i].name, &s, 0, 0);
    }
}

/* A section of 4,294,967,295 modules needs 536,870,932 octets; with a word of bits less, four fewer. The buffer lies in
 * read-only pages: nothing is written there. */
static void test_most_modules(void) {
    const struct {
        uint32_t modules;
        size_t needed;
    } rows[] = {{4294967295, 536870932}, {4294967265, 536870932}, {4294967264, 536870928}};
    uint8_t *buffer = mmap(NULL, 536870932, PROT_READ, MAP_PRIVATE | MAP_ANONYMOUS | MAP_NORESERVE, -1, 0);
    need(buffer != MAP_FAILED, "the most modules", "the system gives no pages");
    for (size_t i = 0; i < sizeof rows / sizeof *rows; i++) {
        struct parts p = {.modules = rows[i].modules};
        const size_t rooms[] = {0, 19, 20, 1344, ROOM, rows[i].needed - 1};
        for (size_t j = 0; j < sizeof rooms / sizeof *rooms; j++) {
            need_number(write_parts(&p, AT_END, buffer, rooms[j]).number, 23, "the most modules", "a short write");
            take_parts("the most modules");
        }
        need_number(write_parts(&p, AT_END, buffer, rows[i].needed).number, 24, "the most modules", "a write");
        take_parts("the most modules");
    }
    munmap(buffer, 536870932);
}

/* ---- octets that are no section: all but the first call read them all the same */

static void test_other_octets(void) {
    struct section s = {20, {0}};
    const char *name = "every octet 255";
    memset(s.octets, 255, s.length);
    refuses(name, &s);
    const uint32_t dead[] = {1, 2, 127, 128}, alive[] = {0, 129, 130, 2147483648, 4294967295};
    for (size_t i = 0; i < sizeof dead / sizeof *dead; i++) dead_is(name, &s, dead[i], true);
    for (size_t i = 0; i < sizeof alive / sizeof *alive; i++) dead_is(name, &s, alive[i], false);
    error_is(name, &s, 0, 0, 0);
    options_are(name, &s, 0, 0);
    s = (struct section){24, {0, 0, 0, 1, 255, 255, 255, 255}};
    refuses("bits above the count", &s);
    for (uint32_t x = 0; x <= 33; x++) dead_is("bits above the count", &s, x, x == 1);
    s = (struct section){24, {0, 0, 0, 0, 255, 255, 255, 255, 0, 0, 0, 0, 0, 0, 0, 0, 0, 7, 0, 9, 0, 5, 0, 6}};
    name = "4,294,967,295 errors";
    refuses(name, &s);
    error_is(name, &s, 0, 7, 9);
    error_is(name, &s, 1, 5, 6);
    const uint32_t past[] = {2, 1073741823, 1073741824, 4294967294, 4294967295};
    for (size_t i = 0; i < sizeof past / sizeof *past; i++) error_is(name, &s, past[i], 0, 0);
    s = (struct section){21, {0, 0, 0, 0, 64, 0, 0, 0, 0, 0, 0, 0, 0, 0, 0, 0, 0, 0, 0, 1, 9}};
    name = "1,073,741,824 errors, and what would be options without them";
    refuses(name, &s);
    error_is(name, &s, 0, 0, 1);
    error_is(name, &s, 1, 2304, 0);
    options_are(name, &s, 0, 0);
}

/* The last error is 258 of module 65,535 here. */
static void test_cut_short(void) {
    const struct section whole = with_number(BY_HAND, 30, 2, 258);
    const struct {
        size_t length;
        unsigned module, error;
        size_t start, options;
    } rows[] = {
        {45, 65535, 258, 36, 3}, {39, 65535, 258, 36, 3}, {38, 65535, 258, 36, 2}, {37, 65535, 258, 36, 1},
        {36, 65535, 258, 0, 0}, {35, 65535, 258, 0, 0}, {32, 65535, 258, 0, 0}, {31, 65535, 256, 0, 0},
        {30, 65535, 0, 0, 0}, {29, 65280, 0, 0, 0}, {28, 0, 0, 0, 0}, {15, 0, 0, 0, 0}, {3, 0, 0, 0, 0},
    };
    for (size_t i = 0; i < sizeof rows / sizeof *rows; i++) {
        struct section s = of_length(whole, rows[i].length);
        char name[40];
        snprintf(name, sizeof name, "cut to %zu octets", rows[i].length);
        error_is(name, &s, 1, rows[i].module, rows[i].error);
        options_are(name, &s, rows[i].start, rows[i].options);
        dead_is(name, &s, 8, rows[i].length > 4);
        dead_is(name, &s, 9, rows[i].length > 5);
        dead_is(name, &s, 33, rows[i].length > 8);
    }
}

/* The option count is of octets, and there must be exactly so many. */
static void test_option_counts(void) {
    const struct {
        uint64_t count;
        size_t start, length;
    } rows[] = {{0, 0, 0}, {1, 36, 1}, {2, 36, 2}, {4, 36, 3}, {255, 36, 3}, {4294967295, 36, 3}};
    for (size_t i = 0; i < sizeof rows / sizeof *rows; i++) {
        struct section s = with_number(BY_HAND, 32, 4, rows[i].count);
        char name[60];
        snprintf(name, sizeof name, "three octets of options, and a count of %" PRIu64, rows[i].count);
        refuses(name, &s);
        options_are(name, &s, rows[i].start, rows[i].length);
    }
}

/* ---- NULL */

static void test_null(void) {
    const char *name = "NULL";
    const uint8_t given[8] = {'A', 'B', 'C', 'D', 'E', 'F', 'G', 'H'};
    const uint8_t wanted[21] = {[8] = 'A', 'B', 'C', 'D', 'E', 'F', 'G', 'H', [20] = 170};
    uint8_t buffer[21];
    memset(buffer, 170, sizeof buffer);
    report_is(name, adp_fault_read(NULL, 0), (struct adp_fault){.number = 24});
    need(!adp_fault_dead(NULL, 0, 0) && !adp_fault_dead(NULL, 0, 1), name, "a module is dead");
    struct adp_error error = adp_fault_error(NULL, 0, 0);
    need(error.module == 0 && error.error == 0, name, "there is an error");
    struct adp_options options = adp_fault_options(NULL, 0);
    need(options.start == 0 && options.length == 0, name, "there are options");
    struct adp_written got = adp_fault_write(0, NULL, 0, NULL, 0, given, NULL, 0, NULL, 0);
    need(got.number == 23 && got.length == 0, name, "a write into no buffer");
    got = adp_fault_write(1, NULL, 0, NULL, 0, given, NULL, 0, buffer, sizeof buffer);
    need(got.number == 23 && got.length == 0 && buffer[0] == 170, name, "a write of a module without its room");
    got = adp_fault_write(0, NULL, 0, NULL, 0, given, NULL, 0, buffer, sizeof buffer);
    need(got.number == 0 && got.length == 20, name, "a write of nothing but a name");
    need(memcmp(buffer, wanted, sizeof wanted) == 0, name, "other octets are written");
    made += 8;
}

/* ---- by chance */

static uint32_t chance(uint64_t *seed, uint32_t below) {
    *seed = *seed * 6364136223846793005u + 1442695040888963407u;
    return (uint32_t)((*seed >> 33) % below);
}

static struct parts parts_by_chance(uint64_t *seed) {
    uint32_t modules = chance(seed, 3) == 0 ? 0 : chance(seed, 400);
    struct parts p = {.modules = modules, .octets = octets_for(modules)};
    for (uint32_t x = 1; x <= modules; x++)
        if (chance(seed, 2) == 1) set_dead(&p, x);
    p.numbers = 2 * chance(seed, 60);
    for (size_t i = 0; i < p.numbers; i++)
        p.errors[i] = (uint16_t)(i % 2 == 0 ? 1 + chance(seed, 65535) : chance(seed, 65536));
    for (size_t i = 0; i < sizeof p.name; i++) p.name[i] = (uint8_t)chance(seed, 256);
    p.length = chance(seed, 2) == 0 ? 0 : chance(seed, 300);
    for (size_t i = 0; i < p.length; i++) p.options[i] = (uint8_t)chance(seed, 256);
    return p;
}

/* What is read are the parts, and writing the parts gives the same octets. */
static void test_chance(uint64_t seed) {
    for (int i = 0; i < 200; i++) {
        struct parts p = parts_by_chance(&seed);
        struct section s = section_of(&p), shorter = of_length(s, s.length - 1), longer = of_length(s, s.length + 1);
        char name[40];
        snprintf(name, sizeof name, "section %d by chance", i);
        reads_back(name, &s, &p);
        fits(name, &p, &s);
        refuses(name, &shorter);
        refuses(name, &longer);
    }
}

static void open_rooms(void) {
    struct room *rooms[] = {&section_room, &bits_room, &errors_room, &name_room, &options_room, &buffer_room};
    for (size_t i = 0; i < sizeof rooms / sizeof *rooms; i++) open_room(rooms[i], ROOM);
}

int main(int count, char **words) {
    if (count != 2) {
        fprintf(stderr, "usage: fault SEED\n");
        return 2;
    }
    open_rooms();
    test_structs();
    test_by_hand();
    test_lengths();
    test_sizes();
    test_too_long();
    test_octets_of_bits();
    test_bits_above();
    test_errors();
    test_odd_numbers();
    test_wrapping();
    test_most_modules();
    test_other_octets();
    test_cut_short();
    test_option_counts();
    test_null();
    test_chance(strtoull(words[1], NULL, 10));
    test_signals();
    printf("%lu\n", made + signal_calls());
    return 0;
}
