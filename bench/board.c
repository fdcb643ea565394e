/* The nights through the calls of include/adp.h, as a board makes them: the state is words of the caller's, and each
 * packet, each piece and each section is one call into the archive, which is linked, not compiled in. It takes and
 * answers what the other two sides do, and assumes as they do that the packets lie one behind the other. */
#include "twin.h"

/* Setup, for the nodes 1 to `senders` of data field 1 and the groups 1 to `groups`. A refused one leaves the empty
 * state, as on the other sides. */
static void begin(uint64_t *state, uint8_t mode, uint16_t n1, uint32_t t, uint8_t senders, uint8_t groups) {
    struct adp_settings settings = {.mode = mode, .n1 = n1, .t = t, .count = senders, .groups.count = groups};
    for (unsigned i = 0; i < ADP_SENDERS; i++) {
        settings.senders[i].field = 1;
        settings.senders[i].node = (uint16_t)(i + 1);
    }
    for (unsigned i = 0; i < ADP_GROUPS; i++) settings.groups.list[i] = (uint8_t)(i + 1);
    adp_setup(state, ADP_STATE_WORDS, settings);
}

/* Packet after packet. */
static uint64_t run(uint64_t *state, const uint8_t *packets, size_t octets, const uint16_t *sizes, size_t count,
                    uint8_t *storage, size_t room) {
    uint64_t sum = 0;
    size_t at = 0;
    for (size_t i = 0; i < count; i++) {
        size_t size = sizes[i] < octets - at ? sizes[i] : octets - at;
        struct adp_answer a = adp_message(state, ADP_STATE_WORDS, storage, room, packets + at, size);
        sum += (a.number > ADP_DELIVERED ? a.number : a.verdict) + a.age + a.held * 256ull + a.length;
        at += size;
    }
    return sum;
}

uint64_t board_night(uint8_t mode, uint16_t n1, uint32_t t, uint8_t senders, const uint8_t *packets, size_t octets,
                     const uint16_t *sizes, size_t count, uint8_t *storage, size_t room) {
    uint64_t state[ADP_STATE_WORDS];
    begin(state, mode, n1, t, senders, 0);
    return run(state, packets, octets, sizes, count, storage, room);
}

uint64_t board_pages(uint8_t mode, uint16_t n1, uint32_t t, uint8_t senders, const uint8_t *packets, size_t octets,
                     const uint16_t *sizes, size_t count, uint8_t *storage, size_t room, const uint8_t *places,
                     size_t asked) {
    uint64_t state[ADP_STATE_WORDS], sum = 0;
    begin(state, mode, n1, t, senders, 0);
    run(state, packets, octets, sizes, count, storage, room);
    for (size_t i = 0; i < asked; i++) sum += adp_held(state, ADP_STATE_WORDS, places[i]);
    return sum;
}

uint64_t board_casts(uint8_t mode, uint16_t n1, uint32_t t, uint8_t senders, uint8_t groups, const uint8_t *packets,
                     size_t octets, const uint16_t *sizes, const uint8_t *to, size_t count, uint32_t *versions,
                     uint32_t *numbers, size_t entries) {
    uint64_t state[ADP_STATE_WORDS], sum = 0;
    size_t at = 0;
    begin(state, mode, n1, t, senders, groups);
    for (size_t i = 0; i < count; i++) {
        size_t size = sizes[i] < octets - at ? sizes[i] : octets - at;
        struct adp_answer a =
            adp_multicast(state, ADP_STATE_WORDS, versions, entries, numbers, entries, to[i], packets + at, size);
        sum += (a.number > ADP_DELIVERED ? a.number : a.verdict) + a.age + a.held * 256ull + a.length;
        at += size;
    }
    return sum;
}

uint64_t board_cuts(uint32_t number, const uint8_t *message, size_t n, uint16_t u, uint8_t last, uint8_t *buffer,
                    size_t room) {
    struct adp_given given = {.field = 1, .node = 1, .version = 1, .number = number, .tcd = 1};
    uint64_t sum = 0;
    for (unsigned c = 1; c <= last; c++) {
        struct adp_cutting cutting = adp_cut(given, message, n, u, (uint8_t)c, buffer, room);
        sum += (uint64_t)cutting.number + cutting.length;
    }
    return sum;
}

void board_reads(const uint8_t *sections, size_t size, size_t count, struct adp_fault *answers) {
    for (size_t i = 0; i < count; i++) answers[i] = adp_fault_read(sections + i * size, size);
}

/* One call for each error, and one for the options. */
void board_shows(const uint8_t *sections, size_t size, size_t count, struct shown *answers) {
    for (size_t i = 0; i < count; i++) {
        const uint8_t *section = sections + i * size;
        struct shown *a = &answers[i];
        a->fault = adp_fault_read(section, size);
        if (a->fault.number != ADP_DONE) continue;
        for (uint32_t k = 0; k < a->fault.errors; k++) a->errors[k] = adp_fault_error(section, size, k);
        a->options = adp_fault_options(section, size);
    }
}

void board_writes(const struct parts *given, size_t count, uint8_t *buffers, size_t room, struct adp_written *answers) {
    for (size_t i = 0; i < count; i++) {
        const struct parts *p = &given[i];
        answers[i] = adp_fault_write(p->modules, p->bits, p->octets, p->errors, p->numbers, p->name, p->options,
                                     p->length, buffers + i * room, room);
    }
}
