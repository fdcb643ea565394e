// include/adp.h as C++11: it compiles without a warning, and calls link and answer what they answer in C.
#include "adp.h"

#include <stdio.h>

static uint64_t state[ADP_STATE_WORDS];
static uint8_t storage[ADP_AREA], pdu[ADP_LONGEST];
static uint32_t versions[ADP_PRIORITIES], numbers[ADP_PRIORITIES];

static adp_settings one_sender_and_group() {
    adp_settings settings = adp_settings();
    settings.n1 = 16;
    settings.t = 15000;
    settings.count = 1;
    settings.senders[0].field = 1;
    settings.senders[0].node = 7;
    settings.groups.count = 1;
    settings.groups.list[0] = 5;
    return settings;
}

static adp_given header_values() {
    adp_given given = adp_given();
    given.field = 1;
    given.node = 7;
    given.version = 5;
    given.number = 100;
    given.tcd = 1;
    return given;
}

// One module, which is dead, and one error, written and read.
static bool section_comes_back() {
    const uint8_t bits[] = {1, 0, 0, 0}, name[] = {'P', 'U', 'M', 'P', 0, 0, 0, 1};
    const uint16_t errors[] = {1, 515};
    uint8_t section[ADP_LONGEST_FAULT];
    adp_written written = adp_fault_write(1, bits, sizeof bits, errors, 2, name, NULL, 0, section, sizeof section);
    adp_fault fault = adp_fault_read(section, written.length);
    adp_error error = adp_fault_error(section, written.length, 0);
    adp_options options = adp_fault_options(section, written.length);
    bool read = written.number == ADP_DONE && written.length == 28 && fault.number == ADP_DONE && fault.modules == 1;
    bool counted = fault.errors == 1 && fault.options == 0 && fault.name[3] == 'P' && fault.name[7] == 1;
    bool dead = adp_fault_dead(section, written.length, 1) && !adp_fault_dead(section, written.length, 2);
    return read && counted && dead && error.module == 1 && error.error == 515 && options.length == 0;
}

static adp_answer to_group(uint8_t group, size_t size) {
    return adp_multicast(state, ADP_STATE_WORDS, versions, ADP_PRIORITIES, numbers, ADP_PRIORITIES, group, pdu, size);
}

// The PDU comes to the group, and to one that is not registered.
static bool group_hears(size_t size) {
    adp_answer a = to_group(5, size), other = to_group(6, size);
    bool delivered = a.number == ADP_DELIVERED && a.verdict == ADP_FIRST && a.slice == ADP_IN_PACKET && a.length == 3;
    return delivered && versions[0] == 5 && numbers[0] == 100 && other.number == ADP_NO_GROUP;
}

int main() {
    const uint8_t message[] = {7, 8, 9};
    unsigned number = adp_setup(state, ADP_STATE_WORDS, one_sender_and_group());
    adp_cutting cutting = adp_cut(header_values(), message, sizeof message, ADP_LEAST_UNIT, 1, pdu, sizeof pdu);
    adp_answer a = adp_message(state, ADP_STATE_WORDS, storage, sizeof storage, pdu, cutting.length);
    bool delivered = number == ADP_DONE && cutting.number == ADP_DONE && a.number == ADP_DELIVERED;
    bool whole = a.verdict == ADP_FIRST && a.slice == ADP_IN_PACKET && a.length == sizeof message;
    bool section = section_comes_back(), group = group_hears(cutting.length);
    if (delivered && whole && pdu[a.start] == 7 && pdu[a.start + 2] == 9 && section && group) return 0;
    fprintf(stderr, "header: setup %u, cutter %u, message %u, section %d, group %d\n", number, cutting.number, a.number,
            section, group);
    return 1;
}
