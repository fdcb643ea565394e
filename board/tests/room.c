/* See room.h. Assumes mmap and mprotect, which a Linux has. */
#define _DEFAULT_SOURCE
#include "room.h"

#include <stdio.h>
#include <stdlib.h>
#include <string.h>
#include <sys/mman.h>
#include <unistd.h>

/* What the rest of a room is filled with. */
enum { MARK = 0xC3 };

static void need(bool good, const char *what) {
    if (good) return;
    perror(what);
    exit(2);
}

void open_room(struct room *room, size_t least) {
    size_t page = (size_t)sysconf(_SC_PAGESIZE);
    size_t size = (least + page - 1) / page * page;
    uint8_t *low = mmap(NULL, size + 2 * page, PROT_NONE, MAP_PRIVATE | MAP_ANONYMOUS, -1, 0);
    need(low != MAP_FAILED, "mmap");
    *room = (struct room){.low = low + page, .size = size};
    need(mprotect(room->low, size, PROT_READ | PROT_WRITE) == 0, "mprotect");
}

void *lend(struct room *room, enum way way, const void *octets, size_t length) {
    if (length > room->size) {
        fprintf(stderr, "a room of %zu octets is to hold %zu\n", room->size, length);
        exit(2);
    }
    room->at = way == AT_START ? room->low : room->low + room->size - length;
    room->length = length;
    room->constant = false;
    memset(room->low, MARK, room->size);
    if (length > 0) memcpy(room->at, octets, length);
    return room->at;
}

const void *lend_constant(struct room *room, enum way way, const void *octets, size_t length) {
    lend(room, way, octets, length);
    room->constant = true;
    need(mprotect(room->low, room->size, PROT_READ) == 0, "mprotect");
    return room->at;
}

bool same(const struct room *room, const void *octets) {
    return room->length == 0 || memcmp(room->at, octets, room->length) == 0;
}

static bool marked(const uint8_t *octets, size_t length) {
    if (length == 0) return true;
    return octets[0] == MARK && memcmp(octets, octets + 1, length - 1) == 0;
}

bool take_back(struct room *room, void *octets) {
    if (room->constant) need(mprotect(room->low, room->size, PROT_READ | PROT_WRITE) == 0, "mprotect");
    if (octets && room->length > 0) memcpy(octets, room->at, room->length);
    size_t before = (size_t)(room->at - room->low);
    const uint8_t *behind = room->at + room->length;
    return marked(room->low, before) && marked(behind, room->size - before - room->length);
}
