/* Rooms between two inaccessible pages. What a call is lent lies in one, with its end against the page behind or with
 * its start behind the page before: one octet further, read or written, ends the run by a signal. */
#ifndef ROOM_H
#define ROOM_H

#include <stdbool.h>
#include <stddef.h>
#include <stdint.h>

enum way { AT_END, AT_START };

struct room {
    uint8_t *low;  /* whole pages that may be touched, and how many octets they are */
    size_t size;
    uint8_t *at;   /* what is lent now */
    size_t length;
    bool constant;
};

/* Says why and ends the run where the system gives no pages. */
void open_room(struct room *room, size_t least);

/* Lends a copy of these octets. */
void *lend(struct room *room, enum way way, const void *octets, size_t length);

/* The same, in pages that are read-only until they are taken back. */
const void *lend_constant(struct room *room, enum way way, const void *octets, size_t length);

/* Whether what is lent is still these octets. */
bool same(const struct room *room, const void *octets);

/* Copies what was lent back to these octets, or to nowhere, and answers whether the rest of the room is untouched. */
bool take_back(struct room *room, void *octets);

#endif
