/* The receiver and the cutter of ADP R3.0, and the fault section of its alive signals, for a board whose sockets are C;
 * C99 or C++. board/build makes the archive to link, target/staticlib/libboard.a; it needs memcpy, memmove and memset
 * from the C library and nothing else. Numbers and words are those of docs/PROMISES.md.
 *
 * The library has no globals, no heap and no threads: a call reads and writes only what is lent to it, and keeps
 * nothing of it. Calls on different states may run at the same time; calls on one state must not.
 *
 * What the caller sees to:
 * - What is lent to one call must not overlap. A pointer may be NULL where its length is 0.
 * - Between calls the caller leaves a state, and the storage that goes with it, as the last call left them.
 * - A delivered message is not copied out. Its octets stay where they are until the next call on that state; where they
 *   lie in the packet, until the packet's memory is used again. */
#ifndef ADP_H
#define ADP_H

#include <stdbool.h>
#include <stddef.h>
#include <stdint.h>

#ifdef __cplusplus
extern "C" {
#endif

enum {
    ADP_STATE_WORDS = 167, /* words of 64 bits that a state has */
    ADP_SENDERS = 16,      /* the most senders */
    ADP_GROUPS = 8,        /* the most groups */
    ADP_PRIORITIES = 8,    /* entries of each sender and group in the tables of adp_multicast */
    ADP_AREA = 16384,      /* octets of storage for each sender, and the most octets of a message */
    ADP_HEADER = 64,       /* octets before a piece in its PDU */
    ADP_LONGEST = 1460,    /* the most octets of a message's PDU */
    ADP_ALIVE = 128,       /* octets before the fault section in an alive signal's PDU */
    ADP_LONGEST_ALIVE = 1472,
    ADP_LONGEST_GROUP = 1472, /* the most octets of a PDU to a group */
    ADP_LONGEST_FAULT = 1344, /* the most octets of a fault section */
    ADP_LEAST_UNIT = 256,     /* the least and the most octets of a piece but the last */
    ADP_MOST_UNIT = 1396
};

/* What a call answers. A refusal, 9 or more, changes nothing that was lent; but see adp_setup, and the tally. */
enum {
    ADP_DONE = 0,         /* stored, done or written */
    ADP_DELIVERED = 1,    /* a message is complete, and handed over */
    ADP_BAD_STATE = 9,    /* the words are no state, or one outside its limits: was adp_setup called? */
    ADP_BAD_SETUP = 10,   /* settings outside their limits, or not ADP_STATE_WORDS words */
    ADP_BAD_STORAGE = 11, /* not ADP_AREA octets for each sender */
    ADP_BAD_LENGTH = 12,  /* a PDU too short, too long, or of another length than its BSIZE */
    ADP_BAD_HEADER = 13,  /* a fixed field, PRI, MODE, the code or SEQ out of range */
    ADP_UNKNOWN = 14,     /* sender not registered */
    ADP_TEST_MODE = 15,   /* a test message at an online node */
    ADP_BAD_CUT = 16,     /* no message can be cut so */
    ADP_REPEAT = 17,      /* delivered before */
    ADP_OLDER = 18,       /* the open message has the same version and a newer number: 1 to 1,073,741,823 on from this
                           * one, where 1 comes behind 2,147,483,647 */
    ADP_UNLIKE = 19,      /* same version and number as the open message, another code, length or cut */
    ADP_HELD = 20,        /* the piece is held already; whether its octets are the same is not compared */
    ADP_BAD_CLOCK = 21,   /* the clock goes back, or above its limit of 1,099,511,627,776 ms */
    ADP_BAD_ALIVE = 22,   /* an alive signal whose ML, CBN, TBN, group or body is wrong */
    ADP_BAD_PIECE = 23,   /* cutter: length, unit, piece number or a header value outside limits, or the buffer short;
                           * or a buffer too short for a fault section */
    ADP_BAD_FAULT = 24,   /* octets that are no fault section, or parts of which none can be written */
    ADP_NO_GROUP = 25,    /* group not registered */
    ADP_BAD_TABLES = 26   /* a table not of senders * groups * ADP_PRIORITIES entries, or anywhere in the two a number
                           * above 2,147,483,647, or 0 under a version not 0 */
};

/* What the number check says of a delivered message. */
enum { ADP_FIRST = 1, ADP_NEXT = 2, ADP_RESTART = 3, ADP_GAP = 4, ADP_UNCHECKED = 5 };

/* Which of the lent octets hold a delivered message. */
enum { ADP_IN_NOTHING = 0, ADP_IN_PACKET = 1, ADP_IN_STORAGE = 2 };

/* A sender: data field 1 to 255, node 1 to 4,095. */
struct adp_address {
    uint8_t field;
    uint16_t node;
};

/* Groups: 1 to 255 each, none twice; places past the count are not looked at. */
struct adp_groups {
    uint8_t count; /* 0 to 8 */
    uint8_t list[ADP_GROUPS];
};

struct adp_settings {
    uint8_t mode;  /* 0 online, 1 test */
    uint16_t n1;   /* 1 to 1,024: how far back a number is a repeat */
    uint32_t t;    /* 1 to 600,000: the age in ms at which an open message is dropped */
    uint8_t count; /* 1 to 16 senders, no pair twice; places past the count are not looked at */
    struct adp_address senders[ADP_SENDERS];
    struct adp_groups groups;
};

/* In this answer and the three below it, what says nothing is 0: on a refusal all but the number, and the age of a
 * repeat; slice, start and length where nothing is delivered, skipped without a gap, sender and piece where nothing is
 * open. */
struct adp_answer {
    uint8_t number;
    uint8_t verdict;  /* of a delivery */
    uint8_t held;     /* pieces then held for the PDU's sender, 0 after a delivery; a refusal leaves what is held */
    uint8_t slice;    /* of a delivery: where its `length` octets lie, from `start` on */
    uint32_t skipped; /* with ADP_GAP: how many numbers */
    uint32_t age;     /* with ADP_REPEAT: how far its number lies behind the last delivered one, 0 to n1 - 1. 0 is that
                       * number again: a stutter, and no sender that jumped back */
    uint32_t dropped_version, dropped_number; /* the message dropped to make room; a number of 0: none was */
    size_t start, length;
};

struct adp_ticked {
    uint8_t number;
    uint16_t dropped; /* whose open message was dropped, the first sender lowest */
    uint16_t dead;    /* who was alive and is not any more */
};

struct adp_missing {
    uint8_t number;
    bool open;      /* whether a message is open */
    uint8_t sender; /* the first sender that has one, by its place in the settings, from 0 */
    uint8_t piece;  /* its lowest missing piece, from 1 */
};

struct adp_cutting {
    uint8_t number;
    uint16_t length; /* of the PDU */
};

/* The values of 5.1 that are the same for every piece of a message. */
struct adp_given {
    uint8_t field;
    uint16_t node;
    uint32_t da, version, number, m_ctl;
    uint16_t tcd, mode;
    uint8_t pri;
};

/* What a fault section says. With ADP_BAD_FAULT all but the number is 0. */
struct adp_fault {
    uint8_t number;
    uint32_t modules, errors, options; /* how many; of the options, how many octets */
    uint8_t name[8];                   /* of the scheme that numbers the errors */
};

struct adp_error {
    uint16_t module, error; /* the module from 1 */
};

/* Where a section's options lie in it: `length` octets, from `start` on; both 0 where there are none. */
struct adp_options {
    size_t start, length;
};

struct adp_written {
    uint8_t number;
    uint16_t length; /* of the section; 0 on a refusal */
};

/* Makes ADP_STATE_WORDS words, whatever they hold, a state: nobody heard, nothing open, the clock at 0. Settings
 * outside their limits: ADP_BAD_SETUP, and the words are then the empty state, which has no senders and refuses every
 * PDU. Another number of words: ADP_BAD_SETUP, and they stay. */
uint8_t adp_setup(uint64_t *state, size_t words, struct adp_settings settings);

/* Takes a message's PDU. `storage` has ADP_AREA octets for each sender; behind setup they may hold anything. */
struct adp_answer adp_message(uint64_t *state, size_t words, uint8_t *storage, size_t room, const uint8_t *packet,
                              size_t size);

/* The same, and counts its answer: tally[0] those of 0 and 1, tally[1] refusals, each stopping at 4,294,967,295. */
struct adp_answer adp_message_tallied(uint64_t *state, size_t words, uint8_t *storage, size_t room,
                                      const uint8_t *packet, size_t size, uint32_t *tally);

/* Takes a PDU that came to a group, whose number the receiving port says: a message of one piece, which is delivered in
 * the packet or refused; nothing is held or dropped, and the state stays. `versions` and `numbers` hold what was last
 * delivered of each sender, group and priority, at (sender * groups + group) * ADP_PRIORITIES + PRI, all from 0 and in
 * the order of the settings. Both begin at 0; between calls the caller leaves them as the last call left them. */
struct adp_answer adp_multicast(const uint64_t *state, size_t words, uint32_t *versions, size_t version_entries,
                                uint32_t *numbers, size_t number_entries, uint8_t group, const uint8_t *packet,
                                size_t size);

/* Takes an alive signal's PDU. ADP_DONE says that it was taken, not that its sender is alive: by al_mode 1 the sender
 * is alive, by 2 and 3 it is dead. Behind its first ADP_ALIVE octets stands nothing, or a fault section to the end;
 * otherwise ADP_BAD_FAULT. Where there is one, adp_fault_read and the calls below it read it: the size - ADP_ALIVE
 * octets from packet + ADP_ALIVE on. */
uint8_t adp_alive(uint64_t *state, size_t words, const uint8_t *packet, size_t size);

/* Moves the time, which no other call does, in ms since setup: drops each open message without a new piece for T ms,
 * and calls dead each alive sender without a signal for its al_tm_out, in seconds. */
struct adp_ticked adp_clock(uint64_t *state, size_t words, uint64_t ms);

/* Which piece is missing? */
struct adp_missing adp_question(const uint64_t *state, size_t words);

/* How many pieces of a sender are held? For a maintenance page; the sender by its place in the settings, from 0. It
 * gives the number that the state keeps: nothing is counted and nothing refused, any words will do, and a 9 is nine
 * pieces. 0 past the senders, and where nothing is open. */
uint8_t adp_held(const uint64_t *state, size_t words, uint8_t place);

/* Writes the PDU of one piece, from 1, of a message cut into pieces of `u` octets. Octets behind the PDU stay.
 * The buffer may be slow shared memory: each octet of the PDU is stored once, from the first to the last, and nothing
 * of the buffer is read; a refusal stores nothing (bench/stores shows that of the archive). */
struct adp_cutting adp_cut(struct adp_given given, const uint8_t *message, size_t length, uint16_t u, uint8_t piece,
                           uint8_t *buffer, size_t room);

/* Reads a fault section, which is all of these octets: ADP_DONE, or ADP_BAD_FAULT. Only this call judges. The three
 * below it give what stands at the places that the counts in the octets name, in a section or not; an octet past the
 * end counts as 0. */
struct adp_fault adp_fault_read(const uint8_t *section, size_t size);

/* Whether module `x`, from 1, is dead. Module 0, and one above the count, is alive. */
bool adp_fault_dead(const uint8_t *section, size_t size, uint32_t x);

/* The error of an index, from 0. Past the count it is 0, 0. */
struct adp_error adp_fault_error(const uint8_t *section, size_t size, uint32_t index);

/* Where the options lie, cut to what was lent. */
struct adp_options adp_fault_options(const uint8_t *section, size_t size);

/* Writes a fault section. `bits` has (modules + 31) / 32 * 4 octets; module X is dead where bit (X - 1) % 8, lowest
 * first, of octet (X - 1) / 8 is set, and no bit above the count may be. `errors` has two numbers for each error, the
 * module, which is not 0, and the error. `name` has eight octets. A buffer too short for the section: ADP_BAD_PIECE,
 * before anything else. What breaks these rules, or comes to more than ADP_LONGEST_FAULT octets: ADP_BAD_FAULT. Octets
 * behind the section stay. */
struct adp_written adp_fault_write(uint32_t modules, const uint8_t *bits, size_t octets, const uint16_t *errors,
                                   size_t numbers, const uint8_t *name, const uint8_t *options, size_t length,
                                   uint8_t *buffer, size_t room);

#ifdef __cplusplus
}
#endif

#endif
