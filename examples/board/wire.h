/* What the desk, the proxy and the raft share: PDUs on a stream, numbers in octets, and sockets on loopback.
 *
 * Every socket made here is non-blocking, and nothing here waits, connecting apart: the caller asks `poll` which socket
 * can go on, calls, and asks again. A stream's failure is an event that is handed back; only what does not fail on a
 * sound machine (no socket, no port, no clock) ends the program. */
#ifndef WIRE_H
#define WIRE_H

#include "adp.h"

#include <stdbool.h>
#include <stddef.h>
#include <stdint.h>

/* Where the fields stand that the programs themselves look at or write (docs/HEADER.md); all else is the library's. */
enum {
    H_TYPE = 0, ML = 4, FIELD = 9, NODE = 10, DA = 12, V_SEQ = 16, SEQ = 20, TCD = 40, PVER = 54, PRI = 55, CBN = 56,
    TBN = 57, BSIZE = 58,
    AL_ND_NAME = 64, AL_TM_OUT = 84, AL_MSGSERNO = 88, AL_MODE = 90, AL_PROTOCOL = 91, AL_VER = 105
};

/* What has become of a stream after a step. */
enum event {
    WHOLE,       /* a PDU is whole, or is sent */
    WAITING,     /* `poll` will tell when there is more to do */
    ENDED,       /* the other side closed it behind a PDU */
    CUT_OFF,     /* the other side closed it within a PDU */
    OUT_OF_STEP, /* no PDU begins where one should */
    FAILED       /* errno says why */
};

/* One PDU on its way in. `have` is set to 0 when it was used, and the next one may come. */
struct inlet {
    int fd;
    size_t have;
    uint8_t octets[ADP_LONGEST];
};

/* One PDU on its way out. */
struct outlet {
    int fd;
    size_t length, sent;
    uint8_t octets[ADP_LONGEST];
};

/* Numbers of 1, 2 or 4 octets, high octet first. */
uint32_t number_at(const uint8_t *octets, size_t size);
void lay_number(uint8_t *octets, size_t size, uint32_t value);

/* Whether a PDU begins with these ADP_HEADER octets: "NUXM", and a BSIZE that a message's PDU can have. */
bool in_step(const uint8_t *header);

/* Reads on until a PDU is whole, and never past its end: what comes behind it stays in the kernel, so that `poll` tells
 * of it. */
enum event inlet_take(struct inlet *in);

/* Hands at most `most` octets of what is left to the socket, once. */
enum event outlet_push(struct outlet *out, size_t most);

/* Sockets on 127.0.0.1, at a port that the system chooses. */
int listen_stream(uint16_t *port);
int listen_signals(uint16_t *port);
/* A stream that was waiting at a listener; -1 if there is none any more. */
int accept_stream(int listener);
/* -1 where nobody listens: errno says why. */
int connect_stream(uint16_t port);
int connect_signals(uint16_t port);

/* Whether standard input has ended: so the programs are told to end. To be asked where `poll` has something of it. */
bool told_to_end(void);

/* Of the clock that nobody sets, in ms. */
uint64_t now_ms(void);

/* 32 bits that look like chance and follow from the seed. */
uint32_t next_random(uint64_t *seed);

/* A number of the command line, 0 to `most`; anything else ends the program. */
uint32_t argument(const char *text, uint32_t most);

/* Says what could not be done, and why by errno, and ends the program with 1. */
void give_up(const char *what);

#endif
