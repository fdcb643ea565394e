/* A shore desk: sends a raft two tables of 16,384 octets and a word of 80 between them over a stream, cut by the
 * library, and an alive signal with a fault section as a datagram ten times a second until its standard input ends.
 *
 *   desk STREAM_PORT SIGNAL_PORT VERSION SEED SILENCE FOLDER
 *
 * Ports are on loopback. VERSION is the V_SEQ: a desk that was started anew takes another one, or the raft would take
 * its first messages for repeats. The contents follow from SEED; each message is written to FOLDER/1-7-VERSION-NUMBER
 * before it is sent. SILENCE is al_tm_out: the seconds after which a raft that hears no more calls the desk dead.
 * Ends with 0 where all was sent, with 3 where the other side closed the stream, with 1 where something failed. */
#define _POSIX_C_SOURCE 200809L

#include "wire.h"

#include <errno.h>
#include <inttypes.h>
#include <poll.h>
#include <stdio.h>
#include <stdlib.h>
#include <string.h>
#include <sys/socket.h>
#include <unistd.h>

enum { OWN_FIELD = 1, OWN_NODE = 7, CODE = 100, UNIT = ADP_MOST_UNIT, SIGNAL_EVERY = 100, MESSAGES = 3 };
/* Data field 1, group 0: an alive signal to another group is refused. */
#define EVERYBODY UINT32_C(0x00010000)

static const uint16_t lengths[MESSAGES] = {ADP_AREA, 80, ADP_AREA};
static const uint32_t numbers[MESSAGES] = {41, 42, 43};

struct desk {
    uint32_t version, silence, pdus;
    uint16_t signals_sent;
    uint8_t messages[MESSAGES][ADP_AREA];
    size_t message;    /* which message is being sent; MESSAGES when all are */
    uint8_t piece;     /* its next piece, from 1 */
    int signals;
    uint64_t signal_due;
    struct outlet out;
};

static void write_message(const struct desk *d, size_t which, const char *folder) {
    char name[512];
    int size = snprintf(name, sizeof name, "%s/%d-%d-%" PRIu32 "-%" PRIu32, folder, OWN_FIELD, OWN_NODE, d->version,
                        numbers[which]);
    if (size < 0 || (size_t)size >= sizeof name) {
        errno = ENAMETOOLONG;
        give_up(folder);
    }
    FILE *file = fopen(name, "wb");
    if (file == NULL) give_up(name);
    bool written = fwrite(d->messages[which], 1, lengths[which], file) == lengths[which];
    if (fclose(file) != 0 || !written) give_up(name);
}

static void make_messages(struct desk *d, uint64_t seed, const char *folder) {
    for (size_t which = 0; which < MESSAGES; which++) {
        for (size_t i = 0; i < lengths[which]; i++) d->messages[which][i] = (uint8_t)(next_random(&seed) >> 24);
        write_message(d, which, folder);
    }
}

/* Cuts the next PDU into the outlet. */
static void cut_next(struct desk *d) {
    struct adp_given given = {.field = OWN_FIELD, .node = OWN_NODE, .da = EVERYBODY, .version = d->version,
                              .number = numbers[d->message], .m_ctl = 0, .tcd = CODE, .mode = 0, .pri = 4};
    uint16_t length = lengths[d->message];
    struct adp_cutting cut =
        adp_cut(given, d->messages[d->message], length, UNIT, d->piece, d->out.octets, sizeof d->out.octets);
    if (cut.number != ADP_DONE) {
        fprintf(stderr, "desk: piece %d was not cut: %d\n", d->piece, cut.number);
        exit(1);
    }
    d->out.length = cut.length;
    d->out.sent = 0;
    d->pdus++;
    /* The pieces before this one carried UNIT octets each. */
    bool last = length <= d->piece * UNIT;
    d->piece = last ? 1 : d->piece + 1;
    if (last) d->message++;
}

static bool all_sent(const struct desk *d) { return d->message == MESSAGES && d->out.sent == d->out.length; }

/* What stands behind a signal: of three modules the second is dead, with error 515 of those that are named DESK. */
static size_t write_faults(uint8_t *octets, size_t room) {
    static const uint8_t bits[4] = {2}, name[8] = {'D', 'E', 'S', 'K'};
    static const uint16_t errors[] = {2, 515};
    struct adp_written written =
        adp_fault_write(3, bits, sizeof bits, errors, sizeof errors / sizeof *errors, name, NULL, 0, octets, room);
    if (written.number != ADP_DONE) {
        fprintf(stderr, "desk: the fault section was not written: %d\n", written.number);
        exit(1);
    }
    return written.length;
}

/* The library reads alive signals; of those to send it writes the fault section alone. All that is not laid here is
 * 0. Returns the signal's length. */
static size_t make_signal(struct desk *d, uint8_t *octets) {
    size_t length = ADP_ALIVE + write_faults(octets + ADP_ALIVE, ADP_LONGEST_FAULT);
    memset(octets, 0, ADP_ALIVE);
    memcpy(octets + H_TYPE, "NUXM", 4);
    lay_number(octets + ML, 4, (uint32_t)length);
    lay_number(octets + FIELD, 1, OWN_FIELD);
    lay_number(octets + NODE, 2, OWN_NODE);
    lay_number(octets + DA, 4, EVERYBODY);
    lay_number(octets + SEQ, 4, 1);
    lay_number(octets + TCD, 2, 60003);
    lay_number(octets + PVER, 1, 1);
    lay_number(octets + PRI, 1, 1);
    lay_number(octets + CBN, 1, 1);
    lay_number(octets + TBN, 1, 1);
    lay_number(octets + BSIZE, 2, (uint32_t)length);
    memcpy(octets + AL_ND_NAME, "desk7", 5);
    lay_number(octets + AL_TM_OUT, 4, d->silence);
    lay_number(octets + AL_MSGSERNO, 2, ++d->signals_sent);
    lay_number(octets + AL_MODE, 1, 1);
    lay_number(octets + AL_PROTOCOL, 1, 4);
    lay_number(octets + AL_VER, 1, 1);
    return length;
}

/* A signal that is not sent, or is lost, is made good by the next one: nothing is done about it. */
static void signal_if_due(struct desk *d) {
    uint8_t octets[ADP_LONGEST_ALIVE];
    uint64_t now = now_ms();
    if (now < d->signal_due) return;
    size_t length = make_signal(d, octets);
    (void)send(d->signals, octets, length, 0);
    d->signal_due = now + SIGNAL_EVERY;
}

/* The raft never speaks on the stream: what can be read of it is its end. */
static bool closed_by_other(int fd) {
    uint8_t any[64];
    ssize_t got = recv(fd, any, sizeof any, 0);
    if (got < 0) return errno != EINTR && errno != EAGAIN && errno != EWOULDBLOCK;
    return got == 0;
}

static void send_on(struct desk *d, bool *closed) {
    if (d->out.sent == d->out.length) cut_next(d);
    if (outlet_push(&d->out, sizeof d->out.octets) == FAILED) *closed = true;
}

/* Goes on until standard input ends, or the other side closes the stream: then it says true. */
static bool serve(struct desk *d) {
    bool closed = false;
    while (!closed) {
        signal_if_due(d);
        uint64_t now = now_ms();
        struct pollfd on[2] = {{STDIN_FILENO, POLLIN, 0}, {d->out.fd, POLLIN, 0}};
        if (!all_sent(d)) on[1].events |= POLLOUT;
        if (poll(on, 2, d->signal_due > now ? (int)(d->signal_due - now) : 0) < 0) {
            if (errno != EINTR) give_up("desk: poll");
            continue;
        }
        if (on[0].revents != 0 && told_to_end()) return false;
        if (on[1].revents & (POLLIN | POLLHUP | POLLERR)) closed = closed_by_other(d->out.fd);
        if (!closed && on[1].revents & POLLOUT) send_on(d, &closed);
    }
    return true;
}

int main(int count, char **given) {
    static struct desk d;
    if (count != 7) {
        fprintf(stderr, "usage: desk STREAM_PORT SIGNAL_PORT VERSION SEED SILENCE FOLDER\n");
        return 1;
    }
    d.version = argument(given[3], UINT32_MAX);
    d.silence = argument(given[5], UINT32_MAX);
    d.piece = 1;
    make_messages(&d, argument(given[4], UINT32_MAX), given[6]);
    d.signals = connect_signals((uint16_t)argument(given[2], UINT16_MAX));
    if (d.signals < 0) give_up("desk: no socket for signals");
    d.out.fd = connect_stream((uint16_t)argument(given[1], UINT16_MAX));
    if (d.out.fd < 0) give_up("desk: no stream");
    bool closed = serve(&d);
    bool all = all_sent(&d);
    close(d.out.fd);
    close(d.signals);
    printf("desk: sent %" PRIu32 " PDUs%s\n", d.pdus, closed ? "; the other side closed the stream" : "");
    if (!closed && !all) fprintf(stderr, "desk: was told to end before all was sent\n");
    return closed ? 3 : all ? 0 : 1;
}
