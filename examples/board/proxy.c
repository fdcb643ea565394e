/* Stands between a desk and a raft and makes a bad way of a good one: of each message on the stream it forwards the
 * last-numbered piece first, then the others in an order of chance, and repeats some of them, in the same message and
 * in the next one. It hands the stream on in parts of chance, so that a PDU comes in several reads. Signals are
 * forwarded as they are.
 *
 *   proxy STREAM_PORT SIGNAL_PORT SEED DAMAGED
 *
 * Ports are those of a raft on loopback; the first line printed names its own. Chance follows from SEED. The first
 * DAMAGED streams, at most 3, go out of step behind their fifth packet, each in another way. It runs until its standard
 * input ends and says how many packets it forwarded, those out of step not counted.
 *
 * It serves one stream at a time, and assumes that a desk sends all pieces of a message one behind the other. */
#define _POSIX_C_SOURCE 200809L

#include "wire.h"

#include <errno.h>
#include <inttypes.h>
#include <poll.h>
#include <stdio.h>
#include <string.h>
#include <sys/socket.h>
#include <unistd.h>

/* Behind the places of a message's pieces there is one for a packet of the message before. */
enum { PIECES = 64, BEFORE = PIECES, PLANNED = 2 * PIECES + 1, IN_STEP_PACKETS = 5, KINDS = 3 };

struct proxy {
    uint16_t raft_port;
    int listener, signals_in, signals_out;
    uint64_t order_seed, part_seed; /* apart: how many parts it takes is the system's, the order is not to follow it */
    uint32_t damaged, streams, forwarded;
    struct inlet desk;  /* fd -1: no stream */
    struct outlet raft;
    bool desk_ended;
    bool broken;             /* it went out of step: nothing more is sent, and the raft is to close it by itself */
    uint32_t forwarded_here; /* packets of this stream */
    uint8_t window[PIECES + 1][ADP_LONGEST];
    size_t sizes[PIECES + 1]; /* 0 at BEFORE: no message before */
    size_t held;              /* pieces in the window */
    uint8_t plan[PLANNED];    /* which places of the window are forwarded, in which order */
    size_t planned, done;
};

/* ---- the order */

/* Puts a place of the window into the plan, anywhere behind the first. */
static void insert(struct proxy *p, uint8_t place) {
    size_t at = 1 + next_random(&p->order_seed) % p->planned;
    memmove(p->plan + at + 1, p->plan + at, p->planned - at);
    p->plan[at] = place;
    p->planned++;
}

/* The pieces came in order, so the last-numbered one is the window's last: it goes first. */
static void make_plan(struct proxy *p) {
    p->plan[0] = (uint8_t)(p->held - 1);
    p->planned = 1;
    p->done = 0;
    for (size_t i = 0; i + 1 < p->held; i++) insert(p, (uint8_t)i);
    if (p->sizes[BEFORE] != 0) insert(p, BEFORE);
    insert(p, p->plan[0]);
    for (size_t i = 0; i + 1 < p->held; i++) {
        if (next_random(&p->order_seed) % 4 == 0) insert(p, (uint8_t)i);
    }
}

static bool forwarding(const struct proxy *p) { return p->done < p->planned; }

/* The message was forwarded: one of its packets is kept, to come again within the next message. */
static void clear_window(struct proxy *p) {
    size_t kept = next_random(&p->order_seed) % p->held;
    memcpy(p->window[BEFORE], p->window[kept], p->sizes[kept]);
    p->sizes[BEFORE] = p->sizes[kept];
    p->held = p->planned = p->done = 0;
}

/* ---- the stream */

static void close_stream(struct proxy *p) {
    close(p->desk.fd);
    close(p->raft.fd);
    p->desk.fd = p->raft.fd = -1;
}

static void open_stream(struct proxy *p) {
    int fd = accept_stream(p->listener);
    if (fd < 0) return;
    p->raft.fd = connect_stream(p->raft_port);
    if (p->raft.fd < 0) give_up("proxy: no stream to the raft");
    p->desk.fd = fd;
    p->desk.have = p->raft.sent = p->raft.length = 0;
    p->held = p->planned = p->done = p->sizes[BEFORE] = 0;
    p->forwarded_here = 0;
    p->desk_ended = p->broken = false;
    p->streams++;
}

static void collect(struct proxy *p) {
    switch (inlet_take(&p->desk)) {
    case WHOLE:
        memcpy(p->window[p->held], p->desk.octets, p->desk.have);
        p->sizes[p->held++] = p->desk.have;
        if (p->held >= p->desk.octets[TBN] || p->held == PIECES) make_plan(p);
        p->desk.have = 0;
        break;
    case WAITING:
        break;
    default:
        /* However the desk went, what it sent before is forwarded. */
        p->desk_ended = true;
        if (p->held > 0) make_plan(p);
        break;
    }
}

/* One thing alone is wrong each time: an octet of "NUXM", a BSIZE just below the least, or one just above the most. */
static void damage(struct proxy *p) {
    uint8_t *octets = p->raft.octets;
    p->broken = true;
    switch (p->streams % KINDS) {
    case 1:
        octets[H_TYPE] ^= 0x20;
        break;
    case 2:
        lay_number(octets + BSIZE, 2, ADP_HEADER - 1);
        break;
    default:
        lay_number(octets + BSIZE, 2, ADP_LONGEST + 1);
        break;
    }
}

static void load_next(struct proxy *p) {
    size_t place = p->plan[p->done];
    memcpy(p->raft.octets, p->window[place], p->sizes[place]);
    p->raft.length = p->sizes[place];
    p->raft.sent = 0;
    if (p->streams <= p->damaged && p->forwarded_here == IN_STEP_PACKETS) damage(p);
}

static void sent(struct proxy *p) {
    if (p->broken) {
        p->done = p->planned;
        return;
    }
    p->forwarded++;
    p->forwarded_here++;
    p->done++;
    if (!forwarding(p)) clear_window(p);
}

static void forward(struct proxy *p) {
    if (p->raft.sent == p->raft.length) load_next(p);
    switch (outlet_push(&p->raft, 1 + next_random(&p->part_seed) % ADP_LONGEST)) {
    case WHOLE:
        sent(p);
        break;
    case FAILED:
        close_stream(p);
        break;
    default:
        break;
    }
}

/* The raft never speaks on the stream: what can be read of it is its end. */
static bool closed_by_raft(struct proxy *p) {
    uint8_t any[64];
    ssize_t got = recv(p->raft.fd, any, sizeof any, 0);
    if (got < 0) return errno != EINTR && errno != EAGAIN && errno != EWOULDBLOCK;
    return got == 0;
}

/* ---- signals */

/* Lost is lost, as with any datagram. */
static void forward_signal(struct proxy *p) {
    uint8_t packet[ADP_LONGEST_ALIVE + 1];
    ssize_t got = recv(p->signals_in, packet, sizeof packet, 0);
    if (got >= 0) (void)send(p->signals_out, packet, (size_t)got, 0);
}

/* ---- the loop */

/* While it forwards a message it does not ask for the desk's stream: that it can be read would have `poll` return at
 * once, again and again. */
static bool reading(const struct proxy *p) { return !p->desk_ended && !p->broken && !forwarding(p); }

static void go_on(struct proxy *p, short desk, short raft) {
    if (raft & (POLLIN | POLLHUP | POLLERR) && closed_by_raft(p)) {
        close_stream(p);
        return;
    }
    if (desk != 0) collect(p);
    if (raft & POLLOUT && forwarding(p)) forward(p);
    if (p->desk.fd >= 0 && p->desk_ended && !p->broken && !forwarding(p)) close_stream(p);
}

/* Returns false when it was told to end. */
static bool turn(struct proxy *p) {
    struct pollfd on[5] = {{STDIN_FILENO, POLLIN, 0},
                           {p->desk.fd < 0 ? p->listener : -1, POLLIN, 0},
                           {p->signals_in, POLLIN, 0},
                           {reading(p) ? p->desk.fd : -1, POLLIN, 0},
                           {p->raft.fd, POLLIN, 0}};
    if (forwarding(p)) on[4].events |= POLLOUT;
    if (poll(on, 5, -1) < 0) {
        if (errno != EINTR) give_up("proxy: poll");
        return true;
    }
    if (on[2].revents != 0) forward_signal(p);
    if (p->raft.fd >= 0) go_on(p, on[3].revents, on[4].revents);
    if (on[1].revents != 0) open_stream(p);
    return on[0].revents == 0 || !told_to_end();
}

int main(int count, char **given) {
    static struct proxy p;
    uint16_t stream_port, signal_port;
    if (count != 5) {
        fprintf(stderr, "usage: proxy STREAM_PORT SIGNAL_PORT SEED DAMAGED\n");
        return 1;
    }
    setvbuf(stdout, NULL, _IOLBF, BUFSIZ);
    p.raft_port = (uint16_t)argument(given[1], UINT16_MAX);
    p.signals_out = connect_signals((uint16_t)argument(given[2], UINT16_MAX));
    if (p.signals_out < 0) give_up("proxy: no socket for signals");
    p.order_seed = p.part_seed = argument(given[3], UINT32_MAX);
    p.damaged = argument(given[4], KINDS);
    p.desk.fd = p.raft.fd = -1;
    p.listener = listen_stream(&stream_port);
    p.signals_in = listen_signals(&signal_port);
    printf("proxy: ports %u %u\n", (unsigned)stream_port, (unsigned)signal_port);
    while (turn(&p)) continue;
    if (p.raft.fd >= 0) close_stream(&p);
    close(p.listener);
    close(p.signals_in);
    close(p.signals_out);
    printf("proxy: forwarded %" PRIu32 " packets\n", p.forwarded);
    return 0;
}
