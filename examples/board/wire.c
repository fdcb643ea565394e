/* See wire.h. POSIX.1-2008 and C99, nothing else. */
#define _POSIX_C_SOURCE 200809L

#include "wire.h"

#include <arpa/inet.h>
#include <errno.h>
#include <fcntl.h>
#include <netinet/in.h>
#include <netinet/tcp.h>
#include <poll.h>
#include <stdio.h>
#include <stdlib.h>
#include <string.h>
#include <sys/socket.h>
#include <time.h>
#include <unistd.h>

uint32_t number_at(const uint8_t *octets, size_t size) {
    uint32_t value = 0;
    for (size_t i = 0; i < size; i++) value = value << 8 | octets[i];
    return value;
}

void lay_number(uint8_t *octets, size_t size, uint32_t value) {
    for (size_t i = size; i > 0; i--) {
        octets[i - 1] = (uint8_t)(value & 0xff);
        value >>= 8;
    }
}

bool in_step(const uint8_t *header) {
    uint32_t size = number_at(header + BSIZE, 2);
    return memcmp(header + H_TYPE, "NUXM", 4) == 0 && size >= ADP_HEADER && size <= ADP_LONGEST;
}

/* Reads until n octets are held: one recv may give fewer, and a PDU may come in any number of parts. */
static enum event fill(struct inlet *in, size_t n) {
    while (in->have < n) {
        ssize_t got = recv(in->fd, in->octets + in->have, n - in->have, 0);
        if (got > 0) {
            in->have += (size_t)got;
        } else if (got == 0) {
            return in->have == 0 ? ENDED : CUT_OFF;
        } else if (errno == EAGAIN || errno == EWOULDBLOCK) {
            return WAITING;
        } else if (errno != EINTR) {
            return FAILED;
        }
    }
    return WHOLE;
}

enum event inlet_take(struct inlet *in) {
    enum event header = fill(in, ADP_HEADER);
    if (header != WHOLE) return header;
    /* BSIZE is the only thing that tells where the next PDU begins. If it can't be right there is no way back. */
    if (!in_step(in->octets)) return OUT_OF_STEP;
    return fill(in, number_at(in->octets + BSIZE, 2));
}

enum event outlet_push(struct outlet *out, size_t most) {
    size_t left = out->length - out->sent;
    /* MSG_NOSIGNAL: a stream that the other side closed is this stream's end, not the program's. */
    ssize_t gone = send(out->fd, out->octets + out->sent, left < most ? left : most, MSG_NOSIGNAL);
    if (gone < 0) return errno == EINTR || errno == EAGAIN || errno == EWOULDBLOCK ? WAITING : FAILED;
    out->sent += (size_t)gone;
    return out->sent == out->length ? WHOLE : WAITING;
}

static struct sockaddr_in loopback(uint16_t port) {
    struct sockaddr_in at;
    memset(&at, 0, sizeof at);
    at.sin_family = AF_INET;
    at.sin_addr.s_addr = htonl(INADDR_LOOPBACK);
    at.sin_port = htons(port);
    return at;
}

static void never_block(int fd) {
    int flags = fcntl(fd, F_GETFL);
    if (flags < 0 || fcntl(fd, F_SETFL, flags | O_NONBLOCK) < 0) give_up("a socket can't be made non-blocking");
}

/* A socket bound to port 0: the system chooses one that is free, and is asked which. */
static int bound(int type, uint16_t *port) {
    struct sockaddr_in at = loopback(0);
    socklen_t size = sizeof at;
    int fd = socket(AF_INET, type, 0);
    if (fd < 0) give_up("no socket");
    if (bind(fd, (struct sockaddr *)&at, sizeof at) < 0) give_up("no port");
    if (getsockname(fd, (struct sockaddr *)&at, &size) < 0) give_up("the port is not known");
    never_block(fd);
    *port = ntohs(at.sin_port);
    return fd;
}

int listen_stream(uint16_t *port) {
    int fd = bound(SOCK_STREAM, port);
    if (listen(fd, 8) < 0) give_up("no stream can be waited for");
    return fd;
}

int listen_signals(uint16_t *port) { return bound(SOCK_DGRAM, port); }

/* Without this the system holds back a short PDU until an earlier one is confirmed. Where it is refused the stream is
 * slower, and not wrong. */
static void send_at_once(int fd) {
    int yes = 1;
    (void)setsockopt(fd, IPPROTO_TCP, TCP_NODELAY, &yes, sizeof yes);
}

int accept_stream(int listener) {
    int fd = accept(listener, NULL, NULL);
    if (fd < 0) {
        /* The other side may have gone again between `poll` and here. */
        bool gone = errno == EINTR || errno == EAGAIN || errno == EWOULDBLOCK || errno == ECONNABORTED;
        if (!gone) give_up("a stream can't be accepted");
        return -1;
    }
    never_block(fd);
    return fd;
}

/* A connect that a signal interrupts goes on by itself, and must not be called again: its end is waited for. */
static int finish_connect(int fd) {
    struct pollfd wait = {fd, POLLOUT, 0};
    int error = 0;
    socklen_t size = sizeof error;
    while (poll(&wait, 1, -1) < 0) {
        if (errno != EINTR) return -1;
    }
    if (getsockopt(fd, SOL_SOCKET, SO_ERROR, &error, &size) < 0) return -1;
    errno = error;
    return error == 0 ? 0 : -1;
}

static int connected(int type, uint16_t port) {
    struct sockaddr_in at = loopback(port);
    int fd = socket(AF_INET, type, 0);
    if (fd < 0) return -1;
    int done = connect(fd, (struct sockaddr *)&at, sizeof at);
    if (done < 0 && errno == EINTR) done = finish_connect(fd);
    if (done < 0) {
        int why = errno;
        close(fd);
        errno = why;
        return -1;
    }
    never_block(fd);
    return fd;
}

int connect_stream(uint16_t port) {
    int fd = connected(SOCK_STREAM, port);
    if (fd >= 0) send_at_once(fd);
    return fd;
}

int connect_signals(uint16_t port) { return connected(SOCK_DGRAM, port); }

bool told_to_end(void) {
    char any[64];
    ssize_t got = read(STDIN_FILENO, any, sizeof any);
    if (got < 0) return errno != EINTR && errno != EAGAIN && errno != EWOULDBLOCK;
    return got == 0;
}

uint64_t now_ms(void) {
    struct timespec now;
    if (clock_gettime(CLOCK_MONOTONIC, &now) < 0) give_up("no clock");
    return (uint64_t)now.tv_sec * 1000 + (uint64_t)now.tv_nsec / 1000000;
}

uint32_t next_random(uint64_t *seed) {
    *seed = *seed * 6364136223846793005u + 1442695040888963407u;
    /* The low bits of such a product repeat soon. */
    return (uint32_t)(*seed >> 32);
}

uint32_t argument(const char *text, uint32_t most) {
    char *end;
    errno = 0;
    unsigned long value = strtoul(text, &end, 10);
    if (errno != 0 || *text < '0' || *text > '9' || *end != '\0' || value > most) {
        fprintf(stderr, "%s is no number from 0 to %lu\n", text, (unsigned long)most);
        exit(1);
    }
    return (uint32_t)value;
}

void give_up(const char *what) {
    fprintf(stderr, "%s: %s\n", what, strerror(errno));
    exit(1);
}
