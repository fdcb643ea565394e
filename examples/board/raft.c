/* A raft: takes the PDUs of its desks from streams, and alive signals as datagrams, has the library join them, and
 * writes each delivered message to a file. What it prints is what a maintenance page would show.
 *
 *   raft T FOLDER
 *
 * T is the age in ms at which an open message is dropped. A message goes to FOLDER/FIELD-NODE-VERSION-NUMBER. The first
 * line printed names the ports, of streams and of signals, that the system chose. It runs until its standard input
 * ends; ends with 1 where something failed, also where a message could not be written.
 *
 * One thread, one state: all calls of the library are made from the loop below, so none of them meet. */
#define _POSIX_C_SOURCE 200809L

#include "wire.h"

#include <errno.h>
#include <inttypes.h>
#include <poll.h>
#include <stdio.h>
#include <stdlib.h>
#include <string.h>
#include <sys/socket.h>
#include <unistd.h>

/* A desk connects once; the other places are for one that connects anew before its old stream is known to be dead. */
enum { SENDERS = 2, STREAMS = 4, TICK = 100, VERDICTS = ADP_UNCHECKED + 1, NUMBERS = ADP_BAD_FAULT + 1 };

struct stream {
    struct inlet in; /* fd -1: the place is free */
    unsigned name;
    uint64_t last_read;
};

/* The fault section of a sender's last signal; no octets where it had none. */
struct report {
    size_t size;
    uint8_t octets[ADP_LONGEST_FAULT];
};

/* What the maintenance page shows and the state does not tell: the library answers once, at the call. */
struct page {
    bool alive[SENDERS];
    struct report reports[SENDERS];
    uint32_t delivered[VERDICTS], refused[NUMBERS], signals[NUMBERS];
    uint32_t dropped, out_of_step;
    uint32_t tally[2];
};

struct raft {
    struct adp_settings settings;
    uint64_t state[ADP_STATE_WORDS];
    uint8_t storage[SENDERS * ADP_AREA];
    uint64_t start; /* the monotonic clock at setup */
    int listener, signals;
    struct stream streams[STREAMS];
    unsigned opened;
    const char *folder;
    bool failed;
    struct page page;
};

static const char *const verdicts[VERDICTS] = {"none", "first", "next", "restart", "gap", "unchecked"};

static void set_up(struct raft *r, uint32_t t) {
    r->settings = (struct adp_settings){.mode = 0, .n1 = 16, .t = t, .count = SENDERS, .senders = {{2, 9}, {1, 7}}};
    r->start = now_ms();
    uint8_t number = adp_setup(r->state, ADP_STATE_WORDS, r->settings);
    if (number != ADP_DONE) {
        fprintf(stderr, "raft: setup was refused with %d\n", number);
        exit(1);
    }
}

/* The place in the table of the sender that a PDU names; SENDERS if it is not there. */
static size_t sender_of(const struct raft *r, const uint8_t *packet) {
    size_t i = 0;
    while (i < SENDERS && (r->settings.senders[i].field != packet[FIELD] ||
                           r->settings.senders[i].node != number_at(packet + NODE, 2)))
        i++;
    return i;
}

static void name_sender(const struct raft *r, size_t i) {
    printf("%d:%d", r->settings.senders[i].field, r->settings.senders[i].node);
}

/* ---- what is delivered */

static bool write_file(const char *name, const uint8_t *octets, size_t length) {
    FILE *file = fopen(name, "wb");
    if (file == NULL) return false;
    bool written = fwrite(octets, 1, length, file) == length && fflush(file) == 0 && fsync(fileno(file)) == 0;
    return fclose(file) == 0 && written;
}

/* The message is in the packet or in the storage, and both are written over by what comes next: it is used here, before
 * the next call. Whoever reads the folder must not see half a table, so it takes its name when it is whole. */
static void keep(struct raft *r, const uint8_t *packet, const uint8_t *octets, size_t length) {
    char name[512], part[520];
    int size = snprintf(name, sizeof name, "%s/%d-%" PRIu32 "-%" PRIu32 "-%" PRIu32, r->folder, packet[FIELD],
                        number_at(packet + NODE, 2), number_at(packet + V_SEQ, 4), number_at(packet + SEQ, 4));
    bool kept = size > 0 && (size_t)size < sizeof name;
    if (!kept) {
        errno = ENAMETOOLONG;
    } else {
        snprintf(part, sizeof part, "%s.part", name);
        kept = write_file(part, octets, length) && rename(part, name) == 0;
    }
    if (kept) return;
    /* The desk's repeats will be refused with 17, as delivered before: only a new message brings it again. */
    fprintf(stderr, "raft: a delivered message could not be written: %s\n", strerror(errno));
    r->failed = true;
}

static void delivered(struct raft *r, const uint8_t *packet, const struct adp_answer *answer) {
    const uint8_t *lent = answer->slice == ADP_IN_PACKET ? packet : r->storage;
    r->page.delivered[answer->verdict]++;
    keep(r, packet, lent + answer->start, answer->length);
    printf("delivered, %s, %zu octets", verdicts[answer->verdict], answer->length);
    if (answer->verdict == ADP_GAP) printf(", %" PRIu32 " skipped", answer->skipped);
    printf("\n");
}

/* ---- messages */

static void say_missing(const struct raft *r) {
    struct adp_missing missing = adp_question(r->state, ADP_STATE_WORDS);
    if (missing.number != ADP_DONE) {
        printf("the question was refused with %d\n", missing.number);
    } else if (missing.open) {
        printf("the message of ");
        name_sender(r, missing.sender);
        printf(" lacks piece %d\n", missing.piece);
    } else {
        printf("no message is open\n");
    }
}

static void say_packet(const uint8_t *packet) {
    printf("raft: packet %d of %d of %" PRIu32 "-%" PRIu32 " from %d:%" PRIu32 ": ", packet[CBN], packet[TBN],
           number_at(packet + V_SEQ, 4), number_at(packet + SEQ, 4), packet[FIELD], number_at(packet + NODE, 2));
}

static void take_message(struct raft *r, const uint8_t *packet, size_t size) {
    struct adp_answer answer = adp_message_tallied(r->state, ADP_STATE_WORDS, r->storage, sizeof r->storage, packet,
                                                   size, r->page.tally);
    if (answer.dropped_number != 0) {
        r->page.dropped++;
        printf("raft: dropped %" PRIu32 "-%" PRIu32 ": a newer message came\n", answer.dropped_version,
               answer.dropped_number);
    }
    say_packet(packet);
    if (answer.number > ADP_DELIVERED) {
        /* Its `held` of 0 says nothing: a refusal leaves what is held. */
        printf("refused with %d", answer.number);
        if (answer.number == ADP_REPEAT) printf(", %" PRIu32 " back", answer.age);
        printf("\n");
        r->page.refused[answer.number]++;
        return;
    }
    if (answer.number == ADP_DELIVERED) {
        delivered(r, packet, &answer);
    } else {
        printf("stored, %d held, ", answer.held);
        say_missing(r);
    }
}

/* ---- alive signals and the clock */

static void set_alive(struct raft *r, size_t sender, bool alive) {
    if (r->page.alive[sender] == alive) return;
    r->page.alive[sender] = alive;
    printf("raft: ");
    name_sender(r, sender);
    printf(" is %s\n", alive ? "alive" : "dead");
}

/* The name may be any octets. */
static void say_name(const uint8_t *name, size_t size) {
    for (size_t i = 0; i < size && name[i] != 0; i++) putchar(name[i] > ' ' && name[i] <= '~' ? name[i] : '?');
}

static void say_report(const struct raft *r, size_t sender) {
    const struct report *report = &r->page.reports[sender];
    struct adp_fault fault = adp_fault_read(report->octets, report->size);
    name_sender(r, sender);
    if (fault.number != ADP_DONE) {
        printf(" reports no modules and no errors\n");
        return;
    }
    printf(" reports %" PRIu32 " modules, dead:", fault.modules);
    for (uint32_t x = 1; x <= fault.modules; x++) {
        if (adp_fault_dead(report->octets, report->size, x)) printf(" %" PRIu32, x);
    }
    printf("; %" PRIu32 " errors:", fault.errors);
    for (uint32_t i = 0; i < fault.errors; i++) {
        struct adp_error error = adp_fault_error(report->octets, report->size, i);
        printf(" ");
        say_name(fault.name, sizeof fault.name);
        printf(" %d of %d", error.error, error.module);
    }
    printf("\n");
}

/* The section of an accepted signal, which lies in the packet: it is copied, so that the page can show it later. */
static void keep_report(struct raft *r, size_t sender, const uint8_t *section, size_t size) {
    struct report *report = &r->page.reports[sender];
    if (size == report->size && memcmp(section, report->octets, size) == 0) return;
    memcpy(report->octets, section, size);
    report->size = size;
    printf("raft: ");
    say_report(r, sender);
}

static void take_signal(struct raft *r) {
    /* One octet more than the longest: `recv` cuts a datagram to the room that it finds, and one that is too long must
     * not pass for one that is not. */
    uint8_t packet[ADP_LONGEST_ALIVE + 1];
    ssize_t got = recv(r->signals, packet, sizeof packet, 0);
    if (got < 0) {
        if (errno != EINTR && errno != EAGAIN && errno != EWOULDBLOCK) give_up("raft: signals");
        return;
    }
    uint8_t number = adp_alive(r->state, ADP_STATE_WORDS, packet, (size_t)got);
    r->page.signals[number]++;
    if (number != ADP_DONE) {
        printf("raft: a signal was refused with %d\n", number);
        return;
    }
    /* There is no call that tells who is alive: accepted signals and the clock's answers do. */
    size_t sender = sender_of(r, packet);
    set_alive(r, sender, packet[AL_MODE] == 1);
    keep_report(r, sender, packet + ADP_ALIVE, (size_t)got - ADP_ALIVE);
}

/* Before anything else of a turn, so that what comes is stamped with the time at which it was taken. */
static void tick(struct raft *r) {
    struct adp_ticked ticked = adp_clock(r->state, ADP_STATE_WORDS, now_ms() - r->start);
    if (ticked.number != ADP_DONE) {
        fprintf(stderr, "raft: the clock was refused with %d\n", ticked.number);
        exit(1);
    }
    for (size_t i = 0; i < SENDERS; i++) {
        if (ticked.dropped >> i & 1) {
            r->page.dropped++;
            printf("raft: dropped what was open of ");
            name_sender(r, i);
            printf(": no piece for %" PRIu32 " ms\n", r->settings.t);
        }
        if (ticked.dead >> i & 1) set_alive(r, i, false);
    }
}

/* ---- the page */

static void show_refused(const char *what, const uint32_t *counts) {
    uint32_t all = 0;
    for (size_t i = ADP_BAD_STATE; i < NUMBERS; i++) all += counts[i];
    printf("page: %s refused: %" PRIu32, what, all);
    for (size_t i = ADP_BAD_STATE; i < NUMBERS; i++) {
        if (counts[i] != 0) printf(", %" PRIu32 " with %zu", counts[i], i);
    }
    printf("\n");
}

static void show_page(const struct raft *r) {
    for (size_t i = 0; i < SENDERS; i++) {
        printf("page: ");
        name_sender(r, i);
        printf(" %s, %d held\n", r->page.alive[i] ? "alive" : "dead",
               adp_held(r->state, ADP_STATE_WORDS, (uint8_t)i));
        if (r->page.reports[i].size == 0) continue;
        printf("page: ");
        say_report(r, i);
    }
    printf("page: ");
    say_missing(r);
    printf("page: delivered:");
    for (size_t i = ADP_FIRST; i < VERDICTS; i++) {
        printf("%s %" PRIu32 " %s", i == ADP_FIRST ? "" : ",", r->page.delivered[i], verdicts[i]);
    }
    printf("\n");
    show_refused("messages", r->page.refused);
    show_refused("signals", r->page.signals);
    printf("page: dropped: %" PRIu32 "\n", r->page.dropped);
    printf("page: streams out of step: %" PRIu32 "\n", r->page.out_of_step);
    printf("page: tally: %" PRIu32 " accepted, %" PRIu32 " refused\n", r->page.tally[0], r->page.tally[1]);
}

/* ---- streams */

static void close_stream(struct raft *r, struct stream *s, const char *why) {
    close(s->in.fd);
    s->in.fd = -1;
    printf("raft: stream %u closed: %s\n", s->name, why);
    show_page(r);
}

/* Where all places are taken, the stream that was silent the longest makes room: a desk that went without a word, and
 * whose stream never ends, must not shut out the one that comes after it. */
static struct stream *place_for_stream(struct raft *r) {
    struct stream *oldest = &r->streams[0];
    for (size_t i = 0; i < STREAMS; i++) {
        struct stream *s = &r->streams[i];
        if (s->in.fd < 0) return s;
        if (s->last_read < oldest->last_read) oldest = s;
    }
    close_stream(r, oldest, "silent the longest, and its place is needed");
    return oldest;
}

static void open_stream(struct raft *r) {
    int fd = accept_stream(r->listener);
    if (fd < 0) return;
    struct stream *s = place_for_stream(r);
    s->in.fd = fd;
    s->in.have = 0;
    s->name = ++r->opened;
    s->last_read = now_ms();
    printf("raft: stream %u opened\n", s->name);
}

/* One PDU in a turn, so that no stream keeps the others, the signals and the clock waiting. */
static void read_stream(struct raft *r, struct stream *s) {
    s->last_read = now_ms();
    switch (inlet_take(&s->in)) {
    case WHOLE:
        take_message(r, s->in.octets, s->in.have);
        s->in.have = 0;
        break;
    case WAITING:
        break;
    case ENDED:
        close_stream(r, s, "ended");
        break;
    case CUT_OFF:
        close_stream(r, s, "ended within a PDU");
        break;
    case OUT_OF_STEP:
        r->page.out_of_step++;
        close_stream(r, s, "out of step");
        break;
    case FAILED:
        close_stream(r, s, strerror(errno));
        break;
    }
}

/* ---- the loop */

/* Returns false when it was told to end. */
static bool turn(struct raft *r) {
    struct pollfd on[3 + STREAMS] = {{STDIN_FILENO, POLLIN, 0}, {r->listener, POLLIN, 0}, {r->signals, POLLIN, 0}};
    for (size_t i = 0; i < STREAMS; i++) on[3 + i] = (struct pollfd){r->streams[i].in.fd, POLLIN, 0};
    int ready = poll(on, 3 + STREAMS, TICK);
    if (ready < 0 && errno != EINTR) give_up("raft: poll");
    tick(r);
    if (ready <= 0) return true;
    if (on[2].revents != 0) take_signal(r);
    for (size_t i = 0; i < STREAMS; i++) {
        if (on[3 + i].revents != 0) read_stream(r, &r->streams[i]);
    }
    /* Behind the streams: a newcomer may take a place, and what `poll` said was said of the one before. */
    if (on[1].revents != 0) open_stream(r);
    return on[0].revents == 0 || !told_to_end();
}

int main(int count, char **given) {
    static struct raft r;
    uint16_t stream_port, signal_port;
    if (count != 3) {
        fprintf(stderr, "usage: raft T FOLDER\n");
        return 1;
    }
    setvbuf(stdout, NULL, _IOLBF, BUFSIZ);
    r.folder = given[2];
    for (size_t i = 0; i < STREAMS; i++) r.streams[i].in.fd = -1;
    set_up(&r, argument(given[1], UINT32_MAX));
    r.listener = listen_stream(&stream_port);
    r.signals = listen_signals(&signal_port);
    printf("raft: ports %u %u\n", (unsigned)stream_port, (unsigned)signal_port);
    while (turn(&r)) continue;
    for (size_t i = 0; i < STREAMS; i++) {
        if (r.streams[i].in.fd >= 0) close_stream(&r, &r.streams[i], "the raft was told to end");
    }
    close(r.listener);
    close(r.signals);
    printf("raft: ended\n");
    show_page(&r);
    return r.failed ? 1 : 0;
}
