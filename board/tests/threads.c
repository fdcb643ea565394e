/* Two receivers in two threads at the same time, each with its own state, storage and tables and its own night: each
 * must print what it prints alone.   threads CALLS LINES CALLS LINES   reads two files and writes two
 *
 * On one processor two threads seldom meet within a call: a timer lets them take turns at any instruction. */
#define _XOPEN_SOURCE 700
#include "calls.h"

#include <pthread.h>
#include <sched.h>
#include <signal.h>
#include <stdlib.h>
#include <sys/time.h>

enum { TURN = 100 }; /* microseconds */

struct night {
    struct caller *caller;
    FILE *in, *out;
    pthread_barrier_t *start;
};

static void need(int number, const char *what) {
    if (number == 0) return;
    fprintf(stderr, "threads: %s fails\n", what);
    exit(2);
}

static FILE *opened(const char *path, const char *how) {
    FILE *file = fopen(path, how);
    if (file) return file;
    perror(path);
    exit(2);
}

/* ---- turns */

static void give_way(int number) {
    (void)number;
    sched_yield();
}

/* Only the two threads take the timer's signal, and only from here on. */
static void take_turns(int how) {
    sigset_t alarm;
    sigemptyset(&alarm);
    sigaddset(&alarm, SIGALRM);
    need(pthread_sigmask(how, &alarm, NULL), "pthread_sigmask");
}

static void set_timer(suseconds_t turn) {
    struct sigaction action = {.sa_handler = give_way, .sa_flags = SA_RESTART};
    struct itimerval timer = {{0, turn}, {0, turn}};
    need(sigaction(SIGALRM, &action, NULL), "sigaction");
    need(setitimer(ITIMER_REAL, &timer, NULL), "setitimer");
}

/* ---- nights */

static void *run_night(void *given) {
    struct night *night = given;
    pthread_barrier_wait(night->start);
    take_turns(SIG_UNBLOCK);
    run_calls(night->caller, night->in);
    return NULL;
}

static void run_both(struct night *nights) {
    pthread_t threads[2];
    take_turns(SIG_BLOCK);
    set_timer(TURN);
    for (int i = 0; i < 2; i++) need(pthread_create(&threads[i], NULL, run_night, &nights[i]), "pthread_create");
    for (int i = 0; i < 2; i++) need(pthread_join(threads[i], NULL), "pthread_join");
    set_timer(0);
}

int main(int count, char **words) {
    if (count != 5) {
        fprintf(stderr, "usage: threads CALLS LINES CALLS LINES\n");
        return 2;
    }
    pthread_barrier_t start;
    struct night nights[2];
    need(pthread_barrier_init(&start, NULL, 2), "pthread_barrier_init");
    for (int i = 0; i < 2; i++) {
        FILE *in = opened(words[1 + 2 * i], "rb");
        FILE *out = opened(words[2 + 2 * i], "wb");
        nights[i] = (struct night){new_caller(words[1 + 2 * i], i ? AT_START : AT_END, i, out), in, out, &start};
    }
    run_both(nights);
    for (int i = 0; i < 2; i++) need(fclose(nights[i].out), "fclose");
    return 0;
}
