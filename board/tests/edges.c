/* Both sides of each edge, and random calls, through include/adp.h: reads fields from standard input and prints their
 * lines, see calls.h.   edges end|start plain|tallied */
#define _POSIX_C_SOURCE 200809L
#include "calls.h"

#include <signal.h>
#include <string.h>
#include <unistd.h>

static const struct caller *running;

/* Says at which field an octet was touched that was not lent; the signal then ends the run. */
static void say(int number) {
    const char *text = doing(running);
    const char *what = "a signal: an octet was touched that was not lent, or one written that was lent as const\n";
    ssize_t written = write(STDERR_FILENO, text, strlen(text));
    written += write(STDERR_FILENO, what, strlen(what));
    (void)written;
    signal(number, SIG_DFL);
    raise(number);
}

int main(int count, char **words) {
    if (count != 3) {
        fprintf(stderr, "usage: edges end|start plain|tallied <CALLS\n");
        return 2;
    }
    enum way way = strcmp(words[1], "start") == 0 ? AT_START : AT_END;
    struct caller *c = new_caller("edges", way, strcmp(words[2], "tallied") == 0, stdout);
    running = c;
    signal(SIGSEGV, say);
    signal(SIGBUS, say);
    run_calls(c, stdin);
    return 0;
}
