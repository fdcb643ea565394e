/* Makes the calls of docs/EDGES.md, read as fields, through include/adp.h, and prints their lines. Nothing is shared
 * between two callers, so that they may run in two threads.
 *
 * Every octet that a call is lent lies in a room of room.h, what is lent as const in read-only pages. Beside the lines
 * it is seen that a refusal changes no octet (but setup's), that no octet near what was lent changes, that a part lies
 * within what was lent, that the tally counts, and that a multicast call leaves the state and holds and drops nothing.
 * What is not so is said on standard error, and ends the run.
 *
 * adp.h has no call that R and F could make: an answer says where its part lies, and the board takes it itself; tagged
 * fields are the program's. Their fields are passed over. */
#ifndef CALLS_H
#define CALLS_H

#include "room.h"

#include <stdio.h>

struct caller;

/* A tallied caller makes its message calls by adp_message_tallied. */
struct caller *new_caller(const char *name, enum way way, bool tallied, FILE *out);

/* Makes the calls of all fields. */
void run_calls(struct caller *c, FILE *in);

/* Which field is at work, as a text that ends in a newline. */
const char *doing(const struct caller *c);

#endif
