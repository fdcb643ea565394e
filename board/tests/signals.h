/* adp_alive where octets stand behind the first 128 of a signal: a fault section, or what is none. The packet and the
 * state lie in rooms of room.h, the packet as const. Where it answers another number than it must, or leaves another
 * state, that is said on standard error and ends the run. */
#ifndef SIGNALS_H
#define SIGNALS_H

void test_signals(void);

/* How many calls were made. */
unsigned long signal_calls(void);

#endif
