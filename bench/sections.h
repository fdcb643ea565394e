/* The rows of fault sections, for harness.c: sections of 1,344 octets that a side reads, shows or writes. */
#ifndef SECTIONS_H
#define SECTIONS_H

#include "twin.h"

enum sections { READ, SHOWN, WRITTEN };

/* one side of the bench */
struct section_calls {
    reads_call *reads;
    shows_call *shows;
    writes_call *writes;
};

/* Makes a section for each round: so many modules and errors, and options for all else. With 24 its last error names
 * the module 0, with 23 the buffer that it is written into is an octet short. */
void sections_prepare(uint32_t modules, uint32_t errors, uint8_t number, unsigned rounds);

/* Has a side do its work, on the sections of so many rounds. */
void sections_run(enum sections what, const struct section_calls *side, unsigned rounds);

/* Does the same, and says whether every answer and every octet written is what it must be. */
bool sections_right(enum sections what, const struct section_calls *side, unsigned rounds);

#endif
