/* How long an instruction takes on either core, and what runs before a waiting interrupt is entered. */
#ifndef TIMING_H
#define TIMING_H

#include "state.h"

#define WORDS 4

struct timed {
    const char *name;
    uint16_t words[WORDS]; /* the instruction, and behind it what a skip finds */
};

extern const struct timed timed[];
extern const unsigned timed_count;

/* An instruction whose cycles are others on AVRxt than on simavr's older core. */
struct listed {
    const char *name;
    unsigned xt, older;
};

/* Where it is listed so, or null. */
const struct listed *listed_as(const struct timed *instruction);

/* Where both begin: with Z set in SREG, a stack, 1 in an I/O byte, and registers with pointers into SRAM. */
#define TIMING_SREG 0x02
#define TIMING_SP 0x0200
#define TIMING_IO 0x1E
void put_timing_registers(uint8_t registers[32]);

/* The cycles of the first instruction. */
unsigned port_cycles(const uint16_t words[WORDS], enum rule rule);
unsigned simavr_cycles(const uint16_t words[WORDS]);

/* An interrupt waits from the start: how many instructions run behind the first one before it is entered. */
unsigned port_before_entry(const uint16_t words[WORDS], enum rule rule);
unsigned simavr_before_entry(const uint16_t words[WORDS]);

/* Compares both and prints what differs; whether nothing differs but what is known. */
int timing_agrees(void);

#endif
