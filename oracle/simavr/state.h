/* What an arithmetic instruction reads and writes, and the two cores that run one from it. */
#ifndef STATE_H
#define STATE_H

#include <stdint.h>

struct state {
    uint8_t registers[32];
    uint8_t sreg;
};

/* The port's rule. */
enum rule { SOURCE, CHIP };

/* Each leaves in *state what the instruction `word` makes of it, and stops the program where its core did not execute it; the port also where its rule changed. */
void simavr_step(struct state *state, uint16_t word);
void port_step(struct state *state, uint16_t word, enum rule rule);

#endif
