/* The arithmetic instructions, and how their words and operands are made. */
#ifndef INSTRUCTIONS_H
#define INSTRUCTIONS_H

#include "state.h"

enum form {
    ONE,       /* Rd: R16 */
    TWO,       /* Rd, Rr: R16, R17, anywhere in the file */
    SAME,      /* Rd, Rd: R16 */
    IMMEDIATE, /* Rd, K: R16 and a byte */
    PAIR,      /* Rd+1:Rd, K: R25:R24 and 0 to 63 */
    UPPER,     /* Rd, Rr: R18, R19, four bits each */
    MIDDLE     /* Rd, Rr: R20, R21, three bits each */
};

struct instruction {
    const char *name;
    enum form form;
    uint16_t pattern;
};

extern const struct instruction instructions[];
extern const unsigned instruction_count;

/* How many values the first operand takes, and the second (1 where there is none). */
uint32_t first_values(enum form form);
uint32_t second_values(enum form form);

/* The instruction's word, and the operands put into the registers. */
uint16_t word_of(const struct instruction *instruction, uint32_t second);
void put_operands(struct state *state, enum form form, uint32_t first, uint32_t second);

#endif
