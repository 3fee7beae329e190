/* Holds the port's timing against simavr's: the cycles of every instruction, and the safe instruction behind SEI. The known differences are counted, and any other fails. */
#include "timing.h"
#include <stdio.h>

#define SEI 0x9478
#define OUT_SREG 0xBF2F /* OUT 0x3F, R18: R18 has bit 7 */
#define SLEEP 0x9588
#define BREAK 0x9598
#define RETI 0x9518
#define SAFE_IN_SIMAVR 2 /* it looks for interrupts again one instruction late */

static int cycles_agree(void) {
    unsigned same = 0, known = 0, other = 0, by_rule = 0;
    for (unsigned i = 0; i < timed_count; i++) {
        unsigned source = port_cycles(timed[i].words, SOURCE), chip = port_cycles(timed[i].words, CHIP), simavr = simavr_cycles(timed[i].words);
        const struct listed *as = listed_as(&timed[i]);
        unsigned *count = as && chip == as->xt && simavr == as->older ? &known : !as && chip == simavr ? &same : &other;
        (*count)++;
        if (source != chip) by_rule++;
        if (source != chip || count != &same)
            printf("%-20s %u cycles under source, %u under chip, %u in simavr%s\n", timed[i].name, source, chip, simavr, count == &other ? ": not known" : "");
    }
    printf("cycles:     %u cases, %u differ between source and chip; chip and simavr: %u the same, %u differ by the older core, %u differ otherwise\n", timed_count,
           by_rule, same, known, other);
    return other == 0;
}

/* SLEEP and BREAK stop simavr, and RETI makes the next instruction safe itself. */
static int may_stand_behind(uint16_t word) { return word != SLEEP && word != BREAK && word != RETI; }

static int sei_agrees(void) {
    unsigned cases = 0, other = 0;
    for (unsigned i = 0; i < timed_count; i++) {
        const uint16_t *words = timed[i].words, routine[WORDS] = {SEI, words[0], words[1], words[2]};
        if (!may_stand_behind(words[0])) continue;
        unsigned source = port_before_entry(routine, SOURCE), chip = port_before_entry(routine, CHIP), simavr = simavr_before_entry(routine);
        cases++;
        if (source == 0 && chip == 1 && simavr == SAFE_IN_SIMAVR) continue;
        other++;
        printf("SEI, %s: %u run before the entry under source, %u under chip, %u in simavr: not known\n", timed[i].name, source, chip, simavr);
    }
    printf("behind SEI: %u cases; before the entry run 0 instructions under source, 1 under chip, %u in simavr; %u differ otherwise\n", cases, SAFE_IN_SIMAVR, other);
    return other == 0;
}

/* I set by writing SREG: 02 has BSET 7 alone, simavr goes by the flag. */
static int out_agrees(void) {
    const uint16_t routine[WORDS] = {OUT_SREG};
    unsigned source = port_before_entry(routine, SOURCE), chip = port_before_entry(routine, CHIP), simavr = simavr_before_entry(routine);
    printf("behind OUT: before the entry run %u instructions under source, %u under chip, %u in simavr\n", source, chip, simavr);
    return source == 0 && chip == 0 && simavr == SAFE_IN_SIMAVR;
}

int timing_agrees(void) {
    int cycles = cycles_agree(), sei = sei_agrees(), out = out_agrees();
    return cycles && sei && out;
}
