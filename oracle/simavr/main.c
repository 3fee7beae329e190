/* Holds the port against simavr, under source and again under chip: timing, and every arithmetic instruction, all operands, registers and SREG after one instruction.
 * Under source the port keeps the Rust's V of ADIW (docs/DIFFERENCES.md); it may differ there, and in S with it, and nowhere else. Under chip it may not differ at all. */
#include "instructions.h"
#include "timing.h"
#include <stdio.h>
#include <string.h>

#define V 0x08
#define S 0x10
#define SREGS 8

struct tally {
    enum rule rule;
    uint64_t cases, known, other;
};

/* Both carries and both Z, the other six flags all clear or all set. */
static uint8_t sreg_of(unsigned choice) { return (uint8_t)((choice & 3) | (choice & 4 ? 0xFC : 0)); }

static struct state filled(uint8_t sreg) {
    struct state state = {.sreg = sreg};
    for (uint8_t number = 0; number < 32; number++)
        state.registers[number] = (uint8_t)(0x5A ^ 7 * number);
    return state;
}

/* Whether the two differ in ADIW's V and S alone, as bit 7 in the place of bit 15 of the old word makes them; asked under source alone. */
static int is_known(const struct instruction *instruction, uint32_t old, const struct state *port, const struct state *simavr) {
    if (strcmp(instruction->name, "ADIW") != 0 || memcmp(port->registers, simavr->registers, 32) != 0) return 0;
    int negative = port->registers[25] >= 0x80;
    int rust = negative && !(old & 0x80), manual = negative && !(old & 0x8000);
    return rust != manual && (port->sreg ^ simavr->sreg) == (V | S) && ((port->sreg & V) != 0) == rust;
}

static void show(const struct instruction *instruction, uint32_t first, uint32_t second, const struct state states[3]) {
    static const char *const names[] = {"before", "port", "simavr"};
    printf("%s %04X,%02X:", instruction->name, (unsigned)first, (unsigned)second);
    for (int i = 0; i < 3; i++) {
        printf(" %s SREG %02X", names[i], states[i].sreg);
        for (int number = 0; number < 32; number++)
            if (i > 0 && states[i].registers[number] != states[0].registers[number]) printf(" R%d %02X", number, states[i].registers[number]);
        printf(i < 2 ? ";" : "\n");
    }
}

static void compare(const struct instruction *instruction, uint32_t first, uint32_t second, uint8_t sreg, struct tally *tally) {
    uint16_t word = word_of(instruction, second);
    struct state states[3] = {filled(sreg)};
    put_operands(&states[0], instruction->form, first, second);
    states[1] = states[2] = states[0];
    port_step(&states[1], word, tally->rule);
    simavr_step(&states[2], word);
    tally->cases++;
    if (memcmp(&states[1], &states[2], sizeof states[1]) == 0) return;
    int known = tally->rule == SOURCE && is_known(instruction, first, &states[1], &states[2]);
    uint64_t *count = known ? &tally->known : &tally->other;
    if ((*count)++ == 0) show(instruction, first, second, states);
}

static struct tally compare_all(const struct instruction *instruction, enum rule rule) {
    struct tally tally = {rule, 0, 0, 0};
    for (uint32_t first = 0; first < first_values(instruction->form); first++)
        for (uint32_t second = 0; second < second_values(instruction->form); second++)
            for (unsigned choice = 0; choice < SREGS; choice++)
                compare(instruction, first, second, sreg_of(choice), &tally);
    return tally;
}

static void print(const char *name, const struct tally *tally) {
    printf("%-10s %9llu cases, %llu differ in ADIW's V and S, %llu differ otherwise\n", name, (unsigned long long)tally->cases,
           (unsigned long long)tally->known, (unsigned long long)tally->other);
}

/* Whether nothing differs but what is known. */
static int agrees(enum rule rule) {
    struct tally all = {rule, 0, 0, 0};
    for (unsigned i = 0; i < instruction_count; i++) {
        struct tally tally = compare_all(&instructions[i], rule);
        print(instructions[i].name, &tally);
        all.cases += tally.cases, all.known += tally.known, all.other += tally.other;
    }
    print(rule == CHIP ? "chip:" : "source:", &all);
    return all.other == 0;
}

int main(int count, char **words) {
    int timing = timing_agrees();
    if (count > 1 && strcmp(words[1], "timing") == 0) return timing ? 0 : 1;
    int source = agrees(SOURCE), chip = agrees(CHIP);
    return timing && source && chip ? 0 : 1;
}
