/* The port: a tick of a snapshot with the word at PC 0, and ticks with an interrupt that waits. */
#include "avr_core.h"
#include "timing.h"
#include <stdio.h>
#include <stdlib.h>
#include <string.h>

#define ENTERED 17
#define RAN 18
#define BROKE 22
#define VECTOR 0x0100
#define MANY 64

void port_step(struct state *state, uint16_t word, enum rule rule) {
    uint8_t snapshot[AVR_SNAPSHOT_BYTES] = {0}, data[1] = {0}, bit = rule == CHIP ? AVR_RULE_CHIP : 0;
    const uint8_t program[2] = {(uint8_t)word, (uint8_t)(word >> 8)};
    memcpy(snapshot, state->registers, 32);
    snapshot[32] = state->sreg;
    snapshot[AVR_RULE_BYTE] |= bit;
    uint32_t answer = avr_tick(snapshot, sizeof snapshot, program, sizeof program, data, sizeof data, AVR_NO_OFFER);
    if (answer != RAN || (snapshot[AVR_RULE_BYTE] & AVR_RULE_CHIP) != bit) {
        printf("the port answered %u to %04X, last byte %02X\n", (unsigned)answer, word, snapshot[AVR_RULE_BYTE]);
        exit(2);
    }
    memcpy(state->registers, snapshot, 32);
    state->sreg = snapshot[32];
}

struct machine {
    uint8_t snapshot[AVR_SNAPSHOT_BYTES], program[1024], data[1024];
};

static void ready(struct machine *machine, const uint16_t words[WORDS], enum rule rule) {
    memset(machine, 0, sizeof *machine);
    for (int i = 0; i < WORDS; i++)
        machine->program[2 * i] = (uint8_t)words[i], machine->program[2 * i + 1] = (uint8_t)(words[i] >> 8);
    uint8_t *snapshot = machine->snapshot;
    put_timing_registers(snapshot);
    snapshot[32] = TIMING_SREG;
    snapshot[35] = TIMING_SP >> 8;
    snapshot[AVR_RULE_BYTE] = rule == CHIP ? AVR_RULE_CHIP : 0;
    machine->data[TIMING_IO] = 1;
}

static uint32_t tick(struct machine *machine, uint32_t offer) {
    return avr_tick(machine->snapshot, AVR_SNAPSHOT_BYTES, machine->program, sizeof machine->program, machine->data, sizeof machine->data, offer);
}

unsigned port_cycles(const uint16_t words[WORDS], enum rule rule) {
    struct machine machine;
    ready(&machine, words, rule);
    uint32_t answer = tick(&machine, AVR_NO_OFFER);
    if (answer < RAN || answer > BROKE) {
        printf("the port answered %u to %04X\n", (unsigned)answer, words[0]);
        exit(2);
    }
    return 1 + (machine.snapshot[AVR_RULE_BYTE] >> 5); /* the busy count */
}

unsigned port_before_entry(const uint16_t words[WORDS], enum rule rule) {
    struct machine machine;
    unsigned executed = 0;
    ready(&machine, words, rule);
    for (int ticks = 0; ticks < MANY; ticks++) {
        uint32_t answer = tick(&machine, VECTOR);
        if (answer == ENTERED) return executed - 1;
        executed += answer >= RAN;
    }
    return MANY;
}
