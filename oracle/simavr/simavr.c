/* simavr: one instruction of a plain core with MUL, the word at PC 0, and instructions with an interrupt that waits. */
#include "timing.h"
#include <simavr/sim_avr.h>
#include <simavr/sim_core.h>
#include <simavr/sim_interrupts.h>
#include <stdio.h>
#include <stdlib.h>
#include <string.h>

#define MCU "atmega328p"
#define IO_SPACE 0x20 /* I/O bytes stand behind the registers */
#define MANY 64

static avr_t *opened(void) {
    avr_t *avr = avr_make_mcu_by_name(MCU);
    if (!avr || avr_init(avr) != 0) {
        printf("simavr has no " MCU "\n");
        exit(2);
    }
    return avr;
}

/* The one core, opened where it is first asked for. */
static avr_t *core(void) {
    static avr_t *avr;
    if (!avr) avr = opened();
    return avr;
}

static void put_sreg(avr_t *avr, uint8_t sreg) {
    for (int bit = 0; bit < 8; bit++)
        avr->sreg[bit] = sreg >> bit & 1;
}

void simavr_step(struct state *state, uint16_t word) {
    avr_t *avr = core();
    avr->flash[0] = (uint8_t)word;
    avr->flash[1] = (uint8_t)(word >> 8);
    memcpy(avr->data, state->registers, 32);
    put_sreg(avr, state->sreg);
    avr->pc = 0;
    avr->run_cycle_count = 0; /* so that it stops after one instruction */
    if (avr_run_one(avr) != 2) {
        printf("simavr did not execute %04X\n", word);
        exit(2);
    }
    memcpy(state->registers, avr->data, 32);
    state->sreg = 0;
    for (int bit = 0; bit < 8; bit++)
        state->sreg |= (uint8_t)((avr->sreg[bit] != 0) << bit);
}

static avr_t *ready(const uint16_t words[WORDS]) {
    avr_t *avr = core();
    memset(avr->flash, 0, 1024);
    for (int i = 0; i < WORDS; i++)
        avr->flash[2 * i] = (uint8_t)words[i], avr->flash[2 * i + 1] = (uint8_t)(words[i] >> 8);
    memset(avr->data + 0x100, 0, 1024);
    put_timing_registers(avr->data);
    put_sreg(avr, TIMING_SREG);
    avr->data[R_SPH] = TIMING_SP >> 8;
    avr->data[R_SPL] = TIMING_SP & 255;
    avr->data[IO_SPACE + TIMING_IO] = 1;
    avr->pc = 0;
    avr->state = cpu_Running;
    avr->interrupt_state = 0;
    avr->run_cycle_count = 0;
    avr->run_cycle_limit = 1; /* one instruction a call */
    return avr;
}

unsigned simavr_cycles(const uint16_t words[WORDS]) {
    avr_t *avr = ready(words);
    avr_cycle_count_t before = avr->cycle;
    avr_run_one(avr);
    return (unsigned)(avr->cycle - before);
}

unsigned simavr_before_entry(const uint16_t words[WORDS]) {
    avr_t *avr = ready(words);
    avr_int_vector_t *vector = avr->interrupts.vector[0];
    avr_clear_interrupt(avr, vector);
    avr_regbit_set(avr, vector->enable);
    avr_raise_interrupt(avr, vector);
    for (unsigned executed = 1; executed < MANY; executed++) {
        avr->run(avr); /* what simavr's avr_run calls: that name is the port's here */
        if (avr->pc == vector->vector * (avr_flashaddr_t)avr->vector_size) return executed - 1;
    }
    return MANY;
}
