/* simavr for src/simavr.rs: a plain core with SRAM where the firmware has its data, without timers and interrupts. A pass is one call of avr_run_one. */
#include <simavr/sim_avr.h>
#include <simavr/sim_core.h>
#include <stddef.h>
#include <string.h>

#define MCU "atmega1284"
#define BREAK 0x9598
#define IO_END 0x100

avr_t *simavr_open(const uint8_t *image, size_t length) {
    avr_t *avr = avr_make_mcu_by_name(MCU);
    if (!avr || avr_init(avr) != 0) return NULL;
    memcpy(avr->flash, image, length);
    return avr;
}

/* As a snapshot of zeros: registers, SREG, SP and PC 0; data stays. */
void simavr_restart(avr_t *avr) {
    memset(avr->data, 0, 32);
    memset(avr->sreg, 0, sizeof avr->sreg);
    _avr_sp_set(avr, 0);
    avr->pc = 0;
}

/* Instructions of that many cycles together; whether none of them stopped the core. */
int simavr_go(avr_t *avr, uint32_t cycles) {
    avr->run_cycle_count = cycles;
    avr->pc = avr_run_one(avr);
    return avr->state == cpu_Running;
}

static unsigned word_at(const avr_t *avr, avr_flashaddr_t place) { return avr->flash[place] | (unsigned)avr->flash[place + 1] << 8; }

/* The cycles of a fresh core's run up to BREAK, an instruction at a time. What it stored is cleared, so that a pass has to store it. */
uint32_t simavr_cycles_to_break(avr_t *avr) {
    simavr_restart(avr);
    avr_cycle_count_t start = avr->cycle;
    while (word_at(avr, avr->pc) != BREAK)
        simavr_go(avr, 0);
    memset(avr->data + IO_END, 0, avr->ramend + 1 - IO_END);
    return (uint32_t)(avr->cycle - start);
}

/* Registers, data of which the part that holds registers and I/O on this chip is left out, and PC in words. */
uint16_t simavr_read(const avr_t *avr, uint8_t *registers, uint8_t *data, size_t length) {
    memcpy(registers, avr->data, 32);
    memcpy(data + IO_END, avr->data + IO_END, length - IO_END);
    return (uint16_t)(avr->pc / 2);
}
