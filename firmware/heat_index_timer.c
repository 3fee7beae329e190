/* The second image: the same report under a timer, whose handler counts and works on flags and registers of its own. */
#include "chip.h"

#define TCA0_CTRLA (*(volatile uint8_t *)0x0A00)
#define TCA0_INTCTRL (*(volatile uint8_t *)0x0A0A)
#define TCA0_INTFLAGS (*(volatile uint8_t *)0x0A0B)
#define TCA0_PER (*(volatile uint16_t *)0x0A26)
#define OVERFLOW 1
#define ENABLE 1

struct report report __attribute__((section(".report")));

/* Stands behind the report, where the check reads it. */
volatile struct {
    uint16_t overflows;
    uint8_t parity;
} __attribute__((packed)) timer __attribute__((section(".timer")));

/* Entered from vector 8 of start.S. GCC saves and restores what it uses, SREG too, and returns by RETI. */
void __attribute__((signal, used, externally_visible)) __vector_8(void) {
    TCA0_INTFLAGS = OVERFLOW;
    timer.overflows++;
    timer.parity ^= (uint8_t)timer.overflows;
}

static void start_timer(void) {
    TCA0_PER = 999;
    TCA0_INTCTRL = OVERFLOW;
    TCA0_CTRLA = ENABLE;
    __asm__ volatile("sei" ::: "memory");
}

int main(void) {
    start_timer();
    fill_report(&report, &log_of_the_day);
    stop();
}
