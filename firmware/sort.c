/* The fourth image: the readings of a day sorted in SRAM, with interrupts off. */
#include "chip.h"
#include "sorting.h"

extern const __flash int16_t readings_of_the_day[READINGS];

int16_t sorted[READINGS] __attribute__((section(".report")));

int main(void) {
    sort_readings(sorted, readings_of_the_day);
    stop();
}
