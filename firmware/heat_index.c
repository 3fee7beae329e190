/* The first image: the report of the log, with interrupts off. */
#include "chip.h"

struct report report __attribute__((section(".report")));

int main(void) {
    fill_report(&report, &log_of_the_day);
    stop();
}
