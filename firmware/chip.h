/* What the images have from the linker script and the chip. */
#ifndef CHIP_H
#define CHIP_H

#include "heat.h"

extern const __flash struct log log_of_the_day; /* at LOG_PLACE of program memory */
extern struct report report;                    /* at REPORT_PLACE of data memory */

/* The core ends at BREAK; a chip whose debugger is off goes on behind it. */
static inline void __attribute__((noreturn)) stop(void) {
    __asm__ volatile("break");
    for (;;) {
    }
}

#endif
