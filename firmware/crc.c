/* The third image: the CRC of program memory from its start to the end of the log, with interrupts off. */
#include "chip.h"
#include "crc16.h"

extern const __flash uint8_t program_start[], program_end[];

uint16_t crc __attribute__((section(".report")));

int main(void) {
    crc = crc16(program_start, (uint16_t)(program_end - program_start));
    stop();
}
