#include "crc16.h"

#define POLYNOMIAL 0x1021 /* x^16 + x^12 + x^5 + 1, highest bit first */
#define START 0xFFFF

static uint16_t with_byte(uint16_t crc, uint8_t byte) {
    crc ^= (uint16_t)(byte << 8);
    for (uint8_t bit = 0; bit < 8; bit++) {
        uint8_t high = (uint8_t)(crc >> 8);
        crc <<= 1;
        if (high & 0x80) crc ^= POLYNOMIAL;
    }
    return crc;
}

/* CRC-16 of the CCITT, from 0xFFFF, bit by bit: 0x29B1 of "123456789". */
uint16_t crc16(const __flash uint8_t *bytes, uint16_t count) {
    uint16_t crc = START;
    while (count-- > 0)
        crc = with_byte(crc, *bytes++);
    return crc;
}
