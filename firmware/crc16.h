/* The sum of the image `crc`, and of a native build of the same file. */
#ifndef CRC16_H
#define CRC16_H

#include "flash.h"
#include <stdint.h>

uint16_t crc16(const __flash uint8_t *bytes, uint16_t count);

#endif
