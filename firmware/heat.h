/* Heat stress of the hours of a log: what the firmware works out, and what a native build of the same file works out. */
#ifndef HEAT_H
#define HEAT_H

#include "flash.h"
#include <stdint.h>

#define HOURS 8

struct reading {
    uint32_t stamp; /* seconds since 1970 */
    int16_t value;  /* tenths of a degree Celsius, or per cent of relative humidity */
} __attribute__((packed));

struct log {
    uint8_t temperatures, humidities; /* how many of each are used, at most HOURS */
    struct reading temperature[HOURS], humidity[HOURS];
} __attribute__((packed));

struct hour {
    uint32_t stamp;
    int16_t index; /* hundredths */
} __attribute__((packed));

struct report {
    uint8_t hours;
    struct hour hour[HOURS], hottest;
} __attribute__((packed));

int16_t heat_index(int16_t tenths, uint8_t humidity);
void fill_report(struct report *report, const __flash struct log *log);

#endif
