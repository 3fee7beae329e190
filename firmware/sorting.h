/* The order of the image `sort`, and of a native build of the same file. */
#ifndef SORTING_H
#define SORTING_H

#include "flash.h"
#include <stdint.h>

#define READINGS 96 /* one for each quarter of an hour of a day */

void sort_readings(int16_t sorted[READINGS], const __flash int16_t readings[READINGS]);

#endif
