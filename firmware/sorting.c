#include "sorting.h"

/* Puts the reading among so many that are sorted already; there is room for one more behind them. */
static void insert(int16_t *sorted, uint8_t count, int16_t reading) {
    while (count > 0 && sorted[count - 1] > reading) {
        sorted[count] = sorted[count - 1];
        count--;
    }
    sorted[count] = reading;
}

/* The readings, the lowest first. */
void sort_readings(int16_t sorted[READINGS], const __flash int16_t readings[READINGS]) {
    for (uint8_t i = 0; i < READINGS; i++)
        insert(sorted, i, readings[i]);
}
