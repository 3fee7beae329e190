/* The readings of 14 July 2026, as the loggers left them: no humidity of 13:00 and no temperature of 15:00. */
#include "heat.h"

#define AT(hour) (1784030400UL + 3600UL * ((hour) - 12))

const __flash struct log log_of_the_day = {
    .temperatures = 3,
    .humidities = 3,
    .temperature = {{AT(12), 284}, {AT(13), 301}, {AT(14), 317}},
    .humidity = {{AT(12), 58}, {AT(14), 49}, {AT(15), 47}},
};
