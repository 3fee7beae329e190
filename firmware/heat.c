#include "heat.h"

/* The temperature-humidity index of the NRC (1971), T in degrees Celsius and H in per cent:
 *     THI = 1.8 T + 32 - (0.55 - 0.0055 H) (1.8 T - 26)
 * Here in hundredths, with t = 10 T:  18 t + 3200 - 11 (100 - H) (9 t - 1300) / 1000, the quotient cut towards zero. */
int16_t heat_index(int16_t tenths, uint8_t humidity) {
    int32_t dryness = (int32_t)(int16_t)(9 * tenths - 1300) * (int16_t)(11 * (100 - humidity));
    return (int16_t)(18 * tenths + 3200) - (int16_t)(dryness / 1000);
}

/* The place of the humidity with that stamp, or log->humidities where there is none. */
static uint8_t humidity_at(const __flash struct log *log, uint32_t stamp) {
    uint8_t place = 0;
    while (place < log->humidities && log->humidity[place].stamp != stamp)
        place++;
    return place;
}

static void add_hour(struct report *report, uint32_t stamp, int16_t index) {
    struct hour hour = {stamp, index};
    if (report->hours == 0 || index > report->hottest.index)
        report->hottest = hour;
    report->hour[report->hours++] = hour;
}

/* An hour for each temperature that has a humidity of the same stamp. */
void fill_report(struct report *report, const __flash struct log *log) {
    for (uint8_t i = 0; i < log->temperatures; i++) {
        uint32_t stamp = log->temperature[i].stamp;
        uint8_t place = humidity_at(log, stamp);
        if (place < log->humidities)
            add_hour(report, stamp, heat_index(log->temperature[i].value, (uint8_t)log->humidity[place].value));
    }
}
