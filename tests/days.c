/* Works out the index of days of readings by heat.c, built natively: the other side of the comparison in tests/index.sh. Its arguments are CSV files that have been found right.
 * Prints what `reports_of` in firmware/index.sh prints. */
#define _DEFAULT_SOURCE /* timegm */
#include "heat.h"
#include <stdio.h>
#include <stdlib.h>
#include <string.h>
#include <time.h>

#define ENDED_AT_BREAK 22

static uint32_t stamp_of(const char *line) {
    struct tm time = {0};
    if (sscanf(line, "%d-%d-%d %d:%d", &time.tm_year, &time.tm_mon, &time.tm_mday, &time.tm_hour, &time.tm_min) != 5) exit(1);
    time.tm_year -= 1900;
    time.tm_mon -= 1;
    return (uint32_t)timegm(&time);
}

static int16_t tenths_of(const char *text) {
    double degrees = strtod(text, NULL);
    return (int16_t)(degrees * 10 + (degrees < 0 ? -0.5 : 0.5));
}

static void add_line(struct log *log, const char *line) {
    uint32_t stamp = stamp_of(line);
    const char *temperature = strchr(line, ',') + 1, *humidity = strchr(temperature, ',') + 1;
    if (*temperature != ',') log->temperature[log->temperatures++] = (struct reading){stamp, tenths_of(temperature)};
    if (*humidity >= '0') log->humidity[log->humidities++] = (struct reading){stamp, (int16_t)atoi(humidity)};
}

static struct log log_of(const char *name) {
    struct log log = {0};
    char line[256];
    FILE *file = fopen(name, "r");
    if (!file) exit(1);
    while (fgets(line, sizeof line, file))
        if (line[0] >= '0' && line[0] <= '9') add_line(&log, line);
    fclose(file);
    return log;
}

int main(int count, char **names) {
    for (int day = 1; day < count; day++) {
        struct log log = log_of(names[day]);
        struct report report = {0};
        fill_report(&report, &log);
        printf("day\t%d\t%d\n", day, ENDED_AT_BREAK);
        for (int i = 0; i < report.hours; i++)
            printf("index\t%lu\t%d\n", (unsigned long)report.hour[i].stamp, report.hour[i].index);
        if (report.hours > 0) printf("hottest\t%lu\n", (unsigned long)report.hottest.stamp);
    }
}
