/* What is run: a program, and machines, each a core with its data; and how two of them are compared. Part of tests/runs.c and tests/schedules.c. */
#ifndef MACHINE_H
#define MACHINE_H

#include "avr_core.h"
#include <stdio.h>

#define UNTOUCHED 0xA5A5A5A5u /* what `*ticks`, and each number of `entered`, holds before a run */
#define MOST_WORDS 65536
#define MOST_DATA 65536
#define ANSWERS 33 /* above every number that a run answers */

struct machine {
    uint8_t snapshot[AVR_SNAPSHOT_BYTES], data[MOST_DATA];
    uint32_t answer, ticks;
};

static uint8_t program[2 * MOST_WORDS];
static size_t snapshot_bytes, program_bytes, data_bytes;

static size_t first_difference(const uint8_t *some, const uint8_t *others, size_t length) {
    size_t at = 0;
    while (at < length && some[at] == others[at])
        at++;
    return at;
}

static int same(uint64_t seed, const char *name, const struct machine *run, const struct machine *single) {
    size_t in_core = first_difference(run->snapshot, single->snapshot, AVR_SNAPSHOT_BYTES), in_data = first_difference(run->data, single->data, MOST_DATA);
    if (run->answer == single->answer && run->ticks == single->ticks && in_core == AVR_SNAPSHOT_BYTES && in_data == MOST_DATA) return 1;
    printf("seed %llu: %s gives %u and %u ticks, avr_tick %u and %u; ", (unsigned long long)seed, name, run->answer, run->ticks, single->answer, single->ticks);
    printf("the snapshots are the same up to byte %zu of %d, data up to byte %zu of %zu\n", in_core, AVR_SNAPSHOT_BYTES, in_data, data_bytes);
    return 0;
}

static uint32_t ticks_of(const struct machine *m) { return m->ticks == UNTOUCHED ? 0 : m->ticks; }

static void tell_answers(const uint64_t times[ANSWERS]) {
    printf("; answers:");
    for (int answer = 0; answer < ANSWERS; answer++)
        if (times[answer]) printf(" %d %llu times", answer, (unsigned long long)times[answer]);
    printf("\n");
}

#endif
