/* runs PROGRAMS SEED: random programs, each through one avr_run of 1,000 ticks and through single calls of avr_tick; result, count, snapshot and data must be the same.
 * It is proved; here the archive that a host links is seen to do it. Program number i has the seed SEED + i, so that one alone can be run again. */
#include "random_program.h"
#include <stdlib.h>

#define BUDGET 1000

static uint32_t offer;
static struct machine run, single;

/* Now and then one that is refused. */
static void make_offer(void) {
    offer = one_in(2) ? AVR_NO_OFFER : place();
    if (one_in(200)) offer = AVR_NO_OFFER + below(65536);
}

static void by_run(struct machine *m) {
    m->ticks = UNTOUCHED;
    m->answer = avr_run(m->snapshot, snapshot_bytes, program, program_bytes, m->data, data_bytes, offer, BUDGET, &m->ticks);
}

/* What avr_core.h says of a run: it ends at the budget, break, end or a refusal; a refused tick does not count, and where a check refuses nothing is counted. */
static void by_ticks(struct machine *m) {
    for (m->ticks = 0; m->ticks < BUDGET; m->ticks++) {
        m->answer = avr_tick(m->snapshot, snapshot_bytes, program, program_bytes, m->data, data_bytes, offer);
        if (m->answer == 22 || m->answer == 23) {
            m->ticks++;
            return;
        }
        if (m->answer >= 7 && m->answer <= 10) m->ticks = UNTOUCHED;
        if (m->answer < 16) return;
    }
    m->answer = 24;
}

static int try_one(uint64_t seed) {
    make_machine(seed);
    make_offer();
    run = single = first;
    by_run(&run);
    by_ticks(&single);
    return same(seed, "avr_run", &run, &single);
}

int main(int words, char **word) {
    if (words != 3) return fprintf(stderr, "runs PROGRAMS SEED\n"), 2;
    uint64_t programs = strtoull(word[1], NULL, 10), seed = strtoull(word[2], NULL, 10), ticks = 0, ended[ANSWERS] = {0};
    for (uint64_t i = 0; i < programs; i++) {
        if (!try_one(seed + i)) return 1;
        ticks += ticks_of(&run);
        ended[run.answer]++;
    }
    printf("%llu programs, %llu ticks, no difference", (unsigned long long)programs, (unsigned long long)ticks);
    tell_answers(ended);
    return 0;
}
