/* schedules PROGRAMS SEED: random programs and lists of firings, each through one avr_run_schedule and through single calls of avr_tick with the offers that document 02 says (W5); result, count,
 * snapshot, data and every number of `entered` must be the same. It is proved; here the archive that a host links is seen to do it. Program number i has the seed SEED + i, so that one alone
 * can be run again. And one run past the last tick that a record can name. On the way each wait is held against W6: an entry comes at or before the eighth tick. */
#include "random_program.h"
#include <stdlib.h>

#define MOST_BUDGET 1000
#define MOST_RECORDS 300
#define MOST_NUMBERS (MOST_RECORDS + 8) /* a call is lent fewer mostly; the rest has to stay as it is */
#define LAST_TICK 0xFFFFFFu
#define RETI 0x9518
#define SEI 0x9478
#define MOST_WAIT 8

struct scheduled {
    struct machine machine;
    uint32_t entered[MOST_NUMBERS];
};

static uint8_t list[AVR_RECORD_BYTES * (MOST_RECORDS + 1)];
static size_t list_bytes, records, numbers;
static uint32_t budget;
static uint16_t handlers[4];
static struct scheduled by_call, by_tick;
static uint32_t waiting, longest_wait; /* ticks for which W6's conditions held, the entry's included */

static uint32_t tick_of(size_t record) {
    const uint8_t *at = list + AVR_RECORD_BYTES * record;
    return (uint32_t)at[0] << 16 | (uint32_t)at[1] << 8 | at[2];
}

static uint32_t vector_of(size_t record) {
    const uint8_t *at = list + AVR_RECORD_BYTES * record;
    return (uint32_t)at[3] << 8 | at[4];
}

static void put_tick(size_t record, uint32_t tick) {
    for (size_t i = 0; i < 3; i++)
        list[AVR_RECORD_BYTES * record + i] = (uint8_t)(tick >> (16 - 8 * i));
}

static void put_record(size_t record, uint32_t tick, uint16_t vector) {
    put_tick(record, tick);
    list[AVR_RECORD_BYTES * record + 3] = (uint8_t)(vector >> 8);
    list[AVR_RECORD_BYTES * record + 4] = (uint8_t)vector;
}

static uint16_t calm_instruction(void) {
    static const uint16_t calm[] = {0x0000, 0x9503, 0x9601, 0x9F01, 0x9478, 0x9478, 0x94F8}; /* NOP; INC R16; ADIW R24,1; MUL R16,R17; SEI twice; CLI */
    return calm[below(LENGTH(calm))];
}

/* Half of the programs begin with a loop in which an entry is never far off. */
static void make_loop(void) {
    if (one_in(2)) return;
    uint32_t words = 1 + below(20);
    for (size_t at = 0; at < words; at++)
        put_word(at, calm_instruction());
    put_word(words, (uint16_t)(0xCFFF - words)); /* RJMP back */
    put_pair(33, 0);
}

/* Behind the loop: an instruction, and RETI, which a random program has seldom. And I is set mostly. */
static void make_handlers(void) {
    size_t words = program_bytes / 2 < BLOCK_WORDS ? program_bytes / 2 : BLOCK_WORDS;
    for (size_t i = 0; i < LENGTH(handlers); i++) {
        handlers[i] = (uint16_t)(words < 64 ? 24 : 24 + below((uint32_t)words - 26));
        put_word(handlers[i], one_in(16) ? any_instruction() : calm_instruction());
        put_word(handlers[i] + 1u, RETI);
    }
    if (!one_in(4)) first.snapshot[32] |= 0x80;
}

/* Dense or sparse, from the first tick or a later one, now and then none; the last ones are often behind the budget, and the very last may be far behind it. */
static void make_list(void) {
    static const uint32_t gaps[] = {1, 5, 50, 500};
    uint32_t gap = gaps[below(LENGTH(gaps))], tick = one_in(2) ? 0 : below(budget + 2);
    records = one_in(4) ? below(3) : below(MOST_RECORDS + 1);
    for (size_t i = 0; i < records; i++) {
        tick += 1 + below(gap);
        put_record(i, tick, one_in(50) ? place() : handlers[below(LENGTH(handlers))]);
    }
    if (records > 0 && one_in(4)) put_tick(records - 1, LAST_TICK - below(2));
    list_bytes = AVR_RECORD_BYTES * records;
    numbers = one_in(2) ? records : records + below(MOST_NUMBERS - MOST_RECORDS + 1);
}

/* One list in six, in up to three ways, so that the order of the refusals shows. */
static void spoil_list(void) {
    if (!one_in(6)) return;
    if (one_in(2) && records > 0) {
        size_t record = below((uint32_t)records);
        put_tick(record, record == 0 ? 0 : one_in(2) ? tick_of(record - 1) : below(tick_of(record - 1)));
    }
    if (one_in(2) && records > 0) numbers = below((uint32_t)records);
    if (one_in(2)) list_bytes = records > 0 && one_in(2) ? list_bytes - 1 - below(4) : list_bytes + 1 + below(4);
}

static void by_one_call(struct scheduled *s) {
    struct machine *m = &s->machine;
    m->ticks = UNTOUCHED;
    m->answer = avr_run_schedule(m->snapshot, snapshot_bytes, program, program_bytes, m->data, data_bytes, list, list_bytes, budget, s->entered, numbers, &m->ticks);
}

/* What is refused before anything is run: the snapshot as 01 says, then 'list not whole records', 'ticks zero or not rising', 'output shorter than the number of records'. */
static uint32_t refusal(void) {
    uint8_t last = first.snapshot[AVR_SNAPSHOT_BYTES - 1];
    if (snapshot_bytes != AVR_SNAPSHOT_BYTES) return 7;
    if (last >> 5 > 4) return 8;
    if ((last & 3) != 0) return 9;
    if (list_bytes % AVR_RECORD_BYTES != 0) return 30;
    for (size_t i = 0; i < records; i++)
        if (tick_of(i) == 0 || (i > 0 && tick_of(i) <= tick_of(i - 1))) return 31;
    return numbers < records ? 32 : 0;
}

/* 'The earliest record that is due and not yet entered'; where there is none, as many as there are. */
static size_t offered_at(uint32_t tick, const uint32_t *entered) {
    size_t record = 0;
    while (record < records && !(tick_of(record) <= tick && entered[record] == 0))
        record++;
    return record;
}

/* W6: 'from a core with busy at most 3, not in service, with a vector offered at every tick and I set before every tick'. */
static void wait_on(const uint8_t *snapshot, int offered) {
    uint8_t last = snapshot[AVR_SNAPSHOT_BYTES - 1];
    if (!offered || !(snapshot[32] & 0x80) || (last & 0x08))
        waiting = 0;
    else if (waiting > 0 || last >> 5 <= 3)
        waiting++;
}

/* 'The entry comes at or before the eighth tick, provided .. no RETI runs meanwhile and, under the chip rule, no BSET 7 does'; word is the one at PC before the tick. */
static int waited(uint32_t answer, unsigned word, int chip) {
    if (waiting > longest_wait && answer == 17) longest_wait = waiting;
    if (waiting >= MOST_WAIT && answer != 17 && answer >= 16) return 0;
    if (answer == 17 || (answer >= 18 && (word == RETI || (chip && word == SEI)))) waiting = 0;
    return 1;
}

static unsigned word_at_pc(const uint8_t *snapshot) {
    size_t at = 2 * ((size_t)snapshot[33] << 8 | snapshot[34]);
    return at + 1 < program_bytes ? program[at] | (unsigned)program[at + 1] << 8 : 0;
}

/* 'It equals single ticks with those offers', 'the tick of its entry, or 0 where the run stopped before one'. It stops as in tests/runs.c. */
static void by_ticks(struct scheduled *s) {
    struct machine *m = &s->machine;
    m->ticks = UNTOUCHED;
    m->answer = refusal();
    if (m->answer != 0) return;
    memset(s->entered, 0, records * sizeof s->entered[0]);
    waiting = 0;
    for (m->ticks = 0; m->ticks < budget; m->ticks++) {
        uint32_t tick = m->ticks + 1;
        size_t record = offered_at(tick, s->entered);
        unsigned word = word_at_pc(m->snapshot);
        wait_on(m->snapshot, record < records);
        m->answer = avr_tick(m->snapshot, snapshot_bytes, program, program_bytes, m->data, data_bytes, record < records ? vector_of(record) : AVR_NO_OFFER);
        if (!waited(m->answer, word, m->snapshot[AVR_RULE_BYTE] & AVR_RULE_CHIP)) printf("tick %u: no entry in %d ticks\n", tick, MOST_WAIT), exit(1);
        if (m->answer < 16) return;
        if (m->answer == 17) s->entered[record] = tick;
        if (m->answer == 22 || m->answer == 23) {
            m->ticks++;
            return;
        }
    }
    m->answer = 24;
}

static int try_both(uint64_t seed) {
    records = list_bytes / AVR_RECORD_BYTES;
    by_call.machine = by_tick.machine = first;
    for (size_t i = 0; i < MOST_NUMBERS; i++)
        by_call.entered[i] = by_tick.entered[i] = UNTOUCHED;
    by_one_call(&by_call);
    by_ticks(&by_tick);
    if (!same(seed, "avr_run_schedule", &by_call.machine, &by_tick.machine)) return 0;
    for (size_t i = 0; i < MOST_NUMBERS; i++)
        if (by_call.entered[i] != by_tick.entered[i]) {
            printf("seed %llu: number %zu of `entered`, of %zu for %zu records, is %u, by avr_tick %u\n", (unsigned long long)seed, i, numbers, records, by_call.entered[i], by_tick.entered[i]);
            return 0;
        }
    return 1;
}

static int try_one(uint64_t seed) {
    make_machine(seed);
    make_loop();
    make_handlers();
    budget = one_in(20) ? 0 : one_in(4) ? below(40) : MOST_BUDGET;
    make_list();
    spoil_list();
    return try_both(seed);
}

/* RJMP to itself, I set, and a handler of RETI alone: the first record is entered at the last tick that a record can name, the second, due then too, when the handler has returned. */
static int try_last_ticks(void) {
    make_machine(0);
    program_bytes = data_bytes = 16;
    put_word(0, 0xCFFF);
    put_word(1, RETI);
    memset(first.snapshot, 0, AVR_SNAPSHOT_BYTES);
    first.snapshot[32] = 0x80;
    first.snapshot[36] = 15;
    snapshot_bytes = AVR_SNAPSHOT_BYTES;
    put_record(0, LAST_TICK - 1, 1);
    put_record(1, LAST_TICK, 1);
    list_bytes = 2 * AVR_RECORD_BYTES;
    numbers = 2;
    budget = LAST_TICK + 100;
    return try_both(0) && by_call.entered[0] == LAST_TICK && by_call.entered[1] > LAST_TICK;
}

/* How many of the records were entered, and how many of these at a later tick than theirs. */
static void count(uint64_t counts[3]) {
    for (size_t i = 0; i < records && i < numbers && by_call.entered[i] != UNTOUCHED; i++) {
        counts[0]++;
        counts[1] += by_call.entered[i] != 0;
        counts[2] += by_call.entered[i] > tick_of(i);
    }
}

int main(int words, char **word) {
    if (words != 3) return fprintf(stderr, "schedules PROGRAMS SEED\n"), 2;
    uint64_t programs = strtoull(word[1], NULL, 10), seed = strtoull(word[2], NULL, 10), ticks = 0, counts[3] = {0}, ended[ANSWERS] = {0};
    for (uint64_t i = 0; i < programs; i++) {
        if (!try_one(seed + i)) return 1;
        ticks += ticks_of(&by_call.machine);
        ended[by_call.machine.answer]++;
        count(counts);
    }
    if (!try_last_ticks()) return printf("no entries at tick %u and behind it\n", LAST_TICK), 1;
    printf("%llu programs, %llu ticks, no difference; ", (unsigned long long)programs, (unsigned long long)ticks);
    printf("%llu of %llu records entered, %llu of them late; the longest wait that 02 bounds is %u ticks", (unsigned long long)counts[1], (unsigned long long)counts[0], (unsigned long long)counts[2], longest_wait);
    tell_answers(ended);
    return 0;
}
