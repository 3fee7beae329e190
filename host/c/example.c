/* Runs document 01's example through the C interface, each tick foretold, writes it as a HEX file and reads that back, runs line 2 of 01's bench sheet and a sampling routine under both rules, and
 * a loop by an interrupt schedule; fails where an answer is not the one that the documents name. */
#include "avr_core.h"
#include <stdio.h>
#include <string.h>

static const uint8_t program[] = {0x05, 0xE0, 0x01, 0x96, 0x98, 0x95}; /* LDI R16,5; ADIW R25:R24,1; BREAK */
static const uint32_t answers[] = {AVR_RAN, AVR_RAN, AVR_WAITED, AVR_BREAK};

static int ticks_and_runs(void) {
    static uint8_t data[16384];
    uint8_t snapshot[AVR_SNAPSHOT_BYTES] = {0}, again[AVR_SNAPSHOT_BYTES] = {0};
    uint32_t ticks = 0;
    for (int i = 0; i < 4; i++) {
        uint32_t foretold = avr_foretell(snapshot, sizeof snapshot, program, sizeof program, data, sizeof data, AVR_NO_OFFER);
        uint32_t answer = avr_tick(snapshot, sizeof snapshot, program, sizeof program, data, sizeof data, AVR_NO_OFFER);
        printf("%s\n", avr_word(answer));
        if (answer != answers[i] || foretold != answer) return 0;
    }
    if (avr_run(again, sizeof again, program, sizeof program, data, sizeof data, AVR_NO_OFFER, 10, &ticks) != AVR_BREAK || ticks != 4) return 0;
    return avr_register(snapshot, 16) == 5 && avr_register(again, 16) == 5;
}

/* A fresh core with I set. */
static void put_core(uint8_t snapshot[AVR_SNAPSHOT_BYTES]) {
    avr_fresh(snapshot, 15);
    avr_set_sreg(snapshot, 0x80);
}

/* A core with I set, asked with no interrupt offered and with one, and asked what is refused: without a program, and by each check. */
static int foretells(void) {
    uint8_t snapshot[AVR_SNAPSHOT_BYTES], before[AVR_SNAPSHOT_BYTES], data[16] = {0};
    put_core(snapshot);
    memcpy(before, snapshot, sizeof before);
    if (avr_foretell(snapshot, sizeof snapshot, program, sizeof program, data, sizeof data, AVR_NO_OFFER) != AVR_RAN) return 0;
    if (avr_foretell(snapshot, sizeof snapshot, program, sizeof program, data, sizeof data, 2) != AVR_ENTERED) return 0;
    if (avr_foretell(snapshot, sizeof snapshot, program, sizeof program, data, 15, 2) != AVR_REFUSED_DATA) return 0;
    if (avr_foretell(snapshot, sizeof snapshot, program, 1, data, sizeof data, AVR_NO_OFFER) != AVR_REFUSED_PROGRAM) return 0;
    if (avr_foretell(snapshot, 37, program, sizeof program, data, sizeof data, AVR_NO_OFFER) != AVR_REFUSED_SNAPSHOT_LENGTH) return 0;
    if (avr_foretell(snapshot, 37, program, sizeof program, data, sizeof data, AVR_NO_OFFER + 1) != AVR_REFUSED_OFFER) return 0;
    return memcmp(before, snapshot, sizeof before) == 0;
}

static int writes_and_reads(void) {
    uint8_t text[AVR_HEX_BYTES(sizeof program)], back[sizeof program] = {0};
    size_t written = 0, line = 0;
    if (avr_hex_write(program, sizeof program, text, sizeof text, &written) != AVR_DONE || written != sizeof text) return 0;
    printf("%.*s", (int)written, (const char *)text);
    if (memcmp(text, ":0600000005E00196989551\n:00000001FF\n", written) != 0) return 0;
    if (avr_hex_read(text, written, back, sizeof back, &line) != AVR_DONE || line != 0 || memcmp(back, program, sizeof back) != 0) return 0;
    text[22] = '2'; /* the sum of line 1 */
    return avr_hex_read(text, written, back, sizeof back, &line) == AVR_REFUSED_LINE_SUM && line == 1 && memcmp(back, program, sizeof back) == 0;
}

/* The core in the snapshot takes ADIW R25:R24,1 on 0x8001 from SREG 0. */
static int leaves_sreg(uint8_t snapshot[AVR_SNAPSHOT_BYTES], uint8_t sreg) {
    static const uint8_t adiw[] = {0x01, 0x96};
    unsigned rule = avr_rule(snapshot);
    uint8_t data[1] = {0};
    avr_set_register(snapshot, 24, 0x01);
    avr_set_register(snapshot, 25, 0x80);
    if (avr_tick(snapshot, AVR_SNAPSHOT_BYTES, adiw, sizeof adiw, data, sizeof data, AVR_NO_OFFER) != AVR_RAN) return 0;
    printf("%s: SREG %02X\n", rule == AVR_RULE_CHIP ? "chip" : "source", avr_sreg(snapshot));
    return avr_register(snapshot, 24) == 0x02 && avr_register(snapshot, 25) == 0x80 && avr_sreg(snapshot) == sreg && avr_rule(snapshot) == rule;
}

static int goes_by_the_rule(void) {
    uint8_t source[AVR_SNAPSHOT_BYTES] = {0}, chip[AVR_SNAPSHOT_BYTES] = {0}, again[AVR_SNAPSHOT_BYTES] = {0};
    avr_set_rule(chip, AVR_RULE_CHIP);
    avr_set_rule(again, AVR_RULE_CHIP);
    avr_set_rule(again, AVR_RULE_SOURCE);
    return leaves_sreg(source, 0x0C) && leaves_sreg(chip, 0x14) && leaves_sreg(again, 0x0C); /* N V, N S */
}

/* SEI and ST X,R16 while a handler waits, which takes the sample: LDS R17,0; RETI. The old sample is 05, the new one 2A. */
static int takes(unsigned rule, uint8_t sample) {
    static const uint8_t routine[] = {0x78, 0x94, 0x0C, 0x93, 0x10, 0x91, 0x00, 0x00, 0x18, 0x95};
    uint8_t snapshot[AVR_SNAPSHOT_BYTES], data[16] = {0x05};
    uint32_t ticks = 0;
    avr_fresh(snapshot, 15);
    avr_set_register(snapshot, 16, 0x2A);
    avr_set_rule(snapshot, rule);
    if (avr_run(snapshot, sizeof snapshot, routine, sizeof routine, data, sizeof data, 2, 8, &ticks) != AVR_BUDGET || ticks != 8) return 0;
    printf("%s: sample %02X\n", rule == AVR_RULE_CHIP ? "chip" : "source", avr_register(snapshot, 17));
    return avr_register(snapshot, 17) == sample;
}

static int is_safe_behind_sei(void) { return takes(AVR_RULE_SOURCE, 0x05) && takes(AVR_RULE_CHIP, 0x2A); }

/* 21 ticks of INC R16 and RJMP, round and round; the handler at word 2 takes R16 as its sample: MOV R17,R16; RETI. */
static uint32_t run_by(const uint8_t *list, size_t list_len, uint8_t snapshot[AVR_SNAPSHOT_BYTES], uint8_t data[16], uint32_t *entered, size_t entered_len,
                       uint32_t *ticks) {
    static const uint8_t loop[] = {0x03, 0x95, 0xFE, 0xCF, 0x10, 0x2F, 0x18, 0x95};
    return avr_run_schedule(snapshot, AVR_SNAPSHOT_BYTES, loop, sizeof loop, data, 16, list, list_len, 21, entered, entered_len, ticks);
}

/* The timer fires at tick 4, and at tick 5 while its handler runs. That one is entered when the handler has returned, at tick 13, and one instruction more has run. */
static int follows_a_schedule(void) {
    uint8_t snapshot[AVR_SNAPSHOT_BYTES], data[16] = {0}, list[2 * AVR_RECORD_BYTES];
    uint32_t entered[3] = {7, 7, 7}, ticks = 0;
    put_core(snapshot);
    avr_set_record(list, 4, 2);
    avr_set_record(list + AVR_RECORD_BYTES, 5, 2);
    if (run_by(list, sizeof list, snapshot, data, entered, 3, &ticks) != AVR_BUDGET || ticks != 21) return 0;
    printf("entered at ticks %u and %u, sample %u\n", (unsigned)entered[0], (unsigned)entered[1], (unsigned)avr_register(snapshot, 17));
    return entered[0] == 4 && entered[1] == 15 && entered[2] == 7 && avr_register(snapshot, 17) == 2;
}

/* Of two refusals the lower is given, and nothing is changed by any. */
static int refuses_wrong_lists(void) {
    uint8_t snapshot[AVR_SNAPSHOT_BYTES], before[AVR_SNAPSHOT_BYTES], data[16] = {0}, zeros[16] = {0}, list[2 * AVR_RECORD_BYTES];
    uint32_t entered[2] = {7, 7}, ticks = 7;
    put_core(snapshot);
    memcpy(before, snapshot, sizeof before);
    avr_set_record(list, 0, 2);
    avr_set_record(list + AVR_RECORD_BYTES, 4, 2);
    if (run_by(list, sizeof list - 1, snapshot, data, entered, 0, &ticks) != AVR_REFUSED_LIST_LENGTH) return 0;
    if (run_by(list, sizeof list, snapshot, data, entered, 1, &ticks) != AVR_REFUSED_LIST_TICKS) return 0;
    avr_set_record(list, 4, 2);
    if (run_by(list, sizeof list, snapshot, data, entered, 1, &ticks) != AVR_REFUSED_LIST_TICKS) return 0;
    avr_set_record(list, 3, 2);
    if (run_by(list, sizeof list, snapshot, data, entered, 1, &ticks) != AVR_REFUSED_ENTRIES_LENGTH) return 0;
    return entered[0] == 7 && entered[1] == 7 && ticks == 7 && memcmp(before, snapshot, sizeof before) == 0 && memcmp(zeros, data, sizeof zeros) == 0;
}

int main(void) {
    int right = ticks_and_runs() && foretells() && writes_and_reads() && goes_by_the_rule() && is_safe_behind_sei();
    return right && follows_a_schedule() && refuses_wrong_lists() ? 0 : 1;
}
