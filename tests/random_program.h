/* A random program, and a machine with data and a core to run it from, by a seed. Part of tests/runs.c and tests/schedules.c. */
#ifndef RANDOM_PROGRAM_H
#define RANDOM_PROGRAM_H

#include "machine.h"
#include <string.h>

#define BLOCK_WORDS 1024 /* a longer program, and data, repeat what is random */
#define LENGTH(array) (sizeof(array) / sizeof(array)[0])

/* Every instruction: the bits that are fixed, and the bits that are free. BREAK stands apart. */
static const struct {
    uint16_t fixed, free;
} instructions[] = {
    {0x0000, 0x0000}, {0x0100, 0x00FF}, {0x0200, 0x00FF}, {0x0300, 0x0077}, {0x0308, 0x0077}, {0x0380, 0x0077}, {0x0388, 0x0077}, /* NOP MOVW MULS MULSU FMUL FMULS FMULSU */
    {0x0400, 0x03FF}, {0x0800, 0x03FF}, {0x0C00, 0x03FF}, {0x1000, 0x03FF}, {0x1400, 0x03FF}, {0x1800, 0x03FF}, {0x1C00, 0x03FF}, /* CPC SBC ADD CPSE CP SUB ADC */
    {0x2000, 0x03FF}, {0x2400, 0x03FF}, {0x2800, 0x03FF}, {0x2C00, 0x03FF}, {0x9C00, 0x03FF},                                     /* AND EOR OR MOV MUL */
    {0x3000, 0x0FFF}, {0x4000, 0x0FFF}, {0x5000, 0x0FFF}, {0x6000, 0x0FFF}, {0x7000, 0x0FFF}, {0xE000, 0x0FFF},                   /* CPI SBCI SUBI ORI ANDI LDI */
    {0x8000, 0x2DF7}, {0x8008, 0x2DF7}, {0x8200, 0x2DF7}, {0x8208, 0x2DF7},                                                       /* LDD Z, Y; STD Z, Y */
    {0x9001, 0x01F0}, {0x9002, 0x01F0}, {0x9009, 0x01F0}, {0x900A, 0x01F0}, {0x900C, 0x01F0}, {0x900D, 0x01F0}, {0x900E, 0x01F0}, /* LD */
    {0x9201, 0x01F0}, {0x9202, 0x01F0}, {0x9209, 0x01F0}, {0x920A, 0x01F0}, {0x920C, 0x01F0}, {0x920D, 0x01F0}, {0x920E, 0x01F0}, /* ST */
    {0x9004, 0x01F0}, {0x9005, 0x01F0}, {0x95C8, 0x0000}, {0x900F, 0x01F0}, {0x920F, 0x01F0},                                     /* LPM; POP PUSH */
    {0x9400, 0x01F0}, {0x9401, 0x01F0}, {0x9402, 0x01F0}, {0x9403, 0x01F0}, {0x9405, 0x01F0}, {0x9406, 0x01F0}, {0x9407, 0x01F0}, /* COM NEG SWAP INC ASR LSR ROR */
    {0x940A, 0x01F0}, {0x9408, 0x0070}, {0x9488, 0x0070}, {0x9600, 0x00FF}, {0x9700, 0x00FF},                                     /* DEC BSET BCLR ADIW SBIW */
    {0x9409, 0x0000}, {0x9509, 0x0000}, {0x9508, 0x0000}, {0x9518, 0x0000}, {0x9588, 0x0000}, {0x95A8, 0x0000},                   /* IJMP ICALL RET RETI SLEEP WDR */
    {0x9800, 0x00FF}, {0x9900, 0x00FF}, {0x9A00, 0x00FF}, {0x9B00, 0x00FF}, {0xB000, 0x07FF}, {0xB800, 0x07FF},                   /* CBI SBIC SBI SBIS IN OUT */
    {0xC000, 0x003F}, {0xCFC0, 0x003F}, {0xD000, 0x003F}, {0xDFC0, 0x003F}, {0xC000, 0x0FFF}, {0xD000, 0x0FFF},                   /* RJMP RCALL, mostly near */
    {0xF000, 0x03FF}, {0xF400, 0x03FF}, {0xF800, 0x01F7}, {0xFA00, 0x01F7}, {0xFC00, 0x01F7}, {0xFE00, 0x01F7},                   /* BRBS BRBC BLD BST SBRC SBRS */
};
static const uint16_t two_words[] = {0x9000, 0x9200, 0x940C, 0x940E}; /* LDS STS JMP CALL */

static struct machine first;
static uint64_t state;

static uint32_t below(uint32_t limit) { /* splitmix64 */
    uint64_t z = state += 0x9E3779B97F4A7C15u;
    z = (z ^ z >> 30) * 0xBF58476D1CE4E5B9u;
    z = (z ^ z >> 27) * 0x94D049BB133111EBu;
    return (uint32_t)(((z ^ z >> 31) >> 32) * limit >> 32);
}

static int one_in(uint32_t number) { return below(number) == 0; }

/* A place in the program mostly; now and then just behind it, below 64, or anywhere. */
static uint16_t place(void) {
    uint32_t words = (uint32_t)(program_bytes / 2);
    if (one_in(16)) return (uint16_t)(words + below(3));
    if (one_in(16)) return (uint16_t)below(65536);
    return (uint16_t)below(one_in(4) || words == 0 ? 64 : words);
}

static void put_word(size_t at, uint16_t word) {
    program[2 * at] = (uint8_t)word;
    program[2 * at + 1] = (uint8_t)(word >> 8);
}

static uint16_t any_instruction(void) {
    if (one_in(200)) return (uint16_t)below(65536);
    if (one_in(1000)) return 0x9598; /* BREAK */
    size_t i = below(LENGTH(instructions));
    return (uint16_t)(instructions[i].fixed | (below(65536) & instructions[i].free));
}

/* Valid instructions mostly. A length that is odd or 0 lacks the last word, or all. */
static void make_program(void) {
    static const size_t lengths[] = {2048, 2047, 301, 64, 9, 0};
    program_bytes = one_in(6) ? below(4096) : one_in(6) ? lengths[below(LENGTH(lengths))] : 2 * MOST_WORDS;
    for (size_t at = 0; at < BLOCK_WORDS; at++) {
        if (one_in(12) && at + 1 < BLOCK_WORDS) {
            uint16_t registers = (uint16_t)(below(32) << 4), kind = two_words[below(LENGTH(two_words))];
            put_word(at++, kind < 0x9400 ? kind | registers : kind);
            put_word(at, place());
        } else
            put_word(at, any_instruction());
    }
    for (size_t at = 2 * BLOCK_WORDS; at < program_bytes; at += 2 * BLOCK_WORDS)
        memcpy(program + at, program, 2 * BLOCK_WORDS);
}

/* Half of the time zeros, so that what RET finds is in the program. */
static void make_data(void) {
    static const size_t lengths[] = {16384, 300, 64, 7, 0};
    data_bytes = one_in(6) ? lengths[below(LENGTH(lengths))] : MOST_DATA;
    memset(first.data, 0, MOST_DATA);
    if (one_in(2)) return;
    for (size_t at = 0; at < 2 * BLOCK_WORDS; at++)
        first.data[at] = (uint8_t)below(256);
    for (size_t at = 2 * BLOCK_WORDS; at < MOST_DATA; at += 2 * BLOCK_WORDS)
        memcpy(first.data + at, first.data, 2 * BLOCK_WORDS);
}

static void put_pair(size_t at, uint32_t value) { /* high byte first */
    first.snapshot[at] = (uint8_t)(value >> 8);
    first.snapshot[at + 1] = (uint8_t)value;
}

/* Either rule, busy or not, with or without inhibit and in-service; now and then a last byte or a length that is refused. */
static void make_core(void) {
    for (size_t at = 0; at < AVR_SNAPSHOT_BYTES; at++)
        first.snapshot[at] = (uint8_t)below(256);
    for (size_t pointer = 27; pointer <= 31; pointer += 2)
        if (one_in(4)) first.snapshot[pointer] = 0;
    put_pair(33, one_in(4) ? place() : 0);
    put_pair(35, one_in(6) ? (uint32_t)data_bytes - below(8) : one_in(6) ? below(65536) : (uint32_t)data_bytes / 2);
    uint32_t busy = one_in(3) ? below(5) : 0, flags = one_in(2) ? below(4) : 0;
    first.snapshot[37] = (uint8_t)(busy << 5 | flags << 3 | below(2) << 2);
    if (one_in(100)) first.snapshot[37] = (uint8_t)below(256);
    snapshot_bytes = one_in(200) ? below(AVR_SNAPSHOT_BYTES) : AVR_SNAPSHOT_BYTES;
}

/* Further numbers of `below` go on from there. */
static void make_machine(uint64_t seed) {
    state = seed;
    make_program();
    make_data();
    make_core();
}

#endif
