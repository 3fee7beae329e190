#include "instructions.h"

const struct instruction instructions[] = {
    {"ADD", TWO, 0x0C00},       {"ADD Rd,Rd", SAME, 0x0C00}, {"ADC", TWO, 0x1C00},     {"ADC Rd,Rd", SAME, 0x1C00}, {"SUB", TWO, 0x1800},
    {"SUB Rd,Rd", SAME, 0x1800}, {"SUBI", IMMEDIATE, 0x5000}, {"SBC", TWO, 0x0800},     {"SBC Rd,Rd", SAME, 0x0800}, {"SBCI", IMMEDIATE, 0x4000},
    {"CP", TWO, 0x1400},        {"CPC", TWO, 0x0400},        {"CPI", IMMEDIATE, 0x3000}, {"AND", TWO, 0x2000},        {"ANDI", IMMEDIATE, 0x7000},
    {"OR", TWO, 0x2800},        {"ORI", IMMEDIATE, 0x6000},  {"EOR", TWO, 0x2400},     {"EOR Rd,Rd", SAME, 0x2400}, {"COM", ONE, 0x9400},
    {"NEG", ONE, 0x9401},       {"INC", ONE, 0x9403},        {"DEC", ONE, 0x940A},     {"ASR", ONE, 0x9405},        {"LSR", ONE, 0x9406},
    {"ROR", ONE, 0x9407},       {"SWAP", ONE, 0x9402},       {"ADIW", PAIR, 0x9600},   {"SBIW", PAIR, 0x9700},      {"MUL", TWO, 0x9C00},
    {"MULS", UPPER, 0x0200},    {"MULSU", MIDDLE, 0x0300},   {"FMUL", MIDDLE, 0x0308}, {"FMULS", MIDDLE, 0x0380},   {"FMULSU", MIDDLE, 0x0388},
};

const unsigned instruction_count = sizeof instructions / sizeof *instructions;

uint32_t first_values(enum form form) { return form == PAIR ? 65536 : 256; }

uint32_t second_values(enum form form) {
    switch (form) {
    case ONE:
    case SAME: return 1;
    case PAIR: return 64;
    default: return 256;
    }
}

uint16_t word_of(const struct instruction *instruction, uint32_t second) {
    uint16_t pattern = instruction->pattern, k = (uint16_t)second;
    switch (instruction->form) {
    case ONE: return pattern | 16 << 4;
    case TWO: return pattern | 16 << 4 | 1 << 9 | 1;
    case SAME: return pattern | 16 << 4 | 1 << 9 | 0;
    case IMMEDIATE: return (uint16_t)(pattern | (k >> 4) << 8 | (k & 15));
    case PAIR: return (uint16_t)(pattern | (k >> 4) << 6 | (k & 15));
    case UPPER: return pattern | 2 << 4 | 3;
    case MIDDLE: return pattern | 4 << 4 | 5;
    }
    return 0;
}

void put_operands(struct state *state, enum form form, uint32_t first, uint32_t second) {
    static const uint8_t places[] = {[ONE] = 16, [TWO] = 16, [SAME] = 16, [IMMEDIATE] = 16, [PAIR] = 24, [UPPER] = 18, [MIDDLE] = 20};
    uint8_t place = places[form];
    state->registers[place] = (uint8_t)first;
    if (form == PAIR) state->registers[place + 1] = (uint8_t)(first >> 8);
    if (form == TWO || form == UPPER || form == MIDDLE) state->registers[place + 1] = (uint8_t)second;
}
