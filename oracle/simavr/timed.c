/* Every instruction that the port and simavr's core both have, by its words: of branches and skips each way, of pointer access each form.
 * The words were assembled by avr-as. */
#include "timing.h"
#include <string.h>

const struct timed timed[] = {
    {"ADC", {0x1F01}}, {"ADD", {0x0F01}}, {"ADIW", {0x9601}}, {"AND", {0x2301}}, {"ANDI", {0x7001}}, {"ASR", {0x9505}}, {"BCLR", {0x9488}},
    {"BLD", {0xF900}}, {"BRBC, taken", {0xF408}}, {"BRBC, not taken", {0xF409}}, {"BRBS, taken", {0xF009}}, {"BRBS, not taken", {0xF008}},
    {"BREAK", {0x9598}}, {"BSET", {0x9408}}, {"BST", {0xFB00}}, {"CALL", {0x940E, 0x0010}}, {"CBI", {0x98F0}}, {"COM", {0x9500}}, {"CP", {0x1701}},
    {"CPC", {0x0701}}, {"CPI", {0x3001}}, {"CPSE, not taken", {0x1301}}, {"CPSE, over one word", {0x1300, 0x0000}},
    {"CPSE, over two words", {0x1300, 0x940C, 0x0010}}, {"DEC", {0x950A}}, {"EOR", {0x2701}}, {"FMUL", {0x0309}}, {"FMULS", {0x0381}},
    {"FMULSU", {0x0389}}, {"ICALL", {0x9509}}, {"IJMP", {0x9409}}, {"IN", {0xB30E}}, {"INC", {0x9503}}, {"JMP", {0x940C, 0x0010}}, {"LD X", {0x910C}},
    {"LD X+", {0x910D}}, {"LD -X", {0x910E}}, {"LD Y+", {0x9109}}, {"LD -Y", {0x910A}}, {"LDD Y+1", {0x8109}}, {"LD Z+", {0x9101}},
    {"LD -Z", {0x9102}}, {"LDD Z+1", {0x8101}}, {"LDI", {0xE001}}, {"LDS", {0x9100, 0x0100}}, {"LPM", {0x95C8}}, {"LPM Z", {0x9104}},
    {"LPM Z+", {0x9105}}, {"LSR", {0x9506}}, {"MOV", {0x2F01}}, {"MOVW", {0x0189}}, {"MUL", {0x9F01}}, {"MULS", {0x0201}}, {"MULSU", {0x0301}},
    {"NEG", {0x9501}}, {"NOP", {0x0000}}, {"OR", {0x2B01}}, {"ORI", {0x6001}}, {"OUT", {0xBB0E}}, {"POP", {0x910F}}, {"PUSH", {0x930F}},
    {"RCALL", {0xD001}}, {"RET", {0x9508}}, {"RETI", {0x9518}}, {"RJMP", {0xC001}}, {"ROR", {0x9507}}, {"SBC", {0x0B01}}, {"SBCI", {0x4001}},
    {"SBI", {0x9AF0}}, {"SBIC, not taken", {0x99F0}}, {"SBIC, over one word", {0x99F1, 0x0000}}, {"SBIC, over two words", {0x99F1, 0x940C, 0x0010}},
    {"SBIS, not taken", {0x9BF1}}, {"SBIS, over one word", {0x9BF0, 0x0000}}, {"SBIS, over two words", {0x9BF0, 0x940C, 0x0010}}, {"SBIW", {0x9701}},
    {"SBRC, not taken", {0xFD00}}, {"SBRC, over one word", {0xFD01, 0x0000}}, {"SBRC, over two words", {0xFD01, 0x940C, 0x0010}},
    {"SBRS, not taken", {0xFF01}}, {"SBRS, over one word", {0xFF00, 0x0000}}, {"SBRS, over two words", {0xFF00, 0x940C, 0x0010}}, {"SLEEP", {0x9588}},
    {"ST X", {0x930C}}, {"ST X+", {0x930D}}, {"ST -X", {0x930E}}, {"ST Y+", {0x9309}}, {"ST -Y", {0x930A}}, {"STD Y+1", {0x8309}},
    {"ST Z+", {0x9301}}, {"ST -Z", {0x9302}}, {"STD Z+1", {0x8301}}, {"STS", {0x9300, 0x0100}}, {"SUB", {0x1B01}}, {"SUBI", {0x5001}},
    {"SWAP", {0x9502}}, {"WDR", {0x95A8}},
};

const unsigned timed_count = sizeof timed / sizeof *timed;

static const struct listed listed[] = {{"CALL", 3, 4}, {"CBI", 1, 2}, {"ICALL", 2, 3}, {"LDS", 3, 2}, {"PUSH", 1, 2},
                                       {"RCALL", 2, 3}, {"SBI", 1, 2}, {"ST", 1, 2},   {"STD", 1, 2}};

void put_timing_registers(uint8_t registers[32]) {
    static const uint8_t pointers[6] = {0x00, 0x01, 0x10, 0x01, 0x20, 0x01}; /* X, Y and Z */
    memset(registers, 0, 32);
    registers[16] = 1, registers[17] = 2, registers[18] = 0x80;
    memcpy(registers + 26, pointers, sizeof pointers);
}

/* By its name without its operand: ST X+ is ST. */
const struct listed *listed_as(const struct timed *instruction) {
    size_t length = strcspn(instruction->name, " ");
    for (unsigned i = 0; i < sizeof listed / sizeof *listed; i++)
        if (strlen(listed[i].name) == length && strncmp(instruction->name, listed[i].name, length) == 0) return &listed[i];
    return NULL;
}
