/* The C interface of crates/host_c, as tools/archive builds it (x86-64 Linux).
 * A slice is a pointer and a length: that many bytes, of `entered` that many numbers, that may be read, and written where the pointer is not const. The slices of a call, and
 * `ticks`, `line` and `written`, must not overlap; nothing here can check that. The numbers that the calls return are documents 01's and 02's, with the names of enum
 * avr_number and the words of avr_word. Inline functions give the fields of a snapshot their names. */
#ifndef AVR_CORE_H
#define AVR_CORE_H

#include <stddef.h>
#include <stdint.h>

/* R0 to R31, SREG, PC, SP, each high byte first; then busy, 3 bits, inhibit, in-service, the rule, and two zero bits. */
#define AVR_SNAPSHOT_BYTES 38
#define AVR_NO_OFFER 65536u
/* The bytes of a record of avr_run_schedule's list. */
#define AVR_RECORD_BYTES 5
/* The rule of the core in a snapshot: chip where this bit of this byte is set, source where it is clear, as in a snapshot of zeros and in every one written before there was a rule.
 * avr_rule and avr_set_rule read and set it; no call changes it.
 * Under source everything goes as in the Rust which was ported. Under chip this goes as in the AVR manual, and nothing else differs:
 *   ADIW's V, and S with it
 *   LD and LDD wait for one tick, and not for two; ST and STD for none, and not for one
 *   behind SEI (BSET 7) one instruction runs before an interrupt is entered */
#define AVR_RULE_BYTE 37
#define AVR_RULE_SOURCE 0x00u
#define AVR_RULE_CHIP 0x04u
/* The bytes of the HEX text of a program of `n` bytes, the room that avr_hex_write needs. */
#define AVR_HEX_BYTES(n) ((size_t)(n) * 2 + ((size_t)(n) + 15) / 16 * 12 + 12)

/* What the calls return. avr_tick, avr_foretell, avr_run and avr_run_schedule give an answer, avr_hex_read and avr_hex_write AVR_DONE; or any of them a refusal. */
enum avr_number {
    AVR_DONE = 0,
    AVR_REFUSED_PROGRAM = 1,
    AVR_REFUSED_PC = 2,
    AVR_REFUSED_STACK = 3,
    AVR_REFUSED_DATA = 4,
    AVR_REFUSED_BUSY = 5,
    AVR_REFUSED_SNAPSHOT_LENGTH = 7,
    AVR_REFUSED_BUSY_FIELD = 8,
    AVR_REFUSED_SPARE_BITS = 9,
    AVR_REFUSED_OFFER = 10,
    AVR_WAITED = 16,
    AVR_ENTERED = 17,
    AVR_RAN = 18,
    AVR_SLEEP = 19,
    AVR_WATCHDOG = 20,
    AVR_UNDEFINED = 21,
    AVR_BREAK = 22,
    AVR_END = 23,
    AVR_BUDGET = 24,
    AVR_REFUSED_LIST_LENGTH = 30,
    AVR_REFUSED_LIST_TICKS = 31,
    AVR_REFUSED_ENTRIES_LENGTH = 32,
    AVR_REFUSED_CHARACTER = 50,
    AVR_REFUSED_LINE_LENGTH = 51,
    AVR_REFUSED_LINE_SUM = 52,
    AVR_REFUSED_RECORD_TYPE = 53,
    AVR_REFUSED_OUTSIDE_PROGRAM = 54,
    AVR_REFUSED_ADDRESS_FALLS = 55,
    AVR_REFUSED_END_RECORD = 56,
    AVR_REFUSED_PROGRAM_LENGTH = 57,
    AVR_REFUSED_TEXT_LENGTH = 58
};

#ifdef __cplusplus
extern "C" {
#endif

/* One tick of the core in `snapshot`. A refused call changes no byte. */
uint32_t avr_tick(uint8_t *snapshot, size_t snapshot_len, const uint8_t *program, size_t program_len, uint8_t *data, size_t data_len,
                  uint32_t offer);

/* What avr_tick would return for the same: its number, a refusal too. Everything is only read, so a host may ask as often as it likes, under one offer and another. */
uint32_t avr_foretell(const uint8_t *snapshot, size_t snapshot_len, const uint8_t *program, size_t program_len, const uint8_t *data, size_t data_len,
                      uint32_t offer);

/* Up to `budget` ticks under one held offer; `*ticks` gets the number done. A call refused by a check (7 to 10) leaves `*ticks` as it was. */
uint32_t avr_run(uint8_t *snapshot, size_t snapshot_len, const uint8_t *program, size_t program_len, uint8_t *data, size_t data_len,
                 uint32_t offer, uint32_t budget, uint32_t *ticks);

/* A run driven by a list of the ticks at which interrupts fired. A record of `list` has AVR_RECORD_BYTES bytes, high byte first: the number of a tick, three bytes, and a vector, two. Ticks
 * start at 1 and strictly rise. The ticks of a run are numbered from 1, and a record is due at its tick and at every later one. At every tick the first record that is due and not yet
 * entered is offered, and nothing where there is none; so an empty list is a run with no offer. It ends as avr_run does, and `*ticks` gets the number done. `entered`, whose length is in
 * numbers and not in bytes, gets for each record the number of the tick at which it was entered, or 0 where the run ended before that; numbers past the last record keep what they held.
 * The checks are 7, 8, 9, 30, 31, 32, in that order; a call refused by one changes nothing, neither `entered` nor `*ticks`. */
uint32_t avr_run_schedule(uint8_t *snapshot, size_t snapshot_len, const uint8_t *program, size_t program_len, uint8_t *data, size_t data_len,
                          const uint8_t *list, size_t list_len, uint32_t budget, uint32_t *entered, size_t entered_len, uint32_t *ticks);

/* Reads a HEX file into `program`; bytes that no line names become 0xFF. Record types 00 and 01, digits of either case, lines that end in LF or CR LF, and the
 * last may lack it. Gives 0 or 50 to 57; `*line` gets the refused line, counted from 1, and 0 where nothing is refused and for 57. A missing end record is named at the
 * line after the last. A refused call changes no byte of `program`. */
uint32_t avr_hex_read(const uint8_t *text, size_t text_len, uint8_t *program, size_t program_len, size_t *line);

/* Writes all of `program` as a HEX file into `text`: 16 bytes a line, capitals, LF. Gives 0, 57 or 58; `*written` gets the file's length, AVR_HEX_BYTES(program_len),
 * and 0 where it is refused. Bytes of `text` behind the file keep what they held; a refused call changes none. */
uint32_t avr_hex_write(const uint8_t *program, size_t program_len, uint8_t *text, size_t text_len, size_t *written);

/* Whether a number that a call returned is a refusal: neither an answer nor AVR_DONE. */
static inline int avr_is_refusal(uint32_t number) { return number != AVR_DONE && (number < AVR_WAITED || number > AVR_BUDGET); }

/* An answer's word in document 01, or what is wrong where the number is a refusal. */
static inline const char *avr_word(uint32_t number) {
    switch (number) {
    case AVR_DONE: return "done";
    case AVR_REFUSED_PROGRAM: return "an opcode, a second word, a word to be skipped or an LPM byte is not wholly in program";
    case AVR_REFUSED_PC: return "CALL, LDS or STS at PC 65,534, or a taken skip past PC 65,535";
    case AVR_REFUSED_STACK: return "entry, CALL, RCALL or ICALL with SP below 2, or RET or RETI with SP above 65,533";
    case AVR_REFUSED_DATA: return "a data byte that is needed is not in data";
    case AVR_REFUSED_BUSY: return "busy is above 4";
    case AVR_REFUSED_SNAPSHOT_LENGTH: return "the snapshot is not 38 bytes";
    case AVR_REFUSED_BUSY_FIELD: return "the snapshot's busy field is above 4";
    case AVR_REFUSED_SPARE_BITS: return "the snapshot's spare bits are not zero";
    case AVR_REFUSED_OFFER: return "the offer is above 65,536";
    case AVR_WAITED: return "waited";
    case AVR_ENTERED: return "entered";
    case AVR_RAN: return "ran";
    case AVR_SLEEP: return "sleep";
    case AVR_WATCHDOG: return "watchdog";
    case AVR_UNDEFINED: return "undefined";
    case AVR_BREAK: return "break";
    case AVR_END: return "end";
    case AVR_BUDGET: return "budget";
    case AVR_REFUSED_LIST_LENGTH: return "the list is not whole records";
    case AVR_REFUSED_LIST_TICKS: return "a record's tick is 0, or not above the one before";
    case AVR_REFUSED_ENTRIES_LENGTH: return "there are fewer numbers for entries than records";
    case AVR_REFUSED_CHARACTER: return "a character does not belong in the line";
    case AVR_REFUSED_LINE_LENGTH: return "the line is no whole record, or not as long as its count says, or an end record with data";
    case AVR_REFUSED_LINE_SUM: return "the line's sum is wrong";
    case AVR_REFUSED_RECORD_TYPE: return "the record's type is neither 00 nor 01";
    case AVR_REFUSED_OUTSIDE_PROGRAM: return "a byte is outside the program";
    case AVR_REFUSED_ADDRESS_FALLS: return "a data line starts below the end of the one before";
    case AVR_REFUSED_END_RECORD: return "the end record is missing, or a line stands behind it";
    case AVR_REFUSED_PROGRAM_LENGTH: return "the program has more than 65,536 bytes";
    case AVR_REFUSED_TEXT_LENGTH: return "the text has less room than the program takes";
    default: return "a number that no call returns";
    }
}

/* For the functions below: a number of two bytes, and bits of a snapshot's last byte. */
static inline uint16_t avr_two_bytes(const uint8_t *bytes) { return (uint16_t)(bytes[0] << 8 | bytes[1]); }

static inline void avr_set_two_bytes(uint8_t *bytes, uint16_t number) {
    bytes[0] = (uint8_t)(number >> 8);
    bytes[1] = (uint8_t)number;
}

static inline void avr_set_bits(uint8_t *snapshot, unsigned bits, unsigned value) {
    snapshot[37] = (uint8_t)((snapshot[37] & ~bits) | (value & bits));
}

/* The fields of a snapshot, AVR_SNAPSHOT_BYTES bytes, by name. Above 31 there is no register: 0 is read; nothing is set, and avr_set_register returns 0 and not 1. */
static inline uint8_t avr_register(const uint8_t *snapshot, unsigned number) { return number < 32 ? snapshot[number] : (uint8_t)0; }
static inline int avr_set_register(uint8_t *snapshot, unsigned number, uint8_t value) {
    if (number < 32) snapshot[number] = value;
    return number < 32;
}

static inline uint8_t avr_sreg(const uint8_t *snapshot) { return snapshot[32]; }
static inline void avr_set_sreg(uint8_t *snapshot, uint8_t sreg) { snapshot[32] = sreg; }

static inline uint16_t avr_pc(const uint8_t *snapshot) { return avr_two_bytes(snapshot + 33); }
static inline void avr_set_pc(uint8_t *snapshot, uint16_t pc) { avr_set_two_bytes(snapshot + 33, pc); }

static inline uint16_t avr_sp(const uint8_t *snapshot) { return avr_two_bytes(snapshot + 35); }
static inline void avr_set_sp(uint8_t *snapshot, uint16_t sp) { avr_set_two_bytes(snapshot + 35, sp); }

/* The ticks still to wait. Above 4 a call is refused. The field holds 7 at most, and that is what a larger number sets. */
static inline unsigned avr_busy(const uint8_t *snapshot) { return snapshot[37] >> 5; }
static inline void avr_set_busy(uint8_t *snapshot, unsigned busy) { avr_set_bits(snapshot, 0xE0u, (busy < 7 ? busy : 7) << 5); }

static inline int avr_inhibit(const uint8_t *snapshot) { return (snapshot[37] & 0x10) != 0; }
static inline void avr_set_inhibit(uint8_t *snapshot, int on) { avr_set_bits(snapshot, 0x10u, on ? 0x10u : 0); }

static inline int avr_in_service(const uint8_t *snapshot) { return (snapshot[37] & 0x08) != 0; }
static inline void avr_set_in_service(uint8_t *snapshot, int on) { avr_set_bits(snapshot, 0x08u, on ? 0x08u : 0); }

/* AVR_RULE_SOURCE or AVR_RULE_CHIP. */
static inline unsigned avr_rule(const uint8_t *snapshot) { return snapshot[AVR_RULE_BYTE] & AVR_RULE_CHIP; }
static inline void avr_set_rule(uint8_t *snapshot, unsigned rule) { avr_set_bits(snapshot, AVR_RULE_CHIP, rule); }

/* A fresh core: everything zero but SP, and the rule source. */
static inline void avr_fresh(uint8_t *snapshot, uint16_t sp) {
    for (int i = 0; i < AVR_SNAPSHOT_BYTES; i++)
        snapshot[i] = 0;
    avr_set_sp(snapshot, sp);
}

/* Makes `record`, AVR_RECORD_BYTES bytes of a list, that of an interrupt which fired at this tick. 1, or 0 and nothing set where the tick has more than 24 bits. */
static inline int avr_set_record(uint8_t *record, uint32_t tick, uint16_t vector) {
    if (tick >> 24 != 0) return 0;
    record[0] = (uint8_t)(tick >> 16);
    avr_set_two_bytes(record + 1, (uint16_t)tick);
    avr_set_two_bytes(record + 3, vector);
    return 1;
}

#ifdef __cplusplus
}
#endif

#endif
