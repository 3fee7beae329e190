/* Sets each field of a snapshot and of a record by its name, and looks into the bytes; fails where one is not in its place. It is C++ too. */
#include "avr_core.h"
#include <stdio.h>

static uint8_t snapshot[AVR_SNAPSHOT_BYTES];

/* Whether a fresh core was changed to these one or two bytes from this place on, and not elsewhere; the next one is fresh again. */
static int has(int place, uint8_t first, int next, uint8_t second) {
    uint8_t expected[AVR_SNAPSHOT_BYTES];
    int differences = 0;
    avr_fresh(expected, 0x3FFF);
    expected[place] = first;
    expected[next] = second;
    for (int i = 0; i < AVR_SNAPSHOT_BYTES; i++)
        differences += snapshot[i] != expected[i];
    avr_fresh(snapshot, 0x3FFF);
    return differences == 0;
}

static int has_byte(int place, uint8_t byte) { return has(place, byte, place, byte); }

static int numbers_have_their_places(void) {
    int right = has(35, 0x3F, 36, 0xFF);
    right &= avr_set_register(snapshot, 0, 0xA5) == 1 && avr_register(snapshot, 0) == 0xA5 && has_byte(0, 0xA5);
    right &= avr_set_register(snapshot, 31, 0xA5) == 1 && avr_register(snapshot, 31) == 0xA5 && has_byte(31, 0xA5);
    right &= avr_set_register(snapshot, 32, 0xA5) == 0 && avr_register(snapshot, 32) == 0 && has_byte(32, 0);
    avr_set_sreg(snapshot, 0xA5);
    right &= avr_sreg(snapshot) == 0xA5 && avr_register(snapshot, 32) == 0 && has_byte(32, 0xA5);
    avr_set_pc(snapshot, 0x1234);
    right &= avr_pc(snapshot) == 0x1234 && has(33, 0x12, 34, 0x34);
    avr_set_sp(snapshot, 0x89AB);
    right &= avr_sp(snapshot) == 0x89AB && has(35, 0x89, 36, 0xAB);
    return right;
}

static int bits_have_their_places(void) {
    int right = 1;
    avr_set_busy(snapshot, 5);
    right &= avr_busy(snapshot) == 5 && has_byte(37, 0xA0);
    avr_set_busy(snapshot, 200);
    right &= avr_busy(snapshot) == 7 && has_byte(37, 0xE0);
    avr_set_inhibit(snapshot, 1);
    right &= avr_inhibit(snapshot) == 1 && has_byte(37, 0x10);
    avr_set_in_service(snapshot, 2);
    right &= avr_in_service(snapshot) == 1 && has_byte(37, 0x08);
    avr_set_rule(snapshot, AVR_RULE_CHIP);
    right &= avr_rule(snapshot) == AVR_RULE_CHIP && has_byte(37, 0x04);
    return right;
}

/* From all ones; the spare bits stay. */
static int bits_can_be_set_back(void) {
    snapshot[37] = 0xFF;
    if (!avr_inhibit(snapshot) || !avr_in_service(snapshot)) return 0;
    avr_set_busy(snapshot, 0);
    avr_set_inhibit(snapshot, 0);
    avr_set_in_service(snapshot, 0);
    avr_set_rule(snapshot, AVR_RULE_SOURCE);
    int clear = avr_busy(snapshot) == 0 && !avr_inhibit(snapshot) && !avr_in_service(snapshot) && avr_rule(snapshot) == AVR_RULE_SOURCE;
    return clear && has_byte(37, 0x03);
}

static int records_have_their_places(void) {
    uint8_t record[AVR_RECORD_BYTES];
    int set = avr_set_record(record, 0x123456, 0x789A) && !avr_set_record(record, 0x1000000, 0);
    return set && record[0] == 0x12 && record[1] == 0x34 && record[2] == 0x56 && record[3] == 0x78 && record[4] == 0x9A;
}

int main(void) {
    avr_fresh(snapshot, 0x3FFF);
    int right = numbers_have_their_places() && bits_have_their_places() && bits_can_be_set_back() && records_have_their_places();
    if (!right) fprintf(stderr, "a field is not in its place\n");
    return right ? 0 : 1;
}
