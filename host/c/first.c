#include "avr_core.h"
#include <stdio.h>

int main(int argc, char **argv) {
    static uint8_t text[1 << 20], program[49152], snapshot[AVR_SNAPSHOT_BYTES], data[1024];
    if (argc != 2) {
        fprintf(stderr, "name a HEX file: first FILE\n");
        return 1;
    }
    FILE *file = fopen(argv[1], "rb");
    size_t length = file ? fread(text, 1, sizeof text, file) : 0, line = 0;
    if (!file || !feof(file)) {
        fprintf(stderr, "%s: cannot be read, or is longer than a mebibyte\n", argv[1]);
        return 1;
    }
    uint32_t refusal = avr_hex_read(text, length, program, sizeof program, &line);
    if (refusal != AVR_DONE) {
        fprintf(stderr, "%s: refused-%u at line %zu\n", argv[1], (unsigned)refusal, line);
        return 1;
    }
    uint32_t ticks = 0;
    uint32_t answer = avr_run(snapshot, sizeof snapshot, program, sizeof program, data, sizeof data, AVR_NO_OFFER, 10, &ticks);
    if (avr_is_refusal(answer)) {
        fprintf(stderr, "refused-%u after %u ticks: %s\n", (unsigned)answer, (unsigned)ticks, avr_word(answer));
        return 1;
    }
    printf("answer %u after %u ticks, R16 is %u\n", (unsigned)answer, (unsigned)ticks, (unsigned)avr_register(snapshot, 16));
}
