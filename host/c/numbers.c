/* Every number that the calls return, answer or refused, with its words: what host/rust/examples/numbers.rs prints. Fails where a number with no name has words of its own. */
#include "avr_core.h"
#include <stdio.h>
#include <string.h>

int main(void) {
    for (uint32_t number = 1; number <= 255; number++) {
        const char *word = avr_word(number);
        if (strcmp(word, avr_word(UINT32_MAX)) != 0) printf("%u %s: %s\n", (unsigned)number, avr_is_refusal(number) ? "refused" : "answer", word);
    }
    return avr_is_refusal(AVR_DONE) || strcmp(avr_word(AVR_DONE), "done") != 0;
}
