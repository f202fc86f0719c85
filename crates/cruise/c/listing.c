/* Drives document 01's listing through the library, word by word, and prints a line for each event.
   (cd crates/cruise_c && rt lib) && mkdir -p target &&
   gcc -O2 -o target/listing crates/cruise/c/listing.c crates/cruise_c/out/libcruise_c.a && target/listing */
#include <inttypes.h>
#include <stdio.h>

#include "cruise.h"

int main(void)
{
    const uint32_t settings = cruise_word_settings(CRUISE_MODE_NORMAL, 0);
    const uint32_t words[] = {
        cruise_word_key(CRUISE_KEY_IN, 0),
        cruise_word_key(CRUISE_KEY_ON, 1),
        cruise_word_gas(225),
        cruise_word_tick(1),
        cruise_word_brake(10),
        cruise_word_up_down(CRUISE_UP5),
        cruise_word_fore_back(CRUISE_FORWARD),
        cruise_word_up_down(CRUISE_NEUTRAL),
        cruise_word_fore_back(CRUISE_FORWARD),
        cruise_word_tick(1),
    };
    uint32_t record[CRUISE_RECORD_WORDS];
    uint32_t refusal = cruise_fresh(settings, record, CRUISE_RECORD_WORDS);
    if (refusal != CRUISE_ACCEPTED) {
        printf("refused %" PRIu32 "\n", refusal);
        return 1;
    }
    printf("n refusal speed desired accel visual acoustic\n");
    for (size_t n = 0; n < sizeof words / sizeof words[0]; n++) {
        uint32_t speed, desired, visual, acoustic, distance;
        int32_t acceleration;
        refusal = cruise_drive(record, CRUISE_RECORD_WORDS, words[n]);
        cruise_figures(record, CRUISE_RECORD_WORDS, &speed, &desired, &acceleration, &visual, &acoustic, &distance);
        printf("%zu %" PRIu32 " %" PRIu32 " %" PRIu32 " %" PRId32 " %" PRIu32 " %" PRIu32 "\n", n + 1, refusal, speed, desired,
               acceleration, visual, acoustic);
    }
    if (fflush(stdout) != 0 || ferror(stdout)) {
        perror("listing: standard output");
        return 1;
    }
    return 0;
}
