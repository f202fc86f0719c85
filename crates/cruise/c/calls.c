/* Calls every function of cruise.h with good and with bad input. What is expected is the documents' text worked out by hand, or stands in
   the files of the outside models ("outside" below); nothing is taken from what the library gave. Every buffer lies between words that
   must stay as they are. Prints a line for each check that fails. model/run builds this as C99 and as C++17 and runs both. */
#include "cruise.h"

#include <stdio.h>
#include <string.h>

#if CRUISE_VERSION < 0x000B00 || CRUISE_VERSION >= 0x010000
#error "calls.c is for version 0.11 and those that keep to it"
#endif

/* What a buffer holds before a call, and the words round it always. */
#define KEPT 0xDEADBEEFu
#define ROUND 4
#define AREA 32

#define WORDS CRUISE_RECORD_WORDS

struct area {
    uint32_t words[AREA];
};

static unsigned long checks = 0;
static unsigned long failures = 0;

static void equal(int line, const char *what, long long got, long long wanted)
{
    checks++;
    if (got != wanted) {
        failures++;
        printf("calls.c:%d: %s: %lld (0x%llX), not %lld (0x%llX)\n", line, what, got, (unsigned long long)got, wanted,
               (unsigned long long)wanted);
    }
}

#define EQUAL(got, wanted) equal(__LINE__, #got, (long long)(got), (long long)(wanted))

/* A buffer of `count` words in an area: they are those given, or KEPT where none are. */
static uint32_t *lay(struct area *area, const uint32_t *words, size_t count)
{
    for (size_t i = 0; i < AREA; i++) {
        area->words[i] = KEPT;
    }
    for (size_t i = 0; words != NULL && i < count; i++) {
        area->words[ROUND + i] = words[i];
    }
    return area->words + ROUND;
}

/* One check: the area's buffer starts with the words given, and all other words of the area are KEPT. */
static void left(int line, const char *what, const struct area *area, const uint32_t *words, size_t count)
{
    checks++;
    for (size_t i = 0; i < AREA; i++) {
        uint32_t wanted = words != NULL && i >= ROUND && i - ROUND < count ? words[i - ROUND] : KEPT;
        if (area->words[i] != wanted) {
            failures++;
            printf("calls.c:%d: %s: word %d is %08lX, not %08lX\n", line, what, (int)i - ROUND, (unsigned long)area->words[i],
                   (unsigned long)wanted);
            return;
        }
    }
}

#define LEFT(area, words, count) left(__LINE__, #area, &(area), words, count)

/* Records, by the document's layout. A fresh car of mode 1, signs 0. */
static const uint32_t fresh[WORDS] = {0xB0000001, 0xB1000000, 0xB2000000, 0xB3000000, 0xB4000000, 0xB5000000,
                                      0xB6000000, 0xB70000FF, 0xB8000000, 0xB9000014, 0xBA000000, 0xBB000000};
/* The car after the document's listing: key on, M forward, g 225, C, P, v 216, D 108, R 0, now 2. */
static const uint32_t listed[WORDS] = {0xB0003111, 0xB100E100, 0xB20000D8, 0xB3000000, 0xB400006C, 0xB5000000,
                                       0xB6000000, 0xB7000000, 0xB8000000, 0xB9000014, 0xBA000002, 0xBB000000};
/* The car of the document's figures: mode 2, key on, C, P, v 500, D 900, R 19, W 300, G 20. */
static const uint32_t behind[WORDS] = {0xB0003012, 0xB1000000, 0xB20001F4, 0xB3000000, 0xB4000384, 0xB5000000,
                                       0xB6000000, 0xB7012C13, 0xB8000000, 0xB9000014, 0xBA000000, 0xBB000000};
/* Outside, there with the gap 30: a car at the clock's end. */
static const uint32_t at_end[WORDS] = {0xB0003416, 0xB1000000, 0xB2000824, 0xB3000175, 0xB40001F4, 0xB5000000,
                                       0xB6000000, 0xB7134300, 0xB8001344, 0xB9000019, 0xBA015180, 0xBB014F2A};

/* The document's listing. */
static const uint32_t listing[10] = {0x10000001, 0x10000006, 0x500000E1, 0xA0000001, 0x4000000A,
                                     0x20000001, 0x30000001, 0x20000000, 0x30000001, 0xA0000001};
static const struct {
    uint32_t refusal, speed, desired;
    int32_t acceleration;
} lines[10] = {{0, 0, 0, 0},      {0, 0, 0, 0},      {0, 0, 0, 30},     {0, 108, 0, 30},   {9, 108, 0, 30},
               {0, 108, 108, 30}, {8, 108, 108, 30}, {0, 108, 108, 30}, {0, 108, 108, 30}, {0, 216, 108, 30}};

static void copy(uint32_t *to, const uint32_t *from)
{
    for (size_t i = 0; i < WORDS; i++) {
        to[i] = from[i];
    }
}

/* Event words and settings words against literal ones. */
static void words(void)
{
    EQUAL(WORDS, 12);
    EQUAL(CRUISE_MOVES_WORDS, 6);
    EQUAL(CRUISE_CUT_WORD, 21); /* the only refusal that no function gives */
    EQUAL(cruise_word_settings(CRUISE_MODE_NORMAL, 0), 0xD0000001);
    EQUAL(cruise_word_settings(CRUISE_MODE_ADAPTIVE, 0), 0xD0000002);
    EQUAL(cruise_word_settings(CRUISE_MODE_NORMAL, 1), 0xD0000005);
    EQUAL(cruise_word_settings(CRUISE_MODE_ADAPTIVE, 1), 0xD0000006);
    EQUAL(cruise_word_settings_towing(CRUISE_MODE_NORMAL, 0, 0), 0xD0000001);
    EQUAL(cruise_word_settings_towing(CRUISE_MODE_ADAPTIVE, 1, 0), 0xD0000006);
    EQUAL(cruise_word_settings_towing(CRUISE_MODE_NORMAL, 0, 1), 0xD0000009);
    EQUAL(cruise_word_settings_towing(CRUISE_MODE_ADAPTIVE, 0, 1), 0xD000000A);
    EQUAL(cruise_word_settings_towing(CRUISE_MODE_NORMAL, 1, 1), 0xD000000D);
    EQUAL(cruise_word_settings_towing(CRUISE_MODE_ADAPTIVE, 1, 1), 0xD000000E);
    EQUAL(cruise_settings_mode(0xD0000001), CRUISE_MODE_NORMAL);
    EQUAL(cruise_settings_mode(0xD0000006), CRUISE_MODE_ADAPTIVE);
    EQUAL(cruise_settings_mode(0xD0000009), CRUISE_MODE_NORMAL);
    EQUAL(cruise_settings_signs(0xD0000002), 0);
    EQUAL(cruise_settings_signs(0xD0000005), 1);
    EQUAL(cruise_settings_signs(0xD000000A), 0);
    EQUAL(cruise_settings_towing(0xD0000006), 0);
    EQUAL(cruise_settings_towing(0xD0000009), 1);
    EQUAL(cruise_settings_towing(0xD000000E), 1);

    EQUAL(cruise_word_key(CRUISE_KEY_OUT, 0), 0x10000000);
    EQUAL(cruise_word_key(CRUISE_KEY_IN, 0), 0x10000001);
    EQUAL(cruise_word_key(CRUISE_KEY_ON, 0), 0x10000002);
    EQUAL(cruise_word_key(CRUISE_KEY_ON, 1), 0x10000006);
    EQUAL(cruise_word_up_down(CRUISE_NEUTRAL), 0x20000000);
    EQUAL(cruise_word_up_down(CRUISE_UP5), 0x20000001);
    EQUAL(cruise_word_up_down(CRUISE_UP7), 0x20000002);
    EQUAL(cruise_word_up_down(CRUISE_DOWN5), 0x20000003);
    EQUAL(cruise_word_up_down(CRUISE_DOWN7), 0x20000004);
    EQUAL(cruise_word_fore_back(CRUISE_NEUTRAL), 0x30000000);
    EQUAL(cruise_word_fore_back(CRUISE_FORWARD), 0x30000001);
    EQUAL(cruise_word_fore_back(CRUISE_BACKWARD), 0x30000002);
    EQUAL(cruise_word_brake(0), 0x40000000);
    EQUAL(cruise_word_brake(10), 0x4000000A);
    EQUAL(cruise_word_brake(225), 0x400000E1);
    EQUAL(cruise_word_gas(0), 0x50000000);
    EQUAL(cruise_word_gas(225), 0x500000E1);
    EQUAL(cruise_word_button(0), 0x60000000);
    EQUAL(cruise_word_button(5000), 0x60001388);
    EQUAL(cruise_word_gap(20), 0x70000014);
    EQUAL(cruise_word_gap(25), 0x70000019);
    EQUAL(cruise_word_gap(30), 0x7000001E);
    EQUAL(cruise_word_sign(0), 0x80000000);
    EQUAL(cruise_word_sign(1300), 0x80000514);
    EQUAL(cruise_word_sign(2000), 0x800007D0);
    EQUAL(cruise_word_radar(0, 0), 0x90000000);
    EQUAL(cruise_word_radar(19, 300), 0x90012C13);
    EQUAL(cruise_word_radar(254, 5000), 0x901388FE);
    EQUAL(cruise_word_tick(0), 0xA0000000);
    EQUAL(cruise_word_tick(1), 0xA0000001);

    EQUAL(cruise_word_kind(cruise_word_key(0, 0)), CRUISE_KIND_KEY);
    EQUAL(cruise_word_kind(cruise_word_up_down(0)), CRUISE_KIND_UP_DOWN);
    EQUAL(cruise_word_kind(cruise_word_fore_back(0)), CRUISE_KIND_FORE_BACK);
    EQUAL(cruise_word_kind(cruise_word_brake(0)), CRUISE_KIND_BRAKE);
    EQUAL(cruise_word_kind(cruise_word_gas(0)), CRUISE_KIND_GAS);
    EQUAL(cruise_word_kind(cruise_word_button(0)), CRUISE_KIND_BUTTON);
    EQUAL(cruise_word_kind(cruise_word_gap(20)), CRUISE_KIND_GAP);
    EQUAL(cruise_word_kind(cruise_word_sign(0)), CRUISE_KIND_SIGN);
    EQUAL(cruise_word_kind(cruise_word_radar(0, 0)), CRUISE_KIND_RADAR);
    EQUAL(cruise_word_kind(cruise_word_tick(0)), CRUISE_KIND_TICK);
    EQUAL(cruise_word_kind(0xBB000000), CRUISE_KIND_RECORD);
    EQUAL(cruise_word_kind(0xC0001E00), CRUISE_KIND_ANSWER);
    EQUAL(cruise_word_kind(cruise_word_settings(1, 0)), CRUISE_KIND_SETTINGS);
}

/* A fresh car gives this refusal for an event word of this kind, and stays. */
static void refuses(uint32_t kind, uint32_t word, uint32_t refusal)
{
    struct area record;
    uint32_t *at = lay(&record, fresh, WORDS);
    EQUAL(cruise_word_kind(word), kind);
    EQUAL(cruise_drive(at, WORDS, word), refusal);
    LEFT(record, fresh, WORDS);
}

/* The settings are refused with 17, and the buffer stays. */
static void refuses_settings(uint32_t settings)
{
    struct area record;
    uint32_t *at = lay(&record, NULL, 0);
    EQUAL(cruise_fresh(settings, at, WORDS), CRUISE_SETTINGS);
    EQUAL(cruise_fresh(settings, at, 11), CRUISE_SETTINGS); /* also 20: the lower one */
    EQUAL(cruise_fresh(settings, NULL, 0), CRUISE_SETTINGS);
    LEFT(record, NULL, 0);
}

/* A value in each field whose range it is outside of. */
static void outside(uint32_t value)
{
    if (value == 0 || value > 2) {
        refuses_settings(cruise_word_settings(value, 0));
        refuses_settings(cruise_word_settings(value, 1));
        refuses_settings(cruise_word_settings_towing(value, 0, 1));
        refuses_settings(cruise_word_settings_towing(value, 1, 1));
    }
    if (value > 1) {
        refuses_settings(cruise_word_settings(CRUISE_MODE_NORMAL, value));
        refuses_settings(cruise_word_settings(CRUISE_MODE_ADAPTIVE, value));
        refuses_settings(cruise_word_settings_towing(CRUISE_MODE_NORMAL, value, 0));
        refuses_settings(cruise_word_settings_towing(CRUISE_MODE_ADAPTIVE, value, 1));
        refuses_settings(cruise_word_settings_towing(CRUISE_MODE_NORMAL, 1, value));
        refuses_settings(cruise_word_settings_towing(CRUISE_MODE_ADAPTIVE, 0, value));
        refuses_settings(cruise_word_settings_towing(CRUISE_MODE_ADAPTIVE, value, value));
        refuses(1, cruise_word_key(CRUISE_KEY_IN, value), CRUISE_UNNAMED_BIT);
        refuses(1, cruise_word_key(CRUISE_KEY_ON, value), CRUISE_UNNAMED_BIT);
        refuses(10, cruise_word_tick(value), CRUISE_UNNAMED_BIT);
    }
    if (value > 2) {
        refuses(1, cruise_word_key(value, 0), CRUISE_OUT_OF_RANGE);
        refuses(1, cruise_word_key(value, 1), CRUISE_OUT_OF_RANGE);
        refuses(3, cruise_word_fore_back(value), CRUISE_OUT_OF_RANGE);
    }
    if (value > 4) {
        refuses(2, cruise_word_up_down(value), CRUISE_OUT_OF_RANGE);
    }
    if (value != 20 && value != 25) {
        refuses(7, cruise_word_gap(value), value == 30 ? CRUISE_GAP_WITHDRAWN : CRUISE_OUT_OF_RANGE);
    }
    if (value > 225) {
        refuses(4, cruise_word_brake(value), CRUISE_OUT_OF_RANGE);
        refuses(5, cruise_word_gas(value), CRUISE_OUT_OF_RANGE);
    }
    if (value > 254) {
        refuses(9, cruise_word_radar(value, 0), CRUISE_OUT_OF_RANGE);
        refuses(9, cruise_word_radar(value, 5000), CRUISE_OUT_OF_RANGE);
    }
    if (value > 2000) {
        refuses(8, cruise_word_sign(value), CRUISE_OUT_OF_RANGE);
    }
    if (value > 5000) {
        refuses(6, cruise_word_button(value), CRUISE_OUT_OF_RANGE);
        refuses(9, cruise_word_radar(0, value), CRUISE_OUT_OF_RANGE);
        refuses(9, cruise_word_radar(254, value), CRUISE_OUT_OF_RANGE);
    }
}

static void ranges(void)
{
    static const uint32_t firsts[] = {0, 3, 5, 7, 19, 21, 24, 26, 29, 30, 31, 226, 255, 256, 2001, 5001};
    for (size_t i = 0; i < sizeof firsts / sizeof firsts[0]; i++) {
        outside(firsts[i]);
    }
    for (int bit = 0; bit < 32; bit++) {
        outside((uint32_t)1 << bit);
        outside(0xFFFFFFFFu >> bit);
        outside(0xFFFFFFFFu << bit);
    }
    /* The largest values are inside: another check refuses them, key 0 to 2 with 7 and the kinds 4 to 9 with 4. */
    refuses(1, cruise_word_key(2, 1), CRUISE_POSITION_SKIPPED);
    refuses(4, cruise_word_brake(225), CRUISE_KEY_NOT_ON);
    refuses(5, cruise_word_gas(225), CRUISE_KEY_NOT_ON);
    refuses(6, cruise_word_button(5000), CRUISE_KEY_NOT_ON);
    refuses(7, cruise_word_gap(20), CRUISE_KEY_NOT_ON);
    refuses(7, cruise_word_gap(25), CRUISE_KEY_NOT_ON);
    refuses(8, cruise_word_sign(2000), CRUISE_KEY_NOT_ON);
    refuses(9, cruise_word_radar(254, 5000), CRUISE_KEY_NOT_ON);
}

static void answer(uint32_t word, uint32_t refusal, uint32_t visual, uint32_t acoustic, int32_t acceleration, uint32_t desired)
{
    EQUAL(cruise_word_kind(word), CRUISE_KIND_ANSWER);
    EQUAL(cruise_answer_refusal(word), refusal);
    EQUAL(cruise_answer_visual(word), visual);
    EQUAL(cruise_answer_acoustic(word), acoustic);
    EQUAL(cruise_answer_acceleration(word), acceleration);
    EQUAL(cruise_answer_desired(word), desired);
}

/* The fields of answer words: outside ones, then each field alone with its lowest and highest bits. */
static void fields(void)
{
    answer(0xC0001E05, 5, 0, 0, 0, 0);
    answer(0xC0002A00, 0, 0, 0, 24, 0);
    answer(0xC1F42805, 5, 0, 0, 20, 2000);
    answer(0xC0000380, 0, 0, 0, -53, 0);
    answer(0xC0E10F63, 3, 1, 1, -30, 900);
    answer(0xC0E10F20, 0, 1, 0, -30, 900);
    answer(0xC0E11280, 0, 0, 0, -23, 900);
    answer(0xC12C0F10, 16, 0, 0, -30, 1200);
    answer(0xC0000000, 0, 0, 0, -60, 0);
    answer(0xC000001F, 31, 0, 0, -60, 0);
    answer(0xC0000020, 0, 1, 0, -60, 0);
    answer(0xC0000040, 0, 0, 1, -60, 0);
    answer(0xC0000080, 0, 0, 0, -59, 0);
    answer(0xC0003F80, 0, 0, 0, 67, 0);
    answer(0xC0004000, 0, 0, 0, -60, 1);
    answer(0xC1FFC000, 0, 0, 0, -60, 2047);
}

static void fresh_cars(void)
{
    static const uint32_t settings[8] = {0xD0000001, 0xD0000002, 0xD0000005, 0xD0000006, 0xD0000009, 0xD000000A, 0xD000000D, 0xD000000E};
    static const uint32_t firsts[8] = {0xB0000001, 0xB0000002, 0xB0000005, 0xB0000006, 0xB0004001, 0xB0004002, 0xB0004005, 0xB0004006};
    static const uint32_t others[] = {0xD0000000, 0xD0000003, 0xD0000004, 0xD0000007, 0xD0000008, 0xD000000B, 0xD000000C, 0xD000000F,
                                      0xD0000010, 0xD0000011, 0xD0000019, 0xD8000001, 0xC0000001, 0xC0000009, 0x10000001, 0xE0000001,
                                      0x00000000, 0x00000001, 0xFFFFFFFF};
    struct area record;
    for (size_t i = 0; i < 8; i++) {
        uint32_t made[WORDS];
        copy(made, fresh);
        made[0] = firsts[i];
        for (size_t length = 0; length <= 24; length++) {
            uint32_t *at = lay(&record, NULL, 0);
            EQUAL(cruise_fresh(settings[i], at, length), length < 12 ? CRUISE_SHORT_RECORD : CRUISE_ACCEPTED);
            LEFT(record, length < 12 ? NULL : made, WORDS);
        }
        EQUAL(cruise_fresh(settings[i], NULL, 0), CRUISE_SHORT_RECORD);
    }
    for (size_t i = 0; i < sizeof others / sizeof others[0]; i++) {
        refuses_settings(others[i]);
    }
}

/* The dials of a record, each between numbers that stay. */
static void dials(int line, const uint32_t *record, size_t length, uint32_t refusal, uint32_t speed, uint32_t desired, int32_t acceleration,
                  uint32_t visual, uint32_t acoustic, uint32_t distance)
{
    const uint32_t wanted[11] = {KEPT, speed, KEPT, desired, KEPT, visual, KEPT, acoustic, KEPT, distance, KEPT};
    uint32_t got[11] = {KEPT, KEPT, KEPT, KEPT, KEPT, KEPT, KEPT, KEPT, KEPT, KEPT, KEPT};
    int32_t a[3] = {-7777, -7777, -7777};
    equal(line, "cruise_figures", cruise_figures(record, length, &got[1], &got[3], &a[1], &got[5], &got[7], &got[9]), refusal);
    for (int i = 0; i < 11; i++) {
        equal(line, "a figure", got[i], wanted[i]);
    }
    equal(line, "acceleration", a[1], acceleration);
    equal(line, "the number before it", a[0], -7777);
    equal(line, "the number after it", a[2], -7777);
}

/* The document's listing, word by word and as one lesson. */
static void the_listing(void)
{
    struct area record, taught, answers;
    size_t counts[4] = {77, 77, 77, 77};
    uint32_t *at = lay(&record, fresh, WORDS);
    for (size_t i = 0; i < 10; i++) {
        EQUAL(cruise_drive(at, WORDS, listing[i]), lines[i].refusal);
        EQUAL(cruise_test(at, WORDS), CRUISE_ACCEPTED);
        /* W = 0: N is 2 at rest, else 25 v / 360 */
        dials(__LINE__, at, WORDS, 0, lines[i].speed, lines[i].desired, lines[i].acceleration, 0, 0,
              lines[i].speed == 0 ? 2 : 25 * lines[i].speed / 360);
    }
    LEFT(record, listed, WORDS);

    at = lay(&taught, fresh, WORDS);
    EQUAL(cruise_lesson(at, WORDS, listing, 10, lay(&answers, NULL, 0), 10, &counts[1], &counts[2]), CRUISE_ACCEPTED);
    EQUAL(counts[0], 77);
    EQUAL(counts[1], 8);
    EQUAL(counts[2], 2);
    EQUAL(counts[3], 77);
    LEFT(taught, listed, WORDS);
    for (size_t i = 0; i < 10; i++) {
        answer(answers.words[ROUND + i], lines[i].refusal, 0, 0, lines[i].acceleration, lines[i].desired);
        EQUAL(answers.words[ROUND + i] & 0x0E000000u, 0);
    }
    for (size_t i = 0; i < ROUND; i++) {
        EQUAL(answers.words[i], KEPT);
    }
    for (size_t i = ROUND + 10; i < AREA; i++) {
        EQUAL(answers.words[i], KEPT);
    }
}

/* Outside: a list of calls with gas 180, from its fresh car on. */
static void the_list(void)
{
    static const uint32_t first_words[7] = {0x10000001, 0x10000006, 0x20000000, 0x30000000, 0x40000000, 0x500000B4, 0xA0000001};
    static const uint32_t first[7] = {0xC0001E00, 0xC0001E00, 0xC0001E05, 0xC0001E05, 0xC0001E05, 0xC0002A00, 0xC0002A00};
    static const uint32_t ticks[7] = {0xA0000001, 0xA0000001, 0xA0000001, 0xA0000001, 0xA0000001, 0xA0000001, 0xA0000001};
    static const uint32_t shown[4] = {0xC0002A00, 0xC0002A00, 0xC0002A00, 0xC0002A00};
    static const uint32_t second[WORDS] = {0xB0002015, 0xB100B400, 0xB2000056, 0xB3000000, 0xB4000000, 0xB5000000,
                                           0xB6000000, 0xB7000000, 0xB8000000, 0xB9000014, 0xBA000001, 0xBB000000};
    static const uint32_t eighth[WORDS] = {0xB0002015, 0xB100B400, 0xB2000408, 0xB3000000, 0xB4000000, 0xB5000000,
                                           0xB6000000, 0xB7000000, 0xB8000000, 0xB9000014, 0xBA00000C, 0xBB000000};
    static const uint32_t fifteenth[WORDS] = {0xB0002015, 0xB100B400, 0xB200050A, 0xB3000000, 0xB4000000, 0xB5000000,
                                              0xB6000000, 0xB7000000, 0xB8000000, 0xB9000014, 0xBA00000F, 0xBB000000};
    struct area record, answers;
    size_t accepted = 77, refused = 77;
    uint32_t *at = lay(&record, NULL, 0);
    EQUAL(cruise_fresh(0xD0000005, at, WORDS), 0);
    EQUAL(cruise_lesson(at, WORDS, first_words, 7, lay(&answers, NULL, 0), 10, &accepted, &refused), 0);
    EQUAL(accepted, 4);
    EQUAL(refused, 3);
    LEFT(answers, first, 7);
    LEFT(record, second, WORDS);
    EQUAL(cruise_lesson(at, WORDS, ticks, 2, lay(&answers, NULL, 0), 2, &accepted, &refused), 0);
    LEFT(answers, shown, 2);
    EQUAL(cruise_lesson(at, WORDS, ticks, 4, lay(&answers, NULL, 0), 5, &accepted, &refused), 0);
    EQUAL(accepted, 4);
    EQUAL(refused, 0);
    LEFT(answers, shown, 4);
    EQUAL(cruise_drive(at, WORDS, 0xA0000001), 0);
    EQUAL(cruise_drive(at, WORDS, 0xA0000001), 0);
    EQUAL(cruise_lesson(at, WORDS, ticks, 2, lay(&answers, NULL, 0), 2, &accepted, &refused), 0);
    EQUAL(cruise_drive(at, WORDS, 0xA0000001), 0);
    LEFT(record, eighth, WORDS);
    accepted = refused = 77;
    EQUAL(cruise_lesson(at, WORDS, ticks, 7, lay(&answers, NULL, 0), 5, &accepted, &refused), CRUISE_SHORT_ANSWERS);
    EQUAL(accepted, 0);
    EQUAL(refused, 0);
    LEFT(answers, NULL, 0);
    LEFT(record, eighth, WORDS);
    accepted = refused = 77;
    EQUAL(cruise_lesson(at, WORDS, ticks, 1, NULL, 0, &accepted, &refused), CRUISE_SHORT_ANSWERS);
    EQUAL(accepted, 0);
    EQUAL(refused, 0);
    LEFT(record, eighth, WORDS);
    for (int i = 0; i < 3; i++) {
        EQUAL(cruise_drive(at, WORDS, 0xA0000001), 0);
    }
    LEFT(record, fifteenth, WORDS);
}

/* A lesson of a car: the words, answers and counts, and the record afterwards. */
static void taught_is(int line, const uint32_t *car, const uint32_t *words, const uint32_t *answers, size_t count, size_t accepted,
                      const uint32_t *after)
{
    struct area record, given, answered;
    size_t got[2] = {77, 77};
    uint32_t *at = lay(&record, car, WORDS);
    equal(line, "cruise_lesson",
          cruise_lesson(at, WORDS, lay(&given, words, count), count, lay(&answered, NULL, 0), count + 1, &got[0], &got[1]), CRUISE_ACCEPTED);
    equal(line, "accepted", (long long)got[0], (long long)accepted);
    equal(line, "refused", (long long)got[1], (long long)(count - accepted));
    left(line, "answers", &answered, answers, count);
    left(line, "words", &given, words, count);
    left(line, "record", &record, after, WORDS);
}

/* Outside: lessons of cars further on. */
static void later_lessons(void)
{
    /* gas 153, then 160, with cruise on */
    static const uint32_t urged[WORDS] = {0xB0003015, 0xB1009900, 0xB2001170, 0xB3000000, 0xB43E87D0, 0xB5000000,
                                          0xB6000000, 0xB7000000, 0xB8000000, 0xB9000014, 0xBA00003E, 0xBB000000};
    static const uint32_t urged_words[5] = {0x20000000, 0x30000000, 0x40000000, 0x500000A0, 0xA0000001};
    static const uint32_t urged_answers[5] = {0xC1F42805, 0xC1F42805, 0xC1F42805, 0xC1F42880, 0xC1F42880};
    static const uint32_t urged_after[WORDS] = {0xB0003015, 0xB100A000, 0xB20011BB, 0xB3000000, 0xB43E87D0, 0xB5000000,
                                                0xB6000000, 0xB7000000, 0xB8000000, 0xB9000014, 0xBA00003F, 0xBB000000};
    /* cruise off with a D of 2000, gas 160, two ticks */
    static const uint32_t keeping[WORDS] = {0xB0002015, 0xB1000000, 0xB2000CA8, 0xB3000000, 0xB43E87D0, 0xB5000000,
                                            0xB6000000, 0xB7000000, 0xB8000000, 0xB9000014, 0xBA000037, 0xBB000000};
    static const uint32_t keeping_words[4] = {0x40000000, 0x500000A0, 0xA0000001, 0xA0000001};
    static const uint32_t keeping_answers[4] = {0xC1F41E05, 0xC1F42880, 0xC1F42880, 0xC1F42880};
    static const uint32_t keeping_after[WORDS] = {0xB0002015, 0xB100A000, 0xB2000D3E, 0xB3000000, 0xB43E87D0, 0xB5000000,
                                                  0xB6000000, 0xB7000000, 0xB8000000, 0xB9000014, 0xBA000039, 0xBB000000};
    /* both warnings: a word that 3 refuses, then a tick */
    static const uint32_t warned[WORDS] = {0xB0003412, 0xB1000000, 0xB20001F4, 0xB30000CE, 0xB425EB84, 0xB5000000,
                                           0xB6000000, 0xB707D00A, 0xB80001AA, 0xB9000019, 0xBA01418B, 0xBB01418B};
    static const uint32_t warned_words[2] = {0x500000FF, 0xA0000001};
    static const uint32_t warned_answers[2] = {0xC0E10F63, 0xC0E10F20};
    static const uint32_t warned_after[WORDS] = {0xB0003412, 0xB1000000, 0xB2000188, 0xB30000CE, 0xB425EB84, 0xB5000000,
                                                 0xB6000000, 0xB707D00A, 0xB80001AA, 0xB9000019, 0xBA01418C, 0xBB01418B};
    taught_is(__LINE__, urged, urged_words, urged_answers, 5, 2, urged_after);
    taught_is(__LINE__, keeping, keeping_words, keeping_answers, 4, 3, keeping_after);
    taught_is(__LINE__, warned, warned_words, warned_answers, 2, 1, warned_after);
}

/* Back to the old speed after a roundabout, worked out by hand: cruise at 80.0 km/h, full brake for three seconds, on with the brake
   released; then forward, below 20.0 km/h. */
static void roundabout(void)
{
    static const uint32_t cruising[WORDS] = {0xB0003011, 0xB1000000, 0xB2000320, 0xB3000000, 0xB4000320, 0xB5000000,
                                             0xB6000000, 0xB7000000, 0xB8000000, 0xB9000014, 0xBA00000B, 0xBB000000};
    static const uint32_t off_words[7] = {0x400000E1, 0xA0000001, 0xA0000001, 0xA0000001, 0x40000000, 0xA0000001, 0xA0000001};
    static const uint32_t off_answers[7] = {0xC0C80000, 0xC0C80000, 0xC0C80000, 0xC0C80000, 0xC0C81E00, 0xC0C81E00, 0xC0C81E00};
    static const uint32_t off[WORDS] = {0xB0002011, 0xB1000000, 0xB2000098, 0xB3000000, 0xB4000320, 0xB5000000,
                                        0xB6000000, 0xB7000000, 0xB8000000, 0xB9000014, 0xBA000010, 0xBB000000};
    static const uint32_t on_words[3] = {0x30000001, 0x30000000, 0xA0000001};
    static const uint32_t on_answers[3] = {0xC0C82300, 0xC0C82300, 0xC0C82300};
    static const uint32_t on[WORDS] = {0xB0003011, 0xB1000000, 0xB20000BC, 0xB3000000, 0xB4000320, 0xB5000000,
                                       0xB6000000, 0xB7000000, 0xB8000000, 0xB9000014, 0xBA000011, 0xBB000000};
    taught_is(__LINE__, cruising, off_words, off_answers, 7, 7, off);
    /* a record with D above 0 and cruise off is an ordinary one; N: 25 v / 360 */
    EQUAL(cruise_test(off, WORDS), CRUISE_ACCEPTED);
    dials(__LINE__, off, WORDS, 0, 152, 800, 0, 0, 0, 10);
    taught_is(__LINE__, off, on_words, on_answers, 3, 3, on);
}

/* Document 02, 3: full brake is -60, full gas 30 with cruise off and on; a second takes v down by 216 and up by 108, not below 0. */
static void pedals(void)
{
    static const struct {
        uint32_t flags, pedals, speed, desired;
        int32_t acceleration;
        uint32_t after;
    } cases[] = {
        {0xB0002011, 0xB10000E1, 500, 0, -60, 284},  /* full brake */
        {0xB0002011, 0xB10000E1, 216, 0, -60, 0},
        {0xB0002011, 0xB10000E1, 1, 0, -60, 0},
        {0xB0002011, 0xB10000E1, 0, 0, 0, 0},        /* at rest */
        {0xB0002011, 0xB1000003, 500, 0, 0, 500},    /* brake 3, 4 */
        {0xB0002011, 0xB1000004, 500, 0, -1, 497},
        {0xB0002011, 0xB100E100, 0, 0, 30, 108},     /* full gas, cruise off */
        {0xB0002011, 0xB1000700, 500, 0, 0, 500},    /* gas 7, 8 */
        {0xB0002011, 0xB1000800, 500, 0, 1, 503},
        {0xB0003011, 0xB100E100, 500, 400, 30, 608}, /* full gas, cruise on, above D and below it */
        {0xB0003011, 0xB100E100, 500, 900, 30, 608},
    };
    struct area record;
    for (size_t i = 0; i < sizeof cases / sizeof cases[0]; i++) {
        uint32_t car[WORDS];
        uint32_t *at;
        copy(car, listed);
        car[0] = cases[i].flags;
        car[1] = cases[i].pedals;
        car[2] = 0xB2000000u | cases[i].speed;
        car[4] = 0xB4000000u | cases[i].desired;
        at = lay(&record, car, WORDS);
        dials(__LINE__, at, WORDS, 0, cases[i].speed, cases[i].desired, cases[i].acceleration, 0, 0,
              cases[i].speed == 0 ? 2 : 25 * cases[i].speed / 360);
        EQUAL(cruise_drive(at, WORDS, 0xA0000001), CRUISE_ACCEPTED);
        car[2] = 0xB2000000u | cases[i].after;
        car[10] = 0xBA000003;
        LEFT(record, car, WORDS);
    }
}

/* Document 02, 8: a car too close (R 19, N 27) kicks down with gas above 90; the visual warning is on all the same. */
static void kick_down(void)
{
    static const struct {
        uint32_t pedals;
        int32_t acceleration;
        uint32_t after;
    } cases[] = {
        {0xB1000000, -30, 392}, /* gas 0 */
        {0xB1005A00, -30, 392}, /* gas 90 */
        {0xB1005B00, 12, 543},  /* gas 91 */
        {0xB100E100, 30, 608},  /* full gas */
    };
    struct area record;
    for (size_t i = 0; i < sizeof cases / sizeof cases[0]; i++) {
        uint32_t car[WORDS];
        uint32_t *at;
        copy(car, behind);
        car[1] = cases[i].pedals;
        at = lay(&record, car, WORDS);
        dials(__LINE__, at, WORDS, 0, 500, 900, cases[i].acceleration, 1, 0, 27);
        EQUAL(cruise_drive(at, WORDS, 0xA0000001), CRUISE_ACCEPTED);
        car[2] = 0xB2000000u | cases[i].after;
        car[10] = 0xBA000001;
        LEFT(record, car, WORDS);
    }
}

/* Document 02, 11: the highest D is 2000 alone and 1000 towing, by each word that changes it. The car: mode 2, signs 1, key on, P. */
static void towing(void)
{
    static const struct {
        uint32_t flags, speed, desired, word, alone, towed; /* flags without towing; D afterwards */
    } cases[] = {
        {0xB0003016, 300, 995, 0x20000001, 1005, 1000},  /* up5 */
        {0xB0003016, 300, 950, 0x20000002, 1000, 1000},  /* up7 */
        {0xB0003016, 300, 1000, 0x20000002, 1100, 1000},
        {0xB0003016, 300, 1000, 0x20000003, 990, 990},   /* down5 */
        {0xB0003016, 300, 1000, 0x20000004, 900, 900},   /* down7 */
        {0xB0002016, 1001, 0, 0x20000004, 1001, 1000},   /* cruise off */
        {0xB0002016, 1500, 0, 0x20000001, 1500, 1000},
        {0xB0002016, 999, 0, 0x20000001, 999, 999},
        {0xB0002016, 1500, 0, 0x30000001, 1500, 1000},   /* forward */
        {0xB0002016, 1500, 700, 0x30000001, 700, 700},
        {0xB0003016, 300, 400, 0x80000514, 1300, 1000},  /* signs 1300, 1301, 1001, 1000, 200, 199 */
        {0xB0003016, 300, 400, 0x80000515, 1200, 1000},
        {0xB0003016, 300, 400, 0x800003E9, 1001, 1000},
        {0xB0003016, 300, 400, 0x800003E8, 1000, 1000},
        {0xB0003016, 300, 400, 0x800000C8, 200, 200},
        {0xB0003016, 300, 400, 0x800000C7, 400, 400},
        {0xB0003036, 300, 995, 0xA0000001, 1005, 1000},  /* up5 held since 0 from 995, at the second 1 */
        {0xB0003056, 300, 1000, 0xA0000001, 1100, 1000}, /* up7 */
    };
    struct area record;
    for (size_t i = 0; i < sizeof cases / sizeof cases[0]; i++) {
        for (uint32_t with = 0; with <= 1; with++) {
            uint32_t car[WORDS], speed, desired, visual, acoustic, distance;
            int32_t acceleration;
            uint32_t *at;
            copy(car, fresh);
            car[0] = cases[i].flags | with << 14;
            car[2] = 0xB2000000u | cases[i].speed;
            car[4] = 0xB4000000u | cases[i].desired;
            car[6] = 0xB6000000u | (cases[i].word == 0xA0000001 ? cases[i].desired : 0);
            car[7] = 0xB7000000;
            car[10] = 0xBA000001;
            at = lay(&record, car, WORDS);
            EQUAL(cruise_drive(at, WORDS, cases[i].word), CRUISE_ACCEPTED);
            EQUAL(cruise_figures(at, WORDS, &speed, &desired, &acceleration, &visual, &acoustic, &distance), CRUISE_ACCEPTED);
            EQUAL(desired, with == 1 ? cases[i].towed : cases[i].alone);
            EQUAL(at[0] >> 14 & 1, with);
            EQUAL(at[4] >> 11 & 0x7FF, with == 0 && desired >= 1200 && cases[i].word >> 28 == 2 ? desired : 0); /* E */
        }
    }
}

/* A record's ranges: D and B up to 2000 alone and 1000 towing, E 0 or 1200 to 2000 alone and 0 towing. */
static void towing_records(void)
{
    static const struct {
        uint32_t desired, manual, alone, towed;
    } cases[] = {
        {1000, 0, CRUISE_ACCEPTED, CRUISE_ACCEPTED},        {1001, 0, CRUISE_ACCEPTED, CRUISE_NOT_ACCEPTED},
        {2000, 0, CRUISE_ACCEPTED, CRUISE_NOT_ACCEPTED},    {2001, 0, CRUISE_NOT_ACCEPTED, CRUISE_NOT_ACCEPTED},
        {1000, 1, CRUISE_NOT_ACCEPTED, CRUISE_NOT_ACCEPTED},    {1000, 1000, CRUISE_NOT_ACCEPTED, CRUISE_NOT_ACCEPTED},
        {1000, 1199, CRUISE_NOT_ACCEPTED, CRUISE_NOT_ACCEPTED}, {1000, 1200, CRUISE_ACCEPTED, CRUISE_NOT_ACCEPTED},
        {1000, 2000, CRUISE_ACCEPTED, CRUISE_NOT_ACCEPTED},     {1000, 2001, CRUISE_NOT_ACCEPTED, CRUISE_NOT_ACCEPTED},
    };
    struct area first, second;
    uint32_t alike = KEPT;
    uint32_t car[WORDS];
    copy(car, listed);
    for (size_t i = 0; i < sizeof cases / sizeof cases[0]; i++) {
        car[4] = 0xB4000000u | cases[i].desired | cases[i].manual << 11;
        car[0] = 0xB0003111;
        EQUAL(cruise_test(lay(&first, car, WORDS), WORDS), cases[i].alone);
        car[0] = 0xB0007111;
        EQUAL(cruise_test(lay(&first, car, WORDS), WORDS), cases[i].towed);
    }
    /* up5 held for a second, D = B */
    for (uint32_t base = 999; base <= 1001; base++) {
        copy(car, behind);
        car[4] = 0xB4000000u | base;
        car[6] = 0xB6000000u | base;
        car[10] = 0xBA000001;
        car[0] = 0xB0003032;
        EQUAL(cruise_test(lay(&first, car, WORDS), WORDS), CRUISE_ACCEPTED);
        car[0] = 0xB0007032;
        EQUAL(cruise_test(lay(&first, car, WORDS), WORDS), base <= 1000 ? CRUISE_ACCEPTED : CRUISE_NOT_ACCEPTED);
    }
    /* bit 15 is named no more than before */
    copy(car, fresh);
    car[0] = 0xB0008001;
    EQUAL(cruise_test(lay(&first, car, WORDS), WORDS), CRUISE_NOT_ACCEPTED);
    /* the same car alone and towing is not alike */
    copy(car, behind);
    lay(&first, car, WORDS);
    car[0] = 0xB0007012;
    lay(&second, car, WORDS);
    EQUAL(cruise_alike(first.words + ROUND, WORDS, second.words + ROUND, WORDS, &alike), CRUISE_ACCEPTED);
    EQUAL(alike, 0);
    EQUAL(cruise_alike(second.words + ROUND, WORDS, second.words + ROUND, WORDS, &alike), CRUISE_ACCEPTED);
    EQUAL(alike, 1);
}

/* Lessons of no words, and answer buffers of every length up to past the lesson's. */
static void lessons(void)
{
    struct area record, answers, given, shown;
    uint32_t *at = lay(&record, listed, WORDS);
    size_t accepted = 77, refused = 77;
    EQUAL(cruise_lesson(at, WORDS, NULL, 0, NULL, 0, &accepted, &refused), CRUISE_ACCEPTED);
    EQUAL(accepted, 0);
    EQUAL(refused, 0);
    LEFT(record, listed, WORDS);
    accepted = refused = 77;
    EQUAL(cruise_lesson(at, WORDS, lay(&given, listing, 10), 0, lay(&answers, NULL, 0), 8, &accepted, &refused), CRUISE_ACCEPTED);
    EQUAL(accepted, 0);
    EQUAL(refused, 0);
    LEFT(record, listed, WORDS);
    LEFT(answers, NULL, 0);
    lay(&shown, NULL, 0);
    for (size_t i = 0; i < 10; i++) {
        shown.words[ROUND + i] = 0xC0000000u | lines[i].refusal | ((uint32_t)(lines[i].acceleration + 60) << 7) | (lines[i].desired << 14);
    }
    for (size_t room = 0; room <= 12; room++) {
        at = lay(&record, fresh, WORDS);
        accepted = refused = 77;
        EQUAL(cruise_lesson(at, WORDS, lay(&given, listing, 10), 10, lay(&answers, NULL, 0), room, &accepted, &refused),
              room < 10 ? CRUISE_SHORT_ANSWERS : CRUISE_ACCEPTED);
        EQUAL(accepted, room < 10 ? 0 : 8);
        EQUAL(refused, room < 10 ? 0 : 2);
        LEFT(record, room < 10 ? fresh : listed, WORDS);
        LEFT(given, listing, 10);
        if (room < 10) {
            LEFT(answers, NULL, 0);
        } else {
            LEFT(answers, shown.words + ROUND, 10);
        }
    }
}

/* A clean copy into a buffer of this length: its refusal, the words it leaves there, and their number between numbers that stay. */
static void copy_is(int line, uint32_t settings, const uint32_t *lesson, size_t count, size_t room, uint32_t refusal,
                    const uint32_t *wanted, size_t written)
{
    struct area given, buffer;
    size_t got[3] = {77, 77, 77};
    equal(line, "cruise_copy", cruise_copy(settings, lay(&given, lesson, count), count, lay(&buffer, NULL, 0), room, &got[1]), refusal);
    equal(line, "written", (long long)got[1], (long long)written);
    equal(line, "the number before it", (long long)got[0], 77);
    equal(line, "the number after it", (long long)got[2], 77);
    left(line, "the copy", &buffer, wanted, written);
    left(line, "the lesson", &given, lesson, count);
}

/* Settings that are refused: with 17 before the buffer is looked at, which stays. */
static void copy_refuses(uint32_t settings)
{
    size_t written = 77;
    for (size_t room = 0; room <= 10; room++) {
        copy_is(__LINE__, settings, listing, 10, room, CRUISE_SETTINGS, NULL, 0);
    }
    EQUAL(cruise_copy(settings, NULL, 0, NULL, 0, &written), CRUISE_SETTINGS);
    EQUAL(written, 0);
}

/* The document's listing without the words that it shows as refused, 5 and 7. */
static void copies(void)
{
    static const uint32_t clean[8] = {0x10000001, 0x10000006, 0x500000E1, 0xA0000001, 0x20000001, 0x20000000, 0x30000001, 0xA0000001};
    static const uint32_t settings[5] = {0xD0000001, 0xD0000002, 0xD0000005, 0xD0000006, 0xD000000E};
    static const uint32_t others[] = {0xD0000000, 0xD0000003, 0xD0000004, 0xD0000008, 0xD0000011, 0xD8000001, 0x10000001, 0x00000001, 0xFFFFFFFF};
    static const uint32_t all_refused[3] = {0x500000E1, 0x00000000, 0x10000002}; /* 4, 1 and 7 */
    struct area record, answers;
    size_t accepted = 77, refused = 77, written = 77;
    for (size_t i = 0; i < 5; i++) {
        for (size_t room = 0; room <= 12; room++) {
            uint32_t refusal = room < 8 ? CRUISE_SHORT_ANSWERS : CRUISE_ACCEPTED;
            copy_is(__LINE__, settings[i], listing, 10, room, refusal, clean, room < 8 ? 0 : 8);
            copy_is(__LINE__, settings[i], clean, 8, room, refusal, clean, room < 8 ? 0 : 8);
        }
    }
    for (size_t i = 0; i < sizeof others / sizeof others[0]; i++) {
        copy_refuses(others[i]);
    }

    /* driving the copy */
    EQUAL(cruise_lesson(lay(&record, fresh, WORDS), WORDS, clean, 8, lay(&answers, NULL, 0), 8, &accepted, &refused), CRUISE_ACCEPTED);
    EQUAL(accepted, 8);
    EQUAL(refused, 0);
    LEFT(record, listed, WORDS);

    /* no words, and no accepted ones: no buffer is too short */
    copy_is(__LINE__, 0xD0000001, listing, 0, 0, CRUISE_ACCEPTED, NULL, 0);
    copy_is(__LINE__, 0xD0000001, listing, 0, 5, CRUISE_ACCEPTED, NULL, 0);
    copy_is(__LINE__, 0xD0000001, all_refused, 3, 0, CRUISE_ACCEPTED, NULL, 0);
    copy_is(__LINE__, 0xD0000001, all_refused, 3, 3, CRUISE_ACCEPTED, NULL, 0);
    EQUAL(cruise_copy(0xD0000001, NULL, 0, NULL, 0, &written), CRUISE_ACCEPTED);
    EQUAL(written, 0);
    written = 77;
    EQUAL(cruise_copy(0xD0000001, all_refused, 3, NULL, 0, &written), CRUISE_ACCEPTED);
    EQUAL(written, 0);
    written = 77;
    EQUAL(cruise_copy(0xD0000001, listing, 10, NULL, 0, &written), CRUISE_SHORT_ANSWERS);
    EQUAL(written, 0);
}

/* A mark of a lesson: its refusal, and the two numbers between numbers that stay; nothing else is written. */
static void mark_is(int line, const uint32_t *car, size_t length, const uint32_t *lesson, size_t count, uint32_t mark, uint32_t refusal,
                    size_t event, size_t seconds)
{
    struct area record, given;
    size_t got[5] = {77, 77, 77, 77, 77};
    equal(line, "cruise_mark", cruise_mark(lay(&record, car, length), length, lay(&given, lesson, count), count, mark, &got[1], &got[3]), refusal);
    equal(line, "event", (long long)got[1], (long long)event);
    equal(line, "seconds", (long long)got[3], (long long)seconds);
    for (size_t i = 0; i < 5; i += 2) {
        equal(line, "a number beside them", (long long)got[i], 77);
    }
    left(line, "the record", &record, car, length);
    left(line, "the lesson", &given, lesson, count);
}

/* The document's listing, v 108 after event 4 and 216 after event 10; the same in two parts; and lessons of the outside vectors. */
static void marks(void)
{
    static const struct {
        uint32_t mark, refusal;
        size_t event, seconds, count;
        uint32_t car[WORDS], lesson[12];
    } outside[] = {
        {4999u, 0, 4, 9, 12,
         {0xB0003472, 0xB1000000, 0xB2001315, 0xB300080E, 0xB400000A, 0xB5015037,
          0xB600001C, 0xB700C000, 0xB8000000, 0xB9000014, 0xBA01503B, 0xBB014FE6},
         {0x40000000, 0x500000E1, 0xA0000001, 0xA0000001, 0xA0000001, 0xA0000001, 0xA0000001, 0xA0000001, 0xA0000001, 0xA0000001, 0xA0000001, 0xA0000001}},
        {1192u, 18, 0, 0, 1,
         {0xB0002496, 0xB1000000, 0xB2001389, 0xB30004B0, 0xB42DACA9, 0xB5000000,
          0xB6000000, 0xB7000000, 0xB8000000, 0xB900001E, 0xBA00E7D7, 0xBB00E63C},
         {0x20000004}},
        {201u, 0, 9, 1, 9,
         {0xB0002516, 0xB1000001, 0xB20000C8, 0xB30000CE, 0xB4000578, 0xB5000000,
          0xB6000000, 0xB7000C77, 0xB800000C, 0xB9000019, 0xBA000000, 0xBB000000},
         {0x40000000, 0xA0000001, 0xA0000001, 0xA0000001, 0xA0000001, 0xA0000001, 0xA0000001, 0x500000E1, 0xA0000001}},
        {108u, 0, 5, 4, 9,
         {0xB0000002, 0xB1000000, 0xB2000000, 0xB300137F, 0xB4000000, 0xB5000000,
          0xB6000000, 0xB70000FF, 0xB8000000, 0xB9000014, 0xBA01517C, 0xBB000000},
         {0x10000001, 0x10000006, 0x40000000, 0x500000E1, 0xA0000001, 0xA0000001, 0xA0000001, 0xA0000001, 0xA0000001}},
        {324u, 0, 0, 1, 6,
         {0xB0003C96, 0xB1000000, 0xB20001B0, 0xB3001354, 0xB400000A, 0xB5015164,
          0xB6000001, 0xB7135311, 0xB8001353, 0xB9000019, 0xBA01517F, 0xBB014F29},
         {0x500000E1, 0xA0000001, 0xA0000001, 0xA0000001, 0xA0000001, 0xA0000001}},
        /* kick-down behind a car too close */
        {2080u, 0, 12, 1, 12,
         {0xB0003C56, 0xB1000000, 0xB20003E8, 0xB30007D5, 0xB43E87D0, 0xB5014F84,
          0xB60003E8, 0xB70A000B, 0xB8000000, 0xB9000019, 0xBA014FA0, 0xBB014FA0},
         {0x40000000, 0x500000E1, 0xA0000001, 0xA0000001, 0xA0000001, 0xA0000001, 0xA0000001, 0xA0000001, 0xA0000001, 0xA0000001, 0xA0000001, 0xA0000001}},
        {0u, 0, 0, 10, 11,
         {0xB0002216, 0xB10000E0, 0xB2000004, 0xB3000002, 0xB4000320, 0xB5000000,
          0xB6000000, 0xB7000100, 0xB8000001, 0xB9000014, 0xBA000000, 0xBB000000},
         {0x500000E1, 0xA0000001, 0xA0000001, 0xA0000001, 0xA0000001, 0xA0000001, 0xA0000001, 0xA0000001, 0xA0000001, 0xA0000001, 0xA0000001}},
    };
    static const struct {
        uint32_t mark;
        size_t event, seconds;
    } listed_marks[] = {{0, 0, 2}, {1, 4, 2}, {108, 4, 2}, {109, 10, 1}, {216, 10, 1}, {217, 0, 0}, {5000, 0, 0}, {5001, 0, 0}, {0xFFFFFFFF, 0, 0}};
    struct area record, answers;
    size_t accepted, refused, event = 77, seconds = 77;
    for (size_t i = 0; i < sizeof listed_marks / sizeof listed_marks[0]; i++) {
        mark_is(__LINE__, fresh, WORDS, listing, 10, listed_marks[i].mark, CRUISE_ACCEPTED, listed_marks[i].event, listed_marks[i].seconds);
    }
    EQUAL(cruise_lesson(lay(&record, fresh, WORDS), WORDS, listing, 6, lay(&answers, NULL, 0), 6, &accepted, &refused), CRUISE_ACCEPTED);
    mark_is(__LINE__, fresh, WORDS, listing, 6, 200, CRUISE_ACCEPTED, 0, 0);
    mark_is(__LINE__, record.words + ROUND, WORDS, listing + 6, 4, 200, CRUISE_ACCEPTED, 4, 1);
    mark_is(__LINE__, fresh, WORDS, listing, 10, 200, CRUISE_ACCEPTED, 10, 1);
    for (size_t i = 0; i < sizeof outside / sizeof outside[0]; i++) {
        mark_is(__LINE__, outside[i].car, WORDS, outside[i].lesson, outside[i].count, outside[i].mark, outside[i].refusal, outside[i].event,
                outside[i].seconds);
    }

    /* no words, and records that are none */
    mark_is(__LINE__, fresh, WORDS, listing, 0, 1, CRUISE_ACCEPTED, 0, 0);
    mark_is(__LINE__, fresh, WORDS - 1, listing, 10, 108, CRUISE_NOT_ACCEPTED, 0, 0);
    mark_is(__LINE__, listing, 10, listing, 10, 108, CRUISE_NOT_ACCEPTED, 0, 0);
    EQUAL(cruise_mark(fresh, WORDS, NULL, 0, 1, &event, &seconds), CRUISE_ACCEPTED);
    EQUAL(event, 0);
    EQUAL(seconds, 0);
    event = seconds = 77;
    EQUAL(cruise_mark(NULL, 0, listing, 10, 108, &event, &seconds), CRUISE_NOT_ACCEPTED);
    EQUAL(event, 0);
    EQUAL(seconds, 0);
}

/* The fewest moves: the refusal, the count between numbers that stay, and six words with 0 past the list; the record is only read. The list driven as a
   lesson is refused nothing, and leaves L in neutral and the wanted D. */
static void moves_is(int line, const uint32_t *car, size_t length, uint32_t wanted, uint32_t refusal, size_t count, const uint32_t *list)
{
    struct area record, got, answers;
    uint32_t six[CRUISE_MOVES_WORDS] = {0, 0, 0, 0, 0, 0};
    size_t counts[3] = {77, 77, 77}, accepted = 77, refused = 77;
    for (size_t i = 0; i < count; i++) {
        six[i] = list[i];
    }
    equal(line, "cruise_moves", cruise_moves(lay(&record, car, length), length, wanted, lay(&got, NULL, 0), &counts[1]), refusal);
    equal(line, "the count", (long long)counts[1], (long long)count);
    equal(line, "a number before it", (long long)counts[0], 77);
    equal(line, "a number behind it", (long long)counts[2], 77);
    left(line, "the words", &got, six, CRUISE_MOVES_WORDS);
    left(line, "the record", &record, car, length);
    if (refusal != CRUISE_ACCEPTED) {
        return;
    }
    equal(line, "driven", cruise_lesson(record.words + ROUND, length, six, count, lay(&answers, NULL, 0), count, &accepted, &refused), CRUISE_ACCEPTED);
    equal(line, "accepted", (long long)accepted, (long long)count);
    equal(line, "refused", (long long)refused, 0);
    equal(line, "L behind it", record.words[ROUND] >> 5 & 7, CRUISE_NEUTRAL);
    equal(line, "D behind it", record.words[ROUND + 4] & 0x7FF, wanted);
}

/* Lists worked out by hand from D 57.0 km/h, towing from 99.0; and those of the outside vectors. */
static void moves(void)
{
    static const uint32_t at_570[WORDS] = {0xB0003011, 0xB1000000, 0xB20000D8, 0xB3000000, 0xB400023A, 0xB5000000,
                                           0xB6000000, 0xB7000000, 0xB8000000, 0xB9000014, 0xBA000000, 0xBB000000};
    static const uint32_t neutral = 0x20000000, up_5 = 0x20000001, up_7 = 0x20000002, down_5 = 0x20000003, down_7 = 0x20000004;
    static const struct {
        uint32_t wanted, refusal;
        size_t count;
        uint32_t car[WORDS], list[CRUISE_MOVES_WORDS];
    } outside[] = {
        {100u, 0, 2,
         {0xB0001015, 0xB1000000, 0xB20000C9, 0xB3000000, 0xB400000B, 0xB5000000,
          0xB6000000, 0xB70000FF, 0xB8000000, 0xB9000014, 0xBA000000, 0xBB000000},
         {0x20000002, 0x20000000}},
        {20u, 0, 4,
         {0xB0001012, 0xB1000000, 0xB200000A, 0xB3000000, 0xB4000064, 0xB5000000,
          0xB6000000, 0xB70000FF, 0xB8000000, 0xB9000014, 0xBA00025D, 0xBB00025D},
         {0x20000004, 0x20000000, 0x20000001, 0x20000000}},
        {29u, 26, 0,
         {0xB0001012, 0xB1000000, 0xB20003E7, 0xB3000000, 0xB4000063, 0xB5000000,
          0xB6000000, 0xB70000FF, 0xB8000000, 0xB9000014, 0xBA000000, 0xBB000000},
         {0}},
        {2010u, 25, 0,
         {0xB0003116, 0xB1000000, 0xB2000066, 0xB3000000, 0xB43E37D0, 0xB5000000,
          0xB6000000, 0xB7000100, 0xB8000000, 0xB9000019, 0xBA00000C, 0xBB000008},
         {0}},
        {1990u, 26, 0,
         {0xB0005012, 0xB1000000, 0xB20000D7, 0xB3000000, 0xB40002CA, 0xB5000000,
          0xB6000000, 0xB70000FF, 0xB8000000, 0xB9000014, 0xBA00025F, 0xBB00025F},
         {0}},
        {1000u, 0, 0,
         {0xB0005016, 0xB1000000, 0xB20003E7, 0xB3000000, 0xB40003E8, 0xB5000000,
          0xB6000000, 0xB70000FF, 0xB8000000, 0xB9000014, 0xBA01517D, 0xBB01517D},
         {0}},
        {800u, 0, 4,
         {0xB0005016, 0xB1000000, 0xB20003E9, 0xB3000000, 0xB40003E3, 0xB5000000,
          0xB6000000, 0xB70000FF, 0xB8000000, 0xB9000014, 0xBA000013, 0xBB000013},
         {0x20000004, 0x20000000, 0x20000004, 0x20000000}},
        {570u, 0, 0,
         {0xB0001011, 0xB1000000, 0xB200000A, 0xB3000000, 0xB400023A, 0xB5000000,
          0xB6000000, 0xB70000FF, 0xB8000000, 0xB9000014, 0xBA000252, 0xBB000252},
         {0}},
        {300u, 0, 2,
         {0xB0005015, 0xB1000000, 0xB20000DA, 0xB3000000, 0xB4000136, 0xB5000000,
          0xB6000000, 0xB70000FF, 0xB8000000, 0xB9000014, 0xBA000000, 0xBB000000},
         {0x20000003, 0x20000000}},
        {110u, 0, 3,
         {0xB0001012, 0xB1000000, 0xB20003E8, 0xB3000000, 0xB400000B, 0xB5000000,
          0xB6000000, 0xB70000FF, 0xB8000000, 0xB9000014, 0xBA01517E, 0xBB01517E},
         {0x20000002, 0x20000001, 0x20000000}},
        {620u, 0, 5,
         {0xB0005012, 0xB1000000, 0xB20000C7, 0xB3000000, 0xB400023A, 0xB5000000,
          0xB6000000, 0xB70000FF, 0xB8000000, 0xB9000014, 0xBA000014, 0xBB000014},
         {0x20000002, 0x20000001, 0x20000000, 0x20000001, 0x20000000}},
        {1930u, 0, 6,
         {0xB0001012, 0xB1000000, 0xB20007D0, 0xB3000000, 0xB400076C, 0xB5000000,
          0xB6000000, 0xB70000FF, 0xB8000000, 0xB9000014, 0xBA000009, 0xBB000009},
         {0x20000001, 0x20000000, 0x20000001, 0x20000000, 0x20000001, 0x20000000}},
        {700u, 0, 6,
         {0xB0005016, 0xB1000000, 0xB20001B1, 0xB3000000, 0xB40003E3, 0xB5000000,
          0xB6000000, 0xB70000FF, 0xB8000000, 0xB9000014, 0xBA000014, 0xBB000014},
         {0x20000004, 0x20000000, 0x20000004, 0x20000000, 0x20000004, 0x20000000}},
        {382u, 25, 0,
         {0xB0006C36, 0xB1000000, 0xB2000000, 0xB30004AE, 0xB40001A6, 0xB5000000,
          0xB6000000, 0xB707CA2F, 0xB80007CB, 0xB9000019, 0xBA015045, 0xBB014DEF},
         {0}},
        {520u, 0, 5,
         {0xB0001012, 0xB1000000, 0xB20000C9, 0xB3000000, 0xB40001F2, 0xB5000000,
          0xB6000000, 0xB70000FF, 0xB8000000, 0xB9000014, 0xBA01517B, 0xBB01517B},
         {0x20000002, 0x20000001, 0x20000000, 0x20000001, 0x20000000}},
        {110u, 0, 3,
         {0xB0005011, 0xB1000000, 0xB2001387, 0xB3000000, 0xB4000063, 0xB5000000,
          0xB6000000, 0xB70000FF, 0xB8000000, 0xB9000014, 0xBA000000, 0xBB000000},
         {0x20000002, 0x20000001, 0x20000000}},
    };
    const uint32_t to_610[] = {up_7, up_5, neutral}, to_500[] = {down_7, neutral}, to_1000[] = {up_5, neutral};
    const uint32_t to_540[] = {down_5, neutral, down_5, neutral, down_5, neutral};
    uint32_t car[WORDS], six[CRUISE_MOVES_WORDS];
    size_t count = 77;
    EQUAL(CRUISE_NOT_READY_TO_MOVE, 25);
    EQUAL(CRUISE_OUT_OF_REACH, 26);

    moves_is(__LINE__, at_570, WORDS, 570, CRUISE_ACCEPTED, 0, NULL);
    moves_is(__LINE__, at_570, WORDS, 610, CRUISE_ACCEPTED, 3, to_610);
    moves_is(__LINE__, at_570, WORDS, 500, CRUISE_ACCEPTED, 2, to_500);
    moves_is(__LINE__, at_570, WORDS, 540, CRUISE_ACCEPTED, 6, to_540);
    moves_is(__LINE__, at_570, WORDS, 575, CRUISE_OUT_OF_REACH, 0, NULL);
    moves_is(__LINE__, at_570, WORDS, 640, CRUISE_OUT_OF_REACH, 0, NULL);
    moves_is(__LINE__, at_570, WORDS, 0, CRUISE_OUT_OF_REACH, 0, NULL);
    moves_is(__LINE__, at_570, WORDS, 2001, CRUISE_OUT_OF_REACH, 0, NULL);
    moves_is(__LINE__, at_570, WORDS, 0xFFFFFFFF, CRUISE_OUT_OF_REACH, 0, NULL);

    /* at the ceiling up5 and up7 give the same D, and up5 comes first */
    copy(car, at_570);
    car[4] = 0xB40003DE;
    moves_is(__LINE__, car, WORDS, 1000, CRUISE_ACCEPTED, 2, to_1000);
    car[0] = 0xB0007011;
    moves_is(__LINE__, car, WORDS, 1000, CRUISE_ACCEPTED, 2, to_1000);
    moves_is(__LINE__, car, WORDS, 1010, CRUISE_OUT_OF_REACH, 0, NULL);

    /* cruise off, L out, M out: also where no list would do it */
    copy(car, at_570);
    car[0] = 0xB0002011;
    moves_is(__LINE__, car, WORDS, 610, CRUISE_NOT_READY_TO_MOVE, 0, NULL);
    moves_is(__LINE__, car, WORDS, 0, CRUISE_NOT_READY_TO_MOVE, 0, NULL);
    car[0] = 0xB0003111;
    moves_is(__LINE__, car, WORDS, 570, CRUISE_NOT_READY_TO_MOVE, 0, NULL);
    car[0] = 0xB0003031;
    car[6] = 0xB600023A;
    moves_is(__LINE__, car, WORDS, 570, CRUISE_NOT_READY_TO_MOVE, 0, NULL);
    moves_is(__LINE__, fresh, WORDS, 0, CRUISE_NOT_READY_TO_MOVE, 0, NULL);
    moves_is(__LINE__, listed, WORDS, 108, CRUISE_NOT_READY_TO_MOVE, 0, NULL);

    /* records that are none */
    moves_is(__LINE__, at_570, WORDS - 1, 610, CRUISE_NOT_ACCEPTED, 0, NULL);
    moves_is(__LINE__, listing, 10, 610, CRUISE_NOT_ACCEPTED, 0, NULL);
    copy(car, at_570);
    car[4] = 0xB4000000;
    moves_is(__LINE__, car, WORDS, 0, CRUISE_NOT_ACCEPTED, 0, NULL);
    EQUAL(cruise_moves(NULL, 0, 610, six, &count), CRUISE_NOT_ACCEPTED);
    EQUAL(count, 0);
    for (size_t i = 0; i < CRUISE_MOVES_WORDS; i++) {
        EQUAL(six[i], 0);
    }

    /* the car of a record that holds 30 is moved as with 25 */
    copy(car, at_570);
    car[9] = 0xB900001E;
    EQUAL(cruise_moves(car, WORDS, 610, six, &count), CRUISE_ACCEPTED);
    EQUAL(count, 3);
    EQUAL(car[9], 0xB900001E);
    for (size_t i = 0; i < sizeof outside / sizeof outside[0]; i++) {
        moves_is(__LINE__, outside[i].car, WORDS, outside[i].wanted, outside[i].refusal, outside[i].count, outside[i].list);
    }
}

/* The float of these bits. */
static float float_of(uint32_t bits)
{
    float number;
    memcpy(&number, &bits, sizeof number);
    return number;
}

/* A sighting: its refusal, and the word between words that stay. */
static void sighting_is(int line, uint32_t kind, uint32_t metres, uint32_t kmh, uint32_t refusal, uint32_t word)
{
    uint32_t got[3] = {KEPT, KEPT, KEPT};
    equal(line, "cruise_sighting", cruise_sighting(kind, float_of(metres), float_of(kmh), &got[1]), refusal);
    equal(line, "word", got[1], word);
    equal(line, "the number before it", got[0], KEPT);
    equal(line, "the number after it", got[2], KEPT);
}

/* Floats by their bits. */
#define TWENTY 0x41A00000u
#define HUNDRED 0x42C80000u
#define AT_255 0x437F0000u
#define AT_500 0x43FA0000u
#define ABOVE_500 0x43FA0001u
#define GREATEST 0x7F7FFFFFu

/* Floats that are refused with 22, and kinds with 1. */
static const uint32_t bad_floats[] = {
    0x7FC00000, 0xFFC00000, 0x7F800001, 0xFF800001, 0x7FBFFFFF, 0x7FC12345, 0xFFA00000, 0x7FFFFFFF, 0xFFFFFFFF, /* no numbers */
    0x7F800000, 0xFF800000,                                                                                     /* infinite */
    0x80000001, 0x807FFFFF, 0x80800000, 0xBDCCCCCD, 0xBF7FFFFF, 0xBF800000, 0xC1A00000, 0xC37F0000, 0xFF7FFFFF, /* below zero */
};
static const uint32_t other_kinds[] = {3, 4, 9, 255, 256, 258, 0x00010000, 0x7FFFFFFF, 0x80000000, 0x80000001, 0xFFFFFFFE, 0xFFFFFFFF};
#define BAD_FLOATS (sizeof bad_floats / sizeof bad_floats[0])
#define OTHER_KINDS (sizeof other_kinds / sizeof other_kinds[0])

/* Document 02, 7: each edge of the metres beside 100 km/h, and of the speed beside 20 metres. */
static void sightings(void)
{
    static const struct {
        uint32_t metres, word;
    } ranges_seen[] = {
        {0x00000000, 0x9003E801}, /* 0 */
        {0x80000000, 0x9003E801}, /* -0 */
        {0x00000001, 0x9003E801}, /* the smallest of all, and of those with 24 bits */
        {0x00800000, 0x9003E801},
        {0x3F000000, 0x9003E801}, /* 0.5 */
        {0x3F7FFFFF, 0x9003E801}, /* below 1, 1, above 1 */
        {0x3F800000, 0x9003E801},
        {0x3F800001, 0x9003E801},
        {0x3FFFFFFF, 0x9003E801}, /* below 2, 2 */
        {0x40000000, 0x9003E802},
        {0x403FFFFF, 0x9003E802}, /* below 3, 3 */
        {0x40400000, 0x9003E803},
        {0x419FFFFF, 0x9003E813}, /* below 20, 20 */
        {0x41A00000, 0x9003E814},
        {0x42FFFFFF, 0x9003E87F}, /* below 128, 128 */
        {0x43000000, 0x9003E880},
        {0x437DFFFF, 0x9003E8FD}, /* below 254, 254 */
        {0x437E0000, 0x9003E8FE},
        {0x437EFFFF, 0x9003E8FE}, /* below 255, 255, above 255 */
        {0x437F0000, 0x90000000},
        {0x437F0001, 0x90000000},
        {0x43800000, 0x90000000}, /* 256, 257, 511 */
        {0x43808000, 0x90000000},
        {0x43FF8000, 0x90000000},
        {0x438A0000, 0x90000000}, /* 276 and 65,556: 20 past what 8 and 16 bits hold */
        {0x47800A00, 0x90000000},
        {0x4B800000, 0x90000000}, /* 2 to the power of 24, of 32 and of 64 */
        {0x4F800000, 0x90000000},
        {0x5F800000, 0x90000000},
        {GREATEST, 0x90000000},
    };
    static const struct {
        uint32_t kmh, word;
    } speeds_seen[] = {
        {0x00000000, 0x90000014}, /* 0 */
        {0x80000000, 0x90000014}, /* -0 */
        {0x00000001, 0x90000014}, /* the smallest of all, and of those with 24 bits */
        {0x00800000, 0x90000014},
        {0x3DCCCCCC, 0x90000014}, /* below 0.1; 0.1 as stored is above it */
        {0x3DCCCCCD, 0x90000114},
        {0x3E4CCCCD, 0x90000214}, /* 0.2 as stored is above it */
        {0x3E999999, 0x90000214}, /* below 0.3; 0.3 as stored is above it */
        {0x3E99999A, 0x90000314},
        {0x3F19999A, 0x90000614}, /* 0.6 as stored is above it */
        {0x3F333333, 0x90000614}, /* 0.7 as stored is below it */
        {0x3F666666, 0x90000814}, /* 0.9 as stored is below it */
        {0x3F7FFFFF, 0x90000914}, /* below 1, 1 */
        {0x3F800000, 0x90000A14},
        {0x3F8CCCCD, 0x90000B14}, /* 1.1 as stored is above it */
        {0x42C7CCCC, 0x9003E614}, /* below 99.9; 99.9 as stored is above it */
        {0x42C7CCCD, 0x9003E714},
        {0x42C7FFFF, 0x9003E714}, /* below 100, 100 */
        {0x42C80000, 0x9003E814},
        {0x42F6E979, 0x9004D214}, /* 123.456 */
        {0x43F9F333, 0x90138614}, /* 499.9 as stored is below it; the next is above it */
        {0x43F9F334, 0x90138714},
        {0x43F9FFFF, 0x90138714}, /* below 500, 500 */
        {0x43FA0000, 0x90138814},
    };
    /* The next above 500, 500.1, 501, 1000; then some whose tenths are few past what 13, 16 and 32 bits hold; powers of two. */
    static const uint32_t too_fast[] = {ABOVE_500,  0x43FA0CCD, 0x43FA8000, 0x447A0000, 0x444F4CCD, 0x45CFECCD,
                                        0x4DCCCCCD, 0x4F800000, 0x5F800000, GREATEST};
    /* Outside. */
    static const struct {
        uint32_t metres, kmh, refusal, word;
    } outside_ones[] = {
        {0x4179F7ED, 0x4306CCCD, 0, 0x9005440F}, {0x00000001, 0x43ACC000, 0, 0x900D7F01}, {0x3CEFEDC5, 0x40BF2537, 0, 0x90003B01},
        {0x437E0000, 0x436A3334, 0, 0x900926FE}, {0x41813D7D, 0x439EC000, 0, 0x900C6710}, {0x3AD32417, 0x43826667, 0, 0x900A3001},
        {0x3EDB7EDE, 0x4385CCCC, 0, 0x900A7301}, {0x3A2C4CAC, 0x3E2F3976, 0, 0x90000101}, {0x436E2631, 0x43F8199A, 0, 0x901362EE},
        {0x43741FB1, 0x4349B333, 0, 0x9007E0F4}, {0x410D1CEE, 0x43A1D99B, 0, 0x900CA508}, {0xCB800000, 0x4129999A, 22, 0},
        {0xC37E0000, 0x4381D99A, 22, 0},         {0x7FFFFFFF, 0x421C0001, 22, 0},         {0x807FFFFF, 0x4361199A, 22, 0},
    };
    uint32_t word = KEPT;
    EQUAL(sizeof(float), 4);
    EQUAL(CRUISE_SIGHTING_VEHICLE, 0);
    EQUAL(CRUISE_SIGHTING_FREE, 1);
    EQUAL(CRUISE_SIGHTING_FAULT, 2);
    EQUAL(CRUISE_BAD_FLOAT, 22);
    EQUAL(CRUISE_TOO_FAST, 23);
    for (size_t i = 0; i < sizeof ranges_seen / sizeof ranges_seen[0]; i++) {
        sighting_is(__LINE__, CRUISE_SIGHTING_VEHICLE, ranges_seen[i].metres, HUNDRED, CRUISE_ACCEPTED, ranges_seen[i].word);
        sighting_is(__LINE__, CRUISE_SIGHTING_VEHICLE, ranges_seen[i].metres, ABOVE_500, CRUISE_TOO_FAST, 0);
    }
    for (size_t i = 0; i < sizeof speeds_seen / sizeof speeds_seen[0]; i++) {
        sighting_is(__LINE__, CRUISE_SIGHTING_VEHICLE, TWENTY, speeds_seen[i].kmh, CRUISE_ACCEPTED, speeds_seen[i].word);
        sighting_is(__LINE__, CRUISE_SIGHTING_VEHICLE, AT_255, speeds_seen[i].kmh, CRUISE_ACCEPTED, 0x90000000);
    }
    for (size_t i = 0; i < sizeof too_fast / sizeof too_fast[0]; i++) {
        sighting_is(__LINE__, CRUISE_SIGHTING_VEHICLE, TWENTY, too_fast[i], CRUISE_TOO_FAST, 0);
        sighting_is(__LINE__, CRUISE_SIGHTING_VEHICLE, AT_255, too_fast[i], CRUISE_TOO_FAST, 0);
        sighting_is(__LINE__, CRUISE_SIGHTING_VEHICLE, GREATEST, too_fast[i], CRUISE_TOO_FAST, 0);
    }
    for (size_t i = 0; i < sizeof outside_ones / sizeof outside_ones[0]; i++) {
        sighting_is(__LINE__, CRUISE_SIGHTING_VEHICLE, outside_ones[i].metres, outside_ones[i].kmh, outside_ones[i].refusal,
                    outside_ones[i].word);
    }
    EQUAL(cruise_sighting(CRUISE_SIGHTING_VEHICLE, 19.99f, 0.1f, &word), CRUISE_ACCEPTED);
    EQUAL(word, cruise_word_radar(19, 1));
    EQUAL(cruise_sighting(CRUISE_SIGHTING_VEHICLE, -0.0f, -0.0f, &word), CRUISE_ACCEPTED);
    EQUAL(word, cruise_word_radar(1, 0));
    EQUAL(cruise_sighting(CRUISE_SIGHTING_VEHICLE, 254.5f, 500.0f, &word), CRUISE_ACCEPTED);
    EQUAL(word, cruise_word_radar(254, 5000));

    /* 22 before 23, in either float; no float of a free road or of a fault; 1 before both */
    for (size_t i = 0; i < BAD_FLOATS; i++) {
        const uint32_t pairs[6][2] = {{bad_floats[i], HUNDRED}, {TWENTY, bad_floats[i]},      {bad_floats[i], bad_floats[i]},
                                      {AT_255, bad_floats[i]},  {bad_floats[i], ABOVE_500}, {GREATEST, bad_floats[i]}};
        for (size_t j = 0; j < 6; j++) {
            sighting_is(__LINE__, CRUISE_SIGHTING_VEHICLE, pairs[j][0], pairs[j][1], CRUISE_BAD_FLOAT, 0);
            sighting_is(__LINE__, CRUISE_SIGHTING_FREE, pairs[j][0], pairs[j][1], CRUISE_ACCEPTED, 0x90000000);
            sighting_is(__LINE__, CRUISE_SIGHTING_FAULT, pairs[j][0], pairs[j][1], CRUISE_ACCEPTED, 0);
            sighting_is(__LINE__, other_kinds[i % OTHER_KINDS], pairs[j][0], pairs[j][1], CRUISE_NO_SUCH_KIND, 0);
        }
    }
    for (size_t i = 0; i < OTHER_KINDS; i++) {
        sighting_is(__LINE__, other_kinds[i], TWENTY, HUNDRED, CRUISE_NO_SUCH_KIND, 0);
        sighting_is(__LINE__, other_kinds[i], TWENTY, ABOVE_500, CRUISE_NO_SUCH_KIND, 0);
    }
    sighting_is(__LINE__, CRUISE_SIGHTING_FREE, TWENTY, HUNDRED, CRUISE_ACCEPTED, 0x90000000);
    sighting_is(__LINE__, CRUISE_SIGHTING_FREE, TWENTY, ABOVE_500, CRUISE_ACCEPTED, 0x90000000);
    sighting_is(__LINE__, CRUISE_SIGHTING_FAULT, TWENTY, HUNDRED, CRUISE_ACCEPTED, 0);
    sighting_is(__LINE__, CRUISE_SIGHTING_FAULT, TWENTY, ABOVE_500, CRUISE_ACCEPTED, 0);
}

/* A sighting driven: its refusal, and the record afterwards. */
static void see_is(int line, const uint32_t *car, uint32_t kind, uint32_t metres, uint32_t kmh, uint32_t refusal, const uint32_t *after)
{
    struct area record;
    uint32_t *at = lay(&record, car, WORDS);
    equal(line, "cruise_see", cruise_see(at, WORDS, kind, float_of(metres), float_of(kmh)), refusal);
    left(line, "the record", &record, after, WORDS);
}

/* On one car: a vehicle and a free road get this refusal; what is refused before it, and a fault, leave the record as it is. */
static void seen_by(const uint32_t *car, uint32_t refusal)
{
    uint32_t after[WORDS];
    copy(after, car);
    if (refusal == CRUISE_ACCEPTED) {
        after[7] = 0xB703E814;                           /* R 20, W 1000 */
        after[8] = 0xB8000000u | (car[7] >> 8 & 0x1FFF); /* Y, the W before */
    }
    see_is(__LINE__, car, CRUISE_SIGHTING_VEHICLE, TWENTY, HUNDRED, refusal, after);
    if (refusal == CRUISE_ACCEPTED) {
        after[7] = 0xB7000000; /* R 0, W 0 */
    }
    see_is(__LINE__, car, CRUISE_SIGHTING_VEHICLE, AT_255, AT_500, refusal, after);
    see_is(__LINE__, car, CRUISE_SIGHTING_VEHICLE, GREATEST, 0x80000000, refusal, after);
    see_is(__LINE__, car, CRUISE_SIGHTING_FREE, TWENTY, HUNDRED, refusal, after);
    see_is(__LINE__, car, CRUISE_SIGHTING_FREE, 0x7FC00000, ABOVE_500, refusal, after);
    see_is(__LINE__, car, CRUISE_SIGHTING_FAULT, TWENTY, HUNDRED, CRUISE_ACCEPTED, car);
    see_is(__LINE__, car, CRUISE_SIGHTING_FAULT, 0xFF800000, ABOVE_500, CRUISE_ACCEPTED, car);
    see_is(__LINE__, car, CRUISE_SIGHTING_VEHICLE, TWENTY, ABOVE_500, CRUISE_TOO_FAST, car);
    see_is(__LINE__, car, CRUISE_SIGHTING_VEHICLE, AT_255, ABOVE_500, CRUISE_TOO_FAST, car);
    for (size_t i = 0; i < BAD_FLOATS; i++) {
        see_is(__LINE__, car, CRUISE_SIGHTING_VEHICLE, bad_floats[i], ABOVE_500, CRUISE_BAD_FLOAT, car);
        see_is(__LINE__, car, CRUISE_SIGHTING_VEHICLE, TWENTY, bad_floats[i], CRUISE_BAD_FLOAT, car);
    }
    for (size_t i = 0; i < OTHER_KINDS; i++) {
        see_is(__LINE__, car, other_kinds[i], TWENTY, HUNDRED, CRUISE_NO_SUCH_KIND, car);
        see_is(__LINE__, car, other_kinds[i], 0x7FC00000, ABOVE_500, CRUISE_NO_SUCH_KIND, car);
    }
}

/* Sightings on cars with the radar ready, also at the clock's end, not ready, and with the key out; a row of them on one car. */
static void sees(void)
{
    static const struct {
        uint32_t kind, metres, kmh, range_and_speed, before;
    } row[] = {
        {CRUISE_SIGHTING_VEHICLE, 0x41A00000, 0x3DCCCCCD, 0xB7000114, 0xB800012C}, /* 20 metres, 0.1 km/h */
        {CRUISE_SIGHTING_FAULT, 0x41A00000, 0x42C80000, 0xB7000114, 0xB800012C},
        {CRUISE_SIGHTING_VEHICLE, 0x437EFFFF, 0x43FA0000, 0xB71388FE, 0xB8000001}, /* below 255 metres, 500 km/h */
        {CRUISE_SIGHTING_FREE, 0x41A00000, 0x42C80000, 0xB7000000, 0xB8001388},
        {CRUISE_SIGHTING_VEHICLE, 0x00000000, 0x3F333333, 0xB7000601, 0xB8000000}, /* 0 metres, 0.7 km/h as stored */
    };
    uint32_t car[WORDS];
    struct area record;
    uint32_t *at = lay(&record, behind, WORDS);
    seen_by(listed, CRUISE_ACCEPTED);
    seen_by(behind, CRUISE_ACCEPTED);
    seen_by(at_end, CRUISE_ACCEPTED);
    seen_by(fresh, CRUISE_KEY_NOT_ON);
    copy(car, fresh);
    car[0] = 0xB0000009; /* the key in */
    seen_by(car, CRUISE_KEY_NOT_ON);
    copy(car, behind);
    car[0] = 0xB0001012; /* P 0, R 255 */
    car[7] = 0xB7012CFF;
    seen_by(car, CRUISE_RADAR_NOT_READY);
    copy(car, behind);
    for (size_t i = 0; i < sizeof row / sizeof row[0]; i++) {
        EQUAL(cruise_see(at, WORDS, row[i].kind, float_of(row[i].metres), float_of(row[i].kmh)), CRUISE_ACCEPTED);
        car[7] = row[i].range_and_speed;
        car[8] = row[i].before;
        LEFT(record, car, WORDS);
    }
}

/* Each refusal of a word: a fresh car of mode 1, the words that lead to it, which are accepted, and the word refused. */
static void refusals(void)
{
    static const struct {
        uint32_t refusal, word;
        size_t count;
        uint32_t before[5];
    } cases[] = {
        {CRUISE_NO_SUCH_KIND, 0x00000000, 0, {0}},
        {CRUISE_NO_SUCH_KIND, 0xB0000000, 0, {0}},
        {CRUISE_NO_SUCH_KIND, 0xFFFFFFFF, 0, {0}},
        {CRUISE_UNNAMED_BIT, 0x10000008, 0, {0}},
        {CRUISE_UNNAMED_BIT, 0xA8000000, 0, {0}},
        {CRUISE_OUT_OF_RANGE, 0x10000003, 0, {0}},
        {CRUISE_KEY_NOT_ON, 0x500000E1, 1, {0x10000001}},
        {CRUISE_ALREADY_HELD, 0x10000000, 0, {0}},
        {CRUISE_ALREADY_HELD, 0x50000064, 3, {0x10000001, 0x10000006, 0x50000064}},
        {CRUISE_KEY_WHILE_MOVING, 0x10000001, 4, {0x10000001, 0x10000006, 0x500000E1, 0xA0000001}},
        {CRUISE_POSITION_SKIPPED, 0x10000002, 0, {0}},
        {CRUISE_POSITION_SKIPPED, 0x20000003, 1, {0x20000001}},
        {CRUISE_POSITION_SKIPPED, 0x30000002, 1, {0x30000001}},
        {CRUISE_OTHER_LEVER_OUT, 0x20000001, 1, {0x30000001}},
        {CRUISE_OTHER_LEVER_OUT, 0x30000001, 1, {0x20000001}},
        {CRUISE_OTHER_PEDAL_DOWN, 0x40000001, 3, {0x10000001, 0x10000006, 0x50000001}},
        {CRUISE_OTHER_PEDAL_DOWN, 0x50000001, 3, {0x10000001, 0x10000006, 0x40000001}},
        {CRUISE_BUTTON_IN, 0x600003E8, 3, {0x10000001, 0x10000006, 0x600003E8}},
        {CRUISE_BUTTON_WHILE_BACKWARD, 0x600003E8, 3, {0x10000001, 0x10000006, 0x30000002}},
        {CRUISE_BUTTON_WHILE_GAS, 0x600003E8, 3, {0x10000001, 0x10000006, 0x5000005B}},
        {CRUISE_ABOVE_LIMIT, 0x6000006B, 5, {0x10000001, 0x10000006, 0x500000E1, 0xA0000001, 0x50000000}}, /* v 108, limit 107 */
        {CRUISE_ACCEPTED, 0x6000006C, 5, {0x10000001, 0x10000006, 0x500000E1, 0xA0000001, 0x50000000}},
        {CRUISE_RADAR_NOT_READY, 0x90000001, 2, {0x10000001, 0x10000002}},
        {CRUISE_READY_BIT, 0x10000005, 0, {0}},
        {CRUISE_READY_BIT, 0xA0000001, 0, {0}},
        {CRUISE_READY_BIT, 0xA0000000, 2, {0x10000001, 0x10000006}},
    };
    struct area record;
    uint32_t *at;
    for (size_t i = 0; i < sizeof cases / sizeof cases[0]; i++) {
        uint32_t held[WORDS];
        at = lay(&record, fresh, WORDS);
        for (size_t j = 0; j < cases[i].count; j++) {
            EQUAL(cruise_drive(at, WORDS, cases[i].before[j]), CRUISE_ACCEPTED);
        }
        copy(held, at);
        EQUAL(cruise_drive(at, WORDS, cases[i].word), cases[i].refusal);
        if (cases[i].refusal != CRUISE_ACCEPTED) {
            LEFT(record, held, WORDS);
        }
    }
    at = lay(&record, at_end, WORDS);
    EQUAL(cruise_drive(at, WORDS, 0xA0000001), CRUISE_CLOCK_AT_END);
    LEFT(record, at_end, WORDS);
}

/* The document's figures: N 27 at G 20, v 500, W 300; visual below 20 metres, acoustic below 11; a is -30 when close. */
static void figures(void)
{
    static const struct {
        uint32_t range, visual, acoustic;
    } cases[] = {{20, 0, 0}, {19, 1, 0}, {11, 1, 0}, {10, 1, 1}, {1, 1, 1}};
    struct area record;
    for (size_t i = 0; i < sizeof cases / sizeof cases[0]; i++) {
        uint32_t words_now[WORDS];
        copy(words_now, behind);
        words_now[7] = 0xB7012C00u | cases[i].range;
        dials(__LINE__, lay(&record, words_now, WORDS), WORDS, 0, 500, 900, -30, cases[i].visual, cases[i].acoustic, 27);
        LEFT(record, words_now, WORDS);
    }
    dials(__LINE__, fresh, WORDS, 0, 0, 0, 0, 0, 0, 2);
}

static void alike_is(int line, const uint32_t *a, size_t a_length, const uint32_t *b, size_t b_length, uint32_t refusal, uint32_t alike)
{
    uint32_t got[3] = {KEPT, KEPT, KEPT};
    equal(line, "cruise_alike", cruise_alike(a, a_length, b, b_length, &got[1]), refusal);
    equal(line, "alike", got[1], alike);
    equal(line, "the number before it", got[0], KEPT);
    equal(line, "the number after it", got[2], KEPT);
}

/* The same both ways. */
static void two(int line, const uint32_t *car, const uint32_t *other, uint32_t alike)
{
    struct area a, b;
    lay(&a, car, WORDS);
    lay(&b, other, WORDS);
    alike_is(line, a.words + ROUND, WORDS, b.words + ROUND, WORDS, CRUISE_ACCEPTED, alike);
    alike_is(line, b.words + ROUND, WORDS, a.words + ROUND, WORDS, CRUISE_ACCEPTED, alike);
    LEFT(a, car, WORDS);
    LEFT(b, other, WORDS);
}

/* Two cars that differ in some words of their records. */
static void pair(int line, const uint32_t *car, const uint32_t *words_changed, size_t count, uint32_t alike)
{
    uint32_t other[WORDS];
    copy(other, car);
    for (size_t i = 0; i < count; i++) {
        other[words_changed[i] >> 24 & 15] = words_changed[i];
    }
    two(line, car, other, alike);
}

/* Cruise on at D 500, L at up5 since the second 10, now 10, Q 10. */
static const uint32_t held[WORDS] = {0xB0003031, 0xB1000000, 0xB20001F4, 0xB3000000, 0xB40001F4, 0xB500000A,
                                     0xB60001F4, 0xB7000000, 0xB8000000, 0xB9000014, 0xBA00000A, 0xBB00000A};

/* Alike: all but the clock. T counts with L out and C = 1, Q with the key on, as seconds before now. */
static void alikes(void)
{
    static const struct {
        const uint32_t *car;
        uint32_t words[3];
        size_t count;
        uint32_t alike;
    } cases[] = {
        {fresh, {0xB0000002}, 1, 0},              /* mode */
        {fresh, {0xB0000005}, 1, 0},              /* signs */
        {fresh, {0xB0000009}, 1, 0},              /* key */
        {fresh, {0xB0000021}, 1, 0},              /* L */
        {fresh, {0xB0000101}, 1, 0},              /* M */
        {fresh, {0xB3000001}, 1, 0},              /* Z */
        {fresh, {0xB9000019}, 1, 0},              /* G */
        {fresh, {0xBA000001}, 1, 1},              /* now */
        {fresh, {0xBA015180}, 1, 1},              /* now 86,400 */
        {behind, {0xB0003412}, 1, 0},             /* H */
        {behind, {0xB0003C12, 0xB3000200}, 2, 0}, /* H, S, Z */
        {behind, {0xB0002012}, 1, 0},             /* C */
        {behind, {0xB0001012, 0xB7012CFF}, 2, 0}, /* P, R */
        {behind, {0xB1000100}, 1, 0},             /* g */
        {behind, {0xB20001F5}, 1, 0},             /* v */
        {behind, {0xB4000385}, 1, 0},             /* D */
        {behind, {0xB4258384}, 1, 0},             /* E 1200 */
        {behind, {0xB7012C14}, 1, 0},             /* R */
        {behind, {0xB7012D13}, 1, 0},             /* W */
        {behind, {0xB8000001}, 1, 0},             /* Y */
        {behind, {0xBA000001}, 1, 0},             /* now: the test was a second ago */
        {behind, {0xBA000001, 0xBB000001}, 2, 1}, /* now and Q */
        {behind, {0xBA015180, 0xBB015180}, 2, 1}, /* both 86,400 */
        {held, {0xB5000009}, 1, 0},               /* T: L out for a second longer */
        {held, {0xBB000009}, 1, 0},               /* Q */
        {held, {0xBA00000B}, 1, 0},               /* now */
        {held, {0xBA00000B, 0xBB00000B}, 2, 0},   /* now and Q, the clock's T as it was */
        {held, {0xBA00000B, 0xB500000B}, 2, 0},   /* now and T, the clock's Q as it was */
        {held, {0xBA00000B, 0xB500000B, 0xBB00000B}, 3, 1}, /* now, T and Q */
        {held, {0xB40001FE, 0xB60001FE}, 2, 0},   /* D, B 510 */
    };
    alike_is(__LINE__, fresh, WORDS, fresh, WORDS, CRUISE_ACCEPTED, 1);
    alike_is(__LINE__, fresh, WORDS, behind, WORDS, CRUISE_ACCEPTED, 0);
    for (size_t i = 0; i < sizeof cases / sizeof cases[0]; i++) {
        pair(__LINE__, cases[i].car, cases[i].words, cases[i].count, cases[i].alike);
    }
}

/* One word on two cars, with its refusal of each; the D that it leaves, and whether they are alike behind it. */
static void both(int line, uint32_t *a, uint32_t *b, uint32_t word, const uint32_t expected[5])
{
    uint32_t speed, desired[2], visual, acoustic, distance;
    int32_t acceleration;
    equal(line, "the refusal of the first", cruise_drive(a, WORDS, word), expected[0]);
    equal(line, "the refusal of the second", cruise_drive(b, WORDS, word), expected[1]);
    cruise_figures(a, WORDS, &speed, &desired[0], &acceleration, &visual, &acoustic, &distance);
    cruise_figures(b, WORDS, &speed, &desired[1], &acceleration, &visual, &acoustic, &distance);
    equal(line, "D of the first", desired[0], expected[2]);
    equal(line, "D of the second", desired[1], expected[3]);
    two(line, a, b, expected[4]);
}

/* Alike cars stay alike, up to the tick that the later one does not take; of two cars with L out for 0 s and 1 s D differs a second later. */
static void pupils(void)
{
    static const struct {
        uint32_t word, expected[5];
    } together[] = {{0xA0000001, {0, 0, 500, 500, 1}}, {0xA0000001, {0, 0, 510, 510, 1}},  {0xA0000000, {15, 15, 510, 510, 1}},
                    {0x30000001, {8, 8, 510, 510, 1}}, {0x20000002, {0, 0, 600, 600, 1}},  {0xA0000001, {0, 0, 600, 600, 1}},
                    {0xA0000001, {0, 0, 700, 700, 1}}, {0xA0000001, {0, 16, 700, 700, 0}}, {0x20000000, {0, 0, 700, 700, 0}}};
    static const uint32_t apart[5] = {0, 0, 500, 510, 0};
    uint32_t early[WORDS], late[WORDS], longer[WORDS];
    copy(early, held);
    copy(late, held);
    late[5] = 0xB501517C; /* T, now, Q 86,396 */
    late[10] = 0xBA01517C;
    late[11] = 0xBB01517C;
    two(__LINE__, early, late, 1);
    for (size_t i = 0; i < sizeof together / sizeof together[0]; i++) {
        both(__LINE__, early, late, together[i].word, together[i].expected);
    }
    copy(early, held);
    copy(longer, held);
    longer[5] = 0xB5000009;
    two(__LINE__, early, longer, 0);
    both(__LINE__, early, longer, 0xA0000001, apart);
}

/* A record that is refused: 18 from each function that is handed it, before anything else is looked at, and all buffers kept. */
static void no_car(const uint32_t *words_given, size_t length)
{
    struct area record, answers, good;
    uint32_t *at = lay(&record, words_given, length);
    uint32_t *other = lay(&good, fresh, WORDS);
    size_t counts[4];
    if (length == 0) {
        at = NULL;
    }
    EQUAL(cruise_test(at, length), CRUISE_NOT_ACCEPTED);
    EQUAL(cruise_drive(at, length, 0x10000001), CRUISE_NOT_ACCEPTED);
    EQUAL(cruise_drive(at, length, 0x00000000), CRUISE_NOT_ACCEPTED);
    EQUAL(cruise_see(at, length, CRUISE_SIGHTING_VEHICLE, 20.0f, 100.0f), CRUISE_NOT_ACCEPTED);
    EQUAL(cruise_see(at, length, CRUISE_SIGHTING_VEHICLE, -1.0f, 501.0f), CRUISE_NOT_ACCEPTED);
    EQUAL(cruise_see(at, length, CRUISE_SIGHTING_FREE, 20.0f, 100.0f), CRUISE_NOT_ACCEPTED);
    EQUAL(cruise_see(at, length, CRUISE_SIGHTING_FAULT, 20.0f, 100.0f), CRUISE_NOT_ACCEPTED);
    EQUAL(cruise_see(at, length, 3, -1.0f, 501.0f), CRUISE_NOT_ACCEPTED);
    dials(__LINE__, at, length, CRUISE_NOT_ACCEPTED, 0, 0, 0, 0, 0, 0);
    for (size_t room = 0; room <= 10; room += 5) {
        counts[0] = counts[1] = counts[2] = counts[3] = 77;
        EQUAL(cruise_lesson(at, length, listing, 10, lay(&answers, NULL, 0), room, &counts[1], &counts[2]), CRUISE_NOT_ACCEPTED);
        EQUAL(counts[0], 77);
        EQUAL(counts[1], 0);
        EQUAL(counts[2], 0);
        EQUAL(counts[3], 77);
        LEFT(answers, NULL, 0);
    }
    counts[1] = counts[2] = 77;
    EQUAL(cruise_lesson(at, length, NULL, 0, NULL, 0, &counts[1], &counts[2]), CRUISE_NOT_ACCEPTED);
    EQUAL(counts[1], 0);
    EQUAL(counts[2], 0);
    alike_is(__LINE__, at, length, other, WORDS, CRUISE_NOT_ACCEPTED, 0);
    alike_is(__LINE__, other, WORDS, at, length, CRUISE_NOT_ACCEPTED, 0);
    alike_is(__LINE__, at, length, at, length, CRUISE_NOT_ACCEPTED, 0);
    LEFT(record, words_given, length);
    LEFT(good, fresh, WORDS);
}

/* The record with one word changed is refused. */
static void changed(const uint32_t *car, size_t place, uint32_t word)
{
    uint32_t other[WORDS];
    copy(other, car);
    other[place] = word;
    no_car(other, WORDS);
}

static void records(void)
{
    static const uint32_t *const accepted[] = {fresh, listed, behind, at_end};
    /* Outside: a word in the place of another, rule (d) broken, a gap of 21. */
    static const uint32_t refused[3][WORDS] = {{0xB0002C36, 0xB10000E1, 0xB2000152, 0xB3000157, 0xB40007BB, 0xB5000000,
                                                0xB6000000, 0xB7137F00, 0xB8000000, 0xB9000019, 0xBB000080, 0xBB010000},
                                               {0xB0002612, 0xB10000E1, 0xB2000000, 0xB3000000, 0xB422BCBF, 0xB5000000,
                                                0xB6000000, 0xB707A601, 0xB8000000, 0xB9000019, 0xBA000006, 0xBB000006},
                                               {0xB0003412, 0xB1000000, 0xB20001C3, 0xB3000809, 0xB400016E, 0xB5000000,
                                                0xB6000000, 0xB704E419, 0xB8000000, 0xB9000015, 0xBA01517E, 0xBB01515D}};
    uint32_t long_one[24];
    for (size_t i = 0; i < 24; i++) {
        long_one[i] = fresh[i % WORDS];
    }
    for (size_t i = 0; i < sizeof accepted / sizeof accepted[0]; i++) {
        struct area record;
        EQUAL(cruise_test(lay(&record, accepted[i], WORDS), WORDS), CRUISE_ACCEPTED);
        LEFT(record, accepted[i], WORDS);
    }
    for (size_t length = 0; length <= 24; length++) {
        if (length != WORDS) {
            no_car(long_one, length);
        }
    }
    EQUAL(cruise_test(fresh, 0), CRUISE_NOT_ACCEPTED);
    for (size_t i = 0; i < 3; i++) {
        no_car(refused[i], WORDS);
    }
    for (size_t place = 0; place < WORDS; place++) {
        changed(fresh, place, 0);
        changed(fresh, place, fresh[place] ^ 0x10000000u); /* another kind */
        changed(fresh, place, fresh[place] ^ 0x01000000u); /* another place */
        changed(fresh, place, fresh[place] ^ 0x00800000u); /* a zero bit */
    }
    changed(fresh, 0, 0xB0000000);  /* mode 0 */
    changed(fresh, 0, 0xB0000003);  /* mode 3 */
    changed(fresh, 0, 0xB0001001);  /* C with the key out */
    changed(fresh, 1, 0xB1000001);  /* b with the key out */
    changed(fresh, 5, 0xB5000001);  /* T with C = 0 */
    changed(fresh, 7, 0xB7000000);  /* R 0 with P = 0 */
    changed(fresh, 10, 0xBA015181); /* now 86,401 */
    changed(behind, 1, 0xB1000101); /* brake and gas */
    changed(behind, 4, 0xB4000000); /* C with D = 0 */
    changed(behind, 10, 0xBA000258); /* now = Q + 600 */
    changed(behind, 11, 0xBB000001); /* Q past now */
}

/* One word driven on a record: its refusal, and the record afterwards. */
static void drive_is(int line, const uint32_t *car, uint32_t word, uint32_t refusal, const uint32_t *after)
{
    struct area record;
    equal(line, "cruise_drive", cruise_drive(lay(&record, car, WORDS), WORDS, word), refusal);
    left(line, "the record", &record, after, WORDS);
}

/* Document 02, 12: a record that holds the gap 30 gives a car with 25. The car: `behind` with R 38 and W 600, so that N goes by the gap: 34 by 25, not too
   close; by 30 it would be 41, and too close. */
static void old_gap(void)
{
    static const uint32_t with_30[WORDS] = {0xB0003012, 0xB1000000, 0xB20001F4, 0xB3000000, 0xB4000384, 0xB5000000,
                                         0xB6000000, 0xB7025826, 0xB8000000, 0xB900001E, 0xBA000000, 0xBB000000};
    /* Key on, radar not ready; key out. */
    static const uint32_t not_ready[WORDS] = {0xB0000011, 0xB1000000, 0xB2000000, 0xB3000000, 0xB4000000, 0xB5000000,
                                              0xB6000000, 0xB70000FF, 0xB8000000, 0xB900001E, 0xBA000000, 0xBB000000};
    static const uint32_t key_out[WORDS] = {0xB0000001, 0xB1000000, 0xB2000000, 0xB3000000, 0xB4000000, 0xB5000000,
                                            0xB6000000, 0xB70000FF, 0xB8000000, 0xB900001E, 0xBA000000, 0xBB000000};
    static const struct {
        uint32_t word, refusal;
    } turned_away[] = {
        {0x7000001E, CRUISE_GAP_WITHDRAWN}, {0x7000003E, CRUISE_UNNAMED_BIT}, {0x7000001D, CRUISE_OUT_OF_RANGE},
        {0x7000001F, CRUISE_OUT_OF_RANGE},  {0x00000000, CRUISE_NO_SUCH_KIND}, {0x10000006, CRUISE_ALREADY_HELD},
        {0xA0000000, CRUISE_READY_BIT},     {0xB900001E, CRUISE_NO_SUCH_KIND},
    };
    static const uint32_t stored[3] = {0xA0000001, 0x7000001E, 0xA0000001};
    static const uint32_t stored_answers[3] = {0xC0E12300, 0xC0E12318, 0xC0E10F00}; /* N 37, and 39 at v 572: then too close */
    static const uint32_t none_taken[2] = {0x7000001E, 0xA0000000};
    static const uint32_t none_answers[2] = {0xC0E12318, 0xC0E1230F};
    static const uint32_t choices[4] = {0x7000001E, 0x10000001, 0x7000001E, 0x10000000};
    static const uint32_t chosen[2] = {0x10000001, 0x10000000};
    struct area record, answers;
    uint32_t with_25[WORDS], after[WORDS];
    size_t accepted = 77, refused = 77;
    copy(with_25, with_30);
    with_25[9] = 0xB9000019;

    /* Read, it is the car with 25. */
    EQUAL(cruise_test(lay(&record, with_30, WORDS), WORDS), CRUISE_ACCEPTED);
    LEFT(record, with_30, WORDS);
    dials(__LINE__, with_30, WORDS, 0, 500, 900, 10, 0, 0, 34);
    dials(__LINE__, with_25, WORDS, 0, 500, 900, 10, 0, 0, 34);
    two(__LINE__, with_30, with_25, 1);
    two(__LINE__, with_30, with_30, 1);
    copy(after, with_25);
    after[9] = 0xB9000014;
    two(__LINE__, with_30, after, 0);
    mark_is(__LINE__, with_30, WORDS, stored, 3, 530, 0, 1, 2);
    mark_is(__LINE__, with_30, WORDS, stored, 3, 570, 0, 3, 1);

    /* Refused words leave it as it is, with the key out and on: 24 comes before 4. */
    for (size_t i = 0; i < sizeof turned_away / sizeof turned_away[0]; i++) {
        drive_is(__LINE__, with_30, turned_away[i].word, turned_away[i].refusal, with_30);
    }
    drive_is(__LINE__, key_out, 0x7000001E, CRUISE_GAP_WITHDRAWN, key_out);
    drive_is(__LINE__, key_out, 0x7000001F, CRUISE_OUT_OF_RANGE, key_out);
    drive_is(__LINE__, key_out, 0x70000019, CRUISE_KEY_NOT_ON, key_out);

    /* Accepted ones write 25, also where they change nothing, or the gap that they choose. */
    drive_is(__LINE__, with_30, 0x800001F4, CRUISE_ACCEPTED, with_25);
    drive_is(__LINE__, with_30, 0x70000019, CRUISE_ACCEPTED, with_25);
    drive_is(__LINE__, with_30, 0x70000014, CRUISE_ACCEPTED, after);
    copy(after, with_25);
    after[2] = 0xB2000218;
    after[10] = 0xBA000001;
    drive_is(__LINE__, with_30, 0xA0000001, CRUISE_ACCEPTED, after);

    /* So does a lesson that ran, whatever its words did. */
    taught_is(__LINE__, with_30, NULL, NULL, 0, 0, with_25);
    taught_is(__LINE__, with_30, none_taken, none_answers, 2, 0, with_25);
    after[2] = 0xB200023C;
    after[10] = 0xBA000002;
    taught_is(__LINE__, with_30, stored, stored_answers, 3, 2, after);
    EQUAL(cruise_lesson(lay(&record, with_30, WORDS), WORDS, stored, 3, lay(&answers, NULL, 0), 2, &accepted, &refused), CRUISE_SHORT_ANSWERS);
    EQUAL(accepted, 0);
    EQUAL(refused, 0);
    LEFT(record, with_30, WORDS);
    LEFT(answers, NULL, 0);

    /* A sighting of 38 metres and 60 km/h; what is refused, and a fault, leave the record. */
    copy(after, with_25);
    after[8] = 0xB8000258;
    see_is(__LINE__, with_30, CRUISE_SIGHTING_VEHICLE, 0x42180000, 0x42700000, CRUISE_ACCEPTED, after);
    see_is(__LINE__, with_30, CRUISE_SIGHTING_FAULT, 0x42180000, 0x42700000, CRUISE_ACCEPTED, with_30);
    see_is(__LINE__, with_30, 3, 0x42180000, 0x42700000, CRUISE_NO_SUCH_KIND, with_30);
    see_is(__LINE__, with_30, CRUISE_SIGHTING_VEHICLE, 0xBF800000, 0x42700000, CRUISE_BAD_FLOAT, with_30);
    see_is(__LINE__, with_30, CRUISE_SIGHTING_VEHICLE, 0x42180000, 0x43FA8000, CRUISE_TOO_FAST, with_30);
    see_is(__LINE__, not_ready, CRUISE_SIGHTING_FREE, 0, 0, CRUISE_RADAR_NOT_READY, not_ready);
    see_is(__LINE__, key_out, CRUISE_SIGHTING_FREE, 0, 0, CRUISE_KEY_NOT_ON, key_out);

    /* A clean copy leaves the choice 30 out. */
    copy_is(__LINE__, 0xD0000001, choices, 4, 4, CRUISE_ACCEPTED, chosen, 2);
    copy_is(__LINE__, 0xD0000001, choices, 4, 2, CRUISE_ACCEPTED, chosen, 2);

    /* 30 beside what no record has, and gaps that never were. */
    changed(with_30, 9, 0xB900001D);
    changed(with_30, 9, 0xB900001F);
    changed(with_30, 9, 0xB900003E);
    changed(with_30, 9, 0xB980001E);
    changed(with_30, 9, 0xB800001E);
    changed(with_30, 9, 0xA900001E);
    changed(with_30, 10, 0xBA000258); /* now = Q + 600 */
    changed(with_30, 4, 0xB4000000);  /* C with D = 0 */
}

int main(void)
{
    words();
    ranges();
    fields();
    fresh_cars();
    the_listing();
    the_list();
    later_lessons();
    roundabout();
    pedals();
    kick_down();
    towing();
    towing_records();
    lessons();
    copies();
    marks();
    moves();
    sightings();
    sees();
    refusals();
    figures();
    alikes();
    pupils();
    records();
    old_gap();
    if (failures != 0) {
        printf("calls.c: %lu of %lu checks fail\n", failures, checks);
        return 1;
    }
    printf("calls.c: %lu checks\n", checks);
    return 0;
}
