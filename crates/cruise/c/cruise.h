/* The cruise trainer's car for C programs: libcruise.a, for x86-64 Linux only. C99 and C++17.

   A car is its record, an array of CRUISE_RECORD_WORDS words. Keep it, copy it and hand it back whole: only the functions write in it.
   Every function gives the refusal's number, or 0 for none; where two would hold, the lower one, but 18 comes before all others, and 22
   and 23, of a sighting's floats, before 4 and 14, of its event, and 24, of the gap choice 30, before 4. A refused call leaves record, answer and
   copy buffers as they were. A buffer crosses as a pointer and its length in words; a missing one is any pointer, also NULL, with length 0. Nothing
   checks these three:
   - Alignment: any pointer to a number, or to a buffer of one word or more, must be aligned as its type asks.
   - Overlap: what a function writes must not overlap with anything else that it is handed; what is only read may overlap.
   - The pointers to single numbers must not be NULL, and a buffer must have the length given.
   Threads: no state is kept between calls, so they may run in different threads at once where none writes what another is handed.

   A stored record may hold the gap 30, which a car had before version 0.10. It is accepted, and its car has 25: whatever a function tells of that
   car, it tells of 25. The record itself holds 30 until it is written: an accepted word, and a lesson that ran, whatever its words did, leave the next
   car's record, which holds 20 or 25; a refused word, a fault of the scene engine and whatever only reads leave it bit for bit.

   Speeds are in tenths of km/h, accelerations in tenths of m/s2, distances in metres, times in seconds save the gap; a tick is one second.
   A sighting's two numbers are 32-bit floats, its speed in km/h.
   Letters, as in document 01: L up-down lever, M fore-back lever, b brake, g gas; H button in, S limiter on, C cruise on, P radar ready
   (each 0 or 1); v speed, D desired speed, a acceleration, N secure distance; now the clock, Q the time of the last radar test. */
#ifndef CRUISE_H
#define CRUISE_H

#include <stddef.h>
#include <stdint.h>

#ifdef __cplusplus
extern "C" {
#endif

/* The version of this header and of the archive beside it: it rises with each change of what a function gives. */
#define CRUISE_VERSION_MAJOR 0
#define CRUISE_VERSION_MINOR 11
#define CRUISE_VERSION (CRUISE_VERSION_MAJOR << 16 | CRUISE_VERSION_MINOR << 8)

/* How many words a record has, and how many a list of moves has at most. */
#define CRUISE_RECORD_WORDS 12
#define CRUISE_MOVES_WORDS 6

/* The refusals, in the words of documents 01 and 02. */
enum {
    CRUISE_ACCEPTED = 0,
    /* Whoever wrote the file. */
    CRUISE_NO_SUCH_KIND = 1, /* no such kind */
    CRUISE_UNNAMED_BIT = 2,  /* an unnamed bit set */
    CRUISE_OUT_OF_RANGE = 3, /* a value outside its field's range */
    /* The pupil. */
    CRUISE_KEY_NOT_ON = 4,             /* key not on (kinds 4 to 9) */
    CRUISE_ALREADY_HELD = 5,           /* value already held (kinds 1 to 5) */
    CRUISE_KEY_WHILE_MOVING = 6,       /* key moved while v > 0 */
    CRUISE_POSITION_SKIPPED = 7,       /* key from 0 to 2 or 2 to 0; L from up to down or back; M between forward and backward */
    CRUISE_OTHER_LEVER_OUT = 8,        /* L moved while M is out of neutral, or M while L is */
    CRUISE_OTHER_PEDAL_DOWN = 9,       /* brake while g > 0, gas while b > 0 */
    CRUISE_BUTTON_IN = 10,             /* button: H = 1 */
    CRUISE_BUTTON_WHILE_BACKWARD = 11, /* button: M = 2 */
    CRUISE_BUTTON_WHILE_GAS = 12,      /* button: g > 90 */
    CRUISE_ABOVE_LIMIT = 13,           /* button: v above the limit given */
    /* The radar. */
    CRUISE_RADAR_NOT_READY = 14, /* a reading while P = 0 */
    CRUISE_READY_BIT = 15,       /* a key word with ready 1 and a key other than 2; or a tick whose ready differs from P, unless key is on
                                    and now + 1 = Q + 600 */
    /* The clock. */
    CRUISE_CLOCK_AT_END = 16, /* a tick at 86,400 */
    /* Whoever calls. */
    CRUISE_SETTINGS = 17,      /* settings outside their values (no car) */
    CRUISE_NOT_ACCEPTED = 18,  /* a record not of 12 words or not accepted */
    CRUISE_SHORT_ANSWERS = 19, /* answer buffer shorter than the words, or a copy's than the accepted ones */
    CRUISE_SHORT_RECORD = 20,  /* record buffer under 12 words */
    CRUISE_CUT_WORD = 21,      /* file ends inside a word: no function gives it */
    /* The scene engine. */
    CRUISE_BAD_FLOAT = 22, /* a float that is no number, infinite or below zero */
    CRUISE_TOO_FAST = 23,  /* a speed above 500 km/h */
    /* Whoever wrote the file while 3.0 seconds could be chosen. */
    CRUISE_GAP_WITHDRAWN = 24, /* the gap choice 30; in place of 3, so before 4 */
    /* Whoever asks for moves of the lever. */
    CRUISE_NOT_READY_TO_MOVE = 25, /* cruise off or a lever out of neutral */
    CRUISE_OUT_OF_REACH = 26       /* no list of at most six words does it */
};

/* The kind of a word: its top four bits. */
enum {
    CRUISE_KIND_KEY = 1,
    CRUISE_KIND_UP_DOWN = 2,
    CRUISE_KIND_FORE_BACK = 3,
    CRUISE_KIND_BRAKE = 4,
    CRUISE_KIND_GAS = 5,
    CRUISE_KIND_BUTTON = 6,
    CRUISE_KIND_GAP = 7,
    CRUISE_KIND_SIGN = 8,
    CRUISE_KIND_RADAR = 9,
    CRUISE_KIND_TICK = 10,
    CRUISE_KIND_RECORD = 11,
    CRUISE_KIND_ANSWER = 12,
    CRUISE_KIND_SETTINGS = 13
};

static inline uint32_t cruise_word_kind(uint32_t word) { return word >> 28; }

/* The settings: mode, signs (0 or 1) and towing (0 or 1). */
enum { CRUISE_MODE_NORMAL = 1, CRUISE_MODE_ADAPTIVE = 2 };
/* The key's positions. */
enum { CRUISE_KEY_OUT = 0, CRUISE_KEY_IN = 1, CRUISE_KEY_ON = 2 };
/* The levers' positions: neutral of both, then those of L, then those of M. */
enum { CRUISE_NEUTRAL = 0 };
enum { CRUISE_UP5 = 1, CRUISE_UP7 = 2, CRUISE_DOWN5 = 3, CRUISE_DOWN7 = 4 };
enum { CRUISE_FORWARD = 1, CRUISE_BACKWARD = 2 };
/* The kinds of a sighting: a vehicle ahead, a free road, a fault of the scene engine. */
enum { CRUISE_SIGHTING_VEHICLE = 0, CRUISE_SIGHTING_FREE = 1, CRUISE_SIGHTING_FAULT = 2 };

/* A value, or the bound given where it is above that; for the functions below. */
static inline uint32_t cruise_at_most(uint32_t value, uint32_t bound) { return value < bound ? value : bound; }

/* The words, one function for each kind. They refuse nothing and no value spills into another field: one that is outside its range gives
   a word of the same kind that is refused, an event word with 3 (ready above 1: with 2; the gap 30: with 24) and the settings word with 17. */

/* A flag, 0 or 1, at its bit of a settings word; any other value gives bit 4, which is unnamed. */
static inline uint32_t cruise_flag(uint32_t flag, uint32_t bit) { return flag < 2 ? flag << bit : 1u << 4; }

/* The settings word of a car alone: mode 1 (normal cruise) or 2 (adaptive) in bits 0-1, signs 0 or 1 in bit 2. */
static inline uint32_t cruise_word_settings(uint32_t mode, uint32_t signs)
{
    return 0xD0000000u | cruise_at_most(mode, 3) | cruise_flag(signs, 2);
}

/* The same with towing, 0 or 1, in bit 3: with 1 the highest desired speed is 1000 instead of 2000. From version 0.9 on: an older version refuses
   the settings word of a towing car with 17 and its record with 18; what an older one accepts means the same here. Build programs anew with this
   header: in older ones signs above 1 gave bit 3, to be refused. */
static inline uint32_t cruise_word_settings_towing(uint32_t mode, uint32_t signs, uint32_t towing)
{
    return cruise_word_settings(mode, signs) | cruise_flag(towing, 3);
}

/* The key to a position, 0..2 (bits 0-1); ready 1 where the radar is ready, which only a key turned on may say (bit 2). */
static inline uint32_t cruise_word_key(uint32_t position, uint32_t ready)
{
    return 0x10000000u | cruise_at_most(position, 3) | (cruise_at_most(ready, 2) << 2);
}

/* The up-down lever to a position, 0..4 (bits 0-2). */
static inline uint32_t cruise_word_up_down(uint32_t position) { return 0x20000000u | cruise_at_most(position, 7); }

/* The fore-back lever to a position, 0..2 (bits 0-1). */
static inline uint32_t cruise_word_fore_back(uint32_t position) { return 0x30000000u | cruise_at_most(position, 3); }

/* The brake to 0..225 (bits 0-7). */
static inline uint32_t cruise_word_brake(uint32_t pressed) { return 0x40000000u | cruise_at_most(pressed, 0xFF); }

/* The gas to 0..225 (bits 0-7). */
static inline uint32_t cruise_word_gas(uint32_t pressed) { return 0x50000000u | cruise_at_most(pressed, 0xFF); }

/* The limiter's button, with the limit, a speed 0..5000 (bits 0-12). */
static inline uint32_t cruise_word_button(uint32_t limit) { return 0x60000000u | cruise_at_most(limit, 0x1FFF); }

/* The chosen gap in tenths of a second: 20 or 25 (bits 0-4). From version 0.10 on 30 is refused. */
static inline uint32_t cruise_word_gap(uint32_t gap) { return 0x70000000u | cruise_at_most(gap, 0x1F); }

/* A traffic sign with a speed 0..2000 (bits 0-10). */
static inline uint32_t cruise_word_sign(uint32_t speed) { return 0x80000000u | cruise_at_most(speed, 0x7FF); }

/* A reading of the radar: range 0..254, 0 for nothing ahead (bits 0-7), and the speed of the car ahead, 0..5000 (bits 8-20). */
static inline uint32_t cruise_word_radar(uint32_t range, uint32_t speed)
{
    return 0x90000000u | cruise_at_most(range, 0xFF) | (cruise_at_most(speed, 0x1FFF) << 8);
}

/* One second; ready 1 where the radar is ready (bit 0). */
static inline uint32_t cruise_word_tick(uint32_t ready) { return 0xA0000000u | cruise_at_most(ready, 2); }

/* The fields of a settings word, told by its kind, CRUISE_KIND_SETTINGS. */
static inline uint32_t cruise_settings_mode(uint32_t settings) { return settings & 3; }
static inline uint32_t cruise_settings_signs(uint32_t settings) { return settings >> 2 & 1; }
static inline uint32_t cruise_settings_towing(uint32_t settings) { return settings >> 3 & 1; }

/* The fields of an answer word of a lesson, told by its kind, CRUISE_KIND_ANSWER: the refusal or 0 (bits 0-4), the visual and the acoustic
   warning, 1 or 0 (bits 5 and 6), a (bits 7-13 hold a + 60) and D (bits 14-24), all of the car after the word. The other bits are 0. */
static inline uint32_t cruise_answer_refusal(uint32_t answer) { return answer & 0x1F; }
static inline uint32_t cruise_answer_visual(uint32_t answer) { return answer >> 5 & 1; }
static inline uint32_t cruise_answer_acoustic(uint32_t answer) { return answer >> 6 & 1; }
static inline int32_t cruise_answer_acceleration(uint32_t answer) { return (int32_t)(answer >> 7 & 0x7F) - 60; }
static inline uint32_t cruise_answer_desired(uint32_t answer) { return answer >> 14 & 0x7FF; }

/* A fresh car from its settings word (cruise_word_settings, cruise_word_settings_towing): its record into the buffer's first twelve words; the words past the twelfth
   are kept.
   17 a word that is no settings word, or with settings outside their values. 20 record buffer under 12 words, kept. */
uint32_t cruise_fresh(uint32_t settings, uint32_t *record, size_t length);

/* One event word: the record becomes that of the next car. A refused event leaves the record as it is.
   18 a record not of 12 words or not accepted, kept. 1 to 16 and 24 the event is refused. */
uint32_t cruise_drive(uint32_t *record, size_t length, uint32_t word);

/* A lesson: a run of event words, with one answer word for each (cruise_answer_refusal and so on). The record becomes that of the car
   afterwards; answer words past the lesson keep their contents. Also the counts of accepted and refused words.
   18 a record not of 12 words or not accepted: record and answers kept, counts 0. 19 answer buffer shorter than the words: nothing runs,
   record and answers kept, counts 0. */
uint32_t cruise_lesson(uint32_t *record, size_t length, const uint32_t *words, size_t count, uint32_t *answers, size_t room,
                       size_t *accepted, size_t *refused);

/* A clean copy of a lesson: the words that are accepted, from the fresh car of a settings word (as for cruise_fresh), in order, into the
   buffer's first words; the words past the copy keep their contents. Also the number of words written. The lesson of the copy refuses
   nothing and ends in the same car. From version 0.2 on.
   17 a word that is no settings word, or with settings outside their values. 19 buffer shorter than the accepted words. Either way the
   buffer is kept whole and the number is 0. A buffer as long as the words always has room, and costs one pass over them instead of two. */
uint32_t cruise_copy(uint32_t settings, const uint32_t *words, size_t count, uint32_t *copy, size_t room, size_t *written);

/* The event of a lesson that passed a mark, and the seconds at or above it. The event is the first at which v went from below the mark to the mark or above,
   counted from 1, refused ones too; 0 for never. The seconds are the accepted ticks after which v is at or above the mark. A mark of 0 is never passed, and
   counts each accepted tick; one above 5000: never and 0. The record is only read. From version 0.5 on.
   A lesson that comes in parts: hand over a part, then drive it by cruise_lesson, which leaves the record for the next one. The seconds add up, and the first
   part with an event gives the lesson's, moved by the words of the parts before it.
   18 a record not of 12 words or not accepted: 0 and 0. */
uint32_t cruise_mark(const uint32_t *record, size_t length, const uint32_t *words, size_t count, uint32_t mark, size_t *event,
                     size_t *seconds);

/* The fewest moves of L that set a wanted D, in tenths of km/h, without a second passing: up-down lever words that the car accepts one after the other, the last
   of them to neutral, and the D afterwards is the wanted one. No other list of at most six such words is shorter, and of those as short it is the one whose words
   come first, compared as numbers from the first word on. Six words, 0 past the list, and the list's count; 0 words where D is the wanted one already. Nothing is
   driven and the record is only read: hand the words to cruise_lesson, which refuses none of them and changes nothing but D and the last D set by hand. From
   version 0.11 on.
   18 a record not of 12 words or not accepted. 25 C = 0, or a lever out of neutral. 26 no list does it; so for a wanted D of 0 or above the ceiling, 2000, or
   1000 towing. In this order, each with the count 0 and six zeros. */
uint32_t cruise_moves(const uint32_t *record, size_t length, uint32_t wanted, uint32_t moves[CRUISE_MOVES_WORDS], size_t *count);

/* A sighting of the scene engine (CRUISE_SIGHTING_VEHICLE and so on) as a radar event: its word, the same as cruise_word_radar gives. Of a
   vehicle the metres are rounded down, below 1 counts as 1, and 255 or more is a free road; its speed is the whole number of tenths at or below
   the float's exact value times ten; minus zero is zero. A free road gives range 0 and speed 0. A fault gives no event: 0, with the word 0, which
   is no event's. The floats of a free road and of a fault are not looked at. From version 0.6 on.
   1 no such kind of sighting. 22 a float that is no number, infinite or below zero. 23 a speed above 500 km/h, also of a vehicle past 254 metres.
   In this order, each with the word 0. */
uint32_t cruise_sighting(uint32_t kind, float metres, float kmh, uint32_t *word);

/* A sighting driven: the record becomes that of the car after its radar event. A fault gives 0 and leaves the record as it is. The floats of a
   free road and of a fault are not looked at. From version 0.6 on.
   18 a record not of 12 words or not accepted, kept. 1 no such kind of sighting. 22 a float that is no number, infinite or below zero. 23 a speed
   above 500 km/h. 4 key not on. 14 the radar is not ready. In this order; a refused sighting leaves the record as it is. */
uint32_t cruise_see(uint32_t *record, size_t length, uint32_t kind, float metres, float kmh);

/* Whether a record is accepted.
   18 a record not of 12 words or not accepted. */
uint32_t cruise_test(const uint32_t *record, size_t length);

/* The figures for the dials: v and D in tenths of km/h, a in tenths of m/s2, the visual and the acoustic warning (1 or 0), and the secure
   distance N in metres.
   18 a record not of 12 words or not accepted: every figure 0. */
uint32_t cruise_figures(const uint32_t *record, size_t length, uint32_t *speed, uint32_t *desired, int32_t *acceleration,
                        uint32_t *visual, uint32_t *acoustic, uint32_t *distance);

/* Whether two cars are alike (1, else 0): all of the one is as in the other, but that the clocks may differ. Two times are compared as the
   seconds since then: that of the word that put L out, only with L out and C = 1; that of the last radar test, only with the key on.
   Cars that are alike and are driven by the same words stay alike and give the same answers, up to a tick that only one of them takes,
   since the other's clock stands at its end (16).
   18 one of the two is a record not of 12 words or not accepted: 0. */
uint32_t cruise_alike(const uint32_t *a, size_t a_length, const uint32_t *b, size_t b_length, uint32_t *alike);

#ifdef __cplusplus
}
#endif

#endif
