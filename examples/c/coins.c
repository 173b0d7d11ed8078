/*
 * A booth in a coin hall: each press costs credits, and a coin is taken for every ten credits begun. By which presses does it cost least to come
 * from all off to all on, at the evening's prices, at those of the late hour, and on a birthday?
 */
#include "kudzuclamp.h"

#include <stdio.h>
#include <stdlib.h>

enum { MIC, ECHO, SONG, BITS };
enum { ALL_OFF, ALL_ON };
/* Each press is a relation of its own. */
enum { PRESS_MIC, PRESS_ECHO, PRESS_SONG, PRESS_PARTY, PRESSES };
enum { ROWS = 100, STATES = 1 << BITS };

static const char *const names[PRESSES] = {"MIC", "ECHO", "SONG", "PARTY"};

static uint32_t words[KUDZUCLAMP_WORDS(ROWS)];
static const size_t words_len = sizeof words / sizeof *words;
static struct kudzuclamp_account accounts[] = {{UINT32_MAX, UINT32_MAX, 0}};

/* Ends the program where a call that must be answered is refused. */
static void must(const char *what, uint32_t number)
{
    if (number != KUDZUCLAMP_ANSWERED) {
        fprintf(stderr, "%s: refused with %u: %s\n", what, (unsigned)number, kudzuclamp_text(number));
        exit(EXIT_FAILURE);
    }
}

static void press(uint32_t t, const uint8_t *formula, size_t count)
{
    uint8_t bytes[KUDZUCLAMP_FRAMED(KUDZUCLAMP_MAX_FORMULA)];
    size_t length = kudzuclamp_frame(bytes, sizeof bytes, formula, count);
    uint32_t peak;
    must(names[t], kudzuclamp_relation(words, words_len, t, bytes, length, &peak));
}

static void set(const char *what, uint32_t r, const uint8_t *formula, size_t count)
{
    uint8_t bytes[KUDZUCLAMP_FRAMED(KUDZUCLAMP_MAX_FORMULA)];
    size_t length = kudzuclamp_frame(bytes, sizeof bytes, formula, count);
    uint32_t node, rounds, peak;
    must(what, kudzuclamp_set(words, words_len, accounts, 1, 0, r, 0, bytes, length, &node, &rounds, &peak));
}

/* MIC turns the microphone over; ECHO turns the echo over, while the microphone is open; SONG starts the song, while the echo is on; PARTY turns all
 * on. */
static void make_booth(void)
{
    static const uint8_t mic[] = {KUDZUCLAMP_AND, KUDZUCLAMP_TURNS(MIC), KUDZUCLAMP_AND, KUDZUCLAMP_KEEPS(ECHO), KUDZUCLAMP_KEEPS(SONG)};
    static const uint8_t echo[] = {
        KUDZUCLAMP_AND, KUDZUCLAMP_AND, KUDZUCLAMP_NOW(MIC), KUDZUCLAMP_NEXT(MIC),
        KUDZUCLAMP_AND, KUDZUCLAMP_TURNS(ECHO), KUDZUCLAMP_KEEPS(SONG),
    };
    static const uint8_t song[] = {
        KUDZUCLAMP_AND, KUDZUCLAMP_AND, KUDZUCLAMP_NOW(ECHO), KUDZUCLAMP_NEXT(ECHO),
        KUDZUCLAMP_AND, KUDZUCLAMP_NEXT(SONG), KUDZUCLAMP_KEEPS(MIC),
    };
    static const uint8_t party[] = {KUDZUCLAMP_AND, KUDZUCLAMP_NEXT(MIC), KUDZUCLAMP_AND, KUDZUCLAMP_NEXT(ECHO), KUDZUCLAMP_NEXT(SONG)};
    static const uint8_t off[] = {KUDZUCLAMP_NOT, KUDZUCLAMP_OR, KUDZUCLAMP_NOW(MIC), KUDZUCLAMP_OR, KUDZUCLAMP_NOW(ECHO), KUDZUCLAMP_NOW(SONG)};
    static const uint8_t on[] = {KUDZUCLAMP_AND, KUDZUCLAMP_NOW(MIC), KUDZUCLAMP_AND, KUDZUCLAMP_NOW(ECHO), KUDZUCLAMP_NOW(SONG)};
    must("fresh", kudzuclamp_fresh(words, words_len, accounts, 1, BITS, ROWS));
    press(PRESS_MIC, mic, sizeof mic);
    press(PRESS_ECHO, echo, sizeof echo);
    press(PRESS_SONG, song, sizeof song);
    press(PRESS_PARTY, party, sizeof party);
    set("all off", ALL_OFF, off, sizeof off);
    set("all on", ALL_ON, on, sizeof on);
}

static void ask(const char *hour, const uint8_t prices[KUDZUCLAMP_RELATIONS])
{
    static uint64_t work[STATES];
    uint16_t states[STATES];
    uint8_t relations[STATES - 1];
    uint32_t total, charge, count, k;
    must(hour, kudzuclamp_cheapest(words, words_len, prices, KUDZUCLAMP_RELATIONS, work, STATES, states, STATES, relations, STATES - 1, ALL_OFF, ALL_ON,
                                   &total, &charge, &count));
    printf("%s: %u credits, %u coins:", hour, (unsigned)total, (unsigned)charge);
    for (k = 0; k + 1 < count; k++) {
        printf(" %s", names[relations[k]]);
    }
    printf("\n");
}

int main(void)
{
    static const uint8_t evening[KUDZUCLAMP_RELATIONS] = {4, 5, 3, 15};
    static const uint8_t late[KUDZUCLAMP_RELATIONS] = {4, 5, 3, 12};
    static const uint8_t birthday[KUDZUCLAMP_RELATIONS] = {0};
    make_booth();
    ask("evening", evening);
    /* Where both ways cost the same, the one with fewer presses. */
    ask("late", late);
    ask("birthday", birthday);
    return 0;
}
