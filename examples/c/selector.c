/*
 * A hall with an echo selector of three positions and a microphone. The selector takes two bits and never shows the fourth pattern; told so by
 * kudzuclamp_valid, the table counts only states that exist.
 */
#include "kudzuclamp.h"

#include <stdio.h>
#include <stdlib.h>

/* The selector is off where both bits are off, dry where the first is on, wet where the second is. */
enum { DRY, WET, MIC, BITS };
enum { HOWL, REACH, SELECTED };
enum { RULES };
enum { ROWS = 100, ROUNDS = 100 };

static uint32_t words[KUDZUCLAMP_WORDS(ROWS)];
static const size_t words_len = sizeof words / sizeof *words;
static struct kudzuclamp_account accounts[] = {{UINT32_MAX, UINT32_MAX, 0}};

/* Ends the program where a call that must be answered is refused. */
static void must(const char *what, uint32_t number)
{
    if (number != KUDZUCLAMP_ANSWERED) {
        fprintf(stderr, "%s: refused with %u: %s\n", what, (unsigned)number, kudzuclamp_text(number));
        exit(EXIT_FAILURE);
    }
}

static void set(const char *what, uint32_t r, const uint8_t *formula, size_t count)
{
    uint8_t bytes[KUDZUCLAMP_FRAMED(KUDZUCLAMP_MAX_FORMULA)];
    size_t length = kudzuclamp_frame(bytes, sizeof bytes, formula, count);
    uint32_t node, rounds, peak, states;
    must(what, kudzuclamp_set(words, words_len, accounts, 1, 0, r, ROUNDS, bytes, length, &node, &rounds, &peak));
    must("count", kudzuclamp_count(words, words_len, r, &states));
    printf("%s: %u states\n", what, (unsigned)states);
}

/* The rules and the questions, over the states that exist. */
static void ask(void)
{
    /* The selector is turned and the microphone keeps, or the other way round. */
    static const uint8_t press[] = {
        KUDZUCLAMP_OR,
        KUDZUCLAMP_KEEPS(MIC),
        KUDZUCLAMP_AND, KUDZUCLAMP_TURNS(MIC), KUDZUCLAMP_AND, KUDZUCLAMP_KEEPS(DRY), KUDZUCLAMP_KEEPS(WET),
    };
    static const uint8_t selected[] = {KUDZUCLAMP_OR, KUDZUCLAMP_NOW(DRY), KUDZUCLAMP_NOW(WET)};
    static const uint8_t howl[] = {KUDZUCLAMP_AND, KUDZUCLAMP_NOW(WET), KUDZUCLAMP_NOW(MIC)};
    static const uint8_t reach[] = {
        KUDZUCLAMP_MU(0), KUDZUCLAMP_OR, KUDZUCLAMP_REGISTER(HOWL), KUDZUCLAMP_DIAMOND(RULES), KUDZUCLAMP_VARIABLE(0),
    };
    uint8_t bytes[KUDZUCLAMP_FRAMED(sizeof press)];
    size_t length = kudzuclamp_frame(bytes, sizeof bytes, press, sizeof press);
    uint32_t peak;
    must("press", kudzuclamp_relation(words, words_len, RULES, bytes, length, &peak));
    set("  echo selected", SELECTED, selected, sizeof selected);
    set("  howl: wet, and the microphone open", HOWL, howl, sizeof howl);
    set("  presses lead there", REACH, reach, sizeof reach);
}

int main(void)
{
    static const uint8_t positions[] = {KUDZUCLAMP_NOT, KUDZUCLAMP_AND, KUDZUCLAMP_NOW(DRY), KUDZUCLAMP_NOW(WET)};
    uint8_t bytes[KUDZUCLAMP_FRAMED(sizeof positions)];
    size_t length = kudzuclamp_frame(bytes, sizeof bytes, positions, sizeof positions);
    printf("every pattern\n");
    must("fresh", kudzuclamp_fresh(words, words_len, accounts, 1, BITS, ROWS));
    ask();
    printf("a selector of three positions\n");
    must("fresh", kudzuclamp_fresh(words, words_len, accounts, 1, BITS, ROWS));
    must("valid", kudzuclamp_valid(words, words_len, bytes, length));
    ask();
    printf("valid again: %s\n", kudzuclamp_text(kudzuclamp_valid(words, words_len, bytes, length)));
    return 0;
}
