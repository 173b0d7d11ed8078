/*
 * Reads the records of examples/hall.records from standard input, plays them up to the first relation (the rules as first written), and prints the
 * shortest presses from the start state (set 0) into the howl (set 1): sh examples/records-to-bytes examples/hall.records | presses
 */
#include "kudzuclamp.h"

#include <stdio.h>
#include <stdlib.h>

enum { MIC_A, MIC_B, ECHO, SONG, MONITOR, LATCH, BITS };
enum { START_STATE, HOWL };
enum { RULES };
enum { ROWS = 1344, BYTES = 65536, RECORDS = 100, STATES = 1 << BITS, RELATION = 2 };

static const char *const names[BITS] = {"mic A", "mic B", "echo", "song", "monitor", "latch"};

static uint32_t words[KUDZUCLAMP_WORDS(ROWS)];
static const size_t words_len = sizeof words / sizeof *words;
static uint8_t bytes[BYTES];
static uint32_t list[RECORDS * KUDZUCLAMP_PLAY_WORDS];
static uint16_t states[STATES];

/* The length of the records up to the first relation, that one included. */
static size_t first_rules(size_t length)
{
    for (size_t at = 0; at + 4 <= length;) {
        size_t next = at + 2 + 256 * (size_t)bytes[at] + bytes[at + 1];
        if (bytes[at + 3] == RELATION && next <= length) {
            return next;
        }
        at = next;
    }
    return 0;
}

/* The press that leads from one state to the next, by the bits that change. */
static const char *press(unsigned from, unsigned to)
{
    unsigned changed = from ^ to;
    if (changed >> SONG & 1) {
        return to >> SONG & 1 ? "START" : "STOP";
    }
    if (changed >> MIC_A & 1) {
        return "MIC A";
    }
    if (changed >> MIC_B & 1) {
        return "MIC B";
    }
    return changed >> MONITOR & 1 ? "MONITOR" : "ECHO";
}

static void print_state(unsigned state)
{
    printf(state ? "on:" : "all off");
    for (int p = 0, more = 0; p < BITS; p++) {
        if (state >> p & 1) {
            printf(more ? ", %s" : " %s", names[p]);
            more = 1;
        }
    }
    printf("\n");
}

int main(void)
{
    size_t count;
    uint32_t found;
    size_t length = first_rules(fread(bytes, 1, BYTES, stdin));
    if (length == 0 || kudzuclamp_play(words, words_len, bytes, length, list, sizeof list / sizeof *list, &count) != 0) {
        fprintf(stderr, "no records up to a relation\n");
        return EXIT_FAILURE;
    }
    uint32_t number = kudzuclamp_shortest(words, words_len, states, STATES, START_STATE, HOWL, RULES, &found);
    if (number == KUDZUCLAMP_NO_RUN) {
        printf("no presses lead to a howl\n");
        return EXIT_SUCCESS;
    }
    if (number != KUDZUCLAMP_ANSWERED) {
        fprintf(stderr, "refused with %u\n", (unsigned)number);
        return EXIT_FAILURE;
    }
    printf("%u presses make the hall howl\n%-8s", (unsigned)found - 1, "");
    print_state(states[0]);
    for (uint32_t k = 1; k < found; k++) {
        printf("%-8s", press(states[k - 1], states[k]));
        print_state(states[k]);
    }
    return EXIT_SUCCESS;
}
