/*
 * Two logs of the hall. The machine logs song and echo, the amplifier the microphones and the monitor; neither knows the latch, and each
 * may miss a moment. Can both logs of an evening be right, and if so, which presses were made? The rules are those as first written of
 * examples/hall.records, which is read from standard input: sh examples/records-to-bytes examples/hall.records | logs
 */
#include "kudzuclamp.h"

#include <stdio.h>
#include <stdlib.h>

enum { MIC_A, MIC_B, ECHO, SONG, MONITOR, LATCH, BITS };
enum { RULES };
enum { ROWS = 1344, BYTES = 65536, RECORDS = 100, MOMENTS = 7, RELATION = 2 };

/* What each unit logs. */
enum { MACHINE = 1 << ECHO | 1 << SONG, AMPLIFIER = 1 << MIC_A | 1 << MIC_B | 1 << MONITOR };

#define PLAYS (1 << ECHO | 1 << SONG)
#define OPEN (1 << MIC_B)
#define LOUD (1 << MIC_B | 1 << MONITOR)
#define MISSED {0, 0}

static const char *const names[BITS] = {"mic A", "mic B", "echo", "song", "monitor", "latch"};

static uint32_t words[KUDZUCLAMP_WORDS(ROWS)];
static const size_t words_len = sizeof words / sizeof *words;
static uint8_t bytes[BYTES];
static uint32_t list[RECORDS * KUDZUCLAMP_PLAY_WORDS];

/* The length of the records up to the first relation, that one included. */
static size_t first_rules(size_t length)
{
    for (size_t at = 0; at + 4 <= length;) {
        size_t next = at + 2 + 256 * (size_t)bytes[at] + bytes[at + 1];
        if (bytes[at + 3] == RELATION && next <= length) {
            return next;
        }
        at = next;
    }
    return 0;
}

static void print_state(unsigned state)
{
    printf(state ? "on:" : "all off");
    for (int p = 0, more = 0; p < BITS; p++) {
        if (state >> p & 1) {
            printf(more ? ", %s" : " %s", names[p]);
            more = 1;
        }
    }
    printf("\n");
}

/* Whether both logs can be right; if so, a course of the evening. */
static void ask(const char *evening, const struct kudzuclamp_entry *machine, const struct kudzuclamp_entry *amplifier, size_t moments)
{
    uint16_t states[MOMENTS];
    uint32_t number = kudzuclamp_fit_logs(words, words_len, states, MOMENTS, RULES, machine, amplifier, moments);
    if (number == KUDZUCLAMP_NO_RUN) {
        printf("%s: one of the logs is wrong\n", evening);
        return;
    }
    if (number != KUDZUCLAMP_ANSWERED) {
        fprintf(stderr, "%s: refused with %u: %s\n", evening, (unsigned)number, kudzuclamp_text(number));
        exit(EXIT_FAILURE);
    }
    printf("%s: both logs can be right\n", evening);
    for (size_t i = 0; i < moments; i++) {
        printf("  ");
        print_state(states[i]);
    }
}

int main(void)
{
    static const struct kudzuclamp_entry song_and_echo[MOMENTS] = {
        {MACHINE, 0}, {MACHINE, 0}, {MACHINE, 1 << SONG}, {MACHINE, PLAYS}, {MACHINE, 0}, {MACHINE, 0}, {MACHINE, PLAYS},
    };
    static const struct kudzuclamp_entry stage[MOMENTS] = {
        {AMPLIFIER, 0}, {AMPLIFIER, OPEN}, MISSED, {AMPLIFIER, OPEN}, MISSED, {AMPLIFIER, LOUD}, {AMPLIFIER, LOUD},
    };
    /* The song begins with its echo at once: the latch was on before. */
    static const struct kudzuclamp_entry echo_at_once[] = {{MACHINE, 0}, {MACHINE, PLAYS}};
    static const struct kudzuclamp_entry quiet[] = {{AMPLIFIER, 0}, {AMPLIFIER, 0}};
    /* Echo and monitor are on, and then the singer's microphone is opened: no press does that. */
    static const struct kudzuclamp_entry echo_on[] = {{MACHINE, PLAYS}, {MACHINE, PLAYS}};
    static const struct kudzuclamp_entry opened[] = {{AMPLIFIER, 1 << MONITOR}, {AMPLIFIER, LOUD}};
    size_t count, length = first_rules(fread(bytes, 1, BYTES, stdin));
    if (length == 0 || kudzuclamp_play(words, words_len, bytes, length, list, sizeof list / sizeof *list, &count) != 0) {
        fprintf(stderr, "no records up to a relation\n");
        return EXIT_FAILURE;
    }
    ask("Friday", song_and_echo, stage, MOMENTS);
    ask("Saturday", echo_at_once, quiet, 2);
    ask("Sunday", echo_on, opened, 2);
    return EXIT_SUCCESS;
}
