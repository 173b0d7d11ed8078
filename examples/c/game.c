/*
 * A bar at closing time. A guest presses buttons on a phone, and after each press the machine reacts once. From which states can the
 * machine see to it that the room comes to be closed, locked with microphone and echo off, whatever the guest presses? How does it answer
 * the presses of an evening? Asked of the machine as it was delivered, and of one whose lock turns the echo off.
 */
#include "kudzuclamp.h"

#include <stdio.h>
#include <stdlib.h>

enum { MIC, ECHO, LOCK, BITS };
enum { CLOSED, FORCED };
enum { PHONE, DELIVERED, MENDED };
enum { ROWS = 100, STATES = 1 << BITS };

static const char *const names[BITS] = {"mic", "echo", "lock"};

static uint32_t words[KUDZUCLAMP_WORDS(ROWS)];
static const size_t words_len = sizeof words / sizeof *words;
static struct kudzuclamp_account accounts[] = {{UINT32_MAX, UINT32_MAX, 0}};

/* Ends the program where a call that must be answered is refused. */
static void must(const char *what, uint32_t number)
{
    if (number != KUDZUCLAMP_ANSWERED) {
        fprintf(stderr, "%s: refused with %u: %s\n", what, (unsigned)number, kudzuclamp_text(number));
        exit(EXIT_FAILURE);
    }
}

static void moves(const char *what, uint32_t t, const uint8_t *formula, size_t count)
{
    uint8_t bytes[KUDZUCLAMP_FRAMED(KUDZUCLAMP_MAX_FORMULA)];
    size_t length = kudzuclamp_frame(bytes, sizeof bytes, formula, count);
    uint32_t peak;
    must(what, kudzuclamp_relation(words, words_len, t, bytes, length, &peak));
}

/* What a move keeps, and moves that change one thing or nothing. */
#define KEEP_TWO(p, q) KUDZUCLAMP_AND, KUDZUCLAMP_KEEPS(p), KUDZUCLAMP_KEEPS(q)
#define NOTHING KUDZUCLAMP_AND, KUDZUCLAMP_KEEPS(LOCK), KEEP_TWO(MIC, ECHO)
#define ECHO_OFF KUDZUCLAMP_AND, KUDZUCLAMP_NOT, KUDZUCLAMP_NEXT(ECHO), KEEP_TWO(MIC, LOCK)
#define MIC_OFF_LOCKED KUDZUCLAMP_AND, KUDZUCLAMP_NOW(LOCK), KUDZUCLAMP_AND, KUDZUCLAMP_NOT, KUDZUCLAMP_NEXT(MIC), KEEP_TWO(ECHO, LOCK)

/*
 * The phone, until the room is locked, turns the microphone over, and the echo while the microphone is open; it can always be refreshed,
 * which does nothing. The machine turns the echo off; or the microphone, once the room is locked; or locks it, while the echo is off; or
 * does nothing.
 */
static void make_bar(void)
{
    static const uint8_t phone[] = {
        KUDZUCLAMP_OR, NOTHING, KUDZUCLAMP_AND, KUDZUCLAMP_NOT, KUDZUCLAMP_NOW(LOCK), KUDZUCLAMP_OR,
        KUDZUCLAMP_AND, KUDZUCLAMP_TURNS(MIC), KEEP_TWO(ECHO, LOCK),
        KUDZUCLAMP_AND, KUDZUCLAMP_AND, KUDZUCLAMP_NOW(MIC), KUDZUCLAMP_TURNS(ECHO), KEEP_TWO(MIC, LOCK),
    };
    static const uint8_t delivered[] = {
        KUDZUCLAMP_OR, NOTHING, KUDZUCLAMP_OR, ECHO_OFF, KUDZUCLAMP_OR, MIC_OFF_LOCKED,
        KUDZUCLAMP_AND, KUDZUCLAMP_NOT, KUDZUCLAMP_NOW(ECHO), KUDZUCLAMP_AND, KUDZUCLAMP_NEXT(LOCK), KEEP_TWO(MIC, ECHO),
    };
    static const uint8_t mended[] = {
        KUDZUCLAMP_OR, NOTHING, KUDZUCLAMP_OR, ECHO_OFF, KUDZUCLAMP_OR, MIC_OFF_LOCKED,
        KUDZUCLAMP_AND, KUDZUCLAMP_NOT, KUDZUCLAMP_NEXT(ECHO), KUDZUCLAMP_AND, KUDZUCLAMP_NEXT(LOCK), KUDZUCLAMP_KEEPS(MIC),
    };
    static const uint8_t closed[] = {
        KUDZUCLAMP_AND, KUDZUCLAMP_NOW(LOCK), KUDZUCLAMP_NOT, KUDZUCLAMP_OR, KUDZUCLAMP_NOW(MIC), KUDZUCLAMP_NOW(ECHO),
    };
    uint8_t bytes[KUDZUCLAMP_FRAMED(sizeof closed)];
    size_t length = kudzuclamp_frame(bytes, sizeof bytes, closed, sizeof closed);
    uint32_t node, rounds, peak;
    must("fresh", kudzuclamp_fresh(words, words_len, accounts, 1, BITS, ROWS));
    moves("phone", PHONE, phone, sizeof phone);
    moves("delivered", DELIVERED, delivered, sizeof delivered);
    moves("mended", MENDED, mended, sizeof mended);
    must("closed", kudzuclamp_set(words, words_len, accounts, 1, 0, CLOSED, 0, bytes, length, &node, &rounds, &peak));
}

static int has(uint32_t r, uint32_t state)
{
    uint32_t value;
    must("member", kudzuclamp_member(words, words_len, r, state, &value));
    return value == 1;
}

/* A line: what was pressed or found, and the state. */
static void print_state(const char *what, unsigned state)
{
    int p, more = 0;
    printf("  %-10s", what);
    for (p = 0; p < BITS; p++) {
        if (state >> p & 1) {
            printf(more ? ", %s" : "%s", names[p]);
            more = 1;
        }
    }
    printf(more ? "\n" : "all off\n");
}

/*
 * Plays the guest's presses, each by the bit that it turns over, BITS for a refresh, until the room is closed. It begins in a state from
 * which the machine can force that, and every answer is another one; so where there is no answer the phone has no such press.
 */
static void play(uint32_t machine, uint32_t state, const int *presses, int count)
{
    int k;
    print_state("start", state);
    for (k = 0; k < count && !has(CLOSED, state); k++) {
        const char *name = presses[k] == MIC ? "MIC" : presses[k] == ECHO ? "ECHO" : "REFRESH";
        uint32_t press = presses[k] < BITS ? state ^ 1u << presses[k] : state;
        uint32_t next, number;
        number = kudzuclamp_react(words, words_len, accounts, 1, 0, UINT32_MAX, CLOSED, PHONE, machine, state, press, &next);
        if (number == KUDZUCLAMP_NO_ANSWER) {
            printf("  %-10sthe phone does not take it\n", name);
            continue;
        }
        must("react", number);
        print_state(name, next);
        state = next;
    }
}

static void ask(const char *what, uint32_t machine, uint32_t start, const int *presses, int count)
{
    uint32_t node, rounds, turns, peak, states, state;
    must(what, kudzuclamp_force(words, words_len, accounts, 1, 0, FORCED, UINT32_MAX, CLOSED, PHONE, machine, &node, &rounds, &peak));
    must(what, kudzuclamp_count(words, words_len, FORCED, &states));
    /* Closed states enter in the first round, and the last one gives the same set again; it is the only one where no state is closed. */
    turns = rounds > 2 ? rounds - 2 : 0;
    printf("%s: closed from %u of %u states, in at most %u turns\n", what, (unsigned)states, (unsigned)STATES, (unsigned)turns);
    for (state = 0; state < STATES; state++) {
        if (!has(FORCED, state)) {
            print_state("not from", state);
        }
    }
    play(machine, start, presses, count);
}

int main(void)
{
    static const int evening[] = {MIC, ECHO, BITS};
    static const int late[] = {BITS, MIC, BITS};
    make_bar();
    ask("as delivered", DELIVERED, 0, evening, sizeof evening / sizeof *evening);
    ask("with the new lock", MENDED, 1u << MIC | 1u << ECHO, late, sizeof late / sizeof *late);
    return 0;
}
