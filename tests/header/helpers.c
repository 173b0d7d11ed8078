/*
 * What include/kudzuclamp.h has besides the calls: names of bytes, framing, texts, version. Compiled as C99 and as C++11. Prints what fails, and
 * ends with status 1 then.
 */
#include <kudzuclamp.h>

#include <stdio.h>
#include <string.h>

static int failed;

static void holds(int truth, const char *what)
{
    if (!truth) {
        printf("FAILED: %s\n", what);
        failed = 1;
    }
}

#define HOLDS(truth) holds(truth, #truth)

/* The table of bytes in the header's comment. */
static void tokens(void)
{
    static const uint8_t first[] = {
        KUDZUCLAMP_FALSE,  KUDZUCLAMP_TRUE,        KUDZUCLAMP_NOT,         KUDZUCLAMP_AND,         KUDZUCLAMP_OR,
        KUDZUCLAMP_NOW(0), KUDZUCLAMP_NEXT(0),     KUDZUCLAMP_VARIABLE(0), KUDZUCLAMP_REGISTER(0), KUDZUCLAMP_BOX(0),
        KUDZUCLAMP_DIAMOND(0), KUDZUCLAMP_MU(0),   KUDZUCLAMP_NU(0),       KUDZUCLAMP_UNTIL_SOME(0), KUDZUCLAMP_UNTIL_EVERY(0),
    };
    static const uint8_t first_bytes[] = {0, 1, 2, 3, 4, 0x10, 0x20, 0x30, 0x40, 0x60, 0x68, 0x70, 0x80, 0x90, 0x98};
    static const uint8_t last[] = {
        KUDZUCLAMP_NOW(15), KUDZUCLAMP_NEXT(15), KUDZUCLAMP_VARIABLE(15), KUDZUCLAMP_REGISTER(31),  KUDZUCLAMP_BOX(7),
        KUDZUCLAMP_DIAMOND(7), KUDZUCLAMP_MU(15), KUDZUCLAMP_NU(15),      KUDZUCLAMP_UNTIL_SOME(7), KUDZUCLAMP_UNTIL_EVERY(7),
    };
    static const uint8_t last_bytes[] = {0x1F, 0x2F, 0x3F, 0x5F, 0x67, 0x6F, 0x7F, 0x8F, 0x97, 0x9F};
    static const uint8_t past[] = {
        KUDZUCLAMP_NOW(16), KUDZUCLAMP_NEXT(16), KUDZUCLAMP_VARIABLE(16), KUDZUCLAMP_REGISTER(32),  KUDZUCLAMP_BOX(8),
        KUDZUCLAMP_DIAMOND(8), KUDZUCLAMP_MU(16), KUDZUCLAMP_NU(256),     KUDZUCLAMP_UNTIL_SOME(8), KUDZUCLAMP_UNTIL_EVERY(-1),
    };
    static const uint8_t keeps[] = {KUDZUCLAMP_KEEPS(5)}, turns[] = {KUDZUCLAMP_TURNS(5)};
    static const uint8_t keeps_bytes[] = {4, 3, 0x25, 0x15, 3, 2, 0x25, 2, 0x15}, turns_bytes[] = {4, 3, 0x25, 2, 0x15, 3, 2, 0x25, 0x15};
    size_t i;
    HOLDS(sizeof first == sizeof first_bytes && memcmp(first, first_bytes, sizeof first) == 0);
    HOLDS(sizeof last == sizeof last_bytes && memcmp(last, last_bytes, sizeof last) == 0);
    for (i = 0; i < sizeof past; i++) {
        HOLDS(past[i] == 0xFF);
    }
    HOLDS(sizeof keeps == 9 && memcmp(keeps, keeps_bytes, 9) == 0);
    HOLDS(sizeof turns == 9 && memcmp(turns, turns_bytes, 9) == 0);
}

static void frames(void)
{
    static const uint8_t until[] = {KUDZUCLAMP_UNTIL_EVERY(0), KUDZUCLAMP_NOT, KUDZUCLAMP_NOW(0), KUDZUCLAMP_NOW(1)};
    static const uint8_t until_framed[] = {0, 5, 2, 0x98, 2, 0x10, 0x11};
    static const uint8_t one[] = {KUDZUCLAMP_TRUE}, one_framed[] = {0, 2, 1, 1};
    uint8_t nots[KUDZUCLAMP_MAX_FORMULA + 1], bytes[KUDZUCLAMP_FRAMED(KUDZUCLAMP_MAX_FORMULA) + 1];
    size_t i;
    HOLDS(kudzuclamp_frame(bytes, sizeof bytes, until, sizeof until) == 7 && memcmp(bytes, until_framed, 7) == 0);
    HOLDS(kudzuclamp_frame(bytes, 4, one, 1) == 4 && memcmp(bytes, one_framed, 4) == 0);
    HOLDS(KUDZUCLAMP_FRAMED(sizeof until) == 7);

    memset(nots, KUDZUCLAMP_NOT, sizeof nots);
    memset(bytes, 0xAA, sizeof bytes);
    HOLDS(kudzuclamp_frame(bytes, sizeof bytes, nots, 1023) == 1026);
    HOLDS(bytes[0] == 4 && bytes[1] == 0 && bytes[2] == 1 && bytes[3] == 2 && bytes[1025] == 2 && bytes[1026] == 0xAA);

    memset(bytes, 0xAA, sizeof bytes);
    HOLDS(kudzuclamp_frame(bytes, sizeof bytes, nots, 0) == 0);
    HOLDS(kudzuclamp_frame(bytes, sizeof bytes, nots, 1024) == 0);
    HOLDS(kudzuclamp_frame(bytes, sizeof bytes, nots, SIZE_MAX) == 0);
    HOLDS(kudzuclamp_frame(bytes, 3, one, 1) == 0);
    HOLDS(kudzuclamp_frame(bytes, 1025, nots, 1023) == 0);
    for (i = 0; i < sizeof bytes; i++) {
        HOLDS(bytes[i] == 0xAA);
    }
}

/* Words and checks agree with the library. */
static void calls(void)
{
    static uint32_t words[KUDZUCLAMP_WORDS(50)];
    const size_t words_len = sizeof words / sizeof *words;
    static const uint8_t turn[] = {KUDZUCLAMP_TURNS(0)}, past[] = {KUDZUCLAMP_NOW(16)};
    struct kudzuclamp_account account = {UINT32_MAX, UINT32_MAX, 0};
    uint8_t bytes[KUDZUCLAMP_FRAMED(sizeof turn)];
    size_t length = kudzuclamp_frame(bytes, sizeof bytes, turn, sizeof turn);
    HOLDS(kudzuclamp_fresh(words, words_len, &account, 1, 1, 50) == KUDZUCLAMP_ANSWERED);
    HOLDS(kudzuclamp_check(words, words_len, 1, bytes, length) == KUDZUCLAMP_ANSWERED);
    HOLDS(kudzuclamp_check(words, words_len, 0, bytes, length) == KUDZUCLAMP_SYNTAX);
    length = kudzuclamp_frame(bytes, sizeof bytes, past, sizeof past);
    HOLDS(kudzuclamp_check(words, words_len, 0, bytes, length) == KUDZUCLAMP_SYNTAX);
    HOLDS(kudzuclamp_check(words, words_len, 0, bytes, 0) == KUDZUCLAMP_SYNTAX);
}

/* force is a set of the formula that the header names; with the goal's register as its target no press has an answer. */
static void games(void)
{
    enum { GOAL = 30, GUEST = 6, MACHINE = 5, TARGET = 2, ROWS = 50 };
    static const uint8_t press[] = {KUDZUCLAMP_TURNS(0)}, answer[] = {KUDZUCLAMP_NEXT(0)}, goal[] = {KUDZUCLAMP_NOW(0)};
    static const uint8_t formula[] = {
        KUDZUCLAMP_MU(0), KUDZUCLAMP_OR, KUDZUCLAMP_REGISTER(GOAL), KUDZUCLAMP_AND, KUDZUCLAMP_BOX(GUEST), KUDZUCLAMP_DIAMOND(MACHINE),
        KUDZUCLAMP_VARIABLE(0), KUDZUCLAMP_DIAMOND(GUEST), KUDZUCLAMP_TRUE,
    };
    static uint32_t words[KUDZUCLAMP_WORDS(ROWS)], other[KUDZUCLAMP_WORDS(ROWS)];
    const size_t length = sizeof words / sizeof *words;
    struct kudzuclamp_account account = {UINT32_MAX, UINT32_MAX, 0};
    uint8_t bytes[KUDZUCLAMP_FRAMED(sizeof press)];
    uint32_t node, rounds, peak, by_set[3], state, moved;
    size_t count = kudzuclamp_frame(bytes, sizeof bytes, press, sizeof press);
    HOLDS(kudzuclamp_fresh(words, length, &account, 1, 1, ROWS) == 0);
    HOLDS(kudzuclamp_relation(words, length, GUEST, bytes, count, &peak) == 0);
    count = kudzuclamp_frame(bytes, sizeof bytes, answer, sizeof answer);
    HOLDS(kudzuclamp_relation(words, length, MACHINE, bytes, count, &peak) == 0);
    count = kudzuclamp_frame(bytes, sizeof bytes, goal, sizeof goal);
    HOLDS(kudzuclamp_set(words, length, &account, 1, 0, GOAL, 0, bytes, count, &node, &rounds, &peak) == 0);
    memcpy(other, words, sizeof words);
    count = kudzuclamp_frame(bytes, sizeof bytes, formula, sizeof formula);
    HOLDS(kudzuclamp_set(other, length, &account, 1, 0, TARGET, 3, bytes, count, &by_set[0], &by_set[1], &by_set[2]) == 0);
    HOLDS(kudzuclamp_force(words, length, &account, 1, 0, TARGET, 3, GOAL, GUEST, MACHINE, &node, &rounds, &peak) == 0);
    HOLDS(node == 1 && rounds == 3 && node == by_set[0] && rounds == by_set[1] && peak == by_set[2]);
    HOLDS(kudzuclamp_react(words, length, &account, 1, 0, 3, GOAL, GUEST, MACHINE, 0, 1, &moved) == 0 && moved == 1);
    HOLDS(kudzuclamp_force(words, length, &account, 1, 0, GOAL, 3, GOAL, GUEST, MACHINE, &node, &rounds, &peak) == 0);
    for (state = 0; state < 4; state++) {
        HOLDS(kudzuclamp_react(words, length, &account, 1, 0, 3, GOAL, GUEST, MACHINE, state / 2, state % 2, &moved) == 15 && moved == 0);
    }
}

static void texts(void)
{
    static const uint32_t numbers[] = {0, 1, 2, 3, 4, 5, 6, 7, 8, 9, 10, 11, 12, 13, 14, 15, 100, 101};
    const size_t count = sizeof numbers / sizeof *numbers;
    size_t i, j;
    HOLDS(strcmp(kudzuclamp_text(KUDZUCLAMP_SPENT), "the rounds are used up") == 0);
    for (i = 0; i < count; i++) {
        HOLDS(strcmp(kudzuclamp_text(numbers[i]), kudzuclamp_text(99)) != 0);
        for (j = 0; j < i; j++) {
            HOLDS(strcmp(kudzuclamp_text(numbers[i]), kudzuclamp_text(numbers[j])) != 0);
        }
    }
    HOLDS(strcmp(kudzuclamp_text(UINT32_MAX), kudzuclamp_text(99)) == 0);
}

/* One bit that each press turns over; of two logs one knows it at the first moment, the other at the last. */
static void logs(void)
{
    static uint32_t words[KUDZUCLAMP_WORDS(50)];
    static const struct kudzuclamp_entry one[KUDZUCLAMP_MAX_ENTRIES + 1] = {{1, 1}};
    static const struct kudzuclamp_entry two[KUDZUCLAMP_MAX_ENTRIES + 1] = {{0, 0}, {0, 0}, {1, 1}};
    const size_t words_len = sizeof words / sizeof *words;
    static const uint8_t turn[] = {KUDZUCLAMP_TURNS(0)};
    struct kudzuclamp_account account = {UINT32_MAX, UINT32_MAX, 0};
    uint8_t bytes[KUDZUCLAMP_FRAMED(sizeof turn)];
    uint16_t list[4] = {9, 9, 9, 9};
    uint32_t peak;
    size_t length = kudzuclamp_frame(bytes, sizeof bytes, turn, sizeof turn);
    HOLDS(kudzuclamp_fresh(words, words_len, &account, 1, 1, 50) == KUDZUCLAMP_ANSWERED);
    HOLDS(kudzuclamp_relation(words, words_len, 0, bytes, length, &peak) == KUDZUCLAMP_ANSWERED);
    HOLDS(kudzuclamp_fit_logs(words, words_len, list, 4, 0, one, two, 3) == KUDZUCLAMP_ANSWERED);
    HOLDS(list[0] == 1 && list[1] == 0 && list[2] == 1 && list[3] == 9);
    HOLDS(kudzuclamp_fit_logs(words, words_len, list, 4, 0, one, two + 1, 2) == KUDZUCLAMP_NO_RUN);
    HOLDS(kudzuclamp_fit_logs(words, words_len, list, 2, 0, one, two, 3) == KUDZUCLAMP_SHORT);
    HOLDS(kudzuclamp_fit_logs(words, words_len, list, 4, 0, one, two, 0) == KUDZUCLAMP_SIZES);
    HOLDS(kudzuclamp_fit_logs(words, words_len, list, 4, 0, one, two, KUDZUCLAMP_MAX_ENTRIES + 1) == KUDZUCLAMP_SIZES);
    HOLDS(kudzuclamp_fit_logs(words, words_len, list, 4, 0, one, two, SIZE_MAX / 2 + 2) == KUDZUCLAMP_SIZES);
    HOLDS(list[0] == 1 && list[1] == 0 && list[2] == 1 && list[3] == 9);
}

static void version(void)
{
    char parts[40];
    sprintf(parts, "%d.%d.%d", KUDZUCLAMP_VERSION_MAJOR, KUDZUCLAMP_VERSION_MINOR, KUDZUCLAMP_VERSION_PATCH);
    HOLDS(strcmp(parts, KUDZUCLAMP_VERSION) == 0);
}

/* "Memory is not wiped": words that fresh does not write keep what was there, and a set that is cleared leaves its rows. */
static void memory(void)
{
    enum { ROWS = 10, BEFORE = 0x5EC2E7 };
    static uint32_t words[KUDZUCLAMP_WORDS(ROWS)], cleared[KUDZUCLAMP_WORDS(ROWS)];
    static const uint8_t bit[] = {0, 2, 1, KUDZUCLAMP_NOW(0)};
    const size_t length = sizeof words / sizeof *words;
    struct kudzuclamp_account account = {UINT32_MAX, UINT32_MAX, 0};
    size_t i, kept = 0;
    uint32_t node, rounds, peak;
    for (i = 0; i < length; i++) {
        words[i] = BEFORE;
    }
    HOLDS(kudzuclamp_fresh(words, length, &account, 1, 2, ROWS) == 0);
    for (i = 0; i < length; i++) {
        kept += words[i] == BEFORE;
    }
    /* fresh writes 256 + N words. */
    HOLDS(kept == 11 * ROWS && length - kept == 256 + ROWS);
    HOLDS(kudzuclamp_fresh(cleared, length, &account, 1, 2, ROWS) == 0);
    memcpy(words, cleared, sizeof words);
    HOLDS(kudzuclamp_set(cleared, length, &account, 1, 0, 0, 0, bit, sizeof bit, &node, &rounds, &peak) == 0);
    HOLDS(kudzuclamp_clear(cleared, length, 0) == 0 && kudzuclamp_collect(cleared, length, &peak) == 0 && peak == 0);
    HOLDS(memcmp(words, cleared, sizeof words) != 0);
}

int main(void)
{
    tokens();
    frames();
    calls();
    games();
    texts();
    memory();
    logs();
    version();
    return failed;
}
