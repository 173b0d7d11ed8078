/* How much stack a call takes, as the header says under STACK: a thread's stack is painted, and what is no longer paint was used. */
#include <kudzuclamp.h>
#include <pthread.h>
#include <stdio.h>
#include <stdlib.h>
#include <string.h>

#define ROWS 60000
#define PAINT 0xA5
#define SIZE (4u << 20)
#define STATES 65536u
#define NOTES 59000

static uint32_t words[KUDZUCLAMP_WORDS(ROWS)];

static uint64_t work[STATES];
static uint16_t states[STATES];
static uint8_t relations[STATES];

/* A call that checks the table. */
static void *node(void *number)
{
    uint32_t node;
    *(uint32_t *)number = kudzuclamp_node(words, KUDZUCLAMP_WORDS(ROWS), 0, &node);
    return NULL;
}

/* A cheapest run. */
static void *cheapest(void *number)
{
    const uint8_t prices[KUDZUCLAMP_RELATIONS] = {1, 2, 3, 4, 5, 6, 7, 8};
    uint32_t total, charge, count;
    *(uint32_t *)number = kudzuclamp_cheapest(words, KUDZUCLAMP_WORDS(ROWS), prices, sizeof prices, work, STATES, states, STATES, relations, STATES, 0, 1,
                                              &total, &charge, &count);
    return NULL;
}

static struct kudzuclamp_account wide = {UINT32_MAX, UINT32_MAX, 0};

/* The states from which a goal can be forced. */
static void *force(void *number)
{
    uint32_t node, rounds, peak;
    *(uint32_t *)number = kudzuclamp_force(words, KUDZUCLAMP_WORDS(ROWS), &wide, 1, 0, 2, UINT32_MAX, 1, 0, 0, &node, &rounds, &peak);
    return NULL;
}

/* The answer to a press that leads nowhere else. */
static void *react(void *number)
{
    uint32_t answer;
    *(uint32_t *)number = kudzuclamp_react(words, KUDZUCLAMP_WORDS(ROWS), &wide, 1, 0, UINT32_MAX, 1, 0, 0, 0, 0, &answer);
    return NULL;
}

static uint16_t nothing[2 * KUDZUCLAMP_MAX_ENTRIES];

/* A run of a hundred states of which nothing was logged. */
static void *logged(void *number)
{
    *(uint32_t *)number = kudzuclamp_logged(words, KUDZUCLAMP_WORDS(ROWS), states, STATES, 0, nothing, 200, nothing, 200);
    return NULL;
}

/* The bytes of stack that a call takes; 0 where it is refused, but by 7 or 10, which a cheapest run gives after the check. */
static size_t used_stack(void *(*call)(void *))
{
    void *stack;
    pthread_attr_t attributes;
    pthread_t thread;
    uint32_t number = KUDZUCLAMP_UNSOUND;
    size_t at = 0;
    if (posix_memalign(&stack, 4096, SIZE) != 0)
        return 0;
    memset(stack, PAINT, SIZE);
    if (pthread_attr_init(&attributes) != 0 || pthread_attr_setstack(&attributes, stack, SIZE) != 0 ||
        pthread_create(&thread, &attributes, call, &number) != 0 || pthread_join(thread, NULL) != 0)
        return 0;
    while (at < SIZE && ((unsigned char *)stack)[at] == PAINT)
        at++;
    free(stack);
    return number == 0 || number == KUDZUCLAMP_EMPTY || number == KUDZUCLAMP_NO_RUN ? SIZE - at : 0;
}

/* A formula of 2^depth bits, none of whose diagrams is small. */
static size_t grown(uint8_t *formula, size_t at, int depth, uint32_t *seed)
{
    *seed = *seed * 1664525u + 1013904223u;
    if (depth == 0) {
        formula[at] = KUDZUCLAMP_NOW(*seed >> 28);
        return at + 1;
    }
    if ((*seed >> 27) % 4 == 0)
        formula[at++] = KUDZUCLAMP_NOT;
    formula[at++] = (*seed >> 26) % 2 ? KUDZUCLAMP_AND : KUDZUCLAMP_OR;
    at = grown(formula, at, depth - 1, seed);
    return grown(formula, at, depth - 1, seed);
}

/* Fills registers until more than so many rows are needed; the rows needed, 0 where a call is refused. */
static uint32_t filled(struct kudzuclamp_account *account, uint32_t rows)
{
    uint8_t formula[KUDZUCLAMP_MAX_FORMULA], framed[KUDZUCLAMP_FRAMED(KUDZUCLAMP_MAX_FORMULA)];
    uint32_t seed = 1, r, needed = 0, node, rounds, peak;
    for (r = 0; r < KUDZUCLAMP_REGISTERS && needed <= rows; r++) {
        size_t size = kudzuclamp_frame(framed, sizeof framed, formula, grown(formula, 0, 7, &seed));
        if (kudzuclamp_set(words, KUDZUCLAMP_WORDS(ROWS), account, 1, 0, r, UINT32_MAX, framed, size, &node, &rounds, &peak) != 0 ||
            kudzuclamp_collect(words, KUDZUCLAMP_WORDS(ROWS), &needed) != 0)
            return 0;
    }
    return needed > rows ? needed : 0;
}

/* Whether both calls take less than so many bytes of stack on the words as they are, a cheapest run with what its search notes. */
static int within(const char *name, size_t most)
{
    size_t used = used_stack(node), run = used_stack(cheapest);
    printf("%s: %lu bytes of stack, a cheapest run %lu\n", name, (unsigned long)used, (unsigned long)run);
    return used != 0 && used < most && run != 0 && run < most + NOTES;
}

/* Makes one lookup chain of all rows, at which every bucket begins. */
static void chain(void)
{
    uint32_t *list = words + 256 + 8 * ROWS, *heads = list + ROWS, used = words[3], k;
    for (k = 0; k < used; k++)
        words[256 + 8 * list[k] + 3] = k == 0 ? 0 : list[k - 1] + 1;
    for (k = 0; k < ROWS; k++)
        heads[k] = used == 0 ? 0 : list[used - 1] + 1;
}

/* Whether a table of more than so many used rows, with the states of a formula, is checked in less than so many bytes, and so with one chain. */
static int checked(const uint8_t *valid, size_t valid_len, uint32_t rows, size_t most)
{
    struct kudzuclamp_account account = {UINT32_MAX, UINT32_MAX, 0};
    uint8_t framed[10];
    size_t size = kudzuclamp_frame(framed, sizeof framed, valid, valid_len);
    if (kudzuclamp_fresh(words, KUDZUCLAMP_WORDS(ROWS), &account, 1, 16, ROWS) != 0 ||
        kudzuclamp_valid(words, KUDZUCLAMP_WORDS(ROWS), framed, size) != 0 || filled(&account, rows) == 0)
        return 0;
    printf("more than %lu rows, ", (unsigned long)rows);
    if (!within("made by calls", most))
        return 0;
    chain();
    return within("in one chain", most);
}

/* The AND over all bits of a formula's pattern, whose bits are made those of p; framed. */
static size_t all_bits(uint8_t *framed, size_t framed_len, const uint8_t *pattern, size_t pattern_len)
{
    uint8_t formula[KUDZUCLAMP_MAX_FORMULA];
    size_t at = 0, i;
    uint32_t p;
    for (p = 0; p < 16; p++) {
        if (p < 15)
            formula[at++] = KUDZUCLAMP_AND;
        for (i = 0; i < pattern_len; i++)
            formula[at++] = (uint8_t)(pattern[i] >= KUDZUCLAMP_NOW(0) ? pattern[i] + p : pattern[i]);
    }
    return kudzuclamp_frame(framed, framed_len, formula, at);
}

/* Whether a cheapest run from the state with no bit on to that with all takes less than so many bytes, and a game over the same relation,
   for both sides, with all bits on as its goal, and a run of it that fits two logs. In that relation bits only turn on, and it has a row on
   every level. */
static int searched(size_t most)
{
    static const uint8_t rising[] = {KUDZUCLAMP_OR, KUDZUCLAMP_NOT, KUDZUCLAMP_NOW(0), KUDZUCLAMP_NEXT(0)};
    static const uint8_t off[] = {KUDZUCLAMP_NOT, KUDZUCLAMP_NOW(0)}, on[] = {KUDZUCLAMP_NOW(0)};
    struct kudzuclamp_account account = {UINT32_MAX, UINT32_MAX, 0};
    uint8_t framed[KUDZUCLAMP_FRAMED(KUDZUCLAMP_MAX_FORMULA)];
    uint32_t node, rounds, peak;
    size_t used, forced, reacted, fitted;
    if (kudzuclamp_fresh(words, KUDZUCLAMP_WORDS(ROWS), &account, 1, 16, ROWS) != 0 ||
        kudzuclamp_relation(words, KUDZUCLAMP_WORDS(ROWS), 0, framed, all_bits(framed, sizeof framed, rising, sizeof rising), &peak) != 0 ||
        kudzuclamp_set(words, KUDZUCLAMP_WORDS(ROWS), &account, 1, 0, 0, 0, framed, all_bits(framed, sizeof framed, off, sizeof off), &node, &rounds,
                       &peak) != 0 ||
        kudzuclamp_set(words, KUDZUCLAMP_WORDS(ROWS), &account, 1, 0, 1, 0, framed, all_bits(framed, sizeof framed, on, sizeof on), &node, &rounds,
                       &peak) != 0)
        return 0;
    used = used_stack(cheapest);
    forced = used_stack(force);
    reacted = used_stack(react);
    fitted = used_stack(logged);
    printf("a cheapest run: %lu bytes of stack; force: %lu; react: %lu; logged: %lu\n", (unsigned long)used, (unsigned long)forced,
           (unsigned long)reacted, (unsigned long)fitted);
    return used != 0 && used < most && forced != 0 && forced < most && reacted != 0 && reacted < most && fitted != 0 && fitted < most;
}

int main(void)
{
    const uint8_t every[] = {KUDZUCLAMP_TRUE};
    const uint8_t part[] = {KUDZUCLAMP_NOT, KUDZUCLAMP_AND, KUDZUCLAMP_NOW(0), KUDZUCLAMP_NOW(15)};
    return checked(every, sizeof every, 0, 160000) && checked(every, sizeof every, 2048, 160000) && checked(part, sizeof part, 0, 160000) &&
                   checked(part, sizeof part, 2048, 560000) && searched(160000)
               ? 0
               : 1;
}
