/*
 * A table of decision-diagram rows and a mu-calculus evaluator over it, for switching rules of up to 16 state bits.
 *
 * Link crates/exports/out/libexports.a, which `rt lib` in crates/exports makes (x86-64 Linux), or libkudzuclamp.a, as ./install puts it beside
 * this header. Each of its functions is proved to answer as said here for any words, numbers and bytes; README.md says what the proofs assume.
 * It uses its stack and what it is lent, and keeps no state elsewhere. What is static inline here is not proved.
 *
 * STATES. A room has n state bits. A state is a number 0 to 2^n - 1; bit p has weight 2^p. A relation is a set of pairs of states (now, next).
 *
 * TABLE. The caller lends words; a table of N rows takes the first KUDZUCLAMP_WORDS(N) of them, and later ones are never changed. It has 32
 * registers, each empty or holding a set of states, and 8 relations, each empty or holding a set of pairs. Its words may be copied, stored and
 * lent again. A call on words that are no sound table is refused with KUDZUCLAMP_UNSOUND.
 *
 * MEMORY IS NOT WIPED. fresh writes 256 + N of a table's 256 + 12 N words, and all others keep what the memory held before, until some call needs
 * them; no answer depends on them. Nor does clear, collect or a refusal wipe anything: rows that nothing needs any more, and results that were
 * remembered, stay in the words until others are written over them. So whoever gets the words, by a copy or a file, gets that too.
 * Lend no memory with secrets or with what is not yours to show, and set words to 0 yourself, before fresh, where they are to be handed on.
 *
 * VALID STATES. V is the set of states that exist; after fresh it is every state, and kudzuclamp_valid fixes another one while nothing is filled.
 * In a set's formula true means V, NOT means V without the set, a bit its states in V; nu starts from V, and next states outside V do not exist. A
 * relation holds pairs of states of V. V is kept by every refusal, and its rows count wherever rows are counted.
 *
 * ACCOUNTS. Several callers may share a table under limits of their own. fresh, set and the calls of games are lent a list of 1 to 8
 * accounts; every set names its account by its place in the list, counted from 0, and so do force, which is a set, and react, which only
 * reads the list. An answered fresh sets all tallies to 0; an answered set adds its rounds to its own account's tally and changes nothing
 * else in the list. So, where each call gets the list as the one before left it, a tally counts the rounds of its account's answered sets
 * since fresh. Where nothing is to be limited, one account whose limits are UINT32_MAX is enough.
 *
 * GAMES. A guest and a machine move in turn: the guest presses, by a pair (now, next) of one relation, and the machine reacts, by a pair of
 * another that begins where the press has led to. kudzuclamp_force finds the states from which the machine can force the goal, a set in a
 * register, whatever the guest presses (the goal's attractor in a reachability game); kudzuclamp_react finds what it answers a press with.
 * The goal counts only where the guest is to press: a press that leads through it has not come there. From every state outside the set the
 * guest has a way to stay outside for good, or no move.
 *
 * REFUSALS. Each function returns 0 where it answers, else the number of its refusal. Checks 1 to 7 run in the order of their numbers, 4 to
 * 7 each over the whole formula, and KUDZUCLAMP_VACUOUS (12) so directly after 5; KUDZUCLAMP_OCCUPIED (13) is checked directly after 2,
 * KUDZUCLAMP_UNLISTED (14) directly after 3, in fresh after 1; the work words of kudzuclamp_cheapest (1) are checked directly after 2. Of 8
 * and 9 the one that evaluation meets first is returned; KUDZUCLAMP_NO_RUN (10) and then KUDZUCLAMP_SHORT (11) come after 8,
 * KUDZUCLAMP_NO_ANSWER (15) after 8 and 9. A refused call writes 0 into every answer, and no refusal changes an account or a list of states
 * or relations. KUDZUCLAMP_FULL, KUDZUCLAMP_SPENT, KUDZUCLAMP_NO_RUN, KUDZUCLAMP_SHORT and KUDZUCLAMP_NO_ANSWER keep V, registers,
 * relations and the rows that these need; every other refusal keeps all words.
 *
 * PEAK. Where relation, set and force are answered they also return their peak: the largest number of rows that a step of the call needed,
 * of its result and of all that was live at it, V and what registers and relations hold included; 0 where the formula takes no step. It
 * does not depend on N. Exactly where the peak would pass N, or for a set or force the lesser of N and its account's row limit, the call is
 * refused with KUDZUCLAMP_FULL instead. So to choose N, make the room's calls once on a table that is large enough: the greatest of their
 * peaks is the least N with which the same relation, set and force calls are all answered. valid, shortest, react and logged may be full
 * too, and return no peak. After force the set that it stored is live in react, which may need more rows than force's *peak says; what it
 * needs is the *peak of the same force made once more.
 *
 * STACK. A call takes less than 160 KB of it, and more than 120 KB only on words whose lookup chains are longer than 32 rows (seen: 111 KB, a formula
 * of the greatest depth at n = 16). Where V is not every state and more than 2,048 rows are used, the check of the table takes up to 560 KB (seen: 522
 * KB). kudzuclamp_cheapest takes 59 KB more than this, with all that its search notes (seen: 196 KB on such chains, 581 KB). Measured on the compiled
 * code, not proved.
 *
 * TIME. No contract speaks of it. Every call first checks the whole table: some 50 instructions for each used row, and more where V is not
 * every state (2 ms for 28,736 rows of an ordinary table; 0.6 s for the worst table found, which was made for it). So where many records
 * are at hand, give them to one kudzuclamp_play, which checks once. R and an account's round limit bound the rounds of a set, force or
 * react, and no more than these: a formula without binders has no round, and its steps may still take long in a large table. Nothing but n,
 * N and the number k of moments bounds kudzuclamp_logged, which makes k sets, and k (k - 1) / 2 again to write the run: for 1,024 moments
 * 0.3 to 2 s at n = 16 in ordinary rooms, but a second for each set in the worst one found, which was made for it: 14 s for 6 moments, 56 s
 * for 10, and by that reckoning ten minutes for 32 and six days for 1,024; worse ones may exist (thread times of the proved code,
 * docs/BENCHMARKS.md, "Request 11").
 *
 * POINTERS. A slice is a pointer and its number of elements. No pointer may be null, not even with 0 elements. Words, accounts and lists
 * that are not const, and each answer, must overlap nothing else that is lent to the call, and no other thread may use them meanwhile; nor
 * may one write the rest. Words, accounts and answers are aligned as their types are, to 4 bytes, lists of 16-bit numbers to 2, the work
 * words of kudzuclamp_cheapest and *count of kudzuclamp_play to 8; bytes stand anywhere. So words that come from a byte buffer or a file
 * are copied into an array of uint32_t first.
 */
#ifndef KUDZUCLAMP_H
#define KUDZUCLAMP_H

#include <stddef.h>
#include <stdint.h>

#ifdef __cplusplus
extern "C" {
#endif

/* The version of this header, as a text and in parts. */
#define KUDZUCLAMP_VERSION "0.1.0"
#define KUDZUCLAMP_VERSION_MAJOR 0
#define KUDZUCLAMP_VERSION_MINOR 1
#define KUDZUCLAMP_VERSION_PATCH 0

/* Before a function whose result says whether it answered: the compiler warns where that is not looked at. */
#if defined(__GNUC__)
#define KUDZUCLAMP_USE_RESULT __attribute__((warn_unused_result))
#else
#define KUDZUCLAMP_USE_RESULT
#endif

/* Sizes of a table, and the words that N rows take. */
#define KUDZUCLAMP_MAX_BITS 16
#define KUDZUCLAMP_MAX_ROWS 60000
#define KUDZUCLAMP_REGISTERS 32
#define KUDZUCLAMP_RELATIONS 8
#define KUDZUCLAMP_WORDS(rows) (256 + 12 * (size_t)(rows))

/* The greatest R of a set call, which is also the value that a tally stays at once it would pass it. */
#define KUDZUCLAMP_MAX_ROUNDS UINT32_MAX

/* The longest list of accounts. */
#define KUDZUCLAMP_MAX_ACCOUNTS 8

/* How many states may be asked at once. */
#define KUDZUCLAMP_MAX_STATES 1024

/* The most entries of a log. */
#define KUDZUCLAMP_MAX_ENTRIES 1024

/*
 * An account. A set, force or react under it may need at most the lesser of N and `rows` rows, counted with all that registers and
 * relations keep, and take at most the lesser of R and `rounds` rounds. `tally` counts the rounds of sets and force. Any values may be
 * lent.
 */
struct kudzuclamp_account {
    uint32_t rows;
    uint32_t rounds;
    uint32_t tally;
};

/* An entry of a log: which bits were logged at its moment, and what they were. */
struct kudzuclamp_entry {
    uint16_t mask;
    uint16_t value;
};

/* What a function returns. */
enum kudzuclamp_number {
    KUDZUCLAMP_ANSWERED = 0,
    KUDZUCLAMP_SIZES = 1,     /* fresh: n, N or the number of words out of range; members: too many states, or too short a list; cheapest: not 8
                                 prices, or too few work words; logged: not 1 to 1,024 entries, or not as many in both logs */
    KUDZUCLAMP_UNSOUND = 2,   /* the words are no sound table */
    KUDZUCLAMP_RANGE = 3,     /* register, relation or state number out of range */
    KUDZUCLAMP_SYNTAX = 4,    /* the bytes are no formula for this call */
    KUDZUCLAMP_UNBOUND = 5,   /* a variable is unbound, or bound inside itself */
    KUDZUCLAMP_ODD = 6,       /* a variable is read below an odd number of NOTs */
    KUDZUCLAMP_EMPTY = 7,     /* a register or relation named is empty */
    KUDZUCLAMP_FULL = 8,      /* a step needs more rows than N, or than the account's row limit */
    KUDZUCLAMP_SPENT = 9,     /* the rounds are used up: R's, or the account's */
    KUDZUCLAMP_NO_RUN = 10,   /* there is no run from the one set into the other, or none that fits both logs */
    KUDZUCLAMP_SHORT = 11,    /* a list is too short for the run */
    KUDZUCLAMP_VACUOUS = 12,  /* a binder's variable occurs nowhere free in its body */
    KUDZUCLAMP_OCCUPIED = 13, /* valid: a register or relation is filled */
    KUDZUCLAMP_UNLISTED = 14, /* the list is not 1 to 8 accounts long, or has no account at that place */
    KUDZUCLAMP_NO_ANSWER = 15 /* react: the state is in the goal or outside the set, or the press is no guest move */
};

/* Refusals of kudzuclamp_play itself, before its first call: all words and the list are kept, and *count is 0. */
#define KUDZUCLAMP_PLAY_SHORT 100u      /* the list has fewer than KUDZUCLAMP_PLAY_WORDS words for each record */
#define KUDZUCLAMP_PLAY_UNREADABLE 101u /* a record cannot be read */

/* What a number says, in words for a message. */
static inline const char *kudzuclamp_text(uint32_t number)
{
    switch (number) {
    case KUDZUCLAMP_ANSWERED:
        return "answered";
    case KUDZUCLAMP_SIZES:
        return "a number of bits, rows, states, prices or entries is out of range, logs are unequal, or there are too few words or places";
    case KUDZUCLAMP_UNSOUND:
        return "the words are no sound table";
    case KUDZUCLAMP_RANGE:
        return "a register, relation or state number is out of range";
    case KUDZUCLAMP_SYNTAX:
        return "the bytes are no formula for this call";
    case KUDZUCLAMP_UNBOUND:
        return "a variable is unbound, or bound inside itself";
    case KUDZUCLAMP_ODD:
        return "a variable is read below an odd number of NOTs";
    case KUDZUCLAMP_EMPTY:
        return "a register or relation named is empty";
    case KUDZUCLAMP_FULL:
        return "a step needs more rows than the table has or the account may use";
    case KUDZUCLAMP_SPENT:
        return "the rounds are used up";
    case KUDZUCLAMP_NO_RUN:
        return "there is no such run";
    case KUDZUCLAMP_SHORT:
        return "a list is too short for the run";
    case KUDZUCLAMP_VACUOUS:
        return "a binder's variable occurs nowhere free in its body";
    case KUDZUCLAMP_OCCUPIED:
        return "a register or relation is filled";
    case KUDZUCLAMP_UNLISTED:
        return "the list is not 1 to 8 accounts long, or has no account at that place";
    case KUDZUCLAMP_NO_ANSWER:
        return "the state is in the goal or outside the set, or the press is no guest move";
    case KUDZUCLAMP_PLAY_SHORT:
        return "the list is too short for the records";
    case KUDZUCLAMP_PLAY_UNREADABLE:
        return "a record cannot be read";
    default:
        return "a number that this library does not give";
    }
}

/*
 * FORMULA BYTES. Two length bytes L, big-endian, from 2 to 1,024; then L bytes: the version, then one formula in prefix order, which fills
 * them. A formula is at most 64 deep. Version 1 has the words below without until; version 2, which only set calls take, has all of them.
 *
 *   00, 01          false, true
 *   02 f            NOT
 *   03 f g, 04 f g  AND, OR
 *   10 + p          current bit p, p < n
 *   20 + p          next bit p, p < n; relation calls only
 *   30 + P          variable P, 0 to 15
 *   40 + r          the set in register r, 0 to 31
 *   60 + t f        box: f in every next state of relation t, 0 to 7
 *   68 + t f        diamond: f in some next state of relation t
 *   70 + P f        mu P: the least set A with f(A) = A
 *   80 + P f        nu P: the greatest such set
 *   90 + t f g      until, version 2 only: some run of relation t passes
 *   98 + t f g      until, version 2 only: every run of relation t passes
 *
 * The numbers before + are hexadecimal. Relation calls take 00 to 04, current bits and next bits only. Each variable is read below an even number
 * of NOTs, counted from its binder, and each binder's variable stands somewhere in its body.
 *
 * UNTIL. A run from a state is a list of states that begins with it, each a next state of the one before; it has 2^n steps, or fewer and ends where
 * no next state exists. It passes where g holds somewhere on it, and f everywhere before the first such place; f need not hold at that place. So
 * "the microphone stays closed until the song starts", with bit 0 the open microphone and bit 1 the song, is 00 05 02 98 02 10 11. The rounds are
 * those of mu X (g or (f and diamond X)), and for every run of mu X (g or (f and (box X and diamond true))); X is none of the 16 variables.
 */

/* The bytes by name, for an array of them. A number that has no byte gives 0xFF, which every call refuses with KUDZUCLAMP_SYNTAX. */
#define KUDZUCLAMP_TOKEN(first, count, k) ((uint8_t)((size_t)(k) < (size_t)(count) ? (size_t)(first) + (size_t)(k) : 0xFFu))
#define KUDZUCLAMP_FALSE 0x00
#define KUDZUCLAMP_TRUE 0x01
#define KUDZUCLAMP_NOT 0x02
#define KUDZUCLAMP_AND 0x03
#define KUDZUCLAMP_OR 0x04
#define KUDZUCLAMP_NOW(p) KUDZUCLAMP_TOKEN(0x10, 16, p)
#define KUDZUCLAMP_NEXT(p) KUDZUCLAMP_TOKEN(0x20, 16, p)
#define KUDZUCLAMP_VARIABLE(p) KUDZUCLAMP_TOKEN(0x30, 16, p)
#define KUDZUCLAMP_REGISTER(r) KUDZUCLAMP_TOKEN(0x40, KUDZUCLAMP_REGISTERS, r)
#define KUDZUCLAMP_BOX(t) KUDZUCLAMP_TOKEN(0x60, KUDZUCLAMP_RELATIONS, t)
#define KUDZUCLAMP_DIAMOND(t) KUDZUCLAMP_TOKEN(0x68, KUDZUCLAMP_RELATIONS, t)
#define KUDZUCLAMP_MU(p) KUDZUCLAMP_TOKEN(0x70, 16, p)
#define KUDZUCLAMP_NU(p) KUDZUCLAMP_TOKEN(0x80, 16, p)
#define KUDZUCLAMP_UNTIL_SOME(t) KUDZUCLAMP_TOKEN(0x90, KUDZUCLAMP_RELATIONS, t)
#define KUDZUCLAMP_UNTIL_EVERY(t) KUDZUCLAMP_TOKEN(0x98, KUDZUCLAMP_RELATIONS, t)

/* The nine bytes that say of a press: bit p keeps its value, or turns over. */
#define KUDZUCLAMP_KEEPS(p)                                                                                                                  \
    KUDZUCLAMP_OR, KUDZUCLAMP_AND, KUDZUCLAMP_NEXT(p), KUDZUCLAMP_NOW(p), KUDZUCLAMP_AND, KUDZUCLAMP_NOT, KUDZUCLAMP_NEXT(p), KUDZUCLAMP_NOT, \
        KUDZUCLAMP_NOW(p)
#define KUDZUCLAMP_TURNS(p)                                                                                                                  \
    KUDZUCLAMP_OR, KUDZUCLAMP_AND, KUDZUCLAMP_NEXT(p), KUDZUCLAMP_NOT, KUDZUCLAMP_NOW(p), KUDZUCLAMP_AND, KUDZUCLAMP_NOT, KUDZUCLAMP_NEXT(p), \
        KUDZUCLAMP_NOW(p)

/* The most bytes of a formula, and the bytes that a formula of so many takes with its frame. */
#define KUDZUCLAMP_MAX_FORMULA 1023
#define KUDZUCLAMP_FRAMED(formula_len) (3 + (size_t)(formula_len))

/*
 * Puts a formula into its frame: writes its length, its version (2 where it has until, else 1) and its bytes. Returns how many bytes these are,
 * KUDZUCLAMP_FRAMED(formula_len). Where the formula is empty or longer than KUDZUCLAMP_MAX_FORMULA, or they do not fit into bytes_len, it writes
 * nothing and returns 0; a call with 0 bytes is refused with KUDZUCLAMP_SYNTAX. Only the length is looked at: kudzuclamp_check tells the rest.
 */
KUDZUCLAMP_USE_RESULT
static inline size_t kudzuclamp_frame(uint8_t *bytes, size_t bytes_len, const uint8_t *formula, size_t formula_len)
{
    size_t i;
    if (formula_len == 0 || formula_len > KUDZUCLAMP_MAX_FORMULA || bytes_len < KUDZUCLAMP_FRAMED(formula_len)) {
        return 0;
    }
    bytes[0] = (uint8_t)((formula_len + 1) / 256);
    bytes[1] = (uint8_t)((formula_len + 1) % 256);
    bytes[2] = 1;
    for (i = 0; i < formula_len; i++) {
        bytes[3 + i] = formula[i];
        if (formula[i] >= 0x90 && formula[i] <= 0x9F) {
            bytes[2] = 2;
        }
    }
    return KUDZUCLAMP_FRAMED(formula_len);
}

/*
 * Makes an empty table of n bits (1 to 16) and `rows` rows (1 to 60,000) of any words, at least KUDZUCLAMP_WORDS(rows), and sets the tallies of
 * all accounts lent to 0. It returns 0, KUDZUCLAMP_SIZES or KUDZUCLAMP_UNLISTED.
 */
KUDZUCLAMP_USE_RESULT
uint32_t kudzuclamp_fresh(uint32_t *words, size_t words_len, struct kudzuclamp_account *accounts, size_t accounts_len, uint32_t n,
                          uint32_t rows);

/*
 * V, the states that exist, are then exactly those in which the formula holds, read over all states. The formula has version 1 and only the words
 * 00 to 04 and 10 to 1F. It returns 0, 2, KUDZUCLAMP_OCCUPIED, 4 or 8.
 */
KUDZUCLAMP_USE_RESULT
uint32_t kudzuclamp_valid(uint32_t *words, size_t words_len, const uint8_t *bytes, size_t bytes_len);

/*
 * Relation t (0 to 7) then holds exactly the pairs of states of V in which the formula holds. *peak is the call's peak. It returns 0, 2, 3, 4 or 8.
 */
KUDZUCLAMP_USE_RESULT
uint32_t kudzuclamp_relation(uint32_t *words, size_t words_len, uint32_t t, const uint8_t *bytes, size_t bytes_len, uint32_t *peak);

/*
 * Register r (0 to 31) then holds exactly the states of V in which the formula holds, found under the limits of the account at `place` (0 to
 * accounts_len - 1), whose tally grows by the rounds made. Each evaluation of a binder's body is one round, and so is one of until's f and g; a
 * round beyond `most` (R) or beyond the account's round limit is refused. With one binder or until in the formula 2^n + 1 rounds are enough.
 * *node is the set's node number: two registers hold the same set exactly where their node numbers are equal; 0 is no state, 1 is all 2^n states.
 * *rounds is how many rounds were made, and *peak the call's peak. It returns 0, 2 to 9, KUDZUCLAMP_VACUOUS or KUDZUCLAMP_UNLISTED.
 */
KUDZUCLAMP_USE_RESULT
uint32_t kudzuclamp_set(uint32_t *words, size_t words_len, struct kudzuclamp_account *accounts, size_t accounts_len, uint32_t place, uint32_t r,
                        uint32_t most, const uint8_t *bytes, size_t bytes_len, uint32_t *node, uint32_t *rounds, uint32_t *peak);

/*
 * Empties register r; an empty one stays so. It returns 0, 2 or 3.
 */
KUDZUCLAMP_USE_RESULT
uint32_t kudzuclamp_clear(uint32_t *words, size_t words_len, uint32_t r);

/*
 * Frees the rows that V, registers and relations do not need. *rows is how many are needed. It returns 0 or 2.
 */
KUDZUCLAMP_USE_RESULT
uint32_t kudzuclamp_collect(uint32_t *words, size_t words_len, uint32_t *rows);

/*
 * *node is the node number in register r, as the call that last set it gave it. It returns 0, 2, 3 or 7.
 */
KUDZUCLAMP_USE_RESULT
uint32_t kudzuclamp_node(const uint32_t *words, size_t words_len, uint32_t r, uint32_t *node);

/*
 * *value is 1 where the set in register r has state s (0 to 2^n - 1), else 0. It returns 0, 2, 3 or 7.
 */
KUDZUCLAMP_USE_RESULT
uint32_t kudzuclamp_member(const uint32_t *words, size_t words_len, uint32_t r, uint32_t s, uint32_t *value);

/*
 * Asks of up to KUDZUCLAMP_MAX_STATES states at once which of them the set in register r has; they may repeat, and there may be none. answers[i]
 * becomes 1 where it has states[i], else 0. `order` is lent for the work: its first states_len entries end as the numbers 0 to states_len - 1 in
 * some order. Both lists are at least as long as the states; what they have beyond is never changed. *reads is how many rows were read: a row
 * counts once for all states whose bits, as far as the rows on the way asked for them, are the same. So it is never above the sum over the same
 * states asked one by one. It returns 0, 1, 2, 3 or 7; a refusal keeps both lists.
 */
KUDZUCLAMP_USE_RESULT
uint32_t kudzuclamp_members(const uint32_t *words, size_t words_len, uint32_t r, const uint16_t *states, size_t states_len, uint16_t *order,
                            size_t order_len, uint8_t *answers, size_t answers_len, uint32_t *reads);

/*
 * *value is how many states the set in register r has, 0 to 2^n. It returns 0, 2, 3 or 7.
 */
KUDZUCLAMP_USE_RESULT
uint32_t kudzuclamp_count(const uint32_t *words, size_t words_len, uint32_t r, uint32_t *value);

/*
 * Writes the states of a shortest run from the set in register a into the set in register b over relation t to the first places of the list: the
 * first state is the least one of a at the shortest distance, each next one the least that still lies on a shortest run. *states is how many they
 * are, at most 2^n; 1 where the sets share a state. Later places are never written, and none where the call is refused. No register or relation
 * changes. A step may need at most N rows, of the last layer of states by their distance, of the next one's steps and of what registers and
 * relations hold. It returns 0, 2, 3, 7, 8, KUDZUCLAMP_NO_RUN or KUDZUCLAMP_SHORT.
 */
KUDZUCLAMP_USE_RESULT
uint32_t kudzuclamp_shortest(uint32_t *words, size_t words_len, uint16_t *list, size_t list_len, uint32_t a, uint32_t b, uint32_t t, uint32_t *states);

/*
 * Writes the states of a cheapest run from the set in register a into the set in register b over any mix of filled relations, and the relation of
 * each step, to the first places of the two lists. A step of relation r costs prices[r] credits; there are 8 prices. No run from a into b costs
 * fewer credits, and of those that cost as many none has fewer states; which of the runs that are left is written is free. *total is its credits;
 * *charge its coins, one for every ten credits begun; *count how many states it has, at most 2^n, and 1 where the sets share a state. The relations
 * are one fewer than the states. Later places of both lists are never written, and none where the call is refused. `work` is lent for the search, at
 * least 2^n numbers of 64 bits; what the first 2^n hold afterwards is free, but 1, 2, 3 and 7 keep them, and later ones are never written. The table is
 * only read, and no row is made. It returns 0, 1 where there are not 8 prices, 2, 1 where there are too few work words, 3, 7, KUDZUCLAMP_NO_RUN, or
 * KUDZUCLAMP_SHORT where one of the lists is too short.
 * At n = 16 a room of presses takes 1 ms and a run of all states 23 ms; relations that lead from most states to many others took up to 0.12 s. The
 * worst found, relations that were made for it beside a counter, take up to 3 s for one and 13 s for seven (docs/BENCHMARKS.md); worse ones may
 * exist. No limit of rounds bounds it.
 */
KUDZUCLAMP_USE_RESULT
uint32_t kudzuclamp_cheapest(const uint32_t *words, size_t words_len, const uint8_t *prices, size_t prices_len, uint64_t *work, size_t work_len,
                             uint16_t *states, size_t states_len, uint8_t *relations, size_t relations_len, uint32_t a, uint32_t b,
                             uint32_t *total, uint32_t *charge, uint32_t *count);

/*
 * Register r then holds the states from which the machine can force the goal: those of the set in register `goal`, and those where the
 * guest has a move of relation `guest` and after every such move some move of relation `machine` leads back into the set; the least such
 * set. So from each of them the machine can come to the goal, whatever the guest presses. A state outside the goal where the guest has no
 * move, or a move after which the machine has none, is not one of them. It is a set call: `place`, `most` (R), the tally, *node, *rounds
 * and *peak are those of kudzuclamp_set on the formula mu P (goal or (box guest of diamond machine of P, and diamond guest of true)),
 *
 *   KUDZUCLAMP_MU(0), KUDZUCLAMP_OR, KUDZUCLAMP_REGISTER(goal), KUDZUCLAMP_AND, KUDZUCLAMP_BOX(guest), KUDZUCLAMP_DIAMOND(machine),
 *   KUDZUCLAMP_VARIABLE(0), KUDZUCLAMP_DIAMOND(guest), KUDZUCLAMP_TRUE
 *
 * so that 2^n + 1 rounds are enough. One relation may be both sides'. r may be `goal`: then the set takes the goal's place, and
 * kudzuclamp_react about it gives KUDZUCLAMP_NO_ANSWER for every press. It returns 0, 2, 3 (r, goal, guest or machine),
 * KUDZUCLAMP_UNLISTED, 7, 8 or 9.
 */
KUDZUCLAMP_USE_RESULT
uint32_t kudzuclamp_force(uint32_t *words, size_t words_len, struct kudzuclamp_account *accounts, size_t accounts_len, uint32_t place,
                          uint32_t r, uint32_t most, uint32_t goal, uint32_t guest, uint32_t machine, uint32_t *node, uint32_t *rounds,
                          uint32_t *peak);

/*
 * *answer is the state to which the machine moves after the guest, in `state`, has pressed; `press` is the state that the press has led to.
 * The rounds of kudzuclamp_force are made again, whether or not it was called: each state of its set enters in one of them, those of the
 * goal in the first. The answer is the least state to which a move of relation `machine` leads from `press` and which enters in an earlier
 * round than `state`. So whoever answers so, press by press, comes to the goal in fewer turns than the round in which the play's first
 * state enters. Nothing is stored, no tally grows, and the accounts are only read: the limits of the one at `place` and `most` (R) hold as
 * for kudzuclamp_force, for the last round too, which gives the same set again. It takes as long as that call, and where there is an
 * answer the states up to it are looked at besides (some 15 ms at n = 16 in the slowest game found). It returns 0, 2, 3 (goal, guest,
 * machine, state or press), KUDZUCLAMP_UNLISTED, 7, 8, 9, or KUDZUCLAMP_NO_ANSWER where the state is in the goal or outside the set, or the
 * press is no guest move from it.
 */
KUDZUCLAMP_USE_RESULT
uint32_t kudzuclamp_react(uint32_t *words, size_t words_len, const struct kudzuclamp_account *accounts, size_t accounts_len, uint32_t place,
                          uint32_t most, uint32_t goal, uint32_t guest, uint32_t machine, uint32_t state, uint32_t press,
                          uint32_t *answer);

/*
 * Writes the states of a run of relation t that fits two logs to the first places of the list: of all such runs the one with the least
 * first state, then the least second one, and so on. Both logs have k entries, 1 to 1,024; entry i of both is for state i of the run, and
 * all its states exist (kudzuclamp_valid). An entry is a mask and a value, and a state fits it where (state & mask) == value: so a value
 * with a bit outside its mask, or with a bit n or above, fits no state, and a mask of 0 with value 0 every state. A log is lent as 2 k
 * numbers, mask and value of each entry in turn; kudzuclamp_fit_logs lends arrays of struct kudzuclamp_entry so. Places after the first k
 * are never written, and none where the call is refused. No register or relation changes. A step may need at most N rows, of the set of one
 * moment, of the steps of the moment before it and of what registers, relations and the set of existing states hold; the sets of all k
 * moments are made before 10 is decided, also where one of them is empty. It returns 0, 1 (lengths 0, odd, above 2,048 or unequal, checked
 * before 2), 2, 3, 7, 8, KUDZUCLAMP_NO_RUN or KUDZUCLAMP_SHORT (fewer than k places, decided after 10). TIME says how long it may take.
 */
KUDZUCLAMP_USE_RESULT
uint32_t kudzuclamp_logged(uint32_t *words, size_t words_len, uint16_t *list, size_t list_len, uint32_t t, const uint16_t *one,
                           size_t one_len, const uint16_t *two, size_t two_len);

/* kudzuclamp_logged over two arrays of k entries. */
KUDZUCLAMP_USE_RESULT
static inline uint32_t kudzuclamp_fit_logs(uint32_t *words, size_t words_len, uint16_t *list, size_t list_len, uint32_t t,
                                           const struct kudzuclamp_entry *one, const struct kudzuclamp_entry *two, size_t k)
{
    const size_t len = k > KUDZUCLAMP_MAX_ENTRIES ? 0 : 2 * k;
    return kudzuclamp_logged(words, words_len, list, list_len, t, (const uint16_t *)one, len, (const uint16_t *)two, len);
}

/*
 * Checks formula bytes for a set call, or for a relation call where `relation` is not 0, and takes no step. It returns 2, or the number of 4 to 7
 * or 12 that the call's own checks of the formula give, or 0.
 */
KUDZUCLAMP_USE_RESULT
uint32_t kudzuclamp_check(const uint32_t *words, size_t words_len, uint32_t relation, const uint8_t *bytes, size_t bytes_len);

/* The words of a record in kudzuclamp_play's list. */
#define KUDZUCLAMP_PLAY_WORDS 5

/*
 * Plays the calls of all records in `bytes`, in the format of the program `roomrules` (two-byte length, version 1, an operation, its arguments), one
 * after the other; sets are made under one account with the largest limits. Record k, counted from 0, leaves five words in the list from 5k on: its
 * refusal's number or 0, the node number of an answered set, the rounds of an answered set, the value that roomrules prints, and the peak of an answered
 * relation or set; what a record has not is 0. *count is how many records there were. It returns 0, also where calls among the records are refused, or
 * KUDZUCLAMP_PLAY_SHORT or KUDZUCLAMP_PLAY_UNREADABLE.
 */
KUDZUCLAMP_USE_RESULT
uint32_t kudzuclamp_play(uint32_t *words, size_t words_len, const uint8_t *bytes, size_t bytes_len, uint32_t *list, size_t list_len, size_t *count);

#ifdef __cplusplus
}
#endif

#endif
