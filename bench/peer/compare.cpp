// compare NAME=LIST ...: each list through the library and through BuDDy, in turns, at several sizes of the table. Prints the least thread time of each and
// their ratios; a difference in any answer (refusals, rounds, states) is an error.
#include "list.h"
#include <algorithm>
#include <cstdio>
#include <cstdlib>
#include <map>

static const u64 ENOUGH = 60000000; // nanoseconds of the library at one size
static const int LEAST_TURNS = 3, MOST_TURNS = 200;
static const u64 NEVER = ~0ull;

// Stops with an error where two runs answered differently.
static void same(const std::string &name, u32 rows, const Run &own, const Run &other) {
    if (own.answers == other.answers) return;
    size_t k = 0;
    while (k < own.answers.size() && k < other.answers.size() && own.answers[k] == other.answers[k]) k++;
    fprintf(stderr, "%s with %u rows: call %zu is answered differently\n", name.c_str(), rows, k / 2);
    exit(1);
}

struct Least {
    u64 own = NEVER, again = NEVER, buddy[WAYS] = {NEVER, NEVER, NEVER, NEVER, NEVER};
    u32 cache = 0, collections = 0;
};

// The sizes of BuDDy's caches that are tried: the fastest one counts, for each way by itself. Emptying a cache costs by its size, so that forgetting
// is tried with small ones too, whatever the rows.
static std::vector<u32> caches(u32 rows, Way way) {
    std::vector<u32> sizes = {std::max(rows / 64, 50u), std::max(rows / 16, 50u), std::max(rows / 4, 50u), std::max(rows, 50u)};
    if (way == FORGETTING) sizes.insert(sizes.end(), {64, 512});
    return sizes;
}

// Two runs in a row, since BuDDy's runs follow each other too: the second finds its code in the processor's caches. The time of both.
static u64 twice(const List &list, u32 rows, u64 &best) {
    u64 first = run_own(list, rows, false).ns, second = run_own(list, rows, false).ns;
    best = std::min({best, first, second});
    return first + second;
}

static Least measure(const std::string &name, const List &list, u32 rows) {
    Run own = run_own(list, rows, true);
    if (own.failed) { fprintf(stderr, "%s with %u rows: refused\n", name.c_str(), rows); exit(1); }
    std::map<std::pair<u32, Way>, bool> works;
    for (Way way : {STEPS, COUNTING, FORGETTING, AT_ONCE, FUSED})
        for (u32 cache : caches(rows, way)) {
            Run other = run_buddy(list, rows, cache, way, true);
            works[{cache, way}] = !other.failed;
            if (!other.failed) same(name, rows, own, other);
        }
    Least least;
    u64 spent = 0;
    for (int turn = 0; turn < LEAST_TURNS || (turn < MOST_TURNS && spent < ENOUGH); turn++) {
        spent += twice(list, rows, least.own);
        size_t done = 0;
        for (auto &[key, fits] : works) {
            if (++done == works.size() / 2) twice(list, rows, least.again);
            if (!fits) continue;
            Run run = run_buddy(list, rows, key.first, key.second, false);
            u64 &best = least.buddy[key.second];
            if (run.ns < best) {
                best = run.ns;
                if (key.second == STEPS) least.cache = key.first, least.collections = run.collections;
            }
        }
    }
    return least;
}

static void print_ratio(u64 own, u64 other) {
    if (other == NEVER) printf(" out of nodes |");
    else printf(" %.2f |", (double)own / other);
}

int main(int count, char **argv) {
    printf("| workload | rows | of the need | own, ms | BuDDy same steps, ms | own ÷ same steps | own ÷ counting | own ÷ forgetting | own ÷ at once | own ÷ fused | BuDDy's cache, collections |\n");
    printf("|---|--:|--:|--:|--:|--:|--:|--:|--:|--:|--:|\n");
    int slower = 0, slower_counting = 0, slower_forgetting = 0, slower_at_once = 0, compared = 0;
    double worst = 0, worst_counting = 0, low = 1, high = 1;
    for (int k = 1; k < count; k++) {
        std::string word = argv[k], name = word.substr(0, word.find('=')), path = word.substr(word.find('=') + 1);
        List list = read_list(path);
        for (auto &[times, rows] : sizes(needed(list))) {
            Least l = measure(name, list, rows);
            printf("| %s | %u | %s | %.3f |", name.c_str(), rows, times.c_str(), l.own / 1e6);
            low = std::min(low, (double)l.own / l.again);
            high = std::max(high, (double)l.own / l.again);
            u64 steps = l.buddy[STEPS];
            if (steps == NEVER) printf(" - |"); else printf(" %.3f |", steps / 1e6);
            for (u64 other : l.buddy) print_ratio(l.own, other);
            if (steps == NEVER) printf(" - |\n"); else printf(" %u, %u |\n", l.cache, l.collections);
            fflush(stdout);
            if (times == "1 ×" || steps == NEVER) continue;
            compared++;
            slower += l.own > steps;
            slower_counting += l.own > l.buddy[COUNTING];
            worst_counting = std::max(worst_counting, (double)l.own / l.buddy[COUNTING]);
            slower_forgetting += l.own > l.buddy[FORGETTING];
            slower_at_once += l.own > l.buddy[AT_ONCE];
            worst = std::max(worst, (double)l.own / steps);
        }
    }
    printf("\nSlower than BuDDy on the same steps at 2 ×, 10 × and all rows: %d of %d, worst ratio %.2f; where BuDDy counts at each step too: %d, worst ratio %.2f; where it forgets at each call: %d; where it takes all EXISTS of a diamond at once: %d.\n", slower, compared, worst, slower_counting, worst_counting, slower_forgetting, slower_at_once);
    printf("Control, the library against itself in the same turns: %.2f to %.2f.\n", low, high);
}
