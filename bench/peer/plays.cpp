// plays NAME=LIST ...: each list call by call and as one play, in turns, at several sizes of the table: least thread times. Play counts the states of each answered
// set, so calls with such a count stand beside it. A difference in any answer or peak is an error.
#include "list.h"
#include <algorithm>
#include <cstdio>
#include <cstdlib>

static const int TURNS = 200;

static void same(const char *name, u32 rows, const Run &a, const Run &b) {
    if (!a.failed && !b.failed && a.answers == b.answers && a.peaks == b.peaks) return;
    fprintf(stderr, "%s with %u rows: one play is answered differently\n", name, rows);
    exit(1);
}

int main(int count, char **argv) {
    printf("| workload | rows | of the need | calls | call by call, ms | with a count after each set, ms | one play, ms | play ÷ with counts |\n");
    printf("|---|--:|--:|--:|--:|--:|--:|--:|\n");
    for (int k = 1; k < count; k++) {
        std::string word = argv[k], name = word.substr(0, word.find('=')), path = word.substr(word.find('=') + 1);
        List list = read_list(path);
        for (auto &[times, rows] : sizes(needed(list))) {
            same(name.c_str(), rows, run_counting_sets(list, rows), run_play(list, rows));
            u64 calls = ~0ull, counting = ~0ull, play = ~0ull;
            for (int turn = 0; turn < TURNS; turn++) {
                calls = std::min(calls, run_own(list, rows, true).ns);
                counting = std::min(counting, run_counting_sets(list, rows).ns);
                play = std::min(play, run_play(list, rows).ns);
            }
            printf("| %s | %u | %s | %zu | %.3f | %.3f | %.3f | %.2f |\n", name.c_str(), rows, times.c_str(), list.calls.size(), calls / 1e6, counting / 1e6, play / 1e6,
                   (double)play / counting);
            fflush(stdout);
        }
    }
}
