// once LIST ROWS [TURNS [play]]: makes a list of calls once, for a profile; or so many times, and prints the least time of a turn in nanoseconds. play: as one play,
// and 0 turns for a profile.
#include "list.h"
#include <algorithm>
#include <cstdio>
#include <cstdlib>

int main(int count, char **argv) {
    if (count < 3 || count > 5) return 2;
    List list = read_list(argv[1]);
    u64 least = ~0ull;
    int asked = count > 3 ? atoi(argv[3]) : 0;
    for (int turns = std::max(asked, 1); turns > 0; turns--) {
        Run run = count == 5 ? run_play(list, atoi(argv[2])) : run_own(list, atoi(argv[2]), false);
        if (run.failed) { fprintf(stderr, "a call was refused\n"); return 1; }
        least = std::min(least, run.ns);
    }
    if (asked > 0) printf("%llu\n", (unsigned long long)least);
}
