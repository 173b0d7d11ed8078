// peaks NAME=LIST ...: the library's peaks, at several sizes of the table and in one play, against a naive count; a difference is an error. Where no call is refused
// with 9, which gives no peak, the least number of rows must be the greatest peak.
#include "list.h"
#include <algorithm>
#include <cstdio>
#include <cstdlib>

static void same(const char *list, const char *way, u32 rows, const Run &run, const std::vector<u32> &naive) {
    if (run.failed) { fprintf(stderr, "%s with %u rows: refused\n", list, rows); exit(1); }
    for (size_t k = 0; k < naive.size(); k++)
        if (run.peaks[k] != naive[k]) {
            fprintf(stderr, "%s with %u rows, %s: call %zu has peak %u, by a naive count %u\n", list, rows, way, k, run.peaks[k], naive[k]);
            exit(1);
        }
}

static bool spent(const Run &run) {
    for (size_t k = 0; k < run.answers.size(); k += 2)
        if (run.answers[k] == 9) return true;
    return false;
}

int main(int count, char **argv) {
    printf("| workload | calls with a peak | greatest peak | least N | sizes of the table compared |\n|---|--:|--:|--:|--:|\n");
    for (int k = 1; k < count; k++) {
        std::string word = argv[k], name = word.substr(0, word.find('=')), path = word.substr(word.find('=') + 1);
        List list = read_list(path);
        u32 need = needed(list);
        std::vector<u32> naive = naive_peaks(list);
        for (auto &[times, rows] : sizes(need)) {
            same(name.c_str(), "call by call", rows, run_own(list, rows, true), naive);
            same(name.c_str(), "one play", rows, run_play(list, rows), naive);
        }
        u32 most = *std::max_element(naive.begin(), naive.end());
        if (spent(run_own(list, MOST_ROWS, false)) ? most > need : most != need) {
            fprintf(stderr, "%s: %u rows are needed, the greatest peak is %u\n", name.c_str(), need, most);
            exit(1);
        }
        size_t with = naive.size() - std::count(naive.begin(), naive.end(), 0u);
        printf("| %s | %zu | %u | %u | %zu |\n", name.c_str(), with, most, need, sizes(need).size());
        fflush(stdout);
    }
}
