// A list of calls as workloads.py writes it, and what an engine answers to it.
#pragma once
#include <cstdint>
#include <cstring>
#include <ctime>
#include <fstream>
#include <iterator>
#include <string>
#include <utility>
#include <vector>
typedef uint32_t u32;
typedef uint64_t u64;

// One call: 1 fresh, 2 relation, 3 set, 4 clear, 5 count, 6 collect.
struct Call {
    u32 kind, number, most;
    std::vector<uint8_t> formula;
};
struct List {
    u32 bits = 0;
    std::vector<Call> calls; // without fresh
};

// What a list gave: the time of its calls, and for each call its refusal, and rounds or states; and its peak, 0 where it has none. Failed: an engine ran out
// of rows.
struct Run {
    u64 ns = 0;
    bool failed = false;
    u32 collections = 0;
    std::vector<u32> answers, peaks;
};
enum Way { STEPS, COUNTING, FORGETTING, AT_ONCE, FUSED };
const int WAYS = 5;

inline List read_list(const std::string &path) {
    std::ifstream in(path, std::ios::binary);
    std::vector<uint8_t> bytes((std::istreambuf_iterator<char>(in)), std::istreambuf_iterator<char>());
    List list;
    const uint8_t *p = bytes.data(), *end = p + bytes.size();
    while (p < end) {
        Call c{*p++, 0, 0, {}};
        if (c.kind == 1) { list.bits = p[0]; p += 5; continue; }
        if (c.kind != 6) c.number = *p++;
        if (c.kind == 3) { memcpy(&c.most, p, 4); p += 4; }
        if (c.kind == 2 || c.kind == 3) {
            size_t length = p[0] | p[1] << 8;
            c.formula.assign(p + 2, p + 2 + length);
            p += 2 + length;
        }
        list.calls.push_back(c);
    }
    return list;
}

const u32 MOST_ROWS = 60000;

// The sizes of the table that are tried.
inline std::vector<std::pair<std::string, u32>> sizes(u32 need) {
    std::vector<std::pair<std::string, u32>> all = {{"1 ×", need}, {"2 ×", 2 * need}, {"10 ×", 10 * need}, {"all", MOST_ROWS}}, fit;
    for (auto &size : all)
        if (size.second <= MOST_ROWS) fit.push_back(size);
    return fit;
}

// Processor time of this thread, in nanoseconds.
inline u64 thread_time() {
    timespec t;
    clock_gettime(CLOCK_THREAD_CPUTIME_ID, &t);
    return t.tv_sec * 1000000000ull + t.tv_nsec;
}

// Both engines: the list with `rows` rows; counts are asked only where `counts` says so.
Run run_own(const List &list, u32 rows, bool counts);
Run run_buddy(const List &list, u32 rows, u32 cache, Way way, bool counts);
// The least number of rows with which the library answers every call of the list.
u32 needed(const List &list);
// The library: the same with a count after each answered set, which is what play does; and the list as one play.
Run run_counting_sets(const List &list, u32 rows);
Run run_play(const List &list, u32 rows);
// The peaks by a naive count over BuDDy: at each step every function that the live ones have as a part, up to complement.
std::vector<u32> naive_peaks(const List &list);
