// paths NAME=LIST...: the shortest run over relation 0 of a workload (Slip 3), from state 0 into a set: of a counter into its last state, of the
// microphones into an open last one with the latch set, and into two open ones, which no run reaches. Thread times in ms: the call, the call with
// an empty list (the layers once, and 11), and a set call that finds the states which reach the set.
#include "list.h"
#include "own.h"
#include <cstdio>
#include <cstdlib>

using Bytes = std::vector<uint8_t>;

static Bytes framed(const Bytes &body) {
    size_t length = body.size() + 1;
    Bytes bytes = {uint8_t(length >> 8), uint8_t(length), 1};
    bytes.insert(bytes.end(), body.begin(), body.end());
    return bytes;
}

// One state, as an AND of its bits.
static Bytes state(u32 n, u32 s) {
    Bytes body;
    for (u32 p = 0; p < n; p++) {
        if (p + 1 < n) body.push_back(3);
        if (!(s >> p & 1)) body.push_back(2);
        body.push_back(0x10 + p);
    }
    return body;
}

// Microphones as `mics` in workloads.py numbers them: the open ones have odd bits, the latch the last one.
static Bytes two_open(u32 n) {
    Bytes body = {0};
    for (u32 p = 1; p + 2 < n; p += 2)
        for (u32 q = p + 2; q + 2 < n; q += 2) {
            Bytes both = {4, 3, uint8_t(0x10 + p), uint8_t(0x10 + q)};
            body.insert(body.begin(), both.begin(), both.end());
        }
    return body;
}

static Bytes last_latched(u32 n) { return {3, uint8_t(0x10 + n - 3), uint8_t(0x10 + n - 1)}; }

static u64 now() {
    timespec t;
    clock_gettime(CLOCK_THREAD_CPUTIME_ID, &t);
    return t.tv_sec * 1000000000ull + t.tv_nsec;
}

struct Room {
    std::vector<u32> words = std::vector<u32>(256 + 12 * MOST_ROWS);
    Account account;
    u32 n;

    explicit Room(const List &list) : n(list.bits) {
        u32 peak;
        check(kudzuclamp_fresh(words.data(), words.size(), &account, 1, n, MOST_ROWS));
        for (const Call &call : list.calls)
            if (call.kind == 2 && call.number == 0)
                check(kudzuclamp_relation(words.data(), words.size(), 0, call.formula.data(), call.formula.size(), &peak));
    }

    static void check(u32 number) {
        if (number == 0) return;
        fprintf(stderr, "refused with %u\n", number);
        exit(1);
    }

    u64 set(u32 r, const Bytes &body) {
        Bytes bytes = framed(body);
        u32 node, rounds, peak;
        u64 start = now();
        check(kudzuclamp_set(words.data(), words.size(), &account, 1, 0, r, UINT32_MAX, bytes.data(), bytes.size(), &node, &rounds, &peak));
        return now() - start;
    }

    u64 shortest(size_t room, u32 *number, u32 *states) {
        std::vector<uint16_t> list(room + 1);
        u64 start = now();
        *number = kudzuclamp_shortest(words.data(), words.size(), list.data(), room, 0, 1, 0, states);
        return now() - start;
    }

    void time(const char *name, const char *goal, const Bytes &into) {
        u32 number, states, short_number, none;
        set(0, state(n, 0));
        set(1, into);
        u64 reach = set(2, {0x70, 0x04, 0x41, 0x68, 0x30});
        kudzuclamp_clear(words.data(), words.size(), 2);
        u64 once = shortest(0, &short_number, &none);
        u64 all = shortest(1 << n, &number, &states);
        printf("| %s | %s | %u | %u | %.3f | %.3f | %.3f |\n", name, goal, number, states, all / 1e6, once / 1e6, reach / 1e6);
        fflush(stdout);
    }
};

int main(int count, char **argv) {
    printf("| workload | into | refusal | states | call, ms | with an empty list, ms | set by mu, ms |\n|---|---|--:|--:|--:|--:|--:|\n");
    for (int k = 1; k < count; k++) {
        std::string word = argv[k], name = word.substr(0, word.find('=')), path = word.substr(word.find('=') + 1);
        Room room(read_list(path));
        if (name.rfind("mics", 0) == 0) {
            room.time(name.c_str(), "last open, latched", last_latched(room.n));
            room.time(name.c_str(), "two open", two_open(room.n));
        } else {
            room.time(name.c_str(), "last state", state(room.n, (1u << room.n) - 1));
        }
    }
}
