// tables KIND [SEED [TURNS]]: a sound table with a set V, written word by word; the time of a call that only checks it, in microseconds, least of
// TURNS, and that of the same table with V every state. KIND is
//   tiny, few, mid, random   drawn states, and relations of drawn pairs of them (n 4, 8, 10, 16)
//   below, parity, onehot    n 16, few rows
//   tree, tree2, xor         relations that branch on the bits that V leaves out, on V's bits, and on both: they meet the bound of the walk
//   layers SEED TURNS R V    R drawn rows on each level of the relations, V on each of V's
//   together SEED TURNS R V  the same, and rows stand where their arrows have the same place by which a list finds them
#include "list.h"
#include "own.h"
#include <algorithm>
#include <cstdio>
#include <cstdlib>
#include <functional>
#include <numeric>
#include <random>
#include <set>

const u32 ROWS = 60000, USED = 3, VALID = 15, REGISTER = 16, RELATION = 48, NO_REGISTER = 40;
static std::mt19937 random_bits;
static u32 draw(u32 below) { return random_bits() % below; }

// A table whose rows stand at mixed places, or at those whose arrows fall together (`slot` in crates/soundness/src/arrows.rt).
struct Built {
    u32 bits, used = 0;
    std::vector<u32> words, places;
    Account account;

    Built(u32 n, bool together = false) : bits(n), words(256 + 12 * (size_t)ROWS), places(ROWS) {
        if (kudzuclamp_fresh(words.data(), words.size(), &account, 1, n, ROWS)) exit(1);
        std::iota(places.begin(), places.end(), 0);
        std::shuffle(places.begin(), places.end(), random_bits);
        auto slot = [](u32 i) { return 2654435761u * (2 * i + 2) >> 23; };
        if (together) std::sort(places.begin(), places.end(), [&](u32 i, u32 j) { return slot(i) < slot(j); });
    }
    u32 *row(u32 i) { return &words[256 + 8 * (size_t)i]; }

    // The arrow of a row: found by the table's index, or new.
    u32 arrow(u32 level, u32 low, u32 high) {
        if (low == high) return low;
        u32 mark = high & 1, hash = (low ^ mark) * 0x9E3779B1u + (high ^ mark) * 0x85EBCA77u + level * 0xC2B2AE3Du;
        u32 &head = words[256 + 9 * (size_t)ROWS + ((u64)hash * ROWS >> 32)];
        for (u32 k = head; k; k = row(k - 1)[3])
            if (row(k - 1)[0] == (low ^ mark) && row(k - 1)[1] == (high ^ mark) && row(k - 1)[2] == level) return 2 * k ^ mark;
        if (used == ROWS) { fprintf(stderr, "the table is full\n"); exit(1); }
        u32 i = places[used], fields[] = {low ^ mark, high ^ mark, level, head, used};
        std::copy(fields, fields + 5, row(i));
        words[256 + 8 * (size_t)ROWS + used++] = i;
        head = i + 1;
        return 2 * head ^ mark;
    }

    // The arrow of the values of all levels in a sorted range, each a number whose first bit is level 0, by every `step`th level.
    u32 range(const u64 *from, const u64 *to, u32 level, u32 step) {
        if (from == to) return 0;
        if (level >= 2 * bits) return 1;
        const u64 *mid = std::partition_point(from, to, [&](u64 v) { return !(v >> (2 * bits - 1 - level) & 1); });
        u32 low = range(from, mid, level + step, step);
        return arrow(level, low, range(mid, to, level + step, step));
    }
    u64 spread(u32 state) {
        u64 value = 0;
        for (u32 k = 0; k < bits; k++) value |= (u64)(state >> k & 1) << (2 * k + 1);
        return value;
    }
    u32 set(const std::vector<u32> &states) {
        std::set<u64> values;
        for (u32 s : states) values.insert(spread(s));
        std::vector<u64> all(values.begin(), values.end());
        return range(all.data(), all.data() + all.size(), 0, 2);
    }
    u32 relation(size_t pairs, const std::function<std::pair<u32, u32>(size_t)> &pair) {
        std::set<u64> values;
        for (size_t k = 0; k < pairs; k++) values.insert(spread(pair(k).first) | spread(pair(k).second) >> 1);
        std::vector<u64> all(values.begin(), values.end());
        return range(all.data(), all.data() + all.size(), 0, 1);
    }
    void root(u32 word, u32 a) { words[word] = a + 1; }
};

static std::vector<u32> drawn_states(u32 n, u32 count) {
    std::set<u32> states;
    while (states.size() < count) states.insert(draw(1u << n));
    std::vector<u32> list(states.begin(), states.end());
    std::shuffle(list.begin(), list.end(), random_bits);
    return list;
}

static Built drawn(u32 n, u32 states, u32 pairs, u32 relations) {
    Built t(n);
    std::vector<u32> list = drawn_states(n, states);
    t.root(VALID, t.set(list));
    for (u32 k = 0; k < relations; k++) {
        std::vector<std::pair<u32, u32>> of(pairs);
        for (auto &p : of) p = {list[draw(states)], list[draw(states)]};
        t.root(RELATION + k, t.relation(pairs, [&](size_t i) { return of[i]; }));
    }
    t.root(REGISTER, t.set({list.begin(), list.begin() + states / 2}));
    t.root(REGISTER + 1, t.set({list.begin(), list.begin() + states / 3}));
    return t;
}

static Built regular(const std::function<bool(u32)> &valid) {
    Built t(16);
    std::vector<u32> list;
    for (u32 s = 0; s < 65536; s++) if (valid(s)) list.push_back(s);
    size_t count = list.size();
    t.root(VALID, t.set(list));
    t.root(RELATION, t.relation(count, [&](size_t i) { return std::make_pair(list[i], list[i]); }));
    t.root(RELATION + 1, t.relation(count, [&](size_t i) { return std::make_pair(list[i], list[(i + 1) % count]); }));
    t.root(RELATION + 2, t.relation(count, [&](size_t i) { return std::make_pair(list[i], list[count - 1 - i]); }));
    t.root(REGISTER, t.set(list));
    t.root(REGISTER + 1, t.set({list.begin(), list.begin() + count / 2}));
    return t;
}

// Drawn rows on a level, over those below; also over the ends, one arrow in four, where these are still few.
static std::vector<u32> layer(Built &t, u32 level, u32 width, const std::vector<u32> &below, const std::vector<u32> &ends) {
    std::set<u32> rows;
    auto one = [&] { return below.size() > 99 || draw(4) ? below[draw(below.size())] : ends[draw(ends.size())]; };
    for (u32 k = 0; k < 8 * width && rows.size() < width; k++) {
        u32 a = one(), b = one();
        if (a != b) rows.insert(t.arrow(level, a, b));
    }
    return {rows.begin(), rows.end()};
}

// Hostile tables: V has every state whose last bit is 1, the relations only pairs of such; all else is drawn.
static u32 both_on(Built &t) { return t.arrow(30, 0, t.arrow(31, 0, 1)); }

static Built branching(bool own, bool both) {
    Built t(16);
    std::vector<u32> states;
    for (u32 s = 0; s < 65536; s++) if (s & 1 || draw(2)) states.push_back(s);
    t.root(VALID, t.set(states));
    std::vector<u32> pool = {0, both_on(t)}, ends = pool;
    for (u32 level = 29; level >= 23; level--) pool = layer(t, level, level == 23 ? 200 : 12, pool, ends);
    for (u32 k = 0; k < (both ? 4u : 8u); k++) {
        std::vector<u32> tree(2048);
        for (u32 i = 0; i < 2048; i++) {
            u32 g = i + 2048 * k, size = pool.size();
            tree[i] = t.arrow(22, pool[g % size], pool[(g / size + g % size + 1) % size]);
        }
        for (int bit = 10; bit >= 0; bit--)
            for (u32 i = 0; i < 1u << bit; i++) {
                u32 x = tree[2 * i], y = tree[2 * i + 1];
                tree[i] = both ? t.arrow(2 * bit, t.arrow(2 * bit + 1, x, y), t.arrow(2 * bit + 1, y, x)) : t.arrow(own ? 2 * bit : 2 * bit + 1, x, y);
            }
        t.root(RELATION + k, tree[0]);
    }
    return t;
}

static Built layers(bool together, u32 of_relations, u32 of_v) {
    Built t(16, together);
    u32 last = t.arrow(30, 0, 1), e = both_on(t);
    std::vector<u32> pool = {1, last};
    for (int level = 28; level >= 0; level -= 2) pool = layer(t, level, level ? of_v : 1, pool, {1, last});
    t.root(VALID, pool[0]);
    pool = {0, e};
    for (int level = 29; level >= 0; level--) pool = layer(t, level, level ? of_relations : 8, pool, {0, e});
    for (u32 k = 0; k < pool.size(); k++) t.root(RELATION + k, pool[k]);
    return t;
}

static Built make(const std::string &kind, int count, char **argv) {
    if (kind == "tiny") return drawn(4, 11, 6, 2);
    if (kind == "few") return drawn(8, 150, 40, 8);
    if (kind == "mid") return drawn(10, 600, 140, 8);
    if (kind == "random") return drawn(16, 3000, 200, 8);
    if (kind == "below") return regular([](u32 s) { return s < 40000; });
    if (kind == "parity") return regular([](u32 s) { return __builtin_popcount(s) % 2 == 0; });
    if (kind == "onehot") return regular([](u32 s) { return __builtin_popcount(s) <= 3; });
    if (kind == "tree") return branching(false, false);
    if (kind == "tree2") return branching(true, false);
    if (kind == "xor") return branching(false, true);
    if ((kind == "layers" || kind == "together") && count == 6) return layers(kind == "together", atoi(argv[4]), atoi(argv[5]));
    fprintf(stderr, "no such kind\n");
    exit(2);
}

// The least time of a call that checks the table and is then refused, as there is no such register.
static double check(const Built &t, int turns) {
    u64 least = ~0ull;
    while (turns-- > 0) {
        u32 states;
        u64 start = thread_time();
        if (kudzuclamp_count(t.words.data(), t.words.size(), NO_REGISTER, &states) != 3) { fprintf(stderr, "the table is not sound\n"); exit(1); }
        least = std::min(least, thread_time() - start);
    }
    return least / 1e3;
}

int main(int count, char **argv) {
    if (count < 2) return 2;
    random_bits.seed(count > 2 ? atoi(argv[2]) : 1);
    int turns = count > 3 ? atoi(argv[3]) : 100;
    Built t = make(argv[1], count, argv);
    t.words[USED] = t.used;
    double with = check(t, turns);
    t.root(VALID, 1);
    double without = check(t, turns);
    printf("| %s | %u | %u | %.2f | %.2f | %.2f |\n", argv[1], t.bits, t.used, with, without, with - without);
}
