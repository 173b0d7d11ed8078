// Chains of steps over the rows of a workload, each step through its own copy of the library, so that callgrind counts each operation apart.
// steps LIST chain|single: plays the list of calls, then for up to 3 filled relations and 6 sets (state 0, bit 0 and the registers') runs
//   v := v OR diamond v    and    v := v AND NOT diamond NOT v
// (NOT is the arrow with the other mark, and no step of the library)
// until v stays the same or for ROUNDS rounds. `chain` forgets once a chain, as a call does; `single` before every step.
// Prints, for each operation, its steps and the distinct pairs of arrows (arrows, for unary operations) that a plain recursion with a set of those seen finds.
#include <cstdint>
#include <cstdio>
#include <cstdlib>
#include <cstring>
#include <fstream>
#include <iterator>
#include <set>
#include <string>
#include <unordered_set>
#include <vector>

typedef uint32_t u32;
typedef uint64_t u64;
extern "C" {
u32 load_load_fresh(u32 *, size_t, u32, u32);
u32 load_load_relation(u32 *, size_t, u32, const uint8_t *, size_t);
u32 load_load_set(u32 *, size_t, u32, u32, const uint8_t *, size_t);
u32 load_load_collect(u32 *, size_t);
void load_step_forget(u32 *, size_t, u32);
u32 bit_step_bit(u32 *, size_t, u32, u32, u32);
u32 shift_step_shift(u32 *, size_t, u32, u32, u32);
u32 and_step_and(u32 *, size_t, u32, u32, u32, u32);
u32 or_step_or(u32 *, size_t, u32, u32, u32, u32);
u32 exists_step_exists(u32 *, size_t, u32, u32, u32, u32);
}

static const u32 ROWS = 60000, ROUNDS = 16, FULL = 0xffffffff;
static const u64 ENOUGH = 300000; // no chain starts once so many pairs were met
static const size_t HEADER = 256, CELLS = 8, REGISTERS = 16, RELATIONS = 48;
enum Operation { BIT, AND, OR, SHIFT, EXISTS, OPERATIONS };
static const char *const NAMES[OPERATIONS] = {"bit", "and", "or", "shift", "exists"};

static std::vector<u32> words;
static u32 levels;
static bool single;
static u64 steps[OPERATIONS], distinct[OPERATIONS], chains, ended_full, peak;
static std::unordered_set<u32> arrows_seen[64]; // SHIFT, EXISTS at each level
static std::unordered_set<u64> pairs_seen; // AND

static u32 flip(u32 a) { return a ^ 1; }
static u32 cell(u32 a, u32 k) { return words[HEADER + CELLS * (a / 2 - 1) + k]; }
// The arrows followed from an arrow to a row carry its NOT.
static u32 low(u32 a) { return cell(a, 0) ^ a % 2; }
static u32 high(u32 a) { return cell(a, 1) ^ a % 2; }
static u32 level(u32 a) { return cell(a, 2); }

// Forgets what is remembered, and what was seen.
static void forget() {
    load_step_forget(words.data(), words.size(), ROWS);
    for (auto &s : arrows_seen) s.clear();
    pairs_seen.clear();
}

// The pairs that AND has to work out.
static void see_pair(Operation by, u32 a, u32 b) {
    if (a > b) std::swap(a, b);
    if (a == b || a == flip(b) || a < 2) return;
    if (!pairs_seen.insert((u64)a << 32 | b).second) return;
    distinct[by]++;
    u32 l = std::min(level(a), level(b));
    bool x = level(a) == l, y = level(b) == l;
    see_pair(by, x ? low(a) : a, y ? low(b) : b);
    see_pair(by, x ? high(a) : a, y ? high(b) : b);
}

// The arrows that SHIFT (0) or EXISTS at level x (1 + x) has to work out.
static void see_arrow(Operation by, u32 kind, u32 a) {
    if (a < 2) return;
    if (kind >= 1 && level(a) > kind - 1) return;
    if (!arrows_seen[kind].insert(a).second) return;
    distinct[by]++;
    if (kind >= 1 && level(a) == kind - 1) return see_pair(by, flip(low(a)), flip(high(a)));
    see_arrow(by, kind, low(a));
    see_arrow(by, kind, high(a));
}

// One step; the arrow that it gives, or FULL.
static u32 step(Operation op, u32 x, u32 a, u32 b) {
    if (single) forget();
    steps[op]++;
    if (op == AND) see_pair(op, a, b);
    if (op == OR) see_pair(op, flip(a), flip(b));
    if (op == SHIFT) see_arrow(op, 0, a);
    if (op == EXISTS) see_arrow(op, 1 + x, a);
    u32 *w = words.data();
    size_t size = words.size();
    u32 r = FULL;
    switch (op) {
    case BIT: r = bit_step_bit(w, size, ROWS, levels, x); break;
    case SHIFT: r = shift_step_shift(w, size, ROWS, levels, a); break;
    case AND: r = and_step_and(w, size, ROWS, levels, a, b); break;
    case OR: r = or_step_or(w, size, ROWS, levels, a, b); break;
    default: r = exists_step_exists(w, size, ROWS, levels, x, a);
    }
    if (words[3] > peak) peak = words[3];
    return r;
}

static u32 diamond(u32 relation, u32 a) {
    u32 v = step(SHIFT, 0, a, 0);
    if (v != FULL) v = step(AND, 0, v, relation);
    for (u32 l = levels; l > 0 && v != FULL; l -= 2) v = step(EXISTS, l - 1, v, 0);
    return v;
}

// One chain, from the set v on.
static void chain(u32 relation, u32 v, bool least) {
    u64 met = 0;
    for (u64 d : distinct) met += d;
    if (met > ENOUGH) return;
    chains++;
    load_load_collect(words.data(), words.size());
    forget();
    for (u32 l = 0; l < levels; l++) step(BIT, l, 0, 0);
    for (u32 round = 0; round < ROUNDS; round++) {
        u32 x = diamond(relation, least ? v : flip(v));
        if (!least && x != FULL) x = flip(x);
        if (x != FULL) x = step(least ? OR : AND, 0, v, x);
        if (x == FULL) { ended_full++; return; }
        if (x == v) return;
        v = x;
    }
}

static void play(const std::vector<uint8_t> &list) {
    const uint8_t *p = list.data(), *end = p + list.size();
    u32 *w = words.data();
    while (p < end) {
        u32 op = *p++, refused = 0;
        if (op == 1) { levels = 2 * p[0]; refused = load_load_fresh(w, words.size(), p[0], ROWS); p += 5; }
        else if (op == 2) { size_t l = p[1] | p[2] << 8; refused = load_load_relation(w, words.size(), p[0], p + 3, l); p += 3 + l; }
        else if (op == 3) {
            u32 most;
            memcpy(&most, p + 1, 4);
            size_t l = p[5] | p[6] << 8;
            refused = load_load_set(w, words.size(), p[0], most, p + 7, l);
            p += 7 + l;
        } else if (op == 4 || op == 5) p++;
        if (refused != 0 && refused != 9) { fprintf(stderr, "refused with %u\n", refused); exit(1); }
    }
}

// Registers 30 and 31 get bit 0 and state 0.
static void seed() {
    std::vector<uint8_t> f = {0, 2, 1, 0x10};
    u32 refused = load_load_set(words.data(), words.size(), 30, 0, f.data(), f.size());
    f.pop_back();
    for (u32 p = 0; p < levels / 2; p++) {
        if (p + 1 < levels / 2) f.push_back(3);
        f.push_back(2);
        f.push_back(0x10 + p);
    }
    f[1] = f.size() - 2;
    refused |= load_load_set(words.data(), words.size(), 31, 0, f.data(), f.size());
    if (refused) { fprintf(stderr, "a seed was refused\n"); exit(1); }
}

int main(int, char **argv) {
    std::ifstream in(argv[1], std::ios::binary);
    std::vector<uint8_t> list((std::istreambuf_iterator<char>(in)), std::istreambuf_iterator<char>());
    single = !strcmp(argv[2], "single");
    words.assign(HEADER + 12 * ROWS, 0);
    play(list);
    seed();
    std::set<u32> sets;
    for (size_t r = 32; r > 0 && sets.size() < 6; r--) if (words[REGISTERS + r - 1] > 2) sets.insert(words[REGISTERS + r - 1] - 1);
    size_t relations = 0;
    for (size_t t = 0; t < 8 && relations < 3; t++) {
        if (words[RELATIONS + t] < 3) continue;
        relations++;
        for (u32 v : sets) {
            chain(words[RELATIONS + t] - 1, v, true);
            chain(words[RELATIONS + t] - 1, v, false);
        }
    }
    printf("chains %llu full %llu peak %llu\n", (unsigned long long)chains, (unsigned long long)ended_full, (unsigned long long)peak);
    for (int k = 0; k < OPERATIONS; k++) printf("%s %llu %llu\n", NAMES[k], (unsigned long long)steps[k], (unsigned long long)distinct[k]);
}
