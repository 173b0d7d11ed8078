// coins N [WORD...]: cheapest runs (Slip 13) at N bits, of the cases whose name has one of the words, or of all. The call beside Dijkstra's search
// over explicit edges, with a binary heap; its edges are made before, and not timed, and it is left out where there are more than 2^26. Both must
// tell the same total and number of states, and the run that is written must be one. Thread times in ms.
#include "formulas.h"
#include "own.h"
#include <algorithm>
#include <cstdio>
#include <cstdlib>
#include <cstring>
#include <ctime>
#include <functional>
#include <queue>
#include <random>
#include <string>
#include <tuple>
#include <vector>

using Holds = std::function<bool(u32, u32)>;
using Before = std::function<void(u32, std::vector<u32> &)>;
using Cost = std::pair<u64, u32>;

static const u64 MOST_EDGES = u64(1) << 26;
static u32 n, all, high;

// ---- formulas

static Bytes each(const std::function<Bytes(u32)> &part) { return each(0, n, part); }

static Bytes state(u32 s) { return state(n, s); }

// The parity of bits from a byte on.
static Bytes parity(u32 first, u32 count) {
    if (count == 1) return {uint8_t(first)};
    return no(same(parity(first, count / 2), parity(first + count / 2, count - count / 2)));
}

// ---- relations: each as a formula, as pairs, and by the states before a state, where these are few

struct Relation {
    Bytes formula;
    Holds holds;
    Before before;
};

static bool odd(u32 s) { return __builtin_popcount(s) % 2; }

// The number after the current one, or the one before it.
static Relation counter(bool up) {
    u32 step = up ? 1 : all - 1;
    return {counts(n, up), [step](u32 s, u32 t) { return t == ((s + step) & (all - 1)); },
            [step](u32 t, std::vector<u32> &list) { list.push_back((t - step) & (all - 1)); }};
}

// The bits of a mask may change, the others are kept.
static Relation free_bits(u32 mask) {
    auto part = [mask](u32 p) { return mask >> p & 1 ? Bytes{1} : same(here(p), there(p)); };
    return {each(part), [mask](u32 s, u32 t) { return ((s ^ t) & ~mask) == 0; },
            [mask](u32 t, std::vector<u32> &list) {
                u32 x = 0;
                do {
                    list.push_back((t & ~mask) | x);
                    x = (x - mask) & mask;
                } while (x);
            }};
}

// Switches only turn on.
static Relation rising() {
    return {each([](u32 p) { return either(no(here(p)), there(p)); }), [](u32 s, u32 t) { return (s & ~t) == 0; },
            [](u32 t, std::vector<u32> &list) {
                u32 x = 0;
                do {
                    list.push_back(x);
                    x = (x - t) & t;
                } while (x);
            }};
}

// Bit p turns over, the others are kept.
static Relation press(u32 p) {
    return {each([p](u32 q) { return p == q ? turns(q) : same(here(q), there(q)); }), [p](u32 s, u32 t) { return (s ^ t) == (1u << p); },
            [p](u32 t, std::vector<u32> &list) { list.push_back(t ^ 1u << p); }};
}

static Relation here_bit(u32 p) {
    return {here(p), [p](u32 s, u32) { return s >> p & 1; }, {}};
}

static Relation there_bit(u32 p) {
    return {there(p), [p](u32, u32 t) { return t >> p & 1; }, {}};
}

static Relation here_and_some_next() {
    Bytes some = there(0);
    for (u32 p = 1; p < n; p++) some = either(there(p), some);
    return {both(here(high), some), [](u32 s, u32 t) { return (s >> high & 1) && t; }, {}};
}

static Relation here_parity() {
    return {parity(0x10, n), [](u32 s, u32) { return odd(s); }, {}};
}

static Relation here_and_parity() {
    return {both(here(high), parity(0x20, n)), [](u32 s, u32 t) { return (s >> high & 1) && odd(t); }, {}};
}

static Relation one_and_one(u32 p, u32 q) {
    return {both(here(p), there(q)), [p, q](u32 s, u32 t) { return (s >> p & 1) && (t >> q & 1); }, {}};
}

// A low bit is on, or turns over, with two of the six highest on: each low bit has two others. The formula's arrows differ in every one of the low
// bits, so that no memory of the search is large enough.
static Relation low_with_two(bool turning, bool next_parity) {
    u32 first = n > 7 ? n - 6 : n / 2;
    std::vector<std::pair<u32, u32>> list;
    for (u32 a = first; a < n; a++)
        for (u32 b = a + 1; b < n && list.size() < first; b++) list.push_back({list.size(), 1u << a | 1u << b});
    Bytes some = {0};
    for (auto [i, two] : list) {
        Bytes part = turning ? turns(i) : here(i);
        for (u32 p = first; p < n; p++)
            if (two >> p & 1) part = both(part, here(p));
        some = either(part, some);
    }
    Holds holds = [=](u32 s, u32 t) {
        bool any = false;
        for (auto [i, two] : list) any = any || (((turning ? s ^ t : s) >> i & 1) && (s & two) == two);
        return any && (!next_parity || odd(t >> first));
    };
    return {next_parity ? both(some, parity(0x20 + first, n - first)) : some, holds, {}};
}

// A relation, where the next state is a lesser number.
static Relation falling(const Relation &relation) {
    Bytes less = both(here(0), no(there(0)));
    for (u32 p = 1; p < n; p++) less = either(both(here(p), no(there(p))), both(either(here(p), no(there(p))), less));
    Holds holds = relation.holds;
    return {both(relation.formula, less), [holds](u32 s, u32 t) { return s > t && holds(s, t); }, {}};
}

// The last bit is on, and an odd number of pairs: a high bit of now with a low one of now or a high one of next, or a high bit of next with a low one
// of now.
static Relation odd_pairs() {
    u32 first = n > 7 ? n - 6 : n / 2, some = std::min(5u, n - first);
    std::vector<Bytes> parts;
    for (u32 p = 0; p < std::min(first, some); p++) parts.push_back(both(here(first + p), either(here(p), there(first + p))));
    for (u32 p = 0; p < some && some + p < first; p++) parts.push_back(both(there(first + p), here(some + p)));
    Holds holds = [=](u32 s, u32 t) {
        u32 pairs = 0;
        for (u32 p = 0; p < std::min(first, some); p++) pairs += (s >> (first + p) & 1) && ((s >> p & 1) || (t >> (first + p) & 1));
        for (u32 p = 0; p < some && some + p < first; p++) pairs += (t >> (first + p) & 1) && (s >> (some + p) & 1);
        return (s >> high & 1) && pairs % 2;
    };
    std::function<Bytes(size_t, size_t)> sum = [&](size_t from, size_t count) {
        if (count == 1) return parts[from];
        return no(same(sum(from, count / 2), sum(from + count / 2, count - count / 2)));
    };
    return {both(here(high), sum(0, parts.size())), holds, {}};
}

// How many bits are below the six highest, or below the upper half.
static u32 lower() { return n > 7 ? n - 6 : n / 2; }

static bool is_top(u32 s) { return s >> lower() == (all - 1) >> lower(); }

// Not all of the six highest bits are on.
static Bytes no_top() {
    Bytes top = here(high);
    for (u32 p = lower(); p < high; p++) top = both(here(p), top);
    return no(top);
}

// The counter up, from such states: each has a mark of its own, and the others none.
static Relation short_counter() {
    return {both(counter(true).formula, no_top()), [](u32 s, u32 t) { return !is_top(s) && t == s + 1; },
            [](u32 t, std::vector<u32> &list) {
                if (t > 0 && !is_top(t - 1)) list.push_back(t - 1);
            }};
}

// A sum of terms: a low bit of now and three of the six highest bits of now or next, on or off, as numbers by a rule choose them.
struct Sum {
    Bytes formula = {0};
    std::vector<std::pair<u32, u32>> terms;

    Sum(u32 count, std::minstd_rand &numbers) {
        for (u32 i = 0; i < count; i++) {
            u32 bits = 0, on = 0;
            Bytes term = literal(i % lower(), numbers() % 2, &bits, &on);
            while (__builtin_popcount(bits) < 4) {
                u32 p = lower() + numbers() % (n - lower()), side = numbers() % 10 < 3 ? 16 : 0;
                if (!(bits >> (p + side) & 1)) term = both(literal(p + side, numbers() % 2, &bits, &on), term);
            }
            formula = i == 0 ? term : either(term, formula);
            terms.push_back({bits, on});
        }
    }

    static Bytes literal(u32 p, bool is_on, u32 *bits, u32 *on) {
        Bytes bit = p < 16 ? here(p) : there(p - 16);
        *bits |= 1u << p;
        *on |= is_on << p;
        return is_on ? bit : no(bit);
    }

    bool holds(u32 s, u32 t) const {
        for (auto [bits, on] : terms)
            if (((s | t << 16) & bits) == on) return true;
        return false;
    }
};

// From such states: two sums agree, or of the low bits all but bit r are on, so that each r has a root of its own. The arrows differ for each choice of
// the low bits, and each leads to a diagram of its own.
static Relation sums(u32 r) {
    std::minstd_rand numbers(18);
    Sum a(20, numbers), b(20, numbers);
    u32 low = (1u << lower()) - 1, kept = low & ~(1u << r);
    Bytes one = kept & 1 ? here(0) : no(here(0));
    for (u32 p = 1; p < lower(); p++) one = both(kept >> p & 1 ? here(p) : no(here(p)), one);
    return {both(no_top(), either(one, same(a.formula, b.formula))),
            [=](u32 s, u32 t) { return !is_top(s) && ((s & low) == kept || a.holds(s, t) == b.holds(s, t)); }, {}};
}

// From such states: the parity of the low bits is odd, and a high bit of now or one of next is on.
static Relation low_parity(u32 r) {
    u32 upper = n - lower(), p = lower() + r % upper, q = lower() + r / upper % upper;
    return {both(no_top(), both(parity(0x10, lower()), either(here(p), there(q)))),
            [=](u32 s, u32 t) { return !is_top(s) && odd(s & ((1u << lower()) - 1)) && ((s >> p & 1) || (t >> q & 1)); }, {}};
}

// ---- the search over explicit edges

// The states before each state; false where they are too many.
struct Edges {
    std::vector<u64> at = {0};
    std::vector<uint16_t> list;

    bool make(const Relation &relation, u64 most) {
        std::vector<u32> before;
        for (u32 t = 0; t < all; t++) {
            before.clear();
            if (relation.before) relation.before(t, before);
            for (u32 s = 0; !relation.before && s < all; s++)
                if (relation.holds(s, t)) before.push_back(s);
            if (list.size() + before.size() > most) return false;
            list.insert(list.end(), before.begin(), before.end());
            at.push_back(list.size());
        }
        return true;
    }
};

// The least credits and steps from a state of the one set into the other; steps are UINT32_MAX where there is no run.
static Cost dijkstra(const std::vector<Edges> &edges, const uint8_t *prices, const std::vector<bool> &from, const std::vector<bool> &goal) {
    using Entry = std::tuple<u64, u32, u32>;
    const Cost none = {UINT64_MAX, UINT32_MAX};
    std::vector<Cost> costs(all, none);
    std::priority_queue<Entry, std::vector<Entry>, std::greater<Entry>> heap;
    for (u32 s = 0; s < all; s++)
        if (goal[s]) {
            costs[s] = {0, 0};
            heap.push({0, 0, s});
        }
    while (!heap.empty()) {
        auto [credits, steps, t] = heap.top();
        heap.pop();
        if (costs[t] != Cost{credits, steps}) continue;
        if (from[t]) return costs[t];
        for (size_t r = 0; r < edges.size(); r++)
            for (u64 i = edges[r].at[t]; i < edges[r].at[t + 1]; i++) {
                Cost cost = {credits + prices[r], steps + 1};
                u32 s = edges[r].list[i];
                if (cost < costs[s]) {
                    costs[s] = cost;
                    heap.push({cost.first, cost.second, s});
                }
            }
    }
    return none;
}

// ---- a case

struct Set {
    Bytes formula;
    std::function<bool(u32)> holds;

    std::vector<bool> states() const {
        std::vector<bool> list(all);
        for (u32 s = 0; s < all; s++) list[s] = holds(s);
        return list;
    }
};

static Set one(u32 s) {
    return {state(s), [s](u32 t) { return s == t; }};
}

static Set nothing() {
    return {{0}, [](u32) { return false; }};
}

static Set bit(u32 p, bool on) {
    return {on ? here(p) : no(here(p)), [p, on](u32 s) { return (s >> p & 1) == on; }};
}

struct Case {
    const char *name;
    std::vector<Relation> relations;
    Bytes prices;
    Set from, goal;
};

struct Hall {
    std::vector<u32> words = std::vector<u32>(256 + 12 * MOST_ROWS);
    std::vector<u64> work = std::vector<u64>(all);
    std::vector<uint16_t> states = std::vector<uint16_t>(all);
    Bytes relations = Bytes(all);
    Account account;
    u32 total, charge, count;

    explicit Hall(const Case &asked) {
        check(kudzuclamp_fresh(words.data(), words.size(), &account, 1, n, MOST_ROWS));
        for (u32 r = 0; r < asked.relations.size(); r++) {
            Bytes bytes = framed(asked.relations[r].formula);
            u32 peak;
            check(kudzuclamp_relation(words.data(), words.size(), r, bytes.data(), bytes.size(), &peak));
        }
        set(0, asked.from);
        set(1, asked.goal);
    }

    void set(u32 r, const Set &set) {
        Bytes bytes = framed(set.formula);
        u32 node, rounds, peak;
        check(kudzuclamp_set(words.data(), words.size(), &account, 1, 0, r, 0, bytes.data(), bytes.size(), &node, &rounds, &peak));
    }

    u32 cheapest(const Bytes &prices) {
        return kudzuclamp_cheapest(words.data(), words.size(), prices.data(), prices.size(), work.data(), work.size(), states.data(), states.size(),
                                   relations.data(), relations.size(), 0, 1, &total, &charge, &count);
    }

    // Whether what is written is a run of that total.
    bool is_run(const Case &asked) const {
        u64 credits = 0;
        bool run = asked.from.holds(states[0]) && asked.goal.holds(states[count - 1]);
        for (u32 i = 0; run && i + 1 < count; i++) {
            u32 r = relations[i];
            run = r < asked.relations.size() && asked.relations[r].holds(states[i], states[i + 1]);
            credits += asked.prices[r];
        }
        return run && credits == total && charge == (total + 9) / 10;
    }
};

// What Dijkstra's search took; false where there are too many edges.
static bool search(const Case &asked, Cost *cost, u64 *edges, u64 *time) {
    std::vector<Edges> lists(asked.relations.size());
    *edges = 0;
    for (size_t r = 0; r < lists.size(); r++) {
        if (!lists[r].make(asked.relations[r], MOST_EDGES - *edges)) return false;
        *edges += lists[r].list.size();
    }
    std::vector<bool> from = asked.from.states(), goal = asked.goal.states();
    u64 start = now();
    *cost = dijkstra(lists, asked.prices.data(), from, goal);
    *time = now() - start;
    return true;
}

static void time_case(const Case &asked) {
    Hall hall(asked);
    u64 start = now();
    u32 number = hall.cheapest(asked.prices);
    u64 call = now() - start;
    if (number != 10) check(number);
    bool same = number == 10 || hall.is_run(asked);
    Cost cost;
    u64 edges, time;
    printf("| %s | %u | %u | %u | %.1f |", asked.name, number, hall.total, hall.count, call / 1e6);
    if (search(asked, &cost, &edges, &time)) {
        printf(" %llu | %.1f |\n", (unsigned long long)edges, time / 1e6);
        same = same && (number == 10 ? cost.second == UINT32_MAX : cost == Cost{hall.total, hall.count - 1});
    } else {
        printf(" more | |\n");
    }
    fflush(stdout);
    if (same) return;
    fprintf(stderr, "%s: the two differ, or what is written is no run\n", asked.name);
    exit(1);
}

static std::vector<Case> cases() {
    u32 last = all - 1, half = last >> 1, below_top = last - (1u << lower());
    Bytes mixed = {3, 5, 7, 0, 11, 13, 0, 255}, dear = {1, 255, 1, 1, 1, 1, 1, 1}, ones = {1, 1, 1, 1, 1, 1, 1, 1}, rise = {1, 2, 3, 4, 5, 6, 7, 1};
    Bytes free_counter = {0, 255, 255, 255, 255, 255, 255, 255};
    std::vector<Relation> presses, alike, seven, eight, agreeing = {short_counter()}, odd_low = agreeing, falls = {counter(true)};
    for (const Relation &relation : {low_with_two(false, false), low_with_two(true, false), low_with_two(false, true), low_with_two(true, true), odd_pairs(),
                                     here_parity(), here_and_parity()})
        falls.push_back(falling(relation));
    for (u32 r = 0; r < 8; r++) {
        presses.push_back(press(r % n));
        alike.push_back(one_and_one(high - r % 4, r % n));
        seven.push_back(r < 7 ? there_bit(high) : counter(false));
        eight.push_back(here_and_parity());
        if (r > 0) agreeing.push_back(sums(r));
        if (r > 0) odd_low.push_back(low_parity(r));
    }
    return {
        {"counter, run of all states", {counter(true)}, ones, one(0), one(last)},
        {"eight presses, each turns a bit over", presses, mixed, one(0), one(last & 255)},
        {"everything; no run", {{{1}, [](u32, u32) { return true; }, {}}}, mixed, nothing(), one(last)},
        {"low half free; counter; no run", {free_bits((1u << n / 2) - 1), counter(true)}, dear, nothing(), one(last)},
        {"odd bits free; counter; no run", {free_bits(0xAAAA & last), counter(true)}, dear, nothing(), one(last)},
        {"switches only turn on; goal upper half; no run", {rising()}, mixed, nothing(), bit(high, true)},
        {"now last bit; no run", {here_bit(high)}, mixed, nothing(), one(last)},
        {"next last bit; goal last bit off; no run", {there_bit(high)}, mixed, nothing(), bit(high, false)},
        {"now last bit and some next bit; no run", {here_and_some_next()}, mixed, nothing(), one(last)},
        {"parity of now; no run", {here_parity()}, mixed, nothing(), one(last ^ 1)},
        {"now last bit and parity of next; no run", {here_and_parity()}, mixed, nothing(), one(last ^ 1)},
        {"eight of a now and a next bit; no run", alike, mixed, nothing(), one(last)},
        {"counter down, half of the states; next last bit", {there_bit(high), counter(false)}, ones, one(half), one(0)},
        {"counter down, half of the states; seven of next last bit", seven, rise, one(half), one(0)},
        {"eight of now last bit and parity of next; no run", eight, mixed, nothing(), one(last ^ 1)},
        {"a low bit with two high ones; no run", {low_with_two(false, false)}, mixed, nothing(), one(last)},
        {"a low bit turns with two high ones; no run", {low_with_two(true, false)}, mixed, nothing(), one(last)},
        {"the same and parity of next high bits; no run", {low_with_two(true, true)}, mixed, nothing(), one(last ^ 1u << high)},
        {"counter; a low bit with two high ones, falling; no run", {counter(true), falling(low_with_two(false, false))}, ones, nothing(), one(last)},
        {"counter; a low bit turns with two high ones, falling; no run", {counter(true), falling(low_with_two(true, false))}, ones, nothing(), one(last)},
        {"counter; odd pairs, falling; no run", {counter(true), falling(odd_pairs())}, ones, nothing(), one(last)},
        {"counter; seven of these and others, falling; no run", falls, ones, nothing(), one(last)},
        {"odd pairs; no run", {odd_pairs()}, mixed, nothing(), bit(high, true)},
        {"eight of odd pairs; no run", std::vector<Relation>(8, odd_pairs()), mixed, nothing(), bit(high, true)},
        {"short counter; parity of the low bits; no run", {short_counter(), low_parity(1)}, free_counter, nothing(), one(below_top)},
        {"short counter; seven of parity of the low bits; no run", odd_low, free_counter, nothing(), one(below_top)},
        {"short counter; two sums agree; no run", {short_counter(), sums(1)}, free_counter, nothing(), one(below_top)},
        {"short counter; seven of two sums agree; no run", agreeing, free_counter, nothing(), one(below_top)},
    };
}

int main(int count, char **argv) {
    n = count > 1 ? atoi(argv[1]) : 0;
    if (n < 4 || n > 16) {
        fprintf(stderr, "coins N [WORD...]: N from 4 to 16\n");
        return 1;
    }
    all = 1u << n;
    high = n - 1;
    printf("| %u bits | refusal | total | states | call, ms | edges | Dijkstra, ms |\n|---|--:|--:|--:|--:|--:|--:|\n", n);
    for (const Case &asked : cases()) {
        bool wanted = count == 2;
        for (int k = 2; k < count; k++) wanted = wanted || strstr(asked.name, argv[k]);
        if (wanted) time_case(asked);
    }
}
