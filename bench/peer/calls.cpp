// What one call costs on a small set, at two sizes of the table; what count costs; what many states cost at once and one by one; and how long a
// hostile table takes.
#include "list.h"
#include "own.h"
#include <algorithm>
#include <cstdio>
#include <cstdlib>
#include <functional>
#include <numeric>
#include <random>
#include <set>

typedef std::vector<u32> Words;
static Account account;
static Words table(u32 bits, u32 rows) {
    Words w(256 + 12 * (size_t)rows, 0);
    if (kudzuclamp_fresh(w.data(), w.size(), &account, 1, bits, rows)) exit(1);
    return w;
}

// A formula in its frame.
static std::vector<uint8_t> framed(std::vector<uint8_t> f) {
    f.insert(f.begin(), {(uint8_t)((f.size() + 1) >> 8), (uint8_t)(f.size() + 1), 1});
    return f;
}

static void set(Words &w, u32 r, const std::vector<uint8_t> &f) {
    u32 node, rounds, peak;
    if (kudzuclamp_set(w.data(), w.size(), &account, 1, 0, r, 100, f.data(), f.size(), &node, &rounds, &peak)) { fprintf(stderr, "set was refused\n"); exit(1); }
}

// A small table: a relation (next 0 is bit 1) and three sets.
static Words small(u32 rows) {
    Words w = table(8, rows);
    auto f = framed({4, 3, 0x20, 0x11, 3, 2, 0x20, 2, 0x11});
    u32 peak;
    if (kudzuclamp_relation(w.data(), w.size(), 0, f.data(), f.size(), &peak)) exit(1);
    for (u32 r = 0; r < 3; r++) set(w, r, framed({3, (uint8_t)(0x10 + r), 2, (uint8_t)(0x11 + r)}));
    return w;
}

// The least time of one call out of batches of calls, in nanoseconds.
static double least(int batch, const std::function<void(int)> &call) {
    double best = 1e18;
    for (int turn = 0; turn < 30; turn++) {
        u64 start = thread_time();
        for (int k = 0; k < batch; k++) call(k);
        best = std::min(best, (double)(thread_time() - start) / batch);
    }
    return best;
}

static void small_calls() {
    const u32 sizes[] = {1344, 60000};
    struct Kind { const char *name; std::function<void(Words &, int)> call; };
    auto both = framed({3, 0x12, 2, 0x13}), diamond = framed({0x68, 0x40}), fixpoint = framed({0x70, 4, 0x41, 0x68, 0x30});
    u32 value;
    std::vector<Kind> kinds = {
        {"set: bit 2 AND NOT bit 3", [&](Words &w, int k) { set(w, 3 + k % 8, both); }},
        {"set: diamond of a register", [&](Words &w, int k) { set(w, 3 + k % 8, diamond); }},
        {"set: least fixpoint", [&](Words &w, int k) { set(w, 3 + k % 8, fixpoint); }},
        {"clear", [&](Words &w, int) { kudzuclamp_clear(w.data(), w.size(), 20); }},
        {"collect", [&](Words &w, int) { kudzuclamp_collect(w.data(), w.size(), &value); }},
        {"count", [&](Words &w, int) { kudzuclamp_count(w.data(), w.size(), 0, &value); }},
    };
    printf("| call on a small set | N = 1,344, µs | N = 60,000, µs | ratio |\n|---|--:|--:|--:|\n");
    for (const Kind &kind : kinds) {
        double time[2];
        for (int s = 0; s < 2; s++) {
            Words w = small(sizes[s]);
            time[s] = least(1000, [&](int k) { kind.call(w, k); });
        }
        printf("| %s | %.2f | %.2f | %.2f |\n", kind.name, time[0] / 1000, time[1] / 1000, time[1] / time[0]);
    }
    printf("\n");
}

// Some p of the lower half of the bits with bits p and p + n / 2: a set of many rows.
static std::vector<uint8_t> halves(u32 bits) {
    std::vector<uint8_t> f;
    for (u32 p = 0; p < bits / 2; p++) {
        if (p + 1 < bits / 2) f.push_back(4);
        f.insert(f.end(), {3, (uint8_t)(0x10 + p), (uint8_t)(0x10 + p + bits / 2)});
    }
    return framed(f);
}

static void counts() {
    printf("| count | bit 0, µs | a set of many rows, µs |\n|---|--:|--:|\n");
    for (u32 bits : {8, 12, 16}) {
        Words w = table(bits, 60000);
        set(w, 0, framed({0x10}));
        set(w, 1, halves(bits));
        double time[2];
        for (u32 r = 0; r < 2; r++) {
            u32 value;
            time[r] = least(10, [&](int) { kudzuclamp_count(w.data(), w.size(), r, &value); });
        }
        printf("| n = %u | %.1f | %.1f |\n", bits, time[0] / 1000, time[1] / 1000);
    }
    printf("\n");
}

// A table of 60,000 rows, laid out by hand. The hostile ones are sound but for register 0, which has an odd row: they are refused, after every other
// check. The rows' places are in order or `mixed`.
class Laid {
  public:
    static const u32 ROWS = 60000;
    static const size_t LIST = 256 + 8 * ROWS, HEADS = LIST + ROWS;
    Words w = table(16, ROWS);

    // All rows in one chain, to which every head leads.
    static Laid one_chain(bool mixed) {
        Laid h(mixed);
        h.fill(ROWS, true);
        std::fill(h.w.begin() + HEADS + 1, h.w.begin() + HEADS + ROWS, h.w[HEADS]);
        return h;
    }
    // The same with a row in the middle equal to the first, and no register.
    static Laid equal_rows(bool mixed) {
        Laid h = one_chain(mixed);
        const u32 *first = &h.w[256 + 8 * (size_t)h.place[0]];
        std::copy(first, first + 3, &h.w[256 + 8 * (size_t)h.place[ROWS / 2]]);
        h.w[16] = 0;
        return h;
    }
    // 15,000 rows in their own buckets, and 45,000 above them that were picked to fall into bucket 7.
    static Laid one_bucket(bool mixed) {
        Laid h(mixed);
        u32 level = h.fill(15000, false);
        std::vector<u32> arrows = h.arrows;
        for (; h.w[3] < ROWS; level--)
            for (u32 low : both(arrows))
                for (u32 high : arrows)
                    if (bucket(level, low, high) == 7 && low != high && h.w[3] < ROWS) h.put(level, low, high, false);
        return h;
    }

    // A sound table: so many used rows, all on even levels and in their own buckets, about as many on each level as on the next; their arrows lead to the next
    // level where that has enough rows. Register 0 has the set of the last row, on level 0.
    static Laid levels(u32 used) {
        Laid h(true);
        std::mt19937 random(2);
        std::vector<u32> plain = h.arrows;
        for (u32 level = 30; h.w[3] < used; level -= 2) {
            std::vector<u32> all = both(plain);
            size_t before = h.arrows.size(), most = std::min<size_t>((used - h.w[3]) / (level / 2 + 1), all.size() * plain.size() - plain.size());
            std::set<std::pair<u32, u32>> made;
            while (made.size() < most) {
                u32 low = all[random() % all.size()], high = plain[random() % plain.size()];
                if (low != high && made.insert({low, high}).second) h.put(level, low, high, false);
            }
            plain.assign(h.arrows.begin() + (most > 100 ? before : 0), h.arrows.end());
        }
        h.w[16] = h.arrows.back() + 1;
        return h;
    }

  private:
    std::vector<u32> place, arrows = {0}; // arrows without a NOT: a high arrow has none
    explicit Laid(bool mixed) : place(ROWS) {
        std::iota(place.begin(), place.end(), 0);
        std::mt19937 random(1);
        if (mixed) std::shuffle(place.begin(), place.end(), random);
        w[16] = 2 * (place[0] + 1) + 1;
    }
    // Each arrow, and the same with a NOT.
    static std::vector<u32> both(const std::vector<u32> &plain) {
        std::vector<u32> all = plain;
        for (u32 a : plain) all.push_back(a + 1);
        return all;
    }
    static u32 bucket(u32 level, u32 low, u32 high) { return (u64)(low * 0x9E3779B1u + high * 0x85EBCA77u + level * 0xC2B2AE3Du) * ROWS >> 32; }
    // The next row becomes the first of its bucket's chain, or of bucket 0's.
    void put(u32 level, u32 low, u32 high, bool one) {
        u32 rank = w[3]++, i = place[rank], *row = &w[256 + 8 * (size_t)i], &head = w[HEADS + (one ? 0 : bucket(level, low, high))];
        row[0] = low, row[1] = high, row[2] = level, row[3] = head, row[4] = rank;
        w[LIST + rank] = i;
        head = i + 1;
        arrows.push_back(2 * (i + 1));
    }
    // Rows from level 31 on, of all pairs of the arrows below, until there are so many; the next free level.
    u32 fill(u32 most, bool one) {
        u32 level = 31;
        for (; w[3] < most; level--) {
            std::vector<u32> below = arrows;
            for (u32 low : both(below))
                for (u32 high : below)
                    if (low != high && w[3] < most) put(level, low, high, one);
        }
        return level;
    }
};

// States asked at once, and one by one.
static void many_states() {
    Laid h = Laid::levels(20000);
    std::mt19937 random(3);
    u32 rows = h.w[3], value, reads, singly;
    printf("| states, %u used rows | one call, µs | single calls, µs | ratio | row reads | singly |\n|--:|--:|--:|--:|--:|--:|\n", rows);
    for (size_t count : {1, 32, 1024}) {
        std::vector<uint16_t> states(count), order(count);
        std::vector<uint8_t> answers(count);
        for (uint16_t &s : states) s = random();
        auto ask = [&](const uint16_t *first, size_t some) {
            if (kudzuclamp_members(h.w.data(), h.w.size(), 0, first, some, order.data(), count, answers.data(), count, &reads)) exit(1);
        };
        double one = least(10, [&](int) { ask(states.data(), count); });
        std::vector<uint8_t> told = answers;
        double single = 1e18;
        for (int turn = 0; turn < 3; turn++) {
            u64 start = thread_time();
            for (size_t k = 0; k < count; k++)
                if (kudzuclamp_member(h.w.data(), h.w.size(), 0, states[k], &value) || value != told[k]) exit(1);
            single = std::min(single, (double)(thread_time() - start));
        }
        singly = 0;
        for (const uint16_t &s : states) ask(&s, 1), singly += reads;
        ask(states.data(), count);
        printf("| %zu | %.1f | %.1f | %.1f | %u | %u |\n", count, one / 1000, single / 1000, single / one, reads, singly);
    }
    printf("\n");
}

static void refusals() {
    struct Kind { const char *name; Laid (*table)(bool); };
    const Kind kinds[] = {
        {"all rows in one chain, register 0 odd", Laid::one_chain},
        {"45,000 rows in one bucket, register 0 odd", Laid::one_bucket},
        {"all rows in one chain, one in the middle equal to the first", Laid::equal_rows},
    };
    printf("| hostile table of 60,000 rows | answer to clear | s |\n|---|--:|--:|\n");
    for (const Kind &kind : kinds)
        for (bool mixed : {false, true}) {
            Laid h = kind.table(mixed);
            u64 start = thread_time();
            u32 answer = kudzuclamp_clear(h.w.data(), h.w.size(), 5);
            printf("| %s, places %s | %u | %.3f |\n", kind.name, mixed ? "mixed" : "in order", answer, (thread_time() - start) / 1e9);
            fflush(stdout);
        }
}

int main() {
    small_calls();
    counts();
    many_states();
    refusals();
}
