// The same lists over BuDDy 2.4. STEPS: AND, then one bdd_exist for each level (the steps of document 01); COUNTING: the same, and after each step the nodes of
// all that is live are counted, which is the job of a peak; FORGETTING: the steps, and what is remembered is forgotten at the start of a call, as document 01
// wants; AT_ONCE: AND, then one bdd_exist for all levels; FUSED: bdd_appex, BuDDy's relational product.
#include "list.h"
#include <algorithm>
#include <bdd.h>
#include <cstdio>
#include <cstdlib>
#include <map>

extern "C" void bdd_operator_reset(void); // empties BuDDy's caches; not in its header
// the functions over a node's number
#undef bdd_anodecount
#undef bdd_var
#undef bdd_low
#undef bdd_high

namespace {
struct OutOfNodes {};
void on_error(int) { throw OutOfNodes(); }

// How many functions have some nodes as a part, up to complement: each node's class and a mark by its level and its parts', as a row with a NOT has them.
class Classes {
  public:
    Classes() { moved = true; }
    u32 count(const std::vector<int> &roots) {
        if (moved) arrows.assign(bdd_getallocnum(), 0), moved = false;
        turn++;
        met.resize(bdd_getallocnum());
        u32 found = 0;
        for (int root : roots) walk(root, found);
        return found;
    }
    // BuDDy may give another node the place of one that it has freed.
    static void on_collection(int, bddGbcStat *) { moved = true; }

  private:
    static bool moved;
    u32 turn = 0;
    std::vector<u32> arrows, met, seen;
    std::map<std::vector<u32>, u32> numbers;

    u32 arrow(int node) {
        if (node < 2) return node;
        if (arrows[node]) return arrows[node];
        u32 low = arrow(bdd_low(node)), high = arrow(bdd_high(node)), mark = high & 1;
        u32 next = numbers.size() + 1;
        u32 number = numbers.emplace(std::vector<u32>{(u32)bdd_var(node), low ^ mark, high ^ mark}, next).first->second;
        return arrows[node] = 2 * number + mark;
    }
    void walk(int node, u32 &found) {
        if (node < 2 || met[node] == turn) return;
        met[node] = turn;
        u32 number = arrow(node) / 2;
        if (seen.size() <= number) seen.resize(2 * number + 1);
        if (seen[number] != turn) seen[number] = turn, found++;
        walk(bdd_low(node), found);
        walk(bdd_high(node), found);
    }
};
bool Classes::moved;

class Engine {
  public:
    Engine(const List &list, u32 rows, u32 cache, Way way, bool counts, Classes *classes = nullptr)
        : n(list.bits), way(way), counts(counts), classes(classes), registers(32), relations(8), variables(16), next(n) {
        bdd_init(rows + 4 * n + 2, cache); // beside `rows` nodes those that BuDDy keeps for its variables and constants
        bdd_gbc_hook(classes ? Classes::on_collection : NULL);
        bdd_error_hook(on_error);
        bdd_setmaxnodenum(bdd_getallocnum() + 1);
        bdd_setminfreenodes(0);
        bdd_setvarnum(2 * n);
        all = bddtrue;
        pairs = bdd_newpair();
        for (int p = 0; p < n; p++) {
            next[p] = bdd_ithvar(2 * p + 1);
            all &= next[p];
            bdd_setpair(pairs, 2 * p, 2 * p + 1);
        }
    }
    void play(const List &list, Run &run) {
        u64 start = thread_time();
        try {
            for (const Call &c : list.calls) call(c, run);
        } catch (OutOfNodes) {
            run.failed = true;
        }
        run.ns = thread_time() - start;
        bddStat s;
        bdd_stats(&s);
        run.collections = s.gbcnum;
    }
    ~Engine() { bdd_freepair(pairs); }

  private:
    void call(const Call &c, Run &run) {
        u32 refused = 0, value = 0;
        peak = 0;
        if (way == FORGETTING && (c.kind == 2 || c.kind == 3)) bdd_operator_reset();
        if (c.kind == 2) {
            const uint8_t *p = c.formula.data() + 3;
            relations[c.number] = eval(p);
        } else if (c.kind == 3) {
            const uint8_t *p = c.formula.data() + 3;
            most = c.most;
            rounds = 0;
            spent = false;
            bdd v = eval(p);
            if (spent) refused = 9;
            else registers[c.number] = v, value = rounds;
        } else if (c.kind == 4) registers[c.number] = bddfalse;
        else if (c.kind == 5) { if (counts) value = (u32)(bdd_satcount(registers[c.number]) / (double)(1u << n) + 0.5); }
        else bdd_gbc();
        run.answers.push_back(refused);
        run.answers.push_back(value);
        run.peaks.push_back(refused ? 0 : peak);
    }
    // A peak counts what is live at a step: its result, its operands a and b, and the rest.
    void step(const bdd &result, const bdd &a, const bdd &b) {
        if (way != COUNTING) return;
        roots.assign({result.id(), a.id(), b.id()});
        for (const std::vector<bdd> *live : {&registers, &relations, &variables, &waiting})
            for (const bdd &x : *live) roots.push_back(x.id());
        u32 need = classes ? classes->count(roots) : bdd_anodecount(roots.data(), roots.size());
        peak = std::max(peak, need);
    }
    bdd diamond(const bdd &r, const bdd &f) {
        bdd g = bdd_replace(f, pairs);
        step(g, f, f);
        if (way == FUSED) return bdd_appex(g, r, bddop_and, all);
        bdd v = g & r;
        step(v, g, r);
        if (way == AT_ONCE) return bdd_exist(v, all);
        for (int p = n - 1; p >= 0; p--) {
            bdd w = bdd_exist(v, next[p]);
            step(w, v, v);
            v = w;
        }
        return v;
    }
    // AND or OR of two parts; the first one's value waits while the second is made.
    bdd both(const uint8_t *&p, bool conjunction) {
        bdd a = eval(p);
        if (way == COUNTING) waiting.push_back(a);
        bdd b = eval(p);
        if (way == COUNTING) waiting.pop_back();
        bdd v = conjunction ? a & b : a | b;
        step(v, a, b);
        return v;
    }
    bdd negated(const bdd &f) {
        bdd v = !f;
        step(v, f, f);
        return v;
    }
    bdd bit(int level) {
        bdd v = bdd_ithvar(level);
        step(v, v, v);
        return v;
    }
    bdd eval(const uint8_t *&p) {
        unsigned c = *p++;
        if (c < 2) return c ? bddtrue : bddfalse;
        if (c == 2) return negated(eval(p));
        if (c == 3 || c == 4) return both(p, c == 3);
        if (c < 0x20) return bit(2 * (c & 15));
        if (c < 0x30) return bit(2 * (c & 15) + 1);
        if (c < 0x40) return variables[c & 15];
        if (c < 0x60) return registers[c - 0x40];
        if (c < 0x68) { bdd f = eval(p); return negated(diamond(relations[c & 7], negated(f))); }
        if (c < 0x70) { bdd f = eval(p); return diamond(relations[c & 7], f); }
        return fixpoint(p, c & 15, c < 0x80 ? bddfalse : bddtrue);
    }
    bdd fixpoint(const uint8_t *&p, unsigned variable, bdd current) {
        const uint8_t *body = p;
        for (;;) {
            spent = spent || rounds == most;
            variables[variable] = spent ? bdd(bddfalse) : current;
            if (spent) return current;
            rounds++;
            p = body;
            bdd v = eval(p);
            if (spent || v == current) { variables[variable] = bddfalse; return v; }
            current = v;
        }
    }
    int n;
    Way way;
    bool counts, spent = false;
    Classes *classes;
    u64 rounds = 0, most = 0;
    u32 peak = 0;
    std::vector<bdd> registers, relations, variables, next, waiting;
    std::vector<int> roots;
    bdd all;
    bddPair *pairs;
};
}

Run run_buddy(const List &list, u32 rows, u32 cache, Way way, bool counts) {
    Run run;
    {
        Engine engine(list, rows, cache, way, counts);
        engine.play(list, run);
    }
    bdd_done();
    return run;
}

std::vector<u32> naive_peaks(const List &list) {
    Run run;
    Classes classes;
    {
        Engine engine(list, 2000000, 200000, COUNTING, false, &classes);
        engine.play(list, run);
    }
    bdd_done();
    if (run.failed) { fprintf(stderr, "the naive count ran out of nodes\n"); exit(1); }
    return run.peaks;
}
