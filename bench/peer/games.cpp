// games N...: guest against machine (Slip 8) at so many bits. Both calls beside an attractor over explicit moves, which are made before,
// and not timed: each state counts its presses that no answer is known to, and enters in the round after the last of them fell. Both must
// tell the same number of states, the same rounds and the same answer. Thread times in ms, the least of three.
#include "formulas.h"
#include "own.h"
#include <algorithm>

using Moves = std::function<void(u32, std::vector<u32> &)>;

static u32 n, all;

// A side's moves: as a formula, and by the state that they start from.
struct Side {
    Bytes formula;
    Moves next;
};

struct Case {
    const char *name;
    Side guest, machine;
    Bytes goal;
    std::function<bool(u32)> holds;
};

// ---- the attractor

// Lists by a state, one after the other.
struct Lists {
    std::vector<u32> at = std::vector<u32>(all + 1), list;

    // Those of a side, from each state.
    static Lists of(const Side &side) {
        Lists made;
        for (u32 s = 0; s < all; s++) {
            side.next(s, made.list);
            made.at[s + 1] = made.list.size();
        }
        return made;
    }

    // The same pairs by the state that they lead to.
    Lists turned() const {
        Lists made;
        for (u32 t : list) made.at[t + 1]++;
        for (u32 t = 0; t < all; t++) made.at[t + 1] += made.at[t];
        made.list.resize(list.size());
        std::vector<u32> next = made.at;
        for (u32 s = 0; s < all; s++)
            for (u32 i = at[s]; i < at[s + 1]; i++) made.list[next[list[i]]++] = s;
        return made;
    }
};

struct Attractor {
    Lists guest, machine, pressed_by, answered_by;
    std::vector<u32> entered; // the round, 0 where there is none
    u32 rounds, states;

    explicit Attractor(const Case &game)
        : guest(Lists::of(game.guest)), machine(Lists::of(game.machine)), pressed_by(guest.turned()), answered_by(machine.turned()) {}

    // The states to which no press is open any more, after those of a layer are answers.
    std::vector<u32> after(const std::vector<u32> &layer, std::vector<u32> &open, std::vector<bool> &answered) const {
        std::vector<u32> next;
        for (u32 u : layer)
            for (u32 i = answered_by.at[u]; i < answered_by.at[u + 1]; i++) {
                u32 press = answered_by.list[i];
                if (answered[press]) continue;
                answered[press] = true;
                for (u32 j = pressed_by.at[press]; j < pressed_by.at[press + 1]; j++)
                    if (--open[pressed_by.list[j]] == 0) next.push_back(pressed_by.list[j]);
            }
        return next;
    }

    u64 make(const std::vector<u32> &goal) {
        u64 start = now();
        std::vector<u32> open(all), layer = goal;
        std::vector<bool> answered(all);
        entered.assign(all, 0);
        rounds = 1;
        states = 0;
        for (u32 s = 0; s < all; s++) open[s] = guest.at[s + 1] - guest.at[s];
        for (u32 round = 1; !layer.empty(); round++) {
            std::vector<u32> fresh;
            for (u32 s : layer)
                if (entered[s] == 0) {
                    entered[s] = round;
                    fresh.push_back(s);
                }
            states += fresh.size();
            if (!fresh.empty()) rounds = round + 1;
            layer = after(fresh, open, answered);
        }
        return now() - start;
    }

    // The least state that no press leads to from a state.
    u32 no_press(u32 state) const {
        auto from = guest.list.begin() + guest.at[state], to = guest.list.begin() + guest.at[state + 1];
        u32 least = 0;
        while (std::find(from, to, least) != to) least++;
        return least;
    }

    // The least answer to a press that enters earlier than a state; all where there is none.
    u32 answer(u32 state, u32 press) const {
        u32 least = all;
        for (u32 i = machine.at[press]; i < machine.at[press + 1]; i++) {
            u32 u = machine.list[i];
            if (entered[u] && entered[u] < entered[state]) least = std::min(least, u);
        }
        return least;
    }
};

// ---- the cases

// One of the parts from a number to another does what it does, the others keep.
static Bytes one_of(u32 from, u32 to, const std::function<Bytes(u32)> &act, const std::function<Bytes(u32)> &keep) {
    if (to - from == 1) return act(from);
    u32 middle = (from + to) / 2;
    Bytes lower = both(one_of(from, middle, act, keep), each(middle, to, keep));
    return either(lower, both(each(from, middle, keep), one_of(middle, to, act, keep)));
}

// Nothing is done.
static Side rest() {
    return {each(0, n, keeps), [](u32 s, std::vector<u32> &list) { list.push_back(s); }};
}

static Side counter() {
    return {counts(n, true), [](u32 s, std::vector<u32> &list) { list.push_back((s + 1) & (all - 1)); }};
}

// Microphones, each with its lock: bits 2i and 2i + 1.
static Bytes kept(u32 i) { return both(keeps(2 * i), keeps(2 * i + 1)); }

// One of the microphones changes as said, or nothing does.
static Side one_microphone(const std::function<Bytes(u32)> &act, const std::function<bool(u32 &)> &change) {
    Moves next = [change](u32 s, std::vector<u32> &list) {
        size_t first = list.size();
        list.push_back(s);
        for (u32 i = 0; i < n; i += 2) {
            u32 pair = s >> i & 3;
            if (change(pair)) list.push_back((s & ~(3u << i)) | pair << i);
        }
        std::sort(list.begin() + first, list.end());
        list.erase(std::unique(list.begin() + first, list.end()), list.end());
    };
    return {either(each(0, n / 2, kept), one_of(0, n / 2, act, kept)), next};
}

// The phone turns one that is not locked over.
static Side phone() {
    auto act = [](u32 i) { return both(turns(2 * i), no(either(here(2 * i + 1), there(2 * i + 1)))); };
    return one_microphone(act, [](u32 &pair) {
        pair ^= 1;
        return pair < 2;
    });
}

// The machine closes and locks one, be it open; or one only that is closed or locked already.
static Side lock(bool open_too) {
    auto act = [open_too](u32 i) {
        Bytes closed = both(no(there(2 * i)), there(2 * i + 1));
        return open_too ? closed : both(closed, either(no(here(2 * i)), here(2 * i + 1)));
    };
    return one_microphone(act, [open_too](u32 &pair) {
        bool may = open_too || pair != 1;
        pair = 2;
        return may;
    });
}

// An odd number of the bits from a number to another is on, of `bit`.
static Bytes odd(u32 from, u32 to, const std::function<Bytes(u32)> &bit) {
    if (to - from == 1) return bit(from);
    u32 middle = (from + to) / 2;
    return no(same(odd(from, middle, bit), odd(middle, to, bit)));
}

// From state 0 alone, to itself.
static Side still() {
    Moves next = [](u32 s, std::vector<u32> &list) {
        if (s == 0) list.push_back(0);
    };
    return {both(state(n, 0), each(0, n, keeps)), next};
}

// From state 0 alone, to the states with both last bits and an odd number of bits on.
static Side far() {
    Moves next = [](u32 s, std::vector<u32> &list) {
        for (u32 u = all / 4 * 3; s == 0 && u < all; u++)
            if (__builtin_parity(u)) list.push_back(u);
    };
    return {both(state(n, 0), both(both(there(n - 2), there(n - 1)), odd(0, n, there))), next};
}

// Bit i of a hash of all bits but the last four: an odd number of four products of two of them is on.
static u32 factor(u32 i, u32 j, bool second) {
    u32 bits = n - 4, first = (5 * i + 3 * j) % bits;
    return second ? (first + 1 + (i + 2 * j) % (bits - 1)) % bits : first;
}

static Bytes hash(u32 i, const std::function<Bytes(u32)> &bit) {
    return odd(0, 4, [&](u32 j) { return both(bit(factor(i, j, false)), bit(factor(i, j, true))); });
}

static u32 hash_of(u32 s) {
    u32 made = 0;
    for (u32 i = 0; i < 4; i++)
        for (u32 j = 0; j < 4; j++) made ^= (s >> factor(i, j, false) & s >> factor(i, j, true) & 1) << i;
    return made;
}

// The last four bits are the hash.
static Bytes hashed(const std::function<Bytes(u32)> &bit) {
    return each(0, 4, [&](u32 i) { return same(bit(n - 4 + i), hash(i, bit)); });
}

static bool is_hashed(u32 s) { return s >> (n - 4) == hash_of(s); }

// From state 0 alone, to the states whose last four bits are their hash, and to those with all bits from bit 3 on.
static Side hashes() {
    Moves next = [](u32 s, std::vector<u32> &list) {
        for (u32 u = 0; s == 0 && u < all; u++)
            if (is_hashed(u) || u >= all - 8) list.push_back(u);
    };
    return {both(state(n, 0), either(hashed(there), each(3, n, there))), next};
}

// All are closed and locked.
static const u32 LOCKED = 0xAAAA;

static std::vector<Case> cases() {
    Bytes locked = each(0, n, [](u32 p) { return p % 2 ? here(p) : no(here(p)); });
    auto all_locked = [](u32 s) { return s == (LOCKED & (all - 1)); };
    return {
        {"counter", rest(), counter(), state(n, 0), [](u32 s) { return s == 0; }},
        {"presses, any can be locked", phone(), lock(true), locked, all_locked},
        {"presses, only a closed one can", phone(), lock(false), locked, all_locked},
        {"a far answer", still(), far(), odd(0, n, here), [](u32 s) { return __builtin_parity(s) == 1; }},
        {"a far answer, hashed", still(), hashes(), no(hashed(here)), [](u32 s) { return !is_hashed(s); }},
    };
}

// ---- the calls

struct Hall {
    std::vector<u32> words = std::vector<u32>(256 + 12 * MOST_ROWS);
    Account account;
    u32 states, rounds;

    explicit Hall(const Case &game) {
        check(kudzuclamp_fresh(words.data(), words.size(), &account, 1, n, MOST_ROWS));
        relation(0, game.guest.formula);
        relation(1, game.machine.formula);
        Bytes bytes = framed(game.goal);
        u32 node, peak;
        check(kudzuclamp_set(words.data(), words.size(), &account, 1, 0, 0, 0, bytes.data(), bytes.size(), &node, &rounds, &peak));
    }

    void relation(u32 t, const Bytes &formula) {
        Bytes bytes = framed(formula);
        u32 peak;
        check(kudzuclamp_relation(words.data(), words.size(), t, bytes.data(), bytes.size(), &peak));
    }

    u64 force() {
        u32 node, peak;
        u64 start = now();
        check(kudzuclamp_force(words.data(), words.size(), &account, 1, 0, 1, UINT32_MAX, 0, 0, 1, &node, &rounds, &peak));
        u64 time = now() - start;
        check(kudzuclamp_count(words.data(), words.size(), 1, &states));
        return time;
    }

    // Ends the program where the answer is another one; `all` stands for 15.
    u64 react(u32 state, u32 press, u32 wanted) {
        u32 answer;
        u64 start = now();
        u32 number = kudzuclamp_react(words.data(), words.size(), &account, 1, 0, UINT32_MAX, 0, 0, 1, state, press, &answer);
        u64 time = now() - start;
        if (number != 15) check(number);
        agree(number == 15 ? all : answer, wanted);
        return time;
    }

    static void agree(u32 got, u32 wanted) {
        if (got == wanted) return;
        fprintf(stderr, "the two differ: %u and %u\n", got, wanted);
        exit(1);
    }
};

static u64 least(const std::function<u64()> &once) { return std::min({once(), once(), once()}); }

static void time_case(const Case &game) {
    Attractor peer(game);
    std::vector<u32> goal;
    for (u32 s = 0; s < all; s++)
        if (game.holds(s)) goal.push_back(s);
    u64 time = least([&] { return peer.make(goal); });
    Hall hall(game);
    u64 force = least([&] { return hall.force(); });
    Hall::agree(hall.states, peer.states);
    Hall::agree(hall.rounds, peer.rounds);
    // The last state to enter, with its last press; and with a press that is no guest move.
    u32 last = std::max_element(peer.entered.begin(), peer.entered.end()) - peer.entered.begin();
    u32 press = peer.guest.list[peer.guest.at[last + 1] - 1];
    u64 answered = least([&] { return hall.react(last, press, peer.answer(last, press)); });
    u32 wrong = peer.no_press(last);
    u64 none = least([&] { return hall.react(last, wrong, all); });
    size_t moves = peer.guest.list.size() + peer.machine.list.size();
    printf("| %u | %s | %u | %u | %.2f | %.2f | %.2f | %zu | %.2f |\n", n, game.name, hall.states, hall.rounds, force / 1e6, answered / 1e6,
           none / 1e6, moves, time / 1e6);
    fflush(stdout);
}

int main(int count, char **argv) {
    printf("| n | game | states | rounds | force, ms | react, ms | react with 15, ms | moves | attractor, ms |\n");
    printf("|--:|---|--:|--:|--:|--:|--:|--:|--:|\n");
    for (int k = 1; k < count; k++) {
        n = atoi(argv[k]);
        if (n < 6 || n > 16 || n % 2) {
            fprintf(stderr, "games N...: N from 6 to 16, even\n");
            return 1;
        }
        all = 1u << n;
        for (const Case &game : cases()) time_case(game);
    }
}
