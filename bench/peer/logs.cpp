// logs N [WORD...]: runs that fit two logs (Slip 11) at N bits, of the cases whose name has one of the words, or of all. In each room one
// run is drawn; one log has the even bits of its states, the other the odd ones, or neither has any but the last state's. What is written
// must fit and be a run. Last two rooms made to be slow, also with no place in the list (refusal 11): as many sets as there are moments,
// and none again. Thread times in ms, of one call each.
#include "list.h"
#include "own.h"
#include <cstdio>
#include <cstdlib>
#include <ctime>
#include <functional>
#include <string>
#include <vector>

using Bytes = std::vector<uint8_t>;
using Leads = std::function<bool(u32, u32)>;
using Step = std::function<u32(u32, u32)>;

static const u32 ROWS = 60000;
static u32 n, all;
static std::vector<u32> words(256 + 12 * ROWS);

static u64 now() {
    timespec t;
    clock_gettime(CLOCK_THREAD_CPUTIME_ID, &t);
    return t.tv_sec * 1000000000ull + t.tv_nsec;
}

// ---- formulas

static Bytes join(u32 word, const Bytes &f, const Bytes &g = {}) {
    Bytes bytes = {uint8_t(word)};
    bytes.insert(bytes.end(), f.begin(), f.end());
    bytes.insert(bytes.end(), g.begin(), g.end());
    return bytes;
}

static Bytes no(const Bytes &f) { return join(2, f); }
static Bytes both(const Bytes &f, const Bytes &g) { return join(3, f, g); }
static Bytes either(const Bytes &f, const Bytes &g) { return join(4, f, g); }
static Bytes here(u32 p) { return {uint8_t(0x10 + p)}; }
static Bytes there(u32 p) { return {uint8_t(0x20 + p)}; }
static Bytes same(const Bytes &f, const Bytes &g) { return either(both(f, g), no(either(f, g))); }

// ---- rooms: a relation as a formula and as pairs, and a next state of a state for a drawn number

struct Room {
    const char *name;
    Bytes formula;
    Leads leads;
    Step step;
};

// Bit p of the next state is bit p + 1 of this one, the last one is free.
static Room shifts() {
    Bytes f = same(there(0), here(1));
    for (u32 p = 1; p + 1 < n; p++) f = both(same(there(p), here(p + 1)), f);
    return {"bits move down, the last is free", f, [](u32 s, u32 t) { return (t & (all >> 1)) == s >> 1; },
            [](u32 s, u32 drawn) { return s >> 1 | (drawn & 1) << (n - 1); }};
}

static Room counter() {
    Bytes f = no(same(here(0), there(0))), below = here(0);
    for (u32 p = 1; p < n; p++) {
        f = both(same(no(same(here(p), there(p))), below), f);
        below = both(here(p), below);
    }
    return {"counter", f, [](u32 s, u32 t) { return t == ((s + 1) & all); }, [](u32 s, u32) { return (s + 1) & all; }};
}

// Bits only turn on, or all off.
static Room rises() {
    Bytes f = either(no(here(0)), there(0)), off = no(there(0));
    for (u32 p = 1; p < n; p++) f = both(either(no(here(p)), there(p)), f), off = both(no(there(p)), off);
    return {"bits only turn on, or all off", either(f, off), [](u32 s, u32 t) { return (s & ~t) == 0 || t == 0; },
            [](u32 s, u32 drawn) { return drawn % 97 == 0 ? 0 : s | (1u << drawn % n); }};
}

// Bit p of the next state is bit p + 5 or not, as bits p + 9 and p + 14 say together: a set of its own at each moment. At n = 16 its rows
// are too many.
static bool mixed(u32 s, u32 p) {
    auto bit = [s](u32 q) { return s >> q % n & 1; };
    return bit(p + 5) ^ (bit(p + 9) & bit(p + 14));
}

static Room mixes() {
    Bytes f = {1};
    for (u32 p = 0; p < n; p++) f = both(same(there(p), no(same(here((p + 5) % n), both(here((p + 9) % n), here((p + 14) % n))))), f);
    auto next = [](u32 s) {
        u32 t = 0;
        for (u32 p = 0; p < n; p++) t |= u32(mixed(s, p)) << p;
        return t;
    };
    return {"each bit from three others", f, [next](u32 s, u32 t) { return t == next(s); }, [next](u32 s, u32) { return next(s); }};
}

// Bits move down by three, and the last three are bits 0 to 2, each turned over where two others are on: the sets before a moment become as
// large as sets of 16 bits are, some thousand rows, each other than the ones after it, and a diamond takes nearly all of 60,000 rows.
static Room slow() {
    static const u32 pairs[3][2] = {{11, 6}, {9, 2}, {1, 4}};
    Bytes f = {1};
    for (u32 i = 0; i < 3; i++) {
        Bytes turned = both(here(pairs[i][0] % n), here(pairs[i][1] % n));
        f = both(same(there(n - 3 + i), no(same(here(i), turned))), f);
    }
    for (u32 p = n - 3; p-- > 0;) f = both(same(there(p), here(p + 3)), f);
    auto next = [](u32 s) {
        u32 t = s >> 3;
        for (u32 i = 0; i < 3; i++) {
            u32 turned = s >> pairs[i][0] % n & s >> pairs[i][1] % n & 1;
            t |= ((s >> i & 1) ^ turned) << (n - 3 + i);
        }
        return t;
    };
    return {"three bits from others", f, [next](u32 s, u32 t) { return t == next(s); }, [next](u32 s, u32) { return next(s); }};
}

// Bits 12 to 15 choose one of the first twelve, and choose once more in another order. A choice that holds leads to states with these four
// bits off, the other one with them on. AND of such a set and the relation goes through millions of pairs of arrows, each a few times, and
// its result is small: a second or two for each diamond, though no set is large. At n = 16 alone.
static u32 choice(u32 i, u32 order) { return order ? (5 * i + 3) % 16 : i; }

static bool chosen(u32 s, u32 order) {
    for (u32 i = 0; i < 12; i++)
        if (s >> 12 == choice(i, order) && (s >> i & 1)) return true;
    return false;
}

// The four bits from 12 on have this value.
static Bytes four(Bytes (*bit)(u32), u32 value) {
    Bytes f = value & 1 ? bit(12) : no(bit(12));
    for (u32 p = 1; p < 4; p++) f = both(f, value >> p & 1 ? bit(12 + p) : no(bit(12 + p)));
    return f;
}

static Room choices() {
    Bytes f[2];
    for (u32 order = 0; order < 2; order++) {
        for (u32 i = 0; i < 12; i++) {
            Bytes one = both(here(i), four(here, choice(i, order)));
            f[order] = i ? either(f[order], one) : one;
        }
        f[order] = both(f[order], four(there, order ? 15 : 0));
    }
    return {"four bits choose one of twelve", either(f[0], f[1]),
            [](u32 s, u32 t) { return (t >> 12 == 0 && chosen(s, 0)) || (t >> 12 == 15 && chosen(s, 1)); },
            [](u32 s, u32) { return s; }};
}

static Room anything() {
    return {"everything", {1}, [](u32, u32) { return true; }, [](u32, u32 drawn) { return drawn & all; }};
}

// ---- the call

// What is logged: all bits, those of the last state, or of it bit 0 alone; or of it that bits 12 to 15 are off, and at every second moment
// before it that bit 11 is.
enum Known { ALL, LAST, ONE_BIT, OFF };

static void ask(const Room &room, u32 k, Known what, u32 places) {
    static const char *const text[] = {"all bits logged", "the last state alone", "one bit of the last state",
                                       "bits that are off"};
    std::vector<uint16_t> one(2 * k), two(2 * k), list(places, 0xFFFF);
    u32 seed = 7, s = 5 & all;
    for (u32 i = 0; i < k; i++) {
        u32 known = what == ALL || i + 1 == k ? 0x5555 : 0, other = known << 1;
        if (what == ONE_BIT) known &= 1, other = 0;
        if (what == OFF) known = i + 1 == k ? 0xF000 : i % 2 ? 0 : 0x0800, other = 0;
        one[2 * i] = known, one[2 * i + 1] = what == OFF ? 0 : s & known;
        two[2 * i] = other, two[2 * i + 1] = s & other;
        seed = seed * 1664525u + 1013904223u;
        s = room.step(s, seed >> 8);
    }
    u64 start = now();
    u32 number = kudzuclamp_logged(words.data(), words.size(), list.data(), places, 0, one.data(), 2 * k, two.data(), 2 * k);
    u64 spent = now() - start;
    for (u32 i = 0; number == 0 && i < k; i++) {
        bool fits = (list[i] & one[2 * i]) == one[2 * i + 1] && (list[i] & two[2 * i]) == two[2 * i + 1];
        if (!fits || (i > 0 && !room.leads(list[i - 1], list[i]))) fprintf(stderr, "no such run\n"), exit(1);
    }
    printf("| %s; %s | %u | %u | %.1f |\n", room.name, text[what], k, number, spent / 1e6);
    fflush(stdout);
}

// Fills relation 0 of an empty table: the refusal, or 0.
static u32 fill(const Room &room) {
    Account account;
    u32 size = room.formula.size() + 1, peak;
    Bytes framed = {uint8_t(size >> 8), uint8_t(size), 1};
    framed.insert(framed.end(), room.formula.begin(), room.formula.end());
    u32 number = kudzuclamp_fresh(words.data(), words.size(), &account, 1, n, ROWS);
    return number ? number : kudzuclamp_relation(words.data(), words.size(), 0, framed.data(), framed.size(), &peak);
}

// The calls of a room, by its name.
static void ask_all(const Room &room) {
    std::string name = room.name;
    if (name == "three bits from others") {
        for (u32 k : {16u, 24u, 32u}) ask(room, k, ONE_BIT, k);
        for (u32 k : {128u, 1024u}) ask(room, k, ONE_BIT, 0);
    } else if (name == "four bits choose one of twelve") {
        for (u32 k : {2u, 3u}) ask(room, k, OFF, 0);
        for (u32 k : {6u, 10u}) ask(room, k, OFF, k);
    } else {
        for (Known what : {ALL, LAST})
            for (u32 k : {16u, 128u, 1024u}) ask(room, k, what, k);
    }
}

int main(int count, char **word) {
    if (count < 2 || (n = atoi(word[1])) < 2 || n > 16) return fprintf(stderr, "logs N [WORD...]\n"), 1;
    all = (1u << n) - 1;
    printf("| %u bits | moments | refusal | call, ms |\n|---|--:|--:|--:|\n", n);
    std::vector<Room> rooms = {shifts(), counter(), rises(), anything(), mixes(), slow()};
    if (n == 16) rooms.push_back(choices());
    for (const Room &room : rooms) {
        bool named = count < 3;
        for (int i = 2; i < count; i++) named |= std::string(room.name).find(word[i]) != std::string::npos;
        if (!named) continue;
        if (u32 number = fill(room)) {
            printf("| %s: the relation is refused | | %u | |\n", room.name, number);
            continue;
        }
        ask_all(room);
    }
}
