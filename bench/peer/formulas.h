// Formulas as bytes, as small functions put them together; the time, and what a refusal ends with.
#pragma once
#include "list.h"
#include <cstdio>
#include <cstdlib>
#include <functional>

using Bytes = std::vector<uint8_t>;

inline Bytes join(u32 word, const Bytes &f, const Bytes &g = {}) {
    Bytes bytes = {uint8_t(word)};
    bytes.insert(bytes.end(), f.begin(), f.end());
    bytes.insert(bytes.end(), g.begin(), g.end());
    return bytes;
}

inline Bytes no(const Bytes &f) { return join(2, f); }
inline Bytes both(const Bytes &f, const Bytes &g) { return join(3, f, g); }
inline Bytes either(const Bytes &f, const Bytes &g) { return join(4, f, g); }
inline Bytes here(u32 p) { return {uint8_t(0x10 + p)}; }
inline Bytes there(u32 p) { return {uint8_t(0x20 + p)}; }
inline Bytes same(const Bytes &f, const Bytes &g) { return either(both(f, g), no(either(f, g))); }
inline Bytes keeps(u32 p) { return same(here(p), there(p)); }
inline Bytes turns(u32 p) { return no(keeps(p)); }

// The AND of what a function says of each of these numbers.
inline Bytes each(u32 from, u32 to, const std::function<Bytes(u32)> &part) {
    Bytes body = part(from);
    for (u32 p = from + 1; p < to; p++) body = both(part(p), body);
    return body;
}

// One state.
inline Bytes state(u32 n, u32 s) {
    return each(0, n, [s](u32 p) { return s >> p & 1 ? here(p) : no(here(p)); });
}

// Where a counter counts up, or down: a bit turns over where the bit below turns from 1, or from 0.
inline Bytes counts(u32 n, bool up) {
    return each(0, n, [up](u32 p) {
        if (p == 0) return turns(0);
        return same(turns(p), both(turns(p - 1), up ? here(p - 1) : no(here(p - 1))));
    });
}

inline Bytes framed(const Bytes &body) {
    size_t length = body.size() + 1;
    return join(length >> 8, join(length & 255, join(1, body)));
}

// Nanoseconds of this thread.
inline u64 now() {
    timespec t;
    clock_gettime(CLOCK_THREAD_CPUTIME_ID, &t);
    return t.tv_sec * 1000000000ull + t.tv_nsec;
}

inline void check(u32 number) {
    if (number == 0) return;
    fprintf(stderr, "refused with %u\n", number);
    exit(1);
}
