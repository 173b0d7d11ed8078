// A list of calls through the static library. A library from before peaks ignores the pointer to one, so that bench/before may link it.
#include "list.h"
#include "own.h"

static const int PLAY_WORDS = 5;

// Words of a fresh table; none where fresh refuses.
static std::vector<u32> &table(const List &list, u32 rows, Account &account, Run &run) {
    static std::vector<u32> words;
    words.assign(256 + 12 * (size_t)rows, 0);
    run.failed = kudzuclamp_fresh(words.data(), words.size(), &account, 1, list.bits, rows);
    return words;
}

static Run play_calls(const List &list, u32 rows, bool counts, bool count_sets) {
    Run run;
    Account account;
    std::vector<u32> &words = table(list, rows, account, run);
    if (run.failed) return run;
    u32 *w = words.data();
    size_t size = words.size();
    u64 start = thread_time();
    for (const Call &c : list.calls) {
        u32 refused = 0, value = 0, node, states, peak = 0;
        const uint8_t *f = c.formula.data();
        size_t length = c.formula.size();
        switch (c.kind) {
        case 2: refused = kudzuclamp_relation(w, size, c.number, f, length, &peak); break;
        case 3:
            refused = kudzuclamp_set(w, size, &account, 1, 0, c.number, c.most, f, length, &node, &value, &peak);
            if (count_sets && !refused) kudzuclamp_count(w, size, c.number, &states);
            break;
        case 4: refused = kudzuclamp_clear(w, size, c.number); break;
        case 5: if (counts) refused = kudzuclamp_count(w, size, c.number, &value); break;
        default: refused = kudzuclamp_collect(w, size, &value), value = 0;
        }
        if (refused != 0 && refused != 9) { run.failed = true; break; }
        run.answers.push_back(refused);
        run.answers.push_back(value);
        run.peaks.push_back(peak);
    }
    run.ns = thread_time() - start;
    return run;
}

Run run_own(const List &list, u32 rows, bool counts) { return play_calls(list, rows, counts, false); }
Run run_counting_sets(const List &list, u32 rows) { return play_calls(list, rows, true, true); }

u32 needed(const List &list) {
    u32 below = 0, enough = MOST_ROWS;
    while (enough - below > 1) {
        u32 middle = (below + enough) / 2;
        if (run_own(list, middle, false).failed) below = middle;
        else enough = middle;
    }
    return enough;
}

// A number in so many bytes, the weightiest first.
static void put(std::vector<uint8_t> &bytes, u32 number, int count) {
    while (count-- > 0) bytes.push_back(number >> 8 * count);
}

// The calls as the program's records.
static std::vector<uint8_t> records(const List &list) {
    std::vector<uint8_t> bytes;
    for (const Call &c : list.calls) {
        put(bytes, 2 + (c.kind != 6) + 4 * (c.kind == 3) + c.formula.size(), 2);
        put(bytes, 1, 1);
        put(bytes, c.kind, 1);
        if (c.kind != 6) put(bytes, c.number, 1);
        if (c.kind == 3) put(bytes, c.most, 4);
        bytes.insert(bytes.end(), c.formula.begin(), c.formula.end());
    }
    return bytes;
}

Run run_play(const List &list, u32 rows) {
    Run run;
    Account account;
    std::vector<u32> &words = table(list, rows, account, run);
    if (run.failed) return run;
    std::vector<uint8_t> bytes = records(list);
    std::vector<u32> outcomes(PLAY_WORDS * list.calls.size());
    size_t count;
    u64 start = thread_time();
    run.failed = kudzuclamp_play(words.data(), words.size(), bytes.data(), bytes.size(), outcomes.data(), outcomes.size(), &count) || count != list.calls.size();
    run.ns = thread_time() - start;
    for (size_t k = 0; k < list.calls.size(); k++) {
        const u32 *x = &outcomes[PLAY_WORDS * k];
        if (x[0] != 0 && x[0] != 9) run.failed = true;
        run.answers.push_back(x[0]);
        run.answers.push_back(list.calls[k].kind == 3 ? x[2] : list.calls[k].kind == 5 ? x[3] : 0);
        run.peaks.push_back(x[4]);
    }
    return run;
}
