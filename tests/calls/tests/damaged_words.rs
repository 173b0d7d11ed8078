//! Damaged words: refusal 2 exactly where a slow plain check finds them unsound, with all words
//! kept; an accepted table holds what its words say and stays sound through calls.

use calls::call::draw_call;
use calls::compare::make;
use calls::draw::draw_and_run;
use calls::kept;
use calls::list::Step;
use calls::run::{empty_table, Runner, MAX_BITS};
use calls::sound::sound;
use calls::words::*;
use kudzuclamp::{Account, Refusal, Table};
use reference::book::{words_for, Call};
use reference::formula::frame;
use reference::random::Random;

/// Words of sound tables that lists have left, each with n at most 3 and few rows.
fn tables(seed: u64, count: usize) -> Vec<Vec<u32>> {
    let lists = (0..).map(|index| draw_and_run(seed, index).runner);
    let left = lists.map(|runner| runner.words().to_vec());
    let fits = |words: &Vec<u32>| {
        sound(words).is_ok() && words[BITS] <= 3 && words[ROWS] <= 30 && words[USED] > 3
    };
    left.filter(fits).take(count).collect()
}

/// Values that mean something in a word, and some that mean nothing.
fn values(old: u32, rows: u32) -> Vec<u32> {
    let mut values: Vec<u32> = (0..rows + 4).collect();
    values.extend((0..32).map(|bit| old ^ 1 << bit));
    values.extend([old.wrapping_add(1), old.wrapping_sub(1), 60_000, 60_001]);
    values.push(u32::MAX);
    values.sort_unstable();
    values.dedup();
    values.retain(|&value| value != old);
    values
}

/// One call of each kind, each answered on a sound table that has the register and state.
fn one_of_each() -> Vec<Call> {
    let (t, r, place, rounds, state) = (0, 0, 0, 100, 0);
    let formula = frame(&[0x01]);
    vec![
        Call::Relation {
            t,
            formula: formula.clone(),
        },
        Call::Set {
            place,
            r,
            rounds,
            formula,
        },
        Call::Clear { r },
        Call::Collect,
        Call::Node { r },
        Call::Member { r, state },
        Call::Count { r },
        // Check 2 comes before checks 3, 14 and 4.
        Call::Clear { r: 99 },
        Call::Relation {
            t: 99,
            formula: Vec::new(),
        },
        Call::Set {
            place: 99,
            r,
            rounds,
            formula: Vec::new(),
        },
    ]
}

/// Every call is refused with 2 and keeps all words.
fn refuses(words: &[u32]) {
    assert_eq!(Table::over(words).err(), Some(Refusal::Unsound));
    let Ok(mut table) = empty_table(words.len()) else {
        return;
    };
    table.words_mut().copy_from_slice(words);
    for call in one_of_each() {
        let mut accounts = [Account::limited(7, 8)];
        let answer = make(&mut table, &mut accounts, &call);
        assert_eq!(answer.number, 2, "{call:?}");
        assert_eq!(accounts, [Account::limited(7, 8)]);
        kept::all(words, table.words()).unwrap();
    }
    for relation in [false, true] {
        let got = match relation {
            true => table.check_relation([]),
            false => table.check_set([]),
        };
        assert_eq!(got, Err(Refusal::Unsound.into()));
    }
}

/// The table is accepted, holds what its words say, and so do the tables after some calls.
fn accepts(words: &[u32], random: &mut Random) {
    if words[BITS] > MAX_BITS {
        return accepts_wide(words);
    }
    let mut runner = Runner::over(words.to_vec());
    let mut steps = Vec::new();
    let mut outcome = runner.compare_all();
    while outcome.is_ok() && steps.len() < 6 {
        let book = &runner.expected().expect("sound").book;
        let step = Step::Call(draw_call(random, book, runner.accounts()).0);
        outcome = runner.step(&step);
        steps.push(step.to_string());
    }
    let outcome = outcome.and_then(|()| runner.compare_all());
    assert_eq!(outcome, Ok(()), "{steps:#?} on {words:?}");
}

/// As `accepts`, where n is too large for the separate evaluator: by the words alone.
fn accepts_wide(words: &[u32]) {
    let view = Words(words);
    let mut table = Table::over(words.to_vec()).expect("sound");
    for r in 0..32 {
        let set = view.register(r as usize);
        let count = set.as_ref().map(|set| set.count() as u32);
        assert_eq!(table.count(r).ok(), count);
        for state in (0..1 << view.n()).step_by(37) {
            let has = set.as_ref().map(|set| set.contains(state as usize));
            assert_eq!(table.member(r, state).ok(), has);
        }
    }
    let mut calls = one_of_each();
    let rounds = 100;
    for body in [&[0x04, 0x10, 0x11][..], &[0x70, 0x04, 0x10, 0x68, 0x30]] {
        let formula = frame(body);
        calls.push(Call::Set {
            place: 0,
            r: 1,
            rounds,
            formula,
        });
    }
    for call in calls {
        make(&mut table, &mut [Account::unlimited()], &call);
        sound(table.words()).unwrap_or_else(|what| panic!("{what} after {call:?} on {words:?}"));
    }
}

/// Compares the library's verdict with the plain check's, and follows some accepted tables through
/// calls, most of them such as hold something else than before.
fn judge(before: &[u32], words: &[u32], random: &mut Random, counts: &mut [u64; 3]) {
    if sound(words).is_err() {
        counts[2] += 1;
        return refuses(words);
    }
    counts[0] += 1;
    assert!(Table::over(words).is_ok(), "{words:?}");
    let wide = words[BITS] > MAX_BITS;
    let changed = wide || Words(words).book() != Words(before).book();
    if random.chance(if changed { 20 } else { 1 }) {
        counts[1] += 1;
        accepts(words, random);
    }
}

/// Both verdicts came often enough.
fn assert_both(counts: [u64; 3], least: u64) {
    println!("accepted, of these followed, refused: {counts:?}");
    assert!(counts.iter().all(|&count| count > least), "{counts:?}");
}

#[test]
fn every_single_word() {
    let mut random = Random::new(11);
    let mut counts = [0; 3];
    for words in tables(101, 6) {
        let rows = words[ROWS];
        // The words from 56 to 255 have no rule; a few stand for all.
        let places = (0..ROOTS_END + 3).chain(HEADER - 1..table_size(rows as usize));
        for place in places {
            for value in values(words[place], rows) {
                let mut damaged = words.clone();
                damaged[place] = value;
                judge(&words, &damaged, &mut random, &mut counts);
            }
        }
    }
    assert_both(counts, 300);
}

/// Changes some words, or moves rows, links and roots about.
fn damage(random: &mut Random, words: &mut [u32]) {
    let rows = words[ROWS] as usize;
    let any_row = |random: &mut Random| random.below(rows as u64) as usize;
    let (a, b) = (any_row(random), any_row(random));
    let (row_a, row_b) = (HEADER + ROW * a, HEADER + ROW * b);
    match random.below(9) {
        0 => (0..ROW).for_each(|k| words.swap(row_a + k, row_b + k)),
        1 => (LOW..=LEVEL).for_each(|k| words[row_b + k] = words[row_a + k]),
        2 => words[row_a + NEXT] = b as u32 + 1,
        3 => {
            words.swap(HEADER + ROW * rows + a, HEADER + ROW * rows + b);
            if random.chance(50) {
                words.swap(row_a + RANK, row_b + RANK);
            }
        }
        4 => swap_listed(random, words),
        5 => words[HEADER + 9 * rows + a] = b as u32 + 1,
        6 => {
            let roots = (ROOTS_END - FIRST_REGISTER) as u64;
            let [to, from] = [(); 2].map(|()| FIRST_REGISTER + random.below(roots) as usize);
            words[to] = words[from];
        }
        7 => words[FIRST_REGISTER + random.below(40) as usize] = a as u32 + 3,
        _ => {
            for _ in 0..1 + random.below(3) {
                let place = random.below(table_size(rows) as u64) as usize;
                words[place] = random.pick(&values(words[place], rows as u32));
            }
        }
    }
}

/// Exchanges two places of the list of used rows with their ranks, as a sound table may have them.
fn swap_listed(random: &mut Random, words: &mut [u32]) {
    let (rows, used) = (words[ROWS] as usize, u64::from(words[USED]));
    if used < 2 || used > rows as u64 {
        return;
    }
    let [a, b] = [(); 2].map(|()| random.below(used) as usize);
    let list = HEADER + ROW * rows;
    words.swap(list + a, list + b);
    for k in [a, b] {
        let row = words[list + k] as usize;
        if row < rows {
            words[HEADER + ROW * row + RANK] = k as u32;
        }
    }
}

#[test]
fn many_words_at_once() {
    let mut random = Random::new(12);
    let mut counts = [0; 3];
    for words in tables(102, 20) {
        for _ in 0..500 {
            let mut damaged = words.clone();
            for _ in 0..1 + random.below(2) {
                if damaged[ROWS] == words[ROWS] {
                    damage(&mut random, &mut damaged);
                }
            }
            judge(&words, &damaged, &mut random, &mut counts);
        }
    }
    assert_both(counts, 100);
}

/// Fills every word that may hold anything in a sound table: the unused ones of the header, the
/// search's start, the remembered results, the spare words and the unused rows but for their ranks.
fn fill_free_words(random: &mut Random, words: &mut [u32]) {
    let rows = words[ROWS] as usize;
    let mut places: Vec<usize> = (USED + 1..=STORED).collect();
    places.push(UNUSED);
    places.extend(LAYOUT + 1..VALID);
    places.extend(ROOTS_END..HEADER);
    for row in 0..rows {
        let at = HEADER + ROW * row;
        places.extend([at + RANK + 1, at + RANK + 2, at + SPARE]);
        if !Words(words).is_used(row) {
            places.extend(at..at + RANK);
        }
    }
    places.extend(HEADER + 10 * rows..table_size(rows));
    let small = random.chance(70);
    for place in places {
        words[place] = match small {
            true => random.below(rows as u64 + 4) as u32,
            false => random.word() as u32,
        };
    }
}

#[test]
fn remembered_results_count_for_nothing() {
    let mut random = Random::new(13);
    for words in tables(103, 25) {
        for _ in 0..10 {
            let mut filled = words.clone();
            fill_free_words(&mut random, &mut filled);
            sound(&filled).expect("free words have no rule");
            accepts(&filled, &mut random);
        }
    }
}

/// The slots of a table as another one left them: right in form, wrong in content.
#[test]
fn remembered_results_of_another_table() {
    let mut random = Random::new(14);
    let tables = tables(104, 40);
    for words in &tables {
        for other in tables.iter().filter(|other| other[ROWS] == words[ROWS]) {
            let mut mixed = words.clone();
            let rows = words[ROWS] as usize;
            let places = (0..rows).flat_map(|row| [5, 6].map(|k| HEADER + ROW * row + k));
            let slots = HEADER + 10 * rows..table_size(rows);
            for place in places.chain(slots).chain(USED + 1..=STORED) {
                mixed[place] = other[place];
            }
            accepts(&mixed, &mut random);
        }
    }
}

#[test]
fn shorter_slices() {
    for words in tables(105, 3) {
        for length in 0..table_size(words[ROWS] as usize) {
            refuses(&words[..length]);
        }
    }
}

#[test]
fn zeros_and_noise() {
    let mut random = Random::new(15);
    for length in (0..600).chain([16_384]) {
        refuses(&vec![0; length]);
        let noise: Vec<u32> = (0..length).map(|_| random.word() as u32).collect();
        refuses(&noise);
    }
}

/// More bits than the table was made for: its rows stay sound, its sets grow.
#[test]
fn more_bits() {
    for words in tables(106, 4) {
        for n in words[BITS] + 1..=16 {
            let mut wide = words.clone();
            wide[BITS] = n;
            sound(&wide).expect("levels are under 2n");
            accepts_wide(&wide);
        }
    }
}

/// Random words under a sound header and no used row: an empty table.
#[test]
fn no_used_row() {
    let mut random = Random::new(16);
    for _ in 0..300 {
        let rows = 1 + random.below(20);
        let mut words: Vec<u32> = (0..words_for(rows)).map(|_| random.word() as u32).collect();
        words[BITS] = 1 + random.below(3) as u32;
        words[ROWS] = rows as u32;
        words[USED] = 0;
        words[LAYOUT] = CURRENT;
        words[VALID] = ALL_STATES;
        let roots = &mut words[FIRST_REGISTER..ROOTS_END];
        roots.fill_with(|| random.below(3) as u32);
        accepts(&words, &mut random);
    }
}
