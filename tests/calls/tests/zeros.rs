//! "Returned: number, zeros": what a refused call writes into its answers. The wrapper gives no
//! answers with a refusal, so the entry points of include/kudzuclamp.h are called directly.

use kudzuclamp::{Account, Formula, Table, Target};
use reference::formula::frame;

extern "C" {
    fn kudzuclamp_relation(
        words: *mut u32,
        words_len: usize,
        t: u32,
        bytes: *const u8,
        bytes_len: usize,
        peak: *mut u32,
    ) -> u32;
    fn kudzuclamp_set(
        words: *mut u32,
        words_len: usize,
        accounts: *mut Account,
        accounts_len: usize,
        place: u32,
        r: u32,
        most: u32,
        bytes: *const u8,
        bytes_len: usize,
        node: *mut u32,
        rounds: *mut u32,
        peak: *mut u32,
    ) -> u32;
    fn kudzuclamp_collect(words: *mut u32, words_len: usize, rows: *mut u32) -> u32;
    fn kudzuclamp_node(words: *const u32, words_len: usize, r: u32, node: *mut u32) -> u32;
    fn kudzuclamp_member(
        words: *const u32,
        words_len: usize,
        r: u32,
        s: u32,
        value: *mut u32,
    ) -> u32;
    fn kudzuclamp_members(
        words: *const u32,
        words_len: usize,
        r: u32,
        states: *const u16,
        states_len: usize,
        order: *mut u16,
        order_len: usize,
        answers: *mut u8,
        answers_len: usize,
        reads: *mut u32,
    ) -> u32;
    fn kudzuclamp_count(words: *const u32, words_len: usize, r: u32, value: *mut u32) -> u32;
    fn kudzuclamp_shortest(
        words: *mut u32,
        words_len: usize,
        list: *mut u16,
        list_len: usize,
        a: u32,
        b: u32,
        t: u32,
        states: *mut u32,
    ) -> u32;
    fn kudzuclamp_cheapest(
        words: *const u32,
        words_len: usize,
        prices: *const u8,
        prices_len: usize,
        work: *mut u64,
        work_len: usize,
        states: *mut u16,
        states_len: usize,
        relations: *mut u8,
        relations_len: usize,
        a: u32,
        b: u32,
        total: *mut u32,
        charge: *mut u32,
        count: *mut u32,
    ) -> u32;
    fn kudzuclamp_force(
        words: *mut u32,
        words_len: usize,
        accounts: *mut Account,
        accounts_len: usize,
        place: u32,
        r: u32,
        most: u32,
        goal: u32,
        guest: u32,
        machine: u32,
        node: *mut u32,
        rounds: *mut u32,
        peak: *mut u32,
    ) -> u32;
    fn kudzuclamp_react(
        words: *mut u32,
        words_len: usize,
        accounts: *const Account,
        accounts_len: usize,
        place: u32,
        most: u32,
        goal: u32,
        guest: u32,
        machine: u32,
        state: u32,
        press: u32,
        answer: *mut u32,
    ) -> u32;
    fn kudzuclamp_logged(
        words: *mut u32,
        words_len: usize,
        list: *mut u16,
        list_len: usize,
        t: u32,
        one: *const u16,
        one_len: usize,
        two: *const u16,
        two_len: usize,
    ) -> u32;
}

/// What stands in an answer before the call.
const BEFORE: u32 = 0xAAAA_AAAA;

/// n = 2, N = 3, register 0 holds bit 0.
fn room() -> Vec<u32> {
    let mut accounts = [Account::unlimited()];
    let mut table = Table::new(&mut accounts, 2, 3).unwrap();
    let bit = Formula::current(0);
    table.set(&mut accounts, Target::register(0), bit).unwrap();
    table.into_words()
}

/// Number and peak of a relation.
fn relation(mut words: Vec<u32>, t: u32, body: &[u8]) -> [u32; 2] {
    let bytes = frame(body);
    let mut peak = BEFORE;
    // SAFETY: pointers and lengths are those of vectors and a local.
    let number = unsafe {
        kudzuclamp_relation(
            words.as_mut_ptr(),
            words.len(),
            t,
            bytes.as_ptr(),
            bytes.len(),
            &mut peak,
        )
    };
    [number, peak]
}

/// Number, node, rounds and peak of a set under an account with the largest limits.
fn set(words: Vec<u32>, r: u32, most: u32, body: &[u8]) -> [u32; 4] {
    set_under(words, 0, r, most, body)
}

/// The same under the account at a place of a list of one.
fn set_under(mut words: Vec<u32>, place: u32, r: u32, most: u32, body: &[u8]) -> [u32; 4] {
    let mut accounts = [Account::unlimited()];
    let bytes = frame(body);
    let (mut node, mut rounds, mut peak) = (BEFORE, BEFORE, BEFORE);
    // SAFETY: pointers and lengths are those of vectors and locals.
    let number = unsafe {
        kudzuclamp_set(
            words.as_mut_ptr(),
            words.len(),
            accounts.as_mut_ptr(),
            accounts.len(),
            place,
            r,
            most,
            bytes.as_ptr(),
            bytes.len(),
            &mut node,
            &mut rounds,
            &mut peak,
        )
    };
    [number, node, rounds, peak]
}

/// Numbers and values of node, member, count and collect.
fn questions(words: &mut [u32], r: u32, s: u32) -> [[u32; 2]; 4] {
    let mut values = [BEFORE; 4];
    let [node, member, count, collect] = &mut values;
    let (at, length) = (words.as_mut_ptr(), words.len());
    // SAFETY: pointer and length are those of a mutable slice, the others are locals'.
    let numbers = unsafe {
        [
            kudzuclamp_node(at, length, r, node),
            kudzuclamp_member(at, length, r, s, member),
            kudzuclamp_count(at, length, r, count),
            kudzuclamp_collect(at, length, collect),
        ]
    };
    std::array::from_fn(|k| [numbers[k], values[k]])
}

/// Number and states of a shortest run into register b, for a list of so many places.
fn shortest(words: &mut [u32], b: u32, places: usize) -> [u32; 2] {
    let mut list = vec![7; 9];
    let mut states = BEFORE;
    // SAFETY: pointers and lengths are those of a slice, a vector and a local.
    let number = unsafe {
        kudzuclamp_shortest(
            words.as_mut_ptr(),
            words.len(),
            list.as_mut_ptr(),
            places,
            0,
            b,
            0,
            &mut states,
        )
    };
    [number, states]
}

/// Number, total, charge and states of a cheapest run from register 0 into register b, for so many prices, work words and
/// places for states.
fn cheapest(words: &[u32], b: u32, prices: usize, work: usize, places: usize) -> [u32; 4] {
    let (mut lent, mut states, mut relations) = ([7; 9], [7; 9], [7; 9]);
    let (mut total, mut charge, mut count) = (BEFORE, BEFORE, BEFORE);
    // SAFETY: pointers and lengths are those of slices, arrays and locals.
    let number = unsafe {
        kudzuclamp_cheapest(
            words.as_ptr(),
            words.len(),
            [3; 9].as_ptr(),
            prices,
            lent.as_mut_ptr(),
            work,
            states.as_mut_ptr(),
            places,
            relations.as_mut_ptr(),
            relations.len(),
            0,
            b,
            &mut total,
            &mut charge,
            &mut count,
        )
    };
    [number, total, charge, count]
}

#[test]
fn refused_fares() {
    let mut accounts = [Account::unlimited()];
    let mut table = Table::new(&mut accounts, 2, 9).unwrap();
    let bit = Formula::current;
    for (r, set) in (0..).zip([bit(0) & !bit(1), bit(1), Formula::falsity()]) {
        let stored = table.set(&mut accounts, Target::register(r), set);
        stored.unwrap();
    }
    table.relation(0, bit(0) & Formula::next(1)).unwrap();
    let words = table.into_words();
    let mut unsound = words.clone();
    unsound[0] = 0;
    assert_eq!(cheapest(&words, 1, 7, 4, 9), [1, 0, 0, 0]);
    assert_eq!(cheapest(&unsound, 1, 8, 4, 9), [2, 0, 0, 0]);
    assert_eq!(cheapest(&words, 1, 8, 3, 9), [1, 0, 0, 0]);
    assert_eq!(cheapest(&words, 32, 8, 4, 9), [3, 0, 0, 0]);
    assert_eq!(cheapest(&words, 3, 8, 4, 9), [7, 0, 0, 0]);
    assert_eq!(cheapest(&words, 2, 8, 4, 9), [10, 0, 0, 0]);
    assert_eq!(cheapest(&words, 1, 8, 4, 1), [11, 0, 0, 0]);
    assert_eq!(cheapest(&words, 1, 8, 4, 2), [0, 3, 1, 2]);
    assert_eq!(cheapest(&words, 0, 8, 4, 1), [0, 0, 0, 1]);
}

#[test]
fn refused_sets() {
    let mut unsound = room();
    unsound[0] = 0;
    assert_eq!(set(unsound, 1, 9, &[0x11]), [2, 0, 0, 0]);
    assert_eq!(set(room(), 32, 9, &[0x11]), [3, 0, 0, 0]);
    assert_eq!(set_under(room(), 1, 1, 9, &[0x11]), [14, 0, 0, 0]);
    assert_eq!(set(room(), 1, 9, &[0x12]), [4, 0, 0, 0]);
    assert_eq!(set(room(), 1, 9, &[0x30]), [5, 0, 0, 0]);
    assert_eq!(set(room(), 1, 9, &[0x70, 0x02, 0x30]), [6, 0, 0, 0]);
    assert_eq!(set(room(), 1, 9, &[0x41]), [7, 0, 0, 0]);
    assert_eq!(set(room(), 1, 9, &[0x70, 0x11]), [12, 0, 0, 0]);
    // In the second round, and after rounds were counted and rows made.
    let spent = [0x70, 0x04, 0x11, 0x30];
    assert_eq!(set(room(), 1, 1, &spent), [9, 0, 0, 0]);
    let full = [
        0x04, 0x71, 0x04, 0x11, 0x31, 0x04, 0x03, 0x10, 0x11, 0x02, 0x10,
    ];
    assert_eq!(set(room(), 1, 9, &full), [8, 0, 0, 0]);
    assert_eq!(set(room(), 1, 9, &[0x70, 0x30]), [0, 0, 1, 0]);
}

#[test]
fn refused_relations() {
    let mut unsound = room();
    unsound[0] = 0;
    assert_eq!(relation(unsound, 0, &[0x20]), [2, 0]);
    assert_eq!(relation(room(), 8, &[0x20]), [3, 0]);
    assert_eq!(relation(room(), 0, &[0x40]), [4, 0]);
    // After a step that fits.
    let full = [0x03, 0x20, 0x03, 0x11, 0x21];
    assert_eq!(relation(room(), 0, &full), [8, 0]);
    assert_eq!(relation(room(), 0, &[0x20]), [0, 2]);
    // The steps with V count what is live, also of a constant.
    assert_eq!(relation(room(), 0, &[0x01]), [0, 1]);
}

#[test]
fn refused_questions() {
    let mut words = room();
    let answered = questions(&mut words, 0, 1);
    assert_eq!(answered.map(|[number, _]| number), [0; 4]);
    assert_eq!(answered[1..], [[0, 1], [0, 2], [0, 1]]);
    let empty = questions(&mut words, 1, 1);
    assert_eq!(empty[..3], [[7, 0]; 3]);
    let outside = questions(&mut words, 32, 1);
    assert_eq!(outside[..3], [[3, 0]; 3]);
    assert_eq!(questions(&mut words, 0, 4)[1], [3, 0]);
    words[1] = 0;
    assert_eq!(questions(&mut words, 0, 1), [[2, 0]; 4]);
}

/// Number and reads of a question for some states, with lists of so many places; of both lists only
/// an answered one changes anything.
fn members(words: &[u32], r: u32, states: &[u16], places: usize) -> [u32; 2] {
    let (mut order, mut answers) = (vec![0xAAAA; places], vec![0xAA; places]);
    let mut reads = BEFORE;
    // SAFETY: pointers and lengths are those of slices, vectors and a local.
    let number = unsafe {
        kudzuclamp_members(
            words.as_ptr(),
            words.len(),
            r,
            states.as_ptr(),
            states.len(),
            order.as_mut_ptr(),
            places,
            answers.as_mut_ptr(),
            places,
            &mut reads,
        )
    };
    if number != 0 {
        assert_eq!(order, vec![0xAAAA; places]);
        assert_eq!(answers, vec![0xAA; places]);
    }
    [number, reads]
}

#[test]
fn refused_questions_for_many_states() {
    let mut words = room();
    assert_eq!(members(&words, 0, &[0, 1, 3], 3), [0, 1]);
    assert_eq!(members(&words, 0, &[], 0), [0, 0]);
    assert_eq!(members(&words, 0, &[0, 1, 3], 2), [1, 0]);
    assert_eq!(members(&words, 0, &[0; 1_025], 1_025), [1, 0]);
    assert_eq!(members(&words, 32, &[0], 1), [3, 0]);
    assert_eq!(members(&words, 0, &[0, 4], 2), [3, 0]);
    assert_eq!(members(&words, 1, &[0, 1], 2), [7, 0]);
    words[1] = 0;
    assert_eq!(members(&words, 0, &[0], 1), [2, 0]);
    assert_eq!(members(&words, 0, &[0], 0), [1, 0]);
}

#[test]
fn refused_runs() {
    let mut accounts = [Account::unlimited()];
    let mut table = Table::new(&mut accounts, 2, 6).unwrap();
    table.relation(0, frame(&[0x21])).unwrap();
    for (r, body) in (0..).zip([[0x10], [0x11], [0x00]]) {
        table
            .set(&mut accounts, Target::register(r), frame(&body))
            .unwrap();
    }
    let mut words = table.into_words();
    assert_eq!(shortest(&mut words, 32, 9), [3, 0]);
    assert_eq!(shortest(&mut words, 5, 9), [7, 0]);
    assert_eq!(shortest(&mut words, 2, 9), [10, 0]);
    assert_eq!(shortest(&mut words, 1, 0), [11, 0]);
    assert_eq!(shortest(&mut words, 1, 9), [0, 1]);
    words[1] = 0;
    assert_eq!(shortest(&mut words, 1, 9), [2, 0]);
}

/// n = 2 and so many rows: register 0 has state 3, relation 0 turns bit 0 over, relation 1 may turn bit 1 on.
fn bar(rows: u32) -> Vec<u32> {
    let mut accounts = [Account::unlimited()];
    let mut table = Table::new(&mut accounts, 2, rows).unwrap();
    let press = Formula::turns(0) & Formula::keeps(1);
    table.relation(0, press).unwrap();
    let reply = Formula::keeps(0) & (Formula::keeps(1) | Formula::next(1));
    table.relation(1, reply).unwrap();
    let both = Formula::current(0) & Formula::current(1);
    table.set(&mut accounts, Target::register(0), both).unwrap();
    table.into_words()
}

/// Number, node, rounds and peak of force into register r, with goal, guest and machine, under the account at a place
/// of a list of one.
fn force(words: &mut [u32], place: u32, r: u32, most: u32, game: [u32; 3]) -> [u32; 4] {
    let mut accounts = [Account::unlimited()];
    let (mut node, mut rounds, mut peak) = (BEFORE, BEFORE, BEFORE);
    // SAFETY: pointers and lengths are those of slices, arrays and locals.
    let number = unsafe {
        kudzuclamp_force(
            words.as_mut_ptr(),
            words.len(),
            accounts.as_mut_ptr(),
            accounts.len(),
            place,
            r,
            most,
            game[0],
            game[1],
            game[2],
            &mut node,
            &mut rounds,
            &mut peak,
        )
    };
    [number, node, rounds, peak]
}

/// Number and answer of react, in a state to a press.
fn react(words: &mut [u32], place: u32, most: u32, game: [u32; 3], turn: [u32; 2]) -> [u32; 2] {
    let accounts = [Account::unlimited()];
    let mut answer = BEFORE;
    // SAFETY: pointers and lengths are those of slices, arrays and locals.
    let number = unsafe {
        kudzuclamp_react(
            words.as_mut_ptr(),
            words.len(),
            accounts.as_ptr(),
            accounts.len(),
            place,
            most,
            game[0],
            game[1],
            game[2],
            turn[0],
            turn[1],
            &mut answer,
        )
    };
    [number, answer]
}

#[test]
fn refused_games() {
    const GAME: [u32; 3] = [0, 0, 1];
    let mut words = bar(100);
    let answered = force(&mut words, 0, 1, 9, GAME);
    assert_eq!([answered[0], answered[1], answered[2]], [0, 1, 4]);
    let peak = answered[3];
    let mut words = bar(100);
    for (r, game) in [(32, GAME), (1, [32, 0, 1]), (1, [0, 8, 1]), (1, [0, 0, 8])] {
        assert_eq!(force(&mut words, 1, r, 0, game), [3, 0, 0, 0]);
    }
    assert_eq!(force(&mut words, 1, 1, 0, [1, 0, 1]), [14, 0, 0, 0]);
    for game in [[1, 0, 1], [0, 2, 1], [0, 0, 2]] {
        assert_eq!(force(&mut words, 0, 1, 0, game), [7, 0, 0, 0]);
    }
    assert_eq!(force(&mut words, 0, 1, 3, GAME), [9, 0, 0, 0]);
    assert_eq!(force(&mut bar(peak - 1), 0, 1, 9, GAME), [8, 0, 0, 0]);
    words[0] = 0;
    assert_eq!(force(&mut words, 1, 32, 0, GAME), [2, 0, 0, 0]);
}

#[test]
fn refused_answers() {
    const GAME: [u32; 3] = [0, 0, 1];
    let mut words = bar(100);
    let peak = force(&mut bar(100), 0, 1, 9, GAME)[3];
    assert_eq!(react(&mut words, 0, 4, GAME, [1, 0]), [0, 0]);
    assert_eq!(react(&mut words, 0, 4, GAME, [0, 1]), [0, 3]);
    for (game, turn) in [
        ([32, 0, 1], [0, 1]),
        ([0, 8, 1], [0, 1]),
        ([0, 0, 8], [0, 1]),
        (GAME, [4, 1]),
        (GAME, [0, 4]),
    ] {
        assert_eq!(react(&mut words, 1, 0, game, turn), [3, 0]);
    }
    assert_eq!(react(&mut words, 1, 0, [1, 0, 1], [0, 1]), [14, 0]);
    for game in [[1, 0, 1], [0, 2, 1], [0, 0, 2]] {
        assert_eq!(react(&mut words, 0, 0, game, [3, 3]), [7, 0]);
    }
    assert_eq!(react(&mut words, 0, 3, GAME, [3, 3]), [9, 0]);
    assert_eq!(react(&mut bar(peak - 1), 0, 4, GAME, [3, 3]), [8, 0]);
    // In the goal; no move of the guest's.
    assert_eq!(react(&mut words, 0, 4, GAME, [3, 2]), [15, 0]);
    assert_eq!(react(&mut words, 0, 4, GAME, [0, 2]), [15, 0]);
    // With the guest's relation for both no state but the goal's is in the set.
    assert_eq!(react(&mut words, 0, 4, [0, 0, 0], [0, 1]), [15, 0]);
    words[0] = 0;
    assert_eq!(react(&mut words, 1, 0, GAME, [4, 4]), [2, 0]);
}

/// The number of a call for a run of relation t, with the first so many numbers of each log and a list of so many
/// places; only an answered one writes, and as many places as there are entries.
fn logged(words: &mut [u32], t: u32, numbers: [usize; 2], places: usize) -> u32 {
    // State 1; bit 1 off; a value outside its mask.
    let (one, two) = ([3, 1, 0, 0, 0, 0], [0, 0, 2, 0, 2, 1]);
    let mut list = vec![0xAAAA; places];
    // SAFETY: pointers and lengths are those of slices, arrays and a vector.
    let number = unsafe {
        kudzuclamp_logged(
            words.as_mut_ptr(),
            words.len(),
            list.as_mut_ptr(),
            places,
            t,
            one[..numbers[0]].as_ptr(),
            numbers[0],
            two[..numbers[1]].as_ptr(),
            numbers[1],
        )
    };
    let written = list.iter().filter(|&&state| state != 0xAAAA).count();
    assert_eq!(written, if number == 0 { numbers[0] / 2 } else { 0 });
    number
}

#[test]
fn refused_logs() {
    let mut words = bar(100);
    for numbers in [[0, 0], [1, 1], [3, 3], [2, 4], [4, 2]] {
        assert_eq!(logged(&mut words, 8, numbers, 0), 1);
    }
    assert_eq!(logged(&mut words, 8, [2, 2], 0), 3);
    assert_eq!(logged(&mut words, 2, [2, 2], 0), 7);
    assert_eq!(logged(&mut words, 0, [6, 6], 0), 10);
    assert_eq!(logged(&mut words, 0, [4, 4], 1), 11);
    assert_eq!(logged(&mut words, 0, [4, 4], 2), 0);
    assert_eq!(logged(&mut words, 1, [2, 2], 5), 0);
    // Every pair of states: the first entry's state has two rows, though the last entry's has none.
    let pairs = |rows| {
        let mut table = Table::new(&mut [Account::unlimited()], 2, rows).unwrap();
        table.relation(0, Formula::truth()).unwrap();
        table.into_words()
    };
    assert_eq!(logged(&mut pairs(1), 0, [6, 6], 0), 8);
    assert_eq!(logged(&mut pairs(2), 0, [6, 6], 0), 10);
    words[0] = 0;
    assert_eq!(logged(&mut words, 8, [2, 2], 0), 2);
    assert_eq!(logged(&mut words, 8, [3, 3], 0), 1);
}
