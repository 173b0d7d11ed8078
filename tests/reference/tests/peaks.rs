//! Slip 2: "the largest row need, over its steps, of live sets and result
//! together, 0 if it took no step."

mod common;
use common::*;
use reference::accounts::Account;
use reference::book::{Answer, Book, Call};
use reference::evaluate::peak_within;
use reference::formula::{frame, read, Formula, Kind};
use reference::lists::generate;
use reference::random::Random;
use reference::refusal::Refusal;

fn set_peak(book: &mut Book, r: u64, body: &[u8]) -> usize {
    set(book, r, body).unwrap().peak
}

fn relation_peak(book: &mut Book, t: u64, body: &[u8]) -> usize {
    relation(book, t, body).unwrap().peak
}

#[test]
fn no_step_no_peak() {
    let mut book = toggle_book();
    set(&mut book, 0, &[0x10]).unwrap();
    for body in [&[0x00][..], &[0x01], &[0x40], &[0x70, 0x30], &[0x80, 0x30]] {
        assert_eq!(set_peak(&mut book, 1, body), 0, "{body:x?}");
    }
    // Slip 6: a relation always takes the steps with V, which need what is live.
    for body in [0x00, 0x01] {
        assert_eq!(relation_peak(&mut book, 1, &[body]), 3);
    }
}

/// A step that makes no row needs what is live.
#[test]
fn steps_over_constants() {
    let mut book = book(1, 100);
    let not_false = [0x02, 0x00];
    assert_eq!(set_peak(&mut book, 0, &not_false), 0);
    set(&mut book, 1, &[0x10]).unwrap();
    assert_eq!(set_peak(&mut book, 0, &not_false), 1);
    relation(&mut book, 0, &TOGGLE).unwrap();
    assert_eq!(set_peak(&mut book, 0, &not_false), 3);
    assert_eq!(relation_peak(&mut book, 1, &not_false), 3);
}

/// Counted by hand; x and y are bits 0 and 1.
#[test]
fn the_bench() {
    // At the second AND: next x AND NOT x, next x, which is a part of it, x, and x AND NOT next x. At
    // the OR the toggle stands for x.
    assert_eq!(relation_peak(&mut book(1, 100), 0, &TOGGLE), 4);
    // The toggle's two rows, the operand of EXISTS, NOT x AND next x, and its result NOT x.
    assert_eq!(set_peak(&mut toggle_book(), 0, &REACH), 4);
    assert_eq!(set_peak(&mut book(1, 1), 0, &[0x02, 0x10]), 1);
    // x, y and x AND y, of which y is a part.
    assert_eq!(set_peak(&mut book(2, 3), 0, &[0x03, 0x10, 0x11]), 3);
    let mut book = book(2, 2);
    assert_eq!(set_peak(&mut book, 0, &[0x10]), 1);
    assert_eq!(set_peak(&mut book, 1, &[0x11]), 2);
    book.clear(0).unwrap();
    assert_eq!(set_peak(&mut book, 0, &[0x02, 0x11]), 1);
}

/// "EXISTS at levels 2n − 1, 2n − 3, down to 1": each is a step of its own.
#[test]
fn each_exists_counts() {
    // Next x is y and next y is x: the relation, (next x = y) AND NOT next y, (next x = y) AND next y,
    // four of "y or not, and next y or not", and next y: 8 rows.
    let same = |p: u8, q: u8| vec![0x04, 0x03, p, q, 0x03, 0x02, p, 0x02, q];
    let swap = [vec![0x03], same(0x20, 0x11), same(0x21, 0x10)].concat();
    let mut book = book(2, 100);
    relation(&mut book, 0, &swap).unwrap();
    assert_eq!(book.collect(), 8);
    // Diamond of true: SHIFT is true, AND is the relation. EXISTS at level 3 makes next x = y, of two
    // rows; EXISTS at level 1 makes true of it.
    assert_eq!(set_peak(&mut book, 0, &[0x68, 0x01]), 10);
    assert_eq!(book.count(0), Ok(4));
}

/// "over the steps reached within its rounds", counted by hand for the listing's
/// set: x waits beside the toggle's two rows. In the first round the diamond is
/// of the empty set; in the second of x, at whose EXISTS stand NOT x AND next x
/// and NOT x; in the third of all states, where AND gives the toggle, so that it
/// needs 3 again.
#[test]
fn the_peak_of_a_middle_round() {
    let book = toggle_book();
    let formula = read(1, Kind::Set, &frame(&REACH)).unwrap();
    let peaks = [0, 1, 2, 3].map(|rounds| peak_within(book.held(), rounds, &formula));
    assert_eq!(peaks, [0, 3, 4, 4]);
    let mut last = toggle_book();
    set(&mut last, 1, &[0x01]).unwrap();
    assert_eq!(set_peak(&mut last, 0, &[0x04, 0x10, 0x68, 0x41]), 3);
}

/// "A call is full exactly when its peak, over the steps reached within its
/// rounds, would pass N": the number of a set with so many rows and rounds.
fn compare_fullness(book: &Book, formula: &Formula, bytes: &[u8], rounds: u32) {
    let peak = peak_within(book.held(), rounds, formula);
    for rows in [0, peak / 2, peak.wrapping_sub(1), peak, peak + 1, 100_000] {
        let accounts = [Account::new(rows.min(200_000) as u32, rounds)];
        let got = book.evaluate_set(&accounts, 0, 0, u32::MAX, bytes);
        let rows = book.rows().min(accounts[0].rows as usize);
        assert_eq!(got == Err(Refusal::Full), peak > rows, "{bytes:x?}");
        if let Ok(done) = got {
            assert_eq!(done.peak, peak);
        }
    }
}

/// The same under every R up to the rounds that a set takes, where it is answered
/// at all.
fn compare_rounds(book: &Book, bytes: &[u8]) -> bool {
    let taken = book.evaluate_set(&[Account::LARGEST], 0, 0, u32::MAX, bytes);
    let Ok(taken) = taken else {
        return false;
    };
    let formula = read(book.n(), Kind::Set, bytes).expect("it is answered");
    (0..=taken.rounds).for_each(|rounds| compare_fullness(book, &formula, bytes, rounds));
    true
}

#[test]
fn full_exactly_by_the_peak_within_the_rounds() {
    let mut random = Random::new(8);
    let mut compared = 0;
    for index in 0..200 {
        let list = generate(&mut random, 1 + index % 2);
        let mut plenty = vec![Account::LARGEST; list.accounts.len()];
        let mut book = book(list.n.into(), 60_000);
        for call in &list.calls {
            if let Call::Set { formula, .. } = call {
                compared += u32::from(compare_rounds(&book, formula));
            }
            book.call(&mut plenty, call);
        }
    }
    assert!(compared > 500, "{compared}");
}

/// Peaks do not depend on N and on limits: with as many rows as the greatest
/// peak all is answered alike, and with one fewer the first call of that peak is
/// refused.
#[test]
fn the_greatest_peak_is_the_least_n() {
    let mut random = Random::new(9);
    for index in 0..300 {
        let list = generate(&mut random, 1 + index % 2);
        let mut plenty = vec![Account::LARGEST; list.accounts.len()];
        let mut wide = book(list.n.into(), 60_000);
        // Valid returns no peak.
        let ran: Vec<(Call, Answer)> = (list.calls.iter())
            .filter(|call| !matches!(call, Call::Valid { .. }))
            .map(|call| (call.clone(), wide.call(&mut plenty, call)))
            .filter(|(_, answer)| answer.number == 0)
            .collect();
        let most = ran.iter().map(|(_, answer)| answer.peak).max().unwrap_or(0);
        let replay = |rows: usize| -> Vec<Answer> {
            let mut accounts = vec![Account::LARGEST; list.accounts.len()];
            let mut book = book(list.n.into(), rows as u64);
            let calls = ran.iter().map(|(call, _)| call);
            calls.map(|call| book.call(&mut accounts, call)).collect()
        };
        let answers: Vec<Answer> = ran.iter().map(|(_, answer)| *answer).collect();
        assert_eq!(replay(most.max(1)), answers);
        if most > 1 {
            let first = answers.iter().position(|answer| answer.peak == most);
            let first = first.expect("one has it");
            let fewer = replay(most - 1);
            assert_eq!(fewer[..first], answers[..first]);
            assert_eq!(fewer[first], Answer::refused(8));
        }
    }
}

/// Calls that take no steps, and refused ones, have none.
#[test]
fn other_calls_and_refusals() {
    let mut book = toggle_book();
    set(&mut book, 0, &[0x10]).unwrap();
    for call in [
        Call::Clear { r: 1 },
        Call::Collect,
        Call::Node { r: 0 },
        Call::Member { r: 0, state: 1 },
        Call::Count { r: 0 },
    ] {
        let answer = book.call(&mut [], &call);
        assert_eq!((answer.number, answer.peak), (0, 0), "{call:?}");
    }
    let refused = |rows, rounds| {
        let mut accounts = [Account::new(rows, rounds)];
        let call = Call::Set {
            place: 0,
            r: 1,
            rounds: 9,
            formula: frame(&REACH),
        };
        toggle_book().call(&mut accounts, &call)
    };
    assert_eq!(refused(3, 9), Answer::refused(8));
    assert_eq!(refused(9, 2), Answer::refused(9));
    assert_eq!(refused(4, 3), Answer::counted(3, 4, Some(1)));
}
