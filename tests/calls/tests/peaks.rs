//! Slip 2 at the edge: a table of as many rows as a call's peak answers it, and one of a row fewer refuses
//! it with 8; the same of an account's row limit. Here the library is held against itself, so that rooms
//! of more bits than the separate evaluator enumerates are tried too; tests/lists.rs compares peaks with
//! those of the separate evaluator.

use calls::call::draw_call;
use calls::compare::make;
use calls::writer::{counter, frame, rules};
use kudzuclamp::{Account, Table};
use reference::book::{words_for, Answer, Book, Call, MAX_ROWS};
use reference::random::Random;

fn table(n: u32, rows: usize) -> Table<Vec<u32>> {
    Table::new(&mut [Account::unlimited()], n, rows as u32).expect("sizes fit")
}

fn under(rows: usize) -> [Account; 1] {
    [Account::limited(rows as u32, u32::MAX)]
}

/// The answer without a node number above 1, which is another table's.
fn told(answer: Answer) -> Answer {
    Answer {
        value: answer.value.filter(|&value| value < 2),
        ..answer
    }
}

/// The calls one after another on a table of so many rows.
fn answers(n: u32, rows: usize, calls: &[Call]) -> Vec<Answer> {
    let mut table = table(n, rows);
    let mut made = |call| make(&mut table, &mut [Account::unlimited()], call);
    calls.iter().map(|call| told(made(call))).collect()
}

/// Each call with a greater peak than all before: a table of so many rows answers it and those before,
/// a smaller one refuses just this one.
fn compare_tables(n: u32, calls: &[Call], wide: &[Answer]) -> u32 {
    let (mut most, mut compared) = (0, 0);
    for (k, answer) in wide.iter().enumerate() {
        if answer.peak > most.max(1) {
            assert_eq!(answers(n, answer.peak, &calls[..=k]), wide[..=k]);
            let fewer = answers(n, answer.peak - 1, &calls[..=k]);
            assert_eq!(fewer[..k], wide[..k]);
            assert_eq!(fewer[k], Answer::refused(8), "{:?}", calls[k]);
            compared += 1;
        }
        most = most.max(answer.peak);
    }
    compared
}

/// Each set under row limits below its peak, and then at it.
fn compare_limits(n: u32, calls: &[Call], wide: &[Answer]) -> u32 {
    let mut table = table(n, MAX_ROWS as usize);
    let mut compared = 0;
    for (call, answer) in calls.iter().zip(wide) {
        let mut limit = usize::MAX;
        if let Call::Set { .. } = call {
            limit = answer.peak;
            for below in [0, limit / 2, limit.saturating_sub(1)] {
                if below < limit {
                    let full = make(&mut table, &mut under(below), call);
                    assert_eq!(full, Answer::refused(8), "{call:?} under {below}");
                    compared += 1;
                }
            }
        }
        let got = make(&mut table, &mut under(limit.min(60_000)), call);
        assert_eq!(told(got), *answer, "{call:?} under {limit}");
    }
    compared
}

/// The calls that a large table answers: compares, and gives how many edges of tables and of limits.
fn compare(n: u32, calls: Vec<Call>) -> (u32, u32) {
    let wide = answers(n, MAX_ROWS as usize, &calls);
    let answered = calls.into_iter().zip(wide).filter(|(_, a)| a.number == 0);
    let (calls, wide): (Vec<Call>, Vec<Answer>) = answered.unzip();
    (
        compare_tables(n, &calls, &wide),
        compare_limits(n, &calls, &wide),
    )
}

fn set(r: u64, body: &[u8]) -> Call {
    Call::Set {
        place: 0,
        r,
        rounds: u32::MAX,
        formula: frame(body),
    }
}

/// Sets over relations 0 and 1, with each kind of step.
fn usual_sets() -> Vec<Call> {
    let bodies: [&[u8]; 9] = [
        &[0x03, 0x10, 0x02, 0x11],
        &[0x70, 0x04, 0x40, 0x68, 0x30],
        &[0x80, 0x03, 0x02, 0x40, 0x61, 0x30],
        &[0x80, 0x71, 0x04, 0x03, 0x41, 0x69, 0x30, 0x68, 0x31],
        &[0x68, 0x01],
        &[0x61, 0x00],
        &[0x90, 0x02, 0x40, 0x41],
        &[0x99, 0x01, 0x04, 0x40, 0x42],
        &[0x04, 0x03, 0x40, 0x02, 0x43, 0x03, 0x45, 0x12],
    ];
    (0..).zip(bodies).map(|(r, body)| set(r, body)).collect()
}

#[test]
fn drawn_lists() {
    let mut random = Random::new(51);
    let (mut tables, mut limits) = (0, 0);
    for _ in 0..250 {
        let n = 1 + random.below(3);
        let mut accounts = [reference::accounts::Account::LARGEST];
        let book = Book::fresh(n, MAX_ROWS, words_for(MAX_ROWS), &mut accounts);
        let mut book = book.expect("sizes fit");
        let mut calls = Vec::new();
        for _ in 0..15 {
            let (call, _) = draw_call(&mut random, &book, &accounts);
            // Valid returns no peak, so that a table chosen by peaks may be too small for it.
            if !matches!(call, Call::Valid { .. }) {
                book.call(&mut accounts, &call);
                calls.push(call);
            }
        }
        let (more_tables, more_limits) = compare(n as u32, calls);
        tables += more_tables;
        limits += more_limits;
    }
    assert!(tables > 300 && limits > 500, "{tables} {limits}");
}

/// Random rules for each bit, of up to 12 bits.
#[test]
fn drawn_rooms() {
    let mut random = Random::new(52);
    let (mut tables, mut limits) = (0, 0);
    for round in 0..40 {
        let n = 4 + round % 9;
        let relation = |t, formula| Call::Relation { t, formula };
        let mut calls = vec![
            relation(0, frame(&rules(&mut random, n))),
            relation(1, frame(&rules(&mut random, n))),
        ];
        calls.extend(usual_sets());
        let (more_tables, more_limits) = compare(n.into(), calls);
        tables += more_tables;
        limits += more_limits;
    }
    assert!(tables > 100 && limits > 500, "{tables} {limits}");
}

/// The longest chain of states.
#[test]
fn counters() {
    for n in 2..=9 {
        let relation = |t, last| Call::Relation {
            t,
            formula: frame(&counter(n, last)),
        };
        let mut calls = vec![relation(0, true), relation(1, false)];
        calls.extend(usual_sets());
        let (tables, limits) = compare(n.into(), calls);
        assert!(tables > 1 && limits > 10, "n = {n}: {tables} {limits}");
    }
}
