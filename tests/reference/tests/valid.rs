//! Slip 6: the set V of states that exist. Counted by hand.

use reference::accounts::Account;
use reference::book::{words_for, Book, Call};
use reference::evaluate::{set, Held, Limits};
use reference::formula::{check, frame, frame_as, Kind};
use reference::lists::generate;
use reference::meaning::states_of;
use reference::random::Random;
use reference::refusal::Refusal;
use reference::states::StateSet;

/// A selector of three positions: bits 0 and 1 are never both 1.
const SELECTOR: [u8; 4] = [0x02, 0x03, 0x10, 0x11];

fn book(n: u64, rows: u64) -> Book {
    let book = Book::fresh(n, rows, words_for(rows), &mut [Account::LARGEST]);
    book.expect("sizes fit")
}

fn selector(rows: u64) -> Book {
    let mut book = book(2, rows);
    book.make_valid(&frame(&SELECTOR)).expect("answered");
    book
}

fn states(book: &mut Book, body: &[u8]) -> String {
    let done = book.set(&mut [Account::LARGEST], 0, 0, 100, &frame(body));
    done.expect("answered");
    let set = book.registers()[0].clone().expect("filled");
    set.bit_string()
}

#[test]
fn state_formulas() {
    let mut book = selector(100);
    assert_eq!(states(&mut book, &[0x01]), "1110");
    assert_eq!(states(&mut book, &[0x02, 0x00]), "1110");
    assert_eq!(states(&mut book, &[0x10]), "0100");
    assert_eq!(states(&mut book, &[0x02, 0x10]), "1010");
    assert_eq!(states(&mut book, &[0x80, 0x30]), "1110");
    assert_eq!(states(&mut book, &[0x70, 0x30]), "0000");
}

/// "next states outside V do not exist": the relation of all pairs leads to three states.
#[test]
fn relations() {
    let mut book = selector(100);
    book.relation(0, &frame(&[0x01])).expect("answered");
    let relation = book.relations()[0].clone().expect("filled");
    assert_eq!(relation.bit_string(), "1110111011100000");
    assert_eq!(states(&mut book, &[0x60, 0x02, 0x03, 0x10, 0x11]), "1110");
    assert_eq!(states(&mut book, &[0x68, 0x10]), "1110");
    assert_eq!(states(&mut book, &[0x60, 0x00]), "0000");
}

/// "13, valid while a register or relation is filled, checked directly after 2".
#[test]
fn refusals() {
    let mut book = selector(100);
    let valid = |book: &mut Book, bytes: &[u8]| book.make_valid(bytes);
    assert_eq!(
        valid(&mut book, &frame_as(2, &[0x01])),
        Err(Refusal::NotAFormula)
    );
    for body in [0x20, 0x30, 0x40, 0x12] {
        assert_eq!(valid(&mut book, &frame(&[body])), Err(Refusal::NotAFormula));
    }
    states(&mut book, &[0x00]);
    assert_eq!(valid(&mut book, &[]), Err(Refusal::Occupied));
    book.clear(0).expect("answered");
    book.relation(0, &frame(&[0x00])).expect("answered");
    assert_eq!(valid(&mut book, &frame(&[0x01])), Err(Refusal::Occupied));
}

/// "V is live always, counts in collect": NOT (x AND y) has two rows, and the AND needs x's own beside them.
#[test]
fn needs() {
    assert_eq!(selector(3).collect(), 2);
    let mut small = book(2, 2);
    assert_eq!(small.make_valid(&frame(&SELECTOR)), Err(Refusal::Full));
    // The old V is live while the new one is made, and true takes no step.
    let mut full = selector(3);
    assert_eq!(
        full.make_valid(&frame(&[0x03, 0x11, 0x02, 0x10])),
        Err(Refusal::Full)
    );
    assert_eq!(full.make_valid(&frame(&[0x01])), Ok(()));
    assert_eq!(full.collect(), 0);
}

/// V may be empty, and may be fixed again.
#[test]
fn no_state_exists() {
    let mut book = selector(100);
    book.make_valid(&frame(&[0x00])).expect("answered");
    for body in [&[0x01][..], &[0x02, 0x00], &[0x10], &[0x80, 0x30]] {
        assert_eq!(states(&mut book, body), "0000", "{body:x?}");
    }
}

/// Sets drawn over drawn V: the rounds end at the meaning by sets.
#[test]
fn rounds_end_at_the_meaning() {
    let limits = Limits {
        rows: usize::MAX,
        rounds: 200,
    };
    let mut random = Random::new(6);
    let mut compared = 0;
    for index in 0..400 {
        let list = generate(&mut random, 1 + index % 2);
        let mut accounts = vec![Account::LARGEST; list.accounts.len()];
        let mut book = book(list.n.into(), 60_000);
        for call in &list.calls {
            let full = StateSet::constant(list.n, true);
            if let Call::Set { formula, .. } = call {
                let held: Held = book.held();
                let filled = |r: usize| held.registers[r].is_some();
                let loaded = |t: usize| held.relations[t].is_some();
                if let Ok(formula) = check(list.n, Kind::Set, formula, filled, loaded) {
                    if let Ok(done) = set(held, limits, &formula) {
                        assert_eq!(done.value, states_of(held, &formula));
                        compared += u32::from(*held.valid != full);
                    }
                }
            }
            book.call(&mut accounts, call);
        }
    }
    assert!(compared > 200, "{compared}");
}
