//! Every refusal number of the calls, and what refused calls keep.

mod common;
use common::*;
use reference::accounts::Account;
use reference::book::{words_for, Answer, Book, Call};
use reference::formula::frame;
use reference::refusal::Refusal;

#[test]
fn numbers() {
    let numbers: Vec<u8> = [
        Refusal::BadSizes,
        Refusal::Unsound,
        Refusal::OutOfRange,
        Refusal::NotAFormula,
        Refusal::BadScope,
        Refusal::ReadOdd,
        Refusal::Empty,
        Refusal::Full,
        Refusal::RoundsUsedUp,
        Refusal::BindsNothing,
        Refusal::NoAccount,
    ]
    .map(Refusal::number)
    .to_vec();
    assert_eq!(numbers, [1, 2, 3, 4, 5, 6, 7, 8, 9, 12, 14]);
}

#[test]
fn one_fresh_limits() {
    let fresh = |n, rows, words| Book::fresh(n, rows, words, &mut [Account::LARGEST]);
    let answered = |n, rows, words| fresh(n, rows, words).is_ok();
    assert!(answered(1, 1, 268) && !answered(1, 1, 267));
    assert!(answered(16, 60_000, 720_256) && !answered(16, 60_000, 720_255));
    assert!(!answered(0, 1, 1000) && !answered(17, 1, 1000));
    assert!(!answered(1, 0, 1000) && !answered(1, 60_001, 1_000_000));
    assert!(!answered(1 << 32 | 1, 1, 1000) && !answered(1, 1 << 32 | 1, 1000));
    assert_eq!(fresh(0, 1, 268), Err(Refusal::BadSizes));
    assert_eq!(words_for(1_344), 16_384);
}

#[test]
fn three_out_of_range() {
    let mut book = toggle_book();
    let formula = frame(&[0x01]);
    assert_eq!(book.relation(8, &formula), Err(Refusal::OutOfRange));
    assert!(book.relation(7, &formula).is_ok());
    assert_eq!(set(&mut book, 32, &[0x01]), Err(Refusal::OutOfRange));
    assert!(set(&mut book, 31, &[0x01]).is_ok());
    assert_eq!(book.clear(32), Err(Refusal::OutOfRange));
    assert_eq!(book.node(32), Err(Refusal::OutOfRange));
    assert_eq!(book.count(u64::MAX), Err(Refusal::OutOfRange));
    assert_eq!(book.member(32, 0), Err(Refusal::OutOfRange));
    assert_eq!(book.member(31, 2), Err(Refusal::OutOfRange));
    assert_eq!(book.member(31, 1), Ok(true));
    // 3 before 7.
    assert_eq!(book.member(0, 2), Err(Refusal::OutOfRange));
}

#[test]
fn seven_questions_about_an_empty_register() {
    let mut book = toggle_book();
    assert_eq!(book.node(0), Err(Refusal::Empty));
    assert_eq!(book.member(0, 0), Err(Refusal::Empty));
    assert_eq!(book.count(0), Err(Refusal::Empty));
    assert_eq!(book.clear(0), Ok(()));
}

#[test]
fn set_may_name_its_own_target_once_it_is_filled() {
    let mut book = book(1, 100);
    assert_eq!(set(&mut book, 0, &[0x40]), Err(Refusal::Empty));
    set(&mut book, 0, &[0x10]).unwrap();
    set(&mut book, 0, &[0x02, 0x40]).unwrap();
    assert_eq!(book.member(0, 0), Ok(true));
    assert_eq!(book.member(0, 1), Ok(false));
}

#[test]
fn every_refused_call_keeps_the_book() {
    // Relation 0, x OR next x, and register 0, x, need all three rows.
    let mut book = book(1, 3);
    relation(&mut book, 0, &[0x04, 0x10, 0x20]).unwrap();
    set(&mut book, 0, &[0x70, 0x04, 0x10, 0x30]).unwrap();
    let before = book.clone();
    let set_call = |r, rounds, body: &[u8]| Call::Set {
        place: 0,
        r,
        rounds,
        formula: frame(body),
    };
    let calls = [
        (3, set_call(32, 9, &[0x01])),
        (4, set_call(0, 9, &[0x20])),
        (5, set_call(0, 9, &[0x30])),
        (6, set_call(0, 9, &[0x70, 0x02, 0x30])),
        (7, set_call(0, 9, &[0x41])),
        (8, set_call(0, 9, &[0x68, 0x02, 0x10])),
        (9, set_call(0, 1, &[0x70, 0x04, 0x10, 0x30])),
        (12, set_call(0, 9, &[0x70, 0x10])),
        (
            8,
            Call::Relation {
                t: 0,
                formula: frame(&TOGGLE),
            },
        ),
        (3, Call::Clear { r: 32 }),
        (7, Call::Node { r: 1 }),
    ];
    for (number, call) in calls {
        let refused = Answer {
            number,
            rounds: 0,
            peak: 0,
            value: Some(0),
        };
        let mut accounts = [Account::LARGEST];
        assert_eq!(book.call(&mut accounts, &call), refused, "{call:?}");
        assert_eq!(book, before);
        assert_eq!(accounts, [Account::LARGEST]);
    }
}

#[test]
fn node_is_settled_for_no_state_and_every_state_only() {
    let mut book = book(2, 100);
    assert_eq!(set(&mut book, 0, &[0x00]).unwrap().node, Some(0));
    assert_eq!(set(&mut book, 0, &[0x01]).unwrap().node, Some(1));
    assert_eq!(set(&mut book, 0, &[0x10]).unwrap().node, None);
    assert_eq!(book.node(0), Ok(None));
    assert_eq!(
        set(&mut book, 0, &[0x04, 0x10, 0x02, 0x10]).unwrap().node,
        Some(1)
    );
}

#[test]
fn collect_and_count() {
    let mut book = toggle_book();
    let call = |book: &mut Book, call| book.call(&mut [], &call);
    assert_eq!(call(&mut book, Call::Collect).value, Some(2));
    set(&mut book, 0, &REACH).unwrap();
    set(&mut book, 1, &[0x10]).unwrap();
    assert_eq!(call(&mut book, Call::Collect).value, Some(3));
    assert_eq!(call(&mut book, Call::Count { r: 1 }).value, Some(1));
    assert_eq!(call(&mut book, Call::Clear { r: 1 }).number, 0);
    assert_eq!(call(&mut book, Call::Collect).value, Some(2));
}

#[test]
fn sixteen_state_bits() {
    let mut book = book(16, 100);
    set(&mut book, 0, &[0x03, 0x1F, 0x10]).unwrap();
    assert_eq!(book.count(0), Ok(1 << 14));
    assert_eq!(book.collect(), 2);
    assert_eq!(book.member(0, 0x8001), Ok(true));
    assert_eq!(book.member(0, 0x8000), Ok(false));
    assert_eq!(book.member(0, 0x1_0000), Err(Refusal::OutOfRange));
}
