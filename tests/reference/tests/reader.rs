//! Checks 4 to 7 and 12, and their order.

mod common;
use common::*;
use reference::accounts::Account;
use reference::formula::{frame, frame_as, read, Formula, Kind};
use reference::refusal::Refusal;

fn reads(kind: Kind, n: u32, body: &[u8]) -> bool {
    read(n, kind, &frame(body)).is_some()
}

/// NOTs over a leaf.
fn nots(count: usize) -> Vec<u8> {
    let mut body = vec![0x02; count];
    body.push(0x01);
    body
}

/// A balanced tree of ORs of the given height: 2^(height + 1) − 1 bytes.
fn tree(height: u32) -> Vec<u8> {
    if height == 0 {
        return vec![0x00];
    }
    [vec![0x04], tree(height - 1), tree(height - 1)].concat()
}

#[test]
fn depth_64_is_read_and_65_is_not() {
    assert!(reads(Kind::Set, 1, &nots(63)));
    assert!(!reads(Kind::Set, 1, &nots(64)));
    assert!(reads(Kind::Relation, 1, &nots(63)));
    assert!(!reads(Kind::Relation, 1, &nots(64)));
}

#[test]
fn depth_counts_the_deepest_part() {
    let left = [vec![0x03], nots(62), vec![0x00]].concat();
    let right = [vec![0x03, 0x00], nots(62)].concat();
    assert!(reads(Kind::Set, 1, &left) && reads(Kind::Set, 1, &right));
    let left = [vec![0x03], nots(63), vec![0x00]].concat();
    let right = [vec![0x03, 0x00], nots(63)].concat();
    assert!(!reads(Kind::Set, 1, &left) && !reads(Kind::Set, 1, &right));
}

#[test]
fn depth_counts_every_operator() {
    let mut book = toggle_book();
    for operator in [0x02, 0x60, 0x68] {
        let deep = |count| [vec![operator; count], vec![0x01]].concat();
        assert!(set(&mut book, 0, &deep(63)).is_ok());
        assert_eq!(set(&mut book, 0, &deep(64)), Err(Refusal::NotAFormula));
    }
    for binder in [0x70, 0x80] {
        let deep = |count| [vec![0x02; count], vec![binder, 0x01]].concat();
        assert!(reads(Kind::Set, 1, &deep(62)));
        assert!(!reads(Kind::Set, 1, &deep(63)));
    }
}

#[test]
fn length_2_and_length_1024_are_read() {
    assert!(reads(Kind::Set, 1, &[0x00]));
    let longest = tree(9);
    assert_eq!(longest.len(), 1023);
    assert!(reads(Kind::Set, 1, &longest));
}

#[test]
fn length_1_and_length_1025_are_not() {
    assert_eq!(read(1, Kind::Set, &[0x00, 0x01, 0x01]), None);
    assert_eq!(read(1, Kind::Set, &[0x00, 0x00]), None);
    let longer = [vec![0x02], tree(9)].concat();
    assert_eq!(longer.len(), 1024);
    assert!(!reads(Kind::Set, 1, &longer));
}

#[test]
fn slice_is_exactly_2_plus_l() {
    assert!(read(1, Kind::Set, &[0x00, 0x02, 0x01, 0x01]).is_some());
    assert_eq!(read(1, Kind::Set, &[0x00, 0x02, 0x01]), None);
    assert_eq!(read(1, Kind::Set, &[0x00, 0x02, 0x01, 0x01, 0x01]), None);
    assert_eq!(read(1, Kind::Set, &[0x00, 0x03, 0x01, 0x01]), None);
    assert_eq!(read(1, Kind::Set, &[0x00, 0x02, 0x01, 0x02, 0x01]), None);
    for slice in [&[][..], &[0x00], &[0x00, 0x02]] {
        assert_eq!(read(1, Kind::Set, slice), None);
    }
}

#[test]
fn version_is_1_and_for_set_calls_2() {
    for version in (0..=255).filter(|&version| version != 1) {
        assert_eq!(read(1, Kind::Relation, &[0x00, 0x02, version, 0x01]), None);
        let set = read(1, Kind::Set, &[0x00, 0x02, version, 0x01]);
        assert_eq!(set.is_some(), version == 2);
    }
}

#[test]
fn formula_fills_its_bytes() {
    assert!(!reads(Kind::Set, 1, &[0x01, 0x01]));
    for cut in [
        &[0x02][..],
        &[0x03, 0x01],
        &[0x04, 0x01],
        &[0x60],
        &[0x68],
        &[0x70],
        &[0x80],
    ] {
        assert!(!reads(Kind::Set, 1, cut), "{cut:x?}");
    }
}

/// Reads a token with two leaves after it, with one, and with none.
fn token_is_known(kind: Kind, n: u32, byte: u8) -> bool {
    let bodies = [vec![byte], vec![byte, 0x01], vec![byte, 0x01, 0x01]];
    bodies.iter().any(|body| reads(kind, n, body))
}

#[test]
fn set_tokens() {
    for n in 1..=16 {
        for byte in 0..=255u8 {
            let known = match byte {
                0x00..=0x04 | 0x30..=0x8F => true,
                0x10..=0x1F => u32::from(byte - 0x10) < n,
                _ => false,
            };
            assert_eq!(token_is_known(Kind::Set, n, byte), known, "{n} {byte:x}");
        }
    }
}

#[test]
fn relation_tokens() {
    for n in 1..=16 {
        for byte in 0..=255u8 {
            let known = match byte {
                0x00..=0x04 => true,
                0x10..=0x2F => u32::from(byte & 0x0F) < n,
                _ => false,
            };
            assert_eq!(
                token_is_known(Kind::Relation, n, byte),
                known,
                "{n} {byte:x}"
            );
        }
    }
}

#[test]
fn register_and_relation_numbers() {
    assert_eq!(
        read(1, Kind::Set, &frame(&[0x40])),
        Some(Formula::Register(0))
    );
    assert_eq!(
        read(1, Kind::Set, &frame(&[0x5F])),
        Some(Formula::Register(31))
    );
    let mut book = book(1, 100);
    relation(&mut book, 7, &[0x01]).unwrap();
    set(&mut book, 31, &[0x01]).unwrap();
    for body in [[0x67, 0x5F], [0x6F, 0x5F]] {
        assert_eq!(states_and_rounds(&mut book, 0, &body), Ok((2, 0)));
        assert!(book.clear(0).is_ok());
    }
    for body in [&[0x66, 0x5F][..], &[0x6E, 0x5F], &[0x67, 0x5E], &[0x5E]] {
        assert_eq!(states_and_rounds(&mut book, 0, body), Err(Refusal::Empty));
    }
}

#[test]
fn scope() {
    let mut book = book(1, 100);
    // Unbound, also beside its binder.
    assert_eq!(set(&mut book, 0, &[0x3F]), Err(Refusal::BadScope));
    assert_eq!(
        set(&mut book, 0, &[0x04, 0x70, 0x30, 0x30]),
        Err(Refusal::BadScope)
    );
    assert_eq!(set(&mut book, 0, &[0x70, 0x31]), Err(Refusal::BadScope));
    // A binder inside a binder of the same P, its body not reading P.
    assert_eq!(
        set(&mut book, 0, &[0x70, 0x80, 0x01]),
        Err(Refusal::BadScope)
    );
    assert_eq!(
        set(&mut book, 0, &[0x70, 0x71, 0x02, 0x70, 0x01]),
        Err(Refusal::BadScope)
    );
    // "neighbours may use one P".
    assert!(set(&mut book, 0, &[0x04, 0x70, 0x30, 0x80, 0x30]).is_ok());
    assert!(set(&mut book, 0, &[0x7F, 0x8E, 0x04, 0x3F, 0x3E]).is_ok());
}

/// Slip 5: "a binder's variable occurs nowhere free in its body", "in both
/// versions".
#[test]
fn binders_that_bind_nothing() {
    let mut book = toggle_book();
    for version in [1, 2] {
        let mut number = |body: &[u8]| {
            let bytes = frame_as(version, body);
            let answer = book.set(&mut [Account::LARGEST], 0, 0, 99, &bytes);
            answer.map_or_else(Refusal::number, |_| 0)
        };
        for binder in [0x70, 0x7F, 0x80, 0x8F] {
            let variable = 0x30 + binder % 16;
            assert_eq!(number(&[binder, 0x10]), 12);
            assert_eq!(number(&[binder, variable]), 0);
            // Also where it is not the whole formula.
            assert_eq!(number(&[0x02, 0x04, 0x01, binder, 0x10]), 12);
        }
        // The inner one, the outer one.
        assert_eq!(number(&[0x70, 0x81, 0x30]), 12);
        assert_eq!(number(&[0x70, 0x81, 0x31]), 12);
        assert_eq!(number(&[0x70, 0x81, 0x04, 0x30, 0x31]), 0);
        // What a neighbour reads does not count.
        assert_eq!(number(&[0x04, 0x70, 0x30, 0x70, 0x10]), 12);
        assert_eq!(number(&[0x04, 0x70, 0x10, 0x80, 0x30]), 12);
        // Read odd it occurs.
        assert_eq!(number(&[0x70, 0x02, 0x30]), 6);
        // A binder inside one of the same variable is 5, though the outer binds nothing.
        assert_eq!(number(&[0x70, 0x70, 0x30]), 5);
    }
    // Until's own variable is none of the sixteen.
    let mut number = |body: &[u8]| {
        let bytes = frame_as(2, body);
        let answer = book.set(&mut [Account::LARGEST], 0, 0, 99, &bytes);
        answer.map_or_else(Refusal::number, |_| 0)
    };
    assert_eq!(number(&[0x90, 0x01, 0x10]), 0);
    assert_eq!(number(&[0x70, 0x98, 0x01, 0x10]), 12);
    assert_eq!(number(&[0x70, 0x90, 0x30, 0x10]), 0);
    assert_eq!(number(&[0x70, 0x98, 0x10, 0x30]), 0);
}

#[test]
fn polarity_counts_from_the_own_binder() {
    let mut book = toggle_book();
    assert!(set(&mut book, 0, &[0x02, 0x70, 0x30]).is_ok());
    assert!(set(&mut book, 0, &[0x70, 0x04, 0x30, 0x02, 0x71, 0x31]).is_ok());
    assert_eq!(
        set(&mut book, 0, &[0x70, 0x02, 0x71, 0x04, 0x30, 0x31]),
        Err(Refusal::ReadOdd)
    );
    assert_eq!(
        set(&mut book, 0, &[0x02, 0x70, 0x02, 0x30]),
        Err(Refusal::ReadOdd)
    );
    assert!(set(&mut book, 0, &[0x70, 0x02, 0x71, 0x04, 0x31, 0x02, 0x30]).is_ok());
    assert!(set(&mut book, 0, &[0x70, 0x60, 0x30]).is_ok());
    assert_eq!(
        set(&mut book, 0, &[0x70, 0x60, 0x02, 0x30]),
        Err(Refusal::ReadOdd)
    );
    assert_eq!(
        set(&mut book, 0, &[0x80, 0x03, 0x30, 0x02, 0x30]),
        Err(Refusal::ReadOdd)
    );
}

#[test]
fn each_check_runs_over_the_whole_formula_before_the_next() {
    let mut book = book(1, 1);
    // In the bytes 7 comes first, then 6, 12 and 5, and 4 at the end.
    let causes: [(Refusal, &[u8]); 5] = [
        (Refusal::NotAFormula, &[0x20]),
        (Refusal::BadScope, &[0x31]),
        (Refusal::BindsNothing, &[0x72, 0x01]),
        (Refusal::ReadOdd, &[0x70, 0x02, 0x30]),
        (Refusal::Empty, &[0x41]),
    ];
    for first in 0..causes.len() {
        let mut body = vec![0x01];
        for (_, cause) in &causes[first..] {
            body = [&[0x04], *cause, &body].concat();
        }
        assert_eq!(set(&mut book, 0, &body), Err(causes[first].0));
    }
    assert!(set(&mut book, 0, &[0x01]).is_ok());
    // Range before the formula, the formula before 8 and 9.
    assert_eq!(set(&mut book, 32, &[0x20]), Err(Refusal::OutOfRange));
    assert_eq!(
        set_within(&mut book, 0, 0, &[0x70, 0x02, 0x30]),
        Err(Refusal::ReadOdd)
    );
    assert_eq!(
        set(&mut book, 1, &[0x04, 0x02, 0x10, 0x42]),
        Err(Refusal::Empty)
    );
}
