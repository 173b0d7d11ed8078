//! The generator of lists.

use reference::book::Call;
use reference::lists::{generate, List};
use reference::random::Random;
use std::collections::BTreeSet;

fn draw(seed: u64, count: usize, n: u32) -> Vec<List> {
    let mut random = Random::new(seed);
    (0..count).map(|_| generate(&mut random, n)).collect()
}

#[test]
fn same_seed_same_lists() {
    assert_eq!(draw(5, 4, 1), draw(5, 4, 1));
    assert_ne!(draw(5, 4, 1), draw(6, 4, 1));
}

#[test]
fn lists_meet_every_number_a_book_can_give() {
    for n in [1, 2] {
        let numbers: BTreeSet<u8> = (draw(1, 150, n).iter())
            .flat_map(|list| list.run().answers)
            .map(|answer| answer.number)
            .collect();
        assert_eq!(
            numbers,
            BTreeSet::from([0, 3, 4, 5, 6, 7, 8, 9, 12, 13, 14]),
            "n = {n}"
        );
    }
}

/// The formula bytes of calls that were answered.
fn answered_tokens(lists: &[List]) -> BTreeSet<u8> {
    let mut tokens = BTreeSet::new();
    for list in lists {
        for (call, answer) in list.calls.iter().zip(list.run().answers) {
            if let (Call::Relation { formula, .. } | Call::Set { formula, .. }, 0) =
                (call, answer.number)
            {
                tokens.extend(&formula[3..]);
            }
        }
    }
    tokens
}

#[test]
fn answered_calls_use_every_operator() {
    for n in [1, 2] {
        let tokens = answered_tokens(&draw(2, 150, n));
        for token in [
            0x00, 0x01, 0x02, 0x03, 0x04, 0x10, 0x20, 0x30, 0x40, 0x60, 0x68, 0x70, 0x80,
        ] {
            assert!(tokens.contains(&token), "n = {n}: {token:x}");
        }
    }
}

#[test]
fn few_binders_bind_nothing() {
    for n in [1, 2] {
        let numbers: Vec<u8> = (draw(6, 150, n).iter())
            .flat_map(|list| list.run().answers)
            .map(|answer| answer.number)
            .collect();
        let vacuous = numbers.iter().filter(|&&number| number == 12).count();
        assert!(100 * vacuous < 3 * numbers.len(), "n = {n}: {vacuous}");
    }
}

#[test]
fn two_bit_formulas_have_at_most_one_binder() {
    for list in draw(3, 150, 2) {
        for call in &list.calls {
            if let Call::Set { formula, .. } = call {
                let binders = formula
                    .iter()
                    .skip(3)
                    .filter(|b| (0x70..=0x8F).contains(*b));
                assert!(binders.count() <= 1 && formula.len() <= 14);
            }
        }
    }
}

#[test]
fn block_has_a_line_for_each_call() {
    for list in draw(4, 20, 1) {
        let block = list.block(1);
        let calls = block.lines().filter(|line| line.contains(" -> ")).count();
        assert_eq!(calls, list.calls.len());
        assert!((8..=12).contains(&calls));
        assert!(block.ends_with("end\n"));
    }
}
