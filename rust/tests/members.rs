//! Many states asked at once, and the states of a set one after the other.
mod common;

use kudzuclamp::{Account, Formula, Refusal, Table, Target, MAX_STATES};

/// n bits with a set in register 0.
fn holding(n: u32, formula: Formula) -> Table<Vec<u32>> {
    let mut accounts = [Account::unlimited()];
    let mut table = Table::new(&mut accounts, n, 1_000).unwrap();
    table
        .set(&mut accounts, Target::register(0), formula)
        .unwrap();
    table
}

/// Bits p and q differ.
fn differ(p: u32, q: u32) -> Formula {
    Formula::current(p) ^ Formula::current(q)
}

#[test]
fn answers_stand_in_the_order_of_the_states() {
    let table = holding(2, differ(0, 1));
    let (mut order, mut answers) = ([7; 6], [7; 6]);
    let states = [3, 1, 1, 0, 2];
    // The first row once, and the second after either answer of the first.
    let reads = table.members(0, &states, &mut order, &mut answers);
    assert_eq!(reads, Ok(3));
    assert_eq!(answers, [0, 1, 1, 0, 1, 7]);
    assert_eq!(order[5], 7);
    order[..5].sort();
    assert_eq!(order[..5], [0, 1, 2, 3, 4]);
}

#[test]
fn a_question_for_no_state_reads_no_row() {
    let table = holding(2, differ(0, 1));
    assert_eq!(table.members(0, &[], &mut [], &mut []), Ok(0));
    assert_eq!(table.members(1, &[], &mut [], &mut []), Err(Refusal::Empty));
    assert_eq!(
        table.members(32, &[], &mut [], &mut []),
        Err(Refusal::Range)
    );
}

#[test]
fn refusals_keep_both_lists() {
    let mut table = holding(2, differ(0, 1));
    let kept = |table: &Table<Vec<u32>>, r, states: &[u16], places: usize, wanted| {
        let (mut order, mut answers) = (vec![7; places], vec![9; places]);
        let words = table.words().to_vec();
        let refused = table.members(r, states, &mut order, &mut answers);
        assert_eq!(refused, Err(wanted));
        assert_eq!((order, answers), (vec![7; places], vec![9; places]));
        assert_eq!(table.words(), words);
    };
    let many = [0; MAX_STATES + 1];
    kept(&table, 0, &many, many.len(), Refusal::Sizes);
    kept(&table, 0, &[1, 2], 1, Refusal::Sizes);
    kept(&table, 32, &[1, 2], 2, Refusal::Range);
    kept(&table, 0, &[1, 2, 4], 3, Refusal::Range);
    kept(&table, 1, &[1, 2], 2, Refusal::Empty);
    table.words_mut()[0] = 0;
    kept(&table, 0, &[1, 2, 4], 3, Refusal::Unsound);
    kept(&table, 0, &many, many.len(), Refusal::Sizes);
}

#[test]
fn all_states_of_a_set() {
    for n in [1, 2, 9, 10, 11, 16] {
        let (first, last) = (Formula::current(0), Formula::current(n - 1));
        let is_last = |state: u32| state >> (n - 1) == 1;
        let cases: [(Formula, &dyn Fn(u32) -> bool); 5] = [
            (last.clone(), &is_last),
            (first.clone(), &|state| state % 2 == 1),
            (!first & last, &|state| state % 2 == 0 && is_last(state)),
            (Formula::truth(), &|_| true),
            (Formula::falsity(), &|_| false),
        ];
        for (formula, has) in cases {
            let table = holding(n, formula);
            let states = table.states(0).unwrap();
            assert_eq!(states.len() as u32, table.count(0).unwrap());
            let wanted = (0..1 << n).filter(|&state| has(state));
            assert!(states.eq(wanted), "n = {n}");
        }
    }
}

/// The least state of sets of many shapes, with every NOT on the way.
#[test]
fn the_least_state() {
    let mut draw = common::Drawn(3);
    let mut empty = 0;
    for turn in 0..600 {
        let n = 1 + draw.below(16);
        let tokens = 1 + draw.below(40);
        let formula = (0..tokens).fold(Formula::from(turn % 2 == 0), |f, _| {
            let bit = Formula::current(draw.below(n));
            match draw.below(4) {
                0 => !f,
                1 => f & bit,
                2 => f | bit,
                _ => !(f & !bit),
            }
        });
        let table = holding(n, formula);
        let least = table.states(0).unwrap().next();
        assert_eq!(table.pick(0), Ok(least));
        empty += u32::from(least.is_none());
    }
    assert!((1..200).contains(&empty), "{empty}");
    let both = differ(3, 15) & !Formula::current(3);
    assert_eq!(holding(16, both).pick(0), Ok(Some(1 << 15)));
    assert_eq!(holding(2, differ(0, 1)).pick(32), Err(Refusal::Range));
    assert_eq!(holding(2, differ(0, 1)).pick(1), Err(Refusal::Empty));
}

/// V is part of every set, also where NOT is read.
#[test]
fn the_least_state_that_exists() {
    let mut accounts = [Account::unlimited()];
    let mut table = Table::new(&mut accounts, 4, 100).unwrap();
    table
        .valid(Formula::current(1) | Formula::current(3))
        .unwrap();
    for (formula, least) in [
        (Formula::truth(), Some(2)),
        (!Formula::current(1), Some(8)),
        (!Formula::current(1) & !Formula::current(3), None),
    ] {
        let stored = table
            .set(&mut accounts, Target::register(0), formula)
            .unwrap();
        assert_eq!(table.pick(0), Ok(least));
        // Node 1 is all 2^n states, also those that do not exist.
        assert_eq!(stored.node == 0, least.is_none());
        assert_ne!(stored.node, 1);
    }
}

#[test]
fn states_of_no_table() {
    let mut table = holding(3, Formula::current(0));
    assert_eq!(table.states(32).err(), Some(Refusal::Range));
    assert_eq!(table.states(9).err(), Some(Refusal::Empty));
    table.words_mut()[3] = 900;
    assert_eq!(table.states(0).err(), Some(Refusal::Unsound));
}
