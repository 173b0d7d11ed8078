//! Many states asked at once, by Slip 10's sentences.

mod common;
use common::*;
use reference::members::{members, Diagram, MAX_STATES};
use reference::random::Random;
use reference::refusal::Refusal;
use reference::rows::Rows;
use reference::states::{bit_of, StateSet};

/// Bits 0 and 1 differ.
fn differ(n: u32) -> StateSet {
    StateSet::from_fn(n, |s| bit_of(s, 0) != bit_of(s, 1))
}

fn reads(set: &StateSet, states: &[usize]) -> usize {
    members(set, states).reads
}

/// A set of 2^n coins, some of them much alike, so that rows are shared.
fn draw(random: &mut Random, n: u32) -> StateSet {
    let few = 1 + random.below(1 << n);
    let coins: Vec<bool> = (0..few).map(|_| random.chance(50)).collect();
    StateSet::from_fn(n, |s| coins[s % few as usize])
}

/// "only bits that rows asked count": bit 0 is not asked, and one row is read.
#[test]
fn skipped_levels_are_no_answers() {
    let set = StateSet::bit(2, 1);
    assert_eq!(reads(&set, &[1, 0]), 1);
    assert_eq!(reads(&set, &[1, 0, 2, 3]), 1);
    assert_eq!(members(&set, &[1, 2]).answers, [0, 1]);
}

/// The second row is reached after either answer.
#[test]
fn a_row_counts_once_for_each_way_to_it() {
    let set = differ(2);
    assert_eq!(Diagram::new(&set).rows(), 2);
    assert_eq!(reads(&set, &[]), 0);
    assert_eq!(reads(&set, &[2]), 2);
    assert_eq!(reads(&set, &[2, 0, 2]), 2);
    assert_eq!(reads(&set, &[3, 0, 2, 1]), 3);
}

#[test]
fn constants_are_no_rows() {
    for value in [false, true] {
        let set = StateSet::constant(3, value);
        let told = members(&set, &[0, 7, 3]);
        assert_eq!((told.answers, told.reads), (vec![value.into(); 3], 0));
    }
}

/// The diagram has the rows that the set needs: "Two functions that are each other's complement
/// need one row."
#[test]
fn the_diagram_is_reduced() {
    let mut random = Random::new(3);
    for round in 0..600 {
        let n = 1 + round % 8;
        let set = draw(&mut random, n);
        let mut rows = Rows::new();
        rows.add_set(&set);
        assert_eq!(Diagram::new(&set).rows(), rows.count());
        assert_eq!(Diagram::new(&set.not()).rows(), rows.count());
    }
}

/// "That figure is never above the sum over single questions"; and repeats and the order of the
/// states do not change it.
#[test]
fn never_above_the_sum() {
    let mut random = Random::new(5);
    for round in 0..400 {
        let n = 1 + round % 9;
        let set = draw(&mut random, n);
        let count = random.below(40) as usize;
        let mut states: Vec<usize> = (0..count).map(|_| random.below(1 << n) as usize).collect();
        let together = reads(&set, &states);
        let singly: usize = states.iter().map(|&s| reads(&set, &[s])).sum();
        assert!(together <= singly);
        states.reverse();
        states.extend_from_within(..count / 2);
        assert_eq!(reads(&set, &states), together);
    }
}

/// Checks 1, 3 and 7, in this order.
#[test]
fn refusals() {
    let mut book = book(2, 100);
    let many = vec![4; MAX_STATES + 1];
    let ask = |book: &reference::book::Book, r, states: &[u64], places: usize| {
        book.members(r, states, places, places).map(|m| m.reads)
    };
    assert_eq!(ask(&book, 32, &many, 2_000), Err(Refusal::BadSizes));
    assert_eq!(book.members(32, &[4], 0, 1), Err(Refusal::BadSizes));
    assert_eq!(book.members(32, &[4], 1, 0), Err(Refusal::BadSizes));
    assert_eq!(ask(&book, 32, &[1], 1), Err(Refusal::OutOfRange));
    assert_eq!(ask(&book, 1, &[0, 4], 2), Err(Refusal::OutOfRange));
    assert_eq!(ask(&book, 1, &[0, 3], 2), Err(Refusal::Empty));
    assert_eq!(ask(&book, 1, &[], 0), Err(Refusal::Empty));
    set(&mut book, 1, &[0x11]).unwrap();
    assert_eq!(ask(&book, 1, &[], 0), Ok(0));
    assert_eq!(ask(&book, 1, &vec![3; MAX_STATES], MAX_STATES), Ok(1));
}
