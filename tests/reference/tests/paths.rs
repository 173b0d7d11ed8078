//! Slip 3 on rooms small enough to be followed by hand.

use reference::book::{Book, REGISTERS, RELATIONS};
use reference::paths::distances;
use reference::refusal::Refusal;
use reference::states::{PairSet, StateSet};

/// A book of n bits and so many rows, with sets of states and one relation.
fn book(n: u32, rows: usize, sets: &[&[usize]], pairs: &[(usize, usize)]) -> Book {
    let mut registers = vec![None; REGISTERS];
    for (register, set) in registers.iter_mut().zip(sets) {
        *register = Some(StateSet::from_fn(n, |s| set.contains(&s)));
    }
    let mut relations = vec![None; RELATIONS];
    relations[0] = Some(PairSet::from_fn(n, |s, t| pairs.contains(&(s, t))));
    Book::with(n, rows, StateSet::constant(n, true), registers, relations)
}

/// 0 leads to 1 and 2, both lead to 3.
const FORK: [(usize, usize); 4] = [(0, 1), (0, 2), (1, 3), (2, 3)];

/// "each next one is the least that still lies on a shortest run": 2 is on one too.
#[test]
fn least_states() {
    let book = book(2, 99, &[&[0], &[3]], &FORK);
    assert_eq!(book.shortest(0, 1, 0, 3), Ok(vec![0, 1, 3]));
    assert_eq!(book.shortest(0, 1, 0, 9), Ok(vec![0, 1, 3]));
    assert_eq!(book.shortest(0, 1, 0, 2), Err(Refusal::ListTooShort));
    assert_eq!(book.shortest(1, 0, 0, 0), Err(Refusal::NoRun));
    assert_eq!(book.shortest(1, 1, 0, 1), Ok(vec![3]));
}

/// "The first state is the least one of a at the shortest distance", not the least one of a.
#[test]
fn first_state() {
    let book = book(2, 99, &[&[0, 1, 2], &[3]], &FORK);
    assert_eq!(book.shortest(0, 1, 0, 9), Ok(vec![1, 3]));
}

/// "Only the last layer is live, until the next is made": 7 rows; and an empty a is no short cut.
#[test]
fn last_layer_is_live() {
    let from_bit_1: Vec<(usize, usize)> = (0..16).map(|k| (k / 4, k % 4)).collect();
    let pairs = &from_bit_1[8..];
    let refusal = |rows| book(2, rows, &[&[], &[1, 3]], pairs).shortest(0, 1, 0, 4);
    assert_eq!(refusal(6), Err(Refusal::Full));
    assert_eq!(refusal(7), Err(Refusal::NoRun));
}

/// Earlier layers are not live: 13 rows, and with layer 1 live while layer 3 is made it would be 14.
#[test]
fn older_layers_are_not_live() {
    let chain = [(1, 3), (3, 2), (2, 0)];
    let refusal = |rows| book(2, rows, &[&[], &[0]], &chain).shortest(0, 1, 0, 4);
    assert_eq!(refusal(12), Err(Refusal::Full));
    assert_eq!(refusal(13), Err(Refusal::NoRun));
}

#[test]
fn checks_in_order() {
    let book = book(2, 99, &[&[0], &[3]], &FORK);
    for (a, b, t) in [(32, 1, 0), (0, 32, 0), (0, 1, 8), (31, 32, 7)] {
        assert_eq!(book.shortest(a, b, t, 9), Err(Refusal::OutOfRange));
    }
    for (a, b, t) in [(2, 1, 0), (0, 2, 0), (0, 1, 1)] {
        assert_eq!(book.shortest(a, b, t, 9), Err(Refusal::Empty));
    }
}

#[test]
fn breadth_first() {
    let relation = PairSet::from_fn(3, |s, t| t == (s + 1) % 8);
    let goal = StateSet::from_fn(3, |s| s == 5);
    let steps = distances(&relation, &goal).into_iter().map(Option::unwrap);
    assert_eq!(steps.collect::<Vec<_>>(), [5, 4, 3, 2, 1, 0, 7, 6]);
}
