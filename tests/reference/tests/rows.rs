//! Rows needed.

mod common;
use common::*;
use reference::random::Random;
use reference::rows::Rows;
use reference::states::{PairSet, StateSet};
use std::collections::HashSet;

/// The sentence word by word: full tables over all levels, in which the fixed
/// levels are ignored. Level l has weight 2^l in the index.
fn literal_count(n: u32, functions: &[Vec<bool>]) -> usize {
    let size = 1usize << (2 * n);
    let mut found = HashSet::new();
    for function in functions {
        for k in 0..=2 * n {
            let low = (1usize << k) - 1;
            for fixing in 0..=low {
                let got: Vec<bool> = (0..size)
                    .map(|index| function[index & !low | fixing])
                    .collect();
                found.insert(got);
            }
        }
    }
    found.retain(|table| table.contains(&true) && table.contains(&false));
    let complement =
        |table: &Vec<bool>| -> Vec<bool> { table.iter().map(|value| !value).collect() };
    let paired = (found.iter())
        .filter(|table| found.contains(&complement(table)))
        .count();
    found.len() - paired / 2
}

/// States now and next of an index whose bit l is the value of level l.
fn point(n: u32, index: usize) -> (usize, usize) {
    let gather = |first: u32| (0..n).map(|p| (index >> (2 * p + first) & 1) << p).sum();
    (gather(0), gather(1))
}

fn table_of(n: u32, value: impl Fn(usize, usize) -> bool) -> Vec<bool> {
    (0..1usize << (2 * n))
        .map(|index| point(n, index))
        .map(|(now, next)| value(now, next))
        .collect()
}

fn compare(n: u32, sets: &[StateSet], relations: &[PairSet]) {
    let mut rows = Rows::new();
    sets.iter().for_each(|set| rows.add_set(set));
    relations
        .iter()
        .for_each(|relation| rows.add_relation(relation));
    let tables: Vec<Vec<bool>> = (sets.iter())
        .map(|set| table_of(n, |now, _| set.contains(now)))
        .chain((relations.iter()).map(|r| table_of(n, |now, next| r.contains(now, next))))
        .collect();
    assert_eq!(rows.count(), literal_count(n, &tables));
}

fn set_of_code(n: u32, code: u64) -> StateSet {
    StateSet::from_fn(n, |s| code >> s & 1 == 1)
}

fn relation_of_code(n: u32, code: u64) -> PairSet {
    PairSet::from_fn(n, |now, next| code >> (now << n | next) & 1 == 1)
}

#[test]
fn all_sets_and_relations_with_one_bit() {
    for set in 0..4 {
        for relation in 0..16 {
            for other in 0..16 {
                let relations = [relation, other].map(|code| relation_of_code(1, code));
                compare(1, &[set_of_code(1, set)], &relations);
            }
        }
    }
}

#[test]
fn drawn_sets_and_relations_with_two_and_three_bits() {
    let mut random = Random::new(7);
    for n in [2, 3] {
        for _ in 0..60 {
            let dense = random.word() & random.word();
            let sets = [random.word(), dense].map(|code| set_of_code(n, code));
            let relations = [random.word(), dense & random.word()];
            compare(n, &sets, &relations.map(|code| relation_of_code(n, code)));
        }
    }
}

#[test]
fn constants_need_no_row_and_a_bit_needs_one() {
    let mut rows = Rows::new();
    rows.add_set(&StateSet::constant(3, true));
    rows.add_relation(&PairSet::constant(3, false));
    assert_eq!(rows.count(), 0);
    rows.add_set(&StateSet::bit(3, 2));
    assert_eq!(rows.count(), 1);
    rows.add_relation(&PairSet::now_bit(3, 2));
    assert_eq!(rows.count(), 1);
    rows.add_relation(&PairSet::next_bit(3, 2));
    assert_eq!(rows.count(), 2);
}

#[test]
fn order_of_levels_alternates() {
    // Equality of now and next takes three rows a bit where the bits alternate:
    // one at level 2p, two at level 2p + 1; the last two are complements.
    for n in 1..=5u32 {
        let same = PairSet::from_fn(n, |now, next| now == next);
        let mut rows = Rows::new();
        rows.add_relation(&same);
        assert_eq!(rows.count(), 3 * n as usize - 1);
    }
}

#[test]
fn shared_rows_count_once() {
    let mut book = book(2, 100);
    set(&mut book, 0, &[0x03, 0x10, 0x11]).unwrap();
    assert_eq!(book.collect(), 2);
    set(&mut book, 1, &[0x11]).unwrap();
    assert_eq!(book.collect(), 2);
    relation(&mut book, 0, &[0x11]).unwrap();
    assert_eq!(book.collect(), 2);
    relation(&mut book, 1, &[0x21]).unwrap();
    assert_eq!(book.collect(), 3);
}
