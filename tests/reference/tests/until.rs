//! Slip 1: the rounds of the formula written with a binder find the states of
//! which some, or every, counted run passes; and the steps and rounds are the
//! written formula's.

use reference::evaluate::{set, Held, Limits};
use reference::formula::{frame_as, read, Formula, Kind, Modality};
use reference::meaning::states_of;
use reference::random::Random;
use reference::runs::{by_runs, by_steps_left};
use reference::states::{PairSet, StateSet};

const LIMITS: Limits = Limits {
    rows: usize::MAX,
    rounds: u32::MAX,
};

fn formula(n: u32, body: &[u8]) -> Formula {
    read(n, Kind::Set, &frame_as(2, body)).expect("a formula of version 2")
}

/// The bytes of until over relation 0 as the request writes it, P = 0.
fn written(every: bool, f: &[u8], g: &[u8]) -> Vec<u8> {
    let on: &[u8] = match every {
        true => &[0x03, 0x60, 0x30, 0x68, 0x01],
        false => &[0x68, 0x30],
    };
    [&[0x70, 0x04], g, &[0x03], f, on].concat()
}

fn draw_set(random: &mut Random, n: u32) -> StateSet {
    let members: Vec<bool> = (0..1 << n).map(|_| random.chance(50)).collect();
    StateSet::from_fn(n, |state| members[state])
}

/// A relation with a pair in `percent` of the cells.
fn draw_relation(random: &mut Random, n: u32, percent: u64) -> PairSet {
    let cells: Vec<bool> = (0..1 << (2 * n)).map(|_| random.chance(percent)).collect();
    PairSet::from_fn(n, |now, next| cells[now << n | next])
}

#[test]
fn rounds_find_the_states_of_passing_runs() {
    let mut random = Random::new(1);
    for index in 0..2000 {
        let n = 1 + random.below(2) as u32;
        let relation = draw_relation(&mut random, n, [20, 50, 80][index % 3]);
        let registers = [0, 1].map(|_| Some(draw_set(&mut random, n)));
        let held = Held {
            n,
            valid: &StateSet::constant(n, true),
            registers: &registers,
            relations: &[Some(relation)],
        };
        for every in [false, true] {
            let word = if every { 0x98 } else { 0x90 };
            let until = formula(n, &[word, 0x40, 0x41]);
            let done = set(held, LIMITS, &until).expect("rows and rounds in plenty");
            assert_eq!(done.value, states_of(held, &until));
            let long = formula(n, &written(every, &[0x40], &[0x41]));
            assert_eq!(Ok(done), set(held, LIMITS, &long));
        }
    }
}

/// Runs that go on alike may be looked at once.
#[test]
fn runs_by_the_steps_left() {
    let mut random = Random::new(2);
    for index in 0..600 {
        let n = 1 + random.below(3) as u32;
        let percent = if n == 3 { 25 } else { [20, 50, 80][index % 3] };
        let relation = draw_relation(&mut random, n, percent);
        let (f, g) = (draw_set(&mut random, n), draw_set(&mut random, n));
        for modality in [Modality::Diamond, Modality::Box] {
            assert_eq!(
                by_runs(modality, &relation, &f, &g),
                by_steps_left(modality, &relation, &f, &g)
            );
        }
    }
}

/// n = 1 and 2, counted by hand.
#[test]
fn runs_counted_by_hand() {
    let set = |bits: &str| StateSet::from_fn(bits.len().ilog2(), |s| bits.as_bytes()[s] == b'1');
    let of = |n: u32, pairs: &[(usize, usize)]| {
        PairSet::from_fn(n, |now, next| pairs.contains(&(now, next)))
    };
    let some = |r: &PairSet, f: &str, g: &str| {
        by_runs(Modality::Diamond, r, &set(f), &set(g)).bit_string()
    };
    let every =
        |r: &PairSet, f: &str, g: &str| by_runs(Modality::Box, r, &set(f), &set(g)).bit_string();
    // Each state leads to the other.
    let turn = of(1, &[(0, 1), (1, 0)]);
    assert_eq!(some(&turn, "11", "01"), "11");
    assert_eq!(every(&turn, "00", "01"), "01");
    // State 0 leads to 1 and 2, state 1 to 3, and 2 and 3 lead nowhere.
    let fork = of(2, &[(0, 1), (0, 2), (1, 3)]);
    assert_eq!(some(&fork, "1111", "0001"), "1101");
    assert_eq!(every(&fork, "1111", "0001"), "0101");
    // f is not wanted where g holds first, and is wanted everywhere before.
    assert_eq!(every(&fork, "1100", "0011"), "1111");
    assert_eq!(some(&fork, "1000", "0001"), "0001");
    // The longest way to g has 3 steps; a loop never comes there.
    let chain = of(2, &[(0, 1), (1, 2), (2, 3), (3, 3)]);
    assert_eq!(every(&chain, "1111", "0001"), "1111");
    let looped = of(2, &[(0, 1), (1, 0), (1, 2), (2, 3)]);
    assert_eq!(every(&looped, "1111", "0001"), "0011");
    assert_eq!(some(&looped, "1111", "0001"), "1111");
    // No state has a next one: a run is its first state.
    let none = of(1, &[]);
    assert_eq!(every(&none, "11", "01"), "01");
}

/// The example that tells readings apart: 4 rounds, since the inner nu has its own.
#[test]
fn rounds_of_the_inner_binder_count_in_every_round() {
    let held = Held {
        n: 1,
        valid: &StateSet::constant(1, true),
        registers: &[],
        relations: &[None, None, None, Some(PairSet::constant(1, false))],
    };
    let done = set(held, LIMITS, &formula(1, &[0x93, 0x80, 0x30, 0x10])).expect("answered");
    assert_eq!(done.rounds, 4);
}
