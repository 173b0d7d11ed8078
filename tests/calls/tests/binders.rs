//! Binders that bind nothing, which an earlier library took: their sets, already in registers, stay
//! usable and compare by number with new ones; the formulas get 12 and keep all words.

use calls::list::Step;
use calls::run::Runner;
use calls::writer::frame;
use reference::book::{words_for, Call};

/// n = 2 and so many rows; relation 0 leads from each state to itself and to state 3.
fn room(rows: u32) -> Runner {
    let lent = words_for(rows.into()) as usize;
    let mut runner = Runner::over(vec![0; lent]);
    let same = |p: u8| {
        vec![
            0x04,
            0x03,
            0x10 + p,
            0x20 + p,
            0x03,
            0x02,
            0x10 + p,
            0x02,
            0x20 + p,
        ]
    };
    let stay = [vec![0x03], same(0), same(1)].concat();
    let body = [vec![0x04, 0x03, 0x20, 0x21], stay].concat();
    let n = 2;
    runner.step(&Step::Fresh { n, rows, lent }).unwrap();
    let formula = frame(&body);
    let relation = Step::Call(Call::Relation { t: 0, formula });
    runner.step(&relation).unwrap();
    runner
}

/// Sets a register and compares with the separate evaluator; the number.
fn set(runner: &mut Runner, r: usize, body: &[u8]) -> u8 {
    let call = Call::Set {
        place: 0,
        r: r as u64,
        rounds: 99,
        formula: frame(body),
    };
    runner.step(&Step::Call(call)).unwrap();
    runner.counts.last
}

/// What stood below binders that bound nothing: the set of `70 f` and of `80 f` was that of f.
const BODIES: [&[u8]; 8] = [
    &[0x00],
    &[0x01],
    &[0x10],
    &[0x02, 0x11],
    &[0x03, 0x10, 0x11],
    &[0x68, 0x02, 0x10],
    &[0x60, 0x11],
    &[0x90, 0x11, 0x10],
];

#[test]
fn old_sets_compare_by_number_with_new_ones() {
    let mut runner = room(100);
    let count = BODIES.len();
    // The sets as they were stored.
    for (r, body) in BODIES.into_iter().enumerate() {
        assert_eq!(set(&mut runner, r, body), 0);
    }
    let old = runner.expected().expect("sound").nodes.clone();
    for (r, body) in BODIES.into_iter().enumerate() {
        // The formulas of then, run again.
        for binder in [0x70, 0x85] {
            let formula = [&[binder], body].concat();
            assert_eq!(set(&mut runner, r, &formula), 12);
            assert_eq!(set(&mut runner, count + r, &formula), 12);
        }
        // The same set by a formula of now, with a binder and by the register itself.
        let now = [&[0x70, 0x04, 0x30], body].concat();
        assert_eq!(set(&mut runner, count + r, &now), 0);
        let again = [&[0x80, 0x03, 0x30, 0x40 + r as u8][..]].concat();
        assert_eq!(set(&mut runner, 2 * count + r, &again), 0);
        let nodes = &runner.expected().expect("sound").nodes;
        assert_eq!(nodes[..count], old[..count]);
        assert_eq!((nodes[count + r], nodes[2 * count + r]), (old[r], old[r]));
    }
    // All pairs of registers: numbers are equal exactly where the sets are.
    runner.compare_all().unwrap();
}
