//! n, N and the states of sets, against the library's own answers; and the presses that `keeps` and
//! `turns` write.
mod common;

use common::Drawn;
use kudzuclamp::{Account, Formula, Refusal, Table, Target, MAX_BITS, MAX_ROWS};

fn table(n: u32, rows: u32) -> Table<Vec<u32>> {
    Table::new(&mut [Account::unlimited()], n, rows).unwrap()
}

fn set(t: &mut Table<Vec<u32>>, r: u32, formula: &Formula) {
    let stored = t.set(&mut [Account::unlimited()], Target::register(r), formula);
    assert!(stored.is_ok(), "{formula}: {stored:?}");
}

/// A formula over current bits, so many operators deep at most.
fn drawn(draw: &mut Drawn, n: u32, depth: u32) -> Formula {
    if depth == 0 {
        return Formula::current(draw.below(n));
    }
    let f = drawn(draw, n, depth - 1);
    match draw.below(5) {
        0 => !f,
        1 => f & drawn(draw, n, depth - 1),
        2 => f | drawn(draw, n, depth - 1),
        3 => f ^ Formula::current(draw.below(n)),
        _ => f.implies(drawn(draw, n, depth - 1)),
    }
}

#[test]
fn sizes_of_every_table() {
    for n in 1..=MAX_BITS {
        for rows in [1, 1_344, MAX_ROWS] {
            let t = table(n, rows);
            assert_eq!((t.bits(), t.rows()), (Ok(n), Ok(rows)));
        }
    }
}

#[test]
fn states_are_the_members() {
    let mut draw = Drawn(1);
    for n in 1..=6 {
        let mut t = table(n, 2_000);
        for turn in 0..60 {
            // Other sets before it, so that rows lie in any order and carry marks.
            let formula = drawn(&mut draw, n, 4);
            let r = turn % 32;
            set(&mut t, r, &formula);
            let members: Vec<u32> = (0..1 << n).filter(|&s| t.member(r, s).unwrap()).collect();
            assert!(t.states(r).unwrap().eq(members), "{formula}");
        }
        set(&mut t, 0, &Formula::falsity());
        set(&mut t, 1, &Formula::truth());
        assert_eq!(t.states(0).unwrap().count(), 0);
        assert!(t.states(1).unwrap().eq(0..1 << n));
    }
}

#[test]
fn states_of_16_bits() {
    let mut t = table(16, MAX_ROWS);
    let odd = (0..16).map(Formula::current).reduce(|f, g| f ^ g);
    // Too long as one formula: 16 bits with `^` double at each.
    assert_eq!(t.check_set(odd.unwrap()).unwrap_err(), Refusal::Syntax);
    set(&mut t, 0, &Formula::falsity());
    for p in 0..16 {
        set(&mut t, 0, &(Formula::register(0) ^ Formula::current(p)));
    }
    let states: Vec<u32> = (0..1 << 16)
        .filter(|s: &u32| s.count_ones() % 2 == 1)
        .collect();
    assert!(t.states(0).unwrap().eq(states));
}

#[test]
fn refused_as_node_is() {
    let mut t = table(2, 10);
    assert_eq!(t.states(0).err(), Some(Refusal::Empty));
    assert_eq!(t.states(32).err(), Some(Refusal::Range));
    t.words_mut()[0] = 17;
    assert_eq!(t.states(0).err(), Some(Refusal::Unsound));
    assert_eq!(
        (t.bits(), t.rows()),
        (Err(Refusal::Unsound), Err(Refusal::Unsound))
    );
    t.words_mut().fill(0);
    assert_eq!(
        (t.bits(), t.rows()),
        (Err(Refusal::Unsound), Err(Refusal::Unsound))
    );
}

/// A press that turns bit p over and keeps the others leads from each state to that one state.
#[test]
fn presses() {
    let n = 4;
    for p in 0..n {
        let mut t = table(n, 1_000);
        let others = (0..n).filter(|&q| q != p).map(Formula::keeps);
        t.relation(0, Formula::turns(p) & Formula::all(others))
            .unwrap();
        for state in 0..1 << n {
            let only = |s: u32| {
                Formula::all((0..n).map(|q| match s >> q & 1 {
                    1 => Formula::current(q),
                    _ => !Formula::current(q),
                }))
            };
            set(&mut t, 0, &Formula::diamond(0, only(state)));
            assert!(t.states(0).unwrap().eq([state ^ 1 << p]));
        }
    }
}
