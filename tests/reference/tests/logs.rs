//! Slip 11: cases followed by hand, and the search against all runs of small rooms.

use reference::book::{Book, REGISTERS, RELATIONS};
use reference::logs::{fits, logged, Entry, Moment};
use reference::random::Random;
use reference::refusal::Refusal;
use reference::states::{PairSet, StateSet};

/// A book of two bits and so many rows with one relation, and perhaps a set.
fn book(rows: usize, set: Option<&[usize]>, pairs: &[(usize, usize)]) -> Book {
    let mut registers = vec![None; REGISTERS];
    registers[0] = set.map(|set| StateSet::from_fn(2, |s| set.contains(&s)));
    let mut relations = vec![None; RELATIONS];
    relations[0] = Some(PairSet::from_fn(2, |s, t| pairs.contains(&(s, t))));
    Book::with(2, rows, StateSet::constant(2, true), registers, relations)
}

fn log(entries: &[(u16, u16)]) -> Vec<Entry> {
    let entry = |&(mask, value): &(u16, u16)| Entry { mask, value };
    entries.iter().map(entry).collect()
}

/// 0 leads to 1 and 2, both lead to 3.
const FORK: [(usize, usize); 4] = [(0, 1), (0, 2), (1, 3), (2, 3)];

fn every_pair() -> Vec<(usize, usize)> {
    (0..16).map(|k| (k / 4, k % 4)).collect()
}

/// "the least possible at each place in turn".
#[test]
fn least_states() {
    let book = book(99, None, &FORK);
    let run = |one: &[(u16, u16)], two: &[(u16, u16)]| book.logged(0, &log(one), &log(two), 9);
    assert_eq!(run(&[(0, 0); 3], &[(0, 0); 3]), Ok(vec![0, 1, 3]));
    assert_eq!(
        run(&[(0, 0), (2, 2), (0, 0)], &[(0, 0); 3]),
        Ok(vec![0, 2, 3])
    );
    assert_eq!(run(&[(0, 0); 2], &[(0, 0), (3, 3)]), Ok(vec![1, 3]));
    assert_eq!(run(&[(0, 0); 4], &[(0, 0); 4]), Err(Refusal::NoRun));
    assert_eq!(run(&[(0, 0)], &[(0, 0)]), Ok(vec![0]));
}

/// "a state fits when its masked bits equal the value": of all 16 bits.
#[test]
fn masked_bits() {
    let one = |mask, value| (0..4).filter(|&s| Entry { mask, value }.fits(s)).count();
    assert_eq!(
        [one(0, 0), one(1, 1), one(3, 1), one(0xFFFF, 3)],
        [4, 2, 1, 1]
    );
    assert_eq!([one(0, 1), one(1, 2), one(4, 4), one(4, 0)], [0, 0, 0, 4]);
    let moment = (Entry { mask: 1, value: 1 }, Entry { mask: 1, value: 0 });
    assert!((0..4).all(|s| !fits(moment, s)), "two logs that differ");
}

/// 1, 3, 7, then 8, 10, 11: each call has the causes after it too.
#[test]
fn checks_in_order() {
    let book = book(99, None, &FORK);
    let (one, never) = (log(&[(0, 0)]), log(&[(0, 1)]));
    let long = log(&[(0, 0); 1025]);
    for (first, second) in [(&one, &long), (&long, &long), (&one, &vec![])] {
        assert_eq!(book.logged(8, first, second, 0), Err(Refusal::BadSizes));
    }
    assert_eq!(book.logged(0, &[], &[], 0), Err(Refusal::BadSizes));
    assert_eq!(book.logged(8, &one, &never, 0), Err(Refusal::OutOfRange));
    assert_eq!(book.logged(1, &one, &never, 0), Err(Refusal::Empty));
    assert_eq!(book.logged(0, &one, &never, 0), Err(Refusal::NoRun));
    assert_eq!(book.logged(0, &one, &one, 0), Err(Refusal::ListTooShort));
    assert_eq!(book.logged(0, &one, &one, 1), Ok(vec![0]));
}

/// "diamond of the later set AND the states fitting it": left before right. Three rows are enough; with the fitting
/// states first they would not be.
#[test]
fn diamond_first() {
    let (one, two) = (log(&[(3, 2), (2, 0)]), log(&[(0, 0); 2]));
    let run = |rows| book(rows, Some(&[1, 3]), &every_pair()).logged(0, &one, &two, 2);
    assert_eq!(run(3), Ok(vec![2, 0]));
    assert_eq!(run(2), Err(Refusal::Full));
}

/// "All k sets are made before 10 is decided": no state fits the last entries, and yet the set before takes a row.
#[test]
fn all_sets_are_made() {
    let (one, two) = (log(&[(3, 3), (0, 1)]), log(&[(0, 0); 2]));
    let run = |rows| book(rows, None, &every_pair()).logged(0, &one, &two, 2);
    assert_eq!(run(1), Err(Refusal::Full));
    assert_eq!(run(2), Err(Refusal::NoRun));
}

/// "only the last set is live", until the new one is made. The later set is state 3, of two rows: EXISTS of its SHIFT, of
/// two rows too, makes one more. Four rows would do where it was freed after SHIFT.
#[test]
fn later_set_is_live() {
    let (one, two) = (log(&[(0, 0), (3, 3)]), log(&[(0, 0); 2]));
    let run = |rows| book(rows, None, &every_pair()).logged(0, &one, &two, 2);
    assert_eq!(run(4), Err(Refusal::Full));
    assert_eq!(run(5), Ok(vec![0, 3]));
}

/// Sets after the later one are not live: state 3 would be a sixth row while the first set is made of state 0.
#[test]
fn older_sets_are_not_live() {
    let (one, two) = (log(&[(0, 0), (3, 0), (3, 3)]), log(&[(0, 0); 3]));
    let run = |rows| book(rows, None, &every_pair()).logged(0, &one, &two, 3);
    assert_eq!(run(4), Err(Refusal::Full));
    assert_eq!(run(5), Ok(vec![0, 0, 3]));
}

/// "their AND with V another", also where V is every state: a step that makes no row needs those of its operand.
#[test]
fn needs_of_one_moment() {
    let (one, two) = (log(&[(3, 3)]), log(&[(1, 1)]));
    let run = |rows| book(rows, None, &every_pair()).logged(0, &one, &two, 1);
    assert_eq!(run(1), Err(Refusal::Full));
    assert_eq!(run(2), Ok(vec![3]));
}

/// All lists of so many states of two bits, in their order.
fn all_lists(size: usize) -> Vec<Vec<usize>> {
    let longer = |lists: Vec<Vec<usize>>, _| {
        let more = |list: &Vec<usize>| (0..4).map(move |s| (list.clone(), s)).collect::<Vec<_>>();
        let pairs = lists.iter().flat_map(more);
        pairs.map(|(list, s)| [list, vec![s]].concat()).collect()
    };
    (0..size).fold(vec![Vec::new()], longer)
}

/// The search against the least of all lists of states that are runs within V and fit.
#[test]
fn against_all_runs() {
    let (mut random, mut found) = (Random::new(11), 0);
    for _ in 0..2_000 {
        let exists = random.below(16);
        let valid = StateSet::from_fn(2, |s| exists >> s & 1 == 1);
        let drawn = random.below(1 << 16) | random.below(1 << 16);
        let relation = PairSet::from_fn(2, |s, t| {
            valid.contains(s) && valid.contains(t) && drawn >> (4 * s + t) & 1 == 1
        });
        let entry = |random: &mut Random| {
            let mask = random.below(4) as u16 & random.below(4) as u16;
            let within = if random.chance(85) { mask } else { 3 };
            let value = random.below(4) as u16 & within;
            Entry { mask, value }
        };
        let size = 1 + random.below(4) as usize;
        let moments: Vec<Moment> = (0..size)
            .map(|_| (entry(&mut random), entry(&mut random)))
            .collect();
        let whole = |list: &Vec<usize>| {
            list.windows(2).all(|two| relation.contains(two[0], two[1]))
                && list.iter().all(|&s| valid.contains(s))
                && list
                    .iter()
                    .zip(&moments)
                    .all(|(&s, &moment)| fits(moment, s))
        };
        let least = all_lists(size).into_iter().find(whole);
        found += u32::from(least.is_some());
        assert_eq!(logged(&relation, &valid, &moments), least);
    }
    assert!(found > 200, "{found}");
}
