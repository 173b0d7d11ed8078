//! A run of a relation that fits two logs (document 02, Slip 11): by enumeration of
//! runs, from the least states on; and the steps of the sets that are made.

use crate::evaluate::{self, Held};
use crate::refusal::Refusal;
use crate::states::{state_count, PairSet, StateSet};
use std::collections::HashSet;

/// "Each log has k entries, 1 to 1,024".
pub const MAX_ENTRIES: usize = 1024;

/// "a mask and a value, 16 bits each".
#[derive(Clone, Copy, Debug, PartialEq, Eq, Hash)]
pub struct Entry {
    pub mask: u16,
    pub value: u16,
}

impl Entry {
    /// "a state fits when its masked bits equal the value".
    pub fn fits(self, state: usize) -> bool {
        state & usize::from(self.mask) == usize::from(self.value)
    }
}

/// The entries of a log.
pub type Log = Vec<Entry>;

/// Entry i of both logs, "for the same moment".
pub type Moment = (Entry, Entry);

/// Whether a state fits both entries.
pub fn fits(moment: Moment, state: usize) -> bool {
    moment.0.fits(state) && moment.1.fits(state)
}

/// "A log length out of range or unequal gives 1": the moments of two logs.
pub fn moments(one: &[Entry], two: &[Entry]) -> Result<Vec<Moment>, Refusal> {
    if one.len() != two.len() || !(1..=MAX_ENTRIES).contains(&one.len()) {
        return Err(Refusal::BadSizes);
    }
    Ok(one.iter().copied().zip(two.iter().copied()).collect())
}

/// "some run of a relation with k states fits both logs": its states, "the least
/// possible at each place in turn". Runs are tried in the order of their states, so
/// the first that is whole is the least; a state from which the logs cannot be
/// finished is not tried again at its place.
pub fn logged(relation: &PairSet, valid: &StateSet, moments: &[Moment]) -> Option<Vec<usize>> {
    let states = 0..state_count(valid.n());
    let mut dead: HashSet<(usize, usize)> = HashSet::new();
    let mut run: Vec<usize> = Vec::new();
    let mut from = 0;
    while run.len() < moments.len() {
        let place = run.len();
        let follows = |next: usize| match run.last() {
            Some(&now) => relation.contains(now, next),
            None => valid.contains(next),
        };
        let open = |&next: &usize| {
            next >= from
                && fits(moments[place], next)
                && follows(next)
                && !dead.contains(&(place, next))
        };
        match states.clone().find(open) {
            Some(next) => {
                run.push(next);
                from = 0;
            }
            None => {
                let last = run.pop()?;
                dead.insert((run.len(), last));
                from = last + 1;
            }
        }
    }
    Some(run)
}

/// The states of a run as one number: digits to base 2^n behind a 1, so that other runs have other
/// numbers.
pub fn digits(n: u32, run: &[u16]) -> u64 {
    assert!(
        run.len() * n as usize <= 63,
        "a run too long for one number"
    );
    let append = |number: u64, &state: &u16| number << n | u64::from(state);
    run.iter().fold(1, append)
}

/// A set that was made, and the largest need of its steps and those before it.
pub struct Made {
    pub set: StateSet,
    pub peak: usize,
}

/// Takes the steps of the set at a place: "the states fitting both last entries,
/// then for each earlier pair diamond of the later set AND the states fitting it".
pub fn make_set(
    held: Held,
    rows: usize,
    t: usize,
    moments: &[Moment],
    place: usize,
) -> Result<Made, Refusal> {
    let fitting = |&moment: &Moment| StateSet::from_fn(held.n, |state| fits(moment, state));
    let (last, earlier) = moments.split_last().expect("at least one entry");
    let first = evaluate::fitting(held, rows, &fitting(last))?;
    let (mut set, mut peak) = (first.value, first.peak);
    for moment in earlier.iter().skip(place).rev() {
        let before = evaluate::set_before(held, rows, t, &set, &fitting(moment))?;
        peak = peak.max(before.peak);
        set = before.value;
    }
    Ok(Made { set, peak })
}
