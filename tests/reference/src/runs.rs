//! Until by runs (document 02, Slip 1), without rounds and without a binder.
//!
//! Up to n = 2 every counted run is written down and looked at. Above that the
//! runs from a state are too many (8^8 at n = 3); then runs that go on alike
//! are looked at once, by the number of steps that they have left.

use crate::formula::Modality;
use crate::states::{state_count, PairSet, StateSet};

/// Greatest n at which every counted run is written down: at most 4^4 of a state.
const MAX_RUN_BITS: u32 = 2;

/// The states of which some counted run passes (`Diamond`), or every one (`Box`).
pub fn until(modality: Modality, relation: &PairSet, f: &StateSet, g: &StateSet) -> StateSet {
    match relation.n() <= MAX_RUN_BITS {
        true => by_runs(modality, relation, f, g),
        false => by_steps_left(modality, relation, f, g),
    }
}

/// By every counted run.
pub fn by_runs(modality: Modality, relation: &PairSet, f: &StateSet, g: &StateSet) -> StateSet {
    let asked = Asked::new(modality, relation, f, g);
    StateSet::from_fn(relation.n(), |state| asked.pass(&mut vec![state]))
}

/// By the steps left: what a run does after a state depends on that state and on them alone.
pub fn by_steps_left(
    modality: Modality,
    relation: &PairSet,
    f: &StateSet,
    g: &StateSet,
) -> StateSet {
    let asked = Asked::new(modality, relation, f, g);
    let n = relation.n();
    let mut passing = g.clone();
    for _ in 0..state_count(n) {
        passing = StateSet::from_fn(n, |state| asked.passes_on(state, &passing));
    }
    passing
}

/// What is asked of the runs.
struct Asked<'a> {
    modality: Modality,
    /// The next states of each state.
    next: Vec<Vec<usize>>,
    f: &'a StateSet,
    g: &'a StateSet,
}

impl<'a> Asked<'a> {
    fn new(modality: Modality, relation: &PairSet, f: &'a StateSet, g: &'a StateSet) -> Self {
        let states = 0..state_count(relation.n());
        let of = |now| (states.clone().filter(|&next| relation.contains(now, next))).collect();
        let next = states.clone().map(of).collect();
        Asked {
            modality,
            next,
            f,
            g,
        }
    }

    /// Some of them, or all.
    fn among(&self, states: &[usize], mut holds: impl FnMut(usize) -> bool) -> bool {
        match self.modality {
            Modality::Diamond => states.iter().any(|&state| holds(state)),
            Modality::Box => states.iter().all(|&state| holds(state)),
        }
    }

    /// Whether some, or every, counted run that begins with `run` passes. "A
    /// run counts if it has exactly 2^n steps, or is shorter and ends where no
    /// next state exists."
    fn pass(&self, run: &mut Vec<usize>) -> bool {
        let next = &self.next[run[run.len() - 1]];
        if next.is_empty() || run.len() == self.next.len() + 1 {
            return passes(self.f, self.g, run);
        }
        self.among(next, |state| {
            run.push(state);
            let pass = self.pass(run);
            run.pop();
            pass
        })
    }

    /// Whether some, or every, run from a state passes, where `passing` are the
    /// states from which it does with one step less.
    fn passes_on(&self, state: usize, passing: &StateSet) -> bool {
        let next = &self.next[state];
        self.g.contains(state)
            || self.f.contains(state)
                && !next.is_empty()
                && self.among(next, |after| passing.contains(after))
    }
}

/// "It passes if g holds somewhere on it and f everywhere before the first
/// such place."
fn passes(f: &StateSet, g: &StateSet, run: &[usize]) -> bool {
    match run.iter().position(|&state| g.contains(state)) {
        Some(first) => run[..first].iter().all(|&state| f.contains(state)),
        None => false,
    }
}
