//! Circles of presses: which state a run meets a second time after the fewest presses.
use crate::room::State;
use crate::walk::{members, Set};

/// Steps between states, both ways, and the set that runs stay in.
#[derive(Clone, Copy)]
pub struct Steps<'a> {
    pub next: &'a [Vec<State>],
    pub before: &'a [Vec<State>],
    pub inside: &'a Set,
}

/// A state that a run from some start meets twice.
#[derive(Clone, Copy, Debug, PartialEq, Eq)]
pub struct Return {
    pub state: State,
    /// The presses up to the second time.
    pub presses: usize,
}

/// The state that a run from some start meets twice after the fewest presses, where these are fewer than so many. With it,
/// whether all circles that could be nearer were looked at: the search ends after about so many steps.
pub fn first_return(
    steps: Steps,
    starts: &Set,
    below: usize,
    most: usize,
) -> (Option<Return>, bool) {
    let mut from_start = Spread::new(steps.inside.len());
    let begins: Vec<State> = (members(starts).into_iter())
        .filter(|&start| steps.inside[start as usize])
        .collect();
    from_start.over(steps.next, steps.inside, &begins, usize::MAX);
    let far = |state: State| from_start.distance(state).unwrap_or(usize::MAX);
    let mut back = back_steps(steps, &begins);
    back.sort_unstable_by_key(|&(from, to)| (far(from), from, to));
    let mut search = Search {
        steps,
        from_start: &from_start,
        out: Spread::new(steps.inside.len()),
        home: Spread::new(steps.inside.len()),
    };
    let mut best: Option<Return> = None;
    for (at, &(from, to)) in back.iter().enumerate() {
        let below = best.map_or(below, |best| best.presses);
        // A run comes to the step's first state before it goes round.
        if far(from).saturating_add(1) >= below {
            break;
        }
        if at > 0 && search.looked() > most {
            return (best, false);
        }
        best = search.round(from, to, below).or(best);
    }
    (best, true)
}

/// The steps that lead back to a state on the way there, in a search in depth from some starts: every circle of steps
/// has one of them.
fn back_steps(steps: Steps, starts: &[State]) -> Vec<(State, State)> {
    let mut met = vec![false; steps.inside.len()];
    let mut on_way = met.clone();
    let mut back = Vec::new();
    // The way, and for each state on it how many of its steps were taken.
    let mut way: Vec<(State, usize)> = Vec::new();
    for &start in starts {
        if !met[start as usize] {
            way.push((start, 0));
        }
        while let Some((state, taken)) = way.pop() {
            met[state as usize] = true;
            let next = steps.next[state as usize].get(taken);
            on_way[state as usize] = next.is_some();
            let Some(&to) = next else {
                continue;
            };
            way.push((state, taken + 1));
            if on_way[to as usize] {
                back.push((state, to));
            } else if steps.inside[to as usize] && !met[to as usize] {
                way.push((to, 0));
            }
        }
    }
    back
}

/// What is at hand to look for the shortest circle through a step.
struct Search<'a> {
    steps: Steps<'a>,
    from_start: &'a Spread,
    out: Spread,
    home: Spread,
}

impl Search<'_> {
    /// The steps that were looked at so far.
    fn looked(&self) -> usize {
        self.out.looked + self.home.looked
    }

    /// The first return of a run round a circle with a step in it, where that has fewer presses than so many: from the start to
    /// some state, on to the step, and from its end to the same state again.
    fn round(&mut self, from: State, to: State, below: usize) -> Option<Return> {
        let Steps {
            next,
            before,
            inside,
        } = self.steps;
        // The step itself is one press.
        self.out.over(next, inside, &[to], below - 1);
        self.home.over(before, inside, &[from], below - 1);
        let presses = |&state: &State| {
            let there = self.from_start.distance(state)? + self.home.distance(state)?;
            Some((there + 1 + self.out.distance(state)?, state))
        };
        let (presses, state) = self.out.met.iter().filter_map(presses).min()?;
        (presses < below).then_some(Return { state, presses })
    }
}

/// How far states are from others. It is used again and again, and forgets the last time at once.
struct Spread {
    /// When a state was met last, and how far it was.
    times: Vec<(usize, usize)>,
    time: usize,
    /// The states that were met, the nearest first.
    met: Vec<State>,
    looked: usize,
}

impl Spread {
    fn new(states: usize) -> Spread {
        Spread {
            times: vec![(0, 0); states],
            time: 0,
            met: Vec::new(),
            looked: 0,
        }
    }

    fn meet(&mut self, state: State, far: usize) {
        let time = (self.time, far);
        if std::mem::replace(&mut self.times[state as usize], time).0 < self.time {
            self.met.push(state);
        }
    }

    fn distance(&self, state: State) -> Option<usize> {
        let (time, far) = self.times[state as usize];
        (time == self.time).then_some(far)
    }

    /// Meets all states that so many steps inside a set lead to, at most.
    fn over(&mut self, steps: &[Vec<State>], inside: &Set, from: &[State], most: usize) {
        self.time += 1;
        self.met.clear();
        from.iter().for_each(|&state| self.meet(state, 0));
        let mut at = 0;
        while let Some(&state) = self.met.get(at) {
            at += 1;
            let far = 1 + self.distance(state).unwrap_or_default();
            if far > most {
                break;
            }
            self.looked += 1 + steps[state as usize].len();
            for &to in &steps[state as usize] {
                if inside[to as usize] && self.distance(to).is_none() {
                    self.meet(to, far);
                }
            }
        }
    }
}

/// How many steps inside a set lead from some start to each state.
pub fn distances(next: &[Vec<State>], inside: &Set, starts: &Set) -> Vec<Option<usize>> {
    let mut spread = Spread::new(inside.len());
    let begins: Vec<State> = (members(starts).into_iter())
        .filter(|&start| inside[start as usize])
        .collect();
    spread.over(next, inside, &begins, usize::MAX);
    (0..inside.len())
        .map(|state| spread.distance(state as State))
        .collect()
}

#[cfg(test)]
mod tests {
    use super::{back_steps, distances, first_return, Return, Steps};
    use crate::room::State;
    use crate::walk::{members, Set};

    type Next = Vec<Vec<State>>;

    /// Numbers of a small generator, each below a bound.
    fn drawn(mut seed: u64) -> impl FnMut(usize) -> usize {
        move |bound| {
            seed = seed
                .wrapping_mul(6364136223846793005)
                .wrapping_add(1442695040888963407);
            (seed >> 33) as usize % bound
        }
    }

    /// Steps between a few states, as many from each as one of these numbers says, and a set of them.
    fn graphs(seed: u64, count: usize, size: usize, steps: &[usize]) -> Vec<(Next, Set)> {
        let mut draw = drawn(seed);
        let mut graph = || {
            let size = 1 + draw(size);
            let next = (0..size)
                .map(|_| {
                    let count = steps[draw(steps.len())];
                    (0..count).map(|_| draw(size) as State).collect()
                })
                .collect();
            (next, (0..size).map(|_| draw(12) > 0).collect())
        };
        (0..count).map(|_| graph()).collect()
    }

    /// The steps the other way.
    fn before(next: &Next) -> Next {
        let mut before = vec![Vec::new(); next.len()];
        for (from, list) in next.iter().enumerate() {
            list.iter()
                .for_each(|&to| before[to as usize].push(from as State));
        }
        before
    }

    /// The set of one state.
    fn only(next: &Next, state: State) -> Set {
        (0..next.len()).map(|s| s == state as usize).collect()
    }

    fn found(next: &Next, inside: &Set, starts: &Set, most: usize) -> (Option<Return>, bool) {
        let steps = Steps {
            next,
            before: &before(next),
            inside,
        };
        first_return(steps, starts, usize::MAX, most)
    }

    /// The fewest steps from a state to another inside a set, one at least.
    fn steps(next: &Next, inside: &Set, from: usize, to: usize) -> Option<usize> {
        let starts = next[from].iter().filter(|&&state| inside[state as usize]);
        let ways = starts.filter_map(|&state| distances(next, inside, &only(next, state))[to]);
        ways.min().map(|steps| steps + 1)
    }

    /// The presses up to a state for the second time, at least.
    fn presses(next: &Next, inside: &Set, starts: &Set, state: usize) -> Option<usize> {
        Some(distances(next, inside, starts)[state]? + steps(next, inside, state, state)?)
    }

    /// Without its back steps a graph has no circle, and each of them lies on one.
    #[test]
    fn every_circle_has_a_back_step() {
        for (next, inside) in graphs(7, 500, 12, &[0, 1, 2]) {
            let starts: Vec<State> = members(&inside);
            let all = Steps {
                next: &next,
                before: &next,
                inside: &inside,
            };
            let back = back_steps(all, &starts);
            let mut without = next.clone();
            for &(from, to) in &back {
                let leads =
                    from == to || steps(&next, &inside, to as usize, from as usize).is_some();
                assert!(leads && next[from as usize].contains(&to));
                without[from as usize].retain(|&other| other != to);
            }
            for state in starts {
                assert_eq!(
                    steps(&without, &inside, state as usize, state as usize),
                    None
                );
            }
        }
    }

    #[test]
    fn first_returns_as_by_trying_each_state() {
        let mut met = [0; 12];
        for (next, inside) in graphs(8, 3_000, 40, &[1, 1, 1, 2]) {
            // One start, or two.
            let starts = (0..next.len()).map(|s| s == 0 || s == next.len() / 3);
            let starts: Set = starts.collect();
            let (first, whole) = found(&next, &inside, &starts, usize::MAX);
            let states = 0..next.len();
            let plain = states.filter_map(|state| presses(&next, &inside, &starts, state));
            assert_eq!(first.map(|first| first.presses), plain.min());
            assert!(whole);
            if let Some(first) = first {
                let own = presses(&next, &inside, &starts, first.state as usize);
                assert_eq!(own, Some(first.presses));
                met[first.presses.min(11)] += 1;
            }
        }
        assert!(met[1..10].iter().all(|&count| count > 5), "{met:?}");
    }

    /// Where the search is cut short, what it gives is a return, and it does not say that there is no sooner one.
    #[test]
    fn a_search_that_is_cut_short() {
        let (mut cut, mut later) = (0, 0);
        for (next, inside) in graphs(9, 3_000, 40, &[1, 2, 2]) {
            let start = only(&next, 0);
            let (best, _) = found(&next, &inside, &start, usize::MAX);
            let (first, whole) = found(&next, &inside, &start, 0);
            assert_eq!(first.is_some(), best.is_some());
            let (Some(first), Some(best)) = (first, best) else {
                continue;
            };
            let own = presses(&next, &inside, &start, first.state as usize);
            assert!(own.is_some_and(|own| own <= first.presses));
            assert!(first.presses == best.presses || !whole);
            cut += usize::from(!whole);
            later += usize::from(first.presses > best.presses);
        }
        assert!(cut > 50 && later > 5, "{cut} {later}");
    }

    /// A counter of n bits with a press that takes its highest bit off: every long circle is looked at once.
    #[test]
    fn long_circles() {
        let n = 1 << 15;
        let next: Next = (0..2 * n)
            .map(|state| match state < n {
                true => vec![state + 1],
                false => vec![state - n, (state + 1) % (2 * n)],
            })
            .collect();
        let all = vec![true; next.len()];
        let (first, whole) = found(&next, &all, &only(&next, 0), 1_000_000);
        assert_eq!(first.map(|first| first.presses), Some(n as usize + 1));
        assert!(whole);
    }

    /// Ways that only lead on, in any order, and one back from the end: that one step is on every circle.
    #[test]
    fn one_way_back() {
        let n = 1 << 12;
        let on = |state: State| {
            let one = (0..12).map(move |k| state | 1 << k);
            let two = (0..11).map(move |k| state | 3 << k);
            one.chain(two).filter(move |&to| to != state)
        };
        let mut next: Next = (0..n).map(|state| on(state).collect()).collect();
        next[n as usize - 1] = vec![0];
        let all = vec![true; next.len()];
        let (first, whole) = found(&next, &all, &only(&next, 0), 1_000_000);
        assert_eq!(first.map(|first| first.presses), Some(7));
        assert!(whole);
    }
}
