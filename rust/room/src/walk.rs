//! The same questions by a plain walk over all states: no formula, no table.
use crate::circles::{distances, first_return, Steps};
use crate::room::{Asked, Cond, Room, State};

/// A set of states: whether each is in it.
pub type Set = Vec<bool>;

/// The states of a room and where presses lead from each.
pub struct Walk {
    /// Which patterns are states, and in which of them the evening may begin.
    pub exists: Set,
    pub starts: Set,
    /// The states that presses lead to, least first, for each state; and those that they come from.
    next: Vec<Vec<State>>,
    before: Vec<Vec<State>>,
}

/// The sets that a question makes, as the library stores them.
#[derive(Clone, Debug, PartialEq, Eq)]
pub struct Sets {
    pub first: Set,
    pub second: Option<Set>,
    pub third: Option<Set>,
    pub inner: Option<Set>,
    pub answer: Set,
}

/// How a run goes wrong at its end.
#[derive(Clone, Copy, Debug, PartialEq, Eq)]
pub enum End {
    /// It comes to a state that must never be, or that must be possible.
    Reached,
    /// It comes to a state from which no presses lead where it must be possible to come.
    NoWay,
    /// What must hold until then, or unless that, does not hold, and the other has not come.
    Lost,
    /// The same, and it must hold since the state at this place of the run.
    LostSince(usize),
    /// The press that must work does not.
    DoesNotWork,
    /// No press works, and what must come has not come.
    Stuck,
    /// From the state at this place of the run the presses can be repeated for ever, and what must come never does.
    Circle(usize),
}

/// The states of a run into trouble, from the start on, and how it ends.
#[derive(Clone, Debug, PartialEq, Eq)]
pub struct Run {
    pub states: Vec<State>,
    pub end: End,
    /// Whether no run with fewer presses shows it.
    pub least: bool,
}

/// About so many steps are looked at to find the shortest run into a circle: well under a second.
const MOST_STEPS: usize = 40_000_000;

impl Walk {
    pub fn new(room: &Room) -> Walk {
        let patterns = room.patterns();
        let exists: Set = (0..patterns).map(|state| room.exists(state)).collect();
        let mut next: Vec<Vec<State>> = vec![Vec::new(); patterns as usize];
        let mut before = next.clone();
        for state in (0..patterns).filter(|&state| exists[state as usize]) {
            let mut to: Vec<State> = (room.rules.iter())
                .filter_map(|rule| room.pressed(rule, state))
                .collect();
            to.sort_unstable();
            to.dedup();
            for &after in &to {
                before[after as usize].push(state);
            }
            next[state as usize] = to;
        }
        let starts = (0..patterns).map(|state| room.is_start(state)).collect();
        Walk {
            exists,
            starts,
            next,
            before,
        }
    }

    /// The states that meet a condition.
    pub fn set(&self, room: &Room, cond: &Cond) -> Set {
        let meets = |(state, exists): (usize, &bool)| *exists && room.holds(cond, state as State);
        self.exists.iter().enumerate().map(meets).collect()
    }

    /// The states from which presses, or none, lead into a set.
    pub fn leads_to(&self, set: &Set) -> Set {
        let mut found = set.clone();
        let mut open = members(set);
        while let Some(state) = open.pop() {
            for &from in &self.before[state as usize] {
                if !found[from as usize] {
                    found[from as usize] = true;
                    open.push(from);
                }
            }
        }
        found
    }

    /// The states that presses, or none, lead to from the start.
    pub fn reached(&self) -> Set {
        let mut found = self.starts.clone();
        let mut open = members(&found);
        while let Some(state) = open.pop() {
            for &to in &self.next[state as usize] {
                if !found[to as usize] {
                    found[to as usize] = true;
                    open.push(to);
                }
            }
        }
        found
    }

    /// The states from which every run of presses comes to g, and f holds before.
    fn until(&self, f: &Set, g: &Set) -> Set {
        let mut found = g.clone();
        // For each state, how many next states are not yet found.
        let mut left: Vec<usize> = self.next.iter().map(Vec::len).collect();
        let mut open = members(g);
        while let Some(state) = open.pop() {
            for &from in &self.before[state as usize] {
                left[from as usize] -= 1;
                if left[from as usize] == 0 && f[from as usize] && !found[from as usize] {
                    found[from as usize] = true;
                    open.push(from);
                }
            }
        }
        found
    }

    /// The states from which f holds on every run of presses as long as g has not come.
    fn unless(&self, f: &Set, g: &Set) -> Set {
        let (mut lost, waits) = self.lost(f, g);
        let mut open = members(&lost);
        while let Some(state) = open.pop() {
            for &from in &self.before[state as usize] {
                if waits[from as usize] && !lost[from as usize] {
                    lost[from as usize] = true;
                    open.push(from);
                }
            }
        }
        self.without(&lost)
    }

    /// The sets of a question.
    pub fn sets(&self, room: &Room, asked: &Asked) -> Sets {
        let set = |cond: &Cond| self.set(room, cond);
        let mut named = match asked {
            Asked::Works(press, x) => vec![set(&room.fails(press, x))],
            _ => asked.conditions().into_iter().map(set).collect(),
        }
        .into_iter();
        let (first, second, third) = (named.next().unwrap_or_default(), named.next(), named.next());
        let none = Set::new();
        let [y, z] = [&second, &third].map(|set| set.as_ref().unwrap_or(&none));
        let (inner, answer) = self.answers(asked, &first, y, z);
        Sets {
            first,
            second,
            third,
            inner,
            answer,
        }
    }

    /// The inner answer of a question by the sets that it names, where it has one, and its answer.
    fn answers(&self, asked: &Asked, first: &Set, second: &Set, third: &Set) -> (Option<Set>, Set) {
        match asked {
            Asked::Never(_) | Asked::Possible(_) | Asked::Works(..) => (None, self.leads_to(first)),
            Asked::AlwaysPossible(_) => {
                let possible = self.leads_to(first);
                let outside = self.leads_to(&self.without(&possible));
                (Some(possible), self.without(&outside))
            }
            Asked::Until(..) => (None, self.until(first, second)),
            Asked::Unless(..) => (None, self.unless(first, second)),
            Asked::Whenever(..) => {
                let passes = self.unless(second, third);
                let fails = (first.iter().zip(&passes)).map(|(x, p)| *x && !p);
                let answer = self.leads_to(&fails.collect());
                (Some(passes), answer)
            }
        }
    }

    /// The states that are not in a set.
    pub fn without(&self, set: &Set) -> Set {
        let outside = |(exists, inside): (&bool, &bool)| *exists && !inside;
        self.exists.iter().zip(set).map(outside).collect()
    }

    /// A shortest run from the start that shows why a question is broken.
    pub fn trouble(&self, asked: &Asked, sets: &Sets) -> Option<Run> {
        let Sets { first, .. } = sets;
        match (asked, &sets.second, &sets.third, &sets.inner) {
            (Asked::Never(_), ..) => self.run_into(first, End::Reached),
            (Asked::Works(..), ..) => self.run_into(first, End::DoesNotWork),
            (Asked::AlwaysPossible(_), _, _, Some(possible)) => {
                self.run_into(&self.without(possible), End::NoWay)
            }
            (Asked::Until(..), Some(comes), ..) => self.never_comes(first, comes),
            (Asked::Unless(..), Some(comes), ..) => self.loses(first, comes),
            (Asked::Whenever(..), Some(holds), Some(comes), _) => {
                self.loses_since(first, holds, comes)
            }
            // A start from which no presses lead there.
            _ => {
                let outside = self.without(&sets.answer);
                let starts = (0..outside.len()).map(|s| self.starts[s] && outside[s]);
                self.run_into(&starts.collect(), End::NoWay)
            }
        }
    }

    /// A shortest run to where it must be possible to come, from the start that is farthest from there.
    pub fn way(&self, asked: &Asked, sets: &Sets) -> Option<Run> {
        let Asked::Possible(_) = asked else {
            return None;
        };
        let distance = self.distances_to(&sets.first, &self.exists);
        let starts = members(&self.starts).into_iter();
        let farthest = starts.rev().max_by_key(|&start| distance[start as usize])?;
        distance[farthest as usize]?;
        Some(Run {
            states: self.downhill(farthest, &distance),
            end: End::Reached,
            least: true,
        })
    }

    /// For each state, the fewest presses into a set, through states of another set before; none where no presses lead there.
    pub(crate) fn distances_to(&self, into: &Set, through: &Set) -> Vec<Option<usize>> {
        let mut distance: Vec<Option<usize>> = vec![None; self.next.len()];
        let mut layer = members(into);
        for &state in &layer {
            distance[state as usize] = Some(0);
        }
        for steps in 1.. {
            let mut wider = Vec::new();
            for &from in layer.iter().flat_map(|&state| &self.before[state as usize]) {
                if distance[from as usize].is_none() && through[from as usize] {
                    distance[from as usize] = Some(steps);
                    wider.push(from);
                }
            }
            if wider.is_empty() {
                break;
            }
            layer = wider;
        }
        distance
    }

    /// The run from a state down to distance 0: at each place the least state that is nearer.
    fn downhill(&self, from: State, distance: &[Option<usize>]) -> Vec<State> {
        let mut run = vec![from];
        let mut state = from;
        for left in (0..distance[from as usize].unwrap_or(0)).rev() {
            let nearer = |to: &&State| distance[**to as usize] == Some(left);
            let next = self.next[state as usize].iter().find(nearer);
            state = *next.expect("a state at a distance has a nearer one next to it");
            run.push(state);
        }
        run
    }

    /// The nearest of some states, the least of these, and how far it is.
    fn nearest(&self, states: &Set, distance: &[Option<usize>]) -> Option<(usize, State)> {
        let near = members(states).into_iter();
        near.filter_map(|state| Some((distance[state as usize]?, state)))
            .min()
    }

    /// The states of a shortest run from some states into a set, through states of another set before: at each place the
    /// least state that lies on a shortest run. None where no run leads there. Where all presses are one relation the library's
    /// answer is held against it (`Asker::same_run`).
    pub fn shortest_run(&self, from: &Set, into: &Set, through: &Set) -> Option<Vec<State>> {
        let distance = self.distances_to(into, through);
        let (_, first) = self.nearest(from, &distance)?;
        Some(self.downhill(first, &distance))
    }

    fn run_into(&self, into: &Set, end: End) -> Option<Run> {
        let states = self.shortest_run(&self.starts, into, &self.exists)?;
        let least = true;
        Some(Run { states, end, least })
    }

    /// The states where f does not hold and g has not come, and those where g has not come.
    fn lost(&self, f: &Set, g: &Set) -> (Set, Set) {
        let waits = self.without(g);
        let lost = (waits.iter().zip(f)).map(|(w, f)| *w && !f).collect();
        (lost, waits)
    }

    /// A shortest run on which f does not hold and g has not come.
    fn loses(&self, f: &Set, g: &Set) -> Option<Run> {
        let (lost, waits) = self.lost(f, g);
        let states = self.shortest_run(&self.starts, &lost, &waits)?;
        let (end, least) = (End::Lost, true);
        Some(Run { states, end, least })
    }

    /// A shortest run that comes to x, from where on f does not hold and g has not come.
    fn loses_since(&self, x: &Set, f: &Set, g: &Set) -> Option<Run> {
        let (lost, waits) = self.lost(f, g);
        let after = self.distances_to(&lost, &waits);
        let before = distances(&self.next, &self.exists, &self.starts);
        let presses = |s: usize| Some(before[s]? + after[s]?);
        let begins = (0..x.len()).filter(|&s| x[s]);
        let (_, since) = begins.filter_map(|s| Some((presses(s)?, s))).min()?;
        let mut states = self.shortest_run(&self.starts, &self.only(since), &self.exists)?;
        let end = End::LostSince(states.len() - 1);
        states.extend(&self.downhill(since as State, &after)[1..]);
        let least = true;
        Some(Run { states, end, least })
    }

    /// A shortest run on which f does not hold until g: it loses f or has no next press, or it comes to a state for the second
    /// time, from where the same presses can go on for ever.
    fn never_comes(&self, f: &Set, g: &Set) -> Option<Run> {
        let waits = self.without(g);
        let ends = (0..waits.len())
            .map(|s| waits[s] && (!f[s] || self.next[s].is_empty()))
            .collect();
        let ending = self.shortest_run(&self.starts, &ends, &waits);
        let presses = ending
            .as_ref()
            .map_or(usize::MAX, |states| states.len() - 1);
        let (circle, least) = self.circle(&waits, presses);
        if let Some((states, end)) = circle {
            return Some(Run { states, end, least });
        }
        let states = ending?;
        let holds = f[*states.last()? as usize];
        let end = if holds { End::Stuck } else { End::Lost };
        Some(Run { states, end, least })
    }

    /// A shortest run inside a set that comes to a state for the second time, where that has fewer presses than so many; with it,
    /// whether all circles that could be nearer were looked at.
    fn circle(&self, inside: &Set, below: usize) -> (Option<(Vec<State>, End)>, bool) {
        let steps = Steps {
            next: &self.next,
            before: &self.before,
            inside,
        };
        let (found, whole) = first_return(steps, &self.starts, below, MOST_STEPS);
        let run = found.and_then(|found| self.round(found.state, inside));
        (run, whole)
    }

    /// A shortest run inside a set to a state, and round to it again.
    fn round(&self, state: State, inside: &Set) -> Option<(Vec<State>, End)> {
        let back = self.distances_to(&self.only(state as usize), inside);
        let (_, first) = self.nearest(&self.starts, &back)?;
        let mut states = self.downhill(first, &back);
        let end = End::Circle(states.len() - 1);
        let steps = (self.next[state as usize].iter()).filter(|&&to| inside[to as usize]);
        let near = steps.filter_map(|&to| Some((back[to as usize]?, to)));
        let (_, step) = near.min()?;
        states.extend(self.downhill(step, &back));
        Some((states, end))
    }

    /// The set of one state.
    fn only(&self, state: usize) -> Set {
        let mut set = vec![false; self.exists.len()];
        set[state] = true;
        set
    }
}

/// The states of a set, least first.
pub fn members(set: &Set) -> Vec<State> {
    let states = set.iter().enumerate().filter(|(_, inside)| **inside);
    states.map(|(state, _)| state as State).collect()
}
