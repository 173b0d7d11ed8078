//! Guest against machine (document 02, Slip 8), by an attractor over explicit
//! moves: no formula, no round of one.

use crate::evaluate::Evaluated;
use crate::formula::{Fixpoint, Formula, Modality};
use crate::refusal::Refusal;
use crate::states::{state_count, PairSet, StateSet};
use std::collections::BTreeSet;
use std::fmt;

/// "Given a guest relation, a machine relation and a goal register": their
/// numbers, which may be out of range.
#[derive(Clone, Copy, Debug, PartialEq, Eq)]
pub struct Named {
    pub goal: u64,
    pub guest: u64,
    pub machine: u64,
}

impl fmt::Display for Named {
    fn fmt(&self, f: &mut fmt::Formatter<'_>) -> fmt::Result {
        write!(f, "{} {} {}", self.goal, self.guest, self.machine)
    }
}

/// The moves of both sides by the state that they start from, each once, the
/// least first; and the goal.
#[derive(Clone, Debug)]
pub struct Game {
    guest: Vec<Vec<usize>>,
    machine: Vec<Vec<usize>>,
    goal: StateSet,
}

/// Pairs by their first state.
fn by_now(states: usize, pairs: impl IntoIterator<Item = (usize, usize)>) -> Vec<Vec<usize>> {
    let mut moves = vec![BTreeSet::new(); states];
    for (now, next) in pairs {
        moves[now].insert(next);
    }
    let listed = moves.into_iter().map(|next| next.into_iter().collect());
    listed.collect()
}

/// Moves by the state that they lead to.
fn turned(moves: &[Vec<usize>]) -> Vec<Vec<usize>> {
    let pairs = |(now, next): (usize, &Vec<usize>)| {
        let turned: Vec<(usize, usize)> = next.iter().map(|&next| (next, now)).collect();
        turned
    };
    by_now(moves.len(), moves.iter().enumerate().flat_map(pairs))
}

impl Game {
    /// The game with these pairs (now, next) as moves.
    pub fn new(
        guest: impl IntoIterator<Item = (usize, usize)>,
        machine: impl IntoIterator<Item = (usize, usize)>,
        goal: StateSet,
    ) -> Game {
        let states = state_count(goal.n());
        Game {
            guest: by_now(states, guest),
            machine: by_now(states, machine),
            goal,
        }
    }

    pub fn of(guest: &PairSet, machine: &PairSet, goal: &StateSet) -> Game {
        let states = 0..state_count(goal.n());
        let all = states.clone().flat_map(|now| {
            let pair = move |next| (now, next);
            states.clone().map(pair)
        });
        let held = |set: &PairSet| {
            let pairs = all.clone().filter(|&(now, next)| set.contains(now, next));
            pairs.collect::<Vec<_>>()
        };
        Game::new(held(guest), held(machine), goal.clone())
    }

    pub fn goal(&self) -> &StateSet {
        &self.goal
    }

    /// Where the guest may press to.
    pub fn presses(&self, state: usize) -> &[usize] {
        &self.guest[state]
    }

    /// What the machine may answer where a press has led to.
    pub fn replies(&self, press: usize) -> &[usize] {
        &self.machine[press]
    }

    /// "those in the goal, and those where the guest has a move and after every
    /// guest move some machine move leads back into the set": those of a set.
    pub fn led_back(&self, set: &StateSet) -> StateSet {
        let answered = |&press: &usize| self.replies(press).iter().any(|&u| set.contains(u));
        StateSet::from_fn(self.goal.n(), |state| {
            let presses = self.presses(state);
            self.goal.contains(state) || !presses.is_empty() && presses.iter().all(answered)
        })
    }

    /// The round in which each state of the set enters, 1 for those of the goal;
    /// None outside the set. Each state has the number of its presses that no
    /// answer is known to: it enters in the round after the last of them fell.
    pub fn entries(&self) -> Vec<Option<u32>> {
        let states = self.guest.len();
        let (pressed_by, answered_by) = (turned(&self.guest), turned(&self.machine));
        let mut open: Vec<usize> = self.guest.iter().map(Vec::len).collect();
        let mut answered = vec![false; states];
        let mut entered = vec![None; states];
        let mut layer: Vec<usize> = (0..states).filter(|&s| self.goal.contains(s)).collect();
        for round in 1.. {
            layer.retain(|&state| entered[state].is_none());
            layer.iter().for_each(|&state| entered[state] = Some(round));
            let mut fallen: Vec<usize> =
                layer.iter().flat_map(|&u| answered_by[u].clone()).collect();
            fallen.retain(|&press| !std::mem::replace(&mut answered[press], true));
            let mut next = Vec::new();
            for &state in fallen.iter().flat_map(|&press| &pressed_by[press]) {
                open[state] -= 1;
                next.extend((open[state] == 0).then_some(state));
            }
            if next.is_empty() {
                break;
            }
            layer = next;
        }
        entered
    }

    /// The states that enter.
    pub fn forced(&self) -> StateSet {
        let entries = self.entries();
        StateSet::from_fn(self.goal.n(), |state| entries[state].is_some())
    }

    /// "for a state of the set outside the goal and a guest move, named by the
    /// state it leads to …, the least machine answer whose state enters in an
    /// earlier round than it". None is 15: "the state is in the goal or outside
    /// the set, or the press is no guest move".
    pub fn answer(&self, entries: &[Option<u32>], state: usize, press: usize) -> Option<usize> {
        let own = entries[state].filter(|_| !self.goal.contains(state))?;
        if !self.presses(state).contains(&press) {
            return None;
        }
        let earlier = |&u: &usize| entries[u].is_some_and(|round| round < own);
        let answers = self.replies(press).iter().copied();
        Some(answers.filter(earlier).min().expect("an answer"))
    }

    /// The states and presses that have an answer.
    pub fn answerable(&self, entries: &[Option<u32>]) -> Vec<(u64, u64)> {
        let mut turns = Vec::new();
        for state in (0..entries.len()).filter(|&s| entries[s].is_some_and(|round| round > 1)) {
            let presses = self.presses(state).iter();
            turns.extend(presses.map(|&press| (state as u64, press as u64)));
        }
        turns
    }
}

/// A game whose rounds are made: what they took, and when states entered.
#[derive(Clone, Debug)]
pub struct Made {
    pub game: Game,
    pub entries: Vec<Option<u32>>,
    pub done: Evaluated<StateSet>,
}

impl Made {
    /// "decided once the set is made".
    pub fn answer(&self, (state, press): (u64, u64)) -> Result<u64, Refusal> {
        let answer = (self.game).answer(&self.entries, state as usize, press as usize);
        answer.map(|state| state as u64).ok_or(Refusal::NoAnswer)
    }
}

/// How many rounds the steps take: those in which a state enters, and the one
/// that gives the same set again.
pub fn rounds(entries: &[Option<u32>]) -> u32 {
    entries.iter().flatten().max().map_or(1, |last| last + 1)
}

/// "The steps are those of mu P (goal or (box guest of diamond machine of P, and
/// diamond guest of true))."
pub fn formula(goal: usize, guest: usize, machine: usize) -> Formula {
    let modal = |modality, t, f| Formula::Modal(modality, t, Box::new(f));
    let answered = modal(Modality::Diamond, machine, Formula::Variable(0));
    let every = modal(Modality::Box, guest, answered);
    let some = modal(Modality::Diamond, guest, Formula::Constant(true));
    let both = Formula::And(Box::new(every), Box::new(some));
    let body = Formula::Or(Box::new(Formula::Register(goal)), Box::new(both));
    Formula::Binder(Fixpoint::Mu, 0, Box::new(body))
}
