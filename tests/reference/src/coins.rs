//! The fewest coins (document 02, Slip 13): runs over explicit steps, relaxed
//! until no cost falls.

use crate::book::{REGISTERS, RELATIONS};
use crate::formula::Formula;
use crate::refusal::Refusal;
use crate::states::{bit_of, state_count, StateSet};
use std::collections::VecDeque;

/// Credits, then steps: "of those that cost the same none has fewer states".
pub type Cost = (u32, usize);

/// What the call is lent and asked; of the lists their lengths.
#[derive(Clone, Copy, Debug)]
pub struct Asked<'a> {
    pub prices: &'a [u8],
    pub work: usize,
    pub states: usize,
    pub relations: usize,
    pub a: u32,
    pub b: u32,
}

/// A step that leads to a state: "the relation of each step", and from where.
#[derive(Clone, Copy, Debug, PartialEq, Eq)]
struct Step {
    relation: usize,
    now: usize,
}

/// A sound table's sets, and the steps of its filled relations by the state that
/// they lead to.
#[derive(Clone, Debug)]
pub struct Hall {
    n: u32,
    registers: Vec<Option<StateSet>>,
    steps: Vec<Vec<Step>>,
}

/// "The charge is the total's coins, one for every ten credits begun, none for 0".
pub fn coins(total: u32) -> u32 {
    let mut left = total;
    let mut coins = 0;
    while left > 0 {
        left = left.saturating_sub(10);
        coins += 1;
    }
    coins
}

/// Whether a formula of bits holds in a pair.
pub fn holds(formula: &Formula, now: usize, next: usize) -> bool {
    match formula {
        Formula::Constant(value) => *value,
        Formula::NowBit(p) => bit_of(now, *p),
        Formula::NextBit(p) => bit_of(next, *p),
        Formula::Not(f) => !holds(f, now, next),
        Formula::And(f, g) => holds(f, now, next) && holds(g, now, next),
        Formula::Or(f, g) => holds(f, now, next) || holds(g, now, next),
        _ => panic!("not of bits: {formula:?}"),
    }
}

impl Hall {
    /// Nothing is filled.
    pub fn new(n: u32) -> Hall {
        Hall {
            n,
            registers: vec![None; REGISTERS],
            steps: vec![Vec::new(); state_count(n)],
        }
    }

    pub fn fill(&mut self, r: usize, set: StateSet) {
        self.registers[r] = Some(set);
    }

    /// The relation has these pairs (now, next).
    pub fn lead(&mut self, relation: usize, pairs: impl IntoIterator<Item = (usize, usize)>) {
        for (now, next) in pairs {
            self.steps[next].push(Step { relation, now });
        }
    }

    /// The call, of which `None` gets words that are no sound table: its checks
    /// in order, and the least cost.
    pub fn answer(hall: Option<&Hall>, asked: Asked) -> Result<Cost, Refusal> {
        // "A price list of another length gives 1".
        if asked.prices.len() != RELATIONS {
            return Err(Refusal::BadSizes);
        }
        let hall = hall.ok_or(Refusal::Unsound)?;
        // "and so, directly after 2, does a shorter work list".
        if asked.work < state_count(hall.n) {
            return Err(Refusal::BadSizes);
        }
        let (a, b) = (asked.a as usize, asked.b as usize);
        if a >= REGISTERS || b >= REGISTERS {
            return Err(Refusal::OutOfRange);
        }
        let (Some(from), Some(goal)) = (&hall.registers[a], &hall.registers[b]) else {
            return Err(Refusal::Empty);
        };
        let (total, steps) = hall.cheapest(asked.prices, from, goal)?;
        // "Refusals 10 and 11, for either list".
        match steps < asked.states && steps <= asked.relations {
            true => Ok((total, steps)),
            false => Err(Refusal::ListTooShort),
        }
    }

    /// The least cost of a run from one set into the other.
    fn cheapest(&self, prices: &[u8], from: &StateSet, goal: &StateSet) -> Result<Cost, Refusal> {
        let costs = self.costs(prices, goal);
        let starts = (0..costs.len()).filter(|&s| from.contains(s));
        starts.filter_map(|s| costs[s]).min().ok_or(Refusal::NoRun)
    }

    /// The least credits and then steps from each state into the goal: whenever
    /// a state's cost falls, those that lead to it are looked at again.
    fn costs(&self, prices: &[u8], goal: &StateSet) -> Vec<Option<Cost>> {
        let states = state_count(self.n);
        let start = |s: usize| goal.contains(s).then_some((0, 0));
        let mut costs: Vec<Option<Cost>> = (0..states).map(start).collect();
        let mut fallen: VecDeque<usize> = (0..states).filter(|&s| goal.contains(s)).collect();
        while let Some(next) = fallen.pop_front() {
            let (credits, steps) = costs[next].expect("it fell");
            for step in &self.steps[next] {
                let cost = (credits + u32::from(prices[step.relation]), steps + 1);
                if costs[step.now].is_none_or(|old| cost < old) {
                    costs[step.now] = Some(cost);
                    fallen.push_back(step.now);
                }
            }
        }
        costs
    }

    /// What the run costs that stands in two lists: a state of register a, steps
    /// each of a filled relation, and a state of register b at the end.
    pub fn cost_of(&self, asked: Asked, states: &[u16], relations: &[u8]) -> Option<Cost> {
        let holds = |r: u32, state: u16| {
            let set = self.registers[r as usize].as_ref();
            set.is_some_and(|set| set.contains(state.into()))
        };
        let ends = holds(asked.a, *states.first()?) && holds(asked.b, *states.last()?);
        let leads = |(pair, &relation): (&[u16], &u8)| {
            let (now, relation) = (pair[0].into(), relation.into());
            self.steps[usize::from(pair[1])].contains(&Step { relation, now })
        };
        let fits = relations.len() + 1 == states.len();
        let run = ends && fits && states.windows(2).zip(relations).all(leads);
        let price = |&relation: &u8| u32::from(asked.prices[usize::from(relation)]);
        run.then(|| (relations.iter().map(price).sum(), relations.len()))
    }
}
