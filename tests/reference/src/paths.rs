//! The shortest run from one set of states into another (document 02, Slip 3),
//! by breadth-first search.

use crate::evaluate::{self, Held};
use crate::refusal::Refusal;
use crate::states::{state_count, PairSet, StateSet};
use std::collections::VecDeque;

/// How many steps each state is from the nearest state of the goal; None where
/// no run leads there.
pub fn distances(relation: &PairSet, goal: &StateSet) -> Vec<Option<usize>> {
    let states = 0..state_count(goal.n());
    let in_goal = |state: usize| goal.contains(state).then_some(0);
    let mut distance: Vec<Option<usize>> = states.clone().map(in_goal).collect();
    let mut queue: VecDeque<usize> = states.clone().filter(|&s| goal.contains(s)).collect();
    while let Some(next) = queue.pop_front() {
        for now in states.clone() {
            if distance[now].is_none() && relation.contains(now, next) {
                distance[now] = distance[next].map(|steps| steps + 1);
                queue.push_back(now);
            }
        }
    }
    distance
}

/// "The first state is the least one of a at the shortest distance; each next
/// one is the least that still lies on a shortest run." None where "no run
/// exists".
pub fn shortest(relation: &PairSet, from: &StateSet, goal: &StateSet) -> Option<Vec<usize>> {
    let distance = distances(relation, goal);
    let states = 0..state_count(goal.n());
    let starts = states.clone().filter(|&s| from.contains(s));
    let (left, first) = starts.filter_map(|s| Some((distance[s]?, s))).min()?;
    let mut run = vec![first];
    for left in (0..left).rev() {
        let now = run[run.len() - 1];
        let on = |&next: &usize| relation.contains(now, next) && distance[next] == Some(left);
        run.push(states.clone().find(on).expect("a state nearer the goal"));
    }
    Some(run)
}

/// Takes the call's steps: "Distances are worked out by b, then b OR diamond of
/// the last layer, up to the first layer that shares a state with a"; "no run
/// exists, found when a layer no longer grows". Gives the number of the layer
/// that shares a state with a.
pub fn first_pass(
    held: Held,
    rows: usize,
    t: usize,
    from: &StateSet,
    goal: &StateSet,
) -> Result<usize, Refusal> {
    let mut layer = goal.clone();
    for number in 0.. {
        if !layer.and(from).is_empty() {
            return Ok(number);
        }
        let next = evaluate::next_layer(held, rows, t, goal, &layer)?;
        if next == layer {
            return Err(Refusal::NoRun);
        }
        layer = next;
    }
    unreachable!("a layer shares a state with a or does not grow")
}

/// "earlier ones are made again": each layer before the last, from b on.
pub fn again(
    held: Held,
    rows: usize,
    t: usize,
    goal: &StateSet,
    last: usize,
) -> Result<(), Refusal> {
    for layers in (0..last).rev() {
        let mut layer = goal.clone();
        for _ in 0..layers {
            layer = evaluate::next_layer(held, rows, t, goal, &layer)?;
        }
    }
    Ok(())
}
