//! Guest against machine (document 02, Slip 8) by strategies and plays, without
//! an attractor: every way to play is tried, so this serves n up to 2, and 3
//! where moves are few.
//!
//! A strategy goes by the place alone: the machine's by where the press has led
//! to, the guest's by the state. A play in which 2^n turns meet no goal has a
//! state twice, and so goes on for ever.

use crate::game::Game;
use crate::states::{state_count, StateSet};

/// One move from each place that has any.
pub type Strategy = Vec<Option<usize>>;

/// All strategies over lists of moves.
pub fn strategies(moves: &[&[usize]]) -> Vec<Strategy> {
    let mut all: Vec<Strategy> = vec![Vec::new()];
    for choices in moves {
        let on = |chosen: &Strategy, choice: Option<usize>| {
            let mut longer = chosen.clone();
            longer.push(choice);
            longer
        };
        all = match choices.is_empty() {
            true => all.iter().map(|chosen| on(chosen, None)).collect(),
            false => (all.iter())
                .flat_map(|chosen| choices.iter().map(move |&choice| on(chosen, Some(choice))))
                .collect(),
        };
    }
    all
}

fn states(game: &Game) -> std::ops::Range<usize> {
    0..state_count(game.goal().n())
}

pub fn machine_moves(game: &Game) -> Vec<&[usize]> {
    states(game).map(|press| game.replies(press)).collect()
}

pub fn guest_moves(game: &Game) -> Vec<&[usize]> {
    states(game).map(|state| game.presses(state)).collect()
}

/// The most turns to the goal over all plays from a state in which the machine
/// answers so; None where some play does not come to the goal within so many
/// turns.
pub fn longest(
    game: &Game,
    reply: &impl Fn(usize, usize) -> Option<usize>,
    state: usize,
    left: usize,
) -> Option<usize> {
    if game.goal().contains(state) {
        return Some(0);
    }
    if left == 0 || game.presses(state).is_empty() {
        return None;
    }
    let mut most = 0;
    for &press in game.presses(state) {
        let next = reply(state, press)?;
        most = most.max(longest(game, reply, next, left - 1)?);
    }
    Some(most + 1)
}

/// "the set of states from which the machine can force the goal": some strategy
/// of the machine's comes to it in every play.
pub fn forced(game: &Game) -> StateSet {
    let strategies = strategies(&machine_moves(game));
    let turns = states(game).len();
    StateSet::from_fn(game.goal().n(), |state| {
        (strategies.iter())
            .any(|chosen| longest(game, &|_, press| chosen[press], state, turns).is_some())
    })
}

/// "In every state outside the set the guest has a way to stay outside for good,
/// or no move": some strategy of the guest's meets the set in no play, whatever
/// the machine does.
pub fn guest_stays(game: &Game, set: &StateSet, state: usize) -> bool {
    let turns = states(game).len();
    let all = strategies(&guest_moves(game));
    game.presses(state).is_empty()
        || all
            .iter()
            .any(|chosen| stays(game, set, chosen, state, turns))
}

/// Whether no play from a state, the guest pressing so, meets the set in so many
/// turns. A play that a side cannot go on with has not met it.
fn stays(game: &Game, set: &StateSet, chosen: &Strategy, state: usize, left: usize) -> bool {
    if set.contains(state) || left == 0 {
        return !set.contains(state);
    }
    let Some(press) = chosen[state] else {
        return true;
    };
    let replies = game.replies(press).iter();
    replies
        .copied()
        .all(|next| stays(game, set, chosen, next, left - 1))
}
