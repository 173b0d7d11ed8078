//! Draws the calls of games (Slip 8) for a book as it stands.

use crate::call::{asked, filled, place, register, Cost};
use reference::accounts::Account;
use reference::book::{Book, Call, MAX_ROWS, REGISTERS, RELATIONS};
use reference::evaluate::{self, Limits};
use reference::game::{self, Game, Named};
use reference::random::Random;

/// A call of a game, and its cost where its numbers are in range and named places are filled.
pub fn draw_game(random: &mut Random, book: &Book, accounts: &[Account]) -> (Call, Option<Cost>) {
    let named = Named {
        goal: asked(random, book),
        guest: relation(random, book),
        machine: relation(random, book),
    };
    let place = place(random, accounts.len() as u64);
    let cost = cost_of(book, named);
    let rounds = round_limit(random, cost);
    let cost = cost.filter(|cost| cost.rounds <= rounds);
    if random.chance(50) {
        let r = match random.chance(15) {
            true => named.goal,
            false => register(random),
        };
        let call = Call::Force {
            place,
            r,
            rounds,
            game: named,
        };
        return (call, cost.filter(|_| r < REGISTERS as u64));
    }
    let (state, press) = turn(random, book, named);
    let call = Call::React {
        place,
        rounds,
        game: named,
        state,
        press,
    };
    let states = 1 << book.n();
    (call, cost.filter(|_| state < states && press < states))
}

/// Whether a game can be named.
pub fn playable(book: &Book) -> bool {
    !filled(book.registers()).is_empty() && !filled(book.relations()).is_empty()
}

/// A relation, mostly a filled one.
pub fn relation(random: &mut Random, book: &Book) -> u64 {
    let filled = filled(book.relations());
    match random.below(100) {
        0..=2 => random.pick(&[8, 9, 255, u64::from(u32::MAX)]),
        3..=11 => random.below(RELATIONS as u64),
        _ if filled.is_empty() => 0,
        _ => random.pick(&filled).into(),
    }
}

/// The game that is named, where that is in range and filled.
fn game_in(book: &Book, named: Named) -> Option<Game> {
    let moves = |t: u64| book.relations().get(t as usize)?.as_ref();
    let goal = book.registers().get(named.goal as usize)?.as_ref()?;
    Some(Game::of(moves(named.guest)?, moves(named.machine)?, goal))
}

/// Peak and rounds, with rows and an account in plenty.
fn cost_of(book: &Book, named: Named) -> Option<Cost> {
    game_in(book, named)?;
    let formula = game::formula(
        named.goal as usize,
        named.guest as usize,
        named.machine as usize,
    );
    let limits = Limits {
        rows: MAX_ROWS as usize,
        rounds: u32::MAX,
    };
    let done = evaluate::set(book.held(), limits, &formula).ok()?;
    Some(Cost {
        peak: done.peak,
        rounds: done.rounds,
    })
}

/// R, mostly the rounds taken or one fewer.
fn round_limit(random: &mut Random, cost: Option<Cost>) -> u32 {
    let Some(Cost { rounds, .. }) = cost else {
        return random.pick(&[0, 100, u32::MAX]);
    };
    match random.below(100) {
        0..=49 => rounds,
        50..=64 => rounds - 1,
        65..=69 => random.below(u64::from(rounds) + 1) as u32,
        70..=89 => rounds + random.below(100) as u32,
        _ => u32::MAX,
    }
}

/// A state and a press: mostly such as have an answer, now and then out of range.
fn turn(random: &mut Random, book: &Book, named: Named) -> (u64, u64) {
    let states = 1u64 << book.n();
    if random.chance(5) {
        let far = random.pick(&[states, states + 1, u64::from(u32::MAX)]);
        let near = random.below(states);
        return random.pick(&[(far, near), (near, far), (far, far)]);
    }
    let any = (random.below(states), random.below(states));
    let Some(game) = game_in(book, named).filter(|_| random.chance(80)) else {
        return any;
    };
    let turns = game.answerable(&game.entries());
    match turns.is_empty() {
        true => any,
        false => random.pick(&turns),
    }
}
