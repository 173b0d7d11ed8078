//! Slip 8: games followed by hand, the attractor against every strategy and every play, and the checks in order.

mod common;

use common::{book, set_within};
use reference::accounts::Account;
use reference::book::{Book, REGISTERS, RELATIONS};
use reference::formula::frame;
use reference::game::{formula, rounds, Game, Named};
use reference::meaning;
use reference::random::Random;
use reference::refusal::Refusal;
use reference::states::{state_count, PairSet, StateSet};
use reference::strategies;

fn states(n: u32, members: &[usize]) -> StateSet {
    StateSet::from_fn(n, |s| members.contains(&s))
}

fn game(n: u32, guest: &[(usize, usize)], machine: &[(usize, usize)], goal: &[usize]) -> Game {
    Game::new(guest.to_vec(), machine.to_vec(), states(n, goal))
}

/// From 2 the guest presses to 3, from 1 to 2 or 3, from 0 to 1; the machine answers 3 by 0 or 1, 2 by 0 or 2, and
/// 1 by 2 or 1. The goal is 0 in the first games.
const GUEST: [(usize, usize); 4] = [(2, 3), (1, 2), (1, 3), (0, 1)];
const MACHINE: [(usize, usize); 6] = [(3, 0), (3, 1), (2, 0), (2, 2), (1, 1), (1, 2)];

#[test]
fn rounds_of_entry() {
    let game = game(2, &GUEST, &MACHINE, &[0]);
    // 1 and 2 in the second round: each press can be answered by 0. 3 has no press.
    assert_eq!(game.entries(), [Some(1), Some(2), Some(2), None]);
    assert_eq!(rounds(&game.entries()), 3);
    assert_eq!(game.forced(), states(2, &[0, 1, 2]));
}

/// Where one press of two cannot be answered the state stays outside; a state with no press too, unless it is in
/// the goal.
#[test]
fn every_press_is_answered() {
    let stuck = game(2, &[(1, 2), (1, 3)], &[(2, 0)], &[0, 3]);
    assert_eq!(stuck.entries(), [Some(1), None, None, Some(1)]);
    let mended = game(2, &[(1, 2), (1, 3)], &[(2, 0), (3, 3)], &[0, 3]);
    assert_eq!(mended.entries(), [Some(1), Some(2), None, Some(1)]);
}

/// "whose state enters in an earlier round than it": than the state asked about.
#[test]
fn least_answers() {
    // 4 enters at 1, 3 at 2, 2 at 3, 1 at 4; the machine answers 7 by any of 0 to 4.
    let ladder = [(3, 6), (2, 5), (1, 7)];
    let down = [
        (6, 4),
        (5, 3),
        (5, 6),
        (7, 0),
        (7, 1),
        (7, 2),
        (7, 3),
        (7, 4),
    ];
    let game = game(3, &ladder, &down, &[4]);
    let entries = game.entries();
    let wanted = [None, Some(2), Some(3), Some(2), Some(1), None, None, None];
    assert_eq!(entries, wanted);
    // 1 enters in round 2, so of 0 to 4 only 4 enters earlier; 0 never enters.
    assert_eq!(game.answer(&entries, 1, 7), Some(4));
    assert_eq!(game.answer(&entries, 2, 5), Some(3));
    // With 7 answered by 2 and 3 alone 1 enters later, and the least answer is not the nearest to the goal.
    let far = [(6, 4), (5, 3), (7, 0), (7, 1), (7, 2), (7, 3)];
    let guest = [(3, 6), (2, 5), (1, 7), (1, 5), (0, 7)];
    let game = Game::new(guest, far, states(3, &[4]));
    let entries = game.entries();
    assert_eq!(entries[..4], [Some(3), Some(3), Some(3), Some(2)]);
    // 0, 1 and 2 enter together with the state itself: 3 is the least that enters earlier.
    assert_eq!(game.answer(&entries, 0, 7), Some(3));
}

/// An answer may be less than another one that enters sooner.
#[test]
fn an_earlier_round_is_enough() {
    let guest = [(2, 4), (1, 5), (0, 6), (0, 7)];
    let machine = [(4, 3), (5, 2), (6, 1), (7, 3), (7, 2)];
    let game = game(3, &guest, &machine, &[3]);
    let entries = game.entries();
    assert_eq!(entries[..4], [Some(4), Some(3), Some(2), Some(1)]);
    // 3 is in the goal, but 2 is less and enters earlier than 0 too.
    assert_eq!(game.answer(&entries, 0, 7), Some(2));
    assert_eq!(game.answer(&entries, 0, 6), Some(1));
}

/// 15: in the goal, outside the set, no press of the state.
#[test]
fn no_answer() {
    let game = game(2, &GUEST, &MACHINE, &[0]);
    let entries = game.entries();
    assert_eq!(game.answer(&entries, 0, 1), None);
    assert_eq!(game.answer(&entries, 3, 3), None);
    assert_eq!(game.answer(&entries, 2, 2), None);
    assert_eq!(game.answer(&entries, 2, 3), Some(0));
}

#[test]
fn no_goal() {
    let game = game(2, &GUEST, &MACHINE, &[]);
    assert_eq!(
        (game.forced(), rounds(&game.entries())),
        (states(2, &[]), 1)
    );
}

/// A book with the game in register 0 and relations 0 and 1, and nothing else.
fn book_of(n: u32, game: &Game) -> Book {
    let pairs = |moves: &[&[usize]]| PairSet::from_fn(n, |now, next| moves[now].contains(&next));
    let mut registers = vec![None; REGISTERS];
    registers[0] = Some(game.goal().clone());
    let mut relations = vec![None; RELATIONS];
    relations[0] = Some(pairs(&strategies::guest_moves(game)));
    relations[1] = Some(pairs(&strategies::machine_moves(game)));
    Book::with(n, 9_999, StateSet::constant(n, true), registers, relations)
}

/// The attractor against every strategy of the machine in every play, against the least of all sets that satisfy
/// the sentence, and against the formula's meaning by sets; the guest's ways to stay outside; and the answers
/// lead into the goal in fewer turns than the round of entry.
fn compare(n: u32, game: &Game) {
    let (forced, entries, all) = (game.forced(), game.entries(), state_count(n));
    assert_eq!(forced, strategies::forced(game), "{game:?}");
    let sets = (0..1usize << all).map(|code| StateSet::from_fn(n, |s| code >> s & 1 == 1));
    let such: Vec<StateSet> = sets.filter(|set| game.led_back(set) == *set).collect();
    assert!(such.contains(&forced) && such.iter().all(|set| forced.and(set) == forced));
    let book = book_of(n, game);
    assert_eq!(forced, meaning::states_of(book.held(), &formula(0, 0, 1)));
    for state in 0..all {
        let Some(round) = entries[state] else {
            assert!(strategies::guest_stays(game, &forced, state), "{game:?}");
            continue;
        };
        let reply = |state: usize, press: usize| game.answer(&entries, state, press);
        let turns = strategies::longest(game, &reply, state, all);
        assert!(
            turns.is_some_and(|turns| turns < round as usize),
            "{game:?}"
        );
    }
}

fn pairs(n: u32, code: usize) -> Vec<(usize, usize)> {
    let side = state_count(n);
    let cells = (0..side * side).filter(|cell| code >> cell & 1 == 1);
    cells.map(|cell| (cell / side, cell % side)).collect()
}

/// All 1,024 games of one bit.
#[test]
fn every_game_of_one_bit() {
    for code in 0..1_024 {
        let goal = StateSet::from_fn(1, |s| code >> s & 1 == 1);
        let (guest, machine) = (pairs(1, code >> 2 & 15), pairs(1, code >> 6));
        compare(1, &Game::new(guest, machine, goal));
    }
}

/// Moves, each state having a few, so that strategies are at most 256.
fn some_moves(random: &mut Random, n: u32, most: u64) -> Vec<(usize, usize)> {
    let all = state_count(n) as u64;
    let mut moves = Vec::new();
    for now in 0..all as usize {
        for _ in 0..random.below(most + 1) {
            moves.push((now, random.below(all) as usize));
        }
    }
    moves
}

#[test]
fn games_of_two_and_three_bits() {
    let (mut random, mut deepest, mut outside) = (Random::new(8), 0, 0);
    for round in 0..700 {
        let n = if round % 7 == 0 { 3 } else { 2 };
        let few = if n == 3 { 2 } else { 4 };
        let most = random.pick(&[1, 2, few]);
        let guest = some_moves(&mut random, n, most);
        let machine = some_moves(&mut random, n, few);
        let goal = random.below(state_count(n) as u64) as usize;
        let second = random.below(state_count(n) as u64) as usize;
        let goal = StateSet::from_fn(n, |s| s == goal || s == second);
        let game = Game::new(guest, machine, goal);
        compare(n, &game);
        let entries = game.entries();
        deepest = deepest.max(rounds(&entries));
        outside += entries.iter().filter(|entry| entry.is_none()).count();
    }
    assert!(deepest >= 5 && outside > 500, "{deepest} {outside}");
}

/// Register 0 has state 3, relation 0 turns bit 0 over, relation 1 bit 1 on or keeps it, with bit 0 as it is.
fn bar() -> Book {
    let mut book = book(2, 100);
    let turns = [0x04, 0x03, 0x20, 0x02, 0x10, 0x03, 0x02, 0x20, 0x10];
    let keeps = |p: u8| {
        [
            0x02,
            0x04,
            0x03,
            0x20 + p,
            0x02,
            0x10 + p,
            0x03,
            0x02,
            0x20 + p,
            0x10 + p,
        ]
    };
    let press = [vec![0x03], turns.to_vec(), keeps(1).to_vec()].concat();
    book.relation(0, &frame(&press)).unwrap();
    let react = [vec![0x03, 0x04, 0x21, 0x02, 0x11], keeps(0).to_vec()].concat();
    book.relation(1, &frame(&react)).unwrap();
    set_within(&mut book, 0, 0, &[0x03, 0x10, 0x11]).unwrap();
    book
}

const BAR: Named = Named {
    goal: 0,
    guest: 0,
    machine: 1,
};

/// The first call is a set call on the formula: rounds, peak, tally and refusals 8 and 9 are that call's.
#[test]
fn force_is_a_set_call() {
    // 70 04 40 03 60 69 30 68 01
    let bytes = frame(&[0x70, 0x04, 0x40, 0x03, 0x60, 0x69, 0x30, 0x68, 0x01]);
    for rows in 0..20 {
        for round_limit in 0..6 {
            let list = [Account::LARGEST, Account::new(rows, u32::MAX)];
            let (mut forced, mut set) = (bar(), bar());
            let (mut of_force, mut of_set) = (list, list);
            let got = forced.force(&mut of_force, 1, 5, round_limit, BAR);
            assert_eq!(got, set.set(&mut of_set, 1, 5, round_limit, &bytes));
            assert_eq!((forced, of_force), (set, of_set));
        }
    }
    let mut book = bar();
    let answer = book.force(&mut [Account::LARGEST], 0, 5, 9, BAR).unwrap();
    assert_eq!((book.count(5), answer.rounds), (Ok(4), 4));
}

/// The target may be the goal register, and one relation may be both sides'.
#[test]
fn the_goal_as_target() {
    let mut book = bar();
    book.force(&mut [Account::LARGEST], 0, 0, 9, BAR).unwrap();
    assert_eq!(book.count(0), Ok(4));
    let mut book = bar();
    let same = Named { machine: 0, ..BAR };
    let answer = book.force(&mut [Account::LARGEST], 0, 0, 9, same).unwrap();
    // Two turns of bit 0 lead back: only the goal itself.
    assert_eq!((book.count(0), answer.rounds), (Ok(1), 2));
}

/// 3 before 14, 14 before 7, 7 before 9, 9 before 15; the round that gives the same set again is needed too.
#[test]
fn checks_in_order() {
    let book = bar();
    let far = Named { goal: 32, ..BAR };
    let empty = Named { machine: 7, ..BAR };
    let wide = [Account::LARGEST];
    let ask = |list: &[Account], rounds, game, state, press| {
        book.react(list, 0, rounds, game, (state, press))
    };
    for game in [far, Named { guest: 8, ..BAR }, Named { machine: 8, ..BAR }] {
        assert_eq!(ask(&[], 0, game, 0, 0), Err(Refusal::OutOfRange));
        let forced = bar().force(&mut [], 0, 0, 0, game);
        assert_eq!(forced, Err(Refusal::OutOfRange));
    }
    assert_eq!(
        bar().force(&mut [], 0, 32, 0, BAR),
        Err(Refusal::OutOfRange)
    );
    assert_eq!(ask(&[], 0, empty, 4, 0), Err(Refusal::OutOfRange));
    assert_eq!(ask(&[], 0, empty, 0, 4), Err(Refusal::OutOfRange));
    assert_eq!(ask(&[], 0, empty, 3, 3), Err(Refusal::NoAccount));
    assert_eq!(
        bar().force(&mut [], 0, 31, 0, empty),
        Err(Refusal::NoAccount)
    );
    assert_eq!(ask(&wide, 0, empty, 3, 3), Err(Refusal::Empty));
    assert_eq!(ask(&wide, 3, BAR, 3, 3), Err(Refusal::RoundsUsedUp));
    assert_eq!(ask(&wide, 4, BAR, 3, 3), Err(Refusal::NoAnswer));
    assert_eq!(ask(&[Account::new(0, 9)], 9, BAR, 3, 3), Err(Refusal::Full));
    assert_eq!(
        ask(&[Account::new(99, 3)], 9, BAR, 3, 3),
        Err(Refusal::RoundsUsedUp)
    );
    // 0 and 2 enter in the second round, 1 in the third. From 1 the guest turns bit 0 off, to 0: the machine may keep
    // that or turn bit 1 on, and 0 is the less.
    assert_eq!(ask(&wide, 4, BAR, 2, 3), Ok(3));
    assert_eq!(ask(&wide, 4, BAR, 0, 1), Ok(3));
    assert_eq!(ask(&wide, 4, BAR, 1, 0), Ok(0));
    assert_eq!(ask(&wide, 4, BAR, 2, 2), Err(Refusal::NoAnswer));
}
