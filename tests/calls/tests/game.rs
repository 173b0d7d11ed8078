//! Slip 8: guest against machine, both calls held against the separate evaluator: the set, its node, rounds and peak,
//! every answer, the number where a call is refused, zeros, accounts and words after it; 8 and 9 at their edges, by N
//! and R and by the account's limits; 15 in its three ways.
//!
//! `KUDZUCLAMP_GAMES` rooms (120) from seed `KUDZUCLAMP_SEED` (8); 2,500 rooms make more than 200,000 calls.

use calls::compare::lent_accounts;
use calls::kept;
use calls::sound::sound;
use calls::turns::{draw_turn, force, pairs, react, state, states};
use calls::turns::{Pairs, Under, NAMED, OTHER, PLENTY, TARGET};
use calls::words::{Words, FIRST_REGISTER};
use calls::writer::{counter, frame, rules};
use kudzuclamp::{Account, Table, Target};
use reference::accounts::Account as BookAccount;
use reference::book::{words_for, Book, REGISTERS, RELATIONS};
use reference::coins::holds;
use reference::formula::{check, Kind};
use reference::game::{Made, Named};
use reference::random::Random;
use reference::refusal::Refusal;
use reference::states::{PairSet, StateSet};
use std::cell::RefCell;
use std::collections::HashMap;
use std::env;
use std::rc::Rc;

/// How often each number came of either call, 0 for answered; the three ways to 15; edges of 8 by N; presses answered
/// with all limits just enough; rooms in which some states do not exist; the most rounds.
#[derive(Debug, Default)]
struct Seen {
    forced: [u64; 16],
    reacted: [u64; 16],
    in_goal: u64,
    outside: u64,
    no_move: u64,
    edges: u64,
    enough: u64,
    partial: u64,
    deepest: u32,
}

/// The bytes that a room is made of.
#[derive(Clone, Debug)]
struct Rules {
    n: u32,
    valid: Vec<u8>,
    guest: Vec<u8>,
    machine: Vec<u8>,
    other: Vec<u8>,
    goal: Vec<u8>,
}

impl Rules {
    /// The book with what the bytes say, pair by pair and state by state.
    fn book(&self, rows: u64) -> Book {
        let n = self.n;
        let read =
            |bytes: &[u8]| check(n, Kind::Relation, bytes, |_| false, |_| false).expect("of bits");
        let exists = read(&self.valid);
        let valid = StateSet::from_fn(n, |s| holds(&exists, s, 0));
        let set = |bytes: &[u8]| {
            let formula = read(bytes);
            StateSet::from_fn(n, |s| valid.contains(s) && holds(&formula, s, 0))
        };
        let pairs = |bytes: &[u8]| {
            let formula = read(bytes);
            let exist = |s, t| valid.contains(s) && valid.contains(t);
            PairSet::from_fn(n, |s, t| exist(s, t) && holds(&formula, s, t))
        };
        let (mut registers, mut relations) = (vec![None; REGISTERS], vec![None; RELATIONS]);
        registers[NAMED.goal as usize] = Some(set(&self.goal));
        relations[NAMED.guest as usize] = Some(pairs(&self.guest));
        relations[NAMED.machine as usize] = Some(pairs(&self.machine));
        relations[OTHER as usize] = Some(pairs(&self.other));
        Book::with(n, rows as usize, valid.clone(), registers, relations)
    }
}

/// What a game comes to under limits of rows and rounds, each found once.
type Known = HashMap<([u64; 3], usize, u32), Result<Rc<Made>, Refusal>>;

/// A table and a book with the same in them.
struct Room {
    words: Vec<u32>,
    book: Book,
    known: RefCell<Known>,
}

impl Room {
    /// The room in a table of so many rows, where these are enough to fill it.
    fn new(rules: &Rules, rows: u64) -> Option<Room> {
        let mut accounts = [Account::unlimited()];
        let words = vec![0xA5A5_A5A5; words_for(rows) as usize + 3];
        let table = Table::fresh(words, &mut accounts, rules.n, rows as u32);
        let mut table = table.expect("sizes fit");
        table.valid(&rules.valid).ok()?;
        let moves = [
            (NAMED.guest, &rules.guest),
            (NAMED.machine, &rules.machine),
            (OTHER, &rules.other),
        ];
        for (t, bytes) in moves {
            table.relation(t as u32, bytes).ok()?;
        }
        let goal = Target::register(NAMED.goal as u32);
        table.set(&mut accounts, goal, &rules.goal).ok()?;
        let room = Room::of(table.into_words(), rules.book(rows));
        room.compare_contents();
        Some(room)
    }

    fn of(words: Vec<u32>, book: Book) -> Room {
        let known = RefCell::default();
        Room { words, book, known }
    }

    /// What the game comes to, by the book; its numbers are in range.
    fn made(&self, account: BookAccount, rounds: u32, named: Named) -> Result<Rc<Made>, Refusal> {
        let limits = account.limits(self.book.rows(), rounds);
        let game = [named.goal, named.guest, named.machine];
        let mut known = self.known.borrow_mut();
        let found = known.entry((game, limits.rows, limits.rounds));
        found
            .or_insert_with(|| self.book.make_game(limits, named).map(Rc::new))
            .clone()
    }

    /// The first call on a copy, compared; what it makes, and the room after it.
    fn force(
        &self,
        seen: &mut Seen,
        under: Under,
        r: u64,
        named: Named,
    ) -> (Option<Rc<Made>>, Room) {
        let (mut words, mut accounts) = (self.words.clone(), under.accounts.to_vec());
        let (got, lent) = force(&mut words, under, r, named);
        let place = self.book.check_force(&accounts, under.place, r, named);
        let wanted = place.and_then(|place| self.made(accounts[place], under.rounds, named));
        seen.forced[got[0] as usize] += 1;
        let what = format!("force {under:?} {r} {named}");
        let mut registers = self.book.registers().to_vec();
        match &wanted {
            Ok(made) => {
                let done = &made.done;
                assert_eq!(
                    [got[0], got[2], got[3]],
                    [0, done.rounds, done.peak as u32],
                    "{what}"
                );
                accounts[under.place as usize].charge(done.rounds);
                registers[r as usize] = Some(done.value.clone());
                seen.deepest = seen.deepest.max(done.rounds);
            }
            Err(refusal) => assert_eq!(got, [refusal.number().into(), 0, 0, 0], "{what}"),
        }
        assert_eq!(lent, lent_accounts(&accounts), "{what}");
        let target = wanted.is_ok().then_some(FIRST_REGISTER + r as usize);
        compare_words(&self.words, &words, got[0], target);
        let (n, rows) = (self.book.n(), self.book.rows());
        let relations = self.book.relations().to_vec();
        let book = Book::with(n, rows, self.book.valid().clone(), registers, relations);
        let room = Room::of(words, book);
        room.compare_contents();
        room.compare_node(&wanted, r, got[1]);
        (wanted.ok(), room)
    }

    /// The second call, compared; it leaves a table that holds the same. Its number.
    fn react(&mut self, seen: &mut Seen, under: Under, named: Named, turn: (u64, u64)) -> u32 {
        let before = self.words.clone();
        let (got, lent) = react(&mut self.words, under, named, turn);
        let place = self
            .book
            .check_react(under.accounts, under.place, named, turn);
        let made = place.and_then(|place| self.made(under.accounts[place], under.rounds, named));
        seen.reacted[got[0] as usize] += 1;
        let wanted = match made.and_then(|made| made.answer(turn)) {
            Ok(state) => [0, state as u32],
            Err(refusal) => [refusal.number().into(), 0],
        };
        assert_eq!(got, wanted, "react {under:?} {named}, {turn:?}");
        assert_eq!(lent, lent_accounts(under.accounts));
        compare_words(&before, &self.words, got[0], None);
        got[0]
    }

    /// Registers, relations and V by the words.
    fn compare_contents(&self) {
        let read = Words(&self.words).book();
        assert_eq!(read.registers(), self.book.registers());
        assert_eq!(read.relations(), self.book.relations());
        assert_eq!(read.valid(), self.book.valid());
    }

    /// The node number that force gave is the register's, and the goal's exactly where it is the same set.
    fn compare_node(&self, wanted: &Result<Rc<Made>, Refusal>, r: u64, got: u32) {
        let Ok(made) = wanted else {
            return;
        };
        let table = Table::over(&self.words[..]).expect("sound");
        assert_eq!(table.node(r as u32), Ok(got));
        let (set, goal) = (
            &made.done.value,
            &self.book.registers()[NAMED.goal as usize],
        );
        assert_eq!((got == 0, got == 1), (set.is_empty(), set.is_full()));
        let same = table.node(NAMED.goal as u32) == Ok(got);
        assert_eq!(same, goal.as_ref() == Some(set));
    }

    fn again(&self) -> Room {
        Room {
            words: self.words.clone(),
            book: self.book.clone(),
            known: self.known.clone(),
        }
    }
}

/// 1 to 7 and 14 keep all words; 0, 8, 9 and 15 what registers and relations need, but the target.
fn compare_words(before: &[u32], after: &[u32], number: u32, target: Option<usize>) {
    match number {
        1..=7 | 14 => kept::all(before, after).unwrap(),
        _ => kept::needed(before, after, target).unwrap(),
    }
    sound(after).unwrap();
}

/// Both calls with everything in plenty: into another register, into the goal's own, with one relation for both; and
/// the second one for states and presses.
fn compare_game(random: &mut Random, seen: &mut Seen, rules: &Rules) {
    let rows = if rules.n > 3 { 3_000 } else { 1_000 };
    let mut room = Room::new(rules, rows).expect("rows in plenty");
    seen.partial += u64::from(!room.book.valid().is_full());
    let (won, after) = room.force(seen, PLENTY, TARGET, NAMED);
    let won = won.expect("rows in plenty");
    let cost = (won.done.peak, won.done.rounds);
    // The set again, with the target filled.
    after.force(seen, PLENTY, TARGET, NAMED);
    room.force(seen, PLENTY, NAMED.goal, NAMED);
    for t in [NAMED.guest, NAMED.machine] {
        let both = Named {
            guest: t,
            machine: t,
            ..NAMED
        };
        let (_, mut after) = room.force(seen, PLENTY, TARGET, both);
        let turn = draw_turn(random, rules.n);
        after.react(seen, PLENTY, both, turn);
    }
    let turns = won.game.answerable(&won.entries);
    compare_turns(random, seen, &mut room, &won, &turns);
    room.compare_contents();
    compare_limits(random, seen, &room, cost, &turns);
    compare_rows(random, seen, rules, cost.0, &turns);
    compare_wrong(random, seen, &mut room);
}

/// A state and a press, in half of all cases such as have an answer, where there are such.
fn some_turn(random: &mut Random, n: u32, answerable: &[(u64, u64)]) -> (u64, u64) {
    match answerable.is_empty() || random.chance(50) {
        true => draw_turn(random, n),
        false => random.pick(answerable),
    }
}

/// All states and presses up to n = 2; in a larger room 20 of any kind, and up to 40 of those that have an answer.
fn compare_turns(
    random: &mut Random,
    seen: &mut Seen,
    room: &mut Room,
    made: &Made,
    answerable: &[(u64, u64)],
) {
    let (game, entries, n) = (&made.game, &made.entries, room.book.n());
    let states = 1u64 << n;
    let turns: Vec<(u64, u64)> = match n {
        1..=2 => (0..states * states)
            .map(|k| (k / states, k % states))
            .collect(),
        _ => {
            let any = (0..20).map(|_| draw_turn(random, n)).collect();
            let some = (0..answerable.len().min(40)).map(|_| random.pick(answerable));
            [any, some.collect::<Vec<_>>()].concat()
        }
    };
    for turn in turns {
        if room.react(seen, PLENTY, NAMED, turn) == 15 {
            let (state, press) = (turn.0 as usize, turn.1 as usize);
            seen.in_goal += u64::from(entries[state] == Some(1));
            seen.outside += u64::from(entries[state].is_none());
            let inside = entries[state].is_some_and(|round| round > 1);
            seen.no_move += u64::from(inside && !game.presses(state).contains(&press));
        }
    }
}

/// Limits of an account, and R: at what the game takes, one less, and less than that.
fn some_limits(random: &mut Random, peak: u32, rounds: u32) -> [(u32, u32, u32); 9] {
    let (less, fewer) = (peak.saturating_sub(1), rounds - 1);
    let any = random.below(u64::from(peak) + 1) as u32;
    let some = random.below(u64::from(rounds) + 1) as u32;
    [
        (peak, rounds, rounds),
        (less, rounds, rounds),
        (peak, fewer, rounds),
        (peak, rounds, fewer),
        (less, fewer, fewer),
        (any, some, u32::MAX),
        (u32::MAX, u32::MAX, some),
        (0, 0, 0),
        (0, 1, 1),
    ]
}

/// R and the account's limits about what the game takes.
fn compare_limits(
    random: &mut Random,
    seen: &mut Seen,
    room: &Room,
    (peak, rounds): (usize, u32),
    answerable: &[(u64, u64)],
) {
    let peak = peak as u32;
    for (rows, own, most) in some_limits(random, peak, rounds) {
        let mut accounts = vec![BookAccount::new(0, 0); 1 + random.below(8) as usize];
        let place = random.below(accounts.len() as u64);
        let tally = random.pick(&[0, 5, u32::MAX - 1]);
        accounts[place as usize] = BookAccount {
            tally,
            ..BookAccount::new(rows, own)
        };
        let under = Under {
            accounts: &accounts,
            place,
            rounds: most,
        };
        room.force(seen, under, TARGET, NAMED);
        let mut again = room.again();
        let turn = some_turn(random, room.book.n(), answerable);
        let number = again.react(seen, under, NAMED, turn);
        seen.enough += u64::from((rows, own, most, number) == (peak, rounds, rounds, 0));
        again.compare_contents();
    }
}

/// N at the peak, one less and one more, where the room can be filled.
fn compare_rows(
    random: &mut Random,
    seen: &mut Seen,
    rules: &Rules,
    peak: usize,
    answerable: &[(u64, u64)],
) {
    for rows in [peak, peak.saturating_sub(1), peak + 1] {
        let filled = (rows > 0).then(|| Room::new(rules, rows as u64)).flatten();
        let Some(mut small) = filled else {
            continue;
        };
        let (answer, _) = small.force(seen, PLENTY, TARGET, NAMED);
        assert_eq!(answer.is_some(), rows >= peak, "N = {rows}, peak {peak}");
        seen.edges += u64::from(rows < peak);
        let turn = some_turn(random, rules.n, answerable);
        let number = small.react(seen, PLENTY, NAMED, turn);
        assert_eq!(number == 8, rows < peak);
    }
}

/// Calls of which any number may be wrong, several at once, and words that are no sound table.
fn compare_wrong(random: &mut Random, seen: &mut Seen, room: &mut Room) {
    let states = 1u64 << room.book.n();
    let far = u64::from(u32::MAX);
    for _ in 0..8 {
        let register = |random: &mut Random| random.pick(&[9, 9, 9, 9, 9, 4, 31, 32, far]);
        let named = Named {
            goal: register(random),
            guest: random.pick(&[6, 6, 6, 6, 5, 2, 7, 8, far]),
            machine: random.pick(&[2, 2, 2, 2, 5, 6, 0, 8, far]),
        };
        let near = |random: &mut Random| random.below(states);
        let (state, press) = (near(random), near(random));
        let turn = random.pick(&[
            (state, press),
            (state, press),
            (state, press),
            (states, press),
            (state, states),
            (far, far),
        ]);
        let accounts = vec![BookAccount::LARGEST; random.pick(&[1, 1, 2, 8, 8, 0, 9])];
        let under = Under {
            accounts: &accounts,
            place: random.pick(&[0, 0, 0, 1, 7, 8, far]),
            rounds: random.pick(&[u32::MAX, u32::MAX, 0]),
        };
        room.react(seen, under, named, turn);
        room.force(seen, under, random.pick(&[4, 9, 31, 32, far]), named);
        let mut broken = room.words.clone();
        broken[random.pick(&[0, 1])] = random.pick(&[0, 60_001]);
        unsound(seen, broken, under, named, turn);
    }
}

/// 2 comes before all else, and keeps all words.
fn unsound(seen: &mut Seen, broken: Vec<u32>, under: Under, named: Named, turn: (u64, u64)) {
    let (mut words, lent) = (broken.clone(), lent_accounts(under.accounts));
    let (forced, reacted) = (
        force(&mut words, under, 32, named),
        react(&mut words, under, named, turn),
    );
    assert_eq!(forced, ([2, 0, 0, 0], lent.clone()));
    assert_eq!(reacted, ([2, 0], lent));
    assert_eq!(words, broken);
    seen.forced[2] += 1;
    seen.reacted[2] += 1;
}

/// The most pairs of which a formula has room.
const MOST_PAIRS: [usize; 6] = [0, 4, 16, 45, 36, 29];

/// A ladder: states in some order, the guest presses down or about level, the machine answers by one step down and
/// now and then elsewhere; the goal is the lowest.
fn ladder(random: &mut Random, n: u32) -> (Pairs, Pairs, Vec<usize>) {
    let all = 1usize << n;
    let mut order: Vec<usize> = (0..all).collect();
    for i in (1..all).rev() {
        order.swap(i, random.below(i as u64 + 1) as usize);
    }
    let steps = all.min(MOST_PAIRS[n as usize] / 2);
    let (mut guest, mut machine) = (Vec::new(), Vec::new());
    for at in 1..steps {
        let press = random.below(all as u64) as usize;
        guest.push((order[at], press));
        machine.push((press, order[at - 1]));
        if random.chance(40) {
            let other = order[random.below(at as u64 + 1) as usize];
            guest.push((order[at], other));
            machine.push((other, order[random.below(at as u64) as usize]));
        }
        if random.chance(30) {
            machine.push((press, random.below(all as u64) as usize));
        }
    }
    guest.truncate(MOST_PAIRS[n as usize]);
    machine.truncate(MOST_PAIRS[n as usize]);
    (guest, machine, vec![order[0]])
}

/// Any pairs.
fn some_pairs(random: &mut Random, n: u32) -> Pairs {
    let many = random.below(MOST_PAIRS[n as usize] as u64 + 1);
    let all = 1 << n;
    let draw = |_| (random.below(all) as usize, random.below(all) as usize);
    (0..many).map(draw).collect()
}

fn moves(random: &mut Random, n: u32) -> Vec<u8> {
    match random.below(10) {
        0 => counter(n as u8, random.chance(50)),
        1..=3 => rules(random, n as u8),
        4 => [vec![0x02], pairs(n, &some_pairs(random, n))].concat(),
        _ => pairs(n, &some_pairs(random, n)),
    }
}

fn draw_rules(random: &mut Random, n: u32) -> Rules {
    let valid = match random.below(10) {
        0..=4 => vec![0x01],
        5..=7 if n > 1 => vec![0x02, 0x03, 0x10, 0x11],
        8 => vec![0x04, 0x10, random.below(2) as u8],
        _ => [vec![0x02], state(n, 0x10, random.below(1 << n) as usize)].concat(),
    };
    let other = moves(random, n);
    let (guest, machine, goal) = match random.chance(55) {
        true => {
            let (guest, machine, goal) = ladder(random, n);
            (pairs(n, &guest), pairs(n, &machine), states(n, &goal))
        }
        false => {
            let many = random.pick(&[0, 1, 1, 1, 2, 3]);
            let goal: Vec<usize> = (0..many).map(|_| random.below(1 << n) as usize).collect();
            (moves(random, n), moves(random, n), states(n, &goal))
        }
    };
    Rules {
        n,
        valid: frame(&valid),
        guest: frame(&guest),
        machine: frame(&machine),
        other: frame(&other),
        goal: frame(&goal),
    }
}

/// A number from the environment.
fn setting(name: &str, default: u64) -> u64 {
    let Ok(text) = env::var(name) else {
        return default;
    };
    text.parse()
        .unwrap_or_else(|_| panic!("{name} is no number"))
}

#[test]
fn drawn_rooms() {
    let (rooms, seed) = (
        setting("KUDZUCLAMP_GAMES", 120),
        setting("KUDZUCLAMP_SEED", 8),
    );
    let (mut random, mut seen) = (Random::new(seed), Seen::default());
    for round in 0..rooms {
        let n = [1, 2, 2, 3, 3, 3, 3, 4][round as usize % 8] + u32::from(round % 32 == 31);
        let rules = draw_rules(&mut random, n);
        compare_game(&mut random, &mut seen, &rules);
    }
    let calls: u64 = seen.forced.iter().chain(&seen.reacted).sum();
    eprintln!("seed {seed}: {rooms} rooms, {calls} calls, {seen:?}");
    for number in [0, 2, 3, 7, 8, 9, 14] {
        assert!(seen.forced[number] > rooms / 4, "{number}: {seen:?}");
        assert!(seen.reacted[number] > rooms / 4, "{number}: {seen:?}");
    }
    let fifteen = [seen.in_goal, seen.outside, seen.no_move];
    assert!(fifteen.iter().all(|&ways| ways > rooms / 2), "{seen:?}");
    assert!(
        seen.edges > rooms / 8 && seen.enough > rooms / 8,
        "{seen:?}"
    );
    assert!(seen.partial > rooms / 5 && seen.deepest > 5, "{seen:?}");
}
