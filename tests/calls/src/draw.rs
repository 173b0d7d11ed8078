//! Draws the steps of a list, each for the table as it stands, and runs them.

use crate::call::{draw_call, Cost};
use crate::compare::Difference;
use crate::games::{draw_game, playable};
use crate::limits::{draw_accounts, draw_sizes, Sizes};
use crate::list::{List, Step};
use crate::logs::{draw_logged, loggable};
use crate::run::{Runner, MAX_BITS};
use crate::words::{table_size, BITS, HEADER, ROW, UNUSED, VALID};
use reference::accounts::Account;
use reference::book::{words_for, Book, Call};
use reference::random::Random;

/// Calls of a list: fresh, relation, set, force, react, logged, clear, collect, node, member and count.
pub const CALLS: u64 = 40;

/// How many calls of a hundred are a game's, once something is filled.
const GAMES: u64 = 15;

/// And how many of the others are for two logs, once a relation is filled.
const LOGS: u64 = 10;

/// How many answered calls took exactly what a limit allows, and how many refused ones one more.
#[derive(Clone, Copy, Debug, Default, PartialEq, Eq)]
pub struct Edge {
    pub answered: u64,
    pub refused: u64,
}

impl Edge {
    fn note(&mut self, taken: u64, limit: u64, number: u8, refusal: u8) {
        self.answered += u64::from(taken == limit && number == 0);
        self.refused += u64::from(taken == limit + 1 && number == refusal);
    }

    pub fn add(&mut self, other: Edge) {
        self.answered += other.answered;
        self.refused += other.refused;
    }

    pub fn both(&self) -> bool {
        self.answered > 0 && self.refused > 0
    }
}

/// Of N, of row limits below N, and of round limits below R.
#[derive(Clone, Copy, Debug, Default, PartialEq, Eq)]
pub struct Edges {
    pub table: Edge,
    pub rows: Edge,
    pub rounds: Edge,
}

/// A list that was drawn and run, with the difference that ended it.
pub struct Drawn {
    pub list: List,
    pub runner: Runner,
    pub edges: Edges,
    pub difference: Option<Difference>,
}

/// Draws list number `index` of a seed and runs it on the way.
pub fn draw_and_run(seed: u64, index: u64) -> Drawn {
    let mut random = Random::new(seed.wrapping_mul(0x1_0000_0001).wrapping_add(index));
    random = Random::new(random.word());
    let n = draw_bits(&mut random);
    let sizes = draw_sizes(&mut random, n);
    let length = table_size(sizes.rows as usize) + random.pick(&[0, 1, 30]);
    let noise = random.pick(&[0, 1, random.clone().word()]);
    let list = List::new(length, noise);
    let runner = Runner::new(&list);
    let mut session = Session {
        random,
        n,
        sizes,
        waiting: None,
        drawn: Drawn {
            list,
            runner,
            edges: Edges::default(),
            difference: None,
        },
    };
    let difference = session.run().err();
    Drawn {
        difference,
        ..session.drawn
    }
}

fn draw_bits(random: &mut Random) -> u32 {
    match random.below(100) {
        0..=16 => 1,
        17..=54 => 2,
        55..=89 => 3,
        90..=97 => 4,
        _ => 5,
    }
}

/// A list on its way.
struct Session {
    random: Random,
    n: u32,
    sizes: Sizes,
    /// A call for which the accounts were changed.
    waiting: Option<(Call, Cost)>,
    drawn: Drawn,
}

impl Session {
    fn run(&mut self) -> Result<(), Difference> {
        let mut calls = 0;
        let first = self.accounts();
        self.make(first)?;
        while calls < CALLS {
            let (step, cost) = self.step(calls);
            calls += u64::from(matches!(step, Step::Fresh { .. } | Step::Call(_)));
            self.make(step.clone())?;
            if let (Step::Call(call), Some(cost)) = (step, cost) {
                self.note_edges(&call, cost);
            }
        }
        self.drawn.runner.compare_all()
    }

    fn make(&mut self, step: Step) -> Result<(), Difference> {
        self.drawn.list.steps.push(step.clone());
        self.drawn.runner.step(&step)
    }

    /// The next step, after so many calls, and its cost where that is known.
    fn step(&mut self, calls: u64) -> (Step, Option<Cost>) {
        if let Some((call, cost)) = self.waiting.take() {
            return (Step::Call(call), Some(cost));
        }
        let runner = &self.drawn.runner;
        let unlisted = !(1..=8).contains(&runner.accounts().len());
        if self.random.below(1000) < if unlisted { 300 } else { 25 } {
            return (self.accounts(), None);
        }
        let Some(expected) = runner.expected().or(runner.undamaged()) else {
            return match self.random.chance(70) {
                true => (self.fresh(), None),
                false => (self.call_for_nothing(), None),
            };
        };
        if runner.is_damaged() && self.random.chance(35) {
            return (Step::Repair, None);
        }
        match self.random.below(1000) {
            0..=29 => (self.bad_fresh(), None),
            30..=44 if calls < CALLS - 10 => (self.fresh(), None),
            45..=99 if runner.expected().is_some() => (self.damage(), None),
            _ => {
                let accounts = runner.accounts();
                let (call, cost) = any_call(&mut self.random, &expected.book, accounts);
                match self.random.chance(12) {
                    true => self.edge(call, cost),
                    false => (Step::Call(call), cost),
                }
            }
        }
    }

    /// A set or a call of a game waits while its account gets a limit at its cost, or one below.
    fn edge(&mut self, call: Call, cost: Option<Cost>) -> (Step, Option<Cost>) {
        let mut accounts = self.drawn.runner.accounts().to_vec();
        let (Some((place, _)), Some(known)) = (named_account(&call), cost) else {
            return (Step::Call(call), cost);
        };
        let Some(account) = accounts.get_mut(place as usize) else {
            return (Step::Call(call), cost);
        };
        let below = self.random.below(2) as u32;
        match known.rounds > 0 && self.random.chance(50) {
            true => account.rounds = known.rounds - below,
            false => account.rows = (known.peak as u32).saturating_sub(below),
        }
        self.waiting = Some((call, known));
        (Step::Accounts(accounts), None)
    }

    /// Another list of accounts, or the same with another tally.
    fn accounts(&mut self) -> Step {
        let mut accounts = self.drawn.runner.accounts().to_vec();
        if self.random.chance(70) || accounts.is_empty() {
            return Step::Accounts(draw_accounts(&mut self.random, &self.sizes));
        }
        let place = self.random.below(accounts.len() as u64) as usize;
        accounts[place].tally = u32::MAX - self.random.below(20) as u32;
        Step::Accounts(accounts)
    }

    /// Fresh with the list's n and N, or with fewer rows.
    fn fresh(&mut self) -> Step {
        let rows = match self.random.chance(80) {
            true => self.sizes.rows,
            false => 1 + self.random.below(self.sizes.rows.into()) as u32,
        };
        Step::Fresh {
            n: self.n,
            rows,
            lent: self.drawn.list.length,
        }
    }

    /// Fresh that is refused with 1.
    fn bad_fresh(&mut self) -> Step {
        let (n, rows, length) = (self.n, self.sizes.rows, self.drawn.list.length);
        let (n, rows, lent) = match self.random.below(4) {
            0 => (self.random.pick(&[0, 17, u32::MAX]), rows, length),
            1 => (n, self.random.pick(&[0, 60_001, u32::MAX]), length),
            2 => (n, rows, table_size(rows as usize) - 1),
            _ => (n, rows + 3, length.min(table_size(rows as usize + 3) - 1)),
        };
        Step::Fresh { n, rows, lent }
    }

    /// A call on words that were never a sound table.
    fn call_for_nothing(&mut self) -> Step {
        let book = Book::fresh(self.n.into(), 100, words_for(100), &mut [Account::LARGEST]);
        let accounts = self.drawn.runner.accounts();
        Step::Call(draw_call(&mut self.random, &book.expect("sizes fit"), accounts).0)
    }

    /// Changes one word of the table, mostly one that counts. n stays small enough to enumerate.
    fn damage(&mut self) -> Step {
        if self.random.chance(10) {
            let value = u32::MAX - self.random.below(5) as u32;
            return Step::Damage {
                place: UNUSED,
                value,
            };
        }
        let rows = self.sizes.rows as usize;
        let place = match self.random.below(10) {
            0..=1 => self.random.below(8) as usize,
            2..=3 => VALID + self.random.below(41) as usize,
            4..=7 => HEADER + self.random.below((ROW * rows) as u64) as usize,
            _ => HEADER + self.random.below((12 * rows) as u64) as usize,
        };
        let value = self.damaged(self.drawn.runner.words()[place]);
        match place == BITS && (MAX_BITS + 1..=16).contains(&value) {
            true => Step::Damage { place, value: 17 },
            false => Step::Damage { place, value },
        }
    }

    fn damaged(&mut self, old: u32) -> u32 {
        match self.random.below(6) {
            0 => old.wrapping_add(1),
            1 => old.wrapping_sub(1),
            2 => 0,
            3 => self.random.below(2 * u64::from(self.sizes.rows) + 4) as u32,
            4 => u32::MAX - self.random.below(10) as u32,
            _ => old ^ 1 << self.random.below(32),
        }
    }

    /// Counts a call that takes what a limit allows, or one more.
    fn note_edges(&mut self, call: &Call, cost: Cost) {
        let Some(expected) = self.drawn.runner.expected() else {
            return;
        };
        let number = self.drawn.runner.counts.last;
        let table = expected.book.rows();
        let (rows, rounds) = limits_of(call, table, self.drawn.runner.accounts());
        let edges = &mut self.drawn.edges;
        if rounds.is_none_or(|limit| cost.rounds <= limit) {
            let edge = match rows < table {
                true => &mut edges.rows,
                false => &mut edges.table,
            };
            edge.note(cost.peak as u64, rows as u64, number, 8);
        }
        if let Some(limit) = rounds.filter(|_| cost.peak <= rows) {
            let (taken, limit) = (cost.rounds.into(), limit.into());
            edges.rounds.note(taken, limit, number, 9);
        }
    }
}

/// The rows that a call may need; and the rounds of its account, where these are fewer than R.
fn limits_of(call: &Call, table: usize, accounts: &[Account]) -> (usize, Option<u32>) {
    let Some((place, rounds)) = named_account(call) else {
        return (table, None);
    };
    match accounts.get(place as usize) {
        None => (table, None),
        Some(account) => {
            let limits = account.limits(table, rounds);
            (limits.rows, Some(limits.rounds).filter(|&own| own < rounds))
        }
    }
}

/// The place of the account that a call names, and its R.
fn named_account(call: &Call) -> Option<(u64, u32)> {
    match call {
        Call::Set { place, rounds, .. }
        | Call::Force { place, rounds, .. }
        | Call::React { place, rounds, .. } => Some((*place, *rounds)),
        _ => None,
    }
}

/// A call of any kind.
fn any_call(random: &mut Random, book: &Book, accounts: &[Account]) -> (Call, Option<Cost>) {
    if playable(book) && random.chance(GAMES) {
        return draw_game(random, book, accounts);
    }
    match loggable(book) && random.chance(LOGS) {
        true => draw_logged(random, book),
        false => steered_call(random, book, accounts),
    }
}

/// A call, drawn again a few times until it needs as many rows as it may, or one more.
fn steered_call(random: &mut Random, book: &Book, accounts: &[Account]) -> (Call, Option<Cost>) {
    let mut drawn = draw_call(random, book, accounts);
    for _ in 0..random.below(3) {
        let (rows, _) = limits_of(&drawn.0, book.rows(), accounts);
        match drawn.1 {
            Some(cost) if cost.peak < rows || cost.peak > rows + 1 => {
                drawn = draw_call(random, book, accounts);
            }
            _ => break,
        }
    }
    drawn
}
