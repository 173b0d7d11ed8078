//! Draws one call for a book as it stands.

use crate::writer::{self, Plan};
use reference::accounts::Account;
use reference::book::{Book, Call, MAX_ROWS, REGISTERS, RELATIONS};
use reference::evaluate::{self, Limits};
use reference::formula::{self, frame_as, Formula, Kind, RUNS_VERSION, VERSION};
use reference::random::Random;

/// What a call takes that would be answered with rows and an account in plenty: its peak and its
/// rounds.
#[derive(Clone, Copy, Debug, PartialEq, Eq)]
pub struct Cost {
    pub peak: usize,
    pub rounds: u32,
}

/// A call for a book, which is asked what is filled and how many rounds a set takes, and for a list
/// of accounts; and its cost.
pub fn draw_call(random: &mut Random, book: &Book, accounts: &[Account]) -> (Call, Option<Cost>) {
    let filled = |some: bool| some || book.registers().iter().any(Option::is_some);
    let unfilled = !filled(book.relations().iter().any(Option::is_some));
    if random.chance(if unfilled { 40 } else { 2 }) {
        return valid_call(random, book);
    }
    let few = book.relations().iter().flatten().count() < 2;
    let call = match random.below(100) {
        0..=39 if few => return relation_call(random, book),
        0..=14 => return relation_call(random, book),
        15..=67 => return set_call(random, book, accounts),
        68..=74 => Call::Clear {
            r: register(random),
        },
        75..=80 => Call::Collect,
        81..=86 => Call::Node {
            r: asked(random, book),
        },
        87..=93 => member_call(random, book),
        _ => Call::Count {
            r: asked(random, book),
        },
    };
    (call, None)
}

/// V: nothing, everything, one state, a selector of three positions, any set; where that may be.
fn valid_call(random: &mut Random, book: &Book) -> (Call, Option<Cost>) {
    let n = book.n() as u8;
    let body = match random.below(10) {
        0 => vec![0x00],
        1 => vec![0x01],
        2..=3 => writer::one_state(random, n),
        4..=5 if n > 1 => vec![0x02, 0x03, 0x10, 0x11],
        6 => special(random, book, Kind::Valid),
        _ => plain(random, book, Kind::Valid),
    };
    let formula = framed(random, body);
    let done = checked(book, Kind::Valid, &formula)
        .and_then(|f| evaluate::valid(book.held(), MAX_ROWS as usize, &f).ok());
    let empty = filled(book.registers()).is_empty() && filled(book.relations()).is_empty();
    let cost = done.filter(|_| empty).map(|done| Cost {
        peak: done.peak,
        rounds: 0,
    });
    (Call::Valid { formula }, cost)
}

fn relation_call(random: &mut Random, book: &Book) -> (Call, Option<Cost>) {
    let t = match random.below(100) {
        0..=3 => random.pick(&[8, 9, 255, u64::from(u32::MAX)]),
        4..=6 => 7,
        _ => random.below(3),
    };
    let n = book.n() as u8;
    let body = match random.below(100) {
        0..=29 if n < 5 => writer::rules(random, n),
        30..=44 if n < 4 => writer::counter(n, random.chance(50)),
        30..=31 if n < 5 => writer::counter(n, random.chance(50)),
        45..=46 => special(random, book, Kind::Relation),
        _ => plain(random, book, Kind::Relation),
    };
    let formula = framed(random, body);
    let done = checked(book, Kind::Relation, &formula)
        .and_then(|f| evaluate::relation(book.held(), MAX_ROWS as usize, &f).ok());
    let cost = done.filter(|_| t < RELATIONS as u64).map(|done| Cost {
        peak: done.peak,
        rounds: 0,
    });
    (Call::Relation { t, formula }, cost)
}

fn set_call(random: &mut Random, book: &Book, accounts: &[Account]) -> (Call, Option<Cost>) {
    let place = place(random, accounts.len() as u64);
    let r = register(random);
    let body = match random.below(100) {
        0..=3 => special(random, book, Kind::Set),
        _ => plain(random, book, Kind::Set),
    };
    let formula = framed(random, body);
    let (rounds, cost) = round_limit(random, book, &formula);
    let cost = cost.filter(|_| r < REGISTERS as u64);
    let call = Call::Set {
        place,
        r,
        rounds,
        formula,
    };
    (call, cost)
}

/// A place in a list of so many accounts, now and then past its end.
pub fn place(random: &mut Random, count: u64) -> u64 {
    match count == 0 || random.chance(3) {
        true => random.pick(&[count, count + 1, 8, 255, u64::from(u32::MAX), 1 << 32]),
        false => random.below(count),
    }
}

/// R, mostly the rounds taken or one fewer, never so many that the book takes long; and the cost
/// where R is enough.
fn round_limit(random: &mut Random, book: &Book, bytes: &[u8]) -> (u32, Option<Cost>) {
    let most = match book.n() {
        1..=2 => 2_000,
        3 => 300,
        4 => 100,
        _ => 40,
    };
    let Some(formula) = checked(book, Kind::Set, bytes) else {
        return (random.pick(&[0, 100, u32::MAX]), None);
    };
    let limits = Limits {
        rows: MAX_ROWS as usize,
        rounds: most,
    };
    let Ok(done) = evaluate::set(book.held(), limits, &formula) else {
        return (random.below(u64::from(most) + 1) as u32, None);
    };
    let rounds = match random.below(100) {
        0..=49 => done.rounds,
        50..=64 => done.rounds.saturating_sub(1),
        65..=69 => random.below(u64::from(done.rounds) + 1) as u32,
        70..=89 => done.rounds + random.below(100) as u32,
        _ => u32::MAX,
    };
    let cost = Cost {
        peak: done.peak,
        rounds: done.rounds,
    };
    (rounds, Some(cost).filter(|_| rounds >= done.rounds))
}

/// The formula, where checks 4 to 7 and 12 find no cause.
fn checked(book: &Book, kind: Kind, bytes: &[u8]) -> Option<Formula> {
    let register = |r: usize| book.registers()[r].is_some();
    let relation = |t: usize| book.relations()[t].is_some();
    formula::check(book.n(), kind, bytes, register, relation).ok()
}

fn member_call(random: &mut Random, book: &Book) -> Call {
    let r = asked(random, book);
    let states = 1u64 << book.n();
    let state = match random.chance(15) {
        true => random.pick(&[states, states + 1, u64::from(u32::MAX)]),
        false => random.below(states),
    };
    Call::Member { r, state }
}

pub fn register(random: &mut Random) -> u64 {
    match random.below(100) {
        0..=3 => random.pick(&[32, 33, 255, u64::from(u32::MAX)]),
        4..=6 => 31,
        _ => random.below(7),
    }
}

/// A register to ask about, mostly a filled one.
pub fn asked(random: &mut Random, book: &Book) -> u64 {
    let filled = filled(book.registers());
    match filled.is_empty() || random.chance(30) {
        true => register(random),
        false => u64::from(random.pick(&filled)),
    }
}

pub fn filled<T>(places: &[Option<T>]) -> Vec<u8> {
    let numbered = (0u8..).zip(places);
    let filled = numbered.filter(|(_, place)| place.is_some());
    filled.map(|(number, _)| number).collect()
}

fn plain(random: &mut Random, book: &Book, kind: Kind) -> Vec<u8> {
    let largest = match (kind, book.n()) {
        (Kind::Relation | Kind::Valid, 1..=3) => 14,
        (Kind::Relation | Kind::Valid, _) => 9,
        (Kind::Set, 1..=2) => 40,
        (Kind::Set, 3) => 24,
        (Kind::Set, _) => 12,
    };
    let slip = random.chance(15);
    let plan = Plan {
        kind,
        n: book.n() as u8,
        registers: filled(book.registers()),
        relations: filled(book.relations()),
        size: 1 + random.below(largest),
        binders: match kind {
            Kind::Relation | Kind::Valid => 0,
            Kind::Set => u32::from(slip) + random.below(4) as u32,
        },
        slip,
    };
    writer::write(random, plan)
}

/// Formulas at the edges of depth and length, until inside until, and one with all sixteen binders.
fn special(random: &mut Random, book: &Book, kind: Kind) -> Vec<u8> {
    let leaf = 0x10 + random.below(book.n().into()) as u8;
    let depth = 62 + random.below(5) as usize;
    match random.below(5) {
        0 => writer::nots(depth, leaf),
        4 if kind == Kind::Set => {
            let (first, t) = (random.chance(50), random.below(3) as u8);
            writer::untils(depth, first, t, leaf)
        }
        1 if book.n() < 3 => writer::tree(random, 9, &[0x00, 0x01, leaf]),
        2 if book.n() < 3 => [vec![0x02], writer::tree(random, 9, &[0x00, leaf])].concat(),
        _ if kind == Kind::Set => {
            let (binder, operator) = random.pick(&[(0x70, 0x04), (0x80, 0x03)]);
            let mut body = writer::all_binders(binder, operator);
            // Now and then one of them binds nothing.
            if random.chance(30) {
                let variable = body.len() - 1 - random.below(16) as usize;
                body[variable] = leaf;
            }
            body
        }
        _ => vec![leaf],
    }
}

/// The framed bytes, now and then spoilt.
fn framed(random: &mut Random, mut body: Vec<u8>) -> Vec<u8> {
    // Version 2 has every word of version 1; version 1 has no until.
    let version = match random.below(100) {
        0..=1 => VERSION,
        2..=5 => RUNS_VERSION,
        _ => writer::version(&body),
    };
    let fault = match random.chance(4) {
        true => random.below(8),
        false => return frame_as(version, &body),
    };
    let at = random.below(body.len() as u64) as usize;
    match fault {
        0 => body.push(0x01),
        1 => body[at] = random.below(256) as u8,
        2 => body.insert(at, 0x03),
        3 => body.truncate(at),
        _ => {}
    }
    let mut bytes = frame_as(version, &body);
    match fault {
        4 => bytes.push(0x00),
        5 => bytes[2] = random.pick(&[0, 3, 255]),
        6 => bytes[1] = bytes[1].wrapping_add(1),
        7 => bytes.truncate(random.below(bytes.len() as u64) as usize),
        _ => {}
    }
    bytes
}
