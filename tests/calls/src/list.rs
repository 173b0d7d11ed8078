//! A list of steps on lent words, as lines of text that can be read again:
//! ```text
//! words 700 5              700 words of noise from seed 5; seed 0 gives zeros
//! accounts 9:4294967295:0  from here on this list of accounts is lent: row limit, round limit and
//!                          tally of each; before the first such line, one with the largest limits
//! fresh 2 14 700           n, N and how many of the words are lent
//! relation 0 000a01...     t, framed formula; `-` for no bytes
//! set 0 0 3 000601...      the account's place, r, R, framed formula
//! force 0 5 9 0 6 2        the account's place, r, R, goal, guest, machine
//! react 0 9 0 6 2 1 3      the account's place, R, goal, guest, machine, state, press
//! logged 3 2 1:1,3:0 0:0,2:2  t, the list's places, mask:value of each entry of both logs; `-` for none
//! clear 0
//! collect
//! node 0
//! member 0 1
//! count 0
//! damage 17 5              writes 5 into word 17
//! repair                   undoes all damage since the table was last repaired or made
//! ```
//! What follows ` -> ` in a line is not read.

use reference::accounts::Account;
use reference::book::Call;
use reference::game::Named;
use reference::lists::log_text;
use reference::logs::{Entry, Log};
use reference::random::Random;
use std::fmt;

/// A step of a list.
#[derive(Clone, Debug, PartialEq, Eq)]
pub enum Step {
    Accounts(Vec<Account>),
    Fresh { n: u32, rows: u32, lent: usize },
    Call(Call),
    Damage { place: usize, value: u32 },
    Repair,
}

/// The words lent at the start, and the steps.
#[derive(Clone, Debug, PartialEq, Eq)]
pub struct List {
    pub length: usize,
    pub noise: u64,
    pub steps: Vec<Step>,
}

impl List {
    pub fn new(length: usize, noise: u64) -> List {
        List {
            length,
            noise,
            steps: Vec::new(),
        }
    }

    /// The words as the list finds them.
    pub fn words(&self) -> Vec<u32> {
        if self.noise == 0 {
            return vec![0; self.length];
        }
        let mut random = Random::new(self.noise);
        (0..self.length).map(|_| random.word() as u32).collect()
    }

    /// The list that lines of text stand for, from the line `words` on.
    pub fn read(text: &str) -> Option<List> {
        let mut lines = text.lines().filter(|line| !line.trim().is_empty());
        let first = lines.find(|line| line.starts_with("words "))?;
        let first: Vec<&str> = first.split_whitespace().collect();
        let [_, length, noise] = first[..] else {
            return None;
        };
        let mut list = List::new(length.parse().ok()?, noise.parse().ok()?);
        for line in lines {
            list.steps.push(Step::read(line)?);
        }
        Some(list)
    }
}

impl Step {
    fn read(line: &str) -> Option<Step> {
        let line = line.split(" -> ").next()?;
        let fields: Vec<&str> = line.split_whitespace().collect();
        Some(match fields[..] {
            ["accounts", ref accounts @ ..] => {
                let accounts = accounts.iter().map(|text| read_account(text));
                Step::Accounts(accounts.collect::<Option<_>>()?)
            }
            ["fresh", n, rows, lent] => Step::Fresh {
                n: n.parse().ok()?,
                rows: rows.parse().ok()?,
                lent: lent.parse().ok()?,
            },
            ["damage", place, value] => Step::Damage {
                place: place.parse().ok()?,
                value: value.parse().ok()?,
            },
            ["repair"] => Step::Repair,
            _ => Step::Call(read_call(&fields)?),
        })
    }
}

fn read_account(text: &str) -> Option<Account> {
    let numbers: Vec<u32> = text.split(':').filter_map(|n| n.parse().ok()).collect();
    let [rows, rounds, tally] = numbers[..] else {
        return None;
    };
    Some(Account {
        rows,
        rounds,
        tally,
    })
}

fn read_game([goal, guest, machine]: [&str; 3]) -> Option<Named> {
    Some(Named {
        goal: goal.parse().ok()?,
        guest: guest.parse().ok()?,
        machine: machine.parse().ok()?,
    })
}

fn read_log(text: &str) -> Option<Log> {
    if text == "-" {
        return Some(Log::new());
    }
    let entry = |text: &str| {
        let (mask, value) = text.split_once(':')?;
        let (mask, value) = (mask.parse().ok()?, value.parse().ok()?);
        Some(Entry { mask, value })
    };
    text.split(',').map(entry).collect()
}

fn read_call(fields: &[&str]) -> Option<Call> {
    Some(match *fields {
        ["relation", t, bytes] => Call::Relation {
            t: t.parse().ok()?,
            formula: unhex(bytes)?,
        },
        ["set", place, r, rounds, bytes] => Call::Set {
            place: place.parse().ok()?,
            r: r.parse().ok()?,
            rounds: rounds.parse().ok()?,
            formula: unhex(bytes)?,
        },
        ["valid", bytes] => Call::Valid {
            formula: unhex(bytes)?,
        },
        ["force", place, r, rounds, goal, guest, machine] => Call::Force {
            place: place.parse().ok()?,
            r: r.parse().ok()?,
            rounds: rounds.parse().ok()?,
            game: read_game([goal, guest, machine])?,
        },
        ["react", place, rounds, goal, guest, machine, state, press] => Call::React {
            place: place.parse().ok()?,
            rounds: rounds.parse().ok()?,
            game: read_game([goal, guest, machine])?,
            state: state.parse().ok()?,
            press: press.parse().ok()?,
        },
        ["logged", t, places, one, two] => Call::Logged {
            t: t.parse().ok()?,
            one: read_log(one)?,
            two: read_log(two)?,
            places: places.parse().ok()?,
        },
        ["clear", r] => Call::Clear { r: r.parse().ok()? },
        ["collect"] => Call::Collect,
        ["node", r] => Call::Node { r: r.parse().ok()? },
        ["member", r, state] => Call::Member {
            r: r.parse().ok()?,
            state: state.parse().ok()?,
        },
        ["count", r] => Call::Count { r: r.parse().ok()? },
        _ => return None,
    })
}

impl fmt::Display for List {
    fn fmt(&self, f: &mut fmt::Formatter<'_>) -> fmt::Result {
        writeln!(f, "words {} {}", self.length, self.noise)?;
        self.steps.iter().try_for_each(|step| writeln!(f, "{step}"))
    }
}

impl fmt::Display for Step {
    fn fmt(&self, f: &mut fmt::Formatter<'_>) -> fmt::Result {
        match self {
            Step::Accounts(accounts) => write_accounts(f, accounts),
            Step::Fresh { n, rows, lent } => write!(f, "fresh {n} {rows} {lent}"),
            Step::Damage { place, value } => write!(f, "damage {place} {value}"),
            Step::Repair => write!(f, "repair"),
            Step::Call(call) => write_call(f, call),
        }
    }
}

fn write_accounts(f: &mut fmt::Formatter<'_>, accounts: &[Account]) -> fmt::Result {
    write!(f, "accounts")?;
    for account in accounts {
        let (rows, rounds, tally) = (account.rows, account.rounds, account.tally);
        write!(f, " {rows}:{rounds}:{tally}")?;
    }
    Ok(())
}

fn write_call(f: &mut fmt::Formatter<'_>, call: &Call) -> fmt::Result {
    match call {
        Call::Relation { t, formula } => write!(f, "relation {t} {}", hex(formula)),
        Call::Set {
            place,
            r,
            rounds,
            formula,
        } => write!(f, "set {place} {r} {rounds} {}", hex(formula)),
        Call::Force {
            place,
            r,
            rounds,
            game,
        } => write!(f, "force {place} {r} {rounds} {game}"),
        Call::React {
            place,
            rounds,
            game,
            state,
            press,
        } => write!(f, "react {place} {rounds} {game} {state} {press}"),
        Call::Logged {
            t,
            one,
            two,
            places,
        } => write!(f, "logged {t} {places} {} {}", log_text(one), log_text(two)),
        Call::Clear { r } => write!(f, "clear {r}"),
        Call::Valid { formula } => write!(f, "valid {}", hex(formula)),
        Call::Collect => write!(f, "collect"),
        Call::Node { r } => write!(f, "node {r}"),
        Call::Member { r, state } => write!(f, "member {r} {state}"),
        Call::Count { r } => write!(f, "count {r}"),
    }
}

fn hex(bytes: &[u8]) -> String {
    match bytes.is_empty() {
        true => "-".to_string(),
        false => bytes.iter().map(|byte| format!("{byte:02x}")).collect(),
    }
}

fn unhex(text: &str) -> Option<Vec<u8>> {
    if text == "-" {
        return Some(Vec::new());
    }
    let pairs = text.as_bytes().chunks(2);
    pairs
        .map(|pair| u8::from_str_radix(std::str::from_utf8(pair).ok()?, 16).ok())
        .collect()
}
