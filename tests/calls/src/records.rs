//! Calls as records in the format of the program `roomrules`, and lists of them.

use crate::call::draw_call;
use reference::accounts::Account;
use reference::book::{words_for, Answer, Book, Call};
use reference::random::Random;

/// A record: its length, version 1, the operation and its arguments.
pub fn record(operation: u8, arguments: &[&[u8]]) -> Vec<u8> {
    let arguments = arguments.concat();
    let length = arguments.len() as u16 + 2;
    [&length.to_be_bytes()[..], &[1, operation], &arguments].concat()
}

/// The record of a call that has one.
pub fn record_of(call: &Call) -> Option<Vec<u8>> {
    Some(match call {
        Call::Relation { t, formula } => record(2, &[&[*t as u8], formula]),
        // The program lends one account and names it.
        Call::Set {
            place: 0,
            r,
            rounds,
            formula,
        } => record(3, &[&[*r as u8], &rounds.to_be_bytes(), formula]),
        Call::Clear { r } => record(4, &[&[*r as u8]]),
        Call::Count { r } => record(5, &[&[*r as u8]]),
        Call::Collect => record(6, &[]),
        _ => return None,
    })
}

/// A call that was made of a record, what the book answers to it, and how many states the register
/// of an answered set then has.
pub struct Made {
    pub call: Call,
    pub answer: Answer,
    pub states: Option<u64>,
}

/// Some records on a fresh table of few bits, and what the calls of those after fresh came to.
pub fn draw(random: &mut Random) -> (Vec<Vec<u8>>, Vec<Made>) {
    let n = 1 + random.below(3);
    let rows = 1 + random.below(60);
    let mut accounts = [Account::LARGEST];
    let mut book = Book::fresh(n, rows, words_for(rows), &mut accounts).expect("sizes fit");
    let mut records = vec![record(1, &[&[n as u8], &(rows as u16).to_be_bytes()])];
    let mut made = Vec::new();
    for _ in 0..12 {
        let (call, _) = draw_call(random, &book, &accounts);
        let Some(record) = record_of(&call) else {
            continue;
        };
        records.push(record);
        made.push(make(&mut book, &mut accounts, call));
    }
    (records, made)
}

fn make(book: &mut Book, accounts: &mut [Account], call: Call) -> Made {
    let answer = book.call(accounts, &call);
    let states = match call {
        Call::Set { r, .. } if answer.number == 0 => book.count(r).ok(),
        _ => None,
    };
    Made {
        call,
        answer,
        states,
    }
}
