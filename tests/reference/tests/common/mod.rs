//! Helpers of the tests.
#![allow(dead_code)]

use reference::accounts::Account;
use reference::book::{words_for, Book, RelationAnswer, SetAnswer};
use reference::formula::frame;
use reference::refusal::Refusal;

/// The relation of the listing at n = 1: the bit changes.
pub const TOGGLE: [u8; 9] = [0x04, 0x03, 0x20, 0x02, 0x10, 0x03, 0x02, 0x20, 0x10];
/// The set of the listing: states from which bit 0 can be reached.
pub const REACH: [u8; 5] = [0x70, 0x04, 0x10, 0x68, 0x30];

pub fn book(n: u64, rows: u64) -> Book {
    Book::fresh(n, rows, words_for(rows), &mut [Account::LARGEST]).unwrap()
}

/// "n = 1, N = 100" with relation 0 as in the listing.
pub fn toggle_book() -> Book {
    let mut book = book(1, 100);
    relation(&mut book, 0, &TOGGLE).unwrap();
    book
}

pub fn relation(book: &mut Book, t: u64, body: &[u8]) -> Result<RelationAnswer, Refusal> {
    book.relation(t, &frame(body))
}

/// Set with R under one account with the largest limits.
pub fn set_within(book: &mut Book, r: u64, rounds: u32, body: &[u8]) -> Result<SetAnswer, Refusal> {
    book.set(&mut [Account::LARGEST], 0, r, rounds, &frame(body))
}

/// Set with R = 100.
pub fn set(book: &mut Book, r: u64, body: &[u8]) -> Result<SetAnswer, Refusal> {
    set_within(book, r, 100, body)
}

/// Set register 0 with R, and give states and rounds.
pub fn states_and_rounds(book: &mut Book, rounds: u32, body: &[u8]) -> Result<(u64, u32), Refusal> {
    let answer = set_within(book, 0, rounds, body)?;
    Ok((book.count(0)?, answer.rounds))
}
