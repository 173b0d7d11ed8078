//! The program's record format and its output lines.

use crate::accounts::Account;
use crate::book::Book;
use crate::refusal::Refusal;
use std::io::{Read, Result as IoResult, Write};

/// "two-byte length L (2 to 1,100)".
pub const MIN_RECORD: usize = 2;
pub const MAX_RECORD: usize = 1100;
pub const VERSION: u8 = 1;
/// "It lends 16,384 words of zeros".
pub const WORDS: u64 = 16_384;

/// "Operations: 1 fresh n, N (two bytes); 2 relation t, formula; 3 set r, R
/// (four bytes), formula; 4 clear r; 5 count r; 6 collect."
#[derive(Clone, Debug, PartialEq, Eq)]
pub enum Record {
    Fresh {
        n: u8,
        rows: u16,
    },
    Relation {
        t: u8,
        formula: Vec<u8>,
    },
    Set {
        r: u8,
        rounds: u32,
        formula: Vec<u8>,
    },
    Clear {
        r: u8,
    },
    Count {
        r: u8,
    },
    Collect,
}

/// What stands next in the input.
enum Reading {
    Record(Record),
    End,
    Bad,
}

/// Reads records and writes "One line a record", then the last line.
pub fn run(input: &mut impl Read, output: &mut impl Write) -> IoResult<()> {
    let mut machine = Machine::default();
    loop {
        match next_record(input) {
            Reading::Record(record) => writeln!(output, "{}", machine.line(&record))?,
            Reading::End => return writeln!(output, "end ok"),
            Reading::Bad => return writeln!(output, "end bad"),
        }
    }
}

/// The output for the given input bytes.
pub fn output_of(mut input: &[u8]) -> String {
    let mut output = Vec::new();
    run(&mut input, &mut output).expect("a vector takes all bytes");
    String::from_utf8(output).expect("lines are text")
}

fn next_record(input: &mut impl Read) -> Reading {
    let length = take(input, 2);
    if length.is_empty() {
        return Reading::End;
    }
    match whole_record(input, &length) {
        Some(record) => Reading::Record(record),
        None => Reading::Bad,
    }
}

/// None at "a record cut short, L out of range, another version, an unknown
/// operation or fixed arguments of another length".
fn whole_record(input: &mut impl Read, length: &[u8]) -> Option<Record> {
    let length = usize::from(u16::from_be_bytes(length.try_into().ok()?));
    if !(MIN_RECORD..=MAX_RECORD).contains(&length) {
        return None;
    }
    let bytes = take(input, length);
    if bytes.len() < length {
        return None;
    }
    parse(&bytes)
}

/// Up to `length` bytes; fewer where the input ends.
fn take(input: &mut impl Read, length: usize) -> Vec<u8> {
    let mut bytes = Vec::new();
    let read = input.take(length as u64).read_to_end(&mut bytes);
    read.expect("input can be read");
    bytes
}

/// The L bytes of a record: "version 1, an operation, arguments; a formula is
/// the rest of its record, its own length bytes included".
fn parse(bytes: &[u8]) -> Option<Record> {
    let [version, operation, arguments @ ..] = bytes else {
        return None;
    };
    if *version != VERSION {
        return None;
    }
    match (operation, arguments) {
        (1, [n, high, low]) => Some(Record::Fresh {
            n: *n,
            rows: u16::from_be_bytes([*high, *low]),
        }),
        (2, [t, formula @ ..]) => Some(Record::Relation {
            t: *t,
            formula: formula.to_vec(),
        }),
        (3, [r, a, b, c, d, formula @ ..]) => Some(Record::Set {
            r: *r,
            rounds: u32::from_be_bytes([*a, *b, *c, *d]),
            formula: formula.to_vec(),
        }),
        (4, [r]) => Some(Record::Clear { r: *r }),
        (5, [r]) => Some(Record::Count { r: *r }),
        (6, []) => Some(Record::Collect),
        _ => None,
    }
}

/// The lent words: no book before the first answered fresh, since "All zero
/// words are unsound." Slip 7: "`roomrules` lends one account with the largest
/// limits."
pub struct Machine {
    book: Option<Book>,
    accounts: [Account; 1],
}

impl Default for Machine {
    fn default() -> Self {
        Machine {
            book: None,
            accounts: [Account::LARGEST],
        }
    }
}

impl Machine {
    /// "four decimal fields: operation, refusal or 0, value (3 and 5: states in
    /// r; 6: rows; else 0), rounds. A refused record has 0 in the last two
    /// fields."
    pub fn line(&mut self, record: &Record) -> String {
        let (number, value, rounds) = match self.answer(record) {
            Ok((value, rounds)) => (0, value, rounds),
            Err(refusal) => (refusal.number(), 0, 0),
        };
        format!("{} {number} {value} {rounds}", record.operation())
    }

    /// Value and rounds of an answered record.
    fn answer(&mut self, record: &Record) -> Result<(u64, u32), Refusal> {
        if let Record::Fresh { n, rows } = record {
            // A refused fresh keeps "all words", so the old book stays.
            let (n, rows) = (u64::from(*n), u64::from(*rows));
            self.book = Some(Book::fresh(n, rows, WORDS, &mut self.accounts)?);
            return Ok((0, 0));
        }
        let accounts = &mut self.accounts;
        let book = self.book.as_mut().ok_or(Refusal::Unsound)?;
        match record {
            Record::Fresh { .. } => unreachable!("answered above"),
            Record::Relation { t, formula } => {
                book.relation(u64::from(*t), formula)?;
                Ok((0, 0))
            }
            Record::Set { r, rounds, formula } => {
                let answer = book.set(accounts, 0, u64::from(*r), *rounds, formula)?;
                Ok((book.count(u64::from(*r))?, answer.rounds))
            }
            Record::Clear { r } => {
                book.clear(u64::from(*r))?;
                Ok((0, 0))
            }
            Record::Count { r } => Ok((book.count(u64::from(*r))?, 0)),
            Record::Collect => Ok((book.collect(), 0)),
        }
    }
}

impl Record {
    pub fn operation(&self) -> u8 {
        match self {
            Record::Fresh { .. } => 1,
            Record::Relation { .. } => 2,
            Record::Set { .. } => 3,
            Record::Clear { .. } => 4,
            Record::Count { .. } => 5,
            Record::Collect => 6,
        }
    }
}
