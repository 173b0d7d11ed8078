//! Random lists of calls with the book's answers, as plain text blocks.
//!
//! A block is:
//! ```text
//! list 1
//! n 1
//! N 4
//! account 4294967295 3 0              row limit, round limit and the tally at
//!                                     the end; a line for each that is lent
//! relation 0 000a01... -> 0 0 4 0     relation t, framed formula
//! set 0 0 3 000601...  -> 0 3 4 1     set account's place, r, R, framed
//!                                     formula; value: node
//! force 0 5 9 0 6 2    -> 0 3 7 -     account's place, r, R, goal, guest, machine
//! react 0 9 0 6 2 1 3  -> 0 0 0 2     the same without r; state, press
//! logged 3 2 1:1 0:0   -> 0 0 0 3     t, places, mask:value of each entry of both
//!                                     logs; value: the states as digits behind a 1
//! member 0 1           -> 0 0 0 1     number, rounds, peak, value; `-`: node
//!                                     free
//! register 0 11                       filled at the end, state 0 first
//! matrix 0 0110                       relation filled at the end, by now, next
//! end
//! ```

use crate::accounts::{Account, MAX_ACCOUNTS};
use crate::book::{words_for, Answer, Book, Call, MAX_ROWS};
use crate::formula::{frame, Kind};
use crate::logs::Entry;
use crate::random::Random;
use std::fmt::Write;

/// A list of calls on a fresh table, each of which gets the accounts as the one
/// before left them.
#[derive(Clone, Debug, PartialEq, Eq)]
pub struct List {
    pub n: u32,
    pub rows: u64,
    pub accounts: Vec<Account>,
    pub calls: Vec<Call>,
}

/// What a list of calls gives: the answers of the book, and the book and the
/// accounts after it.
pub struct Ran {
    pub answers: Vec<Answer>,
    pub book: Book,
    pub accounts: Vec<Account>,
}

impl List {
    pub fn run(&self) -> Ran {
        let mut accounts = self.accounts.clone();
        let mut book = fresh(self.n, self.rows, &mut accounts);
        let calls = self.calls.iter();
        Ran {
            answers: calls.map(|call| book.call(&mut accounts, call)).collect(),
            book,
            accounts,
        }
    }

    /// The block of text described at the top of this module.
    pub fn block(&self, title: usize) -> String {
        let Ran {
            answers,
            book,
            accounts,
        } = self.run();
        let mut text = format!("list {title}\nn {}\nN {}\n", self.n, self.rows);
        for Account {
            rows,
            rounds,
            tally,
        } in accounts
        {
            writeln!(text, "account {rows} {rounds} {tally}").unwrap();
        }
        for (call, answer) in self.calls.iter().zip(&answers) {
            writeln!(text, "{} -> {}", call_text(call), answer_text(answer)).unwrap();
        }
        text + &contents(&book) + "end\n"
    }
}

fn fresh(n: u32, rows: u64, accounts: &mut [Account]) -> Book {
    let book = Book::fresh(u64::from(n), rows, words_for(rows), accounts);
    book.expect("n and N in range, 1 to 8 accounts")
}

fn call_text(call: &Call) -> String {
    match call {
        Call::Relation { t, formula } => format!("relation {t} {}", hex(formula)),
        Call::Set {
            place,
            r,
            rounds,
            formula,
        } => format!("set {place} {r} {rounds} {}", hex(formula)),
        Call::Force {
            place,
            r,
            rounds,
            game,
        } => format!("force {place} {r} {rounds} {game}"),
        Call::React {
            place,
            rounds,
            game,
            state,
            press,
        } => format!("react {place} {rounds} {game} {state} {press}"),
        Call::Logged {
            t,
            one,
            two,
            places,
        } => {
            let [one, two] = [one, two].map(|log| log_text(log));
            format!("logged {t} {places} {one} {two}")
        }
        Call::Clear { r } => format!("clear {r}"),
        Call::Valid { formula } => format!("valid {}", hex(formula)),
        Call::Collect => "collect".to_string(),
        Call::Node { r } => format!("node {r}"),
        Call::Member { r, state } => format!("member {r} {state}"),
        Call::Count { r } => format!("count {r}"),
    }
}

/// The entries of a log as mask:value, with commas between; `-` for none.
pub fn log_text(log: &[Entry]) -> String {
    let entries: Vec<String> = (log.iter())
        .map(|entry| format!("{}:{}", entry.mask, entry.value))
        .collect();
    match entries.is_empty() {
        true => "-".to_string(),
        false => entries.join(","),
    }
}

fn hex(bytes: &[u8]) -> String {
    bytes.iter().map(|byte| format!("{byte:02x}")).collect()
}

fn answer_text(answer: &Answer) -> String {
    let value = answer.value.map_or("-".to_string(), |v| v.to_string());
    let Answer {
        number,
        rounds,
        peak,
        ..
    } = answer;
    format!("{number} {rounds} {peak} {value}")
}

fn contents(book: &Book) -> String {
    let mut text = String::new();
    for (r, set) in book.registers().iter().enumerate() {
        if let Some(set) = set {
            writeln!(text, "register {r} {}", set.bit_string()).unwrap();
        }
    }
    for (t, relation) in book.relations().iter().enumerate() {
        if let Some(relation) = relation {
            writeln!(text, "matrix {t} {}", relation.bit_string()).unwrap();
        }
    }
    text
}

/// Draws a list of eight to twelve calls.
pub fn generate(random: &mut Random, n: u32) -> List {
    let count = match random.chance(50) {
        true => 1,
        false => 1 + random.below(MAX_ACCOUNTS as u64),
    };
    let mut plenty = vec![Account::LARGEST; count as usize];
    let mut drawer = Drawer {
        random,
        n,
        scratch: fresh(n, MAX_ROWS, &mut plenty),
        plenty,
        needs: Vec::new(),
        rounds: Vec::new(),
    };
    let length = 8 + drawer.random.below(5);
    let calls = (0..length).map(|index| drawer.call(index)).collect();
    let rows = drawer.rows();
    let accounts = (0..count).map(|_| drawer.account()).collect();
    List {
        n,
        rows,
        accounts,
        calls,
    }
}

/// Draws calls, and makes them on a scratch book with rows and accounts in
/// plenty to learn what is filled, how many rounds a set takes and how many rows
/// it needs.
struct Drawer<'a> {
    random: &'a mut Random,
    n: u32,
    scratch: Book,
    plenty: Vec<Account>,
    needs: Vec<usize>,
    rounds: Vec<u32>,
}

impl Drawer<'_> {
    fn call(&mut self, index: u64) -> Call {
        let call = match self.random.below(100) {
            0..=39 if index == 0 => self.valid_call(),
            0..=59 if index <= 1 => self.relation_call(),
            0..=1 => self.valid_call(),
            2..=19 => self.relation_call(),
            20..=64 => self.set_call(),
            65..=71 => Call::Clear { r: self.register() },
            72..=77 => Call::Collect,
            78..=82 => Call::Node { r: self.asked() },
            83..=92 => self.member_call(),
            _ => Call::Count { r: self.asked() },
        };
        self.scratch.call(&mut self.plenty, &call);
        call
    }

    fn valid_call(&mut self) -> Call {
        let formula = self.formula(Kind::Valid);
        if let Ok(done) = self.scratch.evaluate_valid(&formula) {
            self.needs.push(done.peak);
        }
        Call::Valid { formula }
    }

    fn relation_call(&mut self) -> Call {
        let t = self.relation();
        let formula = self.formula(Kind::Relation);
        if let Ok(done) = self.scratch.evaluate_relation(t, &formula) {
            self.needs.push(done.peak);
        }
        Call::Relation { t, formula }
    }

    fn set_call(&mut self) -> Call {
        let place = self.place();
        let r = self.register();
        let formula = self.formula(Kind::Set);
        let mut rounds = 100;
        let done = (self.scratch).evaluate_set(&self.plenty, place, r, u32::MAX, &formula);
        if let Ok(done) = done {
            self.needs.push(done.peak);
            self.rounds.push(done.rounds);
            rounds = self.round_limit(done.rounds);
        }
        Call::Set {
            place,
            r,
            rounds,
            formula,
        }
    }

    /// A place in the list of accounts, now and then past its end.
    fn place(&mut self) -> u64 {
        let count = self.plenty.len() as u64;
        match self.random.chance(4) {
            true => self.random.pick(&[count, count + 1, 255]),
            false => self.random.below(count),
        }
    }

    /// An account, mostly with the largest limits, else at a need and at the
    /// rounds of some set, or one below.
    fn account(&mut self) -> Account {
        let mut account = Account::LARGEST;
        if !self.needs.is_empty() && self.random.chance(30) {
            let need = self.random.pick(&self.needs) as u32;
            account.rows = need.saturating_sub(self.random.below(2) as u32);
        }
        if !self.rounds.is_empty() && self.random.chance(30) {
            let rounds = self.random.pick(&self.rounds);
            account.rounds = rounds.saturating_sub(self.random.below(2) as u32);
        }
        account
    }

    /// R, mostly the rounds taken or one fewer.
    fn round_limit(&mut self, taken: u32) -> u32 {
        match self.random.below(100) {
            0..=39 => taken,
            40..=59 => taken.saturating_sub(1),
            60..=64 => 0,
            65..=89 => 100,
            _ => u32::MAX,
        }
    }

    fn member_call(&mut self) -> Call {
        let r = self.asked();
        let states = 1 << self.n;
        let state = match self.random.chance(10) {
            true => states + self.random.below(2),
            false => self.random.below(states),
        };
        Call::Member { r, state }
    }

    fn register(&mut self) -> u64 {
        match self.random.below(100) {
            0..=3 => self.random.pick(&[32, 33, 255]),
            4..=6 => 31,
            _ => self.random.below(3),
        }
    }

    /// A register to ask about, mostly a filled one.
    fn asked(&mut self) -> u64 {
        let filled = filled(self.scratch.registers());
        match filled.is_empty() || self.random.chance(30) {
            true => self.register(),
            false => u64::from(self.random.pick(&filled)),
        }
    }

    fn relation(&mut self) -> u64 {
        match self.random.below(100) {
            0..=3 => self.random.pick(&[8, 9, 255]),
            4..=6 => 7,
            _ => self.random.below(3),
        }
    }

    /// N at a need of some call or one below it.
    fn rows(&mut self) -> u64 {
        let highest = self.needs.iter().copied().max().unwrap_or(1) as u64;
        let need = match self.random.chance(60) || self.needs.is_empty() {
            true => highest,
            false => self.random.pick(&self.needs) as u64,
        };
        need.saturating_sub(self.random.below(2)).max(1)
    }

    /// Framed formula bytes, sometimes spoilt.
    fn formula(&mut self, kind: Kind) -> Vec<u8> {
        let size = self.size(kind);
        let binders = if self.n == 1 { 2 } else { 1 };
        let mut writer = Writer {
            kind,
            n: self.n as u8,
            slip: self.random.chance(15),
            registers: filled(self.scratch.registers()),
            relations: filled(self.scratch.relations()),
            binders_left: binders,
            bound: Vec::new(),
            nots: 0,
            bytes: Vec::new(),
            random: self.random,
        };
        writer.formula(size);
        let bytes = writer.bytes;
        match self.random.chance(5) {
            true => self.spoil(bytes),
            false => frame(&bytes),
        }
    }

    /// Tokens wanted; few at n = 2, where each step is dearer.
    fn size(&mut self, kind: Kind) -> u64 {
        match (kind, self.n) {
            (Kind::Relation | Kind::Valid, _) => self.random.pick(&[1, 3, 4, 5, 6, 7]),
            (Kind::Set, 1) => 1 + self.random.below(9),
            (Kind::Set, _) => 1 + self.random.below(6),
        }
    }

    /// Bytes that break one rule of the prefix order or of the frame.
    fn spoil(&mut self, mut body: Vec<u8>) -> Vec<u8> {
        let fault = self.random.below(7);
        match fault {
            0 => body.push(0x01),
            1 => body[0] = self.random.pick(&[0x05, 0x0F, 0x90, 0xFF]),
            2 => body.insert(0, 0x03),
            _ => {}
        }
        let mut bytes = frame(&body);
        match fault {
            3 => bytes.push(0x00),
            4 => bytes[2] = 3,
            5 => bytes[1] += 1,
            6 => bytes.truncate(bytes.len() - 1),
            _ => {}
        }
        bytes
    }
}

fn filled<T>(places: &[Option<T>]) -> Vec<u8> {
    (0u8..)
        .zip(places)
        .filter(|(_, place)| place.is_some())
        .map(|(number, _)| number)
        .collect()
}

/// Writes formula bytes in prefix order. A slip may break checks 4 to 7 and 12.
struct Writer<'a> {
    random: &'a mut Random,
    kind: Kind,
    n: u8,
    slip: bool,
    registers: Vec<u8>,
    relations: Vec<u8>,
    binders_left: u32,
    /// Bound variables with the number of NOTs above their binder.
    bound: Vec<(u8, u32)>,
    nots: u32,
    bytes: Vec<u8>,
}

impl Writer<'_> {
    fn formula(&mut self, size: u64) {
        if size <= 1 {
            return self.leaf();
        }
        let binder_first = self.bound.is_empty() && self.random.chance(50);
        if self.may_bind() && (binder_first || self.random.chance(15)) {
            self.binder(size);
        } else if self.may_be_modal() && self.random.chance(40) {
            self.modal(size);
        } else if size == 2 || self.random.chance(if self.slip { 50 } else { 25 }) {
            self.not(size);
        } else {
            self.binary(size);
        }
    }

    fn may_bind(&self) -> bool {
        self.kind == Kind::Set && self.binders_left > 0
    }

    fn may_be_modal(&self) -> bool {
        self.kind == Kind::Set && (self.slip || !self.relations.is_empty())
    }

    fn not(&mut self, size: u64) {
        self.bytes.push(0x02);
        self.nots += 1;
        self.formula(size - 1);
        self.nots -= 1;
    }

    fn binary(&mut self, size: u64) {
        let operator = self.random.pick(&[0x03, 0x04]);
        self.bytes.push(operator);
        let left = 1 + self.random.below(size - 2);
        self.formula(left);
        self.formula(size - 1 - left);
    }

    fn modal(&mut self, size: u64) {
        self.modal_word();
        self.formula(size - 1);
    }

    fn modal_word(&mut self) {
        let t = match self.slip && self.random.chance(50) || self.relations.is_empty() {
            true => self.random.below(3) as u8,
            false => self.random.pick(&self.relations),
        };
        let base = self.random.pick(&[0x60, 0x68]);
        self.bytes.push(base + t);
    }

    fn binder(&mut self, size: u64) {
        self.binders_left -= 1;
        let p = match self.slip {
            true => self.random.below(2) as u8,
            false => self.bound.len() as u8,
        };
        let base = self.random.pick(&[0x70, 0x80]);
        self.bytes.push(base + p);
        let body = self.bytes.len();
        self.bound.push((p, self.nots));
        match self.may_be_modal() && self.random.chance(50) {
            true => self.reach(p),
            false => self.formula(size - 1),
        }
        self.bound.pop();
        self.bind(body, p);
    }

    /// Adds P to a body that has it not, but for a few in a slip: they get 12.
    fn bind(&mut self, body: usize, p: u8) {
        let mentioned = self.bytes[body..].contains(&(0x30 + p));
        if mentioned || self.random.chance(if self.slip { 50 } else { 2 }) {
            return;
        }
        let operator = self.random.pick(&[0x03, 0x04]);
        self.bytes.insert(body, operator);
        self.bytes.push(0x30 + p);
    }

    /// The usual body of a fixpoint: a leaf with a modal word over P.
    fn reach(&mut self, p: u8) {
        let operator = self.random.pick(&[0x03, 0x04]);
        self.bytes.push(operator);
        self.leaf();
        self.modal_word();
        self.bytes.push(0x30 + p);
    }

    fn leaf(&mut self) {
        let tokens = match self.slip && self.random.chance(40) {
            true => self.any_leaves(),
            false => self.fit_leaves(),
        };
        let token = self.random.pick(&tokens);
        self.bytes.push(token);
    }

    /// Leaves that pass the checks, the wanted ones listed more than once.
    fn fit_leaves(&self) -> Vec<u8> {
        let mut tokens = vec![0x00, 0x01];
        for p in 0..self.n {
            tokens.extend([0x10 + p; 2]);
        }
        match self.kind {
            Kind::Valid => {}
            Kind::Relation => (0..self.n).for_each(|p| tokens.extend([0x20 + p; 3])),
            Kind::Set => {
                tokens.extend(self.registers.iter().map(|r| 0x40 + r));
                for &(p, nots) in &self.bound {
                    if (self.nots - nots).is_multiple_of(2) {
                        tokens.extend([0x30 + p; 6]);
                    }
                }
            }
        }
        tokens
    }

    /// Leaves that may be refused with 4, 5, 6 or 7.
    fn any_leaves(&self) -> Vec<u8> {
        let mut tokens = vec![0x10 + self.n, 0x20, 0x30, 0x31, 0x40, 0x41, 0x42];
        for &(p, _) in &self.bound {
            tokens.extend([0x30 + p; 6]);
        }
        tokens
    }
}
