//! Runs steps on the library and on the book, and compares answers, words and accounts.

use crate::compare::*;
use crate::kept;
use crate::list::{List, Step};
use crate::sound::sound;
use crate::words::{table_size, Words};
use crate::writer::has_until;
use kudzuclamp::{Refusal, Table};
use reference::accounts::Account;
use reference::book::{Answer, Book, Call, REGISTERS};
use reference::formula::{Kind, RUNS_VERSION};
use reference::logs::moments;

/// Greatest n at which relations of a damaged table are enumerated.
pub const MAX_BITS: u32 = 5;

/// One more than the greatest number of a refusal.
pub const NUMBERS: usize = 16;

/// How often each number came, 0 for answered: of all calls, of sets whose formula has until, of the
/// calls of games, and of those for two logs; how many sets there were; how many answered calls have a
/// peak above 0; the last number; and how many questions the checks after the lists asked.
#[derive(Clone, Copy, Debug, Default, PartialEq, Eq)]
pub struct Counts {
    pub numbers: [u64; NUMBERS],
    pub sets: u64,
    pub untils: [u64; NUMBERS],
    pub games: [u64; NUMBERS],
    pub logs: [u64; NUMBERS],
    pub peaks: u64,
    pub last: u8,
    pub questions: u64,
}

impl Counts {
    fn note(&mut self, number: u8) {
        self.numbers[usize::from(number)] += 1;
        self.last = number;
    }

    fn note_call(&mut self, call: &Call, Answer { number, peak, .. }: Answer) {
        self.note(number);
        self.peaks += u64::from(peak > 0);
        let game = matches!(call, Call::Force { .. } | Call::React { .. });
        self.games[usize::from(number)] += u64::from(game);
        let logged = matches!(call, Call::Logged { .. });
        self.logs[usize::from(number)] += u64::from(logged);
        let Call::Set { formula, .. } = call else {
            return;
        };
        self.sets += 1;
        let until = formula.get(2) == Some(&RUNS_VERSION) && has_until(&formula[3..]);
        self.untils[usize::from(number)] += u64::from(until);
    }

    pub fn add(&mut self, other: Counts) {
        let sum = |into: &mut [u64; NUMBERS], from: [u64; NUMBERS]| {
            (into.iter_mut().zip(from)).for_each(|(sum, count)| *sum += count);
        };
        sum(&mut self.numbers, other.numbers);
        sum(&mut self.untils, other.untils);
        sum(&mut self.games, other.games);
        sum(&mut self.logs, other.logs);
        self.sets += other.sets;
        self.peaks += other.peaks;
        self.questions += other.questions;
    }
}

/// Lent words, and what they should hold, None where they are no sound table; and the accounts that
/// the next call is lent.
pub struct Runner {
    table: Table<Vec<u32>>,
    expected: Option<Expected>,
    accounts: Vec<Account>,
    /// Words and expectation from before the first damage.
    whole: Option<(Vec<u32>, Option<Expected>)>,
    pub counts: Counts,
}

/// Runs a whole list.
pub fn run(list: &List) -> Result<Counts, Difference> {
    let mut runner = Runner::new(list);
    list.steps.iter().try_for_each(|step| runner.step(step))?;
    runner.compare_all()?;
    Ok(runner.counts)
}

impl Runner {
    pub fn new(list: &List) -> Runner {
        Runner::over(list.words())
    }

    /// Takes any words, at least as many as a table of one row has. The wrapper takes words as a
    /// table only where they are sound or by fresh, so they are put in after one.
    pub fn over(words: Vec<u32>) -> Runner {
        let mut table = empty_table(words.len()).expect("sizes fit");
        table.words_mut().copy_from_slice(&words);
        let expected = read_expected(&table);
        Runner {
            table,
            expected,
            accounts: vec![Account::LARGEST],
            whole: None,
            counts: Counts::default(),
        }
    }

    /// What the table should hold, unless it is unsound.
    pub fn expected(&self) -> Option<&Expected> {
        self.expected.as_ref()
    }

    /// What the table held before it was damaged.
    pub fn undamaged(&self) -> Option<&Expected> {
        match &self.whole {
            Some((_, expected)) => expected.as_ref(),
            None => self.expected(),
        }
    }

    pub fn is_damaged(&self) -> bool {
        self.whole.is_some()
    }

    pub fn words(&self) -> &[u32] {
        self.table.words()
    }

    /// The accounts as the last call left them.
    pub fn accounts(&self) -> &[Account] {
        &self.accounts
    }

    /// Makes one step and compares.
    pub fn step(&mut self, step: &Step) -> Result<(), Difference> {
        match step {
            Step::Accounts(accounts) => {
                self.accounts = accounts.clone();
                Ok(())
            }
            Step::Fresh { n, rows, lent } => self.fresh(*n, *rows, *lent),
            Step::Call(call) => self.call(call),
            Step::Damage { place, value } => {
                self.damage(*place, *value);
                Ok(())
            }
            Step::Repair => {
                self.repair();
                Ok(())
            }
        }
        .map_err(|what| format!("at `{step}`: {what}"))
    }

    fn damage(&mut self, place: usize, value: u32) {
        if self.whole.is_none() {
            self.whole = Some((self.words().to_vec(), self.expected.clone()));
        }
        self.table.words_mut()[place] = value;
        self.expected = read_expected(&self.table);
    }

    fn repair(&mut self) {
        if let Some((words, expected)) = self.whole.take() {
            self.table.words_mut().copy_from_slice(&words);
            self.expected = expected;
        }
    }

    fn fresh(&mut self, n: u32, rows: u32, lent: usize) -> Result<(), Difference> {
        let mut accounts = lent_accounts(&self.accounts);
        let wanted = Book::fresh(n.into(), rows.into(), lent as u64, &mut self.accounts);
        if wanted.is_ok() {
            self.compare_all()?;
        }
        let before = self.words().to_vec();
        let words = &mut self.table.words_mut()[..lent];
        let got = Table::fresh(words, &mut accounts, n, rows).map(|_| ());
        let number = number_of(&got);
        self.counts.note(number);
        let wanted_number = wanted.as_ref().map_or_else(|r| r.number(), |_| 0);
        same("number", number, wanted_number)?;
        same("accounts", accounts, lent_accounts(&self.accounts))?;
        let Ok(book) = wanted else {
            return kept::all(&before, self.words());
        };
        let past = table_size(rows as usize);
        kept::all(&before[past..], &self.words()[past..])?;
        sound(self.words())?;
        let nodes = vec![None; REGISTERS];
        self.expected = Some(Expected { book, nodes });
        self.whole = None;
        Ok(())
    }

    fn call(&mut self, call: &Call) -> Result<(), Difference> {
        self.compare_check(call)?;
        let before = self.words().to_vec();
        let mut accounts = lent_accounts(&self.accounts);
        let got = make(&mut self.table, &mut accounts, call);
        self.counts.note_call(call, got);
        let Some(expected) = &mut self.expected else {
            same("number", got.number, unsound_number(call))?;
            same("accounts", accounts, lent_accounts(&self.accounts))?;
            return kept::all(&before, self.words());
        };
        let wanted = expected.book.call(&mut self.accounts, call);
        compare_answer(expected, call, got, wanted)?;
        same("accounts", accounts, lent_accounts(&self.accounts))?;
        note_node(expected, call, got);
        compare_words(&before, self.words(), call, got.number)?;
        match got.number {
            8..=11 | 15 => self.compare_all(),
            _ => Ok(()),
        }
    }

    /// The checks of a formula, asked without its call.
    fn compare_check(&self, call: &Call) -> Result<(), Difference> {
        let (kind, bytes, got) = match call {
            Call::Relation { formula, .. } => {
                (Kind::Relation, formula, self.table.check_relation(formula))
            }
            Call::Set { formula, .. } => (Kind::Set, formula, self.table.check_set(formula)),
            _ => return Ok(()),
        };
        let wanted = match &self.expected {
            None => Refusal::Unsound.number() as u8,
            Some(expected) => check_number(&expected.book, kind, bytes),
        };
        same("checks alone", number_of(&got), wanted)
    }

    /// Every question about a sound table: all registers, all states, all pairs of registers, all
    /// relations.
    pub fn compare_all(&mut self) -> Result<(), Difference> {
        let Some(expected) = &mut self.expected else {
            return Ok(());
        };
        let before = self.table.words().to_vec();
        sound(&before)?;
        for call in questions(&expected.book) {
            self.counts.questions += 1;
            let wanted = expected.book.call(&mut [], &call);
            let got = make(&mut self.table, &mut [], &call);
            compare_answer(expected, &call, got, wanted)
                .map_err(|what| format!("afterwards `{}`: {what}", Step::Call(call)))?;
        }
        kept::all(&before, self.table.words())?;
        compare_pairs(expected)?;
        compare_relations(Words(&before), &expected.book)
    }
}

/// An empty table of one bit and one row in so many words.
pub fn empty_table(length: usize) -> Result<Table<Vec<u32>>, Refusal> {
    Table::fresh(
        vec![0; length],
        &mut [kudzuclamp::Account::unlimited()],
        1,
        1,
    )
}

/// What a call on words that are no sound table gives: 2, but for logs whose lengths do not fit, which
/// are looked at before the words.
fn unsound_number(call: &Call) -> u8 {
    match call {
        Call::Logged { one, two, .. } if moments(one, two).is_err() => {
            Refusal::Sizes.number() as u8
        }
        _ => Refusal::Unsound.number() as u8,
    }
}

/// What the words of a table should hold, where they are sound.
fn read_expected(table: &Table<Vec<u32>>) -> Option<Expected> {
    sound(table.words()).ok()?;
    let words = Words(table.words());
    assert!(words.n() <= MAX_BITS, "too many pairs to enumerate");
    Some(Expected {
        book: words.book(),
        nodes: (0..REGISTERS as u32).map(|r| table.node(r).ok()).collect(),
    })
}
