//! Slip 9: a list of calls that is answered throughout is answered in a larger table and under larger
//! limits, "with the same sets, counts, rounds and peaks"; node numbers are compared within a table.

use calls::call::draw_call;
use calls::compare::make;
use calls::games::{draw_game, playable};
use calls::logs::{draw_logged, loggable};
use calls::words::Words;
use kudzuclamp::{Account, Table};
use reference::book::{words_for, Answer, Book, Call, MAX_ROWS, REGISTERS};
use reference::random::Random;

/// A table with its accounts, as fresh left them.
struct Unit {
    table: Table<Vec<u32>>,
    accounts: Vec<Account>,
}

impl Unit {
    fn new(n: u32, rows: u32, mut accounts: Vec<Account>) -> Unit {
        let words = vec![0xA5; words_for(rows.into()) as usize];
        let table = Table::fresh(words, &mut accounts, n, rows).expect("sizes fit");
        Unit { table, accounts }
    }

    fn make(&mut self, call: &Call) -> Answer {
        make(&mut self.table, &mut self.accounts, call)
    }

    fn tallies(&self) -> Vec<u32> {
        self.accounts.iter().map(|account| account.tally).collect()
    }

    /// Which pairs of filled registers have one node number.
    fn same_nodes(&self) -> Vec<(usize, usize)> {
        let nodes: Vec<Option<u32>> = (0..REGISTERS as u32)
            .map(|r| self.table.node(r).ok())
            .collect();
        let pairs = (0..REGISTERS).flat_map(|r| (0..r).map(move |q| (q, r)));
        pairs
            .filter(|&(q, r)| nodes[q].is_some() && nodes[q] == nodes[r])
            .collect()
    }
}

/// An answered list: its sizes, its accounts, and its calls.
struct Answered {
    n: u32,
    rows: u32,
    accounts: Vec<Account>,
    calls: Vec<Call>,
}

/// Draws calls for a table that may be tight, and keeps those that are answered.
fn draw(random: &mut Random) -> Answered {
    let n = 1 + random.below(3) as u32;
    let rows = [3, 6, 12, 40][random.below(4) as usize] + random.below(4) as u32;
    let count = 1 + random.below(8);
    let limit = |random: &mut Random, least: u64| match random.chance(40) {
        true => u32::MAX,
        false => (least + random.below(20)) as u32,
    };
    let accounts: Vec<Account> = (0..count)
        .map(|_| Account {
            rows: limit(random, u64::from(rows) / 2),
            rounds: limit(random, 2),
            tally: random.below(9) as u32,
        })
        .collect();
    let mut unit = Unit::new(n, rows, accounts.clone());
    let mut calls = Vec::new();
    for _ in 0..25 {
        let (book, lent) = stood(&unit);
        let (call, _) = match random.below(100) {
            0..=19 if playable(&book) => draw_game(random, &book, &lent),
            20..=34 if loggable(&book) => draw_logged(random, &book),
            _ => draw_call(random, &book, &lent),
        };
        if unit.make(&call).number == 0 {
            calls.push(call);
        }
    }
    Answered {
        n,
        rows,
        accounts,
        calls,
    }
}

/// What draws a call: the book that the words stand for, and the accounts.
fn stood(unit: &Unit) -> (Book, Vec<reference::accounts::Account>) {
    let lent = unit
        .accounts
        .iter()
        .map(|account| reference::accounts::Account {
            rows: account.rows,
            rounds: account.rounds,
            tally: account.tally,
        });
    (Words(unit.table.words()).book(), lent.collect())
}

/// A limit raised, or equal.
fn raised(random: &mut Random, limit: u32, most: u32) -> u32 {
    match random.below(4) {
        0 => limit,
        1 => limit.saturating_add(1).min(most),
        2 => limit.saturating_add(random.below(500) as u32).min(most),
        _ => most,
    }
}

/// The same call with R raised or equal.
fn eased(random: &mut Random, call: &Call) -> Call {
    let mut call = call.clone();
    if let Call::Set { rounds, .. } | Call::Force { rounds, .. } | Call::React { rounds, .. } =
        &mut call
    {
        *rounds = raised(random, *rounds, u32::MAX);
    }
    call
}

/// The answer without a node number above 1.
fn told(call: &Call, answer: Answer) -> Answer {
    match call {
        Call::Set { .. } | Call::Force { .. } | Call::Node { .. } => Answer {
            value: answer.value.filter(|&node| node < 2),
            ..answer
        },
        _ => answer,
    }
}

#[test]
fn answered_lists_in_larger_tables() {
    let mut random = Random::new(9);
    let (mut compared, mut wider, mut logged) = (0, 0, 0);
    for _ in 0..600 {
        let list = draw(&mut random);
        let mut small = Unit::new(list.n, list.rows, list.accounts.clone());
        let most = MAX_ROWS as u32;
        let more = list.accounts.iter().map(|account| Account {
            rows: raised(&mut random, account.rows, u32::MAX),
            rounds: raised(&mut random, account.rounds, u32::MAX),
            tally: 77,
        });
        let more: Vec<Account> = more.collect();
        let rows = raised(&mut random, list.rows, most.min(list.rows + 5_000));
        let mut large = Unit::new(list.n, rows, more);
        wider += u32::from(rows > list.rows);
        for call in &list.calls {
            let wanted = small.make(call);
            assert_eq!(wanted.number, 0, "drawn as answered: {call:?}");
            let again = eased(&mut random, call);
            let got = large.make(&again);
            assert_eq!(
                told(call, got),
                told(call, wanted),
                "{call:?} with {rows} rows"
            );
            assert_eq!(large.same_nodes(), small.same_nodes(), "after {call:?}");
            compared += 1;
            logged += u32::from(matches!(call, Call::Logged { .. }));
        }
        assert_eq!(large.tallies(), small.tallies());
        let (first, second) = (stood(&small).0, stood(&large).0);
        assert_eq!(first.registers(), second.registers());
        assert_eq!(first.relations(), second.relations());
        assert_eq!(first.valid(), second.valid());
    }
    assert!(compared > 8_000 && wider > 300, "{compared} {wider}");
    assert!(logged > 400, "{logged} calls for two logs");
}
