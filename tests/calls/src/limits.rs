//! Draws N and lists of accounts, at the edges of what some calls take.

use crate::call::{draw_call, Cost};
use reference::accounts::{Account, MAX_ACCOUNTS};
use reference::book::{words_for, Book, MAX_ROWS};
use reference::random::Random;

/// N, and what some calls take.
pub struct Sizes {
    pub rows: u32,
    costs: Vec<Cost>,
}

/// N at the peak of one of some calls, one below or a little above: 8 is then decided at the edge.
pub fn draw_sizes(random: &mut Random, n: u32) -> Sizes {
    let costs = draw_costs(random, n);
    let peaks: Vec<usize> = costs.iter().map(|cost| cost.peak.max(1)).collect();
    let most = peaks.iter().copied().max().unwrap_or(1);
    let peak = match peaks.is_empty() || random.chance(60) {
        true => most,
        false => random.pick(&peaks).max(most / 2),
    };
    let rows = match random.below(10) {
        0..=3 => peak,
        4..=6 => peak.saturating_sub(1),
        7..=8 => peak + random.below(4) as usize,
        _ => peak + 100,
    };
    let rows = rows.max(1) as u32;
    Sizes { rows, costs }
}

/// What ten calls take, made on a book with rows and an account in plenty.
fn draw_costs(random: &mut Random, n: u32) -> Vec<Cost> {
    let mut plenty = [Account::LARGEST];
    let book = Book::fresh(n.into(), MAX_ROWS, words_for(MAX_ROWS), &mut plenty);
    let mut book = book.expect("sizes fit");
    let mut costs = Vec::new();
    for _ in 0..10 {
        let (call, cost) = draw_call(random, &book, &plenty);
        costs.extend(cost);
        book.call(&mut plenty, &call);
    }
    costs
}

/// A list of 1 to 8 accounts, or now and then one that is refused with 14.
pub fn draw_accounts(random: &mut Random, sizes: &Sizes) -> Vec<Account> {
    let count = match random.chance(6) {
        true => random.pick(&[0, 9, 12]),
        false => 1 + random.below(MAX_ACCOUNTS as u64),
    };
    (0..count).map(|_| draw_account(random, sizes)).collect()
}

fn draw_account(random: &mut Random, sizes: &Sizes) -> Account {
    Account {
        rows: row_limit(random, sizes),
        rounds: round_limit(random, sizes),
        tally: match random.chance(70) {
            true => random.below(3) as u32,
            false => u32::MAX - random.below(12) as u32,
        },
    }
}

/// The largest, near N, at a peak or one below, or less.
fn row_limit(random: &mut Random, sizes: &Sizes) -> u32 {
    let peak = match sizes.costs.is_empty() {
        true => sizes.rows,
        false => random.pick(&sizes.costs).peak as u32,
    };
    match random.below(100) {
        0..=44 => u32::MAX,
        45..=64 => sizes.rows + random.below(2) as u32,
        65..=74 => sizes.rows - 1,
        75..=90 => peak.saturating_sub(random.below(2) as u32),
        91..=94 => 0,
        _ => random.below(u64::from(sizes.rows)) as u32,
    }
}

/// The largest, at the rounds of some set or one below, or less.
fn round_limit(random: &mut Random, sizes: &Sizes) -> u32 {
    let rounds: Vec<u32> = (sizes.costs.iter())
        .map(|cost| cost.rounds)
        .filter(|&rounds| rounds > 0)
        .collect();
    match random.below(100) {
        0..=54 => u32::MAX,
        55..=89 if !rounds.is_empty() => random.pick(&rounds) - random.below(2) as u32,
        90..=93 => 0,
        _ => random.below(20) as u32,
    }
}
