//! "A table is sound when", decided slowly and plainly from documents 01 and 02 and docs/LAYOUT.md.

use crate::words::*;
use reference::book::{MAX_ROWS, MAX_STATE_BITS};
use std::collections::BTreeSet;

/// Whether the words are a sound table; the error says what is amiss.
pub fn sound(words: &[u32]) -> Result<(), String> {
    sizes(words)?;
    let words = Words(words);
    list(words)?;
    for k in 0..words.used() {
        let row = words.listed(k);
        arrows(words, row)?;
        link(words, row)?;
    }
    for k in 0..words.used() {
        let row = words.listed(k);
        if lookup(words, row) != Some(row) {
            return Err(format!("the index does not find row {row}"));
        }
    }
    roots(words)?;
    within(words)
}

fn demand(holds: bool, what: impl FnOnce() -> String) -> Result<(), String> {
    match holds {
        true => Ok(()),
        false => Err(what()),
    }
}

/// "n and N are in range and the slice is long enough".
fn sizes(words: &[u32]) -> Result<(), String> {
    demand(words.len() >= HEADER, || "no header".to_string())?;
    let n_fits = (1..=MAX_STATE_BITS).contains(&u64::from(words[BITS]));
    let rows_fit = (1..=MAX_ROWS).contains(&u64::from(words[ROWS]));
    demand(n_fits && rows_fit, || "n or N out of range".to_string())?;
    let size = table_size(words[ROWS] as usize);
    demand(words.len() >= size, || "too few words".to_string())?;
    demand(words[LAYOUT] == CURRENT, || "another layout".to_string())
}

/// "the k-th used row, k < USED: below N, and its RANK is k"; so each is listed once.
fn list(words: Words) -> Result<(), String> {
    demand(words.used() <= words.rows(), || "USED above N".to_string())?;
    for k in 0..words.used() {
        let row = words.listed(k);
        demand(row < words.rows(), || format!("LIST {k} is no row"))?;
        let rank = words.field(row, RANK) as usize;
        demand(rank == k, || format!("RANK of row {row} is not {k}"))?;
    }
    Ok(())
}

/// "row levels are under 2n, and each arrow to a row leads to a greater level; low and high differ".
fn arrows(words: Words, row: usize) -> Result<(), String> {
    let level = words.field(row, LEVEL);
    demand(level < 2 * words.n(), || format!("level of row {row}"))?;
    for place in [LOW, HIGH] {
        let falls = match arrow(words.field(row, place)) {
            Arrow::Constant(_) => true,
            Arrow::Row(to) => words.is_used(to) && words.field(to, LEVEL) > level,
        };
        demand(falls, || format!("arrow {place} of row {row}"))?;
    }
    let plain = !marked(words.field(row, HIGH));
    demand(plain, || {
        format!("the high arrow of row {row} carries a NOT")
    })?;
    let differ = words.field(row, LOW) != words.field(row, HIGH);
    demand(differ, || format!("row {row} has one arrow twice"))
}

/// "next row of its chain: 0, or a used row of lesser rank".
fn link(words: Words, row: usize) -> Result<(), String> {
    let holds = match words.field(row, NEXT).checked_sub(1) {
        None => true,
        Some(next) => {
            let next = next as usize;
            words.is_used(next) && words.field(next, RANK) < words.field(row, RANK)
        }
    };
    demand(holds, || format!("NEXT of row {row}"))
}

/// The first row of the chain with a row's level and arrows. As it must be the row itself, "no two
/// used rows agree in all three" follows.
fn lookup(words: Words, row: usize) -> Option<usize> {
    let key = |row: usize| [LEVEL, LOW, HIGH].map(|place| words.field(row, place));
    let [level, low, high] = key(row);
    let mut at = words.head(bucket(words.rows(), level, low, high));
    while let Some(here) = at.checked_sub(1) {
        let here = here as usize;
        // Only a head may name no used row, and counts as 0 then.
        if !words.is_used(here) {
            return None;
        }
        if key(here) == key(row) {
            return Some(here);
        }
        at = words.field(here, NEXT);
    }
    None
}

/// "the low 32 bits of low · 0x9E3779B1 + high · 0x85EBCA77 + level · 0xC2B2AE3D, times N, divided
/// by 2^32".
pub fn bucket(rows: usize, level: u32, low: u32, high: u32) -> usize {
    let terms = [
        (low, 0x9E37_79B1),
        (high, 0x85EB_CA77),
        (level, 0xC2B2_AE3D),
    ];
    let sum: u128 = terms.iter().map(|&(word, by)| u128::from(word) * by).sum();
    let hash = (sum % (1 << 32)) as u64;
    (hash * rows as u64 / (1 << 32)) as usize
}

/// "each register is empty or an arrow whose rows all have even levels; each relation is empty or
/// any arrow"; "V's rows on even levels".
fn roots(words: Words) -> Result<(), String> {
    let valid = words.root(VALID).is_some();
    demand(valid, || "no set of states that exist".to_string())?;
    for place in VALID..ROOTS_END {
        let leads = match words.root(place).map(arrow) {
            Some(Arrow::Row(row)) => words.is_used(row),
            _ => true,
        };
        demand(leads, || format!("root {place} leads to no used row"))?;
    }
    let below = words.reached(VALID..FIRST_RELATION);
    let mut levels = below.iter().map(|&row| words.field(row, LEVEL));
    demand(levels.all(|level| level % 2 == 0), || {
        "V or a register has an odd level".to_string()
    })
}

/// "registers within V, and relations within V and SHIFT of V".
fn within(words: Words) -> Result<(), String> {
    let valid = words.root(VALID).expect("checked before");
    for shift in [0, 1] {
        let first = [FIRST_REGISTER, FIRST_RELATION][shift as usize];
        for place in first..ROOTS_END {
            let inside = words
                .root(place)
                .is_none_or(|root| lies_within(words, root, valid, shift));
            demand(inside, || {
                format!("root {place} not within V at shift {shift}")
            })?;
        }
    }
    Ok(())
}

/// Whether every pair of one arrow is one of the other, whose levels count higher by the shift:
/// level by level, the pairs of arrows that some bits before lead to.
fn lies_within(words: Words, root: u32, valid: u32, shift: u32) -> bool {
    let mut met = BTreeSet::from([(root, valid)]);
    for level in 0..2 * words.n() + shift {
        let mut below = BTreeSet::new();
        for (a, v) in met {
            let parts = words.cofactors(a, level);
            let wholes = match level.checked_sub(shift) {
                Some(own) => words.cofactors(v, own),
                None => [v, v],
            };
            below.extend([0, 1].map(|bit| (parts[bit], wholes[bit])));
        }
        met = below;
    }
    met.iter().all(|&(a, v)| a == 0 || v == 1)
}
