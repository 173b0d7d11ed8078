//! Which words a call keeps: document 01's column "Kept", and what docs/LAYOUT.md calls free.

use crate::words::*;
use std::collections::BTreeSet;

/// The first place where words differ.
pub fn first_change(before: &[u32], after: &[u32]) -> Option<usize> {
    assert_eq!(before.len(), after.len());
    before.iter().zip(after).position(|(b, a)| b != a)
}

/// No word has changed.
pub fn all(before: &[u32], after: &[u32]) -> Result<(), String> {
    match first_change(before, after) {
        None => Ok(()),
        Some(place) => Err(changed(before, after, place)),
    }
}

/// No word has changed but the target's, of an answered set, relation or clear, and the free ones,
/// on a sound table.
pub fn needed(before: &[u32], after: &[u32], target: Option<usize>) -> Result<(), String> {
    let words = Words(before);
    let roots = (VALID..ROOTS_END).filter(|&place| Some(place) != target);
    let rows = words.reached(roots);
    let may_change = |place| Some(place) == target || free(words.rows(), &rows, place);
    let places = before.iter().zip(after).enumerate();
    let mut changes = places.filter(|(_, (b, a))| b != a).map(|(place, _)| place);
    match changes.find(|&place| !may_change(place)) {
        None => Ok(()),
        Some(place) => Err(changed(before, after, place)),
    }
}

/// Exactly the rows that registers and relations need are used: "none is left used by an answered
/// collect".
pub fn swept(after: &[u32]) -> Result<(), String> {
    let words = Words(after);
    let needed = words.reached(VALID..ROOTS_END);
    let used: BTreeSet<usize> = (0..words.used()).map(|k| words.listed(k)).collect();
    match used == needed {
        true => Ok(()),
        false => Err(format!("used {used:?}, needed {needed:?}")),
    }
}

fn changed(before: &[u32], after: &[u32], place: usize) -> String {
    format!("word {place} was {} and is {}", before[place], after[place])
}

/// "Free in a sound table": the rows that are not needed, the index and the remembered results.
fn free(rows: usize, needed: &BTreeSet<usize>, place: usize) -> bool {
    if place < HEADER {
        return (USED..=STORED).contains(&place);
    }
    let at = place - HEADER;
    if at >= ROW * rows {
        return place < table_size(rows);
    }
    match at % ROW {
        LOW | HIGH | LEVEL => !needed.contains(&(at / ROW)),
        SPARE => false,
        _ => true,
    }
}
