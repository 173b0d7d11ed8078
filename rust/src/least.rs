//! The least state of a set, found in its rows.
use crate::layout::{self, Arrow};
use std::collections::HashMap;

/// The least state of each arrow that was looked at, by its row and whether it carries a NOT.
type Found = HashMap<(usize, bool), Option<u32>>;

/// The least state that an arrow of a sound table's set leads to; none where it leads to nothing.
pub fn state(words: &[u32], arrow: Arrow) -> Option<u32> {
    below(words, arrow, &mut Found::new())
}

/// Each arrow of a row leads to a greater level, so this is at most as deep as there are bits.
fn below(words: &[u32], arrow: Arrow, found: &mut Found) -> Option<u32> {
    let Some(i) = arrow.row else {
        // NOT nothing is everything.
        return arrow.not.then_some(0);
    };
    if let Some(least) = found.get(&(i, arrow.not)) {
        return *least;
    }
    let row = layout::row(words, i);
    let [low, high] = [row.low, row.high].map(|next| {
        let not = next.not != arrow.not;
        below(words, Arrow { not, ..next }, found)
    });
    // Sets have rows of current bits only, bit p at level 2p.
    let high = high.map(|state| state + (1 << (row.level / 2)));
    let least = low.into_iter().chain(high).min();
    found.insert((i, arrow.not), least);
    least
}
