//! The places of a sound table's words that this crate reads, by docs/LAYOUT.md. The library writes
//! them, and refuses words of another layout.

/// n and N.
pub const BITS: usize = 0;
pub const ROWS: usize = 1;

/// Registers and relations: 0 where empty, else an arrow + 1.
pub const FIRST_REGISTER: usize = 16;
pub const FIRST_RELATION: usize = 48;

/// The words of row 0, and how many words a row has.
const FIRST_ROW: usize = 256;
const ROW_WORDS: usize = 8;

/// An arrow: a row, or no row for the one constant, nothing; with a NOT or without.
#[derive(Clone, Copy, Debug, PartialEq, Eq)]
pub struct Arrow {
    pub row: Option<usize>,
    pub not: bool,
}

impl Arrow {
    fn new(word: u32) -> Arrow {
        let row = (word as usize / 2).checked_sub(1);
        Arrow {
            row,
            not: word % 2 == 1,
        }
    }
}

/// A used row.
#[derive(Clone, Copy, Debug, PartialEq, Eq)]
pub struct Row {
    pub low: Arrow,
    pub high: Arrow,
    pub level: u32,
}

/// The arrow in a register or relation; none where it is empty.
pub fn root(words: &[u32], place: usize) -> Option<Arrow> {
    words.get(place)?.checked_sub(1).map(Arrow::new)
}

/// Row i, which is used.
pub fn row(words: &[u32], i: usize) -> Row {
    let row = &words[FIRST_ROW + ROW_WORDS * i..][..ROW_WORDS];
    Row {
        low: Arrow::new(row[0]),
        high: Arrow::new(row[1]),
        level: row[2],
    }
}
