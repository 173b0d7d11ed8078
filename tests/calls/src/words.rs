//! A table's words, read plainly as docs/LAYOUT.md lists them.

use reference::book::{Book, REGISTERS, RELATIONS};
use reference::states::{PairSet, StateSet};
use std::collections::BTreeSet;

pub const BITS: usize = 0;
pub const ROWS: usize = 1;
/// "unused".
pub const UNUSED: usize = 2;
pub const USED: usize = 3;
pub const STORED: usize = 6;
pub const LAYOUT: usize = 7;
/// The layout in which arrows may carry a NOT and V is a root.
pub const CURRENT: u32 = 3;
/// The first root: V, "the set V of states that exist".
pub const VALID: usize = 15;
/// V's root where V is every state.
pub const ALL_STATES: u32 = 2;
pub const FIRST_REGISTER: usize = 16;
pub const FIRST_RELATION: usize = 48;
/// Where the roots end and where the rows begin.
pub const ROOTS_END: usize = 56;
pub const HEADER: usize = 256;

/// Words of a row, and their places in it.
pub const ROW: usize = 8;
pub const LOW: usize = 0;
pub const HIGH: usize = 1;
pub const LEVEL: usize = 2;
pub const NEXT: usize = 3;
pub const RANK: usize = 4;
pub const SPARE: usize = 7;

/// "256 + 12 × N words".
pub fn table_size(rows: usize) -> usize {
    HEADER + 12 * rows
}

/// What an arrow leads to: "0 is nothing, 1 everything, row i is 2 (i + 1), and its complement one more".
#[derive(Clone, Copy, Debug, PartialEq, Eq)]
pub enum Arrow {
    Constant(bool),
    Row(usize),
}

pub fn arrow(word: u32) -> Arrow {
    match word {
        0 => Arrow::Constant(false),
        1 => Arrow::Constant(true),
        _ => Arrow::Row(word as usize / 2 - 1),
    }
}

/// "an odd arrow carries a NOT".
pub fn marked(word: u32) -> bool {
    word % 2 == 1
}

/// Words whose n, N and length are in range.
#[derive(Clone, Copy)]
pub struct Words<'a>(pub &'a [u32]);

impl Words<'_> {
    pub fn n(self) -> u32 {
        self.0[BITS]
    }

    pub fn rows(self) -> usize {
        self.0[ROWS] as usize
    }

    pub fn used(self) -> usize {
        self.0[USED] as usize
    }

    pub fn field(self, row: usize, place: usize) -> u32 {
        self.0[HEADER + ROW * row + place]
    }

    /// The k-th used row.
    pub fn listed(self, k: usize) -> usize {
        self.0[HEADER + ROW * self.rows() + k] as usize
    }

    pub fn head(self, bucket: usize) -> u32 {
        self.0[HEADER + (ROW + 1) * self.rows() + bucket]
    }

    /// "row i is used exactly when i < N, RANK(i) < USED and LIST(RANK(i)) = i".
    pub fn is_used(self, row: usize) -> bool {
        if row >= self.rows() {
            return false;
        }
        let rank = self.field(row, RANK) as usize;
        rank < self.used() && self.listed(rank) == row
    }

    /// The arrow in a root's word: "0 empty, else arrow + 1".
    pub fn root(self, place: usize) -> Option<u32> {
        self.0[place].checked_sub(1)
    }

    /// Whether what an arrow of a sound table denotes has the pair.
    pub fn has(self, root: u32, now: usize, next: usize) -> bool {
        let mut at = root;
        let mut turned = false;
        loop {
            let row = match arrow(at) {
                Arrow::Constant(value) => return value != turned,
                Arrow::Row(row) => row,
            };
            turned ^= marked(at);
            let level = self.field(row, LEVEL);
            let state = if level.is_multiple_of(2) { now } else { next };
            let high = state >> (level / 2) & 1 == 1;
            at = self.field(row, if high { HIGH } else { LOW });
        }
    }

    /// What an arrow is where a level's bit is 0 and where it is 1: itself, if it is past the level.
    pub fn cofactors(self, at: u32, level: u32) -> [u32; 2] {
        match arrow(at) {
            Arrow::Row(row) if self.field(row, LEVEL) == level => {
                [LOW, HIGH].map(|place| self.field(row, place) ^ at & 1)
            }
            _ => [at, at],
        }
    }

    /// The used rows that the roots in some places of a sound table reach.
    pub fn reached(self, places: impl Iterator<Item = usize>) -> BTreeSet<usize> {
        let mut rows = BTreeSet::new();
        let mut open: Vec<Arrow> = places.filter_map(|p| self.root(p)).map(arrow).collect();
        while let Some(at) = open.pop() {
            if let Arrow::Row(row) = at {
                if rows.insert(row) {
                    open.extend([LOW, HIGH].map(|place| arrow(self.field(row, place))));
                }
            }
        }
        rows
    }

    /// "the set V of states that exist".
    pub fn valid(self) -> Option<StateSet> {
        let root = self.root(VALID)?;
        Some(StateSet::from_fn(self.n(), |s| self.has(root, s, 0)))
    }

    pub fn register(self, r: usize) -> Option<StateSet> {
        let root = self.root(FIRST_REGISTER + r)?;
        Some(StateSet::from_fn(self.n(), |s| self.has(root, s, 0)))
    }

    pub fn relation(self, t: usize) -> Option<PairSet> {
        let root = self.root(FIRST_RELATION + t)?;
        Some(PairSet::from_fn(self.n(), |now, next| {
            self.has(root, now, next)
        }))
    }

    /// The book that a sound table stands for.
    pub fn book(self) -> Book {
        Book::with(
            self.n(),
            self.rows(),
            self.valid().expect("every sound table has a V"),
            (0..REGISTERS).map(|r| self.register(r)).collect(),
            (0..RELATIONS).map(|t| self.relation(t)).collect(),
        )
    }
}
