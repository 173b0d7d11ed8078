//! Many states asked at once, and the row reads, over a reduced diagram of its
//! own.
//!
//! Slip 10: "The result carries the row reads: the number of distinct pairs of a
//! row and the bit answers that led to it, over the listed states."

use crate::states::{bit_of, state_count, StateSet};
use std::collections::{HashMap, HashSet};

/// "The bar unit stores up to 1,024 states".
pub const MAX_STATES: usize = 1_024;

/// What an answered question returns and writes: "one byte each, 0 or 1".
#[derive(Clone, Debug, PartialEq, Eq)]
pub struct Members {
    pub answers: Vec<u8>,
    pub reads: usize,
}

/// Slip 12: "An arrow may now carry a NOT, the high arrow of a row never does,
/// and one constant is left", nothing.
#[derive(Clone, Copy, Debug, PartialEq, Eq, Hash)]
struct Arrow {
    row: Option<usize>,
    not: bool,
}

/// A row asks one bit, and has an arrow for either answer.
#[derive(Clone, Copy, Debug, PartialEq, Eq, Hash)]
struct Row {
    bit: u32,
    low: Arrow,
    high: Arrow,
}

/// The reduced diagram of a set, bit 0 asked first: "low and high differ, and no
/// two used rows agree in all three".
#[derive(Clone, Debug)]
pub struct Diagram {
    rows: Vec<Row>,
    numbers: HashMap<Row, usize>,
    root: Arrow,
}

impl Diagram {
    pub fn new(set: &StateSet) -> Diagram {
        let nothing = Arrow {
            row: None,
            not: false,
        };
        let mut diagram = Diagram {
            rows: Vec::new(),
            numbers: HashMap::new(),
            root: nothing,
        };
        let members = (0..state_count(set.n())).map(|s| set.contains(s)).collect();
        diagram.root = diagram.arrow(0, members);
        diagram
    }

    /// The arrow to a function of the bits from `bit` on; bit `bit` has weight 1
    /// in the index of its values.
    fn arrow(&mut self, bit: u32, values: Vec<bool>) -> Arrow {
        if !values.contains(&!values[0]) {
            return Arrow {
                row: None,
                not: values[0],
            };
        }
        let half = |odd: usize| values.iter().skip(odd).step_by(2).copied().collect();
        let low = self.arrow(bit + 1, half(0));
        let high = self.arrow(bit + 1, half(1));
        if low == high {
            return low;
        }
        // A NOT of the high arrow is moved to the low one and to the arrow to the row.
        let moved = |arrow: Arrow| Arrow {
            not: arrow.not != high.not,
            ..arrow
        };
        let row = Row {
            bit,
            low: moved(low),
            high: moved(high),
        };
        let next = self.rows.len();
        let number = *self.numbers.entry(row).or_insert(next);
        if number == next {
            self.rows.push(row);
        }
        Arrow {
            row: Some(number),
            not: high.not,
        }
    }

    pub fn rows(&self) -> usize {
        self.rows.len()
    }

    /// Whether the set has the state, and the pairs of a row and the bit answers
    /// that led to it.
    pub fn ask(&self, state: usize) -> (bool, Vec<(usize, Vec<bool>)>) {
        let (mut at, mut answers, mut pairs) = (self.root, Vec::new(), Vec::new());
        while let Some(number) = at.row {
            pairs.push((number, answers.clone()));
            let row = self.rows[number];
            let answer = bit_of(state, row.bit);
            let arrow = if answer { row.high } else { row.low };
            at = Arrow {
                not: arrow.not != at.not,
                ..arrow
            };
            answers.push(answer);
        }
        (at.not, pairs)
    }
}

/// The answers for the states of a set, in their order, and the row reads.
pub fn members(set: &StateSet, states: &[usize]) -> Members {
    let diagram = Diagram::new(set);
    let mut pairs = HashSet::new();
    let mut answers = Vec::new();
    for &state in states {
        let (member, read) = diagram.ask(state);
        assert_eq!(member, set.contains(state), "state {state}");
        answers.push(member.into());
        pairs.extend(read);
    }
    Members {
        answers,
        reads: pairs.len(),
    }
}
