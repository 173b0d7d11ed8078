//! Rows needed, by enumerating functions.
//!
//! "Rows needed by some sets or relations: the distinct non-constant functions
//! got from them by fixing levels 0 to k − 1, in all ways, for every k", and "two
//! functions that are each other's complement need one row."

use crate::states::{PairSet, StateSet};
use std::collections::HashSet;

/// A function of levels. Two functions are the same when they depend on the
/// same levels and agree there; `levels` therefore lists only levels on which
/// the function depends. In `table`, the first level is the weightiest bit.
#[derive(Clone, Debug, PartialEq, Eq, Hash)]
struct Function {
    levels: Vec<u32>,
    table: Vec<bool>,
}

impl Function {
    fn new(levels: &[u32], table: &[bool]) -> Self {
        let mut function = Function {
            levels: levels.to_vec(),
            table: table.to_vec(),
        };
        for position in (0..levels.len()).rev() {
            function.drop_if_idle(position);
        }
        function
    }

    /// Removes the level at `position` when the function ignores it.
    fn drop_if_idle(&mut self, position: usize) {
        let stride = 1 << (self.levels.len() - 1 - position);
        let mut chunks = self.table.chunks(2 * stride);
        if chunks.any(|chunk| chunk[..stride] != chunk[stride..]) {
            return;
        }
        let halves = self.table.chunks(2 * stride).map(|c| &c[..stride]);
        self.table = halves.flatten().copied().collect();
        self.levels.remove(position);
    }

    /// The function or its complement, whichever is false at the first entry.
    fn or_complement(mut self) -> Self {
        if self.table[0] {
            self.table.iter_mut().for_each(|value| *value = !*value);
        }
        self
    }
}

/// The functions that need a row, one for each and its complement.
#[derive(Clone, Debug, Default)]
pub struct Rows {
    functions: HashSet<Function>,
}

impl Rows {
    pub fn new() -> Self {
        Self::default()
    }

    /// Rows of a set of states: "Current bit p is at level 2p".
    pub fn add_set(&mut self, set: &StateSet) {
        let levels: Vec<u32> = (0..set.n()).map(|p| 2 * p).collect();
        let table = tabulate(&levels, |now, _| set.contains(now));
        self.add_cofactors(&levels, &table);
    }

    /// Rows of a relation: "next bit p at level 2p + 1".
    pub fn add_relation(&mut self, relation: &PairSet) {
        let levels: Vec<u32> = (0..2 * relation.n()).collect();
        let table = tabulate(&levels, |now, next| relation.contains(now, next));
        self.add_cofactors(&levels, &table);
    }

    /// Fixing the first `fixed` levels in all ways cuts the table into blocks,
    /// one for each way; those with one value only are constant. Fixing a level
    /// that is not listed changes nothing.
    fn add_cofactors(&mut self, levels: &[u32], table: &[bool]) {
        for fixed in 0..=levels.len() {
            for block in table.chunks(table.len() >> fixed) {
                if block.contains(&!block[0]) {
                    self.add_function(Function::new(&levels[fixed..], block));
                }
            }
        }
    }

    /// Adds a function that is not constant.
    fn add_function(&mut self, function: Function) {
        self.functions.insert(function.or_complement());
    }

    pub fn count(&self) -> usize {
        self.functions.len()
    }

    /// Rows of the union of both.
    pub fn count_with(&self, other: &Rows) -> usize {
        self.functions.union(&other.functions).count()
    }
}

/// The value at each assignment of `levels`, the first level weightiest.
fn tabulate(levels: &[u32], value: impl Fn(usize, usize) -> bool) -> Vec<bool> {
    (0..1usize << levels.len())
        .map(|index| {
            let (now, next) = point(levels, index);
            value(now, next)
        })
        .collect()
}

/// The states now and next of an assignment of `levels`.
fn point(levels: &[u32], index: usize) -> (usize, usize) {
    let (mut now, mut next) = (0, 0);
    for (position, level) in levels.iter().enumerate() {
        let bit = index >> (levels.len() - 1 - position) & 1;
        let state = if level % 2 == 0 { &mut now } else { &mut next };
        *state |= bit << (level / 2);
    }
    (now, next)
}
