//! The states of a set, one after the other.
use crate::layout::BITS;
use crate::{abi, Refusal};

/// How many states [`Table::members`](crate::Table::members) answers at once.
pub const MAX_STATES: usize = 1_024;

/// All states of a set, the least first; from [`Table::states`](crate::Table::states).
///
/// States are asked 1,024 at a time, and no more of them once all that the set has are found.
#[derive(Clone, Debug)]
pub struct States<'a> {
    words: &'a [u32],
    r: u32,
    /// Found and not yet given, the greatest first.
    found: Vec<u16>,
    /// The least state that was not asked.
    unasked: u32,
    /// How many states the set has above those that were given.
    left: u32,
}

impl<'a> States<'a> {
    pub(crate) fn new(words: &'a [u32], r: u32) -> Result<States<'a>, Refusal> {
        Ok(States {
            words,
            r,
            found: Vec::new(),
            unasked: 0,
            left: abi::count(words, r)?,
        })
    }

    /// Asks the next states.
    fn ask(&mut self) {
        // The words are a sound table, for count has answered, and nobody can change them meanwhile.
        let end = 1 << self.words[BITS];
        let states: Vec<u16> = (self.unasked..end)
            .take(MAX_STATES)
            .map(|state| state as u16)
            .collect();
        let (mut order, mut answers) = ([0; MAX_STATES], [0; MAX_STATES]);
        abi::members(self.words, self.r, &states, &mut order, &mut answers)
            .expect("count has answered");
        let asked = states.iter().zip(&answers);
        let found = asked.filter(|(_, &answer)| answer == 1);
        self.found.extend(found.map(|(&state, _)| state));
        self.found.reverse();
        self.unasked += states.len() as u32;
    }
}

impl Iterator for States<'_> {
    type Item = u32;

    fn next(&mut self) -> Option<u32> {
        if self.left == 0 {
            return None;
        }
        while self.found.is_empty() {
            self.ask();
        }
        self.left -= 1;
        self.found.pop().map(u32::from)
    }

    fn size_hint(&self) -> (usize, Option<usize>) {
        (self.left as usize, Some(self.left as usize))
    }
}

impl ExactSizeIterator for States<'_> {}

impl std::iter::FusedIterator for States<'_> {}
