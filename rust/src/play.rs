//! A whole list of calls, given as records.
use crate::{abi, Refusal};
use std::fmt;

/// The words that an outcome has in the library's list.
const WORDS: usize = 5;

/// The bytes that a record has at least.
const LEAST_RECORD: usize = 4;

/// `kudzuclamp_play`'s own refusals.
const SHORT: u32 = 100;
const UNREADABLE: u32 = 101;

/// What one record returned.
#[derive(Clone, Copy, Debug, PartialEq, Eq)]
pub struct Outcome {
    /// The refusal of its call, where it was refused; the other fields are then 0.
    pub refusal: Option<Refusal>,
    /// The node number of an answered set, else 0.
    pub node: u32,
    /// The rounds of an answered set, else 0.
    pub rounds: u32,
    /// The value that `roomrules` prints: states in the register of an answered set or count, rows of a
    /// collect, else 0.
    pub value: u32,
    /// The peak of an answered relation or set, as in [`Loaded`](crate::Loaded), else 0.
    pub peak: u32,
}

/// A record cannot be read: it is cut short, its length or version is another one, its operation is
/// unknown, or its fixed arguments have another length. Nothing was changed.
#[derive(Clone, Copy, Debug, PartialEq, Eq)]
pub struct Unreadable;

impl fmt::Display for Unreadable {
    fn fmt(&self, f: &mut fmt::Formatter<'_>) -> fmt::Result {
        f.write_str("a record cannot be read")
    }
}

impl std::error::Error for Unreadable {}

/// Plays the calls of all records in order over the words: records as `roomrules` reads them, fresh and
/// count among them.
///
/// # Errors
///
/// [`Unreadable`], before the first call. Calls among the records that are refused are no error: their
/// outcomes say so.
///
/// ```
/// use kudzuclamp::{play, Unreadable};
///
/// let mut words = vec![0; 16_384];
/// let fresh = [0x00, 0x05, 0x01, 0x01, 0x01, 0x00, 0x64];
/// let all = [0x00, 0x0B, 0x01, 0x03, 0x00, 0x00, 0x00, 0x00, 0x03, 0x00, 0x02, 0x01, 0x01];
/// let outcomes = play(&mut words, &[&fresh[..], &all[..]].concat())?;
/// assert_eq!((outcomes[1].refusal, outcomes[1].node, outcomes[1].value), (None, 1, 2));
/// // A constant takes no step.
/// assert_eq!(outcomes[1].peak, 0);
/// assert_eq!(play(&mut words, &fresh[..6]), Err(Unreadable));
/// # Ok::<(), Unreadable>(())
/// ```
pub fn play(words: &mut [u32], records: &[u8]) -> Result<Vec<Outcome>, Unreadable> {
    let mut list = vec![0; records.len() / LEAST_RECORD * WORDS];
    match abi::play(words, records, &mut list) {
        (0, count) => Ok(list.chunks_exact(WORDS).take(count).map(outcome).collect()),
        (UNREADABLE, _) => Err(Unreadable),
        (SHORT, _) => unreachable!("the list has room for as many records as there can be"),
        (number, _) => unreachable!("the library returned {number}, which play has not"),
    }
}

fn outcome(words: &[u32]) -> Outcome {
    Outcome {
        refusal: Refusal::from_number(words[0]),
        node: words[1],
        rounds: words[2],
        value: words[3],
        peak: words[4],
    }
}
