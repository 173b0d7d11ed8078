//! Why a call is refused.
use std::error::Error;
use std::fmt;

/// Why a call is refused, with document 01's numbers.
///
/// `Full`, `Spent`, `NoRun`, `Short` and `NoAnswer` keep V, registers, relations and the rows that
/// they need; every other refusal keeps all words. No refusal changes an account or a list of states
/// or relations. Later versions may have more of them.
///
/// ```
/// use kudzuclamp::Refusal;
///
/// assert_eq!(Refusal::Empty.number(), 7);
/// assert_eq!(Refusal::Empty.to_string(), "a register or relation named is empty");
/// ```
#[must_use]
#[non_exhaustive]
#[derive(Clone, Copy, Debug, PartialEq, Eq, Hash, PartialOrd, Ord)]
pub enum Refusal {
    /// 1: fresh was given a number of bits or rows out of range, or too few words; a question for
    /// many states too many of them, or too short a list; or one for a cheapest run not eight prices,
    /// or, directly after 2, too few work words; or two logs have not the same number of entries, 1 to
    /// 1,024.
    Sizes = 1,
    /// 2: the words are no sound table.
    Unsound = 2,
    /// 3: a register, relation or state number is out of range.
    Range = 3,
    /// 4: the bytes are no formula for this call.
    Syntax = 4,
    /// 5: a variable is unbound, or bound inside itself.
    Unbound = 5,
    /// 6: a variable is read below an odd number of NOTs.
    Odd = 6,
    /// 7: a register or relation named is empty.
    Empty = 7,
    /// 8: a step needs more rows than the table has, or than the account may use.
    Full = 8,
    /// 9: the rounds are used up: those of the call, or those of the account.
    Spent = 9,
    /// 10: there is no run from the one set into the other, or none that fits both logs.
    NoRun = 10,
    /// 11: a list is too short for the run.
    Short = 11,
    /// 12: a binder's variable occurs nowhere free in its body. Checked directly after 5.
    Vacuous = 12,
    /// 13: valid was called while a register or relation is filled. Checked directly after 2.
    Occupied = 13,
    /// 14: the list is not 1 to 8 accounts long, or has no account at the place named. Checked
    /// directly after 3, in fresh after 1.
    Unlisted = 14,
    /// 15: the machine has no answer to give: the state is in the goal or outside the set, or the
    /// press is no guest move. Decided after 8 and 9.
    NoAnswer = 15,
}

impl Refusal {
    /// All refusals, in the order of their numbers.
    pub const ALL: &'static [Refusal] = &[
        Refusal::Sizes,
        Refusal::Unsound,
        Refusal::Range,
        Refusal::Syntax,
        Refusal::Unbound,
        Refusal::Odd,
        Refusal::Empty,
        Refusal::Full,
        Refusal::Spent,
        Refusal::NoRun,
        Refusal::Short,
        Refusal::Vacuous,
        Refusal::Occupied,
        Refusal::Unlisted,
        Refusal::NoAnswer,
    ];

    /// The number, 1 to 15.
    #[must_use]
    pub const fn number(self) -> u32 {
        self as u32
    }

    /// The refusal with a number, if there is one.
    ///
    /// ```
    /// use kudzuclamp::Refusal;
    ///
    /// assert_eq!(Refusal::from_number(8), Some(Refusal::Full));
    /// assert_eq!(Refusal::from_number(0), None);
    /// ```
    #[must_use]
    pub fn from_number(number: u32) -> Option<Refusal> {
        Refusal::ALL
            .iter()
            .copied()
            .find(|refusal| refusal.number() == number)
    }
}

impl fmt::Display for Refusal {
    fn fmt(&self, f: &mut fmt::Formatter<'_>) -> fmt::Result {
        f.write_str(match self {
            Refusal::Sizes => {
                "a number of bits, rows, states, prices or entries is out of range, logs are unequal, or there are too few words or places"
            }
            Refusal::Unsound => "the words are no sound table",
            Refusal::Range => "a register, relation or state number is out of range",
            Refusal::Syntax => "the bytes are no formula for this call",
            Refusal::Unbound => "a variable is unbound, or bound inside itself",
            Refusal::Odd => "a variable is read below an odd number of NOTs",
            Refusal::Empty => "a register or relation named is empty",
            Refusal::Full => "a step needs more rows than the table has or the account may use",
            Refusal::Spent => "the rounds are used up",
            Refusal::NoRun => "there is no such run",
            Refusal::Short => "a list is too short for the run",
            Refusal::Vacuous => "a binder's variable occurs nowhere free in its body",
            Refusal::Occupied => "a register or relation is filled",
            Refusal::Unlisted => {
                "the list is not 1 to 8 accounts long, or has no account at that place"
            }
            Refusal::NoAnswer => {
                "the state is in the goal or outside the set, or the press is no guest move"
            }
        })
    }
}

impl Error for Refusal {}

#[cfg(test)]
mod tests {
    use super::Refusal;

    #[test]
    fn numbers_are_those_of_the_header() {
        let numbers: Vec<u32> = Refusal::ALL
            .iter()
            .map(|refusal| refusal.number())
            .collect();
        assert_eq!(numbers, (1..=15).collect::<Vec<u32>>());
        for number in 0..20 {
            let refusal = Refusal::from_number(number);
            assert_eq!(refusal.is_some(), numbers.contains(&number));
            assert!(refusal.is_none_or(|refusal| refusal.number() == number));
        }
    }

    #[test]
    fn texts_differ() {
        let texts: std::collections::HashSet<String> =
            Refusal::ALL.iter().map(Refusal::to_string).collect();
        assert_eq!(texts.len(), Refusal::ALL.len());
    }
}
