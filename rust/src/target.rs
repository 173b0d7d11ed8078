//! Where a set goes, and what it may take.

/// Where [`Table::set`](crate::Table::set) and [`Table::force`](crate::Table::force) put a set, and
/// what making it may take: the register, the account by its place in the list, and the most rounds.
///
/// ```
/// use kudzuclamp::Target;
///
/// // Register 3, by the first account, and as many rounds as that allows.
/// let target = Target::register(3);
/// assert_eq!(target, Target { register: 3, account: 0, rounds: u32::MAX });
/// // By the second account, in at most 100 rounds.
/// let target = Target::register(3).account(1).rounds(100);
/// assert_eq!(target, Target { register: 3, account: 1, rounds: 100 });
/// ```
#[must_use]
#[derive(Clone, Copy, Debug, PartialEq, Eq, Hash)]
pub struct Target {
    /// The register, 0 to 31.
    pub register: u32,
    /// The account's place in the list that is lent, counted from 0.
    pub account: usize,
    /// The most rounds: where more are wanted the call is refused with
    /// [`Refusal::Spent`](crate::Refusal::Spent).
    pub rounds: u32,
}

impl Target {
    /// Register r, by the first account of the list, without a limit of rounds but the account's.
    pub const fn register(r: u32) -> Target {
        Target {
            register: r,
            account: 0,
            rounds: u32::MAX,
        }
    }

    /// The same, by the account at this place of the list.
    pub const fn account(self, place: usize) -> Target {
        Target {
            account: place,
            ..self
        }
    }

    /// The same, in at most so many rounds.
    pub const fn rounds(self, most: u32) -> Target {
        Target {
            rounds: most,
            ..self
        }
    }
}
