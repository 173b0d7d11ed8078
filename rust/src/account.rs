//! Accounts that share a table.

/// The longest list of accounts.
pub const MAX_ACCOUNTS: usize = 8;

/// An account: limits under which sets are made, and a tally of their rounds.
///
/// Several callers may share a table, each under limits of its own. A list of 1 to 8 accounts is lent
/// to [`Table::fresh`](crate::Table::fresh), which sets the tallies to 0, and to every
/// [`Table::set`](crate::Table::set) and [`Table::force`](crate::Table::force), which name their
/// account by its place in the list. An answered one adds its rounds to its own account's tally and
/// changes nothing else in the list; no refusal changes an account.
/// [`Table::react`](crate::Table::react) names its account too, and only reads the list.
///
/// ```
/// use kudzuclamp::{Account, Formula, Refusal, Refused, Table, Target};
///
/// # fn main() -> Result<(), Refused> {
/// const TABLET: usize = 0;
/// const PHONE: usize = 1;
/// let mut accounts = [Account::unlimited(), Account::limited(2, 1)];
/// let mut table = Table::new(&mut accounts, 2, 100)?;
///
/// let both = Formula::current(0) & Formula::current(1);
/// let full = table.set(&mut accounts, Target::register(0).account(PHONE), &both);
/// assert_eq!(full.unwrap_err(), Refusal::Full);
/// table.set(&mut accounts, Target::register(0).account(TABLET), &both)?;
///
/// // The set above keeps two rows, which count for the phone too.
/// let phone = Target::register(1).account(PHONE);
/// let full = table.set(&mut accounts, phone, Formula::current(0));
/// assert_eq!(full.unwrap_err(), Refusal::Full);
/// // Variables take no step, so this one needs no rows; it takes one round.
/// table.set(&mut accounts, phone, Formula::nu(0, Formula::var(0)))?;
/// assert_eq!((accounts[TABLET].tally, accounts[PHONE].tally), (0, 1));
/// # Ok(())
/// # }
/// ```
#[repr(C)]
#[derive(Clone, Copy, Debug, PartialEq, Eq, Hash)]
pub struct Account {
    /// The most rows that a step may need, where the table's own number is not less. Rows that other
    /// registers and relations keep count too.
    pub rows: u32,
    /// The most rounds of one set, where the set's own limit is not less.
    pub rounds: u32,
    /// The rounds of answered sets since fresh, where each call gets the list as the one before left
    /// it. It stays at 4,294,967,295 once it would pass that.
    pub tally: u32,
}

impl Account {
    /// An account with these limits, its tally at 0.
    ///
    /// ```
    /// let phone = kudzuclamp::Account::limited(50, 4);
    /// assert_eq!((phone.rows, phone.rounds, phone.tally), (50, 4, 0));
    /// ```
    #[must_use]
    pub const fn limited(rows: u32, rounds: u32) -> Account {
        Account {
            rows,
            rounds,
            tally: 0,
        }
    }

    /// An account with the largest limits: those of the table and of each set alone hold.
    #[must_use]
    pub const fn unlimited() -> Account {
        Account::limited(u32::MAX, u32::MAX)
    }
}

#[cfg(test)]
mod tests {
    use super::Account;

    /// As `struct kudzuclamp_account` in include/kudzuclamp.h.
    #[test]
    fn three_words_without_gaps() {
        assert_eq!(std::mem::size_of::<Account>(), 12);
        assert_eq!(std::mem::align_of::<Account>(), 4);
        assert_eq!(std::mem::offset_of!(Account, rows), 0);
        assert_eq!(std::mem::offset_of!(Account, rounds), 4);
        assert_eq!(std::mem::offset_of!(Account, tally), 8);
    }
}
