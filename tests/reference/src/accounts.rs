//! Slip 7: accounts that share the table. Quotations in this module are
//! sentences of document 02.

use crate::evaluate::Limits;
use crate::refusal::Refusal;

/// "a list of 1 to 8 accounts".
pub const MAX_ACCOUNTS: usize = 8;

/// "each with a row limit, a round limit and a tally".
#[derive(Clone, Copy, Debug, PartialEq, Eq)]
pub struct Account {
    pub rows: u32,
    pub rounds: u32,
    pub tally: u32,
}

impl Account {
    /// "one account with the largest limits".
    pub const LARGEST: Account = Account::new(u32::MAX, u32::MAX);

    pub const fn new(rows: u32, rounds: u32) -> Account {
        Account {
            rows,
            rounds,
            tally: 0,
        }
    }

    /// "Both limits hold: the smaller of N and the account's row limit, the
    /// smaller of R and its round limit."
    pub fn limits(&self, rows: usize, rounds: u32) -> Limits {
        Limits {
            rows: rows.min(self.rows as usize),
            rounds: rounds.min(self.rounds),
        }
    }

    /// "an answered set adds its rounds to its own account's tally, up to the
    /// old ceiling": "staying at 4,294,967,295 once it would pass that".
    pub fn charge(&mut self, rounds: u32) {
        self.tally = self.tally.saturating_add(rounds);
    }
}

/// 14, "the list is not 1 to 8 long".
pub fn check_list(accounts: &[Account]) -> Result<(), Refusal> {
    match (1..=MAX_ACCOUNTS).contains(&accounts.len()) {
        true => Ok(()),
        false => Err(Refusal::NoAccount),
    }
}

/// 14, the list is not 1 to 8 long "or has no account at that place". The place
/// of the account.
pub fn check_place(accounts: &[Account], place: u64) -> Result<usize, Refusal> {
    check_list(accounts)?;
    match place < accounts.len() as u64 {
        true => Ok(place as usize),
        false => Err(Refusal::NoAccount),
    }
}
