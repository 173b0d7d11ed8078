//! The error of calls that take a formula.
use crate::{Fault, Refusal};
use std::error::Error;
use std::fmt;

/// Why a call that takes a formula is refused: the refusal, and what is wrong with the formula where
/// it is the formula's fault.
///
/// It equals a [`Refusal`] exactly where it has that one, and either becomes the other by `?`.
///
/// ```
/// use kudzuclamp::{Account, Formula, Refusal, Refused, Table};
///
/// # fn main() -> Result<(), Refused> {
/// let mut table = Table::new(&mut [Account::unlimited()], 2, 100)?;
/// let refused = table.relation(0, Formula::next(0) & Formula::current(2)).unwrap_err();
/// assert_eq!(refused, Refusal::Syntax);
/// assert_eq!(refused.to_string(), "in the formula, byte 5: there is no bit 2: they are 0 to 1");
/// // Not the formula's fault.
/// let refused = table.relation(8, Formula::next(0)).unwrap_err();
/// assert_eq!((refused.refusal(), refused.fault()), (Refusal::Range, None));
/// assert_eq!(refused.to_string(), "a register, relation or state number is out of range");
/// # Ok(())
/// # }
/// ```
#[derive(Clone, Copy, Debug, PartialEq, Eq, Hash)]
pub struct Refused {
    refusal: Refusal,
    fault: Option<Fault>,
}

impl Refused {
    pub(crate) fn new(refusal: Refusal, fault: Option<Fault>) -> Refused {
        Refused { refusal, fault }
    }

    /// The refusal that the library gave.
    pub const fn refusal(self) -> Refusal {
        self.refusal
    }

    /// What is wrong with the formula, and where; there is one where the refusal is
    /// [`Refusal::Syntax`], [`Refusal::Unbound`], [`Refusal::Vacuous`], [`Refusal::Odd`] or
    /// [`Refusal::Empty`].
    #[must_use]
    pub const fn fault(self) -> Option<Fault> {
        self.fault
    }
}

impl fmt::Display for Refused {
    fn fmt(&self, f: &mut fmt::Formatter<'_>) -> fmt::Result {
        match self.fault {
            Some(fault) => write!(f, "in the formula, {fault}"),
            None => self.refusal.fmt(f),
        }
    }
}

impl Error for Refused {
    /// The refusal, where the fault is what the text says.
    fn source(&self) -> Option<&(dyn Error + 'static)> {
        self.fault.is_some().then_some(&self.refusal as _)
    }
}

impl From<Refusal> for Refused {
    fn from(refusal: Refusal) -> Refused {
        Refused::new(refusal, None)
    }
}

impl From<Refused> for Refusal {
    fn from(refused: Refused) -> Refusal {
        refused.refusal
    }
}

impl PartialEq<Refusal> for Refused {
    fn eq(&self, refusal: &Refusal) -> bool {
        self.refusal == *refusal
    }
}
