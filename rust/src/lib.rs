//! A table of decision-diagram rows and a mu-calculus evaluator over it, for rooms of up to 16
//! state bits: a safe wrapper of a static library whose functions are proved to meet their
//! contracts.
//!
//! A room of two bits: bit 0 is "microphone open", bit 1 is "echo on". Pressing the button opens
//! the microphone, and turns the echo on only while the microphone is open.
//!
//! ```
//! use kudzuclamp::{Account, Formula, Refused, Table, Target};
//!
//! # fn main() -> Result<(), Refused> {
//! let (open, echo) = (Formula::current(0), Formula::current(1));
//! let (next_open, next_echo) = (Formula::next(0), Formula::next(1));
//! let mut accounts = [Account::unlimited()];
//! let mut room = Table::new(&mut accounts, 2, 100)?;
//! // Next: the microphone is open, and the echo is on exactly if the microphone is open now.
//! room.relation(0, next_open & next_echo.iff(&open))?;
//!
//! // Register 0: the states from which presses lead to both at once.
//! let howl = &open & &echo;
//! let reach = Formula::mu(0, howl | Formula::diamond(0, Formula::var(0)));
//! room.set(&mut accounts, Target::register(0), reach)?;
//! assert_eq!(room.count(0)?, 4);
//! assert_eq!(room.states(0)?.collect::<Vec<u32>>(), [0, 1, 2, 3]);
//!
//! // Register 1: the states from which they never do.
//! room.set(&mut accounts, Target::register(1), !Formula::register(0))?;
//! assert_eq!(room.node(1)?, 0);
//! assert!(!room.member(1, 0)?);
//! # Ok(())
//! # }
//! ```
//!
//! Callers may share a table under limits of their own: see [`Account`]. Relations and sets return
//! how many rows they needed at most, to choose a table's size by: see [`Loaded`].
//!
//! Many states are asked at once by [`Table::members`]; [`Table::states`] gives all that a set has,
//! [`Table::pick`] one of them, and [`Table::to_dot`] draws its rows. [`Table::shortest`] tells by
//! which states a relation leads from one set into another, [`Table::cheapest`] by which presses of
//! several relations it costs least. [`Table::force`] tells from where the machine can force a goal
//! whatever a guest presses, and a [`Strategy`] answers the presses. [`Table::logged`] tells whether
//! two logs of one evening can both be right, and by which states.
//!
//! [`Names`] has names for the bits: formulas are read from text and written as text with them. What
//! is wrong with a formula is told with its place: see [`Fault`] and [`ParseError`].
//!
//! The static library is made by `rt lib` in crates/exports; [`PROVED`] tells whether the one that
//! is linked was.
#![deny(missing_docs, unsafe_code)]

#[allow(unsafe_code)]
mod abi;
mod account;
mod check;
mod display;
mod dot;
mod entry;
mod fault;
mod formula;
mod game;
mod layout;
mod least;
mod names;
mod parse;
mod play;
mod refusal;
mod refused;
mod states;
mod table;
mod target;
mod token;

pub use account::{Account, MAX_ACCOUNTS};
pub use entry::{Entry, MAX_ENTRIES};
pub use fault::{Fault, FaultKind};
pub use formula::{AsFormula, Formula};
pub use game::{Game, Strategy};
pub use names::{NameError, Names};
pub use parse::{ParseError, ParseErrorKind};
pub use play::{play, Outcome, Unreadable};
pub use refusal::Refusal;
pub use refused::Refused;
pub use states::{States, MAX_STATES};
pub use table::{
    words_for, Fare, Loaded, Run, Stored, Table, MAX_BITS, MAX_ROWS, REGISTERS, RELATIONS,
};
pub use target::Target;

/// Whether the linked library is one that `rt lib` made, which checks all proofs first. It is
/// false for a quick build (`bench/unproved`), which looks at no proof.
pub const PROVED: bool = cfg!(kudzuclamp_proved);
