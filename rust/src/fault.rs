//! What is wrong with a formula, and where.
use crate::Refusal;
use std::fmt;

/// What is wrong with a formula, and where: of a call's refusals, those that speak of its formula.
///
/// ```
/// use kudzuclamp::{Account, FaultKind, Formula, Table};
///
/// let table = Table::new(&mut [Account::unlimited()], 3, 100).unwrap();
/// let refused = table.check_set(Formula::current(0) & Formula::register(99)).unwrap_err();
/// let fault = refused.fault().unwrap();
/// assert_eq!((fault.at, fault.kind), (5, FaultKind::NoRegister(99)));
/// assert_eq!(fault.to_string(), "byte 5: there is no register 99: they are 0 to 31");
/// ```
#[derive(Clone, Copy, Debug, PartialEq, Eq, Hash)]
pub struct Fault {
    /// The place: a byte of the framed formula, counted from 0. Bytes 0 and 1 are the length, byte 2
    /// is the version, and the formula itself begins at byte 3.
    pub at: usize,
    /// What is wrong there.
    pub kind: FaultKind,
}

/// The kinds of [`Fault`]. Later versions may have more of them.
///
/// ```
/// use kudzuclamp::{FaultKind, Refusal};
///
/// assert_eq!(FaultKind::NextBit(2).refusal(), Refusal::Syntax);
/// assert_eq!(FaultKind::Odd(0).refusal(), Refusal::Odd);
/// ```
#[non_exhaustive]
#[derive(Clone, Copy, Debug, PartialEq, Eq, Hash)]
pub enum FaultKind {
    /// 4: the table has so many bits, and this is none of them.
    NoBit {
        /// The bit that is named.
        bit: u32,
        /// How many there are: the table's n, or 16 where no table has the bit.
        bits: u32,
    },
    /// 4: there is no variable with this number.
    NoVariable(u32),
    /// 4: there is no register with this number.
    NoRegister(u32),
    /// 4: there is no relation with this number.
    NoRelation(u32),
    /// 4: a next bit stands in the formula of a set, or of the states that exist.
    NextBit(u32),
    /// 4: a relation's formula has a word that only sets take.
    NotInRelation,
    /// 4: the formula of the states that exist has a word that only sets take.
    NotInValid,
    /// 4: until is a word of version 2, and the version is 1.
    UntilInVersion1,
    /// 4: no word has this byte.
    NoWord(u8),
    /// 4: the formula is more than 64 deep here.
    TooDeep,
    /// 4: the formula has so many bytes, and at most 1,023 are taken.
    TooLong(usize),
    /// 4: the length bytes say another number than follows them, or less than 2.
    Length {
        /// What the two bytes say.
        said: usize,
        /// How many bytes follow them.
        follow: usize,
    },
    /// 4: the version is not one that the call takes.
    Version(u8),
    /// 4: the bytes end before the formula is complete.
    Incomplete,
    /// 4: the formula is complete before this byte.
    Complete,
    /// 5: a variable is read and not bound.
    Unbound(u32),
    /// 5: a variable is bound inside its own binder.
    BoundTwice(u32),
    /// 12: the binder's variable occurs nowhere in its body.
    Vacuous(u32),
    /// 6: a variable is read below an odd number of NOTs, counted from its binder.
    Odd(u32),
    /// 7: the register is empty.
    EmptyRegister(u32),
    /// 7: the relation is empty.
    EmptyRelation(u32),
}

impl FaultKind {
    /// The refusal that a call gives for it.
    pub const fn refusal(self) -> Refusal {
        match self {
            FaultKind::Unbound(_) | FaultKind::BoundTwice(_) => Refusal::Unbound,
            FaultKind::Vacuous(_) => Refusal::Vacuous,
            FaultKind::Odd(_) => Refusal::Odd,
            FaultKind::EmptyRegister(_) | FaultKind::EmptyRelation(_) => Refusal::Empty,
            _ => Refusal::Syntax,
        }
    }

    /// The text of a kind that has no number.
    const fn fixed_text(self) -> &'static str {
        match self {
            FaultKind::NotInRelation => "a relation has only constants, NOT, AND, OR and bits",
            FaultKind::NotInValid => {
                "the states that exist are told by constants, NOT, AND, OR and bits"
            }
            FaultKind::UntilInVersion1 => "until is a word of version 2, and the version is 1",
            FaultKind::TooDeep => "the formula is more than 64 deep here",
            FaultKind::Incomplete => "the bytes end, and the formula is not complete",
            _ => "the formula is complete before this byte",
        }
    }
}

impl fmt::Display for FaultKind {
    fn fmt(&self, f: &mut fmt::Formatter<'_>) -> fmt::Result {
        match self {
            FaultKind::NoBit { bit, bits: 1 } => write!(f, "there is no bit {bit}: bit 0 is all"),
            FaultKind::NoBit { bit, bits } => {
                let last = bits.saturating_sub(1);
                write!(f, "there is no bit {bit}: they are 0 to {last}")
            }
            FaultKind::NoVariable(p) => write!(f, "there is no variable {p}: they are 0 to 15"),
            FaultKind::NoRegister(r) => write!(f, "there is no register {r}: they are 0 to 31"),
            FaultKind::NoRelation(t) => write!(f, "there is no relation {t}: they are 0 to 7"),
            FaultKind::NextBit(p) => write!(f, "next bit {p}: only relations have next bits"),
            FaultKind::NoWord(byte) => write!(f, "no word has the byte {byte:02X}"),
            FaultKind::TooLong(bytes) => {
                write!(
                    f,
                    "the formula has {bytes} bytes, and at most 1,023 are taken"
                )
            }
            FaultKind::Length { said, follow } => {
                write!(
                    f,
                    "the length is {said}, 2 at least, and {follow} bytes follow"
                )
            }
            FaultKind::Version(version) => write!(f, "version {version} is not taken here"),
            FaultKind::Unbound(p) => write!(f, "variable {p} is not bound"),
            FaultKind::BoundTwice(p) => write!(f, "variable {p} is bound inside its own binder"),
            FaultKind::Vacuous(p) => {
                write!(f, "variable {p} is bound, and its body does not mention it")
            }
            FaultKind::Odd(p) => write!(f, "variable {p} is read below an odd number of NOTs"),
            FaultKind::EmptyRegister(r) => write!(f, "register {r} is empty"),
            FaultKind::EmptyRelation(t) => write!(f, "relation {t} is empty"),
            _ => f.write_str(self.fixed_text()),
        }
    }
}

impl fmt::Display for Fault {
    fn fmt(&self, f: &mut fmt::Formatter<'_>) -> fmt::Result {
        write!(f, "byte {}: {}", self.at, self.kind)
    }
}

impl std::error::Error for Fault {}
