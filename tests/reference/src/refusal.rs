//! Refusal numbers.

/// The table "Cause | No." of document 01; the discriminant is the number.
#[derive(Clone, Copy, Debug, PartialEq, Eq, PartialOrd, Ord, Hash)]
pub enum Refusal {
    /// "fresh: n, N or slice length"; Slip 10: "More than 1,024 states, or an
    /// answer or order list shorter than the states"
    BadSizes = 1,
    /// "table unsound"
    Unsound = 2,
    /// "register, relation or state number out of range"
    OutOfRange = 3,
    /// "bytes not a formula for this call"
    NotAFormula = 4,
    /// "variable unbound, or bound inside itself"
    BadScope = 5,
    /// "variable read odd"
    ReadOdd = 6,
    /// "register or relation named is empty"
    Empty = 7,
    /// "step needs more than N rows"
    Full = 8,
    /// "rounds used up"
    RoundsUsedUp = 9,
    /// Slip 3: "no run exists"
    NoRun = 10,
    /// Slip 3: "the list is too short for the run"
    ListTooShort = 11,
    /// Slip 5: "a binder's variable occurs nowhere free in its body"
    BindsNothing = 12,
    /// Slip 6: "valid while a register or relation is filled"
    Occupied = 13,
    /// Slip 7: "the list is not 1 to 8 long or has no account at that place"
    NoAccount = 14,
    /// Slip 8: "the state is in the goal or outside the set, or the press is no
    /// guest move"
    NoAnswer = 15,
}

impl Refusal {
    pub fn number(self) -> u8 {
        self as u8
    }
}
