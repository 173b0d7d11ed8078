//! Formula reader with checks 4 to 7, and Slip 5's 12 after 5.

use crate::refusal::Refusal;

/// "depth above 64 gives 4".
pub const MAX_DEPTH: u32 = 64;
/// "Two length bytes L, big-endian, from 2 to 1,024".
pub const MIN_LENGTH: usize = 2;
pub const MAX_LENGTH: usize = 1024;
pub const VERSION: u8 = 1;
/// Slip 1: "Version 2 formulas, for set calls".
pub const RUNS_VERSION: u8 = 2;

#[derive(Clone, Copy, Debug, PartialEq, Eq)]
pub enum Modality {
    Box,
    Diamond,
}

#[derive(Clone, Copy, Debug, PartialEq, Eq)]
pub enum Fixpoint {
    Mu,
    Nu,
}

#[derive(Clone, Debug, PartialEq, Eq)]
pub enum Formula {
    Constant(bool),
    Not(Box<Formula>),
    And(Box<Formula>, Box<Formula>),
    Or(Box<Formula>, Box<Formula>),
    NowBit(u32),
    NextBit(u32),
    Variable(u8),
    Register(usize),
    Modal(Modality, usize, Box<Formula>),
    Binder(Fixpoint, u8, Box<Formula>),
    /// Slip 1: f until g, on some run of a relation (diamond) or on every one (box).
    Until(Modality, usize, Box<Formula>, Box<Formula>),
}

/// The call that the formula is for.
#[derive(Clone, Copy, Debug, PartialEq, Eq)]
pub enum Kind {
    Relation,
    Set,
    /// Slip 6: "A new call valid".
    Valid,
}

/// Puts the length bytes and version 1 in front of formula bytes.
pub fn frame(body: &[u8]) -> Vec<u8> {
    frame_as(VERSION, body)
}

/// Puts the length bytes and a version in front of formula bytes.
pub fn frame_as(version: u8, body: &[u8]) -> Vec<u8> {
    let length = (body.len() + 1) as u16;
    let mut bytes = length.to_be_bytes().to_vec();
    bytes.push(version);
    bytes.extend_from_slice(body);
    bytes
}

/// Checks 4, 5, 12, 6 and 7, "each over the whole formula", in this order.
pub fn check(
    n: u32,
    kind: Kind,
    bytes: &[u8],
    register_filled: impl Fn(usize) -> bool,
    relation_filled: impl Fn(usize) -> bool,
) -> Result<Formula, Refusal> {
    let formula = read(n, kind, bytes).ok_or(Refusal::NotAFormula)?;
    if !scopes_hold(&formula, &mut Vec::new()) {
        return Err(Refusal::BadScope);
    }
    if any_binds_nothing(&formula) {
        return Err(Refusal::BindsNothing);
    }
    if any_read_odd(&formula) {
        return Err(Refusal::ReadOdd);
    }
    if names_empty(&formula, &register_filled, &relation_filled) {
        return Err(Refusal::Empty);
    }
    Ok(formula)
}

/// Check 4. None where the bytes are not a formula for this call.
pub fn read(n: u32, kind: Kind, bytes: &[u8]) -> Option<Formula> {
    let (length, rest) = bytes.split_first_chunk::<2>()?;
    let length = usize::from(u16::from_be_bytes(*length));
    // "The slice is exactly 2 + L long."
    if !(MIN_LENGTH..=MAX_LENGTH).contains(&length) || rest.len() != length {
        return None;
    }
    // "then L bytes: version 1, then one formula in prefix order, filling them".
    let (&version, body) = rest.split_first()?;
    let runs = match (version, kind) {
        (VERSION, _) => false,
        (RUNS_VERSION, Kind::Set) => true,
        _ => return None,
    };
    let mut reader = Reader {
        n,
        kind,
        runs,
        rest: body,
    };
    let formula = reader.formula(1)?;
    reader.rest.is_empty().then_some(formula)
}

struct Reader<'a> {
    n: u32,
    kind: Kind,
    /// "Version 1 keeps its words."
    runs: bool,
    rest: &'a [u8],
}

impl Reader<'_> {
    /// Reads one formula whose first token is `depth` tokens deep.
    fn formula(&mut self, depth: u32) -> Option<Formula> {
        let byte = self.token()?;
        if depth > MAX_DEPTH || !self.allowed(byte) {
            return None;
        }
        let low = byte & 0x0F;
        Some(match byte {
            0x00 => Formula::Constant(false),
            0x01 => Formula::Constant(true),
            0x02 => Formula::Not(self.part(depth)?),
            0x03 => Formula::And(self.part(depth)?, self.part(depth)?),
            0x04 => Formula::Or(self.part(depth)?, self.part(depth)?),
            0x10..=0x1F => Formula::NowBit(self.bit(low)?),
            0x20..=0x2F => Formula::NextBit(self.bit(low)?),
            0x30..=0x3F => Formula::Variable(low),
            0x40..=0x5F => Formula::Register(usize::from(byte - 0x40)),
            0x60..=0x67 => self.modal(Modality::Box, byte - 0x60, depth)?,
            0x68..=0x6F => self.modal(Modality::Diamond, byte - 0x68, depth)?,
            0x70..=0x7F => Formula::Binder(Fixpoint::Mu, low, self.part(depth)?),
            0x80..=0x8F => Formula::Binder(Fixpoint::Nu, low, self.part(depth)?),
            0x90..=0x97 if self.runs => self.until(Modality::Diamond, byte - 0x90, depth)?,
            0x98..=0x9F if self.runs => self.until(Modality::Box, byte - 0x98, depth)?,
            _ => return None,
        })
    }

    fn token(&mut self) -> Option<u8> {
        let (&byte, rest) = self.rest.split_first()?;
        self.rest = rest;
        Some(byte)
    }

    /// "Relation calls take only 00 to 04 and 10 to 2F"; "next bit p, p < n;
    /// relation calls only".
    fn allowed(&self, byte: u8) -> bool {
        match self.kind {
            Kind::Relation => matches!(byte, 0x00..=0x04 | 0x10..=0x2F),
            Kind::Set => !matches!(byte, 0x20..=0x2F),
            // Slip 6: "a formula of 00 to 04 and 10 to 1F".
            Kind::Valid => matches!(byte, 0x00..=0x04 | 0x10..=0x1F),
        }
    }

    fn part(&mut self, depth: u32) -> Option<Box<Formula>> {
        self.formula(depth + 1).map(Box::new)
    }

    fn bit(&self, p: u8) -> Option<u32> {
        let p = u32::from(p);
        (p < self.n).then_some(p)
    }

    fn modal(&mut self, modality: Modality, t: u8, depth: u32) -> Option<Formula> {
        Some(Formula::Modal(modality, usize::from(t), self.part(depth)?))
    }

    fn until(&mut self, modality: Modality, t: u8, depth: u32) -> Option<Formula> {
        let (f, g) = (self.part(depth)?, self.part(depth)?);
        Some(Formula::Until(modality, usize::from(t), f, g))
    }
}

impl Formula {
    /// The formula's direct parts, left before right.
    pub fn parts(&self) -> Vec<&Formula> {
        match self {
            Formula::Not(f) | Formula::Modal(_, _, f) | Formula::Binder(_, _, f) => vec![f],
            Formula::And(f, g) | Formula::Or(f, g) | Formula::Until(_, _, f, g) => vec![f, g],
            _ => Vec::new(),
        }
    }
}

/// Check 5: every variable is inside a binder of it, and no binder is "inside
/// a binder of the same P".
fn scopes_hold(formula: &Formula, bound: &mut Vec<u8>) -> bool {
    match formula {
        Formula::Variable(p) => bound.contains(p),
        Formula::Binder(_, p, body) => {
            if bound.contains(p) {
                return false;
            }
            bound.push(*p);
            let hold = scopes_hold(body, bound);
            bound.pop();
            hold
        }
        _ => formula.parts().into_iter().all(|f| scopes_hold(f, bound)),
    }
}

/// Slip 5, check 12, made for each binder: its "variable occurs nowhere free in
/// its body".
fn any_binds_nothing(formula: &Formula) -> bool {
    let here = match formula {
        Formula::Binder(_, p, body) => !occurs_free(body, *p),
        _ => false,
    };
    here || formula.parts().into_iter().any(any_binds_nothing)
}

/// Whether the variable stands in the formula outside every binder of it.
fn occurs_free(formula: &Formula, p: u8) -> bool {
    match formula {
        Formula::Variable(q) => *q == p,
        Formula::Binder(_, q, _) if *q == p => false,
        _ => formula.parts().into_iter().any(|f| occurs_free(f, p)),
    }
}

/// Check 6, made for each binder: "below its binder P is read even".
fn any_read_odd(formula: &Formula) -> bool {
    let here = match formula {
        Formula::Binder(_, p, body) => reads_odd(body, *p, false),
        _ => false,
    };
    here || formula.parts().into_iter().any(any_read_odd)
}

/// "each NOT turns an even reading odd and an odd one even".
fn reads_odd(formula: &Formula, p: u8, odd: bool) -> bool {
    match formula {
        Formula::Variable(q) => *q == p && odd,
        Formula::Not(f) => reads_odd(f, p, !odd),
        _ => formula.parts().into_iter().any(|f| reads_odd(f, p, odd)),
    }
}

/// Check 7: "register or relation named is empty".
fn names_empty(
    formula: &Formula,
    register_filled: &impl Fn(usize) -> bool,
    relation_filled: &impl Fn(usize) -> bool,
) -> bool {
    let here = match formula {
        Formula::Register(r) => !register_filled(*r),
        Formula::Modal(_, t, _) | Formula::Until(_, t, ..) => !relation_filled(*t),
        _ => false,
    };
    here || (formula.parts().into_iter()).any(|f| names_empty(f, register_filled, relation_filled))
}
