//! Finds what is wrong with a formula that the library has refused: the place and the kind.
use crate::layout::{self, BITS, FIRST_REGISTER, FIRST_RELATION};
use crate::token::{self, FRAME, MAX_DEPTH, MAX_LENGTH};
use crate::{AsFormula, Fault, FaultKind, Refusal, Refused};

/// The calls that take a formula.
#[derive(Clone, Copy, PartialEq, Eq)]
pub enum Call {
    Relation,
    Set,
    Valid,
}

/// The refusal of a call on a sound table, with what is wrong with its formula.
pub fn refused(words: &[u32], call: Call, formula: &impl AsFormula, refusal: Refusal) -> Refused {
    let bytes = formula.framed();
    let n = words.get(BITS).copied().unwrap_or(0);
    let fault = match refusal {
        Refusal::Syntax => syntax(n, call, formula),
        Refusal::Unbound | Refusal::Vacuous | Refusal::Odd => variables(bytes, refusal),
        Refusal::Empty => empty(words, bytes),
        _ => None,
    };
    Refused::new(refusal, fault)
}

fn fault(at: usize, kind: FaultKind) -> Fault {
    Fault { at, kind }
}

/// Why the bytes are no formula of n bits for the call. Where a number has no byte, it is told.
fn syntax(n: u32, call: Call, formula: &impl AsFormula) -> Option<Fault> {
    let bytes = formula.framed();
    let found = (Reader { bytes, n, call }).whole().err()?;
    let missing = formula.missing().filter(|missing| missing.at == found.at);
    missing.or(Some(found))
}

struct Reader<'a> {
    bytes: &'a [u8],
    n: u32,
    call: Call,
}

impl Reader<'_> {
    fn whole(&self) -> Result<(), Fault> {
        let version = self.frame()?;
        let end = self.formula(FRAME, 1)?;
        if end < self.bytes.len() {
            return Err(fault(end, FaultKind::Complete));
        }
        // A word of version 2 that stands where none is taken has been told before.
        match (version, self.call) {
            (1, _) | (2, Call::Set) => Ok(()),
            _ => Err(fault(FRAME - 1, FaultKind::Version(version))),
        }
    }

    /// The version, where length and version can be read.
    fn frame(&self) -> Result<u8, Fault> {
        let [high, low, version, ..] = *self.bytes else {
            return Err(fault(self.bytes.len(), FaultKind::Incomplete));
        };
        let said = usize::from(u16::from_be_bytes([high, low]));
        let follow = self.bytes.len() - 2;
        if follow > MAX_LENGTH {
            return Err(fault(0, FaultKind::TooLong(follow - 1)));
        }
        if said != follow || said < 2 {
            return Err(fault(0, FaultKind::Length { said, follow }));
        }
        if !(1..=2).contains(&version) {
            return Err(fault(FRAME - 1, FaultKind::Version(version)));
        }
        Ok(version)
    }

    /// Where the formula at a place ends, so deep already.
    fn formula(&self, at: usize, depth: usize) -> Result<usize, Fault> {
        let &token = (self.bytes.get(at)).ok_or(fault(at, FaultKind::Incomplete))?;
        if depth > MAX_DEPTH {
            return Err(fault(at, FaultKind::TooDeep));
        }
        let parts = self.parts(token).map_err(|kind| fault(at, kind))?;
        (0..parts).try_fold(at + 1, |at, _| self.formula(at, depth + 1))
    }

    /// How many formulas follow a token, where the call takes it.
    fn parts(&self, token: u8) -> Result<usize, FaultKind> {
        let (kind, k) = token::taken_apart(token).ok_or(FaultKind::NoWord(token))?;
        match (kind, self.call) {
            (token::FALSE..=token::OR, _) => {}
            (token::NEXT, Call::Set | Call::Valid) => return Err(FaultKind::NextBit(k)),
            (token::CURRENT | token::NEXT, _) if k >= self.n => {
                let (bit, bits) = (k, self.n);
                return Err(FaultKind::NoBit { bit, bits });
            }
            (token::CURRENT | token::NEXT, _) => {}
            (_, Call::Relation) => return Err(FaultKind::NotInRelation),
            (_, Call::Valid) => return Err(FaultKind::NotInValid),
            (_, Call::Set) if token::is_until(token) && self.bytes[FRAME - 1] == 1 => {
                return Err(FaultKind::UntilInVersion1)
            }
            (_, Call::Set) => {}
        }
        Ok(token::parts(kind))
    }
}

/// The first place of a formula where its variables give the refusal.
fn variables(bytes: &[u8], refusal: Refusal) -> Option<Fault> {
    let mut scopes = Scopes {
        bytes,
        open: Vec::new(),
        faults: Vec::new(),
    };
    scopes.formula(FRAME, false);
    let faults = scopes.faults.into_iter();
    let of_refusal = faults.filter(|fault| fault.kind.refusal() == refusal);
    of_refusal.min_by_key(|fault| fault.at)
}

/// A binder whose body is read.
struct Binder {
    variable: u32,
    /// Whether it stands below an odd number of NOTs.
    odd: bool,
    used: bool,
}

/// Reads a formula that has passed check 4, so it is at most 64 deep.
struct Scopes<'a> {
    bytes: &'a [u8],
    open: Vec<Binder>,
    faults: Vec<Fault>,
}

impl Scopes<'_> {
    /// Where the formula at a place ends, read odd or even.
    fn formula(&mut self, at: usize, odd: bool) -> usize {
        let token = self
            .bytes
            .get(at)
            .and_then(|&byte| token::taken_apart(byte));
        match token {
            Some((token::VARIABLE, variable)) => {
                self.variable(at, variable, odd);
                at + 1
            }
            Some((token::MU | token::NU, variable)) => self.binder(at, variable, odd),
            Some((token::NOT, _)) => self.formula(at + 1, !odd),
            Some((kind, _)) => (0..token::parts(kind)).fold(at + 1, |at, _| self.formula(at, odd)),
            None => at,
        }
    }

    fn variable(&mut self, at: usize, variable: u32, odd: bool) {
        let binder = (self.open.iter_mut().rev()).find(|binder| binder.variable == variable);
        let Some(binder) = binder else {
            return self.faults.push(fault(at, FaultKind::Unbound(variable)));
        };
        binder.used = true;
        if binder.odd != odd {
            self.faults.push(fault(at, FaultKind::Odd(variable)));
        }
    }

    fn binder(&mut self, at: usize, variable: u32, odd: bool) -> usize {
        if self.open.iter().any(|outer| outer.variable == variable) {
            self.faults.push(fault(at, FaultKind::BoundTwice(variable)));
        }
        let used = false;
        self.open.push(Binder {
            variable,
            odd,
            used,
        });
        let end = self.formula(at + 1, odd);
        if self.open.pop().is_some_and(|binder| !binder.used) {
            self.faults.push(fault(at, FaultKind::Vacuous(variable)));
        }
        end
    }
}

/// The first empty register or relation that a formula names. Every byte of it is a token.
fn empty(words: &[u32], bytes: &[u8]) -> Option<Fault> {
    let is_empty = |first: usize, k: u32| layout::root(words, first + k as usize).is_none();
    bytes
        .iter()
        .enumerate()
        .skip(FRAME)
        .find_map(|(at, &token)| {
            let kind = match token::taken_apart(token)? {
                (token::REGISTER, r) if is_empty(FIRST_REGISTER, r) => FaultKind::EmptyRegister(r),
                (token::BOX | token::DIAMOND | token::SOME_RUN | token::EVERY_RUN, t)
                    if is_empty(FIRST_RELATION, t) =>
                {
                    FaultKind::EmptyRelation(t)
                }
                _ => return None,
            };
            Some(fault(at, kind))
        })
}
