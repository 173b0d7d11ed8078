//! Formulas as document 01's framed bytes.
use crate::token::{self, FRAME, VARIABLES};
use crate::{Fault, FaultKind, MAX_BITS, REGISTERS, RELATIONS};
use std::borrow::Borrow;
use std::ops::{BitAnd, BitAndAssign, BitOr, BitOrAssign, BitXor, BitXorAssign, Not};

const VERSION: u8 = 1;
/// The version of formulas that speak of runs. Only set calls take it.
const RUNS_VERSION: u8 = 2;

/// A formula, kept as the framed bytes that a call takes: two length bytes, the version and the
/// formula in prefix order. The version is 1, or 2 where the formula speaks of runs.
///
/// `!`, `&` and `|` are NOT, AND and OR, and `^` is "one of the two, not both"; they and all
/// builders take formulas or references to them. A bit, variable, register or relation number that
/// has no byte gives a formula that every call refuses with
/// [`Refusal::Syntax`](crate::Refusal::Syntax) and the number ([`Refused`](crate::Refused)), and so
/// does a formula of more than 1,023 bytes or more than 64 deep.
///
/// ```
/// use kudzuclamp::Formula;
///
/// // The states from which bit 0 can become set: bit 0, or some press leads into the set.
/// let reach = Formula::mu(0, Formula::current(0) | Formula::diamond(0, Formula::var(0)));
/// assert_eq!(reach.as_bytes(), [0x00, 0x06, 0x01, 0x70, 0x04, 0x10, 0x68, 0x30]);
/// assert_eq!(reach.to_string(), "mu P0. bit0 | <0> P0");
///
/// // A formula may be used several times.
/// let (mic, echo) = (Formula::current(0), Formula::current(1));
/// assert_eq!((&mic & !&echo) | (!&mic & &echo), &mic ^ &echo);
/// ```
///
/// # Text
///
/// `Display` writes a formula as it would be written in Rust: `!` binds tighter than `&`, and `&`
/// tighter than `|`; operators of one kind are taken from the left, so different formulas have
/// different texts. `bit3` is current bit 3, `bit3'` the next one, `P0` a variable, `set5` the set
/// in register 5; `[2] f` is box and `<2> f` diamond of relation 2; `mu P0. f` and `nu P0. f` go as
/// far right as they can; `some2(f until g)` and `every2(f until g)` speak of relation 2's runs.
/// Bytes that are no formula, or one more than 64 deep, are written in hexadecimal after `no formula:`.
///
/// `parse` reads what `Display` writes as that formula, where a call takes one of its length. Besides,
/// `f ^ g` is "one of the two, not both", `f => g` "where f holds, g does", `f <=> g` "both or neither"
/// and `ite(f, g, h)` "if f then g else h"; they are written out as `^`, `implies`, `iff` and `ite` do,
/// so `^`, `<=>` and the f of `ite` have each part twice: 8 bits with `^` between them make a formula
/// of 1,017 bytes, and 9 bits one that is too long. `!` binds tightest, then `&`, `^`, `|`, `=>` (taken from the
/// right) and `<=>`. A binder may stand wherever a formula may, and goes as far right as it can.
/// Blanks and line ends may stand between words. [`ParseError`](crate::ParseError) tells why a text is
/// no formula, and [`Names`](crate::Names) has texts with names for the bits.
///
/// ```
/// use kudzuclamp::Formula;
///
/// let reach: Formula = "mu P0. bit0 & !bit1 | <0> P0".parse()?;
/// assert_eq!(reach.as_bytes(), [0x00, 0x09, 0x01, 0x70, 0x04, 0x03, 0x10, 0x02, 0x11, 0x68, 0x30]);
/// # Ok::<(), kudzuclamp::ParseError>(())
/// ```
#[must_use]
#[derive(Clone, Debug, PartialEq, Eq, Hash)]
pub struct Formula {
    framed: Vec<u8>,
    /// The first number in it that has no byte.
    missing: Option<Fault>,
}

/// What a call takes as a formula: a [`Formula`], or framed bytes from elsewhere (two length bytes,
/// the version and the formula in prefix order), or a reference to either.
///
/// ```
/// use kudzuclamp::{Account, AsFormula, Formula, Refused, Stored, Table, Target};
///
/// fn store(table: &mut Table<Vec<u32>>, f: impl AsFormula) -> Result<Stored, Refused> {
///     table.set(&mut [Account::unlimited()], Target::register(0), f)
/// }
///
/// let mut table = Table::new(&mut [Account::unlimited()], 1, 10).unwrap();
/// assert_eq!(store(&mut table, Formula::current(0)), store(&mut table, [0, 2, 1, 0x10]));
/// ```
pub trait AsFormula: Missing {
    /// The framed bytes.
    fn framed(&self) -> &[u8];
}

/// What a [`Formula`] knows besides its bytes. Nobody outside can name it, so only the types of this
/// crate and bytes are [`AsFormula`].
pub trait Missing {
    /// The first number in it that has no byte; bytes have none such.
    fn missing(&self) -> Option<Fault> {
        None
    }
}

impl Formula {
    /// False, which holds in no state; `Formula::from(false)` is the same.
    ///
    /// ```
    /// assert_eq!(kudzuclamp::Formula::falsity().to_string(), "false");
    /// ```
    #[doc(alias = "false")]
    pub fn falsity() -> Formula {
        Formula::leaf(token::FALSE)
    }

    /// True, which holds in every state; `Formula::from(true)` is the same.
    ///
    /// ```
    /// assert_eq!(kudzuclamp::Formula::truth().to_string(), "true");
    /// ```
    #[doc(alias = "true")]
    pub fn truth() -> Formula {
        Formula::leaf(token::TRUE)
    }

    /// Bit p of the current state, p from 0 to 15 and below the table's n.
    ///
    /// ```
    /// assert_eq!(kudzuclamp::Formula::current(3).to_string(), "bit3");
    /// ```
    pub fn current(p: u32) -> Formula {
        Formula::leaf(numbered(token::CURRENT, MAX_BITS, p, no_bit))
    }

    /// Bit p of the next state, p from 0 to 15 and below the table's n. Only relation calls take
    /// it.
    ///
    /// ```
    /// assert_eq!(kudzuclamp::Formula::next(3).to_string(), "bit3'");
    /// ```
    pub fn next(p: u32) -> Formula {
        Formula::leaf(numbered(token::NEXT, MAX_BITS, p, no_bit))
    }

    /// Variable P, from 0 to 15, bound by [`mu`](Formula::mu) or [`nu`](Formula::nu).
    ///
    /// ```
    /// assert_eq!(kudzuclamp::Formula::var(0).to_string(), "P0");
    /// ```
    pub fn var(p: u32) -> Formula {
        Formula::leaf(numbered(
            token::VARIABLE,
            VARIABLES,
            p,
            FaultKind::NoVariable,
        ))
    }

    /// The set in a register, from 0 to 31.
    ///
    /// ```
    /// assert_eq!(kudzuclamp::Formula::register(5).to_string(), "set5");
    /// ```
    pub fn register(r: u32) -> Formula {
        Formula::leaf(numbered(
            token::REGISTER,
            REGISTERS,
            r,
            FaultKind::NoRegister,
        ))
    }

    /// Box: the formula holds in every next state of relation t, from 0 to 7.
    ///
    /// ```
    /// use kudzuclamp::Formula;
    ///
    /// assert_eq!(Formula::boxed(2, !Formula::current(0)).to_string(), "[2] !bit0");
    /// ```
    pub fn boxed(t: u32, f: impl Borrow<Formula>) -> Formula {
        Formula::operator(
            numbered(token::BOX, RELATIONS, t, FaultKind::NoRelation),
            &[f.borrow()],
        )
    }

    /// Diamond: the formula holds in some next state of relation t, from 0 to 7.
    ///
    /// ```
    /// use kudzuclamp::Formula;
    ///
    /// assert_eq!(Formula::diamond(2, Formula::register(1)).to_string(), "<2> set1");
    /// ```
    pub fn diamond(t: u32, f: impl Borrow<Formula>) -> Formula {
        Formula::operator(
            numbered(token::DIAMOND, RELATIONS, t, FaultKind::NoRelation),
            &[f.borrow()],
        )
    }

    /// The least set A that equals the formula with A as variable P, which stands somewhere in it:
    /// else the call is refused with [`Refusal::Vacuous`](crate::Refusal::Vacuous).
    ///
    /// ```
    /// use kudzuclamp::Formula;
    ///
    /// let step = Formula::diamond(0, Formula::var(0));
    /// assert_eq!(Formula::mu(0, Formula::register(1) | step).to_string(), "mu P0. set1 | <0> P0");
    /// ```
    pub fn mu(p: u32, f: impl Borrow<Formula>) -> Formula {
        Formula::operator(
            numbered(token::MU, VARIABLES, p, FaultKind::NoVariable),
            &[f.borrow()],
        )
    }

    /// The greatest set A that equals the formula with A as variable P, as for
    /// [`mu`](Formula::mu).
    ///
    /// ```
    /// use kudzuclamp::Formula;
    ///
    /// let stays = Formula::boxed(0, Formula::var(0));
    /// assert_eq!(Formula::nu(0, Formula::register(1) & stays).to_string(), "nu P0. set1 & [0] P0");
    /// ```
    pub fn nu(p: u32, f: impl Borrow<Formula>) -> Formula {
        Formula::operator(
            numbered(token::NU, VARIABLES, p, FaultKind::NoVariable),
            &[f.borrow()],
        )
    }

    /// Some run of relation t, from 0 to 7, comes to a state of g, and f holds in every state
    /// before. A run goes on from next state to next state, for 2^n steps or to a state that has
    /// none. The formula's version is 2, and only set calls take it.
    ///
    /// ```
    /// use kudzuclamp::{Account, Formula, Refusal, Table, Target};
    ///
    /// # fn main() -> Result<(), Refusal> {
    /// // Presses can keep bit 1 set until bit 0 is set.
    /// let until = Formula::until_some(0, Formula::current(1), Formula::current(0));
    /// assert_eq!(until.as_bytes(), [0x00, 0x04, 0x02, 0x90, 0x11, 0x10]);
    ///
    /// // A press may lead from any state to any: from 1 and 3 at once, from 2 by one press.
    /// let mut accounts = [Account::unlimited()];
    /// let mut room = Table::new(&mut accounts, 2, 100)?;
    /// room.relation(0, Formula::truth())?;
    /// room.set(&mut accounts, Target::register(0).rounds(5), until.clone())?;
    /// assert_eq!((room.count(0)?, room.member(0, 2)?), (3, true));
    /// // Relation calls refuse version 2.
    /// assert_eq!(room.relation(1, until).unwrap_err(), Refusal::Syntax);
    /// # Ok(())
    /// # }
    /// ```
    pub fn until_some(t: u32, f: impl Borrow<Formula>, g: impl Borrow<Formula>) -> Formula {
        Formula::operator(
            numbered(token::SOME_RUN, RELATIONS, t, FaultKind::NoRelation),
            &[f.borrow(), g.borrow()],
        )
    }

    /// Every run of relation t, from 0 to 7, comes to a state of g, and f holds in every state
    /// before: as [`until_some`](Formula::until_some), but of every run. A run that ends before it
    /// comes to g, or never comes there, does not do.
    ///
    /// ```
    /// use kudzuclamp::{Account, Formula, Refusal, Table, Target};
    ///
    /// # fn main() -> Result<(), Refusal> {
    /// // Bit 0 is "microphone open", bit 1 is "song runs". The one press starts the song, which
    /// // opens the microphone; a running song runs on for good.
    /// let (open, song) = (Formula::current(0), Formula::current(1));
    /// let mut accounts = [Account::unlimited()];
    /// let mut room = Table::new(&mut accounts, 2, 100)?;
    /// room.relation(0, Formula::next(0) & Formula::next(1))?;
    ///
    /// // The microphone stays closed until the song starts.
    /// let until = Formula::until_every(0, !open, song);
    /// assert_eq!(until.as_bytes(), [0x00, 0x05, 0x02, 0x98, 0x02, 0x10, 0x11]);
    /// room.set(&mut accounts, Target::register(0).rounds(5), until)?;
    /// assert!(room.member(0, 0)? && !room.member(0, 1)?);
    /// # Ok(())
    /// # }
    /// ```
    pub fn until_every(t: u32, f: impl Borrow<Formula>, g: impl Borrow<Formula>) -> Formula {
        Formula::operator(
            numbered(token::EVERY_RUN, RELATIONS, t, FaultKind::NoRelation),
            &[f.borrow(), g.borrow()],
        )
    }

    /// A press leaves bit p as it is: the next bit is the current one.
    ///
    /// ```
    /// use kudzuclamp::Formula;
    ///
    /// assert_eq!(Formula::keeps(3).to_string(), "bit3' & bit3 | !bit3' & !bit3");
    /// // The song starts, and the two microphones keep.
    /// let press = Formula::next(2) & Formula::keeps(0) & Formula::keeps(1);
    /// assert_eq!(press.as_bytes().len(), 3 + 21);
    /// ```
    pub fn keeps(p: u32) -> Formula {
        Formula::next(p).iff(Formula::current(p))
    }

    /// A press turns bit p over: the next bit is not the current one.
    ///
    /// ```
    /// use kudzuclamp::Formula;
    ///
    /// assert_eq!(Formula::turns(3).to_string(), "bit3' & !bit3 | !bit3' & bit3");
    /// ```
    pub fn turns(p: u32) -> Formula {
        Formula::next(p) ^ Formula::current(p)
    }

    /// Both hold, or neither.
    ///
    /// ```
    /// use kudzuclamp::Formula;
    ///
    /// let both = Formula::current(0).iff(Formula::current(1));
    /// assert_eq!(both.to_string(), "bit0 & bit1 | !bit0 & !bit1");
    /// ```
    pub fn iff(&self, other: impl Borrow<Formula>) -> Formula {
        let other = other.borrow();
        (self & other) | (!self & !other)
    }

    /// Where this holds, the other does too.
    ///
    /// ```
    /// use kudzuclamp::Formula;
    ///
    /// let then = Formula::current(0).implies(Formula::current(1));
    /// assert_eq!(then.to_string(), "!bit0 | bit1");
    /// ```
    pub fn implies(&self, other: impl Borrow<Formula>) -> Formula {
        !self | other
    }

    /// If this holds, then the first; else the other.
    ///
    /// ```
    /// use kudzuclamp::Formula;
    ///
    /// let (song, mic, echo) = (Formula::current(0), Formula::current(1), Formula::current(2));
    /// assert_eq!(song.ite(mic, echo).to_string(), "bit0 & bit1 | !bit0 & bit2");
    /// ```
    #[doc(alias = "if_then_else")]
    pub fn ite(&self, then: impl Borrow<Formula>, other: impl Borrow<Formula>) -> Formula {
        (self & then) | (!self & other)
    }

    /// All of the formulas hold; [`truth`](Formula::truth) where there are none. They keep their
    /// order, and the ANDs are as few deep as they can be.
    ///
    /// ```
    /// use kudzuclamp::Formula;
    ///
    /// let off = Formula::all((0..4).map(|p| !Formula::current(p)));
    /// assert_eq!(off.to_string(), "!bit0 & !bit1 & (!bit2 & !bit3)");
    /// ```
    pub fn all<F: Borrow<Formula>>(parts: impl IntoIterator<Item = F>) -> Formula {
        Formula::joined(token::AND, parts).unwrap_or_else(Formula::truth)
    }

    /// One of the formulas holds, or more; [`falsity`](Formula::falsity) where there are none. As
    /// [`all`](Formula::all).
    ///
    /// ```
    /// use kudzuclamp::Formula;
    ///
    /// assert_eq!(Formula::any((0..3).map(Formula::current)).to_string(), "bit0 | bit1 | bit2");
    /// ```
    pub fn any<F: Borrow<Formula>>(parts: impl IntoIterator<Item = F>) -> Formula {
        Formula::joined(token::OR, parts).unwrap_or_else(Formula::falsity)
    }

    /// The framed bytes.
    ///
    /// ```
    /// use kudzuclamp::Formula;
    ///
    /// assert_eq!((!Formula::current(3)).as_bytes(), [0x00, 0x03, 0x01, 0x02, 0x13]);
    /// ```
    #[must_use]
    pub fn as_bytes(&self) -> &[u8] {
        &self.framed
    }

    /// The formula's own bytes, without length and version.
    pub(crate) fn tokens(&self) -> &[u8] {
        &self.framed[FRAME..]
    }

    fn version(&self) -> u8 {
        self.framed[FRAME - 1]
    }

    /// The formulas joined by a token of two parts, neighbours first.
    fn joined<F: Borrow<Formula>>(
        token: u8,
        parts: impl IntoIterator<Item = F>,
    ) -> Option<Formula> {
        let mut row: Vec<Formula> = parts.into_iter().map(|f| f.borrow().clone()).collect();
        while row.len() > 1 {
            let pairs = row.chunks(2).map(|pair| match pair {
                [f, g] => Formula::operator(token, &[f, g]),
                _ => pair[0].clone(),
            });
            row = pairs.collect();
        }
        row.pop()
    }

    fn leaf(word: impl Into<Word>) -> Formula {
        Formula::operator(word, &[])
    }

    /// A word and the formulas below it.
    fn operator(word: impl Into<Word>, parts: &[&Formula]) -> Formula {
        let Word { token, missing } = word.into();
        let size = 1 + parts.iter().map(|part| part.tokens().len()).sum::<usize>();
        let mut framed = Vec::with_capacity(FRAME + size);
        framed.extend(length_bytes(1 + size));
        framed.push((parts.iter().map(|part| part.version())).fold(version_of(token), u8::max));
        let mut missing = missing.map(|kind| Fault { at: FRAME, kind });
        framed.push(token);
        for part in parts {
            let moved = framed.len() - FRAME;
            missing = missing.or(part.missing.map(|fault| Fault {
                at: fault.at + moved,
                ..fault
            }));
            framed.extend_from_slice(part.tokens());
        }
        Formula { framed, missing }
    }
}

/// A token, or no token's byte for a number that is missing.
struct Word {
    token: u8,
    missing: Option<FaultKind>,
}

impl From<u8> for Word {
    fn from(token: u8) -> Word {
        let missing = None;
        Word { token, missing }
    }
}

/// The word of number k in a range of tokens, or what is wrong where the range is too short.
fn numbered(first: u8, count: u32, k: u32, missing: fn(u32) -> FaultKind) -> Word {
    match u8::try_from(k) {
        Ok(k) if u32::from(k) < count => (first + k).into(),
        _ => Word {
            token: token::NONE,
            missing: Some(missing(k)),
        },
    }
}

/// What is wrong with a bit that no table has.
pub(crate) fn no_bit(bit: u32) -> FaultKind {
    let bits = MAX_BITS;
    FaultKind::NoBit { bit, bits }
}

/// The least version that has the token.
fn version_of(token: u8) -> u8 {
    if token::is_until(token) {
        RUNS_VERSION
    } else {
        VERSION
    }
}

/// A length in two bytes, big-endian. One that does not fit becomes 65,535, which no call takes.
fn length_bytes(length: usize) -> [u8; 2] {
    u16::try_from(length).unwrap_or(u16::MAX).to_be_bytes()
}

impl AsRef<[u8]> for Formula {
    fn as_ref(&self) -> &[u8] {
        self.as_bytes()
    }
}

impl AsFormula for Formula {
    fn framed(&self) -> &[u8] {
        &self.framed
    }
}

impl Missing for Formula {
    fn missing(&self) -> Option<Fault> {
        self.missing
    }
}

impl<F: AsFormula + ?Sized> AsFormula for &F {
    fn framed(&self) -> &[u8] {
        (**self).framed()
    }
}

impl<F: Missing + ?Sized> Missing for &F {
    fn missing(&self) -> Option<Fault> {
        (**self).missing()
    }
}

impl Missing for [u8] {}
impl<const N: usize> Missing for [u8; N] {}
impl Missing for Vec<u8> {}

impl AsFormula for [u8] {
    fn framed(&self) -> &[u8] {
        self
    }
}

impl<const N: usize> AsFormula for [u8; N] {
    fn framed(&self) -> &[u8] {
        self
    }
}

impl AsFormula for Vec<u8> {
    fn framed(&self) -> &[u8] {
        self
    }
}

impl From<bool> for Formula {
    fn from(value: bool) -> Formula {
        if value {
            Formula::truth()
        } else {
            Formula::falsity()
        }
    }
}

impl Not for &Formula {
    type Output = Formula;

    fn not(self) -> Formula {
        Formula::operator(token::NOT, &[self])
    }
}

impl Not for Formula {
    type Output = Formula;

    fn not(self) -> Formula {
        !&self
    }
}

/// An operator of two formulas or references to them, and its assignment.
macro_rules! operator {
    ($trait:ident, $method:ident, $assign:ident, $assigned:ident, $made:expr) => {
        impl<F: Borrow<Formula>> $trait<F> for &Formula {
            type Output = Formula;

            fn $method(self, other: F) -> Formula {
                let made: fn(&Formula, &Formula) -> Formula = $made;
                made(self, other.borrow())
            }
        }

        impl<F: Borrow<Formula>> $trait<F> for Formula {
            type Output = Formula;

            fn $method(self, other: F) -> Formula {
                (&self).$method(other)
            }
        }

        impl<F: Borrow<Formula>> $assign<F> for Formula {
            fn $assigned(&mut self, other: F) {
                *self = (&*self).$method(other);
            }
        }
    };
}

operator!(BitAnd, bitand, BitAndAssign, bitand_assign, |f, g| {
    Formula::operator(token::AND, &[f, g])
});
operator!(BitOr, bitor, BitOrAssign, bitor_assign, |f, g| {
    Formula::operator(token::OR, &[f, g])
});
operator!(BitXor, bitxor, BitXorAssign, bitxor_assign, |f, g| {
    (f & !g) | (!f & g)
});

#[cfg(test)]
mod tests {
    use super::Formula;

    /// The bytes of a formula whose own bytes are these, at most 253.
    fn framed(tokens: &[u8]) -> Vec<u8> {
        let mut bytes = vec![0, tokens.len() as u8 + 1, 1];
        bytes.extend_from_slice(tokens);
        bytes
    }

    #[test]
    fn program_input() {
        let relation =
            (Formula::next(0) & !Formula::current(0)) | (!Formula::next(0) & Formula::current(0));
        assert_eq!(
            relation.as_bytes(),
            [0x00, 0x0A, 0x01, 0x04, 0x03, 0x20, 0x02, 0x10, 0x03, 0x02, 0x20, 0x10]
        );
        let set = Formula::mu(
            0,
            Formula::current(0) | Formula::diamond(0, Formula::var(0)),
        );
        assert_eq!(
            set.as_bytes(),
            [0x00, 0x06, 0x01, 0x70, 0x04, 0x10, 0x68, 0x30]
        );
    }

    #[test]
    fn bench() {
        let cases = [
            (Formula::mu(0, Formula::var(0)), vec![0x70, 0x30]),
            (Formula::nu(0, Formula::var(0)), vec![0x80, 0x30]),
            (Formula::mu(0, !Formula::var(0)), vec![0x70, 0x02, 0x30]),
            (
                Formula::mu(0, !!Formula::var(0)),
                vec![0x70, 0x02, 0x02, 0x30],
            ),
            (Formula::var(0), vec![0x30]),
            (
                Formula::mu(0, Formula::mu(0, Formula::var(0))),
                vec![0x70, 0x70, 0x30],
            ),
            (Formula::boxed(0, Formula::truth()), vec![0x60, 0x01]),
            (Formula::boxed(0, Formula::falsity()), vec![0x60, 0x00]),
            (Formula::diamond(0, Formula::truth()), vec![0x68, 0x01]),
            (
                Formula::current(0) & Formula::current(1),
                vec![0x03, 0x10, 0x11],
            ),
            (!Formula::current(0), vec![0x02, 0x10]),
            (!Formula::current(1), vec![0x02, 0x11]),
        ];
        for (formula, tokens) in cases {
            assert_eq!(formula.as_bytes(), framed(&tokens));
        }
    }

    #[test]
    fn version_2_where_a_part_speaks_of_runs() {
        let until = Formula::until_every(7, Formula::truth(), Formula::current(0));
        assert_eq!(until.as_bytes(), [0, 4, 2, 0x9F, 0x01, 0x10]);
        let inside = Formula::var(0) & !until;
        assert_eq!(
            inside.as_bytes(),
            [0, 7, 2, 0x03, 0x30, 0x02, 0x9F, 0x01, 0x10]
        );
        let none = Formula::until_some(8, Formula::truth(), Formula::truth());
        assert_eq!(none.as_bytes(), [0, 4, 1, 0xFF, 0x01, 0x01]);
    }

    #[test]
    fn ends_of_ranges() {
        let cases = [
            (Formula::current(15), vec![0x1F]),
            (Formula::next(15), vec![0x2F]),
            (Formula::var(15), vec![0x3F]),
            (Formula::register(0), vec![0x40]),
            (Formula::register(31), vec![0x5F]),
            (Formula::boxed(7, Formula::from(true)), vec![0x67, 0x01]),
            (Formula::diamond(7, Formula::from(false)), vec![0x6F, 0x00]),
            (Formula::mu(15, Formula::truth()), vec![0x7F, 0x01]),
            (Formula::nu(15, Formula::truth()), vec![0x8F, 0x01]),
        ];
        for (formula, tokens) in cases {
            assert_eq!(formula.as_bytes(), framed(&tokens));
        }
    }

    #[test]
    fn numbers_without_a_byte() {
        let x = Formula::truth;
        let past = [
            Formula::current(16),
            Formula::next(16),
            Formula::var(16),
            Formula::register(32),
            Formula::boxed(8, x()),
            Formula::diamond(8, x()),
            Formula::mu(16, x()),
            Formula::nu(255, x()),
            Formula::current(256),
            Formula::register(u32::MAX),
        ];
        for formula in past {
            assert_eq!(formula.as_bytes()[3], 0xFF);
        }
    }

    #[test]
    fn lengths() {
        let mut formula = Formula::truth();
        for _ in 0..1_022 {
            formula = !formula;
        }
        assert_eq!(formula.as_bytes()[..3], [0x04, 0x00, 0x01]);
        assert_eq!(formula.as_bytes().len(), 2 + 1_024);
        for _ in 0..7 {
            formula = formula.clone() & formula;
        }
        assert_eq!(formula.as_bytes()[..3], [0xFF, 0xFF, 0x01]);
    }

    /// The patterns of examples/README.md, "bit p keeps" and "turns over".
    #[test]
    fn keeps_and_turns() {
        let keeps = [0x04, 0x03, 0x25, 0x15, 0x03, 0x02, 0x25, 0x02, 0x15];
        assert_eq!(Formula::keeps(5).as_bytes(), framed(&keeps));
        let turns = [0x04, 0x03, 0x25, 0x02, 0x15, 0x03, 0x02, 0x25, 0x15];
        assert_eq!(Formula::turns(5).as_bytes(), framed(&turns));
        assert_eq!(Formula::keeps(16).as_bytes()[5], 0xFF);
    }

    #[test]
    fn operators_of_references() {
        let (f, g) = (Formula::current(1), Formula::register(2));
        let both = [0x03, 0x11, 0x42];
        for and in [
            &f & &g,
            &f & g.clone(),
            f.clone() & &g,
            f.clone() & g.clone(),
        ] {
            assert_eq!(and.as_bytes(), framed(&both));
        }
        for or in [
            &f | &g,
            &f | g.clone(),
            f.clone() | &g,
            f.clone() | g.clone(),
        ] {
            assert_eq!(or.as_bytes(), framed(&[0x04, 0x11, 0x42]));
        }
        assert_eq!(!&f, !f.clone());
        assert_eq!(&f ^ &g, (&f & !&g) | (!&f & &g));
        assert_eq!(f.iff(&g), (&f & &g) | (!&f & !&g));
        assert_eq!(f.implies(&g), !&f | &g);
        let mut h = f.clone();
        h &= &g;
        h |= f.clone();
        h ^= &g;
        assert_eq!(h, ((&f & &g) | &f) ^ &g);
        assert_eq!(Formula::mu(0, &f), Formula::mu(0, f.clone()));
        assert_eq!(
            Formula::until_some(1, &f, g.clone()),
            Formula::until_some(1, f, &g)
        );
    }

    #[test]
    fn all_and_any() {
        let bits = |n: u32| (0..n).map(Formula::current);
        assert_eq!(Formula::all(bits(0)), Formula::truth());
        assert_eq!(Formula::any(bits(0)), Formula::falsity());
        assert_eq!(Formula::all(bits(1)), Formula::current(0));
        let three = [0x04, 0x04, 0x10, 0x11, 0x12];
        assert_eq!(Formula::any(bits(3)).as_bytes(), framed(&three));
        let list: Vec<Formula> = bits(5).collect();
        assert_eq!(Formula::all(&list), Formula::all(list.clone()));
        // 512 parts are 1,023 bytes, 10 deep.
        let many = Formula::all((0..512).map(|_| Formula::truth()));
        assert_eq!(many.as_bytes().len(), 3 + 1_023);
        assert_eq!(many.as_bytes()[3..14], [3, 3, 3, 3, 3, 3, 3, 3, 3, 1, 1]);
    }
}
