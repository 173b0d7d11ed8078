//! Formulas read from text.
use crate::formula::no_bit;
use crate::token::{self, MAX_DEPTH, MAX_LENGTH, VARIABLES};
use crate::{FaultKind, Formula, Names, MAX_BITS, REGISTERS, RELATIONS};
use std::fmt;
use std::str::FromStr;

/// Why a text is no formula, and where.
///
/// [`Formula`] has what texts are read.
///
/// ```
/// use kudzuclamp::{FaultKind, Formula, ParseError, ParseErrorKind};
///
/// let error = "bit0 & set99".parse::<Formula>().unwrap_err();
/// let kind = ParseErrorKind::Fault(FaultKind::NoRegister(99));
/// assert_eq!(error, ParseError { at: 7, kind });
/// assert_eq!(error.to_string(), "at 7: there is no register 99: they are 0 to 31");
///
/// let error = "(bit0 | bit1".parse::<Formula>().unwrap_err();
/// assert_eq!(error.to_string(), "at 12: an operator or \")\" is missing");
/// ```
#[derive(Clone, Debug, PartialEq, Eq, Hash)]
pub struct ParseError {
    /// The place: a byte of the text, counted from 0; its length where the text ends too early. A
    /// character begins there.
    pub at: usize,
    /// What is wrong there.
    pub kind: ParseErrorKind,
}

/// The kinds of [`ParseError`]. Later versions may have more of them.
///
/// ```
/// use kudzuclamp::{Formula, ParseErrorKind};
///
/// let error = "song".parse::<Formula>().unwrap_err();
/// assert_eq!(error.kind, ParseErrorKind::Unknown("song".into()));
/// ```
#[non_exhaustive]
#[derive(Clone, Debug, PartialEq, Eq, Hash)]
pub enum ParseErrorKind {
    /// This is missing.
    Missing(&'static str),
    /// No bit has this name.
    Unknown(String),
    /// A bit, variable, register or relation that is not there, or a formula that is too long or too
    /// deep for a call.
    Fault(FaultKind),
    /// More than 256 parts are open here: formulas in parentheses, and parts of operators and words
    /// that are not complete.
    TooManyOpen,
}

impl fmt::Display for ParseErrorKind {
    fn fmt(&self, f: &mut fmt::Formatter<'_>) -> fmt::Result {
        match self {
            ParseErrorKind::Missing(what) => write!(f, "{what} is missing"),
            ParseErrorKind::Unknown(name) => write!(f, "no bit has the name {name:?}"),
            ParseErrorKind::Fault(kind) => kind.fmt(f),
            ParseErrorKind::TooManyOpen => write!(f, "more than {MAX_OPEN} parts are open here"),
        }
    }
}

impl fmt::Display for ParseError {
    fn fmt(&self, f: &mut fmt::Formatter<'_>) -> fmt::Result {
        write!(f, "at {}: {}", self.at, self.kind)
    }
}

impl std::error::Error for ParseError {}

impl FromStr for Formula {
    type Err = ParseError;

    fn from_str(text: &str) -> Result<Formula, ParseError> {
        formula(text, &Names::default())
    }
}

/// The formula of a text with names for bits.
pub fn formula(text: &str, names: &Names) -> Result<Formula, ParseError> {
    let mut parser = Parser {
        text,
        names,
        at: 0,
        open: 0,
    };
    let formula = parser.formula()?;
    match parser.rest() {
        "" => Ok(formula),
        _ => parser.missing("an operator or the end"),
    }
}

/// How many parts may be open at once: more than any formula of the greatest depth is written with,
/// three for each of its operators, and few enough for the stack.
const MAX_OPEN: usize = 256;

/// An operator between two parts.
struct Operator {
    sign: &'static str,
    join: fn(Formula, Formula) -> Formula,
    from_right: bool,
}

impl Operator {
    const fn new(sign: &'static str, join: fn(Formula, Formula) -> Formula) -> Operator {
        let from_right = false;
        Operator {
            sign,
            join,
            from_right,
        }
    }
}

/// The operators, the loosest first.
static OPERATORS: [Operator; 5] = [
    Operator::new("<=>", |f, g| f.iff(g)),
    Operator {
        from_right: true,
        ..Operator::new("=>", |f, g| f.implies(g))
    },
    Operator::new("|", |f, g| f | g),
    Operator::new("^", |f, g| f ^ g),
    Operator::new("&", |f, g| f & g),
];

/// The words that stand for themselves.
const WORDS: [&str; 6] = ["true", "false", "mu", "nu", "until", "ite"];
/// The words that a number follows.
const NUMBERED: [&str; 5] = ["bit", "P", "set", "some", "every"];

/// A numbered word and its number; a number that is too large for its type is the greatest one.
fn numbered(word: &str) -> Option<(&'static str, u32)> {
    NUMBERED.into_iter().find_map(|known| {
        let digits = word.strip_prefix(known)?;
        number(digits).map(|k| (known, k))
    })
}

/// The number that ASCII digits write.
fn number(digits: &str) -> Option<u32> {
    let all = !digits.is_empty() && digits.bytes().all(|byte| byte.is_ascii_digit());
    all.then(|| digits.parse().unwrap_or(u32::MAX))
}

/// A word of the text, which is no name.
pub fn is_reserved(word: &str) -> bool {
    WORDS.contains(&word) || numbered(word).is_some()
}

/// Written as names are.
pub fn is_name(word: &str) -> bool {
    !word.is_empty() && word_length(word) == word.len()
}

/// How long the word is that a text begins with; 0 where it begins with none.
fn word_length(text: &str) -> usize {
    let inside = |c: char| c.is_alphanumeric() || c == '_';
    let starts = |c: char| c.is_alphabetic() || c == '_';
    if !text.starts_with(starts) {
        return 0;
    }
    let mut length = 0;
    loop {
        let rest = &text[length..];
        let run = rest.find(|c| !inside(c)).unwrap_or(rest.len());
        length += run;
        // A hyphen belongs to the word where the word goes on after it.
        match text[length..].strip_prefix('-') {
            Some(after) if after.starts_with(inside) => length += 1,
            _ => return length,
        }
    }
}

type Parsed = Result<Formula, ParseError>;

struct Parser<'a> {
    text: &'a str,
    names: &'a Names,
    at: usize,
    open: usize,
}

impl<'a> Parser<'a> {
    /// What is left, from the next word or sign on.
    fn rest(&mut self) -> &'a str {
        let rest = self.text[self.at..].trim_start();
        self.at = self.text.len() - rest.len();
        rest
    }

    /// Takes a sign, where it is the next.
    fn take(&mut self, sign: &str) -> bool {
        let is_next = self.rest().starts_with(sign);
        if is_next {
            self.at += sign.len();
        }
        is_next
    }

    fn need(&mut self, sign: &str, what: &'static str) -> Result<(), ParseError> {
        match self.take(sign) {
            true => Ok(()),
            false => self.missing(what),
        }
    }

    /// Takes a word, where one is next.
    fn word(&mut self) -> &'a str {
        let rest = self.rest();
        let word = &rest[..word_length(rest)];
        self.at += word.len();
        word
    }

    fn missing<T>(&mut self, what: &'static str) -> Result<T, ParseError> {
        self.rest();
        self.error(self.at, ParseErrorKind::Missing(what))
    }

    fn error<T>(&self, at: usize, kind: ParseErrorKind) -> Result<T, ParseError> {
        Err(ParseError { at, kind })
    }

    fn fault<T>(&self, at: usize, kind: FaultKind) -> Result<T, ParseError> {
        self.error(at, ParseErrorKind::Fault(kind))
    }

    /// A formula made of what stands from a place on, where a call takes one of its size. So no text
    /// makes a formula of many times its own length.
    fn made(&self, at: usize, formula: Formula) -> Parsed {
        let tokens = formula.tokens();
        if tokens.len() >= MAX_LENGTH {
            return self.fault(at, FaultKind::TooLong(tokens.len()));
        }
        if token::depth(tokens).is_none_or(|depth| depth > MAX_DEPTH) {
            return self.fault(at, FaultKind::TooDeep);
        }
        Ok(formula)
    }

    /// The place of the next word or sign.
    fn start(&mut self) -> usize {
        self.rest();
        self.at
    }

    /// One more part is open from a place on, until it is read.
    fn enter(&mut self, at: usize) -> Result<(), ParseError> {
        if self.open == MAX_OPEN {
            return self.error(at, ParseErrorKind::TooManyOpen);
        }
        self.open += 1;
        Ok(())
    }

    fn formula(&mut self) -> Parsed {
        self.operators(0)
    }

    /// Parts with operators between them that bind at least so tightly.
    fn operators(&mut self, least: usize) -> Parsed {
        let at = self.start();
        self.enter(at)?;
        let mut formula = self.prefix()?;
        while let Some((binding, operator)) = self.operator(least) {
            let tighter = if operator.from_right { 0 } else { 1 };
            let right = self.operators(binding + tighter)?;
            formula = self.made(at, (operator.join)(formula, right))?;
        }
        self.open -= 1;
        Ok(formula)
    }

    /// Takes an operator that binds at least so tightly, where one is next.
    fn operator(&mut self, least: usize) -> Option<(usize, &'static Operator)> {
        let mut operators = OPERATORS.iter().enumerate().skip(least);
        operators.find(|(_, operator)| self.take(operator.sign))
    }

    /// A prefix and what it stands before, something in parentheses, or a word.
    fn prefix(&mut self) -> Parsed {
        let at = self.start();
        self.enter(at)?;
        let formula = if self.take("!") {
            !self.prefix()?
        } else if self.take("[") {
            let t = self.relation("]")?;
            Formula::boxed(t, self.prefix()?)
        } else if self.take("<") {
            let t = self.relation(">")?;
            Formula::diamond(t, self.prefix()?)
        } else if self.take("(") {
            self.closed()?
        } else {
            self.atom()?
        };
        self.open -= 1;
        self.made(at, formula)
    }

    /// The formula up to a closing parenthesis.
    fn closed(&mut self) -> Parsed {
        let formula = self.formula()?;
        self.need(")", "an operator or \")\"")?;
        Ok(formula)
    }

    /// The relation's number of a box or diamond, and its closing sign.
    fn relation(&mut self, closing: &str) -> Result<u32, ParseError> {
        let at = self.start();
        let rest = self.rest();
        let digits = rest.bytes().take_while(u8::is_ascii_digit).count();
        let Some(t) = number(&rest[..digits]) else {
            return self.missing("a relation's number");
        };
        self.at += digits;
        self.need(closing, if closing == "]" { "\"]\"" } else { "\">\"" })?;
        self.in_range(at, t, RELATIONS, FaultKind::NoRelation)
    }

    /// A number, where it is below a bound.
    fn in_range(
        &self,
        at: usize,
        k: u32,
        bound: u32,
        fault: fn(u32) -> FaultKind,
    ) -> Result<u32, ParseError> {
        match k < bound {
            true => Ok(k),
            false => self.fault(at, fault(k)),
        }
    }

    /// A constant, bit, variable or register; a binder, until or ite with its parts.
    fn atom(&mut self) -> Parsed {
        let at = self.start();
        match self.word() {
            "" => self.missing("a formula"),
            "true" => Ok(Formula::truth()),
            "false" => Ok(Formula::falsity()),
            "mu" => self.binder(Formula::mu),
            "nu" => self.binder(Formula::nu),
            "ite" => self.ite(),
            "until" => {
                self.at = at;
                self.missing("a formula")
            }
            word => match numbered(word) {
                Some((kind, k)) => self.numbered(at, kind, k),
                None => self.named(at, word),
            },
        }
    }

    /// What a word with a number says.
    fn numbered(&mut self, at: usize, kind: &str, k: u32) -> Parsed {
        match kind {
            "bit" => {
                let p = self.in_range(at, k, MAX_BITS, no_bit)?;
                Ok(self.bit(p))
            }
            "P" => {
                let p = self.in_range(at, k, VARIABLES, FaultKind::NoVariable)?;
                Ok(Formula::var(p))
            }
            "set" => {
                let r = self.in_range(at, k, REGISTERS, FaultKind::NoRegister)?;
                Ok(Formula::register(r))
            }
            _ => {
                let t = self.in_range(at, k, RELATIONS, FaultKind::NoRelation)?;
                self.until(t, kind == "some")
            }
        }
    }

    /// The bit with a name.
    fn named(&mut self, at: usize, name: &str) -> Parsed {
        match self.names.place(name) {
            Some(p) => Ok(self.bit(p)),
            None => self.error(at, ParseErrorKind::Unknown(name.to_string())),
        }
    }

    /// Current bit p, or the next one where a prime follows at once.
    fn bit(&mut self, p: u32) -> Formula {
        if self.text[self.at..].starts_with('\'') {
            self.at += 1;
            return Formula::next(p);
        }
        Formula::current(p)
    }

    /// A binder's variable and body.
    fn binder(&mut self, bound: fn(u32, Formula) -> Formula) -> Parsed {
        let at = self.start();
        let Some(("P", p)) = numbered(self.word()) else {
            self.at = at;
            return self.missing("the binder's variable");
        };
        let p = self.in_range(at, p, VARIABLES, FaultKind::NoVariable)?;
        self.need(".", "\".\"")?;
        Ok(bound(p, self.formula()?))
    }

    /// The two parts of an until, of some run or of every run.
    fn until(&mut self, t: u32, some: bool) -> Parsed {
        self.need("(", "\"(\"")?;
        let f = self.formula()?;
        let at = self.start();
        if self.word() != "until" {
            self.at = at;
            return self.missing("an operator or \"until\"");
        }
        let g = self.closed()?;
        Ok(match some {
            true => Formula::until_some(t, f, g),
            false => Formula::until_every(t, f, g),
        })
    }

    /// The three parts of an ite.
    fn ite(&mut self) -> Parsed {
        self.need("(", "\"(\"")?;
        let f = self.formula()?;
        self.need(",", "an operator or \",\"")?;
        let g = self.formula()?;
        self.need(",", "an operator or \",\"")?;
        let h = self.closed()?;
        Ok(f.ite(g, h))
    }
}
