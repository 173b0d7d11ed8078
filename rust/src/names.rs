//! Names for the bits of a room.
use crate::parse::{self, is_name, is_reserved};
use crate::{display, Formula, ParseError, MAX_BITS};
use std::fmt;

/// Names for the bits of a room, the first for bit 0: formulas are read and written as text with
/// them. Without a name, and `Names::default()` has none, bit p is `bitp`.
///
/// A name begins with a letter or `_`, and has letters, digits, `_` and, inside, `-`. The words of
/// the text (`true`, `mu`, `until`, `set5`, …) are no names.
///
/// ```
/// use kudzuclamp::{Account, Names, Refused, Table, Target};
///
/// # fn main() -> Result<(), Box<dyn std::error::Error>> {
/// let names = Names::new(["mic", "echo", "song"])?;
/// let howl = names.parse("mic & echo & !song")?;
/// assert_eq!(howl, names.current("mic")? & names.current("echo")? & !names.current("song")?);
/// assert_eq!(howl.to_string(), "bit0 & bit1 & !bit2");
/// assert_eq!(names.text(&howl), "mic & echo & !song");
///
/// let mut accounts = [Account::unlimited()];
/// let mut table = Table::new(&mut accounts, names.len(), 100)?;
/// table.relation(0, names.parse("mic' & (echo' <=> mic) & (song' <=> song)")?)?;
/// table.set(&mut accounts, Target::register(0), howl)?;
/// let state = table.pick(0)?.unwrap();
/// assert_eq!(names.on(state), ["mic", "echo"]);
/// # Ok(())
/// # }
/// ```
#[derive(Clone, Debug, Default, PartialEq, Eq, Hash)]
pub struct Names {
    names: Vec<String>,
}

/// Why there are no such names.
///
/// ```
/// use kudzuclamp::{NameError, Names};
///
/// assert_eq!(Names::new(["mic", "mic"]), Err(NameError::Twice("mic".into())));
/// assert_eq!(Names::new(["mu"]), Err(NameError::Reserved("mu".into())));
/// assert_eq!(Names::new(["2nd"]), Err(NameError::NoName("2nd".into())));
/// assert_eq!(Names::default().current("mic"), Err(NameError::Unknown("mic".into())));
/// ```
#[non_exhaustive]
#[derive(Clone, Debug, PartialEq, Eq, Hash)]
pub enum NameError {
    /// It does not begin with a letter or `_`, or has something else than letters, digits, `_` and,
    /// inside, `-`.
    NoName(String),
    /// It is a word of the text.
    Reserved(String),
    /// Two bits have it.
    Twice(String),
    /// There are more than 16.
    TooMany,
    /// No bit has it.
    Unknown(String),
}

impl fmt::Display for NameError {
    fn fmt(&self, f: &mut fmt::Formatter<'_>) -> fmt::Result {
        match self {
            NameError::NoName(name) => write!(
                f,
                "{name:?} is no name: it has letters, digits, _ and, inside, -, a letter or _ first"
            ),
            NameError::Reserved(name) => write!(f, "{name:?} is a word of formulas, and no name"),
            NameError::Twice(name) => write!(f, "two bits have the name {name:?}"),
            NameError::TooMany => f.write_str("there are more than 16 names, and at most 16 bits"),
            NameError::Unknown(name) => write!(f, "no bit has the name {name:?}"),
        }
    }
}

impl std::error::Error for NameError {}

impl Names {
    /// Names for bits 0, 1, 2 and so on, at most 16.
    ///
    /// # Errors
    ///
    /// The first name that is none, is a word of the text, or is another bit's; or there are too many.
    pub fn new<S: Into<String>>(names: impl IntoIterator<Item = S>) -> Result<Names, NameError> {
        // One more than fit is enough to see that there are too many.
        let names: Vec<String> = (names.into_iter().map(Into::into))
            .take(MAX_BITS as usize + 1)
            .collect();
        if names.len() > MAX_BITS as usize {
            return Err(NameError::TooMany);
        }
        for (p, name) in names.iter().enumerate() {
            if !is_name(name) {
                return Err(NameError::NoName(name.clone()));
            }
            if is_reserved(name) {
                return Err(NameError::Reserved(name.clone()));
            }
            if names[..p].contains(name) {
                return Err(NameError::Twice(name.clone()));
            }
        }
        Ok(Names { names })
    }

    /// How many bits have names.
    #[must_use]
    pub fn len(&self) -> u32 {
        self.names.len() as u32
    }

    /// Whether no bit has a name.
    #[must_use]
    pub fn is_empty(&self) -> bool {
        self.names.is_empty()
    }

    /// The bit with a name; none where no bit has it.
    ///
    /// ```
    /// let names = kudzuclamp::Names::new(["mic", "echo"])?;
    /// assert_eq!((names.place("echo"), names.place("song")), (Some(1), None));
    /// # Ok::<(), kudzuclamp::NameError>(())
    /// ```
    #[must_use]
    pub fn place(&self, name: &str) -> Option<u32> {
        let place = self.names.iter().position(|known| known == name)?;
        Some(place as u32)
    }

    /// The name of bit p, or `bitp`.
    ///
    /// ```
    /// let names = kudzuclamp::Names::new(["mic", "echo"])?;
    /// assert_eq!((names.bit(1), names.bit(2)), ("echo".into(), "bit2".into()));
    /// # Ok::<(), kudzuclamp::NameError>(())
    /// ```
    #[must_use]
    pub fn bit(&self, p: u32) -> String {
        let name = self.names.get(p as usize);
        name.cloned().unwrap_or_else(|| format!("bit{p}"))
    }

    /// The current bit with a name, as [`Formula::current`].
    ///
    /// # Errors
    ///
    /// [`NameError::Unknown`].
    #[doc(alias = "mk_var_by_name")]
    pub fn current(&self, name: &str) -> Result<Formula, NameError> {
        self.known(name).map(Formula::current)
    }

    /// The next bit with a name, as [`Formula::next`].
    ///
    /// # Errors
    ///
    /// [`NameError::Unknown`].
    ///
    /// ```
    /// let names = kudzuclamp::Names::new(["mic", "echo"])?;
    /// assert_eq!(names.next("echo")?.to_string(), "bit1'");
    /// # Ok::<(), kudzuclamp::NameError>(())
    /// ```
    pub fn next(&self, name: &str) -> Result<Formula, NameError> {
        self.known(name).map(Formula::next)
    }

    fn known(&self, name: &str) -> Result<u32, NameError> {
        let unknown = || NameError::Unknown(name.to_string());
        self.place(name).ok_or_else(unknown)
    }

    /// The formula of a text: as a formula's own `parse`, and with names for bits, `'` after one for
    /// the next bit.
    ///
    /// # Errors
    ///
    /// [`ParseError`], with the place in the text.
    ///
    /// ```
    /// let names = kudzuclamp::Names::new(["mic", "mic-B"])?;
    /// assert_eq!(names.parse("mic-B' => mic").unwrap().to_string(), "!bit1' | bit0");
    /// let error = names.parse("mic & echo").unwrap_err();
    /// assert_eq!(error.to_string(), "at 6: no bit has the name \"echo\"");
    /// # Ok::<(), kudzuclamp::NameError>(())
    /// ```
    #[doc(alias = "eval_expression_string")]
    #[doc(alias = "add_expr")]
    pub fn parse(&self, text: &str) -> Result<Formula, ParseError> {
        parse::formula(text, self)
    }

    /// The text of a formula, with names for bits; [`Names::parse`] reads it.
    ///
    /// ```
    /// let names = kudzuclamp::Names::new(["mic"])?;
    /// assert_eq!(names.text(&kudzuclamp::Formula::keeps(0)), "mic' & mic | !mic' & !mic");
    /// # Ok::<(), kudzuclamp::NameError>(())
    /// ```
    #[doc(alias = "to_expr")]
    #[must_use]
    pub fn text(&self, formula: &Formula) -> String {
        display::text(formula, self)
    }

    /// The names of the bits that are 1 in a state, the first bit's first, as [`Names::bit`] has them.
    ///
    /// ```
    /// let names = kudzuclamp::Names::new(["mic", "echo", "song"])?;
    /// assert_eq!(names.on(0b101), ["mic", "song"]);
    /// assert_eq!(names.on(0b1001), ["mic", "bit3"]);
    /// # Ok::<(), kudzuclamp::NameError>(())
    /// ```
    #[must_use]
    pub fn on(&self, state: u32) -> Vec<String> {
        let on = (0..MAX_BITS).filter(|p| state >> p & 1 == 1);
        on.map(|p| self.bit(p)).collect()
    }
}
