//! Formulas as text, written from their bytes.
use crate::token::{self, MAX_DEPTH};
use crate::{Formula, Names};
use std::fmt;

/// How tightly a text binds: a part is put in parentheses where its operator asks for more.
#[derive(Clone, Copy, PartialEq, Eq, PartialOrd, Ord)]
enum Binding {
    Binder,
    Or,
    And,
    Prefix,
}

/// What a formula's bytes say, and how tightly that binds.
struct Text {
    text: String,
    binding: Binding,
}

impl Text {
    /// The text as a part that must bind so tightly.
    fn at_least(self, binding: Binding) -> String {
        if self.binding < binding {
            format!("({})", self.text)
        } else {
            self.text
        }
    }
}

/// Reads formulas in prefix order.
struct Reader<'a> {
    tokens: &'a [u8],
    names: &'a Names,
}

impl Reader<'_> {
    /// The next formula, at most so deep; none where the bytes have none.
    fn formula(&mut self, depth: usize) -> Option<Text> {
        let (&token, rest) = self.tokens.split_first()?;
        self.tokens = rest;
        let below = depth.checked_sub(1)?;
        let (kind, k) = token::taken_apart(token)?;
        match kind {
            token::FALSE => leaf("false".into()),
            token::TRUE => leaf("true".into()),
            token::CURRENT => leaf(self.names.bit(k)),
            token::NEXT => leaf(self.names.bit(k) + "'"),
            token::VARIABLE => leaf(format!("P{k}")),
            token::REGISTER => leaf(format!("set{k}")),
            token::NOT => self.prefix("!".into(), below),
            token::BOX => self.prefix(format!("[{k}] "), below),
            token::DIAMOND => self.prefix(format!("<{k}> "), below),
            token::AND => self.infix("&", Binding::And, Binding::Prefix, below),
            token::OR => self.infix("|", Binding::Or, Binding::And, below),
            token::MU => self.binder(format!("mu P{k}"), below),
            token::NU => self.binder(format!("nu P{k}"), below),
            token::SOME_RUN => self.until(format!("some{k}"), below),
            _ => self.until(format!("every{k}"), below),
        }
    }

    fn prefix(&mut self, word: String, depth: usize) -> Option<Text> {
        let part = self.formula(depth)?.at_least(Binding::Prefix);
        leaf(word + &part)
    }

    /// An operator between two parts, the left one of its own kind without parentheses.
    fn infix(&mut self, word: &str, own: Binding, tighter: Binding, depth: usize) -> Option<Text> {
        let left = self.formula(depth)?.at_least(own);
        let right = self.formula(depth)?.at_least(tighter);
        let text = format!("{left} {word} {right}");
        Some(Text { text, binding: own })
    }

    fn binder(&mut self, word: String, depth: usize) -> Option<Text> {
        let text = format!("{word}. {}", self.formula(depth)?.text);
        let binding = Binding::Binder;
        Some(Text { text, binding })
    }

    fn until(&mut self, word: String, depth: usize) -> Option<Text> {
        let f = self.formula(depth)?.text;
        let g = self.formula(depth)?.text;
        leaf(format!("{word}({f} until {g})"))
    }
}

fn leaf(text: String) -> Option<Text> {
    let binding = Binding::Prefix;
    Some(Text { text, binding })
}

/// The text of a formula, with names for its bits.
pub fn text(formula: &Formula, names: &Names) -> String {
    let tokens = formula.tokens();
    let read = (Reader { tokens, names }).formula(MAX_DEPTH);
    let hex = || tokens.iter().map(|byte| format!(" {byte:02X}"));
    match read {
        Some(read) => read.text,
        None => format!("no formula:{}", hex().collect::<String>()),
    }
}

impl fmt::Display for Formula {
    fn fmt(&self, f: &mut fmt::Formatter<'_>) -> fmt::Result {
        f.write_str(&text(self, &Names::default()))
    }
}

#[cfg(test)]
mod tests {
    use crate::Formula;

    fn bit(p: u32) -> Formula {
        Formula::current(p)
    }

    #[test]
    fn every_kind() {
        let (f, g) = (bit(0), bit(15));
        let cases = [
            (Formula::falsity(), "false"),
            (Formula::truth(), "true"),
            (!&f, "!bit0"),
            (&f & &g, "bit0 & bit15"),
            (&f | &g, "bit0 | bit15"),
            (Formula::next(15), "bit15'"),
            (Formula::var(15), "P15"),
            (Formula::register(31), "set31"),
            (Formula::boxed(7, &f), "[7] bit0"),
            (Formula::diamond(0, &f), "<0> bit0"),
            (Formula::mu(15, &f), "mu P15. bit0"),
            (Formula::nu(0, &f), "nu P0. bit0"),
            (Formula::until_some(7, &f, &g), "some7(bit0 until bit15)"),
            (Formula::until_every(0, &f, &g), "every0(bit0 until bit15)"),
        ];
        for (formula, text) in cases {
            assert_eq!(formula.to_string(), text);
        }
    }

    #[test]
    fn parentheses() {
        let (a, b, c) = (bit(0), bit(1), bit(2));
        let mu = Formula::mu(0, &a | Formula::var(0));
        let cases = [
            ((&a & &b) & &c, "bit0 & bit1 & bit2"),
            (&a & (&b & &c), "bit0 & (bit1 & bit2)"),
            ((&a | &b) | &c, "bit0 | bit1 | bit2"),
            (&a | (&b | &c), "bit0 | (bit1 | bit2)"),
            ((&a & &b) | &c, "bit0 & bit1 | bit2"),
            (&a & (&b | &c), "bit0 & (bit1 | bit2)"),
            (!(&a & &b), "!(bit0 & bit1)"),
            (!!&a & &b, "!!bit0 & bit1"),
            (Formula::diamond(1, &a | &b), "<1> (bit0 | bit1)"),
            (Formula::boxed(1, !&a), "[1] !bit0"),
            (&mu & &b, "(mu P0. bit0 | P0) & bit1"),
            (&b | &mu, "bit1 | (mu P0. bit0 | P0)"),
            (!&mu, "!(mu P0. bit0 | P0)"),
            (Formula::nu(1, &mu), "nu P1. mu P0. bit0 | P0"),
            (
                Formula::until_some(0, &mu, &a | &b),
                "some0(mu P0. bit0 | P0 until bit0 | bit1)",
            ),
        ];
        for (formula, text) in cases {
            assert_eq!(formula.to_string(), text);
        }
    }

    #[test]
    fn what_no_call_takes() {
        assert_eq!(bit(16).to_string(), "no formula: FF");
        assert_eq!((!bit(16)).to_string(), "no formula: 02 FF");
        let deep = |depth| (1..depth).fold(bit(0), |f, _| !f);
        assert_eq!(deep(64).to_string(), "!".repeat(63) + "bit0");
        assert_eq!(
            deep(65).to_string(),
            format!("no formula:{} 10", " 02".repeat(64))
        );
    }

    /// Formulas of a few tokens, two operators deep: no two have the same text.
    #[test]
    fn texts_differ() {
        let mut made: Vec<Formula> = vec![bit(0), Formula::var(0)];
        for _ in 0..2 {
            let old = made.clone();
            for f in &old {
                made.extend([!f, Formula::mu(0, f), Formula::diamond(0, f)]);
                for g in &old {
                    made.extend([f & g, f | g, Formula::until_every(0, f, g)]);
                }
            }
            made.sort_by(|f, g| f.as_bytes().cmp(g.as_bytes()));
            made.dedup();
        }
        let texts: std::collections::HashSet<String> =
            made.iter().map(Formula::to_string).collect();
        assert!(made.len() > 1_000);
        assert_eq!(texts.len(), made.len());
    }
}
