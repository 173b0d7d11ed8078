//! What is told of lines that are no lines: what to write instead, and never the opposite of what the line seems to say.
use super::{
    joined, joins_two, not_understood, quoted, Line, Read, Reader, FIRST_WORDS, MOST_NAMES,
};
use crate::mistake::{similar, MOST_SHOWN};
use crate::words::{Word, RESERVED};

/// The most words of a button that a line is searched for.
const BUTTON_WORDS: usize = 8;

/// Said where a button seems to be asked not to work.
const NOT_ASKED: &str =
    "no line asks that a button does not work: \"BUTTON works whenever ...\" asks that it does";

/// Said where "works" is another word, or is missing.
const HOW_ASKED: &str = "a button is asked about in the words \"BUTTON works whenever ...\"";

/// Where `works whenever` stands on a line that asks about a button. No such line has a colon.
pub(super) fn works_whenever(words: &[Word]) -> Option<usize> {
    let is_pair = |pair: &[Word]| pair[0].text == "works" && pair[1].text == "whenever";
    let at = words.windows(2).position(is_pair)?;
    let colon = words.iter().any(|word| word.text == ":");
    (at > 0 && !colon).then_some(at)
}

/// Whether words before "works" say that something does not.
fn denies(before: &str) -> bool {
    let words = ["no", "not", "never", "cannot", "stops", "fails"];
    let before = before.to_lowercase();
    let mut said = before.split(' ');
    said.any(|word| words.contains(&word) || word.ends_with("n't"))
}

/// What to write where the verb before "whenever" is another than "works".
pub(super) fn no_works(before: &[Word], verb: &str) -> String {
    if denies(&joined(before)) {
        return NOT_ASKED.to_string();
    }
    let near =
        verb.to_lowercase().starts_with('w') && similar(verb, ["works"].into_iter()).is_some();
    match near {
        true => not_understood(verb, "works"),
        false => HOW_ASKED.to_string(),
    }
}

/// What to write for "whenever X: Y", in whatever words, where something is lacking: the opposite must never be.
pub(super) fn implies(words: &[Word], lacks: &str) -> String {
    let middle = [":", "then", ","].into_iter();
    let middle = middle.filter_map(|sign| words.iter().position(|word| word.text == sign));
    let example = middle.take(1).find_map(|at| {
        let (x, y) = (
            condition_of(words.get(1..at)?)?,
            condition_of(&words[at + 1..])?,
        );
        Some(format!("never {x} and not {y}"))
    });
    let example = example.unwrap_or("never X and not Y".to_string());
    format!("{lacks}. What must hold in every such state: write \"{example}\"")
}

/// Words as a condition, in parentheses where there are several; a comma joins as "and" does. None where they are no condition.
fn condition_of(words: &[Word]) -> Option<String> {
    let fits = |word: &Word| match word.text {
        "and" | "or" | "not" | "on" | "off" | "(" | ")" | "=" => true,
        text => word.is_name() && !RESERVED.contains(&text) && text != "then",
    };
    let comma = |word: &Word| word.text == ",";
    let from = usize::from(words.first().is_some_and(comma));
    let to = words.len() - usize::from(words.len() > from && words.last().is_some_and(comma));
    let parts: Vec<&[Word]> = words[from..to].split(comma).collect();
    if !(parts.iter()).all(|part| !part.is_empty() && part.iter().all(fits)) {
        return None;
    }
    let texts: Vec<String> = parts.iter().map(|part| quoted(part)).collect();
    match &texts[..] {
        [text] => Some(text.clone()),
        _ => Some(format!("({})", texts.join(" and "))),
    }
}

impl<'a> Reader<'a> {
    /// Tells what to write for a line that begins with no word that begins a line, where that can be told.
    pub(super) fn other_line(&mut self, line: &Line<'a, '_>) -> Read<()> {
        let words = line.words;
        let second = words.get(1).map_or("", |word| word.text);
        if words[0].text.eq_ignore_ascii_case("not") && second == "possible" {
            return self.never_instead(words, 1);
        }
        self.of_a_button(words)?;
        let small = words[0].text.to_lowercase();
        // "ever", "every" and "forever" say the opposite, and have no n where "never" has it.
        let negative = small.chars().take(2).any(|c| c == 'n');
        let known = FIRST_WORDS
            .into_iter()
            .filter(|word| *word != "never" || negative);
        match similar(&small, ["impossible"].into_iter().chain(known)) {
            Some("impossible") => self.never_instead(words, 0),
            Some(word) => {
                let says = format!(
                    "no line begins with \"{}\". Is \"{word}\" meant?",
                    words[0].text
                );
                self.wrong(&words[0], says)
            }
            None => Ok(()),
        }
    }

    /// Tells to write "never" for what must not be possible, as the word at a place says.
    pub(super) fn never_instead(&mut self, words: &[Word<'a>], at: usize) -> Read<()> {
        let rest = &words[at + 1..];
        let rest = &rest[usize::from(rest.first().is_some_and(|word| word.text == ":"))..];
        let cond = match rest.is_empty() {
            true => "...".to_string(),
            false => joined(rest),
        };
        let says = format!("for what no presses lead to, write \"never {cond}\"");
        self.wrong(&words[at], says)
    }

    /// Tells how a button is asked about, or pressed, where a line begins with one or says that something works.
    fn of_a_button(&mut self, words: &[Word<'a>]) -> Read<()> {
        let is_verb = |word: &Word| matches!(word.text, "work" | "works");
        let verb = words.iter().position(is_verb).filter(|at| *at > 0);
        let begins = (1..=words.len().min(BUTTON_WORDS)).rev();
        let button = (begins.map(|count| joined(&words[..count])))
            .find(|label| self.buttons.contains(label))
            .or(verb.map(|at| joined(&words[..at])));
        let Some(button) = button else {
            return Ok(());
        };
        if verb.is_some_and(|at| denies(&joined(&words[..at]))) {
            return self.wrong(&words[0], NOT_ASKED.to_string());
        }
        let says = match words.iter().any(|word| word.text == ":") {
            true => format!("write \"press {button}: ...\" for what the button does"),
            false => format!("write \"{button} works whenever ...\" to ask about the button"),
        };
        self.wrong(&words[0], says)
    }

    /// Tells what to write for "never X until Y".
    pub(super) fn never_until(&mut self, line: &Line<'a, '_>) -> Read<()> {
        let Some(joint) = line.peek().filter(|word| joins_two(word.text)) else {
            return Ok(());
        };
        let x = quoted(&line.words[1..line.at]);
        let y = match &line.words[line.at + 1..] {
            [] => "...".to_string(),
            rest => joined(rest),
        };
        let unless = format!("\"not {x} unless {y}\"");
        let says = match joint.text {
            "unless" => format!("without \"never\": write {unless}"),
            _ => format!("without \"never\": write \"not {x} until {y}\"; or {unless}, where that need not come"),
        };
        self.wrong(&joint, says)
    }

    /// Tells that a question names a button that no press does.
    pub(super) fn no_press(&self, label: &str) -> String {
        if denies(label) {
            return NOT_ASKED.to_string();
        }
        let buttons = self.presses.iter().map(String::as_str);
        match self.similar(label, buttons) {
            Some(other) => format!("no press is called \"{label}\". Is \"{other}\" meant?"),
            None => format!("no press is called \"{label}\""),
        }
    }

    /// The name that may be meant, where the mistake will be shown: later ones are only counted.
    pub(super) fn similar<'n>(
        &self,
        word: &str,
        names: impl Iterator<Item = &'n str>,
    ) -> Option<&'n str> {
        match self.mistakes.len() < MOST_SHOWN {
            true => similar(word, names.take(MOST_NAMES)),
            false => None,
        }
    }
}
