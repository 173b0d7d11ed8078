//! What the words of a room file say.
mod advice;
mod conditions;
mod expected;
mod presses;

use crate::mistake::{similar, Mistake};
use crate::room::{width_of, Asked, Named, Part, Question, Room, State, MAX_BITS};
use crate::words::{self, Word, RESERVED};
use advice::{implies, no_works, works_whenever};
use expected::awaits_a_question;
use std::collections::{HashMap, HashSet};

/// The words that begin a line.
const FIRST_WORDS: [&str; 9] = [
    "things", "selector", "start", "press", "never", "always", "possible", "whenever", "expect",
];

/// The most names that lines with "means" give.
pub const MOST_NAMES: usize = 1_000;

/// What a line's reading gives; a line that is given up has told its mistake already.
type Read<T> = Result<T, GivenUp>;

struct GivenUp;

/// The room that a file's text says, or every mistake in it.
pub fn read(text: &str) -> Result<Room, Vec<Mistake>> {
    // Some editors put this mark at the beginning of a text.
    let lines = words::lines(text.strip_prefix('\u{feff}').unwrap_or(text));
    let mut reader = Reader {
        declared: declared(&lines),
        buttons: buttons(&lines),
        ..Reader::default()
    };
    for words in &lines {
        for words in reader.apart(words) {
            // A line that is given up leaves its mistake; the next ones are read all the same.
            let _ = reader.line(Line { words, at: 0 });
        }
    }
    reader.known_presses();
    reader.whole();
    reader.mistakes.sort_by_key(|m| (m.line, m.column));
    if reader.mistakes.is_empty() {
        Ok(reader.room)
    } else {
        Err(reader.mistakes)
    }
}

/// The state that a text says as the line `start:` would, of a room that was read; a thing's name alone says that it is on.
pub fn state(room: &Room, text: &str) -> Result<State, Vec<Mistake>> {
    let on = |item: &str| match room.parts.iter().find(|part| part.name == item.trim()) {
        Some(part) if !part.is_selector() => format!("{item} on"),
        _ => item.to_string(),
    };
    let items: Vec<String> = text.split(',').map(on).collect();
    let line = format!("start: {}", items.join(","));
    let mut reader = Reader {
        room: Room {
            parts: room.parts.clone(),
            named: room.named.clone(),
            ..Room::default()
        },
        ..Reader::default()
    };
    for words in &words::lines(&line) {
        let _ = reader.line(Line { words, at: 0 });
    }
    if reader.room.any_start {
        let says = "say one state, such as \"all off\"".to_string();
        reader.mistakes.push(Mistake::line(1, says));
    }
    match reader.mistakes.is_empty() {
        true => Ok(reader.room.start),
        false => Err(reader.mistakes),
    }
}

/// Every name that some line seems to declare, with that line.
fn declared<'a>(lines: &[Vec<Word<'a>>]) -> HashMap<&'a str, usize> {
    let mut found = HashMap::new();
    for words in lines {
        let names = match words[0].text {
            "things" => &words[1..],
            "selector" => &words[1..words.len().min(2)],
            _ if words.len() > 1 && words[1].text == "means" => &words[..1],
            _ => continue,
        };
        for word in names {
            found.entry(word.text).or_insert(word.line);
        }
    }
    found
}

/// Every button that some line seems to press.
fn buttons(lines: &[Vec<Word>]) -> HashSet<String> {
    let presses = lines.iter().filter(|words| words[0].text == "press");
    let named = presses.filter_map(|words| {
        let colon = words.iter().position(|word| word.text == ":")?;
        Some(joined(&words[1..colon]))
    });
    named.collect()
}

/// The words of a line, and how far they are read.
struct Line<'a, 'w> {
    words: &'w [Word<'a>],
    at: usize,
}

impl<'a> Line<'a, '_> {
    fn peek(&self) -> Option<Word<'a>> {
        self.words.get(self.at).copied()
    }

    fn is(&self, text: &str) -> bool {
        self.peek().is_some_and(|word| word.text == text)
    }

    fn next(&mut self) -> Option<Word<'a>> {
        let word = self.peek()?;
        self.at += 1;
        Some(word)
    }

    /// Reads a word if it comes next.
    fn take(&mut self, text: &str) -> bool {
        let taken = self.is(text);
        self.at += usize::from(taken);
        taken
    }

    /// The word read last.
    fn last(&self) -> Word<'a> {
        self.words[self.at.max(1) - 1]
    }
}

#[derive(Default)]
struct Reader<'a> {
    room: Room,
    /// The bytes that each named set takes.
    sizes: Vec<usize>,
    started: bool,
    /// The buttons that presses name, and those that questions name.
    presses: Vec<String>,
    asked_presses: Vec<(Word<'a>, String)>,
    declared: HashMap<&'a str, usize>,
    buttons: HashSet<String>,
    mistakes: Vec<Mistake>,
}

impl<'a> Reader<'a> {
    fn wrong<T>(&mut self, word: &Word, says: String) -> Read<T> {
        self.mistakes.push(Mistake::at(word, says));
        Err(GivenUp)
    }

    /// The words of a line, in pieces: a line of its own that begins with a blank is told, and read by itself.
    fn apart<'w>(&mut self, words: &'w [Word<'a>]) -> Vec<&'w [Word<'a>]> {
        let mut pieces = Vec::new();
        let mut from = 0;
        for at in 1..words.len() {
            let new_line = words[at].line > words[at - 1].line;
            let begins = begins_a_line(&words[at..]) && !awaits_a_question(&words[from..at]);
            if new_line && begins && words[at - 1].text != "always" {
                let says = format!(
                    "\"{}\" begins a line of its own, at the left edge: take the blanks before it away",
                    words[at].text
                );
                self.mistakes.push(Mistake::at(&words[at], says));
                pieces.push(&words[from..at]);
                from = at;
            }
        }
        pieces.push(&words[from..]);
        pieces
    }

    fn line(&mut self, mut line: Line<'a, '_>) -> Read<()> {
        let first = line.words[0];
        let second = line.words.get(1).map_or("", |word| word.text);
        match first.text {
            // A button may be called like a word that begins a line.
            _ if works_whenever(line.words).is_some() => self.works(&mut line),
            "things" => self.things(&mut line),
            "selector" => self.selector(&mut line),
            "start" => self.start(&mut line),
            "press" => self.press(&mut line),
            "never" => self.never(&mut line),
            "always" => self.always_possible(&mut line),
            "possible" => self.possible(&mut line),
            "whenever" => self.whenever(&mut line),
            "expect" => self.expect(&mut line),
            _ if second == "means" => self.means(&mut line),
            _ if line.words.iter().any(|word| word.text == "whenever") => self.works(&mut line),
            _ if (line.words.iter()).any(|word| joins_two(&word.text.to_lowercase())) => {
                self.until(&mut line)
            }
            _ => self.no_line(&line),
        }
    }

    /// What the file must have besides.
    fn whole(&mut self) {
        let lacks = [
            (
                self.room.parts.is_empty(),
                "nothing is switched here: a line such as \"things: mic echo song\" is missing",
            ),
            (
                !self.started,
                "the start is missing: a line such as \"start: all off\"",
            ),
            (
                self.room.rules.is_empty(),
                "no press is here: a line such as \"press ECHO: echo turns over\" is missing",
            ),
            (
                self.room.questions.is_empty(),
                "nothing is asked: a line such as \"never howl\" is missing",
            ),
        ];
        // Where a line was given up, what it would have said is not missed.
        if self.mistakes.is_empty() {
            let lacks = lacks.into_iter().filter(|(lacks, _)| *lacks);
            self.mistakes = lacks.map(|(_, says)| Mistake::file(says)).collect();
        }
    }

    /// Tells the buttons that a question names and no press does.
    fn known_presses(&mut self) {
        let known: HashSet<String> = self.presses.iter().cloned().collect();
        for (word, label) in std::mem::take(&mut self.asked_presses) {
            if !known.contains(&label) {
                let says = self.no_press(&label);
                self.mistakes.push(Mistake::at(&word, says));
            }
        }
    }

    fn no_line(&mut self, line: &Line<'a, '_>) -> Read<()> {
        let first = line.words[0];
        if !first.is_name() && !first.text.is_ascii() {
            return self.wrong(&first, strange(first.text));
        }
        if ["when", "if", "while"].contains(&first.text.to_lowercase().as_str()) {
            let lacks = format!("\"{}\" begins no line", first.text);
            return self.wrong(&first, implies(line.words, &lacks));
        }
        self.other_line(line)?;
        if let Some(second) = line.words.get(1) {
            if similar(second.text, ["means"].into_iter()).is_some() {
                return self.wrong(second, not_understood(second.text, "means"));
            }
        }
        let says = "a line begins with things, selector, start, press, never, possible, always possible, whenever or expect, or it is \
                    \"NAME means ...\", \"... until ...\", \"... unless ...\" or \"BUTTON works whenever ...\"";
        self.wrong(&first, says.to_string())
    }

    fn colon(&mut self, line: &mut Line, after: &str) -> Read<()> {
        if line.take(":") {
            return Ok(());
        }
        let last = line.last();
        self.wrong(&last, format!("a colon is missing after \"{after}\""))
    }

    fn end(&mut self, line: &Line) -> Read<()> {
        match line.peek() {
            None => Ok(()),
            Some(word) => self.unexpected(&word),
        }
    }

    /// A word that does not fit where it stands.
    fn unexpected<T>(&mut self, word: &Word) -> Read<T> {
        let text = word.text;
        let says = match text {
            ")" => "this ) has no ( before it".to_string(),
            _ if meant(text).is_some() => not_understood(text, meant(text).unwrap_or_default()),
            _ if joins_two(text) => {
                format!("one line asks one \"{text}\", outside all parentheses")
            }
            _ if FIRST_WORDS.contains(&text) => {
                format!("\"{text}\" begins a line of its own, at the left edge")
            }
            _ if word.is_name() || text == "(" => {
                format!("\"and\", \"or\" or a comma is missing before \"{text}\"")
            }
            _ => strange(text),
        };
        self.wrong(word, says)
    }

    // Declarations.

    fn things(&mut self, line: &mut Line<'a, '_>) -> Read<()> {
        line.next();
        self.colon(line, "things")?;
        for word in self.names(line, "things")? {
            self.part(&word, Vec::new());
        }
        Ok(())
    }

    fn selector(&mut self, line: &mut Line<'a, '_>) -> Read<()> {
        let keyword = line.words[0];
        line.next();
        let Some(name) = line.next().filter(|word| word.text != ":") else {
            return self.wrong(
                &keyword,
                "say the selector's name: selector NAME: its positions".to_string(),
            );
        };
        self.colon(line, name.text)?;
        let positions = self.names(line, name.text)?;
        if positions.len() < 2 {
            return self.wrong(
                &name,
                format!("\"{}\" needs two positions or more", name.text),
            );
        }
        let mut texts: Vec<String> = Vec::new();
        let mut known = HashSet::new();
        for word in positions {
            self.reserved(&word)?;
            if !known.insert(word.text) {
                return self.wrong(
                    &word,
                    format!("\"{}\" has the position \"{}\" twice", name.text, word.text),
                );
            }
            texts.push(word.text.to_string());
        }
        self.part(&name, texts);
        Ok(())
    }

    /// Names up to the end of the line, with blanks or commas between.
    fn names(&mut self, line: &mut Line<'a, '_>, of: &str) -> Read<Vec<Word<'a>>> {
        let mut names = Vec::new();
        while let Some(word) = line.next() {
            if !word.is_name() {
                return self.wrong(&word, no_name(word.text));
            }
            names.push(word);
            if line.take(",") && line.peek().is_none() {
                let comma = line.last();
                return self.wrong(&comma, "a name is missing after the comma".to_string());
            }
        }
        if names.is_empty() {
            let last = line.last();
            return self.wrong(&last, format!("names are missing after \"{of}:\""));
        }
        Ok(names)
    }

    /// Adds a thing or a selector, where its name is free and its bits fit.
    fn part(&mut self, name: &Word, positions: Vec<String>) {
        if self.free(name).is_err() {
            return;
        }
        let low = self.room.bits();
        let width = width_of(positions.len().max(2));
        if low + width > MAX_BITS {
            let says = format!(
                "\"{}\" does not fit: a room has at most {MAX_BITS} bits, and {low} are taken. A thing takes 1, a \
                 selector of 3 or 4 positions 2, of 5 to 8 positions 3, and so on",
                name.text
            );
            self.mistakes.push(Mistake::at(name, says));
            return;
        }
        self.room.parts.push(Part {
            name: name.text.to_string(),
            line: name.line,
            positions,
            low,
            width,
        });
    }

    fn reserved(&mut self, word: &Word) -> Read<()> {
        if !word.is_name() {
            return self.wrong(word, no_name(word.text));
        }
        if RESERVED.contains(&word.text) {
            return self.wrong(
                word,
                format!(
                    "\"{}\" has a meaning of its own here and can be no name",
                    word.text
                ),
            );
        }
        Ok(())
    }

    /// Whether a name may be given.
    fn free(&mut self, word: &Word) -> Read<()> {
        self.reserved(word)?;
        let part = |part: &Part| (part.name.as_str() == word.text).then_some(part.line);
        let named = |named: &Named| (named.name.as_str() == word.text).then_some(named.line);
        let taken =
            (self.room.parts.iter().find_map(part)).or(self.room.named.iter().find_map(named));
        match taken {
            None => Ok(()),
            Some(line) => self.wrong(
                word,
                format!("\"{}\" has been named already, on line {line}", word.text),
            ),
        }
    }

    fn means(&mut self, line: &mut Line<'a, '_>) -> Read<()> {
        let name = line.words[0];
        line.at = 2;
        if self.room.named.len() == MOST_NAMES {
            let says = "this name does not fit: a room has at most 1,000 of them";
            return self.wrong(&name, says.to_string());
        }
        self.free(&name)?;
        let (means, size) = self.condition(line)?;
        self.end(line)?;
        self.sizes.push(size);
        self.room.named.push(Named {
            name: name.text.to_string(),
            line: name.line,
            means,
        });
        Ok(())
    }

    // Questions.

    fn never(&mut self, line: &mut Line<'a, '_>) -> Read<()> {
        line.next();
        if line.is("possible") {
            return self.never_instead(line.words, 1);
        }
        let (cond, _) = self.condition(line)?;
        self.never_until(line)?;
        self.question(line, Asked::Never(cond))
    }

    fn always_possible(&mut self, line: &mut Line<'a, '_>) -> Read<()> {
        let keyword = line.words[0];
        line.next();
        if line.is("impossible") {
            return self.never_instead(line.words, 1);
        }
        if !line.take("possible") {
            let says = "write \"always possible: ...\" for what presses can always lead to, or \"never not ...\" for what must hold in \
                        every state";
            return self.wrong(&keyword, says.to_string());
        }
        self.colon(line, "always possible")?;
        let (cond, _) = self.condition(line)?;
        self.question(line, Asked::AlwaysPossible(cond))
    }

    fn possible(&mut self, line: &mut Line<'a, '_>) -> Read<()> {
        line.next();
        self.colon(line, "possible")?;
        let (cond, _) = self.condition(line)?;
        self.question(line, Asked::Possible(cond))
    }

    /// `whenever X: Y unless Z`.
    fn whenever(&mut self, line: &mut Line<'a, '_>) -> Read<()> {
        let keyword = line.words[0];
        let joins = line.words.iter().find(|word| joins_two(word.text));
        match joins {
            None => return self.wrong(&keyword, implies(line.words, "\"unless\" is missing")),
            Some(until) if until.text == "until" => {
                return self.wrong(until, not_understood(until.text, "unless"))
            }
            Some(_) => {}
        }
        line.next();
        let (begins, _) = self.condition(line)?;
        let last = line.last();
        self.colon(line, last.text)?;
        let (holds, _) = self.condition(line)?;
        if !line.take("unless") {
            return self.end(line);
        }
        let (comes, _) = self.condition(line)?;
        self.question(line, Asked::Whenever(begins, holds, comes))
    }

    /// `BUTTON works whenever X`.
    fn works(&mut self, line: &mut Line<'a, '_>) -> Read<()> {
        let words = line.words;
        let after = works_whenever(words).map(|works| works + 1);
        let whenever = after.or(words.iter().position(|word| word.text == "whenever"));
        let whenever = whenever.unwrap_or_default();
        let verb = words[whenever.max(1) - 1];
        if verb.text != "works" {
            let says = no_works(&words[..whenever.max(1) - 1], verb.text);
            return self.wrong(&verb, says);
        }
        if whenever < 2 {
            let says = "say which button: BUTTON works whenever ...";
            return self.wrong(&verb, says.to_string());
        }
        let press = self.label(&words[..whenever - 1])?;
        self.asked_presses.push((words[0], press.clone()));
        line.at = whenever + 1;
        let (cond, _) = self.condition(line)?;
        self.question(line, Asked::Works(press, cond))
    }

    fn until(&mut self, line: &mut Line<'a, '_>) -> Read<()> {
        let (before, _) = self.condition(line)?;
        let weak = line.take("unless");
        if !weak && !line.take("until") {
            self.end(line)?;
            let last = line.last();
            return self.wrong(
                &last,
                "\"until\" or \"unless\" is missing after this".to_string(),
            );
        }
        let (comes, _) = self.condition(line)?;
        let asked = if weak { Asked::Unless } else { Asked::Until };
        self.question(line, asked(before, comes))
    }

    fn question(&mut self, line: &Line, asked: Asked) -> Read<()> {
        self.end(line)?;
        let line = line.words[0].line;
        self.room.questions.push(Question {
            line,
            asked,
            expect_broken: false,
        });
        Ok(())
    }
}

/// Whether words can only be the beginning of a line.
fn begins_a_line(words: &[Word]) -> bool {
    let second = words.get(1).map_or("", |word| word.text);
    FIRST_WORDS.contains(&words[0].text) || second == "means"
}

/// The word that is meant by a sign of other languages, or by capitals.
fn meant(text: &str) -> Option<&'static str> {
    let small = text.to_lowercase();
    match small.as_str() {
        "&" => Some("and"),
        "|" => Some("or"),
        "!" => Some("not"),
        _ => (RESERVED.into_iter()).find(|word| *word == small && *word != text),
    }
}

/// Words as they stand, one blank between those that do not touch.
fn joined(words: &[Word]) -> String {
    let mut text = String::new();
    for (at, word) in words.iter().enumerate() {
        if at > 0 && !words[at - 1].touches(word) {
            text.push(' ');
        }
        text += word.text;
    }
    text
}

/// The same, in parentheses where there are several.
fn quoted(words: &[Word]) -> String {
    match words.len() {
        1 => joined(words),
        _ => format!("({})", joined(words)),
    }
}

/// The words between the two conditions of a question.
fn joins_two(word: &str) -> bool {
    matches!(word, "until" | "unless")
}

/// A selector's positions as a list.
fn one_of(part: &Part) -> String {
    part.positions.join(", ")
}

/// Why a word can be no name.
fn no_name(text: &str) -> String {
    if text.starts_with(|c: char| c.is_ascii_digit() || c == '-' || c == '_') {
        return format!("\"{text}\" can be no name: a name begins with a letter");
    }
    strange(text)
}

/// A word that has another one in its place here.
fn not_understood(text: &str, meant: &str) -> String {
    format!("\"{text}\" is not understood. Is \"{meant}\" meant?")
}

/// A character that means nothing.
fn strange(text: &str) -> String {
    let c = text.chars().next().unwrap_or(' ');
    if c.is_ascii_graphic() || c.is_alphanumeric() {
        format!("\"{text}\" means nothing here")
    } else {
        format!(
            "a character that means nothing stands here (U+{:04X})",
            u32::from(c)
        )
    }
}
