//! What a shop hands over: what is known of each of its room files, a line for each.
use crate::ask::{Answer, Difference, Limits, Verdict};
use crate::echo::grouped;
use crate::finding::{findings, worst};
use crate::report::{self, Outcome};
use crate::room::Room;

/// The digits of a file's hash that a line shows.
const SHORT: usize = 12;

/// What is known of one room file.
pub struct Sheet {
    pub name: String,
    /// The file's SHA-256, where it can be read.
    pub hash: Option<String>,
    pub found: Found,
}

pub enum Found {
    /// The file cannot be read, and why.
    Unread(String),
    /// How many mistakes it has, and how they are told.
    Mistakes(usize, String),
    /// Table and walk differ on a question.
    Differs(Difference, String),
    Answered(Box<Answered>),
}

/// A room with the answers to its questions.
pub struct Answered {
    pub room: Room,
    pub answers: Vec<Answer>,
    pub limits: Limits,
    /// The states that presses lead to from the start, and whether the library found the same.
    pub comes: u32,
    pub checked: bool,
    /// The most rows that a step needed, where every question is answered in the file's order.
    pub rows: Option<u32>,
    pub notes: Vec<String>,
}

/// Whether every question has its verdict in the file's order of the things.
pub fn all_in_order(answers: &[Answer]) -> bool {
    let settled =
        |answer: &Answer| answer.ordered.is_none() && !matches!(answer.verdict, Verdict::None(_));
    answers.iter().all(settled)
}

impl Sheet {
    pub fn outcome(&self) -> Outcome {
        match &self.found {
            Found::Unread(_) | Found::Mistakes(..) => Outcome::BadFile,
            Found::Differs(..) => Outcome::Differs,
            Found::Answered(answered) => report::outcome(&answered.room, &answered.answers),
        }
    }

    /// The word before the room.
    pub fn word(&self) -> &'static str {
        match &self.found {
            Found::Unread(_) => "NOT READ",
            Found::Mistakes(..) => "MISTAKES",
            Found::Differs(..) => "NO VERDICT",
            Found::Answered(answered) => worst(&findings(&answered.room, &answered.answers)).word(),
        }
    }

    /// The file's hash, shortened.
    pub fn short_hash(&self) -> &str {
        self.hash.as_deref().map_or("", |hash| &hash[..SHORT])
    }

    /// One line, in which names take so many letters.
    pub fn line(&self, widest: usize) -> String {
        let says = match &self.found {
            Found::Unread(why) => return format!("{}{why}\n", self.begins(widest)),
            Found::Mistakes(count, _) => {
                let mistakes = counted(*count, "mistake", "mistakes");
                format!("{:<41}", format!("{mistakes:>13}. Nothing was asked."))
            }
            Found::Differs(..) => format!("{:<41}", "   table and walk differ"),
            Found::Answered(answered) => columns(answered),
        };
        let hash = self.short_hash();
        let begins = self.begins(widest);
        format!("{begins}{says}  sha256 {hash}  {} library\n", library())
    }

    fn begins(&self, widest: usize) -> String {
        format!("{:<12}{:<widest$}  ", self.word(), self.name)
    }
}

/// Whether the library in this command is proved.
pub fn library() -> &'static str {
    match kudzuclamp::PROVED {
        true => "proved",
        false => "quick",
    }
}

/// Questions, states and rows of a room, one below the other in all lines.
fn columns(answered: &Answered) -> String {
    let questions = counted(answered.answers.len(), "question", "questions");
    let states = counted(answered.room.states() as usize, "state", "states");
    let rows = match answered.rows {
        Some(rows) => grouped(rows),
        None => "?".to_string(),
    };
    format!("{questions:>13}  {states:>13}  {rows:>6} rows")
}

pub fn counted(number: usize, one: &str, more: &str) -> String {
    match number {
        1 => format!("1 {one}"),
        _ => format!("{} {more}", grouped(number as u32)),
    }
}

/// The outcomes from fine to worst. What is known to be bad counts more than what is not known, and most that the command itself
/// is at fault.
const BY_WEIGHT: [Outcome; 5] = [
    Outcome::Safe,
    Outcome::NoVerdict,
    Outcome::BadFile,
    Outcome::Broken,
    Outcome::Differs,
];

/// The worst outcome of all rooms.
pub fn outcome(sheets: &[Sheet]) -> Outcome {
    let weight = |outcome: Outcome| BY_WEIGHT.iter().position(|other| *other == outcome);
    let all = sheets.iter().map(Sheet::outcome);
    all.max_by_key(|outcome| weight(*outcome))
        .unwrap_or(Outcome::Safe)
}

/// How many rooms there are of each kind.
pub fn summary(sheets: &[Sheet]) -> String {
    let mut kinds: Vec<(&str, usize)> = Vec::new();
    for sheet in sheets {
        let word = sheet.word();
        match kinds.iter_mut().find(|(other, _)| *other == word) {
            Some((_, count)) => *count += 1,
            None => kinds.push((word, 1)),
        }
    }
    let said = |(word, count): &(&str, usize)| match *word {
        "MISTAKES" => format!("{count} with mistakes"),
        "NOT READ" => format!("{count} not read"),
        word => format!("{count} {word}"),
    };
    let kinds: Vec<String> = kinds.iter().map(said).collect();
    let rooms = counted(sheets.len(), "room", "rooms");
    let stop = match outcome(sheets) {
        Outcome::Safe => "",
        _ => " Do not hand over.",
    };
    format!("{rooms}: {}.{stop}", kinds.join(", "))
}
