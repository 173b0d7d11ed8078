//! Verdicts in words.
use crate::ask::{press, Answer, Difference, Limits, Verdict};
use crate::changes;
use crate::echo::{self, grouped};
use crate::finding::{findings, worst, Finding};
use crate::room::{Asked, Cond, Question, Room, Rule, State};
use crate::walk::{members, End, Run, Walk};
use crate::{orders, sense};
use kudzuclamp::Refusal;

/// The steps of a long run that are shown from its start and from its end.
const FIRST_STEPS: usize = 20;
const LAST_STEPS: usize = 5;

/// What the command found, with its exit status.
#[derive(Clone, Copy, Debug, PartialEq, Eq)]
pub enum Outcome {
    Safe = 0,
    Broken = 1,
    BadFile = 2,
    NoVerdict = 3,
    Differs = 4,
}

impl Outcome {
    pub fn status(self) -> u8 {
        self as u8
    }
}

/// The worst outcome of all verdicts: not as it should be, else no verdict, else safe.
pub fn outcome(room: &Room, answers: &[Answer]) -> Outcome {
    match worst(&findings(room, answers)) {
        Finding::Broken | Finding::Unexpected => Outcome::Broken,
        Finding::NoVerdict => Outcome::NoVerdict,
        Finding::Safe | Finding::AsExpected => Outcome::Safe,
    }
}

/// The lines of a question and its verdict.
pub fn verdict(
    room: &Room,
    question: &Question,
    verdict: &Verdict,
    limits: Limits,
    whole: bool,
) -> String {
    let found = Finding::new(question, verdict);
    let asked = echo::asked(room, &question.asked);
    let mut text = format!("{:<12}{}{asked}\n", found.word(), found.verdict());
    if found == Finding::Unexpected {
        text += &format!("            {}\n", gone(question));
    }
    match verdict {
        Verdict::Safe(None) => text,
        Verdict::Safe(Some(run)) | Verdict::Broken(run) => {
            text + &shown(room, &question.asked, run, whole)
        }
        Verdict::None(refusal) => text + &format!("            {}\n", cause(*refusal, limits)),
    }
}

/// What to do where a fault that is expected is not there.
pub fn gone(question: &Question) -> String {
    format!(
        "Line {} expects it to be BROKEN: that fault is gone. If it is mended, take \"expect BROKEN:\" away.",
        question.line
    )
}

/// Why there is no verdict.
pub fn cause(refusal: Refusal, limits: Limits) -> String {
    match refusal {
        Refusal::Full => format!(
            "The table is full: a step needs more than its {} rows. Not safe, not broken: unknown.{}",
            grouped(limits.rows),
            if limits.rows < Limits::LARGEST.rows { " Take a larger table: --rows" } else { "" }
        ),
        _ => format!(
            "The {} rounds are used up. Not safe, not broken: unknown. Take more: --rounds",
            grouped(limits.rounds)
        ),
    }
}

/// A run, a line for each press with what it changes. The state stands in whole at the start, at the end, and behind presses that
/// are left out.
fn shown(room: &Room, asked: &Asked, run: &Run, whole: bool) -> String {
    let presses = run.states.len() - 1;
    let names: Vec<&str> = (run.states.windows(2))
        .map(|pair| press(room, pair[0], pair[1]).unwrap_or("?"))
        .collect();
    let lengths = names.iter().map(|name| name.chars().count());
    let widest = lengths.max().unwrap_or(0).max("start".len());
    let digits = presses.to_string().len();
    let line = |number: &str, name: &str, says: &str| {
        format!("  {number:>digits$}  {name:widest$}  {says}\n")
    };
    let state = |name: &str, at: usize| line("", name, &echo::state(room, run.states[at]));
    let step = |at: usize| {
        let change = changes::said(room, run.states[at], run.states[at + 1]);
        line(&(at + 1).to_string(), names[at], &change)
    };
    let mut text = format!("  {}\n", introduction(room, asked, run));
    text += &state("start", 0);
    let hidden = match whole || presses <= FIRST_STEPS + LAST_STEPS {
        true => presses..presses,
        false => FIRST_STEPS..presses - LAST_STEPS,
    };
    text.extend((0..hidden.start).map(step));
    if !hidden.is_empty() {
        let count = grouped(hidden.len() as u32);
        text += &format!("  ... {count} presses more; --whole-run shows them\n");
        text += &state("then", hidden.end);
    }
    text.extend((hidden.end..presses).map(step));
    if presses > 0 {
        text += &state("end", presses);
    }
    text + &closing(room, asked, run.end)
}

/// The line above a run.
pub fn introduction(room: &Room, asked: &Asked, run: &Run) -> String {
    let presses = run.states.len() - 1;
    let farthest = room.any_start && matches!(asked, Asked::Possible(_));
    let from = match farthest && run.end == End::Reached {
        true => " from the start that is farthest from there",
        false => "",
    };
    let number = grouped(presses as u32);
    match presses {
        0 => "At the start already:".to_string(),
        1 => format!("One press does it{from}:"),
        _ if run.least => format!("{number} presses do it{from}, and no fewer:"),
        _ => format!(
            "{number} presses do it; fewer may do it too, by a circle that was not looked at:"
        ),
    }
}

/// What is wrong at the end of a run, where the question does not say it by itself.
pub fn closing(room: &Room, asked: &Asked, end: End) -> String {
    let mut conds = asked.conditions().into_iter();
    let mut said = || conds.next().map_or(String::new(), |c| echo::cond(room, c));
    let (first, second, third) = (said(), said(), said());
    let lost = |holds: &str, comes: &str| {
        format!("  There \"{holds}\" does not hold, and \"{comes}\" has not come.\n")
    };
    match (end, asked) {
        (End::Reached, _) => String::new(),
        (End::NoWay, Asked::Until(..)) => {
            format!("  From there no presses lead to \"{second}\" with \"{first}\" up to it.\n")
        }
        (End::NoWay, _) => format!("  From there no presses lead to \"{first}\".\n"),
        (End::Lost, _) => lost(&first, &second),
        (End::LostSince(place), _) => {
            let since = format!("  \"{first}\" holds {}.\n", at_place(place));
            since + &lost(&second, &third)
        }
        (End::DoesNotWork, Asked::Works(press, _)) => format!("  There {press} does not work.\n"),
        (End::DoesNotWork, _) => String::new(),
        (End::Stuck, _) => format!("  There no press works, and \"{second}\" has not come.\n"),
        (End::Circle(place), _) => {
            let state = match place {
                0 => "the start".to_string(),
                _ => format!("the state {}", at_place(place)),
            };
            format!("  That is {state} again, and so on for ever: \"{second}\" need never come.\n")
        }
    }
}

/// Where in a run a state stands.
fn at_place(place: usize) -> String {
    match place {
        0 => "at the start".to_string(),
        _ => format!("after press {}", grouped(place as u32)),
    }
}

/// What the two do not agree on, and for which question.
pub fn difference(difference: &Difference, asked: &str) -> String {
    format!(
        "NO VERDICT  {asked}\n            \
         The table and a plain walk over all states do not agree: {}.\n            \
         This is a fault of the command room, not of the file. Do not hand over by it, and please report the file.\n",
        difference.says
    )
}

/// The line above the verdicts.
pub fn heading(room: &Room) -> String {
    let mut presses: Vec<&str> = room.rules.iter().map(|rule| rule.press.as_str()).collect();
    presses.sort_unstable();
    presses.dedup();
    let count = |number: usize, one: &str, more: &str| match number {
        1 => format!("1 {one}"),
        _ => format!("{} {more}", grouped(number as u32)),
    };
    format!(
        "{}, {}. Start: {}.\n",
        count(room.states() as usize, "state", "states"),
        count(presses.len(), "press", "presses"),
        echo::beginning(room)
    )
}

/// The last line.
pub fn summary(room: &Room, answers: &[Answer]) -> String {
    let found = findings(room, answers);
    let count = |wanted: Finding| found.iter().filter(|finding| **finding == wanted).count();
    let (worst, of) = (worst(&found), answers.len());
    let said = match (worst, count(worst)) {
        (Finding::Safe, 1) => return "SAFE.\n".to_string(),
        (Finding::Safe, _) => return format!("SAFE: all {of} questions.\n"),
        (Finding::AsExpected, broken) if broken < of => {
            return format!("AS EXPECTED: {broken} of {of} questions BROKEN, the others SAFE.\n")
        }
        (Finding::AsExpected, _) => return "AS EXPECTED: BROKEN.\n".to_string(),
        (Finding::Unexpected, gone) => format!("{gone} of {of} questions{GONE}"),
        (_, bad) => format!("{bad} of {of} questions"),
    };
    let also = |wanted: Finding, says: &str| match count(wanted) {
        number if number > 0 && wanted < worst => format!(", and {number}{says}"),
        _ => String::new(),
    };
    format!(
        "{}: {said}{}{}. Do not hand over.\n",
        worst.word(),
        also(Finding::Unexpected, GONE),
        also(Finding::NoVerdict, " without a verdict")
    )
}

/// Said of a known fault that is not there.
const GONE: &str = " SAFE and expected BROKEN";

/// How many rows are enough, where every question has its verdict in the file's order; else, which have none.
pub fn rows_needed(room: &Room, answers: &[Answer], peak: u32) -> String {
    let mut open = String::new();
    for (question, answer) in room.questions.iter().zip(answers) {
        let how = match (&answer.verdict, &answer.ordered) {
            (Verdict::None(_), _) => "",
            (_, Some(_)) => " (answered in another order of the things)",
            _ => continue,
        };
        let asked = echo::asked(room, &question.asked);
        open += &format!("  line {}: {asked}{how}\n", question.line);
    }
    if open.is_empty() {
        return format!(
            "A table of {} rows is enough for these questions, and no smaller one.\n",
            grouped(peak.max(1))
        );
    }
    format!("How many rows are enough is not known. Without a verdict in the file's order:\n{open}")
}

/// How many presses of two rooms do the same.
pub fn same_presses(count: usize) -> String {
    match count {
        0 => String::new(),
        1 => "1 press does the same as before.\n".to_string(),
        _ => format!("{} presses do the same as before.\n", grouped(count as u32)),
    }
}

/// In which order of the things a verdict was found, or that none was.
pub fn order(answer: &Answer) -> String {
    let says = match &answer.ordered {
        Some(room) => format!(
            "In the file's order of things the table is full. This verdict is by the order: {}",
            orders::names(room)
        ),
        None => "No other order of the things in the table was found to help.".to_string(),
    };
    format!("            {says}\n")
}

/// Questions that are SAFE whatever the presses do: what they speak of does not come, or has come at the start.
fn empty_questions(room: &Room, walk: &Walk, states: &[State]) -> Vec<String> {
    let starts = members(&walk.starts);
    let holds = |cond: &Cond, state: &State| room.holds(cond, *state);
    let mut notes = Vec::new();
    for question in &room.questions {
        let said = |cond: &Cond| format!("\"{}\"", echo::cond(room, cond));
        let (empty, why) = match &question.asked {
            Asked::Works(_, x) | Asked::Whenever(x, ..) => (
                !states.iter().any(|state| holds(x, state)),
                format!("no presses lead to {}", said(x)),
            ),
            Asked::Until(_, y) | Asked::Unless(_, y) => (
                starts.iter().all(|state| holds(y, state)),
                format!("{} holds at the start already", said(y)),
            ),
            _ => continue,
        };
        if empty {
            notes.push(format!(
                "line {}: {why}, so this says nothing.",
                question.line
            ));
        }
    }
    notes
}

/// What is no mistake, but may not be meant.
pub fn notes(room: &Room, walk: &Walk) -> Vec<String> {
    let states = members(&walk.reached());
    let mut notes = unused(room);
    notes.extend(presses(room, &states));
    notes.extend(empty_questions(room, walk, &states));
    notes
}

/// Parts that nothing changes, and names that nothing uses.
fn unused(room: &Room) -> Vec<String> {
    let changed = |place: usize| {
        let mut effects = room.rules.iter().flat_map(|rule| &rule.effects);
        effects.any(|effect| effect.part == place)
    };
    let mut notes = Vec::new();
    for (place, part) in room.parts.iter().enumerate() {
        if !changed(place) {
            notes.push(format!(
                "no press changes {}: it stays as it is at the start.",
                part.name
            ));
        }
    }
    for (place, named) in room.named.iter().enumerate() {
        if !sense::uses(room, place) {
            notes.push(format!(
                "line {}: \"{}\" is named and never used.",
                named.line, named.name
            ));
        }
    }
    notes
}

/// Lines of presses that work in none of some states, and such that do one or the other.
fn presses(room: &Room, states: &[State]) -> Vec<String> {
    let mut notes = Vec::new();
    for rule in &room.rules {
        if !states.iter().any(|&state| room.works(rule, state)) {
            notes.push(format!(
                "line {}: {} never works in a state that presses lead to.",
                rule.line, rule.press
            ));
        }
    }
    for (at, rule) in room.rules.iter().enumerate() {
        let differ = |other: &Rule, state: u32| {
            let (one, two) = (room.pressed(other, state), room.pressed(rule, state));
            one.is_some() && two.is_some() && one != two
        };
        let both = room.rules[..at].iter().find(|other| {
            other.press == rule.press && states.iter().any(|&state| differ(other, state))
        });
        if let Some(other) = both {
            notes.push(format!(
                "lines {} and {}: {} can do one or the other in the same state.",
                other.line, rule.line, rule.press
            ));
        }
    }
    notes
}
