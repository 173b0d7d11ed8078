//! A walk through a room press by press: what is typed goes in as lines, what is said comes out as text.
mod lists;

use crate::diff::{presses, results};
use crate::room::{Asked, Room, State};
use crate::standing::{by_state, Standing};
use crate::steps::Steps;
use crate::typed::{self, Wanted};
use crate::walk::Walk;
use crate::{changes, echo, read, report};

const HINT: &str = "\
A press by its name, the beginning of it, or its number; or: undo, restart, list, help, quit.
";

const WALK_HELP: &str = "  NAME           makes the press; the beginning of its name is enough, in any case, or its number.
                 Several presses stand on one line with commas between them
  undo           takes the last press back
  restart        goes back to the start (also: back to start)
  list           shows the state, and what each press would do now
  start: STATE   begins in another state, where the evening may begin in any: start: all off
  quit           ends the walk, and prints the presses made
  Where a button is called like one of these words, the button is meant. The word has a colon
  before it then: :undo
  \"does nothing\": no line of the press works, and it is not counted as a press.
  \"nothing changes\": a line works, and all is so already.
  Broken by the state: never, always possible, works. By the presses so far: until, unless,
  whenever. At the start: possible.
  A question that is not broken here may be broken by other presses: room without --walk tells.
";

/// The most characters of a word that is said back.
const SAID_BACK: usize = 40;

/// Whether the walk goes on after a line.
#[derive(Clone, Copy, Debug, PartialEq, Eq)]
pub enum Then {
    GoesOn,
    Ends,
}

/// What a piece of a line did.
enum Did {
    /// It led to a state, be it the same one.
    Moved,
    Nothing,
    /// It is not understood, and the rest of its line is left out.
    Mistake,
    Ended,
}

pub struct Stepper<'a> {
    room: &'a Room,
    buttons: Vec<&'a str>,
    steps: Steps<'a>,
    /// Whether somebody types: the presses are listed after each one. Else the text says what was read, too.
    typing: bool,
    /// The questions that were said to be broken, by their places, in that order.
    broken: Vec<usize>,
    /// The questions that presses were said to break if they are repeated for ever.
    rounds: Vec<usize>,
    mistakes: usize,
}

impl<'a> Stepper<'a> {
    pub fn new(room: &'a Room, walk: &Walk, typing: bool) -> Stepper<'a> {
        Stepper {
            room,
            buttons: presses(room, room),
            steps: Steps::new(room, walk),
            typing,
            broken: Vec::new(),
            rounds: Vec::new(),
            mistakes: 0,
        }
    }

    /// The states from the start on.
    pub fn states(&self) -> &[State] {
        self.steps.states()
    }

    /// The questions that were said to be broken so far, by their places.
    pub fn broken(&self) -> &[usize] {
        &self.broken
    }

    /// How many lines were not understood.
    pub fn mistakes(&self) -> usize {
        self.mistakes
    }

    /// The first lines.
    pub fn begin(&mut self) -> String {
        let mut text = report::heading(self.room);
        if self.typing {
            text += HINT;
        }
        if !self.room.any_start {
            return text + &self.starts(self.room.start) + &self.after();
        }
        if self.typing {
            let example = echo::value(&self.room.parts[0], 1);
            text += &format!(
                "Say in which state it begins, such as: {example}; or: all off.\n\
                 What is not named is off, a selector at its first position.\n"
            );
        }
        text
    }

    /// What stands before what is typed.
    pub fn prompt(&self) -> &'static str {
        match self.steps.start() {
            None => "start: ",
            Some(_) => "> ",
        }
    }

    /// What is said to a line.
    pub fn line(&mut self, line: &str) -> (String, Then) {
        let line = line.split('#').next().unwrap_or_default().trim();
        let whole = typed::start(line).is_some() || self.steps.start().is_none();
        let pieces = match whole && !line.is_empty() {
            true => vec![line],
            false => typed::pieces(line, &self.buttons),
        };
        let (mut text, mut moved) = (String::new(), false);
        for (at, piece) in pieces.iter().enumerate() {
            let (said, did) = self.piece(piece);
            text += &said;
            match did {
                Did::Moved => moved = true,
                Did::Nothing => {}
                Did::Ended => return (text, Then::Ends),
                Did::Mistake => {
                    self.mistakes += 1;
                    if at + 1 < pieces.len() {
                        text += "  The rest of the line is left out.\n";
                    }
                    break;
                }
            }
        }
        match moved {
            true => (text + &self.after(), Then::GoesOn),
            false => (text, Then::GoesOn),
        }
    }

    /// The list of presses, where somebody types.
    fn after(&self) -> String {
        match self.typing {
            true => format!("\n{}", self.list()),
            false => String::new(),
        }
    }

    /// A line that says what was done, or what was typed, and what comes of it.
    fn told(&self, what: &str, says: &str) -> String {
        let prompt = if self.typing { "  " } else { "> " };
        format!("{prompt}{what}: {says}\n")
    }

    /// The same of what is not understood.
    fn mistaken(&self, typed: &str, says: &str) -> (String, Did) {
        let visible = typed.chars().map(|c| if c.is_control() { ' ' } else { c });
        let typed: String = visible.take(SAID_BACK).collect();
        (self.told(&typed, says), Did::Mistake)
    }

    fn piece(&mut self, piece: &str) -> (String, Did) {
        if let Some(state) = typed::start(piece) {
            return self.choose(state);
        }
        let wanted = typed::wanted(piece, &self.buttons);
        let Some(start) = self.steps.start() else {
            return self.before_start(piece, wanted);
        };
        match wanted {
            Ok(Wanted::Press(place, which)) => self.press(place, which),
            Ok(Wanted::Undo) => self.undo(),
            Ok(Wanted::Restart) => {
                let text = self.told("restart", &echo::state(self.room, start));
                (text + &self.starts(start), Did::Moved)
            }
            Ok(Wanted::List) => (self.read("list") + &self.list(), Did::Nothing),
            Ok(Wanted::Help) => (self.read("help") + WALK_HELP, Did::Nothing),
            Ok(Wanted::Quit) => (self.read("quit"), Did::Ended),
            Err(says) => self.mistaken(piece, &says),
        }
    }

    /// A word that was read, where nobody typed it.
    fn read(&self, word: &str) -> String {
        match self.typing {
            true => String::new(),
            false => format!("{}{word}\n", self.prompt()),
        }
    }

    /// A line before the start is chosen: a state, or a word, but a thing may be called like a word.
    fn before_start(&mut self, piece: &str, wanted: Result<Wanted, String>) -> (String, Did) {
        match wanted {
            _ if read::state(self.room, piece).is_ok() => self.choose(piece),
            Ok(Wanted::Help) => (self.read("help") + WALK_HELP, Did::Nothing),
            Ok(Wanted::Quit) => (self.read("quit"), Did::Ended),
            _ => self.choose(piece),
        }
    }

    /// Begins in a state that is typed.
    fn choose(&mut self, text: &str) -> (String, Did) {
        let typed = format!("start: {text}");
        match read::state(self.room, text) {
            Err(mistakes) => {
                let says = mistakes.first().map_or("", |mistake| &mistake.says);
                self.mistaken(&typed, says)
            }
            Ok(state) if !self.room.is_start(state) => {
                let only = echo::beginning(self.room);
                let says = format!("this room begins with {only}. Its file may say \"start: any\"");
                self.mistaken(&typed, &says)
            }
            Ok(state) => {
                let said = match self.typing {
                    true => String::new(),
                    false => format!("start: {}\n", echo::state(self.room, state)),
                };
                (said + &self.starts(state), Did::Moved)
            }
        }
    }

    /// Begins in a state; what is broken there.
    fn starts(&mut self, state: State) -> String {
        self.steps.begin(state);
        self.broken_here()
    }

    fn press(&mut self, place: usize, which: Option<usize>) -> (String, Did) {
        let (button, state) = (self.buttons[place], self.steps.state());
        let outcomes = results(self.room, button, state);
        if outcomes.is_empty() {
            return (self.told(button, &self.nothing(button)), Did::Nothing);
        }
        let several = outcomes.len() > 1;
        let chosen = match which {
            None if several => None,
            None => outcomes.first(),
            Some(which) => outcomes.get(which.wrapping_sub(1)),
        };
        let Some(&to) = chosen else {
            return self.mistaken(button, &self.choices(place, &outcomes));
        };
        self.steps.press((place, which.filter(|_| several)), to);
        let text = self.told(button, &changes::said(self.room, state, to));
        (text + &self.broken_here(), Did::Moved)
    }

    /// That a press does nothing, and why.
    fn nothing(&self, button: &str) -> String {
        let missing = changes::missing(self.room, button, self.steps.state());
        missing.map_or("does nothing".to_string(), |cond| {
            format!("does nothing, needs {}", echo::cond(self.room, &cond))
        })
    }

    /// What a press can do, and how to say which of it.
    fn choices(&self, place: usize, outcomes: &[State]) -> String {
        let change = |to: &State| changes::said(self.room, self.steps.state(), *to);
        if let [only] = outcomes {
            return format!("it does one thing here: {}", change(only));
        }
        let choice = |(at, to): (usize, &State)| {
            let typed = typed::again((place, Some(at + 1)), &self.buttons);
            format!("{typed} for {}", change(to))
        };
        let choices: Vec<String> = outcomes.iter().enumerate().map(choice).collect();
        let choices = choices.join(", or ");
        format!("it can do one or the other here. Say {choices}")
    }

    fn undo(&mut self) -> (String, Did) {
        let Some(((place, _), undone)) = self.steps.undo() else {
            let text = self.told("undo", "no press is left to take back");
            return (text, Did::Nothing);
        };
        let change = changes::said(self.room, undone, self.steps.state());
        let text = self.told(&format!("undo {}", self.buttons[place]), &change);
        (text + &self.broken_here(), Did::Moved)
    }

    /// A question, by its place, in quotes.
    fn quoted(&self, question: usize) -> String {
        let question = &self.room.questions[question];
        format!("\"{}\"", echo::question(self.room, question))
    }

    /// The questions that are broken in this place: those that were not in the place before, with the reason, and those that still
    /// are by the state.
    fn broken_here(&mut self) -> String {
        let place = self.steps.place();
        let (mut text, mut still) = (String::new(), Vec::new());
        for (at, standing) in self.steps.standings().iter().enumerate() {
            let (asked, said) = (&self.room.questions[at].asked, self.quoted(at));
            match *standing {
                Standing::Broken(since, end) if since == place => {
                    text += &format!("  !! {said} is broken here, {}.\n", after(place));
                    let closing = report::closing(self.room, asked, end);
                    text.extend(closing.lines().map(|line| format!("   {line}\n")));
                    note(&mut self.broken, at);
                }
                Standing::Broken(..) if by_state(asked) => still.push(said),
                Standing::Open if matches!(asked, Asked::Until(..)) => {
                    if let Some(then) = self.steps.same_as().filter(|_| note(&mut self.rounds, at))
                    {
                        text += &round(&said, then);
                    }
                }
                _ => {}
            }
        }
        match still.is_empty() {
            true => text,
            false => text + &format!("  !! Still broken: {}.\n", still.join(", ")),
        }
    }
}

/// That presses since a place, which lead back to the same state, break an until if they are repeated for ever.
fn round(until: &str, place: usize) -> String {
    let then = after(place);
    format!(
        "  This is as it was {then}: the presses since then, repeated for ever, break {until}.\n"
    )
}

/// Adds a number to a list, where it is not there already; whether it was not.
fn note(list: &mut Vec<usize>, number: usize) -> bool {
    let new = !list.contains(&number);
    if new {
        list.push(number);
    }
    new
}

/// A place in a run, in words.
fn after(place: usize) -> String {
    match place {
        0 => "at the start".to_string(),
        1 => "after 1 press".to_string(),
        _ => format!("after {} presses", echo::grouped(place as u32)),
    }
}
