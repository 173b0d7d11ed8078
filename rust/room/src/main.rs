//! The command `room`.
mod closed;
mod handover;
mod options;
mod walking;

use kudzuclamp::Refusal;
use options::{Mode, Options};
use room::ask::{Answer, Asker, Difference, Limits, Verdict};
use room::diff::{self, Side};
use room::mistake::{Mistake, MOST_SHOWN};
use room::orders::Others;
use room::plan::{self, Plan};
use room::report::{self, Outcome};
use room::room::Room;
use room::walk::Walk;
use room::{compare, echo, explain, read, records, sense};
use std::fs::File;
use std::io::{self, IsTerminal, Read, Write};
use std::process::ExitCode;

/// The most bytes of a file.
const MOST_BYTES: u64 = 1_000_000;

/// Why a command ends before its end.
enum Stop {
    Unwritten(io::Error),
    /// Table and walk differ on a question.
    Differs(Difference, String),
}

impl From<io::Error> for Stop {
    fn from(error: io::Error) -> Stop {
        Stop::Unwritten(error)
    }
}

fn main() -> ExitCode {
    let done = match words().and_then(options::command) {
        Ok(options::Command::Run(options)) => run(&options),
        Ok(options::Command::Print(text)) => print(&text, Outcome::Safe),
        Err(says) => {
            tell(&format!("room: {says}. See room --help\n"));
            Ok(Outcome::BadFile)
        }
    };
    let done = match done {
        Err(Stop::Differs(difference, asked)) => {
            print(&report::difference(&difference, &asked), Outcome::Differs)
        }
        done => done,
    };
    let outcome = done.unwrap_or_else(|stop| {
        if let Stop::Unwritten(error) = stop {
            tell(&format!("room: the answer cannot be written: {error}\n"));
        }
        Outcome::BadFile
    });
    ExitCode::from(outcome.status())
}

/// The words of the command line. A word that is no text is refused, as it could not be told in messages.
fn words() -> Result<std::vec::IntoIter<String>, String> {
    let words: Result<Vec<String>, _> = (std::env::args_os().skip(1))
        .map(std::ffi::OsString::into_string)
        .collect();
    match words {
        Ok(words) => Ok(words.into_iter()),
        Err(word) => Err(format!("{} is no text (UTF-8)", word.to_string_lossy())),
    }
}

/// Writes to standard output. Where nobody reads on, as with `room FILE | head`, the status is all that is left to say.
fn print(text: &str, outcome: Outcome) -> Result<Outcome, Stop> {
    let mut out = io::stdout().lock();
    closed::check()?;
    match out.write_all(text.as_bytes()).and_then(|()| out.flush()) {
        Err(error) if error.kind() != io::ErrorKind::BrokenPipe => Err(error.into()),
        _ => Ok(outcome),
    }
}

/// Writes to standard error, where that can be.
fn tell(text: &str) {
    let _ = io::stderr().write_all(text.as_bytes());
}

fn run(options: &Options) -> Result<Outcome, Stop> {
    match options.mode {
        Mode::Explain => match contents(&options.file) {
            Ok(bytes) => {
                let (text, answered) = explain::explain(&bytes);
                print(
                    &text,
                    [Outcome::BadFile, Outcome::Safe][usize::from(answered)],
                )
            }
            Err(says) => refuse(&says),
        },
        Mode::Diff => {
            let after = options.after.as_deref().unwrap_or_default();
            match (understood(&options.file), understood(after)) {
                (Ok(old), Ok(new)) => compare(&old.0, &new, options),
                (old, new) => refuse(
                    &[old.err(), new.err()]
                        .map(Option::unwrap_or_default)
                        .concat(),
                ),
            }
        }
        Mode::Sheet => handover::sheet(options),
        _ => match understood(&options.file) {
            Ok((room, plan)) => answer(&room, &plan, options),
            Err(says) => refuse(&says),
        },
    }
}

/// What is wanted of one room.
fn answer(room: &Room, plan: &Plan, options: &Options) -> Result<Outcome, Stop> {
    match options.mode {
        Mode::Echo => print(&echo::echo(room), Outcome::Safe),
        Mode::Records => write_records(room, plan, options, shown_name(&options.file)),
        Mode::Walk => walking::walk(room, plan, options),
        _ => ask(room, plan, options),
    }
}

fn refuse(says: &str) -> Result<Outcome, Stop> {
    tell(says);
    Ok(Outcome::BadFile)
}

/// A file's name as messages say it.
fn shown_name(name: &str) -> &str {
    match name {
        "-" => "standard input",
        name => name,
    }
}

/// The bytes of a file.
fn bytes_of(name: &str) -> io::Result<Vec<u8>> {
    match name {
        "-" => limited(io::stdin()),
        _ => File::open(name).and_then(limited),
    }
}

/// The bytes of a file, or that there are none.
fn contents(name: &str) -> Result<Vec<u8>, String> {
    bytes_of(name).map_err(|error| format!("room: {} cannot be read: {error}\n", shown_name(name)))
}

/// All bytes, where they are not too many; no more of them are read.
fn limited(from: impl Read) -> io::Result<Vec<u8>> {
    let mut bytes = Vec::new();
    from.take(MOST_BYTES + 1).read_to_end(&mut bytes)?;
    match bytes.len() as u64 > MOST_BYTES {
        true => Err(io::Error::other(
            "it has more than 1 MB, as no room and no list of records has",
        )),
        false => Ok(bytes),
    }
}

/// The room in a file and its calls, or what is wrong with the file.
fn understood(file: &str) -> Result<(Room, Plan), String> {
    room_in(&contents(file)?, shown_name(file)).map_err(|(_, says)| says)
}

/// The room in the bytes of a file and its calls; or how many mistakes there are, and what they are.
fn room_in(bytes: &[u8], name: &str) -> Result<(Room, Plan), (usize, String)> {
    let text = std::str::from_utf8(bytes).map_err(|error| {
        let before = &bytes[..error.valid_up_to()];
        let line = 1 + before.iter().filter(|byte| **byte == b'\n').count();
        (1, format!("{name}, line {line}: this is no text (UTF-8)\n"))
    })?;
    planned(text).map_err(|mistakes| (mistakes.len(), refused(&mistakes, name, text)))
}

/// The room and its calls, or every mistake in the text.
fn planned(text: &str) -> Result<(Room, Plan), Vec<Mistake>> {
    let room = read::read(text)?;
    let mistakes = sense::mistakes(&room);
    if !mistakes.is_empty() {
        return Err(mistakes);
    }
    let plan = plan::plan(&room)?;
    Ok((room, plan))
}

fn refused(mistakes: &[Mistake], name: &str, text: &str) -> String {
    let shown = mistakes.iter().take(MOST_SHOWN);
    let mut said: String = shown.map(|mistake| mistake.shown(name, text)).collect();
    let count = match mistakes.len() {
        1 => "1 mistake".to_string(),
        count if count > MOST_SHOWN => {
            format!("{count} mistakes, of which the first {MOST_SHOWN} are shown")
        }
        count => format!("{count} mistakes"),
    };
    said += &format!("{count}. Nothing was asked.\n");
    said
}

/// Prints the records, where `roomrules` answers them.
fn write_records(room: &Room, plan: &Plan, options: &Options, name: &str) -> Result<Outcome, Stop> {
    let limits = Limits {
        rows: options.rows.unwrap_or(records::ROOMRULES_ROWS),
        rounds: options.rounds,
    };
    match records::records(room, plan, limits, name) {
        Ok(text) => print(&text, Outcome::Safe),
        Err(says) => {
            tell(&format!("room: {says}"));
            Ok(Outcome::NoVerdict)
        }
    }
}

/// Asks all questions; each verdict is printed as soon as it is there.
fn ask(room: &Room, plan: &Plan, options: &Options) -> Result<Outcome, Stop> {
    let walk = walked(room);
    let mut questions = Questions::new(room, &walk, plan, options)?;
    print(&report::heading(room), Outcome::Safe)?;
    let answers = questions.all(|text| print(text, Outcome::Safe).map(drop))?;
    let mut text = String::new();
    for note in report::notes(room, &walk) {
        text += &format!("Note: {note}\n");
    }
    text += &report::summary(room, &answers);
    if options.peak {
        text += &report::rows_needed(room, &answers, questions.asker.peak);
    }
    print(&(text + quick()), report::outcome(room, &answers))
}

/// A line for builds whose library is not proved.
fn quick() -> &'static str {
    match kudzuclamp::PROVED {
        true => "",
        false => {
            "(A quick build: the library in this room command is not proved. README tells how to build the proved one.)\n"
        }
    }
}

fn walked(room: &Room) -> Walk {
    let progress = Progress::at_terminal();
    let states = echo::grouped(room.states());
    progress.says(&format!("walking through {states} states"));
    let walk = Walk::new(room);
    progress.done();
    walk
}

/// Says what differs between a room and the same room after a change. The outcome is that of the changed one.
fn compare(before: &Room, after: &(Room, Plan), options: &Options) -> Result<Outcome, Stop> {
    let (new, new_plan) = after;
    let aligned = diff::aligned(before, new);
    let old = aligned.as_ref().unwrap_or(before);
    let old_plan = match plan::plan(old) {
        Ok(plan) => plan,
        Err(mistakes) => return refuse(&refused(&mistakes, &options.file, "")),
    };
    let (old_walk, new_walk) = (walked(old), walked(new));
    let old_answers = Questions::new(old, &old_walk, &old_plan, options)?.all(|_| Ok(()))?;
    let new_answers = Questions::new(new, &new_walk, new_plan, options)?.all(|_| Ok(()))?;
    let side = |name, room, walk, answers| Side {
        name,
        room,
        walk,
        answers,
    };
    let old = side(&options.file, old, &old_walk, &old_answers[..]);
    let after = options.after.as_deref().unwrap_or_default();
    let new = side(after, new, &new_walk, &new_answers[..]);
    let things = match aligned.is_some() {
        true => compared(&old, &new, options.limits())?,
        false => diff::other_things(before, new.room),
    };
    let text = format!(
        "{} before, {} after.\n{}{things}After: {}{}",
        shown_name(old.name),
        shown_name(new.name),
        diff::verdicts(&old, &new),
        report::summary(new.room, &new_answers),
        quick()
    );
    print(&text, report::outcome(new.room, &new_answers))
}

/// States that can come and what presses do, of two rooms with the same things, each held against the library.
fn compared(old: &Side, new: &Side, limits: Limits) -> Result<String, Stop> {
    let differs = |what: &str| {
        let what = what.to_string();
        move |difference| Stop::Differs(difference, what)
    };
    let mut unchecked: Vec<&str> = Vec::new();
    for (side, what) in [(old, "states before"), (new, "states after")] {
        if !compare::reached(side.room, side.walk, limits).map_err(differs(what))? {
            unchecked.push(what);
        }
    }
    let mut text = diff::states(old, new);
    let mut same = 0;
    for press in diff::presses(old.room, new.room) {
        let changed = diff::changed(old.room, new.room, press);
        if !compare::press(old.room, new.room, press, &changed, limits).map_err(differs(press))? {
            unchecked.push(press);
        }
        let says = diff::press(old, new, press, &changed);
        same += usize::from(says.is_empty());
        text += &says;
    }
    text += &report::same_presses(same);
    if !unchecked.is_empty() {
        text += &format!(
            "Found by the walk alone, and not checked with the table: {}.\n",
            unchecked.join(", ")
        );
    }
    Ok(text)
}

/// The questions of a room, which are asked one by one.
struct Questions<'a> {
    room: &'a Room,
    asker: Asker<'a>,
    /// Other orders of the things, once they are needed.
    others: Option<Others>,
    options: &'a Options,
    progress: Progress,
}

impl<'a> Questions<'a> {
    fn new(
        room: &'a Room,
        walk: &'a Walk,
        plan: &'a Plan,
        options: &'a Options,
    ) -> Result<Questions<'a>, Stop> {
        let progress = Progress::at_terminal();
        progress.says("loading the presses");
        let loaded = Asker::new(room, walk, plan, options.limits());
        progress.done();
        let all = |difference| Stop::Differs(difference, "all questions".to_string());
        Ok(Questions {
            room,
            asker: loaded.map_err(all)?,
            others: None,
            options,
            progress,
        })
    }

    /// The answers to all questions; the lines of each are given away at once.
    fn all(&mut self, mut give: impl FnMut(&str) -> Result<(), Stop>) -> Result<Vec<Answer>, Stop> {
        let mut answers = Vec::new();
        for (place, question) in self.room.questions.iter().enumerate() {
            let (answer, text) = self.ask(place).map_err(|difference| {
                Stop::Differs(difference, echo::asked(self.room, &question.asked))
            })?;
            give(&text)?;
            answers.push(answer);
        }
        Ok(answers)
    }

    /// The answer to a question, and its lines.
    fn ask(&mut self, place: usize) -> Result<(Answer, String), Difference> {
        let question = &self.room.questions[place];
        self.progress.says(&format!(
            "question {} of {}: {}",
            place + 1,
            self.room.questions.len(),
            echo::asked(self.room, &question.asked)
        ));
        let verdict = self.asker.ask(place)?;
        let limits = self.options.limits();
        let full = verdict == Verdict::None(Refusal::Full) && limits.rows == Limits::LARGEST.rows;
        let own = Answer {
            verdict,
            ordered: None,
        };
        let answer = match full {
            true => self.in_another_order(place)?.unwrap_or(own),
            false => own,
        };
        self.progress.done();
        let room = answer.ordered.as_ref().unwrap_or(self.room);
        let whole = self.options.whole_run;
        let mut text = report::verdict(room, question, &answer.verdict, limits, whole);
        if full {
            text += &report::order(&answer);
        }
        Ok((answer, text))
    }

    /// The answer by another order of the things, where one gives a verdict.
    fn in_another_order(&mut self, place: usize) -> Result<Option<Answer>, Difference> {
        self.progress
            .says("the table is full: trying other orders of the things");
        let limits = self.options.limits();
        (self.others)
            .get_or_insert_with(|| Others::new(self.room, limits))
            .ask(place)
    }
}

/// A line on standard error that says what is being done, where somebody looks at it.
struct Progress {
    on: bool,
}

/// The most characters of that line, so that it stays one.
const PROGRESS: usize = 70;

impl Progress {
    fn at_terminal() -> Progress {
        Progress {
            on: io::stderr().is_terminal(),
        }
    }

    fn says(&self, text: &str) {
        if self.on {
            let text: String = text.chars().take(PROGRESS).collect();
            tell(&format!("\r\x1b[K{text} ..."));
        }
    }

    fn done(&self) {
        if self.on {
            tell("\r\x1b[K");
        }
    }
}
