//! The command line of `room`: what is wanted of which file.
use room::ask::Limits;

pub const HELP: &str = "\
room FILE             reads a room's switching rules in words and answers its questions
room --echo FILE      prints the rules as understood, and asks nothing
room --records FILE   prints the questions as records for roomrules, where it can answer them
room --explain FILE   FILE has records: plays them, and says why one is refused (exit status 2)
room --diff OLD NEW   says what a change of the rules changes: verdicts, states that can come, what a press does
room --sheet FILE...  for the hand-over: asks every room, and prints a line for each
room --walk FILE      goes through the room press by press, as you type them: what each does, and which questions break

  --page OUT.html     with --sheet: writes a page too, with the rules, the answers and each run as a picture
  --date TEXT         with --page: the date that stands on it
  --rows N            a table of N rows, 1 to 60000 (60000); with --records at most 1344 (1344)
  --rounds R          at most R rounds for each answer (4294967295)
  --peak              says how many rows the table needs
  --whole-run         shows every press of a long run
  --help, --version

FILE is - for standard input. A room file:

  # what is behind a # is for people
  things: mic echo song             each is on or off
  selector send: desk hall booth    stands at one of its positions
  start: all off                    or what is on: start: song on, send = hall; or any state: start: any
  howl means mic and echo and send = booth
  press MIC: mic turns over
  press ECHO: echo on when song and not mic
  press STOP: song off, echo off when song
  never howl                        no presses lead there from the start
  always possible: not song         after any presses, some presses lead there
  not echo until song               whatever is pressed, song comes, and no echo before
  not echo unless song              no echo as long as song has not come, which it need not
  possible: mic                     some presses lead there from the start; the fewest are shown
  whenever mic: not song unless echo   from every such state on, no song as long as echo has not come
  ECHO works whenever song and not mic   in every such state that presses lead to, one of its lines works
  expect BROKEN: never mic          a known fault, kept as a test: fine as long as the question is broken

A press works only where its condition holds, and what it does not name keeps its value. A press may have several lines.
Conditions have: and, or, not, parentheses, names, SELECTOR = POSITION. A line that begins with a blank goes on with the one before.

Exit status: 0 all SAFE, 1 one BROKEN, 2 a mistake in the file or the command line, or an answer that cannot be written,
3 NO VERDICT, 4 the table and the plain walk differ. Of two rooms it is that of NEW. Of a sheet's rooms: 4 where one has 4, else 1,
else 2, else 3. Of --walk: 1 a question was broken on the way, 2 also where a line was not understood that nobody typed.
";

#[derive(Clone, Copy, PartialEq, Eq)]
pub enum Mode {
    Ask,
    Echo,
    Records,
    Explain,
    Diff,
    Sheet,
    Walk,
}

impl Mode {
    /// The options that choose what is done with the file.
    const CHOICES: [(&'static str, Mode); 6] = [
        ("--echo", Mode::Echo),
        ("--records", Mode::Records),
        ("--explain", Mode::Explain),
        ("--diff", Mode::Diff),
        ("--sheet", Mode::Sheet),
        ("--walk", Mode::Walk),
    ];
}

pub struct Options {
    pub mode: Mode,
    pub file: String,
    /// The file that it is compared with: the room as it is after a change.
    pub after: Option<String>,
    /// All files of a sheet, where its page is written, and the date on it.
    pub files: Vec<String>,
    pub page: Option<String>,
    pub date: Option<String>,
    /// The rows that were asked for, if a number was named.
    pub rows: Option<u32>,
    pub rounds: u32,
    pub whole_run: bool,
    pub peak: bool,
}

impl Options {
    pub fn limits(&self) -> Limits {
        Limits {
            rows: self.rows.unwrap_or(Limits::LARGEST.rows),
            rounds: self.rounds,
        }
    }
}

pub enum Command {
    Run(Options),
    Print(String),
}

/// What the words behind `room` ask for, or what is wrong with them.
pub fn command(mut words: impl Iterator<Item = String>) -> Result<Command, String> {
    let mut options = Options {
        mode: Mode::Ask,
        file: String::new(),
        after: None,
        files: Vec::new(),
        page: None,
        date: None,
        rows: None,
        rounds: Limits::LARGEST.rounds,
        whole_run: false,
        peak: false,
    };
    let mut files = Vec::new();
    while let Some(word) = words.next() {
        match word.as_str() {
            "--help" | "-h" => return Ok(Command::Print(HELP.to_string())),
            "--version" => return Ok(Command::Print(version())),
            "--" => files.extend(words.by_ref()),
            "--rows" => options.rows = Some(number(&word, words.next(), 1, Limits::LARGEST.rows)?),
            "--rounds" => options.rounds = number(&word, words.next(), 0, u32::MAX)?,
            "--whole-run" => options.whole_run = true,
            "--peak" => options.peak = true,
            "--page" => options.page = Some(page(words.next())?),
            "--date" => options.date = Some(words.next().ok_or("--date needs a date")?),
            text if text.starts_with('-') && text != "-" => {
                options.mode = chosen(options.mode, text)?
            }
            _ => files.push(word),
        }
    }
    match options.mode {
        Mode::Sheet => sheet(options, files),
        _ if options.page.is_some() || options.date.is_some() => {
            Err("--page and --date belong to --sheet".to_string())
        }
        _ => one_or_two(options, files),
    }
}

/// One file, or the two of a comparison.
fn one_or_two(mut options: Options, files: Vec<String>) -> Result<Command, String> {
    let diff = options.mode == Mode::Diff;
    let mut files = files.into_iter();
    options.file = files.next().ok_or("no file is named")?;
    options.after = files.next();
    if options.mode == Mode::Walk && options.file == "-" {
        return Err(
            "--walk reads presses from standard input, so the room must be in a file".to_string(),
        );
    }
    match (&options.after, files.next()) {
        (Some(_), None) if diff => Ok(Command::Run(options)),
        (None, _) if !diff => Ok(Command::Run(options)),
        _ if diff => Err("--diff needs two files, the old one and the new one".to_string()),
        _ => Err("one file at a time".to_string()),
    }
}

/// A sheet has as many files as are named.
fn sheet(mut options: Options, files: Vec<String>) -> Result<Command, String> {
    if files.is_empty() {
        return Err("no file is named".to_string());
    }
    if options.date.is_some() && options.page.is_none() {
        return Err("--date stands on the page: name it with --page OUT.html".to_string());
    }
    if let Some(name) = files
        .iter()
        .find(|file| Some(*file) == options.page.as_ref())
    {
        return Err(format!("{name} is a room, and the page would overwrite it"));
    }
    options.files = files;
    Ok(Command::Run(options))
}

/// The page's file. No room file has such a name, so none is overwritten by a slip.
fn page(name: Option<String>) -> Result<String, String> {
    let name = name.filter(|name| name.ends_with(".html") || name.ends_with(".htm"));
    name.ok_or("--page needs the page's file, with a name that ends in .html".to_string())
}

/// The mode after an option that chooses one.
fn chosen(before: Mode, word: &str) -> Result<Mode, String> {
    let known = Mode::CHOICES.iter().find(|(text, _)| *text == word);
    let (_, mode) = known.ok_or(format!("{word} is no option"))?;
    if before != Mode::Ask && before != *mode {
        return Err(
            "one of --echo, --records, --explain, --diff, --sheet and --walk at a time".to_string(),
        );
    }
    Ok(*mode)
}

/// The number behind an option.
fn number(option: &str, text: Option<String>, least: u32, most: u32) -> Result<u32, String> {
    let value = text.and_then(|text| text.parse().ok());
    let value = value.filter(|value| (least..=most).contains(value));
    value.ok_or(format!("{option} needs a number from {least} to {most}"))
}

fn version() -> String {
    let library = match kudzuclamp::PROVED {
        true => "the library in it is proved, the reading of files and the words are not",
        false => "a quick build: the library in it is NOT proved",
    };
    format!("room {} ({library})\n", env!("CARGO_PKG_VERSION"))
}
