//! `room --walk`: press by press, as the lines of standard input say.
use crate::options::Options;
use crate::{quick, tell, walked, Stop};
use room::ask::{Asker, Limits};
use room::echo;
use room::plan::Plan;
use room::report::Outcome;
use room::room::Room;
use room::stepper::{Stepper, Then};
use room::walk::Walk;
use std::io::{self, BufRead, IsTerminal, Read, Write};

/// The most bytes of a line.
const LONGEST: u64 = 10_000;

pub fn walk(room: &Room, plan: &Plan, options: &Options) -> Result<Outcome, Stop> {
    let walk = walked(room);
    let typing = io::stdin().is_terminal();
    let mut stepper = Stepper::new(room, &walk, typing);
    let mut library = Library {
        room,
        walk: &walk,
        plan,
        limits: options.limits(),
        asker: None,
        asked: 0,
    };
    let (mut text, mut then) = (stepper.begin(), Then::GoesOn);
    let mut input = io::stdin().lock();
    loop {
        library.agrees(stepper.broken())?;
        if typing && then == Then::GoesOn {
            text += stepper.prompt();
        }
        if !written(&text)? || then == Then::Ends {
            break;
        }
        (text, then) = match line(&mut input) {
            Ok(Some(line)) => stepper.line(&line),
            Ok(None) => break,
            Err(error) => {
                tell(&format!("room: standard input cannot be read: {error}\n"));
                return Ok(Outcome::BadFile);
            }
        };
    }
    let blank = if typing { "\n" } else { "" };
    written(&(blank.to_string() + &stepper.end() + quick()))?;
    Ok(outcome(room, &stepper, typing))
}

/// A line that was not understood counts where nobody could see it and type it anew. A fault that the file expects does not count.
fn outcome(room: &Room, stepper: &Stepper, typing: bool) -> Outcome {
    let expected = |&place: &usize| room.questions[place].expect_broken;
    match stepper.mistakes() {
        1.. if !typing => Outcome::BadFile,
        _ if stepper.broken().iter().all(expected) => Outcome::Safe,
        _ => Outcome::Broken,
    }
}

/// The next line, without its end; none where there is no more.
fn line(input: &mut impl BufRead) -> io::Result<Option<String>> {
    let mut bytes = Vec::new();
    input.take(LONGEST + 1).read_until(b'\n', &mut bytes)?;
    match bytes.len() as u64 {
        0 => Ok(None),
        length if length > LONGEST => Err(io::Error::other("a line has more than 10,000 bytes")),
        _ => Ok(Some(String::from_utf8_lossy(&bytes).into_owned())),
    }
}

/// Writes to standard output; whether somebody reads on.
fn written(text: &str) -> Result<bool, Stop> {
    let mut out = io::stdout().lock();
    match out.write_all(text.as_bytes()).and_then(|()| out.flush()) {
        Err(error) if error.kind() == io::ErrorKind::BrokenPipe => Ok(false),
        Err(error) => Err(error.into()),
        Ok(()) => Ok(true),
    }
}

/// The library, which is asked about a question once the presses break it.
struct Library<'a> {
    room: &'a Room,
    walk: &'a Walk,
    plan: &'a Plan,
    limits: Limits,
    asker: Option<Asker<'a>>,
    /// How many broken questions it was asked about.
    asked: usize,
}

impl Library<'_> {
    /// No question that the presses break is safe by the library.
    fn agrees(&mut self, broken: &[usize]) -> Result<(), Stop> {
        for &place in &broken[self.asked..] {
            let asked = &self.room.questions[place].asked;
            let differs = |difference| Stop::Differs(difference, echo::asked(self.room, asked));
            let asker = match &mut self.asker {
                Some(asker) => asker,
                none => {
                    let made = Asker::new(self.room, self.walk, self.plan, self.limits);
                    none.insert(made.map_err(differs)?)
                }
            };
            asker.is_broken_too(place).map_err(differs)?;
        }
        self.asked = broken.len();
        Ok(())
    }
}
