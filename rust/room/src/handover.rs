//! `room --sheet`: every room is asked as `room FILE` asks it; a line for each, and a page.
use super::{bytes_of, print, quick, room_in, shown_name, tell, walked, Questions, Stop};
use crate::options::Options;
use room::plan::Plan;
use room::report::{self, Outcome};
use room::room::Room;
use room::sheet::{self, Answered, Found, Sheet};
use room::walk::members;
use room::{compare, page, sha256};

pub fn sheet(options: &Options) -> Result<Outcome, Stop> {
    let letters = options.files.iter().map(|file| name(file).chars().count());
    let widest = letters.max().unwrap_or(0);
    let mut sheets = Vec::new();
    for file in &options.files {
        let sheet = looked_at(file, options)?;
        print(&sheet.line(widest), Outcome::Safe)?;
        sheets.push(sheet);
    }
    let says = format!("{}\n{}", sheet::summary(&sheets), quick());
    print(&says, Outcome::Safe)?;
    match write_page(&sheets, options) {
        true => Ok(sheet::outcome(&sheets)),
        false => Ok(Outcome::BadFile),
    }
}

/// A file's name in one line.
fn name(file: &str) -> String {
    let visible = |c: char| if c.is_control() { '?' } else { c };
    shown_name(file).chars().map(visible).collect()
}

/// Writes the page, where one is wanted; false where that cannot be, which is told.
fn write_page(sheets: &[Sheet], options: &Options) -> bool {
    let Some(file) = &options.page else {
        return true;
    };
    let wanted = page::Wanted {
        date: options.date.as_deref(),
        whole_run: options.whole_run,
    };
    let written = std::fs::write(file, page::page(sheets, &wanted));
    if let Err(error) = &written {
        tell(&format!("room: {file} cannot be written: {error}\n"));
    }
    written.is_ok()
}

/// What is found of one file.
fn looked_at(file: &str, options: &Options) -> Result<Sheet, Stop> {
    let name = name(file);
    let bytes = bytes_of(file);
    let hash = bytes.as_ref().ok().map(|bytes| sha256::hex(bytes));
    let found = match bytes {
        Err(error) => Found::Unread(error.to_string()),
        Ok(bytes) => match room_in(&bytes, &name) {
            Err((count, says)) => Found::Mistakes(count, says),
            Ok((room, plan)) => match answered(room, &plan, options) {
                Ok(answered) => Found::Answered(Box::new(answered)),
                Err(Stop::Differs(difference, asked)) => Found::Differs(difference, asked),
                Err(stop) => return Err(stop),
            },
        },
    };
    Ok(Sheet { name, hash, found })
}

/// The answers of a room, and the states that can come, each held against the walk.
fn answered(room: Room, plan: &Plan, options: &Options) -> Result<Answered, Stop> {
    let (walk, limits) = (walked(&room), options.limits());
    let mut questions = Questions::new(&room, &walk, plan, options)?;
    let answers = questions.all(|_| Ok(()))?;
    let peak = questions.asker.peak;
    let differs = |difference| Stop::Differs(difference, "the states that can come".to_string());
    Ok(Answered {
        comes: members(&walk.reached()).len() as u32,
        checked: compare::reached(&room, &walk, limits).map_err(differs)?,
        rows: sheet::all_in_order(&answers).then_some(peak.max(1)),
        notes: report::notes(&room, &walk),
        answers,
        limits,
        room,
    })
}
