//! The page for the hand-over: one HTML file without outside parts. It says the same whenever it is made: a date stands on it only
//! where one is given.
use crate::ask::{press, Answer, Verdict};
use crate::changes;
use crate::echo::{self, grouped};
use crate::finding::Finding;
use crate::html::escaped;
use crate::picture::{still, Band, Picture};
use crate::report::{self, Outcome};
use crate::room::{Part, Question, Room, Rule};
use crate::sheet::{self, counted, library, Answered, Found, Sheet};
use crate::walk::Run;

const STYLE: &str = include_str!("page.css");

/// What is wanted of a page.
pub struct Wanted<'a> {
    pub date: Option<&'a str>,
    /// Whether every press of a long run is shown.
    pub whole_run: bool,
}

/// The page of some rooms.
pub fn page(sheets: &[Sheet], wanted: &Wanted) -> String {
    let names: Vec<&str> = sheets.iter().map(|sheet| sheet.name.as_str()).collect();
    let mut html = format!(
        "<!DOCTYPE html>\n<html lang=\"en\">\n<head>\n<meta charset=\"utf-8\">\n\
         <meta name=\"viewport\" content=\"width=device-width, initial-scale=1\">\n\
         <meta http-equiv=\"Content-Security-Policy\" content=\"default-src 'none'; style-src 'unsafe-inline'\">\n\
         <title>Hand-over: {}</title>\n<style>\n{STYLE}</style>\n</head>\n<body>\n",
        escaped(&names.join(", "))
    );
    html += &cover(sheets, wanted);
    html += "<main>\n";
    for (at, sheet) in sheets.iter().enumerate() {
        html += &section(at + 1, sheet, wanted);
    }
    html += "</main>\n";
    html + &foot() + "</body>\n</html>\n"
}

/// An element with a text.
fn element(tag: &str, class: &str, text: &str) -> String {
    let class = match class {
        "" => String::new(),
        class => format!(" class=\"{class}\""),
    };
    let name = tag.split(' ').next().unwrap_or_default();
    format!("<{tag}{class}>{}</{name}>", escaped(text))
}

/// A verdict's word in a frame.
fn badge(word: &str) -> String {
    let class = match word {
        "SAFE" | "AS EXPECTED" => "badge fine",
        "BROKEN" | "UNEXPECTED" => "badge bad",
        _ => "badge open",
    };
    element("span", class, word)
}

/// The columns of the table of all rooms, with their classes.
const COLUMNS: [(&str, &str); 6] = [
    ("Verdict", ""),
    ("Room", ""),
    ("Questions", "figure"),
    ("States", "figure"),
    ("Rows", "figure"),
    ("SHA-256 begins", ""),
];

/// The head of the page: all rooms in a table.
fn cover(sheets: &[Sheet], wanted: &Wanted) -> String {
    let mut html = "<header>\n<h1>Hand-over sheet: switching rules</h1>\n".to_string();
    if let Some(date) = wanted.date {
        html += &(element("p", "", &format!("Date: {date}")) + "\n");
    }
    let class = match sheet::outcome(sheets) {
        Outcome::Safe => "summary fine",
        _ => "summary bad",
    };
    html += &(element("p", class, &sheet::summary(sheets)) + "\n");
    let heads: String = COLUMNS
        .iter()
        .map(|(head, class)| element("th scope=\"col\"", class, head))
        .collect();
    html += &format!(
        "<div class=\"scroll\" tabindex=\"0\" role=\"group\" aria-label=\"All rooms\">\n<table>\n\
         <thead><tr>{heads}</tr></thead>\n<tbody>\n"
    );
    for (at, sheet) in sheets.iter().enumerate() {
        html += &overview(at + 1, sheet);
    }
    html + "</tbody>\n</table>\n</div>\n</header>\n"
}

/// A room's row in the table of all rooms.
fn overview(number: usize, sheet: &Sheet) -> String {
    let cells = match &sheet.found {
        Found::Answered(answered) => [
            grouped(answered.answers.len() as u32),
            grouped(answered.room.states()),
            answered.rows.map_or("not known".to_string(), grouped),
        ],
        _ => ["\u{2013}", "\u{2013}", "\u{2013}"].map(str::to_string),
    };
    let cells: String = (cells.iter())
        .map(|cell| element("td", "figure", cell))
        .collect();
    format!(
        "<tr><td>{}</td><th scope=\"row\"><a href=\"#room-{number}\">{}</a></th>{cells}{}</tr>\n",
        badge(sheet.word()),
        escaped(base(&sheet.name)),
        element("td", "hash", sheet.short_hash())
    )
}

/// A file's name without its folders.
fn base(name: &str) -> &str {
    name.rsplit('/').next().unwrap_or(name)
}

/// One room.
fn section(number: usize, sheet: &Sheet, wanted: &Wanted) -> String {
    let mut html = format!(
        "<section id=\"room-{number}\">\n<h2>{}</h2>\n",
        escaped(base(&sheet.name))
    );
    let says = match &sheet.found {
        Found::Unread(_) => "The file cannot be read. Do not hand over.".to_string(),
        Found::Mistakes(count, _) => format!(
            "{} in the file, so nothing was asked. Do not hand over.",
            counted(*count, "mistake", "mistakes")
        ),
        Found::Differs(..) => "NO VERDICT: do not hand over by it.".to_string(),
        Found::Answered(answered) => report::summary(&answered.room, &answered.answers),
    };
    let class = match sheet.outcome() {
        Outcome::Safe => "summary fine",
        _ => "summary bad",
    };
    html += &(element("p", class, says.trim_end()) + "\n");
    html += &match &sheet.found {
        Found::Unread(why) => facts(sheet, &[]) + &element("pre", "", why),
        Found::Mistakes(_, told) => facts(sheet, &[]) + &element("pre", "", told),
        Found::Differs(difference, asked) => {
            let told = report::difference(difference, asked);
            facts(sheet, &[]) + &element("pre", "", &told)
        }
        Found::Answered(answered) => answered_room(sheet, answered, wanted),
    };
    html + "\n</section>\n"
}

fn answered_room(sheet: &Sheet, answered: &Answered, wanted: &Wanted) -> String {
    let room = &answered.room;
    let by = match answered.checked {
        true => "",
        false => " (found by the walk alone, and not checked with the table)",
    };
    let comes = format!(
        "{} of {}{by}",
        grouped(answered.comes),
        counted(room.states() as usize, "state", "states")
    );
    let rows = match answered.rows {
        Some(rows) => format!("{} rows are enough, and no fewer", grouped(rows)),
        None => "how many rows are enough is not known".to_string(),
    };
    let library = match kudzuclamp::PROVED {
        true => "proved; its answers are held against a plain walk through all states",
        false => "quick build, NOT proved; its answers are held against a plain walk",
    };
    let more = [
        ("States that can come", comes),
        ("Table", rows),
        ("Library", library.to_string()),
    ];
    let mut html = facts(sheet, &more);
    html += "<h3>Questions</h3>\n";
    for (question, answer) in room.questions.iter().zip(&answered.answers) {
        html += &asked(answered, question, answer, wanted);
    }
    html += &rules(room);
    if !answered.notes.is_empty() {
        html += "<h3>Notes</h3>\n<ul>\n";
        for note in &answered.notes {
            html += &(element("li", "", note) + "\n");
        }
        html += "</ul>\n";
    }
    html
}

/// What the file is, and what is known besides.
fn facts(sheet: &Sheet, more: &[(&str, String)]) -> String {
    let hash = sheet.hash.clone().unwrap_or("none".to_string());
    let mut list = vec![("File", sheet.name.clone()), ("SHA-256 of the file", hash)];
    list.extend_from_slice(more);
    let mut html = "<dl class=\"facts\">\n".to_string();
    for (name, value) in list {
        html += &format!("{}{}\n", element("dt", "", name), element("dd", "", &value));
    }
    html + "</dl>\n"
}

/// A question with its verdict and its run.
fn asked(answered: &Answered, question: &Question, answer: &Answer, wanted: &Wanted) -> String {
    let room = answer.ordered.as_ref().unwrap_or(&answered.room);
    let found = Finding::new(question, &answer.verdict);
    let mut html = format!(
        "<article>\n<h4>{} {}{}</h4>\n",
        badge(found.word()),
        escaped(found.verdict()),
        escaped(&echo::asked(room, &question.asked))
    );
    if found == Finding::Unexpected {
        html += &(element("p", "", &report::gone(question)) + "\n");
    }
    html += &match &answer.verdict {
        Verdict::Safe(None) => String::new(),
        Verdict::Safe(Some(run)) => shown(room, question, run, (true, wanted.whole_run)),
        Verdict::Broken(run) => shown(room, question, run, (false, wanted.whole_run)),
        Verdict::None(refusal) => element("p", "", &report::cause(*refusal, answered.limits)),
    };
    if answer.ordered.is_some() {
        html += &element("p", "", report::order(answer).trim());
    }
    html + "</article>\n"
}

/// A run: a picture, and the same in words.
fn shown(room: &Room, question: &Question, run: &Run, (good, whole): (bool, bool)) -> String {
    let begins = report::introduction(room, &question.asked, run);
    let mut html = element("p", "", &begins) + "\n<figure>\n";
    let picture = Picture::new(room, run, good);
    let mut words = String::new();
    for band in picture.bands(whole) {
        if band.left_out > 0 {
            let more = format!(
                "{} presses more are left out",
                grouped(band.left_out as u32)
            );
            html += &(element("p", "more", &more) + "\n");
            words += &(element("li", "more", &more) + "\n");
        }
        let title = format!("{}: the list below says the same", part_of(band));
        html += &format!(
            "<div class=\"scroll\" tabindex=\"0\" role=\"group\" aria-label=\"{}\">\n{}</div>\n",
            escaped(&part_of(band)),
            picture.drawn(band, &title)
        );
        words += &steps(room, run, band);
    }
    let still = still(room, run);
    if !still.is_empty() {
        html += &(element("p", "still", &format!("Not drawn, since it stays: {still}")) + "\n");
    }
    let closing = report::closing(room, &question.asked, run.end);
    let closing: String = closing
        .lines()
        .map(|line| element("p", "", line.trim()) + "\n")
        .collect();
    let words = format!("<ol class=\"run\">\n{words}</ol>\n{closing}");
    format!("{html}<figcaption>\n{words}</figcaption>\n</figure>\n")
}

/// Which part of a run a picture shows.
fn part_of(band: Band) -> String {
    match (band.from, band.to) {
        (_, 0) => "The start".to_string(),
        (0, 1) => "The start and press 1".to_string(),
        (0, to) => format!("The start and presses 1 to {to}"),
        (from, to) if from + 1 == to => format!("Press {to}"),
        (from, to) => format!("Presses {} to {to}", from + 1),
    }
}

/// The presses of a band in words, with what each changes.
fn steps(room: &Room, run: &Run, band: Band) -> String {
    let mut html = String::new();
    if band.from == 0 {
        let start = format!("Start: {}", echo::state(room, run.states[0]));
        html += &(element("li", "begin", &start) + "\n");
    }
    for at in band.from + 1..=band.to {
        let (before, after) = (run.states[at - 1], run.states[at]);
        html += &format!(
            "<li value=\"{at}\">{} {}</li>\n",
            element("b", "", press(room, before, after).unwrap_or("?")),
            escaped(&changes::said(room, before, after))
        );
    }
    html
}

/// Things, start, names and presses, as they were understood.
fn rules(room: &Room) -> String {
    let states = room.all_states();
    let mut html = "<h3>Things</h3>\n<dl class=\"rules\">\n".to_string();
    let things: Vec<&str> = (room.parts.iter())
        .filter(|part| !part.is_selector())
        .map(|part| part.name.as_str())
        .collect();
    if !things.is_empty() {
        html += &rule("On or off", &[(things.join(", "), String::new())]);
    }
    for part in room.parts.iter().filter(|part| part.is_selector()) {
        html += &rule(&part.name, &[(positions(part), String::new())]);
    }
    html += &rule("Start", &[(echo::beginning(room), String::new())]);
    for named in &room.named {
        let means = format!("means {}", echo::cond(room, &named.means));
        let count = echo::count(room, &states, &named.means);
        html += &rule(&named.name, &[(means, count)]);
    }
    html += "</dl>\n<h3>Presses</h3>\n<dl class=\"rules\">\n";
    for (at, first) in room.rules.iter().enumerate() {
        let same = |rule: &&Rule| rule.press == first.press;
        if room.rules[..at].iter().any(|rule| same(&rule)) {
            continue;
        }
        let lines = room.rules.iter().filter(same);
        let lines: Vec<_> = lines.map(|rule| line(room, &states, rule)).collect();
        html += &rule(&first.press, &lines);
    }
    html + "</dl>\n"
}

fn positions(part: &Part) -> String {
    format!("one of {}", part.positions.join(", "))
}

/// What a line of a press does and when, and what is to be known besides.
fn line(room: &Room, states: &[u32], rule: &Rule) -> (String, String) {
    let mut does = echo::effects(room, rule);
    let mut besides = Vec::new();
    if let Some(when) = &rule.when {
        does += &format!(" when {}", echo::cond(room, when));
        besides.push(format!("works in {}", echo::count(room, states, when)));
    }
    let kept = echo::kept(room, rule);
    if !kept.is_empty() {
        besides.push(format!("keeps {kept}"));
    }
    (does, besides.join("; "))
}

/// A name with its lines, each with what stands small below it.
fn rule(name: &str, lines: &[(String, String)]) -> String {
    let mut html = element("dt", "", name);
    for (text, small) in lines {
        let small = match small.is_empty() {
            true => String::new(),
            false => element("small", "", small),
        };
        html += &format!("<dd>{}{small}</dd>", escaped(text));
    }
    format!("<div>{html}</div>\n")
}

/// How to read the page: the verdicts, the pictures, and what made it.
const HOW: [&str; 3] = [
    "SAFE: no presses break what is asked, or presses lead to what must be possible. BROKEN: the presses shown break it. AS EXPECTED: \
     BROKEN, and the room file says so: a known fault, kept as a test. UNEXPECTED: that fault is gone. NO VERDICT: neither, and not \
     known.",
    "In a picture time goes to the right, a column for each press. A bar: on. A thin line: off. A box: where a selector stands. A \
     dot: it has just changed. The framed column at the end is the moment that the question is about. Things that stay as they are \
     are not drawn.",
    "Rows are those of the table that the library needs for the questions of a room. A verdict is given only where the library and a \
     plain walk through all states find the same. The SHA-256 is that of the room file: another file has another one.",
];

fn foot() -> String {
    let made = format!(
        "Made by room {} over the {} library.",
        env!("CARGO_PKG_VERSION"),
        library()
    );
    let texts = HOW.into_iter().chain([made.as_str()]);
    let texts: String = texts.map(|text| element("p", "", text) + "\n").collect();
    format!("<footer>\n<h2>How to read this page</h2>\n{texts}</footer>\n")
}
