//! A room's calls as records for the program `roomrules`, in hexadecimal with comments.
use crate::ask::Limits;
use crate::echo::{self, grouped};
use crate::plan::{Plan, Store};
use crate::room::Room;
use kudzuclamp::Refusal;

/// The words that `roomrules` lends, and the most rows for which they are enough.
pub const ROOMRULES_WORDS: usize = 16_384;
pub const ROOMRULES_ROWS: u32 = 1_344;

/// The record version, and the operations that are used.
const VERSION: u8 = 1;
const FRESH: u8 = 1;
const RELATION: u8 = 2;
const SET: u8 = 3;

/// The bytes in a line of hexadecimal.
const LINE: usize = 24;

/// A record: an operation with its arguments, what it is, and the place of the question that it belongs to.
struct Record {
    bytes: Vec<u8>,
    says: String,
    question: Option<usize>,
}

/// The records as text that examples/records-to-bytes reads; or why `roomrules` must refuse some of them. A refused record leaves
/// its set as the question before had it, and the next records would count that one: so none is given then.
pub fn records(room: &Room, plan: &Plan, limits: Limits, name: &str) -> Result<String, String> {
    if limits.rows > ROOMRULES_ROWS {
        return Err(format!(
            "roomrules has a table of {} rows at most, and {} are asked for. Nothing was written.\n",
            grouped(ROOMRULES_ROWS),
            grouped(limits.rows)
        ));
    }
    let list = list(room, plan, limits);
    let refused = refused(room, &list, limits);
    if !refused.is_empty() {
        return Err(format!(
            "roomrules must refuse records of this room, so nothing was written:\n{refused}"
        ));
    }
    Ok(text(room, &list, name))
}

/// All records, in their order.
fn list(room: &Room, plan: &Plan, limits: Limits) -> Vec<Record> {
    let record = |bytes: Vec<u8>, says: String, question: Option<usize>| Record {
        bytes,
        says,
        question,
    };
    let [high, low] = (limits.rows as u16).to_be_bytes();
    let fresh = vec![FRESH, room.bits() as u8, high, low];
    let says = format!("fresh: {} bits, {} rows", room.bits(), grouped(limits.rows));
    let mut list = vec![record(fresh, says, None)];
    for relation in &plan.relations {
        let bytes = joined(&[RELATION, relation.place as u8], relation);
        list.push(record(bytes, relation.says.clone(), None));
    }
    let before = plan.sets.iter().map(|set| (set, None));
    let asked = (plan.questions.iter().enumerate())
        .flat_map(|(place, asking)| asking.sets.iter().map(move |set| (set, Some(place))));
    for (set, question) in before.chain(asked) {
        let mut start = vec![SET, set.place as u8];
        start.extend(limits.rounds.to_be_bytes());
        let says = format!("set {}: {}", set.place, set.says);
        list.push(record(joined(&start, set), says, question));
    }
    list
}

/// What `roomrules` refuses: a line for what stands before the questions, or for each question that a refused record belongs to.
fn refused(room: &Room, list: &[Record], limits: Limits) -> String {
    let bytes: Vec<u8> = list.iter().flat_map(framed).collect();
    let outcomes = kudzuclamp::play(&mut vec![0; ROOMRULES_WORDS], &bytes).unwrap_or_default();
    let mut lines: Vec<String> = Vec::new();
    let mut told: Option<Option<usize>> = None;
    for (at, record) in list.iter().enumerate() {
        // A record without an outcome could not be read, which no record of ours is.
        let refusal = outcomes
            .get(at)
            .map_or(Some(Refusal::Syntax), |o| o.refusal);
        let Some(refusal) = refusal.filter(|_| told != Some(None) && told != Some(record.question))
        else {
            continue;
        };
        told = Some(record.question);
        let what = match record.question.map(|place| &room.questions[place]) {
            None => record.says.clone(),
            Some(question) => format!(
                "line {}: {}",
                question.line,
                echo::asked(room, &question.asked)
            ),
        };
        lines.push(format!("  {what}\n      {}\n", why(refusal, limits)));
    }
    lines.concat()
}

/// Why a record is refused, in words.
fn why(refusal: Refusal, limits: Limits) -> String {
    let more = match limits.rows < ROOMRULES_ROWS {
        true => format!(". Take more: --rows, {} at most", grouped(ROOMRULES_ROWS)),
        false => ", and roomrules has no more".to_string(),
    };
    match refusal {
        Refusal::Full => format!("a step needs more than {} rows{more}", grouped(limits.rows)),
        Refusal::Spent => format!("the {} rounds are used up", grouped(limits.rounds)),
        _ => format!("refused with {}: {refusal}", refusal.number()),
    }
}

/// Records in hexadecimal, each below a comment, and each question's below its line.
fn text(room: &Room, list: &[Record], name: &str) -> String {
    let mut text = format!(
        "# Records for roomrules, made from {name} by room {}:\n#     sh examples/records-to-bytes THIS | crates/roomrules/out/roomrules\n\
         # It prints a line for each record: operation, refusal (0: answered), value, rounds. A refusal is no verdict.\n\n",
        env!("CARGO_PKG_VERSION")
    );
    let mut question = None;
    for record in list {
        if let Some(place) = record.question.filter(|_| question != record.question) {
            let question = &room.questions[place];
            let asked = echo::question(room, question);
            text += &format!("\n# line {}: {asked}\n", question.line);
        }
        question = record.question;
        text += &format!("# {}\n", record.says);
        for line in framed(record).chunks(LINE) {
            let hex: Vec<String> = line.iter().map(|byte| format!("{byte:02X}")).collect();
            text += &(hex.join(" ") + "\n");
        }
    }
    text
}

fn joined(start: &[u8], store: &Store) -> Vec<u8> {
    [start, store.formula.as_bytes()].concat()
}

/// A record's bytes with its length and its version before them.
fn framed(record: &Record) -> Vec<u8> {
    let mut all = ((record.bytes.len() + 1) as u16).to_be_bytes().to_vec();
    all.push(VERSION);
    all.extend(&record.bytes);
    all
}
