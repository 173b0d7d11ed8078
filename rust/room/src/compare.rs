//! The library's part of a comparison of two rooms: what the walks find is held against it.
use crate::ask::{ending, same, Difference, Halt, Limits};
use crate::diff::results;
use crate::plan::{self, some, ANSWER, START};
use crate::room::{Room, State};
use crate::walk::{Set, Walk};
use crate::{rules, valid};
use kudzuclamp::{Account, Formula, Table, Target};

type Words = Table<Vec<u32>>;

/// A table of the room's states, with relations one after the other.
fn table(room: &Room, limits: Limits, relations: &[Formula]) -> Result<Words, Halt> {
    let mut table = Table::new(&mut [Account::unlimited()], room.bits(), limits.rows)?;
    table.valid(valid::states(room))?;
    for (place, relation) in relations.iter().enumerate() {
        table.relation(place as u32, relation)?;
    }
    Ok(table)
}

fn store(table: &mut Words, place: u32, limits: Limits, formula: Formula) -> Result<(), Halt> {
    let accounts = &mut [Account::unlimited()];
    let target = Target::register(place).rounds(limits.rounds);
    table.set(accounts, target, formula)?;
    Ok(())
}

/// Whether the library found the same; false where it refused for want of rows or rounds.
fn settled(found: Result<(), Halt>) -> Result<bool, Difference> {
    match found {
        Ok(()) => Ok(true),
        Err(Halt::Differs(difference)) => Err(difference),
        Err(Halt::Refused(refusal)) => ending(refusal, "the comparison").map(|_| false),
    }
}

/// Holds the states that presses lead to against those that the library finds with the presses turned round.
pub fn reached(room: &Room, walk: &Walk, limits: Limits) -> Result<bool, Difference> {
    let Ok(turned) = rules::turned(room) else {
        return Ok(false);
    };
    settled(table(room, limits, &turned).and_then(|mut table| {
        store(&mut table, START, limits, plan::start(room))?;
        let from = some(0..turned.len() as u32, &Formula::var(0));
        let comes = Formula::mu(0, Formula::register(START) | from);
        store(&mut table, ANSWER, limits, comes)?;
        same(&table, ANSWER, &walk.reached())
    }))
}

/// Holds the states in which a press does something else, of two rooms with the same bits, against those that the library finds.
pub fn press(
    old: &Room,
    new: &Room,
    name: &str,
    changed: &Set,
    limits: Limits,
) -> Result<bool, Difference> {
    let (Ok(before), Ok(after)) = (lines(old, name), lines(new, name)) else {
        return Ok(false);
    };
    let either = !Formula::any(&before).iff(Formula::any(&after));
    if rules::fits(&either) {
        return settled(by_pairs(new, either, changed, limits));
    }
    if before.len() + after.len() > kudzuclamp::RELATIONS as usize {
        return Ok(false);
    }
    let two_ways = |room: &Room, state: State| results(room, name, state).len() > 1;
    let mut states = new.all_states().into_iter();
    if states.any(|state| two_ways(old, state) || two_ways(new, state)) {
        return Ok(false);
    }
    settled(by_bits(new, &before, &after, changed, limits))
}

/// By the one relation of the steps that one room's press has and the other's has not.
fn by_pairs(room: &Room, either: Formula, changed: &Set, limits: Limits) -> Result<(), Halt> {
    let mut table = table(room, limits, &[either])?;
    let found = Formula::diamond(0, Formula::truth());
    store(&mut table, ANSWER, limits, found)?;
    same(&table, ANSWER, changed)
}

/// Where no press leads to two states: by where one room's press, and not the other's, leads to some state, or to one with a bit
/// on.
fn by_bits(
    room: &Room,
    before: &[Formula],
    after: &[Formula],
    changed: &Set,
    limits: Limits,
) -> Result<(), Halt> {
    let mut table = table(room, limits, &[before, after].concat())?;
    let middle = before.len() as u32;
    let end = middle + after.len() as u32;
    store(&mut table, ANSWER, limits, Formula::falsity())?;
    let bits = (0..room.bits()).map(Formula::current);
    for aim in [Formula::truth()].into_iter().chain(bits) {
        let (one, two) = (some(0..middle, &aim), some(middle..end, &aim));
        let more = Formula::register(ANSWER) | !one.iff(&two);
        store(&mut table, ANSWER, limits, more)?;
    }
    same(&table, ANSWER, changed)
}

/// The relations of one press; none where a room has it not.
fn lines(room: &Room, press: &str) -> Result<Vec<Formula>, ()> {
    let mut alone = room.clone();
    alone.rules.retain(|rule| rule.press == press);
    rules::relations(&alone).map_err(|_| ())
}
