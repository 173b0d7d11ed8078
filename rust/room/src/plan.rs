//! The calls that answer a room's questions.
use crate::mistake::Mistake;
use crate::room::{Asked, Cond, Room};
use crate::{echo, rules, valid};
use kudzuclamp::Formula;
use std::ops::Range;

/// The registers: states that exist, the start, a question's first two sets, its inner and its last answer, what of the start
/// is in that answer, and a question's third set.
pub const START: u32 = 1;
pub const FIRST: u32 = 2;
pub const SECOND: u32 = 3;
pub const INNER: u32 = 4;
pub const ANSWER: u32 = 5;
pub const START_IN_ANSWER: u32 = 6;
pub const THIRD: u32 = 7;

/// A relation or a set to store, with a line that says what it is.
#[derive(Clone, Debug, PartialEq, Eq)]
pub struct Store {
    pub place: u32,
    pub formula: Formula,
    pub says: String,
}

/// The calls of one question.
#[derive(Clone, Debug, PartialEq, Eq)]
pub struct Asking {
    pub sets: Vec<Store>,
    /// Whether the answer has the states in which the question holds, or those in which it is broken.
    pub holds: bool,
}

/// All calls after fresh.
#[derive(Clone, Debug, PartialEq, Eq)]
pub struct Plan {
    pub relations: Vec<Store>,
    /// The states that exist, and the start state.
    pub sets: Vec<Store>,
    pub questions: Vec<Asking>,
}

/// The calls for a room; or what of it does not fit into them.
pub fn plan(room: &Room) -> Result<Plan, Vec<Mistake>> {
    let formulas = rules::relations(room).map_err(|mistake| vec![mistake])?;
    let count = formulas.len() as u32;
    let mut too_long = Vec::new();
    let mut questions = Vec::new();
    for question in &room.questions {
        let asking = asking(room, &question.asked, count);
        if !asking.sets.iter().all(|set| rules::fits(&set.formula)) {
            let says = "this question is too long: say it with fewer words";
            too_long.push(Mistake::line(question.line, says.to_string()));
        }
        questions.push(asking);
    }
    if !too_long.is_empty() {
        return Err(too_long);
    }
    let presses = |k: usize| match count {
        1 => "relation 0: the presses".to_string(),
        _ => format!("relation {k}: the presses, part {} of {count}", k + 1),
    };
    let relations = formulas.into_iter().enumerate();
    Ok(Plan {
        relations: relations
            .map(|(k, formula)| store(k as u32, formula, presses(k)))
            .collect(),
        sets: vec![
            store(
                valid::REGISTER,
                valid::states(room),
                format!("the {} states that exist", echo::grouped(room.states())),
            ),
            store(
                START,
                start(room),
                format!("the start: {}", echo::beginning(room)),
            ),
        ],
        questions,
    })
}

/// The states in which the evening may begin.
pub fn start(room: &Room) -> Formula {
    let parts = room.parts.iter();
    match room.any_start {
        true => valid::states(room),
        false => Formula::all(
            parts.map(|part| rules::value_is(part, part.value(room.start), Formula::current)),
        ),
    }
}

fn store(place: u32, formula: Formula, says: String) -> Store {
    Store {
        place,
        formula,
        says,
    }
}

/// The calls of a question over so many relations.
fn asking(room: &Room, asked: &Asked, relations: u32) -> Asking {
    let mut sets = conditions(room, asked);
    let (inner, answer, holds) = answers(asked, relations);
    sets.extend(inner);
    closed(room, sets, answer, holds)
}

/// The sets that a question names.
fn conditions(room: &Room, asked: &Asked) -> Vec<Store> {
    let set = |(register, cond): (u32, &Cond)| {
        let formula = valid::within(room, rules::condition(room, cond));
        let says = format!("where {}", echo::cond(room, cond));
        store(register, formula, says)
    };
    match asked {
        Asked::Works(press, x) => vec![set((FIRST, &room.fails(press, x)))],
        _ => {
            let registers = [FIRST, SECOND, THIRD].into_iter();
            registers.zip(asked.conditions()).map(set).collect()
        }
    }
}

/// The inner answer of a question, where it has one, and its answer; and whether that has the states in which the question holds.
fn answers(asked: &Asked, relations: u32) -> (Option<Store>, Store, bool) {
    let [first, second, third, inner] = [FIRST, SECOND, THIRD, INNER].map(Formula::register);
    let before = |formula: Formula, says: &str| Some(store(INNER, formula, says.to_string()));
    let answer = |formula: Formula, says: &str| store(ANSWER, formula, says.to_string());
    let there = leads_to(relations, &first);
    let (leads, passes) = (
        "from where presses lead there",
        "from where every run of presses passes",
    );
    match asked {
        Asked::Never(_) | Asked::Works(..) => (None, answer(there, leads), false),
        Asked::Possible(_) => (None, answer(there, leads), true),
        Asked::AlwaysPossible(_) => {
            let formula = Formula::nu(0, inner & every(relations, &Formula::var(0)));
            let says = "from where they still do after any presses";
            (before(there, leads), answer(formula, says), true)
        }
        Asked::Until(..) => {
            let formula = until(relations, &first, &second);
            (None, answer(formula, passes), true)
        }
        Asked::Unless(..) => {
            let formula = unless(relations, &first, &second);
            (None, answer(formula, passes), true)
        }
        Asked::Whenever(..) => {
            let fails = leads_to(relations, &(first & !inner));
            let says =
                "from where presses lead to the first, and some run from there does not pass";
            let formula = unless(relations, &second, &third);
            (before(formula, passes), answer(fails, says), false)
        }
    }
}

/// The calls with the answer, and what of the start is in it.
fn closed(room: &Room, mut sets: Vec<Store>, answer: Store, holds: bool) -> Asking {
    let says = match (room.any_start, holds) {
        (false, true) => "is the start among them? 1 state: SAFE, 0: BROKEN".to_string(),
        (false, false) => "is the start among them? 0 states: SAFE, 1: BROKEN".to_string(),
        (true, true) => format!(
            "which starts are among them? All {}: SAFE, fewer: BROKEN",
            echo::grouped(room.states())
        ),
        (true, false) => "which starts are among them? None: SAFE, some: BROKEN".to_string(),
    };
    let found = Formula::register(START) & Formula::register(ANSWER);
    sets.push(answer);
    sets.push(store(START_IN_ANSWER, found, says));
    Asking { sets, holds }
}

/// Some press of these relations leads into a set.
pub fn some(relations: Range<u32>, f: &Formula) -> Formula {
    Formula::any(relations.map(|t| Formula::diamond(t, f)))
}

/// Every press leads into a set.
fn every(relations: u32, f: &Formula) -> Formula {
    Formula::all((0..relations).map(|t| Formula::boxed(t, f)))
}

/// Some presses, or none, lead into a set.
fn leads_to(relations: u32, f: &Formula) -> Formula {
    Formula::mu(0, f | some(0..relations, &Formula::var(0)))
}

/// Every run of presses comes to g, and f holds before. Until has one relation; over several it is the binder that it
/// stands for.
fn until(relations: u32, f: &Formula, g: &Formula) -> Formula {
    if relations == 1 {
        return Formula::until_every(0, f, g);
    }
    let goes_on = every(relations, &Formula::var(0)) & some(0..relations, &Formula::truth());
    Formula::mu(0, g | (f & goes_on))
}

/// On every run of presses f holds as long as g has not come, which it need not.
fn unless(relations: u32, f: &Formula, g: &Formula) -> Formula {
    Formula::nu(0, g | (f & every(relations, &Formula::var(0))))
}
