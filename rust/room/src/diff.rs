//! Two rooms side by side: what a change of the rules changes.
use crate::ask::{Answer, Verdict};
use crate::changes;
use crate::echo::{self, grouped};
use crate::room::{Change, Cond, Effect, Named, Part, Question, Room, Rule, State};
use crate::walk::{members, Set, Walk};

/// A room, the walk through it and the answers to its questions.
pub struct Side<'a> {
    pub name: &'a str,
    pub room: &'a Room,
    pub walk: &'a Walk,
    pub answers: &'a [Answer],
}

/// For each part of a room its place in another one, and for each of its values the value there.
struct Places(Vec<(usize, Vec<u32>)>);

impl Places {
    /// None where the rooms do not have the same parts with the same positions, in whatever order.
    fn new(old: &Room, new: &Room) -> Option<Places> {
        let place = |part: &Part| {
            let at = (new.parts.iter()).position(|other| other.name == part.name)?;
            let there = &new.parts[at].positions;
            if there.len() != part.positions.len() {
                return None;
            }
            let value = |name: &String| Some(there.iter().position(|other| other == name)? as u32);
            match part.is_selector() {
                true => Some((at, part.positions.iter().map(value).collect::<Option<_>>()?)),
                false => Some((at, vec![0, 1])),
            }
        };
        let places: Option<Vec<_>> = old.parts.iter().map(place).collect();
        places
            .filter(|_| old.parts.len() == new.parts.len())
            .map(Places)
    }

    fn value(&self, part: usize, value: u32) -> (usize, u32) {
        let (place, values) = &self.0[part];
        (*place, values[value as usize])
    }

    fn cond(&self, cond: &Cond) -> Cond {
        let list = |conds: &[Cond]| conds.iter().map(|cond| self.cond(cond)).collect();
        match cond {
            Cond::Is(part, value) => {
                let (place, value) = self.value(*part, *value);
                Cond::Is(place, value)
            }
            Cond::Named(place) => Cond::Named(*place),
            Cond::Not(cond) => Cond::Not(Box::new(self.cond(cond))),
            Cond::All(conds) => Cond::All(list(conds)),
            Cond::Any(conds) => Cond::Any(list(conds)),
        }
    }

    fn effect(&self, effect: &Effect) -> Effect {
        let change = match effect.change {
            Change::Becomes(value) => Change::Becomes(self.value(effect.part, value).1),
            Change::TurnsOver => Change::TurnsOver,
        };
        let part = self.0[effect.part].0;
        Effect { part, change }
    }

    fn rule(&self, rule: &Rule) -> Rule {
        Rule {
            effects: rule.effects.iter().map(|e| self.effect(e)).collect(),
            when: rule.when.as_ref().map(|when| self.cond(when)),
            ..rule.clone()
        }
    }
}

/// The old room with the new one's bits, where both have the same parts: a number is then the same state in both.
pub fn aligned(old: &Room, new: &Room) -> Option<Room> {
    let places = Places::new(old, new)?;
    let start = (old.parts.iter().enumerate()).fold(0, |start, (at, part)| {
        let (place, value) = places.value(at, part.value(old.start));
        new.parts[place].with(start, value)
    });
    let named = |named: &Named| Named {
        means: places.cond(&named.means),
        ..named.clone()
    };
    let question = |question: &Question| Question {
        asked: question.asked.with(|cond| places.cond(cond)),
        ..question.clone()
    };
    Some(Room {
        parts: new.parts.clone(),
        start,
        any_start: old.any_start,
        start_line: old.start_line,
        named: old.named.iter().map(named).collect(),
        rules: old.rules.iter().map(|rule| places.rule(rule)).collect(),
        questions: old.questions.iter().map(question).collect(),
    })
}

/// The buttons of both rooms, each once.
pub fn presses<'a>(old: &'a Room, new: &'a Room) -> Vec<&'a str> {
    let mut found: Vec<&str> = Vec::new();
    for rule in old.rules.iter().chain(&new.rules) {
        if !found.contains(&rule.press.as_str()) {
            found.push(&rule.press);
        }
    }
    found
}

/// The states that a press can lead to from a state.
pub fn results(room: &Room, press: &str, state: State) -> Vec<State> {
    let lines = room.rules.iter().filter(|rule| rule.press == press);
    let mut found: Vec<State> = lines.filter_map(|rule| room.pressed(rule, state)).collect();
    found.sort_unstable();
    found.dedup();
    found
}

/// The states in which a press does something else, of two rooms with the same bits.
pub fn changed(old: &Room, new: &Room, press: &str) -> Set {
    let differs = |state: State| {
        new.exists(state) && results(old, press, state) != results(new, press, state)
    };
    (0..new.patterns()).map(differs).collect()
}

/// The parts that only one of two rooms has, or has with other positions.
pub fn other_things(old: &Room, new: &Room) -> String {
    let only = |one: &Room, two: &Room| -> Vec<String> {
        let same = |part: &&Part| {
            !(two.parts.iter()).any(|o| o.name == part.name && o.positions == part.positions)
        };
        (one.parts.iter().filter(same))
            .map(|part| part.name.clone())
            .collect()
    };
    let mut text =
        "The rooms do not have the same things, so states and presses are not compared.\n"
            .to_string();
    for (when, names) in [("before", only(old, new)), ("after", only(new, old))] {
        if !names.is_empty() {
            text += &format!("  only {when}: {}\n", names.join(", "));
        }
    }
    text
}

/// Where the evening begins, where that is not the same.
fn starts(old: &Side, new: &Side) -> String {
    let (before, after) = (echo::beginning(old.room), echo::beginning(new.room));
    match before == after {
        true => String::new(),
        false => format!("Start: {before} before, {after} after.\n"),
    }
}

/// How many states can come, before and after, with an example of those that went and of those that are new.
pub fn states(old: &Side, new: &Side) -> String {
    let (before, after) = (old.walk.reached(), new.walk.reached());
    let less = |one: &Set, two: &Set| -> Vec<State> {
        members(&one.iter().zip(two).map(|(a, b)| *a && !b).collect())
    };
    let (gone, come) = (less(&before, &after), less(&after, &before));
    let count = |states: usize| grouped(states as u32);
    let mut text = starts(old, new);
    text += &format!(
        "States that can come: {} before, {} after ({} gone, {} new).\n",
        count(members(&before).len()),
        count(members(&after).len()),
        count(gone.len()),
        count(come.len())
    );
    for (what, states) in [("gone, such as:", gone), ("new, such as: ", come)] {
        if let Some(&state) = states.first() {
            text += &format!("  {what} {}\n", echo::state(new.room, state));
        }
    }
    text
}

/// What a press does otherwise, with an example, of two rooms with the same bits; nothing where it does the same.
pub fn press(old: &Side, new: &Side, press: &str, changed: &Set) -> String {
    let has = |room: &Room| room.rules.iter().any(|rule| rule.press == press);
    match (has(old.room), has(new.room)) {
        (false, _) => return format!("{press} is new.\n"),
        (_, false) => return format!("{press} is gone.\n"),
        _ => {}
    }
    let states = members(changed);
    let (before, after) = (old.walk.reached(), new.walk.reached());
    let comes = |state: &&State| before[**state as usize] || after[**state as usize];
    let can_come = states.iter().filter(comes).count();
    let Some(&example) = states.iter().find(comes).or(states.first()) else {
        return String::new();
    };
    let does = |room: &Room| outcome(room, example, &results(room, press, example));
    format!(
        "{press} does something else in {}, of which {} can come, such as: {}\n    before: {}\n    after:  {}\n",
        match states.len() {
            1 => "1 state".to_string(),
            count => format!("{} states", grouped(count as u32)),
        },
        grouped(can_come as u32),
        echo::state(new.room, example),
        does(old.room),
        does(new.room)
    )
}

/// What a press does in a state, by what it leads to.
fn outcome(room: &Room, from: State, results: &[State]) -> String {
    let change = |to: &State| changes::said(room, from, *to);
    match results {
        [] => "does not work".to_string(),
        _ => results.iter().map(change).collect::<Vec<_>>().join(" or "),
    }
}

/// A verdict in a word or two.
fn word(verdict: &Verdict) -> &'static str {
    match verdict {
        Verdict::Safe(_) => "SAFE",
        Verdict::Broken(_) => "BROKEN",
        Verdict::None(_) => "NO VERDICT",
    }
}

/// The verdicts before and after; one that is the same stands once.
pub fn verdicts(old: &Side, new: &Side) -> String {
    // What is asked, the verdict, and the question's line: one that is now expected to be broken is the same question.
    let list = |side: &Side| -> Vec<(String, &'static str, String)> {
        let questions = side.room.questions.iter().zip(side.answers);
        let words = |(q, answer): (&Question, &Answer)| {
            let asked = echo::asked(side.room, &q.asked);
            (asked, word(&answer.verdict), echo::question(side.room, q))
        };
        questions.map(words).collect()
    };
    let (before, after) = (list(old), list(new));
    let find = |list: &[(String, &'static str, String)], asked: &str| {
        (list.iter().find(|(other, ..)| other == asked)).map(|(_, word, _)| *word)
    };
    let mut text = String::new();
    for (asked, now, line) in &after {
        let says = match find(&before, asked) {
            Some(then) if then == *now => now.to_string(),
            Some(then) => format!("{then} -> {now}"),
            None => format!("asked now: {now}"),
        };
        text += &format!("{says:<25}{line}\n");
    }
    for (asked, then, line) in &before {
        if find(&after, asked).is_none() {
            text += &format!("{:<25}{line}\n", format!("asked before: {then}"));
        }
    }
    text
}
