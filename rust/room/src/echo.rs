//! A room as text: what was understood, as a room file that reads the same.
use crate::room::{Asked, Change, Cond, Effect, Part, Question, Room, Rule, State};
use crate::sense;

/// The text of a room, with what each press keeps and how many states each condition has.
pub fn echo(room: &Room) -> String {
    let states = room.all_states();
    let mut text = format!("# as understood: {} states\n", grouped(room.states()));
    for part in grouped_things(&room.parts) {
        text += &(part + "\n");
    }
    text += &format!("start: {}\n", start(room));
    for named in &room.named {
        let line = format!("{} means {}", named.name, cond(room, &named.means));
        text += &(line + &counted(room, &states, &named.means) + "\n");
    }
    text.push('\n');
    for rule in &room.rules {
        text += &rule_lines(room, &states, rule);
    }
    text.push('\n');
    for question in &room.questions {
        text += &(self::question(room, question) + "\n");
    }
    text
}

/// The lines of things and selectors.
fn grouped_things(parts: &[Part]) -> Vec<String> {
    let mut lines: Vec<String> = Vec::new();
    let mut open = false;
    for part in parts {
        match lines.last_mut() {
            _ if part.is_selector() => {
                lines.push(format!(
                    "selector {}: {}",
                    part.name,
                    part.positions.join(" ")
                ));
            }
            Some(line) if open => *line += &format!(" {}", part.name),
            _ => lines.push(format!("things: {}", part.name)),
        }
        open = !part.is_selector();
    }
    lines
}

fn start(room: &Room) -> String {
    if room.any_start {
        return "any".to_string();
    }
    let values = room
        .parts
        .iter()
        .map(|part| value(part, part.value(room.start)));
    values.collect::<Vec<_>>().join(", ")
}

fn rule_lines(room: &Room, states: &[State], rule: &Rule) -> String {
    let mut text = format!("press {}: {}", rule.press, effects(room, rule));
    if let Some(when) = &rule.when {
        text += &format!(" when {}{}", cond(room, when), counted(room, states, when));
    }
    let kept = kept(room, rule);
    match kept.is_empty() {
        true => text + "\n",
        false => text + &format!("\n    # keeps {kept}\n"),
    }
}

/// What a line of a press does.
pub fn effects(room: &Room, rule: &Rule) -> String {
    let effects: Vec<String> = rule.effects.iter().map(|e| effect(room, e)).collect();
    effects.join(", ")
}

/// The names of what a line of a press keeps.
pub fn kept(room: &Room, rule: &Rule) -> String {
    let named = |at: usize| rule.effects.iter().any(|effect| effect.part == at);
    let kept = (room.parts.iter().enumerate()).filter(|(at, _)| !named(*at));
    let kept: Vec<&str> = kept.map(|(_, part)| part.name.as_str()).collect();
    kept.join(", ")
}

fn effect(room: &Room, effect: &Effect) -> String {
    let part = &room.parts[effect.part];
    match effect.change {
        Change::Becomes(to) => value(part, to),
        Change::TurnsOver => format!("{} turns over", part.name),
    }
}

/// A part with a value, as a start or an effect says it.
pub fn value(part: &Part, value: u32) -> String {
    match value {
        _ if part.is_selector() => format!("{} = {}", part.name, part.positions[value as usize]),
        0 => format!("{} off", part.name),
        _ => format!("{} on", part.name),
    }
}

/// A question's whole line.
pub fn question(room: &Room, question: &Question) -> String {
    let expected = if question.expect_broken {
        "expect BROKEN: "
    } else {
        ""
    };
    format!("{expected}{}", asked(room, &question.asked))
}

/// What a question asks, as its line says it.
pub fn asked(room: &Room, asked: &Asked) -> String {
    match asked {
        Asked::Never(x) => format!("never {}", cond(room, x)),
        Asked::AlwaysPossible(x) => format!("always possible: {}", cond(room, x)),
        Asked::Until(x, y) => format!("{} until {}", cond(room, x), cond(room, y)),
        Asked::Unless(x, y) => format!("{} unless {}", cond(room, x), cond(room, y)),
        Asked::Possible(x) => format!("possible: {}", cond(room, x)),
        Asked::Whenever(x, y, z) => {
            let [x, y, z] = [x, y, z].map(|c| cond(room, c));
            format!("whenever {x}: {y} unless {z}")
        }
        Asked::Works(press, x) => format!("{press} works whenever {}", cond(room, x)),
    }
}

/// A condition with as few parentheses as can be read.
pub fn cond(room: &Room, c: &Cond) -> String {
    match c {
        Cond::Is(part, 1) if !room.parts[*part].is_selector() => room.parts[*part].name.clone(),
        Cond::Is(part, to) => value(&room.parts[*part], *to),
        Cond::Named(place) => room.named[*place].name.clone(),
        Cond::Not(c) => format!("not {}", inner(room, c)),
        Cond::All(conds) => list(room, conds, " and "),
        Cond::Any(conds) => list(room, conds, " or "),
    }
}

fn list(room: &Room, conds: &[Cond], joint: &str) -> String {
    let texts: Vec<String> = conds.iter().map(|c| inner(room, c)).collect();
    texts.join(joint)
}

/// A condition as a part of another.
fn inner(room: &Room, c: &Cond) -> String {
    match c {
        Cond::All(_) | Cond::Any(_) => format!("({})", cond(room, c)),
        _ => cond(room, c),
    }
}

/// How many states meet a condition, as a comment.
fn counted(room: &Room, states: &[State], c: &Cond) -> String {
    format!("   # {}", count(room, states, c))
}

/// How many states meet a condition.
pub fn count(room: &Room, states: &[State], c: &Cond) -> String {
    let count = sense::count(room, states, c);
    format!("{} of {} states", grouped(count), grouped(room.states()))
}

/// What is on in a state, and where the selectors stand.
pub fn state(room: &Room, state: State) -> String {
    let on = |part: &&Part| !part.is_selector() && part.value(state) == 1;
    let mut said: Vec<String> = (room.parts.iter().filter(on))
        .map(|part| part.name.clone())
        .collect();
    if said.is_empty() && room.parts.iter().any(|part| !part.is_selector()) {
        said.push("all off".to_string());
    }
    let selectors = room.parts.iter().filter(|part| part.is_selector());
    said.extend(selectors.map(|part| value(part, part.value(state))));
    said.join(", ")
}

/// The state in which the evening begins.
pub fn beginning(room: &Room) -> String {
    match room.any_start {
        true => "any state".to_string(),
        false => state(room, room.start),
    }
}

/// A number with commas: 65,536.
pub fn grouped(number: u32) -> String {
    let digits = number.to_string();
    let mut text = String::new();
    for (at, digit) in digits.chars().enumerate() {
        if at > 0 && (digits.len() - at) % 3 == 0 {
            text.push(',');
        }
        text.push(digit);
    }
    text
}
