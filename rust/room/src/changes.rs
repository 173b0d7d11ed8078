//! What a press does in a state, in the room's words: what changes, or what is missing for it.
use crate::echo;
use crate::room::{Cond, Room, State};

/// What stands otherwise in the second state than in the first, as the room file would say it: `echo off`, `volume = loud`.
pub fn changes(room: &Room, before: State, after: State) -> Vec<String> {
    let parts = room.parts.iter();
    let other = parts.filter(|part| part.value(before) != part.value(after));
    other
        .map(|part| echo::value(part, part.value(after)))
        .collect()
}

/// The same in one line.
pub fn said(room: &Room, before: State, after: State) -> String {
    match changes(room, before, after) {
        none if none.is_empty() => "nothing changes".to_string(),
        changes => changes.join(", "),
    }
}

/// What is missing in a state in which no line of a press works: no line works anywhere without it.
pub fn missing(room: &Room, press: &str, state: State) -> Option<Cond> {
    let lines = room.rules.iter().filter(|rule| rule.press == press);
    let whens: Option<Vec<&Cond>> = lines.map(|rule| rule.when.as_ref()).collect();
    let whens = whens.filter(|whens| !whens.iter().any(|when| room.holds(when, state)))?;
    Some(any(whens
        .into_iter()
        .map(|when| unmet(room, when, state))
        .collect()))
}

/// A named condition of which more conditions than this are unmet is said by its name.
const MOST_SAID: usize = 3;

/// The part of a condition that a state does not meet: it does not hold there, and wherever the condition holds, it does.
fn unmet(room: &Room, cond: &Cond, state: State) -> Cond {
    let unmet = |cond: &Cond| unmet(room, cond, state);
    match cond {
        Cond::All(conds) => {
            let fail = conds.iter().filter(|cond| !room.holds(cond, state));
            all(fail.map(unmet).collect())
        }
        Cond::Any(conds) => any(conds.iter().map(unmet).collect()),
        Cond::Named(place) => match unmet(&room.named[*place].means) {
            short if count(&short) <= MOST_SAID => short,
            _ => cond.clone(),
        },
        Cond::Not(inside) => match &**inside {
            Cond::Not(cond) => unmet(cond),
            Cond::Any(conds) => {
                let hold = conds.iter().filter(|cond| room.holds(cond, state));
                all(hold.map(|cond| unmet(&not(cond))).collect())
            }
            _ => cond.clone(),
        },
        Cond::Is(..) => cond.clone(),
    }
}

fn not(cond: &Cond) -> Cond {
    Cond::Not(Box::new(cond.clone()))
}

/// How many parts and names a condition has.
fn count(cond: &Cond) -> usize {
    match cond {
        Cond::Is(..) | Cond::Named(_) => 1,
        Cond::Not(cond) => count(cond),
        Cond::All(conds) | Cond::Any(conds) => conds.iter().map(count).sum(),
    }
}

/// Conditions joined by `and`, without those that follow from another: `a or b` where `a` is one of them.
fn all(conds: Vec<Cond>) -> Cond {
    let each = conds.iter().flat_map(by_and).cloned().collect();
    joined(each, by_or, Cond::All)
}

/// Conditions joined by `or`, without those from which another follows: `a and b` where `a` is one of them.
fn any(conds: Vec<Cond>) -> Cond {
    let each = conds.iter().flat_map(by_or).cloned().collect();
    joined(each, by_and, Cond::Any)
}

/// What a condition joins by `and`; by `or`.
fn by_and(cond: &Cond) -> &[Cond] {
    match cond {
        Cond::All(conds) => conds,
        cond => std::slice::from_ref(cond),
    }
}

fn by_or(cond: &Cond) -> &[Cond] {
    match cond {
        Cond::Any(conds) => conds,
        cond => std::slice::from_ref(cond),
    }
}

/// Joins conditions, each once, and none whose parts are more than those of another.
fn joined(each: Vec<Cond>, parts: fn(&Cond) -> &[Cond], join: fn(Vec<Cond>) -> Cond) -> Cond {
    let within = |less: &Cond, more: &Cond| parts(less).iter().all(|c| parts(more).contains(c));
    let mut kept: Vec<Cond> = Vec::new();
    for cond in each {
        if !kept.iter().any(|other| within(other, &cond)) {
            kept.retain(|other| !within(&cond, other));
            kept.push(cond);
        }
    }
    match kept.len() {
        1 => kept.remove(0),
        _ => join(kept),
    }
}

#[cfg(test)]
mod tests {
    use super::{missing, said};
    use crate::{echo, read};

    const ROOM: &str = "\
things: a b c d
selector s: low high
start: all off
both means a and b
many means a and b and c and d
press B: b on when a
press NOT: b on when not (a or b or c)
press TWO: b on when not d and a
press TWO: b off when not d and a and c
press NAMED: c on when both and not d
press MANY: c on when many
press HIGH: c on when s = high or not not (a and c)
press ALL: c on when (a or b) and b
never d
";

    fn needs(press: &str, state: u32) -> Option<String> {
        let room = read::read(ROOM).unwrap();
        missing(&room, press, state).map(|cond| echo::cond(&room, &cond))
    }

    #[test]
    fn what_is_missing() {
        let cases = [
            ("B", 0b0000, "a"),
            ("NOT", 0b0100, "not c"),
            ("NOT", 0b0101, "not a and not c"),
            ("TWO", 0b1000, "not d and a"),
            ("TWO", 0b1001, "not d"),
            ("NAMED", 0b0001, "b"),
            ("NAMED", 0b1000, "a and b and not d"),
            ("MANY", 0b0001, "b and c and d"),
            ("MANY", 0b0000, "many"),
            ("HIGH", 0b0001, "s = high or c"),
            ("ALL", 0b0001, "b"),
            ("ALL", 0b0000, "b"),
        ];
        for (press, state, text) in cases {
            assert_eq!(needs(press, state).as_deref(), Some(text), "{press}");
        }
        assert_eq!(needs("B", 0b0001), None);
        assert_eq!(needs("HIGH", 0b10000), None);
    }

    #[test]
    fn what_changes() {
        let room = read::read(ROOM).unwrap();
        assert_eq!(said(&room, 0b00011, 0b10101), "b off, c on, s = high");
        assert_eq!(said(&room, 0b00011, 0b00011), "nothing changes");
    }
}
