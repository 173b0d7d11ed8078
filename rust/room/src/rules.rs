//! Formulas of conditions and presses, and the presses packed into relations.
use crate::mistake::Mistake;
use crate::room::{Change, Cond, Part, Room, Rule};
use crate::valid;
use kudzuclamp::{Formula, RELATIONS};

/// The most bytes of a formula with its frame, and its greatest depth.
const MAX_FRAMED: usize = 3 + 1_023;
const MAX_DEPTH: usize = 64;

/// The bit of a state by its number: of the current one, or of the next.
type Bit = fn(u32) -> Formula;

/// A condition on the current state.
pub fn condition(room: &Room, cond: &Cond) -> Formula {
    condition_on(room, cond, Formula::current)
}

fn condition_on(room: &Room, cond: &Cond, bit: Bit) -> Formula {
    let of = |cond: &Cond| condition_on(room, cond, bit);
    match cond {
        Cond::Is(part, value) => value_is(&room.parts[*part], *value, bit),
        Cond::Named(place) => of(&room.named[*place].means),
        Cond::Not(cond) => !of(cond),
        Cond::All(conds) => Formula::all(conds.iter().map(of)),
        Cond::Any(conds) => Formula::any(conds.iter().map(of)),
    }
}

/// A part's bits show a value.
pub fn value_is(part: &Part, value: u32, bit: Bit) -> Formula {
    Formula::all((0..part.width).map(|k| match value >> k & 1 {
        1 => bit(part.low + k),
        _ => !bit(part.low + k),
    }))
}

/// A rule without what it keeps, and the bits that it names.
struct Changes<'a> {
    rule: &'a Rule,
    formula: Formula,
    named: u32,
}

fn changes<'a>(room: &Room, rule: &'a Rule, [now, then]: [Bit; 2]) -> Changes<'a> {
    let when = (rule.when.iter()).map(|when| condition_on(room, when, now));
    let effects = rule.effects.iter().map(|effect| {
        let part = &room.parts[effect.part];
        match effect.change {
            Change::Becomes(value) => value_is(part, value, then),
            Change::TurnsOver => Formula::turns(part.low),
        }
    });
    let parts = rule.effects.iter().map(|effect| &room.parts[effect.part]);
    Changes {
        rule,
        formula: Formula::all(when.chain(effects)),
        named: parts.fold(0, |bits, part| bits | part.with(0, (1 << part.width) - 1)),
    }
}

/// One of the rules, where so many bits keep but for those that the rule itself names. What all rules of
/// a half keep is said once.
fn one_of(rules: &[Changes], bits: u32) -> Formula {
    let named = rules.iter().fold(0, |named, rule| named | rule.named);
    let kept = (0..u32::BITS).filter(|p| bits & !named & 1 << p != 0);
    let body = match rules {
        [rule] => rule.formula.clone(),
        _ => {
            let (left, right) = rules.split_at(rules.len() / 2);
            one_of(left, named) | one_of(right, named)
        }
    };
    Formula::all(kept.map(Formula::keeps).chain([body]))
}

/// A relation of exactly the presses by these rules.
fn relation(room: &Room, rules: &[Changes]) -> Formula {
    valid::pairs(room, one_of(rules, room.patterns() - 1))
}

/// The presses as relations, as few as the order of the lines allows; or why they do not fit.
pub fn relations(room: &Room) -> Result<Vec<Formula>, Mistake> {
    packed(room, [Formula::current, Formula::next])
}

/// The same, turned round: from where a press leads to where it was pressed.
pub fn turned(room: &Room) -> Result<Vec<Formula>, Mistake> {
    packed(room, [Formula::next, Formula::current])
}

fn packed(room: &Room, bits: [Bit; 2]) -> Result<Vec<Formula>, Mistake> {
    let rules: Vec<Changes> = (room.rules.iter())
        .map(|rule| changes(room, rule, bits))
        .collect();
    let mut relations: Vec<Formula> = Vec::new();
    let mut first = 0;
    for end in 1..=rules.len() {
        let wider = relation(room, &rules[first..end]);
        if first < end - 1 && fits(&wider) {
            relations.pop();
            relations.push(wider);
            continue;
        }
        first = end - 1;
        let alone = relation(room, &rules[first..end]);
        let line = rules[first].rule.line;
        if !fits(&alone) {
            let says = "this press is too long: say its condition with fewer words, or split it over several lines of the same press";
            return Err(Mistake::line(line, says.to_string()));
        }
        if relations.len() == RELATIONS as usize {
            let says = format!(
                "the presses do not fit from this line on: the table has room for {RELATIONS} relations, and the presses above fill them. \
                 Take presses or things out, or say conditions with fewer words"
            );
            return Err(Mistake::line(line, says));
        }
        relations.push(alone);
    }
    Ok(relations)
}

/// Whether a call takes a formula of that length and depth.
pub fn fits(formula: &Formula) -> bool {
    formula.as_bytes().len() <= MAX_FRAMED && depth(&formula.as_bytes()[3..]) <= MAX_DEPTH
}

/// The depth of a formula in prefix order: the greatest number of operators that are open at a byte, and
/// one for the byte.
fn depth(tokens: &[u8]) -> usize {
    // For each open operator, how many of its parts are still to come.
    let mut open: Vec<u8> = Vec::new();
    let mut deepest = 0;
    for token in tokens {
        deepest = deepest.max(open.len() + 1);
        match token {
            0x03 | 0x04 | 0x90..=0x9F => open.push(2),
            0x02 | 0x60..=0x8F => open.push(1),
            _ => {
                while let Some(parts) = open.pop() {
                    if parts > 1 {
                        open.push(parts - 1);
                        break;
                    }
                }
            }
        }
    }
    deepest
}

#[cfg(test)]
mod tests {
    use super::{depth, relations};
    use crate::read::read;
    use kudzuclamp::{Account, Formula, Table};

    #[test]
    fn depths() {
        let bit = Formula::current(0);
        let of = |formula: &Formula| depth(&formula.as_bytes()[3..]);
        assert_eq!(of(&bit), 1);
        assert_eq!(of(&(!&bit & &bit)), 3);
        assert_eq!(of(&(&bit & !&bit)), 3);
        assert_eq!(of(&((&bit & !!&bit) | &bit)), 5);
        assert_eq!(of(&Formula::until_every(0, Formula::mu(0, &bit), &bit)), 3);
        // Against the library: 64 deep is taken, 65 is not.
        let table = Table::new(&mut [Account::unlimited()], 1, 10).unwrap();
        for leaves in 60..70 {
            let right = (1..leaves).fold(bit.clone(), |f, _| &bit & f);
            let left = (1..leaves).fold(bit.clone(), |f, _| f | &bit);
            for formula in [right, left] {
                assert_eq!(of(&formula), leaves);
                assert_eq!(table.check_set(&formula).is_ok(), leaves <= 64);
            }
        }
    }

    /// A room of n things that presses turn over, each where the one before is on.
    fn chain(n: u32, times: u32) -> String {
        let things: Vec<String> = (0..n).map(|k| format!("t{k}")).collect();
        let mut text = format!("things: {}\nstart: all off\n", things.join(" "));
        for round in 0..times {
            for k in 0..n {
                text += &format!(
                    "press B{k}-{round}: t{k} turns over when not t{}\n",
                    (k + 1 + round) % n
                );
            }
        }
        text + "never t0"
    }

    #[test]
    fn few_relations() {
        let count = |n, times| relations(&read(&chain(n, times)).unwrap()).map(|list| list.len());
        assert_eq!(count(2, 1), Ok(1));
        assert_eq!(count(16, 1), Ok(1));
        assert_eq!(count(16, 4), Ok(4));
        assert!(count(16, 30).is_err());
    }
}
