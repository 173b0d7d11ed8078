//! Conditions that were read, but make no sense: no state meets them, or every state does.
use crate::mistake::Mistake;
use crate::room::{Asked, Cond, Part, Question, Room, State};

/// A set of states, 64 to a word: state s is bit s mod 64 of word s / 64.
type Bits = Vec<u64>;

/// In the states of a word, the bits that have weight below 64.
const LOW_BITS: [u64; 6] = [
    0xAAAA_AAAA_AAAA_AAAA,
    0xCCCC_CCCC_CCCC_CCCC,
    0xF0F0_F0F0_F0F0_F0F0,
    0xFF00_FF00_FF00_FF00,
    0xFFFF_0000_FFFF_0000,
    0xFFFF_FFFF_0000_0000,
];

/// Conditions as sets, and what the names mean as far as they are worked out.
struct Met<'a> {
    room: &'a Room,
    named: Vec<Bits>,
}

impl<'a> Met<'a> {
    fn new(room: &'a Room) -> Met<'a> {
        let named = Vec::new();
        Met { room, named }
    }

    /// With all names, each worked out once.
    fn with_names(room: &'a Room) -> Met<'a> {
        let mut met = Met::new(room);
        for named in &room.named {
            let set = met.set(&named.means);
            met.named.push(set);
        }
        met
    }

    fn words(&self) -> usize {
        self.room.patterns().div_ceil(u64::BITS) as usize
    }

    /// The patterns that meet a condition.
    fn set(&self, cond: &Cond) -> Bits {
        let joined = |conds: &[Cond], of_none: u64, join: fn(u64, u64) -> u64| {
            let mut set = vec![of_none; self.words()];
            for cond in conds {
                let other = self.set(cond);
                set.iter_mut()
                    .zip(other)
                    .for_each(|(a, b)| *a = join(*a, b));
            }
            set
        };
        match cond {
            Cond::Is(part, value) => self.is(&self.room.parts[*part], *value),
            Cond::Named(place) => match self.named.get(*place) {
                Some(set) => set.clone(),
                None => self.set(&self.room.named[*place].means),
            },
            Cond::Not(cond) => self.set(cond).into_iter().map(|word| !word).collect(),
            Cond::All(conds) => joined(conds, u64::MAX, |a, b| a & b),
            Cond::Any(conds) => joined(conds, 0, |a, b| a | b),
        }
    }

    /// The patterns in which a part has a value.
    fn is(&self, part: &Part, value: u32) -> Bits {
        let word = |at: usize| {
            (0..part.width).fold(u64::MAX, |set, k| {
                let bit = (part.low + k) as usize;
                let on = match LOW_BITS.get(bit) {
                    Some(states) => *states,
                    None => 0_u64.wrapping_sub((at >> (bit - LOW_BITS.len()) & 1) as u64),
                };
                set & if value >> k & 1 == 1 { on } else { !on }
            })
        };
        (0..self.words()).map(word).collect()
    }

    /// How many of some states meet a condition.
    fn count(&self, states: &[State], cond: &Cond) -> u32 {
        let set = self.set(cond);
        let inside = |state: &&State| set[**state as usize / 64] >> (**state % 64) & 1 == 1;
        states.iter().filter(inside).count() as u32
    }
}

/// How many of some states meet a condition.
pub fn count(room: &Room, states: &[State], cond: &Cond) -> u32 {
    Met::new(room).count(states, cond)
}

/// A condition that some state must meet; what follows where none does; and whether some state must not meet it.
struct Look<'a> {
    line: usize,
    cond: &'a Cond,
    so: String,
    not_all: bool,
}

/// A verdict on such a condition would tell nothing, so they are mistakes.
pub fn mistakes(room: &Room) -> Vec<Mistake> {
    let (states, met) = (room.all_states(), Met::with_names(room));
    let mut found = Vec::new();
    for look in (named(room).chain(presses(room))).chain(room.questions.iter().flat_map(asked)) {
        let which = match met.count(&states, look.cond) {
            0 => "no state",
            met if met == room.states() && look.not_all => "every state",
            _ => continue,
        };
        let says = format!("{which} of the room is like this, so {}", look.so);
        found.push(Mistake::line(look.line, says));
    }
    found.dedup();
    found
}

fn named(room: &Room) -> impl Iterator<Item = Look<'_>> {
    room.named.iter().map(|named| Look {
        line: named.line,
        cond: &named.means,
        so: format!("\"{}\" says nothing", named.name),
        not_all: false,
    })
}

fn presses(room: &Room) -> impl Iterator<Item = Look<'_>> {
    room.rules.iter().filter_map(|rule| {
        let so = "the press never works".to_string();
        rule.when.as_ref().map(|cond| Look {
            line: rule.line,
            cond,
            so,
            not_all: false,
        })
    })
}

/// The conditions of a question.
fn asked(question: &Question) -> Vec<Look<'_>> {
    let look = |cond, not_all| Look {
        line: question.line,
        cond,
        so: "there is nothing to ask".to_string(),
        not_all,
    };
    match &question.asked {
        Asked::Never(x) | Asked::AlwaysPossible(x) | Asked::Possible(x) => vec![look(x, true)],
        Asked::Works(_, x) => vec![look(x, false)],
        Asked::Until(x, y) | Asked::Unless(x, y) => vec![look(x, false), look(y, true)],
        Asked::Whenever(x, y, z) => vec![look(x, false), look(y, true), look(z, true)],
    }
}

/// Whether a named set, by its place, stands in some condition.
pub fn uses(room: &Room, place: usize) -> bool {
    let named = room.named.iter().map(|named| &named.means);
    let when = room.rules.iter().filter_map(|rule| rule.when.as_ref());
    let asked = (room.questions.iter()).flat_map(|question| question.asked.conditions());
    named
        .chain(when)
        .chain(asked)
        .any(|cond| names(cond, place))
}

fn names(cond: &Cond, place: usize) -> bool {
    match cond {
        Cond::Is(..) => false,
        Cond::Named(other) => *other == place,
        Cond::Not(cond) => names(cond, place),
        Cond::All(conds) | Cond::Any(conds) => conds.iter().any(|cond| names(cond, place)),
    }
}

#[cfg(test)]
mod tests {
    use super::Met;
    use crate::read::read;

    /// The states of conditions, state by state.
    #[test]
    fn states_that_meet_conditions() {
        let text = "things: a b c\nselector s: x y z\nthings: d\nselector t: p q r s u\nstart: all off\n\
                    m means a and not (s = z or t = u)\nn means not m and (d or c)\npress A: a on when n or (m and b)\n\
                    never m or n\nnever b and t = r and s = x\nnever not d\n";
        let room = read(text).unwrap();
        let states = room.all_states();
        let (plain, with_names) = (Met::new(&room), Met::with_names(&room));
        let asked = room
            .questions
            .iter()
            .flat_map(|question| question.asked.conditions());
        let conds: Vec<_> = (asked.chain(room.named.iter().map(|named| &named.means)))
            .chain(room.rules.iter().filter_map(|rule| rule.when.as_ref()))
            .collect();
        assert_eq!((room.bits(), conds.len()), (9, 6));
        for cond in conds {
            for met in [&plain, &with_names] {
                let held = states.iter().filter(|&&state| room.holds(cond, state));
                assert_eq!(met.count(&states, cond), held.count() as u32);
                let set = met.set(cond);
                let inside = |state: u32| set[state as usize / 64] >> (state % 64) & 1 == 1;
                assert!((states.iter()).all(|&state| inside(state) == room.holds(cond, state)));
            }
        }
    }
}
