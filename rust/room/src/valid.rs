//! Switch positions that cannot be. A selector of three positions takes two bits and never shows the
//! fourth pattern. The table is told which states exist (`Table::valid` of `states`). Records for `roomrules`
//! have no operation for that, so the condition that all patterns are positions also stands in relations, the
//! start and the sets that questions name: this is the one place that writes it.
use crate::room::{Part, Room};
use kudzuclamp::Formula;

/// The register that holds the states that exist, for `within`.
pub const REGISTER: u32 = 0;

/// The states that exist.
pub fn states(room: &Room) -> Formula {
    patterns(room, Formula::current)
}

/// The pairs of a relation whose states exist, now and next.
pub fn pairs(room: &Room, relation: Formula) -> Formula {
    if room.parts.iter().all(full) {
        return relation;
    }
    Formula::all([
        patterns(room, Formula::current),
        patterns(room, Formula::next),
        relation,
    ])
}

/// The states of a set that exist.
pub fn within(room: &Room, set: Formula) -> Formula {
    if room.parts.iter().all(full) {
        return set;
    }
    Formula::register(REGISTER) & set
}

/// Whether every pattern of a part's bits is one of its values.
fn full(part: &Part) -> bool {
    part.values() == 1 << part.width
}

/// All selectors show one of their positions.
fn patterns(room: &Room, bit: fn(u32) -> Formula) -> Formula {
    let selectors = room.parts.iter().filter(|part| !full(part));
    Formula::all(selectors.map(|part| at_most(part, part.values() - 1, bit)))
}

/// A part's value is at most a number, which is not the greatest that its bits can show: from the highest bit
/// down, the first that differs from the number's is off.
fn at_most(part: &Part, most: u32, bit: fn(u32) -> Formula) -> Formula {
    let mut holds = None;
    for k in 0..part.width {
        let b = bit(part.low + k);
        holds = match (most >> k & 1, holds) {
            (1, None) => None,
            (1, Some(rest)) => Some(!b | rest),
            (_, None) => Some(!b),
            (_, Some(rest)) => Some(!b & rest),
        };
    }
    holds.unwrap_or_else(Formula::truth)
}

#[cfg(test)]
mod tests {
    use super::{at_most, states};
    use crate::read::read;
    use crate::room::{width_of, Part};
    use kudzuclamp::{Account, Formula, Table, Target};

    /// The states of a formula, by the library.
    fn members(n: u32, formula: Formula) -> Vec<u32> {
        let mut accounts = [Account::unlimited()];
        let mut table = Table::new(&mut accounts, n, 10_000).unwrap();
        let target = Target::register(0);
        table.set(&mut accounts, target, formula).unwrap();
        table.states(0).unwrap().collect()
    }

    #[test]
    fn numbers_up_to_another() {
        for values in 2..=33 {
            let part = Part {
                name: String::new(),
                line: 1,
                positions: vec![String::new(); values],
                low: 0,
                width: width_of(values),
            };
            let formula = at_most(&part, values as u32 - 1, Formula::current);
            let expected: Vec<u32> = (0..values as u32).collect();
            assert_eq!(members(part.width, formula), expected);
        }
    }

    #[test]
    fn two_selectors() {
        let text = "selector a: x y z\nthings: t\nselector b: p q r s u\nstart: all off\npress P: t on\nnever t";
        let room = read(text).unwrap();
        let expected: Vec<u32> = (0..64).filter(|&s| room.exists(s)).collect();
        assert_eq!(expected.len() as u32, room.states());
        assert_eq!(members(6, states(&room)), expected);
    }
}
