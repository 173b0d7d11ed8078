//! The meaning of a set formula "by sets", without steps or rounds.
//!
//! Fixpoints are found among all sets of states, so this serves n up to 3. It
//! is held against the evaluation by rounds.

use crate::evaluate::Held;
use crate::formula::{Fixpoint, Formula, Modality};
use crate::runs;
use crate::states::{state_count, StateSet};

/// Variables and their sets.
type Environment = Vec<(u8, StateSet)>;

/// "the set of exactly the states in which its formula holds".
pub fn states_of(held: Held, formula: &Formula) -> StateSet {
    meaning(held, formula, &Vec::new())
}

fn meaning(held: Held, formula: &Formula, environment: &Environment) -> StateSet {
    match formula {
        Formula::Binder(fixpoint, p, body) => {
            let transform = |set: &StateSet| {
                let mut inner = environment.clone();
                inner.push((*p, set.clone()));
                meaning(held, body, &inner)
            };
            extreme_fixpoint(held.valid, *fixpoint, transform)
        }
        Formula::Until(modality, t, f, g) => {
            let relation = held.relations[*t].as_ref().expect("filled by check 7");
            let (f, g) = (meaning(held, f, environment), meaning(held, g, environment));
            runs::until(*modality, relation, &f, &g).and(held.valid)
        }
        _ => {
            let parts: Vec<StateSet> = (formula.parts().into_iter())
                .map(|part| meaning(held, part, environment))
                .collect();
            // Slip 6: states outside V do not exist.
            StateSet::from_fn(held.n, |state| {
                held.valid.contains(state) && holds(held, formula, &parts, environment, state)
            })
        }
    }
}

/// Whether the formula holds in a state, given the states of its parts.
fn holds(
    held: Held,
    formula: &Formula,
    parts: &[StateSet],
    environment: &Environment,
    state: usize,
) -> bool {
    match formula {
        Formula::Constant(value) => *value,
        Formula::NowBit(p) => (state / (1 << p)) % 2 == 1,
        Formula::Variable(p) => {
            let bound = environment.iter().find(|(q, _)| q == p);
            bound.expect("bound by check 5").1.contains(state)
        }
        Formula::Register(r) => {
            let set = held.registers[*r].as_ref();
            set.expect("filled by check 7").contains(state)
        }
        Formula::Not(_) => !parts[0].contains(state),
        Formula::And(..) => parts[0].contains(state) && parts[1].contains(state),
        Formula::Or(..) => parts[0].contains(state) || parts[1].contains(state),
        // "box: f in every next state"; "diamond: f in some next state".
        Formula::Modal(modality, t, _) => {
            let relation = held.relations[*t].as_ref().expect("filled by check 7");
            let exists = |s: &usize| held.valid.contains(*s) && relation.contains(state, *s);
            let mut following = (0..state_count(held.n)).filter(exists);
            match modality {
                Modality::Box => following.all(|s| parts[0].contains(s)),
                Modality::Diamond => following.any(|s| parts[0].contains(s)),
            }
        }
        Formula::NextBit(_) | Formula::Binder(..) | Formula::Until(..) => unreachable!(),
    }
}

/// "least set A with f(A) = A"; "greatest such set": over the sets of states
/// that exist.
fn extreme_fixpoint(
    valid: &StateSet,
    fixpoint: Fixpoint,
    transform: impl Fn(&StateSet) -> StateSet,
) -> StateSet {
    let n = valid.n();
    assert!(n <= 3, "too many sets of states to enumerate");
    let sets = (0..1usize << state_count(n))
        .map(|code| StateSet::from_fn(n, |s| code >> s & 1 == 1))
        .filter(|set| is_part(set, valid));
    let fixed: Vec<StateSet> = sets.filter(|set| transform(set) == *set).collect();
    let extreme = fixed.iter().find(|candidate| {
        fixed.iter().all(|other| match fixpoint {
            Fixpoint::Mu => is_part(candidate, other),
            Fixpoint::Nu => is_part(other, candidate),
        })
    });
    extreme.expect("monotone by check 6").clone()
}

fn is_part(part: &StateSet, whole: &StateSet) -> bool {
    part.and(whole) == *part
}
