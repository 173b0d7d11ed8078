//! Steps of evaluation: live sets, needs, rounds, refusals 8 and 9.

use crate::formula::{Fixpoint, Formula, Kind, Modality};
use crate::refusal::Refusal;
use crate::rows::Rows;
use crate::runs;
use crate::states::{PairSet, StateSet};

/// What the registers and relations hold at the start of the call, and V. The
/// call changes none of them before its end: "The old content of the target is
/// live throughout the call."
#[derive(Clone, Copy)]
pub struct Held<'a> {
    pub n: u32,
    /// Slip 6: "the set V of states that exist".
    pub valid: &'a StateSet,
    pub registers: &'a [Option<StateSet>],
    pub relations: &'a [Option<PairSet>],
}

impl Held<'_> {
    /// Rows needed by all filled registers and relations. Slip 6: "V is live
    /// always, counts in collect".
    pub fn rows(&self) -> Rows {
        let mut rows = Rows::new();
        rows.add_set(self.valid);
        self.registers
            .iter()
            .flatten()
            .for_each(|set| rows.add_set(set));
        self.relations
            .iter()
            .flatten()
            .for_each(|r| rows.add_relation(r));
        rows
    }
}

/// The rows that a step of the call may need and the rounds that it may take.
/// Slip 7: "A full refusal is judged by the smaller row figure."
#[derive(Clone, Copy)]
pub struct Limits {
    pub rows: usize,
    pub rounds: u32,
}

/// An answered evaluation.
#[derive(Clone, Debug, PartialEq, Eq)]
pub struct Evaluated<T> {
    pub value: T,
    pub rounds: u32,
    /// Slip 2: "the largest row need, over its steps, of live sets and result
    /// together, 0 if it took no step."
    pub peak: usize,
}

/// Takes the steps of a relation call, which "has no rounds". Slip 6: "A
/// relation's formula is read as before, then ANDed with V, then with SHIFT of
/// V."
pub fn relation(held: Held, rows: usize, formula: &Formula) -> Result<Evaluated<PairSet>, Refusal> {
    let limits = Limits { rows, rounds: 0 };
    let mut evaluator = Evaluator::new(held, limits, Kind::Relation);
    let pairs = evaluator.value(formula)?;
    let value = evaluator.within(pairs)?;
    Ok(evaluator.done(value).map(Value::into_pairs))
}

/// Takes the steps of valid. Slip 6: "the formula of valid itself is read over
/// all 2^n"; "it is full by the same row rule as a relation call".
pub fn valid(held: Held, rows: usize, formula: &Formula) -> Result<Evaluated<StateSet>, Refusal> {
    let limits = Limits { rows, rounds: 0 };
    let mut evaluator = Evaluator::new(held, limits, Kind::Valid);
    let value = evaluator.value(formula)?;
    Ok(evaluator.done(value).map(Value::into_states))
}

/// Takes the steps of a set call.
pub fn set(held: Held, limits: Limits, formula: &Formula) -> Result<Evaluated<StateSet>, Refusal> {
    let mut evaluator = Evaluator::new(held, limits, Kind::Set);
    let value = evaluator.value(formula)?;
    Ok(evaluator.done(value).map(Value::into_states))
}

/// Slip 2: the peak of a set call "over the steps reached within its rounds",
/// with rows in plenty.
pub fn peak_within(held: Held, rounds: u32, formula: &Formula) -> usize {
    let limits = Limits {
        rows: usize::MAX,
        rounds,
    };
    let mut evaluator = Evaluator::new(held, limits, Kind::Set);
    // Where the rounds are used up it ends there.
    let _ = evaluator.value(formula);
    evaluator.peak
}

/// Slip 3: the layer after the last one, "b OR diamond of the last layer". "Only
/// the last layer is live, until the next is made".
pub fn next_layer(
    held: Held,
    rows: usize,
    t: usize,
    goal: &StateSet,
    last: &StateSet,
) -> Result<StateSet, Refusal> {
    let limits = Limits { rows, rounds: 0 };
    let mut evaluator = Evaluator::new(held, limits, Kind::Set);
    let (goal, last) = (Value::States(goal.clone()), Value::States(last.clone()));
    evaluator.waiting.push(last.clone());
    let before = evaluator.diamond(t, last)?;
    let layer = evaluator.step(&[&goal, &before], goal.or(&before))?;
    Ok(layer.into_states())
}

/// Slip 11: "the states fitting both last entries". "The fitting states of a pair are
/// one step, their AND with V another".
pub fn fitting(held: Held, rows: usize, fit: &StateSet) -> Result<Evaluated<StateSet>, Refusal> {
    let limits = Limits { rows, rounds: 0 };
    let mut evaluator = Evaluator::new(held, limits, Kind::Set);
    let set = evaluator.fitting(fit)?;
    Ok(evaluator.done(set).map(Value::into_states))
}

/// Slip 11: the set of the moment before, "diamond of the later set AND the states
/// fitting it"; "only the last set is live", until this one is made.
pub fn set_before(
    held: Held,
    rows: usize,
    t: usize,
    later: &StateSet,
    fit: &StateSet,
) -> Result<Evaluated<StateSet>, Refusal> {
    let limits = Limits { rows, rounds: 0 };
    let mut evaluator = Evaluator::new(held, limits, Kind::Set);
    let later = Value::States(later.clone());
    evaluator.waiting.push(later.clone());
    let before = evaluator.diamond(t, later)?;
    evaluator.waiting.push(before.clone());
    let fit = evaluator.fitting(fit)?;
    evaluator.waiting.pop();
    let set = evaluator.step(&[&before, &fit], before.and(&fit))?;
    Ok(evaluator.done(set).map(Value::into_states))
}

impl<T> Evaluated<T> {
    fn map<U>(self, change: impl FnOnce(T) -> U) -> Evaluated<U> {
        Evaluated {
            value: change(self.value),
            rounds: self.rounds,
            peak: self.peak,
        }
    }
}

/// A value of a step or a leaf.
#[derive(Clone, Debug)]
enum Value {
    States(StateSet),
    Pairs(PairSet),
}

impl Value {
    fn not(&self) -> Value {
        match self {
            Value::States(f) => Value::States(f.not()),
            Value::Pairs(f) => Value::Pairs(f.not()),
        }
    }

    fn and(&self, other: &Value) -> Value {
        match (self, other) {
            (Value::States(f), Value::States(g)) => Value::States(f.and(g)),
            (Value::Pairs(f), Value::Pairs(g)) => Value::Pairs(f.and(g)),
            _ => unreachable!("operands of one kind"),
        }
    }

    fn or(&self, other: &Value) -> Value {
        match (self, other) {
            (Value::States(f), Value::States(g)) => Value::States(f.or(g)),
            (Value::Pairs(f), Value::Pairs(g)) => Value::Pairs(f.or(g)),
            _ => unreachable!("operands of one kind"),
        }
    }

    fn shift(&self) -> Value {
        Value::Pairs(PairSet::shift(&self.clone().into_states()))
    }

    fn exists_next(&self, p: u32) -> Value {
        Value::Pairs(self.clone().into_pairs().exists_next(p))
    }

    fn into_pairs(self) -> PairSet {
        match self {
            Value::Pairs(pairs) => pairs,
            Value::States(_) => unreachable!("a set where pairs are meant"),
        }
    }

    fn into_states(self) -> StateSet {
        match self {
            Value::States(states) => states,
            Value::Pairs(_) => unreachable!("pairs where a set is meant"),
        }
    }

    fn add_rows(&self, rows: &mut Rows) {
        match self {
            Value::States(set) => rows.add_set(set),
            Value::Pairs(relation) => rows.add_relation(relation),
        }
    }
}

/// "X a variable of its own": no byte names it.
const OWN: u8 = 16;

/// What a round of until makes: its set, and the states of f and of g.
struct UntilRound {
    value: StateSet,
    keep: StateSet,
    goal: StateSet,
}

struct Evaluator<'a> {
    held: Held<'a>,
    limits: Limits,
    kind: Kind,
    /// Rows of "all filled registers and relations".
    held_rows: Rows,
    /// "the current set of each open binder", with its variable.
    open: Vec<(u8, StateSet)>,
    /// Left operands that wait while their right operand is evaluated: "each
    /// value made and not yet used".
    waiting: Vec<Value>,
    rounds: u32,
    peak: usize,
}

impl<'a> Evaluator<'a> {
    fn new(held: Held<'a>, limits: Limits, kind: Kind) -> Self {
        Evaluator {
            held,
            limits,
            kind,
            held_rows: held.rows(),
            open: Vec::new(),
            waiting: Vec::new(),
            rounds: 0,
            peak: 0,
        }
    }

    fn done(self, value: Value) -> Evaluated<Value> {
        Evaluated {
            value,
            rounds: self.rounds,
            peak: self.peak,
        }
    }

    /// "Left before right, parts before operator." "Constants, registers and
    /// variables take no step."
    fn value(&mut self, formula: &Formula) -> Result<Value, Refusal> {
        match formula {
            Formula::Constant(value) => Ok(self.constant(*value)),
            Formula::Variable(p) => Ok(Value::States(self.current(*p).clone())),
            Formula::Register(r) => Ok(Value::States(self.register(*r).clone())),
            Formula::NowBit(p) => {
                let bit = self.step(&[], self.now_bit(*p))?;
                self.existing(bit)
            }
            Formula::NextBit(p) => self.step(&[], Value::Pairs(PairSet::next_bit(self.held.n, *p))),
            Formula::Not(f) => {
                let operand = self.value(f)?;
                self.not(operand)
            }
            Formula::And(f, g) => self.binary(f, g, Value::and),
            Formula::Or(f, g) => self.binary(f, g, Value::or),
            Formula::Modal(modality, t, f) => self.modal(*modality, *t, f),
            Formula::Binder(fixpoint, p, body) => self.binder(*fixpoint, *p, body),
            Formula::Until(modality, t, f, g) => self.until(*modality, *t, f, g),
        }
    }

    /// Slip 6: "In a state formula true means V".
    fn constant(&self, value: bool) -> Value {
        match self.kind {
            Kind::Relation => Value::Pairs(PairSet::constant(self.held.n, value)),
            Kind::Set if value => self.valid(),
            Kind::Set | Kind::Valid => Value::States(StateSet::constant(self.held.n, value)),
        }
    }

    fn valid(&self) -> Value {
        Value::States(self.held.valid.clone())
    }

    /// Slip 6: "each such bit and NOT, the NOTs of a box included, is followed by
    /// AND with V as a step."
    fn existing(&mut self, value: Value) -> Result<Value, Refusal> {
        if self.kind != Kind::Set {
            return Ok(value);
        }
        let valid = self.valid();
        let result = value.and(&valid);
        self.step(&[&value, &valid], result)
    }

    /// "then ANDed with V, then with SHIFT of V".
    fn within(&mut self, pairs: Value) -> Result<Value, Refusal> {
        let valid = self.valid();
        let from = Value::Pairs(PairSet::of_now(self.held.valid));
        let first = pairs.and(&from);
        let first = self.step(&[&pairs, &valid], first)?;
        self.waiting.push(first);
        let shifted = self.step(&[&valid], valid.shift())?;
        let first = self.waiting.pop().expect("pushed above");
        let result = first.and(&shifted);
        self.step(&[&first, &shifted], result)
    }

    fn now_bit(&self, p: u32) -> Value {
        match self.kind {
            Kind::Relation => Value::Pairs(PairSet::now_bit(self.held.n, p)),
            Kind::Set | Kind::Valid => Value::States(StateSet::bit(self.held.n, p)),
        }
    }

    fn current(&self, p: u8) -> &StateSet {
        let binder = self.open.iter().find(|(q, _)| *q == p);
        &binder.expect("bound by check 5").1
    }

    fn register(&self, r: usize) -> &StateSet {
        self.held.registers[r].as_ref().expect("filled by check 7")
    }

    fn not(&mut self, operand: Value) -> Result<Value, Refusal> {
        let result = operand.not();
        let result = self.step(&[&operand], result)?;
        self.existing(result)
    }

    fn binary(
        &mut self,
        f: &Formula,
        g: &Formula,
        operator: fn(&Value, &Value) -> Value,
    ) -> Result<Value, Refusal> {
        let left = self.value(f)?;
        self.waiting.push(left);
        let right = self.value(g)?;
        let left = self.waiting.pop().expect("pushed above");
        let result = operator(&left, &right);
        self.step(&[&left, &right], result)
    }

    /// "Box: NOT f, diamond, NOT."
    fn modal(&mut self, modality: Modality, t: usize, f: &Formula) -> Result<Value, Refusal> {
        let operand = self.value(f)?;
        match modality {
            Modality::Diamond => self.diamond(t, operand),
            Modality::Box => {
                let negated = self.not(operand)?;
                let escape = self.diamond(t, negated)?;
                self.not(escape)
            }
        }
    }

    /// "Diamond of f: SHIFT f, AND with the relation, EXISTS at levels 2n − 1,
    /// 2n − 3, down to 1."
    fn diamond(&mut self, t: usize, operand: Value) -> Result<Value, Refusal> {
        let relation = self.held.relations[t].as_ref().expect("filled by check 7");
        let relation = Value::Pairs(relation.clone());
        let shifted = self.step(&[&operand], operand.shift())?;
        let mut pairs = self.step(&[&shifted, &relation], shifted.and(&relation))?;
        for p in (0..self.held.n).rev() {
            pairs = self.step(&[&pairs], pairs.exists_next(p))?;
        }
        Ok(Value::States(pairs.into_pairs().as_state_set()))
    }

    /// The states that fit, and those of them that exist.
    fn fitting(&mut self, fit: &StateSet) -> Result<Value, Refusal> {
        let fit = self.step(&[], Value::States(fit.clone()))?;
        self.existing(fit)
    }

    /// "Mu starts from the empty set"; Slip 6: "nu starts from V". "An inner
    /// binder starts anew at each evaluation."
    fn binder(&mut self, fixpoint: Fixpoint, p: u8, body: &Formula) -> Result<Value, Refusal> {
        let mut current = match fixpoint {
            Fixpoint::Mu => StateSet::constant(self.held.n, false),
            Fixpoint::Nu => self.held.valid.clone(),
        };
        loop {
            let value = self.round(p, &current, body)?;
            // "If the value is the same set the binder ends with it, otherwise
            // it becomes the current set."
            if value == current {
                return Ok(Value::States(value));
            }
            current = value;
        }
    }

    /// "A round evaluates the body with P as the current set."
    fn round(&mut self, p: u8, current: &StateSet, body: &Formula) -> Result<StateSet, Refusal> {
        // "a round wanted when R are counted gives 9."
        if self.rounds == self.limits.rounds {
            return Err(Refusal::RoundsUsedUp);
        }
        self.rounds += 1;
        self.open.push((p, current.clone()));
        let value = self.value(body)?;
        self.open.pop();
        Ok(value.into_states())
    }

    /// Slip 1: the value by runs. "Steps and rounds are those of the formula
    /// written so": "mu X (g or (f and diamond X))", "mu X (g or (f and (box X
    /// and diamond true)))". They must end at the same set.
    fn until(
        &mut self,
        modality: Modality,
        t: usize,
        f: &Formula,
        g: &Formula,
    ) -> Result<Value, Refusal> {
        let mut current = StateSet::constant(self.held.n, false);
        loop {
            let round = self.until_round(modality, t, f, g, &current)?;
            if round.value == current {
                let relation = self.held.relations[t].as_ref().expect("filled by check 7");
                let value = runs::until(modality, relation, &round.keep, &round.goal);
                let value = value.and(self.held.valid);
                assert_eq!(value, current, "the rounds end at another set");
                return Ok(Value::States(value));
            }
            current = round.value;
        }
    }

    /// A round with the current set of X, which is live.
    fn until_round(
        &mut self,
        modality: Modality,
        t: usize,
        f: &Formula,
        g: &Formula,
        current: &StateSet,
    ) -> Result<UntilRound, Refusal> {
        if self.rounds == self.limits.rounds {
            return Err(Refusal::RoundsUsedUp);
        }
        self.rounds += 1;
        self.open.push((OWN, current.clone()));
        let goal = self.value(g)?;
        self.waiting.push(goal);
        let keep = self.value(f)?;
        self.waiting.push(keep);
        let on = self.until_on(modality, t, Value::States(current.clone()))?;
        let keep = self.waiting.pop().expect("pushed above");
        let kept = self.step(&[&keep, &on], keep.and(&on))?;
        let goal = self.waiting.pop().expect("pushed above");
        let value = self.step(&[&goal, &kept], goal.or(&kept))?;
        self.open.pop();
        Ok(UntilRound {
            value: value.into_states(),
            keep: keep.into_states(),
            goal: goal.into_states(),
        })
    }

    /// "diamond X", or "box X and diamond true".
    fn until_on(&mut self, modality: Modality, t: usize, x: Value) -> Result<Value, Refusal> {
        if modality == Modality::Diamond {
            return self.diamond(t, x);
        }
        let negated = self.not(x)?;
        let escape = self.diamond(t, negated)?;
        let all = self.not(escape)?;
        self.waiting.push(all);
        let some = self.diamond(t, self.constant(true))?;
        let all = self.waiting.pop().expect("pushed above");
        self.step(&[&all, &some], all.and(&some))
    }

    /// "A step's need is the rows needed by its result and all that is live at
    /// it." "A reached step with a need above N is refusal 8."
    fn step(&mut self, operands: &[&Value], result: Value) -> Result<Value, Refusal> {
        let need = self.need(operands, &result);
        self.peak = self.peak.max(need);
        if need > self.limits.rows {
            return Err(Refusal::Full);
        }
        Ok(result)
    }

    /// "Live at a step: all filled registers and relations, the current set of
    /// each open binder, each value made and not yet used, the step's operands."
    fn need(&self, operands: &[&Value], result: &Value) -> usize {
        let mut rows = Rows::new();
        self.open.iter().for_each(|(_, set)| rows.add_set(set));
        self.waiting
            .iter()
            .for_each(|value| value.add_rows(&mut rows));
        operands.iter().for_each(|value| value.add_rows(&mut rows));
        result.add_rows(&mut rows);
        self.held_rows.count_with(&rows)
    }
}
