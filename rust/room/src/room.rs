//! A room as it was read.

/// The most bits of a room: a thing takes one, a selector as many as its positions need.
pub const MAX_BITS: u32 = kudzuclamp::MAX_BITS;

/// A state as a number: bit p has weight 2^p.
pub type State = u32;

/// A thing that is on or off, or a selector of several positions.
#[derive(Clone, Debug, PartialEq, Eq)]
pub struct Part {
    pub name: String,
    /// The line that names it.
    pub line: usize,
    /// A selector's positions; a thing has none.
    pub positions: Vec<String>,
    /// The first of its bits, and how many there are.
    pub low: u32,
    pub width: u32,
}

impl Part {
    pub fn is_selector(&self) -> bool {
        !self.positions.is_empty()
    }

    /// How many values it has: 2 for a thing, off and on.
    pub fn values(&self) -> u32 {
        match self.positions.len() {
            0 => 2,
            count => count as u32,
        }
    }

    /// Its value in a state. A selector's may be past its positions.
    pub fn value(&self, state: State) -> u32 {
        state >> self.low & ((1 << self.width) - 1)
    }

    /// The state with another value.
    pub fn with(&self, state: State, value: u32) -> State {
        let mask = ((1 << self.width) - 1) << self.low;
        state & !mask | value << self.low
    }
}

/// The bits that so many values need.
pub fn width_of(values: usize) -> u32 {
    usize::BITS - (values - 1).leading_zeros()
}

/// A condition on states.
#[derive(Clone, Debug, PartialEq, Eq)]
pub enum Cond {
    /// A part, by its place, has a value; a thing that is on has 1.
    Is(usize, u32),
    /// A named set, by its place.
    Named(usize),
    Not(Box<Cond>),
    /// Two or more, joined by `and`; by `or`.
    All(Vec<Cond>),
    Any(Vec<Cond>),
}

/// `NAME means CONDITION`.
#[derive(Clone, Debug, PartialEq, Eq)]
pub struct Named {
    pub name: String,
    pub line: usize,
    pub means: Cond,
}

/// What a press does to a part.
#[derive(Clone, Copy, Debug, PartialEq, Eq)]
pub enum Change {
    Becomes(u32),
    TurnsOver,
}

#[derive(Clone, Copy, Debug, PartialEq, Eq)]
pub struct Effect {
    pub part: usize,
    pub change: Change,
}

/// One line of a press. What it does not name keeps its value.
#[derive(Clone, Debug, PartialEq, Eq)]
pub struct Rule {
    pub press: String,
    pub line: usize,
    pub effects: Vec<Effect>,
    pub when: Option<Cond>,
}

#[derive(Clone, Debug, PartialEq, Eq)]
pub enum Asked {
    /// No presses lead from the start to such a state.
    Never(Cond),
    /// After any presses from the start, some presses lead to such a state.
    AlwaysPossible(Cond),
    /// Whatever is pressed from the start, the second comes, and the first holds until then.
    Until(Cond, Cond),
    /// Whatever is pressed from the start, the first holds as long as the second has not come. It need not come.
    Unless(Cond, Cond),
    /// Some presses lead from the start to such a state.
    Possible(Cond),
    /// After any presses from the start: where the first holds, the second holds from there on as long as the third has not come.
    Whenever(Cond, Cond, Cond),
    /// After any presses from the start: where the condition holds, a line of the press works.
    Works(String, Cond),
}

impl Asked {
    /// The same question with other conditions.
    pub fn with(&self, change: impl Fn(&Cond) -> Cond) -> Asked {
        match self {
            Asked::Never(x) => Asked::Never(change(x)),
            Asked::AlwaysPossible(x) => Asked::AlwaysPossible(change(x)),
            Asked::Until(x, y) => Asked::Until(change(x), change(y)),
            Asked::Unless(x, y) => Asked::Unless(change(x), change(y)),
            Asked::Possible(x) => Asked::Possible(change(x)),
            Asked::Whenever(x, y, z) => Asked::Whenever(change(x), change(y), change(z)),
            Asked::Works(press, x) => Asked::Works(press.clone(), change(x)),
        }
    }

    /// The conditions that it names.
    pub fn conditions(&self) -> Vec<&Cond> {
        match self {
            Asked::Never(x) | Asked::AlwaysPossible(x) => vec![x],
            Asked::Possible(x) | Asked::Works(_, x) => vec![x],
            Asked::Until(x, y) | Asked::Unless(x, y) => vec![x, y],
            Asked::Whenever(x, y, z) => vec![x, y, z],
        }
    }
}

#[derive(Clone, Debug, PartialEq, Eq)]
pub struct Question {
    pub line: usize,
    pub asked: Asked,
    /// Whether the file expects it to be broken: a known fault, kept as a test.
    pub expect_broken: bool,
}

#[derive(Clone, Debug, Default, PartialEq, Eq)]
pub struct Room {
    pub parts: Vec<Part>,
    pub start: State,
    /// Whether the evening may begin in any state, as after a power cut: `start` says nothing then.
    pub any_start: bool,
    pub start_line: usize,
    pub named: Vec<Named>,
    pub rules: Vec<Rule>,
    pub questions: Vec<Question>,
}

impl Room {
    /// How many bits its states have.
    pub fn bits(&self) -> u32 {
        self.parts.iter().map(|part| part.width).sum()
    }

    /// How many patterns its bits have, those that no selector shows included.
    pub fn patterns(&self) -> u32 {
        1 << self.bits()
    }

    /// Whether every selector shows one of its positions.
    pub fn exists(&self, state: State) -> bool {
        (self.parts.iter()).all(|part| part.value(state) < part.values())
    }

    /// How many states exist.
    pub fn states(&self) -> u32 {
        self.parts.iter().map(Part::values).product()
    }

    /// All states that exist.
    pub fn all_states(&self) -> Vec<State> {
        (0..self.patterns())
            .filter(|&state| self.exists(state))
            .collect()
    }

    /// Whether the evening may begin in a state.
    pub fn is_start(&self, state: State) -> bool {
        match self.any_start {
            true => self.exists(state),
            false => state == self.start,
        }
    }

    /// The states that meet a condition and in which no line of a press works.
    pub fn fails(&self, press: &str, cond: &Cond) -> Cond {
        let lines = self.rules.iter().filter(|rule| rule.press == press);
        let works: Option<Vec<Cond>> = lines.map(|rule| rule.when.clone()).collect();
        let works = match works {
            Some(whens) if whens.len() > 1 => Cond::Any(whens),
            Some(mut whens) if !whens.is_empty() => whens.remove(0),
            // A line without a condition always works.
            _ => cond.clone(),
        };
        Cond::All(vec![cond.clone(), Cond::Not(Box::new(works))])
    }

    pub fn holds(&self, cond: &Cond, state: State) -> bool {
        match cond {
            Cond::Is(part, value) => self.parts[*part].value(state) == *value,
            Cond::Named(place) => self.holds(&self.named[*place].means, state),
            Cond::Not(cond) => !self.holds(cond, state),
            Cond::All(conds) => conds.iter().all(|cond| self.holds(cond, state)),
            Cond::Any(conds) => conds.iter().any(|cond| self.holds(cond, state)),
        }
    }

    pub fn works(&self, rule: &Rule, state: State) -> bool {
        (rule.when.as_ref()).is_none_or(|when| self.holds(when, state))
    }

    /// The state after a press, where the rule works.
    pub fn pressed(&self, rule: &Rule, state: State) -> Option<State> {
        if !self.works(rule, state) {
            return None;
        }
        let changed = rule.effects.iter().fold(state, |to, effect| {
            let part = &self.parts[effect.part];
            match effect.change {
                Change::Becomes(value) => part.with(to, value),
                Change::TurnsOver => part.with(to, 1 - part.value(state)),
            }
        });
        Some(changed)
    }
}
