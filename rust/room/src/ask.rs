//! The library's answers to a room's questions, given only where the plain walk finds the same.
use crate::plan::{
    Asking, Plan, Store, ANSWER, FIRST, INNER, SECOND, START, START_IN_ANSWER, THIRD,
};
use crate::room::{Asked, Question, Room, State};
use crate::valid;
use crate::walk::{members, Run, Set, Sets, Walk};
use kudzuclamp::{Account, Refusal, Refused, Table, Target};

/// The states of the longest run that is asked of the library as well.
const LONGEST: usize = 200;

/// The table that is used.
#[derive(Clone, Copy, Debug, PartialEq, Eq)]
pub struct Limits {
    pub rows: u32,
    pub rounds: u32,
}

impl Limits {
    pub const LARGEST: Limits = Limits {
        rows: kudzuclamp::MAX_ROWS,
        rounds: u32::MAX,
    };
}

#[derive(Clone, Debug, PartialEq, Eq)]
pub enum Verdict {
    /// With a run that shows it, where the question asks for one.
    Safe(Option<Run>),
    /// With a run that shows it.
    Broken(Run),
    /// The library refused: the table is full, or the rounds are used up.
    None(Refusal),
}

/// A verdict, and the room with its parts in another order in the table, where that gave it (`orders`).
#[derive(Clone, Debug, PartialEq, Eq)]
pub struct Answer {
    pub verdict: Verdict,
    pub ordered: Option<Room>,
}

/// What the table and the plain walk do not agree on. No verdict is given then.
#[derive(Clone, Debug, PartialEq, Eq)]
pub struct Difference {
    pub says: String,
}

/// A table that holds the room's presses and the sets that all questions use.
pub struct Asker<'a> {
    room: &'a Room,
    walk: &'a Walk,
    plan: &'a Plan,
    limits: Limits,
    table: Table<Vec<u32>>,
    /// The refusal of a call before the first question.
    refused: Option<Refusal>,
    /// The most rows that a step has needed so far.
    pub peak: u32,
}

/// Why a call gives nothing to compare.
pub(crate) enum Halt {
    Refused(Refusal),
    Differs(Difference),
}

impl From<Refused> for Halt {
    fn from(refused: Refused) -> Halt {
        Halt::from(refused.refusal())
    }
}

impl From<Refusal> for Halt {
    fn from(refusal: Refusal) -> Halt {
        Halt::Refused(refusal)
    }
}

fn differs<T>(says: String) -> Result<T, Halt> {
    Err(Halt::Differs(Difference { says }))
}

impl<'a> Asker<'a> {
    /// Loads the presses and the start. A refusal is kept for the verdicts.
    pub fn new(
        room: &'a Room,
        walk: &'a Walk,
        plan: &'a Plan,
        limits: Limits,
    ) -> Result<Asker<'a>, Difference> {
        let made = Table::new(&mut [Account::unlimited()], room.bits(), limits.rows);
        let table = made.map_err(|refusal| unforeseen(refusal, "the empty table"))?;
        let mut asker = Asker::again(room, walk, plan, limits, table);
        match asker.load() {
            Ok(()) => Ok(asker),
            Err(Halt::Differs(difference)) => Err(difference),
            Err(Halt::Refused(refusal)) => {
                asker.refused = Some(ending(refusal, "the presses")?);
                Ok(asker)
            }
        }
    }

    /// Goes on with a table that an asker of the same room has loaded.
    pub fn again(
        room: &'a Room,
        walk: &'a Walk,
        plan: &'a Plan,
        limits: Limits,
        table: Table<Vec<u32>>,
    ) -> Asker<'a> {
        Asker {
            room,
            walk,
            plan,
            limits,
            table,
            refused: None,
            peak: 0,
        }
    }

    /// The table with the presses and the start; none where they do not fit into it.
    pub fn loaded(self) -> Option<Table<Vec<u32>>> {
        self.refused.is_none().then_some(self.table)
    }

    fn load(&mut self) -> Result<(), Halt> {
        self.table.valid(valid::states(self.room))?;
        for relation in &self.plan.relations {
            let loaded = self.table.relation(relation.place, &relation.formula)?;
            self.peak = self.peak.max(loaded.peak);
        }
        for set in &self.plan.sets {
            self.store(set)?;
        }
        self.same(valid::REGISTER, &self.walk.exists)?;
        self.same(START, &self.walk.starts)
    }

    fn store(&mut self, set: &Store) -> Result<(), Halt> {
        let accounts = &mut [Account::unlimited()];
        let target = Target::register(set.place).rounds(self.limits.rounds);
        let stored = self.table.set(accounts, target, &set.formula)?;
        self.peak = self.peak.max(stored.peak);
        Ok(())
    }

    fn same(&self, register: u32, set: &Set) -> Result<(), Halt> {
        same(&self.table, register, set)
    }

    /// The verdict on a question, by its place.
    pub fn ask(&mut self, place: usize) -> Result<Verdict, Difference> {
        if let Some(refusal) = self.refused {
            return Ok(Verdict::None(refusal));
        }
        let question = &self.room.questions[place];
        match self.answer(question, &self.plan.questions[place]) {
            Ok(verdict) => Ok(verdict),
            Err(Halt::Differs(difference)) => Err(difference),
            Err(Halt::Refused(refusal)) => Ok(Verdict::None(ending(refusal, "the question")?)),
        }
    }

    /// Tells where the library finds a question safe that presses were seen to break.
    pub fn is_broken_too(&mut self, place: usize) -> Result<(), Difference> {
        match self.ask(place)? {
            Verdict::Safe(_) => Err(Difference {
                says: "the presses made break it, and the table says that it is safe".to_string(),
            }),
            _ => Ok(()),
        }
    }

    fn answer(&mut self, question: &Question, asking: &Asking) -> Result<Verdict, Halt> {
        for set in &asking.sets {
            self.store(set)?;
        }
        let sets = self.walk.sets(self.room, &question.asked);
        self.compare(&sets)?;
        let inside: Set = (self.walk.starts.iter().zip(&sets.answer))
            .map(|(start, inside)| *start && *inside)
            .collect();
        self.same(START_IN_ANSWER, &inside)?;
        let found = self.table.count(START_IN_ANSWER)?;
        // All starts are among the states in which it holds; or none is among those in which it is broken.
        let safe = match asking.holds {
            true => found == self.table.count(START)?,
            false => found == 0,
        };
        let trouble = self.walk.trouble(&question.asked, &sets);
        let way = self.walk.way(&question.asked, &sets);
        match question.asked {
            Asked::Never(_) | Asked::Works(..) => self.same_run(trouble.as_ref())?,
            Asked::Possible(_) if !self.room.any_start => self.same_run(way.as_ref())?,
            _ => {}
        }
        match (safe, trouble) {
            (true, None) if way.as_ref().is_none_or(|run| self.is_run(&run.states)) => {
                Ok(Verdict::Safe(way))
            }
            (false, Some(run)) if self.is_run(&run.states) => Ok(Verdict::Broken(run)),
            _ => differs("a run into trouble is there, or is not, against the answer".to_string()),
        }
    }

    /// All sets of a question, register by register.
    fn compare(&self, sets: &Sets) -> Result<(), Halt> {
        self.same(FIRST, &sets.first)?;
        self.same(ANSWER, &sets.answer)?;
        let more = [
            (SECOND, &sets.second),
            (THIRD, &sets.third),
            (INNER, &sets.inner),
        ];
        for (register, set) in more {
            if let Some(set) = set {
                self.same(register, set)?;
            }
        }
        Ok(())
    }

    /// Where all presses are one relation the library finds the shortest run too, or that there is none. It works out its
    /// distances again for each state of the run, so long runs are left to the walk; and so they are where rows run out.
    fn same_run(&mut self, run: Option<&Run>) -> Result<(), Halt> {
        let [relation] = &self.plan.relations[..] else {
            return Ok(());
        };
        let walked = run.map(|run| &run.states[..]);
        if walked.is_some_and(|states| states.len() > LONGEST) {
            return Ok(());
        }
        let found = match self.table.shortest(START, FIRST, relation.place) {
            Ok(states) => Some(states.into_iter().map(State::from).collect::<Vec<State>>()),
            Err(Refusal::NoRun) => None,
            Err(Refusal::Full) => return Ok(()),
            Err(refusal) => return Err(refusal.into()),
        };
        if found.as_deref() == walked {
            return Ok(());
        }
        differs("the table finds another shortest run than the walk".to_string())
    }

    /// Whether every step of a run is a press, by the rules as read.
    fn is_run(&self, states: &[State]) -> bool {
        let pressed = |pair: &[State]| press(self.room, pair[0], pair[1]).is_some();
        (states.first()).is_some_and(|&first| self.room.is_start(first))
            && states.windows(2).all(pressed)
    }
}

/// Whether a register has exactly the states that the walk found: all of them, and as many as the library counts.
pub(crate) fn same(table: &Table<Vec<u32>>, register: u32, set: &Set) -> Result<(), Halt> {
    let found = members(set);
    let states: Vec<u32> = table.states(register)?.collect();
    if states == found && table.count(register)? as usize == found.len() {
        return Ok(());
    }
    differs(format!(
        "the table finds {} states, the walk {}",
        states.len(),
        found.len()
    ))
}

/// The first press in the file that leads from one state to another.
pub fn press(room: &Room, from: State, to: State) -> Option<&str> {
    let rule = room
        .rules
        .iter()
        .find(|rule| room.pressed(rule, from) == Some(to));
    rule.map(|rule| rule.press.as_str())
}

/// A refusal that ends a question without a verdict; any other shows that the calls are not what they should be.
pub(crate) fn ending(refusal: Refusal, of: &str) -> Result<Refusal, Difference> {
    match refusal {
        Refusal::Full | Refusal::Spent => Ok(refusal),
        _ => Err(unforeseen(refusal, of)),
    }
}

fn unforeseen(refusal: Refusal, of: &str) -> Difference {
    let says = format!(
        "the library refuses {of} with {}: {refusal}",
        refusal.number()
    );
    Difference { says }
}
