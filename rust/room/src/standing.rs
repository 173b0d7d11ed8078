//! How a room's questions stand after some presses from the start: which of them the presses so far break.
//!
//! A question that is asked of every state by itself (never, always possible, works) is broken where the state breaks it. One that
//! is asked of runs (until, unless, whenever) is broken where the run so far breaks it, however it goes on and also if nobody
//! presses any more. What must be possible is asked of the start alone.
use crate::room::{Asked, Cond, Room, State};
use crate::walk::{End, Set, Walk};

/// How a question stands at a place of a run.
#[derive(Clone, Copy, Debug, PartialEq, Eq)]
pub enum Standing {
    /// It is not broken so far.
    Open,
    /// The same, and the state at this place asks that something holds from there on.
    Since(usize),
    /// This run cannot break it any more.
    Settled,
    /// It is broken since this place, in this way.
    Broken(usize, End),
}

impl Standing {
    /// Whether it is broken, and was not at the place before.
    pub fn breaks_at(self, place: usize) -> bool {
        matches!(self, Standing::Broken(since, _) if since == place)
    }
}

/// Whether a question is asked of every state by itself, so that the state alone breaks it.
pub fn by_state(asked: &Asked) -> bool {
    matches!(
        asked,
        Asked::Never(_) | Asked::AlwaysPossible(_) | Asked::Works(..)
    )
}

/// A room's questions, and for each the states from which what must come can come.
pub struct Judge<'a> {
    room: &'a Room,
    ways: Vec<Set>,
}

impl<'a> Judge<'a> {
    pub fn new(room: &'a Room, walk: &Walk) -> Judge<'a> {
        let way = |asked: &Asked| match asked {
            Asked::AlwaysPossible(x) | Asked::Possible(x) => walk.leads_to(&walk.set(room, x)),
            Asked::Until(x, y) => {
                let far = walk.distances_to(&walk.set(room, y), &walk.set(room, x));
                far.iter().map(Option::is_some).collect()
            }
            _ => Vec::new(),
        };
        let ways = room.questions.iter().map(|question| way(&question.asked));
        Judge {
            room,
            ways: ways.collect(),
        }
    }

    /// How the questions stand at the start.
    pub fn start(&self, state: State) -> Vec<Standing> {
        self.next(&vec![Standing::Open; self.room.questions.len()], 0, state)
    }

    /// How the questions stand at a place of a run, by how they stood at the place before.
    pub fn next(&self, before: &[Standing], place: usize, state: State) -> Vec<Standing> {
        let questions = self.room.questions.iter().zip(&self.ways).zip(before);
        questions
            .map(|((question, way), &before)| {
                let asked = &question.asked;
                match before {
                    Standing::Settled => before,
                    Standing::Broken(..) if !by_state(asked) => before,
                    _ => self.standing(asked, way, before, (place, state)),
                }
            })
            .collect()
    }

    fn standing(
        &self,
        asked: &Asked,
        way: &Set,
        before: Standing,
        (place, state): (usize, State),
    ) -> Standing {
        let broken = |breaks: bool, end: End| match (breaks, before) {
            (false, _) => Standing::Open,
            (true, Standing::Broken(..)) => before,
            (true, _) => Standing::Broken(place, end),
        };
        let holds = |cond: &Cond| self.room.holds(cond, state);
        match asked {
            Asked::Never(x) => broken(holds(x), End::Reached),
            Asked::Works(press, x) => broken(holds(&self.room.fails(press, x)), End::DoesNotWork),
            Asked::AlwaysPossible(_) => broken(!way[state as usize], End::NoWay),
            Asked::Possible(_) if way[state as usize] => Standing::Settled,
            Asked::Possible(_) => broken(true, End::NoWay),
            Asked::Until(_, y) | Asked::Unless(_, y) if holds(y) => Standing::Settled,
            Asked::Until(x, _) | Asked::Unless(x, _) if !holds(x) => broken(true, End::Lost),
            Asked::Unless(..) => Standing::Open,
            Asked::Until(..) if self.stuck(state) => broken(true, End::Stuck),
            Asked::Until(..) => broken(!way[state as usize], End::NoWay),
            Asked::Whenever(_, _, z) if holds(z) => Standing::Open,
            Asked::Whenever(x, y, _) => match before {
                Standing::Since(since) => owed(since, place, holds(y)),
                _ if holds(x) => owed(place, place, holds(y)),
                _ => Standing::Open,
            },
        }
    }

    /// Whether no press works.
    fn stuck(&self, state: State) -> bool {
        !(self.room.rules.iter()).any(|rule| self.room.works(rule, state))
    }
}

/// Where something must hold since a place: whether it does.
fn owed(since: usize, place: usize, holds: bool) -> Standing {
    match holds {
        true => Standing::Since(since),
        false => Standing::Broken(place, End::LostSince(since)),
    }
}
