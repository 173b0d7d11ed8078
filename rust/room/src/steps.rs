//! The presses made so far in a walk: the states, and how the questions stand in each place.
use crate::room::{Room, State};
use crate::standing::{Judge, Standing};
use crate::walk::Walk;

/// A press that was made: its place among the buttons, and which of several things it did, counted from 1.
pub type Made = (usize, Option<usize>);

/// None are there before a start is chosen.
pub struct Steps<'a> {
    judge: Judge<'a>,
    states: Vec<State>,
    standings: Vec<Vec<Standing>>,
    made: Vec<Made>,
}

impl<'a> Steps<'a> {
    pub fn new(room: &'a Room, walk: &Walk) -> Steps<'a> {
        Steps {
            judge: Judge::new(room, walk),
            states: Vec::new(),
            standings: Vec::new(),
            made: Vec::new(),
        }
    }

    /// Begins in a state, and forgets all presses.
    pub fn begin(&mut self, state: State) {
        self.states = vec![state];
        self.standings = vec![self.judge.start(state)];
        self.made = Vec::new();
    }

    pub fn start(&self) -> Option<State> {
        self.states.first().copied()
    }

    /// The states from the start on.
    pub fn states(&self) -> &[State] {
        &self.states
    }

    /// How many presses were made.
    pub fn place(&self) -> usize {
        self.made.len()
    }

    /// The state now, once there is a start.
    pub fn state(&self) -> State {
        self.states[self.place()]
    }

    /// How the questions stand now.
    pub fn standings(&self) -> &[Standing] {
        &self.standings[self.place()]
    }

    /// How they would stand after a press into a state.
    pub fn would_stand(&self, to: State) -> Vec<Standing> {
        self.judge.next(self.standings(), self.place() + 1, to)
    }

    pub fn press(&mut self, made: Made, to: State) {
        let standings = self.would_stand(to);
        self.states.push(to);
        self.standings.push(standings);
        self.made.push(made);
    }

    /// Takes the last press back: which one, and the state that it led to.
    pub fn undo(&mut self) -> Option<(Made, State)> {
        let made = self.made.pop()?;
        self.standings.pop();
        Some((made, self.states.pop()?))
    }

    pub fn made(&self) -> &[Made] {
        &self.made
    }

    /// The last place before this one in which the state was the same.
    pub fn same_as(&self) -> Option<usize> {
        let before = &self.states[..self.place()];
        before.iter().rposition(|&other| other == self.state())
    }
}
