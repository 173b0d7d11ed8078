//! The state with what each press would do, and the presses made.
use super::{after, Stepper};
use crate::diff::results;
use crate::room::State;
use crate::{changes, echo, typed};

/// The most characters of a line of presses.
const WIDTH: usize = 100;

/// A line of the list of presses: number, name, what the press would do.
type Row<'a> = (String, &'a str, String);

impl<'a> Stepper<'a> {
    /// The state, and what each press would do.
    pub(super) fn list(&self) -> String {
        let places = 0..self.buttons.len();
        let rows: Vec<Row> = places.flat_map(|place| self.rows(place)).collect();
        let numbers = rows.iter().map(|(number, ..)| number.len()).max();
        let names = rows.iter().map(|(_, name, _)| name.chars().count()).max();
        let (digits, widest) = (numbers.unwrap_or(0), names.unwrap_or(0));
        let mut text = self.whole_state();
        for (number, name, says) in rows {
            text += &format!("  {number:>digits$}  {name:widest$}  {says}\n");
        }
        text
    }

    /// The lines of a press in the list: one, or one for each thing that it can do.
    fn rows(&self, place: usize) -> Vec<Row<'a>> {
        let (button, state, number) = (self.buttons[place], self.steps.state(), place + 1);
        let outcomes = results(self.room, button, state);
        let does = |to: State| changes::said(self.room, state, to) + &self.would_break(to);
        match outcomes[..] {
            [] => vec![(number.to_string(), button, self.nothing(button))],
            [to] => vec![(number.to_string(), button, does(to))],
            _ => {
                let row = |(at, &to)| (format!("{number}.{}", at + 1), button, does(to));
                outcomes.iter().enumerate().map(row).collect()
            }
        }
    }

    /// Which questions one press more would break.
    fn would_break(&self, to: State) -> String {
        let place = self.steps.place() + 1;
        let next = self.steps.would_stand(to);
        let breaks = (0..next.len()).filter(|&at| next[at].breaks_at(place));
        let broken: Vec<String> = breaks.map(|at| self.quoted(at)).collect();
        match broken.is_empty() {
            true => String::new(),
            false => format!("  !! breaks {}", broken.join(", ")),
        }
    }

    fn whole_state(&self) -> String {
        let state = echo::state(self.room, self.steps.state());
        format!("{}: {state}\n", after(self.steps.place()))
    }

    /// The last lines: the state, the presses as they can be pasted, and what was broken.
    pub fn end(&self) -> String {
        let Some(start) = self.steps.start() else {
            return "No start was chosen.\n".to_string() + &self.not_understood();
        };
        let mut text = self.whole_state();
        if self.steps.place() > 0 {
            text += "These presses, to be pasted into a walk:\n";
            if self.room.any_start {
                text += &format!("start: {}\n", echo::state(self.room, start));
            }
            text += &self.pasted();
        }
        let broken: Vec<String> = self.broken.iter().map(|&at| self.quoted(at)).collect();
        text += &match broken.is_empty() {
            true => "Nothing was broken on the way. That is no verdict: room without --walk gives one.\n".to_string(),
            false => format!("Broken on the way: {}.\n", broken.join(", ")),
        };
        text + &self.not_understood()
    }

    /// How many lines were not understood, where nobody typed them.
    fn not_understood(&self) -> String {
        match self.mistakes {
            count if count == 0 || self.typing => String::new(),
            1 => "1 line was not understood.\n".to_string(),
            count => format!(
                "{} lines were not understood.\n",
                echo::grouped(count as u32)
            ),
        }
    }

    /// The presses made, in lines that are not too long.
    fn pasted(&self) -> String {
        let mut lines: Vec<String> = Vec::new();
        for &made in self.steps.made() {
            let press = typed::again(made, &self.buttons);
            match lines.last_mut() {
                Some(line) if line.len() + press.len() + 2 <= WIDTH => {
                    *line += &format!(", {press}")
                }
                _ => lines.push(press),
            }
        }
        lines.iter().map(|line| format!("{line}\n")).collect()
    }
}
