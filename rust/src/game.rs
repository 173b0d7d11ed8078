//! Guest against machine.
use crate::{Account, Refusal, Table};

/// A game of a guest against the machine, which move in turn: the guest presses, then the machine
/// reacts. It names the goal by a register, and the moves of each side by a relation; both may be the
/// same one.
///
/// ```
/// use kudzuclamp::Game;
///
/// // Into the set in register 3, the guest by relation 0, the machine by relation 1.
/// let game = Game { goal: 3, guest: 0, machine: 1 };
/// assert_eq!(game, Game::new(3, 0, 1));
/// ```
#[must_use]
#[derive(Clone, Copy, Debug, PartialEq, Eq, Hash)]
pub struct Game {
    /// The register with the goal, 0 to 31.
    pub goal: u32,
    /// The relation of the guest's moves, 0 to 7.
    pub guest: u32,
    /// The relation of the machine's moves, 0 to 7.
    pub machine: u32,
}

impl Game {
    /// Into the set in register `goal`, the guest by relation `guest`, the machine by relation
    /// `machine`.
    pub const fn new(goal: u32, guest: u32, machine: u32) -> Game {
        Game {
            goal,
            guest,
            machine,
        }
    }
}

/// How the machine plays a [`Game`]: it answers presses, and asks the table for each answer under the
/// limits of an account and of so many rounds.
///
/// From a state of the set that [`Table::force`] gives, whoever answers so, press by press, comes to
/// the goal, whatever the guest presses: in fewer turns than the rounds that force made.
///
/// ```
/// use kudzuclamp::{Account, Formula, Game, Refusal, Strategy, Table, Target};
///
/// # fn main() -> Result<(), Refusal> {
/// // Three lamps. The guest turns one over; the machine may turn one on, or leave all.
/// let mut accounts = [Account::unlimited(), Account::limited(60, 5)];
/// let mut table = Table::new(&mut accounts, 3, 200)?;
/// let only = |p: u32, f: Formula| (0..3).filter(|&q| q != p).fold(f, |f, q| f & Formula::keeps(q));
/// let press = |p| only(p, Formula::turns(p));
/// let light = |p| only(p, Formula::next(p));
/// table.relation(0, press(0) | press(1) | press(2))?;
/// table.relation(1, light(0) | light(1) | light(2))?;
///
/// // Can it see to it that two lamps or more are on? Not where one is: the guest turns that off.
/// let lamp = Formula::current;
/// let two = lamp(0) & lamp(1) | lamp(0) & lamp(2) | lamp(1) & lamp(2);
/// table.set(&mut accounts, Target::register(0), two)?;
/// let game = Game::new(0, 0, 1);
/// table.force(&mut accounts, Target::register(1), game)?;
/// assert_eq!(table.states(1)?.collect::<Vec<u32>>(), [0, 3, 5, 6, 7]);
///
/// // It plays by the second account. All are off, and the guest turns lamp 2 on.
/// let machine = Strategy::new(game).account(1);
/// assert_eq!(machine.answer(&mut table, &accounts, 0, 0b100), Ok(0b101));
/// // The guest turns two at once, which is no move; or is in the goal already.
/// assert_eq!(machine.answer(&mut table, &accounts, 0, 0b110), Err(Refusal::NoAnswer));
/// assert_eq!(machine.answer(&mut table, &accounts, 0b101, 0b001), Err(Refusal::NoAnswer));
/// # Ok(())
/// # }
/// ```
#[must_use]
#[derive(Clone, Copy, Debug, PartialEq, Eq, Hash)]
pub struct Strategy {
    /// The game that is played.
    pub game: Game,
    /// The account's place in the list that is lent, counted from 0.
    pub account: usize,
    /// The most rounds: where more are wanted an answer is refused with [`Refusal::Spent`].
    pub rounds: u32,
}

impl Strategy {
    /// By the first account of the list, without a limit of rounds but the account's.
    pub const fn new(game: Game) -> Strategy {
        Strategy {
            game,
            account: 0,
            rounds: u32::MAX,
        }
    }

    /// The same, by the account at this place of the list.
    pub const fn account(self, place: usize) -> Strategy {
        Strategy {
            account: place,
            ..self
        }
    }

    /// The same, in at most so many rounds for an answer.
    pub const fn rounds(self, most: u32) -> Strategy {
        Strategy {
            rounds: most,
            ..self
        }
    }

    /// The machine's answer in a state to a press, which is named by the state that it leads to:
    /// [`Table::react`] by this strategy.
    ///
    /// # Errors
    ///
    /// As for [`Table::react`]; [`Refusal::NoAnswer`] where the state is in the goal or outside the
    /// set, or the press is no guest move from it.
    pub fn answer<W: AsRef<[u32]> + AsMut<[u32]>>(
        self,
        table: &mut Table<W>,
        accounts: &[Account],
        state: u32,
        press: u32,
    ) -> Result<u32, Refusal> {
        table.react(accounts, self, state, press)
    }
}
