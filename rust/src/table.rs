//! The table over lent or owned words.
use crate::check::{self, Call};
use crate::layout::{self, BITS, FIRST_REGISTER, ROWS};
use crate::{abi, dot, least, Account, AsFormula, Entry, Game, Names, Refusal, Refused, States};
use crate::{Strategy, Target};

/// The greatest number of state bits of a table.
pub const MAX_BITS: u32 = 16;
/// The greatest number of rows of a table.
pub const MAX_ROWS: u32 = 60_000;
/// How many registers a table has.
pub const REGISTERS: u32 = 32;
/// How many relations a table has.
pub const RELATIONS: u32 = 8;

/// The words that a table of so many rows needs: 256 + 12 × rows.
///
/// ```
/// assert_eq!(kudzuclamp::words_for(100), 1_456);
/// ```
#[must_use]
pub const fn words_for(rows: u32) -> usize {
    256 + 12 * rows as usize
}

/// What an answered [`Table::relation`] gives.
#[derive(Clone, Copy, Debug, PartialEq, Eq, Hash)]
pub struct Loaded {
    /// The largest number of rows that a step of the call needed, of its result and of all that was
    /// live at it, what registers and relations hold included; 0 where the formula takes no step.
    /// It does not depend on the table's number of rows; exactly where it would pass that, the call
    /// is refused with [`Refusal::Full`] instead.
    pub peak: u32,
}

/// What an answered [`Table::set`] or [`Table::force`] gives.
#[derive(Clone, Copy, Debug, PartialEq, Eq, Hash)]
pub struct Stored {
    /// The set's node number: two registers hold the same set exactly where their node numbers are
    /// equal; 0 is no state, 1 is all 2^n states.
    pub node: u32,
    /// How many times a binder's body was evaluated.
    pub rounds: u32,
    /// The largest number of rows that a step needed, as in [`Loaded`]; exactly where it would pass
    /// the lesser of the table's number of rows and the account's row limit, the call is refused
    /// with [`Refusal::Full`] instead.
    pub peak: u32,
}

/// What an answered [`Table::write_cheapest`] gives.
#[derive(Clone, Copy, Debug, PartialEq, Eq, Hash)]
pub struct Fare {
    /// The credits of the run's steps.
    pub total: u32,
    /// The coins for them: one for every ten credits begun.
    pub charge: u32,
    /// How many states the run has, one more than steps.
    pub count: usize,
}

/// What an answered [`Table::cheapest`] gives: a run, and what it costs.
#[derive(Clone, Debug, PartialEq, Eq, Hash)]
pub struct Run {
    /// Its credits, its coins and how many states it has.
    pub fare: Fare,
    /// Its states.
    pub states: Vec<u16>,
    /// The relation of each step, from one state to the next.
    pub relations: Vec<u8>,
}

/// A table of decision-diagram rows with 32 registers, each empty or holding a set of states, and 8
/// relations, each empty or holding a set of pairs of states.
///
/// The words are owned (`Table<Vec<u32>>`, from [`Table::new`]) or borrowed (`Table<&mut [u32]>`,
/// from [`Table::fresh`]). Every call checks first that they are a sound table and refuses with
/// [`Refusal::Unsound`] where they are none, so no words, numbers or bytes make a call misbehave.
///
/// Memory is not wiped: lent words that the table does not need keep what they held before, and rows
/// and results of earlier sets stay in the words until others are written over them. Lend none that
/// hold what is not to be seen by those who get the words later.
///
/// The accounts, under which sets are made, are not the table's: they are lent at each call that
/// takes them (see [`Account`]).
///
/// ```
/// use kudzuclamp::{Account, Formula, Refusal, Table, Target};
///
/// # fn main() -> Result<(), Refusal> {
/// // One bit, the echo switch; each press turns it over.
/// let mut accounts = [Account::unlimited()];
/// let mut table = Table::new(&mut accounts, 1, 100)?;
/// table.relation(0, Formula::turns(0))?;
///
/// // From which states can presses turn the echo on?
/// let press = Formula::diamond(0, Formula::var(0));
/// let reach = Formula::mu(0, Formula::current(0) | press);
/// let stored = table.set(&mut accounts, Target::register(0).rounds(100), reach)?;
/// assert_eq!((stored.rounds, accounts[0].tally), (3, 3));
/// assert_eq!(table.count(0)?, 2);
/// // No step needed more than 4 rows: with 4 it is answered too, with 3 it is refused.
/// assert_eq!(stored.peak, 4);
/// # Ok(())
/// # }
/// ```
#[derive(Clone, Debug, PartialEq, Eq)]
pub struct Table<W> {
    words: W,
}

impl Table<Vec<u32>> {
    /// An empty table of n bits (1 to 16) and so many rows (1 to 60,000) over words of its own; the
    /// tallies of the accounts are then 0.
    ///
    /// # Errors
    ///
    /// [`Refusal::Sizes`] where a number is out of range, [`Refusal::Unlisted`] where the list is not
    /// 1 to 8 accounts long.
    ///
    /// ```
    /// use kudzuclamp::{Account, Refusal, Table};
    ///
    /// let mut accounts = [Account::unlimited(); 3];
    /// assert!(Table::new(&mut accounts, 16, 60_000).is_ok());
    /// assert_eq!(Table::new(&mut accounts, 17, 60_000), Err(Refusal::Sizes));
    /// assert_eq!(Table::new(&mut [], 16, 60_000), Err(Refusal::Unlisted));
    /// ```
    pub fn new(accounts: &mut [Account], n: u32, rows: u32) -> Result<Table<Vec<u32>>, Refusal> {
        let words = vec![0; words_for(rows.min(MAX_ROWS))];
        Table::fresh(words, accounts, n, rows)
    }
}

impl<W: AsRef<[u32]> + AsMut<[u32]>> Table<W> {
    /// An empty table of n bits and so many rows in any words, at least [`words_for`] the rows;
    /// later words are never changed. The tallies of the accounts are then 0.
    ///
    /// # Errors
    ///
    /// [`Refusal::Sizes`] or [`Refusal::Unlisted`], as for [`Table::new`]; all words and accounts are
    /// kept.
    ///
    /// ```
    /// use kudzuclamp::{words_for, Account, Refusal, Table};
    ///
    /// let mut words = [7; words_for(10)];
    /// let mut accounts = [Account::unlimited()];
    /// let table = Table::fresh(&mut words[..], &mut accounts, 2, 10).unwrap();
    /// assert_eq!(table.count(0), Err(Refusal::Empty));
    /// ```
    pub fn fresh(
        words: W,
        accounts: &mut [Account],
        n: u32,
        rows: u32,
    ) -> Result<Table<W>, Refusal> {
        let mut table = Table { words };
        table.restart(accounts, n, rows)?;
        Ok(table)
    }

    /// Makes an empty table of the same words anew, as [`Table::fresh`].
    ///
    /// # Errors
    ///
    /// As for [`Table::fresh`].
    ///
    /// ```
    /// use kudzuclamp::{Account, Formula, Refusal, Refused, Table, Target};
    ///
    /// # fn main() -> Result<(), Refused> {
    /// let mut accounts = [Account::unlimited()];
    /// let mut table = Table::new(&mut accounts, 2, 10)?;
    /// table.set(&mut accounts, Target::register(0), Formula::current(1))?;
    /// table.restart(&mut accounts, 3, 5)?;
    /// assert_eq!((table.bits()?, table.rows()?), (3, 5));
    /// assert_eq!(table.count(0), Err(Refusal::Empty));
    /// # Ok(())
    /// # }
    /// ```
    pub fn restart(&mut self, accounts: &mut [Account], n: u32, rows: u32) -> Result<(), Refusal> {
        abi::fresh(self.words.as_mut(), accounts, n, rows)
    }

    /// The states that exist, V, are then exactly those in which the formula holds; after fresh every
    /// state exists. It is called while nothing is filled. From then on true means V, NOT means V
    /// without the set, a bit its states in V, and next states outside V do not exist.
    ///
    /// Formulas of valid have constants, NOT, AND, OR and current bits only, and are read over all
    /// states.
    ///
    /// ```
    /// use kudzuclamp::{Account, Formula, Refusal, Table, Target};
    ///
    /// # fn main() -> Result<(), Refusal> {
    /// let mut accounts = [Account::unlimited()];
    /// let mut table = Table::new(&mut accounts, 2, 100)?;
    /// // A selector of three positions takes two bits, which are never both 1.
    /// let (low, high) = (Formula::current(0), Formula::current(1));
    /// table.valid(!(&low & &high))?;
    /// table.set(&mut accounts, Target::register(0), !low)?;
    /// assert_eq!(table.count(0)?, 2);
    /// assert_eq!(table.valid(Formula::truth()).unwrap_err(), Refusal::Occupied);
    /// # Ok(())
    /// # }
    /// ```
    ///
    /// # Errors
    ///
    /// [`Refusal::Unsound`], [`Refusal::Occupied`], [`Refusal::Syntax`] or [`Refusal::Full`].
    pub fn valid(&mut self, formula: impl AsFormula) -> Result<(), Refused> {
        abi::valid(self.words.as_mut(), formula.framed())
            .map_err(|refusal| self.refused(Call::Valid, &formula, refusal))
    }

    /// Relation t, from 0 to 7, then holds exactly the pairs of states in which the formula holds.
    /// Formulas of relations have constants, NOT, AND, OR and current and next bits only.
    ///
    /// # Errors
    ///
    /// [`Refusal::Unsound`], [`Refusal::Range`] (t is above 7), [`Refusal::Syntax`] or
    /// [`Refusal::Full`].
    ///
    /// ```
    /// use kudzuclamp::{Account, Formula, Loaded, Refusal, Table};
    ///
    /// # fn main() -> Result<(), Refusal> {
    /// let mut accounts = [Account::unlimited()];
    /// let keeps = Formula::keeps(0);
    /// let mut table = Table::new(&mut accounts, 1, 100)?;
    /// // How many rows does it take? So many are enough, and one fewer is not.
    /// let Loaded { peak } = table.relation(0, &keeps)?;
    /// assert!(Table::new(&mut accounts, 1, peak)?.relation(0, &keeps).is_ok());
    /// let mut small = Table::new(&mut accounts, 1, peak - 1)?;
    /// assert_eq!(small.relation(0, &keeps).unwrap_err(), Refusal::Full);
    /// # Ok(())
    /// # }
    /// ```
    pub fn relation(&mut self, t: u32, formula: impl AsFormula) -> Result<Loaded, Refused> {
        abi::relation(self.words.as_mut(), t, formula.framed())
            .map_err(|refusal| self.refused(Call::Relation, &formula, refusal))
    }

    /// The [`Target`]'s register then holds exactly the states in which the formula holds, found in
    /// at most its rounds and under the limits of its account, which it names by its place in the
    /// list. The rounds made are added to that account's tally; nothing else in the list is changed,
    /// and nothing at all where the call is refused.
    ///
    /// The formula is a [`Formula`](crate::Formula), or framed bytes from elsewhere.
    ///
    /// # Errors
    ///
    /// [`Refusal::Unsound`], [`Refusal::Range`] (the register is above 31), [`Refusal::Unlisted`],
    /// [`Refusal::Syntax`], [`Refusal::Unbound`], [`Refusal::Vacuous`], [`Refusal::Odd`],
    /// [`Refusal::Empty`], [`Refusal::Full`] or [`Refusal::Spent`].
    ///
    /// ```
    /// use kudzuclamp::{Account, Formula, Refusal, Refused, Table, Target};
    ///
    /// # fn main() -> Result<(), Refused> {
    /// let mut accounts = [Account::unlimited()];
    /// let mut table = Table::new(&mut accounts, 1, 100)?;
    /// let all = table.set(&mut accounts, Target::register(0).rounds(1), [0, 3, 1, 0x80, 0x30])?;
    /// assert_eq!((all.node, all.rounds, all.peak), (1, 1, 0));
    ///
    /// let again = Formula::nu(0, Formula::var(0));
    /// let spent = table.set(&mut accounts, Target::register(1).rounds(0), &again);
    /// assert_eq!(spent.unwrap_err(), Refusal::Spent);
    /// let unlisted = table.set(&mut accounts, Target::register(1).account(1), &again);
    /// assert_eq!(unlisted.unwrap_err(), Refusal::Unlisted);
    /// assert_eq!(accounts[0].tally, 1);
    /// # Ok(())
    /// # }
    /// ```
    pub fn set(
        &mut self,
        accounts: &mut [Account],
        target: Target,
        formula: impl AsFormula,
    ) -> Result<Stored, Refused> {
        abi::set(self.words.as_mut(), accounts, target, formula.framed())
            .map_err(|refusal| self.refused(Call::Set, &formula, refusal))
    }

    /// The [`Target`]'s register then holds the states from which the machine can force the goal of a
    /// [`Game`]: those of the goal, and those where the guest has a move and after every guest move
    /// some machine move leads back into the set; the least such set (the goal's attractor). From every
    /// other state the guest has a way to stay outside for good, or no move.
    ///
    /// It is a [`Table::set`] of `mu P0. goal | [guest] <machine> P0 & <guest> true`, with its account, its
    /// rounds and its peak. The target may be the goal's own register; then the set takes the goal's
    /// place, and [`Table::react`] about it gives [`Refusal::NoAnswer`] for every press.
    ///
    /// # Errors
    ///
    /// [`Refusal::Unsound`], [`Refusal::Range`] (a register is above 31, or a relation above 7),
    /// [`Refusal::Unlisted`], [`Refusal::Empty`], [`Refusal::Full`] or [`Refusal::Spent`].
    ///
    /// ```
    /// use kudzuclamp::{Account, Formula, Game, Refusal, Table, Target};
    ///
    /// # fn main() -> Result<(), Refusal> {
    /// // Bit 0 is the song, bit 1 the echo. The guest turns the song over; the machine may turn the
    /// // echo off, or leave it.
    /// let mut accounts = [Account::unlimited()];
    /// let mut table = Table::new(&mut accounts, 2, 100)?;
    /// table.relation(0, Formula::turns(0) & Formula::keeps(1))?;
    /// table.relation(1, Formula::keeps(0) & (Formula::keeps(1) | !Formula::next(1)))?;
    /// // From where can it see to it that the echo is off while a song plays?
    /// table.set(&mut accounts, Target::register(0), Formula::current(0) & !Formula::current(1))?;
    /// let stored = table.force(&mut accounts, Target::register(1), Game::new(0, 0, 1))?;
    /// assert_eq!((table.count(1)?, stored.rounds, accounts[0].tally), (4, 4, 4));
    /// // Where it may only leave the echo as it is, the echo must be off already.
    /// table.relation(2, Formula::keeps(0) & Formula::keeps(1))?;
    /// table.force(&mut accounts, Target::register(2), Game::new(0, 0, 2))?;
    /// assert_eq!(table.states(2)?.collect::<Vec<u32>>(), [0, 1]);
    /// # Ok(())
    /// # }
    /// ```
    #[doc(alias = "attractor")]
    pub fn force(
        &mut self,
        accounts: &mut [Account],
        target: Target,
        game: Game,
    ) -> Result<Stored, Refusal> {
        abi::force(self.words.as_mut(), accounts, target, game)
    }

    /// What the machine answers the guest's press with, by a [`Strategy`]: the least state that a
    /// machine move leads to from `press` and that enters the set of [`Table::force`] in an earlier
    /// round than `state`. The press is named by the state that it leads to.
    ///
    /// The rounds are made again under the strategy's limits, so it takes about as long as
    /// [`Table::force`], which need not have been called. Rows are made for that, so the table is lent to
    /// be changed, but nothing is stored: no register or relation changes, and the accounts are only
    /// read. [`Strategy::answer`] is the same call, for those who play a whole game by one strategy.
    ///
    /// # Errors
    ///
    /// [`Refusal::Unsound`], [`Refusal::Range`] (of the game's numbers, the state or the press),
    /// [`Refusal::Unlisted`], [`Refusal::Empty`], [`Refusal::Full`] or [`Refusal::Spent`] as for
    /// [`Table::force`] (the set that force stored counts among the rows too), or [`Refusal::NoAnswer`]
    /// where the state is in the goal or outside the set, or the press is no guest move from it.
    ///
    /// ```
    /// use kudzuclamp::{Account, Formula, Game, Refusal, Strategy, Table, Target};
    ///
    /// # fn main() -> Result<(), Refusal> {
    /// // The guest turns bit 0 over, the machine may turn bit 1 off.
    /// let mut accounts = [Account::unlimited()];
    /// let mut table = Table::new(&mut accounts, 2, 100)?;
    /// table.relation(0, Formula::turns(0) & Formula::keeps(1))?;
    /// table.relation(1, Formula::keeps(0) & (Formula::keeps(1) | !Formula::next(1)))?;
    /// table.set(&mut accounts, Target::register(0), Formula::current(0) & !Formula::current(1))?;
    /// let strategy = Strategy::new(Game::new(0, 0, 1));
    /// // In state 2 the guest presses to 3: the machine turns bit 1 off, and state 1 is in the goal.
    /// assert_eq!(table.react(&accounts, strategy, 2, 3), Ok(1));
    /// assert_eq!(table.react(&accounts, strategy, 1, 0), Err(Refusal::NoAnswer));
    /// assert_eq!(table.react(&accounts, strategy.rounds(3), 2, 3), Err(Refusal::Spent));
    /// assert_eq!(table.react(&accounts, strategy, 4, 3), Err(Refusal::Range));
    /// # Ok(())
    /// # }
    /// ```
    pub fn react(
        &mut self,
        accounts: &[Account],
        strategy: Strategy,
        state: u32,
        press: u32,
    ) -> Result<u32, Refusal> {
        abi::react(self.words.as_mut(), accounts, strategy, state, press)
    }

    /// Empties register r; an empty one stays so.
    ///
    /// # Errors
    ///
    /// [`Refusal::Unsound`] or [`Refusal::Range`].
    ///
    /// ```
    /// use kudzuclamp::{Account, Formula, Refusal, Refused, Table, Target};
    ///
    /// # fn main() -> Result<(), Refused> {
    /// let mut accounts = [Account::unlimited()];
    /// let mut table = Table::new(&mut accounts, 2, 10)?;
    /// table.set(&mut accounts, Target::register(0), Formula::current(1))?;
    /// table.clear(0)?;
    /// assert_eq!(table.count(0), Err(Refusal::Empty));
    /// # Ok(())
    /// # }
    /// ```
    pub fn clear(&mut self, r: u32) -> Result<(), Refusal> {
        abi::clear(self.words.as_mut(), r)
    }

    /// Frees the rows that V, registers and relations do not need, and gives how many are needed.
    ///
    /// # Errors
    ///
    /// [`Refusal::Unsound`].
    ///
    /// ```
    /// use kudzuclamp::{Account, Formula, Refusal, Refused, Table, Target};
    ///
    /// # fn main() -> Result<(), Refused> {
    /// let mut accounts = [Account::unlimited()];
    /// let mut table = Table::new(&mut accounts, 2, 10)?;
    /// table.set(&mut accounts, Target::register(0), Formula::current(1))?;
    /// // The bit takes one row.
    /// assert_eq!(table.collect()?, 1);
    /// table.clear(0)?;
    /// assert_eq!(table.collect()?, 0);
    /// # Ok(())
    /// # }
    /// ```
    pub fn collect(&mut self) -> Result<u32, Refusal> {
        abi::collect(self.words.as_mut())
    }

    /// The states of a shortest run from the set in register a into the set in register b over
    /// relation t: the first is the least state of a at the shortest distance, each next one the
    /// least that still lies on a shortest run. Refused with [`Refusal::NoRun`] where there is none;
    /// no register, relation or account changes.
    ///
    /// ```
    /// use kudzuclamp::{Account, Formula, Refusal, Table, Target};
    ///
    /// # fn main() -> Result<(), Refusal> {
    /// // Two switches; each press turns the second over, and the first where the second is on.
    /// let mut accounts = [Account::unlimited()];
    /// let mut table = Table::new(&mut accounts, 2, 100)?;
    /// let same = |a: Formula, b: Formula| (a.clone() & b.clone()) | !(a | b);
    /// let (first, second) = (Formula::current(0), Formula::current(1));
    /// let turned = !same(first.clone(), second.clone());
    /// table.relation(0, same(Formula::next(0), turned) & !same(Formula::next(1), second.clone()))?;
    /// // By which presses, from both off, are both on?
    /// table.set(&mut accounts, Target::register(0), !(first.clone() | second.clone()))?;
    /// table.set(&mut accounts, Target::register(1), first & second)?;
    /// assert_eq!(table.shortest(0, 1, 0)?, [0, 2, 1, 3]);
    /// # Ok(())
    /// # }
    /// ```
    pub fn shortest(&mut self, a: u32, b: u32, t: u32) -> Result<Vec<u16>, Refusal> {
        // No shortest run has a state twice.
        let mut list = vec![0; 1 << MAX_BITS];
        let states = self.write_shortest(&mut list, a, b, t)?;
        list.truncate(states);
        Ok(list)
    }

    /// Writes the states that [`Table::shortest`] gives to the first places of a list, and gives how
    /// many they are; later places are never written, and none where the call is refused. Refused
    /// with [`Refusal::Short`] where the list is too short for the run.
    ///
    /// ```
    /// use kudzuclamp::{Account, Formula, Refusal, Table, Target};
    ///
    /// # fn main() -> Result<(), Refusal> {
    /// let mut accounts = [Account::unlimited()];
    /// let mut table = Table::new(&mut accounts, 1, 100)?;
    /// table.relation(0, Formula::next(0))?;
    /// table.set(&mut accounts, Target::register(0), !Formula::current(0))?;
    /// table.set(&mut accounts, Target::register(1), Formula::current(0))?;
    /// let mut list = [7; 3];
    /// assert_eq!(table.write_shortest(&mut list[..1], 0, 1, 0), Err(Refusal::Short));
    /// assert_eq!(table.write_shortest(&mut list, 1, 0, 0), Err(Refusal::NoRun));
    /// assert_eq!((table.write_shortest(&mut list, 0, 1, 0)?, list), (2, [0, 1, 7]));
    /// # Ok(())
    /// # }
    /// ```
    pub fn write_shortest(
        &mut self,
        list: &mut [u16],
        a: u32,
        b: u32,
        t: u32,
    ) -> Result<usize, Refusal> {
        let states = abi::shortest(self.words.as_mut(), list, a, b, t)?;
        Ok(states as usize)
    }

    /// The states of a run of relation t that fits two logs: entry i of both is for state i. Of all
    /// such runs it is the one with the least first state, then the least second one, and so on.
    /// Refused with [`Refusal::NoRun`] where there is none, and with [`Refusal::Sizes`] where the
    /// logs have not the same number of entries, 1 to [`MAX_ENTRIES`](crate::MAX_ENTRIES). No
    /// register or relation changes.
    ///
    /// ```
    /// use kudzuclamp::{Account, Entry, Formula, Refusal, Table};
    ///
    /// # fn main() -> Result<(), Refusal> {
    /// // Two switches; each press turns one of them over.
    /// let mut accounts = [Account::unlimited()];
    /// let mut table = Table::new(&mut accounts, 2, 100)?;
    /// let press = |p, other| Formula::turns(p) & Formula::keeps(other);
    /// table.relation(0, press(0, 1) | press(1, 0))?;
    /// // One unit logs the first switch, another the second, and neither at every moment.
    /// let (none, bit) = (Entry::none(), |p, on| Entry::none().bit(p, on));
    /// let first = [bit(0, false), bit(0, true), none];
    /// let second = [none, none, bit(1, true)];
    /// assert_eq!(table.logged(0, &first, &second)?, [0, 1, 3]);
    /// // Both switches on, and at the next moment both off: two presses, not one.
    /// let both = [bit(0, true), bit(0, false)];
    /// let other = [bit(1, true), bit(1, false)];
    /// assert_eq!(table.logged(0, &both, &other), Err(Refusal::NoRun));
    /// # Ok(())
    /// # }
    /// ```
    pub fn logged(&mut self, t: u32, one: &[Entry], two: &[Entry]) -> Result<Vec<u16>, Refusal> {
        let mut list = vec![0; one.len()];
        self.write_logged(&mut list, t, one, two)?;
        Ok(list)
    }

    /// Writes the states that [`Table::logged`] gives to the first places of a list; later places
    /// are never written, and none where the call is refused. Refused with [`Refusal::Short`] where
    /// the list has fewer places than the logs have entries.
    pub fn write_logged(
        &mut self,
        list: &mut [u16],
        t: u32,
        one: &[Entry],
        two: &[Entry],
    ) -> Result<(), Refusal> {
        abi::logged(self.words.as_mut(), list, t, one, two)
    }

    /// The words, to change at will: the next call refuses with [`Refusal::Unsound`] where they are
    /// then no sound table.
    ///
    /// ```
    /// use kudzuclamp::{Account, Formula, Refusal, Refused, Table, Target};
    ///
    /// # fn main() -> Result<(), Refused> {
    /// let mut accounts = [Account::unlimited()];
    /// let mut table = Table::new(&mut accounts, 2, 10)?;
    /// table.set(&mut accounts, Target::register(0), Formula::current(1))?;
    /// table.words_mut()[0] = 17;
    /// assert_eq!(table.count(0), Err(Refusal::Unsound));
    /// # Ok(())
    /// # }
    /// ```
    #[must_use]
    pub fn words_mut(&mut self) -> &mut [u32] {
        self.words.as_mut()
    }
}

impl<W: AsRef<[u32]>> Table<W> {
    /// The table that words hold, as an earlier one left them.
    ///
    /// # Errors
    ///
    /// [`Refusal::Unsound`] where they are no sound table.
    ///
    /// ```
    /// use kudzuclamp::{Account, Formula, Refusal, Table, Target};
    ///
    /// # fn main() -> Result<(), Refusal> {
    /// let mut accounts = [Account::unlimited()];
    /// let mut table = Table::new(&mut accounts, 2, 10)?;
    /// table.set(&mut accounts, Target::register(5), Formula::current(1))?;
    /// let words = table.into_words();
    /// assert_eq!(Table::over(words)?.count(5)?, 2);
    /// assert_eq!(Table::over(vec![0; 400]), Err(Refusal::Unsound));
    /// # Ok(())
    /// # }
    /// ```
    pub fn over(words: W) -> Result<Table<W>, Refusal> {
        let table = Table { words };
        table.sound()?;
        Ok(table)
    }

    /// The refusal of a call, with what is wrong with its formula.
    fn refused(&self, call: Call, formula: &impl AsFormula, refusal: Refusal) -> Refused {
        check::refused(self.words.as_ref(), call, formula, refusal)
    }

    /// The words, once the library has found that they are a sound table.
    fn sound(&self) -> Result<&[u32], Refusal> {
        match self.node(0) {
            Err(Refusal::Unsound) => Err(Refusal::Unsound),
            _ => Ok(self.words.as_ref()),
        }
    }

    /// n: how many state bits the table has.
    ///
    /// # Errors
    ///
    /// [`Refusal::Unsound`].
    ///
    /// ```
    /// use kudzuclamp::{Account, Table};
    ///
    /// let table = Table::new(&mut [Account::unlimited()], 6, 1_344).unwrap();
    /// assert_eq!((table.bits(), table.rows()), (Ok(6), Ok(1_344)));
    /// ```
    pub fn bits(&self) -> Result<u32, Refusal> {
        self.sound().map(|words| words[BITS])
    }

    /// N: how many rows the table has.
    ///
    /// # Errors
    ///
    /// [`Refusal::Unsound`].
    pub fn rows(&self) -> Result<u32, Refusal> {
        self.sound().map(|words| words[ROWS])
    }

    /// The node number in register r, as the call that last set it gave it.
    ///
    /// # Errors
    ///
    /// [`Refusal::Unsound`], [`Refusal::Range`] or [`Refusal::Empty`].
    ///
    /// ```
    /// use kudzuclamp::{Account, Formula, Refusal, Refused, Table, Target};
    ///
    /// # fn main() -> Result<(), Refused> {
    /// let mut accounts = [Account::unlimited()];
    /// let mut table = Table::new(&mut accounts, 2, 10)?;
    /// table.set(&mut accounts, Target::register(0), Formula::current(1))?;
    /// // The same set has the same number.
    /// table.set(&mut accounts, Target::register(1), !!Formula::current(1))?;
    /// assert_eq!(table.node(0)?, table.node(1)?);
    /// # Ok(())
    /// # }
    /// ```
    pub fn node(&self, r: u32) -> Result<u32, Refusal> {
        abi::node(self.words.as_ref(), r)
    }

    /// Whether the set in register r has a state, from 0 to 2^n − 1; its bit p has weight 2^p.
    ///
    /// # Errors
    ///
    /// [`Refusal::Unsound`], [`Refusal::Range`] (register or state) or [`Refusal::Empty`].
    ///
    /// ```
    /// use kudzuclamp::{Account, Formula, Refusal, Refused, Table, Target};
    ///
    /// # fn main() -> Result<(), Refused> {
    /// let mut accounts = [Account::unlimited()];
    /// let mut table = Table::new(&mut accounts, 2, 10)?;
    /// table.set(&mut accounts, Target::register(0), Formula::current(1))?;
    /// assert!(table.member(0, 2)? && !table.member(0, 1)?);
    /// assert_eq!(table.member(0, 4), Err(Refusal::Range));
    /// # Ok(())
    /// # }
    /// ```
    pub fn member(&self, r: u32, state: u32) -> Result<bool, Refusal> {
        Ok(abi::member(self.words.as_ref(), r, state)? == 1)
    }

    /// Which of up to [`MAX_STATES`](crate::MAX_STATES) states, each from 0 to 2^n − 1, the set in
    /// register r has: answer i becomes 1 where it has state i, else 0. Gives how many rows were read;
    /// a row counts once for all states that reach it by the same answers to the rows before it.
    ///
    /// The order is lent for the work: its entries end as the states' places, from 0 up, in some
    /// order. Entries of both lists past the states are not changed, and none is where the question
    /// is refused.
    ///
    /// # Errors
    ///
    /// [`Refusal::Sizes`] where there are too many states or a list is shorter, [`Refusal::Unsound`],
    /// [`Refusal::Range`] (register or state) or [`Refusal::Empty`].
    ///
    /// ```
    /// use kudzuclamp::{Account, Formula, Refusal, Table, Target};
    ///
    /// # fn main() -> Result<(), Refusal> {
    /// let mut accounts = [Account::unlimited()];
    /// let mut table = Table::new(&mut accounts, 2, 10)?;
    /// table.set(&mut accounts, Target::register(0), Formula::current(1))?;
    /// let (mut order, mut answers) = ([0; 4], [9; 4]);
    /// // Bit 0 is never asked, so one row is read once for all three.
    /// assert_eq!(table.members(0, &[3, 0, 3], &mut order, &mut answers)?, 1);
    /// assert_eq!(answers, [1, 0, 1, 9]);
    /// assert_eq!(table.members(0, &[4], &mut order, &mut answers), Err(Refusal::Range));
    /// # Ok(())
    /// # }
    /// ```
    pub fn members(
        &self,
        r: u32,
        states: &[u16],
        order: &mut [u16],
        answers: &mut [u8],
    ) -> Result<u32, Refusal> {
        abi::members(self.words.as_ref(), r, states, order, answers)
    }

    /// All states of the set in register r, the least first, asked of the library 1,024 at a time.
    ///
    /// # Errors
    ///
    /// [`Refusal::Unsound`], [`Refusal::Range`] or [`Refusal::Empty`].
    ///
    /// ```
    /// use kudzuclamp::{Account, Formula, Refusal, Table, Target};
    ///
    /// # fn main() -> Result<(), Refusal> {
    /// let mut accounts = [Account::unlimited()];
    /// let mut table = Table::new(&mut accounts, 3, 10)?;
    /// table.set(&mut accounts, Target::register(0), Formula::current(0) & !Formula::current(1))?;
    /// assert_eq!(table.states(0)?.collect::<Vec<u32>>(), [1, 5]);
    /// assert_eq!(table.states(1).err(), Some(Refusal::Empty));
    /// # Ok(())
    /// # }
    /// ```
    pub fn states(&self, r: u32) -> Result<States<'_>, Refusal> {
        States::new(self.words.as_ref(), r)
    }

    /// A cheapest run from the set in register a into the set in register b over any mix of filled
    /// relations, of which relation r costs `prices[r]` credits a step: no run costs fewer credits,
    /// and of those that cost as many none has fewer states. Which of the runs that are left it is
    /// may be another one in another version. The table is only read.
    ///
    /// # Errors
    ///
    /// [`Refusal::Unsound`], [`Refusal::Range`] (a or b is above 31), [`Refusal::Empty`] (register a
    /// or b is), or [`Refusal::NoRun`].
    ///
    /// ```
    /// use kudzuclamp::{Account, Formula, Refusal, Table, Target};
    ///
    /// # fn main() -> Result<(), Refusal> {
    /// let mut accounts = [Account::unlimited()];
    /// let mut table = Table::new(&mut accounts, 2, 100)?;
    /// // One press turns the first switch on, another the second, a third both.
    /// table.relation(0, Formula::next(0) & Formula::keeps(1))?;
    /// table.relation(1, Formula::next(1) & Formula::keeps(0))?;
    /// table.relation(2, Formula::next(0) & Formula::next(1))?;
    /// let (first, second) = (Formula::current(0), Formula::current(1));
    /// table.set(&mut accounts, Target::register(0), !(&first | &second))?;
    /// table.set(&mut accounts, Target::register(1), first & second)?;
    /// // Two presses for 9 credits are cheaper than one for 12, by a coin.
    /// let run = table.cheapest(&[4, 5, 12, 0, 0, 0, 0, 0], 0, 1)?;
    /// assert_eq!((run.fare.total, run.fare.charge, run.relations.len()), (9, 1, 2));
    /// // Where both cost the same, the run with fewer states.
    /// let run = table.cheapest(&[4, 5, 9, 0, 0, 0, 0, 0], 0, 1)?;
    /// assert_eq!((run.states, run.relations), (vec![0, 3], vec![2]));
    /// assert_eq!(table.cheapest(&[0; 8], 1, 0), Err(Refusal::NoRun));
    /// # Ok(())
    /// # }
    /// ```
    pub fn cheapest(&self, prices: &[u8; 8], a: u32, b: u32) -> Result<Run, Refusal> {
        // No cheapest run has a state twice: what lies between could be left out.
        let mut work = vec![0; 1 << MAX_BITS];
        let (mut states, mut relations) = (vec![0; 1 << MAX_BITS], vec![0; 1 << MAX_BITS]);
        let fare = self.write_cheapest(prices, &mut work, &mut states, &mut relations, a, b)?;
        states.truncate(fare.count);
        relations.truncate(fare.count - 1);
        Ok(Run {
            fare,
            states,
            relations,
        })
    }

    /// Writes the states and the relations that [`Table::cheapest`] gives to the first places of two
    /// lists; later places are never written, and none where the call is refused. At least 2^n work
    /// words are lent; what the first 2^n hold afterwards is of no use, but the refusals
    /// [`Refusal::Sizes`] to [`Refusal::Empty`] keep them.
    ///
    /// # Errors
    ///
    /// [`Refusal::Sizes`] where there are not eight prices, [`Refusal::Unsound`], [`Refusal::Sizes`]
    /// where there are fewer than 2^n work words, [`Refusal::Range`], [`Refusal::Empty`],
    /// [`Refusal::NoRun`], or [`Refusal::Short`] where one of the lists is too short for the run.
    ///
    /// ```
    /// use kudzuclamp::{Account, Fare, Formula, Refusal, Table, Target};
    ///
    /// # fn main() -> Result<(), Refusal> {
    /// let mut accounts = [Account::unlimited()];
    /// let mut table = Table::new(&mut accounts, 1, 100)?;
    /// table.relation(3, Formula::next(0))?;
    /// table.set(&mut accounts, Target::register(0), !Formula::current(0))?;
    /// table.set(&mut accounts, Target::register(1), Formula::current(0))?;
    /// let (prices, mut work) = ([0, 0, 0, 11, 0, 0, 0, 0], [0; 2]);
    /// let (mut states, mut relations) = ([7; 3], [7; 2]);
    /// let short = table.write_cheapest(&prices, &mut work, &mut states, &mut [], 0, 1);
    /// assert_eq!(short, Err(Refusal::Short));
    /// let fare = table.write_cheapest(&prices, &mut work, &mut states, &mut relations, 0, 1)?;
    /// assert_eq!(fare, Fare { total: 11, charge: 2, count: 2 });
    /// assert_eq!((states, relations), ([0, 1, 7], [3, 7]));
    /// # Ok(())
    /// # }
    /// ```
    pub fn write_cheapest(
        &self,
        prices: &[u8],
        work: &mut [u64],
        states: &mut [u16],
        relations: &mut [u8],
        a: u32,
        b: u32,
    ) -> Result<Fare, Refusal> {
        abi::cheapest(self.words.as_ref(), prices, work, states, relations, a, b)
    }

    /// How many states the set in register r has, from 0 to 2^n.
    ///
    /// # Errors
    ///
    /// [`Refusal::Unsound`], [`Refusal::Range`] or [`Refusal::Empty`].
    ///
    /// ```
    /// use kudzuclamp::{Account, Formula, Refusal, Refused, Table, Target};
    ///
    /// # fn main() -> Result<(), Refused> {
    /// let mut accounts = [Account::unlimited()];
    /// let mut table = Table::new(&mut accounts, 2, 10)?;
    /// table.set(&mut accounts, Target::register(0), Formula::current(1))?;
    /// assert_eq!(table.count(0)?, 2);
    /// # Ok(())
    /// # }
    /// ```
    pub fn count(&self, r: u32) -> Result<u32, Refusal> {
        abi::count(self.words.as_ref(), r)
    }

    /// The checks that a set call makes of its formula; no step is taken.
    ///
    /// # Errors
    ///
    /// [`Refusal::Unsound`], else the first of [`Refusal::Syntax`], [`Refusal::Unbound`],
    /// [`Refusal::Vacuous`], [`Refusal::Odd`] and [`Refusal::Empty`] that the call would give.
    ///
    /// ```
    /// use kudzuclamp::{Account, Formula, Refusal, Table};
    ///
    /// # fn main() -> Result<(), Refusal> {
    /// let table = Table::new(&mut [Account::unlimited()], 1, 100)?;
    /// let refused = table.check_set(Formula::mu(0, !Formula::var(0))).unwrap_err();
    /// assert_eq!(refused, Refusal::Odd);
    /// let refused = table.check_set(Formula::register(9)).unwrap_err();
    /// assert_eq!(refused.to_string(), "in the formula, byte 3: register 9 is empty");
    /// # Ok(())
    /// # }
    /// ```
    pub fn check_set(&self, formula: impl AsFormula) -> Result<(), Refused> {
        abi::check(self.words.as_ref(), false, formula.framed())
            .map_err(|refusal| self.refused(Call::Set, &formula, refusal))
    }

    /// The checks that a relation call makes of its formula, as [`Table::check_set`].
    ///
    /// # Errors
    ///
    /// [`Refusal::Unsound`] or [`Refusal::Syntax`].
    ///
    /// ```
    /// use kudzuclamp::{Account, Formula, Refusal, Table};
    ///
    /// # fn main() -> Result<(), Refusal> {
    /// let table = Table::new(&mut [Account::unlimited()], 1, 100)?;
    /// assert!(table.check_relation(Formula::turns(0)).is_ok());
    /// assert_eq!(table.check_relation(Formula::var(0)).unwrap_err(), Refusal::Syntax);
    /// # Ok(())
    /// # }
    /// ```
    pub fn check_relation(&self, formula: impl AsFormula) -> Result<(), Refused> {
        abi::check(self.words.as_ref(), true, formula.framed())
            .map_err(|refusal| self.refused(Call::Relation, &formula, refusal))
    }

    /// The least state of the set in register r; none where it has no state.
    ///
    /// # Errors
    ///
    /// [`Refusal::Unsound`], [`Refusal::Range`] or [`Refusal::Empty`].
    ///
    /// ```
    /// use kudzuclamp::{Account, Formula, Refused, Table, Target};
    ///
    /// # fn main() -> Result<(), Refused> {
    /// let mut accounts = [Account::unlimited()];
    /// let mut table = Table::new(&mut accounts, 3, 10)?;
    /// table.set(&mut accounts, Target::register(0), Formula::current(1) & !Formula::current(0))?;
    /// table.set(&mut accounts, Target::register(1), Formula::falsity())?;
    /// assert_eq!((table.pick(0)?, table.pick(1)?), (Some(2), None));
    /// # Ok(())
    /// # }
    /// ```
    #[doc(alias = "pick_cube")]
    #[doc(alias = "sat_witness")]
    pub fn pick(&self, r: u32) -> Result<Option<u32>, Refusal> {
        let node = self.node(r)?;
        let words = self.words.as_ref();
        let root = layout::root(words, FIRST_REGISTER + r as usize);
        // The rows are read by code that is not proved, so the library is asked about what they tell.
        match root.and_then(|root| least::state(words, root)) {
            Some(state) if self.member(r, state)? => Ok(Some(state)),
            None if node == 0 => Ok(None),
            _ => Ok(self.states(r)?.next()),
        }
    }

    /// The rows of the set in register r as a graph in the DOT language, for `dot -Tsvg`.
    ///
    /// A row has the name of its bit. Its solid arrow is for the bit's value 1, the dashed one for 0;
    /// they lead on to the box 0, no state. A ring at an arrow's head is a NOT of all that it leads
    /// to.
    ///
    /// # Errors
    ///
    /// [`Refusal::Unsound`], [`Refusal::Range`] or [`Refusal::Empty`].
    ///
    /// ```
    /// use kudzuclamp::{Account, Formula, Names, Refused, Table, Target};
    ///
    /// # fn main() -> Result<(), Refused> {
    /// let mut accounts = [Account::unlimited()];
    /// let mut table = Table::new(&mut accounts, 2, 10)?;
    /// table.set(&mut accounts, Target::register(0), !Formula::current(1))?;
    /// let names = Names::new(["mic", "echo"]).unwrap();
    /// let dot = table.to_dot(0, &names)?;
    /// assert!(dot.starts_with("digraph set0 {\n"));
    /// assert!(dot.contains("[label=\"echo\"]") && !dot.contains("mic"));
    /// # Ok(())
    /// # }
    /// ```
    #[doc(alias = "to_dot_string")]
    #[doc(alias = "dump")]
    pub fn to_dot(&self, r: u32, names: &Names) -> Result<String, Refusal> {
        self.node(r)?;
        Ok(dot::register(self.words.as_ref(), r, names))
    }

    /// The words.
    ///
    /// ```
    /// use kudzuclamp::{Account, Formula, Refusal, Refused, Table, Target};
    ///
    /// # fn main() -> Result<(), Refused> {
    /// let mut accounts = [Account::unlimited()];
    /// let mut table = Table::new(&mut accounts, 2, 10)?;
    /// table.set(&mut accounts, Target::register(0), Formula::current(1))?;
    /// assert_eq!(table.words().len(), kudzuclamp::words_for(10));
    /// # Ok(())
    /// # }
    /// ```
    #[must_use]
    pub fn words(&self) -> &[u32] {
        self.words.as_ref()
    }

    /// The words, to keep: [`Table::over`] takes them again.
    #[must_use]
    pub fn into_words(self) -> W {
        self.words
    }
}
