//! The book: calls over sets, and the refusals in document 01's order.

use crate::accounts::{check_list, check_place, Account};
use crate::evaluate::{self, Evaluated, Held, Limits};
use crate::formula::{self, Formula, Kind};
use crate::game::{self, Game, Made, Named};
use crate::logs::{self, Entry};
use crate::members::{members, Members, MAX_STATES};
use crate::paths;
use crate::refusal::Refusal;
use crate::states::{state_count, PairSet, StateSet};

/// "The table has N rows, 32 registers, 8 relations"; Slip 7: "The single tally
/// and its call go".
pub const REGISTERS: usize = 32;
pub const RELATIONS: usize = 8;
/// "A room has n state bits, n from 1 to 16."
pub const MAX_STATE_BITS: u64 = 16;
/// "a row count N (1 to 60,000)".
pub const MAX_ROWS: u64 = 60_000;

/// A call after fresh, with its arguments; numbers may be out of range.
#[derive(Clone, Debug, PartialEq, Eq)]
pub enum Call {
    Relation {
        t: u64,
        formula: Vec<u8>,
    },
    /// Slip 7: "every set names its account".
    Set {
        place: u64,
        r: u64,
        rounds: u32,
        formula: Vec<u8>,
    },
    /// Slip 8: "The first call may stand in the third demand's list as a set".
    Force {
        place: u64,
        r: u64,
        rounds: u32,
        game: Named,
    },
    /// Slip 8: "A second call, with account and R too".
    React {
        place: u64,
        rounds: u32,
        game: Named,
        state: u64,
        press: u64,
    },
    /// Slip 11: for a list of so many places.
    Logged {
        t: u64,
        one: Vec<Entry>,
        two: Vec<Entry>,
        places: usize,
    },
    Clear {
        r: u64,
    },
    /// Slip 6: "A new call valid".
    Valid {
        formula: Vec<u8>,
    },
    Collect,
    Node {
        r: u64,
    },
    Member {
        r: u64,
        state: u64,
    },
    Count {
        r: u64,
    },
}

/// Refusal number or 0, rounds, peak, and the value, which is None where a node
/// number is free. "Returned: number, zeros" where refused.
#[derive(Clone, Copy, Debug, PartialEq, Eq)]
pub struct Answer {
    pub number: u8,
    pub rounds: u32,
    pub peak: usize,
    pub value: Option<u64>,
}

/// What an answered relation call returns. Slip 2: "Each answered relation or
/// set call also returns its peak".
#[derive(Clone, Copy, Debug, PartialEq, Eq)]
pub struct RelationAnswer {
    pub peak: usize,
}

/// What an answered set call returns: "node number and rounds", and its peak.
#[derive(Clone, Copy, Debug, PartialEq, Eq)]
pub struct SetAnswer {
    pub node: Option<u64>,
    pub rounds: u32,
    pub peak: usize,
}

/// "It has 8 relations and 32 registers, each empty or holding a set of pairs
/// or of states, which may have no members."
#[derive(Clone, Debug, PartialEq, Eq)]
pub struct Book {
    n: u32,
    rows: usize,
    valid: StateSet,
    registers: Vec<Option<StateSet>>,
    relations: Vec<Option<PairSet>>,
}

impl Book {
    /// "Fresh takes n, a row count N (1 to 60,000) and at least 256 + 12 × N
    /// words"; "Fresh empties them all". Slip 7: 14 "(in fresh, after 1)";
    /// "Fresh sets the tallies to 0."
    pub fn fresh(n: u64, rows: u64, words: u64, accounts: &mut [Account]) -> Result<Book, Refusal> {
        let n_fits = (1..=MAX_STATE_BITS).contains(&n);
        let rows_fit = (1..=MAX_ROWS).contains(&rows);
        if !n_fits || !rows_fit || words < words_for(rows) {
            return Err(Refusal::BadSizes);
        }
        check_list(accounts)?;
        accounts.iter_mut().for_each(|account| account.tally = 0);
        Ok(Book {
            n: n as u32,
            rows: rows as usize,
            // Slip 6: "after fresh, V is every state".
            valid: StateSet::constant(n as u32, true),
            registers: vec![None; REGISTERS],
            relations: vec![None; RELATIONS],
        })
    }

    /// A book with these contents, for a table that no list of calls has made.
    pub fn with(
        n: u32,
        rows: usize,
        valid: StateSet,
        registers: Vec<Option<StateSet>>,
        relations: Vec<Option<PairSet>>,
    ) -> Book {
        assert!(registers.len() == REGISTERS && relations.len() == RELATIONS);
        Book {
            n,
            rows,
            valid,
            registers,
            relations,
        }
    }

    pub fn n(&self) -> u32 {
        self.n
    }

    pub fn rows(&self) -> usize {
        self.rows
    }

    pub fn valid(&self) -> &StateSet {
        &self.valid
    }

    pub fn registers(&self) -> &[Option<StateSet>] {
        &self.registers
    }

    pub fn relations(&self) -> &[Option<PairSet>] {
        &self.relations
    }

    pub fn held(&self) -> Held<'_> {
        Held {
            n: self.n,
            valid: &self.valid,
            registers: &self.registers,
            relations: &self.relations,
        }
    }

    /// "relation t: stores the relation of exactly the pairs in which its
    /// formula holds."
    pub fn relation(&mut self, t: u64, bytes: &[u8]) -> Result<RelationAnswer, Refusal> {
        let done = self.evaluate_relation(t, bytes)?;
        self.relations[t as usize] = Some(done.value);
        Ok(RelationAnswer { peak: done.peak })
    }

    /// "set r with R: stores the set of exactly the states in which its formula
    /// holds; returns node number and rounds." Slip 7: it "changes nothing else
    /// in the list" than its own account's tally; "no refusal changes an
    /// account".
    pub fn set(
        &mut self,
        accounts: &mut [Account],
        place: u64,
        r: u64,
        rounds: u32,
        bytes: &[u8],
    ) -> Result<SetAnswer, Refusal> {
        let done = self.evaluate_set(accounts, place, r, rounds, bytes)?;
        Ok(self.store(&mut accounts[place as usize], r as usize, done))
    }

    /// The changes of an answered set: its register, and its own account's tally.
    fn store(&mut self, account: &mut Account, r: usize, done: Evaluated<StateSet>) -> SetAnswer {
        let node = settled_node(&done.value);
        self.registers[r] = Some(done.value);
        account.charge(done.rounds);
        SetAnswer {
            node,
            rounds: done.rounds,
            peak: done.peak,
        }
    }

    /// Slip 8: "store, as a set call with its account and R does, the set of
    /// states from which the machine can force the goal".
    pub fn force(
        &mut self,
        accounts: &mut [Account],
        place: u64,
        r: u64,
        rounds: u32,
        named: Named,
    ) -> Result<SetAnswer, Refusal> {
        let place = self.check_force(accounts, place, r, named)?;
        let made = self.make_game(accounts[place].limits(self.rows, rounds), named)?;
        Ok(self.store(&mut accounts[place], r as usize, made.done))
    }

    /// Checks 3 and 14 of the first call; the place of its account.
    pub fn check_force(
        &self,
        accounts: &[Account],
        place: u64,
        r: u64,
        named: Named,
    ) -> Result<usize, Refusal> {
        in_range(r, REGISTERS)?;
        check_named(named)?;
        check_place(accounts, place)
    }

    /// Slip 8: "makes the rounds again, stores and tallies nothing, and gives
    /// … the least machine answer".
    pub fn react(
        &self,
        accounts: &[Account],
        place: u64,
        rounds: u32,
        named: Named,
        turn: (u64, u64),
    ) -> Result<u64, Refusal> {
        let place = self.check_react(accounts, place, named, turn)?;
        let made = self.make_game(accounts[place].limits(self.rows, rounds), named)?;
        made.answer(turn)
    }

    /// Checks 3 and 14 of the second call: a state and a guest move, "named by
    /// the state it leads to (either out of range gives 3)".
    pub fn check_react(
        &self,
        accounts: &[Account],
        place: u64,
        named: Named,
        (state, press): (u64, u64),
    ) -> Result<usize, Refusal> {
        check_named(named)?;
        in_range(state, state_count(self.n))?;
        in_range(press, state_count(self.n))?;
        check_place(accounts, place)
    }

    /// Check 7 and the steps of a game, whose numbers are in range.
    pub fn make_game(&self, limits: Limits, named: Named) -> Result<Made, Refusal> {
        let [goal, guest, machine] = [named.goal, named.guest, named.machine].map(|k| k as usize);
        let moves = |t: usize| self.relations[t].as_ref().ok_or(Refusal::Empty);
        let set = self.registers[goal].as_ref().ok_or(Refusal::Empty)?;
        let game = Game::of(moves(guest)?, moves(machine)?, set);
        let formula = game::formula(goal, guest, machine);
        let done = evaluate::set(self.held(), limits, &formula)?;
        let entries = game.entries();
        assert_eq!(done.value, game.forced(), "the rounds end at another set");
        assert_eq!(done.rounds, game::rounds(&entries), "other rounds");
        Ok(Made {
            game,
            entries,
            done,
        })
    }

    /// Slip 6: valid "fixes the set V of states that exist".
    pub fn make_valid(&mut self, bytes: &[u8]) -> Result<(), Refusal> {
        self.valid = self.evaluate_valid(bytes)?.value;
        Ok(())
    }

    /// The checks and steps of valid, without its change. Slip 6: "13, valid
    /// while a register or relation is filled, checked directly after 2".
    pub fn evaluate_valid(&self, bytes: &[u8]) -> Result<Evaluated<StateSet>, Refusal> {
        let registers = self.registers.iter().any(Option::is_some);
        if registers || self.relations.iter().any(Option::is_some) {
            return Err(Refusal::Occupied);
        }
        let formula = self.check(Kind::Valid, bytes)?;
        evaluate::valid(self.held(), self.rows, &formula)
    }

    /// The checks and steps of relation, without its change.
    pub fn evaluate_relation(&self, t: u64, bytes: &[u8]) -> Result<Evaluated<PairSet>, Refusal> {
        in_range(t, RELATIONS)?;
        let formula = self.check(Kind::Relation, bytes)?;
        evaluate::relation(self.held(), self.rows, &formula)
    }

    /// The checks and steps of set, without its changes. Slip 7: 14, "checked
    /// directly after 3".
    pub fn evaluate_set(
        &self,
        accounts: &[Account],
        place: u64,
        r: u64,
        rounds: u32,
        bytes: &[u8],
    ) -> Result<Evaluated<StateSet>, Refusal> {
        in_range(r, REGISTERS)?;
        let place = check_place(accounts, place)?;
        let formula = self.check(Kind::Set, bytes)?;
        let limits = accounts[place].limits(self.rows, rounds);
        evaluate::set(self.held(), limits, &formula)
    }

    /// "where a check asks what is filled, as 7 does, the book's own registers
    /// and relations count."
    fn check(&self, kind: Kind, bytes: &[u8]) -> Result<Formula, Refusal> {
        let register_filled = |r: usize| self.registers[r].is_some();
        let relation_filled = |t: usize| self.relations[t].is_some();
        formula::check(self.n, kind, bytes, register_filled, relation_filled)
    }

    /// "Clear of an empty register is answered."
    pub fn clear(&mut self, r: u64) -> Result<(), Refusal> {
        let r = in_range(r, REGISTERS)?;
        self.registers[r] = None;
        Ok(())
    }

    /// "returns the rows still needed by registers and relations"; "collect
    /// changes nothing".
    pub fn collect(&self) -> u64 {
        self.held().rows().count() as u64
    }

    /// None where the number is the builder's: "Free for the builder: node
    /// numbers above 1".
    pub fn node(&self, r: u64) -> Result<Option<u64>, Refusal> {
        Ok(settled_node(self.filled(r)?))
    }

    pub fn member(&self, r: u64, state: u64) -> Result<bool, Refusal> {
        in_range(r, REGISTERS)?;
        let state = in_range(state, state_count(self.n))?;
        Ok(self.filled(r)?.contains(state))
    }

    /// Which of the states lie in register r, with lists of so many places.
    /// Slip 10: "More than 1,024 states, or an answer or order list shorter than
    /// the states, is refused by 1, and a state out of range by 3".
    pub fn members(
        &self,
        r: u64,
        states: &[u64],
        order: usize,
        answers: usize,
    ) -> Result<Members, Refusal> {
        let places = order.min(answers).min(MAX_STATES);
        if states.len() > places {
            return Err(Refusal::BadSizes);
        }
        in_range(r, REGISTERS)?;
        let states: Result<Vec<usize>, Refusal> = (states.iter())
            .map(|&state| in_range(state, state_count(self.n)))
            .collect();
        let states = states?;
        Ok(members(self.filled(r)?, &states))
    }

    pub fn count(&self, r: u64) -> Result<u64, Refusal> {
        Ok(self.filled(r)?.count())
    }

    /// Slip 3: the states of a shortest run from register a into register b over
    /// relation t, for a list of so many places. It changes nothing.
    pub fn shortest(&self, a: u64, b: u64, t: u64, room: usize) -> Result<Vec<u16>, Refusal> {
        let (a, b) = (in_range(a, REGISTERS)?, in_range(b, REGISTERS)?);
        let t = in_range(t, RELATIONS)?;
        let from = self.registers[a].as_ref().ok_or(Refusal::Empty)?;
        let goal = self.registers[b].as_ref().ok_or(Refusal::Empty)?;
        let relation = self.relations[t].as_ref().ok_or(Refusal::Empty)?;
        let last = paths::first_pass(self.held(), self.rows, t, from, goal)?;
        let run = paths::shortest(relation, from, goal).expect("a layer shares a state with a");
        assert_eq!(run.len(), last + 1, "the layers end at another distance");
        if run.len() > room {
            return Err(Refusal::ListTooShort);
        }
        paths::again(self.held(), self.rows, t, goal, last)?;
        Ok(run.into_iter().map(|state| state as u16).collect())
    }

    /// Slip 11: the states of the run of relation t that fits two logs and is least
    /// at each place, for a list of so many places. It changes nothing.
    pub fn logged(
        &self,
        t: u64,
        one: &[Entry],
        two: &[Entry],
        room: usize,
    ) -> Result<Vec<u16>, Refusal> {
        let moments = logs::moments(one, two)?;
        let t = in_range(t, RELATIONS)?;
        let relation = self.relations[t].as_ref().ok_or(Refusal::Empty)?;
        let made = |place| logs::make_set(self.held(), self.rows, t, &moments, place);
        let first = made(0)?.set;
        let run = logs::logged(relation, &self.valid, &moments);
        assert_eq!(run.is_none(), first.is_empty(), "another set is empty");
        let run = run.ok_or(Refusal::NoRun)?;
        if run.len() > room {
            return Err(Refusal::ListTooShort);
        }
        for (place, &state) in run.iter().enumerate().skip(1) {
            let set = made(place)?.set;
            assert!(set.contains(state), "the run leaves its set");
        }
        Ok(run.into_iter().map(|state| state as u16).collect())
    }

    /// The set in register r: checks 3 and 7.
    fn filled(&self, r: u64) -> Result<&StateSet, Refusal> {
        let r = in_range(r, REGISTERS)?;
        self.registers[r].as_ref().ok_or(Refusal::Empty)
    }

    /// Makes any call and gives its answer in one form; sets and the calls of
    /// games take the accounts.
    pub fn call(&mut self, accounts: &mut [Account], call: &Call) -> Answer {
        let result = match call {
            Call::Relation { t, formula } => {
                let answer = self.relation(*t, formula);
                answer.map(|RelationAnswer { peak }| Answer::counted(0, peak, Some(0)))
            }
            Call::Set {
                place,
                r,
                rounds,
                formula,
            } => {
                let answer = self.set(accounts, *place, *r, *rounds, formula);
                answer.map(|set| Answer::counted(set.rounds, set.peak, set.node))
            }
            Call::Force { .. } | Call::React { .. } => self.call_game(accounts, call),
            Call::Logged {
                t,
                one,
                two,
                places,
            } => {
                let run = self.logged(*t, one, two, *places);
                run.map(|run| Answer::plain(logs::digits(self.n, &run)))
            }
            Call::Clear { r } => self.clear(*r).map(|()| Answer::plain(0)),
            Call::Valid { formula } => self.make_valid(formula).map(|()| Answer::plain(0)),
            Call::Collect => Ok(Answer::plain(self.collect())),
            Call::Node { r } => self.node(*r).map(|node| Answer::counted(0, 0, node)),
            Call::Member { r, state } => {
                let member = self.member(*r, *state);
                member.map(|member| Answer::plain(member.into()))
            }
            Call::Count { r } => self.count(*r).map(Answer::plain),
        };
        result.unwrap_or_else(|refusal| Answer::refused(refusal.number()))
    }

    /// Makes a call of a game.
    fn call_game(&mut self, accounts: &mut [Account], call: &Call) -> Result<Answer, Refusal> {
        match call {
            Call::Force {
                place,
                r,
                rounds,
                game,
            } => {
                let answer = self.force(accounts, *place, *r, *rounds, *game);
                answer.map(|set| Answer::counted(set.rounds, set.peak, set.node))
            }
            Call::React {
                place,
                rounds,
                game,
                state,
                press,
            } => {
                let answer = self.react(accounts, *place, *rounds, *game, (*state, *press));
                answer.map(Answer::plain)
            }
            _ => unreachable!("no call of a game"),
        }
    }
}

impl Answer {
    /// An answered call with what it counted.
    pub fn counted(rounds: u32, peak: usize, value: Option<u64>) -> Answer {
        Answer {
            number: 0,
            rounds,
            peak,
            value,
        }
    }

    /// An answered call that takes no step and makes no round.
    pub fn plain(value: u64) -> Answer {
        Answer::counted(0, 0, Some(value))
    }

    /// "number, zeros".
    pub fn refused(number: u8) -> Answer {
        Answer {
            number,
            ..Answer::plain(0)
        }
    }
}

/// "at least 256 + 12 × N words".
pub fn words_for(rows: u64) -> u64 {
    256 + 12 * rows
}

/// Check 3.
fn in_range(number: u64, bound: usize) -> Result<usize, Refusal> {
    if number < bound as u64 {
        Ok(number as usize)
    } else {
        Err(Refusal::OutOfRange)
    }
}

/// Check 3 of a game.
fn check_named(named: Named) -> Result<(), Refusal> {
    in_range(named.goal, REGISTERS)?;
    in_range(named.guest, RELATIONS)?;
    in_range(named.machine, RELATIONS)?;
    Ok(())
}

/// "An arrow is 0 (nothing), 1 (everything) or a used row."
fn settled_node(set: &StateSet) -> Option<u64> {
    if set.is_empty() {
        Some(0)
    } else if set.is_full() {
        Some(1)
    } else {
        None
    }
}
