//! Makes a call on the library, and compares answers, words, accounts and contents with the book.

use crate::kept;
use crate::sound::sound;
use crate::words::{Words, FIRST_REGISTER, FIRST_RELATION, VALID};
use kudzuclamp::{Game, Loaded, Refusal, Stored, Strategy, Table, Target};
use reference::accounts::Account;
use reference::book::{Answer, Book, Call, REGISTERS};
use reference::formula::{self, Kind};
use reference::game::Named;
use reference::logs::{digits, Entry};
use reference::states::state_count;

/// A difference between the library and the book, in words.
pub type Difference = String;

/// What a sound table should be: the book, and each filled register's node number as it was last
/// returned.
#[derive(Clone)]
pub struct Expected {
    pub book: Book,
    pub nodes: Vec<Option<u32>>,
}

/// A list of accounts as it is lent to the library.
pub fn lent_accounts(accounts: &[Account]) -> Vec<kudzuclamp::Account> {
    let lend = |account: &Account| kudzuclamp::Account {
        rows: account.rows,
        rounds: account.rounds,
        tally: account.tally,
    };
    accounts.iter().map(lend).collect()
}

/// Node, count and member of all registers and states.
pub fn questions(book: &Book) -> Vec<Call> {
    let mut calls = Vec::new();
    for r in 0..=REGISTERS as u64 {
        calls.extend([Call::Node { r }, Call::Count { r }]);
        let states = 0..=state_count(book.n()) as u64;
        calls.extend(states.map(|state| Call::Member { r, state }));
    }
    calls
}

/// The game, as it is named to the library.
pub fn game_of(named: Named) -> Game {
    Game::new(named.goal as u32, named.guest as u32, named.machine as u32)
}

/// Makes a call on the library; its answer in the book's form. Sets and the calls of games take the
/// accounts.
pub fn make(
    table: &mut Table<Vec<u32>>,
    accounts: &mut [kudzuclamp::Account],
    call: &Call,
) -> Answer {
    let plain = |value: u32| Answer::plain(value.into());
    let none = |()| Answer::plain(0);
    let result = match call {
        Call::Relation { t, formula } => {
            let answer = table.relation(*t as u32, formula);
            answer.map(loaded).map_err(Refusal::from)
        }
        Call::Set {
            place,
            r,
            rounds,
            formula,
        } => {
            let target = Target {
                register: *r as u32,
                account: *place as usize,
                rounds: *rounds,
            };
            let answer = table.set(accounts, target, formula);
            answer.map(stored).map_err(Refusal::from)
        }
        Call::Force { .. } | Call::React { .. } => make_game(table, accounts, call),
        Call::Logged {
            t,
            one,
            two,
            places,
        } => make_logged(table, *t as u32, [one, two], *places),
        Call::Clear { r } => table.clear(*r as u32).map(none),
        Call::Valid { formula } => table.valid(formula).map(none).map_err(Refusal::from),
        Call::Collect => table.collect().map(plain),
        Call::Node { r } => table.node(*r as u32).map(plain),
        Call::Member { r, state } => {
            let member = table.member(*r as u32, *state as u32);
            member.map(|member| plain(member.into()))
        }
        Call::Count { r } => table.count(*r as u32).map(plain),
    };
    // The wrapper gives no values with a refusal; tests/zeros.rs looks at them.
    result.unwrap_or_else(|refusal| Answer::refused(refusal.number() as u8))
}

/// Makes a call of a game on the library.
fn make_game(
    table: &mut Table<Vec<u32>>,
    accounts: &mut [kudzuclamp::Account],
    call: &Call,
) -> Result<Answer, Refusal> {
    match call {
        Call::Force {
            place,
            r,
            rounds,
            game,
        } => {
            let target = Target {
                register: *r as u32,
                account: *place as usize,
                rounds: *rounds,
            };
            table.force(accounts, target, game_of(*game)).map(stored)
        }
        Call::React {
            place,
            rounds,
            game,
            state,
            press,
        } => {
            let strategy = Strategy {
                game: game_of(*game),
                account: *place as usize,
                rounds: *rounds,
            };
            let answer = table.react(accounts, strategy, *state as u32, *press as u32);
            answer.map(|answer| Answer::plain(answer.into()))
        }
        _ => unreachable!("no call of a game"),
    }
}

/// Makes the call for two logs on the library. "a refusal keeps the list, and places past the run are
/// never written".
fn make_logged(
    table: &mut Table<Vec<u32>>,
    t: u32,
    logs: [&[Entry]; 2],
    places: usize,
) -> Result<Answer, Refusal> {
    let lent = |&Entry { mask, value }: &Entry| kudzuclamp::Entry { mask, value };
    let [one, two] = logs.map(|log| log.iter().map(lent).collect::<Vec<_>>());
    let guards = vec![0xA5A5; places];
    let mut list = guards.clone();
    let result = table.write_logged(&mut list, t, &one, &two);
    let written = result.map_or(0, |()| one.len());
    assert_eq!(
        list[written..],
        guards[written..],
        "past the run, or refused"
    );
    result?;
    Ok(Answer::plain(digits(table.bits()?, &list[..written])))
}

fn loaded(loaded: Loaded) -> Answer {
    Answer::counted(0, loaded.peak as usize, Some(0))
}

fn stored(stored: Stored) -> Answer {
    let node = Some(stored.node.into());
    Answer::counted(stored.rounds, stored.peak as usize, node)
}

pub fn number_of<T, R: Copy + Into<Refusal>>(result: &Result<T, R>) -> u8 {
    match result {
        Ok(_) => 0,
        Err(refusal) => (*refusal).into().number() as u8,
    }
}

pub fn check_number(book: &Book, kind: Kind, bytes: &[u8]) -> u8 {
    let register = |r: usize| book.registers()[r].is_some();
    let relation = |t: usize| book.relations()[t].is_some();
    match formula::check(book.n(), kind, bytes, register, relation) {
        Ok(_) => 0,
        Err(refusal) => refusal.number(),
    }
}

pub fn same<T: PartialEq + std::fmt::Debug>(
    what: &str,
    got: T,
    wanted: T,
) -> Result<(), Difference> {
    match got == wanted {
        true => Ok(()),
        false => Err(format!("{what}: the library {got:?}, the book {wanted:?}")),
    }
}

/// Number, rounds, peak and value. A node number that the book leaves free is above 1, and node answers
/// the one last returned.
pub fn compare_answer(
    expected: &Expected,
    call: &Call,
    got: Answer,
    wanted: Answer,
) -> Result<(), Difference> {
    let value = match (wanted.value, call) {
        (Some(value), _) => Some(value),
        (None, Call::Node { r }) => expected.nodes[*r as usize].map(u64::from),
        (None, _) => got.value.filter(|&node| node > 1),
    };
    same("answer", got, Answer { value, ..wanted })
}

/// Keeps the number that an answered set returned.
pub fn note_node(expected: &mut Expected, call: &Call, got: Answer) {
    match call {
        Call::Set { r, .. } | Call::Force { r, .. } if got.number == 0 => {
            expected.nodes[*r as usize] = got.value.map(|node| node as u32);
        }
        Call::Clear { r } if got.number == 0 => expected.nodes[*r as usize] = None,
        _ => {}
    }
}

/// Questions and refusals but 8 to 11 and 15 keep all words; the rest keeps what is needed. A sound table
/// stays sound, and an answered collect leaves no unneeded row used.
pub fn compare_words(
    before: &[u32],
    after: &[u32],
    call: &Call,
    number: u8,
) -> Result<(), Difference> {
    let answered = number == 0;
    let register = |r: u64| FIRST_REGISTER + r as usize;
    let target = match call {
        _ if !matches!(number, 0 | 8..=11 | 15) => return kept::all(before, after),
        Call::Set { r, .. } | Call::Force { r, .. } => answered.then(|| register(*r)),
        Call::Relation { t, .. } => answered.then(|| FIRST_RELATION + *t as usize),
        Call::Clear { r } => Some(register(*r)),
        Call::Valid { .. } => answered.then_some(VALID),
        Call::Collect | Call::React { .. } | Call::Logged { .. } => None,
        _ => return kept::all(before, after),
    };
    kept::needed(before, after, target)?;
    sound(after)?;
    match call {
        Call::Collect => kept::swept(after),
        _ => Ok(()),
    }
}

/// "The node numbers of two filled registers … are equal exactly where the book's two sets are."
pub fn compare_pairs(expected: &Expected) -> Result<(), Difference> {
    let registers = expected.book.registers();
    for (r, set) in registers.iter().enumerate() {
        for (q, other) in registers.iter().enumerate().take(r) {
            if set.is_some() && other.is_some() {
                let numbers = expected.nodes[r] == expected.nodes[q];
                same("nodes equal", numbers, set == other).map_err(|w| format!("{q} {r}: {w}"))?;
            }
        }
    }
    Ok(())
}

/// No call answers what V or a relation holds, so it is read from the words.
pub fn compare_relations(words: Words, book: &Book) -> Result<(), Difference> {
    same("V", words.valid().as_ref(), Some(book.valid()))?;
    for (t, relation) in book.relations().iter().enumerate() {
        same("relation", words.relation(t).as_ref(), relation.as_ref())
            .map_err(|what| format!("{t}: {what}"))?;
    }
    Ok(())
}
