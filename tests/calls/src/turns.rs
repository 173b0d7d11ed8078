//! The calls of games as the C functions are called, and what their tests write games with.

use crate::compare::lent_accounts;
use kudzuclamp::Account;
use reference::accounts::Account as BookAccount;
use reference::game::Named;
use reference::random::Random;

extern "C" {
    fn kudzuclamp_force(
        words: *mut u32,
        words_len: usize,
        accounts: *mut Account,
        accounts_len: usize,
        place: u32,
        r: u32,
        most: u32,
        goal: u32,
        guest: u32,
        machine: u32,
        node: *mut u32,
        rounds: *mut u32,
        peak: *mut u32,
    ) -> u32;
    fn kudzuclamp_react(
        words: *mut u32,
        words_len: usize,
        accounts: *const Account,
        accounts_len: usize,
        place: u32,
        most: u32,
        goal: u32,
        guest: u32,
        machine: u32,
        state: u32,
        press: u32,
        answer: *mut u32,
    ) -> u32;
}

/// What stands in an answer before the call.
const BEFORE: u32 = 0xAAAA_AAAA;

/// The register and the relations of a room's game; another relation that is filled, and a register that is not.
pub const NAMED: Named = Named {
    goal: 9,
    guest: 6,
    machine: 2,
};
pub const OTHER: u64 = 5;
pub const TARGET: u64 = 4;

/// The account that a call names, and its R.
#[derive(Clone, Copy, Debug)]
pub struct Under<'a> {
    pub accounts: &'a [BookAccount],
    pub place: u64,
    pub rounds: u32,
}

pub const PLENTY: Under = Under {
    accounts: &[BookAccount::LARGEST],
    place: 0,
    rounds: u32::MAX,
};

/// Number, node, rounds and peak that force gave; the accounts after it.
pub fn force(words: &mut [u32], under: Under, r: u64, named: Named) -> ([u32; 4], Vec<Account>) {
    let mut accounts = lent_accounts(under.accounts);
    let (mut node, mut rounds, mut peak) = (BEFORE, BEFORE, BEFORE);
    // SAFETY: pointers and lengths are those of slices and locals; they overlap nothing.
    let number = unsafe {
        kudzuclamp_force(
            words.as_mut_ptr(),
            words.len(),
            accounts.as_mut_ptr(),
            accounts.len(),
            under.place as u32,
            r as u32,
            under.rounds,
            named.goal as u32,
            named.guest as u32,
            named.machine as u32,
            &mut node,
            &mut rounds,
            &mut peak,
        )
    };
    ([number, node, rounds, peak], accounts)
}

/// Number and answer that react gave; the accounts after it.
pub fn react(
    words: &mut [u32],
    under: Under,
    named: Named,
    turn: (u64, u64),
) -> ([u32; 2], Vec<Account>) {
    let accounts = lent_accounts(under.accounts);
    let mut answer = BEFORE;
    // SAFETY: pointers and lengths are those of slices and a local; the mutable ones overlap nothing.
    let number = unsafe {
        kudzuclamp_react(
            words.as_mut_ptr(),
            words.len(),
            accounts.as_ptr(),
            accounts.len(),
            under.place as u32,
            under.rounds,
            named.goal as u32,
            named.guest as u32,
            named.machine as u32,
            turn.0 as u32,
            turn.1 as u32,
            &mut answer,
        )
    };
    ([number, answer], accounts)
}

/// A state and a press, which may be none.
pub fn draw_turn(random: &mut Random, n: u32) -> (u64, u64) {
    (random.below(1 << n), random.below(1 << n))
}

/// Pairs of states, now and next.
pub type Pairs = Vec<(usize, usize)>;

/// The state, as an AND of its bits from `base` on.
pub fn state(n: u32, base: u8, state: usize) -> Vec<u8> {
    let literal = |p: u8| match state >> p & 1 {
        1 => vec![base + p],
        _ => vec![0x02, base + p],
    };
    let and = |body: Vec<u8>, p: u8| [vec![0x03], literal(p), body].concat();
    (1..n as u8).fold(literal(0), and)
}

/// An OR, as a tree of small depth.
pub fn either(mut parts: Vec<Vec<u8>>) -> Vec<u8> {
    while parts.len() > 1 {
        let two = |two: &[Vec<u8>]| match two {
            [one, other] => [&[0x04], &one[..], &other[..]].concat(),
            _ => two.concat(),
        };
        parts = parts.chunks(2).map(two).collect();
    }
    parts.pop().unwrap_or(vec![0x00])
}

/// These pairs.
pub fn pairs(n: u32, list: &[(usize, usize)]) -> Vec<u8> {
    let pair = |&(now, next): &(usize, usize)| {
        [vec![0x03], state(n, 0x10, now), state(n, 0x20, next)].concat()
    };
    either(list.iter().map(pair).collect())
}

/// These states.
pub fn states(n: u32, list: &[usize]) -> Vec<u8> {
    either(list.iter().map(|&s| state(n, 0x10, s)).collect())
}

/// Bit p turns over.
pub fn turns(p: u8) -> Vec<u8> {
    let (now, next) = (0x10 + p, 0x20 + p);
    vec![0x04, 0x03, next, 0x02, now, 0x03, 0x02, next, now]
}

/// Bit p keeps its value.
pub fn keeps(p: u8) -> Vec<u8> {
    [vec![0x02], turns(p)].concat()
}

/// An AND.
pub fn both(parts: Vec<Vec<u8>>) -> Vec<u8> {
    let and = |body: Vec<u8>, part: Vec<u8>| [vec![0x03], part, body].concat();
    parts.into_iter().reduce(and).unwrap_or(vec![0x01])
}
