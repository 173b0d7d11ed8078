//! The one place that calls the static library: a safe function for each entry point, over slices.
//!
//! The entry points ask of their caller only what a Rust reference has: a pointer that is aligned
//! and not null, to as many elements as the length says, and mutable memory that overlaps nothing
//! else. Their contracts have no other precondition: any words, numbers and bytes are answered.
use crate::{Account, Entry, Fare, Game, Loaded, Refusal, Stored, Strategy, Target};

/// The declarations of `include/kudzuclamp.h`: a slice is a pointer and then a length.
mod library {
    use crate::Account;

    extern "C" {
        pub fn kudzuclamp_fresh(
            words: *mut u32,
            words_len: usize,
            accounts: *mut Account,
            accounts_len: usize,
            n: u32,
            rows: u32,
        ) -> u32;
        pub fn kudzuclamp_relation(
            words: *mut u32,
            words_len: usize,
            t: u32,
            bytes: *const u8,
            bytes_len: usize,
            peak: *mut u32,
        ) -> u32;
        pub fn kudzuclamp_set(
            words: *mut u32,
            words_len: usize,
            accounts: *mut Account,
            accounts_len: usize,
            place: u32,
            r: u32,
            most: u32,
            bytes: *const u8,
            bytes_len: usize,
            node: *mut u32,
            rounds: *mut u32,
            peak: *mut u32,
        ) -> u32;
        pub fn kudzuclamp_valid(
            words: *mut u32,
            words_len: usize,
            bytes: *const u8,
            bytes_len: usize,
        ) -> u32;
        pub fn kudzuclamp_clear(words: *mut u32, words_len: usize, r: u32) -> u32;
        pub fn kudzuclamp_collect(words: *mut u32, words_len: usize, rows: *mut u32) -> u32;
        pub fn kudzuclamp_node(words: *const u32, words_len: usize, r: u32, node: *mut u32) -> u32;
        pub fn kudzuclamp_member(
            words: *const u32,
            words_len: usize,
            r: u32,
            s: u32,
            value: *mut u32,
        ) -> u32;
        pub fn kudzuclamp_members(
            words: *const u32,
            words_len: usize,
            r: u32,
            states: *const u16,
            states_len: usize,
            order: *mut u16,
            order_len: usize,
            answers: *mut u8,
            answers_len: usize,
            reads: *mut u32,
        ) -> u32;
        pub fn kudzuclamp_count(
            words: *const u32,
            words_len: usize,
            r: u32,
            value: *mut u32,
        ) -> u32;
        pub fn kudzuclamp_shortest(
            words: *mut u32,
            words_len: usize,
            list: *mut u16,
            list_len: usize,
            a: u32,
            b: u32,
            t: u32,
            states: *mut u32,
        ) -> u32;
        pub fn kudzuclamp_cheapest(
            words: *const u32,
            words_len: usize,
            prices: *const u8,
            prices_len: usize,
            work: *mut u64,
            work_len: usize,
            states: *mut u16,
            states_len: usize,
            relations: *mut u8,
            relations_len: usize,
            a: u32,
            b: u32,
            total: *mut u32,
            charge: *mut u32,
            count: *mut u32,
        ) -> u32;
        pub fn kudzuclamp_force(
            words: *mut u32,
            words_len: usize,
            accounts: *mut Account,
            accounts_len: usize,
            place: u32,
            r: u32,
            most: u32,
            goal: u32,
            guest: u32,
            machine: u32,
            node: *mut u32,
            rounds: *mut u32,
            peak: *mut u32,
        ) -> u32;
        pub fn kudzuclamp_react(
            words: *mut u32,
            words_len: usize,
            accounts: *const Account,
            accounts_len: usize,
            place: u32,
            most: u32,
            goal: u32,
            guest: u32,
            machine: u32,
            state: u32,
            press: u32,
            answer: *mut u32,
        ) -> u32;
        pub fn kudzuclamp_logged(
            words: *mut u32,
            words_len: usize,
            list: *mut u16,
            list_len: usize,
            t: u32,
            one: *const u16,
            one_len: usize,
            two: *const u16,
            two_len: usize,
        ) -> u32;
        pub fn kudzuclamp_check(
            words: *const u32,
            words_len: usize,
            relation: u32,
            bytes: *const u8,
            bytes_len: usize,
        ) -> u32;
        pub fn kudzuclamp_play(
            words: *mut u32,
            words_len: usize,
            bytes: *const u8,
            bytes_len: usize,
            list: *mut u32,
            list_len: usize,
            count: *mut usize,
        ) -> u32;
    }
}

/// The answer, or the refusal of a number.
fn answered<T>(number: u32, answer: T) -> Result<T, Refusal> {
    if number == 0 {
        return Ok(answer);
    }
    match Refusal::from_number(number) {
        Some(refusal) => Err(refusal),
        None => unreachable!("the library returned {number}, which is no refusal's number"),
    }
}

/// A place in a list of accounts. No list that is taken has one that does not fit.
fn place(account: usize) -> u32 {
    u32::try_from(account).unwrap_or(u32::MAX)
}

pub fn fresh(
    words: &mut [u32],
    accounts: &mut [Account],
    n: u32,
    rows: u32,
) -> Result<(), Refusal> {
    // SAFETY: pointers and lengths are those of mutable slices, which overlap nothing.
    let number = unsafe {
        library::kudzuclamp_fresh(
            words.as_mut_ptr(),
            words.len(),
            accounts.as_mut_ptr(),
            accounts.len(),
            n,
            rows,
        )
    };
    answered(number, ())
}

pub fn relation(words: &mut [u32], t: u32, bytes: &[u8]) -> Result<Loaded, Refusal> {
    let mut peak = 0;
    // SAFETY: pointers and lengths are those of slices; the mutable one overlaps nothing. The last
    // pointer is a local's.
    let number = unsafe {
        library::kudzuclamp_relation(
            words.as_mut_ptr(),
            words.len(),
            t,
            bytes.as_ptr(),
            bytes.len(),
            &mut peak,
        )
    };
    answered(number, Loaded { peak })
}

pub fn set(
    words: &mut [u32],
    accounts: &mut [Account],
    target: Target,
    bytes: &[u8],
) -> Result<Stored, Refusal> {
    let (mut node, mut rounds, mut peak) = (0, 0, 0);
    // SAFETY: pointers and lengths are those of slices; the mutable ones overlap nothing. The last
    // three pointers are three locals'.
    let number = unsafe {
        library::kudzuclamp_set(
            words.as_mut_ptr(),
            words.len(),
            accounts.as_mut_ptr(),
            accounts.len(),
            place(target.account),
            target.register,
            target.rounds,
            bytes.as_ptr(),
            bytes.len(),
            &mut node,
            &mut rounds,
            &mut peak,
        )
    };
    let stored = Stored { node, rounds, peak };
    answered(number, stored)
}

pub fn valid(words: &mut [u32], bytes: &[u8]) -> Result<(), Refusal> {
    // SAFETY: pointers and lengths are those of slices, the mutable one apart from the other.
    let number = unsafe {
        library::kudzuclamp_valid(words.as_mut_ptr(), words.len(), bytes.as_ptr(), bytes.len())
    };
    answered(number, ())
}

pub fn clear(words: &mut [u32], r: u32) -> Result<(), Refusal> {
    // SAFETY: pointer and length are those of a mutable slice.
    let number = unsafe { library::kudzuclamp_clear(words.as_mut_ptr(), words.len(), r) };
    answered(number, ())
}

pub fn collect(words: &mut [u32]) -> Result<u32, Refusal> {
    let mut rows = 0;
    // SAFETY: pointer and length are those of a mutable slice; the other pointer is a local's.
    let number = unsafe { library::kudzuclamp_collect(words.as_mut_ptr(), words.len(), &mut rows) };
    answered(number, rows)
}

pub fn node(words: &[u32], r: u32) -> Result<u32, Refusal> {
    let mut node = 0;
    // SAFETY: pointer and length are those of a slice; the other pointer is a local's.
    let number = unsafe { library::kudzuclamp_node(words.as_ptr(), words.len(), r, &mut node) };
    answered(number, node)
}

pub fn member(words: &[u32], r: u32, s: u32) -> Result<u32, Refusal> {
    let mut value = 0;
    // SAFETY: as in `node`.
    let number =
        unsafe { library::kudzuclamp_member(words.as_ptr(), words.len(), r, s, &mut value) };
    answered(number, value)
}

pub fn members(
    words: &[u32],
    r: u32,
    states: &[u16],
    order: &mut [u16],
    answers: &mut [u8],
) -> Result<u32, Refusal> {
    let mut reads = 0;
    // SAFETY: pointers and lengths are those of slices; the mutable ones overlap nothing. The last
    // pointer is a local's.
    let number = unsafe {
        library::kudzuclamp_members(
            words.as_ptr(),
            words.len(),
            r,
            states.as_ptr(),
            states.len(),
            order.as_mut_ptr(),
            order.len(),
            answers.as_mut_ptr(),
            answers.len(),
            &mut reads,
        )
    };
    answered(number, reads)
}

pub fn count(words: &[u32], r: u32) -> Result<u32, Refusal> {
    let mut value = 0;
    // SAFETY: as in `node`.
    let number = unsafe { library::kudzuclamp_count(words.as_ptr(), words.len(), r, &mut value) };
    answered(number, value)
}

/// How many states of a shortest run were written to the list.
pub fn shortest(
    words: &mut [u32],
    list: &mut [u16],
    a: u32,
    b: u32,
    t: u32,
) -> Result<u32, Refusal> {
    let mut states = 0;
    // SAFETY: pointers and lengths are those of slices and a local; they overlap nothing.
    let number = unsafe {
        library::kudzuclamp_shortest(
            words.as_mut_ptr(),
            words.len(),
            list.as_mut_ptr(),
            list.len(),
            a,
            b,
            t,
            &mut states,
        )
    };
    answered(number, states)
}

/// What a cheapest run costs, whose states and relations were written to the lists.
pub fn cheapest(
    words: &[u32],
    prices: &[u8],
    work: &mut [u64],
    states: &mut [u16],
    relations: &mut [u8],
    a: u32,
    b: u32,
) -> Result<Fare, Refusal> {
    let (mut total, mut charge, mut count) = (0, 0, 0);
    // SAFETY: pointers and lengths are those of slices and locals; they overlap nothing.
    let number = unsafe {
        library::kudzuclamp_cheapest(
            words.as_ptr(),
            words.len(),
            prices.as_ptr(),
            prices.len(),
            work.as_mut_ptr(),
            work.len(),
            states.as_mut_ptr(),
            states.len(),
            relations.as_mut_ptr(),
            relations.len(),
            a,
            b,
            &mut total,
            &mut charge,
            &mut count,
        )
    };
    let fare = Fare {
        total,
        charge,
        count: count as usize,
    };
    answered(number, fare)
}

pub fn force(
    words: &mut [u32],
    accounts: &mut [Account],
    target: Target,
    game: Game,
) -> Result<Stored, Refusal> {
    let (mut node, mut rounds, mut peak) = (0, 0, 0);
    // SAFETY: pointers and lengths are those of slices and locals; they overlap nothing.
    let number = unsafe {
        library::kudzuclamp_force(
            words.as_mut_ptr(),
            words.len(),
            accounts.as_mut_ptr(),
            accounts.len(),
            place(target.account),
            target.register,
            target.rounds,
            game.goal,
            game.guest,
            game.machine,
            &mut node,
            &mut rounds,
            &mut peak,
        )
    };
    let stored = Stored { node, rounds, peak };
    answered(number, stored)
}

/// The state that the machine answers a press with.
pub fn react(
    words: &mut [u32],
    accounts: &[Account],
    strategy: Strategy,
    state: u32,
    press: u32,
) -> Result<u32, Refusal> {
    let Strategy {
        game,
        account,
        rounds,
    } = strategy;
    let mut answer = 0;
    // SAFETY: pointers and lengths are those of slices and a local; the mutable ones overlap nothing.
    let number = unsafe {
        library::kudzuclamp_react(
            words.as_mut_ptr(),
            words.len(),
            accounts.as_ptr(),
            accounts.len(),
            place(account),
            rounds,
            game.goal,
            game.guest,
            game.machine,
            state,
            press,
            &mut answer,
        )
    };
    answered(number, answer)
}

/// Whether the states of a run that fits two logs were written to the list.
pub fn logged(
    words: &mut [u32],
    list: &mut [u16],
    t: u32,
    one: &[Entry],
    two: &[Entry],
) -> Result<(), Refusal> {
    // SAFETY: pointers and lengths are those of slices, which overlap nothing that is written; an
    // entry is two 16-bit numbers, the mask and then the value, with nothing between or behind.
    let number = unsafe {
        library::kudzuclamp_logged(
            words.as_mut_ptr(),
            words.len(),
            list.as_mut_ptr(),
            list.len(),
            t,
            one.as_ptr().cast::<u16>(),
            2 * one.len(),
            two.as_ptr().cast::<u16>(),
            2 * two.len(),
        )
    };
    answered(number, ())
}

/// The checks of formula bytes for a relation call, or else for a set call.
pub fn check(words: &[u32], relation: bool, bytes: &[u8]) -> Result<(), Refusal> {
    // SAFETY: pointers and lengths are those of slices.
    let number = unsafe {
        library::kudzuclamp_check(
            words.as_ptr(),
            words.len(),
            relation.into(),
            bytes.as_ptr(),
            bytes.len(),
        )
    };
    answered(number, ())
}

/// The number of `kudzuclamp_play` itself, and how many records it obeyed.
pub fn play(words: &mut [u32], records: &[u8], list: &mut [u32]) -> (u32, usize) {
    let mut count = 0;
    // SAFETY: pointers and lengths are those of slices and a local; the mutable ones overlap nothing.
    let number = unsafe {
        library::kudzuclamp_play(
            words.as_mut_ptr(),
            words.len(),
            records.as_ptr(),
            records.len(),
            list.as_mut_ptr(),
            list.len(),
            &mut count,
        )
    };
    (number, count)
}

#[cfg(test)]
mod tests {
    #[test]
    fn play_keeps_all_where_the_list_is_short() {
        let fresh_twice = [0, 5, 1, 1, 1, 0, 100, 0, 5, 1, 1, 1, 0, 100];
        let mut words = vec![3; 1_500];
        let mut list = [9; 9];
        assert_eq!(super::play(&mut words, &fresh_twice, &mut list), (100, 0));
        assert_eq!((words, list), (vec![3; 1_500], [9; 9]));
    }

    #[test]
    fn play_leaves_the_rest_of_the_list() {
        let mut words = vec![3; 1_500];
        let mut list = [9; 7];
        assert_eq!(super::play(&mut words, &[0, 2, 1, 6], &mut list), (0, 1));
        assert_eq!(list, [2, 0, 0, 0, 0, 9, 9]);
    }
}
