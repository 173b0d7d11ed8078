//! Slip 7: limits, tallies, refusal 14 and its place among the checks.

mod common;
use common::*;
use reference::accounts::{Account, MAX_ACCOUNTS};
use reference::book::{words_for, Answer, Book, Call};
use reference::formula::frame;
use reference::random::Random;
use reference::refusal::Refusal;

/// Set of register 0 with R = 100 under the account at a place.
fn set_under(
    book: &mut Book,
    accounts: &mut [Account],
    place: u64,
    body: &[u8],
) -> Result<u32, Refusal> {
    let answer = book.set(accounts, place, 0, 100, &frame(body));
    answer.map(|answer| answer.rounds)
}

fn tallies(accounts: &[Account]) -> Vec<u32> {
    accounts.iter().map(|account| account.tally).collect()
}

#[test]
fn the_smaller_row_figure_holds() {
    // Three rows are needed, as on the bench.
    let body = [0x03, 0x10, 0x11];
    for (n_rows, limit, fits) in [
        (3, 3, true),
        (3, u32::MAX, true),
        (100, 3, true),
        (100, 2, false),
        (2, 3, false),
        (2, 2, false),
        (100, 0, false),
    ] {
        let mut accounts = [Account::new(limit, 0)];
        let got = set_under(&mut book(2, n_rows), &mut accounts, 0, &body);
        assert_eq!(got.is_ok(), fits, "N {n_rows}, limit {limit}");
        assert!(fits || got == Err(Refusal::Full));
    }
}

#[test]
fn the_smaller_round_figure_holds() {
    for (rounds, limit, fits) in [(3, 3, true), (9, 3, true), (9, 2, false), (2, 9, false)] {
        let mut accounts = [Account::new(u32::MAX, limit)];
        let got = toggle_book().set(&mut accounts, 0, 0, rounds, &frame(&REACH));
        assert_eq!(got.is_ok(), fits, "R {rounds}, limit {limit}");
        assert!(fits || got == Err(Refusal::RoundsUsedUp));
        assert_eq!(accounts[0].tally, if fits { 3 } else { 0 });
    }
}

/// "Rows that others keep alive still count."
#[test]
fn rows_of_others_count() {
    let mut accounts = [Account::LARGEST, Account::new(0, 9), Account::new(1, 9)];
    let mut book = book(1, 100);
    set_under(&mut book, &mut accounts, 0, &[0x10]).unwrap();
    // A step that makes no row needs what is live.
    let not_false = [0x02, 0x00];
    let full = Err(Refusal::Full);
    assert_eq!(set_under(&mut book, &mut accounts, 1, &not_false), full);
    assert!(set_under(&mut book, &mut accounts, 2, &[0x02, 0x10]).is_ok());
    // No step, no need.
    for body in [0x40, 0x01] {
        assert!(set_under(&mut book, &mut accounts, 1, &[body]).is_ok());
    }
}

#[test]
fn relation_calls_have_no_account() {
    let mut book = book(1, 100);
    let call = Call::Relation {
        t: 0,
        formula: frame(&TOGGLE),
    };
    assert_eq!(book.call(&mut [], &call).number, 0);
}

#[test]
fn fourteen() {
    for count in 0..12 {
        let mut accounts = vec![Account::LARGEST; count];
        let fits = (1..=MAX_ACCOUNTS).contains(&count);
        let fresh = Book::fresh(1, 1, words_for(1), &mut accounts);
        assert_eq!(fresh.is_ok(), fits, "{count}");
        assert!(fits || fresh == Err(Refusal::NoAccount));
        for place in (0..12).chain([1 << 32, u64::MAX]) {
            let got = set_under(&mut book(1, 1), &mut accounts, place, &[0x01]);
            let named = fits && place < count as u64;
            assert_eq!(got.is_ok(), named, "{count} {place}");
            assert!(named || got == Err(Refusal::NoAccount));
        }
    }
}

#[test]
fn order_of_the_checks() {
    // In fresh after 1.
    let fresh = |n, accounts: &mut [Account]| Book::fresh(n, 1, words_for(1), accounts);
    assert_eq!(fresh(0, &mut []), Err(Refusal::BadSizes));
    assert_eq!(fresh(1, &mut []), Err(Refusal::NoAccount));
    // Directly after 3.
    let mut book = book(1, 100);
    let mut set = |r, place, bytes: &[u8]| {
        let got = book.set(&mut [Account::new(0, 0)], place, r, 0, bytes);
        got.unwrap_err()
    };
    assert_eq!(set(32, 1, &[]), Refusal::OutOfRange);
    assert_eq!(set(0, 1, &[]), Refusal::NoAccount);
    assert_eq!(set(0, 0, &[]), Refusal::NotAFormula);
    assert_eq!(set(0, 1, &frame(&[0x40])), Refusal::NoAccount);
    assert_eq!(set(0, 0, &frame(&[0x40])), Refusal::Empty);
}

#[test]
fn a_tally_reaches_its_greatest_value_and_stays() {
    for below in 0..=6 {
        let mut accounts = [Account::LARGEST; 2];
        let mut book = toggle_book();
        accounts[1].tally = u32::MAX - below;
        for sets in 1..=3 {
            assert_eq!(set_under(&mut book, &mut accounts, 1, &REACH), Ok(3));
            let tally = u32::MAX - below.saturating_sub(3 * sets);
            assert_eq!(tallies(&accounts), [0, tally]);
        }
    }
}

#[test]
fn fresh_empties_tallies_and_keeps_limits() {
    let mut accounts = [Account::new(5, 6), Account::new(0, u32::MAX)];
    accounts.iter_mut().for_each(|account| account.tally = 9);
    let before = accounts;
    assert!(Book::fresh(0, 1, words_for(1), &mut accounts).is_err());
    assert_eq!(accounts, before);
    assert!(Book::fresh(1, 1, words_for(1), &mut accounts).is_ok());
    assert_eq!(accounts, [Account::new(5, 6), Account::new(0, u32::MAX)]);
    let mut nine = [before[0]; 9];
    assert!(Book::fresh(1, 1, words_for(1), &mut nine).is_err());
    assert_eq!(nine, [before[0]; 9]);
}

/// "no refusal changes an account", and other calls do not get the list.
#[test]
fn only_an_answered_set_changes_an_account() {
    let mut accounts = [Account::new(2, 2), Account::LARGEST];
    let mut book = toggle_book();
    let set = |place, r, rounds, body: &[u8]| Call::Set {
        place,
        r,
        rounds,
        formula: frame(body),
    };
    let before = accounts;
    for (number, call) in [
        (3, set(0, 32, 9, &REACH)),
        (14, set(2, 0, 9, &REACH)),
        (4, set(1, 0, 9, &[0x20])),
        (5, set(1, 0, 9, &[0x30])),
        (6, set(1, 0, 9, &[0x70, 0x02, 0x30])),
        (7, set(1, 0, 9, &[0x41])),
        (8, set(0, 0, 9, &REACH)),
        (9, set(0, 0, 9, &[0x80, 0x71, 0x04, 0x30, 0x31])),
        (12, set(1, 0, 9, &[0x80, 0x71, 0x31])),
        (9, set(1, 0, 2, &REACH)),
        (0, set(1, 0, 0, &[0x01])),
        (0, Call::Collect),
        (0, Call::Clear { r: 0 }),
    ] {
        assert_eq!(book.call(&mut accounts, &call).number, number, "{call:?}");
        assert_eq!(accounts, before, "{call:?}");
    }
    book.call(&mut accounts, &set(1, 0, 9, &REACH));
    assert_eq!(tallies(&accounts), [0, 3]);
}

/// "If each call gets the list as the one before left it, a tally counts the
/// rounds of its account's answered sets since fresh."
#[test]
fn tallies_count_rounds_since_fresh() {
    let mut random = Random::new(4);
    for _ in 0..50 {
        let count = 1 + random.below(8);
        let mut accounts: Vec<Account> = (0..count)
            .map(|_| Account::new(random.pick(&[3, 4, u32::MAX]), random.below(5) as u32))
            .collect();
        let limits = accounts.clone();
        let mut book = toggle_book();
        let mut sums = vec![0; count as usize];
        for _ in 0..40 {
            let place = random.below(count + 1);
            let body: &[u8] = random.pick(&[&REACH[..], &[0x80, 0x30], &[0x10]]);
            let call = Call::Set {
                place,
                r: random.below(2),
                rounds: random.below(5) as u32,
                formula: frame(body),
            };
            let Answer { number, rounds, .. } = book.call(&mut accounts, &call);
            if number == 0 {
                sums[place as usize] += rounds;
            }
        }
        assert_eq!(tallies(&accounts), sums);
        accounts.iter_mut().for_each(|account| account.tally = 0);
        assert_eq!(accounts, limits);
    }
}
