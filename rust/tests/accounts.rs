//! Accounts through the library: limits, tallies, and what a refusal leaves.
use kudzuclamp::{words_for, Account, Formula, Refusal, Stored, Table, Target, MAX_ACCOUNTS};

/// n = 1 with relation 0 turning the bit over.
fn turning(accounts: &mut [Account]) -> Table<Vec<u32>> {
    let mut table = Table::new(accounts, 1, 100).unwrap();
    let (now, next) = (Formula::current(0), Formula::next(0));
    let turn = (next.clone() & !now.clone()) | (!next & now);
    table.relation(0, turn).unwrap();
    table
}

/// Takes three rounds and needs four rows.
fn reach() -> Formula {
    let step = Formula::diamond(0, Formula::var(0));
    Formula::mu(0, Formula::current(0) | step)
}

#[test]
fn rounds_go_to_the_account_that_is_named() {
    let mut accounts = [Account::unlimited(); MAX_ACCOUNTS];
    let mut table = turning(&mut accounts);
    for place in 0..MAX_ACCOUNTS {
        for _ in 0..=place {
            let stored = table.set(
                &mut accounts,
                Target::register(0).account(place).rounds(3),
                reach(),
            );
            let reached = Stored {
                node: 1,
                rounds: 3,
                peak: 4,
            };
            assert_eq!(stored, Ok(reached));
        }
    }
    let tallies = accounts.map(|account| account.tally);
    assert_eq!(tallies, [3, 6, 9, 12, 15, 18, 21, 24]);
    table.restart(&mut accounts, 1, 100).unwrap();
    assert_eq!(accounts, [Account::unlimited(); MAX_ACCOUNTS]);
}

#[test]
fn the_smaller_limits_hold() {
    let mut accounts = [
        Account::limited(4, 3),
        Account::limited(3, 3),
        Account::limited(4, 2),
        Account::limited(0, 0),
    ];
    let mut table = turning(&mut accounts);
    let before = accounts;
    assert_eq!(
        table
            .set(
                &mut accounts,
                Target::register(0).account(1).rounds(9),
                reach()
            )
            .unwrap_err(),
        Refusal::Full
    );
    assert_eq!(
        table
            .set(
                &mut accounts,
                Target::register(0).account(2).rounds(9),
                reach()
            )
            .unwrap_err(),
        Refusal::Spent
    );
    assert_eq!(
        table
            .set(&mut accounts, Target::register(0).rounds(2), reach())
            .unwrap_err(),
        Refusal::Spent
    );
    assert_eq!(
        table
            .set(
                &mut accounts,
                Target::register(0).account(3).rounds(9),
                Formula::current(0)
            )
            .unwrap_err(),
        Refusal::Full
    );
    assert_eq!(accounts, before);
    assert!(table
        .set(
            &mut accounts,
            Target::register(0).account(3),
            Formula::truth()
        )
        .is_ok());
    assert!(table
        .set(&mut accounts, Target::register(0).rounds(9), reach())
        .is_ok());
    assert_eq!(accounts.map(|account| account.tally), [3, 0, 0, 0]);
}

#[test]
fn lists_of_1_to_8_accounts() {
    for count in 0..12 {
        let mut accounts = vec![Account::limited(7, 7); count];
        accounts.iter_mut().for_each(|account| account.tally = 5);
        let before = accounts.clone();
        let fits = (1..=MAX_ACCOUNTS).contains(&count);
        let mut table = turning(&mut [Account::unlimited()]);
        for place in 0..count + 2 {
            let taken = fits && place < count;
            let stored = table.set(
                &mut accounts,
                Target::register(0).account(place).rounds(9),
                Formula::truth(),
            );
            assert_eq!(stored.is_ok(), taken, "{count} accounts, place {place}");
            assert!(taken || stored == Err(Refusal::Unlisted.into()));
            assert_eq!(accounts, before);
        }
        let far = table.set(
            &mut accounts,
            Target::register(0).account(usize::MAX).rounds(9),
            Formula::truth(),
        );
        assert_eq!(far, Err(Refusal::Unlisted.into()));
        let fresh = table.restart(&mut accounts, 1, 100);
        assert_eq!(fresh.is_ok(), fits);
        let tally = if fits { 0 } else { 5 };
        assert!(accounts.iter().all(|account| account.tally == tally));
    }
}

#[test]
fn order_of_the_checks() {
    let mut accounts = [Account::unlimited()];
    let mut words = vec![0; words_for(10)];
    let small = Table::fresh(&mut words[1..], &mut [], 1, 10).map(|_| ());
    assert_eq!(small, Err(Refusal::Sizes));
    let unlisted = Table::fresh(&mut words[..], &mut [], 1, 10).map(|_| ());
    assert_eq!(unlisted, Err(Refusal::Unlisted));
    assert_eq!(words, vec![0; words_for(10)]);

    let mut table = turning(&mut accounts);
    assert_eq!(
        table.set(&mut [], Target::register(32), []).unwrap_err(),
        Refusal::Range
    );
    assert_eq!(
        table.set(&mut [], Target::register(31), []).unwrap_err(),
        Refusal::Unlisted
    );
    assert_eq!(
        table
            .set(&mut accounts, Target::register(31), [])
            .unwrap_err(),
        Refusal::Syntax
    );
    table.words_mut()[0] = 0;
    assert_eq!(
        table.set(&mut [], Target::register(32), []).unwrap_err(),
        Refusal::Unsound
    );
}
