//! Accounts: 1 to 8 of them, their limits below N and R, their tallies up to 4,294,967,295, refusal 14,
//! and that nothing but an answered set's own tally is changed, and all tallies by an answered fresh.

use calls::call::draw_call;
use calls::list::Step;
use calls::run::Runner;
use kudzuclamp::{Formula, Refusal, Table, Target};
use reference::accounts::Account;
use reference::book::{words_for, Call};
use reference::formula::frame;
use reference::random::Random;

/// Over `turning`: takes three rounds and needs four rows.
const REACH: &[u8] = &[0x70, 0x04, 0x10, 0x68, 0x30];

/// n = 1 and N = 100 under a list of accounts; relation 0 turns the bit over.
fn turning(accounts: Vec<Account>) -> Runner {
    let lent = words_for(100) as usize;
    let mut runner = Runner::over(vec![0; lent]);
    let (n, rows) = (1, 100);
    let turn = &[0x04, 0x03, 0x20, 0x02, 0x10, 0x03, 0x02, 0x20, 0x10];
    let steps = [
        Step::Accounts(vec![Account::LARGEST]),
        Step::Fresh { n, rows, lent },
        Step::Call(Call::Relation {
            t: 0,
            formula: frame(turn),
        }),
        Step::Accounts(accounts),
    ];
    steps.iter().try_for_each(|s| runner.step(s)).unwrap();
    runner
}

/// Sets register 0 and compares with the separate evaluator; the number.
fn set(runner: &mut Runner, place: u64, rounds: u32, body: &[u8]) -> u8 {
    let call = Call::Set {
        place,
        r: 0,
        rounds,
        formula: frame(body),
    };
    runner.step(&Step::Call(call)).unwrap();
    runner.counts.last
}

fn tallies(accounts: &[Account]) -> Vec<u32> {
    accounts.iter().map(|account| account.tally).collect()
}

#[test]
fn rounds_go_to_the_account_that_is_named() {
    for count in 1..=8 {
        let mut accounts = vec![Account::LARGEST; count];
        (0..).zip(&mut accounts).for_each(|(k, a)| a.tally = 10 * k);
        let mut wanted = tallies(&accounts);
        let mut runner = turning(accounts);
        for place in 0..count {
            assert_eq!(set(&mut runner, place as u64, 3, REACH), 0);
            wanted[place] += 3;
            assert_eq!(tallies(runner.accounts()), wanted);
        }
    }
}

/// "staying at 4,294,967,295 once it would pass that".
#[test]
fn a_tally_reaches_its_greatest_value_and_stays() {
    for below in 0..=6 {
        let mut accounts = vec![Account::LARGEST; 3];
        accounts[1].tally = u32::MAX - below;
        let mut runner = turning(accounts);
        for sets in 1..=3 {
            assert_eq!(set(&mut runner, 1, 3, REACH), 0);
            let tally = u32::MAX - below.saturating_sub(3 * sets);
            assert_eq!(tallies(runner.accounts()), [0, tally, 0]);
        }
    }
}

/// Sets of some rounds with all tallies close to the edge, against the separate evaluator.
#[test]
fn near_the_edge_as_the_book() {
    for below in 0..40 {
        let mut account = Account::LARGEST;
        account.tally = u32::MAX - below;
        let mut runner = turning(vec![account; 8]);
        for (k, body) in [
            REACH,
            &[0x80, 0x71, 0x04, 0x03, 0x30, 0x68, 0x30, 0x68, 0x31],
            &[0x70, 0x71, 0x04, 0x10, 0x04, 0x30, 0x31],
            &[0x80, 0x60, 0x30],
            &[0x10],
        ]
        .into_iter()
        .enumerate()
        {
            set(&mut runner, k as u64 % 3, u32::MAX, body);
        }
        runner.compare_all().unwrap();
    }
}

/// Every row limit and round limit about what the set takes, under every R.
#[test]
fn limits_below_n_and_r() {
    for rows in (0..7).chain([99, 100, 101, u32::MAX]) {
        for rounds in (0..6).chain([u32::MAX]) {
            let accounts = vec![Account::LARGEST, Account::new(rows, rounds)];
            let mut runner = turning(accounts);
            for most in (0..6).chain([u32::MAX]) {
                let number = set(&mut runner, 1, most, REACH);
                // The first round needs three rows, the second four.
                let wanted = match rounds.min(most) {
                    0 => 9,
                    _ if rows < 3 => 8,
                    1 => 9,
                    _ if rows < 4 => 8,
                    2 => 9,
                    _ => 0,
                };
                assert_eq!(number, wanted, "{rows} rows, {rounds} rounds, R {most}");
                assert_eq!(set(&mut runner, 0, 9, REACH), 0);
                let clear = Step::Call(Call::Clear { r: 0 });
                runner.step(&clear).unwrap();
            }
        }
    }
}

/// "Rows that others keep alive still count": a step that makes no row needs what is live.
#[test]
fn rows_of_others_count() {
    let lent = words_for(9) as usize;
    let mut runner = Runner::over(vec![0; lent]);
    let accounts = vec![Account::LARGEST, Account::new(0, 0), Account::new(1, 0)];
    runner.step(&Step::Accounts(accounts)).unwrap();
    let (n, rows) = (1, 9);
    runner.step(&Step::Fresh { n, rows, lent }).unwrap();
    assert_eq!(set(&mut runner, 0, 0, &[0x10]), 0);
    assert_eq!(set(&mut runner, 1, 0, &[0x02, 0x00]), 8);
    assert_eq!(set(&mut runner, 2, 0, &[0x02, 0x00]), 0);
    assert_eq!(set(&mut runner, 0, 0, &[0x10]), 0);
    assert_eq!(set(&mut runner, 1, 0, &[0x40]), 0);
    assert_eq!(set(&mut runner, 1, 0, &[0x01]), 0);
}

/// "the list is not 1 to 8 long or has no account at that place".
#[test]
fn fourteen() {
    for count in 0..12 {
        let mut account = Account::new(50, 50);
        account.tally = 7;
        let mut runner = turning(vec![account; count]);
        let fits = (1..=8).contains(&count);
        for place in (0..12).chain([u32::MAX.into(), 1 << 32, u64::MAX]) {
            let number = set(&mut runner, place, 9, REACH);
            let named = fits && place < count as u64;
            assert_eq!(number, if named { 0 } else { 14 }, "{count} {place}");
        }
        let lent = runner.words().len();
        for (n, rows) in [(1, 100), (0, 100), (1, 101)] {
            runner.step(&Step::Fresh { n, rows, lent }).unwrap();
            let wanted = match () {
                _ if (n, rows) != (1, 100) => 1,
                _ if fits => 0,
                _ => 14,
            };
            assert_eq!(runner.counts.last, wanted, "{count}");
        }
        let tally = if fits { 0 } else { 7 };
        assert_eq!(tallies(runner.accounts()), vec![tally; count]);
    }
}

/// 14 is "checked directly after 3", before 4.
#[test]
fn order_of_the_checks() {
    let mut accounts = [kudzuclamp::Account::limited(0, 0)];
    let mut table = Table::new(&mut accounts, 1, 10).unwrap();
    for list in [
        &mut [][..],
        &mut accounts,
        &mut [kudzuclamp::Account::unlimited(); 9],
    ] {
        let past = Target::register(31).account(list.len());
        let range = table.set(
            list,
            Target {
                register: 32,
                ..past
            },
            [],
        );
        assert_eq!(range.unwrap_err(), Refusal::Range);
        assert_eq!(table.set(list, past, []).unwrap_err(), Refusal::Unlisted);
    }
    let target = Target::register(31).rounds(0);
    let mut set = |bytes: &[u8]| {
        let stored = table.set(&mut accounts, target, bytes);
        stored.map_err(Refusal::from)
    };
    assert_eq!(set(&[]), Err(Refusal::Syntax));
    assert_eq!(set(&frame(&[0x30])), Err(Refusal::Unbound));
    assert_eq!(set(&frame(&[0x70, 0x02, 0x30])), Err(Refusal::Odd));
    assert_eq!(set(&frame(&[0x40])), Err(Refusal::Empty));
    assert_eq!(set(&frame(&[0x10])), Err(Refusal::Full));
    assert_eq!(set(&frame(&[0x70, 0x30])), Err(Refusal::Spent));
    assert_eq!(set(&frame(&[0x01])).map(|stored| stored.node), Ok(1));
}

/// "no refusal changes an account": every number, and calls that do not get the list.
#[test]
fn only_an_answered_set_changes_an_account() {
    let mut narrow = Account::new(3, 2);
    narrow.tally = 5;
    let mut runner = turning(vec![narrow; 2]);
    let before = runner.accounts().to_vec();
    for (number, place, rounds, body) in [
        (14, 2, 9, REACH),
        (4, 0, 9, &[0x20]),
        (5, 0, 9, &[0x30]),
        (6, 0, 9, &[0x70, 0x02, 0x30]),
        (7, 0, 9, &[0x41]),
        (8, 0, 9, REACH),
        (9, 0, 0, REACH),
        (9, 1, 9, &[0x80, 0x71, 0x04, 0x30, 0x31]),
        (12, 0, 9, &[0x80, 0x71, 0x31]),
    ] {
        assert_eq!(set(&mut runner, place, rounds, body), number);
        assert_eq!(runner.accounts(), before, "{number}");
    }
    let wide = Formula::truth().as_bytes().to_vec();
    for call in [
        Call::Set {
            place: 0,
            r: 32,
            rounds: 9,
            formula: wide.clone(),
        },
        Call::Relation {
            t: 1,
            formula: wide,
        },
        Call::Collect,
        Call::Clear { r: 0 },
    ] {
        runner.step(&Step::Call(call)).unwrap();
        assert_eq!(runner.accounts(), before);
    }
    let unsound = Step::Damage { place: 0, value: 0 };
    runner.step(&unsound).unwrap();
    assert_eq!(set(&mut runner, 0, 9, &[0x01]), 2);
    assert_eq!(runner.accounts(), before);
}

/// "If each call gets the list as the one before left it, a tally counts the rounds of its account's
/// answered sets since fresh."
#[test]
fn tallies_count_rounds_since_fresh() {
    let mut random = Random::new(17);
    for round in 0..60 {
        let count = 1 + round % 8;
        let limits: Vec<Account> = (0..count)
            .map(|_| {
                let rows = random.pick(&[3, 8, 20, u32::MAX]);
                Account::new(rows, random.pick(&[0, 2, 5, u32::MAX]))
            })
            .collect();
        let lent = words_for(40) as usize;
        let mut runner = Runner::over(vec![0; lent]);
        runner.step(&Step::Accounts(limits.clone())).unwrap();
        let (n, rows) = (2, 40);
        runner.step(&Step::Fresh { n, rows, lent }).unwrap();
        let mut sums = vec![0; count];
        for _ in 0..60 {
            let book = &runner.expected().expect("sound").book;
            let (call, cost) = draw_call(&mut random, book, &limits);
            runner.step(&Step::Call(call.clone())).unwrap();
            if let (Call::Set { place, .. }, 0) = (call, runner.counts.last) {
                sums[place as usize] += cost.expect("answered").rounds;
            }
        }
        assert_eq!(tallies(runner.accounts()), sums);
        runner.step(&Step::Fresh { n, rows, lent }).unwrap();
        assert_eq!(runner.accounts(), limits);
    }
}
