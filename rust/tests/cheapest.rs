//! Cheapest runs over presses with prices.
use kudzuclamp::{Account, Fare, Formula, Refusal, Table, Target};

/// A counter of n bits, up by relation 0 and down by relation 1; relation 2 leads from everywhere to 0. Register 0
/// has state 0, register 1 the last state, register 2 no state, and register 3 is empty.
fn counting(n: u32) -> Table<Vec<u32>> {
    let mut accounts = [Account::unlimited()];
    let mut table = Table::new(&mut accounts, n, 1_000).unwrap();
    let all = |part: &dyn Fn(u32) -> Formula| (0..n).map(part).reduce(|f, g| f & g).unwrap();
    // A bit turns over where every bit below is on, or off.
    let below = |p: u32, on: bool| {
        let bits = (0..p).map(|q| match on {
            true => Formula::current(q),
            false => !Formula::current(q),
        });
        bits.fold(Formula::truth(), |f, g| f & g)
    };
    let step = |on: bool| all(&|p| Formula::turns(p).iff(below(p, on)));
    table.relation(0, step(true)).unwrap();
    table.relation(1, step(false)).unwrap();
    table.relation(2, all(&|p| !Formula::next(p))).unwrap();
    let sets = [
        all(&|p| !Formula::current(p)),
        all(&Formula::current),
        Formula::falsity(),
    ];
    for (r, set) in (0..).zip(sets) {
        table.set(&mut accounts, Target::register(r), set).unwrap();
    }
    table
}

/// Relations 0, 1 and 2 cost so much.
fn prices(up: u8, down: u8, back: u8) -> [u8; 8] {
    [up, down, back, 0, 0, 0, 0, 0]
}

#[test]
fn the_way_that_costs_less() {
    let table = counting(3);
    // Seven presses up, or one down from 0 to the last state.
    let up = table.cheapest(&prices(1, 255, 0), 0, 1).unwrap();
    assert_eq!(up.states, [0, 1, 2, 3, 4, 5, 6, 7]);
    assert_eq!(up.relations, [0; 7]);
    let count = 8;
    let fare = |total, charge| Fare {
        total,
        charge,
        count,
    };
    assert_eq!(up.fare, fare(7, 1));
    assert_eq!(
        table.cheapest(&prices(36, 255, 0), 0, 1).unwrap().fare,
        fare(252, 26)
    );
    let down = table.cheapest(&prices(37, 255, 0), 0, 1).unwrap();
    assert_eq!((down.states, down.relations), (vec![0, 7], vec![1]));
    assert_eq!((down.fare.total, down.fare.charge), (255, 26));
}

#[test]
fn fewer_states_where_the_total_is_the_same() {
    let table = counting(3);
    let run = table.cheapest(&prices(0, 0, 0), 0, 1).unwrap();
    assert_eq!((run.states, run.relations), (vec![0, 7], vec![1]));
    assert_eq!((run.fare.total, run.fare.charge), (0, 0));
    // From the last state one press up or one back: which of the two is free.
    let run = table.cheapest(&prices(5, 9, 5), 1, 0).unwrap();
    assert_eq!(run.states, [7, 0]);
    assert!(run.relations == [0] || run.relations == [2]);
}

#[test]
fn a_state_of_both_sets_costs_nothing() {
    let run = counting(2).cheapest(&[255; 8], 1, 1).unwrap();
    assert_eq!((run.states, run.relations.len()), (vec![3], 0));
    assert_eq!((run.fare.total, run.fare.charge, run.fare.count), (0, 0, 1));
}

#[test]
fn a_coin_for_every_ten_credits_begun() {
    let table = counting(1);
    for (price, charge) in [(0, 0), (1, 1), (9, 1), (10, 1), (11, 2), (20, 2), (255, 26)] {
        let run = table.cheapest(&[price; 8], 0, 1).unwrap();
        assert_eq!((run.fare.total, run.fare.charge), (price.into(), charge));
    }
}

#[test]
fn a_run_of_all_states() {
    let run = counting(5).cheapest(&prices(1, 32, 0), 0, 1).unwrap();
    assert!(run.states.iter().copied().eq(0..32));
    assert_eq!(run.fare.total, 31);
}

#[test]
fn sixteen_bits() {
    let mut accounts = [Account::unlimited()];
    let mut table = Table::new(&mut accounts, 16, 1_000).unwrap();
    let last = Formula::current(15);
    table.relation(7, Formula::next(15)).unwrap();
    let off = table.set(&mut accounts, Target::register(0), !&last);
    let on = table.set(&mut accounts, Target::register(1), last);
    assert!(off.is_ok() && on.is_ok());
    let run = table.cheapest(&[3; 8], 0, 1).unwrap();
    assert_eq!((run.fare.total, run.relations), (3, vec![7]));
    assert!(run.states[0] < 0x8000 && run.states[1] >= 0x8000);
}

#[test]
fn refusals_keep_the_lists() {
    let mut table = counting(2);
    let prices = prices(1, 2, 3);
    let kept = |table: &Table<Vec<u32>>, prices: &[u8], work: usize, places, (a, b), wanted| {
        let (mut lent, mut states, mut relations) =
            (vec![7; work], vec![7; places], vec![7; places]);
        let refused = table.write_cheapest(prices, &mut lent, &mut states, &mut relations, a, b);
        assert_eq!(refused, Err(wanted));
        assert_eq!((states, relations), (vec![7; places], vec![7; places]));
        assert!(wanted.number() > 7 || lent == vec![7; work]);
    };
    kept(&table, &prices[..7], 0, 9, (32, 3), Refusal::Sizes);
    kept(&table, &[1; 9], 4, 9, (0, 1), Refusal::Sizes);
    kept(&table, &prices, 3, 9, (32, 3), Refusal::Sizes);
    kept(&table, &prices, 4, 9, (3, 32), Refusal::Range);
    kept(&table, &prices, 4, 9, (0, 3), Refusal::Empty);
    kept(&table, &prices, 4, 0, (0, 2), Refusal::NoRun);
    kept(&table, &prices, 4, 1, (0, 1), Refusal::Short);
    table.words_mut()[0] = 0;
    kept(&table, &prices, 0, 9, (32, 3), Refusal::Unsound);
    kept(&table, &[], 0, 9, (32, 3), Refusal::Sizes);
    assert_eq!(table.cheapest(&prices, 0, 1), Err(Refusal::Unsound));
}

#[test]
fn places_past_the_run_are_kept() {
    let table = counting(2);
    let (mut work, mut states, mut relations) = ([7; 9], [7; 6], [7; 6]);
    let fare = table.write_cheapest(
        &prices(1, 9, 9),
        &mut work,
        &mut states,
        &mut relations,
        0,
        1,
    );
    assert_eq!(fare.map(|fare| fare.count), Ok(4));
    assert_eq!(work[4..], [7; 5]);
    assert_eq!(
        (states, relations),
        ([0, 1, 2, 3, 7, 7], [0, 0, 0, 7, 7, 7])
    );
}
