//! Slip 13, cases followed by hand: totals, ties, coins, and the checks in order.

use reference::coins::{coins, holds, Asked, Hall};
use reference::formula::{check, frame, Kind};
use reference::refusal::Refusal;
use reference::states::StateSet;

fn only(n: u32, state: usize) -> StateSet {
    StateSet::from_fn(n, |s| s == state)
}

/// From 0 relation 0 leads to 1, and relation 1 from there to 3; relation 2 leads from 0 to 3 at once, and
/// relation 3 from 3 to itself. Registers 0 and 1 have states 0 and 3, register 2 has state 2.
fn hall() -> Hall {
    let mut hall = Hall::new(2);
    for (relation, pair) in [(0, 1), (1, 3), (0, 3), (3, 3)].into_iter().enumerate() {
        hall.lead(relation, [pair]);
    }
    for (r, state) in [0, 3, 2].into_iter().enumerate() {
        hall.fill(r, only(2, state));
    }
    hall
}

/// From register 0 into 1 at these prices, with lists in plenty.
fn asked(prices: &[u8]) -> Asked<'_> {
    Asked {
        prices,
        work: 4,
        states: 4,
        relations: 4,
        a: 0,
        b: 1,
    }
}

fn total_and_steps(prices: &[u8; 8]) -> (u32, usize) {
    Hall::answer(Some(&hall()), asked(prices)).unwrap()
}

#[test]
fn the_least_total() {
    assert_eq!(total_and_steps(&[4, 5, 10, 0, 0, 0, 0, 0]), (9, 2));
    assert_eq!(total_and_steps(&[4, 5, 8, 0, 0, 0, 0, 0]), (8, 1));
    assert_eq!(total_and_steps(&[255, 255, 255, 0, 0, 0, 0, 0]), (255, 1));
}

/// "of those that cost the same none has fewer states".
#[test]
fn a_tie() {
    assert_eq!(total_and_steps(&[4, 5, 9, 0, 0, 0, 0, 0]), (9, 1));
    assert_eq!(total_and_steps(&[0; 8]), (0, 1));
}

#[test]
fn one_state() {
    let prices = [7; 8];
    let same = Asked {
        a: 1,
        relations: 0,
        states: 1,
        ..asked(&prices)
    };
    assert_eq!(Hall::answer(Some(&hall()), same), Ok((0, 0)));
}

/// "one for every ten credits begun, none for 0".
#[test]
fn charges() {
    let charged: Vec<u32> = [0, 1, 9, 10, 11, 20, 21, 255].map(coins).to_vec();
    assert_eq!(charged, [0, 1, 1, 1, 2, 2, 3, 26]);
}

/// 1 for the prices, 2, 1 for the work list, 3, 7, 10, 11: each call has the causes after it too.
#[test]
fn checks_in_order() {
    let (hall, seven, eight) = (hall(), [1; 7], [1; 8]);
    let all_wrong = Asked {
        prices: &seven,
        work: 3,
        states: 0,
        relations: 0,
        a: 32,
        b: 3,
    };
    let answer = |sound: bool, asked| Hall::answer(sound.then_some(&hall), asked);
    assert_eq!(answer(false, all_wrong), Err(Refusal::BadSizes));
    let eight_prices = Asked {
        prices: &eight,
        ..all_wrong
    };
    assert_eq!(answer(false, eight_prices), Err(Refusal::Unsound));
    assert_eq!(answer(true, eight_prices), Err(Refusal::BadSizes));
    let enough = Asked {
        work: 4,
        ..eight_prices
    };
    assert_eq!(answer(true, enough), Err(Refusal::OutOfRange));
    let there = Asked { a: 0, ..enough };
    assert_eq!(answer(true, there), Err(Refusal::Empty));
    assert_eq!(answer(true, Asked { b: 2, ..there }), Err(Refusal::NoRun));
    let run = Asked { b: 1, ..there };
    assert_eq!(answer(true, run), Err(Refusal::ListTooShort));
    for (states, relations) in [(1, 9), (9, 0)] {
        let short = Asked {
            states,
            relations,
            ..run
        };
        assert_eq!(answer(true, short), Err(Refusal::ListTooShort));
    }
    let exact = Asked {
        states: 2,
        relations: 1,
        ..run
    };
    assert_eq!(answer(true, exact), Ok((1, 1)));
}

#[test]
fn what_a_run_costs() {
    let (hall, prices) = (hall(), [4, 5, 10, 1, 0, 0, 0, 0]);
    let cost = |states: &[u16], relations: &[u8]| hall.cost_of(asked(&prices), states, relations);
    assert_eq!(cost(&[0, 1, 3], &[0, 1]), Some((9, 2)));
    assert_eq!(cost(&[0, 3, 3], &[2, 3]), Some((11, 2)));
    // Another relation, another end, a step too many, no state.
    assert_eq!(cost(&[0, 1, 3], &[0, 2]), None);
    assert_eq!(cost(&[0, 1], &[0]), None);
    assert_eq!(cost(&[0, 3], &[2, 3]), None);
    assert_eq!(cost(&[], &[]), None);
}

#[test]
fn formulas_of_bits() {
    let read = |body: &[u8]| check(2, Kind::Relation, &frame(body), |_| false, |_| false).unwrap();
    // Bit 0 keeps its value, and next bit 1 is off.
    let formula = read(&[
        0x03, 0x02, 0x21, 0x04, 0x03, 0x10, 0x20, 0x02, 0x04, 0x10, 0x20,
    ]);
    let pairs = (0..4).flat_map(|now| (0..4).map(move |next| (now, next)));
    let found: Vec<(usize, usize)> = pairs
        .filter(|&(now, next)| holds(&formula, now, next))
        .collect();
    assert_eq!(found, [(0, 0), (1, 1), (2, 0), (3, 1)]);
}
