//! Steps, live sets, rounds, and the order of 8 and 9.

mod common;
use common::*;
use reference::book::Book;
use reference::evaluate::set as evaluate_set;
use reference::evaluate::Limits;
use reference::formula::{frame, read, Kind};
use reference::meaning::states_of;
use reference::random::Random;
use reference::refusal::Refusal;

/// The peak of a set call on the book.
fn peak(book: &Book, body: &[u8]) -> usize {
    let formula = read(book.n(), Kind::Set, &frame(body)).unwrap();
    let limits = Limits {
        rows: usize::MAX,
        rounds: u32::MAX,
    };
    evaluate_set(book.held(), limits, &formula).unwrap().peak
}

#[test]
fn set_is_answered_at_the_exact_need_and_refused_one_below() {
    // Relation 0: next bit 0 and bit 1; storing it needs three rows.
    let both = [0x03, 0x20, 0x11];
    let bodies: [&[u8]; 6] = [
        &[0x03, 0x10, 0x11],
        &[0x04, 0x03, 0x10, 0x11, 0x02, 0x10],
        &[0x68, 0x10],
        &[0x60, 0x04, 0x10, 0x11],
        &[0x70, 0x04, 0x11, 0x68, 0x30],
        &[0x80, 0x03, 0x10, 0x60, 0x30],
    ];
    for body in bodies {
        let prepared = |rows| {
            let mut book = book(2, rows);
            relation(&mut book, 0, &both).unwrap();
            book
        };
        let exact = peak(&prepared(100), body) as u64;
        assert!(set(&mut prepared(exact), 0, body).is_ok(), "{body:x?}");
        assert_eq!(
            set(&mut prepared(exact - 1), 0, body),
            Err(Refusal::Full),
            "{body:x?}"
        );
    }
}

#[test]
fn relation_is_answered_at_the_exact_need_and_refused_one_below() {
    let formula = frame(&TOGGLE);
    let exact = book(1, 100).evaluate_relation(0, &formula).unwrap().peak as u64;
    assert!(book(1, exact).relation(0, &formula).is_ok());
    assert_eq!(book(1, exact - 1).relation(0, &formula), Err(Refusal::Full));
}

#[test]
fn needs_counted_by_hand() {
    // x: bit 0. At NOT: x and NOT x, which need one row.
    assert_eq!(peak(&book(1, 1), &[0x02, 0x10]), 1);
    // Last OR: x, NOT x; the result is constant.
    assert_eq!(peak(&book(1, 1), &[0x04, 0x10, 0x02, 0x10]), 1);
    // Bits 0, 1; OR has itself and bit 1 beside bit 0.
    assert_eq!(peak(&book(2, 1), &[0x04, 0x10, 0x11]), 3);
    // Over the toggle: 2 rows, of which one for the next bit and its NOT. The
    // diamond's SHIFT has that row; at EXISTS: the operand NOT x AND next x
    // and the result NOT x.
    assert_eq!(peak(&toggle_book(), &[0x68, 0x10]), 4);
    assert_eq!(peak(&toggle_book(), &[0x10]), 3);
}

#[test]
fn each_step_of_a_box_has_its_need() {
    // Relation 0 is NOT next bit 0, which is also the SHIFT of NOT x; so the
    // first NOT needs most: the relation, and one row for x and NOT x.
    let mut first = book(1, 100);
    relation(&mut first, 0, &[0x02, 0x20]).unwrap();
    assert_eq!(peak(&first, &[0x60, 0x10]), 2);
    // Relation 0 is x; the last NOT makes NOT x, which has its row.
    let mut last = book(1, 100);
    relation(&mut last, 0, &[0x10]).unwrap();
    assert_eq!(peak(&last, &[0x60, 0x00]), 1);
}

#[test]
fn and_with_the_relation_has_its_need() {
    // Register 0 is x XOR y (2 rows), relation 0 is x AND next x (2 rows).
    // SHIFT: 2 rows more. AND: x AND next x AND NOT next y, 2 more besides
    // next y. The first EXISTS: 4, the operand's 3, no other.
    let mut book = book(2, 100);
    let xor = [0x04, 0x03, 0x10, 0x02, 0x11, 0x03, 0x02, 0x10, 0x11];
    set(&mut book, 0, &xor).unwrap();
    relation(&mut book, 0, &[0x03, 0x10, 0x20]).unwrap();
    assert_eq!(book.collect(), 4);
    assert_eq!(peak(&book, &[0x68, 0x40]), 8);
}

#[test]
fn used_values_are_not_live_any_more() {
    // NOT NOT NOT x never needs more than the row of x and NOT x.
    assert_eq!(peak(&book(1, 1), &[0x02, 0x02, 0x02, 0x10]), 1);
    // (x AND y) OR z at n = 3: at the OR only x AND y (2 rows), z and the
    // result (3 rows, one of them z) are live; x is not.
    assert_eq!(peak(&book(3, 1), &[0x04, 0x03, 0x10, 0x11, 0x12]), 5);
}

#[test]
fn waiting_left_operand_is_live_during_the_right_one() {
    // x AND y waits (itself and y) while z AND (w AND NOT z) is made: z, w and
    // w AND NOT z. The last OR has a constant beside it.
    let body = [0x04, 0x03, 0x10, 0x11, 0x03, 0x12, 0x03, 0x13, 0x02, 0x12];
    assert_eq!(peak(&book(4, 1), &body), 5);
    assert_eq!(set(&mut book(4, 4), 0, &body), Err(Refusal::Full));
    // In the other order only three are live at once.
    let turned = [0x04, 0x03, 0x12, 0x03, 0x13, 0x02, 0x12, 0x03, 0x10, 0x11];
    assert_eq!(peak(&book(4, 1), &turned), 3);
}

#[test]
fn old_content_of_the_target_is_live() {
    let mut book = book(2, 1);
    set(&mut book, 0, &[0x10]).unwrap();
    // Bit 0 is held by the target itself: bit 1 does not fit, NOT of bit 0 does.
    assert_eq!(set(&mut book, 0, &[0x11]), Err(Refusal::Full));
    assert!(set(&mut book, 0, &[0x02, 0x10]).is_ok());
}

#[test]
fn old_relation_is_live() {
    let mut book = book(1, 1);
    relation(&mut book, 0, &[0x10]).unwrap();
    assert_eq!(relation(&mut book, 0, &[0x20]), Err(Refusal::Full));
    assert!(relation(&mut book, 0, &[0x02, 0x10]).is_ok());
}

#[test]
fn outer_current_set_is_live_while_an_inner_binder_runs() {
    // mu P. nu Q. (x OR P) AND (y AND Q). In the second round of P its current set
    // (x AND y: itself and y) is live beside the step's operands.
    let nested = [0x70, 0x81, 0x03, 0x04, 0x10, 0x30, 0x03, 0x11, 0x31];
    let flat = [0x03, 0x04, 0x10, 0x00, 0x11];
    assert_eq!(peak(&book(2, 1), &flat), 3);
    let mut book = book(2, 100);
    assert_eq!(states_and_rounds(&mut book, 100, &nested), Ok((1, 6)));
    // Second round, OR x P: x, P (2 rows), result x: 3. Then y is below P; the
    // AND: x, y, itself = P. Still 3.
    assert_eq!(peak(&common::book(2, 1), &nested), 3);
    // mu P. (NOT x AND nu Q. (NOT y AND Q)) OR P: P is NOT x AND NOT y
    // afterwards.
    let held = [
        0x70, 0x04, 0x03, 0x02, 0x10, 0x81, 0x03, 0x02, 0x11, 0x31, 0x30,
    ];
    // Round 2, at NOT y: P (itself, y) and NOT x waiting: 3; at AND the same; at
    // NOT x: P's 2 and x: 3.
    assert_eq!(peak(&common::book(2, 1), &held), 3);
}

#[test]
fn constants_registers_and_variables_take_no_step() {
    let mut book = book(1, 1);
    set(&mut book, 0, &[0x10]).unwrap();
    for body in [&[0x40][..], &[0x00], &[0x01], &[0x70, 0x30], &[0x80, 0x30]] {
        assert_eq!(peak(&book, body), 0, "{body:x?}");
        assert!(set(&mut book, 1, body).is_ok());
    }
}

#[test]
fn all_steps_of_a_diamond_are_taken_over_constants_too() {
    // The need of a step that makes no row is what is live: the relation.
    let book = toggle_book();
    assert_eq!(peak(&book, &[0x68, 0x00]), 2);
    // Box of true is NOT diamond of false; box of false meets the relation,
    // but its EXISTS gives a constant.
    assert_eq!(peak(&book, &[0x60, 0x01]), 2);
    assert_eq!(peak(&book, &[0x60, 0x00]), 2);
}

#[test]
fn rounds_count_inner_bodies() {
    // Outer: two rounds; inner: two each in a fresh start.
    let body = [0x70, 0x71, 0x04, 0x10, 0x04, 0x30, 0x31];
    let mut book = book(1, 100);
    assert_eq!(states_and_rounds(&mut book, 6, &body), Ok((1, 6)));
    assert_eq!(
        states_and_rounds(&mut book, 5, &body),
        Err(Refusal::RoundsUsedUp)
    );
}

#[test]
fn one_binder_takes_at_most_two_to_the_n_plus_one_rounds() {
    // A chain 3 → 2 → 1 → 0: relation next = now − 1 (now not 0).
    let mut book = book(2, 100);
    let minus_one = [
        0x04, // bit 0 is 1: it becomes 0, bit 1 stays
        0x03, 0x10, 0x03, 0x02, 0x20, 0x04, 0x03, 0x11, 0x21, 0x03, 0x02, 0x11, 0x02, 0x21,
        // bit 0 is 0 and bit 1 is 1: next is 1
        0x03, 0x02, 0x10, 0x03, 0x11, 0x03, 0x20, 0x02, 0x21,
    ];
    relation(&mut book, 0, &minus_one).unwrap();
    // mu P. box P: after round i the states under i.
    assert_eq!(
        states_and_rounds(&mut book, 5, &[0x70, 0x60, 0x30]),
        Ok((4, 5))
    );
    assert_eq!(
        states_and_rounds(&mut book, 4, &[0x70, 0x60, 0x30]),
        Err(Refusal::RoundsUsedUp)
    );
    // nu P. diamond P: no endless path.
    assert_eq!(
        states_and_rounds(&mut book, 5, &[0x80, 0x68, 0x30]),
        Ok((0, 5))
    );
}

#[test]
fn inner_binder_starts_anew() {
    // Relation 0 leads from 1 to 0, relation 1 is the identity. In nu P. mu Q.
    // (x AND diamond 0 P) OR diamond 1 Q the inner mu is {1} at first, then
    // empty; started from its last value it would keep state 1.
    let mut book = book(1, 100);
    relation(&mut book, 0, &[0x03, 0x10, 0x02, 0x20]).unwrap();
    let identity = [0x04, 0x03, 0x10, 0x20, 0x03, 0x02, 0x10, 0x02, 0x20];
    relation(&mut book, 1, &identity).unwrap();
    let body = [0x80, 0x71, 0x04, 0x03, 0x10, 0x68, 0x30, 0x69, 0x31];
    // Three rounds of P, then two, one and one of Q.
    assert_eq!(states_and_rounds(&mut book, 100, &body), Ok((0, 7)));
}

#[test]
fn eight_before_nine_and_nine_before_eight() {
    // x AND y is refused with two rows; mu P. P wants a round where R = 0.
    let first_full = [0x04, 0x03, 0x10, 0x11, 0x70, 0x30];
    let first_rounds = [0x04, 0x70, 0x30, 0x03, 0x10, 0x11];
    assert_eq!(
        set_within(&mut book(2, 2), 0, 0, &first_full),
        Err(Refusal::Full)
    );
    assert_eq!(
        set_within(&mut book(2, 2), 0, 0, &first_rounds),
        Err(Refusal::RoundsUsedUp)
    );
    assert_eq!(
        set_within(&mut book(2, 2), 0, 1, &first_full),
        Err(Refusal::Full)
    );
    assert_eq!(
        set_within(&mut book(2, 2), 0, 1, &first_rounds),
        Err(Refusal::Full)
    );
    assert_eq!(
        set_within(&mut book(2, 3), 0, 0, &first_full),
        Err(Refusal::RoundsUsedUp)
    );
    assert!(set_within(&mut book(2, 3), 0, 1, &first_full).is_ok());
}

#[test]
fn eight_inside_the_round_comes_before_nine_of_the_next() {
    let body = [0x70, 0x04, 0x03, 0x10, 0x11, 0x30];
    assert_eq!(set_within(&mut book(2, 2), 0, 1, &body), Err(Refusal::Full));
    assert_eq!(
        set_within(&mut book(2, 3), 0, 1, &body),
        Err(Refusal::RoundsUsedUp)
    );
    assert_eq!(
        set_within(&mut book(2, 3), 0, 0, &body),
        Err(Refusal::RoundsUsedUp)
    );
    // Round 2 begins with the current set x AND y live, two rows, then x: 3.
    assert_eq!(set_within(&mut book(2, 3), 0, 2, &body).unwrap().rounds, 2);
}

#[test]
fn no_round_is_wanted_without_a_binder() {
    assert!(set_within(&mut book(1, 1), 0, 0, &[0x10]).is_ok());
    assert_eq!(
        set_within(&mut book(1, 1), 0, 0, &[0x70, 0x30]),
        Err(Refusal::RoundsUsedUp)
    );
}

/// A random set formula that passes the checks over filled registers 0 and 1
/// and relations 0 and 1; `even` and `odd` hold the bound variables by their
/// reading here.
fn draw(random: &mut Random, n: u8, size: u64, even: &[u8], odd: &[u8], fresh: u8) -> Vec<u8> {
    if size <= 1 {
        let mut leaves = vec![
            0x00,
            0x01,
            0x40,
            0x41,
            0x10 + random.below(u64::from(n)) as u8,
        ];
        even.iter().for_each(|p| leaves.extend([0x30 + p; 4]));
        return vec![random.pick(&leaves)];
    }
    let part = |random: &mut Random, size| draw(random, n, size, even, odd, fresh);
    match random.below(6) {
        0 => {
            let body = draw(random, n, size - 1, odd, even, fresh);
            [vec![0x02], body].concat()
        }
        1 | 2 if size > 2 => {
            let operator = random.pick(&[0x03, 0x04]);
            let left = 1 + random.below(size - 2);
            [
                vec![operator],
                part(random, left),
                part(random, size - 1 - left),
            ]
            .concat()
        }
        3 | 4 => {
            let operator = random.pick(&[0x60, 0x61, 0x68, 0x69]);
            [vec![operator], part(random, size - 1)].concat()
        }
        _ if fresh < 3 => {
            let even = [even, &[fresh]].concat();
            let operator = random.pick(&[0x70, 0x80]) + fresh;
            let mut body = draw(random, n, size - 1, &even, odd, fresh + 1);
            if !body.contains(&(0x30 + fresh)) {
                let join = random.pick(&[0x03, 0x04]);
                body = [vec![join], body, vec![0x30 + fresh]].concat();
            }
            [vec![operator], body].concat()
        }
        _ => part(random, size - 1),
    }
}

fn drawn_relation(random: &mut Random, n: u8) -> Vec<u8> {
    let literal = |random: &mut Random| {
        let p = random.below(u64::from(n)) as u8;
        let bit = random.pick(&[0x10, 0x20]) + p;
        if random.chance(50) {
            vec![0x02, bit]
        } else {
            vec![bit]
        }
    };
    let mut body = literal(random);
    for _ in 0..random.below(8) {
        let operator = random.pick(&[0x03, 0x04]);
        body = [vec![operator], literal(random), body].concat();
    }
    body
}

#[test]
fn evaluation_by_rounds_gives_the_meaning_by_sets() {
    let mut random = Random::new(3);
    for (n, lists) in [(1u8, 400), (2, 200)] {
        for _ in 0..lists {
            let mut book = book(u64::from(n), 60_000);
            for place in 0..2 {
                relation(&mut book, place, &drawn_relation(&mut random, n)).unwrap();
                let body = draw(&mut random, n, 1, &[], &[], 0);
                let body = if body[0] >= 0x40 { vec![0x10] } else { body };
                set(&mut book, place, &body).unwrap();
            }
            let size = 2 + random.below(9);
            let body = draw(&mut random, n, size, &[], &[], 0);
            let formula = read(u32::from(n), Kind::Set, &frame(&body)).unwrap();
            let meaning = states_of(book.held(), &formula);
            set_within(&mut book, 2, u32::MAX, &body).unwrap();
            assert_eq!(book.registers()[2], Some(meaning), "{body:x?}");
        }
    }
}

#[test]
fn relation_holds_exactly_the_pairs_of_its_formula() {
    let cases: [(&[u8], &str); 6] = [
        (&[0x00], "0000"),
        (&[0x01], "1111"),
        (&[0x10], "0011"),
        (&[0x20], "0101"),
        (&[0x03, 0x10, 0x02, 0x20], "0010"),
        (&TOGGLE, "0110"),
    ];
    for (body, pairs) in cases {
        let mut book = book(1, 100);
        relation(&mut book, 0, body).unwrap();
        let held = book.relations()[0].as_ref().unwrap();
        assert_eq!(held.bit_string(), pairs);
    }
}
