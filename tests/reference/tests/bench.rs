//! Every line of "Rooms on the test bench".

mod common;
use common::*;
use reference::refusal::Refusal;

#[test]
fn the_set_above() {
    let mut book = toggle_book();
    assert_eq!(states_and_rounds(&mut book, 100, &REACH), Ok((2, 3)));
    assert_eq!(book.node(0), Ok(Some(1)));
}

#[test]
fn the_set_above_with_two_rounds() {
    let mut book = toggle_book();
    assert_eq!(
        states_and_rounds(&mut book, 2, &REACH),
        Err(Refusal::RoundsUsedUp)
    );
    assert_eq!(book.count(0), Err(Refusal::Empty));
}

#[test]
fn mu_of_its_variable() {
    assert_eq!(
        states_and_rounds(&mut book(1, 100), 100, &[0x70, 0x30]),
        Ok((0, 1))
    );
}

#[test]
fn nu_of_its_variable() {
    assert_eq!(
        states_and_rounds(&mut book(1, 100), 100, &[0x80, 0x30]),
        Ok((2, 1))
    );
}

#[test]
fn variable_under_one_not() {
    let got = states_and_rounds(&mut book(1, 100), 100, &[0x70, 0x02, 0x30]);
    assert_eq!(got, Err(Refusal::ReadOdd));
}

#[test]
fn variable_under_two_nots() {
    let got = states_and_rounds(&mut book(1, 100), 100, &[0x70, 0x02, 0x02, 0x30]);
    assert_eq!(got, Ok((0, 1)));
}

#[test]
fn variable_unbound() {
    let got = states_and_rounds(&mut book(1, 100), 100, &[0x30]);
    assert_eq!(got, Err(Refusal::BadScope));
}

#[test]
fn variable_bound_inside_itself() {
    let got = states_and_rounds(&mut book(1, 100), 100, &[0x70, 0x70, 0x30]);
    assert_eq!(got, Err(Refusal::BadScope));
}

#[test]
fn box_over_empty_relation() {
    let got = states_and_rounds(&mut book(1, 100), 100, &[0x60, 0x01]);
    assert_eq!(got, Err(Refusal::Empty));
}

#[test]
fn box_and_diamond_over_false_relation() {
    let mut book = book(1, 100);
    relation(&mut book, 0, &[0x00]).unwrap();
    assert_eq!(states_and_rounds(&mut book, 100, &[0x60, 0x00]), Ok((2, 0)));
    assert_eq!(states_and_rounds(&mut book, 100, &[0x68, 0x01]), Ok((0, 0)));
}

#[test]
fn and_of_two_bits_needs_three_rows() {
    let body = [0x03, 0x10, 0x11];
    assert_eq!(states_and_rounds(&mut book(2, 3), 100, &body), Ok((1, 0)));
    assert_eq!(
        states_and_rounds(&mut book(2, 2), 100, &body),
        Err(Refusal::Full)
    );
}

#[test]
fn not_of_a_bit_with_one_row() {
    let got = states_and_rounds(&mut book(1, 1), 100, &[0x02, 0x10]);
    assert_eq!(got, Ok((1, 0)));
}

#[test]
fn freed_rows_are_used_again() {
    let mut book = book(2, 2);
    set(&mut book, 0, &[0x10]).unwrap();
    set(&mut book, 1, &[0x11]).unwrap();
    book.clear(0).unwrap();
    assert!(set(&mut book, 0, &[0x02, 0x11]).is_ok());
    assert_eq!(book.collect(), 1);
}
