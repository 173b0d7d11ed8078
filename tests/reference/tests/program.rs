//! The program's records and lines.

use reference::formula::frame;
use reference::records::output_of;

const FRESH: [u8; 7] = [0x00, 0x05, 0x01, 0x01, 0x01, 0x00, 0x64];
const RELATION: [u8; 17] = [
    0x00, 0x0F, 0x01, 0x02, 0x00, 0x00, 0x0A, 0x01, 0x04, 0x03, 0x20, 0x02, 0x10, 0x03, 0x02, 0x20,
    0x10,
];
const SET: [u8; 17] = [
    0x00, 0x0F, 0x01, 0x03, 0x00, 0x00, 0x00, 0x00, 0x03, 0x00, 0x06, 0x01, 0x70, 0x04, 0x10, 0x68,
    0x30,
];
const COLLECT: [u8; 4] = [0x00, 0x02, 0x01, 0x06];

fn record(operation: u8, arguments: &[u8]) -> Vec<u8> {
    let length = (arguments.len() + 2) as u16;
    [&length.to_be_bytes()[..], &[1, operation], arguments].concat()
}

fn lines(records: &[&[u8]]) -> Vec<String> {
    let output = output_of(&records.concat());
    assert!(output.ends_with('\n'));
    output.lines().map(str::to_string).collect()
}

#[test]
fn listing() {
    let output = output_of(&[&FRESH[..], &RELATION, &SET, &COLLECT].concat());
    assert_eq!(output, "1 0 0 0\n2 0 0 0\n3 0 2 3\n6 0 2 0\nend ok\n");
}

#[test]
fn empty_input() {
    assert_eq!(output_of(&[]), "end ok\n");
}

#[test]
fn zeros_are_unsound_before_fresh() {
    let refused_fresh = record(1, &[0, 0, 1]);
    let count = record(5, &[99]);
    let clear = record(4, &[0]);
    let got = lines(&[
        &RELATION,
        &SET,
        &clear,
        &count,
        &COLLECT,
        &refused_fresh,
        &COLLECT,
    ]);
    let want = [
        "2 2 0 0", "3 2 0 0", "4 2 0 0", "5 2 0 0", "6 2 0 0", "1 1 0 0", "6 2 0 0", "end ok",
    ];
    assert_eq!(got, want);
}

#[test]
fn rows_of_fresh_fit_the_lent_words() {
    let most = record(1, &[16, 0x05, 0x40]);
    let more = record(1, &[16, 0x05, 0x41]);
    assert_eq!(lines(&[&most, &more]), ["1 0 0 0", "1 1 0 0", "end ok"]);
}

#[test]
fn refused_fresh_keeps_the_table_and_answered_fresh_empties_it() {
    let refused = record(1, &[17, 0, 1]);
    let got = lines(&[&FRESH, &RELATION, &refused, &COLLECT, &FRESH, &COLLECT]);
    let want = [
        "1 0 0 0", "2 0 0 0", "1 1 0 0", "6 0 2 0", "1 0 0 0", "6 0 0 0", "end ok",
    ];
    assert_eq!(got, want);
}

#[test]
fn refusals_have_zeros() {
    let set = |r: u8, rounds: u8, body: &[u8]| {
        record(3, &[&[r, 0, 0, 0, rounds][..], &frame(body)].concat())
    };
    let got = lines(&[
        &FRESH,
        &set(32, 9, &[0x01]),
        &set(0, 9, &[0x20]),
        &set(0, 9, &[0x30]),
        &set(0, 9, &[0x70, 0x02, 0x30]),
        &set(0, 9, &[0x70, 0x10]),
        &set(0, 9, &[0x60, 0x01]),
        &set(0, 0, &[0x70, 0x30]),
        &set(0, 1, &[0x80, 0x30]),
        &record(5, &[0]),
        &record(5, &[1]),
        &record(5, &[32]),
        &record(4, &[32]),
        &record(4, &[0]),
        &record(4, &[0]),
        &record(1, &[2, 0, 2]),
        &set(0, 0, &[0x03, 0x10, 0x11]),
    ]);
    let want = [
        "1 0 0 0", "3 3 0 0", "3 4 0 0", "3 5 0 0", "3 6 0 0", "3 12 0 0", "3 7 0 0", "3 9 0 0",
        "3 0 2 1", "5 0 2 0", "5 7 0 0", "5 3 0 0", "4 3 0 0", "4 0 0 0", "4 0 0 0", "1 0 0 0",
        "3 8 0 0", "end ok",
    ];
    assert_eq!(got, want);
}

#[test]
fn formula_may_be_missing_or_overlong() {
    let no_relation_formula = record(2, &[0]);
    let no_set_formula = record(3, &[0, 0, 0, 0, 9]);
    let longest = record(2, &[0; 1098]);
    assert_eq!(longest[..2], 1100u16.to_be_bytes());
    let got = lines(&[&FRESH, &no_relation_formula, &no_set_formula, &longest]);
    assert_eq!(got, ["1 0 0 0", "2 4 0 0", "3 4 0 0", "2 4 0 0", "end ok"]);
}

/// The output ends with `end bad`, and what follows the record is not read.
fn assert_bad(bad: &[u8]) {
    assert_eq!(
        lines(&[&FRESH, bad, &COLLECT]),
        ["1 0 0 0", "end bad"],
        "{bad:x?}"
    );
}

#[test]
fn end_bad_at_a_record_cut_short() {
    for kept in 1..RELATION.len() {
        let got = lines(&[&FRESH, &RELATION[..kept]]);
        assert_eq!(got, ["1 0 0 0", "end bad"], "{kept}");
    }
    assert_eq!(output_of(&[0]), "end bad\n");
}

#[test]
fn end_bad_at_a_length_out_of_range() {
    assert_bad(&[0x00, 0x00]);
    assert_bad(&[0x00, 0x01, 0x01]);
    assert_bad(&record(2, &[0; 1099]));
    assert_bad(&[0xFF, 0xFF, 0x01, 0x06]);
}

#[test]
fn end_bad_at_another_version() {
    for version in (0..=255).filter(|&version| version != 1) {
        assert_bad(&[0x00, 0x02, version, 0x06]);
    }
}

#[test]
fn end_bad_at_an_unknown_operation() {
    for operation in (0..=255).filter(|operation| !(1..=6).contains(operation)) {
        assert_bad(&record(operation, &[]));
        assert_bad(&record(operation, &[0]));
    }
}

#[test]
fn end_bad_at_fixed_arguments_of_another_length() {
    for (operation, fixed) in [(1, 3), (4, 1), (5, 1), (6, 0)] {
        for length in (0..8).filter(|&length| length != fixed) {
            assert_bad(&record(operation, &vec![1; length]));
        }
    }
    assert_bad(&record(2, &[]));
    for length in 0..5 {
        assert_bad(&record(3, &vec![0; length]));
    }
}

#[test]
fn bad_record_stops_before_any_fresh_too() {
    assert_eq!(output_of(&[0x00, 0x02, 0x02, 0x06, 0x00]), "end bad\n");
}
