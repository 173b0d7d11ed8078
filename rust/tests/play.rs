//! `play` on document 01's listing and on records that cannot be read.
use kudzuclamp::{play, Refusal, Table, Unreadable};

/// Document 01's input, n = 1.
const LISTING: &[u8] = &[
    0x00, 0x05, 0x01, 0x01, 0x01, 0x00, 0x64, //
    0x00, 0x0F, 0x01, 0x02, 0x00, 0x00, 0x0A, 0x01, 0x04, 0x03, 0x20, 0x02, 0x10, 0x03, 0x02, 0x20,
    0x10, //
    0x00, 0x0F, 0x01, 0x03, 0x00, 0x00, 0x00, 0x00, 0x03, 0x00, 0x06, 0x01, 0x70, 0x04, 0x10, 0x68,
    0x30, //
    0x00, 0x02, 0x01, 0x06,
];

#[test]
fn listing() {
    let mut words = vec![0; 16_384];
    let outcomes = play(&mut words, LISTING).expect("every record can be read");
    let shown: Vec<_> = outcomes
        .iter()
        .map(|x| (x.refusal, x.node, x.value, x.rounds, x.peak))
        .collect();
    assert_eq!(
        shown,
        [
            (None, 0, 0, 0, 0),
            (None, 0, 0, 0, 4),
            (None, 1, 2, 3, 4),
            (None, 0, 2, 0, 0)
        ]
    );
    assert_eq!(Table::over(words).and_then(|table| table.count(0)), Ok(2));
}

#[test]
fn refused_calls_are_listed() {
    let mut words = vec![0; 16_384];
    let outcomes = play(&mut words, &LISTING[LISTING.len() - 4..]).expect("the record can be read");
    assert_eq!(outcomes[0].refusal, Some(Refusal::Unsound));
    assert_eq!(words, vec![0; 16_384]);
}

#[test]
fn nothing_changes_where_a_record_cannot_be_read() {
    for end in 0..LISTING.len() {
        let mut words = vec![7; 1_500];
        let whole = [0, 7, 24, 41].contains(&end);
        let played = play(&mut words, &LISTING[..end]);
        assert_eq!(played.is_ok(), whole, "{end} bytes");
        if !whole {
            assert_eq!(played, Err(Unreadable));
            assert_eq!(words, vec![7; 1_500]);
        }
    }
}
