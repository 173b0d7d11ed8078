//! `play` on random records: the five words of each are those of its call, as the separate evaluator has
//! it; and the room that the list must have.

use calls::records::{draw, Made};
use kudzuclamp::{play, Outcome, Refusal};
use reference::book::Call;
use reference::random::Random;

/// The words that the program lends.
const WORDS: usize = 16_384;
/// The words of a record in the list.
const ENTRY: usize = 5;

/// Number, rounds, value and peak; and the node number where it is settled.
fn compare(outcome: Outcome, made: &Made) {
    let Made {
        call,
        answer,
        states,
    } = made;
    let number = outcome.refusal.map_or(0, |refusal| refusal.number() as u8);
    let set = matches!(call, Call::Set { .. });
    let value = if set { *states } else { answer.value };
    let wanted = (
        answer.number,
        answer.rounds,
        value.unwrap_or(0),
        answer.peak,
    );
    let (rounds, value, peak) = (outcome.rounds, outcome.value.into(), outcome.peak as usize);
    assert_eq!((number, rounds, value, peak), wanted, "{call:?}");
    match answer.value.filter(|_| set) {
        Some(node) => assert_eq!(u64::from(outcome.node), node, "{call:?}"),
        None if set => assert!(outcome.node > 1, "{call:?}"),
        None => assert_eq!(outcome.node, 0, "{call:?}"),
    }
}

#[test]
fn every_word_is_that_of_the_call() {
    let mut random = Random::new(41);
    let mut peaks = 0;
    for _ in 0..300 {
        let (records, made) = draw(&mut random);
        let outcomes = play(&mut vec![0; WORDS], &records.concat()).expect("records can be read");
        assert_eq!(outcomes.len(), records.len());
        let fresh = outcomes[0];
        assert_eq!((fresh.refusal, fresh.node, fresh.rounds), (None, 0, 0));
        assert_eq!((fresh.value, fresh.peak), (0, 0));
        for (outcome, made) in outcomes.into_iter().skip(1).zip(&made) {
            compare(outcome, made);
            peaks += u32::from(outcome.peak > 0);
        }
    }
    assert!(peaks > 300, "{peaks}");
}

/// One play decides once whether the words are a sound table; a play for each record decides it each
/// time. Both leave the same words and outcomes: on words of an earlier list, damaged or not, with fresh
/// at any place among the records.
#[test]
fn one_play_and_a_play_for_each_record() {
    let mut random = Random::new(77);
    let (mut unsound, mut sound, mut mended) = (0, 0, 0);
    for _ in 0..500 {
        let mut words = vec![0; WORDS];
        play(&mut words, &draw(&mut random).0.concat()).expect("records can be read");
        for _ in 0..random.below(3) {
            words[random.below(400) as usize] = random.below(200) as u32;
        }
        let (mut records, _) = draw(&mut random);
        let place = random.below(records.len() as u64) as usize;
        records.swap(0, place);
        let mut other = words.clone();
        let whole = play(&mut words, &records.concat()).expect("records can be read");
        let mut parts = Vec::new();
        for record in &records {
            parts.extend(play(&mut other, record).expect("it can be read"));
        }
        assert_eq!(whole, parts);
        assert_eq!(words, other);
        let is_unsound = |outcome: &&Outcome| outcome.refusal == Some(Refusal::Unsound);
        let refused = whole.iter().filter(is_unsound).count();
        unsound += refused;
        sound += place.saturating_sub(refused);
        mended += usize::from(refused > 0 && refused < records.len());
        // no call after fresh is refused with 2
        assert!(!whole[place..].iter().any(|outcome| is_unsound(&outcome)));
    }
    assert!(unsound > 300 && sound > 300 && mended > 50);
}

extern "C" {
    fn kudzuclamp_play(
        words: *mut u32,
        words_len: usize,
        bytes: *const u8,
        bytes_len: usize,
        list: *mut u32,
        list_len: usize,
        count: *mut usize,
    ) -> u32;
}

/// Number, count, words and list after play on words of zeros and a list of so many sevens.
fn play_into(bytes: &[u8], length: usize) -> (u32, usize, Vec<u32>, Vec<u32>) {
    let (mut words, mut list, mut count) = (vec![0; WORDS], vec![7; length], 99);
    // SAFETY: pointers and lengths are those of vectors, a slice and a local.
    let number = unsafe {
        kudzuclamp_play(
            words.as_mut_ptr(),
            words.len(),
            bytes.as_ptr(),
            bytes.len(),
            list.as_mut_ptr(),
            list.len(),
            &mut count,
        )
    };
    (number, count, words, list)
}

/// Fewer than five words for each record: 100, and nothing is changed. Words past those of the records
/// are never written.
#[test]
fn room_for_five_words_a_record() {
    let mut random = Random::new(42);
    for _ in 0..20 {
        let (records, _) = draw(&mut random);
        let (bytes, needed) = (records.concat(), ENTRY * records.len());
        let (_, _, words, whole) = play_into(&bytes, needed);
        for length in [
            0,
            4 * records.len(),
            needed - 1,
            needed,
            needed + 1,
            needed + 9,
        ] {
            let (number, count, after, list) = play_into(&bytes, length);
            if length < needed {
                assert_eq!((number, count), (100, 0));
                assert_eq!((after, list), (vec![0; WORDS], vec![7; length]));
            } else {
                assert_eq!((number, count, &after), (0, records.len(), &words));
                assert_eq!(list[..needed], whole);
                assert_eq!(list[needed..], vec![7; length - needed]);
            }
        }
    }
}
