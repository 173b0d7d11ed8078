//! Draws logs, and the call for two of them (Slip 11) for a book as it stands.

use crate::call::{filled, Cost};
use crate::games::relation;
use reference::book::{Book, Call};
use reference::logs::{make_set, moments, Entry, Log};
use reference::random::Random;
use reference::states::PairSet;

/// The call for two logs, and its cost where its numbers are in range and the relation is filled.
pub fn draw_logged(random: &mut Random, book: &Book) -> (Call, Option<Cost>) {
    let t = relation(random, book);
    let named = book.relations().get(t as usize).and_then(Option::as_ref);
    let nowhere = PairSet::from_fn(book.n(), |_, _| false);
    let [one, mut two] = draw_logs(random, book.n(), named.unwrap_or(&nowhere));
    if random.chance(4) {
        two = random
            .pick(&[&[&one[..], &two[..]], &[&[][..]; 2]])
            .concat();
    }
    let states = one.len();
    let places = match random.below(100) {
        0..=69 => states,
        70..=84 => states + random.below(4) as usize,
        85..=94 => states - 1,
        _ => 0,
    };
    let cost = named.and_then(|_| cost_of(book, t, [&one, &two]));
    let call = Call::Logged {
        t,
        one,
        two,
        places,
    };
    (call, cost)
}

/// Whether a run can be asked for.
pub fn loggable(book: &Book) -> bool {
    !filled(book.relations()).is_empty()
}

/// The largest need of the call's steps, where the lengths fit.
fn cost_of(book: &Book, t: u64, [one, two]: [&Log; 2]) -> Option<Cost> {
    let moments = moments(one, two).ok()?;
    let made = make_set(book.held(), usize::MAX, t as usize, &moments, 0).ok()?;
    Some(Cost {
        peak: made.peak,
        rounds: 0,
    })
}

/// An entry for a state: some of its bits, now and then others, outside the mask or above n.
fn draw_entry(random: &mut Random, n: u32, state: usize) -> Entry {
    let mask = match random.below(20) {
        0..=1 => 0,
        2 => random.below(1 << 16),
        3 => (1 << n) - 1,
        _ => random.below(1 << n) & random.below(1 << n),
    };
    let value = match random.below(60) {
        0 => random.below(1 << 16),
        1 => state as u64,
        2..=3 => random.below(1 << n) & mask,
        _ => state as u64 & mask,
    };
    let (mask, value) = (mask as u16, value as u16);
    Entry { mask, value }
}

/// Two logs of one to seven states that mostly follow one another.
pub fn draw_logs(random: &mut Random, n: u32, relation: &PairSet) -> [Log; 2] {
    let most = random.pick(&[1, 2, 2, 3, 4, 7]);
    let mut state = random.below(1 << n) as usize;
    let mut logs = [Vec::new(), Vec::new()];
    for _ in 0..=random.below(most) {
        for log in &mut logs {
            log.push(draw_entry(random, n, state));
        }
        let nexts: Vec<usize> = (0..1 << n)
            .filter(|&u| relation.contains(state, u))
            .collect();
        state = match nexts.is_empty() || random.chance(3) {
            true => random.below(1 << n) as usize,
            false => random.pick(&nexts),
        };
    }
    logs
}
