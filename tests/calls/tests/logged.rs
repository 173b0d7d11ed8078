//! Slip 11: runs that fit two logs, held against a search over all runs: the states written, the places beyond, the
//! number where the call is refused, the words kept, what the table holds after it, and 8 at the edge of N.
//!
//! `KUDZUCLAMP_LOGS` rooms (150) from seed `KUDZUCLAMP_SEED` (11); 5,300 rooms make 200,000 calls.

use calls::kept;
use calls::logs::draw_logs;
use calls::sound::sound;
use calls::turns::{pairs, state};
use calls::words::Words;
use calls::writer::{counter, frame, one_state, rules};
use kudzuclamp::{Account, Table, Target};
use reference::book::{words_for, Book, REGISTERS, RELATIONS};
use reference::coins::holds;
use reference::formula::{check, Kind};
use reference::logs::{make_set, moments, Entry, Log};
use reference::random::Random;
use reference::refusal::Refusal;
use reference::states::{PairSet, StateSet};
use std::collections::HashMap;
use std::env;

extern "C" {
    fn kudzuclamp_logged(
        words: *mut u32,
        words_len: usize,
        list: *mut u16,
        list_len: usize,
        t: u32,
        one: *const u16,
        one_len: usize,
        two: *const u16,
        two_len: usize,
    ) -> u32;
}

/// Two filled relations; the others are empty.
const FILLED: [u64; 2] = [3, 6];

/// How often each number came, 0 for answered; edges of 8 by N; rooms in which some states do not exist; the longest run.
#[derive(Debug, Default)]
struct Seen {
    numbers: [u64; 16],
    edges: u64,
    partial: u64,
    longest: usize,
}

/// What the places of a list hold before the call, so that each write shows.
fn guards(places: usize) -> Vec<u16> {
    (0..places).map(|place| 0xA000 + place as u16).collect()
}

/// A log as it is lent.
fn lent(log: &[Entry]) -> Vec<u16> {
    log.iter().flat_map(|e| [e.mask, e.value]).collect()
}

/// The number of the call, and the list after it.
fn ask(words: &mut [u32], t: u64, one: &[u16], two: &[u16], places: usize) -> (u32, Vec<u16>) {
    let mut list = guards(places);
    // SAFETY: pointers and lengths are those of slices and a vector; the mutable ones overlap nothing.
    let number = unsafe {
        kudzuclamp_logged(
            words.as_mut_ptr(),
            words.len(),
            list.as_mut_ptr(),
            list.len(),
            t as u32,
            one.as_ptr(),
            one.len(),
            two.as_ptr(),
            two.len(),
        )
    };
    (number, list)
}

/// The bytes that a room is made of.
#[derive(Clone, Debug)]
struct Rules {
    n: u32,
    valid: Vec<u8>,
    relations: [Vec<u8>; 2],
    sets: Vec<Vec<u8>>,
}

impl Rules {
    /// The book with what the bytes say, pair by pair and state by state.
    fn book(&self, rows: u64) -> Book {
        let n = self.n;
        let read = |bytes: &[u8]| {
            let nothing = |_: usize| false;
            check(n, Kind::Relation, bytes, nothing, nothing).expect("a formula of bits")
        };
        let exists = read(&self.valid);
        let valid = StateSet::from_fn(n, |s| holds(&exists, s, 0));
        let (mut registers, mut relations) = (vec![None; REGISTERS], vec![None; RELATIONS]);
        for (register, bytes) in registers.iter_mut().zip(&self.sets) {
            let set = read(bytes);
            let member = |s| valid.contains(s) && holds(&set, s, 0);
            *register = Some(StateSet::from_fn(n, member));
        }
        for (t, bytes) in FILLED.into_iter().zip(&self.relations) {
            let leads = read(bytes);
            let exist = |s, t| valid.contains(s) && valid.contains(t);
            let pairs = PairSet::from_fn(n, |s, t| exist(s, t) && holds(&leads, s, t));
            relations[t as usize] = Some(pairs);
        }
        Book::with(n, rows as usize, valid, registers, relations)
    }
}

/// What a call comes to with places in plenty, each found once.
type Known = HashMap<(u64, Log, Log), Result<Vec<u16>, Refusal>>;

/// A table and a book with the same in them.
struct Room {
    words: Vec<u32>,
    book: Book,
    known: Known,
}

impl Room {
    /// The room in a table of so many rows, where these are enough to fill it.
    fn new(rules: &Rules, rows: u64) -> Option<Room> {
        let mut accounts = [Account::unlimited()];
        let words = vec![0xA5A5_A5A5; words_for(rows) as usize + 3];
        let table = Table::fresh(words, &mut accounts, rules.n, rows as u32);
        let mut table = table.expect("sizes fit");
        table.valid(&rules.valid).ok()?;
        for (t, bytes) in FILLED.into_iter().zip(&rules.relations) {
            table.relation(t as u32, bytes).ok()?;
        }
        for (r, bytes) in (0..).zip(&rules.sets) {
            table.set(&mut accounts, Target::register(r), bytes).ok()?;
        }
        let (words, book) = (table.into_words(), rules.book(rows));
        let known = Known::default();
        Some(Room { words, book, known })
    }

    /// Makes the call for a list of so many places, and compares.
    fn compare(&mut self, seen: &mut Seen, t: u64, [one, two]: [&Log; 2], places: usize) -> u32 {
        let before = self.words.clone();
        let (number, list) = ask(&mut self.words, t, &lent(one), &lent(two), places);
        seen.numbers[number as usize] += 1;
        let (book, key) = (&self.book, (t, one.clone(), two.clone()));
        let found = self.known.entry(key);
        let found = found.or_insert_with(|| book.logged(t, one, two, usize::MAX));
        let what = || format!("relation {t}, {one:?}, {two:?}, {places} places");
        let mut wanted = guards(places);
        match found {
            Ok(run) if run.len() > places => assert_eq!(number, 11, "{}", what()),
            Ok(run) => {
                assert_eq!(number, 0, "{}", what());
                wanted[..run.len()].copy_from_slice(run);
                seen.longest = seen.longest.max(run.len());
            }
            Err(refusal) => assert_eq!(number, refusal.number().into(), "{}", what()),
        }
        assert_eq!(list, wanted, "{}", what());
        match number {
            1..=7 => kept::all(&before, &self.words).unwrap(),
            _ => kept::needed(&before, &self.words, None).unwrap(),
        }
        sound(&self.words).unwrap();
        number
    }

    /// The relation that logs are drawn for.
    fn main(&self) -> &PairSet {
        let relation = self.book.relations()[FILLED[0] as usize].as_ref();
        relation.expect("filled")
    }

    /// Registers, relations and V by the words.
    fn compare_contents(&self) {
        let read = Words(&self.words).book();
        assert_eq!(read.registers(), self.book.registers());
        assert_eq!(read.relations(), self.book.relations());
        assert_eq!(read.valid(), self.book.valid());
    }

    /// The largest need of a step of the call.
    fn peak(&self, t: u64, [one, two]: [&Log; 2]) -> usize {
        let moments = moments(one, two).expect("lengths fit");
        let made = make_set(self.book.held(), usize::MAX, t as usize, &moments, 0);
        made.unwrap_or_else(|_| panic!("rows in plenty")).peak
    }
}

/// Lists as long as the run, shorter and longer; the other relation; then the same in tables of as many rows as the call
/// needs, of one fewer and one more, where these are enough for the room.
fn compare_logs(
    random: &mut Random,
    seen: &mut Seen,
    rules: &Rules,
    room: &mut Room,
    logs: [&Log; 2],
) {
    let (states, [t, other]) = (logs[0].len(), FILLED);
    let more = states + 1 + random.below(5) as usize;
    for places in [states, states - 1, more, 0] {
        room.compare(seen, t, logs, places);
    }
    room.compare(seen, other, logs, states);
    room.compare_contents();
    let peak = room.peak(t, logs);
    for rows in [peak, peak.saturating_sub(1), peak + 1] {
        let filled = (rows > 0).then(|| Room::new(rules, rows as u64)).flatten();
        let Some(mut tight) = filled else {
            continue;
        };
        let number = tight.compare(seen, t, logs, states);
        assert_eq!(number == 8, rows < peak, "N = {rows}, peak {peak}");
        seen.edges += u64::from(rows < peak);
        tight.compare(seen, t, logs, 0);
        tight.compare_contents();
    }
}

/// 1, 2, 3 and 7, with later causes beside them.
fn compare_wrong(random: &mut Random, seen: &mut Seen, room: &mut Room, [one, two]: [&Log; 2]) {
    let (states, places) = (one.len(), random.below(4) as usize);
    for t in [RELATIONS as u64, u64::from(u32::MAX)] {
        assert_eq!(room.compare(seen, t, [one, two], places), 3);
    }
    assert_eq!(room.compare(seen, 0, [one, two], places), 7);
    let longer = [&one[..], &one[..]].concat();
    assert_eq!(room.compare(seen, 8, [one, &longer], places), 1);
    assert_eq!(room.compare(seen, 8, [&longer, one], places), 1);
    assert_eq!(room.compare(seen, 8, [&Vec::new(), &Vec::new()], places), 1);
    // Half an entry, on sound words and on others.
    let mut words = room.words.clone();
    let place = random.pick(&[0, 1, 7, 15]);
    let cut = 2 * states - 1;
    for value in [words[place], 0] {
        words[place] = value;
        let before = words.clone();
        let (one, two) = (lent(one), lent(two));
        let got = ask(&mut words, 3, &one[..cut], &two[..cut], states);
        assert_eq!(got, (1, guards(states)));
        kept::all(&before, &words).unwrap();
        seen.numbers[1] += 1;
    }
    let before = words.clone();
    let t = random.pick(&[0, 3, 8]);
    let got = ask(&mut words, t, &lent(one), &lent(two), states);
    assert_eq!(got, (2, guards(states)));
    kept::all(&before, &words).unwrap();
    seen.numbers[2] += 1;
}

fn draw_relation(random: &mut Random, n: u32) -> Vec<u8> {
    match random.below(10) {
        0..=1 => counter(n as u8, random.chance(50)),
        2..=3 => {
            let pair = |random: &mut Random| {
                (random.below(1 << n) as usize, random.below(1 << n) as usize)
            };
            let drawn: Vec<_> = (0..1 + random.below(6)).map(|_| pair(random)).collect();
            pairs(n, &drawn)
        }
        4 => vec![0x01],
        _ => rules(random, n as u8),
    }
}

fn draw_rules(random: &mut Random, n: u32) -> Rules {
    let valid = match random.below(10) {
        0..=4 => vec![0x01],
        5..=7 if n > 1 => vec![0x02, 0x03, 0x10, 0x11],
        8 => vec![0x04, 0x10, random.below(2) as u8],
        _ => [vec![0x02], state(n, 0x10, random.below(1 << n) as usize)].concat(),
    };
    let set = |random: &mut Random| match random.chance(60) {
        true => one_state(random, n as u8),
        false => vec![0x10 + random.below(n.into()) as u8],
    };
    let sets = (0..random.below(4)).map(|_| frame(&set(random))).collect();
    Rules {
        n,
        valid: frame(&valid),
        relations: [draw_relation(random, n), draw_relation(random, n)].map(|f| frame(&f)),
        sets,
    }
}

/// A number from the environment.
fn setting(name: &str, default: u64) -> u64 {
    let Ok(text) = env::var(name) else {
        return default;
    };
    text.parse()
        .unwrap_or_else(|_| panic!("{name} is no number"))
}

#[test]
fn drawn_rooms() {
    let (rooms, seed) = (
        setting("KUDZUCLAMP_LOGS", 150),
        setting("KUDZUCLAMP_SEED", 11),
    );
    let (mut random, mut seen) = (Random::new(seed), Seen::default());
    for round in 0..rooms {
        let n = [1, 2, 2, 3, 3, 3, 3, 4][round as usize % 8] + u32::from(round % 32 == 31);
        let rules = draw_rules(&mut random, n);
        let mut room = Room::new(&rules, 3_000).expect("rows in plenty");
        seen.partial += u64::from(!room.book.valid().is_full());
        for _ in 0..4 {
            let [one, two] = draw_logs(&mut random, n, room.main());
            compare_logs(&mut random, &mut seen, &rules, &mut room, [&one, &two]);
        }
        let [one, two] = draw_logs(&mut random, n, room.main());
        compare_wrong(&mut random, &mut seen, &mut room, [&one, &two]);
    }
    let calls: u64 = seen.numbers.iter().sum();
    eprintln!("seed {seed}: {rooms} rooms, {calls} calls, {seen:?}");
    for number in [0, 1, 2, 3, 7, 8, 10, 11] {
        assert!(seen.numbers[number] > rooms / 2, "{number}: {seen:?}");
    }
    assert!(seen.edges > rooms / 4 && seen.partial > rooms / 5 && seen.longest > 6);
}

/// A room with the states and the pairs of two formulas, in both relations.
fn room(n: u32, rows: u64, valid: &[u8], relation: &[u8], sets: &[&[u8]]) -> Room {
    let rules = Rules {
        n,
        valid: frame(valid),
        relations: [frame(relation), frame(relation)],
        sets: sets.iter().map(|body| frame(body)).collect(),
    };
    Room::new(&rules, rows).expect("rows in plenty")
}

/// Two bits and every pair of states that exist.
fn hall(rows: u64, valid: &[u8], sets: &[&[u8]]) -> Room {
    room(2, rows, valid, &[0x01], sets)
}

fn log(entries: &[(u16, u16)]) -> Log {
    let entry = |&(mask, value): &(u16, u16)| Entry { mask, value };
    entries.iter().map(entry).collect()
}

/// Logs of 1, 2 and 1,024 entries, and of one more.
#[test]
fn lengths() {
    let mut seen = Seen::default();
    let mut room = hall(100, &[0x01], &[]);
    for entries in [1, 2, 1024] {
        let log = log(&vec![(0, 0); entries]);
        assert_eq!(room.compare(&mut seen, 3, [&log, &log], entries), 0);
        assert_eq!(room.compare(&mut seen, 3, [&log, &log], entries - 1), 11);
    }
    let log = log(&[(0, 0); 1025]);
    assert_eq!(room.compare(&mut seen, 3, [&log, &log], 2000), 1);
    assert_eq!(seen.longest, 1024);
}

/// (s & mask) == value of all 16 bits, and within V.
#[test]
fn masked_bits() {
    let mut seen = Seen::default();
    let mut room = hall(100, &[0x02, 0x03, 0x10, 0x11], &[]);
    let every = log(&[(0, 0); 3]);
    for never in [(0, 1), (1, 3), (4, 4), (8, 9), (0x8000, 0x8000), (3, 3)] {
        for place in 0..3 {
            let mut one = every.clone();
            one[place] = log(&[never])[0];
            assert_eq!(room.compare(&mut seen, 3, [&one, &every], 0), 10);
            assert_eq!(room.compare(&mut seen, 3, [&every, &one], 0), 10);
        }
    }
    let one = log(&[(0xFFFC, 0), (0xFFFF, 2), (1, 1)]);
    let two = log(&[(1, 1), (2, 2), (2, 0)]);
    let (number, list) = ask(&mut room.words, 3, &lent(&one), &lent(&two), 3);
    assert_eq!((number, list), (0, vec![1, 2, 1]));
}

/// Two logs that differ on a bit leave no state, and no row is made for the bits after it.
#[test]
fn logs_that_differ() {
    let (one, two) = (log(&[(3, 3)]), log(&[(1, 0)]));
    let mut room = hall(1, &[0x01], &[&[0x10]]);
    assert_eq!(room.compare(&mut Seen::default(), 3, [&one, &two], 1), 10);
    assert_eq!(room.compare(&mut Seen::default(), 3, [&one, &one], 1), 8);
}

/// "left before right": diamond, then the fitting states. n = 2, N = 3: the other order would be full.
#[test]
fn diamond_first() {
    let (one, two) = (log(&[(3, 2), (2, 0)]), log(&[(0, 0); 2]));
    let mut room = hall(3, &[0x01], &[&[0x10]]);
    let (number, list) = ask(&mut room.words, 3, &lent(&one), &lent(&two), 3);
    assert_eq!((number, list), (0, vec![2, 0, 0xA002]));
    assert_eq!(room.compare(&mut Seen::default(), 3, [&one, &two], 2), 0);
}

/// "All k sets are made before 10 is decided": no state fits the last entries, and the state of the first has two rows.
#[test]
fn all_sets_are_made() {
    let logs = log(&[(3, 3), (0, 1)]);
    for (rows, number) in [(1, 8), (2, 10)] {
        let mut room = hall(rows, &[0x01], &[]);
        let got = room.compare(&mut Seen::default(), 3, [&logs, &logs], 0);
        assert_eq!(got, number);
    }
}

/// The later set is live while the diamond is made, and those after it are not.
#[test]
fn live_sets() {
    let mut seen = Seen::default();
    let two = log(&[(0, 0), (3, 3)]);
    let three = log(&[(0, 0), (3, 0), (3, 3)]);
    for (rows, number) in [(4, 8), (5, 0)] {
        let mut room = hall(rows, &[0x01], &[]);
        assert_eq!(room.compare(&mut seen, 3, [&two, &two], 2), number);
        assert_eq!(room.compare(&mut seen, 3, [&three, &three], 3), number);
    }
}

/// It is live while the fitting states are made: those of (15, 15) have four rows, and none exists.
#[test]
fn live_while_states_fit() {
    let mut seen = Seen::default();
    let logs = log(&[(15, 15), (1, 1)]);
    for (rows, number) in [(6, 8), (7, 10)] {
        let mut room = room(4, rows, &[0x02, 0x13], &[0x01], &[]);
        assert_eq!(room.compare(&mut seen, 3, [&logs, &logs], 2), number);
    }
}

/// And in the last AND: bit 1 leads everywhere, and with bits 2 and 3 it takes a fifth row.
#[test]
fn live_until_it_is_made() {
    let mut seen = Seen::default();
    let logs = log(&[(12, 12), (1, 1)]);
    for (rows, number) in [(4, 8), (5, 0)] {
        let mut room = room(4, rows, &[0x01], &[0x11], &[]);
        assert_eq!(room.compare(&mut seen, 3, [&logs, &logs], 2), number);
    }
}
