//! Slip 3: shortest runs, held against breadth-first search: the states written, the places beyond, the
//! number where the call is refused, the words kept, and 8 at the edge of N.

use calls::compare::{compare_relations, number_of};
use calls::kept;
use calls::sound::sound;
use calls::words::Words;
use calls::writer::{counter, frame, rules, write, Plan};
use kudzuclamp::{words_for, Account, Refusal, Table, Target};
use reference::book::Book;
use reference::formula::Kind;
use reference::random::Random;
use reference::refusal::Refusal as BookRefusal;

/// What the places of a list hold before the call, so that each write shows.
fn guards(places: usize) -> Vec<u16> {
    (0..places).map(|place| 0xA000 + place as u16).collect()
}

/// How often each number came, 0 for answered; how many edges of 8 were tried; the longest run.
#[derive(Debug, Default)]
struct Seen {
    numbers: [u64; 15],
    edges: u64,
    single: u64,
    longest: usize,
    /// Rooms in which some states do not exist.
    partial: u64,
}

/// A formula of valid.
fn plain(random: &mut Random, n: u32) -> Vec<u8> {
    let plan = Plan {
        kind: Kind::Valid,
        n: n as u8,
        registers: Vec::new(),
        relations: Vec::new(),
        size: 1 + random.below(7),
        binders: 0,
        slip: false,
    };
    write(random, plan)
}

/// A table and a book with registers 0 and 1 and relation 0 filled, where the rows are enough.
struct Room {
    table: Table<Vec<u32>>,
    book: Book,
}

impl Room {
    /// Every state exists.
    fn new(n: u32, rows: u64, relation: &[u8], sets: [&[u8]; 2]) -> Option<Room> {
        Room::within(n, rows, &frame(&[0x01]), relation, sets)
    }

    /// The states that exist are those of a formula (Slip 6).
    fn within(n: u32, rows: u64, valid: &[u8], relation: &[u8], sets: [&[u8]; 2]) -> Option<Room> {
        let mut accounts = [Account::unlimited()];
        let mut table = Table::new(&mut accounts, n, rows as u32).expect("sizes fit");
        let mut plenty = [reference::accounts::Account::LARGEST];
        let words = words_for(rows as u32) as u64;
        let mut book = Book::fresh(n.into(), rows, words, &mut plenty).expect("sizes fit");
        table.valid(valid).ok()?;
        book.make_valid(valid).expect("as the table");
        table.relation(0, relation).ok()?;
        book.relation(0, relation).expect("as the table");
        for (r, set) in sets.into_iter().enumerate() {
            table
                .set(&mut accounts, Target::register(r as u32), set)
                .ok()?;
            let stored = book.set(&mut plenty, 0, r as u64, 0, set);
            stored.expect("as the table");
        }
        Some(Room { table, book })
    }

    /// Makes the call on both, for a list of so many places, and compares.
    fn compare(&mut self, seen: &mut Seen, a: u64, b: u64, t: u64, places: usize) -> u8 {
        let before = self.table.words().to_vec();
        let mut list = guards(places);
        let got = (self.table).write_shortest(&mut list, a as u32, b as u32, t as u32);
        let wanted = self.book.shortest(a, b, t, places);
        let number = number_of(&got);
        seen.numbers[usize::from(number)] += 1;
        match &wanted {
            Ok(run) => {
                assert_eq!((got, &list[..run.len()]), (Ok(run.len()), &run[..]));
                assert_eq!(list[run.len()..], guards(places)[run.len()..]);
                seen.single += u64::from(run.len() == 1);
                seen.longest = seen.longest.max(run.len());
            }
            Err(refusal) => {
                assert_eq!((number, &list), (refusal.number(), &guards(places)));
            }
        }
        self.compare_words(&before, number);
        number
    }

    /// 2, 3 and 7 keep all words, the others what registers and relations need.
    fn compare_words(&mut self, before: &[u32], number: u8) {
        let after = self.table.words().to_vec();
        match number {
            2..=7 => kept::all(before, &after).unwrap(),
            _ => kept::needed(before, &after, None).unwrap(),
        }
        sound(&after).unwrap();
        compare_relations(Words(&after), &self.book).unwrap();
        for r in [0, 1] {
            let count = self.table.count(r).map(u64::from);
            assert_eq!(count.ok(), self.book.count(r.into()).ok());
        }
    }

    /// The book with another N.
    fn book_with(&self, rows: usize) -> Book {
        let registers = self.book.registers().to_vec();
        Book::with(
            self.book.n(),
            rows,
            self.book.valid().clone(),
            registers,
            self.book.relations().to_vec(),
        )
    }

    /// The least N that is not full, of 1 to the book's.
    fn edge(&self, a: u64, b: u64) -> usize {
        let full = |rows: &usize| {
            let run = self.book_with(*rows).shortest(a, b, 0, 1 << 16);
            run == Err(BookRefusal::Full)
        };
        let (mut low, mut high) = (0, self.book.rows());
        while low + 1 < high {
            let middle = (low + high) / 2;
            match full(&middle) {
                true => low = middle,
                false => high = middle,
            }
        }
        high
    }
}

/// All of the room's questions, with lists as long as the run, one shorter, and longer; then the same on
/// tables of as many rows as the call needs, and of one fewer, where these can be filled.
fn compare_room(
    random: &mut Random,
    seen: &mut Seen,
    n: u32,
    valid: &[u8],
    relation: &[u8],
    sets: [&[u8]; 2],
) {
    let mut room = Room::within(n, 3_000, valid, relation, sets).expect("rows in plenty");
    seen.partial += u64::from(!room.book.valid().is_full());
    let mut ways = vec![(0, 1), (1, 0)];
    ways.extend(random.chance(10).then_some((0, 0)));
    for (a, b) in ways {
        let run = room.book.shortest(a, b, 0, 1 << 16);
        let states = run.as_ref().map_or(0, Vec::len);
        let longer = states + 1 + random.below(5) as usize;
        for places in [states, states.saturating_sub(1), longer, 0] {
            room.compare(seen, a, b, 0, places);
        }
        let edge = room.edge(a, b);
        for rows in [edge, edge.saturating_sub(1), edge + 1] {
            if rows == 0 {
                continue;
            }
            if let Some(mut small) = Room::within(n, rows as u64, valid, relation, sets) {
                let number = small.compare(seen, a, b, 0, 1 << n);
                assert_eq!(number == 8, rows < edge, "N = {rows}, edge {edge}");
                seen.edges += u64::from(rows < edge);
            }
        }
    }
}

/// The state, as an AND of its bits from `base` on.
fn state(n: u32, base: u8, state: u64) -> Vec<u8> {
    let mut body = vec![0x01];
    for p in 0..n as u8 {
        let literal = match state >> p & 1 {
            1 => vec![base + p],
            _ => vec![0x02, base + p],
        };
        body = [vec![0x03], literal, body].concat();
    }
    body
}

/// An OR of some states or pairs.
fn either(parts: Vec<Vec<u8>>) -> Vec<u8> {
    let or = |body: Vec<u8>, part: Vec<u8>| [vec![0x04], part, body].concat();
    parts.into_iter().fold(vec![0x00], or)
}

fn some_pairs(random: &mut Random, n: u32) -> Vec<u8> {
    let most = [0, 4, 12, 20, 24, 22][n as usize];
    let mut pairs = Vec::new();
    for _ in 0..random.below(most + 1) {
        let (now, next) = (random.below(1 << n), random.below(1 << n));
        let pair = [vec![0x03], state(n, 0x10, now), state(n, 0x20, next)].concat();
        pairs.push(pair);
    }
    either(pairs)
}

fn some_states(random: &mut Random, n: u32) -> Vec<u8> {
    let many = random.pick(&[0, 1, 1, 1, 2, 3]);
    let states = (0..many).map(|_| state(n, 0x10, random.below(1 << n)));
    let body = either(states.collect());
    match random.chance(5) {
        true => [vec![0x02], body].concat(),
        false => body,
    }
}

#[test]
fn drawn_rooms() {
    let (mut random, mut seen) = (Random::new(31), Seen::default());
    for round in 0..400 {
        let n = [1, 2, 3, 3, 4, 4, 4, 5][round % 8];
        let relation = match random.below(10) {
            0..=5 => some_pairs(&mut random, n),
            6 => counter(n as u8, random.chance(50)),
            _ => rules(&mut random, n as u8),
        };
        let sets = [some_states(&mut random, n), some_states(&mut random, n)];
        let sets = sets.map(|set| frame(&set));
        let sets = [&sets[0][..], &sets[1][..]];
        // In half of the rooms V is drawn.
        let valid = match round % 2 == 0 {
            true => frame(&[0x01]),
            false => frame(&plain(&mut random, n)),
        };
        compare_room(&mut random, &mut seen, n, &valid, &frame(&relation), sets);
    }
    let enough = |number: usize, least: u64| seen.numbers[number] > least;
    assert!(enough(0, 300) && enough(8, 60) && enough(10, 300) && enough(11, 200));
    assert!(seen.edges > 60 && seen.single > 20 && seen.longest > 8 && seen.partial > 100);
    eprintln!("{seen:?}");
}

/// The longest run at n = 4: all 16 states of the counter, each of them once.
#[test]
fn longest() {
    let (mut random, mut seen) = (Random::new(32), Seen::default());
    let relation = frame(&counter(4, true));
    let sets = [frame(&state(4, 0x10, 0)), frame(&state(4, 0x10, 15))];
    let all = frame(&[0x01]);
    compare_room(
        &mut random,
        &mut seen,
        4,
        &all,
        &relation,
        [&sets[0], &sets[1]],
    );
    assert_eq!(seen.longest, 16);
    let mut room = Room::new(4, 100, &relation, [&sets[0], &sets[1]]).unwrap();
    let all: Vec<u16> = (0..16).collect();
    assert_eq!(room.table.shortest(0, 1, 0), Ok(all));
}

/// 3 before 7, a before b before t; an empty set a is no short cut; unsound words.
#[test]
fn checks() {
    let mut seen = Seen::default();
    let sets = [frame(&[0x00]), frame(&[0x10])];
    let mut room = Room::new(2, 100, &frame(&[0x11]), [&sets[0], &sets[1]]).unwrap();
    let far = u64::from(u32::MAX);
    for (a, b, t) in [(32, 1, 0), (0, 32, 0), (0, 1, 8), (far, 2, 1), (2, 32, 9)] {
        assert_eq!(room.compare(&mut seen, a, b, t, 9), 3);
    }
    for (a, b, t) in [(2, 1, 0), (0, 31, 0), (0, 1, 7), (2, 3, 1)] {
        assert_eq!(room.compare(&mut seen, a, b, t, 9), 7);
    }
    assert_eq!(room.compare(&mut seen, 0, 1, 0, 9), 10);
    let mut full = Room::new(2, 6, &frame(&[0x11]), [&sets[0], &sets[1]]).unwrap();
    assert_eq!(full.compare(&mut seen, 0, 1, 0, 9), 8);
    let mut list = guards(9);
    room.table.words_mut()[0] = 17;
    let before = room.table.words().to_vec();
    assert_eq!(
        room.table.write_shortest(&mut list, 0, 1, 0),
        Err(Refusal::Unsound)
    );
    assert_eq!((list, room.table.words()), (guards(9), &before[..]));
}
