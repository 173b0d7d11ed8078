//! Slip 13: cheapest runs, held against relaxing explicit steps: total, charge and number of states, the run that
//! is written, the places beyond, the number where the call is refused, and what a refusal keeps.

use calls::writer::{counter, frame, rules};
use kudzuclamp::{Account, Table, Target, MAX_ROWS};
use reference::coins::{coins, holds, Asked, Hall};
use reference::formula::{check, Formula, Kind};
use reference::random::Random;
use reference::states::StateSet;

extern "C" {
    fn kudzuclamp_cheapest(
        words: *const u32,
        words_len: usize,
        prices: *const u8,
        prices_len: usize,
        work: *mut u64,
        work_len: usize,
        states: *mut u16,
        states_len: usize,
        relations: *mut u8,
        relations_len: usize,
        a: u32,
        b: u32,
        total: *mut u32,
        charge: *mut u32,
        count: *mut u32,
    ) -> u32;
}

/// The lists that are lent.
#[derive(Clone, Debug, PartialEq, Eq)]
struct Lists {
    work: Vec<u64>,
    states: Vec<u16>,
    relations: Vec<u8>,
}

impl Lists {
    /// What the places hold before the call, so that each write shows.
    fn guards(asked: Asked) -> Lists {
        let work = (0..asked.work).map(|i| 0xA5A5_0000_F00D_0000 + i as u64);
        let states = (0..asked.states).map(|i| 0xA000 ^ i as u16);
        let relations = (0..asked.relations).map(|i| 0xA0 | (i % 16) as u8);
        Lists {
            work: work.collect(),
            states: states.collect(),
            relations: relations.collect(),
        }
    }
}

/// Number, total, charge and count that the call gave, and the lists after it.
fn ask(words: &[u32], asked: Asked) -> ([u32; 4], Lists) {
    let mut lists = Lists::guards(asked);
    let (mut total, mut charge, mut count) = (7, 7, 7);
    // SAFETY: pointers and lengths are those of slices and locals; they overlap nothing.
    let number = unsafe {
        kudzuclamp_cheapest(
            words.as_ptr(),
            words.len(),
            asked.prices.as_ptr(),
            asked.prices.len(),
            lists.work.as_mut_ptr(),
            lists.work.len(),
            lists.states.as_mut_ptr(),
            lists.states.len(),
            lists.relations.as_mut_ptr(),
            lists.relations.len(),
            asked.a,
            asked.b,
            &mut total,
            &mut charge,
            &mut count,
        )
    };
    ([number, total, charge, count], lists)
}

/// How often each number came, 0 for answered; runs of one state, runs for nothing, and the longest.
#[derive(Debug, Default)]
struct Seen {
    numbers: [u64; 15],
    single: u64,
    free: u64,
    longest: u32,
}

/// A table, and the same by explicit steps.
struct Room {
    n: u32,
    valid: StateSet,
    accounts: [Account; 1],
    table: Table<Vec<u32>>,
    hall: Hall,
}

/// The formula of bits that bytes are.
fn read(n: u32, bytes: &[u8]) -> Formula {
    check(n, Kind::Relation, bytes, |_| false, |_| false).expect("a formula of bits")
}

impl Room {
    /// The states that exist are those of a formula (Slip 6).
    fn new(n: u32, valid: &[u8]) -> Room {
        let mut accounts = [Account::unlimited()];
        let rows = if n < 8 { 4_000 } else { MAX_ROWS };
        let mut table = Table::new(&mut accounts, n, rows).expect("sizes fit");
        table.valid(valid).expect("rows in plenty");
        let exists = read(n, valid);
        Room {
            n,
            valid: StateSet::from_fn(n, |s| holds(&exists, s, 0)),
            accounts,
            table,
            hall: Hall::new(n),
        }
    }

    fn set(&mut self, r: usize, bytes: &[u8]) {
        let stored = (self.table).set(&mut self.accounts, Target::register(r as u32), bytes);
        stored.expect("rows in plenty");
        let set = read(self.n, bytes);
        let member = |s: usize| self.valid.contains(s) && holds(&set, s, 0);
        self.hall.fill(r, StateSet::from_fn(self.n, member));
    }

    /// A relation whose pairs are looked for among all.
    fn relation(&mut self, t: usize, bytes: &[u8]) {
        let (pairs, states) = (read(self.n, bytes), 0..1usize << self.n);
        let next = |now| states.clone().map(move |next| (now, next));
        let all = states.clone().flat_map(next);
        let found = all.filter(|&(now, next)| holds(&pairs, now, next));
        self.relation_of(t, bytes, found.collect());
    }

    /// A relation whose pairs are known, with others perhaps of states that do not exist.
    fn relation_of(&mut self, t: usize, bytes: &[u8], pairs: Vec<(usize, usize)>) {
        let loaded = self.table.relation(t as u32, bytes);
        loaded.expect("rows in plenty");
        let exist =
            |&(now, next): &(usize, usize)| self.valid.contains(now) && self.valid.contains(next);
        self.hall.lead(t, pairs.into_iter().filter(exist));
    }

    /// Makes the call and compares it; the number of steps where it is answered.
    fn compare(&self, seen: &mut Seen, asked: Asked) -> Option<usize> {
        let before = self.table.words().to_vec();
        let (got, lists) = ask(self.table.words(), asked);
        assert_eq!(before, self.table.words());
        seen.numbers[got[0] as usize] += 1;
        let before = Lists::guards(asked);
        let (total, steps) = match Hall::answer(Some(&self.hall), asked) {
            Ok(cost) => cost,
            Err(refusal) => {
                refused(self.n, got, &lists, refusal.number().into(), asked);
                return None;
            }
        };
        let states = steps + 1;
        assert_eq!(got, [0, total, coins(total), states as u32], "{asked:?}");
        let (run, by) = (&lists.states[..states], &lists.relations[..steps]);
        assert_eq!(self.hall.cost_of(asked, run, by), Some((total, steps)));
        assert_eq!(lists.states[states..], before.states[states..]);
        assert_eq!(lists.relations[steps..], before.relations[steps..]);
        let all = 1 << self.n;
        assert_eq!(lists.work[all..], before.work[all..]);
        seen.single += u64::from(steps == 0);
        seen.free += u64::from(total == 0 && steps > 0);
        seen.longest = seen.longest.max(states as u32);
        Some(steps)
    }

    /// Calls between the registers with lists in plenty; and, where there is a run, with lists as long as it and
    /// one place shorter.
    fn compare_runs(&self, random: &mut Random, seen: &mut Seen, ways: &[(u32, u32)]) {
        let all = 1usize << self.n;
        for &(a, b) in ways {
            let prices = some_prices(random);
            let plenty = Asked {
                prices: &prices,
                work: all + random.below(3) as usize,
                states: all + 2,
                relations: all + 2,
                a,
                b,
            };
            let Some(steps) = self.compare(seen, plenty) else {
                continue;
            };
            let lists = [
                (steps + 1, steps),
                (steps, steps),
                (steps + 1, steps.saturating_sub(1)),
                (0, all),
            ];
            for (states, relations) in lists {
                let asked = Asked {
                    work: all,
                    states,
                    relations,
                    ..plenty
                };
                self.compare(seen, asked);
            }
        }
    }

    /// A call of which any part may be wrong, several at once.
    fn compare_wrong(&self, random: &mut Random, seen: &mut Seen) {
        let all = 1u64 << self.n;
        let mut prices = some_prices(random);
        prices.resize(random.pick(&[8, 8, 8, 8, 8, 0, 7, 9]), 1);
        let register = |random: &mut Random| random.pick(&[0, 1, 2, 0, 1, 2, 3, 31, 32, u32::MAX]);
        let asked = Asked {
            prices: &prices,
            work: random.pick(&[all, all, all + 1, all - 1, 0]) as usize,
            states: random.pick(&[all, 1, 0]) as usize,
            relations: random.pick(&[all, 1, 0]) as usize,
            a: register(random),
            b: register(random),
        };
        if random.chance(85) {
            self.compare(seen, asked);
            return;
        }
        let mut broken = self.table.words().to_vec();
        broken[0] = 17;
        let before = broken.clone();
        let (got, lists) = ask(&broken, asked);
        assert_eq!(before, broken);
        seen.numbers[got[0] as usize] += 1;
        let refusal = Hall::answer(None, asked).expect_err("no sound table");
        refused(self.n, got, &lists, refusal.number().into(), asked);
    }
}

/// A refused call gives zeros and keeps both lists; 1 to 7 keep the work words too, 10 and 11 those past the first 2^n.
fn refused(n: u32, got: [u32; 4], lists: &Lists, number: u32, asked: Asked) {
    assert_eq!(got, [number, 0, 0, 0], "{asked:?}");
    let before = Lists::guards(asked);
    assert_eq!(
        (&lists.states, &lists.relations),
        (&before.states, &before.relations)
    );
    let free = if number > 7 { 1 << n } else { 0 };
    assert_eq!(lists.work[free..], before.work[free..]);
}

/// The state, as an AND of its bits from `base` on.
fn state(n: u32, base: u8, state: usize) -> Vec<u8> {
    let mut body = vec![0x01];
    for p in 0..n as u8 {
        let literal = match state >> p & 1 {
            1 => vec![base + p],
            _ => vec![0x02, base + p],
        };
        body = [vec![0x03], literal, body].concat();
    }
    body
}

fn either(parts: Vec<Vec<u8>>) -> Vec<u8> {
    let or = |body: Vec<u8>, part: Vec<u8>| [vec![0x04], part, body].concat();
    parts.into_iter().fold(vec![0x00], or)
}

fn both(parts: Vec<Vec<u8>>) -> Vec<u8> {
    let and = |body: Vec<u8>, part: Vec<u8>| [vec![0x03], part, body].concat();
    parts.into_iter().fold(vec![0x01], and)
}

fn pair(n: u32, (now, next): (usize, usize)) -> Vec<u8> {
    [vec![0x03], state(n, 0x10, now), state(n, 0x20, next)].concat()
}

fn draw_state(random: &mut Random, n: u32) -> usize {
    random.below(1 << n) as usize
}

fn some_pairs(random: &mut Random, n: u32, most: u64) -> Vec<(usize, usize)> {
    let many = random.below(most + 1);
    let draw = |_| (draw_state(random, n), draw_state(random, n));
    (0..many).map(draw).collect()
}

fn some_states(random: &mut Random, n: u32) -> Vec<u8> {
    let many = random.pick(&[0, 1, 1, 1, 2, 3]);
    let draw = |_| state(n, 0x10, draw_state(random, n));
    frame(&either((0..many).map(draw).collect()))
}

fn some_prices(random: &mut Random) -> Vec<u8> {
    let kind = random.below(4);
    let price = |random: &mut Random| match kind {
        0 => 0,
        1 => random.below(3) as u8,
        2 => random.pick(&[0, 1, 9, 10, 11, 255]),
        _ => random.word() as u8,
    };
    (0..8).map(|_| price(random)).collect()
}

/// Rooms of formulas of any kind; in a third of them some states do not exist.
#[test]
fn drawn_rooms() {
    let (mut random, mut seen) = (Random::new(113), Seen::default());
    for round in 0..400 {
        let n = [1, 2, 3, 3, 4, 4, 4, 5][round % 8];
        let valid = match round % 3 {
            0 => vec![0x04, 0x10, 0x10 + random.below(n.into()) as u8],
            _ => vec![0x01],
        };
        let mut room = Room::new(n, &frame(&valid));
        for t in (0..8).filter(|_| random.chance(55)).collect::<Vec<_>>() {
            let most = [0, 4, 12, 20, 24, 22][n as usize];
            let formula = match random.below(10) {
                0..=6 => {
                    let pairs = some_pairs(&mut random, n, most);
                    either(pairs.into_iter().map(|known| pair(n, known)).collect())
                }
                7 => counter(n as u8, random.chance(50)),
                _ => rules(&mut random, n as u8),
            };
            room.relation(t, &frame(&formula));
        }
        for r in 0..3 {
            room.set(r, &some_states(&mut random, n));
        }
        room.compare_runs(&mut random, &mut seen, &[(0, 1), (1, 0), (0, 2), (2, 2)]);
        for _ in 0..10 {
            room.compare_wrong(&mut random, &mut seen);
        }
    }
    let enough = |number: usize, least: u64| seen.numbers[number] > least;
    assert!(
        enough(0, 300) && enough(10, 200) && enough(11, 200),
        "{seen:?}"
    );
    assert!(
        enough(1, 200) && enough(2, 200) && enough(3, 200) && enough(7, 100),
        "{seen:?}"
    );
    assert!(
        seen.single > 20 && seen.longest > 6 && seen.free > 20,
        "{seen:?}"
    );
    eprintln!("{seen:?}");
}

/// Bit p turns over.
fn turns(p: u8) -> Vec<u8> {
    let (now, next) = (0x10 + p, 0x20 + p);
    vec![0x04, 0x03, next, 0x02, now, 0x03, 0x02, next, now]
}

/// Bit p keeps its value.
fn keeps(p: u8) -> Vec<u8> {
    [vec![0x02], turns(p)].concat()
}

/// The next state is the number after the current one, as in `counter`, in fewer bytes: a bit turns over exactly
/// where the bit below it turns from 1 to 0.
fn short_counter(n: u32) -> Vec<u8> {
    let above = |p: u8| {
        let (turned, carried) = (turns(p), vec![0x03, 0x0F + p, 0x02, 0x1F + p]);
        let both_so = [vec![0x03], turned.clone(), carried.clone()].concat();
        let neither = [vec![0x03, 0x02], turned, vec![0x02], carried].concat();
        [vec![0x04], both_so, neither].concat()
    };
    let mut parts: Vec<Vec<u8>> = (1..n as u8).map(above).collect();
    parts.push(turns(0));
    both(parts)
}

/// A press that turns some bits over and keeps the others, where some bits are on.
struct Press {
    turned: usize,
    on: usize,
}

impl Press {
    fn draw(random: &mut Random, n: u32) -> Press {
        let [first, second, third, fourth] = [(); 4].map(|()| 1 << random.below(n.into()));
        let turned = first | random.pick(&[0, second]);
        let on = random.pick(&[0, 0, third, third | fourth]);
        Press { turned, on }
    }

    fn formula(&self, n: u32) -> Vec<u8> {
        let bit = |p: u8| {
            let part = match self.turned >> p & 1 {
                1 => turns(p),
                _ => keeps(p),
            };
            match self.on >> p & 1 {
                1 => [vec![0x03, 0x10 + p], part].concat(),
                _ => part,
            }
        };
        both((0..n as u8).map(bit).collect())
    }

    fn pairs(&self, n: u32) -> Vec<(usize, usize)> {
        let works = |now: &usize| now & self.on == self.on;
        let turns = |now| (now, now ^ self.turned);
        (0..1 << n).filter(works).map(turns).collect()
    }
}

/// The pairs of the counter.
fn counted(n: u32) -> Vec<(usize, usize)> {
    let last = (1 << n) - 1;
    (0..=last).map(|now| (now, (now + 1) & last)).collect()
}

/// Rooms of 8 and 9 bits, where the search takes 64 states at once: relations that lead from most states to many, a rule
/// for each switch, and the counter.
#[test]
fn dense_rooms() {
    let (mut random, mut seen) = (Random::new(116), Seen::default());
    for round in 0..60 {
        let n = [8, 8, 8, 8, 9][round % 5];
        let valid = match round % 3 {
            0 => vec![0x04, 0x10, 0x10 + random.below(n.into()) as u8],
            _ => vec![0x01],
        };
        let mut room = Room::new(n, &frame(&valid));
        for t in (0..7).filter(|_| random.chance(30)).collect::<Vec<_>>() {
            let formula = match random.below(3) {
                0 => rules(&mut random, n as u8),
                _ => dense(&mut random, n),
            };
            room.relation(t, &frame(&formula));
        }
        if random.chance(70) {
            room.relation_of(7, &frame(&short_counter(n)), counted(n));
        }
        for r in 0..3 {
            room.set(r, &some_states(&mut random, n));
        }
        room.compare_runs(&mut random, &mut seen, &[(0, 1), (1, 0), (2, 1)]);
    }
    assert!(seen.numbers[0] > 100 && seen.numbers[10] > 20, "{seen:?}");
    assert!(seen.longest > 50, "{seen:?}");
    eprintln!("{seen:?}");
}

/// A few bits, of the current state or the next one, each as it is or not: all of them, one of them, or an odd number.
fn dense(random: &mut Random, n: u32) -> Vec<u8> {
    let bit = |random: &mut Random| {
        let token = random.pick(&[0x10, 0x20]) + random.below(n.into()) as u8;
        match random.chance(30) {
            true => vec![0x02, token],
            false => vec![token],
        }
    };
    let bits: Vec<Vec<u8>> = (0..random.below(4) + 1).map(|_| bit(random)).collect();
    match random.below(3) {
        0 => both(bits),
        1 => either(bits),
        _ => bits
            .into_iter()
            .fold(vec![0x00], |odd, bit| differ(&odd, &bit)),
    }
}

/// One of the two, and not both.
fn differ(f: &[u8], g: &[u8]) -> Vec<u8> {
    [&[0x03, 0x04], f, g, &[0x02, 0x03], f, g].concat()
}

/// Rooms of up to 16 bits: presses, single pairs, and in every other one the counter.
#[test]
fn large_rooms() {
    let (mut random, mut seen) = (Random::new(114), Seen::default());
    for n in [6, 7, 8, 9, 10, 11, 12, 13, 14, 14, 15, 15, 16, 16] {
        let valid = match random.chance(30) {
            true => vec![0x04, 0x10, 0x11],
            false => vec![0x01],
        };
        let mut room = Room::new(n, &frame(&valid));
        for t in 0..6 {
            let press = Press::draw(&mut random, n);
            room.relation_of(t, &frame(&press.formula(n)), press.pairs(n));
        }
        let pairs = some_pairs(&mut random, n, 4);
        let formula = either(pairs.iter().map(|&known| pair(n, known)).collect());
        room.relation_of(6, &frame(&formula), pairs);
        if random.chance(50) {
            room.relation_of(7, &frame(&short_counter(n)), counted(n));
        }
        for r in 0..3 {
            room.set(r, &some_states(&mut random, n));
        }
        room.compare_runs(&mut random, &mut seen, &[(0, 1), (1, 0), (2, 2)]);
        room.compare_wrong(&mut random, &mut seen);
    }
    assert!(seen.numbers[0] > 40 && seen.numbers[10] > 5, "{seen:?}");
    assert!(seen.longest > 100, "{seen:?}");
    eprintln!("{seen:?}");
}

/// The longest run: all 65,536 states of the counter, each of them once.
#[test]
fn longest() {
    let (mut random, mut seen) = (Random::new(115), Seen::default());
    let mut room = Room::new(16, &frame(&[0x01]));
    room.relation_of(7, &frame(&short_counter(16)), counted(16));
    room.set(0, &frame(&state(16, 0x10, 0)));
    room.set(1, &frame(&state(16, 0x10, 0xFFFF)));
    room.compare_runs(&mut random, &mut seen, &[(0, 1)]);
    assert_eq!(seen.longest, 65_536);
}

/// 1 for the prices before 2, 2 before 1 for the work list, that before 3, 3 before 7; nothing is filled but
/// register 0.
#[test]
fn checks() {
    let mut room = Room::new(2, &frame(&[0x01]));
    room.set(0, &frame(&[0x10]));
    let words = room.table.words();
    let mut broken = words.to_vec();
    broken[0] = 17;
    let (eight, none) = ([1; 8], 32);
    let few = Asked {
        prices: &eight,
        work: 3,
        states: 5,
        relations: 5,
        a: none,
        b: none,
    };
    let lent = Asked { work: 4, ..few };
    let gives = |words: &[u32], number: u32, asked: Asked| {
        let (got, lists) = ask(words, asked);
        refused(2, got, &lists, number, asked);
    };
    for prices in [&[1; 7][..], &[1; 9], &[]] {
        gives(&broken, 1, Asked { prices, ..few });
        gives(
            words,
            1,
            Asked {
                prices,
                a: 0,
                b: 0,
                ..lent
            },
        );
    }
    gives(&broken, 2, few);
    gives(words, 1, few);
    for (a, b) in [(none, 1), (1, none), (u32::MAX, 1)] {
        gives(words, 3, Asked { a, b, ..lent });
    }
    for (a, b) in [(1, 0), (0, 31), (2, 3)] {
        gives(words, 7, Asked { a, b, ..lent });
    }
    let short = Asked {
        a: 0,
        b: 0,
        states: 0,
        ..lent
    };
    gives(words, 11, short);
    let alone = Asked {
        states: 1,
        relations: 0,
        ..short
    };
    assert_eq!(ask(words, alone).0, [0, 0, 0, 1]);
}
