//! Words with a set V of states that exist: a table is accepted exactly where the plain check finds
//! registers within V, and relations within V and SHIFT of V; no word is changed.

use calls::draw::draw_and_run;
use calls::sound::{bucket, sound};
use calls::words::*;
use kudzuclamp::{Account, Refusal, Table};
use reference::random::Random;
use std::collections::BTreeMap;

/// Words of sound tables that lists have left, each with n at most 4 and some rows.
fn tables(seed: u64, count: usize) -> Vec<Vec<u32>> {
    let lists = (0..).map(|index| draw_and_run(seed, index).runner);
    let left = lists.map(|runner| runner.words().to_vec());
    let fits = |words: &Vec<u32>| {
        sound(words).is_ok() && words[BITS] <= 4 && words[ROWS] <= 200 && words[USED] > 3
    };
    left.filter(fits).take(count).collect()
}

/// The library's verdict is the plain check's.
fn judge(words: &[u32], counts: &mut [u64; 2]) {
    let mut lent = words.to_vec();
    let fits = sound(words).is_ok();
    let verdict = Table::over(&mut lent[..]).err();
    assert_eq!(verdict, (!fits).then_some(Refusal::Unsound), "{words:?}");
    assert_eq!(lent, words);
    counts[usize::from(fits)] += 1;
}

/// Some arrow of the table.
fn any_arrow(random: &mut Random, words: &[u32]) -> u32 {
    let used = u64::from(words[USED]);
    let row = Words(words).listed(random.below(used) as usize) as u32;
    match random.below(8) {
        0 => random.below(2) as u32,
        _ => 2 * (row + 1) + random.below(2) as u32,
    }
}

#[test]
fn any_valid_set() {
    let mut random = Random::new(61);
    let mut counts = [0; 2];
    for words in tables(601, 300) {
        for _ in 0..200 {
            let mut changed = words.clone();
            changed[VALID] = any_arrow(&mut random, &words) + 1;
            // Few roots, so that all of them may lie within V.
            let emptied = random.below(100);
            for word in &mut changed[FIRST_REGISTER..ROOTS_END] {
                if random.below(100) < emptied {
                    *word = 0;
                } else if random.chance(10) {
                    *word = any_arrow(&mut random, &words) + 1;
                }
            }
            judge(&changed, &mut counts);
        }
    }
    println!("refused, accepted: {counts:?}");
    assert!(counts.iter().all(|&count| count > 1000), "{counts:?}");
}

/// V's word 0, and the layouts of before.
#[test]
fn no_valid_set() {
    for words in tables(602, 20) {
        let mut without = words.clone();
        without[VALID] = 0;
        assert_eq!(Table::over(&without[..]).err(), Some(Refusal::Unsound));
        for layout in [0, 1, 2, 4, 5] {
            let mut other = words.clone();
            other[LAYOUT] = layout;
            assert_eq!(Table::over(&other[..]).err(), Some(Refusal::Unsound));
        }
    }
}

/// A table whose rows are made by hand.
struct Maker {
    words: Vec<u32>,
    made: BTreeMap<[u32; 3], u32>,
}

impl Maker {
    fn new(n: u32, rows: u32) -> Maker {
        let table = Table::new(&mut [Account::unlimited()], n, rows).unwrap();
        let words = table.into_words();
        let made = BTreeMap::new();
        Maker { words, made }
    }

    /// The arrow of a row, with no high arrow that carries a NOT.
    fn make(&mut self, level: u32, low: u32, high: u32) -> u32 {
        if low == high {
            return low;
        }
        let mark = high & 1;
        let key = [level, low ^ mark, high ^ mark];
        if let Some(&arrow) = self.made.get(&key) {
            return arrow ^ mark;
        }
        let (row, rows) = (self.words[USED] as usize, self.words[ROWS] as usize);
        let at = HEADER + ROW * row;
        let head = HEADER + (ROW + 1) * rows + bucket(rows, key[0], key[1], key[2]);
        self.words[at + LEVEL] = key[0];
        self.words[at + LOW] = key[1];
        self.words[at + HIGH] = key[2];
        self.words[at + NEXT] = self.words[head];
        self.words[at + RANK] = row as u32;
        self.words[head] = row as u32 + 1;
        self.words[HEADER + ROW * rows + row] = row as u32;
        self.words[USED] += 1;
        self.made.insert(key, 2 * (row as u32 + 1));
        (2 * (row as u32 + 1)) ^ mark
    }

    fn level(&self, at: u32) -> u32 {
        match arrow(at) {
            Arrow::Constant(_) => 2 * self.words[BITS],
            Arrow::Row(row) => Words(&self.words).field(row, LEVEL),
        }
    }

    fn and(&mut self, a: u32, b: u32) -> u32 {
        if a == 0 || b == 0 {
            return 0;
        }
        if a == 1 || b == 1 {
            return a.max(b);
        }
        let level = self.level(a).min(self.level(b));
        let [x, y] = [a, b].map(|at| Words(&self.words).cofactors(at, level));
        let [low, high] = [0, 1].map(|bit| self.and(x[bit], y[bit]));
        self.make(level, low, high)
    }

    fn shift(&mut self, a: u32) -> u32 {
        if a < 2 {
            return a;
        }
        let level = self.level(a);
        let parts = Words(&self.words).cofactors(a, level);
        let [low, high] = parts.map(|part| self.shift(part));
        self.make(level + 1, low, high)
    }

    /// Arrows over some of the levels, from the last up to the first.
    fn arrows(&mut self, random: &mut Random, step: usize, each: u64) -> Vec<u32> {
        let mut arrows = vec![0, 1];
        for level in (0..2 * self.words[BITS]).step_by(step).rev() {
            let below = arrows.clone();
            for _ in 0..each {
                let [low, high] = [(); 2].map(|()| random.pick(&below));
                let made = self.make(level, low, high);
                arrows.extend([made, made ^ 1]);
            }
        }
        arrows
    }
}

/// More than 4,096 used rows, where tables of cells decide.
#[test]
fn many_rows() {
    let mut random = Random::new(62);
    let mut counts = [0; 2];
    for round in 0..1_500 {
        let n = 3 + round % 5;
        let mut maker = Maker::new(n, 9_000);
        let sets = maker.arrows(&mut random, 2, 6);
        let pairs = maker.arrows(&mut random, 1, 6);
        let valid = random.pick(&sets[sets.len() - 12..]);
        let both = maker.shift(valid);
        for place in FIRST_REGISTER..ROOTS_END {
            let relation = place >= FIRST_RELATION;
            let any = random.pick(if relation { &pairs } else { &sets });
            let mut root = maker.and(any, valid);
            if relation && !random.chance(3) {
                root = maker.and(root, both);
            }
            if random.chance(2) {
                root = any;
            }
            maker.words[place] = if random.chance(50) { root + 1 } else { 0 };
        }
        maker.words[VALID] = valid + 1;
        let mut filling = maker.arrows(&mut random, 1, 60);
        filling.retain(|&at| maker.level(at) > 0);
        while maker.words[USED] <= 4_200 {
            let [low, high] = [(); 2].map(|()| random.pick(&filling));
            maker.make(0, low, high);
        }
        judge(&maker.words, &mut counts);
    }
    println!("refused, accepted: {counts:?}");
    assert!(counts.iter().all(|&count| count > 200), "{counts:?}");
}
