//! Tables whose index is one long chain: accepted or refused as they should be. A check that walked the chain for
//! every row would take minutes for each.

use calls::sound::{bucket, sound};
use calls::words::*;
use kudzuclamp::{Account, Refusal, Table};
use reference::random::Random;

/// The greatest number of rows.
const MOST: usize = 60_000;

/// Words of a table with n = 16, all rows used, all in one chain to whose first row every head leads.
#[derive(Clone)]
struct Chain {
    words: Vec<u32>,
    rows: usize,
    /// Row numbers by rank.
    places: Vec<usize>,
}

impl Chain {
    /// Row numbers are ranks, or mixed.
    fn new(rows: usize, random: Option<&mut Random>) -> Chain {
        let mut places: Vec<usize> = (0..rows).collect();
        if let Some(random) = random {
            for k in 1..rows {
                places.swap(k, random.below(k as u64 + 1) as usize);
            }
        }
        let table = Table::new(&mut [Account::unlimited()], 16, rows as u32);
        let words = table.unwrap().into_words();
        let mut chain = Chain {
            words,
            rows,
            places,
        };
        chain.fill();
        let first = chain.link(rows - 1);
        let heads = chain.head_at(0);
        chain.words[heads..heads + rows].fill(first);
        chain
    }

    /// Rows from level 31 on, of all pairs of the arrows below, no high one with a NOT.
    fn fill(&mut self) {
        let mut arrows = vec![0, 1];
        let mut rank = 0;
        for level in (0..32).rev() {
            let below = arrows.clone();
            for &low in &below {
                for &high in below.iter().filter(|&&high| !marked(high) && high != low) {
                    if rank == self.rows {
                        self.words[USED] = rank as u32;
                        return;
                    }
                    self.put(rank, [low, high, level]);
                    let to = 2 * (self.places[rank] as u32 + 1);
                    arrows.extend([to, to + 1]);
                    rank += 1;
                }
            }
        }
        unreachable!("there are more pairs than rows");
    }

    fn put(&mut self, rank: usize, [low, high, level]: [u32; 3]) {
        let next = match rank {
            0 => 0,
            _ => self.link(rank - 1),
        };
        let at = self.row_at(rank);
        let row = [low, high, level, next, rank as u32];
        self.words[at..at + row.len()].copy_from_slice(&row);
        let list = HEADER + ROW * self.rows;
        self.words[list + rank] = self.places[rank] as u32;
    }

    /// The link to the row of a rank.
    fn link(&self, rank: usize) -> u32 {
        self.places[rank] as u32 + 1
    }

    fn row_at(&self, rank: usize) -> usize {
        HEADER + ROW * self.places[rank]
    }

    fn head_at(&self, bucket: usize) -> usize {
        HEADER + 9 * self.rows + bucket
    }

    /// Where the head of the bucket of the row of a rank stands.
    fn own_head(&self, rank: usize) -> usize {
        let at = self.row_at(rank);
        let word = |k: usize| self.words[at + k];
        self.head_at(bucket(self.rows, word(LEVEL), word(LOW), word(HIGH)))
    }

    /// Each head leads to the highest row of its bucket, so that walks start anywhere in the chain.
    fn with_own_heads(mut self) -> Chain {
        for rank in 0..self.rows {
            let head = self.own_head(rank);
            self.words[head] = self.link(rank);
        }
        self
    }

    /// The row of one rank gets the level and arrows of another.
    fn copied(mut self, from: usize, to: usize) -> Chain {
        let (from, to) = (self.row_at(from), self.row_at(to));
        self.words.copy_within(from + LOW..=from + LEVEL, to + LOW);
        self
    }

    /// The chain goes past the row of a rank, which is not the highest.
    fn without(mut self, rank: usize) -> Chain {
        let (over, next) = (self.row_at(rank + 1), self.row_at(rank) + NEXT);
        self.words[over + NEXT] = self.words[next];
        self
    }

    /// The walk for the row of a rank starts under it.
    fn started_under(mut self, rank: usize) -> Chain {
        let (head, next) = (self.own_head(rank), self.row_at(rank) + NEXT);
        self.words[head] = self.words[next];
        self
    }

    fn accepted(&self) {
        assert_eq!(Table::over(&self.words).map(|_| ()), Ok(()));
    }

    fn refused(&self) {
        assert_eq!(Table::over(&self.words).err(), Some(Refusal::Unsound));
    }
}

fn longest() -> [Chain; 4] {
    let ordered = Chain::new(MOST, None);
    let mixed = Chain::new(MOST, Some(&mut Random::new(1)));
    let own = [ordered.clone(), mixed.clone()].map(Chain::with_own_heads);
    let [own_ordered, own_mixed] = own;
    [ordered, mixed, own_ordered, own_mixed]
}

#[test]
fn a_long_chain_is_accepted() {
    for chain in longest() {
        chain.accepted();
    }
}

#[test]
fn equal_rows_far_apart_are_refused() {
    for chain in longest() {
        // The first row has the greatest level, and no arrow leads to the last.
        for rank in [1, 1_000, MOST / 2, MOST - 2] {
            chain.clone().copied(0, rank).refused();
            chain.clone().copied(rank, MOST - 1).refused();
        }
    }
}

#[test]
fn a_row_that_its_walk_misses_is_refused() {
    let chains = longest();
    for rank in [0, 1, 1_000, MOST / 2, MOST - 2] {
        for chain in &chains {
            chain.clone().started_under(rank).refused();
        }
        // A row that is its bucket's head would be met still.
        for chain in &chains[..2] {
            chain.clone().without(rank).refused();
        }
    }
}

/// Changes a link, a head or a row's level and arrows.
fn damage(random: &mut Random, chain: &mut Chain) {
    let rows = chain.rows as u64;
    let [a, b] = [(); 2].map(|()| random.below(rows) as usize);
    let link = match random.chance(90) {
        true => chain.link(a.min(b)),
        false => random.below(rows + 2) as u32,
    };
    let place = match random.below(8) {
        0 | 1 => chain.row_at(a.max(b)) + NEXT,
        2 => chain.own_head(a.max(b)),
        3 => chain.head_at(a),
        4 => return *chain = chain.clone().copied(a, b),
        5 => return *chain = chain.clone().copied(a, chain.rows - 1),
        6 if a + 1 < chain.rows => return *chain = chain.clone().without(a),
        6 => return,
        _ => return *chain = chain.clone().started_under(a),
    };
    chain.words[place] = link;
}

/// As the slow plain check has it, also where the chain has branches.
#[test]
fn damaged_chains() {
    let mut random = Random::new(21);
    let mut counts = [0; 2];
    for round in 0..300 {
        let rows = 34 + random.below(200) as usize;
        let mut whole = Chain::new(rows, Some(&mut random));
        if round % 3 > 0 {
            whole = whole.with_own_heads();
        }
        for _ in 0..10 {
            let mut chain = whole.clone();
            for _ in 0..=random.below(2) {
                damage(&mut random, &mut chain);
            }
            let expected = sound(&chain.words).is_ok();
            assert_eq!(Table::over(&chain.words).is_ok(), expected);
            counts[usize::from(expected)] += 1;
        }
    }
    println!("refused, accepted: {counts:?}");
    assert!(counts.iter().all(|&count| count > 200), "{counts:?}");
}
