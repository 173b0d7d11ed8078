//! Many states asked at once, against the separate evaluator: random sets of 1 to 16 bits, states with
//! repeats, none, 1,024 and 1,025 of them, lists one place too short, entries past the states, and
//! that a refusal keeps both lists and all words.

use calls::draw::draw_and_run;
use calls::run::empty_table;
use kudzuclamp::{Account, Formula, Refusal, Table, Target};
use reference::book::{Book, REGISTERS, RELATIONS};
use reference::members::{members, Members, MAX_STATES};
use reference::random::Random;
use reference::states::StateSet;

/// Questions, with the numbers that they were answered or refused by.
#[derive(Debug, Default)]
struct Tried {
    numbers: [usize; 8],
    ones: usize,
    reads: usize,
}

/// A question: register, states, and the lengths of the order list and of the answers.
struct Question {
    r: u32,
    states: Vec<u16>,
    order: usize,
    answers: usize,
}

impl Tried {
    /// Asks on the library and on the book, and compares all that is returned and left. No book stands
    /// for words that are no sound table.
    fn ask(&mut self, table: &Table<Vec<u32>>, book: Option<&Book>, q: &Question, noise: u64) {
        let words = table.words().to_vec();
        let order: Vec<u16> = (0..q.order).map(|k| (noise >> (k % 48)) as u16).collect();
        let answers: Vec<u8> = (0..q.answers).map(|k| (noise >> (k % 56)) as u8).collect();
        let (mut order_now, mut answers_now) = (order.clone(), answers.clone());
        let got = table.members(q.r, &q.states, &mut order_now, &mut answers_now);
        assert_eq!(table.words(), words);
        let k = q.states.len();
        match wanted(book, q) {
            Ok(told) => {
                assert_eq!(got, Ok(told.reads as u32));
                assert_eq!(answers_now[..k], told.answers);
                assert_eq!(answers_now[k..], answers[k..]);
                assert_eq!(order_now[k..], order[k..]);
                let mut places = order_now[..k].to_vec();
                places.sort();
                assert!(places.iter().map(|&place| usize::from(place)).eq(0..k));
                self.numbers[0] += 1;
                self.ones += told.answers.iter().filter(|&&one| one == 1).count();
                self.reads += told.reads;
            }
            Err(number) => {
                assert_eq!(got.map_err(Refusal::number), Err(number));
                assert_eq!((order_now, answers_now), (order, answers));
                self.numbers[number as usize] += 1;
            }
        }
    }
}

/// Answers and reads, or the number of the refusal: 1 comes before 2, and 2 before 3 and 7.
fn wanted(book: Option<&Book>, q: &Question) -> Result<Members, u32> {
    let states: Vec<u64> = q.states.iter().map(|&state| state.into()).collect();
    if states.len() > q.order.min(q.answers).min(MAX_STATES) {
        return Err(1);
    }
    let book = book.ok_or(2u32)?;
    let told = book.members(q.r.into(), &states, q.order, q.answers);
    told.map_err(|refusal| refusal.number().into())
}

/// A formula of so many operators, and its set. Its leaves are a bit, or two bits that differ, so that
/// some sets have many rows.
fn draw_set(random: &mut Random, n: u32, size: u64) -> (Formula, StateSet) {
    if size == 0 {
        let mut bit = || {
            let p = random.below(n.into());
            (Formula::current(p as u32), StateSet::bit(n, p as u32))
        };
        let ((f, left), (g, right)) = (bit(), bit());
        return match random.chance(50) {
            true => (f, left),
            false => {
                let set = left.and(&right.not()).or(&left.not().and(&right));
                ((f.clone() & !g.clone()) | (!f & g), set)
            }
        };
    }
    if random.chance(20) {
        let (formula, set) = draw_set(random, n, size - 1);
        return (!formula, set.not());
    }
    let part = random.below(size);
    let (f, left) = draw_set(random, n, part);
    let (g, right) = draw_set(random, n, size - 1 - part);
    match random.chance(50) {
        true => (f & g, left.and(&right)),
        false => (f | g, left.or(&right)),
    }
}

/// A table with a set in register 3, and its book.
fn draw_table(random: &mut Random, n: u32) -> (Table<Vec<u32>>, Book) {
    let size = match random.chance(5) {
        true => 0,
        false => random.below(40),
    };
    let (formula, set) = draw_set(random, n, size);
    let mut accounts = [Account::unlimited()];
    let mut table = Table::new(&mut accounts, n, 20_000).unwrap();
    table
        .set(&mut accounts, Target::register(3), formula)
        .unwrap();
    let mut registers = vec![None; REGISTERS];
    registers[3] = Some(set);
    let book = Book::with(
        n,
        20_000,
        StateSet::constant(n, true),
        registers,
        vec![None; RELATIONS],
    );
    (table, book)
}

/// A question about a table of n bits with a set in register `filled`.
fn draw_question(random: &mut Random, n: u32, filled: u32) -> Question {
    let count = match random.below(100) {
        0..=4 => 0,
        5..=8 => MAX_STATES - 1,
        9..=14 => MAX_STATES,
        15..=18 => MAX_STATES + 1,
        19..=20 => MAX_STATES + 1 + random.below(3_000) as usize,
        21..=50 => 1 + random.below(MAX_STATES as u64) as usize,
        _ => 1 + random.below(20) as usize,
    };
    // Many repeats, or hardly any.
    let kinds = match random.chance(40) {
        true => 1 + random.below(4),
        false => 1 << n,
    };
    let first = random.below(1 << n);
    let mut states: Vec<u16> = (0..count)
        .map(|_| ((first + random.below(kinds)) % (1 << n)) as u16)
        .collect();
    if n < 16 && count > 0 && random.chance(10) {
        let place = random.below(count as u64) as usize;
        let above = random.pick(&[0, 1, u16::MAX - (1 << n)]);
        states[place] = (1 << n) + above;
    }
    let room = |random: &mut Random| match random.below(100) {
        0..=5 => count.saturating_sub(1),
        6..=60 => count,
        _ => count + 1 + random.below(50) as usize,
    };
    let (order, answers) = (room(random), room(random));
    let r = match random.below(100) {
        0..=3 => random.pick(&[32, 33, 255, u32::MAX]),
        4..=7 => filled ^ 1,
        _ => filled,
    };
    Question {
        r,
        states,
        order,
        answers,
    }
}

/// Sets of 1 to 16 bits.
#[test]
fn random_sets() {
    let mut random = Random::new(10);
    let mut tried = Tried::default();
    for round in 0..1_200 {
        let n = 1 + round % 16;
        let (mut table, book) = draw_table(&mut random, n);
        for _ in 0..2 {
            let question = draw_question(&mut random, n, 3);
            tried.ask(&table, Some(&book), &question, random.word());
        }
        let place = random.pick(&[0, 1, 3, 7]);
        table.words_mut()[place] = u32::MAX;
        let question = draw_question(&mut random, n, 3);
        tried.ask(&table, None, &question, random.word());
    }
    println!("{tried:?}");
    for number in [0, 1, 2, 3, 7] {
        assert!(tried.numbers[number] > 50, "{tried:?}");
    }
}

/// Every register of the tables that random lists of calls leave behind, damaged ones among them.
#[test]
fn tables_of_random_lists() {
    let mut random = Random::new(11);
    let mut tried = Tried::default();
    for index in 0..400 {
        let runner = draw_and_run(10, index).runner;
        let mut table = empty_table(runner.words().len()).unwrap();
        table.words_mut().copy_from_slice(runner.words());
        let book = runner.expected().map(|expected| &expected.book);
        let n = book.map_or(3, Book::n);
        for r in 0..8 {
            let question = draw_question(&mut random, n, r);
            tried.ask(&table, book, &question, random.word());
        }
    }
    println!("{tried:?}");
    for number in [0, 1, 3, 7] {
        assert!(tried.numbers[number] > 20, "{tried:?}");
    }
}

/// All states of 10 bits and of 1 to 9 bits, once and twice: as many rows are read as there are ways to
/// them, and never more than one by one.
#[test]
fn all_states_at_once() {
    let mut random = Random::new(12);
    for n in 1..=10 {
        for _ in 0..20 {
            let (table, book) = draw_table(&mut random, n);
            let set = book.registers()[3].as_ref().unwrap();
            let mut states: Vec<u16> = (0..1 << n).collect();
            let (mut order, mut answers) = ([0; MAX_STATES], [0; MAX_STATES]);
            let reads = table.members(3, &states, &mut order, &mut answers).unwrap();
            let singly = |&state: &u16| members(set, &[state.into()]).reads as u32;
            assert!(reads <= states.iter().map(singly).sum());
            let count: u32 = answers.iter().map(|&one| u32::from(one)).sum();
            assert_eq!(Ok(count), table.count(3));
            assert!(table.states(3).unwrap().all(|s| answers[s as usize] == 1));
            if n < 10 {
                states.extend_from_within(..);
                let again = table.members(3, &states, &mut order, &mut answers);
                assert_eq!(again, Ok(reads));
                assert_eq!(answers[..1 << n], answers[1 << n..2 << n]);
            }
        }
    }
}

/// n = 2, register `11`, states 1 and 0: bit 0 is not asked, so one row is read.
#[test]
fn only_bits_that_rows_ask_count() {
    let mut accounts = [Account::unlimited()];
    let mut table = Table::new(&mut accounts, 2, 10).unwrap();
    table
        .set(&mut accounts, Target::register(0), Formula::current(1))
        .unwrap();
    let (mut order, mut answers) = ([0; 2], [9; 2]);
    assert_eq!(table.members(0, &[1, 0], &mut order, &mut answers), Ok(1));
    assert_eq!(answers, [0, 0]);
}
