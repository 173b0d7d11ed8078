//! Damaged formulas: every change of one byte, every truncation, wrong frames, and the edges of
//! depth and length, each as the separate evaluator decides it.

use calls::list::Step;
use calls::run::Runner;
use calls::writer::{frame, nots, tree, untils, write, Plan};
use kudzuclamp::{Account, Refusal, Table, Target};
use reference::book::{words_for, Call};
use reference::formula::{frame_as, Kind};
use reference::random::Random;

/// A table with registers 0 and 1 and relations 0 and 1 filled.
fn room(n: u32, rows: u32) -> Runner {
    let length = words_for(rows.into()) as usize;
    let mut runner = Runner::over(vec![0; length]);
    let last = n as u8 - 1;
    let steps = [
        Step::Fresh {
            n,
            rows,
            lent: length,
        },
        relation(0, frame(&[0x04, 0x03, 0x20, 0x02, 0x10, 0x20 + last])),
        relation(1, frame(&[0x03, 0x02, 0x10 + last, 0x20])),
        set(0, frame(&[0x10])),
        set(1, frame(&[0x02, 0x10 + last])),
    ];
    steps.iter().try_for_each(|s| runner.step(s)).unwrap();
    runner
}

fn relation(t: u64, formula: Vec<u8>) -> Step {
    Step::Call(Call::Relation { t, formula })
}

fn set(r: u64, formula: Vec<u8>) -> Step {
    Step::Call(Call::Set {
        place: 0,
        r,
        rounds: 50,
        formula,
    })
}

/// Makes set and relation calls with the bytes and compares.
fn compare(runner: &mut Runner, bytes: Vec<u8>) {
    for step in [set(2, bytes.clone()), relation(2, bytes)] {
        runner.step(&step).unwrap_or_else(|what| panic!("{what}"));
    }
}

/// A formula that passes all checks in `room`.
fn draw(random: &mut Random, kind: Kind, n: u32) -> Vec<u8> {
    let plan = Plan {
        kind,
        n: n as u8,
        registers: vec![0, 1],
        relations: vec![0, 1],
        size: 2 + random.below(9),
        binders: match kind {
            Kind::Set => random.below(3) as u32,
            Kind::Relation | Kind::Valid => 0,
        },
        slip: false,
    };
    frame(&write(random, plan))
}

/// Every byte as every other byte.
fn single_changes(bytes: &[u8]) -> Vec<Vec<u8>> {
    let mut changed = Vec::new();
    for place in 0..bytes.len() {
        for value in (0..=255).filter(|&value| value != bytes[place]) {
            let mut bytes = bytes.to_vec();
            bytes[place] = value;
            changed.push(bytes);
        }
    }
    changed
}

/// Cut short, with the frame as it was and with one that fits.
fn truncations(bytes: &[u8]) -> Vec<Vec<u8>> {
    let as_it_was = (0..bytes.len()).map(|length| bytes[..length].to_vec());
    let fitting = (3..bytes.len()).map(|length| frame(&bytes[3..length]));
    as_it_was.chain(fitting).collect()
}

/// More bytes than the frame says, more than the formula fills, a lost byte, a doubled frame.
fn wrong_frames(bytes: &[u8]) -> Vec<Vec<u8>> {
    let body = &bytes[3..];
    let mut wrong = vec![
        [bytes, &[0x00]].concat(),
        frame(&[body, &[0x01]].concat()),
        frame(&[body, body].concat()),
        frame(bytes),
        body.to_vec(),
        bytes[1..].to_vec(),
        bytes[2..].to_vec(),
        [&bytes[..2], body].concat(),
        [bytes[1], bytes[0]]
            .into_iter()
            .chain(bytes[2..].iter().copied())
            .collect(),
    ];
    for place in 3..bytes.len() {
        let mut shorter = body.to_vec();
        shorter.remove(place - 3);
        wrong.push(frame(&shorter));
    }
    wrong
}

#[test]
fn changed_and_cut_formulas() {
    let mut random = Random::new(21);
    for (n, rows, count) in [(1, 40, 8), (2, 60, 8), (2, 9, 6), (3, 80, 4)] {
        let mut runner = room(n, rows);
        for index in 0..2 * count {
            let kind = [Kind::Set, Kind::Relation][index % 2];
            let bytes = draw(&mut random, kind, n);
            compare(&mut runner, bytes.clone());
            let damaged = [
                single_changes(&bytes),
                truncations(&bytes),
                wrong_frames(&bytes),
            ];
            for bytes in damaged.concat() {
                compare(&mut runner, bytes);
            }
        }
        runner.compare_all().unwrap();
        println!("n {n}, N {rows}: {:?}", runner.counts.numbers);
    }
}

/// A relation of its own for each number.
fn numbered(t: u8) -> Step {
    let pairs = [0x03, 0x20 + t % 2, 0x04, 0x10 + t / 2 % 2, 0x20 + t / 4];
    relation(t.into(), frame(&pairs))
}

/// Every byte alone and before one, two and three parts. All 8 relations are filled, each another
/// one, so that a box or diamond of another relation tells itself.
#[test]
fn every_byte_before_its_parts() {
    let mut runner = room(2, 400);
    for t in 0..8 {
        runner.step(&numbered(t)).unwrap();
    }
    for byte in 0..=255 {
        for parts in [
            &[][..],
            &[0x11],
            &[0x11, 0x10],
            &[0x30],
            &[0x40, 0x41, 0x10],
        ] {
            compare(&mut runner, frame(&[&[byte], parts].concat()));
            runner.step(&numbered(2)).unwrap();
        }
    }
}

#[test]
fn noise_as_formulas() {
    let mut random = Random::new(22);
    let mut runner = room(2, 60);
    for _ in 0..5_000 {
        let length = random.below(12);
        let bytes: Vec<u8> = (0..length).map(|_| random.below(0xA0) as u8).collect();
        compare(&mut runner, bytes.clone());
        compare(&mut runner, frame_as(1, &bytes));
        compare(&mut runner, frame_as(2, &bytes));
    }
}

/// The number of a set call, in the least version that has its words.
fn number(runner: &mut Runner, body: &[u8]) -> u8 {
    number_in(runner, calls::writer::version(body), body)
}

/// The number of a set call in a version.
fn number_in(runner: &mut Runner, version: u8, body: &[u8]) -> u8 {
    runner.step(&set(3, frame_as(version, body))).unwrap();
    runner.counts.last
}

#[test]
fn depth_64_and_65() {
    let mut runner = room(2, 60);
    let chain = |token: u8, depth: usize| [vec![token; depth - 1], vec![0x10]].concat();
    for token in [0x02, 0x60, 0x69] {
        assert_eq!(number(&mut runner, &chain(token, 64)), 0);
        assert_eq!(number(&mut runner, &chain(token, 65)), 4);
    }
    // Until is one level; each takes a round before the next, so that 50 rounds are too few here.
    for first in [true, false] {
        assert_eq!(number(&mut runner, &untils(64, first, 0, 0x10)), 9);
        assert_eq!(number(&mut runner, &untils(65, first, 0, 0x10)), 4);
    }
    for binary in [0x03, 0x04] {
        let right = |depth: usize| [[binary, 0x11].repeat(depth - 1), vec![0x10]].concat();
        let left = |depth: usize| [vec![binary; depth - 1], vec![0x11; depth]].concat();
        assert_eq!(number(&mut runner, &right(64)), 0);
        assert_eq!(number(&mut runner, &right(65)), 4);
        assert_eq!(number(&mut runner, &left(64)), 0);
        assert_eq!(number(&mut runner, &left(65)), 4);
    }
    for binder in [0x70, 0x8F] {
        let own = 0x30 + binder % 16;
        let under = |depth: usize| [vec![0x02; depth - 2], vec![binder, own]].concat();
        assert_eq!(number(&mut runner, &under(64)), 0);
        assert_eq!(number(&mut runner, &under(65)), 4);
    }
    let relation_deep = |depth| relation(3, frame(&nots(depth, 0x21)));
    runner.step(&relation_deep(64)).unwrap();
    runner.step(&relation_deep(65)).unwrap();
}

#[test]
fn length_1024_and_1025() {
    let mut random = Random::new(23);
    let mut runner = room(2, 60);
    for _ in 0..5 {
        let longest = tree(&mut random, 9, &[0x00, 0x10, 0x11, 0x40, 0x41]);
        assert_eq!(longest.len(), 1_023);
        assert_eq!(number(&mut runner, &longest), 0);
        let longer = [vec![0x02], longest].concat();
        assert_eq!(number(&mut runner, &longer), 4);
    }
}

/// Version 1 has no word of runs, and relation calls have no version 2.
#[test]
fn versions() {
    let mut runner = room(2, 60);
    for t in 0..=1 {
        for word in [0x90 + t, 0x98 + t] {
            let body = [word, 0x40, 0x10];
            assert_eq!(number_in(&mut runner, 1, &body), 4);
            assert_eq!(number_in(&mut runner, 2, &body), 0);
            assert_eq!(number_in(&mut runner, 3, &body), 4);
            compare(&mut runner, frame_as(2, &body));
        }
    }
    for body in [&[0x01][..], &[0x10], &[0x03, 0x10, 0x11]] {
        assert_eq!(number_in(&mut runner, 2, body), 0);
        runner.step(&relation(3, frame_as(1, body))).unwrap();
        let four = runner.counts.numbers[4];
        runner.step(&relation(3, frame_as(2, body))).unwrap();
        assert_eq!(runner.counts.numbers[4], four + 1);
    }
    // Check 7 names until's relation.
    assert_eq!(number(&mut runner, &[0x97, 0x00, 0x01]), 7);
    assert_eq!(number(&mut runner, &[0x9F, 0x00, 0x01]), 7);
}

/// The stack at its deepest: until as the f, or the g, of until, 63 times, with rounds enough to
/// come to the innermost.
#[test]
fn until_in_until() {
    for (first, leaf) in [(true, 0x00), (true, 0x10), (true, 0x11), (false, 0x10)] {
        for rounds in [62, 63, 64, 65, 200, 2_000] {
            let mut runner = room(2, 60);
            let formula = frame(&untils(64, first, 1, leaf));
            let call = Call::Set {
                place: 0,
                r: 3,
                rounds,
                formula,
            };
            runner.step(&Step::Call(call)).unwrap();
            runner.compare_all().unwrap();
        }
    }
}

/// "Checks run in this order, 4 to 7 each over the whole formula"; 12 "directly after 5".
#[test]
fn order_of_the_checks() {
    let mut runner = room(1, 40);
    // Faults in the order of the checks: 4 an unknown byte, 5 P unbound, 12 P nowhere in its body, 6 P
    // read odd, 7 register 9 empty. Each pair and triple, in all orders, below ANDs and untils.
    let faults: [(u8, &[u8]); 5] = [
        (4, &[0x05]),
        (5, &[0x3A]),
        (12, &[0x82, 0x10]),
        (6, &[0x71, 0x02, 0x31]),
        (7, &[0x49]),
    ];
    for (a, (_, first)) in faults.into_iter().enumerate() {
        for (b, (_, second)) in faults.into_iter().enumerate() {
            for (c, (_, third)) in faults.into_iter().enumerate() {
                let (wanted, _) = faults[a.min(b).min(c)];
                // Of AND, and of until: 90 names relation 0, which is filled.
                for word in [0x03, 0x90, 0x98] {
                    let body = [&[word], first, &[word], second, third].concat();
                    assert_eq!(number(&mut runner, &body), wanted, "{body:x?}");
                }
            }
        }
    }
}

/// "register, relation or state number out of range" comes before the checks of the formula.
#[test]
fn range_before_formula() {
    let mut accounts = [Account::unlimited()];
    let mut table = Table::new(&mut accounts, 1, 10).unwrap();
    let mut set =
        |table: &mut Table<Vec<u32>>, r| table.set(&mut accounts, Target::register(r), []);
    assert_eq!(set(&mut table, 32).unwrap_err(), Refusal::Range);
    assert_eq!(table.relation(8, []).unwrap_err(), Refusal::Range);
    assert_eq!(set(&mut table, 31).unwrap_err(), Refusal::Syntax);
    assert_eq!(table.relation(7, []).unwrap_err(), Refusal::Syntax);
    assert_eq!(table.member(0, 2), Err(Refusal::Range));
    assert_eq!(table.member(0, 1), Err(Refusal::Empty));
}
