//! Random lists of calls, n = 1 to 5, 1 to 8 accounts, on the library and on the separate evaluator.
//!
//! After each call: number, rounds, peak, value, all accounts, kept words, soundness. After each list: node,
//! count and member of every register and state, node numbers over all pairs of registers, relations.
//! `KUDZUCLAMP_CALLS` calls (20,000) from seed `KUDZUCLAMP_SEED` (1) in `KUDZUCLAMP_THREADS` threads
//! (one for each processor). A difference prints its list; save it and run it again with
//! `KUDZUCLAMP_REPLAY=FILE cargo test --offline --release --test lists replay -- --ignored`.

use calls::draw::{draw_and_run, Drawn, Edges, CALLS};
use calls::list::List;
use calls::run::{run, Counts, NUMBERS};
use std::env;
use std::io::{stderr, Write};
use std::panic::catch_unwind;
use std::sync::atomic::{AtomicU64, Ordering};
use std::thread;
use std::time::Instant;

/// A number from the environment.
fn setting(name: &str, default: u64) -> u64 {
    let Ok(text) = env::var(name) else {
        return default;
    };
    text.parse()
        .unwrap_or_else(|_| panic!("{name} is no number"))
}

/// Sums over lists.
#[derive(Default)]
struct Totals {
    counts: Counts,
    edges: Edges,
    differences: Vec<String>,
}

impl Totals {
    fn of(index: u64, drawn: Drawn) -> Totals {
        let text = |what| format!("list {index}: {what}\n{}", drawn.list);
        Totals {
            counts: drawn.runner.counts,
            edges: drawn.edges,
            differences: drawn.difference.map(text).into_iter().collect(),
        }
    }

    fn add(&mut self, other: Totals) {
        self.counts.add(other.counts);
        self.edges.table.add(other.edges.table);
        self.edges.rows.add(other.edges.rows);
        self.edges.rounds.add(other.edges.rounds);
        self.differences.extend(other.differences);
    }
}

/// Runs lists until all are taken.
fn work(seed: u64, lists: u64, taken: &AtomicU64) -> Totals {
    let mut totals = Totals::default();
    loop {
        let index = taken.fetch_add(1, Ordering::Relaxed);
        if index >= lists || totals.differences.len() > 2 {
            return totals;
        }
        match catch_unwind(|| draw_and_run(seed, index)) {
            Ok(drawn) => totals.add(Totals::of(index, drawn)),
            Err(_) => totals.differences.push(format!("list {index}: a panic")),
        }
    }
}

/// Runs so many lists, in threads.
fn run_lists(seed: u64, lists: u64) -> Totals {
    let processors = thread::available_parallelism().map_or(1, |count| count.get());
    let threads = setting("KUDZUCLAMP_THREADS", processors as u64);
    let (mut totals, taken) = (Totals::default(), AtomicU64::new(0));
    thread::scope(|scope| {
        let workers: Vec<_> = (0..threads)
            .map(|_| scope.spawn(|| work(seed, lists, &taken)))
            .collect();
        for worker in workers {
            totals.add(worker.join().expect("no panic"));
        }
    });
    totals
}

#[test]
fn random_lists() {
    let calls = setting("KUDZUCLAMP_CALLS", 20_000);
    let seed = setting("KUDZUCLAMP_SEED", 1);
    let (start, lists) = (Instant::now(), calls.div_ceil(CALLS));
    let totals = run_lists(seed, lists);
    report(&totals, seed, lists, start.elapsed().as_secs_f64());
    assert!(totals.differences.is_empty(), "{}", totals.differences[0]);
    let Counts {
        numbers,
        sets,
        untils,
        games,
        logs,
        ..
    } = totals.counts;
    for number in [0, 2, 3, 7, 8, 9, 14, 15] {
        assert!(games[number] > 0, "no call of a game gave {number}");
    }
    for number in [0, 1, 2, 3, 7, 8, 10, 11] {
        assert!(logs[number] > 0, "no call for two logs gave {number}");
    }
    for number in (0..=9).chain([12, 14]) {
        assert!(numbers[number] > 0, "no call gave {number}");
        // 1 is of fresh and of logs alone.
        assert!(number == 1 || untils[number] > 0, "no until gave {number}");
    }
    let share = 100 * untils.iter().sum::<u64>() / sets;
    assert!((30..40).contains(&share), "{share} of 100 sets have until");
    let Edges {
        table,
        rows,
        rounds,
    } = totals.edges;
    assert!(table.both() && rows.both() && rounds.both());
}

fn by_number(numbers: &[u64; NUMBERS]) -> String {
    let mut text = format!("answered {}; refused", numbers[0]);
    let given = numbers.iter().enumerate().skip(1);
    for (number, count) in given.filter(|(_, &count)| count > 0) {
        text += &format!(" {number}: {count}");
    }
    text
}

/// Written past the test runner's capture.
fn report(totals: &Totals, seed: u64, lists: u64, seconds: f64) {
    let Counts {
        numbers,
        sets,
        untils,
        games,
        logs,
        peaks,
        questions,
        ..
    } = totals.counts;
    let made: u64 = numbers.iter().sum();
    let differences = totals.differences.len();
    let mut text =
        format!("seed {seed}: {lists} lists, {made} calls, {questions} questions after lists");
    text += &format!(", {differences} differences, {seconds:.1} s\n");
    text += &by_number(&numbers);
    text += &format!("\npeaks above 0: {peaks}");
    let edges = [
        ("N", totals.edges.table),
        ("an account's row limit", totals.edges.rows),
        ("an account's round limit", totals.edges.rounds),
    ];
    for (name, edge) in edges {
        let (answered, past) = (edge.answered, edge.refused);
        text += &format!("\nat {name}: {answered} answered, {past} one past it");
    }
    let with_until: u64 = untils.iter().sum();
    text += &format!(
        "\nsets {sets}, with until {with_until}: {}",
        by_number(&untils)
    );
    let of_games: u64 = games.iter().sum();
    text += &format!("\ncalls of games {of_games}: {}", by_number(&games));
    let of_logs: u64 = logs.iter().sum();
    text += &format!("\ncalls for two logs {of_logs}: {}\n", by_number(&logs));
    stderr()
        .write_all(text.as_bytes())
        .expect("stderr takes text");
}

#[test]
#[ignore = "runs the list in the file that KUDZUCLAMP_REPLAY names"]
fn replay() {
    let path = env::var("KUDZUCLAMP_REPLAY").expect("KUDZUCLAMP_REPLAY names a file");
    let text = std::fs::read_to_string(&path).expect("the file can be read");
    let list = List::read(&text).expect("a list");
    let counts = run(&list).unwrap_or_else(|what| panic!("{what}"));
    stderr()
        .write_all(format!("{counts:?}\n").as_bytes())
        .expect("stderr takes text");
}

#[test]
fn a_printed_list_is_read_again_and_runs_the_same() {
    for index in 0..50 {
        let drawn = draw_and_run(7, index);
        let list = List::read(&drawn.list.to_string()).expect("a list");
        assert_eq!(list, drawn.list);
        assert_eq!(run(&list), Ok(drawn.runner.counts));
    }
}
