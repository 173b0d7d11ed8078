//! Runs that fit two logs.
use kudzuclamp::{Account, Entry, Formula, Refusal, Table, MAX_ENTRIES};

/// So many switches, of which each press turns one over.
fn switches(n: u32, rows: u32) -> Table<Vec<u32>> {
    let mut accounts = [Account::unlimited()];
    let mut table = Table::new(&mut accounts, n, rows).unwrap();
    let keeps = |p: u32, f| {
        (0..n)
            .filter(|&q| q != p)
            .fold(f, |f: Formula, q| f & Formula::keeps(q))
    };
    let press = |p| keeps(p, Formula::turns(p));
    let presses = (0..n).map(press).reduce(|f, g| f | g).unwrap();
    table.relation(0, presses).unwrap();
    table
}

/// What a log that knows the bits of a mask has of a run.
fn bits(run: &[u16], mask: u16) -> Vec<Entry> {
    run.iter().map(|s| Entry::new(mask, s & mask)).collect()
}

#[test]
fn each_log_knows_some_bits() {
    let mut table = switches(4, 300);
    let run = [0b0000, 0b0100, 0b0101, 0b1101, 0b1100];
    let (odd, even) = (bits(&run, 0b1010), bits(&run, 0b0101));
    assert_eq!(table.logged(0, &odd, &even).unwrap(), run);
    // One log alone leaves a choice, and the least states are written.
    let none = [Entry::none(); 5];
    assert_eq!(
        table.logged(0, &odd, &none).unwrap(),
        [0b0000, 0b0001, 0b0000, 0b1000, 0b1001]
    );
    assert_eq!(table.logged(0, &none, &none).unwrap(), [0, 1, 0, 1, 0]);
}

#[test]
fn logs_that_cannot_be() {
    let mut table = switches(3, 300);
    let none = [Entry::none(); 3];
    let with = |at: usize, entry| {
        let mut log = none;
        log[at] = entry;
        log
    };
    // A value outside its mask, a bit that no state has, and two logs that differ.
    for entry in [Entry::new(0, 1), Entry::new(8, 8), Entry::new(1, 3)] {
        for at in 0..3 {
            let got = table.logged(0, &with(at, entry), &none);
            assert_eq!(got, Err(Refusal::NoRun));
        }
    }
    let (on, off) = (with(1, Entry::new(2, 2)), with(1, Entry::new(2, 0)));
    assert_eq!(table.logged(0, &on, &off), Err(Refusal::NoRun));
    // A mask's bit that no state has asks nothing.
    assert_eq!(
        table.logged(0, &with(0, Entry::new(0xFFF8, 0)), &none),
        Ok(vec![0, 1, 0])
    );
}

#[test]
fn lengths_and_numbers() {
    let mut table = switches(2, 100);
    let log = vec![Entry::none(); MAX_ENTRIES + 1];
    assert_eq!(table.logged(0, &[], &[]), Err(Refusal::Sizes));
    assert_eq!(table.logged(8, &log[..2], &log[..1]), Err(Refusal::Sizes));
    assert_eq!(table.logged(0, &log, &log), Err(Refusal::Sizes));
    assert_eq!(table.logged(8, &log[..1], &log[..1]), Err(Refusal::Range));
    assert_eq!(table.logged(1, &log[..1], &log[..1]), Err(Refusal::Empty));
    assert_eq!(table.logged(0, &log[..1], &log[..1]), Ok(vec![0]));
    table.words_mut()[0] = 17;
    assert_eq!(table.logged(8, &log[..1], &log[..1]), Err(Refusal::Unsound));
}

#[test]
fn places_past_the_run_are_kept() {
    let mut table = switches(2, 100);
    let (none, on) = ([Entry::none(); 2], [Entry::none().bit(1, true); 2]);
    let mut list = [7; 5];
    let short = table.write_logged(&mut list[..1], 0, &none, &on);
    assert_eq!((short, list), (Err(Refusal::Short), [7; 5]));
    let never = table.write_logged(&mut list[..1], 0, &[Entry::new(0, 1); 2], &on);
    assert_eq!((never, list), (Err(Refusal::NoRun), [7; 5]));
    table.write_logged(&mut list, 0, &none, &on).unwrap();
    assert_eq!(list, [2, 3, 7, 7, 7]);
}

/// 8 exactly where there are fewer rows than a step needs.
#[test]
fn rows() {
    let run = [0b000, 0b001, 0b011];
    let (one, two) = (bits(&run, 0b011), bits(&run, 0b110));
    let asked = |rows| {
        let mut table = Table::new(&mut [Account::unlimited()], 3, rows).unwrap();
        table.relation(0, Formula::truth()).unwrap();
        table.logged(0, &one, &two)
    };
    let least = (1..100).find(|&rows| asked(rows).is_ok()).unwrap();
    assert!(least > 1);
    assert!((1..least).all(|rows| asked(rows) == Err(Refusal::Full)));
    assert!((least..100).all(|rows| asked(rows).as_deref() == Ok(&run)));
}
