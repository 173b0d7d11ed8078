//! Damaged records: the program `crates/roomrules/out/roomrules` (`rt run` in crates/roomrules) and
//! the separate evaluator's program read the same bytes and must print the same lines.

use calls::records::{draw, record};
use reference::random::Random;
use reference::records::output_of;
use std::io::{Read, Write};
use std::process::{Command, Stdio};

const PROGRAM: &str = "../../crates/roomrules/out/roomrules";

/// What the program prints for these bytes.
fn program(input: &[u8]) -> String {
    let mut child = Command::new(PROGRAM)
        .stdin(Stdio::piped())
        .stdout(Stdio::piped())
        .spawn()
        .expect("crates/roomrules/out/roomrules, made by `rt run` in crates/roomrules");
    // The program may end before it has read all.
    let _ = child.stdin.take().expect("piped").write_all(input);
    let mut output = String::new();
    let mut stdout = child.stdout.take().expect("piped");
    stdout.read_to_string(&mut output).expect("lines are text");
    assert!(child.wait().expect("it ends").success());
    output
}

/// Whether a fresh record has an n for which the separate evaluator has too many pairs to
/// enumerate. Reads whole records only.
fn is_wide(mut bytes: &[u8]) -> bool {
    while let [high, low, rest @ ..] = bytes {
        let length = usize::from(u16::from_be_bytes([*high, *low]));
        if let [1, 1, 6..=16, ..] = rest {
            return true;
        }
        bytes = rest.get(length..).unwrap_or(&[]);
    }
    false
}

/// The same lines from both; the lines.
fn compare(bytes: &[u8]) -> String {
    let wanted = output_of(bytes);
    assert_eq!(program(bytes), wanted, "{bytes:x?}");
    wanted
}

/// One fault in the bytes of some records.
fn damage(random: &mut Random, records: &[Vec<u8>]) -> Vec<u8> {
    let mut records = records.to_vec();
    let which = random.below(records.len() as u64) as usize;
    match random.below(10) {
        0 => records.swap(which, 0),
        1 => drop(records.remove(which)),
        2 => records[which][1] = random.below(256) as u8,
        3 => records[which][3] = random.below(9) as u8,
        4 => records[which].push(0),
        _ => {}
    }
    let mut bytes = records.concat();
    let at = random.below(bytes.len().max(1) as u64) as usize;
    match random.below(5) {
        0 => bytes.truncate(at),
        1 => bytes.insert(at, random.below(256) as u8),
        2 if !bytes.is_empty() => drop(bytes.remove(at)),
        3 if !bytes.is_empty() => bytes[at] = random.below(256) as u8,
        _ => {}
    }
    bytes
}

#[test]
fn damaged_streams() {
    let mut random = Random::new(31);
    let (mut good, mut bad) = (0, 0);
    for _ in 0..60 {
        let (records, _) = draw(&mut random);
        compare(&records.concat());
        for _ in 0..20 {
            let bytes = damage(&mut random, &records);
            if is_wide(&bytes) {
                continue;
            }
            match compare(&bytes).ends_with("end ok\n") {
                true => good += 1,
                false => bad += 1,
            }
        }
    }
    println!("end ok {good}, end bad {bad}");
    assert!(good > 200 && bad > 200);
}

/// The listing of document 01, each byte changed in some ways, and cut at each place.
#[test]
fn the_listing_damaged() {
    let frame: &[u8] = &[0x00, 0x0A, 0x01];
    let turn: &[u8] = &[0x04, 0x03, 0x20, 0x02, 0x10, 0x03, 0x02, 0x20, 0x10];
    let reach: &[u8] = &[0x00, 0x06, 0x01, 0x70, 0x04, 0x10, 0x68, 0x30];
    let listing = [
        record(1, &[&[1, 0x00, 0x64]]),
        record(2, &[&[0], frame, turn]),
        record(3, &[&[0, 0, 0, 0, 3], reach]),
        record(6, &[]),
    ]
    .concat();
    let lines = "1 0 0 0\n2 0 0 0\n3 0 2 3\n6 0 2 0\nend ok\n";
    assert_eq!(compare(&listing), lines);
    for length in 0..listing.len() {
        compare(&listing[..length]);
    }
    for at in 0..listing.len() {
        let old = listing[at];
        for value in [
            0,
            1,
            2,
            5,
            old.wrapping_add(1),
            old.wrapping_sub(1),
            old ^ 0x40,
            0xFF,
        ] {
            let mut bytes = listing.clone();
            bytes[at] = value;
            if !is_wide(&bytes) {
                compare(&bytes);
            }
        }
    }
}
