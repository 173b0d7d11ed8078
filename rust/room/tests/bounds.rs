//! Large files: what is looked for in them is bounded.
use room::mistake::MOST_SHOWN;
use room::read::{read, MOST_NAMES};
use room::sense;

/// A room of 16 things with so many names, each of the one before.
fn names(count: usize) -> String {
    let things: String = (0..16).map(|k| format!(" t{k}")).collect();
    let mut text = format!("things:{things}\nstart: all off\npress A: t0 on\nnever t0\n");
    for k in 0..count {
        text += &format!("name-{k} means t{} or not t{}\n", k % 16, (k + 1) % 16);
    }
    text
}

/// Names that may be meant are looked for only for the mistakes that are shown.
#[test]
fn unknown_words() {
    let mut text = names(10);
    for _ in 0..MOST_SHOWN + 10 {
        text += "never nam-1\nA1 works whenever t0\n";
    }
    let found = read(&text).unwrap_err();
    assert_eq!(found.len(), 2 * (MOST_SHOWN + 10));
    let says = |told: &str| found.iter().filter(|m| m.says == told).count();
    assert_eq!(
        says("nothing here is called \"nam-1\". Is \"name-1\" meant?"),
        MOST_SHOWN
    );
    assert_eq!(says("nothing here is called \"nam-1\""), 10);
    assert_eq!(says("no press is called \"A1\""), MOST_SHOWN + 10);
}

/// Positions too.
#[test]
fn unknown_positions() {
    let text = "selector s: p q\nstart: all off\npress A: s = q\n".to_string();
    let found = read(&(text + &"never q\n".repeat(MOST_SHOWN + 10))).unwrap_err();
    let says = |told: &str| found.iter().filter(|m| m.says == told).count();
    assert_eq!(
        says("\"q\" is a position of \"s\": write \"s = q\""),
        MOST_SHOWN
    );
    assert_eq!(says("nothing here is called \"q\""), 10);
}

#[test]
fn at_most_so_many_names() {
    let room = read(&names(MOST_NAMES)).unwrap();
    assert_eq!(sense::mistakes(&room), []);
    let found = read(&names(MOST_NAMES + 2)).unwrap_err();
    assert_eq!(found.len(), 2);
    assert_eq!((found[0].line, found[0].width), (5 + MOST_NAMES, 9));
    assert_eq!(
        found[0].says,
        "this name does not fit: a room has at most 1,000 of them"
    );
}

/// Names that double what they mean, up to the most that a condition may be, and many lines with them.
#[test]
fn many_long_conditions() {
    let mut text = names(0);
    let mut last = String::from("t1 and t2 and t3 and t4 and t5 and t6 and t7 and t8");
    for k in 0..5 {
        text += &format!("long-{k} means ({last}) or (t9 and ({last}))\n");
        last = format!("long-{k}");
    }
    for k in 0..MOST_NAMES - 5 {
        text += &format!("n{k} means {last} and not t0\n");
    }
    for k in 0..10_000 {
        text += &format!("press B: t{} on when n{} or t0\n", k % 16, k % 900);
    }
    let room = read(&text).unwrap();
    assert_eq!(sense::mistakes(&room), []);
    let states = room.all_states();
    assert_eq!(sense::count(&room, &states, &room.named[5].means), 128);
}
