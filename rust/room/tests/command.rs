//! The command itself: what it prints, and its exit status.
use std::io::Write;
use std::process::{Command, Output, Stdio};

const EXAMPLES: &str = concat!(env!("CARGO_MANIFEST_DIR"), "/../../examples");

fn room(arguments: &[&str]) -> Command {
    let mut command = Command::new(env!("CARGO_BIN_EXE_room"));
    command.args(arguments).current_dir(EXAMPLES);
    command
}

/// What is printed, what stands on standard error, and the status. A quick build's own line is left out.
fn said(output: Output) -> (String, String, i32) {
    let text = |bytes: Vec<u8>| String::from_utf8(bytes).unwrap();
    let lines = text(output.stdout);
    let kept = lines
        .lines()
        .filter(|line| !line.starts_with("(A quick build"));
    let printed: String = kept.map(|line| format!("{line}\n")).collect();
    (printed, text(output.stderr), output.status.code().unwrap())
}

fn run(arguments: &[&str]) -> (String, String, i32) {
    said(room(arguments).output().unwrap())
}

/// A run with a text on standard input.
fn given(arguments: &[&str], text: &[u8]) -> (String, String, i32) {
    let mut child = room(arguments)
        .stdin(Stdio::piped())
        .stdout(Stdio::piped())
        .stderr(Stdio::piped())
        .spawn()
        .unwrap();
    // The command may end before it has read all.
    let _ = child.stdin.take().unwrap().write_all(text);
    said(child.wait_with_output().unwrap())
}

/// A room of n things: each press turns one over, where all before the one before it are off and that one is on.
fn gray(n: usize) -> String {
    let things: Vec<String> = (0..n).map(|k| format!("t{k}")).collect();
    let mut text = format!(
        "things: {}\nstart: all off\npress T0: t0 turns over\n",
        things.join(" ")
    );
    for k in 1..n {
        let mut when: Vec<String> = (0..k - 1).map(|j| format!("not t{j}")).collect();
        when.push(format!("t{}", k - 1));
        text += &format!("press T{k}: t{k} turns over when {}\n", when.join(" and "));
    }
    let none: Vec<String> = (0..n - 1).map(|k| format!("not t{k}")).collect();
    text + &format!(
        "never t{} and {}\nalways possible: not t0\n",
        n - 1,
        none.join(" and ")
    )
}

#[test]
fn the_hall() {
    let hall = "\
64 states, 6 presses. Start: all off.
BROKEN      never howl
  6 presses do it, and no fewer:
     start    all off
  1  MIC B    mic-B on
  2  START    song on
  3  ECHO     echo on, latch on
  4  STOP     echo off, song off
  5  MONITOR  monitor on
  6  START    echo on, song on
     end      mic-B, echo, song, monitor, latch
SAFE        always possible: quiet
SAFE        always possible: song
BROKEN: 1 of 3 questions. Do not hand over.
";
    assert_eq!(run(&["hall.room"]), (hall.to_string(), String::new(), 1));
}

/// The example rooms print what the documents show.
#[test]
fn as_documented() {
    let documents = ["../README.md", "README.md"]
        .map(|name| std::fs::read_to_string(format!("{EXAMPLES}/{name}")).unwrap());
    for (name, status) in [
        ("hall.room", 1),
        ("mended.room", 0),
        ("booth.room", 0),
        ("bar.room", 0),
    ] {
        let (printed, errors, found) = run(&[name]);
        assert_eq!((errors.as_str(), found), ("", status));
        let shown: String = printed
            .lines()
            .map(|line| format!("    {line}\n"))
            .collect();
        assert!(
            documents.iter().any(|text| text.contains(&shown)),
            "no document shows\n{shown}"
        );
    }
}

#[test]
fn sixteen_bits() {
    let chain: String = {
        let things: Vec<String> = (0..16).map(|k| format!("t{k}")).collect();
        let mut text = format!(
            "things: {}\nstart: all off\npress T0: t0 turns over\n",
            things.join(" ")
        );
        for k in 1..16 {
            text += &format!("press T{k}: t{k} turns over when t{}\n", k - 1);
        }
        text + &format!(
            "never {}\nalways possible: not t0 and not t15\nnot t15 until t1\n",
            things.join(" and ")
        )
    };
    let (printed, _, status) = given(&["-"], chain.as_bytes());
    assert!(
        printed.starts_with("65,536 states, 16 presses.") && status == 1,
        "{printed}"
    );
    assert!(
        printed.contains("16 presses do it, and no fewer:"),
        "{printed}"
    );
}

#[test]
fn a_long_run_is_shortened() {
    let (printed, _, status) = given(&["-"], gray(8).as_bytes());
    assert_eq!(status, 1);
    assert!(
        printed.contains("255 presses do it, and no fewer:"),
        "{printed}"
    );
    // The state behind the presses that are left out, and the changes from there on.
    let rest = "  ... 230 presses more; --whole-run shows them\n       then   t0, t1, t2, t7\n  251  T0     t0 off\n  252  T2     t2 off\n  \
                253  T0     t0 on\n  254  T1     t1 off\n  255  T0     t0 off\n       end    t7\n";
    assert!(printed.contains(rest), "{printed}");
    assert_eq!(
        printed.lines().filter(|line| line.contains("  T")).count(),
        25
    );
    let (printed, _, _) = given(&["--whole-run", "-"], gray(8).as_bytes());
    assert_eq!(
        printed.lines().filter(|line| line.contains("  T")).count(),
        255
    );
}

#[test]
fn no_verdict() {
    let (printed, errors, status) = run(&["--rows", "100", "mended.room"]);
    let cause = "The table is full: a step needs more than its 100 rows. Not safe, not broken: unknown. Take a larger table: --rows\n";
    assert!(
        printed.contains(&format!("NO VERDICT  never howl\n            {cause}")),
        "{printed}"
    );
    assert!(printed.ends_with("NO VERDICT: 3 of 3 questions. Do not hand over.\n"));
    assert_eq!((errors.as_str(), status), ("", 3));
    let (printed, _, status) = run(&["--rounds", "1", "mended.room"]);
    let cause = "The 1 rounds are used up. Not safe, not broken: unknown. Take more: --rounds\n";
    assert!(
        printed.contains(&format!(
            "NO VERDICT  always possible: quiet\n            {cause}"
        )),
        "{printed}"
    );
    assert_eq!(status, 3);
    // A question that is broken counts more than one without a verdict.
    let (printed, _, status) = run(&["--rounds", "8", "hall.room"]);
    assert!(
        printed.ends_with(
            "SAFE        always possible: song\nBROKEN: 1 of 3 questions. Do not hand over.\n"
        ),
        "{printed}"
    );
    assert_eq!(status, 1);
}

/// Questions that ask for a way, for what holds from a state on, and for a button; with one start, and with any.
#[test]
fn other_questions() {
    let room = |start: &str| {
        format!(
            "things: mic song lock\nstart: {start}\npress START: song on when not song and not lock\npress STOP: song off when song\n\
             press MIC: mic turns over when song\npress LOCK: lock turns over\npossible: mic and lock\npossible: mic and not song\n\
             START works whenever not song\nwhenever lock: not mic unless song\nwhenever mic: mic unless not song\n"
        )
    };
    let expected = "\
8 states, 4 presses. Start: all off.
SAFE        possible: mic and lock
  3 presses do it, and no fewer:
     start  all off
  1  START  song on
  2  MIC    mic on
  3  LOCK   lock on
     end    mic, song, lock
SAFE        possible: mic and not song
  3 presses do it, and no fewer:
     start  all off
  1  START  song on
  2  MIC    mic on
  3  STOP   song off
     end    mic
BROKEN      START works whenever not song
  One press does it:
     start  all off
  1  LOCK   lock on
     end    lock
  There START does not work.
BROKEN      whenever lock: not mic unless song
  4 presses do it, and no fewer:
     start  all off
  1  START  song on
  2  MIC    mic on
  3  STOP   song off
  4  LOCK   lock on
     end    mic, lock
  \"lock\" holds after press 4.
  There \"not mic\" does not hold, and \"song\" has not come.
BROKEN      whenever mic: mic unless not song
  3 presses do it, and no fewer:
     start  all off
  1  START  song on
  2  MIC    mic on
  3  MIC    mic off
     end    song
  \"mic\" holds after press 2.
  There \"mic\" does not hold, and \"not song\" has not come.
BROKEN: 3 of 5 questions. Do not hand over.
";
    let (printed, errors, status) = given(&["-"], room("all off").as_bytes());
    assert_eq!(
        (printed.as_str(), errors.as_str(), status),
        (expected, "", 1)
    );
    let (printed, _, _) = given(&["-"], room("any").as_bytes());
    let lines = [
        "8 states, 4 presses. Start: any state.\n",
        "  4 presses do it from the start that is farthest from there, and no fewer:\n     start  lock\n",
        "BROKEN      START works whenever not song\n  At the start already:\n     start  lock\n  There START does not work.\n",
    ];
    assert!(lines.iter().all(|line| printed.contains(line)), "{printed}");
    // What no presses lead to is told from the start.
    let text = "things: mic song\nstart: mic on\npress MIC: mic turns over\npossible: song\n";
    let (printed, _, status) = given(&["-"], text.as_bytes());
    let expected = "BROKEN      possible: song\n  At the start already:\n     start  mic\n  From there no presses lead to \"song\".\n";
    assert!(printed.contains(expected) && status == 1, "{printed}");
}

/// What the mending of the hall changes, as examples/README.md shows it.
#[test]
fn two_rooms() {
    let (printed, errors, status) = run(&["--diff", "hall.room", "mended.room"]);
    let expected = "\
hall.room before, mended.room after.
BROKEN -> SAFE           never howl
SAFE                     always possible: quiet
SAFE                     always possible: song
States that can come: 32 before, 38 after (2 gone, 8 new).
  gone, such as: mic-B, echo, song, monitor, latch
  new, such as:  song, latch
START does something else in 4 states, of which 2 can come, such as: mic-B, monitor, latch
    before: echo on, song on
    after:  song on
5 presses do the same as before.
After: SAFE: all 3 questions.
";
    assert_eq!(
        (printed.as_str(), errors.as_str(), status),
        (expected, "", 0)
    );
    let shown: String = expected
        .lines()
        .map(|line| format!("    {line}\n"))
        .collect();
    let document = std::fs::read_to_string(format!("{EXAMPLES}/README.md")).unwrap();
    assert!(document.contains(&shown));
    // The other way round the status is that of the broken one.
    assert_eq!(run(&["--diff", "mended.room", "hall.room"]).2, 1);
    let (printed, _, _) = run(&["--diff", "booth.room", "booth.room"]);
    assert!(
        printed.contains("(0 gone, 0 new).\n9 presses do the same as before.\nAfter: SAFE"),
        "{printed}"
    );
}

/// Presses and questions that come and go, another start; things in another order are the same things.
#[test]
fn two_rooms_by_names() {
    let old = "things: mic song\nselector send: desk hall booth\nstart: all off, send = hall\npress MIC: mic turns over when not send = desk\n\
               press SEND: send = booth\npress OLD: mic off\npress TWO: mic on\npress TWO: song on\nnever mic\nnever song and mic\n";
    let new = "selector send: booth hall desk\nthings: song mic\nstart: any\npress MIC: mic turns over when send = hall\n\
               press SEND: send = booth\npress NEW: mic off\npress TWO: mic on\nnever mic\npossible: song\n";
    let folder = std::env::temp_dir().join(format!("room-diff-{}", std::process::id()));
    std::fs::create_dir_all(&folder).unwrap();
    let file = |name: &str, text: &str| {
        let path = folder.join(name);
        std::fs::write(&path, text).unwrap();
        path.to_str().unwrap().to_string()
    };
    let (a, b) = (file("a.room", old), file("b.room", new));
    let (printed, errors, status) = run(&["--diff", &a, &b]);
    let expected = "\
BROKEN                   never mic
asked now: BROKEN        possible: song
asked before: BROKEN     never song and mic
Start: all off, send = hall before, any state after.
States that can come: 8 before, 12 after (0 gone, 4 new).
  new, such as:  all off, send = desk
MIC does something else in 4 states, of which 4 can come, such as: all off, send = booth
    before: mic on
    after:  does not work
OLD is gone.
TWO does something else in 9 states, of which 9 can come, such as: all off, send = booth
    before: song on or mic on
    after:  mic on
NEW is new.
1 press does the same as before.
After: BROKEN: 2 of 2 questions. Do not hand over.
";
    assert_eq!(printed, format!("{a} before, {b} after.\n{expected}"));
    assert_eq!((errors.as_str(), status), ("", 1));
    // Other things: states are not compared. A mistake in either file is told.
    let (printed, _, status) = run(&["--diff", &a, "hall.room"]);
    let expected = "The rooms do not have the same things, so states and presses are not compared.\n  only before: mic, send\n  \
                    only after: mic-A, mic-B, echo, monitor, latch\n";
    assert!(printed.contains(expected) && status == 1, "{printed}");
    let bad = file("bad.room", &new.replace("things", "thinks"));
    let (printed, errors, status) = run(&["--diff", &bad, &bad]);
    assert_eq!(
        (
            printed.as_str(),
            errors.matches("bad.room, line 2: ").count(),
            status
        ),
        ("", 2, 2)
    );
    // With a small table, what is found is by the walk alone.
    let (printed, _, _) = run(&["--diff", "--rows", "20", &a, &b]);
    assert!(
        printed
            .contains("\nFound by the walk alone, and not checked with the table: states before, "),
        "{printed}"
    );
    std::fs::remove_dir_all(&folder).unwrap();
}

/// The peak is enough, and one row fewer is not.
#[test]
fn peaks() {
    for (name, status) in [
        ("hall.room", 1),
        ("mended.room", 0),
        ("booth.room", 0),
        ("bar.room", 0),
    ] {
        let (printed, _, _) = run(&["--peak", name]);
        let last = printed.lines().last().unwrap();
        let rows = last.strip_prefix("A table of ").and_then(|rest| {
            rest.strip_suffix(" rows is enough for these questions, and no smaller one.")
        });
        let rows: u32 = rows.unwrap().replace(',', "").parse().unwrap();
        assert_eq!(
            run(&["--peak", "--rows", &rows.to_string(), name]),
            (printed, String::new(), status)
        );
        let (printed, _, _) = run(&["--rows", &(rows - 1).to_string(), name]);
        assert!(printed.contains("NO VERDICT"), "{printed}");
    }
}

/// Where a question has no verdict, no number of rows is called enough, be another one broken or not.
#[test]
fn peaks_without_a_verdict() {
    let text =
        "things: a b c\nstart: all off\npress A: a turns over\npress B: b turns over when a\n\
                press C: c turns over when b\nnever a\nnever c\nalways possible: c\n";
    let (printed, _, status) = given(&["--peak", "--rounds", "3", "-"], text.as_bytes());
    assert!(
        printed.contains("BROKEN      never a\n") && status == 1,
        "{printed}"
    );
    let expected = "BROKEN: 1 of 3 questions, and 2 without a verdict. Do not hand over.\n\
                    How many rows are enough is not known. Without a verdict in the file's order:\n  line 7: never c\n  line 8: always possible: c\n";
    assert!(printed.ends_with(expected), "{printed}");
    let (printed, _, status) = run(&["--peak", "--rows", "100", "mended.room"]);
    assert!(
        printed.ends_with("  line 29: always possible: song\n") && status == 3,
        "{printed}"
    );
    assert!(
        !printed.contains("is enough for these questions"),
        "{printed}"
    );
}

/// A run that goes round breaks an until as one does that comes to a bad state: the shorter one is shown.
#[test]
fn circles() {
    let room = |lamp: &str| {
        format!(
            "things: lamp a b c song\nstart: all off\n{lamp}press A: a on when not a\npress B: b on when a and not b\n\
             press C: c on when b\npress START: song on\nnot c until song\n"
        )
    };
    let (printed, _, status) = given(&["-"], room("press LAMP: lamp turns over\n").as_bytes());
    let expected = "BROKEN      not c until song\n  2 presses do it, and no fewer:\n     start  all off\n  1  LAMP   lamp on\n  2  LAMP   lamp off\n     end    all off\n  \
                    That is the start again, and so on for ever: \"song\" need never come.\nBROKEN: 1 of 1 questions. Do not hand over.\n";
    assert!(printed.ends_with(expected) && status == 1, "{printed}");
    // Without the lamp, C comes sooner than any state comes again.
    let (printed, _, _) = given(&["-"], room("").as_bytes());
    let expected = "  3 presses do it, and no fewer:\n     start  all off\n  1  A      a on\n  2  B      b on\n  3  C      c on\n     end    a, b, c\n  \
                    There \"c\" does not hold"
        .replace("\"c\"", "\"not c\"");
    assert!(printed.contains(&expected), "{printed}");
    // A circle farther on: the state after a press comes again.
    let later =
        room("press LAMP: lamp turns over when b\n").replace("c on when b", "c on when b and c");
    let (printed, _, _) = given(&["-"], later.as_bytes());
    let expected = "  4 presses do it, and no fewer:\n     start  all off\n  1  A      a on\n  2  B      b on\n  3  LAMP   lamp on\n  4  LAMP   lamp off\n     end    a, b\n  \
                    That is the state after press 2 again, and so on for ever: \"song\" need never come.\n";
    assert!(printed.contains(expected), "{printed}");
    // A press that works and changes nothing is a way round by itself.
    let (printed, _, _) = given(&["-"], room("press DARK: lamp off\n").as_bytes());
    let expected = "  One press does it:\n     start  all off\n  1  DARK   nothing changes\n     end    all off\n  That is the start again";
    assert!(printed.contains(expected), "{printed}");
}

/// An answer that cannot be written is not taken for one that was; where nobody reads on, nothing is said.
#[test]
fn answers_that_cannot_be_written() {
    let full = || {
        std::fs::OpenOptions::new()
            .write(true)
            .open("/dev/full")
            .unwrap()
    };
    let cases: [&[&str]; 5] = [
        &["hall.room"],
        &["mended.room"],
        &["--echo", "hall.room"],
        &["--records", "hall.room"],
        &["--help"],
    ];
    for arguments in cases {
        let (_, errors, status) = said(room(arguments).stdout(full()).output().unwrap());
        assert!(
            errors.starts_with("room: the answer cannot be written: "),
            "{errors}"
        );
        assert_eq!((errors.lines().count(), status), (1, 2));
        // Where the message cannot be written either, the status is still there.
        let status = room(arguments)
            .stdout(full())
            .stderr(full())
            .status()
            .unwrap();
        assert_eq!(status.code(), Some(2));
    }
    let status = room(&["none.room"]).stderr(full()).status().unwrap();
    assert_eq!(status.code(), Some(2));
}

/// Two rows of eight lamps that are compared as numbers, and presses that change both; the rows one after the other, or the
/// lamps in pairs.
fn two_rows(pairs: bool) -> String {
    let mut names: Vec<String> = (0..16)
        .map(|k| format!("{}{}", ["a", "b"][k / 8], k % 8))
        .collect();
    if pairs {
        names.sort_by_key(|name| name[1..].to_string());
    }
    let mut text = format!("things: {}\nstart: all off\n", names.join(" "));
    for k in 0..8 {
        text += &format!("d{k} means (a{k} and not b{k}) or (b{k} and not a{k})\n");
        text += &match k {
            0 => "g0 means a0 and not b0\n".to_string(),
            _ => format!(
                "g{k} means (a{k} and not b{k}) or (not d{k} and g{})\n",
                k - 1
            ),
        };
    }
    for k in 0..8 {
        let next = (k + 1) % 8;
        text += &format!("press A{k}: a{k} turns over, b{next} turns over when not g7\n");
        text += &format!("press B{k}: b{k} turns over, a{next} off when g7\n");
    }
    text + "never a0 and a1 and b2 and not (d0 or d1 or d2 or d3 or d4 or d5 or d6 or d7)\n"
}

/// In the order of the file the largest table is full. Another order gives the verdict that the file gives when it is written so.
#[test]
fn another_order() {
    let (printed, errors, status) = given(&["--peak", "-"], two_rows(false).as_bytes());
    let order = "\n            In the file's order of things the table is full. This verdict is by the order: a0 b0 a1 b1 a2 b2 a3 b3 a4 \
                 b4 a5 b5 a6 b6 a7 b7\n";
    assert!(printed.contains(order), "{printed}");
    let peak = "How many rows are enough is not known. Without a verdict in the file's order:\n  line 35: never ";
    assert!(printed.contains(peak), "{printed}");
    assert!(
        printed.ends_with(" (answered in another order of the things)\n"),
        "{printed}"
    );
    assert_eq!((errors.as_str(), status), ("", 1));
    let (written, _, status) = given(&["-"], two_rows(true).as_bytes());
    let presses = |printed: &str| -> Vec<String> {
        let lines = printed
            .lines()
            .filter(|line| line.starts_with("  ") && !line.contains("order"));
        lines.map(|line| line.chars().take(7).collect()).collect()
    };
    assert!(!written.contains("order") && status == 1, "{written}");
    let none = room::ask::Answer {
        verdict: room::ask::Verdict::None(kudzuclamp::Refusal::Full),
        ordered: None,
    };
    let says = "            No other order of the things in the table was found to help.\n";
    assert_eq!(room::report::order(&none), says);
    assert_eq!(presses(&printed), presses(&written));
}

/// Records that roomrules must refuse are not written.
#[test]
fn records_that_do_not_fit() {
    let says = |arguments: &[&str]| {
        let (printed, errors, status) = run(arguments);
        assert_eq!((printed.as_str(), status), ("", 3), "{errors}");
        errors
    };
    let rows = says(&["--records", "--rows", "2000", "hall.room"]);
    assert_eq!(
        rows,
        "room: roomrules has a table of 1,344 rows at most, and 2,000 are asked for. Nothing was written.\n"
    );
    let few = says(&["--records", "--rows", "100", "hall.room"]);
    let refused = "room: roomrules must refuse records of this room, so nothing was written:\n";
    let expected = "  relation 0: the presses\n      a step needs more than 100 rows. Take more: --rows, 1,344 at most\n";
    assert_eq!(few, format!("{refused}{expected}"));
    let rounds = says(&["--records", "--rounds", "7", "hall.room"]);
    let expected = "  line 27: never howl\n      the 7 rounds are used up\n";
    assert_eq!(rounds, format!("{refused}{expected}"));
    // The same number of rows as by --peak: with one fewer a record is refused.
    let (printed, _, _) = run(&["--peak", "mended.room"]);
    let rows = printed.lines().last().unwrap().split(' ').nth(3).unwrap();
    let rows: u32 = rows.parse().unwrap();
    assert_eq!(
        run(&["--records", "--rows", &rows.to_string(), "mended.room"]).2,
        0
    );
    assert_eq!(
        run(&[
            "--records",
            "--rows",
            &(rows - 1).to_string(),
            "mended.room"
        ])
        .2,
        3
    );
    // A room that needs more rows than roomrules has.
    let (printed, errors, status) = given(&["--records", "-"], two_rows(true).as_bytes());
    assert_eq!((printed.as_str(), status), ("", 3));
    assert!(errors.starts_with(refused), "{errors}");
    assert!(
        errors.ends_with("\n      a step needs more than 1,344 rows, and roomrules has no more\n"),
        "{errors}"
    );
}

/// No more of a file is read than a room can have.
#[test]
fn large_files() {
    let says = "cannot be read: it has more than 1 MB, as no room and no list of records has\n";
    for arguments in [["--echo", "/dev/zero"], ["--explain", "/dev/zero"]] {
        let expected = format!("room: /dev/zero {says}");
        assert_eq!(run(&arguments), (String::new(), expected, 2));
    }
    let mut text = "things: a\nstart: all off\npress A: a on\nnever a\n".to_string();
    text += &format!("#{}\n", " ".repeat(1_000_000 - 2 - text.len()));
    assert_eq!(given(&["-"], text.as_bytes()).2, 1);
    text += "\n";
    let expected = format!("room: standard input {says}");
    assert_eq!(given(&["-"], text.as_bytes()), (String::new(), expected, 2));
}

#[test]
fn bad_files() {
    let (printed, errors, status) = given(
        &["-"],
        b"things: mic\nstart: all off\npress MIC: mick on\nnever mic\n",
    );
    let expected = "standard input, line 3: nothing here is called \"mick\". Is \"mic\" meant?\n    press MIC: mick on\n               ^^^^\n\
                    1 mistake. Nothing was asked.\n";
    assert_eq!(
        (printed.as_str(), errors.as_str(), status),
        ("", expected, 2)
    );
    let (_, errors, status) = given(&["-"], b"things: mic\nstart: \xff\n");
    assert_eq!(
        (errors.as_str(), status),
        ("standard input, line 2: this is no text (UTF-8)\n", 2)
    );
    let (_, errors, status) = run(&["none.room"]);
    assert!(
        errors.starts_with("room: none.room cannot be read: "),
        "{errors}"
    );
    assert_eq!(status, 2);
    let many: String = (0..30).map(|k| format!("x{k}\n")).collect();
    let (_, errors, _) = given(&["-"], many.as_bytes());
    assert!(
        errors.ends_with("30 mistakes, of which the first 20 are shown. Nothing was asked.\n"),
        "{errors}"
    );
}

#[test]
fn command_lines() {
    let cases: [(&[&str], &str); 11] = [
        (&[], "no file is named"),
        (&["--perfect", "hall.room"], "--perfect is no option"),
        (&["hall.room", "mended.room"], "one file at a time"),
        (
            &["--echo", "--records", "hall.room"],
            "one of --echo, --records, --explain, --diff, --sheet and --walk at a time",
        ),
        (&["--diff"], "no file is named"),
        (
            &["--diff", "hall.room"],
            "--diff needs two files, the old one and the new one",
        ),
        (
            &["--diff", "hall.room", "hall.room", "hall.room"],
            "--diff needs two files, the old one and the new one",
        ),
        (&["--rows"], "--rows needs a number from 1 to 60000"),
        (
            &["--rows", "0", "hall.room"],
            "--rows needs a number from 1 to 60000",
        ),
        (
            &["--rows", "60001", "hall.room"],
            "--rows needs a number from 1 to 60000",
        ),
        (
            &["--rounds", "many", "hall.room"],
            "--rounds needs a number from 0 to 4294967295",
        ),
    ];
    for (arguments, says) in cases {
        let expected = format!("room: {says}. See room --help\n");
        assert_eq!(run(arguments), (String::new(), expected, 2));
    }
}

#[test]
fn help_and_version() {
    let (printed, errors, status) = run(&["--help"]);
    assert!(
        printed.starts_with("room FILE ")
            && printed.contains("Exit status: 0 all SAFE, 1 one BROKEN, 2 a mistake")
    );
    assert_eq!((errors.as_str(), status), ("", 0));
    let (printed, _, status) = run(&["--version"]);
    let library = if kudzuclamp::PROVED {
        "is proved"
    } else {
        "is NOT proved"
    };
    assert!(
        printed.starts_with(&format!("room {} (", env!("CARGO_PKG_VERSION")))
            && printed.contains(library)
    );
    assert_eq!(status, 0);
}

/// The room that the help shows is one.
#[test]
fn the_room_in_the_help() {
    let (printed, _, _) = run(&["--help"]);
    let from = printed.find("  # what is behind").unwrap();
    let to = printed.find("\nA press works").unwrap();
    let lines = printed[from..to]
        .lines()
        .map(|line| match line.trim_start().split_once("   ") {
            Some((said, _)) => format!("{said}\n"),
            None => format!("{}\n", line.trim_start()),
        });
    let text: String = lines.collect();
    let (printed, errors, status) = given(&["-"], text.as_bytes());
    assert_eq!((errors.as_str(), status), ("", 1), "{text}");
    assert!(printed.contains("24 states, 3 presses."), "{printed}");
}

#[test]
fn echo_and_records() {
    let (printed, errors, status) = run(&["--echo", "booth.room"]);
    assert!(printed.starts_with("# as understood: 288 states\nthings: paid light mic echo song\nselector volume: low middle loud\n"));
    let press = "press OUT: paid off, light off, mic off, echo off when paid and not song   # 72 of 288 states\n    # keeps song, volume, key\n";
    assert!(printed.contains(press), "{printed}");
    assert_eq!((errors.as_str(), status), ("", 0));
    let (again, _, _) = given(&["--echo", "-"], printed.as_bytes());
    assert_eq!(again, printed);

    let (records, errors, status) = run(&["--records", "hall.room"]);
    assert_eq!((errors.as_str(), status), ("", 0));
    assert!(
        records.contains("\n# fresh: 6 bits, 1,344 rows\n00 05 01 01 06 05 40\n"),
        "{records}"
    );
    let (explained, _, status) = given(&["--explain", "-"], records.as_bytes());
    assert_eq!(
        (explained.as_str(), status),
        ("15 records: 15 answered, 0 refused\n", 0)
    );
}

#[test]
fn explained_records() {
    let (printed, errors, status) = run(&["--explain", "hall.records"]);
    assert_eq!((errors.as_str(), status), ("", 2));
    // Those that the hall's own lines show as refused.
    let refused: Vec<&str> = printed
        .lines()
        .filter(|line| line.contains("is refused with"))
        .collect();
    assert_eq!(refused.len(), 3, "{printed}");
    assert!(
        refused
            .iter()
            .zip(["with 9", "with 7", "with 8"])
            .all(|(line, number)| line.contains(number)),
        "{printed}"
    );
    let text = "00 05 01 01 02 00 64\n00 0A 01 02 00 00 05 01 03 20 40 01";
    let (printed, _, status) = given(&["--explain", "-"], text.as_bytes());
    let expected = "line 2: record 2 is refused with 4: the bytes are no formula for this call\n    \
                    line 2, byte 10 of the record, 40: a relation has only constants, NOT, AND, OR and bits\n\
                    2 records: 1 answered, 1 refused\n";
    assert_eq!((printed.as_str(), status), (expected, 2));
}

/// What is said where table and walk differ: no room that is read leads there.
#[test]
fn differences() {
    let difference = room::ask::Difference {
        says: "the table finds 3 states, the walk 4".to_string(),
    };
    let expected = "NO VERDICT  never howl\n            The table and a plain walk over all states do not agree: the table finds 3 states, \
                    the walk 4.\n            This is a fault of the command room, not of the file. Do not hand over by it, and please \
                    report the file.\n";
    assert_eq!(
        room::report::difference(&difference, "never howl"),
        expected
    );
    assert_eq!(room::report::Outcome::Differs.status(), 4);
}

/// Where nobody looks, no progress is told; where nobody reads on, the status still counts.
#[test]
fn pipes() {
    assert_eq!(run(&["hall.room"]).1, "");
    let mut child = room(&["hall.room"])
        .stdout(Stdio::piped())
        .stderr(Stdio::piped())
        .spawn()
        .unwrap();
    drop(child.stdout.take());
    let output = child.wait_with_output().unwrap();
    assert_eq!((output.stderr.len(), output.status.code()), (0, Some(1)));
}

/// Things that are no mistakes, but may not be meant.
#[test]
fn notes() {
    let text = "things: mic lamp song\nstart: all off\nloud means mic and song\npress MIC: mic on\npress MIC: mic on, song on\n\
                press END: song off when lamp\nnever lamp\n";
    let (printed, _, status) = given(&["-"], text.as_bytes());
    let expected = "8 states, 2 presses. Start: all off.\n\
        SAFE        never lamp\n\
        Note: no press changes lamp: it stays as it is at the start.\n\
        Note: line 3: \"loud\" is named and never used.\n\
        Note: line 6: END never works in a state that presses lead to.\n\
        Note: lines 4 and 5: MIC can do one or the other in the same state.\n\
        SAFE.\n";
    assert_eq!((printed.as_str(), status), (expected, 0));
}
