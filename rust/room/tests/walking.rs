//! `room --walk`: what is said to the lines that are typed, from a file and at a terminal, and the exit status.
use room::read::read;
use room::room::Room;
use room::stepper::{Stepper, Then};
use room::walk::Walk;
use std::io::Write;
use std::process::{Command, Output, Stdio};

const EXAMPLES: &str = concat!(env!("CARGO_MANIFEST_DIR"), "/../../examples");

/// What is printed, what stands on standard error, and the status. A quick build's own line is left out.
fn said(output: Output) -> (String, String, i32) {
    let text = |bytes: Vec<u8>| String::from_utf8(bytes).unwrap();
    let lines = text(output.stdout);
    let kept = lines
        .lines()
        .filter(|line| !line.starts_with("(A quick build"));
    let printed: String = kept.map(|line| format!("{line}\n")).collect();
    (printed, text(output.stderr), output.status.code().unwrap())
}

fn command(file: &str) -> Command {
    let mut command = Command::new(env!("CARGO_BIN_EXE_room"));
    command.args(["--walk", file]).current_dir(EXAMPLES);
    command
}

/// A walk through a room in a file, by lines on standard input.
fn walk(file: &str, lines: &[u8]) -> (String, String, i32) {
    let mut child = command(file)
        .stdin(Stdio::piped())
        .stdout(Stdio::piped())
        .stderr(Stdio::piped())
        .spawn()
        .unwrap();
    // The command may end before it has read all.
    let _ = child.stdin.take().unwrap().write_all(lines);
    said(child.wait_with_output().unwrap())
}

/// What is said to lines in a room, without its heading; somebody types, or they come from a file.
fn through(room: &str, lines: &str, typing: bool) -> String {
    let room: Room = read(room).unwrap();
    let walk = Walk::new(&room);
    let mut stepper = Stepper::new(&room, &walk, typing);
    let mut text = stepper.begin();
    for line in lines.lines() {
        let (said, then) = stepper.line(line);
        text += &said;
        if then == Then::Ends {
            break;
        }
    }
    text += &stepper.end();
    text.split_once('\n').unwrap().1.to_string()
}

/// A fault that the file expects is told on the way, and does not count.
#[test]
fn expected_faults() {
    let (printed, errors, status) = walk("stage.room", b"mic, filter, monitors, up, up, blink\n");
    assert_eq!((errors.as_str(), status), ("", 0));
    let here = "  !! \"expect BROKEN: never howl\" is broken here, after 6 presses.\n";
    assert!(printed.contains(here), "{printed}");
    let last = "Broken on the way: \"expect BROKEN: never howl\".\n";
    assert!(printed.ends_with(last), "{printed}");
}

/// The hall's presses into the howl, as examples/README.md shows them.
#[test]
fn the_hall() {
    let (printed, errors, status) = walk(
        "hall.room",
        b"mic b, start, echo, stop, monitor\nlist\nstart\n",
    );
    assert_eq!((errors.as_str(), status), ("", 1));
    let shown: String = printed
        .lines()
        .map(|line| format!("    {line}\n"))
        .collect();
    let document = std::fs::read_to_string(format!("{EXAMPLES}/README.md")).unwrap();
    assert!(document.contains(&shown), "{printed}");
    // In the mended hall the same presses break nothing.
    let (printed, _, status) = walk("mended.room", b"2\n6\n4\n5\n3\n6");
    let expected = "\
64 states, 6 presses. Start: all off.
> MIC B: mic-B on
> START: song on
> ECHO: echo on, latch on
> STOP: echo off, song off
> MONITOR: monitor on
> START: song on
after 6 presses: mic-B, song, monitor, latch
These presses, to be pasted into a walk:
MIC B, START, ECHO, STOP, MONITOR, START
Nothing was broken on the way. That is no verdict: room without --walk gives one.
";
    assert_eq!((printed.as_str(), status), (expected, 0));
}

/// At a terminal the state and the presses are shown after each one, and what was typed is not said again.
#[test]
fn typing() {
    let text = "things: mic song\nselector send: desk hall booth\nstart: all off\npress MIC: mic turns over when song\n\
                press START: song on\npress SEND: send = hall when send = desk\npress SEND: send = booth when send = hall\n\
                never mic and send = booth\n";
    let expected = "\
A press by its name, the beginning of it, or its number; or: undo, restart, list, help, quit.

at the start: all off, send = desk
  1  MIC    does nothing, needs song
  2  START  song on
  3  SEND   send = hall
  MIC: does nothing, needs song
  START: song on
  MIC: mic on
  SEND: send = hall

after 3 presses: mic, song, send = hall
  1  MIC    mic off
  2  START  nothing changes
  3  SEND   send = booth  !! breaks \"never mic and send = booth\"
  SEND: send = booth
  !! \"never mic and send = booth\" is broken here, after 4 presses.

after 4 presses: mic, song, send = booth
  1  MIC    mic off
  2  START  nothing changes
  3  SEND   does nothing, needs send = desk or send = hall
  START: nothing changes
  !! Still broken: \"never mic and send = booth\".

after 5 presses: mic, song, send = booth
  1  MIC    mic off
  2  START  nothing changes
  3  SEND   does nothing, needs send = desk or send = hall
  undo START: nothing changes
  !! \"never mic and send = booth\" is broken here, after 4 presses.

after 4 presses: mic, song, send = booth
  1  MIC    mic off
  2  START  nothing changes
  3  SEND   does nothing, needs send = desk or send = hall
  restart: all off, send = desk

at the start: all off, send = desk
  1  MIC    does nothing, needs song
  2  START  song on
  3  SEND   send = hall
  undo: no press is left to take back
at the start: all off, send = desk
Broken on the way: \"never mic and send = booth\".
";
    let lines = "mic\nstart, mic, send\nsend\nst\nundo\nback to start\n\nundo\nquit\nmic";
    assert_eq!(through(text, lines, true), expected);
}

/// What is not understood is told with what may be meant; the rest of its line is left out, and the status tells it.
#[test]
fn mistakes() {
    let expected = "\
64 states, 6 presses. Start: all off.
> ecko: nothing here is called so. Is \"ECHO\" meant?
> undoo: nothing here is called so. Is \"undo\" meant?
> trumpet: nothing here is called so. \"list\" shows the presses
> m: this may be MIC A, MIC B or MONITOR
> 7: there are 6 presses, 1 to 6
> START: song on
> mik b: nothing here is called so. Is \"MIC B\" meant?
  The rest of the line is left out.
> MIC B: it does one thing here: mic-B on
> start: mic-A on: this room begins with all off. Its file may say \"start: any\"
> start: moniter on: nothing here is called \"moniter\". Is \"monitor\" meant?
start: all off
> a b\u{fffd}c: nothing here is called so. \"list\" shows the presses
> xxxxxxxxxxxxxxxxxxxxxxxxxxxxxxxxxxxxxxxx: nothing here is called so. \"list\" shows the presses
at the start: all off
Nothing was broken on the way. That is no verdict: room without --walk gives one.
11 lines were not understood.
";
    let lines = "ecko\nundoo\ntrumpet\nm\n7\nstart, mik b, stop\n2.2\nstart: mic-A on\nstart: moniter on\nstart: all off\n\
                 a\x07b";
    let mut bytes = [lines.as_bytes(), b"\xffc\n"].concat();
    bytes.extend(b"x".repeat(60));
    let (printed, errors, status) = walk("hall.room", &bytes);
    assert_eq!(
        (printed.as_str(), errors.as_str(), status),
        (expected, "", 2)
    );
}

/// Comments and empty lines say nothing; with no lines at all the walk ends where it begins.
#[test]
fn lines_that_say_nothing() {
    let (printed, _, status) = walk("hall.room", b"# presses\r\n\r\n  mic a # the host\r\n,\r\n");
    assert!(
        printed.contains("> MIC A: mic-A on\nafter 1 press: mic-A\n") && status == 0,
        "{printed}"
    );
    let (printed, _, status) = walk("hall.room", b"");
    let expected =
        "64 states, 6 presses. Start: all off.\nat the start: all off\nNothing was broken";
    assert!(printed.starts_with(expected) && status == 0, "{printed}");
    assert!(!printed.contains("pasted"));
    let (printed, _, _) = walk("hall.room", b"help\nquit\nmic a\n");
    assert!(printed.contains("> help\n  NAME  ") && printed.contains("\n> quit\nat the start"));
}

/// Where the evening may begin anywhere, the state is said first, and another one later.
#[test]
fn any_start() {
    let lines = b"mik\nany\nhelp\nvolume\necho, volume = loud\nmic, start, mic\nstart: all off\nstart\nmic\n";
    let expected = "\
32 states, 7 presses. Start: any state.
> start: mik: nothing here is called \"mik\". Is \"mic\" meant?
> start: any: say one state, such as \"all off\"
start: help
";
    let (printed, _, status) = walk("bar.room", lines);
    assert!(printed.starts_with(expected) && status == 2, "{printed}");
    let expected = "\
> start: volume: \"volume\" is a selector: write \"volume = low\", or another of low, loud
start: echo, volume = loud
> MIC: does nothing, needs song and (mic or not (echo and volume = loud))
> START: song on
> MIC: does nothing, needs mic or not (echo and volume = loud)
start: all off, volume = low
> START: song on
> MIC: mic on
after 2 presses: mic, song, volume = low
These presses, to be pasted into a walk:
start: all off, volume = low
START, MIC
Nothing was broken on the way. That is no verdict: room without --walk gives one.
3 lines were not understood.
";
    assert!(printed.ends_with(expected), "{printed}");
    for lines in ["", "quit\nmic\n"] {
        let (printed, _, status) = walk("bar.room", lines.as_bytes());
        assert!(
            printed.ends_with("No start was chosen.\n") && status == 0,
            "{printed}"
        );
    }
    let text =
        "things: quit mic\nselector send: desk hall\nstart: any\npress MIC: mic on\nnever quit\n";
    let printed = through(text, "quit\nmic\n:quit\n", true);
    let expected = "\
A press by its name, the beginning of it, or its number; or: undo, restart, list, help, quit.
Say in which state it begins, such as: quit on; or: all off.
What is not named is off, a selector at its first position.
  !! \"never quit\" is broken here, at the start.

at the start: quit, send = desk
  1  MIC  mic on
  MIC: mic on
  !! Still broken: \"never quit\".
";
    assert!(printed.starts_with(expected), "{printed}");
}

/// Each kind of question, where it breaks and why.
#[test]
fn broken_questions() {
    let room = |questions: &str| {
        format!(
            "things: mic song lock dead\nstart: all off\npress START: song on when not song and not lock and not dead\n\
             press STOP: song off when song and not dead\npress MIC: mic turns over when not dead\npress LOCK: lock turns over when not dead\n\
             press CUT: dead on, song off\n{questions}\n"
        )
    };
    let cases = [
        (
            "always possible: song",
            "cut",
            "> CUT: dead on\n  !! \"always possible: song\" is broken here, after 1 press.\n     From there no presses lead to \"song\".\n",
        ),
        (
            "START works whenever not song",
            "lock, mic",
            "> LOCK: lock on\n  !! \"START works whenever not song\" is broken here, after 1 press.\n     There START does not work.\n\
             > MIC: mic on\n  !! Still broken: \"START works whenever not song\".\n",
        ),
        (
            "not mic until song",
            "lock, mic, mic",
            "> LOCK: lock on\n> MIC: mic on\n  !! \"not mic until song\" is broken here, after 2 presses.\n     There \"not mic\" does not hold, \
             and \"song\" has not come.\n> MIC: mic off\nafter 3",
        ),
        (
            "not mic until song",
            "start, mic",
            "> START: song on\n> MIC: mic on\nafter 2",
        ),
        (
            "not mic until song",
            "cut",
            "> CUT: dead on\n  !! \"not mic until song\" is broken here, after 1 press.\n     From there no presses lead to \"song\" with \
             \"not mic\" up to it.\nafter 1",
        ),
        (
            "not mic until song",
            "lock, lock",
            "> LOCK: lock on\n> LOCK: lock off\n  This is as it was at the start: the presses since then, repeated for ever, break \"not mic \
             until song\".\nafter 2",
        ),
        (
            "not mic unless song",
            "cut, lock, list",
            "> CUT: dead on\n> LOCK: does nothing, needs not dead\n> list\nafter 1",
        ),
        (
            "not mic unless song",
            "lock, mic",
            "> MIC: mic on\n  !! \"not mic unless song\" is broken here, after 2 presses.\n     There \"not mic\" does not hold, and \"song\" has \
             not come.\n",
        ),
        (
            "whenever lock: not mic unless song",
            "mic, mic, lock, mic, mic",
            "> MIC: mic on\n> MIC: mic off\n> LOCK: lock on\n> MIC: mic on\n  !! \"whenever lock: not mic unless song\" is broken here, after \
             4 presses.\n     \"lock\" holds after press 3.\n     There \"not mic\" does not hold, and \"song\" has not come.\n> MIC: mic off\nafter 5",
        ),
        (
            "whenever lock: not mic unless song",
            "start, lock, mic",
            "> START: song on\n> LOCK: lock on\n> MIC: mic on\nafter 3",
        ),
    ];
    for (questions, line, expected) in cases {
        let printed = through(&room(questions), line, false);
        assert!(
            printed.contains(expected),
            "{questions}\n{printed}\n{expected}"
        );
    }
    // That presses go round is said once.
    let printed = through(&room("not mic until song"), "lock, lock, lock, lock", false);
    assert_eq!(printed.matches("repeated for ever").count(), 1, "{printed}");
    let text = "things: mic song\nstart: all off\npress MIC: mic on when not mic\npossible: song\nnot song until song\n";
    let expected = "  !! \"possible: song\" is broken here, at the start.\n     From there no presses lead to \"song\".\n  !! \"not song until \
                    song\" is broken here, at the start.\n     From there no presses lead to \"song\" with \"not song\" up to it.\n> MIC: mic on\nafter";
    let printed = through(text, "mic", false);
    assert!(printed.starts_with(expected), "{printed}");
    // Where no press works at all, that is the reason.
    let text = text
        .replace("possible: song\nnot song", "not mic")
        .replace("until song", "until song or mic");
    let printed = through(&text.replace("when not mic", "when song"), "", false);
    let expected = "     There no press works, and \"song or mic\" has not come.\n";
    assert!(printed.contains(expected), "{printed}");
}

/// A press that can do one thing or another is said by number, and printed so.
#[test]
fn one_or_the_other() {
    let text = "things: mic song\nstart: all off\npress OUT: mic off, song off\npress TWO: mic on\npress TWO: song on\nnever mic and song\n";
    let lines = "two\nlist\n2.2, 2.3\n2.1\n";
    let expected = "\
> TWO: it can do one or the other here. Say 2.1 for mic on, or 2.2 for song on
> list
at the start: all off
    1  OUT  nothing changes
  2.1  TWO  mic on
  2.2  TWO  song on
> TWO: song on
> TWO: it can do one or the other here. Say 2.1 for nothing changes, or 2.2 for mic on
> TWO: nothing changes
after 2 presses: song
These presses, to be pasted into a walk:
2.2, 2.1
Nothing was broken on the way. That is no verdict: room without --walk gives one.
2 lines were not understood.
";
    assert_eq!(through(text, lines, false), expected);
}

/// The presses of a long walk are printed in several lines.
#[test]
fn long_walks() {
    let lines = "mic a, mic b, monitor\n".repeat(30);
    let (printed, _, status) = walk("hall.room", lines.as_bytes());
    let (_, pasted) = printed.split_once("pasted into a walk:\n").unwrap();
    let lines: Vec<&str> = pasted.lines().collect();
    assert!(lines.len() > 5 && lines.iter().all(|line| line.len() <= 100));
    assert!(printed.contains("after 90 presses: ") && status == 0);
    let (again, _, _) = walk("hall.room", lines[..lines.len() - 1].join("\n").as_bytes());
    assert_eq!(again, printed);
}

/// Files, lines and answers that cannot be read or written.
#[test]
fn refusals() {
    let (printed, errors, status) = walk("-", b"");
    let expected = "room: --walk reads presses from standard input, so the room must be in a file. See room --help\n";
    assert_eq!(
        (printed.as_str(), errors.as_str(), status),
        ("", expected, 2)
    );
    let (printed, errors, status) = walk("hall.records", b"mic a\n");
    assert!(errors.contains("Nothing was asked.\n"));
    assert_eq!((printed.as_str(), status), ("", 2));
    let (_, errors, status) = walk("hall.room", &b"x".repeat(10_001));
    let expected = "room: standard input cannot be read: a line has more than 10,000 bytes\n";
    assert_eq!((errors.as_str(), status), (expected, 2));
    let folder = std::fs::File::open(EXAMPLES).unwrap();
    let (_, errors, status) = said(command("hall.room").stdin(folder).output().unwrap());
    assert!(
        errors.starts_with("room: standard input cannot be read: ") && status == 2,
        "{errors}"
    );
    let full = std::fs::File::options()
        .write(true)
        .open("/dev/full")
        .unwrap();
    let output = command("hall.room")
        .stdin(Stdio::null())
        .stdout(full)
        .output();
    let (_, errors, status) = said(output.unwrap());
    assert!(
        errors.starts_with("room: the answer cannot be written: ") && status == 2,
        "{errors}"
    );
    // Where nobody reads on, the walk ends, though there is always one press more.
    let mut child = command("hall.room")
        .stdin(Stdio::piped())
        .stdout(Stdio::piped())
        .stderr(Stdio::piped())
        .spawn()
        .unwrap();
    drop(child.stdout.take());
    let mut input = child.stdin.take().unwrap();
    while input.write_all(b"mic a\n").is_ok() {}
    let (_, errors, status) = said(child.wait_with_output().unwrap());
    assert_eq!((errors.as_str(), status), ("", 0));
}
