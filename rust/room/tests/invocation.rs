//! The command's words, its standard output, and notes on questions that say nothing.
use std::ffi::OsStr;
use std::io::Write;
use std::os::unix::ffi::OsStrExt;
use std::process::{Command, Output, Stdio};

const ROOM: &str = env!("CARGO_BIN_EXE_room");

fn room() -> Command {
    let mut command = Command::new(ROOM);
    command.current_dir(concat!(env!("CARGO_MANIFEST_DIR"), "/../../examples"));
    command
}

fn said(output: Output) -> (String, String, Option<i32>) {
    let [printed, errors] =
        [output.stdout, output.stderr].map(|bytes| String::from_utf8(bytes).unwrap());
    (printed, errors, output.status.code())
}

#[test]
fn words_that_are_no_text() {
    let word = OsStr::from_bytes(b"\xff.room");
    let expected = "room: \u{fffd}.room is no text (UTF-8). See room --help\n";
    for before in [&[][..], &["--echo"], &["--rows"]] {
        let output = room().args(before).arg(word).output().unwrap();
        assert_eq!(said(output), (String::new(), expected.to_string(), Some(2)));
    }
}

/// After -- all words are files.
#[test]
fn words_that_are_files() {
    let run = |words: &[&str]| said(room().args(words).output().unwrap());
    assert_eq!(run(&["--", "mended.room"]), run(&["mended.room"]));
    assert_eq!(
        run(&["--echo", "--", "mended.room"]),
        run(&["--echo", "mended.room"])
    );
    let (_, errors, status) = run(&["--", "--echo"]);
    assert!(
        errors.starts_with("room: --echo cannot be read: "),
        "{errors}"
    );
    assert_eq!(status, Some(2));
    let none = "room: no file is named. See room --help\n".to_string();
    assert_eq!(run(&["--"]), (String::new(), none, Some(2)));
}

/// A closed standard output is one that cannot be written; /dev/null can be.
#[test]
fn closed_output() {
    let shell = |script: &str| {
        let mut command = Command::new("sh");
        command
            .args(["-c", script, ROOM])
            .current_dir(room().get_current_dir().unwrap());
        said(command.output().unwrap())
    };
    for words in [
        "mended.room",
        "--echo mended.room",
        "--records mended.room",
        "--help",
    ] {
        let (_, errors, status) = shell(&format!("exec \"$0\" {words} >&-"));
        assert!(
            errors.starts_with("room: the answer cannot be written: "),
            "{errors}"
        );
        assert_eq!((errors.lines().count(), status), (1, Some(2)));
        for to in [">/dev/null", "1<>/dev/null", "<&- >/dev/null 2>&-"] {
            let nothing = (String::new(), String::new(), Some(0));
            assert_eq!(shell(&format!("exec \"$0\" {words} {to}")), nothing);
        }
    }
    // A file that is wrong is told all the same.
    let (_, errors, status) = shell("exec \"$0\" none.room >&-");
    assert!(
        errors.starts_with("room: none.room cannot be read: "),
        "{errors}"
    );
    assert_eq!(status, Some(2));
}

fn notes(text: &str) -> Vec<String> {
    let mut command = room();
    let mut child = (command
        .arg("-")
        .stdin(Stdio::piped())
        .stdout(Stdio::piped()))
    .spawn()
    .unwrap();
    child
        .stdin
        .take()
        .unwrap()
        .write_all(text.as_bytes())
        .unwrap();
    let (printed, _, status) = said(child.wait_with_output().unwrap());
    assert_eq!(status, Some(0), "{printed}");
    let lines = printed
        .lines()
        .filter_map(|line| line.strip_prefix("Note: "));
    lines.map(str::to_string).collect()
}

/// What speaks of states that do not come is safe, and says nothing.
#[test]
fn questions_that_say_nothing() {
    let text = "things: a b c\nstart: c on\npress A: a on when not b\npress B: b on when a and b\npress PLAY: c on when c\n";
    let nothing = |line: usize, why: &str| format!("line {line}: {why}, so this says nothing.");
    let never = "line 4: B never works in a state that presses lead to.".to_string();
    let asked = [
        ("PLAY works whenever b", Some("no presses lead to \"b\"")),
        (
            "whenever a and b: c unless not c",
            Some("no presses lead to \"a and b\""),
        ),
        (
            "not a until c or b",
            Some("\"c or b\" holds at the start already"),
        ),
        ("a unless c", Some("\"c\" holds at the start already")),
        ("PLAY works whenever a", None),
        ("whenever a: c unless b", None),
        ("not b unless a", None),
        ("never b", None),
    ];
    for (line, why) in asked {
        let expected: Vec<String> = (why.iter()).map(|why| nothing(6, why)).collect();
        assert_eq!(
            notes(&format!("{text}{line}\n")),
            [vec![never.clone()], expected].concat(),
            "{line}"
        );
    }
    // Where some start has it and another has not, it says something.
    assert_eq!(
        notes("things: a\nstart: any\npress A: a on when not a\nnot a until a\n"),
        [""; 0]
    );
}
