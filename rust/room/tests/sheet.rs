//! What a shop hands over: `room --sheet`, its page, and `expect BROKEN`.
use room::ask::{Answer, Asker, Difference, Limits, Verdict};
use room::page::{page, Wanted};
use room::plan::plan;
use room::read::read;
use room::report::Outcome;
use room::sheet::{outcome, summary, Answered, Found, Sheet};
use room::walk::Walk;
use room::{orders, sha256};
use std::path::PathBuf;
use std::process::{Command, Stdio};

const EXAMPLES: &str = concat!(env!("CARGO_MANIFEST_DIR"), "/../../examples");

/// A question that is broken, and one that is not.
const BROKEN: &str = "things: mic song\nstart: all off\npress MIC: mic turns over\npress START: song on when not song\nnever mic\n";
const SAFE: &str = "things: mic song\nstart: all off\npress MIC: mic turns over\npress START: song on when not song\nalways possible: not mic\n";
const MISTAKES: &str = "things: mic\nstart: al off\npress MIC: mick on\nnever mic\n";

/// A folder that goes with the test.
struct Folder(PathBuf);

impl Folder {
    fn new(test: &str) -> Folder {
        let path = std::env::temp_dir().join(format!("room-sheet-{test}-{}", std::process::id()));
        std::fs::create_dir_all(&path).unwrap();
        Folder(path)
    }

    fn write(&self, name: &str, text: &str) {
        std::fs::write(self.0.join(name), text).unwrap();
    }

    fn read(&self, name: &str) -> String {
        std::fs::read_to_string(self.0.join(name)).unwrap()
    }

    /// What is printed, said on standard error, and the status. A quick build's own words are those of a proved one.
    fn room(&self, arguments: &[&str]) -> (String, String, i32) {
        let mut command = Command::new(env!("CARGO_BIN_EXE_room"));
        let output = command
            .args(arguments)
            .current_dir(&self.0)
            .output()
            .unwrap();
        let text = |bytes: Vec<u8>| String::from_utf8(bytes).unwrap();
        let lines = text(output.stdout);
        let kept = lines
            .lines()
            .filter(|line| !line.starts_with("(A quick build"));
        let printed: String = kept.map(|line| format!("{line}\n")).collect();
        let printed = printed.replace("  quick library", "  proved library");
        (printed, text(output.stderr), output.status.code().unwrap())
    }

    /// The page of some files.
    fn page(&self, arguments: &[&str]) -> String {
        self.room(&[&["--sheet", "--page", "out.html"], arguments].concat());
        let html = self.read("out.html");
        well_formed(&html);
        html
    }
}

impl Drop for Folder {
    fn drop(&mut self) {
        let _ = std::fs::remove_dir_all(&self.0);
    }
}

/// The examples' own folder, which stays.
fn examples() -> std::mem::ManuallyDrop<Folder> {
    std::mem::ManuallyDrop::new(Folder(PathBuf::from(EXAMPLES)))
}

/// Fails where a tag is not closed, or where a sign that begins one stands by itself; gives the text between the tags.
fn well_formed(html: &str) -> String {
    let (mut open, mut text): (Vec<&str>, String) = (Vec::new(), String::new());
    let mut rest = html.strip_prefix("<!DOCTYPE html>").unwrap();
    while let Some(at) = rest.find('<') {
        text += &rest[..at];
        let end = at + rest[at..].find('>').expect("a tag ends");
        let tag = &rest[at + 1..end];
        let name = tag.trim_start_matches('/').split([' ', '/']).next();
        let name = name.unwrap();
        assert!(name.chars().all(|c| c.is_ascii_alphanumeric()), "<{tag}>");
        assert_eq!(tag.matches('"').count() % 2, 0, "<{tag}>");
        match tag {
            _ if tag.starts_with('/') => assert_eq!(open.pop(), Some(name), "<{tag}>"),
            _ if tag.ends_with('/') || name == "meta" => {}
            _ => open.push(name),
        }
        rest = &rest[end + 1..];
        if name == "style" && !tag.starts_with('/') {
            rest = &rest[rest.find("</style>").unwrap()..];
        }
    }
    assert!(open.is_empty() && rest.trim().is_empty(), "{open:?}");
    let signs = [
        ("&lt;", "<"),
        ("&gt;", ">"),
        ("&quot;", "\""),
        ("&#39;", "'"),
    ];
    let plain = signs
        .iter()
        .fold(text.clone(), |text, (sign, c)| text.replace(sign, c));
    assert_eq!(
        text.matches('&').count(),
        text.matches("&amp;").count()
            + signs
                .iter()
                .map(|(s, _)| text.matches(s).count())
                .sum::<usize>()
    );
    plain.replace("&amp;", "&")
}

/// A line for each room, as the documents show them; the hash is the file's, and the rows are those of --peak.
#[test]
fn the_examples() {
    let names = ["hall", "mended", "booth", "bar", "stage"].map(|name| format!("{name}.room"));
    let files: Vec<&str> = names.iter().map(String::as_str).collect();
    let (printed, errors, status) = examples().room(&[&["--sheet"], &files[..]].concat());
    assert_eq!((errors.as_str(), status), ("", 1));
    let document = std::fs::read_to_string(format!("{EXAMPLES}/README.md")).unwrap();
    let shown: String = printed
        .lines()
        .map(|line| format!("    {line}\n"))
        .collect();
    assert!(document.contains(&shown), "no document shows\n{shown}");
    let words = ["BROKEN", "SAFE", "SAFE", "SAFE", "AS EXPECTED"];
    for ((line, name), word) in printed.lines().zip(&files).zip(words) {
        assert!(line.starts_with(&format!("{word:<12}{name}")), "{line}");
        let hash = sha256::hex(&std::fs::read(format!("{EXAMPLES}/{name}")).unwrap());
        assert!(
            line.contains(&format!(" sha256 {}  ", &hash[..12])),
            "{line}"
        );
        let (peak, _, _) = examples().room(&["--peak", name]);
        let rows = peak.lines().last().unwrap().split(' ').nth(3).unwrap();
        assert!(line.contains(&format!(" {rows} rows ")), "{line}");
    }
    let last = "5 rooms: 1 BROKEN, 3 SAFE, 1 AS EXPECTED. Do not hand over.";
    assert_eq!(printed.lines().last(), Some(last));
}

/// The worst of all rooms gives the status; a file with mistakes keeps nobody else from an answer.
#[test]
fn statuses() {
    let folder = Folder::new("statuses");
    folder.write("safe", SAFE);
    folder.write("broken", BROKEN);
    folder.write("known", &BROKEN.replace("never", "expect BROKEN: never"));
    folder.write("gone", &SAFE.replace("always", "expect BROKEN: always"));
    folder.write("mistakes", MISTAKES);
    let cases: [(&[&str], i32); 11] = [
        (&["safe"], 0),
        (&["known"], 0),
        (&["safe", "known"], 0),
        (&["safe", "broken"], 1),
        (&["gone", "safe"], 1),
        (&["safe", "mistakes"], 2),
        (&["none", "safe"], 2),
        (&["mistakes", "broken", "none"], 1),
        (&["--rows", "2", "safe"], 3),
        (&["--rows", "2", "safe", "mistakes"], 2),
        (&["--rounds", "1", "safe", "broken"], 3),
    ];
    for (files, status) in cases {
        let (printed, errors, found) = folder.room(&[&["--sheet"], files].concat());
        assert_eq!(
            (errors.as_str(), found),
            ("", status),
            "{files:?}\n{printed}"
        );
        assert_eq!(
            printed.ends_with(" Do not hand over.\n"),
            status > 0,
            "{printed}"
        );
    }
    let (printed, _, _) = folder.room(&["--sheet", "mistakes", "none", "safe"]);
    let lines: Vec<&str> = printed.lines().collect();
    assert!(
        lines[0].starts_with(
            "MISTAKES    mistakes     2 mistakes. Nothing was asked.          sha256 "
        ),
        "{printed}"
    );
    assert!(
        lines[1].starts_with("NOT READ    none      No such file"),
        "{printed}"
    );
    assert!(
        lines[2].starts_with("SAFE        safe         1 question       4 states"),
        "{printed}"
    );
    assert_eq!(
        lines[3],
        "3 rooms: 1 with mistakes, 1 not read, 1 SAFE. Do not hand over."
    );
    let (printed, _, _) = folder.room(&["--sheet", "--rows", "2", "safe"]);
    assert!(
        printed.starts_with("NO VERDICT  safe     1 question       4 states       ? rows  sha256 "),
        "{printed}"
    );
}

/// `expect BROKEN` turns a verdict round, and leaves no verdict as it is.
#[test]
fn expected_faults() {
    let folder = Folder::new("expected");
    folder.write(
        "known",
        &BROKEN.replace("never", "possible: song\nexpect BROKEN: never"),
    );
    let (printed, _, status) = folder.room(&["known"]);
    assert!(
        printed.contains("\nAS EXPECTED BROKEN: never mic\n  One press does it:\n"),
        "{printed}"
    );
    assert!(
        printed.ends_with("\nAS EXPECTED: 1 of 2 questions BROKEN, the others SAFE.\n"),
        "{printed}"
    );
    assert_eq!(status, 0);
    folder.write("gone", &SAFE.replace("always", "expect BROKEN: always"));
    let (printed, _, status) = folder.room(&["gone"]);
    let gone = "UNEXPECTED  SAFE: always possible: not mic\n            Line 5 expects it to be BROKEN: that fault is gone. If it is \
                mended, take \"expect BROKEN:\" away.\nUNEXPECTED: 1 of 1 questions SAFE and expected BROKEN. Do not hand over.\n";
    assert!(printed.ends_with(gone), "{printed}");
    assert_eq!(status, 1);
    let (printed, _, status) = folder.room(&["--rows", "2", "gone"]);
    assert!(
        printed.contains("\nNO VERDICT  always possible: not mic\n"),
        "{printed}"
    );
    assert_eq!(status, 3);
    folder.write("alone", &BROKEN.replace("never", "expect BROKEN: never"));
    assert!(folder
        .room(&["alone"])
        .0
        .ends_with("\nAS EXPECTED: BROKEN.\n"));
    // Of two that are not as they should be, the broken one is said first.
    folder.write("both", &format!("{BROKEN}expect BROKEN: possible: song\n"));
    let (printed, _, status) = folder.room(&["both"]);
    assert!(
        printed.ends_with(
            "\nBROKEN: 1 of 2 questions, and 1 SAFE and expected BROKEN. Do not hand over.\n"
        ),
        "{printed}"
    );
    assert_eq!(status, 1);
}

/// With these words before every question of the examples each verdict is the other way round, and so is the status.
#[test]
fn every_verdict_turned_round() {
    let folder = Folder::new("turned");
    for name in ["hall", "mended", "booth", "bar", "stage"] {
        let room = examples().room(&["--echo", &format!("{name}.room")]).0;
        let (rules, questions) = room.rsplit_once("\n\n").unwrap();
        let plain = questions.replace("expect BROKEN: ", "");
        let turned: String = (plain.lines())
            .map(|line| format!("expect BROKEN: {line}\n"))
            .collect();
        folder.write("plain", &format!("{rules}\n{plain}"));
        folder.write("turned", &format!("{rules}\n{turned}"));
        let (one, other) = (folder.room(&["plain"]).0, folder.room(&["turned"]).0);
        for question in plain.lines() {
            let safe = one.contains(&format!("\nSAFE        {question}\n"));
            let broken = one.contains(&format!("\nBROKEN      {question}\n"));
            assert!(safe != broken, "{one}");
            let expected = match safe {
                true => format!("\nUNEXPECTED  SAFE: {question}\n"),
                false => format!("\nAS EXPECTED BROKEN: {question}\n"),
            };
            assert!(other.contains(&expected), "{other}");
        }
        assert_eq!(folder.room(&["turned"]).2, 1);
    }
}

/// The reading back has it, the records have it, and of two rooms it is the same question.
#[test]
fn expected_faults_elsewhere() {
    let folder = Folder::new("elsewhere");
    folder.write("known", &BROKEN.replace("never", "expect BROKEN:\n  never"));
    let (echo, _, status) = folder.room(&["--echo", "known"]);
    assert!(
        echo.ends_with("\nexpect BROKEN: never mic\n") && status == 0,
        "{echo}"
    );
    folder.write("again", &echo);
    assert_eq!(folder.room(&["--echo", "again"]).0, echo);
    let (records, _, _) = folder.room(&["--records", "known"]);
    assert!(
        records.contains("\n# line 5: expect BROKEN: never mic\n"),
        "{records}"
    );
    folder.write("before", BROKEN);
    let (diff, _, status) = folder.room(&["--diff", "before", "known"]);
    assert!(
        diff.contains("\nBROKEN                   expect BROKEN: never mic\n"),
        "{diff}"
    );
    assert!(
        diff.ends_with("\nAfter: AS EXPECTED: BROKEN.\n") && status == 0,
        "{diff}"
    );
    assert_eq!(folder.room(&["--diff", "known", "before"]).2, 1);
}

/// The page has all that the command says, and nothing of another place or of the clock.
#[test]
fn the_page() {
    let folder = Folder::new("page");
    for name in ["hall", "stage", "bar"] {
        std::fs::copy(format!("{EXAMPLES}/{name}.room"), folder.0.join(name)).unwrap();
    }
    let html = folder.page(&["hall", "stage", "bar"]);
    assert_eq!(folder.page(&["hall", "stage", "bar"]), html);
    let text = well_formed(&html);
    assert!(!text.contains("Date"), "{text}");
    assert!(html.contains(&format!(
        "<dd>{}</dd>",
        sha256::hex(folder.read("hall").as_bytes())
    )));
    for says in [
        "3 rooms: 1 BROKEN, 1 AS EXPECTED, 1 SAFE. Do not hand over.",
        "BROKEN: 1 of 3 questions. Do not hand over.",
        "32 of 64 states",
        "266 rows are enough, and no fewer",
        "song on, echo on when not song and latch",
        "works in 16 of 64 states; keeps mic-A, mic-B, monitor, latch",
        "means mic-B and echo and monitor",
        "6 presses do it, and no fewer:",
        "Not drawn, since it stays: mic-A off",
        "AS EXPECTED BROKEN: never howl",
        "one of down, half, up",
        "from the start that is farthest from there",
    ] {
        assert!(text.contains(says), "{says}");
    }
    for outside in [
        "<script", "<link", "<img", "@import", "url(", "src=", "https:", "<iframe",
    ] {
        assert!(!html.contains(outside), "{outside}");
    }
    // The one address is the name of the drawings' language.
    assert_eq!(
        html.matches("http:").count(),
        html.matches("xmlns=\"http://www.w3.org/2000/svg\"").count()
    );
    assert!(
        html.contains("default-src 'none'")
            && html.contains("name=\"viewport\"")
            && html.contains("@media print")
    );
    for number in 1..=3 {
        assert!(
            html.contains(&format!("<section id=\"room-{number}\">"))
                && html.contains(&format!("href=\"#room-{number}\""))
        );
    }
    let dated = folder.page(&["--date", "17 <November>", "hall"]);
    assert!(dated.contains("<p>Date: 17 &lt;November&gt;</p>"));
    let library = if kudzuclamp::PROVED {
        "proved; its answers"
    } else {
        "quick build, NOT proved"
    };
    assert!(html.contains(library));
}

/// The verdicts are those of `room FILE`.
#[test]
fn the_same_verdicts() {
    let folder = Folder::new("same");
    for name in ["hall", "mended", "booth", "bar", "stage"] {
        std::fs::copy(format!("{EXAMPLES}/{name}.room"), folder.0.join(name)).unwrap();
        let text = well_formed(&folder.page(&[name]));
        let (printed, _, status) = folder.room(&[name]);
        assert_eq!(folder.room(&["--sheet", name]).2, status);
        let verdict =
            |line: &&str| line.contains(|c: char| c.is_alphabetic()) && !line.starts_with(' ');
        let lines = printed.lines().filter(verdict).skip(1);
        for line in lines {
            let words: Vec<&str> = line.split("  ").filter(|word| !word.is_empty()).collect();
            let said = words
                .iter()
                .map(|word| word.trim())
                .collect::<Vec<_>>()
                .join(" ");
            assert!(text.contains(&said), "{name}: {said}");
        }
    }
}

/// The texts of a picture, and how many of its things have just changed.
fn drawn(html: &str) -> (Vec<&str>, usize) {
    let texts = html.split("<text ").skip(1);
    let texts = texts.map(|text| &text[text.find('>').unwrap() + 1..text.find("</text>").unwrap()]);
    (
        texts.collect(),
        html.matches("<circle class=\"change\"").count(),
    )
}

/// A run as a picture: presses above, things beside, each change marked, and the moment it is shown for.
#[test]
fn pictures() {
    let html = examples_page("hall");
    let (texts, changes) = drawn(&html);
    let expected = [
        "start",
        "1",
        "MIC B",
        "2",
        "START",
        "3",
        "ECHO",
        "4",
        "STOP",
        "5",
        "MONITOR",
        "6",
        "START",
        "mic-B",
        "on",
        "echo",
        "on",
        "off",
        "on",
        "song",
        "on",
        "off",
        "on",
        "monitor",
        "on",
        "latch",
        "on",
        "\u{2717} broken here",
    ];
    assert_eq!((texts.as_slice(), changes), (&expected[..], 9));
    assert_eq!(
        (
            html.matches("class=\"bad\"").count(),
            html.matches("<li value=").count()
        ),
        (1, 6)
    );
    assert!(html.contains(
        "<li class=\"begin\">Start: all off</li>\n<li value=\"1\"><b>MIC B</b> mic-B on</li>\n"
    ));
    assert!(html.contains("<li value=\"6\"><b>START</b> echo on, song on</li>\n</ol>"));
    assert!(
        html.contains("<title>The start and presses 1 to 6: the list below says the same</title>")
    );
    // What is possible is reached, and a selector has its positions.
    let html = examples_page("bar");
    let (texts, changes) = drawn(&html);
    assert!(
        texts.ends_with(&["volume", "low", "loud", "\u{2713} reached here"]),
        "{texts:?}"
    );
    assert_eq!((changes, html.matches("class=\"good\"").count()), (5, 1));
}

fn examples_page(name: &str) -> String {
    let folder = Folder::new(&format!("examples-{name}"));
    std::fs::copy(format!("{EXAMPLES}/{name}.room"), folder.0.join(name)).unwrap();
    folder.page(&[name])
}

/// Runs that go on for ever, runs since a state, runs of no press, and runs that are too long.
#[test]
fn other_pictures() {
    let folder = Folder::new("others");
    let lamp = "things: lamp a b song\nstart: all off\npress A: a on when not a\npress B: b on when a and not b\n\
                press LAMP: lamp turns over when b\npress START: song on\n";
    folder.write("room", &format!("{lamp}not (song and b) until song\n"));
    let html = folder.page(&["room"]);
    assert!(
        drawn(&html).0.ends_with(&["\u{21ba} and so on for ever"]),
        "{html}"
    );
    assert_eq!(
        (
            html.matches("class=\"from\"").count(),
            html.matches("class=\"back\"").count()
        ),
        (1, 1)
    );
    assert!(html.contains("That is the state after press 2 again, and so on for ever: &quot;song&quot; need never come."));
    folder.write("room", &format!("{lamp}whenever a: not b unless song\n"));
    let html = folder.page(&["room"]);
    assert!(
        drawn(&html)
            .0
            .ends_with(&["since here", "\u{2717} broken here"]),
        "{html}"
    );
    assert!(
        html.contains(
            "<p>&quot;a&quot; holds after press 1.</p>\n<p>There &quot;not b&quot; does not hold"
        ),
        "{html}"
    );
    folder.write("room", &format!("{lamp}lamp unless song\n"));
    let html = folder.page(&["room"]);
    let texts = ["start", "lamp", "a", "b", "song", "\u{2717} broken here"];
    assert_eq!(drawn(&html), (texts.to_vec(), 0));
    assert!(html.contains("<p>At the start already:</p>") && !html.contains("Not drawn"));
    folder.write(
        "room",
        &format!("{lamp}possible: song and lamp and not a\n"),
    );
    let html = folder.page(&["room"]);
    assert!(html.contains("From there no presses lead to"), "{html}");
}

/// A circle that ends further down than it begins, and a run of 255 presses.
#[test]
fn long_pictures() {
    let folder = Folder::new("long");
    let mut text = "things: x0 x1 x2 x3 x4 x5 x6 x7 x8 x9 song\nstart: all off\npress ON0: x0 on when not x0\n".to_string();
    for k in 1..10 {
        text += &format!(
            "press ON{k}: x{k} on when x{} and not x{k} and not x9\n",
            k - 1
        );
    }
    text += "press BACK: x9 off, x8 off, x7 off, x6 off, x5 off, x4 off, x3 off, x2 off when x9\npress SONG: song on when x9\nnot song until song\n";
    folder.write("room", &text);
    let html = folder.page(&["room"]);
    let (texts, changes) = drawn(&html);
    assert!(
        texts.contains(&"\u{21ba} comes back here") && texts.contains(&"after 8"),
        "{texts:?}"
    );
    assert!(
        texts.ends_with(&["\u{21ba} to: after 2, and so on for ever"]),
        "{texts:?}"
    );
    assert_eq!((html.matches("<svg").count(), changes), (2, 18));
    let mut gray =
        "things: t0 t1 t2 t3 t4 t5 t6 t7\nstart: all off\npress T0: t0 turns over\n".to_string();
    for k in 1..8 {
        let off: String = (0..k - 1).map(|j| format!(" and not t{j}")).collect();
        gray += &format!("press T{k}: t{k} turns over when t{}{off}\n", k - 1);
    }
    folder.write(
        "gray",
        &format!("{gray}never t7 and not (t0 or t1 or t2 or t3 or t4 or t5 or t6)\n"),
    );
    let html = folder.page(&["gray"]);
    assert!(
        html.contains("<p class=\"more\">223 presses more are left out</p>"),
        "{html}"
    );
    assert_eq!(html.matches("<li value=").count(), 32);
    assert!(html.contains("<li value=\"24\">") && html.contains("<li value=\"248\">"));
    let whole = folder.page(&["--whole-run", "gray"]);
    assert_eq!(
        (
            whole.matches("<li value=").count(),
            whole.contains("left out")
        ),
        (255, false)
    );
    // A gray code changes one thing with each press.
    assert_eq!(drawn(&whole).1, 255);
}

/// No name of a room, and no name of a file, is taken for a part of the page.
#[test]
fn names_that_are_signs() {
    let folder = Folder::new("signs");
    let button = "<script>alert(\"a\")</script> & 'b' </svg>--> ]]>";
    let room = format!("things: mic é麦\nstart: all off\npress {button}: mic on, é麦 on when not mic\nnever mic\n{button} works whenever mic\n");
    let name = "<b onclick=\"x\"> & 'c'.room";
    folder.write(name, &room);
    let html = folder.page(&[name]);
    let text = well_formed(&html);
    // The file in the title, the table, the heading and its place; the button in two lists, in a question and its end, in the rules.
    assert_eq!(text.matches(name).count(), 4, "{text}");
    assert_eq!(text.matches(button).count(), 5, "{text}");
    assert!(
        !html.contains("<script") && !html.contains("<b onclick"),
        "{html}"
    );
    assert!(
        text.contains("é麦 on")
            && html
                .contains("<b>&lt;script&gt;alert(&quot;a&quot;)&lt;/script&gt; &amp; &#39;b&#39;")
    );
    // A mistake shows the file's own line.
    folder.write(
        "bad.room",
        "things: <i>mic\nstart: all off\n<script>alert(1)</script>\n",
    );
    let html = folder.page(&["bad.room"]);
    assert!(
        html.contains("&lt;script&gt;alert(1)&lt;/script&gt;") && !html.contains("<script"),
        "{html}"
    );
    let line = "a\u{1b}[31m\n.room";
    folder.write(line, &room);
    let (printed, _, _) = folder.room(&["--sheet", line]);
    assert!(
        printed.starts_with("BROKEN      a?[31m?.room  ") && printed.lines().count() == 2,
        "{printed}"
    );
}

/// Files that cannot be asked have their place on the page, and the others are answered.
#[test]
fn pages_with_mistakes() {
    let folder = Folder::new("mistakes");
    folder.write("mistakes", MISTAKES);
    folder.write("safe", SAFE);
    std::fs::write(folder.0.join("bytes"), b"things: mic\n\xff\n").unwrap();
    let html = folder.page(&["mistakes", "none", "bytes", "safe"]);
    let text = well_formed(&html);
    for says in [
        "4 rooms: 2 with mistakes, 1 not read, 1 SAFE. Do not hand over.",
        "2 mistakes in the file, so nothing was asked. Do not hand over.",
        "mistakes, line 3: nothing here is called \"mick\". Is \"mic\" meant?\n    press MIC: mick on\n               ^^^^\n",
        "The file cannot be read. Do not hand over.",
        "1 mistake in the file, so nothing was asked. Do not hand over.",
        "bytes, line 2: this is no text (UTF-8)",
        "SAFE always possible: not mic",
    ] {
        assert!(text.contains(says), "{says}\n{text}");
    }
    assert!(html.contains(&sha256::hex(MISTAKES.as_bytes())));
    let html = folder.page(&["--rows", "2", "safe"]);
    assert!(
        html.contains("The table is full: a step needs more than its 2 rows."),
        "{html}"
    );
    assert!(html.contains("how many rows are enough is not known"));
    assert!(html.contains("(found by the walk alone, and not checked with the table)"));
}

/// Where table and walk differ, which no room leads to, there is no verdict, and that counts most.
#[test]
fn differences() {
    let found = || {
        Found::Differs(
            Difference {
                says: "the table finds 3 states, the walk 4".to_string(),
            },
            "never <howl>".to_string(),
        )
    };
    let sheet = |found| Sheet {
        name: "hall.room".to_string(),
        hash: Some(sha256::hex(b"")),
        found,
    };
    let sheets = [
        sheet(found()),
        sheet(Found::Mistakes(1, "no\n".to_string())),
    ];
    assert!(
        sheets[0]
            .line(9)
            .starts_with("NO VERDICT  hall.room     table and walk differ  "),
        "{}",
        sheets[0].line(9)
    );
    assert_eq!(
        (outcome(&sheets), outcome(&sheets[1..])),
        (Outcome::Differs, Outcome::BadFile)
    );
    assert_eq!(
        summary(&sheets),
        "2 rooms: 1 NO VERDICT, 1 with mistakes. Do not hand over."
    );
    let html = page(
        &sheets,
        &Wanted {
            date: None,
            whole_run: false,
        },
    );
    let text = well_formed(&html);
    assert!(text.contains("NO VERDICT  never <howl>\n            The table and a plain walk over all states do not agree"), "{text}");
}

/// A verdict by another order of the things is drawn as one by the file's.
#[test]
fn another_order() {
    let room = read(&std::fs::read_to_string(format!("{EXAMPLES}/hall.room")).unwrap()).unwrap();
    let html = |other: bool| {
        let order: Vec<usize> = (0..room.parts.len()).rev().collect();
        let asked = if other {
            orders::ordered(&room, &order)
        } else {
            room.clone()
        };
        let (walk, plan) = (Walk::new(&asked), plan(&asked).unwrap());
        let mut asker = Asker::new(&asked, &walk, &plan, Limits::LARGEST).unwrap();
        let verdicts = (0..room.questions.len()).map(|place| asker.ask(place).unwrap());
        let answers: Vec<Answer> = verdicts
            .map(|verdict| Answer {
                verdict,
                ordered: other.then(|| asked.clone()),
            })
            .collect();
        assert!(matches!(answers[0].verdict, Verdict::Broken(_)));
        let answered = Answered {
            room: room.clone(),
            answers,
            limits: Limits::LARGEST,
            comes: 32,
            checked: true,
            rows: None,
            notes: Vec::new(),
        };
        let sheet = Sheet {
            name: "hall".to_string(),
            hash: None,
            found: Found::Answered(Box::new(answered)),
        };
        page(
            &[sheet],
            &Wanted {
                date: None,
                whole_run: false,
            },
        )
    };
    let (own, other) = (html(false), html(true));
    well_formed(&other);
    assert!(other.contains("This verdict is by the order: latch monitor song echo mic-B mic-A"));
    // Each step is a press of the room, and the last one starts the song under the open microphone.
    let (texts, changes) = drawn(&other);
    assert!(
        !texts.contains(&"?") && changes == drawn(&own).1,
        "{texts:?}"
    );
    assert!(other.contains("Start: all off</li>"), "{other}");
    assert!(
        other.contains("<b>START</b> echo on, song on</li>\n</ol>"),
        "{other}"
    );
}

#[test]
fn command_lines() {
    let needs = "--page needs the page's file, with a name that ends in .html";
    let cases: [(&[&str], &str); 9] = [
        (&["--sheet"], "no file is named"),
        (
            &["--sheet", "--page", "a.html", "b.room", "a.html"],
            "a.html is a room, and the page would overwrite it",
        ),
        (&["--sheet", "--page"], needs),
        // The page is forgotten, and a room would be overwritten.
        (&["--sheet", "--page", "hall.room", "mended.room"], needs),
        (
            &["--page", "a.html", "hall.room"],
            "--page and --date belong to --sheet",
        ),
        (
            &["--date", "today", "hall.room"],
            "--page and --date belong to --sheet",
        ),
        (&["--sheet", "hall.room", "--date"], "--date needs a date"),
        (
            &["--sheet", "--date", "today", "hall.room"],
            "--date stands on the page: name it with --page OUT.html",
        ),
        (
            &["--sheet", "--echo", "hall.room"],
            "one of --echo, --records, --explain, --diff, --sheet and --walk at a time",
        ),
    ];
    for (arguments, says) in cases {
        let expected = format!("room: {says}. See room --help\n");
        assert_eq!(examples().room(arguments), (String::new(), expected, 2));
    }
}

/// A page that cannot be written is told, and so are lines that cannot be.
#[test]
fn pages_that_cannot_be_written() {
    let folder = Folder::new("unwritten");
    folder.write("safe", SAFE);
    let (printed, errors, status) = folder.room(&["--sheet", "--page", "none/a.html", "safe"]);
    assert!(printed.starts_with("SAFE        safe"), "{printed}");
    assert!(
        errors.starts_with("room: none/a.html cannot be written: "),
        "{errors}"
    );
    assert_eq!((errors.lines().count(), status), (1, 2));
    let full = std::fs::OpenOptions::new()
        .write(true)
        .open("/dev/full")
        .unwrap();
    let mut command = Command::new(env!("CARGO_BIN_EXE_room"));
    let command = command.args(["--sheet", "safe"]).current_dir(&folder.0);
    let status = command.stdout(full).stderr(Stdio::null()).status();
    assert_eq!(status.unwrap().code(), Some(2));
}
