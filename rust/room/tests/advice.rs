//! What a line is told that is none: what to write instead, and never the opposite of what it seems to say.
use room::read::read;
use room::room::Asked;

const ROOM: &str =
    "things: mic echo song\nstart: all off\npress START: song on\npress MIC 2: mic on\npress A: echo on\nnever echo\n";

/// What an added line is told: the word and the message.
fn told(line: &str) -> (String, String) {
    let found = read(&format!("{ROOM}{line}\n")).expect_err(line);
    assert_eq!(found.len(), 1, "{line}: {found:?}");
    let word = line.chars().skip(found[0].column - 1);
    let word = word.take(found[0].width).collect();
    (word, found[0].says.clone())
}

fn all(cases: &[(&str, &str, &str)]) {
    for (line, word, says) in cases {
        assert_eq!(told(line), (word.to_string(), says.to_string()), "{line}");
    }
}

#[test]
fn what_is_not_possible() {
    let never = "for what no presses lead to, write \"never mic\"";
    all(&[
        ("impossible: mic", "impossible", never),
        ("Impossible mic", "Impossible", never),
        ("imposible: mic", "imposible", never),
        ("never possible: mic", "possible", never),
        ("not possible: mic", "possible", never),
        ("Not possible: mic", "possible", never),
        ("always impossible: mic", "impossible", never),
        (
            "impossible: mic and echo",
            "impossible",
            "for what no presses lead to, write \"never mic and echo\"",
        ),
        (
            "impossible:",
            "impossible",
            "for what no presses lead to, write \"never ...\"",
        ),
        (
            "posible: mic",
            "posible",
            "no line begins with \"posible\". Is \"possible\" meant?",
        ),
    ]);
}

/// "ever" is no slip of "never".
#[test]
fn what_may_be() {
    for line in [
        "ever mic",
        "Ever mic",
        "every mic",
        "forever mic",
        "even mic",
    ] {
        let (word, says) = told(line);
        assert_eq!(word, line.split(' ').next().unwrap());
        assert!(says.starts_with("a line begins with things, "), "{says}");
    }
    for line in [
        "nevr mic",
        "NEVER mic",
        "neverr mic",
        "enver mic",
        "nver mic",
    ] {
        let says = told(line).1;
        assert!(says.ends_with(". Is \"never\" meant?"), "{says}");
    }
}

#[test]
fn buttons() {
    let not_asked =
        "no line asks that a button does not work: \"BUTTON works whenever ...\" asks that it does";
    let how_asked = "a button is asked about in the words \"BUTTON works whenever ...\"";
    let start = "write \"START works whenever ...\" to ask about the button";
    all(&[
        ("A does not work whenever mic", "work", not_asked),
        ("A doesn't work whenever mic", "work", not_asked),
        ("A never works whenever mic", "A", not_asked),
        ("never works whenever mic", "never", not_asked),
        ("A stops working whenever mic", "working", not_asked),
        ("A fails whenever mic", "fails", how_asked),
        ("A breaks whenever mic", "breaks", how_asked),
        (
            "A is working whenever mic",
            "working",
            "\"working\" is not understood. Is \"works\" meant?",
        ),
        ("START works always", "START", start),
        ("START works when mic", "START", start),
        ("START always", "START", start),
        (
            "START: song on",
            "START",
            "write \"press START: ...\" for what the button does",
        ),
        (
            "MIC 2 works",
            "MIC",
            "write \"MIC 2 works whenever ...\" to ask about the button",
        ),
        ("A does not work", "A", not_asked),
        (
            "STRAT: all off",
            "STRAT",
            "no line begins with \"STRAT\". Is \"start\" meant?",
        ),
    ]);
}

/// A button may be called like a word that begins a line.
#[test]
fn buttons_with_names_of_lines() {
    let names = [
        "start",
        "never",
        "never mind",
        "press",
        "things",
        "always possible",
        "whenever",
        "possible",
        "mic means",
        "not",
    ];
    for name in names {
        let text = format!("{ROOM}press {name}: song off\n{name} works whenever not song\n");
        let room = read(&text).unwrap_or_else(|found| panic!("{name}: {found:?}"));
        let asked = &room.questions.last().unwrap().asked;
        assert!(
            matches!(asked, Asked::Works(press, _) if press == name),
            "{name}"
        );
        assert_eq!(room.questions.len(), 2);
    }
    // What is no such question is read as before.
    let (word, says) = told("start works whenever mic: song");
    assert_eq!(
        (word.as_str(), says.as_str()),
        ("start", "a colon is missing after \"start\"")
    );
    let text = format!("{ROOM}press X works whenever Y: song off\n");
    assert_eq!(read(&text).unwrap().rules[3].press, "X works whenever Y");
}

#[test]
fn conditions_that_can_be_read() {
    let lacks = |text: &str| {
        format!("\"if\" begins no line. What must hold in every such state: write \"{text}\"")
    };
    let cases = [
        ("if song: mic, echo", "never song and not (mic and echo)"),
        (
            "if song: mic or echo, not mic",
            "never song and not ((mic or echo) and (not mic))",
        ),
        ("if song, echo: mic", "never (song and echo) and not mic"),
        ("if song, then mic", "never song and not mic"),
        ("if song then mic: echo", "never X and not Y"),
        ("if song: press A", "never X and not Y"),
        ("if song: mic,", "never song and not mic"),
        ("if song: ,", "never X and not Y"),
        ("if song: mic,, echo", "never X and not Y"),
    ];
    for (line, example) in cases {
        assert_eq!(told(line), ("if".to_string(), lacks(example)), "{line}");
        if !example.contains('X') {
            assert!(read(&format!("{ROOM}{example}\n")).is_ok(), "{example}");
        }
    }
    let until = "without \"never\": write \"not mic until song\"; or \"not mic unless song\", where that need not come";
    let unless = "without \"never\": write \"not (mic or echo) unless song\"";
    all(&[
        ("never mic until song", "until", until),
        ("never mic or echo unless song", "unless", unless),
    ]);
    assert!(read(&format!(
        "{ROOM}not mic until song\nnot (mic or echo) unless song\n"
    ))
    .is_ok());
}
