//! Every kind of mistake in a room file: its line, its word and its message.
use room::mistake::Mistake;
use room::{plan, read, sense};

/// A room without a mistake, to which lines are added.
const BEFORE: &str = "things: mic echo song\nselector send: desk hall booth\nstart: all off\nhowl means mic and echo\n";
const AFTER: &str = "press MIC: mic turns over\npress START: song on\nnever howl\n";
/// What is told where "possible" is missing.
const ALWAYS: &str = "write \"always possible: ...\" for what presses can always lead to, or \"never not ...\" for what must hold in every state";
/// What is told of a line that is none.
const LINES: &str = "a line begins with things, selector, start, press, never, possible, always possible, whenever or expect, or it is \
                     \"NAME means ...\", \"... until ...\", \"... unless ...\" or \"BUTTON works whenever ...\"";
/// The line that is added.
const LINE: usize = 5;

fn mistakes(text: &str) -> Vec<Mistake> {
    let room = match read::read(text) {
        Ok(room) => room,
        Err(mistakes) => return mistakes,
    };
    let mistakes = sense::mistakes(&room);
    if mistakes.is_empty() {
        return plan::plan(&room).err().unwrap_or_default();
    }
    mistakes
}

/// The one mistake of a text: its line, its word and what it says.
fn only(text: &str) -> (usize, String, String) {
    let found = mistakes(text);
    assert_eq!(found.len(), 1, "{text}\n{found:?}");
    let mistake = found[0].clone();
    let line = text
        .lines()
        .nth(mistake.line.wrapping_sub(1))
        .unwrap_or_default();
    let word = line
        .chars()
        .skip(mistake.column - 1)
        .take(mistake.width)
        .collect();
    (mistake.line, word, mistake.says)
}

/// What an added line is told: its word and the message.
fn told(line: &str) -> (String, String) {
    let (at, word, says) = only(&format!("{BEFORE}{line}\n{AFTER}"));
    assert_eq!(at, LINE, "{line}: {says}");
    (word, says)
}

fn all(cases: &[(&str, &str, &str)]) {
    for (line, word, says) in cases {
        let (found_word, found) = told(line);
        assert_eq!(
            (found_word.as_str(), found.as_str()),
            (*word, *says),
            "{line}"
        );
    }
}

#[test]
fn no_mistake() {
    assert_eq!(mistakes(&format!("{BEFORE}{AFTER}")), []);
    let windows = format!("\u{feff}{BEFORE}{AFTER}").replace('\n', "\r\n");
    assert_eq!(mistakes(&windows), []);
}

#[test]
fn lines() {
    all(&[
        (
            "pres MIC: mic on",
            "pres",
            "no line begins with \"pres\". Is \"press\" meant?",
        ),
        (
            "Never howl",
            "Never",
            "no line begins with \"Never\". Is \"never\" meant?",
        ),
        (
            "loud maens mic and song",
            "maens",
            "\"maens\" is not understood. Is \"means\" meant?",
        ),
        ("mic and echo", "mic", LINES),
        ("; mic", ";", LINES),
        (
            "\u{200b}mic and echo",
            "\u{200b}",
            "a character that means nothing stands here (U+200B)",
        ),
    ]);
}

#[test]
fn declarations() {
    all(&[
        (
            "things a b",
            "things",
            "a colon is missing after \"things\"",
        ),
        ("things:", ":", "names are missing after \"things:\""),
        ("things: a, ", ",", "a name is missing after the comma"),
        (
            "things: 2nd",
            "2nd",
            "\"2nd\" can be no name: a name begins with a letter",
        ),
        ("things: a; b", ";", "\";\" means nothing here"),
        (
            "things: a\u{200b}b",
            "\u{200b}",
            "a character that means nothing stands here (U+200B)",
        ),
        (
            "things: when",
            "when",
            "\"when\" has a meaning of its own here and can be no name",
        ),
        (
            "things: a mic",
            "mic",
            "\"mic\" has been named already, on line 1",
        ),
        (
            "things: howl",
            "howl",
            "\"howl\" has been named already, on line 4",
        ),
        (
            "selector",
            "selector",
            "say the selector's name: selector NAME: its positions",
        ),
        (
            "selector : a b",
            "selector",
            "say the selector's name: selector NAME: its positions",
        ),
        (
            "selector key a b",
            "key",
            "a colon is missing after \"key\"",
        ),
        ("selector key:", ":", "names are missing after \"key:\""),
        (
            "selector key: up",
            "key",
            "\"key\" needs two positions or more",
        ),
        (
            "selector key: up down up",
            "up",
            "\"key\" has the position \"up\" twice",
        ),
        (
            "selector key: up not",
            "not",
            "\"not\" has a meaning of its own here and can be no name",
        ),
        (
            "selector send: a b",
            "send",
            "\"send\" has been named already, on line 2",
        ),
        (
            "selector 1: a b",
            "1",
            "\"1\" can be no name: a name begins with a letter",
        ),
        (
            "howl means song",
            "howl",
            "\"howl\" has been named already, on line 4",
        ),
        (
            "mic means song",
            "mic",
            "\"mic\" has been named already, on line 1",
        ),
        ("always means song", "always", ALWAYS),
        (
            "or means song",
            "or",
            "\"or\" has a meaning of its own here and can be no name",
        ),
        (
            "loud means",
            "means",
            "a condition is missing after \"means\"",
        ),
    ]);
}

#[test]
fn sizes() {
    let sixteen = "things: a b c d e f g h i j k l\nselector s: x y z\n";
    let rest = "start: all off\npress A: a turns over\nnever a\n";
    assert_eq!(
        mistakes(&format!("{sixteen}selector t: p q r u\n{rest}")),
        []
    );
    let says = |name: &str, taken: u32| {
        format!(
            "\"{name}\" does not fit: a room has at most 16 bits, and {taken} are taken. A thing takes 1, a selector of 3 or 4 \
             positions 2, of 5 to 8 positions 3, and so on"
        )
    };
    let found = only(&format!("{sixteen}selector t: p q r u v\n{rest}"));
    assert_eq!(found, (3, "t".to_string(), says("t", 14)));
    let found = only(&format!("{sixteen}things: m n o\n{rest}"));
    assert_eq!(found, (3, "o".to_string(), says("o", 16)));
}

#[test]
fn starts() {
    let start = |line: &str| {
        let text = format!("things: mic echo\nselector send: desk hall\n{line}\npress MIC: mic turns over\nnever mic\n");
        let (at, word, says) = only(&text);
        assert!(at == 3 || at == 0, "{line}");
        (word, says)
    };
    let cases = [
        ("start", "start", "a colon is missing after \"start\""),
        (
            "start:",
            "start",
            "say what is on at the start, or \"all off\", or \"any\"",
        ),
        ("start: all", "all", "write \"all off\", or name what is on"),
        (
            "start: all on",
            "all",
            "write \"all off\", or name what is on",
        ),
        (
            "start: all off mic on",
            "mic",
            "a comma is missing before \"mic\"",
        ),
        (
            "start: all off,",
            ",",
            "something is missing here, such as \"echo on\"",
        ),
        (
            "start: mic",
            "mic",
            "say what happens to \"mic\": mic on, mic off or mic turns over",
        ),
        (
            "start: mic turns over",
            "start",
            "at the start \"mic\" is on or off",
        ),
        (
            "start: mic on echo on",
            "echo",
            "\"and\", \"or\" or a comma is missing before \"echo\"",
        ),
        ("start: mic on, mic off", "mic", "\"mic\" stands here twice"),
        (
            "start: any, mic on",
            ",",
            "\"any\" stands alone: the evening may begin in every state",
        ),
        (
            "start: Any",
            "Any",
            "\"Any\" is not understood. Is \"any\" meant?",
        ),
        (
            "start: mick on",
            "mick",
            "nothing here is called \"mick\". Is \"mic\" meant?",
        ),
        (
            "start: send = hell",
            "hell",
            "\"send\" has no position \"hell\". It has desk, hall",
        ),
        (
            "",
            "",
            "the start is missing: a line such as \"start: all off\"",
        ),
    ];
    for (line, word, says) in cases {
        assert_eq!(start(line), (word.to_string(), says.to_string()), "{line}");
    }
    all(&[(
        "start: mic on",
        "start",
        "the start has been said already, on line 3",
    )]);
}

#[test]
fn presses() {
    let does = "say what the press does, such as \"echo on\" or \"mic turns over\"";
    all(&[
        (
            "press ECHO echo on",
            "press",
            "a colon is missing: press NAME: what it does",
        ),
        (
            "press: echo on",
            "press",
            "say which button: press NAME: what it does",
        ),
        (
            "press E\u{ad}: echo on",
            "\u{ad}",
            "a character that means nothing stands here (U+00AD)",
        ),
        ("press ECHO:", ":", does),
        ("press ECHO: when song", ":", does),
        (
            "press ECHO: on echo",
            "on",
            "the name comes first: write \"echo on\"",
        ),
        (
            "press ECHO: turn echo",
            "turn",
            "the name comes first: write \"echo turns over\"",
        ),
        (
            "press ECHO: echo",
            "echo",
            "say what happens to \"echo\": echo on, echo off or echo turns over",
        ),
        (
            "press ECHO: echo up",
            "up",
            "say what happens to \"echo\": echo on, echo off or echo turns over",
        ),
        ("press ECHO: echo turns", "turns", "write \"turns over\""),
        (
            "press ECHO: echo = on",
            "on",
            "\"echo\" is on or off and has no positions",
        ),
        (
            "press ECHO: send on",
            "on",
            "\"send\" is a selector and has positions: desk, hall, booth",
        ),
        (
            "press ECHO: send",
            "send",
            "\"send\" is a selector: write \"send = desk\", or another of desk, hall, booth",
        ),
        (
            "press ECHO: send =",
            "=",
            "a position of \"send\" is missing",
        ),
        (
            "press ECHO: send = boot",
            "boot",
            "\"send\" has no position \"boot\". It has desk, hall, booth",
        ),
        (
            "press ECHO: howl on",
            "howl",
            "\"howl\" is no thing and no selector, so no press changes it by name",
        ),
        (
            "press ECHO: eko on",
            "eko",
            "nothing here is called \"eko\". Is \"echo\" meant?",
        ),
        (
            "press ECHO: echo on,",
            ",",
            "something is missing here, such as \"echo on\"",
        ),
        (
            "press ECHO: echo on and mic on",
            "and",
            "write a comma between two things that happen",
        ),
        (
            "press ECHO: echo on, echo off",
            "echo",
            "\"echo\" stands here twice",
        ),
        (
            "press ECHO: echo on whan song",
            "whan",
            "\"whan\" is not understood. Is \"when\" meant?",
        ),
        (
            "press ECHO: echo on when",
            "when",
            "a condition is missing after \"when\"",
        ),
        (
            "press ECHO: echo on; mic on",
            ";",
            "\";\" means nothing here",
        ),
        ("press ECHO: , echo on", ",", "\",\" means nothing here"),
        (
            "press ECHO: echo on when song on when mic",
            "when",
            "\"and\", \"or\" or a comma is missing before \"when\"",
        ),
    ]);
}

#[test]
fn conditions() {
    let mixed =
        "\"and\" and \"or\" stand side by side: put parentheses round what belongs together";
    all(&[
        (
            "loud means mick",
            "mick",
            "nothing here is called \"mick\". Is \"mic\" meant?",
        ),
        (
            "loud means trumpet",
            "trumpet",
            "nothing here is called \"trumpet\"",
        ),
        (
            "loud means mic and",
            "and",
            "a condition is missing after \"and\"",
        ),
        (
            "loud means and mic",
            "and",
            "a condition is missing before \"and\"",
        ),
        (
            "loud means mic and or echo",
            "or",
            "a condition is missing before \"or\"",
        ),
        (
            "loud means not",
            "not",
            "a condition is missing after \"not\"",
        ),
        (
            "loud means mic echo",
            "echo",
            "\"and\", \"or\" or a comma is missing before \"echo\"",
        ),
        (
            "loud means mic (echo)",
            "(",
            "\"and\", \"or\" or a comma is missing before \"(\"",
        ),
        ("loud means (mic and echo", "(", "this ( has no ) after it"),
        ("loud means mic and echo)", ")", "this ) has no ( before it"),
        ("loud means ()", ")", "this ) has no ( before it"),
        ("loud means mic and echo or song", "or", mixed),
        ("loud means mic or echo and song", "and", mixed),
        (
            "loud means send",
            "send",
            "\"send\" is a selector: write \"send = desk\", or another of desk, hall, booth",
        ),
        (
            "loud means send =",
            "=",
            "a position of \"send\" is missing",
        ),
        (
            "loud means send = roof",
            "roof",
            "\"send\" has no position \"roof\". It has desk, hall, booth",
        ),
        (
            "loud means send off",
            "off",
            "\"send\" is a selector and has positions: desk, hall, booth",
        ),
        (
            "loud means mic = on",
            "on",
            "\"mic\" is on or off and has no positions",
        ),
        (
            "loud means press",
            "press",
            "\"press\" begins a line of its own, at the left edge",
        ),
        (
            "loud means mic when song",
            "when",
            "\"and\", \"or\" or a comma is missing before \"when\"",
        ),
        (
            "loud means mic & song",
            "&",
            "\"&\" is not understood. Is \"and\" meant?",
        ),
        (
            "loud means \u{feff}mic",
            "\u{feff}",
            "a character that means nothing stands here (U+FEFF)",
        ),
        (
            "loud means mic and not mic",
            "",
            "no state of the room is like this, so \"loud\" says nothing",
        ),
        (
            "press X: mic on when send = hall and send = desk",
            "",
            "no state of the room is like this, so the press never works",
        ),
    ]);
    let deep = format!("loud means {}mic", "not ".repeat(33));
    assert_eq!(
        told(&deep).1,
        "too many parentheses and nots inside one another"
    );
    let deep = format!("loud means {}mic", "(".repeat(100_000));
    assert_eq!(
        told(&deep).1,
        "too many parentheses and nots inside one another"
    );
    let long = format!("loud means mic{}", " and mic".repeat(600));
    let says = "this condition is too long, with what its names mean: say it with fewer words";
    assert_eq!(told(&long), ("mic".to_string(), says.to_string()));
}

#[test]
fn questions() {
    let nothing = "no state of the room is like this, so there is nothing to ask";
    let every = "every state of the room is like this, so there is nothing to ask";
    all(&[
        ("never", "never", "a condition is missing after \"never\""),
        (
            "never howl until song",
            "until",
            "without \"never\": write \"not howl until song\"; or \"not howl unless song\", where that need not come",
        ),
        (
            "never hole",
            "hole",
            "nothing here is called \"hole\". Is \"howl\" meant?",
        ),
        ("never: howl", ":", "\":\" means nothing here"),
        ("always howl", "always", ALWAYS),
        (
            "always possible howl",
            "possible",
            "a colon is missing after \"always possible\"",
        ),
        (
            "always possible:",
            ":",
            "a condition is missing after \":\"",
        ),
        (
            "until song",
            "until",
            "a condition is missing before \"until\"",
        ),
        (
            "mic until",
            "until",
            "a condition is missing after \"until\"",
        ),
        (
            "mic until song until echo",
            "until",
            "one line asks one \"until\", outside all parentheses",
        ),
        ("(mic until song)", "(", "this ( has no ) after it"),
        (
            "mic unless",
            "unless",
            "a condition is missing after \"unless\"",
        ),
        (
            "mic until song unless echo",
            "unless",
            "one line asks one \"unless\", outside all parentheses",
        ),
        ("mic unless song or not song", "", every),
        (
            "mic song until echo",
            "song",
            "\"and\", \"or\" or a comma is missing before \"song\"",
        ),
        ("never howl, mic", ",", "\",\" means nothing here"),
        ("never mic and not mic", "", nothing),
        ("never mic or not mic", "", every),
        ("always possible: mic or not mic", "", every),
        ("mic and not mic until song", "", nothing),
        ("mic until song and not song", "", nothing),
        ("mic until song or not song", "", every),
        (
            "possible song",
            "possible",
            "a colon is missing after \"possible\"",
        ),
        ("possible:", ":", "a condition is missing after \":\""),
        (
            "Possible: song",
            "Possible",
            "no line begins with \"Possible\". Is \"possible\" meant?",
        ),
        ("possible: mic and not mic", "", nothing),
        ("possible: mic or not mic", "", every),
        (
            "whenever song mic unless echo",
            "song",
            "a colon is missing after \"song\"",
        ),
        (
            "whenever song unless echo",
            "song",
            "a colon is missing after \"song\"",
        ),
        (
            "whenever song: unless echo",
            "unless",
            "a condition is missing before \"unless\"",
        ),
        (
            "whenever : mic unless echo",
            ":",
            "\":\" means nothing here",
        ),
        (
            "whenever song: mic unless",
            "unless",
            "a condition is missing after \"unless\"",
        ),
        (
            "whenever song: mic until echo",
            "until",
            "\"until\" is not understood. Is \"unless\" meant?",
        ),
        (
            "whenever song: mic unless echo unless howl",
            "unless",
            "one line asks one \"unless\", outside all parentheses",
        ),
        ("whenever mic and not mic: song unless echo", "", nothing),
        ("whenever mic: song or not song unless echo", "", every),
        ("whenever mic: song unless echo and not echo", "", nothing),
        (
            "START work whenever song",
            "work",
            "\"work\" is not understood. Is \"works\" meant?",
        ),
        (
            "works whenever song",
            "works",
            "say which button: BUTTON works whenever ...",
        ),
        (
            "START works whenever",
            "whenever",
            "a condition is missing after \"whenever\"",
        ),
        (
            "START works whenever mick",
            "mick",
            "nothing here is called \"mick\". Is \"mic\" meant?",
        ),
        ("START works whenever mic and not mic", "", nothing),
        (
            "STRT works whenever song",
            "STRT",
            "no press is called \"STRT\". Is \"START\" meant?",
        ),
        (
            "THE BELL works whenever song",
            "THE",
            "no press is called \"THE BELL\"",
        ),
    ]);
    // A press may stand below the question; one whose line is given up for another mistake is not missed.
    let text =
        |press: &str| format!("{BEFORE}GO on works whenever song\npress GO on: {press}\n{AFTER}");
    assert_eq!(mistakes(&text("mic on")), []);
    assert_eq!(only(&text("mick on")).1, "mick");
}

/// Words of other languages, and of every day: the word that is meant here is told.
#[test]
fn the_word_that_is_meant() {
    let not_understood =
        |text: &str, meant: &str| format!("\"{text}\" is not understood. Is \"{meant}\" meant?");
    let first = |write: &str| format!("the name comes first: write \"{write}\"");
    let write = |text: &str| format!("write \"{text}\"");
    let lacks = |what: &str, text: &str| {
        format!("{what}. What must hold in every such state: write \"{text}\"")
    };
    let whenever = |text: &str| lacks("\"unless\" is missing", text);
    let two_ways = "a press does all that its line names: write a comma, or a second line of the same press for the other way";
    let position = "\"hall\" is a position of \"send\": write \"send = hall\"";
    let cases = [
        // The opposite of what must hold must never be.
        (
            "whenever song: mic",
            "whenever",
            whenever("never song and not mic"),
        ),
        (
            "whenever mic or echo: song and not howl",
            "whenever",
            whenever("never (mic or echo) and not (song and not howl)"),
        ),
        ("whenever song", "whenever", whenever("never X and not Y")),
        (
            "if song then mic",
            "if",
            lacks("\"if\" begins no line", "never song and not mic"),
        ),
        (
            "When song, mic",
            "When",
            lacks("\"When\" begins no line", "never song and not mic"),
        ),
        // Presses.
        ("press ECHO: echo on or mic on", "or", two_ways.to_string()),
        ("press ECHO: echo on | mic on", "|", two_ways.to_string()),
        (
            "press ECHO: echo on AND mic on",
            "AND",
            "write a comma between two things that happen".to_string(),
        ),
        (
            "press ECHO: echo on if song",
            "if",
            not_understood("if", "when"),
        ),
        (
            "press ECHO: echo on only when song",
            "only",
            not_understood("only", "when"),
        ),
        (
            "press ECHO: echo on WHEN song",
            "WHEN",
            not_understood("WHEN", "when"),
        ),
        (
            "press ECHO: echo on unless song",
            "unless",
            "a press works or does not: write \"when not song\"".to_string(),
        ),
        (
            "press ECHO: echo on unless song or mic",
            "unless",
            "a press works or does not: write \"when not (song or mic)\"".to_string(),
        ),
        (
            "press ECHO: toggle echo",
            "toggle",
            first("echo turns over"),
        ),
        (
            "press ECHO: mic on, flip echo",
            "flip",
            first("echo turns over"),
        ),
        ("press ECHO: turn echo off", "turn", first("echo off")),
        ("press ECHO: Turn on echo", "Turn", first("echo on")),
        ("press ECHO: set echo", "set", first("echo on")),
        ("press ECHO: toggle", "toggle", first("NAME turns over")),
        (
            "press ECHO: echo toggles",
            "toggles",
            write("echo turns over"),
        ),
        // Conditions.
        (
            "loud means mic AND echo",
            "AND",
            not_understood("AND", "and"),
        ),
        ("loud means mic Or echo", "Or", not_understood("Or", "or")),
        ("loud means NOT mic", "NOT", not_understood("NOT", "not")),
        ("loud means mic && echo", "&", not_understood("&", "and")),
        ("loud means mic || echo", "|", not_understood("|", "or")),
        ("loud means !mic", "!", not_understood("!", "not")),
        ("loud means mic ON", "ON", not_understood("ON", "on")),
        ("loud means send != hall", "!", write("not send = hall")),
        ("loud means send <> hall", "<", write("not send = hall")),
        ("loud means mic != on", "!", write("not mic")),
        ("loud means send is hall", "is", write("send = hall")),
        ("loud means mic is off", "is", write("mic off")),
        (
            "loud means send == hall",
            "=",
            "write one \"=\"".to_string(),
        ),
        (
            "loud means send = desk or hall",
            "hall",
            position.to_string(),
        ),
        ("never hall and mic", "hall", position.to_string()),
        ("mic UNTIL song", "UNTIL", not_understood("UNTIL", "until")),
    ];
    for (line, word, says) in cases {
        assert_eq!(told(line), (word.to_string(), says), "{line}");
    }
}

/// The selector that was named last is meant, where several have a position of that name.
#[test]
fn positions_of_two_selectors() {
    let text = "selector s: p q\nselector t: q p\nstart: all off\npress A: s = q when t = p and q\nnever s = p or q\n";
    let says: Vec<String> = (mistakes(text).iter()).map(|m| m.says.clone()).collect();
    let of =
        |selector: &str| format!("\"q\" is a position of \"{selector}\": write \"{selector} = q\"");
    assert_eq!(says, [of("t"), of("s")]);
    let text = "things: mic\nstart: mic on or mic off\npress A: mic on\nnever mic\n";
    let says = "the evening begins in one state: write a comma; or \"start: any\" for every state";
    assert_eq!(only(text), (2, "or".to_string(), says.to_string()));
}

#[test]
fn whole_files() {
    let says = |text: &str| -> Vec<String> {
        mistakes(text)
            .into_iter()
            .map(|mistake| mistake.says)
            .collect()
    };
    let lacks = [
        "nothing is switched here: a line such as \"things: mic echo song\" is missing",
        "the start is missing: a line such as \"start: all off\"",
        "no press is here: a line such as \"press ECHO: echo turns over\" is missing",
        "nothing is asked: a line such as \"never howl\" is missing",
    ];
    assert_eq!(says(""), lacks);
    assert_eq!(says("# things: a\n\n"), lacks);
    assert_eq!(says("things: a\nstart: all off\npress A: a on"), lacks[3..]);
    assert_eq!(says("things: a\nstart: all off\nnever a"), lacks[2..3]);
}

#[test]
fn names_further_down() {
    let text =
        "things: mic\nstart: all off\npress MIC: mic on when loud\nloud means mic\nnever loud\n";
    let says = "\"loud\" is named further down, on line 4: move that line up";
    assert_eq!(only(text), (3, "loud".to_string(), says.to_string()));
}

#[test]
fn lines_that_go_on() {
    let text = "things: mic\nstart: all off\npress MIC: mic on\n  never mic\n";
    let says =
        "\"never\" begins a line of its own, at the left edge: take the blanks before it away";
    assert_eq!(only(text), (4, "never".to_string(), says.to_string()));
    let text = "things: mic\nstart: all off\npress MIC:\n  mic on\n  when mick\nnever mic\n";
    assert_eq!(only(text).0, 5);
    // Wherever a line of its own begins with a blank, that is told, and it is read all the same.
    let edge = |word: &str| {
        format!(
            "\"{word}\" begins a line of its own, at the left edge: take the blanks before it away"
        )
    };
    let indented = [
        (
            "things: mic\n press A: mic on\nstart: all off\nnever mic\n",
            2,
            "press",
        ),
        (
            "things: mic\nstart: all off\n\tpress A: mic on\nnever mic\n",
            3,
            "press",
        ),
        (
            "things: mic\nstart: all off\npress A: mic on\n  loud means mic\nnever loud\n",
            4,
            "loud",
        ),
        (
            "things: mic\n  selector s: p q\nstart: all off\npress A: mic on\nnever mic\n",
            2,
            "selector",
        ),
    ];
    for (text, line, word) in indented {
        assert_eq!(only(text), (line, word.to_string(), edge(word)), "{text}");
    }
    let text = "  things: mic\n  start: all off\n  press A: mik on\n  never mic\n  always\n  possible: mic\n";
    let lines: Vec<usize> = mistakes(text).iter().map(|mistake| mistake.line).collect();
    assert_eq!(lines, [2, 3, 3, 4, 5]);
    let text = "things: mic\nstart: all off\npress A: mic on\nalways\n  possible: mic\n";
    assert_eq!(mistakes(text), []);
}

/// `expect BROKEN:` stands before a question, on its line or above it.
#[test]
fn expected_faults() {
    let question = "\"expect BROKEN:\" stands before a question, such as \"never howl\"";
    let write = "write \"expect BROKEN: ...\", with the question behind it";
    let safe = "every question is expected to be SAFE: leave these words away";
    let broken = "\"broken\" is not understood. Is \"BROKEN\" meant?";
    all(&[
        ("expect", "expect", write),
        ("expect never howl", "never", write),
        (
            "expect BROKEN",
            "BROKEN",
            "a colon is missing after \"BROKEN\"",
        ),
        (
            "expect BROKEN never howl",
            "BROKEN",
            "a colon is missing after \"BROKEN\"",
        ),
        ("expect BROKEN:", ":", "a question is missing after this"),
        ("expect broken: never howl", "broken", broken),
        (
            "expect BRKEN: never howl",
            "BRKEN",
            &broken.replace("broken", "BRKEN"),
        ),
        ("expect SAFE: never howl", "SAFE", safe),
        ("expect safe: never howl", "safe", safe),
        (
            "expect BROKEN: expect BROKEN: never howl",
            "expect",
            question,
        ),
        ("expect BROKEN: press ECHO: echo on", "press", question),
        ("expect BROKEN: loud means mic", "loud", question),
        ("expect BROKEN: things: lamp", "things", question),
        ("expect BROKEN: start: all off", "start", question),
        (
            "Expect BROKEN: never howl",
            "Expect",
            "no line begins with \"Expect\". Is \"expect\" meant?",
        ),
        (
            "expected BROKEN: never howl",
            "expected",
            "no line begins with \"expected\". Is \"expect\" meant?",
        ),
        (
            "Expect BROKEN: mic until song",
            "Expect",
            "\"Expect\" is not understood. Is \"expect\" meant?",
        ),
        (
            "expect BROKEN: never howel",
            "howel",
            "nothing here is called \"howel\". Is \"howl\" meant?",
        ),
        ("expect BROKEN: howl", "howl", LINES),
        (
            "never expect",
            "expect",
            "\"expect\" begins a line of its own, at the left edge",
        ),
        (
            "never mic and howl expect",
            "expect",
            "\"expect\" begins a line of its own, at the left edge",
        ),
    ]);
    let (_, says) = told("things: expect");
    assert_eq!(
        says,
        "\"expect\" has a meaning of its own here and can be no name"
    );
    for line in [
        "expect BROKEN: never song",
        "expect BROKEN:\n  never song",
        "expect\n  BROKEN:\n\tnot mic until song",
        "expect BROKEN: always\n  possible: song",
        "expect BROKEN: MIC works whenever song",
        "expect BROKEN: whenever mic: not song unless echo",
    ] {
        let room = read::read(&format!("{BEFORE}{line}\n{AFTER}")).expect(line);
        let expected: Vec<(usize, bool)> = (room.questions.iter())
            .map(|question| (question.line, question.expect_broken))
            .collect();
        let last = LINE + line.lines().count() + 2;
        assert_eq!(expected, [(LINE, true), (last, false)], "{line}");
    }
    // Any other line of its own that begins with a blank is told as before.
    let text = format!("{BEFORE}{AFTER}  expect BROKEN: never mic\n");
    let says =
        "\"expect\" begins a line of its own, at the left edge: take the blanks before it away";
    assert_eq!(only(&text), (8, "expect".to_string(), says.to_string()));
}

/// Every line with a mistake is told, and each unknown name of a line.
#[test]
fn several_mistakes() {
    let text = "things: mic echo\nstart: al off\npress A: mik on, ecko off when mick = a and not eccho\npres B: mic on\nnever mic and\n";
    let found = mistakes(text);
    let places: Vec<(usize, usize)> = found
        .iter()
        .map(|mistake| (mistake.line, mistake.column))
        .collect();
    assert_eq!(
        places,
        [(2, 8), (3, 10), (3, 18), (3, 32), (3, 49), (4, 1), (5, 11)]
    );
}

/// A room of 16 things in which every press asks for a long condition.
fn many(presses: usize) -> String {
    let things: Vec<String> = (0..16).map(|k| format!("t{k}")).collect();
    let mut text = format!("things: {}\nstart: all off\n", things.join(" "));
    for k in 0..presses {
        text += &format!(
            "press B{k}: t{} turns over when not t{} or ({})\n",
            k % 16,
            (k + 1) % 16,
            things.join(" and ")
        );
    }
    text + "never t0 and t1\n"
}

#[test]
fn presses_that_do_not_fit() {
    assert_eq!(mistakes(&many(90)), []);
    let (line, _, says) = only(&many(200));
    assert!(line > 90, "{line}");
    let expected = "the presses do not fit from this line on: the table has room for 8 relations, and the presses above fill them. \
                    Take presses or things out, or say conditions with fewer words";
    assert_eq!(says, expected);
}

#[test]
fn one_press_or_question_that_does_not_fit() {
    let long = format!("mic{}", " and mic".repeat(495));
    let (_, says) = told(&format!("press LONG: echo on when {long}"));
    let expected = "this press is too long: say its condition with fewer words, or split it over several lines of the same press";
    assert_eq!(says, expected);
    // A relation also says what keeps; a set takes the same condition.
    let (before, after) = (BEFORE, AFTER);
    assert_eq!(mistakes(&format!("{before}never {long}\n{after}")), []);
}

/// Names that double at each line do not take the memory of what they mean.
#[test]
fn names_that_double() {
    let mut text = "things: a b\nstart: all off\nn0 means a and b\n".to_string();
    for k in 1..200 {
        text += &format!("n{k} means n{0} or (n{0} and a)\n", k - 1);
    }
    text += "press A: a on\nnever n199\n";
    let found = mistakes(&text);
    assert!(
        found[0].says.starts_with("this condition is too long"),
        "{}",
        found[0].says
    );
}

/// Words in any order: each file is read or refused, and what is read can be read back.
#[test]
fn any_words() {
    let words = [
        "things", "selector", "start", "press", "means", "never", "always", "possible", "until",
        "unless", "whenever", "works", "any", "when", "and", "or", "not", "on", "off", "turns",
        "over", "all", "expect", "BROKEN", "mic", "echo", "send", "X", "desk", "hall", "howl", "x",
        ":", ",", "=", "(", ")", "\n", "\n", "\n", "\n ", "#", "1", ";", "é", "\u{200b}", "-",
    ];
    let starts = [
        "things: mic echo\n",
        "selector send: desk hall\n",
        "start: all off\n",
        "press X: mic on\n",
        "never mic\n",
    ];
    let mut seed = 11_u64;
    let mut draw = |bound: usize| {
        seed = seed
            .wrapping_mul(6364136223846793005)
            .wrapping_add(1442695040888963407);
        (seed >> 33) as usize % bound
    };
    let (mut good, mut bad) = (0, 0);
    for _ in 0..100_000 {
        let mut text: String = starts.iter().filter(|_| draw(10) > 0).copied().collect();
        for _ in 0..draw(9) {
            text += words[draw(words.len())];
            text += ["", " "][draw(2)];
        }
        match read::read(&text) {
            Ok(room) => {
                good += 1;
                let again =
                    read::read(&room::echo::echo(&room)).expect("what is read back can be read");
                assert_eq!(room::echo::echo(&again), room::echo::echo(&room), "{text}");
            }
            Err(mistakes) => {
                bad += 1;
                let shown: String = mistakes
                    .iter()
                    .map(|mistake| mistake.shown("a", &text))
                    .collect();
                assert!(shown.ends_with('\n'));
            }
        }
    }
    assert!(good > 1_000 && bad > 1_000, "{good} {bad}");
}
