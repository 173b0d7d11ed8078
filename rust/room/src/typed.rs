//! What somebody types while walking through a room: a press, or a word of the walk.
use crate::mistake::similar;
use crate::steps::Made;

/// What is wanted.
#[derive(Clone, Copy, Debug, PartialEq, Eq)]
pub enum Wanted {
    /// A press by its place among the buttons; and where it can do one thing or another, which of them, counted from 1.
    Press(usize, Option<usize>),
    Undo,
    Restart,
    List,
    Help,
    Quit,
}

/// The words of the walk. Their beginnings are enough.
const WORDS: [(&str, Wanted); 5] = [
    ("undo", Wanted::Undo),
    ("restart", Wanted::Restart),
    ("list", Wanted::List),
    ("help", Wanted::Help),
    ("quit", Wanted::Quit),
];

/// Other words for the same.
const ALSO: [(&str, Wanted); 4] = [
    ("back to start", Wanted::Restart),
    ("back to the start", Wanted::Restart),
    ("exit", Wanted::Quit),
    ("?", Wanted::Help),
];

/// With this before it a word is one of the walk, or a number, and no button's name: these have no colon.
const NO_NAME: char = ':';

/// What stands between several presses on a line.
const BETWEEN: char = ',';

/// A text with single blanks and without capitals.
fn plain(text: &str) -> String {
    let words: Vec<&str> = text.split_whitespace().collect();
    words.join(" ").to_lowercase()
}

/// What a text asks for, or why that is not clear: a button's whole name counts first, then a word of the walk, a number, and the
/// beginning of a name or word.
pub fn wanted(text: &str, buttons: &[&str]) -> Result<Wanted, String> {
    let typed = plain(text);
    let (typed, buttons_too) = match typed.strip_prefix(NO_NAME) {
        Some(rest) => (rest.trim(), false),
        None => (typed.as_str(), true),
    };
    let named = if buttons_too { buttons } else { &[] };
    if let Some(place) = whole_name(text.trim(), named) {
        return Ok(Wanted::Press(place, None));
    }
    let mut words = WORDS.iter().chain(&ALSO);
    if let Some((_, word)) = words.find(|(word, _)| *word == typed) {
        return Ok(*word);
    }
    match number(typed) {
        Some(number) => numbered(number, buttons.len()),
        None => beginning(typed, named),
    }
}

/// The button that is called so, in any case where no other is called the same but for that.
fn whole_name(text: &str, buttons: &[&str]) -> Option<usize> {
    let exact = buttons.iter().position(|name| *name == text);
    exact.or_else(|| {
        let same = |place: &usize| plain(buttons[*place]) == plain(text);
        let mut found = (0..buttons.len()).filter(same);
        found.next().filter(|_| found.next().is_none())
    })
}

/// A number, or two with a point between; none where it is something else, and 0 where it is too large.
fn number(typed: &str) -> Option<(usize, Option<usize>)> {
    let digits = |text: &str| {
        let all = !text.is_empty() && text.bytes().all(|byte| byte.is_ascii_digit());
        all.then(|| text.parse().unwrap_or(0))
    };
    match typed.split_once('.') {
        Some((number, which)) => Some((digits(number)?, Some(digits(which)?))),
        None => Some((digits(typed)?, None)),
    }
}

fn numbered((number, which): (usize, Option<usize>), count: usize) -> Result<Wanted, String> {
    match (1..=count).contains(&number) {
        true => Ok(Wanted::Press(number - 1, which)),
        false if count == 1 => Err("there is 1 press, number 1".to_string()),
        false => Err(format!("there are {count} presses, 1 to {count}")),
    }
}

/// The only name or word that begins so.
fn beginning(typed: &str, buttons: &[&str]) -> Result<Wanted, String> {
    let presses = (buttons.iter().enumerate()).map(|(at, name)| (*name, Wanted::Press(at, None)));
    let all: Vec<(&str, Wanted)> = presses.chain(WORDS).collect();
    let begins = |name: &str| plain(name).starts_with(typed);
    let found: Vec<_> = all.iter().filter(|(name, _)| begins(name)).collect();
    match found[..] {
        [] => Err(unknown(typed, all.iter().map(|(name, _)| *name))),
        [(_, wanted)] => Ok(*wanted),
        _ => {
            let names: Vec<&str> = found.iter().map(|(name, _)| *name).collect();
            let (last, others) = names.split_last().unwrap_or((&"", &[]));
            Err(format!("this may be {} or {last}", others.join(", ")))
        }
    }
}

fn unknown<'a>(typed: &str, names: impl Iterator<Item = &'a str>) -> String {
    match similar(typed, names) {
        Some(name) => format!("nothing here is called so. Is \"{name}\" meant?"),
        None => "nothing here is called so. \"list\" shows the presses".to_string(),
    }
}

/// The presses and words of a line.
pub fn pieces<'a>(line: &'a str, buttons: &[&str]) -> Vec<&'a str> {
    if whole_name(line.trim(), buttons).is_some() {
        return vec![line.trim()];
    }
    let pieces = line.split(BETWEEN).map(str::trim);
    pieces.filter(|piece| !piece.is_empty()).collect()
}

/// A press as it can be typed again, by its name where that is enough.
pub fn again((place, which): Made, buttons: &[&str]) -> String {
    let number = match which {
        Some(which) => format!("{}.{which}", place + 1),
        None => (place + 1).to_string(),
    };
    let press = Ok(Wanted::Press(place, which));
    let same = |text: &&str| !text.contains(BETWEEN) && wanted(text, buttons) == press;
    let plain = [buttons[place], number.as_str()].into_iter().find(same);
    plain.map_or_else(|| format!("{NO_NAME}{number}"), str::to_string)
}

/// What is behind `start:`, where a line says so.
pub fn start(line: &str) -> Option<&str> {
    let (word, state) = line.split_once(':')?;
    (plain(word) == "start").then_some(state.trim())
}

#[cfg(test)]
mod tests {
    use super::{again, pieces, start, wanted, Wanted};

    const HALL: [&str; 6] = ["MIC A", "MIC B", "MONITOR", "ECHO", "STOP", "START"];

    #[test]
    fn presses() {
        let press = |text: &str| wanted(text, &HALL);
        for text in ["MIC B", "mic b", "  Mic   B ", "2"] {
            assert_eq!(press(text), Ok(Wanted::Press(1, None)), "{text}");
        }
        assert_eq!(press("mo"), Ok(Wanted::Press(2, None)));
        assert_eq!(press("2.1"), Ok(Wanted::Press(1, Some(1))));
        let wrong = [
            ("m", "this may be MIC A, MIC B or MONITOR"),
            ("st", "this may be STOP or START"),
            ("ecko", "nothing here is called so. Is \"ECHO\" meant?"),
            ("undoo", "nothing here is called so. Is \"undo\" meant?"),
            (
                "trumpet",
                "nothing here is called so. \"list\" shows the presses",
            ),
            ("7", "there are 6 presses, 1 to 6"),
            ("0", "there are 6 presses, 1 to 6"),
            ("99999999999999999999999", "there are 6 presses, 1 to 6"),
        ];
        for (text, says) in wrong {
            assert_eq!(press(text), Err(says.to_string()), "{text}");
        }
        assert_eq!(
            wanted("2", &["A"]),
            Err("there is 1 press, number 1".to_string())
        );
    }

    #[test]
    fn words() {
        let words = [
            ("undo", Wanted::Undo),
            ("U", Wanted::Undo),
            ("restart", Wanted::Restart),
            ("Back to start", Wanted::Restart),
            ("l", Wanted::List),
            ("?", Wanted::Help),
            ("q", Wanted::Quit),
            ("exit", Wanted::Quit),
        ];
        for (text, word) in words {
            assert_eq!(wanted(text, &HALL), Ok(word), "{text}");
        }
    }

    /// Buttons that are called like words or numbers, like the beginning of others, or the same but for capitals.
    #[test]
    fn odd_names() {
        let names = ["UNDO", "2", "QUIET", "MIC", "MIC 2", "mic", "A, B", "7"];
        let press = |place| Ok(Wanted::Press(place, None));
        for (text, place) in [("undo", 0), ("2", 1), ("MIC", 3), ("mic", 5), ("a, b", 6)] {
            assert_eq!(wanted(text, &names), press(place), "{text}");
        }
        assert_eq!(wanted(":undo", &names), Ok(Wanted::Undo));
        assert_eq!(wanted(": u", &names), Ok(Wanted::Undo));
        assert_eq!(wanted(":2", &names), press(1));
        let says = |text| wanted(text, &names).unwrap_err();
        assert_eq!(says("q"), "this may be QUIET or quit");
        assert_eq!(says("Mic"), "this may be MIC, MIC 2 or mic");
        assert_eq!(pieces("A, B", &names), ["A, B"]);
        assert_eq!(pieces(" mic,, mic 2 ,", &names), ["mic", "mic 2"]);
    }

    /// Every press can be typed again, whatever the buttons are called.
    #[test]
    fn typed_again() {
        let odd = ["A, B", "1", "UNDO", "3.1", "quit", "Mic", "MIC", "2.2"];
        for names in [&HALL[..], &odd] {
            for place in 0..names.len() {
                for which in [None, Some(1), Some(2)] {
                    let text = again((place, which), names);
                    assert_eq!(wanted(&text, names), Ok(Wanted::Press(place, which)));
                    assert_eq!(pieces(&text, names), [text.as_str()]);
                }
            }
        }
        assert_eq!(again((1, None), &HALL), "MIC B");
        assert_eq!(again((1, Some(2)), &HALL), "2.2");
        assert_eq!(again((0, None), &odd), ":1");
    }

    #[test]
    fn starts() {
        assert_eq!(start(" Start : mic on, x = y"), Some("mic on, x = y"));
        assert_eq!(start("start"), None);
        assert_eq!(start(":undo"), None);
    }
}
