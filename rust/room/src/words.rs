//! The words of a room file, each with its place.

/// A word: letters, digits, - and _; or another character by itself.
#[derive(Clone, Copy, Debug, PartialEq, Eq)]
pub struct Word<'a> {
    pub text: &'a str,
    /// Lines and columns are counted from 1; columns in characters.
    pub line: usize,
    pub column: usize,
}

impl Word<'_> {
    /// How many characters it has.
    pub fn width(&self) -> usize {
        self.text.chars().count()
    }

    /// Whether it could be a name.
    pub fn is_name(&self) -> bool {
        self.text.starts_with(char::is_alphabetic)
    }

    /// Whether the other follows without a blank.
    pub fn touches(&self, next: &Word) -> bool {
        self.line == next.line && self.column + self.width() == next.column
    }
}

/// Words that have a meaning of their own, and can be no names.
pub const RESERVED: [&str; 22] = [
    "things", "selector", "start", "press", "means", "never", "always", "possible", "until",
    "unless", "whenever", "when", "and", "or", "not", "on", "off", "turns", "over", "all", "any",
    "expect",
];

/// Begins a comment, up to the end of its line.
const COMMENT: char = '#';

fn in_word(c: char) -> bool {
    c.is_alphanumeric() || c == '-' || c == '_'
}

/// The words of one line of a file.
fn words_of(line: usize, text: &str) -> Vec<Word<'_>> {
    let text = text.split(COMMENT).next().unwrap_or_default();
    let mut words: Vec<Word> = Vec::new();
    let mut inside = false;
    for (column, (at, c)) in text.char_indices().enumerate() {
        let end = at + c.len_utf8();
        match words.last_mut() {
            Some(word) if inside && in_word(c) => {
                let start = at - word.text.len();
                word.text = &text[start..end];
            }
            _ if c.is_whitespace() => {}
            _ => words.push(Word {
                text: &text[at..end],
                line,
                column: column + 1,
            }),
        }
        inside = in_word(c);
    }
    words
}

/// The file's lines with words. A line that begins with a blank goes on with the one before.
pub fn lines(text: &str) -> Vec<Vec<Word<'_>>> {
    let mut lines: Vec<Vec<Word>> = Vec::new();
    for (at, line) in text.lines().enumerate() {
        let words = words_of(at + 1, line);
        match (words.first(), lines.last_mut()) {
            (None, _) => {}
            (Some(word), Some(before)) if word.column > 1 => before.extend(words),
            _ => lines.push(words),
        }
    }
    lines
}

#[cfg(test)]
mod tests {
    use super::lines;

    fn texts(text: &str) -> Vec<Vec<&str>> {
        (lines(text).into_iter())
            .map(|words| words.into_iter().map(|word| word.text).collect())
            .collect()
    }

    #[test]
    fn words_and_other_characters() {
        let line = "press MIC-A:mic_1 on,(x)=é # not this: a";
        let words = [
            "press", "MIC-A", ":", "mic_1", "on", ",", "(", "x", ")", "=", "é",
        ];
        assert_eq!(texts(line), [words]);
        assert_eq!(texts("\u{200b}a"), [["\u{200b}", "a"]]);
        assert!(texts("  \n# a\n\t#b\r\n").is_empty());
    }

    #[test]
    fn lines_that_go_on() {
        let text = "a\n  b # c\n\n# d\n\te\nf\n";
        assert_eq!(texts(text), [vec!["a", "b", "e"], vec!["f"]]);
        assert_eq!(texts("  a\nb"), [["a"], ["b"]]);
    }

    #[test]
    fn places() {
        let text = "é x\r\n\t y";
        let words = lines(text).concat();
        let places: Vec<(usize, usize)> = words.iter().map(|w| (w.line, w.column)).collect();
        assert_eq!(places, [(1, 1), (1, 3), (2, 3)]);
        assert!(!words[0].touches(&words[1]));
        let words = lines("ab:c").concat();
        assert!(words[0].touches(&words[1]) && words[1].touches(&words[2]));
    }
}
