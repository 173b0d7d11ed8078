//! What is wrong with a room file: the line, the word, and what to do.
use crate::words::Word;

/// At most so many mistakes are shown.
pub const MOST_SHOWN: usize = 20;

#[derive(Clone, Debug, PartialEq, Eq)]
pub struct Mistake {
    /// The line and column, counted from 1, and how many characters are meant; line 0 is the whole
    /// file.
    pub line: usize,
    pub column: usize,
    pub width: usize,
    pub says: String,
}

impl Mistake {
    /// A mistake at a word.
    pub fn at(word: &Word, says: String) -> Mistake {
        Mistake {
            line: word.line,
            column: word.column,
            width: word.width(),
            says,
        }
    }

    /// A mistake of a line as a whole.
    pub fn line(line: usize, says: String) -> Mistake {
        Mistake {
            line,
            column: 1,
            width: 0,
            says,
        }
    }

    /// Something that the file lacks.
    pub fn file(says: &str) -> Mistake {
        Mistake::line(0, says.to_string())
    }

    /// The message for a file of that name and text: where and what, the line, and a mark below the
    /// word.
    pub fn shown(&self, name: &str, text: &str) -> String {
        if self.line == 0 {
            return format!("{name}: {}\n", self.says);
        }
        let source = text.lines().nth(self.line - 1).unwrap_or_default();
        let visible: String = (source.chars())
            .map(|c| {
                if c.is_whitespace() || c.is_control() {
                    ' '
                } else {
                    c
                }
            })
            .collect();
        let mut shown = format!("{name}, line {}: {}\n", self.line, self.says);
        shown += &format!("    {}\n", visible.trim_end());
        if self.width > 0 {
            let before = " ".repeat(self.column - 1);
            shown += &format!("    {before}{}\n", "^".repeat(self.width));
        }
        shown
    }
}

/// The longest word that is compared with names.
const LONGEST: usize = 40;

/// The name among those given that is most like the word, and so may be meant: up to half of the characters are others, and
/// three at most.
pub fn similar<'a>(word: &str, names: impl Iterator<Item = &'a str>) -> Option<&'a str> {
    let length = word.chars().count();
    let most = (length.max(4) / 2).min(3);
    let near = names
        .filter(|name| length <= LONGEST && name.chars().count().abs_diff(length) <= most)
        .map(|name| (distance(word, name), name));
    let (apart, name) = near.min_by_key(|&(apart, _)| apart)?;
    (apart <= most).then_some(name)
}

/// How many characters must be put in, taken out, exchanged, or swapped with their neighbour; capitals count as small letters.
fn distance(a: &str, b: &str) -> usize {
    let small = |text: &str| -> Vec<char> { text.to_lowercase().chars().collect() };
    let (a, b) = (small(a), small(b));
    // The distances of the first characters of both.
    let mut of: Vec<Vec<usize>> = vec![(0..=b.len()).collect()];
    for i in 1..=a.len() {
        let mut row = vec![i];
        for j in 1..=b.len() {
            let exchanged = of[i - 1][j - 1] + usize::from(a[i - 1] != b[j - 1]);
            let mut least = exchanged.min(of[i - 1][j] + 1).min(row[j - 1] + 1);
            if i > 1 && j > 1 && a[i - 1] == b[j - 2] && a[i - 2] == b[j - 1] {
                least = least.min(of[i - 2][j - 2] + 1);
            }
            row.push(least);
        }
        of.push(row);
    }
    of[a.len()][b.len()]
}

#[cfg(test)]
mod tests {
    use super::{distance, similar, Mistake};

    #[test]
    fn distances() {
        let cases = [
            ("", "", 0),
            ("echo", "echo", 0),
            ("ecko", "echo", 1),
            ("eco", "echo", 1),
        ];
        for (a, b, apart) in cases {
            assert_eq!(distance(a, b), apart);
            assert_eq!(distance(b, a), apart);
        }
        assert_eq!(distance("MIC-a", "mic-A"), 0);
        assert_eq!(distance("kitten", "sitting"), 3);
        assert_eq!(distance("maens", "means"), 1);
    }

    #[test]
    fn names_that_may_be_meant() {
        let names = || ["mic-A", "mic-B", "echo"].into_iter();
        assert_eq!(similar("ecko", names()), Some("echo"));
        assert_eq!(similar("trumpet", names()), None);
        assert_eq!(similar("mic_B", names()), Some("mic-B"));
        assert_eq!(similar("mic", names()), Some("mic-A"));
        let long = "a".repeat(500_000);
        assert_eq!(similar(&long, [long.as_str()].into_iter()), None);
    }

    #[test]
    fn shown_with_a_mark() {
        let mistake = Mistake {
            line: 2,
            column: 2,
            width: 3,
            says: "no".into(),
        };
        let shown = mistake.shown("a.room", "x\n\tbad word \r\ny");
        assert_eq!(shown, "a.room, line 2: no\n     bad word\n     ^^^\n");
        assert_eq!(Mistake::file("no").shown("a", ""), "a: no\n");
    }
}
