//! Questions that are expected to be broken: `expect BROKEN: never howl`.
use super::{not_understood, Line, Read, Reader};
use crate::mistake::similar;
use crate::words::Word;

/// The verdict that can be expected, as the answer writes it.
const BROKEN: &str = "BROKEN";

/// The words that begin a line and no question.
const NO_QUESTIONS: [&str; 5] = ["things", "selector", "start", "press", "expect"];

/// Whether words are `expect BROKEN:`, so that a question comes next, on the line below too.
pub(super) fn awaits_a_question(words: &[Word]) -> bool {
    let texts = words.iter().map(|word| word.text);
    texts.eq(["expect", BROKEN, ":"])
}

impl<'a> Reader<'a> {
    pub(super) fn expect(&mut self, line: &mut Line<'a, '_>) -> Read<()> {
        let keyword = line.words[0];
        line.next();
        self.verdict(line, &keyword)?;
        self.colon(line, BROKEN)?;
        let words = &line.words[line.at..];
        let Some(first) = words.first() else {
            let last = line.last();
            return self.wrong(&last, "a question is missing after this".to_string());
        };
        let second = words.get(1).map_or("", |word| word.text);
        if NO_QUESTIONS.contains(&first.text) || second == "means" {
            let says = "\"expect BROKEN:\" stands before a question, such as \"never howl\"";
            return self.wrong(first, says.to_string());
        }
        let place = self.room.questions.len();
        self.line(Line { words, at: 0 })?;
        if let Some(question) = self.room.questions.get_mut(place) {
            question.line = keyword.line;
            question.expect_broken = true;
        }
        Ok(())
    }

    /// The verdict behind `expect`.
    fn verdict(&mut self, line: &mut Line<'a, '_>, keyword: &Word) -> Read<()> {
        if line.take(BROKEN) {
            return Ok(());
        }
        let word = line.peek().unwrap_or(*keyword);
        let says = match word.text.to_uppercase().as_str() {
            "SAFE" => "every question is expected to be SAFE: leave these words away".to_string(),
            text if similar(text, [BROKEN].into_iter()).is_some() => {
                not_understood(word.text, BROKEN)
            }
            _ => "write \"expect BROKEN: ...\", with the question behind it".to_string(),
        };
        self.wrong(&word, says)
    }
}
