//! The start and the presses.
use super::{joined, not_understood, one_of, quoted, strange, Line, Read, Reader};
use crate::mistake::similar;
use crate::room::{Change, Effect, Rule};
use crate::words::Word;

/// Words that people use where "turns over", "on" or "off" is meant.
const VERBS: [&str; 12] = [
    "turn", "turns", "toggle", "toggles", "flip", "flips", "switch", "switches", "invert",
    "inverts", "set", "sets",
];

impl<'a> Reader<'a> {
    pub(super) fn start(&mut self, line: &mut Line<'a, '_>) -> Read<()> {
        let keyword = line.words[0];
        line.next();
        self.colon(line, "start")?;
        if self.started {
            let says = format!(
                "the start has been said already, on line {}",
                self.room.start_line
            );
            return self.wrong(&keyword, says);
        }
        self.started = true;
        self.room.start_line = keyword.line;
        if line.peek().is_none() {
            return self.wrong(
                &keyword,
                "say what is on at the start, or \"all off\", or \"any\"".to_string(),
            );
        }
        if line.take("any") {
            self.room.any_start = true;
            return self.alone(line);
        }
        if line.is("all") && self.all_off(line)? {
            return Ok(());
        }
        let effects = self.effects(line)?;
        self.end(line)?;
        for effect in effects {
            let part = &self.room.parts[effect.part];
            match effect.change {
                Change::Becomes(value) => self.room.start = part.with(self.room.start, value),
                Change::TurnsOver => {
                    let says = format!("at the start \"{}\" is on or off", part.name);
                    return self.wrong(&keyword, says);
                }
            }
        }
        Ok(())
    }

    /// Tells that nothing stands behind `any`.
    fn alone(&mut self, line: &Line<'a, '_>) -> Read<()> {
        match line.peek() {
            None => Ok(()),
            Some(word) => {
                let says = "\"any\" stands alone: the evening may begin in every state";
                self.wrong(&word, says.to_string())
            }
        }
    }

    /// Reads `all off`, and the comma after it; whether that is all.
    fn all_off(&mut self, line: &mut Line<'a, '_>) -> Read<bool> {
        let all = line.words[line.at];
        line.next();
        if !line.take("off") {
            return self.wrong(&all, "write \"all off\", or name what is on".to_string());
        }
        match line.peek() {
            None => Ok(true),
            Some(_) if line.take(",") => Ok(false),
            Some(word) => self.wrong(
                &word,
                format!("a comma is missing before \"{}\"", word.text),
            ),
        }
    }

    pub(super) fn press(&mut self, line: &mut Line<'a, '_>) -> Read<()> {
        let keyword = line.words[0];
        let Some(colon) = line.words.iter().position(|word| word.text == ":") else {
            return self.wrong(
                &keyword,
                "a colon is missing: press NAME: what it does".to_string(),
            );
        };
        if colon == 1 {
            return self.wrong(
                &keyword,
                "say which button: press NAME: what it does".to_string(),
            );
        }
        let press = self.label(&line.words[1..colon])?;
        self.presses.push(press.clone());
        line.at = colon + 1;
        if line.peek().is_none() || line.is("when") {
            let last = line.last();
            return self.wrong(
                &last,
                "say what the press does, such as \"echo on\" or \"mic turns over\"".to_string(),
            );
        }
        let effects = self.effects(line)?;
        self.no_when(line)?;
        let when = match line.take("when") {
            true => Some(self.condition(line)?.0),
            false => None,
        };
        self.end(line)?;
        self.room.rules.push(Rule {
            press,
            line: keyword.line,
            effects,
            when,
        });
        Ok(())
    }

    /// Tells what to write for "if" and its like behind what a press does.
    fn no_when(&mut self, line: &Line<'a, '_>) -> Read<()> {
        let Some(word) = line.peek().filter(|word| word.text != "when") else {
            return Ok(());
        };
        let text = word.text.to_lowercase();
        let others = ["if", "only", "while", "where", "whenever"];
        if text == "unless" {
            let rest = &line.words[line.at + 1..];
            let cond = if rest.is_empty() {
                "...".to_string()
            } else {
                quoted(rest)
            };
            return self.wrong(
                &word,
                format!("a press works or does not: write \"when not {cond}\""),
            );
        }
        if others.contains(&text.as_str()) || similar(&text, ["when"].into_iter()).is_some() {
            return self.wrong(&word, not_understood(word.text, "when"));
        }
        Ok(())
    }

    /// A button's name: any words, one blank between those that do not touch.
    pub(super) fn label(&mut self, words: &[Word]) -> Read<String> {
        let plain = |c: char| c.is_alphanumeric() || c.is_ascii_graphic();
        match words.iter().find(|word| !word.text.chars().all(plain)) {
            Some(word) => self.wrong(word, strange(word.text)),
            None => Ok(joined(words)),
        }
    }

    /// What happens, with commas between.
    fn effects(&mut self, line: &mut Line<'a, '_>) -> Read<Vec<Effect>> {
        let mut effects: Vec<Effect> = Vec::new();
        loop {
            let name = line.peek();
            let effect = self.effect(line)?;
            if let (Some(effect), Some(name)) = (effect, name) {
                if effects.iter().any(|other| other.part == effect.part) {
                    return self.wrong(&name, format!("\"{}\" stands here twice", name.text));
                }
                effects.push(effect);
            }
            self.no_comma(line)?;
            if !line.take(",") {
                return Ok(effects);
            }
        }
    }

    /// Tells that a comma stands between two things that happen.
    fn no_comma(&mut self, line: &Line<'a, '_>) -> Read<()> {
        let Some(word) = line.peek() else {
            return Ok(());
        };
        let at_start = line.words[0].text == "start";
        let says = match word.text.to_lowercase().as_str() {
            "and" | "&" | "+" => "write a comma between two things that happen",
            "or" | "|" if at_start => {
                "the evening begins in one state: write a comma; or \"start: any\" for every state"
            }
            "or" | "|" => {
                "a press does all that its line names: write a comma, or a second line of the same press for the other way"
            }
            _ => return Ok(()),
        };
        self.wrong(&word, says.to_string())
    }

    /// Tells that the name comes first in "toggle NAME", "turn NAME on" and "turn on NAME".
    fn verb_first(&mut self, verb: &Word, line: &Line<'a, '_>) -> Read<()> {
        let text = verb.text.to_lowercase();
        let rest: Vec<&str> = line.words[line.at..].iter().map(|word| word.text).collect();
        let on_or_off = |text: &&str| matches!(*text, "on" | "off");
        let (name, does) = match rest[..] {
            _ if on_or_off(&text.as_str()) => (rest.first(), text.as_str()),
            _ if !VERBS.contains(&text.as_str()) => return Ok(()),
            [does, name, ..] if on_or_off(&does) => (Some(&rest[1]).filter(|_| name != ","), does),
            [_, does, ..] if on_or_off(&does) => (rest.first(), does),
            _ if text.starts_with("set") => (rest.first(), "on"),
            _ => (rest.first(), "turns over"),
        };
        let name = name.copied().unwrap_or("NAME");
        self.wrong(
            verb,
            format!("the name comes first: write \"{name} {does}\""),
        )
    }

    /// One thing that happens; nothing where its name is unknown, which is told.
    fn effect(&mut self, line: &mut Line<'a, '_>) -> Read<Option<Effect>> {
        let Some(name) = line.next() else {
            let last = line.last();
            return self.wrong(
                &last,
                "something is missing here, such as \"echo on\"".to_string(),
            );
        };
        if !self.room.parts.iter().any(|part| part.name == name.text) {
            self.verb_first(&name, line)?;
        }
        let part = self.place_of(&name)?;
        let change = match line.peek().map(|word| word.text) {
            Some("=") => {
                line.next();
                Change::Becomes(self.position(part, &name, line)?)
            }
            Some("on") => Change::Becomes(1),
            Some("off") => Change::Becomes(0),
            Some("turns") => Change::TurnsOver,
            _ => return self.no_change(part, &name, line),
        };
        if line.take("on") || line.take("off") || line.take("turns") {
            let verb = line.last();
            self.no_selector(part, &verb)?;
            if verb.text == "turns" && !line.take("over") {
                return self.wrong(&verb, "write \"turns over\"".to_string());
            }
        }
        Ok(part.map(|part| Effect { part, change }))
    }

    fn no_change(&mut self, part: Option<usize>, name: &Word, line: &Line) -> Read<Option<Effect>> {
        let marked = line.peek().unwrap_or(*name);
        let says = match part.map(|part| &self.room.parts[part]) {
            Some(part) if part.is_selector() => {
                format!(
                    "\"{0}\" is a selector: write \"{0} = {1}\", or another of {2}",
                    part.name,
                    part.positions[0],
                    one_of(part)
                )
            }
            _ if VERBS.contains(&marked.text.to_lowercase().as_str()) => {
                format!("write \"{} turns over\"", name.text)
            }
            _ => format!(
                "say what happens to \"{0}\": {0} on, {0} off or {0} turns over",
                name.text
            ),
        };
        self.wrong(&marked, says)
    }

    pub(super) fn no_selector(&mut self, part: Option<usize>, verb: &Word) -> Read<()> {
        match part.map(|part| &self.room.parts[part]) {
            Some(part) if part.is_selector() => {
                let says = format!(
                    "\"{}\" is a selector and has positions: {}",
                    part.name,
                    one_of(part)
                );
                self.wrong(verb, says)
            }
            _ => Ok(()),
        }
    }

    /// The place of a part that an effect names; none where the name is unknown.
    fn place_of(&mut self, name: &Word) -> Read<Option<usize>> {
        if let Some(place) = self
            .room
            .parts
            .iter()
            .position(|part| part.name == name.text)
        {
            return Ok(Some(place));
        }
        if self.room.named.iter().any(|named| named.name == name.text) {
            return self.wrong(
                name,
                format!(
                    "\"{}\" is no thing and no selector, so no press changes it by name",
                    name.text
                ),
            );
        }
        self.unknown(name)?;
        Ok(None)
    }

    /// The position after `=`, as a number.
    pub(super) fn position(
        &mut self,
        part: Option<usize>,
        name: &Word,
        line: &mut Line<'a, '_>,
    ) -> Read<u32> {
        let Some(word) = line.next() else {
            let last = line.last();
            return self.wrong(&last, format!("a position of \"{}\" is missing", name.text));
        };
        let Some(part) = part.map(|part| &self.room.parts[part]) else {
            return Ok(0);
        };
        if !part.is_selector() {
            let says = format!("\"{}\" is on or off and has no positions", part.name);
            return self.wrong(&word, says);
        }
        match part.positions.iter().position(|text| text == word.text) {
            Some(value) => Ok(value as u32),
            None if word.text == "=" => self.wrong(&word, "write one \"=\"".to_string()),
            None => {
                let says = format!(
                    "\"{}\" has no position \"{}\". It has {}",
                    part.name,
                    word.text,
                    one_of(part)
                );
                self.wrong(&word, says)
            }
        }
    }
}
