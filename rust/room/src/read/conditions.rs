//! Conditions.
use super::{joins_two, meant, not_understood, one_of, Line, Read, Reader, FIRST_WORDS};
use crate::mistake::{Mistake, MOST_SHOWN};
use crate::room::{Cond, Part};
use crate::words::{Word, RESERVED};

/// The most parentheses and nots inside one another.
const MAX_NESTING: usize = 32;

/// The most bytes of a condition: a formula has 1,023, and says more than the condition.
const MAX_SIZE: usize = 1_000;

impl<'a> Reader<'a> {
    /// A condition and the bytes that it takes.
    pub(super) fn condition(&mut self, line: &mut Line<'a, '_>) -> Read<(Cond, usize)> {
        let first = line.words[line.at.min(line.words.len() - 1)];
        let cond = self.joined(line, 0)?;
        let size = self.size(&cond);
        if size > MAX_SIZE {
            return self.wrong(
                &first,
                "this condition is too long, with what its names mean: say it with fewer words"
                    .to_string(),
            );
        }
        Ok((cond, size))
    }

    /// Conditions joined by `and`, or by `or`.
    fn joined(&mut self, line: &mut Line<'a, '_>, depth: usize) -> Read<Cond> {
        let mut conds = vec![self.single(line, depth)?];
        let mut joint: Option<Word> = None;
        while line.is("and") || line.is("or") {
            let word = line.words[line.at];
            if joint.is_some_and(|joint| joint.text != word.text) {
                let says = "\"and\" and \"or\" stand side by side: put parentheses round what belongs together".to_string();
                return self.wrong(&word, says);
            }
            joint = Some(word);
            line.next();
            conds.push(self.single(line, depth)?);
        }
        Ok(match joint.map(|word| word.text) {
            None => conds.remove(0),
            Some("and") => Cond::All(flat(conds, |cond| match cond {
                Cond::All(conds) => Ok(conds),
                cond => Err(cond),
            })),
            Some(_) => Cond::Any(flat(conds, |cond| match cond {
                Cond::Any(conds) => Ok(conds),
                cond => Err(cond),
            })),
        })
    }

    fn single(&mut self, line: &mut Line<'a, '_>, depth: usize) -> Read<Cond> {
        let last = line.last();
        let Some(word) = line.next() else {
            return self.wrong(
                &last,
                format!("a condition is missing after \"{}\"", last.text),
            );
        };
        if depth == MAX_NESTING {
            return self.wrong(
                &word,
                "too many parentheses and nots inside one another".to_string(),
            );
        }
        match word.text {
            "not" => Ok(not(self.single(line, depth + 1)?)),
            "(" => self.parentheses(line, &word, depth),
            text if word.is_name() && !RESERVED.contains(&text) => self.named(line, &word),
            text if RESERVED.contains(&text) && !FIRST_WORDS.contains(&text) => {
                self.wrong(&word, format!("a condition is missing before \"{text}\""))
            }
            _ => self.unexpected(&word),
        }
    }

    fn parentheses(&mut self, line: &mut Line<'a, '_>, opened: &Word, depth: usize) -> Read<Cond> {
        let cond = self.joined(line, depth + 1)?;
        if line.take(")") {
            return Ok(cond);
        }
        match line.peek() {
            Some(word) if !joins_two(word.text) => self.unexpected(&word),
            _ => self.wrong(opened, "this ( has no ) after it".to_string()),
        }
    }

    /// A name in a condition, with what belongs to it.
    fn named(&mut self, line: &mut Line<'a, '_>, name: &Word) -> Read<Cond> {
        if let Some(place) = self
            .room
            .named
            .iter()
            .position(|named| named.name == name.text)
        {
            return Ok(Cond::Named(place));
        }
        let Some(part) = self
            .room
            .parts
            .iter()
            .position(|part| part.name == name.text)
        else {
            self.no_position(line, name)?;
            self.unknown(name)?;
            // What may follow a name is passed over, so that later words get their own say.
            if line.take("=") {
                line.next();
            } else {
                let _ = line.take("on") || line.take("off");
            }
            return Ok(Cond::All(Vec::new()));
        };
        self.part_is(line, part, name)
    }

    /// A part in a condition, with the value that it must have.
    fn part_is(&mut self, line: &mut Line<'a, '_>, part: usize, name: &Word) -> Read<Cond> {
        self.other_signs(line, part, name)?;
        if line.take("=") {
            let value = self.position(Some(part), name, line)?;
            return Ok(Cond::Is(part, value));
        }
        if line.is("on") || line.is("off") {
            let verb = line.words[line.at];
            line.next();
            self.no_selector(Some(part), &verb)?;
            let on = Cond::Is(part, 1);
            return Ok(if verb.text == "on" { on } else { not(on) });
        }
        if self.room.parts[part].is_selector() {
            let selector = &self.room.parts[part];
            let says = format!(
                "\"{0}\" is a selector: write \"{0} = {1}\", or another of {2}",
                selector.name,
                selector.positions[0],
                one_of(selector)
            );
            return self.wrong(name, says);
        }
        Ok(Cond::Is(part, 1))
    }

    /// Tells what to write for "NAME != ..." and "NAME is ...".
    fn other_signs(&mut self, line: &Line<'a, '_>, part: usize, name: &Word) -> Read<()> {
        let Some(sign) = line.peek() else {
            return Ok(());
        };
        let after = line.words.get(line.at + 1);
        let unequal = match (sign.text, after) {
            ("!" | "<", Some(second)) => sign.touches(second) && matches!(second.text, "=" | ">"),
            _ => false,
        };
        if !unequal && sign.text != "is" {
            return Ok(());
        }
        let value = line.words.get(line.at + 1 + usize::from(unequal));
        let value = value.map_or("...", |word| word.text);
        let plain = match self.room.parts[part].is_selector() {
            true => format!("{} = {value}", name.text),
            false if value == "off" => format!("{} off", name.text),
            false => name.text.to_string(),
        };
        let not = if unequal { "not " } else { "" };
        self.wrong(&sign, format!("write \"{not}{plain}\""))
    }

    /// Tells that a word is a position of the selector named last, or else of some selector.
    fn no_position(&mut self, line: &Line<'a, '_>, name: &Word) -> Read<()> {
        // A selector may have very many positions, and later mistakes are only counted.
        if self.mistakes.len() >= MOST_SHOWN {
            return Ok(());
        }
        let has = |part: &&Part| part.positions.iter().any(|position| position == name.text);
        let before = line.words[..line.at - 1].iter().rev();
        let last = before
            .filter_map(|word| self.room.parts.iter().find(|part| part.name == word.text))
            .find(has);
        match last.or(self.room.parts.iter().find(has)) {
            None => Ok(()),
            Some(part) => {
                let selector = &part.name;
                let says = format!(
                    "\"{0}\" is a position of \"{selector}\": write \"{selector} = {0}\"",
                    name.text
                );
                self.wrong(name, says)
            }
        }
    }

    /// Tells that a name is unknown, and which one may be meant. The line is read on.
    pub(super) fn unknown(&mut self, name: &Word) -> Read<()> {
        if !name.is_name() || RESERVED.contains(&name.text) {
            return self.unexpected(name);
        }
        let parts = self.room.parts.iter().map(|part| part.name.as_str());
        let names = parts.chain(self.room.named.iter().map(|named| named.name.as_str()));
        let mut says = format!("nothing here is called \"{}\"", name.text);
        if let Some(word) = meant(name.text) {
            return self.wrong(name, not_understood(name.text, word));
        }
        match (self.declared.get(name.text), self.similar(name.text, names)) {
            (Some(line), _) if *line > name.line => {
                says = format!(
                    "\"{}\" is named further down, on line {line}: move that line up",
                    name.text
                );
            }
            (_, Some(other)) => says += &format!(". Is \"{other}\" meant?"),
            _ => {}
        }
        self.mistakes.push(Mistake::at(name, says));
        Ok(())
    }

    /// The bytes of a condition as a formula.
    fn size(&self, cond: &Cond) -> usize {
        match cond {
            Cond::Is(part, value) => {
                let width = self.room.parts[*part].width;
                (3 * width - 1 - value.count_ones()) as usize
            }
            Cond::Named(place) => self.sizes[*place],
            Cond::Not(cond) => 1 + self.size(cond),
            Cond::All(conds) | Cond::Any(conds) => {
                let sizes = conds.iter().map(|cond| self.size(cond) + 1);
                sizes.sum()
            }
        }
    }
}

/// Not of a condition; twice not is nothing.
fn not(cond: Cond) -> Cond {
    match cond {
        Cond::Not(cond) => *cond,
        cond => Cond::Not(Box::new(cond)),
    }
}

/// A list in which what is of its own kind is taken apart.
fn flat(conds: Vec<Cond>, apart: fn(Cond) -> Result<Vec<Cond>, Cond>) -> Vec<Cond> {
    let lists = conds.into_iter().map(|cond| match apart(cond) {
        Ok(conds) => conds,
        Err(cond) => vec![cond],
    });
    lists.flatten().collect()
}
