//! A run as a picture (SVG): the things as lines over the presses. A bar is on, a thin line is off, a selector's box has its
//! position, a dot marks a change; a frame marks the moment that the run is shown for. What never changes is left out.
use crate::ask::press;
use crate::echo;
use crate::html::escaped;
use crate::room::{Part, Room};
use crate::walk::{End, Run};
use std::ops::Range;

/// A run of more presses is not shown whole: so many from its start, and from its end.
const MOST: usize = 40;
const FIRST: usize = 24;
const LAST: usize = 8;

/// About as many pixels as a printed page has side by side; a longer run goes on below. And as many as the longest words in the
/// foot need.
const WIDEST: usize = 700;
const LEAST: usize = 300;

/// Sizes in pixels: a letter, the least column, a line of text, the heading, a row, and what is drawn in it.
const LETTER: usize = 8;
const NARROWEST: usize = 60;
const LINE: usize = 16;
const HEAD: usize = 2 * LINE + 8;
const ROW: usize = 28;
const BAR: usize = 18;

/// The most letters of a name; the words beside the picture have all of them.
const MOST_LETTERS: usize = 16;

/// The part of a run that is drawn side by side, from one of its states to another; and how many presses are left out before it.
#[derive(Clone, Copy, Debug, Default, PartialEq, Eq)]
pub struct Band {
    pub from: usize,
    pub to: usize,
    pub left_out: usize,
}

impl Band {
    fn has(&self, at: usize) -> bool {
        (self.from..=self.to).contains(&at)
    }
}

/// The things that change in a run, and those that do not; where none does, all are drawn.
fn changing<'a>(room: &'a Room, run: &Run) -> (Vec<&'a Part>, Vec<&'a Part>) {
    let first = run.states[0];
    let changes =
        |part: &&Part| (run.states.iter()).any(|&state| part.value(state) != part.value(first));
    let (changing, still): (Vec<&Part>, Vec<&Part>) = room.parts.iter().partition(changes);
    match changing.is_empty() {
        true => (still, Vec::new()),
        false => (changing, still),
    }
}

/// What is not drawn, since it does not change in the run, in words.
pub fn still(room: &Room, run: &Run) -> String {
    let (_, still) = changing(room, run);
    let values = still
        .iter()
        .map(|part| echo::value(part, part.value(run.states[0])));
    values.collect::<Vec<_>>().join(", ")
}

/// A run that is drawn.
pub struct Picture<'a> {
    room: &'a Room,
    run: &'a Run,
    rows: Vec<&'a Part>,
    /// Whether the run shows that something can be, and nothing bad.
    good: bool,
    /// The width of the names, and of each state's column.
    label: usize,
    columns: Vec<usize>,
}

impl<'a> Picture<'a> {
    pub fn new(room: &'a Room, run: &'a Run, good: bool) -> Picture<'a> {
        let (rows, _) = changing(room, run);
        let names = rows.iter().map(|part| pixels(&part.name));
        let mut picture = Picture {
            room,
            run,
            label: names.max().unwrap_or(0) + 12,
            rows,
            good,
            columns: Vec::new(),
        };
        let all = 0..run.states.len();
        picture.columns = all.map(|at| picture.column(at)).collect();
        picture
    }

    /// The width of a state's column.
    fn column(&self, at: usize) -> usize {
        let positions = self.rows.iter().map(|part| self.look(part, at, true).1);
        let texts = positions.chain([self.heading(at), format!("after {at}")]);
        let widest = texts.map(|text| pixels(&text)).max().unwrap_or(0);
        NARROWEST.max(widest + 14)
    }

    fn last(&self) -> usize {
        self.run.states.len() - 1
    }

    /// The parts of the run that are drawn one below the other.
    pub fn bands(&self, whole: bool) -> Vec<Band> {
        let presses = self.last();
        let shown = match whole || presses <= MOST {
            true => vec![(0, presses)],
            false => vec![(0, FIRST), (presses - LAST, presses)],
        };
        let mut bands: Vec<Band> = Vec::new();
        for (begin, end) in shown {
            let mut from = begin;
            while from < end || presses == 0 && bands.is_empty() {
                let to = self.end_of_band(from, end);
                let left_out = from - bands.last().map_or(from, |band| band.to);
                bands.push(Band { from, to, left_out });
                from = to;
            }
        }
        bands
    }

    /// The last state, up to one, that fits beside another; that after one press always does.
    fn end_of_band(&self, from: usize, end: usize) -> usize {
        let mut to = end.min(from + 1);
        let mut wide = self.label + self.columns[from..=to].iter().sum::<usize>();
        while to < end && wide + self.columns[to + 1] <= WIDEST {
            to += 1;
            wide += self.columns[to];
        }
        to
    }

    /// The name above a state: the press that leads to it.
    fn heading(&self, at: usize) -> String {
        let states = &self.run.states;
        match at {
            0 => "start".to_string(),
            _ => {
                press(self.room, states[at - 1], states[at]).map_or("?".to_string(), str::to_string)
            }
        }
    }

    /// The left edge of a state's column.
    fn x(&self, band: Band, at: usize) -> usize {
        self.label + self.columns[band.from..at].iter().sum::<usize>()
    }

    /// One band as a drawing.
    pub fn drawn(&self, band: Band, title: &str) -> String {
        let bottom = HEAD + self.rows.len() * ROW;
        let wide = LEAST.max(self.x(band, band.to + 1) + 2);
        let foot = self.foot(band, bottom);
        // Two lines where an arrow or a second text stands there.
        let lines = foot.matches("<text").count() + foot.matches("\"back\"").count();
        let high = bottom + lines * LINE + if lines > 0 { 8 } else { 2 };
        let mut svg = format!(
            "<svg xmlns=\"http://www.w3.org/2000/svg\" role=\"img\" width=\"{wide}\" height=\"{high}\" \
             viewBox=\"0 0 {wide} {high}\">\n<title>{}</title>\n",
            escaped(title)
        );
        for at in band.from..=band.to {
            svg += &self.column_drawn(band, at, bottom);
        }
        for (row, part) in self.rows.iter().enumerate() {
            svg += &self.row_drawn(band, part, HEAD + row * ROW + ROW / 2);
        }
        svg + &foot + "</svg>\n"
    }

    /// The kind of frame that a state's column has.
    fn frame(&self, at: usize) -> Option<&'static str> {
        match self.run.end {
            _ if at == self.last() => Some(if self.good { "good" } else { "bad" }),
            End::Circle(place) | End::LostSince(place) if at == place => Some("from"),
            _ => None,
        }
    }

    /// A state's column: its frame where it has one, its line, and the press above it.
    fn column_drawn(&self, band: Band, at: usize, bottom: usize) -> String {
        let x = self.x(band, at);
        let mut svg = String::new();
        if let Some(class) = self.frame(at) {
            let (left, width) = (x + 1, self.columns[at] - 2);
            svg += &format!(
                "<rect class=\"{class}\" x=\"{left}\" y=\"1\" width=\"{width}\" height=\"{bottom}\"/>\n"
            );
        }
        svg += &format!("<path class=\"grid\" d=\"M{x} 4V{bottom}\"/>\n");
        let (number, name) = match at {
            0 => (String::new(), self.heading(at)),
            _ if at == band.from => (format!("after {at}"), String::new()),
            _ => (at.to_string(), self.heading(at)),
        };
        svg += &text("number", x + 6, LINE, &number);
        svg + &text("press", x + 6, 2 * LINE, &name)
    }

    /// A part's line over the presses, at a height.
    fn row_drawn(&self, band: Band, part: &Part, middle: usize) -> String {
        let value = |at: usize| part.value(self.run.states[at]);
        let mut svg = text("name", 0, middle + 4, &part.name);
        let mut from = band.from;
        for at in band.from..=band.to {
            if at == band.to || value(at + 1) != value(at) {
                svg += &self.stretch(band, part, from..at + 1, middle);
                from = at + 1;
            }
        }
        svg
    }

    /// A stretch of states in which a part stays as it is. It has just changed, but for the first of a band.
    fn stretch(&self, band: Band, part: &Part, states: Range<usize>, middle: usize) -> String {
        let changed = states.start > band.from;
        let (x, end) = (self.x(band, states.start), self.x(band, states.end));
        let (class, says) = self.look(part, states.start, changed);
        let mut svg = match class {
            // The word stands in a gap of the line.
            "off" if changed => {
                let (gap, on) = (x + 6, x + 11 + LETTER * says.len());
                format!("<path class=\"off\" d=\"M{x} {middle}H{gap}M{on} {middle}H{end}\"/>\n")
            }
            "off" => format!("<path class=\"off\" d=\"M{x} {middle}H{end}\"/>\n"),
            _ => format!(
                "<rect class=\"{class}\" x=\"{x}\" y=\"{}\" width=\"{}\" height=\"{BAR}\"/>\n",
                middle - BAR / 2,
                end - x
            ),
        };
        if changed {
            svg += &format!("<circle class=\"change\" cx=\"{x}\" cy=\"{middle}\" r=\"5\"/>\n");
        }
        let word = format!("in-{class}{}", if changed { " new" } else { "" });
        svg + &text(&word, x + 9, middle + 4, &says)
    }

    /// How a part looks in a state, and the word in it: of a thing that is off, only where it has just changed.
    fn look(&self, part: &Part, at: usize, changed: bool) -> (&'static str, String) {
        let value = part.value(self.run.states[at]);
        match (part.is_selector(), value) {
            (true, _) => ("at", part.positions[value as usize].clone()),
            (false, 0) => ("off", if changed { "off" } else { "" }.to_string()),
            (false, _) => ("on", "on".to_string()),
        }
    }

    /// Below the columns: what they are framed for.
    fn foot(&self, band: Band, bottom: usize) -> String {
        let (first, second) = (bottom + LINE + 2, bottom + 2 * LINE + 2);
        let ends_here = band.to == self.last();
        let mut svg = match self.run.end {
            End::Circle(place) if ends_here => return self.back(band, place, bottom),
            End::Circle(place) if band.has(place) => {
                self.says(band, place, first, "\u{21ba} comes back here")
            }
            End::LostSince(place) if band.has(place) && place < self.last() => {
                self.says(band, place, first, "since here")
            }
            _ => String::new(),
        };
        if ends_here {
            let says = match self.good {
                true => "\u{2713} reached here",
                false => "\u{2717} broken here",
            };
            let y = if svg.is_empty() { first } else { second };
            svg += &self.says(band, band.to, y, says);
        }
        svg
    }

    /// Words below a column: from its left edge on, or up to its right edge, or from the picture's left edge on, as there is room.
    fn says(&self, band: Band, at: usize, y: usize, words: &str) -> String {
        let width = letters(words) * LETTER;
        let (left, right) = (self.x(band, at) + 4, self.x(band, at + 1) - 4);
        let (class, x) = match left + width <= self.x(band, band.to + 1) {
            true => ("says", left),
            false if width <= right => ("says end", right),
            false => ("says", 0),
        };
        text(class, x, y, words)
    }

    /// The arrow from the last state to the one that it is again, or to the left edge where that stands further up.
    fn back(&self, band: Band, place: usize, bottom: usize) -> String {
        let centre = |at: usize| self.x(band, at) + self.columns[at] / 2;
        let (from, low) = (centre(band.to), bottom + 10);
        let (to, head, where_to) = match band.has(place) {
            true => {
                let to = centre(place);
                let head = format!("M{} {low}L{to} {}L{} {low}Z", to - 5, bottom + 2, to + 5);
                (to, head, String::new())
            }
            false => {
                let (to, edge) = (self.label, self.label + 8);
                let head = format!("M{edge} {}L{to} {low}L{edge} {}Z", low - 5, low + 5);
                (to, head, format!("to: after {place}, "))
            }
        };
        let arrow = format!("M{from} {}V{low}H{to}", bottom + 1);
        let words = format!("\u{21ba} {where_to}and so on for ever");
        format!(
            "<path class=\"back\" d=\"{arrow}\"/>\n<path class=\"head\" d=\"{head}\"/>\n{}",
            self.says(band, band.to, bottom + 2 * LINE, &words)
        )
    }
}

/// A text, where there is one; a long one is cut.
fn text(class: &str, x: usize, y: usize, says: &str) -> String {
    let says = match class.starts_with("says") {
        true => says.to_string(),
        false => cut(says),
    };
    match says.is_empty() {
        true => String::new(),
        false => format!(
            "<text class=\"{class}\" x=\"{x}\" y=\"{y}\">{}</text>\n",
            escaped(&says)
        ),
    }
}

/// How wide a name is drawn.
fn pixels(name: &str) -> usize {
    letters(&cut(name)) * LETTER
}

/// How many letters wide a text is, where those of East Asia take two.
fn letters(text: &str) -> usize {
    let wide = |c: char| matches!(c, '\u{1100}'..='\u{11ff}' | '\u{2e80}'..='\u{d7ff}' | '\u{f900}'..='\u{faff}' | '\u{ff00}'..='\u{ff60}');
    text.chars().map(|c| 1 + usize::from(wide(c))).sum()
}

/// The beginning of a long name.
fn cut(name: &str) -> String {
    if letters(name) <= MOST_LETTERS {
        return name.to_string();
    }
    let mut short = String::new();
    for c in name.chars() {
        short.push(c);
        if letters(&short) >= MOST_LETTERS {
            short.pop();
            break;
        }
    }
    short + "\u{2026}"
}

#[cfg(test)]
mod tests {
    use super::{cut, letters, Band, Picture};
    use crate::read::read;
    use crate::room::Room;
    use crate::walk::{End, Run};

    /// A room whose presses count, and the run of so many presses.
    fn counting(presses: u32) -> (Room, Run) {
        let room =
            read("things: a b c d e f g h i j\nstart: all off\npress P: a on\nnever a\n").unwrap();
        let states = (0..=presses).collect();
        let (end, least) = (End::Reached, true);
        (room, Run { states, end, least })
    }

    fn bands(presses: u32, whole: bool) -> Vec<Band> {
        let (room, run) = counting(presses);
        Picture::new(&room, &run, false).bands(whole)
    }

    #[test]
    fn every_press_stands_in_one_band() {
        let band = |from, to, left_out| Band { from, to, left_out };
        assert_eq!(bands(0, false), [band(0, 0, 0)]);
        assert_eq!(bands(1, false), [band(0, 1, 0)]);
        for presses in [9, 10, 11, 40, 41, 300] {
            for (bands, whole) in [
                (bands(presses, true), true),
                (bands(presses, false), presses <= 40),
            ] {
                let drawn: usize = bands.iter().map(|band| band.to - band.from).sum();
                let left_out: usize = bands.iter().map(|band| band.left_out).sum();
                assert_eq!(drawn + left_out, presses as usize);
                assert_eq!(left_out == 0, whole, "{presses}");
                let last = bands.last().unwrap();
                assert_eq!((bands[0].from, last.to), (0, presses as usize));
            }
        }
        let left_out: Vec<usize> = bands(300, false).iter().map(|band| band.left_out).collect();
        assert_eq!(
            left_out
                .iter()
                .filter(|count| **count > 0)
                .collect::<Vec<_>>(),
            [&268]
        );
    }

    #[test]
    fn long_names() {
        assert_eq!(cut("0123456789abcdef"), "0123456789abcdef");
        assert_eq!(cut("0123456789abcdefg"), "0123456789abcde\u{2026}");
        assert_eq!(letters(&cut("麦克风一二三四五六七")), 15);
    }
}
