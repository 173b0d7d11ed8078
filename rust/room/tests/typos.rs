//! Every single-character change of a room of 40 lines: it is refused, or it changes nothing, or the reading back by
//! `--echo` changes. What is not seen in the reading back must mean exactly the same.
use room::echo::echo;
use room::read::read;
use room::room::{Asked, Room};
use room::sense;
use room::walk::{members, Walk};

const TEXT: &str = include_str!("../../../examples/booth.room");

/// A room with the kinds of lines that the booth has not.
const SHORT: &str = "\
things: mic song
start: any
press ON: song on when not mic
press MIC: mic turns over
possible: mic and song
whenever mic: mic unless song
mic unless song
ON works whenever not (mic or song)
expect BROKEN: never mic
";

/// What may be typed: all of ASCII that has a key, and some more.
fn typed() -> impl Iterator<Item = char> {
    (' '..='~').chain(['\t', '\n', 'é', '\u{a0}', '\u{200b}'])
}

/// What a room says, without a word of its file but the names: the states, each press in each state, the start and the sets
/// that are asked about.
fn meaning(room: &Room) -> String {
    let parts: Vec<(&str, &[String])> = room
        .parts
        .iter()
        .map(|part| (part.name.as_str(), part.positions.as_slice()))
        .collect();
    let walk = Walk::new(room);
    let mut said = format!("{parts:?} {:?}\n", members(&walk.starts));
    for rule in &room.rules {
        let steps: Vec<(u32, u32)> = (members(&walk.exists).into_iter())
            .filter_map(|state| Some((state, room.pressed(rule, state)?)))
            .collect();
        said += &format!("{} {steps:?}\n", rule.press);
    }
    for question in &room.questions {
        let set = |cond| members(&walk.set(room, cond));
        said += &format!("expect broken: {} ", question.expect_broken);
        said += &match &question.asked {
            Asked::Never(x) => format!("never {:?}\n", set(x)),
            Asked::AlwaysPossible(x) => format!("always possible {:?}\n", set(x)),
            Asked::Until(x, y) => format!("{:?} until {:?}\n", set(x), set(y)),
            Asked::Unless(x, y) => format!("{:?} unless {:?}\n", set(x), set(y)),
            Asked::Possible(x) => format!("possible {:?}\n", set(x)),
            Asked::Whenever(x, y, z) => {
                format!("whenever {:?} {:?} unless {:?}\n", set(x), set(y), set(z))
            }
            Asked::Works(press, x) => format!("{press} works {:?}\n", set(x)),
        };
    }
    said
}

/// A room without the lines of its file.
fn unplaced(mut room: Room) -> Room {
    room.parts.iter_mut().for_each(|part| part.line = 0);
    room.named.iter_mut().for_each(|named| named.line = 0);
    room.rules.iter_mut().for_each(|rule| rule.line = 0);
    room.questions
        .iter_mut()
        .for_each(|question| question.line = 0);
    room.start_line = 0;
    room
}

#[derive(Default, Debug)]
struct Counts {
    refused: usize,
    nothing: usize,
    seen: usize,
}

/// The room, its reading back and what it says.
struct Original {
    text: &'static str,
    room: Room,
    reading: String,
    meant: String,
}

impl Original {
    fn new(text: &'static str) -> Original {
        let room = unplaced(read(text).expect("the room is a good one"));
        let (reading, meant) = (echo(&room), meaning(&room));
        Original {
            text,
            room,
            reading,
            meant,
        }
    }

    /// What comes of a changed text.
    fn look(&self, changed: &str, counts: &mut Counts) {
        let room = match read(changed) {
            Ok(room) => unplaced(room),
            Err(_) => return counts.refused += 1,
        };
        if room == self.room {
            return counts.nothing += 1;
        }
        if !sense::mistakes(&room).is_empty() {
            return counts.refused += 1;
        }
        if echo(&room) != self.reading {
            return counts.seen += 1;
        }
        counts.nothing += 1;
        assert_eq!(meaning(&room), self.meant, "{changed}");
    }

    /// Every change at one character: it is taken out, another is put before it, or it is exchanged.
    fn changes(&self, at: usize, c: char, counts: &mut Counts) {
        let (before, after) = (&self.text[..at], &self.text[at + c.len_utf8()..]);
        self.look(&format!("{before}{after}"), counts);
        for new in typed() {
            self.look(&format!("{before}{new}{c}{after}"), counts);
            if new != c {
                self.look(&format!("{before}{new}{after}"), counts);
            }
        }
    }
}

/// What comes of every change of one character.
fn all_changes(text: &'static str) -> Counts {
    let original = Original::new(text);
    let places: Vec<(usize, char)> = text.char_indices().collect();
    let threads = std::thread::available_parallelism().map_or(1, usize::from);
    let work = |first: usize| {
        let mut counts = Counts::default();
        let own = places.iter().skip(first).step_by(threads);
        own.for_each(|&(at, c)| original.changes(at, c, &mut counts));
        counts
    };
    let counts = std::thread::scope(|scope| {
        let work = &work;
        let started: Vec<_> = (0..threads)
            .map(|first| scope.spawn(move || work(first)))
            .collect();
        let done = started
            .into_iter()
            .map(|thread| thread.join().expect("no change fails"));
        done.fold(Counts::default(), |sum, counts| Counts {
            refused: sum.refused + counts.refused,
            nothing: sum.nothing + counts.nothing,
            seen: sum.seen + counts.seen,
        })
    });
    println!("{counts:?}");
    counts
}

#[test]
fn single_characters() {
    assert_eq!(TEXT.lines().count(), 40);
    let counts = all_changes(TEXT);
    // Most of what changes nothing stands in comments.
    assert!(
        counts.refused > counts.seen && counts.seen > 1_000,
        "{counts:?}"
    );
}

/// The same for a short room with every kind of line that the booth has not.
#[test]
fn single_characters_of_other_lines() {
    let counts = all_changes(SHORT);
    assert!(
        counts.refused > counts.seen && counts.seen > 500,
        "{counts:?}"
    );
}

/// The reading back is a room file itself, and says the same.
#[test]
fn read_back() {
    for text in [
        TEXT,
        include_str!("../../../examples/hall.room"),
        include_str!("../../../examples/mended.room"),
        include_str!("../../../examples/bar.room"),
        include_str!("../../../examples/stage.room"),
        SHORT,
    ] {
        let room = read(text).expect("the room is a good one");
        let again = read(&echo(&room)).expect("what is read back can be read");
        assert_eq!(echo(&again), echo(&room));
        assert_eq!(meaning(&again), meaning(&room));
    }
}
