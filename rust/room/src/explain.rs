//! What is wrong with records: why one is refused, and where that is its formula's fault, the byte.
use crate::records::ROOMRULES_WORDS;
use kudzuclamp::{play, Fault, Refusal, Table};

/// The first byte of a formula in its record: after length, version, operation, place; in a set after the rounds too.
const RELATION: u8 = 2;
const SET: u8 = 3;
const RELATION_ARGUMENTS: usize = 5;
const SET_ARGUMENTS: usize = 9;

/// Bytes, and the line of the file that each stands on; none where the file has bytes itself.
struct Source {
    bytes: Vec<u8>,
    lines: Option<Vec<usize>>,
}

impl Source {
    /// Hexadecimal with comments, or bytes where the file is no text.
    fn read(file: &[u8]) -> Result<Source, String> {
        let text =
            |byte: &u8| byte.is_ascii_graphic() || byte.is_ascii_whitespace() || *byte >= 0x80;
        if !file.iter().all(text) {
            return Ok(Source {
                bytes: file.to_vec(),
                lines: None,
            });
        }
        let (mut bytes, mut lines) = (Vec::new(), Vec::new());
        for (at, line) in String::from_utf8_lossy(file).lines().enumerate() {
            for word in line
                .split('#')
                .next()
                .unwrap_or_default()
                .split_whitespace()
            {
                let hex = word.len() == 2 && word.bytes().all(|byte| byte.is_ascii_hexdigit());
                let byte = u8::from_str_radix(word, 16).ok().filter(|_| hex);
                bytes.push(byte.ok_or(format!(
                    "line {}: \"{word}\" is no byte of two hexadecimal digits",
                    at + 1
                ))?);
                lines.push(at + 1);
            }
        }
        let lines = Some(lines);
        Ok(Source { bytes, lines })
    }

    /// Where a byte stands, for a message.
    fn place(&self, at: usize) -> String {
        match self
            .lines
            .as_ref()
            .map(|lines| lines.get(at).or(lines.last()))
        {
            Some(Some(line)) => format!("line {line}"),
            _ => format!("byte {at} of the file"),
        }
    }
}

/// What came of a file of records, a line for each refused one, and whether all were answered.
pub fn explain(file: &[u8]) -> (String, bool) {
    let source = match Source::read(file) {
        Ok(source) => source,
        Err(says) => return (says + "\n", false),
    };
    let mut words = vec![0; ROOMRULES_WORDS];
    let mut text = String::new();
    let (mut at, mut count, mut refused) = (0, 0, 0);
    while at < source.bytes.len() {
        count += 1;
        let Some(record) = record(&source.bytes[at..]) else {
            text += &format!("{}: record {count} cannot be read: it is cut short, or its length is out of range. Nothing after it is read\n", source.place(at));
            return (text, false);
        };
        match play(&mut words, record).map(|outcomes| outcomes[0].refusal) {
            Err(_) => {
                text += &format!("{}: record {count} cannot be read: its version, operation or arguments are wrong. Nothing after it is read\n", source.place(at));
                return (text, false);
            }
            Ok(None) => {}
            Ok(Some(refusal)) => {
                refused += 1;
                text += &format!(
                    "{}: record {count} is refused with {}: {refusal}\n",
                    source.place(at),
                    refusal.number()
                );
                text += &place_of_fault(&source, at, record, fault(&words, record, refusal));
            }
        }
        at += record.len();
    }
    text += &format!(
        "{count} records: {} answered, {refused} refused\n",
        count - refused
    );
    (text, refused == 0)
}

/// The first record of some bytes, by its length.
fn record(bytes: &[u8]) -> Option<&[u8]> {
    let length = usize::from(*bytes.first()?) * 256 + usize::from(*bytes.get(1)?);
    bytes.get(..2 + length)
}

/// Where the formula of a record begins; none where it has none.
fn formula_start(record: &[u8]) -> Option<usize> {
    match record.get(3) {
        Some(&RELATION) => Some(RELATION_ARGUMENTS),
        Some(&SET) => Some(SET_ARGUMENTS),
        _ => None,
    }
}

/// What is wrong with the formula of a record that was refused. Such a refusal has changed no word, so the table is the one that
/// refused it.
fn fault(words: &[u32], record: &[u8], refusal: Refusal) -> Option<Fault> {
    let formula = &record[formula_start(record)?..];
    let table = Table::over(words).ok()?;
    let checked = match record[3] {
        RELATION => table.check_relation(formula),
        _ => table.check_set(formula),
    };
    let refused = checked.err().filter(|refused| *refused == refusal);
    refused?.fault()
}

/// A line with the place of a fault, where there is one.
fn place_of_fault(source: &Source, at: usize, record: &[u8], fault: Option<Fault>) -> String {
    let (Some(start), Some(fault)) = (formula_start(record), fault) else {
        return String::new();
    };
    let place = start + fault.at;
    let byte = record.get(place).map(|byte| format!(", {byte:02X}"));
    format!(
        "    {}, byte {place} of the record{}: {}\n",
        source.place(at + place),
        byte.unwrap_or_default(),
        fault.kind
    )
}

#[cfg(test)]
mod tests {
    use super::explain;

    #[test]
    fn places_in_records() {
        let text = "00 05 01 01 02 00 64 # fresh\n# set\n00 0D 01 03 00 00 00 00 00\n00 04 01 03 10 12\n00 02 01 06";
        let (said, answered) = explain(text.as_bytes());
        let expected =
            "line 3: record 2 is refused with 4: the bytes are no formula for this call\n    \
                        line 4, byte 14 of the record, 12: there is no bit 2: they are 0 to 1\n\
                        3 records: 2 answered, 1 refused\n";
        assert_eq!((said.as_str(), answered), (expected, false));
    }

    /// The place is told of every refusal that is the formula's: 4, 5, 12, 6 and 7.
    #[test]
    fn places_of_all_refusals() {
        let cases: [(&str, &str); 7] = [
            ("30", "byte 12 of the record, 30: variable 0 is not bound"),
            (
                "70 70 30",
                "byte 13 of the record, 70: variable 0 is bound inside its own binder",
            ),
            (
                "70 10",
                "byte 12 of the record, 70: variable 0 is bound, and its body does not mention it",
            ),
            (
                "70 02 30",
                "byte 14 of the record, 30: variable 0 is read below an odd number of NOTs",
            ),
            ("03 10 45", "byte 14 of the record, 45: register 5 is empty"),
            ("61 10", "byte 12 of the record, 61: relation 1 is empty"),
            (
                "03 10",
                "byte 14 of the record: the bytes end, and the formula is not complete",
            ),
        ];
        for (formula, says) in cases {
            let bytes = formula.split(' ').count();
            let text = format!(
                "00 05 01 01 02 00 64\n00 {:02X} 01 03 00 00 00 00 09 00 {:02X} 01\n\n{formula}",
                bytes + 10,
                bytes + 1
            );
            let (said, answered) = explain(text.as_bytes());
            let line = format!("    line 4, {says}\n");
            assert!(said.contains(&line) && !answered, "{said}");
        }
    }

    /// No such register, and rounds that are used up.
    #[test]
    fn refusals_without_a_place() {
        for set in [
            "20 00 00 00 09 00 02 01 30",
            "00 00 00 00 00 00 03 01 70 30",
        ] {
            let length = set.split(' ').count() + 2;
            let (said, _) =
                explain(format!("00 05 01 01 02 00 64 00 {length:02X} 01 03 {set}").as_bytes());
            assert!(
                said.contains("record 2 is refused with") && !said.contains("byte"),
                "{said}"
            );
        }
    }

    #[test]
    fn other_refusals_and_records_that_cannot_be_read() {
        let said = |text: &str| explain(text.as_bytes());
        let (text, answered) = said("00 02 01 06");
        assert!(
            text.contains("line 1: record 1 is refused with 2: the words are no sound table")
                && !answered
        );
        let (text, answered) = said("00 05 01 01 01 00 64");
        assert_eq!(
            (text.as_str(), answered),
            ("1 records: 1 answered, 0 refused\n", true)
        );
        assert!(said("00 05 01 01")
            .0
            .contains("record 1 cannot be read: it is cut short"));
        assert!(said("00 02 02 06")
            .0
            .contains("record 1 cannot be read: its version"));
        assert_eq!(
            said("00 0G").0,
            "line 1: \"0G\" is no byte of two hexadecimal digits\n"
        );
        // Bytes themselves.
        let (text, answered) = explain(&[0, 5, 1, 1, 1, 0, 100, 0, 2, 1, 9]);
        assert!(text.starts_with("byte 7 of the file: record 2 cannot be read") && !answered);
    }
}
