//! The C header says the same as this crate: version, sizes, refusals and their texts.
use kudzuclamp::{Refusal, MAX_ACCOUNTS, MAX_BITS, MAX_ENTRIES, MAX_ROWS, REGISTERS, RELATIONS};

const HEADER: &str = include_str!("../include/kudzuclamp.h");

/// What a `#define` of a name without parameters stands for.
fn defined(name: &str) -> &'static str {
    let start = format!("#define {name} ");
    let line = HEADER.lines().find_map(|line| line.strip_prefix(&start));
    line.unwrap_or_else(|| panic!("the header defines no {name}"))
}

#[test]
fn version_and_sizes() {
    let version = env!("CARGO_PKG_VERSION");
    assert_eq!(defined("KUDZUCLAMP_VERSION"), format!("\"{version}\""));
    let sizes = [
        ("KUDZUCLAMP_MAX_BITS", MAX_BITS),
        ("KUDZUCLAMP_MAX_ROWS", MAX_ROWS),
        ("KUDZUCLAMP_REGISTERS", REGISTERS),
        ("KUDZUCLAMP_RELATIONS", RELATIONS),
        ("KUDZUCLAMP_MAX_ACCOUNTS", MAX_ACCOUNTS as u32),
        ("KUDZUCLAMP_MAX_ENTRIES", MAX_ENTRIES as u32),
    ];
    for (name, size) in sizes {
        assert_eq!(defined(name), size.to_string());
    }
}

/// `NoRun` is `KUDZUCLAMP_NO_RUN`.
fn c_name(refusal: &Refusal) -> String {
    let mut name = "KUDZUCLAMP".to_string();
    for letter in format!("{refusal:?}").chars() {
        if letter.is_uppercase() {
            name.push('_');
        }
        name.push(letter.to_ascii_uppercase());
    }
    name
}

/// Each refusal stands in the enum with its number, and its text in `kudzuclamp_text`.
#[test]
fn refusals() {
    let named = |refusal: &Refusal| {
        let name = c_name(refusal);
        let number = format!("{name} = {}", refusal.number());
        let case = format!("case {name}:\n        return \"{refusal}\";");
        let mut lines = HEADER.lines().map(str::trim_start);
        let rest = lines.find_map(|line| line.strip_prefix(&number));
        assert!(
            rest.is_some_and(|rest| rest.starts_with([',', ' '])),
            "{number}"
        );
        assert!(HEADER.contains(&case), "{case}");
    };
    Refusal::ALL.iter().for_each(named);
    // Answered, and the two of play.
    let cases = HEADER.matches("\n    case KUDZUCLAMP_").count();
    assert_eq!(cases, Refusal::ALL.len() + 3);
}
