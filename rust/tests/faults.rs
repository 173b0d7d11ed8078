//! What is wrong with a formula: its place and kind, and that both go with the library's refusal.
mod common;

use common::{any_formula, Drawn};
use kudzuclamp::{Account, AsFormula, Fault, FaultKind, Formula, Refusal, Refused, Table, Target};
use std::collections::HashSet;
use std::error::Error;

/// Three bits; register 0 and relation 0 are filled.
fn room() -> Table<Vec<u32>> {
    let mut accounts = [Account::unlimited()];
    let mut table = Table::new(&mut accounts, 3, 100).unwrap();
    table.relation(0, Formula::turns(0)).unwrap();
    let bit = Formula::current(0);
    table.set(&mut accounts, Target::register(0), bit).unwrap();
    table
}

/// The place and kind that a set call tells.
fn of_set(formula: impl AsFormula) -> (usize, FaultKind) {
    let stored = room().set(&mut [Account::unlimited()], Target::register(1), formula);
    let Fault { at, kind } = stored.unwrap_err().fault().unwrap();
    (at, kind)
}

fn of_relation(formula: impl AsFormula) -> (usize, FaultKind) {
    let Fault { at, kind } = room().relation(1, formula).unwrap_err().fault().unwrap();
    (at, kind)
}

fn of_valid(formula: impl AsFormula) -> (usize, FaultKind) {
    let mut table = Table::new(&mut [Account::unlimited()], 3, 100).unwrap();
    let Fault { at, kind } = table.valid(formula).unwrap_err().fault().unwrap();
    (at, kind)
}

#[test]
fn numbers_that_are_not_there() {
    let bit = || Formula::current(0);
    let no_bit = |bit, bits| FaultKind::NoBit { bit, bits };
    assert_eq!(of_set(bit() & Formula::current(3)), (5, no_bit(3, 3)));
    assert_eq!(of_relation(bit() & Formula::next(15)), (5, no_bit(15, 3)));
    assert_eq!(of_valid(!Formula::current(7)), (4, no_bit(7, 3)));
    // Those that have no byte are told by their number all the same.
    assert_eq!(of_set(!Formula::current(16)), (4, no_bit(16, 16)));
    assert_eq!(of_relation(Formula::next(300)), (3, no_bit(300, 16)));
    assert_eq!(
        of_set(bit() | Formula::register(99)),
        (5, FaultKind::NoRegister(99))
    );
    assert_eq!(of_set(Formula::var(16)), (3, FaultKind::NoVariable(16)));
    assert_eq!(
        of_set(Formula::mu(u32::MAX, bit())),
        (3, FaultKind::NoVariable(u32::MAX))
    );
    for with in [
        Formula::boxed(8, bit()),
        Formula::diamond(8, bit()),
        Formula::until_some(8, bit(), bit()),
        Formula::until_every(8, bit(), bit()),
    ] {
        assert_eq!(of_set(!!with), (5, FaultKind::NoRelation(8)));
    }
    // Of two, the first in the order of the bytes.
    let two = Formula::until_some(0, Formula::register(40), Formula::register(41));
    assert_eq!(of_set(bit() & two), (6, FaultKind::NoRegister(40)));
    assert_eq!(of_relation(Formula::keeps(20)), (5, no_bit(20, 16)));
}

#[test]
fn words_that_the_call_does_not_take() {
    let bit = || Formula::current(0);
    assert_eq!(of_set(bit() & Formula::next(2)), (5, FaultKind::NextBit(2)));
    assert_eq!(of_valid(Formula::next(0)), (3, FaultKind::NextBit(0)));
    let run = Formula::until_every(0, bit(), bit());
    for word in [
        Formula::var(0),
        Formula::register(0),
        Formula::boxed(0, bit()),
        run.clone(),
    ] {
        assert_eq!(of_relation(bit() | &word), (5, FaultKind::NotInRelation));
        assert_eq!(of_valid(bit() | word), (5, FaultKind::NotInValid));
    }
    assert_eq!(
        of_set([0, 4, 1, 0x90, 0x10, 0x10]),
        (3, FaultKind::UntilInVersion1)
    );
    assert_eq!(of_set([0, 2, 1, 0xA0]), (3, FaultKind::NoWord(0xA0)));
    assert_eq!(of_relation([0, 2, 2, 0x10]), (2, FaultKind::Version(2)));
    assert_eq!(of_valid([0, 2, 2, 0x10]), (2, FaultKind::Version(2)));
    assert_eq!(of_set([0, 2, 3, 0x10]), (2, FaultKind::Version(3)));
}

#[test]
fn lengths_and_depth() {
    let deep = |nots| (0..nots).fold(Formula::current(0), |f, _| !f);
    assert_eq!(of_set(deep(64)), (67, FaultKind::TooDeep));
    let wide = Formula::all((0..513).map(|_| Formula::truth()));
    assert_eq!(of_set(&wide), (0, FaultKind::TooLong(1_025)));
    assert_eq!(of_relation(&wide), (0, FaultKind::TooLong(1_025)));
    let wider = Formula::all((0..40_000).map(|_| Formula::truth()));
    assert_eq!(of_set(wider), (0, FaultKind::TooLong(79_999)));
    let length = |said, follow| (0, FaultKind::Length { said, follow });
    assert_eq!(of_set([0, 3, 1, 0x10]), length(3, 2));
    assert_eq!(of_set([0, 1, 1]), length(1, 1));
    // More is said than a call takes, and few bytes follow.
    assert_eq!(of_set([0xFF, 0xFF, 1, 0x10]), length(0xFFFF, 2));
    assert_eq!(of_set([0x10, 0, 1]), length(0x1000, 1));
    // What follows is too long, whatever is said.
    let mut short = wide.as_bytes().to_vec();
    short[..2].copy_from_slice(&[0, 2]);
    assert_eq!(of_set(short), (0, FaultKind::TooLong(1_025)));
    assert_eq!(of_set([]), (0, FaultKind::Incomplete));
    assert_eq!(of_set(vec![0, 2]), (2, FaultKind::Incomplete));
    assert_eq!(of_set([0, 3, 1, 0x03, 0x10]), (5, FaultKind::Incomplete));
    assert_eq!(of_set([0, 3, 1, 0x10, 0x10]), (4, FaultKind::Complete));
}

#[test]
fn variables_and_what_is_empty() {
    let (bit, p) = (|| Formula::current(0), Formula::var);
    assert_eq!(of_set(bit() & p(3)), (5, FaultKind::Unbound(3)));
    assert_eq!(
        of_set(Formula::mu(0, p(0)) & p(0)),
        (6, FaultKind::Unbound(0))
    );
    assert_eq!(
        of_set(Formula::mu(2, Formula::nu(2, p(2)))),
        (4, FaultKind::BoundTwice(2))
    );
    assert_eq!(of_set(Formula::mu(1, bit())), (3, FaultKind::Vacuous(1)));
    let outer = Formula::mu(1, Formula::nu(2, p(2)));
    assert_eq!(of_set(bit() | outer), (5, FaultKind::Vacuous(1)));
    assert_eq!(
        of_set(Formula::mu(1, bit() & !p(1))),
        (7, FaultKind::Odd(1))
    );
    // A box has two NOTs of its own, and none is counted for it.
    let inner = Formula::nu(2, !Formula::boxed(0, p(2)) & p(2));
    assert_eq!(of_set(inner), (7, FaultKind::Odd(2)));
    assert_eq!(
        of_set(bit() & Formula::register(5)),
        (5, FaultKind::EmptyRegister(5))
    );
    assert_eq!(
        of_set(Formula::diamond(0, Formula::boxed(4, bit()))),
        (4, FaultKind::EmptyRelation(4))
    );
    let run = Formula::until_some(6, bit(), Formula::register(5));
    assert_eq!(of_set(run), (3, FaultKind::EmptyRelation(6)));
    // Check 5 comes before 12, 6 and 7, wherever their places are.
    let all = Formula::mu(0, !p(0)) & Formula::mu(0, bit()) & Formula::register(5) & p(9);
    assert_eq!(of_set(all), (12, FaultKind::Unbound(9)));
}

#[test]
fn other_refusals_have_no_fault() {
    let mut table = room();
    let mut accounts = [Account::limited(0, 0)];
    let bit = Formula::current(1);
    let full = table
        .set(&mut accounts, Target::register(1), &bit)
        .unwrap_err();
    assert_eq!((full.refusal(), full.fault()), (Refusal::Full, None));
    assert_eq!(full.to_string(), Refusal::Full.to_string());
    assert!(full.source().is_none());
    // The register's number is looked at before the formula.
    let range = table.set(&mut accounts, Target::register(32), Formula::var(0));
    assert_eq!(range, Err(Refusal::Range.into()));
    table.words_mut()[0] = 0;
    let unsound = table.check_set(Formula::register(99)).unwrap_err();
    assert_eq!(
        (unsound.refusal(), unsound.fault()),
        (Refusal::Unsound, None)
    );
    table.words_mut().fill(0);
    assert_eq!(table.relation(0, []), Err(Refusal::Unsound.into()));
}

#[test]
fn texts_and_sources() {
    let refused = room()
        .check_set(Formula::register(0) & Formula::next(1))
        .unwrap_err();
    assert_eq!(
        refused.to_string(),
        "in the formula, byte 5: next bit 1: only relations have next bits"
    );
    assert_eq!(
        refused.source().unwrap().to_string(),
        Refusal::Syntax.to_string()
    );
    assert_eq!(Refusal::from(refused), Refusal::Syntax);
    let one = FaultKind::NoBit { bit: 4, bits: 1 };
    assert_eq!(one.to_string(), "there is no bit 4: bit 0 is all");
}

/// No two kinds have the same text.
#[test]
fn texts_differ() {
    let kinds = [
        FaultKind::NoBit { bit: 1, bits: 1 },
        FaultKind::NoVariable(1),
        FaultKind::NoRegister(1),
        FaultKind::NoRelation(1),
        FaultKind::NextBit(1),
        FaultKind::NotInRelation,
        FaultKind::NotInValid,
        FaultKind::UntilInVersion1,
        FaultKind::NoWord(1),
        FaultKind::TooDeep,
        FaultKind::TooLong(1),
        FaultKind::Length { said: 1, follow: 1 },
        FaultKind::Version(1),
        FaultKind::Incomplete,
        FaultKind::Complete,
        FaultKind::Unbound(1),
        FaultKind::BoundTwice(1),
        FaultKind::Vacuous(1),
        FaultKind::Odd(1),
        FaultKind::EmptyRegister(1),
        FaultKind::EmptyRelation(1),
    ];
    let texts: HashSet<String> = kinds.iter().map(FaultKind::to_string).collect();
    assert_eq!(texts.len(), kinds.len());
}

/// A token of the same kind with a low number, and mostly no next bit: so more is answered, and
/// variables meet their binders.
fn narrowed(token: u8, draw: &mut Drawn) -> u8 {
    match token {
        0x20..=0x2F if draw.below(9) > 0 => 0x10 + token % 3,
        0x10..=0x2F => (token & 0xF0) + token % 4,
        0x30..=0x5F | 0x70..=0x8F => (token & 0xF0) + token % 2,
        0x60..=0x6F | 0x90..=0x9F => token & 0xF8,
        _ => token,
    }
}

/// Bytes that are nearly a formula.
fn damaged(draw: &mut Drawn) -> Vec<u8> {
    let depth = 1 + draw.below(6);
    let inner = any_formula(draw, depth);
    let outer = match draw.below(3) {
        0 => inner,
        1 => Formula::mu(0, inner),
        _ => Formula::nu(0, Formula::mu(1, inner)),
    };
    let mut bytes = outer.as_bytes().to_vec();
    for token in &mut bytes[3..] {
        *token = narrowed(*token, draw);
    }
    let at = draw.below(bytes.len() as u32) as usize;
    match draw.below(20) {
        0 => bytes.truncate(at),
        1 => bytes.push(draw.below(256) as u8),
        2 => bytes[at] = draw.below(256) as u8,
        3 => bytes[at.max(3)] = draw.of(&[0x10, 0x22, 0x30, 0x45, 0x02, 0x70, 0x6F]),
        _ => {}
    }
    bytes
}

/// A fault is told exactly where the formula is refused, of that refusal's kind, and within it.
fn agrees(bytes: &[u8], checked: Result<(), Refused>) -> Option<Refusal> {
    let refused = checked.err()?;
    let of_formula = [
        Refusal::Syntax,
        Refusal::Unbound,
        Refusal::Vacuous,
        Refusal::Odd,
        Refusal::Empty,
    ];
    match refused.fault() {
        Some(fault) => {
            assert_eq!(fault.kind.refusal(), refused.refusal(), "{bytes:02X?}");
            assert!(fault.at <= bytes.len(), "{bytes:02X?}");
        }
        None => assert!(!of_formula.contains(&refused.refusal()), "{bytes:02X?}"),
    }
    Some(refused.refusal())
}

#[test]
fn as_the_library_refuses() {
    let mut draw = Drawn(11);
    let mut seen = [0; 15];
    let table = room();
    let empty = Table::new(&mut [Account::unlimited()], 3, 100).unwrap();
    for _ in 0..8_000 {
        let bytes = damaged(&mut draw);
        let valid = empty.clone().valid(&bytes);
        for checked in [table.check_set(&bytes), table.check_relation(&bytes), valid] {
            let refusal = agrees(&bytes, checked);
            seen[refusal.map_or(0, |refusal| refusal.number() as usize)] += 1;
        }
    }
    // Answered, 4, 5, 6, 7 and 12 all come.
    for number in [0, 4, 5, 6, 7, 12] {
        assert!(seen[number] > 50, "{seen:?}");
    }
}
