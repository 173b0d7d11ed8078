//! Formulas read from text: what `Display` writes is read as the same formula, and any other text is
//! read or refused with a place.
mod common;

use common::{any_formula, Drawn};
use kudzuclamp::{
    Account, Fault, FaultKind, Formula, NameError, Names, ParseError, ParseErrorKind, Refusal,
    Refused, Table,
};

fn parsed(text: &str) -> Formula {
    text.parse()
        .unwrap_or_else(|error| panic!("{text}: {error}"))
}

fn error(text: &str) -> (usize, String) {
    let ParseError { at, kind } = text.parse::<Formula>().expect_err(text);
    (at, kind.to_string())
}

#[test]
fn what_is_written_is_read() {
    let mut draw = Drawn(5);
    let names = Names::new(["mic", "echo", "song-2", "B_", "été", "_x"]).unwrap();
    for turn in 0..3_000 {
        let depth = if turn % 50 == 0 {
            64
        } else {
            1 + draw.below(10)
        };
        let formula = any_formula(&mut draw, depth);
        let text = formula.to_string();
        assert_eq!(parsed(&text), formula, "{text}");
        let named = names.text(&formula);
        assert_eq!(names.parse(&named), Ok(formula), "{named}");
    }
}

/// Every formula of few words, with all ways to put one operator below another.
#[test]
fn every_small_formula() {
    let mut made = vec![Formula::current(0), Formula::var(1)];
    for _ in 0..2 {
        let old = made.clone();
        for f in &old {
            made.extend([!f, Formula::mu(1, f), Formula::boxed(3, f)]);
            for g in &old {
                made.extend([f & g, f | g, Formula::until_some(2, f, g)]);
            }
        }
    }
    assert!(made.len() > 1_000);
    for formula in made {
        assert_eq!(parsed(&formula.to_string()), formula);
    }
}

#[test]
fn operators_that_are_not_written() {
    let (a, b, c) = (
        Formula::current(0),
        Formula::current(1),
        Formula::current(2),
    );
    let cases = [
        ("bit0 ^ bit1", &a ^ &b),
        ("bit0 => bit1", a.implies(&b)),
        ("bit0 <=> bit1", a.iff(&b)),
        ("ite(bit0, bit1, bit2)", a.ite(&b, &c)),
        ("bit0 ^ bit1 & bit2", &a ^ (&b & &c)),
        ("bit0 | bit1 ^ bit2", &a | (&b ^ &c)),
        ("bit0 ^ bit1 ^ bit2", (&a ^ &b) ^ &c),
        ("bit0 => bit1 => bit2", a.implies(b.implies(&c))),
        ("bit0 | bit1 => bit2", (&a | &b).implies(&c)),
        ("bit0 => bit1 <=> bit2", a.implies(&b).iff(&c)),
        ("bit0 <=> bit1 <=> bit2", a.iff(&b).iff(&c)),
        ("!ite(!bit0,(bit1),bit2|bit0)", !(!&a).ite(&b, &c | &a)),
        ("bit0&<1>bit1", &a & Formula::diamond(1, &b)),
        ("\tbit0\n | \r\n bit1 ", &a | &b),
        ("((bit0))", a.clone()),
        // A binder goes as far right as it can.
        (
            "bit0 & mu P1. bit1 | P1",
            &a & Formula::mu(1, &b | Formula::var(1)),
        ),
        ("!nu P1 . P1", !Formula::nu(1, Formula::var(1))),
        (
            "some3(bit0 => bit1 until bit2)",
            Formula::until_some(3, a.implies(&b), &c),
        ),
    ];
    for (text, formula) in cases {
        assert_eq!(parsed(text), formula, "{text}");
    }
}

#[test]
fn places_and_kinds() {
    let missing = |at, what: &str| (at, format!("{what} is missing"));
    assert_eq!(error(""), missing(0, "a formula"));
    assert_eq!(error("  "), missing(2, "a formula"));
    assert_eq!(error("bit0 &"), missing(6, "a formula"));
    assert_eq!(error("bit0 && bit1"), missing(6, "a formula"));
    assert_eq!(error("bit0 bit1"), missing(5, "an operator or the end"));
    assert_eq!(error("bit0 -> bit1"), missing(5, "an operator or the end"));
    assert_eq!(error("bit0 '"), missing(5, "an operator or the end"));
    assert_eq!(error("true'"), missing(4, "an operator or the end"));
    assert_eq!(error("bit0)"), missing(4, "an operator or the end"));
    assert_eq!(error("(bit0"), missing(5, "an operator or \")\""));
    assert_eq!(error("mu bit0. P0"), missing(3, "the binder's variable"));
    assert_eq!(error("mu P0 P0"), missing(6, "\".\""));
    assert_eq!(error("[x] bit0"), missing(1, "a relation's number"));
    assert_eq!(error("<1 bit0"), missing(3, "\">\""));
    assert_eq!(error("some0 bit0"), missing(6, "\"(\""));
    assert_eq!(
        error("some0(bit0, bit1)"),
        missing(10, "an operator or \"until\"")
    );
    assert_eq!(error("bit0 & until"), missing(7, "a formula"));
    assert_eq!(error("ite(bit0; bit1)"), missing(8, "an operator or \",\""));
    assert_eq!(error("bit0 & ?"), missing(7, "a formula"));
    assert_eq!(
        error("bit0 | mic"),
        (7, "no bit has the name \"mic\"".into())
    );
    assert_eq!(error("no formula: 02 FF").0, 0);
}

#[test]
fn numbers_that_are_not_there() {
    let kind = |text: &str| {
        let ParseError { at, kind } = text.parse::<Formula>().expect_err(text);
        let ParseErrorKind::Fault(kind) = kind else {
            panic!("{text}: {kind:?}");
        };
        (at, kind)
    };
    assert_eq!(kind("!bit16'"), (1, FaultKind::NoBit { bit: 16, bits: 16 }));
    assert_eq!(kind("P0 & P16"), (5, FaultKind::NoVariable(16)));
    assert_eq!(kind("mu P99. true"), (3, FaultKind::NoVariable(99)));
    assert_eq!(kind("set32"), (0, FaultKind::NoRegister(32)));
    assert_eq!(
        kind("set99999999999999999999"),
        (0, FaultKind::NoRegister(u32::MAX))
    );
    assert_eq!(kind("<8> true"), (1, FaultKind::NoRelation(8)));
    assert_eq!(
        kind("every8(true until true)"),
        (0, FaultKind::NoRelation(8))
    );
}

/// What no call takes is refused as it is read, so no text costs much more than its own length.
#[test]
fn sizes() {
    let deep = |nots: usize| "!".repeat(nots) + "bit0";
    assert!(deep(63).parse::<Formula>().is_ok());
    assert_eq!(error(&deep(64)).1, FaultKind::TooDeep.to_string());
    let too_many = "more than 256 parts are open here";
    assert_eq!(error(&deep(100_000)), (255, too_many.to_string()));
    for open in [
        "(", "[1]", "mu P0.", "some0(", "ite(", "<0>(", "a | (", "bit0 => ",
    ] {
        let text = open.repeat(50_000).replace('a', "bit0");
        assert_eq!(error(&text).1, too_many);
    }
    // Parentheses make no formula deeper.
    let closed = |count: usize| "(".repeat(count) + "bit0" + &")".repeat(count);
    assert_eq!(parsed(&closed(127)), Formula::current(0));
    assert_eq!(error(&closed(128)), (128, too_many.to_string()));
    let many = |sign: &str, parts: usize| vec!["bit0"; parts].join(sign);
    assert!(many(" & ", 64).parse::<Formula>().is_ok());
    assert_eq!(error(&many("=>", 5_000)).1, too_many);
    for sign in ["&", "|", "^", "<=>"] {
        let ParseError { kind, .. } = many(sign, 5_000).parse::<Formula>().unwrap_err();
        assert!(matches!(
            kind,
            ParseErrorKind::Fault(FaultKind::TooDeep | FaultKind::TooLong(_))
        ));
    }
    // 512 parts are 1,023 bytes; one more is too long.
    let halves =
        |parts: usize| (0..9).fold(many(" & ", parts), |text, _| format!("({text}) | ({text})"));
    assert_eq!(parsed(&halves(1)).as_bytes().len(), 3 + 1_023);
    assert_eq!(error(&halves(2)).1, FaultKind::TooLong(2_047).to_string());
    assert_eq!(parsed(&many(" ^ ", 8)).as_bytes().len(), 3 + 1_017);
    assert_eq!(
        error(&many(" ^ ", 9)).1,
        FaultKind::TooLong(2_041).to_string()
    );
    // Display writes every formula that is not too deep, and those that no call takes are not read.
    let long = Formula::all((0..600).map(|p| Formula::current(p % 16)));
    assert!(!long.to_string().starts_with("no formula:"));
    assert_eq!(
        error(&long.to_string()).1,
        FaultKind::TooLong(1_199).to_string()
    );
}

/// However much a text opens, a small stack is enough for it.
#[test]
fn stack() {
    let read = || {
        let open = [
            "(",
            "[1]",
            "mu P0.",
            "some0(",
            "ite(true, true, ",
            "bit0 => ",
            "!(",
        ];
        open.map(|open| open.repeat(5_000).parse::<Formula>().is_err())
    };
    let small = std::thread::Builder::new().stack_size(1 << 20);
    assert_eq!(small.spawn(read).unwrap().join().unwrap(), [true; 7]);
}

/// Words and signs in any order, and any characters: read or refused, at a character of the text.
#[test]
fn any_text() {
    let words = [
        "bit0", "bit1'", "P0", "set3", "mu", "nu", "P1", ".", "(", ")", "[1]", "<2>", "!", "&",
        "|", "^", "=>", "<=>", "until", "some0(", "every1(", "ite(", ",", "true", "false", " ",
        "mic", "'", "-", "é", "\u{0}", "9", "<", "[", "𝛍", "\u{2003}",
    ];
    let mut draw = Drawn(9);
    let table = Table::new(&mut [Account::unlimited()], 16, 10).unwrap();
    let mut read = 0;
    for _ in 0..30_000 {
        let text: String = (0..1 + draw.below(12)).map(|_| draw.of(&words)).collect();
        match text.parse::<Formula>() {
            Ok(formula) => {
                assert_eq!(parsed(&formula.to_string()), formula, "{text}");
                let fault = table.check_set(formula).err().and_then(Refused::fault);
                let syntax = fault.filter(|fault| fault.kind.refusal() == Refusal::Syntax);
                // What is read is a formula: of sets, but for next bits.
                let next = |fault: Fault| matches!(fault.kind, FaultKind::NextBit(_));
                assert!(syntax.is_none_or(next), "{text}: {syntax:?}");
                read += 1;
            }
            Err(ParseError { at, .. }) => assert!(text.is_char_boundary(at), "{text}: {at}"),
        }
    }
    assert!(read > 500, "{read}");
}

#[test]
fn names() {
    for good in [
        "a", "mic-B", "B2", "_", "ö", "bit", "P", "set", "bit1x", "some-1", "true_", "Mu",
    ] {
        let names = Names::new([good]).unwrap();
        let next = Formula::next(0) | Formula::current(0);
        assert_eq!(names.text(&next), format!("{good}' | {good}"));
        assert_eq!(names.parse(&names.text(&next)), Ok(next));
    }
    for bad in [
        "", " ", "2", "-a", "a-", "a--b", "a b", "a'", "a.b", "a\n", "<a>",
    ] {
        assert_eq!(Names::new([bad]), Err(NameError::NoName(bad.into())));
    }
    for word in [
        "true", "false", "mu", "nu", "until", "ite", "bit3", "P0", "set31", "some0", "every99",
        "bit007",
    ] {
        assert_eq!(Names::new([word]), Err(NameError::Reserved(word.into())));
    }
    let many = |count: u32| Names::new((0..count).map(|p| format!("a{p}")));
    assert_eq!(many(16).unwrap().len(), 16);
    assert_eq!(many(17), Err(NameError::TooMany));
    assert_eq!(Names::new(std::iter::repeat("a")), Err(NameError::TooMany));
    assert_eq!(
        Names::new(["a", "b", "a"]),
        Err(NameError::Twice("a".into()))
    );
    assert!(Names::default().is_empty());
    assert_eq!(many(16).unwrap().on(u32::MAX).len(), 16);
}

/// A bit is read by its number too, whether it has a name or not.
#[test]
fn numbers_beside_names() {
    let names = Names::new(["mic"]).unwrap();
    assert_eq!(
        names.parse("mic & bit0 & bit1'").unwrap(),
        parsed("bit0 & bit0 & bit1'")
    );
    assert_eq!(names.text(&parsed("bit0 & bit1'")), "mic & bit1'");
    assert_eq!(names.next("mic"), Ok(Formula::next(0)));
    assert_eq!(names.next("echo"), Err(NameError::Unknown("echo".into())));
}
