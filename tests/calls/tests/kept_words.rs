//! Which words each refusal keeps: 8 and 9 the registers, the relations and every register's set and
//! number; all others every word. Words past the table are never changed.

use kudzuclamp::{words_for, Account, AsFormula, Formula, Refusal, Refused, Stored, Table, Target};

const GUARD: u32 = 0xFEED_BEEF;
const PAST: usize = 50;

/// n = 2 with so many rows, guard words past the table, registers 0 to 2 and relation 0 filled;
/// refused where the rows are too few.
fn try_room(rows: u32) -> Result<Table<Vec<u32>>, Refused> {
    let words = vec![GUARD; words_for(rows) + PAST];
    let mut table = Table::fresh(words, &mut [Account::unlimited()], 2, rows)?;
    let (open, echo) = (Formula::current(0), Formula::current(1));
    let same = |a: Formula, b: Formula| (a.clone() & b.clone()) | (!a & !b);
    let press = Formula::next(0) & same(Formula::next(1), open.clone());
    table.relation(0, press)?;
    set(&mut table, 0, 0, open.clone() & echo.clone())?;
    set(&mut table, 1, 0, open | echo)?;
    let howl = Formula::register(0) | Formula::diamond(0, Formula::var(0));
    set(&mut table, 2, 100, Formula::mu(0, howl))?;
    Ok(table)
}

/// A set under an account with the largest limits.
fn set(
    table: &mut Table<Vec<u32>>,
    r: u32,
    most: u32,
    formula: impl AsFormula,
) -> Result<Stored, Refused> {
    let target = Target::register(r).rounds(most);
    table.set(&mut [Account::unlimited()], target, formula)
}

fn restart(table: &mut Table<Vec<u32>>, n: u32, rows: u32) -> Result<(), Refusal> {
    table.restart(&mut [Account::unlimited()], n, rows)
}

fn room(rows: u32) -> Table<Vec<u32>> {
    try_room(rows).expect("rows in plenty")
}

/// Everything that refusals 8 and 9 keep, as the calls answer it.
fn contents(table: &Table<Vec<u32>>) -> Vec<Result<u32, Refusal>> {
    let mut answers = Vec::new();
    for r in 0..32 {
        answers.extend([table.node(r), table.count(r)]);
        answers.extend((0..4).map(|state| table.member(r, state).map(u32::from)));
    }
    let roots = table.words()[16..56].iter();
    answers.extend(roots.map(|&word| Ok(word)));
    answers
}

fn assert_guards(table: &Table<Vec<u32>>, rows: u32) {
    let past = &table.words()[words_for(rows)..];
    assert!(past.len() == PAST && past.iter().all(|&word| word == GUARD));
}

/// Makes a call that is refused and keeps all words.
fn keeps_all<T: std::fmt::Debug + PartialEq, R: Into<Refusal>>(
    refusal: Refusal,
    call: impl Fn(&mut Table<Vec<u32>>) -> Result<T, R>,
) {
    let mut table = room(100);
    let before = table.words().to_vec();
    assert_eq!(call(&mut table).map_err(R::into), Err(refusal));
    assert_eq!(table.words(), before);
}

#[test]
fn one() {
    for (n, rows) in [
        (0, 5),
        (17, 5),
        (u32::MAX, 5),
        (2, 0),
        (2, 60_001),
        (2, 105),
    ] {
        keeps_all(Refusal::Sizes, |table| restart(table, n, rows));
    }
}

#[test]
fn fourteen() {
    for count in [0, 9, 100] {
        let accounts = || vec![Account::unlimited(); count];
        keeps_all(Refusal::Unlisted, |t| t.restart(&mut accounts(), 2, 5));
        keeps_all(Refusal::Unlisted, |t| {
            t.set(&mut accounts(), Target::register(0), [])
        });
    }
    keeps_all(Refusal::Unlisted, |t| {
        let past = Target::register(0).account(8);
        t.set(&mut [Account::unlimited(); 8], past, Formula::truth())
    });
}

#[test]
fn two() {
    let mut table = room(100);
    for (place, value) in [(0, 0), (1, 0), (3, 101), (16, 99), (48, 99), (258, 4)] {
        let sound = table.words().to_vec();
        table.words_mut()[place] = value;
        let before = table.words().to_vec();
        assert_eq!(
            set(&mut table, 0, 9, Formula::truth()),
            Err(Refusal::Unsound.into())
        );
        assert_eq!(
            table.relation(0, Formula::falsity()),
            Err(Refusal::Unsound.into())
        );
        assert_eq!(table.clear(0), Err(Refusal::Unsound));
        assert_eq!(table.collect(), Err(Refusal::Unsound));
        assert_eq!(table.words(), before, "word {place}");
        table.words_mut().copy_from_slice(&sound);
    }
}

#[test]
fn three_to_seven_and_twelve() {
    let var = || Formula::var(0);
    keeps_all(Refusal::Range, |t| set(t, 32, 9, Formula::truth()));
    keeps_all(Refusal::Range, |t| t.relation(8, Formula::truth()));
    keeps_all(Refusal::Range, |t| t.clear(32));
    keeps_all(Refusal::Range, |t| t.member(0, 4));
    keeps_all(Refusal::Syntax, |t| set(t, 0, 9, Formula::next(0)));
    keeps_all(Refusal::Syntax, |t| t.relation(0, Formula::register(0)));
    keeps_all(Refusal::Unbound, |t| set(t, 0, 9, var()));
    let bit = || Formula::current(0);
    keeps_all(Refusal::Vacuous, |t| set(t, 0, 9, Formula::nu(0, bit())));
    keeps_all(Refusal::Odd, |t| set(t, 0, 9, Formula::nu(0, !var())));
    keeps_all(Refusal::Empty, |t| set(t, 0, 9, Formula::register(9)));
    keeps_all(Refusal::Empty, |t| {
        set(t, 0, 9, Formula::boxed(7, Formula::truth()))
    });
    keeps_all(Refusal::Empty, |t| t.count(9));
}

/// Formulas that need many rows, for sets and for relations.
fn large() -> (Formula, Formula) {
    let bit = Formula::current;
    let differ = |a: Formula, b: Formula| (a.clone() & !b.clone()) | (!a & b);
    let other = differ(bit(0), bit(1));
    let set = other.clone() & Formula::diamond(0, other);
    let relation = differ(
        differ(bit(0), Formula::next(1)),
        differ(bit(1), Formula::next(0)),
    );
    (set, relation)
}

/// Makes a call; where it is refused with 8 all contents are kept.
fn full_keeps<T>(
    table: &mut Table<Vec<u32>>,
    call: impl Fn(&mut Table<Vec<u32>>) -> Result<T, Refused>,
) -> bool {
    let before = contents(table);
    match call(table) {
        Ok(_) => true,
        Err(refusal) => {
            assert_eq!(refusal, Refusal::Full);
            assert_eq!(contents(table), before);
            false
        }
    }
}

/// With every number of rows in which the room fits: 8 below some number, answered from there on.
#[test]
fn eight() {
    let (states, relation) = large();
    let (mut sets, mut relations) = (Vec::new(), Vec::new());
    for rows in 1..40 {
        let Ok(mut table) = try_room(rows) else {
            continue;
        };
        sets.push(full_keeps(&mut table, |t| set(t, 5, 9, &states)));
        table.clear(5).unwrap();
        relations.push(full_keeps(&mut table, |t| t.relation(5, &relation)));
        assert_guards(&table, rows);
    }
    for answers in [sets, relations] {
        assert!(answers.is_sorted() && answers.contains(&false) && answers.contains(&true));
    }
}

#[test]
fn nine() {
    let mut table = room(100);
    let step = Formula::diamond(0, Formula::var(0));
    let reach = Formula::mu(0, Formula::register(0) | step);
    let needed = set(&mut table, 3, u32::MAX, &reach).unwrap().rounds;
    assert!(needed > 2);
    let before = contents(&table);
    for most in 0..needed {
        assert_eq!(set(&mut table, 0, most, &reach), Err(Refusal::Spent.into()));
        assert_eq!(contents(&table), before);
    }
    assert_eq!(set(&mut table, 0, needed, &reach).unwrap().rounds, needed);
    assert_guards(&table, 100);
}

#[test]
fn answered_calls_keep_the_words_past_the_table() {
    let mut table = room(100);
    table.clear(0).unwrap();
    table.collect().unwrap();
    restart(&mut table, 16, 100).unwrap();
    assert_guards(&table, 100);
    restart(&mut table, 3, 90).unwrap();
    assert_eq!(table.words()[words_for(100)..], [GUARD; PAST]);
}

/// "Fresh writes the header and the heads; every other word keeps its old content."
#[test]
fn fresh_writes_header_and_heads_only() {
    let mut table = room(100);
    let before = table.words().to_vec();
    restart(&mut table, 2, 100).unwrap();
    let after = table.words();
    let heads = 256 + 9 * 100..256 + 10 * 100;
    for place in (256..after.len()).filter(|place| !heads.contains(place)) {
        assert_eq!(after[place], before[place], "word {place}");
    }
}
