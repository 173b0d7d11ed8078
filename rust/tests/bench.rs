//! Document 01's bench and example, through the library.
use kudzuclamp::{
    words_for, Account, AsFormula, Formula, Loaded, Refusal, Stored, Table, Target, MAX_ROWS,
};

/// A table of n bits and so many rows, all empty.
fn new(n: u32, rows: u32) -> Result<Table<Vec<u32>>, Refusal> {
    Table::new(&mut [Account::unlimited()], n, rows)
}

fn table(n: u32, rows: u32) -> Table<Vec<u32>> {
    new(n, rows).unwrap()
}

/// A set under an account with the largest limits.
fn set(
    t: &mut Table<Vec<u32>>,
    r: u32,
    most: u32,
    formula: impl AsFormula,
) -> Result<Stored, Refusal> {
    let target = Target::register(r).rounds(most);
    let stored = t.set(&mut [Account::unlimited()], target, formula);
    stored.map_err(Refusal::from)
}

fn check_set(t: &Table<Vec<u32>>, formula: impl AsFormula) -> Result<(), Refusal> {
    t.check_set(formula).map_err(Refusal::from)
}

/// n = 1, N = 100, with relation 0 as the example has it: each step turns the bit over.
fn example() -> Table<Vec<u32>> {
    let mut t = table(1, 100);
    let (now, next) = (Formula::current(0), Formula::next(0));
    t.relation(0, (next.clone() & !now.clone()) | (!next & now))
        .unwrap();
    t
}

fn stored(node: u32, rounds: u32, peak: u32) -> Result<Stored, Refusal> {
    Ok(Stored { node, rounds, peak })
}

fn reach() -> Formula {
    Formula::mu(
        0,
        Formula::current(0) | Formula::diamond(0, Formula::var(0)),
    )
}

#[test]
fn the_set_of_the_example() {
    let mut t = example();
    assert_eq!(set(&mut t, 0, 100, reach()), stored(1, 3, 4));
    assert_eq!(t.count(0), Ok(2));
    assert_eq!(t.collect(), Ok(2));
}

#[test]
fn two_rounds_are_too_few() {
    let mut t = example();
    assert_eq!(set(&mut t, 0, 2, reach()), Err(Refusal::Spent));
    assert_eq!(t.count(0), Err(Refusal::Empty));
}

#[test]
fn binders() {
    let mut t = table(1, 100);
    let var = || Formula::var(0);
    assert_eq!(set(&mut t, 0, 100, Formula::mu(0, var())), stored(0, 1, 0));
    assert_eq!(t.count(0), Ok(0));
    assert_eq!(set(&mut t, 0, 100, Formula::nu(0, var())), stored(1, 1, 0));
    assert_eq!(t.count(0), Ok(2));
    assert_eq!(
        set(&mut t, 0, 100, Formula::mu(0, !var())),
        Err(Refusal::Odd)
    );
    assert_eq!(
        set(&mut t, 0, 100, Formula::mu(0, !!var())),
        stored(0, 1, 0)
    );
    assert_eq!(set(&mut t, 0, 100, var()), Err(Refusal::Unbound));
    assert_eq!(
        set(&mut t, 0, 100, Formula::mu(0, Formula::mu(0, var()))),
        Err(Refusal::Unbound)
    );
}

#[test]
fn box_and_diamond() {
    let mut t = table(1, 100);
    assert_eq!(
        set(&mut t, 0, 100, Formula::boxed(0, Formula::truth())),
        Err(Refusal::Empty)
    );
    t.relation(0, Formula::falsity()).unwrap();
    set(&mut t, 0, 100, Formula::boxed(0, Formula::falsity())).unwrap();
    assert_eq!(t.count(0), Ok(2));
    set(&mut t, 0, 100, Formula::diamond(0, Formula::truth())).unwrap();
    assert_eq!(t.count(0), Ok(0));
}

#[test]
fn rows() {
    let both = || Formula::current(0) & Formula::current(1);
    let done = set(&mut table(2, 3), 0, 100, both());
    assert_eq!(done.map(|done| done.peak), Ok(3));
    assert_eq!(set(&mut table(2, 2), 0, 100, both()), Err(Refusal::Full));
    let done = set(&mut table(1, 1), 0, 100, !Formula::current(0));
    assert_eq!(done.map(|done| done.peak), Ok(1));

    let mut t = table(2, 2);
    let mut peak = |r, formula| set(&mut t, r, 100, formula).map(|done| done.peak);
    assert_eq!(peak(0, Formula::current(0)), Ok(1));
    assert_eq!(peak(1, Formula::current(1)), Ok(2));
    t.clear(0).unwrap();
    let done = set(&mut t, 0, 100, !Formula::current(1)).unwrap();
    assert_eq!(done.peak, 1);
    let states = [0, 1, 2, 3].map(|state| t.member(0, state));
    assert_eq!(states, [Ok(true), Ok(true), Ok(false), Ok(false)]);
}

/// The peak tells how many rows are enough: as many, and no fewer.
#[test]
fn a_table_as_large_as_the_peak() {
    let (now, next) = (Formula::current(0), Formula::next(0));
    let turn = (next.clone() & !now.clone()) | (!next & now);
    let first = table(1, 100).relation(0, &turn).unwrap().peak;
    assert_eq!(first, 4);
    assert_eq!(
        table(1, first - 1).relation(0, &turn).unwrap_err(),
        Refusal::Full
    );
    let reached = set(&mut example(), 0, 100, reach()).unwrap().peak;
    let rows = first.max(reached);
    let mut t = table(1, rows);
    assert_eq!(t.relation(0, &turn), Ok(Loaded { peak: first }));
    assert_eq!(set(&mut t, 0, 100, reach()), stored(1, 3, reached));
}

#[test]
fn every_refusal() {
    assert_eq!(new(0, 1).err(), Some(Refusal::Sizes));
    assert_eq!(new(1, 0).err(), Some(Refusal::Sizes));
    assert_eq!(new(1, MAX_ROWS + 1).err(), Some(Refusal::Sizes));
    assert_eq!(new(1, u32::MAX).err(), Some(Refusal::Sizes));
    assert_eq!(
        Table::fresh(
            vec![0; words_for(10) - 1],
            &mut [Account::unlimited()],
            1,
            10
        )
        .err(),
        Some(Refusal::Sizes)
    );

    let mut t = table(1, 10);
    assert_eq!(t.clear(32), Err(Refusal::Range));
    assert_eq!(t.relation(8, Formula::truth()).unwrap_err(), Refusal::Range);
    assert_eq!(set(&mut t, 32, 0, Formula::truth()), Err(Refusal::Range));
    assert_eq!(t.member(0, 2), Err(Refusal::Range));
    assert_eq!(set(&mut t, 0, 0, Formula::next(0)), Err(Refusal::Syntax));
    assert_eq!(set(&mut t, 0, 0, Formula::current(1)), Err(Refusal::Syntax));
    assert_eq!(
        t.relation(0, Formula::register(0)).unwrap_err(),
        Refusal::Syntax
    );
    assert_eq!(set(&mut t, 0, 0, []), Err(Refusal::Syntax));
    assert_eq!(t.node(31), Err(Refusal::Empty));
    assert_eq!(t.clear(31), Ok(()));

    t.words_mut()[3] = 1;
    assert_eq!(set(&mut t, 0, 0, Formula::truth()), Err(Refusal::Unsound));
    assert_eq!(t.collect(), Err(Refusal::Unsound));
    assert_eq!(
        t.check_relation(Formula::truth()).unwrap_err(),
        Refusal::Unsound
    );
    assert_eq!(Table::over(Vec::new()).err(), Some(Refusal::Unsound));
}

#[test]
fn formulas_without_a_byte_or_too_long() {
    let mut t = table(16, 10);
    assert_eq!(
        set(&mut t, 0, 0, Formula::current(16)),
        Err(Refusal::Syntax)
    );
    assert_eq!(
        set(&mut t, 0, 0, Formula::diamond(8, Formula::truth())),
        Err(Refusal::Syntax)
    );
    assert_eq!(
        set(&mut t, 0, 0, !Formula::mu(16, Formula::truth())),
        Err(Refusal::Syntax)
    );

    let deep = |depth| (1..depth).fold(Formula::truth(), |f, _| !f);
    assert_eq!(check_set(&t, deep(64)), Ok(()));
    assert_eq!(check_set(&t, deep(65)), Err(Refusal::Syntax));

    // 512 leaves and 511 operators are 1,023 bytes, the most that fit.
    let wide = |leaves: u32| (1..leaves.ilog2() + 1).fold(Formula::truth(), |f, _| f.clone() & f);
    assert_eq!(wide(512).as_bytes().len(), 2 + 1_024);
    assert_eq!(check_set(&t, wide(512)), Ok(()));
    assert_eq!(check_set(&t, wide(1_024)), Err(Refusal::Syntax));
    assert_eq!(check_set(&t, wide(65_536)), Err(Refusal::Syntax));
}

#[test]
fn borrowed_words() {
    let mut words = [9; words_for(5) + 2];
    let mut accounts = [Account::unlimited()];
    let mut t = Table::fresh(&mut words[..], &mut accounts, 1, 5).unwrap();
    t.set(&mut accounts, Target::register(3), Formula::truth())
        .unwrap();
    assert_eq!(t.words().len(), words_for(5) + 2);
    assert_eq!(t.into_words()[words_for(5)..], [9, 9]);
    assert_eq!(Table::over(&mut words[..]).unwrap().count(3), Ok(2));
}

/// f until g: the sets and rounds of the formula written with a binder, and the words' refusals.
#[test]
fn until() {
    let mut t = example();
    let (open, all) = (Formula::current(0), Formula::truth);
    let some = Formula::until_some(0, all(), open.clone());
    assert_eq!(set(&mut t, 0, 3, some), set(&mut t, 1, 3, reach()));
    let every = || Formula::until_every(0, all(), Formula::current(0));
    assert_eq!(set(&mut t, 2, 3, every()), stored(1, 3, 4));
    assert_eq!(set(&mut t, 2, 2, every()), Err(Refusal::Spent));
    // The inner nu has its own rounds in each round: two rounds of each.
    t.relation(3, Formula::falsity()).unwrap();
    let inner = Formula::until_some(3, Formula::nu(0, Formula::var(0)), open);
    assert_eq!(set(&mut t, 3, 4, inner.clone()).unwrap().rounds, 4);
    assert_eq!(set(&mut t, 3, 3, inner), Err(Refusal::Spent));
    // Until names its relation, and relation calls have no until.
    let unfilled = Formula::until_every(7, all(), all());
    assert_eq!(set(&mut t, 3, 9, unfilled), Err(Refusal::Empty));
    assert_eq!(t.relation(4, every()).unwrap_err(), Refusal::Syntax);
}
