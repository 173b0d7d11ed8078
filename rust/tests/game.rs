//! Guest against machine through the library: the set, its rounds and tally, answers, and what refusals leave.
use kudzuclamp::{Account, Formula, Game, Refusal, Strategy, Table, Target};

const GOAL: u32 = 9;
const WON: u32 = 4;
const GUEST: u32 = 6;
const MACHINE: u32 = 2;
const GAME: Game = Game::new(GOAL, GUEST, MACHINE);

/// One state, by current bits or by next ones.
fn state(n: u32, s: u32, bit: fn(u32) -> Formula) -> Formula {
    let literal = |p| if s >> p & 1 == 1 { bit(p) } else { !bit(p) };
    (0..n).map(literal).fold(Formula::truth(), |f, g| f & g)
}

fn pairs(n: u32, list: &[(u32, u32)]) -> Formula {
    let pair = |&(s, t): &(u32, u32)| state(n, s, Formula::current) & state(n, t, Formula::next);
    list.iter().map(pair).fold(Formula::falsity(), |f, g| f | g)
}

/// A table of so many rows with the game's goal and moves; what exists is a formula's.
fn table(
    rows: u32,
    valid: Formula,
    guest: &[(u32, u32)],
    machine: &[(u32, u32)],
) -> Table<Vec<u32>> {
    let mut accounts = [Account::unlimited()];
    let mut table = Table::new(&mut accounts, 3, rows).unwrap();
    table.valid(valid).unwrap();
    table.relation(GUEST, pairs(3, guest)).unwrap();
    table.relation(MACHINE, pairs(3, machine)).unwrap();
    let goal = state(3, 3, Formula::current);
    let stored = table.set(&mut accounts, Target::register(GOAL), goal);
    stored.unwrap();
    table
}

/// 3 is the goal; 2 enters in round 2, 1 in round 3, 0 in round 4. In 4 one of two presses has no answer; in 6 the
/// guest presses to 0 and the machine leads back to 6; in 5 and 7 there is no press.
const PRESSES: &[(u32, u32)] = &[(2, 4), (1, 5), (0, 6), (0, 7), (4, 5), (4, 1), (6, 0)];
const REPLIES: &[(u32, u32)] = &[
    (4, 3),
    (5, 2),
    (6, 1),
    (6, 6),
    (7, 0),
    (7, 2),
    (7, 3),
    (0, 6),
];

fn ladder() -> Table<Vec<u32>> {
    table(300, Formula::truth(), PRESSES, REPLIES)
}

#[test]
fn the_set_and_its_rounds() {
    let mut accounts = [Account::unlimited(), Account::unlimited()];
    let mut table = ladder();
    let won = table.force(&mut accounts, Target::register(WON).account(1), GAME);
    let won = won.unwrap();
    assert_eq!(
        table.states(WON).unwrap().collect::<Vec<u32>>(),
        [0, 1, 2, 3]
    );
    assert_eq!((won.rounds, table.node(WON)), (5, Ok(won.node)));
    assert_eq!([accounts[0].tally, accounts[1].tally], [0, 5]);
    // The same by the formula: one number, and the same rounds and peak.
    let mut plain = ladder();
    let steps = Formula::boxed(GUEST, Formula::diamond(MACHINE, Formula::var(0)));
    let some = Formula::diamond(GUEST, Formula::truth());
    let formula = Formula::mu(0, Formula::register(GOAL) | (steps & some));
    let set = plain
        .set(&mut accounts, Target::register(WON), &formula)
        .unwrap();
    assert_eq!((set.rounds, set.peak), (won.rounds, won.peak));
    let again = table.set(&mut accounts, Target::register(WON + 1), &formula);
    assert_eq!(again.unwrap().node, won.node);
}

#[test]
fn the_goal_as_target_and_one_relation_for_both() {
    let mut accounts = [Account::unlimited()];
    let mut table = ladder();
    table
        .force(&mut accounts, Target::register(GOAL), GAME)
        .unwrap();
    assert_eq!(table.count(GOAL), Ok(4));
    // The set again: it is its own.
    table
        .force(&mut accounts, Target::register(WON), GAME)
        .unwrap();
    assert_eq!(table.node(WON), table.node(GOAL));
    let mut table = ladder();
    let alone = Game::new(GOAL, MACHINE, MACHINE);
    table
        .force(&mut accounts, Target::register(WON), alone)
        .unwrap();
    // Of each state that has a press, one leads to where there is no answer, or round about 6.
    assert_eq!(table.states(WON).unwrap().collect::<Vec<u32>>(), [3]);
}

#[test]
fn answers() {
    let accounts = [Account::unlimited()];
    let mut table = ladder();
    let mut machine = |s, press| Strategy::new(GAME).answer(&mut table, &accounts, s, press);
    assert_eq!(machine(2, 4), Ok(3));
    assert_eq!(machine(1, 5), Ok(2));
    assert_eq!(machine(0, 6), Ok(1));
    // 0 is an answer that enters with the state itself; 2 is less than 3 and enters earlier too.
    assert_eq!(machine(0, 7), Ok(2));
    for (s, press) in [(3, 3), (4, 5), (4, 1), (6, 0), (0, 5), (5, 5), (7, 7)] {
        assert_eq!(machine(s, press), Err(Refusal::NoAnswer));
    }
    for (s, press) in [(8, 0), (0, 8), (u32::MAX, 4)] {
        assert_eq!(machine(s, press), Err(Refusal::Range));
    }
}

/// Whatever the guest presses, answers lead into the goal in fewer turns than the round of entry.
#[test]
fn every_play_comes_to_the_goal() {
    let accounts = [Account::unlimited()];
    let mut table = ladder();
    let mut open = vec![(0, 0)];
    while let Some((s, turns)) = open.pop() {
        assert!(turns < 4, "too many turns");
        for &(_, press) in PRESSES.iter().filter(|(now, _)| *now == s && s != 3) {
            let next = table.react(&accounts, Strategy::new(GAME), s, press);
            open.push((next.unwrap(), turns + 1));
        }
    }
}

#[test]
fn limits() {
    let mut accounts = [Account::unlimited()];
    let won = ladder()
        .force(&mut accounts, Target::register(WON), GAME)
        .unwrap();
    let before = ladder().into_words();
    let mut room = ladder();
    let edges = [
        (Account::limited(won.peak, 5), 5, None),
        (Account::limited(won.peak - 1, 5), 5, Some(Refusal::Full)),
        (Account::limited(won.peak, 4), 5, Some(Refusal::Spent)),
        (Account::limited(won.peak, 5), 4, Some(Refusal::Spent)),
        (Account::limited(0, 0), 5, Some(Refusal::Spent)),
        (Account::limited(0, 1), 5, Some(Refusal::Full)),
    ];
    for (account, most, refusal) in edges {
        let strategy = Strategy::new(GAME).rounds(most);
        let reacted = room.react(&[account], strategy, 0, 6);
        assert_eq!(reacted, refusal.map_or(Ok(1), Err));
        let mut list = [account];
        let target = Target::register(WON).rounds(most);
        let forced = ladder().force(&mut list, target, GAME);
        assert_eq!(forced.err(), refusal);
        let tally = if refusal.is_some() { 0 } else { 5 };
        assert_eq!(list, [Account { tally, ..account }]);
    }
    // Registers and relations are what they were.
    let mut whole = Table::over(before).unwrap();
    assert_eq!(room.count(GOAL), Ok(1));
    assert_eq!(room.collect(), whole.collect());
}

/// A table of as many rows as the peak is enough, and one row less is not.
#[test]
fn rows_of_the_table() {
    let mut accounts = [Account::unlimited()];
    let won = ladder().force(&mut accounts, Target::register(WON), GAME);
    let won = won.unwrap();
    for rows in [won.peak, won.peak - 1] {
        let mut small = table(rows, Formula::truth(), PRESSES, REPLIES);
        let forced = small.force(&mut accounts, Target::register(WON), GAME);
        let wanted = if rows == won.peak {
            Ok(won.peak)
        } else {
            Err(Refusal::Full)
        };
        assert_eq!(forced.map(|forced| forced.peak), wanted);
    }
}

/// Relation 3 is empty.
const EMPTY: Game = Game::new(GOAL, GUEST, 3);

/// 3 comes before 14 and 7.
#[test]
fn numbers_out_of_range() {
    let mut table = ladder();
    let words = table.words().to_vec();
    let games = [
        Game { goal: 32, ..EMPTY },
        Game { guest: 8, ..EMPTY },
        Game {
            machine: u32::MAX,
            ..EMPTY
        },
    ];
    for game in games {
        let forced = table.force(&mut [], Target::register(WON), game);
        assert_eq!(forced, Err(Refusal::Range));
        assert_eq!(
            table.react(&[], Strategy::new(game), 0, 0),
            Err(Refusal::Range)
        );
    }
    let forced = table.force(&mut [], Target::register(32), EMPTY);
    assert_eq!(forced, Err(Refusal::Range));
    for (s, press) in [(8, 0), (0, 8)] {
        assert_eq!(
            table.react(&[], Strategy::new(EMPTY), s, press),
            Err(Refusal::Range)
        );
    }
    assert_eq!(table.words(), words);
    // 2 comes before 3.
    table.words_mut()[0] = 17;
    let forced = table.force(&mut [], Target::register(32), games[0]);
    assert_eq!(forced, Err(Refusal::Unsound));
    assert_eq!(
        table.react(&[], Strategy::new(games[0]), 8, 8),
        Err(Refusal::Unsound)
    );
}

/// 14 comes before 7, and 7 before 8 and 9; accounts and words are kept.
#[test]
fn accounts_and_empty_places() {
    let mut table = ladder();
    let words = table.words().to_vec();
    let mut nine = [Account::unlimited(); 9];
    for place in [0, 1, 8, usize::MAX] {
        for list in [&mut [][..], &mut nine[..]] {
            let strategy = Strategy::new(EMPTY).account(place);
            assert_eq!(table.react(list, strategy, 0, 0), Err(Refusal::Unlisted));
            let target = Target::register(WON).account(place);
            assert_eq!(table.force(list, target, EMPTY), Err(Refusal::Unlisted));
        }
    }
    let mut accounts = [Account::limited(0, 0)];
    for game in [EMPTY, Game { goal: 8, ..GAME }, Game { guest: 7, ..GAME }] {
        let forced = table.force(&mut accounts, Target::register(WON), game);
        assert_eq!(forced, Err(Refusal::Empty));
        let reacted = table.react(&accounts, Strategy::new(game), 3, 3);
        assert_eq!(reacted, Err(Refusal::Empty));
    }
    assert_eq!(table.words(), words);
    assert_eq!(accounts, [Account::limited(0, 0)]);
}

/// Moves to and from states that do not exist are no moves: without 5, state 1 has no press.
#[test]
fn states_that_cannot_be() {
    let mut accounts = [Account::unlimited()];
    let valid = !state(3, 5, Formula::current);
    let mut table = table(300, valid, PRESSES, REPLIES);
    table
        .force(&mut accounts, Target::register(WON), GAME)
        .unwrap();
    assert_eq!(table.states(WON).unwrap().collect::<Vec<u32>>(), [2, 3]);
    let reacted = table.react(&accounts, Strategy::new(GAME), 1, 5);
    assert_eq!(reacted, Err(Refusal::NoAnswer));
}
