//! Slip 8 in rooms that are too large for the separate evaluator: both calls against the attractor over explicit moves,
//! with 8 and 9 at an account's edges.

use calls::kept;
use calls::turns::{both, draw_turn, either, force, keeps, react, state, turns};
use calls::turns::{Pairs, Under, NAMED, PLENTY, TARGET};
use calls::words::FIRST_REGISTER;
use calls::writer::frame;
use kudzuclamp::{Account, Table, Target};
use reference::accounts::Account as BookAccount;
use reference::game::{rounds, Game};
use reference::random::Random;
use reference::states::StateSet;

/// How many presses had an answer, and how many none.
#[derive(Debug, Default)]
struct Seen {
    answered: u64,
    none: u64,
}

/// A move that turns some bits over, turns some on, and keeps the others.
#[derive(Clone, Copy, Debug)]
struct Move {
    turned: usize,
    lit: usize,
}

impl Move {
    fn formula(self, n: u32) -> Vec<u8> {
        let bit = |p: u8| match (self.turned >> p & 1, self.lit >> p & 1) {
            (_, 1) => vec![0x20 + p],
            (1, _) => turns(p),
            _ => keeps(p),
        };
        both((0..n as u8).map(bit).collect())
    }

    fn pairs(self, n: u32) -> impl Iterator<Item = (usize, usize)> {
        (0..1 << n).map(move |now| (now, now ^ self.turned | self.lit))
    }
}

/// A room that is too large for the evaluator: the game by its moves, and a table with it.
struct Hall {
    n: u32,
    words: Vec<u32>,
    game: Game,
}

impl Hall {
    fn new(n: u32, moves: [(&[u8], Pairs); 2], goal: (&[u8], StateSet)) -> Hall {
        let mut accounts = [Account::unlimited()];
        let mut table = Table::new(&mut accounts, n, 20_000).expect("sizes fit");
        let [(guest, presses), (machine, replies)] = moves;
        for (t, bytes) in [(NAMED.guest, guest), (NAMED.machine, machine)] {
            table
                .relation(t as u32, frame(bytes))
                .expect("rows in plenty");
        }
        let target = Target::register(NAMED.goal as u32);
        let stored = table.set(&mut accounts, target, frame(goal.0));
        stored.expect("rows in plenty");
        Hall {
            n,
            words: table.into_words(),
            game: Game::new(presses, replies, goal.1),
        }
    }

    /// The set, its rounds, the edges of 8 and 9 by an account, and so many answers; gives the rounds.
    fn compare(&mut self, random: &mut Random, seen: &mut Seen, answers: usize) -> u32 {
        let entries = self.game.entries();
        let rounds = rounds(&entries);
        let before = self.words.clone();
        let (got, _) = force(&mut self.words, PLENTY, TARGET, NAMED);
        assert_eq!([got[0], got[2]], [0, rounds]);
        kept::needed(&before, &self.words, Some(FIRST_REGISTER + TARGET as usize)).unwrap();
        let table = Table::over(&self.words[..]).expect("sound");
        let won = table.states(TARGET as u32).expect("filled");
        let entered = (0u32..).zip(&entries).filter(|(_, entry)| entry.is_some());
        assert!(won.eq(entered.map(|(state, _)| state)));
        self.words = before;
        for (rows, own, number) in [
            (got[3], rounds, 0),
            (got[3] - 1, rounds, 8),
            (got[3], rounds - 1, 9),
        ] {
            let accounts = [BookAccount::new(rows, own)];
            let under = Under {
                accounts: &accounts,
                ..PLENTY
            };
            assert_eq!(
                force(&mut self.words.clone(), under, TARGET, NAMED).0[0],
                number
            );
            let (state, press) = draw_turn(random, self.n);
            let ([given, _], _) = react(&mut self.words.clone(), under, NAMED, (state, press));
            assert_eq!(if given == 15 { 0 } else { given }, number);
        }
        self.compare_answers(random, seen, &entries, answers);
        rounds
    }

    /// States and presses, most of them such as have an answer.
    fn compare_answers(
        &mut self,
        random: &mut Random,
        seen: &mut Seen,
        entries: &[Option<u32>],
        many: usize,
    ) {
        for _ in 0..many {
            let (state, mut press) = draw_turn(random, self.n);
            let presses = self.game.presses(state as usize);
            if !presses.is_empty() && random.chance(85) {
                press = random.pick(presses) as u64;
            }
            self.compare_answer(seen, entries, (state, press));
        }
    }

    fn compare_answer(&mut self, seen: &mut Seen, entries: &[Option<u32>], turn: (u64, u64)) {
        let (state, press) = (turn.0 as usize, turn.1 as usize);
        let answer = self.game.answer(entries, state, press);
        let wanted = answer.map_or([15, 0], |answer| [0, answer as u32]);
        let before = self.words.clone();
        let (got, _) = react(&mut self.words, PLENTY, NAMED, turn);
        seen.answered += u64::from(got[0] == 0);
        seen.none += u64::from(got[0] == 15);
        assert_eq!(got, wanted, "{turn:?}");
        kept::needed(&before, &self.words, None).unwrap();
    }
}

/// Lamps: the guest turns one of some over, the machine turns some on; all of these are to be on.
#[test]
fn large_rooms() {
    let (mut random, mut seen) = (Random::new(88), Seen::default());
    let mut deepest = 0;
    for n in [6, 6, 7, 8, 8, 9, 10, 12, 14, 16] {
        let lamps: Vec<usize> = (0..5).map(|_| 1 << random.below(n.into())).collect();
        let press = |&lamp: &usize| Move {
            turned: lamp,
            lit: 0,
        };
        let mut guest: Vec<Move> = lamps[..3].iter().map(press).collect();
        guest.extend(random.chance(50).then_some(Move { turned: 0, lit: 0 }));
        let lights = |random: &mut Random| Move {
            turned: 0,
            lit: random.pick(&lamps) | random.pick(&lamps),
        };
        let machine: Vec<Move> = (0..4).map(|_| lights(&mut random)).collect();
        let formula = |moves: &[Move]| either(moves.iter().map(|m| m.formula(n)).collect());
        let pairs = |moves: &[Move]| moves.iter().flat_map(|m| m.pairs(n)).collect::<Vec<_>>();
        let all = machine.iter().fold(0, |all, m| all | m.lit);
        let lit = (0..n as u8).filter(|p| all >> p & 1 == 1);
        let goal = both(lit.map(|p| vec![0x10 + p]).collect());
        let mut hall = Hall::new(
            n,
            [
                (&formula(&guest), pairs(&guest)),
                (&formula(&machine), pairs(&machine)),
            ],
            (&goal, StateSet::from_fn(n, |s| s & all == all)),
        );
        deepest = deepest.max(hall.compare(&mut random, &mut seen, 12));
    }
    eprintln!("{seen:?}, at most {deepest} rounds");
    assert!(
        seen.answered > 15 && seen.none > 15 && deepest > 3,
        "{seen:?}"
    );
}

/// The machine counts up, the guest leaves it as it is, and the goal is 0: a state enters in each round, 1 in the last.
fn counter(n: u32) -> Hall {
    let bits = 0..n as u8;
    let carried = |p: u8| vec![0x03, 0x0F + p, 0x02, 0x1F + p];
    // A bit turns over exactly where the one below it turns from 1 to 0.
    let above = |p: u8| {
        let both_so = [vec![0x03], turns(p), carried(p)].concat();
        let neither = [vec![0x03, 0x02], turns(p), vec![0x02], carried(p)].concat();
        [vec![0x04], both_so, neither].concat()
    };
    let turned = |p: u8| if p == 0 { turns(0) } else { above(p) };
    let count = both(bits.clone().map(turned).collect());
    let stay = both(bits.map(keeps).collect());
    let last = (1usize << n) - 1;
    let counted = (0..=last).map(|now| (now, (now + 1) & last)).collect();
    let stayed = (0..=last).map(|now| (now, now)).collect();
    let goal = (&state(n, 0x10, 0)[..], StateSet::from_fn(n, |s| s == 0));
    Hall::new(n, [(&stay, stayed), (&count, counted)], goal)
}

#[test]
fn as_many_rounds_as_there_are() {
    let (mut random, mut seen) = (Random::new(89), Seen::default());
    let mut hall = counter(8);
    assert_eq!(hall.compare(&mut random, &mut seen, 20), 257);
    assert!(seen.answered > 10, "{seen:?}");
}

/// Presses without an answer, in the goal and elsewhere, over 4,097 rounds: each call takes as long as one with an
/// answer, and goes through the states in no round, or in one.
#[test]
fn no_answer_in_many_rounds() {
    let mut seen = Seen::default();
    let mut hall = counter(12);
    let (entries, last) = (hall.game.entries(), (1 << 12) - 1);
    assert_eq!(rounds(&entries), 4_097);
    // In the goal, pressed to where the answer enters last; no move of the guest's, from the goal and from elsewhere.
    for turn in [(0, 0), (0, 9), (last, 0), (last, 1), (7, 6)] {
        hall.compare_answer(&mut seen, &entries, turn);
    }
    assert_eq!((seen.answered, seen.none), (0, 5));
    for turn in [(1, 1), (last, last)] {
        hall.compare_answer(&mut seen, &entries, turn);
    }
    assert_eq!((seen.answered, seen.none), (2, 5));
}
