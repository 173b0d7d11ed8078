//! Random rooms: the library and the plain walk agree, runs are runs and shortest ones, the records say the same; and where the
//! two are given different rooms, no verdict passes that is not both rooms' own.
use room::ask::{press, Asker, Difference, Limits, Verdict};
use room::echo::echo;
use room::plan::{plan, Plan, ANSWER, START_IN_ANSWER};
use room::read::read;
use room::records::{records, ROOMRULES_ROWS, ROOMRULES_WORDS};
use room::room::{Asked, Change, Cond, Room, Rule};
use room::standing::{Judge, Standing};
use room::stepper::Stepper;
use room::steps::Steps;
use room::walk::{End, Run, Walk};
use room::{changes, compare, diff, sense};
use std::collections::{BTreeMap, VecDeque};

/// Numbers of a small generator, each below a bound.
struct Drawn(u64);

impl Drawn {
    fn below(&mut self, bound: usize) -> usize {
        self.0 = self
            .0
            .wrapping_mul(6364136223846793005)
            .wrapping_add(1442695040888963407);
        (self.0 >> 33) as usize % bound
    }

    /// A condition over so many things and selectors.
    fn cond(&mut self, things: usize, selectors: usize, depth: usize) -> String {
        if depth == 0 || self.below(3) == 0 {
            let at = self.below(things + selectors);
            return match at < things {
                true => format!("t{at}"),
                false => format!("s{} = p{}", at - things, self.below(3)),
            };
        }
        let (f, g) = (
            self.cond(things, selectors, depth - 1),
            self.cond(things, selectors, depth - 1),
        );
        match self.below(3) {
            0 => format!("not ({f})"),
            1 => format!("({f}) and ({g})"),
            _ => format!("({f}) or ({g})"),
        }
    }

    fn effect(&mut self, at: usize, things: usize) -> String {
        if at >= things {
            return format!("s{} = p{}", at - things, self.below(3));
        }
        let verb = ["on", "off", "turns over"][self.below(3)];
        format!("t{at} {verb}")
    }

    /// A room file.
    fn room(&mut self) -> String {
        let (things, selectors) = (1 + self.below(4), self.below(3));
        let names: Vec<String> = (0..things).map(|k| format!("t{k}")).collect();
        let mut text = format!("things: {}\n", names.join(" "));
        for k in 0..selectors {
            let positions = ["p0 p1 p2", "p0 p1 p2 p3 p4", "p0 p1 p2 p3"][self.below(3)];
            text += &format!("selector s{k}: {positions}\n");
        }
        text += &format!(
            "start: {}\n",
            ["all off", "all off", "t0 on", "t0 on", "any"][self.below(5)]
        );
        for k in 0..1 + self.below(6) {
            let first = self.below(things + selectors);
            let mut effects = vec![self.effect(first, things)];
            let second = self.below(things + selectors);
            if second != first {
                effects.push(self.effect(second, things));
            }
            let when = match self.below(3) {
                0 => String::new(),
                _ => format!(" when {}", self.cond(things, selectors, 2)),
            };
            text += &format!("press B{}: {}{when}\n", k / 2, effects.join(", "));
        }
        for _ in 0..3 {
            let (f, g) = (
                self.cond(things, selectors, 2),
                self.cond(things, selectors, 2),
            );
            text += &match self.below(7) {
                4 => format!("possible: {f}\n"),
                5 => {
                    let h = self.cond(things, selectors, 2);
                    format!("whenever {f}: {g} unless {h}\n")
                }
                6 => format!("B0 works whenever {f}\n"),
                0 => format!("never {f}\n"),
                1 => format!("always possible: {f}\n"),
                2 => format!("{f} until {g}\n"),
                _ => format!("{f} unless {g}\n"),
            };
        }
        text
    }
}

/// Rooms that make sense, as many as wanted.
fn rooms(seed: u64, count: usize) -> Vec<Room> {
    let mut draw = Drawn(seed);
    let mut rooms = Vec::new();
    while rooms.len() < count {
        let room = read(&draw.room()).expect("a drawn room can be read");
        if sense::mistakes(&room).is_empty() {
            rooms.push(room);
        }
    }
    rooms
}

/// The verdicts on a room, by a plan and a walk.
fn verdicts(
    room: &Room,
    plan: &Plan,
    walk: &Walk,
    limits: Limits,
) -> Result<Vec<Verdict>, Difference> {
    let mut asker = Asker::new(room, walk, plan, limits)?;
    (0..room.questions.len())
        .map(|place| asker.ask(place))
        .collect()
}

fn own(room: &Room) -> Vec<Verdict> {
    let plan = plan(room).unwrap();
    verdicts(room, &plan, &Walk::new(room), Limits::LARGEST)
        .unwrap_or_else(|difference| panic!("{}\n{}", difference.says, echo(room)))
}

/// How many presses a state is from the start, at least, through states that a test admits before it.
fn presses_to(
    room: &Room,
    goal: impl Fn(u32) -> bool,
    through: impl Fn(u32) -> bool,
) -> Option<usize> {
    let mut seen: Vec<bool> = (0..room.patterns())
        .map(|state| room.is_start(state))
        .collect();
    let starts = (0..room.patterns()).filter(|&state| room.is_start(state));
    let mut open: VecDeque<(u32, usize)> = starts.map(|state| (state, 0)).collect();
    while let Some((state, presses)) = open.pop_front() {
        if goal(state) {
            return Some(presses);
        }
        for to in room
            .rules
            .iter()
            .filter(|_| through(state))
            .filter_map(|rule| room.pressed(rule, state))
        {
            if !std::mem::replace(&mut seen[to as usize], true) {
                open.push_back((to, presses + 1));
            }
        }
    }
    None
}

/// The fewest presses, up to so many, after which a run through states that a test admits is in a state where it was before: for
/// each state, the presses to it and those round to it.
fn presses_to_a_return(room: &Room, through: impl Fn(u32) -> bool, most: usize) -> Option<usize> {
    // How many presses a state is from another, one at least, and so many at most.
    let leads = |from: u32, to: u32, most: usize| {
        let mut layer = vec![from];
        let mut seen = vec![false; room.patterns() as usize];
        for presses in 1..=most {
            let mut wider = Vec::new();
            for (state, rule) in layer
                .iter()
                .flat_map(|state| room.rules.iter().map(move |rule| (*state, rule)))
            {
                match room.pressed(rule, state).filter(|&next| through(next)) {
                    Some(next) if next == to => return Some(presses),
                    Some(next) if !std::mem::replace(&mut seen[next as usize], true) => {
                        wider.push(next)
                    }
                    _ => {}
                }
            }
            layer = wider;
        }
        None
    };
    let there = |state: u32| match room.is_start(state) {
        true => Some(0),
        false => leads(room.start, state, most),
    };
    let states = room.all_states().into_iter().filter(|&s| through(s));
    let round = |state: u32| {
        let before = there(state)?;
        Some(before + leads(state, state, most - before)?)
    };
    states.filter_map(round).min()
}

/// The room with another start.
fn begins(room: &Room, start: u32) -> Room {
    Room {
        start,
        any_start: false,
        ..room.clone()
    }
}

/// The fewest presses to a state that meets the first, and from there on to one in which the second does not hold, with the third
/// in none of them from there on.
fn presses_since(room: &Room, [x, y, z]: [&Cond; 3]) -> Option<usize> {
    let waits = |state: u32| !room.holds(z, state);
    let lost = |state: u32| waits(state) && !room.holds(y, state);
    let states = room.all_states().into_iter();
    let ways = states
        .filter(|&state| room.holds(x, state))
        .filter_map(|since| {
            let there = presses_to(room, |state| state == since, |_| true)?;
            Some(there + presses_to(&begins(room, since), lost, waits)?)
        });
    ways.min()
}

/// A way to where it must be possible to come is a shortest one, from the farthest start.
fn check_way(room: &Room, cond: &Cond, run: &Run) {
    let presses = run.states.len() - 1;
    let there = |state| room.holds(cond, state);
    let from = |start: u32| presses_to(&begins(room, start), there, |_| true);
    assert!(run.end == End::Reached && there(run.states[presses]));
    assert_eq!(from(run.states[0]), Some(presses));
    let starts = (room.all_states().into_iter()).filter(|&state| room.is_start(state));
    assert!(starts
        .map(from)
        .all(|found| found.is_some_and(|found| found <= presses)));
}

/// A run into trouble shows what it says, and no shorter one does.
fn check(room: &Room, asked: &Asked, run: &Run) {
    let presses = run.states.len() - 1;
    let last = run.states[presses];
    assert!(room.is_start(run.states[0]) && run.least);
    assert!(run
        .states
        .windows(2)
        .all(|pair| press(room, pair[0], pair[1]).is_some()));
    let leads = |cond, from: u32| {
        presses_to(
            &begins(room, from),
            |state| room.holds(cond, state),
            |_| true,
        )
        .is_some()
    };
    let stuck = |state: u32| {
        room.rules
            .iter()
            .all(|rule| room.pressed(rule, state).is_none())
    };
    match asked {
        Asked::Never(x) => {
            assert!(room.holds(x, last) && run.end == End::Reached);
            assert_eq!(
                presses_to(room, |state| room.holds(x, state), |_| true),
                Some(presses)
            );
        }
        Asked::AlwaysPossible(x) => {
            assert!(!leads(x, last) && run.end == End::NoWay);
            assert_eq!(
                presses_to(room, |state| !leads(x, state), |_| true),
                Some(presses)
            );
        }
        Asked::Until(x, y) => {
            assert!(run.states.iter().all(|&state| !room.holds(y, state)));
            assert!(run.states[..presses]
                .iter()
                .all(|&state| room.holds(x, state)));
            let lost =
                |state: u32| !room.holds(y, state) && (!room.holds(x, state) || stuck(state));
            let ends = presses_to(room, lost, |state| !room.holds(y, state));
            let returns = presses_to_a_return(room, |state| !room.holds(y, state), presses);
            assert!(ends.is_none_or(|ends| ends >= presses));
            match run.end {
                End::Lost => assert!(!room.holds(x, last) && ends == Some(presses)),
                End::Stuck => assert!(stuck(last) && ends == Some(presses)),
                End::Circle(place) => {
                    assert!(run.states[place] == last && place < presses);
                    assert!(returns == Some(presses) && ends != Some(presses));
                }
                _ => panic!("an until does not end so"),
            }
            assert!(returns.is_none_or(|returns| returns >= presses));
        }
        Asked::Unless(x, y) => {
            let lost = |state: u32| !room.holds(y, state) && !room.holds(x, state);
            let shortest = presses_to(room, lost, |state| !room.holds(y, state));
            assert!(run.end == End::Lost && lost(last) && shortest == Some(presses));
        }
        Asked::Possible(x) => {
            assert!(run.end == End::NoWay && presses == 0 && !leads(x, last));
        }
        Asked::Whenever(x, y, z) => {
            let End::LostSince(place) = run.end else {
                panic!("a whenever does not end so");
            };
            assert!(room.holds(x, run.states[place]) && !room.holds(y, last));
            let after = &run.states[place..];
            assert!(after.iter().all(|&state| !room.holds(z, state)));
            assert_eq!(presses_since(room, [x, y, z]), Some(presses));
        }
        Asked::Works(press, x) => {
            let works = |rule: &Rule, state| rule.press == *press && room.works(rule, state);
            let fails = |state: u32| {
                room.holds(x, state) && !room.rules.iter().any(|rule| works(rule, state))
            };
            assert!(run.end == End::DoesNotWork && fails(last));
            assert_eq!(presses_to(room, fails, |_| true), Some(presses));
        }
    }
}

#[test]
fn the_library_and_the_walk_agree() {
    let mut kinds = BTreeMap::new();
    for room in rooms(1, 1_500) {
        for (question, verdict) in room.questions.iter().zip(own(&room)) {
            let kind = match (&question.asked, &verdict) {
                (_, Verdict::Broken(run)) => format!("{:?}", run.end)
                    .split('(')
                    .next()
                    .unwrap_or_default()
                    .to_string(),
                (Asked::Never(_), _) => "never: safe".to_string(),
                (Asked::AlwaysPossible(_), _) => "always possible: safe".to_string(),
                (Asked::Until(..), _) => "until: safe".to_string(),
                (Asked::Unless(..), _) => "unless: safe".to_string(),
                (Asked::Possible(_), _) => "possible: safe".to_string(),
                (Asked::Whenever(..), _) => "whenever: safe".to_string(),
                (Asked::Works(..), _) => "works: safe".to_string(),
            };
            *kinds.entry(kind).or_insert(0) += 1;
            match (&verdict, &question.asked) {
                (Verdict::Broken(run), asked) => check(&room, asked, run),
                (Verdict::Safe(Some(run)), Asked::Possible(x)) => check_way(&room, x, run),
                (verdict, asked) => {
                    assert_eq!(*verdict, Verdict::Safe(None));
                    assert!(!matches!(asked, Asked::Possible(_)));
                }
            }
        }
    }
    println!("{kinds:?}");
    assert!(
        kinds.len() == 14 && kinds.values().all(|&count| count > 20),
        "{kinds:?}"
    );
}

/// The condition that a state alone meets.
fn only(room: &Room, state: u32) -> Cond {
    let parts = room.parts.iter().enumerate();
    Cond::All(
        parts
            .map(|(k, part)| Cond::Is(k, part.value(state)))
            .collect(),
    )
}

/// What must hold in all states but one until another state comes: many runs into that one are longer than a way round.
#[test]
fn the_shorter_of_two_runs() {
    let mut draw = Drawn(7);
    let (mut lost, mut round, mut sooner) = (0, 0, 0);
    for mut room in rooms(7, 500) {
        let states = room.all_states();
        let mut state = || only(&room, states[draw.below(states.len())]);
        let (bad, comes) = (state(), state());
        let asked = Asked::Until(Cond::Not(Box::new(bad.clone())), comes.clone());
        room.questions.truncate(1);
        room.questions[0].asked = asked.clone();
        if let Verdict::Broken(run) = &own(&room)[0] {
            check(&room, &asked, run);
            let waits = |state: u32| !room.holds(&comes, state);
            let loses = |state: u32| waits(state) && room.holds(&bad, state);
            match run.end {
                End::Circle(_) if presses_to(&room, loses, waits).is_some() => sooner += 1,
                End::Circle(_) => round += 1,
                _ => lost += 1,
            }
        }
    }
    println!("{lost} lost or stuck, {round} round, {sooner} sooner round than lost");
    assert!(
        lost > 20 && round > 20 && sooner > 5,
        "{lost} {round} {sooner}"
    );
}

/// The reading back of a room has the same verdicts.
#[test]
fn read_back() {
    for room in rooms(2, 200) {
        let again = read(&echo(&room)).unwrap();
        assert_eq!(own(&again), own(&room));
    }
}

/// The records, played by the library, count 1 or 0 states where the verdicts say so.
#[test]
fn records_say_the_same() {
    for room in rooms(3, 200) {
        let plan = plan(&room).unwrap();
        let limits = Limits {
            rows: ROOMRULES_ROWS,
            ..Limits::LARGEST
        };
        let text = records(&room, &plan, limits, "a room").unwrap();
        let hex = text.lines().map(|line| line.split('#').next().unwrap());
        let bytes: Vec<u8> = hex
            .flat_map(str::split_whitespace)
            .map(|byte| u8::from_str_radix(byte, 16).unwrap())
            .collect();
        let outcomes = kudzuclamp::play(&mut vec![0; ROOMRULES_WORDS], &bytes).unwrap();
        assert!(outcomes.iter().all(|outcome| outcome.refusal.is_none()));
        let mut at = 1 + plan.relations.len() + plan.sets.len();
        for (asking, verdict) in plan.questions.iter().zip(own(&room)) {
            at += asking.sets.len();
            assert_eq!(asking.sets.last().unwrap().place, START_IN_ANSWER);
            let value = outcomes[at - 1].value;
            let all = if room.any_start { room.states() } else { 1 };
            let safe = if asking.holds {
                value == all
            } else {
                value == 0
            };
            assert_eq!(safe, matches!(verdict, Verdict::Safe(_)));
        }
        assert_eq!(at, outcomes.len());
    }
}

/// A room that is another one by one change.
fn changed(room: &Room, draw: &mut Drawn) -> Room {
    let mut other = room.clone();
    let rule = draw.below(other.rules.len());
    match draw.below(4) {
        0 => other.start ^= 1,
        1 => other.rules[rule].when = None,
        2 => {
            let effect = &mut other.rules[rule].effects[0];
            effect.change = match effect.change {
                Change::Becomes(value) => Change::Becomes(1 - value.min(1)),
                Change::TurnsOver => Change::Becomes(1),
            };
        }
        _ if other.rules.len() > 1 => {
            other.rules.remove(rule);
        }
        _ => {}
    }
    other
}

/// The library is asked about one room, the walk goes through another: where their verdicts differ, that is told.
#[test]
fn differences_are_found() {
    let mut draw = Drawn(4);
    let (mut told, mut differ) = (0, 0);
    for room in rooms(5, 1_000) {
        let other = changed(&room, &mut draw);
        let passed = verdicts(
            &other,
            &plan(&room).unwrap(),
            &Walk::new(&other),
            Limits::LARGEST,
        );
        let safe = |verdicts: &[Verdict]| -> Vec<bool> {
            verdicts
                .iter()
                .map(|verdict| matches!(verdict, Verdict::Safe(_)))
                .collect()
        };
        let (one, two) = (safe(&own(&room)), safe(&own(&other)));
        differ += usize::from(one != two);
        match passed {
            Err(_) => told += 1,
            Ok(verdicts) => assert!(
                safe(&verdicts) == one && one == two,
                "{}{}",
                echo(&room),
                echo(&other)
            ),
        }
    }
    println!("{told} told, {differ} with other verdicts");
    assert!(differ > 100 && told > differ);
}

/// Two rooms side by side: the library finds the same states that can come, and the same in which a press does something else;
/// another set than the walk's is told.
#[test]
fn comparisons() {
    let mut draw = Drawn(8);
    let (mut same, mut other, mut told) = (0, 0, 0);
    for room in rooms(8, 200) {
        let changed = changed(&room, &mut draw);
        for room in [&room, &changed] {
            assert_eq!(
                compare::reached(room, &Walk::new(room), Limits::LARGEST),
                Ok(true)
            );
        }
        for press in diff::presses(&room, &changed) {
            let mut differs = diff::changed(&room, &changed, press);
            let check =
                |set: &Vec<bool>| compare::press(&room, &changed, press, set, Limits::LARGEST);
            assert_eq!(check(&differs), Ok(true));
            match differs.contains(&true) {
                true => other += 1,
                false => same += 1,
            }
            let at = room.start as usize;
            differs[at] = !differs[at];
            told += usize::from(check(&differs).is_err());
        }
        let aligned = diff::aligned(&room, &room);
        assert_eq!(aligned, Some(room.clone()));
        let walk = Walk::new(&changed);
        let wrong = compare::reached(&room, &walk, Limits::LARGEST).is_err();
        assert_eq!(wrong, walk.reached() != Walk::new(&room).reached());
    }
    println!("{same} the same, {other} others, {told} told");
    assert!(same > 50 && other > 50 && told == same + other);
}

/// A press whose conditions are too long for one relation of both rooms is compared bit by bit; where it leads to two states as
/// well, the library is not asked.
#[test]
fn comparisons_of_long_presses() {
    let things: Vec<String> = (0..16).map(|k| format!("t{k}")).collect();
    let all = |joint: &str, first: usize| things[first..].join(joint);
    let room = |press: &str| {
        let long = format!(
            "({}) or not ({}) or ({})",
            all(" and ", 1),
            all(" or ", 2),
            all(" and ", 3)
        );
        let text = format!(
            "things: {}\nstart: all off\npress A: {press}\n",
            things.join(" ")
        );
        let more = format!("press A: t1 on when t0 and not t1 and not t2 and ({long})\nnever t0\n");
        read(&(text.replace("LONG", &long) + &more)).unwrap()
    };
    let old = room("t0 turns over, t1 off when not t0 and (LONG)");
    let new = room("t0 turns over when not t0 and (LONG)");
    let mut set = diff::changed(&old, &new, "A");
    let check = |new: &Room, set: &Vec<bool>| compare::press(&old, new, "A", set, Limits::LARGEST);
    assert!(set.contains(&true) && set.contains(&false));
    assert_eq!(check(&new, &set), Ok(true));
    set[5] = !set[5];
    assert!(check(&new, &set).is_err());
    let two_ways = room("t0 turns over when LONG");
    assert_eq!(
        check(&two_ways, &diff::changed(&old, &two_ways, "A")),
        Ok(false)
    );
}

/// Answers that are damaged on the way: each set of the last question is another one.
#[test]
fn damaged_plans_are_found() {
    let text = "things: a b c\nstart: all off\npress A: a on\npress B: b on when a\npress C: c turns over\nalways possible: c\n";
    let room = read(text).unwrap();
    let good = plan(&room).unwrap();
    let asked = |plan: &Plan| verdicts(&room, plan, &Walk::new(&room), Limits::LARGEST);
    assert_eq!(asked(&good), Ok(vec![Verdict::Safe(None)]));
    let sets = good.questions[0].sets.len();
    for at in 0..sets {
        let mut bad = good.clone();
        let set = &mut bad.questions[0].sets[at];
        set.formula = !&set.formula;
        assert!(asked(&bad).is_err(), "set {at}");
    }
    for place in 0..2 {
        let mut bad = good.clone();
        bad.sets[place].formula = !&bad.sets[place].formula;
        assert!(asked(&bad).is_err());
    }
    let mut bad = good.clone();
    bad.relations[0].formula = kudzuclamp::Formula::falsity();
    assert!(asked(&bad).is_err());
    // What is no formula is told, too, and is no missing verdict.
    let mut bad = good.clone();
    bad.questions[0].sets[0].formula = kudzuclamp::Formula::current(7);
    let says = asked(&bad).unwrap_err().says;
    assert_eq!(
        says,
        "the library refuses the question with 4: the bytes are no formula for this call"
    );
    let mut bad = good.clone();
    bad.questions[0].holds = !bad.questions[0].holds;
    assert!(asked(&bad).is_err());
    assert_eq!(good.questions[0].sets[sets - 2].place, ANSWER);
}

/// A small table or few rounds give no verdict, and never a wrong one.
#[test]
fn limits() {
    let (mut full, mut spent) = (0, 0);
    for room in rooms(6, 60) {
        let (walk, plan, good) = (Walk::new(&room), plan(&room).unwrap(), own(&room));
        for rows in [1, 5, 10, 20, 40, 80] {
            for rounds in [0, 1, 2, 3, 60_000] {
                let found = verdicts(&room, &plan, &walk, Limits { rows, rounds }).unwrap();
                for (verdict, good) in found.iter().zip(&good) {
                    match verdict {
                        Verdict::None(kudzuclamp::Refusal::Full) => full += 1,
                        Verdict::None(kudzuclamp::Refusal::Spent) => spent += 1,
                        verdict => assert_eq!(verdict, good),
                    }
                }
            }
        }
    }
    assert!(full > 100 && spent > 100, "{full} {spent}");
}

/// Whether the states of a run break a question by what it means, however the run goes on, and also if it does not.
fn breaks(room: &Room, asked: &Asked, states: &[u32]) -> bool {
    let last = states[states.len() - 1];
    let all = |cond: &Cond, states: &[u32]| states.iter().all(|&state| room.holds(cond, state));
    let first = |cond: &Cond, states: &[u32]| {
        let comes = states.iter().position(|&state| room.holds(cond, state));
        comes.unwrap_or(states.len())
    };
    let leads = |from: u32, to: &Cond, through: Option<&Cond>| {
        let passes = |state| through.is_none_or(|cond| room.holds(cond, state));
        presses_to(&begins(room, from), |state| room.holds(to, state), passes).is_some()
    };
    match asked {
        Asked::Never(x) => room.holds(x, last),
        Asked::Works(press, x) => {
            let mut lines = room.rules.iter().filter(|rule| rule.press == *press);
            room.holds(x, last) && !lines.any(|rule| room.works(rule, last))
        }
        Asked::AlwaysPossible(x) => !leads(last, x, None),
        Asked::Possible(x) => !leads(states[0], x, None),
        Asked::Until(x, y) => {
            let came = first(y, states);
            let waits = came == states.len();
            !all(x, &states[..came]) || (waits && !leads(last, y, Some(x)))
        }
        Asked::Unless(x, y) => !all(x, &states[..first(y, states)]),
        Asked::Whenever(x, y, z) => (0..states.len()).any(|since| {
            let from = &states[since..];
            room.holds(x, from[0]) && !all(y, &from[..first(z, from)])
        }),
    }
}

/// The states of drawn presses from a start.
fn drawn_walk(room: &Room, draw: &mut Drawn, most: usize) -> Vec<u32> {
    let all = room.all_states();
    let starts: Vec<u32> = all.into_iter().filter(|&s| room.is_start(s)).collect();
    let mut states = vec![starts[draw.below(starts.len())]];
    for _ in 0..draw.below(most) {
        let state = states[states.len() - 1];
        let next = room
            .rules
            .iter()
            .filter_map(|rule| room.pressed(rule, state));
        let next: Vec<u32> = next.collect();
        if next.is_empty() {
            break;
        }
        states.push(next[draw.below(next.len())]);
    }
    states
}

/// The standings in every place of a run.
fn standings(judge: &Judge, states: &[u32]) -> Vec<Vec<Standing>> {
    let mut found = vec![judge.start(states[0])];
    for (at, &state) in states.iter().enumerate().skip(1) {
        found.push(judge.next(&found[at - 1], at, state));
    }
    found
}

/// The name of an enum's variant.
fn variant(of: &impl std::fmt::Debug) -> String {
    let text = format!("{of:?}");
    text.split('(').next().unwrap_or_default().to_string()
}

fn is_broken(standing: &Standing) -> bool {
    matches!(standing, Standing::Broken(..))
}

/// The way in which a run is said to break a question, in its last state, and in none before unless the state alone does.
fn said_rightly(room: &Room, asked: &Asked, states: &[u32], end: End) {
    let (last, before) = states.split_last().unwrap();
    assert!(breaks(room, asked, states));
    assert!(before.is_empty() || !breaks(room, asked, before));
    let holds = |cond: &Cond| room.holds(cond, *last);
    let works = room.rules.iter().any(|rule| room.works(rule, *last));
    match (end, asked) {
        (End::Lost, Asked::Until(x, y) | Asked::Unless(x, y)) => assert!(!holds(x) && !holds(y)),
        (End::Stuck, Asked::Until(x, _)) => assert!(!works && holds(x)),
        (End::NoWay, Asked::Until(x, _)) => assert!(works && holds(x)),
        (End::LostSince(place), Asked::Whenever(x, y, z)) => {
            let since = &states[place..];
            assert!(room.holds(x, since[0]) && !holds(y));
            assert!(since.iter().all(|&state| !room.holds(z, state)));
        }
        (End::Reached, Asked::Never(_)) | (End::DoesNotWork, Asked::Works(..)) => {}
        (End::NoWay, Asked::AlwaysPossible(_) | Asked::Possible(_)) => {}
        _ => panic!("{asked:?} is not broken so"),
    }
}

/// Walks through a room: how often a question is open, and how often it is broken, in which way.
fn judged(room: &Room, draw: &mut Drawn, kinds: &mut BTreeMap<String, usize>) {
    let (walk, verdicts) = (Walk::new(room), own(room));
    let judge = Judge::new(room, &walk);
    for _ in 0..4 {
        let states = drawn_walk(room, draw, 12);
        for (place, standings) in standings(&judge, &states).iter().enumerate() {
            for (at, standing) in standings.iter().enumerate() {
                let asked = &room.questions[at].asked;
                let broken = breaks(room, asked, &states[..=place]);
                assert_eq!(is_broken(standing), broken, "{asked:?}\n{}", echo(room));
                assert!(!broken || matches!(verdicts[at], Verdict::Broken(_)));
                let how = match standing {
                    Standing::Broken(since, end) => {
                        said_rightly(room, asked, &states[..=*since], *end);
                        variant(end)
                    }
                    _ => "open".to_string(),
                };
                *kinds.entry(variant(asked) + " " + &how).or_insert(0) += 1;
            }
        }
    }
}

/// A walk is said to break a question exactly where its state, or its run so far, breaks it; and no question that the library finds
/// safe is ever said to be broken.
#[test]
fn walks_break_what_they_are_said_to_break() {
    let mut draw = Drawn(9);
    let mut kinds = BTreeMap::new();
    for room in rooms(9, 600) {
        judged(&room, &mut draw, &mut kinds);
    }
    println!("{kinds:?}");
    // Seven kinds of questions, open or broken; an until in three ways.
    assert!(
        kinds.len() == 16 && kinds.values().all(|&count| count > 20),
        "{kinds:?}"
    );
}

/// The same of untils whose end can come, but not with what must hold up to it: half of the states are bad, and one is the end.
#[test]
fn walks_that_can_only_lose() {
    let mut draw = Drawn(14);
    let mut kinds = BTreeMap::new();
    let mut barred = 0;
    for mut room in rooms(14, 300) {
        let states = room.all_states();
        // The condition of more states would be too long for a formula.
        if states.len() > 24 {
            continue;
        }
        let comes = only(&room, states[draw.below(states.len())]);
        let bad = states.iter().filter(|_| draw.below(2) == 0);
        let bad = Cond::Any(bad.map(|&state| only(&room, state)).collect());
        room.questions.truncate(1);
        room.questions[0].asked = Asked::Until(Cond::Not(Box::new(bad.clone())), comes.clone());
        judged(&room, &mut draw, &mut kinds);
        let start = begins(&room, room.start);
        let leads = |through: &dyn Fn(u32) -> bool| {
            presses_to(&start, |state| room.holds(&comes, state), through).is_some()
        };
        let waits = !room.holds(&bad, room.start);
        barred += usize::from(waits && leads(&|_| true) && !leads(&|s| !room.holds(&bad, s)));
    }
    println!("{kinds:?}, {barred} from the start on");
    assert!(kinds.len() == 4 && barred > 5, "{kinds:?} {barred}");
}

/// Presses that are taken back leave nothing behind.
#[test]
fn presses_taken_back() {
    let mut draw = Drawn(15);
    let mut undone = 0;
    for room in rooms(15, 200) {
        let walk = Walk::new(&room);
        let (judge, mut steps) = (Judge::new(&room, &walk), Steps::new(&room, &walk));
        steps.begin(drawn_walk(&room, &mut draw, 1)[0]);
        for _ in 0..40 {
            let rule = &room.rules[draw.below(room.rules.len())];
            match room.pressed(rule, steps.state()) {
                Some(to) if draw.below(3) > 0 => steps.press((0, None), to),
                _ => undone += usize::from(steps.undo().is_some()),
            }
            let found = standings(&judge, steps.states());
            assert_eq!(Some(steps.standings()), found.last().map(Vec::as_slice));
            assert_eq!(steps.states().len(), steps.place() + 1);
        }
    }
    assert!(undone > 1_000, "{undone}");
}

/// A question that is said to be broken, and is safe by the library, is told.
#[test]
fn a_safe_question_is_not_broken() {
    let (mut told, mut broken) = (0, 0);
    for room in rooms(13, 100) {
        let (walk, plan) = (Walk::new(&room), plan(&room).unwrap());
        let mut asker = Asker::new(&room, &walk, &plan, Limits::LARGEST).unwrap();
        for (place, verdict) in own(&room).iter().enumerate() {
            let differs = asker.is_broken_too(place).is_err();
            assert_eq!(differs, matches!(verdict, Verdict::Safe(_)));
            told += usize::from(differs);
            broken += usize::from(!differs);
        }
    }
    assert!(told > 20 && broken > 20, "{told} {broken}");
}

/// The run into trouble that a verdict shows breaks its question in its last state, and not before; an until may be lost sooner, or
/// its last state was there before.
#[test]
fn runs_into_trouble_are_said_to_break_at_their_end() {
    let (mut sooner, mut round) = (0, 0);
    for room in rooms(10, 1_500) {
        let walk = Walk::new(&room);
        let judge = Judge::new(&room, &walk);
        for (at, verdict) in own(&room).iter().enumerate() {
            let Verdict::Broken(run) = verdict else {
                continue;
            };
            let found = standings(&judge, &run.states);
            let first = found.iter().position(|standings| is_broken(&standings[at]));
            let last = run.states.len() - 1;
            match (&room.questions[at].asked, run.end) {
                (Asked::Until(..), End::Circle(place)) => {
                    round += usize::from(first.is_none());
                    assert!(run.states[place] == run.states[last]);
                }
                (Asked::Until(..), _) => {
                    sooner += usize::from(first < Some(last));
                    assert!(first.is_some());
                }
                _ => assert_eq!(first, Some(last), "{}", echo(&room)),
            }
        }
    }
    assert!(sooner > 10 && round > 10, "{sooner} {round}");
}

/// What is said to be missing for a press does not hold, and no line of the press works anywhere without it.
#[test]
fn what_is_missing_for_a_press() {
    let (mut missing, mut shorter) = (0, 0);
    for room in rooms(11, 300) {
        let states = room.all_states();
        for press in diff::presses(&room, &room) {
            let works = |state: u32| !diff::results(&room, press, state).is_empty();
            for &state in &states {
                let found = changes::missing(&room, press, state);
                assert_eq!(found.is_none(), works(state));
                let Some(cond) = found else {
                    continue;
                };
                missing += 1;
                assert!(!room.holds(&cond, state));
                let mut working = states.iter().filter(|&&other| works(other));
                assert!(working.all(|&other| room.holds(&cond, other)));
                let without = states
                    .iter()
                    .filter(|&&s| room.holds(&cond, s) && !works(s));
                shorter += usize::from(without.count() > 0);
            }
        }
    }
    assert!(missing > 1_000 && shorter > 100, "{missing} {shorter}");
}

/// A press is said by its name or number, some beginning, or something else.
fn drawn_line(draw: &mut Drawn, buttons: &[&str]) -> String {
    let button = draw.below(buttons.len());
    let word = [
        "undo",
        "restart",
        "list",
        "help",
        "b",
        "B9",
        ",",
        "t0 on",
        "start: t0",
        "9.9",
    ];
    match draw.below(8) {
        0..=2 => buttons[button].to_lowercase(),
        3 => (button + 1).to_string(),
        4 | 5 => format!("{}.{}", button + 1, draw.below(4)),
        6 => format!("{}, {}", button + 1, buttons[draw.below(buttons.len())]),
        _ => word[draw.below(word.len())].to_string(),
    }
}

/// Whatever is typed, the states are a run; and the presses that are printed at the end lead through the same states again.
#[test]
fn walks_can_be_repeated() {
    let mut draw = Drawn(12);
    let (mut presses, mut choices) = (0, 0);
    for room in rooms(12, 300) {
        let walk = Walk::new(&room);
        let mut stepper = Stepper::new(&room, &walk, draw.below(2) == 0);
        let mut text = stepper.begin();
        let buttons = diff::presses(&room, &room);
        for _ in 0..30 {
            text += &stepper.line(&drawn_line(&mut draw, &buttons)).0;
        }
        let states = stepper.states().to_vec();
        choices += text.matches("it can do one or the other here").count();
        let end = stepper.end();
        let Some((_, pasted)) = end.split_once("to be pasted into a walk:\n") else {
            continue;
        };
        presses += states.len() - 1;
        assert!(room.is_start(states[0]));
        let pressed = |pair: &[u32]| press(&room, pair[0], pair[1]).is_some();
        assert!(states.windows(2).all(pressed));
        let mut again = Stepper::new(&room, &walk, false);
        again.begin();
        let lines = pasted
            .lines()
            .take_while(|line| !line.contains("on the way"));
        lines.for_each(|line| {
            again.line(line);
        });
        assert_eq!(
            (again.states(), again.mistakes()),
            (&states[..], 0),
            "{end}"
        );
    }
    assert!(presses > 1_000 && choices > 20, "{presses} {choices}");
}
