//! Other orders of a room's parts in the table. How many rows a set needs hangs on that order alone: parts that conditions
//! name together should stand together. A room whose bits are in another order has the same states, presses and names.
use crate::ask::{Answer, Asker, Difference, Limits, Verdict};
use crate::plan::{plan, Plan};
use crate::room::{Cond, Room};
use crate::walk::Walk;
use kudzuclamp::Table;

/// The parts, by their places, from the lowest bits on.
pub type Order = Vec<usize>;

/// At most so many other orders are tried for a question.
pub const MOST_TRIED: usize = 8;

/// How often parts are moved to the middle of what they belong to.
const MOVES: usize = 30;

/// The room with its bits in another order.
pub fn ordered(room: &Room, order: &[usize]) -> Room {
    let mut other = room.clone();
    let mut low = 0;
    for &place in order {
        other.parts[place].low = low;
        low += other.parts[place].width;
    }
    let parts = other.parts.iter().zip(&room.parts);
    other.start = parts.fold(0, |start, (part, before)| {
        part.with(start, before.value(room.start))
    });
    other
}

/// The names of a room's parts from the lowest bits on.
pub fn names(room: &Room) -> String {
    let mut parts: Vec<_> = room.parts.iter().collect();
    parts.sort_by_key(|part| part.low);
    let names: Vec<&str> = parts.iter().map(|part| part.name.as_str()).collect();
    names.join(" ")
}

/// Orders that may need fewer rows than the file's, the best guess first: from several beginnings, parts are moved to the middle of
/// the conditions that name them (the field calls this FORCE), and short conditions count most.
pub fn orders(room: &Room) -> Vec<Order> {
    let groups = groups(room);
    let own: Order = (0..room.parts.len()).collect();
    let mut found: Vec<(usize, Order)> = Vec::new();
    for begin in beginnings(own.len()) {
        let (mut order, mut best) = (begin.clone(), (spread(&groups, &begin), begin));
        for _ in 0..MOVES {
            order = moved(&groups, &order);
            best = best.min((spread(&groups, &order), order.clone()));
        }
        found.push(best);
    }
    found.sort();
    let mut orders: Vec<Order> = Vec::new();
    // The other way round is another order for the table, and as near together.
    for (_, order) in found {
        let back: Order = order.iter().rev().copied().collect();
        for order in [order, back] {
            if order != own && !orders.contains(&order) {
                orders.push(order);
            }
        }
    }
    orders.truncate(MOST_TRIED);
    orders
}

/// The file's order, and shuffled ones.
fn beginnings(parts: usize) -> Vec<Order> {
    let mut seed = 1_u64;
    let mut list: Vec<Order> = vec![(0..parts).collect()];
    for _ in 0..MOST_TRIED {
        let mut order = list[0].clone();
        for last in (1..parts).rev() {
            seed = seed
                .wrapping_mul(6364136223846793005)
                .wrapping_add(1442695040888963407);
            order.swap(last, (seed >> 33) as usize % (last + 1));
        }
        list.push(order);
    }
    list
}

/// The parts that stand together in a condition or in a part of one, and those of a press.
fn groups(room: &Room) -> Vec<Order> {
    let mut groups = Vec::new();
    let conditions = (room.named.iter().map(|named| &named.means))
        .chain(room.rules.iter().filter_map(|rule| rule.when.as_ref()))
        .chain(room.questions.iter().flat_map(|q| q.asked.conditions()));
    for cond in conditions {
        parts_of(room, cond, &mut groups);
    }
    for rule in &room.rules {
        let mut parts: Order = rule.effects.iter().map(|effect| effect.part).collect();
        parts.extend(
            rule.when
                .iter()
                .flat_map(|when| parts_of(room, when, &mut Vec::new())),
        );
        groups.push(parts);
    }
    for group in &mut groups {
        group.sort_unstable();
        group.dedup();
    }
    groups.retain(|group| group.len() > 1);
    groups
}

/// The parts that a condition names, by itself or by names; each list of conditions inside it is added as a group.
fn parts_of(room: &Room, cond: &Cond, groups: &mut Vec<Order>) -> Order {
    match cond {
        Cond::Is(part, _) => vec![*part],
        Cond::Named(place) => parts_of(room, &room.named[*place].means, &mut Vec::new()),
        Cond::Not(cond) => parts_of(room, cond, groups),
        Cond::All(conds) | Cond::Any(conds) => {
            let lists: Vec<Order> = (conds.iter())
                .map(|cond| parts_of(room, cond, groups))
                .collect();
            let mut parts = lists.concat();
            parts.sort_unstable();
            parts.dedup();
            groups.push(parts.clone());
            parts
        }
    }
}

/// Where each part stands in an order.
fn places(order: &[usize]) -> Vec<usize> {
    let mut places = vec![0; order.len()];
    for (place, &part) in order.iter().enumerate() {
        places[part] = place;
    }
    places
}

/// How far apart the parts of all groups stand.
fn spread(groups: &[Order], order: &[usize]) -> usize {
    let places = places(order);
    let of = |group: &Order| {
        let at = || group.iter().map(|&part| places[part]);
        at().max().unwrap_or(0) - at().min().unwrap_or(0)
    };
    groups.iter().map(of).sum()
}

/// The order after each part has moved to the middle of its groups. A group of few parts pulls more than one of many.
fn moved(groups: &[Order], order: &[usize]) -> Order {
    let places = places(order);
    let mut pull = vec![(0.0, 0.0); order.len()];
    for group in groups {
        let sum: usize = group.iter().map(|&part| places[part]).sum();
        let (middle, weight) = (
            sum as f64 / group.len() as f64,
            1.0 / (group.len() - 1) as f64,
        );
        for &part in group {
            pull[part].0 += weight * middle;
            pull[part].1 += weight;
        }
    }
    let wanted = |part: usize| match pull[part] {
        (_, 0.0) => places[part] as f64,
        (sum, weight) => sum / weight,
    };
    let mut order = order.to_vec();
    order.sort_by(|&a, &b| wanted(a).total_cmp(&wanted(b)));
    order
}

/// The other orders of a room that may still help, that of the last verdict first.
pub struct Others {
    orders: Vec<Tried>,
    limits: Limits,
}

impl Others {
    pub fn new(room: &Room, limits: Limits) -> Others {
        let rooms = orders(room).into_iter().map(|order| ordered(room, &order));
        Others {
            orders: rooms.map(Tried::new).collect(),
            limits,
        }
    }

    /// The verdict on a question by the first order in which the table is large enough, and the room in that order.
    pub fn ask(&mut self, place: usize) -> Result<Option<Answer>, Difference> {
        let mut at = 0;
        while at < self.orders.len() {
            let order = &mut self.orders[at];
            if let Some(verdict) = order.ask(place, self.limits)? {
                let ordered = Some(order.room.clone());
                self.orders[..=at].rotate_right(1);
                return Ok(Some(Answer { verdict, ordered }));
            }
            match order.may_help() {
                true => at += 1,
                false => drop(self.orders.remove(at)),
            }
        }
        Ok(None)
    }
}

/// An order, and what came of it so far.
struct Tried {
    room: Room,
    /// What it takes to ask, kept where the order has given a verdict.
    loaded: Option<Loaded>,
    does_not_load: bool,
    answered: usize,
    unanswered: usize,
}

struct Loaded {
    walk: Walk,
    plan: Plan,
    table: Table<Vec<u32>>,
}

impl Tried {
    fn new(room: Room) -> Tried {
        Tried {
            room,
            loaded: None,
            does_not_load: false,
            answered: 0,
            unanswered: 0,
        }
    }

    /// Whether it is worth another question. So a room's questions are asked in other orders at most twice each, and sixteen
    /// times more.
    fn may_help(&self) -> bool {
        !self.does_not_load && self.unanswered < self.answered + 2
    }

    /// The verdict on a question, where this order gives one.
    fn ask(&mut self, place: usize, limits: Limits) -> Result<Option<Verdict>, Difference> {
        let Some(loaded) = self.load(limits)? else {
            self.does_not_load = true;
            return Ok(None);
        };
        let Loaded { walk, plan, table } = loaded;
        let mut asker = Asker::again(&self.room, &walk, &plan, limits, table);
        let verdict = Some(asker.ask(place)?).filter(|found| !matches!(found, Verdict::None(_)));
        match verdict {
            Some(_) => self.answered += 1,
            None => self.unanswered += 1,
        }
        let table = asker.loaded().filter(|_| self.answered > 0);
        self.loaded = table.map(|table| Loaded { walk, plan, table });
        Ok(verdict)
    }

    /// What it takes to ask; none where the presses do not fit into the table.
    fn load(&mut self, limits: Limits) -> Result<Option<Loaded>, Difference> {
        if let Some(loaded) = self.loaded.take() {
            return Ok(Some(loaded));
        }
        let Ok(plan) = plan(&self.room) else {
            return Ok(None);
        };
        let walk = Walk::new(&self.room);
        let table = Asker::new(&self.room, &walk, &plan, limits)?.loaded();
        Ok(table.map(|table| Loaded { walk, plan, table }))
    }
}

#[cfg(test)]
mod tests {
    use super::{ordered, orders, Others, Tried, MOST_TRIED};
    use crate::ask::{Asker, Limits, Verdict};
    use crate::plan::plan;
    use crate::read::read;
    use crate::room::Room;
    use crate::walk::Walk;

    /// Two rows of n lamps, and a press that needs them alike: the rows one after the other.
    fn alike(n: usize) -> Room {
        let row = |name: &str| (0..n).map(|k| format!(" {name}{k}")).collect::<String>();
        let mut text = format!(
            "things:{}{}\nthings: song\nstart: b0 on\n",
            row("a"),
            row("b")
        );
        for k in 0..n {
            text += &format!("d{k} means (a{k} and not b{k}) or (b{k} and not a{k})\n");
            text += &format!("press A{k}: a{k} turns over\npress B{k}: b{k} turns over\n");
        }
        let differ: Vec<String> = (0..n).map(|k| format!("d{k}")).collect();
        let differ = differ.join(" or ");
        text += &format!("press START: song on when not ({differ})\nnever song\n");
        read(&(text + "always possible: song\nnot song until a0\n")).unwrap()
    }

    fn verdicts(room: &Room, rows: u32) -> (Vec<Verdict>, u32) {
        let (walk, plan) = (Walk::new(room), plan(room).unwrap());
        let rounds = u32::MAX;
        let mut asker = Asker::new(room, &walk, &plan, Limits { rows, rounds }).unwrap();
        let verdicts = (0..room.questions.len()).map(|place| asker.ask(place).unwrap());
        (verdicts.collect(), asker.peak)
    }

    /// A room in another order has the same states and presses, by names.
    #[test]
    fn the_same_room() {
        let text = "selector s: x y z\nthings: a b\nstart: b on, s = y\npress A: a turns over, s = z when not b or s = y\nnever a and b";
        let room = read(text).unwrap();
        let named = |room: &Room, state: u32| crate::echo::state(room, state);
        for order in [[0, 1, 2], [2, 1, 0], [1, 0, 2], [1, 2, 0]] {
            let other = ordered(&room, &order);
            assert_eq!(named(&other, other.start), "b, s = y");
            assert_eq!(other.all_states().len(), room.all_states().len());
            let steps = |room: &Room| -> Vec<(String, Option<String>)> {
                let step = |state: u32| {
                    let to = room.pressed(&room.rules[0], state);
                    (named(room, state), to.map(|to| named(room, to)))
                };
                let mut steps: Vec<_> = room.all_states().into_iter().map(step).collect();
                steps.sort();
                steps
            };
            assert_eq!(steps(&other), steps(&room));
        }
    }

    /// Lamps that are compared come to stand side by side, and that takes far fewer rows.
    #[test]
    fn what_belongs_together() {
        let room = alike(6);
        let orders = orders(&room);
        assert!((2..=MOST_TRIED).contains(&orders.len()));
        let (good, rows) = verdicts(&room, 60_000);
        let best = ordered(&room, &orders[0]);
        let (found, fewer) = verdicts(&best, 60_000);
        assert!(fewer * 4 < rows, "{fewer} {rows}");
        // The verdicts are the same in every order, and the runs as long.
        let kinds = |verdicts: &[Verdict]| -> Vec<Option<usize>> {
            let presses = |verdict: &Verdict| match verdict {
                Verdict::Broken(run) => Some(run.states.len()),
                _ => None,
            };
            verdicts.iter().map(presses).collect()
        };
        assert_eq!(kinds(&found), kinds(&good));
        let limits = |rows| Limits {
            rows,
            rounds: u32::MAX,
        };
        let mut others = Others::new(&room, limits(rows - 1));
        for (place, good) in kinds(&good).iter().enumerate() {
            let answer = others.ask(place).unwrap().expect("another order helps");
            assert_eq!(kinds(&[answer.verdict])[0], *good);
            assert_eq!(answer.ordered.as_ref(), Some(&others.orders[0].room));
        }
        // A table that is too small for every order gives no verdict.
        assert!(Others::new(&room, limits(30)).ask(0).unwrap().is_none());
        // Rounds that are used up are no verdict either.
        let (rows, rounds) = (rows - 1, 1);
        let mut others = Others::new(&room, Limits { rows, rounds });
        assert!(others.ask(0).unwrap().is_none() && !others.orders.is_empty());
    }

    /// An order that gives no verdict twice is not tried again; one that gives some is, as often.
    #[test]
    fn orders_are_given_up() {
        let room = alike(5);
        let (_, fewest) = verdicts(&ordered(&room, &orders(&room)[0]), 60_000);
        let limits = Limits {
            rows: fewest - 1,
            rounds: u32::MAX,
        };
        let mut others = Others::new(&room, limits);
        let left: Vec<usize> = (0..3)
            .map(|_| {
                assert!(others.ask(0).unwrap().is_none());
                others.orders.len()
            })
            .collect();
        assert!(left[0] > 0 && left[1..] == [0, 0], "{left:?}");
        let mut others = Others::new(
            &room,
            Limits {
                rows: fewest,
                ..limits
            },
        );
        for place in [0, 1, 2, 0, 1, 2] {
            assert!(others.ask(place).unwrap().is_some());
        }
        // What a verdict took is kept for the next question, and nothing else.
        let kept = |order: &Tried| order.loaded.is_some();
        assert!((others.orders.iter()).all(|order| kept(order) == (order.answered > 0)));
        assert!(kept(&others.orders[0]));
    }
}
