//! A set's least state and its graph in the DOT language, against the library's own answers.
mod common;

use common::Drawn;
use kudzuclamp::{Account, Formula, Names, Refusal, Table, Target};
use std::collections::HashMap;

fn table(n: u32) -> Table<Vec<u32>> {
    Table::new(&mut [Account::unlimited()], n, 2_000).unwrap()
}

fn set(t: &mut Table<Vec<u32>>, r: u32, formula: Formula) {
    let stored = t.set(&mut [Account::unlimited()], Target::register(r), formula);
    assert!(stored.is_ok(), "{stored:?}");
}

/// An arrow of a graph: what it leads to, and whether it carries a NOT.
type Arrow = (String, bool);

/// A graph read back: the first arrow, and for each row its label, high and low arrow.
struct Graph {
    first: Option<Arrow>,
    labels: HashMap<String, String>,
    arrows: HashMap<(String, bool), Arrow>,
}

impl Graph {
    fn read(dot: &str, r: u32) -> Graph {
        let mut lines = dot.lines();
        assert_eq!(lines.next(), Some(format!("digraph set{r} {{").as_str()));
        assert_eq!(lines.next_back(), Some("}"));
        let (first, labels, arrows) = (None, HashMap::new(), HashMap::new());
        let mut graph = Graph {
            first,
            labels,
            arrows,
        };
        for line in lines.filter(|line| !line.contains("rank=same")) {
            let line = line
                .strip_prefix("    ")
                .and_then(|line| line.strip_suffix("];"));
            let (what, attributes) = line.and_then(|line| line.split_once(" [")).unwrap();
            graph.line(what, attributes, &format!("set{r}"));
        }
        graph
    }

    fn line(&mut self, what: &str, attributes: &str, root: &str) {
        let Some((tail, head)) = what.split_once(" -> ") else {
            if let Some(label) = attributes.strip_prefix("label=") {
                let old = self
                    .labels
                    .insert(what.into(), label.trim_matches('"').into());
                assert_eq!(old, None, "a row twice");
            }
            return;
        };
        let arrow = (head.to_string(), attributes.ends_with(", arrowhead=odot"));
        let high = attributes.starts_with("style=solid");
        assert!(high || attributes.starts_with("style=dashed"));
        if tail == root {
            self.first = Some(arrow);
        } else {
            self.arrows.insert((tail.into(), high), arrow);
        }
    }

    /// Whether the graph's set has a state.
    fn has(&self, names: &Names, state: u32) -> bool {
        let (mut at, mut not) = self.first.clone().unwrap();
        while at != "nothing" {
            let bit = names.place(&self.labels[&at]).unwrap();
            let (next, turned) = self.arrows[&(at, state >> bit & 1 == 1)].clone();
            at = next;
            not ^= turned;
        }
        not
    }
}

/// A formula over n bits.
fn drawn(draw: &mut Drawn, n: u32, depth: u32) -> Formula {
    let bit = Formula::current(draw.below(n));
    if depth == 0 {
        return bit;
    }
    let (f, g) = (drawn(draw, n, depth - 1), drawn(draw, n, depth - 1));
    match draw.below(4) {
        0 => f & !g,
        1 => f | g,
        2 => f ^ bit,
        _ => bit.ite(f, g),
    }
}

#[test]
fn graphs_say_the_sets() {
    let mut draw = Drawn(3);
    for n in 1..=6 {
        let names = Names::new((0..n).map(|p| format!("b{p}"))).unwrap();
        let mut t = table(n);
        for turn in 0..40 {
            let r = turn % 32;
            set(&mut t, r, drawn(&mut draw, n, 3));
            let graph = Graph::read(&t.to_dot(r, &names).unwrap(), r);
            for state in 0..1 << n {
                assert_eq!(graph.has(&names, state), t.member(r, state).unwrap());
            }
        }
    }
}

/// As many rows as the library needs for the set alone.
#[test]
fn graphs_have_the_rows_that_are_needed() {
    let mut draw = Drawn(4);
    for _ in 0..40 {
        let mut t = table(5);
        set(&mut t, 7, drawn(&mut draw, 5, 4));
        let graph = Graph::read(&t.to_dot(7, &Names::default()).unwrap(), 7);
        assert_eq!(graph.labels.len() as u32, t.collect().unwrap());
    }
}

/// A text with its rows numbered in the order in which they come: their own numbers are the
/// library's choice.
fn renumbered(dot: &str) -> String {
    let mut rows: Vec<&str> = Vec::new();
    let mut parts = dot.split("row");
    let mut text = parts.next().unwrap().to_string();
    for part in parts {
        let digits = part.len() - part.trim_start_matches(|c: char| c.is_ascii_digit()).len();
        let (row, rest) = part.split_at(digits);
        let known = rows.iter().position(|&known| known == row);
        let place = known.unwrap_or(rows.len());
        if known.is_none() && !row.is_empty() {
            rows.push(row);
        }
        text += &match row {
            "" => format!("row{rest}"),
            _ => format!("row{place}{rest}"),
        };
    }
    text
}

#[test]
fn a_graph_as_text() {
    let mut t = table(2);
    set(&mut t, 0, Formula::current(0) & !Formula::current(1));
    let names = Names::new(["mic", "echo"]).unwrap();
    // No high arrow carries a NOT, so the set has but this one graph.
    let expected = "\
digraph set0 {
    set0 [shape=plaintext];
    nothing [shape=box, label=\"0\"];
    set0 -> row0 [style=solid];
    row0 [label=\"mic\"];
    row0 -> row1 [style=solid];
    row0 -> nothing [style=dashed];
    row1 [label=\"echo\"];
    row1 -> nothing [style=solid];
    row1 -> nothing [style=dashed, arrowhead=odot];
    { rank=same; row0; }
    { rank=same; row1; }
}
";
    assert_eq!(renumbered(&t.to_dot(0, &names).unwrap()), expected);
    set(&mut t, 1, Formula::truth());
    let all = t.to_dot(1, &names).unwrap();
    assert!(all.contains("    set1 -> nothing [style=solid, arrowhead=odot];\n"));
}

#[test]
fn the_least_state_is_picked() {
    let mut draw = Drawn(8);
    for n in [1, 4, 11] {
        let mut t = table(n);
        for _ in 0..30 {
            set(&mut t, 3, drawn(&mut draw, n, 3));
            let least = (0..1 << n).find(|&state| t.member(3, state).unwrap());
            assert_eq!(t.pick(3), Ok(least));
        }
        set(&mut t, 3, Formula::falsity());
        assert_eq!(t.pick(3), Ok(None));
    }
    let mut t = table(16);
    set(&mut t, 0, Formula::all((0..16).map(Formula::current)));
    assert_eq!(t.pick(0), Ok(Some(0xFFFF)));
}

#[test]
fn refused_as_node_is() {
    let mut t = table(2);
    let names = Names::default();
    for (r, refusal) in [(0, Refusal::Empty), (32, Refusal::Range)] {
        assert_eq!(t.pick(r), Err(refusal));
        assert_eq!(t.to_dot(r, &names), Err(refusal));
    }
    t.words_mut().fill(0);
    assert_eq!(t.pick(0), Err(Refusal::Unsound));
    assert_eq!(t.to_dot(0, &names), Err(Refusal::Unsound));
}
