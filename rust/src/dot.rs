//! Sets as graphs in the DOT language.
use crate::layout::{self, Arrow, Row, FIRST_REGISTER};
use crate::Names;
use std::collections::BTreeMap;
use std::fmt::Write;

/// The rows that an arrow leads to, by level and row.
fn reached(words: &[u32], root: Arrow) -> BTreeMap<(u32, usize), Row> {
    let mut rows = BTreeMap::new();
    let mut open: Vec<usize> = root.row.into_iter().collect();
    while let Some(i) = open.pop() {
        let row = layout::row(words, i);
        if rows.insert((row.level, i), row).is_none() {
            open.extend(
                [row.low, row.high]
                    .into_iter()
                    .filter_map(|arrow| arrow.row),
            );
        }
    }
    rows
}

/// What an arrow leads to, by its name in the graph.
fn head(arrow: Arrow) -> String {
    arrow.row.map_or("nothing".into(), |i| format!("row{i}"))
}

/// An arrow of the graph.
fn line(graph: &mut String, tail: &str, arrow: Arrow, style: &str) {
    let not = if arrow.not { ", arrowhead=odot" } else { "" };
    let head = head(arrow);
    // Writing to a string does not fail.
    let _ = writeln!(graph, "    {tail} -> {head} [style={style}{not}];");
}

/// Puts the rows of each level, which come one after the other, at one height.
fn heights<'a>(rows: impl Iterator<Item = &'a (u32, usize)>) -> String {
    let mut levels: BTreeMap<u32, String> = BTreeMap::new();
    for (level, i) in rows {
        *levels.entry(*level).or_default() += &format!(" row{i};");
    }
    let lines = levels
        .values()
        .map(|rows| format!("    {{ rank=same;{rows} }}\n"));
    lines.collect()
}

/// The graph of a register that holds a set of a sound table.
pub fn register(words: &[u32], r: u32, names: &Names) -> String {
    let root = layout::root(words, FIRST_REGISTER + r as usize);
    let mut graph = format!("digraph set{r} {{\n    set{r} [shape=plaintext];\n");
    graph += "    nothing [shape=box, label=\"0\"];\n";
    let Some(root) = root else {
        return graph + "}\n";
    };
    line(&mut graph, &format!("set{r}"), root, "solid");
    let rows = reached(words, root);
    for ((level, i), row) in &rows {
        // Sets have rows of current bits only, bit p at level 2p.
        let name = names.bit(level / 2);
        let _ = writeln!(graph, "    row{i} [label=\"{name}\"];");
        line(&mut graph, &format!("row{i}"), row.high, "solid");
        line(&mut graph, &format!("row{i}"), row.low, "dashed");
    }
    graph + &heights(rows.keys()) + "}\n"
}
