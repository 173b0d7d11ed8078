//! Holds the real calls, `libexports.a` through the wrapper `kudzuclamp`, against `reference`, the
//! separate evaluator that enumerates states.
//!
//! - `words` and `sound` read a table's words plainly, from document 01 and docs/LAYOUT.md;
//! - `kept` says which words a call may change;
//! - `list` is a list of steps as lines of text;
//! - `compare` and `run` make each step on the library and on the book, and compare;
//! - `writer`, `call`, `games`, `logs`, `limits` and `draw` draw formulas, calls, accounts and lists;
//! - `turns` makes the calls of games as C does;
//! - `records` writes calls as the program's records.
//!
//! `cargo test --offline --release` needs `crates/exports/out/libexports.a` (`rt lib` in
//! crates/exports).

pub mod call;
pub mod compare;
pub mod draw;
pub mod games;
pub mod kept;
pub mod limits;
pub mod list;
pub mod logs;
pub mod records;
pub mod run;
pub mod sound;
pub mod turns;
pub mod words;
pub mod writer;
