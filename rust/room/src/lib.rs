//! The command `room`: reads a room's switching rules in words, asks the proved library, and answers in words.
//!
//! Nothing here is proved. So a verdict is given only where a plain walk over all states (`walk`), which
//! uses no formula and no table, finds the same sets as the library (`ask`).
//!
//! - `words`, `read`, `mistake`: a room file's words, what they say, and what is wrong with them;
//! - `room`: what was read; `echo`: the same as text again; `sense`: conditions that no state meets;
//! - `valid`, `rules`, `plan`: formulas of selectors, of presses, and the calls that answer the questions;
//! - `walk` (with `circles`), `ask`, `report`: the plain walk, the library's answers held against it, and the words for both;
//! - `changes`: what a press changes, or what is missing for it, in words;
//! - `finding`: verdicts beside what the file expects of them;
//! - `stepper` (with `typed`, `steps`, `standing`): a walk press by press, what is typed, and which questions the presses break;
//! - `diff`, `compare`: two rooms side by side, by the walk and by the library;
//! - `sheet`, `page` (with `picture`, `html`, `sha256`): what a shop hands over, as lines and as a page;
//! - `orders`: other orders of the things in the table, where it is full;
//! - `records`, `explain`: the same calls as records for `roomrules`, and what is wrong with records.
#![deny(unsafe_code)]

pub mod ask;
pub mod changes;
mod circles;
pub mod compare;
pub mod diff;
pub mod echo;
pub mod explain;
pub mod finding;
pub mod html;
pub mod mistake;
pub mod orders;
pub mod page;
pub mod picture;
pub mod plan;
pub mod read;
pub mod records;
pub mod report;
pub mod room;
pub mod rules;
pub mod sense;
pub mod sha256;
pub mod sheet;
pub mod standing;
pub mod stepper;
pub mod steps;
pub mod typed;
pub mod valid;
pub mod walk;
pub mod words;
