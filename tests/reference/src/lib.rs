//! Separate evaluator that enumerates states, written from documents 01 and 02
//! alone.
//!
//! Sets of states are bit vectors, relations are bit matrices, and rows are
//! counted by enumerating the functions got by fixing levels. Quotations in
//! comments are sentences of document 01, or of document 02 where a slip is
//! named.

pub mod accounts;
pub mod book;
pub mod coins;
pub mod evaluate;
pub mod formula;
pub mod game;
pub mod lists;
pub mod logs;
pub mod meaning;
pub mod members;
pub mod paths;
pub mod random;
pub mod records;
pub mod refusal;
pub mod rows;
pub mod runs;
pub mod states;
pub mod strategies;
