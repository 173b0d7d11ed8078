//! Prints random lists of calls with the book's answers.
//!
//! `lists SEED ONES TWOS` prints ONES lists with n = 1, then TWOS with n = 2.
//! The format is described in `reference::lists`.

use reference::lists::generate;
use reference::random::Random;
use std::process::ExitCode;

fn main() -> ExitCode {
    let numbers: Vec<u64> = std::env::args()
        .skip(1)
        .filter_map(|argument| argument.parse().ok())
        .collect();
    let [seed, ones, twos] = numbers[..] else {
        eprintln!("usage: lists SEED ONES TWOS");
        return ExitCode::FAILURE;
    };
    let mut random = Random::new(seed);
    let sizes = (0..ones).map(|_| 1).chain((0..twos).map(|_| 2));
    for (index, n) in sizes.enumerate() {
        println!("{}", generate(&mut random, n).block(index + 1));
    }
    ExitCode::SUCCESS
}
