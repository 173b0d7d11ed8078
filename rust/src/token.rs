//! The bytes of document 01's table.
pub const FALSE: u8 = 0x00;
pub const TRUE: u8 = 0x01;
pub const NOT: u8 = 0x02;
pub const AND: u8 = 0x03;
pub const OR: u8 = 0x04;
pub const CURRENT: u8 = 0x10;
pub const NEXT: u8 = 0x20;
pub const VARIABLE: u8 = 0x30;
pub const REGISTER: u8 = 0x40;
pub const BOX: u8 = 0x60;
pub const DIAMOND: u8 = 0x68;
pub const MU: u8 = 0x70;
pub const NU: u8 = 0x80;
/// Version 2.
pub const SOME_RUN: u8 = 0x90;
pub const EVERY_RUN: u8 = 0x98;
/// No token of the table: every call refuses it with 4.
pub const NONE: u8 = 0xFF;

/// How many variables have a byte.
pub const VARIABLES: u32 = 16;

/// Bytes before the formula: two of length and the version.
pub const FRAME: usize = 3;
/// The greatest number of bytes after the length, and the greatest depth, of a formula that a call takes.
pub const MAX_LENGTH: usize = 1_024;
pub const MAX_DEPTH: usize = 64;

/// The tokens that have a number: the first, and how many follow each other.
const NUMBERED: [(u8, u8); 10] = [
    (CURRENT, 16),
    (NEXT, 16),
    (VARIABLE, 16),
    (REGISTER, 32),
    (BOX, 8),
    (DIAMOND, 8),
    (MU, 16),
    (NU, 16),
    (SOME_RUN, 8),
    (EVERY_RUN, 8),
];

/// The kind of a token, by its first byte, and its number; none where no word has the byte.
pub fn taken_apart(token: u8) -> Option<(u8, u32)> {
    if token <= OR {
        return Some((token, 0));
    }
    NUMBERED.into_iter().find_map(|(first, count)| {
        let k = token.checked_sub(first)?;
        (k < count).then_some((first, k.into()))
    })
}

/// How many formulas follow a token of a kind.
pub fn parts(kind: u8) -> usize {
    match kind {
        AND | OR | SOME_RUN | EVERY_RUN => 2,
        NOT | BOX | DIAMOND | MU | NU => 1,
        _ => 0,
    }
}

/// The depth of a whole formula; none where the bytes are no formula.
pub fn depth(tokens: &[u8]) -> Option<usize> {
    let mut depths: Vec<usize> = Vec::new();
    for &token in tokens.iter().rev() {
        let (kind, _) = taken_apart(token)?;
        let below = depths.len().checked_sub(parts(kind))?;
        let deepest = depths.drain(below..).max().unwrap_or(0);
        depths.push(deepest + 1);
    }
    depths.pop().filter(|_| depths.is_empty())
}

/// A word of version 2.
pub fn is_until(token: u8) -> bool {
    matches!(taken_apart(token), Some((SOME_RUN | EVERY_RUN, _)))
}
