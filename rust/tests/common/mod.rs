//! What several tests draw: numbers and formulas.
#![allow(dead_code)]
use kudzuclamp::Formula;

/// Numbers of a small generator, each below a bound.
pub struct Drawn(pub u64);

impl Drawn {
    pub fn below(&mut self, bound: u32) -> u32 {
        self.0 = self
            .0
            .wrapping_mul(6364136223846793005)
            .wrapping_add(1442695040888963407);
        ((self.0 >> 33) % u64::from(bound)) as u32
    }

    pub fn of<T: Copy>(&mut self, list: &[T]) -> T {
        list[self.below(list.len() as u32) as usize]
    }
}

fn leaf(draw: &mut Drawn) -> Formula {
    match draw.below(6) {
        0 => Formula::from(draw.below(2) == 1),
        1 => Formula::current(draw.below(16)),
        2 => Formula::next(draw.below(16)),
        3 => Formula::register(draw.below(32)),
        _ => Formula::var(draw.below(16)),
    }
}

/// A formula of any words, so deep at most; its deep side is drawn, the other one is shallow.
pub fn any_formula(draw: &mut Drawn, depth: u32) -> Formula {
    if depth <= 1 {
        return leaf(draw);
    }
    let f = any_formula(draw, depth - 1);
    let kind = draw.below(11);
    if kind < 5 {
        return match kind {
            0 => !f,
            1 => Formula::boxed(draw.below(8), f),
            2 => Formula::diamond(draw.below(8), f),
            3 => Formula::mu(draw.below(16), f),
            _ => Formula::nu(draw.below(16), f),
        };
    }
    let shallow = draw.below(3).min(depth - 2) + 1;
    let g = any_formula(draw, shallow);
    let (f, g) = if draw.below(2) == 0 { (f, g) } else { (g, f) };
    match kind {
        5 | 6 => f & g,
        7 | 8 => f | g,
        9 => Formula::until_some(draw.below(8), f, g),
        _ => Formula::until_every(draw.below(8), f, g),
    }
}
