//! Writes random formula bytes in prefix order.

use reference::formula::{frame_as, Kind, RUNS_VERSION, VERSION};
use reference::random::Random;

/// What a formula may name, and how large it becomes.
#[derive(Clone)]
pub struct Plan {
    pub kind: Kind,
    pub n: u8,
    /// Filled registers and relations.
    pub registers: Vec<u8>,
    pub relations: Vec<u8>,
    /// Tokens wanted, about.
    pub size: u64,
    pub binders: u32,
    /// Now and then a token that breaks one of checks 4 to 7, or a binder that binds nothing.
    pub slip: bool,
}

/// Whether a formula's own bytes have until.
pub fn has_until(body: &[u8]) -> bool {
    body.iter().any(|token| (0x90..=0x9F).contains(token))
}

/// The least version that has all words of a formula's own bytes.
pub fn version(body: &[u8]) -> u8 {
    match has_until(body) {
        true => RUNS_VERSION,
        false => VERSION,
    }
}

/// Framed bytes in the version that they need.
pub fn frame(body: &[u8]) -> Vec<u8> {
    frame_as(version(body), body)
}

/// A formula's own bytes, without frame.
pub fn write(random: &mut Random, plan: Plan) -> Vec<u8> {
    let (size, binders) = (plan.size, plan.binders);
    let mut writer = Writer {
        random,
        plan,
        binders,
        bound: Vec::new(),
        nots: 0,
        bytes: Vec::new(),
    };
    writer.formula(size);
    writer.bytes
}

struct Writer<'a> {
    random: &'a mut Random,
    plan: Plan,
    /// Binders still to write.
    binders: u32,
    /// Open binders' variables with the number of NOTs above each.
    bound: Vec<(u8, u32)>,
    nots: u32,
    bytes: Vec<u8>,
}

impl Writer<'_> {
    fn formula(&mut self, size: u64) {
        if size <= 1 {
            return self.leaf();
        }
        if self.binders > 0 && size > 2 && self.may_be_modal() && self.random.chance(20) {
            let word = self.until_word();
            self.operator(word, size);
        } else if self.binders > 0 && self.random.chance(30) {
            self.binder(size);
        } else if self.may_be_modal() && self.random.chance(35) {
            self.modal_word();
            self.formula(size - 1);
        } else if size == 2 || self.random.chance(if self.plan.slip { 40 } else { 25 }) {
            self.not(size);
        } else {
            self.binary(size);
        }
    }

    fn may_be_modal(&self) -> bool {
        self.plan.kind == Kind::Set && (self.plan.slip || !self.plan.relations.is_empty())
    }

    fn not(&mut self, size: u64) {
        self.bytes.push(0x02);
        self.nots += 1;
        self.formula(size - 1);
        self.nots -= 1;
    }

    fn binary(&mut self, size: u64) {
        let operator = self.random.pick(&[0x03, 0x04]);
        self.operator(operator, size);
    }

    /// Slip 1: until on some or on every run; it has rounds as a binder has.
    fn until_word(&mut self) -> u8 {
        self.binders -= 1;
        let base = self.random.pick(&[0x90, 0x98]);
        base + self.relation()
    }

    fn operator(&mut self, operator: u8, size: u64) {
        self.bytes.push(operator);
        let left = 1 + self.random.below(size - 2);
        self.formula(left);
        self.formula(size - 1 - left);
    }

    fn modal_word(&mut self) {
        let t = self.relation();
        let base = self.random.pick(&[0x60, 0x68]);
        self.bytes.push(base + t);
    }

    /// A filled relation, unless in a slip.
    fn relation(&mut self) -> u8 {
        let wrong = self.plan.slip && self.random.chance(10);
        match wrong || self.plan.relations.is_empty() {
            true => self.random.below(8) as u8,
            false => self.random.pick(&self.plan.relations),
        }
    }

    /// Mu mostly over an OR and nu over an AND, since others soon end at a constant.
    fn binder(&mut self, size: u64) {
        self.binders -= 1;
        let p = self.variable();
        let (base, usual) = self.random.pick(&[(0x70, 0x04), (0x80, 0x03)]);
        self.bytes.push(base + p);
        let body = self.bytes.len();
        self.bound.push((p, self.nots));
        let operator = match self.random.chance(85) {
            true => usual,
            false => self.random.pick(&[0x03, 0x04]),
        };
        match self.random.below(100) {
            0..=44 if self.may_be_modal() => self.reach(p, operator, size - 1),
            0..=84 if size > 4 => self.operator(operator, size - 1),
            _ => self.formula(size - 1),
        }
        self.bound.pop();
        self.bind(body, operator, p);
    }

    /// Adds P to a body that has it not, but for a few in a slip: they get 12.
    fn bind(&mut self, body: usize, operator: u8, p: u8) {
        let mentioned = self.bytes[body..].contains(&(0x30 + p));
        if mentioned || self.random.chance(if self.plan.slip { 50 } else { 2 }) {
            return;
        }
        self.bytes.insert(body, operator);
        if self.may_be_modal() && self.random.chance(70) {
            self.modal_word();
        }
        self.bytes.push(0x30 + p);
    }

    /// A variable that no open binder has, unless in a slip.
    fn variable(&mut self) -> u8 {
        if self.plan.slip && self.random.chance(25) {
            return self.random.below(3) as u8;
        }
        let is_open = |p: &u8| self.bound.iter().any(|(q, _)| q == p);
        let free: Vec<u8> = [0, 1, 2, 3, 15]
            .into_iter()
            .filter(|p| !is_open(p))
            .collect();
        self.random.pick(&free)
    }

    /// The usual body of a fixpoint: something, and a modal word over P.
    fn reach(&mut self, p: u8, operator: u8, size: u64) {
        self.bytes.push(operator);
        self.formula(size.saturating_sub(3));
        self.modal_word();
        self.bytes.push(0x30 + p);
    }

    fn leaf(&mut self) {
        let tokens = match self.plan.slip && self.random.chance(20) {
            true => self.any_leaves(),
            false => self.fit_leaves(),
        };
        let token = self.random.pick(&tokens);
        self.bytes.push(token);
    }

    /// Leaves that pass the checks, the wanted ones listed more than once.
    fn fit_leaves(&self) -> Vec<u8> {
        let mut tokens = vec![0x00, 0x01];
        for p in 0..self.plan.n {
            tokens.extend([0x10 + p; 6]);
        }
        if self.plan.kind == Kind::Relation {
            (0..self.plan.n).for_each(|p| tokens.extend([0x20 + p; 8]));
            return tokens;
        }
        if self.plan.kind == Kind::Valid {
            return tokens;
        }
        for r in &self.plan.registers {
            tokens.extend([0x40 + r; 3]);
        }
        for &(p, nots) in &self.bound {
            if (self.nots - nots).is_multiple_of(2) {
                tokens.extend([0x30 + p; 12]);
            }
        }
        tokens
    }

    /// Leaves that may be refused with 4, 5, 6 or 7.
    fn any_leaves(&mut self) -> Vec<u8> {
        let mut tokens = vec![0x30, 0x31, 0x32, 0x3F, 0x41, 0x5F];
        if self.random.chance(20) {
            tokens = vec![0x05, 0x90, 0x10 + self.plan.n, 0x20 + self.plan.n - 1];
        }
        for &(p, _) in &self.bound {
            tokens.extend([0x30 + p; 8]);
        }
        tokens
    }
}

/// One state: every bit has its value.
pub fn one_state(random: &mut Random, n: u8) -> Vec<u8> {
    let mut body = vec![0x01];
    for p in 0..n {
        let bit = match random.chance(50) {
            true => vec![0x10 + p],
            false => vec![0x02, 0x10 + p],
        };
        body = [vec![0x03], bit, body].concat();
    }
    body
}

/// AND of "next bit p is f" over some of the bits, f over the current bits: a rule for each switch.
pub fn rules(random: &mut Random, n: u8) -> Vec<u8> {
    let mut body = vec![0x01];
    for p in 0..n {
        if random.chance(85) {
            let plan = Plan {
                kind: Kind::Relation,
                n,
                registers: Vec::new(),
                relations: Vec::new(),
                size: 1 + random.below(4),
                binders: 0,
                slip: false,
            };
            let f: Vec<u8> = write(random, plan)
                .into_iter()
                .map(|token| if token >= 0x20 { token - 0x10 } else { token })
                .collect();
            body = [vec![0x03], same(0x20 + p, &f), body].concat();
        }
    }
    body
}

/// The next state is the number after the current one, from the last on the first: the longest
/// chain of states. Without `last` the last state has no next one.
pub fn counter(n: u8, last: bool) -> Vec<u8> {
    let mut body = vec![0x01];
    let mut carry = vec![0x01];
    for p in 0..n {
        let flipped = [vec![0x02], same(0x10 + p, &carry)].concat();
        body = [vec![0x03], same(0x20 + p, &flipped), body].concat();
        carry = [vec![0x03, 0x10 + p], carry].concat();
    }
    match last {
        true => body,
        false => [vec![0x03, 0x02], carry, body].concat(),
    }
}

/// The bit is as the formula: both, or neither.
fn same(bit: u8, f: &[u8]) -> Vec<u8> {
    [&[0x04, 0x03, bit], f, &[0x03, 0x02, bit, 0x02], f].concat()
}

/// All sixteen binders of one kind, one below the other, over all their variables: 16 rounds.
pub fn all_binders(binder: u8, operator: u8) -> Vec<u8> {
    let binders = (0..16).map(|p| binder + p);
    let operators = [operator; 15];
    binders.chain(operators).chain(0x30..=0x3F).collect()
}

/// NOT over and over: a formula `depth` deep.
pub fn nots(depth: usize, leaf: u8) -> Vec<u8> {
    let mut body = vec![0x02; depth - 1];
    body.push(leaf);
    body
}

/// Until inside until, as the f or as the g of each: a formula `depth` deep, over relation t.
pub fn untils(depth: usize, first: bool, t: u8, leaf: u8) -> Vec<u8> {
    let word = |k: usize| [0x90, 0x98][k % 2] + t;
    let words = (1..depth).map(word);
    match first {
        true => words.chain(vec![leaf; depth]).collect(),
        false => (words.flat_map(|word| [word, leaf]))
            .chain([leaf])
            .collect(),
    }
}

/// A balanced tree of operators over leaves: 2^(height + 1) − 1 bytes.
pub fn tree(random: &mut Random, height: u32, leaves: &[u8]) -> Vec<u8> {
    if height == 0 {
        return vec![random.pick(leaves)];
    }
    let mut body = vec![random.pick(&[0x03, 0x04])];
    body.extend(tree(random, height - 1, leaves));
    body.extend(tree(random, height - 1, leaves));
    body
}
