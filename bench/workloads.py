#!/usr/bin/env python3
"""Writes the workloads into a folder: lists of calls of document 01 as records that every benchmark reads (from shared/prototypes/perf).
Record: op byte; 1: n, N(u32); 2: t, len(u16), framed formula; 3: r, R(u32), len(u16), framed formula; 4: r; 5: r; 6."""
import random, struct, sys, os

F, T = bytes([0]), bytes([1])
def NOT(f): return bytes([2]) + f
def AND(*fs): return fold(3, fs, T)
def OR(*fs): return fold(4, fs, F)
def fold(op, fs, unit):
    fs = list(fs)
    if not fs: return unit
    # balanced, so that the depth stays small
    if len(fs) == 1: return fs[0]
    m = len(fs) // 2
    return bytes([op]) + fold(op, fs[:m], unit) + fold(op, fs[m:], unit)
def b(p): return bytes([0x10 + p])
def x(p): return bytes([0x20 + p])
def V(p): return bytes([0x30 + p])
def REG(r): return bytes([0x40 + r])
def BOX(t, f): return bytes([0x60 + t]) + f
def DIA(t, f): return bytes([0x68 + t]) + f
def MU(p, f): return bytes([0x70 + p]) + f
def NU(p, f): return bytes([0x80 + p]) + f
def XOR(f, g): return OR(AND(f, NOT(g)), AND(NOT(f), g))
def EQ(f, g): return OR(AND(f, g), AND(NOT(f), NOT(g)))
def same(ps): return AND(*[EQ(x(p), b(p)) for p in ps])
def becomes(p, f): return EQ(x(p), f)

class Room:
    def __init__(self, name, n): self.name, self.n, self.rec = name, n, [struct.pack('<BBI', 1, n, 0)]
    def frame(self, f):
        f = bytes([1]) + f
        assert len(f) <= 1024, (self.name, len(f))
        return struct.pack('>H', len(f)) + f
    def rel(self, t, f):
        f = self.frame(f); self.rec.append(struct.pack('<BBH', 2, t, len(f)) + f)
    def set(self, r, f, R=0xffffffff):
        f = self.frame(f); self.rec.append(struct.pack('<BBIH', 3, r, R, len(f)) + f)
    def clear(self, r): self.rec.append(bytes([4, r]))
    def count(self, r): self.rec.append(bytes([5, r]))
    def collect(self): self.rec.append(bytes([6]))
    def save(self):
        with open(f'{sys.argv[1]}/{self.name}.bin', 'wb') as o: o.write(b''.join(self.rec))

def state(n, s): return AND(*[b(p) if s >> p & 1 else NOT(b(p)) for p in range(n)])

def counter(n):
    r = Room(f'counter{n}', n)
    parts = []
    for p in range(n):
        c = AND(*[b(q) for q in range(p)])
        e = EQ(x(p), b(p)); d = XOR(x(p), b(p))
        parts.append(d if p == 0 else OR(AND(c, d), AND(NOT(c), e)))
    r.rel(0, AND(*parts))
    if n <= 12:
        r.set(0, MU(0, OR(state(n, 0), DIA(0, V(0))))); r.count(0)
        r.set(1, NU(0, AND(NOT(state(n, 5)), BOX(0, V(0))))); r.count(1)
    else:
        r.set(0, MU(0, OR(state(n, 0), DIA(0, V(0)))), R=2000)
        r.set(0, state(n, 0)); r.count(0)
    return r

def shiftreg(n):
    r = Room(f'shift{n}', n)
    # next p = bit p - 1, next 0 free; and one with feedback
    r.rel(0, AND(*[becomes(p, b(p - 1)) for p in range(1, n)]))
    r.rel(1, AND(becomes(0, XOR(b(n - 1), b(n // 2))), *[becomes(p, b(p - 1)) for p in range(1, n)]))
    r.set(0, MU(0, OR(state(n, 0), DIA(0, V(0))))); r.count(0)
    r.set(1, NU(0, AND(NOT(AND(b(0), b(n - 1))), BOX(1, V(0))))); r.count(1)
    r.set(2, NU(0, AND(OR(NOT(b(n - 1)), NOT(b(0))), DIA(0, V(0))))); r.count(2)
    odd = OR(*[AND(b(p), NOT(b((p + n // 2) % n))) for p in range(n)])
    r.set(3, MU(0, OR(AND(odd, state(n, (1 << n // 2) - 1)), DIA(1, V(0)))), R=300)
    r.set(3, NU(1, MU(0, OR(AND(odd, DIA(0, V(1))), DIA(0, V(0)))))); r.count(3)
    return r

def mics(k):
    """k microphones: bit 2i wants, bit 2i+1 open; two more bits: echo return seen, latch. Exclusive gates."""
    n = 2 * k + 2
    e, l = 2 * k, 2 * k + 1
    r = Room(f'mics{n}', n)
    opened = [2 * i + 1 for i in range(k)]
    parts = []
    for i in range(k):
        w, o = 2 * i, 2 * i + 1
        others = OR(*[b(q) for q in opened if q != o])
        # opens only if it is wanted, no other one is open and the latch is not set; lower numbers go first
        first = AND(*[NOT(b(2 * j)) for j in range(i)])
        grant = AND(b(w), NOT(b(l)), first, NOT(others))
        keep = AND(b(o), b(w), NOT(b(l)))
        parts.append(becomes(o, OR(keep, grant)))
    parts.append(OR(NOT(x(e)), OR(*[b(q) for q in opened])))
    parts.append(becomes(l, AND(OR(b(l), b(e)), OR(*[b(q) for q in opened]))))
    r.rel(0, AND(*parts))
    two = OR(*[AND(b(p), b(q)) for p in opened for q in opened if p < q][:60])
    init = state(n, 0)
    r.set(0, two); r.count(0)
    r.set(1, NU(0, AND(NOT(REG(0)), BOX(0, V(0))))); r.count(1)         # never two open
    r.set(2, MU(0, OR(REG(0), DIA(0, V(0))))); r.count(2)               # can reach two open
    r.set(3, MU(0, OR(init, DIA(0, V(0))))); r.count(3)
    r.set(4, NU(0, MU(1, OR(AND(b(1), DIA(0, V(0))), DIA(0, V(1)))))); r.count(4)  # mic 0 open again and again
    r.set(5, NU(0, AND(MU(1, OR(init, DIA(0, V(1)))), BOX(0, V(0))))); r.count(5)  # always able to go quiet
    r.set(6, MU(0, NU(1, OR(AND(b(l), BOX(0, V(0))), AND(NOT(b(l)), BOX(0, V(1))))))); r.count(6)
    r.clear(0); r.collect()
    return r

def diners(k):
    """k diners at a round table, 2 bits each: 0 thinks, 1 has left fork, 3 eats, 2 puts down; one relation each."""
    n = 2 * k
    r = Room(f'diners{n}', n)
    for i in range(k):
        u, v = 2 * i, 2 * i + 1
        lu, lv = 2 * ((i - 1) % k), 2 * ((i - 1) % k) + 1
        ru, rv = 2 * ((i + 1) % k), 2 * ((i + 1) % k) + 1
        # left fork is free if the left neighbour does not eat; right fork if the right neighbour holds no fork
        leftfree = NOT(AND(b(lu), b(lv)))
        rightfree = NOT(b(ru))
        go = OR(AND(NOT(b(u)), NOT(b(v)), x(u), NOT(x(v)), leftfree),
                AND(b(u), NOT(b(v)), x(u), x(v), rightfree),
                AND(b(u), b(v), NOT(x(u)), x(v)),
                AND(NOT(b(u)), b(v), NOT(x(u)), NOT(x(v))))
        r.rel(i, AND(go, same([p for p in range(n) if p not in (u, v)])))
    anyd = lambda f: OR(*[DIA(i, f) for i in range(k)])
    allb = lambda f: AND(*[BOX(i, f) for i in range(k)])
    r.set(0, NOT(anyd(T))); r.count(0)                                   # stuck
    r.set(1, MU(0, OR(REG(0), anyd(V(0))))); r.count(1)                  # can get stuck
    r.set(2, NU(0, AND(NOT(REG(0)), allb(V(0))))); r.count(2)
    bad = OR(*[AND(b(2 * i), b(2 * i + 1), b(2 * ((i + 1) % k)), b(2 * ((i + 1) % k) + 1)) for i in range(k)])
    r.set(3, NU(0, AND(NOT(bad), allb(V(0))))); r.count(3)               # never two neighbours eating
    r.set(4, NU(0, AND(MU(1, OR(AND(b(0), b(1)), anyd(V(1)))), allb(V(0))))); r.count(4)
    r.set(5, NU(0, MU(1, OR(AND(b(0), b(1), anyd(V(0))), anyd(V(1)))))); r.count(5)
    r.clear(1); r.collect()
    return r

def rand(n, seed):
    g = random.Random(seed)
    r = Room(f'random{n}_{seed}', n)
    def lit(rel):
        p = g.randrange(n)
        f = x(p) if rel and g.random() < 0.5 else b(p)
        return NOT(f) if g.random() < 0.5 else f
    def tree(m, rel):
        if m <= 1: return lit(rel)
        k = g.randrange(1, m)
        q = g.random()
        if q < 0.25 and m <= 40: 
            f, h = tree(k // 2 + 1, rel), tree((m - k) // 2 + 1, rel)
            return XOR(f, h)
        return bytes([3 if q < 0.6 else 4]) + tree(k, rel) + tree(m - k, rel)
    def rel_formula():
        # XOR-rich conjunction of clauses: many pairs, a large diagram
        parts = []
        for _ in range(10):
            parts.append(OR(XOR(lit(True), lit(True)), AND(lit(True), lit(True)), XOR(lit(True), lit(True))))
        return AND(*parts)
    for t in range(3):
        r.rel(t, rel_formula())
    for k in range(6):
        a, c = tree(12, False), tree(12, False)
        t = g.randrange(3); u = g.randrange(3)
        r.set(3 * k, MU(0, OR(AND(a, c), DIA(t, V(0))))); r.count(3 * k)
        r.set(3 * k + 1, NU(0, AND(OR(a, c), BOX(u, V(0))))); r.count(3 * k + 1)
        r.set(3 * k + 2, NU(0, MU(1, OR(AND(a, DIA(t, V(0))), DIA(u, V(1)))))); r.count(3 * k + 2)
    r.collect()
    return r

def many(n):
    """Many small calls: the cost of a call itself."""
    r = Room(f'many{n}', n)
    r.rel(0, AND(*[becomes(p, b(p - 1)) for p in range(1, n)]))
    for k in range(200):
        r.set(k % 32, AND(b(k % n), NOT(b((k * 7 + 3) % n))))
        r.set((k + 1) % 32, DIA(0, REG(k % 32)))
        r.clear((k + 5) % 32)
    return r

os.makedirs(sys.argv[1], exist_ok=True)
for m in [counter(8), counter(12), counter(16), shiftreg(8), shiftreg(12), shiftreg(16), mics(3), mics(5), mics(7),
          diners(4), diners(6), diners(8), rand(8, 1), rand(8, 2), rand(12, 3), many(8), many(16)]:
    m.save()
