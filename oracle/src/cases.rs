// The format, and the cases of the arithmetic and of the generator. A list is words of 16 hexadecimal digits, each
// followed by a space or, at the end of a case, a line end. A block is its kind, the numbers of words in and out of a
// case, the number of cases, and the cases: the words in, then the answer. Every NaN is written as 7ff8000000000000.
use crate::document;
use crate::original::Original;
use crate::rng::SplitMix64;
use crate::vmf;
use std::io::Write;

// The words in, and the answer's.
pub type Case = (Vec<u64>, Vec<u64>);

// A case with its kind before it.
pub type Kinded = (u64, Case);

pub struct List<W: Write> {
    out: W,
}

impl<W: Write> List<W> {
    pub fn new(out: W) -> Self {
        Self { out }
    }

    fn line(&mut self, words: &[u64]) {
        let text: Vec<String> = words.iter().map(|w| format!("{w:016x}")).collect();
        writeln!(self.out, "{}", text.join(" ")).unwrap();
    }

    // One block of cases, all of the same shape.
    pub fn block(&mut self, kind: u64, cases: &[Case]) {
        let (ins, outs) = (cases[0].0.len(), cases[0].1.len());
        self.line(&[kind, ins as u64, outs as u64, cases.len() as u64]);
        for (a, b) in cases {
            assert!(a.len() == ins && b.len() == outs);
            self.line(&[&a[..], &b[..]].concat());
        }
    }

    // Cases of any kinds: those that follow one another with the same kind and shape as one block.
    pub fn cases(&mut self, all: &[Kinded]) {
        let shape = |c: &Kinded| (c.0, c.1 .0.len(), c.1 .1.len());
        for block in all.chunk_by(|a, b| shape(a) == shape(b)) {
            let cases: Vec<Case> = block.iter().map(|c| c.1.clone()).collect();
            self.block(block[0].0, &cases);
        }
    }

    pub fn end(&mut self) {
        self.line(&[0, 0, 0, 0]);
        self.out.flush().unwrap();
    }
}

// The pattern of an f64, all NaN as one.
pub fn bits(x: f64) -> u64 {
    if x.is_nan() {
        0x7FF8_0000_0000_0000
    } else {
        x.to_bits()
    }
}

// Patterns that any function of one f64 is tried on: zeros, infinities, NaN of both signs and with payloads, both ends
// of the subnormals, the ends and the middle of every binade (four in the interior, by the generator), and random
// patterns.
fn patterns(seed: u64) -> Vec<u64> {
    let mut g = SplitMix64::new(seed);
    let mut all = vec![
        0,
        1,
        2,
        3,
        0x000F_FFFF_FFFF_FFFF,
        0x0010_0000_0000_0000,
        0x0010_0000_0000_0001,
        0x3FEF_FFFF_FFFF_FFFF,
        0x3FF0_0000_0000_0001,
        0x7FEF_FFFF_FFFF_FFFF,
        0x7FF0_0000_0000_0000,
        0x7FF0_0000_0000_0001,
        0x7FF8_0000_0000_0000,
        0x7FFF_FFFF_FFFF_FFFF,
    ];
    for e in 0..2047u64 {
        all.push(e << 52);
        all.push((e << 52) | (g.next_u64() >> 12));
    }
    for k in 0..52 {
        all.push(1 << k);
        all.push((g.next_u64() >> 12) >> k);
    }
    let negative: Vec<u64> = all.iter().step_by(16).map(|b| b | 1 << 63).collect();
    all.extend(negative);
    for _ in 0..1024 {
        all.push(g.next_u64());
    }
    all
}

// Patterns near a value: the value, and some neighbours on both sides.
pub fn around(x: f64, width: u64) -> Vec<u64> {
    let b = x.to_bits();
    (0..=2 * width).map(|k| b + k - width).collect()
}

fn one(kind: u64, inputs: &[u64], f: fn(f64) -> f64) -> Vec<Kinded> {
    inputs.iter().map(|&b| (kind, (vec![b], vec![bits(f(f64::from_bits(b)))]))).collect()
}

// Kind 2.
pub fn exps(of: &Original) -> Vec<Kinded> {
    one(2, &exp_patterns(), of.exp)
}

// Kinds 1 to 6: root, exp, ln, max, clamp, abs.
pub fn arithmetic<W: Write>(list: &mut List<W>) {
    list.cases(&one(1, &patterns(1), f64::sqrt));
    list.cases(&exps(&vmf::ORIGINAL));
    list.cases(&one(3, &ln_patterns(), document::ln));
    order(list);
    list.cases(&one(6, &few_patterns(), f64::abs));
}

fn exp_patterns() -> Vec<u64> {
    let mut exp = patterns(2);
    for x in [709.0, -708.0, 0.5, -0.5, 1.0, -1.0, 88.0, -745.0, -745.2] {
        exp.extend(around(x, 4));
    }
    // where x·1.4426950408889634 + 0.5 passes a whole number
    for n in -1075..=1023 {
        exp.extend(around((n as f64 - 0.5) / 1.4426950408889634, 1));
    }
    let mut g = SplitMix64::new(3);
    for _ in 0..2048 {
        exp.push((g.next_f64() * 1460.0 - 750.0).to_bits());
    }
    // where the answer is subnormal, and around it
    for _ in 0..1024 {
        exp.push((g.next_f64() * 39.0 - 746.0).to_bits());
    }
    exp
}

fn ln_patterns() -> Vec<u64> {
    let mut ln = patterns(4);
    for x in [1.0, 1.4142135623730951, 2.0, std::f64::consts::TAU, 0.7071067811865476, 1e-300, f64::MIN_POSITIVE] {
        ln.extend(around(x, 8));
    }
    ln
}

// Kinds 4 and 5.
fn order<W: Write>(list: &mut List<W>) {
    let few = few_patterns();
    let mut max = Vec::new();
    let mut clamp = Vec::new();
    for &a in &few {
        for &b in &few {
            let (x, y) = (f64::from_bits(a), f64::from_bits(b));
            // the sign of the greater of two zeros of different sign is left open by Rust: not compared
            if x != 0.0 || y != 0.0 || a == b {
                max.push((vec![a, b], vec![bits(x.max(y))]));
            }
            for &c in &few {
                let z = f64::from_bits(c);
                if y <= z {
                    clamp.push((vec![a, b, c], vec![bits(x.clamp(y, z))]));
                }
            }
        }
    }
    list.block(4, &max);
    list.block(5, &clamp);
}

fn few_patterns() -> Vec<u64> {
    let mut all = vec![0, 1, 0x000F_FFFF_FFFF_FFFF, 0x0010_0000_0000_0000, 0x3FF0_0000_0000_0000];
    all.extend([0x4340_0000_0000_0000, 0x7FEF_FFFF_FFFF_FFFF, 0x7FF0_0000_0000_0000, 0x7FF8_0000_0000_0000]);
    let negative: Vec<u64> = all.iter().map(|b| b | 1 << 63).collect();
    all.extend(negative);
    all
}

pub fn seeds() -> Vec<u64> {
    let mut seeds: Vec<u64> = vec![0, 1, 7, 1234567, u64::MAX, 1 << 63, 0x9E37_79B9_7F4A_7C15, 0x61C8_8646_80B5_83EB];
    let mut g = SplitMix64::new(5);
    for _ in 0..1024 {
        seeds.push(g.next_u64());
    }
    seeds
}

// Kinds 7 to 10: draws of the generator (state in; number and fraction out), the product modulo 2^64, restart seeds.
pub fn generator<W: Write>(list: &mut List<W>) {
    let seeds = seeds();
    let mut draws = Vec::new();
    for &s in &seeds {
        let n = SplitMix64::new(s).next_u64();
        let x = SplitMix64::new(s).next_f64();
        draws.push((vec![s], vec![n, bits(x)]));
    }
    list.block(7, &draws);
    // the 1st, 2nd, .. 64th draw of a seed, one after the other
    let mut runs = Vec::new();
    for &s in &seeds[..8] {
        let mut h = SplitMix64::new(s);
        let outs: Vec<u64> = (0..64).map(|_| h.next_u64()).collect();
        runs.push((vec![s], outs));
    }
    list.block(8, &runs);
    list.block(9, &products(&seeds));
    let mut restarts = Vec::new();
    for &seed in &seeds[..64] {
        for s in 0..4u64 {
            restarts.push((vec![seed, s], vec![seed.wrapping_add(s.wrapping_mul(0x9E37_79B9))]));
        }
    }
    list.block(10, &restarts);
}

fn products(seeds: &[u64]) -> Vec<Case> {
    let mut products = Vec::new();
    for (i, &a) in seeds.iter().enumerate() {
        let b = seeds[(i * 7 + 3) % seeds.len()];
        products.push((vec![a, b], vec![a.wrapping_mul(b)]));
    }
    for &a in &[0, 1, u64::MAX, 1 << 32, (1 << 32) - 1, (1 << 32) + 1] {
        for &b in &[0, 1, u64::MAX, 1 << 32, (1 << 32) - 1, (1 << 32) + 1] {
            products.push((vec![a, b], vec![a.wrapping_mul(b)]));
        }
    }
    products
}
