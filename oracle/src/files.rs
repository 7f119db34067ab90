// Kind 25: leaf files and the listings that document 01's program prints of them. In: the number of bytes, and the
// bytes packed eight to a word, the first byte lowest, the last word filled with zeros. Out: the same of the listing's
// text. The fit is the original's `movmf_auto`, k 1 to 4, 100 rounds, seed 7; the reading, the refusals and the text
// are written here from document 01.
use crate::cases::{Kinded, List};
use crate::counts;
use crate::leaves::{leaves, odd, words, SORTS};
use crate::original::Original;
use crate::rng::SplitMix64;
use crate::standins::Leaf;
use crate::vmf;
use std::any::Any;
use std::io::Write;

// A file, and the number of its refusal or 0, which is written down where the file is made and must be what comes out.
type Numbered = (u32, Vec<u8>);

// ---- document 01's program

// A weight is finite, from 0 to 2^40; a coordinate is finite and within ±2.
fn leaves_in(bytes: &[u8]) -> Result<Vec<Leaf>, u32> {
    if bytes.len() < 8 {
        return Err(8);
    }
    let size = |at: usize| u32::from_le_bytes(bytes[at..at + 4].try_into().unwrap()) as usize;
    let (m, d) = (size(0), size(4));
    if m > 64 || d > 16 {
        return Err(9);
    }
    if bytes.len() != 8 + 8 * m + 8 * m * d {
        return Err(8);
    }
    if m == 0 || d == 0 {
        return Err(1);
    }
    let numbers: Vec<f64> = bytes[8..].chunks(8).map(|b| f64::from_le_bytes(b.try_into().unwrap())).collect();
    let (weights, coords) = numbers.split_at(m);
    if !weights.iter().all(|w| (0.0..=1099511627776.0).contains(w)) {
        return Err(5);
    }
    if !coords.iter().all(|x| (-2.0..=2.0).contains(x)) {
        return Err(6);
    }
    Ok(weights.iter().zip(coords.chunks(d)).map(|(&weight, x)| Leaf { mean: x.to_vec(), weight }).collect())
}

// Where the original keeps no number it panics with these words; any other panic ends the oracle.
fn seven(panic: Box<dyn Any + Send>) -> u32 {
    let said = panic.downcast_ref::<String>().map(String::as_str).or(panic.downcast_ref::<&str>().copied());
    assert_eq!(said, Some("k_lo <= k_hi"));
    7
}

fn fitted(of: &Original, bytes: &[u8]) -> Result<String, u32> {
    let leaves = leaves_in(bytes)?;
    counts::take();
    let fit = std::panic::catch_unwind(|| (of.movmf_auto)(&leaves, 1, 4, 100, 7));
    let c = counts::take();
    let r = fit.map_err(seven)?;
    let shops: String = r.outputs[0].iter().enumerate().map(|(i, label)| format!("{i} {label}\n")).collect();
    Ok(format!("groups {}\nmade {}\nsaved {}\n{shops}", r.k, c.made, c.saved))
}

// ---- the format

fn packed(bytes: &[u8]) -> Vec<u64> {
    let word = |b: &[u8]| b.iter().rev().fold(0, |w, &x| w << 8 | x as u64);
    [vec![bytes.len() as u64], bytes.chunks(8).map(word).collect()].concat()
}

fn case(of: &Original, bytes: &[u8]) -> Kinded {
    let text = fitted(of, bytes).unwrap_or_else(refusal);
    (25, (packed(bytes), packed(text.as_bytes())))
}

fn refusal(code: u32) -> String {
    format!("refused {code}\n")
}

fn numbered(of: &Original, (code, bytes): &Numbered) -> Kinded {
    let c = case(of, bytes);
    let refused = (1..10).find(|&n| c.1 .1 == packed(refusal(n).as_bytes())).unwrap_or(0);
    assert!(of.slipped || refused == *code);
    c
}

// Sizes and numbers, little-endian.
fn file(m: u32, d: u32, numbers: &[u64]) -> Vec<u8> {
    let sizes = [m.to_le_bytes(), d.to_le_bytes()].concat();
    [sizes, numbers.iter().flat_map(|n| n.to_le_bytes()).collect()].concat()
}

fn whole(sort: usize, m: usize, d: usize, seed: u64) -> Vec<u8> {
    file(m as u32, d as u32, &words(&leaves(sort, m, d, seed)))
}

// The file with another number `at`, the weights counted first.
fn with(bytes: &[u8], at: usize, number: u64) -> Vec<u8> {
    [&bytes[..8 + 8 * at], &number.to_le_bytes(), &bytes[16 + 8 * at..]].concat()
}

// ---- spoiled files

// Patterns of f64: NaN quiet and signalling, of both signs and with payloads; the sign, which is also −0; 2^40.
const NANS: [u64; 8] = [
    0x7FF8_0000_0000_0000,
    0x7FF0_0000_0000_0001,
    0x7FF4_0000_0000_0000,
    0x7FFF_FFFF_FFFF_FFFF,
    0xFFF8_0000_0000_0000,
    0xFFF0_0000_0000_0001,
    0xFFFF_FFFF_FFFF_FFFF,
    0x7FF8_DEAD_BEEF_0001,
];
const INFINITY: u64 = 0x7FF0_0000_0000_0000;
const MINUS: u64 = 1 << 63;
const ONE: u64 = 0x3FF0_0000_0000_0000;
const TWO: u64 = 0x4000_0000_0000_0000;
const LARGEST_WEIGHT: u64 = 0x4270_0000_0000_0000;

// Below eight bytes; m or d 0; m above 64, d above 16, both, with the right length and with a wrong one.
fn sizes() -> Vec<Numbered> {
    let mut all: Vec<Numbered> = (0..8).map(|n| (8, whole(0, 1, 1, 1)[..n].to_vec())).collect();
    all.extend([0, 1, 2, 5, 16].map(|d| (1, file(0, d, &[]))));
    all.extend([1, 2, 5, 64].map(|m| (1, file(m as u32, 0, &vec![ONE; m]))));
    for m in [65, 66, 128, 255, 256, 257, 65536, 65539, 1 << 24, 1 << 31, (1 << 31) + 1, u32::MAX] {
        for d in [0, 1, 16, 17, u32::MAX] {
            all.push((9, file(m, d, &[])));
        }
    }
    for d in [17, 18, 255, 256, 65537, 1 << 24, 1 << 31, u32::MAX] {
        for m in [0, 1, 64] {
            all.push((9, file(m, d, &[])));
        }
    }
    for (m, d) in [(65, 1), (65, 2), (1, 17), (2, 17), (66, 0), (65, 17)] {
        all.push((9, whole(1, m, d, 2)));
        all.push((9, with(&whole(1, m, d, 2), 0, NANS[0])));
    }
    all
}

// A length that is wrong: some bytes short or long, or right for other sizes.
fn lengths() -> Vec<Numbered> {
    let mut all = vec![(8, file(0, 3, &[ONE])), (8, file(3, 0, &[])), (8, file(0, 0, &[0])), (8, file(64, 16, &[]))];
    for (m, d) in [(1, 1), (2, 3), (5, 2), (3, 16)] {
        let right = whole(0, m, d, 3);
        for n in [1, 2, 7, 8, 9] {
            all.push((8, right[..right.len() - n].to_vec()));
            all.push((8, [&right[..], &vec![0; n]].concat()));
        }
        for (a, b) in [(m + 1, d), (m, d + 1), (m + 1, d + 1), (m, d - 1), (m - 1, d)] {
            all.push((8, [&right[..8], &whole(0, a, b, 3)[8..]].concat()));
        }
        all.push((8, right[..8].to_vec()));
        all.push((8, with(&[&right[..], &[0]].concat(), 0, NANS[0])));
    }
    let large = whole(0, 64, 16, 3);
    all.push((8, large[..8711].to_vec()));
    all.push((8, [&large[..], &[0]].concat()));
    all
}

// One number at the first, a middle and the last of three weights or of six coordinates.
fn numbers() -> Vec<Numbered> {
    let right = whole(0, 3, 2, 4);
    let both = [INFINITY, INFINITY | MINUS, f64::MAX.to_bits(), f64::MIN.to_bits(), 1e300f64.to_bits()];
    let weights = [ONE | MINUS, 1 | MINUS, LARGEST_WEIGHT + 1];
    let coords = [TWO + 1, (TWO + 1) | MINUS, 3f64.to_bits(), LARGEST_WEIGHT];
    let mut all = Vec::new();
    for i in 0..3 {
        let weight = |code: u32, of: &[u64]| of.iter().map(|&n| (code, with(&right, i, n))).collect::<Vec<_>>();
        all.extend([weight(5, &NANS), weight(5, &both), weight(5, &weights)].concat());
        all.extend(weight(0, &[0, MINUS, 1, LARGEST_WEIGHT - 1, LARGEST_WEIGHT, TWO]));
        let at = [3, 6, 8][i];
        let coord = |code: u32, of: &[u64]| of.iter().map(|&n| (code, with(&right, at, n))).collect::<Vec<_>>();
        all.extend([coord(6, &NANS), coord(6, &both), coord(6, &coords)].concat());
        all.extend(coord(0, &[0, MINUS, 1, 1 | MINUS, TWO - 1, TWO, TWO | MINUS]));
        // a bad weight comes first, wherever the bad coordinate is
        for (n, x) in [(NANS[1], NANS[2]), (ONE | MINUS, NANS[0]), (LARGEST_WEIGHT + 1, TWO + 1), (INFINITY, INFINITY)]
        {
            all.push((5, with(&with(&right, i, n), 3, x)));
        }
    }
    // no coordinates come before bad weights
    all.push((1, file(2, 0, &NANS[..2])));
    all
}

// Document 01's own file; leaves of zero weight of both signs; a skip that changes a label.
fn chosen() -> Vec<Numbered> {
    let small = [1e-8, 0.500000001, 0.6, 0.8, 0.5].map(f64::to_bits);
    let skip = [ONE, ONE, small[0], 0, ONE, 0, 0, ONE, small[2], small[3], small[1], small[4]];
    let one = file(1, 1, &[ONE, ONE]);
    assert_eq!(fitted(&vmf::ORIGINAL, &one), Ok("groups 1\nmade 4\nsaved 4\n0 0\n".to_string()));
    vec![
        (0, one),
        (0, file(3, 2, &[0, MINUS, 0, ONE, 0, 0, ONE, 0, ONE | MINUS])),
        (0, file(4, 2, &skip)),
        (0, file(64, 16, &[0; 64 * 17])),
    ]
}

// ---- the lists

fn right() -> Vec<Vec<u8>> {
    let mut all = Vec::new();
    for (m, d) in [(1, 1), (1, 16), (2, 2), (3, 1), (4, 3), (5, 2), (6, 3), (8, 4), (12, 5), (20, 2)] {
        all.extend((0..SORTS).map(|sort| whole(sort, m, d, (m * 1000 + d * 100 + sort) as u64)));
    }
    all.extend((1..=64).map(|m| whole(m % SORTS, m, 1 + m % 5, m as u64)));
    all.extend((1..=16).map(|d| whole(d % 4, 3 + d % 7, d, d as u64)));
    all.extend((0..10).map(|sort| whole(sort, 64, 16, 64 + sort as u64)));
    all
}

// Seeds of odd files: one tells `served` without its refresh.
const ODD: [u64; 1] = [1442];

pub fn odd_case(of: &Original, seed: u64) -> Kinded {
    let mut g = SplitMix64::new(seed);
    let r = g.next_u64();
    let (m, d) = (2 + (r % 6) as usize, 1 + (r / 8 % 6) as usize);
    case(of, &file(m as u32, d as u32, &words(&odd(m, d, &mut g))))
}

// The stored cases.
pub fn files(of: &Original) -> Vec<Kinded> {
    let mut all = ODD.map(|seed| odd_case(of, seed)).to_vec();
    all.extend([chosen(), sizes(), lengths(), numbers()].concat().iter().map(|f| numbered(of, f)));
    all.extend(right().iter().map(|bytes| case(of, bytes)));
    all
}

// A file with one random change: a bit, the length, a number, a size.
fn changed(mut bytes: Vec<u8>, g: &mut SplitMix64) -> Vec<u8> {
    let (sort, r) = (g.next_u64() % 6, g.next_u64());
    let place = (g.next_u64() % bytes.len() as u64) as usize;
    let special = [
        NANS[r as usize % 8],
        INFINITY,
        MINUS,
        TWO | MINUS,
        TWO + 1,
        LARGEST_WEIGHT,
        LARGEST_WEIGHT + 1,
        ONE | MINUS,
        r >> 2,
    ];
    match sort {
        0 => bytes[place] ^= 1 << (r % 8),
        1 => bytes.truncate(place),
        2 => bytes.extend(vec![r as u8; 1 + r as usize % 16]),
        3 => return with(&bytes, place % (bytes.len() / 8 - 1), special[(r / 8 % 9) as usize]),
        4 => bytes[4 * (place % 2)] = (r % 70) as u8,
        _ => bytes[place % 8] ^= 1 << (r % 8),
    }
    bytes
}

// 1,000 random files: up to 4, 16 or 64 leaves of every sort, of up to 16 coordinates, half of the files with a random
// change.
pub fn many<W: Write>(list: &mut List<W>, seed: u64) {
    let mut g = SplitMix64::new(seed);
    for _ in 0..1000 {
        let r = g.next_u64();
        let m = 1 + (r / 64 % [4, 16, 64][(r % 3) as usize]) as usize;
        let d = 1 + (r / 10000 % 16) as usize;
        let sort = (r / 1000000 % SORTS as u64) as usize;
        let bytes = whole(sort, m, d, g.next_u64());
        let bytes = if r / 70000000 % 2 == 0 { bytes } else { changed(bytes, &mut g) };
        list.cases(&[case(&vmf::ORIGINAL, &bytes)]);
    }
}
