//! Mutations of bytes as AFL makes them: the deterministic stages by number, havoc and splice by random numbers. Words are
//! of 16 or 32 bits, in both orders of their bytes.

use crate::random::Random;
use std::ops::Range;

/// What sheets are made of, and what is near to it.
pub const DICTIONARY: [&str; 73] = [
    "way", "node", "area", "line", "canvas", "meta", "*", "colors", "|z", "|z1", "|z12-", "|z-9", "|z5-18", "|z123",
    "::", "::*", "::casing", "::default", ":closed", "[", "]", "[!", "?]", "?!]", "[highway]", "[!tunnel]",
    "[bridge?]", "[layer=-1]", "[lanes!=2]", "[ele>=500]", "[a=2.5]", "=.5]", "[name:en]", "[\"k\"]", "=", "!=", "<",
    "<=", ">", ">=", "=~", "{", "}", "{}", ":", ";", ",", ",,", "way{}", "width:", "casing-width:", "z-index:-0;",
    "text:name;", "dashes:4,2;", "eval(prop(\"width\"))", "(prop(\"width\") 2)", "eval(", "prop(", "@import",
    "@import \"t0\";", "@import(\"t1\");", "@c:#fff;", "@c", "#fff", "#00a0ff", "#12", "/*", "*/", "//", "\"", "0.5",
    "-1", "é\u{2003}",
];

const INTERESTING_8: [i8; 9] = [-128, -1, 0, 1, 16, 32, 64, 100, 127];
const INTERESTING_16: [i16; 10] = [-32768, -129, 128, 255, 256, 512, 1000, 1024, 4096, 32767];
const INTERESTING_32: [i32; 8] = [i32::MIN, -100_663_046, -32_769, 32_768, 65_535, 65_536, 100_663_045, i32::MAX];

/// The largest number that is added or subtracted.
const MOST_ADDED: usize = 35;
/// The longest block that is deleted, doubled or written over, for short, middle and long ones.
const BLOCKS: [usize; 3] = [32, 128, 1_500];
/// 2 to this power is the highest stack of havoc.
const HIGHEST: usize = 7;

/// A byte's, a word's and a double word's interesting values, the narrower ones among the wider.
fn interesting(width: usize) -> Vec<i32> {
    let mut all: Vec<i32> = INTERESTING_8.iter().map(|&n| n.into()).collect();
    if width > 1 {
        all.extend(INTERESTING_16.map(i32::from));
    }
    if width > 2 {
        all.extend(INTERESTING_32);
    }
    all
}

pub const STAGES: [&str; 15] = [
    "1 bit flipped",
    "2 bits flipped",
    "4 bits flipped",
    "1 byte flipped",
    "2 bytes flipped",
    "4 bytes flipped",
    "byte added to",
    "word added to",
    "interesting byte",
    "interesting word",
    "interesting double word",
    "dictionary over",
    "dictionary in",
    "havoc",
    "splice",
];
pub const HAVOC: usize = 13;
pub const SPLICE: usize = 14;

/// How many mutations of so many bytes a deterministic stage has.
fn stage_size(stage: usize, n: usize) -> usize {
    let places = |width: usize| (n + 1).saturating_sub(width);
    match stage {
        0..=2 => (8 * n + 1).saturating_sub(1 << stage),
        3..=5 => places(1 << (stage - 3)),
        6 => places(1) * 2 * MOST_ADDED,
        7 => places(2) * 4 * MOST_ADDED,
        8 => places(1) * interesting(1).len(),
        9 => places(2) * 2 * interesting(2).len(),
        10 => places(4) * 2 * interesting(4).len(),
        11 => n * DICTIONARY.len(),
        12 => (n + 1) * DICTIONARY.len(),
        _ => unreachable!("stage {stage} is not deterministic"),
    }
}

/// How many mutations a walk through all deterministic stages has.
pub fn walk_length(n: usize) -> usize {
    (0..HAVOC).map(|stage| stage_size(stage, n)).sum()
}

/// Mutation k of a walk, with its stage.
pub fn walk(bytes: &[u8], mut k: usize) -> (usize, Vec<u8>) {
    let mut out = bytes.to_vec();
    for stage in 0..HAVOC {
        let size = stage_size(stage, bytes.len());
        if k < size {
            step(&mut out, stage, k);
            return (stage, out);
        }
        k -= size;
    }
    panic!("a walk is not so long");
}

/// Mutation k of a stage.
fn step(out: &mut Vec<u8>, stage: usize, k: usize) {
    match stage {
        0..=2 => (k..k + (1 << stage)).for_each(|bit| flip(out, bit)),
        3..=5 => out[k..k + (1 << (stage - 3))].iter_mut().for_each(|byte| *byte ^= 0xff),
        6 | 7 => {
            let width = stage - 5;
            let (at, k) = (k / (2 * width * MOST_ADDED), k % (2 * width * MOST_ADDED));
            let amount = (k % MOST_ADDED + 1) as i32;
            let (minus, swapped) = (k / MOST_ADDED % 2 == 1, k / MOST_ADDED / 2 == 1);
            add(out, at, width, if minus { -amount } else { amount }, swapped);
        }
        8..=10 => {
            let width = 1 << (stage - 8);
            let values = interesting(width);
            let orders = width.min(2);
            let (at, k) = (k / (orders * values.len()), k % (orders * values.len()));
            put(out, at, width, values[k % values.len()], k / values.len() == 1);
        }
        _ => {
            let (at, token) = (k / DICTIONARY.len(), DICTIONARY[k % DICTIONARY.len()].as_bytes());
            let to = if stage == 11 { out.len().min(at + token.len()) } else { at };
            drop(out.splice(at..to, token.iter().copied()));
        }
    }
}

fn flip(out: &mut [u8], bit: usize) {
    out[bit / 8] ^= 128 >> (bit % 8);
}

/// The number of so many bytes, the lowest first, or the highest where the order is swapped.
fn get(out: &[u8], at: usize, width: usize, swapped: bool) -> i32 {
    let place = |k: usize| if swapped { at + width - 1 - k } else { at + k };
    (0..width).fold(0, |n, k| n | i32::from(out[place(k)]) << (8 * k))
}

fn put(out: &mut [u8], at: usize, width: usize, n: i32, swapped: bool) {
    for k in 0..width {
        let place = if swapped { at + width - 1 - k } else { at + k };
        out[place] = (n >> (8 * k)) as u8;
    }
}

fn add(out: &mut [u8], at: usize, width: usize, amount: i32, swapped: bool) {
    let sum = get(out, at, width, swapped).wrapping_add(amount);
    put(out, at, width, sum, swapped);
}

pub const STEPS: [&str; 13] = [
    "bit flipped",
    "interesting byte",
    "interesting word",
    "interesting double word",
    "byte added to",
    "word added to",
    "double word added to",
    "byte changed",
    "block deleted",
    "block doubled or put in",
    "block written over",
    "dictionary over",
    "dictionary in",
];

/// A stack of 2, 4, .. or 128 random steps; `met` is told each.
pub fn havoc(r: &mut Random, bytes: &[u8], most: usize, met: &mut impl FnMut(usize)) -> Vec<u8> {
    let mut out = bytes.to_vec();
    for _ in 0..1 << r.between(1, HIGHEST) {
        // deleting has twice the weight
        let kind = *r.pick(&[&0, &1, &2, &3, &4, &5, &6, &7, &8, &8, &9, &10, &11, &12]);
        if havoc_step(r, &mut out, kind, most) {
            met(kind);
        }
    }
    out
}

/// False where the bytes are too short for it, or would become too long.
fn havoc_step(r: &mut Random, out: &mut Vec<u8>, kind: usize, most: usize) -> bool {
    let n = out.len();
    let width = [1, 1, 2, 4, 1, 2, 4, 1, 2, 1, 2, 1, 0][kind];
    if n < width || (kind == 9 || kind == 12) && n >= most {
        return false;
    }
    match kind {
        0 => flip(out, r.below(8 * n)),
        1..=3 => {
            let values = interesting(width);
            let value = values[r.below(values.len())];
            put(out, r.below(n + 1 - width), width, value, r.one_in(2));
        }
        4..=6 => {
            let amount = r.between(1, MOST_ADDED) as i32;
            let amount = if r.one_in(2) { -amount } else { amount };
            add(out, r.below(n + 1 - width), width, amount, r.one_in(2));
        }
        7 => out[r.below(n)] ^= r.between(1, 255) as u8,
        8 => drop(out.drain(block(r, n, n - 1))),
        9 => {
            let block = some_block(r, out);
            let at = r.below(n + 1);
            out.splice(at..at, block);
        }
        10 => {
            let block = some_block(r, out);
            let at = r.below(n + 1 - block.len());
            out.splice(at..at + block.len(), block);
        }
        11 => {
            let token = DICTIONARY[r.below(DICTIONARY.len())].as_bytes();
            let at = r.below(n);
            out.splice(at..n.min(at + token.len()), token.iter().copied());
        }
        _ => {
            let token = DICTIONARY[r.below(DICTIONARY.len())].as_bytes();
            let at = r.below(n + 1);
            out.splice(at..at, token.iter().copied());
        }
    }
    true
}

/// A block of at most so many bytes, mostly a short one.
fn block(r: &mut Random, n: usize, most: usize) -> Range<usize> {
    let longest = *r.pick(&[&BLOCKS[0], &BLOCKS[0], &BLOCKS[1], &BLOCKS[2]]);
    let length = r.between(1, longest.min(most).max(1));
    let from = r.below(n + 1 - length);
    from..from + length
}

/// Three times in four a copy of a block, else one byte again and again.
fn some_block(r: &mut Random, out: &[u8]) -> Vec<u8> {
    let block = block(r, out.len(), out.len());
    if !r.one_in(4) {
        return out[block].to_vec();
    }
    let byte = if r.one_in(2) { r.below(256) as u8 } else { out[r.below(out.len())] };
    vec![byte; block.len()]
}

/// The first bytes of one and the last of another, cut at one place between their first and their last difference; none
/// where there is no such place.
pub fn splice(r: &mut Random, first: &[u8], second: &[u8]) -> Option<Vec<u8>> {
    let differs: Vec<usize> = (0..first.len().min(second.len())).filter(|&k| first[k] != second[k]).collect();
    let (from, to) = (*differs.first()?, *differs.last()?);
    if to < from + 2 {
        return None;
    }
    let at = r.between(from + 1, to);
    Some([&first[..at], &second[at..]].concat())
}

/// The bytes as UTF-8: a byte that cannot be read loses its highest bit.
pub fn mended(bytes: &[u8]) -> Vec<u8> {
    let mut out = bytes.to_vec();
    while let Err(error) = std::str::from_utf8(&out) {
        out[error.valid_up_to()] &= 0x7f;
    }
    out
}
