//! Property maps: what is handed to a call and what it answers, and the model, written from the papers' text over the
//! words of the tables. Refusals 7, 8, 22, 23 and 24, and an entity's 2, are this model's alone: the original has none.

use crate::entities::{self, Entity};
use crate::loads::{stride, Entry, Refusal, Tables, KINDS_OF_TESTS};
use crate::loads::{MOST_ENTRIES, NUMBERS, PROPERTIES, RULES, SELECTORS, TESTS};
use crate::tally::{self, Line};
use std::ops::Range;
use std::sync::OnceLock;

pub const MOST_LAYERS: usize = 32;
pub const MOST_NAMES: usize = 128;
const WHOLE: f64 = 9_007_199_254_740_991.0;

/// The tables that a call reads, each of any length, and the six counts of a load.
#[derive(Clone, Debug, Default)]
pub struct Handed {
    /// Rules, selectors, tests, properties.
    pub words: [Vec<u32>; 4],
    pub numbers: Vec<f64>,
    pub counts: [u64; 6],
}

impl Handed {
    /// Tables just as large as a load's entries.
    pub fn of(tables: &Tables) -> Handed {
        Handed {
            words: std::array::from_fn(|table| tables.entries[table].iter().flatten().copied().collect()),
            numbers: tables.numbers.iter().map(|&bits| f64::from_bits(bits)).collect(),
            counts: tables.counts().map(|n| n as u64),
        }
    }

    fn lent(&self, table: usize) -> usize {
        if table == NUMBERS {
            self.numbers.len()
        } else {
            self.words[table].len()
        }
    }

    pub fn entry(&self, table: usize, n: usize) -> Entry {
        self.words[table][8 * n..8 * n + 8].try_into().unwrap()
    }

    pub fn entries(&self, table: usize) -> impl Iterator<Item = Entry> + '_ {
        (0..self.counts[table] as usize).map(move |n| self.entry(table, n))
    }
}

/// A layer: the selector that named it, and its properties, by their places in the tables.
#[derive(Clone, Debug, PartialEq)]
pub struct Layer {
    pub selector: u32,
    pub properties: Vec<u32>,
}

pub type Answer = Result<Vec<Layer>, Refusal>;

/// Whether no entry below its count is broken, and no count is too large: else 22.
pub fn sound(handed: &Handed, bundle: usize) -> bool {
    let room = |table: usize| (handed.lent(table) / stride(table)).min(MOST_ENTRIES) as u64;
    let judge = Judge { handed, bundle: bundle as u64 };
    (0..5).all(|table| handed.counts[table] <= room(table))
        && handed.entries(RULES).all(|entry| judge.rule(entry))
        && handed.entries(SELECTORS).all(|entry| judge.selector(entry))
        && handed.entries(TESTS).all(|entry| judge.test(entry))
        && handed.entries(PROPERTIES).all(|entry| judge.property(entry))
}

struct Judge<'a> {
    handed: &'a Handed,
    bundle: u64,
}

impl Judge<'_> {
    fn text(&self, from: u32, to: u32) -> bool {
        from <= to && u64::from(to) <= self.bundle
    }

    fn part(&self, table: usize, from: u32, to: u32) -> bool {
        from <= to && u64::from(to) <= self.handed.counts[table]
    }

    /// A text behind a mark that says whether there is one.
    fn marked(&self, mark: u32, from: u32, to: u32) -> bool {
        match mark {
            0 => from == 0 && to == 0,
            1 => self.text(from, to),
            _ => false,
        }
    }

    fn number(&self, n: u32) -> bool {
        u64::from(n) < self.handed.counts[NUMBERS]
    }

    fn whole(&self, n: u32) -> bool {
        let x = self.handed.numbers[n as usize];
        x.trunc() == x && x.abs() <= WHOLE
    }

    fn rule(&self, [kind, s, s_to, p, p_to, x, y, z]: Entry) -> bool {
        kind == 1 && self.part(SELECTORS, s, s_to) && self.part(PROPERTIES, p, p_to) && [x, y, z] == [0; 3]
    }

    fn selector(&self, [kind, _, _, t, t_to, layer, from, to]: Entry) -> bool {
        (1..=6).contains(&kind) && self.part(TESTS, t, t_to) && self.marked(layer, from, to)
    }

    fn test(&self, [kind, from, to, joined, second, second_to, a, b]: Entry) -> bool {
        let value = match kind {
            1..=4 => [a, b] == [0; 2],
            5 | 6 => self.text(a, b),
            7 | 8 => self.number(a) && self.whole(a) && b == 0,
            9..=12 => self.number(a) && b == 0,
            _ => false,
        };
        value && self.text(from, to) && self.marked(joined, second, second_to)
    }

    fn property(&self, [kind, from, to, a, b, c, d, rest]: Entry) -> bool {
        let value = match kind {
            1 | 3 => self.text(a, b) && [c, d] == [0; 2],
            2 => self.text(a, b) && self.text(c, d),
            4 => [a, b, c].iter().all(|&x| x <= 255) && d == 0,
            5 => self.part(NUMBERS, a, b) && [c, d] == [0; 2],
            6 => self.number(a) && [b, c, d] == [0; 3],
            _ => false,
        };
        value && self.text(from, to) && rest == 0
    }
}

#[derive(Clone, Copy, Debug, PartialEq)]
pub enum TagNumber {
    Malformed,
    /// Outside the exact range.
    Outside,
    Is(f64),
}

/// The digits at the start, and what follows.
fn digits(s: &[u8]) -> (&[u8], &[u8]) {
    s.split_at(s.iter().take_while(|b| b.is_ascii_digit()).count())
}

fn sign(s: &[u8]) -> (bool, &[u8]) {
    match s {
        [b'-', rest @ ..] => (true, rest),
        [b'+', rest @ ..] => (false, rest),
        _ => (false, s),
    }
}

/// A number of digits, or a larger one than any that matters.
fn spelt(digits: impl Iterator<Item = u8>) -> i64 {
    digits.fold(0, |n, b| (n * 10 + i64::from(b - b'0')).min(100_000_000_000_000_000))
}

pub fn tag_number(value: &[u8]) -> TagNumber {
    let (minus, s) = sign(value);
    let signed = |x: f64| TagNumber::Is(if minus { -x } else { x });
    match &s.to_ascii_lowercase()[..] {
        b"inf" | b"infinity" => return signed(f64::INFINITY),
        b"nan" => return TagNumber::Is(f64::NAN),
        _ => {}
    }
    let (whole, s) = digits(s);
    let (fraction, s) = match s {
        [b'.', s @ ..] => digits(s),
        _ => (&b""[..], s),
    };
    if whole.is_empty() && fraction.is_empty() {
        return TagNumber::Malformed;
    }
    let exponent = match s {
        [] => 0,
        [b'e' | b'E', s @ ..] => {
            let (minus, s) = sign(s);
            let (all, rest) = digits(s);
            if all.is_empty() || !rest.is_empty() {
                return TagNumber::Malformed;
            }
            let n = spelt(all.iter().copied());
            if minus {
                -n
            } else {
                n
            }
        }
        _ => return TagNumber::Malformed,
    };
    let d = spelt(whole.iter().chain(fraction).copied());
    let e = exponent - fraction.len() as i64;
    match (d, e) {
        (0, _) => signed(0.0),
        (0..=9_007_199_254_740_991, 0..=22) => signed(d as f64 * 10f64.powi(e as i32)),
        (0..=9_007_199_254_740_991, -22..0) => signed(d as f64 / 10f64.powi(-e as i32)),
        _ => TagNumber::Outside,
    }
}

#[derive(Clone, Copy)]
enum Verdict {
    Holds,
    Fails,
    Outside,
}

impl Verdict {
    fn of(holds: bool) -> Verdict {
        if holds {
            Verdict::Holds
        } else {
            Verdict::Fails
        }
    }
}

const NUMBER_SHAPES: [&str; 9] = ["absent", "malformed", "outside", "0", "-0", "whole", "broken", "infinite", "NaN"];
const FATES: [&str; 5] = ["other type", "other zoom", "test fails", "outside", "matches"];
const SHAPES: [&str; 7] =
    ["layer *", "default by name", "layer without properties", "overwritten name", "128 names", "no tags", "256 tags"];
const REFUSALS: [u64; 6] = [2, 7, 8, 22, 23, 24];
/// The first kind of test that reads a tag as a number.
const NUMERIC: usize = 9;

/// How often each verdict of each kind of test came up, each shape of a tag number, each fate of a selector, each refusal
/// and each count of layers.
#[derive(Clone)]
pub struct Tally {
    hold: Line,
    fail: Line,
    outside: Line,
    numbers: Line,
    selectors: Line,
    kinds: Line,
    refused: Line,
    layers: Line,
    shapes: Line,
}

impl Default for Tally {
    fn default() -> Tally {
        static EMPTY: OnceLock<Tally> = OnceLock::new();
        let empty = || Tally {
            hold: Line::new("test holds", KINDS_OF_TESTS),
            fail: Line::new("test fails", KINDS_OF_TESTS),
            outside: Line::new("test is 8", &KINDS_OF_TESTS[NUMERIC - 1..]),
            numbers: Line::new("tag number", NUMBER_SHAPES),
            selectors: Line::new("selector", FATES),
            kinds: Line::new("entity", ["node", "open", "closed"]),
            refused: Line::new("refused", REFUSALS),
            layers: Line::new("layers", 0..=MOST_LAYERS),
            shapes: Line::new("shape", SHAPES),
        };
        EMPTY.get_or_init(empty).clone()
    }
}

impl Tally {
    fn verdict(&mut self, kind: usize, verdict: Verdict) {
        match verdict {
            Verdict::Holds => self.hold.met(kind - 1),
            Verdict::Fails => self.fail.met(kind - 1),
            Verdict::Outside => self.outside.met(kind - NUMERIC),
        }
    }

    fn shape(&mut self, n: usize, met: bool) {
        self.shapes.met_if(n, met);
    }

    fn number(&mut self, number: Option<TagNumber>) {
        self.numbers.met(match number {
            None => 0,
            Some(TagNumber::Malformed) => 1,
            Some(TagNumber::Outside) => 2,
            Some(TagNumber::Is(x)) if x == 0.0 => 3 + usize::from(x.is_sign_negative()),
            Some(TagNumber::Is(x)) if x.is_infinite() => 7,
            Some(TagNumber::Is(x)) if x.is_nan() => 8,
            Some(TagNumber::Is(x)) => 5 + usize::from(x.trunc() != x),
        });
    }
}

impl tally::Tally for Tally {
    fn lines(&mut self) -> Vec<&mut Line> {
        let Tally { hold, fail, outside, numbers, selectors, kinds, refused, layers, shapes } = self;
        vec![hold, fail, outside, numbers, selectors, kinds, refused, layers, shapes]
    }
}

struct Walk<'a> {
    bundle: &'a [u8],
    handed: &'a Handed,
    zoom: u8,
    entity: &'a Entity,
    tally: &'a mut Tally,
}

impl<'a> Walk<'a> {
    fn text(&self, from: u32, to: u32) -> &'a [u8] {
        &self.bundle[from as usize..to as usize]
    }

    fn name(&self, property: u32) -> &'a [u8] {
        let entry = self.handed.entry(PROPERTIES, property as usize);
        self.text(entry[1], entry[2])
    }

    fn test(&mut self, n: usize) -> Verdict {
        let [kind, from, to, joined, second, second_to, a, b] = self.handed.entry(TESTS, n);
        let mut key = self.text(from, to).to_vec();
        if joined == 1 {
            key.push(b':');
            key.extend(self.text(second, second_to));
        }
        let tag = self.entity.tag(&key);
        let yes = matches!(tag, Some(b"yes" | b"true" | b"1"));
        let number = if kind >= 7 { self.handed.numbers[a as usize] } else { 0.0 };
        let spelt = format!("{}{}", if number.is_sign_negative() { "-" } else { "" }, number.abs() as u64);
        let verdict = match kind {
            1 => Verdict::of(tag.is_some()),
            2 => Verdict::of(tag.is_none()),
            3 => Verdict::of(yes),
            4 => Verdict::of(!yes),
            5 => Verdict::of(tag == Some(self.text(a, b))),
            6 => Verdict::of(tag != Some(self.text(a, b))),
            7 => Verdict::of(tag == Some(spelt.as_bytes())),
            8 => Verdict::of(tag != Some(spelt.as_bytes())),
            _ => self.numeric(kind, tag.map(tag_number), number),
        };
        self.tally.verdict(kind as usize, verdict);
        verdict
    }

    fn numeric(&mut self, kind: u32, tag: Option<TagNumber>, number: f64) -> Verdict {
        self.tally.number(tag);
        match tag {
            None | Some(TagNumber::Malformed) => Verdict::Fails,
            Some(TagNumber::Outside) => Verdict::Outside,
            Some(TagNumber::Is(x)) => Verdict::of(match kind {
                9 => x < number,
                10 => x <= number,
                11 => x > number,
                _ => x >= number,
            }),
        }
    }

    fn verdict(&mut self, n: usize) -> (usize, Verdict) {
        let [object_type, low, high, tests, tests_to, ..] = self.handed.entry(SELECTORS, n);
        let fits = match object_type {
            4 => self.entity.kind == 0,
            5 => self.entity.kind >= 1,
            6 => self.entity.kind == 2,
            _ => false,
        };
        // a level stands in the table as one more
        let zoom = u64::from(self.zoom) + 1;
        let near = (low == 0 || u64::from(low) <= zoom) && (high == 0 || zoom <= u64::from(high));
        if !fits || !near {
            return (usize::from(fits), Verdict::Fails);
        }
        for k in tests as usize..tests_to as usize {
            match self.test(k) {
                Verdict::Holds => {}
                Verdict::Fails => return (2, Verdict::Fails),
                Verdict::Outside => return (3, Verdict::Outside),
            }
        }
        (4, Verdict::Holds)
    }

    fn assign(&mut self, layer: &mut Layer, properties: Range<u32>) {
        for p in properties {
            match layer.properties.iter().position(|&q| self.name(q) == self.name(p)) {
                Some(k) => {
                    layer.properties[k] = p;
                    self.tally.shape(3, true);
                }
                None => layer.properties.push(p),
            }
        }
    }

    /// The layers of a matched selector, or 23 or 24.
    fn matched(&mut self, layers: &mut Vec<Layer>, n: u32, properties: Range<u32>) -> Result<(), u64> {
        let name = layer_name(self.bundle, self.handed, n);
        let find = |layers: &[Layer], name: &[u8]| {
            layers.iter().position(|layer| layer_name(self.bundle, self.handed, layer.selector) == name)
        };
        let star = find(layers, b"*");
        let mut own = find(layers, name);
        if own.is_none() {
            if layers.len() == MOST_LAYERS {
                return Err(23);
            }
            let inherited = star.map(|k| layers[k].properties.clone()).unwrap_or_default();
            own = Some(layers.len());
            layers.push(Layer { selector: n, properties: inherited });
        }
        self.tally.shape(0, name == b"*");
        self.tally.shape(1, name == b"default" && self.handed.entry(SELECTORS, n as usize)[5] == 1);
        for (k, layer) in layers.iter_mut().enumerate() {
            if name == b"*" || Some(k) == own {
                self.assign(layer, properties.clone());
                if layer.properties.len() > MOST_NAMES {
                    return Err(24);
                }
            }
        }
        Ok(())
    }

    fn layers(&mut self) -> Result<Vec<Layer>, u64> {
        let mut layers = Vec::new();
        for [_, from, to, p, p_to, ..] in self.handed.entries(RULES) {
            for n in from..to {
                let (fate, verdict) = self.verdict(n as usize);
                self.tally.selectors.met(fate);
                match verdict {
                    Verdict::Fails => {}
                    Verdict::Outside => return Err(8),
                    Verdict::Holds => self.matched(&mut layers, n, p..p_to)?,
                }
            }
        }
        Ok(layers)
    }
}

/// The name of a selector's layer.
pub fn layer_name<'a>(bundle: &'a [u8], handed: &Handed, selector: u32) -> &'a [u8] {
    match handed.entry(SELECTORS, selector as usize) {
        [_, _, _, _, _, 0, _, _] => b"default",
        [_, _, _, _, _, _, from, to] => &bundle[from as usize..to as usize],
    }
}

fn judged(bundle: &[u8], handed: &Handed, zoom: u8, entity: &[u8], tally: &mut Tally) -> Result<Vec<Layer>, u64> {
    if !sound(handed, bundle.len()) {
        return Err(22);
    }
    walk(bundle, handed, zoom, &entities::check(entity)?, tally)
}

/// The layers of an entity, with sound tables; or 8, 23 or 24.
pub fn walk(bundle: &[u8], handed: &Handed, zoom: u8, entity: &Entity, tally: &mut Tally) -> Result<Vec<Layer>, u64> {
    tally.kinds.met(entity.kind as usize);
    tally.shape(5, entity.tags.is_empty());
    tally.shape(6, entity.tags.len() == 256);
    Walk { bundle, handed, zoom, entity, tally }.layers()
}

/// What a call must answer.
pub fn model(bundle: &[u8], handed: &Handed, zoom: u8, entity: &[u8], tally: &mut Tally) -> Answer {
    let answer = judged(bundle, handed, zoom, entity, tally);
    match &answer {
        Err(number) => tally.refused.named(&number.to_string()),
        Ok(layers) => {
            tally.layers.met(layers.len());
            tally.shape(2, layers.iter().any(|layer| layer.properties.is_empty()));
            tally.shape(4, layers.iter().any(|layer| layer.properties.len() == MOST_NAMES));
        }
    }
    answer.map_err(|number| [number, 0, 0, 0, 0])
}
