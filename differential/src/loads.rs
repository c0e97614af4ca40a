//! Loads: one neutral form for the rules of both parsers, and our six tables as docs/TABLES.md lays them out.

use crate::tally::{Line, Tally};
use std::collections::BTreeMap;
use std::ops::Range;

/// The tables in the order of the export; the reason of a full one is its place here plus one.
pub const TABLES: [&str; 6] = ["rules", "selectors", "tests", "properties", "numbers", "colours"];
pub const RULES: usize = 0;
pub const SELECTORS: usize = 1;
pub const TESTS: usize = 2;
pub const PROPERTIES: usize = 3;
pub const NUMBERS: usize = 4;
pub const COLORS: usize = 5;
pub const MOST_ENTRIES: usize = 16_384;

/// Elements of an entry.
pub fn stride(table: usize) -> usize {
    if table == NUMBERS {
        1
    } else {
        8
    }
}

/// How many elements of each table are lent.
pub type Lent = [usize; 6];

/// Number, reason, text, line, character.
pub type Refusal = [u64; 5];

/// A load as values: what the sheet says, without places.
#[derive(Clone, Debug, PartialEq)]
pub struct Load {
    pub rules: Vec<Rule>,
    pub colors: BTreeMap<String, [u8; 3]>,
}

#[derive(Clone, Debug, PartialEq)]
pub struct Rule {
    pub selectors: Vec<Selector>,
    pub properties: Vec<Property>,
}

#[derive(Clone, Debug, PartialEq)]
pub struct Selector {
    /// 1 `*`, 2 canvas, 3 meta, 4 node, 5 way, 6 area.
    pub object_type: u32,
    pub zoom: (Option<u8>, Option<u8>),
    pub tests: Vec<Test>,
    pub layer: Option<String>,
}

/// The kind is that of the table, but for 7 and 8: a number in a text test is its digits, so they are 5 and 6.
#[derive(Clone, Debug, PartialEq)]
pub struct Test {
    pub kind: u32,
    pub key: String,
    pub value: TestValue,
}

#[derive(Clone, Debug, PartialEq)]
pub enum TestValue {
    None,
    Text(String),
    /// Bits, every NaN alike.
    Number(u64),
}

#[derive(Clone, Debug, PartialEq)]
pub struct Property {
    pub name: String,
    pub value: Value,
}

#[derive(Clone, Debug, PartialEq)]
pub enum Value {
    Identifier(String),
    Text(String),
    Color([u8; 3]),
    Numbers(Vec<u64>),
    Delta(u64),
}

pub type Entry = [u32; 8];

/// The entries of the tables below their counts; numbers as bits, every NaN alike.
#[derive(Clone, Debug, Default, PartialEq)]
pub struct Tables {
    /// At NUMBERS there are none.
    pub entries: [Vec<Entry>; 6],
    pub numbers: Vec<u64>,
}

impl Tables {
    pub fn count(&self, table: usize) -> usize {
        if table == NUMBERS {
            self.numbers.len()
        } else {
            self.entries[table].len()
        }
    }

    pub fn counts(&self) -> [usize; 6] {
        std::array::from_fn(|table| self.count(table))
    }

    /// Elements just enough for all of them.
    pub fn just_enough(&self) -> Lent {
        std::array::from_fn(|table| self.count(table) * stride(table))
    }
}

pub type Filled = Result<Tables, Refusal>;

/// What the tables say, as docs/TABLES.md has it; or what is wrong in them.
pub fn decode(tables: &Tables, bundle: &[u8]) -> Result<Load, String> {
    let d = Decoder { tables, bundle };
    let rules = (0..tables.count(RULES)).map(|n| d.rule(n)).collect::<Result<_, _>>()?;
    let mut colors = BTreeMap::new();
    for (n, &[kind, from, to, r, g, b, u, v]) in tables.entries[COLORS].iter().enumerate() {
        check(kind == 1 && u == 0 && v == 0, || format!("colour {n}"))?;
        check(colors.insert(d.text(from, to)?, d.color(r, g, b)?).is_none(), || format!("colour {n} twice"))?;
    }
    Ok(Load { rules, colors })
}

fn check(good: bool, what: impl Fn() -> String) -> Result<(), String> {
    good.then_some(()).ok_or_else(what)
}

struct Decoder<'a> {
    tables: &'a Tables,
    bundle: &'a [u8],
}

impl Decoder<'_> {
    fn text(&self, from: u32, to: u32) -> Result<String, String> {
        let bytes = (from <= to).then(|| self.bundle.get(from as usize..to as usize)).flatten();
        let text = bytes.and_then(|bytes| std::str::from_utf8(bytes).ok());
        text.map(String::from).ok_or_else(|| format!("range {from}..{to} of the bundle"))
    }

    fn range(&self, table: usize, from: u32, to: u32) -> Result<Range<usize>, String> {
        let good = from <= to && to as usize <= self.tables.count(table);
        check(good, || format!("range {from}..{to} of {}", TABLES[table]))?;
        Ok(from as usize..to as usize)
    }

    fn number(&self, n: u32) -> Result<u64, String> {
        self.tables.numbers.get(n as usize).copied().ok_or_else(|| format!("number {n}"))
    }

    fn color(&self, r: u32, g: u32, b: u32) -> Result<[u8; 3], String> {
        let byte = |x| u8::try_from(x).map_err(|_| format!("{x} in a colour"));
        Ok([byte(r)?, byte(g)?, byte(b)?])
    }

    fn rule(&self, n: usize) -> Result<Rule, String> {
        let [kind, selectors, selectors_to, properties, properties_to, x, y, z] = self.tables.entries[RULES][n];
        check(kind == 1 && [x, y, z] == [0; 3], || format!("rule {n}"))?;
        let selectors = self.range(SELECTORS, selectors, selectors_to)?;
        let properties = self.range(PROPERTIES, properties, properties_to)?;
        Ok(Rule {
            selectors: selectors.map(|k| self.selector(k)).collect::<Result<_, _>>()?,
            properties: properties.map(|k| self.property(k)).collect::<Result<_, _>>()?,
        })
    }

    fn selector(&self, n: usize) -> Result<Selector, String> {
        let [object_type, low, high, tests, tests_to, layer, name, name_to] = self.tables.entries[SELECTORS][n];
        check((1..=6).contains(&object_type), || format!("type {object_type}"))?;
        let level = |word: u32| match word {
            0 => Ok(None),
            1..=100 => Ok(Some((word - 1) as u8)),
            _ => Err(format!("zoom {word}")),
        };
        let layer = match (layer, name, name_to) {
            (0, 0, 0) => None,
            (1, _, _) => Some(self.text(name, name_to)?),
            _ => return Err(format!("layer of selector {n}")),
        };
        let tests = self.range(TESTS, tests, tests_to)?;
        Ok(Selector {
            object_type,
            zoom: (level(low)?, level(high)?),
            tests: tests.map(|k| self.test(k)).collect::<Result<_, _>>()?,
            layer,
        })
    }

    fn test(&self, n: usize) -> Result<Test, String> {
        let [kind, from, to, joined, second, second_to, a, b] = self.tables.entries[TESTS][n];
        let mut key = self.text(from, to)?;
        match (joined, second, second_to) {
            (0, 0, 0) => {}
            (1, _, _) => key = key + ":" + &self.text(second, second_to)?,
            _ => return Err(format!("key of test {n}")),
        }
        check(!(1..=4).contains(&kind) || (a, b) == (0, 0), || format!("value of test {n}"))?;
        check(!(7..=12).contains(&kind) || b == 0, || format!("value of test {n}"))?;
        let (kind, value) = match kind {
            1..=4 => (kind, TestValue::None),
            5 | 6 => (kind, TestValue::Text(self.text(a, b)?)),
            7 | 8 => (kind - 2, TestValue::Text(f64::from_bits(self.number(a)?).to_string())),
            9..=12 => (kind, TestValue::Number(self.number(a)?)),
            _ => return Err(format!("kind {kind} of test {n}")),
        };
        Ok(Test { kind, key, value })
    }

    fn property(&self, n: usize) -> Result<Property, String> {
        let [kind, from, to, a, b, c, d, last] = self.tables.entries[PROPERTIES][n];
        let (value, left) = match kind {
            1 => (Value::Identifier(self.text(a, b)?), c | d),
            2 => (Value::Identifier(self.text(a, b)? + ":" + &self.text(c, d)?), 0),
            3 => (Value::Text(self.text(a, b)?), c | d),
            4 => (Value::Color(self.color(a, b, c)?), d),
            5 => (Value::Numbers(self.tables.numbers[self.range(NUMBERS, a, b)?].to_vec()), c | d),
            6 => (Value::Delta(self.number(a)?), b | c | d),
            _ => return Err(format!("kind {kind} of property {n}")),
        };
        check(left == 0 && last == 0, || format!("rest of property {n}"))?;
        Ok(Property { name: self.text(from, to)?, value })
    }
}

/// Numbers with their last reason; 0 where there is none.
const REFUSALS: [(u64, u64); 8] = [(1, 0), (2, 0), (3, 12), (4, 6), (5, 0), (6, 0), (20, 6), (21, 0)];
const TYPES: [&str; 6] = ["*", "canvas", "meta", "node", "way", "area"];
pub const KINDS_OF_TESTS: [&str; 12] =
    ["[k]", "[!k]", "[k?]", "[!k?]", "[k=v]", "[k!=v]", "[k=n]", "[k!=n]", "[k<n]", "[k<=n]", "[k>n]", "[k>=n]"];
const KINDS_OF_VALUES: [&str; 6] = ["identifier", "identifier a:b", "string", "colour", "numbers", "width delta"];

const SHAPES: [&str; 8] = [
    "rule without selectors",
    "rule without properties",
    "layer",
    "lowest zoom",
    "highest zoom",
    "joined key",
    "colour entry",
    "NaN",
];

/// How often each refusal, object type, kind of test and kind of value came up, and some shapes.
pub struct Counts {
    loads: Line,
    refusals: Line,
    types: Line,
    tests: Line,
    values: Line,
    shapes: Line,
}

fn spelt(number: u64, reason: u64) -> String {
    if reason == 0 {
        format!("{number}")
    } else {
        format!("{number}, reason {reason}")
    }
}

impl Default for Counts {
    fn default() -> Counts {
        let reasons = |(number, last): (u64, u64)| (last.min(1)..=last).map(move |reason| spelt(number, reason));
        Counts {
            loads: Line::new("loaded", ["sheets"]),
            refusals: Line::new("refused", REFUSALS.into_iter().flat_map(reasons)),
            types: Line::new("object type", TYPES),
            tests: Line::new("test", KINDS_OF_TESTS),
            values: Line::new("value", KINDS_OF_VALUES),
            shapes: Line::new("shape", SHAPES),
        }
    }
}

impl Counts {
    pub fn add(&mut self, filled: &Filled) {
        let tables = match filled {
            Ok(tables) => tables,
            Err(refusal) => return self.refusals.named(&spelt(refusal[0], refusal[1])),
        };
        self.loads.met(0);
        let [rules, selectors, tests, properties, _, colors] = &tables.entries;
        for rule in rules {
            self.shapes.met_if(0, rule[1] == rule[2]);
            self.shapes.met_if(1, rule[3] == rule[4]);
        }
        for selector in selectors {
            self.types.met(selector[0] as usize - 1);
            self.shapes.met_if(2, selector[5] == 1);
            self.shapes.met_if(3, selector[1] > 0);
            self.shapes.met_if(4, selector[2] > 0);
        }
        for test in tests {
            self.tests.met(test[0] as usize - 1);
            self.shapes.met_if(5, test[3] == 1);
        }
        properties.iter().for_each(|property| self.values.met(property[0] as usize - 1));
        self.shapes.met_often(6, colors.len() as u64);
        tables.numbers.iter().for_each(|&bits| self.shapes.met_if(7, f64::from_bits(bits).is_nan()));
    }
}

impl Tally for Counts {
    fn lines(&mut self) -> Vec<&mut Line> {
        let Counts { loads, refusals, types, tests, values, shapes } = self;
        vec![loads, refusals, types, tests, values, shapes]
    }
}
