//! The cases of property maps: entities made for a sheet, sheets of many layers or names, spoilt tables and entities.

use crate::entities::{self, Entity};
use crate::load_cases::one_byte;
use crate::loads::{Load, Selector, Test, TestValue, NUMBERS, PROPERTIES, RULES, SELECTORS, TABLES, TESTS};
use crate::maps::{Handed, TagNumber};
use crate::random::Random;
use std::collections::BTreeMap;

const TYPES: [&[u8]; 7] = [&[0, 1, 2], &[0, 1, 2], &[0, 1, 2], &[0, 1, 2], &[0], &[1, 2], &[2]];

/// Tag values as numbers: what they read as. They are compared with what Rust reads, too.
pub const NUMBERS_READ: [(&str, TagNumber); 71] = [
    ("5", TagNumber::Is(5.0)),
    ("5.0", TagNumber::Is(5.0)),
    ("5.", TagNumber::Is(5.0)),
    (".5", TagNumber::Is(0.5)),
    ("5e2", TagNumber::Is(500.0)),
    ("5E+2", TagNumber::Is(500.0)),
    ("5e-2", TagNumber::Is(0.05)),
    ("-0", TagNumber::Is(-0.0)),
    ("0", TagNumber::Is(0.0)),
    ("+0.00", TagNumber::Is(0.0)),
    ("-0e99999999999999999999", TagNumber::Is(-0.0)),
    ("0.0e-99999999999999999999", TagNumber::Is(0.0)),
    ("+3", TagNumber::Is(3.0)),
    ("-7.25", TagNumber::Is(-7.25)),
    ("0.1", TagNumber::Is(0.1)),
    ("007", TagNumber::Is(7.0)),
    ("00000000000000000000000000005", TagNumber::Is(5.0)),
    ("1e22", TagNumber::Is(1e22)),
    ("1e+022", TagNumber::Is(1e22)),
    ("1e23", TagNumber::Outside),
    ("10e22", TagNumber::Is(1e23)),
    ("1e-22", TagNumber::Is(1e-22)),
    ("1e-23", TagNumber::Outside),
    ("0.1e-21", TagNumber::Is(1e-22)),
    ("0.1e-22", TagNumber::Outside),
    (".1e23", TagNumber::Is(1e22)),
    ("0.0000000000000000000001", TagNumber::Is(1e-22)),
    ("0.00000000000000000000001", TagNumber::Outside),
    ("5.0000000000000000000000", TagNumber::Outside),
    ("9007199254740991", TagNumber::Is(9007199254740991.0)),
    ("-9007199254740991", TagNumber::Is(-9007199254740991.0)),
    ("9007199254740991e22", TagNumber::Is(9007199254740991e22)),
    ("9007199254740991e-22", TagNumber::Is(9007199254740991e-22)),
    ("9007199254740.991", TagNumber::Is(9007199254740.991)),
    ("9007199254740992", TagNumber::Outside),
    ("9007199254740993", TagNumber::Outside),
    ("900719925474099.10", TagNumber::Outside),
    ("9007199254740991.0", TagNumber::Outside),
    ("123456789012345678901234567890", TagNumber::Outside),
    ("18446744073709551616", TagNumber::Outside),
    ("18446744073709551617e1", TagNumber::Outside),
    ("1e99999999999999999999", TagNumber::Outside),
    ("1e18446744073709551616", TagNumber::Outside),
    ("1e-18446744073709551616", TagNumber::Outside),
    ("1e4294967297", TagNumber::Outside),
    ("inf", TagNumber::Is(f64::INFINITY)),
    ("-Infinity", TagNumber::Is(f64::NEG_INFINITY)),
    ("+INF", TagNumber::Is(f64::INFINITY)),
    ("NaN", TagNumber::Is(f64::NAN)),
    ("-nan", TagNumber::Is(f64::NAN)),
    ("infinit", TagNumber::Malformed),
    ("infinityy", TagNumber::Malformed),
    ("nan1", TagNumber::Malformed),
    ("", TagNumber::Malformed),
    ("+", TagNumber::Malformed),
    ("-", TagNumber::Malformed),
    (".", TagNumber::Malformed),
    ("-.", TagNumber::Malformed),
    ("e5", TagNumber::Malformed),
    (".e5", TagNumber::Malformed),
    ("5e", TagNumber::Malformed),
    ("5e+", TagNumber::Malformed),
    ("5e1.0", TagNumber::Malformed),
    ("+-5", TagNumber::Malformed),
    ("5 ", TagNumber::Malformed),
    (" 5", TagNumber::Malformed),
    ("1_000", TagNumber::Malformed),
    ("1,5", TagNumber::Malformed),
    ("0x10", TagNumber::Malformed),
    ("9007199254740992x", TagNumber::Malformed),
    ("５", TagNumber::Malformed),
];

const VALUES: [&str; 14] = ["yes", "true", "1", "no", "0", "false", "", "Yes", "highway", "a", "b", "2", "-0", "2.0"];

/// A number of any shape, mostly one that is read.
pub fn number(r: &mut Random) -> String {
    if r.one_in(3) {
        return NUMBERS_READ[r.below(NUMBERS_READ.len())].0.to_string();
    }
    let some =
        |r: &mut Random, most: usize| -> String { (0..r.below(most + 1)).map(|_| r.pick_char("0012345679")).collect() };
    let mut text = r.pick(&["", "", "", "-", "+"]).to_string();
    let most = *r.pick(&[&1, &3, &3, &9, &17]);
    text += &some(r, most);
    if r.one_in(2) {
        text.push('.');
        let most = *r.pick(&[&1, &3, &9]);
        text += &some(r, most);
    }
    if r.one_in(3) {
        text.push(r.pick_char("eE"));
        text += r.pick(&["", "", "-", "+"]);
        text += &r.below(26).to_string();
    }
    if r.one_in(40) {
        text.push(r.pick_char("e.x-é 0"));
    }
    text
}

/// A number near this one, as a tag has it.
fn near(r: &mut Random, y: f64) -> String {
    match r.below(8) {
        0 => number(r),
        1 => format!("{y:e}"),
        2 => (y + 1.0).to_string(),
        3 => (y - 1.0).to_string(),
        4 => format!("{y:.1}"),
        5 => (y * 2.0).to_string(),
        6 => (-y).to_string(),
        _ => y.to_string(),
    }
}

/// A value for a test: mostly one with which it holds; none where the tag should be absent.
fn value(r: &mut Random, test: &Test) -> Option<String> {
    let other = r.one_in(6);
    match (&test.value, test.kind) {
        (_, _) if r.one_in(20) => None,
        (TestValue::Number(bits), _) => Some(near(r, f64::from_bits(*bits))),
        (TestValue::Text(text), 5) if !other => Some(text.clone()),
        (TestValue::Text(_), 6) if !other && r.one_in(2) => None,
        (TestValue::Text(text), _) if r.one_in(4) => Some(format!("{text}.0")),
        (TestValue::Text(text), _) if r.one_in(3) => Some(text.clone()),
        (TestValue::None, 2) if !other => None,
        (TestValue::None, 3) if !other => Some(r.pick(&["yes", "true", "1"]).to_string()),
        _ => Some(r.pick(&VALUES).to_string()),
    }
}

fn id(r: &mut Random) -> u64 {
    match r.below(4) {
        0 => r.below(300) as u64,
        1 => u64::MAX - r.below(2) as u64,
        _ => r.next() >> r.below(64),
    }
}

fn zoom(r: &mut Random, selector: Option<&Selector>) -> u8 {
    match selector.map(|s| s.zoom) {
        _ if r.one_in(8) => r.below(256) as u8,
        None | Some((None, None)) => r.below(256) as u8,
        Some((low, high)) => {
            let end = if r.one_in(2) { low.or(high) } else { high.or(low) }.unwrap();
            match r.below(6) {
                0 => end.wrapping_add(1),
                1 => end.wrapping_sub(1),
                2 if low <= high => r.between(usize::from(low.unwrap_or(0)), usize::from(high.unwrap_or(255))) as u8,
                _ => end,
            }
        }
    }
}

/// An entity and a zoom with which one or more selectors of the sheet come near to match.
pub fn random_entity(r: &mut Random, load: &Load) -> (Entity, u8) {
    let all: Vec<&Selector> = load.rules.iter().flat_map(|rule| &rule.selectors).collect();
    let mut near = Vec::new();
    for _ in 0..r.between(1, 4).min(all.len()) {
        near.push(all[r.below(all.len())]);
    }
    let kinds = near.first().map_or(&[0, 1, 2][..], |s| TYPES[s.object_type as usize]);
    let kind = if r.one_in(10) { r.below(3) as u8 } else { kinds[r.below(kinds.len())] };
    let zoom = zoom(r, near.first().copied());
    let mut tags: BTreeMap<Vec<u8>, Vec<u8>> = BTreeMap::new();
    for test in near.iter().flat_map(|s| &s.tests) {
        if tags.contains_key(test.key.as_bytes()) && !r.one_in(4) {
            continue;
        }
        match value(r, test) {
            Some(value) => drop(tags.insert(test.key.clone().into_bytes(), value.into_bytes())),
            None => drop(tags.remove(test.key.as_bytes())),
        }
    }
    // tags that no test names, or by a key cut short
    for _ in 0..r.below(4) {
        let key = match tags.keys().nth(r.below(tags.len() + 1)) {
            Some(key) => String::from_utf8_lossy(&key[..r.below(key.len() + 1)]).into_owned(),
            None => r.pick(&["", "name", "layer", "é", "a:b", "zz"]).to_string(),
        };
        tags.entry(key.into_bytes()).or_insert_with(|| r.pick(&VALUES).as_bytes().to_vec());
    }
    if r.one_in(50) {
        let most = r.between(200, 256).max(tags.len());
        let mut k = 0;
        while tags.len() < if r.one_in(2) { 256 } else { most } {
            tags.insert(format!("{}{k}", r.pick(&["h", "n", "x"])).into_bytes(), b"1".to_vec());
            k += 1;
        }
    }
    let tags = if r.one_in(30) { Vec::new() } else { tags.into_iter().collect() };
    (Entity { kind, id: id(r), tags }, zoom)
}

/// A sheet of many layers, or of layers with many names; `*` among them.
pub fn wide_sheet(r: &mut Random) -> String {
    let layers = *r.pick(&[&4, &20, &31, &32, &33, &40]);
    let names = *r.pick(&[&5, &5, &5, &127, &128, &129, &140]);
    // every selector matches and has a layer of its own
    let steady = r.one_in(2);
    let mut text = String::new();
    for k in 0..if steady { layers } else { r.between(layers, layers + 8) } {
        let layer = match r.below(if steady { 60 } else { 12 }) {
            0 => "::*".to_string(),
            1 => "::default".to_string(),
            2 => String::new(),
            _ => format!("::l{}", if steady || r.one_in(2) { k } else { r.below(layers) }),
        };
        let test = if steady { "" } else { r.pick(&["", "", "", "[a]", "[b>5]", "[!c]"]) };
        text += &format!("way{test}{layer}{{");
        // few rules are long, so that names add up in the layers that last
        let (from, to) = match r.below(5) {
            0 => (0, names),
            1 => (r.below(names), names),
            2 => (0, r.below(names)),
            _ => (0, 0),
        };
        for n in from..to.min(from + if r.one_in(2) { 200 } else { 60 }) {
            text += &format!("p{n}:{k};");
        }
        text += "}\n";
    }
    text
}

/// Sheets at the limits of layers and names, with the number of layers or the refusal, for a way.
pub fn limits() -> Vec<(String, Result<usize, u64>)> {
    let layers = |n: usize| (0..n).map(|k| format!("way::l{k}{{a:{k};}}")).collect::<String>();
    let names = |from: usize, to: usize| (from..to).map(|k| format!("p{k}:1;")).collect::<String>();
    let all = |parts: &[&str]| parts.concat();
    let star = |from, to| format!("way::*{{{}}}", names(from, to));
    let own = |from, to| format!("way::x{{{}}}", names(from, to));
    let mut limits: Vec<_> = (0..=32).map(|n| (layers(n), Ok(n))).collect();
    limits.extend([
        (layers(33), Err(23)),
        (all(&[&layers(31), "way::*{}"]), Ok(32)),
        (all(&[&layers(32), "way::*{}"]), Err(23)),
        (all(&["way{}", &layers(32)]), Err(23)),
        (all(&[&layers(32), "way::l0,way::l31,node::y,way[a]::y{b:1;}"]), Ok(32)),
        (all(&["way[b<5]{}", &layers(33)]), Err(23)),
        (own(0, 128), Ok(1)),
        (own(0, 129), Err(24)),
        (all(&[&own(0, 128), &own(0, 128)]), Ok(1)),
        (all(&[&own(0, 128), &own(128, 129)]), Err(24)),
        (all(&[&star(0, 64), &own(64, 128)]), Ok(2)),
        (all(&[&star(0, 64), &own(64, 129)]), Err(24)),
        (all(&[&own(0, 64), &star(64, 128)]), Ok(2)),
        (all(&[&own(0, 64), &star(64, 129)]), Err(24)),
        (all(&[&own(0, 64), &star(60, 128)]), Ok(2)),
        (all(&[&own(0, 128), "way{z:1;}"]), Ok(2)),
        (all(&[&layers(32), &own(0, 129)]), Err(23)),
        (all(&[&layers(31), &own(0, 129)]), Err(24)),
        (all(&[&layers(31), &own(0, 128)]), Ok(32)),
        (all(&[&layers(31), &own(0, 128), "way::*{z:1;}"]), Err(23)),
        (all(&[&layers(30), &own(0, 128), "way::*{z:1;}"]), Err(24)),
    ]);
    limits
}

/// Small sheets whose tables are spoilt word by word: every kind of test, of value and of object.
pub const SPOILT: [&str; 4] = [
    "way|z2-24[a][!b][c?][!d?][e=f][g!=h][i=5][j!=6][k<7][l<=8][m>9][n>=1.5]::x{a:b;}",
    "way[a:b]{a:b;c:d:e;f:\"g\";h:#123456;i:1,2,3;j:eval(prop(\"width\") 4);}",
    "*{a:1;} canvas{a:1;} meta{a:1;} node::*{a:1;} way::default{a:2;} area{b:3;a:1;}",
    "way::x, area::*, colors{} way,way::x{b:5;} way[a>5]{c:6;}",
];

/// What a word is set to in turn, besides one more and one less.
fn words(bundle: usize, counts: &[u64; 6]) -> Vec<u32> {
    let mut all: Vec<u32> = vec![0, 1, 2, 3, 4, 6, 7, 9, 13, 255, 256, 0x8000_0000, u32::MAX];
    all.extend([bundle as u32, bundle as u32 + 1]);
    all.extend(counts.iter().flat_map(|&n| [n as u32, n as u32 + 1]));
    all.sort_unstable();
    all.dedup();
    all
}

/// The tables with each word of each entry, each number and each count set to some other values in turn.
pub fn spoilt(handed: &Handed, bundle: usize, run: &mut impl FnMut(&str, &Handed)) {
    let wrong = words(bundle, &handed.counts);
    let mut spoilt = handed.clone();
    for table in 0..4 {
        for k in 0..handed.words[table].len() {
            let good = handed.words[table][k];
            for &word in wrong.iter().chain(&[good.wrapping_add(1), good.wrapping_sub(1)]) {
                spoilt.words[table][k] = word;
                run(&format!("word {k} of {} is {word}, not {good}", TABLES[table]), &spoilt);
            }
            spoilt.words[table][k] = good;
        }
    }
    for k in 0..handed.numbers.len() {
        let good = handed.numbers[k];
        for number in [0.5, -0.0, f64::NAN, f64::INFINITY, 9007199254740992.0, -9007199254740991.0, 1e300] {
            spoilt.numbers[k] = number;
            run(&format!("number {k} is {number}, not {good}"), &spoilt);
        }
        spoilt.numbers[k] = good;
    }
    for table in 0..6 {
        let good = handed.counts[table];
        let few = (0..good).rev().take(3);
        for count in few.chain([good + 1, good + 2, 16_384, 16_385, 1 << 32, 1 << 61, u64::MAX]) {
            spoilt.counts[table] = count;
            run(&format!("{count} {}, not {good}", TABLES[table]), &spoilt);
        }
        spoilt.counts[table] = good;
    }
    for table in 0..4 {
        if spoilt.words[table].pop().is_some() {
            run(&format!("a word of {} is missing", TABLES[table]), &spoilt);
        }
        spoilt.words[table] = handed.words[table].clone();
    }
    if spoilt.numbers.pop().is_some() {
        run("a number is missing", &spoilt);
    }
}

/// Tables of one sort that are sound but for their count, with it: 16,384 entries are the most that are used.
pub fn large(run: &mut impl FnMut(&str, &Handed)) {
    for table in 0..5 {
        for lent in [16_384, 16_386] {
            let mut handed = Handed::default();
            if table == NUMBERS {
                handed.numbers = vec![0.0; lent];
            } else {
                handed.words[table] = [1, 0, 0, 0, 0, 0, 0, 0].repeat(lent);
            }
            for count in [16_383, 16_384, 16_385, 16_386, 16_387] {
                handed.counts[table] = count;
                run(&format!("{count} {} of {lent}", TABLES[table]), &handed);
            }
        }
    }
}

/// Tables of random words, most of them small, with counts that mostly fit.
pub fn random_tables(r: &mut Random, bundle: usize) -> Handed {
    let mut handed = Handed::default();
    let entries: [usize; 5] = std::array::from_fn(|_| r.below(5));
    for table in 0..4 {
        for _ in 0..8 * entries[table] + r.below(8) {
            let word = match r.below(8) {
                0 => r.next() as u32,
                1 => r.below(bundle + 2) as u32,
                2..=3 => r.below(5) as u32,
                _ => 0,
            };
            handed.words[table].push(word);
        }
        // kinds that are known, so that not all are broken at once
        for n in 0..entries[table] {
            handed.words[table][8 * n] =
                if r.one_in(20) { r.below(14) as u32 } else { r.between(1, [1, 6, 4, 3][table]) as u32 };
        }
    }
    for _ in 0..entries[NUMBERS] {
        handed.numbers.push(f64::from_bits(r.next()));
    }
    for table in 0..5 {
        let count = if r.one_in(20) { r.below(9) } else { r.below(entries[table] + 1) };
        handed.counts[table] = count as u64;
    }
    handed.counts[5] = r.next();
    handed
}

/// Sound tables that no load makes: known kinds, and ranges anywhere within, also across a character or overlapping.
pub fn sound_tables(r: &mut Random, bundle: usize) -> Handed {
    let counts: [usize; 5] = std::array::from_fn(|_| r.between(1, 6));
    let mut handed = Handed::default();
    for table in 0..4 {
        for _ in 0..counts[table] {
            handed.words[table].extend(sound_entry(r, table, bundle, &counts));
        }
    }
    for _ in 0..counts[NUMBERS] {
        handed.numbers.push(*r.pick(&[&0.0, &-0.0, &1.0, &-3.0, &9007199254740991.0, &500.0]));
    }
    for table in 0..5 {
        handed.counts[table] = counts[table] as u64;
    }
    handed
}

/// A range within so many, of at most this length.
fn range(r: &mut Random, most: usize, length: usize) -> [u32; 2] {
    let from = r.below(most + 1);
    [from as u32, r.between(from, most.min(from + length)) as u32]
}

/// A range of the bundle: short, so that texts are often equal.
fn text(r: &mut Random, bundle: usize) -> [u32; 2] {
    let length = *r.pick(&[&0, &1, &1, &2, &9]);
    range(r, bundle, length)
}

fn sound_entry(r: &mut Random, table: usize, bundle: usize, counts: &[usize; 5]) -> [u32; 8] {
    let [from, to] = text(r, bundle);
    let [a, b] = text(r, bundle);
    let [c, d] = text(r, bundle);
    let [n, n_to] = range(r, counts[NUMBERS], 9);
    let number = r.below(counts[NUMBERS]) as u32;
    let level = |r: &mut Random| *r.pick(&[&0, &0, &0, &1, &14, &100, &101, &256, &257, &u32::MAX]);
    let [mark, second, second_to] = if r.one_in(3) { [1, c, d] } else { [0; 3] };
    match table {
        RULES => {
            let ([s, s_to], [p, p_to]) = (range(r, counts[SELECTORS], 9), range(r, counts[PROPERTIES], 9));
            [1, s, s_to, p, p_to, 0, 0, 0]
        }
        SELECTORS => {
            let [t, t_to] = range(r, counts[TESTS], 2);
            let kind = *r.pick(&[&1, &2, &3, &4, &5, &5, &5, &6]);
            [kind, level(r), level(r), t, t_to, mark, second, second_to]
        }
        TESTS => {
            let kind = r.between(1, 12) as u32;
            let [v, w] = [[0, 0], [a, b], [number, 0]][usize::from(kind > 4) + usize::from(kind > 6)];
            [kind, from, to, mark, second, second_to, v, w]
        }
        _ => match r.below(6) {
            0 => [2, from, to, a, b, c, d, 0],
            1 => [4, from, to, a % 256, b % 256, c % 256, 0, 0],
            2 => [5, from, to, n, n_to, 0, 0, 0],
            3 => [6, from, to, number, 0, 0, 0, 0],
            4 => [1, from, to, a, b, 0, 0, 0],
            _ => [3, from, to, a, b, 0, 0, 0],
        },
    }
}

/// Elements that the counts leave out, which may be anything.
pub fn padded(r: &mut Random, handed: &Handed) -> Handed {
    let mut padded = handed.clone();
    for table in 0..4 {
        for _ in 0..r.below(20) {
            padded.words[table].push(r.next() as u32);
        }
    }
    for _ in 0..r.below(4) {
        padded.numbers.push(f64::from_bits(r.next()));
    }
    padded
}

/// An entity for sound tables that no load makes: its tags are short pieces of the bundle.
pub fn piece_entity(r: &mut Random, bundle: &[u8]) -> Entity {
    let mut tags = BTreeMap::new();
    for _ in 0..r.below(12) {
        let from = r.below(bundle.len());
        let to = bundle.len().min(from + r.below(3));
        let piece = |part: &[u8]| std::str::from_utf8(part).map_or(b"a".to_vec(), |text| text.as_bytes().to_vec());
        let value = if r.one_in(2) { number(r).into_bytes() } else { piece(&bundle[from..to]) };
        tags.insert(piece(&bundle[from..to]), value);
    }
    Entity { kind: r.below(3) as u8, id: id(r), tags: tags.into_iter().collect() }
}

/// The bytes of the entity with a mistake.
pub fn damaged(r: &mut Random, entity: &Entity) -> Vec<u8> {
    let mut other = entity.clone();
    let mut tag = |key: &[u8], value: &[u8]| other.tags.push((key.to_vec(), value.to_vec()));
    match r.below(12) {
        0 => tag(b"", b""),
        1 => tag(b"\xff", b""),
        2 => tag(b"\xc3\xa9", b"\xc3"),
        3 => tag(b"zzz", b"\xed\xa0\x80"),
        4 => other.kind = r.between(3, 255) as u8,
        5 => other.tags.reverse(),
        6 => (0..250).for_each(|k| tag(format!("zzz{k:03}").as_bytes(), b"")),
        7 => {
            // at the limit of bytes
            let length = entities::bytes(entity).len();
            let value = vec![b'1'; entities::MOST_BYTES - length - 7 + r.below(4)];
            tag(b"zzz", &value);
        }
        8 => {
            let mut bytes = entities::bytes(&other);
            bytes.truncate(r.below(bytes.len()));
            return bytes;
        }
        9 => {
            let mut bytes = entities::bytes(&other);
            bytes.push(r.below(2) as u8);
            return bytes;
        }
        _ => return one_byte(r, &entities::bytes(&other)),
    }
    entities::bytes(&other)
}

/// Bytes at the limits of an entity's layout, with 0, 2 or 7.
pub fn layouts() -> Vec<(Vec<u8>, u64)> {
    let tags = |n: usize| Entity {
        kind: 1,
        id: 7,
        tags: (0..n).map(|k| (format!("{k:03}").into_bytes(), Vec::new())).collect(),
    };
    let long = |n: usize| {
        let length = n - 10;
        entities::bytes(&Entity { kind: 1, id: 7, tags: vec![(b"key".to_vec(), vec![b'1'; length])] })
    };
    let mut largest = vec![0];
    largest.extend([0xff; 9]);
    let id = |last: u8| [&largest[..], &[last, 0]].concat();
    vec![
        (vec![], 7),
        (vec![0], 7),
        (vec![0, 0], 7),
        (vec![0, 0, 0], 0),
        (vec![1, 0, 0], 0),
        (vec![2, 0, 0], 0),
        (vec![3, 0, 0], 7),
        (vec![0, 0, 0, 0], 7),
        (vec![0, 0x80, 0, 0], 7),
        (vec![0, 0x80, 1, 0], 0),
        (id(1), 0),
        (id(2), 7),
        (id(0x81), 7),
        (vec![0, 0, 1, 0, 0], 0),
        (vec![0, 0, 2, 0, 0, 0, 0], 7),
        (vec![0, 0, 2, 0, 0, 1, b'a', 0], 0),
        (vec![0, 0, 2, 1, b'a', 0, 0, 0], 7),
        (vec![0, 0, 2, 1, b'a', 0, 1, b'a', 0], 7),
        (vec![0, 0, 2, 2, b'a', b'b', 0, 1, b'a', 0], 7),
        (vec![0, 0, 2, 1, b'a', 0, 2, b'a', b'b', 0], 0),
        (vec![0, 0, 2, 1, b'B', 0, 1, b'a', 0], 0),
        (vec![0, 0, 1, 1, 0xff, 0], 2),
        (vec![0, 0, 1, 0, 1, 0xff], 2),
        (vec![0, 0, 2, 1, 0xff, 0, 1, 0xfe, 0], 7),
        (vec![0, 0, 1, 0, 0x80, 0], 7),
        (vec![0, 0, 1, 0, 0xff, 0xff, 0xff, 0xff, 0x0f], 7),
        (vec![0, 0, 1, 0xff, 0xff, 0xff, 0xff, 0x1f, 0], 7),
        (entities::bytes(&tags(256)), 0),
        (entities::bytes(&tags(257)), 7),
        (long(entities::MOST_BYTES), 0),
        (long(entities::MOST_BYTES + 1), 7),
    ]
}
