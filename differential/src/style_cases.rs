//! The cases of styles: sheets of all properties that make a style, with right and wrong values, tags `layer` of every
//! shape, settings, and tables that no load makes.

use crate::entities::Entity;
use crate::loads::{Load, NUMBERS, PROPERTIES};
use crate::map_cases::{number as any_number, random_entity};
use crate::maps::Handed;
use crate::random::Random;
use crate::styles::{Settings, COLORS, NAMES};

/// An infinite number, and one that is NaN.
pub const INFINITE: fn() -> String = || "9".repeat(320);
pub const NAN: fn() -> String = || format!("-1.{}", "9".repeat(320));

/// Values of the tag `layer`, with what is read.
pub const LEVELS: [(&str, Option<i64>); 38] = [
    ("0", Some(0)),
    ("-0", Some(0)),
    ("+0", Some(0)),
    ("1", Some(1)),
    ("-1", Some(-1)),
    ("+5", Some(5)),
    ("2", Some(2)),
    ("007", Some(7)),
    ("-007", Some(-7)),
    ("+000", Some(0)),
    ("-1000000000000000000", Some(-1_000_000_000_000_000_000)),
    ("0000000000000000000000000000000000005", Some(5)),
    ("-0000000000000000000000000000000000005", Some(-5)),
    ("9223372036854775806", Some(i64::MAX - 1)),
    ("9223372036854775807", Some(i64::MAX)),
    ("+9223372036854775807", Some(i64::MAX)),
    ("09223372036854775807", Some(i64::MAX)),
    ("9223372036854775808", None),
    ("9223372036854775810", None),
    ("18446744073709551616", None),
    ("18446744073709551617", None),
    ("99999999999999999999999999999999999999999999", None),
    ("-9223372036854775807", Some(-i64::MAX)),
    ("-9223372036854775808", Some(i64::MIN)),
    ("-9223372036854775809", None),
    ("-18446744073709551615", None),
    ("-99999999999999999999999999999999999999999999", None),
    ("", None),
    ("+", None),
    ("-", None),
    ("+-1", None),
    ("--1", None),
    (" 1", None),
    ("1 ", None),
    ("1.0", None),
    ("1e2", None),
    ("0x1", None),
    ("１", None),
];

/// A sheet, an entity's kind and tags, the settings, and what its styled layers are in short.
pub type Example = (&'static str, u8, &'static [(&'static str, &'static str)], u8, &'static [f64], &'static str);

pub const EXAMPLES: [Example; 46] = [
    ("", 1, &[], 0, &[], ""),
    ("way{}", 1, &[], 0, &[], "default z3"),
    ("way{}", 2, &[], 0, &[], "default z1"),
    ("node{}", 0, &[], 0, &[], "default z4"),
    ("way::*{width:1;}", 1, &[], 0, &[], ""),
    ("way::*{width:1;} way::c{color:red;} way::*{width:3;}", 1, &[], 0, &[], "c z3 color#ff0000 width3"),
    ("way::*{width:1;} way{color:red;}", 1, &[], 0, &[], "default z3 color#ff0000 width1"),
    ("way{width:5;} way::x{casing-width:1;}", 1, &[], 0, &[], "default z3 width5|x z3 casing7"),
    ("way::x{casing-width:1;} way{width:5;}", 1, &[], 0, &[], "x z3 casing7|default z3 width5"),
    ("way{width:5;} way::x{casing-width:1;}", 1, &[], 1, &[], "default z3 width5|x z3 casing6"),
    ("way{width:5;} way::x{casing-width:1;width:2;}", 1, &[], 0, &[], "default z3 width5|x z3 width2 casing4"),
    ("way{casing-width:1;}", 1, &[], 0, &[], "default z3 casing2"),
    ("way{casing-width:eval(prop(\"width\") 2);}", 1, &[], 0, &[], "default z3 casing4"),
    ("way{casing-width:eval(prop(\"width\") 2);width:3;}", 1, &[], 0, &[], "default z3 width3 casing13"),
    ("way{casing-width:eval(prop(\"width\") 2);width:3;}", 1, &[], 1, &[], "default z3 width3 casing8"),
    ("way{casing-width:eval(prop(\"width\"));width:3;}", 1, &[], 2, &[], "default z3 width3 casing9"),
    ("way{width:3;}way::x{casing-width:eval(prop(\"width\"));}", 1, &[], 255, &[], "default z3 width3|x z3 casing9"),
    ("way{width:1,2;}way::x{casing-width:1;}", 1, &[], 0, &[], "default z3|x z3 casing2"),
    ("way{width:5;} way::x{casing-width:1;width:1,2;}", 1, &[], 0, &[], "default z3 width5|x z3 casing7"),
    ("way{casing-width:1,2;width:3;}", 1, &[], 0, &[], "default z3 width3"),
    ("way{width:-0;casing-width:-0;}", 1, &[], 0, &[], "default z3 width-0 casing-0"),
    ("way{casing-width:-0;}", 1, &[], 0, &[], "default z3 casing0"),
    ("way{z-index:-0;}", 1, &[], 0, &[], "default z-0"),
    ("way{z-index:1,2;}", 2, &[], 0, &[], "default z1"),
    ("way{z-index:a;}", 2, &[], 0, &[], "default z1"),
    ("way{color:red;fill-color:#123;}", 1, &[], 0, &[], "default z3 color#ff0000 fill_color#112233"),
    ("way{color:Red;fill-color:\"red\";background-color:red:red;casing-color:5;}", 1, &[], 0, &[], "default z3"),
    ("way{fill-position:background;}", 1, &[], 0, &[], "default z3 background"),
    ("way{fill-position:\"background\";}", 1, &[], 0, &[], "default z3"),
    ("way{linecap:none;casing-linecap:square;}", 1, &[], 0, &[], "default z3 cap1 casing_cap3"),
    ("way{linecap:butt;casing-linecap:\"round\";}", 1, &[], 0, &[], "default z3 cap1"),
    ("way{dashes:1,2,3;casing-dashes:4;}", 1, &[], 0, &[], "default z3 dashes1,2,3 casing_dashes4"),
    ("way{text:name;}", 1, &[], 0, &[], "default z3 text'name'"),
    ("way{text:addr:housenumber;font-size:5;}", 1, &[], 0, &[], "default z3 text'addr:housenumber' size5"),
    ("way{text:\"a b\";font-size:5;}", 1, &[], 0, &[3.0, 7.0], "default z3 text'a b' size15"),
    ("way{text:\"\";text-position:line;}", 1, &[], 0, &[], "default z3 text'' position2"),
    ("way{text:5;text-position:line;text-color:red;font-size:5;}", 1, &[], 0, &[], "default z3"),
    ("way{text:a;text-position:center;text-color:red;}", 1, &[], 0, &[], "default z3 text'a' text#ff0000 position1"),
    ("way{text:a;font-size:5;}", 1, &[], 0, &[0.0], "default z3 text'a' size0"),
    ("way{text:a;font-size:5;}", 1, &[], 0, &[-1.0], "default z3 text'a' size-5"),
    ("way{text:a;font-size:5;}", 1, &[], 0, &[f64::NAN], "default z3 text'a' sizeNaN"),
    ("way{text:a;font-size:0;}", 1, &[], 0, &[f64::INFINITY], "default z3 text'a' sizeNaN"),
    ("way{icon-image:a/b.svg;fill-image:a:b;}", 1, &[], 0, &[], "default z3 icon'a/b.svg' fill'a:b'"),
    ("way{opacity:0.5;fill-opacity:.25;}", 1, &[], 0, &[], "default z3 opacity0.5 fill_opacity0.25"),
    ("way{}", 1, &[("layer", "-5")], 0, &[], "default layer-5 z3"),
    ("way{}", 1, &[("layer", "5.0")], 0, &[], "default z3"),
];

/// Sheets for the canvas colour, with the answers for JOSM and MapsMe.
pub const CANVAS: [(&str, Option<[u8; 3]>, Option<[u8; 3]>); 13] = [
    ("", None, None),
    ("canvas{fill-color:#123;}", Some([17, 34, 51]), None),
    ("canvas{background-color:#123;}", None, Some([17, 34, 51])),
    ("canvas{background-color:#123;fill-color:#fff;}", Some([255; 3]), Some([17, 34, 51])),
    ("canvas{fill-color:red;background-color:red;}", None, None),
    ("canvas{fill-color:red;fill-color:#001;} canvas{fill-color:#002;}", Some([0, 0, 17]), None),
    ("canvas{fill-color:#001;fill-color:#002;} canvas{fill-color:#003;}", Some([0, 0, 17]), None),
    ("way{fill-color:#001;} *{fill-color:#002;} meta{fill-color:#003;}", None, None),
    ("way,canvas{fill-color:#001;}", Some([0, 0, 17]), None),
    ("canvas|z99[a=b]::x{fill-color:#001;}", Some([0, 0, 17]), None),
    ("@c:#001; canvas{fill-color:@c;}", Some([0, 0, 17]), None),
    ("canvas{fill-color:\"#001\";fill-color:5;}", None, None),
    ("{fill-color:#001;} canvas,colors{} canvas{Fill-color:#001;}", None, None),
];

const TYPES: [&str; 9] = ["way", "way", "way", "line", "area", "area", "node", "node", "canvas"];
const TESTS: [&str; 11] = ["", "", "", "", "", "", "[a]", "[!a]", "[b=c]", "[layer]", "[a:b?]"];
const LAYERS: [&str; 12] = ["", "", "", "", "::default", "::x", "::x", "::y", "::casing", "::é", "::*", "::*"];
const WORDS: [&str; 16] = [
    "background", "foreground", "none", "butt", "round", "square", "center", "line", "Red", "redd", "name", "icon.svg",
    "a/b", "_", "-x", "transparent",
];
const STRINGS: [&str; 10] = [
    "\"red\"", "\"background\"", "\"\"", "\"é – ü\"", "\"round\"", "\"center\"", "\"5\"", "\"name\"", "\"a:b\"",
    "\"a\nb\"",
];
const NUMBERS_WRITTEN: [&str; 18] = [
    "0", "-0", "1", "1", "2", "3", "3", "4", "4", "5", "0.5", "2.5", "-1", "-3", "+7", "0.1", "1000000", "16777217.25",
];

fn number(r: &mut Random) -> String {
    match r.below(40) {
        0 => INFINITE(),
        1 => format!("-{}", INFINITE()),
        2 => NAN(),
        _ => r.pick(&NUMBERS_WRITTEN).to_string(),
    }
}

fn numbers(r: &mut Random) -> String {
    let mut text = number(r);
    while r.one_in(2) {
        text += ",";
        text += &number(r);
    }
    text
}

fn word(r: &mut Random) -> &'static str {
    if r.one_in(3) {
        return COLORS[r.below(COLORS.len())].0;
    }
    r.pick(&WORDS)
}

fn color(r: &mut Random) -> String {
    if r.one_in(2) {
        return COLORS[r.below(COLORS.len())].0.to_string();
    }
    format!("#{:06x}", r.next() % 16_777_216)
}

fn delta(r: &mut Random) -> String {
    let number = if r.one_in(4) { String::new() } else { format!(" {}", number(r)) };
    format!("eval(prop(\"width\"){number})")
}

/// A value of any kind, whatever the property.
fn any_value(r: &mut Random) -> String {
    match r.below(8) {
        0 => word(r).to_string(),
        1 => format!("{}:{}", word(r), word(r)),
        2 => r.pick(&STRINGS).to_string(),
        3 => color(r),
        4 => format!("{},{}", number(r), numbers(r)),
        5 => delta(r),
        _ => number(r),
    }
}

fn value(r: &mut Random, name: &str) -> String {
    if r.one_in(4) {
        return any_value(r);
    }
    match name {
        "z-index" if r.one_in(20) => [INFINITE(), format!("-{}", INFINITE()), NAN()][r.below(3)].clone(),
        "z-index" if r.one_in(8) => number(r),
        "z-index" => r.pick(&["0", "-0", "0", "-0", "1", "1", "3", "4", "-1"]).to_string(),
        "fill-position" => r.pick(&["background", "background", "foreground"]).to_string(),
        "casing-width" if r.one_in(2) => delta(r),
        "text" | "icon-image" | "fill-image" => match r.below(3) {
            0 => word(r).to_string(),
            1 => format!("{}:{}", word(r), word(r)),
            _ => r.pick(&STRINGS).to_string(),
        },
        "text-position" => r.pick(&["center", "line"]).to_string(),
        "linecap" | "casing-linecap" => r.pick(&["none", "butt", "round", "square"]).to_string(),
        "dashes" | "casing-dashes" => numbers(r),
        _ if name.ends_with("color") => color(r),
        _ => number(r),
    }
}

fn selector(r: &mut Random) -> String {
    let zoom = if r.one_in(12) { r.pick(&["|z5-", "|z-12", "|z7-9"]) } else { "" };
    // 8 with many a tag
    let test = if r.one_in(40) { "[layer>0]" } else { r.pick(&TESTS) };
    format!("{}{zoom}{test}{}", r.pick(&TYPES), r.pick(&LAYERS))
}

/// A sheet of properties that make styles; most of its selectors match much.
pub fn style_sheet(r: &mut Random) -> String {
    let mut text = String::new();
    if r.one_in(6) {
        // a casing beside the default layer's width
        text += &format!("way{{width:{};}} way::x{{casing-width:{};}}\n", number(r), value(r, "casing-width"));
    }
    for _ in 0..r.between(1, 6) {
        text += &selector(r);
        while r.one_in(4) {
            text += ",";
            text += &selector(r);
        }
        text += "{";
        // a few, or many that belong together
        let group: &[&str] = match r.below(6) {
            0 => &["z-index", "fill-position"],
            1 => &["width", "casing-width", "casing-width"],
            2 => &["text", "text", "text-color", "text-position", "font-size"],
            _ => &NAMES,
        };
        for _ in 0..*r.pick(&[&0, &1, &3, &6, &12]) {
            let name = if r.one_in(40) { r.pick(&["Color", "colour", "z-inde", "textx"]) } else { r.pick(group) };
            text += &format!("{name}:{};", value(r, name));
        }
        text += "}\n";
    }
    text
}

/// A sheet of one rule with many properties, right and wrong ones alike.
pub fn dense_sheet(r: &mut Random) -> String {
    let mut text = format!("{}{{", r.pick(&["way", "way", "area", "node"]));
    for _ in 0..10 {
        let name = r.pick(&NAMES);
        let value = if r.one_in(2) { any_value(r) } else { value(r, name) };
        text += &format!("{name}:{value};");
    }
    text + "}"
}

/// A sheet of few z-indices and fills in several layers.
pub fn tied_sheet(r: &mut Random) -> String {
    let mut text = String::new();
    for _ in 0..r.between(2, 5) {
        let object_type = r.pick(&["way", "way", "way", "area", "node"]);
        text += &format!("{object_type}{}{}{{", r.pick(&["", "", "[a]", "[layer]"]), r.pick(&LAYERS));
        if !r.one_in(4) {
            let name = "z-index";
            text += &format!("{name}:{};", value(r, name));
        }
        text += r.pick(&["", "", "fill-position:background;", "fill-position:foreground;"]);
        text += "}\n";
    }
    text
}

/// A tag `layer` of any shape, mostly.
pub fn with_level(r: &mut Random, entity: &mut Entity) {
    if r.one_in(4) {
        return;
    }
    entity.tags.retain(|(key, _)| key != b"layer");
    if r.one_in(6) || entity.tags.len() == 256 {
        return;
    }
    let value = if r.one_in(12) { any_number(r) } else { LEVELS[r.below(LEVELS.len())].0.to_string() };
    let place = entity.tags.partition_point(|(key, _)| &key[..] < b"layer");
    entity.tags.insert(place, (b"layer".to_vec(), value.into_bytes()));
}

pub fn style_entity(r: &mut Random, load: &Load) -> (Entity, u8) {
    let (mut entity, zoom) = random_entity(r, load);
    with_level(r, &mut entity);
    (entity, zoom)
}

pub fn settings(r: &mut Random) -> Settings {
    let style_type = *r.pick(&[&0, &0, &1, &1, &1, &2, &255]);
    let mut font = match r.below(12) {
        0..=3 => Vec::new(),
        4 => vec![0.0],
        5 => vec![-1.0],
        6 => vec![f64::NAN],
        7 => vec![f64::INFINITY],
        8 => vec![0.1],
        9 => vec![-0.0],
        10 => vec![f64::from_bits(r.next())],
        _ => vec![1.5],
    };
    if !font.is_empty() && r.one_in(4) {
        font.push(f64::from_bits(r.next()));
    }
    Settings { style_type, font }
}

/// Sound tables that no load makes of this sheet: its properties get other values, and texts and numbers are taken from
/// anywhere.
pub fn twisted(r: &mut Random, handed: &Handed, bundle: usize) -> Handed {
    let mut twisted = handed.clone();
    let numbers = handed.counts[NUMBERS] as usize;
    let range = |r: &mut Random, most: usize, length: usize| {
        let from = r.below(most + 1);
        [from as u32, r.between(from, most.min(from + length)) as u32]
    };
    for n in 0..handed.counts[PROPERTIES] as usize {
        let entry = &mut twisted.words[PROPERTIES][8 * n..8 * n + 8];
        let other = handed.entry(PROPERTIES, r.below(handed.counts[PROPERTIES] as usize));
        let [a, b] = range(r, bundle, 5);
        let [c, d] = range(r, bundle, 5);
        let value = match r.below(10) {
            0 => [1, a, b, 0, 0],
            1 => [2, a, b, c, d],
            2 => [3, a, b, 0, 0],
            3 => [4, a % 256, b % 256, c % 256, 0],
            4..=5 => {
                let [from, to] = range(r, numbers, 3);
                [5, from, to, 0, 0]
            }
            6 if numbers > 0 => [6, r.below(numbers) as u32, 0, 0, 0],
            // another property's value, or a text as an identifier and the other way round
            7 => [other[0], other[3], other[4], other[5], other[6]],
            8 if [1, 3].contains(&entry[0]) => [4 - entry[0], entry[3], entry[4], 0, 0],
            _ => continue,
        };
        entry[0] = value[0];
        entry[3..7].copy_from_slice(&value[1..]);
        if r.one_in(10) {
            entry[1..3].copy_from_slice(&other[1..3]);
        }
    }
    for x in &mut twisted.numbers {
        if r.one_in(12) {
            *x = *r.pick(&[&0.0, &-0.0, &f64::NAN, &f64::INFINITY, &f64::NEG_INFINITY, &1e308, &5e-324]);
        }
    }
    // a number in a text test must be whole
    if crate::maps::sound(&twisted, bundle) {
        twisted
    } else {
        Handed { numbers: handed.numbers.clone(), ..twisted }
    }
}
