//! The texts to compare: all short ones, random ones, damaged sheets.

use crate::random::Random;

/// One of each sort that the tokenizer tells apart, a letter of two bytes, a blank of three.
pub const ALPHABET: &str = "az10.-+|#\"@*/!=:;<~() \né\u{2003}";

/// Beginnings that are too long to be met by short texts; each is followed by all texts of up to 3.
pub const BEGINNINGS: [&str; 12] =
    ["@import", "@import \"a", "@import(\"a\"", "|z", "|z1", "|z12-", "-", "+1.", "#00", "#0000", "/*", "//"];

/// The papers' own examples.
pub const EXAMPLES: [&str; 28] = [
    "", "|z-", "-.5", "+.5", "5.", "#12345", "#fff", "way", "way//c", "way //c", "way /*c*/", "|z123", "|z1234",
    "|z12345", "|z12-345", "-", "+", "+a", "/", "@", "@A", "@import/**/\"a\"", "@import  \"a\"", "\"a", "|y", "/* *",
    "9007199254740993", "\n\n a\r\n-",
];

const SIGNS: [&str; 19] =
    ["!=", "<=", ">=", "=~", "::", "(", ")", "[", "]", "{", "}", "=", "<", ">", "!", "?", ":", ";", ","];

/// Unicode White_Space, then three that are not.
const BLANKS: &str = "\t\n\u{b}\u{c}\r \u{85}\u{a0}\u{1680}\u{2000}\u{2001}\u{2002}\u{2003}\u{2004}\u{2005}\u{2006}\
    \u{2007}\u{2008}\u{2009}\u{200a}\u{2028}\u{2029}\u{202f}\u{205f}\u{3000}\u{200b}\u{feff}\u{180e}";

const WORDS: [&str; 16] = [
    "way", "node", "area", "line", "canvas", "meta", "colors", "eval", "highway", "z-index", "fill-color", "icon.svg",
    "a/b", "-x", "_", "import",
];

/// Numbers around the lengths where the steps of reading them change: no longer exact, infinite, NaN.
pub fn long_numbers() -> Vec<String> {
    let mut all = Vec::new();
    for n in [15, 16, 17, 18, 22, 23, 24, 54, 100, 255, 256, 291, 307, 308, 309, 310, 323, 324, 325, 330] {
        for digits in ["9", "0", "7182818284"] {
            let digits: String = digits.chars().cycle().take(n).collect();
            all.push(format!("-3.{digits}"));
            all.push(format!("{digits}.5"));
        }
    }
    all
}

/// All texts of `beginning` and up to `most` characters of the alphabet.
pub fn all_short(beginning: &str, most: usize, run: &mut impl FnMut(&str)) {
    run(beginning);
    if most > 0 {
        for c in ALPHABET.chars() {
            all_short(&format!("{beginning}{c}"), most - 1, run);
        }
    }
}

/// Each character of these numbers before a name and in an import: is it a blank, how wide is it.
pub fn every_character(numbers: std::ops::RangeInclusive<u32>, run: &mut impl FnMut(&str)) {
    for c in numbers.filter_map(char::from_u32) {
        run(&format!("{c}a"));
        run(&format!("@import{c}\"a\"{c};"));
    }
}

/// A random text or, as often, a damaged part of a sheet.
pub fn random_case(r: &mut Random, sheets: &[String]) -> String {
    if r.one_in(2) {
        return random_text(r);
    }
    let sheet = &sheets[r.below(sheets.len())];
    let part = if r.one_in(500) { sheet.clone() } else { window(r, sheet) };
    damaged(r, &part)
}

pub fn random_text(r: &mut Random) -> String {
    let mut text = String::new();
    let most = r.pick(&[&3, &8, &8, &20, &60]);
    for _ in 0..r.between(1, *most) {
        fragment(r, &mut text);
        if r.one_in(2) {
            text.push(if r.one_in(8) { r.pick_char(BLANKS) } else { ' ' });
        }
    }
    text
}

/// A part of at most 600 bytes or so.
fn window(r: &mut Random, sheet: &str) -> String {
    let mut from = r.below(sheet.len());
    while !sheet.is_char_boundary(from) {
        from -= 1;
    }
    let length = r.between(1, 600);
    sheet[from..].chars().take(length).collect()
}

fn damaged(r: &mut Random, text: &str) -> String {
    let mut chars: Vec<char> = text.chars().collect();
    for _ in 0..r.between(0, 3) {
        if chars.is_empty() {
            break;
        }
        let at = r.below(chars.len());
        match r.below(4) {
            0 => chars[at] = any_char(r),
            1 => drop(chars.remove(at)),
            2 => chars.insert(at, chars[at]),
            _ => chars.insert(at, any_char(r)),
        }
    }
    chars.into_iter().collect()
}

fn fragment(r: &mut Random, t: &mut String) {
    match r.below(24) {
        0..=4 => t.push_str(r.pick(&SIGNS)),
        5..=7 => number(r, t),
        8..=9 => zoom_range(r, t),
        10..=11 => color(r, t),
        12..=13 => string(r, t),
        14 => comment(r, t),
        15 => import(r, t),
        16 => {
            t.push('@');
            repeat(r, 1, 12, "_abcdefghijklmnopqrstuvwxyz0123456789", t);
        }
        17..=19 => identifier(r, t),
        20..=21 => t.push_str(r.pick(&WORDS)),
        22 => t.push(r.pick_char(BLANKS)),
        _ if r.one_in(4) => t.push(any_char(r)),
        _ => t.push('\n'),
    }
}

fn number(r: &mut Random, t: &mut String) {
    t.push_str(r.pick(&["", "", "", "+", "-"]));
    let whole = *r.pick(&[&0, &1, &1, &2, &3, &8, &17, &25, &320]);
    repeat(r, whole.min(1), whole, "0123456789", t);
    if whole == 0 || r.one_in(2) {
        t.push('.');
        let digits = r.pick(&["0123456789", "0123456789", "0", "9", "05"]);
        match r.below(16) {
            0 => repeat(r, 300, 330, digits, t),
            1..=2 => repeat(r, 15, 60, digits, t),
            // none at all is an error, unless a digit comes next
            3 => {}
            _ => repeat(r, 1, 6, digits, t),
        }
    }
}

fn zoom_range(r: &mut Random, t: &mut String) {
    t.push_str(if r.one_in(60) { "|" } else { "|z" });
    let least = if r.one_in(20) { 0 } else { 1 };
    repeat(r, least, 3, "0123456789", t);
    if r.one_in(2) {
        t.push('-');
        repeat(r, 0, 3, "0123456789", t);
    }
}

fn color(r: &mut Random, t: &mut String) {
    t.push('#');
    let digits = if r.one_in(30) { r.below(9) } else { *r.pick(&[&3, &6]) };
    repeat(r, digits, digits, "0123456789abcdefABCDEF", t);
}

fn string(r: &mut Random, t: &mut String) {
    t.push('"');
    for _ in 0..r.pick(&[&0, &3, &10, &40]).to_owned() {
        t.push(if r.one_in(6) { any_char(r) } else { r.pick_char("abz/*'\\ -:.é\n") });
    }
    if !r.one_in(30) {
        t.push('"');
    }
}

fn comment(r: &mut Random, t: &mut String) {
    if r.one_in(2) {
        t.push_str("//");
        repeat(r, 0, 12, "ab */\"é\r", t);
        t.push('\n');
    } else {
        t.push_str("/*");
        repeat(r, 0, 12, "ab *\"é\n", t);
        t.push_str(if r.one_in(20) { "" } else { "*/" });
    }
}

fn import(r: &mut Random, t: &mut String) {
    let between = ["", " ", " ", "(", "(", "\n", "\u{3000}"];
    t.push_str("@import");
    t.push_str(if r.one_in(20) { r.pick(&["  ", "( ", "/**/", "x", "-"]) } else { r.pick(&between) });
    string(r, t);
    t.push_str(r.pick(&["", " ", ")", ")", "  ", "))", "\n", "\u{a0}"]));
}

fn identifier(r: &mut Random, t: &mut String) {
    let start = "_abcdefghijklmnopqrstuvwxyzABCDEFGHIJKLMNOPQRSTUVWXYZ";
    if r.one_in(8) {
        t.push('-');
    }
    repeat(r, 1, 1, start, t);
    repeat(r, 0, 12, "_abcxyzABCXYZ0123456789-./", t);
}

fn any_char(r: &mut Random) -> char {
    match r.below(4) {
        0 => r.pick_char(ALPHABET),
        1 => r.pick_char(BLANKS),
        2 => char::from(r.below(128) as u8),
        _ => char::from_u32(r.below(0x11_0000) as u32).unwrap_or('\u{fffd}'),
    }
}

fn repeat(r: &mut Random, least: usize, most: usize, from: &str, t: &mut String) {
    for _ in 0..r.between(least, most) {
        t.push(r.pick_char(from));
    }
}
