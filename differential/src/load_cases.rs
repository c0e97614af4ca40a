//! The bundles to load: short token sequences, grammar-directed sheets with mistakes, damaged sheets, imports, limits.

use crate::bundles;
use crate::loads::{COLORS, MOST_ENTRIES, NUMBERS, PROPERTIES, RULES, SELECTORS, TESTS};
use crate::random::Random;

/// One of each sort that the parser tells apart.
pub const TOKENS: [&str; 30] = [
    "way", "*", "colors", "a", "eval", "prop", "\"s\"", "\"width\"", "5", "2.5", "#fff", "@c", "@import(\"t1\")",
    "|z1-2", "(", ")", "[", "]", "{", "}", "=", "!=", "<", "=~", "!", "?", ":", "::", ";", ",",
];

/// What `@import("t1")` finds in the cases over TOKENS.
pub const IMPORTED: &str = "@c:#123;area{b:7;}";

/// Beginnings that are too long to be met by short sequences; each is followed by all sequences of up to 3.
pub const BEGINNINGS: [&str; 21] = [
    "way[",
    "way[a",
    "way[!a",
    "way[a:b",
    "way[a=",
    "way[a=5",
    "way[a!=2.5",
    "way[a<5",
    "way[a?",
    "way::",
    "way,",
    "way{",
    "way{a:",
    "way{a:a",
    "way{a:5",
    "way{a:5,",
    "way{a:eval",
    "way{a:eval(prop(\"width\")",
    "@c:",
    "@c:#123;way{a:",
    "way,colors{",
];

/// All sequences of `beginning` and up to `most` tokens, with a blank before each.
pub fn all_sequences(beginning: &str, most: usize, run: &mut impl FnMut(&str)) {
    run(beginning);
    if most > 0 {
        for token in TOKENS {
            all_sequences(&format!("{beginning} {token}"), most - 1, run);
        }
    }
}

/// The papers' own examples of one text, with the refusal or the counts of the six tables.
pub const EXAMPLES: [(&str, Result<[usize; 6], [u64; 5]>); 49] = [
    ("", Ok([0; 6])),
    ("way", Err([4, 1, 0, 1, 4])),
    ("way //c", Err([4, 1, 0, 1, 9])),
    ("way /*c*/", Err([4, 1, 0, 1, 10])),
    ("@a: red; way{color:@a;}", Err([4, 5, 0, 1, 21])),
    ("way{casing-width:eval(prop(\"width\"));}", Ok([1, 1, 0, 1, 1, 0])),
    ("way{casing-width:eval(prop(\"width\") 2);}", Ok([1, 1, 0, 1, 1, 0])),
    ("way{a:eval;}", Err([4, 6, 0, 1, 7])),
    ("way{a:eval(prop(width));}", Err([4, 6, 0, 1, 7])),
    ("way{a:eval(prop(\"width\") 2 2);}", Err([4, 6, 0, 1, 7])),
    ("way{a:eval(prop(\"width\")) 2;}", Err([4, 6, 0, 1, 7])),
    ("way{a:eval(prop(\"width\") ) 2);}", Err([4, 6, 0, 1, 7])),
    ("way{a:eval(prop(\"width\") x);}", Err([4, 6, 0, 1, 7])),
    ("way{a:eval(prop(\"width\");}", Err([4, 6, 0, 1, 7])),
    ("way{a:eval(prop(\"height\"));}", Err([4, 6, 0, 1, 7])),
    ("way{a:eval(prop(\"width\") + 2);}", Err([3, 7, 0, 1, 27])),
    ("way{a:eval(prop(\"width\") +2);b:eval(\nprop(\"width\")-.5);}", Err([4, 6, 0, 1, 32])),
    ("way{a:eval(prop(\"width\")", Err([4, 1, 0, 1, 25])),
    ("way::x::y|z3-4|z5[a][b]{}", Ok([1, 1, 2, 0, 0, 0])),
    ("line,canvas,meta,node,area,*{}", Ok([1, 6, 0, 0, 0, 0])),
    ("|z-", Err([3, 11, 0, 1, 3])),
    ("5.", Err([3, 8, 0, 1, 2])),
    ("#12345", Err([3, 9, 0, 1, 6])),
    ("x{}", Err([4, 2, 0, 1, 1])),
    ("{p:1;}", Ok([1, 0, 0, 1, 1, 0])),
    ("way,{}", Ok([1, 1, 0, 0, 0, 0])),
    ("way,,{}", Err([4, 3, 0, 1, 5])),
    ("colors}", Ok([1, 0, 0, 0, 0, 0])),
    ("way::x, colors{a b c}", Ok([1, 1, 0, 0, 0, 0])),
    ("way[!x?]{}", Ok([1, 1, 1, 0, 0, 0])),
    ("way[x?!]{}", Ok([1, 1, 1, 0, 0, 0])),
    ("way[!x?!]{}", Err([4, 3, 0, 1, 8])),
    ("way[a=2.0]{}", Ok([1, 1, 1, 0, 1, 0])),
    ("way[a=-0]{}", Ok([1, 1, 1, 0, 1, 0])),
    ("way[a=2.5]{}", Err([6, 0, 0, 1, 10])),
    ("way[a!=9007199254740990.4]{}", Ok([1, 1, 1, 0, 1, 0])),
    ("way[a!=9007199254740991.5]{}", Err([6, 0, 0, 1, 26])),
    ("way[a=2.5 x", Err([4, 4, 0, 1, 11])),
    ("way[a=\"b\"]{}", Err([4, 3, 0, 1, 7])),
    ("way[a=~b]{}", Err([4, 3, 0, 1, 6])),
    ("way[ele>=500]{}", Ok([1, 1, 1, 0, 1, 0])),
    ("way|z13-[x]|z-4{}", Ok([1, 1, 1, 0, 0, 0])),
    ("way:a:b::c[\"k\":l]{}", Ok([1, 1, 1, 0, 0, 0])),
    ("@a:#fff;@a:#000;@b:#111222;", Ok([0, 0, 0, 0, 0, 2])),
    ("@a:};@b:@a;@c:@import \"x\";", Ok([0; 6])),
    ("way{a:1,2,3;b:x:y;c:x;d:\"s\";e:#fff;}", Ok([1, 1, 0, 5, 3, 0])),
    ("way{a:1,;}", Err([4, 3, 0, 1, 9])),
    ("@import \"x\";", Err([5, 0, 0, 1, 12])),
    ("\n\n @import \"x\"\n\n;", Err([5, 0, 0, 5, 1])),
];

/// Bundles of several texts, with the refusal or the counts.
pub fn import_examples() -> Vec<(Vec<u8>, Result<[usize; 6], [u64; 5]>)> {
    let mut all = Vec::new();
    let mut add = |texts: &[(String, String)], answer| all.push((bundles::of(texts), answer));
    let named = |texts: &[&str]| -> Vec<(String, String)> {
        texts.iter().enumerate().map(|(n, text)| (format!("t{n}"), text.to_string())).collect()
    };
    // chains: nine texts load, the tenth is 21 in text 8
    for n in 1..=12 {
        let texts: Vec<_> = (0..n).map(|k| (format!("t{k}"), link(k, n))).collect();
        add(&texts, if n <= 9 { Ok([n, n, 0, 0, 0, n]) } else { Err([21, 0, 8, 1, 14]) });
    }
    // at depth 8 an unknown name is 5
    let mut texts: Vec<_> = (0..9).map(|k| (format!("t{k}"), link(k, 10))).collect();
    add(&texts, Err([5, 0, 8, 1, 14]));
    texts.push(("t9".to_string(), "way".to_string()));
    add(&texts, Err([21, 0, 8, 1, 14]));
    // a chain that is written backwards
    texts = (0..9).map(|k| (format!("t{k}"), link(k, 9))).collect();
    texts[1..].reverse();
    add(&texts, Ok([9, 9, 0, 0, 0, 9]));
    // branching: text k imports the next one twice
    for n in 1..=9 {
        let text = |k| format!("{}way{{}}", format!("@import(\"t{}\");", k + 1).repeat(2 * usize::from(k + 1 < n)));
        let texts: Vec<_> = (0..n).map(|k| (format!("t{k}"), text(k))).collect();
        let rules = (1 << n) - 1;
        add(&texts, Ok([rules, rules, 0, 0, 0, 0]));
    }
    // cycles
    add(&named(&["@import \"t0\";"]), Err([21, 0, 0, 1, 13]));
    add(&named(&["@import \"t1\";", "way{}\n@import \"t0\";"]), Err([21, 0, 0, 1, 13]));
    add(&named(&["@import \"t1\";", "@import \"t1\";"]), Err([21, 0, 1, 1, 13]));
    add(&named(&["@import \"t1\";", "@import \"t2\";", "@import \"t1\";"]), Err([21, 0, 2, 1, 13]));
    // an import sees and extends the colours; where it is dropped nothing is imported
    add(&named(&["@a:#111;@import \"t1\";way{c:@a;c:@b;}", "@b:#222;node{c:@a;}@a:#333;"]), Ok([2, 2, 0, 3, 0, 2]));
    add(&named(&["@import \"t1\";@a:@import \"t1\";", "@b:#222;way{c:@a;}"]), Err([4, 5, 1, 1, 16]));
    add(&named(&["@a:@import \"t1\";", "@b:#222;"]), Ok([0; 6]));
    add(&named(&["@import \"t1\" ; @import \"t1\";", "area{}"]), Ok([2, 2, 0, 0, 0, 0]));
    add(&named(&["@import \"t1\" x", "area{}"]), Err([4, 4, 0, 1, 14]));
    add(&named(&["@import \"t1\";x{}", "area{}"]), Err([4, 2, 0, 1, 14]));
    add(&named(&["@import \"t1\";", "area{\n5."]), Err([3, 8, 1, 2, 2]));
    add(&named(&["way,@import \"t1\";", "area{}"]), Err([4, 3, 0, 1, 5]));
    // names are compared byte by byte, and may be anything
    let texts = [("t0", "@import \" t1\";"), ("t1", "way{}")];
    all.push((bundles::of(&texts), Err([5, 0, 0, 1, 14])));
    let texts = [("T0", "@import \"t1\";"), ("T1", "way{}"), ("t1 ", "way{}")];
    all.push((bundles::of(&texts), Err([5, 0, 0, 1, 13])));
    let texts =
        [("é", "@import \"a–b c\";@import(\"é2\");@import\n\"\u{3000}\";"), ("a–b c", "way{}"), ("é2", "area{}")];
    all.push((bundles::of(&texts), Err([5, 0, 0, 2, 4])));
    all.push((bundles::of(&[("a", "@import \"\";")]), Err([5, 0, 0, 1, 11])));
    all
}

/// Text k of a chain of n.
fn link(k: usize, n: usize) -> String {
    let import = if k + 1 < n { format!("@import(\"t{}\");", k + 1) } else { String::new() };
    format!("{import}way{{}}@c{k}:#123;")
}

/// Bundles at the limits of the layout, with 1, 2 or what the load answers.
pub fn layouts() -> Vec<(Vec<u8>, Result<[usize; 6], [u64; 5]>)> {
    let bad = |number| Err([number, 0, 0, 0, 0]);
    let none = Ok([0; 6]);
    let many =
        |n: usize| -> Vec<u8> { bundles::of(&(0..n).map(|k| (format!("t{k}"), String::new())).collect::<Vec<_>>()) };
    let named = |n: usize| bundles::of(&[("n".repeat(n), "")]);
    // one text of blanks, so that the bundle has n bytes
    let long = |n: usize| bundles::of(&[("t0", " ".repeat(n - 7))]);
    let mut over = bundles::single("way{}");
    over.push(0);
    let mut short = bundles::single("way{}");
    short.pop();
    vec![
        (vec![], bad(1)),
        (vec![0], bad(1)),
        (vec![1], bad(1)),
        (vec![1, 1], bad(1)),
        (vec![1, 1, b'a'], bad(1)),
        (vec![1, 1, b'a', 0], none),
        (vec![1, 0, 0], bad(1)),
        (vec![0x81, 0, 1, b'a', 0], bad(1)),
        (vec![1, 0x81, 0, b'a', 0], bad(1)),
        (vec![1, 1, b'a', 0x80, 0], bad(1)),
        (vec![1, 1, b'a', 0xff, 0xff, 0xff, 0xff, 0x0f], bad(1)),
        (vec![1, 1, b'a', 0x80, 0x80, 0x80, 0x80, 0x10], bad(1)),
        (vec![1, 1, b'a', 0x80, 0x80, 0x80, 0x80, 0x80, 0x01], bad(1)),
        (many(64), none),
        (many(65), bad(1)),
        (named(255), none),
        (named(256), bad(1)),
        (over, bad(1)),
        (short, bad(1)),
        (long(bundles::MOST_BYTES), none),
        (long(bundles::MOST_BYTES + 1), bad(1)),
        (bundles::of(&[("a", ""), ("b", ""), ("a", "")]), bad(1)),
        (bundles::of(&[(&b"\xff"[..], &b""[..]), (&b"\xff"[..], &b""[..])]), bad(1)),
        (bundles::of(&[(&b"\xff"[..], &b""[..])]), bad(2)),
        (bundles::of(&[(&b"a"[..], &b"way{\xc3}"[..])]), bad(2)),
        (bundles::of(&[(&b"a"[..], &b"5."[..]), (&b"b"[..], &b"\xed\xa0\x80"[..])]), bad(2)),
        (bundles::of(&[(&b"a"[..], &b"\xc3"[..]), (&b"b"[..], &b"\xa9"[..])]), bad(2)),
    ]
}

/// Texts with the entries lent in each table, and what is refused: the order at one token, and places reached.
pub const SHORT_TABLES: [(&str, [usize; 6], Result<[usize; 6], [u64; 5]>); 18] = [
    ("{a:12345;}", [1, 1, 1, 1, 0, 1], Err([20, 5, 0, 1, 8])),
    ("{a:1,12345 ;}", [1, 1, 1, 1, 1, 1], Err([20, 5, 0, 1, 10])),
    ("{a:1,2 x}", [1, 1, 1, 0, 2, 1], Err([4, 3, 0, 1, 8])),
    ("{a:1,2 ;}", [1, 1, 1, 0, 2, 1], Err([20, 4, 0, 1, 8])),
    ("way[a=2.5]{}", [0; 6], Err([6, 0, 0, 1, 10])),
    ("way[a=2.5}", [0; 6], Err([4, 4, 0, 1, 10])),
    ("way[a=2]{}", [0; 6], Err([20, 5, 0, 1, 8])),
    ("way[a>2.5]{}", [0; 6], Err([20, 5, 0, 1, 10])),
    ("way[a=2]{}", [0, 0, 0, 0, 1, 0], Err([20, 3, 0, 1, 8])),
    ("way[a=b]{}", [0; 6], Err([20, 3, 0, 1, 8])),
    ("way{}", [0; 6], Err([20, 2, 0, 1, 4])),
    ("way , x", [0; 6], Err([20, 2, 0, 1, 5])),
    ("{}", [0; 6], Err([20, 1, 0, 1, 2])),
    ("colors a }", [0; 6], Err([20, 1, 0, 1, 10])),
    ("{a:eval(prop(\"width\")) ;}", [0; 6], Err([20, 5, 0, 1, 24])),
    ("{a:eval(x) ;}", [0; 6], Err([4, 6, 0, 1, 4])),
    ("@a:#fff;\n@a:#000;@b:#111;", [0, 0, 0, 0, 0, 1], Err([20, 6, 0, 2, 16])),
    ("@a:#fff;@a:#000;@a:x;@b:};", [0, 0, 0, 0, 0, 1], Ok([0, 0, 0, 0, 0, 1])),
];

/// The same with imports: a full table precedes the depth where it comes first.
pub fn short_imports() -> Vec<(Vec<u8>, [usize; 6], Result<[usize; 6], [u64; 5]>)> {
    let cycle = bundles::of(&[("t0", "way{}\n @import \"t0\";")]);
    let second = bundles::of(&[("t0", "@import \"t1\";"), ("t1", "{} @import \"t0\";{}")]);
    vec![
        (cycle.clone(), [8, 99, 0, 0, 0, 0], Err([20, 1, 0, 1, 5])),
        (cycle.clone(), [9, 8, 0, 0, 0, 0], Err([20, 2, 0, 1, 4])),
        (cycle, [9, 9, 0, 0, 0, 0], Err([21, 0, 0, 2, 14])),
        (second.clone(), [3, 0, 0, 0, 0, 0], Err([20, 1, 1, 1, 2])),
        (second, [4, 0, 0, 0, 0, 0], Err([21, 0, 0, 1, 13])),
    ]
}

/// Small sheets that store entries of every table, for all capacities.
pub const ENTRIES: [&str; 6] = [
    "@a:#fff; @b:#000;\nway|z12[a=2][b<5.5][c?][d=e], node::x[f!=7] {\n a:1,2,3; b:@a; c:eval(prop(\"width\") 4); d:x:y; }\n",
    "{a:1;} {b:2,3;} colors{} way,area,*,{c:eval(prop(\"width\"));}",
    "@a:#111;@a:#222;@b:#333;@a:#444; way{a:@a;b:@b;} @c:#555;",
    "way[a=1][b=2][c=3][d>=4]{} way[a][b][!c][d?]{}",
    "meta{a:1;b:2;c:3;d:4;e:5;f:6;g:7;}",
    "way{}node{}area{}line{}canvas{}meta{}*{}",
];

/// Sheets of so many entries of one table, few of the others.
pub fn full(table: usize, n: usize) -> String {
    let many = |part: &str| part.repeat(n);
    match table {
        RULES => many("{}"),
        SELECTORS => many("*,") + "{}",
        TESTS => format!("*{}{{}}", many("[a]")),
        PROPERTIES => format!("{{{}}}", many("a:b;")),
        NUMBERS => format!("{{a:{}2;}}", "1,".repeat(n - 1)),
        COLORS => (0..n).map(|k| format!("@{k:x}:#fff;")).collect(),
        _ => unreachable!(),
    }
}

/// Just as many entries as a table may use, and one more.
pub const FULL: [usize; 2] = [MOST_ENTRIES, MOST_ENTRIES + 1];

/// A copy of the text with one byte changed, dropped or doubled.
pub fn one_byte(r: &mut Random, text: &[u8]) -> Vec<u8> {
    let mut bytes = text.to_vec();
    let at = r.below(bytes.len());
    match r.below(3) {
        0 => {
            // mostly to a byte that means something
            let to =
                if r.one_in(8) { r.below(256) as u8 } else { r.pick_char("{}[]();:,!=<>?#@|\"*/ \na0.-+zé") as u8 };
            bytes[at] = to;
        }
        1 => drop(bytes.remove(at)),
        _ => bytes.insert(at, bytes[at]),
    }
    bytes
}

const TYPES: [&str; 9] = ["way", "way", "way", "area", "node", "line", "canvas", "meta", "*"];
const NAMES: [&str; 14] = [
    "highway", "name", "width", "color", "fill-color", "z-index", "text", "a", "b", "_", "-x", "icon.svg", "a/b", "ELE",
];
const COLOR_NAMES: [&str; 5] = ["@c", "@bg", "@a1", "@_", "@water_2"];
const WHOLE: [&str; 14] = [
    "0", "1", "2", "5", "-0", "-7", "+3", "12", "500", "2.0", "007", "9007199254740991", "-9007199254740991",
    "9007199254740990.4",
];
const BROKEN: [&str; 7] = ["0.5", "2.5", "-1.25", ".5", "9007199254740992", "-9007199254740993", "9007199254740991.5"];
const STRINGS: [&str; 7] = ["\"s\"", "\"\"", "\"width\"", "\"é – ü\"", "\"a\nb\"", "\"a:b\"", "\"//\""];
/// Names of a bundle's texts; they can be names of files.
const TEXT_NAMES: [&str; 6] = ["t0", "t1", "roads.mapcss", "é", "a b", "T1"];
const UNKNOWN: [&str; 4] = ["t9", "", "t", "t1 "];

/// A bundle of one to six texts, most of them sheets of the grammar.
pub fn random_bundle(r: &mut Random) -> Vec<u8> {
    let n = *r.pick(&[&1, &1, &1, &2, &3, &6]);
    let mut texts = Vec::new();
    for k in 0..n {
        let tokens = Tokens { r, all: Vec::new(), text: k, texts: n }.sheet();
        texts.push((TEXT_NAMES[k], joined(r, &tokens)));
    }
    let mut bundle = bundles::of(&texts);
    if r.one_in(100) {
        // may hit the layout, the UTF-8, or only the text
        bundle = one_byte(r, &bundle);
    }
    bundle
}

struct Tokens<'a> {
    r: &'a mut Random,
    all: Vec<String>,
    text: usize,
    texts: usize,
}

impl Tokens<'_> {
    fn put(&mut self, token: &str) {
        self.all.push(token.to_string());
    }

    fn pick(&mut self, all: &[&str]) {
        let token = self.r.pick(all);
        self.put(token);
    }

    fn sheet(mut self) -> Vec<String> {
        for _ in 0..self.r.between(0, 8) {
            match self.r.below(16) {
                0..=2 => self.definition(),
                3..=4 if self.texts > 1 => self.import(),
                5 => self.skipped(),
                _ => self.rule(),
            }
        }
        if self.r.one_in(3) {
            for _ in 0..self.r.between(1, 2) {
                self.mistake();
            }
        }
        self.all
    }

    fn mistake(&mut self) {
        if self.all.is_empty() {
            return;
        }
        let at = self.r.below(self.all.len());
        match self.r.below(6) {
            0 => drop(self.all.remove(at)),
            1 => self.all.insert(at, self.all[at].clone()),
            2 => self.all[at] = self.r.pick(&TOKENS).to_string(),
            3 => self.all.insert(at, self.r.pick(&TOKENS).to_string()),
            4 => self.all.truncate(at),
            _ => {
                self.all[at] =
                    self.r.pick(&["|z", "-", "#12", "\"", "5.", "@", "+", "é", "/*", "+a", "|", "@import"]).to_string()
            }
        }
    }

    fn definition(&mut self) {
        self.pick(&COLOR_NAMES);
        self.put(":");
        if self.r.one_in(10) {
            self.pick(&["red", "@c", "}", "5", "@import \"t1\"", "\"s\""]);
        } else {
            self.color();
        }
        self.put(";");
    }

    fn color(&mut self) {
        let n = self.r.next();
        let color = if self.r.one_in(2) { format!("#{:03x}", n % 4096) } else { format!("#{:06X}", n % 16_777_216) };
        self.put(&color);
    }

    /// Mostly of a text further on, so that there is an end.
    fn import(&mut self) {
        let name = if self.r.one_in(60) {
            self.r.pick(&UNKNOWN)
        } else if self.text + 1 == self.texts || self.r.one_in(100) {
            if !self.r.one_in(20) {
                return;
            }
            TEXT_NAMES[self.r.below(self.texts)]
        } else {
            TEXT_NAMES[self.r.between(self.text + 1, self.texts - 1)]
        };
        let (open, close) = *self.r.pick(&[&("(", ")"), &(" ", ""), &("", ""), &("\n", " ")]);
        self.put(&format!("@import{open}\"{name}\"{close}"));
        self.put(";");
    }

    fn skipped(&mut self) {
        if self.r.one_in(3) {
            self.selector();
            self.put(",");
        }
        self.put("colors");
        for _ in 0..self.r.below(5) {
            let token = self.r.pick(&TOKENS);
            if token != "}" {
                self.put(token);
            }
        }
        self.put("}");
    }

    fn rule(&mut self) {
        if !self.r.one_in(20) {
            self.selector();
            while self.r.one_in(3) {
                self.put(",");
                self.selector();
            }
            if self.r.one_in(20) {
                self.put(",");
            }
        }
        self.put("{");
        for _ in 0..self.r.below(5) {
            self.property();
        }
        self.put("}");
    }

    fn selector(&mut self) {
        self.pick(&TYPES);
        for _ in 0..self.r.below(5) {
            match self.r.below(8) {
                0 => self.pick(&["|z1-2", "|z7", "|z13-", "|z-4", "|z99-0", "|z123"]),
                1 => {
                    self.put(":");
                    self.pick(&NAMES);
                }
                2 => {
                    self.put("::");
                    self.pick(&["x", "*", "default", "casing"]);
                }
                _ => self.test(),
            }
        }
    }

    fn test(&mut self) {
        self.put("[");
        let bang = self.r.one_in(5);
        if bang {
            self.put("!");
        }
        if !bang && self.r.one_in(5) {
            self.pick(&STRINGS);
        } else {
            self.pick(&NAMES);
        }
        if self.r.one_in(4) {
            self.put(":");
            self.pick(&NAMES);
        }
        match if bang { self.r.below(2) } else { self.r.below(8) } {
            0 => {}
            1 => self.put("?"),
            2 => {
                self.put("?");
                self.put("!");
            }
            3..=5 => {
                self.pick(&["=", "!="]);
                match self.r.below(30) {
                    0 => self.pick(&BROKEN),
                    1..=12 => self.pick(&WHOLE),
                    _ => self.pick(&NAMES),
                }
            }
            _ => {
                self.pick(&["<", "<=", ">", ">="]);
                self.number();
            }
        }
        self.put("]");
    }

    fn number(&mut self) {
        match self.r.below(40) {
            // infinite, NaN, not exact
            0 => self.put(&"9".repeat(320)),
            1 => self.put(&format!("-1.{}", "9".repeat(320))),
            2 => self.put(&format!("0.{}", "718281828".repeat(5))),
            3..=12 => self.pick(&BROKEN),
            _ => self.pick(&WHOLE),
        }
    }

    fn property(&mut self) {
        self.pick(&NAMES);
        self.put(":");
        match self.r.below(12) {
            0..=1 => {
                self.pick(&NAMES);
                if self.r.one_in(3) {
                    self.put(":");
                    self.pick(&NAMES);
                }
            }
            2 => self.pick(&STRINGS),
            3..=4 => self.color(),
            // the name of a colour that an earlier token may have defined
            5..=6 => match (0..self.all.len()).rev().find(|&k| self.all[k].starts_with("@") && self.all[k].len() < 9) {
                Some(k) if !self.r.one_in(20) => self.put(&self.all[k].clone()),
                _ if self.r.one_in(4) => self.pick(&COLOR_NAMES),
                _ => self.color(),
            },
            7..=8 => {
                for token in ["eval", "(", "prop", "(", "\"width\"", ")"] {
                    self.put(token);
                }
                if self.r.one_in(2) {
                    self.number();
                }
                if !self.r.one_in(40) {
                    self.put(")");
                }
            }
            _ => {
                self.number();
                while self.r.one_in(3) {
                    self.put(",");
                    self.number();
                }
            }
        }
        self.put(";");
    }
}

/// The tokens as a text, with a blank wherever two would run together, as a rule.
fn joined(r: &mut Random, tokens: &[String]) -> String {
    let closed = |c: Option<char>| c.is_some_and(|c| "{}[];,".contains(c));
    let mut text = String::new();
    for token in tokens {
        let apart = closed(text.chars().last()) || closed(token.chars().next());
        match r.below(20) {
            0..=10 if apart => {}
            11 => text.push('\n'),
            12 => text.push_str(" /*c*/"),
            13 => text.push_str(" //c\n"),
            14 => text.push_str("\u{2003}"),
            15 if r.one_in(40) => {}
            _ => text.push(' '),
        }
        text.push_str(token);
    }
    text
}
