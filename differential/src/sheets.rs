//! The realistic sheets of differential/sheets.

use crate::mapcss::parser;
use crate::tokens::{self, Payload};
use std::collections::{BTreeMap, BTreeSet};
use std::fs;
use std::path::PathBuf;
use std::sync::OnceLock;

fn directory() -> PathBuf {
    PathBuf::from(env!("CARGO_MANIFEST_DIR")).join("sheets")
}

/// File names, in order.
pub fn names() -> Vec<String> {
    let entries = fs::read_dir(directory()).unwrap();
    let mut names: Vec<_> = entries.map(|e| e.unwrap().file_name().into_string().unwrap()).collect();
    names.sort();
    names
}

pub fn texts() -> &'static [String] {
    static TEXTS: OnceLock<Vec<String>> = OnceLock::new();
    TEXTS.get_or_init(|| names().iter().map(|name| fs::read_to_string(directory().join(name)).unwrap()).collect())
}

/// A sheet's bundle: the sheet, then all that it imports, wherever they stand.
pub fn bundles() -> &'static [Vec<(String, String)>] {
    static BUNDLES: OnceLock<Vec<Vec<(String, String)>>> = OnceLock::new();
    BUNDLES.get_or_init(|| {
        let (names, texts) = (names(), texts());
        (0..names.len()).map(|first| bundle(&names, texts, first)).collect()
    })
}

fn bundle(names: &[String], texts: &[String], first: usize) -> Vec<(String, String)> {
    let mut members = vec![first];
    let mut at = 0;
    while at < members.len() {
        for k in 0..names.len() {
            if !members.contains(&k) && texts[members[at]].contains(&format!("\"{}\"", names[k])) {
                members.push(k);
            }
        }
        at += 1;
    }
    members.iter().map(|&k| (names[k].clone(), texts[k].clone())).collect()
}

/// A rule, a definition or an import at the top of a sheet, with the blanks and remarks before it.
pub struct Item {
    pub text: String,
    defines: Option<String>,
    uses: Vec<String>,
    imports: bool,
}

fn items(sheet: &str) -> Vec<Item> {
    let mut all = Vec::new();
    let (mut from, mut depth) = (0, 0);
    let fresh = || Item { text: String::new(), defines: None, uses: Vec::new(), imports: false };
    let mut item = fresh();
    for step in tokens::original(sheet) {
        match (tokens::KINDS[step.kind as usize], step.payload) {
            ("LeftBrace", _) => depth += 1,
            ("RightBrace", _) => depth -= 1,
            ("Import", _) => item.imports = true,
            ("ColorRef", Payload::Range(a, b)) if depth == 0 => item.defines = Some(sheet[a..b].to_string()),
            ("ColorRef", Payload::Range(a, b)) => item.uses.push(sheet[a..b].to_string()),
            _ => {}
        }
        if depth == 0 && ["RightBrace", "SemiColon"].contains(&tokens::KINDS[step.kind as usize]) {
            let to = step.cursor.unwrap().at;
            item.text = sheet[from..to].to_string();
            all.push(std::mem::replace(&mut item, fresh()));
            from = to;
        }
    }
    all
}

/// The rules of all sheets, and the first definition of each colour.
pub struct Rules {
    pub all: Vec<Item>,
    definitions: BTreeMap<String, String>,
}

pub fn rules() -> &'static Rules {
    static RULES: OnceLock<Rules> = OnceLock::new();
    RULES.get_or_init(|| {
        let mut rules = Rules { all: Vec::new(), definitions: BTreeMap::new() };
        for item in texts().iter().flat_map(|sheet| items(sheet)) {
            match item.defines {
                Some(name) => drop(rules.definitions.entry(name).or_insert(item.text)),
                None if !item.imports => rules.all.push(item),
                None => {}
            }
        }
        rules
    })
}

impl Rules {
    /// The definitions that a rule needs and the text has not yet.
    pub fn defining<'a>(&self, rule: &'a Item, defined: &mut BTreeSet<&'a str>) -> String {
        let fresh = rule.uses.iter().filter(|name| defined.insert(name));
        // a name that is used in a `colors` block alone has no definition
        fresh.filter_map(|name| self.definitions.get(name)).map(String::as_str).collect()
    }

    /// A sheet of these rules, each behind the definitions that it needs.
    pub fn sheet<'a>(&self, rules: impl Iterator<Item = &'a Item>) -> String {
        let mut defined = BTreeSet::new();
        rules.map(|rule| self.defining(rule, &mut defined) + &rule.text).collect()
    }
}

/// Reads every sheet with the original's parser; false if it refuses one.
pub fn check() -> bool {
    let mut good = true;
    for (name, text) in names().iter().zip(texts()) {
        match parser::parse_file(&directory(), name) {
            Ok(rules) => println!("sheet {name}: {} bytes, {} rules", text.len(), rules.len()),
            Err(error) => {
                println!("sheet {name}: the original refuses it: {error:#}");
                good = false;
            }
        }
    }
    good
}
