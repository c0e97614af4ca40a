//! The comparison of loads over all cases.

use crate::bundles;
use crate::cases;
use crate::load_cases::{
    all_sequences, full, import_examples, layouts, one_byte, random_bundle, short_imports, BEGINNINGS, ENTRIES,
    EXAMPLES, FULL, IMPORTED, SHORT_TABLES, TOKENS,
};
use crate::loads::{decode, stride, Counts, Filled, Lent, Load, Refusal, MOST_ENTRIES, NUMBERS, TABLES};
use crate::mapcss::parser::probe;
use crate::mapcss::parser::Rule;
use crate::model;
use crate::random::Random;
use crate::run::{shrunk, Part, Plan, Run, Tries};
use crate::sheets;
use std::fs;
use std::path::{Path, PathBuf};
use std::sync::atomic::{AtomicUsize, Ordering};

/// Room for every sheet that can be loaded.
pub const ALL: Lent =
    [8 * MOST_ENTRIES, 8 * MOST_ENTRIES, 8 * MOST_ENTRIES, 8 * MOST_ENTRIES, MOST_ENTRIES, 8 * MOST_ENTRIES];

/// Room for the written examples; a table need not be of whole entries.
const ENOUGH: Lent = [8 * 600, 8 * 600 + 1, 8 * 600 + 7, 8 * 600 + 3, 600, 8 * 600];

/// The directory from which the original imports: the texts of one bundle behind its first. It is made for the first of
/// them.
pub struct Files {
    directory: PathBuf,
    held: Vec<(String, String)>,
    made: bool,
}

impl Default for Files {
    fn default() -> Files {
        static NUMBER: AtomicUsize = AtomicUsize::new(0);
        let memory = Path::new("/dev/shm");
        let parent = if memory.is_dir() { memory.to_path_buf() } else { std::env::temp_dir() };
        let number = NUMBER.fetch_add(1, Ordering::Relaxed);
        let directory = parent.join(format!("differential-{}-{number}", std::process::id()));
        Files { directory, held: Vec::new(), made: false }
    }
}

impl Files {
    pub fn new() -> Files {
        Files::default()
    }

    fn hold(&mut self, texts: &[(&str, &str)]) {
        if self.held.iter().map(|(name, text)| (&name[..], &text[..])).eq(texts.iter().copied()) {
            return;
        }
        if !self.made {
            fs::create_dir(&self.directory).unwrap();
            self.made = true;
        }
        for (name, _) in self.held.drain(..) {
            fs::remove_file(self.directory.join(name)).unwrap();
        }
        for (name, text) in texts {
            fs::write(self.directory.join(name), text).unwrap();
            self.held.push((name.to_string(), text.to_string()));
        }
    }

    /// Holds what the first text may import; none where a name is none of a file, or names one by a way.
    fn hold_imports(&mut self, texts: &[(&str, &str)]) -> Option<()> {
        if texts[0].1.contains("@import") {
            let no_file = |name: &str| name.contains(['/', '\0']) || [".", ".."].contains(&name);
            if texts.iter().any(|(name, text)| no_file(name) || text.contains("\"./")) {
                return None;
            }
            self.hold(&texts[1..]);
        }
        Some(())
    }
}

impl Drop for Files {
    fn drop(&mut self) {
        if self.made {
            let _ = fs::remove_dir_all(&self.directory);
        }
    }
}

/// Whether the answer is a refusal that the original does not have.
fn engine_alone(expected: &Filled) -> bool {
    matches!(expected, Err([1 | 2 | 6 | 20 | 21, ..]))
}

/// What the original answers where it has an answer: not to refusals that only the engine has, and not where a
/// name is none of a file. It must not be asked where the model has 21: it would overrun its stack on a cycle.
pub fn original(files: &mut Files, bundle: &[u8], expected: &Filled) -> Option<Result<Load, Refusal>> {
    if engine_alone(expected) {
        return None;
    }
    let texts = bundles::texts(bundle);
    let names: Vec<&str> = texts.iter().map(|text| text.0).collect();
    files.hold_imports(&texts)?;
    Some(probe::load(&files.directory, &names, texts[0].1))
}

/// The original's rules of a bundle that loads, where it has an answer.
pub fn original_rules(files: &mut Files, bundle: &[u8]) -> Option<Vec<Rule>> {
    let texts = bundles::texts(bundle);
    files.hold_imports(&texts)?;
    Some(probe::parse(&files.directory, texts[0].0, texts[0].1).expect("the model has loaded it"))
}

/// How the original's answer and another differ.
fn apart(original: &Result<Load, Refusal>, other: &Result<Load, Refusal>) -> Option<String> {
    let same = match (original, other) {
        // it does not say which text holds an import that failed
        (Err([5, _, _, line, character]), Err(mine)) => {
            mine[..2] == [5, 0] && (mine[2] > 0 || mine[3..] == [*line, *character])
        }
        _ => original == other,
    };
    (!same).then(|| format!("\n  original {}\n  other    {}", said(original), said(other)))
}

fn said(answer: &Result<Load, Refusal>) -> String {
    match answer {
        Err(refusal) => format!("refused {refusal:?}"),
        Ok(load) => cut(&format!("{load:?}")).to_string(),
    }
}

/// As much of a text as is printed.
pub fn cut(text: &str) -> &str {
    let end = (0..=text.len().min(2000)).rev().find(|&n| text.is_char_boundary(n)).unwrap();
    &text[..end]
}

/// How two fillings of the tables differ.
fn words_apart(model: &Filled, ours: &Filled) -> Option<String> {
    if model == ours {
        return None;
    }
    let (a, b) = match (model, ours) {
        (Ok(a), Ok(b)) => (a, b),
        _ => {
            let said = |filled: &Filled| match filled {
                Ok(tables) => format!("loaded {:?}", tables.counts()),
                Err(refusal) => format!("refused {refusal:?}"),
            };
            return Some(format!("\n  expected {}\n  ours     {}", said(model), said(ours)));
        }
    };
    for table in 0..6 {
        for n in 0..a.count(table).max(b.count(table)) {
            let differing = if table == NUMBERS {
                let (x, y) = (a.numbers.get(n), b.numbers.get(n));
                (x != y).then(|| format!("\n  expected {x:x?}\n  ours     {y:x?}"))
            } else {
                let (x, y) = (a.entries[table].get(n), b.entries[table].get(n));
                (x != y).then(|| format!("\n  expected {x:?}\n  ours     {y:?}"))
            };
            if let Some(what) = differing {
                return Some(format!("{}, entry {n}{what}", TABLES[table]));
            }
        }
    }
    None
}

#[cfg(feature = "rattle")]
pub fn ours(bundle: &[u8], lent: &Lent) -> Option<Result<Filled, String>> {
    Some(crate::ffi::load(bundle, lent))
}

#[cfg(not(feature = "rattle"))]
pub fn ours(_: &[u8], _: &Lent) -> Option<Result<Filled, String>> {
    None
}

/// Whether the model answers as the original does, or the original has no answer.
pub fn model_is_original(files: &mut Files, bundle: &[u8], expected: &Filled) -> bool {
    let model = match expected {
        Ok(tables) => decode(tables, bundle).map(Ok).expect("the model's tables"),
        Err(refusal) => Err(*refusal),
    };
    original(files, bundle, expected).is_none_or(|original| apart(&original, &model).is_none())
}

/// Whether the original has an answer, and what is wrong with a case, if anything is.
fn judged(files: &mut Files, bundle: &[u8], lent: &Lent, expected: &Filled) -> (bool, Option<String>) {
    let original = original(files, bundle, expected);
    (original.is_some(), difference(original.as_ref(), bundle, lent, expected))
}

fn difference(
    original: Option<&Result<Load, Refusal>>,
    bundle: &[u8],
    lent: &Lent,
    expected: &Filled,
) -> Option<String> {
    let as_values = |filled: &Filled| match filled {
        Ok(tables) => decode(tables, bundle).map(Ok),
        Err(refusal) => Ok(Err(*refusal)),
    };
    if let Some(original) = original {
        let model = as_values(expected).expect("the model's tables");
        if let Some(what) = apart(original, &model) {
            return Some(format!("the model is not the original:{what}"));
        }
    }
    let ours = match ours(bundle, lent)? {
        Ok(filled) => filled,
        Err(what) => return Some(format!("our call: {what}")),
    };
    if let Some(what) = words_apart(expected, &ours) {
        return Some(format!("our tables: {what}"));
    }
    match as_values(&ours) {
        Err(what) => Some(format!("our tables: {what}")),
        Ok(ours) => apart(original?, &ours).map(|what| format!("our load: {what}")),
    }
}

impl Part<Counts> {
    pub fn case(&mut self, bundle: &[u8], lent: &Lent) {
        drop(self.answer(bundle, lent));
    }

    /// Compares, and hands back what is expected.
    pub fn answer(&mut self, bundle: &[u8], lent: &Lent) -> Filled {
        let expected = model::load(bundle, lent);
        self.cases += 1;
        self.tally.add(&expected);
        let (compared, what) = judged(&mut self.files, bundle, lent, &expected);
        self.compared += u64::from(compared);
        if let Some(what) = what {
            let (bundle, lent) = (bundle.to_vec(), *lent);
            self.differs(move || shown(&bundle, &lent, &what));
        }
        expected
    }

    /// A case whose answer is written down.
    fn example(&mut self, bundle: &[u8], lent: &Lent, answer: &Result<[usize; 6], Refusal>) {
        let got = self.answer(bundle, lent).map(|tables| tables.counts());
        if got != *answer {
            let text = bundle.escape_ascii().to_string();
            let text = format!("example {text:?}: expected {answer:?}, the model has {got:?}");
            self.differs(|| text);
        }
    }

    /// Every smaller capacity of each table is 20 with its reason, just enough is success.
    fn capacities(&mut self, bundle: &[u8], step: usize) {
        let enough = match self.answer(bundle, &ALL) {
            Ok(tables) => tables,
            Err(refusal) => panic!("a sheet for capacities is refused: {refusal:?}"),
        };
        for table in 0..6 {
            for entries in (0..enough.count(table)).step_by(step).chain([enough.count(table)]) {
                for stray in [0, stride(table) - 1] {
                    let mut lent = enough.just_enough();
                    lent[table] = entries * stride(table) + stray;
                    let answer = self.answer(bundle, &lent);
                    let good = match answer {
                        Ok(_) => entries == enough.count(table),
                        Err(refusal) => entries < enough.count(table) && refusal[..2] == [20, table as u64 + 1],
                    };
                    assert!(good, "{entries} {} for {}", TABLES[table], enough.count(table));
                }
            }
        }
    }

    /// As many entries as a table may use, and one more.
    fn full(&mut self, table: usize) {
        for entries in FULL {
            let bundle = bundles::single(&full(table, entries));
            let expected: Result<(), u64> = if entries == MOST_ENTRIES { Ok(()) } else { Err(table as u64 + 1) };
            for more in [0, 9] {
                let mut lent: Lent = std::array::from_fn(|table| 2 * stride(table));
                lent[table] = (entries + more) * stride(table) + more;
                let answer = self.answer(&bundle, &lent);
                assert_eq!(answer.map(drop).map_err(|refusal| refusal[1]), expected, "{}", TABLES[table]);
            }
        }
    }

    /// A sheet with room for all, and with just enough.
    fn sheet(&mut self, bundle: &[u8]) {
        if let Ok(tables) = self.answer(bundle, &ALL) {
            self.case(bundle, &tables.just_enough());
        }
    }
}

/// A differing case with its first text cut down as far as it still differs.
fn shown(bundle: &[u8], lent: &Lent, what: &str) -> String {
    if bundles::check(bundle).is_err() {
        let end = bundle.len().min(200);
        return format!("lent {lent:?}, bundle {:?}: {what}", bundle[..end].escape_ascii().to_string());
    }
    let texts = bundles::texts(bundle);
    let with = |text: &str| {
        let mut texts = texts.clone();
        texts[0].1 = text;
        bundles::of(&texts)
    };
    let files = std::cell::RefCell::new(Files::new());
    let differs = |text: &str| {
        let bundle = with(text);
        judged(&mut files.borrow_mut(), &bundle, lent, &model::load(&bundle, lent)).1
    };
    let tries = Tries::new();
    let small = shrunk(texts[0].1, &|text| tries.take() && differs(text).is_some());
    let what = differs(&small).unwrap_or(what.to_string());
    format!("lent {lent:?}, text 0 {:?} of {} texts: {what}", cut(&small), texts.len())
}

/// All cases whose answer is written down.
pub fn examples() -> Vec<(Vec<u8>, Lent, Result<[usize; 6], Refusal>)> {
    let mut all = Vec::new();
    for (text, answer) in EXAMPLES {
        all.push((bundles::single(text), ENOUGH, answer));
    }
    for (bundle, answer) in import_examples().into_iter().chain(layouts()) {
        all.push((bundle, ENOUGH, answer));
    }
    let elements = |entries: [usize; 6]| std::array::from_fn(|table| entries[table] * stride(table));
    for (text, entries, answer) in SHORT_TABLES {
        all.push((bundles::single(text), elements(entries), answer));
    }
    for (bundle, entries, answer) in short_imports() {
        all.push((bundle, elements(entries), answer));
    }
    all
}

/// Tables for a random case: mostly just enough, else with some to spare or one of them too small.
pub fn random_lent(r: &mut Random, bundle: &[u8]) -> Lent {
    let (_, reached) = model::load_partly(bundle, &ALL);
    let mut lent = reached.just_enough();
    let choice = r.below(4);
    for (table, elements) in lent.iter_mut().enumerate() {
        if choice == 0 {
            *elements += r.below(3) * stride(table);
        }
        if choice < 3 {
            *elements += r.below(stride(table));
        }
    }
    if choice == 3 {
        let table = r.below(6);
        lent[table] = r.below(lent[table] + 1);
    }
    lent
}

/// A copy of a sheet with one byte changed, dropped or doubled.
fn damaged_sheet(r: &mut Random) -> Vec<u8> {
    let texts = &sheets::bundles()[r.below(sheets::bundles().len())];
    let mut texts: Vec<(&[u8], Vec<u8>)> =
        texts.iter().map(|(name, text)| (name.as_bytes(), text.clone().into_bytes())).collect();
    // mostly the sheet itself, not what it imports
    let which = if r.one_in(4) { r.below(texts.len()) } else { 0 };
    texts[which].1 = one_byte(r, &texts[which].1);
    bundles::of(&texts)
}

/// All short sequences, the sheets, all capacities, `count` random bundles and a fifth as many damaged sheets.
pub fn plan(plan: &mut Plan, count: u64) {
    plan.one("loads: written", |run| {
        examples().iter().for_each(|(bundle, lent, answer)| run.loads.example(bundle, lent, answer));
        cases::EXAMPLES.iter().for_each(|text| run.loads.case(&bundles::single(text), &ENOUGH));
    });
    let sequences = |beginning: String| {
        move |run: &mut Run| {
            let small: Lent = std::array::from_fn(|table| 4 * stride(table) + stride(table) / 2);
            let mut sequence = |text: &str| run.loads.case(&bundles::of(&[("t0", text), ("t1", IMPORTED)]), &small);
            all_sequences(&beginning, 3, &mut sequence);
        }
    };
    TOKENS.iter().for_each(|token| plan.one("loads: sequences of tokens", sequences(format!(" {token}"))));
    BEGINNINGS.iter().for_each(|text| plan.one("loads: sequences behind a beginning", sequences(text.to_string())));
    for texts in sheets::bundles() {
        plan.one("loads: sheets", |run| run.loads.sheet(&bundles::of(texts)));
    }
    let capacities = "loads: capacities";
    for text in ENTRIES {
        plan.one(capacities, move |run| run.loads.capacities(&bundles::single(text), 1));
    }
    let twice = bundles::of(&[("t0", "@import(\"t1\");@import(\"t1\");way{b:2;}"), ("t1", ENTRIES[0])]);
    plan.one(capacities, move |run| run.loads.capacities(&twice, 1));
    for (name, step) in [("palette.mapcss", 1), ("huts.mapcss", 5)] {
        let texts = sheets::bundles().iter().find(|bundle| bundle[0].0 == name).expect("a sheet");
        plan.one(capacities, move |run| run.loads.capacities(&bundles::of(texts), step));
    }
    (0..6).for_each(|table| plan.one(capacities, move |run| run.loads.full(table)));
    plan.many("loads: random bundles", count, 2_000, |run, r, _| {
        let bundle = random_bundle(r);
        run.loads.case(&bundle, &random_lent(r, &bundle));
    });
    plan.many("loads: damaged sheets", count / 5, 100, |run, r, _| {
        let bundle = damaged_sheet(r);
        run.loads.case(&bundle, &random_lent(r, &bundle));
    });
}
