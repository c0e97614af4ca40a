//! A sample of the original's answers, for a replay without Rust. README.md has the formats.

use crate::bundles;
use crate::cases::{all_short, long_numbers, random_case, EXAMPLES};
use crate::entities::{self, Entity};
use crate::load_cases::{random_bundle, ENTRIES};
use crate::load_run::{examples, model_is_original, random_lent, Files, ALL};
use crate::loads::{self, stride, Filled, Lent, Refusal, NUMBERS};
use crate::map_cases::{damaged, layouts, limits, random_entity, NUMBERS_READ};
use crate::map_run::{self, Sheet};
use crate::maps::{self, Tally};
use crate::model;
use crate::plates;
use crate::random::Random;
use crate::sample_styles;
use crate::sheets;
use crate::tally::Tally as _;
use crate::tokens::{self, put, Counts};
use std::collections::BTreeSet;
use std::fs;
use std::path::Path;

const FILE_BYTES: usize = 60_000;
const TEXT_BYTES: usize = 160;
const BUNDLE_BYTES: usize = 600;
const ENTITY_BYTES: usize = 600;
/// What a replay lends at most: entries of a table.
pub const ENTRIES_LENT: usize = 512;

/// Cases in files NAME0, NAME1, ..
#[derive(Default)]
pub struct Pack {
    files: Vec<Vec<u8>>,
    pub cases: u64,
}

impl Pack {
    /// Whether there is room for a case in so many files.
    pub fn fits(&self, case: &[u8], files: usize) -> bool {
        self.files.len() < files || self.files[files - 1].len() + case.len() <= FILE_BYTES
    }

    pub fn add(&mut self, case: &[u8]) {
        if self.files.last().is_none_or(|file| file.len() + case.len() > FILE_BYTES) {
            self.files.push(Vec::new());
        }
        self.files.last_mut().unwrap().extend(case);
        self.cases += 1;
    }

    pub fn write(&self, directory: &Path, name: &str) {
        fs::create_dir_all(directory).unwrap();
        let path = |number: usize| directory.join(format!("{name}{number}"));
        // what an earlier, larger sample left
        (self.files.len()..).take_while(|&number| fs::remove_file(path(number)).is_ok()).for_each(drop);
        for (number, file) in self.files.iter().enumerate() {
            fs::write(path(number), file).unwrap();
            println!("{name}{number}: {} bytes", file.len());
        }
        println!("{} cases", self.cases);
    }
}

#[derive(Default)]
struct Sample {
    pack: Pack,
    counts: Counts,
}

impl Sample {
    fn text(&mut self, text: &str) {
        let steps = tokens::original(text);
        let mut case = Vec::new();
        put_part(&mut case, text.as_bytes());
        put_part(&mut case, &tokens::bytes(&steps));
        self.pack.add(&case);
        self.counts.add(&steps);
    }
}

pub fn put_part(out: &mut Vec<u8>, part: &[u8]) {
    put(out, part.len());
    out.extend(part);
}

/// The examples, long numbers, all texts of up to 2 characters and `count` random ones of the seed; and a tenth as many
/// random loads, property maps, inputs of plate, styles and drawing lists, behind those that are written down.
pub fn write(directory: &Path, seed: u64, count: u64) -> bool {
    let mut sample = Sample::default();
    EXAMPLES.iter().for_each(|text| sample.text(text));
    long_numbers().iter().for_each(|text| sample.text(text));
    all_short("", 2, &mut |text| sample.text(text));
    let sheets = sheets::texts();
    let random = (0..).map(|index| random_case(&mut Random::new(seed, index), sheets));
    random.filter(|text| text.len() <= TEXT_BYTES).take(count as usize).for_each(|text| sample.text(&text));
    sample.pack.write(directory, "tokens");
    let tokens_met = sample.counts.print("tokens");
    let loads_met = write_loads(directory, seed, count / 10);
    write_maps(directory, seed, count / 10);
    let plates_met = write_plates(directory, seed, count / 10);
    sample_styles::write(directory, seed, count / 10) && plates_met && loads_met && tokens_met
}

struct LoadSample {
    pack: Pack,
    counts: loads::Counts,
    files: Files,
}

impl LoadSample {
    fn load(&mut self, bundle: &[u8], lent: &Lent) {
        let expected = model::load(bundle, lent);
        assert!(model_is_original(&mut self.files, bundle, &expected), "the model is not the original");
        let mut case = Vec::new();
        put_part(&mut case, bundle);
        lent.iter().for_each(|&elements| put(&mut case, elements));
        put_part(&mut case, &answer(&expected));
        self.pack.add(&case);
        self.counts.add(&expected);
    }

    /// With a little more room than the load takes.
    fn with_room(&mut self, bundle: &[u8]) {
        let reached = model::load_partly(bundle, &ALL).1;
        let enough = reached.just_enough();
        self.load(bundle, &std::array::from_fn(|table| enough[table] + stride(table) + stride(table) / 2));
    }
}

/// A refusal in a sample.
pub fn refused([number, reason, text, line, character]: &Refusal) -> Vec<u8> {
    let mut out = [number, reason, text].map(|&n| u8::try_from(n).unwrap()).to_vec();
    put(&mut out, *line as usize);
    put(&mut out, *character as usize);
    out
}

/// A load's answer in a sample; README.md has the format.
fn answer(filled: &Filled) -> Vec<u8> {
    let mut out = Vec::new();
    match filled {
        Err(refusal) => out = refused(refusal),
        Ok(tables) => {
            out.push(0);
            tables.counts().iter().for_each(|&n| put(&mut out, n));
            for table in 0..6 {
                if table == NUMBERS {
                    tables.numbers.iter().for_each(|bits| out.extend(bits.to_le_bytes()));
                } else {
                    tables.entries[table].iter().flatten().for_each(|&word| put(&mut out, word as usize));
                }
            }
        }
    }
    out
}

fn write_loads(directory: &Path, seed: u64, count: u64) -> bool {
    let mut sample = LoadSample { pack: Pack::default(), counts: loads::Counts::default(), files: Files::new() };
    for (bundle, lent, answer) in examples() {
        let few = answer.map_or(true, |counts| counts.iter().all(|&n| n <= 100));
        if bundle.len() > BUNDLE_BYTES || !few {
            continue;
        }
        // those of short tables as they are
        if lent.iter().all(|&elements| elements < 8 * 100) {
            sample.load(&bundle, &lent);
        } else {
            sample.with_room(&bundle);
        }
    }
    // one for each reason of a lexer error, and more
    EXAMPLES.iter().for_each(|text| sample.with_room(&bundles::single(text)));
    for text in ENTRIES {
        let bundle = bundles::single(text);
        let enough = model::load(&bundle, &ALL).expect("a sheet for capacities").just_enough();
        for table in 0..6 {
            for elements in (0..enough[table]).step_by(stride(table)) {
                let mut lent = enough;
                lent[table] = elements;
                sample.load(&bundle, &lent);
            }
        }
        sample.load(&bundle, &enough);
    }
    let fits = |lent: &Lent| (0..6).all(|table| lent[table] <= ENTRIES_LENT * stride(table));
    let random = (0..).map(|index| {
        let r = &mut Random::new(seed, index);
        let bundle = random_bundle(r);
        let lent = random_lent(r, &bundle);
        (bundle, lent)
    });
    let random = random.filter(|(bundle, lent)| bundle.len() <= BUNDLE_BYTES && fits(lent));
    random.take(count as usize).for_each(|(bundle, lent)| sample.load(&bundle, &lent));
    sample.pack.write(directory, "loads");
    sample.counts.print("loads")
}

#[derive(Default)]
struct MapSample {
    pack: Pack,
    tally: Tally,
}

impl MapSample {
    fn call(&mut self, sheet: &Sheet, zoom: u8, entity: &[u8]) {
        let expected = match entities::check(entity) {
            Ok(entity) => sheet.expected(&entity, zoom, &mut self.tally),
            Err(_) => maps::model(&sheet.bundle, &sheet.handed, zoom, entity, &mut self.tally),
        };
        let mut case = Vec::new();
        put_part(&mut case, &sheet.bundle);
        case.push(zoom);
        put_part(&mut case, entity);
        put_part(&mut case, &map_answer(&expected));
        self.pack.add(&case);
    }
}

/// An answer of property maps in a sample; README.md has the format.
fn map_answer(answer: &maps::Answer) -> Vec<u8> {
    let layers = match answer {
        Ok(layers) => layers,
        Err(refusal) => return refused(refusal),
    };
    let mut out = vec![0, layers.len() as u8];
    for layer in layers {
        put(&mut out, layer.selector as usize);
        out.push(layer.properties.len() as u8);
        layer.properties.iter().for_each(|&n| put(&mut out, n as usize));
    }
    out
}

/// The written cases.
fn written_maps(sample: &mut MapSample, files: &mut Files) {
    let mut load = |text: &str| Sheet::load(files, bundles::single(text)).expect("a written sheet");
    let way = |tag: Option<(&str, &str)>| {
        let tags = tag.map(|(key, value)| (key.as_bytes().to_vec(), value.as_bytes().to_vec()));
        entities::bytes(&Entity { kind: 1, id: 1, tags: tags.into_iter().collect() })
    };
    for (text, tag, _) in map_run::EXAMPLES {
        sample.call(&load(text), 13, &way(tag));
    }
    for (text, _) in limits() {
        sample.call(&load(&text), 0, &way(None));
    }
    for (text, _) in NUMBERS_READ {
        for test in ["<5", ">=-0"] {
            sample.call(&load(&format!("way[a{test}]{{b:1;}}")), 0, &way(Some(("a", text))));
        }
    }
    let any = load("way[a]{b:1;}");
    for (bytes, _) in layouts().into_iter().filter(|(bytes, _)| bytes.len() <= ENTITY_BYTES) {
        sample.call(&any, 0, &bytes);
    }
}

fn write_maps(directory: &Path, seed: u64, count: u64) {
    let mut sample = MapSample::default();
    let mut files = Files::new();
    written_maps(&mut sample, &mut files);
    let most = sample.pack.cases + count;
    let mut index = 0;
    while sample.pack.cases < most {
        let r = &mut Random::new(seed, index);
        index += 1;
        let bundle = random_bundle(r);
        if bundle.len() > BUNDLE_BYTES {
            continue;
        }
        let Some(sheet) = Sheet::load(&mut files, bundle) else { continue };
        let (entity, zoom) = random_entity(r, &sheet.load);
        let bytes = if r.one_in(20) { damaged(r, &entity) } else { entities::bytes(&entity) };
        let few = sheet.handed.counts.iter().all(|&n| n <= ENTRIES_LENT as u64);
        let answer = maps::model(&sheet.bundle, &sheet.handed, zoom, &bytes, &mut Tally::default());
        // few without layers
        let wanted = answer.map_or(true, |layers| !layers.is_empty()) || r.one_in(8);
        if few && wanted && bytes.len() <= ENTITY_BYTES {
            sample.call(&sheet, zoom, &bytes);
        }
    }
    sample.pack.write(directory, "maps");
    // no bundle that loads has 22, and few cases have many layers: not all counts must come up
    sample.tally.print("maps");
}

#[derive(Default)]
struct PlateSample {
    pack: Pack,
    tally: Tally,
    refused: BTreeSet<u64>,
}

impl PlateSample {
    fn input(&mut self, input: &[u8]) {
        let mut case = Vec::new();
        put_part(&mut case, input);
        put_part(&mut case, &plates::printed(input, &mut self.tally, &mut self.refused));
        self.pack.add(&case);
    }

    fn sheet(&mut self, text: &str, entity: &[u8]) {
        self.input(&plates::input(13, &bundles::single(text), entity));
    }
}

/// Every refusal that plate can give: no load's tables are 22, and it makes no styles.
const REFUSED_BY_PLATE: [u64; 12] = [1, 2, 3, 4, 5, 6, 7, 8, 20, 21, 23, 24];

fn write_plates(directory: &Path, seed: u64, count: u64) -> bool {
    let mut sample = PlateSample::default();
    let way = |tag: Option<(&str, &str)>| {
        let tags = tag.map(|(key, value)| (key.as_bytes().to_vec(), value.as_bytes().to_vec()));
        entities::bytes(&Entity { kind: 1, id: 1, tags: tags.into_iter().collect() })
    };
    let plain = way(None);
    sample.sheet("way::*{width:1;} way::c{color:red;} way::*{width:3;}", &plain);
    // framing: nothing, no number, a number that is too long, or not the shortest, and one byte too few
    for input in [&[][..], &[13], &[13, 128], &[13, 128, 0], &[13, 255, 255, 255, 255, 31], &[13, 1]] {
        sample.input(input);
    }
    let framed = plates::input(13, &bundles::single("way{a:1;}"), &plain);
    (0..=framed.len()).for_each(|length| sample.input(&framed[..length]));
    // the longest input, and one byte more: blanks in a sheet
    for over in [0, 1] {
        let blanks = |n: usize| plates::input(13, &bundles::single(&("way{a:1;}".to_owned() + &" ".repeat(n))), &plain);
        let others = blanks(59_900).len() - 59_900;
        sample.input(&blanks(plates::MOST_BYTES - others + over));
    }
    for (text, tag, _) in map_run::EXAMPLES {
        sample.sheet(text, &way(tag));
    }
    EXAMPLES.iter().for_each(|text| sample.sheet(text, &plain));
    limits().iter().for_each(|(text, _)| sample.sheet(text, &plain));
    for (bundle, _, _) in examples().into_iter().filter(|(bundle, _, _)| bundle.len() <= BUNDLE_BYTES) {
        sample.input(&plates::input(13, &bundle, &plain));
    }
    sample.sheet(&"way{}".repeat(513), &plain);
    for (bytes, _) in layouts().into_iter().filter(|(bytes, _)| bytes.len() <= ENTITY_BYTES) {
        sample.sheet("way[a]{b:1;}", &bytes);
    }
    let mut files = Files::new();
    let mut index = 0;
    let most = sample.pack.cases + count;
    while sample.pack.cases < most {
        let r = &mut Random::new(seed, index);
        index += 1;
        let bundle = random_bundle(r);
        if bundle.len() > BUNDLE_BYTES {
            continue;
        }
        let Some(sheet) = Sheet::load(&mut files, bundle) else { continue };
        let (entity, zoom) = random_entity(r, &sheet.load);
        let bytes = if r.one_in(20) { damaged(r, &entity) } else { entities::bytes(&entity) };
        if bytes.len() <= ENTITY_BYTES {
            sample.input(&plates::input(zoom, &sheet.bundle, &bytes));
        }
    }
    sample.pack.write(directory, "plates");
    println!("refused: {:?}", sample.refused);
    REFUSED_BY_PLATE.iter().all(|number| sample.refused.contains(number))
}
