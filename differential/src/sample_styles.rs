//! The sample of styles and of drawing lists. README.md has the formats.

use crate::bundles;
use crate::draw_cases::{self, random_call};
use crate::draw_run;
use crate::draws::{self, Call};
use crate::entities::{self, Entity};
use crate::load_cases::random_bundle;
use crate::load_run::Files;
use crate::loads::Refusal;
use crate::map_cases::{damaged, layouts};
use crate::map_run::Sheet;
use crate::random::Random;
use crate::sample::{put_part, refused, Pack, ENTRIES_LENT};
use crate::style_cases::{
    dense_sheet, settings, style_entity, style_sheet, tied_sheet, EXAMPLES, INFINITE, LEVELS, NAN,
};
use crate::style_run;
use crate::style_tally;
use crate::styles::{Answer, Settings};
use crate::tally::Tally as _;
use crate::tokens::{bits, put};
use std::collections::BTreeSet;
use std::path::Path;

/// Random cases are small, so that many of them fit.
const BUNDLE_BYTES: usize = 220;
const STREAM_BYTES: usize = 150;
const LIST_ENTRIES: usize = 30;
/// No random case begins another file than these.
const FILES: usize = 2;

fn put_settings(out: &mut Vec<u8>, settings: &Settings) {
    out.push(settings.style_type);
    out.push(u8::from(!settings.font.is_empty()));
    out.extend(settings.font.first().map_or(0, |&x| bits(x)).to_le_bytes());
}

/// Only the first element of a font counts.
fn few_settings(r: &mut Random) -> Settings {
    let mut settings = settings(r);
    settings.font.truncate(1);
    settings
}

fn few_entries(sheet: &Sheet) -> bool {
    sheet.handed.counts.iter().all(|&n| n <= ENTRIES_LENT as u64)
}

fn style_answer(answer: &Answer) -> Vec<u8> {
    let rows = match answer {
        Ok(rows) => rows,
        Err(refusal) => return refused(refusal),
    };
    let mut out = vec![0, rows.len() as u8];
    for row in rows {
        row.words.iter().for_each(|&word| out.extend(u32::try_from(word).unwrap().to_le_bytes()));
        row.floats.iter().for_each(|float| out.extend(float.to_le_bytes()));
        out.extend(row.layer.to_le_bytes());
    }
    out
}

#[derive(Default)]
struct StyleSample {
    pack: Pack,
    tally: style_tally::Tally,
    refused: BTreeSet<u64>,
}

impl StyleSample {
    fn case(&mut self, sheet: &mut Sheet, zoom: u8, settings: &Settings, entity: &[u8]) -> Vec<u8> {
        assert!(few_entries(sheet));
        let expected = style_run::expected(sheet, entity, zoom, settings, &mut self.tally);
        self.refused.extend(expected.as_ref().err().map(|refusal| refusal[0]));
        let mut case = Vec::new();
        put_part(&mut case, &sheet.bundle);
        case.push(zoom);
        put_settings(&mut case, settings);
        put_part(&mut case, entity);
        put_part(&mut case, &style_answer(&expected));
        case
    }

    fn call(&mut self, sheet: &mut Sheet, zoom: u8, settings: &Settings, entity: &[u8]) {
        let case = self.case(sheet, zoom, settings, entity);
        self.pack.add(&case);
    }
}

fn way(tags: &[(&str, &str)]) -> Vec<u8> {
    let tags = tags.iter().map(|(key, value)| (key.as_bytes().to_vec(), value.as_bytes().to_vec())).collect();
    entities::bytes(&Entity { kind: 1, id: 1, tags })
}

/// The written cases.
fn written_styles(sample: &mut StyleSample, files: &mut Files) {
    let mut load = |text: &str| Sheet::load(files, bundles::single(text)).expect("a written sheet");
    for (text, kind, tags, style_type, font, _) in EXAMPLES {
        let mut entity = way(tags);
        entity[0] = kind;
        let settings = Settings { style_type, font: font[..font.len().min(1)].to_vec() };
        sample.call(&mut load(text), 13, &settings, &entity);
    }
    let josm = Settings::default();
    let mut any = load("way{}");
    for (text, _) in LEVELS {
        sample.call(&mut any, 13, &josm, &way(&[("layer", text)]));
    }
    let small = |bytes: &Vec<u8>| bytes.len() <= STREAM_BYTES;
    for (bytes, _) in layouts().into_iter().filter(|(bytes, _)| small(bytes)) {
        sample.call(&mut any, 0, &josm, &bytes);
    }
    let layers = |n: usize| (0..n).map(|k| format!("way::l{k}{{width:{k};}}")).collect::<String>();
    let names = |n: usize| format!("way{{{}}}", (0..n).map(|k| format!("p{k}:1;")).collect::<String>());
    for text in [layers(32), layers(33), names(127) + "way{width:5;}", names(129)] {
        sample.call(&mut load(&text), 0, &josm, &way(&[]));
    }
    sample.call(&mut load("way[a<5]{}"), 0, &josm, &way(&[("a", "9007199254740992")]));
    for number in [INFINITE(), format!("-{}", INFINITE()), NAN()] {
        let mut sheet = load(&format!("way{{z-index:{number};width:{number};casing-width:-1;}}"));
        sample.call(&mut sheet, 0, &josm, &way(&[]));
    }
}

const REFUSED: [u64; 5] = [2, 7, 8, 23, 24];

fn write_styles(directory: &Path, seed: u64, count: u64) -> bool {
    let mut sample = StyleSample::default();
    let mut files = Files::new();
    written_styles(&mut sample, &mut files);
    let most = sample.pack.cases + count;
    let mut index = 0;
    while sample.pack.cases < most {
        let r = &mut Random::new(seed, index);
        index += 1;
        let bundle = match r.below(8) {
            0 => random_bundle(r),
            1..=2 => bundles::single(&style_sheet(r)),
            _ => bundles::single(&dense_sheet(r)),
        };
        if bundle.len() > BUNDLE_BYTES {
            continue;
        }
        let Some(mut sheet) = Sheet::load(&mut files, bundle) else { continue };
        let (entity, zoom) = style_entity(r, &sheet.load);
        let bytes = if r.one_in(20) { damaged(r, &entity) } else { entities::bytes(&entity) };
        if bytes.len() > STREAM_BYTES {
            continue;
        }
        let settings = few_settings(r);
        let other = style_run::expected(&mut sheet, &bytes, zoom, &settings, &mut style_tally::Tally::default())
            .is_ok_and(|rows| rows.len() != 1);
        // few without layers or with several
        if other && !r.one_in(8) {
            continue;
        }
        let case = sample.case(&mut sheet, zoom, &settings, &bytes);
        if !sample.pack.fits(&case, FILES) {
            break;
        }
        sample.pack.add(&case);
    }
    sample.pack.write(directory, "styles");
    // no bundle that loads has 22, and few cases have many layers: not all counts must come up
    sample.tally.print("styles");
    REFUSED.iter().all(|number| sample.refused.contains(number))
}

fn draw_answer(answer: &draws::Answer) -> Vec<u8> {
    let list = match answer {
        Ok(list) => list,
        Err(refusal) => return refused(refusal),
    };
    let mut out = vec![0];
    put(&mut out, list.len());
    list.iter().flatten().for_each(|&n| put(&mut out, n as usize));
    out
}

#[derive(Default)]
struct DrawSample {
    pack: Pack,
    tally: draws::Tally,
    refused: BTreeSet<u64>,
}

impl DrawSample {
    fn case(&mut self, sheet: &mut Sheet, call: &Call) -> Vec<u8> {
        assert!(few_entries(sheet));
        let expected = draw_run::expected(sheet, call, &mut self.tally);
        self.refused.extend(expected.as_ref().err().map(|refusal: &Refusal| refusal[0]));
        let mut case = Vec::new();
        put_part(&mut case, &sheet.bundle);
        case.push(call.zoom);
        put_settings(&mut case, &call.settings);
        case.push(u8::from(call.for_labels));
        case.push(call.streams.len() as u8 - 1);
        put(&mut case, call.lent);
        call.streams.iter().for_each(|stream| put_part(&mut case, stream));
        put_part(&mut case, &draw_answer(&expected));
        case
    }

    fn call(&mut self, sheet: &mut Sheet, call: &Call) {
        let case = self.case(sheet, call);
        self.pack.add(&case);
    }
}

const REFUSED_LISTS: [u64; 7] = [2, 7, 8, 9, 23, 24, 25];

/// The written cases: the examples, every length of a list up to just enough, 4,096 entries and more, and refusals of the
/// walk in both streams.
fn written_draws(sample: &mut DrawSample, files: &mut Files) {
    let mut load = |text: &str| Sheet::load(files, bundles::single(text)).expect("a written sheet");
    for example in draw_cases::examples() {
        sample.call(&mut load(&example.sheet), &example.call());
    }
    let area = |kind: u8, id: u64, tags: &[(&str, &str)]| {
        let tags = tags.iter().map(|(key, value)| (key.as_bytes().to_vec(), value.as_bytes().to_vec())).collect();
        entities::bytes(&Entity { kind, id, tags })
    };
    let call = |ways: &[Vec<u8>], multipolygons: &[Vec<u8>], lent: usize| Call {
        zoom: 13,
        settings: Settings::default(),
        for_labels: false,
        streams: vec![ways.concat(), multipolygons.concat()],
        lent,
    };
    let mut two = load("way{z-index:2;}way::x[layer]{z-index:-0;}way::y{z-index:0;}");
    for lent in 0..=26 {
        let ways = [area(1, 3, &[]), area(2, 3, &[("layer", "1")])];
        sample.call(&mut two, &call(&ways, &[area(2, 3, &[("layer", "0")])], lent));
    }
    let layers = |n: usize| (0..n).map(|k| format!("way::l{k}{{}}")).collect::<String>();
    for (n, lent) in [(128, 12_288), (128, 12_287), (129, 15_000)] {
        sample
            .call(&mut load(&layers(32)), &call(&[area(1, 7, &[]).repeat(n - 9)], &[area(2, 7, &[]).repeat(9)], lent));
    }
    let names = format!("way[a]{{{}}}", (0..129).map(|k| format!("p{k}:1;")).collect::<String>());
    let many = layers(33).replace("way", "way[a]");
    for (text, value) in [("way[a<5]{}", "9007199254740992"), (&names, ""), (&many, "")] {
        let mut sheet = load(text);
        let wrong = area(2, 1, &[("a", value)]);
        let good = area(2, 1, &[]);
        sample.call(&mut sheet, &call(&[good.clone(), wrong.clone()], &[wrong.clone()], 99));
        sample.call(&mut sheet, &call(&[good.clone()], &[good.clone(), good.clone(), wrong], 99));
    }
    let good = area(1, 1, &[]);
    for broken in [&b"\x01\x01\x01\x01\xff\x00"[..], b"\x01\x01\x02\x01b\x00\x01a\x00", b"\x03\x01\x00", b"\x01"] {
        sample.call(&mut two, &call(&[good.clone(), broken.to_vec(), good.clone()], &[], 99));
        sample.call(&mut two, &call(&[good.clone()], &[good.clone(), broken.to_vec()], 99));
    }
}

fn write_draws(directory: &Path, seed: u64, count: u64) -> bool {
    let mut sample = DrawSample::default();
    let mut files = Files::new();
    written_draws(&mut sample, &mut files);
    let most = sample.pack.cases + count;
    let mut index = 0;
    while sample.pack.cases < most {
        let r = &mut Random::new(seed, index);
        index += 1;
        let bundle = if r.one_in(2) { tied_sheet(r) } else { style_sheet(r) };
        let bundle = bundles::single(&bundle);
        if bundle.len() > BUNDLE_BYTES {
            continue;
        }
        let Some(mut sheet) = Sheet::load(&mut files, bundle) else { continue };
        let mut call = random_call(r, &sheet);
        call.settings.font.truncate(1);
        let answer = draw_run::expected(&mut sheet, &call, &mut draws::Tally::default());
        let entries = answer.as_ref().map_or(1, |list| list.len());
        let bytes: usize = call.streams.iter().map(Vec::len).sum();
        let small = bytes <= STREAM_BYTES && entries <= LIST_ENTRIES && call.lent < 16_384;
        // few without entries
        if !small || entries == 0 && !r.one_in(8) {
            continue;
        }
        let case = sample.case(&mut sheet, &call);
        if !sample.pack.fits(&case, FILES) {
            break;
        }
        sample.pack.add(&case);
    }
    sample.pack.write(directory, "draws");
    // no bundle that loads has 22, and few lists are long: not all counts must come up
    sample.tally.print("draws");
    REFUSED_LISTS.iter().all(|number| sample.refused.contains(number))
}

/// `count` random styles and twice as many drawing lists, if there is room for them, behind those that are written down;
/// every refusal that a loaded sheet can give must come up.
pub fn write(directory: &Path, seed: u64, count: u64) -> bool {
    let styles = write_styles(directory, seed, count);
    write_draws(directory, seed, 2 * count) && styles
}
