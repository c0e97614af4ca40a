//! The comparison of styles and of the canvas colour over all cases.

use crate::bundles;
use crate::entities::{self, Entity};
use crate::geodata::reader::probe as reader;
use crate::load_cases::random_bundle;
use crate::load_run::{cut, Files};
use crate::map_cases::{damaged, large, layouts, limits, padded, piece_entity, sound_tables, spoilt, wide_sheet};
use crate::map_run::{spelt, Sheet};
use crate::maps::Handed;
use crate::random::Random;
use crate::run::{shrunk, Part, Plan, Tries};
use crate::sheets;
use crate::style_cases::{settings, style_entity, style_sheet, twisted, CANVAS, EXAMPLES, LEVELS};
use crate::style_tally::Tally;
use crate::styles::{canvas, decode, level, model, Answer, Canvas, Level, Settings, Style};

/// Entities made for one sheet.
const ENTITIES: usize = 8;

/// A small sheet of every property, whose tables are spoilt.
const SPOILT: &str = "way::*{color:red;text:a:b;width:2;} canvas{fill-color:#123;background-color:#456;} \
    way{casing-width:eval(prop(\"width\") 4);dashes:1,2;text-position:line;icon-image:\"i\";font-size:3;z-index:5;}";

#[cfg(feature = "rattle")]
fn ours(
    bundle: &[u8],
    handed: &Handed,
    zoom: u8,
    settings: &Settings,
    entity: &[u8],
) -> Option<Result<Answer, String>> {
    Some(crate::ffi_styles::styles(bundle, handed, zoom, settings, entity))
}

#[cfg(not(feature = "rattle"))]
fn ours(_: &[u8], _: &Handed, _: u8, _: &Settings, _: &[u8]) -> Option<Result<Answer, String>> {
    None
}

#[cfg(feature = "rattle")]
fn our_canvas(bundle: &[u8], handed: &Handed, style_type: u8) -> Option<Result<Canvas, String>> {
    Some(crate::ffi_styles::canvas_color(bundle, handed, style_type))
}

#[cfg(not(feature = "rattle"))]
fn our_canvas(_: &[u8], _: &Handed, _: u8) -> Option<Result<Canvas, String>> {
    None
}

/// How an answer of ours and the model's differ; none where ours is not there.
pub fn unlike<T: PartialEq + std::fmt::Debug>(expected: &T, ours: Option<Result<T, String>>) -> Option<String> {
    match ours? {
        Ok(answer) if answer == *expected => None,
        Ok(answer) => {
            let (expected, answer) = (format!("{expected:?}"), format!("{answer:?}"));
            let at = expected.bytes().zip(answer.bytes()).take_while(|(a, b)| a == b).count();
            // as much as is printed, from a little before the first difference
            let from = at.saturating_sub(500);
            let part = |text: &str| cut(&text.chars().skip(from).collect::<String>()).to_string();
            Some(format!("\n  expected {}\n  ours     {}", part(&expected), part(&answer)))
        }
        Err(what) => Some(format!("our call: {what}")),
    }
}

/// The styled layers with their names; none of a refusal, which the original does not have.
fn values(sheet: &Sheet, answer: &Answer) -> Option<Vec<(String, Style)>> {
    let rows = answer.as_ref().ok()?;
    Some(rows.iter().map(|row| decode(&sheet.bundle, &sheet.handed, row).expect("the model's row")).collect())
}

/// The original's styles of one entity.
fn original(sheet: &mut Sheet, entity: &Entity, zoom: u8, settings: &Settings) -> Option<Vec<(String, Style)>> {
    let numbered = sheet.original.as_mut()?;
    numbered.renew(settings);
    let all = std::slice::from_ref(entity);
    let reader = reader::reader(all);
    let found = reader::entities(&reader, all).remove(0);
    Some(numbered.styles(&found, zoom))
}

/// How the model and the original differ.
fn apart(sheet: &mut Sheet, entity: &Entity, zoom: u8, settings: &Settings, expected: &Answer) -> Option<String> {
    let values = values(sheet, expected)?;
    let original = original(sheet, entity, zoom, settings)?;
    (original != values)
        .then(|| format!("the model is not the original:\n  original {original:?}\n  model    {values:?}"))
}

/// What the model answers; it panics where the original answers otherwise.
pub fn expected(sheet: &mut Sheet, entity: &[u8], zoom: u8, settings: &Settings, tally: &mut Tally) -> Answer {
    let expected = model(&sheet.bundle, &sheet.handed, zoom, settings, entity, tally);
    if let Ok(entity) = entities::check(entity) {
        assert_eq!(apart(sheet, &entity, zoom, settings, &expected), None);
    }
    expected
}

/// Whether the original has an answer, and what is wrong with a case, if anything is.
fn difference(
    sheet: &mut Sheet,
    handed: &Handed,
    entity: &Entity,
    zoom: u8,
    settings: &Settings,
    tally: &mut Tally,
) -> (bool, Option<String>) {
    let bytes = entities::bytes(entity);
    let expected = model(&sheet.bundle, handed, zoom, settings, &bytes, tally);
    let model_differs = apart(sheet, entity, zoom, settings, &expected);
    let what = model_differs.or_else(|| unlike(&expected, ours(&sheet.bundle, handed, zoom, settings, &bytes)));
    (expected.is_ok() && sheet.original.is_some(), what)
}

impl Part<Tally> {
    fn load(&mut self, text: &str) -> Sheet {
        Sheet::load(&mut self.files, bundles::single(text)).expect("a written sheet")
    }

    /// A sheet's tables as loaded, perhaps with more behind the counts.
    pub fn case(&mut self, sheet: &mut Sheet, handed: &Handed, entity: &Entity, zoom: u8, settings: &Settings) {
        self.cases += 1;
        let (compared, what) = difference(sheet, handed, entity, zoom, settings, &mut self.tally);
        self.compared += u64::from(compared);
        if let Some(what) = what {
            let (bundle, entity, settings) = (sheet.bundle.clone(), entity.clone(), settings.clone());
            self.differs(move || shown(&bundle, &entity, zoom, &settings, &what));
        }
    }

    /// Any tables and any bytes: compares ours with the model.
    pub fn call(&mut self, bundle: &[u8], handed: &Handed, zoom: u8, settings: &Settings, entity: &[u8], about: &str) {
        self.cases += 1;
        let expected = model(bundle, handed, zoom, settings, entity, &mut self.tally);
        if let Some(what) = unlike(&expected, ours(bundle, handed, zoom, settings, entity)) {
            let bundle = bundle.escape_ascii();
            let entity = entity[..entity.len().min(200)].escape_ascii();
            let text =
                format!("{about}: zoom {zoom}, {settings:?}, entity {entity}, bundle {bundle}, {handed:?}: {what}");
            self.differs(|| text);
        }
    }

    /// The canvas colour of a sheet as loaded.
    pub fn canvas(&mut self, sheet: &mut Sheet, handed: &Handed, style_type: u8) {
        self.cases += 1;
        let expected = canvas(&sheet.bundle, handed, style_type, &mut self.tally);
        let original = sheet.original.as_mut().map(|numbered| {
            numbered.renew(&Settings { style_type, font: Vec::new() });
            numbered.canvas()
        });
        self.compared += u64::from(original.is_some());
        let wrong = match original {
            Some(original) if expected != Ok(original) => {
                Some(format!("the model is not the original:\n  original {original:?}\n  model    {expected:?}"))
            }
            _ => unlike(&expected, our_canvas(&sheet.bundle, handed, style_type)),
        };
        if let Some(what) = wrong {
            let texts = bundles::texts(&sheet.bundle);
            let text = format!("canvas, style type {style_type}, texts {texts:?}: {what}");
            self.differs(|| text);
        }
    }

    fn any_canvas(&mut self, bundle: &[u8], handed: &Handed, style_type: u8, about: &str) {
        self.cases += 1;
        let expected = canvas(bundle, handed, style_type, &mut self.tally);
        if let Some(what) = unlike(&expected, our_canvas(bundle, handed, style_type)) {
            let bundle = bundle.escape_ascii();
            let text = format!("canvas, {about}: style type {style_type}, bundle {bundle}, {handed:?}: {what}");
            self.differs(|| text);
        }
    }

    /// Some entities for a sheet, and one with a mistake.
    fn entities(&mut self, r: &mut Random, sheet: &mut Sheet, count: usize) {
        for _ in 0..count {
            let (entity, zoom) = style_entity(r, &sheet.load);
            let handed = if r.one_in(3) { padded(r, &sheet.handed) } else { sheet.handed.clone() };
            self.case(sheet, &handed, &entity, zoom, &settings(r));
        }
        let handed = sheet.handed.clone();
        [0, 1, r.below(256) as u8].into_iter().for_each(|style_type| self.canvas(sheet, &handed, style_type));
        if r.one_in(4) {
            let (entity, zoom) = style_entity(r, &sheet.load);
            let bytes = damaged(r, &entity);
            self.call(&sheet.bundle, &handed, zoom, &settings(r), &bytes, "an entity with a mistake");
        }
    }

    /// Each word, number and count of a sheet's tables spoilt in turn, for two entities, one of them with a mistake.
    fn spoils(&mut self, r: &mut Random, sheet: &Sheet) {
        let (entity, zoom) = style_entity(r, &sheet.load);
        let whole = entities::bytes(&entity);
        let broken = damaged(r, &entity);
        spoilt(&sheet.handed, sheet.bundle.len(), &mut |about, handed| {
            let entity = if r.one_in(8) { &broken } else { &whole };
            self.call(&sheet.bundle, handed, zoom, &settings(r), entity, about);
            if r.one_in(4) {
                self.any_canvas(&sheet.bundle, handed, r.below(3) as u8, about);
            }
        });
    }
}

/// A differing case with its first text and its tags cut down as far as it still differs.
fn shown(bundle: &[u8], entity: &Entity, zoom: u8, settings: &Settings, what: &str) -> String {
    let tries = Tries::new();
    let texts = bundles::texts(bundle);
    let files = std::cell::RefCell::new(Files::new());
    let differs = |text: &str, entity: &Entity| {
        let mut texts = texts.clone();
        texts[0].1 = text;
        let mut sheet = Sheet::load(&mut files.borrow_mut(), bundles::of(&texts))?;
        let handed = sheet.handed.clone();
        difference(&mut sheet, &handed, entity, zoom, settings, &mut Tally::default()).1
    };
    let mut entity = entity.clone();
    for k in (0..entity.tags.len()).rev() {
        let mut fewer = entity.clone();
        fewer.tags.remove(k);
        if tries.take() && differs(texts[0].1, &fewer).is_some() {
            entity = fewer;
        }
    }
    let small = shrunk(texts[0].1, &|text| tries.take() && differs(text, &entity).is_some());
    let what = differs(&small, &entity).unwrap_or(what.to_string());
    format!("zoom {zoom}, {settings:?}, {}, text 0 {small:?} of {}: {what}", spelt(&entity), texts.len())
}

/// What a styled layer has, in short.
fn brief((name, style): &(String, Style)) -> String {
    let mut out = name.clone();
    let mut put = |name: &str, value: Option<String>| {
        if let Some(value) = value {
            out += &format!(" {name}{value}");
        }
    };
    let float = |bits: u64| f64::from_bits(bits).to_string();
    let color = |c: [u8; 3]| format!("#{:02x}{:02x}{:02x}", c[0], c[1], c[2]);
    let chosen = |n: u64| (n > 0).then(|| n.to_string());
    let floats = |all: &Vec<u64>| all.iter().map(|&x| float(x)).collect::<Vec<_>>().join(",");
    let quoted = |text: &String| format!("'{text}'");
    put("layer", style.layer.map(|n| n.to_string()));
    put("z", Some(float(style.z_index)));
    put("background", (!style.is_foreground_fill).then(String::new));
    put("color", style.color.map(color));
    put("fill_color", style.fill_color.map(color));
    put("background_color", style.background_color.map(color));
    put("casing_color", style.casing_color.map(color));
    put("opacity", style.opacity.map(float));
    put("fill_opacity", style.fill_opacity.map(float));
    put("width", style.width.map(float));
    put("casing", style.casing_width.map(float));
    put("dashes", style.dashes.as_ref().map(floats));
    put("casing_dashes", style.casing_dashes.as_ref().map(floats));
    put("cap", chosen(style.line_cap));
    put("casing_cap", chosen(style.casing_line_cap));
    put("icon", style.icon_image.as_ref().map(quoted));
    put("fill", style.fill_image.as_ref().map(quoted));
    if let Some(text) = &style.text_style {
        put("text", Some(quoted(&text.text)));
        put("text", text.text_color.map(color));
        put("position", chosen(text.text_position));
        put("size", text.font_size.map(float));
    }
    out
}

impl Part<Tally> {
    fn written(&mut self) {
        for (text, kind, tags, style_type, font, answer) in EXAMPLES {
            let mut sheet = self.load(text);
            let tags = tags.iter().map(|(key, value)| (key.as_bytes().to_vec(), value.as_bytes().to_vec())).collect();
            let entity = Entity { kind, id: 1, tags };
            let settings = Settings { style_type, font: font.to_vec() };
            let handed = sheet.handed.clone();
            self.case(&mut sheet, &handed, &entity, 13, &settings);
            let bytes = entities::bytes(&entity);
            let got = model(&sheet.bundle, &handed, 13, &settings, &bytes, &mut Tally::default());
            let got = values(&sheet, &got).expect("an example's styles");
            let got = got.iter().map(brief).collect::<Vec<_>>().join("|");
            if got != answer {
                self.differs(move || format!("example {text:?}: expected {answer:?}, the model has {got:?}"));
            }
        }
        let mut sheet = self.load("way{} node{} area::x{}");
        let handed = sheet.handed.clone();
        for (text, answer) in LEVELS {
            let read = match level(text.as_bytes()) {
                Level::Is(n) => Some(n),
                _ => None,
            };
            if read != answer || text.parse().ok() != answer {
                self.differs(move || format!("layer {text:?}: expected {answer:?}, the model has {read:?}"));
            }
            for kind in 0..=2 {
                let tags = vec![(b"layer".to_vec(), text.as_bytes().to_vec())];
                self.case(&mut sheet, &handed, &Entity { kind, id: 1, tags }, 13, &Settings::default());
            }
        }
        for (bytes, _) in layouts() {
            self.call(&sheet.bundle, &handed, 0, &Settings::default(), &bytes, "a layout");
        }
        for (text, _) in limits() {
            let mut sheet = self.load(&text);
            let handed = sheet.handed.clone();
            let entity = Entity { kind: 2, id: 1, tags: Vec::new() };
            self.case(&mut sheet, &handed, &entity, 0, &Settings::default());
        }
        for (text, josm, maps_me) in CANVAS {
            let mut sheet = self.load(text);
            let handed = sheet.handed.clone();
            for (style_type, answer) in [(0, josm), (1, maps_me), (2, josm), (255, josm)] {
                self.canvas(&mut sheet, &handed, style_type);
                let got = canvas(&sheet.bundle, &handed, style_type, &mut Tally::default());
                if got != Ok(answer) {
                    self.differs(move || format!("canvas of {text:?}: expected {answer:?}, the model has {got:?}"));
                }
            }
        }
    }

    fn sheet(&mut self, r: &mut Random, bundle: Vec<u8>, entities: usize) {
        if let Some(mut sheet) = Sheet::load(&mut self.files, bundle) {
            self.entities(r, &mut sheet, entities);
        }
    }

    fn random_tables(&mut self, r: &mut Random, index: u64) {
        let Some(sheet) = Sheet::load(&mut self.files, bundles::single(&style_sheet(r))) else { return };
        if index % 200 == 0 {
            return self.spoils(r, &sheet);
        }
        for _ in 0..ENTITIES {
            let (entity, zoom) = style_entity(r, &sheet.load);
            let entity = entities::bytes(&entity);
            let tables = twisted(r, &sheet.handed, sheet.bundle.len());
            self.call(&sheet.bundle, &tables, zoom, &settings(r), &entity, "twisted tables");
            self.any_canvas(&sheet.bundle, &tables, r.below(3) as u8, "twisted tables");
            let entity = entities::bytes(&piece_entity(r, &sheet.bundle));
            let tables = sound_tables(r, sheet.bundle.len());
            self.call(&sheet.bundle, &tables, zoom, &settings(r), &entity, "sound tables");
        }
    }
}

/// Entities for the sheets and for random bundles, about `count`, and half as many calls with other tables.
pub fn plan(plan: &mut Plan, count: u64) {
    plan.one("styles: written", |run| run.styles.written());
    let sheets = sheets::bundles();
    plan.many("styles: sheets", sheets.len() as u64 * (2 + count / 10_000), 4, |run, r, index| {
        run.styles.sheet(r, bundles::of(&sheets[index as usize % sheets.len()]), 50);
    });
    plan.many("styles: random bundles", count / ENTITIES as u64, 500, |run, r, index| {
        let bundle = match index % 12 {
            0 => bundles::single(&wide_sheet(r)),
            1..=2 => random_bundle(r),
            _ => bundles::single(&style_sheet(r)),
        };
        run.styles.sheet(r, bundle, ENTITIES);
    });
    plan.many("styles: small tables spoilt word by word, and large ones", 1, 1, |run, r, _| {
        let sheet = run.styles.load(SPOILT);
        run.styles.spoils(r, &sheet);
        large(&mut |about, handed| run.styles.call(&[], handed, 0, &settings(r), &[0, 0, 0], about));
    });
    plan.many("styles: twisted, sound or spoilt tables", count / 6 / ENTITIES as u64, 500, |run, r, index| {
        run.styles.random_tables(r, index);
    });
}
