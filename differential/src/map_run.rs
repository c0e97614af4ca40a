//! The comparison of property maps over all cases.

use crate::bundles;
use crate::entities::{self, Entity};
use crate::geodata::reader::probe as reader;
use crate::load_cases::{random_bundle, ENTRIES};
use crate::load_run::{original_rules, Files, ALL};
use crate::loads::{decode, Load, Property, TESTS};
use crate::map_cases::{
    damaged, large, layouts, limits, number, padded, piece_entity, random_entity, random_tables, sound_tables, spoilt,
    wide_sheet, NUMBERS_READ, SPOILT,
};
use crate::mapcss::styler::probe::{Layers, Numbered};
use crate::maps::{layer_name, model, tag_number, Answer, Handed, TagNumber, Tally, MOST_LAYERS, MOST_NAMES};
use crate::model;
use crate::random::Random;
use crate::run::{shrunk, Part, Plan, Tries};
use crate::sheets;

/// Entities made for one sheet.
const ENTITIES: usize = 8;

/// The papers' own cases: zoom 13, an open way without tags or with one; layers with their properties' numbers.
pub const EXAMPLES: [(&str, Option<(&str, &str)>, Result<&str, u64>); 24] = [
    ("", None, Ok("")),
    ("way::*{width:1;} way::c{color:red;} way::*{width:3;}", None, Ok("*:2 c:2,1")),
    ("way{a:1;b:2;} way{a:3;}", None, Ok("default:2,1")),
    ("way{a:1;} way::default{b:2;}", None, Ok("default:0,1")),
    ("way::x{} way{a:1;}", None, Ok("x: default:0")),
    ("way{a:1;} way::x{b:1;}", None, Ok("default:0 x:1")),
    ("way{a:1;} way::*{b:1;a:2;} way::x{c:1;}", None, Ok("default:2,1 *:1,2 x:1,2,3")),
    ("way,way::x{a:1;}", None, Ok("default:0 x:0")),
    ("way::x, colors{a b c}", None, Ok("x:")),
    ("{a:1;} *{a:1;} canvas{a:1;} meta{a:1;} node{a:1;} area{a:1;}", None, Ok("")),
    ("way|z13-{a:1;} way|z12{b:1;} way|z-13{c:1;} way|z14-{d:1;}", None, Ok("default:0,2")),
    ("way[!x?]{a:1;}", None, Ok("default:0")),
    ("way[!x?]{a:1;}", Some(("x", "no")), Ok("default:0")),
    ("way[!x?]{a:1;}", Some(("x", "1")), Ok("")),
    ("way[ele>=500]{a:1;}", Some(("ele", "5e2")), Ok("default:0")),
    ("way[a=2.0]{a:1;}", Some(("a", "2")), Ok("default:0")),
    ("way[a=2.0]{a:1;}", Some(("a", "2.0")), Ok("")),
    ("way[a=-0]{a:1;}", Some(("a", "-0")), Ok("default:0")),
    ("way[a!=b]{a:1;}", None, Ok("default:0")),
    ("way[a<5]{a:1;}", None, Ok("")),
    ("way[a<5]{a:1;}", Some(("a", "9007199254740992")), Err(8)),
    ("way[b][a<5]{a:1;} way[a]{b:1;}", Some(("a", "9007199254740992")), Ok("default:1")),
    ("way[a<5]{a:1;}", Some(("a", "9007199254740992x")), Ok("")),
    ("way[a>5]{a:1;}", Some(("a", "inf")), Ok("default:0")),
];

/// A sheet that both have loaded.
pub struct Sheet {
    pub bundle: Vec<u8>,
    pub handed: Handed,
    pub load: Load,
    /// The properties of the tables, in order.
    properties: Vec<Property>,
    pub original: Option<Numbered>,
}

impl Sheet {
    /// None where the load is refused.
    pub fn load(files: &mut Files, bundle: Vec<u8>) -> Option<Sheet> {
        let tables = model::load(&bundle, &ALL).ok()?;
        let load = decode(&tables, &bundle).expect("the model's tables");
        let properties = load.rules.iter().flat_map(|rule| rule.properties.clone()).collect();
        let original = original_rules(files, &bundle).map(Numbered::new);
        Some(Sheet { handed: Handed::of(&tables), bundle, load, properties, original })
    }

    /// How the original's layers and an answer differ.
    fn apart(&self, original: &Layers, answer: &Answer) -> Option<String> {
        let layers = match answer {
            Ok(layers) => layers,
            // it goes on where the engine stops, and no layer or name goes away
            Err([23, ..]) if original.len() > MOST_LAYERS => return None,
            Err([24, ..]) if original.iter().any(|(_, map)| map.len() > MOST_NAMES) => return None,
            Err([8, ..]) => return None,
            Err(refusal) => return Some(format!("\n  original {original:?}\n  other    refused {refusal:?}")),
        };
        let mut named: Layers = Vec::new();
        for layer in layers {
            let name = layer_name(&self.bundle, &self.handed, layer.selector);
            let name = String::from_utf8(name.to_vec()).unwrap();
            let property = |&n: &u32| {
                let Property { name, value } = self.properties[n as usize].clone();
                (name, n, value)
            };
            named.push((name, layer.properties.iter().map(property).collect()));
        }
        (*original != named).then(|| format!("\n  original {original:?}\n  other    {named:?}"))
    }

    fn original(&self, entity: &Entity, zoom: u8) -> Option<Layers> {
        let numbered = self.original.as_ref()?;
        let all = std::slice::from_ref(entity);
        let reader = reader::reader(all);
        let found = reader::entities(&reader, all).remove(0);
        Some(numbered.layers(&found, zoom))
    }

    /// What the model answers; it panics where the original answers otherwise.
    pub fn expected(&self, entity: &Entity, zoom: u8, tally: &mut Tally) -> Answer {
        let expected = model(&self.bundle, &self.handed, zoom, &entities::bytes(entity), tally);
        let original = self.original(entity, zoom);
        assert!(original.is_none_or(|o| self.apart(&o, &expected).is_none()), "the model is not the original");
        expected
    }

    /// Whether the original's answer is compared, and what is wrong with a case, if anything is.
    fn judged(&self, handed: &Handed, entity: &Entity, zoom: u8, tally: &mut Tally) -> (bool, Option<String>) {
        let bytes = entities::bytes(entity);
        let expected = model(&self.bundle, handed, zoom, &bytes, tally);
        let original = self.original(entity, zoom);
        let ours = || ours(&self.bundle, handed, zoom, &bytes);
        (original.is_some() && expected.is_ok(), self.difference(original.as_ref(), &expected, ours))
    }

    fn difference(
        &self,
        original: Option<&Layers>,
        expected: &Answer,
        ours: impl FnOnce() -> Option<Result<Answer, String>>,
    ) -> Option<String> {
        if let Some(what) = original.and_then(|original| self.apart(original, expected)) {
            return Some(format!("the model is not the original:{what}"));
        }
        let ours = match ours()? {
            Ok(answer) => answer,
            Err(what) => return Some(format!("our call: {what}")),
        };
        if ours != *expected {
            return Some(format!("\n  expected {expected:?}\n  ours     {ours:?}"));
        }
        self.apart(original?, &ours).map(|what| format!("our maps:{what}"))
    }
}

#[cfg(feature = "rattle")]
fn ours(bundle: &[u8], handed: &Handed, zoom: u8, entity: &[u8]) -> Option<Result<Answer, String>> {
    Some(crate::ffi::property_maps(bundle, handed, zoom, entity))
}

#[cfg(not(feature = "rattle"))]
fn ours(_: &[u8], _: &Handed, _: u8, _: &[u8]) -> Option<Result<Answer, String>> {
    None
}

impl Part<Tally> {
    /// A sheet's tables as loaded, perhaps with more behind the counts.
    pub fn case(&mut self, sheet: &Sheet, handed: &Handed, entity: &Entity, zoom: u8) {
        self.cases += 1;
        let (compared, what) = sheet.judged(handed, entity, zoom, &mut self.tally);
        self.compared += u64::from(compared);
        if let Some(what) = what {
            let (bundle, entity) = (sheet.bundle.clone(), entity.clone());
            self.differs(move || shown(&bundle, &entity, zoom, &what));
        }
    }

    pub fn call(&mut self, bundle: &[u8], handed: &Handed, zoom: u8, entity: &[u8], about: &str) {
        drop(self.answer(bundle, handed, zoom, entity, about));
    }

    /// Any tables and any bytes: compares ours with the model, and hands back what is expected.
    fn answer(&mut self, bundle: &[u8], handed: &Handed, zoom: u8, entity: &[u8], about: &str) -> Answer {
        self.cases += 1;
        let expected = model(bundle, handed, zoom, entity, &mut self.tally);
        let wrong = match ours(bundle, handed, zoom, entity) {
            None => None,
            Some(Err(what)) => Some(format!("our call: {what}")),
            Some(Ok(answer)) if answer == expected => None,
            Some(Ok(answer)) => Some(format!("\n  expected {expected:?}\n  ours     {answer:?}")),
        };
        if let Some(what) = wrong {
            let bundle = bundle.escape_ascii();
            let entity = entity[..entity.len().min(200)].escape_ascii();
            let text = format!("{about}: zoom {zoom}, entity {entity}, bundle {bundle}, {handed:?}: {what}");
            self.differs(|| text);
        }
        expected
    }

    fn example(&mut self, text: &str, tag: Option<(&str, &str)>, answer: Result<&str, u64>) {
        let sheet = Sheet::load(&mut self.files, bundles::single(text)).expect("an example");
        let tags = tag.map(|(key, value)| (key.as_bytes().to_vec(), value.as_bytes().to_vec()));
        let entity = Entity { kind: 1, id: 1, tags: tags.into_iter().collect() };
        let handed = sheet.handed.clone();
        self.case(&sheet, &handed, &entity, 13);
        let got = self.answer(&sheet.bundle, &handed, 13, &entities::bytes(&entity), text);
        let got = got.map_err(|refusal| refusal[0]).map(|layers| {
            let mut all = Vec::new();
            for layer in layers {
                let name = String::from_utf8_lossy(layer_name(&sheet.bundle, &handed, layer.selector));
                let numbers: Vec<_> = layer.properties.iter().map(|n| n.to_string()).collect();
                all.push(format!("{name}:{}", numbers.join(",")));
            }
            all.join(" ")
        });
        if got.as_deref().map_err(|n| *n) != answer {
            let text = format!("example {text:?}, {tag:?}: expected {answer:?}, the model has {got:?}");
            self.differs(|| text);
        }
    }

    fn numbers(&mut self) {
        for (text, expected) in NUMBERS_READ {
            let same = match (expected, tag_number(text.as_bytes()), text.parse::<f64>()) {
                (TagNumber::Is(x), TagNumber::Is(y), Ok(z)) => {
                    x.to_bits() == y.to_bits() && (x.to_bits() == z.to_bits() || x.is_nan() && z.is_nan())
                        || x.is_nan() && y.is_nan() && z.is_nan()
                }
                (TagNumber::Outside, TagNumber::Outside, Ok(_)) => true,
                (TagNumber::Malformed, TagNumber::Malformed, Err(_)) => true,
                _ => false,
            };
            if !same {
                self.differs(move || format!("tag number {text:?}: {:?}", tag_number(text.as_bytes())));
            }
            for test in ["<5", "<=5", ">5", ">=5", ">-0", ">=0", ">1", "<=-0", "=5", "!=5"] {
                let sheet = Sheet::load(&mut self.files, bundles::single(&format!("way[a{test}]{{b:1;}}"))).unwrap();
                let tags = vec![(b"a".to_vec(), text.as_bytes().to_vec())];
                let handed = sheet.handed.clone();
                self.case(&sheet, &handed, &Entity { kind: 1, id: 1, tags }, 0);
            }
        }
    }

    /// Some entities for a sheet, and one with a mistake.
    fn entities(&mut self, r: &mut Random, sheet: &Sheet, count: usize) {
        for _ in 0..count {
            let (entity, zoom) = random_entity(r, &sheet.load);
            let handed = if r.one_in(3) { padded(r, &sheet.handed) } else { sheet.handed.clone() };
            self.case(sheet, &handed, &entity, zoom);
        }
        if r.one_in(4) {
            let (entity, zoom) = random_entity(r, &sheet.load);
            self.call(&sheet.bundle, &sheet.handed, zoom, &damaged(r, &entity), "an entity with a mistake");
        }
    }

    /// Each word, number and count of a sheet's tables spoilt in turn, for two entities, one of them with a mistake.
    fn spoils(&mut self, r: &mut Random, sheet: &Sheet) {
        let (entity, zoom) = random_entity(r, &sheet.load);
        let whole = entities::bytes(&entity);
        let broken = damaged(r, &entity);
        spoilt(&sheet.handed, sheet.bundle.len(), &mut |about, handed| {
            let entity = if r.one_in(8) { &broken } else { &whole };
            self.call(&sheet.bundle, handed, zoom, entity, about);
        });
    }
}

/// A differing case with its first text and its tags cut down as far as it still differs.
fn shown(bundle: &[u8], entity: &Entity, zoom: u8, what: &str) -> String {
    let tries = Tries::new();
    let texts = bundles::texts(bundle);
    let files = std::cell::RefCell::new(Files::new());
    let differs = |text: &str, entity: &Entity| {
        let mut texts = texts.clone();
        texts[0].1 = text;
        let sheet = Sheet::load(&mut files.borrow_mut(), bundles::of(&texts))?;
        sheet.judged(&sheet.handed, entity, zoom, &mut Tally::default()).1
    };
    let mut entity = entity.clone();
    for k in (0..entity.tags.len()).rev() {
        let mut fewer = entity.clone();
        fewer.tags.remove(k);
        if tries.take() && differs(texts[0].1, &fewer).is_some() {
            entity = fewer;
        }
    }
    let small = shrunk(texts[0].1, &|text| tries.take() && differs(text, &entity).is_some());
    let what = differs(&small, &entity).unwrap_or(what.to_string());
    format!("zoom {zoom}, {}, text 0 {small:?} of {}: {what}", spelt(&entity), texts.len())
}

/// An entity to be printed.
pub fn spelt(entity: &Entity) -> String {
    let tags: Vec<_> = entity.tags.iter().map(|(k, v)| format!("{}={}", k.escape_ascii(), v.escape_ascii())).collect();
    format!("kind {}, id {}, tags {tags:?}", entity.kind, entity.id)
}

impl Part<Tally> {
    fn written(&mut self) {
        EXAMPLES.iter().for_each(|&(text, tag, answer)| self.example(text, tag, answer));
        self.numbers();
        for (text, answer) in limits() {
            let sheet = Sheet::load(&mut self.files, bundles::single(&text)).expect("a sheet at the limits");
            let entity = Entity { kind: 2, id: 1, tags: Vec::new() };
            self.case(&sheet, &sheet.handed, &entity, 0);
            let got = self.answer(&sheet.bundle, &sheet.handed, 0, &entities::bytes(&entity), "limits");
            let got = got.map(|layers| layers.len()).map_err(|refusal| refusal[0]);
            if got != answer {
                self.differs(move || format!("limits {text:?}: expected {answer:?}, the model has {got:?}"));
            }
        }
        let sheet = Sheet::load(&mut self.files, bundles::single("way[a]{b:1;}")).unwrap();
        for (bytes, number) in layouts() {
            let answer = self.answer(&sheet.bundle, &sheet.handed, 0, &bytes, "a layout");
            if answer.map_or_else(|refusal| refusal[0], |_| 0) != number {
                self.differs(move || format!("a layout of {} bytes is not {number}", bytes.len()));
            }
        }
    }

    fn sheet(&mut self, r: &mut Random, bundle: Vec<u8>, entities: usize) {
        if let Some(sheet) = Sheet::load(&mut self.files, bundle) {
            self.entities(r, &sheet, entities);
        }
    }

    /// A random tag number compared with what Rust reads, and with its neighbours.
    fn exact_number(&mut self, r: &mut Random) {
        let sheet = Sheet::load(&mut self.files, bundles::single("way[a<1]{b:1;}")).unwrap();
        let mut handed = sheet.handed.clone();
        let text = number(r);
        let read = text.parse::<f64>();
        let tags = vec![(b"a".to_vec(), text.clone().into_bytes())];
        let entity = entities::bytes(&Entity { kind: 1, id: 1, tags });
        let x = read.clone().unwrap_or(0.0);
        for y in [x, x.next_up(), x.next_down()] {
            handed.numbers[0] = y;
            for (kind, holds) in [(9, x < y), (10, x <= y), (11, x > y), (12, x >= y)] {
                handed.words[TESTS][0] = kind;
                let answer = self.answer(&sheet.bundle, &handed, 0, &entity, "a tag number");
                let same = match &answer {
                    Ok(layers) => layers.len() == usize::from(holds && read.is_ok()),
                    Err(refusal) => refusal[0] == 8 && read.is_ok(),
                };
                if !same {
                    let text = format!("tag number {text:?}, kind {kind}, beside {y:e}: {answer:?}");
                    self.differs(|| text);
                }
            }
        }
    }

    fn small_spoilt(&mut self, r: &mut Random, text: &str) {
        let sheet = Sheet::load(&mut self.files, bundles::single(text)).expect("a small sheet");
        (0..3).for_each(|_| self.spoils(r, &sheet));
    }

    fn random_spoilt(&mut self, r: &mut Random, index: u64) {
        let Some(sheet) = Sheet::load(&mut self.files, random_bundle(r)) else { return };
        if index % 100 == 0 && !sheet.load.rules.is_empty() {
            return self.spoils(r, &sheet);
        }
        for _ in 0..ENTITIES {
            let entity = entities::bytes(&piece_entity(r, &sheet.bundle));
            let tables = sound_tables(r, sheet.bundle.len());
            self.call(&sheet.bundle, &tables, r.below(256) as u8, &entity, "sound tables");
            let tables = random_tables(r, sheet.bundle.len());
            self.call(&sheet.bundle, &tables, r.below(256) as u8, &entity, "random words");
        }
    }
}

/// Entities for the sheets and for random bundles, about `count`, and half as many calls with spoilt tables.
pub fn plan(plan: &mut Plan, count: u64) {
    plan.one("maps: written", |run| run.maps.written());
    let sheets = sheets::bundles();
    plan.many("maps: sheets", sheets.len() as u64 * (2 + count / 10_000), 4, |run, r, index| {
        run.maps.sheet(r, bundles::of(&sheets[index as usize % sheets.len()]), 50);
    });
    plan.many("maps: random bundles", count / ENTITIES as u64, 500, |run, r, index| {
        let bundle = if index % 10 == 0 { bundles::single(&wide_sheet(r)) } else { random_bundle(r) };
        run.maps.sheet(r, bundle, ENTITIES);
    });
    plan.many("maps: tag numbers beside Rust's", count / 20, 5_000, |run, r, _| run.maps.exact_number(r));
    let small = SPOILT.len() as u64 + ENTRIES.len() as u64;
    plan.many("maps: small tables spoilt word by word", small, 1, |run, r, index| {
        run.maps.small_spoilt(r, SPOILT.iter().chain(&ENTRIES).nth(index as usize).unwrap());
    });
    plan.one("maps: large tables", |run| {
        large(&mut |about, handed| run.maps.call(&[], handed, 0, &[0, 0, 0], about));
    });
    plan.many("maps: spoilt or random tables", count / 4 / ENTITIES as u64, 500, |run, r, index| {
        run.maps.random_spoilt(r, index);
    });
}
