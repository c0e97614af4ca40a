//! Mutated sheets, bundles, entities and streams, compared as in the other parts: a mutated text is read by both tokenizers
//! and loaded, and what loads goes on to maps, styles and lists.

use crate::bundles;
use crate::draw_cases::random_call;
use crate::draws;
use crate::entities;
use crate::load_run::{random_lent, ALL};
use crate::loads::{Filled, Lent, Refusal};
use crate::map_cases::random_entity;
use crate::map_run::Sheet;
use crate::maps;
use crate::model;
use crate::mutation::{havoc, mended, splice, walk, walk_length, HAVOC, SPLICE, STAGES, STEPS};
use crate::random::Random;
use crate::run::{Plan, Run};
use crate::sheets::{self, rules};
use crate::style_cases::{settings, style_entity, style_sheet};
use crate::tally::{self, Line};

/// Mutated bytes do not grow beyond this.
const MOST_BYTES: usize = 200_000;
/// A rule that is walked through has about so many mutations.
const WALK: u64 = 50_000;
/// Bytes of such a rule.
const WALKED: std::ops::RangeInclusive<usize> = 30..=130;
/// Mutations in one piece of a walk.
const STRETCH: u64 = 2_000;

/// How often each mutation was made, and what became of what it made.
pub struct Tally {
    stages: Line,
    steps: Line,
    texts: Line,
    bundles: Line,
    entities: Line,
    streams: Line,
}

impl Default for Tally {
    fn default() -> Tally {
        Tally {
            stages: Line::new("stage", STAGES),
            steps: Line::new("step of havoc", STEPS),
            texts: Line::new("text", ["accepted", "2", "3", "4", "5", "6", "20", "21"]),
            bundles: Line::new("bundle", ["accepted", "1", "2", "3", "4", "5", "6", "20", "21"]),
            entities: Line::new("entity", ["accepted", "2", "7", "8"]),
            streams: Line::new("stream", ["accepted", "2", "7", "8", "9", "25"]),
        }
    }
}

impl tally::Tally for Tally {
    fn lines(&mut self) -> Vec<&mut Line> {
        let Tally { stages, steps, texts, bundles, entities, streams } = self;
        vec![stages, steps, texts, bundles, entities, streams]
    }
}

impl Tally {
    fn havoc(&mut self, r: &mut Random, bytes: &[u8]) -> Vec<u8> {
        self.stages.met(HAVOC);
        havoc(r, bytes, MOST_BYTES, &mut |step| self.steps.met(step))
    }

    fn walk(&mut self, bytes: &[u8], k: usize) -> Vec<u8> {
        let (stage, out) = walk(bytes, k);
        self.stages.met(stage);
        out
    }

    /// One mutation of any deterministic stage, or havoc.
    fn any(&mut self, r: &mut Random, bytes: &[u8]) -> Vec<u8> {
        if r.one_in(2) {
            return self.havoc(r, bytes);
        }
        let k = r.below(walk_length(bytes.len()));
        self.walk(bytes, k)
    }

    /// Havoc of what two are spliced to.
    fn splice(&mut self, r: &mut Random, first: &[u8], second: &[u8]) -> Vec<u8> {
        let Some(both) = splice(r, first, second) else { return self.havoc(r, first) };
        self.stages.met(SPLICE);
        havoc(r, &both, MOST_BYTES, &mut |step| self.steps.met(step))
    }
}

/// Accepted, or the number of the refusal.
fn fate<T>(answer: &Result<T, Refusal>) -> String {
    answer.as_ref().map_or_else(|refusal| refusal[0].to_string(), |_| "accepted".to_string())
}

/// Mostly just enough room.
fn lent(r: &mut Random, bundle: &[u8]) -> Lent {
    if r.one_in(16) {
        return random_lent(r, bundle);
    }
    model::load_partly(bundle, &ALL).1.just_enough()
}

/// One to four rules of the sheets.
fn some_rules(r: &mut Random) -> String {
    let all = &rules().all;
    let picked: Vec<_> = (0..r.between(1, 4)).map(|_| &all[r.below(all.len())]).collect();
    rules().sheet(picked.into_iter())
}

/// Some rules, or seldom a whole sheet.
fn some_text(r: &mut Random) -> String {
    if r.one_in(100) {
        return sheets::texts()[r.below(sheets::texts().len())].clone();
    }
    some_rules(r)
}

/// Names and texts of some rules that import some others.
fn some_texts(r: &mut Random) -> Vec<(String, Vec<u8>)> {
    let mut texts = Vec::new();
    let count = r.between(1, 4);
    for k in 0..count {
        let imports: String = (k + 1..count).filter(|_| r.one_in(2)).map(|n| format!("@import(\"t{n}\");\n")).collect();
        texts.push((format!("t{k}"), (imports + &some_rules(r)).into_bytes()));
    }
    texts
}

impl Run {
    /// A mutated text alone in a bundle; every other one is made UTF-8, which the original needs.
    fn mutated_text(&mut self, r: &mut Random, bytes: &[u8]) {
        let bytes = if r.one_in(2) { mended(bytes) } else { bytes.to_vec() };
        if let Ok(text) = std::str::from_utf8(&bytes) {
            self.tokens.text(text);
        }
        let answer = self.mutated(r, bundles::of(&[(&b"t0"[..], &bytes[..])]));
        self.mutation.texts.named(&fate(&answer));
    }

    /// A bundle's answer; what loads goes on.
    fn mutated(&mut self, r: &mut Random, bundle: Vec<u8>) -> Filled {
        let answer = self.loads.answer(&bundle, &lent(r, &bundle));
        if answer.is_ok() {
            if let Some(mut sheet) = Sheet::load(&mut self.loads.files, bundle) {
                self.entities(r, &mut sheet);
            }
        }
        answer
    }

    /// A few entities and a list for a sheet.
    fn entities(&mut self, r: &mut Random, sheet: &mut Sheet) {
        let handed = sheet.handed.clone();
        for _ in 0..2 {
            let (entity, zoom) = random_entity(r, &sheet.load);
            self.maps.case(sheet, &handed, &entity, zoom);
            let (entity, zoom) = style_entity(r, &sheet.load);
            self.styles.case(sheet, &handed, &entity, zoom, &settings(r));
        }
        self.styles.canvas(sheet, &handed, r.below(2) as u8);
        if r.one_in(2) {
            let call = random_call(r, sheet);
            self.draws.case(sheet, &handed, &call, r.one_in(2));
        }
    }

    /// An entity's bytes, mutated; where they are one still, it is compared with the original's.
    fn mutated_entity(&mut self, sheet: &mut Sheet, zoom: u8, bytes: &[u8], r: &mut Random) {
        let (handed, settings) = (sheet.handed.clone(), settings(r));
        let answer = maps::model(&sheet.bundle, &handed, zoom, bytes, &mut maps::Tally::default());
        self.mutation.entities.named(&fate(&answer));
        match entities::check(bytes) {
            Ok(entity) => {
                self.maps.case(sheet, &handed, &entity, zoom);
                self.styles.case(sheet, &handed, &entity, zoom, &settings);
            }
            Err(_) => {
                self.maps.call(&sheet.bundle, &handed, zoom, bytes, "a mutated entity");
                self.styles.call(&sheet.bundle, &handed, zoom, &settings, bytes, "a mutated entity");
            }
        }
    }

    /// Mutations of an entity and of the streams of a list, for some rules of the sheets or made for styles.
    fn mutated_entities(&mut self, r: &mut Random) {
        let text = if r.one_in(2) { some_rules(r) } else { style_sheet(r) };
        let Some(mut sheet) = Sheet::load(&mut self.maps.files, bundles::single(&text)) else { return };
        let (mut entity, zoom) = style_entity(r, &sheet.load);
        entity.tags.truncate(12);
        let bytes = entities::bytes(&entity);
        for _ in 0..8 {
            let mutated = self.mutation.any(r, &bytes);
            self.mutated_entity(&mut sheet, zoom, &mutated, r);
        }
        let mut call = random_call(r, &sheet);
        let stream = r.below(call.streams.len());
        if !call.streams[stream].is_empty() {
            call.streams[stream] = self.mutation.any(r, &call.streams[stream]);
        }
        let handed = sheet.handed.clone();
        let answer = draws::model(&sheet.bundle, &handed, &call, call.capacity(), &mut draws::Tally::default());
        self.mutation.streams.named(&fate(&answer));
        self.draws.case(&mut sheet, &handed, &call, r.one_in(2));
    }
}

/// So many short rules that are walked through, each with the number of its first mutation; and how many these are.
fn walks(seed: u64, count: u64) -> (Vec<(u64, String)>, u64) {
    let alone = |rule| rules().sheet([rule].into_iter()).trim().to_string();
    let short: Vec<String> = rules().all.iter().map(alone).filter(|text| WALKED.contains(&text.len())).collect();
    let mut walks = Vec::new();
    let mut from = 0;
    for index in 0..count {
        let text = &short[Random::of(seed, "mutation: rules to walk", index).below(short.len())];
        walks.push((from, text.clone()));
        from += walk_length(text.len()) as u64;
    }
    (walks, from)
}

/// Walks through whole rules, havoc and splice of rules and sheets, bundles, entities and streams.
pub fn plan(plan: &mut Plan, count: u64) {
    let (walks, length) = walks(plan.seed, (count / WALK).max(1));
    plan.many("mutation: walks through rules", length, STRETCH, move |run, r, index| {
        let (from, text) = &walks[walks.partition_point(|(from, _)| *from <= index) - 1];
        let mutated = run.mutation.walk(text.as_bytes(), (index - from) as usize);
        run.mutated_text(r, &mutated);
    });
    plan.many("mutation: havoc of rules", count / 4, 1_000, |run, r, _| {
        let text = some_text(r);
        let mutated = run.mutation.havoc(r, text.as_bytes());
        run.mutated_text(r, &mutated);
    });
    plan.many("mutation: splices", count / 8, 1_000, |run, r, _| {
        let (first, second) = (some_text(r), some_text(r));
        let mutated = run.mutation.splice(r, first.as_bytes(), second.as_bytes());
        run.mutated_text(r, &mutated);
    });
    let sheets = sheets::bundles();
    plan.many("mutation: whole sheets with what they import", count / 200, 50, |run, r, _| {
        let mut texts: Vec<(&[u8], Vec<u8>)> = Vec::new();
        for (name, text) in &sheets[r.below(sheets.len())] {
            texts.push((name.as_bytes(), text.as_bytes().to_vec()));
        }
        let k = r.below(walk_length(texts[0].1.len()));
        texts[0].1 = run.mutation.walk(&texts[0].1, k);
        let answer = run.mutated(r, bundles::of(&texts));
        run.mutation.texts.named(&fate(&answer));
    });
    plan.many("mutation: bundles", count / 8, 1_000, |run, r, _| {
        let mut texts = some_texts(r);
        // as a whole, or in one of its texts, so that the lengths stay right
        let bundle = if r.one_in(2) {
            run.mutation.any(r, &bundles::of(&texts))
        } else {
            let which = r.below(texts.len());
            let text = &mut texts[which].1;
            *text = mended(&run.mutation.any(r, text));
            bundles::of(&texts)
        };
        let answer = run.mutated(r, bundle);
        run.mutation.bundles.named(&fate(&answer));
    });
    plan.many("mutation: entities and streams", count / 32, 200, |run, r, _| run.mutated_entities(r));
}
