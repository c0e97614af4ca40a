//! Times styles of single entities, the canvas colour, and drawing lists of whole streams, beside the original.

use crate::bench::{entities_for, grouped, rules_sheet, size_of_sheet, Row, ENTITIES, MAP_ROUNDS, MOST_TAGS};
use crate::bench::{OUT, ROUNDS, RULES};
use crate::draws::{self, Call};
use crate::entities::{self, Entity};
use crate::geodata::reader::probe as reader;
use crate::map_cases::random_entity;
use crate::map_run::Sheet;
use crate::maps::MOST_LAYERS;
use crate::random::Random;
use crate::style_tally::Tally;
use crate::styles::{self, Settings, ROW_FLOATS, ROW_WORDS};
use std::collections::BTreeSet;
use std::hint::black_box;

const LISTS: [usize; 4] = [10, 100, 1_000, 4_096];
const LIST_ZOOM: u8 = 16;
/// Calls for the canvas colour in a round.
const CANVASES: usize = 1_000;
/// A row of words, of floats and an i64 for each layer.
const STYLES: usize = MOST_LAYERS * 8 * (ROW_WORDS + ROW_FLOATS + 1);

pub fn bench() {
    single_styles();
    canvas_colors();
    lists();
}

/// Each entity in a call of its own.
fn single_styles() {
    let settings = Settings::default();
    for count in RULES {
        let mut sheet = rules_sheet(count, true);
        sheet.original.as_mut().unwrap().renew(&settings);
        let numbered = sheet.original.as_ref().unwrap();
        let entities = entities_for(&sheet, |entity, zoom| {
            styles::rows(&sheet.bundle, &sheet.handed, zoom, &settings, entity, &mut Tally::default()).is_ok()
        });
        let all: Vec<Entity> = entities.iter().map(|(entity, _)| entity.clone()).collect();
        let reader = reader::reader(&all);
        let found: Vec<_> = reader::entities(&reader, &all).into_iter().zip(entities.iter().map(|e| e.1)).collect();
        let bytes: Vec<_> = entities.iter().map(|(entity, zoom)| (entities::bytes(entity), *zoom)).collect();
        let counted = || found.iter().map(|(e, zoom)| numbered.count_styles(e, *zoom)).sum::<usize>();
        let layers = counted();
        let row = Row {
            what: "styles, entity",
            size: size_of_sheet(&sheet),
            units: ENTITIES,
            lent: STYLES + OUT,
            rounds: MAP_ROUNDS,
        };
        row.contest(
            |side| side.round(&(), |()| counted()),
            |side| side.round(&bytes[..], |bytes| our_styles(&sheet, bytes, &settings).unwrap_or(layers)),
        );
    }
}

/// No sheet has a colour for the canvas, so that both look at all rules.
fn canvas_colors() {
    for count in RULES {
        let sheet = rules_sheet(count, false);
        let numbered = sheet.original.as_ref().unwrap();
        let row = Row {
            what: "canvas colour, call",
            size: size_of_sheet(&sheet),
            units: CANVASES,
            lent: OUT,
            rounds: ROUNDS,
        };
        let none = |_| usize::from(black_box(numbered.canvas_of(black_box(0))).is_none());
        let original = || (0..CANVASES).map(none).sum::<usize>();
        row.contest(
            |side| side.round(&(), |()| original()),
            |side| side.round(&(), |()| our_canvases(&sheet).unwrap_or(CANVASES)),
        );
    }
}

/// Areas that the sheet styles with so many layers in all, those without a layer among them; each has a tag that the
/// rules test, so that the original's cache tells them all apart.
fn areas(r: &mut Random, sheet: &Sheet, entries: usize) -> Vec<Vec<Entity>> {
    let rules = sheet.load.rules.iter();
    let tests = rules.flat_map(|rule| &rule.selectors).flat_map(|selector| &selector.tests);
    let tested: BTreeSet<&[u8]> = tests.map(|test| test.key.as_bytes()).collect();
    let mut streams = vec![Vec::new(), Vec::new()];
    let mut count = 0;
    while count < entries {
        let (entity, _) = random_entity(r, &sheet.load);
        let known = entity.tags.iter().any(|(key, _)| tested.contains(&key[..]));
        if entity.kind == 0 || entity.tags.len() > MOST_TAGS || !known {
            continue;
        }
        let settings = Settings::default();
        let rows = styles::rows(&sheet.bundle, &sheet.handed, LIST_ZOOM, &settings, &entity, &mut Tally::default());
        let layers = rows.map_or(usize::MAX, |rows| rows.len());
        if layers <= entries - count {
            count += layers;
            streams[usize::from(entity.kind == 2 && r.one_in(4))].push(entity);
        }
    }
    streams
}

/// Areas in one call, those without a layer counted, too. The original has a fresh styler in each round, made before the
/// clock starts, and no two strings at one place, so that its cache finds nothing.
fn lists() {
    let mut sheet = rules_sheet(200, true);
    let original = std::cell::RefCell::new(sheet.original.take().unwrap());
    for entries in LISTS {
        let streams = areas(&mut Random::new(1, entries as u64), &sheet, entries);
        let call = Call {
            zoom: LIST_ZOOM,
            settings: Settings::default(),
            for_labels: false,
            streams: streams.iter().map(|all| all.iter().flat_map(entities::bytes).collect()).collect(),
            lent: 3 * entries,
        };
        let expected = draws::model(&sheet.bundle, &sheet.handed, &call, call.capacity(), &mut draws::Tally::default());
        assert_eq!(expected.map(|list| list.len()), Ok(entries));
        let reader = reader::stream_reader(&streams, false);
        let found = reader::streams(&reader, &streams);
        let count = streams[0].len() + streams[1].len();
        let row = Row {
            what: "drawing list, 200 rules, entity",
            size: format!("{} entities, {} entries", grouped(count), grouped(entries)),
            units: count,
            lent: 4 * call.lent + OUT,
            rounds: ROUNDS,
        };
        row.contest(
            |side| {
                let mut numbered = original.borrow_mut();
                numbered.renew(&call.settings);
                side.round(&found, |found| numbered.count_listed(found, call.zoom, call.for_labels));
                assert_eq!(numbered.cached(&found, call.zoom), 0);
                assert_eq!(side.count, entries);
            },
            |side| side.round(&call, |call| our_entries(&sheet, call).unwrap_or(entries)),
        );
    }
}

/// How many styled layers all entities have.
#[cfg(feature = "rattle")]
fn our_styles(sheet: &Sheet, entities: &[(Vec<u8>, u8)], settings: &Settings) -> Option<usize> {
    use crate::ffi_styles::{raw_styles, StyleRoom};
    let mut room = StyleRoom::new();
    let mut layers = 0;
    for (entity, zoom) in entities {
        let number = raw_styles(&sheet.bundle, &sheet.handed, *zoom, settings, entity, &mut room);
        assert_eq!(number, 0, "answered {:?}", room.out);
        black_box(&room);
        layers += room.out[0] as usize;
    }
    Some(layers)
}

#[cfg(not(feature = "rattle"))]
fn our_styles(_: &Sheet, _: &[(Vec<u8>, u8)], _: &Settings) -> Option<usize> {
    None
}

/// How many entries the list has.
#[cfg(feature = "rattle")]
fn our_entries(sheet: &Sheet, call: &Call) -> Option<usize> {
    use crate::ffi_styles::{raw_draw, ListRoom};
    let mut room = ListRoom::new(call.lent);
    let number = raw_draw(&sheet.bundle, &sheet.handed, call, &mut room);
    assert_eq!(number, 0, "answered {:?}", room.out);
    black_box(&room);
    Some(room.out[0] as usize)
}

#[cfg(not(feature = "rattle"))]
fn our_entries(_: &Sheet, _: &Call) -> Option<usize> {
    None
}

/// How many of the calls find no colour.
#[cfg(feature = "rattle")]
fn our_canvases(sheet: &Sheet) -> Option<usize> {
    let color = |_| crate::ffi_styles::canvas_color(&sheet.bundle, &sheet.handed, black_box(0));
    Some((0..CANVASES).map(|n| usize::from(black_box(color(n)) == Ok(Ok(None)))).sum())
}

#[cfg(not(feature = "rattle"))]
fn our_canvases(_: &Sheet) -> Option<usize> {
    None
}
