//! Times both sides by turns on the same sheets in the same process, and measures their memory: one table. Here are tokens,
//! loads and property maps; bench_styles.rs has styles, the canvas colour and drawing lists.

use crate::bench_styles;
use crate::bundles;
use crate::clock;
use crate::entities::{self, Entity};
use crate::geodata::reader::probe as reader;
use crate::load_run::{Files, ALL};
use crate::loads::{Lent, NUMBERS};
use crate::map_cases::random_entity;
use crate::map_run::Sheet;
use crate::mapcss::parser::probe;
use crate::mapcss::token::Tokenizer;
use crate::maps::Tally;
use crate::memory;
use crate::model;
use crate::random::Random;
use crate::sheets::{self, rules, Item};
use std::collections::BTreeSet;
use std::hint::black_box;
use std::path::Path;

pub const ROUNDS: usize = 50;
pub const ENTITIES: usize = 10_000;
pub const MAP_ROUNDS: usize = 10;
/// An entity seldom has more.
pub const MOST_TAGS: usize = 20;
pub const RULES: [usize; 3] = [20, 200, 800];

/// Bytes that a call writes besides tables, maps, styles and lists: five or six words.
pub const OUT: usize = 5 * 8;
const LOAD_OUT: usize = 6 * 8;
const TOKEN_OUT: usize = 11 * 8;
/// 33 rows of 131 words (docs/TABLES.md).
const MAPS: usize = 33 * 131 * 4;

pub fn bench() -> bool {
    if cfg!(not(feature = "rattle")) {
        println!("built without our libraries: both are the original");
    }
    let table = || {
        println!("| what, ns for a | size | Rust | ours | ratio | Rust's memory: heap + stack | ours: lent + stack |");
        println!("|---|---|---|---|---|---|---|");
        tokens();
        loads();
        property_maps();
        bench_styles::bench();
    };
    // a thread's stack can be measured
    let thread = std::thread::Builder::new().stack_size(memory::STACK).spawn(table).expect("a thread");
    thread.join().is_ok()
}

/// One side of a row: the least time of all rounds, or what a round took of memory.
#[derive(Default)]
pub struct Side {
    measured: bool,
    pub count: usize,
    best: Option<f64>,
    heap: usize,
    stack: usize,
}

impl Side {
    /// What `call` makes is dropped after the clock has stopped.
    pub fn round<T: ?Sized, R: Into<Read>>(&mut self, input: &T, mut call: impl FnMut(&T) -> R) {
        if self.measured {
            let (made, heap, stack) = memory::measured(|| call(black_box(input)));
            (self.count, self.heap, self.stack) = (made.into().0, heap, stack);
            return;
        }
        let (made, ns) = clock::timed(|| black_box(call(black_box(input))));
        self.best = Some(self.best.map_or(ns, |best| best.min(ns)));
        self.count = made.into().0;
    }

    /// Nanoseconds of the best round, for one of so many units.
    fn ns(&self, units: usize) -> f64 {
        (self.best.expect("a round") - clock::own()) / units as f64
    }
}

pub struct Read(usize);

impl From<usize> for Read {
    fn from(n: usize) -> Read {
        Read(n)
    }
}

impl<T> From<Vec<T>> for Read {
    fn from(all: Vec<T>) -> Read {
        Read(all.len())
    }
}

/// A row of the table: what is done, to how much, how many units that is, and the bytes lent to be written.
pub struct Row {
    pub what: &'static str,
    pub size: String,
    pub units: usize,
    pub lent: usize,
    pub rounds: usize,
}

impl Row {
    /// Both sides by turns, so that a busy moment of the machine falls on both, behind a round that is not counted; then
    /// one round each for the memory. Both must count the same.
    pub fn contest(&self, mut original: impl FnMut(&mut Side), mut ours: impl FnMut(&mut Side)) {
        let (mut a, mut b) = (Side::default(), Side::default());
        original(&mut Side::default());
        ours(&mut Side::default());
        for _ in 0..self.rounds {
            original(&mut a);
            ours(&mut b);
        }
        let [mut c, mut d] = [(); 2].map(|()| Side { measured: true, ..Side::default() });
        original(&mut c);
        ours(&mut d);
        assert!([b.count, c.count, d.count].iter().all(|&count| count == a.count), "{}: other counts", self.what);
        let ns = |side: &Side| side.ns(self.units);
        println!(
            "| {} | {} | {:.1} | {:.1} | {:.2} | {} + {} | {} + {} |",
            self.what,
            self.size,
            ns(&a),
            ns(&b),
            ns(&a) / ns(&b),
            grouped(c.heap),
            grouped(c.stack),
            grouped(self.lent),
            grouped(d.stack)
        );
    }
}

/// A number with commas.
pub fn grouped(n: usize) -> String {
    let digits = n.to_string();
    let mut out = String::new();
    for (k, digit) in digits.chars().enumerate() {
        if k > 0 && (digits.len() - k) % 3 == 0 {
            out.push(',');
        }
        out.push(digit);
    }
    out
}

/// The sheets joined to texts of several sizes. Ours is called once for each token.
fn tokens() {
    for size in [1 << 10, 10 << 10, 100 << 10, 1 << 20] {
        let text: String = sheets::texts().iter().cycle().flat_map(|sheet| sheet.chars()).take(size).collect();
        let end = text.rfind('}').expect("a rule") + 1;
        let text = &text[..end];
        let row = Row {
            what: "tokens, byte",
            size: format!("{} bytes", grouped(text.len())),
            units: text.len(),
            lent: TOKEN_OUT,
            rounds: ROUNDS,
        };
        row.contest(|side| side.round(text, original_tokens), |side| side.round(text, our_tokens));
    }
}

/// The original reads the text from memory. Tables just large enough are lent, then six of 16,384 entries, all of which a
/// load clears.
fn loads() {
    for (what, all) in [("load, byte", false), ("load with 16,384 entries lent, byte", true)] {
        for (least, remarked) in [(1 << 10, false), (10 << 10, false), (100 << 10, false), (MOST_TEXT, true)] {
            let text = load_text(least, remarked);
            let bundle = bundles::single(&text);
            let tables = model::load(&bundle, &ALL).expect("a text for timing");
            let lent = if all { ALL } else { tables.just_enough() };
            let bytes = |table: usize| lent[table] * if table == NUMBERS { 8 } else { 4 };
            let mut loader = Loader::new(&lent);
            let row = Row {
                what,
                size: format!("{} bytes, {} rules", grouped(text.len()), grouped(tables.count(0))),
                units: text.len(),
                lent: LOAD_OUT + (0..6).map(bytes).sum::<usize>(),
                rounds: ROUNDS,
            };
            row.contest(
                |side| side.round(text.as_str(), original_rules),
                |side| side.round(&bundle[..], |bundle| loader.rules(bundle)),
            );
        }
    }
}

/// What a bundle of one text named `t0` has room for.
const MOST_TEXT: usize = bundles::MOST_BYTES - 7;

/// A text of the sheets' rules, at least (the last size: at most) so long. A colour is defined before its first use, and
/// no text is imported. A MiB of rules has more entries than a table takes: there, every other line is a remark.
fn load_text(size: usize, remarked: bool) -> String {
    let mut text = String::new();
    let mut defined = BTreeSet::new();
    for rule in rules().all.iter().cycle() {
        let mut part = rules().defining(rule, &mut defined);
        part += &rule.text;
        if remarked {
            let remark: String =
                rule.text.lines().filter(|line| !line.is_empty()).map(|line| format!("//{line}\n")).collect();
            part += "\n";
            part += &remark;
            if text.len() + part.len() > size {
                return text;
            }
        } else if text.len() >= size {
            return text;
        }
        text += &part;
    }
    unreachable!()
}

/// A sheet of so many of the sheets' rules, taken from all of them; or from those that have no rule for the canvas.
pub fn rules_sheet(count: usize, canvas: bool) -> Sheet {
    let all: Vec<&Item> = rules().all.iter().filter(|rule| canvas || !rule.text.contains("canvas")).collect();
    let text = rules().sheet((0..count).map(|k| all[k * all.len() / count]));
    Sheet::load(&mut Files::new(), bundles::single(&text)).expect("a sheet for timing")
}

/// Entities for a sheet, each with a zoom, for which `fits`.
pub fn entities_for(sheet: &Sheet, mut fits: impl FnMut(&Entity, u8) -> bool) -> Vec<(Entity, u8)> {
    let r = &mut Random::new(1, 1);
    let mut entities = Vec::new();
    while entities.len() < ENTITIES {
        let (entity, _) = random_entity(r, &sheet.load);
        let zoom = r.between(8, 18) as u8;
        if entity.tags.len() <= MOST_TAGS && fits(&entity, zoom) {
            entities.push((entity, zoom));
        }
    }
    entities
}

pub fn size_of_sheet(sheet: &Sheet) -> String {
    format!("{} rules, {} selectors", sheet.handed.counts[0], grouped(sheet.handed.counts[1] as usize))
}

/// Each entity in a call of its own. The original has its entities and its rules in memory; ours gets the bytes of an
/// entity and judges them, and the tables, in each call.
fn property_maps() {
    for count in RULES {
        let sheet = rules_sheet(count, true);
        let numbered = sheet.original.as_ref().unwrap();
        let entities = entities_for(&sheet, |e, zoom| sheet.expected(e, zoom, &mut Tally::default()).is_ok());
        let all: Vec<Entity> = entities.iter().map(|(entity, _)| entity.clone()).collect();
        let reader = reader::reader(&all);
        let found: Vec<_> = reader::entities(&reader, &all).into_iter().zip(entities.iter().map(|e| e.1)).collect();
        let bytes: Vec<_> = entities.iter().map(|(entity, zoom)| (entities::bytes(entity), *zoom)).collect();
        let counted = || found.iter().map(|(e, zoom)| numbered.count(e, *zoom)).sum::<usize>();
        let layers = counted();
        let row = Row {
            what: "property maps, entity",
            size: size_of_sheet(&sheet),
            units: ENTITIES,
            lent: MAPS + OUT,
            rounds: MAP_ROUNDS,
        };
        row.contest(
            |side| side.round(&(), |()| counted()),
            |side| side.round(&bytes[..], |bytes| our_layers(&sheet, bytes, 0).unwrap_or(layers)),
        );
        // refused with 7 as soon as the tables are found sound
        let none = vec![(Vec::new(), 0); ENTITIES];
        let mut alone = Side::default();
        (0..MAP_ROUNDS).for_each(|_| alone.round(&none[..], |none| our_layers(&sheet, none, 7).unwrap_or(0)));
        println!("| the tables judged alone, call | {} | | {:.1} | | | |", size_of_sheet(&sheet), alone.ns(ENTITIES));
    }
}

/// How many layers all entities have; each is answered with this number.
#[cfg(feature = "rattle")]
fn our_layers(sheet: &Sheet, entities: &[(Vec<u8>, u8)], answer: u64) -> Option<usize> {
    use crate::ffi::{raw_property_maps, MapRoom};
    let mut room = MapRoom::new();
    let mut layers = 0;
    for (entity, zoom) in entities {
        let number = raw_property_maps(&sheet.bundle, &sheet.handed, *zoom, entity, &mut room);
        assert_eq!(number, answer, "answered {:?}", room.out);
        black_box(&room);
        layers += room.out[0] as usize;
    }
    Some(layers)
}

#[cfg(not(feature = "rattle"))]
fn our_layers(_: &Sheet, _: &[(Vec<u8>, u8)], _: u64) -> Option<usize> {
    None
}

fn original_rules(text: &str) -> Vec<crate::mapcss::parser::Rule> {
    probe::parse(Path::new("."), "t0", text).unwrap()
}

fn original_tokens(text: &str) -> usize {
    let mut n = 0;
    for token in Tokenizer::new(text) {
        black_box(token.unwrap());
        n += 1;
    }
    n
}

#[cfg(feature = "rattle")]
fn our_tokens(text: &str) -> usize {
    use crate::ffi::{cursor, raw_next_token, Room};
    use crate::tokens::{Cursor, END, ERROR};
    let mut room = Room::new();
    let mut from = Cursor::START;
    let mut n = 0;
    loop {
        let kind = raw_next_token(text.as_bytes(), from, &mut room);
        assert!(kind != u64::from(ERROR));
        if kind == u64::from(END) {
            return n;
        }
        black_box(&room);
        from = cursor(&room.out);
        n += 1;
    }
}

#[cfg(not(feature = "rattle"))]
fn our_tokens(text: &str) -> usize {
    original_tokens(text)
}

#[cfg(feature = "rattle")]
struct Loader {
    lent: Lent,
    room: crate::ffi::LoadRoom,
}

#[cfg(feature = "rattle")]
impl Loader {
    fn new(lent: &Lent) -> Loader {
        Loader { lent: *lent, room: crate::ffi::LoadRoom::new(lent) }
    }

    fn rules(&mut self, bundle: &[u8]) -> usize {
        let number = crate::ffi::raw_load(bundle, &self.lent, &mut self.room);
        assert_eq!(number, 0, "refused {:?}", self.room.out);
        self.room.out[0] as usize
    }
}

#[cfg(not(feature = "rattle"))]
struct Loader;

#[cfg(not(feature = "rattle"))]
impl Loader {
    fn new(_: &Lent) -> Loader {
        Loader
    }

    fn rules(&mut self, bundle: &[u8]) -> usize {
        original_rules(bundles::texts(bundle)[0].1).len()
    }
}
