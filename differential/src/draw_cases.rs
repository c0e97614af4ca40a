//! The cases of drawing lists: streams made for a sheet with many ties, with mistakes, and at the limits.

use crate::draws::{model, Call, Tally};
use crate::entities::{self, Entity, MOST_BYTES, MOST_STREAM};
use crate::loads::{Load, Refusal};
use crate::map_cases::damaged;
use crate::map_run::Sheet;
use crate::random::Random;
use crate::style_cases::{settings, style_entity, with_level, INFINITE, NAN};
use crate::styles::Settings;

/// A sheet, whether for labels, one or two streams of kind, id and tag `layer` (empty for none), the words lent, and the
/// entries as stream.place.layer or the refusal.
pub struct Example {
    pub sheet: String,
    pub for_labels: bool,
    pub streams: Vec<Vec<(u8, u64, &'static str)>>,
    pub lent: usize,
    pub answer: Result<&'static str, Refusal>,
}

impl Example {
    pub fn call(&self) -> Call {
        let entity = |&(kind, id, layer): &(u8, u64, &str)| {
            let tag = (b"layer".to_vec(), layer.as_bytes().to_vec());
            let tags = if layer.is_empty() { Vec::new() } else { vec![tag] };
            entities::bytes(&Entity { kind, id, tags })
        };
        Call {
            zoom: 13,
            settings: Settings::default(),
            for_labels: self.for_labels,
            streams: self.streams.iter().map(|all| all.iter().flat_map(entity).collect()).collect(),
            lent: self.lent,
        }
    }
}

type Rows<'a> = &'a [(u8, u64, &'static str)];

pub fn examples() -> Vec<Example> {
    let mut all = Vec::new();
    let mut add =
        |sheet: &str, for_labels: bool, streams: &[Rows], lent: usize, answer: Result<&'static str, Refusal>| {
            let streams = streams.iter().map(|rows| rows.to_vec()).collect();
            all.push(Example { sheet: sheet.to_string(), for_labels, streams, lent, answer });
        };
    let full = Err([25, 0, 0, 0, 0]);
    let nan = format!("way[layer]{{z-index:{};}} way[!layer]{{}} way::x[layer]{{}}", NAN());
    let infinite = format!("way[layer=1]{{z-index:{0};}} way[layer=2]{{z-index:-{0};}} way[!layer]{{}}", INFINITE());
    // the layer `*` is not styled
    let star = format!("way::*{{z-index:{};}} way::x{{z-index:1;}}", NAN());
    for for_labels in [false, true] {
        let mut add = |sheet: &str, streams: &[Rows], lent, answer| add(sheet, for_labels, streams, lent, answer);
        add("node{}", &[&[]], 0, Ok(""));
        add("way{}", &[&[], &[]], 2, Ok(""));
        add("node{}", &[&[(0, 2, ""), (0, 1, "")]], 6, Ok("0.1.0 0.0.0"));
        add("node{}", &[&[(0, 1, ""), (0, 1, ""), (0, 0, "")]], 9, Ok("0.2.0 0.0.0 0.1.0"));
        add("node{}", &[&[(0, u64::MAX, ""), (0, 1 << 63, ""), (0, 0, "")]], 9, Ok("0.2.0 0.1.0 0.0.0"));
        add("way{}", &[&[(2, 1, "")], &[(2, 1, "")]], 6, Ok("1.0.0 0.0.0"));
        add("way{}", &[&[(2, 1, ""), (2, 2, "")], &[(2, 2, ""), (2, 1, "")]], 12, Ok("1.1.0 0.0.0 1.0.0 0.1.0"));
        add("way{}", &[&[(1, 1, ""), (2, 2, "")], &[]], 6, Ok("0.1.0 0.0.0"));
        add("way{}", &[&[(2, 9, "")], &[(1, 1, "")]], 6, Ok("0.0.0 1.0.0"));
        add("way{}", &[&[(1, 1, "1"), (1, 2, "-1"), (1, 3, "")], &[]], 9, Ok("0.1.0 0.2.0 0.0.0"));
        add("way{}", &[&[(1, 2, "-0"), (1, 1, "x"), (1, 0, "+0")], &[]], 9, Ok("0.2.0 0.1.0 0.0.0"));
        add(
            "way{}",
            &[&[(1, 1, "9223372036854775807"), (1, 2, "9223372036854775808"), (1, 3, "-9223372036854775808")], &[]],
            9,
            Ok("0.2.0 0.1.0 0.0.0"),
        );
        add("way::b{} way::a{z-index:-1;} way{}", &[&[(1, 1, "")], &[]], 9, Ok("0.0.1 0.0.0 0.0.2"));
        add("way::b{z-index:0;} way::a{z-index:-0;}", &[&[(1, 1, "")], &[]], 6, Ok("0.0.0 0.0.1"));
        add("way::*{z-index:9;} way::x{} way::y{z-index:2;}", &[&[(1, 1, "")], &[]], 6, Ok("0.0.1 0.0.0"));
        add(&infinite, &[&[(1, 1, "1"), (1, 2, "2"), (1, 3, "")], &[]], 9, Ok("0.2.0 0.0.0 0.1.0"));
        add("way{} way::x{}", &[&[(1, 1, "")], &[]], 5, full);
        add("way{} way::x{}", &[&[(1, 1, "")], &[]], 6, Ok("0.0.0 0.0.1"));
        add("way{} way::x{}", &[&[(1, 1, "")], &[(2, 1, "")]], 11, full);
        add("way{}", &[&[(1, 1, "")], &[]], 2, full);
        // an entity that does not fit refuses before a later one is looked at
        add("way{}", &[&[(1, 1, ""), (1, 1, ""), (0, 1, "")], &[]], 3, full);
        add("way{}", &[&[(1, 1, ""), (0, 1, ""), (1, 1, "")], &[]], 3, Err([7, 0, 1, 0, 0]));
        add("way{}", &[&[(1, 1, ""), (1, 1, "")], &[(0, 1, "")]], 3, full);
        add("way{}", &[&[(1, 1, "")], &[(2, 1, ""), (0, 1, "")]], 6, Err([7, 1, 1, 0, 0]));
        add("node{}", &[&[(1, 1, "")]], 6, Err([7, 0, 0, 0, 0]));
        add("node{}", &[&[(0, 1, ""), (2, 1, "")]], 6, Err([7, 0, 1, 0, 0]));
        add(&nan, &[&[(1, 1, "1")], &[]], 9, Err([9, 0, 0, 0, 0]));
        add(&star, &[&[(1, 1, "")], &[]], 3, Ok("0.0.0"));
        add("way[layer]{}", &[&[(1, 1, ""), (1, 2, "2"), (1, 3, "")], &[(2, 4, "")]], 3, Ok("0.1.0"));
        add(&nan, &[&[(1, 1, ""), (1, 1, "1")], &[]], 0, full);
        add(&nan, &[&[(1, 1, ""), (1, 1, "1")], &[]], 3, Err([9, 0, 1, 0, 0]));
        add(&nan, &[&[(1, 1, "")], &[(2, 1, "1"), (0, 1, "")]], 3, Err([9, 1, 0, 0, 0]));
    }
    for for_labels in [false, true] {
        let answer = |plain: &'static str, labels: &'static str| Ok(if for_labels { labels } else { plain });
        let other = answer("0.0.1 0.0.0", "0.0.0 0.0.1");
        add("way::a{} way::b{fill-position:background;}", for_labels, &[&[(1, 1, "")], &[]], 6, other);
        let other = answer("0.0.0 1.0.0", "1.0.0 0.0.0");
        add("line[layer=0]{fill-position:background;} way{}", for_labels, &[&[(2, 1, "0")], &[(2, 1, "")]], 6, other);
        let other = answer("0.0.1 0.0.0", "0.0.0 0.0.1");
        let sheet = "way::a{z-index:1;} way::b{z-index:2;fill-position:background;}";
        add(sheet, for_labels, &[&[(1, 1, "5")], &[]], 6, other);
    }
    all
}

/// Streams at the limits with their refusal, for `way{}` or `node{}`: bytes and entries.
pub fn limits() -> Vec<(&'static str, Call, Result<usize, Refusal>)> {
    let layers = |n: usize| ["way{}", "way{}way::x{}", "way{}way::x{}way::y{}"][n - 1];
    let small = |kind: u8, n: usize| [kind, 7, 0].repeat(n);
    // entities as long as they may be, and one that is longer
    let long = |kind: u8, bytes: usize| {
        let tags = vec![(b"k".to_vec(), vec![b'1'; bytes - 8])];
        let entity = entities::bytes(&Entity { kind, id: 7, tags });
        assert_eq!(entity.len(), bytes);
        entity
    };
    let most = |kind: u8| long(kind, MOST_BYTES).repeat(MOST_STREAM / MOST_BYTES);
    let over = |kind: u8| [most(kind), vec![kind, 7, 0]].concat();
    let call = |streams: &[Vec<u8>], entries: usize| Call {
        zoom: 0,
        settings: Settings::default(),
        for_labels: false,
        streams: streams.to_vec(),
        lent: 3 * entries,
    };
    let full = Err([25, 0, 0, 0, 0]);
    let seven = |stream, place| Err([7, stream, place, 0, 0]);
    // a key that is not UTF-8
    let text = |kind: u8| vec![kind, 7, 1, 1, 0xff, 0];
    vec![
        ("node{}", call(&[[small(0, 1), text(0)].concat()], 1), Err([2, 0, 1, 0, 0])),
        ("node{}", call(&[[small(0, 1), text(1)].concat()], 9), seven(0, 1)),
        ("way{}", call(&[small(1, 1), text(0)], 9), seven(1, 0)),
        ("way{}", call(&[small(1, 1), text(2)], 1), Err([2, 1, 0, 0, 0])),
        ("way{}", call(&[small(1, 1), [small(2, 1), text(2)].concat()], 1), full),
        ("node{}", call(&[small(0, 4096)], 4096), Ok(4096)),
        ("node{}", call(&[small(0, 4096)], 5000), Ok(4096)),
        ("node{}", call(&[small(0, 4097)], 4096), full),
        ("node{}", call(&[small(0, 4097)], 5000), full),
        ("node{}", call(&[small(0, 4095)], 4094), full),
        (layers(1), call(&[small(1, 2000), small(2, 2096)], 5000), Ok(4096)),
        (layers(1), call(&[small(1, 2000), small(2, 2097)], 5000), full),
        (layers(2), call(&[small(1, 1000), small(2, 1048)], 4096), Ok(4096)),
        (layers(2), call(&[small(1, 1000), small(2, 1048)], 4095), full),
        (layers(3), call(&[small(1, 1365), small(2, 0)], 4096), Ok(4095)),
        (layers(3), call(&[small(1, 1365), small(2, 1)], 4096), full),
        ("way{}", call(&[small(0, 4097)], 5000), Ok(0)),
        ("node{}", call(&[most(0)], 20), Ok(16)),
        ("node{}", call(&[over(0)], 20), seven(0, 0)),
        ("node{}", call(&[small(0, 349_525)], 20), full),
        ("way{}", call(&[small(0, 349_525)], 20), Ok(0)),
        ("way{}", call(&[small(0, 349_526)], 20), seven(0, 0)),
        ("way{}", call(&[most(1), most(2)], 40), Ok(32)),
        ("way{}", call(&[over(1), most(2)], 40), seven(0, 0)),
        ("way{}", call(&[most(1), over(2)], 40), seven(1, 0)),
        ("way{}", call(&[over(1), over(2)], 40), seven(0, 0)),
        ("way{}", call(&[small(0, 1), over(2)], 40), seven(0, 0)),
        ("way{}", call(&[[small(1, 3), vec![9]].concat(), over(2)], 40), seven(0, 3)),
        ("way{}", call(&[small(1, 41), over(2)], 40), full),
        ("way{}", call(&[small(1, 1), long(2, MOST_BYTES + 1)], 40), seven(1, 0)),
        ("way{}", call(&[[small(1, 2), long(2, MOST_BYTES + 1)].concat(), small(2, 1)], 40), seven(0, 2)),
        ("way{}", call(&[[small(1, 2), long(2, MOST_BYTES)].concat(), small(2, 1)], 4), Ok(4)),
    ]
}

/// An entity of one of these kinds, mostly with a small id and a small tag `layer`, so that there are ties.
fn tied(r: &mut Random, base: &Entity, kinds: &[u8]) -> Entity {
    let mut entity = base.clone();
    if !kinds.contains(&entity.kind) || r.one_in(4) {
        entity.kind = kinds[r.below(kinds.len())];
    }
    entity.id = match r.below(8) {
        0 => u64::MAX - r.below(2) as u64,
        1 => r.next() >> r.below(64),
        _ => r.below(3) as u64,
    };
    match r.below(8) {
        0 => with_level(r, &mut entity),
        1..=3 => {}
        _ => {
            entity.tags.retain(|(key, _)| key != b"layer");
            if r.one_in(2) && entity.tags.len() < 256 {
                let value = r.pick(&["0", "0", "1", "-1", "+0", "x"]).as_bytes().to_vec();
                let place = entity.tags.partition_point(|(key, _)| &key[..] < b"layer");
                entity.tags.insert(place, (b"layer".to_vec(), value));
            }
        }
    }
    entity
}

fn stream(r: &mut Random, load: &Load, kinds: &[u8], count: usize) -> Vec<Entity> {
    let mut pool: Vec<Entity> = (0..r.between(1, 4)).map(|_| style_entity(r, load).0).collect();
    // few entities have very many tags
    if !r.one_in(50) {
        pool.iter_mut().for_each(|entity| entity.tags.truncate(20));
    }
    let one = |_| {
        let base = &pool[r.below(pool.len())];
        tied(r, base, kinds)
    };
    (0..count).map(one).collect()
}

/// The bytes of a stream, with a mistake if there is to be one.
fn written(r: &mut Random, all: &[Entity], kinds: &[u8], mistake: bool) -> Vec<u8> {
    let at = if mistake { r.below(all.len() + 1) } else { usize::MAX };
    let mut out = Vec::new();
    for (k, entity) in all.iter().enumerate() {
        if k != at {
            out.extend(entities::bytes(entity));
        } else if r.one_in(3) {
            // of the wrong sort, which comes before UTF-8
            let kind = [0, 1, 2, 3].into_iter().find(|kind| !kinds.contains(kind)).unwrap();
            let mut other = Entity { kind, ..entity.clone() };
            if r.one_in(2) {
                other.tags.push((b"\xff".to_vec(), Vec::new()));
            }
            out.extend(entities::bytes(&other));
        } else {
            out.extend(damaged(r, entity));
        }
    }
    if at == all.len() {
        match r.below(3) {
            0 => out.extend(&[kinds[0], 1][..r.between(1, 2)]),
            1 => out.truncate(out.len().saturating_sub(1)),
            _ => out.push(r.below(256) as u8),
        }
    }
    out
}

/// A call for a sheet, its list mostly just long enough or nearly.
pub fn random_call(r: &mut Random, sheet: &Sheet) -> Call {
    let zoom = style_entity(r, &sheet.load).1;
    let count = *r.pick(&[&0, &1, &2, &3, &3, &5, &8, &20]);
    let count = if r.one_in(60) { r.between(100, 600) } else { count };
    let mistake = r.one_in(8);
    let streams = if r.one_in(3) {
        let nodes = stream(r, &sheet.load, &[0], count);
        vec![written(r, &nodes, &[0], mistake)]
    } else {
        let ways = stream(r, &sheet.load, &[1, 2], count);
        // an open one has no likeness in the original
        let kinds: &[u8] = if r.one_in(10) { &[1, 2] } else { &[2] };
        let others = r.below(count + 2);
        let multipolygons = stream(r, &sheet.load, kinds, others);
        let second = mistake && r.one_in(2);
        vec![written(r, &ways, &[1, 2], mistake && !second), written(r, &multipolygons, &[1, 2], second)]
    };
    let mut call = Call { zoom, settings: settings(r), for_labels: r.one_in(2), streams, lent: 0 };
    call.lent = lent(r, sheet, &call);
    call
}

fn lent(r: &mut Random, sheet: &Sheet, call: &Call) -> usize {
    let all = model(&sheet.bundle, &sheet.handed, call, usize::MAX, &mut Tally::default());
    let n = all.map_or_else(|_| r.below(20), |list| list.len());
    match r.below(8) {
        0 => (3 * n).saturating_sub(r.between(1, 3)),
        1 => r.below(3 * n + 1),
        2 => 3 * n + 2,
        3 => 3 * n + r.below(20),
        4 if r.one_in(20) => 3 * r.between(4_096, 4_100),
        _ => 3 * n,
    }
}
