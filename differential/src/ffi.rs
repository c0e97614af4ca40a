//! The exports of crate capi_token, and of crate capi the loads and property maps, one safe wrapper for each. Nothing checks
//! these declarations against the Rattle source; the codes stand at the top of each crate's src/lib.rt.

use crate::loads::{stride, Filled, Lent, Tables, NUMBERS};
use crate::maps::{Answer, Handed, Layer};
use crate::tokens::{bits, Cursor, Payload, Step, END, ERROR, KINDS};

/// The declarations of capi's exports.
#[allow(dead_code)]
#[path = "../../bindings/rust/src/raw.rs"]
pub mod raw;

extern "C" {
    fn mapcss_next_token(
        s: *const u8,
        s_len: usize,
        at: usize,
        line: usize,
        character: usize,
        newline: bool,
        out: *mut u64,
        out_len: usize,
        number: *mut f64,
        number_len: usize,
    ) -> u64;
}

/// What mapcss_next_token writes.
pub struct Room {
    pub out: [u64; 10],
    pub number: [f64; 1],
}

impl Room {
    /// Filled with what no answer holds, so that a word left unwritten shows.
    pub fn new() -> Room {
        Room { out: [u64::MAX; 10], number: [-1e300] }
    }
}

/// One step as it comes, for timing.
pub fn raw_next_token(text: &[u8], from: Cursor, room: &mut Room) -> u64 {
    unsafe {
        mapcss_next_token(
            text.as_ptr(),
            text.len(),
            from.at,
            from.line,
            from.character,
            from.newline,
            room.out.as_mut_ptr(),
            room.out.len(),
            room.number.as_mut_ptr(),
            room.number.len(),
        )
    }
}

pub fn cursor(out: &[u64]) -> Cursor {
    Cursor { at: out[0] as usize, line: out[1] as usize, character: out[2] as usize, newline: out[3] != 0 }
}

pub fn next_token(text: &[u8], from: Cursor) -> Step {
    let mut room = Room::new();
    let kind = raw_next_token(text, from, &mut room);
    assert!(kind < KINDS.len() as u64, "kind {kind} is none of the codes");
    let kind = kind as u8;
    let after = cursor(&room.out);
    let place = (room.out[4] as usize, room.out[5] as usize);
    let p = &room.out[6..];
    let level = |present: u64, level: u64| (present != 0).then_some(level);
    let (line, character) = match kind {
        END => (after.line, after.character),
        ERROR => (p[1] as usize, p[2] as usize),
        _ => place,
    };
    let (used, payload) = match kind {
        ERROR => (3, Payload::Reason(p[0])),
        2 | 3 | 4 | 7 => (2, Payload::Range(p[0] as usize, p[1] as usize)),
        5 => (0, Payload::Number(bits(room.number[0]))),
        6 => (4, Payload::Zoom(level(p[0], p[1]), level(p[2], p[3]))),
        8 => (3, Payload::Color(p[0], p[1], p[2])),
        _ => (0, Payload::None),
    };
    let unused = match kind {
        END => &room.out[4..6],
        ERROR => &room.out[..6],
        _ => &[],
    };
    assert!(unused.iter().chain(&p[used..]).all(|&word| word == 0), "kind {kind}, words {:?}", room.out);
    assert!(kind == 5 || room.number[0] == 0.0, "a number with kind {kind}");
    Step { kind, line, character, payload, cursor: (kind != ERROR).then_some(after) }
}

/// What mapcss_load writes, with some elements behind each table that are not lent.
pub struct LoadRoom {
    pub words: [Vec<u32>; 6],
    pub numbers: Vec<f64>,
    pub out: [u64; 7],
}

const BEHIND: usize = 8;
const LEFT_WORD: u32 = 0xdead_beef;
const LEFT_NUMBER: f64 = -1e300;

impl LoadRoom {
    /// Filled with what no answer leaves there.
    pub fn new(lent: &Lent) -> LoadRoom {
        let words = |table: usize| if table == NUMBERS { 0 } else { lent[table] + BEHIND };
        LoadRoom {
            words: std::array::from_fn(|table| vec![LEFT_WORD; words(table)]),
            numbers: vec![LEFT_NUMBER; lent[NUMBERS] + BEHIND],
            out: [u64::MAX; 7],
        }
    }
}

/// One load as it comes, for timing.
pub fn raw_load(bundle: &[u8], lent: &Lent, room: &mut LoadRoom) -> u64 {
    let [rules, selectors, tests, properties, _, colors] = &mut room.words;
    let tables = raw::Room {
        rules: &mut rules[..lent[0]],
        selectors: &mut selectors[..lent[1]],
        tests: &mut tests[..lent[2]],
        properties: &mut properties[..lent[3]],
        numbers: &mut room.numbers[..lent[NUMBERS]],
        colors: &mut colors[..lent[5]],
    };
    raw::load(bundle, tables, &mut room.out[..6])
}

/// The entries or the refusal; or what the call did wrong with the memory lent.
pub fn load(bundle: &[u8], lent: &Lent) -> Result<Filled, String> {
    let mut room = LoadRoom::new(lent);
    let number = raw_load(bundle, lent, &mut room);
    let out = room.out;
    let behind = |table: usize| {
        if table == NUMBERS {
            room.numbers[lent[table]..].iter().all(|&x| x == LEFT_NUMBER)
        } else {
            room.words[table][lent[table]..].iter().all(|&word| word == LEFT_WORD)
        }
    };
    // every element from here on
    let zero = |table: usize, from: usize| {
        if table == NUMBERS {
            room.numbers[from..lent[table]].iter().all(|x| x.to_bits() == 0)
        } else {
            room.words[table][from..lent[table]].iter().all(|&word| word == 0)
        }
    };
    if out[6] != u64::MAX || !(0..6).all(behind) {
        return Err("wrote behind what was lent".to_string());
    }
    if number != 0 {
        if out[0] != number || out[5] != 0 {
            return Err(format!("answered {number} with {out:?}"));
        }
        if let Some(table) = (0..6).find(|&table| !zero(table, 0)) {
            return Err(format!("refused with {:?}, but table {table} is not zero", &out[..5]));
        }
        return Ok(Err(out[..5].try_into().unwrap()));
    }
    let mut tables = Tables::default();
    for table in 0..6 {
        let count = usize::try_from(out[table]).unwrap_or(usize::MAX);
        let end = count.saturating_mul(stride(table));
        if end > lent[table] {
            return Err(format!("counts {:?} with {lent:?} lent", &out[..6]));
        }
        if !zero(table, end) {
            return Err(format!("table {table} is not zero behind {count} entries"));
        }
        if table == NUMBERS {
            tables.numbers = room.numbers[..end].iter().map(|&x| bits(x)).collect();
        } else {
            tables.entries[table] = room.words[table][..end].chunks(8).map(|c| c.try_into().unwrap()).collect();
        }
    }
    Ok(Ok(tables))
}

/// Words of a layer's row, and of all rows.
const ROW: usize = raw::MAP_WORDS;
const WORDS: usize = raw::MAPS_WORDS;

/// What mapcss_property_maps writes, with some elements behind it that are not lent.
pub struct MapRoom {
    pub maps: Vec<u32>,
    pub out: [u64; 6],
}

impl MapRoom {
    /// Filled with what no answer leaves there.
    pub fn new() -> MapRoom {
        MapRoom { maps: vec![LEFT_WORD; WORDS + BEHIND], out: [u64::MAX; 6] }
    }
}

/// What is handed to every call but a load.
pub fn tables<'a>(bundle: &'a [u8], handed: &'a Handed) -> raw::Tables<'a> {
    let [rules, selectors, tests, properties] = &handed.words;
    raw::Tables { bundle, rules, selectors, tests, properties, numbers: &handed.numbers, counts: &handed.counts }
}

/// One call as it comes, for timing.
pub fn raw_property_maps(bundle: &[u8], handed: &Handed, zoom: u8, entity: &[u8], room: &mut MapRoom) -> u64 {
    let maps = (&mut room.maps[..WORDS]).try_into().unwrap();
    raw::property_maps(tables(bundle, handed), zoom, entity, maps, &mut room.out[..5])
}

/// The layers or the refusal; or what the call did wrong with the memory lent.
pub fn property_maps(bundle: &[u8], handed: &Handed, zoom: u8, entity: &[u8]) -> Result<Answer, String> {
    let mut room = MapRoom::new();
    let number = raw_property_maps(bundle, handed, zoom, entity, &mut room);
    let out = room.out;
    if out[5] != u64::MAX || room.maps[WORDS..].iter().any(|&word| word != LEFT_WORD) {
        return Err("wrote behind what was lent".to_string());
    }
    let zero = |words: &[u32]| words.iter().all(|&word| word == 0);
    let rows = &room.maps[..WORDS];
    if number != 0 {
        if out[0] != number || !zero(rows) {
            return Err(format!("refused {number} with {out:?}, maps zero: {}", zero(rows)));
        }
        return Ok(Err(out[..5].try_into().unwrap()));
    }
    let layers = usize::try_from(out[0]).unwrap_or(usize::MAX);
    if layers > WORDS / ROW || out[1..5] != [0; 4] || !zero(&rows[layers * ROW..]) {
        return Err(format!("answered 0 with {out:?}, or the maps are not zero behind the layers"));
    }
    let mut answer = Vec::new();
    for row in rows.chunks(ROW).take(layers) {
        let count = row[1] as usize;
        if count > ROW - 2 || !zero(&row[2 + count..]) {
            return Err(format!("a row of {count} properties is not zero behind them"));
        }
        answer.push(Layer { selector: row[0], properties: row[2..2 + count].to_vec() });
    }
    Ok(Ok(answer))
}
