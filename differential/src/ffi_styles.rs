//! The exports of crate capi for styles, the canvas colour and drawing lists, one safe wrapper for each sort of answer. The
//! layouts stand at the top of its src/lib.rt.

use crate::draws::{self, Call};
use crate::ffi::{raw, tables};
use crate::maps::{Handed, MOST_LAYERS};
use crate::styles::{Answer, Canvas, Row, Settings, ROW_FLOATS, ROW_WORDS};
use crate::tokens::bits;

const BEHIND: usize = 8;
const LEFT_WORD: u32 = 0xdead_beef;
const LEFT_LONG: u64 = 0xdead_beef_dead_beef;
const LEFT_NUMBER: f64 = -1e300;
const LEFT_LEVEL: i64 = -0x0dea_dbee_fdea_dbee;

const WORDS: usize = MOST_LAYERS * ROW_WORDS;
const FLOATS: usize = MOST_LAYERS * ROW_FLOATS;

/// What mapcss_styles writes, with some elements behind it that are not lent.
pub struct StyleRoom {
    pub words: Vec<u64>,
    pub floats: Vec<f64>,
    pub layers: Vec<i64>,
    pub out: [u64; 6],
}

impl StyleRoom {
    /// Filled with what no answer leaves there.
    pub fn new() -> StyleRoom {
        StyleRoom {
            words: vec![LEFT_LONG; WORDS + BEHIND],
            floats: vec![LEFT_NUMBER; FLOATS + BEHIND],
            layers: vec![LEFT_LEVEL; MOST_LAYERS + BEHIND],
            out: [u64::MAX; 6],
        }
    }
}

/// One call as it comes, for timing.
pub fn raw_styles(
    bundle: &[u8],
    handed: &Handed,
    zoom: u8,
    settings: &Settings,
    entity: &[u8],
    room: &mut StyleRoom,
) -> u64 {
    let asked = raw::Asked { zoom, style_type: settings.style_type, font: &settings.font, for_labels: false };
    raw::styles(
        tables(bundle, handed),
        asked,
        entity,
        (&mut room.words[..WORDS]).try_into().unwrap(),
        (&mut room.floats[..FLOATS]).try_into().unwrap(),
        (&mut room.layers[..MOST_LAYERS]).try_into().unwrap(),
        &mut room.out[..5],
    )
}

/// The styled layers or the refusal; or what the call did wrong with the memory lent.
pub fn styles(bundle: &[u8], handed: &Handed, zoom: u8, settings: &Settings, entity: &[u8]) -> Result<Answer, String> {
    let mut room = StyleRoom::new();
    let number = raw_styles(bundle, handed, zoom, settings, entity, &mut room);
    let StyleRoom { words, floats, layers, out } = room;
    let kept = words[WORDS..].iter().all(|&word| word == LEFT_LONG)
        && floats[FLOATS..].iter().all(|&x| x == LEFT_NUMBER)
        && layers[MOST_LAYERS..].iter().all(|&n| n == LEFT_LEVEL);
    if out[5] != u64::MAX || !kept {
        return Err("wrote behind what was lent".to_string());
    }
    // every row from here on
    let zero = |row: usize| {
        words[row * ROW_WORDS..WORDS].iter().all(|&word| word == 0)
            && floats[row * ROW_FLOATS..FLOATS].iter().all(|x| x.to_bits() == 0)
            && layers[row..MOST_LAYERS].iter().all(|&n| n == 0)
    };
    if number != 0 {
        if out[0] != number || !zero(0) {
            return Err(format!("refused {number} with {out:?}, rows zero: {}", zero(0)));
        }
        return Ok(Err(out[..5].try_into().unwrap()));
    }
    let count = usize::try_from(out[0]).unwrap_or(usize::MAX);
    if count > MOST_LAYERS || out[1..5] != [0; 4] || !zero(count) {
        return Err(format!("answered 0 with {out:?}, or the rows are not zero behind the layers"));
    }
    let row = |k: usize| Row {
        words: words[k * ROW_WORDS..(k + 1) * ROW_WORDS].try_into().unwrap(),
        floats: std::array::from_fn(|n| bits(floats[k * ROW_FLOATS + n])),
        layer: layers[k],
    };
    Ok(Ok((0..count).map(row).collect()))
}

/// The colour, if there is one, or the refusal; or what the call did wrong.
pub fn canvas_color(bundle: &[u8], handed: &Handed, style_type: u8) -> Result<Canvas, String> {
    let mut out = [u64::MAX; 6];
    let number = raw::canvas_color(tables(bundle, handed), style_type, &mut out[..5]);
    let byte = |n: u64| u8::try_from(n).ok();
    match (number, out) {
        (0, [0, 0, 0, 0, 0, u64::MAX]) => Ok(Ok(None)),
        (0, [1, r, g, b, 0, u64::MAX]) => match (byte(r), byte(g), byte(b)) {
            (Some(r), Some(g), Some(b)) => Ok(Ok(Some([r, g, b]))),
            _ => Err(format!("answered 0 with {out:?}")),
        },
        (1.., [first, .., u64::MAX]) if first == number => Ok(Err(out[..5].try_into().unwrap())),
        _ => Err(format!("answered {number} with {out:?}")),
    }
}

/// What a call for a drawing list writes, with some elements behind it that are not lent.
pub struct ListRoom {
    pub list: Vec<u32>,
    pub out: [u64; 6],
}

impl ListRoom {
    /// Filled with what no answer leaves there.
    pub fn new(lent: usize) -> ListRoom {
        ListRoom { list: vec![LEFT_WORD; lent + BEHIND], out: [u64::MAX; 6] }
    }
}

/// One call as it comes, for timing: of nodes, or of ways and multipolygons.
pub fn raw_draw(bundle: &[u8], handed: &Handed, call: &Call, room: &mut ListRoom) -> u64 {
    let Settings { style_type, font } = &call.settings;
    let asked = raw::Asked { zoom: call.zoom, style_type: *style_type, font, for_labels: call.for_labels };
    let (list, out) = (&mut room.list[..call.lent], &mut room.out[..5]);
    match &call.streams[..] {
        [nodes] => raw::style_entities(tables(bundle, handed), asked, nodes, list, out),
        [ways, multipolygons] => raw::style_areas(tables(bundle, handed), asked, ways, multipolygons, list, out),
        _ => unreachable!("one stream or two"),
    }
}

/// The entries or the refusal; or what the call did wrong with the memory lent.
pub fn draw(bundle: &[u8], handed: &Handed, call: &Call) -> Result<draws::Answer, String> {
    let mut room = ListRoom::new(call.lent);
    let number = raw_draw(bundle, handed, call, &mut room);
    let ListRoom { list, out } = room;
    let (list, behind) = list.split_at(call.lent);
    if out[5] != u64::MAX || behind.iter().any(|&word| word != LEFT_WORD) {
        return Err("wrote behind what was lent".to_string());
    }
    let zero = |from: usize| list[from..].iter().all(|&word| word == 0);
    if number != 0 {
        if out[0] != number || !zero(0) {
            return Err(format!("refused {number} with {out:?}, list zero: {}", zero(0)));
        }
        return Ok(Err(out[..5].try_into().unwrap()));
    }
    let count = usize::try_from(out[0]).unwrap_or(usize::MAX);
    if count > call.capacity() || out[1..5] != [0; 4] || !zero(3 * count) {
        return Err(format!("answered 0 with {out:?}, or the list is not zero behind the entries"));
    }
    Ok(Ok(list[..3 * count].chunks(3).map(|entry| entry.try_into().unwrap()).collect()))
}
