//! Drawing lists: what is handed to a call and what it answers, and the model, written from the papers' text. The
//! original has no refusals here.

use crate::entities::{self, Entity, MOST_STREAM};
use crate::loads::Refusal;
use crate::maps::{self, Handed};
use crate::style_tally;
use crate::styles::{rows, Row, Settings};
use crate::tally::{self, Line};
use std::cmp::Ordering;
use std::sync::OnceLock;

pub const MOST_ENTRIES: usize = 4_096;

/// Stream (1 for multipolygons), place in it, place among the entity's styled layers.
pub type Entry = [u32; 3];
pub type Answer = Result<Vec<Entry>, Refusal>;

/// What is handed to a call besides the sheet.
#[derive(Clone, Debug)]
pub struct Call {
    pub zoom: u8,
    pub settings: Settings,
    pub for_labels: bool,
    /// One of nodes, or two: ways and multipolygons.
    pub streams: Vec<Vec<u8>>,
    /// Words of the list that is lent.
    pub lent: usize,
}

impl Call {
    pub fn capacity(&self) -> usize {
        (self.lent / 3).min(MOST_ENTRIES)
    }

    /// The kinds of entities that may stand in its streams.
    pub fn kinds(&self) -> &'static [u8] {
        if self.streams.len() == 1 {
            &[0]
        } else {
            &[1, 2]
        }
    }

    /// The entities, where all are sound.
    pub fn entities(&self) -> Option<Vec<Vec<Entity>>> {
        let mut streams = Vec::new();
        for mut bytes in self.streams.iter().map(|stream| &stream[..]) {
            let mut all = Vec::new();
            while !bytes.is_empty() {
                let (entity, length) = entities::first(bytes, self.kinds()).ok()?;
                all.push(entity);
                bytes = &bytes[length..];
            }
            streams.push(all);
        }
        Some(streams)
    }
}

/// A styled layer to be drawn.
#[derive(Clone, Debug)]
pub struct Drawn {
    pub entry: Entry,
    pub id: u64,
    pub row: Row,
}

/// What decides between two entries.
#[derive(Clone, Copy)]
enum Rank {
    Layer,
    Fill,
    ZIndex,
    Id,
    Input,
}

impl Drawn {
    /// How this one stands to another, and by what; no z-index is NaN.
    fn beside(&self, other: &Drawn, for_labels: bool) -> (Ordering, Rank) {
        // the tag `layer` is 0 where it is absent
        let layers = self.row.layer.cmp(&other.row.layer);
        let fills = self.row.words[2].cmp(&other.row.words[2]);
        let z_indices = self.row.z_index().partial_cmp(&other.row.z_index()).unwrap();
        let fill = if for_labels { Ordering::Equal } else { fills };
        let all =
            [(layers, Rank::Layer), (fill, Rank::Fill), (z_indices, Rank::ZIndex), (self.id.cmp(&other.id), Rank::Id)];
        all.into_iter().find(|(order, _)| order.is_ne()).unwrap_or((Ordering::Equal, Rank::Input))
    }
}

fn drawn(
    bundle: &[u8],
    handed: &Handed,
    call: &Call,
    capacity: usize,
    tally: &mut Tally,
) -> Result<Vec<Drawn>, Refusal> {
    if !maps::sound(handed, bundle.len()) {
        return Err([22, 0, 0, 0, 0]);
    }
    let mut streams = [Vec::new(), Vec::new()];
    let mut count = 0;
    for (stream, all) in call.streams.iter().enumerate() {
        let refused = |number: u64, place: usize| [number, stream as u64, place as u64, 0, 0];
        if all.len() > MOST_STREAM {
            return Err(refused(7, 0));
        }
        let mut rest = &all[..];
        for place in 0.. {
            if rest.is_empty() {
                break;
            }
            let (entity, length) = entities::first(rest, call.kinds()).map_err(|number| refused(number, place))?;
            rest = &rest[length..];
            let rows = rows(bundle, handed, call.zoom, &call.settings, &entity, &mut tally.styles);
            let rows = rows.map_err(|number| refused(number, place))?;
            if rows.iter().any(|row| row.z_index().is_nan()) {
                return Err(refused(9, place));
            }
            count += rows.len();
            if count > capacity {
                return Err([25, 0, 0, 0, 0]);
            }
            for (layer, row) in rows.into_iter().enumerate() {
                let entry = [stream as u32, place as u32, layer as u32];
                streams[stream].push(Drawn { entry, id: entity.id, row });
            }
        }
    }
    let [ways, mut list] = streams;
    // ties keep the order of the input, multipolygons before ways
    list.extend(ways);
    list.sort_by(|a, b| a.beside(b, call.for_labels).0);
    Ok(list)
}

/// What a call must list if the list has room for so many entries.
pub fn model(
    bundle: &[u8],
    handed: &Handed,
    call: &Call,
    capacity: usize,
    tally: &mut Tally,
) -> Result<Vec<Drawn>, Refusal> {
    let answer = drawn(bundle, handed, call, capacity, tally);
    tally.answer(call, capacity, &answer);
    answer
}

pub fn entries(answer: &Result<Vec<Drawn>, Refusal>) -> Answer {
    answer.as_ref().map(|list| list.iter().map(|drawn| drawn.entry).collect()).map_err(|refusal| *refusal)
}

const RANKS: [&str; 5] = ["layer", "fill", "z-index", "id", "input"];
const LENGTHS: [&str; 7] = ["0", "1", "2 to 9", "10 to 99", "100 to 999", "1000 to 4095", "4096"];
/// The number, 1 for the stream of multipolygons, and whether it is the first entity.
const REFUSALS: [&str; 16] =
    ["22", "25", "7", "7 at 0", "7 1", "7 1 at 0", "2", "2 1", "8", "8 1", "9", "9 1", "23", "23 1", "24", "24 1"];
const SHAPES: [&str; 18] = [
    "nodes",
    "areas",
    "for labels",
    "not for labels",
    "just full",
    "words over",
    "no room",
    "room over 4096",
    "multipolygon before way by the input",
    "0 beside -0",
    "inf",
    "-inf",
    "equal layers, other fills for labels",
    "least layer",
    "greatest layer",
    "layer absent beside 0",
    "one entity's layers apart",
    "empty stream beside another",
];

/// How often each criterion decided between neighbours, and so on.
#[derive(Clone)]
pub struct Tally {
    pub styles: style_tally::Tally,
    ranks: Line,
    label_ranks: Line,
    lengths: Line,
    refused: Line,
    shapes: Line,
    cached: Line,
}

impl Default for Tally {
    fn default() -> Tally {
        static EMPTY: OnceLock<Tally> = OnceLock::new();
        let empty = || Tally {
            styles: style_tally::Tally::default(),
            ranks: Line::new("neighbours told apart by", RANKS),
            label_ranks: Line::new("for labels by", RANKS.into_iter().filter(|name| *name != "fill")),
            lengths: Line::new("length", LENGTHS),
            refused: Line::new("refused", REFUSALS),
            shapes: Line::new("shape", SHAPES),
            cached: Line::new("styles from the original's cache", ["strings apart", "strings shared"]),
        };
        EMPTY.get_or_init(empty).clone()
    }
}

impl Tally {
    fn answer(&mut self, call: &Call, capacity: usize, answer: &Result<Vec<Drawn>, Refusal>) {
        let list = match answer {
            Ok(list) => list,
            Err(refusal) => {
                let place = if refusal[0] == 7 && refusal[2] == 0 { " at 0" } else { "" };
                let stream = if refusal[1] == 1 { " 1" } else { "" };
                self.refused.named(&format!("{}{stream}{place}", refusal[0]));
                return;
            }
        };
        let n = list.len();
        self.lengths.met(match n {
            0 | 1 => n,
            2..=9 => 2,
            10..=99 => 3,
            100..=999 => 4,
            1000..=4095 => 5,
            _ => 6,
        });
        self.shapes(call, capacity, list);
        for pair in list.windows(2) {
            self.neighbours(call, &pair[0], &pair[1]);
        }
    }

    fn shapes(&mut self, call: &Call, capacity: usize, list: &[Drawn]) {
        let areas = call.streams.len() == 2;
        self.shapes.named(if areas { "areas" } else { "nodes" });
        self.shapes.named(if call.for_labels { "for labels" } else { "not for labels" });
        let mut met = |name: &str, met: bool| {
            if met {
                self.shapes.named(name);
            }
        };
        met("just full", list.len() == capacity && capacity > 0);
        met("words over", call.lent % 3 > 0);
        met("no room", call.lent < 3);
        met("room over 4096", call.lent / 3 > MOST_ENTRIES);
        met("empty stream beside another", areas && call.streams[0].is_empty() != call.streams[1].is_empty());
        for drawn in list {
            met("inf", drawn.row.z_index() == f64::INFINITY);
            met("-inf", drawn.row.z_index() == f64::NEG_INFINITY);
            met("least layer", drawn.row.layer == i64::MIN);
            met("greatest layer", drawn.row.layer == i64::MAX);
        }
    }

    fn neighbours(&mut self, call: &Call, a: &Drawn, b: &Drawn) {
        let (_, rank) = a.beside(b, call.for_labels);
        let line = if call.for_labels { &mut self.label_ranks } else { &mut self.ranks };
        line.named(RANKS[rank as usize]);
        let mut met = |name: &str, met: bool| {
            if met {
                self.shapes.named(name);
            }
        };
        let same_layer = a.row.layer == b.row.layer;
        met("multipolygon before way by the input", matches!(rank, Rank::Input) && a.entry[0] > b.entry[0]);
        met("0 beside -0", a.row.z_index() == 0.0 && b.row.z_index() == 0.0 && a.row.floats[0] != b.row.floats[0]);
        met("equal layers, other fills for labels", call.for_labels && same_layer && a.row.words[2] != b.row.words[2]);
        met("layer absent beside 0", same_layer && a.row.words[1] != b.row.words[1]);
        let same_entity = a.entry[..2] == b.entry[..2];
        met("one entity's layers apart", same_entity && a.entry[2].abs_diff(b.entry[2]) > 1);
    }

    /// So many entities took their styles from the original's cache.
    pub fn cached(&mut self, shared: bool, entities: usize) {
        self.cached.met_often(usize::from(shared), entities as u64);
    }
}

impl tally::Tally for Tally {
    fn lines(&mut self) -> Vec<&mut Line> {
        let Tally { ranks, label_ranks, lengths, refused, shapes, cached, .. } = self;
        vec![ranks, label_ranks, lengths, refused, shapes, cached]
    }
}
