//! A module inside the original's reader.rs: its reader over entities of ours, laid out in memory as its files are.

use super::*;
use crate::entities::Entity;
use std::collections::HashMap;

pub enum Found<'a> {
    Node(Node<'a>),
    Way(Way<'a>),
    Multipolygon(Multipolygon<'a>),
}

/// What is handed to a drawing list.
pub enum Streams<'a> {
    Nodes(Vec<Node<'a>>),
    Areas(Vec<Way<'a>>, Vec<Multipolygon<'a>>),
}

/// Where an entity stands among those of its storage.
enum Place {
    Node(usize),
    Way(usize),
    Multipolygon(usize),
}

/// A closed entity is a way or, if its id is odd, a multipolygon.
fn by_id(entity: &Entity) -> bool {
    entity.kind == 2 && entity.id % 2 == 1
}

/// The places of these entities, each with whether it is a multipolygon.
fn places<'e>(all: impl Iterator<Item = (&'e Entity, bool)>) -> Vec<Place> {
    // the first two nodes are corners
    let (mut nodes, mut ways, mut multipolygons) = (2.., 0.., 0..);
    let mut place = |(entity, multipolygon): (&Entity, bool)| match entity.kind {
        0 => Place::Node(nodes.next().unwrap()),
        _ if multipolygon => Place::Multipolygon(multipolygons.next().unwrap()),
        _ => Place::Way(ways.next().unwrap()),
    };
    all.map(&mut place).collect()
}

#[derive(Default)]
struct File {
    nodes: Vec<u8>,
    ways: Vec<u8>,
    multipolygons: Vec<u8>,
    ints: Vec<u32>,
    strings: Vec<u8>,
    /// Places of strings that equal ones share.
    shared: Option<HashMap<Vec<u8>, u32>>,
}

fn put_ref(out: &mut Vec<u8>, from: usize, length: usize) {
    out.extend((from as u32).to_le_bytes());
    out.extend((length as u32).to_le_bytes());
}

impl File {
    /// A byte behind each, so that an empty one has its own place, too.
    fn string(&mut self, part: &[u8]) -> [u32; 2] {
        let fresh = self.strings.len() as u32;
        let from = match &mut self.shared {
            Some(places) => *places.entry(part.to_vec()).or_insert(fresh),
            None => fresh,
        };
        if from == fresh {
            self.strings.extend(part);
            self.strings.push(0);
        }
        [from, part.len() as u32]
    }

    fn ints(&mut self, all: &[u32]) -> (usize, usize) {
        let from = self.ints.len();
        self.ints.extend(all);
        (from, all.len())
    }

    fn add(&mut self, entity: &Entity, place: &Place) {
        let mut refs = Vec::new();
        for part in entity.tags.iter().flat_map(|(key, value)| [key, value]) {
            refs.extend(self.string(part));
        }
        let (tags, tags_length) = self.ints(&refs);
        // an open way has both corners, as a line of two or of three nodes; a closed one comes back
        let corners: &[u32] = match (entity.kind, entity.id % 2) {
            (1, 0) => &[0, 1],
            (1, _) => &[0, 0, 1],
            _ => &[0, 1, 0],
        };
        let (ids, ids_length) = self.ints(corners);
        let out = match place {
            Place::Node(_) => &mut self.nodes,
            Place::Way(_) => &mut self.ways,
            Place::Multipolygon(_) => &mut self.multipolygons,
        };
        out.extend(entity.id.to_le_bytes());
        match place {
            Place::Node(_) => out.extend([0; 16]),
            // no case asks for a polygon
            Place::Multipolygon(_) => put_ref(out, 0, 0),
            Place::Way(_) => put_ref(out, ids, ids_length),
        }
        put_ref(out, tags, tags_length);
    }

    fn bytes(&self) -> Vec<u8> {
        let mut out = Vec::new();
        let put = |out: &mut Vec<u8>, objects: &[u8], size: usize| {
            out.extend(((objects.len() / size) as u32).to_le_bytes());
            out.extend(objects);
        };
        put(&mut out, &self.nodes, NODE_SIZE);
        put(&mut out, &self.ways, WAY_OR_MULTIPOLYGON_SIZE);
        put(&mut out, &[], POLYGON_SIZE);
        put(&mut out, &self.multipolygons, WAY_OR_MULTIPOLYGON_SIZE);
        put(&mut out, &[], TILE_SIZE);
        out.extend((self.ints.len() as u32).to_le_bytes());
        self.ints.iter().for_each(|n| out.extend(n.to_le_bytes()));
        out.extend(&self.strings);
        out
    }
}

/// The reader of these entities, over memory that it holds, as `load` makes one over a file.
fn laid_out<'e>(
    all: impl Iterator<Item = (&'e Entity, bool)> + Clone,
    shared: Option<HashMap<Vec<u8>, u32>>,
) -> GeodataReader<'static> {
    let mut file = File { shared, ..File::default() };
    for corner in [0.0f64, 1.0] {
        file.nodes.extend(0u64.to_le_bytes());
        file.nodes.extend(corner.to_le_bytes());
        file.nodes.extend(corner.to_le_bytes());
        put_ref(&mut file.nodes, 0, 0);
    }
    for ((entity, _), place) in all.clone().zip(places(all)) {
        file.add(entity, &place);
    }
    let bytes = file.bytes();
    let mut memory = MmapOptions::new().len(bytes.len()).map_anon().unwrap();
    memory.copy_from_slice(&bytes);
    let memory = memory.make_read_only().unwrap();
    let held = memory.deref() as *const [u8];
    let storages = ObjectStorages::from_bytes(unsafe { &*held });
    GeodataReader { storages, _mmap: memory }
}

/// Each of these entities alone, a closed one as a way or as a multipolygon by its id.
pub fn reader(all: &[Entity]) -> GeodataReader<'static> {
    laid_out(all.iter().map(|entity| (entity, by_id(entity))), None)
}

/// The entities as the original has them, in order.
pub fn entities<'a>(reader: &'a GeodataReader<'a>, all: &[Entity]) -> Vec<Found<'a>> {
    let found = |place| match place {
        Place::Node(n) => Found::Node(reader.get_node(n)),
        Place::Way(n) => Found::Way(reader.get_way(n)),
        Place::Multipolygon(n) => Found::Multipolygon(reader.get_multipolygon(n)),
    };
    places(all.iter().map(|entity| (entity, by_id(entity)))).into_iter().map(found).collect()
}

/// The reader of one stream of nodes, or of ways and multipolygons. The original's cache tells strings apart by their
/// places: either equal ones share one, as in its files, or each has its own.
pub fn stream_reader(streams: &[Vec<Entity>], shared: bool) -> GeodataReader<'static> {
    let all = streams.iter().enumerate().flat_map(|(n, all)| all.iter().map(move |entity| (entity, n == 1)));
    laid_out(all, shared.then(HashMap::new))
}

pub fn streams<'a>(reader: &'a GeodataReader<'a>, streams: &[Vec<Entity>]) -> Streams<'a> {
    match streams {
        [nodes] => Streams::Nodes((0..nodes.len()).map(|n| reader.get_node(2 + n)).collect()),
        [ways, multipolygons] => Streams::Areas(
            (0..ways.len()).map(|n| reader.get_way(n)).collect(),
            (0..multipolygons.len()).map(|n| reader.get_multipolygon(n)).collect(),
        ),
        _ => unreachable!("one stream or two"),
    }
}
