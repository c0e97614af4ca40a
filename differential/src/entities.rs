//! Entities: their bytes, and an independent check of their layout (refusals 7 and 2).

use crate::bundles::put_group;

pub const MOST_BYTES: usize = 65_536;
pub const MOST_TAGS: u64 = 256;
/// Bytes of a stream.
pub const MOST_STREAM: usize = 1_048_576;

#[derive(Clone, Debug, PartialEq)]
pub struct Entity {
    /// 0 node, 1 open way, 2 closed way or multipolygon.
    pub kind: u8,
    pub id: u64,
    /// Keys rise strictly, bytewise.
    pub tags: Vec<(Vec<u8>, Vec<u8>)>,
}

impl Entity {
    pub fn tag(&self, key: &[u8]) -> Option<&[u8]> {
        self.tags.iter().find(|(k, _)| k == key).map(|(_, value)| &value[..])
    }
}

/// The bytes of an entity; nothing is checked.
pub fn bytes(entity: &Entity) -> Vec<u8> {
    let mut out = vec![entity.kind];
    put_group(&mut out, entity.id);
    put_group(&mut out, entity.tags.len() as u64);
    for part in entity.tags.iter().flat_map(|(key, value)| [key, value]) {
        put_group(&mut out, part.len() as u64);
        out.extend(part);
    }
    out
}

struct Bytes<'a> {
    all: &'a [u8],
    at: usize,
}

impl<'a> Bytes<'a> {
    /// A group number of at most `most`.
    fn group(&mut self, most: u64) -> Option<u64> {
        let mut n: u128 = 0;
        for k in 0..10 {
            let byte = *self.all.get(self.at)?;
            self.at += 1;
            n += u128::from(byte % 128) << (7 * k);
            if byte < 128 {
                let shortest = byte != 0 || k == 0;
                return (shortest && n <= u128::from(most)).then_some(n as u64);
            }
        }
        None
    }

    fn part(&mut self) -> Option<&'a [u8]> {
        let length = self.group(u64::from(u32::MAX))? as usize;
        let part = self.all.get(self.at..self.at + length)?;
        self.at += length;
        Some(part)
    }
}

/// The entity at the start of these bytes, and its length.
fn front(all: &[u8]) -> Option<(Entity, usize)> {
    let mut bytes = Bytes { all, at: 1 };
    let kind = *all.first()?;
    let id = bytes.group(u64::MAX)?;
    let count = bytes.group(MOST_TAGS)?;
    let mut tags: Vec<(Vec<u8>, Vec<u8>)> = Vec::new();
    for _ in 0..count {
        let (key, value) = (bytes.part()?, bytes.part()?);
        if tags.last().is_some_and(|(last, _)| &last[..] >= key) {
            return None;
        }
        tags.push((key.to_vec(), value.to_vec()));
    }
    let good = kind <= 2 && bytes.at <= MOST_BYTES;
    good.then_some((Entity { kind, id, tags }, bytes.at))
}

fn utf8(entity: Entity) -> Result<Entity, u64> {
    let utf8 = |part: &[u8]| std::str::from_utf8(part).is_ok();
    if entity.tags.iter().all(|(key, value)| utf8(key) && utf8(value)) {
        Ok(entity)
    } else {
        Err(2)
    }
}

/// The entity of these bytes, or 7 or 2.
pub fn check(all: &[u8]) -> Result<Entity, u64> {
    let (entity, length) = front(all).ok_or(7u64)?;
    if length < all.len() {
        return Err(7);
    }
    utf8(entity)
}

/// The entity at the start of a stream, of one of these kinds, and its length; or 7 or 2.
pub fn first(stream: &[u8], kinds: &[u8]) -> Result<(Entity, usize), u64> {
    let (entity, length) = front(stream).ok_or(7u64)?;
    if !kinds.contains(&entity.kind) {
        return Err(7);
    }
    Ok((utf8(entity)?, length))
}
