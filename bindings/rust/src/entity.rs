//! Entities of a map.

use crate::bundle::{put_group, put_part};
use std::collections::BTreeMap;

/// A node, an open way or multipolygon, or a closed one, with its id and tags.
#[derive(Clone, Debug, PartialEq, Eq)]
pub struct Entity {
    kind: u8,
    id: u64,
    // strings are ordered by their bytes, as the engine wants keys
    tags: BTreeMap<String, String>,
}

impl Entity {
    /// A node without tags.
    pub fn node(id: u64) -> Entity {
        Entity { kind: 0, id, tags: BTreeMap::new() }
    }

    /// An open way, or an open multipolygon.
    pub fn way(id: u64) -> Entity {
        Entity { kind: 1, id, tags: BTreeMap::new() }
    }

    /// A closed way, or a closed multipolygon.
    pub fn area(id: u64) -> Entity {
        Entity { kind: 2, id, tags: BTreeMap::new() }
    }

    /// With one more tag. An equal key is replaced.
    pub fn tag(mut self, key: impl Into<String>, value: impl Into<String>) -> Entity {
        self.tags.insert(key.into(), value.into());
        self
    }

    /// Its id.
    pub fn id(&self) -> u64 {
        self.id
    }

    /// The bytes that the engine takes.
    pub fn bytes(&self) -> Vec<u8> {
        let mut bytes = vec![self.kind];
        put_group(&mut bytes, self.id);
        put_group(&mut bytes, self.tags.len() as u64);
        for (key, value) in &self.tags {
            put_part(&mut bytes, key);
            put_part(&mut bytes, value);
        }
        bytes
    }
}

/// The bytes of a stream of entities.
pub(crate) fn stream(entities: &[Entity]) -> Vec<u8> {
    entities.iter().flat_map(Entity::bytes).collect()
}
