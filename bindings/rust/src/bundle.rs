//! Bundles: texts by name, and group numbers.

/// Texts by name. The first is the sheet; the others are what it may import.
#[derive(Clone, Debug, Default, PartialEq, Eq)]
pub struct Bundle {
    texts: Vec<(String, String)>,
}

impl Bundle {
    /// A bundle without texts.
    pub fn new() -> Bundle {
        Bundle::default()
    }

    /// With one more text. Nothing is checked here: a load refuses equal names, and what is over the limits.
    pub fn text(mut self, name: impl Into<String>, text: impl Into<String>) -> Bundle {
        self.texts.push((name.into(), text.into()));
        self
    }

    /// The bytes that a load takes.
    pub fn bytes(&self) -> Vec<u8> {
        let mut bytes = Vec::new();
        put_group(&mut bytes, self.texts.len() as u64);
        for (name, text) in &self.texts {
            put_part(&mut bytes, name);
            put_part(&mut bytes, text);
        }
        bytes
    }
}

/// Seven bits a byte, lowest first, the top bit set on all bytes but the last.
pub(crate) fn put_group(bytes: &mut Vec<u8>, mut number: u64) {
    while number >= 128 {
        bytes.push((number % 128) as u8 | 128);
        number /= 128;
    }
    bytes.push(number as u8);
}

/// A text behind its length.
pub(crate) fn put_part(bytes: &mut Vec<u8>, text: &str) {
    put_group(bytes, text.len() as u64);
    bytes.extend(text.as_bytes());
}
