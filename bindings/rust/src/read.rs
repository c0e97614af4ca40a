//! Names and values out of the words of the tables and of styles. docs/TABLES.md has the words, and the top of
//! crates/capi/src/lib.rt those of a style. Words of a load are always within the tables; no others panic here.

use crate::map::{Color, Property, PropertyMap, Value};
use crate::raw::ENTRY_WORDS;
use crate::sheet::Sheet;
use crate::style::{Layer, LineCap, Style, TextPosition, TextStyle};

impl Sheet {
    fn text(&self, from: usize, to: usize) -> String {
        String::from_utf8_lossy(self.bundle.get(from..to).unwrap_or_default()).into_owned()
    }

    fn joined(&self, a: usize, b: usize, c: usize, d: usize) -> String {
        self.text(a, b) + ":" + &self.text(c, d)
    }

    fn numbers(&self, from: usize, to: usize) -> Vec<f64> {
        self.numbers.get(from..to).unwrap_or_default().to_vec()
    }

    /// The name of the layer that a selector names.
    fn layer_name(&self, selector: usize) -> String {
        match entry(&self.selectors, selector) {
            [_, _, _, _, _, 1, from, to] => self.text(from, to),
            _ => "default".to_string(),
        }
    }

    pub(crate) fn color_entry(&self, words: &[u32]) -> (String, Color) {
        let [_, from, to, r, g, b, ..] = entry(words, 0);
        (self.text(from, to), color(r, g, b))
    }

    /// The map of a row: selector, count, places of the properties.
    pub(crate) fn property_map(&self, row: &[u32]) -> PropertyMap {
        let [selector, count, places @ ..] = row else {
            return PropertyMap { name: String::new(), properties: Vec::new() };
        };
        let properties = places.iter().take(*count as usize).map(|&place| self.property(place as usize)).collect();
        PropertyMap { name: self.layer_name(*selector as usize), properties }
    }

    fn property(&self, place: usize) -> Property {
        let [kind, from, to, a, b, c, d, _] = entry(&self.properties, place);
        let value = match kind {
            2 => Value::Identifier(self.joined(a, b, c, d)),
            3 => Value::String(self.text(a, b)),
            4 => Value::Color(color(a, b, c)),
            5 => Value::Numbers(self.numbers(a, b)),
            6 => Value::WidthDelta(self.numbers.get(a).copied().unwrap_or_default()),
            _ => Value::Identifier(self.text(a, b)),
        };
        Property { name: self.text(from, to), value }
    }

    /// The layer of a row of words and floats, and the tag `layer`.
    pub(crate) fn layer(&self, words: &[u64], floats: &[f64], layer: i64) -> Layer {
        let word = |place: usize| words.get(place).map_or(0, |&word| word as usize);
        let float = |place: usize| floats.get(place).copied().unwrap_or_default();
        let measure = |flag: usize, place: usize| (word(flag) == 1).then(|| float(place));
        let shade = |at: usize| (word(at) == 1).then(|| color(word(at + 1), word(at + 2), word(at + 3)));
        let dashes = |at: usize| (word(at) == 1).then(|| self.numbers(word(at + 1), word(at + 2)));
        let text = |at: usize| match word(at) {
            0 => None,
            1 => Some(self.text(word(at + 1), word(at + 2))),
            _ => Some(self.joined(word(at + 1), word(at + 2), word(at + 3), word(at + 4))),
        };
        let style = Style {
            layer: (word(1) == 1).then_some(layer),
            z_index: float(0),
            color: shade(11),
            fill_color: shade(15),
            is_foreground_fill: word(2) == 1,
            background_color: shade(19),
            opacity: measure(3, 1),
            fill_opacity: measure(4, 2),
            width: measure(5, 3),
            dashes: dashes(31),
            line_cap: line_cap(word(8)),
            casing_color: shade(23),
            casing_width: measure(6, 4),
            casing_dashes: dashes(34),
            casing_line_cap: line_cap(word(9)),
            icon_image: text(37),
            fill_image: text(42),
            text_style: text(47).map(|text| TextStyle {
                text,
                text_color: shade(27),
                text_position: text_position(word(10)),
                font_size: measure(7, 5),
            }),
        };
        Layer { name: self.layer_name(word(0)), style }
    }
}

/// An entry's words; zeros past the table.
fn entry(table: &[u32], place: usize) -> [usize; ENTRY_WORDS] {
    let words = table.chunks_exact(ENTRY_WORDS).nth(place).unwrap_or(&[0; ENTRY_WORDS]);
    std::array::from_fn(|k| words[k] as usize)
}

fn color(r: usize, g: usize, b: usize) -> Color {
    Color { r: r as u8, g: g as u8, b: b as u8 }
}

fn line_cap(word: usize) -> Option<LineCap> {
    match word {
        1 => Some(LineCap::Butt),
        2 => Some(LineCap::Round),
        3 => Some(LineCap::Square),
        _ => None,
    }
}

fn text_position(word: usize) -> Option<TextPosition> {
    match word {
        1 => Some(TextPosition::Center),
        2 => Some(TextPosition::Line),
        _ => None,
    }
}
