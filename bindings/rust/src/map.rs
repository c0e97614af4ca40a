//! Property maps: the properties of each layer of an entity.

use std::fmt;

/// A colour.
#[derive(Clone, Copy, Debug, PartialEq, Eq, Hash)]
pub struct Color {
    /// Red.
    pub r: u8,
    /// Green.
    pub g: u8,
    /// Blue.
    pub b: u8,
}

impl fmt::Display for Color {
    fn fmt(&self, f: &mut fmt::Formatter) -> fmt::Result {
        write!(f, "#{:02x}{:02x}{:02x}", self.r, self.g, self.b)
    }
}

/// The value of a property.
#[derive(Clone, Debug, PartialEq)]
pub enum Value {
    /// An identifier; `a:b` is one.
    Identifier(String),
    /// A string.
    String(String),
    /// A colour, written so or by its definition's name.
    Color(Color),
    /// Numbers, at least one.
    Numbers(Vec<f64>),
    /// `eval(prop("width") +2)`: the number behind the width, 0 without one.
    WidthDelta(f64),
}

/// A property.
#[derive(Clone, Debug, PartialEq)]
pub struct Property {
    /// Its name.
    pub name: String,
    /// The value last assigned.
    pub value: Value,
}

/// The properties of a layer, in order of first assignment.
#[derive(Clone, Debug, PartialEq)]
pub struct PropertyMap {
    /// The layer's name: `default` where the sheet names none, and `*` for what reaches all layers.
    pub name: String,
    /// Its properties.
    pub properties: Vec<Property>,
}

impl PropertyMap {
    /// The value of a property.
    pub fn get(&self, name: &str) -> Option<&Value> {
        self.properties.iter().find(|property| property.name == name).map(|property| &property.value)
    }
}
