//! Jekundatz, a MapCSS style engine: which layers of an entity are drawn, how wide, in what colour and in what order.
//!
//! ```
//! use jekundatz::{Entity, Settings, Sheet};
//!
//! # fn main() -> Result<(), jekundatz::Refusal> {
//! let sheet = Sheet::load("way|z13-[highway=path]{width:2;color:#cc3300;}")?;
//! let path = Entity::way(7).tag("highway", "path");
//! for layer in sheet.styles(&path, 13, &Settings::default())? {
//!     println!("{}: width {:?}, colour {:?}", layer.name, layer.width, layer.color);
//! }
//! # Ok(())
//! # }
//! ```
//!
//! Texts, entities and streams may be any bytes: a call answers, or refuses with five numbers ([`Refusal`]). The engine is
//! proved (crates/capi_c of this repository); these wrappers are plain Rust and are not.

#![deny(missing_docs)]
#![deny(unsafe_code)]

mod bundle;
mod entity;
mod map;
#[allow(unsafe_code)]
mod raw;
mod read;
mod refusal;
mod sheet;
mod style;

pub use bundle::Bundle;
pub use entity::Entity;
pub use map::{Color, Property, PropertyMap, Value};
pub use refusal::Refusal;
pub use sheet::{Counts, Sheet};
pub use style::{DrawEntry, Layer, LineCap, Settings, Stream, Style, StyleType, TextPosition, TextStyle};
