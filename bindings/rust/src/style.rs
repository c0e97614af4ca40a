//! Styles: how the layers of an entity are drawn.

use crate::map::Color;
use std::ops::Deref;

/// The ends of a line.
#[derive(Clone, Copy, Debug, PartialEq, Eq, Hash)]
pub enum LineCap {
    /// `butt` or `none`.
    Butt,
    /// `round`.
    Round,
    /// `square`.
    Square,
}

/// Where a text stands.
#[derive(Clone, Copy, Debug, PartialEq, Eq, Hash)]
pub enum TextPosition {
    /// `center`.
    Center,
    /// `line`.
    Line,
}

/// The text of a layer.
#[derive(Clone, Debug, PartialEq)]
pub struct TextStyle {
    /// `text`.
    pub text: String,
    /// `text-color`.
    pub text_color: Option<Color>,
    /// `text-position`.
    pub text_position: Option<TextPosition>,
    /// `font-size`, times the multiplier of the settings.
    pub font_size: Option<f64>,
}

/// The style of a layer.
#[derive(Clone, Debug, PartialEq)]
pub struct Style {
    /// The entity's tag `layer`, where it is a whole number.
    pub layer: Option<i64>,
    /// `z-index`, else 4 for a node, 3 for an open way, 1 for a closed one.
    pub z_index: f64,
    /// `color`.
    pub color: Option<Color>,
    /// `fill-color`.
    pub fill_color: Option<Color>,
    /// False for `fill-position: background`.
    pub is_foreground_fill: bool,
    /// `background-color`.
    pub background_color: Option<Color>,
    /// `opacity`.
    pub opacity: Option<f64>,
    /// `fill-opacity`.
    pub fill_opacity: Option<f64>,
    /// `width`.
    pub width: Option<f64>,
    /// `dashes`.
    pub dashes: Option<Vec<f64>>,
    /// `linecap`.
    pub line_cap: Option<LineCap>,
    /// `casing-color`.
    pub casing_color: Option<Color>,
    /// The full width of the casing, the line's included.
    pub casing_width: Option<f64>,
    /// `casing-dashes`.
    pub casing_dashes: Option<Vec<f64>>,
    /// `casing-linecap`.
    pub casing_line_cap: Option<LineCap>,
    /// `icon-image`.
    pub icon_image: Option<String>,
    /// `fill-image`.
    pub fill_image: Option<String>,
    /// `text` and what belongs to it.
    pub text_style: Option<TextStyle>,
}

/// A layer that is drawn: its name and its style, whose fields are also the layer's.
#[derive(Clone, Debug, PartialEq)]
pub struct Layer {
    /// Its name: `default` where the sheet names none.
    pub name: String,
    /// Its style.
    pub style: Style,
}

impl Deref for Layer {
    type Target = Style;

    fn deref(&self) -> &Style {
        &self.style
    }
}

/// Which renderer a sheet was written for.
#[derive(Clone, Copy, Debug, Default, PartialEq, Eq, Hash)]
pub enum StyleType {
    /// JOSM: a casing's width counts on both sides; the canvas has its `fill-color`.
    #[default]
    Josm,
    /// MAPS.ME: a casing's width counts once; the canvas has its `background-color`.
    MapsMe,
}

/// How styles and drawing lists are wanted.
#[derive(Clone, Copy, Debug, Default, PartialEq)]
pub struct Settings {
    /// Which renderer the sheet was written for.
    pub style_type: StyleType,
    /// What font sizes are multiplied with; without it they stay.
    pub font_multiplier: Option<f64>,
    /// Whether the drawing order leaves out the position of fills, as it does for labels.
    pub for_labels: bool,
}

/// Which stream an entity stands in.
#[derive(Clone, Copy, Debug, PartialEq, Eq, Hash)]
pub enum Stream {
    /// Nodes.
    Nodes,
    /// Ways.
    Ways,
    /// Multipolygons.
    Multipolygons,
}

/// An entry of a drawing list.
#[derive(Clone, Copy, Debug, PartialEq, Eq, Hash)]
pub struct DrawEntry {
    /// The stream of the entity.
    pub stream: Stream,
    /// The entity's place in it, from 0.
    pub place: usize,
    /// The layer's place among what `Sheet::styles` answers for the entity.
    pub layer: usize,
}
