//! A module inside the original's styler.rs: the property maps that it makes styles of, its styles and its drawing lists,
//! in the neutral form.

use super::*;
use crate::geodata::reader::probe::{Found, Streams};
use crate::loads::Value;
use crate::mapcss::parser::probe::value;
use crate::styles::{self, Settings};
use crate::tokens::bits;
use std::collections::HashMap;

/// A styler with the number of each property in its rules, counted from 0 through the sheet.
pub struct Numbered {
    styler: Styler,
    numbers: HashMap<*const PropertyValue, u32>,
}

/// Layers in order; of each the name, and its properties in order: name, number, value.
pub type Layers = Vec<(String, Vec<(String, u32, Value)>)>;

/// An entry of a drawing list: stream, place in it, place among the entity's styled layers.
pub struct Listed {
    pub entry: [u32; 3],
    pub style: styles::Style,
}

impl Numbered {
    pub fn new(rules: Vec<Rule>) -> Numbered {
        let styler = Styler::new(rules, &StyleType::Josm, None);
        let values = styler.rules.iter().flat_map(|rule| &rule.properties).map(|p| &p.value as *const PropertyValue);
        let numbers = values.zip(0..).collect();
        Numbered { styler, numbers }
    }

    /// A new styler of the same rules, with these settings and nothing in its cache.
    pub fn renew(&mut self, settings: &Settings) {
        let style_type = if settings.style_type == 1 { StyleType::MapsMe } else { StyleType::Josm };
        let rules = std::mem::take(&mut self.styler.rules);
        self.styler = Styler::new(rules, &style_type, settings.font.first().copied());
    }

    fn maps(&self, found: &Found, zoom: u8) -> LayerToPropertyMap<'_> {
        match found {
            Found::Node(node) => self.styler.style_area(node, zoom),
            Found::Way(way) => self.styler.style_area(way, zoom),
            Found::Multipolygon(multipolygon) => self.styler.style_area(multipolygon, zoom),
        }
    }

    pub fn layers(&self, found: &Found, zoom: u8) -> Layers {
        let mut layers = Vec::new();
        for (name, map) in self.maps(found, zoom) {
            let property = |(name, v): (String, &PropertyValue)| {
                let place: *const PropertyValue = v;
                (name, self.numbers[&place], value(v))
            };
            layers.push((name.to_string(), map.into_iter().map(property).collect()));
        }
        layers
    }

    /// The same as it comes, for timing: how many layers there are.
    pub fn count(&self, found: &Found, zoom: u8) -> usize {
        std::hint::black_box(self.maps(found, zoom)).len()
    }

    pub fn canvas(&self) -> Option<[u8; 3]> {
        color(&self.styler.canvas_fill_color)
    }

    /// The canvas colour for a style type, looked up anew, for timing.
    pub fn canvas_of(&self, style_type: u8) -> Option<Color> {
        let style_type = if style_type == 1 { StyleType::MapsMe } else { StyleType::Josm };
        extract_canvas_fill_color(&self.styler.rules, &style_type)
    }

    /// The styles that `style_entities` makes of an entity, in order of the layers, which it sorts only then. It cannot be
    /// called itself where two of them have a z-index of NaN.
    fn raw_styles<'r, 'e, A>(&'r self, area: &A, zoom: u8) -> Vec<(&'r str, Style)>
    where
        A: StyleableEntity + OsmEntity<'e>,
    {
        let maps = self.styler.style_area(area, zoom);
        let base = maps.get(BASE_LAYER_NAME);
        let styler = &self.styler;
        let (casing, font) = (styler.casing_width_multiplier, &styler.font_size_multiplier);
        let style = |map| property_map_to_style(map, base, area.default_z_index(), casing, font, area);
        maps.iter().filter(|(name, _)| **name != "*").map(|(name, map)| (*name, style(map))).collect()
    }

    fn raw_styles_of(&self, found: &Found, zoom: u8) -> Vec<(&str, Style)> {
        match found {
            Found::Node(node) => self.raw_styles(node, zoom),
            Found::Way(way) => self.raw_styles(way, zoom),
            Found::Multipolygon(multipolygon) => self.raw_styles(multipolygon, zoom),
        }
    }

    /// The styled layers of an entity in order, with their names.
    pub fn styles(&self, found: &Found, zoom: u8) -> Vec<(String, styles::Style)> {
        self.raw_styles_of(found, zoom).iter().map(|(name, s)| (name.to_string(), style(s))).collect()
    }

    /// The same as it comes, for timing: how many there are.
    pub fn count_styles(&self, found: &Found, zoom: u8) -> usize {
        std::hint::black_box(self.raw_styles_of(found, zoom)).len()
    }

    /// What the list's entry is: the cache has the styles of each entity in order of its layers.
    fn listed<'e, A>(&self, stream: u32, all: &[A], (area, s): (&A, &Arc<Style>), zoom: u8) -> Listed
    where
        A: CacheableEntity + OsmEntity<'e>,
    {
        let place = (area as *const A as usize - all.as_ptr() as usize) / size_of::<A>();
        let made = self.styler.style_cache.read().unwrap().get(area, zoom).expect("the styles of a listed entity");
        let layer = made.iter().position(|other| Arc::ptr_eq(other, s)).expect("one of the entity's styles");
        Listed { entry: [stream, place as u32, layer as u32], style: style(s) }
    }

    /// The drawing list.
    pub fn list(&self, streams: &Streams, zoom: u8, for_labels: bool) -> Vec<Listed> {
        match streams {
            Streams::Nodes(nodes) => {
                let list = self.styler.style_entities(nodes.iter(), zoom, for_labels);
                list.iter().map(|(node, s)| self.listed(0, nodes, (node, s), zoom)).collect()
            }
            Streams::Areas(ways, multipolygons) => {
                let list = self.styler.style_areas(ways.iter(), multipolygons.iter(), zoom, for_labels);
                let listed = |(area, s): &(StyledArea, Arc<Style>)| match area {
                    StyledArea::Way(way) => self.listed(0, ways, (way, s), zoom),
                    StyledArea::Multipolygon(area) => self.listed(1, multipolygons, (area, s), zoom),
                };
                list.iter().map(listed).collect()
            }
        }
    }

    /// The same as it comes, for timing: its length.
    pub fn count_listed(&self, streams: &Streams, zoom: u8, for_labels: bool) -> usize {
        match streams {
            Streams::Nodes(nodes) => {
                std::hint::black_box(self.styler.style_entities(nodes.iter(), zoom, for_labels)).len()
            }
            Streams::Areas(ways, multipolygons) => {
                let list = self.styler.style_areas(ways.iter(), multipolygons.iter(), zoom, for_labels);
                std::hint::black_box(list).len()
            }
        }
    }

    /// How many entities of a list took the styles of one before them from the cache.
    pub fn cached(&self, streams: &Streams, zoom: u8) -> usize {
        let cache = self.styler.style_cache.read().unwrap();
        let mut seen = std::collections::HashSet::new();
        let mut fresh = |styles: Option<Vec<Arc<Style>>>| match styles.unwrap().first() {
            Some(s) => seen.insert(Arc::as_ptr(s)),
            None => true,
        };
        match streams {
            Streams::Nodes(nodes) => nodes.iter().filter(|e| !fresh(cache.get(*e, zoom))).count(),
            Streams::Areas(ways, multipolygons) => {
                let ways = ways.iter().filter(|e| !fresh(cache.get(*e, zoom))).count();
                ways + multipolygons.iter().filter(|e| !fresh(cache.get(*e, zoom))).count()
            }
        }
    }
}

fn color(c: &Option<Color>) -> Option<[u8; 3]> {
    c.as_ref().map(|c| [c.r, c.g, c.b])
}

fn line_cap(cap: &Option<LineCap>) -> u64 {
    match cap {
        None => 0,
        Some(LineCap::Butt) => 1,
        Some(LineCap::Round) => 2,
        Some(LineCap::Square) => 3,
    }
}

fn style(s: &Style) -> styles::Style {
    let dashes = |all: &Option<Vec<f64>>| all.as_ref().map(|all| all.iter().map(|&x| bits(x)).collect());
    let text_style = |t: &TextStyle| styles::TextStyle {
        text: t.text.clone(),
        text_color: color(&t.text_color),
        text_position: match t.text_position {
            None => 0,
            Some(TextPosition::Center) => 1,
            Some(TextPosition::Line) => 2,
        },
        font_size: t.font_size.map(bits),
    };
    // by all its fields, so that none is forgotten
    let Style {
        layer,
        z_index,
        color: line_color,
        fill_color,
        is_foreground_fill,
        background_color,
        opacity,
        fill_opacity,
        width,
        dashes: line_dashes,
        line_cap: cap,
        casing_color,
        casing_width,
        casing_dashes,
        casing_line_cap,
        icon_image,
        fill_image,
        text_style: text,
    } = s;
    styles::Style {
        layer: *layer,
        z_index: bits(*z_index),
        is_foreground_fill: *is_foreground_fill,
        color: color(line_color),
        fill_color: color(fill_color),
        background_color: color(background_color),
        casing_color: color(casing_color),
        opacity: opacity.map(bits),
        fill_opacity: fill_opacity.map(bits),
        width: width.map(bits),
        casing_width: casing_width.map(bits),
        dashes: dashes(line_dashes),
        casing_dashes: dashes(casing_dashes),
        line_cap: line_cap(cap),
        casing_line_cap: line_cap(casing_line_cap),
        icon_image: icon_image.clone(),
        fill_image: fill_image.clone(),
        text_style: text.as_ref().map(text_style),
    }
}
