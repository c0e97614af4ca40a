//! Sheets and what they answer.

use crate::bundle::Bundle;
use crate::entity::{stream, Entity};
use crate::map::{Color, PropertyMap};
use crate::raw;
use crate::refusal::Refusal;
use crate::style::{DrawEntry, Layer, Settings, Stream, StyleType};

/// The refusal of a lent table that is full.
const TABLE_FULL: u64 = 20;

/// A loaded sheet: its bundle, its six tables and their counts. It does not change, and threads may share it.
#[derive(Clone, Debug)]
pub struct Sheet {
    pub(crate) bundle: Vec<u8>,
    rules: Vec<u32>,
    pub(crate) selectors: Vec<u32>,
    tests: Vec<u32>,
    pub(crate) properties: Vec<u32>,
    pub(crate) numbers: Vec<f64>,
    pub(crate) colors: Vec<u32>,
    counts: [u64; 6],
}

/// How many entries each table has.
#[derive(Clone, Copy, Debug, PartialEq, Eq, Hash)]
pub struct Counts {
    /// Rules.
    pub rules: usize,
    /// Selectors of all rules.
    pub selectors: usize,
    /// Tests of all selectors.
    pub tests: usize,
    /// Properties of all rules.
    pub properties: usize,
    /// Numbers of tests and properties.
    pub numbers: usize,
    /// Colours that are defined.
    pub colors: usize,
}

impl Sheet {
    /// Loads a sheet of one text.
    pub fn load(text: &str) -> Result<Sheet, Refusal> {
        Sheet::load_bundle(&Bundle::new().text("sheet", text))
    }

    /// Loads a sheet with what it imports.
    pub fn load_bundle(bundle: &Bundle) -> Result<Sheet, Refusal> {
        Sheet::load_bytes(&bundle.bytes())
    }

    /// Loads the sheet of a bundle's bytes, whatever they are.
    pub fn load_bytes(bundle: &[u8]) -> Result<Sheet, Refusal> {
        // an entry takes a byte of text at least, so more are wanted only where a text is imported again and again
        match Sheet::load_into(bundle, bundle.len().min(raw::TABLE_ENTRIES)) {
            Err(Refusal { number: TABLE_FULL, .. }) => Sheet::load_into(bundle, raw::TABLE_ENTRIES),
            answer => answer,
        }
    }

    /// Loads into tables of so many entries.
    fn load_into(bundle: &[u8], entries: usize) -> Result<Sheet, Refusal> {
        let table = || vec![0; entries * raw::ENTRY_WORDS];
        let mut sheet = Sheet {
            bundle: bundle.to_vec(),
            rules: table(),
            selectors: table(),
            tests: table(),
            properties: table(),
            numbers: vec![0.0; entries],
            colors: table(),
            counts: [0; 6],
        };
        let room = raw::Room {
            rules: &mut sheet.rules,
            selectors: &mut sheet.selectors,
            tests: &mut sheet.tests,
            properties: &mut sheet.properties,
            numbers: &mut sheet.numbers,
            colors: &mut sheet.colors,
        };
        let number = raw::load(&sheet.bundle, room, &mut sheet.counts);
        let [a, b, c, d, e, _] = sheet.counts;
        accept(number, [a, b, c, d, e])?;
        sheet.shrink();
        Ok(sheet)
    }

    /// Gives back what the tables have behind their entries.
    fn shrink(&mut self) {
        let Counts { rules, selectors, tests, properties, numbers, colors } = self.counts();
        cut(&mut self.rules, rules * raw::ENTRY_WORDS);
        cut(&mut self.selectors, selectors * raw::ENTRY_WORDS);
        cut(&mut self.tests, tests * raw::ENTRY_WORDS);
        cut(&mut self.properties, properties * raw::ENTRY_WORDS);
        cut(&mut self.numbers, numbers);
        cut(&mut self.colors, colors * raw::ENTRY_WORDS);
    }

    /// How many rules, selectors, tests, properties, numbers and colours it has.
    pub fn counts(&self) -> Counts {
        let [rules, selectors, tests, properties, numbers, colors] = self.counts.map(|count| count as usize);
        Counts { rules, selectors, tests, properties, numbers, colors }
    }

    /// The colours that it defines, by name, in order of first definition.
    pub fn colors(&self) -> Vec<(String, Color)> {
        self.colors.chunks(raw::ENTRY_WORDS).map(|entry| self.color_entry(entry)).collect()
    }

    /// The property maps of an entity's layers, in order of first match.
    pub fn property_maps(&self, entity: &Entity, zoom: u8) -> Result<Vec<PropertyMap>, Refusal> {
        self.property_maps_of_bytes(&entity.bytes(), zoom)
    }

    /// The same for an entity's bytes, whatever they are.
    pub fn property_maps_of_bytes(&self, entity: &[u8], zoom: u8) -> Result<Vec<PropertyMap>, Refusal> {
        let mut maps = [0; raw::MAPS_WORDS];
        let mut out = [0; 5];
        let number = raw::property_maps(self.tables(), zoom, entity, &mut maps, &mut out);
        let count = accept(number, out)?;
        Ok(maps.chunks(raw::MAP_WORDS).take(count).map(|row| self.property_map(row)).collect())
    }

    /// The styles of an entity's layers, in order of first match.
    pub fn styles(&self, entity: &Entity, zoom: u8, settings: &Settings) -> Result<Vec<Layer>, Refusal> {
        self.styles_of_bytes(&entity.bytes(), zoom, settings)
    }

    /// The same for an entity's bytes, whatever they are.
    pub fn styles_of_bytes(&self, entity: &[u8], zoom: u8, settings: &Settings) -> Result<Vec<Layer>, Refusal> {
        let mut words = [0; raw::STYLES_WORDS];
        let mut floats = [0.0; raw::STYLES_FLOATS];
        let mut layers = [0; raw::LAYERS];
        let mut out = [0; 5];
        let asked = asked(zoom, settings);
        let number = raw::styles(self.tables(), asked, entity, &mut words, &mut floats, &mut layers, &mut out);
        let count = accept(number, out)?;
        let rows = words.chunks(raw::STYLE_WORDS).zip(floats.chunks(raw::STYLE_FLOATS)).zip(layers);
        Ok(rows.take(count).map(|((words, floats), layer)| self.layer(words, floats, layer)).collect())
    }

    /// The colour of the canvas, if the sheet has one.
    pub fn canvas_color(&self, style_type: StyleType) -> Result<Option<Color>, Refusal> {
        let mut out = [0; 5];
        let number = raw::canvas_color(self.tables(), type_number(style_type), &mut out);
        accept(number, out)?;
        let [there, r, g, b, _] = out;
        Ok((there == 1).then_some(Color { r: r as u8, g: g as u8, b: b as u8 }))
    }

    /// The layers of all these nodes, in drawing order.
    pub fn draw_nodes(&self, nodes: &[Entity], zoom: u8, settings: &Settings) -> Result<Vec<DrawEntry>, Refusal> {
        self.draw_nodes_of_bytes(&stream(nodes), zoom, settings)
    }

    /// The same for a stream's bytes, whatever they are.
    pub fn draw_nodes_of_bytes(&self, nodes: &[u8], zoom: u8, settings: &Settings) -> Result<Vec<DrawEntry>, Refusal> {
        let mut list = draw_list();
        let mut out = [0; 5];
        let number = raw::style_entities(self.tables(), asked(zoom, settings), nodes, &mut list, &mut out);
        let count = accept(number, out)?;
        Ok(entries(&list, count, Stream::Nodes))
    }

    /// The layers of all these ways and multipolygons, in drawing order.
    pub fn draw_areas(
        &self,
        ways: &[Entity],
        multipolygons: &[Entity],
        zoom: u8,
        settings: &Settings,
    ) -> Result<Vec<DrawEntry>, Refusal> {
        self.draw_areas_of_bytes(&stream(ways), &stream(multipolygons), zoom, settings)
    }

    /// The same for two streams' bytes, whatever they are.
    pub fn draw_areas_of_bytes(
        &self,
        ways: &[u8],
        multipolygons: &[u8],
        zoom: u8,
        settings: &Settings,
    ) -> Result<Vec<DrawEntry>, Refusal> {
        let mut list = draw_list();
        let mut out = [0; 5];
        let asked = asked(zoom, settings);
        let number = raw::style_areas(self.tables(), asked, ways, multipolygons, &mut list, &mut out);
        let count = accept(number, out)?;
        Ok(entries(&list, count, Stream::Ways))
    }

    fn tables(&self) -> raw::Tables<'_> {
        raw::Tables {
            bundle: &self.bundle,
            rules: &self.rules,
            selectors: &self.selectors,
            tests: &self.tests,
            properties: &self.properties,
            numbers: &self.numbers,
            counts: &self.counts,
        }
    }
}

fn cut<T>(table: &mut Vec<T>, length: usize) {
    table.truncate(length);
    table.shrink_to_fit();
}

/// The first word of an answer, or the refusal.
fn accept(number: u64, out: [u64; 5]) -> Result<usize, Refusal> {
    if number == 0 {
        Ok(out[0] as usize)
    } else {
        Err(Refusal::of(out))
    }
}

fn type_number(style_type: StyleType) -> u8 {
    match style_type {
        StyleType::Josm => 0,
        StyleType::MapsMe => 1,
    }
}

fn asked(zoom: u8, settings: &Settings) -> raw::Asked<'_> {
    raw::Asked {
        zoom,
        style_type: type_number(settings.style_type),
        font: settings.font_multiplier.as_slice(),
        for_labels: settings.for_labels,
    }
}

fn draw_list() -> Vec<u32> {
    vec![0; raw::DRAW_ENTRIES * raw::DRAW_WORDS]
}

/// The entries of a list whose first stream is this one.
fn entries(list: &[u32], count: usize, first: Stream) -> Vec<DrawEntry> {
    let entry = |words: &[u32]| DrawEntry {
        stream: if words[0] == 1 { Stream::Multipolygons } else { first },
        place: words[1] as usize,
        layer: words[2] as usize,
    };
    list.chunks(raw::DRAW_WORDS).take(count).map(entry).collect()
}
