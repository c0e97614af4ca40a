//! Styles of one entity and the canvas colour: what is handed to a call and what it answers, one neutral form for a
//! style, and the model, written from the papers' text over the words of the tables.

use crate::entities::{self, Entity};
use crate::loads::{Entry, Refusal, PROPERTIES, RULES, SELECTORS};
use crate::maps::{self, layer_name, Handed, Layer};
use crate::style_tally::Tally;
use crate::tokens::bits;

pub const ROW_WORDS: usize = 52;
pub const ROW_FLOATS: usize = 6;

/// Every property that a style is made of.
pub const NAMES: [&str; 20] = [
    "z-index", "fill-position", "width", "casing-width", "text", "font-size", "text-color", "text-position", "color",
    "fill-color", "background-color", "opacity", "fill-opacity", "dashes", "linecap", "casing-color", "casing-dashes",
    "casing-linecap", "icon-image", "fill-image",
];

pub const COLORS: [(&str, [u8; 3]); 10] = [
    ("white", [255, 255, 255]),
    ("black", [0, 0, 0]),
    ("blue", [0, 0, 255]),
    ("brown", [165, 42, 42]),
    ("green", [0, 255, 0]),
    ("grey", [128, 128, 128]),
    ("pink", [255, 192, 203]),
    ("purple", [128, 0, 128]),
    ("red", [255, 0, 0]),
    ("salmon", [250, 128, 114]),
];

/// What a call takes besides the sheet, the zoom and the entities.
#[derive(Clone, Debug, Default, PartialEq)]
pub struct Settings {
    /// 1 is MapsMe, any other JOSM.
    pub style_type: u8,
    /// As it is lent: empty for none, else the first element is the multiplier.
    pub font: Vec<f64>,
}

impl Settings {
    pub fn maps_me(&self) -> bool {
        self.style_type == 1
    }
}

/// A styled layer as the export lays it out; floats as bits, every NaN alike.
#[derive(Clone, Debug, PartialEq)]
pub struct Row {
    pub words: [u64; ROW_WORDS],
    pub floats: [u64; ROW_FLOATS],
    pub layer: i64,
}

impl Row {
    pub fn z_index(&self) -> f64 {
        f64::from_bits(self.floats[0])
    }
}

pub type Answer = Result<Vec<Row>, Refusal>;
pub type Canvas = Result<Option<[u8; 3]>, Refusal>;

/// A style as values, without places; numbers as bits, every NaN alike.
#[derive(Clone, Debug, PartialEq)]
pub struct Style {
    pub layer: Option<i64>,
    pub z_index: u64,
    pub is_foreground_fill: bool,
    pub color: Option<[u8; 3]>,
    pub fill_color: Option<[u8; 3]>,
    pub background_color: Option<[u8; 3]>,
    pub casing_color: Option<[u8; 3]>,
    pub opacity: Option<u64>,
    pub fill_opacity: Option<u64>,
    pub width: Option<u64>,
    pub casing_width: Option<u64>,
    pub dashes: Option<Vec<u64>>,
    pub casing_dashes: Option<Vec<u64>>,
    /// 0 none, 1 butt, 2 round, 3 square.
    pub line_cap: u64,
    pub casing_line_cap: u64,
    pub icon_image: Option<String>,
    pub fill_image: Option<String>,
    pub text_style: Option<TextStyle>,
}

#[derive(Clone, Debug, PartialEq)]
pub struct TextStyle {
    pub text: String,
    pub text_color: Option<[u8; 3]>,
    /// 0 none, 1 center, 2 line.
    pub text_position: u64,
    pub font_size: Option<u64>,
}

/// Takes the words of a row; each part must be zero where it is absent.
struct Words<'a> {
    bundle: &'a [u8],
    handed: &'a Handed,
    row: &'a Row,
}

impl Words<'_> {
    fn good(&self, good: bool, at: usize) -> Result<(), String> {
        good.then_some(()).ok_or_else(|| format!("word {at} and on: {:?}", &self.row.words[at..]))
    }

    fn flag(&self, at: usize) -> Result<bool, String> {
        self.good(self.row.words[at] <= 1, at)?;
        Ok(self.row.words[at] == 1)
    }

    fn choice(&self, at: usize, most: u64) -> Result<u64, String> {
        self.good(self.row.words[at] <= most, at)?;
        Ok(self.row.words[at])
    }

    fn float(&self, at: usize, float: usize) -> Result<Option<u64>, String> {
        let there = self.flag(at)?;
        self.good(there || self.row.floats[float] == 0, at)?;
        Ok(there.then_some(self.row.floats[float]))
    }

    fn color(&self, at: usize) -> Result<Option<[u8; 3]>, String> {
        let there = self.flag(at)?;
        let [r, g, b] = self.row.words[at + 1..at + 4].try_into().unwrap();
        self.good([r, g, b].iter().all(|&x| x <= if there { 255 } else { 0 }), at)?;
        Ok(there.then_some([r as u8, g as u8, b as u8]))
    }

    fn dashes(&self, at: usize) -> Result<Option<Vec<u64>>, String> {
        let there = self.flag(at)?;
        let [from, to] = [self.row.words[at + 1] as usize, self.row.words[at + 2] as usize];
        self.good(there || [from, to] == [0; 2], at)?;
        let part = (from <= to).then(|| self.handed.numbers.get(from..to)).flatten();
        self.good(part.is_some(), at)?;
        Ok(there.then(|| part.unwrap().iter().map(|&x| bits(x)).collect()))
    }

    fn text(&self, at: usize) -> Result<Option<String>, String> {
        let count = self.choice(at, 2)?;
        let [from, to, second, second_to] = std::array::from_fn(|k| self.row.words[at + 1 + k] as usize);
        let part = |from: usize, to: usize| {
            let part = if from <= to { self.bundle.get(from..to) } else { None };
            let text = part.and_then(|part| std::str::from_utf8(part).ok());
            text.map(str::to_string).ok_or_else(|| format!("word {at}: range {from}..{to} of the bundle"))
        };
        self.good(count > 0 || [from, to] == [0; 2], at)?;
        self.good(count > 1 || [second, second_to] == [0; 2], at)?;
        Ok(match count {
            0 => None,
            1 => Some(part(from, to)?),
            _ => Some(part(from, to)? + ":" + &part(second, second_to)?),
        })
    }
}

/// What a row says, or what is wrong in it; it need not be right where texts cut a character.
pub fn decode(bundle: &[u8], handed: &Handed, row: &Row) -> Result<(String, Style), String> {
    let w = Words { bundle, handed, row };
    let selector = row.words[0];
    w.good(selector < handed.counts[SELECTORS], 0)?;
    let name = String::from_utf8_lossy(layer_name(bundle, handed, selector as u32)).into_owned();
    let layer = w.flag(1)?.then_some(row.layer);
    w.good(layer.is_some() || row.layer == 0, 1)?;
    let text_color = w.color(27)?;
    let text_position = w.choice(10, 2)?;
    let font_size = w.float(7, 5)?;
    let text = w.text(47)?;
    w.good(text.is_some() || (text_color, text_position, font_size) == (None, 0, None), 47)?;
    let style = Style {
        layer,
        z_index: row.floats[0],
        is_foreground_fill: w.flag(2)?,
        color: w.color(11)?,
        fill_color: w.color(15)?,
        background_color: w.color(19)?,
        casing_color: w.color(23)?,
        opacity: w.float(3, 1)?,
        fill_opacity: w.float(4, 2)?,
        width: w.float(5, 3)?,
        casing_width: w.float(6, 4)?,
        dashes: w.dashes(31)?,
        casing_dashes: w.dashes(34)?,
        line_cap: w.choice(8, 3)?,
        casing_line_cap: w.choice(9, 3)?,
        icon_image: w.text(37)?,
        fill_image: w.text(42)?,
        text_style: text.map(|text| TextStyle { text, text_color, text_position, font_size }),
    };
    Ok((name, style))
}

/// The tag `layer` as an i64.
#[derive(Clone, Copy, Debug, PartialEq)]
pub enum Level {
    Malformed,
    Above,
    Below,
    Is(i64),
}

/// An optional sign and at least one digit.
pub fn level(value: &[u8]) -> Level {
    let (minus, digits) = match value {
        [b'-', rest @ ..] => (true, rest),
        [b'+', rest @ ..] => (false, rest),
        _ => (false, value),
    };
    if digits.is_empty() || !digits.iter().all(u8::is_ascii_digit) {
        return Level::Malformed;
    }
    // a number of digits, or a larger one than any that fits
    let size = digits.iter().fold(0i128, |n, b| (n * 10 + i128::from(b - b'0')).min(1 << 70));
    let size = if minus { -size } else { size };
    match i64::try_from(size) {
        Ok(n) => Level::Is(n),
        Err(_) if minus => Level::Below,
        Err(_) => Level::Above,
    }
}

/// The map of one styled layer.
struct Look<'a> {
    bundle: &'a [u8],
    handed: &'a Handed,
    layer: &'a Layer,
}

impl<'a> Look<'a> {
    fn text(&self, from: u32, to: u32) -> &'a [u8] {
        &self.bundle[from as usize..to as usize]
    }

    fn value(&self, name: &str) -> Option<Entry> {
        let entries = self.layer.properties.iter().map(|&p| self.handed.entry(PROPERTIES, p as usize));
        entries.into_iter().find(|entry| self.text(entry[1], entry[2]) == name.as_bytes())
    }

    fn number(&self, name: &str) -> Option<f64> {
        match self.value(name)? {
            [5, _, _, from, to, ..] if to - from == 1 => Some(self.handed.numbers[from as usize]),
            _ => None,
        }
    }

    /// One that is not joined: no word that is asked for has a colon.
    fn identifier(&self, name: &str) -> &'a [u8] {
        match self.value(name) {
            Some([1, _, _, from, to, ..]) => self.text(from, to),
            _ => b"",
        }
    }

    fn color(&self, name: &str) -> Option<[u8; 3]> {
        match self.value(name)? {
            [4, _, _, r, g, b, ..] => Some([r as u8, g as u8, b as u8]),
            _ => {
                let id = self.identifier(name);
                COLORS.iter().find(|(color, _)| color.as_bytes() == id).map(|(_, color)| *color)
            }
        }
    }

    fn line_cap(&self, name: &str) -> u64 {
        match self.identifier(name) {
            b"none" | b"butt" => 1,
            b"round" => 2,
            b"square" => 3,
            _ => 0,
        }
    }

    fn position(&self) -> u64 {
        match self.identifier("text-position") {
            b"center" => 1,
            b"line" => 2,
            _ => 0,
        }
    }

    fn dashes(&self, name: &str) -> [u64; 3] {
        match self.value(name) {
            Some([5, _, _, from, to, ..]) => [1, from.into(), to.into()],
            _ => [0; 3],
        }
    }

    fn string(&self, name: &str) -> [u64; 5] {
        match self.value(name) {
            Some([1 | 3, _, _, a, b, ..]) => [1, a.into(), b.into(), 0, 0],
            Some([2, _, _, a, b, c, d, _]) => [2, a.into(), b.into(), c.into(), d.into()],
            _ => [0; 5],
        }
    }
}

fn default_z_index(entity: &Entity) -> f64 {
    [4.0, 3.0, 1.0][usize::from(entity.kind)]
}

fn row(look: &Look, default: Option<&Look>, settings: &Settings, entity: &Entity, tally: &mut Tally) -> Row {
    let mut row = Row { words: [0; ROW_WORDS], floats: [0; ROW_FLOATS], layer: 0 };
    let words = &mut row.words;
    words[0] = look.layer.selector.into();
    let level = entity.tag(b"layer").map(level);
    if let Some(Level::Is(n)) = level {
        words[1] = 1;
        row.layer = n;
    }
    words[2] = u64::from(look.identifier("fill-position") != b"background");
    let z_index = look.number("z-index");
    row.floats[0] = bits(z_index.unwrap_or(default_z_index(entity)));

    let width = look.number("width");
    let other_width = default.and_then(|default| default.number("width"));
    let base = width.or(other_width).unwrap_or(0.0);
    let casing = match look.value("casing-width") {
        Some([6, _, _, n, ..]) => Some(base + look.handed.numbers[n as usize]),
        _ => look.number("casing-width"),
    };
    let multiplier = if settings.maps_me() { 1.0 } else { 2.0 };
    let casing = casing.map(|w| base + multiplier * w);
    let text = look.string("text");
    let with_text = text[0] > 0;
    let font_size = look.number("font-size").filter(|_| with_text);
    let font_size = font_size.map(|x| x * settings.font.first().unwrap_or(&1.0));
    let floats = [look.number("opacity"), look.number("fill-opacity"), width, casing, font_size];
    for (k, float) in floats.into_iter().enumerate() {
        if let Some(x) = float {
            words[3 + k] = 1;
            row.floats[1 + k] = bits(x);
        }
    }
    words[8] = look.line_cap("linecap");
    words[9] = look.line_cap("casing-linecap");
    words[10] = if with_text { look.position() } else { 0 };
    let text_color = look.color("text-color").filter(|_| with_text);
    let colors = ["color", "fill-color", "background-color", "casing-color"].map(|name| look.color(name));
    for (k, color) in colors.into_iter().chain([text_color]).enumerate() {
        if let Some([r, g, b]) = color {
            words[11 + 4 * k..15 + 4 * k].copy_from_slice(&[1, r.into(), g.into(), b.into()]);
        }
    }
    words[31..34].copy_from_slice(&look.dashes("dashes"));
    words[34..37].copy_from_slice(&look.dashes("casing-dashes"));
    words[37..42].copy_from_slice(&look.string("icon-image"));
    words[42..47].copy_from_slice(&look.string("fill-image"));
    words[47..52].copy_from_slice(&text);

    NAMES.iter().for_each(|name| tally.value(look.bundle, name, look.value(name)));
    tally.level(entity.tag(b"layer"), level);
    tally.z_index(z_index);
    tally.casing(look.value("casing-width"), width, other_width, settings);
    tally.row(&row);
    row
}

/// The styled layers in order, of sound tables and a sound entity; or 8, 23 or 24.
pub fn rows(
    bundle: &[u8],
    handed: &Handed,
    zoom: u8,
    settings: &Settings,
    entity: &Entity,
    tally: &mut Tally,
) -> Result<Vec<Row>, u64> {
    let layers = maps::walk(bundle, handed, zoom, entity, &mut tally.maps)?;
    let name = |layer: &Layer| layer_name(bundle, handed, layer.selector);
    let look = |layer| Look { bundle, handed, layer };
    let default = layers.iter().find(|layer| name(layer) == b"default").map(look);
    let styled = layers.iter().filter(|layer| name(layer) != b"*");
    Ok(styled.map(|layer| row(&look(layer), default.as_ref(), settings, entity, tally)).collect())
}

fn judged(
    bundle: &[u8],
    handed: &Handed,
    zoom: u8,
    settings: &Settings,
    entity: &[u8],
    tally: &mut Tally,
) -> Result<Vec<Row>, u64> {
    if !maps::sound(handed, bundle.len()) {
        return Err(22);
    }
    rows(bundle, handed, zoom, settings, &entities::check(entity)?, tally)
}

/// What a call for the styles of an entity must answer.
pub fn model(
    bundle: &[u8],
    handed: &Handed,
    zoom: u8,
    settings: &Settings,
    entity: &[u8],
    tally: &mut Tally,
) -> Answer {
    let answer = judged(bundle, handed, zoom, settings, entity, tally);
    tally.answer(settings, &answer);
    answer.map_err(|number| [number, 0, 0, 0, 0])
}

/// What a call for the canvas colour must answer.
pub fn canvas(bundle: &[u8], handed: &Handed, style_type: u8, tally: &mut Tally) -> Canvas {
    if !maps::sound(handed, bundle.len()) {
        tally.canvas(style_type, None);
        return Err([22, 0, 0, 0, 0]);
    }
    let name: &[u8] = if style_type == 1 { b"background-color" } else { b"fill-color" };
    let mut found = None;
    for [_, s, s_to, p, p_to, ..] in handed.entries(RULES) {
        let canvas = (s..s_to).any(|n| handed.entry(SELECTORS, n as usize)[0] == 2);
        let entries = (p..p_to).map(|n| handed.entry(PROPERTIES, n as usize));
        let mut colors = entries.filter(|e| e[0] == 4 && &bundle[e[1] as usize..e[2] as usize] == name);
        if let (None, true, Some(e)) = (found, canvas, colors.next()) {
            found = Some([e[3] as u8, e[4] as u8, e[5] as u8]);
        }
    }
    tally.canvas(style_type, Some(found));
    Ok(found)
}
