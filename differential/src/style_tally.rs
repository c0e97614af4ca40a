//! What came up in the styles of a run.

use crate::loads::Entry;
use crate::maps;
use crate::styles::{Level, Row, Settings, COLORS, NAMES};
use crate::tally::{self, Line};
use std::sync::OnceLock;

/// The fields of a style, and the word that says whether each is there.
const FIELDS: [(&str, usize); 19] = [
    ("layer", 1),
    ("opacity", 3),
    ("fill_opacity", 4),
    ("width", 5),
    ("casing_width", 6),
    ("font_size", 7),
    ("line_cap", 8),
    ("casing_line_cap", 9),
    ("text_position", 10),
    ("color", 11),
    ("fill_color", 15),
    ("background_color", 19),
    ("casing_color", 23),
    ("text_color", 27),
    ("dashes", 31),
    ("casing_dashes", 34),
    ("icon_image", 37),
    ("fill_image", 42),
    ("text", 47),
];
const KINDS: [&str; 9] =
    ["none", "identifier", "joined", "string", "colour", "number", "delta", "several numbers", "no numbers"];
const LEVELS: [&str; 12] =
    ["absent", "malformed", "empty", "above", "below", "least", "greatest", "0", "-0", "+", "leading zero", "other"];
const Z_INDICES: [&str; 8] = ["default", "NaN", "inf", "-inf", "0", "-0", "negative", "positive"];
const FONTS: [&str; 8] = ["none", "0", "-0", "negative", "NaN", "infinite", "positive", "several"];
const REFUSALS: [u64; 6] = [2, 7, 8, 22, 23, 24];
const CANVAS: [&str; 5] = ["JOSM", "JOSM none", "MapsMe", "MapsMe none", "22"];

/// How often each field was there and absent, each kind of value of each property, and so on.
#[derive(Clone)]
pub struct Tally {
    pub maps: maps::Tally,
    there: Line,
    absent: Line,
    /// For each word that is a choice, its values.
    choices: Vec<(usize, Line)>,
    values: Vec<Line>,
    colors: Line,
    levels: Line,
    z_indices: Line,
    casings: Line,
    fonts: Line,
    refused: Line,
    layers: Line,
    canvas: Line,
}

impl Default for Tally {
    fn default() -> Tally {
        static EMPTY: OnceLock<Tally> = OnceLock::new();
        EMPTY.get_or_init(Tally::empty).clone()
    }
}

impl Tally {
    fn empty() -> Tally {
        let fields = FIELDS.map(|(name, _)| name);
        let choice = |name: &str, at: usize, names: &[&str]| (at, Line::new(name, names));
        let caps = ["none", "butt", "round", "square"];
        let mut casings = Vec::new();
        for style_type in ["JOSM", "MapsMe"] {
            for width in ["own width", "default's width", "no width"] {
                casings.extend(["number", "delta"].map(|kind| format!("{style_type} {width} {kind}")));
            }
        }
        Tally {
            maps: maps::Tally::default(),
            there: Line::new("field there", fields),
            absent: Line::new("field absent", fields),
            choices: vec![
                choice("is_foreground_fill", 2, &["false", "true"]),
                choice("line_cap", 8, &caps),
                choice("casing_line_cap", 9, &caps),
                choice("text_position", 10, &["none", "center", "line"]),
                choice("icon_image", 37, &["none", "text", "joined"]),
                choice("fill_image", 42, &["none", "text", "joined"]),
                choice("text", 47, &["none", "text", "joined"]),
            ],
            values: NAMES.iter().map(|name| Line::new(&format!("value of {name}"), KINDS)).collect(),
            colors: Line::new("colour by name", COLORS.iter().map(|(name, _)| *name).chain(["other"])),
            levels: Line::new("tag layer", LEVELS),
            z_indices: Line::new("z-index", Z_INDICES),
            casings: Line::new("casing-width", casings),
            fonts: Line::new("font multiplier", FONTS),
            refused: Line::new("refused", REFUSALS),
            layers: Line::new("styled layers", 0..=32),
            canvas: Line::new("canvas colour", CANVAS),
        }
    }
}

/// How a number is counted among zeros, infinities and NaN.
fn shape(x: f64) -> &'static str {
    match x {
        _ if x.is_nan() => "NaN",
        _ if x.is_infinite() => ["inf", "-inf"][usize::from(x < 0.0)],
        _ if x == 0.0 => ["0", "-0"][usize::from(x.is_sign_negative())],
        _ => ["positive", "negative"][usize::from(x < 0.0)],
    }
}

impl Tally {
    pub fn value(&mut self, bundle: &[u8], name: &str, value: Option<Entry>) {
        let kind = match value {
            None => 0,
            Some([5, _, _, from, to, ..]) if to == from => 8,
            Some([5, _, _, from, to, ..]) if to - from > 1 => 7,
            Some([kind, ..]) => kind as usize,
        };
        self.values[NAMES.iter().position(|n| *n == name).unwrap()].met(kind);
        if let (true, Some([1, _, _, from, to, ..])) = (name.ends_with("color"), value) {
            let text = &bundle[from as usize..to as usize];
            let known = COLORS.iter().position(|(color, _)| color.as_bytes() == text);
            self.colors.met(known.unwrap_or(COLORS.len()));
        }
    }

    pub fn level(&mut self, tag: Option<&[u8]>, level: Option<Level>) {
        let tag = tag.unwrap_or_default();
        let digits = tag.strip_prefix(b"-").unwrap_or(tag);
        self.levels.named(match level {
            None => "absent",
            Some(Level::Malformed) if tag.is_empty() => "empty",
            Some(Level::Malformed) => "malformed",
            Some(Level::Above) => "above",
            Some(Level::Below) => "below",
            Some(Level::Is(i64::MIN)) => "least",
            Some(Level::Is(i64::MAX)) => "greatest",
            Some(Level::Is(_)) if tag[0] == b'+' => "+",
            Some(Level::Is(0)) if tag[0] == b'-' => "-0",
            Some(Level::Is(0)) => "0",
            Some(Level::Is(_)) if digits[0] == b'0' => "leading zero",
            Some(Level::Is(_)) => "other",
        });
    }

    pub fn z_index(&mut self, z_index: Option<f64>) {
        self.z_indices.named(z_index.map_or("default", shape));
    }

    pub fn casing(&mut self, value: Option<Entry>, own: Option<f64>, default: Option<f64>, settings: &Settings) {
        let kind = match value {
            Some([5, _, _, from, to, ..]) if to - from == 1 => 0,
            Some([6, ..]) => 1,
            _ => return,
        };
        let width = if own.is_some() { 0 } else { 1 + usize::from(default.is_none()) };
        self.casings.met(6 * usize::from(settings.maps_me()) + 2 * width + kind);
    }

    pub fn row(&mut self, row: &Row) {
        for (k, (_, at)) in FIELDS.into_iter().enumerate() {
            let line = if row.words[at] > 0 { &mut self.there } else { &mut self.absent };
            line.met(k);
        }
        for (at, line) in &mut self.choices {
            line.met(row.words[*at] as usize);
        }
    }

    pub fn answer(&mut self, settings: &Settings, answer: &Result<Vec<Row>, u64>) {
        self.fonts.named(match settings.font.first().map(|&x| shape(x)) {
            None => "none",
            Some("inf" | "-inf") => "infinite",
            Some(shape) => shape,
        });
        self.fonts.met_if(FONTS.len() - 1, settings.font.len() > 1);
        match answer {
            Ok(rows) => self.layers.met(rows.len()),
            Err(number) => self.refused.named(&number.to_string()),
        }
    }

    /// None for 22.
    pub fn canvas(&mut self, style_type: u8, answer: Option<Option<[u8; 3]>>) {
        let place = |found: Option<_>| 2 * usize::from(style_type == 1) + usize::from(found.is_none());
        self.canvas.met(answer.map_or(CANVAS.len() - 1, place));
    }
}

impl tally::Tally for Tally {
    fn lines(&mut self) -> Vec<&mut Line> {
        let mut lines = vec![&mut self.there, &mut self.absent];
        lines.extend(self.choices.iter_mut().map(|(_, line)| line));
        lines.extend(&mut self.values);
        lines.extend([&mut self.colors, &mut self.levels, &mut self.z_indices, &mut self.casings, &mut self.fonts]);
        lines.extend([&mut self.refused, &mut self.layers, &mut self.canvas]);
        lines
    }
}
