//! Token streams: one neutral form for both tokenizers, and its bytes in a sample.

use crate::mapcss::token::probe;
use crate::tally::{Line, Tally};

pub const END: u8 = 0;
pub const ERROR: u8 = 1;
pub const REASONS: usize = 12;

/// What each code of crate capi_token stands for: end, error, then Token's variants in their order.
pub const KINDS: [&str; 28] = [
    "end", "error", "Import", "Identifier", "String", "Number", "ZoomRange", "ColorRef", "Color", "LeftParen",
    "RightParen", "LeftBracket", "RightBracket", "LeftBrace", "RightBrace", "Equal", "NotEqual", "Less", "Greater",
    "LessOrEqual", "GreaterOrEqual", "RegexMatch", "Bang", "QuestionMark", "Colon", "DoubleColon", "SemiColon",
    "Comma",
];

#[derive(Clone, Copy, Debug, PartialEq)]
pub struct Cursor {
    pub at: usize,
    pub line: usize,
    pub character: usize,
    pub newline: bool,
}

impl Cursor {
    pub const START: Cursor = Cursor { at: 0, line: 1, character: 0, newline: false };
}

#[derive(Clone, Copy, Debug, PartialEq)]
pub enum Payload {
    None,
    Range(usize, usize),
    /// The bits of the number; every NaN has the same.
    Number(u64),
    Zoom(Option<u64>, Option<u64>),
    Color(u64, u64, u64),
    Reason(u64),
}

/// One step: a token, the end or an error.
#[derive(Clone, Copy, Debug, PartialEq)]
pub struct Step {
    pub kind: u8,
    /// A token's first character, the place reached after the end, or an error's place.
    pub line: usize,
    pub character: usize,
    pub payload: Payload,
    /// Where the next step starts; none after an error.
    pub cursor: Option<Cursor>,
}

pub fn bits(number: f64) -> u64 {
    if number.is_nan() {
        0x7ff8_0000_0000_0000
    } else {
        number.to_bits()
    }
}

/// All steps of a text, up to the end or the first error. A tokenizer that stands still is cut off.
fn steps(text: &str, mut step: impl FnMut() -> Step) -> Vec<Step> {
    let mut all = Vec::new();
    while all.len() <= text.len() {
        let next = step();
        all.push(next);
        if next.kind == END || next.kind == ERROR {
            break;
        }
    }
    all
}

pub fn original(text: &str) -> Vec<Step> {
    let mut tokenizer = probe::Tokens::new(text);
    steps(text, || tokenizer.step())
}

#[cfg(feature = "rattle")]
pub fn ours(text: &str) -> Vec<Step> {
    let mut cursor = Cursor::START;
    steps(text, || {
        let step = crate::ffi::next_token(text.as_bytes(), cursor);
        cursor = step.cursor.unwrap_or(cursor);
        step
    })
}

#[cfg(not(feature = "rattle"))]
pub fn ours(text: &str) -> Vec<Step> {
    original(text)
}

/// The place and both sides of the first step in which the two differ.
pub fn difference(original: &[Step], ours: &[Step]) -> Option<String> {
    let k = (0..original.len().max(ours.len())).find(|&k| original.get(k) != ours.get(k))?;
    Some(format!("step {k}\n  original {}\n  ours     {}", shown(original.get(k)), shown(ours.get(k))))
}

fn shown(step: Option<&Step>) -> String {
    let Some(s) = step else { return "nothing".to_string() };
    let kind = KINDS.get(s.kind as usize).unwrap_or(&"unknown kind");
    let payload = match s.payload {
        Payload::Number(bits) => format!("{:?} (bits {bits:x})", f64::from_bits(bits)),
        other => format!("{other:?}"),
    };
    format!("{kind} at {}:{}, {payload}, then {:?}", s.line, s.character, s.cursor)
}

/// A stream's bytes in a sample; README.md has the format.
pub fn bytes(steps: &[Step]) -> Vec<u8> {
    let mut out = Vec::new();
    for s in steps {
        out.push(s.kind);
        if let Payload::Reason(reason) = s.payload {
            out.push(reason as u8);
        }
        put(&mut out, s.line);
        put(&mut out, s.character);
        match s.payload {
            Payload::None | Payload::Reason(_) => {}
            Payload::Range(from, to) => {
                put(&mut out, from);
                put(&mut out, to);
            }
            Payload::Number(bits) => out.extend(bits.to_le_bytes()),
            Payload::Zoom(min, max) => {
                for level in [min, max] {
                    out.extend([level.is_some() as u8, level.unwrap_or(0) as u8]);
                }
            }
            Payload::Color(r, g, b) => out.extend([r as u8, g as u8, b as u8]),
        }
    }
    out
}

pub fn put(out: &mut Vec<u8>, n: usize) {
    out.extend(u16::try_from(n).expect("too long for a sample").to_le_bytes());
}

/// How often each kind and each reason came up.
pub struct Counts {
    kinds: Line,
    reasons: Line,
}

impl Default for Counts {
    fn default() -> Counts {
        Counts { kinds: Line::new("kind", KINDS), reasons: Line::new("3, reason", 1..=REASONS) }
    }
}

impl Counts {
    pub fn add(&mut self, steps: &[Step]) {
        for s in steps {
            self.kinds.met(s.kind as usize);
            if let Payload::Reason(reason) = s.payload {
                self.reasons.met(reason as usize - 1);
            }
        }
    }
}

impl Tally for Counts {
    fn lines(&mut self) -> Vec<&mut Line> {
        vec![&mut self.kinds, &mut self.reasons]
    }
}
