//! The numbered refusals.

use std::error::Error;
use std::fmt;

/// Why a call has no answer: five numbers, those that are not used 0.
#[derive(Clone, Copy, Debug, PartialEq, Eq, Hash)]
pub struct Refusal {
    /// Which refusal it is; `words` says it in words.
    pub number: u64,
    /// The reason of a 3, 4 or 20. For an entity: 1 if it is in the stream of multipolygons.
    pub reason: u64,
    /// The text's place in the bundle, from 0. For an entity: its place in its stream.
    pub text: u64,
    /// The line, from 1.
    pub line: u64,
    /// The character in its line, from 1.
    pub character: u64,
}

impl Refusal {
    pub(crate) fn of(out: [u64; 5]) -> Refusal {
        let [number, reason, text, line, character] = out;
        Refusal { number, reason, text, line, character }
    }

    /// The five numbers.
    pub fn numbers(&self) -> [u64; 5] {
        [self.number, self.reason, self.text, self.line, self.character]
    }

    /// What the number says.
    pub fn words(&self) -> &'static str {
        match self.number {
            1 => "the bundle's layout is wrong",
            2 => "a name, text, key or value is not UTF-8",
            3 => "lexer error",
            4 => "parse error",
            5 => "an import names no text of the bundle",
            6 => "the number in a test is not whole or too large",
            7 => "the entity's layout is wrong",
            8 => "a tag's number is outside the exact range",
            9 => "a z-index is not a number",
            20 => "a table is full",
            21 => "an import goes too deep",
            22 => "the sheet's tables are broken",
            23 => "an entity has a 33rd layer",
            24 => "a layer has a 129th property",
            25 => "the drawing list is full",
            _ => "unknown refusal",
        }
    }

    /// What the reason says, where the number has one.
    pub fn reason_words(&self) -> Option<&'static str> {
        let words = match (self.number, self.reason) {
            (3, 1) => "neither a number nor an identifier after -",
            (3, 2) => "a symbol that begins no token",
            (3, 3) => "no name after @",
            (3, 4) => "no string after @import",
            (3, 5) => "a string without an end",
            (3, 6) => "nothing after the sign of a number",
            (3, 7) => "neither a digit nor a dot after the sign of a number",
            (3, 8) => "no digit after the dot of a number",
            (3, 9) => "a colour has neither three nor six digits",
            (3, 10) => "no z after |",
            (3, 11) => "a zoom range without a level",
            (3, 12) => "a block comment without an end",
            (4, 1) => "the text ends too early",
            (4, 2) => "an unknown object type",
            (4, 3) => "an unexpected token",
            (4, 4) => "another token was expected",
            (4, 5) => "a colour that is not defined",
            (4, 6) => "an eval of another form",
            (20, 1) => "rules",
            (20, 2) => "selectors",
            (20, 3) => "tests",
            (20, 4) => "properties",
            (20, 5) => "numbers",
            (20, 6) => "colours",
            _ => return None,
        };
        Some(words)
    }
}

impl fmt::Display for Refusal {
    fn fmt(&self, f: &mut fmt::Formatter) -> fmt::Result {
        write!(f, "refusal {}: {}", self.number, self.words())?;
        if let Some(reason) = self.reason_words() {
            write!(f, ", {reason}")?;
        }
        match self.number {
            3..=6 | 20 | 21 => write!(f, " (text {}, line {}, character {})", self.text, self.line, self.character),
            7..=9 | 23 | 24 if self.reason == 1 => write!(f, " (multipolygon {})", self.text),
            7..=9 | 23 | 24 => write!(f, " (entity {})", self.text),
            _ => Ok(()),
        }
    }
}

impl Error for Refusal {}
