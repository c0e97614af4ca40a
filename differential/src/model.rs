//! What a load must answer, tables and all: written from docs/GRAMMAR.md and docs/TABLES.md over the original's
//! tokenizer, apart from both parsers. Where the original has an answer, it is compared with this one too; refusals
//! that only the engine has (1, 2, 6, 20, 21) are this model's alone.

use crate::bundles::{self, Place};
use crate::loads::{stride, Entry, Filled, Lent, Refusal, Tables, MOST_ENTRIES};
use crate::loads::{COLORS, NUMBERS, PROPERTIES, RULES, SELECTORS, TESTS};
use crate::mapcss::token::probe::Tokens;
use crate::tokens::{Payload, Step, END, ERROR};
use std::collections::HashMap;

/// An import from a text at this depth is too deep; the first text has depth 0.
const DEEPEST: usize = 8;
const WHOLE: f64 = 9_007_199_254_740_991.0;

/// More tokens than this in one load are a mistake in the cases.
const MOST_TOKENS: u64 = 50_000_000;

// kinds of tokens, as crate capi_token numbers them
const IMPORT: u8 = 2;
const IDENTIFIER: u8 = 3;
const STRING: u8 = 4;
const NUMBER: u8 = 5;
const ZOOM_RANGE: u8 = 6;
const COLOR_REF: u8 = 7;
const COLOR: u8 = 8;
const LEFT_PAREN: u8 = 9;
const RIGHT_PAREN: u8 = 10;
const LEFT_BRACKET: u8 = 11;
const RIGHT_BRACKET: u8 = 12;
const LEFT_BRACE: u8 = 13;
const RIGHT_BRACE: u8 = 14;
const EQUAL: u8 = 15;
const NOT_EQUAL: u8 = 16;
const LESS: u8 = 17;
const GREATER: u8 = 18;
const LESS_OR_EQUAL: u8 = 19;
const GREATER_OR_EQUAL: u8 = 20;
const BANG: u8 = 22;
const QUESTION_MARK: u8 = 23;
const COLON: u8 = 24;
const DOUBLE_COLON: u8 = 25;
const SEMICOLON: u8 = 26;
const COMMA: u8 = 27;

// reasons of a parse error
const END_OF_FILE: u64 = 1;
const OBJECT_TYPE: u64 = 2;
const UNEXPECTED: u64 = 3;
const EXPECTED: u64 = 4;
const COLOR_REFERENCE: u64 = 5;
const EVAL_FORM: u64 = 6;

/// What a load of the bundle into tables of so many elements answers.
pub fn load(bundle: &[u8], lent: &Lent) -> Filled {
    load_partly(bundle, lent).0
}

/// The same, and the tables as filled when reading ended, also where it was refused.
pub fn load_partly(bundle: &[u8], lent: &Lent) -> (Filled, Tables) {
    let places = match bundles::check(bundle) {
        Ok(places) => places,
        Err(number) => return (Err([number, 0, 0, 0, 0]), Tables::default()),
    };
    let room = std::array::from_fn(|table| (lent[table] / stride(table)).min(MOST_ENTRIES));
    let mut sheet =
        Sheet { bundle, places: &places, room, tables: Tables::default(), colors: HashMap::new(), tokens: 0 };
    let read = sheet.text(0, 0);
    let tables = sheet.tables;
    (read.map(|()| tables.clone()), tables)
}

type Read<T> = Result<T, Refusal>;

struct Sheet<'a> {
    bundle: &'a [u8],
    places: &'a [Place],
    room: [usize; 6],
    tables: Tables,
    /// The entry of each colour's name.
    colors: HashMap<&'a [u8], usize>,
    tokens: u64,
}

/// One text while it is read.
struct Text<'a> {
    number: usize,
    /// Where the text starts in the bundle.
    from: usize,
    tokens: Tokens<'a>,
    /// The place reached.
    line: usize,
    character: usize,
}

impl Text<'_> {
    fn refusal(&self, number: u64, reason: u64, line: usize, character: usize) -> Refusal {
        [number, reason, self.number as u64, line as u64, character as u64]
    }

    /// At the place reached.
    fn here<T>(&self, number: u64, reason: u64) -> Read<T> {
        Err(self.refusal(number, reason, self.line, self.character))
    }

    /// A parse error at a token.
    fn at<T>(&self, reason: u64, token: &Step) -> Read<T> {
        Err(self.refusal(4, reason, token.line, token.character))
    }
}

/// Places in the bundle.
type Span = (u32, u32);

/// A name of one or two spans.
struct Name {
    first: Span,
    second: Option<Span>,
}

impl<'a> Sheet<'a> {
    fn text(&mut self, number: usize, depth: usize) -> Read<()> {
        let place = self.places[number].text.clone();
        let tokens = Tokens::new(std::str::from_utf8(&self.bundle[place.clone()]).unwrap());
        let t = &mut Text { number, from: place.start, tokens, line: 1, character: 0 };
        while let Some(token) = self.next(t)? {
            match token.kind {
                IMPORT => {
                    self.expect(t, SEMICOLON)?;
                    let name = self.bytes(self.span(t, &token));
                    let found = self.places.iter().position(|place| &self.bundle[place.name.clone()] == name);
                    let Some(found) = found else { return t.here(5, 0) };
                    if depth == DEEPEST {
                        return t.here(21, 0);
                    }
                    self.text(found, depth + 1)?;
                }
                COLOR_REF => self.definition(t, &token)?,
                _ => self.rule(t, token)?,
            }
        }
        Ok(())
    }

    /// The next token, or none at the end.
    fn next(&mut self, t: &mut Text<'a>) -> Read<Option<Step>> {
        self.tokens += 1;
        assert!(self.tokens < MOST_TOKENS, "a case that takes too long");
        let step = t.tokens.step();
        if step.kind == ERROR {
            let Payload::Reason(reason) = step.payload else { unreachable!() };
            return Err(t.refusal(3, reason, step.line, step.character));
        }
        let after = step.cursor.unwrap();
        (t.line, t.character) = (after.line, after.character);
        Ok((step.kind != END).then_some(step))
    }

    fn must(&mut self, t: &mut Text<'a>) -> Read<Step> {
        match self.next(t)? {
            Some(token) => Ok(token),
            None => t.here(4, END_OF_FILE),
        }
    }

    fn expect(&mut self, t: &mut Text<'a>, kind: u8) -> Read<()> {
        let token = self.must(t)?;
        if token.kind == kind {
            Ok(())
        } else {
            t.at(EXPECTED, &token)
        }
    }

    fn identifier(&mut self, t: &mut Text<'a>) -> Read<Span> {
        let token = self.must(t)?;
        if token.kind == IDENTIFIER {
            Ok(self.span(t, &token))
        } else {
            t.at(UNEXPECTED, &token)
        }
    }

    fn span(&self, t: &Text<'a>, token: &Step) -> Span {
        let Payload::Range(from, to) = token.payload else { unreachable!() };
        ((t.from + from) as u32, (t.from + to) as u32)
    }

    fn bytes(&self, (from, to): Span) -> &'a [u8] {
        &self.bundle[from as usize..to as usize]
    }

    fn is_word(&self, t: &Text<'a>, token: &Step, kind: u8, word: &[u8]) -> bool {
        token.kind == kind && self.bytes(self.span(t, token)) == word
    }

    /// Stores an entry, or finds the table full at the place reached.
    fn put(&mut self, t: &Text<'a>, table: usize, entry: Entry) -> Read<()> {
        if self.tables.count(table) == self.room[table] {
            return t.here(20, table as u64 + 1);
        }
        self.tables.entries[table].push(entry);
        Ok(())
    }

    fn put_number(&mut self, t: &Text<'a>, bits: u64) -> Read<u32> {
        let n = self.tables.count(NUMBERS);
        if n == self.room[NUMBERS] {
            return t.here(20, NUMBERS as u64 + 1);
        }
        self.tables.numbers.push(bits);
        Ok(n as u32)
    }

    fn count(&self, table: usize) -> u32 {
        self.tables.count(table) as u32
    }

    fn definition(&mut self, t: &mut Text<'a>, name: &Step) -> Read<()> {
        let name = self.span(t, name);
        self.expect(t, COLON)?;
        let value = self.must(t)?;
        self.expect(t, SEMICOLON)?;
        let Payload::Color(r, g, b) = value.payload else { return Ok(()) };
        let rgb = [r as u32, g as u32, b as u32];
        match self.colors.get(self.bytes(name)) {
            Some(&n) => self.tables.entries[COLORS][n][3..6].copy_from_slice(&rgb),
            None => {
                let n = self.count(COLORS) as usize;
                self.put(t, COLORS, [1, name.0, name.1, rgb[0], rgb[1], rgb[2], 0, 0])?;
                self.colors.insert(self.bytes(name), n);
            }
        }
        Ok(())
    }

    fn rule(&mut self, t: &mut Text<'a>, first: Step) -> Read<()> {
        let selectors = self.count(SELECTORS);
        let properties = self.count(PROPERTIES);
        let mut start = first;
        let mut with_body = true;
        while start.kind != LEFT_BRACE {
            if self.is_word(t, &start, IDENTIFIER, b"colors") {
                while self.must(t)?.kind != RIGHT_BRACE {}
                with_body = false;
                break;
            }
            if !self.selector(t, &start)? {
                break;
            }
            start = self.must(t)?;
        }
        while with_body {
            let token = self.must(t)?;
            match token.kind {
                RIGHT_BRACE => break,
                IDENTIFIER => self.property(t, &token)?,
                _ => return t.at(UNEXPECTED, &token),
            }
        }
        let entry = [1, selectors, self.count(SELECTORS), properties, self.count(PROPERTIES), 0, 0, 0];
        self.put(t, RULES, entry)
    }

    /// True if another selector follows.
    fn selector(&mut self, t: &mut Text<'a>, start: &Step) -> Read<bool> {
        if start.kind != IDENTIFIER {
            return t.at(UNEXPECTED, start);
        }
        let object_type = match self.bytes(self.span(t, start)) {
            b"*" => 1,
            b"canvas" => 2,
            b"meta" => 3,
            b"node" => 4,
            b"way" | b"line" => 5,
            b"area" => 6,
            _ => return t.at(OBJECT_TYPE, start),
        };
        let tests = self.count(TESTS);
        let (mut low, mut high) = (0, 0);
        let mut layer = None;
        loop {
            let token = self.must(t)?;
            match token.kind {
                LEFT_BRACE | COMMA => {
                    let (from, to) = layer.unwrap_or((0, 0));
                    let named = u32::from(layer.is_some());
                    let entry = [object_type, low, high, tests, self.count(TESTS), named, from, to];
                    self.put(t, SELECTORS, entry)?;
                    return Ok(token.kind == COMMA);
                }
                ZOOM_RANGE => {
                    let Payload::Zoom(min, max) = token.payload else { unreachable!() };
                    let word = |level: Option<u64>| level.map_or(0, |z| z as u32 + 1);
                    (low, high) = (word(min), word(max));
                }
                LEFT_BRACKET => self.test(t)?,
                COLON => drop(self.identifier(t)?),
                DOUBLE_COLON => layer = Some(self.identifier(t)?),
                _ => return t.at(UNEXPECTED, &token),
            }
        }
    }

    fn test(&mut self, t: &mut Text<'a>) -> Read<()> {
        let token = self.must(t)?;
        let bang = token.kind == BANG;
        let first = match token.kind {
            IDENTIFIER | STRING => self.span(t, &token),
            BANG => self.identifier(t)?,
            _ => return t.at(UNEXPECTED, &token),
        };
        let mut key = Name { first, second: None };
        let mut token = self.must(t)?;
        if token.kind == COLON {
            key.second = Some(self.identifier(t)?);
            token = self.must(t)?;
        }
        let comparison = match token.kind {
            _ if bang => None,
            EQUAL => Some(5),
            NOT_EQUAL => Some(6),
            LESS => Some(9),
            LESS_OR_EQUAL => Some(10),
            GREATER => Some(11),
            GREATER_OR_EQUAL => Some(12),
            _ => None,
        };
        if let Some(kind) = comparison {
            let operand = self.must(t)?;
            let textual = kind < 9;
            let number = match operand.payload {
                Payload::Number(bits) => Some(bits),
                _ if textual && operand.kind == IDENTIFIER => None,
                _ => return t.at(UNEXPECTED, &operand),
            };
            self.expect(t, RIGHT_BRACKET)?;
            let Some(bits) = number else {
                return self.put_test(t, kind, &key, self.span(t, &operand));
            };
            let x = f64::from_bits(bits);
            if textual && !(x.abs() <= WHOLE && x.fract() == 0.0) {
                return t.here(6, 0);
            }
            let place = self.put_number(t, bits)?;
            return self.put_test(t, if textual { kind + 2 } else { kind }, &key, (place, 0));
        }
        let kind = match token.kind {
            RIGHT_BRACKET if bang => 2,
            RIGHT_BRACKET => 1,
            QUESTION_MARK => {
                let token = self.must(t)?;
                match token.kind {
                    RIGHT_BRACKET if bang => 4,
                    RIGHT_BRACKET => 3,
                    BANG if !bang => {
                        self.expect(t, RIGHT_BRACKET)?;
                        4
                    }
                    _ => return t.at(UNEXPECTED, &token),
                }
            }
            _ => return t.at(UNEXPECTED, &token),
        };
        self.put_test(t, kind, &key, (0, 0))
    }

    fn put_test(&mut self, t: &Text<'a>, kind: u32, key: &Name, value: Span) -> Read<()> {
        let (from, to) = key.second.unwrap_or((0, 0));
        let joined = u32::from(key.second.is_some());
        self.put(t, TESTS, [kind, key.first.0, key.first.1, joined, from, to, value.0, value.1])
    }

    fn property(&mut self, t: &mut Text<'a>, name: &Step) -> Read<()> {
        let name = self.span(t, name);
        self.expect(t, COLON)?;
        let token = self.must(t)?;
        let (kind, value) = match token.kind {
            IDENTIFIER if self.is_word(t, &token, IDENTIFIER, b"eval") => {
                let bits = self.delta(t, &token)?;
                (6, [self.put_number(t, bits)?, 0, 0, 0])
            }
            IDENTIFIER => {
                let (from, to) = self.span(t, &token);
                let next = self.must(t)?;
                match next.kind {
                    SEMICOLON => (1, [from, to, 0, 0]),
                    COLON => {
                        let second = self.identifier(t)?;
                        self.expect(t, SEMICOLON)?;
                        (2, [from, to, second.0, second.1])
                    }
                    _ => return t.at(UNEXPECTED, &next),
                }
            }
            STRING => {
                let (from, to) = self.span(t, &token);
                self.expect(t, SEMICOLON)?;
                (3, [from, to, 0, 0])
            }
            COLOR => {
                let Payload::Color(r, g, b) = token.payload else { unreachable!() };
                self.expect(t, SEMICOLON)?;
                (4, [r as u32, g as u32, b as u32, 0])
            }
            COLOR_REF => {
                let Some(&n) = self.colors.get(self.bytes(self.span(t, &token))) else {
                    return t.here(4, COLOR_REFERENCE);
                };
                let color = self.tables.entries[COLORS][n];
                self.expect(t, SEMICOLON)?;
                (4, [color[3], color[4], color[5], 0])
            }
            NUMBER => {
                let from = self.count(NUMBERS);
                self.numbers(t, token)?;
                (5, [from, self.count(NUMBERS), 0, 0])
            }
            _ => return t.at(UNEXPECTED, &token),
        };
        self.put(t, PROPERTIES, [kind, name.0, name.1, value[0], value[1], value[2], value[3], 0])
    }

    /// number { "," number } ";", each number stored before the next token is read.
    fn numbers(&mut self, t: &mut Text<'a>, first: Step) -> Read<()> {
        let mut number = first;
        loop {
            let Payload::Number(bits) = number.payload else { return t.at(UNEXPECTED, &number) };
            self.put_number(t, bits)?;
            let token = self.must(t)?;
            match token.kind {
                SEMICOLON => return Ok(()),
                COMMA => number = self.must(t)?,
                _ => return t.at(UNEXPECTED, &token),
            }
        }
    }

    /// Everything up to the semicolon, then its form: ( prop ( "width" ) [ number ] ).
    fn delta(&mut self, t: &mut Text<'a>, eval: &Step) -> Read<u64> {
        let mut tokens = Vec::new();
        loop {
            let token = self.must(t)?;
            if token.kind == SEMICOLON {
                break;
            }
            tokens.push(token);
        }
        let delta = match &tokens[..] {
            [open, prop, inner, width, close, number @ .., end]
                if open.kind == LEFT_PAREN
                    && self.is_word(t, prop, IDENTIFIER, b"prop")
                    && inner.kind == LEFT_PAREN
                    && self.is_word(t, width, STRING, b"width")
                    && close.kind == RIGHT_PAREN
                    && end.kind == RIGHT_PAREN =>
            {
                match number {
                    [] => Some(0.0f64.to_bits()),
                    [Step { payload: Payload::Number(bits), .. }] => Some(*bits),
                    _ => None,
                }
            }
            _ => None,
        };
        delta.map_or_else(|| t.at(EVAL_FORM, eval), Ok)
    }
}
