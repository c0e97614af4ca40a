//! A module inside the original's token.rs: its tokenizer step by step, in the neutral form.

use super::*;
use crate::tokens::{bits, Cursor, Payload, Step, END, ERROR};

/// The starts of the original's messages, for 01's reasons 1 to 12.
const MESSAGES: [&str; 12] = [
    "Expected a valid number or identifier after '-'",
    "Unexpected symbol: ",
    "Expected a letter or underscore after @",
    "Expected a string",
    "Unterminated string",
    "Expected a digit after '-' or '+'",
    "Expected a digit or '.' instead of ",
    "Expected a digit after '.'",
    "Invalid hex color",
    "Expected 'z' character",
    "A zoom range should have either",
    "Unterminated block comment",
];

pub struct Tokens<'a>(Tokenizer<'a>);

impl<'a> Tokens<'a> {
    pub fn new(text: &'a str) -> Tokens<'a> {
        Tokens(Tokenizer::new(text))
    }

    pub fn step(&mut self) -> Step {
        match self.0.next() {
            None => {
                let InputPosition { line, character } = self.0.position();
                Step { kind: END, line, character, payload: Payload::None, cursor: Some(self.cursor()) }
            }
            Some(Ok(TokenWithPosition { token, position: InputPosition { line, character } })) => {
                let (kind, payload) = coded(self.0.text, &token);
                Step { kind, line, character, payload, cursor: Some(self.cursor()) }
            }
            Some(Err(error)) => {
                let (reason, InputPosition { line, character }) = reason(&error);
                Step { kind: ERROR, line, character, payload: Payload::Reason(reason), cursor: None }
            }
        }
    }

    fn cursor(&mut self) -> Cursor {
        let t = &mut self.0;
        Cursor {
            at: t.chars.peek().map_or(t.text.len(), |x| x.0),
            line: t.current_position.line,
            character: t.current_position.character,
            newline: t.had_newline,
        }
    }
}

pub fn reason(error: &anyhow::Error) -> (u64, InputPosition) {
    let Some(MapcssError::LexerError { message, pos }) = error.downcast_ref() else {
        panic!("not a lexer error: {error}")
    };
    let known = MESSAGES.iter().position(|start| message.starts_with(start));
    let reason = known.unwrap_or_else(|| panic!("no reason for the message {message}"));
    (reason as u64 + 1, *pos)
}

fn coded(text: &str, token: &Token) -> (u8, Payload) {
    let range = |part: &str| {
        let from = part.as_ptr() as usize - text.as_ptr() as usize;
        Payload::Range(from, from + part.len())
    };
    match token {
        Token::Import(s) => (2, range(s)),
        Token::Identifier(s) => (3, range(s)),
        Token::String(s) => (4, range(s)),
        Token::Number(x) => (5, Payload::Number(bits(*x))),
        Token::ZoomRange { min_zoom, max_zoom } => (6, Payload::Zoom(min_zoom.map(u64::from), max_zoom.map(u64::from))),
        Token::ColorRef(s) => (7, range(s)),
        Token::Color(Color { r, g, b }) => (8, Payload::Color((*r).into(), (*g).into(), (*b).into())),
        Token::LeftParen => (9, Payload::None),
        Token::RightParen => (10, Payload::None),
        Token::LeftBracket => (11, Payload::None),
        Token::RightBracket => (12, Payload::None),
        Token::LeftBrace => (13, Payload::None),
        Token::RightBrace => (14, Payload::None),
        Token::Equal => (15, Payload::None),
        Token::NotEqual => (16, Payload::None),
        Token::Less => (17, Payload::None),
        Token::Greater => (18, Payload::None),
        Token::LessOrEqual => (19, Payload::None),
        Token::GreaterOrEqual => (20, Payload::None),
        Token::RegexMatch => (21, Payload::None),
        Token::Bang => (22, Payload::None),
        Token::QuestionMark => (23, Payload::None),
        Token::Colon => (24, Payload::None),
        Token::DoubleColon => (25, Payload::None),
        Token::SemiColon => (26, Payload::None),
        Token::Comma => (27, Payload::None),
    }
}
