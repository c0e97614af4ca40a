//! A module inside the original's parser.rs: its parser on texts of ours, in the neutral form.

use super::*;
use crate::loads::{self, Load, Refusal, TestValue, Value};
use crate::mapcss::token::probe::reason as lexer_reason;
use crate::tokens::bits;

/// The starts of the original's messages, for 01's reasons 1 to 6 of a parse error.
const MESSAGES: [&str; 6] = [
    "Unexpected end of file",
    "Unknown object type: ",
    "Unexpected token: ",
    "Expected '",
    "Unknown color reference: ",
    "Unknown eval(...) form",
];
const TOKENIZE: &str = "Failed to tokenize ";

fn parser<'a>(directory: &Path, name: &str, text: &'a str) -> Parser<'a> {
    Parser {
        tokenizer: Tokenizer::new(text),
        base_path: directory.to_owned(),
        file_name: name.to_string(),
        color_defs: ColorDefs::default(),
    }
}

/// The rules alone, as they come, for timing.
pub fn parse(directory: &Path, name: &str, text: &str) -> Result<Vec<Rule>> {
    parser(directory, name, text).parse()
}

/// Reads the first text, and imports from the directory. A refusal's text is the place of its name among `names`;
/// an import that the directory has not is 5 with the place reached in the first text.
pub fn load(directory: &Path, names: &[&str], text: &str) -> std::result::Result<Load, Refusal> {
    let mut parser = parser(directory, names[0], text);
    let number = |name: &str| names.iter().position(|n| *n == name).expect("a text of the bundle") as u64;
    match parser.parse() {
        Ok(rules) => {
            let colors = parser.color_defs.iter().map(|(name, c)| (name.clone(), color(c))).collect();
            Ok(Load { rules: rules.iter().map(rule).collect(), colors })
        }
        Err(error) => Err(match error.downcast_ref::<MapcssError>() {
            Some(MapcssError::ParseError { message, pos, file_name }) => {
                let known = MESSAGES.iter().position(|start| message.starts_with(start));
                let reason = known.unwrap_or_else(|| panic!("no reason for the message {message}"));
                [4, reason as u64 + 1, number(file_name), pos.line as u64, pos.character as u64]
            }
            Some(MapcssError::LexerError { .. }) => {
                let (reason, pos) = lexer_reason(&error);
                let context = error.downcast_ref::<String>().expect("which text");
                let file_name = context.strip_prefix(TOKENIZE).expect("which text");
                [3, reason, number(file_name), pos.line as u64, pos.character as u64]
            }
            None => {
                assert!(error.root_cause().is::<std::io::Error>(), "unknown error {error:#}");
                let pos = parser.tokenizer.position();
                [5, 0, 0, pos.line as u64, pos.character as u64]
            }
        }),
    }
}

fn color(c: &Color) -> [u8; 3] {
    [c.r, c.g, c.b]
}

fn rule(r: &Rule) -> loads::Rule {
    loads::Rule {
        selectors: r.selectors.iter().map(selector).collect(),
        properties: r.properties.iter().map(property).collect(),
    }
}

fn selector(s: &Selector) -> loads::Selector {
    loads::Selector {
        object_type: match s.object_type {
            ObjectType::All => 1,
            ObjectType::Canvas => 2,
            ObjectType::Meta => 3,
            ObjectType::Node => 4,
            ObjectType::Way => 5,
            ObjectType::Area => 6,
        },
        zoom: (s.min_zoom, s.max_zoom),
        tests: s.tests.iter().map(test).collect(),
        layer: s.layer_id.clone(),
    }
}

fn test(t: &Test) -> loads::Test {
    let (kind, key, value) = match t {
        Test::Unary { tag_name, test_type } => {
            let kind = match test_type {
                UnaryTestType::Exists => 1,
                UnaryTestType::NotExists => 2,
                UnaryTestType::True => 3,
                UnaryTestType::False => 4,
            };
            (kind, tag_name, TestValue::None)
        }
        Test::BinaryStringCompare { tag_name, value, test_type } => {
            let kind = match test_type {
                BinaryStringTestType::Equal => 5,
                BinaryStringTestType::NotEqual => 6,
            };
            (kind, tag_name, TestValue::Text(value.clone()))
        }
        Test::BinaryNumericCompare { tag_name, value, test_type } => {
            let kind = match test_type {
                BinaryNumericTestType::Less => 9,
                BinaryNumericTestType::LessOrEqual => 10,
                BinaryNumericTestType::Greater => 11,
                BinaryNumericTestType::GreaterOrEqual => 12,
            };
            (kind, tag_name, TestValue::Number(bits(*value)))
        }
    };
    loads::Test { kind, key: key.clone(), value }
}

fn property(p: &Property) -> loads::Property {
    loads::Property { name: p.name.clone(), value: value(&p.value) }
}

pub fn value(v: &PropertyValue) -> Value {
    match v {
        PropertyValue::Identifier(id) => Value::Identifier(id.clone()),
        PropertyValue::String(text) => Value::Text(text.clone()),
        PropertyValue::Color(c) => Value::Color(color(c)),
        PropertyValue::Numbers(all) => Value::Numbers(all.iter().map(|x| bits(*x)).collect()),
        PropertyValue::WidthDelta(x) => Value::Delta(bits(*x)),
    }
}
