//! What the unverified programs share: their arguments, and tokens.
use std::env;

mod colliding;

pub use colliding::{colliding_names, counted_names};

/// The arguments, without the program's own name.
pub fn arguments() -> Vec<String> {
    env::args().skip(1).collect()
}

/// What a token is.
#[derive(Clone, Copy, PartialEq, Eq, Debug)]
pub enum Kind {
    Name,
    Number,
    Word(&'static str),
    Symbol(&'static str),
}

/// A token with its place in bytes.
#[derive(Clone, Copy)]
pub struct Token {
    pub kind: Kind,
    pub start: usize,
    pub end: usize,
}

/// The number of a fault, and its place in bytes.
#[derive(Clone, Copy)]
pub struct Fault(pub usize, pub usize);

const RESERVED: [&str; 18] = [
    "and", "bool", "bot", "else", "false", "format", "fun", "if", "import", "in", "int", "let", "rec", "then",
    "top", "true", "type", "val",
];

const SYMBOLS: [&str; 16] = ["==", "->", "=", "{", "}", "(", ")", ",", ".", ":", "+", "-", "*", "<", "|", "&"];

/// The tokens of a text, or its first fault.
pub fn tokens(text: &[u8]) -> Result<Vec<Token>, Fault> {
    let mut found = Vec::new();
    let mut at = 0;
    while at < text.len() {
        let start = at;
        match text[at] {
            b' ' | b'\t' | b'\n' | b'\r' => {
                at += 1;
                continue;
            }
            b'#' => {
                while at < text.len() && text[at] != b'\n' {
                    at += 1;
                }
                continue;
            }
            _ => {}
        }
        let kind = match text[at] {
            b'a'..=b'z' => {
                while at < text.len() && (text[at].is_ascii_alphanumeric() || text[at] == b'_') {
                    at += 1;
                }
                let word = &text[start..at];
                match RESERVED.iter().find(|reserved| reserved.as_bytes() == word) {
                    Some(reserved) => Kind::Word(reserved),
                    None => Kind::Name,
                }
            }
            b'0'..=b'9' => {
                let mut value: Option<u64> = Some(0);
                while at < text.len() && text[at].is_ascii_digit() {
                    let digit = u64::from(text[at] - b'0');
                    value = value.and_then(|value| value.checked_mul(10)?.checked_add(digit));
                    at += 1;
                }
                if value.is_none_or(|value| value > 9_223_372_036_854_775_807) {
                    return Err(Fault(2, start));
                }
                Kind::Number
            }
            _ => match SYMBOLS.iter().find(|symbol| text[at..].starts_with(symbol.as_bytes())) {
                Some(symbol) => {
                    at += symbol.len();
                    Kind::Symbol(symbol)
                }
                None => return Err(Fault(1, start)),
            },
        };
        found.push(Token { kind, start, end: at });
    }
    Ok(found)
}
