//! A plain Rust lexer of the same tokens as `mls_lexer`, and texts to measure both on.
//!
//! `lexer-bench write FOLDER` writes the texts, `lexer-bench run FOLDER ROUNDS` reads their tokens and prints
//! the least time of a round for each, with the number of tokens and a sum over their places and kinds.

use bench_common::arguments;
use std::{fs, path::Path, time::Instant};

const TEXTS: [&str; 4] = ["module", "names", "symbols", "comments"];
const SIZE: usize = 1 << 20;

#[derive(Clone, Copy)]
enum Kind {
    Name,
    Number,
    WordAnd,
    WordBool,
    WordBot,
    WordElse,
    WordFalse,
    WordFormat,
    WordFun,
    WordIf,
    WordImport,
    WordIn,
    WordInt,
    WordLet,
    WordRec,
    WordThen,
    WordTop,
    WordTrue,
    WordType,
    WordVal,
    Equals,
    DoubleEquals,
    Arrow,
    BraceLeft,
    BraceRight,
    ParenLeft,
    ParenRight,
    Comma,
    Dot,
    Colon,
    Plus,
    Minus,
    Star,
    Less,
    Bar,
    Amp,
}

#[derive(Clone, Copy)]
struct Token {
    kind: Kind,
    start: usize,
    end: usize,
}

enum Fault {
    BadByte(usize),
    BigNumber(usize),
}

fn tokens(text: &[u8]) -> Result<Vec<Token>, Fault> {
    let mut found = Vec::new();
    let mut at = 0;
    while at < text.len() {
        let start = at;
        let kind = match text[at] {
            b' ' | b'\t' | b'\n' | b'\r' => {
                at += 1;
                continue;
            }
            b'#' => {
                while at < text.len() && text[at] != b'\n' {
                    at += 1;
                }
                continue;
            }
            b'a'..=b'z' => {
                while at < text.len() && (text[at].is_ascii_alphanumeric() || text[at] == b'_') {
                    at += 1;
                }
                word(&text[start..at])
            }
            b'0'..=b'9' => {
                let mut value: u64 = 0;
                let mut big = false;
                while at < text.len() && text[at].is_ascii_digit() {
                    let digit = u64::from(text[at] - b'0');
                    match value.checked_mul(10).and_then(|v| v.checked_add(digit)) {
                        Some(v) if v <= i64::MAX as u64 => value = v,
                        _ => big = true,
                    }
                    at += 1;
                }
                if big {
                    return Err(Fault::BigNumber(start));
                }
                Kind::Number
            }
            byte => {
                let (kind, length) = symbol(byte, text.get(at + 1).copied()).ok_or(Fault::BadByte(at))?;
                at += length;
                kind
            }
        };
        found.push(Token { kind, start, end: at });
    }
    Ok(found)
}

fn symbol(byte: u8, next: Option<u8>) -> Option<(Kind, usize)> {
    let kind = match byte {
        b'=' if next == Some(b'=') => return Some((Kind::DoubleEquals, 2)),
        b'-' if next == Some(b'>') => return Some((Kind::Arrow, 2)),
        b'=' => Kind::Equals,
        b'{' => Kind::BraceLeft,
        b'}' => Kind::BraceRight,
        b'(' => Kind::ParenLeft,
        b')' => Kind::ParenRight,
        b',' => Kind::Comma,
        b'.' => Kind::Dot,
        b':' => Kind::Colon,
        b'+' => Kind::Plus,
        b'-' => Kind::Minus,
        b'*' => Kind::Star,
        b'<' => Kind::Less,
        b'|' => Kind::Bar,
        b'&' => Kind::Amp,
        _ => return None,
    };
    Some((kind, 1))
}

fn word(bytes: &[u8]) -> Kind {
    match bytes {
        b"and" => Kind::WordAnd,
        b"bool" => Kind::WordBool,
        b"bot" => Kind::WordBot,
        b"else" => Kind::WordElse,
        b"false" => Kind::WordFalse,
        b"format" => Kind::WordFormat,
        b"fun" => Kind::WordFun,
        b"if" => Kind::WordIf,
        b"import" => Kind::WordImport,
        b"in" => Kind::WordIn,
        b"int" => Kind::WordInt,
        b"let" => Kind::WordLet,
        b"rec" => Kind::WordRec,
        b"then" => Kind::WordThen,
        b"top" => Kind::WordTop,
        b"true" => Kind::WordTrue,
        b"type" => Kind::WordType,
        b"val" => Kind::WordVal,
        _ => Kind::Name,
    }
}

/// A text of about a mebibyte, of whole pieces.
fn text(name: &str) -> Vec<u8> {
    let mut text = String::new();
    let mut number = 0u64;
    while text.len() < SIZE {
        number += 1;
        match name {
            "module" => text.push_str(&format!(
                "let rec f{number} = fun x -> fun y -> if x < {number} then {{first = x, rest = f{} (y + 1)}} else f0 x.rest\n",
                number / 2
            )),
            "names" => text.push_str(&format!("abc_{number} trueish formatted_{number} zZ9 ")),
            "symbols" => text.push_str("(==)->{=}:,.+-*<|&=="),
            _ => text.push_str(&format!("# remark {number} of a long line that says nothing at all, == 1\nlet x = {number}\n")),
        }
    }
    text.into_bytes()
}

fn sum(found: &[Token]) -> u64 {
    found.iter().fold(0, |sum, token| {
        sum.wrapping_mul(31).wrapping_add((token.start + token.end) as u64 + token.kind as u64)
    })
}

fn main() {
    let words = arguments();
    let folder = Path::new(&words[1]);
    if words[0] == "write" {
        for name in TEXTS {
            fs::write(folder.join(name), text(name)).unwrap();
        }
        return;
    }
    let rounds: usize = words[2].parse().unwrap();
    for name in TEXTS {
        let text = fs::read(folder.join(name)).unwrap();
        let mut least = u128::MAX;
        let mut line = String::new();
        for _ in 0..rounds {
            let begin = Instant::now();
            let found = tokens(&text);
            least = least.min(begin.elapsed().as_micros());
            line = match found {
                Ok(found) => format!("{} tokens, sum {}", found.len(), sum(&found)),
                Err(Fault::BadByte(at)) => format!("a bad byte at {at}"),
                Err(Fault::BigNumber(at)) => format!("a number that is too large at {at}"),
            };
        }
        println!("{name}: {} bytes, {line}, {least} us", text.len());
    }
}
