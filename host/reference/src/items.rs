//! Items: the pieces that a text is cut into.

use crate::constants::{constant_length, read_constant, Constant};
use crate::words::{operator, TEXT_END};

/// What an item is.
#[derive(Clone, Copy, PartialEq, Eq, Debug)]
pub enum Kind {
    /// A run of letters and digits, perhaps with `$`; `opened` says that `(` directly follows.
    Name { dollar: bool, opened: bool },
    /// A constant; None if its value is out of range.
    Number(Option<Constant>),
    /// A string of `length` bytes after its quote; a closing quote, if there is one, belongs to the item.
    Quoted { length: usize },
    /// A symbol, with its operator token (`=` and `(` always with 22 and 2B).
    Symbol(u8),
    /// The symbol `?`.
    Question,
    /// The end of the text.
    End,
    /// A byte that starts no item.
    Unknown,
}

/// An item, and where it starts and ends in the text.
#[derive(Clone, Copy, PartialEq, Eq, Debug)]
pub struct Item {
    pub kind: Kind,
    pub start: usize,
    pub end: usize,
}

/// Reads the first item at or after `from`.
pub fn read_item(text: &[u8], from: usize) -> Item {
    let start = skip_blanks(text, from);
    let rest = &text[start..];
    let (kind, length) = match rest.first() {
        None => (Kind::End, 0),
        Some(b'A'..=b'Z') => read_name(rest),
        Some(b'0'..=b'9' | b'.') => read_number(rest),
        Some(b'"') => read_quoted(rest),
        Some(_) => read_symbol(rest),
    };
    Item {
        kind,
        start,
        end: start + length,
    }
}

/// The first place at or after `from` that holds no blank.
pub fn skip_blanks(text: &[u8], from: usize) -> usize {
    let blanks = text[from..].iter().position(|byte| *byte != b' ');
    blanks.map_or(text.len(), |count| from + count)
}

/// Reads a name, whose first letter is known to stand there.
fn read_name(rest: &[u8]) -> (Kind, usize) {
    let in_name = |byte: &u8| byte.is_ascii_uppercase() || byte.is_ascii_digit();
    let run = rest.iter().position(|byte| !in_name(byte));
    let run = run.unwrap_or(rest.len());
    let dollar = rest.get(run) == Some(&b'$');
    let length = run + dollar as usize;
    let opened = rest.get(length) == Some(&b'(');
    (Kind::Name { dollar, opened }, length)
}

/// Reads a number, or a point that starts none.
fn read_number(rest: &[u8]) -> (Kind, usize) {
    match constant_length(rest) {
        0 => (Kind::Unknown, 1),
        length => (Kind::Number(read_constant(&rest[..length])), length),
    }
}

/// Reads a quoted string: up to its closing quote, or to the text's end where none closes it. With a 9B in it, it starts no item and ends there.
fn read_quoted(rest: &[u8]) -> (Kind, usize) {
    let inner = &rest[1..];
    match inner.iter().position(|b| *b == b'"' || *b == TEXT_END) {
        None => (
            Kind::Quoted {
                length: inner.len(),
            },
            rest.len(),
        ),
        Some(length) if inner[length] == b'"' => (Kind::Quoted { length }, length + 2),
        Some(length) => (Kind::Unknown, length + 1),
    }
}

/// Reads the longest symbol.
fn read_symbol(rest: &[u8]) -> (Kind, usize) {
    let next = rest.get(1).copied();
    let (token, length) = match (rest[0], next) {
        (b'<', Some(b'=')) => (operator::LESS_EQUAL, 2),
        (b'<', Some(b'>')) => (operator::NOT_EQUAL, 2),
        (b'>', Some(b'=')) => (operator::GREATER_EQUAL, 2),
        (b'<', _) => (operator::LESS, 1),
        (b'>', _) => (operator::GREATER, 1),
        (b'=', _) => (operator::EQUAL, 1),
        (b',', _) => (operator::COMMA, 1),
        (b':', _) => (operator::COLON, 1),
        (b';', _) => (operator::SEMICOLON, 1),
        (b'#', _) => (operator::HASH, 1),
        (b'^', _) => (operator::POWER, 1),
        (b'*', _) => (operator::TIMES, 1),
        (b'+', _) => (operator::PLUS, 1),
        (b'-', _) => (operator::MINUS, 1),
        (b'/', _) => (operator::DIVIDE, 1),
        (b'(', _) => (operator::OPEN, 1),
        (b')', _) => (operator::CLOSE, 1),
        (b'?', _) => return (Kind::Question, 1),
        _ => return (Kind::Unknown, 1),
    };
    (Kind::Symbol(token), length)
}
