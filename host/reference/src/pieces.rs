//! The pieces that a line which can be listed is made of, behind its head of three bytes.

use crate::listing::variable_at;
use crate::words::{operator, statement};

/// What a piece is.
#[derive(Clone, Copy, PartialEq, Eq, Debug)]
pub enum Kind {
    /// A statement's offset and its token.
    Start,
    /// A variable's token, with its number.
    Variable(usize),
    /// A constant with its mark.
    Number,
    /// A string with its mark and its length.
    String,
    /// The text of REM, of DATA or of an error line, without its end.
    Raw,
    /// A token of one byte: a function, an operator, an end.
    Token,
}

/// The pieces of a line, each with its bytes.
pub struct Pieces<'a> {
    line: &'a [u8],
    at: usize,
    /// Where the statement in view ends and the next one starts.
    end: usize,
    /// Whether its text is raw.
    raw: bool,
}

/// The pieces of a line that can be listed.
pub fn pieces(line: &[u8]) -> Pieces<'_> {
    Pieces {
        line,
        at: 3,
        end: 3,
        raw: false,
    }
}

impl<'a> Iterator for Pieces<'a> {
    type Item = (Kind, &'a [u8]);

    fn next(&mut self) -> Option<(Kind, &'a [u8])> {
        let rest = &self.line[self.at..];
        let first = *rest.first()?;
        let (kind, size) = if self.at == self.end {
            self.end = first as usize;
            self.raw = matches!(rest[1], statement::REM | statement::DATA | statement::ERROR);
            (Kind::Start, 2)
        } else if self.raw && rest.len() > 1 {
            (Kind::Raw, rest.len() - 1)
        } else if self.raw {
            (Kind::Token, 1)
        } else if let Some((number, size)) = variable_at(self.line, self.at) {
            (Kind::Variable(number), size)
        } else {
            match first {
                operator::NUMBER => (Kind::Number, 7),
                operator::STRING => (Kind::String, 2 + rest[1] as usize),
                _ => (Kind::Token, 1),
            }
        };
        self.at += size;
        Some((kind, &rest[..size]))
    }
}
