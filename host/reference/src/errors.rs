//! Error lines: wrong lines that stay in the program, so that they can be listed and mended.

use crate::translate::TokenLine;
use crate::words::{statement, TEXT_END};

/// The byte whose top bit, flipped, makes it 9B.
const FLIPS_TO_END: u8 = TEXT_END ^ 0x80;

/// The error line of a text with this number, whose digits end at `from`, that was refused at a place. None:
/// it cannot be kept, since 9B would stand inside.
pub fn error_line(text: &[u8], from: usize, number: usize, place: usize) -> Option<TokenLine> {
    let (front, rest) = (&text[from..place], &text[place..]);
    // A place at the text's end stands for a blank there.
    let (wrong, behind) = rest.split_first().unwrap_or((&b' ', &[]));
    if text.contains(&TEXT_END) || *wrong == FLIPS_TO_END {
        return None;
    }
    let mut line = TokenLine::new(number);
    let offset_place = line.length();
    line.put(0);
    line.put(statement::ERROR);
    line.put_all(front);
    line.put(wrong ^ 0x80);
    line.put_all(behind);
    line.put(TEXT_END);
    line.close(offset_place);
    line.close(2);
    Some(line)
}

/// The text of an error line whose length is right. None: the line is none.
pub fn error_text(line: &[u8]) -> Option<&[u8]> {
    match line {
        [_, _, _, offset, statement::ERROR, text @ .., TEXT_END] => {
            let lawful = *offset as usize == line.len() && !text.contains(&TEXT_END);
            lawful.then_some(text)
        }
        _ => None,
    }
}
