//! What the bytes of a saved program are (document 02, §13).

use crate::files::parts;
use crate::listing::{listable, spell_line, Count};
use crate::pieces::{pieces, Kind};
use crate::tables::{stored_lines, Starts, VALUE_SIZE};

/// The longest file that is taken.
pub const LONGEST_FILE: usize = 65535;
/// The refusal of a longer file, and of one that cannot be opened.
pub const NO_FILE: usize = 14;
/// Bytes of a line's number and length.
const HEAD: usize = 3;

/// What a report says of a program, or of all together.
#[derive(Clone, Copy, PartialEq, Eq, Debug, Default)]
pub struct Weight {
    /// Lines, without a last line 32768.
    pub lines: usize,
    /// Names, used or not.
    pub names: usize,
    /// Bytes of store in use, which the last five add up to.
    pub used: usize,
    /// Bytes of all listings, with one end byte a line.
    pub listing: usize,
    /// Bytes in variable tokens, both of a long one.
    pub variables: usize,
    /// In constants, with their marks.
    pub numbers: usize,
    /// In strings, with their marks and lengths.
    pub strings: usize,
    /// In the texts of REM, DATA and error lines, without their ends.
    pub raw: usize,
    /// In line heads, offsets, statement words, functions, operators and ends.
    pub others: usize,
}

impl Weight {
    /// The columns of the report, in their order.
    pub fn columns(&self) -> [usize; 9] {
        [
            self.lines,
            self.names,
            self.used,
            self.listing,
            self.variables,
            self.numbers,
            self.strings,
            self.raw,
            self.others,
        ]
    }

    /// Adds each column of another.
    pub fn add(&mut self, other: &Weight) {
        self.lines += other.lines;
        self.names += other.names;
        self.used += other.used;
        self.listing += other.listing;
        self.variables += other.variables;
        self.numbers += other.numbers;
        self.strings += other.strings;
        self.raw += other.raw;
        self.others += other.others;
    }

    /// Adds the bytes of a line that can be listed, each to its column.
    fn add_bytes(&mut self, line: &[u8]) {
        self.others += HEAD;
        for (kind, bytes) in pieces(line) {
            *match kind {
                Kind::Variable(_) => &mut self.variables,
                Kind::Number => &mut self.numbers,
                Kind::String => &mut self.strings,
                Kind::Raw => &mut self.raw,
                Kind::Start | Kind::Token => &mut self.others,
            } += bytes.len();
        }
    }
}

/// Weighs the program of a file, or gives the refusal: 14 for a file that is too long, those of the reader, 10.
pub fn weigh(file: &[u8]) -> Result<Weight, usize> {
    if file.len() > LONGEST_FILE {
        return Err(NO_FILE);
    }
    let parts = parts(file)?;
    let count = parts.values.len() / VALUE_SIZE;
    let starts = Starts::new(parts.names, parts.names.len(), count).ok_or(1usize)?;
    let names = starts.over(parts.names);
    let mut weight = Weight {
        names: count,
        used: parts.lines.len(),
        ..Weight::default()
    };
    let mut spelled = Count(0);
    for line in stored_lines(parts.lines, parts.lines.len()) {
        if !listable(line, &names) {
            return Err(10);
        }
        spell_line(line, &names, &mut spelled);
        weight.add_bytes(line);
        weight.lines += 1;
    }
    weight.listing = spelled.0 + weight.lines;
    Ok(weight)
}
