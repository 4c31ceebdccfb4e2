//! The name table, the value table and the store.

use core::ops::Range;

use crate::words::{is_reserved, statement_token};

/// The most names a table holds.
pub const MOST_NAMES: usize = 256;
/// The first number whose variable is two bytes in a line: this mark, and the number less this.
pub const FIRST_LONG: usize = 128;
pub const LONG_MARK: u8 = 0x00;
/// The greatest line number.
pub const GREATEST_LINE: usize = 32767;
/// The number of a line that was entered without one.
pub const DIRECT_LINE: usize = 32768;
/// The most bytes a store holds, whatever is lent.
pub const MOST_STORE: usize = 65535;
/// Bytes of a value entry.
pub const VALUE_SIZE: usize = 8;
/// The shortest line: head, offset, statement token, end.
pub const SHORTEST_LINE: usize = 6;

/// What a variable holds.
#[derive(Clone, Copy, PartialEq, Eq, Debug)]
pub enum Variable {
    Number,
    Array,
    String,
}

impl Variable {
    /// The type byte of a value entry.
    pub fn type_byte(self) -> u8 {
        match self {
            Variable::Number => 0x00,
            Variable::Array => 0x40,
            Variable::String => 0x80,
        }
    }
}

/// Where the names of a sound table start.
pub struct Starts {
    places: [usize; MOST_NAMES + 1],
    count: usize,
}

impl Starts {
    /// Tests a name table and notes where each name starts. None: it is unsound.
    #[inline(always)]
    pub fn new(lent: &[u8], name_bytes: usize, name_count: usize) -> Option<Starts> {
        if name_count > MOST_NAMES {
            return None;
        }
        let bytes = lent.get(..name_bytes)?;
        let mut starts = Starts {
            places: [0; MOST_NAMES + 1],
            count: 0,
        };
        let mut start = 0;
        for _ in 0..name_count {
            let length = 1 + bytes[start..].iter().position(|byte| *byte >= 0x80)?;
            let name = &bytes[start..start + length];
            if !is_name(name) || starts.holds(bytes, name) {
                return None;
            }
            start += length;
            starts.add(length);
        }
        (start == bytes.len()).then_some(starts)
    }

    /// Where the bytes of a name stand.
    pub fn name(&self, number: usize) -> Range<usize> {
        self.places[number]..self.places[number + 1]
    }

    /// Notes that a name of this length stands behind the others.
    pub fn add(&mut self, length: usize) {
        self.places[self.count + 1] = self.places[self.count] + length;
        self.count += 1;
    }

    /// Says whether a name, as it is stored, stands in the table. Most names differ in their last byte already.
    fn holds(&self, bytes: &[u8], name: &[u8]) -> bool {
        let last = name[name.len() - 1];
        let places = &self.places[..=self.count];
        places.windows(2).any(|place| {
            let (start, end) = (place[0], place[1]);
            bytes[end - 1] == last && bytes[start..end] == *name
        })
    }

    /// The names, over the bytes of their table.
    pub fn over<'a>(&'a self, bytes: &'a [u8]) -> Names<'a> {
        Names {
            bytes,
            starts: &self.places,
            count: self.count,
        }
    }
}

/// The names of a sound table.
pub struct Names<'a> {
    bytes: &'a [u8],
    starts: &'a [usize; MOST_NAMES + 1],
    count: usize,
}

impl<'a> Names<'a> {
    /// How many names there are.
    pub fn count(&self) -> usize {
        self.count
    }

    /// The bytes of a name, the last with its top bit set.
    pub fn stored(&self, number: usize) -> &'a [u8] {
        &self.bytes[self.starts[number]..self.starts[number + 1]]
    }

    /// What the variable of this number holds; None if there is none.
    pub fn variable(&self, number: usize) -> Option<Variable> {
        if number >= self.count {
            return None;
        }
        Some(match self.bytes[self.starts[number + 1] - 1] & 0x7F {
            b'$' => Variable::String,
            b'(' => Variable::Array,
            _ => Variable::Number,
        })
    }

    /// Finds a name given as plain text, with its `$` or `(`.
    pub fn find(&self, name: &[u8]) -> Option<usize> {
        let mut places = self.starts[..=self.count].windows(2);
        places.position(|place| same_name(&self.bytes[place[0]..place[1]], name))
    }

    /// Says whether a name, less its `(`, is spelled like a statement word.
    pub fn is_statement_word(&self, number: usize) -> bool {
        word_of(self.stored(number), |word| statement_token(word).is_some())
    }
}

/// Says whether a stored name and a plain one are the same.
fn same_name(stored: &[u8], plain: &[u8]) -> bool {
    let last = plain.len() - 1;
    stored.len() == plain.len()
        && stored[last] == plain[last] | 0x80
        && stored[..last] == plain[..last]
}

/// Says whether stored bytes, of which only the last has its top bit set, are a lawful name.
fn is_name(stored: &[u8]) -> bool {
    let end = stored.len() - 1;
    let last = stored[end] & 0x7F;
    let mark = end > 0 && (last == b'$' || last == b'(');
    let body = if mark { end } else { end + 1 };
    let first_holds = (stored[0] & 0x7F).is_ascii_uppercase();
    let rest_holds = stored[..body].iter().all(|byte| {
        let plain = byte & 0x7F;
        plain.is_ascii_uppercase() || plain.is_ascii_digit()
    });
    first_holds && rest_holds && !word_of(stored, is_reserved)
}

/// Asks `test` about a stored name, less its `(`, as a plain word. No fixed word has over 8 letters.
fn word_of(stored: &[u8], test: impl Fn(&[u8]) -> bool) -> bool {
    let end = stored.len() - 1;
    let last = stored[end] & 0x7F;
    if last == b'(' {
        return test(&stored[..end]);
    }
    let mut word = [0; 8];
    if stored.len() > word.len() {
        return false;
    }
    word[..end].copy_from_slice(&stored[..end]);
    word[end] = last;
    test(&word[..stored.len()])
}

/// Says whether there is a value entry's room for each name.
pub fn values_sound(values: &[u8], name_count: usize) -> bool {
    name_count <= values.len() / VALUE_SIZE
}

/// The room that a lent store has.
pub fn store_room(store: &[u8]) -> usize {
    store.len().min(MOST_STORE)
}

/// The number of the line that starts at `at`.
pub fn line_number(store: &[u8], at: usize) -> usize {
    store[at] as usize + 256 * store[at + 1] as usize
}

/// The length of the line that starts at `at`.
pub fn line_length(store: &[u8], at: usize) -> usize {
    store[at + 2] as usize
}

/// The lines of a sound store.
pub fn stored_lines(store: &[u8], used: usize) -> impl Iterator<Item = &[u8]> {
    let mut rest = &store[..used];
    core::iter::from_fn(move || {
        let length = *rest.get(2)? as usize;
        let (line, behind) = rest.split_at(length);
        rest = behind;
        Some(line)
    })
}

/// What a walk of a sound store finds.
#[derive(Clone, Copy, PartialEq, Eq)]
pub struct Walk {
    /// How many lines there are.
    pub lines: usize,
    /// The greatest number of a line, 0 if there is none.
    pub greatest: usize,
}

/// Walks the store: lines end to end, numbers rising, the last ending at the used count. None: it is
/// unsound.
pub fn walk_store(store: &[u8], used: usize) -> Option<Walk> {
    if used > store_room(store) {
        return None;
    }
    let mut found = Walk {
        lines: 0,
        greatest: 0,
    };
    let mut at = 0;
    while at < used {
        if used - at < SHORTEST_LINE {
            return None;
        }
        let number = line_number(store, at);
        let length = line_length(store, at);
        if found.lines > 0 && number <= found.greatest || number > GREATEST_LINE {
            return None;
        }
        if length < SHORTEST_LINE || length > used - at {
            return None;
        }
        found.lines += 1;
        found.greatest = number;
        at += length;
    }
    Some(found)
}

/// Where a line stands in a sound store, or where it would be put.
pub struct Place {
    /// The start of the first line whose number is not below the one asked for.
    pub at: usize,
    /// The length of the line with just this number, 0 if there is none.
    pub length: usize,
    /// The number of the line before, 0 if there is none.
    pub before: usize,
}

/// Finds the place of a line in a sound store, from the start of a line on whose predecessor, if there is
/// one, has the number `before`, which is below the one asked for.
#[inline(always)]
pub fn find_line(store: &[u8], used: usize, number: usize, from: usize, before: usize) -> Place {
    let mut at = from;
    let mut before = before;
    while at < used && line_number(store, at) < number {
        before = line_number(store, at);
        at += line_length(store, at);
    }
    let there = at < used && line_number(store, at) == number;
    let length = if there { line_length(store, at) } else { 0 };
    Place { at, length, before }
}
