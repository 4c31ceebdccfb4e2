//! Saved program files (document 02, §7): seven words of two bytes, low byte first, and then the
//! names, a zero byte, the values, the stored lines and the current line.

use crate::sound_tables;
use crate::tables::{line_length, line_number, store_room, walk_store};
use crate::tables::{Starts, Walk, DIRECT_LINE, SHORTEST_LINE, VALUE_SIZE};
use crate::Record;

/// Bytes of the words.
const HEAD: usize = 14;
/// What the writer's second word says.
const FIRST_PLACE: usize = 256;
/// The writer's current line: number 32768, END alone.
const END_LINE: [u8; 6] = [0x00, 0x80, 0x06, 0x06, 0x15, 0x16];

/// What writing a file answers.
#[derive(Clone, Copy, PartialEq, Eq, Debug)]
pub struct SaveAnswer {
    pub number: usize,
    pub written: usize,
}

/// Writes the file of a program to the front of `out`.
pub fn save(
    names: &[u8],
    values: &[u8],
    store: &[u8],
    record: &Record,
    out: &mut [u8],
) -> SaveAnswer {
    let result = save_or_refuse(names, values, store, record, out);
    SaveAnswer {
        number: result.err().unwrap_or(0),
        written: result.unwrap_or(0),
    }
}

fn save_or_refuse(
    names: &[u8],
    values: &[u8],
    store: &[u8],
    record: &Record,
    out: &mut [u8],
) -> Result<usize, usize> {
    sound_tables(names, values, store, record).ok_or(1usize)?;
    let parts: [&[u8]; 5] = [
        &names[..record.name_bytes],
        &[0],
        &values[..record.name_count * VALUE_SIZE],
        &store[..record.used],
        &END_LINE,
    ];
    let mut words = [0, FIRST_PLACE, 0, 0, 0, 0, 0];
    for (at, part) in parts.iter().enumerate() {
        words[at + 2] = words[at + 1] + part.len();
    }
    let block = words[6] - FIRST_PLACE;
    if words[6] > 0xFFFF || out.len() < HEAD + block {
        return Err(8);
    }
    for (at, word) in words.iter().enumerate() {
        out[2 * at] = *word as u8;
        out[2 * at + 1] = (word >> 8) as u8;
    }
    let mut at = HEAD;
    for part in parts {
        out[at..at + part.len()].copy_from_slice(part);
        at += part.len();
    }
    Ok(at)
}

/// Reads a file into the lent buffers, whatever they held; answers the refusal, 0 if there is none.
pub fn load(
    file: &[u8],
    names: &mut [u8],
    values: &mut [u8],
    store: &mut [u8],
    record: &mut Record,
) -> usize {
    let found = match parts(file) {
        Ok(found) => found,
        Err(number) => return number,
    };
    if names.len() < found.names.len()
        || values.len() < found.values.len()
        || store_room(store) < found.lines.len()
    {
        return 8;
    }
    names[..found.names.len()].copy_from_slice(found.names);
    values[..found.values.len()].copy_from_slice(found.values);
    store[..found.lines.len()].copy_from_slice(found.lines);
    *record = Record {
        name_bytes: found.names.len(),
        name_count: found.values.len() / VALUE_SIZE,
        used: found.lines.len(),
        lines: found.walk.lines,
        greatest: found.walk.greatest,
    };
    0
}

/// The parts of a file's block, without the zero byte and a last line 32768.
pub struct Parts<'a> {
    pub names: &'a [u8],
    pub values: &'a [u8],
    pub lines: &'a [u8],
    walk: Walk,
}

/// Finds the parts of a file, or the refusal: 12, 13, 1.
pub fn parts(file: &[u8]) -> Result<Parts<'_>, usize> {
    let head = file.get(..HEAD).ok_or(12usize)?;
    let mut words = [0; 7];
    for (word, pair) in words.iter_mut().zip(head.chunks(2)) {
        *word = pair[0] as usize | (pair[1] as usize) << 8;
    }
    if words[0] != 0 {
        return Err(12);
    }
    let block = &file[HEAD..];
    if words.windows(2).any(|pair| pair[0] > pair[1]) || block.len() != words[6] - words[1] {
        return Err(13);
    }
    let place = |word: usize| words[word] - words[1];
    if words[3] != words[2] + 1 || block[place(2)] != 0 {
        return Err(13);
    }
    let names = &block[..place(2)];
    let values = &block[place(3)..place(4)];
    let lines = without_direct(&block[place(4)..]);
    let count = names.iter().filter(|byte| **byte >= 0x80).count();
    if Starts::new(names, names.len(), count).is_none() || values.len() != count * VALUE_SIZE {
        return Err(1);
    }
    let walk = walk_store(lines, lines.len()).ok_or(1usize)?;
    Ok(Parts {
        names,
        values,
        lines,
        walk,
    })
}

/// The bytes before a last whole line 32768; all of them if there is none. A line that is cut short,
/// or too short to be one, leaves them as they are.
fn without_direct(lines: &[u8]) -> &[u8] {
    let mut at = 0;
    while lines.len() - at >= SHORTEST_LINE {
        let length = line_length(lines, at);
        if length < SHORTEST_LINE || length > lines.len() - at {
            return lines;
        }
        if at + length == lines.len() && line_number(lines, at) == DIRECT_LINE {
            return &lines[..at];
        }
        at += length;
    }
    lines
}
