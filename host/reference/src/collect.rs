//! Names that no line uses, taken back (document 02, §12).

use crate::listing::listable;
use crate::pieces::{pieces, Kind};
use crate::sound_tables;
use crate::tables::{line_length, line_number, stored_lines, Starts, MOST_NAMES, VALUE_SIZE};
use crate::translate::TokenLine;
use crate::Record;

/// Takes the names back that no line of the store uses; answers the refusal, 0 if there is none. The names
/// that stay keep their order, each with its value and in that its new number, and the lines say the new
/// numbers. A line buffer is not lent: a line that stands in one keeps the old ones.
pub fn collect(
    names: &mut [u8],
    values: &mut [u8],
    store: &mut [u8],
    record: &mut Record,
) -> usize {
    let Some(starts) = sound_tables(names, values, store, record) else {
        return 1;
    };
    let table = starts.over(names);
    if stored_lines(store, record.used).any(|line| !listable(line, &table)) {
        return 10;
    }
    let used = used_names(store, record.used);
    let numbers = move_names(names, values, record, &starts, &used);
    renumber_lines(store, record, &numbers);
    0
}

/// Says of each number whether a line uses the name that has it.
fn used_names(store: &[u8], used: usize) -> [bool; MOST_NAMES] {
    let mut found = [false; MOST_NAMES];
    for (kind, _) in stored_lines(store, used).flat_map(pieces) {
        if let Kind::Variable(number) = kind {
            found[number] = true;
        }
    }
    found
}

/// Moves the names that are used, and their values, to the front of their tables; gives the new number of each.
fn move_names(
    names: &mut [u8],
    values: &mut [u8],
    record: &mut Record,
    starts: &Starts,
    used: &[bool; MOST_NAMES],
) -> [u8; MOST_NAMES] {
    let mut numbers = [0; MOST_NAMES];
    let (mut bytes, mut count) = (0, 0);
    for number in (0..record.name_count).filter(|number| used[*number]) {
        let name = starts.name(number);
        let length = name.len();
        names.copy_within(name, bytes);
        let value = number * VALUE_SIZE;
        values.copy_within(value..value + VALUE_SIZE, count * VALUE_SIZE);
        values[count * VALUE_SIZE + 1] = count as u8;
        numbers[number] = count as u8;
        bytes += length;
        count += 1;
    }
    (record.name_bytes, record.name_count) = (bytes, count);
    numbers
}

/// Writes each line again with the new numbers, the lines end to end. None gets longer, so that nothing is
/// written over before it is read.
fn renumber_lines(store: &mut [u8], record: &mut Record, numbers: &[u8; MOST_NAMES]) {
    let (mut from, mut to) = (0, 0);
    while from < record.used {
        let length = line_length(store, from);
        let line = renumbered(&store[from..from + length], numbers);
        store[to..to + line.length()].copy_from_slice(line.bytes());
        from += length;
        to += line.length();
    }
    record.used = to;
}

/// A line with the new numbers, its length and offsets set right.
fn renumbered(line: &[u8], numbers: &[u8; MOST_NAMES]) -> TokenLine {
    let mut new = TokenLine::new(line_number(line, 0));
    // The place to close where the next statement starts, or the line ends: first the length, which is closed
    // again at the end, then the offset of the statement in view.
    let mut open = 2;
    for (kind, bytes) in pieces(line) {
        if kind == Kind::Start {
            new.close(open);
            open = new.length();
        }
        match kind {
            Kind::Variable(number) => new.put_variable(numbers[number] as usize),
            _ => new.put_all(bytes),
        }
    }
    new.close(open);
    new.close(2);
    new
}
