//! Document 01 in plain Rust, with the requests of document 02 that have landed: the entry of a
//! numbered text line into a store of token lines, of many at once, or of one without a number into a
//! line buffer, the listing of a line, the examination of a program, saved program files and what
//! their bytes are, and unused names taken back. Written from the documents alone, to be compared with the
//! proved library. No heap, no unsafe code.

#![cfg_attr(not(test), no_std)]
#![forbid(unsafe_code)]

mod collect;
mod constants;
mod errors;
mod files;
mod items;
mod listing;
mod pieces;
mod program;
mod tables;
mod translate;
mod weigh;
mod words;

pub use collect::collect;
pub use files::{load, save, SaveAnswer};
use listing::{listable, spell_line, well_formed, Count, Write};
use program::Program;
use tables::{find_line, line_length, line_number, stored_lines, values_sound, walk_store};
use tables::{Names, Starts, Walk, DIRECT_LINE, SHORTEST_LINE};
pub use weigh::{weigh, Weight, LONGEST_FILE, NO_FILE};
use words::TEXT_END;

/// The counts that go with the three buffers. All are 0 for an empty program.
#[derive(Clone, Copy, PartialEq, Eq, Debug, Default)]
pub struct Record {
    /// Bytes of name table in use.
    pub name_bytes: usize,
    /// How many names the table has.
    pub name_count: usize,
    /// Bytes of store in use.
    pub used: usize,
    /// How many lines the store has.
    pub lines: usize,
    /// The greatest number of a line, 0 if there is none.
    pub greatest: usize,
}

/// What an entry answers.
#[derive(Clone, Copy, PartialEq, Eq, Debug)]
pub struct EnterAnswer {
    pub number: usize,
    pub place: usize,
    pub end: usize,
    pub added: usize,
    pub used: usize,
}

/// What the entry of many lines answers.
#[derive(Clone, Copy, PartialEq, Eq, Debug, Default)]
pub struct BatchAnswer {
    /// How many lines were taken.
    pub taken: usize,
    /// How many were refused.
    pub refused: usize,
    /// The first refusal: its number, its place in its own line and that place's end, and the line, counted
    /// from 1. All are 0 if there is none.
    pub number: usize,
    pub place: usize,
    pub end: usize,
    pub line: usize,
}

/// What a listing answers.
#[derive(Clone, Copy, PartialEq, Eq, Debug)]
pub struct ListAnswer {
    pub number: usize,
    pub written: usize,
}

/// What examining a program answers.
#[derive(Clone, Copy, PartialEq, Eq, Debug)]
pub enum Verdict {
    Yes,
    UnsoundNames,
    UnsoundValues,
    UnsoundStore,
    /// The number of the first bad line.
    BadLine(usize),
}

impl Verdict {
    /// The answer as two numbers: which it is, and the number of the bad line, 0 where there is none.
    pub fn numbers(self) -> (usize, usize) {
        match self {
            Verdict::Yes => (0, 0),
            Verdict::UnsoundNames => (1, 0),
            Verdict::UnsoundValues => (2, 0),
            Verdict::UnsoundStore => (3, 0),
            Verdict::BadLine(number) => (4, number),
        }
    }
}

/// Enters a text: inserts, replaces or deletes a line, or puts a text without a number into the line
/// buffer. The record is updated if it is accepted. With `keep` a numbered line that is refused with 4 is
/// stored as an error line, if it can be; the answer is still 4, or 8 where it does not fit.
pub fn enter(
    text: &[u8],
    names: &mut [u8],
    values: &mut [u8],
    store: &mut [u8],
    line: &mut [u8],
    keep: bool,
    record: &mut Record,
) -> EnterAnswer {
    let result = match sound_tables(names, values, store, record) {
        Some(starts) => {
            Program::new(names, values, store, keep, record, starts).enter(text, Some(line))
        }
        None => Err((1, 0, 0)),
    };
    let (number, place, end) = result.err().unwrap_or((0, 0, 0));
    EnterAnswer {
        number,
        place,
        end,
        added: result.unwrap_or(0),
        used: record.used,
    }
}

/// Enters a text of many lines, each ended by 9B, the last perhaps by the text's end: as if each were
/// entered by itself, in this order and with this switch, but that one without a number is refused with 3.
pub fn batch(
    text: &[u8],
    names: &mut [u8],
    values: &mut [u8],
    store: &mut [u8],
    keep: bool,
    record: &mut Record,
) -> BatchAnswer {
    let mut answer = BatchAnswer::default();
    let mut program = sound_tables(names, values, store, record)
        .map(|starts| Program::new(names, values, store, keep, record, starts));
    let lines = text.split_inclusive(|byte| *byte == TEXT_END);
    for line in lines.map(|line| line.strip_suffix(&[TEXT_END]).unwrap_or(line)) {
        let result = match &mut program {
            Some(program) => program.enter(line, None),
            None => Err((1, 0, 0)),
        };
        match result {
            Ok(_) => answer.taken += 1,
            Err((number, place, end)) => {
                answer.refused += 1;
                if answer.refused == 1 {
                    (answer.number, answer.place, answer.end) = (number, place, end);
                    answer.line = answer.taken + 1;
                }
            }
        }
    }
    answer
}

/// Lists the line with this number into `out`.
pub fn list(
    number: usize,
    names: &[u8],
    values: &[u8],
    store: &[u8],
    record: &Record,
    out: &mut [u8],
) -> ListAnswer {
    listed(list_or_refuse(number, names, values, store, record, out))
}

/// Lists the line at the start of a line buffer into `out`: one that was entered without a number.
pub fn show(
    line: &[u8],
    names: &[u8],
    name_bytes: usize,
    name_count: usize,
    values: &[u8],
    out: &mut [u8],
) -> ListAnswer {
    listed(match sound_names(names, name_bytes, name_count, values) {
        Some(starts) => show_or_refuse(line, &starts.over(names), out),
        None => Err(1),
    })
}

/// Examines a program: names, values and store, in this order, and then each line. Of a record only the
/// counts of name bytes, names and bytes used are lent.
pub fn examine(
    names: &[u8],
    name_bytes: usize,
    name_count: usize,
    values: &[u8],
    store: &[u8],
    used: usize,
) -> Verdict {
    let Some(starts) = Starts::new(names, name_bytes, name_count) else {
        return Verdict::UnsoundNames;
    };
    if !values_sound(values, name_count) {
        return Verdict::UnsoundValues;
    }
    if walk_store(store, used).is_none() {
        return Verdict::UnsoundStore;
    }
    let table = starts.over(names);
    match stored_lines(store, used).find(|line| !well_formed(line, &table)) {
        Some(line) => Verdict::BadLine(line_number(line, 0)),
        None => Verdict::Yes,
    }
}

/// The answer of a listing that wrote so many bytes, or was refused.
fn listed(result: Result<usize, usize>) -> ListAnswer {
    match result {
        Ok(written) => ListAnswer { number: 0, written },
        Err(number) => ListAnswer { number, written: 0 },
    }
}

/// Lists a line; gives the count of bytes written, or the refusal.
fn list_or_refuse(
    number: usize,
    names: &[u8],
    values: &[u8],
    store: &[u8],
    record: &Record,
    out: &mut [u8],
) -> Result<usize, usize> {
    let starts = sound_tables(names, values, store, record).ok_or(1_usize)?;
    let place = find_line(store, record.used, number, 0, 0);
    if place.length == 0 {
        return Err(9);
    }
    let line = &store[place.at..place.at + place.length];
    list_line(line, &starts.over(names), out)
}

/// Lists the line at the start of a line buffer; gives the count of bytes written, or refusal 10 or 11.
/// Bytes past that line are not looked at.
fn show_or_refuse(buffer: &[u8], table: &Names, out: &mut [u8]) -> Result<usize, usize> {
    if buffer.len() < SHORTEST_LINE || line_number(buffer, 0) != DIRECT_LINE {
        return Err(10);
    }
    let line = buffer.get(..line_length(buffer, 0)).ok_or(10_usize)?;
    list_line(line, table, out)
}

/// Lists a line; gives the count of bytes written, or refusal 10 or 11.
fn list_line(line: &[u8], table: &Names, out: &mut [u8]) -> Result<usize, usize> {
    if !listable(line, table) {
        return Err(10);
    }
    let mut count = Count(0);
    spell_line(line, table, &mut count);
    if count.0 > out.len() {
        return Err(11);
    }
    let mut write = Write { out, written: 0 };
    spell_line(line, table, &mut write);
    Ok(write.written)
}

/// Tests tables, store and record; gives where the names start if all are sound and the record agrees.
#[inline(always)]
fn sound_tables(names: &[u8], values: &[u8], store: &[u8], record: &Record) -> Option<Starts> {
    let starts = sound_names(names, record.name_bytes, record.name_count, values)?;
    let kept = Walk {
        lines: record.lines,
        greatest: record.greatest,
    };
    (walk_store(store, record.used)? == kept).then_some(starts)
}

/// Tests the name table and the room for values; gives where the names start if both are sound.
#[inline(always)]
fn sound_names(
    names: &[u8],
    name_bytes: usize,
    name_count: usize,
    values: &[u8],
) -> Option<Starts> {
    let starts = Starts::new(names, name_bytes, name_count)?;
    values_sound(values, name_count).then_some(starts)
}
