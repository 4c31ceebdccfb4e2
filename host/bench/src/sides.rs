//! The two implementations behind one shape.

use reference::Record;

/// An implementation that can be timed.
pub trait Side {
    /// Enters a text with a number and gives the answer's number; a wrong line is kept or not.
    fn enter(
        text: &[u8],
        names: &mut [u8],
        values: &mut [u8],
        store: &mut [u8],
        keep: bool,
        record: &mut Record,
    ) -> usize;

    /// Enters a text of many lines and gives how many were refused.
    fn batch(
        text: &[u8],
        names: &mut [u8],
        values: &mut [u8],
        store: &mut [u8],
        record: &mut Record,
    ) -> usize;

    /// Examines a program and gives the answer's first number.
    fn examine(names: &[u8], values: &[u8], store: &[u8], record: &Record) -> usize;

    /// Takes unused names back and gives the answer's number.
    fn collect(names: &mut [u8], values: &mut [u8], store: &mut [u8], record: &mut Record)
        -> usize;

    /// Lists a line and gives the answer's number and the bytes written.
    fn list(
        line: usize,
        names: &[u8],
        values: &[u8],
        store: &[u8],
        record: &Record,
        out: &mut [u8],
    ) -> (usize, usize);
}

/// The independent implementation.
pub struct Reference;

impl Side for Reference {
    #[inline(never)]
    fn enter(
        text: &[u8],
        names: &mut [u8],
        values: &mut [u8],
        store: &mut [u8],
        keep: bool,
        record: &mut Record,
    ) -> usize {
        reference::enter(text, names, values, store, &mut [], keep, record).number
    }

    #[inline(never)]
    fn batch(
        text: &[u8],
        names: &mut [u8],
        values: &mut [u8],
        store: &mut [u8],
        record: &mut Record,
    ) -> usize {
        reference::batch(text, names, values, store, false, record).refused
    }

    #[inline(never)]
    fn examine(names: &[u8], values: &[u8], store: &[u8], record: &Record) -> usize {
        let (bytes, count) = (record.name_bytes, record.name_count);
        reference::examine(names, bytes, count, values, store, record.used)
            .numbers()
            .0
    }

    #[inline(never)]
    fn collect(
        names: &mut [u8],
        values: &mut [u8],
        store: &mut [u8],
        record: &mut Record,
    ) -> usize {
        reference::collect(names, values, store, record)
    }

    #[inline(never)]
    fn list(
        line: usize,
        names: &[u8],
        values: &[u8],
        store: &[u8],
        record: &Record,
        out: &mut [u8],
    ) -> (usize, usize) {
        let answer = reference::list(line, names, values, store, record, out);
        (answer.number, answer.written)
    }
}

/// The proved library.
#[cfg(feature = "library")]
pub struct Library;

#[cfg(feature = "library")]
impl Side for Library {
    #[inline(never)]
    fn enter(
        text: &[u8],
        names: &mut [u8],
        values: &mut [u8],
        store: &mut [u8],
        keep: bool,
        record: &mut Record,
    ) -> usize {
        let mut lent = lend(record);
        let answer = virgontey::enter(text, names, values, store, &mut [], keep, &mut lent);
        *record = given_back(&lent);
        answer.number
    }

    #[inline(never)]
    fn batch(
        text: &[u8],
        names: &mut [u8],
        values: &mut [u8],
        store: &mut [u8],
        record: &mut Record,
    ) -> usize {
        let mut lent = lend(record);
        let answer = virgontey::batch(text, names, values, store, false, &mut lent);
        *record = given_back(&lent);
        answer.refused
    }

    #[inline(never)]
    fn examine(names: &[u8], values: &[u8], store: &[u8], record: &Record) -> usize {
        let (bytes, count) = (record.name_bytes, record.name_count);
        match virgontey::examine(names, bytes, count, values, store, record.used) {
            virgontey::Verdict::Yes => 0,
            _ => 1,
        }
    }

    #[inline(never)]
    fn collect(
        names: &mut [u8],
        values: &mut [u8],
        store: &mut [u8],
        record: &mut Record,
    ) -> usize {
        let mut lent = lend(record);
        let number = virgontey::collect(names, values, store, &mut lent);
        *record = given_back(&lent);
        number
    }

    #[inline(never)]
    fn list(
        line: usize,
        names: &[u8],
        values: &[u8],
        store: &[u8],
        record: &Record,
        out: &mut [u8],
    ) -> (usize, usize) {
        let answer = virgontey::list(line, names, values, store, &lend(record), out);
        (answer.number, answer.written)
    }
}

/// The record as the library's wrapper takes it.
#[cfg(feature = "library")]
fn lend(record: &Record) -> virgontey::Record {
    virgontey::Record {
        name_bytes: record.name_bytes,
        name_count: record.name_count,
        used: record.used,
        lines: record.lines,
        greatest: record.greatest,
    }
}

/// The record as the wrapper gives it back.
#[cfg(feature = "library")]
fn given_back(record: &virgontey::Record) -> Record {
    Record {
        name_bytes: record.name_bytes,
        name_count: record.name_count,
        used: record.used,
        lines: record.lines,
        greatest: record.greatest,
    }
}
