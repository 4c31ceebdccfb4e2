//! A desk with empty tables, for the tests.
#![allow(dead_code)]

use reference::{batch, collect, enter, list, show};
use reference::{BatchAnswer, EnterAnswer, ListAnswer, Record};

#[derive(Clone, PartialEq, Eq, Debug)]
pub struct Desk {
    pub names: Vec<u8>,
    pub values: Vec<u8>,
    pub store: Vec<u8>,
    pub line: Vec<u8>,
    /// Whether wrong lines are kept.
    pub keep: bool,
    pub record: Record,
}

impl Desk {
    /// A desk with the desk program's rooms.
    pub fn new() -> Desk {
        Desk::with_rooms(2048, 2048, 32768)
    }

    /// A desk with these rooms.
    pub fn with_rooms(names: usize, values: usize, store: usize) -> Desk {
        Desk {
            names: vec![0; names],
            values: vec![0; values],
            store: vec![0; store],
            line: vec![0; 255],
            keep: false,
            record: Record::default(),
        }
    }

    /// This desk with wrong lines kept.
    pub fn keeping(self) -> Desk {
        Desk { keep: true, ..self }
    }

    pub fn enter(&mut self, text: &[u8]) -> EnterAnswer {
        enter(
            text,
            &mut self.names,
            &mut self.values,
            &mut self.store,
            &mut self.line,
            self.keep,
            &mut self.record,
        )
    }

    pub fn batch(&mut self, text: &[u8]) -> BatchAnswer {
        batch(
            text,
            &mut self.names,
            &mut self.values,
            &mut self.store,
            self.keep,
            &mut self.record,
        )
    }

    /// Takes unused names back; the refusal's number, 0 if it is not refused.
    pub fn collect(&mut self) -> usize {
        collect(
            &mut self.names,
            &mut self.values,
            &mut self.store,
            &mut self.record,
        )
    }

    /// Lists a line; the refusal's number if it is refused.
    pub fn list(&self, line: usize) -> Result<String, usize> {
        let mut out = vec![0; 65536];
        let answer = list(
            line,
            &self.names,
            &self.values,
            &self.store,
            &self.record,
            &mut out,
        );
        text_of(answer, &out)
    }

    /// Lists the line buffer; the refusal's number if it is refused.
    pub fn show(&self) -> Result<String, usize> {
        let mut out = vec![0; 65536];
        let answer = show(
            &self.line,
            &self.names,
            self.record.name_bytes,
            self.record.name_count,
            &self.values,
            &mut out,
        );
        text_of(answer, &out)
    }

    /// The line at the start of the line buffer, in hex.
    pub fn line_hex(&self) -> String {
        hex(&self.line[..self.line[2] as usize])
    }

    /// The used bytes of the store, in hex.
    pub fn hex(&self) -> String {
        hex(&self.store[..self.record.used])
    }

    /// The record's count of lines and greatest number.
    pub fn pair(&self) -> (usize, usize) {
        (self.record.lines, self.record.greatest)
    }

    /// The used bytes of the name table, in hex.
    pub fn names_hex(&self) -> String {
        hex(&self.names[..self.record.name_bytes])
    }
}

/// The text that a listing wrote, a character for each byte, or its refusal.
fn text_of(answer: ListAnswer, out: &[u8]) -> Result<String, usize> {
    if answer.number != 0 {
        assert_eq!(answer.written, 0);
        return Err(answer.number);
    }
    Ok(out[..answer.written]
        .iter()
        .copied()
        .map(char::from)
        .collect())
}

/// How many lines begin in the used bytes of a store, and the greatest of their numbers, 0 if there are none.
pub fn pair(store: &[u8], used: usize) -> (usize, usize) {
    let mut rest = &store[..used.min(store.len())];
    let (mut lines, mut greatest) = (0, 0);
    while rest.len() > 2 {
        lines += 1;
        greatest = greatest.max(rest[0] as usize + 256 * rest[1] as usize);
        rest = rest.get((rest[2] as usize).max(3)..).unwrap_or(&[]);
    }
    (lines, greatest)
}

pub fn hex(bytes: &[u8]) -> String {
    let pairs: Vec<String> = bytes.iter().map(|byte| format!("{byte:02X}")).collect();
    pairs.join(" ")
}

/// Over empty tables, a text gives this line.
#[track_caller]
pub fn gives(text: &str, line: &str) {
    let mut desk = Desk::new();
    let answer = desk.enter(text.as_bytes());
    assert_eq!(
        (answer.number, answer.place, answer.end),
        (0, 0, 0),
        "{text}"
    );
    assert_eq!(desk.hex(), line, "{text}");
    assert_eq!(answer.used, desk.record.used);
    assert_eq!(answer.added, desk.record.name_count);
    assert_eq!(desk.pair(), pair(&desk.store, desk.record.used), "{text}");
    assert!(desk.line.iter().all(|byte| *byte == 0), "{text}");
}

/// Over empty tables, a text lists so.
#[track_caller]
pub fn lists(text: &str, listing: &str) {
    let mut desk = Desk::new();
    assert_eq!(desk.enter(text.as_bytes()).number, 0, "{text}");
    let number = desk.store[0] as usize + 256 * desk.store[1] as usize;
    assert_eq!(desk.list(number), Ok(listing.to_string()), "{text}");
}

/// Over empty tables, a text is refused so, and nothing changes.
#[track_caller]
pub fn refuses(text: &[u8], number: usize, place: usize) {
    let mut desk = Desk::new();
    let answer = desk.enter(text);
    let shown = String::from_utf8_lossy(text);
    assert_eq!((answer.number, answer.place), (number, place), "{shown}");
    assert_eq!((answer.added, answer.used), (0, 0), "{shown}");
    assert_eq!(desk.record, Record::default(), "{shown}");
    assert!(desk.store.iter().all(|byte| *byte == 0), "{shown}");
    assert!(desk.line.iter().all(|byte| *byte == 0), "{shown}");
}
