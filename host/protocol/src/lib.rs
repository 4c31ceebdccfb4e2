//! Calls and answers as lines of text, as docs/PROTOCOL.md sets them out.

#![forbid(unsafe_code)]

use reference::{BatchAnswer, Record, Weight};

/// The most bytes of each field.
pub const MOST_TEXT: usize = 4096;
pub const MOST_LINES_TEXT: usize = 70_000;
pub const MOST_FILE: usize = 70_000;
pub const MOST_NAMES: usize = 8192;
pub const MOST_VALUES: usize = 4096;
pub const MOST_STORE: usize = 70_000;
pub const MOST_LINE: usize = 4096;
pub const MOST_OUT: usize = 65_536;
/// Numbers are below this.
const NUMBER_BOUND: u64 = 1 << 63;

/// The buffers and counts that every call is lent.
#[derive(Clone, PartialEq, Eq, Debug, Default)]
pub struct Tables {
    pub names: Vec<u8>,
    pub values: Vec<u8>,
    pub store: Vec<u8>,
    pub record: Record,
}

/// A name table with its counts, for a call that is lent no record.
#[derive(Clone, PartialEq, Eq, Debug, Default)]
pub struct Names {
    pub table: Vec<u8>,
    pub bytes: usize,
    pub count: usize,
}

/// One call.
#[derive(Clone, PartialEq, Eq, Debug)]
pub enum Call {
    Enter {
        text: Vec<u8>,
        tables: Tables,
        line: Vec<u8>,
        /// Whether a wrong line is kept.
        keep: bool,
    },
    List {
        number: usize,
        tables: Tables,
        out: Vec<u8>,
    },
    Show {
        line: Vec<u8>,
        names: Names,
        values: Vec<u8>,
        out: Vec<u8>,
    },
    Batch {
        text: Vec<u8>,
        tables: Tables,
        /// Whether wrong lines are kept.
        keep: bool,
    },
    /// The record's pair is not lent, and is 0 and 0 here.
    Examine {
        tables: Tables,
    },
    Save {
        tables: Tables,
        out: Vec<u8>,
    },
    Load {
        file: Vec<u8>,
        tables: Tables,
    },
    Collect {
        tables: Tables,
    },
    Weigh {
        file: Vec<u8>,
    },
}

impl Call {
    /// What kind of answer it gets.
    pub fn kind(&self) -> Kind {
        match self {
            Call::Enter { .. } => Kind::Enter,
            Call::List { .. } | Call::Show { .. } | Call::Save { .. } => Kind::List,
            Call::Batch { .. } => Kind::Batch,
            Call::Examine { .. } => Kind::Examine,
            Call::Load { .. } | Call::Collect { .. } => Kind::Load,
            Call::Weigh { .. } => Kind::Weigh,
        }
    }
}

/// The kinds of answer.
#[derive(Clone, Copy, PartialEq, Eq, Debug)]
pub enum Kind {
    Enter,
    /// A listing, or a file written.
    List,
    Batch,
    Examine,
    /// A file read, or names taken back.
    Load,
    Weigh,
}

/// What a call answers and leaves, whole.
#[derive(Clone, PartialEq, Eq, Debug)]
pub enum Answer {
    Enter {
        number: usize,
        place: usize,
        end: usize,
        added: usize,
        used: usize,
        tables: Tables,
        line: Vec<u8>,
    },
    List {
        number: usize,
        written: usize,
        out: Vec<u8>,
    },
    Batch {
        answer: BatchAnswer,
        tables: Tables,
    },
    Examine {
        which: usize,
        line: usize,
    },
    Load {
        number: usize,
        tables: Tables,
    },
    /// All columns are 0 on a refusal.
    Weigh {
        number: usize,
        weight: Weight,
    },
}

impl Answer {
    /// The answer's number; of many lines that of the first refusal, of a program which it is.
    pub fn number(&self) -> usize {
        match self {
            Answer::Enter { number, .. }
            | Answer::List { number, .. }
            | Answer::Load { number, .. }
            | Answer::Weigh { number, .. } => *number,
            Answer::Batch { answer, .. } => answer.number,
            Answer::Examine { which, .. } => *which,
        }
    }
}

/// Reads a line as a call; None: it is no call.
pub fn read_call(line: &[u8]) -> Option<Call> {
    let mut fields = Fields::new(line);
    let call = match fields.next()? {
        b"enter" => {
            let text = fields.bytes(MOST_TEXT)?;
            let tables = fields.tables()?;
            let line = fields.bytes(MOST_LINE)?;
            let keep = fields.switch()?;
            Call::Enter {
                text,
                tables,
                line,
                keep,
            }
        }
        b"list" => {
            let number = fields.number()?;
            let tables = fields.tables()?;
            let out = fields.bytes(MOST_OUT)?;
            Call::List {
                number,
                tables,
                out,
            }
        }
        b"show" => {
            let line = fields.bytes(MOST_LINE)?;
            let names = fields.names()?;
            let values = fields.bytes(MOST_VALUES)?;
            let out = fields.bytes(MOST_OUT)?;
            Call::Show {
                line,
                names,
                values,
                out,
            }
        }
        b"batch" => {
            let text = fields.bytes(MOST_LINES_TEXT)?;
            let tables = fields.tables()?;
            let keep = fields.switch()?;
            Call::Batch { text, tables, keep }
        }
        b"examine" => Call::Examine {
            tables: fields.program()?,
        },
        b"save" => {
            let tables = fields.tables()?;
            let out = fields.bytes(MOST_OUT)?;
            Call::Save { tables, out }
        }
        b"load" => {
            let file = fields.bytes(MOST_FILE)?;
            let tables = fields.tables()?;
            Call::Load { file, tables }
        }
        b"collect" => Call::Collect {
            tables: fields.tables()?,
        },
        b"weigh" => Call::Weigh {
            file: fields.bytes(MOST_FILE)?,
        },
        _ => return None,
    };
    fields.at_end().then_some(call)
}

/// Writes a call as a line, without its end.
pub fn write_call(call: &Call) -> Vec<u8> {
    let mut row = Row::default();
    match call {
        Call::Enter {
            text,
            tables,
            line,
            keep,
        } => {
            row.word("enter");
            row.bytes(text);
            row.tables(tables);
            row.bytes(line);
            row.switch(*keep);
        }
        Call::List {
            number,
            tables,
            out,
        } => {
            row.word("list");
            row.number(*number);
            row.tables(tables);
            row.bytes(out);
        }
        Call::Show {
            line,
            names,
            values,
            out,
        } => {
            row.word("show");
            row.bytes(line);
            row.names(&names.table, names.bytes, names.count);
            row.bytes(values);
            row.bytes(out);
        }
        Call::Batch { text, tables, keep } => {
            row.word("batch");
            row.bytes(text);
            row.tables(tables);
            row.switch(*keep);
        }
        Call::Examine { tables } => {
            row.word("examine");
            row.program(tables);
        }
        Call::Save { tables, out } => {
            row.word("save");
            row.tables(tables);
            row.bytes(out);
        }
        Call::Load { file, tables } => {
            row.word("load");
            row.bytes(file);
            row.tables(tables);
        }
        Call::Collect { tables } => {
            row.word("collect");
            row.tables(tables);
        }
        Call::Weigh { file } => {
            row.word("weigh");
            row.bytes(file);
        }
    }
    row.text
}

/// Reads a line as an answer of this kind; None: it is no such answer.
pub fn read_answer(line: &[u8], kind: Kind) -> Option<Answer> {
    let mut fields = Fields::new(line);
    let answer = match kind {
        Kind::Enter => {
            let number = fields.number()?;
            let place = fields.number()?;
            let end = fields.number()?;
            let added = fields.number()?;
            let tables = fields.tables_after()?;
            Answer::Enter {
                number,
                place,
                end,
                added,
                used: tables.record.used,
                tables,
                line: fields.bytes(MOST_LINE)?,
            }
        }
        Kind::List => Answer::List {
            number: fields.number()?,
            written: fields.number()?,
            out: fields.bytes(MOST_OUT)?,
        },
        Kind::Batch => Answer::Batch {
            answer: BatchAnswer {
                taken: fields.number()?,
                refused: fields.number()?,
                number: fields.number()?,
                place: fields.number()?,
                end: fields.number()?,
                line: fields.number()?,
            },
            tables: fields.tables_after()?,
        },
        Kind::Examine => Answer::Examine {
            which: fields.number()?,
            line: fields.number()?,
        },
        Kind::Load => Answer::Load {
            number: fields.number()?,
            tables: fields.tables_after()?,
        },
        Kind::Weigh => Answer::Weigh {
            number: fields.number()?,
            weight: Weight {
                lines: fields.number()?,
                names: fields.number()?,
                used: fields.number()?,
                listing: fields.number()?,
                variables: fields.number()?,
                numbers: fields.number()?,
                strings: fields.number()?,
                raw: fields.number()?,
                others: fields.number()?,
            },
        },
    };
    fields.at_end().then_some(answer)
}

/// Writes an answer as a line, without its end.
pub fn write_answer(answer: &Answer) -> Vec<u8> {
    let mut row = Row::default();
    match answer {
        Answer::Enter {
            number,
            place,
            end,
            added,
            used,
            tables,
            line,
        } => {
            row.number(*number);
            row.number(*place);
            row.number(*end);
            row.number(*added);
            row.tables_after(*used, tables);
            row.bytes(line);
        }
        Answer::List {
            number,
            written,
            out,
        } => {
            row.number(*number);
            row.number(*written);
            row.bytes(out);
        }
        Answer::Batch { answer, tables } => {
            row.number(answer.taken);
            row.number(answer.refused);
            row.number(answer.number);
            row.number(answer.place);
            row.number(answer.end);
            row.number(answer.line);
            row.tables_after(tables.record.used, tables);
        }
        Answer::Examine { which, line } => {
            row.number(*which);
            row.number(*line);
        }
        Answer::Load { number, tables } => {
            row.number(*number);
            row.tables_after(tables.record.used, tables);
        }
        Answer::Weigh { number, weight } => {
            row.number(*number);
            for column in weight.columns() {
                row.number(column);
            }
        }
    }
    row.text
}

/// Runs a call on the reference.
pub fn run_reference(call: Call) -> Answer {
    match call {
        Call::Enter {
            text,
            mut tables,
            mut line,
            keep,
        } => {
            let answer = reference::enter(
                &text,
                &mut tables.names,
                &mut tables.values,
                &mut tables.store,
                &mut line,
                keep,
                &mut tables.record,
            );
            Answer::Enter {
                number: answer.number,
                place: answer.place,
                end: answer.end,
                added: answer.added,
                used: answer.used,
                tables,
                line,
            }
        }
        Call::List {
            number,
            tables,
            mut out,
        } => {
            let answer = reference::list(
                number,
                &tables.names,
                &tables.values,
                &tables.store,
                &tables.record,
                &mut out,
            );
            Answer::List {
                number: answer.number,
                written: answer.written,
                out,
            }
        }
        Call::Show {
            line,
            names,
            values,
            mut out,
        } => {
            let answer = reference::show(
                &line,
                &names.table,
                names.bytes,
                names.count,
                &values,
                &mut out,
            );
            Answer::List {
                number: answer.number,
                written: answer.written,
                out,
            }
        }
        Call::Batch {
            text,
            mut tables,
            keep,
        } => {
            let answer = reference::batch(
                &text,
                &mut tables.names,
                &mut tables.values,
                &mut tables.store,
                keep,
                &mut tables.record,
            );
            Answer::Batch { answer, tables }
        }
        Call::Examine { tables } => {
            let (which, line) = reference::examine(
                &tables.names,
                tables.record.name_bytes,
                tables.record.name_count,
                &tables.values,
                &tables.store,
                tables.record.used,
            )
            .numbers();
            Answer::Examine { which, line }
        }
        Call::Save { tables, mut out } => {
            let answer = reference::save(
                &tables.names,
                &tables.values,
                &tables.store,
                &tables.record,
                &mut out,
            );
            Answer::List {
                number: answer.number,
                written: answer.written,
                out,
            }
        }
        Call::Load { file, mut tables } => {
            let number = reference::load(
                &file,
                &mut tables.names,
                &mut tables.values,
                &mut tables.store,
                &mut tables.record,
            );
            Answer::Load { number, tables }
        }
        Call::Collect { mut tables } => {
            let number = reference::collect(
                &mut tables.names,
                &mut tables.values,
                &mut tables.store,
                &mut tables.record,
            );
            Answer::Load { number, tables }
        }
        Call::Weigh { file } => {
            let result = reference::weigh(&file);
            Answer::Weigh {
                number: result.err().unwrap_or(0),
                weight: result.unwrap_or_default(),
            }
        }
    }
}

/// Answers one line of the protocol, without its end.
pub fn answer_line(line: &[u8]) -> Vec<u8> {
    match read_call(line) {
        Some(call) => write_answer(&run_reference(call)),
        None => b"bad".to_vec(),
    }
}

/// The fields of a line.
struct Fields<'a> {
    rest: Option<&'a [u8]>,
}

impl<'a> Fields<'a> {
    fn new(line: &'a [u8]) -> Fields<'a> {
        Fields { rest: Some(line) }
    }

    /// Takes the next field.
    fn next(&mut self) -> Option<&'a [u8]> {
        let rest = self.rest?;
        match rest.iter().position(|byte| *byte == b' ') {
            Some(blank) => {
                self.rest = Some(&rest[blank + 1..]);
                Some(&rest[..blank])
            }
            None => {
                self.rest = None;
                Some(rest)
            }
        }
    }

    /// Says whether no field is left.
    fn at_end(&self) -> bool {
        self.rest.is_none()
    }

    /// Takes a number.
    fn number(&mut self) -> Option<usize> {
        let field = self.next()?;
        if field.is_empty() {
            return None;
        }
        let mut number: u64 = 0;
        for byte in field {
            if !byte.is_ascii_digit() {
                return None;
            }
            let digit = (byte - b'0') as u64;
            number = number.checked_mul(10)?.checked_add(digit)?;
            if number >= NUMBER_BOUND {
                return None;
            }
        }
        Some(number as usize)
    }

    /// Takes a switch: 1 for on, 0 for off.
    fn switch(&mut self) -> Option<bool> {
        match self.number()? {
            0 => Some(false),
            1 => Some(true),
            _ => None,
        }
    }

    /// Takes bytes, at most so many.
    fn bytes(&mut self, most: usize) -> Option<Vec<u8>> {
        let field = self.next()?;
        if field == b"-" {
            return Some(Vec::new());
        }
        if field.is_empty() || field.len() % 2 != 0 || field.len() / 2 > most {
            return None;
        }
        field
            .chunks_exact(2)
            .map(|pair| Some(hex_digit(pair[0])? << 4 | hex_digit(pair[1])?))
            .collect()
    }

    /// Takes the fields of a name table.
    fn names(&mut self) -> Option<Names> {
        Some(Names {
            table: self.bytes(MOST_NAMES)?,
            bytes: self.number()?,
            count: self.number()?,
        })
    }

    /// Takes the fields of tables and store with no pair, as a program has them.
    fn program(&mut self) -> Option<Tables> {
        let names = self.names()?;
        let values = self.bytes(MOST_VALUES)?;
        let store = self.bytes(MOST_STORE)?;
        let record = Record {
            name_bytes: names.bytes,
            name_count: names.count,
            used: self.number()?,
            ..Record::default()
        };
        Some(Tables {
            names: names.table,
            values,
            store,
            record,
        })
    }

    /// Takes the fields of tables and store, as a call has them.
    fn tables(&mut self) -> Option<Tables> {
        let mut tables = self.program()?;
        tables.record.lines = self.number()?;
        tables.record.greatest = self.number()?;
        Some(tables)
    }

    /// Takes the fields of tables and store, as an answer has them.
    fn tables_after(&mut self) -> Option<Tables> {
        let record = Record {
            used: self.number()?,
            lines: self.number()?,
            greatest: self.number()?,
            name_bytes: self.number()?,
            name_count: self.number()?,
        };
        Some(Tables {
            names: self.bytes(MOST_NAMES)?,
            values: self.bytes(MOST_VALUES)?,
            store: self.bytes(MOST_STORE)?,
            record,
        })
    }
}

/// The value of a lowercase hex digit.
fn hex_digit(byte: u8) -> Option<u8> {
    match byte {
        b'0'..=b'9' => Some(byte - b'0'),
        b'a'..=b'f' => Some(byte - b'a' + 10),
        _ => None,
    }
}

/// A line as it is written, field by field.
#[derive(Default)]
struct Row {
    text: Vec<u8>,
}

impl Row {
    /// Adds the blank before a field that is not the first.
    fn part(&mut self) {
        if !self.text.is_empty() {
            self.text.push(b' ');
        }
    }

    fn word(&mut self, word: &str) {
        self.part();
        self.text.extend_from_slice(word.as_bytes());
    }

    fn number(&mut self, number: usize) {
        self.word(&number.to_string());
    }

    fn switch(&mut self, on: bool) {
        self.number(on as usize);
    }

    fn bytes(&mut self, bytes: &[u8]) {
        if bytes.is_empty() {
            return self.word("-");
        }
        self.part();
        const DIGITS: &[u8; 16] = b"0123456789abcdef";
        for byte in bytes {
            self.text.push(DIGITS[(byte >> 4) as usize]);
            self.text.push(DIGITS[(byte & 15) as usize]);
        }
    }

    fn names(&mut self, table: &[u8], bytes: usize, count: usize) {
        self.bytes(table);
        self.number(bytes);
        self.number(count);
    }

    /// Tables and store with no pair, as a program has them.
    fn program(&mut self, tables: &Tables) {
        let record = &tables.record;
        self.names(&tables.names, record.name_bytes, record.name_count);
        self.bytes(&tables.values);
        self.bytes(&tables.store);
        self.number(record.used);
    }

    /// Tables and store, as a call has them.
    fn tables(&mut self, tables: &Tables) {
        self.program(tables);
        self.number(tables.record.lines);
        self.number(tables.record.greatest);
    }

    /// Bytes used, tables and store, as an answer has them.
    fn tables_after(&mut self, used: usize, tables: &Tables) {
        let record = &tables.record;
        self.number(used);
        self.number(record.lines);
        self.number(record.greatest);
        self.number(record.name_bytes);
        self.number(record.name_count);
        self.bytes(&tables.names);
        self.bytes(&tables.values);
        self.bytes(&tables.store);
    }
}

#[cfg(test)]
mod tests {
    use super::*;

    #[test]
    fn lines_that_are_no_call() {
        let bad: [&[u8]; 54] = [
            b"",
            b" ",
            b"enter",
            b"Enter 31 - 0 0 - - 0 0 0 - 0",
            b"enter 3 - 0 0 - - 0 0 0 - 0",
            b"enter 3g - 0 0 - - 0 0 0 - 0",
            b"enter 3A - 0 0 - - 0 0 0 - 0",
            b"enter  - 0 0 - - 0 0 0 - 0",
            b"enter 31 - 0 0 - - 0 0 0 0",
            b"enter 31 - 0 0 - - 0 0 0  0",
            b"enter 31 - 0 0 - - 0 0 0 0 0",
            b"enter 31 - 0 0 - - 0 0 0 - - 0",
            b"enter 31 - 0 0 - - 0 - 0",
            b"enter 31 - 0 0 - - 0 0 - 0",
            b"enter 31 - 0 0 - - 9223372036854775808 0 0 - 0",
            b"enter 31 - 0 0 - - 0 0 9223372036854775808 - 0",
            b"enter 31 - 0 0 - - +1 0 0 - 0",
            b"enter 31 - 0 0 - - - 0 0 - 0",
            b"enter 31 - 0 0 - - 0 - 0 - 0",
            b"enter 31 - 0 0 - - 0 0 0 -",
            b"enter 31 - 0 0 - - 0 0 0 - ",
            b"enter 31 - 0 0 - - 0 0 0 - 2",
            b"enter 31 - 0 0 - - 0 0 0 - 10",
            b"enter 31 - 0 0 - - 0 0 0 - -",
            b"enter 31 - 0 0 - - 0 0 0 - 0 0",
            b"list 1 - 0 0 - - 0 -",
            b"list 1 - 0 0 - - 0 0 0",
            b"list 1 - 0 0 - - 0 0 0 - -",
            b"list 1 - 0 0 - - 0 0 0 - 0",
            b"enter 31 - 0 0 - - 0 0 0 - 0\r",
            b"show - - 0 0 -",
            b"show - - 0 0 - - -",
            b"show - - 0 0 - - 0 0 0 -",
            b"show 1 - 0 0 - -",
            b"show 0 - 0 0 - -",
            b"batch - - 0 0 - - 0 0 0",
            b"batch - - 0 0 - - 0 0 0 -",
            b"batch - - 0 0 - - 0 0 0 2",
            b"batch - - 0 0 - - 0 0 0 - 0",
            b"batch 9 - 0 0 - - 0 0 0 0",
            b"examine - 0 0 - -",
            b"examine - 0 0 - - 0 0",
            b"examine - 0 0 - - -",
            b"save - 0 0 - - 0 0 0",
            b"save - 0 0 - - 0 0 0 - -",
            b"load - - 0 0 - - 0 0",
            b"load 0 - 0 0 - - 0 0 0",
            b"collect - 0 0 - - 0 0",
            b"collect - 0 0 - - 0 0 0 -",
            b"collect 0 0 0 - - 0 0 0",
            b"weigh",
            b"weigh 0",
            b"weigh 00 ",
            b"weigh 00 00",
        ];
        for line in bad {
            assert_eq!(
                answer_line(line),
                b"bad",
                "{}",
                String::from_utf8_lossy(line)
            );
        }
        let long_text = [
            "enter ",
            &"30".repeat(MOST_TEXT + 1),
            " - 0 0 - - 0 0 0 - 0",
        ];
        let long_line = ["show ", &"30".repeat(MOST_LINE + 1), " - 0 0 - -"];
        let long_lines = [
            "batch ",
            &"9b".repeat(MOST_LINES_TEXT + 1),
            " - 0 0 - - 0 0 0 0",
        ];
        let long_file = ["weigh ", &"00".repeat(MOST_FILE + 1), ""];
        for long in [long_text, long_line, long_lines, long_file] {
            assert_eq!(answer_line(long.concat().as_bytes()), b"bad");
        }
    }

    /// A call gets this answer.
    #[track_caller]
    fn answers(call: &str, answer: &str) {
        let found = answer_line(call.as_bytes());
        assert_eq!(String::from_utf8_lossy(&found), answer, "{call}");
    }

    #[test]
    fn calls_are_answered() {
        answers(
            "enter 313020454e44 - 0 0 - 00000000000000 0 0 0 ff 0",
            "0 0 0 0 6 1 10 0 0 - - 0a000606151600 ff",
        );
        answers(
            "enter 3130 - 0 0 - 0a0006061516 6 1 11 - 1",
            "1 0 0 0 6 1 11 0 0 - - 0a0006061516 -",
        );
        answers(
            "enter 454e44 - 0 0 - 0a0006061516 6 1 10 ffffffffffffff 1",
            "0 0 0 0 6 1 10 0 0 - - 0a0006061516 008006061516ff",
        );
        // A wrong line, kept and not.
        answers(
            "enter 31302029 - 0 0 - ffffffffffffffff 0 0 0 - 1",
            "4 3 4 0 8 1 10 0 0 - - 0a0008083720a99b -",
        );
        answers(
            "enter 31302029 - 0 0 - ffffffffffffffff 0 0 0 - 0",
            "4 3 4 0 0 0 0 0 0 - - ffffffffffffffff -",
        );
        answers(
            "list 10 - 0 0 - 0a0008083720a99b 8 1 10 ffffffffffffffffffffffffff",
            "0 12 3130204552524f522d2020a9ff",
        );
        answers(
            "batch 313020299b - 0 0 - ffffffffffffffff 0 0 0 1",
            "0 1 4 3 4 1 8 1 10 0 0 - - 0a0008083720a99b",
        );
        answers(
            "list 10 - 0 0 - 0a0006061516 6 1 10 ffffffffffffffff",
            "0 7 313020454e4420ff",
        );
        answers("list 9223372036854775807 - 0 0 - - 0 0 0 -", "9 0 -");
        answers("show 008006061516ff - 0 0 - ffffffffff", "0 4 454e4420ff");
        answers("show - - 1 0 - -", "1 0 -");
        answers(
            "batch 313020454e449b9b454e449b3130 - 0 0 - ffffffffffffff 0 0 0 0",
            "2 2 3 0 0 2 0 0 0 0 0 - - 0a0006061516ff",
        );
        answers("batch - - 1 0 - - 7 0 0 1", "0 0 0 0 0 0 7 0 0 1 0 - - -");
        answers("examine - 0 0 - 0a0006061516ff 6", "0 0");
        answers("examine c1 1 1 00000000000000 01 1", "2 0");
        answers("examine - 0 0 - 00000606379b 6", "4 0");
        answers(
            "save - 0 0 - - 0 0 0 ffffffffffffffffffffffffffffffffffffffffffff",
            "0 21 000000010001010101010101070100008006061516ff",
        );
        answers(
            "load 000000010001010101010101070100008006061516 ff 1 2 ff ff 3 4 5",
            "0 0 0 0 0 0 ff ff ff",
        );
        answers("load - ff 1 2 ff ff 3 4 5", "12 3 4 5 1 2 ff ff ff");
        // The first of two names is used by no line: 10 PRINT B.
        answers(
            "collect c1c2 2 2 01020304050607081112131415161718 0a0007072081160b 7 1 10",
            "0 7 1 10 1 1 c2c2 11001314151617181112131415161718 0a0007072080160b",
        );
        answers(
            "collect - 0 0 - 0a0007072080160b 7 1 10",
            "10 7 1 10 0 0 - - 0a0007072080160b",
        );
        answers(
            "weigh 000000010001010101010101070100008006061516",
            "0 0 0 0 0 0 0 0 0 0",
        );
        // 10 A=B and 20 END, which lists with a blank at its end.
        let words = "0000000102010301130122012801";
        let tables = "c1c20000000000000000000001000000000000";
        let lines = "0a00090936802d8116140006061516008006061516";
        answers(
            &["weigh ", words, tables, lines].concat(),
            "0 2 2 15 15 2 0 0 0 13",
        );
        answers("weigh -", "12 0 0 0 0 0 0 0 0 0");
        answers(
            &["weigh ", &"00".repeat(65_535)].concat(),
            "13 0 0 0 0 0 0 0 0 0",
        );
        answers(
            &["weigh ", &"00".repeat(65_536)].concat(),
            "14 0 0 0 0 0 0 0 0 0",
        );
        answers(
            "collect - 0 0 - 0a0006061516 6 1 11",
            "1 6 1 11 0 0 - - 0a0006061516",
        );
    }

    #[test]
    fn written_calls_and_answers_are_read_back() {
        for line in [
            "list 10 c1 1 1 0000000000000000 0a0006061516 6 1 10 ff",
            "enter 313020413d31 ff 0 0 ffffffffffffffff - 0 2 3 - 0",
            "enter 413d31 ff 0 0 ffffffffffffffff - 0 0 0 ffffffffffffffffffffffffffffffff 1",
            "show 0080060615160a c1 1 1 0000000000000000 ffffff",
            "batch 3130204242429b323020413d31 ff 0 0 ffffffffffffffff ffffffffffffffffffffffffffffffff 0 0 0 1",
            "examine c1 1 1 0000000000000000 0a0007072080160c000606379b 13",
            "collect c1c2 2 2 00000000000000000001000000000000 0a0007072081160c000606379b 13 2 12",
            "weigh 000000010001010101010108080107000000000606379b",
        ] {
            let call = read_call(line.as_bytes()).unwrap();
            assert_eq!(write_call(&call), line.as_bytes());
            let kind = call.kind();
            let answer = run_reference(call);
            assert_eq!(read_answer(&write_answer(&answer), kind), Some(answer));
        }
    }
}
