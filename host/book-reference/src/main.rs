//! Reads crates/book/stdin on standard input and prints what the program `book` must print.

use std::fmt::Write;
use std::io::{self, Read};

use reference::{enter, list, Record};

/// Tables and store of one program.
struct Program {
    names: Vec<u8>,
    values: Vec<u8>,
    store: Vec<u8>,
    record: Record,
}

impl Program {
    /// An empty program with the desk program's rooms.
    fn new() -> Program {
        Program {
            names: vec![0; 2048],
            values: vec![0; 2048],
            store: vec![0; 32768],
            record: Record::default(),
        }
    }

    /// Enters a line and prints what came of it.
    fn enter(&mut self, text: &str, shown: &mut String) {
        let answer = enter(
            text.as_bytes(),
            &mut self.names,
            &mut self.values,
            &mut self.store,
            &mut [],
            false,
            &mut self.record,
        );
        let _ = writeln!(
            shown,
            "E\t{text}\t{}\t{}\t{}",
            answer.number, answer.place, answer.end
        );
        if answer.number != 0 {
            return;
        }
        let digits = text.find(|c: char| !c.is_ascii_digit());
        let number = text[..digits.unwrap_or(text.len())].parse();
        let number: usize = number.expect("an example begins with its number");
        let Some(line) = self.line(number) else {
            return;
        };
        let _ = writeln!(shown, "B\t{}", hex(line));
        let mut out = vec![0; 1024];
        let answer = list(
            number,
            &self.names,
            &self.values,
            &self.store,
            &self.record,
            &mut out,
        );
        assert_eq!(answer.number, 0, "{text}");
        let listing = String::from_utf8_lossy(&out[..answer.written]);
        let _ = writeln!(shown, "L\t{listing}");
    }

    /// The bytes of a stored line.
    fn line(&self, number: usize) -> Option<&[u8]> {
        let mut rest = &self.store[..self.record.used];
        while !rest.is_empty() {
            let (line, behind) = rest.split_at(rest[2] as usize);
            if line[0] as usize + 256 * line[1] as usize == number {
                return Some(line);
            }
            rest = behind;
        }
        None
    }

    /// Prints the name table, at a program's end.
    fn end(&self, shown: &mut String) {
        let names = hex(&self.names[..self.record.name_bytes]);
        let _ = writeln!(shown, "N\t{names}");
    }
}

/// Bytes as lowercase hex, `-` for none.
fn hex(bytes: &[u8]) -> String {
    if bytes.is_empty() {
        return "-".into();
    }
    bytes.iter().map(|byte| format!("{byte:02x}")).collect()
}

fn main() -> io::Result<()> {
    let mut examples = String::new();
    io::stdin().read_to_string(&mut examples)?;
    let mut shown = String::new();
    let mut source = "";
    let mut program = Program::new();
    for row in examples.lines() {
        let Some((from, text)) = row.split_once('\t') else {
            return Err(io::Error::other(format!("no tab in: {row}")));
        };
        if from != source {
            if !source.is_empty() {
                program.end(&mut shown);
            }
            source = from;
            program = Program::new();
            let _ = writeln!(shown, "P\t{source}");
        }
        program.enter(text, &mut shown);
    }
    if !source.is_empty() {
        program.end(&mut shown);
    }
    print!("{shown}");
    Ok(())
}
