//! Document 01's desk program over the reference: what the program `desk` must print.

use std::io::{self, BufWriter, Read, Write};

use reference::{enter, list, Record};

fn main() -> io::Result<()> {
    let mut input = Vec::new();
    io::stdin().read_to_end(&mut input)?;
    let mut output = BufWriter::new(io::stdout());
    let mut names = [0; 2048];
    let mut values = [0; 2048];
    let mut store = [0; 32768];
    let mut line = [0; 255];
    let mut record = Record::default();

    for (count, text) in lines(&input).enumerate() {
        let answer = enter(
            text,
            &mut names,
            &mut values,
            &mut store,
            &mut line,
            false,
            &mut record,
        );
        writeln!(
            output,
            "E\t{}\t{}\t{}\t{}\t{}\t{}",
            count + 1,
            answer.number,
            answer.place,
            answer.end,
            answer.added,
            answer.used
        )?;
    }

    let mut rest = &store[..record.used];
    while !rest.is_empty() {
        let number = rest[0] as usize + 256 * rest[1] as usize;
        let mut out = [0; 1024];
        let answer = list(number, &names, &values, &store, &record, &mut out);
        assert_eq!(answer.number, 0, "line {number}");
        output.write_all(b"L\t")?;
        output.write_all(&out[..answer.written])?;
        output.write_all(b"\n")?;
        rest = &rest[rest[2] as usize..];
    }
    output.flush()
}

/// The lines of an input: 0A closes one, and so does the input's end if bytes stand after the last 0A.
fn lines(input: &[u8]) -> impl Iterator<Item = &[u8]> {
    input
        .split_inclusive(|byte| *byte == b'\n')
        .map(|line| line.strip_suffix(b"\n").unwrap_or(line))
}
