//! Document 02's report over the reference: what the program `report` must print for the files that standard
//! input names, one a line.

use std::ffi::OsStr;
use std::fs::File;
use std::io::{self, Read, Write};
use std::os::unix::ffi::OsStrExt;

use reference::{weigh, Weight, LONGEST_FILE, NO_FILE};

fn main() -> io::Result<()> {
    let mut names = Vec::new();
    io::stdin().read_to_end(&mut names)?;
    io::stdout().write_all(&report(&names, read))
}

/// The bytes of a file, one more than is taken at most; None if it cannot be opened or read.
fn read(name: &[u8]) -> Option<Vec<u8>> {
    let file = File::open(OsStr::from_bytes(name)).ok()?;
    let mut bytes = Vec::new();
    let most = LONGEST_FILE as u64 + 1;
    file.take(most).read_to_end(&mut bytes).ok()?;
    Some(bytes)
}

/// The report of the files with these names: a line for each, and one for all.
fn report(names: &[u8], read: impl Fn(&[u8]) -> Option<Vec<u8>>) -> Vec<u8> {
    let mut text = Vec::new();
    let mut total = Weight::default();
    for name in lines(names) {
        let result = match read(name) {
            Some(file) => weigh(&file),
            None => Err(NO_FILE),
        };
        match result {
            Ok(weight) => {
                put_row(&mut text, name, &weight);
                total.add(&weight);
            }
            Err(number) => {
                text.extend_from_slice(name);
                text.extend_from_slice(format!("\trefused\t{number}\n").as_bytes());
            }
        }
    }
    put_row(&mut text, b"total", &total);
    text
}

/// Adds a line: a name and its columns, parted by tabs.
fn put_row(text: &mut Vec<u8>, name: &[u8], weight: &Weight) {
    text.extend_from_slice(name);
    for column in weight.columns() {
        text.extend_from_slice(format!("\t{column}").as_bytes());
    }
    text.push(b'\n');
}

/// The lines of an input: 0A closes one, and so does the input's end if bytes stand after the last 0A.
fn lines(input: &[u8]) -> impl Iterator<Item = &[u8]> {
    input
        .split_inclusive(|byte| *byte == b'\n')
        .map(|line| line.strip_suffix(b"\n").unwrap_or(line))
}

#[cfg(test)]
mod tests {
    use super::*;

    /// A file of one line, `10 REM` and so many bytes, without a current line.
    fn remark(length: u8) -> Vec<u8> {
        let size = length + 6;
        let end = 1 + size;
        let words = [0, 0, 0, 0, 0, 0, 1, 0, 1, 0, 1, 0, end, 0];
        let head = [0, 10, 0, size, size, 0];
        [&words[..], &head, &vec![0x80; length as usize], &[0x9B]].concat()
    }

    /// The files that there are.
    fn file(name: &[u8]) -> Option<Vec<u8>> {
        match name {
            b"one" => Some(remark(4)),
            b" two" => Some(remark(0)),
            b"empty" => Some(vec![]),
            b"long" => Some(vec![0; 65_536]),
            b"bad" => {
                let mut file = remark(4);
                file[19] = 0x02;
                Some(file)
            }
            _ => None,
        }
    }

    #[test]
    fn a_line_for_each_program_and_one_for_all() {
        let names = b"one\n two\ntwo\n\nempty\nlong\nbad\none\r\none";
        let expected = "one\t1\t0\t10\t12\t0\t0\t0\t4\t6\n \
                        two\t1\t0\t6\t8\t0\t0\t0\t0\t6\n\
                        two\trefused\t14\n\
                        \trefused\t14\n\
                        empty\trefused\t12\n\
                        long\trefused\t14\n\
                        bad\trefused\t10\n\
                        one\r\trefused\t14\n\
                        one\t1\t0\t10\t12\t0\t0\t0\t4\t6\n\
                        total\t3\t0\t26\t32\t0\t0\t0\t8\t18\n";
        let found = report(names, file);
        assert_eq!(String::from_utf8_lossy(&found), expected);
    }

    #[test]
    fn no_program_has_a_total() {
        let total = b"total\t0\t0\t0\t0\t0\t0\t0\t0\t0\n";
        assert_eq!(report(b"", file), total);
        assert_eq!(
            report(b"\n", file),
            [&b"\trefused\t14\n"[..], total].concat()
        );
    }

    #[test]
    fn what_cannot_be_opened_is_refused() {
        for name in [&b""[..], b".", b"/", b"no such file", b"a\0b"] {
            assert_eq!(read(name), None);
        }
    }
}
