//! Answers calls on standard input with the reference, line for line.

use std::io::{self, BufRead, BufReader, BufWriter, Write};

fn main() -> io::Result<()> {
    let mut input = BufReader::new(io::stdin());
    let mut output = BufWriter::new(io::stdout());
    let mut line = Vec::new();
    loop {
        // Answers go out before the next line has to be waited for.
        if input.buffer().is_empty() {
            output.flush()?;
        }
        line.clear();
        if input.read_until(b'\n', &mut line)? == 0 {
            return output.flush();
        }
        if line.last() == Some(&b'\n') {
            line.pop();
        }
        output.write_all(&protocol::answer_line(&line))?;
        output.write_all(b"\n")?;
    }
}
