//! The implementations that the reference is compared with.

use std::io::{self, BufRead, BufReader, BufWriter, Write};
use std::process::{Child, ChildStdin, ChildStdout, Command, Stdio};

use protocol::{read_answer, write_call, Answer, Call};
#[cfg(not(feature = "library"))]
use protocol::{read_call, run_reference, write_answer};

/// The reference once more, with call and answer sent through the protocol's text.
#[cfg(not(feature = "library"))]
fn through_text(call: &Call) -> Option<Answer> {
    let line = write_call(call);
    let answer = run_reference(read_call(&line)?);
    read_answer(&write_answer(&answer), call.kind())
}

/// The proved library.
#[cfg(feature = "library")]
fn through_library(call: &Call) -> Option<Answer> {
    Some(match call.clone() {
        Call::Enter {
            text,
            mut tables,
            mut line,
            keep,
        } => {
            let mut record = lend(&tables.record);
            let answer = virgontey::enter(
                &text,
                &mut tables.names,
                &mut tables.values,
                &mut tables.store,
                &mut line,
                keep,
                &mut record,
            );
            tables.record = given_back(&record);
            Answer::Enter {
                number: answer.number,
                place: answer.place,
                end: answer.end,
                added: answer.added,
                used: answer.used,
                tables,
                line,
            }
        }
        Call::List {
            number,
            tables,
            mut out,
        } => {
            let record = lend(&tables.record);
            let answer = virgontey::list(
                number,
                &tables.names,
                &tables.values,
                &tables.store,
                &record,
                &mut out,
            );
            Answer::List {
                number: answer.number,
                written: answer.written,
                out,
            }
        }
        Call::Show {
            line,
            names,
            values,
            mut out,
        } => {
            let answer = virgontey::show(
                &line,
                &names.table,
                names.bytes,
                names.count,
                &values,
                &mut out,
            );
            Answer::List {
                number: answer.number,
                written: answer.written,
                out,
            }
        }
        Call::Batch {
            text,
            mut tables,
            keep,
        } => {
            let mut record = lend(&tables.record);
            let answer = virgontey::batch(
                &text,
                &mut tables.names,
                &mut tables.values,
                &mut tables.store,
                keep,
                &mut record,
            );
            tables.record = given_back(&record);
            let answer = reference::BatchAnswer {
                taken: answer.taken,
                refused: answer.refused,
                number: answer.number,
                place: answer.place,
                end: answer.end,
                line: answer.line,
            };
            Answer::Batch { answer, tables }
        }
        Call::Examine { tables } => {
            let verdict = virgontey::examine(
                &tables.names,
                tables.record.name_bytes,
                tables.record.name_count,
                &tables.values,
                &tables.store,
                tables.record.used,
            );
            let (which, line) = match verdict {
                virgontey::Verdict::Yes => (0, 0),
                virgontey::Verdict::UnsoundNames => (1, 0),
                virgontey::Verdict::UnsoundValues => (2, 0),
                virgontey::Verdict::UnsoundStore => (3, 0),
                virgontey::Verdict::BadLine(number) => (4, number),
            };
            Answer::Examine { which, line }
        }
        Call::Save { tables, mut out } => {
            let record = lend(&tables.record);
            let answer = virgontey::save(
                &tables.names,
                &tables.values,
                &tables.store,
                &record,
                &mut out,
            );
            Answer::List {
                number: answer.number,
                written: answer.written,
                out,
            }
        }
        Call::Load { file, mut tables } => {
            let mut record = lend(&tables.record);
            let number = virgontey::load(
                &file,
                &mut tables.names,
                &mut tables.values,
                &mut tables.store,
                &mut record,
            );
            tables.record = given_back(&record);
            Answer::Load { number, tables }
        }
        Call::Collect { mut tables } => {
            let mut record = lend(&tables.record);
            let number = virgontey::collect(
                &mut tables.names,
                &mut tables.values,
                &mut tables.store,
                &mut record,
            );
            tables.record = given_back(&record);
            Answer::Load { number, tables }
        }
        // The report is a program: the library has no such call.
        Call::Weigh { .. } => return None,
    })
}

/// The record as the library's wrapper takes it.
#[cfg(feature = "library")]
fn lend(record: &reference::Record) -> virgontey::Record {
    virgontey::Record {
        name_bytes: record.name_bytes,
        name_count: record.name_count,
        used: record.used,
        lines: record.lines,
        greatest: record.greatest,
    }
}

/// The record as the wrapper gives it back.
#[cfg(feature = "library")]
fn given_back(record: &virgontey::Record) -> reference::Record {
    reference::Record {
        name_bytes: record.name_bytes,
        name_count: record.name_count,
        used: record.used,
        lines: record.lines,
        greatest: record.greatest,
    }
}

/// The implementation that is in this process, and what counts of tables it takes are below.
pub fn in_process() -> (fn(&Call) -> Option<Answer>, u64) {
    #[cfg(feature = "library")]
    return (through_library, u64::MAX);
    #[cfg(not(feature = "library"))]
    return (through_text, 1 << 63);
}

/// Starts a program that speaks the protocol.
pub fn start(program: &str) -> io::Result<(Child, BufWriter<ChildStdin>, BufReader<ChildStdout>)> {
    let mut child = Command::new(program)
        .stdin(Stdio::piped())
        .stdout(Stdio::piped())
        .spawn()?;
    let no_pipe = || io::Error::other("the program has no pipe");
    let input = child.stdin.take().ok_or_else(no_pipe)?;
    let output = child.stdout.take().ok_or_else(no_pipe)?;
    Ok((child, BufWriter::new(input), BufReader::new(output)))
}

/// Sends a call to such a program.
pub fn send(input: &mut impl Write, call: &Call) -> io::Result<()> {
    input.write_all(&write_call(call))?;
    input.write_all(b"\n")
}

/// Takes a program's answer to a call.
pub fn receive(output: &mut impl BufRead, call: &Call) -> io::Result<Option<Answer>> {
    let mut line = Vec::new();
    output.read_until(b'\n', &mut line)?;
    if line.pop() != Some(b'\n') {
        return Ok(None);
    }
    Ok(read_answer(&line, call.kind()))
}
