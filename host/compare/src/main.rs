//! Compares the reference with another implementation over generated calls.
//!
//!   compare [--calls N] [--seed S] [--through PROGRAM]
//!   compare --pairs N [--seed S] [--through PROGRAM]
//!
//! With `--pairs` two edits are made in either order, until N pairs were accepted in each order and compared.
//!
//! Without the feature `library` the other side is the reference itself, reached through the
//! protocol's text, so that generator and checks are tried. With it, it is the proved library.
//! `--through` takes any program that speaks the protocol on standard input and output.
//! `--long` runs 50,000,000 calls.

mod cases;
mod check;
mod files;
mod lines;
mod pairs;
mod paths;
mod programs;
mod random;
mod texts;
mod tokens;

use std::process::ExitCode;
use std::sync::mpsc;
use std::time::Instant;
use std::{env, io, thread};

use cases::{Case, Cases};
use check::Checker;
use pairs::Pairs;
use protocol::{write_answer, write_call, Answer, Call};

/// Differences shown in full before the run stops.
const MOST_SHOWN: u64 = 5;

struct Options {
    calls: u64,
    pairs: Option<u64>,
    seed: u64,
    through: Option<String>,
}

fn main() -> ExitCode {
    let options = match read_options() {
        Ok(options) => options,
        Err(wrong) => {
            eprintln!("{wrong}");
            return ExitCode::from(2);
        }
    };
    let start = Instant::now();
    if let Some(count) = options.pairs {
        return run_pairs(&options, count, start);
    }
    let mut run = Run::default();
    let result = match &options.through {
        Some(program) => run.through_program(&options, program),
        None => {
            run.in_process(&options);
            Ok(())
        }
    };
    if let Err(wrong) = result {
        eprintln!("{wrong}");
        return ExitCode::from(2);
    }
    run.report(&options, start.elapsed().as_secs_f64());
    if run.differences == 0 && run.done == options.calls {
        ExitCode::SUCCESS
    } else {
        ExitCode::FAILURE
    }
}

/// Reads the options.
fn read_options() -> Result<Options, String> {
    let mut options = Options {
        calls: 1_000_000,
        pairs: None,
        seed: 1,
        through: None,
    };
    let mut words = env::args().skip(1);
    while let Some(word) = words.next() {
        if word == "--long" {
            options.calls = 50_000_000;
            continue;
        }
        let value = words.next().ok_or(format!("{word} lacks its value"))?;
        let number = || {
            value
                .parse::<u64>()
                .map_err(|_| format!("{value} is no number"))
        };
        match word.as_str() {
            "--calls" => options.calls = number()?,
            "--pairs" => options.pairs = Some(number()?),
            "--seed" => options.seed = number()?,
            "--through" => options.through = Some(value),
            _ => return Err(format!("{word} is no option")),
        }
    }
    Ok(options)
}

/// Runs pairs of edits, and says what was done and found.
fn run_pairs(options: &Options, count: u64, start: Instant) -> ExitCode {
    let mut pairs = Pairs::default();
    let result = match &options.through {
        Some(program) => pairs_through(&mut pairs, options, program, count),
        None => {
            let (mut run, bound) = paths::in_process();
            let mut cases = Cases::new(options.seed, bound);
            pairs.run(&mut cases, count, MOST_SHOWN, &mut run);
            Ok(())
        }
    };
    if let Err(wrong) = result {
        eprintln!("{wrong}");
        return ExitCode::from(2);
    }
    println!("compared with {}, seed {}", other(options), options.seed);
    println!(
        "  pairs accepted in each order: {} without a new name, {} with one; {} over a line that is not well-formed, which may list otherwise",
        pairs.without_names, pairs.with_names, pairs.left_out
    );
    println!(
        "  of them {} of many lines, {} with a line taken out; {} leave other name tables, {} lines of other lengths",
        pairs.batches, pairs.deletions, pairs.other_tables, pairs.other_lengths
    );
    println!("  lines listed alike in both orders: {}", pairs.listings);
    println!(
        "{} pairs, {} of them accepted and compared, in {:.0} s, {} differences",
        pairs.tried,
        pairs.held(),
        start.elapsed().as_secs_f64(),
        pairs.differences
    );
    if pairs.differences == 0 {
        ExitCode::SUCCESS
    } else {
        ExitCode::FAILURE
    }
}

/// Runs pairs of edits through a program, call by call.
fn pairs_through(
    pairs: &mut Pairs,
    options: &Options,
    program: &str,
    count: u64,
) -> io::Result<()> {
    let (mut child, mut input, mut output) = paths::start(program)?;
    let mut ask = |call: &Call| {
        paths::send(&mut input, call).ok()?;
        io::Write::flush(&mut input).ok()?;
        paths::receive(&mut output, call).ok()?
    };
    let mut cases = Cases::new(options.seed, 1 << 63);
    pairs.run(&mut cases, count, MOST_SHOWN, &mut ask);
    drop(input);
    child.wait()?;
    Ok(())
}

/// What the reference is compared with.
fn other(options: &Options) -> &str {
    match &options.through {
        Some(program) => program,
        None if virgontey::LINKED => "the library",
        None => "the reference through text",
    }
}

/// A run, as far as it has come.
#[derive(Default)]
struct Run {
    checker: Checker,
    done: u64,
    differences: u64,
}

impl Run {
    /// Tests one answer; false when enough has gone wrong.
    fn take(&mut self, case: &Case, answer: Option<Answer>) -> bool {
        self.done += 1;
        let result = match &answer {
            Some(answer) => self.checker.check(case, answer),
            None => Err("there is no answer".into()),
        };
        if let Err(wrong) = result {
            self.differences += 1;
            println!("call {}: {wrong} ({:?})", self.done, case.promise);
            println!("  {}", shown(&write_call(&case.call)));
            println!("  reference: {}", shown(&write_answer(&case.expected)));
            if let Some(answer) = &answer {
                println!("  other:     {}", shown(&write_answer(answer)));
            }
        }
        self.differences < MOST_SHOWN
    }

    /// Runs all calls in this process.
    fn in_process(&mut self, options: &Options) {
        let (run, bound) = paths::in_process();
        let cases = Cases::new(options.seed, bound);
        // The library has no call that weighs a file.
        let cases = cases.filter(|case| !virgontey::LINKED || !is_weighing(&case.call));
        for case in cases.take(options.calls as usize) {
            let answer = run(&case.call);
            if !self.take(&case, answer) {
                return;
            }
        }
    }

    /// Runs all calls through a program.
    fn through_program(&mut self, options: &Options, program: &str) -> io::Result<()> {
        let (mut child, mut input, mut output) = paths::start(program)?;
        let (sender, receiver) = mpsc::channel();
        let cases = Cases::new(options.seed, 1 << 63).take(options.calls as usize);
        let writer = thread::spawn(move || -> io::Result<()> {
            for case in cases {
                paths::send(&mut input, &case.call)?;
                if sender.send(case).is_err() {
                    break;
                }
            }
            io::Write::flush(&mut input)
        });
        for case in receiver {
            let answer = paths::receive(&mut output, &case.call)?;
            if !self.take(&case, answer) {
                child.kill()?;
                break;
            }
        }
        let _ = writer.join();
        child.wait()?;
        Ok(())
    }

    /// Says what was done and found.
    fn report(&self, options: &Options, seconds: f64) {
        println!("compared with {}, seed {}", other(options), options.seed);
        for (number, count) in self.checker.counts.iter().enumerate() {
            println!("  answer {number:2}: {count}");
        }
        println!(
            "  listings entered again: {}, without a number: {}, listings met again: {}",
            self.checker.entered_again, self.checker.direct_again, self.checker.listed_again
        );
        println!(
            "  lines without a number taken: {}, listed: {}",
            self.checker.direct, self.checker.shown
        );
        println!(
            "  texts of many lines: {}, with {} lines taken and {} refused",
            self.checker.batches, self.checker.batch_taken, self.checker.batch_refused
        );
        println!(
            "  wrong lines kept: {}, error lines listed: {}",
            self.checker.kept, self.checker.errors_listed
        );
        println!(
            "  programs examined: {} good; unsound names {}, values {}, store {}; a bad line {}",
            self.checker.verdicts[0],
            self.checker.verdicts[1],
            self.checker.verdicts[2],
            self.checker.verdicts[3],
            self.checker.verdicts[4]
        );
        println!(
            "  files written: {}, read: {}, read again as written: {}",
            self.checker.saved, self.checker.loaded, self.checker.read_again
        );
        println!(
            "  collections: {}, that took {} names and {} bytes of lines; once more: {}; lines listed around them: {}",
            self.checker.collected,
            self.checker.names_taken,
            self.checker.bytes_taken,
            self.checker.collected_again,
            self.checker.listed_around
        );
        println!(
            "  files weighed: {}, with {} bytes of listings and {} of store",
            self.checker.weighed, self.checker.listing_bytes, self.checker.store_bytes
        );
        println!(
            "  records that disagree with the store: {}",
            self.checker.disagreeing
        );
        println!(
            "{} calls in {seconds:.0} s, {} differences",
            self.done, self.differences
        );
    }
}

/// Says whether a call weighs a file.
fn is_weighing(call: &Call) -> bool {
    matches!(call, Call::Weigh { .. })
}

/// A line of the protocol for people.
fn shown(line: &[u8]) -> String {
    String::from_utf8_lossy(line).into_owned()
}

#[cfg(test)]
mod tests {
    use super::*;

    /// A short run: no difference, and every answer is given.
    #[test]
    fn short_run() {
        let options = Options {
            calls: 10_000,
            pairs: None,
            seed: 7,
            through: None,
        };
        let mut run = Run::default();
        run.in_process(&options);
        assert_eq!((run.done, run.differences), (options.calls, 0));
        // 14 is the report's alone.
        let answers = if virgontey::LINKED { 14 } else { 15 };
        assert!(run.checker.counts[..answers].iter().all(|count| *count > 0));
        assert!(virgontey::LINKED || run.checker.weighed > 0);
        assert!(run.checker.entered_again > 0 && run.checker.listed_again > 0);
        assert!(run.checker.direct > 0 && run.checker.shown > 0 && run.checker.direct_again > 0);
        assert!(run.checker.batch_taken > 0 && run.checker.batch_refused > 0);
        assert!(run.checker.kept > 0 && run.checker.errors_listed > 0);
        assert!(run.checker.verdicts.iter().all(|count| *count > 0));
        assert!(run.checker.disagreeing > 0);
        assert!(run.checker.saved > 0 && run.checker.loaded > run.checker.read_again);
        assert!(run.checker.read_again > 0);
        assert!(run.checker.collected > run.checker.collected_again);
        assert!(run.checker.collected_again > 0 && run.checker.listed_around > 0);
        assert!(run.checker.names_taken > 0 && run.checker.bytes_taken > 0);
    }

    /// A short run of pairs: no difference, and pairs of every kind.
    #[test]
    fn short_run_of_pairs() {
        let (mut run, bound) = paths::in_process();
        let mut pairs = Pairs::default();
        pairs.run(&mut Cases::new(7, bound), 1_000, MOST_SHOWN, &mut run);
        assert_eq!((pairs.held(), pairs.differences), (1_000, 0));
        let counts = [
            pairs.without_names,
            pairs.with_names,
            pairs.left_out,
            pairs.batches,
            pairs.deletions,
            pairs.other_tables,
            pairs.other_lengths,
            pairs.listings,
        ];
        assert!(counts.iter().all(|count| *count > 0), "{counts:?}");
    }
}
