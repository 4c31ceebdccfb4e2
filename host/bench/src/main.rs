//! Times entry and listing: nanoseconds for each line, the library beside the reference.
//!
//!   bench [--rounds N] [--only PART]
//!
//! Each figure is the median of the rounds; the two sides take turns. With a part of a title only the tasks whose titles
//! have it are timed. Without the feature `library` only the reference is timed.

mod program;
mod sides;

use std::env;
use std::hint::black_box;
use std::time::Instant;

use program::{program, text, Program, STEP};
use sides::{Reference, Side};

/// What is timed.
#[derive(Clone, Copy)]
enum Task {
    EnterAlone,
    Enter(usize),
    Replace(usize),
    ReplaceEqual(usize),
    ReplaceLonger(usize),
    KeepWrong(usize),
    Delete(usize),
    List(usize),
    EnterOneByOne(usize),
    EnterWhole(usize),
    Examine(usize),
    Collect(usize),
}

const TASKS: [Task; 21] = [
    Task::EnterAlone,
    Task::Enter(200),
    Task::Enter(2000),
    Task::Replace(200),
    Task::Replace(2000),
    Task::ReplaceEqual(2000),
    Task::ReplaceLonger(2000),
    Task::KeepWrong(200),
    Task::KeepWrong(2000),
    Task::Delete(200),
    Task::Delete(2000),
    Task::List(200),
    Task::List(2000),
    Task::EnterOneByOne(200),
    Task::EnterWhole(200),
    Task::EnterOneByOne(2000),
    Task::EnterWhole(2000),
    Task::Examine(200),
    Task::Examine(2000),
    Task::Collect(200),
    Task::Collect(2000),
];
const NAME_COUNTS: [usize; 5] = [0, 18, 128, 200, 256];

impl Task {
    /// How many lines the store has at first.
    fn lines(self) -> usize {
        match self {
            Task::EnterAlone | Task::EnterOneByOne(_) | Task::EnterWhole(_) => 0,
            Task::Enter(lines)
            | Task::Replace(lines)
            | Task::ReplaceEqual(lines)
            | Task::ReplaceLonger(lines)
            | Task::KeepWrong(lines)
            | Task::Delete(lines)
            | Task::List(lines)
            | Task::Examine(lines)
            | Task::Collect(lines) => lines,
        }
    }

    fn title(self) -> String {
        match self {
            Task::EnterAlone => "enter alone".into(),
            Task::Enter(lines) => format!("enter into {lines}"),
            Task::Replace(lines) => format!("replace in {lines}"),
            Task::ReplaceEqual(lines) => format!("replace by an equal length in {lines}"),
            Task::ReplaceLonger(lines) => format!("replace by a longer line in {lines}"),
            Task::KeepWrong(lines) => format!("keep a wrong line in {lines}"),
            Task::Delete(lines) => format!("delete from {lines}"),
            Task::List(lines) => format!("list of {lines}"),
            Task::EnterOneByOne(lines) => format!("{lines} lines one by one"),
            Task::EnterWhole(lines) => format!("{lines} lines at once"),
            Task::Examine(lines) => format!("{lines} lines examined"),
            Task::Collect(lines) => format!("unused names of {lines} lines"),
        }
    }

    /// The counts of names that it is timed with.
    fn name_counts(self) -> &'static [usize] {
        match self {
            // The program uses 18: all, or few of many.
            Task::Collect(_) => &[18, 128, 256],
            _ => &NAME_COUNTS,
        }
    }

    /// How many lines a round enters, lists, examines or renumbers.
    fn calls(self) -> usize {
        match self {
            Task::EnterOneByOne(lines)
            | Task::EnterWhole(lines)
            | Task::Examine(lines)
            | Task::Collect(lines) => lines,
            _ => CALLS,
        }
    }

    /// Whether wrong lines are kept.
    fn keep(self) -> bool {
        matches!(self, Task::KeepWrong(_))
    }

    /// The number that each call answers.
    fn number(self) -> usize {
        if self.keep() {
            4
        } else {
            0
        }
    }
}

/// What a round needs: a program, and the texts or numbers of its calls.
struct Job {
    task: Task,
    program: Program,
    texts: Vec<Vec<u8>>,
    numbers: Vec<usize>,
}

/// Calls of one round, unless it enters a program of its own.
const CALLS: usize = 24;

/// Sets up a task: its calls are spread over the whole program, or make it, in rising order.
fn job(task: Task, names: usize) -> Job {
    let lines = task.lines();
    let place = |call: usize| call * lines.max(1) / CALLS;
    let mut texts = Vec::new();
    let mut numbers = Vec::new();
    for call in 0..task.calls() {
        let number = place(call) * STEP + STEP;
        numbers.push(number);
        texts.push(match task {
            Task::EnterAlone => text(names, number, call * 3),
            // Between two lines, each time a new number.
            Task::Enter(_) => text(names, number + 1 + call % 8, call * 3),
            // Another statement than the one that stands there.
            Task::Replace(_) => text(names, number, call * 3 + 6),
            // The line that stands there, as it is or with a statement more.
            Task::ReplaceEqual(_) => text(names, number, place(call)),
            Task::ReplaceLonger(_) => [text(names, number, place(call)), b":END".to_vec()].concat(),
            // Between two lines: one of the nine statements that do not run to the text's end, and GOTO without
            // its number.
            Task::KeepWrong(_) => {
                let right = text(names, number + 1 + call % 8, call % 9 * 3);
                [right, b":GOTO".to_vec()].concat()
            }
            Task::Delete(_) => number.to_string().into_bytes(),
            Task::List(_) | Task::Examine(_) | Task::Collect(_) => Vec::new(),
            Task::EnterOneByOne(_) | Task::EnterWhole(_) => text(names, call * STEP + STEP, call),
        });
    }
    if let Task::EnterWhole(_) = task {
        texts = vec![texts.join(&0x9B)];
    }
    if let Task::Examine(_) | Task::Collect(_) = task {
        texts.truncate(1);
    }
    Job {
        task,
        program: program(names, lines),
        texts,
        numbers,
    }
}

/// Runs a round and gives the nanoseconds for each line.
fn round<S: Side>(job: &Job) -> f64 {
    let mut work = job.program.clone();
    let mut out = [0; 1024];
    let start = Instant::now();
    for call in 0..job.texts.len() {
        let number = match job.task {
            Task::List(_) => {
                let (number, written) = S::list(
                    black_box(job.numbers[call]),
                    &work.names,
                    &work.values,
                    &work.store,
                    &work.record,
                    &mut out,
                );
                black_box(&out[..written]);
                number
            }
            Task::Examine(_) => S::examine(
                black_box(&work.names),
                &work.values,
                &work.store,
                &work.record,
            ),
            Task::Collect(_) => S::collect(
                black_box(&mut work.names),
                &mut work.values,
                &mut work.store,
                &mut work.record,
            ),
            Task::EnterWhole(_) => S::batch(
                black_box(&job.texts[call]),
                &mut work.names,
                &mut work.values,
                &mut work.store,
                &mut work.record,
            ),
            _ => {
                if let Task::EnterAlone = job.task {
                    work.empty_store();
                }
                S::enter(
                    black_box(&job.texts[call]),
                    &mut work.names,
                    &mut work.values,
                    &mut work.store,
                    job.task.keep(),
                    &mut work.record,
                )
            }
        };
        assert_eq!(number, job.task.number());
    }
    let time = start.elapsed();
    black_box(&work.store);
    time.as_nanos() as f64 / job.task.calls() as f64
}

/// The bytes of the store that each edit of a round moves, on average, by the number that the contract of the library's
/// gap gives: nothing where a line is replaced by one of its own length, else all that stands after the line, once.
fn moved(job: &Job) -> f64 {
    let mut work = job.program.clone();
    let mut sum = 0;
    for call in 0..CALLS {
        if let Task::EnterAlone = job.task {
            work.empty_store();
        }
        let used = work.record.used;
        let number = line_number(&job.texts[call]);
        let (at, old) = place_of(&work.store[..used], number);
        let answer = reference::enter(
            &job.texts[call],
            &mut work.names,
            &mut work.values,
            &mut work.store,
            &mut [],
            job.task.keep(),
            &mut work.record,
        );
        assert_eq!(answer.number, job.task.number());
        if work.record.used != used {
            sum += used - (at + old);
        }
    }
    sum as f64 / CALLS as f64
}

/// The number that a text begins with.
fn line_number(text: &[u8]) -> usize {
    let digits = text.iter().take_while(|b| b.is_ascii_digit());
    digits.fold(0, |number, b| number * 10 + usize::from(b - b'0'))
}

/// Where the line with a number begins, or would begin, and its length, 0 if it is not there.
fn place_of(lines: &[u8], number: usize) -> (usize, usize) {
    let mut at = 0;
    while at < lines.len() {
        let own = usize::from(lines[at]) + 256 * usize::from(lines[at + 1]);
        let size = usize::from(lines[at + 2]);
        if number <= own {
            return (at, if number == own { size } else { 0 });
        }
        at += size;
    }
    (at, 0)
}

/// The median.
fn median(mut times: Vec<f64>) -> f64 {
    times.sort_by(f64::total_cmp);
    times[times.len() / 2]
}

fn main() {
    let mut words = env::args().skip(1);
    let mut rounds = 500_usize;
    let mut only = String::new();
    while let (Some(option), Some(value)) = (words.next(), words.next()) {
        match option.as_str() {
            "--rounds" => rounds = value.parse().expect("a number of rounds"),
            "--only" => only = value,
            _ => panic!("bench [--rounds N] [--only PART]"),
        }
    }
    println!("ns for each line, median of {rounds} rounds of {CALLS} calls; of a tenth as many where a program is entered, examined or renumbered");
    println!("| task | names | reference | library | ratio | bytes moved |");
    println!("|---|---|---|---|---|---|");
    for task in TASKS.into_iter().filter(|task| task.title().contains(&only)) {
        for &names in task.name_counts() {
            let job = job(task, names);
            let mut reference = Vec::new();
            let mut library: Vec<f64> = Vec::new();
            let whole = task.calls() != CALLS;
            for _ in 0..if whole { rounds.div_ceil(10) } else { rounds } {
                reference.push(round::<Reference>(&job));
                #[cfg(feature = "library")]
                library.push(round::<sides::Library>(&job));
            }
            let reference = median(reference);
            let (shown, ratio) = if library.is_empty() {
                ("-".into(), "-".into())
            } else {
                let library = median(std::mem::take(&mut library));
                (
                    format!("{library:.0}"),
                    format!("{:.2}", library / reference),
                )
            };
            let title = task.title();
            let moved = match task {
                Task::List(_)
                | Task::EnterOneByOne(_)
                | Task::EnterWhole(_)
                | Task::Examine(_)
                | Task::Collect(_) => "-".into(),
                _ => format!("{:.0}", moved(&job)),
            };
            println!("| {title} | {names} | {reference:.0} | {shown} | {ratio} | {moved} |");
        }
    }
}
