//! Two edits of one program, made in either order (document 02, §14).

use std::collections::BTreeSet;

use protocol::{run_reference, write_answer, write_call, Answer, Call, Tables};

use crate::cases::{lines_of, Cases};
use crate::files::used_parts;

/// Two edits over one program, whose line numbers differ.
pub struct Pair {
    pub tables: Tables,
    pub edits: [Edit; 2],
}

/// A text to enter, with or without wrong lines kept.
#[derive(Clone)]
pub struct Edit {
    /// One line, or many parted by 9B.
    pub text: Vec<u8>,
    pub keep: bool,
    pub many: bool,
}

impl Edit {
    /// Says whether it is one line's number alone.
    fn deletes(&self) -> bool {
        self.text.iter().all(u8::is_ascii_digit)
    }

    /// The edit as a call over these tables.
    fn call(&self, tables: Tables) -> Call {
        let Edit { text, keep, many } = self.clone();
        if many {
            return Call::Batch { text, tables, keep };
        }
        Call::Enter {
            text,
            tables,
            line: Vec::new(),
            keep,
        }
    }
}

/// What a run of pairs met.
#[derive(Default)]
pub struct Pairs {
    /// Pairs made, of which many were refused in an order.
    pub tried: u64,
    /// Pairs that were accepted in each order: without a new name; with one; with one and a line before that is neither
    /// well-formed nor an error line, of which nothing is said.
    pub without_names: u64,
    pub with_names: u64,
    pub left_out: u64,
    /// How many of all accepted are pairs of many lines; how many have a line taken out alone; how many of those with
    /// names leave another name table, or lines of other lengths.
    pub batches: u64,
    pub deletions: u64,
    pub other_tables: u64,
    pub other_lengths: u64,
    /// Lines whose listings were the same in both orders.
    pub listings: u64,
    pub differences: u64,
}

/// What an order leaves, if both edits are accepted.
struct Left {
    tables: Tables,
    added: bool,
}

/// An implementation: gives the answer to a call.
pub type Other<'a> = dyn FnMut(&Call) -> Option<Answer> + 'a;

impl Pairs {
    /// Pairs that were accepted in each order and held to what is promised of them.
    pub fn held(&self) -> u64 {
        self.without_names + self.with_names
    }

    /// Runs pairs until so many were accepted in each order and held to what is promised, or `most` differed.
    pub fn run(&mut self, cases: &mut Cases, count: u64, most: u64, other: &mut Other) {
        while self.held() < count && self.differences < most {
            let pair = cases.pair();
            self.tried += 1;
            if let Err(wrong) = self.take(&pair, other) {
                self.differences += 1;
                println!("pair {}: {wrong}", self.tried);
                for edit in &pair.edits {
                    println!("  {}", shown(&write_call(&edit.call(pair.tables.clone()))));
                }
            }
        }
    }

    /// Makes the edits of a pair in each order, and compares what they leave.
    fn take(&mut self, pair: &Pair, other: &mut Other) -> Result<(), String> {
        let [first, second] = &pair.edits;
        let one = in_order(&pair.tables, [first, second], other)?;
        let two = in_order(&pair.tables, [second, first], other)?;
        let (Some(one), Some(two)) = (one, two) else {
            return Ok(());
        };
        let (before, (left, right)) = (&pair.tables, (&one.tables, &two.tables));
        self.batches += first.many as u64;
        self.deletions += pair.edits.iter().any(Edit::deletes) as u64;
        if !one.added && !two.added {
            self.without_names += 1;
            return same_program(left, right);
        }
        self.other_tables += (left.names != right.names) as u64;
        self.other_lengths += (left.record.used != right.record.used) as u64;
        if !listable(before) {
            self.left_out += 1;
            return Ok(());
        }
        self.with_names += 1;
        self.same_listings(left, right, other)
    }

    /// Every line lists the same over both.
    fn same_listings(
        &mut self,
        left: &Tables,
        right: &Tables,
        other: &mut Other,
    ) -> Result<(), String> {
        let numbers = |tables: &Tables| lines_of(tables).into_keys().collect::<BTreeSet<_>>();
        if numbers(left) != numbers(right) {
            return Err("the two orders leave lines with other numbers".into());
        }
        for number in numbers(left) {
            let mut listings = Vec::new();
            for tables in [left, right] {
                let call = Call::List {
                    number,
                    tables: tables.clone(),
                    out: vec![0; 2000],
                };
                listings.push(answered(&call, other)?);
            }
            if listings[0] != listings[1] || !matches!(listings[0].number(), 0 | 11) {
                return Err(format!("line {number} lists otherwise in the other order"));
            }
            self.listings += 1;
        }
        Ok(())
    }
}

/// What both edits leave in this order, None if one is refused.
fn in_order(tables: &Tables, edits: [&Edit; 2], other: &mut Other) -> Result<Option<Left>, String> {
    let mut left = Left {
        tables: tables.clone(),
        added: false,
    };
    for edit in edits {
        let before = left.tables.record.name_count;
        let (refused, after) = match answered(&edit.call(left.tables), other)? {
            Answer::Enter { number, tables, .. } => (number != 0, tables),
            Answer::Batch { answer, tables } => (answer.refused != 0, tables),
            _ => return Err("an answer of the other kind".into()),
        };
        if refused {
            return Ok(None);
        }
        left.added |= after.record.name_count != before;
        left.tables = after;
    }
    Ok(Some(left))
}

/// The other's answer to a call, which is the reference's too.
fn answered(call: &Call, other: &mut Other) -> Result<Answer, String> {
    let expected = run_reference(call.clone());
    match other(call) {
        Some(answer) if answer == expected => Ok(answer),
        Some(answer) => Err(format!(
            "the answers differ\n  {}\n  reference: {}\n  other:     {}",
            shown(&write_call(call)),
            shown(&write_answer(&expected)),
            shown(&write_answer(&answer))
        )),
        None => Err("there is no answer".into()),
    }
}

/// The two orders leave the same used bytes of the store, the same names, values and record.
fn same_program(left: &Tables, right: &Tables) -> Result<(), String> {
    let whole = |tables: &Tables| {
        let (names, values) = (tables.names.clone(), tables.values.clone());
        (names, values, tables.record)
    };
    if whole(left) != whole(right) || used_parts(left) != used_parts(right) {
        return Err("the two orders leave other programs".into());
    }
    Ok(())
}

/// Says whether every line is well-formed or an error line: whether its listing, for which there is no room, is refused
/// with 11.
fn listable(tables: &Tables) -> bool {
    lines_of(tables).into_keys().all(|number| {
        let call = Call::List {
            number,
            tables: tables.clone(),
            out: Vec::new(),
        };
        run_reference(call).number() == 11
    })
}

/// A line of the protocol for people.
fn shown(line: &[u8]) -> String {
    String::from_utf8_lossy(line).into_owned()
}
