//! What every answer must hold to, whoever gives it: the reference is not asked here.

use std::collections::HashMap;

use protocol::{Answer, Call, Tables};
use reference::{BatchAnswer, Weight};

use crate::cases::{Case, Promise};
use crate::files::used_parts;
use crate::lines::error_text;
use crate::texts::has_number;
use crate::tokens::{check_collected, weight_of};

/// Keeps what the demands compare between calls.
#[derive(Default)]
pub struct Checker {
    table: u64,
    /// Listings over the present name table, each with its line.
    listings: HashMap<Vec<u8>, Vec<u8>>,
    /// How often each answer was given.
    pub counts: [u64; 15],
    /// Listings entered again, with a number and without, and pairs of equal listings seen.
    pub entered_again: u64,
    pub direct_again: u64,
    pub listed_again: u64,
    /// Lines without a number that were taken, and listed.
    pub direct: u64,
    pub shown: u64,
    /// Texts of many lines, and lines in them that were taken and refused.
    pub batches: u64,
    pub batch_taken: u64,
    pub batch_refused: u64,
    /// Wrong lines that were kept by single entry, and error lines that were listed.
    pub kept: u64,
    pub errors_listed: u64,
    /// How often each answer to a program was given.
    pub verdicts: [u64; 5],
    /// Files written, read, and read again as they were written.
    pub saved: u64,
    pub loaded: u64,
    pub read_again: u64,
    /// Collections that were not refused, and that changed nothing more; names that they took back, and bytes of the
    /// store.
    pub collected: u64,
    pub collected_again: u64,
    pub names_taken: u64,
    pub bytes_taken: u64,
    /// Lines listed before or after a collection.
    pub listed_around: u64,
    /// Files weighed, and their bytes of listings and of store.
    pub weighed: u64,
    pub listing_bytes: u64,
    pub store_bytes: u64,
    /// Records that disagree with a store of lines end to end.
    pub disagreeing: u64,
}

impl Checker {
    /// Tests an answer; says what is wrong with it.
    pub fn check(&mut self, case: &Case, answer: &Answer) -> Result<(), String> {
        if *answer != case.expected {
            return Err("the answers differ".into());
        }
        let counts: &mut [u64] = match answer {
            Answer::Examine { .. } => &mut self.verdicts,
            _ => &mut self.counts,
        };
        if let Some(count) = counts.get_mut(answer.number()) {
            *count += 1;
        }
        match (&case.call, answer) {
            (
                Call::Enter {
                    text,
                    tables,
                    line,
                    keep,
                },
                Answer::Enter {
                    number,
                    place,
                    end,
                    added,
                    used,
                    tables: after,
                    line: line_after,
                },
            ) => {
                self.check_record(tables, *number)?;
                require(*used == after.record.used, "used and the record differ")?;
                let placed = *number == 4 || *number == 5;
                require(placed || (*place, *end) == (0, 0), "a place without cause")?;
                require(place <= end, "an end before its place")?;
                require(*end <= text.len(), "an end past the text")?;
                require(
                    !placed || (place == end) == (*place == text.len()),
                    "an item without bytes",
                )?;
                let blank = text.iter().all(|byte| *byte == b' ');
                let direct = !has_number(text) && !blank;
                require(
                    !direct || !matches!(number, 3 | 9),
                    "a line without a number was refused as one with a number",
                )?;
                if *keep && *number == 4 && keepable(text, *place) {
                    self.kept += 1;
                    require(*added == 0, "a refusal added names")?;
                    check_kept(text, *place, tables, after)?;
                } else if *number != 0 {
                    require(tables == after, "a refusal changed something")?;
                    require(*added == 0, "a refusal added names")?;
                } else if direct {
                    self.direct += 1;
                    check_direct(tables, after, line, line_after)?;
                    check_names(tables, after, *added)?;
                } else {
                    check_edit(tables, after)?;
                    check_names(tables, after, *added)?;
                }
                require(
                    line == line_after || *number == 0 && direct,
                    "the line buffer changed without cause",
                )?;
                self.check_entered(case, answer)
            }
            (
                Call::List {
                    number: asked,
                    tables,
                    out,
                },
                Answer::List {
                    number,
                    written,
                    out: after,
                },
            ) => {
                self.check_record(tables, *number)?;
                let listing = check_output(case, *number, out, *written, after)?;
                if let Promise::ListsAs(expected) = &case.promise {
                    self.listed_around += 1;
                    require(
                        listing == Some(expected),
                        "a line lists otherwise after a collection",
                    )?;
                }
                let line = find(tables, *asked);
                self.check_error(line, *number, &format!("{asked} "), listing)?;
                let Some(listing) = listing else {
                    return Ok(());
                };
                let Some(bytes) = line else {
                    return Err("a line that is not there was listed".into());
                };
                self.check_listing(case.table, listing, bytes)
            }
            (
                Call::Show { line, out, .. },
                Answer::List {
                    number,
                    written,
                    out: after,
                },
            ) => {
                let listing = check_output(case, *number, out, *written, after)?;
                let line = direct_line(line);
                self.check_error(line, *number, "", listing)?;
                let Some(listing) = listing else {
                    return Ok(());
                };
                self.shown += 1;
                let Some(bytes) = line else {
                    return Err("a line buffer without a line was listed".into());
                };
                require(
                    !has_number(listing) && listing.first() != Some(&b' '),
                    "a number or a blank before the first statement",
                )?;
                self.check_listing(case.table, listing, bytes)
            }
            (Call::Examine { .. }, Answer::Examine { which, line }) => {
                let Promise::Listed(expected) = &case.promise else {
                    return Err("a program is examined without listings".into());
                };
                let listed = match expected {
                    None => matches!(which, 1..=3) && *line == 0,
                    Some(None) => (*which, *line) == (0, 0),
                    Some(Some(number)) => (*which, *line) == (4, *number),
                };
                require(listed, "listings say something else")
            }
            (
                Call::Save { tables, out },
                Answer::List {
                    number,
                    written,
                    out: after,
                },
            ) => {
                self.check_record(tables, *number)?;
                let written = check_output(case, *number, out, *written, after)?;
                self.saved += written.is_some() as u64;
                Ok(())
            }
            (
                Call::Load { tables, .. },
                Answer::Load {
                    number,
                    tables: after,
                },
            ) => {
                if *number != 0 {
                    require(tables == after, "a refused file changed something")?;
                    let same = matches!(case.promise, Promise::SameProgram(_));
                    return require(!same, "a written file was refused");
                }
                self.loaded += 1;
                self.read_again += check_loaded(&case.promise, tables, after)? as u64;
                Ok(())
            }
            (
                Call::Collect { tables },
                Answer::Load {
                    number,
                    tables: after,
                },
            ) => {
                self.check_record(tables, *number)?;
                let again = case.promise == Promise::NothingMore;
                if again {
                    require(*number == 0, "a second collection was refused")?;
                    require(tables == after, "a second collection changed something")?;
                    self.collected_again += 1;
                }
                if *number != 0 {
                    return require(tables == after, "a refused collection changed something");
                }
                self.collected += 1;
                let (old, new) = (&tables.record, &after.record);
                self.names_taken += (old.name_count - new.name_count) as u64;
                self.bytes_taken += (old.used - new.used) as u64;
                check_collected(tables, after)
            }
            (Call::Weigh { file }, Answer::Weigh { number, weight }) => {
                if *number != 0 {
                    require(*weight == Weight::default(), "a refused file has columns")?;
                    let long = file.len() > 65_535;
                    require((*number == 14) == long, "14 without cause")?;
                    let read = matches!(case.promise, Promise::Weighs(..));
                    return require(
                        read == (*number == 10) || long,
                        "a file that can be read was refused",
                    );
                }
                self.weighed += 1;
                self.listing_bytes += weight.listing as u64;
                self.store_bytes += weight.used as u64;
                let Promise::Weighs(program, listings) = &case.promise else {
                    return Err("a file that cannot be read was weighed".into());
                };
                require(
                    weight_of(program, *listings) == Some(*weight),
                    "another count of bytes",
                )
            }
            (
                Call::Batch { text, tables, keep },
                Answer::Batch {
                    answer: found,
                    tables: after,
                },
            ) => {
                self.batches += 1;
                self.batch_taken += found.taken as u64;
                self.batch_refused += found.refused as u64;
                if let Promise::OneByOne(expected) = &case.promise {
                    require(answer == &**expected, "single calls give something else")?;
                }
                if text.is_empty() {
                    require(
                        *found == BatchAnswer::default() && tables == after,
                        "no line did something",
                    )?;
                    return Ok(());
                }
                self.check_record(tables, found.number)?;
                check_batch(text, found)?;
                // Lines refused with 1 are never kept.
                if found.taken == 0 && (!keep || found.number == 1) {
                    return require(tables == after, "refused lines changed something");
                }
                let Some(lines) = lines(after) else {
                    return Err("the store does not hold lines end to end".into());
                };
                require(
                    pair(after) == walk(&lines),
                    "the record is not what a walk of the store finds",
                )?;
                let added = after.record.name_count - tables.record.name_count;
                check_names(tables, after, added)
            }
            _ => Err("an answer of the other kind".into()),
        }
    }

    /// The listing of an error line, if it has one: what stands before its statement, `ERROR-`, a blank and its text.
    /// It is never refused with 10.
    fn check_error(
        &mut self,
        line: Option<&[u8]>,
        number: usize,
        before: &str,
        listing: Option<&[u8]>,
    ) -> Result<(), String> {
        let Some(text) = line.and_then(error_text) else {
            return Ok(());
        };
        require(number != 10, "an error line was refused with 10")?;
        let Some(listing) = listing else {
            return Ok(());
        };
        self.errors_listed += 1;
        require(
            listing == [before.as_bytes(), b"ERROR- ", text].concat(),
            "an error line lists otherwise",
        )
    }

    /// A record that disagrees with the store is refused with 1.
    fn check_record(&mut self, tables: &Tables, number: usize) -> Result<(), String> {
        let lines = lines(tables);
        let agrees = lines
            .as_ref()
            .is_some_and(|lines| pair(tables) == walk(lines));
        self.disagreeing += (lines.is_some() && !agrees) as u64;
        require(agrees || number == 1, "a record that disagrees was taken")
    }

    /// A listing that was entered must have left everything as it was.
    fn check_entered(&mut self, case: &Case, answer: &Answer) -> Result<(), String> {
        let shown = match &case.promise {
            Promise::SameLine => None,
            Promise::SameDirect(shown) => Some(shown),
            _ => return Ok(()),
        };
        let (
            Call::Enter { tables, .. },
            Answer::Enter {
                number,
                added,
                tables: after,
                line,
                ..
            },
        ) = (&case.call, answer)
        else {
            return Err("an answer of the other kind".into());
        };
        require(
            *number == 0 && *added == 0,
            "a listing was not taken as it is",
        )?;
        require(tables == after, "a listing changed the program")?;
        match shown {
            None => self.entered_again += 1,
            Some(shown) => {
                self.direct_again += 1;
                require(line.starts_with(shown), "a listing gave other bytes")?;
            }
        }
        Ok(())
    }

    /// Equal listings over one table come from equal lines.
    fn check_listing(&mut self, table: u64, listing: &[u8], line: &[u8]) -> Result<(), String> {
        if table == 0 {
            return Ok(());
        }
        if table != self.table {
            self.table = table;
            self.listings.clear();
        }
        match self.listings.get(listing) {
            Some(known) => {
                self.listed_again += 1;
                require(known == line, "two lines have one listing")
            }
            None => {
                self.listings.insert(listing.to_vec(), line.to_vec());
                Ok(())
            }
        }
    }
}

/// Says what is wrong unless `holds`.
pub fn require(holds: bool, wrong: &str) -> Result<(), String> {
    if holds {
        Ok(())
    } else {
        Err(wrong.into())
    }
}

/// The bytes of a stored line.
fn find(tables: &Tables, number: usize) -> Option<&[u8]> {
    lines(tables)?
        .into_iter()
        .find(|line| number_of(line) == number)
}

/// A line's number.
fn number_of(line: &[u8]) -> usize {
    line[0] as usize + 256 * line[1] as usize
}

/// The record's count of lines and greatest number.
pub fn pair(tables: &Tables) -> (usize, usize) {
    (tables.record.lines, tables.record.greatest)
}

/// How many lines there are, and their greatest number, 0 if there are none.
fn walk(lines: &[&[u8]]) -> (usize, usize) {
    let greatest = lines.iter().map(|line| number_of(line)).max();
    (lines.len(), greatest.unwrap_or(0))
}

/// The lines of a store, if they lie end to end up to the used count.
pub fn lines(tables: &Tables) -> Option<Vec<&[u8]>> {
    let mut rest = tables.store.get(..tables.record.used)?;
    let mut lines = Vec::new();
    while !rest.is_empty() {
        let length = *rest.get(2)? as usize;
        if length < 6 || length > rest.len() {
            return None;
        }
        let (line, behind) = rest.split_at(length);
        lines.push(line);
        rest = behind;
    }
    Some(lines)
}

/// The line at the start of a line buffer, if one with the number of lines without a number lies there whole.
fn direct_line(buffer: &[u8]) -> Option<&[u8]> {
    let length = *buffer.get(2)? as usize;
    let line = buffer.get(..length)?;
    (length >= 6 && number_of(line) == 32768).then_some(line)
}

/// The answer to many lines, of which there are some: all are counted, and the first refusal has a place in its own
/// line.
fn check_batch(text: &[u8], answer: &BatchAnswer) -> Result<(), String> {
    let ends = text.split_inclusive(|byte| *byte == 0x9B);
    let lines: Vec<&[u8]> = ends
        .map(|line| line.strip_suffix(b"\x9B").unwrap_or(line))
        .collect();
    require(
        answer.taken + answer.refused == lines.len(),
        "a line was not counted",
    )?;
    let BatchAnswer {
        number,
        place,
        end,
        line,
        ..
    } = *answer;
    require(
        (number == 0) == (answer.refused == 0) && (number == 0) == (line == 0),
        "a refusal without cause",
    )?;
    if number != 4 && number != 5 {
        return require((place, end) == (0, 0), "a place without cause");
    }
    let length = lines.get(line - 1).map_or(0, |line| line.len());
    require(place <= end && end <= length, "a place outside its line")
}

/// What a listing wrote, None if it was refused; bytes past it are as they were.
fn check_output<'a>(
    case: &Case,
    number: usize,
    before: &[u8],
    written: usize,
    after: &'a [u8],
) -> Result<Option<&'a [u8]>, String> {
    require(before.len() == after.len(), "the output has another length")?;
    require(
        before[written..] == after[written..],
        "bytes past the listing changed",
    )?;
    if number == 0 {
        return Ok(Some(&after[..written]));
    }
    require(written == 0, "a refused listing wrote")?;
    require(
        case.promise != Promise::Lists,
        "an entered line does not list",
    )?;
    Ok(None)
}

/// An accepted line without a number: it stands in the line buffer, whose other bytes are as they were, and the
/// store and its counts are untouched.
fn check_direct(
    before: &Tables,
    after: &Tables,
    buffer: &[u8],
    buffer_after: &[u8],
) -> Result<(), String> {
    let Some(line) = direct_line(buffer_after) else {
        return Err("the line buffer does not begin with the line".into());
    };
    tail(buffer, buffer_after, line.len())?;
    require(before.store == after.store, "the store changed")?;
    let counts = |tables: &Tables| (tables.record.used, pair(tables));
    require(
        counts(before) == counts(after),
        "the counts of the store changed",
    )
}

/// Says whether a text that was refused with 4 at a place can be kept: it has a number and no 9B, and the place no 1B.
fn keepable(text: &[u8], place: usize) -> bool {
    has_number(text) && !text.contains(&0x9B) && text.get(place) != Some(&0x1B)
}

/// A wrong line that was kept: an edit of the store that puts in its number, then one statement 37 of the text after
/// the number's digits, the byte at the place with its top bit flipped; names and values are as they were.
fn check_kept(text: &[u8], place: usize, before: &Tables, after: &Tables) -> Result<(), String> {
    check_edit(before, after)?;
    check_names(before, after, 0)?;
    let mut marked = text.to_vec();
    if place == text.len() {
        marked.push(b' ');
    }
    marked[place] ^= 0x80;
    let blanks = text.iter().take_while(|byte| **byte == b' ').count();
    let digits = text[blanks..].iter().take_while(|b| b.is_ascii_digit());
    let (number, rest) = marked.split_at(blanks + digits.count());
    let number = number[blanks..]
        .iter()
        .fold(0, |number, digit| 10 * number + (digit - b'0') as usize);
    let length = (rest.len() + 6) as u8;
    let head = [number as u8, (number >> 8) as u8, length, length, 0x37];
    let line = [&head, rest, &[0x9B]].concat();
    require(
        find(after, number) == Some(&line),
        "a wrong line was not kept as it is",
    )
}

/// An accepted edit: order, other lines, the record, and all bytes of the store behind its new end.
fn check_edit(before: &Tables, after: &Tables) -> Result<(), String> {
    let (Some(old), Some(new)) = (lines(before), lines(after)) else {
        return Err("the store does not hold lines end to end".into());
    };
    let rising = new
        .windows(2)
        .all(|pair| number_of(pair[0]) < number_of(pair[1]));
    require(rising, "line numbers do not rise")?;
    require(
        pair(after) == walk(&new),
        "the record is not what a walk of the store finds",
    )?;

    // All but at most one line are the same, in the same order.
    let front = old.iter().zip(&new).take_while(|(a, b)| a == b).count();
    let old_rest = &old[front..];
    let new_rest = &new[front..];
    let same = old_rest == new_rest
        || (!old_rest.is_empty() && old_rest[1..] == *new_rest)
        || (!new_rest.is_empty() && *old_rest == new_rest[1..])
        || (!old_rest.is_empty() && !new_rest.is_empty() && old_rest[1..] == new_rest[1..]);
    require(same, "another line changed")?;
    tail(&before.store, &after.store, after.record.used)
}

/// An accepted text: so many names more, the old ones and their values as they were, and all bytes behind the
/// new ends.
fn check_names(before: &Tables, after: &Tables, added: usize) -> Result<(), String> {
    let counts = (before.record, after.record);
    require(
        counts.1.name_count == counts.0.name_count + added,
        "the count of names is wrong",
    )?;
    let kept = counts.0.name_bytes;
    require(counts.1.name_bytes >= kept, "names were lost")?;
    require(
        before.names[..kept] == after.names[..kept],
        "an old name changed",
    )?;
    let old_values = 8 * counts.0.name_count;
    require(
        before.values[..old_values] == after.values[..old_values],
        "an old value changed",
    )?;
    tail(&before.names, &after.names, counts.1.name_bytes)?;
    tail(&before.values, &after.values, 8 * counts.1.name_count)
}

/// Bytes behind a new end are as they were.
pub fn tail(before: &[u8], after: &[u8], end: usize) -> Result<(), String> {
    require(before.len() == after.len(), "a buffer has another length")?;
    require(
        before[end..] == after[end..],
        "bytes behind a new end changed",
    )
}

/// What a file that was read leaves: lines end to end with rising numbers, a record that is theirs, and every byte past the new
/// ends as it was. Says whether the program is held to the one that was written, which it must then be.
fn check_loaded(promise: &Promise, before: &Tables, after: &Tables) -> Result<bool, String> {
    let Some(new) = lines(after) else {
        return Err("the store does not hold lines end to end".into());
    };
    require(
        pair(after) == walk(&new),
        "the record is not what a walk of the store finds",
    )?;
    let record = &after.record;
    tail(&before.names, &after.names, record.name_bytes)?;
    tail(&before.values, &after.values, 8 * record.name_count)?;
    tail(&before.store, &after.store, record.used)?;
    let Promise::SameProgram(written) = promise else {
        return Ok(false);
    };
    require(*record == written.record, "another record was read")?;
    require(
        used_parts(after) == used_parts(written),
        "another program was read",
    )?;
    Ok(true)
}
