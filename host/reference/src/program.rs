//! Edits of a program whose tables, store and record were found sound.

use crate::errors::error_line;
use crate::items::skip_blanks;
use crate::tables::{find_line, store_room, Place, Starts, Variable};
use crate::tables::{DIRECT_LINE, MOST_NAMES, VALUE_SIZE};
use crate::translate::{read_head, translate, Head, NewNames, Refusal, Translation};
use crate::translate::{LONGEST_LINE, LONGEST_TEXT};
use crate::Record;

/// A refusal, its place and that place's end.
pub type Refused = (usize, usize, usize);

/// A sound program. It stays sound from edit to edit, so that nothing is tested again.
pub struct Program<'a> {
    names: &'a mut [u8],
    values: &'a mut [u8],
    store: &'a mut [u8],
    /// Whether wrong lines are kept.
    keep: bool,
    record: &'a mut Record,
    starts: Starts,
    /// Where the last edit was, and the number of the line before that place, 0 if there is none.
    last_at: usize,
    last_before: usize,
}

impl<'a> Program<'a> {
    /// A program whose names start so.
    #[inline(always)]
    pub fn new(
        names: &'a mut [u8],
        values: &'a mut [u8],
        store: &'a mut [u8],
        keep: bool,
        record: &'a mut Record,
        starts: Starts,
    ) -> Program<'a> {
        Program {
            names,
            values,
            store,
            keep,
            record,
            starts,
            last_at: 0,
            last_before: 0,
        }
    }

    /// Enters a text; gives the count of names added, or the refusal. A text without a number goes to the
    /// line buffer; where there is none it is refused with 3.
    pub fn enter(&mut self, text: &[u8], buffer: Option<&mut [u8]>) -> Result<usize, Refused> {
        if text.len() > LONGEST_TEXT {
            return Err((2, 0, 0));
        }
        match (read_head(text), buffer) {
            (Head::Numbered { number, end }, _) => {
                let place = self.find(number);
                if skip_blanks(text, end) == text.len() {
                    return self.take_line(&place);
                }
                self.put(text, end, number, Goal::Store(place))
            }
            (Head::Unnumbered, Some(buffer)) => {
                self.put(text, 0, DIRECT_LINE, Goal::Buffer(buffer))
            }
            (Head::Unnumbered, None) | (Head::Refused, _) => Err((3, 0, 0)),
        }
    }

    /// Finds the place of a line: at the end if its number is above all, else from the last edit on if it
    /// is not before that.
    fn find(&self, number: usize) -> Place {
        let used = self.record.used;
        if number > self.record.greatest {
            return Place {
                at: used,
                length: 0,
                before: self.record.greatest,
            };
        }
        let (from, before) = if number > self.last_before {
            (self.last_at, self.last_before)
        } else {
            (0, 0)
        };
        find_line(self.store, used, number, from, before)
    }

    /// Puts the line of a text's statements, from `from` on, where it belongs, and adds its new names. A wrong
    /// one is kept if it can be.
    #[inline(always)]
    fn put(
        &mut self,
        text: &[u8],
        from: usize,
        number: usize,
        goal: Goal,
    ) -> Result<usize, Refused> {
        let names = self.starts.over(self.names);
        let Translation { line, new_names } = match translate(text, from, number, &names) {
            Ok(translation) => translation,
            Err(refusal) => {
                if let Goal::Store(place) = goal {
                    self.keep_wrong(text, from, number, &place, &refusal)?;
                }
                return Err((refusal.number as usize, refusal.place, refusal.end));
            }
        };
        if self.lacks_name_room(text, &new_names) {
            return Err((6, 0, 0));
        }
        if line.length() > LONGEST_LINE {
            return Err((7, 0, 0));
        }
        match goal {
            Goal::Store(place) => self.put_line(&place, number, line.bytes())?,
            Goal::Buffer(buffer) => {
                let front = buffer.get_mut(..line.length()).ok_or((8, 0, 0))?;
                front.copy_from_slice(line.bytes());
            }
        }
        self.add_names(text, &new_names);
        Ok(new_names.count())
    }

    /// Puts a numbered text that was refused into the store as an error line, if wrong lines are kept, it was
    /// refused with 4 and it can be kept. Gives refusal 8 where it does not fit.
    fn keep_wrong(
        &mut self,
        text: &[u8],
        from: usize,
        number: usize,
        place: &Place,
        refusal: &Refusal,
    ) -> Result<(), Refused> {
        if !self.keep || refusal.number != 4 {
            return Ok(());
        }
        match error_line(text, from, number, refusal.place) {
            Some(line) => self.put_line(place, number, line.bytes()),
            None => Ok(()),
        }
    }

    /// Says whether new names would pass 256 or lack name or value room.
    fn lacks_name_room(&self, text: &[u8], new_names: &NewNames) -> bool {
        let lengths = (0..new_names.count()).map(|number| new_names.name(text, number).len());
        let count = self.record.name_count + new_names.count();
        new_names.count() > 0
            && (count > MOST_NAMES
                || self.record.name_bytes + lengths.sum::<usize>() > self.names.len()
                || count * VALUE_SIZE > self.values.len())
    }

    /// Puts a line in at its place, over the line that stands there. It is counted if none does, and its
    /// number is the greatest if no line follows.
    fn put_line(&mut self, place: &Place, number: usize, line: &[u8]) -> Result<(), Refused> {
        if self.record.used - place.length + line.len() > store_room(self.store) {
            return Err((8, 0, 0));
        }
        self.change_bytes(place, line);
        self.record.lines += (place.length == 0) as usize;
        if place.at + line.len() == self.record.used {
            self.record.greatest = number;
        }
        Ok(())
    }

    /// Takes the line at a place out. If no line follows it, the one before has the greatest number.
    fn take_line(&mut self, place: &Place) -> Result<usize, Refused> {
        if place.length == 0 {
            return Err((9, 0, 0));
        }
        self.change_bytes(place, &[]);
        self.record.lines -= 1;
        if place.at == self.record.used {
            self.record.greatest = place.before;
        }
        Ok(0)
    }

    /// Puts bytes over the line at a place, moving the lines behind once.
    fn change_bytes(&mut self, place: &Place, line: &[u8]) {
        let (at, old, used) = (place.at, place.length, self.record.used);
        self.store.copy_within(at + old..used, at + line.len());
        self.store[at..at + line.len()].copy_from_slice(line);
        self.record.used = used - old + line.len();
        (self.last_at, self.last_before) = (at, place.before);
    }

    /// Adds new names at the end of the tables.
    fn add_names(&mut self, text: &[u8], new_names: &NewNames) {
        let record = &mut *self.record;
        for number in 0..new_names.count() {
            let name = new_names.name(text, number);
            let end = record.name_bytes + name.len();
            self.names[record.name_bytes..end].copy_from_slice(name);
            self.names[end - 1] |= 0x80;
            self.starts.add(name.len());

            let variable = match name[name.len() - 1] {
                b'$' => Variable::String,
                b'(' => Variable::Array,
                _ => Variable::Number,
            };
            let entry = &mut self.values[record.name_count * VALUE_SIZE..][..VALUE_SIZE];
            entry.fill(0);
            entry[0] = variable.type_byte();
            entry[1] = record.name_count as u8;

            record.name_bytes = end;
            record.name_count += 1;
        }
    }
}

/// Where the line of a text goes: into the store at its place, or to the front of a line buffer.
enum Goal<'a> {
    Store(Place),
    Buffer(&'a mut [u8]),
}
