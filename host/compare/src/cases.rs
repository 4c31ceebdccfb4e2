//! Cases: calls over made-up tables and stores, with what the reference answers.

use std::collections::{BTreeMap, VecDeque};

use protocol::{run_reference, Answer, Call, Names, Tables};
use reference::{BatchAnswer, Record};

use crate::files::{damage, file_of};
use crate::lines::{any_line, change, error_line, error_text, spoil_buffer};
use crate::pairs::{Edit, Pair};
use crate::programs::program_over;
use crate::random::Random;
use crate::texts::{any_text, bulky_text, delete_text, lawful_text, new_name, spoil};
use crate::texts::{has_number, take_number_off};

/// One call, what the reference answers, and what the demands say of it besides.
pub struct Case {
    pub call: Call,
    pub expected: Answer,
    /// Cases with one number here are over one name table.
    pub table: u64,
    pub promise: Promise,
}

/// What a call must do beyond agreeing with the reference.
#[derive(Clone, PartialEq, Eq, Debug)]
pub enum Promise {
    /// Nothing special.
    None,
    /// The text is a stored line's listing: the same bytes must be stored and no name added.
    SameLine,
    /// The text is the listing of this line without a number: the line buffer must begin with it, and no
    /// name be added.
    SameDirect(Vec<u8>),
    /// Many lines at once: this is what single calls in the same order add up to.
    OneByOne(Box<Answer>),
    /// A program examined over sound tables: the first error line or line that listing refuses with 10, if any. Over
    /// others: listing is refused with 1.
    Listed(Option<Option<usize>>),
    /// The line was just entered, or kept: it must list.
    Lists,
    /// The file was just written, and the buffers have room for its program: these tables must be there again.
    SameProgram(Box<Tables>),
    /// Unused names were just taken back: nothing more must change.
    NothingMore,
    /// The line was listed so before unused names were taken back.
    ListsAs(Vec<u8>),
    /// A file of this program, read and listed line by line, has so many bytes of listings with one end byte a line.
    Weighs(Box<Tables>, usize),
}

/// Makes cases without end, the same ones for the same seed.
pub struct Cases {
    random: Random,
    /// Counts of tables and stores are below this.
    count_bound: u64,
    world: World,
    left_in_world: usize,
    waiting: VecDeque<Case>,
    table: u64,
}

/// Tables and a store, with their lines taken apart.
#[derive(Default)]
struct World {
    tables: Tables,
    names: Vec<Vec<u8>>,
    lines: BTreeMap<usize, Vec<u8>>,
    /// The line buffer that the last call left.
    buffer: Vec<u8>,
}

/// The number of a line that was entered without one, as its first two bytes.
const DIRECT_HEAD: [u8; 2] = [0x00, 0x80];

impl Iterator for Cases {
    type Item = Case;

    fn next(&mut self) -> Option<Case> {
        if let Some(case) = self.waiting.pop_front() {
            return Some(case);
        }
        if self.left_in_world == 0 {
            self.enter_world();
        }
        self.left_in_world -= 1;
        Some(match self.random.below(100) {
            0..=42 => self.enter_case(),
            43..=44 => self.weigh_case(),
            45..=47 => self.collect_case(),
            48..=51 => self.file_case(),
            52..=66 => self.list_case(),
            67..=77 => self.foreign_case(),
            78..=85 => self.show_case(),
            86..=88 => self.batch_case(),
            89..=91 => self.examine_case(),
            _ => self.unsound_case(),
        })
    }
}

impl Cases {
    /// Cases from a seed, with counts below this bound.
    pub fn new(seed: u64, count_bound: u64) -> Cases {
        Cases {
            random: Random::new(seed),
            count_bound,
            world: World::default(),
            left_in_world: 0,
            waiting: VecDeque::new(),
            table: 0,
        }
    }

    /// Goes to another world.
    fn enter_world(&mut self) {
        self.world = new_world(&mut self.random);
        // Calls over large stores take long.
        let large = self.world.tables.store.len() > 20_000;
        let most = if large { 12 } else { 60 };
        self.left_in_world = self.random.between(8, most);
        self.table += 1;
    }

    /// Gives the world so many names that new ones come to the last short token, or to the last of all.
    fn fill_names(&mut self) {
        let count = self
            .random
            .pick(&[125, 126, 127, 127, 127, 128, 254, 255, 256]);
        let names = new_names(&mut self.random, count);
        let mut tables = Tables::default();
        self.use_names(&mut tables, &names, 20);
        tables.names.extend(self.random.bytes(300));
        tables.values.extend(self.random.bytes(200));
        tables.store.extend(self.random.bytes(600));
        agree(&mut tables);
        self.world.adopt(tables);
    }

    /// Two edits of the world's program whose line numbers differ: each one line or, one pair in eight, many.
    pub fn pair(&mut self) -> Pair {
        if self.left_in_world == 0 {
            self.enter_world();
            if self.random.chance(25) {
                self.fill_names();
            }
        }
        self.left_in_world -= 1;
        let many = self.random.chance(12);
        let first = self.edit(many, |number| number & !1);
        let mut second = self.edit(many, |number| number | 1);
        if !many && self.random.chance(10) {
            // The same statements, and so the same new names, under another number.
            let digits = |text: &[u8]| text.iter().take_while(|b| b.is_ascii_digit()).count();
            let number = second.text[..digits(&second.text)].to_vec();
            second.text = [&number, &first.text[digits(&first.text)..]].concat();
        }
        let edits = if self.random.chance(50) {
            [first, second]
        } else {
            [second, first]
        };
        Pair {
            tables: self.world.tables.clone(),
            edits,
        }
    }

    /// An edit with lines whose numbers `side` gives.
    fn edit(&mut self, many: bool, side: fn(usize) -> usize) -> Edit {
        let count = if many { self.random.between(1, 6) } else { 1 };
        let lines: Vec<Vec<u8>> = (0..count).map(|_| self.edit_line(side)).collect();
        Edit {
            text: lines.join(&0x9B),
            keep: self.random.chance(30),
            many,
        }
    }

    /// A line that is entered or taken out, with a number that `side` gives: mostly that of a stored line, if it is taken
    /// out.
    fn edit_line(&mut self, side: fn(usize) -> usize) -> Vec<u8> {
        let stored = self.stored_line().filter(|number| side(*number) == *number);
        let replaces = self.random.chance(40);
        let number = match stored {
            Some(number) if replaces => number,
            _ => {
                let bound = self.random.pick(&[40, 40, 32768]);
                side(self.random.below(bound))
            }
        };
        let mut line = number.to_string().into_bytes();
        if stored.is_some() && replaces && self.random.chance(40) {
            return line;
        }
        line.push(b' ');
        if self.random.chance(15) {
            // One name, mostly a new one, once or more often: its tokens are all short or all long.
            let name = format!("Q{}", self.random.below(200));
            let names = vec![name; self.random.between(1, 5)];
            line.extend(format!("?{}", names.join(";")).bytes());
            return line;
        }
        let mut text = lawful_text(&mut self.random, &self.world.names);
        take_number_off(&mut self.random, &mut text);
        line.append(&mut text);
        line
    }

    /// A case over the present name table.
    fn case(&self, call: Call, promise: Promise) -> Case {
        let expected = run_reference(call.clone());
        Case {
            call,
            expected,
            table: self.table,
            promise,
        }
    }

    /// A text for this world, one in five without a number.
    fn text(&mut self) -> Vec<u8> {
        let mut text = self.numbered_text();
        if self.random.chance(20) {
            take_number_off(&mut self.random, &mut text);
        }
        text
    }

    /// A text for this world, with a number if it is not any text.
    fn numbered_text(&mut self) -> Vec<u8> {
        let random = &mut self.random;
        match random.below(100) {
            0..=49 => lawful_text(random, &self.world.names),
            50..=74 => {
                let mut text = lawful_text(random, &self.world.names);
                spoil(random, &mut text);
                text
            }
            75..=82 => any_text(random),
            83..=85 => delete_text(random),
            86..=88 => self.stored_number_text(),
            89..=92 => self.fitting_text(),
            _ => bulky_text(random),
        }
    }

    /// The number of a stored line, half the time of the last one: alone, or with a statement.
    fn stored_number_text(&mut self) -> Vec<u8> {
        let last = self.world.lines.keys().last().copied();
        let last = last.filter(|_| self.random.chance(50));
        let Some(number) = last.or_else(|| self.stored_line()) else {
            return b"0 END".to_vec();
        };
        let mut text = number.to_string().into_bytes();
        if self.random.chance(25) {
            text.extend(b" REM");
        }
        text
    }

    /// A remark, or a wrong text, whose line, if it is kept, just fills the store, or is one byte shorter or longer.
    fn fitting_text(&mut self) -> Vec<u8> {
        let tables = &self.world.tables;
        let room = tables.store.len().min(65535);
        let free = room.saturating_sub(tables.record.used);
        // What stands before the filler, and how long the line is without that.
        let kinds = [(" REM ", 6, b'F'), (" )", 8, b'F'), (" GOTO", 12, b' ')];
        let (start, size, filler) = self.random.pick(&kinds);
        let length = (free + self.random.below(3)).saturating_sub(size + 1);
        let mut text = self.random.below(32768).to_string().into_bytes();
        text.extend(start.bytes());
        text.resize(text.len() + length.min(110), filler);
        text
    }

    /// An entry over these tables, with a line buffer; a wrong line is kept half the time.
    fn entry(&mut self, text: Vec<u8>, tables: Tables) -> Call {
        let line = self.buffer_for(&text, &tables);
        Call::Enter {
            text,
            tables,
            line,
            keep: self.random.chance(50),
        }
    }

    /// A line buffer for a text: of any length, mostly about that of the line if the text has no number.
    fn buffer_for(&mut self, text: &[u8], tables: &Tables) -> Vec<u8> {
        let length = match self.random.below(10) {
            0 => 0,
            1 => self.random.below(300),
            2..=4 => 255,
            _ if has_number(text) => self.random.below(12),
            _ => {
                let length = direct_length(text, tables);
                (length + self.random.below(4)).saturating_sub(2)
            }
        };
        self.stale_buffer(length)
    }

    /// A line buffer of so many bytes: what the last call left, as far as it goes, or any bytes.
    fn stale_buffer(&mut self, length: usize) -> Vec<u8> {
        let kept = if self.random.chance(50) { length } else { 0 };
        let mut buffer: Vec<u8> = self.world.buffer.iter().take(kept).copied().collect();
        buffer.extend(self.random.bytes(length - buffer.len()));
        buffer
    }

    /// Enters a text; sometimes the world goes on from what it leaves. What is kept is gone on from as what is taken.
    fn enter_case(&mut self) -> Case {
        let text = self.text();
        let direct = !has_number(&text);
        let call = self.entry(text, self.world.tables.clone());
        let case = self.case(call, Promise::None);
        if let Answer::Enter {
            number,
            added,
            tables,
            line,
            ..
        } = &case.expected
        {
            let refused = *number != 0;
            if refused && *tables == self.world.tables {
                return case;
            }
            let (tables, line, added) = (tables.clone(), line.clone(), *added);
            if !direct && self.random.chance(if refused { 40 } else { 10 }) {
                // Just room for what it leaves, or one byte less or more.
                let room = tables.record.used + self.random.below(3);
                let call = with_room(&case.call, room.saturating_sub(1));
                let tight = self.case(call, Promise::None);
                self.waiting.push_back(tight);
            }
            if self.random.chance(30) {
                let out = self.random.bytes(1024);
                let call = if direct {
                    Some(show_call(line.clone(), &tables, out))
                } else {
                    let tables = tables.clone();
                    changed_line(&self.world.tables, &tables).map(|number| Call::List {
                        number,
                        tables,
                        out,
                    })
                };
                if let Some(call) = call {
                    let mut listed = self.case(call, Promise::Lists);
                    listed.table = if added == 0 { self.table } else { 0 };
                    self.waiting.push_back(listed);
                }
            }
            if direct {
                self.world.buffer = line;
            }
            if self.random.chance(50) {
                self.world.adopt(tables);
                self.table += (added > 0) as u64;
            }
        }
        case
    }

    /// Enters many lines at once; sometimes the world goes on from what they leave.
    fn batch_case(&mut self) -> Case {
        let text = self.lines_text();
        let case = self.batch_over(text, self.world.tables.clone());
        if let Answer::Batch { tables, .. } = &case.expected {
            if self.random.chance(50) {
                let grown = tables.record.name_count > self.world.tables.record.name_count;
                self.world.adopt(tables.clone());
                self.table += grown as u64;
            }
        }
        case
    }

    /// Many lines at once over these tables, with what single calls add up to.
    fn batch_over(&mut self, text: Vec<u8>, tables: Tables) -> Case {
        let keep = self.random.chance(50);
        let promise = Promise::OneByOne(Box::new(one_by_one(&text, tables.clone(), keep)));
        self.case(Call::Batch { text, tables, keep }, promise)
    }

    /// A text of many lines: texts of any kind, a program in rising order, or the program that is there. A line
    /// is empty now and then, and the last one has its 9B or not.
    fn lines_text(&mut self) -> Vec<u8> {
        let mut text = Vec::new();
        match self.random.below(10) {
            0..=3 => {
                for _ in 0..self.random.between(0, 12) {
                    let line = self.text();
                    self.add_line(&mut text, &line);
                }
            }
            4..=6 => {
                let mut number = self.random.below(100);
                for _ in 0..self.random.between(1, 40) {
                    let line = self.statements_text(number);
                    self.add_line(&mut text, &line);
                    number += self.random.below(12);
                }
            }
            7 | 8 => {
                let tables = self.world.tables.clone();
                for number in self
                    .world
                    .lines
                    .keys()
                    .copied()
                    .take(100)
                    .collect::<Vec<_>>()
                {
                    let line = listing(number, &tables);
                    self.add_line(&mut text, &line);
                }
            }
            _ => {
                let length = self.random.below(300);
                text = self.random.bytes(length);
                for byte in &mut text {
                    *byte = if *byte < 40 { 0x9B } else { *byte };
                }
            }
        }
        if self.random.chance(50) {
            text.pop();
        }
        text
    }

    /// Adds a line and its 9B, and sometimes an empty line.
    fn add_line(&mut self, text: &mut Vec<u8>, line: &[u8]) {
        text.extend_from_slice(line);
        text.push(0x9B);
        if self.random.chance(3) {
            text.push(0x9B);
        }
    }

    /// The text of a line with this number: statements that are mostly lawful, or none.
    fn statements_text(&mut self, number: usize) -> Vec<u8> {
        let mut text = self.numbered_text();
        take_number_off(&mut self.random, &mut text);
        let mut line = number.to_string().into_bytes();
        if self.random.chance(95) {
            line.push(b' ');
            line.append(&mut text);
        }
        line
    }

    /// Examines the program of this world: as it is, with a line changed, with bits flipped in a table, or upset.
    fn examine_case(&mut self) -> Case {
        let mut tables = self.world.tables.clone();
        match self.random.below(11) {
            0 => {}
            1..=4 => self.flip_bits(&mut tables),
            5..=7 => self.change_line(&mut tables),
            8 => tables
                .values
                .truncate((8 * tables.record.name_count).saturating_sub(1)),
            _ => self.upset_tables(&mut tables),
        }
        agree(&mut tables);
        let promise = Promise::Listed(first_refused(&tables));
        (tables.record.lines, tables.record.greatest) = (0, 0);
        let mut case = self.case(Call::Examine { tables }, promise);
        case.table = 0;
        case
    }

    /// Writes the file of the world's program; then reads it, or a damaged copy of it, into buffers of another world.
    fn file_case(&mut self) -> Case {
        let mut tables = self.world.tables.clone();
        if self.random.chance(10) {
            self.upset(&mut tables);
        }
        let size = file_size(&tables.record).min(65536);
        let room = match self.random.below(10) {
            0 => self.random.below(60),
            1 => size.saturating_sub(1),
            2..=5 => size,
            _ => size + self.random.below(5),
        };
        let out = self.random.bytes(room.min(65536));
        let call = Call::Save { tables, out };
        let mut case = self.case(call.clone(), Promise::None);
        case.table = 0;
        let (
            Call::Save { tables, .. },
            Answer::List {
                number: 0,
                written,
                out,
            },
        ) = (call, &case.expected)
        else {
            return case;
        };
        for _ in 0..self.random.between(1, 3) {
            let file = out[..*written].to_vec();
            let read = self.load_case(file, &tables);
            self.waiting.push_back(read);
        }
        case
    }

    /// Reads the file of these tables, mostly damaged, into buffers with any bytes and counts.
    fn load_case(&mut self, mut file: Vec<u8>, tables: &Tables) -> Case {
        let whole = self.random.chance(30);
        if !whole {
            for _ in 0..self.random.between(1, 2) {
                damage(&mut self.random, &mut file);
            }
        }
        let record = &tables.record;
        let needs = [record.name_bytes, 8 * record.name_count, record.used];
        let roomy = self.random.chance(70);
        let mut rooms = needs.map(|need| need + self.random.below(9));
        if !roomy {
            let short = self.random.below(3);
            rooms[short] = rooms[short].saturating_sub(self.random.between(1, 12));
        }
        let fits = (0..3).all(|part| needs[part] <= rooms[part]);
        let lent = Tables {
            names: self.random.bytes(rooms[0]),
            values: self.random.bytes(rooms[1]),
            store: self.random.bytes(rooms[2]),
            record: Record {
                name_bytes: self.any_count(),
                name_count: self.any_count(),
                used: self.any_count(),
                lines: self.any_count(),
                greatest: self.any_count(),
            },
        };
        let promise = if whole && fits {
            Promise::SameProgram(Box::new(tables.clone()))
        } else {
            Promise::None
        };
        let mut case = self.case(Call::Load { file, tables: lent }, promise);
        case.table = 0;
        case
    }

    /// Weighs a file of the world's program, or of one that uses some names of its table, as it is or damaged.
    fn weigh_case(&mut self) -> Case {
        let mut tables = self.world.tables.clone();
        if self.random.chance(50) {
            self.use_some_names(&mut tables);
            agree(&mut tables);
        }
        let second = self.random.pick(&[0, 14, 256, 1792]);
        let mut file = file_of(&tables, second);
        if self.random.chance(20) {
            damage(&mut self.random, &mut file);
        } else if self.random.chance(2) {
            let length = self.random.between(65_534, 65_537);
            file.resize(length, 0);
        }
        let promise = match loaded(&file) {
            Some(program) => {
                let listings = listing_bytes(&program);
                Promise::Weighs(Box::new(program), listings)
            }
            None => Promise::None,
        };
        let mut case = self.case(Call::Weigh { file }, promise);
        case.table = 0;
        case
    }

    /// Takes unused names back: those of the world's program, of one that uses some names of its table, of one with a
    /// line changed or bits flipped, or over upset tables. Lines list then as before, and once more changes nothing.
    fn collect_case(&mut self) -> Case {
        let mut tables = self.world.tables.clone();
        match self.random.below(12) {
            0..=2 => {}
            3..=7 => self.use_some_names(&mut tables),
            8 => self.change_line(&mut tables),
            9 => self.flip_bits(&mut tables),
            10 => {
                self.use_some_names(&mut tables);
                self.flip_bits(&mut tables);
            }
            _ => self.upset(&mut tables),
        }
        if self.random.chance(90) {
            agree(&mut tables);
        }
        let call = Call::Collect {
            tables: tables.clone(),
        };
        let mut case = self.case(call, Promise::None);
        case.table = 0;
        let Answer::Load {
            number: 0,
            tables: after,
        } = &case.expected
        else {
            return case;
        };
        let after = after.clone();
        let again = Call::Collect {
            tables: after.clone(),
        };
        self.wait_for(again, Promise::NothingMore);
        for number in self.some_numbers(&after) {
            let before = listing(number, &tables);
            if before.is_empty() {
                continue;
            }
            let list = |tables: &Tables, out: Vec<u8>| Call::List {
                number,
                tables: tables.clone(),
                out,
            };
            let out = self.random.bytes(before.len());
            self.wait_for(list(&tables, out.clone()), Promise::ListsAs(before.clone()));
            self.wait_for(list(&after, out), Promise::ListsAs(before));
        }
        if self.random.chance(30) {
            self.world.adopt(after);
            self.table += 1;
        }
        case
    }

    /// Lets a call wait for its turn. What it lists is not compared with other listings.
    fn wait_for(&mut self, call: Call, promise: Promise) {
        let mut case = self.case(call, promise);
        case.table = 0;
        self.waiting.push_back(case);
    }

    /// The numbers of up to three lines.
    fn some_numbers(&mut self, tables: &Tables) -> Vec<usize> {
        let numbers: Vec<usize> = lines_of(tables).into_keys().collect();
        let count = numbers.len().min(3);
        (0..count).map(|_| self.random.pick(&numbers)).collect()
    }

    /// Gives the tables a store of lines that use some of their names, few, many, most or all; now and then more than 128
    /// names first.
    fn use_some_names(&mut self, tables: &mut Tables) {
        let percent = self.random.pick(&[3, 50, 90, 97, 100]);
        if self.random.chance(30) {
            let count = self.random.between(129, 256);
            let names = new_names(&mut self.random, count);
            return self.use_names(tables, &names, percent);
        }
        let names = self.world.names.clone();
        self.use_lines(tables, &names, percent);
    }

    /// Gives the tables these names, any values, and a store of lines that use each so many times in a hundred.
    fn use_names(&mut self, tables: &mut Tables, names: &[Vec<u8>], percent: usize) {
        let spare = self.random.below(40);
        tables.names = stored_names(names);
        tables.values = self.random.bytes(8 * names.len() + spare);
        tables.record.name_bytes = tables.names.len();
        tables.record.name_count = names.len();
        tables.names.extend(self.random.bytes(spare));
        self.use_lines(tables, names, percent);
    }

    /// Gives the tables a store of lines that use each of their names so many times in a hundred.
    fn use_lines(&mut self, tables: &mut Tables, names: &[Vec<u8>], percent: usize) {
        let lines = program_over(&mut self.random, names, percent);
        let spare = self.random.below(40);
        tables.store = lines.into_values().flatten().collect();
        tables.record.used = tables.store.len();
        tables.store.extend(self.random.bytes(spare));
    }

    /// Flips one bit, or two, in names, values or store.
    fn flip_bits(&mut self, tables: &mut Tables) {
        for _ in 0..self.random.between(1, 2) {
            let names = tables.record.name_bytes.min(tables.names.len());
            let used = tables.record.used.min(tables.store.len());
            let values = tables.values.len();
            let (buffer, length) = match self.random.below(8) {
                0 | 1 => (&mut tables.names, names),
                2 => (&mut tables.values, values),
                _ => (&mut tables.store, used),
            };
            if length > 0 {
                buffer[self.random.below(length)] ^= 1 << self.random.below(8);
            }
        }
    }

    /// Puts a changed line in the place of one.
    fn change_line(&mut self, tables: &mut Tables) {
        let Some(line) = self.stored_line() else {
            return;
        };
        let mut lines = self.world.lines.clone();
        lines.insert(line, change(&mut self.random, &lines[&line], &lines[&line]));
        if let Some(store) = joined(&lines) {
            tables.record.used = store.len();
            tables.store = store;
        }
    }

    /// Lists a line buffer, then sometimes enters the listing.
    fn show_case(&mut self) -> Case {
        let mut tables = self.world.tables.clone();
        let buffer = self.some_buffer();
        let unsound = self.random.chance(10);
        if unsound {
            self.upset_tables(&mut tables);
        }
        let room = self.out_room();
        let call = show_call(buffer.clone(), &tables, self.random.bytes(room));
        let mut case = self.case(call, Promise::None);
        if unsound {
            case.table = 0;
        }
        if let Answer::List {
            number: 0,
            written,
            out,
        } = &case.expected
        {
            // The listing of a line buffer is lent no store; what enters it again is.
            let sound = !unsound && tables.record.used <= 65535;
            if sound && *written <= 120 && self.random.chance(70) {
                let line = buffer[..buffer[2] as usize].to_vec();
                let spare = self.random.below(3);
                let call = Call::Enter {
                    text: out[..*written].to_vec(),
                    tables,
                    line: self.stale_buffer(line.len() + spare),
                    keep: self.random.chance(50),
                };
                let promise = match error_text(&line) {
                    Some(_) => Promise::None,
                    None => Promise::SameDirect(line),
                };
                let again = self.case(call, promise);
                self.waiting.push_back(again);
            }
        }
        case
    }

    /// A line buffer to list: what the last call left, a stored line, or one of a foreign hand, sometimes spoilt. An
    /// error line comes into it by a foreign hand alone.
    fn some_buffer(&mut self) -> Vec<u8> {
        let mut buffer = self.world.buffer.clone();
        if self.random.chance(70) {
            if let (Some(number), Some(other)) = (self.stored_line(), self.stored_line()) {
                let random = &mut self.random;
                let (line, other) = (&self.world.lines[&number], &self.world.lines[&other]);
                buffer = match random.below(10) {
                    0..=4 => line.clone(),
                    5..=7 => change(random, line, other),
                    8 => error_line(random, number),
                    _ => any_line(random, number),
                };
                buffer[..2].copy_from_slice(&DIRECT_HEAD);
            }
        }
        if self.random.chance(30) {
            spoil_buffer(&mut self.random, &mut buffer);
        }
        buffer
    }

    /// A room for output, mostly ample.
    fn out_room(&mut self) -> usize {
        let ample = self.random.chance(60);
        if ample {
            1024
        } else {
            self.random.below(80)
        }
    }

    /// Lists a line of the world, then sometimes enters the listing.
    fn list_case(&mut self) -> Case {
        let number = self.some_line();
        let tables = self.world.tables.clone();
        self.list_over(number, tables)
    }

    /// Lists a line that was changed by a foreign hand.
    fn foreign_case(&mut self) -> Case {
        let Some(line) = self.stored_line() else {
            return self.list_case();
        };
        let other = self.stored_line().unwrap_or(line);
        let random = &mut self.random;
        let new = match random.below(10) {
            0..=6 => change(random, &self.world.lines[&line], &self.world.lines[&other]),
            7 | 8 => error_line(random, line),
            _ => any_line(random, line),
        };
        let mut lines = self.world.lines.clone();
        lines.insert(line, new);
        let mut tables = self.world.tables.clone();
        let spare = random.below(10);
        let Some(store) = joined(&lines) else {
            return self.list_case();
        };
        tables.record.used = store.len();
        tables.store = store;
        tables.store.extend(random.bytes(spare));
        agree(&mut tables);
        self.list_over(line, tables)
    }

    /// Lists a line over these tables; a short listing is sometimes entered again, which gives the same line if it is
    /// no error line.
    fn list_over(&mut self, number: usize, tables: Tables) -> Case {
        let room = self.out_room();
        let call = Call::List {
            number,
            tables: tables.clone(),
            out: self.random.bytes(room),
        };
        let case = self.case(call, Promise::None);
        if let Answer::List {
            number: 0,
            written,
            out,
        } = &case.expected
        {
            if *written <= 120 && self.random.chance(70) {
                let promise = match error_text(&lines_of(&tables)[&number]) {
                    Some(_) => Promise::None,
                    None => Promise::SameLine,
                };
                let call = self.entry(out[..*written].to_vec(), tables);
                let again = self.case(call, promise);
                self.waiting.push_back(again);
            }
        }
        case
    }

    /// The number of a stored line.
    fn stored_line(&mut self) -> Option<usize> {
        if self.world.lines.is_empty() {
            return None;
        }
        let place = self.random.below(self.world.lines.len());
        self.world.lines.keys().nth(place).copied()
    }

    /// A number to list, mostly of a stored line.
    fn some_line(&mut self) -> usize {
        if self.random.chance(90) {
            if let Some(line) = self.stored_line() {
                return line;
            }
        }
        match self.random.below(10) {
            0..=6 => self.random.below(60),
            7 | 8 => self.random.below(40000),
            _ => self.any_count(),
        }
    }

    /// A count of any size.
    fn any_count(&mut self) -> usize {
        let bits = self.random.bits() >> self.random.below(64);
        (bits % self.count_bound) as usize
    }

    /// A count near the given one, or any.
    fn wrong_count(&mut self, count: usize) -> usize {
        let greatest = (self.count_bound - 1) as usize;
        let wrong = match self.random.below(8) {
            0 => self.any_count(),
            1 => greatest,
            2 => 0,
            3 => self.random.pick(&[128, 256]) + self.random.below(3),
            4 => count.saturating_add(self.random.below(20)),
            5 => count.saturating_sub(self.random.below(20)),
            6 => count.saturating_sub(1),
            _ => count.saturating_add(1),
        };
        wrong.min(greatest)
    }

    /// A call over tables that are mostly unsound.
    fn unsound_case(&mut self) -> Case {
        let mut tables = self.world.tables.clone();
        for _ in 0..self.random.between(1, 2) {
            self.upset(&mut tables);
        }
        let call = if self.random.chance(50) {
            let text = self.text();
            self.entry(text, tables)
        } else if self.random.chance(10) {
            let text = self.lines_text();
            let mut case = self.batch_over(text, tables);
            case.table = 0;
            return case;
        } else {
            Call::List {
                number: self.some_line(),
                tables,
                out: self.random.bytes(200),
            }
        };
        let mut case = self.case(call, Promise::None);
        case.table = 0;
        case
    }

    /// Makes one change that tables and record rarely survive.
    fn upset(&mut self, tables: &mut Tables) {
        if self.random.chance(25) {
            return self.disagree(tables);
        }
        self.upset_tables(tables);
        // Mostly the record is right for what was changed, so that the change alone can be at fault.
        if self.random.chance(75) {
            agree(tables);
        }
    }

    /// Gives the record another count of lines or greatest number, or both.
    fn disagree(&mut self, tables: &mut Tables) {
        let (lines, greatest) = (tables.record.lines, tables.record.greatest);
        let huge = (self.count_bound - 1) as usize;
        let wrong = match self.random.below(13) {
            0 => (lines.saturating_add(1), greatest),
            1 => (lines.saturating_sub(1), greatest),
            2 => (lines, greatest.saturating_add(1)),
            3 => (lines, greatest.saturating_sub(1)),
            4 => (greatest, lines),
            5 => (0, greatest),
            6 => (lines, 0),
            7 => (0, 0),
            8 => (huge, greatest),
            9 => (lines, huge),
            // What would be right with one line more, and with one less.
            10 => (
                lines.saturating_add(1),
                greatest.saturating_add(self.random.below(20)),
            ),
            11 => (lines.saturating_sub(1), self.some_line()),
            _ => (self.wrong_count(lines), self.wrong_count(greatest)),
        };
        tables.record.lines = wrong.0.min(huge);
        tables.record.greatest = wrong.1.min(huge);
    }

    /// Makes one change that tables rarely survive.
    fn upset_tables(&mut self, tables: &mut Tables) {
        let record = tables.record;
        let name_bytes = record.name_bytes.min(tables.names.len());
        let values = record.name_count.saturating_mul(8);
        match self.random.below(15) {
            0 => tables.record.used = self.wrong_count(record.used),
            1 => tables.record.name_count = self.wrong_count(record.name_count),
            2 => tables.record.name_bytes = self.wrong_count(record.name_bytes),
            3 => cut(&mut self.random, &mut tables.names, record.name_bytes),
            4 => cut(&mut self.random, &mut tables.values, values),
            5 => cut(&mut self.random, &mut tables.store, record.used),
            6..=8 if name_bytes > 0 => {
                let place = self.random.below(name_bytes);
                let byte = &mut tables.names[place];
                match self.random.below(4) {
                    0 => *byte ^= 0x80,
                    1 => *byte = *byte & 0x80 | self.random.byte() & 0x7F,
                    2 => *byte = *byte & 0x80 | b"$(1A"[self.random.below(4)],
                    _ => *byte = self.random.byte(),
                }
            }
            9 if record.name_count > 0 => self.rename(tables),
            10 if record.used > 0 => self.shorten_line(tables),
            11 => self.add_above(tables),
            _ if record.used > 0 && tables.store.len() >= 3 => {
                let heads = head_places(tables);
                let head = heads[self.random.below(heads.len())];
                let place = head + self.random.below(3);
                tables.store[place] = match self.random.below(4) {
                    0 => tables.store[place].wrapping_add(1),
                    1 => tables.store[place].wrapping_sub(1),
                    2 => self.random.below(9) as u8,
                    _ => self.random.byte(),
                };
            }
            _ => tables.record.used = self.wrong_count(record.used),
        }
    }

    /// Gives the tables a store of which one line has from 3 to 6 bytes.
    fn shorten_line(&mut self, tables: &mut Tables) {
        let Some(number) = self.stored_line() else {
            return;
        };
        let mut lines = self.world.lines.clone();
        if let Some(line) = lines.get_mut(&number) {
            line.truncate(self.random.between(3, 6));
            line[2] = line.len() as u8;
        }
        let spare = self.random.below(9);
        tables.store = lines.values().flatten().copied().collect();
        tables.record.used = tables.store.len();
        tables.store.extend(self.random.bytes(spare));
    }

    /// Gives the tables a store that ends with an error line whose number is above 32767.
    fn add_above(&mut self, tables: &mut Tables) {
        let number = self.random.pick(&[32768, 32769, 40000, 65535]);
        let spare = self.random.below(9);
        tables.store = self.world.lines.values().flatten().copied().collect();
        tables.store.extend(error_line(&mut self.random, number));
        tables.record.used = tables.store.len();
        tables.store.extend(self.random.bytes(spare));
    }

    /// Gives a name of the table another's spelling, or a fixed word's.
    fn rename(&mut self, tables: &mut Tables) {
        let mut names = plain_names(tables);
        let place = self.random.below(names.len());
        names[place] = if self.random.chance(50) {
            names[self.random.below(names.len())].clone()
        } else {
            let words = [
                "NOT", "OR", "AND(", "GOTO", "GOSUB(", "TO", "STEP", "THEN", "STR$", "CHR$", "USR",
                "SIN(", "RND", "STRIG", "STR$(", "A$(", "1A", "$", "PRINT", "?", "STR(", "CHR",
                "IF(", "NOT$", "AB",
            ];
            self.random.pick(&words).as_bytes().to_vec()
        };
        let spare = self.random.below(9);
        tables.names = stored_names(&names);
        tables.record.name_bytes = tables.names.len();
        tables.names.extend(self.random.bytes(spare));
    }
}

/// The length of the file of a program with this record, whatever its counts.
fn file_size(record: &Record) -> usize {
    let values = record.name_count.saturating_mul(8);
    let parts = [record.name_bytes, values, record.used, 21];
    parts.into_iter().fold(0, usize::saturating_add)
}

/// A listing of this line buffer over the names of these tables.
fn show_call(line: Vec<u8>, tables: &Tables, out: Vec<u8>) -> Call {
    Call::Show {
        line,
        names: Names {
            table: tables.names.clone(),
            bytes: tables.record.name_bytes,
            count: tables.record.name_count,
        },
        values: tables.values.clone(),
        out,
    }
}

/// The same entry with a store of so many bytes, or as many as its lines take.
fn with_room(entry: &Call, room: usize) -> Call {
    let mut entry = entry.clone();
    if let Call::Enter { tables, .. } = &mut entry {
        tables.store.truncate(room.max(tables.record.used));
    }
    entry
}

/// What the lines of a text add up to by single calls in their order, going on after a refused one, where a line
/// without a number is refused with 3 in 3's place.
fn one_by_one(text: &[u8], mut tables: Tables, keep: bool) -> Answer {
    let mut answer = BatchAnswer::default();
    let mut lines: Vec<&[u8]> = text.split(|byte| *byte == 0x9B).collect();
    if lines.last().is_some_and(|line| line.is_empty()) {
        lines.pop();
    }
    for (count, line) in lines.into_iter().enumerate() {
        // A blank line is refused with 3, but for what comes before 3, as one without a number is here.
        let direct = !has_number(line) && line.len() <= 120;
        let text = if direct { Vec::new() } else { line.to_vec() };
        let entry = Call::Enter {
            text,
            tables,
            line: Vec::new(),
            keep,
        };
        let Answer::Enter {
            number,
            place,
            end,
            tables: left,
            ..
        } = run_reference(entry)
        else {
            unreachable!("an entry is answered as an entry");
        };
        tables = left;
        if number == 0 {
            answer.taken += 1;
            continue;
        }
        if answer.refused == 0 {
            answer = BatchAnswer {
                number,
                place,
                end,
                line: count + 1,
                ..answer
            };
        }
        answer.refused += 1;
    }
    Answer::Batch { answer, tables }
}

/// The first line of a program that is an error line, or whose listing is refused with 10, if there is one; None
/// where listing is refused with 1. The output is too short for any listing: a line that is well-formed is refused
/// with 11.
fn first_refused(tables: &Tables) -> Option<Option<usize>> {
    let refusal = |number| {
        let call = Call::List {
            number,
            tables: tables.clone(),
            out: Vec::new(),
        };
        run_reference(call).number()
    };
    if refusal(0) == 1 {
        return None;
    }
    let bad = |number, line: &[u8]| error_text(line).is_some() || refusal(number) == 10;
    let mut lines = lines_of(tables).into_iter();
    Some(
        lines
            .find(|(number, line)| bad(*number, line))
            .map(|(number, _)| number),
    )
}

/// The program of a file, if it can be read.
fn loaded(file: &[u8]) -> Option<Tables> {
    let call = Call::Load {
        file: file.to_vec(),
        tables: Tables {
            names: vec![0; file.len()],
            values: vec![0; file.len()],
            store: vec![0; file.len()],
            record: Record::default(),
        },
    };
    match run_reference(call) {
        Answer::Load { number: 0, tables } => Some(tables),
        _ => None,
    }
}

/// The bytes of all listings of a program, with one end byte a line. A line that is not well-formed has none.
fn listing_bytes(tables: &Tables) -> usize {
    let length = |number: usize| {
        let call = Call::List {
            number,
            tables: tables.clone(),
            out: vec![0; 80_000],
        };
        match run_reference(call) {
            Answer::List { written, .. } => written + 1,
            _ => unreachable!("a listing is answered as a listing"),
        }
    };
    lines_of(tables).into_keys().map(length).sum()
}

/// The listing of a stored line, or a line of nothing if it has none.
fn listing(number: usize, tables: &Tables) -> Vec<u8> {
    let call = Call::List {
        number,
        tables: tables.clone(),
        out: vec![0; 300],
    };
    match run_reference(call) {
        Answer::List {
            written, mut out, ..
        } => {
            out.truncate(written);
            out
        }
        _ => unreachable!("a listing is answered as a listing"),
    }
}

/// How long the line of a text without a number is, 0 if it is refused.
fn direct_length(text: &[u8], tables: &Tables) -> usize {
    let call = Call::Enter {
        text: text.to_vec(),
        tables: tables.clone(),
        line: vec![0; 255],
        keep: false,
    };
    match run_reference(call) {
        Answer::Enter {
            number: 0, line, ..
        } => line[2] as usize,
        _ => 0,
    }
}

/// Cuts a buffer near its used end.
fn cut(random: &mut Random, buffer: &mut Vec<u8>, used: usize) {
    let near = used.saturating_add(random.below(4)).saturating_sub(2);
    buffer.truncate(near);
}

/// Gives the record the count and the greatest number of the lines of its store, as far as they can be told.
fn agree(tables: &mut Tables) {
    let store = &tables.store;
    let used = tables.record.used.min(store.len());
    let (mut at, mut lines, mut greatest) = (0, 0, 0);
    while at + 3 <= used {
        lines += 1;
        greatest = greatest.max(store[at] as usize + 256 * store[at + 1] as usize);
        at += (store[at + 2] as usize).max(3);
    }
    (tables.record.lines, tables.record.greatest) = (lines, greatest);
}

/// Where the lines of a sound store start.
fn head_places(tables: &Tables) -> Vec<usize> {
    let mut places = Vec::new();
    let mut at = 0;
    while at + 3 <= tables.record.used.min(tables.store.len()) {
        places.push(at);
        at += (tables.store[at + 2] as usize).max(3);
    }
    if places.is_empty() {
        places.push(0);
    }
    places
}

/// The number of a line that an edit put in or replaced.
fn changed_line(before: &Tables, after: &Tables) -> Option<usize> {
    let old = lines_of(before);
    lines_of(after)
        .into_iter()
        .find(|(number, line)| old.get(number) != Some(line))
        .map(|(number, _)| number)
}

/// The lines of a sound store.
pub fn lines_of(tables: &Tables) -> BTreeMap<usize, Vec<u8>> {
    let mut lines = BTreeMap::new();
    let mut rest = &tables.store[..tables.record.used];
    while !rest.is_empty() {
        let (line, behind) = rest.split_at(rest[2] as usize);
        lines.insert(line[0] as usize + 256 * line[1] as usize, line.to_vec());
        rest = behind;
    }
    lines
}

/// The names of a sound table, plain.
fn plain_names(tables: &Tables) -> Vec<Vec<u8>> {
    let mut names = vec![Vec::new()];
    for byte in &tables.names[..tables.record.name_bytes.min(tables.names.len())] {
        if let Some(name) = names.last_mut() {
            name.push(byte & 0x7F);
        }
        if *byte >= 0x80 {
            names.push(Vec::new());
        }
    }
    names.pop();
    if names.is_empty() {
        names.push(b"A".to_vec());
    }
    names
}

/// Names as a table holds them.
fn stored_names(names: &[Vec<u8>]) -> Vec<u8> {
    let mut bytes = Vec::new();
    for name in names {
        bytes.extend_from_slice(name);
        if let Some(last) = bytes.last_mut() {
            *last |= 0x80;
        }
    }
    bytes
}

/// The lines end to end, if a store can hold them.
fn joined(lines: &BTreeMap<usize, Vec<u8>>) -> Option<Vec<u8>> {
    let store: Vec<u8> = lines.values().flatten().copied().collect();
    (store.len() <= 65535).then_some(store)
}

/// Spare room behind a buffer: none, little or plenty.
fn spare(random: &mut Random, plenty: usize) -> Vec<u8> {
    let count = match random.below(10) {
        0 => 0,
        1 | 2 => random.below(24),
        _ => random.between(plenty / 2, plenty),
    };
    random.bytes(count)
}

impl World {
    /// Goes on from the tables that an accepted edit left.
    fn adopt(&mut self, tables: Tables) {
        self.lines = lines_of(&tables);
        self.names = if tables.record.name_count == 0 {
            Vec::new()
        } else {
            plain_names(&tables)
        };
        self.tables = tables;
    }
}

/// So many names, each another.
fn new_names(random: &mut Random, count: usize) -> Vec<Vec<u8>> {
    let mut names: Vec<Vec<u8>> = Vec::new();
    while names.len() < count {
        let mut name = new_name(random);
        if random.chance(1) {
            let tail = vec![b'Q'; random.below(300)];
            name.splice(1..1, tail);
        }
        if !names.contains(&name) {
            names.push(name);
        }
    }
    names
}

/// Makes sound tables and a store.
fn new_world(random: &mut Random) -> World {
    let count = match random.below(20) {
        0..=3 => 0,
        4..=11 => random.between(1, 10),
        12..=15 => random.between(11, 40),
        16 => random.between(100, 127),
        17 => random.between(128, 140),
        18 => random.between(141, 255),
        _ => 256,
    };
    let names = new_names(random, count);

    // Lines come from texts entered one by one into an empty store, wrong ones too.
    let mut tables = Tables {
        names: stored_names(&names),
        values: random.bytes(2048),
        store: vec![0; 300],
        record: Record::default(),
    };
    tables.record.name_count = count;
    tables.record.name_bytes = tables.names.len();
    tables.names.resize(8192, 0);
    let mut lines: BTreeMap<usize, Vec<u8>> = BTreeMap::new();
    let wanted = match random.below(40) {
        0..=5 => 0,
        6..=30 => random.between(1, 8),
        31..=38 => random.between(9, 30),
        _ => random.between(100, 250),
    };
    for _ in 0..wanted {
        tables.record.used = 0;
        agree(&mut tables);
        let mut text = lawful_text(random, &names);
        if random.chance(15) {
            spoil(random, &mut text);
        }
        let call = Call::Enter {
            text,
            tables,
            line: Vec::new(),
            keep: true,
        };
        let Answer::Enter { tables: left, .. } = run_reference(call) else {
            unreachable!("an entry is answered as an entry");
        };
        tables = left;
        for (number, line) in lines_of(&tables) {
            let number = if wanted > 30 {
                random.below(32768)
            } else {
                number
            };
            let mut line = line;
            line[0] = number as u8;
            line[1] = (number >> 8) as u8;
            lines.insert(number, line);
        }
    }
    make_foreign(random, &mut lines);
    if random.below(60) == 0 {
        fill_with_remarks(random, &mut lines);
    }

    let store: Vec<u8> = lines.values().flatten().copied().collect();
    tables.record.used = store.len();
    tables.names.truncate(tables.record.name_bytes);
    tables.names.extend(spare(random, 200));
    tables.values.truncate(8 * tables.record.name_count);
    tables.values.extend(spare(random, 300));
    tables.store = store;
    tables.store.extend(spare(random, 600));
    tables.names.truncate(protocol::MOST_NAMES);
    tables.store.truncate(protocol::MOST_STORE);
    agree(&mut tables);
    let mut world = World::default();
    world.adopt(tables);
    world
}

/// Lets a foreign hand change a few lines, or put error lines there.
fn make_foreign(random: &mut Random, lines: &mut BTreeMap<usize, Vec<u8>>) {
    if lines.is_empty() || random.chance(50) {
        return;
    }
    let numbers: Vec<usize> = lines.keys().copied().collect();
    for _ in 0..random.between(1, 4) {
        let number = numbers[random.below(numbers.len())];
        let other = numbers[random.below(numbers.len())];
        let new = if random.chance(25) {
            error_line(random, number)
        } else {
            change(random, &lines[&number], &lines[&other])
        };
        lines.insert(number, new);
    }
}

/// Fills a store up to near its greatest size.
fn fill_with_remarks(random: &mut Random, lines: &mut BTreeMap<usize, Vec<u8>>) {
    let mut total: usize = lines.values().map(Vec::len).sum();
    let aim = match random.below(4) {
        0 => random.between(65534, 65538),
        _ => 65535 - random.below(120),
    };
    let mut number = 1000;
    while total + 6 <= aim {
        let length = (aim - total).min(random.between(200, 255));
        let mut line = vec![
            number as u8,
            (number >> 8) as u8,
            length as u8,
            length as u8,
            0,
        ];
        line.resize(length - 1, b'R');
        line.push(0x9B);
        let old = lines.insert(number, line).map_or(0, |line| line.len());
        total = total + length - old;
        number += 1;
    }
}

#[cfg(test)]
mod tests {
    use super::*;

    /// What a wrong line meets when wrong lines are kept.
    #[derive(Default, Debug)]
    struct Met {
        just_fits: usize,
        lacks_one_byte: usize,
        end_at_place: usize,
        end_elsewhere: usize,
        escape_at_place: usize,
        escape_elsewhere: usize,
        replaces: usize,
    }

    impl Met {
        /// Notes what this call meets, if it enters a numbered text that is refused with 4 where none is kept.
        fn take(&mut self, case: &Case) {
            let mut off = case.call.clone();
            let Call::Enter { text, keep, .. } = &mut off else {
                return;
            };
            if !std::mem::replace(keep, false) || !has_number(text) {
                return;
            }
            let text = text.clone();
            let Answer::Enter {
                number: 4,
                place,
                tables: before,
                ..
            } = run_reference(off)
            else {
                return;
            };
            let Answer::Enter { number, tables, .. } = &case.expected else {
                return;
            };
            let here = text.get(place).copied();
            self.end_at_place += (here == Some(0x9B)) as usize;
            self.end_elsewhere += (here != Some(0x9B) && text.contains(&0x9B)) as usize;
            self.escape_at_place += (here == Some(0x1B)) as usize;
            if text.contains(&0x9B) || here == Some(0x1B) {
                return;
            }
            self.escape_elsewhere += text.contains(&0x1B) as usize;
            let room = tables.store.len().min(65535);
            let changed = tables.record != before.record;
            self.just_fits += (*number == 4 && changed && tables.record.used == room) as usize;
            let same_count = tables.record.lines == before.record.lines;
            self.replaces += (*number == 4 && changed && same_count) as usize;
            if *number == 8 {
                let mut wider = case.call.clone();
                if let Call::Enter { tables, .. } = &mut wider {
                    tables.store.push(0);
                }
                self.lacks_one_byte += (run_reference(wider).number() == 4) as usize;
            }
        }
    }

    /// Wrong lines are met at the limits of what is kept.
    #[test]
    fn wrong_lines_at_their_limits() {
        let mut met = Met::default();
        for case in Cases::new(9, 1 << 63).take(10_000) {
            met.take(&case);
        }
        let counts = [
            met.just_fits,
            met.lacks_one_byte,
            met.end_at_place,
            met.end_elsewhere,
            met.escape_at_place,
            met.escape_elsewhere,
            met.replaces,
        ];
        assert!(counts.iter().all(|count| *count > 10), "{met:?}");
    }

    /// What collections meet.
    #[derive(Default, Debug)]
    struct Collected {
        unsound: usize,
        bad_line: usize,
        all_used: usize,
        none_used: usize,
        some_used: usize,
        shrinks: usize,
        shrinks_past_half: usize,
        more_than_128_stay: usize,
        error_lines: usize,
        raw_look_alikes: usize,
    }

    impl Collected {
        /// Notes what this call meets, if it takes unused names back.
        fn take(&mut self, case: &Case) {
            let (
                Call::Collect { tables },
                Answer::Load {
                    number,
                    tables: after,
                },
            ) = (&case.call, &case.expected)
            else {
                return;
            };
            match number {
                0 => {}
                1 => return self.unsound += 1,
                _ => return self.bad_line += 1,
            }
            let (old, new) = (&tables.record, &after.record);
            let had = old.name_count > 0;
            self.all_used += (had && new.name_count == old.name_count) as usize;
            self.none_used += (had && new.name_count == 0) as usize;
            self.some_used += (0 < new.name_count && new.name_count < old.name_count) as usize;
            self.shrinks += (new.used < old.used) as usize;
            self.more_than_128_stay += (128 < new.name_count && new.used < old.used) as usize;
            let renumbered = old.name_count != new.name_count;
            for (number, line) in lines_of(tables) {
                // An offset past 127, which looks like a variable itself.
                let shorter = lines_of(after)[&number].len() < line.len();
                self.shrinks_past_half +=
                    (shorter && line[3] < line[2] && line.len() > 140) as usize;
                self.error_lines += (renumbered && error_text(&line).is_some()) as usize;
                let raw = line[4] < 2 && line[5..line.len() - 1].iter().any(|byte| *byte >= 0x80);
                self.raw_look_alikes += (renumbered && raw) as usize;
            }
        }
    }

    /// Collections meet every kind of program.
    #[test]
    fn collections_of_every_kind() {
        let mut met = Collected::default();
        for case in Cases::new(9, 1 << 63).take(10_000) {
            met.take(&case);
        }
        let counts = [
            met.unsound,
            met.bad_line,
            met.all_used,
            met.none_used,
            met.some_used,
            met.shrinks,
            met.shrinks_past_half,
            met.more_than_128_stay,
            met.error_lines,
            met.raw_look_alikes,
        ];
        assert!(counts.iter().all(|count| *count > 5), "{met:?}");
    }

    /// The bytes from the start of the line that a call lists, and whether they are in a line buffer.
    fn listed_from(call: &Call) -> Option<(&[u8], bool)> {
        match call {
            Call::List { number, tables, .. } => {
                let head = [*number as u8, (*number >> 8) as u8];
                let places = head_places(tables).into_iter();
                let mut lines = places.filter_map(|at| tables.store.get(at..));
                lines.find(|line| line.starts_with(&head)).zip(Some(false))
            }
            Call::Show { line, .. } => Some((line, true)),
            _ => None,
        }
    }

    /// Lines of a statement 37 are listed, and refused with 10, from the store and from a line buffer.
    #[test]
    fn error_lines_well_made_and_damaged() {
        let mut counts = [[0; 2]; 2];
        for case in Cases::new(9, 1 << 63).take(10_000) {
            let Some((line, buffer)) = listed_from(&case.call) else {
                continue;
            };
            let number = case.expected.number();
            if line.get(4) == Some(&0x37) && (number == 0 || number == 10) {
                counts[buffer as usize][(number == 10) as usize] += 1;
            }
        }
        assert!(
            counts.as_flattened().iter().all(|count| *count > 10),
            "{counts:?}"
        );
    }
}
