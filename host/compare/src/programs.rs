//! Programs over a name table, of which lines use some names and leave others.

use std::collections::BTreeMap;

use crate::random::Random;

/// Lines that use names of a table, each so many times in a hundred; now and then twice. What is no variable and looks
/// like one stands between them: in constants, strings, raw text and error lines.
pub fn program_over(
    random: &mut Random,
    names: &[Vec<u8>],
    percent: usize,
) -> BTreeMap<usize, Vec<u8>> {
    let mut uses: Vec<usize> = (0..names.len())
        .filter(|_| random.chance(percent))
        .collect();
    for _ in 0..random.below(4) {
        if let Some(number) = uses.get(random.below(uses.len().max(1))) {
            uses.push(*number);
        }
    }
    let mut lines = BTreeMap::new();
    let mut uses = uses.into_iter().peekable();
    let mut number = random.below(20);
    loop {
        let mut line = Line::new(number);
        for _ in 0..random.pick(&[0, 1, 2, 5, 60]) {
            match uses.peek() {
                Some(name) if line.room() > 40 => {
                    line.use_name(random, *name, &names[*name]);
                    uses.next();
                }
                _ => break,
            }
        }
        lines.insert(number, line.ended(random));
        number += random.between(1, 20);
        if uses.peek().is_none() {
            return lines;
        }
    }
}

/// A well-formed line as it grows, statement by statement.
struct Line {
    bytes: Vec<u8>,
    /// Where the offset of the last statement stands.
    offset: usize,
}

impl Line {
    fn new(number: usize) -> Line {
        Line {
            bytes: vec![number as u8, (number >> 8) as u8, 0],
            offset: 2,
        }
    }

    /// How many bytes more the line may have.
    fn room(&self) -> usize {
        255 - self.bytes.len()
    }

    /// Begins a statement.
    fn start(&mut self, token: u8) {
        self.bytes[self.offset] = self.bytes.len() as u8;
        self.offset = self.bytes.len();
        self.bytes.extend([0, token]);
    }

    /// The token of a variable.
    fn variable(&mut self, number: usize) {
        match number {
            0..=127 => self.bytes.push(0x80 + number as u8),
            _ => self.bytes.extend([0x00, (number - 128) as u8]),
        }
    }

    /// A constant, some of whose bytes look like variables.
    fn constant(&mut self, random: &mut Random) {
        let digits = random.pick(&[0x80, 0x81, 0x99, 0x12, 0x00]);
        let first = random.pick(&[0x01, 0x80, 0x98]);
        self.bytes
            .extend([0x0E, 0x41, first, digits, 0x00, 0x00, 0x00]);
    }

    /// A string of bytes that look like variables.
    fn string(&mut self, random: &mut Random) {
        let length = random.below(6);
        self.bytes.extend([0x0F, length as u8]);
        self.bytes.extend((0..length).map(|_| look_alike(random)));
    }

    /// A statement that uses a name, by what the name ends with.
    fn use_name(&mut self, random: &mut Random, number: usize, name: &[u8]) {
        let then = random.chance(15) && !name.ends_with(b"$");
        self.start(if then { 0x07 } else { 0x20 });
        self.variable(number);
        if name.ends_with(b"(") {
            self.bytes.push(0x38);
            self.constant(random);
            self.bytes.push(0x2C);
        }
        if then {
            self.bytes.push(0x1B);
            self.start(0x28);
        } else if random.chance(20) {
            self.bytes.push(0x15);
        }
        match random.below(8) {
            0 if then => self.constant(random),
            1 if then => self.string(random),
            _ => {}
        }
        self.bytes.push(0x14);
    }

    /// The line, ended by a last statement: a remark, data, or END; or an error line if nothing stands before it.
    fn ended(mut self, random: &mut Random) -> Vec<u8> {
        let most = (self.room() - 3).min(20);
        let alone = self.bytes.len() == 3;
        match random.below(6) {
            kind @ 0..=2 => {
                let token = if kind == 0 { 0x00 } else { 0x01 };
                self.start(if kind == 2 && alone { 0x37 } else { token });
                let length = random.below(most);
                self.bytes.extend((0..length).map(|_| look_alike(random)));
                self.bytes.push(0x9B);
            }
            3..=4 if !alone => {
                if let Some(last) = self.bytes.last_mut() {
                    *last = 0x16;
                }
            }
            _ => {
                self.start(0x15);
                self.bytes.push(0x16);
            }
        }
        let length = self.bytes.len() as u8;
        self.bytes[self.offset] = length;
        self.bytes[2] = length;
        self.bytes
    }
}

/// A byte of a string or of raw text that looks like a variable, or like what follows one.
fn look_alike(random: &mut Random) -> u8 {
    match random.byte() {
        0x9B | b'"' => 0x80,
        byte if byte < 0x40 => random.pick(&[0x00, 0x01, 0x7F, 0x0E, 0x0F, 0x14, 0x16]),
        byte => byte,
    }
}
