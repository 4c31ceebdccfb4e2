//! Foreign token lines: well-formed ones joined, changed and cut, and error lines, well-made and damaged.

use crate::random::Random;

/// Bytes that tokens, marks and offsets begin with.
fn token_byte(random: &mut Random) -> u8 {
    match random.below(10) {
        0 => random.byte(),
        1 | 2 => 0x80 + random.below(20) as u8,
        3 => random.below(0x38) as u8,
        4 if random.chance(20) => 0x00,
        _ => random.between(0x0E, 0x55) as u8,
    }
}

/// Tokens that are spelled alike.
const ALIKE: [&[u8]; 10] = [
    &[0x22, 0x2D, 0x2E, 0x34],
    &[0x25, 0x35],
    &[0x26, 0x36],
    &[0x2B, 0x37, 0x38, 0x39, 0x3A, 0x3B],
    &[0x12, 0x3C],
    &[0x1D, 0x2F],
    &[0x1E, 0x30],
    &[0x1F, 0x31],
    &[0x20, 0x32],
    &[0x21, 0x33],
];

/// A token that is spelled like this one, if there is another.
fn alike(random: &mut Random, token: u8) -> u8 {
    match ALIKE.iter().find(|tokens| tokens.contains(&token)) {
        Some(tokens) => random.pick(tokens),
        None => token,
    }
}

/// Puts LET where it was left out, or leaves it out.
fn swap_let(random: &mut Random, line: &mut [u8]) {
    let places = offset_places(line);
    let place = places[random.below(places.len())];
    match line.get_mut(place + 1) {
        Some(token) if *token == 0x06 => *token = 0x36,
        Some(token) if *token == 0x36 => *token = 0x06,
        _ => {}
    }
}

/// Where the offset bytes of a line stand, as far as they rise.
fn offset_places(line: &[u8]) -> Vec<usize> {
    let mut places = Vec::new();
    let mut at = 3;
    while at < line.len() {
        places.push(at);
        let next = line[at] as usize;
        if next <= at {
            break;
        }
        at = next;
    }
    places
}

/// Puts `new` in the place of `count` bytes at `at`, with offsets behind it set right.
fn splice(line: &mut Vec<u8>, at: usize, count: usize, new: &[u8]) {
    for place in offset_places(line) {
        let offset = line[place] as usize;
        if offset > at {
            line[place] = (offset + new.len()).wrapping_sub(count) as u8;
        }
    }
    line.splice(at..at + count, new.iter().copied());
}

/// A group of bytes that belong together.
fn group(random: &mut Random) -> Vec<u8> {
    match random.below(7) {
        0 => {
            let mut constant = vec![0x0E, random.between(0x0D, 0x72) as u8];
            for _ in 0..5 {
                let digits = random.below(10) << 4 | random.below(10);
                constant.push(if random.chance(5) {
                    random.byte()
                } else {
                    digits as u8
                });
            }
            constant
        }
        1 => {
            let bound = if random.chance(20) { 120 } else { 6 };
            let length = random.below(bound);
            let mut string = vec![0x0F, length as u8];
            string.extend((0..length).map(|_| {
                if random.chance(2) {
                    random.byte()
                } else {
                    b'X'
                }
            }));
            string
        }
        2 => vec![0x25 + random.below(3) as u8, 0x80 + random.below(4) as u8],
        3 => vec![random.between(0x35, 0x36) as u8],
        4 => vec![0x28],
        5 => long_form(random).to_vec(),
        _ => vec![token_byte(random)],
    }
}

/// A variable's token of two bytes; its second is mostly one that a name has.
fn long_form(random: &mut Random) -> [u8; 2] {
    let low = match random.below(8) {
        0 => 0x7E + random.below(4) as u8,
        1 => random.byte(),
        2 => random.below(0x80) as u8,
        _ => random.below(16) as u8,
    };
    [0x00, low]
}

/// Joins two lines into one, if there is room.
pub fn join(line: &[u8], other: &[u8]) -> Option<Vec<u8>> {
    if line.len() + other.len() - 3 > 255 || line.last() != Some(&0x16) {
        return None;
    }
    let mut joined = line.to_vec();
    let shift = line.len() - 3;
    let last = joined.len() - 1;
    joined[last] = 0x14;
    joined.extend_from_slice(&other[3..]);
    for place in offset_places(other) {
        joined[place + shift] = other[place].wrapping_add(shift as u8);
    }
    joined[2] = joined.len() as u8;
    Some(joined)
}

/// Changes a line a little; its length byte is kept right and its length lawful.
pub fn change(random: &mut Random, line: &[u8], other: &[u8]) -> Vec<u8> {
    let mut new = line.to_vec();
    if random.chance(25) {
        new = join(&new, other).unwrap_or(new);
    }
    for _ in 0..random.between(0, 2) {
        let at = random.between(3, new.len() - 1);
        match random.below(13) {
            0 | 1 => new[at] = token_byte(random),
            8 | 9 => new[at] = alike(random, new[at]),
            10 => new[at] = random.pick(&[b'"', 0x9B]),
            11 if new[at] >= 0x80 && at > 4 && new.len() < 255 && random.chance(40) => {
                splice(&mut new, at, 1, &long_form(random));
            }
            11 if new[at] >= 0x80 => {
                let count = random.between(1, 128);
                new[at] = 0x80 + random.below(count) as u8;
            }
            11 if new[at] == 0 && at + 1 < new.len() => new[at + 1] = long_form(random)[1],
            12 => swap_let(random, &mut new),
            2 => new[at] = new[at].wrapping_add(random.below(5) as u8).wrapping_sub(2),
            3 | 4 if at > 4 => {
                let bytes = group(random);
                if new.len() + bytes.len() <= 255 {
                    splice(&mut new, at, 0, &bytes);
                }
            }
            5 if at > 4 && new.len() > 6 => splice(&mut new, at, 1, &[]),
            6 if at + 1 < new.len() => new.swap(at, at + 1),
            7 if at + 6 <= new.len() => {
                let length = random.between(1, 6);
                new[at..at + length].fill(0);
            }
            _ => {
                let last = new.len() - 1;
                new[last] = [0x16, 0x14, 0x9B, 0x00][random.below(4)];
            }
        }
    }
    new.truncate(255);
    while new.len() < 6 {
        new.push(0x16);
    }
    new[0] = line[0];
    new[1] = line[1];
    new[2] = new.len() as u8;
    new
}

/// The text of an error line: of one statement 37, length and offset right, with 9B only at its end. None: the line
/// is none.
pub fn error_text(line: &[u8]) -> Option<&[u8]> {
    let end = line.len().checked_sub(1)?;
    let text = line.get(5..end)?;
    let head = line[2] as usize == line.len() && line[3] == line[2] && line[4] == 0x37;
    (head && line[end] == 0x9B && !text.contains(&0x9B)).then_some(text)
}

/// An error line with this number, of a text of any kind; half the time with one thing wrong.
pub fn error_line(random: &mut Random, number: usize) -> Vec<u8> {
    let size = match random.below(10) {
        0 => 0,
        1 => random.between(1, 3),
        2 => random.pick(&[0x9B - 6, 255 - 6, 255 - 7]),
        _ => random.between(2, 40),
    };
    let mut line = vec![number as u8, (number >> 8) as u8, 0, 0, 0x37];
    line.extend((0..size).map(|_| match random.byte() {
        0x9B => 0x1B,
        byte if byte < 0x60 => token_byte(random) & 0x7F,
        byte => byte,
    }));
    line.push(0x9B);
    let length = line.len() as u8;
    (line[2], line[3]) = (length, length);
    if random.chance(50) {
        damage(random, &mut line);
    }
    line
}

/// Makes one thing wrong with an error line: its offset, a 9B in its text, its end, its token, a statement behind it.
/// Its length stays right.
fn damage(random: &mut Random, line: &mut [u8]) {
    let last = line.len() - 1;
    let length = line[3];
    match random.below(8) {
        0 => line[3] = random.pick(&[length.wrapping_sub(1), length.wrapping_add(1)]),
        1 => line[3] = random.byte(),
        2 if last > 5 => line[random.between(5, last - 1)] = 0x9B,
        3 if last > 5 => line[random.pick(&[5, last - 1])] = 0x9B,
        4 | 5 => line[last] = random.pick(&[0x16, 0x14, 0x1B, 0x00, 0x9A]),
        6 => line[4] = random.pick(&[0x36, 0x38, 0x00, 0x01, 0xB7]),
        _ => {
            // It ends early, and another statement stands behind it.
            let end = random.between(5, last);
            line[end] = random.pick(&[0x9B, 0x14]);
            line[3] = (end + 1) as u8;
        }
    }
}

/// Spoils a line buffer that holds a line: cut, another number or length, another byte, bytes behind it.
pub fn spoil_buffer(random: &mut Random, buffer: &mut Vec<u8>) {
    let place = random.below(buffer.len().max(1));
    match random.below(8) {
        0 => buffer.truncate(place),
        1 => buffer.truncate(random.below(8)),
        _ if buffer.len() < 3 => {}
        2 => buffer[0] = random.byte(),
        3 => buffer[1] = random.pick(&[0x00, 0x7F, 0x81, 0xFF]),
        4 => buffer[2] = random.byte(),
        5 => {
            buffer[2] = buffer[2]
                .wrapping_add(random.below(3) as u8)
                .wrapping_sub(1)
        }
        6 => buffer[place] ^= 1 << random.below(8),
        _ => {
            let spare = random.below(20);
            buffer.extend(random.bytes(spare));
        }
    }
}

/// A line of any bytes behind a right head.
pub fn any_line(random: &mut Random, number: usize) -> Vec<u8> {
    let longest = if random.chance(10) { 255 } else { 24 };
    let length = random.between(6, longest);
    let mut line = vec![
        number as u8,
        (number >> 8) as u8,
        length as u8,
        length as u8,
    ];
    while line.len() < length {
        line.push(token_byte(random));
    }
    if random.chance(70) {
        line[length - 1] = 0x16;
    }
    line
}
