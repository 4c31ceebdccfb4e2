//! Saved program files that are damaged, and what is asked of one that was read.

use protocol::Tables;

use crate::random::Random;

/// Bytes of the words.
const HEAD: usize = 14;

/// A file of a program whose second word is this, with END as its current line. Its last word is cut where it would pass 65,535.
pub fn file_of(tables: &Tables, second: usize) -> Vec<u8> {
    let [names, values, lines] = used_parts(tables);
    let last = [0x00, 0x80, 0x06, 0x06, 0x15, 0x16];
    let parts = [names, &[0], values, lines, &last];
    let mut file = vec![0; 2];
    let mut word = second;
    file.extend((word as u16).to_le_bytes());
    for part in parts {
        word += part.len();
        file.extend((word as u16).to_le_bytes());
    }
    file.extend(parts.concat());
    file
}

/// Damages a file: a byte of its words or any byte changed, a word moved by a little, a cut at any length, or bytes
/// added, sometimes with the last word to fit; or it is any bytes.
pub fn damage(random: &mut Random, file: &mut Vec<u8>) {
    match random.below(12) {
        0..=2 => set_byte(random, file, HEAD),
        3 | 4 => {
            let word = random.below(7);
            let by = random.pick(&[1, 2, 8, 0xFFFF, 0xFFFE, 0xFFF8]);
            move_word(file, word, by);
        }
        5 => move_words(random, file),
        6 | 7 => {
            let length = random.below(file.len() + 1);
            file.truncate(length);
        }
        8 => {
            let count = random.between(1, 8);
            file.extend(random.bytes(count));
            move_word(file, 6, count as u16);
        }
        9 => file.push(random.byte()),
        10 => {
            let length = random.below(80);
            *file = random.bytes(length);
            file.iter_mut().take(2).for_each(|byte| *byte = 0);
        }
        _ => {
            let length = file.len();
            set_byte(random, file, length);
        }
    }
}

/// Changes one of the first bytes.
fn set_byte(random: &mut Random, file: &mut [u8], most: usize) {
    let most = most.min(file.len());
    if most > 0 {
        file[random.below(most)] = random.byte();
    }
}

/// Adds to a word, past 65,535 from 0 on.
fn move_word(file: &mut [u8], word: usize, by: u16) {
    if let Some(pair) = file.get_mut(2 * word..2 * word + 2) {
        let moved = u16::from_le_bytes([pair[0], pair[1]]).wrapping_add(by);
        pair.copy_from_slice(&moved.to_le_bytes());
    }
}

/// Moves all words but the first by the same amount, which leaves a file as good as it was unless one passes 65,535.
fn move_words(random: &mut Random, file: &mut [u8]) {
    let by = random.bits() as u16;
    for word in 1..7 {
        move_word(file, word, by);
    }
}

/// The used bytes of names, values and store.
pub fn used_parts(tables: &Tables) -> [&[u8]; 3] {
    let record = &tables.record;
    [
        &tables.names[..record.name_bytes],
        &tables.values[..8 * record.name_count],
        &tables.store[..record.used],
    ]
}
