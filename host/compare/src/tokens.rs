//! Walks over the tokens of lines, for what a collection leaves and what a program weighs: the reference is not asked here.

use protocol::Tables;
use reference::Weight;

use crate::check::{lines, pair, require, tail};

/// What a collection leaves: just the names that lines use, in their order, each with its value and in that its new
/// number; the same lines but for the numbers of their variables, lengths and offsets set right; the record's pair; and all bytes
/// behind the new ends.
pub fn check_collected(before: &Tables, after: &Tables) -> Result<(), String> {
    let (Some(old_lines), Some(new_lines)) = (lines(before), lines(after)) else {
        return Err("the store does not hold lines end to end".into());
    };
    let (old_names, new_names) = (stored_names(before), stored_names(after));
    let mut used = vec![false; old_names.len()];
    require(
        old_lines.len() == new_lines.len() && pair(before) == pair(after),
        "a line was lost or added",
    )?;
    for (old, new) in old_lines.iter().zip(&new_lines) {
        let (Some(old_tokens), Some(new_tokens)) = (tokens(old), tokens(new)) else {
            return Err("offsets do not lead through a line".into());
        };
        require(
            old[..2] == new[..2] && old_tokens.len() == new_tokens.len(),
            "a line became another",
        )?;
        for pair in old_tokens.iter().zip(&new_tokens) {
            let same = match pair {
                (Token::Variable(old), Token::Variable(new)) => {
                    used[*old] = true;
                    new_names.get(*new) == Some(&old_names[*old])
                }
                (old, new) => old == new,
            };
            require(same, "a token became another")?;
        }
    }
    let kept: Vec<usize> = (0..used.len()).filter(|number| used[*number]).collect();
    let kept_names: Vec<&[u8]> = kept.iter().map(|number| old_names[*number]).collect();
    require(
        kept_names == new_names,
        "the names are not those that lines use",
    )?;
    for (new, old) in kept.iter().enumerate() {
        let mut value = before.values[8 * old..8 * old + 8].to_vec();
        value[1] = new as u8;
        require(
            value == after.values[8 * new..8 * new + 8],
            "a value did not move with its name",
        )?;
    }
    tail(&before.names, &after.names, after.record.name_bytes)?;
    tail(&before.values, &after.values, 8 * after.record.name_count)?;
    tail(&before.store, &after.store, after.record.used)
}

/// What a program weighs whose listings have so many bytes, worked out token by token.
pub fn weight_of(program: &Tables, listing: usize) -> Option<Weight> {
    let lines = lines(program)?;
    let mut weight = Weight {
        lines: lines.len(),
        names: program.record.name_count,
        used: program.record.used,
        listing,
        ..Weight::default()
    };
    for line in lines {
        let mut word = 0;
        for token in tokens(line)? {
            match token {
                Token::Statement(token) => word = token,
                Token::Variable(number) => weight.variables += if number < 128 { 1 } else { 2 },
                Token::Bytes(text) if matches!(word, 0x00 | 0x01 | 0x37) => {
                    weight.raw += text.len() - 1
                }
                Token::Bytes([0x0E, ..]) => weight.numbers += 7,
                Token::Bytes(string @ [0x0F, ..]) => weight.strings += string.len(),
                Token::Bytes(_) => {}
            }
        }
    }
    let named = weight.variables + weight.numbers + weight.strings + weight.raw;
    weight.others = weight.used - named;
    Some(weight)
}

/// The names of a sound table, as they are stored.
fn stored_names(tables: &Tables) -> Vec<&[u8]> {
    tables.names[..tables.record.name_bytes]
        .split_inclusive(|byte| *byte >= 0x80)
        .collect()
}

/// A token of a line, or bytes that stand for themselves.
#[derive(PartialEq, Eq)]
enum Token<'a> {
    Statement(u8),
    Variable(usize),
    Bytes(&'a [u8]),
}

/// The tokens of a line that can be listed, without its length and offsets; None where these do not lead through it.
fn tokens(line: &[u8]) -> Option<Vec<Token<'_>>> {
    let mut tokens = Vec::new();
    let mut at = 3;
    while at < line.len() {
        let end = line[at] as usize;
        let word = *line.get(at + 1)?;
        let mut rest = line.get(at + 2..end)?;
        tokens.push(Token::Statement(word));
        if matches!(word, 0x00 | 0x01 | 0x37) {
            tokens.push(Token::Bytes(rest));
            rest = &[];
        }
        while let Some(first) = rest.first() {
            let (token, size) = match *first {
                0x00 => (Token::Variable(128 + *rest.get(1)? as usize), 2),
                byte @ 0x80.. => (Token::Variable(byte as usize - 128), 1),
                0x0E => (Token::Bytes(rest.get(..7)?), 7),
                0x0F => {
                    let size = 2 + *rest.get(1)? as usize;
                    (Token::Bytes(rest.get(..size)?), size)
                }
                _ => (Token::Bytes(&rest[..1]), 1),
            };
            tokens.push(token);
            rest = &rest[size..];
        }
        at = end;
    }
    (at == line.len()).then_some(tokens)
}

#[cfg(test)]
mod tests {
    use protocol::{Answer, Call};

    use super::*;
    use crate::cases::Cases;
    use crate::random::Random;

    /// No bit of what a collection leaves can be another.
    #[test]
    fn every_bit_after_a_collection_is_checked() {
        let mut random = Random::new(5);
        let mut tried = 0;
        for case in Cases::new(11, 1 << 63).take(5_000) {
            let (
                Call::Collect { tables },
                Answer::Load {
                    number: 0,
                    tables: after,
                },
            ) = (&case.call, &case.expected)
            else {
                continue;
            };
            assert_eq!(check_collected(tables, after), Ok(()));
            for _ in 0..20 {
                let mut other = after.clone();
                let buffer = match random.below(4) {
                    0 => &mut other.names,
                    1 => &mut other.values,
                    _ => &mut other.store,
                };
                if buffer.is_empty() {
                    continue;
                }
                let place = random.below(buffer.len());
                buffer[place] ^= 1 << random.below(8);
                assert!(
                    check_collected(tables, &other).is_err(),
                    "{tables:?} {after:?} {other:?}"
                );
                tried += 1;
            }
        }
        assert!(tried > 1_000);
    }
}
