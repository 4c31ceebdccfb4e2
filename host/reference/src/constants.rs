//! Constants: from decimal text to six bytes and back, digit by digit.

/// A stored constant: 64 plus the power of 100, then ten decimal digits.
pub type Constant = [u8; 6];

/// How long a constant's text is, from the start of `text`; 0 if none stands there.
pub fn constant_length(text: &[u8]) -> usize {
    let whole = digit_run(text);
    let mut length = whole;
    let mut digits = whole;
    if text.get(whole) == Some(&b'.') {
        let fraction = digit_run(&text[whole + 1..]);
        digits += fraction;
        length += 1 + fraction;
    }
    if digits == 0 {
        return 0;
    }
    length + exponent_length(&text[length..])
}

/// How long the exponent's text is: E, perhaps a sign, one or two digits; 0 if it is not so.
fn exponent_length(text: &[u8]) -> usize {
    if text.first() != Some(&b'E') {
        return 0;
    }
    let sign = matches!(text.get(1), Some(b'+' | b'-')) as usize;
    match digit_run(&text[1 + sign..]) {
        0 => 0,
        1 => 1 + sign + 1,
        _ => 1 + sign + 2,
    }
}

/// How many digits stand at the start of `text`.
pub fn digit_run(text: &[u8]) -> usize {
    text.iter()
        .position(|byte| !byte.is_ascii_digit())
        .unwrap_or(text.len())
}

/// Reads the whole of `text` as a constant. None: the value is out of range.
pub fn read_constant(text: &[u8]) -> Option<Constant> {
    let mantissa_length = text.iter().position(|b| *b == b'E').unwrap_or(text.len());
    let (mantissa, exponent) = text.split_at(mantissa_length);
    let point = mantissa.iter().position(|b| *b == b'.');
    let whole_digits = point.unwrap_or(mantissa.len()) as i32;

    // The leading digit is the first that is not zero; without one the value is zero.
    let leading = match mantissa.iter().position(|b| (b'1'..=b'9').contains(b)) {
        Some(place) => place,
        None => return Some([0; 6]),
    };
    // The power of ten that the leading digit is worth, before the exponent.
    let leading_power = match point {
        Some(point) if leading > point => whole_digits - leading as i32,
        _ => whole_digits - 1 - leading as i32,
    };
    let power = leading_power + exponent_value(exponent);
    if !(-98..=97).contains(&power) {
        return None;
    }

    let hundreds = power.div_euclid(2);
    let mut constant = [0; 6];
    constant[0] = (64 + hundreds) as u8;
    // An even power leaves the first of the ten digits zero.
    let mut place = if power.rem_euclid(2) == 0 { 1 } else { 0 };
    for byte in &mantissa[leading..] {
        if *byte == b'.' {
            continue;
        }
        if place == 10 {
            break;
        }
        let digit = byte - b'0';
        constant[1 + place / 2] |= if place % 2 == 0 { digit << 4 } else { digit };
        place += 1;
    }
    Some(constant)
}

/// The value of an exponent's text; 0 for none.
fn exponent_value(text: &[u8]) -> i32 {
    let mut value = 0;
    for byte in text.iter().filter(|byte| byte.is_ascii_digit()) {
        value = value * 10 + (byte - b'0') as i32;
    }
    if text.get(1) == Some(&b'-') {
        -value
    } else {
        value
    }
}

/// Says whether six stored bytes are a constant that some text gives.
pub fn is_constant(bytes: &Constant) -> bool {
    if *bytes == [0; 6] {
        return true;
    }
    let digits_hold = bytes[1..]
        .iter()
        .all(|byte| byte >> 4 <= 9 && byte & 15 <= 9);
    (0x0F..=0x70).contains(&bytes[0]) && bytes[1] != 0 && digits_hold
}

/// The listing of a constant: at most 15 bytes, in the front of an array, and their count.
pub fn spell_constant(bytes: &Constant) -> ([u8; 15], usize) {
    let mut text = Spelling {
        bytes: [0; 15],
        length: 0,
    };
    if *bytes == [0; 6] {
        text.put(b'0');
        return (text.bytes, text.length);
    }
    let mut digits = [0; 10];
    for place in 0..10 {
        let pair = bytes[1 + place / 2];
        digits[place] = if place % 2 == 0 { pair >> 4 } else { pair & 15 };
    }
    let first = if digits[0] == 0 { 1 } else { 0 };
    let last = digits.iter().rposition(|digit| *digit != 0).unwrap_or(0);
    let hundreds = bytes[0] as i32 - 64;
    if (-1..=4).contains(&hundreds) {
        text.plain(&digits, first, last, (hundreds + 1) as usize * 2);
    } else {
        text.with_exponent(&digits, first, last, hundreds * 2 + 1 - first as i32);
    }
    (text.bytes, text.length)
}

/// The listing of one constant, as it grows.
struct Spelling {
    bytes: [u8; 15],
    length: usize,
}

impl Spelling {
    /// Adds one byte.
    fn put(&mut self, byte: u8) {
        self.bytes[self.length] = byte;
        self.length += 1;
    }

    /// Adds the digits from `from` up to but not at `to`.
    fn put_digits(&mut self, digits: &[u8; 10], from: usize, to: usize) {
        for digit in &digits[from..to] {
            self.put(b'0' + digit);
        }
    }

    /// Without exponent: `whole` digits stand before the point.
    fn plain(&mut self, digits: &[u8; 10], first: usize, last: usize, whole: usize) {
        if whole == 0 {
            self.put(b'0');
        } else {
            self.put_digits(digits, first, whole);
        }
        if last >= whole {
            self.put(b'.');
            self.put_digits(digits, whole, last + 1);
        }
    }

    /// With exponent: one digit stands before the point.
    fn with_exponent(&mut self, digits: &[u8; 10], first: usize, last: usize, power: i32) {
        self.put_digits(digits, first, first + 1);
        if last > first {
            self.put(b'.');
            self.put_digits(digits, first + 1, last + 1);
        }
        self.put(b'E');
        self.put(if power < 0 { b'-' } else { b'+' });
        let size = power.unsigned_abs() as u8;
        self.put(b'0' + size / 10);
        self.put(b'0' + size % 10);
    }
}

#[cfg(test)]
mod tests {
    use super::*;

    fn read(text: &str) -> Option<Constant> {
        assert_eq!(constant_length(text.as_bytes()), text.len(), "{text}");
        read_constant(text.as_bytes())
    }

    fn spell(bytes: Constant) -> String {
        let (text, length) = spell_constant(&bytes);
        String::from_utf8(text[..length].to_vec()).unwrap()
    }

    #[test]
    fn starred_constants() {
        assert_eq!(read("0.5"), Some([0x3F, 0x50, 0, 0, 0, 0]));
        let eleven = [0x45, 0x01, 0x23, 0x45, 0x67, 0x89];
        assert_eq!(read("12345678901"), Some(eleven));
        assert_eq!(spell(eleven), "1.23456789E+10");
        assert_eq!(read("1E-98"), Some([0x0F, 0x01, 0, 0, 0, 0]));
        let greatest = [0x70, 0x99, 0x99, 0x99, 0x99, 0x99];
        assert_eq!(read("9.999999999E+97"), Some(greatest));
        assert_eq!(spell(greatest), "9.999999999E+97");
    }

    #[test]
    fn bounds() {
        assert_eq!(read("1E98"), None);
        assert_eq!(read("0.99999999999E-98"), None);
        let greatest = [0x70, 0x99, 0x99, 0x99, 0x99, 0x99];
        assert_eq!(read("9.99999999999E97"), Some(greatest));
        assert_eq!(read("0.00E99"), Some([0; 6]));
        assert_eq!(read("100.00E96"), None);
        assert_eq!(read("0.01E99"), Some([0x70, 0x10, 0, 0, 0, 0]));
        assert_eq!(read("10E-99"), Some([0x0F, 0x01, 0, 0, 0, 0]));
    }

    #[test]
    fn lengths() {
        let cases: [(&str, usize); 14] = [
            ("1.", 2),
            (".5", 2),
            (".", 0),
            ("1.E5", 4),
            ("1..2", 2),
            ("1E", 1),
            ("1E+", 1),
            ("1E 5", 1),
            ("1E5E5", 3),
            ("1E005", 4),
            ("1E-98:", 5),
            ("1E100", 4),
            ("E5", 0),
            ("", 0),
        ];
        for (text, length) in cases {
            assert_eq!(constant_length(text.as_bytes()), length, "{text}");
        }
    }

    #[test]
    fn spellings_are_read_back() {
        let texts = [
            "0.01",
            "0.0123456789",
            "9999999999",
            "1E+10",
            "1.5E-03",
            "0.5",
            "100",
            "12.3456789",
            "9.99E-03",
            "1E-98",
            "1.000000001E+97",
            "0",
            "1000000000",
            "1.2E+11",
        ];
        for text in texts {
            assert_eq!(spell(read(text).unwrap()), text);
        }
    }
}
