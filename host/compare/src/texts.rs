//! Texts to enter: lawful ones made along the grammar, spoilt ones, and any bytes.

use crate::random::Random;

/// Words that look like others, or are names only in some places.
const ODD_NAMES: [&str; 34] = [
    "PRINT", "REM", "IF", "GOTO1", "ORB", "BORC", "TO5", "STR", "CHR", "LEN1", "NOTE", "END", "E5",
    "E", "STEPS", "ANDY", "LET", "DATA", "FOR", "NEXT", "ON", "DIM", "THENA", "NOTA", "SINX",
    "CLOAD", "GO", "RUN", "COLOR", "POP", "X1", "LORT", "GRAPHICS", "INPUT",
];
const WORDS: [&str; 80] = [
    "REM",
    "DATA",
    "INPUT",
    "COLOR",
    "LIST",
    "ENTER",
    "LET",
    "IF",
    "FOR",
    "NEXT",
    "GOTO",
    "GOSUB",
    "TRAP",
    "BYE",
    "CONT",
    "COM",
    "CLOSE",
    "CLR",
    "DEG",
    "DIM",
    "END",
    "NEW",
    "OPEN",
    "LOAD",
    "SAVE",
    "STATUS",
    "NOTE",
    "POINT",
    "XIO",
    "ON",
    "POKE",
    "PRINT",
    "RAD",
    "READ",
    "RESTORE",
    "RETURN",
    "RUN",
    "STOP",
    "POP",
    "?",
    "GET",
    "PUT",
    "GRAPHICS",
    "PLOT",
    "DOS",
    "LPRINT",
    "NOT",
    "OR",
    "AND",
    "TO",
    "STEP",
    "THEN",
    "STR$",
    "CHR$",
    "USR",
    "ASC",
    "VAL",
    "LEN",
    "ADR",
    "ATN",
    "COS",
    "PEEK",
    "SIN",
    "RND",
    "FRE",
    "EXP",
    "LOG",
    "CLOG",
    "SQR",
    "SGN",
    "ABS",
    "INT",
    "PADDLE",
    "STICK",
    "PTRIG",
    "STRIG",
    "GO TO",
    "\"",
    "9999999999",
    "1E-99",
];
const NUMBER_FUNCTIONS: [&str; 13] = [
    "ATN", "COS", "PEEK", "SIN", "RND", "FRE", "EXP", "LOG", "CLOG", "SQR", "SGN", "ABS", "INT",
];
const COMPARISONS: [&str; 6] = ["<=", "<>", ">=", "<", ">", "="];
const JOINERS: [&str; 13] = [
    "^", "*", "+", "-", "/", "<=", "<>", ">=", "<", ">", "=", "OR", "AND",
];
/// Bytes that mean something to the grammar.
const ALPHABET: &[u8] =
    b"          ,,::;;##<<>>==^*+-/(((()))??$$\"\"..EEEAABZ0123456789\x9B\x1Ba\t!";

/// What a name holds, by its last byte.
#[derive(Clone, Copy, PartialEq, Eq)]
pub enum Sort {
    Number,
    String,
    Array,
}

/// The sort of a plain name.
fn sort_of(name: &[u8]) -> Sort {
    match name.last() {
        Some(b'$') => Sort::String,
        Some(b'(') => Sort::Array,
        _ => Sort::Number,
    }
}

/// A text that is being made.
struct Maker<'a> {
    random: &'a mut Random,
    names: &'a [Vec<u8>],
    text: Vec<u8>,
    /// Statements and terms are kept short once the text is this long.
    aim: usize,
    /// How often, in a hundred, blanks are put where none is needed.
    blanks: usize,
}

/// A line number as text: mostly of a small set, so that lines meet.
pub fn line_number_text(random: &mut Random) -> Vec<u8> {
    let number = match random.below(100) {
        0..=79 => random.below(40),
        80..=89 => random.below(32768),
        90..=96 => random.between(32760, 32767),
        97 => random.between(32768, 40000),
        98 => random.below(70000),
        _ => return b"00000000000000000000000000000099999999999999999999".to_vec(),
    };
    let mut text = Vec::new();
    if random.chance(10) {
        text.extend(vec![b' '; random.below(4)]);
    }
    if random.chance(5) {
        text.extend(vec![b'0'; random.below(6)]);
    }
    text.extend(number.to_string().into_bytes());
    text
}

/// A text that the grammar has a reading for, unless a constant is out of range. The last quote is sometimes left off.
pub fn lawful_text(random: &mut Random, names: &[Vec<u8>]) -> Vec<u8> {
    let text = line_number_text(random);
    let aim = match random.below(10) {
        0..=5 => random.between(5, 40),
        6..=8 => random.between(40, 100),
        _ => random.between(90, 118),
    };
    let blanks = [0, 3, 15, 60][random.below(4)];
    let mut maker = Maker {
        random,
        names,
        text,
        aim,
        blanks,
    };
    maker.statements();
    if maker.text.last() == Some(&b'"') && maker.random.chance(40) {
        maker.text.pop();
    }
    if maker.random.chance(10) {
        maker.some_blanks();
    }
    maker.text
}

/// Says whether a text begins with a digit, after blanks.
pub fn has_number(text: &[u8]) -> bool {
    let first = text.iter().find(|byte| **byte != b' ');
    first.is_some_and(u8::is_ascii_digit)
}

/// Takes the number off the front of a text; blanks may stand there then.
pub fn take_number_off(random: &mut Random, text: &mut Vec<u8>) {
    let blanks = text.iter().take_while(|byte| **byte == b' ').count();
    let digits = text[blanks..].iter().take_while(|b| b.is_ascii_digit());
    let end = blanks + digits.count();
    let kept = if random.chance(20) {
        random.below(4)
    } else {
        0
    };
    text.splice(..end, vec![b' '; kept]);
}

/// Text that deletes a line.
pub fn delete_text(random: &mut Random) -> Vec<u8> {
    let mut text = line_number_text(random);
    text.extend(vec![b' '; random.below(4)]);
    text
}

/// Spoils a text in a few places.
pub fn spoil(random: &mut Random, text: &mut Vec<u8>) {
    for _ in 0..random.between(1, 3) {
        let place = random.below(text.len() + 1);
        match random.below(11) {
            0 if place < text.len() => {
                text.remove(place);
            }
            1 if place < text.len() => text[place] = ALPHABET[random.below(ALPHABET.len())],
            2 => text.insert(place, ALPHABET[random.below(ALPHABET.len())]),
            3 => {
                let word = random.pick(&WORDS);
                text.splice(place..place, word.bytes());
            }
            4 => text.truncate(place),
            5 => {
                let end = (place + random.below(12)).min(text.len());
                let piece = text[place..end].to_vec();
                let to = random.below(text.len() + 1);
                text.splice(to..to, piece);
            }
            6 => {
                let end = (place + random.below(8)).min(text.len());
                text.drain(place..end);
            }
            7 | 8 => spoil_separator(random, text),
            // What keeps a wrong line from being kept.
            9 => text.insert(place, random.pick(&[0x1B, 0x9B])),
            _ => text.insert(place, random.byte()),
        }
    }
}

/// Leaves a `,`, `;` or `#` off, doubles it, or puts another in its place.
fn spoil_separator(random: &mut Random, text: &mut Vec<u8>) {
    let places: Vec<usize> = (0..text.len())
        .filter(|place| b",;#".contains(&text[*place]))
        .collect();
    if places.is_empty() {
        return;
    }
    let place = random.pick(&places);
    match random.below(3) {
        0 => {
            text.remove(place);
        }
        1 => text.insert(place, text[place]),
        _ => text[place] = random.pick(b",;#"),
    }
}

/// Any bytes, or bytes and words that mean something.
pub fn any_text(random: &mut Random) -> Vec<u8> {
    let bound = if random.chance(10) { 300 } else { 124 };
    let length = random.below(bound);
    if random.chance(20) {
        return random.bytes(length);
    }
    let mut text = line_number_text(random);
    while text.len() < length {
        if random.chance(30) {
            text.extend(random.pick(&WORDS).bytes());
        } else {
            text.push(ALPHABET[random.below(ALPHABET.len())]);
        }
    }
    text
}

/// A text that gives a long token line, or many names.
pub fn bulky_text(random: &mut Random) -> Vec<u8> {
    let mut text = line_number_text(random);
    let (head, part): (&str, &str) = match random.below(4) {
        0 => (" A=1", "+1"),
        1 => (" ?1", ",1"),
        2 => ("?", ":?"),
        _ => {
            text.extend(b" ?");
            let count = random.between(1, 59);
            for number in 0..count {
                text.push(b'A' + (number % 26) as u8);
                if number >= 26 {
                    text.push(b'0' + random.below(10) as u8);
                }
                text.push(b';');
            }
            return text;
        }
    };
    text.extend(head.bytes());
    for _ in 0..random.between(20, 59) {
        text.extend(part.bytes());
    }
    text
}

/// A new name's letters and digits, without mark.
fn letters(random: &mut Random) -> Vec<u8> {
    if random.chance(15) {
        return random.pick(&ODD_NAMES).as_bytes().to_vec();
    }
    let mut name = vec![b'A' + random.below(26) as u8];
    for _ in 0..[0, 0, 1, 1, 2, 5][random.below(6)] {
        name.push(b"ABCDEFGHIJKLMNOPQRSTUVWXYZ0123456789"[random.below(36)]);
    }
    name
}

/// A new plain name, lawful in a table.
pub fn new_name(random: &mut Random) -> Vec<u8> {
    loop {
        let mut name = letters(random);
        match random.below(4) {
            0 => name.push(b'$'),
            1 => name.push(b'('),
            _ => {}
        }
        let word = name.strip_suffix(b"(").unwrap_or(&name);
        let reserved = [
            "NOT", "OR", "AND", "GOTO", "GOSUB", "TO", "STEP", "THEN", "USR", "ASC", "VAL", "LEN",
            "ADR", "STR$", "CHR$", "PADDLE", "STICK", "PTRIG", "STRIG",
        ];
        let functions = NUMBER_FUNCTIONS.iter();
        if !reserved
            .iter()
            .chain(functions)
            .any(|fixed| fixed.as_bytes() == word)
        {
            return name;
        }
    }
}

impl Maker<'_> {
    fn some_blanks(&mut self) {
        let count = self.random.between(1, 3);
        self.text.extend(vec![b' '; count]);
    }

    /// Adds an item, with a blank before it where two would run together.
    fn item(&mut self, item: &[u8]) {
        let runs = |byte: &u8| byte.is_ascii_alphanumeric() || *byte == b'.' || *byte == b'$';
        let last = self.text.last().copied().unwrap_or(b' ');
        let first = item.first().copied().unwrap_or(b' ');
        let needed = (runs(&last) && runs(&first))
            || (matches!(last, b'<' | b'>') && matches!(first, b'=' | b'>'));
        if needed && !self.random.chance(1) {
            self.text.push(b' ');
        }
        if self.random.chance(self.blanks) {
            self.some_blanks();
        }
        self.text.extend_from_slice(item);
    }

    fn word(&mut self, word: &str) {
        self.item(word.as_bytes());
    }

    /// Says whether the text should come to its end.
    fn long(&self) -> bool {
        self.text.len() >= self.aim
    }

    /// Adds a variable's name; an array's with its `(`.
    fn name(&mut self, sort: Sort, statement_start: bool) {
        for _ in 0..6 {
            if self.names.is_empty() || self.random.chance(15) {
                break;
            }
            let name = &self.names[self.random.below(self.names.len())];
            let word = name.strip_suffix(b"(").unwrap_or(name);
            let hidden = statement_start && WORDS.iter().any(|fixed| fixed.as_bytes() == word);
            if sort_of(name) == sort && name.len() <= 20 && !hidden {
                let name = name.clone();
                return self.item(&name);
            }
        }
        let mut name = letters(self.random);
        while WORDS.iter().any(|word| word.as_bytes() == name)
            && (statement_start || self.random.chance(90))
        {
            name = letters(self.random);
        }
        match sort {
            Sort::Number => {}
            Sort::String => name.push(b'$'),
            Sort::Array => name.push(b'('),
        }
        self.item(&name);
    }

    fn statements(&mut self) {
        loop {
            if self.statement() {
                return;
            }
            if self.long() || self.random.chance(40) {
                return;
            }
            self.word(":");
        }
    }

    /// Adds a statement; true if it must be the last.
    fn statement(&mut self) -> bool {
        match self.random.below(30) {
            0 => {
                let word = self.random.pick(&["REM", "DATA"]);
                self.word(word);
                if self.random.chance(80) {
                    self.text.push(b' ');
                }
                let count = self.random.below(12);
                for _ in 0..count {
                    let byte = self.random.byte();
                    self.text.push(if byte == 0x9B || self.random.chance(70) {
                        b'A' + byte % 26
                    } else {
                        byte
                    });
                }
                return true;
            }
            1..=5 => self.assignment(true),
            6 => {
                self.word("LET");
                self.assignment(false);
            }
            7..=9 => {
                self.word("IF");
                self.number(0);
                self.word("THEN");
                if self.random.chance(40) {
                    self.constant();
                } else {
                    return self.statement();
                }
            }
            10 => {
                self.word("FOR");
                self.name(Sort::Number, false);
                self.word("=");
                self.number(0);
                self.word("TO");
                self.number(0);
                if self.random.chance(40) {
                    self.word("STEP");
                    self.number(0);
                }
            }
            11 => {
                self.word("NEXT");
                self.name(Sort::Number, false);
            }
            12 => {
                self.word("ON");
                self.number(0);
                let word = self.random.pick(&["GOTO", "GOSUB"]);
                self.word(word);
                self.number(0);
                while self.random.chance(40) && !self.long() {
                    self.word(",");
                    self.number(0);
                }
            }
            13 => self.dim(),
            14 => {
                let word = self.random.pick(&["READ", "INPUT"]);
                self.word(word);
                if word == "INPUT" && self.random.chance(50) {
                    self.channel();
                    let word = self.random.pick(&[",", ";"]);
                    self.word(word);
                }
                loop {
                    let sort = if self.random.chance(50) {
                        Sort::Number
                    } else {
                        Sort::String
                    };
                    self.name(sort, false);
                    if self.long() || self.random.chance(50) {
                        break;
                    }
                    self.word(",");
                }
            }
            15..=18 => self.print(),
            19 => {
                self.word("POKE");
                self.number(0);
                self.word(",");
                self.number(0);
            }
            20 | 21 => {
                let word = self.random.pick(&["GOTO", "GOSUB", "TRAP"]);
                self.word(word);
                self.number(0);
            }
            22 => {
                self.word("RESTORE");
                if self.random.chance(50) {
                    self.number(0);
                }
            }
            23..=28 => self.device(),
            _ => {
                let word = self
                    .random
                    .pick(&["CLR", "DEG", "END", "POP", "RAD", "RETURN", "STOP"]);
                self.word(word);
            }
        }
        false
    }

    fn assignment(&mut self, statement_start: bool) {
        match self.random.below(4) {
            0 => {
                self.name(Sort::Array, statement_start);
                self.array_subscripts();
                self.word("=");
                self.number(0);
            }
            1 => {
                self.name(Sort::String, statement_start);
                if self.random.chance(30) {
                    self.word("(");
                    self.array_subscripts();
                }
                self.word("=");
                self.string(0);
            }
            _ => {
                self.name(Sort::Number, statement_start);
                self.word("=");
                self.number(0);
            }
        }
    }

    /// One or two N and `)`, after a `(`.
    fn array_subscripts(&mut self) {
        self.number(1);
        if self.random.chance(40) {
            self.word(",");
            self.number(1);
        }
        self.word(")");
    }

    fn dim(&mut self) {
        self.word("DIM");
        loop {
            if self.random.chance(50) {
                self.name(Sort::Array, false);
                self.array_subscripts();
            } else {
                self.name(Sort::String, false);
                self.word("(");
                self.number(1);
                self.word(")");
            }
            if self.long() || self.random.chance(60) {
                return;
            }
            self.word(",");
        }
    }

    /// `#` and N.
    fn channel(&mut self) {
        self.word("#");
        self.number(1);
    }

    /// A comma and an N.
    fn comma_number(&mut self) {
        self.word(",");
        self.number(1);
    }

    /// A comma and a numeric variable.
    fn comma_variable(&mut self) {
        self.word(",");
        self.name(Sort::Number, false);
    }

    /// A device statement.
    fn device(&mut self) {
        const DEVICES: [&str; 8] = [
            "OPEN", "CLOSE", "GET", "PUT", "XIO", "STATUS", "NOTE", "POINT",
        ];
        let word = self.random.pick(&DEVICES);
        self.word(word);
        if word == "XIO" {
            self.number(1);
            self.word(",");
        }
        self.channel();
        match word {
            "OPEN" | "XIO" => {
                self.comma_number();
                self.comma_number();
                self.word(",");
                self.string(1);
            }
            "PUT" => self.comma_number(),
            "GET" | "STATUS" => self.comma_variable(),
            "NOTE" | "POINT" => {
                self.comma_variable();
                self.comma_variable();
            }
            _ => {}
        }
    }

    fn print(&mut self) {
        let word = self.random.pick(&["PRINT", "?"]);
        self.word(word);
        let mut after_value = self.random.chance(30);
        if after_value {
            self.channel();
        }
        while !self.random.chance(25) && !self.long() {
            if after_value || self.random.chance(20) {
                let word = self.random.pick(&[",", ";"]);
                self.word(word);
                after_value = false;
            } else {
                if self.random.chance(40) {
                    self.string(0);
                } else {
                    self.number(0);
                }
                after_value = true;
            }
        }
    }

    fn number(&mut self, depth: usize) {
        self.term(depth);
        while !self.long() && self.random.chance(25) {
            let word = self.random.pick(&JOINERS);
            self.word(word);
            self.term(depth);
        }
    }

    fn term(&mut self, depth: usize) {
        while self.random.chance(12) {
            let word = self.random.pick(&["+", "-", "NOT"]);
            self.word(word);
        }
        let simple = depth > 4 || self.long();
        match if simple {
            self.random.below(6)
        } else {
            self.random.below(16)
        } {
            0..=2 => self.name(Sort::Number, false),
            3..=6 => self.constant(),
            7 | 8 => {
                self.name(Sort::Array, false);
                self.array_subscripts();
            }
            9 | 10 => {
                self.word("(");
                self.number(depth + 1);
                self.word(")");
            }
            11 | 12 => {
                let word = self.random.pick(&NUMBER_FUNCTIONS);
                self.word(word);
                self.word("(");
                self.number(depth + 1);
                self.word(")");
            }
            13 => {
                let word = self.random.pick(&["ASC", "VAL", "LEN"]);
                self.word(word);
                self.word("(");
                self.string(depth + 1);
                self.word(")");
            }
            _ => {
                self.string(depth + 1);
                let word = self.random.pick(&COMPARISONS);
                self.word(word);
                self.string(depth + 1);
            }
        }
    }

    fn string(&mut self, depth: usize) {
        let simple = depth > 4 || self.long();
        match if simple {
            self.random.below(6)
        } else {
            self.random.below(9)
        } {
            0..=2 => self.name(Sort::String, false),
            3..=5 => {
                let count = self.random.below(8);
                let mut item = vec![b'"'];
                for _ in 0..count {
                    let byte = self.random.byte();
                    let lawful = byte != b'"' && byte != 0x9B && self.random.chance(30);
                    item.push(if lawful { byte } else { b'A' + byte % 26 });
                }
                item.push(b'"');
                self.item(&item);
            }
            6 | 7 => {
                self.name(Sort::String, false);
                self.word("(");
                self.array_subscripts();
            }
            _ => {
                let word = self.random.pick(&["STR$", "CHR$"]);
                self.word(word);
                self.word("(");
                self.number(depth + 1);
                self.word(")");
            }
        }
    }

    fn constant(&mut self) {
        let text = constant_text(self.random);
        self.item(&text);
    }
}

/// A constant's text, seldom out of range.
fn constant_text(random: &mut Random) -> Vec<u8> {
    const ODD: [&str; 16] = [
        "0",
        "0.0",
        "00.E99",
        "1E97",
        "9.99999999999E97",
        "0.1E98",
        "1E-98",
        "10E-99",
        "0.01",
        "0.00999999999999",
        "9999999999.9",
        "10000000000",
        "12345678901",
        ".5",
        "5.",
        "0.0000000001",
    ];
    match random.below(20) {
        0..=9 => random.below(1000).to_string().into_bytes(),
        10 | 11 => random.below(40000).to_string().into_bytes(),
        12 | 13 => random.pick(&ODD).as_bytes().to_vec(),
        14 if random.chance(15) => random
            .pick(&["1E98", "1E-99", "0.99E-98", "100E97"])
            .as_bytes()
            .to_vec(),
        _ => {
            let mut text = Vec::new();
            for _ in 0..random.below(14) {
                text.push(b'0' + random.below(10) as u8);
            }
            if random.chance(60) {
                text.push(b'.');
                for _ in 0..random.below(14) {
                    text.push(b'0' + random.below(10) as u8);
                }
            }
            if !text.iter().any(u8::is_ascii_digit) {
                text.push(b'7');
            }
            if random.chance(40) {
                text.push(b'E');
                text.extend(random.pick(&["", "+", "-"]).bytes());
                text.extend(random.below(83).to_string().into_bytes());
            }
            text
        }
    }
}
