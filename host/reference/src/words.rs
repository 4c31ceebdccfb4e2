//! The fixed words, the token numbers and what a byte stands for.

/// Statement words; the place in the table is the token. 0B (GO TO) is left out.
pub const STATEMENT_WORDS: [&[u8]; 0x36] = [
    b"REM",
    b"DATA",
    b"INPUT",
    b"COLOR",
    b"LIST",
    b"ENTER",
    b"LET",
    b"IF",
    b"FOR",
    b"NEXT",
    b"GOTO",
    b"",
    b"GOSUB",
    b"TRAP",
    b"BYE",
    b"CONT",
    b"COM",
    b"CLOSE",
    b"CLR",
    b"DEG",
    b"DIM",
    b"END",
    b"NEW",
    b"OPEN",
    b"LOAD",
    b"SAVE",
    b"STATUS",
    b"NOTE",
    b"POINT",
    b"XIO",
    b"ON",
    b"POKE",
    b"PRINT",
    b"RAD",
    b"READ",
    b"RESTORE",
    b"RETURN",
    b"RUN",
    b"STOP",
    b"POP",
    b"?",
    b"GET",
    b"PUT",
    b"GRAPHICS",
    b"PLOT",
    b"POSITION",
    b"DOS",
    b"DRAWTO",
    b"SETCOLOR",
    b"LOCATE",
    b"SOUND",
    b"LPRINT",
    b"CSAVE",
    b"CLOAD",
];

/// Operators that are words, each with its token.
pub const WORD_OPERATORS: [(&[u8], u8); 8] = [
    (b"NOT", operator::NOT),
    (b"OR", operator::OR),
    (b"AND", operator::AND),
    (b"GOTO", operator::GOTO),
    (b"GOSUB", operator::GOSUB),
    (b"TO", operator::TO),
    (b"STEP", operator::STEP),
    (b"THEN", operator::THEN),
];

/// Function names; the place in the table plus 3D is the token.
pub const FUNCTION_WORDS: [&[u8]; 24] = [
    b"STR$", b"CHR$", b"USR", b"ASC", b"VAL", b"LEN", b"ADR", b"ATN", b"COS", b"PEEK", b"SIN",
    b"RND", b"FRE", b"EXP", b"LOG", b"CLOG", b"SQR", b"SGN", b"ABS", b"INT", b"PADDLE", b"STICK",
    b"PTRIG", b"STRIG",
];

/// Statement tokens that the grammar speaks of.
pub mod statement {
    pub const REM: u8 = 0x00;
    pub const DATA: u8 = 0x01;
    pub const INPUT: u8 = 0x02;
    pub const LET: u8 = 0x06;
    pub const IF: u8 = 0x07;
    pub const FOR: u8 = 0x08;
    pub const NEXT: u8 = 0x09;
    pub const GOTO: u8 = 0x0A;
    pub const GOSUB: u8 = 0x0C;
    pub const TRAP: u8 = 0x0D;
    pub const CLOSE: u8 = 0x11;
    pub const CLR: u8 = 0x12;
    pub const DEG: u8 = 0x13;
    pub const DIM: u8 = 0x14;
    pub const END: u8 = 0x15;
    pub const OPEN: u8 = 0x17;
    pub const STATUS: u8 = 0x1A;
    pub const NOTE: u8 = 0x1B;
    pub const POINT: u8 = 0x1C;
    pub const XIO: u8 = 0x1D;
    pub const ON: u8 = 0x1E;
    pub const POKE: u8 = 0x1F;
    pub const PRINT: u8 = 0x20;
    pub const RAD: u8 = 0x21;
    pub const READ: u8 = 0x22;
    pub const RESTORE: u8 = 0x23;
    pub const RETURN: u8 = 0x24;
    pub const STOP: u8 = 0x26;
    pub const POP: u8 = 0x27;
    pub const QUESTION: u8 = 0x28;
    pub const GET: u8 = 0x29;
    pub const PUT: u8 = 0x2A;
    /// LET without the word.
    pub const SILENT_LET: u8 = 0x36;
    /// A wrong line that was kept.
    pub const ERROR: u8 = 0x37;
}

/// Operator tokens, and the two marks of values that lie in the line itself.
pub mod operator {
    pub const NUMBER: u8 = 0x0E;
    pub const STRING: u8 = 0x0F;
    pub const COMMA: u8 = 0x12;
    pub const COLON: u8 = 0x14;
    pub const SEMICOLON: u8 = 0x15;
    pub const LINE_END: u8 = 0x16;
    pub const GOTO: u8 = 0x17;
    pub const GOSUB: u8 = 0x18;
    pub const TO: u8 = 0x19;
    pub const STEP: u8 = 0x1A;
    pub const THEN: u8 = 0x1B;
    pub const HASH: u8 = 0x1C;
    pub const LESS_EQUAL: u8 = 0x1D;
    pub const NOT_EQUAL: u8 = 0x1E;
    pub const GREATER_EQUAL: u8 = 0x1F;
    pub const LESS: u8 = 0x20;
    pub const GREATER: u8 = 0x21;
    pub const EQUAL: u8 = 0x22;
    pub const POWER: u8 = 0x23;
    pub const TIMES: u8 = 0x24;
    pub const PLUS: u8 = 0x25;
    pub const MINUS: u8 = 0x26;
    pub const DIVIDE: u8 = 0x27;
    pub const NOT: u8 = 0x28;
    pub const OR: u8 = 0x29;
    pub const AND: u8 = 0x2A;
    pub const OPEN: u8 = 0x2B;
    pub const CLOSE: u8 = 0x2C;
    pub const ASSIGN_NUMBER: u8 = 0x2D;
    pub const ASSIGN_STRING: u8 = 0x2E;
    /// 2F to 34 compare strings, in the order of 1D to 22.
    pub const STRING_LESS_EQUAL: u8 = 0x2F;
    pub const STRING_EQUAL: u8 = 0x34;
    pub const PREFIX_PLUS: u8 = 0x35;
    pub const PREFIX_MINUS: u8 = 0x36;
    pub const OPEN_SUBSTRING: u8 = 0x37;
    pub const OPEN_ARRAY: u8 = 0x38;
    pub const OPEN_DIM_ARRAY: u8 = 0x39;
    pub const OPEN_FUNCTION: u8 = 0x3A;
    pub const OPEN_DIM_STRING: u8 = 0x3B;
    pub const INNER_COMMA: u8 = 0x3C;
}

/// Function tokens that the grammar speaks of.
pub mod function {
    pub const FIRST: u8 = 0x3D;
    pub const STR: u8 = 0x3D;
    pub const CHR: u8 = 0x3E;
    pub const ASC: u8 = 0x40;
    pub const VAL: u8 = 0x41;
    pub const LEN: u8 = 0x42;
    pub const ATN: u8 = 0x44;
    pub const INT: u8 = 0x50;
    pub const LAST: u8 = 0x54;
}

/// The byte that ends REM and DATA text.
pub const TEXT_END: u8 = 0x9B;

/// What a function takes and gives, for those the grammar lets in.
#[derive(Clone, Copy, PartialEq, Eq)]
pub enum FunctionUse {
    NumberFromNumber,
    NumberFromString,
    StringFromNumber,
    Refused,
}

/// Says how a function token is used.
pub fn function_use(token: u8) -> FunctionUse {
    match token {
        function::STR | function::CHR => FunctionUse::StringFromNumber,
        function::ASC | function::VAL | function::LEN => FunctionUse::NumberFromString,
        function::ATN..=function::INT => FunctionUse::NumberFromNumber,
        _ => FunctionUse::Refused,
    }
}

/// Finds the statement token of a whole word.
pub fn statement_token(word: &[u8]) -> Option<u8> {
    position(&STATEMENT_WORDS, word).map(|place| place as u8)
}

/// Finds the token of a whole word that is an operator.
pub fn operator_token(word: &[u8]) -> Option<u8> {
    let row = WORD_OPERATORS.iter().find(|row| row.0 == word)?;
    Some(row.1)
}

/// Finds the token of a whole word that is a function's name.
pub fn function_token(word: &[u8]) -> Option<u8> {
    position(&FUNCTION_WORDS, word).map(|place| function::FIRST + place as u8)
}

/// Says whether a word may never be a variable's name.
pub fn is_reserved(word: &[u8]) -> bool {
    operator_token(word).is_some() || function_token(word).is_some()
}

/// Finds a word in a table.
fn position(table: &[&[u8]], word: &[u8]) -> Option<usize> {
    table.iter().position(|entry| *entry == word)
}

/// Says whether a byte is one of the six comparisons of numbers.
pub fn is_comparison(token: u8) -> bool {
    (operator::LESS_EQUAL..=operator::EQUAL).contains(&token)
}

/// Says whether a byte is one of the six comparisons of strings.
pub fn is_string_comparison(token: u8) -> bool {
    (operator::STRING_LESS_EQUAL..=operator::STRING_EQUAL).contains(&token)
}

/// Turns a comparison of numbers into the same comparison of strings.
pub fn string_comparison(token: u8) -> u8 {
    token - operator::LESS_EQUAL + operator::STRING_LESS_EQUAL
}

/// Says whether a byte joins two terms of a numeric expression.
pub fn joins_terms(token: u8) -> bool {
    is_comparison(token)
        || (operator::POWER..=operator::DIVIDE).contains(&token)
        || token == operator::OR
        || token == operator::AND
}
