//! From a token line to text: the test that it can be listed, then its spelling.

use crate::constants::{is_constant, spell_constant, Constant};
use crate::errors::error_text;
use crate::tables::{line_number, Names, Variable, DIRECT_LINE, FIRST_LONG, LONG_MARK};
use crate::words::{
    function, function_use, is_string_comparison, joins_terms, operator, statement, FunctionUse,
    FUNCTION_WORDS, STATEMENT_WORDS, TEXT_END, WORD_OPERATORS,
};

/// Says whether a line can be listed: an error line, or one that is well-formed over this name table.
pub fn listable(line: &[u8], names: &Names) -> bool {
    error_text(line).is_some() || well_formed(line, names)
}

/// Says whether some lawful sequence of items gives this line over this name table.
pub fn well_formed(line: &[u8], names: &Names) -> bool {
    let mut walk = Walk { line, at: 3, names };
    walk.statements().is_some()
}

/// A walk over a line's tokens. Its readers give None where the line is not well-formed.
struct Walk<'a> {
    line: &'a [u8],
    at: usize,
    names: &'a Names<'a>,
}

impl Walk<'_> {
    /// The byte in view.
    fn peek(&self) -> Option<u8> {
        self.line.get(self.at).copied()
    }

    /// Takes the byte in view.
    fn next(&mut self) -> Option<u8> {
        let byte = self.peek()?;
        self.at += 1;
        Some(byte)
    }

    /// Takes this byte if it is in view.
    fn accept(&mut self, byte: u8) -> bool {
        let there = self.peek() == Some(byte);
        self.at += there as usize;
        there
    }

    /// Takes a byte that must stand here.
    fn expect(&mut self, byte: u8) -> Option<()> {
        self.accept(byte).then_some(())
    }

    /// Goes on only if `holds`.
    fn require(&self, holds: bool) -> Option<()> {
        holds.then_some(())
    }

    /// The number of the variable in view and how many bytes it is, if there is one.
    fn variable_token(&self) -> Option<(usize, usize)> {
        variable_at(self.line, self.at)
    }

    /// What variable is in view, if it is one of the table.
    fn variable(&self) -> Option<Variable> {
        self.names.variable(self.variable_token()?.0)
    }

    /// Takes the variable in view, if it is one of the table.
    fn take_variable(&mut self) -> Option<Variable> {
        let (number, size) = self.variable_token()?;
        self.at += size;
        self.names.variable(number)
    }

    /// All statements, each with a right offset, up to the line's end.
    fn statements(&mut self) -> Option<()> {
        loop {
            let offset = self.next()? as usize;
            let token = self.next()?;
            match token {
                statement::REM | statement::DATA => return self.raw_text(offset),
                statement::IF => {
                    self.number()?;
                    self.expect(operator::THEN)?;
                    if self.at == offset {
                        continue;
                    }
                    self.constant()?;
                }
                _ => self.statement(token)?,
            }
            let end = self.next()?;
            self.require(self.at == offset)?;
            match end {
                operator::COLON => {}
                operator::LINE_END => return self.require(self.at == self.line.len()),
                _ => return None,
            }
        }
    }

    /// Raw text: 9B ends it, the statement and the line.
    fn raw_text(&mut self, offset: usize) -> Option<()> {
        let raw = &self.line[self.at..];
        let end = raw.iter().position(|byte| *byte == TEXT_END)?;
        self.require(end + 1 == raw.len() && offset == self.line.len())
    }

    /// A statement other than REM, DATA and IF, between its token and its end.
    fn statement(&mut self, token: u8) -> Option<()> {
        match token {
            statement::SILENT_LET => {
                self.variable()?;
                let (number, _) = self.variable_token()?;
                self.require(!self.names.is_statement_word(number))?;
                self.assignment()
            }
            statement::LET => self.assignment(),
            statement::FOR => {
                self.plain_variable(Variable::Number)?;
                self.expect(operator::ASSIGN_NUMBER)?;
                self.number()?;
                self.expect(operator::TO)?;
                self.number()?;
                if self.accept(operator::STEP) {
                    self.number()?;
                }
                Some(())
            }
            statement::NEXT => self.plain_variable(Variable::Number),
            statement::ON => {
                self.number()?;
                if !self.accept(operator::GOTO) {
                    self.expect(operator::GOSUB)?;
                }
                self.number()?;
                while self.accept(operator::COMMA) {
                    self.number()?;
                }
                Some(())
            }
            statement::DIM => self.dim_list(),
            statement::READ => self.variable_list(),
            statement::INPUT => {
                if self.peek()? == operator::HASH {
                    self.channel()?;
                    if !self.accept(operator::SEMICOLON) {
                        self.expect(operator::COMMA)?;
                    }
                }
                self.variable_list()
            }
            statement::PRINT | statement::QUESTION => self.print(),
            statement::POKE => {
                self.number()?;
                self.expect(operator::COMMA)?;
                self.number()
            }
            statement::OPEN => self.open(),
            statement::XIO => {
                self.number()?;
                self.expect(operator::COMMA)?;
                self.open()
            }
            statement::CLOSE => self.channel(),
            statement::GET | statement::STATUS => {
                self.channel()?;
                self.comma_and_variable()
            }
            statement::PUT => {
                self.channel()?;
                self.expect(operator::COMMA)?;
                self.number()
            }
            statement::NOTE | statement::POINT => {
                self.channel()?;
                self.comma_and_variable()?;
                self.comma_and_variable()
            }
            statement::GOTO | statement::GOSUB | statement::TRAP => self.number(),
            statement::RESTORE if self.at_statement_end() => Some(()),
            statement::RESTORE => self.number(),
            statement::CLR
            | statement::DEG
            | statement::END
            | statement::POP
            | statement::RAD
            | statement::RETURN
            | statement::STOP => Some(()),
            _ => None,
        }
    }

    /// Says whether a statement's end is in view.
    fn at_statement_end(&self) -> bool {
        matches!(self.peek(), Some(operator::COLON | operator::LINE_END))
    }

    /// A plain variable of this sort.
    fn plain_variable(&mut self, wanted: Variable) -> Option<()> {
        let variable = self.take_variable()?;
        self.require(variable == wanted)
    }

    /// Variable, element or substring, the right `=`, and N or S.
    fn assignment(&mut self) -> Option<()> {
        match self.take_variable()? {
            Variable::Number => {}
            Variable::Array => self.one_or_two(operator::OPEN_ARRAY)?,
            Variable::String => {
                if self.peek()? == operator::OPEN_SUBSTRING {
                    self.one_or_two(operator::OPEN_SUBSTRING)?;
                }
                self.expect(operator::ASSIGN_STRING)?;
                return self.string();
            }
        }
        self.expect(operator::ASSIGN_NUMBER)?;
        self.number()
    }

    /// DIM's arrays and strings.
    fn dim_list(&mut self) -> Option<()> {
        loop {
            match self.take_variable()? {
                Variable::Number => return None,
                Variable::Array => self.one_or_two(operator::OPEN_DIM_ARRAY)?,
                Variable::String => {
                    self.expect(operator::OPEN_DIM_STRING)?;
                    self.number()?;
                    self.expect(operator::CLOSE)?;
                }
            }
            if !self.accept(operator::COMMA) {
                return Some(());
            }
        }
    }

    /// A channel: `#` and N.
    fn channel(&mut self) -> Option<()> {
        self.expect(operator::HASH)?;
        self.number()
    }

    /// OPEN: channel, N, N, S.
    fn open(&mut self) -> Option<()> {
        self.channel()?;
        for _ in 0..2 {
            self.expect(operator::COMMA)?;
            self.number()?;
        }
        self.expect(operator::COMMA)?;
        self.string()
    }

    /// A comma and a plain numeric variable.
    fn comma_and_variable(&mut self) -> Option<()> {
        self.expect(operator::COMMA)?;
        self.plain_variable(Variable::Number)
    }

    /// The plain variables of READ and INPUT.
    fn variable_list(&mut self) -> Option<()> {
        loop {
            let variable = self.take_variable()?;
            self.require(variable != Variable::Array)?;
            if !self.accept(operator::COMMA) {
                return Some(());
            }
        }
    }

    /// PRINT's channel, values and separators.
    fn print(&mut self) -> Option<()> {
        if self.peek()? == operator::HASH {
            self.channel()?;
            self.require(self.print_parted())?;
        }
        while !self.at_statement_end() {
            if self.accept(operator::COMMA) || self.accept(operator::SEMICOLON) {
                continue;
            }
            self.print_value()?;
            self.require(self.print_parted())?;
        }
        Some(())
    }

    /// Says whether a separator of PRINT is in view, or its end.
    fn print_parted(&self) -> bool {
        matches!(self.peek(), Some(operator::COMMA | operator::SEMICOLON))
            || self.at_statement_end()
    }

    /// One value of PRINT.
    fn print_value(&mut self) -> Option<()> {
        if !self.starts_string() {
            return self.number();
        }
        self.string()?;
        if is_string_comparison(self.peek()?) {
            self.at += 1;
            self.string()?;
            return self.more_terms();
        }
        Some(())
    }

    /// N.
    fn number(&mut self) -> Option<()> {
        self.term()?;
        self.more_terms()
    }

    /// The rest of an N whose first term has been read.
    fn more_terms(&mut self) -> Option<()> {
        while joins_terms(self.peek()?) {
            self.at += 1;
            self.term()?;
        }
        Some(())
    }

    /// One term, with its prefixes.
    fn term(&mut self) -> Option<()> {
        while self.accept(operator::PREFIX_PLUS)
            || self.accept(operator::PREFIX_MINUS)
            || self.accept(operator::NOT)
        {}
        if self.starts_string() {
            self.string()?;
            let comparison = self.next()?;
            self.require(is_string_comparison(comparison))?;
            return self.string();
        }
        match self.peek()? {
            operator::NUMBER => self.constant(),
            operator::OPEN => {
                self.at += 1;
                self.number()?;
                self.expect(operator::CLOSE)
            }
            LONG_MARK | 0x80.. => match self.take_variable()? {
                Variable::Number => Some(()),
                Variable::Array => self.one_or_two(operator::OPEN_ARRAY),
                Variable::String => None,
            },
            token => {
                self.at += 1;
                match function_use(token) {
                    FunctionUse::NumberFromNumber => self.argument(Self::number),
                    FunctionUse::NumberFromString => self.argument(Self::string),
                    _ => None,
                }
            }
        }
    }

    /// A function's parentheses and what stands between them.
    fn argument(&mut self, inner: fn(&mut Self) -> Option<()>) -> Option<()> {
        self.expect(operator::OPEN_FUNCTION)?;
        inner(self)?;
        self.expect(operator::CLOSE)
    }

    /// Says whether an S begins here.
    fn starts_string(&self) -> bool {
        match self.peek() {
            Some(operator::STRING | function::STR | function::CHR) => true,
            _ => self.variable() == Some(Variable::String),
        }
    }

    /// S.
    fn string(&mut self) -> Option<()> {
        match self.next()? {
            operator::STRING => {
                let length = self.next()? as usize;
                let inner = self.line.get(self.at..self.at + length)?;
                self.require(!inner.iter().any(|byte| *byte == b'"' || *byte == TEXT_END))?;
                self.at += length;
                Some(())
            }
            function::STR | function::CHR => self.argument(Self::number),
            _ => {
                self.at -= 1;
                self.plain_variable(Variable::String)?;
                if self.peek()? == operator::OPEN_SUBSTRING {
                    return self.one_or_two(operator::OPEN_SUBSTRING);
                }
                Some(())
            }
        }
    }

    /// One or two N in parentheses.
    fn one_or_two(&mut self, open: u8) -> Option<()> {
        self.expect(open)?;
        self.number()?;
        if self.accept(operator::INNER_COMMA) {
            self.number()?;
        }
        self.expect(operator::CLOSE)
    }

    /// A constant with its mark.
    fn constant(&mut self) -> Option<()> {
        self.expect(operator::NUMBER)?;
        self.require(is_constant(constant_at(self.line, self.at)?))?;
        self.at += 6;
        Some(())
    }
}

/// The six bytes at a place of a line.
fn constant_at(line: &[u8], at: usize) -> Option<&Constant> {
    line.get(at..at + 6)?.try_into().ok()
}

/// Where a listing goes.
pub trait Sink {
    fn put(&mut self, bytes: &[u8]);
}

/// Counts a listing's bytes.
pub struct Count(pub usize);

impl Sink for Count {
    fn put(&mut self, bytes: &[u8]) {
        self.0 += bytes.len();
    }
}

/// Writes a listing into a buffer that is known to hold it.
pub struct Write<'a> {
    pub out: &'a mut [u8],
    pub written: usize,
}

impl Sink for Write<'_> {
    fn put(&mut self, bytes: &[u8]) {
        let end = self.written + bytes.len();
        self.out[self.written..end].copy_from_slice(bytes);
        self.written = end;
    }
}

/// Spells a line that can be listed. One that was entered without a number has none, and no blank before
/// its first statement.
pub fn spell_line(line: &[u8], names: &Names, sink: &mut impl Sink) {
    let number = line_number(line, 0);
    if number != DIRECT_LINE {
        spell_number(number, sink);
        sink.put(b" ");
    }
    if let Some(text) = error_text(line) {
        sink.put(b"ERROR- ");
        sink.put(text);
        return;
    }
    let mut at = 3;
    while at < line.len() {
        let end = line[at] as usize;
        let token = line[at + 1];
        at += 2;
        if token != statement::SILENT_LET {
            sink.put(STATEMENT_WORDS[token as usize]);
            sink.put(b" ");
        }
        if token == statement::REM || token == statement::DATA {
            sink.put(&line[at..end - 1]);
            return;
        }
        while at < end {
            at = spell_token(line, at, names, sink);
        }
    }
}

/// Spells a line's number.
fn spell_number(number: usize, sink: &mut impl Sink) {
    let mut digits = [0; 5];
    let mut first = digits.len();
    let mut rest = number;
    loop {
        first -= 1;
        digits[first] = b'0' + (rest % 10) as u8;
        rest /= 10;
        if rest == 0 {
            break;
        }
    }
    sink.put(&digits[first..]);
}

/// Spells the token at a place inside a statement, and gives the next place.
fn spell_token(line: &[u8], at: usize, names: &Names, sink: &mut impl Sink) -> usize {
    if let Some((number, size)) = variable_at(line, at) {
        spell_name(names.stored(number), sink);
        return at + size;
    }
    let token = line[at];
    match token {
        operator::NUMBER => {
            if let Some(bytes) = constant_at(line, at + 1) {
                let (text, length) = spell_constant(bytes);
                sink.put(&text[..length]);
            }
            return at + 7;
        }
        operator::STRING => {
            let end = at + 2 + line[at + 1] as usize;
            sink.put(b"\"");
            sink.put(&line[at + 2..end]);
            sink.put(b"\"");
            return end;
        }
        function::FIRST..=function::LAST => {
            sink.put(FUNCTION_WORDS[(token - function::FIRST) as usize]);
        }
        _ => spell_operator(token, sink),
    }
    at + 1
}

/// The number of the variable at a place of a line and how many bytes it is, if one stands there.
pub fn variable_at(line: &[u8], at: usize) -> Option<(usize, usize)> {
    match *line.get(at)? {
        byte @ 0x80.. => Some((byte as usize - 0x80, 1)),
        LONG_MARK => {
            let low = *line.get(at + 1)? as usize;
            (low < FIRST_LONG).then_some((FIRST_LONG + low, 2))
        }
        _ => None,
    }
}

/// Spells a name with its top bit off and without `(`.
fn spell_name(stored: &[u8], sink: &mut impl Sink) {
    let end = stored.len() - 1;
    sink.put(&stored[..end]);
    let last = stored[end] & 0x7F;
    if last != b'(' {
        sink.put(&[last]);
    }
}

/// Spells an operator; words have a blank on each side, the line's end has nothing.
fn spell_operator(token: u8, sink: &mut impl Sink) {
    if let Some(row) = WORD_OPERATORS.iter().find(|row| row.1 == token) {
        sink.put(b" ");
        sink.put(row.0);
        sink.put(b" ");
        return;
    }
    // Strings are compared by the same symbols as numbers.
    let plain = if is_string_comparison(token) {
        token - operator::STRING_LESS_EQUAL + operator::LESS_EQUAL
    } else {
        token
    };
    let symbol: &[u8] = match plain {
        operator::COMMA | operator::INNER_COMMA => b",",
        operator::COLON => b":",
        operator::SEMICOLON => b";",
        operator::LESS_EQUAL => b"<=",
        operator::NOT_EQUAL => b"<>",
        operator::GREATER_EQUAL => b">=",
        operator::LESS => b"<",
        operator::GREATER => b">",
        operator::EQUAL | operator::ASSIGN_NUMBER | operator::ASSIGN_STRING => b"=",
        operator::POWER => b"^",
        operator::TIMES => b"*",
        operator::PLUS | operator::PREFIX_PLUS => b"+",
        operator::MINUS | operator::PREFIX_MINUS => b"-",
        operator::DIVIDE => b"/",
        operator::OPEN
        | operator::OPEN_SUBSTRING
        | operator::OPEN_ARRAY
        | operator::OPEN_DIM_ARRAY
        | operator::OPEN_FUNCTION
        | operator::OPEN_DIM_STRING => b"(",
        operator::CLOSE => b")",
        operator::HASH => b"#",
        _ => b"",
    };
    sink.put(symbol);
}
