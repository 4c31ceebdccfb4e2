//! From text to a token line: the grammar, read from left to right with one item in view.

use crate::constants::{digit_run, Constant};
use crate::items::{read_item, skip_blanks, Item, Kind};
use crate::tables::{Names, Variable, FIRST_LONG, GREATEST_LINE, LONG_MARK};
use crate::words::{
    function_token, function_use, is_comparison, joins_terms, operator, operator_token, statement,
    statement_token, string_comparison, FunctionUse, TEXT_END,
};

/// The longest text.
pub const LONGEST_TEXT: usize = 120;
/// The longest token line.
pub const LONGEST_LINE: usize = 255;

/// Refusal 4 or 5, and where the item that it is about starts and ends.
#[derive(Clone, Copy, PartialEq, Eq, Debug)]
pub struct Refusal {
    pub number: u8,
    pub place: usize,
    pub end: usize,
}

type Read = Result<(), Refusal>;

/// Refusal 4: the grammar has no reading.
fn no_reading(place: usize, end: usize) -> Refusal {
    Refusal {
        number: 4,
        place,
        end,
    }
}

/// Refusal 5: a constant is out of range.
fn out_of_range(constant: Item) -> Refusal {
    Refusal {
        number: 5,
        place: constant.start,
        end: constant.end,
    }
}

/// What a text begins with.
pub enum Head {
    /// A line number, and where its digits end.
    Numbered { number: usize, end: usize },
    /// Something else than a digit, after blanks.
    Unnumbered,
    /// Nothing but blanks, or a number above 32767: refusal 3.
    Refused,
}

/// Reads what a text begins with.
pub fn read_head(text: &[u8]) -> Head {
    let start = skip_blanks(text, 0);
    if start == text.len() {
        return Head::Refused;
    }
    let length = digit_run(&text[start..]);
    if length == 0 {
        return Head::Unnumbered;
    }
    let mut number = 0;
    for digit in &text[start..start + length] {
        number = number * 10 + (digit - b'0') as usize;
        if number > GREATEST_LINE {
            return Head::Refused;
        }
    }
    Head::Numbered {
        number,
        end: start + length,
    }
}

/// A token line as it grows. Bytes past 256 are counted but not kept.
pub struct TokenLine {
    bytes: [u8; 256],
    length: usize,
}

impl TokenLine {
    /// The head of a line, its length still open.
    pub fn new(number: usize) -> TokenLine {
        let mut line = TokenLine {
            bytes: [0; 256],
            length: 0,
        };
        line.put(number as u8);
        line.put((number >> 8) as u8);
        line.put(0);
        line
    }

    /// Adds a byte.
    pub fn put(&mut self, byte: u8) {
        if self.length < self.bytes.len() {
            self.bytes[self.length] = byte;
        }
        self.length += 1;
    }

    /// Adds several bytes.
    pub fn put_all(&mut self, bytes: &[u8]) {
        for byte in bytes {
            self.put(*byte);
        }
    }

    /// Adds the token of the variable with this number.
    pub fn put_variable(&mut self, number: usize) {
        if number < FIRST_LONG {
            self.put(0x80 | number as u8);
        } else {
            self.put(LONG_MARK);
            self.put((number - FIRST_LONG) as u8);
        }
    }

    /// Writes the present length at a place left open before.
    pub fn close(&mut self, place: usize) {
        if place < self.bytes.len() {
            self.bytes[place] = self.length as u8;
        }
    }

    /// How long the line is.
    pub fn length(&self) -> usize {
        self.length
    }

    /// The line's bytes, if it is not too long.
    pub fn bytes(&self) -> &[u8] {
        &self.bytes[..self.length]
    }
}

/// Names that a text has and the table has not, as places in the text, in order of appearance.
pub struct NewNames {
    places: [(u8, u8); LONGEST_TEXT],
    count: usize,
}

impl NewNames {
    /// How many there are.
    pub fn count(&self) -> usize {
        self.count
    }

    /// The name of this number, as it stands in the text, with its `$` or `(`.
    pub fn name<'t>(&self, text: &'t [u8], number: usize) -> &'t [u8] {
        let (start, end) = self.places[number];
        &text[start as usize..end as usize]
    }
}

/// What an accepted text means.
pub struct Translation {
    pub line: TokenLine,
    pub new_names: NewNames,
}

/// Translates the statements of a text of at most 120 bytes, from `from` on.
pub fn translate(
    text: &[u8],
    from: usize,
    number: usize,
    names: &Names,
) -> Result<Translation, Refusal> {
    let mut reader = Reader {
        text,
        item: read_item(text, from),
        names,
        new_names: NewNames {
            places: [(0, 0); LONGEST_TEXT],
            count: 0,
        },
        line: TokenLine::new(number),
    };
    reader.statements()?;
    reader.line.close(2);
    Ok(Translation {
        line: reader.line,
        new_names: reader.new_names,
    })
}

/// What a name means where no statement can begin.
enum Meaning {
    Operator(u8),
    Function(u8),
    Variable(Variable),
}

/// How a statement was left.
enum Left {
    /// After its last item: `:` or the end must follow.
    Open,
    /// Just past THEN: another statement follows.
    Then,
    /// Closed by 9B, as the last one.
    Text,
}

/// Reads items and writes tokens.
struct Reader<'a> {
    text: &'a [u8],
    item: Item,
    names: &'a Names<'a>,
    new_names: NewNames,
    line: TokenLine,
}

impl Reader<'_> {
    /// Goes on to the next item.
    fn step(&mut self) {
        self.item = read_item(self.text, self.item.end);
    }

    /// Refuses the item in view.
    fn refuse<T>(&self) -> Result<T, Refusal> {
        Err(no_reading(self.item.start, self.item.end))
    }

    /// Writes a token for the item in view and goes on.
    fn take(&mut self, token: u8) {
        self.line.put(token);
        self.step();
    }

    /// Says whether the item in view is this symbol.
    fn sees(&self, symbol: u8) -> bool {
        self.item.kind == Kind::Symbol(symbol)
    }

    /// Takes a symbol that must stand here, writing `token` for it.
    fn expect(&mut self, symbol: u8, token: u8) -> Read {
        if !self.sees(symbol) {
            return self.refuse();
        }
        self.take(token);
        Ok(())
    }

    /// Takes a word operator that must stand here.
    fn expect_word(&mut self, token: u8) -> Read {
        if !self.sees_word(token) {
            return self.refuse();
        }
        self.take(token);
        Ok(())
    }

    /// Says whether the item in view is this word operator.
    fn sees_word(&self, token: u8) -> bool {
        matches!(self.meaning(), Some(Meaning::Operator(found)) if found == token)
    }

    /// The item in view as a word, with its `$`.
    fn word(&self) -> &[u8] {
        &self.text[self.item.start..self.item.end]
    }

    /// What the item in view means if it is a name and no statement can begin here.
    fn meaning(&self) -> Option<Meaning> {
        let Kind::Name { dollar, opened } = self.item.kind else {
            return None;
        };
        let word = self.word();
        if let Some(token) = operator_token(word) {
            return Some(Meaning::Operator(token));
        }
        if let Some(token) = function_token(word) {
            return Some(Meaning::Function(token));
        }
        Some(Meaning::Variable(match (dollar, opened) {
            (true, _) => Variable::String,
            (false, true) => Variable::Array,
            (false, false) => Variable::Number,
        }))
    }

    /// What variable the item in view is, if it is one.
    fn variable(&self) -> Option<Variable> {
        match self.meaning() {
            Some(Meaning::Variable(variable)) => Some(variable),
            _ => None,
        }
    }

    /// Takes the variable in view.
    fn take_variable(&mut self, variable: Variable) {
        let start = self.item.start;
        let end = self.item.end + (variable == Variable::Array) as usize;
        let number = self.name_number(start, end);
        self.line.put_variable(number);
        self.step();
    }

    /// The number of a name, old or new; a name seen for the first time is noted.
    fn name_number(&mut self, start: usize, end: usize) -> usize {
        let name = &self.text[start..end];
        if let Some(number) = self.names.find(name) {
            return number;
        }
        let new = &mut self.new_names;
        let known = (0..new.count).find(|number| new.name(self.text, *number) == name);
        let number = known.unwrap_or(new.count);
        if known.is_none() {
            new.places[number] = (start as u8, end as u8);
            new.count += 1;
        }
        self.names.count() + number
    }

    /// Takes the constant in view.
    fn take_constant(&mut self, constant: Option<Constant>) -> Read {
        let Some(bytes) = constant else {
            return Err(out_of_range(self.item));
        };
        self.line.put(operator::NUMBER);
        self.line.put_all(&bytes);
        self.step();
        Ok(())
    }

    /// Reads all statements of the line.
    fn statements(&mut self) -> Read {
        loop {
            let offset_place = self.line.length();
            self.line.put(0);
            match self.statement()? {
                Left::Then => self.line.close(offset_place),
                Left::Text => {
                    self.line.close(offset_place);
                    return Ok(());
                }
                Left::Open => {
                    let last = self.item.kind == Kind::End;
                    if !last && !self.sees(operator::COLON) {
                        return self.refuse();
                    }
                    self.line.put(if last {
                        operator::LINE_END
                    } else {
                        operator::COLON
                    });
                    self.line.close(offset_place);
                    if last {
                        return Ok(());
                    }
                    self.step();
                }
            }
        }
    }

    /// Reads one statement, after its offset and without its end.
    fn statement(&mut self) -> Result<Left, Refusal> {
        match self.item.kind {
            Kind::Question => {
                self.take(statement::QUESTION);
                self.print()?;
                Ok(Left::Open)
            }
            Kind::Name { .. } => match statement_token(self.word()) {
                Some(token) => self.worded_statement(token),
                None => {
                    if self.variable().is_none() {
                        return self.refuse();
                    }
                    self.line.put(statement::SILENT_LET);
                    self.assignment()?;
                    Ok(Left::Open)
                }
            },
            _ => self.refuse(),
        }
    }

    /// Reads a statement whose word is in view.
    fn worded_statement(&mut self, token: u8) -> Result<Left, Refusal> {
        match token {
            statement::REM | statement::DATA => {
                self.line.put(token);
                self.raw_text()?;
                return Ok(Left::Text);
            }
            statement::IF => {
                self.take(token);
                return self.condition();
            }
            _ => {}
        }
        let rest: fn(&mut Self) -> Read = match token {
            statement::LET => Self::assignment,
            statement::FOR => Self::for_loop,
            statement::NEXT => Self::number_variable,
            statement::ON => Self::on_list,
            statement::DIM => Self::dim_list,
            statement::READ => Self::variable_list,
            statement::INPUT => Self::input,
            statement::PRINT => Self::print,
            statement::POKE => Self::two_numbers,
            statement::GOTO | statement::GOSUB | statement::TRAP => Self::number,
            statement::RESTORE => Self::number_or_nothing,
            statement::OPEN => Self::open,
            statement::CLOSE => Self::channel,
            statement::GET | statement::STATUS => Self::channel_and_variable,
            statement::PUT => Self::channel_and_number,
            statement::XIO => Self::device_command,
            statement::NOTE | statement::POINT => Self::channel_and_two_variables,
            statement::CLR
            | statement::DEG
            | statement::END
            | statement::POP
            | statement::RAD
            | statement::RETURN
            | statement::STOP => Self::nothing,
            _ => return self.refuse(),
        };
        self.take(token);
        rest(self)?;
        Ok(Left::Open)
    }

    /// The text of REM or DATA, less one blank: it runs to the end.
    fn raw_text(&mut self) -> Read {
        let mut start = self.item.end;
        if self.text.get(start) == Some(&b' ') {
            start += 1;
        }
        let raw = &self.text[start..];
        if let Some(count) = raw.iter().position(|byte| *byte == TEXT_END) {
            let place = start + count;
            return Err(no_reading(place, place + 1));
        }
        self.line.put_all(raw);
        self.line.put(TEXT_END);
        Ok(())
    }

    /// IF: N THEN constant, or N THEN and a statement to come.
    fn condition(&mut self) -> Result<Left, Refusal> {
        self.number()?;
        self.expect_word(operator::THEN)?;
        if let Kind::Number(constant) = self.item.kind {
            self.take_constant(constant)?;
            return Ok(Left::Open);
        }
        Ok(Left::Then)
    }

    /// Variable, element or substring, `=`, and N or S by kind.
    fn assignment(&mut self) -> Read {
        match self.variable() {
            None => self.refuse(),
            Some(Variable::Number) => {
                self.take_variable(Variable::Number);
                self.assigned_number()
            }
            Some(Variable::Array) => {
                self.take_variable(Variable::Array);
                self.one_or_two(operator::OPEN_ARRAY)?;
                self.assigned_number()
            }
            Some(Variable::String) => {
                self.string_variable()?;
                self.expect(operator::EQUAL, operator::ASSIGN_STRING)?;
                self.string()
            }
        }
    }

    /// `=` and N.
    fn assigned_number(&mut self) -> Read {
        self.expect(operator::EQUAL, operator::ASSIGN_NUMBER)?;
        self.number()
    }

    /// FOR: variable, `=`, N TO N, perhaps STEP N.
    fn for_loop(&mut self) -> Read {
        self.number_variable()?;
        self.assigned_number()?;
        self.expect_word(operator::TO)?;
        self.number()?;
        if self.sees_word(operator::STEP) {
            self.take(operator::STEP);
            self.number()?;
        }
        Ok(())
    }

    /// A plain numeric variable.
    fn number_variable(&mut self) -> Read {
        if self.variable() != Some(Variable::Number) {
            return self.refuse();
        }
        self.take_variable(Variable::Number);
        Ok(())
    }

    /// ON: N, GOTO or GOSUB, one N or more.
    fn on_list(&mut self) -> Read {
        self.number()?;
        if self.sees_word(operator::GOTO) {
            self.take(operator::GOTO);
        } else {
            self.expect_word(operator::GOSUB)?;
        }
        self.number()?;
        while self.sees(operator::COMMA) {
            self.take(operator::COMMA);
            self.number()?;
        }
        Ok(())
    }

    /// DIM: arrays and strings with commas.
    fn dim_list(&mut self) -> Read {
        loop {
            match self.variable() {
                Some(Variable::Array) => {
                    self.take_variable(Variable::Array);
                    self.one_or_two(operator::OPEN_DIM_ARRAY)?;
                }
                Some(Variable::String) => {
                    self.take_variable(Variable::String);
                    self.expect(operator::OPEN, operator::OPEN_DIM_STRING)?;
                    self.number()?;
                    self.expect(operator::CLOSE, operator::CLOSE)?;
                }
                _ => return self.refuse(),
            }
            if !self.sees(operator::COMMA) {
                return Ok(());
            }
            self.take(operator::COMMA);
        }
    }

    /// READ, and INPUT after its channel: plain variables with commas.
    fn variable_list(&mut self) -> Read {
        loop {
            match self.variable() {
                Some(Variable::Number) => self.take_variable(Variable::Number),
                Some(Variable::String) => self.take_variable(Variable::String),
                _ => return self.refuse(),
            }
            if !self.sees(operator::COMMA) {
                return Ok(());
            }
            self.take(operator::COMMA);
        }
    }

    /// INPUT: perhaps a channel and one `,` or `;`, then a list.
    fn input(&mut self) -> Read {
        if self.sees(operator::HASH) {
            self.channel()?;
            if self.sees(operator::SEMICOLON) {
                self.take(operator::SEMICOLON);
            } else {
                self.comma()?;
            }
        }
        self.variable_list()
    }

    /// PRINT: perhaps a channel, which a `,` or `;` parts from the rest; then values, `,` and `;`, no two values side by side.
    fn print(&mut self) -> Read {
        if self.sees(operator::HASH) {
            self.channel()?;
            if !self.print_parted() {
                return self.refuse();
            }
        }
        loop {
            if self.sees(operator::COMMA) {
                self.take(operator::COMMA);
            } else if self.sees(operator::SEMICOLON) {
                self.take(operator::SEMICOLON);
            } else if self.at_statement_end() {
                return Ok(());
            } else {
                self.print_value()?;
                if !self.print_parted() {
                    return self.refuse();
                }
            }
        }
    }

    /// Says whether a separator of PRINT is in view, or its end.
    fn print_parted(&self) -> bool {
        self.sees(operator::COMMA) || self.sees(operator::SEMICOLON) || self.at_statement_end()
    }

    /// One value of PRINT: N, or S alone.
    fn print_value(&mut self) -> Read {
        if !self.starts_string() {
            return self.number();
        }
        self.string()?;
        if self.comparison().is_some() {
            self.compared_string()?;
            return self.more_terms();
        }
        Ok(())
    }

    /// POKE: N, N.
    fn two_numbers(&mut self) -> Read {
        self.number()?;
        self.comma()?;
        self.number()
    }

    /// A comma between the parts of a statement.
    fn comma(&mut self) -> Read {
        self.expect(operator::COMMA, operator::COMMA)
    }

    /// CLOSE, and the channel of others: `#` and N.
    fn channel(&mut self) -> Read {
        self.expect(operator::HASH, operator::HASH)?;
        self.number()
    }

    /// OPEN: channel, N, N, S.
    fn open(&mut self) -> Read {
        self.channel()?;
        for _ in 0..2 {
            self.comma()?;
            self.number()?;
        }
        self.comma()?;
        self.string()
    }

    /// XIO: N, and then what OPEN takes.
    fn device_command(&mut self) -> Read {
        self.number()?;
        self.comma()?;
        self.open()
    }

    /// GET, STATUS: channel, variable.
    fn channel_and_variable(&mut self) -> Read {
        self.channel()?;
        self.comma()?;
        self.number_variable()
    }

    /// PUT: channel, N.
    fn channel_and_number(&mut self) -> Read {
        self.channel()?;
        self.comma()?;
        self.number()
    }

    /// NOTE, POINT: channel, variable, variable.
    fn channel_and_two_variables(&mut self) -> Read {
        self.channel_and_variable()?;
        self.comma()?;
        self.number_variable()
    }

    /// RESTORE: N, or nothing.
    fn number_or_nothing(&mut self) -> Read {
        if self.at_statement_end() {
            return Ok(());
        }
        self.number()
    }

    /// Nothing more.
    fn nothing(&mut self) -> Read {
        Ok(())
    }

    /// Says whether the statement could end here.
    fn at_statement_end(&self) -> bool {
        self.item.kind == Kind::End || self.sees(operator::COLON)
    }

    /// N: terms joined by operators.
    fn number(&mut self) -> Read {
        self.term()?;
        self.more_terms()
    }

    /// The rest of an N whose first term has been read.
    fn more_terms(&mut self) -> Read {
        while let Some(token) = self.joining_operator() {
            self.take(token);
            self.term()?;
        }
        Ok(())
    }

    /// The operator in view, if it joins terms.
    fn joining_operator(&self) -> Option<u8> {
        let token = match self.item.kind {
            Kind::Symbol(token) => token,
            Kind::Name { .. } => match self.meaning() {
                Some(Meaning::Operator(token)) => token,
                _ => return None,
            },
            _ => return None,
        };
        joins_terms(token).then_some(token)
    }

    /// One term, with its prefixes.
    fn term(&mut self) -> Read {
        while let Some(token) = self.prefix() {
            self.take(token);
        }
        if self.starts_string() {
            self.string()?;
            return self.compared_string();
        }
        match self.item.kind {
            Kind::Number(constant) => self.take_constant(constant),
            Kind::Symbol(operator::OPEN) => {
                self.take(operator::OPEN);
                self.number()?;
                self.expect(operator::CLOSE, operator::CLOSE)
            }
            Kind::Name { .. } => self.named_term(),
            _ => self.refuse(),
        }
    }

    /// A term that begins with a name: numeric variable, array element or function.
    fn named_term(&mut self) -> Read {
        match self.meaning() {
            Some(Meaning::Variable(Variable::Number)) => {
                self.take_variable(Variable::Number);
                Ok(())
            }
            Some(Meaning::Variable(Variable::Array)) => {
                self.take_variable(Variable::Array);
                self.one_or_two(operator::OPEN_ARRAY)
            }
            Some(Meaning::Function(token)) => match function_use(token) {
                FunctionUse::NumberFromNumber => self.function_call(token, Self::number),
                FunctionUse::NumberFromString => self.function_call(token, Self::string),
                _ => self.refuse(),
            },
            _ => self.refuse(),
        }
    }

    /// A function's name, and in parentheses what it takes.
    fn function_call(&mut self, token: u8, argument: fn(&mut Self) -> Read) -> Read {
        self.take(token);
        self.expect(operator::OPEN, operator::OPEN_FUNCTION)?;
        argument(self)?;
        self.expect(operator::CLOSE, operator::CLOSE)
    }

    /// The token of the item in view as a prefix operator.
    fn prefix(&self) -> Option<u8> {
        match self.item.kind {
            Kind::Symbol(operator::PLUS) => Some(operator::PREFIX_PLUS),
            Kind::Symbol(operator::MINUS) => Some(operator::PREFIX_MINUS),
            _ if self.sees_word(operator::NOT) => Some(operator::NOT),
            _ => None,
        }
    }

    /// The comparison in view, as its token for numbers.
    fn comparison(&self) -> Option<u8> {
        match self.item.kind {
            Kind::Symbol(token) if is_comparison(token) => Some(token),
            _ => None,
        }
    }

    /// A comparison and the S on its right.
    fn compared_string(&mut self) -> Read {
        match self.comparison() {
            Some(token) => {
                self.take(string_comparison(token));
                self.string()
            }
            None => self.refuse(),
        }
    }

    /// Says whether an S can begin with the item in view.
    fn starts_string(&self) -> bool {
        match self.item.kind {
            Kind::Quoted { .. } => true,
            Kind::Name { .. } => match self.meaning() {
                Some(Meaning::Variable(variable)) => variable == Variable::String,
                Some(Meaning::Function(token)) => {
                    function_use(token) == FunctionUse::StringFromNumber
                }
                _ => false,
            },
            _ => false,
        }
    }

    /// S: a quoted string, a string variable perhaps with subscripts, STR$ or CHR$.
    fn string(&mut self) -> Read {
        if let Kind::Quoted { length } = self.item.kind {
            let inner = &self.text[self.item.start + 1..][..length];
            self.line.put(operator::STRING);
            self.line.put(inner.len() as u8);
            self.line.put_all(inner);
            self.step();
            return Ok(());
        }
        match self.meaning() {
            Some(Meaning::Variable(Variable::String)) => self.string_variable(),
            Some(Meaning::Function(token))
                if function_use(token) == FunctionUse::StringFromNumber =>
            {
                self.function_call(token, Self::number)
            }
            _ => self.refuse(),
        }
    }

    /// A string variable, known to be in view, perhaps with one or two subscripts.
    fn string_variable(&mut self) -> Read {
        self.take_variable(Variable::String);
        if self.sees(operator::OPEN) {
            return self.one_or_two(operator::OPEN_SUBSTRING);
        }
        Ok(())
    }

    /// One or two N in parentheses, of which the first has this token.
    fn one_or_two(&mut self, open: u8) -> Read {
        self.expect(operator::OPEN, open)?;
        self.number()?;
        if self.sees(operator::COMMA) {
            self.take(operator::INNER_COMMA);
            self.number()?;
        }
        self.expect(operator::CLOSE, operator::CLOSE)
    }
}
