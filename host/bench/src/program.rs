//! The programs that are timed.

use reference::Record;

/// Statements of a station program with 18 names.
const WITH_NAMES: [&str; 12] = [
    "V=PEEK(1536)+256*PEEK(1537)",
    "IF V<L OR T>H THEN 900",
    "FOR I=1 TO N STEP 2:S=S+R(I):NEXT I",
    "PRINT \"STATION \";N$;\" T=\";T;\" V=\";V",
    "R(I)=INT(V*100/K+0.5)/100",
    "A$(LEN(A$)+1)=STR$(T)",
    "POKE 710,C:POKE 712,16*D+6",
    "IF A$=\"ALARM\" AND NOT Q THEN GOSUB 2000",
    "ON M GOTO 100,200,300,400",
    "M(I,J)=SQR(X*X+K*K)",
    "READ L,H,N$:RESTORE 1000",
    "REM LIMITS FOR THE FREEZER ROOM",
];

/// The names they use.
const NAMES: [&str; 18] = [
    "V", "L", "T", "H", "I", "N", "S", "R(", "N$", "K", "A$", "C", "D", "Q", "M", "M(", "J", "X",
];

/// Statements of a station program without names.
const WITHOUT_NAMES: [&str; 12] = [
    "POKE 1536,PEEK(1537)+256*PEEK(1538)",
    "IF PEEK(20)<18 OR PEEK(21)>6 THEN 900",
    "PRINT \"STATION \";PEEK(1700);\" T=\";PEEK(1701)",
    "POKE 710,INT(100*PEEK(20)/7+0.5)/100",
    "POKE 710,4:POKE 712,16*3+6",
    "IF PEEK(764)=255 AND NOT PEEK(20) THEN GOSUB 2000",
    "ON PEEK(77) GOTO 100,200,300,400",
    "POKE 82,SQR(PEEK(203)*2+PEEK(204))",
    "RESTORE 1000:TRAP 40000",
    "REM LIMITS FOR THE FREEZER ROOM",
    "DATA 18,6,FREEZER,2.5,0.125",
    "? \"ALARM\":GOTO 100",
];

/// The statement of a place. Two of three are short, so that 2,000 lines fit a store.
fn statement(names: usize, place: usize) -> &'static str {
    let (long, short) = if names == 0 {
        (&WITHOUT_NAMES, &["GOSUB 2000", "POKE 77,0"])
    } else {
        (&WITH_NAMES, &["GOSUB 2000", "S=S+T"])
    };
    match place % 3 {
        0 => long[place / 3 % long.len()],
        other => short[other - 1],
    }
}

/// Tables and store of a program, and the record.
#[derive(Clone)]
pub struct Program {
    pub names: Vec<u8>,
    pub values: Vec<u8>,
    pub store: Vec<u8>,
    pub record: Record,
}

impl Program {
    /// Forgets all lines; the names stay.
    pub fn empty_store(&mut self) {
        self.record = Record {
            used: 0,
            lines: 0,
            greatest: 0,
            ..self.record
        };
    }
}

/// Lines are numbered in steps of this.
pub const STEP: usize = 10;

/// The text of a line.
pub fn text(names: usize, number: usize, place: usize) -> Vec<u8> {
    format!("{number} {}", statement(names, place)).into_bytes()
}

/// A program of so many lines over so many names.
pub fn program(names: usize, lines: usize) -> Program {
    let mut program = Program {
        names: name_table(names),
        values: vec![0; 2048],
        store: vec![0; 65535],
        record: Record::default(),
    };
    program.record.name_count = names;
    program.record.name_bytes = program.names.len();
    program.names.resize(2048, 0);
    for place in 0..lines {
        let line = text(names, place * STEP + STEP, place);
        let answer = reference::enter(
            &line,
            &mut program.names,
            &mut program.values,
            &mut program.store,
            &mut [],
            false,
            &mut program.record,
        );
        assert_eq!((answer.number, answer.added), (0, 0));
    }
    program
}

/// A name table with the program's names spread evenly among others.
fn name_table(count: usize) -> Vec<u8> {
    let mut table = Vec::new();
    let mut own = NAMES.iter();
    for number in 0..count {
        let distance = count / NAMES.len();
        let name = match own.len() {
            left if left > 0 && number % distance == distance - 1 => own.next().copied(),
            _ => None,
        };
        let filler = format!("ROOM{number}");
        table.extend_from_slice(name.unwrap_or(&filler).as_bytes());
        if let Some(last) = table.last_mut() {
            *last |= 0x80;
        }
    }
    table
}
