//! The settled readings, as cases. `_` in a listing stands for a blank.

mod desk;
use desk::{gives, hex, refuses, Desk};
use reference::{list, Record};

/// Over empty tables, a text lists so.
#[track_caller]
fn lists(text: &str, listing: &str) {
    desk::lists(text, &listing.replace('_', " "));
}

/// Over empty tables, two texts give the same bytes and names.
#[track_caller]
fn alike(one: &str, other: &str) {
    let (mut a, mut b) = (Desk::new(), Desk::new());
    assert_eq!(a.enter(one.as_bytes()).number, 0, "{one}");
    assert_eq!(b.enter(other.as_bytes()).number, 0, "{other}");
    assert_eq!(a.hex(), b.hex());
    assert_eq!(a.names_hex(), b.names_hex());
}

#[test]
fn items() {
    refuses(b"10 a=1", 4, 3);
    refuses(b"10 Ab=1", 4, 4);
    lists("10 REMx", "10 REM_x");
    refuses(b"10 A=1e5", 4, 6);
    refuses(b"\t10 END", 4, 0);
    refuses(b"10\tEND", 4, 2);
    refuses(b"10 END\r", 4, 6);
    refuses(b"10 A=\x9B", 4, 5);
    refuses(b"10 NEXT A(1)", 4, 8);
    refuses(b"10 READ A(1)", 4, 8);
    refuses(b"10 FOR A(1)=1", 4, 7);
    refuses(b"10 READ A$(1)", 4, 10);
    refuses(b"10 DIM A (5)", 4, 7);
    refuses(b"10 A (1)=2", 4, 5);
    alike("10 A$ (1)=\"X\"", "10 A$(1)=\"X\"");
    alike("10 A=SIN (1)", "10 A=SIN(1)");
    for name in ["REM$", "NOT$", "SIN$", "LEN$", "PRINT$"] {
        lists(
            &format!("10 LET {name}=\"\""),
            &format!("10 LET_{name}=\"\""),
        );
    }
    for name in ["STR", "STR(1)", "CHR(1)"] {
        lists(&format!("10 {name}=1"), &format!("10 {name}=1"));
    }
    refuses(b"10 REM$", 4, 7);
}

#[test]
fn words() {
    lists("10 REM(1)=2", "10 REM_(1)=2");
    lists("10 PRINT(1)=2", "10 PRINT_(1)=2");
    refuses(b"10 COLOR(1)=2", 4, 3);
    lists("10 LET REM(1)=2", "10 LET_REM(1)=2");
    lists("10 A=NOT(1)OR(2)AND(3)", "10 A=_NOT_(1)_OR_(2)_AND_(3)");
    lists("10 FOR A=1 TO(2)STEP(3)", "10 FOR_A=1_TO_(2)_STEP_(3)");
    refuses(b"10 IF 1 THEN(5)", 4, 12);
    lists("10 ON 1 GOTO(5)", "10 ON_1_GOTO_(5)");
    lists("10 ON 1 GOSUB(5)", "10 ON_1_GOSUB_(5)");
    refuses(b"10 COLOR 1", 4, 3);
    refuses(b"10 A=USR(1)", 4, 5);
    refuses(b"10 TO=5", 4, 3);
    refuses(b"10 SIN=5", 4, 3);
    refuses(b"10 PRINT ?", 4, 9);
}

#[test]
fn strings_numbers_and_symbols() {
    refuses(b"10 PRINT \"A\x9B\"", 4, 9);
    gives("10 PRINT \"\"", "0A 00 08 08 20 0F 00 16");
    refuses(b"10 PRINT \"\"\"\"", 4, 11);
    lists("10 A=1.", "10 A=1");
    lists("10 A=.5", "10 A=0.5");
    lists("10 A=1.E5", "10 A=100000");
    refuses(b"10 A=.", 4, 5);
    refuses(b"10 A=1..2", 4, 7);
    refuses(b"10 A=1E", 4, 6);
    refuses(b"10 A=1E+", 4, 6);
    refuses(b"10 A=1E 5", 4, 6);
    refuses(b"10 A=1E5E5", 4, 8);
    refuses(b"10 A=1E005", 4, 9);
    lists("10 IF A=1THEN 10", "10 IF_A=1_THEN_10");
    refuses(b"10 FOR A=1TO5", 4, 10);
    refuses(b"10 A=1<>=1", 4, 8);
    refuses(b"10 A=1=<1", 4, 7);
    refuses(b"10 A=1=>1", 4, 7);
    refuses(b"10 A=1< =1", 4, 8);
}

#[test]
fn line_numbers_and_deletes() {
    refuses(b"10.5", 4, 2);
    lists("10E5=1", "10 E5=1");
    lists("10A=1", "10 A=1");
    refuses(b"10 20", 4, 3);
    lists("00000000000000000000000000000000000000000 END", "0 END_");
    refuses(b"", 3, 0);
    refuses(b"   ", 3, 0);
    refuses(b"99999999999999999999999999", 3, 0);
    refuses(b" 10  ", 9, 0);
    let mut desk = Desk::new();
    desk.enter(b"10 END");
    desk.enter(b"20 STOP");
    assert_eq!(desk.enter(b" 10 ").number, 0);
    assert_eq!(desk.hex(), "14 00 06 06 26 16");
    // Bytes from the new end on stay as they were.
    assert_eq!(desk.store[6..12], [0x14, 0x00, 0x06, 0x06, 0x26, 0x16]);
}

#[test]
fn grammar() {
    gives(
        "10 IF A THEN 10:END",
        "0A 00 12 0F 07 80 1B 0E 40 10 00 00 00 00 14 12 15 16",
    );
    refuses(b"10 IF A THEN -5", 4, 13);
    refuses(b"10 IF A THEN 5+1", 4, 14);
    refuses(b"10 IF A THEN10", 4, 8);
    lists("10 IF A THEN REM X:Y", "10 IF_A_THEN_REM_X:Y");
    lists("10 IF A THEN DATA 1,2", "10 IF_A_THEN_DATA_1,2");
    gives("10 A=-A$=B$", "0A 00 0C 0C 36 80 2D 36 81 34 82 16");
    refuses(b"10 PRINT -A$", 4, 12);
    gives(
        "10 A=B$=\"X\"=1",
        "0A 00 15 15 36 80 2D 81 34 0F 01 58 22 0E 40 01 00 00 00 00 16",
    );
    refuses(b"10 A=B$=\"X\"=\"Y\"", 4, 15);
    refuses(b"10 A$=B$=\"X\"", 4, 8);
    refuses(b"10 PRINT (A$)", 4, 12);
    refuses(b"10 A=SIN(A$)", 4, 11);
    refuses(b"10 A=LEN(A)", 4, 9);
    lists("10 PRINT ,,;A -1;", "10 PRINT_,,;A-1;");
    refuses(b"10 PRINT A$ -1", 4, 12);
    refuses(b"30 GOTO  ", 4, 9);
    refuses(b"10 PRINT A   B", 4, 13);
    refuses(b"10 END:", 4, 7);
    refuses(b"10 :END", 4, 3);
    refuses(b"10 GO TO 5", 4, 6);
}

#[test]
fn tokens_by_use() {
    gives("10 FOR A=B TO C", "0A 00 0B 0B 08 80 2D 81 19 82 16");
    gives("10 POKE A,B", "0A 00 09 09 1F 80 12 81 16");
    gives("10 ON A GOTO B,C", "0A 00 0B 0B 1E 80 17 81 12 82 16");
    gives("10 READ A,B$", "0A 00 09 09 22 80 12 81 16");
    gives("10 INPUT A,B$", "0A 00 09 09 02 80 12 81 16");
    gives(
        "10 DIM A(B,C),D$(B)",
        "0A 00 11 11 14 80 39 81 3C 82 2C 12 83 3B 81 2C 16",
    );
    gives(
        "10 A$(B,C)=D$(B)",
        "0A 00 11 11 36 80 37 81 3C 82 2C 2E 83 37 81 2C 16",
    );
    gives(
        "10 A(B,C)=D(B)",
        "0A 00 11 11 36 80 38 81 3C 82 2C 2D 83 38 81 2C 16",
    );
    gives(
        "10 A=LEN(STR$(B))",
        "0A 00 0F 0F 36 80 2D 42 3A 3D 3A 81 2C 2C 16",
    );
}

#[test]
fn constants_and_places() {
    refuses(b"10 A=1E98+", 5, 5);
    refuses(b"10 A=+)1E98", 4, 6);
    refuses(b"10 A=1 1E98", 4, 7);
    lists("10 A=9.99999999999E97", "10 A=9.999999999E+97");
    refuses(b"10 A=0.99999999999E-98", 5, 5);
    lists("10 A=0E99", "10 A=0");
}

#[test]
fn raw_text() {
    gives("10 REM", "0A 00 06 06 00 9B");
    gives("10 REM ", "0A 00 06 06 00 9B");
    gives("10 REM  ", "0A 00 07 07 00 20 9B");
    lists("10 DATA 1:END", "10 DATA_1:END");
    refuses(b"10 REM A\x9BB", 4, 8);
}

#[test]
fn limits_and_order() {
    let mut text = b"10 REM ".to_vec();
    text.resize(120, b'X');
    assert_eq!(Desk::new().enter(&text).number, 0);
    text.push(b'X');
    refuses(&text, 2, 0);
    // 4 comes before 6, 7 and 8; 6 before 7, 7 before 8.
    let long = format!("10 A=1{}", "+1".repeat(40));
    let mut desk = Desk::with_rooms(1, 8, 5);
    assert_eq!(desk.enter(long.as_bytes()).number, 7);
    assert_eq!(desk.enter(format!("{long}+").as_bytes()).number, 4);
    assert_eq!(Desk::with_rooms(0, 8, 5).enter(long.as_bytes()).number, 6);
    assert_eq!(Desk::with_rooms(1, 7, 5).enter(long.as_bytes()).number, 6);
    assert_eq!(Desk::with_rooms(1, 8, 14).enter(b"10 A=1").number, 8);
    let mut desk = Desk::with_rooms(1, 8, 15);
    assert_eq!(desk.enter(b"10 A=1").number, 0);
    // A replaced line's room counts as free.
    assert_eq!(desk.enter(b"10 A=2").number, 0);
    assert_eq!(desk.enter(b"11 A=2").number, 8);
}

/// The answer to entering `10 END` over these tables.
fn soundness(
    names: &[u8],
    count: usize,
    bytes: usize,
    values: usize,
    store: &[u8],
    used: usize,
) -> usize {
    let mut desk = Desk::with_rooms(0, values, 0);
    desk.names = names.to_vec();
    desk.store = store.to_vec();
    let (lines, greatest) = desk::pair(store, used);
    desk.record = Record {
        name_bytes: bytes,
        name_count: count,
        used,
        lines,
        greatest,
    };
    let before = desk.store.clone();
    let answer = desk.enter(b"10 END:A=");
    assert_eq!(desk.store, before);
    assert!(answer.number == 1 || (answer.number, answer.place) == (4, 9));
    answer.number
}

#[test]
fn sound_tables() {
    assert_eq!(soundness(b"xyz", 0, 0, 0, b"", 0), 4);
    assert_eq!(soundness(b"\xC1", 1, 1, 8, b"", 0), 4);
    assert_eq!(soundness(b"\xC1", 1, 1, 7, b"", 0), 1);
    assert_eq!(soundness(b"\xC1", 1, 2, 8, b"", 0), 1);
    assert_eq!(soundness(b"\xC1\xC2", 1, 2, 8, b"", 0), 1);
    assert_eq!(soundness(b"\xC1\xC1", 2, 2, 16, b"", 0), 1);
    assert_eq!(soundness(b"A\xA4\xC1", 2, 3, 16, b"", 0), 4);
    for name in [
        &b"PRIN\xD4"[..],
        b"RE\xCD",
        b"IF\xA8",
        b"ST\xD2",
        b"RE\xCD",
        b"NOT\xA4",
    ] {
        assert_eq!(
            soundness(name, 1, name.len(), 8, b"", 0),
            4,
            "{}",
            hex(name)
        );
    }
    for name in [
        &b"NO\xD4"[..],
        b"SIN\xA8",
        b"STR\xA4",
        b"US\xD2",
        b"A$\xA8",
        b"\xA4",
        b"\xB1",
        b"1\xC1",
        b"a\xC1",
        b"TO\xA8",
    ] {
        assert_eq!(
            soundness(name, 1, name.len(), 8, b"", 0),
            1,
            "{}",
            hex(name)
        );
    }
    let two = [10, 0, 6, 6, 0x15, 0x16, 10, 0, 6, 6, 0x15, 0x16];
    assert_eq!(soundness(b"", 0, 0, 0, &two, 6), 4);
    assert_eq!(soundness(b"", 0, 0, 0, &two, 12), 1);
    assert_eq!(soundness(b"", 0, 0, 0, &two, 7), 1);
    assert_eq!(soundness(b"", 0, 0, 0, &two, 13), 1);
    assert_eq!(soundness(b"", 0, 0, 0, &[0, 0x80, 6, 0, 0, 0], 6), 1);
    assert_eq!(soundness(b"", 0, 0, 0, &[0, 0, 5, 0, 0], 5), 1);
    assert_eq!(soundness(b"", 0, 0, 0, &[0, 0, 6, 0, 0, 0], 6), 4);
}

#[test]
fn listings() {
    lists("10 END", "10 END_");
    lists("10 CLR:END", "10 CLR_:END_");
    lists("10 ?", "10 ?_");
    lists("10 A=NOT NOT B", "10 A=_NOT__NOT_B");
    lists("10 PRINT NOT A", "10 PRINT__NOT_A");
    lists("10 IF A THEN GOTO 5", "10 IF_A_THEN_GOTO_5");
    gives(
        "10 IF A THEN B=-C",
        "0A 00 0E 07 07 80 1B 0E 36 81 2D 36 82 16",
    );
    lists("10 IF A THEN B=-C", "10 IF_A_THEN_B=-C");
}

/// The answer's number when a line stands alone over the names A, B$, C( and PRINT.
fn listed(line: &[u8]) -> usize {
    let names = b"\xC1B\xA4C\xA8PRIN\xD4";
    let (lines, greatest) = desk::pair(line, line.len());
    let record = Record {
        name_bytes: names.len(),
        name_count: 4,
        used: line.len(),
        lines,
        greatest,
    };
    let mut out = [0; 1024];
    list(10, names, &[0; 32], line, &record, &mut out).number
}

#[test]
fn foreign_lines() {
    // 10 A=0
    let mut line = [
        10, 0, 15, 15, 0x36, 0x80, 0x2D, 0x0E, 0, 0, 0, 0, 0, 0, 0x16,
    ];
    assert_eq!(listed(&line), 0);
    for (bytes, number) in [
        ([0x40, 1, 0, 0, 0, 0], 0),
        ([0, 0, 0, 0, 0, 1], 10),
        ([0x40, 0, 1, 0, 0, 0], 10),
        ([0x0F, 1, 0, 0, 0, 0], 0),
        ([0x0E, 0x99, 0, 0, 0, 0], 10),
        ([0x70, 0x99, 0, 0, 0, 0], 0),
        ([0x71, 1, 0, 0, 0, 0], 10),
        ([0x40, 0x1A, 0, 0, 0, 0], 10),
        ([0x40, 0xA1, 0, 0, 0, 0], 10),
        ([0x40, 1, 0, 0, 0, 0x0A], 10),
    ] {
        line[8..14].copy_from_slice(&bytes);
        assert_eq!(listed(&line), number, "{}", hex(&bytes));
    }
    // PRINT=A without and with LET.
    assert_eq!(listed(&[10, 0, 9, 9, 0x36, 0x83, 0x2D, 0x80, 0x16]), 10);
    assert_eq!(listed(&[10, 0, 9, 9, 0x06, 0x83, 0x2D, 0x80, 0x16]), 0);
    // A variable that the table has not; a wrong offset; a wrong end.
    assert_eq!(listed(&[10, 0, 9, 9, 0x06, 0x84, 0x2D, 0x80, 0x16]), 10);
    assert_eq!(listed(&[10, 0, 9, 8, 0x06, 0x83, 0x2D, 0x80, 0x16]), 10);
    assert_eq!(listed(&[10, 0, 9, 9, 0x06, 0x83, 0x2D, 0x80, 0x14]), 10);
    // Strings with 22 or 9B.
    assert_eq!(listed(&[10, 0, 9, 9, 0x20, 0x0F, 1, 0x58, 0x16]), 0);
    assert_eq!(listed(&[10, 0, 9, 9, 0x20, 0x0F, 1, 0x22, 0x16]), 10);
    assert_eq!(listed(&[10, 0, 9, 9, 0x20, 0x0F, 1, 0x9B, 0x16]), 10);
    // REM text that ends early, or is followed by more.
    assert_eq!(listed(&[10, 0, 7, 7, 0x00, 0x58, 0x9B]), 0);
    assert_eq!(listed(&[10, 0, 7, 7, 0x00, 0x9B, 0x9B]), 10);
    assert_eq!(listed(&[10, 0, 7, 6, 0x00, 0x9B, 0x9B]), 10);
    // Numbers that are not there.
    assert_eq!(listed(&[]), 9);
    assert_eq!(listed(&[11, 0, 7, 7, 0x00, 0x58, 0x9B]), 9);
}

#[test]
fn short_output() {
    let mut desk = Desk::new();
    desk.enter(b"10 PRINT A");
    for room in 0..12 {
        let mut out = vec![0xEE; room];
        let answer = list(
            10,
            &desk.names,
            &desk.values,
            &desk.store,
            &desk.record,
            &mut out,
        );
        if room < 10 {
            assert_eq!((answer.number, answer.written), (11, 0));
            assert!(out.iter().all(|byte| *byte == 0xEE));
        } else {
            assert_eq!((answer.number, answer.written), (0, 10));
            assert_eq!(&out[..10], b"10 PRINT A");
            assert!(out[10..].iter().all(|byte| *byte == 0xEE));
        }
    }
}

/// Over empty tables, the item from a place to its end is refused with this number.
#[track_caller]
fn refused_item(text: &[u8], number: usize, place: usize, end: usize) {
    let answer = Desk::new().enter(text);
    let shown = String::from_utf8_lossy(text);
    let found = (answer.number, answer.place, answer.end);
    assert_eq!(found, (number, place, end), "{shown}");
}

#[test]
fn whole_items() {
    refused_item(b"40 IF A BORC THEN 10", 4, 8, 12);
    refused_item(b"10 NEXT A(1)", 4, 8, 9);
    refused_item(b"10 NEXT A$(1)", 4, 8, 10);
    refused_item(b"10 LET SIN(1)=2", 4, 7, 10);
    refused_item(b"10 NEXT \"A\"", 4, 8, 11);
    refused_item(b"10 A=1=<=2", 4, 7, 9);
    refused_item(b"10 ?A$1.5E+5", 4, 6, 12);
    refused_item(b"10 A=1E98", 5, 5, 9);
    refused_item(b"10 A=1E100", 4, 9, 10);
    refused_item(b"30 GOTO", 4, 7, 7);
    refused_item(b"30 GOTO  ", 4, 9, 9);
    refused_item(b"10 A@", 4, 4, 5);
    refused_item(b"10 A=.", 4, 5, 6);
    refused_item(b"10 A=\x9B", 4, 5, 6);
    refused_item(b"10 REM A\x9BB", 4, 8, 9);
    refused_item(b"10 DATA \x9B\x9B", 4, 8, 9);
    refused_item(b"", 3, 0, 0);
    refused_item(b"10", 9, 0, 0);
}
