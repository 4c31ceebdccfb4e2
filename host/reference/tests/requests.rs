//! The settled readings of document 02, as cases, a test for each request.

mod desk;
use desk::{gives, lists, refuses, Desk};
use reference::Record;

#[test]
fn quotes_left_open() {
    gives("10 ?\"A", "0A 00 09 09 28 0F 01 41 16");
    gives("10 ?\"A  ", "0A 00 0B 0B 28 0F 03 41 20 20 16");
    gives("10 ?\"", "0A 00 08 08 28 0F 00 16");
    gives("10 A$=\"X", "0A 00 0B 0B 36 80 2E 0F 01 58 16");
    gives("10 REM \"A", "0A 00 08 08 00 22 41 9B");
    lists("10 ?\"A:END", "10 ? \"A:END\"");
    refuses(b"10 A=LEN(\"A)", 4, 12);
    refuses(b"10 ?\"A\"\"", 4, 7);
    refuses(b"10 A=\"X", 4, 7);
    refuses(b"10 NEXT \"A", 4, 8);
    for text in [&b"10 ?\"A\x9BB"[..], b"10 ?\"A\x9BB\"", b"10 ?\"\x9B"] {
        refuses(text, 4, 4);
    }
    refuses(b"10 NEXT \"\x9B", 4, 8);
}

#[test]
fn device_statements() {
    gives(
        "10 OPEN #1,4,0,\"D:X\"",
        "0A 00 24 24 17 1C 0E 40 01 00 00 00 00 12 0E 40 04 00 00 00 00 12 0E 00 00 00 00 00 00 12 0F 03 44 3A 58 16",
    );
    gives("10 CLOSE #1", "0A 00 0E 0E 11 1C 0E 40 01 00 00 00 00 16");
    gives(
        "10 GET #1,A",
        "0A 00 10 10 29 1C 0E 40 01 00 00 00 00 12 80 16",
    );
    gives("10 STATUS #A,B", "0A 00 0A 0A 1A 1C 80 12 81 16");
    gives("10 PUT #-A,B", "0A 00 0B 0B 2A 1C 36 80 12 81 16");
    gives("10 NOTE #A,B,C", "0A 00 0C 0C 1B 1C 80 12 81 12 82 16");
    gives("10 POINT #A,B,C", "0A 00 0C 0C 1C 1C 80 12 81 12 82 16");
    gives(
        "10 XIO A,#B,C,D,E$",
        "0A 00 10 10 1D 80 12 1C 81 12 82 12 83 12 84 16",
    );
    gives("10 INPUT #A;B,C$", "0A 00 0C 0C 02 1C 80 15 81 12 82 16");
    gives("10 INPUT #A,B", "0A 00 0A 0A 02 1C 80 12 81 16");
    gives("10 PRINT #A", "0A 00 08 08 20 1C 80 16");
    gives("10 PRINT #A,;B", "0A 00 0B 0B 20 1C 80 12 15 81 16");
    gives("10 ?#A;", "0A 00 09 09 28 1C 80 15 16");
    gives("10 LET GET=A", "0A 00 09 09 06 80 2D 81 16");
    lists("10 XIO 18,#6,12,0,\"S:", "10 XIO 18,#6,12,0,\"S:\"");
    lists("10 CLOSE # NOT A", "10 CLOSE # NOT A");
    lists("10 GET#A(1,2),B", "10 GET #A(1,2),B");
    for (text, place) in [
        ("10 OPEN #1,4,\"X\"", 16),
        ("10 OPEN #1,4,0", 14),
        ("10 OPEN=1", 7),
        ("10 XIO #1,1,0,0,\"X\"", 7),
        ("10 CLOSE", 8),
        ("10 CLOSE 1", 9),
        ("10 CLOSE #A$", 12),
        ("10 GET #1,A(1)", 10),
        ("10 GET #1,A$", 10),
        ("10 STATUS #1,2", 13),
        ("10 STATUS #1;A", 12),
        ("10 NOTE #1,A,2", 13),
        ("10 POINT #1,A,", 14),
        ("10 INPUT #1", 11),
        ("10 INPUT #1 A", 12),
        ("10 INPUT #1;;A", 12),
        ("10 INPUT A;B", 10),
        ("10 PRINT #1 A", 12),
        ("10 PRINT #1;#2", 12),
        ("10 PRINT A;#1", 11),
        ("10 READ #1,A", 8),
        ("10 LPRINT #1", 3),
    ] {
        refuses(text.as_bytes(), 4, place);
    }
}

/// Enters a text, which is answered so; then the record has this count of lines and greatest number.
#[track_caller]
fn keeps(desk: &mut Desk, text: &str, number: usize, lines: usize, greatest: usize) {
    let answer = desk.enter(text.as_bytes());
    assert_eq!(answer.number, number, "{text}");
    assert_eq!(desk.pair(), (lines, greatest), "{text}");
    let walked = desk::pair(&desk.store, desk.record.used);
    assert_eq!(desk.pair(), walked, "{text}");
}

#[test]
fn line_count_and_last_number() {
    let mut desk = Desk::new();
    assert_eq!(desk.pair(), (0, 0));
    // Line 0 alone.
    keeps(&mut desk, "0 END", 0, 1, 0);
    keeps(&mut desk, "0 STOP", 0, 1, 0);
    keeps(&mut desk, "0", 0, 0, 0);
    // A line at the end, in front, between; one that brings in names.
    keeps(&mut desk, "20 END", 0, 1, 20);
    keeps(&mut desk, "10 END", 0, 2, 20);
    keeps(&mut desk, "30 A=B", 0, 3, 30);
    keeps(&mut desk, "15 END", 0, 4, 30);
    keeps(&mut desk, "32767 END", 0, 5, 32767);
    // A replacement, longer, shorter and equally long: of the last line, the first and another.
    keeps(&mut desk, "32767 GOTO 10", 0, 5, 32767);
    keeps(&mut desk, "10 STOP", 0, 5, 32767);
    keeps(&mut desk, "30 END", 0, 5, 32767);
    // A refusal keeps both.
    keeps(&mut desk, "40 GOTO", 4, 5, 32767);
    keeps(&mut desk, "40 A=1E98", 5, 5, 32767);
    keeps(&mut desk, "", 3, 5, 32767);
    keeps(&mut desk, "40", 9, 5, 32767);
    // So does a line without a number.
    keeps(&mut desk, "PRINT A;NEW", 0, 5, 32767);
    // A deletion: of the last line, which leaves the one before it, of another, of the only one.
    keeps(&mut desk, "32767", 0, 4, 30);
    keeps(&mut desk, "15", 0, 3, 30);
    keeps(&mut desk, "10", 0, 2, 30);
    keeps(&mut desk, "30", 0, 1, 20);
    keeps(&mut desk, "20", 0, 0, 0);
}

/// A desk with lines 10, 20 and 30, and a record with this count of lines and greatest number.
fn three(lines: usize, greatest: usize) -> Desk {
    let mut desk = Desk::with_rooms(0, 0, 18);
    for text in [&b"10 END"[..], b"20 CLR", b"30 POP"] {
        assert_eq!(desk.enter(text).number, 0);
    }
    assert_eq!(desk.pair(), (3, 30));
    desk.record = Record {
        lines,
        greatest,
        ..desk.record
    };
    desk
}

#[test]
fn records_that_disagree() {
    let long = [b'1'; 121];
    // Each would get another number if the record agreed: 0, 0, 0, 2, 3, 4, 5, 6, 8, 9.
    let texts: [(&[u8], usize); 10] = [
        (b"30", 0),
        (b"20 STOP", 0),
        (b"END", 0),
        (&long, 2),
        (b"", 3),
        (b"40 GOTO", 4),
        (b"40 A=1E98", 5),
        (b"40 A=1", 6),
        (b"40 END", 8),
        (b"40", 9),
    ];
    let wrong = [
        (2, 30),
        (4, 30),
        (3, 29),
        (3, 31),
        (3, 20),
        (30, 3),
        (0, 30),
        (3, 0),
        (0, 0),
        (4, 40),
        (2, 20),
        (usize::MAX, 30),
        (3, usize::MAX),
    ];
    for (text, number) in texts {
        assert_eq!(three(3, 30).enter(text).number, number);
        for (lines, greatest) in wrong {
            let mut desk = three(lines, greatest);
            let (store, line, record) = (desk.store.clone(), desk.line.clone(), desk.record);
            let answer = desk.enter(text);
            let found = (answer.number, answer.place, answer.end, answer.added);
            assert_eq!(found, (1, 0, 0, 0), "{lines} {greatest}");
            assert_eq!((answer.used, desk.record), (18, record));
            assert_eq!((desk.store, desk.line), (store, line));
        }
    }
    // In listing it comes before 9, 10 and 11.
    for line in [20, 40] {
        assert_eq!(three(3, 30).list(line).is_ok(), line == 20);
        for (lines, greatest) in wrong {
            assert_eq!(three(lines, greatest).list(line), Err(1));
        }
    }
    let mut desk = three(3, 30);
    desk.store[3] = 5;
    assert_eq!(desk.list(10), Err(10));
    desk.record.lines = 2;
    assert_eq!(desk.list(10), Err(1));
    // A count of one for no line, and of none for line 0.
    let mut desk = Desk::new();
    desk.record.lines = 1;
    assert_eq!(desk.enter(b"0 END").number, 1);
    desk.record.lines = 0;
    assert_eq!(desk.enter(b"0 END").number, 0);
    desk.record.lines = 0;
    assert_eq!(desk.enter(b"0").number, 1);
}

/// Over empty tables, a text without a number gives this line in the line buffer, and nothing in the store.
#[track_caller]
fn gives_direct(text: &str, line: &str) {
    let mut desk = Desk::new();
    desk.line.fill(0xEE);
    let answer = desk.enter(text.as_bytes());
    assert_eq!(
        (answer.number, answer.place, answer.end),
        (0, 0, 0),
        "{text}"
    );
    assert_eq!((answer.used, answer.added), (0, desk.record.name_count));
    assert_eq!(desk.line_hex(), line, "{text}");
    let length = desk.line[2] as usize;
    assert!(desk.line[length..].iter().all(|byte| *byte == 0xEE));
    assert!(desk.store.iter().all(|byte| *byte == 0), "{text}");
    assert_eq!(desk.pair(), (0, 0));
}

/// Over empty tables, a text without a number lists so, and the listing gives the same line again.
#[track_caller]
fn shows(text: &str, listing: &str) {
    let mut desk = Desk::new();
    assert_eq!(desk.enter(text.as_bytes()).number, 0, "{text}");
    assert_eq!(desk.show(), Ok(listing.to_string()), "{text}");
    let line = desk.line.clone();
    desk.line.fill(0xEE);
    let answer = desk.enter(listing.as_bytes());
    assert_eq!((answer.number, answer.added), (0, 0), "{listing}");
    let length = line[2] as usize;
    assert_eq!(desk.line[..length], line[..length], "{listing}");
}

#[test]
fn lines_without_a_number() {
    gives_direct("END", "00 80 06 06 15 16");
    gives_direct("  END", "00 80 06 06 15 16");
    gives_direct("PRINT A", "00 80 07 07 20 80 16");
    gives_direct("?\"A", "00 80 09 09 28 0F 01 41 16");
    gives_direct("REM  X", "00 80 08 08 00 20 58 9B");
    gives_direct(
        "A=1:B$=\"\"",
        "00 80 16 0F 36 80 2D 0E 40 01 00 00 00 00 14 16 36 81 2E 0F 00 16",
    );
    // Neither number nor blank before the first statement; blanks elsewhere as ever.
    shows("END", "END ");
    shows("   PRINT A", "PRINT A");
    shows("PRINT NOT A", "PRINT  NOT A");
    shows("A=1", "A=1");
    shows("IF A THEN 10", "IF A THEN 10");
    shows("DATA  1,2", "DATA  1,2");
    // Digits after blanks are a number; a line with one leaves the line buffer alone.
    gives("  10 END", "0A 00 06 06 15 16");
    // What is not blank and has no digit is read as statements, with places counted from the text's start.
    refuses(b"\t10 END", 4, 0);
    refuses(b".5 A=1", 4, 0);
    refuses(b"-1 END", 4, 0);
    refuses(b" -1 END", 4, 1);
    refuses(b":END", 4, 0);
    refuses(b"GOTO", 4, 4);
    refuses(b"A=1E98", 5, 2);
    refuses(b"PRINT \"A\x9B\"", 4, 6);
    // 3 is left for blank texts and great numbers.
    refuses(b"", 3, 0);
    refuses(b"    ", 3, 0);
    refuses(b"32768", 3, 0);
    refuses(b"32768 END", 3, 0);
}

#[test]
fn refusals_of_lines_without_a_number() {
    // 2, then 3, 4 and 5, then 6, 7 and 8.
    let long = format!("A=1{}", "+1".repeat(40));
    assert_eq!(Desk::new().enter(&[b'A'; 121]).number, 2);
    let mut desk = Desk::with_rooms(0, 8, 0);
    desk.line.clear();
    assert_eq!(desk.enter(format!("{long}+").as_bytes()).number, 4);
    assert_eq!(desk.enter(long.as_bytes()).number, 6);
    desk.names = vec![0; 1];
    assert_eq!(desk.enter(long.as_bytes()).number, 7);
    assert_eq!(desk.enter(b"A=1").number, 8);
    assert_eq!(desk.record, Record::default());
    assert_eq!((&desk.names[..], &desk.values[..]), (&[0][..], &[0; 8][..]));
    // 8 is of the line buffer alone, to the byte; what it held is not looked at.
    for room in 0..9 {
        let mut desk = Desk::with_rooms(1, 8, 0);
        desk.line = vec![0xEE; room];
        let answer = desk.enter(b"PRINT A");
        if room < 7 {
            assert_eq!((answer.number, answer.added, answer.used), (8, 0, 0));
            assert!(desk.line.iter().all(|byte| *byte == 0xEE));
            assert_eq!(desk.record, Record::default());
        } else {
            assert_eq!((answer.number, answer.added, answer.used), (0, 1, 0));
            assert_eq!(desk.line_hex(), "00 80 07 07 20 80 16");
            assert!(desk.line[7..].iter().all(|byte| *byte == 0xEE));
            assert_eq!((desk.names[0], desk.record.name_count), (0xC1, 1));
        }
    }
    // A full store is no matter to it, and no line buffer none to a line with a number.
    let mut desk = three(3, 30);
    desk.line.truncate(6);
    let store = desk.store.clone();
    let answer = desk.enter(b"END");
    assert_eq!((answer.number, answer.used), (0, 18));
    assert_eq!(
        (desk.line_hex(), desk.store),
        ("00 80 06 06 15 16".into(), store)
    );
    let mut desk = Desk::new();
    desk.line.clear();
    assert_eq!(desk.enter(b"10 END").number, 0);
    assert_eq!(desk.enter(b"10").number, 0);
}

#[test]
fn names_of_lines_without_a_number_stay() {
    let mut desk = Desk::new();
    assert_eq!(desk.enter(b"10 A=1").added, 1);
    assert_eq!(desk.enter(b"PRINT A;B$;C(1)").added, 2);
    assert_eq!(desk.names_hex(), "C1 42 A4 43 A8");
    assert_eq!(desk.values[8..10], [0x80, 1]);
    assert_eq!(desk.values[16..18], [0x40, 2]);
    assert_eq!(desk.enter(b"20 B$=\"\"").added, 0);
    assert_eq!(desk.show(), Ok("PRINT A;B$;C(1)".to_string()));
    // Neither does it stand in the store, nor may it.
    assert_eq!(desk.list(32768), Err(9));
    let mut desk = Desk::new();
    desk.store[..6].copy_from_slice(&[0, 0x80, 6, 6, 0x15, 0x16]);
    desk.record = Record {
        used: 6,
        lines: 1,
        greatest: 32768,
        ..desk.record
    };
    assert_eq!(desk.list(32768), Err(1));
    assert_eq!(desk.enter(b"END").number, 1);
}

/// The answer to listing a line buffer over the names A and B$.
fn shown(line: &[u8]) -> usize {
    let mut desk = Desk::with_rooms(0, 16, 0);
    desk.names = b"\xC1B\xA4".to_vec();
    desk.record.name_bytes = 3;
    desk.record.name_count = 2;
    desk.line = line.to_vec();
    desk.show().err().unwrap_or(0)
}

#[test]
fn line_buffers() {
    let line = [0, 0x80, 7, 7, 0x20, 0x81, 0x16];
    assert_eq!(shown(&line), 0);
    // Cut, too short, empty.
    for length in 0..7 {
        assert_eq!(shown(&line[..length]), 10, "{length}");
    }
    // Bytes past the line are not read.
    assert_eq!(shown(&[&line[..], &[0xEE; 300]].concat()), 0);
    // Another number; a length that is not the line's.
    for number in [[10, 0], [0xFF, 0x7F], [1, 0x80], [0, 0x81], [0, 0]] {
        assert_eq!(shown(&[&number[..], &line[2..]].concat()), 10);
    }
    for length in [0, 1, 5, 6, 8, 255] {
        let mut other = [&line[..], &[0; 300]].concat();
        other[2] = length;
        assert_eq!(shown(&other), 10, "{length}");
    }
    // Not well-formed: a name that is not there, a wrong offset, a wrong end.
    for (place, byte) in [(5, 0x82), (3, 6), (6, 0x14)] {
        let mut other = line;
        other[place] = byte;
        assert_eq!(shown(&other), 10);
    }
    // 1 comes first; it needs names and room for values alone.
    let mut desk = Desk::with_rooms(1, 8, 0);
    desk.enter(b"PRINT A");
    desk.record.used = 77;
    assert_eq!(desk.show(), Ok("PRINT A".into()));
    desk.values.truncate(7);
    assert_eq!(desk.show(), Err(1));
    desk.line[0] = 1;
    assert_eq!(desk.show(), Err(1));
    desk.values.push(0);
    assert_eq!(desk.show(), Err(10));
    desk.line[0] = 0;
    desk.record.name_bytes = 0;
    assert_eq!(desk.show(), Err(1));
    // 11, and nothing past the listing is written.
    for room in 0..9 {
        let mut out = vec![0xEE; room];
        let answer = reference::show(&line, b"\xC1\xC2", 2, 2, &[0; 16], &mut out);
        if room < 7 {
            assert_eq!((answer.number, answer.written), (11, 0));
            assert!(out.iter().all(|byte| *byte == 0xEE));
        } else {
            assert_eq!((answer.number, answer.written), (0, 7));
            assert_eq!(&out[..7], b"PRINT B");
            assert!(out[7..].iter().all(|byte| *byte == 0xEE));
        }
    }
}

/// Enters a text of many lines over a desk, and each by itself over another like it: answers, tables and store
/// are the same. Gives what the one call answered: taken, refused, and number, place, end and line of the first
/// refusal.
#[track_caller]
fn batch(desk: &mut Desk, text: &[u8]) -> [usize; 6] {
    let mut single = desk.clone();
    let (mut taken, mut refused, mut first) = (0, 0, [0; 4]);
    let mut lines: Vec<&[u8]> = text.split(|byte| *byte == 0x9B).collect();
    if lines.last() == Some(&&b""[..]) {
        lines.pop();
    }
    for (count, line) in lines.iter().enumerate() {
        let digit = line.iter().find(|byte| **byte != b' ');
        let direct = digit.is_some_and(|byte| !byte.is_ascii_digit());
        let sound = single.clone().enter(b"").number != 1;
        let (number, place, end) = if direct && sound && line.len() <= 120 {
            (3, 0, 0)
        } else {
            let answer = single.enter(line);
            (answer.number, answer.place, answer.end)
        };
        taken += (number == 0) as usize;
        refused += (number != 0) as usize;
        if number != 0 && refused == 1 {
            first = [number, place, end, count + 1];
        }
    }
    let answer = desk.batch(text);
    let found = [
        answer.taken,
        answer.refused,
        answer.number,
        answer.place,
        answer.end,
        answer.line,
    ];
    let [number, place, end, line] = first;
    let shown = String::from_utf8_lossy(text);
    assert_eq!(found, [taken, refused, number, place, end, line], "{shown}");
    assert_eq!(*desk, single, "{shown}");
    found
}

/// Over empty tables, a text of many lines gets this answer.
#[track_caller]
fn batches(text: &[u8], answer: [usize; 6]) {
    let shown = String::from_utf8_lossy(text).into_owned();
    assert_eq!(batch(&mut Desk::new(), text), answer, "{shown}");
}

#[test]
fn whole_listings() {
    batches(b"10 A=1\x9B20 END\x9B", [2, 0, 0, 0, 0, 0]);
    // Each 9B ends a line; bytes after the last one are a line too.
    batches(b"10 A=1\x9B20 END", [2, 0, 0, 0, 0, 0]);
    batches(b"10 A=1", [1, 0, 0, 0, 0, 0]);
    batches(b"", [0, 0, 0, 0, 0, 0]);
    batches(b"\x9B", [0, 1, 3, 0, 0, 1]);
    batches(b"\x9B\x9B", [0, 2, 3, 0, 0, 1]);
    batches(b"10 END\x9B\x9B", [1, 1, 3, 0, 0, 2]);
    batches(b" ", [0, 1, 3, 0, 0, 1]);
    // It goes on after a refused line, and tells the first with its place in its own line.
    batches(
        b"10 END\x9B30 GOTO\x9B40 A=1E98\x9B50 END",
        [2, 2, 4, 7, 7, 2],
    );
    batches(b"10 IF A BORC THEN 10\x9B20 END", [1, 1, 4, 8, 12, 1]);
    batches(b"10 A=1E98\x9B\x9B", [0, 2, 5, 5, 9, 1]);
    // A line without a number gets 3 and adds no name, whatever it holds; one of 121 bytes gets 2.
    batches(b"10 A=1\x9BPRINT B\x9B20 C=1", [2, 1, 3, 0, 0, 2]);
    batches(b"PRINT (\x9B-1", [0, 2, 3, 0, 0, 1]);
    batches(&[b'A'; 121], [0, 1, 2, 0, 0, 1]);
    batches(&[b'A'; 120], [0, 1, 3, 0, 0, 1]);
    // Deletions are taken too, or refused.
    batches(b"10 END\x9B10\x9B10\x9B20", [2, 2, 9, 0, 0, 3]);
    // A quote left open ends with its line.
    batches(b"10 ?\"A\x9B20 ?\"B\"\x9B", [2, 0, 0, 0, 0, 0]);
    let mut desk = Desk::new();
    batch(&mut desk, b"10 ?\"A\x9B20 END");
    assert_eq!(desk.list(10), Ok("10 ? \"A\"".into()));
    // Rising, falling, the same number again, between others; names of earlier lines are known to later ones.
    batches(
        b"30 A=B\x9B10 B=A\x9B20 C=A\x9B20 D$=\"\"\x9B40 C(1)=D\x9B10\x9B5 END",
        [7, 0, 0, 0, 0, 0],
    );
    let mut desk = Desk::new();
    batch(
        &mut desk,
        b"30 A=1\x9B10 B=A\x9B30 END\x9B20 A(1)=B\x9B40 B=2",
    );
    assert_eq!(desk.names_hex(), "C1 C2 41 A8");
    assert_eq!(desk.pair(), (4, 40));
}

#[test]
fn whole_listings_over_full_or_unsound_tables() {
    // Unsound tables refuse every line with 1, but no line is none.
    let mut desk = Desk::with_rooms(0, 0, 0);
    desk.record.name_bytes = 1;
    assert_eq!(
        batch(&mut desk, b"10 END\x9BEND\x9B\x9B"),
        [0, 3, 1, 0, 0, 1]
    );
    assert_eq!(batch(&mut desk, b""), [0; 6]);
    let mut desk = three(3, 31);
    assert_eq!(batch(&mut desk, b"10\x9B20"), [0, 2, 1, 0, 0, 1]);
    // A full store: what does not fit is refused, what comes after it may fit.
    let mut desk = Desk::with_rooms(1, 8, 18);
    let text = b"10 END\x9B20 A=1\x9B20 END\x9B30 B=1\x9B10\x9B30 A=B\x9B40 REM\x9B50 END";
    assert_eq!(batch(&mut desk, text), [5, 3, 8, 0, 0, 2]);
    // No room for names.
    let mut desk = Desk::with_rooms(1, 8, 100);
    assert_eq!(
        batch(&mut desk, b"10 A=1\x9B20 B=1\x9B30 A=2"),
        [2, 1, 6, 0, 0, 2]
    );
    // A listing of 256 names and one more.
    let lines = (0..257).map(|number| format!("{number} N{number}=1").into_bytes());
    let text = lines.collect::<Vec<_>>().join(&0x9B);
    assert_eq!(batch(&mut Desk::new(), &text), [256, 1, 6, 0, 0, 257]);
}

/// A desk with the names N0, N1 and so on, and nothing in the store.
fn crowded(count: usize) -> Desk {
    let mut desk = Desk::new();
    for number in 0..count {
        let answer = desk.enter(format!("1 N{number}=1").as_bytes());
        assert_eq!((answer.number, answer.added), (0, 1));
    }
    assert_eq!(desk.enter(b"1").number, 0);
    desk
}

#[test]
fn more_than_128_names() {
    let mut desk = crowded(256);
    // The value entries' numbers run to 255.
    for number in 0..256 {
        assert_eq!(desk.values[8 * number + 1], number as u8);
    }
    for (text, bytes) in [
        (
            "10 N127=N128",
            &[10, 0, 10, 10, 0x36, 0xFF, 0x2D, 0x00, 0x00, 0x16][..],
        ),
        (
            "10 N255=N0",
            &[10, 0, 10, 10, 0x36, 0x00, 0x7F, 0x2D, 0x80, 0x16],
        ),
        (
            "10 IF N128 THEN N129=N130",
            &[
                10, 0, 16, 8, 7, 0x00, 0x00, 0x1B, 16, 0x36, 0x00, 0x01, 0x2D, 0x00, 0x02, 0x16,
            ],
        ),
    ] {
        assert_eq!(desk.enter(text.as_bytes()).number, 0);
        assert_eq!(desk.store[..desk.record.used], *bytes, "{text}");
    }
    assert_eq!(desk.list(10).as_deref(), Ok("10 IF N128 THEN N129=N130"));
    assert_eq!(desk.enter(b"10 N256=1").number, 6);
    // 00 and a byte that no name has; the long form cut off; a wrong offset.
    for line in [
        [10, 0, 8, 8, 0x20, 0x00, 0x80, 0x16],
        [10, 0, 8, 8, 0x20, 0x00, 0xFF, 0x16],
        [10, 0, 8, 8, 0x20, 0x16, 0x00, 0x00],
        [10, 0, 8, 7, 0x20, 0x00, 0x7F, 0x16],
    ] {
        desk.store[..8].copy_from_slice(&line);
        desk.record.used = 8;
        assert_eq!(desk.list(10), Err(10), "{line:?}");
    }
    let mut desk = crowded(200);
    for (low, listing) in [(0x47, Ok("10 PRINT N199")), (0x48, Err(10))] {
        desk.store[..8].copy_from_slice(&[10, 0, 8, 8, 0x20, 0x00, low, 0x16]);
        (desk.record.used, desk.record.lines, desk.record.greatest) = (8, 1, 10);
        assert_eq!(desk.list(10), listing.map(String::from));
    }
    // 7 and 8 count both bytes.
    let long = |name: &str| format!("1 {name}=1{}", "+1".repeat(30)).into_bytes();
    let mut desk = crowded(129);
    assert_eq!(desk.enter(&long("N127")).number, 0);
    assert_eq!(desk.record.used, 255);
    assert_eq!(desk.enter(&long("N128")).number, 7);
    let mut desk = crowded(129);
    desk.store.truncate(7);
    assert_eq!(desk.enter(b"10 NEXT N128").number, 8);
    assert_eq!(desk.enter(b"10 NEXT N127").number, 0);
}

/// Over this desk with wrong lines kept, a text is refused with 4 at this item, and the store has these lines; names
/// and values are as they were, and the pair is what a walk of the store finds.
#[track_caller]
fn stays(desk: Desk, text: &[u8], item: (usize, usize), lines: &str) {
    let shown = String::from_utf8_lossy(text);
    let (mut desk, before) = (desk.clone().keeping(), desk);
    let answer = desk.enter(text);
    assert_eq!(
        (answer.number, answer.place, answer.end),
        (4, item.0, item.1),
        "{shown}"
    );
    assert_eq!((answer.added, answer.used), (0, desk.record.used));
    assert_eq!(desk.hex(), lines, "{shown}");
    let walked = desk::pair(&desk.store, desk.record.used);
    assert_eq!(desk.pair(), walked, "{shown}");
    let end = desk.record.used;
    assert_eq!(desk.store[end..], before.store[end..], "{shown}");
    assert_eq!(desk.names, before.names, "{shown}");
    assert_eq!(desk.values, before.values, "{shown}");
    assert_eq!(desk.line, before.line, "{shown}");
}

/// Over this desk with wrong lines kept, a text is refused as it is where none are, and nothing changes.
#[track_caller]
fn goes(desk: Desk, text: &[u8], number: usize) {
    let shown = String::from_utf8_lossy(text);
    let answer = desk.clone().enter(text);
    assert_eq!(answer.number, number, "{shown}");
    let mut keeping = desk.clone().keeping();
    assert_eq!(keeping.enter(text), answer, "{shown}");
    assert_eq!(keeping, desk.keeping(), "{shown}");
}

#[test]
fn wrong_lines_are_kept() {
    // At the text's end a byte A0 is added; else the byte at the place is flipped.
    let goto = "1E 00 0C 0C 37 20 47 4F 54 4F A0 9B";
    stays(Desk::new(), b"30 GOTO", (7, 7), goto);
    stays(
        Desk::new(),
        b"30 GOTO  ",
        (9, 9),
        "1E 00 0E 0E 37 20 47 4F 54 4F 20 20 A0 9B",
    );
    // What stands before the number's end is left out; blanks after it are kept.
    stays(Desk::new(), b"  0030 GOTO", (11, 11), goto);
    stays(Desk::new(), b"30=", (2, 3), "1E 00 07 07 37 BD 9B");
    stays(
        Desk::new(),
        b"20  A=)B",
        (6, 7),
        "14 00 0C 0C 37 20 20 41 3D A9 42 9B",
    );
    // Of an item of several bytes the first is flipped; a byte above 7F loses its top bit.
    stays(
        Desk::new(),
        b"40 IF A BORC",
        (8, 12),
        "28 00 10 10 37 20 49 46 20 41 20 C2 4F 52 43 9B",
    );
    stays(
        Desk::new(),
        b"10 A=\xFF",
        (5, 6),
        "0A 00 0A 0A 37 20 41 3D 7F 9B",
    );
    // The longest text.
    let mut text = b"1".to_vec();
    text.resize(120, b'-');
    let mut line = "01 00 7D 7D 37 AD".to_string();
    line.push_str(&" 2D".repeat(118));
    line.push_str(" 9B");
    stays(Desk::new(), &text, (1, 2), &line);
    let mut text = b"1 GOTO".to_vec();
    text.resize(120, b' ');
    let mut line = "01 00 7E 7E 37 20 47 4F 54 4F".to_string();
    line.push_str(&" 20".repeat(114));
    line.push_str(" A0 9B");
    stays(Desk::new(), &text, (120, 120), &line);
    // 1B is kept unless it stands at the place.
    stays(
        Desk::new(),
        b"40 ) \x1B",
        (3, 4),
        "28 00 0A 0A 37 20 A9 20 1B 9B",
    );
    stays(
        Desk::new(),
        b"1 ?\"\x1B\")",
        (6, 7),
        "01 00 0C 0C 37 20 3F 22 1B 22 A9 9B",
    );
    goes(Desk::new(), b"40 A=\x1B", 4);
    // 9B is nowhere.
    for text in [
        &b"1 ) \x9B"[..],
        b"1 \x9B)",
        b"1 ?\"\x9B\"",
        b"1 REM \x9B",
        b"1 A=\x9B",
        b"1\x9B",
    ] {
        goes(Desk::new(), text, 4);
    }
    // Only 4 is kept, and only of a numbered line.
    goes(Desk::new(), b"1 A=1E98", 5);
    goes(Desk::new(), b"GOTO", 4);
    goes(Desk::new(), b"32768 GOTO", 3);
    goes(Desk::new(), b"1", 9);
    goes(Desk::new(), &[b'1'; 121], 2);
    goes(Desk::with_rooms(0, 0, 99), b"1 A=1", 6);
    goes(Desk::with_rooms(9, 99, 13), b"1 A=1", 8);
    let mut desk = Desk::new();
    desk.record.lines = 1;
    goes(desk, b"1 GOTO", 1);
}

#[test]
fn kept_lines_among_others() {
    // A kept line replaces the one that had its number, is replaced and deleted as any; the pair is kept.
    let mut desk = Desk::new().keeping();
    keeps(&mut desk, "10 A=1", 0, 1, 10);
    keeps(&mut desk, "30 )", 4, 2, 30);
    keeps(&mut desk, "10 GOTO", 4, 2, 30);
    assert_eq!(desk.list(10), Ok("10 ERROR-  GOTO\u{A0}".into()));
    keeps(&mut desk, "20 B=", 4, 3, 30);
    keeps(&mut desk, "30 GOTO 10", 0, 3, 30);
    keeps(&mut desk, "40 PRINT(", 4, 4, 40);
    keeps(&mut desk, "40", 0, 3, 30);
    keeps(&mut desk, "20", 0, 2, 30);
    keeps(&mut desk, "10 END", 0, 2, 30);
    assert_eq!(desk.list(10), Ok("10 END ".into()));
    // It brings in no name.
    assert_eq!(desk.names_hex(), "C1");
    // 8 where it does not fit, in place of 4; the room of the line that it replaces is free.
    let line = "0A 00 08 08 37 20 A9 9B";
    stays(Desk::with_rooms(0, 0, 8), b"10 )", (3, 4), line);
    let small = |room| {
        let mut desk = Desk::with_rooms(0, 0, room);
        assert_eq!(desk.enter(b"10 END").number, 0);
        desk
    };
    stays(small(8), b"10 )", (3, 4), line);
    let both = "0A 00 06 06 15 16 0B 00 08 08 37 20 A9 9B";
    stays(small(14), b"11 )", (3, 4), both);
    for (mut desk, text) in [
        (Desk::with_rooms(0, 0, 7), &b"10 )"[..]),
        (small(7), b"10 )"),
        (small(13), b"11 )"),
        (small(11), b"10 GOTO"),
    ] {
        desk.keep = true;
        let before = desk.clone();
        let answer = desk.enter(text);
        assert_eq!((answer.number, answer.place, answer.end), (8, 0, 0));
        assert_eq!((answer.added, answer.used), (0, before.record.used));
        assert_eq!(desk, before);
    }
    // What cannot be kept is 4 even where it would not fit.
    goes(Desk::with_rooms(0, 0, 0), b"10 A=\x1B", 4);
    goes(Desk::with_rooms(0, 0, 0), b"10 ) \x9B", 4);
    // Many lines at once: a kept one counts as refused.
    let mut desk = Desk::with_rooms(9, 99, 40).keeping();
    let text = b"10 )\x9B20 A=1\x9B\x9B30 GOTO\x9B20 B=\x9B40 PRINT A\x9BPRINT )\x9B10 END";
    assert_eq!(batch(&mut desk, text), [3, 5, 4, 3, 4, 1]);
    assert_eq!(desk.pair(), (4, 40));
    assert_eq!(desk.names_hex(), "C1");
    let mut desk = Desk::with_rooms(0, 0, 8).keeping();
    assert_eq!(
        batch(&mut desk, b"10 GOTO\x9B10 )\x9B10 END"),
        [1, 2, 8, 0, 0, 1]
    );
}

#[test]
fn error_lines_are_listed() {
    // The only line of a store, without names.
    let listed = |line: &[u8]| {
        let mut desk = Desk::with_rooms(0, 0, 0);
        desk.store = line.to_vec();
        let number = line[0] as usize + 256 * line[1] as usize;
        desk.record.used = line.len();
        (desk.record.lines, desk.record.greatest) = (1, number);
        desk.list(number)
    };
    for (line, listing) in [
        (
            &b"\x1E\0\x0C\x0C7 GOTO\xA0\x9B"[..],
            "30 ERROR-  GOTO\u{A0}",
        ),
        (b"\x0A\0\x07\x077A\x9B", "10 ERROR- A"),
        (b"\x0A\0\x08\x087\x14\x16\x9B", "10 ERROR- \x14\x16"),
        // No text; a number with a byte 9B.
        (b"\0\0\x06\x067\x9B", "0 ERROR- "),
        (b"\x9B\x1B\x06\x067\x9B", "7067 ERROR- "),
    ] {
        assert_eq!(listed(line), Ok(listing.into()));
    }
    // A length with a byte 9B, and the longest.
    for length in [0x9B, 0xFF] {
        let mut line = vec![10, 0, length, length, 0x37];
        line.resize(length as usize - 1, b'"');
        line.push(0x9B);
        let quotes = "\"".repeat(length as usize - 6);
        assert_eq!(listed(&line), Ok(format!("10 ERROR- {quotes}")));
    }
    // A wrong offset, 9B in the text, another end, another token, another statement before or behind it.
    for line in [
        &b"\x0A\0\x08\x077AB\x9B"[..],
        b"\x0A\0\x08\x097AB\x9B",
        b"\x0A\0\x08\x067AB\x9B",
        b"\x0A\0\x08\x087\x9BB\x9B",
        b"\x0A\0\x08\x087A\x9B\x9B",
        b"\x0A\0\x08\x087AB\x16",
        b"\x0A\0\x08\x087AB\x14",
        b"\x0A\0\x08\x088AB\x9B",
        b"\x0A\0\x08\x086AB\x9B",
        b"\x0A\0\x09\x067\x9B\x09\x15\x16",
        b"\x0A\0\x0A\x06\x15\x14\x0A7A\x9B",
    ] {
        assert_eq!(listed(line), Err(10), "{line:?}");
    }
    // A number above 32767 is lawful in a line buffer alone, and only 32768.
    assert_eq!(listed(b"\0\x80\x07\x077A\x9B"), Err(1));
    let shown = |line: &[u8]| {
        let mut desk = Desk::with_rooms(0, 0, 0);
        desk.line = line.to_vec();
        desk.show()
    };
    assert_eq!(shown(b"\0\x80\x07\x077A\x9B\x9B"), Ok("ERROR- A".into()));
    assert_eq!(shown(b"\0\x80\x06\x067\x9B"), Ok("ERROR- ".into()));
    for line in [
        &b"\x01\x80\x07\x077A\x9B"[..],
        b"\x0A\0\x07\x077A\x9B",
        b"\0\x80\x07\x067A\x9B",
        b"\0\x80\x08\x087A\x9B",
        b"\0\x80\x07\x077\x9B\x9B",
        b"\0\x80\x05\x057\x9B",
        b"\0\x80\x06\x067",
    ] {
        assert_eq!(shown(line), Err(10), "{line:?}");
    }
    // The output has to hold it.
    let mut desk = Desk::new().keeping();
    desk.enter(b"30 GOTO");
    for room in 0..18 {
        let mut out = vec![0xEE; room];
        let lent = (&desk.names, &desk.values, &desk.store, &desk.record);
        let answer = reference::list(30, lent.0, lent.1, lent.2, lent.3, &mut out);
        if room < 16 {
            assert_eq!((answer.number, answer.written), (11, 0));
            assert!(out.iter().all(|byte| *byte == 0xEE));
        } else {
            assert_eq!((answer.number, answer.written), (0, 16));
            assert_eq!(&out[..16], b"30 ERROR-  GOTO\xA0");
            assert!(out[16..].iter().all(|byte| *byte == 0xEE));
        }
    }
}

/// Bytes from hexadecimal digits, with blanks between them or none.
fn hex(text: &str) -> Vec<u8> {
    let digits: Vec<u8> = text.bytes().filter(|byte| *byte != b' ').collect();
    let pair = |pair: &[u8]| u8::from_str_radix(std::str::from_utf8(pair).unwrap(), 16).unwrap();
    digits.chunks(2).map(pair).collect()
}

/// The number that reading a file answers, with what it leaves in buffers of these lengths, all EE before.
fn read(file: &[u8], rooms: [usize; 3]) -> (usize, [Vec<u8>; 3], Record) {
    let [mut names, mut values, mut store] = rooms.map(|room| vec![0xEE; room]);
    let mut record = Record {
        name_bytes: 9,
        name_count: 9,
        used: 9,
        lines: 9,
        greatest: 9,
    };
    let number = reference::load(file, &mut names, &mut values, &mut store, &mut record);
    (number, [names, values, store], record)
}

/// A program of two names and two lines, 10 A=B and 20 END, and its file.
const NAMES: &str = "C1 C2";
const VALUES: &str = "00 00 00 00 00 00 00 00 00 01 00 00 00 00 00 00";
const LINES: &str = "0A 00 09 09 36 80 2D 81 16 14 00 06 06 15 16";
const WORDS: &str = "00 00 00 01 02 01 03 01 13 01 22 01 28 01";
const LAST: &str = "00 80 06 06 15 16";

fn file() -> Vec<u8> {
    hex(&[WORDS, NAMES, "00", VALUES, LINES, LAST].concat())
}

#[test]
fn files_written() {
    let record = Record {
        name_bytes: 2,
        name_count: 2,
        used: 15,
        lines: 2,
        greatest: 20,
    };
    let save = |record: &Record, room: usize| {
        let mut out = vec![0xEE; room];
        let answer = reference::save(&hex(NAMES), &hex(VALUES), &hex(LINES), record, &mut out);
        (answer.number, answer.written, out)
    };
    let mut whole = file();
    assert_eq!(save(&record, 54), (0, 54, whole.clone()));
    whole.push(0xEE);
    assert_eq!(save(&record, 55), (0, 54, whole));
    assert_eq!(save(&record, 53), (8, 0, vec![0xEE; 53]));
    let other = Record {
        greatest: 21,
        ..record
    };
    assert_eq!(save(&other, 0), (1, 0, vec![]));
}

#[test]
fn files_read() {
    let held = |file: &[u8]| {
        let (number, [names, values, store], record) = read(file, [2, 16, 15]);
        assert_eq!(number, 0);
        assert_eq!(
            (names, values, store),
            (hex(NAMES), hex(VALUES), hex(LINES))
        );
        assert_eq!((record.name_bytes, record.name_count), (2, 2));
        assert_eq!((record.used, record.lines, record.greatest), (15, 2, 20));
    };
    held(&file());
    // another second word, a current line anywhere from the statements on, a last line 32768 that holds anything, or none
    held(&hex(&[
        "00 00 2C 01 2E 01 2F 01 3F 01 4E 01 54 01",
        NAMES,
        "00",
        VALUES,
        LINES,
        LAST,
    ]
    .concat()));
    held(&hex(&[
        "00 00 00 01 02 01 03 01 13 01 13 01 28 01",
        NAMES,
        "00",
        VALUES,
        LINES,
        LAST,
    ]
    .concat()));
    held(&hex(&[
        WORDS,
        NAMES,
        "00",
        VALUES,
        LINES,
        "00 80 06 FF FF FF",
    ]
    .concat()));
    held(&hex(&[
        "00 00 00 01 02 01 03 01 13 01 22 01 22 01",
        NAMES,
        "00",
        VALUES,
        LINES,
    ]
    .concat()));
    let refuses = |file: &[u8], number: usize| {
        for rooms in [[4, 40, 40], [0, 0, 0]] {
            let (found, [names, values, store], record) = read(file, rooms);
            assert_eq!(found, number, "{file:02X?}");
            assert_eq!([names, values, store], rooms.map(|room| vec![0xEE; room]));
            assert_eq!(record.lines, 9);
        }
    };
    refuses(&[0; 13], 12);
    refuses(&[0; 14], 13);
    // cut anywhere, or one byte longer
    for cut in 0..file().len() {
        refuses(&file()[..cut], if cut < 14 { 12 } else { 13 });
    }
    refuses(&[file(), vec![0]].concat(), 13);
    // two last lines, one cut, one with number 32769, value bytes other than eight a name
    refuses(
        &hex(&[
            "00 00 00 01 02 01 03 01 13 01 22 01 2E 01",
            NAMES,
            "00",
            VALUES,
            LINES,
            LAST,
            LAST,
        ]
        .concat()),
        1,
    );
    refuses(
        &hex(&[
            "00 00 00 01 02 01 03 01 13 01 22 01 27 01",
            NAMES,
            "00",
            VALUES,
            LINES,
            "00 80 06 06 15",
        ]
        .concat()),
        1,
    );
    refuses(
        &hex(&[WORDS, NAMES, "00", VALUES, LINES, "01 80 06 06 15 16"].concat()),
        1,
    );
    refuses(
        &hex(&[
            "00 00 00 01 02 01 03 01 12 01 22 01 28 01",
            NAMES,
            "00",
            VALUES,
            LINES,
            LAST,
        ]
        .concat()),
        1,
    );
    for rooms in [[1, 16, 15], [2, 15, 15], [2, 16, 14]] {
        assert_eq!(read(&file(), rooms).0, 8);
    }
    assert_eq!(
        read(
            &hex("00 00 00 01 00 01 01 01 01 01 01 01 01 01 00"),
            [0, 0, 0]
        )
        .0,
        0
    );
}

/// The value entry of a variable of this type and number, with bytes behind them that are its own.
fn value(type_byte: u8, number: u8, own: u8) -> [u8; 8] {
    [type_byte, number, own, own, own, own, own, own]
}

#[test]
fn unused_names_are_taken_back() {
    let mut desk = Desk::new();
    desk.batch(b"10 A=B+C$=D$\x9B20 E(A)=F\x9B30 ? F;B\x9B10\x9B15 REM A=\x80\x81\x9B");
    // A to F are names 0 to 5, and C$ and D$ are used no more.
    assert_eq!(desk.names_hex(), "C1 C2 43 A4 44 A4 45 A8 C6");
    for number in 0..6 {
        desk.values[8 * number + 2..8 * number + 8].fill(0x10 + number as u8);
    }
    desk.values[48..56].fill(0xEE);
    let before = desk.clone();
    assert_eq!(desk.collect(), 0);
    assert_eq!(desk.names_hex(), "C1 C2 45 A8 C6");
    assert_eq!(desk.names[5..], before.names[5..]);
    let values = [
        value(0x00, 0, 0x10),
        value(0x00, 1, 0x11),
        value(0x40, 2, 0x14),
        value(0x00, 3, 0x15),
    ];
    assert_eq!(desk.values[..32], values.concat());
    assert_eq!(desk.values[32..], before.values[32..]);
    assert_eq!(
        desk.hex(),
        "0F 00 0A 0A 00 41 3D 80 81 9B 14 00 0C 0C 36 82 38 80 2C 2D 83 16 1E 00 09 09 28 83 15 81 16"
    );
    assert_eq!(desk.store[31..], before.store[31..]);
    assert_eq!((desk.record.name_bytes, desk.record.name_count), (5, 4));
    assert_eq!((desk.record.used, desk.pair()), (31, (3, 30)));
    for line in [15, 20, 30] {
        assert_eq!(desk.list(line), before.list(line));
    }
    // Once more changes nothing more.
    let once = desk.clone();
    assert_eq!(desk.collect(), 0);
    assert_eq!(desk, once);
    // No line uses a name any more, and then there is none; the bytes stay.
    desk.batch(b"20\x9B30\x9B");
    assert_eq!(desk.collect(), 0);
    assert_eq!((desk.record.name_bytes, desk.record.name_count), (0, 0));
    assert_eq!((&desk.names, &desk.values), (&once.names, &once.values));
}

#[test]
fn only_stored_statements_use_names() {
    // In REM and DATA, in a string, in an error line, in a constant, in a line buffer.
    let mut desk = Desk::new().keeping();
    for text in [
        &b"10 A=1"[..],
        b"10 REM A \x80\x00\x01",
        b"20 DATA A,\x80",
        b"30 ? \"A\x80\";8081.8",
        b"40 A=)",
        b"? A",
    ] {
        desk.enter(text);
    }
    assert_eq!((desk.record.name_count, desk.record.lines), (1, 4));
    let before = desk.clone();
    assert_eq!(desk.collect(), 0);
    assert_eq!((desk.record.name_bytes, desk.record.name_count), (0, 0));
    // Nothing else is changed, and the line in the line buffer is stale.
    let counts = (before.record.name_bytes, before.record.name_count);
    (desk.record.name_bytes, desk.record.name_count) = counts;
    assert_eq!(desk, before);
    (desk.record.name_bytes, desk.record.name_count) = (0, 0);
    assert_eq!(desk.show(), Err(10));
}

#[test]
fn the_number_of_every_kept_value_is_set() {
    let mut desk = Desk::new();
    desk.enter(b"10 A=B");
    desk.values[..16].fill(0x99);
    assert_eq!(desk.collect(), 0);
    let values = [value(0x99, 0, 0x99), value(0x99, 1, 0x99)];
    assert_eq!(desk.values[..16], values.concat());
}

/// A desk with so many names, N0 and on.
fn with_names(count: usize) -> Desk {
    let mut desk = Desk::new();
    for number in 0..count {
        desk.enter(format!("1 N{number}=0").as_bytes());
    }
    desk.enter(b"1");
    assert_eq!(desk.record.name_count, count);
    desk
}

#[test]
fn long_forms_shrink() {
    // Of 256 names 3, 128, 129 and 255 are used: one byte each then.
    let mut desk = with_names(256);
    desk.batch(b"10 IF N128 THEN N129=N255:? N3:REM \x00\x01\x9B20 END\x9B");
    assert_eq!(
        desk.hex(),
        "0A 00 19 08 07 00 00 1B 10 36 00 01 2D 00 7F 14 14 28 83 14 19 00 00 01 9B 14 00 06 06 15 16"
    );
    let before = desk.clone();
    assert_eq!(desk.collect(), 0);
    assert_eq!(
        desk.names_hex(),
        "4E B3 4E 31 32 B8 4E 31 32 B9 4E 32 35 B5"
    );
    assert_eq!(
        desk.hex(),
        "0A 00 16 07 07 81 1B 0D 36 82 2D 83 14 11 28 80 14 16 00 00 01 9B 14 00 06 06 15 16"
    );
    assert_eq!(desk.record.used, before.record.used - 3);
    let used = desk.record.used;
    assert_eq!(desk.store[used..], before.store[used..]);
    for line in [10, 20] {
        assert_eq!(desk.list(line), before.list(line));
    }
    let once = desk.clone();
    assert_eq!(desk.collect(), 0);
    assert_eq!(desk, once);
}

#[test]
fn a_long_form_stays_where_128_names_stand_before_it() {
    // All 130 names but name 5 are used: 128 becomes 127 and short, 129 becomes 128 and stays long.
    let mut desk = with_names(130);
    for number in (0..130).filter(|number| *number != 5) {
        desk.enter(format!("{} NEXT N{number}", 10 + number).as_bytes());
    }
    let listing = |desk: &Desk| (10..140).map(|line| desk.list(line)).collect::<Vec<_>>();
    let before = desk.clone();
    assert_eq!(desk.collect(), 0);
    assert_eq!(desk.record.name_count, 129);
    assert_eq!(desk.record.used, before.record.used - 1);
    assert!(desk
        .hex()
        .ends_with("89 00 07 07 09 FE 16 8A 00 07 07 09 FF 16 8B 00 08 08 09 00 00 16"));
    assert_eq!(listing(&desk), listing(&before));
}

#[test]
fn collections_refused() {
    let refused = |desk: &Desk, number: usize| {
        let mut after = desk.clone();
        assert_eq!(after.collect(), number);
        assert_eq!(after, *desk);
    };
    let mut desk = Desk::new();
    desk.batch(b"10 A=B\x9B20 C=B\x9B10 END\x9B");
    // The pair of the record, the tables, the store.
    for change in [
        |desk: &mut Desk| desk.record.lines += 1,
        |desk: &mut Desk| desk.record.greatest += 1,
        |desk: &mut Desk| desk.record.used -= 1,
        |desk: &mut Desk| desk.record.name_count += 1,
        |desk: &mut Desk| desk.names[0] = 0xC2,
        |desk: &mut Desk| desk.values.truncate(23),
    ] {
        let mut wrong = desk.clone();
        change(&mut wrong);
        refused(&wrong, 1);
        // 1 comes before 10.
        wrong.store[5] = 0x37;
        refused(&wrong, 1);
    }
    // A line that is not well-formed: the last one, the first one, one whose name is not there.
    for (place, byte) in [(14, 0x14), (4, 0x37), (11, 0x83), (11, 0x00)] {
        let mut wrong = desk.clone();
        wrong.store[place] = byte;
        refused(&wrong, 10);
    }
}

/// A file of these names, values and lines, without a current line, whose second word is 0.
fn file_of(names: &[u8], values: &[u8], lines: &[u8]) -> Vec<u8> {
    let places = [0, 0, names.len(), names.len() + 1];
    let lines_at = names.len() + 1 + values.len();
    let end = lines_at + lines.len();
    let words = [&places[..], &[lines_at, end, end]].concat();
    let words = words.iter().flat_map(|word| (*word as u16).to_le_bytes());
    [&words.collect::<Vec<u8>>(), names, &[0], values, lines].concat()
}

/// The file of what stands on a desk.
fn desk_file(desk: &Desk) -> Vec<u8> {
    let record = &desk.record;
    file_of(
        &desk.names[..record.name_bytes],
        &desk.values[..8 * record.name_count],
        &desk.store[..record.used],
    )
}

/// The columns of a text's line: store bytes, listing bytes, variables, numbers, strings, raw text, all else.
#[track_caller]
fn weighs(text: &str, columns: [usize; 7]) {
    let mut desk = Desk::new().keeping();
    desk.enter(text.as_bytes());
    let weight = reference::weigh(&desk_file(&desk)).unwrap();
    assert_eq!((weight.lines, weight.names), (1, desk.record.name_count));
    assert_eq!(weight.columns()[2..], columns, "{text}");
}

#[test]
fn what_bytes_are() {
    weighs("10 END", [6, 8, 0, 0, 0, 0, 6]);
    weighs("10 A=A", [9, 7, 2, 0, 0, 0, 7]);
    weighs("10 A=1.5", [15, 9, 1, 7, 0, 0, 7]);
    weighs("10 A$=\"\"", [10, 9, 1, 0, 2, 0, 7]);
    weighs("10 ? \"ABC\";-.5", [20, 16, 0, 7, 5, 0, 8]);
    weighs("10 GOTO 900", [13, 12, 0, 7, 0, 0, 6]);
    // The text of REM, DATA and error lines, without its end. A blank after the word is no part of it.
    weighs("10 REM A=1 \"B\"", [13, 15, 0, 0, 0, 7, 6]);
    weighs("10 REM", [6, 8, 0, 0, 0, 0, 6]);
    weighs("10 DATA 1,B", [9, 12, 0, 0, 0, 3, 6]);
    weighs("10 A=:END", [13, 18, 0, 0, 0, 7, 6]);
    // Functions, operators, each statement's offset, word and end.
    weighs("10 A=SIN(B):IF A THEN C=LEN(A$)", [25, 32, 5, 0, 0, 0, 20]);
}

#[test]
fn programs_weighed() {
    // The program of the file above, whose current line is not weighed: 10 A=B and 20 END.
    let weight = reference::weigh(&file()).unwrap();
    assert_eq!(weight.columns(), [2, 2, 15, 15, 2, 0, 0, 0, 13]);
    // Names that no line uses are counted too, and both bytes of a long token.
    let mut desk = with_names(130);
    desk.batch(b"10 N128=N127\x9B20 ? \"AB\";N129;7\x9B30 REM \x80\x9B");
    let weight = reference::weigh(&desk_file(&desk)).unwrap();
    // Lines of 10, 21 and 7 bytes, which list as 10 N128=N127, 20 ? "AB";N129;7 and 30 REM and a byte.
    assert_eq!(
        weight.columns(),
        [3, 130, 38, 13 + 17 + 9, 5, 7, 4, 1, 7 + 8 + 6]
    );
    // No line, no name.
    let none = file_of(&[], &[], &[]);
    assert_eq!(reference::weigh(&none).unwrap().columns(), [0; 9]);
}

#[test]
fn programs_not_weighed() {
    let refused = |file: &[u8]| reference::weigh(file).unwrap_err();
    assert_eq!(refused(&[]), 12);
    assert_eq!(refused(&[0; 13]), 12);
    assert_eq!(refused(&[0; 14]), 13);
    assert_eq!(refused(&[0; 65_535]), 13);
    // 14 comes before all others, also where the reader takes a file.
    assert_eq!(refused(&[0xFF; 65_536]), 14);
    let line = |number: usize, length: u8| {
        let mut line = vec![number as u8, (number >> 8) as u8, length, length, 0];
        line.resize(length as usize - 1, b'R');
        line.push(0x9B);
        line
    };
    let mut lines: Vec<u8> = (0..256).flat_map(|number| line(number, 255)).collect();
    lines.extend(line(256, 240));
    let file = file_of(&[], &[], &lines);
    assert_eq!((lines.len(), file.len()), (65_520, 65_535));
    let weight = reference::weigh(&file).unwrap();
    assert_eq!((weight.lines, weight.raw), (257, 65_520 - 6 * 257));
    lines.extend(line(257, 6));
    let file = file_of(&[], &[], &lines);
    assert_eq!((file.len(), refused(&file)), (65_541, 14));
    assert_eq!(read(&file, [0, 0, 65_535]).0, 0);
    // Tables that are unsound come before a line that is not well-formed, which is any of them.
    let bad = [line(10, 6), vec![20, 0, 6, 6, 0x15, 0x14], line(30, 6)].concat();
    assert_eq!(refused(&file_of(&[], &[], &bad)), 10);
    assert_eq!(refused(&file_of(&[0xC1], &[], &bad)), 1);
    assert_eq!(refused(&file_of(&[0xC1], &[0; 8], &bad[..17])), 1);
    let unknown = [10, 0, 7, 7, 0x20, 0x81, 0x16];
    assert_eq!(refused(&file_of(&[0xC1], &[0; 8], &unknown)), 10);
}

/// What two edits leave in this order, if both are accepted.
fn in_order(desk: &Desk, first: &str, second: &str) -> Option<Desk> {
    let mut desk = desk.clone();
    let numbers = [first, second].map(|text| desk.enter(text.as_bytes()).number);
    (numbers == [0, 0]).then_some(desk)
}

/// The listing of every line below 100, in order.
fn listings(desk: &Desk) -> Vec<Result<String, usize>> {
    (0..100)
        .map(|line| desk.list(line))
        .filter(|listing| *listing != Err(9))
        .collect()
}

#[test]
fn two_orders_without_a_new_name() {
    let mut desk = Desk::with_rooms(40, 40, 200);
    desk.batch(b"10 A=1\x9B20 B$=\"X\"\x9B30 ? A;B$\x9B40 REM\x9B");
    let edits = [
        "0 A=A+1",
        "5 END",
        "10",
        "10 A=1",
        "10 B$=B$(A)",
        "20",
        "20 END",
        "25 ? A",
        "30",
        "30 GOTO 10:REM LONGER",
        "40",
        "32767 A=0",
    ];
    let number = |text: &str| text.split(' ').next().map(str::to_string);
    for first in edits {
        for second in edits.iter().filter(|text| number(text) != number(first)) {
            let one = in_order(&desk, first, second).unwrap();
            let two = in_order(&desk, second, first).unwrap();
            // The store as far as it is used, all names and values, the record.
            assert_eq!(one.hex(), two.hex(), "{first}, {second}");
            assert_eq!((&one.names, &one.values), (&two.names, &two.values));
            assert_eq!(one.record, two.record, "{first}, {second}");
        }
    }
}

#[test]
fn two_orders_with_new_names() {
    let mut desk = Desk::new().keeping();
    desk.batch(b"10 A=1\x9B20 ? A;B$\x9B30 GOTO\x9B");
    for (first, second) in [
        ("40 C=D", "50 E=C"),
        ("40 C=A", "50 C=C"),
        ("10 X$=Y$", "5 ? Z"),
        ("20", "5 N=1"),
    ] {
        let one = in_order(&desk, first, second).unwrap();
        let two = in_order(&desk, second, first).unwrap();
        assert_eq!(listings(&one), listings(&two), "{first}, {second}");
        assert_eq!(one.record.name_count, two.record.name_count);
    }
    // The numbers differ, and so may the lengths of lines: which of two names is the last with a short token.
    let desk = with_names(127);
    let one = in_order(&desk, "10 ? X;X;X", "20 ? Y").unwrap();
    let two = in_order(&desk, "20 ? Y", "10 ? X;X;X").unwrap();
    assert_eq!((one.record.used, two.record.used), (19, 21));
    assert_eq!(listings(&one), listings(&two));
}

#[test]
fn two_orders_need_what_is_asked() {
    // A line that is not well-formed, of a foreign hand, has the third name: it is the one that came first.
    let mut desk = Desk::new();
    desk.enter(b"10 A=B");
    desk.store[7] = 0x82;
    assert_eq!(desk.list(10), Err(10));
    let one = in_order(&desk, "20 C=1", "30 D=1").unwrap();
    let two = in_order(&desk, "30 D=1", "20 C=1").unwrap();
    assert_eq!(
        (one.list(10), two.list(10)),
        (Ok("10 A=C".into()), Ok("10 A=D".into()))
    );
    // Room for the new line only once the old one is out: refused in the other order.
    let mut desk = Desk::with_rooms(0, 0, 6);
    desk.enter(b"10 END");
    assert!(in_order(&desk, "10", "20 END").is_some());
    assert!(in_order(&desk, "20 END", "10").is_none());
    // One line number: the later edit stays.
    let desk = Desk::new();
    let one = in_order(&desk, "10 END", "10 STOP").unwrap();
    let two = in_order(&desk, "10 STOP", "10 END").unwrap();
    assert_ne!(one.hex(), two.hex());
}
