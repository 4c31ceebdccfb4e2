//! The cases that document 01 itself sets out.

mod desk;
use desk::{gives, refuses, Desk};

#[test]
fn line_1() {
    gives("10 A=1", "0A 00 0F 0F 36 80 2D 0E 40 01 00 00 00 00 16");
    let mut desk = Desk::new();
    assert_eq!(desk.enter(b"10 A=1").added, 1);
    assert_eq!(desk.names_hex(), "C1");
    assert_eq!(desk.values[..9], [0; 9]);
}

#[test]
fn line_2() {
    gives("20 PRINT \"HI\"", "14 00 0A 0A 20 0F 02 48 49 16");
}

#[test]
fn line_3() {
    gives("30 REM  X", "1E 00 08 08 00 20 58 9B");
}

#[test]
fn line_4() {
    gives(
        "40 IF A<B OR C THEN 10",
        "28 00 13 13 07 80 20 81 29 82 1B 0E 40 10 00 00 00 00 16",
    );
}

#[test]
fn line_5() {
    gives(
        "40 IF A<BORC THEN 10",
        "28 00 11 11 07 80 20 81 1B 0E 40 10 00 00 00 00 16",
    );
}

#[test]
fn line_6() {
    gives(
        "50 A$=\"X\":A=-1",
        "32 00 18 0B 36 80 2E 0F 01 58 14 18 36 81 2D 36 0E 40 01 00 00 00 00 16",
    );
}

#[test]
fn line_7() {
    gives("60 IF A THEN PRINT", "3C 00 0A 07 07 80 1B 0A 20 16");
}

#[test]
fn lines_8_and_9() {
    let constants = [
        ("0.5", "3F 50 00 00 00 00", "0.5"),
        ("12345678901", "45 01 23 45 67 89", "1.23456789E+10"),
        ("1E-98", "0F 01 00 00 00 00", "1E-98"),
        ("9.999999999E+97", "70 99 99 99 99 99", "9.999999999E+97"),
    ];
    for (text, bytes, listing) in constants {
        let mut desk = Desk::new();
        assert_eq!(desk.enter(format!("10 A={text}").as_bytes()).number, 0);
        assert_eq!(desk.hex(), format!("0A 00 0F 0F 36 80 2D 0E {bytes} 16"));
        assert_eq!(desk.list(10), Ok(format!("10 A={listing}")));
    }
}

#[test]
fn line_10() {
    refuses(b"30 GOTO", 4, 7);
    refuses(b"32768 END", 3, 0);
    refuses(b"10 A=1E98", 5, 5);
    refuses(b"10 A=1E100", 4, 9);
}

#[test]
fn the_desk_example() {
    let mut desk = Desk::new();
    let mut shown = String::new();
    for (number, text) in ["10 A=1", "20 PRINT A;B", "30 GOTO"].iter().enumerate() {
        let a = desk.enter(text.as_bytes());
        let line = number + 1;
        shown += &format!(
            "E\t{line}\t{}\t{}\t{}\t{}\t{}\n",
            a.number, a.place, a.end, a.added, a.used
        );
    }
    for line in [10, 20] {
        shown += &format!("L\t{}\n", desk.list(line).unwrap());
    }
    let wanted =
        "E\t1\t0\t0\t0\t1\t15\nE\t2\t0\t0\t0\t1\t24\nE\t3\t4\t7\t7\t0\t24\nL\t10 A=1\nL\t20 PRINT A;B\n";
    assert_eq!(shown, wanted);
}

#[test]
fn goto10_is_a_name() {
    let mut desk = Desk::new();
    assert_eq!(desk.enter(b"10 GOTO10=5").number, 0);
    assert_eq!(desk.names_hex(), "47 4F 54 4F 31 B0");
    assert_eq!(desk.list(10), Ok("10 GOTO10=5".to_string()));
}

#[test]
fn blanks_of_word_operators() {
    desk::lists("10 IF NOT A THEN 5", "10 IF  NOT A THEN 5");
}
