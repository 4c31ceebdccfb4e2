//! A safe wrapper over the proved library's C interface (include/virgontey.h).
//!
//! Without the feature `library` nothing is linked and the calls are not there.

/// Says whether the library is linked.
pub const LINKED: bool = cfg!(feature = "library");

/// The counts that go with the three buffers. All are 0 for an empty program. A call keeps them true, so
/// they can be read at any time between calls; one that disagrees with the store is refused with 1.
#[derive(Clone, Copy, PartialEq, Eq, Debug, Default)]
pub struct Record {
    /// Bytes of name table in use.
    pub name_bytes: usize,
    /// How many names the table has.
    pub name_count: usize,
    /// Bytes of store in use.
    pub used: usize,
    /// How many lines the store has.
    pub lines: usize,
    /// The greatest number of a line, 0 if there is none.
    pub greatest: usize,
}

/// What an entry answers.
#[derive(Clone, Copy, PartialEq, Eq, Debug)]
pub struct EnterAnswer {
    pub number: usize,
    /// Where the refused item starts, for refusals 4 and 5.
    pub place: usize,
    /// Where it ends.
    pub end: usize,
    pub added: usize,
    pub used: usize,
}

/// What the entry of many lines answers.
#[derive(Clone, Copy, PartialEq, Eq, Debug, Default)]
pub struct BatchAnswer {
    /// How many lines were taken.
    pub taken: usize,
    /// How many were refused.
    pub refused: usize,
    /// The first refusal: its number, its place in its own line and that place's end, and the line, counted
    /// from 1. All are 0 if there is none.
    pub number: usize,
    pub place: usize,
    pub end: usize,
    pub line: usize,
}

/// What a listing answers.
#[derive(Clone, Copy, PartialEq, Eq, Debug)]
pub struct ListAnswer {
    pub number: usize,
    pub written: usize,
}

/// What examining a program answers.
#[derive(Clone, Copy, PartialEq, Eq, Debug)]
pub enum Verdict {
    Yes,
    UnsoundNames,
    UnsoundValues,
    UnsoundStore,
    /// The number of the first line that is not well-formed.
    BadLine(usize),
}

/// What writing a file answers.
#[derive(Clone, Copy, PartialEq, Eq, Debug)]
pub struct SaveAnswer {
    pub number: usize,
    pub written: usize,
}

#[cfg(feature = "library")]
pub use linked::{batch, collect, enter, examine, list, load, save, show};

#[cfg(feature = "library")]
mod linked {
    use super::{BatchAnswer, EnterAnswer, ListAnswer, Record, SaveAnswer, Verdict};

    extern "C" {
        fn virgontey_enter(
            text: *const u8,
            text_len: usize,
            names: *mut u8,
            names_len: usize,
            values: *mut u8,
            values_len: usize,
            store: *mut u8,
            store_len: usize,
            line: *mut u8,
            line_len: usize,
            keep: bool,
            record: *mut usize,
            record_len: usize,
            answer: *mut usize,
            answer_len: usize,
        );
        fn virgontey_list(
            number: usize,
            names: *const u8,
            names_len: usize,
            values: *const u8,
            values_len: usize,
            store: *const u8,
            store_len: usize,
            record: *const usize,
            record_len: usize,
            out: *mut u8,
            out_len: usize,
            answer: *mut usize,
            answer_len: usize,
        );
        fn virgontey_show(
            line: *const u8,
            line_len: usize,
            names: *const u8,
            names_len: usize,
            name_bytes: usize,
            name_count: usize,
            values: *const u8,
            values_len: usize,
            out: *mut u8,
            out_len: usize,
            answer: *mut usize,
            answer_len: usize,
        );
        fn virgontey_examine(
            names: *const u8,
            names_len: usize,
            name_bytes: usize,
            name_count: usize,
            values: *const u8,
            values_len: usize,
            store: *const u8,
            store_len: usize,
            used: usize,
            answer: *mut usize,
            answer_len: usize,
        );
        fn virgontey_batch(
            text: *const u8,
            text_len: usize,
            names: *mut u8,
            names_len: usize,
            values: *mut u8,
            values_len: usize,
            store: *mut u8,
            store_len: usize,
            keep: bool,
            record: *mut usize,
            record_len: usize,
            answer: *mut usize,
            answer_len: usize,
        );
        fn virgontey_save(
            names: *const u8,
            names_len: usize,
            values: *const u8,
            values_len: usize,
            store: *const u8,
            store_len: usize,
            record: *const usize,
            record_len: usize,
            out: *mut u8,
            out_len: usize,
            answer: *mut usize,
            answer_len: usize,
        );
        fn virgontey_load(
            file: *const u8,
            file_len: usize,
            names: *mut u8,
            names_len: usize,
            values: *mut u8,
            values_len: usize,
            store: *mut u8,
            store_len: usize,
            record: *mut usize,
            record_len: usize,
            answer: *mut usize,
            answer_len: usize,
        );
        fn virgontey_collect(
            names: *mut u8,
            names_len: usize,
            values: *mut u8,
            values_len: usize,
            store: *mut u8,
            store_len: usize,
            record: *mut usize,
            record_len: usize,
            answer: *mut usize,
            answer_len: usize,
        );
    }

    /// Enters a text: inserts, replaces or deletes a line of the store, or puts a text without a number
    /// into the line buffer. The record is updated if it is accepted. An empty line buffer has room for
    /// no line: a text without a number is then refused with 8.
    ///
    /// With `keep` a numbered line that is refused with 4 stays in the program as an error line, over the
    /// line that had its number: the answer is still 4, and `used` and the record are those with that line;
    /// or it is 8, and nothing changes, where the line does not fit. A text that has 9B, or 1B at the place,
    /// is not kept.
    pub fn enter(
        text: &[u8],
        names: &mut [u8],
        values: &mut [u8],
        store: &mut [u8],
        line: &mut [u8],
        keep: bool,
        record: &mut Record,
    ) -> EnterAnswer {
        let mut counts = counts_of(record);
        let mut answer = [0; 5];
        // Safe: every pointer comes from a slice and goes with its length; mutable slices never
        // overlap; the library keeps no pointer.
        unsafe {
            virgontey_enter(
                text.as_ptr(),
                text.len(),
                names.as_mut_ptr(),
                names.len(),
                values.as_mut_ptr(),
                values.len(),
                store.as_mut_ptr(),
                store.len(),
                line.as_mut_ptr(),
                line.len(),
                keep,
                counts.as_mut_ptr(),
                counts.len(),
                answer.as_mut_ptr(),
                answer.len(),
            );
        }
        *record = record_of(counts);
        let [number, place, end, added, used] = answer;
        EnterAnswer {
            number,
            place,
            end,
            added,
            used,
        }
    }

    /// Enters a text of many lines, each ended by 9B, the last perhaps by the text's end: as if each were
    /// entered by itself, in this order, but that one without a number is refused with 3. A refused line
    /// changes nothing unless it is kept, as `enter` keeps it, and those after it are entered. The tables are
    /// tested once.
    pub fn batch(
        text: &[u8],
        names: &mut [u8],
        values: &mut [u8],
        store: &mut [u8],
        keep: bool,
        record: &mut Record,
    ) -> BatchAnswer {
        let mut counts = counts_of(record);
        let mut answer = [0; 6];
        // Safe: as above.
        unsafe {
            virgontey_batch(
                text.as_ptr(),
                text.len(),
                names.as_mut_ptr(),
                names.len(),
                values.as_mut_ptr(),
                values.len(),
                store.as_mut_ptr(),
                store.len(),
                keep,
                counts.as_mut_ptr(),
                counts.len(),
                answer.as_mut_ptr(),
                answer.len(),
            );
        }
        *record = record_of(counts);
        let [taken, refused, number, place, end, line] = answer;
        BatchAnswer {
            taken,
            refused,
            number,
            place,
            end,
            line,
        }
    }

    /// Writes the program as a SAVE file to the front of `out`.
    pub fn save(
        names: &[u8],
        values: &[u8],
        store: &[u8],
        record: &Record,
        out: &mut [u8],
    ) -> SaveAnswer {
        let counts = counts_of(record);
        let mut answer = [0; 2];
        // Safe: as above.
        unsafe {
            virgontey_save(
                names.as_ptr(),
                names.len(),
                values.as_ptr(),
                values.len(),
                store.as_ptr(),
                store.len(),
                counts.as_ptr(),
                counts.len(),
                out.as_mut_ptr(),
                out.len(),
                answer.as_mut_ptr(),
                answer.len(),
            );
        }
        let [number, written] = answer;
        SaveAnswer { number, written }
    }

    /// Reads a SAVE file into the buffers, whatever they and the record held; answers the refusal, 0 if
    /// there is none. A refused file changes nothing.
    pub fn load(
        file: &[u8],
        names: &mut [u8],
        values: &mut [u8],
        store: &mut [u8],
        record: &mut Record,
    ) -> usize {
        let mut counts = counts_of(record);
        let mut answer = [0; 1];
        // Safe: as above.
        unsafe {
            virgontey_load(
                file.as_ptr(),
                file.len(),
                names.as_mut_ptr(),
                names.len(),
                values.as_mut_ptr(),
                values.len(),
                store.as_mut_ptr(),
                store.len(),
                counts.as_mut_ptr(),
                counts.len(),
                answer.as_mut_ptr(),
                answer.len(),
            );
        }
        *record = record_of(counts);
        answer[0]
    }

    /// Takes the names back that no line of the store uses; answers the refusal, 0 if there is none. The names
    /// that stay keep their order; their values move with them, and in each the new number is set. Every line
    /// lists as before. Bytes past the new ends stay as they were; a refusal, 1 or 10, changes nothing.
    ///
    /// A line buffer that was filled before is stale: its variables have the old numbers.
    pub fn collect(
        names: &mut [u8],
        values: &mut [u8],
        store: &mut [u8],
        record: &mut Record,
    ) -> usize {
        let mut counts = counts_of(record);
        let mut answer = [0; 1];
        // Safe: as above.
        unsafe {
            virgontey_collect(
                names.as_mut_ptr(),
                names.len(),
                values.as_mut_ptr(),
                values.len(),
                store.as_mut_ptr(),
                store.len(),
                counts.as_mut_ptr(),
                counts.len(),
                answer.as_mut_ptr(),
                answer.len(),
            );
        }
        *record = record_of(counts);
        answer[0]
    }

    /// Lists the line with this number into `out`.
    pub fn list(
        number: usize,
        names: &[u8],
        values: &[u8],
        store: &[u8],
        record: &Record,
        out: &mut [u8],
    ) -> ListAnswer {
        let counts = counts_of(record);
        let mut answer = [0; 2];
        // Safe: as above; only `out` and the answer are written.
        unsafe {
            virgontey_list(
                number,
                names.as_ptr(),
                names.len(),
                values.as_ptr(),
                values.len(),
                store.as_ptr(),
                store.len(),
                counts.as_ptr(),
                counts.len(),
                out.as_mut_ptr(),
                out.len(),
                answer.as_mut_ptr(),
                answer.len(),
            );
        }
        let [number, written] = answer;
        ListAnswer { number, written }
    }

    /// Lists the line at the start of a line buffer into `out`: one that was entered without a number.
    /// Of the record only the two counts of names are needed.
    pub fn show(
        line: &[u8],
        names: &[u8],
        name_bytes: usize,
        name_count: usize,
        values: &[u8],
        out: &mut [u8],
    ) -> ListAnswer {
        let mut answer = [0; 2];
        // Safe: as above; only `out` and the answer are written.
        unsafe {
            virgontey_show(
                line.as_ptr(),
                line.len(),
                names.as_ptr(),
                names.len(),
                name_bytes,
                name_count,
                values.as_ptr(),
                values.len(),
                out.as_mut_ptr(),
                out.len(),
                answer.as_mut_ptr(),
                answer.len(),
            );
        }
        let [number, written] = answer;
        ListAnswer { number, written }
    }

    /// Examines a program that another tokenizer made: names, values and store, in this order, and then each
    /// line. Of a record only the counts of name bytes, names and bytes used are needed; nothing is changed.
    pub fn examine(
        names: &[u8],
        name_bytes: usize,
        name_count: usize,
        values: &[u8],
        store: &[u8],
        used: usize,
    ) -> Verdict {
        let mut answer = [0; 2];
        // Safe: as above; only the answer is written.
        unsafe {
            virgontey_examine(
                names.as_ptr(),
                names.len(),
                name_bytes,
                name_count,
                values.as_ptr(),
                values.len(),
                store.as_ptr(),
                store.len(),
                used,
                answer.as_mut_ptr(),
                answer.len(),
            );
        }
        match answer {
            [0, _] => Verdict::Yes,
            [1, _] => Verdict::UnsoundNames,
            [2, _] => Verdict::UnsoundValues,
            [3, _] => Verdict::UnsoundStore,
            [_, line] => Verdict::BadLine(line),
        }
    }

    /// The counts in the order in which the library takes them.
    fn counts_of(record: &Record) -> [usize; 5] {
        [
            record.name_bytes,
            record.name_count,
            record.used,
            record.lines,
            record.greatest,
        ]
    }

    /// The record of counts in that order.
    fn record_of(counts: [usize; 5]) -> Record {
        let [name_bytes, name_count, used, lines, greatest] = counts;
        Record {
            name_bytes,
            name_count,
            used,
            lines,
            greatest,
        }
    }

    #[cfg(test)]
    mod tests {
        use super::{
            virgontey_batch, virgontey_collect, virgontey_enter, virgontey_list, virgontey_show,
        };
        use super::{BatchAnswer, Record};

        /// What an entry that a test does not expect is filled with.
        const OTHER: usize = 77;

        /// The line of `END`.
        const END: [u8; 6] = [0, 0x80, 6, 6, 0x15, 0x16];

        /// The record of the program below.
        const ONE_LINE: [usize; 5] = [0, 0, 6, 1, 10];

        /// The buffers of a program of one line, `10 END`, without names, and a line buffer.
        struct Lent {
            names: [u8; 4],
            values: [u8; 8],
            store: [u8; 32],
            line: [u8; 16],
            /// Whether wrong lines are kept.
            keep: bool,
        }

        fn lent() -> Lent {
            let mut store = [0; 32];
            store[..6].copy_from_slice(&[10, 0, 6, 6, 0x15, 0x16]);
            Lent {
                names: [0; 4],
                values: [0; 8],
                store,
                line: [0xEE; 16],
                keep: false,
            }
        }

        /// The same with wrong lines kept.
        fn keeping() -> Lent {
            Lent {
                keep: true,
                ..lent()
            }
        }

        /// Enters a text with a record and an answer of any length.
        fn enter(text: &[u8], lent: &mut Lent, record: &mut [usize], answer: &mut [usize]) {
            // Safe: as for the wrapper.
            unsafe {
                virgontey_enter(
                    text.as_ptr(),
                    text.len(),
                    lent.names.as_mut_ptr(),
                    lent.names.len(),
                    lent.values.as_mut_ptr(),
                    lent.values.len(),
                    lent.store.as_mut_ptr(),
                    lent.store.len(),
                    lent.line.as_mut_ptr(),
                    lent.line.len(),
                    lent.keep,
                    record.as_mut_ptr(),
                    record.len(),
                    answer.as_mut_ptr(),
                    answer.len(),
                );
            }
        }

        /// Enters many lines with a record and an answer of any length.
        fn batch(text: &[u8], lent: &mut Lent, record: &mut [usize], answer: &mut [usize]) {
            // Safe: as for the wrapper.
            unsafe {
                virgontey_batch(
                    text.as_ptr(),
                    text.len(),
                    lent.names.as_mut_ptr(),
                    lent.names.len(),
                    lent.values.as_mut_ptr(),
                    lent.values.len(),
                    lent.store.as_mut_ptr(),
                    lent.store.len(),
                    lent.keep,
                    record.as_mut_ptr(),
                    record.len(),
                    answer.as_mut_ptr(),
                    answer.len(),
                );
            }
        }

        /// Takes unused names back with a record and an answer of any length.
        fn collect(lent: &mut Lent, record: &mut [usize], answer: &mut [usize]) {
            // Safe: as for the wrapper.
            unsafe {
                virgontey_collect(
                    lent.names.as_mut_ptr(),
                    lent.names.len(),
                    lent.values.as_mut_ptr(),
                    lent.values.len(),
                    lent.store.as_mut_ptr(),
                    lent.store.len(),
                    record.as_mut_ptr(),
                    record.len(),
                    answer.as_mut_ptr(),
                    answer.len(),
                );
            }
        }

        /// Lists line 10 with a record and an answer of any length.
        fn list(lent: &Lent, record: &[usize], out: &mut [u8], answer: &mut [usize]) {
            // Safe: as for the wrapper.
            unsafe {
                virgontey_list(
                    10,
                    lent.names.as_ptr(),
                    lent.names.len(),
                    lent.values.as_ptr(),
                    lent.values.len(),
                    lent.store.as_ptr(),
                    lent.store.len(),
                    record.as_ptr(),
                    record.len(),
                    out.as_mut_ptr(),
                    out.len(),
                    answer.as_mut_ptr(),
                    answer.len(),
                );
            }
        }

        /// Lists a line buffer over no names, with an answer of any length.
        fn show(line: &[u8], out: &mut [u8], answer: &mut [usize]) {
            let lent = lent();
            // Safe: as for the wrapper.
            unsafe {
                virgontey_show(
                    line.as_ptr(),
                    line.len(),
                    lent.names.as_ptr(),
                    lent.names.len(),
                    0,
                    0,
                    lent.values.as_ptr(),
                    lent.values.len(),
                    out.as_mut_ptr(),
                    out.len(),
                    answer.as_mut_ptr(),
                    answer.len(),
                );
            }
        }

        #[test]
        fn a_record_that_lacks_a_count_is_refused() {
            for length in 0..5 {
                for text in [&b"20 END"[..], b"END", b"20 GOTO"] {
                    let (mut lent, before) = (keeping(), keeping());
                    let mut record = ONE_LINE;
                    let mut answer = [OTHER; 5];
                    enter(text, &mut lent, &mut record[..length], &mut answer);
                    assert_eq!(answer, [1, 0, 0, 0, if length < 3 { 0 } else { 6 }]);
                    assert_eq!(record, ONE_LINE);
                    assert_eq!((lent.store, lent.line), (before.store, before.line));
                }
                let (mut lent, before) = (self::lent(), self::lent());
                let mut record = ONE_LINE;
                let mut answer = [OTHER; 6];
                let text = b"20 END\x9B10\x9B";
                batch(text, &mut lent, &mut record[..length], &mut answer);
                assert_eq!(answer, [0, 2, 1, 0, 0, 1]);
                assert_eq!((record, lent.store), (ONE_LINE, before.store));

                let mut out = [0; 32];
                let mut answer = [OTHER; 2];
                list(&lent, &record[..length], &mut out, &mut answer);
                assert_eq!((answer, out), ([1, 0], [0; 32]));
            }
        }

        #[test]
        fn an_answer_gets_what_it_has_room_for() {
            let whole = [0, 0, 0, 0, 12, OTHER];
            for length in 0..=6 {
                let mut lent = lent();
                let mut record = [0, 0, 6, 1, 10, OTHER];
                let mut answer = [OTHER; 6];
                enter(b"20 END", &mut lent, &mut record, &mut answer[..length]);
                assert_eq!(answer[..length], whole[..length]);
                assert_eq!(answer[length..], [OTHER; 6][length..]);
                assert_eq!(record, [0, 0, 12, 2, 20, OTHER]);

                let whole = [2, 2, 4, 7, 7, 2, OTHER];
                let mut record = [0, 0, 6, 1, 10, OTHER];
                let mut answer = [OTHER; 7];
                let text = b"20 END\x9B30 GOTO\x9B20 STOP\x9B\x9B";
                batch(text, &mut self::lent(), &mut record, &mut answer[..length]);
                assert_eq!(answer[..length], whole[..length]);
                assert_eq!(answer[length..], [OTHER; 7][length..]);
                assert_eq!(record, [0, 0, 12, 2, 20, OTHER]);

                let mut out = [0; 32];
                let mut answer = [OTHER; 6];
                list(&lent, &record, &mut out, &mut answer[..length]);
                assert_eq!(&out[..8], b"10 END \0");
                assert_eq!(
                    answer[..length],
                    [0, 7, OTHER, OTHER, OTHER, OTHER][..length]
                );
                assert_eq!(answer[length..], [OTHER; 6][length..]);

                let mut out = [0; 32];
                let mut answer = [OTHER; 6];
                show(&END, &mut out, &mut answer[..length]);
                assert_eq!(&out[..5], b"END \0");
                assert_eq!(
                    answer[..length],
                    [0, 4, OTHER, OTHER, OTHER, OTHER][..length]
                );
                assert_eq!(answer[length..], [OTHER; 6][length..]);
            }
        }

        #[test]
        fn a_refused_item_has_a_start_and_an_end() {
            let refused: [(&[u8], [usize; 5]); 4] = [
                (b"40 IF A BORC THEN 10", [4, 8, 12, 0, 6]),
                (b"10 NEXT A(1)", [4, 8, 9, 0, 6]),
                (b"10 A=1E98", [5, 5, 9, 0, 6]),
                (b"30 GOTO", [4, 7, 7, 0, 6]),
            ];
            for (text, expected) in refused {
                let mut answer = [OTHER; 5];
                enter(text, &mut lent(), &mut { ONE_LINE }, &mut answer);
                assert_eq!(answer, expected, "{}", String::from_utf8_lossy(text));
            }
        }

        #[test]
        fn a_record_that_disagrees_with_the_store_is_refused() {
            for (lines, greatest) in [(0, 10), (2, 10), (1, 0), (1, 11), (10, 1), (OTHER, 10)] {
                let (mut lent, before) = (self::lent(), self::lent());
                let mut record = [0, 0, 6, lines, greatest];
                let mut answer = [OTHER; 5];
                enter(b"20 END", &mut lent, &mut record, &mut answer);
                assert_eq!(answer, [1, 0, 0, 0, 6]);
                assert_eq!(record, [0, 0, 6, lines, greatest]);
                assert_eq!(lent.store, before.store);

                let mut out = [0; 32];
                let mut answer = [OTHER; 2];
                list(&lent, &record, &mut out, &mut answer);
                assert_eq!((answer, out), ([1, 0], [0; 32]));
            }
        }

        #[test]
        fn the_wrapper_keeps_count_and_greatest_number() {
            let mut lent = lent();
            let mut record = Record::default();
            for (text, lines, greatest) in [
                (&b"0 END"[..], 1, 0),
                (b"20 END", 2, 20),
                (b"10 END", 3, 20),
                (b"20 STOP", 3, 20),
                (b"20 GOTO", 3, 20),
                (b"20", 2, 10),
                (b"10", 1, 0),
                (b"0", 0, 0),
            ] {
                let refused = text == b"20 GOTO";
                let answer = super::enter(
                    text,
                    &mut lent.names,
                    &mut lent.values,
                    &mut lent.store,
                    &mut [],
                    false,
                    &mut record,
                );
                assert_eq!(answer.number, if refused { 4 } else { 0 });
                assert_eq!((record.lines, record.greatest), (lines, greatest));
                assert_eq!(record.used, 6 * lines);
            }
        }

        #[test]
        fn a_text_without_a_number_goes_to_the_line_buffer() {
            let (mut lent, before) = (self::lent(), self::lent());
            let mut record = ONE_LINE;
            let mut answer = [OTHER; 5];
            enter(b"PRINT A", &mut lent, &mut record, &mut answer);
            assert_eq!(answer, [0, 0, 0, 1, 6]);
            assert_eq!(record, [1, 1, 6, 1, 10]);
            assert_eq!(lent.line[..7], [0, 0x80, 7, 7, 0x20, 0x80, 0x16]);
            assert_eq!(lent.line[7..], before.line[7..]);
            assert_eq!((lent.names, lent.store), ([0xC1, 0, 0, 0], before.store));
            let mut out = [0xEE; 9];
            let answer = super::show(&lent.line, &lent.names, 1, 1, &lent.values, &mut out);
            assert_eq!((answer.number, answer.written), (0, 7));
            assert_eq!(&out, b"PRINT A\xEE\xEE");
        }

        #[test]
        fn a_line_buffer_has_to_hold_the_line() {
            for room in 0..8 {
                let mut lent = lent();
                let mut record = Record::default();
                let mut line = vec![0xEE; room];
                let answer = super::enter(
                    b"END",
                    &mut lent.names,
                    &mut lent.values,
                    &mut lent.store[..0],
                    &mut line,
                    true,
                    &mut record,
                );
                let fits = room >= 6;
                assert_eq!(answer.number, if fits { 0 } else { 8 });
                let kept = if fits { 6 } else { 0 };
                assert_eq!(line[..kept], END[..kept]);
                assert!(line[kept..].iter().all(|byte| *byte == 0xEE));
                assert_eq!(record, Record::default());
                let answer = super::show(&line, &[], 0, 0, &[], &mut [0; 4]);
                assert_eq!(answer.number, if fits { 0 } else { 10 });
            }
            assert_eq!(super::show(&END, &[], 1, 0, &[], &mut [0; 4]).number, 1);
            assert_eq!(super::show(&END, &[], 0, 0, &[], &mut [0; 3]).number, 11);
        }

        #[test]
        fn many_lines_are_entered_as_one_by_one() {
            let (mut lent, mut single) = (self::lent(), self::lent());
            let text = b"20 A=1\x9BPRINT A\x9B30 NEXT A(1)\x9B10\x9B\x9B5 ?A";
            let (mut record, mut counts) = (Record::default(), Record::default());
            for line in [&b"20 A=1"[..], b"10", b"5 ?A"] {
                super::enter(
                    line,
                    &mut single.names,
                    &mut single.values,
                    &mut single.store,
                    &mut [],
                    false,
                    &mut counts,
                );
            }
            let answer = super::batch(
                text,
                &mut lent.names,
                &mut lent.values,
                &mut lent.store,
                false,
                &mut record,
            );
            let expected = BatchAnswer {
                taken: 2,
                refused: 4,
                number: 3,
                place: 0,
                end: 0,
                line: 2,
            };
            assert_eq!(answer, expected);
            assert_eq!(record, counts);
            assert_eq!(lent.names, single.names);
            assert_eq!((lent.values, lent.store), (single.values, single.store));
            assert_eq!((record.lines, record.greatest), (2, 20));
        }

        #[test]
        fn a_wrong_line_is_kept_where_that_is_asked_for() {
            let mut lent = keeping();
            let mut record = ONE_LINE;
            let mut answer = [OTHER; 5];
            enter(b"30 GOTO", &mut lent, &mut record, &mut answer);
            assert_eq!(answer, [4, 7, 7, 0, 18]);
            assert_eq!(record, [0, 0, 18, 2, 30]);
            assert_eq!(&lent.store[6..19], b"\x1E\0\x0C\x0C7 GOTO\xA0\x9B\0");
            let counts = super::record_of(record);
            let mut out = [0xEE; 17];
            let answer = super::list(30, &[], &[], &lent.store, &counts, &mut out);
            assert_eq!((answer.number, answer.written), (0, 16));
            assert_eq!(&out, b"30 ERROR-  GOTO\xA0\xEE");

            // 14 bytes are left: one more is too much, and what cannot be kept is refused with 4.
            for (text, expected) in [
                (&b"40 ) 345678"[..], [8, 0, 0, 0, 18]),
                (b"40 )\x9B", [4, 3, 4, 0, 18]),
                (b"40 \x1B", [4, 3, 4, 0, 18]),
                (b"40 ) 34567", [4, 3, 4, 0, 32]),
            ] {
                let mut answer = [OTHER; 5];
                enter(text, &mut lent, &mut record, &mut answer);
                assert_eq!(answer, expected);
                assert_eq!(record[2], expected[4]);
            }
            assert_eq!(record, [0, 0, 32, 3, 40]);

            let mut lent = keeping();
            let mut record = ONE_LINE;
            let mut answer = [OTHER; 6];
            batch(b"20 )\x9B10 (", &mut lent, &mut record, &mut answer);
            assert_eq!(answer, [0, 2, 4, 3, 4, 1]);
            assert_eq!(record, [0, 0, 16, 2, 20]);
            let store = b"\x0A\0\x08\x087 \xA8\x9B\x14\0\x08\x087 \xA9\x9B\0";
            assert_eq!(&lent.store[..17], store);
        }

        #[test]
        fn an_error_line_in_a_line_buffer_is_listed_without_a_number() {
            let mut out = [0xEE; 10];
            let answer = super::show(b"\0\x80\x07\x077A\x9B", &[], 0, 0, &[], &mut out);
            assert_eq!((answer.number, answer.written), (0, 8));
            assert_eq!(&out, b"ERROR- A\xEE\xEE");
        }

        /// A program of one line, `10 PRINT B`, over the names A and B.
        fn with_unused() -> Lent {
            let mut lent = lent();
            lent.names = [0xC1, 0xC2, 0xEE, 0xEE];
            lent.store[..7].copy_from_slice(&[10, 0, 7, 7, 0x20, 0x81, 0x16]);
            lent
        }

        #[test]
        fn unused_names_are_taken_back() {
            // There is room for one value alone, so that two names are too many.
            let (mut lent, before) = (with_unused(), with_unused());
            let mut record = [2, 2, 7, 1, 10];
            let mut answer = [OTHER; 1];
            collect(&mut lent, &mut record, &mut answer);
            assert_eq!((answer, record), ([1], [2, 2, 7, 1, 10]));
            assert_eq!((lent.names, lent.store), (before.names, before.store));

            let mut values = [1, 2, 3, 4, 5, 6, 7, 8, 11, 12, 13, 14, 15, 16, 17, 18];
            let mut record = super::record_of(record);
            for _ in 0..2 {
                let number =
                    super::collect(&mut lent.names, &mut values, &mut lent.store, &mut record);
                assert_eq!(number, 0);
                assert_eq!((record.name_bytes, record.name_count), (1, 1));
                assert_eq!((record.used, record.lines, record.greatest), (7, 1, 10));
                assert_eq!(lent.names, [0xC2, 0xC2, 0xEE, 0xEE]);
                let moved = [
                    11, 0, 13, 14, 15, 16, 17, 18, 11, 12, 13, 14, 15, 16, 17, 18,
                ];
                assert_eq!(values, moved);
                assert_eq!(lent.store[..7], [10, 0, 7, 7, 0x20, 0x80, 0x16]);
                assert_eq!(lent.store[7..], before.store[7..]);
            }
            // A line that is not well-formed.
            lent.store[5] = 0x81;
            let before = (lent.names, values, lent.store, record);
            let number = super::collect(&mut lent.names, &mut values, &mut lent.store, &mut record);
            assert_eq!(number, 10);
            assert_eq!((lent.names, values, lent.store, record), before);
        }

        #[test]
        fn a_collection_with_a_record_or_an_answer_too_short() {
            for length in 0..5 {
                let (mut lent, before) = (self::lent(), self::lent());
                let mut record = ONE_LINE;
                let mut answer = [OTHER; 1];
                collect(&mut lent, &mut record[..length], &mut answer);
                assert_eq!((answer, record), ([1], ONE_LINE));
                assert_eq!(lent.store, before.store);
            }
            for length in 0..3 {
                let mut record = [0, 0, 6, 1, 10, OTHER];
                let mut answer = [OTHER; 3];
                collect(&mut self::lent(), &mut record, &mut answer[..length]);
                let whole = [0, OTHER, OTHER];
                assert_eq!(answer[..length], whole[..length]);
                assert_eq!(answer[length..], [OTHER; 3][length..]);
                assert_eq!(record, [0, 0, 6, 1, 10, OTHER]);
            }
        }

        #[test]
        fn no_line_is_no_refusal() {
            let mut record = Record {
                name_bytes: OTHER,
                ..Record::default()
            };
            let answer = super::batch(b"", &mut [], &mut [], &mut [], true, &mut record);
            assert_eq!(answer, BatchAnswer::default());
            let answer = super::batch(b"\x9B10 END", &mut [], &mut [], &mut [], true, &mut record);
            assert_eq!((answer.refused, answer.number, answer.line), (2, 1, 1));
        }
    }
}
