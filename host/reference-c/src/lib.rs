//! The reference behind the C interface of include/virgontey.h.

#![no_std]

use core::slice;
use reference::Record;

/// A lent buffer; a null pointer stands for no bytes.
unsafe fn lent<'a, T>(start: *const T, length: usize) -> &'a [T] {
    if length == 0 {
        return &[];
    }
    slice::from_raw_parts(start, length)
}

/// A lent buffer that may be changed; a null pointer stands for no bytes.
unsafe fn lent_mut<'a, T>(start: *mut T, length: usize) -> &'a mut [T] {
    if length == 0 {
        return &mut [];
    }
    slice::from_raw_parts_mut(start, length)
}

/// Reads the editor record.
fn read_record(record: &[usize]) -> Record {
    Record {
        name_bytes: record[0],
        name_count: record[1],
        used: record[2],
        lines: record[3],
        greatest: record[4],
    }
}

/// Writes the editor record.
fn write_record(record: &Record, lent: &mut [usize]) {
    lent[0] = record.name_bytes;
    lent[1] = record.name_count;
    lent[2] = record.used;
    lent[3] = record.lines;
    lent[4] = record.greatest;
}

/// # Safety
/// Each pointer must be good for its length, and no two buffers may overlap.
#[no_mangle]
pub unsafe extern "C" fn virgontey_enter(
    text: *const u8,
    text_len: usize,
    names: *mut u8,
    names_len: usize,
    values: *mut u8,
    values_len: usize,
    store: *mut u8,
    store_len: usize,
    line: *mut u8,
    line_len: usize,
    keep: bool,
    record: *mut usize,
    record_len: usize,
    answer: *mut usize,
    answer_len: usize,
) {
    let lent_record = lent_mut(record, record_len);
    let mut record = read_record(lent_record);
    let given = reference::enter(
        lent(text, text_len),
        lent_mut(names, names_len),
        lent_mut(values, values_len),
        lent_mut(store, store_len),
        lent_mut(line, line_len),
        keep,
        &mut record,
    );
    write_record(&record, lent_record);
    let answer = lent_mut(answer, answer_len);
    answer[0] = given.number;
    answer[1] = given.place;
    answer[2] = given.end;
    answer[3] = given.added;
    answer[4] = given.used;
}

/// # Safety
/// Each pointer must be good for its length, and no two buffers may overlap.
#[no_mangle]
pub unsafe extern "C" fn virgontey_batch(
    text: *const u8,
    text_len: usize,
    names: *mut u8,
    names_len: usize,
    values: *mut u8,
    values_len: usize,
    store: *mut u8,
    store_len: usize,
    keep: bool,
    record: *mut usize,
    record_len: usize,
    answer: *mut usize,
    answer_len: usize,
) {
    let lent_record = lent_mut(record, record_len);
    let mut record = read_record(lent_record);
    let given = reference::batch(
        lent(text, text_len),
        lent_mut(names, names_len),
        lent_mut(values, values_len),
        lent_mut(store, store_len),
        keep,
        &mut record,
    );
    write_record(&record, lent_record);
    let answer = lent_mut(answer, answer_len);
    answer[0] = given.taken;
    answer[1] = given.refused;
    answer[2] = given.number;
    answer[3] = given.place;
    answer[4] = given.end;
    answer[5] = given.line;
}

/// # Safety
/// Each pointer must be good for its length, and no two buffers may overlap.
#[no_mangle]
pub unsafe extern "C" fn virgontey_list(
    line: usize,
    names: *const u8,
    names_len: usize,
    values: *const u8,
    values_len: usize,
    store: *const u8,
    store_len: usize,
    record: *const usize,
    record_len: usize,
    out: *mut u8,
    out_len: usize,
    answer: *mut usize,
    answer_len: usize,
) {
    let given = reference::list(
        line,
        lent(names, names_len),
        lent(values, values_len),
        lent(store, store_len),
        &read_record(lent(record, record_len)),
        lent_mut(out, out_len),
    );
    let answer = lent_mut(answer, answer_len);
    answer[0] = given.number;
    answer[1] = given.written;
}

/// # Safety
/// Each pointer must be good for its length, and no two buffers may overlap.
#[no_mangle]
pub unsafe extern "C" fn virgontey_show(
    line: *const u8,
    line_len: usize,
    names: *const u8,
    names_len: usize,
    name_bytes: usize,
    name_count: usize,
    values: *const u8,
    values_len: usize,
    out: *mut u8,
    out_len: usize,
    answer: *mut usize,
    answer_len: usize,
) {
    let given = reference::show(
        lent(line, line_len),
        lent(names, names_len),
        name_bytes,
        name_count,
        lent(values, values_len),
        lent_mut(out, out_len),
    );
    let answer = lent_mut(answer, answer_len);
    answer[0] = given.number;
    answer[1] = given.written;
}

/// # Safety
/// Each pointer must be good for its length, and no two buffers may overlap.
#[no_mangle]
pub unsafe extern "C" fn virgontey_examine(
    names: *const u8,
    names_len: usize,
    name_bytes: usize,
    name_count: usize,
    values: *const u8,
    values_len: usize,
    store: *const u8,
    store_len: usize,
    used: usize,
    answer: *mut usize,
    answer_len: usize,
) {
    let given = reference::examine(
        lent(names, names_len),
        name_bytes,
        name_count,
        lent(values, values_len),
        lent(store, store_len),
        used,
    );
    let answer = lent_mut(answer, answer_len);
    (answer[0], answer[1]) = given.numbers();
}

/// # Safety
/// Each pointer must be good for its length, and no two buffers may overlap.
#[no_mangle]
pub unsafe extern "C" fn virgontey_save(
    names: *const u8,
    names_len: usize,
    values: *const u8,
    values_len: usize,
    store: *const u8,
    store_len: usize,
    record: *const usize,
    record_len: usize,
    out: *mut u8,
    out_len: usize,
    answer: *mut usize,
    answer_len: usize,
) {
    let given = reference::save(
        lent(names, names_len),
        lent(values, values_len),
        lent(store, store_len),
        &read_record(lent(record, record_len)),
        lent_mut(out, out_len),
    );
    let answer = lent_mut(answer, answer_len);
    answer[0] = given.number;
    answer[1] = given.written;
}

/// # Safety
/// Each pointer must be good for its length, and no two buffers may overlap.
#[no_mangle]
pub unsafe extern "C" fn virgontey_load(
    file: *const u8,
    file_len: usize,
    names: *mut u8,
    names_len: usize,
    values: *mut u8,
    values_len: usize,
    store: *mut u8,
    store_len: usize,
    record: *mut usize,
    record_len: usize,
    answer: *mut usize,
    answer_len: usize,
) {
    let lent_record = lent_mut(record, record_len);
    let mut record = read_record(lent_record);
    let number = reference::load(
        lent(file, file_len),
        lent_mut(names, names_len),
        lent_mut(values, values_len),
        lent_mut(store, store_len),
        &mut record,
    );
    write_record(&record, lent_record);
    lent_mut(answer, answer_len)[0] = number;
}

/// # Safety
/// Each pointer must be good for its length, and no two buffers may overlap.
#[no_mangle]
pub unsafe extern "C" fn virgontey_collect(
    names: *mut u8,
    names_len: usize,
    values: *mut u8,
    values_len: usize,
    store: *mut u8,
    store_len: usize,
    record: *mut usize,
    record_len: usize,
    answer: *mut usize,
    answer_len: usize,
) {
    let lent_record = lent_mut(record, record_len);
    let mut record = read_record(lent_record);
    let number = reference::collect(
        lent_mut(names, names_len),
        lent_mut(values, values_len),
        lent_mut(store, store_len),
        &mut record,
    );
    write_record(&record, lent_record);
    lent_mut(answer, answer_len)[0] = number;
}

/// The reference does not panic; if it did, it would stop here.
#[panic_handler]
fn stop(_: &core::panic::PanicInfo) -> ! {
    loop {}
}
