/*
 * Virgontey: enter and list lines of tokenized Atari BASIC, write and read its program files, and take back
 * names that are not used.
 *
 * The calls work only in the buffers that are lent to them. Every length, count and byte may have any
 * value: tables that are not sound, and a record that disagrees with the store, are refused. No call keeps
 * a pointer. Buffers must not overlap.
 *
 * A pointer may be null only where its length is 0.
 *
 * A record with fewer entries than its length below is refused with 1. An answer with fewer entries
 * gets as many numbers as it has room for. Entries past those lengths are not touched.
 *
 * Width: counts, lengths, places and the numbers of an answer are size_t of 64 bits, as on x86-64 and
 * on 64-bit Arm. There is no library for other widths.
 *
 * Stack: virgontey_enter, virgontey_batch, virgontey_examine and virgontey_collect take at most 8 KB,
 * virgontey_list, virgontey_show, virgontey_save and virgontey_load at most 3 KB, in the fast and in the small
 * library, as measured over 39,740 texts, each with its number, without, and as a batch (docs/FIGURES.md). No call takes
 * memory from elsewhere.
 *
 * Size: each function stands in a section of its own, so a build that links with --gc-sections leaves
 * out what it does not call.
 */
#ifndef VIRGONTEY_H
#define VIRGONTEY_H

#include <stdbool.h>
#include <stddef.h>
#include <stdint.h>

#ifdef __cplusplus
extern "C" {
#endif

/*
 * The editor record: the counts that go with the buffers. All five are 0 for an empty program.
 *
 * virgontey_enter, virgontey_batch, virgontey_load and virgontey_collect keep them true. So a terminal that shows how many lines the program has and which is the
 * last reads LINES and GREATEST from the record as it stands between two calls: that takes no call, and
 * no walk over the store. Where LINES is 0 there is no line; line 0 alone has 1 and 0.
 *
 * virgontey_enter, virgontey_batch, virgontey_list, virgontey_save and virgontey_collect test the record: one
 * whose counts are not those of the lent store is refused with 1.
 */
enum {
    VIRGONTEY_RECORD_NAME_BYTES = 0, /* bytes of name table in use */
    VIRGONTEY_RECORD_NAME_COUNT = 1, /* names in the name table, at most 256 */
    VIRGONTEY_RECORD_USED = 2,       /* bytes of store in use */
    VIRGONTEY_RECORD_LINES = 3,      /* lines in the store */
    VIRGONTEY_RECORD_GREATEST = 4,   /* the greatest number of a line, 0 where there is none */
    VIRGONTEY_RECORD_LENGTH = 5
};

/* What virgontey_enter answers. */
enum {
    VIRGONTEY_ENTER_NUMBER = 0, /* 0 done, otherwise the refusal, see below */
    VIRGONTEY_ENTER_PLACE = 1,  /* offset in the text for refusals 4 and 5, otherwise 0 */
    VIRGONTEY_ENTER_END = 2,    /* offset past the item at that place, the place itself at the text's end; otherwise 0 */
    VIRGONTEY_ENTER_ADDED = 3,  /* how many names were added, 0 on a refusal */
    VIRGONTEY_ENTER_USED = 4,   /* bytes of store in use afterwards, as given on a refusal unless the line is kept */
    VIRGONTEY_ENTER_LENGTH = 5
};

/* What virgontey_batch answers. The last four are of the first line that was refused, all 0 where none was. */
enum {
    VIRGONTEY_BATCH_TAKEN = 0,   /* how many lines were taken, deletions too */
    VIRGONTEY_BATCH_REFUSED = 1, /* how many lines were refused */
    VIRGONTEY_BATCH_NUMBER = 2,  /* the refusal, see below */
    VIRGONTEY_BATCH_PLACE = 3,   /* offset in that line for refusals 4 and 5, otherwise 0 */
    VIRGONTEY_BATCH_END = 4,     /* offset past the item at that place, as VIRGONTEY_ENTER_END */
    VIRGONTEY_BATCH_LINE = 5,    /* which line it is, counted from 1 */
    VIRGONTEY_BATCH_LENGTH = 6
};

/* What virgontey_list and virgontey_show answer. */
enum {
    VIRGONTEY_LIST_NUMBER = 0,  /* 0 done, otherwise the refusal, see below */
    VIRGONTEY_LIST_WRITTEN = 1, /* bytes written to out, 0 on a refusal */
    VIRGONTEY_LIST_LENGTH = 2
};

/* What virgontey_save answers. */
enum {
    VIRGONTEY_SAVE_NUMBER = 0,  /* 0 done, otherwise the refusal, see below */
    VIRGONTEY_SAVE_WRITTEN = 1, /* bytes of the file, 0 on a refusal */
    VIRGONTEY_SAVE_LENGTH = 2
};

/* What virgontey_load answers. */
enum {
    VIRGONTEY_LOAD_NUMBER = 0, /* 0 done, otherwise the refusal, see below */
    VIRGONTEY_LOAD_LENGTH = 1
};

/* What virgontey_collect answers. */
enum {
    VIRGONTEY_COLLECT_NUMBER = 0, /* 0 done, otherwise the refusal, see below */
    VIRGONTEY_COLLECT_LENGTH = 1
};

/* The numbers. */
enum {
    VIRGONTEY_DONE = 0,
    VIRGONTEY_UNSOUND = 1,         /* tables or store are unsound, or the record disagrees with the store */
    VIRGONTEY_TEXT_TOO_LONG = 2,   /* text is over 120 bytes */
    VIRGONTEY_NO_LINE_NUMBER = 3,  /* the text is empty or blank, or its number is above 32767 */
    VIRGONTEY_NO_READING = 4,      /* the grammar has no reading; see place and end */
    VIRGONTEY_OUT_OF_RANGE = 5,    /* a constant is out of range; see place and end */
    VIRGONTEY_NAMES_FULL = 6,      /* names would pass 256, or lack name or value room */
    VIRGONTEY_LINE_TOO_LONG = 7,   /* the token line would pass 255 bytes */
    VIRGONTEY_STORE_FULL = 8,      /* the store would pass its room; for a text without a number: the line buffer is too short; for a file: a lent buffer is too small, or its last word would pass 65,535 */
    VIRGONTEY_NO_SUCH_LINE = 9,    /* the line to delete or list is not there */
    VIRGONTEY_NOT_WELL_FORMED = 10, /* the line to list is not well-formed, or the line buffer holds none; for virgontey_collect: any line is neither well-formed nor an error line */
    VIRGONTEY_OUTPUT_TOO_SHORT = 11, /* the listing is longer than the output buffer */
    VIRGONTEY_NOT_A_FILE = 12,     /* a file under 14 bytes, or its first word is not zero */
    VIRGONTEY_WORDS_WRONG = 13     /* the file's words, its length or the zero byte after its names are not right */
};

/*
 * A text without a number, such as PRINT A, becomes a token line too, with this number and in a lent line
 * buffer, where virgontey_show lists it: the store is for the program. Its new names are added as for any
 * line, and stay until virgontey_collect takes back those that no line of the program uses.
 */
enum {
    VIRGONTEY_DIRECT_LINE = 32768, /* the number of such a line: its first two bytes are 00 80 */
    VIRGONTEY_LINE_ROOM = 255      /* a line buffer of so many bytes has room for every line */
};

/*
 * Enters a text: a line number and statements insert or replace a line, a number alone deletes one, and
 * statements alone go to the line buffer.
 *
 *   text    the typed line, without its end; at most 120 bytes are taken
 *   names   the name table; names_len is its room
 *   values  the value table, 8 bytes a name; values_len is its room
 *   store   the token lines; store_len is its room, of which at most 65,535 bytes are used
 *   line    the line buffer, for a text without a number; line_len is its room. What it held is not looked
 *           at; the new line stands at its start, and its third byte says how long it is. Bytes past that
 *           stay. Where such texts are not wanted it may be NULL and 0: they are then refused with 8 (or
 *           with what comes before 8, such as 4). A text with a number neither reads nor changes it.
 *   keep    whether a wrong line is kept: a text with a number that is refused with 4 is put into the store as
 *           an error line, over the line that had its number, so that it can be listed and mended. The
 *           answer is 4 with the place all the same, or 8 where the line has no room. A text with a byte 9B,
 *           or with 1B at the place, is not kept.
 *   record  the editor record, read and updated, all five counts; record_len is VIRGONTEY_RECORD_LENGTH
 *   answer  written; answer_len is VIRGONTEY_ENTER_LENGTH
 *
 * On a refusal nothing but the answer changes, unless a wrong line is kept: then store and record do.
 */
void virgontey_enter(const uint8_t *text, size_t text_len, uint8_t *names, size_t names_len,
                     uint8_t *values, size_t values_len, uint8_t *store, size_t store_len,
                     uint8_t *line, size_t line_len, bool keep, size_t *record, size_t record_len,
                     size_t *answer, size_t answer_len);

/*
 * Enters a text of many lines, such as a whole program. Each byte 9B ends a line, and bytes after the last
 * 9B are a line too; an empty text is no line. Buffers and record are left as virgontey_enter would leave
 * them if it were called for each line in this order, but names, values and store are tested once. A line
 * without a number is refused with 3, and no line buffer is lent.
 *
 *   text    the lines, of any length together; each is taken up to 120 bytes
 *   names, values, store, keep, record   as for virgontey_enter
 *   answer  written; answer_len is VIRGONTEY_BATCH_LENGTH
 *
 * A refused line changes nothing unless it is kept, and the lines after it are entered. To learn of more refusals than the
 * first, enter the lines one by one, or those after the first again.
 */
void virgontey_batch(const uint8_t *text, size_t text_len, uint8_t *names, size_t names_len,
                     uint8_t *values, size_t values_len, uint8_t *store, size_t store_len,
                     bool keep, size_t *record, size_t record_len, size_t *answer, size_t answer_len);

/*
 * Lists the line with a number into out, without an end mark. Only the bytes written change there;
 * on a refusal none do.
 *
 *   line    the line's number
 *   out     where the text goes; out_len is its room. 1,024 bytes hold any line that was entered
 *           as text under names that were.
 *   record  the editor record, only read; record_len is VIRGONTEY_RECORD_LENGTH
 *   answer  written; answer_len is VIRGONTEY_LIST_LENGTH
 */
void virgontey_list(size_t line, const uint8_t *names, size_t names_len, const uint8_t *values,
                    size_t values_len, const uint8_t *store, size_t store_len,
                    const size_t *record, size_t record_len, uint8_t *out, size_t out_len,
                    size_t *answer, size_t answer_len);

/*
 * Lists the line at the start of a line buffer into out, as virgontey_list does a stored one, but with no
 * number and no blank before its first statement. Neither store nor record is needed: the two counts of
 * names are handed over as they stand in the record.
 *
 *   line        the line buffer; bytes past the line in it are not read. A buffer that does not begin with
 *               a whole well-formed line with number 32768 is refused with 10
 *   name_bytes  bytes of name table in use
 *   name_count  names in the name table
 *   out         where the text goes; out_len is its room
 *   answer      written; answer_len is VIRGONTEY_LIST_LENGTH
 */
void virgontey_show(const uint8_t *line, size_t line_len, const uint8_t *names, size_t names_len,
                    size_t name_bytes, size_t name_count, const uint8_t *values, size_t values_len,
                    uint8_t *out, size_t out_len, size_t *answer, size_t answer_len);

/*
 * What virgontey_examine answers first, and how many numbers its answer has.
 */
enum {
    VIRGONTEY_YES = 0,            /* tables are sound, and every line is well-formed */
    VIRGONTEY_UNSOUND_NAMES = 1,  /* the name table is unsound */
    VIRGONTEY_UNSOUND_VALUES = 2, /* the value table has no room for all names */
    VIRGONTEY_UNSOUND_STORE = 3,  /* the store is unsound */
    VIRGONTEY_BAD_LINE = 4,       /* a line is not well-formed; the second number is its own */
    VIRGONTEY_EXAMINE_LENGTH = 2
};

/*
 * Examines a program that another tokenizer made, before it is taken: names, values and store, in this
 * order, and then every line. Nothing but the answer is written. Where the answer is VIRGONTEY_YES and no
 * listing is longer than 120 bytes, entering all listings in order into an empty store, under these names
 * and values, gives the same bytes. How many lines there are, and the greatest number, which the record of
 * the other calls has too, are not needed: a walk over the store finds them.
 *
 *   names, values, store   the tables, only read
 *   name_bytes  bytes of name table in use
 *   name_count  names in the name table
 *   used        bytes of store in use
 *   answer      written: which, and the number of the first bad line, 0 where there is none (a line 0 may
 *               be bad too); answer_len is VIRGONTEY_EXAMINE_LENGTH
 */
void virgontey_examine(const uint8_t *names, size_t names_len, size_t name_bytes, size_t name_count,
                       const uint8_t *values, size_t values_len, const uint8_t *store, size_t store_len,
                       size_t used, size_t *answer, size_t answer_len);

/*
 * Writes the program as an Atari SAVE file to the front of out: seven two-byte words, the names and a zero
 * byte, the values, the stored lines, and END without a number as the current line. A file has 21 bytes
 * more than names, values and lines together, and these may have at most 65,272. Only the bytes of the
 * file change in out; on a refusal, 1 or 8, none do.
 *
 *   record  the editor record, only read; record_len is VIRGONTEY_RECORD_LENGTH
 *   out     where the file goes; out_len is its room
 *   answer  written; answer_len is VIRGONTEY_SAVE_LENGTH
 */
void virgontey_save(const uint8_t *names, size_t names_len, const uint8_t *values, size_t values_len,
                    const uint8_t *store, size_t store_len, const size_t *record, size_t record_len,
                    uint8_t *out, size_t out_len, size_t *answer, size_t answer_len);

/*
 * Reads an Atari SAVE file: its names, values and lines are copied to the fronts of the lent buffers, and
 * the record becomes theirs. What buffers and record held before is neither tested nor read, and bytes past
 * the new ends stay. A last line 32768 in the file is left out, whatever it holds. Lines that this editor would not list are
 * taken too, if the tables are sound.
 *
 *   file    the file, only read; no copy of it is made
 *   names, values, store   where the program goes, with their rooms, as for virgontey_enter
 *   record  written, all five counts; record_len is VIRGONTEY_RECORD_LENGTH
 *   answer  written; answer_len is VIRGONTEY_LOAD_LENGTH
 *
 * On a refusal, 12, 13, 1 or 8 in this order, nothing but the answer changes.
 */
void virgontey_load(const uint8_t *file, size_t file_len, uint8_t *names, size_t names_len,
                    uint8_t *values, size_t values_len, uint8_t *store, size_t store_len,
                    size_t *record, size_t record_len, size_t *answer, size_t answer_len);

/*
 * Takes back the names that no line of the program uses, so that their room is free again. The other names
 * keep their order and get new numbers: every variable in every line is written with its name's new number,
 * and the eight bytes of a value move with its name, the second of them becomes the new number, and the
 * other seven are as they were. Each line lists as it did before. A name that stands only in a REM, in DATA,
 * in an error line or in a line buffer is not used; an error line stays byte for byte.
 *
 * The token of a name with a number of 128 or more has two bytes, that of a lower number one. So where a
 * number falls below 128 the line gets shorter, with its length and offsets, and the store with it; nothing
 * ever gets longer. Bytes past the new ends of names, values and store stay as they were. How many lines
 * there are, and the greatest number, do not change. A second call changes nothing more.
 *
 * A line that virgontey_enter put into a line buffer before is stale afterwards: the numbers in it are the old
 * ones, so virgontey_show may refuse it with 10 or list it with other names. Enter its text again.
 *
 *   names, values, store   the program, read and written
 *   record  the editor record, read and updated; record_len is VIRGONTEY_RECORD_LENGTH
 *   answer  written; answer_len is VIRGONTEY_COLLECT_LENGTH
 *
 * On a refusal nothing but the answer changes: 1, or 10 where any line is neither well-formed nor an error
 * line.
 */
void virgontey_collect(uint8_t *names, size_t names_len, uint8_t *values, size_t values_len,
                       uint8_t *store, size_t store_len, size_t *record, size_t record_len,
                       size_t *answer, size_t answer_len);

#ifdef __cplusplus
}
#endif

#endif
