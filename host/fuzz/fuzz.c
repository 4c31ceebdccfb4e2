/*
 * The library and the reference side by side, on calls that libFuzzer makes up: every buffer is lent at its exact size from the heap, and after each call the answer, the record and all
 * buffers of both have to be the same. scripts/fuzz builds it with the address and the undefined-behaviour sanitizer, and the library's own module too, so that a byte read or
 * written past a buffer by either stops the run.
 *
 * An input is a row of choices: the rooms of the buffers, what they hold first (nothing, a program that is read from a file, or any bytes and counts), and then calls.
 */
#include <stdbool.h>
#include <stdint.h>
#include <stdio.h>
#include <stdlib.h>
#include <string.h>
#include "../../include/virgontey.h"

/* The reference has the same calls under another name. */
extern __typeof__(virgontey_enter) reference_enter;
extern __typeof__(virgontey_batch) reference_batch;
extern __typeof__(virgontey_list) reference_list;
extern __typeof__(virgontey_show) reference_show;
extern __typeof__(virgontey_examine) reference_examine;
extern __typeof__(virgontey_save) reference_save;
extern __typeof__(virgontey_load) reference_load;
extern __typeof__(virgontey_collect) reference_collect;

/* What is left of an input. */
struct choices {
    const uint8_t *at;
    size_t left;
};

/* A lent buffer. */
struct buffer {
    uint8_t *bytes;
    size_t size;
};

/* All that is lent to one of the two; an answer has fewer numbers than there is room for. */
enum { ANSWER_ROOM = 8 };
struct side {
    struct buffer names, values, store, line, out;
    size_t *record;
    size_t *answer;
};

enum { LIBRARY, REFERENCE, SIDES };
static struct side sides[SIDES];

enum { ENTER, BATCH, LIST, SHOW, EXAMINE, SAVE, LOAD, COLLECT, SHORT, CALLS };
static const char *const names_of_calls[CALLS] = {"enter", "batch", "list", "show", "examine", "save", "load", "collect", "short records and answers"};
static unsigned long long made[CALLS], done[CALLS];

/* Prints how many calls were made, and how many of them were done and not refused. */
static void print_counts(void) {
    unsigned long long all = 0;
    for (int i = 0; i < CALLS; i++) {
        fprintf(stderr, "calls: %s %llu, done %llu\n", names_of_calls[i], made[i], done[i]);
        all += made[i];
    }
    fprintf(stderr, "calls: all %llu, differences 0\n", all);
}

static void differ(int call, const char *what) {
    fprintf(stderr, "DIFFERENCE in %s: %s; answers", names_of_calls[call], what);
    for (int s = 0; s < SIDES; s++) {
        fprintf(stderr, "%s", s ? " and" : "");
        for (int i = 0; i < ANSWER_ROOM; i++) fprintf(stderr, " %zu", sides[s].answer[i]);
    }
    fprintf(stderr, "\n");
    abort();
}

/* ---- choices */

static unsigned next(struct choices *c) {
    if (c->left == 0) return 0;
    c->left--;
    return *c->at++;
}

static size_t next_word(struct choices *c) {
    size_t low = next(c);
    return low + 256 * (size_t)next(c);
}

/* A room: often what a tag has, else any. */
static size_t room(struct choices *c, size_t usual) {
    unsigned kind = next(c);
    if (kind < 128) return usual;
    if (kind < 240) return kind - 128;
    size_t any = next_word(c);
    return kind < 250 ? any % 4096 : any;
}

/* A count: often small, or as given, else any. */
static size_t count(struct choices *c, size_t given) {
    unsigned kind = next(c);
    if (kind < 160) return given;
    if (kind < 250) return kind - 160;
    return kind == 250 ? SIZE_MAX : kind == 251 ? given + 1 : kind == 252 ? given - 1 : next_word(c);
}

/* ---- buffers */

static struct buffer made_room(size_t size) {
    struct buffer b = {size ? malloc(size) : NULL, size};
    if (size && !b.bytes) abort();
    if (size) memset(b.bytes, 0xA5, size);
    return b;
}

/* The same new buffer for both. */
static void lend(size_t offset, size_t size) {
    for (int s = 0; s < SIDES; s++) *(struct buffer *)((char *)&sides[s] + offset) = made_room(size);
}
#define LEND(field, size) lend(offsetof(struct side, field), size)

static void give_back(void) {
    for (int s = 0; s < SIDES; s++) {
        struct side *a = &sides[s];
        free(a->names.bytes), free(a->values.bytes), free(a->store.bytes), free(a->line.bytes), free(a->out.bytes);
        free(a->record), free(a->answer);
    }
}

static bool equal(struct buffer a, struct buffer b) {
    return a.size == b.size && (a.size == 0 || memcmp(a.bytes, b.bytes, a.size) == 0);
}

/* Everything is the same on both sides. */
static void same(int call) {
    struct side *a = &sides[LIBRARY], *b = &sides[REFERENCE];
    if (memcmp(a->answer, b->answer, ANSWER_ROOM * sizeof(size_t)) != 0) differ(call, "the answer");
    if (memcmp(a->record, b->record, VIRGONTEY_RECORD_LENGTH * sizeof(size_t)) != 0) differ(call, "the record");
    if (!equal(a->names, b->names)) differ(call, "the names");
    if (!equal(a->values, b->values)) differ(call, "the values");
    if (!equal(a->store, b->store)) differ(call, "the store");
    if (!equal(a->line, b->line)) differ(call, "the line buffer");
    if (!equal(a->out, b->out)) differ(call, "the output");
}

/* After a call. */
static void compare(int call) {
    made[call]++;
    done[call] += call == BATCH ? sides[LIBRARY].answer[VIRGONTEY_BATCH_REFUSED] == 0 : sides[LIBRARY].answer[0] == 0;
    same(call);
}

/* ---- texts and files */

static const char *const pieces[] = {
    " ", "0", "1", "2", "5", "9", "10", "20", "30", "100", "32767", "32768", ".5", "1E97", "1E98", "1E-98", "0.001", "A", "B", "C", "N1", "A$", "B$", "ORB", "A(", "B(", "(", ")", ",", ";", ":", "#", "=", "<",
    ">", "<=", ">=", "<>", "+", "-", "*", "/", "^", "\"", "\"X\"", " NOT ", " OR ", " AND ", " TO ", " STEP ", " THEN ", " GOTO ", " GOSUB ", "LET ", "IF ", "FOR ", "NEXT ", "ON ", "DIM ", "READ ",
    "INPUT ", "PRINT ", "? ", "POKE ", "TRAP ", "RESTORE ", "REM ", "DATA ", "CLR", "END", "RETURN", "OPEN ", "CLOSE ", "GET ", "PUT ", "XIO ", "STATUS ", "NOTE ", "POINT ", "LEN(", "SIN(", "STR$(", "CHR$(", "PEEK(",
    "USR(", "ERROR-", "\x9B", "\n", "a", "\x1B", "Z9", "COLOR ",
};
enum { PIECES = sizeof pieces / sizeof *pieces };

static const char *const lines[] = {
    "10 A=1", "20 PRINT \"HI\"", "30 REM  X", "40 IF A<B OR C THEN 10", "40 IF A<BORC THEN 10", "50 A$=\"X\":A=-1", "60 IF A THEN PRINT", "30 GOTO", "10 A=1E98", "20 PRINT A;B", "10", "20", "PRINT A;B$", "PRINT \"X",
    "60 OPEN #1,13,0,\"R1:\"", "140 GET #1,C", "210 PRINT #2;K;\",\";W$", "90 DIM N$(13),W$(20),AT(99,1)", "100 AT(K,0)=S:AT(K,1)=B", "110 FOR I=1 TO 10 STEP -2", "120 NEXT I", "130 ON A+1 GOTO 10,20,A",
    "150 IF C<>13 THEN W$(LEN(W$)+1)=CHR$(C):GOTO 140", "160 A=NOT NOT B^2*(C+SIN(D))", "170 IF A$<=B$(1,2) THEN 900", "180 DATA 1,2,X", "190 READ A,B$:RESTORE 10", "200 XIO 36,#1,10,0,\"R1:\"", "220 POKE 53279,A*0.02",
};
enum { LINES = sizeof lines / sizeof *lines };

/* A text of at most `most` bytes on the heap, exact: for a byte of the input below 200 a piece, below 253 a whole line, else itself after 255, an end of a line after 253; 254 ends the text. */
static struct buffer text(struct choices *c, size_t most) {
    uint8_t made_of[2048];
    size_t n = 0;
    if (most > sizeof made_of) most = sizeof made_of;
    while (c->left > 0 && n < most) {
        unsigned b = next(c);
        if (b == 254) break;
        if (b >= 253) {
            made_of[n++] = b == 253 ? 0x9B : (uint8_t)next(c);
        } else {
            const char *piece = b < 200 ? pieces[b % PIECES] : lines[(b - 200) % LINES];
            for (; *piece && n < most; piece++) made_of[n++] = (uint8_t)*piece;
            if (b >= 200 && most <= 130) break;
            if (b >= 200 && n < most) made_of[n++] = 0x9B;
        }
    }
    struct buffer t = made_room(n);
    if (n) memcpy(t.bytes, made_of, n);
    return t;
}

/* Any bytes of the input. */
static struct buffer raw(struct choices *c, size_t most) {
    size_t n = next_word(c) % (most + 1);
    if (n > c->left) n = c->left;
    struct buffer t = made_room(n);
    if (n) memcpy(t.bytes, c->at, n);
    c->at += n, c->left -= n;
    return t;
}

/* A file of the program at hand with some of its bytes changed, or any bytes. */
static struct buffer file(struct choices *c) {
    if (next(c) % 4 == 0) return raw(c, 600);
    struct side *a = &sides[LIBRARY];
    struct buffer whole = made_room(70000);
    size_t answer[VIRGONTEY_SAVE_LENGTH];
    virgontey_save(a->names.bytes, a->names.size, a->values.bytes, a->values.size, a->store.bytes, a->store.size, a->record, VIRGONTEY_RECORD_LENGTH, whole.bytes, whole.size, answer, VIRGONTEY_SAVE_LENGTH);
    size_t n = answer[VIRGONTEY_SAVE_WRITTEN];
    size_t cut = next(c);
    if (cut < 16 && n > cut) n -= cut;
    struct buffer f = made_room(n);
    if (n) memcpy(f.bytes, whole.bytes, n);
    free(whole.bytes);
    for (unsigned changes = next(c) % 4; changes > 0 && n > 0; changes--) {
        size_t at = next_word(c) % n;
        f.bytes[at] = (uint8_t)next(c);
    }
    return f;
}

/* ---- calls, each on both sides */

#define TABLES(s) (s)->names.bytes, (s)->names.size, (s)->values.bytes, (s)->values.size
#define STORE(s) (s)->store.bytes, (s)->store.size
#define RECORD(s) (s)->record, VIRGONTEY_RECORD_LENGTH
#define OUT(s) (s)->out.bytes, (s)->out.size

static void enter(struct choices *c) {
    bool keep = next(c) & 1;
    struct buffer t = text(c, 130);
    virgontey_enter(t.bytes, t.size, TABLES(&sides[0]), STORE(&sides[0]), sides[0].line.bytes, sides[0].line.size, keep, RECORD(&sides[0]), sides[0].answer, VIRGONTEY_ENTER_LENGTH);
    reference_enter(t.bytes, t.size, TABLES(&sides[1]), STORE(&sides[1]), sides[1].line.bytes, sides[1].line.size, keep, RECORD(&sides[1]), sides[1].answer, VIRGONTEY_ENTER_LENGTH);
    free(t.bytes);
    compare(ENTER);
}

static void batch(struct choices *c) {
    bool keep = next(c) & 1;
    struct buffer t = text(c, 1500);
    virgontey_batch(t.bytes, t.size, TABLES(&sides[0]), STORE(&sides[0]), keep, RECORD(&sides[0]), sides[0].answer, VIRGONTEY_BATCH_LENGTH);
    reference_batch(t.bytes, t.size, TABLES(&sides[1]), STORE(&sides[1]), keep, RECORD(&sides[1]), sides[1].answer, VIRGONTEY_BATCH_LENGTH);
    free(t.bytes);
    compare(BATCH);
}

static void list(struct choices *c) {
    size_t lines[] = {10, 20, 30, 100, sides[0].record[VIRGONTEY_RECORD_GREATEST], next_word(c)};
    size_t line = lines[next(c) % 6];
    virgontey_list(line, TABLES(&sides[0]), STORE(&sides[0]), RECORD(&sides[0]), OUT(&sides[0]), sides[0].answer, VIRGONTEY_LIST_LENGTH);
    reference_list(line, TABLES(&sides[1]), STORE(&sides[1]), RECORD(&sides[1]), OUT(&sides[1]), sides[1].answer, VIRGONTEY_LIST_LENGTH);
    compare(LIST);
}

static void show(struct choices *c) {
    size_t bytes = count(c, sides[0].record[VIRGONTEY_RECORD_NAME_BYTES]), names = count(c, sides[0].record[VIRGONTEY_RECORD_NAME_COUNT]);
    virgontey_show(sides[0].line.bytes, sides[0].line.size, sides[0].names.bytes, sides[0].names.size, bytes, names, sides[0].values.bytes, sides[0].values.size, OUT(&sides[0]), sides[0].answer, VIRGONTEY_LIST_LENGTH);
    reference_show(sides[1].line.bytes, sides[1].line.size, sides[1].names.bytes, sides[1].names.size, bytes, names, sides[1].values.bytes, sides[1].values.size, OUT(&sides[1]), sides[1].answer, VIRGONTEY_LIST_LENGTH);
    compare(SHOW);
}

static void examine(struct choices *c) {
    size_t bytes = count(c, sides[0].record[VIRGONTEY_RECORD_NAME_BYTES]), names = count(c, sides[0].record[VIRGONTEY_RECORD_NAME_COUNT]), used = count(c, sides[0].record[VIRGONTEY_RECORD_USED]);
    virgontey_examine(sides[0].names.bytes, sides[0].names.size, bytes, names, sides[0].values.bytes, sides[0].values.size, STORE(&sides[0]), used, sides[0].answer, VIRGONTEY_EXAMINE_LENGTH);
    reference_examine(sides[1].names.bytes, sides[1].names.size, bytes, names, sides[1].values.bytes, sides[1].values.size, STORE(&sides[1]), used, sides[1].answer, VIRGONTEY_EXAMINE_LENGTH);
    compare(EXAMINE);
}

static void save(void) {
    virgontey_save(TABLES(&sides[0]), STORE(&sides[0]), RECORD(&sides[0]), OUT(&sides[0]), sides[0].answer, VIRGONTEY_SAVE_LENGTH);
    reference_save(TABLES(&sides[1]), STORE(&sides[1]), RECORD(&sides[1]), OUT(&sides[1]), sides[1].answer, VIRGONTEY_SAVE_LENGTH);
    compare(SAVE);
}

static void load(struct choices *c) {
    struct buffer f = file(c);
    virgontey_load(f.bytes, f.size, TABLES(&sides[0]), STORE(&sides[0]), RECORD(&sides[0]), sides[0].answer, VIRGONTEY_LOAD_LENGTH);
    reference_load(f.bytes, f.size, TABLES(&sides[1]), STORE(&sides[1]), RECORD(&sides[1]), sides[1].answer, VIRGONTEY_LOAD_LENGTH);
    free(f.bytes);
    compare(LOAD);
}

static void collect(void) {
    virgontey_collect(TABLES(&sides[0]), STORE(&sides[0]), RECORD(&sides[0]), sides[0].answer, VIRGONTEY_COLLECT_LENGTH);
    reference_collect(TABLES(&sides[1]), STORE(&sides[1]), RECORD(&sides[1]), sides[1].answer, VIRGONTEY_COLLECT_LENGTH);
    compare(COLLECT);
}

/* A record that lacks counts, and an answer that lacks room, which the reference does not know: refused with 1, as far as there is room to say it, and nothing else changes. */
static void lacking(struct choices *c) {
    struct side *a = &sides[LIBRARY];
    size_t counts = next(c) % VIRGONTEY_RECORD_LENGTH, numbers = next(c) % VIRGONTEY_ENTER_LENGTH;
    size_t *record = counts ? malloc(counts * sizeof *record) : NULL, *answer = numbers ? malloc(numbers * sizeof *answer) : NULL;
    if (counts) memcpy(record, a->record, counts * sizeof *record);
    struct buffer t = text(c, 130);
    virgontey_enter(t.bytes, t.size, TABLES(a), STORE(a), a->line.bytes, a->line.size, false, record, counts, answer, numbers);
    made[SHORT]++;
    if (counts && memcmp(record, a->record, counts * sizeof *record) != 0) differ(SHORT, "the record");
    if (numbers && answer[0] != VIRGONTEY_UNSOUND) differ(SHORT, "the answer");
    same(SHORT);
    free(t.bytes), free(record), free(answer);
}

/* What the buffers hold first: nothing; a program from a file; or any bytes and counts. */
static void begin(struct choices *c) {
    unsigned kind = next(c) % 4;
    if (kind == 1) load(c);
    if (kind != 2) return;
    struct buffer names = raw(c, 64), store = raw(c, 200), line = raw(c, 64);
    size_t record[VIRGONTEY_RECORD_LENGTH];
    for (int i = 0; i < VIRGONTEY_RECORD_LENGTH; i++) record[i] = count(c, i == VIRGONTEY_RECORD_NAME_BYTES ? names.size : i == VIRGONTEY_RECORD_USED ? store.size : 1);
    for (int s = 0; s < SIDES; s++) {
        struct side *a = &sides[s];
        if (names.size && names.size <= a->names.size) memcpy(a->names.bytes, names.bytes, names.size);
        if (store.size && store.size <= a->store.size) memcpy(a->store.bytes, store.bytes, store.size);
        if (line.size && line.size <= a->line.size) memcpy(a->line.bytes, line.bytes, line.size);
        memcpy(a->record, record, sizeof record);
    }
    free(names.bytes), free(store.bytes), free(line.bytes);
}

int LLVMFuzzerInitialize(int *argc, char ***argv) {
    (void)argc, (void)argv;
    atexit(print_counts);
    return 0;
}

int LLVMFuzzerTestOneInput(const uint8_t *data, size_t size) {
    struct choices c = {data, size};
    LEND(names, room(&c, 2048));
    LEND(values, room(&c, 2048));
    LEND(store, room(&c, 4096));
    LEND(line, room(&c, VIRGONTEY_LINE_ROOM));
    LEND(out, room(&c, 1024));
    for (int s = 0; s < SIDES; s++) {
        sides[s].record = calloc(VIRGONTEY_RECORD_LENGTH, sizeof(size_t));
        sides[s].answer = calloc(ANSWER_ROOM, sizeof(size_t));
        if (!sides[s].record || !sides[s].answer) abort();
    }
    begin(&c);
    for (int calls = 0; calls < 40 && c.left > 0; calls++) {
        switch (next(&c) % 16) {
        case 0: batch(&c); break;
        case 1: list(&c); break;
        case 2: show(&c); break;
        case 3: examine(&c); break;
        case 4: save(); break;
        case 5: load(&c); break;
        case 6: collect(); break;
        case 7: lacking(&c); break;
        case 8: list(&c); break;
        default: enter(&c); break;
        }
    }
    examine(&c);
    save();
    collect();
    give_back();
    return 0;
}
