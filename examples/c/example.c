/*
 * Enters three lines and two that are refused, lists the program, and takes its last line out. Then what
 * service staff type at the tag to see a value: a line without a number, which leaves the program alone.
 * Then a whole listing is sent to another tag in one call, and a wrong line is kept there, to be mended.
 * Last, that program is carried back in a file, and names that no line uses are taken back.
 */
#include <stdio.h>
#include <string.h>

#include "virgontey.h"

/* One program with its rooms. */
struct program {
    uint8_t names[2048];
    uint8_t values[2048];
    uint8_t store[32768];
    uint8_t line[VIRGONTEY_LINE_ROOM];
    size_t record[VIRGONTEY_RECORD_LENGTH];
    bool keep; /* whether wrong lines stay in it */
};

/* Enters one text and says how it went. */
static void enter(struct program *p, const char *text)
{
    size_t answer[VIRGONTEY_ENTER_LENGTH];

    virgontey_enter((const uint8_t *)text, strlen(text), p->names, sizeof p->names, p->values,
                    sizeof p->values, p->store, sizeof p->store, p->line, sizeof p->line, p->keep,
                    p->record, VIRGONTEY_RECORD_LENGTH, answer, VIRGONTEY_ENTER_LENGTH);
    if (answer[VIRGONTEY_ENTER_NUMBER] == VIRGONTEY_DONE) {
        printf("taken:   %s (%zu new names, %zu bytes used)\n", text,
               answer[VIRGONTEY_ENTER_ADDED], answer[VIRGONTEY_ENTER_USED]);
    } else {
        printf("refused: %s (number %zu, from %zu to %zu)\n", text,
               answer[VIRGONTEY_ENTER_NUMBER], answer[VIRGONTEY_ENTER_PLACE],
               answer[VIRGONTEY_ENTER_END]);
    }
}

/* Sends a whole listing, whose lines end in 9B, and says how it went. */
static void send(struct program *p, const char *listing)
{
    size_t answer[VIRGONTEY_BATCH_LENGTH];

    virgontey_batch((const uint8_t *)listing, strlen(listing), p->names, sizeof p->names, p->values,
                    sizeof p->values, p->store, sizeof p->store, p->keep, p->record,
                    VIRGONTEY_RECORD_LENGTH, answer, VIRGONTEY_BATCH_LENGTH);
    printf("listing: %zu lines taken, %zu refused\n", answer[VIRGONTEY_BATCH_TAKEN],
           answer[VIRGONTEY_BATCH_REFUSED]);
    if (answer[VIRGONTEY_BATCH_REFUSED] > 0)
        printf("line %zu of it was the first: number %zu, from %zu to %zu\n",
               answer[VIRGONTEY_BATCH_LINE], answer[VIRGONTEY_BATCH_NUMBER],
               answer[VIRGONTEY_BATCH_PLACE], answer[VIRGONTEY_BATCH_END]);
}

/* Lists one line. */
static void list(const struct program *p, size_t line)
{
    uint8_t out[1024];
    size_t answer[VIRGONTEY_LIST_LENGTH];

    virgontey_list(line, p->names, sizeof p->names, p->values, sizeof p->values, p->store,
                   sizeof p->store, p->record, VIRGONTEY_RECORD_LENGTH, out, sizeof out, answer,
                   VIRGONTEY_LIST_LENGTH);
    if (answer[VIRGONTEY_LIST_NUMBER] == VIRGONTEY_DONE) {
        fwrite(out, 1, answer[VIRGONTEY_LIST_WRITTEN], stdout);
        putchar('\n');
    } else {
        printf("line %zu: number %zu\n", line, answer[VIRGONTEY_LIST_NUMBER]);
    }
}

/* Lists the line that was entered without a number. */
static void show(const struct program *p)
{
    uint8_t out[1024];
    size_t answer[VIRGONTEY_LIST_LENGTH];

    virgontey_show(p->line, sizeof p->line, p->names, sizeof p->names,
                   p->record[VIRGONTEY_RECORD_NAME_BYTES], p->record[VIRGONTEY_RECORD_NAME_COUNT],
                   p->values, sizeof p->values, out, sizeof out, answer, VIRGONTEY_LIST_LENGTH);
    if (answer[VIRGONTEY_LIST_NUMBER] == VIRGONTEY_DONE) {
        printf("to run now, %d bytes: ", p->line[2]);
        fwrite(out, 1, answer[VIRGONTEY_LIST_WRITTEN], stdout);
        putchar('\n');
    } else {
        printf("line buffer: number %zu\n", answer[VIRGONTEY_LIST_NUMBER]);
    }
}

/* Says how many lines there are and which is the last: the record holds both, and nothing is looked for. */
static void count(const struct program *p)
{
    printf("program: %zu lines, the last is %zu\n", p->record[VIRGONTEY_RECORD_LINES],
           p->record[VIRGONTEY_RECORD_GREATEST]);
}

/* Writes the program `from` as a SAVE file, and reads that file into `to`. */
static void carry(const struct program *from, struct program *to)
{
    static uint8_t file[1024];
    size_t saved[VIRGONTEY_SAVE_LENGTH], loaded[VIRGONTEY_LOAD_LENGTH];

    virgontey_save(from->names, sizeof from->names, from->values, sizeof from->values, from->store,
                   sizeof from->store, from->record, VIRGONTEY_RECORD_LENGTH, file, sizeof file, saved,
                   VIRGONTEY_SAVE_LENGTH);
    printf("file:    %zu bytes, number %zu\n", saved[VIRGONTEY_SAVE_WRITTEN], saved[VIRGONTEY_SAVE_NUMBER]);
    virgontey_load(file, saved[VIRGONTEY_SAVE_WRITTEN] - 1, to->names, sizeof to->names, to->values,
                   sizeof to->values, to->store, sizeof to->store, to->record, VIRGONTEY_RECORD_LENGTH,
                   loaded, VIRGONTEY_LOAD_LENGTH);
    printf("cut:     number %zu\n", loaded[VIRGONTEY_LOAD_NUMBER]);
    virgontey_load(file, saved[VIRGONTEY_SAVE_WRITTEN], to->names, sizeof to->names, to->values,
                   sizeof to->values, to->store, sizeof to->store, to->record, VIRGONTEY_RECORD_LENGTH,
                   loaded, VIRGONTEY_LOAD_LENGTH);
    printf("read:    number %zu\n", loaded[VIRGONTEY_LOAD_NUMBER]);
}

/* Takes back the names that no line uses. */
static void collect(struct program *p)
{
    size_t answer[VIRGONTEY_COLLECT_LENGTH];
    size_t before = p->record[VIRGONTEY_RECORD_NAME_COUNT];

    virgontey_collect(p->names, sizeof p->names, p->values, sizeof p->values, p->store, sizeof p->store,
                      p->record, VIRGONTEY_RECORD_LENGTH, answer, VIRGONTEY_COLLECT_LENGTH);
    printf("names:   %zu of %zu left, number %zu\n", p->record[VIRGONTEY_RECORD_NAME_COUNT], before,
           answer[VIRGONTEY_COLLECT_NUMBER]);
}

int main(void)
{
    static struct program program, other;
    static uint8_t store[sizeof program.store];

    enter(&program, "10 L=2:H=8");
    enter(&program, "20 IF V<L OR T>H THEN 900");
    enter(&program, "900 PRINT \"ALARM \";V");
    enter(&program, "30 GOTO");
    enter(&program, "30 IF V<L BORT THEN 900");
    count(&program);
    list(&program, 10);
    list(&program, 20);
    list(&program, 900);
    list(&program, 30);
    enter(&program, "900");
    count(&program);

    memcpy(store, program.store, sizeof store);
    show(&program);
    enter(&program, "PRINT V;\" OF \";L");
    show(&program);
    enter(&program, "PRINT ALARMS");
    show(&program);
    enter(&program, "PRINT V V");
    show(&program);
    count(&program);
    printf("store:   %s\n", memcmp(store, program.store, sizeof store) ? "changed" : "as it was");

    send(&other, "10 L=2:H=8\x9B"
                 "20 IF V<L OR T>H THEN 900\x9B"
                 "30 GOTO\x9B"
                 "PRINT V\x9B"
                 "900 PRINT \"ALARM \";V\x9B");
    count(&other);
    list(&other, 900);

    other.keep = true;
    enter(&other, "30 GOTO");
    count(&other);
    enter(&other, "30 GOTO 10");
    list(&other, 30);

    carry(&other, &program);
    count(&program);
    list(&program, 900);

    enter(&program, "10 L=2");
    enter(&program, "20 IF T>L THEN 900");
    collect(&program);
    collect(&program);
    list(&program, 20);
    list(&program, 900);
    return 0;
}
