/*
 * Prints the greatest stack that each call takes, and the text that took it.
 * Each call runs on a stack of its own that was painted before; what is no longer paint was used. Many texts
 * are entered, of 1 to 20 parts and of as many as fit in 120 bytes, each with its number, without, and as a
 * batch of one line, wrong lines are kept, and the lines that come of all this are listed.
 *
 *   stack [ENTER LIST]      status 1 where entering, a batch, an examination or a collection takes more bytes than
 *                           the first, or another call more than the second
 */
#include <stdio.h>
#include <stdlib.h>
#include <string.h>
#include <ucontext.h>

#include "virgontey.h"

#define COUNT(array) (sizeof(array) / sizeof *(array))

enum { STACK = 1 << 18, TEXT = 120, LEVELS = 20 };

static const uint64_t paint = 0xA5A5A5A5A5A5A5A5;

/* What a text begins with: what takes an expression, and expressions that are nested already. */
static const char *heads[] = {
    "1",
    "1A=",
    "1?",
    "1IF ",
    "1A(",
    "1A$=A$(",
    "1DIM A(",
    "1ON ",
    "1A=(",
    "1A=A(",
    "1?A$(",
    "1A=LEN(A$(",
    "1A=((((",
    "1A=A(A(A(A(",
    "1A=A(1,A(1,A(1,A(1,",
    "1A=LEN(A$(LEN(A$(",
    "1A=LEN(STR$(LEN(STR$(",
    "1A=A$=A$(A$=A$(A$=A$(A$=A$(",
    "1A=(A$=A$((A$=A$(",
    "1A=SIN(SIN(SIN(SIN(",
    "1A=NOT(-(NOT(-(",
    "1A=A$(A$=A$(1,A$=A$(1,A$=STR$(",
};

/* What is then written again and again: openings, prefixes, joined terms, statements, words and names. */
static const char *parts[] = {
    "(", "-(", "(-", "1+(", "NOT(", "(NOT ", "A(", "A(1,", "A$(", "A$(1,", "SIN(", "LEN(A$(", "VAL(STR$(",
    "(A$=A$(", "A$=A$(", "A$=A$(A$=A$(", "A(A$=A$(1,", "-A$=A$(1,",
    "+", "NOT ",
    "1+", "1=", "A+", "-A+", "NOT A+", "(1)+", "A(1)+", "LEN(A$)+", "A$=", "A$=A$+",
    ":", "?:", "1:A=", "NEXT A:", "IF1THEN",
    "A", "A$", "1.5", "LEN", "STR$", "GRAPHICS", "PADDLE", "ABCDEFGHIJKLMNOPQRSTUVWXYZ",
};

/* Lines as a station's program has them. */
static const char *lines[] = {
    "1A=1",
    "1PRINT \"HI\"",
    "1IF TEMP(I)>MAX AND NOT (HUM<20 OR DRY=1) THEN PRINT \"HIGH AT \";I:GOTO 200",
    "1LET S=S+INT(100*SIN(X/2)+0.5)/100:NEXT I",
    "1DIM A$(10),B(3,4)",
    "1FOR I=1 TO 1.5E+20 STEP -0.0125:POKE 1536+I,ASC(A$(I,I)):NEXT I",
    "1DATA 1,2,3",
    "1REM HELLO",
};

static uint64_t stack[STACK / sizeof(uint64_t)];
static ucontext_t outside, inside;

static uint8_t names[2048], values[2048], store[65535], line[255], out[1024], file[65549];
static size_t record[VIRGONTEY_RECORD_LENGTH], answer[VIRGONTEY_BATCH_LENGTH];
static char text[TEXT + 1];

/* What is entered: the text, or what stands after its number, 1. */
static const char *entered;

/* The greatest stack of a call so far, and the text with which it took that. */
struct most {
    size_t bytes;
    char text[TEXT + 1];
};

static struct most entering, sending, listing, showing, examining, saving, loading, collecting;

/* What a stack of its own takes for nothing. */
static size_t idle;

/* Nothing. */
static void nothing(void)
{
}

/* Enters a text. */
static void enter(void)
{
    virgontey_enter((const uint8_t *)entered, strlen(entered), names, sizeof names, values, sizeof values,
                    store, sizeof store, line, sizeof line, 1, record, VIRGONTEY_RECORD_LENGTH, answer,
                    VIRGONTEY_ENTER_LENGTH);
}

/* Enters a text as a batch of one line. */
static void batch(void)
{
    virgontey_batch((const uint8_t *)entered, strlen(entered), names, sizeof names, values, sizeof values,
                    store, sizeof store, 1, record, VIRGONTEY_RECORD_LENGTH, answer, VIRGONTEY_BATCH_LENGTH);
}

/* Lists line 1. */
static void list(void)
{
    virgontey_list(1, names, sizeof names, values, sizeof values, store, sizeof store, record,
                   VIRGONTEY_RECORD_LENGTH, out, sizeof out, answer, VIRGONTEY_LIST_LENGTH);
}

/* Lists the line buffer. */
static void show(void)
{
    virgontey_show(line, sizeof line, names, sizeof names, record[VIRGONTEY_RECORD_NAME_BYTES],
                   record[VIRGONTEY_RECORD_NAME_COUNT], values, sizeof values, out, sizeof out, answer,
                   VIRGONTEY_LIST_LENGTH);
}

/* Examines the program. */
static void examine(void)
{
    virgontey_examine(names, sizeof names, record[VIRGONTEY_RECORD_NAME_BYTES],
                      record[VIRGONTEY_RECORD_NAME_COUNT], values, sizeof values, store, sizeof store,
                      record[VIRGONTEY_RECORD_USED], answer, VIRGONTEY_EXAMINE_LENGTH);
}

/* Writes the program's file. */
static void save(void)
{
    virgontey_save(names, sizeof names, values, sizeof values, store, sizeof store, record,
                   VIRGONTEY_RECORD_LENGTH, file, sizeof file, answer, VIRGONTEY_SAVE_LENGTH);
}

/* Reads the file that was written. */
static void load(void)
{
    virgontey_load(file, answer[VIRGONTEY_SAVE_WRITTEN], names, sizeof names, values, sizeof values, store,
                   sizeof store, record, VIRGONTEY_RECORD_LENGTH, answer, VIRGONTEY_LOAD_LENGTH);
}

/* Takes unused names back. */
static void collect(void)
{
    virgontey_collect(names, sizeof names, values, sizeof values, store, sizeof store, record,
                      VIRGONTEY_RECORD_LENGTH, answer, VIRGONTEY_COLLECT_LENGTH);
}

/* How many bytes of stack a call takes. All of the stack is paint before and after. */
static size_t used(void (*call)(void))
{
    size_t left = 0, i;

    getcontext(&inside);
    inside.uc_stack.ss_sp = stack;
    inside.uc_stack.ss_size = sizeof stack;
    inside.uc_link = &outside;
    makecontext(&inside, call, 0);
    swapcontext(&outside, &inside);
    while (left < COUNT(stack) && stack[left] == paint)
        left++;
    for (i = left; i < COUNT(stack); i++)
        stack[i] = paint;
    return sizeof stack - left * sizeof *stack;
}

/* Notes what a call takes beyond what nothing takes. */
static void measure(void (*call)(void), struct most *most)
{
    size_t bytes = used(call) - idle;

    if (bytes > most->bytes) {
        most->bytes = bytes;
        strcpy(most->text, entered);
    }
}

/* Measures the entry of the text with its number and without, and then the listing of the line, and the program examined, written and read:
   of a wrong text, too, one is kept, but not in the line buffer. At last the names that only the line buffer has are taken
   back. */
static void measure_both(int whole)
{
    entered = text;
    measure(enter, &entering);
    measure(batch, &sending);
    measure(list, &listing);
    measure(examine, &examining);
    measure(save, &saving);
    measure(load, &loading);
    entered = text + 1;
    measure(enter, &entering);
    if (whole)
        measure(show, &showing);
    measure(collect, &collecting);
}

/* Makes a text of a head, a part so many times or as often as it fits, a middle, and for each part a close. */
static void make(const char *head, const char *part, size_t count, const char *middle, const char *close)
{
    size_t fit = (TEXT - strlen(head) - strlen(middle)) / (strlen(part) + strlen(close));
    size_t i;

    if (count > fit)
        count = fit;
    strcpy(text, head);
    for (i = 0; i < count; i++)
        strcat(text, part);
    strcat(text, middle);
    for (i = 0; i < count; i++)
        strcat(text, close);
}

/* Prints what a call takes at most; whether that is within a bound, if there is one. */
static int within(const char *call, const struct most *most, const char *bound)
{
    printf("%s: %zu bytes of stack, for %s\n", call, most->bytes, most->text);
    return bound == NULL || most->bytes <= strtoul(bound, NULL, 10);
}

int main(int argc, char **argv)
{
    size_t h, p, count;
    int well;

    for (p = 0; p < COUNT(stack); p++)
        stack[p] = paint;
    idle = used(nothing);
    for (h = 0; h < COUNT(heads); h++)
        for (p = 0; p < COUNT(parts); p++)
            for (count = 1; count <= LEVELS + 1; count++) {
                size_t n = count <= LEVELS ? count : TEXT;

                memset(record, 0, sizeof record);
                make(heads[h], parts[p], n, "", "");
                measure_both(0);
                make(heads[h], parts[p], n, "1", ")");
                measure_both(1);
            }
    memset(record, 0, sizeof record);
    for (p = 0; p < COUNT(lines); p++) {
        strcpy(text, lines[p]);
        measure_both(1);
    }
    well = within("enter", &entering, argc == 3 ? argv[1] : NULL);
    well &= within("batch", &sending, argc == 3 ? argv[1] : NULL);
    well &= within("list", &listing, argc == 3 ? argv[2] : NULL);
    well &= within("show", &showing, argc == 3 ? argv[2] : NULL);
    well &= within("examine", &examining, argc == 3 ? argv[1] : NULL);
    well &= within("save", &saving, argc == 3 ? argv[2] : NULL);
    well &= within("load", &loading, argc == 3 ? argv[2] : NULL);
    well &= within("collect", &collecting, argc == 3 ? argv[1] : NULL);
    return well ? 0 : 1;
}
