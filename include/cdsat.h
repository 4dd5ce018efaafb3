/* The verified checker of CDSAT logs: its three calls, in libcdsat.a.
 *
 *   cdsat_check  a log as text, from its bytes to the verdict
 *   cdsat_read   a log as text, from its bytes to the four sheets
 *   cdsat_run    a log as four sheets, to the verdict and the trail
 *
 * Link the library behind what calls it; it needs the C library alone:
 *
 *   cc -Iinclude program.c crates/cdsat/out/libcdsat.a
 *
 * A complete program stands at the end.
 *
 * A problem and its log are four sheets of 16-bit numbers, row after row:
 *
 *   sorts   index sort, value sort                      rows count from 1
 *   terms   head, sort, four arguments                  rows count from 0
 *   inputs  term, value
 *   steps   step, rule, term, value, five premises
 *
 * An empty column is CDSAT_BLANK. Sort 0 is prop, whose values are 0 for false
 * and 1 for true. docs/FORMAT.md has the same four sheets as text, and what every
 * number means.
 *
 * The calls ask nothing of the numbers, the bytes and the lengths. Every pointer
 * must lead to as many items as the length beside it says, and what is written
 * must overlap nothing else. With length 0 a pointer may be anything, NULL too.
 * The calls keep nothing, allocate nothing and may run side by side.
 */
#ifndef CDSAT_H
#define CDSAT_H

#include <stddef.h>
#include <stdint.h>

#ifdef __cplusplus
extern "C" {
#endif

#define CDSAT_BLANK 65535

/* The greatest number of rows of each sheet. */
#define CDSAT_MAX_SORTS 32
#define CDSAT_MAX_TERMS 256
#define CDSAT_MAX_INPUTS 256
#define CDSAT_MAX_STEPS 65535
#define CDSAT_MAX_TEXT_STEPS 1024

/* Numbers in a row of each sheet, and in an entry of the trail. */
#define CDSAT_SORT_COLUMNS 2
#define CDSAT_TERM_COLUMNS 6
#define CDSAT_INPUT_COLUMNS 2
#define CDSAT_STEP_COLUMNS 9
#define CDSAT_ENTRY_COLUMNS 4

/* The least lengths of the two buffers for a problem of n term rows: words of
 * the workspace and numbers of the trail buffer. */
#define CDSAT_WORK_WORDS(n) (8 * (size_t)(n) + 12)
#define CDSAT_TRAIL_NUMBERS(n) (4 * (size_t)(n))

/* Heads; free heads go from CDSAT_FREE to CDSAT_LAST_FREE. */
enum cdsat_head {
    CDSAT_EQ = 0,
    CDSAT_NOT = 1,
    CDSAT_AND = 2,
    CDSAT_OR = 3,
    CDSAT_SELECT = 4,
    CDSAT_STORE = 5,
    CDSAT_FREE = 16,
    CDSAT_LAST_FREE = 65534
};

/* Steps. decide gives a value to a term that has none. Where the term is no
 * prop, the value must fit every equation on the trail, whatever put it there,
 * with the term on one side and one that has a value on the other: the same
 * value where the equation is true, another where it is false. Else the step is
 * refused with 27, and so is every value where the term's equation with itself
 * is false.
 *
 * clash and fail have the same columns: a rule gives a term one value, and the
 * trail has the other. fail is for premises and opposite that are all at level 0,
 * where nothing they rest on was decided: it refutes the input and ends the run.
 * clash is for those above level 0: it opens a conflict, which resolve, clear,
 * jump, flip and learn work on. Either in the other's place is refused with 26.
 *
 * learn takes the clause, an or or an and, in the term column, a level in the
 * value column, and in the first two to four premise columns different members
 * of the conflict, one for each argument of the clause; the rule column and the
 * fifth premise are blank. In an or a member that is true on the trail appears
 * as its not, one that is false as itself, and the or becomes true; in an and
 * it is the reverse, and the and becomes false. The trail is kept to the level,
 * which is at least that of the other members and below the greatest of the
 * named ones. The clause itself has the level of the other members.
 */
enum cdsat_step {
    CDSAT_DECIDE = 0,
    CDSAT_DEDUCE = 1,
    CDSAT_CLASH = 2,
    CDSAT_RESOLVE = 3,
    CDSAT_CLEAR = 4,
    CDSAT_JUMP = 5,
    CDSAT_FLIP = 6,
    CDSAT_FAIL = 7,
    CDSAT_LEARN = 8
};

/* Rules of deduce, clash and fail.
 *
 * deep is eval through several layers: the term is a formula of not, and, or,
 * and the premises, in any order, are those that a walk down from it comes to. A
 * row that is a premise has its value there; every other not, and, or takes its
 * own from all its arguments. At most eight of these lie on a path, the term
 * being the first. Where a path ends at another row, a premise is not met or the
 * value is another, the step is refused with 13.
 */
enum cdsat_rule {
    CDSAT_RULE_SAME = 0,
    CDSAT_RULE_DIFFER = 1,
    CDSAT_RULE_REFL = 2,
    CDSAT_RULE_SYM = 3,
    CDSAT_RULE_TRANS = 4,
    CDSAT_RULE_NEG = 5,
    CDSAT_RULE_PART = 6,
    CDSAT_RULE_UNIT = 7,
    CDSAT_RULE_EVAL = 8,
    CDSAT_RULE_CONG = 9,
    CDSAT_RULE_PRED = 10,
    CDSAT_RULE_READ = 11,
    CDSAT_RULE_SKIP = 12,
    CDSAT_RULE_DEEP = 13
};

/* Verdicts. */
enum cdsat_verdict {
    CDSAT_OPEN = 0,    /* all steps allowed, no refutation */
    CDSAT_REFUTED = 1, /* the input is refuted */
    CDSAT_REFUSED = 2  /* see the number */
};

/* Why a text is malformed. */
enum cdsat_why {
    CDSAT_WHY_FINE = 0,   /* it is not: the number is not 31 */
    CDSAT_WHY_MARK = 1,   /* a byte order mark before the header */
    CDSAT_WHY_RETURN = 2, /* a carriage return in the line */
    CDSAT_WHY_LONG = 3,   /* more than 525 bytes */
    CDSAT_WHY_HEADER = 4, /* not the sheet's header line */
    CDSAT_WHY_EMPTY = 5,  /* an empty line after the last sheet */
    CDSAT_WHY_BYTE = 6,   /* a tab or another byte that no field may have */
    CDSAT_WHY_FIELDS = 7, /* another count of fields, or not single spaces */
    CDSAT_WHY_NAME = 8,   /* a name of more than 64 bytes */
    CDSAT_WHY_VALUE = 9,  /* neither true, false, - nor a number to 65534 */
    CDSAT_WHY_EARLY = 10, /* the text ends before the step sheet's header */
    CDSAT_WHY_CUT = 11    /* the last line has no newline */
};

/* The result of a run.
 *
 * The number is 0 for no trouble. 1 to 8: the sort, term and input sheets.
 * 9 to 23 and 25 to 27: the first step that is not allowed; 25 is a learn whose
 * clause does not match the members, or that names one twice; 26 is a clash at
 * level 0, where fail was meant, or a fail above it, where clash was meant; 27 is
 * a decide whose value contradicts an equation on the trail. 30: a sheet with too
 * many rows. 31: a length that is no whole number of rows. 32: a buffer too
 * short. From cdsat_check it can also be a number of cdsat_read.
 *
 * The place says where a step went wrong that is refused with 11, 12 or 13: a
 * column of its row, from 1 for the step to 9 for the fifth premise. For 11 (no
 * such row) and 12 (a premise not on the trail) it is the first column with the
 * fault. For 13 (the rule does not fit) it is the first, from the term on, after
 * which no value, rows and blanks to its right fit the rule: 3 where the rule
 * never gives the term a value, 4 where it never gives it this one, else the
 * premise that is wrong, missing or one too many. With CDSAT_RULE_DEEP it is 3,
 * always. With every other number the place is 0.
 */
typedef struct {
    uint16_t verdict; /* enum cdsat_verdict */
    uint16_t steps;   /* steps allowed; a refused step is the one after them */
    uint16_t number;
    uint16_t entries; /* entries on the trail */
    uint16_t place;   /* with 11, 12 and 13 a column of the refused step, else 0 */
} cdsat_outcome;

/* Runs the steps of a log.
 *
 * Lengths count numbers, for the workspace words. The workspace is all zero
 * afterwards, whatever it held. The trail buffer gets four numbers for each
 * entry, oldest first: term, value, level, and 1 for a decision or 0; what
 * follows them is untouched. With the numbers 30, 31 and 32 nothing is written;
 * with 1 to 8 the trail buffer is left alone.
 */
cdsat_outcome cdsat_run(const uint16_t *sorts, size_t sorts_len,
                        const uint16_t *terms, size_t terms_len,
                        const uint16_t *inputs, size_t inputs_len,
                        const uint16_t *steps, size_t steps_len,
                        uint64_t *work, size_t work_len,
                        uint16_t *trail, size_t trail_len);

/* The result of reading a text.
 *
 * The number is 0 for no trouble, else 2 (a name repeated or reserved), 30 (a
 * line too many), 31 (a malformed line or an early end) or 32 (a sheet too
 * short). The line is the first bad one, counted from 1, or 0; the place is the
 * field of that line at fault, counted from 1, or 0 for the line as a whole.
 */
typedef struct {
    uint16_t number;
    uint16_t rows[4]; /* of the sort, term, input and step sheet; 0 with trouble */
    uint16_t why;     /* enum cdsat_why; not 0 exactly with number 31 */
    uint64_t line;
    uint64_t place;
} cdsat_read_result;

/* Reads a text into the four sheets, which hold the rows and then zeros, or only
 * zeros if the number is not 0. Lengths count bytes for the text, numbers for the
 * sheets. Sheets of CDSAT_MAX_.. * CDSAT_.._COLUMNS numbers hold every text
 * (CDSAT_MAX_TEXT_STEPS for the steps).
 *
 * To run what was read, pass sheet i with the length rows[i] times its columns,
 * not the length that was lent: the zeros behind the rows would be rows too, and
 * the answer would be the number 1, a sort row that breaks the rule for sorts.
 *
 * Uses about 60 KiB of the stack.
 */
cdsat_read_result cdsat_read(const uint8_t *text, size_t text_len,
                             uint16_t *sorts, size_t sorts_len,
                             uint16_t *terms, size_t terms_len,
                             uint16_t *inputs, size_t inputs_len,
                             uint16_t *steps, size_t steps_len);

/* So many bytes hold every line that cdsat_check says, and a zero behind it. */
#define CDSAT_SAID 256

/* Reads a text and runs its log, with sheets and buffers of its own.
 *
 * The result is that of the run. A text that cannot be read is refused with the
 * reader's number, 0 steps, 0 entries and place 0; 32 cannot come.
 *
 * For a refusal said gets one line for a person, which ends with a newline: the
 * line of the text at fault, the field of a line that cannot be read or the place
 * of a step, the number and what it means, for 26 which line was meant, and for 31
 * why. Three examples:
 *
 *   line 12, field 5: 13 the rule does not fit
 *   line 17: 26 fail is the line at level 0, clash the one above it: fail was meant
 *   line 28, field 2: 31 malformed: a name of more than 64 bytes
 *
 * Zeros fill the rest, and all of it where nothing is refused. Of a line longer
 * than said_len the first said_len bytes are there, without a zero behind them.
 *
 * Uses about 100 KiB of the stack.
 */
cdsat_outcome cdsat_check(const uint8_t *text, size_t text_len,
                          uint8_t *said, size_t said_len);

#ifdef __cplusplus
}
#endif

/* A complete program: it checks the log in a file, then reads and runs it to
 * print the trail too. `sed -n 's/^ [*]| \{0,1\}//p' cdsat.h` takes it out.
 *
 *| #include <stdio.h>
 *| #include "cdsat.h"
 *|
 *| static uint8_t text[1 << 20], said[CDSAT_SAID];
 *| static uint16_t sorts[CDSAT_MAX_SORTS * CDSAT_SORT_COLUMNS];
 *| static uint16_t terms[CDSAT_MAX_TERMS * CDSAT_TERM_COLUMNS];
 *| static uint16_t inputs[CDSAT_MAX_INPUTS * CDSAT_INPUT_COLUMNS];
 *| static uint16_t steps[CDSAT_MAX_TEXT_STEPS * CDSAT_STEP_COLUMNS];
 *| static uint64_t work[CDSAT_WORK_WORDS(CDSAT_MAX_TERMS)];
 *| static uint16_t trail[CDSAT_TRAIL_NUMBERS(CDSAT_MAX_TERMS)];
 *|
 *| #define LENGTH(array) (sizeof(array) / sizeof *(array))
 *|
 *| int main(int argc, char **argv) {
 *|     FILE *file = argc == 2 ? fopen(argv[1], "rb") : NULL;
 *|     size_t length = file ? fread(text, 1, sizeof text, file) : 0;
 *|     if (!file || ferror(file) || !feof(file)) {
 *|         fputs("name one file of less than 1 MiB\n", stderr);
 *|         return 3;
 *|     }
 *|     fclose(file);
 *|
 *|     cdsat_outcome o = cdsat_check(text, length, said, sizeof said);
 *|     printf("verdict %u, steps %u, number %u, entries %u, place %u\n",
 *|            o.verdict, o.steps, o.number, o.entries, o.place);
 *|     fputs((const char *)said, stderr);
 *|
 *|     cdsat_read_result r = cdsat_read(text, length,
 *|         sorts, LENGTH(sorts), terms, LENGTH(terms),
 *|         inputs, LENGTH(inputs), steps, LENGTH(steps));
 *|     if (r.number != 0)
 *|         return CDSAT_REFUSED;
 *|     o = cdsat_run(sorts, r.rows[0] * CDSAT_SORT_COLUMNS,
 *|         terms, r.rows[1] * CDSAT_TERM_COLUMNS,
 *|         inputs, r.rows[2] * CDSAT_INPUT_COLUMNS,
 *|         steps, r.rows[3] * CDSAT_STEP_COLUMNS,
 *|         work, LENGTH(work), trail, LENGTH(trail));
 *|     for (size_t i = 0; i < o.entries; i++) {
 *|         const uint16_t *entry = trail + i * CDSAT_ENTRY_COLUMNS;
 *|         printf("term %u has value %u at level %u%s\n",
 *|                entry[0], entry[1], entry[2], entry[3] ? ", decided" : "");
 *|     }
 *|     return o.verdict;
 *| }
 */

#endif
