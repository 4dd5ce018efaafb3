/* Calls the three functions of cdsat.h from C and compares all that they answer and write. */
#include "cdsat.h"

#include <stdio.h>
#include <string.h>

_Static_assert(sizeof(cdsat_outcome) == 10, "cdsat_outcome");
_Static_assert(offsetof(cdsat_outcome, verdict) == 0, "verdict");
_Static_assert(offsetof(cdsat_outcome, steps) == 2, "steps");
_Static_assert(offsetof(cdsat_outcome, number) == 4, "number");
_Static_assert(offsetof(cdsat_outcome, entries) == 6, "entries");
_Static_assert(offsetof(cdsat_outcome, place) == 8, "place");
_Static_assert(sizeof(cdsat_read_result) == 32, "cdsat_read_result");
_Static_assert(offsetof(cdsat_read_result, number) == 0, "number");
_Static_assert(offsetof(cdsat_read_result, rows) == 2, "rows");
_Static_assert(offsetof(cdsat_read_result, why) == 10, "why");
_Static_assert(offsetof(cdsat_read_result, line) == 16, "line");
_Static_assert(offsetof(cdsat_read_result, place) == 24, "place");

_Static_assert(CDSAT_BLANK == 65535, "blank");
_Static_assert(CDSAT_MAX_SORTS == 32 && CDSAT_MAX_TERMS == 256 && CDSAT_MAX_INPUTS == 256, "ceilings");
_Static_assert(CDSAT_MAX_STEPS == 65535 && CDSAT_MAX_TEXT_STEPS == 1024, "ceilings of steps");
_Static_assert(CDSAT_SORT_COLUMNS == 2 && CDSAT_TERM_COLUMNS == 6, "columns");
_Static_assert(CDSAT_INPUT_COLUMNS == 2 && CDSAT_STEP_COLUMNS == 9 && CDSAT_ENTRY_COLUMNS == 4, "columns");
_Static_assert(CDSAT_WORK_WORDS(256) == 2060 && CDSAT_TRAIL_NUMBERS(256) == 1024, "buffers");
_Static_assert(CDSAT_EQ == 0 && CDSAT_STORE == 5 && CDSAT_FREE == 16 && CDSAT_LAST_FREE == 65534, "heads");
_Static_assert(CDSAT_DECIDE == 0 && CDSAT_CLASH == 2 && CDSAT_FLIP == 6 && CDSAT_FAIL == 7 && CDSAT_LEARN == 8, "steps");
_Static_assert(CDSAT_RULE_SAME == 0 && CDSAT_RULE_SKIP == 12 && CDSAT_RULE_DEEP == 13, "rules");
_Static_assert(CDSAT_OPEN == 0 && CDSAT_REFUTED == 1 && CDSAT_REFUSED == 2, "verdicts");
_Static_assert(CDSAT_WHY_FINE == 0 && CDSAT_WHY_CUT == 11 && CDSAT_SAID == 256, "causes");

#define LENGTH(array) (sizeof(array) / sizeof *(array))
#define B CDSAT_BLANK

/* Document 01's listing, in parts. */
#define SORTS "sort index value\nS - -\n\n"
#define ROWS \
    "term head sort a b c d\na A S - - - -\nb B S - - - -\ne eq prop a b - -\n" \
    "fa F S a - - -\nfb F S b - - -\ng eq prop fa fb - -\n"
#define TERMS ROWS "\n"
#define STEPS "step rule term value p q r s t\n"
#define INPUTS "term value\ne true\ng false\n\n"
#define LISTING SORTS TERMS INPUTS STEPS "fail cong g true e - - - -\n"
/* A conflict of e, true at level 1, and g, false at level 2; l is the clause for them. The next row is the fourth step, on line 20. */
#define CONFLICT \
    SORTS ROWS "n not prop e - - -\nl or prop n g - -\n\nterm value\n\n" STEPS \
    "decide - e true - - - - -\ndecide - g false - - - - -\nclash cong g true e - - - -\n"
/* A formula m of three layers over e and g, of which e is true and g false: o is false, and m is true. The first step is on line 21. */
#define FORMULA \
    SORTS ROWS "n not prop e - - -\no or prop n g - -\nm not prop o - - -\n\nterm value\ne true\ng false\nm false\n\n" STEPS
#define HEADERS "sort index value\n\nterm head sort a b c d\n\nterm value\n\n" STEPS

/* The sheets and buffers that are lent, full of old contents. */
static uint16_t sorts[CDSAT_MAX_SORTS * CDSAT_SORT_COLUMNS];
static uint16_t terms[CDSAT_MAX_TERMS * CDSAT_TERM_COLUMNS + CDSAT_TERM_COLUMNS];
static uint16_t inputs[CDSAT_MAX_INPUTS * CDSAT_INPUT_COLUMNS];
static uint16_t steps[CDSAT_MAX_TEXT_STEPS * CDSAT_STEP_COLUMNS];
static uint64_t work[CDSAT_WORK_WORDS(CDSAT_MAX_TERMS)];
static uint16_t trail[CDSAT_TRAIL_NUMBERS(CDSAT_MAX_TERMS)];

static unsigned passed, failed;

/* One comparison of two numbers. */
static void same(const char *what, const char *part, uint64_t got, uint64_t wanted) {
    if (got == wanted) {
        passed++;
    } else {
        failed++;
        printf("differs: %s: %s is %llu, not %llu\n", what, part, (unsigned long long)got, (unsigned long long)wanted);
    }
}

/* One comparison of so many bytes. */
static void same_bytes(const char *what, const void *got, const void *wanted, size_t size) {
    same(what, "whether the bytes are as expected", size == 0 || memcmp(got, wanted, size) == 0, 1);
}

/* How many bytes are not b. */
static size_t others(const void *from, size_t size, unsigned char b) {
    const unsigned char *bytes = from;
    size_t count = 0;
    for (size_t i = 0; i < size; i++)
        count += bytes[i] != b;
    return count;
}

static void same_outcome(const char *what, cdsat_outcome got, cdsat_outcome wanted) {
    same(what, "verdict", got.verdict, wanted.verdict);
    same(what, "steps", got.steps, wanted.steps);
    same(what, "number", got.number, wanted.number);
    same(what, "entries", got.entries, wanted.entries);
    same(what, "place", got.place, wanted.place);
}

/* An outcome without a place. */
static cdsat_outcome outcome(unsigned verdict, unsigned count, unsigned number, unsigned entries) {
    cdsat_outcome o = {(uint16_t)verdict, (uint16_t)count, (uint16_t)number, (uint16_t)entries, 0};
    return o;
}

static void soil(void) {
    memset(sorts, 0xaa, sizeof sorts);
    memset(terms, 0xaa, sizeof terms);
    memset(inputs, 0xaa, sizeof inputs);
    memset(steps, 0xaa, sizeof steps);
    memset(work, 0xaa, sizeof work);
    memset(trail, 0xaa, sizeof trail);
}

static cdsat_read_result read_text(const char *text, size_t length) {
    soil();
    return cdsat_read((const uint8_t *)text, length, sorts, LENGTH(sorts), terms, LENGTH(terms), inputs, LENGTH(inputs), steps, LENGTH(steps));
}

/* The listing's rows in every sheet, and zeros behind them. */
static void test_read(void) {
    static const uint16_t want_sorts[LENGTH(sorts)] = {B, B};
    static const uint16_t want_terms[LENGTH(terms)] = {
        CDSAT_FREE, 1, B, B, B, B, CDSAT_FREE + 1, 1, B, B, B, B, CDSAT_EQ, 0, 0, 1, B, B,
        CDSAT_FREE + 2, 1, 0, B, B, B, CDSAT_FREE + 2, 1, 1, B, B, B, CDSAT_EQ, 0, 3, 4, B, B};
    static const uint16_t want_inputs[LENGTH(inputs)] = {2, 1, 5, 0};
    static const uint16_t want_steps[LENGTH(steps)] = {CDSAT_FAIL, CDSAT_RULE_CONG, 5, 1, 2, B, B, B, B};
    static const uint16_t want_rows[4] = {1, 6, 2, 1};
    cdsat_read_result r = read_text(LISTING, strlen(LISTING));
    same("listing read", "number", r.number, 0);
    same("listing read", "why", r.why, CDSAT_WHY_FINE);
    same("listing read", "line", r.line, 0);
    same("listing read", "place", r.place, 0);
    same_bytes("listing read: rows", r.rows, want_rows, sizeof want_rows);
    same_bytes("listing read: sorts", sorts, want_sorts, sizeof sorts);
    same_bytes("listing read: terms", terms, want_terms, sizeof terms);
    same_bytes("listing read: inputs", inputs, want_inputs, sizeof inputs);
    same_bytes("listing read: steps", steps, want_steps, sizeof steps);
}

/* The sheets that were read, cut to their rows; then whole, where the zeros are rows. */
static void test_run(void) {
    static const uint16_t want_trail[] = {2, 1, 0, 0, 5, 0, 0, 0};
    cdsat_read_result r = read_text(LISTING, strlen(LISTING));
    size_t n = r.rows[1];
    cdsat_outcome o = cdsat_run(
        sorts, r.rows[0] * CDSAT_SORT_COLUMNS, terms, n * CDSAT_TERM_COLUMNS, inputs, r.rows[2] * CDSAT_INPUT_COLUMNS,
        steps, r.rows[3] * CDSAT_STEP_COLUMNS, work, CDSAT_WORK_WORDS(n), trail, CDSAT_TRAIL_NUMBERS(n));
    same_outcome("listing run", o, outcome(CDSAT_REFUTED, 1, 0, 2));
    same_bytes("listing run: trail", trail, want_trail, sizeof want_trail);
    same("listing run", "trail behind the entries", others(trail + 8, sizeof trail - 16, 0xaa), 0);
    same("listing run", "workspace", others(work, 8 * CDSAT_WORK_WORDS(n), 0), 0);
    same("listing run", "what lies behind the workspace", others(work + CDSAT_WORK_WORDS(n), sizeof work - 8 * CDSAT_WORK_WORDS(n), 0xaa), 0);
    o = cdsat_run(
        sorts, LENGTH(sorts), terms, CDSAT_MAX_TERMS * CDSAT_TERM_COLUMNS, inputs, LENGTH(inputs), steps, LENGTH(steps),
        work, LENGTH(work), trail, LENGTH(trail));
    same_outcome("listing run with whole sheets", o, outcome(CDSAT_REFUSED, 0, 1, 0));
}

/* The listing's row with the numbers of other steps: clash at level 0, learn, which has other columns, and the first that no step has. */
static void test_steps(void) {
    static const struct {
        const char *what;
        unsigned step, number;
    } rows[] = {{"the listing as a clash", CDSAT_CLASH, 26}, {"the listing as a learn", CDSAT_LEARN, 9}, {"the listing as step 9", CDSAT_LEARN + 1, 9}};
    for (size_t i = 0; i < LENGTH(rows); i++) {
        read_text(LISTING, strlen(LISTING));
        steps[0] = (uint16_t)rows[i].step;
        cdsat_outcome o = cdsat_run(
            sorts, 2, terms, 36, inputs, 4, steps, CDSAT_STEP_COLUMNS, work, CDSAT_WORK_WORDS(6), trail, CDSAT_TRAIL_NUMBERS(6));
        same_outcome(rows[i].what, o, outcome(CDSAT_REFUSED, 0, rows[i].number, 2));
    }
}

/* The listing's row as a deduce, a clash and a fail, with other columns: where it went wrong. Rows 2 and 5 are on the trail, the others are not. */
static void test_places(void) {
    static const struct {
        const char *what;
        uint16_t rule, term, value, premises[5];
        unsigned number, place;
    } rows[] = {
        {"a term that is no row", CDSAT_RULE_CONG, 6, 1, {6, 0, B, B, B}, 11, 3},
        {"a premise that is no row", CDSAT_RULE_CONG, 5, 1, {6, 6, B, B, B}, 11, 5},
        {"a third premise that is no row", CDSAT_RULE_CONG, 5, 1, {2, 0, 6, B, B}, 11, 7},
        {"a fifth premise that is no row", CDSAT_RULE_CONG, 5, 1, {2, 2, 2, 2, 65534}, 11, 9},
        {"a premise not on the trail", CDSAT_RULE_CONG, 5, 1, {0, 1, B, B, B}, 12, 5},
        {"a fourth premise not on the trail", CDSAT_RULE_CONG, 5, 1, {2, 5, 2, 1, B}, 12, 8},
        {"a fifth premise not on the trail", CDSAT_RULE_REFL, 5, 0, {2, 5, 2, 5, 0}, 12, 9},
        {"a rule that never gives the term", CDSAT_RULE_REFL, 5, 1, {B, B, B, B, B}, 13, 3},
        {"a rule that never gives the value", CDSAT_RULE_CONG, 5, 0, {2, B, B, B, B}, 13, 4},
        {"a premise that is missing", CDSAT_RULE_CONG, 5, 1, {B, B, B, B, B}, 13, 5},
        {"another premise", CDSAT_RULE_CONG, 5, 1, {5, 2, B, B, B}, 13, 5},
        {"a premise too many", CDSAT_RULE_CONG, 5, 1, {2, 2, B, B, B}, 13, 6},
        {"a term that is no prop, from no row", CDSAT_RULE_CONG, 0, 1, {6, B, B, B, B}, 11, 5},
        {"a term that is no prop", CDSAT_RULE_CONG, 0, 1, {0, B, B, B, B}, 22, 0},
        {"deep of an equality", CDSAT_RULE_DEEP, 5, 1, {2, B, B, B, B}, 13, 3},
        {"deep of itself with the other value", CDSAT_RULE_DEEP, 5, 1, {5, 5, B, B, B}, 13, 3},
        {"deep of itself beside another", CDSAT_RULE_DEEP, 5, 0, {5, 2, B, B, B}, 13, 3},
        {"deep without a premise", CDSAT_RULE_DEEP, 5, 1, {B, B, B, B, B}, 13, 3},
        {"deep from a premise not on the trail", CDSAT_RULE_DEEP, 5, 1, {2, 5, 3, B, B}, 12, 7},
        {"deep of a term that is no prop", CDSAT_RULE_DEEP, 0, 1, {2, B, B, B, B}, 22, 0},
        {"deep of no row", CDSAT_RULE_DEEP, 6, 1, {2, B, B, B, B}, 11, 3},
        {"a rule that there is not", CDSAT_RULE_DEEP + 1, 6, 1, {6, B, B, B, B}, 9, 0},
    };
    static const uint16_t kinds[] = {CDSAT_DEDUCE, CDSAT_CLASH, CDSAT_FAIL}, want_trail[] = {2, 1, 0, 0, 5, 0, 0, 0};
    for (size_t i = 0; i < LENGTH(rows) * LENGTH(kinds); i++) {
        size_t at = i / LENGTH(kinds);
        cdsat_outcome wanted = outcome(CDSAT_REFUSED, 0, rows[at].number, 2);
        wanted.place = (uint16_t)rows[at].place;
        read_text(LISTING, strlen(LISTING));
        steps[0] = kinds[i % LENGTH(kinds)];
        steps[1] = rows[at].rule;
        steps[2] = rows[at].term;
        steps[3] = rows[at].value;
        memcpy(steps + 4, rows[at].premises, sizeof rows[at].premises);
        cdsat_outcome o = cdsat_run(
            sorts, 2, terms, 36, inputs, 4, steps, CDSAT_STEP_COLUMNS, work, CDSAT_WORK_WORDS(6), trail, CDSAT_TRAIL_NUMBERS(6));
        same_outcome(rows[at].what, o, wanted);
        same_bytes(rows[at].what, trail, want_trail, sizeof want_trail);
        same(rows[at].what, "workspace", others(work, 8 * CDSAT_WORK_WORDS(6), 0), 0);
    }
}

/* A decide row over the listing's terms, where e, row 2, is given and a or b, row 0 or 1, has 7: allowed, and with every number that a decide can get in
 * a search. What is refused leaves the trail as it was. */
static void test_decide(void) {
    static const struct {
        const char *what;
        uint16_t equation, given, term, value;
        unsigned number;
    } rows[] = {
        {"decide what differs, to the right", 0, 0, 1, 8, 0},
        {"decide what differs, to the left", 0, 1, 0, 8, 0},
        {"decide the greatest value", 0, 0, 1, CDSAT_BLANK - 1, 0},
        {"decide what is equal, to the right", 1, 0, 1, 7, 0},
        {"decide what is equal, to the left", 1, 1, 0, 7, 0},
        {"decide a side of no equation on the trail", 0, 0, 3, 7, 0},
        {"decide a prop", 0, 0, 5, 1, 0},
        {"decide what should differ, to the right", 0, 0, 1, 7, 27},
        {"decide what should differ, to the left", 0, 1, 0, 7, 27},
        {"decide what should be equal, to the right", 1, 0, 1, 8, 27},
        {"decide what should be equal, to the left", 1, 1, 0, 8, 27},
        {"decide 0 where it should be equal", 1, 0, 1, 0, 27},
        {"decide the greatest value where it should be equal", 1, 0, 1, CDSAT_BLANK - 1, 27},
        {"decide what has a value", 0, 1, 1, 7, 14},
        {"decide what has another value", 1, 1, 1, 8, 14},
        {"decide a prop that has a value", 0, 0, 2, 1, 14},
        {"decide a prop as 2", 0, 0, 5, 2, 22},
        {"decide what is no row", 0, 0, 6, 7, 11},
        {"decide without a value", 0, 0, 1, B, 9},
    };
    for (size_t i = 0; i < LENGTH(rows); i++) {
        unsigned allowed = rows[i].number == 0;
        const uint16_t given[] = {2, rows[i].equation, rows[i].given, 7};
        const uint16_t row[] = {CDSAT_DECIDE, B, rows[i].term, rows[i].value, B, B, B, B, B};
        const uint16_t want_trail[] = {2, rows[i].equation, 0, 0, rows[i].given, 7, 0, 0, rows[i].term, rows[i].value, 1, 1};
        cdsat_outcome wanted = outcome(allowed ? CDSAT_OPEN : CDSAT_REFUSED, allowed, rows[i].number, 2 + allowed);
        wanted.place = rows[i].number == 11 ? 3 : 0;
        read_text(LISTING, strlen(LISTING));
        memcpy(inputs, given, sizeof given);
        memcpy(steps, row, sizeof row);
        cdsat_outcome o = cdsat_run(
            sorts, 2, terms, 36, inputs, 4, steps, CDSAT_STEP_COLUMNS, work, CDSAT_WORK_WORDS(6), trail, CDSAT_TRAIL_NUMBERS(6));
        same_outcome(rows[i].what, o, wanted);
        same_bytes(rows[i].what, trail, want_trail, 16 + 8 * allowed);
        same(rows[i].what, "trail behind the entries", others(trail + 4 * o.entries, sizeof trail - 8 * (size_t)o.entries, 0xaa), 0);
        same(rows[i].what, "workspace", others(work, 8 * CDSAT_WORK_WORDS(6), 0), 0);
    }
}

/* A learn row, allowed at both levels that it may keep the trail to; then with one column after the other changed, which leaves the trail as it was. */
static void test_learn(void) {
    static const char text[] = CONFLICT "learn - l 1 e g - - -\n";
    static const uint16_t want_steps[] = {CDSAT_LEARN, B, 7, 1, 2, 5, B, B, B};
    static const uint16_t kept[] = {2, 1, 1, 1, 7, 1, 0, 0}, conflict[] = {2, 1, 1, 1, 5, 0, 2, 1};
    static const struct {
        const char *what;
        unsigned column, number, code, entries;
        const uint16_t *trail;
    } rows[] = {
        {"learn", 0, CDSAT_LEARN, 0, 2, kept},
        {"learn at level 0", 3, 0, 0, 1, kept + 4},
        {"learn as step 9", 0, CDSAT_LEARN + 1, 9, 2, conflict},
        {"learn with a rule", 1, CDSAT_RULE_UNIT, 9, 2, conflict},
        {"learn without a term", 2, B, 9, 2, conflict},
        {"learn without a level", 3, B, 9, 2, conflict},
        {"learn with one member", 5, B, 9, 2, conflict},
        {"learn with a gap", 7, 5, 9, 2, conflict},
        {"learn with a fifth premise", 8, 5, 9, 2, conflict},
        {"learn of no row", 2, 8, 11, 2, conflict},
        {"learn with a member that is no row", 4, 8, 11, 2, conflict},
        {"learn with a second member that is no row", 5, 8, 11, 2, conflict},
        {"learn with a third member that is no row", 6, 8, 11, 2, conflict},
        {"learn with a member outside the conflict", 5, 6, 17, 2, conflict},
        {"learn of a not", 2, 6, 22, 2, conflict},
        {"learn with a member twice", 5, 2, 25, 2, conflict},
        {"learn with a member again", 6, 2, 25, 2, conflict},
        {"learn at the members' level", 3, 2, 21, 2, conflict},
        {"learn at the greatest level", 3, CDSAT_BLANK - 1, 21, 2, conflict},
    };
    for (size_t i = 0; i < LENGTH(rows); i++) {
        cdsat_read_result r = read_text(text, strlen(text));
        size_t n = r.rows[1];
        uint16_t *row = steps + 3 * CDSAT_STEP_COLUMNS;
        unsigned allowed = rows[i].code == 0;
        same_bytes("learn read", row, want_steps, sizeof want_steps);
        row[rows[i].column] = (uint16_t)rows[i].number;
        cdsat_outcome o = cdsat_run(
            sorts, r.rows[0] * CDSAT_SORT_COLUMNS, terms, n * CDSAT_TERM_COLUMNS, inputs, r.rows[2] * CDSAT_INPUT_COLUMNS,
            steps, r.rows[3] * CDSAT_STEP_COLUMNS, work, CDSAT_WORK_WORDS(n), trail, CDSAT_TRAIL_NUMBERS(n));
        cdsat_outcome wanted = outcome(allowed ? CDSAT_OPEN : CDSAT_REFUSED, 3 + allowed, rows[i].code, rows[i].entries);
        wanted.place = (uint16_t)(rows[i].code == 11 ? rows[i].column + 1 : 0);
        same_outcome(rows[i].what, o, wanted);
        same_bytes(rows[i].what, trail, rows[i].trail, 8 * rows[i].entries);
        same(rows[i].what, "trail behind the entries", others(trail + 4 * o.entries, sizeof trail - 8 * (size_t)o.entries, 0xaa), 0);
        same(rows[i].what, "workspace", others(work, 8 * CDSAT_WORK_WORDS(n), 0), 0);
    }
}

/* The numbers of lengths, each at its border, where nothing is written. */
static void test_lengths(void) {
    size_t n = 6, w = CDSAT_WORK_WORDS(n), t = CDSAT_TRAIL_NUMBERS(n);
    read_text(LISTING, strlen(LISTING));
    same_outcome("31", cdsat_run(sorts, 1, terms, 36, inputs, 4, steps, 9, work, w, trail, t), outcome(CDSAT_REFUSED, 0, 31, 0));
    same_outcome("30 terms", cdsat_run(sorts, 2, terms, 257 * 6, inputs, 4, steps, 9, work, w, trail, t), outcome(CDSAT_REFUSED, 0, 30, 0));
    same_outcome("32 work", cdsat_run(sorts, 2, terms, 36, inputs, 4, steps, 9, work, w - 1, trail, t), outcome(CDSAT_REFUSED, 0, 32, 0));
    same_outcome("32 trail", cdsat_run(sorts, 2, terms, 36, inputs, 4, steps, 9, work, w, trail, t - 1), outcome(CDSAT_REFUSED, 0, 32, 0));
    same("lengths", "workspace", others(work, sizeof work, 0xaa), 0);
    same("lengths", "trail", others(trail, sizeof trail, 0xaa), 0);
    same_outcome("no step", cdsat_run(sorts, 2, terms, 36, inputs, 4, steps, 0, work, w, trail, t), outcome(CDSAT_OPEN, 0, 0, 2));
}

/* A text that cannot be read, what cdsat_read says of it and what cdsat_check says. */
struct bad {
    const char *what, *text;
    unsigned number, why, line, place;
    const char *said;
};

#define NAME_65 "xxxxxxxxxxxxxxxxxxxxxxxxxxxxxxxxxxxxxxxxxxxxxxxxxxxxxxxxxxxxxxxxx"
#define TEN_65 NAME_65 NAME_65 NAME_65 NAME_65 NAME_65 NAME_65 NAME_65 NAME_65 NAME_65 NAME_65

static const struct bad bad_texts[] = {
    {"mark", "\xef\xbb\xbf" LISTING, 31, CDSAT_WHY_MARK, 1, 0, "line 1: 31 malformed: a byte order mark stands before the header\n"},
    {"return", "sort index value\r\n", 31, CDSAT_WHY_RETURN, 1, 0, "line 1: 31 malformed: a carriage return, where lines end with a newline alone\n"},
    {"long", SORTS "term head sort a b c d\n" TEN_65 "\n", 31, CDSAT_WHY_LONG, 5, 0, "line 5: 31 malformed: the line has more than 525 bytes\n"},
    {"header", "sorts\n", 31, CDSAT_WHY_HEADER, 1, 0, "line 1: 31 malformed: this is not the sheet's header line\n"},
    {"empty", LISTING "\n", 31, CDSAT_WHY_EMPTY, 18, 0, "line 18: 31 malformed: an empty line after the last sheet\n"},
    {"byte", "sort index value\nS\t- -\n", 31, CDSAT_WHY_BYTE, 2, 0, "line 2: 31 malformed: a tab or another byte that no field may have\n"},
    {"fields", "sort index value\nS -\n", 31, CDSAT_WHY_FIELDS, 2, 0,
     "line 2: 31 malformed: not as many fields as the sheet has columns, or not single spaces\n"},
    {"name", "sort index value\nS - " NAME_65 "\n", 31, CDSAT_WHY_NAME, 2, 3, "line 2, field 3: 31 malformed: a name of more than 64 bytes\n"},
    {"value", SORTS TERMS "term value\ne 01\n", 31, CDSAT_WHY_VALUE, 13, 2,
     "line 13, field 2: 31 malformed: neither true, false, - nor a number up to 65534 without leading zeros\n"},
    {"early", SORTS, 31, CDSAT_WHY_EARLY, 4, 0, "line 4: 31 malformed: the text ends before the header of the step sheet\n"},
    {"cut", LISTING "decide", 31, CDSAT_WHY_CUT, 18, 0, "line 18: 31 malformed: the last line has no newline\n"},
    {"a name twice", "sort index value\nS - -\nS - -\n", 2, CDSAT_WHY_FINE, 3, 1, "line 3, field 1: 2 a name is repeated or reserved\n"},
};

/* The line that cdsat_check says, in buffers of every length to CDSAT_SAID: cut where they are short, zeros behind it. */
static void test_said(const char *what, const char *text, const char *said, cdsat_outcome o) {
    for (size_t length = 0; length <= CDSAT_SAID; length++) {
        uint8_t buffer[CDSAT_SAID + 8], wanted[CDSAT_SAID + 8];
        memset(buffer, 0xaa, sizeof buffer);
        memset(wanted, 0xaa, sizeof wanted);
        for (size_t i = 0; i < length; i++)
            wanted[i] = i < strlen(said) ? (uint8_t)said[i] : 0;
        same_outcome(what, cdsat_check((const uint8_t *)text, strlen(text), buffer, length), o);
        same_bytes(what, buffer, wanted, sizeof buffer);
    }
    same(what, "whether the line and a zero fit", strlen(said) < CDSAT_SAID, 1);
}

static void test_bad_texts(void) {
    for (size_t i = 0; i < LENGTH(bad_texts); i++) {
        const struct bad *b = &bad_texts[i];
        cdsat_read_result r = read_text(b->text, strlen(b->text));
        same(b->what, "number", r.number, b->number);
        same(b->what, "why", r.why, b->why);
        same(b->what, "line", r.line, b->line);
        same(b->what, "place", r.place, b->place);
        same(b->what, "rows", others(r.rows, sizeof r.rows, 0), 0);
        same(b->what, "sheets", others(sorts, sizeof sorts, 0) + others(terms, sizeof terms, 0), 0);
        same(b->what, "sheets", others(inputs, sizeof inputs, 0) + others(steps, sizeof steps, 0), 0);
        test_said(b->what, b->text, b->said, outcome(CDSAT_REFUSED, 0, b->number, 0));
    }
}

/* Texts that are read, with every verdict, and a refusal in each sheet. */
static void test_checks(void) {
    static const struct {
        const char *what, *text;
        cdsat_outcome o;
        const char *said;
    } texts[] = {
        {"the listing", LISTING, {CDSAT_REFUTED, 1, 0, 2, 0}, ""},
        {"headers alone", HEADERS, {CDSAT_OPEN, 0, 0, 0, 0}, ""},
        {"the listing as a clash", SORTS TERMS INPUTS STEPS "clash cong g true e - - - -\n", {CDSAT_REFUSED, 0, 26, 2, 0},
         "line 17: 26 fail is the line at level 0, clash the one above it: fail was meant\n"},
        {"a fail above level 0", SORTS TERMS "term value\ng false\n\n" STEPS "decide - e true - - - - -\nfail cong g true e - - - -\n",
         {CDSAT_REFUSED, 1, 26, 2, 0}, "line 17: 26 fail is the line at level 0, clash the one above it: clash was meant\n"},
        {"a conflict", SORTS TERMS "term value\ng false\n\n" STEPS "decide - e true - - - - -\nclash cong g true e - - - -\n",
         {CDSAT_OPEN, 2, 0, 2, 0}, ""},
        {"a fail too early", SORTS TERMS "term value\ne true\n\n" STEPS "fail cong g true e - - - -\n", {CDSAT_REFUSED, 0, 16, 1, 0},
         "line 16: 16 the opposite is not there\n"},
        {"a clash too early", SORTS TERMS "term value\ne true\n\n" STEPS "clash cong g true e - - - -\n", {CDSAT_REFUSED, 0, 16, 1, 0},
         "line 16: 16 the opposite is not there\n"},
        {"a clause learned", CONFLICT "learn - l 1 e g - - -\n", {CDSAT_OPEN, 4, 0, 2, 0}, ""},
        {"a clause learned at false", CONFLICT "learn - l false e g - - -\n", {CDSAT_OPEN, 4, 0, 1, 0}, ""},
        {"a clause used", CONFLICT "learn - l 0 e g - - -\ndecide - g false - - - - -\ndeduce unit n true l g - - -\n", {CDSAT_OPEN, 6, 0, 3, 0}, ""},
        {"a member twice", CONFLICT "learn - l 1 e e - - -\n", {CDSAT_REFUSED, 3, 25, 2, 0},
         "line 20: 25 the clause does not match the members, or one is named twice\n"},
        {"a level too great", CONFLICT "learn - l 2 e g - - -\n", {CDSAT_REFUSED, 3, 21, 2, 0},
         "line 20: 21 its level is not above the rest, or learn's level is outside its range\n"},
        {"a clause that is none", CONFLICT "learn - n 1 e g - - -\n", {CDSAT_REFUSED, 3, 22, 2, 0},
         "line 20: 22 a term's sort or head is wrong for the step, or the value does not suit it\n"},
        {"deep", FORMULA "fail deep m true g e - - -\n", {CDSAT_REFUTED, 1, 0, 3, 0}, ""},
        {"deep, a premise again", FORMULA "fail deep m true e g e g e\n", {CDSAT_REFUTED, 1, 0, 3, 0}, ""},
        {"deep of what has the other value", FORMULA "deduce deep m true e g - - -\n", {CDSAT_REFUSED, 0, 15, 3, 0}, "line 21: 15 the opposite is there\n"},
        {"deep of itself", FORMULA "deduce deep m false m - - - -\n", {CDSAT_REFUSED, 0, 14, 3, 0}, "line 21: 14 the value is there already\n"},
        {"deep of itself as a fail", FORMULA "fail deep m false m - - - -\n", {CDSAT_REFUSED, 0, 16, 3, 0}, "line 21: 16 the opposite is not there\n"},
        {"deep of the lower layers", FORMULA "deduce deep o false g e - - -\ndeduce deep n false e - - - -\n", {CDSAT_OPEN, 2, 0, 5, 0}, ""},
        {"deep, a premise above", FORMULA "deduce deep o false g e m - -\n", {CDSAT_REFUSED, 0, 13, 3, 3},
         "line 21, field 3: 13 the rule does not fit\n"},
        {"deep, a leaf without a value", FORMULA "fail deep m true e - - - -\n", {CDSAT_REFUSED, 0, 13, 3, 3},
         "line 21, field 3: 13 the rule does not fit\n"},
        {"deep, the other value", FORMULA "fail deep m false e g - - -\n", {CDSAT_REFUSED, 0, 13, 3, 3},
         "line 21, field 3: 13 the rule does not fit\n"},
        {"a term that there is not", SORTS TERMS INPUTS STEPS "decide - x 7 - - - - -\n", {CDSAT_REFUSED, 0, 11, 2, 3},
         "line 17, field 3: 11 the term or a premise is no row\n"},
        {"a premise not on the trail", SORTS TERMS INPUTS STEPS "fail cong g true e a - - -\n", {CDSAT_REFUSED, 0, 12, 2, 6},
         "line 17, field 6: 12 a premise is not on the trail\n"},
        {"a premise too many", SORTS TERMS INPUTS STEPS "fail cong g true e e - - -\n", {CDSAT_REFUSED, 0, 13, 2, 6},
         "line 17, field 6: 13 the rule does not fit\n"},
        {"a decision twice", SORTS TERMS "term value\n\n" STEPS "decide - a 7 - - - - -\ndecide - a 7 - - - - -\n", {CDSAT_REFUSED, 1, 14, 1, 0},
         "line 16: 14 the value is there already\n"},
        {"a value that should differ", SORTS TERMS "term value\ne false\n\n" STEPS "decide - a 7 - - - - -\ndecide - b 7 - - - - -\n",
         {CDSAT_REFUSED, 1, 27, 2, 0}, "line 17: 27 the value contradicts an equation on the trail\n"},
        {"a value that differs", SORTS TERMS "term value\ne false\n\n" STEPS "decide - a 7 - - - - -\ndecide - b 8 - - - - -\n",
         {CDSAT_OPEN, 2, 0, 3, 0}, ""},
        {"a value that should be equal", SORTS TERMS "term value\ne true\n\n" STEPS "decide - b 7 - - - - -\ndecide - a 8 - - - - -\n",
         {CDSAT_REFUSED, 1, 27, 2, 0}, "line 17: 27 the value contradicts an equation on the trail\n"},
        {"an equation against the values", SORTS TERMS "term value\na 7\nb 7\n\n" STEPS "decide - e false - - - - -\nclash same e true a b - - -\n",
         {CDSAT_OPEN, 2, 0, 3, 0}, ""},
        {"a sort row", "sort index value\nS - -\nT S -\n\nterm head sort a b c d\n\nterm value\n\n" STEPS, {CDSAT_REFUSED, 0, 1, 0, 0},
         "line 3: 1 a sort row breaks the rule for sorts\n"},
        {"a term row", SORTS "term head sort a b c d\na A S - - - -\ne eq prop a - - -\n\nterm value\n\n" STEPS, {CDSAT_REFUSED, 0, 4, 0, 0},
         "line 6: 4 head, sort and arguments do not fit\n"},
        {"an input row", SORTS TERMS "term value\ne true\ne true\n\n" STEPS, {CDSAT_REFUSED, 0, 8, 0, 0}, "line 14: 8 a term given twice\n"},
    };
    for (size_t i = 0; i < LENGTH(texts); i++)
        test_said(texts[i].what, texts[i].text, texts[i].said, texts[i].o);
}

/* Every pointer as NULL with length 0. */
static void test_null(void) {
    const uint8_t *headers = (const uint8_t *)HEADERS, *listing = (const uint8_t *)LISTING;
    size_t all = strlen(LISTING);
    same_outcome("no work", cdsat_run(NULL, 0, NULL, 0, NULL, 0, NULL, 0, NULL, 0, NULL, 0), outcome(CDSAT_REFUSED, 0, 32, 0));
    same_outcome("no sheets", cdsat_run(NULL, 0, NULL, 0, NULL, 0, NULL, 0, work, 12, NULL, 0), outcome(CDSAT_OPEN, 0, 0, 0));
    cdsat_read_result r = cdsat_read(NULL, 0, NULL, 0, NULL, 0, NULL, 0, NULL, 0);
    same("no text", "number", r.number, 31);
    same("no text", "why", r.why, CDSAT_WHY_EARLY);
    same("no text", "line", r.line, 1);
    r = cdsat_read(headers, strlen(HEADERS), NULL, 0, NULL, 0, NULL, 0, NULL, 0);
    same("headers", "number", r.number, 0);
    soil();
    same("no sorts", "number", cdsat_read(listing, all, NULL, 0, terms, 36, inputs, 4, steps, 9).number, 32);
    same("no terms", "number", cdsat_read(listing, all, sorts, 2, NULL, 0, inputs, 4, steps, 9).number, 32);
    same("no inputs", "number", cdsat_read(listing, all, sorts, 2, terms, 36, NULL, 0, steps, 9).number, 32);
    same("no steps", "number", cdsat_read(listing, all, sorts, 2, terms, 36, inputs, 4, NULL, 0).number, 32);
    r = cdsat_read(listing, all, sorts, 2, terms, 36, inputs, 3, steps, 9);
    same("short inputs", "number", r.number, 32);
    same("short inputs", "line", r.line, 0);
    same("short inputs", "why", r.why, CDSAT_WHY_FINE);
    same("short inputs", "terms", others(terms, 72, 0), 0);
    same("short inputs", "what lies behind the terms", others(terms + 36, sizeof terms - 72, 0xaa), 0);
    same_outcome("no text, nothing said", cdsat_check(NULL, 0, NULL, 0), outcome(CDSAT_REFUSED, 0, 31, 0));
    same_outcome("nothing said", cdsat_check(listing, all, NULL, 0), outcome(CDSAT_REFUTED, 1, 0, 2));
}

int main(void) {
    test_read();
    test_run();
    test_steps();
    test_places();
    test_decide();
    test_learn();
    test_lengths();
    test_bad_texts();
    test_checks();
    test_null();
    if (failed > 0) {
        printf("c: %u checks passed, %u failed\n", passed, failed);
        return 1;
    }
    printf("c: %u checks passed\n", passed);
    return 0;
}
