/*
 * Calls each function of the header with values that matter in each place, on document 01's models, and says which answers
 * are not the document's; then on a model of version 1 with an empty row, and with work areas on both sides of what is needed.
 * What read model and read sentence leave is handed to the writers as it is.
 */
#include "twolsken.h"

#include <stdio.h>
#include <string.h>

static int wrong;

/* Says where an answer is not the expected one. */
#define IS(expected, got) is(#got, __LINE__, (uint64_t)(expected), (uint64_t)(got))

static void is(const char *what, int line, uint64_t expected, uint64_t got) {
    if (expected != got) {
        fprintf(stderr, "line %d: %s is %llu, not %llu\n", line, what, (unsigned long long)got,
                (unsigned long long)expected);
        wrong = 1;
    }
}

static uint64_t work[TWOLSKEN_WORK_AREA];

/* The file of M2, and its length. */
static uint8_t file[TWOLSKEN_LONGEST_FILE];
static size_t length;

/* Write model, then read model, then write what was read. */
static void models(void) {
    const uint32_t head[4] = {3, 1, 4, 0};
    const uint16_t masks[TWOLSKEN_STATES] = {0, 1, 1};
    uint16_t rows[TWOLSKEN_STATES][TWOLSKEN_STATES] = {{2, 1, 1}, {0, 3, 1}, {0, 0, 4}};
    uint64_t answer = twolsken_write_model(head, masks, rows, file, sizeof file);
    IS(0, twolsken_writer_refusal(answer));
    IS(1024, answer);
    length = (size_t)answer;
    IS(3, file[1]);
    IS(1, file[2]);
    IS(0, file[3]);
    IS(4, file[4]);

    uint32_t head_read[4] = {9, 9, 9, 9};
    uint16_t masks_read[TWOLSKEN_STATES];
    uint16_t rows_read[TWOLSKEN_STATES][TWOLSKEN_STATES];
    IS(TWOLSKEN_REFUSAL_FILE_LENGTH, twolsken_read_model(file, length - 1, head_read, masks_read, rows_read));
    IS(9, head_read[2]);
    IS(9, head_read[3]);
    IS(0, twolsken_read_model(file, length, head_read, masks_read, rows_read));
    IS(0, memcmp(head, head_read, sizeof head));
    IS(0, memcmp(masks, masks_read, sizeof masks));
    IS(0, memcmp(rows, rows_read, sizeof rows));

    uint8_t out[TWOLSKEN_LONGEST_FILE];
    IS(length, twolsken_write_model(head_read, masks_read, rows_read, out, sizeof out));
    IS(0, memcmp(file, out, length));
    answer = twolsken_write_model(head_read, masks_read, rows_read, out, length - 1);
    IS(TWOLSKEN_REFUSED + 14, answer);
    IS(TWOLSKEN_REFUSAL_OUTPUT_SHORT, twolsken_writer_refusal(answer));
    rows_read[2][0] = 1;
    answer = twolsken_write_model(head_read, masks_read, rows_read, out, sizeof out);
    IS(TWOLSKEN_REFUSAL_ROW_SUM, twolsken_writer_refusal(answer));
    masks_read[2] = 2;
    answer = twolsken_write_model(head_read, masks_read, rows_read, out, sizeof out);
    IS(TWOLSKEN_REFUSAL_LAYOUT, twolsken_writer_refusal(answer));
    const uint32_t wide[4] = {259, 1, 4, 0};
    answer = twolsken_write_model(wide, masks, rows, out, sizeof out);
    IS(TWOLSKEN_REFUSAL_LAYOUT, twolsken_writer_refusal(answer));
}

/* Changes byte 3 of a model file, its version, and the check of block 0 to match: byte 3 counts four times. */
static void set_version(uint8_t *model, uint8_t version) {
    uint32_t check = model[510] + 256u * model[511] - 4u * model[3] + 4u * version;
    model[3] = version;
    model[510] = (uint8_t)(check & 255);
    model[511] = (uint8_t)(check >> 8);
}

/* The file of M1 with an empty row for state 1, and so of version 1. */
static uint8_t halted[1024];

/* Write model and read model on each side of the version and of an empty row. */
static void versions(void) {
    uint32_t head[4] = {2, 1, 4, 1};
    const uint16_t masks[TWOLSKEN_STATES] = {0, 1};
    uint16_t rows[TWOLSKEN_STATES][TWOLSKEN_STATES] = {{3, 1}, {0, 0}};
    IS(1024, twolsken_write_model(head, masks, rows, halted, sizeof halted));
    IS(1, halted[3]);

    uint32_t head_read[4] = {9, 9, 9, 9};
    uint16_t masks_read[TWOLSKEN_STATES];
    uint16_t rows_read[TWOLSKEN_STATES][TWOLSKEN_STATES];
    IS(0, twolsken_read_model(halted, sizeof halted, head_read, masks_read, rows_read));
    IS(0, memcmp(head, head_read, sizeof head));
    IS(0, memcmp(masks, masks_read, sizeof masks));
    IS(0, memcmp(rows, rows_read, sizeof rows));

    uint8_t out[1024];
    IS(1024, twolsken_write_model(head_read, masks_read, rows_read, out, sizeof out));
    IS(0, memcmp(halted, out, sizeof halted));
    set_version(out, 2);
    IS(TWOLSKEN_REFUSAL_LAYOUT, twolsken_read_model(out, sizeof out, head_read, masks_read, rows_read));
    set_version(out, 0);
    IS(TWOLSKEN_REFUSAL_ROW_SUM, twolsken_read_model(out, sizeof out, head_read, masks_read, rows_read));

    rows[1][0] = 1;
    IS(TWOLSKEN_REFUSAL_ROW_SUM,
       twolsken_writer_refusal(twolsken_write_model(head, masks, rows, out, sizeof out)));
    rows[1][0] = 0;
    head[3] = 0;
    IS(TWOLSKEN_REFUSAL_ROW_SUM,
       twolsken_writer_refusal(twolsken_write_model(head, masks, rows, out, sizeof out)));
    head[3] = 2;
    IS(TWOLSKEN_REFUSAL_LAYOUT,
       twolsken_writer_refusal(twolsken_write_model(head, masks, rows, out, sizeof out)));
}

/* The bytes of a text. */
static const uint8_t *bytes(const char *text) { return (const uint8_t *)text; }

/* Read sentence on every kind of node, then write what was read. */
static void sentences(void) {
    const char *text = "AE.&!a1&<+*PXp2#7/8;PU1,20:TT-#0/1;#1/1;&L#0/1;#1/1;&=#0/1;#1/1;&G#0/1;#1/1;>#0/1;#1/1;";
    const uint32_t tags[12] = {TWOLSKEN_AND,         TWOLSKEN_NOT,     TWOLSKEN_LABEL,   TWOLSKEN_AND,
                               TWOLSKEN_COMPARE,     TWOLSKEN_SUM,     TWOLSKEN_PRODUCT, TWOLSKEN_PROBABILITY,
                               TWOLSKEN_NEXT,        TWOLSKEN_LABEL,   TWOLSKEN_CONSTANT, TWOLSKEN_PROBABILITY};
    uint64_t head[2] = {9, 9};
    uint8_t exists[TWOLSKEN_LETTERS];
    uint32_t codes[TWOLSKEN_NODES][3];
    IS(TWOLSKEN_REFUSAL_GRAMMAR, twolsken_read_sentence(bytes(text), strlen(text) - 1, head, exists, codes));
    IS(9, head[0]);
    IS(0, twolsken_read_sentence(bytes(text), strlen(text), head, exists, codes));
    IS(2, head[0]);
    IS(0, exists[0]);
    IS(1, exists[1]);
    for (size_t i = 0; i < 12; i++) {
        IS(tags[i], codes[i][0]);
    }
    IS(TWOLSKEN_LESS, codes[4][1]);
    IS(15, codes[9][1]);
    IS(2, codes[9][2]);
    IS(7, codes[10][1]);
    IS(8, codes[10][2]);
    IS(TWOLSKEN_UNTIL, codes[12][0]);
    IS(1, codes[12][1]);
    IS(20, codes[12][2]);
    IS(TWOLSKEN_TRUE, codes[13][0]);
    IS(TWOLSKEN_DIFFERENCE, codes[15][0]);
    const uint32_t relations[4] = {TWOLSKEN_AT_MOST, TWOLSKEN_EQUAL, TWOLSKEN_AT_LEAST, TWOLSKEN_GREATER};
    const size_t places[4] = {19, 23, 27, 30};
    for (size_t i = 0; i < 4; i++) {
        IS(TWOLSKEN_COMPARE, codes[places[i]][0]);
        IS(relations[i], codes[places[i]][1]);
    }

    uint8_t out[TWOLSKEN_LONGEST_TEXT];
    IS(strlen(text), twolsken_write_sentence(head[0], head[1], exists, codes, out, sizeof out));
    IS(0, memcmp(text, out, strlen(text)));
    uint64_t answer = twolsken_write_sentence(head[0], head[1], exists, codes, out, strlen(text) - 1);
    IS(TWOLSKEN_REFUSAL_OUTPUT_SHORT, twolsken_writer_refusal(answer));
    answer = twolsken_write_sentence(1, head[1], exists, codes, out, sizeof out);
    IS(TWOLSKEN_REFUSAL_RANGE, twolsken_writer_refusal(answer));
    answer = twolsken_write_sentence(head[0], head[1] - 1, exists, codes, out, sizeof out);
    IS(TWOLSKEN_REFUSAL_GRAMMAR, twolsken_writer_refusal(answer));
}

/* Merge: M2 by 0 1 1 has the rows 2 2 and 0 4. */
static void merges(void) {
    const uint8_t grouping[3] = {0, 1, 1}, unlike[3] = {0, 0, 1}, unused[3] = {0, 2, 2};
    uint8_t out[TWOLSKEN_LONGEST_FILE];
    IS(1024, twolsken_merge(file, length, grouping, 3, out, sizeof out));
    uint32_t head[4];
    uint16_t masks[TWOLSKEN_STATES];
    uint16_t rows[TWOLSKEN_STATES][TWOLSKEN_STATES];
    IS(0, twolsken_read_model(out, 1024, head, masks, rows));
    IS(2, head[0]);
    IS(0, head[3]);
    IS(2, rows[0][0]);
    IS(2, rows[0][1]);
    IS(4, rows[1][1]);
    IS(TWOLSKEN_REFUSAL_FILE_LENGTH,
       twolsken_writer_refusal(twolsken_merge(file, length + 1, grouping, 3, out, sizeof out)));
    IS(TWOLSKEN_REFUSAL_GROUPING,
       twolsken_writer_refusal(twolsken_merge(file, length, grouping, 2, out, sizeof out)));
    IS(TWOLSKEN_REFUSAL_GROUPING,
       twolsken_writer_refusal(twolsken_merge(file, length, unused, 3, out, sizeof out)));
    IS(TWOLSKEN_REFUSAL_NOT_ALIKE,
       twolsken_writer_refusal(twolsken_merge(file, length, unlike, 3, out, sizeof out)));
    IS(TWOLSKEN_REFUSAL_OUTPUT_SHORT,
       twolsken_writer_refusal(twolsken_merge(file, length, grouping, 3, out, 1023)));
}

/* Verdict on M2, whose state 0 meets the label within two steps in 12 of 16 runs. */
static uint32_t judged(const char *text, size_t room) {
    return twolsken_verdict(file, length, bytes(text), strlen(text), work, room);
}

static void verdicts(void) {
    uint32_t answer = judged("A.GPU0,2:Ta1#12/16;", TWOLSKEN_WORK_AREA);
    IS(TWOLSKEN_HOLDS, answer);
    IS(0, twolsken_verdict_refusal(answer));
    answer = judged("A.>PU0,2:Ta1#12/16;", TWOLSKEN_WORK_AREA);
    IS(TWOLSKEN_FAILS, answer);
    IS(0, twolsken_verdict_refusal(answer));
    IS(TWOLSKEN_REFUSAL_CHECK, (file[9] = 1, judged("A.T", TWOLSKEN_WORK_AREA)));
    file[9] = 0;
    IS(TWOLSKEN_REFUSAL_GRAMMAR, judged("A.", TWOLSKEN_WORK_AREA));
    IS(TWOLSKEN_REFUSAL_RANGE, judged("A.a2", TWOLSKEN_WORK_AREA));
    IS(TWOLSKEN_REFUSAL_TOO_MANY_NODES,
       judged("A.!!!!!!!!!!!!!!!!!!!!!!!!!!!!!!!!!!!!!!!!!!!!!!!!!!!!!!!!!!!!!!!!T", TWOLSKEN_WORK_AREA));
    IS(TWOLSKEN_REFUSAL_NO_SUCH_LABEL, judged("A.b1", TWOLSKEN_WORK_AREA));
    answer = judged("A.GPU0,32:Ta1#0/1;", TWOLSKEN_WORK_AREA);
    IS(TWOLSKEN_REFUSAL_SIZE_RULE, answer);
    IS(TWOLSKEN_REFUSAL_SIZE_RULE, twolsken_verdict_refusal(answer));

    /* 4^31 is 2^62: of two letters those count that the path names, be it one, two or none */
    IS(TWOLSKEN_HOLDS, judged("AA.GPU0,31:Ta1#0/1;", TWOLSKEN_WORK_AREA));
    IS(TWOLSKEN_REFUSAL_SIZE_RULE, judged("AA.GPU0,32:Ta1#0/1;", TWOLSKEN_WORK_AREA));
    IS(TWOLSKEN_HOLDS, judged("AA.GPU0,15:T&a1a2#0/1;", TWOLSKEN_WORK_AREA));
    IS(TWOLSKEN_REFUSAL_SIZE_RULE, judged("AA.GPU0,16:T&a1a2#0/1;", TWOLSKEN_WORK_AREA));
    IS(TWOLSKEN_HOLDS, judged("AA.=PU0,60:TT#1/1;", TWOLSKEN_WORK_AREA));
}

/* Writes the file of a model of so many states that each stay where they are; returns its length. */
static size_t still(uint32_t states, uint8_t out[TWOLSKEN_LONGEST_FILE]) {
    const uint32_t head[4] = {states, 1, 1, 0};
    const uint16_t masks[TWOLSKEN_STATES] = {0};
    uint16_t rows[TWOLSKEN_STATES][TWOLSKEN_STATES] = {{0}};
    for (size_t s = 0; s < states; s++) {
        rows[s][s] = 1;
    }
    return (size_t)twolsken_write_model(head, masks, rows, out, TWOLSKEN_LONGEST_FILE);
}

/* Refusal 11 needs a model of 11 states, and comes before 1. */
static void tuples(void) {
    uint8_t out[TWOLSKEN_LONGEST_FILE];
    size_t size = still(11, out);
    IS(1536, size);
    IS(TWOLSKEN_REFUSAL_TOO_MANY_TUPLES,
       twolsken_verdict(out, size, bytes("AAA.T"), 5, work, TWOLSKEN_WORK_AREA));
    IS(TWOLSKEN_REFUSAL_TOO_MANY_TUPLES, twolsken_verdict(out, size, bytes("AAA.T"), 5, work, 0));
}

/* Numerator of path formulas that name variable 1, variable 2, both and none, at tuples that differ in each member. */
static void numerators(void) {
    const char *text = "AA.&=PU0,2:Ta1PXa2<PX&a1a2PU1,3:TT";
    const uint8_t tuple[3] = {0, 1, 3};
    uint64_t value[2] = {9, 9};
    size_t size = strlen(text);
    IS(TWOLSKEN_REFUSAL_TUPLE_OR_PATH,
       twolsken_numerator(file, length, bytes(text), size, tuple, 2, 4, work, TWOLSKEN_WORK_AREA, value));
    IS(TWOLSKEN_REFUSAL_TUPLE_OR_PATH,
       twolsken_numerator(file, length, bytes(text), size, tuple, 3, 0, work, TWOLSKEN_WORK_AREA, value));
    IS(TWOLSKEN_REFUSAL_TUPLE_OR_PATH,
       twolsken_numerator(file, length, bytes(text), size, tuple + 1, 2, 0, work, TWOLSKEN_WORK_AREA, value));
    IS(9, value[0]);
    IS(9, value[1]);
    IS(0, twolsken_numerator(file, length, bytes(text), size, tuple, 2, 0, work, TWOLSKEN_WORK_AREA, value));
    IS(12, value[0]);
    IS(16, value[1]);
    IS(0, twolsken_numerator(file, length, bytes(text), size, tuple, 2, 1, work, TWOLSKEN_WORK_AREA, value));
    IS(4, value[0]);
    IS(4, value[1]);
    IS(0, twolsken_numerator(file, length, bytes(text), size, tuple, 2, 2, work, TWOLSKEN_WORK_AREA, value));
    IS(2 * 4, value[0]);
    IS(4 * 4, value[1]);
    IS(0, twolsken_numerator(file, length, bytes(text), size, tuple, 2, 3, work, TWOLSKEN_WORK_AREA, value));
    IS(1, value[0]);
    IS(1, value[1]);
    const uint8_t other[2] = {1, 0};
    IS(0, twolsken_numerator(file, length, bytes(text), size, other, 2, 1, work, TWOLSKEN_WORK_AREA, value));
    IS(2, value[0]);
    IS(4, value[1]);
}

/*
 * Questions and merge on the model with the empty row. Filled, it is M1, in which the label is met at step 2 in 7 of 16 runs
 * from state 0 and in all from state 1. If the empty row had no weight these would be 3 and 0; if it led to state 0, 3 and 4.
 */
static void filled_rows(void) {
    const char *at_least = "A.GPU2,2:Ta1#7/16;", *more = "A.>PU2,2:Ta1#7/16;";
    const uint8_t states[2] = {0, 1};
    const uint64_t expected[2] = {7, 16};
    size_t size = strlen(at_least);
    for (size_t s = 0; s < 2; s++) {
        uint64_t value[2] = {9, 9};
        IS(0, twolsken_numerator(halted, sizeof halted, bytes(at_least), size, states + s, 1, 0, work,
                                 TWOLSKEN_WORK_AREA, value));
        IS(expected[s], value[0]);
        IS(16, value[1]);
    }
    IS(TWOLSKEN_HOLDS,
       twolsken_verdict(halted, sizeof halted, bytes(at_least), size, work, TWOLSKEN_WORK_AREA));
    IS(TWOLSKEN_FAILS, twolsken_verdict(halted, sizeof halted, bytes(more), size, work, TWOLSKEN_WORK_AREA));

    const uint32_t head[4] = {2, 1, 4, 1};
    const uint16_t masks[TWOLSKEN_STATES] = {0, 1};
    uint16_t rows[TWOLSKEN_STATES][TWOLSKEN_STATES] = {{3, 1}, {0, 4}};
    uint8_t filled[1024], out[1024];
    IS(1024, twolsken_write_model(head, masks, rows, filled, sizeof filled));
    IS(1024, twolsken_merge(halted, sizeof halted, states, 2, out, sizeof out));
    IS(0, memcmp(filled, out, sizeof filled));
}

/* How many numbers at the front of the work area are zero, where it had none before. */
static size_t cleared(void) {
    size_t count = 0;
    while (count < TWOLSKEN_WORK_AREA && work[count] == 0) {
        count++;
    }
    for (size_t i = count; i < TWOLSKEN_WORK_AREA; i++) {
        IS(UINT64_C(0x0101010101010101), work[i]);
    }
    return count;
}

/*
 * Asks a verdict, which holds, and a numerator, which is 1/1, that need a work area of so many numbers: with one fewer they are
 * refused, with just as many and with all they are answered.
 */
static void needs_exactly(size_t needs, const uint8_t *model, size_t size, const char *text, size_t letters) {
    const uint8_t tuple[TWOLSKEN_LETTERS] = {0, 0, 0, 0};
    const size_t enough[2] = {needs, TWOLSKEN_WORK_AREA};
    uint64_t value[2] = {9, 9};
    size_t end = strlen(text);
    memset(work, 1, sizeof work);
    IS(TWOLSKEN_REFUSAL_WORK_AREA, twolsken_verdict(model, size, bytes(text), end, work, needs - 1));
    IS(TWOLSKEN_REFUSAL_WORK_AREA,
       twolsken_numerator(model, size, bytes(text), end, tuple, letters, 0, work, needs - 1, value));
    IS(0, cleared());
    IS(9, value[0]);
    IS(9, value[1]);
    for (size_t i = 0; i < 2; i++) {
        memset(work, 1, sizeof work);
        IS(TWOLSKEN_HOLDS, twolsken_verdict(model, size, bytes(text), end, work, enough[i]));
        IS(needs, cleared());
        memset(work, 1, sizeof work);
        IS(0, twolsken_numerator(model, size, bytes(text), end, tuple, letters, 0, work, enough[i], value));
        IS(needs, cleared());
        IS(1, value[0]);
        IS(1, value[1]);
    }
}

/* Work areas of 8 numbers for each tuple, on one state, on M2 and on 32 states. */
static void work_areas(void) {
    uint8_t out[TWOLSKEN_LONGEST_FILE];
    size_t size = still(1, out);
    needs_exactly(8, out, size, "A.=PXT#1/1;", 1);
    needs_exactly(8, out, size, "AEAE.=PXT#1/1;", 4);
    needs_exactly(8 * 3, file, length, "A.=PXT#1/1;", 1);
    needs_exactly(8 * 9, file, length, "AE.=PXT#1/1;", 2);
    size = still(32, out);
    needs_exactly(8 * 32, out, size, "A.=PXT#1/1;", 1);
    needs_exactly(TWOLSKEN_WORK_AREA, out, size, "EA.=PXT#1/1;", 2);
}

/* Refusal 1 comes after every other, that of numerator among them. */
static void refused_last(void) {
    const uint8_t tuple[1] = {0};
    uint64_t value[2];
    IS(TWOLSKEN_REFUSAL_FILE_LENGTH, twolsken_verdict(file, 1, bytes("A.T"), 3, work, 0));
    IS(TWOLSKEN_REFUSAL_GRAMMAR, judged("A.", 0));
    IS(TWOLSKEN_REFUSAL_SIZE_RULE, judged("A.GPU0,32:Ta1#0/1;", 0));
    IS(TWOLSKEN_REFUSAL_WORK_AREA, judged("A.T", 0));
    IS(TWOLSKEN_REFUSAL_TUPLE_OR_PATH,
       twolsken_numerator(file, length, bytes("A.T"), 3, tuple, 1, 0, work, 0, value));
}

int main(void) {
    models();
    versions();
    sentences();
    merges();
    verdicts();
    tuples();
    numerators();
    filled_rows();
    work_areas();
    refused_last();
    if (!wrong) {
        puts("every call answers as the header says");
    }
    return wrong;
}
