/*
 * Twolsken's calls for C, and for every language that calls C.
 *
 * Link. `tools/library` makes the archive target/staticlib/libexports.a, for x86-64 or Arm as the machine is. It needs no other
 * library:
 *
 *     cc -std=c11 -I include program.c target/staticlib/libexports.a -o program
 *
 * Memory. All memory is lent for the length of a call. A slice is a pointer and then its length in elements; an array of a
 * fixed size is a pointer to its first element, and has at least as many as are named. No pointer may be null, not even that
 * of a slice of length 0. What a call may write overlaps nothing else that is lent to it. The calls allocate nothing and keep
 * no pointer.
 *
 * Threads. The calls share nothing, and may run on several threads at once.
 *
 * Stack. A call takes at most 256 KiB of stack (TWOLSKEN_STACK), tested on the deepest texts and sentences.
 *
 * Work area. Verdict and numerator are lent numbers of 64 bits to work in, 8 or more for each tuple of states:
 * twolsken_work_area tells how many a question needs, and TWOLSKEN_WORK_AREA is enough for every question.
 *
 * Refusals. A call that refuses gives the smallest number that applies (enum twolsken_refusal), but 1, for a work area that
 * is too short, only where no other applies; and all lent memory is as it was.
 *
 * Answers. Readers and numerator return 0, or the refusal's number. Writers and merge return the number of bytes that they
 * wrote at the front of the output, and leave those past them unchanged; or TWOLSKEN_REFUSED plus the refusal's number:
 * twolsken_writer_refusal tells. Verdict returns TWOLSKEN_HOLDS or TWOLSKEN_FAILS, or the refusal's number:
 * twolsken_verdict_refusal tells.
 *
 * Empty rows. A model of version 1 may have empty rows: the weights of a state are all zero. Readers and writers take them as
 * they stand; verdict, numerator and merge read an empty row as weight D to the state itself.
 *
 * An example that reads two files, asks and prints is include/ask.c.
 */
#ifndef TWOLSKEN_H
#define TWOLSKEN_H

#include <stddef.h>
#include <stdint.h>

#ifdef __cplusplus
extern "C" {
#endif

/* Sizes of lent arrays. */
#define TWOLSKEN_STATES 32 /* masks, rows of weights, and weights in a row */
#define TWOLSKEN_LETTERS 4 /* letters of a sentence's prefix */
#define TWOLSKEN_NODES 64  /* nodes of a sentence */

/* The most tuples of states of a question: N, the number of states, to the power of the letters. */
#define TWOLSKEN_TUPLES 1024

/* Numbers of 64 bits that a work area has at least for each tuple of states, and that are enough for every question. */
#define TWOLSKEN_WORK_PER_TUPLE 8
#define TWOLSKEN_WORK_AREA (TWOLSKEN_WORK_PER_TUPLE * TWOLSKEN_TUPLES)

/* Lengths in bytes: an output of this length has room for whatever a writer or merge writes. */
#define TWOLSKEN_LONGEST_FILE 3072 /* a model file */
#define TWOLSKEN_LONGEST_TEXT 400  /* a sentence's text */

/* Bytes of stack that a call takes at most. */
#define TWOLSKEN_STACK 262144

/* 2^32: a writer's answer from here on is a refusal, and the rest of it the refusal's number. */
#define TWOLSKEN_REFUSED UINT64_C(4294967296)

/* What verdict returns if it does not refuse: no refusal has such a number. */
#define TWOLSKEN_HOLDS 256
#define TWOLSKEN_FAILS 257

/* Why a call refuses. */
enum twolsken_refusal {
    /* the work area is shorter than twolsken_work_area tells for the question, and no other refusal applies */
    TWOLSKEN_REFUSAL_WORK_AREA = 1,
    /* the model file's length is not a multiple of 512 in 512..TWOLSKEN_LONGEST_FILE */
    TWOLSKEN_REFUSAL_FILE_LENGTH = 2,
    /* some block's check is wrong */
    TWOLSKEN_REFUSAL_CHECK = 3,
    /* a byte, a field or the number of blocks breaks the layout of the model file; a version above 1 does */
    TWOLSKEN_REFUSAL_LAYOUT = 4,
    /* the row of some state below N does not add up to D, and is no empty row of version 1 */
    TWOLSKEN_REFUSAL_ROW_SUM = 5,
    /* a text that is not in the grammar or over TWOLSKEN_LONGEST_TEXT; a prefix and nodes that no such text spells, or a
     * count over TWOLSKEN_NODES */
    TWOLSKEN_REFUSAL_GRAMMAR = 6,
    /* a constant's top over 65,535, its bottom 0 or over 65,535; a window k1..k2 with k1 > k2 or k2 > 60; a variable above
     * the number of letters */
    TWOLSKEN_REFUSAL_RANGE = 7,
    /* a text of over TWOLSKEN_NODES nodes */
    TWOLSKEN_REFUSAL_TOO_MANY_NODES = 8,
    /* a label letter of the text is not below A */
    TWOLSKEN_REFUSAL_NO_SUCH_LABEL = 9,
    /* the size rule: some expression's denominator d or bound m, or some comparison's m1 x d2 or m2 x d1, is above 2^62;
     * d and m of a path formula are its denominator, as numerator returns it */
    TWOLSKEN_REFUSAL_SIZE_RULE = 10,
    /* T, which is N to the power of the number of letters, is over TWOLSKEN_TUPLES */
    TWOLSKEN_REFUSAL_TOO_MANY_TUPLES = 11,
    /* the grouping's length is not N, or its numbers are not exactly 0..M-1, each used */
    TWOLSKEN_REFUSAL_GROUPING = 12,
    /* two states of a group differ in mask or in weight into some group */
    TWOLSKEN_REFUSAL_NOT_ALIKE = 13,
    /* the output is shorter than what is to be written */
    TWOLSKEN_REFUSAL_OUTPUT_SHORT = 14,
    /* the tuple's length is not the number of letters, a member is not below N, or there is no such path formula */
    TWOLSKEN_REFUSAL_TUPLE_OR_PATH = 15
};

/* The refusal in a writer's or merge's answer, or 0 if it wrote: then the answer is the number of bytes. */
static inline uint32_t twolsken_writer_refusal(uint64_t answer) {
    return answer < TWOLSKEN_REFUSED ? 0 : (uint32_t)(answer - TWOLSKEN_REFUSED);
}

/* The refusal in verdict's answer, or 0 if it judged: then the answer is TWOLSKEN_HOLDS or TWOLSKEN_FAILS. */
static inline uint32_t twolsken_verdict_refusal(uint32_t answer) {
    return answer == TWOLSKEN_HOLDS || answer == TWOLSKEN_FAILS ? 0 : answer;
}

/*
 * The numbers of 64 bits that the work area of a question has at least, on a model of so many states and with so many letters
 * in the prefix, as read model and read sentence leave them in head[0]: TWOLSKEN_WORK_PER_TUPLE x states^letters, or SIZE_MAX
 * if that is greater. A question of over TWOLSKEN_TUPLES tuples is refused by 11 however much is lent.
 */
static inline size_t twolsken_work_area(uint32_t states, uint64_t letters) {
    size_t numbers = TWOLSKEN_WORK_PER_TUPLE;
    /* with 0 or 1 states a further letter changes nothing */
    for (; letters > 0 && states != 1 && numbers != 0; letters--) {
        if (states > SIZE_MAX / numbers) {
            return SIZE_MAX;
        }
        numbers *= states;
    }
    return numbers;
}

/*
 * A node of a sentence is three numbers: its tag, x and y. A number that the node does not have is read back as 0, and is
 * not looked at by the writer.
 */
enum twolsken_tag {
    TWOLSKEN_TRUE = 0,
    TWOLSKEN_LABEL = 1,       /* x: the label, 0 for `a` to 15 for `p`; y: the variable, 1..4 */
    TWOLSKEN_NOT = 2,         /* one state formula follows */
    TWOLSKEN_AND = 3,         /* two state formulas follow */
    TWOLSKEN_COMPARE = 4,     /* x: the relation; two expressions follow */
    TWOLSKEN_PROBABILITY = 5, /* a path follows */
    TWOLSKEN_CONSTANT = 6,    /* x: the top; y: the bottom */
    TWOLSKEN_SUM = 7,         /* two expressions follow, as at 8 and 9 */
    TWOLSKEN_DIFFERENCE = 8,
    TWOLSKEN_PRODUCT = 9,
    TWOLSKEN_NEXT = 10, /* a path: one state formula follows */
    TWOLSKEN_UNTIL = 11 /* a path: x and y are the window, from x to y; two state formulas follow */
};

/* x of a comparison. */
enum twolsken_relation {
    TWOLSKEN_LESS = 0,
    TWOLSKEN_AT_MOST = 1,
    TWOLSKEN_EQUAL = 2,
    TWOLSKEN_AT_LEAST = 3,
    TWOLSKEN_GREATER = 4
};

/*
 * Read model. Returns 0, with N, A, D and the version (0 or 1) in head, in this order, the label mask of each state in masks
 * and the weight from state s to state t in rows[s][t] (0 from N on), an empty row as it stands; or a refusal of 2, 3, 4, 5.
 */
uint32_t twolsken_read_model(const uint8_t *file, size_t file_length, uint32_t head[4],
                             uint16_t masks[TWOLSKEN_STATES],
                             uint16_t rows[TWOLSKEN_STATES][TWOLSKEN_STATES]);

/*
 * Write model. Takes N, A, D and the version in head, the masks and the rows as read model leaves them. rows is only read: it
 * has no const because C before C23 warns where an array without const is passed for one with it. Returns the length of the
 * model's file, which it wrote at the front of out; or TWOLSKEN_REFUSED plus 4, 5 or 14.
 */
uint64_t twolsken_write_model(const uint32_t head[4], const uint16_t masks[TWOLSKEN_STATES],
                              uint16_t rows[TWOLSKEN_STATES][TWOLSKEN_STATES], uint8_t *out,
                              size_t out_length);

/*
 * Read sentence. Returns 0, with the number of letters and the number of nodes in head, 1 in exists for each letter that
 * is `E` (0 for `A`, and past the letters) and the nodes in written order in codes (0, 0, 0 past the count); or a refusal
 * of 6, 7, 8.
 */
uint32_t twolsken_read_sentence(const uint8_t *text, size_t text_length, uint64_t head[2],
                                uint8_t exists[TWOLSKEN_LETTERS],
                                uint32_t codes[TWOLSKEN_NODES][3]);

/*
 * Write sentence. In exists 0 is `A` and every other number `E`; places past the letters and past the count are no part of
 * the sentence. A code that is no node's (a tag above 11, a relation above 4, a label or a variable above 255) stands for a
 * node that no text spells: where it counts it is refused as 6. codes is only read, as rows at write model. Returns the
 * length of the text, which it wrote at the front of out; or TWOLSKEN_REFUSED plus 6, 7 or 14.
 */
uint64_t twolsken_write_sentence(uint64_t letters, uint64_t count,
                                 const uint8_t exists[TWOLSKEN_LETTERS],
                                 uint32_t codes[TWOLSKEN_NODES][3], uint8_t *out, size_t out_length);

/*
 * Merge. grouping has one byte a state, the number of its group. Returns the length of the merged model's file, which it
 * wrote at the front of out; or TWOLSKEN_REFUSED plus 2, 3, 4, 5, 12, 13 or 14. The merged model has the version of the full
 * one and no empty row: the grouping 0, 1, 2 and on gives back the filled file.
 */
uint64_t twolsken_merge(const uint8_t *file, size_t file_length, const uint8_t *grouping,
                        size_t grouping_length, uint8_t *out, size_t out_length);

/*
 * Verdict. text is the sentence's; work is the work area, of as many numbers as twolsken_work_area tells or more, with any
 * contents. Returns TWOLSKEN_HOLDS if the sentence holds on the model and TWOLSKEN_FAILS if it does not, and then as many
 * numbers as that at the front of the work area are zero and the others unchanged; or a refusal of 2..11, or else 1.
 */
uint32_t twolsken_verdict(const uint8_t *file, size_t file_length, const uint8_t *text,
                          size_t text_length, uint64_t *work, size_t work_length);

/*
 * Numerator. tuple has one byte a letter of the prefix, a state; path is the number of a path formula, counted from 0 in
 * written order; work is as at verdict. Returns 0, with the numerator of that path formula at the tuple in value[0] and its
 * denominator in value[1], and the work area as after a verdict; or a refusal of 2..11 or 15, or else 1. The denominator is
 * D^v for next and D^(v x k2) for until with the window k1..k2, where v is the number of different variables that the path
 * formula names, nested ones included; the runs of the numerator are runs of these variables. If v is 0 the denominator is 1
 * and the numerator 0 or 1.
 */
uint32_t twolsken_numerator(const uint8_t *file, size_t file_length, const uint8_t *text,
                            size_t text_length, const uint8_t *tuple, size_t tuple_length, size_t path,
                            uint64_t *work, size_t work_length, uint64_t value[2]);

#ifdef __cplusplus
}
#endif

#endif
