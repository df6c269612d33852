/*
 * Judges a sentence on a model, both from files, and prints the probability of the first path formula at the tuple of
 * states 0, 0 and on.
 *
 *     cc -std=c11 -I include include/ask.c target/staticlib/libexports.a -o ask
 *     ./ask samples/counter/model.blk samples/counter/sentence.txt
 */
#include "twolsken.h"

#include <inttypes.h>
#include <stdio.h>

/* Reads the front of a file, as much as has room; returns how many bytes, or -1 and says why. */
static long read_front(const char *name, uint8_t *bytes, size_t room) {
    FILE *file = fopen(name, "rb");
    if (file == NULL) {
        perror(name);
        return -1;
    }
    size_t length = fread(bytes, 1, room, file);
    int bad = ferror(file);
    fclose(file);
    if (bad) {
        fprintf(stderr, "%s: cannot be read\n", name);
        return -1;
    }
    return (long)length;
}

/* Prints a refusal, if there is one; returns whether there is. */
static int refused(uint32_t refusal) {
    if (refusal != 0) {
        printf("refused %" PRIu32 "\n", refusal);
    }
    return refusal != 0;
}

int main(int count, char **words) {
    /* a byte more than the longest, so that what is too long is refused; and one for the sentence's newline */
    static uint8_t model[TWOLSKEN_LONGEST_FILE + 1];
    static uint8_t text[TWOLSKEN_LONGEST_TEXT + 2];
    /* enough for every question; twolsken_work_area tells what one needs */
    static uint64_t work[TWOLSKEN_WORK_AREA];
    if (count != 3) {
        fprintf(stderr, "usage: ask MODEL SENTENCE\n");
        return 2;
    }
    long model_length = read_front(words[1], model, sizeof model);
    long text_length = read_front(words[2], text, sizeof text);
    if (model_length < 0 || text_length < 0) {
        return 2;
    }
    if (text_length > 0 && text[text_length - 1] == '\n') {
        text_length--;
    }

    uint32_t answer = twolsken_verdict(model, (size_t)model_length, text, (size_t)text_length, work,
                                       TWOLSKEN_WORK_AREA);
    if (refused(twolsken_verdict_refusal(answer))) {
        return 1;
    }
    puts(answer == TWOLSKEN_HOLDS ? "holds" : "fails");

    /* the tuple needs a state for each letter: read sentence tells how many there are */
    uint64_t head[2];
    uint8_t exists[TWOLSKEN_LETTERS];
    uint32_t codes[TWOLSKEN_NODES][3];
    if (refused(twolsken_read_sentence(text, (size_t)text_length, head, exists, codes))) {
        return 1;
    }
    const uint8_t tuple[TWOLSKEN_LETTERS] = {0, 0, 0, 0};
    uint64_t value[2];
    uint32_t refusal =
        twolsken_numerator(model, (size_t)model_length, text, (size_t)text_length, tuple, (size_t)head[0],
                           0, work, TWOLSKEN_WORK_AREA, value);
    if (refusal == TWOLSKEN_REFUSAL_TUPLE_OR_PATH) {
        puts("the sentence has no path formula");
        return 0;
    }
    if (refused(refusal)) {
        return 1;
    }
    printf("%" PRIu64 "/%" PRIu64 "\n", value[0], value[1]);
    return 0;
}
