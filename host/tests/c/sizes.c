/* Prints each size of the header with its name, then the work area of some questions, as states, letters and numbers. */
#include "twolsken.h"

#include <inttypes.h>
#include <stdio.h>

#define SHOW(name) printf(#name " %zu\n", (size_t)(name))

int main(void) {
    SHOW(TWOLSKEN_STATES);
    SHOW(TWOLSKEN_LETTERS);
    SHOW(TWOLSKEN_NODES);
    SHOW(TWOLSKEN_TUPLES);
    SHOW(TWOLSKEN_WORK_PER_TUPLE);
    SHOW(TWOLSKEN_WORK_AREA);
    SHOW(TWOLSKEN_LONGEST_FILE);
    SHOW(TWOLSKEN_LONGEST_TEXT);
    const uint32_t states[] = {0, 1, 2, 3, 5, 10, 11, 31, 32, 33, 65535, 65536, UINT32_MAX};
    const uint64_t letters[] = {0, 1, 2, 3, 4, 5, 60, 61, 62, 64, UINT32_MAX, UINT64_C(1) << 32, UINT64_MAX};
    for (size_t s = 0; s < sizeof states / sizeof states[0]; s++) {
        for (size_t l = 0; l < sizeof letters / sizeof letters[0]; l++) {
            printf("%" PRIu32 " %" PRIu64 " %zu\n", states[s], letters[l], twolsken_work_area(states[s], letters[l]));
        }
    }
    return 0;
}
