/* A qubit in superposition, and the sums of squares for its outcomes. */
#include "butrask.h"

#include <stdio.h>
#include <string.h>

#define ONE 0x3ff0000000000000u /* the bit pattern of 1.0 */
#define MINUS_ONE 0xbff0000000000000u
#define WORDS (3 * 4) /* four records of width 1: key, re, im */

int main(void) {
    uint64_t left[WORDS] = {0}, right[WORDS] = {0}; /* the two stores */
    uint64_t state[BUTRASK_STATE_WORDS], patterns[2];
    uint64_t counts[BUTRASK_GATE_RESULTS + 1]; /* + 1: C has no array of 0 words */
    const uint64_t gate[BUTRASK_GATE_WORDS] = {ONE, 0, ONE, 0, MINUS_ONE, 0, ONE, 0};
    double sums[2];

    uint64_t answer = butrask_fresh(1, state, BUTRASK_STATE_WORDS, left, WORDS);
    if (answer == BUTRASK_DONE)
        answer = butrask_perform_u4(state, BUTRASK_STATE_WORDS, 0, gate, BUTRASK_GATE_WORDS,
                                    left, WORDS, right, WORDS, counts, BUTRASK_GATE_RESULTS);
    if (answer == BUTRASK_DONE)
        answer = butrask_premeasure(state, BUTRASK_STATE_WORDS, 0, left, WORDS, right, WORDS,
                                    patterns, 2);
    if (answer != BUTRASK_DONE) {
        fprintf(stderr, "refused: %s\n", butrask_refusal_name(answer));
        return 1;
    }
    memcpy(sums, patterns, sizeof sums);
    printf("sizes %d %d, sums %g %g\n", (int)state[2], (int)state[3], sums[0], sums[1]);
    return 0;
}
