/* Calls of include/butrask.h and include/butrask_probe.h from C: each function once, cases of
   SPECIFICATION 12.1, and the answers that are no refusal numbers. Prints each expectation that
   fails; the exit status is their number. */
#include "butrask_probe.h"

#include <stdio.h>
#include <string.h>

static int failed;

#define EXPECT(what)                                                   \
    do {                                                               \
        if (!(what)) {                                                 \
            printf("calls.c:%d: not so: %s\n", __LINE__, #what);       \
            failed++;                                                  \
        }                                                              \
    } while (0)

#define ONE 0x3ff0000000000000u
#define TWO 0x4000000000000000u
#define MINUS_ONE 0xbff0000000000000u
#define NAN_PATTERN 0x7ff8000000000000u
#define WORDS BUTRASK_STATE_WORDS
#define RECORDS 4

/* Slices with their numbers of words, as calls take them. */
#define STATE state, WORDS
#define GATE(patterns) patterns, BUTRASK_GATE_WORDS
#define LEFT left, 3 * RECORDS
#define STORES LEFT, right, 3 * RECORDS

/* Gate 1 1 -1 1, real. */
static const uint64_t gate[BUTRASK_GATE_WORDS] = {ONE, 0, ONE, 0, MINUS_ONE, 0, ONE, 0};

static uint64_t left[3 * RECORDS], right[3 * RECORDS], third[1], state[WORDS], out[3];

/* Keys of two words that differ in qubit 1, and then in their second words. */
static const uint64_t key_a[3] = {3, 2}, key_b[3] = {1, 9};

static uint64_t perform(size_t q, const uint64_t *g) {
    return butrask_perform_u4(STATE, q, GATE(g), STORES, out, BUTRASK_GATE_RESULTS);
}

/* The example of SPECIFICATION 9.3: gate 1 1 -1 1 on qubit 0 of a fresh state, then the sums for
   qubit 0; and case c, the gate again. */
static void words(void) {
    EXPECT(butrask_fresh(1, STATE, LEFT) == 0);
    EXPECT(state[0] == 1 && state[1] == 0 && state[2] == 1 && state[3] == 0 && state[4] == 1 &&
           state[5] == 0);
    EXPECT(butrask_check(STATE, STORES) == 0);
    EXPECT(butrask_forecast(STATE, 0, GATE(gate), STORES, out, 1) == 0 && out[0] == 1);
    EXPECT(perform(0, gate) == 0);
    EXPECT(state[1] == 1 && state[2] == 1 && state[3] == 1 && state[5] == 0);
    EXPECT(right[0] == 0 && right[1] == ONE && right[2] == 0 && right[3] == 1 &&
           right[4] == ONE && right[5] == 0);
    EXPECT(butrask_premeasure(STATE, 0, STORES, out, 2) == 0);
    EXPECT(out[0] == ONE && out[1] == ONE);
    EXPECT(butrask_collapse_delta(STATE, 0, GATE(gate), 0, STORES, out, 1) == 0);
    EXPECT((int64_t)out[0] == -1);
    EXPECT(butrask_export(STATE, STORES, out, 2) == 0 && out[0] == 1 && out[1] == 6);
    const uint64_t key = 1, absent = 2;
    EXPECT(butrask_lookup(STATE, &key, 1, STORES, out, 3) == 0);
    EXPECT(out[0] == 1 && out[1] == ONE && out[2] == 0);
    EXPECT(butrask_lookup(STATE, &absent, 1, STORES, out, 3) == 0 && out[0] == 0);
    EXPECT(butrask_measure(STATE, 0, 1, ONE, STORES) == 0);
    EXPECT(state[2] == 0 && state[3] == 1 && right[0] == 1);
    const uint64_t dense[4] = {ONE, 0, 0, ONE};
    EXPECT(butrask_import_dense(1, dense, 4, 0, STATE, STORES) == 0);
    EXPECT(state[1] == 0 && state[2] == 2 && state[3] == 0 && state[4] == 0 && left[3] == 1 &&
           left[5] == ONE);
}

/* Gate 1 1 -1 1 twice, an outcome that is neither 0 nor 1, and a run that goes on after it. */
static void runs(void) {
    uint64_t steps[3 * BUTRASK_STEP_WORDS] = {0};
    for (int i = 0; i < 2; i++) {
        steps[10 * i] = 1;
        memcpy(steps + 10 * i + 2, gate, sizeof gate);
    }
    steps[20] = 2;
    steps[22] = 7;
    steps[23] = ONE;
    EXPECT(butrask_fresh(1, STATE, LEFT) == 0);
    EXPECT(butrask_run(STATE, steps, 30, STORES, out, 1) == BUTRASK_STEP);
    EXPECT(out[0] == 2 && state[1] == 0 && state[2] == 1 && state[3] == 0 && left[1] == TWO);
    EXPECT(butrask_run(STATE, steps, 10, STORES, out, 1) == 0);
    EXPECT(out[0] == 1 && state[2] == 1 && state[3] == 1);
    EXPECT(butrask_run(STATE, steps, 0, STORES, out, 1) == 0 && out[0] == 0);
    EXPECT(butrask_run(STATE, steps, 9, STORES, out, 1) == BUTRASK_STEP && out[0] == 0);
    EXPECT(state[2] == 1 && state[3] == 1);
    EXPECT(butrask_run(STATE, steps, 19, STORES, out, 1) == BUTRASK_STEP && out[0] == 1);
    EXPECT(state[2] == 1 && state[3] == 0);
}

/* All words that calls are lent, as they were when `keep` was called. */
static uint64_t kept_left[3 * RECORDS], kept_right[3 * RECORDS], kept_state[WORDS], kept_out[3];

static void keep(void) {
    memcpy(kept_left, left, sizeof left);
    memcpy(kept_right, right, sizeof right);
    memcpy(kept_state, state, sizeof state);
    memcpy(kept_out, out, sizeof out);
}

static int unchanged(void) {
    return memcmp(kept_left, left, sizeof left) == 0 &&
           memcmp(kept_right, right, sizeof right) == 0 &&
           memcmp(kept_state, state, sizeof state) == 0 &&
           memcmp(kept_out, out, sizeof out) == 0;
}

/* Refused calls, and slices of another length: nothing changes. */
static void refusals(void) {
    memset(left, 0x11, sizeof left);
    memset(right, 0x22, sizeof right);
    memset(out, 0x33, sizeof out);
    EXPECT(butrask_fresh(1, STATE, LEFT) == 0);
    keep();
    const uint64_t odd[BUTRASK_GATE_WORDS] = {NAN_PATTERN};
    EXPECT(perform(0, odd) == BUTRASK_NOT_FINITE);
    EXPECT(perform(64, gate) == BUTRASK_QUBIT);
    EXPECT(perform(64, odd) == BUTRASK_QUBIT);
    EXPECT(butrask_fresh(3, STATE, LEFT) == BUTRASK_WIDTH);
    EXPECT(butrask_fresh(1, STATE, left, 2) == BUTRASK_FULL);
    EXPECT(butrask_measure(STATE, 0, 2, ONE, STORES) == BUTRASK_STEP);
    EXPECT(butrask_measure(STATE, 0, 0, 0, STORES) == BUTRASK_OVERFLOW);
    EXPECT(butrask_lookup(STATE, gate, 2, STORES, out, 3) == BUTRASK_LENGTH);
    EXPECT(butrask_lookup(STATE, gate, 1, STORES, out, 2) == BUTRASK_WRONG_LENGTH);
    EXPECT(butrask_check(state, WORDS - 1, STORES) == BUTRASK_WRONG_LENGTH);
    EXPECT(butrask_perform_u4(STATE, 0, gate, BUTRASK_GATE_WORDS - 1, STORES, out,
                              BUTRASK_GATE_RESULTS) == BUTRASK_WRONG_LENGTH);
    EXPECT(butrask_perform_u4(STATE, 0, GATE(gate), STORES, out, BUTRASK_GATE_RESULTS + 1) ==
           BUTRASK_WRONG_LENGTH);
    EXPECT(butrask_premeasure(STATE, 64, STORES, out, 2) == BUTRASK_QUBIT);
    EXPECT(butrask_forecast(STATE, 0, GATE(odd), STORES, out, 1) == BUTRASK_NOT_FINITE);
    EXPECT(butrask_collapse_delta(STATE, 64, GATE(gate), 0, STORES, out, 1) == BUTRASK_QUBIT);
    EXPECT(butrask_export(STATE, STORES, out, 3) == BUTRASK_WRONG_LENGTH);
    EXPECT(butrask_import_dense(1, gate, 3, 1, STATE, STORES) == BUTRASK_LENGTH);
    EXPECT(butrask_run(STATE, gate, 0, STORES, out, 2) == BUTRASK_WRONG_LENGTH);
    EXPECT(unchanged());
}

/* A front mark of 2 or more is right, a flag of 2 or more is a tag, and the tag's word has no
   meaning where the flag is 0. */
static void unusual(void) {
    EXPECT(butrask_fresh(1, STATE, LEFT) == 0);
    EXPECT(perform(0, gate) == 0 && state[1] == 1);
    state[1] = 2;
    state[4] = UINT64_MAX;
    keep();
    EXPECT(butrask_check(STATE, STORES) == 0);
    EXPECT(perform(64, gate) == BUTRASK_QUBIT);
    EXPECT(unchanged());
    EXPECT(butrask_export(STATE, STORES, out, 2) == 0 && out[0] == 1 && out[1] == 6);
    EXPECT(perform(0, gate) == 0);
    EXPECT(state[1] == 0 && state[2] == 1 && state[3] == 0 && state[4] == 1 && state[5] == 0 &&
           left[1] == TWO);
    state[4] = 0;
    state[5] = UINT64_MAX;
    EXPECT(butrask_check(STATE, STORES) == 0);
    EXPECT(butrask_measure(STATE, 0, 0, TWO, STORES) == 0);
    EXPECT(state[2] == 1 && state[4] == 0 && state[5] == 0 && left[1] == ONE);
}

/* The weight of a gate that the exact table covers, and that another has none. */
static void weights(void) {
    const uint64_t same[BUTRASK_GATE_WORDS] = {ONE, 0, ONE, 0, ONE, 0, ONE, 0};
    EXPECT(butrask_gate_weight(GATE(gate), out, 2) == 0 && out[0] == 1 && out[1] == TWO);
    EXPECT(butrask_gate_weight(GATE(same), out, 2) == 0 && out[0] == 0 && out[1] == 0);
    EXPECT(butrask_gate_weight(gate, BUTRASK_GATE_WORDS - 1, out, 2) == BUTRASK_WRONG_LENGTH);
    EXPECT(butrask_gate_weight(GATE(gate), out, 3) == BUTRASK_WRONG_LENGTH);
}

/* Whether a comparison of the keys is done, and gives this order and number of pairs. */
static int compares(uint64_t left_out, size_t qubit, int64_t order, uint64_t pairs) {
    return butrask_compare(2, left_out, qubit, key_a, 2, key_b, 2, out, 2) == 0 &&
           (int64_t)out[0] == order && out[1] == pairs;
}

/* Comparisons of keys, with a qubit that is left out and without, and their refusals in order. */
static void comparisons(void) {
    EXPECT(compares(0, 0, 1, 1));
    EXPECT(compares(0, SIZE_MAX, 1, 1));
    EXPECT(compares(1, 1, -1, 2));
    EXPECT(compares(UINT64_MAX, 1, -1, 2));
    EXPECT(compares((uint64_t)1 << 32, 1, -1, 2));
    EXPECT(compares(1, 127, 1, 1));
    EXPECT(butrask_compare(2, 0, 0, key_b, 2, key_a, 2, out, 2) == 0);
    EXPECT((int64_t)out[0] == -1 && out[1] == 1);
    EXPECT(butrask_compare(2, 1, 1, key_b, 2, key_a, 2, out, 2) == 0);
    EXPECT(out[0] == 1 && out[1] == 2);
    EXPECT(butrask_compare(2, 1, 1, key_a, 2, key_a, 2, out, 2) == 0 && out[0] == 0 && out[1] == 2);
    EXPECT(butrask_compare(1, 1, 1, key_a, 1, key_b, 1, out, 2) == 0 && out[0] == 0 && out[1] == 1);
    keep();
    EXPECT(butrask_compare(2, 1, 128, key_a, 2, key_b, 2, out, 2) == BUTRASK_QUBIT);
    EXPECT(butrask_compare(2, 1, 128, key_a, 1, key_b, 2, out, 2) == BUTRASK_QUBIT);
    EXPECT(butrask_compare(3, 1, SIZE_MAX, key_a, 2, key_b, 2, out, 2) == BUTRASK_WIDTH);
    EXPECT(butrask_compare(2, 0, 0, key_a, 1, key_b, 2, out, 2) == BUTRASK_LENGTH);
    EXPECT(butrask_compare(2, 0, 0, key_a, 2, key_b, 3, out, 2) == BUTRASK_LENGTH);
    EXPECT(butrask_compare(2, 0, 0, key_a, 3, key_b, 3, out, 2) == BUTRASK_LENGTH);
    EXPECT(butrask_compare(2, 0, 0, key_a, 2, key_b, 2, out, 1) == BUTRASK_WRONG_LENGTH);
    EXPECT(butrask_compare(3, 1, 128, key_a, 1, key_b, 1, out, 3) == BUTRASK_WRONG_LENGTH);
    EXPECT(unchanged());
}

/* A comparison by its number, with no bytes for a state and the stores. */
static uint64_t compared(size_t width, uint64_t left_out, size_t a_bytes, size_t b_bytes,
                         size_t out_bytes) {
    return butrask_call_bytes(BUTRASK_CALL_COMPARE, (uint8_t *)state, 0, width, left_out, 1,
                              (const uint8_t *)key_a, a_bytes, (const uint8_t *)key_b, b_bytes,
                              (uint8_t *)left, 0, (uint8_t *)right, 0, (uint8_t *)third, 0,
                              (uint8_t *)out, out_bytes);
}

/* A call by its number, with the state, the stores and as many bytes of the argument and for
   results. */
static uint64_t numbered(uint64_t number, size_t a, const void *arg, size_t arg_bytes,
                         size_t out_bytes) {
    return butrask_call_bytes(number, (uint8_t *)state, sizeof state, a, 0, 0, arg, arg_bytes, arg,
                              0, (uint8_t *)left, sizeof left, (uint8_t *)right, sizeof right,
                              (uint8_t *)third, sizeof third, (uint8_t *)out, out_bytes);
}

/* The same on bytes. The words of this machine are little-endian, so its arrays are in the file
   form. */
static void bytes(void) {
    memset(left, 0, sizeof left);
    memset(right, 0, sizeof right);
    EXPECT(numbered(BUTRASK_CALL_FRESH, 1, gate, 0, 0) == 0);
    EXPECT(numbered(BUTRASK_CALL_PERFORM_U4, 0, gate, 64, 0) == 0);
    EXPECT(state[1] == 1 && state[2] == 1 && state[3] == 1 && right[3] == 1 && right[4] == ONE);
    EXPECT(numbered(BUTRASK_CALL_PREMEASURE, 0, gate, 0, 16) == 0 && out[0] == ONE &&
           out[1] == ONE);
    uint64_t step[BUTRASK_STEP_WORDS] = {1};
    memcpy(step + 2, gate, sizeof gate);
    EXPECT(numbered(BUTRASK_CALL_RUN, 0, step, 80, 8) == 0 && out[0] == 1);
    EXPECT(state[1] == 0 && state[2] == 1 && state[3] == 0 && left[1] == TWO);
    EXPECT(numbered(BUTRASK_CALL_RUN, 0, step, 72, 8) == BUTRASK_STEP && out[0] == 0);
    EXPECT(numbered(BUTRASK_CALL_RUN, 0, step, 79, 8) == BUTRASK_STEP && out[0] == 0);
    EXPECT(numbered(BUTRASK_CALL_PERFORM_U4, 0, gate, 64, 0) == 0);
    keep();
    EXPECT(numbered(BUTRASK_CALL_PERFORM_U4, 64, gate, 64, 0) == BUTRASK_QUBIT);
    EXPECT(numbered(BUTRASK_CALL_PERFORM_U4, 0, gate, 63, 0) == BUTRASK_WRONG_LENGTH);
    EXPECT(numbered(BUTRASK_CALL_LOOKUP, 0, gate, 9, 24) == BUTRASK_LENGTH);
    EXPECT(numbered(BUTRASK_CALL_IMPORT_DENSE, 1, gate, 17, 0) == BUTRASK_LENGTH);
    EXPECT(numbered(BUTRASK_CALL_PREMEASURE, 0, gate, 0, 15) == BUTRASK_WRONG_LENGTH);
    EXPECT(numbered(BUTRASK_CALL_PERFORM_U4, 0, gate, 56, 0) == BUTRASK_WRONG_LENGTH);
    EXPECT(numbered(BUTRASK_CALL_CHECK, 0, gate, 0, 0) == 0);
    EXPECT(numbered(13, 0, gate, 0, 0) == BUTRASK_NO_CALL);
    EXPECT(compared(2, 1, 15, 16, 16) == BUTRASK_LENGTH);
    EXPECT(compared(2, 1, 16, 17, 16) == BUTRASK_LENGTH);
    EXPECT(compared(2, 1, 16, 16, 15) == BUTRASK_WRONG_LENGTH);
    EXPECT(compared(3, 1, 16, 16, 16) == BUTRASK_WIDTH);
    EXPECT(unchanged());
    EXPECT(state[1] == 1 && state[2] == 1 && state[3] == 1 && right[3] == 1 && right[4] == TWO);
    EXPECT(compared(2, 0, 16, 16, 16) == 0 && out[0] == 1 && out[1] == 1);
    EXPECT(compared(2, 1, 16, 16, 16) == 0 && (int64_t)out[0] == -1 && out[1] == 2);
    EXPECT(compared(1, 1, 8, 8, 16) == 0 && out[0] == 0 && out[1] == 1);
}

int main(void) {
    words();
    runs();
    refusals();
    unusual();
    weights();
    comparisons();
    bytes();
    return failed;
}
