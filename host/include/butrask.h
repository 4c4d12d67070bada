/* Butrask for C: a sparse statevector over two stores that the caller lends. Every function below
   is proved; what it gives is stated, for every input, by the definitions of
   crates/calls/specs/Calls.antt, crates/step_lists/specs/Lists.antt and
   crates/butrask/specs/Weights.antt, and in words by docs/SPECIFICATION.md. Link
   crates/butrask/out/libbutrask.a, which `rt lib` writes in crates/butrask.

   WORDS. All data are words of 64 bits. A lent slice is a pointer and its number of elements; the
   pointer is not NULL, even where the number is 0. Slices of one call don't overlap, except that
   two which are only read (const) may overlap or be the same.

   A STORE holds records of width + 2 words: the key's words, then the bit patterns of re and im
   (IEEE 754, 64 bits). Width is 1, 2, 6, 14, 22, 30, 46 or 62. Qubit q is bit q % 64 of key word
   q / 64.

   A STATE is BUTRASK_STATE_WORDS words:
     0 width
     1 front: the store that holds the records, 0 left, 1 right (on the way in any other number than
       0 is right)
     2 n0, 3 n1: the sizes of part 0 and part 1
     4 tagged: 0 where there is no tag, else 1 (on the way in any other number than 0 is a tag)
     5 tag: the qubit by which the parts are told apart, 0 where there is none
   A call reads these words. One that makes a state writes them, but only where it was done; a run
   writes them also where it was stopped (see there). A state says where records stand and does not
   hold them: an older copy of its words may be accepted with newer words in the stores, and then
   means these. Go on with what the last call wrote.

   A GATE is BUTRASK_GATE_WORDS patterns: re and im of s0, f0, s1, f1, stay and flip from bit clear,
   stay and flip from bit set. An infinity or a NaN in a gate or a scale is refused with 6.

   FLOATS are computed in the floating-point environment of the calling thread, which has to be the
   one that C and Rust start with: rounding to nearest, subnormals kept (no flush to zero, no
   denormals-are-zero; -ffast-math at linking sets both on some systems). Under any other results
   may differ from those promised, and nothing says so.

   ANSWERS. 0: done. 1 to 10: refused, with the number of SPECIFICATION 10.1. BUTRASK_WRONG_LENGTH:
   the state, the gate or the slice for results has the wrong length. butrask_refusal_name has a
   text for each. After any answer but 0 the state's words and the words for results are as they
   were (but for a run, see there), and so are the stores, but for one case: a gate that is refused
   after it repartitioned the records leaves these at the start of the back store. */
#ifndef BUTRASK_H
#define BUTRASK_H

#include <stddef.h>
#include <stdint.h>

#ifdef __cplusplus
extern "C" {
#endif

enum {
    BUTRASK_DONE = 0,
    BUTRASK_WIDTH = 1,      /* the width is none of 1, 2, 6, 14, 22, 30, 46 and 62 */
    BUTRASK_QUBIT = 2,      /* the qubit is 64 * width or more */
    BUTRASK_COUNT = 3,      /* n0 + n1 exceeds the records of the front store */
    BUTRASK_ORDER = 4,      /* the keys of a part don't rise, or a key is in both parts */
    BUTRASK_SIDE = 5,       /* the tag is 64 * width or more, or a key is on the wrong side of it */
    BUTRASK_NOT_FINITE = 6, /* an amplitude, gate, scale or dense part is infinite or NaN */
    BUTRASK_LENGTH = 7,     /* a dense list is odd, or a key is not width words */
    BUTRASK_OVERFLOW = 8,   /* a part that the call computes is not finite */
    BUTRASK_FULL = 9,       /* the records to write exceed the store */
    BUTRASK_STEP = 10,      /* a step is malformed or is a premeasure in a list, words follow the
                               last whole step, or an outcome is neither 0 nor 1 */
    BUTRASK_WRONG_LENGTH = 100, /* a state, a gate or a slice for results has the wrong length */
    BUTRASK_WRONG_BYTES = 101,  /* a slice has more bytes than a call on bytes takes */
    BUTRASK_NO_CALL = 102       /* no call has this number */
};

/* How many words a state, a gate, the results of a gate (none as yet) and a step have. */
enum {
    BUTRASK_STATE_WORDS = 6,
    BUTRASK_GATE_WORDS = 8,
    BUTRASK_GATE_RESULTS = 0,
    BUTRASK_STEP_WORDS = 10
};

/* What an answer says, with its number: "the records to write exceed the store: 9". */
static inline const char *butrask_refusal_name(uint64_t answer) {
    switch (answer) {
    case BUTRASK_DONE:
        return "done";
    case BUTRASK_WIDTH:
        return "the width is none of 1, 2, 6, 14, 22, 30, 46 and 62: 1";
    case BUTRASK_QUBIT:
        return "the qubit is 64 * width or more: 2";
    case BUTRASK_COUNT:
        return "n0 + n1 exceeds the records of the front store: 3";
    case BUTRASK_ORDER:
        return "the keys of a part don't rise, or a key is in both parts: 4";
    case BUTRASK_SIDE:
        return "the tag is 64 * width or more, or a key is on the wrong side of it: 5";
    case BUTRASK_NOT_FINITE:
        return "an amplitude, gate, scale or dense part is infinite or NaN: 6";
    case BUTRASK_LENGTH:
        return "a dense list is odd, or a key is not width words: 7";
    case BUTRASK_OVERFLOW:
        return "a part that the call computes is not finite: 8";
    case BUTRASK_FULL:
        return "the records to write exceed the store: 9";
    case BUTRASK_STEP:
        return "a step is malformed or is a premeasure in a list, words follow the last whole "
               "step, or an outcome is neither 0 nor 1: 10";
    case BUTRASK_WRONG_LENGTH:
        return "a state, a gate or a slice for results has the wrong length: 100";
    case BUTRASK_WRONG_BYTES:
        return "a slice has more bytes than a call on bytes takes: 101";
    case BUTRASK_NO_CALL:
        return "no call has this number: 102";
    default:
        return "no call gives this answer";
    }
}

/* ---- calls that read; `out` has the number of words given */

/* Whether a state is accepted (SPECIFICATION 1.5). */
uint64_t butrask_check(const uint64_t *state, size_t state_words, const uint64_t *left,
                       size_t left_words, const uint64_t *right, size_t right_words);

/* The amplitude at a key of `width` words. out, 3 words: 1 if there is one, else 0; re and im, 0
   where there is none. */
uint64_t butrask_lookup(const uint64_t *state, size_t state_words, const uint64_t *key,
                        size_t key_words, const uint64_t *left, size_t left_words,
                        const uint64_t *right, size_t right_words, uint64_t *out, size_t out_words);

/* Where the records stand. out, 2 words: the store, 0 left or 1 right, and how many of its first
   words they are, 0 where butrask_check refuses the state. The answer is 0 there too. */
uint64_t butrask_export(const uint64_t *state, size_t state_words, const uint64_t *left,
                        size_t left_words, const uint64_t *right, size_t right_words, uint64_t *out,
                        size_t out_words);

/* out, 2 words: the patterns of the sums of re*re + im*im for outcomes 0 and 1. They may be
   infinite. */
uint64_t butrask_premeasure(const uint64_t *state, size_t state_words, size_t qubit,
                            const uint64_t *left, size_t left_words, const uint64_t *right,
                            size_t right_words, uint64_t *out, size_t out_words);

/* Estimates from entry `index`, modulo the number of entries, by how much a gate would change that
   number (SPECIFICATION 5.2). out, 1 word, in two's complement. */
uint64_t butrask_collapse_delta(const uint64_t *state, size_t state_words, size_t qubit,
                                const uint64_t *gate, size_t gate_words, size_t index,
                                const uint64_t *left, size_t left_words, const uint64_t *right,
                                size_t right_words, uint64_t *out, size_t out_words);

/* The sum of butrask_collapse_delta over all entries, halved toward zero. out, 1 word, in two's
   complement. */
uint64_t butrask_forecast(const uint64_t *state, size_t state_words, size_t qubit,
                          const uint64_t *gate, size_t gate_words, const uint64_t *left,
                          size_t left_words, const uint64_t *right, size_t right_words,
                          uint64_t *out, size_t out_words);

/* ---- calls that make a state */

/* Key 0 with amplitude 1, tag 0, in the left store. */
uint64_t butrask_fresh(size_t width, uint64_t *state, size_t state_words, uint64_t *left,
                       size_t left_words);

/* A gate on a qubit. out, BUTRASK_GATE_RESULTS words: none as yet. */
uint64_t butrask_perform_u4(uint64_t *state, size_t state_words, size_t qubit, const uint64_t *gate,
                            size_t gate_words, uint64_t *left, size_t left_words, uint64_t *right,
                            size_t right_words, uint64_t *out, size_t out_words);

/* Keeps the entries with an outcome, 0 or 1, and divides them by a scale, which is a pattern. The
   scale that leaves squares with the sum 1 is the square root of butrask_premeasure's sum for that
   outcome; the caller takes the root. */
uint64_t butrask_measure(uint64_t *state, size_t state_words, size_t qubit, uint64_t outcome,
                         uint64_t scale, uint64_t *left, size_t left_words, uint64_t *right,
                         size_t right_words);

/* The patterns re, im, re, im, .. as a state in a store, 0 left, else right: pairs below 2^-40 are
   left out. */
uint64_t butrask_import_dense(size_t width, const uint64_t *list, size_t list_words, uint64_t store,
                              uint64_t *state, size_t state_words, uint64_t *left,
                              size_t left_words, uint64_t *right, size_t right_words);

/* Runs a list of steps in order, to the first that is refused. A step is ten words: kind, qubit,
   eight more; kind 1 is a gate and its eight patterns, kind 2 a measurement, an outcome, a scale
   and six zeros. The answer is what stopped the run, or 0. out, 1 word: how many steps were done;
   the state is the one after them. An empty list has its state checked. State and out are written
   after any answer but BUTRASK_WRONG_LENGTH: where no step was done, or an empty list's state is
   refused, the state is the given one, in words as above (a front of 2 becomes 1). Words after the
   last whole step are one step more, refused with 10 when it is reached. A list may go in pieces of
   one step or more: stop at the first answer other than 0, and add up `out`; then answer, sum,
   state and stores are those of the run of all. */
uint64_t butrask_run(uint64_t *state, size_t state_words, const uint64_t *steps, size_t steps_words,
                     uint64_t *left, size_t left_words, uint64_t *right, size_t right_words,
                     uint64_t *out, size_t out_words);

/* ---- a gate's weight */

/* Whether the exact table (SPECIFICATION 11) covers a gate: its parts are whole and at most 16 in
   size, and its columns orthogonal and of one squared length, which is its weight. out, 2 words: 1
   and the weight's pattern, or 0 and 0 for any other gate. */
uint64_t butrask_gate_weight(const uint64_t *gate, size_t gate_words, uint64_t *out,
                             size_t out_words);

/* ---- a comparison of keys */

/* The order of two keys of `width` words (SPECIFICATION 1.2), which is that of the first pair of
   words that differs; word 0 is compared first. left_out: 0 where no qubit is left out, and then
   `qubit` is not looked at; any other number: `qubit` is left out, that is, its bit is taken for
   clear in both keys. out, 2 words: -1 where a is less, 0 where they are equal, 1 where a is
   greater, in two's complement; and how many pairs of words were compared, the first that differs
   being the last of them: width where none differs. Takes no state and no store. Answers: 0, 1, 2
   for a qubit that is left out, 7 where a or b is not `width` words, and before these
   BUTRASK_WRONG_LENGTH. */
uint64_t butrask_compare(size_t width, uint64_t left_out, size_t qubit, const uint64_t *a,
                         size_t a_words, const uint64_t *b, size_t b_words, uint64_t *out,
                         size_t out_words);

#ifdef __cplusplus
}
#endif

#endif
