/* Functions for tests, in an archive of their own: crates/probe/out/libprobe.a, which `rt lib`
   writes in crates/probe. Nothing of the shipped library needs it. What they give is stated by
   crates/probe/specs and crates/numbered/specs/Numbered.antt. */
#ifndef BUTRASK_PROBE_H
#define BUTRASK_PROBE_H

#include "butrask.h"

#ifdef __cplusplus
extern "C" {
#endif

/* ---- any call by its number on bytes: words in the file form, little-endian, each slice at most
   65536 bytes, so a run has up to 819 steps. For comparisons with other programs: the slices are
   copied, into arrays that take about 450 KiB of stack. A longer slice gives BUTRASK_WRONG_BYTES,
   and a number that is none of those below BUTRASK_NO_CALL; then nothing changes. What a call has
   no use for it leaves as it was, whatever its length.

   STRAY BYTES, the last ones of a slice whose length is no multiple of 8, are read as what is not
   whole (SPECIFICATION 14.2):
     a store        they are outside its capacity: the call is made on the whole words, and they
                    stay as they were
     a key          it is not width words: BUTRASK_LENGTH, after the tests that stand before it
     a dense list   it is odd: BUTRASK_LENGTH, after the test of its whole words for
                    BUTRASK_NOT_FINITE
     steps          they belong to one last step, which is refused: BUTRASK_STEP, after the whole
                    steps were run
   A state, a gate or a slice for results with stray bytes is lent as no words, which is the wrong
   length: BUTRASK_WRONG_LENGTH, as any other wrong length of these. Only a gate's results are no
   words, as yet, so that stray bytes there are left alone. A comparison takes no state: there the
   state's bytes may be of any number, and stay. No other call has a use for the second argument,
   and none for the third buffer, which is for later calls. */

enum {
    BUTRASK_CALL_PERFORM_U4 = 1,     /* a qubit (below 64 * width), arg gate (8 words) */
    BUTRASK_CALL_MEASURE = 2,        /* a qubit (below 64 * width), b outcome (0 or 1),
                                        c scale (a pattern) */
    BUTRASK_CALL_PREMEASURE = 3,     /* a qubit (below 64 * width); out sum 0, sum 1 */
    BUTRASK_CALL_FRESH = 4,          /* a width (one of the list) */
    BUTRASK_CALL_IMPORT_DENSE = 5,   /* a width (one of the list), b store (0 left, else right),
                                        arg list (pairs re, im) */
    BUTRASK_CALL_CHECK = 6,
    BUTRASK_CALL_LOOKUP = 7,         /* arg key (width words); out found, re, im */
    BUTRASK_CALL_EXPORT = 8,         /* out store, words */
    BUTRASK_CALL_COLLAPSE_DELTA = 9, /* a qubit (below 64 * width), b index (any number),
                                        arg gate (8 words); out change */
    BUTRASK_CALL_FORECAST = 10,      /* a qubit (below 64 * width), arg gate (8 words);
                                        out change */
    BUTRASK_CALL_RUN = 11,           /* arg steps (10 words each); out done */
    BUTRASK_CALL_COMPARE = 12        /* a width (one of the list),
                                        b left_out (0: none left out, else c is),
                                        c qubit (below 64 * width), arg a (width words),
                                        arg2 b (width words); out order, pairs */
};

uint64_t butrask_call_bytes(uint64_t number, uint8_t *state, size_t state_bytes, size_t a,
                            uint64_t b, uint64_t c, const uint8_t *arg, size_t arg_bytes,
                            const uint8_t *arg2, size_t arg2_bytes, uint8_t *left,
                            size_t left_bytes, uint8_t *right, size_t right_bytes, uint8_t *third,
                            size_t third_bytes, uint8_t *out, size_t out_bytes);

/* One result of the operations on amplitudes, for the comparison with another language's operators;
   `which` counts as crates/probe/specs/Results.antt does. */
double butrask_amplitude(uint64_t which, double a_re, double a_im, double b_re, double b_im,
                         double scale);

#ifdef __cplusplus
}
#endif

#endif
