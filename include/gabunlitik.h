/* gabunlitik.h: packet loss measured with Fermat sketches, for C.
 *
 * Link target/staticlib/libface.a, which `./archive` proves and writes for Linux on x86-64-v2 and later. examples/lost.c is a first program.
 *
 * What every call promises
 *
 * It ends, and it takes every input: what cannot be done is refused by number. It returns 0 where it is done and else one of the
 * refusals below. *place is then the lowest bucket at fault for DAMAGE and RANGE of the sketches that are lent, or, for RANGE of a fold,
 * of the folded sketch; for every fault of a record in a file that is read, the offset of its kind byte, or the file's length where a
 * record is missing; and 0 for anything else, as it is where nothing was refused. A refusal alters no lent memory. What a call returns
 * through `place`, `length`, `figures`, `position`, `index` and the parameters of a head or of a folded sketch is written at every call,
 * and is 0 where the call is refused, save for `place`. Where several things are wrong the lowest number is returned, save that MISMATCH
 * comes after PARAM and before LENGTH, that FOLD comes after LENGTH and before DAMAGE, that of a list of packets that are inserted the
 * first that is refused decides, and that a file is judged in its own order (docs/FORMAT.md).
 *
 * What the memory must be, which no call can check
 *
 * A slice goes as a pointer and the number of its elements. Every pointer is aligned for its type and not NULL, even where the
 * length is 0, and points to at least so many elements that may be read, and written where it is not const, until the call returns.
 * Memory that is lent holds numbers, of whatever value: it is initialised, save what `place`, `length`, `figures`, `position`,
 * `index` and the parameters of a head or of a folded sketch point to. Nothing that a call may write, these among it, overlaps anything
 * else that is handed to that call. Nothing that is handed to a call changes until it returns, except by the call: a capture buffer or
 * a mapped file that another thread, process or device still writes to is copied first. What a call writes is not read by another thread
 * meanwhile.
 *
 * A sketch is lent as two slices, counts and idsums, each d * m long; a slice of another length is LENGTH. The lengths are
 * parameters of their own, so that a slice which is too short is refused and not read past its end.
 */
#ifndef GABUNLITIK_H
#define GABUNLITIK_H

#include <stddef.h>
#include <stdint.h>

#ifdef __cplusplus
extern "C" {
#endif

/* What a call returns: done, or why not. */
enum {
    GABUNLITIK_DONE = 0,
    GABUNLITIK_PARAM = 1,    /* the parameters break a rule */
    GABUNLITIK_LENGTH = 2,   /* a slice has a length other than stated */
    GABUNLITIK_FLOW = 3,     /* a flow number that is 0, or 2147483647 or more; with fingerprints, 0 or 8388607 or more */
    GABUNLITIK_COUNT = 4,    /* a packet's number is 0, or 2147483647 or more */
    GABUNLITIK_DAMAGE = 5,   /* a bucket that was looked at is outside its limits */
    GABUNLITIK_RANGE = 6,    /* a new count would leave its limits */
    GABUNLITIK_MISMATCH = 7, /* two sketches, or a sketch and a file, with different parameters */
    GABUNLITIK_FORM = 8,     /* a file breaks the layout */
    GABUNLITIK_FOLD = 9      /* a sketch is to be folded to 0 buckets an array, or to a number that does not divide m */
};

/* The fourteen numbers of `params`, all of which are set; what breaks a rule is PARAM.
 *
 *   0       d arrays, 2 to 4
 *   1       m buckets in each, 1 to 16384
 *   2 to 5  four multipliers
 *   6 to 9  four offsets
 *   10      the number of the prime: 1, which stands for 2147483647
 *   11, 12  the multiplier and the offset of the fifth pair
 *   13      0, kept free for another sort of sketch
 *
 * Of the first d pairs of a multiplier and an offset no two are equal, a multiplier is 1 to 2147483646 and an offset 0 to 2147483646; the
 * numbers of the pairs after them are 0.
 *
 * Two profiles. In the plain one both numbers of the fifth pair are 0, and a flow is 1 to 2147483646. With fingerprints the fifth multiplier
 * is 1 to 2147483646 and its offset 0 to 2147483646 (draw both at random; the pair may equal another), and a flow is 1 to 8388606. What is
 * sketched for flow f is then f * 256 + fingerprint, where the fingerprint is ((multiplier * f + offset) mod 2147483647) mod 256: positions,
 * idsums, the idsums that remain and those in files are of that number. Callers hand over f and are told f. Sketches and files of different
 * profiles, or of different fifth pairs, are MISMATCH. */
enum {
    GABUNLITIK_PARAMS = 14,
    GABUNLITIK_D = 0,
    GABUNLITIK_M = 1,
    GABUNLITIK_MULTIPLIERS = 2,
    GABUNLITIK_OFFSETS = 6,
    GABUNLITIK_PRIME = 10,
    GABUNLITIK_FIFTH_MULTIPLIER = 11,
    GABUNLITIK_FIFTH_OFFSET = 12,
    GABUNLITIK_SORT = 13
};

/* What stands in `params` at GABUNLITIK_PRIME and at GABUNLITIK_SORT. */
enum { GABUNLITIK_FIRST_PRIME = 1, GABUNLITIK_PLAIN_SORT = 0 };

/* What a walk returns in `figures`: its ending, how many entries the table has, the packets lost (the sum of the table's positive
 * counts) and the extra ones (the sum of its negative counts, without their sign), and the pops made. */
enum {
    GABUNLITIK_FIGURES = 5,
    GABUNLITIK_ENDING = 0,
    GABUNLITIK_ENTRIES = 1,
    GABUNLITIK_LOST = 2,
    GABUNLITIK_EXTRA = 3,
    GABUNLITIK_POPS = 4
};

/* How a walk ends. 4 is no ending, and is not given again. */
enum {
    GABUNLITIK_ENDED_CLEAN = 1, /* every count and every idsum is 0 */
    GABUNLITIK_ENDED_STUCK = 2, /* something is left, and nothing waits in the queue */
    GABUNLITIK_ENDED_SPENT = 3, /* the allowance of pops is used up */
    GABUNLITIK_ENDED_RANGE = 5, /* a take would bring a count or a table entry outside its limits */
    GABUNLITIK_ENDED_FULL = 6   /* a take needs a table slot, and none is left */
};

/* Writes zeros into every bucket, whatever was there. */
uint32_t gabunlitik_fresh(const uint32_t params[GABUNLITIK_PARAMS],
                          int32_t *counts, size_t counts_len,
                          uint32_t *idsums, size_t idsums_len,
                          size_t *place);

/* Puts `number` packets of `flow` in. Only the flow's d buckets are looked at, and only they change. */
uint32_t gabunlitik_insert(const uint32_t params[GABUNLITIK_PARAMS],
                           int32_t *counts, size_t counts_len,
                           uint32_t *idsums, size_t idsums_len,
                           uint32_t flow, uint32_t number,
                           size_t *place);

/* Takes `number` packets of `flow` out again, likewise; its buckets' counts may fall below 0. */
uint32_t gabunlitik_withdraw(const uint32_t params[GABUNLITIK_PARAMS],
                             int32_t *counts, size_t counts_len,
                             uint32_t *idsums, size_t idsums_len,
                             uint32_t flow, uint32_t number,
                             size_t *place);

/* Puts numbers[i] packets of flows[i] in, for each i in turn, or none at all: the first that is refused decides, with its bucket where
 * one is at fault, and the sketch is as it was before the call. The two lists have one length, and it may be any. */
uint32_t gabunlitik_insert_all(const uint32_t params[GABUNLITIK_PARAMS],
                               int32_t *counts, size_t counts_len,
                               uint32_t *idsums, size_t idsums_len,
                               const uint32_t *flows, size_t flows_len,
                               const uint32_t *numbers, size_t numbers_len,
                               size_t *place);

/* Adds the other sketch to the first, bucket by bucket; the other is not changed. Every bucket of both is looked at. */
uint32_t gabunlitik_add(const uint32_t params[GABUNLITIK_PARAMS],
                        const uint32_t other_params[GABUNLITIK_PARAMS],
                        int32_t *counts, size_t counts_len,
                        uint32_t *idsums, size_t idsums_len,
                        const int32_t *other_counts, size_t other_counts_len,
                        const uint32_t *other_idsums, size_t other_idsums_len,
                        size_t *place);

/* Takes the other sketch from the first, likewise. */
uint32_t gabunlitik_subtract(const uint32_t params[GABUNLITIK_PARAMS],
                             const uint32_t other_params[GABUNLITIK_PARAMS],
                             int32_t *counts, size_t counts_len,
                             uint32_t *idsums, size_t idsums_len,
                             const int32_t *other_counts, size_t other_counts_len,
                             const uint32_t *other_idsums, size_t other_idsums_len,
                             size_t *place);

/* Folds the sketch to `m2` buckets an array, within its slices: bucket j of each array is added into bucket j mod m2. m2 divides m, and
 * m itself changes nothing. The folded sketch is the first d * m2 of each slice, bucket j of array i at (i - 1) * m2 + j, and what is
 * freed behind it is 0. It is the sketch that the same packets make with m2 from the start. `folded_params` returns its parameters, d, m2
 * and the same pairs: every other call is handed these, with d * m2 as the length of each slice. They are written to an array other
 * than `params`. Every bucket is looked at: DAMAGE has its index in the sketch that is lent, RANGE the index in the folded sketch of the
 * lowest bucket whose whole sum would leave the limits; a sum may leave them on the way. A refusal writes `folded_params`, fourteen zeros, and
 * `place`, and nothing else. */
uint32_t gabunlitik_fold(const uint32_t params[GABUNLITIK_PARAMS],
                         int32_t *counts, size_t counts_len,
                         uint32_t *idsums, size_t idsums_len,
                         uint32_t m2,
                         uint32_t folded_params[GABUNLITIK_PARAMS],
                         size_t *place);

/* Peels the sketch into a table of flows and their counts with at most `allowance` pops, and returns the figures of the walk, all 0
 * where it is refused. The sketch then holds what remains: the table's own sketch added to it is the sketch that was lent, at every ending.
 * Table slots past the last entry, the queue and the marks are 0 afterwards; what they held before has no effect. The two table
 * slices have one length, 0 to 65536, which is how many flows the table takes; queue and marks are d * m long. Flow 0 is never listed:
 * what a sketch holds of it, from a switch that took it for a flow, remains, save where it passes together with others as another flow.
 * Where it holds nothing of flow 0 and no two of its flows share a bucket in array 1, a slot and a pop for each flow are enough: the end is
 * clean, and the table has exactly these flows, in rising position in array 1 (docs/requests/A09.md has what is asked of their counts). */
uint32_t gabunlitik_peel(const uint32_t params[GABUNLITIK_PARAMS],
                         int32_t *counts, size_t counts_len,
                         uint32_t *idsums, size_t idsums_len,
                         uint32_t *table_flows, size_t table_flows_len,
                         int32_t *table_counts, size_t table_counts_len,
                         uint32_t *queue, size_t queue_len,
                         uint32_t *marks, size_t marks_len,
                         uint32_t allowance,
                         uint64_t figures[GABUNLITIK_FIGURES],
                         size_t *place);

/* Writes where `flow` stands in `array`, which counts from 1: its position there, 0 to m - 1. It is 0 where the call is refused. An
 * array that there is not is PARAM. */
uint32_t gabunlitik_position(const uint32_t params[GABUNLITIK_PARAMS],
                             uint32_t array, uint32_t flow,
                             size_t *position,
                             size_t *place);

/* Writes the index of the flow's bucket in `array`, (array - 1) * m + position, likewise: where it lies in counts and idsums. */
uint32_t gabunlitik_index(const uint32_t params[GABUNLITIK_PARAMS],
                          uint32_t array, uint32_t flow,
                          size_t *index,
                          size_t *place);

/* Writes the parameters in the head of a file of either kind, so that slices of the right lengths can be lent to the call that reads
 * it. All fourteen are 0 where it is refused: FORM where the bytes do not start with a whole head, PARAM where its parameters break a
 * rule, or where a head of kind 10, which says that there are fingerprints (docs/FORMAT.md), has no fifth pair in use. What stands after
 * the head is not looked at. Parameters that are still wanted are not handed over to be written. */
uint32_t gabunlitik_read_head(const uint8_t *bytes, size_t bytes_len,
                              uint32_t params[GABUNLITIK_PARAMS],
                              size_t *place);

/* Inserts the packets of a stream file, whose head has these parameters, in turn. After a refusal the sketch is as it was. Damage
 * in the lent sketch has its bucket as the place, RANGE of a packet its record. */
uint32_t gabunlitik_read_stream(const uint32_t params[GABUNLITIK_PARAMS],
                                int32_t *counts, size_t counts_len,
                                uint32_t *idsums, size_t idsums_len,
                                const uint8_t *bytes, size_t bytes_len,
                                size_t *place);

/* Writes the stream file of these flows, each by its number, at the start of `out`, whose rest is not touched, and returns the file's
 * length, 0 where it is refused. A file of n flows has 43 + 9 * n bytes, with fingerprints 51 + 9 * n, and an `out` that is shorter is
 * LENGTH; the two lists have one length, 0 to 65536. */
uint32_t gabunlitik_write_stream(const uint32_t params[GABUNLITIK_PARAMS],
                                 const uint32_t *flows, size_t flows_len,
                                 const uint32_t *numbers, size_t numbers_len,
                                 uint8_t *out, size_t out_len,
                                 size_t *length,
                                 size_t *place);

/* Reads a sketch file, whose head has these parameters, in place of the sketch's content, which is not looked at. */
uint32_t gabunlitik_read_sketch(const uint32_t params[GABUNLITIK_PARAMS],
                                int32_t *counts, size_t counts_len,
                                uint32_t *idsums, size_t idsums_len,
                                const uint8_t *bytes, size_t bytes_len,
                                size_t *place);

/* Writes the one file of the sketch at the start of `out`, whose rest is not touched, and returns its length, 0 where it is refused.
 * A file of n buckets that are not all zero, damaged ones among them, has 43 + 13 * n bytes, with fingerprints 51 + 13 * n, and an `out`
 * that is shorter is LENGTH. */
uint32_t gabunlitik_write_sketch(const uint32_t params[GABUNLITIK_PARAMS],
                                 const int32_t *counts, size_t counts_len,
                                 const uint32_t *idsums, size_t idsums_len,
                                 uint8_t *out, size_t out_len,
                                 size_t *length,
                                 size_t *place);

#ifdef __cplusplus
}
#endif

#endif
