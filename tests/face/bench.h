/* What the tests of the calls from C share: the bench's parameters, a sketch of them with a guard after each slice, and checks. */
#ifndef BENCH_H
#define BENCH_H

#include <string.h>

#include "gabunlitik.h"

enum { D = 2, M = 5, BUCKETS = D * M };

/* The last four numbers of parameters in the plain profile. */
#define PLAIN GABUNLITIK_FIRST_PRIME, 0, 0, GABUNLITIK_PLAIN_SORT

/* d = 2, m = 5, pairs (1, 0) and (1073741824, 0): the parameters of the scope's examples. */
extern const uint32_t K[GABUNLITIK_PARAMS];

/* The same with the fifth pair (2000000110, 7): flows have fingerprints. */
extern const uint32_t PRINTED[GABUNLITIK_PARAMS];

/* K but for an offset, and with an array too many. */
extern const uint32_t OTHER[GABUNLITIK_PARAMS];
extern const uint32_t BAD[GABUNLITIK_PARAMS];

/* Parameters that break one rule each; the first is BAD, and the first HEAD_WAYS can stand in a head. */
enum { HEAD_WAYS = 13, WAYS = 21 };
extern const uint32_t BROKEN[WAYS][GABUNLITIK_PARAMS];

struct sketch {
    int32_t counts[BUCKETS];
    int32_t counts_guard;
    uint32_t idsums[BUCKETS];
    uint32_t idsums_guard;
};

/* What a call returned. */
struct returned {
    uint32_t number;
    size_t place;
};

/* Every byte is 0xa5, so that a call that tells nothing, or a part of a number alone, is seen. */
struct returned nothing_yet(void);

#define CHECK(held) check((held) != 0, __FILE__, __LINE__, #held)
#define CHECK_RETURNS(call, number, place) check_returns((call), (number), (place), __FILE__, __LINE__, #call)
#define CHECK_DONE(call) CHECK_RETURNS(call, GABUNLITIK_DONE, 0)

/* A refusal leaves the sketch `s` as `kept`, a copy from before. */
#define CHECK_REFUSED(call, number, place, s, kept) \
    do { \
        CHECK_RETURNS(call, number, place); \
        CHECK(same(s, kept)); \
    } while (0)

void check(int held, const char *file, int line, const char *what);
void check_returns(struct returned returned, uint32_t number, size_t place, const char *file, int line, const char *what);

/* A sketch that `fresh` made of slices full of damage. */
struct sketch fresh_sketch(void);

/* E1 to E7 of the scope, as far as they are sketches: flow by number. */
struct sketch e1(void); /* 7 by 1, 12 by 2 */
struct sketch e3(void); /* 2 by 1, 12 by 1 */
struct sketch e5(void); /* 2 by 1, 12 by -1 */
struct sketch e6(void); /* 7 by -4 */
struct sketch e7(void); /* 2147483646 by 2147483646 */

/* The like of E1 with fingerprints: 7 by 1, 17 by 2, which share a bucket there. */
struct sketch printed_e1(void);

/* The sketch of a switch that took flow 0 for a flow, which no call does: 0 by 3. */
struct sketch of_flow_0(void);

struct returned insert_under(const uint32_t *params, struct sketch *s, uint32_t flow, uint32_t number);
struct returned withdraw_under(const uint32_t *params, struct sketch *s, uint32_t flow, uint32_t number);

/* Under K. */
struct returned insert(struct sketch *s, uint32_t flow, uint32_t number);
struct returned withdraw(struct sketch *s, uint32_t flow, uint32_t number);
struct returned insert_all(struct sketch *s, const uint32_t *flows, const uint32_t *numbers, size_t n);
struct returned add(struct sketch *s, const struct sketch *other);
struct returned subtract(struct sketch *s, const struct sketch *other);

int same(const struct sketch *s, const struct sketch *t);
int bucket_is(const struct sketch *s, size_t index, int32_t count, uint32_t idsum);

/* How many buckets are not all zero. */
int used(const struct sketch *s);

/* A number as four bytes, big-endian. */
void put(uint8_t *bytes, uint32_t number);

enum { HEAD_BYTES = 38, PRINTED_HEAD_BYTES = 46 };

/* The head of a file with these parameters, of kind 10 where the fifth pair is not (0, 0), and its length. */
size_t put_head(uint8_t *bytes, const uint32_t *params);

void test_parameters(void);
void test_sketches(void);
void test_sums(void);
void test_folds(void);
void test_fold_limits(void);
void test_arrays(void);
void test_walks(void);
void test_places(void);
void test_files(void);
void test_fingerprints(void);
void test_fingerprint_walks(void);
void test_fingerprint_files(void);
void test_longest(void);

#endif
