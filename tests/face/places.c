/* Where flows stand, called from C. */
#include "bench.h"

typedef uint32_t finding(const uint32_t *params, uint32_t array, uint32_t flow, size_t *found, size_t *place);

/* What a call returned, and the position or the index that it found. */
struct found {
    struct returned returned;
    size_t at;
};

static struct found find(finding *call, const uint32_t *params, uint32_t array, uint32_t flow) {
    struct found f;
    f.returned = nothing_yet();
    memset(&f.at, 0xa5, sizeof f.at);
    f.returned.number = call(params, array, flow, &f.at, &f.returned.place);
    return f;
}

/* Flows stand at the rest by 5 in array 1; in array 2 where the scope says, and flow 1, the lowest, at the rest of 1073741824. The index
 * counts the buckets of the arrays before. */
static void places(void) {
    static const uint32_t flows[] = {2, 7, 11, 12, 20, 1};
    static const size_t positions[] = {1, 2, 4, 1, 0, 4};
    for (size_t i = 0; i < 6; i++) {
        struct found f = find(gabunlitik_position, K, 1, flows[i]);
        CHECK_DONE(f.returned);
        CHECK(f.at == flows[i] % M);
        f = find(gabunlitik_index, K, 1, flows[i]);
        CHECK_DONE(f.returned);
        CHECK(f.at == flows[i] % M);
        f = find(gabunlitik_position, K, 2, flows[i]);
        CHECK_DONE(f.returned);
        CHECK(f.at == positions[i]);
        f = find(gabunlitik_index, K, 2, flows[i]);
        CHECK_DONE(f.returned);
        CHECK(f.at == M + positions[i]);
    }
}

static void check_refused(const uint32_t *params, uint32_t array, uint32_t flow, uint32_t number) {
    struct found f = find(gabunlitik_position, params, array, flow);
    CHECK_RETURNS(f.returned, number, 0);
    CHECK(f.at == 0);
    f = find(gabunlitik_index, params, array, flow);
    CHECK_RETURNS(f.returned, number, 0);
    CHECK(f.at == 0);
}

/* An array that there is not is PARAM, and comes before a flow that is none. */
static void refused(void) {
    for (size_t i = 0; i < WAYS; i++)
        check_refused(BROKEN[i], 1, 7, GABUNLITIK_PARAM);
    check_refused(K, 0, 7, GABUNLITIK_PARAM);
    check_refused(K, 3, 7, GABUNLITIK_PARAM);
    check_refused(K, 4294967295, 7, GABUNLITIK_PARAM);
    check_refused(K, 3, 2147483647, GABUNLITIK_PARAM);
    check_refused(K, 3, 0, GABUNLITIK_PARAM);
    check_refused(K, 1, 0, GABUNLITIK_FLOW);
    check_refused(K, 2, 0, GABUNLITIK_FLOW);
    check_refused(K, 1, 2147483647, GABUNLITIK_FLOW);
    check_refused(K, 2, 4294967295, GABUNLITIK_FLOW);
}

void test_places(void) {
    places();
    refused();
}
