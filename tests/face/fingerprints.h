/* What the tests of fingerprints share: the formula of the fingerprints and the scope's, under PRINTED, by which they know what is due. */
#ifndef FINGERPRINTS_H
#define FINGERPRINTS_H

#include "walks.h"

/* The least and the greatest flow, and numbers around them and around those of the plain profile. */
enum { EDGES = 7 };
extern const uint32_t edges[EDGES];

int is_flow(uint32_t number);

/* Also of 0 and 8388607, which are no flows. */
uint32_t fingerprint(uint32_t flow);
uint32_t extended(uint32_t flow);

/* The bucket of a number that is sketched; here arrays count from 0. */
size_t index_of(size_t array, uint32_t number);

/* Puts a number that is sketched into its buckets. */
void hold(struct sketch *s, uint32_t number, int32_t count);

/* The sketch of two flows, by 1 each. */
struct sketch two(uint32_t flow, uint32_t other);

#endif
