// The close alone as a function for C. The library has no such call: bench/run adds it to a copy of peel and has it proved there.
#ifndef CLOSE_ALONE_H
#define CLOSE_ALONE_H

#include <stddef.h>
#include <stdint.h>

enum { CLOSE_ENTRIES, CLOSE_LOST, CLOSE_EXTRA, CLOSE_FIGURES };

void close_alone(uint32_t *flows, size_t flows_length, int32_t *numbers, size_t numbers_length, size_t entries,
                 uint64_t figures[CLOSE_FIGURES]);

#endif
