// Sorting, numbers in arguments, and the end of a program.
#ifndef BENCH_STDLIB_H
#define BENCH_STDLIB_H

#include <stddef.h>

void qsort(void *items, size_t number, size_t size, int (*compare)(const void *, const void *));
int atoi(const char *text);
_Noreturn void exit(int status);

#endif
