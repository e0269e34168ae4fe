// Bytes from a file.
#ifndef BENCH_UNISTD_H
#define BENCH_UNISTD_H

#include <stddef.h>

long read(int file, void *bytes, size_t size);

#endif
