// Lines to standard output, and all lines held so far written out.
#ifndef BENCH_STDIO_H
#define BENCH_STDIO_H

int printf(const char *format, ...) __attribute__((format(printf, 1, 2)));
int fflush(void *file);

#endif
