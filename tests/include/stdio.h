/* What the tests and the example print with, of C's stdio.h: the kit has the C library, and no headers of it. */
#ifndef STDIO_H
#define STDIO_H
int printf(const char *format, ...) __attribute__((format(printf, 1, 2)));
#endif
