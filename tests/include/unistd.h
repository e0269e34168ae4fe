/* What the script program reads with, of POSIX's unistd.h: the kit has the C library, and no headers of it. */
#ifndef UNISTD_H
#define UNISTD_H
#include <stddef.h>
typedef __INT64_TYPE__ ssize_t;
ssize_t read(int file, void *to, size_t n);
#endif
