// Stands in for the C library's header, which the kit has not: what our programs call of it.
#ifndef UNISTD_H
#define UNISTD_H
#include <stddef.h>
long read(int file, void *bytes, size_t most);
long write(int file, const void *bytes, size_t length);
#endif
