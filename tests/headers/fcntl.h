// Stands in for the C library's header, which the kit has not: what our programs call of it.
#ifndef FCNTL_H
#define FCNTL_H
#define O_RDONLY 0
int open(const char *path, int flags, ...);
#endif
