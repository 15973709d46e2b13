// Stands in for the C library's header, which the kit has not: what our programs call of it.
#ifndef STDIO_H
#define STDIO_H
int printf(const char *form, ...);
#endif
