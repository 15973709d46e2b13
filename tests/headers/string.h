// Stands in for the C library's header, which the kit has not: what our programs call of it.
#ifndef STRING_H
#define STRING_H
#include <stddef.h>
void *memset(void *to, int byte, size_t length);
void *memcpy(void *to, const void *from, size_t length);
int memcmp(const void *one, const void *other, size_t length);
size_t strlen(const char *text);
int strcmp(const char *one, const char *other);
int strncmp(const char *one, const char *other, size_t most);
#endif
