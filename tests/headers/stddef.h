// Stands in for the compiler's own header, which the kit has not.
#ifndef STDDEF_H
#define STDDEF_H
typedef __SIZE_TYPE__ size_t;
#endif
