/* A stand-in for what the examples in samples/ use of the C library's header: the kit's clang has no headers. */
#ifndef STAND_IN_STRING_H
#define STAND_IN_STRING_H
#include <stddef.h>
extern void *memcpy(void *to, const void *from, size_t count);
#endif
