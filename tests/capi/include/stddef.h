/* A stand-in for the C library's header, for x86-64: the kit's clang has no headers. */
#ifndef STAND_IN_STDDEF_H
#define STAND_IN_STDDEF_H
typedef unsigned long size_t;
#define offsetof(type, member) __builtin_offsetof(type, member)
#ifdef __cplusplus
#define NULL nullptr
#else
#define NULL ((void *)0)
#endif
#endif
