/* A stand-in for the C library's header, for x86-64: the kit's clang has no headers. */
#ifndef STAND_IN_STDINT_H
#define STAND_IN_STDINT_H
typedef unsigned char uint8_t;
typedef unsigned short uint16_t;
typedef unsigned int uint32_t;
typedef unsigned long uint64_t;
typedef long int64_t;
#endif
