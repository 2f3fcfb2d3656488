/* A stand-in for what the examples in samples/ use of the C library's header: the kit's clang has no headers. */
#ifndef STAND_IN_STDIO_H
#define STAND_IN_STDIO_H
#include <stddef.h>
typedef struct stand_in_file FILE;
extern FILE *stdin, *stdout, *stderr;
extern int printf(const char *form, ...);
extern int fprintf(FILE *to, const char *form, ...);
extern FILE *fopen(const char *name, const char *mode);
extern size_t fread(void *to, size_t size, size_t count, FILE *from);
extern int ferror(FILE *file);
extern int fflush(FILE *file);
extern int fclose(FILE *file);
#endif
