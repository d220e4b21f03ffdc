/* A stand-in for <stdio.h>: what the C programs of this tree use of it. */
#ifndef RIGTEMPLE_TESTS_STDIO_H
#define RIGTEMPLE_TESTS_STDIO_H

#include <stddef.h>

typedef struct stream FILE;
extern FILE *stdin, *stdout, *stderr;

FILE *fopen(const char *name, const char *mode);
size_t fread(void *to, size_t size, size_t count, FILE *file);
size_t fwrite(const void *from, size_t size, size_t count, FILE *file);
char *fgets(char *to, int count, FILE *file);
int fflush(FILE *file);
int ferror(FILE *file);
int fclose(FILE *file);
int fileno(FILE *file);
int rename(const char *from, const char *to);
int printf(const char *format, ...);
int fprintf(FILE *file, const char *format, ...);
int snprintf(char *to, size_t count, const char *format, ...);

#endif
