/* A stand-in for <stdlib.h>: what the C programs of this tree use of it. */
#ifndef RIGTEMPLE_TESTS_STDLIB_H
#define RIGTEMPLE_TESTS_STDLIB_H

#include <stddef.h>

void exit(int status);
unsigned long strtoul(const char *text, char **end, int base);
void qsort(void *base, size_t count, size_t size, int (*compare)(const void *, const void *));

#endif
