/* A stand-in for <string.h>: what the C programs of this tree use of it. */
#ifndef RIGTEMPLE_TESTS_STRING_H
#define RIGTEMPLE_TESTS_STRING_H

#include <stddef.h>

void *memcpy(void *to, const void *from, size_t count);
void *memmove(void *to, const void *from, size_t count);
void *memset(void *to, int byte, size_t count);
int memcmp(const void *one, const void *other, size_t count);
int strcmp(const char *one, const char *other);
void *memchr(const void *from, int byte, size_t count);
size_t strlen(const char *text);
char *strrchr(const char *text, int byte);
char *strerror(int number);

#endif
