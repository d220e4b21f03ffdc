/* A stand-in for <sys/mman.h>: what the C programs of this tree use of it, for Linux. */
#ifndef RIGTEMPLE_TESTS_SYS_MMAN_H
#define RIGTEMPLE_TESTS_SYS_MMAN_H

#include <stddef.h>

#define PROT_NONE 0
#define PROT_READ 1
#define PROT_WRITE 2
#define MAP_PRIVATE 2
#define MAP_ANONYMOUS 0x20
#define MAP_FAILED ((void *)-1)
void *mmap(void *at, size_t count, int access, int how, int file, long offset);
int mprotect(void *at, size_t count, int access);

#endif
