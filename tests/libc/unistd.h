/* A stand-in for <unistd.h>: what the C programs of this tree use of it. */
#ifndef RIGTEMPLE_TESTS_UNISTD_H
#define RIGTEMPLE_TESTS_UNISTD_H

#include <stddef.h>

/* Bytes read or written, 0 at the input's end, negative on failure. */
long read(int file, void *to, size_t count);
long write(int file, const void *from, size_t count);

int fsync(int file);
int close(int file);

/* Ends the program, and writes nothing that is still buffered. */
void _exit(int status);

#endif
