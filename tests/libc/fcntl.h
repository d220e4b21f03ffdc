/* A stand-in for <fcntl.h>: what the C programs of this tree use of it, for Linux. */
#ifndef RIGTEMPLE_TESTS_FCNTL_H
#define RIGTEMPLE_TESTS_FCNTL_H

#define O_RDONLY 0
int open(const char *name, int how, ...);

#endif
