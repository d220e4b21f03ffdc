/* A stand-in for <errno.h>: what the C programs of this tree use of it, for Linux and glibc. */
#ifndef RIGTEMPLE_TESTS_ERRNO_H
#define RIGTEMPLE_TESTS_ERRNO_H

int *__errno_location(void);
#define errno (*__errno_location())
#define ENOENT 2
#define ENAMETOOLONG 36

#endif
