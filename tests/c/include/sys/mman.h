/* The part of sys/mman.h that the tests ask for, with the numbers of x86-64 Linux: the toolchain has a C library and no headers. */
#include <stddef.h>
#define PROT_NONE 0
#define PROT_READ 1
#define PROT_WRITE 2
#define MAP_PRIVATE 2
#define MAP_ANONYMOUS 0x20
#define MAP_NORESERVE 0x4000
#define MAP_FAILED ((void *)-1)
void *mmap(void *where, size_t bytes, int protection, int flags, int file, long offset);
int mprotect(void *where, size_t bytes, int protection);
int munmap(void *where, size_t bytes);
