/* What the header of the C interface needs of the C library, for a module that has none. */
#ifndef PAGE_STDLIB_H
#define PAGE_STDLIB_H
#include <stddef.h>
void *malloc(size_t n);
void free(void *p);
#endif
