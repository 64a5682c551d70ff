/* What the header of the C interface needs of the C library, for a module that has none:
 * instructions of the module stand for these calls. */
#ifndef PAGE_STRING_H
#define PAGE_STRING_H
#define memcpy __builtin_memcpy
#define memset __builtin_memset
#endif
