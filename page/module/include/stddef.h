/* What the header of the C interface needs of the C library, for a module that has none. */
#ifndef PAGE_STDDEF_H
#define PAGE_STDDEF_H
typedef __SIZE_TYPE__ size_t;
#define NULL ((void *)0)
#define offsetof(T, field) __builtin_offsetof(T, field)
#endif
