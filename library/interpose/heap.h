/* Memory from the system, and none of the program's heap. */
#ifndef HEAP_H
#define HEAP_H

#include <stddef.h>

/* A line of the cache, which two seats never share. */
enum { HEAP_LINE = 64 };

/* A piece of zeros that begins a line of the cache, and is never given back; NULL if there is none. */
void *heap_cut(size_t size);

/* The library's malloc, realloc and free. */
void *__wrap_malloc(size_t size);
void *__wrap_realloc(void *old, size_t size);
void __wrap_free(void *old);

#endif
