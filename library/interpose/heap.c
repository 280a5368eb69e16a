/* The heap that the library has under the interposer.
 *
 * A domain is opened when a mutex is first locked, and that mutex may be one of the program's own malloc,
 * which then holds it. So the library's malloc can't be the program's. This shared object is linked with
 * --wrap=malloc and the like, so that the calls in the archive come here.
 *
 * Blocks have sizes that are powers of two, with the size in the 16 bytes in front. A freed block goes to
 * the list of its size, and no memory goes back to the system: domains are kept for other mutexes.
 * All calls come under the registry's lock (stand_in.c), so there is one at a time.
 */
#include "heap.h"
#include <stdint.h>
#include <string.h>
#include <sys/mman.h>

enum { CHUNK = 1 << 20, HEAD = 16, LEAST = 6, LISTS = 21 };

struct block {
    size_t list;
    struct block *next;
};
_Static_assert(sizeof(struct block) == HEAD, "a block's head keeps what follows aligned");

static struct block *freed[LISTS];
static char *chunk;
static size_t left;

void *heap_cut(size_t size)
{
    size = (size + HEAP_LINE - 1) / HEAP_LINE * HEAP_LINE;
    if (size > CHUNK)
        return NULL;
    if (size > left) {
        void *at = mmap(NULL, CHUNK, PROT_READ | PROT_WRITE, MAP_PRIVATE | MAP_ANONYMOUS, -1, 0);
        if (at == MAP_FAILED)
            return NULL;
        chunk = at;
        left = CHUNK;
    }
    chunk += size;
    left -= size;
    return chunk - size;
}

void *__wrap_malloc(size_t size)
{
    if (size > CHUNK - HEAD)
        return NULL;
    size_t list = LEAST;
    while (((size_t)1 << list) < size + HEAD)
        list++;
    struct block *block = freed[list];
    if (block)
        freed[list] = block->next;
    else
        block = heap_cut((size_t)1 << list);
    if (!block)
        return NULL;
    block->list = list;
    return (char *)block + HEAD;
}

void __wrap_free(void *old)
{
    if (!old)
        return;
    struct block *block = (struct block *)((char *)old - HEAD);
    block->next = freed[block->list];
    freed[block->list] = block;
}

void *__wrap_realloc(void *old, size_t size)
{
    void *made = __wrap_malloc(size);
    if (made && old) {
        struct block *block = (struct block *)((char *)old - HEAD);
        size_t had = ((size_t)1 << block->list) - HEAD;
        memcpy(made, old, had < size ? had : size);
        __wrap_free(old);
    }
    return made;
}
