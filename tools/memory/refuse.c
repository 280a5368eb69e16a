/*
 * Preloaded by tools/refuse-memory: counts a program's requests for memory, and refuses some of them. The file that the
 * environment's REFUSED_REQUESTS names holds a `struct requests`, which the program and the script share.
 */
#include <errno.h>
#include <fcntl.h>
#include <stdatomic.h>
#include <stdlib.h>
#include <sys/mman.h>
#include <unistd.h>

struct requests {
	atomic_long made;    /* so far, from 1 */
	long first, last;    /* those that are refused, none where first is 0 */
	atomic_long refused; /* so far */
};
static struct requests *requests;

/* The allocator of glibc, by the names under which it has no wrapper. */
void *__libc_malloc(size_t size);
void *__libc_calloc(size_t count, size_t size);
void *__libc_realloc(void *old, size_t size);
void *__libc_memalign(size_t alignment, size_t size);

__attribute__((constructor)) static void share(void)
{
	const char *name = getenv("REFUSED_REQUESTS");
	int file = name ? open(name, O_RDWR) : -1;
	void *place = file < 0 ? MAP_FAILED : mmap(0, sizeof(struct requests), PROT_READ | PROT_WRITE, MAP_SHARED, file, 0);

	if (place == MAP_FAILED)
		abort();
	close(file);
	requests = place;
}

static int is_refused(void)
{
	long number;

	if (!requests)
		return 0;
	number = atomic_fetch_add(&requests->made, 1) + 1;
	if (!requests->first || number < requests->first || number > requests->last)
		return 0;
	atomic_fetch_add(&requests->refused, 1);
	errno = ENOMEM;
	return 1;
}

void *malloc(size_t size) { return is_refused() ? 0 : __libc_malloc(size); }
void *calloc(size_t count, size_t size) { return is_refused() ? 0 : __libc_calloc(count, size); }
void *realloc(void *old, size_t size) { return is_refused() ? 0 : __libc_realloc(old, size); }
void *memalign(size_t alignment, size_t size) { return is_refused() ? 0 : __libc_memalign(alignment, size); }
void *aligned_alloc(size_t alignment, size_t size) { return memalign(alignment, size); }

int posix_memalign(void **place, size_t alignment, size_t size)
{
	void *got = memalign(alignment, size);

	if (!got)
		return ENOMEM;
	*place = got;
	return 0;
}
