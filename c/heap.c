/*
 * The memory of the library: the three functions by which the proved code
 * allocates, over malloc() on each processor. The proof of their callers shows
 * that no alignment is above 16, which malloc() keeps to, and that each pointer
 * passed is one that was returned here and not freed since. A shared library
 * doesn't export them.
 */
#include <stddef.h>
#include <stdint.h>
#include <stdlib.h>

/* Returned in two registers: whether there was memory, and a pointer that is never NULL. */
struct tried {
	uint64_t is_given;
	void *start;
};

#define HIDDEN __attribute__((visibility("hidden")))

HIDDEN struct tried tags_library_alloc(size_t size, size_t align);
HIDDEN struct tried tags_library_realloc(void *start, size_t size, size_t new_size, size_t align);
HIDDEN void tags_library_dealloc(void *start);

/* Where the pointer leads if there was no memory. */
static char nothing[16];

static struct tried tried(void *start)
{
	struct tried given = { 1, start };
	struct tried refused = { 0, nothing };

	return start ? given : refused;
}

/* malloc(0) may return NULL, which would be no refusal. */
static size_t at_least_one(size_t size)
{
	return size > 0 ? size : 1;
}

struct tried tags_library_alloc(size_t size, size_t align)
{
	(void)align;
	return tried(malloc(at_least_one(size)));
}

struct tried tags_library_realloc(void *start, size_t size, size_t new_size, size_t align)
{
	(void)size;
	(void)align;
	return tried(realloc(start, at_least_one(new_size)));
}

void tags_library_dealloc(void *start)
{
	free(start);
}
