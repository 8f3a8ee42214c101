/*
 * The three functions by which the proved code allocates, whose contracts its proof
 * takes as they are: alignment, sizes of 0 and above any memory, refusals, and what a
 * block keeps when it moves. heap.c is built into this file, over a malloc() that counts
 * its blocks and can refuse.
 */
#include <stddef.h>
#include <stdint.h>
#include <stdio.h>
#include <stdlib.h>
#include <string.h>

/* The most alignment that the callers ask for. */
#define ALIGN 16
/* Sizes of the blocks that exist at the same time: 0 to this one. */
#define MOST 4096

static int wrong;

/* Whether the next allocation is refused, the size that it asked for, and blocks that are not freed yet. */
static int is_refused;
static size_t asked;
static long kept;

static void *counted_malloc(size_t size)
{
	void *new;

	asked = size;
	/* malloc() refuses more than PTRDIFF_MAX, which valgrind takes for a mistake. */
	new = is_refused || size > PTRDIFF_MAX ? NULL : malloc(size);
	kept += new != NULL;
	return new;
}

static void *counted_realloc(void *old, size_t size)
{
	void *new;

	asked = size;
	new = is_refused || size > PTRDIFF_MAX ? NULL : realloc(old, size);
	kept += !old && new;
	return new;
}

static void counted_free(void *old)
{
	kept -= old != NULL;
	free(old);
}

/* The library has these three under their own names. */
#define tags_library_alloc tested_alloc
#define tags_library_realloc tested_realloc
#define tags_library_dealloc tested_dealloc
#define malloc counted_malloc
#define realloc counted_realloc
#define free counted_free
#include "../heap.c"
#undef malloc
#undef realloc
#undef free

static void check(const char *what, int is_well)
{
	if (is_well)
		return;
	wrong++;
	printf("wrong: %s\n", what);
}

static int is_aligned(const void *start)
{
	return (uintptr_t)start % ALIGN == 0;
}

static int has_bytes(const unsigned char *start, size_t size, int byte)
{
	for (size_t at = 0; at < size; at++) {
		if (start[at] != byte)
			return 0;
	}
	return 1;
}

/* A block is given, aligned, and of this size: each byte can be written. */
static unsigned char *given(struct tried block, size_t size, int byte)
{
	check("a block is refused though there is memory", block.is_given == 1);
	check("a block is not aligned", is_aligned(block.start));
	if (size > 0)
		memset(block.start, byte, size);
	return block.start;
}

static void every_size_has_a_block_of_its_own(void)
{
	static unsigned char *blocks[MOST + 1];

	for (size_t size = 0; size <= MOST; size++) {
		blocks[size] = given(tested_alloc(size, ALIGN), size, (int)(size % 251));
		check("the size asked for is another", asked == (size > 0 ? size : 1));
	}
	for (size_t size = 0; size <= MOST; size++) {
		check("two blocks overlap", has_bytes(blocks[size], size, (int)(size % 251)));
		check("two blocks of size 0 are one", size == 0 || blocks[size] != blocks[0]);
		tested_dealloc(blocks[size]);
	}
}

static void refused(const char *what, struct tried block)
{
	check(what, block.is_given == 0);
	check("a refusal leads to NULL", block.start != NULL);
}

/* Sizes are passed on as they are: none wraps around to a small one. */
static void more_than_any_memory_is_refused(void)
{
	static const size_t sizes[] = { SIZE_MAX, SIZE_MAX - 15, (size_t)PTRDIFF_MAX + 1 };
	unsigned char *block = given(tested_alloc(100, 1), 100, 7);

	for (size_t at = 0; at < sizeof(sizes) / sizeof(*sizes); at++) {
		refused("too large a block is given", tested_alloc(sizes[at], ALIGN));
		check("a size wraps around", asked == sizes[at]);
		refused("a block grows too large", tested_realloc(block, 100, sizes[at], ALIGN));
		check("a new size wraps around", asked == sizes[at]);
	}
	check("a refused block is changed", has_bytes(block, 100, 7));
	tested_dealloc(block);
}

static void a_refusal_keeps_the_old_block(void)
{
	unsigned char *block = given(tested_alloc(100, ALIGN), 100, 9);

	is_refused = 1;
	refused("a block is given without memory", tested_alloc(1, 1));
	refused("an empty block is given without memory", tested_alloc(0, 1));
	refused("a block grows without memory", tested_realloc(block, 100, 1000, ALIGN));
	refused("a block is emptied without memory", tested_realloc(block, 100, 0, ALIGN));
	is_refused = 0;
	check("a refused block is changed", has_bytes(block, 100, 9));
	tested_dealloc(block);
}

static void a_block_that_moves_keeps_its_bytes(void)
{
	unsigned char *block = given(tested_alloc(0, ALIGN), 0, 0);
	size_t size = 0;

	for (size_t next = 1; next <= (size_t)1 << 20; next = next * 3 + 1) {
		struct tried grown = tested_realloc(block, size, next, ALIGN);

		check("a block that grows loses bytes", has_bytes(grown.start, size, 3));
		block = given(grown, next, 3);
		size = next;
	}
	for (; size > 0; size /= 5) {
		struct tried shrunk = tested_realloc(block, size, size / 5, ALIGN);

		check("a block that shrinks loses bytes", has_bytes(shrunk.start, size / 5, 3));
		block = given(shrunk, 0, 3);
	}
	tested_dealloc(block);
}

int main(void)
{
	every_size_has_a_block_of_its_own();
	more_than_any_memory_is_refused();
	a_refusal_keeps_the_old_block();
	a_block_that_moves_keeps_its_bytes();
	check("a block is lost, or freed twice", kept == 0);
	if (wrong == 0)
		puts("heap: ok");
	return wrong != 0;
}
