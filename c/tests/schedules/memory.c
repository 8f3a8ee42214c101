/*
 * The heap of what is explored. A block is never used again once it is freed, so that each later
 * use of it is found.
 */
#include "engine.h"

#include <stdio.h>
#include <stdlib.h>
#include <string.h>

void *take_memory(size_t size)
{
	uint32_t start = (world->heap_used + 63) / 64 * 64;

	if (size > HEAP_SIZE || start + size > HEAP_SIZE || arena.blocks == MAX_BLOCKS) {
		fprintf(stderr, "the heap is too small\n");
		exit(PARTLY);
	}
	arena.block[arena.blocks++] = (struct block){ start, (uint32_t)size, false };
	world->heap_used = start + (uint32_t)size;
	memset(arena.heap + start, 0, size);
	return arena.heap + start;
}

struct block *block_of(const volatile void *address)
{
	const char *at = (const char *)address;

	for (uint32_t i = 0; i < arena.blocks; i++) {
		struct block *block = &arena.block[i];
		const char *start = arena.heap + block->start;

		if (at >= start && at < start + (block->size ? block->size : 1))
			return block;
	}
	return NULL;
}

void give_memory(void *start)
{
	struct block *block = start ? block_of(start) : NULL;

	if (!start)
		return;
	if (!block || block->is_freed || start != arena.heap + block->start) {
		fault("what is freed was not allocated, or is free");
		return;
	}
	block->is_freed = true;
	memset(start, 0xdd, block->size);
}

void *renew_memory(void *start, size_t size)
{
	void *other = take_memory(size);

	if (start) {
		const struct block *block = block_of(start);

		memcpy(other, start, block->size < size ? block->size : size);
		give_memory(start);
	}
	return other;
}

bool is_in_heap(const volatile void *address)
{
	const char *at = (const char *)address;

	return at >= arena.heap && at < arena.heap + HEAP_SIZE;
}

bool is_freed(const volatile void *address)
{
	const struct block *block = is_in_heap(address) ? block_of(address) : NULL;

	return block && block->is_freed;
}

uint32_t count_allocations(void)
{
	uint32_t n = 0;

	for (uint32_t i = 0; i < arena.blocks; i++)
		n += !arena.block[i].is_freed;
	return n;
}
