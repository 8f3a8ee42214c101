/*
 * States: how one is saved, restored and told from others.
 */
#include "engine.h"

#include <string.h>

struct part {
	char *start;
	size_t size;
};

enum { MAX_PARTS = 3 + MAX_BLOCKS + MAX_THREADS };

/* The variables of the library's C files: build.py puts them into a section of this name. */
extern char __start_variables[], __stop_variables[];

/*
 * The parts that make a state: the arena's first one, the blocks of the heap, which the first one
 * counts, the memory in use, which the blocks tell, the stacks, and variables. Returns how many.
 */
static int parts_of_state(struct part *parts)
{
	int n = 0;

	parts[n++] = (struct part){ (char *)&arena, offsetof(struct arena, block) };
	parts[n++] = (struct part){ (char *)arena.block, arena.blocks * sizeof(struct block) };
	for (uint32_t i = 0; i < arena.blocks; i++) {
		const struct block *block = &arena.block[i];
		size_t size = (block->size + 7) / 8 * 8;

		if (!block->is_freed)
			parts[n++] = (struct part){ arena.heap + block->start, size };
	}
	for (uint32_t i = 0; i < world->threads; i++) {
		char *sp = world->thread[i].sp;
		size_t size = (size_t)(arena.stack[i] + STACK_SIZE - sp);

		if (!world->thread[i].is_done)
			parts[n++] = (struct part){ sp, size };
	}
	parts[n++] = (struct part){ __start_variables, (size_t)(__stop_variables - __start_variables) };
	return n;
}

size_t size_of_state(void)
{
	struct part parts[MAX_PARTS];
	int n = parts_of_state(parts);
	size_t size = 0;

	for (int i = 0; i < n; i++)
		size += parts[i].size;
	return size;
}

void save_state(char *to)
{
	struct part parts[MAX_PARTS];
	int n = parts_of_state(parts);

	for (int i = 0; i < n; to += parts[i].size, i++)
		memcpy(to, parts[i].start, parts[i].size);
}

void restore_state(const char *from)
{
	struct part parts[MAX_PARTS];
	int n;

	memcpy(&arena, from, offsetof(struct arena, block));
	from += offsetof(struct arena, block);
	memcpy(arena.block, from, arena.blocks * sizeof(struct block));
	from += arena.blocks * sizeof(struct block);
	n = parts_of_state(parts);
	for (int i = 2; i < n; from += parts[i].size, i++)
		memcpy(parts[i].start, from, parts[i].size);
}

/*
 * The hash: products of two words each, folded
 */
static const uint64_t salt[] = { 0xe7037ed1a0b428db, 0x8ebc6af09c88c6e3, 0x589965cc75374cc3,
				 0x1d8e4e27c47d124f, 0xeb44accab455d165 };

static inline uint64_t mix(uint64_t a, uint64_t b)
{
	unsigned __int128 product = (unsigned __int128)a * b;

	return (uint64_t)product ^ (uint64_t)(product >> 64);
}

/* Four sums at once, as each waits for its own product. */
static uint64_t hash_part(const struct part *part, uint64_t hash)
{
	const uint64_t *at = (const uint64_t *)(const void *)part->start;
	const size_t words = part->size / 8;
	uint64_t a = hash, b = hash ^ salt[1], c = hash ^ salt[2], d = hash ^ salt[0];
	size_t i = 0;

	for (; i + 8 <= words; i += 8) {
		a = mix(at[i] ^ a, at[i + 1] ^ salt[0]) + salt[1];
		b = mix(at[i + 2] ^ b, at[i + 3] ^ salt[0]) + salt[2];
		c = mix(at[i + 4] ^ c, at[i + 5] ^ salt[0]) + salt[3];
		d = mix(at[i + 6] ^ d, at[i + 7] ^ salt[0]) + salt[4];
	}
	for (; i < words; i++)
		a = mix(at[i] ^ a, salt[4]) + salt[2];
	return mix(a ^ words, salt[2]) ^ mix(b, salt[0]) ^ mix(c ^ salt[4], d ^ salt[0]);
}

uint64_t hash_state(void)
{
	struct part parts[MAX_PARTS];
	int n = parts_of_state(parts);
	uint64_t hash = salt[3];

	for (int i = 0; i < n; i++)
		hash = hash_part(&parts[i], hash);
	return hash;
}
