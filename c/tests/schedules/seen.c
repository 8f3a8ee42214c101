/*
 * The states that a search has met: a table of their hashes, with open addressing. Bit 0 of an
 * entry says that the state is on the path that is explored now; 0 is an entry without a state.
 */
#include "engine.h"

#include <stdio.h>
#include <stdlib.h>

enum { FIRST_SIZE = 1 << 16 };

uint64_t seen_count;

static uint64_t *table;
static uint64_t size;

static uint64_t key_of(uint64_t hash)
{
	return hash > 1 ? hash | 1 : 3;
}

static uint64_t *entry_of(uint64_t key)
{
	uint64_t at = key >> 1 & (size - 1);

	while (table[at] && (table[at] | 1) != key)
		at = (at + 1) & (size - 1);
	return &table[at];
}

void forget_states(void)
{
	free(table);
	table = NULL;
	size = seen_count = 0;
}

static void grow(void)
{
	uint64_t *former = table, former_size = size;

	size = former_size ? former_size * 2 : FIRST_SIZE;
	table = calloc(size, sizeof(*table));
	if (!table) {
		fprintf(stderr, "no memory for more states\n");
		exit(PARTLY);
	}
	for (uint64_t i = 0; i < former_size; i++)
		if (former[i])
			*entry_of(former[i] | 1) = former[i];
	free(former);
}

enum found add_state(uint64_t hash)
{
	uint64_t *entry;

	if (seen_count * 3 >= size * 2)
		grow();
	entry = entry_of(key_of(hash));
	if (*entry)
		return *entry & 1 ? ON_PATH : SEEN;
	*entry = key_of(hash);
	seen_count++;
	return NEW;
}

void leave_path(uint64_t hash)
{
	*entry_of(key_of(hash)) &= ~UINT64_C(1);
}
