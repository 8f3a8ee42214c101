// DPDK's rte_mempool as main.rs calls it: an object stands for a tag, and has its number. Each thread has a cache of its own.
#define _GNU_SOURCE
#include <rte_eal.h>
#include <rte_mempool.h>
#include <sched.h>
#include <stdbool.h>
#include <stdint.h>
#include <stdlib.h>

struct mempool_tag {
	uint32_t number;
	uint64_t slot;
};

struct mempool_tags {
	struct rte_mempool *pool;
	struct mempool_tag **objects;
	uint64_t **slots;
};

// DPDK is started once. It ties the calling thread to a processor, which is undone.
static bool started(void)
{
	static bool is_started;
	char *arguments[] = { "contenders", "--no-huge", "--no-shconf", "--no-pci", "--no-telemetry",
			      "--log-level=error", "-m", "64" };
	cpu_set_t processors;

	if (is_started)
		return true;
	if (sched_getaffinity(0, sizeof(processors), &processors) != 0)
		return false;
	is_started = rte_eal_init(sizeof(arguments) / sizeof(*arguments), arguments) >= 0;
	sched_setaffinity(0, sizeof(processors), &processors);
	return is_started;
}

static void number(struct rte_mempool *pool, void *argument, void *object, unsigned int index)
{
	struct mempool_tags *tags = argument;

	(void)pool;
	tags->objects[index] = object;
	tags->objects[index]->number = index;
	tags->objects[index]->slot = 0;
	tags->slots[index] = &tags->objects[index]->slot;
}

// A pool of free tags. NULL where DPDK does not start or there is no memory.
struct mempool_tags *mempool_tags_open(unsigned int depth)
{
	struct mempool_tags *tags = calloc(1, sizeof(*tags));

	if (tags == NULL || !started())
		return NULL;
	tags->objects = calloc(depth, sizeof(*tags->objects));
	tags->slots = calloc(depth, sizeof(*tags->slots));
	if (tags->objects == NULL || tags->slots == NULL)
		return NULL;
	tags->pool = rte_mempool_create("tags", depth, sizeof(struct mempool_tag), 0, 0, NULL, NULL, number, tags,
					SOCKET_ID_ANY, 0);
	return tags->pool == NULL ? NULL : tags;
}

// The slot of each tag, for programs that know no layout of this file.
uint64_t *const *mempool_tags_slots(const struct mempool_tags *tags)
{
	return tags->slots;
}

// A cache for one thread, which keeps so many tags, and half as many again before it gives some back.
struct rte_mempool_cache *mempool_tags_enter(unsigned int most)
{
	return rte_mempool_cache_create(most, SOCKET_ID_ANY);
}

// The cache ends, and gives back what it keeps.
void mempool_tags_leave(struct mempool_tags *tags, struct rte_mempool_cache *cache)
{
	rte_mempool_cache_flush(cache, tags->pool);
	rte_mempool_cache_free(cache);
}

// Whether all tags are back. The pool ends.
bool mempool_tags_close(struct mempool_tags *tags)
{
	bool full = rte_mempool_full(tags->pool);

	rte_mempool_free(tags->pool);
	free(tags->objects);
	free(tags->slots);
	free(tags);
	return full;
}

// A free tag, or -1.
int mempool_tags_get(struct mempool_tags *tags, struct rte_mempool_cache *cache)
{
	struct mempool_tag *object;

	if (rte_mempool_generic_get(tags->pool, (void **)&object, 1, cache) != 0)
		return -1;
	return (int)object->number;
}

// Clears a tag.
void mempool_tags_clear(struct mempool_tags *tags, struct rte_mempool_cache *cache, unsigned int tag)
{
	rte_mempool_generic_put(tags->pool, (void **)&tags->objects[tag], 1, cache);
}

// So many tags, at most 64, or none.
unsigned int mempool_tags_get_batch(struct mempool_tags *tags, struct rte_mempool_cache *cache, unsigned int *got,
				    unsigned int count)
{
	void *objects[64];

	if (count > 64 || rte_mempool_generic_get(tags->pool, objects, count, cache) != 0)
		return 0;
	for (unsigned int at = 0; at < count; at++)
		got[at] = ((struct mempool_tag *)objects[at])->number;
	return count;
}

// Clears so many tags, at most 64.
void mempool_tags_clear_batch(struct mempool_tags *tags, struct rte_mempool_cache *cache, const unsigned int *cleared,
			      unsigned int count)
{
	void *objects[64];

	if (count > 64)
		return;
	for (unsigned int at = 0; at < count; at++)
		objects[at] = tags->objects[cleared[at]];
	rte_mempool_generic_put(tags->pool, objects, count, cache);
}
