/*
 * What pairs.c measures of other projects, where growth.sh has it: the kernel's sbitmap (KERNEL) and DPDK's rte_mempool (MEMPOOL).
 */
#include "pairs.h"

#ifdef KERNEL
/* The kernel's sbitmap_queue: each thread stands for a processor. */
struct sbitmap_queue *sbitmap_tags_open(unsigned int depth);
void sbitmap_tags_enter(struct sbitmap_queue *queue, unsigned int processor, unsigned int hint);
bool sbitmap_tags_close(struct sbitmap_queue *queue);
uint64_t sbitmap_tags_pairs(struct sbitmap_user *user, volatile uint64_t *slots, uint64_t rounds);

static struct sbitmap_queue *queue;

static bool kernel_open(void)
{
	queue = sbitmap_tags_open(tags);
	return queue;
}

static bool kernel_enter(struct thread *self)
{
	self->user.sbitmap.queue = queue;
	self->user.sbitmap.processor = self->index;
	sbitmap_tags_enter(queue, self->index, self->index * stride());
	return true;
}

static uint64_t kernel_run(struct thread *self, uint64_t rounds)
{
	return sbitmap_tags_pairs(&self->user.sbitmap, slots, rounds);
}

static bool kernel_close(void)
{
	return sbitmap_tags_close(queue);
}

const struct contender kernel = { "kernel", kernel_open, kernel_enter, kernel_run, NULL, kernel_close };
#endif

#ifdef MEMPOOL
/* DPDK's pool, with a cache for each thread. What other caches keep a thread does not find, so there have to be tags to spare. */
enum { CACHE = 8 };

struct mempool_tags *mempool_tags_open(unsigned int depth);
struct rte_mempool_cache *mempool_tags_enter(unsigned int most);
void mempool_tags_leave(struct mempool_tags *all, struct rte_mempool_cache *cache);
bool mempool_tags_close(struct mempool_tags *all);
int mempool_tags_get(struct mempool_tags *all, struct rte_mempool_cache *cache);
void mempool_tags_clear(struct mempool_tags *all, struct rte_mempool_cache *cache, unsigned int tag);

static struct mempool_tags *objects;

#define LOOPS mempool
#define USER struct rte_mempool_cache
#define GET(user) mempool_tags_get(objects, user)
#define CLEAR(user, tag) mempool_tags_clear(objects, user, tag)
#define TOUCH(user, slots, tag, value) touch_beside(slots, tag, value)
#include "../kernel/loops.h"

static bool mempool_open(void)
{
	objects = count + (count - 1) * 2 * CACHE <= tags ? mempool_tags_open(tags) : NULL;
	return objects;
}

static bool mempool_enter(struct thread *self)
{
	self->user.mempool = mempool_tags_enter(CACHE);
	return self->user.mempool;
}

static uint64_t mempool_run(struct thread *self, uint64_t rounds)
{
	return mempool_pairs(self->user.mempool, slots, rounds);
}

static bool mempool_leave(struct thread *self)
{
	mempool_tags_leave(objects, self->user.mempool);
	return true;
}

static bool mempool_close(void)
{
	return mempool_tags_close(objects);
}

const struct contender mempool = { "mempool", mempool_open, mempool_enter, mempool_run, mempool_leave, mempool_close };
#endif
