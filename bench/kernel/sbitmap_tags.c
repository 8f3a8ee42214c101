// The kernel's sbitmap_queue as main.rs calls it.
#include <linux/sbitmap.h>

#include "sbitmap_user.h"

__thread unsigned int this_processor;

// A map of free tags. NULL where there is no memory.
struct sbitmap_queue *sbitmap_tags_open(unsigned int depth)
{
	struct sbitmap_queue *queue = zeroed(sizeof(*queue));

	if (queue == NULL || sbitmap_queue_init_node(queue, depth, -1, false, GFP_KERNEL, NUMA_NO_NODE) != 0)
		return NULL;
	return queue;
}

// The calling thread is this processor from now on, and its next search begins at the hint.
void sbitmap_tags_enter(struct sbitmap_queue *queue, unsigned int processor, unsigned int hint)
{
	this_processor = processor;
	this_cpu_write(*queue->sb.alloc_hint, hint);
}

// Whether no tag of the map was taken. The map ends.
bool sbitmap_tags_close(struct sbitmap_queue *queue)
{
	bool none = sbitmap_weight(&queue->sb) == 0;

	sbitmap_queue_free(queue);
	free(queue);
	return none;
}

// The same, with what the thread needs for the calls below. NULL where there is no memory.
struct sbitmap_user *sbitmap_tags_join(struct sbitmap_queue *queue, unsigned int processor, unsigned int hint)
{
	struct sbitmap_user *user = zeroed(sizeof(*user));

	if (user == NULL)
		return NULL;
	user->queue = queue;
	user->processor = processor;
	sbitmap_tags_enter(queue, processor, hint);
	return user;
}

void sbitmap_tags_leave(struct sbitmap_user *user)
{
	free(user);
}

// A free tag, or -1.
int sbitmap_tags_get(struct sbitmap_user *user)
{
	return __sbitmap_queue_get(user->queue);
}

// Clears a tag that this processor got.
void sbitmap_tags_clear(struct sbitmap_user *user, unsigned int tag)
{
	sbitmap_queue_clear(user->queue, tag, user->processor);
}

static uint64_t get_batch(struct sbitmap_user *user, unsigned int count, unsigned int *first)
{
	return __sbitmap_queue_get_batch(user->queue, (int)count, first);
}

// The kernel clears the tags of a list.
static void clear_batch(struct sbitmap_user *user, unsigned int first, uint64_t mask)
{
	int tags[BITS_PER_LONG];
	int count = 0;

	for (; mask; mask &= mask - 1)
		tags[count++] = (int)first + __builtin_ctzll(mask);
	sbitmap_queue_clear_batch(user->queue, 0, tags, count);
}

// As in c_tags.c, the loops are C, with what <linux/sbitmap.h> has in line.
#define LOOPS sbitmap_tags
#define USER struct sbitmap_user
#define GET(user) __sbitmap_queue_get((user)->queue)
#define CLEAR(user, tag) sbitmap_queue_clear((user)->queue, tag, (user)->processor)
#define TOUCH(user, slots, tag, value) touch_beside(slots, tag, value)
#define GET_BATCH get_batch
#define CLEAR_BATCH clear_batch
#include "loops.h"
