/*
 * Reports through a pool's handle, at any time: with the handle's lock, so that no other call
 * changes what they look at.
 */
#include "bell.h"

int32_t tags_pool_busy(struct tags_pool *pool, uint64_t *into, size_t words)
{
	int32_t status;

	if (!pool || !into)
		return TAGS_NULL;
	tags_library_lock_handle(pool);
	status = tags_library_pool_busy(pool, into, words);
	tags_library_unlock_handle(pool);
	return tags_detail_filled(status, into, words * sizeof(*into));
}

/* Calls the function for each bit, from the lowest on, until it stops. Returns how many times. */
static int32_t call_each(const uint64_t *busy, int (*function)(uint32_t tag, void *argument),
			 void *argument)
{
	int32_t calls = 0;

	for (uint32_t first = 0; first < TAGS_MAX_TOTAL; first += 64)
		for (uint64_t left = busy[first / 64]; left; left &= left - 1) {
			calls++;
			if (function(first + (uint32_t)__builtin_ctzll(left), argument))
				return calls;
		}
	return calls;
}

/* The function is called without the lock, of a report that was made with it. */
int32_t tags_pool_each_busy(struct tags_pool *pool, int (*function)(uint32_t tag, void *argument),
			    void *argument)
{
	uint64_t busy[TAGS_MAX_TOTAL / 64];
	int32_t status;

	if (!pool || !function)
		return TAGS_NULL;
	status = tags_pool_busy(pool, busy, TAGS_MAX_TOTAL / 64);
	return status < 0 ? status : call_each(busy, function, argument);
}

int32_t tags_pool_show(struct tags_pool *pool, uint32_t kind, struct tags_sizes *sizes)
{
	int32_t status;

	if (!pool || !sizes)
		return TAGS_NULL;
	tags_library_lock_handle(pool);
	status = tags_library_pool_show(pool, kind, sizes);
	tags_library_unlock_handle(pool);
	return tags_detail_filled(status, sizes, sizeof(*sizes));
}

/* A number of an open pool, which may change meanwhile, or a refusal. */
static int32_t number_of(struct tags_pool *pool, uint32_t (*number)(const struct bell *bell))
{
	int32_t answer = TAGS_BAD_HANDLE;

	if (!pool)
		return TAGS_NULL;
	tags_library_lock_handle(pool);
	if (tags_bell_in(pool))
		answer = (int32_t)number(tags_bell_in(pool));
	tags_library_unlock_handle(pool);
	return answer;
}

static uint32_t total_of(const struct bell *bell)
{
	return bell->reserved + bell->depth;
}

static uint32_t batch_of(const struct bell *bell)
{
	return bell->waits.batch;
}

/* Who waits in a queue does so in a bell of its own. */
static uint32_t waiting_of(const struct bell *bell)
{
	uint32_t waiting = tags_load(&bell->waiting);

	for (uint32_t i = 0; i < bell->waits.queues; i++)
		waiting += tags_load(&bell->queue_bells[i]->waiting);
	return waiting;
}

uint32_t tags_library_count_waiting(struct tags_waits *waits)
{
	return waiting_of(tags_bell_of(waits));
}

int32_t tags_library_waiting(const struct tags_hand *hand)
{
	return hand->place ? (int32_t)waiting_of(tags_bell_of(hand->waits)) : (int32_t)TAGS_BAD_HANDLE;
}

int32_t tags_pool_waiting(struct tags_pool *pool)
{
	return number_of(pool, waiting_of);
}

int32_t tags_pool_total(struct tags_pool *pool)
{
	return number_of(pool, total_of);
}

int32_t tags_pool_batch(struct tags_pool *pool)
{
	return number_of(pool, batch_of);
}
