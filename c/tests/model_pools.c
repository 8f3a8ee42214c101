/* The model of pools: how they are opened, resized and closed, and how their hands join and leave. */
#include "model.h"

#include <stdlib.h>

static bool is_pool(const struct model *handle)
{
	return handle->pool && handle->number == THE_POOL;
}

static uint32_t default_shift(uint32_t depth, uint32_t hands)
{
	const uint32_t words = hands > 4 ? hands : 4;
	uint32_t shift = TAGS_MAX_SHIFT;

	while (depth >= 4 && shift > 0 && words << shift > depth)
		shift--;
	return shift;
}

static uint32_t shift_of(uint32_t depth, const struct tags_options *options)
{
	if (options->shift == TAGS_ONE_PER_WORD)
		return 0;
	if (options->shift == TAGS_SHIFT_AS_KERNEL)
		return default_shift(depth, 4);
	return options->shift > 0 ? (uint32_t)options->shift : default_shift(depth, options->hands);
}

static void open_set(struct set *set, uint32_t first, uint32_t depth,
		     const struct tags_options *options)
{
	set->first = first;
	set->depth = depth;
	set->shift = shift_of(depth, options);
	set->round_robin = options->flags & TAGS_ROUND_ROBIN;
}

static int32_t find_fault(const struct tags_options *options)
{
	if (options->flags & ~(uint32_t)(TAGS_ROUND_ROBIN | TAGS_KEEP_WHILE_HOLDING | TAGS_NOTES))
		return TAGS_BAD_FLAG;
	if (options->shift < TAGS_SHIFT_AS_KERNEL)
		return TAGS_BAD_SHIFT;
	if (options->cache > TAGS_MAX_CACHE)
		return TAGS_CACHE_TOO_LARGE;
	if (options->total > TAGS_MAX_TOTAL)
		return TAGS_TOTAL_TOO_LARGE;
	if (options->reserved > options->total)
		return TAGS_RESERVED_TOO_LARGE;
	if (options->shift > TAGS_MAX_SHIFT)
		return TAGS_SHIFT_TOO_LARGE;
	if (options->hands == 0 || options->hands > TAGS_MAX_HANDS)
		return TAGS_BAD_HAND_COUNT;
	return TAGS_OK;
}

int32_t model_open(struct model *handle, const struct tags_options *options)
{
	int32_t fault = handle->pool ? (int32_t)TAGS_NOT_EMPTY : find_fault(options);
	uint32_t ordinary = options->total - options->reserved;
	struct pool *pool;

	if (fault)
		return fault;
	pool = calloc(1, sizeof(*pool));
	if (!pool)
		abort();
	open_set(&pool->set[TAGS_ORDINARY], options->reserved, ordinary, options);
	open_set(&pool->set[TAGS_RESERVED], 0, options->reserved, options);
	pool->least = options->min_shallow ? options->min_shallow : 1;
	pool->hands = options->hands;
	pool->cache = options->cache;
	pool->is_careful = options->flags & TAGS_KEEP_WHILE_HOLDING;
	pool->has_notes = options->flags & TAGS_NOTES;
	for (uint32_t i = 0; i < pool->hands; i++)
		pool->berth[i] = (int)(pool->hands - 1 - i);
	handle->pool = pool;
	handle->number = THE_POOL;
	return TAGS_OK;
}

static int take_from_berth(struct pool *pool)
{
	for (uint32_t i = pool->hands; i-- > 0;) {
		int number = pool->berth[i];

		pool->berth[i] = NOBODY;
		if (number != NOBODY)
			return number;
	}
	return NOBODY;
}

int32_t model_join(struct model *handle, struct model *hand, uint32_t flags)
{
	int number;

	if (hand->pool)
		return TAGS_NOT_EMPTY;
	if (!is_pool(handle))
		return TAGS_BAD_HANDLE;
	if (flags > TAGS_STAY)
		return TAGS_BAD_FLAG;
	number = take_from_berth(handle->pool);
	if (number == NOBODY)
		return TAGS_NO_HAND;
	hand->pool = handle->pool;
	hand->number = number;
	member_of(hand)->window = 0;
	member_of(hand)->lent = 0;
	for (int kind = 0; kind < 2 && flags != TAGS_STAY; kind++)
		member_of(hand)->hint[kind] =
			(uint32_t)number * hand->pool->set[kind].depth / hand->pool->hands;
	return TAGS_OK;
}

int32_t model_leave(struct model *hand)
{
	uint32_t i = 0;

	if (!is_hand(hand))
		return TAGS_BAD_HANDLE;
	model_flush(hand);
	while (hand->pool->berth[i] != NOBODY)
		i++;
	hand->pool->berth[i] = hand->number;
	hand->pool = NULL;
	return TAGS_OK;
}

static bool is_out(const struct pool *pool)
{
	for (uint32_t i = 0; i < pool->hands; i++)
		if (pool->berth[i] == NOBODY)
			return true;
	return false;
}

/* Each place of the ordinary set begins anew; hints stay, and are reduced where a get begins. */
static void renew(struct pool *pool, uint32_t depth)
{
	struct set *set = &pool->set[TAGS_ORDINARY];

	set->depth = depth;
	for (uint32_t at = 0; at < depth; at++) {
		set->place[at] = FREE;
		set->slot[at] = 0;
	}
}

int32_t model_resize(struct model *handle, uint32_t total)
{
	struct pool *pool = handle->pool;

	if (!is_pool(handle))
		return TAGS_BAD_HANDLE;
	if (total > TAGS_MAX_TOTAL)
		return TAGS_TOTAL_TOO_LARGE;
	if (total < pool->set[TAGS_RESERVED].depth)
		return TAGS_RESERVED_TOO_LARGE;
	if (is_out(pool))
		return TAGS_HANDS_OUT;
	if (pool->sums.held || pool->sums.posted)
		return TAGS_IN_USE;
	renew(pool, total - pool->set[TAGS_RESERVED].depth);
	return TAGS_OK;
}

int32_t model_close(struct model *handle, struct tags_sums *sums)
{
	if (!is_pool(handle))
		return TAGS_BAD_HANDLE;
	if (is_out(handle->pool))
		return TAGS_HANDS_OUT;
	*sums = handle->pool->sums;
	free(handle->pool);
	handle->pool = NULL;
	return TAGS_OK;
}
