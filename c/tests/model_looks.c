/* The model of reports. */
#include "model.h"

#include <string.h>

static bool is_busy(const struct set *set, uint32_t at)
{
	return set->place[at] == HELD || set->place[at] == POSTED;
}

static bool is_pool(const struct model *handle)
{
	return handle->pool && !is_hand(handle);
}

static int32_t list_busy(struct model *hand, uint64_t *into, size_t words)
{
	int32_t busy = 0;

	if ((total_of(hand) + 63) / 64 > words)
		return TAGS_TOO_SMALL;
	memset(into, 0, words * sizeof(*into));
	for (uint32_t tag = 0; tag < total_of(hand); tag++)
		if (is_busy(set_of(hand, tag), tag - set_of(hand, tag)->first)) {
			into[tag / 64] |= (uint64_t)1 << tag % 64;
			busy++;
		}
	return busy;
}

int32_t model_busy(struct model *hand, uint64_t *into, size_t words)
{
	return is_hand(hand) ? list_busy(hand, into, words) : TAGS_BAD_HANDLE;
}

int32_t model_pool_busy(struct model *pool, uint64_t *into, size_t words)
{
	return is_pool(pool) ? list_busy(pool, into, words) : TAGS_BAD_HANDLE;
}

static int32_t show_set(const struct model *hand, uint32_t kind, struct tags_sizes *sizes)
{
	const struct set *set;

	if (kind > TAGS_RESERVED)
		return TAGS_BAD_KIND;
	set = &hand->pool->set[kind];
	*sizes = (struct tags_sizes) {
		.depth = set->depth,
		.bits_per_word = 1u << set->shift,
		.words = words_of(set),
	};
	for (uint32_t at = 0; at < set->depth; at++) {
		sizes->busy += is_busy(set, at);
		sizes->cleared += set->place[at] == ASIDE;
	}
	return TAGS_OK;
}

int32_t model_show(struct model *hand, uint32_t kind, struct tags_sizes *sizes)
{
	return is_hand(hand) ? show_set(hand, kind, sizes) : TAGS_BAD_HANDLE;
}

int32_t model_pool_show(struct model *pool, uint32_t kind, struct tags_sizes *sizes)
{
	return is_pool(pool) ? show_set(pool, kind, sizes) : TAGS_BAD_HANDLE;
}

static int32_t count_waiting(const struct pool *pool)
{
	int32_t waiting = 0;

	for (uint32_t i = 0; i < pool->hands; i++)
		waiting += pool->member[i].bell != IDLE;
	return waiting;
}

int32_t model_waiting(struct model *hand)
{
	return is_hand(hand) ? count_waiting(hand->pool) : TAGS_BAD_HANDLE;
}

int32_t model_pool_waiting(struct model *pool)
{
	return is_pool(pool) ? count_waiting(pool->pool) : TAGS_BAD_HANDLE;
}
