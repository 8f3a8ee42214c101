/*
 * Waits for a hand, at the gate of the pool: gates.c. A thread that finds others waiting comes after
 * them. tags_join() waits for nothing, so it comes before all.
 */
#define _GNU_SOURCE
#include "bell.h"

#include <time.h>

static int32_t look_for_hand(struct tags_waiter *it)
{
	const int32_t status = tags_join(it->pool, it->hand, it->flags);

	if (status != TAGS_NO_HAND)
		return status;
	return tags_library_is_stopped(it->pool) ? (int32_t)TAGS_STOPPED : (int32_t)TAGS_NOT_YET;
}

/* A call that is to be refused is refused at once. */
static int32_t join_until(struct tags_pool *pool, struct tags_hand *hand, uint32_t flags,
			  const struct tags_limit *limit)
{
	struct tags_waiter it = { .what = TAGS_A_HAND, .look = look_for_hand, .limit = limit };
	int32_t status = TAGS_NO_HAND;

	if (!pool || !hand)
		return TAGS_NULL;
	it.pool = pool;
	it.hand = hand;
	it.flags = flags;
	if (hand->full || flags > TAGS_STAY || !tags_library_is_crowded(pool))
		status = tags_join(pool, hand, flags);
	if (status != TAGS_NO_HAND)
		return status;
	if (!tags_library_come_to_gate(pool, &it))
		return TAGS_BAD_HANDLE;
	return tags_library_wait_at_gate(&it);
}

int32_t tags_join_blocking(struct tags_pool *pool, struct tags_hand *hand, uint32_t flags)
{
	return join_until(pool, hand, flags, &TAGS_NO_LIMIT);
}

int32_t tags_join_timed(struct tags_pool *pool, struct tags_hand *hand, uint32_t flags,
			int32_t clock, const struct timespec *deadline)
{
	const struct tags_limit limit = { clock, deadline };

	if (!pool || !hand || !deadline)
		return TAGS_NULL;
	if (!tags_library_is_sound(&limit))
		return TAGS_BAD_TIME;
	return join_until(pool, hand, flags, &limit);
}
