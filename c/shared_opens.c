/*
 * Opening and closing hands that threads share: they join one after another, and leave together. Hands
 * may hold tags since they left before, which is then noted as if they had got them here.
 */
#define _GNU_SOURCE
#include "shared.h"

#include <stdlib.h>
#include <unistd.h>

static uint32_t count_processors(void)
{
	const long count = sysconf(_SC_NPROCESSORS_ONLN);

	if (count < 1)
		return 1;
	return count < TAGS_MAX_HANDS ? (uint32_t)count : TAGS_MAX_HANDS;
}

static int32_t leave_all(struct tags_shared *shared, uint32_t count)
{
	int32_t status = TAGS_OK;

	while (count > 0) {
		const int32_t answer = tags_leave(&shared->hands[--count].hand);

		if (answer != TAGS_OK)
			status = answer;
	}
	free(shared);
	return status;
}

/* Joins @most hands, or as many as there are, but at least @least. Returns how many, or why not. */
static int32_t join_all(struct tags_pool *pool, struct tags_shared *shared, uint32_t least,
			uint32_t most)
{
	for (uint32_t count = 0; count < most; count++) {
		const int32_t status = tags_join(pool, &shared->hands[count].hand, 0);

		if (status == TAGS_NO_HAND && count >= least)
			return (int32_t)count;
		if (status != TAGS_OK) {
			leave_all(shared, count);
			return status;
		}
	}
	return (int32_t)most;
}

/* Some hands may hold tags since they left before. */
static void find_holders(struct tags_hands *hands)
{
	for (uint32_t tag = 0; tag < hands->total; tag++)
		for (uint32_t i = 0; i < hands->count; i++)
			if (tags_library_holds(&hands->shared->hands[i].hand, tag) == 1)
				hands->holders[tag] = (uint8_t)i;
}

/* A pool whose hands are out keeps its total. */
static int32_t fill(struct tags_pool *pool, struct tags_hands *hands, struct tags_shared *shared,
		    uint32_t count)
{
	const uint32_t total = (uint32_t)tags_pool_total(pool);
	uint8_t *holders = calloc(total, sizeof(*holders));

	if (!holders) {
		leave_all(shared, count);
		return TAGS_NO_MEMORY;
	}
	hands->full = 1;
	hands->shared = shared;
	hands->waits = shared->hands[0].hand.waits;
	hands->holders = holders;
	hands->count = count;
	hands->total = total;
	find_holders(hands);
	return TAGS_OK;
}

static int32_t open_hands(struct tags_pool *pool, struct tags_hands *hands, uint32_t count)
{
	const uint32_t most = count > 0 ? count : count_processors();
	struct tags_shared *shared = calloc(1, sizeof(*shared) + most * sizeof(*shared->hands));
	int32_t joined;

	if (!shared)
		return TAGS_NO_MEMORY;
	joined = join_all(pool, shared, count > 0 ? count : 1, most);
	return joined < 0 ? joined : fill(pool, hands, shared, (uint32_t)joined);
}

int32_t tags_hands_open(struct tags_pool *pool, struct tags_hands *hands, uint32_t count)
{
	int saved = errno;
	int32_t status;

	if (!pool || !hands)
		return TAGS_NULL;
	if (hands->full)
		return TAGS_NOT_EMPTY;
	status = tags_pool_total(pool);
	if (status >= 0 && count > TAGS_MAX_HANDS)
		status = TAGS_BAD_HAND_COUNT;
	else if (status >= 0)
		status = tags_pool_queued(pool, 0) < 0 ? open_hands(pool, hands, count) :
							 (int32_t)TAGS_BAD_QUEUE_COUNT;
	errno = saved;
	return status;
}

static bool holds_any(const struct tags_hands *hands)
{
	for (uint32_t tag = 0; tag < hands->total; tag++)
		if (tags_library_holds(&tags_holder_of(hands, tag)->hand, tag) == 1)
			return true;
	return false;
}

int32_t tags_hands_close(struct tags_hands *hands)
{
	int saved = errno;
	int32_t status;

	if (!hands)
		return TAGS_NULL;
	if (!hands->full)
		return TAGS_BAD_HANDLE;
	if (holds_any(hands))
		return TAGS_IN_USE;
	status = leave_all(hands->shared, hands->count);
	free(hands->holders);
	*hands = (struct tags_hands)TAGS_EMPTY;
	errno = saved;
	return status;
}
