/*
 * Waits for all tags to be back, or for those of a list, at the gate of the pool: gates.c.
 *
 * A drain has to know when its last tag is back, and need not be told of the others. So it is to be
 * told once after each of its looks: a look arms the pool, and the first call then that gives tags
 * back, or makes some free, disarms it and tells the drain, which rests a while before it looks
 * again. The pool is armed before the look, and disarmed after the tags are back, all by sequentially
 * consistent steps; so a tag that the look found busy is told of.
 *
 * Calls learn of it by the count of watchers, which they load anyhow: a pool that is armed counts as
 * one. In a pool with caches each drain is counted all the while as well, as hands may keep nothing
 * then.
 *
 * Whoever waits for the tags of a list may never find them free by itself, as their users may get
 * them again at once. So after each of its looks each hand looks for it, once, as soon as it gives
 * tags back. It counts its looks in the pool, each before it is made; and a hand that gave tags back
 * loads that count, by sequentially consistent steps. A hand that finds the count as it was has told
 * those who wait since it last changed, so they look after its tags are back. They are counted as
 * watchers, too, except while they rest.
 *
 * A sweep takes all tags that are set aside in a word, and frees those that its get does not keep: to a
 * look between the two they are busy. So a hand also looks after each get that may sweep. For a drain of
 * all tags it need not: such a get wins one of them, or others have, and that one is given back later.
 */
#define _GNU_SOURCE
#include "bell.h"

#include <time.h>

/* Nanoseconds of the first rest, and of the longest one. */
enum { FIRST_REST = 16000, LONGEST_REST = 1000000 };

static void arm(struct bell *bell)
{
	tags_add(&bell->waits.watchers, 1);
	if (tags_swap(&bell->is_armed, 1) == 1)
		tags_subtract(&bell->waits.watchers, 1);
}

bool tags_library_disarm(struct bell *bell)
{
	if (tags_load(&bell->is_armed) == 0 || tags_swap(&bell->is_armed, 0) == 0)
		return false;
	tags_subtract(&bell->waits.watchers, 1);
	return true;
}

void tags_library_see_to_lists(struct tags_hand *hand)
{
	const uint32_t looks = tags_load(&tags_bell_of(hand->waits)->looks);

	if (hand->place->looks == looks)
		return;
	hand->place->looks = looks;
	tags_library_look_for_lists(hand);
}

void tags_library_tags_are_back(struct tags_hand *hand)
{
	struct bell *bell = tags_bell_of(hand->waits);

	if (tags_library_disarm(bell))
		tags_library_tell_first(bell, TAGS_ALL_BACK);
	tags_library_see_to_lists(hand);
}

/* Not before the first look. Each rest is twice as long as the one before it. No cancel ends one: it is short. */
static void rest(struct tags_waiter *it)
{
	const struct timespec time = { 0, it->rest };
	int state;

	it->rest = it->rest == 0 ? FIRST_REST : 2 * it->rest;
	if (it->rest > LONGEST_REST)
		it->rest = LONGEST_REST;
	if (time.tv_nsec == 0 || tags_library_is_past(it->limit))
		return;
	pthread_setcancelstate(PTHREAD_CANCEL_DISABLE, &state);
	nanosleep(&time, NULL);
	pthread_setcancelstate(state, &state);
}

/* Whether any tag is busy, or a refusal. */
static int32_t find_any(struct tags_pool *pool)
{
	struct tags_sizes ordinary, reserved;
	int32_t status = tags_pool_show(pool, TAGS_ORDINARY, &ordinary);

	if (status == TAGS_OK)
		status = tags_pool_show(pool, TAGS_RESERVED, &reserved);
	return status == TAGS_OK ? ordinary.busy + reserved.busy > 0 : status;
}

/* Whether any tag of the list was busy at each look, or a refusal. */
static int32_t find_listed(struct tags_waiter *it)
{
	struct tags_set busy;
	const int32_t status = tags_pool_busy(it->pool, busy.words, TAGS_SET_WORDS);

	return status < 0 ? status : (int32_t)tags_library_leave_out(it, &busy);
}

static int32_t look_for_all(struct tags_waiter *it)
{
	int32_t found;

	rest(it);
	arm(it->bell);
	found = find_any(it->pool);
	return found > 0 ? (int32_t)TAGS_NOT_YET : found;
}

static int32_t look_for_listed(struct tags_waiter *it)
{
	int32_t found;

	/* whoever told it has looked for it, and may have left all tags out */
	if (!tags_library_leave_out(it, it->left))
		return TAGS_OK;
	/* one that rests need not be told of anything */
	tags_subtract(&it->bell->waits.watchers, 1);
	rest(it);
	tags_add(&it->bell->waits.watchers, 1);
	tags_add(&it->bell->looks, 1);
	found = find_listed(it);
	return found > 0 ? (int32_t)TAGS_NOT_YET : found;
}

/* The thread sanitizer is told that what was done with each tag is seen from now on. */
static void see_all_tags(void)
{
	if (!__tsan_acquire)
		return;
	for (uint32_t tag = 0; tag < TAGS_MAX_TOTAL; tag++)
		TAGS_DETAIL_SEES(tag);
}

/* As how many watchers a thread counts, beside an armed pool. */
static uint32_t weight_of(const struct tags_waiter *it)
{
	return (uint32_t)it->bell->is_cached + (it->left != NULL);
}

static void begin_drain(const struct tags_waiter *it)
{
	tags_add(&it->bell->waiting, 1);
	tags_add(&it->bell->waits.watchers, weight_of(it));
}

static void end_drain(void *argument)
{
	const struct tags_waiter *it = argument;

	tags_subtract(&it->bell->waits.watchers, weight_of(it));
	tags_subtract(&it->bell->waiting, 1);
}

static int32_t wait_for_tags(struct tags_pool *pool, struct tags_waiter *it)
{
	struct tags_waits *waits = tags_library_waits_of(pool);
	int32_t status;

	if (!waits)
		return TAGS_BAD_HANDLE;
	it->pool = pool;
	it->bell = tags_bell_of(waits);
	if (it->bell->is_cached)
		tags_library_flush_own(pool);
	begin_drain(it);
	pthread_cleanup_push(end_drain, it);
	tags_library_come(it);
	status = tags_library_wait_at_gate(it);
	pthread_cleanup_pop(1);
	return status;
}

static int32_t drain_until(struct tags_pool *pool, const struct tags_limit *limit)
{
	struct tags_waiter it = { .what = TAGS_ALL_BACK, .look = look_for_all, .limit = limit };
	const int32_t status = wait_for_tags(pool, &it);

	if (status == TAGS_OK)
		see_all_tags();
	return status;
}

int32_t tags_drain(struct tags_pool *pool)
{
	return pool ? drain_until(pool, &TAGS_NO_LIMIT) : (int32_t)TAGS_NULL;
}

int32_t tags_drain_timed(struct tags_pool *pool, int32_t clock, const struct timespec *deadline)
{
	const struct tags_limit limit = { clock, deadline };

	if (!pool || !deadline)
		return TAGS_NULL;
	if (!tags_library_is_sound(&limit))
		return TAGS_BAD_TIME;
	return drain_until(pool, &limit);
}

/*
 * The tags of a list
 */

/* Adds the tags of a list to a set, or refuses it. */
static int32_t add_listed(struct tags_pool *pool, const uint32_t *tags, size_t count,
			  struct tags_set *set)
{
	const int32_t total = tags_pool_total(pool);

	if (total < 0)
		return total;
	set->length = ((size_t)total + 63) / 64;
	for (size_t i = 0; i < count; i++) {
		if (tags[i] >= (uint32_t)total)
			return TAGS_NO_SUCH_TAG;
		set->words[tags[i] / 64] |= UINT64_C(1) << tags[i] % 64;
	}
	return TAGS_OK;
}

static int32_t drain_list(struct tags_pool *pool, const uint32_t *tags, size_t count,
			  const struct tags_limit *limit)
{
	struct tags_waiter it = { .what = TAGS_LISTED_BACK, .look = look_for_listed, .limit = limit };
	struct tags_set left = { 0, { 0 } };
	int32_t status = add_listed(pool, tags, count, &left);

	it.left = &left;
	if (status == TAGS_OK)
		status = wait_for_tags(pool, &it);
	for (size_t i = 0; status == TAGS_OK && i < count; i++)
		TAGS_DETAIL_SEES(tags[i]);
	return status;
}

int32_t tags_drain_list(struct tags_pool *pool, const uint32_t *tags, size_t count)
{
	if (!pool || (!tags && count > 0))
		return TAGS_NULL;
	return drain_list(pool, tags, count, &TAGS_NO_LIMIT);
}

int32_t tags_drain_list_timed(struct tags_pool *pool, const uint32_t *tags, size_t count,
			      int32_t clock, const struct timespec *deadline)
{
	const struct tags_limit limit = { clock, deadline };

	if (!pool || !deadline || (!tags && count > 0))
		return TAGS_NULL;
	if (!tags_library_is_sound(&limit))
		return TAGS_BAD_TIME;
	return drain_list(pool, tags, count, &limit);
}
