/*
 * Threads that sleep until a tag is free: rounds of the library, with a sleep between two of them.
 *
 * A round says whether the thread may sleep, and a sleep may end at any time. So what ends one, be it a
 * tag, a deadline, a stop, a cancel or nothing, is only another round, with which the wait ends or goes
 * on. After each sleep the thread tries once more. How it is woken is in bell.c.
 *
 * A get is tried before anything else, so a hand that waits already is refused only if it would have
 * to wait. Whoever is to wait for a reserved tag first gives back what it keeps, which it would hide
 * while it sleeps.
 */
#define _GNU_SOURCE
#include "bell.h"

#include <time.h>

/* Leaves the bed, and takes the token, if there is one. */
static void rise(struct tags_place *place)
{
	place->bed = NULL;
	place->is_woken = false;
	pthread_mutex_unlock(&place->lock);
}

static int32_t make_round(struct tags_hand *hand, int32_t why)
{
	struct tags_told due = { 0, 0 };
	const int32_t tag = tags_library_go_on(hand, false, why, &due);

	tags_library_wake_told(hand, &due);
	return tag;
}

/* What is left of the wait of a thread that was cancelled in its sleep. */
static void abandon(void *argument)
{
	struct tags_hand *hand = argument;

	rise(hand->place);
	make_round(hand, TAGS_STOPPED);
	__atomic_store_n(&hand->in_call, 0, __ATOMIC_RELAXED);
}

/* Until the hand is woken, or until the limit, unless it was woken since its last sleep. */
static void sleep_until_woken(struct tags_hand *hand, const struct tags_limit *limit)
{
	struct tags_place *place = hand->place;

	pthread_mutex_lock(&place->lock);
	if (!place->is_woken)
		place->bed = &place->beds[limit->clock == CLOCK_REALTIME];
	pthread_cleanup_push(abandon, hand);
	if (place->bed)
		tags_library_sleep(place->bed, &place->lock, limit);
	pthread_cleanup_pop(0);
	rise(place);
}

static int32_t why_over(const struct tags_hand *hand, const struct tags_limit *limit)
{
	if (tags_is_ended(hand))
		return TAGS_STOPPED;
	return tags_library_is_past(limit) ? (int32_t)TAGS_TIMED_OUT : (int32_t)TAGS_OK;
}

int32_t tags_library_wait_for(struct tags_hand *hand, enum tags_kind kind,
			      const struct tags_limit *limit)
{
	int saved = errno;
	int32_t why, tag;

	if (hand->place->is_waiting)
		return TAGS_WAITING;
	tags_begin_wait(hand, kind);
	do {
		why = why_over(hand, limit);
		if (why == TAGS_OK && hand->place->is_waiting)
			sleep_until_woken(hand, limit);
		tag = make_round(hand, why);
	} while (tag == TAGS_NO_TAG);
	errno = saved;
	return tag;
}

static int32_t get_until(struct tags_hand *hand, enum tags_kind kind, const struct tags_limit *limit)
{
	int32_t tag;

	if (tags_detail_is_stopped(hand))
		return TAGS_STOPPED;
	tag = tags_library_get_of(hand, kind);
	return tag == TAGS_NO_TAG ? tags_library_wait_for(hand, kind, limit) : tag;
}

static int32_t get_timed(struct tags_hand *hand, enum tags_kind kind, int32_t clock,
			 const struct timespec *deadline)
{
	const struct tags_limit limit = { clock, deadline };

	return tags_library_is_sound(&limit) ? get_until(hand, kind, &limit) : (int32_t)TAGS_BAD_TIME;
}

int32_t tags_library_wait(struct tags_hand *hand)
{
	return tags_library_wait_for(hand, TAGS_ORDINARY, &TAGS_NO_LIMIT);
}

int32_t tags_library_get_timed(struct tags_hand *hand, int32_t clock,
			       const struct timespec *deadline)
{
	return get_timed(hand, TAGS_ORDINARY, clock, deadline);
}

int32_t tags_library_get_reserved_blocking(struct tags_hand *hand)
{
	return get_until(hand, TAGS_RESERVED, &TAGS_NO_LIMIT);
}

int32_t tags_library_get_reserved_timed(struct tags_hand *hand, int32_t clock,
					const struct timespec *deadline)
{
	return get_timed(hand, TAGS_RESERVED, clock, deadline);
}
