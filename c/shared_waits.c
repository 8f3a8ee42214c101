/*
 * Threads that sleep for a tag with a hand that others use meanwhile.
 *
 * One of them at a time waits in the pool: it lists a hand, as a listener, and is told by a function.
 * The others queue for its turn, at a gate (gates.c). Whoever has the turn is listed, or was told and
 * is about to try; and whoever gives it up tells the next one, which tries in its place. So nobody
 * sleeps there beside a free tag unless somebody is on the way to it.
 */
#define _GNU_SOURCE
#include "lock.h"
#include "shared.h"

/* A thread's wait. */
struct wait {
	/* for the turn; it comes first, as the gate hands it to the look */
	struct tags_waiter turn;
	const struct tags_hands *hands;
	/* the hand that it lists, and the pool's count of stops when it began */
	struct tags_locked *at;
	uint32_t stops;
	/* with the lock: the hand was told, and has not tried since */
	pthread_mutex_t lock;
	bool is_told;
	pthread_cond_t bed;
};

/*
 * The turn. It is found at a gate by an address alone, as that of a pool is.
 */

static struct bell *gate_of(const struct tags_hands *hands)
{
	return (struct bell *)(void *)hands->shared;
}

static int32_t look_for_turn(struct tags_waiter *it)
{
	const struct wait *wait = (const struct wait *)(const void *)it;

	return tags_swap(&wait->hands->shared->has_turn, 1) == 0 ? (int32_t)TAGS_OK :
								   (int32_t)TAGS_NOT_YET;
}

static void give_up_turn(const struct tags_hands *hands)
{
	tags_store(&hands->shared->has_turn, 0);
	tags_library_tell_first(gate_of(hands), TAGS_A_TURN);
}

/*
 * A wait, with the turn
 */

static void rouse(void *argument)
{
	struct wait *wait = argument;

	pthread_mutex_lock(&wait->lock);
	wait->is_told = true;
	pthread_cond_signal(&wait->bed);
	pthread_mutex_unlock(&wait->lock);
}

static int32_t make_round(struct wait *wait)
{
	const struct tags_notice notice = { -1, rouse, wait, false, true };
	struct tags_told due = { 0, 0 };
	int32_t tag;

	tags_lock(&wait->at->lock);
	tag = tags_library_listen(&wait->at->hand, TAGS_ORDINARY, &notice, &due);
	tags_library_note_holder(wait->hands, wait->at, tag);
	tags_unlock(&wait->at->lock);
	tags_library_wake_others(wait->hands, &due);
	return tag;
}

/* Afterwards the hand is not listed, and nobody rouses the thread. */
static int32_t end_with(struct wait *wait, int32_t why)
{
	struct tags_told due = { 0, 0 };

	tags_lock(&wait->at->lock);
	tags_library_end_poll(&wait->at->hand, &due);
	tags_unlock(&wait->at->lock);
	tags_library_wake_others(wait->hands, &due);
	return why;
}

static void end_turn(struct wait *wait)
{
	pthread_cond_destroy(&wait->bed);
	pthread_mutex_destroy(&wait->lock);
	give_up_turn(wait->hands);
}

/* What is left of the wait of a thread that was cancelled in its sleep. */
static void abandon(void *argument)
{
	struct wait *wait = argument;

	pthread_mutex_unlock(&wait->lock);
	end_with(wait, TAGS_STOPPED);
	end_turn(wait);
}

/* Until it is told, or until the limit. */
static void sleep_until_told(struct wait *wait)
{
	pthread_mutex_lock(&wait->lock);
	pthread_cleanup_push(abandon, wait);
	while (!wait->is_told && tags_library_sleep(&wait->bed, &wait->lock, wait->turn.limit))
		;
	pthread_cleanup_pop(0);
	wait->is_told = false;
	pthread_mutex_unlock(&wait->lock);
}

/* A stop ends also a wait that was for the turn then. */
static int32_t why_over(const struct wait *wait)
{
	if (tags_load(&wait->hands->waits->stops) != wait->stops) {
		TAGS_DETAIL_SEES(TAGS_MAX_TOTAL + 1);
		return TAGS_STOPPED;
	}
	return tags_library_is_past(wait->turn.limit) ? (int32_t)TAGS_TIMED_OUT : (int32_t)TAGS_OK;
}

/* What these hands keep goes back, and from now on they keep nothing, as they see that a thread waits. */
static int32_t begin_rounds(struct wait *wait)
{
	const int32_t tag = make_round(wait);

	if (tag == TAGS_NO_TAG && tags_bell_of(wait->hands->waits)->is_cached)
		tags_library_flush_all(wait->hands);
	return tag;
}

static int32_t make_rounds(struct wait *wait)
{
	int32_t tag = begin_rounds(wait);

	while (tag == TAGS_NO_TAG) {
		const int32_t why = why_over(wait);

		if (why != TAGS_OK)
			return end_with(wait, why);
		sleep_until_told(wait);
		tag = make_round(wait);
	}
	return tag;
}

static int32_t wait_with_turn(struct wait *wait)
{
	int32_t tag;

	tags_library_make_bed(&wait->bed, wait->turn.limit->clock);
	pthread_mutex_init(&wait->lock, NULL);
	wait->at = tags_library_enter(wait->hands);
	tags_unlock(&wait->at->lock);
	tag = make_rounds(wait);
	end_turn(wait);
	return tag;
}

static int32_t wait_until(const struct tags_hands *hands, const struct tags_limit *limit,
			  uint32_t stops)
{
	struct wait wait = { .turn = { .what = TAGS_A_TURN, .look = look_for_turn, .limit = limit } };
	int saved = errno;
	int32_t answer;

	wait.turn.bell = gate_of(hands);
	wait.hands = hands;
	wait.stops = stops;
	tags_library_come(&wait.turn);
	answer = tags_library_wait_at_gate(&wait.turn);
	if (answer == TAGS_OK)
		answer = wait_with_turn(&wait);
	errno = saved;
	return answer;
}

/*
 * Calls
 */

static int32_t get_until(struct tags_hands *hands, const struct tags_limit *limit)
{
	uint32_t stops;
	int32_t tag;

	if (!hands->full)
		return TAGS_BAD_HANDLE;
	stops = tags_load(&hands->waits->stops);
	TAGS_DETAIL_SEES(TAGS_MAX_TOTAL + 1);
	if (stops % 2 == 1)
		return TAGS_STOPPED;
	tag = tags_hands_get(hands);
	return tag == TAGS_NO_TAG ? wait_until(hands, limit, stops) : tag;
}

int32_t tags_hands_get_blocking(struct tags_hands *hands)
{
	return hands ? get_until(hands, &TAGS_NO_LIMIT) : (int32_t)TAGS_NULL;
}

int32_t tags_hands_get_timed(struct tags_hands *hands, int32_t clock,
			     const struct timespec *deadline)
{
	const struct tags_limit limit = { clock, deadline };

	if (!hands || !deadline)
		return TAGS_NULL;
	if (!tags_library_is_sound(&limit))
		return TAGS_BAD_TIME;
	return get_until(hands, &limit);
}
