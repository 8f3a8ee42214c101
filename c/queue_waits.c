/*
 * Waits for a submitted tag: waits for a token of its queue, by the hand's hand of those. So a hand may wait
 * in several queues, and for a free tag as well. What such a wait is, is in blocking.c and events.c.
 *
 * A hand first tries without a wait, also while the pool is stopped; and once more if a stop has ended its
 * wait. So what was submitted before the stop is still carried out.
 */
#define _GNU_SOURCE
#include "queues.h"

#include <time.h>

/* How a hand waits: in its sleep until the limit, or if that is NULL until it is notified. */
struct way {
	const struct tags_limit *limit;
	const struct tags_notice *notice;
};

/* What is left of the call of a thread that was cancelled in its sleep. */
static void abandon(void *argument)
{
	struct tags_hand *hand = argument;

	__atomic_store_n(&hand->in_call, 0, __ATOMIC_RELAXED);
}

static int32_t sleep_for_token(struct tags_hand *hand, struct tags_hand *in, const struct tags_limit *limit)
{
	int32_t token;

	pthread_cleanup_push(abandon, hand);
	token = tags_library_wait_for(in, TAGS_ORDINARY, limit);
	pthread_cleanup_pop(0);
	return token;
}

/* A hand that sleeps makes no clear meanwhile, by which others would learn of what it keeps. */
static int32_t wait_for_token(struct tags_hand *hand, struct tags_hand *in, const struct way *way)
{
	tags_flush(hand);
	if (way->limit)
		return sleep_for_token(hand, in, way->limit);
	return tags_library_listen(in, TAGS_ORDINARY, way->notice, NULL);
}

/* After a wait that ended with a token, or for another reason. */
static int32_t end_wait(struct tags_hand *hand, uint32_t number, int32_t token)
{
	int32_t tag;

	if (token >= 0)
		return tags_library_take_next(hand, tags_queue_of(hand, number), (uint32_t)token);
	if (token != TAGS_STOPPED)
		return token;
	tag = tags_library_next(hand, number);
	return tag == TAGS_NO_TAG ? token : tag;
}

/* A hand that waits already, to be notified, goes on with that wait, or ends it. */
static int32_t next_by(struct tags_hand *hand, uint32_t number, const struct way *way)
{
	int32_t tag = tags_find_queue(hand, number);
	struct tags_hand *in;

	if (tag != TAGS_OK)
		return tag;
	in = tags_hand_in(tags_queue_of(hand, number), hand);
	tag = way->notice && in->place->is_waiting ? (int32_t)TAGS_NO_TAG : tags_library_next(hand, number);
	return tag == TAGS_NO_TAG ? end_wait(hand, number, wait_for_token(hand, in, way)) : tag;
}

int32_t tags_library_next_blocking(struct tags_hand *hand, uint32_t queue)
{
	return next_by(hand, queue, &(const struct way){ &TAGS_NO_LIMIT, NULL });
}

int32_t tags_library_next_timed(struct tags_hand *hand, uint32_t queue, int32_t clock,
				const struct timespec *deadline)
{
	const struct tags_limit limit = { clock, deadline };

	if (!tags_library_is_sound(&limit))
		return TAGS_BAD_TIME;
	return next_by(hand, queue, &(const struct way){ &limit, NULL });
}

int32_t tags_library_next_async(struct tags_hand *hand, uint32_t queue, int descriptor)
{
	const struct tags_notice notice = { descriptor, NULL, NULL, false, false };
	const int32_t status = tags_find_queue(hand, queue);

	if (status != TAGS_OK)
		return status;
	if (descriptor < 0)
		return TAGS_BAD_EVENT;
	return next_by(hand, queue, &(const struct way){ NULL, &notice });
}

int32_t tags_library_next_notified(struct tags_hand *hand, uint32_t queue,
				   void (*function)(void *argument), void *argument)
{
	const struct tags_notice notice = { -1, function, argument, false, false };

	return next_by(hand, queue, &(const struct way){ NULL, &notice });
}

static bool cancel(const struct tags_hand *hand, uint32_t number)
{
	return tags_library_cancel(tags_hand_in(tags_queue_of(hand, number), hand));
}

int32_t tags_library_cancel_next(struct tags_hand *hand, uint32_t queue)
{
	const int32_t status = tags_find_queue(hand, queue);

	if (status != TAGS_OK)
		return status;
	return cancel(hand, queue) ? TAGS_OK : TAGS_NOT_WAITING;
}

void tags_library_cancel_nexts(const struct tags_hand *hand)
{
	for (uint32_t i = 0; i < hand->waits->queues; i++)
		cancel(hand, i);
}
