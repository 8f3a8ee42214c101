/*
 * Programs that take the next tags of queues: they never wait, sleep, or are notified.
 */
#include "tags.h"

#include "programs.h"
#include "scenario.h"
#include "submits.h"

#include <errno.h>
#include <time.h>

static const struct timespec deadline = { 100, 500 };

/* Gives a tag back that was taken, unless the thread holds it for ever. Returns whether it goes on. */
static bool finish(int me, int32_t tag)
{
	if (tag < 0) {
		may_be_stopped(tag);
		return false;
	}
	if (holds_for_ever())
		return false;
	clear_tag(me, tag);
	return true;
}

/* The thread takes from the last queue, or from queue 0 if it is the only one. */
static uint32_t last_queue(void)
{
	return scenario->queues - 1;
}

void next_sleeper(int me)
{
	for (int round = 0; goes_on(me, round); round++) {
		begin_next(me, last_queue());
		if (!finish(me, end_next(me, last_queue(), CALL(tags_next_blocking(hands[me], last_queue())))))
			return;
	}
	end_program(me);
}

/* Gives a tag back first, which it may keep. */
void next_keeper(int me)
{
	const int32_t tag = CALL(tags_get(hands[me]));

	if (tag >= 0) {
		take_tag(me, tag);
		clear_tag(me, tag);
	}
	next_sleeper(me);
}

void next_timed(int me)
{
	for (int round = 0; goes_on(me, round); round++) {
		int32_t tag;

		begin_next(me, 0);
		world->thread[me].is_late = false;
		tag = end_next(me, 0, CALL(tags_next_timed(hands[me], 0, CLOCK_MONOTONIC, &deadline)));
		if (tag == TAGS_TIMED_OUT && !world->thread[me].is_late)
			fault("a wait timed out before its deadline");
		if (tag != TAGS_TIMED_OUT && !finish(me, tag))
			return;
	}
	end_program(me);
}

void next_taker(int me)
{
	for (int round = 0; goes_on(me, round); round++) {
		int32_t tag;

		begin_next(me, 0);
		tag = end_next(me, 0, CALL(tags_next(hands[me], 0)));
		if (tag != TAGS_NO_TAG && !finish(me, tag))
			return;
	}
	end_program(me);
}

/*
 * Those that are notified
 */

/* Notes that the thread waits in these queues, or waits there no more. */
static void note_waits(int me, uint8_t queues)
{
	world->notes.queue_waits[me] = queues;
}

/* Called without the lock of any bell. */
static void call_next(void *argument)
{
	struct event *event = argument;

	if (has_lock(current))
		fault("a function is called with the lock");
	pause_before(OP_EVENT_WRITE, event, sizeof(*event), 1, PC);
	if (!event->is_open)
		fault("a function runs after the wait has ended");
	tell_step("the function notes a call");
	event->count++;
	errno = 0;
}

static int32_t next_by_event(int me, uint32_t queue)
{
	begin_next(me, queue);
	return end_next(me, queue, CALL(tags_next_async(hands[me], queue, me)));
}

static int32_t next_by_function(int me, uint32_t queue)
{
	begin_next(me, queue);
	return end_next(me, queue, CALL(tags_next_notified(hands[me], queue, call_next, &world->event[me])));
}

/* What a thread that is notified may do in place of another wait. */
enum way { STAYS, CANCELS, LEAVES };

static void give_up(int me, enum way way)
{
	if (way == LEAVES) {
		EXPECT(TAGS_OK, tags_leave(hands[me]));
		return;
	}
	EXPECT(TAGS_OK, tags_cancel_next(hands[me], last_queue()));
	EXPECT(TAGS_NOT_WAITING, tags_cancel_next(hands[me], last_queue()));
}

/* Waits until it has a tag, an error, or no wish to wait any longer. */
static int32_t wait_for_next(int me, enum way way, int32_t (*next)(int me, uint32_t queue))
{
	int32_t tag;

	while ((tag = next(me, last_queue())) == TAGS_NO_TAG) {
		note_waits(me, (uint8_t)(1U << last_queue()));
		if (way != STAYS && choose(2)) {
			give_up(me, way);
			break;
		}
		wait_event(me);
	}
	note_waits(me, 0);
	return tag;
}

static void loop(int me, enum way way, int32_t (*next)(int me, uint32_t queue))
{
	for (int round = 0; goes_on(me, round); round++) {
		int32_t tag;

		open_event(me);
		tag = wait_for_next(me, way, next);
		close_event(me);
		if (!hands[me]->full || (tag != TAGS_NO_TAG && !finish(me, tag)))
			return;
	}
	end_program(me);
}

void next_listener(int me)
{
	loop(me, STAYS, next_by_event);
}

void next_quitter(int me)
{
	loop(me, CANCELS, next_by_event);
}

void next_leaver(int me)
{
	loop(me, LEAVES, next_by_event);
}

void next_canceller(int me)
{
	loop(me, CANCELS, next_by_function);
}

/* Waits in all queues at once by one eventfd, until it has a tag, and gives up the others. */
void next_of_all(int me)
{
	int32_t tag = TAGS_NO_TAG;
	uint8_t waits = 0;

	open_event(me);
	while (tag == TAGS_NO_TAG) {
		for (uint32_t queue = 0; queue < scenario->queues && tag == TAGS_NO_TAG; queue++) {
			tag = next_by_event(me, queue);
			waits = (uint8_t)(tag == TAGS_NO_TAG ? waits | 1U << queue : waits & ~(1U << queue));
		}
		note_waits(me, waits);
		if (tag == TAGS_NO_TAG)
			wait_event(me);
	}
	for (uint32_t queue = 0; queue < scenario->queues; queue++)
		EXPECT(waits >> queue & 1 ? TAGS_OK : TAGS_NOT_WAITING, tags_cancel_next(hands[me], queue));
	note_waits(me, 0);
	close_event(me);
	finish(me, tag);
}

/* Waits for a free tag and in the queue at once, until it has one or the other. */
void next_or_get(int me)
{
	int32_t tag, next = TAGS_NO_TAG;

	open_event(me);
	while ((tag = CALL(tags_get_async(hands[me], me))) == TAGS_NO_TAG && (next = next_by_event(me, 0)) == TAGS_NO_TAG) {
		note_waits(me, FOR_A_TAG | 1);
		wait_event(me);
		note_waits(me, 0);
	}
	(void)CALL(tags_cancel(hands[me]));
	(void)CALL(tags_cancel_next(hands[me], 0));
	close_event(me);
	if (next != TAGS_NO_TAG)
		finish(me, next);
	else
		use_tag(me, tag);
}
