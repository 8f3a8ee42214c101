/*
 * Programs that wait by an eventfd or by a function. Thread i has the eventfds i and i + MAX_THREADS;
 * what a function is passed is an eventfd, too.
 */
#include "tags.h"

#include "programs.h"
#include "scenario.h"

#include <errno.h>
#include <time.h>

/* What a loop may do in place of another wait. */
enum way { STAYS, CANCELS, LEAVES };

static bool is_reserving(int me)
{
	return world->notes.reserving >> me & 1;
}

/* Gets a tag of the set that the thread waits for. */
static int32_t get_async(int me, int event)
{
	return is_reserving(me) ? CALL(tags_get_reserved_async(hands[me], event)) :
				  CALL(tags_get_async(hands[me], event));
}

/* Waits until it has a tag, an error, or no wish to wait any longer. */
static int32_t wait_in_loop(int me, bool may_give_up)
{
	int32_t tag;

	while ((tag = get_async(me, me)) == TAGS_NO_TAG) {
		if (may_give_up && choose(2))
			break;
		wait_event(me);
	}
	return tag;
}

static void give_up(int me, enum way way)
{
	if (way == LEAVES) {
		EXPECT(TAGS_OK, tags_leave(hands[me]));
		return;
	}
	EXPECT(TAGS_OK, tags_cancel(hands[me]));
	EXPECT(TAGS_NOT_WAITING, tags_cancel(hands[me]));
}

static void loop(int me, enum way way)
{
	for (int round = 0; goes_on(me, round); round++) {
		int32_t tag;

		open_event(me);
		tag = wait_in_loop(me, way != STAYS);
		if (tag == TAGS_NO_TAG)
			give_up(me, way);
		close_event(me);
		if (!hands[me]->full)
			return;
		if (tag != TAGS_NO_TAG && !use_tag(me, tag))
			return;
	}
	end_program(me);
}

void listener(int me)
{
	loop(me, STAYS);
}

void quitter(int me)
{
	loop(me, CANCELS);
}

void leaver(int me)
{
	loop(me, LEAVES);
}

/* Leaves, and joins again, with whatever place is vacant then. */
void rejoiner(int me)
{
	EXPECT(TAGS_OK, tags_leave(hands[me]));
	EXPECT(TAGS_OK, tags_join(pool, hands[me], 0));
	loop(me, STAYS);
}

/* Waits for a second tag while it holds one, and gives that back meanwhile: it may get it again. */
void giver(int me)
{
	int32_t tag = CALL(tags_get_blocking(hands[me])), other;

	take_tag(me, tag);
	open_event(me);
	other = CALL(tags_get_async(hands[me], me));
	clear_tag(me, tag);
	while (other == TAGS_NO_TAG) {
		wait_event(me);
		other = CALL(tags_get_async(hands[me], me));
	}
	close_event(me);
	if (use_tag(me, other))
		end_program(me);
}

/* Names its other eventfd each time, and closes the former one. */
void changer(int me)
{
	int event = me, other = me + MAX_THREADS;
	int32_t tag;

	open_event(event);
	while ((tag = CALL(tags_get_async(hands[me], event))) == TAGS_NO_TAG) {
		int former = event;

		wait_event(event);
		event = other;
		other = former;
		open_event(event);
		tag = CALL(tags_get_async(hands[me], event));
		close_event(former);
		if (tag != TAGS_NO_TAG)
			break;
	}
	close_event(event);
	use_tag(me, tag);
}

/* Closes its eventfd while it waits. Unless that was notified before, the hand never learns that it was told. */
void breaker(int me)
{
	int32_t tag;

	open_event(me);
	tag = get_async(me, me);
	if (tag == TAGS_NO_TAG) {
		if (break_event(me))
			EXPECT(TAGS_OK, tags_cancel(hands[me]));
		return;
	}
	close_event(me);
	if (use_tag(me, tag))
		end_program(me);
}

/* A hand that waits by an eventfd is to sleep, which is refused unless a tag is free. */
void switcher(int me)
{
	const struct timespec deadline = { 100, 500 };
	int32_t tag;

	open_event(me);
	tag = CALL(tags_get_async(hands[me], me));
	if (tag == TAGS_NO_TAG) {
		tag = choose(2) ? CALL(tags_get_blocking(hands[me])) :
				  CALL(tags_get_timed(hands[me], CLOCK_REALTIME, &deadline));
		EXPECT(TAGS_OK, tags_cancel(hands[me]));
	}
	close_event(me);
	if (tag != TAGS_WAITING && use_tag(me, tag))
		end_program(me);
}

/* Called without the lock. Once the wait has ended, what it is passed may be gone. */
static void note_call(void *argument)
{
	struct event *event = argument;

	if (has_lock(current))
		fault("a function is called with the lock");
	for (int use = 0; use < 2; use++) {
		pause_before(OP_EVENT_WRITE, event, sizeof(*event), 1, PC);
		if (!event->is_open)
			fault("a function runs after the wait has ended");
		if (use == 0 && event->count > 0)
			fault("a function is called twice");
		tell_step("the function notes a call");
		event->count += use == 0;
	}
	errno = 0;
}

static int32_t get_notified(int me, int event)
{
	struct event *argument = &world->event[event];

	return is_reserving(me) ? CALL(tags_get_reserved_notified(hands[me], note_call, argument)) :
				  CALL(tags_get_notified(hands[me], note_call, argument));
}

/* Sleeps by means of its own, as by an eventfd. It names another argument each time. */
static int32_t wait_by_function(int me, bool may_give_up)
{
	int at = me;
	int32_t tag;

	open_event(at);
	while ((tag = get_notified(me, at)) == TAGS_NO_TAG) {
		if (at != me)
			close_event(me);
		if (may_give_up && choose(2)) {
			EXPECT(TAGS_OK, tags_cancel(hands[me]));
			break;
		}
		wait_event(at);
		if (at == me)
			open_event(at += MAX_THREADS);
	}
	if (at != me && world->event[me].is_open)
		close_event(me);
	close_event(at);
	return tag;
}

static void wait_called(int me, bool may_give_up)
{
	for (int round = 0; goes_on(me, round); round++) {
		int32_t tag = wait_by_function(me, may_give_up);

		if (tag != TAGS_NO_TAG && !use_tag(me, tag))
			return;
	}
	end_program(me);
}

void caller(int me)
{
	wait_called(me, false);
}

void canceller(int me)
{
	wait_called(me, true);
}
