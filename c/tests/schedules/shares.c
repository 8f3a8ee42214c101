/*
 * Programs that use hands which threads share.
 */
#include "tags.h"

#include "programs.h"
#include "scenario.h"

#include <errno.h>
#include <time.h>

/* The event by which one thread tells another of the tag in notes.handed. */
enum { TOLD = MAX_EVENTS - 1 };

static const struct timespec deadline = { 100, 500 };

bool borrows(uint32_t thread)
{
	void (*const program)(int me) = scenario->program[thread];

	return program == borrower || program == shared_sleeper || program == shared_timed ||
	       program == shared_poster || program == shared_taker || program == shared_noter ||
	       program == shared_reserver;
}

/* Ends a round with what a get returned. Returns whether the thread goes on. */
bool use_shared(int me, int32_t tag)
{
	if (tag < 0) {
		may_be_stopped(tag);
		return false;
	}
	take_tag(me, tag);
	if (holds_for_ever())
		return false;
	drop_tag(tag);
	EXPECT(TAGS_OK, tags_hands_clear(shared_hands, (uint32_t)tag));
	return true;
}

/* Gets a tag if one is free, and never waits. */
void borrower(int me)
{
	for (int round = 0; goes_on(me, round); round++) {
		const int32_t tag = CALL(tags_hands_get(shared_hands));

		if (tag != TAGS_NO_TAG && !use_shared(me, tag))
			return;
	}
}

void shared_sleeper(int me)
{
	for (int round = 0; goes_on(me, round); round++)
		if (!use_shared(me, CALL(tags_hands_get_blocking(shared_hands))))
			return;
}

void shared_timed(int me)
{
	for (int round = 0; goes_on(me, round); round++) {
		int32_t tag;

		world->thread[me].is_late = false;
		tag = CALL(tags_hands_get_timed(shared_hands, CLOCK_MONOTONIC, &deadline));
		if (tag == TAGS_TIMED_OUT && !world->thread[me].is_late)
			fault("a wait timed out before its deadline");
		if (tag != TAGS_TIMED_OUT && !use_shared(me, tag))
			return;
	}
}

/*
 * A tag that another thread gives back
 */

void shared_poster(int me)
{
	const int32_t tag = CALL(tags_hands_get_blocking(shared_hands));

	take_tag(me, tag);
	EXPECT(TAGS_OK, tags_hands_write(shared_hands, (uint32_t)tag, 0x1000, NULL));
	drop_tag(tag);
	pause_before(OP_EVENT_WRITE, &world->event[TOLD], sizeof(struct event), 1, PC);
	tell_step("tells of tag %d", (int)tag);
	world->notes.handed = (uint32_t)tag;
	world->event[TOLD].count++;
}

void shared_taker(int me)
{
	uint64_t value = 0;
	uint32_t tag;

	wait_event(TOLD);
	tag = world->notes.handed;
	take_tag(me, (int32_t)tag);
	EXPECT(TAGS_OK, tags_hands_read(shared_hands, tag, &value));
	if (value != 0x1000)
		fault("the slot has %lu", (unsigned long)value);
	if (holds_for_ever())
		return;
	drop_tag((int32_t)tag);
	EXPECT(TAGS_OK, tags_hands_clear(shared_hands, tag));
}

/*
 * A hand of the thread's own, whose function uses the shared ones
 */

static void use_in_call(void *unused)
{
	const int32_t tag = tags_hands_get(shared_hands);

	(void)unused;
	if (tag >= 0)
		EXPECT(TAGS_OK, tags_hands_clear(shared_hands, (uint32_t)tag));
}

void shared_caller(int me)
{
	const int32_t tag = CALL(tags_get_notified(hands[me], use_in_call, NULL));

	if (tag >= 0)
		use_tag(me, tag);
	else
		EXPECT(TAGS_OK, tags_cancel(hands[me]));
}
