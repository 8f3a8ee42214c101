/*
 * Programs that wait for a reserved tag, beside others that wait for an ordinary one.
 */
#include "tags.h"

#include "programs.h"
#include "scenario.h"

#include <errno.h>
#include <time.h>

static const struct timespec deadline = { 100, 500 };

static void reserve(int me)
{
	world->notes.reserving |= UINT32_C(1) << me;
}

/* Uses what a wait for a reserved tag returned. Returns whether the thread goes on. */
static bool use_reserved(int me, int32_t tag)
{
	if (tag >= (int32_t)scenario->reserved)
		fault("tag %d is not reserved", (int)tag);
	return use_tag(me, tag);
}

void reserved_sleeper(int me)
{
	reserve(me);
	for (int round = 0; goes_on(me, round); round++)
		if (!use_reserved(me, CALL(tags_get_reserved_blocking(hands[me]))))
			return;
	end_program(me);
}

void reserved_timed(int me)
{
	reserve(me);
	for (int round = 0; goes_on(me, round); round++) {
		int32_t tag;

		world->thread[me].is_late = false;
		tag = CALL(tags_get_reserved_timed(hands[me], CLOCK_MONOTONIC, &deadline));
		if (tag == TAGS_TIMED_OUT && !world->thread[me].is_late)
			fault("a wait timed out before its deadline");
		if (tag != TAGS_TIMED_OUT && !use_reserved(me, tag))
			return;
	}
	end_program(me);
}

void reserved_listener(int me)
{
	reserve(me);
	listener(me);
}

void reserved_quitter(int me)
{
	reserve(me);
	quitter(me);
}

void reserved_leaver(int me)
{
	reserve(me);
	leaver(me);
}

void reserved_canceller(int me)
{
	reserve(me);
	canceller(me);
}

void reserved_breaker(int me)
{
	reserve(me);
	breaker(me);
}

/* Sleeps for a reserved tag while it waits for an ordinary one, or waits for one by the same eventfd. */
static int32_t get_of_other_set(int me)
{
	if (choose(2))
		return CALL(tags_get_reserved_blocking(hands[me]));
	return CALL(tags_get_reserved_async(hands[me], me));
}

/*
 * A hand that waits for an ordinary tag is to wait for a reserved one, too, which is refused unless one is
 * free. Then it ends its wait, and sleeps for the reserved one.
 */
void crosser(int me)
{
	int32_t tag;

	open_event(me);
	tag = CALL(tags_get_async(hands[me], me));
	if (tag == TAGS_NO_TAG) {
		tag = get_of_other_set(me);
		if (tag == TAGS_NO_TAG)
			fault("a hand waits for tags of both sets");
		EXPECT(TAGS_OK, tags_cancel(hands[me]));
	}
	close_event(me);
	if (tag == TAGS_WAITING) {
		reserve(me);
		tag = CALL(tags_get_reserved_blocking(hands[me]));
	}
	if (use_tag(me, tag))
		end_program(me);
}

/* Gets a tag of each set, if it finds one, and gives them back in either order, or one of them. Never waits. */
void holder_of_both(int me)
{
	int32_t first = CALL(tags_get(hands[me]));
	int32_t second = CALL(tags_get_reserved(hands[me]));

	if (first >= 0)
		take_tag(me, first);
	if (second >= 0)
		take_tag(me, second);
	if (choose(2)) {
		const int32_t other = first;

		first = second;
		second = other;
	}
	if (first >= 0)
		clear_tag(me, first);
	if (second < 0 || holds_for_ever())
		return;
	clear_tag(me, second);
	end_program(me);
}

/* Gives an ordinary tag back, which it may keep, and sleeps for a reserved one. */
void reserved_keeper(int me)
{
	const int32_t tag = CALL(tags_get(hands[me]));

	if (tag >= 0) {
		take_tag(me, tag);
		clear_tag(me, tag);
	}
	reserved_sleeper(me);
}

/* Gives an ordinary tag back, which it may keep for ever, and then a reserved one. */
void keeping_reserver(int me)
{
	const int32_t tag = CALL(tags_get(hands[me]));
	const int32_t reserved = CALL(tags_get_reserved(hands[me]));

	if (tag >= 0) {
		take_tag(me, tag);
		clear_tag(me, tag);
	}
	if (reserved >= 0) {
		take_tag(me, reserved);
		clear_tag(me, reserved);
	}
}

/* Gives an ordinary tag back while it waits for a reserved one by an eventfd, and keeps it until it goes idle. */
void reserved_giver(int me)
{
	const int32_t other = CALL(tags_get(hands[me]));
	int32_t tag;

	reserve(me);
	if (other >= 0)
		take_tag(me, other);
	open_event(me);
	tag = CALL(tags_get_reserved_async(hands[me], me));
	if (other >= 0)
		clear_tag(me, other);
	while (tag == TAGS_NO_TAG) {
		EXPECT(TAGS_OK, tags_flush(hands[me]));
		wait_event(me);
		tag = CALL(tags_get_reserved_async(hands[me], me));
	}
	close_event(me);
	if (use_reserved(me, tag))
		end_program(me);
}

/* Takes reserved tags by hands that threads share, and never waits. */
void shared_reserver(int me)
{
	for (int round = 0; goes_on(me, round); round++) {
		const int32_t tag = CALL(tags_hands_get_reserved(shared_hands));

		if (tag != TAGS_NO_TAG && !use_shared(me, tag))
			return;
	}
}
