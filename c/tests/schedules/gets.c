/*
 * Programs that sleep until they get a tag, or that get one without a wait.
 */
#include "tags.h"

#include "programs.h"
#include "scenario.h"

#include <errno.h>
#include <time.h>

static const struct timespec deadline = { 100, 500 };

void sleeper(int me)
{
	for (int round = 0; goes_on(me, round); round++)
		if (!use_tag(me, CALL(tags_get_blocking(hands[me]))))
			return;
	end_program(me);
}

/* Returns a tag, or TAGS_TIMED_OUT. */
static int32_t get_in_time(int me)
{
	int32_t tag;

	world->thread[me].is_late = false;
	tag = CALL(tags_get_timed(hands[me], me % 2 ? CLOCK_REALTIME : CLOCK_MONOTONIC, &deadline));
	if (tag == TAGS_TIMED_OUT && !world->thread[me].is_late)
		fault("a wait timed out before its deadline");
	return tag;
}

void timed(int me)
{
	for (int round = 0; goes_on(me, round); round++) {
		int32_t tag = get_in_time(me);

		if (tag != TAGS_TIMED_OUT && !use_tag(me, tag))
			return;
	}
	end_program(me);
}

/* Gets a tag if one is free, and never waits. */
void getter(int me)
{
	for (int round = 0; goes_on(me, round); round++) {
		int32_t tag = CALL(tags_get(hands[me]));

		if (tag != TAGS_NO_TAG && !use_tag(me, tag))
			return;
	}
	end_program(me);
}

/* Shallow gets may use none of the tags of the first word. */
void shallow(int me)
{
	for (int round = 0; goes_on(me, round); round++) {
		int32_t tag = CALL(tags_get_shallow(hands[me], 1));

		if (tag != TAGS_NO_TAG && !use_tag(me, tag))
			return;
	}
	end_program(me);
}

/* Gives two tags back, one after the other or at once. Returns false if it holds them for ever. */
static bool give_both(int me, int32_t tag, int32_t other)
{
	const uint32_t both[] = { (uint32_t)tag, (uint32_t)other };

	if (holds_for_ever())
		return false;
	if (choose(2)) {
		clear_tag(me, tag);
		if (holds_for_ever())
			return false;
		clear_tag(me, other);
		return true;
	}
	drop_tag(tag);
	drop_tag(other);
	EXPECT(TAGS_OK, tags_clear_batch(hands[me], both, 2));
	return true;
}

/* Holds two tags at once if it finds two. */
void pair(int me)
{
	for (int round = 0; goes_on(me, round); round++) {
		int32_t tag = CALL(tags_get_blocking(hands[me]));
		int32_t other;

		if (tag < 0) {
			may_be_stopped(tag);
			return;
		}
		take_tag(me, tag);
		other = CALL(tags_get(hands[me]));
		if (other < 0) {
			clear_tag(me, tag);
			continue;
		}
		take_tag(me, other);
		if (!give_both(me, tag, other))
			return;
	}
	end_program(me);
}

/* Gives back by a mask what a batch get won. Returns false if it holds that for ever. */
static bool give_batch(int me, int32_t first, uint64_t won)
{
	for (int i = 0; i < MAX_TAGS; i++)
		if (won >> i & 1)
			take_tag(me, first + i);
	if (holds_for_ever())
		return false;
	for (int i = 0; i < MAX_TAGS; i++)
		if (won >> i & 1)
			drop_tag(first + i);
	EXPECT(TAGS_OK, tags_clear_mask(hands[me], (uint32_t)first, won));
	return true;
}

/* Gets batches of two, or of all tags: where some are taken, such a batch finds none. */
void batcher(int me)
{
	const uint32_t n = scenario->taken ? scenario->tags : 2;

	for (int round = 0; goes_on(me, round); round++) {
		uint64_t won = 0;
		int32_t first = CALL(tags_get_batch(hands[me], n, &won));

		if (first != TAGS_NO_TAG && !give_batch(me, first, won))
			return;
	}
	end_program(me);
}

/* Waits for the end of thread 0, which may have been cancelled, and then uses its hand. */
void heir(int me)
{
	int32_t tag;

	pause_before(OP_JOIN, &world->thread[0], 1, 1, PC);
	if (!world->thread[0].was_cancelled)
		return;
	tag = CALL(tags_get_blocking(hands[0]));
	take_tag(me, tag);
	drop_tag(tag);
	EXPECT(TAGS_OK, tags_clear(hands[0], (uint32_t)tag));
}
