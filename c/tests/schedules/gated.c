/*
 * Programs that sleep at a gate: until a hand is there, or until tags are back.
 */
#include "tags.h"

#include "programs.h"
#include "scenario.h"

#include <errno.h>
#include <string.h>
#include <time.h>

static const struct timespec deadline = { 100, 500 };

/* A wait may end by its limit, if it has one, and by a stop. */
static void may_end(int me, int32_t answer, bool has_limit, bool is_stoppable)
{
	if (answer == TAGS_TIMED_OUT && has_limit && world->thread[me].is_late)
		return;
	if (answer != TAGS_STOPPED || !is_stoppable || !has_stop())
		fault("a wait at a gate returned %d", (int)answer);
}

/*
 * A second hand, beside the thread's own if it has one
 */

/* Returns what the wait for it has ended with. The hand leaves at once, or never. */
static int32_t hire_once(int me, bool has_limit)
{
	struct tags_hand *second = second_hands[me];
	int32_t answer;

	world->thread[me].is_late = false;
	if (has_limit)
		answer = CALL(tags_join_timed(pool, second, 0, CLOCK_MONOTONIC, &deadline));
	else
		answer = CALL(tags_join_blocking(pool, second, 0));
	if (answer == TAGS_OK && !holds_for_ever())
		EXPECT(TAGS_OK, tags_leave(second));
	return answer;
}

static void hire(int me, bool has_limit)
{
	for (int round = 0; goes_on(me, round) && !second_hands[me]->full; round++) {
		const int32_t answer = hire_once(me, has_limit);

		if (answer != TAGS_OK)
			may_end(me, answer, has_limit, true);
	}
}

void hirer(int me)
{
	hire(me, false);
}

void timed_hirer(int me)
{
	hire(me, true);
}

/* Waits at a pool that may be closed meanwhile. */
static void apply(int me, bool has_limit)
{
	const uint32_t closes = world->notes.closes;
	const int32_t answer = hire_once(me, has_limit);

	if (answer == TAGS_BAD_HANDLE && closes == world->notes.closes)
		fault("a pool is closed to a call that began after it was opened");
	if (answer != TAGS_OK && answer != TAGS_BAD_HANDLE)
		may_end(me, answer, has_limit, true);
}

void applicant(int me)
{
	apply(me, false);
}

void timed_applicant(int me)
{
	apply(me, true);
}

bool hires(uint32_t thread)
{
	return scenario->program[thread] == hirer || scenario->program[thread] == timed_hirer ||
	       scenario->program[thread] == applicant || scenario->program[thread] == timed_applicant;
}

/*
 * All tags
 */

/* Whoever held a tag before, and gets none later, has given it back. */
static void check_drained(const uint8_t *holders)
{
	for (int i = 0; i < MAX_TAGS; i++)
		if (holders[i] && holders[i] == world->notes.holder[i] && scenario->rounds[holders[i] - 1] == 1)
			fault("a drain has ended, and thread %d still holds tag %d", holders[i] - 1, i);
}

static void drain(int me, bool has_limit)
{
	uint8_t holders[MAX_TAGS];
	int32_t answer;

	memcpy(holders, world->notes.holder, sizeof(holders));
	world->notes.drains++;
	if (has_limit)
		answer = CALL(tags_drain_timed(pool, CLOCK_REALTIME, &deadline));
	else
		answer = CALL(tags_drain(pool));
	world->notes.drains--;
	if (answer == TAGS_OK)
		check_drained(holders);
	else
		may_end(me, answer, has_limit, false);
}

void drainer(int me)
{
	drain(me, false);
}

void timed_drainer(int me)
{
	drain(me, true);
}

/*
 * The tags of a list
 */

/* Notes for which tags the thread waits, as a mask, and returns how many it has put into the list. */
static size_t await_tags(int me, uint32_t tags, uint32_t *list)
{
	size_t count = 0;

	world->notes.awaited[me] = tags;
	for (uint32_t tag = 0; tag < scenario->tags; tag++)
		if (tags >> tag & 1)
			list[count++] = tag;
	return count;
}

static void drain_list(int me, uint32_t tags, bool has_limit)
{
	uint8_t holders[MAX_TAGS];
	uint32_t list[MAX_TAGS];
	const size_t count = await_tags(me, tags, list);
	int32_t answer;

	for (int i = 0; i < MAX_TAGS; i++)
		holders[i] = tags >> i & 1 ? world->notes.holder[i] : 0;
	world->thread[me].is_late = false;
	if (has_limit)
		answer = CALL(tags_drain_list_timed(pool, list, count, CLOCK_MONOTONIC, &deadline));
	else
		answer = CALL(tags_drain_list(pool, list, count));
	if (answer == TAGS_OK)
		check_drained(holders);
	else
		may_end(me, answer, has_limit, false);
}

/* Waits for the tags that it finds busy. */
void lister(int me)
{
	for (int round = 0; goes_on(me, round); round++) {
		uint64_t busy = 0;

		if (CALL(tags_pool_busy(pool, &busy, 1)) < 0)
			fault("a report was refused");
		drain_list(me, (uint32_t)busy, false);
	}
}

/* Waits for one tag, which is another one for the next thread. */
void timed_lister(int me)
{
	for (int round = 0; goes_on(me, round); round++)
		drain_list(me, UINT32_C(1) << (uint32_t)me % scenario->tags, true);
}

bool drains_all(uint32_t thread)
{
	return scenario->program[thread] == drainer || scenario->program[thread] == timed_drainer;
}

bool drains_list(uint32_t thread)
{
	return scenario->program[thread] == lister || scenario->program[thread] == timed_lister;
}

bool drains(uint32_t thread)
{
	return drains_all(thread) || drains_list(thread);
}

uint32_t awaits(uint32_t thread)
{
	return drains_list(thread) ? world->notes.awaited[thread] : 0;
}
