/*
 * Programs that join, leave, report, and stop, resize and close a pool.
 *
 * The rules of tags.h limit what may run beside what: a stop may run beside any call but an open
 * and a close, and joins and reports beside each other, a stop, a resize and a close. A close may
 * come before all hands have left, and is refused then.
 */
#include "tags.h"

#include "programs.h"
#include "scenario.h"

#include <errno.h>

void look_before_stop(void)
{
	(void)__atomic_load_n(&pool->waits->stops, __ATOMIC_SEQ_CST);
	note_stop();
}

void stopper(int me)
{
	(void)me;
	look_before_stop();
	EXPECT(TAGS_OK, tags_stop(pool));
	stop_futures();
}

void resumer(int me)
{
	stopper(me);
	EXPECT(TAGS_OK, tags_resume(pool));
}

bool has_stop(void)
{
	return has_program(stopper) || has_program(resumer) || (plus_stopper && has_program(plus_stopper)) ||
	       (plus_resumer && has_program(plus_resumer));
}

/* Leaves, and joins again, with whatever place is vacant then. */
void joiner(int me)
{
	for (int round = 0; goes_on(me, round); round++) {
		EXPECT(TAGS_OK, tags_leave(hands[me]));
		EXPECT(TAGS_OK, tags_join(pool, hands[me], 0));
		if (!use_tag(me, CALL(tags_get_blocking(hands[me]))))
			return;
	}
	end_program(me);
}

/* Waits once, and leaves. */
void goer(int me)
{
	if (use_tag(me, CALL(tags_get_blocking(hands[me]))) || !scenario->forever)
		EXPECT(TAGS_OK, tags_leave(hands[me]));
}

/* Leaves and may have the hand again before those who wait for it, and leaves it to them. */
void grabber(int me)
{
	int32_t answer;

	EXPECT(TAGS_OK, tags_leave(hands[me]));
	answer = CALL(tags_join(pool, hands[me], 0));
	if (answer == TAGS_OK)
		EXPECT(TAGS_OK, tags_leave(hands[me]));
	else if (answer != TAGS_NO_HAND)
		fault("a join returned %d", (int)answer);
}

/* Leaves with two hands. */
void retirer(int me)
{
	EXPECT(TAGS_OK, tags_leave(hands[me]));
	EXPECT(TAGS_OK, tags_leave(hands[world->threads]));
}

void reporter(int me)
{
	for (int round = 0; goes_on(me, round); round++) {
		uint64_t busy[1] = { 0 };
		struct tags_sizes sizes;

		if (CALL(tags_pool_busy(pool, busy, 1)) < 0)
			fault("a report was refused");
		EXPECT(TAGS_OK, tags_pool_show(pool, TAGS_ORDINARY, &sizes));
		if (CALL(tags_pool_waiting(pool)) < 0)
			fault("a report was refused");
	}
}

/* Reports though its hand has left, and the pool may be resized or closed. */
void late_reporter(int me)
{
	uint64_t busy[1] = { 0 };
	int32_t total, answer;

	if (hands[me]->full && !has_program(resizer))
		EXPECT(TAGS_OK, tags_leave(hands[me]));
	answer = CALL(tags_pool_busy(pool, busy, 1));
	total = CALL(tags_pool_total(pool));
	if (answer < 0 && (answer != TAGS_BAD_HANDLE || total != TAGS_BAD_HANDLE || !has_program(closer)))
		fault("reports returned %d and %d", (int)answer, (int)total);
	if (total != (int32_t)scenario->tags && (total != TAGS_BAD_HANDLE || !has_program(closer)))
		fault("a pool of %u tags has %d", scenario->tags, (int)total);
}

/* This hand leaves, and so do those that no later thread uses. */
static void leave_from(int me)
{
	for (int i = me; i <= (int)world->threads; i++)
		if (hands[i]->full)
			EXPECT(TAGS_OK, tags_leave(hands[i]));
}

/* Once thread 0 has left, resizes the pool and joins it again. */
void resizer(int me)
{
	leave_from(me);
	pause_before(OP_JOIN, &world->thread[0], 1, 1, PC);
	EXPECT(TAGS_OK, tags_resize(pool, scenario->tags));
	EXPECT(TAGS_OK, tags_join(pool, hands[me], 0));
	use_tag(me, CALL(tags_get_blocking(hands[me])));
}

/* Closes the pool as soon as that is not refused, beside the last calls of other hands. */
void closer(int me)
{
	struct tags_sums sums;
	int32_t status = TAGS_HANDS_OUT;

	leave_from(me);
	for (int round = 0; status == TAGS_HANDS_OUT && round < scenario->rounds[me]; round++)
		status = CALL(tags_close(pool, &sums));
	if (status == TAGS_HANDS_OUT)
		return;
	if (status != TAGS_OK || sums.got != sums.back || sums.held || sums.posted)
		fault("a close returned %d: %lu got, %lu back", (int)status, (unsigned long)sums.got,
		      (unsigned long)sums.back);
	world->notes.is_closed = true;
}

/* A close answers all those who sleep for a hand. */
static void check_answered(void)
{
	for (uint32_t i = 0; i < world->threads; i++)
		if (is_at_gate(&world->thread[i]) && !world->thread[i].is_woken)
			fault("thread %u sleeps on, and the pool was closed", i);
}

/* Has all hands; closes the pool unless another thread has joined, and opens one in the same handle. */
void reopener(int me)
{
	struct tags_sums sums;
	int32_t status;

	leave_from(me);
	world->notes.closes++;
	status = CALL(tags_close(pool, &sums));
	if (status == TAGS_HANDS_OUT)
		return;
	if (status != TAGS_OK)
		fault("a close returned %d", (int)status);
	check_answered();
	open_pool();
	if (CALL(tags_join(pool, hands[me], 0)) == TAGS_OK && choose(2))
		EXPECT(TAGS_OK, tags_leave(hands[me]));
}
