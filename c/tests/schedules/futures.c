/*
 * Futures, as rust/tags/src/future.rs, shared.rs and hand.rs have them, over the calls of this library:
 * written after that code, which can't be explored itself.
 *
 * A future waits behind its thread's hand, or shares the hand of the first thread that shares one,
 * which is behind a lock.
 */
#include "behind.h"

#include "programs.h"

struct lender *lenders[MAX_THREADS];
/* whether the thread's future is in the queue */
static bool *is_queued;

static bool shares(int thread)
{
	return scenario->program[thread] == sharer || scenario->program[thread] == shared_dropper;
}

static struct lender *make_lender(int thread)
{
	struct lender *lender = take_own(sizeof(struct lender));

	lender->hand = hands[thread];
	lender->is_shared = shares(thread);
	for (int i = 0; i < MAX_THREADS; i++)
		lender->queue.answer[i] = NO_ANSWER;
	return lender;
}

void make_futures(void)
{
	struct lender *shared = NULL;

	for (int i = 0; i < MAX_THREADS; i++) {
		lenders[i] = NULL;
		if (scenario->program[i] != task && scenario->program[i] != dropper && !shares(i))
			continue;
		if (!is_queued)
			is_queued = take_own(MAX_THREADS);
		lenders[i] = shares(i) && shared ? shared : make_lender(i);
		if (shares(i))
			shared = lenders[i];
	}
}

uint32_t futures_behind(uint32_t thread)
{
	const struct lender *lender = lenders[thread];

	return lender && lender->hand == hands[thread] ? (uint32_t)lender->queue.length : 0;
}

void stop_futures(void)
{
	for (int i = 0; i < MAX_THREADS; i++)
		if (lenders[i] && lenders[i]->hand == hands[i])
			queue_stop(lenders[i]);
}

/*
 * The hand, which is lent for one call at a time
 */

static struct tags_hand *lend(struct lender *lender)
{
	if (lender->is_shared)
		pthread_mutex_lock(&lender->lock);
	return lender->hand;
}

static void take_back(struct lender *lender, const struct tags_told *due)
{
	if (lender->is_shared)
		pthread_mutex_unlock(&lender->lock);
	if (tags_is_anybody_told(due))
		tags_library_wake(lender->hand->waits, due);
}

/* Gives a tag back, and notes whom that has told. */
static void give(struct tags_hand *hand, int32_t tag, struct tags_told *due)
{
	struct tags_told told;
	const int32_t answer = CALL(tags_library_clear(hand, (uint32_t)tag, &told));

	if (tags_library_hear(hand, answer, &told, due) != TAGS_OK)
		fault("a clear was refused");
}

static int32_t find(struct lender *lender)
{
	struct tags_told due = { 0, 0 };
	struct tags_hand *hand = lend(lender);
	struct tags_told told;
	int32_t tag = CALL(tags_library_get(hand, &told));

	if (tags_detail_is_told(tag))
		tag = tags_library_hear(hand, tag, &told, &due);
	take_back(lender, &due);
	return tag;
}

/*
 * Futures
 */

/* A try for all futures: whom it told, what the caller's own future gets, and the wakers of the others that got something. */
struct trial {
	struct tags_told due;
	int own;
	int32_t answer;
	struct event *woken[MAX_THREADS];
};

/* Returns whether the hand goes on to try. */
static bool try_for_first(struct lender *lender, struct trial *trial)
{
	const int32_t answer = CALL(tags_library_poll(lender->hand, queue_tell, &lender->queue, &trial->due));
	struct event *waker = NULL;
	int first;

	if (answer == TAGS_NO_TAG)
		return false;
	if (answer == TAGS_STOPPED && !tags_detail_is_stopped(lender->hand))
		return true;
	first = queue_answer_first(lender, answer, trial->own, &waker);
	if (first >= 0 && first == trial->own)
		trial->answer = answer;
	else if (first >= 0)
		trial->woken[first] = waker;
	else if (answer >= 0)
		give(lender->hand, answer, &trial->due);
	return true;
}

static int32_t try_for_all(struct lender *lender, int own)
{
	struct trial trial = { { 0, 0 }, own, NO_ANSWER, { NULL } };
	struct tags_hand *hand = lend(lender);
	bool goes_on = true;

	queue_hear(&lender->queue);
	while (goes_on && !queue_is_empty(&lender->queue))
		goes_on = try_for_first(lender, &trial);
	if (goes_on)
		tags_library_end_poll(hand, &trial.due);
	take_back(lender, &trial.due);
	for (int i = 0; i < MAX_THREADS; i++)
		if (trial.woken[i])
			call_waker(trial.woken[i]);
	return trial.answer;
}

/* Ends the wait of a future that is dropped. */
static void end_wait(int me)
{
	struct lender *lender = lenders[me];
	struct tags_told due = { 0, 0 };
	bool is_hand_due;
	int32_t tag;

	if (!is_queued[me])
		return;
	is_queued[me] = false;
	tag = queue_leave(lender, me, &is_hand_due);
	if (tag >= 0) {
		lend(lender);
		give(lender->hand, tag, &due);
		take_back(lender, &due);
	}
	if (is_hand_due)
		try_for_all(lender, -1);
}

/* Returns what the future gets, after a try if the hand was told of a tag. */
static int32_t look(int me)
{
	bool is_told;
	const int32_t answer = queue_look(&lenders[me]->queue, me, &is_told);

	if (answer == NO_ANSWER && is_told)
		return try_for_all(lenders[me], me);
	return answer;
}

/* The first future lists the hand, also for those that join meanwhile. */
static int32_t begin_wait(int me)
{
	const bool is_first = queue_join(lenders[me], me);

	is_queued[me] = true;
	return is_first ? try_for_all(lenders[me], me) : look(me);
}

static int32_t finish(int me, int32_t answer)
{
	struct lender *lender = lenders[me];

	is_queued[me] = false;
	if (answer == TAGS_STOPPED && queue_is_empty(&lender->queue))
		try_for_all(lender, -1);
	return answer;
}

/* Returns a tag, an error, or NO_ANSWER if the future waits. */
static int32_t poll_once(int me)
{
	struct lender *lender = lenders[me];
	int32_t answer;

	if (is_queued[me]) {
		queue_renew(&lender->queue, me);
		answer = look(me);
	} else {
		if (tags_detail_is_stopped(lender->hand))
			return TAGS_STOPPED;
		answer = find(lender);
		if (answer != TAGS_NO_TAG)
			return answer;
		answer = begin_wait(me);
	}
	return answer == NO_ANSWER ? answer : finish(me, answer);
}

/* One wait. Returns a tag, an error, or NO_ANSWER if the future was dropped. */
static int32_t await(int me, bool may_drop)
{
	int32_t answer;

	while ((answer = poll_once(me)) == NO_ANSWER) {
		if (may_drop && choose(2)) {
			end_wait(me);
			break;
		}
		wait_event(me);
	}
	return answer;
}

/* Ends a round with what a wait returned. Returns whether the thread goes on. */
static bool use(int me, int32_t answer)
{
	struct lender *lender = lenders[me];
	struct tags_told due = { 0, 0 };

	if (!lender->is_shared || answer < 0)
		return use_tag(me, answer);
	take_tag(me, answer);
	if (holds_for_ever())
		return false;
	drop_tag(answer);
	give(lend(lender), answer, &due);
	take_back(lender, &due);
	return true;
}

static void run_future(int me, bool may_drop)
{
	for (int round = 0; goes_on(me, round); round++) {
		int32_t answer = await(me, may_drop);

		if (answer != NO_ANSWER && !use(me, answer))
			return;
	}
	if (!lenders[me]->is_shared)
		end_program(me);
}

/* A hand behind a lock: it gives two tags back, and wakes those it told once it has left the lock. */
void ower(int me)
{
	struct tags_told due = { 0, 0 };
	int32_t tag = CALL(tags_get(hands[me])), other;

	if (tag < 0)
		return;
	take_tag(me, tag);
	other = CALL(tags_get(hands[me]));
	if (other >= 0)
		take_tag(me, other);
	drop_tag(tag);
	give(hands[me], tag, &due);
	if (other >= 0) {
		drop_tag(other);
		give(hands[me], other, &due);
	}
	tags_library_wake(hands[me]->waits, &due);
	end_program(me);
}

void task(int me)
{
	run_future(me, false);
}

void dropper(int me)
{
	run_future(me, true);
}

void sharer(int me)
{
	run_future(me, false);
}

void shared_dropper(int me)
{
	run_future(me, true);
}
