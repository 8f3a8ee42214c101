/*
 * Programs that submit tags to queues, and what is known of each tag that was submitted; nexts.c takes them.
 *
 * The scenario's own notes say which tags are in a queue, and in what order they came where that is known: one that
 * was submitted before another submit began is the first of both. Whoever returns with the later one notes who may
 * have the earlier one still: a thread that was about to take one at that time, but none that begins afterwards.
 */
#include "tags.h"

#include "programs.h"
#include "scenario.h"
#include "submits.h"

#include <errno.h>

static struct submitted *submitted(int32_t tag)
{
	return &world->notes.submitted[tag];
}

static uint64_t value_of(int32_t tag)
{
	return 0x1000 + 0x100 * (uint64_t)tag + submitted(tag)->count;
}

bool is_submitted(uint32_t tag, uint32_t queue)
{
	return submitted((int32_t)tag)->queue == queue + 1;
}

/* The tags of which a queue is known to have each, as a mask. */
static uint8_t found_in(uint32_t queue)
{
	uint8_t found = 0;

	for (uint32_t tag = 0; tag < scenario->tags; tag++)
		if (is_submitted(tag, queue) && submitted((int32_t)tag)->has_returned)
			found |= (uint8_t)(1U << tag);
	return found;
}

/*
 * Calls on queues
 */

/* The threads that take from a queue, as a mask. */
static uint8_t takers_of(uint32_t queue)
{
	uint8_t takers = 0;

	for (uint32_t i = 0; i < world->threads; i++)
		if (world->notes.takes[i] == queue + 1)
			takers |= (uint8_t)(1U << i);
	return takers;
}

static void begin_call(int me)
{
	world->notes.is_alone[me] = true;
	world->notes.in_queue_call |= (uint8_t)(1U << me);
	for (uint32_t i = 0; i < world->threads; i++)
		if ((int)i != me && (world->notes.in_queue_call >> i & 1)) {
			world->notes.is_alone[i] = false;
			world->notes.is_alone[me] = false;
		}
}

static void end_call(int me)
{
	world->notes.is_alone[me] = false;
	world->notes.in_queue_call &= (uint8_t)~(1U << me);
}

void begin_next(int me, uint32_t queue)
{
	begin_call(me);
	world->notes.takes[me] = (uint8_t)(queue + 1);
	for (uint32_t tag = 0; tag < scenario->tags; tag++)
		if (!(submitted((int32_t)tag)->heirs & ANYONE))
			submitted((int32_t)tag)->heirs &= (uint8_t)~(1U << me);
}

/* The tag is in its queue no more, and no tag comes before another one by that. */
static void forget(int32_t tag)
{
	submitted(tag)->queue = 0;
	submitted(tag)->has_returned = false;
	world->notes.before_stop &= (uint8_t)~(1U << tag);
	for (uint32_t other = 0; other < scenario->tags; other++)
		submitted((int32_t)other)->before &= (uint8_t)~(1U << tag);
}

/* Those that were submitted before it belong to threads that take one now. */
static void bequeath(int me, uint32_t queue, int32_t tag)
{
	const uint8_t takers = takers_of(queue) & (uint8_t)~(1U << me);

	for (uint32_t other = 0; other < scenario->tags; other++)
		if (submitted(tag)->before >> other & 1)
			submitted((int32_t)other)->heirs &= takers;
}

static void check_next(int me, uint32_t queue, int32_t tag)
{
	uint64_t value = 0;

	if (tag >= (int32_t)scenario->tags || !is_submitted((uint32_t)tag, queue))
		fault("thread %d took tag %d, which was not in queue %u", me, (int)tag, queue);
	if (!(submitted(tag)->heirs & (ANYONE | 1U << me)))
		fault("tag %d was submitted before one that was taken before it", (int)tag);
	bequeath(me, queue, tag);
	forget(tag);
	take_tag(me, tag);
	EXPECT(TAGS_OK, tags_read(hands[me], (uint32_t)tag, &value));
	if (value != value_of(tag))
		fault("the slot of tag %d has %lx", (int)tag, (unsigned long)value);
}

/* What was submitted before a stop is taken after it, too, unless another thread is about to take it. */
static void check_none(int me, uint32_t queue, int32_t answer)
{
	const uint8_t found = found_in(queue);

	if (world->notes.is_alone[me] && found)
		fault("thread %d found no tag in queue %u", me, queue);
	if (answer == TAGS_STOPPED && world->notes.in_queue_call == 1U << me && found & world->notes.before_stop)
		fault("thread %d was stopped beside a tag in queue %u", me, queue);
}

/* Ends a call that took the next tag of a queue, or found none. */
int32_t end_next(int me, uint32_t queue, int32_t tag)
{
	if (tag < 0)
		check_none(me, queue, tag);
	if (tag >= 0)
		check_next(me, queue, tag);
	world->notes.takes[me] = 0;
	end_call(me);
	return tag;
}

/*
 * Those that submit
 */

static void submit(int me, int32_t tag, uint32_t queue)
{
	struct submitted *it = submitted(tag);
	const uint8_t count = ++it->count;

	EXPECT(TAGS_OK, tags_write(hands[me], (uint32_t)tag, value_of(tag), NULL));
	begin_call(me);
	it->before = found_in(queue);
	it->heirs = UINT8_MAX;
	it->queue = (uint8_t)(queue + 1);
	drop_tag(tag);
	if (queue > 0)
		EXPECT(TAGS_OK, tags_submit_to(hands[me], (uint32_t)tag, queue));
	else
		EXPECT(TAGS_OK, tags_submit(hands[me], (uint32_t)tag));
	if (it->queue && it->count == count)
		it->has_returned = true;
	end_call(me);
}

/* Gets a tag and submits it, again and again. */
void submitter(int me)
{
	for (int round = 0; goes_on(me, round); round++) {
		const int32_t tag = CALL(tags_get(hands[me]));

		if (tag == TAGS_NO_TAG)
			continue;
		take_tag(me, tag);
		submit(me, tag, 0);
	}
	end_program(me);
}

/* The same, but it sleeps for a tag. */
void sleeping_submitter(int me)
{
	for (int round = 0; goes_on(me, round); round++) {
		const int32_t tag = CALL(tags_get_blocking(hands[me]));

		if (tag < 0) {
			may_be_stopped(tag);
			return;
		}
		take_tag(me, tag);
		submit(me, tag, 0);
	}
	end_program(me);
}

/* Submits a tag to each queue, if it finds as many. */
void submitter_to_all(int me)
{
	for (uint32_t queue = 0; queue < scenario->queues; queue++) {
		const int32_t tag = CALL(tags_get(hands[me]));

		if (tag == TAGS_NO_TAG)
			return;
		take_tag(me, tag);
		submit(me, tag, queue);
	}
}

/* Gives a tag back, which it may keep, and submits another one. */
void keeping_submitter(int me)
{
	const int32_t tag = CALL(tags_get(hands[me]));
	int32_t other;

	if (tag < 0)
		return;
	take_tag(me, tag);
	other = CALL(tags_get(hands[me]));
	if (other >= 0)
		take_tag(me, other);
	clear_tag(me, tag);
	if (other >= 0)
		submit(me, other, 0);
	end_program(me);
}

/* Submits a tag and leaves. */
void submitting_goer(int me)
{
	submitter(me);
	EXPECT(TAGS_OK, tags_leave(hands[me]));
}

/* Passes what it takes from queue 0 on to queue 1, and never waits. */
void relay(int me)
{
	for (int round = 0; goes_on(me, round); round++) {
		int32_t tag;

		begin_next(me, 0);
		tag = end_next(me, 0, CALL(tags_next(hands[me], 0)));
		if (tag != TAGS_NO_TAG)
			submit(me, tag, 1);
	}
}

/* Is refused a tag that nobody posts, though it is in a queue. */
void past_taker(int me)
{
	const uint64_t both = scenario->tags > 1 ? 3 : 1;

	for (int round = 0; goes_on(me, round); round++) {
		if (choose(2))
			EXPECT(TAGS_NOT_POSTED, tags_take(hands[me], 0));
		else
			EXPECT(TAGS_NOT_POSTED, tags_take_mask(hands[me], 0, both));
		EXPECT(0, tags_holds(hands[me], 0));
	}
}

/* Gives a tag back, which it may keep, and is refused the other one, though it is in a queue. */
void past_keeper(int me)
{
	const int32_t tag = CALL(tags_get(hands[me]));

	if (tag < 0)
		return;
	take_tag(me, tag);
	clear_tag(me, tag);
	EXPECT(TAGS_NOT_POSTED, tags_take(hands[me], 1 - (uint32_t)tag));
	end_program(me);
}

/* The event by which a thread tells another one of the tag in notes.handed. */
enum { HANDED = MAX_EVENTS - 1 };

/* Posts the tag that it takes, for a thread that it tells. */
void next_poster(int me)
{
	int32_t tag;

	begin_next(me, 0);
	tag = end_next(me, 0, CALL(tags_next_blocking(hands[me], 0)));
	drop_tag(tag);
	EXPECT(TAGS_OK, tags_post(hands[me], (uint32_t)tag));
	pause_before(OP_EVENT_WRITE, &world->event[HANDED], sizeof(struct event), 1, PC);
	world->notes.handed = (uint32_t)tag;
	world->event[HANDED].count++;
}

/* Takes what was posted for it, and submits it again. */
void posted_submitter(int me)
{
	const int32_t tag = (wait_event(HANDED), (int32_t)world->notes.handed);

	EXPECT(TAGS_OK, tags_take(hands[me], (uint32_t)tag));
	take_tag(me, tag);
	submit(me, tag, 0);
}

/*
 * What happens to a whole pool
 */

/* Closes the pool once the other hands have left it, though tags are queued. */
void queue_closer(int me)
{
	uint64_t queued = 0;
	struct tags_sums sums;

	for (uint32_t i = 0; i < world->threads; i++)
		if ((int)i != me)
			pause_before(OP_JOIN, &world->thread[i], 1, 1, PC);
	for (uint32_t i = 0; i <= world->threads; i++)
		if (hands[i]->full)
			EXPECT(TAGS_OK, tags_leave(hands[i]));
	for (uint32_t tag = 0; tag < scenario->tags; tag++)
		queued += is_submitted(tag, 0);
	EXPECT((int32_t)queued, tags_pool_queued(pool, 0));
	EXPECT(TAGS_OK, tags_close(pool, &sums));
	if (sums.posted != queued || sums.got != sums.back + sums.held + sums.posted)
		fault("%lu are posted, and %lu were queued", (unsigned long)sums.posted, (unsigned long)queued);
	world->notes.is_closed = true;
}

/*
 * What rules.c asks
 */

uint8_t waits_in_queues(uint32_t thread)
{
	if (world->thread[thread].kind == OP_POLL)
		return world->notes.queue_waits[thread];
	return world->notes.takes[thread] ? (uint8_t)(1U << (world->notes.takes[thread] - 1)) : 0;
}

void note_queued_before_stop(void)
{
	for (uint32_t queue = 0; queue < scenario->queues; queue++)
		world->notes.before_stop |= found_in(queue);
}

uint32_t count_queued(uint32_t queue)
{
	uint32_t n = 0;

	for (uint32_t tag = 0; tag < scenario->tags; tag++)
		n += is_submitted(tag, queue);
	return n;
}
