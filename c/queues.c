/*
 * Queues of submitted tags: a list of tags, and tokens that say who may take from it.
 *
 * The tokens of a queue are the tags of a pool of its own, as many as the other pool has. A free token
 * stands for one tag in the list; which one for which doesn't matter. Each tag that is not in the list has
 * a token, which is posted. To submit a tag is to post it, to put it at the end of the list, and to give
 * its token back. To take the next one is to get a token, and whoever has one may take one tag out of the
 * list, which then has that token. So a wait for a submitted tag is a wait for a token, by the calls of any
 * wait, and what is proved of those is true of it: nobody sleeps beside a free token unless somebody is on
 * the way to it.
 *
 * The list is a ring of places, and a ticket says whose a place is: ticket t has place t modulo their
 * number. That is free for the ticket, then it has the tag, and whoever takes this makes it free for the
 * ticket one lap later. There are as many places as tokens, or more. So a thread waits only for one that is
 * between its ticket and its place. As a tag is in its place before its token is free, whoever got a token
 * finds one.
 *
 * A submitted tag is posted, but only for those who take it out of the list. It is marked before it is posted, and
 * until it was taken out, so what a take of any posted tag finds marked by then it posts again. Whoever takes
 * the tag out of the list waits for that: it is a moment, as such a take also looks before.
 */
#define _GNU_SOURCE
#include "queues.h"

#include <sched.h>
#include <time.h>

/* How often a thread looks before it lets others run, and then before it rests between two looks. */
#ifndef TAGS_LOOKS
#define TAGS_LOOKS 100
#endif

/* A rest is for a thread that is awaited and has a lower priority. No cancel ends one: it is short. */
static __attribute__((noinline)) void give_way(uint32_t looks)
{
	const struct timespec rest = { 0, 50000 };
	int saved = errno, state;

	if (looks < TAGS_LOOKS) {
		tags_pause();
		return;
	}
	if (looks < 2 * TAGS_LOOKS) {
		sched_yield();
	} else {
		pthread_setcancelstate(PTHREAD_CANCEL_DISABLE, &state);
		nanosleep(&rest, NULL);
		pthread_setcancelstate(state, &state);
	}
	errno = saved;
}

/*
 * The list
 */

/* Returns the next ticket. */
static uint64_t draw(uint64_t *tickets)
{
	return __atomic_fetch_add(tickets, 1, __ATOMIC_SEQ_CST);
}

/* A place that is free for a ticket. If it has a tag, 1 more than that is in the lowest 16 bits. */
static uint64_t free_for(uint64_t ticket)
{
	return ticket << 16;
}

static uint32_t tag_in(uint64_t place)
{
	return (uint32_t)(place & 0xffff);
}

/* Until the place is this ticket's, and has a tag or has none. */
static uint64_t await(const uint64_t *place, uint64_t ticket, bool has_tag)
{
	uint64_t found = tags_load_wide(place);

	for (uint32_t looks = 0; found - tag_in(found) != free_for(ticket) || (tag_in(found) > 0) != has_tag; looks++) {
		give_way(looks);
		found = tags_load_wide(place);
	}
	return found;
}

static void push(struct tags_queue *queue, uint32_t tag)
{
	const uint64_t ticket = draw(&queue->tail);
	uint64_t *place = &queue->places[ticket & queue->mask];

	await(place, ticket, false);
	tags_store_wide(place, free_for(ticket) + tag + 1);
}

static uint32_t pop(struct tags_queue *queue)
{
	const uint64_t ticket = draw(&queue->head);
	uint64_t *place = &queue->places[ticket & queue->mask];
	const uint64_t found = await(place, ticket, true);

	tags_store_wide(place, free_for(ticket + queue->mask + 1));
	return tag_in(found) - 1;
}

/*
 * Submits
 */

/* Takes a posted token and gives it back. */
static void free_token(struct tags_hand *in, uint32_t token)
{
	TAGS_DETAIL_TO_FILL(told);

	tags_library_take(in, token);
	tags_detail_gave(in, tags_library_clear(in, token, &told), &told);
}

static uint32_t *mark_of(const struct tags_hand *hand, uint32_t tag)
{
	return &tags_bell_of(hand->waits)->queues->marks[tag];
}

/*
 * Once the tag is in its place others may take it, and change which token it has. Whom the post told is
 * woken last, as that may call a function of the program's.
 */
int32_t tags_library_submit(struct tags_hand *hand, uint32_t tag, uint32_t number)
{
	int32_t answer = tags_find_queue(hand, number);
	struct tags_queue *queue;
	TAGS_DETAIL_TO_FILL(told);
	uint32_t token;

	if (answer == TAGS_OK)
		answer = tags_library_holds(hand, tag);
	if (answer != 1)
		return answer < 0 ? answer : (int32_t)TAGS_NOT_HELD;
	queue = tags_queue_of(hand, number);
	token = queue->tokens[tag];
	tags_store(mark_of(hand, tag), 1);
	answer = tags_library_post(hand, tag, &told);
	push(queue, tag);
	free_token(tags_hand_in(queue, hand), token);
	return tags_detail_gave(hand, answer, &told);
}

/*
 * The next tag
 */

static int32_t get_token(struct tags_hand *in)
{
	TAGS_DETAIL_TO_FILL(told);

	return tags_detail_got(in, tags_library_get(in, &told), &told);
}

int32_t tags_library_take_next(struct tags_hand *hand, struct tags_queue *queue, uint32_t token)
{
	const uint32_t tag = pop(queue);

	for (uint32_t looks = 0; tags_library_take(hand, tag) != TAGS_OK; looks++)
		give_way(looks);
	tags_store(mark_of(hand, tag), 0);
	queue->tokens[tag] = token;
	tags_library_post_quietly(tags_hand_in(queue, hand), token);
	return (int32_t)tag;
}

int32_t tags_library_next(struct tags_hand *hand, uint32_t number)
{
	int32_t token = tags_find_queue(hand, number);
	struct tags_queue *queue;

	if (token != TAGS_OK)
		return token;
	queue = tags_queue_of(hand, number);
	token = get_token(tags_hand_in(queue, hand));
	return token < 0 ? token : tags_library_take_next(hand, queue, (uint32_t)token);
}

/*
 * Takes of any posted tag
 */

static bool is_marked(const struct tags_hand *hand, uint32_t tag)
{
	const struct bell *bell = tags_bell_of(hand->waits);

	return tag < bell->reserved + bell->depth && tags_load(mark_of(hand, tag)) == 1;
}

int32_t tags_library_take_unqueued(struct tags_hand *hand, uint32_t tag)
{
	int32_t status = TAGS_NOT_POSTED;

	if (!is_marked(hand, tag))
		status = tags_library_take(hand, tag);
	if (status != TAGS_OK || !is_marked(hand, tag))
		return status;
	tags_library_post_quietly(hand, tag);
	return TAGS_NOT_POSTED;
}

/*
 * The report
 */

/* With the handle's lock. The head is loaded first, so it is not past the tail. */
static int32_t count_locked(const struct bell *bell, uint32_t number)
{
	const uint32_t total = bell->reserved + bell->depth;
	uint64_t head, count;

	if (number >= bell->waits.queues)
		return TAGS_NO_SUCH_QUEUE;
	head = tags_load_wide(&bell->queues->each[number].head);
	count = tags_load_wide(&bell->queues->each[number].tail) - head;
	return (int32_t)(count < total ? count : total);
}

int32_t tags_pool_queued(struct tags_pool *pool, uint32_t queue)
{
	int32_t answer = TAGS_BAD_HANDLE;

	if (!pool)
		return TAGS_NULL;
	tags_library_lock_handle(pool);
	if (tags_bell_in(pool))
		answer = count_locked(tags_bell_in(pool), queue);
	tags_library_unlock_handle(pool);
	return answer;
}
