/*
 * Tags posted and taken together: answers worked out on paper, and threads that take masks of the
 * same tags, which overlap. A refused call leaves each tag where it was; no tag has two users, and
 * what one wrote to the slot or beside the tag is seen by the next. Nothing but the tags orders
 * what the threads do, so the thread sanitizer sees whether they do.
 * batches [ROUNDS]
 */
#include <inttypes.h>
#include <pthread.h>
#include <sched.h>
#include <stdio.h>
#include <stdlib.h>
#include <sys/eventfd.h>
#include <unistd.h>

#include "../tags.h"

static int checks;
static int wrong;

static void want(const char *what, int64_t found, int64_t wanted)
{
	checks++;
	if (found == wanted)
		return;
	wrong++;
	printf("%s: %lld, not %lld\n", what, (long long)found, (long long)wanted);
}

#define WANT(what, wanted) want(#what, (int64_t)(what), wanted)

/* Two reserved tags, then ten ordinary ones in words of four, for two hands. */
static const struct tags_options twelve = {
	.total = 12,
	.reserved = 2,
	.shift = 2,
	.hands = 2,
};

static struct tags_pool pool = TAGS_EMPTY;
static struct tags_hand hand = TAGS_EMPTY;
static struct tags_hand other = TAGS_EMPTY;

static void open_twelve(void)
{
	WANT(tags_open(&pool, &twelve), TAGS_OK);
	WANT(tags_join(&pool, &hand, TAGS_STAY), TAGS_OK);
	WANT(tags_join(&pool, &other, TAGS_STAY), TAGS_OK);
}

/* How many tags the hands held and had posted when the pool was closed, as 100 * held + posted. */
static int64_t close_pool(void)
{
	struct tags_sums sums;

	WANT(tags_leave(&hand), TAGS_OK);
	WANT(tags_leave(&other), TAGS_OK);
	WANT(tags_close(&pool, &sums), TAGS_OK);
	WANT(sums.got, (int64_t)(sums.back + sums.held + sums.posted));
	return (int64_t)(100 * sums.held + sums.posted);
}

/* Which tags a hand holds, as a mask. */
static int64_t held_by(struct tags_hand *which)
{
	int64_t held = 0;

	for (uint32_t tag = 0; tag < 12; tag++)
		if (tags_holds(which, tag) == 1)
			held |= INT64_C(1) << tag;
	return held;
}

/* A batch of one word, and then tags of both sets and of three words, go from hand to hand with their slots. */
static void pass_batches(void)
{
	uint64_t value = 0, won = 0;

	open_twelve();
	WANT(tags_get_batch(&hand, 4, &won), 2);
	WANT(won, 15);
	for (uint32_t tag = 2; tag < 6; tag++)
		WANT(tags_write(&hand, tag, 10 * tag, NULL), TAGS_OK);
	WANT(tags_post_mask(&hand, 2, won), TAGS_OK);
	WANT(held_by(&hand), 0);
	WANT(tags_take_mask(&other, 2, won), TAGS_OK);
	WANT(held_by(&other), 60);
	for (uint32_t tag = 2; tag < 6; tag++) {
		WANT(tags_read(&other, tag, &value), TAGS_OK);
		WANT(value, 10 * tag);
	}
	WANT(tags_clear_mask(&other, 2, won), 0);
	WANT(tags_get_reserved(&hand), 0);
	for (int32_t tag = 2; tag < 12; tag++)
		WANT(tags_get(&hand), tag);
	/* tags 0, 2, 3, 7 and 11 */
	WANT(tags_post_mask(&hand, 0, 0x88d), TAGS_OK);
	WANT(held_by(&hand), 0x770);
	WANT(tags_take(&other, 3), TAGS_OK);
	WANT(tags_take_mask(&other, 2, 0x221), TAGS_OK);
	WANT(held_by(&other), 0x88c);
	WANT(tags_take_mask(&hand, 0, 1), TAGS_OK);
	WANT(close_pool(), 1100);
}

/* Each refusal of a post, by which nothing is posted. */
static void refuse_posts(void)
{
	uint64_t won = 0;

	open_twelve();
	WANT(tags_get_batch(&hand, 3, &won), 2);
	WANT(tags_get(&other), 5);
	WANT(tags_post_mask(&hand, 2, 0), TAGS_BAD_COUNT);
	WANT(tags_post_mask(&hand, UINT32_MAX, 0), TAGS_BAD_COUNT);
	/* the last one is another hand's, or nobody's, or does not exist */
	WANT(tags_post_mask(&hand, 2, 15), TAGS_NOT_HELD);
	WANT(tags_post_mask(&hand, 2, 0x107), TAGS_NOT_HELD);
	WANT(tags_post_mask(&hand, 2, 0x407), TAGS_NO_SUCH_TAG);
	/* and that comes before one that is not held */
	WANT(tags_post_mask(&hand, 2, 0x40f), TAGS_NO_SUCH_TAG);
	WANT(tags_post_mask(&hand, 10240, 1), TAGS_NO_SUCH_TAG);
	WANT(tags_post_mask(&hand, UINT32_MAX - 1, 16), TAGS_NO_SUCH_TAG);
	WANT(held_by(&hand), 28);
	WANT(tags_take_mask(&other, 2, 1), TAGS_NOT_POSTED);
	WANT(close_pool(), 400);
}

/* Each refusal of a take, by which nothing is taken. */
static void refuse_takes(void)
{
	uint64_t value = 0, won = 0;

	open_twelve();
	WANT(tags_get_batch(&hand, 4, &won), 2);
	WANT(tags_write(&hand, 2, 70, NULL), TAGS_OK);
	WANT(tags_post_mask(&hand, 2, 7), TAGS_OK);
	WANT(tags_take_mask(&other, 2, 0), TAGS_BAD_COUNT);
	/* the last one is held, by another hand or by this one, or is free, or does not exist */
	WANT(tags_take_mask(&other, 2, 15), TAGS_NOT_POSTED);
	WANT(tags_take_mask(&hand, 2, 15), TAGS_NOT_POSTED);
	WANT(tags_take_mask(&other, 2, 0x107), TAGS_NOT_POSTED);
	WANT(tags_take_mask(&other, 2, 0x407), TAGS_NO_SUCH_TAG);
	WANT(tags_take_mask(&other, 2, 0x40f), TAGS_NO_SUCH_TAG);
	WANT(tags_take_mask(&other, UINT32_MAX - 1, 16), TAGS_NO_SUCH_TAG);
	WANT(held_by(&other), 0);
	/* and those before it are still posted, with their slots */
	WANT(tags_take_mask(&other, 2, 7), TAGS_OK);
	WANT(tags_read(&other, 2, &value), TAGS_OK);
	WANT(value, 70);
	WANT(tags_take_mask(&other, 2, 7), TAGS_NOT_POSTED);
	WANT(close_pool(), 400);
}

/* Four tags; a hand keeps two, while it holds another one that it got. */
static void open_four(void)
{
	const struct tags_options four = {
		.total = 4,
		.hands = 2,
		.flags = TAGS_KEEP_WHILE_HOLDING,
		.cache = 2,
	};

	WANT(tags_open(&pool, &four), TAGS_OK);
	WANT(tags_join(&pool, &hand, TAGS_STAY), TAGS_OK);
	WANT(tags_join(&pool, &other, TAGS_STAY), TAGS_OK);
	for (int32_t tag = 0; tag < 4; tag++)
		WANT(tags_get(&hand), tag);
}

/* To post the last tags that it got gives back what the hand keeps; a take that is refused does not. */
static void post_beside_kept_tags(void)
{
	uint64_t busy = 0;

	open_four();
	WANT(tags_post(&hand, 1), TAGS_OK);
	WANT(tags_clear(&hand, 3), 0);
	WANT(tags_take_mask(&hand, 1, 3), TAGS_NOT_POSTED);
	WANT(tags_busy(&hand, &busy, 1), 4);
	/* a kept tag is not held */
	WANT(tags_post_mask(&hand, 0, 13), TAGS_NOT_HELD);
	WANT(tags_post_mask(&hand, 0, 5), TAGS_OK);
	WANT(tags_busy(&hand, &busy, 1), 3);
	WANT(busy, 7);
	WANT(tags_take_mask(&other, 0, 7), TAGS_OK);
	WANT(close_pool(), 300);
}

/* Whoever waits is told of a kept tag that a post gives back. */
static void post_beside_one_who_waits(void)
{
	const int event = eventfd(0, EFD_NONBLOCK);
	uint64_t told = 0;

	open_four();
	WANT(tags_clear(&hand, 3), 0);
	WANT(tags_get_async(&other, event), TAGS_NO_TAG);
	WANT(tags_post_mask(&hand, 0, 7), TAGS_OK);
	WANT(read(event, &told, sizeof(told)), sizeof(told));
	WANT(tags_get_async(&other, event), 3);
	WANT(close_pool(), 103);
	close(event);
}

/*
 * Threads
 */

enum { TOTAL = 8, THREADS = 4 };

static long rounds = 30000;
/* for whoever holds the tag */
static uint64_t used[TOTAL];

/* A thread, and how often it used some tag. */
struct worker {
	pthread_t id;
	struct tags_hand hand;
	uint64_t state;
	uint64_t uses;
	uint64_t wrong;
};

/* Not 0. Each thread takes all tags now and then. */
static uint64_t draw_mask(struct worker *self)
{
	self->state = self->state * 6364136223846793005u + 1442695040888963407u;
	return self->state >> 60 ? (self->state >> 33 & 255) | 1 : 255;
}

/* The tags are this thread's. */
static void use(struct worker *self, uint64_t mask)
{
	for (uint32_t tag = 0; tag < TOTAL; tag++) {
		uint64_t value = 0;

		if (!(mask >> tag & 1))
			continue;
		self->wrong += tags_read(&self->hand, tag, &value) != TAGS_OK || value != used[tag];
		used[tag]++;
		self->wrong += tags_write(&self->hand, tag, used[tag], NULL) != TAGS_OK;
		self->uses++;
	}
}

static void *work(void *argument)
{
	struct worker *self = argument;

	for (long round = 0; round < rounds; round++) {
		const uint64_t mask = draw_mask(self);
		int32_t status;

		while ((status = tags_take_mask(&self->hand, 0, mask)) == TAGS_NOT_POSTED)
			sched_yield();
		self->wrong += status != TAGS_OK;
		use(self, mask);
		self->wrong += tags_post_mask(&self->hand, 0, mask) != TAGS_OK;
	}
	return NULL;
}

/* All tags are posted before and after. */
static void take_overlapping_masks(void)
{
	const struct tags_options options = { .total = TOTAL, .shift = 1, .hands = THREADS };
	static struct worker workers[THREADS];
	struct tags_sums sums;
	uint64_t uses = 0;

	WANT(tags_open(&pool, &options), TAGS_OK);
	for (uint32_t i = 0; i < THREADS; i++) {
		workers[i].state = i;
		WANT(tags_join(&pool, &workers[i].hand, 0), TAGS_OK);
	}
	for (int tag = 0; tag < TOTAL; tag++)
		WANT(tags_get_write(&workers[0].hand, 0) >= 0, 1);
	WANT(tags_post_mask(&workers[0].hand, 0, 255), TAGS_OK);
	for (int i = 0; i < THREADS; i++)
		WANT(pthread_create(&workers[i].id, NULL, work, &workers[i]), 0);
	for (int i = 0; i < THREADS; i++) {
		WANT(pthread_join(workers[i].id, NULL), 0);
		WANT(workers[i].wrong, 0);
		uses += workers[i].uses;
		WANT(tags_leave(&workers[i].hand), TAGS_OK);
	}
	for (int tag = 0; tag < TOTAL; tag++)
		uses -= used[tag];
	WANT(uses, 0);
	WANT(tags_close(&pool, &sums), TAGS_OK);
	WANT(sums.posted, TOTAL);
}

int main(int argc, char **argv)
{
	if (argc > 1)
		rounds = strtol(argv[1], NULL, 10);
	pass_batches();
	refuse_posts();
	refuse_takes();
	post_beside_kept_tags();
	post_beside_one_who_waits();
	take_overlapping_masks();
	printf("%d answers, %d wrong\n", checks, wrong);
	return wrong != 0;
}
