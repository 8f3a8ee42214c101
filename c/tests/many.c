/*
 * Gets of several tags, all of them or none: answers worked out on paper, and threads that want more
 * tags together than there are. No tag has two users, and what a get took in vain is free again.
 * Nothing but the tags orders what the threads do, so the thread sanitizer sees whether they do.
 * many [ROUNDS]
 */
#include <inttypes.h>
#include <pthread.h>
#include <sched.h>
#include <stdio.h>
#include <stdlib.h>
#include <sys/eventfd.h>
#include <unistd.h>

#include "../tags.h"

static int checks;
static int wrong;

static void want(const char *what, int64_t found, int64_t wanted)
{
	checks++;
	if (found == wanted)
		return;
	wrong++;
	printf("%s: %" PRId64 ", not %" PRId64 "\n", what, found, wanted);
}

#define WANT(what, wanted) want(#what, (int64_t)(what), wanted)

enum { HANDS = 4 };

static struct tags_pool pool = TAGS_EMPTY;
static struct tags_hand hands[HANDS];
/* what each get fills in */
static uint32_t tags[16];

static void open_pool(struct tags_options options)
{
	options.hands = HANDS;
	WANT(tags_open(&pool, &options), TAGS_OK);
	for (int i = 0; i < HANDS; i++)
		WANT(tags_join(&pool, &hands[i], TAGS_STAY), TAGS_OK);
}

/* How many tags were taken while the pool was open, as 100 * all + those that are still held. */
static int64_t close_pool(void)
{
	struct tags_sums sums;

	for (int i = 0; i < HANDS; i++)
		WANT(tags_leave(&hands[i]), TAGS_OK);
	WANT(tags_close(&pool, &sums), TAGS_OK);
	WANT(sums.got, (int64_t)(sums.back + sums.held));
	return (int64_t)(100 * sums.got + sums.held);
}

/* Which tags a hand holds, as a mask. */
static int64_t held_by(struct tags_hand *hand)
{
	int64_t held = 0;

	for (uint32_t tag = 0; tag < 12; tag++)
		if (tags_holds(hand, tag) == 1)
			held |= INT64_C(1) << tag;
	return held;
}

/* Two reserved tags, then ten ordinary ones in words of four: tags of several words, while there are enough. */
static void take_all_or_none(void)
{
	open_pool((struct tags_options){ .total = 12, .reserved = 2, .shift = 2 });
	WANT(tags_get_many(&hands[0], tags, 0), TAGS_OK);
	WANT(tags_get_many(&hands[0], tags, 6), TAGS_OK);
	for (uint32_t i = 0; i < 6; i++)
		WANT(tags[i], 2 + i);
	WANT(tags_get_many(&hands[1], tags, 5), TAGS_NO_TAG);
	WANT(held_by(&hands[1]), 0);
	WANT(tags_get_many(&hands[1], tags, 4), TAGS_OK);
	WANT(held_by(&hands[1]), 0xf00);
	WANT(tags_get_many(&hands[2], tags, 1), TAGS_NO_TAG);
	WANT(tags_clear_batch(&hands[1], tags, 4), TAGS_OK);
	WANT(close_pool(), 1406);
}

/* More than all ordinary tags are refused, by which nothing is taken or filled in. */
static void refuse_too_many(void)
{
	open_pool((struct tags_options){ .total = 12, .reserved = 2, .shift = 2 });
	tags[0] = 77;
	WANT(tags_get_many(&hands[0], tags, 11), TAGS_BAD_COUNT);
	WANT(tags_get_many(&hands[0], tags, SIZE_MAX / 8), TAGS_BAD_COUNT);
	WANT(tags[0], 77);
	WANT(tags_get_many(&hands[0], tags, 10), TAGS_OK);
	WANT(tags[9], 11);
	WANT(close_pool(), 1010);
}

/* A kept tag is not taken, also not by the hand that keeps it. */
static void pass_over_kept_tags(void)
{
	open_pool((struct tags_options){ .total = 4, .cache = 2 });
	WANT(tags_get(&hands[0]), 0);
	WANT(tags_get(&hands[0]), 1);
	WANT(tags_clear(&hands[0], 1), TAGS_OK);
	WANT(tags_get_many(&hands[0], tags, 3), TAGS_NO_TAG);
	WANT(tags_get_many(&hands[1], tags, 3), TAGS_NO_TAG);
	WANT(tags_get_many(&hands[0], tags, 2), TAGS_OK);
	WANT(held_by(&hands[0]), 13);
	WANT(tags_get(&hands[0]), 1);
	WANT(close_pool() % 100, 4);
}

static int take_event(int event)
{
	uint64_t told = 0;

	return read(event, &told, sizeof(told)) == sizeof(told);
}

/* Whoever waits is told of a tag that a get took in vain. */
static void tell_of_what_went_back(void)
{
	const int first = eventfd(0, EFD_NONBLOCK), second = eventfd(0, EFD_NONBLOCK);

	open_pool((struct tags_options){ .total = 4 });
	for (int32_t tag = 0; tag < 4; tag++)
		WANT(tags_get(&hands[0]), tag);
	WANT(tags_get_async(&hands[1], first), TAGS_NO_TAG);
	WANT(tags_get_async(&hands[2], second), TAGS_NO_TAG);
	WANT(tags_clear(&hands[0], 3), TAGS_OK);
	WANT(take_event(first) - take_event(second), 1);
	WANT(tags_get_many(&hands[3], tags, 2), TAGS_NO_TAG);
	WANT(take_event(second), 1);
	WANT(tags_get_async(&hands[1], first), 3);
	WANT(tags_get_async(&hands[2], second), TAGS_NO_TAG);
	WANT(tags_cancel(&hands[2]), TAGS_OK);
	WANT(close_pool(), 604);
	close(first);
	close(second);
}

/*
 * Threads
 */

enum { TOTAL = 8 };

static long rounds = 30000;
/* for whoever holds the tag */
static uint64_t used[TOTAL];

/* A thread, how often it used some tag, and what went wrong. */
struct worker {
	pthread_t id;
	struct tags_hand *hand;
	uint64_t uses;
	uint64_t wrong;
};

static void use(struct worker *self, const uint32_t *taken, size_t count)
{
	for (size_t i = 0; i < count; i++) {
		uint64_t value = 0;

		self->wrong += tags_read(self->hand, taken[i], &value) != TAGS_OK;
		self->wrong += value != used[taken[i]]++;
		self->wrong += tags_write(self->hand, taken[i], value + 1, NULL) != TAGS_OK;
		self->uses++;
	}
}

/* Takes one to five tags at once, uses them, and gives them back together or one by one. */
static void *work(void *argument)
{
	struct worker *self = argument;
	uint32_t taken[5];

	for (long round = 0; round < rounds; round++) {
		const size_t count = 1 + (size_t)round % 5;
		const int32_t status = tags_get_many(self->hand, taken, count);

		self->wrong += status != TAGS_OK && status != TAGS_NO_TAG;
		if (status != TAGS_OK) {
			sched_yield();
			continue;
		}
		use(self, taken, count);
		if (round % 2)
			self->wrong += tags_clear_batch(self->hand, taken, count) != TAGS_OK;
		for (size_t i = 0; round % 2 == 0 && i < count; i++)
			self->wrong += tags_clear(self->hand, taken[i]) != TAGS_OK;
	}
	return NULL;
}

static void want_more_than_there_are(uint32_t cache)
{
	static struct worker workers[HANDS];
	uint64_t uses = 0;

	open_pool((struct tags_options){ .total = TOTAL, .shift = 1, .cache = cache });
	for (int i = 0; i < HANDS; i++) {
		workers[i] = (struct worker){ .hand = &hands[i] };
		WANT(pthread_create(&workers[i].id, NULL, work, &workers[i]), 0);
	}
	for (int i = 0; i < HANDS; i++) {
		WANT(pthread_join(workers[i].id, NULL), 0);
		WANT(workers[i].wrong, 0);
		uses += workers[i].uses;
	}
	for (int tag = 0; tag < TOTAL; tag++)
		uses -= used[tag];
	WANT(uses, 0);
	/* the pool of the next threads has slots of 0 again */
	for (int tag = 0; tag < TOTAL; tag++)
		used[tag] = 0;
	WANT(close_pool() % 100, 0);
}

int main(int argc, char **argv)
{
	if (argc > 1)
		rounds = strtol(argv[1], NULL, 10);
	take_all_or_none();
	refuse_too_many();
	pass_over_kept_tags();
	tell_of_what_went_back();
	want_more_than_there_are(0);
	want_more_than_there_are(1);
	printf("%d answers, %d wrong\n", checks, wrong);
	return wrong != 0;
}
