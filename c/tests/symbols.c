/*
 * The calls of the library by their symbols, as other languages make them. What a thread writes
 * beside a tag is seen by the next one that gets or takes it, in a batch too, and the thread sanitizer
 * is told so; threads join after others have left.
 * symbols [ROUNDS]
 */
#include <inttypes.h>
#include <pthread.h>
#include <stdio.h>
#include <stdlib.h>
#include <time.h>

#include <tags.h>

/* Not the calls that tags.h has in line. */
#define SYMBOL(name) __asm__(#name)

int32_t get(struct tags_hand *hand) SYMBOL(tags_get);
int32_t get_batch(struct tags_hand *hand, uint32_t n, uint64_t *won) SYMBOL(tags_get_batch);
int32_t get_many(struct tags_hand *hand, uint32_t *tags, size_t count) SYMBOL(tags_get_many);
int32_t get_reserved_timed(struct tags_hand *hand, int32_t clock, const struct timespec *deadline)
	SYMBOL(tags_get_reserved_timed);
int32_t get_reserved_async(struct tags_hand *hand, int descriptor) SYMBOL(tags_get_reserved_async);
int32_t clear(struct tags_hand *hand, uint32_t tag) SYMBOL(tags_clear);
int32_t note(struct tags_hand *hand, uint32_t tag, uint64_t value) SYMBOL(tags_note);
int32_t clear_mask(struct tags_hand *hand, uint32_t first, uint64_t mask) SYMBOL(tags_clear_mask);
int32_t post_mask(struct tags_hand *hand, uint32_t first, uint64_t mask) SYMBOL(tags_post_mask);
int32_t take_mask(struct tags_hand *hand, uint32_t first, uint64_t mask) SYMBOL(tags_take_mask);
int32_t submit(struct tags_hand *hand, uint32_t tag) SYMBOL(tags_submit);
int32_t next(struct tags_hand *hand, uint32_t queue) SYMBOL(tags_next);

/* The reserved tags, 0 and 1, are always posted, or in use by a thread that took both. */
enum { TOTAL = 10, RESERVED = 2, BOTH = 3, THREADS = 4, JOINS = 20 };

static long rounds = 1000;
static uint64_t wrong;
static struct tags_pool pool;
/* for whoever holds the tag */
static uint64_t used[TOTAL];

static void must(const char *what, int32_t status)
{
	if (status >= 0)
		return;
	fprintf(stderr, "%s: %s\n", what, tags_strerror(status));
	exit(2);
}

/* Returns how many tags it used. */
static uint64_t use_batch(struct tags_hand *hand)
{
	uint64_t count = 0, won = 0;
	int32_t first = get_batch(hand, 4, &won);

	if (first == TAGS_NO_TAG)
		return 0;
	must("tags_get_batch", first);
	for (uint32_t i = 0; i < 64; i++) {
		if (won >> i & 1) {
			used[(uint32_t)first + i]++;
			count++;
		}
	}
	must("tags_clear_mask", clear_mask(hand, (uint32_t)first, won));
	return count;
}

/* Uses three tags, or none. */
static uint64_t use_many(struct tags_hand *hand)
{
	uint32_t tags[3];
	int32_t status = get_many(hand, tags, 3);

	if (status == TAGS_NO_TAG)
		return 0;
	must("tags_get_many", status);
	for (int i = 0; i < 3; i++) {
		used[tags[i]]++;
		must("tags_clear", clear(hand, tags[i]));
	}
	return 3;
}

static uint64_t use_tag(struct tags_hand *hand)
{
	int32_t tag = get(hand);

	if (tag == TAGS_NO_TAG)
		return 0;
	must("tags_get", tag);
	used[tag]++;
	must("tags_note", note(hand, (uint32_t)tag, (uint32_t)tag));
	must("tags_clear", clear(hand, (uint32_t)tag));
	return 1;
}

static uint64_t use_posted(struct tags_hand *hand)
{
	int32_t status = take_mask(hand, 0, BOTH);

	if (status == TAGS_NOT_POSTED)
		return 0;
	must("tags_take_mask", status);
	used[0]++;
	used[1]++;
	must("tags_post_mask", post_mask(hand, 0, BOTH));
	return 2;
}

/* A tag goes through the queue, and another one may come out of that. */
static uint64_t use_queued(struct tags_hand *hand)
{
	int32_t tag = get(hand);

	if (tag == TAGS_NO_TAG)
		return 0;
	must("tags_get", tag);
	used[tag]++;
	must("tags_submit", submit(hand, (uint32_t)tag));
	/* a call may find none while others come and go */
	while ((tag = next(hand, 0)) == TAGS_NO_TAG)
		;
	must("tags_next", tag);
	used[tag]++;
	must("tags_clear", clear(hand, (uint32_t)tag));
	return 2;
}

/* A tag that has no note. */
static int is_plain(uint32_t tag, const struct tags_noted *note, void *unused)
{
	(void)unused;
	wrong += tag >= RESERVED || note;
	return 0;
}

static void *work(void *count)
{
	uint64_t uses = 0;

	for (int join = 0; join < JOINS; join++) {
		struct tags_hand hand = TAGS_EMPTY;

		must("tags_join", tags_join(&pool, &hand, 0));
		for (long i = 0; i < rounds; i++)
			uses += use_batch(&hand) + use_many(&hand) + use_tag(&hand) +
				use_posted(&hand) + use_queued(&hand);
		must("tags_leave", tags_leave(&hand));
	}
	*(uint64_t *)count = uses;
	return NULL;
}

static void post_reserved(void)
{
	const struct timespec past = { 0, 0 };
	struct tags_hand hand = TAGS_EMPTY;

	must("tags_join", tags_join(&pool, &hand, 0));
	must("tags_get_reserved_timed", get_reserved_timed(&hand, CLOCK_MONOTONIC, &past));
	must("tags_get_reserved_async", get_reserved_async(&hand, 0));
	wrong += get_reserved_timed(&hand, CLOCK_MONOTONIC, &past) != TAGS_TIMED_OUT;
	must("tags_post_mask", post_mask(&hand, 0, BOTH));
	must("tags_leave", tags_leave(&hand));
}

int main(int argc, char **argv)
{
	const struct tags_options options = {
		.total = TOTAL,
		.reserved = RESERVED,
		.shift = 2,
		.hands = THREADS,
		.flags = TAGS_NOTES,
		.queues = 1,
	};
	uint64_t counts[THREADS], uses = 0;
	pthread_t ids[THREADS];
	struct tags_sums sums;

	if (argc > 1)
		rounds = strtol(argv[1], NULL, 10);
	must("tags_open", tags_open(&pool, &options));
	post_reserved();
	for (int i = 0; i < THREADS; i++)
		if (pthread_create(&ids[i], NULL, work, &counts[i]))
			return 2;
	for (int i = 0; i < THREADS; i++) {
		pthread_join(ids[i], NULL);
		uses += counts[i];
	}
	/* the reserved tags are posted, and were never noted */
	wrong += tags_pool_each_noted(&pool, is_plain, NULL) != RESERVED;
	must("tags_close", tags_close(&pool, &sums));
	for (int i = 0; i < TOTAL; i++)
		uses -= used[i];
	wrong += uses != 0 || sums.got != sums.back + RESERVED || sums.posted != RESERVED;
	printf("%" PRIu64 " wrong\n", wrong);
	return wrong != 0;
}
