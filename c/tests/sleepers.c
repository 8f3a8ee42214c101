/*
 * Runs threads that would sleep for ever if a wakeup were lost. In a crowd there
 * are more threads than tags, and the last clear has to wake the last sleeper.
 * It runs with and without caches. Threads of pairs hold two tags at a time, so that
 * they keep some while they hold another one. In a duel each round has one clear and one thread that waits for it, and the
 * clear comes a little earlier or later each time. sleepers [ROUNDS]
 */
#include <inttypes.h>
#include <pthread.h>
#include <sched.h>
#include <stdbool.h>
#include <stdio.h>
#include <stdlib.h>
#include <time.h>

#include "../tags.h"

enum { THREADS = 24 };

struct thread {
	pthread_t id;
	struct tags_hand hand;
	/* whether the thread gives its tags back with tags_clear_batch() */
	bool by_batch;
	/* whether it gives back what it keeps when it ends, as threads must that may keep tags while they hold none */
	bool flushes;
};

static long rounds = 500;
static uint64_t wrong;

/* Number of threads that have a tag. It never exceeds the number of tags. */
static uint32_t inside;
static uint32_t tags_in_all;

static void check(bool is_well)
{
	if (!is_well)
		__atomic_fetch_add(&wrong, 1, __ATOMIC_RELAXED);
}

static int32_t clear(struct thread *self, uint32_t tag)
{
	if (self->by_batch)
		return tags_clear_batch(&self->hand, &tag, 1);
	return tags_clear(&self->hand, tag);
}

static void *run(void *argument)
{
	struct thread *self = argument;

	for (long round = 0; round < rounds; round++) {
		int32_t tag = tags_get_blocking(&self->hand);

		check(tag >= 0);
		check(__atomic_add_fetch(&inside, 1, __ATOMIC_SEQ_CST) <= tags_in_all);
		sched_yield();
		__atomic_fetch_sub(&inside, 1, __ATOMIC_SEQ_CST);
		check(clear(self, (uint32_t)tag) >= 0);
	}
	if (self->flushes)
		check(tags_flush(&self->hand) >= 0);
	return NULL;
}

static uint32_t get(struct thread *self)
{
	int32_t tag = tags_get_blocking(&self->hand);

	check(tag >= 0);
	check(__atomic_add_fetch(&inside, 1, __ATOMIC_SEQ_CST) <= tags_in_all);
	return (uint32_t)tag;
}

static void give(struct thread *self, uint32_t tag)
{
	__atomic_fetch_sub(&inside, 1, __ATOMIC_SEQ_CST);
	check(tags_clear(&self->hand, tag) >= 0);
}

/* The second tag of a pair is given back and taken again while the first is held. */
static void *run_pairs(void *argument)
{
	struct thread *self = argument;

	for (long round = 0; round < rounds; round++) {
		uint32_t first = get(self);
		uint32_t second = get(self);

		give(self, second);
		sched_yield();
		second = get(self);
		give(self, round % 2 ? first : second);
		give(self, round % 2 ? second : first);
	}
	if (self->flushes)
		check(tags_flush(&self->hand) >= 0);
	return NULL;
}

/* Lets all threads compete for @tags tags, of which each may keep @cache. */
static void crowd(uint32_t tags, uint32_t reserved, uint32_t cache, uint32_t flags, bool in_pairs)
{
	static struct thread threads[THREADS];
	struct tags_options options = {
		.total = tags + reserved,
		.reserved = reserved,
		.hands = THREADS,
		.flags = flags,
		.cache = cache,
	};
	struct tags_pool pool = TAGS_EMPTY;
	struct tags_sums sums = { 0 };

	tags_in_all = tags;
	check(tags_open(&pool, &options) == TAGS_OK);
	for (int i = 0; i < THREADS; i++) {
		threads[i].by_batch = i % 3 == 0;
		threads[i].flushes = cache > 0 && !(flags & TAGS_KEEP_WHILE_HOLDING);
		check(tags_join(&pool, &threads[i].hand, 0) == TAGS_OK);
		check(pthread_create(&threads[i].id, NULL, in_pairs ? run_pairs : run,
				     &threads[i]) == 0);
	}
	for (int i = 0; i < THREADS; i++) {
		pthread_join(threads[i].id, NULL);
		check(tags_leave(&threads[i].hand) == TAGS_OK);
	}
	check(tags_close(&pool, &sums) == TAGS_OK);
	check(sums.back == sums.got && sums.held == 0 && inside == 0);
	check(cache > 0 || sums.got == (uint64_t)(THREADS * rounds * (in_pairs ? 3 : 1)));
	fprintf(stderr, "%" PRIu32 " tags: %" PRIu64 " gets\n", tags, sums.got);
}

/*
 * The duel. Each word has the number of the latest round in which it was set.
 */
static struct tags_hand waiter = TAGS_EMPTY;
static long called;
static long near;
static long answered;

/* It looks without a rest, so that the two threads meet, unless the other one waits for a processor. */
static void wait_for(const long *word, long round)
{
	const struct timespec rest = { 0, 20000 };

	for (int looks = 1; __atomic_load_n(word, __ATOMIC_SEQ_CST) != round; looks++)
		if (looks % 1000 == 0)
			nanosleep(&rest, NULL);
}

static void linger(long turns)
{
	for (volatile long i = turns; i > 0; i--)
		;
}

static void *answer(void *unused)
{
	for (long round = 1; round <= rounds * 40; round++) {
		int32_t tag;

		wait_for(&called, round);
		__atomic_store_n(&near, round, __ATOMIC_SEQ_CST);
		linger(round * 7 % 600);
		tag = tags_get_blocking(&waiter);
		check(tag == 0 && tags_clear(&waiter, 0) == 0);
		__atomic_store_n(&answered, round, __ATOMIC_SEQ_CST);
	}
	return unused;
}

static void duel(void)
{
	struct tags_options options = { .total = 1, .hands = 2 };
	struct tags_pool pool = TAGS_EMPTY;
	struct tags_hand hand = TAGS_EMPTY;
	struct tags_sums sums = { 0 };
	pthread_t id;

	check(tags_open(&pool, &options) == TAGS_OK);
	check(tags_join(&pool, &hand, 0) == TAGS_OK && tags_join(&pool, &waiter, 0) == TAGS_OK);
	check(pthread_create(&id, NULL, answer, NULL) == 0);
	for (long round = 1; round <= rounds * 40; round++) {
		check(tags_get(&hand) == 0);
		__atomic_store_n(&called, round, __ATOMIC_SEQ_CST);
		wait_for(&near, round);
		linger(round * 11 % 200);
		check(tags_clear(&hand, 0) >= 0);
		wait_for(&answered, round);
	}
	pthread_join(id, NULL);
	check(tags_leave(&hand) == TAGS_OK && tags_leave(&waiter) == TAGS_OK);
	check(tags_close(&pool, &sums) == TAGS_OK && sums.back == sums.got);
	fprintf(stderr, "duel: %" PRIu64 " gets\n", sums.got);
}

int main(int argc, char **argv)
{
	if (argc > 1)
		rounds = strtol(argv[1], NULL, 10);
	crowd(1, 0, 0, 0, false);
	crowd(2, 3, 0, 0, false);
	crowd(7, 0, 0, 0, false);
	crowd(16, 1, 0, 0, false);
	crowd(1, 0, 1, 0, false);
	crowd(7, 1, 2, 0, false);
	crowd(16, 0, TAGS_MAX_CACHE, 0, false);
	/* with one tag more than threads some thread always gets its second one */
	crowd(THREADS + 1, 0, 0, 0, true);
	crowd(THREADS + 1, 2, 3, 0, true);
	crowd(THREADS + 1, 2, 3, TAGS_KEEP_WHILE_HOLDING, true);
	crowd(THREADS + 8, 0, TAGS_MAX_CACHE, TAGS_KEEP_WHILE_HOLDING, true);
	duel();
	printf("%" PRIu64 " wrong\n", wrong);
	return wrong != 0;
}
