/*
 * Who waits at a gate is woken in turn, and only if there is something for it: a hand that leaves
 * wakes one thread, the one that has waited longest, and drains, of all tags and of a list, leave
 * those in peace who get and clear tags. turns [PAIRS]
 */
#define _GNU_SOURCE
#include <inttypes.h>
#include <pthread.h>
#include <stdbool.h>
#include <stdio.h>
#include <stdlib.h>
#include <string.h>
#include <time.h>

#include <tags.h>

#include "checks.h"
#include "sleeps.h"

enum { SLEEPERS = 6, HANDS = 3, WORKERS = 2, POOLS = 40, DRAINS = 3 };

struct sleeper {
	pthread_t id;
	bool is_timed;
	/* the place in which it got its hand, from 1 on; 0 until then */
	int place;
	bool may_leave;
	struct tags_hand hand;
};

static long pairs = 100000;
static struct tags_pool pool;
static struct tags_hand hands[HANDS];
static int places;

#define LOAD(what) __atomic_load_n(what, __ATOMIC_SEQ_CST)
#define STORE(what, value) __atomic_store_n(what, value, __ATOMIC_SEQ_CST)

static double now(void)
{
	struct timespec time;

	clock_gettime(CLOCK_MONOTONIC, &time);
	return (double)time.tv_sec + (double)time.tv_nsec / 1e9;
}

static void open_pool(uint32_t n)
{
	const struct tags_options options = { .total = 8, .hands = n };

	CHECK(tags_open(&pool, &options) == TAGS_OK);
}

static void close_pool(void)
{
	struct tags_sums sums;

	CHECK(tags_close(&pool, &sums) == TAGS_OK && sums.got == sums.back);
}

/*
 * Hands
 */

static void *join_and_leave(void *argument)
{
	struct sleeper *self = argument;
	struct timespec end;

	clock_gettime(CLOCK_MONOTONIC, &end);
	end.tv_sec += 600;
	if (self->is_timed)
		CHECK(tags_join_timed(&pool, &self->hand, 0, CLOCK_MONOTONIC, &end) == TAGS_OK);
	else
		CHECK(tags_join_blocking(&pool, &self->hand, 0) == TAGS_OK);
	STORE(&self->place, __atomic_add_fetch(&places, 1, __ATOMIC_SEQ_CST));
	while (!LOAD(&self->may_leave))
		nap(1000);
	CHECK(tags_leave(&self->hand) == TAGS_OK);
	return NULL;
}

static int count_placed(const struct sleeper *sleepers)
{
	int n = 0;

	for (int i = 0; i < SLEEPERS; i++)
		n += LOAD(&sleepers[i].place) != 0;
	return n;
}

/* Waits until this sleeper has its hand, or as many have theirs as may before it. Returns its place, or 0. */
static int await_hand(const struct sleeper *sleepers, int which, int most)
{
	while (LOAD(&sleepers[which].place) == 0 && count_placed(sleepers) < most)
		nap(100);
	return LOAD(&sleepers[which].place);
}

/* All hands are out, and the sleepers begin to wait one after another. */
static void begin(struct sleeper *sleepers)
{
	memset(sleepers, 0, SLEEPERS * sizeof(*sleepers));
	places = 0;
	open_pool(HANDS);
	for (int i = 0; i < HANDS; i++)
		CHECK(tags_join(&pool, &hands[i], 0) == TAGS_OK);
	for (int i = 0; i < SLEEPERS; i++) {
		sleepers[i].is_timed = i % 2;
		CHECK(pthread_create(&sleepers[i].id, NULL, join_and_leave, &sleepers[i]) == 0);
		await_asleep((uint32_t)i + 1);
	}
}

static void end(struct sleeper *sleepers)
{
	for (int i = 0; i < SLEEPERS; i++)
		STORE(&sleepers[i].may_leave, true);
	for (int i = 0; i < SLEEPERS; i++)
		pthread_join(sleepers[i].id, NULL);
	close_pool();
}

/* Each hand that leaves wakes the first one, and no other. */
static void wake_one_for_each_hand(void)
{
	struct sleeper sleepers[SLEEPERS];
	uint32_t before;

	begin(sleepers);
	before = LOAD(&woken);
	for (int first = 0; first < SLEEPERS; first++) {
		if (first < HANDS)
			CHECK(tags_leave(&hands[first]) == TAGS_OK);
		else
			STORE(&sleepers[first - HANDS].may_leave, true);
		CHECK(await_hand(sleepers, first, first + 1) == first + 1);
		CHECK(LOAD(&woken) == before + (uint32_t)first + 1);
	}
	end(sleepers);
}

/* Who was woken and finds another thread faster sleeps on at its turn. */
static void keep_turns(void)
{
	struct sleeper sleepers[SLEEPERS];

	begin(sleepers);
	for (int round = 0; round < 20; round++) {
		const uint32_t before = LOAD(&sleeps);

		CHECK(tags_leave(&hands[0]) == TAGS_OK);
		if (tags_join(&pool, &hands[0], 0) != TAGS_OK)
			break;
		/* while the first one has not looked yet, the next hand that leaves would wake the second one */
		await_sleeps(before + 1);
	}
	for (int i = 0; i < HANDS; i++)
		if (hands[i].full)
			CHECK(tags_leave(&hands[i]) == TAGS_OK);
	for (int i = 0; i < SLEEPERS; i++) {
		const int most = i / HANDS * HANDS + HANDS;

		CHECK(await_hand(sleepers, i, most) > 0 && sleepers[i].place <= most);
		if (i % HANDS == HANDS - 1)
			for (int k = i + 1 - HANDS; k <= i; k++)
				STORE(&sleepers[k].may_leave, true);
	}
	end(sleepers);
}

/* More pools than there are gates: each hand wakes one that sleeps for a hand of its pool. */
static struct {
	struct tags_pool pool;
	struct tags_hand hand;
	pthread_t id;
} many[POOLS];

static void *join_one(void *at)
{
	struct tags_hand hand = TAGS_EMPTY;

	CHECK(tags_join_blocking(at, &hand, 0) == TAGS_OK);
	CHECK(tags_leave(&hand) == TAGS_OK);
	return NULL;
}

static void wake_those_of_each_pool(void)
{
	const struct tags_options options = { .total = 1, .hands = 1 };
	struct tags_sums sums;

	for (int i = 0; i < POOLS; i++) {
		CHECK(tags_open(&many[i].pool, &options) == TAGS_OK);
		CHECK(tags_join(&many[i].pool, &many[i].hand, 0) == TAGS_OK);
		CHECK(pthread_create(&many[i].id, NULL, join_one, &many[i].pool) == 0);
	}
	await_asleep(POOLS);
	for (int i = POOLS - 1; i >= 0; i--) {
		CHECK(tags_leave(&many[i].hand) == TAGS_OK);
		pthread_join(many[i].id, NULL);
		CHECK(tags_close(&many[i].pool, &sums) == TAGS_OK);
	}
}

/*
 * Drains
 */

/* Notes how often it slept. */
static void *drain(void *slept)
{
	CHECK(tags_drain(&pool) == TAGS_OK);
	*(uint32_t *)slept = own_sleeps;
	return NULL;
}

static uint32_t listed;

static void *drain_list(void *slept)
{
	CHECK(tags_drain_list(&pool, &listed, 1) == TAGS_OK);
	*(uint32_t *)slept = own_sleeps;
	return NULL;
}

static void *use_tags(void *unused)
{
	struct tags_hand hand = TAGS_EMPTY;

	CHECK(tags_join(&pool, &hand, 0) == TAGS_OK);
	for (long i = 0; i < pairs; i++) {
		const int32_t tag = tags_get(&hand);

		if (tag >= 0)
			TAGS_MUST(tags_clear(&hand, (uint32_t)tag));
	}
	CHECK(tags_leave(&hand) == TAGS_OK);
	return unused;
}

/* The first drain and that of a list look now and then, and the second one when the first has ended. */
static void drain_in_peace(void)
{
	void *(*const ways[DRAINS])(void *slept) = { drain, drain, drain_list };
	pthread_t drains[DRAINS], workers[WORKERS];
	uint32_t slept[DRAINS];
	double start;

	open_pool(WORKERS + 1);
	CHECK(tags_join(&pool, &hands[0], 0) == TAGS_OK);
	listed = (uint32_t)TAGS_MUST(tags_get(&hands[0]));
	for (int i = 0; i < DRAINS; i++) {
		CHECK(pthread_create(&drains[i], NULL, ways[i], &slept[i]) == 0);
		await_asleep((uint32_t)i + 1);
	}
	start = now();
	for (int i = 0; i < WORKERS; i++)
		CHECK(pthread_create(&workers[i], NULL, use_tags, NULL) == 0);
	for (int i = 0; i < WORKERS; i++)
		pthread_join(workers[i], NULL);
	CHECK(tags_pool_waiting(&pool) == DRAINS);
	TAGS_MUST(tags_clear(&hands[0], listed));
	for (int i = 0; i < DRAINS; i++)
		pthread_join(drains[i], NULL);
	/* the longer it took, the more often they may have looked */
	for (int i = 0; i < DRAINS; i += 2)
		CHECK(slept[i] < 100 + 2000 * (now() - start));
	CHECK(slept[1] == 1);
	CHECK(tags_pool_waiting(&pool) == 0);
	CHECK(tags_leave(&hands[0]) == TAGS_OK);
	close_pool();
}

int main(int argc, char **argv)
{
	if (argc > 1)
		pairs = strtol(argv[1], NULL, 10);
	wake_one_for_each_hand();
	keep_turns();
	wake_those_of_each_pool();
	drain_in_peace();
	printf("%" PRIu64 " wrong\n", wrong);
	return wrong != 0;
}
