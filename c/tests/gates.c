/*
 * Waits for a hand, and for all tags or those of a list to be back: beside threads that join, leave
 * and use tags, with limits, and ended by stops, cancels and closes.
 * gates [ROUNDS]
 */
#define _GNU_SOURCE
#include <errno.h>
#include <inttypes.h>
#include <pthread.h>
#include <signal.h>
#include <stdbool.h>
#include <stdio.h>
#include <stdlib.h>
#include <time.h>

#include <tags.h>

#include "checks.h"
#include "sleeps.h"

enum { HANDS = 3, THREADS = 12, TOTAL = 8 };

static long rounds = 500;
static struct tags_pool pool;
static int inside;
/* for whoever holds the tag, and for whoever drained the pool */
static long used[TOTAL + 2];
static long taken;

static void open_pool(uint32_t hands, uint32_t cache)
{
	const struct tags_options options = {
		.total = TOTAL,
		.reserved = 1,
		.hands = hands,
		.cache = cache,
	};

	CHECK(tags_open(&pool, &options) == TAGS_OK);
}

static void close_pool(void)
{
	struct tags_sums sums;

	CHECK(tags_close(&pool, &sums) == TAGS_OK && sums.got == sums.back);
}

static void leave(struct tags_hand *hand)
{
	CHECK(tags_leave(hand) == TAGS_OK);
}

/*
 * A hand
 */

/* Never are more threads inside than there are hands. */
static void *come_and_go(void *unused)
{
	for (long i = 0; i < rounds; i++) {
		struct tags_hand hand = TAGS_EMPTY;
		const struct timespec late = after(CLOCK_MONOTONIC, NEVER);

		if (i % 2)
			CHECK(tags_join_blocking(&pool, &hand, 0) == TAGS_OK);
		else
			CHECK(tags_join_timed(&pool, &hand, 0, CLOCK_MONOTONIC, &late) == TAGS_OK);
		CHECK(__atomic_add_fetch(&inside, 1, __ATOMIC_SEQ_CST) <= HANDS);
		if (i % 16 == 0)
			nap(10);
		__atomic_sub_fetch(&inside, 1, __ATOMIC_SEQ_CST);
		leave(&hand);
	}
	return unused;
}

static void more_threads_than_hands(void)
{
	pthread_t ids[THREADS];

	open_pool(HANDS, 0);
	for (int i = 0; i < THREADS; i++)
		CHECK(pthread_create(&ids[i], NULL, come_and_go, NULL) == 0);
	for (int i = 0; i < THREADS; i++)
		pthread_join(ids[i], NULL);
	close_pool();
}

static void *join_once(void *status)
{
	struct tags_hand hand = TAGS_EMPTY;

	*(int32_t *)status = tags_join_blocking(&pool, &hand, TAGS_STAY);
	if (*(int32_t *)status == TAGS_OK)
		leave(&hand);
	return NULL;
}

static void limits_of_joins(void)
{
	struct tags_hand hand = TAGS_EMPTY, other = TAGS_EMPTY;
	struct timespec end = { 0, 0 };

	open_pool(1, 0);
	CHECK(tags_join_timed(&pool, &hand, 0, CLOCK_REALTIME, &end) == TAGS_OK);
	CHECK(tags_join_timed(&pool, &other, 0, CLOCK_REALTIME, &end) == TAGS_TIMED_OUT);
	/* before the epoch of either clock */
	end.tv_sec = -1;
	CHECK(tags_join_timed(&pool, &other, 0, CLOCK_REALTIME, &end) == TAGS_TIMED_OUT);
	CHECK(tags_join_timed(&pool, &other, 0, CLOCK_MONOTONIC, &end) == TAGS_TIMED_OUT);
	end = after(CLOCK_MONOTONIC, 20);
	errno = 77;
	CHECK(tags_join_timed(&pool, &other, 0, CLOCK_MONOTONIC, &end) == TAGS_TIMED_OUT);
	CHECK(errno == 77);
	end.tv_nsec = 1000000000;
	CHECK(tags_join_timed(&pool, &other, 0, CLOCK_MONOTONIC, &end) == TAGS_BAD_TIME);
	CHECK(tags_join_timed(&pool, &other, 0, -1, &end) == TAGS_BAD_TIME);
	CHECK(tags_join_timed(&pool, &other, 0, CLOCK_MONOTONIC, NULL) == TAGS_NULL);
	CHECK(tags_join_timed(NULL, &other, 0, CLOCK_MONOTONIC, &end) == TAGS_NULL);
	CHECK(tags_join_blocking(&pool, NULL, 0) == TAGS_NULL);
	CHECK(tags_join_blocking(&pool, &hand, 0) == TAGS_NOT_EMPTY);
	CHECK(tags_join_blocking(&pool, &other, 2) == TAGS_BAD_FLAG);
	leave(&hand);
	close_pool();
	CHECK(tags_join_blocking(&pool, &other, 0) == TAGS_BAD_HANDLE);
}

static void stops_and_cancels_of_joins(void)
{
	struct tags_hand hand = TAGS_EMPTY;
	int32_t answers[2] = { 1, 1 };
	pthread_t ids[2];
	void *result;

	open_pool(1, 0);
	CHECK(tags_join(&pool, &hand, 0) == TAGS_OK);
	for (int i = 0; i < 2; i++)
		CHECK(pthread_create(&ids[i], NULL, join_once, &answers[i]) == 0);
	await_asleep(2);
	pthread_cancel(ids[0]);
	pthread_join(ids[0], &result);
	CHECK(result == PTHREAD_CANCELED);
	CHECK(tags_stop(&pool) == TAGS_OK);
	pthread_join(ids[1], NULL);
	CHECK(answers[1] == TAGS_STOPPED);
	join_once(&answers[0]);
	CHECK(answers[0] == TAGS_STOPPED);
	CHECK(tags_resume(&pool) == TAGS_OK);
	CHECK(pthread_create(&ids[0], NULL, join_once, &answers[0]) == 0);
	await_asleep(1);
	leave(&hand);
	pthread_join(ids[0], NULL);
	CHECK(answers[0] == TAGS_OK);
	close_pool();
	CHECK(tags_resume(&pool) == TAGS_BAD_HANDLE && tags_resume(NULL) == TAGS_NULL);
}

static void *get_once(void *answer)
{
	struct tags_hand hand = TAGS_EMPTY;

	CHECK(tags_join(&pool, &hand, 0) == TAGS_OK);
	*(int32_t *)answer = tags_get_blocking(&hand);
	leave(&hand);
	return NULL;
}

static void *get_in_time(void *answer)
{
	const struct timespec late = after(CLOCK_MONOTONIC, NEVER);
	struct tags_hand hand = TAGS_EMPTY;

	CHECK(tags_join(&pool, &hand, 0) == TAGS_OK);
	*(int32_t *)answer = tags_get_timed(&hand, CLOCK_MONOTONIC, &late);
	leave(&hand);
	return NULL;
}

static void do_nothing(void *unused)
{
	(void)unused;
}

/* The pool is resumed before any of those that wait has looked. */
static void stops_that_are_resumed(void)
{
	void *(*const waits[])(void *answer) = { get_once, get_in_time, join_once };
	struct tags_hand hand = TAGS_EMPTY, listener = TAGS_EMPTY;
	int32_t answers[3] = { 1, 1, 1 };
	uint64_t all;
	pthread_t ids[3];

	open_pool(4, 0);
	CHECK(tags_join(&pool, &hand, 0) == TAGS_OK && tags_join(&pool, &listener, 0) == TAGS_OK);
	for (int32_t i = 1; i < TOTAL; i++)
		CHECK(tags_get(&hand) >= 0);
	CHECK(tags_get_notified(&listener, do_nothing, NULL) == TAGS_NO_TAG);
	for (int i = 0; i < 2; i++)
		CHECK(pthread_create(&ids[i], NULL, waits[i], &answers[i]) == 0);
	/* once these two have hands, none is left */
	await_asleep(2);
	CHECK(pthread_create(&ids[2], NULL, waits[2], &answers[2]) == 0);
	await_asleep(3);
	CHECK(tags_pool_waiting(&pool) == 3);
	CHECK(tags_stop(&pool) == TAGS_OK && tags_resume(&pool) == TAGS_OK);
	for (int i = 0; i < 3; i++)
		pthread_join(ids[i], NULL);
	CHECK(answers[0] == TAGS_STOPPED && answers[1] == TAGS_STOPPED);
	/* unless one of them had left already when it looked */
	CHECK(answers[2] == TAGS_STOPPED || answers[2] == TAGS_OK);
	CHECK(tags_get_notified(&listener, do_nothing, NULL) == TAGS_STOPPED);
	/* a wait that begins now goes on */
	CHECK(tags_get_notified(&listener, do_nothing, NULL) == TAGS_NO_TAG);
	CHECK(tags_clear_mask(&hand, 1, (1 << (TOTAL - 1)) - 1) == TAGS_OK);
	CHECK(tags_get_notified(&listener, do_nothing, NULL) >= 0);
	all = 0;
	CHECK(tags_pool_busy(&pool, &all, 1) == 1);
	CHECK(tags_clear(&listener, (uint32_t)__builtin_ctzll(all)) == TAGS_OK);
	leave(&hand);
	leave(&listener);
	close_pool();
}

static int is_delayed, may_go_on;

/* A thread that was woken and runs late. */
static void delay(int unused)
{
	(void)unused;
	__atomic_store_n(&is_delayed, 1, __ATOMIC_SEQ_CST);
	while (!__atomic_load_n(&may_go_on, __ATOMIC_SEQ_CST))
		nap(100);
}

/* Of one that sleeps, and so has no lock that others wait for. */
static void begin_delay(pthread_t id)
{
	__atomic_store_n(&is_delayed, 0, __ATOMIC_SEQ_CST);
	__atomic_store_n(&may_go_on, 0, __ATOMIC_SEQ_CST);
	CHECK(pthread_kill(id, SIGUSR1) == 0);
	while (!__atomic_load_n(&is_delayed, __ATOMIC_SEQ_CST))
		nap(100);
}

/* A close answers those who sleep, and no leave of a later pool in the handle is lost to them. */
static void pools_in_one_handle(bool was_stopped)
{
	struct tags_hand hand = TAGS_EMPTY;
	int32_t answers[3] = { 1, 1, 1 };
	pthread_t ids[3];

	open_pool(1, 0);
	CHECK(tags_join(&pool, &hand, 0) == TAGS_OK);
	if (was_stopped)
		CHECK(tags_stop(&pool) == TAGS_OK && tags_resume(&pool) == TAGS_OK);
	for (uint32_t i = 0; i < 2; i++) {
		CHECK(pthread_create(&ids[i], NULL, join_once, &answers[i]) == 0);
		await_asleep(i + 1);
	}
	begin_delay(ids[0]);
	leave(&hand);
	close_pool();
	pthread_join(ids[1], NULL);
	CHECK(answers[1] == TAGS_BAD_HANDLE);
	open_pool(1, 0);
	CHECK(tags_join(&pool, &hand, 0) == TAGS_OK);
	CHECK(pthread_create(&ids[2], NULL, join_once, &answers[2]) == 0);
	await_asleep(2);
	__atomic_store_n(&may_go_on, 1, __ATOMIC_SEQ_CST);
	pthread_join(ids[0], NULL);
	CHECK(answers[0] == TAGS_BAD_HANDLE && answers[2] == 1);
	leave(&hand);
	pthread_join(ids[2], NULL);
	CHECK(answers[2] == TAGS_OK);
	close_pool();
}

/*
 * All tags
 */

static void *use_tags(void *held)
{
	struct tags_hand hand = TAGS_EMPTY;
	int32_t tags[3];

	CHECK(tags_join(&pool, &hand, 0) == TAGS_OK);
	tags[0] = tags_get(&hand);
	tags[1] = tags_get(&hand);
	tags[2] = tags_get_reserved(&hand);
	for (int i = 0; i < 3; i++)
		if (tags[i] >= 0) {
			__atomic_add_fetch((int *)held, 1, __ATOMIC_SEQ_CST);
			__atomic_add_fetch(&taken, 1, __ATOMIC_RELAXED);
		}
	__atomic_add_fetch(&inside, 1, __ATOMIC_SEQ_CST);
	nap(100);
	for (int i = 0; i < 3; i++) {
		if (tags[i] < 0)
			continue;
		__atomic_sub_fetch((int *)held, 1, __ATOMIC_SEQ_CST);
		used[tags[i]]++;
		TAGS_MUST(tags_clear(&hand, (uint32_t)tags[i]));
	}
	/* what it keeps goes back as it leaves */
	leave(&hand);
	return NULL;
}

static long count_uses(void)
{
	long uses = 0;

	for (int i = 0; i < TOTAL + 2; i++)
		uses += used[i];
	return uses;
}

static void drain_beside_clears(uint32_t cache)
{
	const struct timespec late = after(CLOCK_REALTIME, NEVER);
	pthread_t ids[HANDS];
	int held = 0;

	open_pool(HANDS, cache);
	for (long round = 0; round < rounds / 5; round++) {
		inside = 0;
		for (int i = 0; i < HANDS; i++)
			CHECK(pthread_create(&ids[i], NULL, use_tags, &held) == 0);
		while (__atomic_load_n(&inside, __ATOMIC_SEQ_CST) < HANDS)
			nap(1);
		if (round % 2)
			CHECK(tags_drain(&pool) == TAGS_OK);
		else
			CHECK(tags_drain_timed(&pool, CLOCK_REALTIME, &late) == TAGS_OK);
		CHECK(__atomic_load_n(&held, __ATOMIC_SEQ_CST) == 0);
		CHECK(count_uses() == __atomic_load_n(&taken, __ATOMIC_RELAXED));
		for (int i = 0; i < HANDS; i++)
			pthread_join(ids[i], NULL);
		CHECK(tags_resize(&pool, TOTAL + (uint32_t)round % 3) == TAGS_OK);
	}
	close_pool();
}

static void *drain(void *status)
{
	*(int32_t *)status = tags_drain(&pool);
	return NULL;
}

static void limits_of_drains(void)
{
	struct tags_hand hand = TAGS_EMPTY, other = TAGS_EMPTY;
	struct timespec end = { 0, 0 };
	int32_t answer = 1, tag;
	pthread_t id;
	void *result;

	CHECK(tags_drain(&pool) == TAGS_BAD_HANDLE && tags_drain(NULL) == TAGS_NULL);
	open_pool(2, 0);
	CHECK(tags_drain(&pool) == TAGS_OK);
	CHECK(tags_join(&pool, &hand, 0) == TAGS_OK && tags_join(&pool, &other, 0) == TAGS_OK);
	tag = TAGS_MUST(tags_get(&hand));
	TAGS_MUST(tags_post(&hand, (uint32_t)tag));
	CHECK(tags_drain_timed(&pool, CLOCK_MONOTONIC, &end) == TAGS_TIMED_OUT);
	end.tv_sec = -1;
	CHECK(tags_drain_timed(&pool, CLOCK_REALTIME, &end) == TAGS_TIMED_OUT);
	CHECK(tags_drain_timed(&pool, CLOCK_MONOTONIC, &end) == TAGS_TIMED_OUT);
	end = after(CLOCK_MONOTONIC, 20);
	CHECK(tags_drain_timed(&pool, CLOCK_MONOTONIC, &end) == TAGS_TIMED_OUT);
	CHECK(tags_drain_timed(&pool, 99, &end) == TAGS_BAD_TIME);
	CHECK(tags_drain_timed(&pool, CLOCK_MONOTONIC, NULL) == TAGS_NULL);
	CHECK(pthread_create(&id, NULL, drain, &answer) == 0);
	await_asleep(1);
	pthread_cancel(id);
	pthread_join(id, &result);
	CHECK(result == PTHREAD_CANCELED && pool.waits->watchers == 0 && tags_pool_waiting(&pool) == 0);
	/* a stop ends no drain */
	CHECK(tags_stop(&pool) == TAGS_OK);
	CHECK(pthread_create(&id, NULL, drain, &answer) == 0);
	await_asleep(1);
	TAGS_MUST(tags_take(&other, (uint32_t)tag));
	TAGS_MUST(tags_clear(&other, (uint32_t)tag));
	pthread_join(id, NULL);
	CHECK(answer == TAGS_OK && pool.waits->watchers == 0 && tags_pool_waiting(&pool) == 0);
	leave(&hand);
	leave(&other);
	close_pool();
}

/*
 * The tags of a list
 */

/* What a thread waits for, and how that has ended. */
struct wait {
	uint32_t tags[TOTAL];
	size_t count;
	int32_t answer;
};

static void *await_list(void *argument)
{
	struct wait *wait = argument;

	__atomic_store_n(&wait->answer, tags_drain_list(&pool, wait->tags, wait->count),
			 __ATOMIC_RELAXED);
	return NULL;
}

/* Returns once it sleeps as one of so many threads. */
static pthread_t begin_wait(struct wait *wait, uint32_t sleepers)
{
	pthread_t id;

	wait->answer = 1;
	CHECK(pthread_create(&id, NULL, await_list, wait) == 0);
	await_asleep(sleepers);
	CHECK(tags_pool_waiting(&pool) == (int32_t)sleepers);
	return id;
}

static void refused_lists(void)
{
	const uint32_t good[] = { TOTAL - 1, 0, TOTAL - 1 }, bad[] = { 1, TOTAL };
	struct tags_hand hand = TAGS_EMPTY;
	struct timespec end = { 0, 0 };
	/* a handle of the other kind, as wrong bytes of a program may be */
	struct tags_pool *wrong_kind = (struct tags_pool *)(void *)&hand;

	CHECK(tags_drain_list(&pool, good, 3) == TAGS_BAD_HANDLE);
	open_pool(1, 0);
	CHECK(tags_join(&pool, &hand, 0) == TAGS_OK);
	CHECK(tags_drain_list(NULL, good, 3) == TAGS_NULL);
	CHECK(tags_drain_list(&pool, NULL, 1) == TAGS_NULL);
	CHECK(tags_drain_list(wrong_kind, good, 3) == TAGS_BAD_HANDLE);
	CHECK(tags_drain_list(&pool, bad, 2) == TAGS_NO_SUCH_TAG);
	CHECK(tags_drain_list(&pool, bad, 1) == TAGS_OK && tags_drain_list(&pool, good, 3) == TAGS_OK);
	CHECK(tags_drain_list(&pool, NULL, 0) == TAGS_OK);
	CHECK(tags_drain_list_timed(NULL, good, 3, CLOCK_MONOTONIC, &end) == TAGS_NULL);
	CHECK(tags_drain_list_timed(&pool, NULL, 1, CLOCK_MONOTONIC, &end) == TAGS_NULL);
	CHECK(tags_drain_list_timed(&pool, good, 3, CLOCK_MONOTONIC, NULL) == TAGS_NULL);
	CHECK(tags_drain_list_timed(wrong_kind, good, 3, 99, &end) == TAGS_BAD_TIME);
	CHECK(tags_drain_list_timed(wrong_kind, good, 3, CLOCK_REALTIME, &end) == TAGS_BAD_HANDLE);
	CHECK(tags_drain_list_timed(&pool, bad, 2, CLOCK_REALTIME, &end) == TAGS_NO_SUCH_TAG);
	CHECK(tags_drain_list_timed(&pool, good, 3, CLOCK_REALTIME, &end) == TAGS_OK);
	CHECK(tags_drain_list_timed(&pool, NULL, 0, CLOCK_REALTIME, &end) == TAGS_OK);
	end.tv_nsec = -1;
	CHECK(tags_drain_list_timed(&pool, good, 3, CLOCK_MONOTONIC, &end) == TAGS_BAD_TIME);
	leave(&hand);
	close_pool();
}

/* Each for a tag that is held, posted or reserved, and none for another one. */
static void limits_of_lists(void)
{
	struct tags_hand hand = TAGS_EMPTY;
	struct timespec end = { 0, 0 };
	uint32_t tags[3], other = TOTAL - 1;

	open_pool(1, 0);
	CHECK(tags_join(&pool, &hand, 0) == TAGS_OK);
	tags[0] = (uint32_t)TAGS_MUST(tags_get_reserved(&hand));
	tags[1] = (uint32_t)TAGS_MUST(tags_get_exactly(&hand, 2));
	tags[2] = (uint32_t)TAGS_MUST(tags_get_exactly(&hand, 3));
	TAGS_MUST(tags_post(&hand, tags[2]));
	for (int i = 0; i < 3; i++)
		CHECK(tags_drain_list_timed(&pool, &tags[i], 1, CLOCK_MONOTONIC, &end) == TAGS_TIMED_OUT);
	CHECK(tags_drain_list(&pool, &other, 1) == TAGS_OK);
	end = after(CLOCK_REALTIME, 20);
	errno = 77;
	CHECK(tags_drain_list_timed(&pool, tags, 3, CLOCK_REALTIME, &end) == TAGS_TIMED_OUT);
	CHECK(errno == 77 && tags_pool_waiting(&pool) == 0);
	TAGS_MUST(tags_take(&hand, tags[2]));
	for (int i = 0; i < 3; i++)
		TAGS_MUST(tags_clear(&hand, tags[i]));
	CHECK(tags_drain_list_timed(&pool, tags, 3, CLOCK_REALTIME, &end) == TAGS_OK);
	leave(&hand);
	close_pool();
}

/* A tag that was back is not waited for again, though it never was at the same time as the other. */
static void one_after_the_other(void)
{
	struct wait both = { .tags = { 2, 3, 2 }, .count = 3 }, last = { .tags = { 4 }, .count = 1 };
	struct tags_hand hand = TAGS_EMPTY;
	pthread_t ids[2];

	open_pool(1, 0);
	CHECK(tags_join(&pool, &hand, 0) == TAGS_OK);
	for (uint32_t tag = 2; tag <= 4; tag++)
		TAGS_MUST(tags_get_exactly(&hand, tag));
	ids[0] = begin_wait(&last, 1);
	ids[1] = begin_wait(&both, 2);
	CHECK(__atomic_load_n(&both.answer, __ATOMIC_RELAXED) == 1);
	for (uint32_t tag = 2; __atomic_load_n(&both.answer, __ATOMIC_RELAXED) == 1; tag = 5 - tag) {
		TAGS_MUST(tags_clear(&hand, tag));
		TAGS_MUST(tags_get_exactly(&hand, tag));
		nap(2000);
	}
	pthread_join(ids[1], NULL);
	CHECK(both.answer == TAGS_OK && tags_pool_waiting(&pool) == 1);
	/* neither a stop nor another tag ends the wait */
	CHECK(tags_stop(&pool) == TAGS_OK && tags_resume(&pool) == TAGS_OK);
	TAGS_MUST(tags_clear_mask(&hand, 2, 3));
	/* that it does not end, only time shows */
	nap(20000);
	CHECK(__atomic_load_n(&last.answer, __ATOMIC_RELAXED) == 1);
	TAGS_MUST(tags_clear(&hand, 4));
	pthread_join(ids[0], NULL);
	CHECK(last.answer == TAGS_OK && tags_pool_waiting(&pool) == 0);
	leave(&hand);
	close_pool();
}

/* A cancelled wait leaves the other ones as they were: for all tags, and for the same one. */
static void cancelled_list(void)
{
	struct wait waits[2] = { { .tags = { 2 }, .count = 1 }, { .tags = { 2 }, .count = 1 } };
	struct tags_hand hand = TAGS_EMPTY;
	int32_t answer = 1;
	pthread_t ids[2], all;
	void *result;

	open_pool(1, 0);
	CHECK(tags_join(&pool, &hand, 0) == TAGS_OK);
	TAGS_MUST(tags_get_exactly(&hand, 2));
	CHECK(pthread_create(&all, NULL, drain, &answer) == 0);
	for (uint32_t i = 0; i < 2; i++)
		ids[i] = begin_wait(&waits[i], i + 2);
	pthread_cancel(ids[0]);
	pthread_join(ids[0], &result);
	CHECK(result == PTHREAD_CANCELED && tags_pool_waiting(&pool) == 2);
	TAGS_MUST(tags_clear(&hand, 2));
	pthread_join(ids[1], NULL);
	pthread_join(all, NULL);
	CHECK(waits[1].answer == TAGS_OK && answer == TAGS_OK && tags_pool_waiting(&pool) == 0);
	leave(&hand);
	close_pool();
}

/* What a hand keeps is busy, until it goes back with the hand's next clear, or by a flush. */
static void kept_lists(bool by_flush)
{
	struct wait kept = { .tags = { 2 }, .count = 1 };
	struct tags_hand hand = TAGS_EMPTY;
	pthread_t id;

	open_pool(1, 4);
	CHECK(tags_join(&pool, &hand, 0) == TAGS_OK);
	TAGS_MUST(tags_get_exactly(&hand, 2));
	TAGS_MUST(tags_get_exactly(&hand, 3));
	TAGS_MUST(tags_clear(&hand, 2));
	id = begin_wait(&kept, 1);
	CHECK(__atomic_load_n(&kept.answer, __ATOMIC_RELAXED) == 1);
	if (by_flush)
		TAGS_MUST(tags_flush(&hand));
	else
		TAGS_MUST(tags_clear(&hand, 3));
	pthread_join(id, NULL);
	CHECK(kept.answer == TAGS_OK);
	if (by_flush)
		TAGS_MUST(tags_clear(&hand, 3));
	leave(&hand);
	close_pool();
}

/* The request that has the tag, from 1 on, or 0. What lies beside it is for whoever waited for its end. */
static uint64_t requests[TOTAL], last_request;
static bool has_ended;

static void *make_requests(void *unused)
{
	struct tags_hand hand = TAGS_EMPTY;

	CHECK(tags_join(&pool, &hand, 0) == TAGS_OK);
	while (!__atomic_load_n(&has_ended, __ATOMIC_RELAXED)) {
		const int32_t tag = tags_get_blocking(&hand);

		if (tag < 0)
			break;
		__atomic_store_n(&requests[tag], __atomic_add_fetch(&last_request, 1, __ATOMIC_RELAXED),
				 __ATOMIC_SEQ_CST);
		nap(tag % 2 * 50);
		__atomic_store_n(&requests[tag], 0, __ATOMIC_SEQ_CST);
		TAGS_MUST(tags_clear(&hand, (uint32_t)tag));
	}
	leave(&hand);
	return unused;
}

/* Waits for the requests that are there now. None of them is when the wait has ended. */
static void await_requests(bool has_limit)
{
	const struct timespec late = after(CLOCK_MONOTONIC, NEVER);
	uint64_t awaited[TOTAL];
	struct wait wait = { .count = 0 };

	for (uint32_t tag = 0; tag < TOTAL; tag++) {
		awaited[wait.count] = __atomic_load_n(&requests[tag], __ATOMIC_SEQ_CST);
		if (awaited[wait.count])
			wait.tags[wait.count++] = tag;
	}
	if (has_limit)
		CHECK(tags_drain_list_timed(&pool, wait.tags, wait.count, CLOCK_MONOTONIC, &late) ==
		      TAGS_OK);
	else
		CHECK(tags_drain_list(&pool, wait.tags, wait.count) == TAGS_OK);
	for (size_t i = 0; i < wait.count; i++)
		CHECK(__atomic_load_n(&requests[wait.tags[i]], __ATOMIC_SEQ_CST) != awaited[i]);
}

static void *end_connections(void *unused)
{
	for (long round = 0; round < rounds / 20; round++)
		await_requests(round % 2);
	return unused;
}

/* More threads than tags, so that each tag has a user again at once. */
static void lists_beside_requests(uint32_t cache)
{
	pthread_t ids[THREADS], waiters[HANDS];

	open_pool(THREADS, cache);
	__atomic_store_n(&has_ended, false, __ATOMIC_RELAXED);
	for (int i = 0; i < THREADS; i++)
		CHECK(pthread_create(&ids[i], NULL, make_requests, NULL) == 0);
	for (int i = 0; i < HANDS; i++)
		CHECK(pthread_create(&waiters[i], NULL, end_connections, NULL) == 0);
	for (int i = 0; i < HANDS; i++)
		pthread_join(waiters[i], NULL);
	__atomic_store_n(&has_ended, true, __ATOMIC_RELAXED);
	for (int i = 0; i < THREADS; i++)
		pthread_join(ids[i], NULL);
	CHECK(tags_pool_waiting(&pool) == 0);
	close_pool();
}

static void *end_request(void *hand)
{
	used[2] = -1;
	TAGS_MUST(tags_clear(hand, 2));
	return NULL;
}

/* What a holder wrote before it gave the tag back is seen. */
static void order_of_lists(void)
{
	const uint32_t tag = 2;
	struct tags_hand hand = TAGS_EMPTY;
	pthread_t id;

	open_pool(1, 0);
	CHECK(tags_join(&pool, &hand, 0) == TAGS_OK);
	TAGS_MUST(tags_get_exactly(&hand, tag));
	used[2] = 0;
	CHECK(pthread_create(&id, NULL, end_request, &hand) == 0);
	CHECK(tags_drain_list(&pool, &tag, 1) == TAGS_OK && used[2] == -1);
	pthread_join(id, NULL);
	leave(&hand);
	close_pool();
}

/* The address sanitizer would report the frames that a cancel ended. */
const char *__asan_default_options(void);

const char *__asan_default_options(void)
{
	return "use_sigaltstack=0";
}

int main(int argc, char **argv)
{
	if (argc > 1)
		rounds = strtol(argv[1], NULL, 10);
	more_threads_than_hands();
	limits_of_joins();
	stops_and_cancels_of_joins();
	stops_that_are_resumed();
	signal(SIGUSR1, delay);
	pools_in_one_handle(false);
	pools_in_one_handle(true);
	limits_of_drains();
	drain_beside_clears(0);
	drain_beside_clears(4);
	refused_lists();
	limits_of_lists();
	one_after_the_other();
	cancelled_list();
	kept_lists(false);
	kept_lists(true);
	lists_beside_requests(0);
	lists_beside_requests(2);
	order_of_lists();
	printf("%" PRIu64 " wrong\n", wrong);
	return wrong != 0;
}
