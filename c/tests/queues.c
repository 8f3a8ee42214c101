/*
 * Queues of submitted tags, call by call: their order, slots and notes, who else may take a tag, who is told
 * and what ends a wait, and what stops, drains, resizes, caches and leaves make of them. Threads that meet in
 * a queue are in queue_threads.c. queues [ROUNDS]
 */
#define _GNU_SOURCE
#include <errno.h>
#include <inttypes.h>
#include <pthread.h>
#include <stdbool.h>
#include <stdio.h>
#include <stdlib.h>
#include <sys/eventfd.h>
#include <time.h>
#include <unistd.h>

#include <tags.h>

#include "checks.h"
#include "sleeps.h"

static long rounds = 300;
static struct tags_pool pool;
static struct tags_hand hand, other, third;

/* Opens a pool with a hand for each of the three handles, one of whose tags is reserved. */
static void open_for_three(uint32_t total, uint32_t queues, uint32_t flags, uint32_t cache)
{
	const struct tags_options options = {
		.total = total, .reserved = 1, .hands = 3, .flags = flags, .cache = cache, .queues = queues,
	};

	CHECK(tags_open(&pool, &options) == TAGS_OK);
	CHECK(tags_join(&pool, &hand, TAGS_STAY) == TAGS_OK);
	CHECK(tags_join(&pool, &other, TAGS_STAY) == TAGS_OK);
	CHECK(tags_join(&pool, &third, TAGS_STAY) == TAGS_OK);
}

static void leave_all_three(void)
{
	CHECK(tags_pool_waiting(&pool) == 0);
	CHECK(tags_leave(&hand) == TAGS_OK && tags_leave(&other) == TAGS_OK && tags_leave(&third) == TAGS_OK);
}

static void close_for_three(void)
{
	struct tags_sums sums = { 0 };

	leave_all_three();
	CHECK(tags_close(&pool, &sums) == TAGS_OK);
	CHECK(sums.got == sums.back && sums.held == 0 && sums.posted == 0);
}

static uint64_t told(int event)
{
	uint64_t count = 0;

	return read(event, &count, sizeof(count)) == sizeof(count) ? count : 0;
}

static void count_call(void *calls)
{
	*(int *)calls += 1;
}

/* Gets a tag of the set with this number in it, writes that to its slot, and submits the tag. */
static void submit(struct tags_hand *by, uint32_t tag, uint32_t queue, uint64_t value)
{
	CHECK(tags_get_exactly(by, tag) == (int32_t)tag);
	CHECK(tags_write(by, tag, value, NULL) == TAGS_OK);
	CHECK(tags_submit_to(by, tag, queue) == TAGS_OK && tags_holds(by, tag) == 0);
}

/* The next tag of a queue is this one, with this value. It goes back. */
static void expect(struct tags_hand *by, uint32_t tag, uint32_t queue, uint64_t value)
{
	uint64_t found = 0;

	CHECK(tags_next(by, queue) == (int32_t)tag && tags_holds(by, tag) == 1);
	CHECK(tags_read(by, tag, &found) == TAGS_OK && found == value);
	CHECK(tags_clear(by, tag) == TAGS_OK);
}

/*
 * Order
 */

/* So many tags at once are in the queue, from 1 to all of them, over many laps of its list. */
static void keep_order(uint32_t total)
{
	uint64_t value = 0, out = 0;

	open_for_three(total, 1, 0, 0);
	for (uint32_t many = 1; many <= total; many++)
		for (int lap = 0; lap < 5; lap++) {
			for (uint32_t i = 0; i < many; i++)
				submit(i % 2 ? &other : &hand, (many + total - i) % total, 0, value++);
			CHECK(tags_pool_queued(&pool, 0) == (int32_t)many && tags_pool_busy(&pool, &(uint64_t){ 0 }, 1) == (int32_t)many);
			for (uint32_t i = 0; i < many; i++)
				expect(i % 3 ? &third : &hand, (many + total - i) % total, 0, out++);
			CHECK(tags_next(&hand, 0) == TAGS_NO_TAG && tags_pool_queued(&pool, 0) == 0);
		}
	close_for_three();
}

/* A tag may go from queue to queue, and each queue has an order of its own. */
static void keep_apart(void)
{
	open_for_three(8, 3, 0, 0);
	for (uint32_t tag = 0; tag < 8; tag++)
		submit(&hand, 7 - tag, tag % 3, tag);
	for (uint32_t queue = 0; queue < 3; queue++)
		CHECK(tags_pool_queued(&pool, queue) == (queue < 2 ? 3 : 2));
	for (uint32_t tag = 2; tag < 8; tag += 3)
		expect(&other, 7 - tag, 2, tag);
	CHECK(tags_next(&other, 2) == TAGS_NO_TAG);
	CHECK(tags_next(&hand, 0) == 7 && tags_submit_to(&hand, 7, 1) == TAGS_OK);
	for (uint32_t tag = 1; tag < 8; tag += 3)
		expect(&other, 7 - tag, 1, tag);
	expect(&hand, 7, 1, 0);
	expect(&third, 4, 0, 3);
	/* the call for queue 0 */
	CHECK(tags_get_exactly(&third, 4) == 4 && tags_submit(&third, 4) == TAGS_OK);
	CHECK(tags_next(&other, 0) == 1 && tags_next(&other, 0) == 4 && tags_next(&other, 0) == TAGS_NO_TAG);
	CHECK(tags_clear(&other, 1) == TAGS_OK && tags_clear(&other, 4) == TAGS_OK);
	close_for_three();
}

static void open_many(void)
{
	const struct tags_options many = { .total = 3, .hands = TAGS_MAX_HANDS, .queues = TAGS_MAX_QUEUES };
	const struct tags_options largest = { .total = TAGS_MAX_TOTAL, .hands = 1, .queues = 1 };
	const struct tags_options none = { .hands = 1, .queues = 1 };
	struct tags_sums sums;

	CHECK(tags_open(&pool, &many) == TAGS_OK && tags_join(&pool, &hand, 0) == TAGS_OK);
	for (uint32_t queue = 0; queue < TAGS_MAX_QUEUES; queue++) {
		submit(&hand, 1, queue, queue);
		CHECK(tags_pool_queued(&pool, queue) == 1);
		expect(&hand, 1, queue, queue);
	}
	CHECK(tags_leave(&hand) == TAGS_OK && tags_close(&pool, &sums) == TAGS_OK);
	CHECK(tags_open(&pool, &largest) == TAGS_OK && tags_join(&pool, &hand, 0) == TAGS_OK);
	for (uint32_t tag = 0; tag < TAGS_MAX_TOTAL; tag++)
		submit(&hand, tag, 0, tag);
	CHECK(tags_pool_queued(&pool, 0) == TAGS_MAX_TOTAL);
	for (uint32_t tag = 0; tag < TAGS_MAX_TOTAL; tag++)
		expect(&hand, tag, 0, tag);
	CHECK(tags_leave(&hand) == TAGS_OK && tags_close(&pool, &sums) == TAGS_OK);
	CHECK(tags_open(&pool, &none) == TAGS_OK && tags_join(&pool, &hand, 0) == TAGS_OK);
	CHECK(tags_next(&hand, 0) == TAGS_NO_TAG && tags_pool_queued(&pool, 0) == 0);
	CHECK(tags_next_blocking(&hand, 0) == TAGS_NO_SUCH_TAG);
	CHECK(tags_next_notified(&hand, 0, count_call, NULL) == TAGS_NO_SUCH_TAG);
	CHECK(tags_cancel_next(&hand, 0) == TAGS_NOT_WAITING);
	CHECK(tags_leave(&hand) == TAGS_OK && tags_close(&pool, &sums) == TAGS_OK);
}

/*
 * Other ways to pass a tag
 */

/* A queued tag is for nobody but who takes it out of the queue, and stays as it is. */
static void take_no_queued(void)
{
	open_for_three(8, 2, 0, 0);
	submit(&hand, 0, 0, 10);
	submit(&hand, 1, 0, 11);
	submit(&hand, 2, 1, 12);
	CHECK(tags_take(&hand, 0) == TAGS_NOT_POSTED && tags_take(&other, 1) == TAGS_NOT_POSTED);
	CHECK(tags_take(&other, 2) == TAGS_NOT_POSTED && tags_take(&other, 8) == TAGS_NO_SUCH_TAG);
	CHECK(tags_take_mask(&other, 0, 1) == TAGS_NOT_POSTED && tags_take_mask(&other, 0, 6) == TAGS_NOT_POSTED);
	for (uint32_t tag = 0; tag < 3; tag++)
		CHECK(tags_holds(&other, tag) == 0 && tags_holds(&hand, tag) == 0);
	expect(&third, 0, 0, 10);
	expect(&other, 1, 0, 11);
	expect(&hand, 2, 1, 12);
	close_for_three();
}

/* What is posted is in no queue, also if it was, and a mask with a queued tag takes none. */
static void take_posted(void)
{
	open_for_three(8, 2, 0, 0);
	CHECK(tags_get_exactly(&hand, 3) == 3 && tags_post(&hand, 3) == TAGS_OK);
	CHECK(tags_next(&other, 0) == TAGS_NO_TAG && tags_next(&other, 1) == TAGS_NO_TAG);
	CHECK(tags_take(&other, 3) == TAGS_OK && tags_submit_to(&other, 3, 1) == TAGS_OK);
	CHECK(tags_next(&third, 1) == 3 && tags_post(&third, 3) == TAGS_OK && tags_next(&hand, 1) == TAGS_NO_TAG);
	submit(&hand, 4, 0, 4);
	CHECK(tags_take_mask(&other, 3, 3) == TAGS_NOT_POSTED && tags_take_mask(&other, 3, 1) == TAGS_OK);
	CHECK(tags_post_mask(&other, 3, 1) == TAGS_OK && tags_take(&hand, 3) == TAGS_OK);
	expect(&third, 4, 0, 4);
	CHECK(tags_submit(&hand, 4) == TAGS_NOT_HELD && tags_submit_to(&hand, 3, 0) == TAGS_OK);
	CHECK(tags_next(&hand, 0) == 3 && tags_clear(&hand, 3) == TAGS_OK);
	close_for_three();
}

/*
 * Who is told, and what ends a wait
 */

static void tell_by_turn(int event)
{
	int calls = 0;

	open_for_three(8, 2, 0, 0);
	CHECK(tags_next_async(&other, 0, event) == TAGS_NO_TAG && tags_next_async(&other, 0, event) == TAGS_NO_TAG);
	CHECK(tags_next_notified(&third, 0, count_call, &calls) == TAGS_NO_TAG && tags_waiting(&hand) == 2);
	/* neither a free tag, a posted one nor another queue */
	submit(&hand, 1, 1, 1);
	expect(&hand, 1, 1, 1);
	CHECK(tags_get_exactly(&hand, 1) == 1 && tags_post(&hand, 1) == TAGS_OK && tags_take(&hand, 1) == TAGS_OK);
	CHECK(told(event) == 0 && calls == 0);
	CHECK(tags_submit(&hand, 1) == TAGS_OK && told(event) == 1 && calls == 0);
	submit(&hand, 2, 0, 2);
	CHECK(told(event) == 0 && calls == 1);
	submit(&hand, 3, 0, 3);
	CHECK(told(event) == 0 && calls == 1);
	CHECK(tags_next_async(&other, 0, event) == 1 && tags_next_notified(&third, 0, count_call, &calls) == 2);
	CHECK(tags_waiting(&hand) == 0 && tags_next(&hand, 0) == 3);
	for (uint32_t tag = 1; tag < 4; tag++)
		CHECK(tags_clear(tag == 1 ? &other : tag == 2 ? &third : &hand, tag) == TAGS_OK);
	close_for_three();
}

/* Who is told and gives up, or can't be notified, passes the tag on. */
static void pass_on(int event)
{
	int calls = 0;

	open_for_three(8, 2, 0, 0);
	CHECK(tags_next_async(&other, 0, event) == TAGS_NO_TAG);
	CHECK(tags_next_notified(&third, 0, count_call, &calls) == TAGS_NO_TAG);
	submit(&hand, 1, 0, 1);
	CHECK(told(event) == 1 && calls == 0 && tags_cancel_next(&other, 1) == TAGS_NOT_WAITING);
	CHECK(tags_cancel(&other) == TAGS_NOT_WAITING);
	CHECK(tags_cancel_next(&other, 0) == TAGS_OK && calls == 1);
	CHECK(tags_cancel_next(&other, 0) == TAGS_NOT_WAITING);
	CHECK(tags_next_async(&other, 0, event) == 1 && tags_next_async(&other, 0, event) == TAGS_NO_TAG);
	/* it keeps its turn, before the other one */
	CHECK(tags_next_notified(&third, 0, count_call, &calls) == TAGS_NO_TAG);
	CHECK(tags_submit(&other, 1) == TAGS_OK && told(event) == 0 && calls == 2);
	CHECK(tags_leave(&third) == TAGS_OK && told(event) == 1 && tags_join(&pool, &third, TAGS_STAY) == TAGS_OK);
	CHECK(tags_cancel_next(&third, 0) == TAGS_NOT_WAITING && tags_next_async(&other, 0, event) == 1);
	event = dup(event);
	CHECK(tags_next_async(&other, 0, event) == TAGS_NO_TAG);
	CHECK(tags_next_notified(&hand, 0, count_call, &calls) == TAGS_NO_TAG && close(event) == 0);
	CHECK(tags_submit(&other, 1) == TAGS_OK && calls == 3);
	CHECK(tags_next_notified(&hand, 0, count_call, &calls) == 1 && tags_clear(&hand, 1) == TAGS_OK);
	CHECK(tags_cancel_next(&other, 0) == TAGS_OK);
	close_for_three();
}

/* A hand waits for a free tag, for a reserved one or not, and in two queues, all at once. */
static void wait_for_all(int event)
{
	int first = 0, second = 0;
	uint64_t one;

	open_for_three(2, 2, 0, 0);
	CHECK(tags_get(&hand) == 1 && tags_get_reserved(&hand) == 0);
	CHECK(tags_get_async(&other, event) == TAGS_NO_TAG);
	CHECK(tags_next_notified(&other, 0, count_call, &first) == TAGS_NO_TAG);
	CHECK(tags_next_notified(&other, 1, count_call, &second) == TAGS_NO_TAG && tags_pool_waiting(&pool) == 3);
	CHECK(tags_next_blocking(&other, 0) == TAGS_WAITING && tags_next_async(&other, 1, -1) == TAGS_BAD_EVENT);
	CHECK(tags_pool_waiting(&pool) == 3 && tags_submit_to(&hand, 0, 1) == TAGS_OK);
	CHECK(told(event) == 0 && first == 0 && second == 1);
	CHECK(tags_clear(&hand, 1) == TAGS_OK && told(event) == 1 && first == 0 && second == 1);
	/* what is queued needs no wait, and ends none but by the call that began it */
	CHECK(tags_next_blocking(&other, 1) == 0 && tags_waiting(&hand) == 3);
	CHECK(tags_cancel_next(&other, 1) == TAGS_OK && tags_waiting(&hand) == 2);
	CHECK(tags_get_async(&other, event) == 1 && tags_submit(&other, 1) == TAGS_OK && first == 1);
	CHECK(tags_next_notified(&other, 0, count_call, &first) == 1 && tags_waiting(&hand) == 0);
	CHECK(tags_read_clear(&other, 0, &one) == TAGS_OK && tags_clear(&other, 1) == TAGS_OK);
	close_for_three();
}

static void end_by_deadline(void)
{
	const clockid_t clocks[] = { CLOCK_MONOTONIC, CLOCK_REALTIME };
	struct timespec end = { 0, 1000000000 };

	open_for_three(4, 1, 0, 0);
	CHECK(tags_next_timed(&hand, 0, CLOCK_MONOTONIC, &end) == TAGS_BAD_TIME);
	CHECK(tags_next_timed(&hand, 7, CLOCK_PROCESS_CPUTIME_ID, &end) == TAGS_BAD_TIME);
	for (int i = 0; i < 2; i++) {
		end = after(clocks[i], 20);
		CHECK(tags_next_timed(&hand, 0, clocks[i], &end) == TAGS_TIMED_OUT);
		CHECK(tags_waiting(&other) == 0 && tags_cancel_next(&hand, 0) == TAGS_NOT_WAITING);
		CHECK(tags_next_timed(&hand, 0, clocks[i], &end) == TAGS_TIMED_OUT);
		submit(&other, 1, 0, 1);
		CHECK(tags_next_timed(&hand, 0, clocks[i], &end) == 1 && tags_clear(&hand, 1) == TAGS_OK);
	}
	close_for_three();
}

/*
 * Threads that sleep
 */

static void *sleep_in(void *it)
{
	return (void *)(intptr_t)tags_next_blocking(it, 1);
}

/* Returns once it sleeps as one of so many threads. */
static pthread_t start(struct tags_hand *sleeper, uint32_t sleepers)
{
	pthread_t id;

	CHECK(pthread_create(&id, NULL, sleep_in, sleeper) == 0);
	await_asleep(sleepers);
	CHECK(tags_pool_waiting(&pool) == (int32_t)sleepers);
	return id;
}

static int32_t answer_of(pthread_t id)
{
	void *answer = NULL;

	CHECK(pthread_join(id, &answer) == 0);
	return answer == PTHREAD_CANCELED ? -1000 : (int32_t)(intptr_t)answer;
}

static void wake_sleepers(void)
{
	pthread_t first, second;

	open_for_three(4, 2, 0, 0);
	first = start(&other, 1);
	submit(&hand, 1, 0, 1);
	CHECK(tags_pool_waiting(&pool) == 1);
	submit(&hand, 2, 1, 2);
	CHECK(answer_of(first) == 2 && tags_holds(&other, 2) == 1 && tags_pool_waiting(&pool) == 0);
	first = start(&other, 1);
	second = start(&third, 2);
	/* both wait, and the one that began first gets up first */
	CHECK(tags_next(&hand, 0) == 1 && tags_submit_to(&hand, 1, 1) == TAGS_OK);
	CHECK(answer_of(first) == 1 && tags_pool_waiting(&pool) == 1);
	CHECK(tags_submit_to(&other, 1, 1) == TAGS_OK && answer_of(second) == 1);
	CHECK(tags_clear(&third, 1) == TAGS_OK && tags_clear(&other, 2) == TAGS_OK);
	close_for_three();
}

/* A thread that is cancelled leaves a hand that waits no more, and the tag to another. */
static void cancel_sleepers(void)
{
	pthread_t id;

	open_for_three(4, 2, 0, 0);
	for (int i = 0; i < 3; i++) {
		id = start(&other, 1);
		CHECK(pthread_cancel(id) == 0 && answer_of(id) == -1000);
		CHECK(tags_pool_waiting(&pool) == 0 && tags_cancel_next(&other, 1) == TAGS_NOT_WAITING);
	}
	submit(&other, 1, 1, 1);
	expect(&other, 1, 1, 1);
	id = start(&other, 1);
	CHECK(pthread_cancel(id) == 0 && answer_of(id) == -1000 && tags_leave(&other) == TAGS_OK);
	CHECK(tags_join(&pool, &other, 0) == TAGS_OK);
	id = start(&other, 1);
	submit(&hand, 1, 1, 5);
	CHECK(answer_of(id) == 1 && tags_clear(&other, 1) == TAGS_OK);
	close_for_three();
}

/*
 * Stops, drains and resizes
 */

/* What is queued is taken also while the pool is stopped, by each call. */
static void take_while_stopped(int event, int *calls)
{
	const struct timespec past = { 0, 0 };

	for (uint32_t tag = 0; tag < 6; tag++)
		submit(&hand, tag, 0, tag);
	CHECK(tags_next(&hand, 0) == 0 && tags_next_blocking(&hand, 0) == 1);
	CHECK(tags_next_timed(&hand, 0, CLOCK_MONOTONIC, &past) == 2 && tags_next_async(&hand, 0, event) == 3);
	CHECK(tags_next_notified(&hand, 0, count_call, calls) == 4);
	CHECK(tags_next_notified(&other, 0, count_call, calls) == 5);
	CHECK(tags_next(&hand, 0) == TAGS_NO_TAG && tags_next_blocking(&hand, 0) == TAGS_STOPPED);
	CHECK(tags_next_timed(&hand, 0, CLOCK_MONOTONIC, &past) == TAGS_STOPPED);
	CHECK(tags_next_async(&hand, 0, event) == TAGS_STOPPED && tags_cancel_next(&hand, 0) == TAGS_NOT_WAITING);
	CHECK(tags_next_notified(&hand, 0, count_call, calls) == TAGS_STOPPED && *calls == 0);
	for (uint32_t tag = 0; tag < 6; tag++)
		CHECK(tags_clear(tag < 5 ? &hand : &other, tag) == TAGS_OK);
}

static void stop_and_resume(int event)
{
	int calls = 0;
	pthread_t id;

	open_for_three(6, 2, 0, 0);
	id = start(&other, 1);
	CHECK(tags_next_async(&third, 0, event) == TAGS_NO_TAG && tags_next_async(&third, 1, event) == TAGS_NO_TAG);
	CHECK(tags_stop(&pool) == TAGS_OK && tags_stop(&pool) == TAGS_OK && answer_of(id) == TAGS_STOPPED);
	CHECK(told(event) == 2 && tags_pool_waiting(&pool) == 2);
	take_while_stopped(event, &calls);
	CHECK(tags_resume(&pool) == TAGS_OK);
	/* a wait from before the stop ends: by a tag if there is one */
	CHECK(tags_next_async(&third, 0, event) == TAGS_STOPPED && tags_next_async(&third, 0, event) == TAGS_NO_TAG);
	submit(&hand, 1, 1, 1);
	CHECK(tags_next_async(&third, 1, event) == 1 && tags_next_async(&third, 1, event) == TAGS_NO_TAG);
	CHECK(tags_cancel_next(&third, 1) == TAGS_OK && tags_clear(&third, 1) == TAGS_OK);
	submit(&hand, 2, 0, 2);
	CHECK(told(event) == 1 && tags_stop(&pool) == TAGS_OK && tags_next_async(&third, 0, event) == 2);
	CHECK(tags_resume(&pool) == TAGS_OK && tags_clear(&third, 2) == TAGS_OK);
	id = start(&other, 1);
	submit(&hand, 3, 1, 3);
	CHECK(answer_of(id) == 3 && tags_clear(&other, 3) == TAGS_OK);
	close_for_three();
}

/* A thread that sleeps has a tag that was submitted just before the stop. */
static void stop_after_submit(void)
{
	open_for_three(6, 2, 0, 0);
	for (long i = 0; i < rounds; i++) {
		pthread_t id;

		CHECK(pthread_create(&id, NULL, sleep_in, &other) == 0);
		if (i % 2)
			while (tags_pool_waiting(&pool) != 1)
				nap(10);
		submit(&hand, 1, 1, 1);
		CHECK(tags_stop(&pool) == TAGS_OK && answer_of(id) == 1 && tags_clear(&other, 1) == TAGS_OK);
		CHECK(tags_resume(&pool) == TAGS_OK);
	}
	close_for_three();
}

static void *drain(void *unused)
{
	(void)unused;
	return (void *)(intptr_t)tags_drain(&pool);
}

static void drain_beside(void)
{
	const uint32_t two = 2;
	struct timespec end;
	pthread_t id;

	open_for_three(6, 1, 0, 0);
	submit(&hand, 1, 0, 1);
	submit(&hand, 2, 0, 2);
	end = after(CLOCK_MONOTONIC, 20);
	CHECK(tags_drain_timed(&pool, CLOCK_MONOTONIC, &end) == TAGS_TIMED_OUT);
	CHECK(tags_drain_list_timed(&pool, &two, 1, CLOCK_MONOTONIC, &end) == TAGS_TIMED_OUT);
	CHECK(pthread_create(&id, NULL, drain, NULL) == 0);
	while (tags_pool_waiting(&pool) != 1)
		nap(10);
	expect(&other, 1, 0, 1);
	CHECK(tags_next_blocking(&third, 0) == 2 && tags_pool_waiting(&pool) == 1);
	CHECK(tags_clear(&third, 2) == TAGS_OK && answer_of(id) == TAGS_OK);
	CHECK(tags_drain_list(&pool, &two, 1) == TAGS_OK);
	close_for_three();
}

static void join_three(void)
{
	CHECK(tags_join(&pool, &hand, 0) == TAGS_OK && tags_join(&pool, &other, 0) == TAGS_OK);
	CHECK(tags_join(&pool, &third, 0) == TAGS_OK);
}

/* Queues are made anew for another number of tags. A stop stays. */
static void resize(void)
{
	open_for_three(6, 2, TAGS_NOTES, 0);
	submit(&hand, 1, 1, 1);
	submit(&hand, 2, 0, 2);
	leave_all_three();
	CHECK(tags_resize(&pool, 40) == TAGS_IN_USE && tags_pool_queued(&pool, 1) == 1);
	join_three();
	expect(&third, 1, 1, 1);
	expect(&third, 2, 0, 2);
	CHECK(tags_resize(&pool, 40) == TAGS_HANDS_OUT && tags_stop(&pool) == TAGS_OK);
	submit(&third, 3, 1, 3);
	expect(&other, 3, 1, 3);
	leave_all_three();
	CHECK(tags_resize(&pool, TAGS_MAX_TOTAL + 1) == TAGS_TOTAL_TOO_LARGE);
	CHECK(tags_resize(&pool, 0) == TAGS_RESERVED_TOO_LARGE);
	CHECK(tags_resize(&pool, 40) == TAGS_OK && tags_pool_queued(&pool, 0) == 0);
	join_three();
	CHECK(tags_next_blocking(&hand, 1) == TAGS_STOPPED && tags_resume(&pool) == TAGS_OK);
	for (uint32_t tag = 0; tag < 40; tag++)
		submit(&hand, 39 - tag, tag % 2, tag);
	CHECK(tags_take(&other, 39) == TAGS_NOT_POSTED && tags_pool_queued(&pool, 1) == 20);
	for (uint32_t tag = 0; tag < 40; tag++)
		expect(&other, 39 - tag, tag % 2, tag);
	CHECK(tags_next_async(&other, 0, 0) == TAGS_NO_TAG && tags_cancel_next(&other, 0) == TAGS_OK);
	leave_all_three();
	CHECK(tags_resize(&pool, 2) == TAGS_OK);
	join_three();
	submit(&hand, 1, 0, 1);
	CHECK(tags_submit(&hand, 2) == TAGS_NO_SUCH_TAG && tags_take(&hand, 2) == TAGS_NO_SUCH_TAG);
	expect(&other, 1, 0, 1);
	close_for_three();
}

static void close_with_queued(void)
{
	struct tags_sums sums = { 0 };

	open_for_three(6, 2, TAGS_NOTES, 4);
	for (uint32_t tag = 0; tag < 5; tag++)
		submit(&hand, tag, tag % 2, tag);
	CHECK(tags_next(&other, 0) == 0 && tags_next(&other, 1) == 1);
	leave_all_three();
	CHECK(tags_close(&pool, &sums) == TAGS_OK && sums.got == 5 && sums.held == 2 && sums.posted == 3);
	CHECK(tags_pool_queued(&pool, 0) == TAGS_BAD_HANDLE);
}

/*
 * Notes, caches, and hands that leave
 */

static int note_of(uint32_t tag, const struct tags_noted *note, void *values)
{
	((uint64_t *)values)[tag] = note ? note->value : 0;
	return 0;
}

static void keep_notes(void)
{
	uint64_t values[4] = { 0 };

	open_for_three(4, 1, TAGS_NOTES, 0);
	CHECK(tags_get_exactly(&hand, 1) == 1 && tags_note(&hand, 1, 7) == TAGS_OK && tags_submit(&hand, 1) == TAGS_OK);
	CHECK(tags_pool_each_noted(&pool, note_of, values) == 1 && values[1] == 7);
	CHECK(tags_take(&other, 1) == TAGS_NOT_POSTED && tags_next(&third, 0) == 1);
	values[1] = 0;
	CHECK(tags_pool_each_noted(&pool, note_of, values) == 1 && values[1] == 7);
	CHECK(tags_clear(&third, 1) == TAGS_OK && tags_get_exactly(&third, 1) == 1);
	CHECK(tags_pool_each_noted(&pool, note_of, values) == 1 && values[1] == 0);
	CHECK(tags_clear(&third, 1) == TAGS_OK);
	close_for_three();
}

/* A hand that is to wait gives back what it keeps, and one that posts its last tag as its pool asks. */
static void give_kept_back(int event)
{
	const struct timespec past = { 0, 0 };

	for (uint32_t by_sleep = 0; by_sleep < 2; by_sleep++) {
		open_for_three(2, 1, 0, 4);
		CHECK(tags_get(&hand) == 1 && tags_clear(&hand, 1) == TAGS_OK);
		CHECK(tags_submit(&hand, 1) == TAGS_NOT_HELD);
		CHECK(tags_get(&other) == TAGS_NO_TAG && tags_next(&hand, 0) == TAGS_NO_TAG && tags_get(&other) == TAGS_NO_TAG);
		if (by_sleep)
			CHECK(tags_next_timed(&hand, 0, CLOCK_MONOTONIC, &past) == TAGS_TIMED_OUT);
		else
			CHECK(tags_next_async(&hand, 0, event) == TAGS_NO_TAG && tags_cancel_next(&hand, 0) == TAGS_OK);
		CHECK(tags_get(&other) == 1 && tags_clear(&other, 1) == TAGS_OK);
		close_for_three();
	}
	open_for_three(3, 1, TAGS_KEEP_WHILE_HOLDING, 4);
	CHECK(tags_get(&hand) == 1 && tags_get(&hand) == 2 && tags_clear(&hand, 2) == TAGS_OK);
	CHECK(tags_get(&other) == TAGS_NO_TAG && tags_get_async(&other, event) == TAGS_NO_TAG && told(event) == 0);
	CHECK(tags_submit(&hand, 1) == TAGS_OK && told(event) == 1 && tags_get_async(&other, event) == 2);
	CHECK(tags_next(&third, 0) == 1 && tags_clear(&third, 1) == TAGS_OK && tags_clear(&other, 2) == TAGS_OK);
	close_for_three();
}

static void leave_and_join(void)
{
	open_for_three(4, 2, 0, 0);
	for (long i = 0; i < rounds; i++) {
		submit(&hand, 1, 0, (uint64_t)i);
		submit(&other, 2, 1, (uint64_t)i + 7);
		leave_all_three();
		join_three();
		CHECK(tags_next_async(&third, 0, 0) == 1 && tags_submit(&third, 1) == TAGS_OK);
		expect(&other, 2, 1, (uint64_t)i + 7);
		CHECK(tags_next_async(&third, 1, 0) == TAGS_NO_TAG);
		CHECK(tags_leave(&third) == TAGS_OK && tags_pool_waiting(&pool) == 0);
		CHECK(tags_join(&pool, &third, 0) == TAGS_OK && tags_cancel_next(&third, 1) == TAGS_NOT_WAITING);
		expect(&third, 1, 0, (uint64_t)i);
	}
	close_for_three();
}

/* Hands that threads share have no queues. */
static void share_none(void)
{
	struct tags_hands hands = TAGS_EMPTY;

	open_for_three(4, 1, 0, 0);
	CHECK(tags_hands_open(&pool, &hands, 1) == TAGS_BAD_QUEUE_COUNT && hands.full == 0);
	CHECK(tags_hands_open(&pool, &hands, TAGS_MAX_HANDS + 1) == TAGS_BAD_HAND_COUNT);
	close_for_three();
	CHECK(tags_hands_open(&pool, &hands, 1) == TAGS_BAD_HANDLE);
}

static void keep_errno(int event)
{
	const struct timespec end = after(CLOCK_MONOTONIC, 5);
	int calls = 0;

	open_for_three(4, 1, 0, 4);
	errno = EDOM;
	CHECK(tags_get_exactly(&hand, 1) == 1 && tags_submit(&hand, 1) == TAGS_OK && tags_next(&hand, 0) == 1);
	CHECK(tags_next_timed(&hand, 0, CLOCK_MONOTONIC, &end) == TAGS_TIMED_OUT);
	CHECK(tags_next_async(&other, 0, event) == TAGS_NO_TAG && tags_submit(&hand, 1) == TAGS_OK);
	CHECK(tags_next_notified(&other, 0, count_call, &calls) == 1 && tags_pool_queued(&pool, 0) == 0);
	CHECK(tags_next_notified(&other, 0, count_call, &calls) == TAGS_NO_TAG && tags_cancel_next(&other, 0) == TAGS_OK);
	CHECK(tags_clear(&other, 1) == TAGS_OK && errno == EDOM);
	CHECK(told(event) == 1);
	close_for_three();
}

int main(int argc, char **argv)
{
	const int event = eventfd(0, EFD_NONBLOCK);

	if (argc > 1)
		rounds = strtol(argv[1], NULL, 10);
	for (uint32_t total = 2; total < 18; total++)
		keep_order(total);
	keep_apart();
	open_many();
	take_no_queued();
	take_posted();
	tell_by_turn(event);
	pass_on(event);
	wait_for_all(event);
	end_by_deadline();
	wake_sleepers();
	cancel_sleepers();
	stop_and_resume(event);
	stop_after_submit();
	drain_beside();
	resize();
	close_with_queued();
	keep_notes();
	give_kept_back(event);
	leave_and_join();
	share_none();
	keep_errno(event);
	printf("%" PRIu64 " wrong\n", wrong);
	return wrong != 0;
}
