/*
 * Waits in an event loop and by a function: what each call returns; a loop with
 * four hands, and threads that sleep by semaphores of their own, beside threads
 * that sleep in the library, on few tags. A tag that is given back and of which
 * nobody is told would stop the run. events [ROUNDS]
 */
#define _GNU_SOURCE
#include <errno.h>
#include <inttypes.h>
#include <poll.h>
#include <pthread.h>
#include <sched.h>
#include <semaphore.h>
#include <stdbool.h>
#include <stdio.h>
#include <stdlib.h>
#include <sys/eventfd.h>
#include <time.h>
#include <unistd.h>

#include "../tags.h"

#include "checks.h"

enum { HANDS = 4, THREADS = 4 };

struct thread {
	pthread_t id;
	struct tags_hand hand;
};

static long rounds = 2000;

/* What was added to the eventfd since it was read last. */
static uint64_t told(int event)
{
	uint64_t count = 0;

	return read(event, &count, sizeof(count)) == sizeof(count) ? count : 0;
}

static void open_pool(struct tags_pool *pool, uint32_t total, uint32_t hands)
{
	struct tags_options options = {
		.total = total,
		.hands = hands,
	};

	CHECK(tags_open(pool, &options) == TAGS_OK);
}

static void close_pool(struct tags_pool *pool)
{
	struct tags_sums sums = { 0 };

	CHECK(tags_close(pool, &sums) == TAGS_OK);
	CHECK(sums.got == sums.back && sums.held == 0);
}

static void take_turns(int event)
{
	struct tags_pool pool = TAGS_EMPTY;
	struct tags_hand hand = TAGS_EMPTY;
	struct tags_hand other = TAGS_EMPTY;

	open_pool(&pool, 2, 2);
	CHECK(tags_join(&pool, &hand, TAGS_STAY) == TAGS_OK);
	CHECK(tags_join(&pool, &other, TAGS_STAY) == TAGS_OK);
	CHECK(tags_get_async(&hand, -1) == TAGS_BAD_EVENT);
	CHECK(tags_get_async(&hand, event) == 0 && tags_get_async(&hand, event) == 1);
	CHECK(tags_get_async(&other, event) == TAGS_NO_TAG && told(event) == 0);
	CHECK(tags_get_async(&other, event) == TAGS_NO_TAG);
	CHECK(tags_get_blocking(&other) == TAGS_WAITING && tags_waiting(&hand) == 1);
	CHECK(tags_clear(&hand, 1) == TAGS_OK && told(event) == 1);
	CHECK(tags_pool_waiting(&pool) == 1);
	CHECK(tags_get_async(&other, event) == 1 && tags_pool_waiting(&pool) == 0);
	CHECK(tags_clear(&hand, 0) == 0 && told(event) == 0);
	CHECK(tags_get(&hand) == 0 && tags_get_async(&hand, event) == TAGS_NO_TAG);
	CHECK(tags_cancel(&hand) == TAGS_OK && tags_cancel(&hand) == TAGS_NOT_WAITING);
	CHECK(tags_clear(&other, 1) == 0 && told(event) == 0);
	CHECK(tags_clear(&hand, 0) == 0);
	CHECK(tags_leave(&hand) == TAGS_OK && tags_leave(&other) == TAGS_OK);
	close_pool(&pool);
}

/*
 * A function
 */

/* A hand that gives tags back, which the function may use: the hand that waits is in a call. */
static struct tags_hand giver = TAGS_EMPTY;
static int calls;

static void note_call(void *argument)
{
	*(int *)argument += 1;
	errno = 0;
}

/* Gives a tag back, which calls the function again if another hand waits for it: within that call. */
static void give_another(void *argument)
{
	CHECK(argument == NULL);
	if (calls++ == 0)
		CHECK(tags_clear(&giver, 1) == TAGS_OK);
}

static void take_turns_by_function(int event)
{
	struct tags_pool pool = TAGS_EMPTY;
	struct tags_hand hand = TAGS_EMPTY;
	struct tags_hand others[2] = { TAGS_EMPTY, TAGS_EMPTY };
	int first = 0;
	int second = 0;

	open_pool(&pool, 2, 4);
	CHECK(tags_join(&pool, &hand, TAGS_STAY) == TAGS_OK);
	CHECK(tags_join(&pool, &giver, TAGS_STAY) == TAGS_OK);
	for (int i = 0; i < 2; i++)
		CHECK(tags_join(&pool, &others[i], TAGS_STAY) == TAGS_OK);
	CHECK(tags_get_notified(&hand, note_call, &first) == 0 && tags_get(&giver) == 1);
	CHECK(tags_get_notified(&others[0], note_call, &first) == TAGS_NO_TAG);
	CHECK(tags_get_notified(&others[1], note_call, &second) == TAGS_NO_TAG);
	errno = 4711;
	/* the first one keeps its turn, and is called once */
	CHECK(tags_clear(&hand, 0) == TAGS_OK && first == 1 && second == 0 && errno == 4711);
	CHECK(tags_get(&hand) == 0);
	CHECK(tags_get_notified(&others[0], note_call, &second) == TAGS_NO_TAG);
	CHECK(tags_clear(&hand, 0) == TAGS_OK && first == 1 && second == 1);
	/* whoever was told and gives up passes the tag on */
	CHECK(tags_cancel(&others[0]) == TAGS_OK && second == 2);
	CHECK(tags_get_async(&others[1], event) == 0 && told(event) == 0);
	CHECK(tags_clear(&others[1], 0) == TAGS_OK && first == 1 && second == 2);
	/* a wait that goes on by an eventfd, and ends by a leave */
	CHECK(tags_get(&hand) == 0 && tags_get_notified(&others[0], note_call, &first) == TAGS_NO_TAG);
	CHECK(tags_get_async(&others[0], event) == TAGS_NO_TAG);
	CHECK(tags_get_notified(&others[1], note_call, &second) == TAGS_NO_TAG);
	CHECK(tags_leave(&others[1]) == TAGS_OK && tags_waiting(&hand) == 1);
	CHECK(tags_clear(&hand, 0) == TAGS_OK && told(event) == 1 && first == 1 && second == 2);
	CHECK(tags_get_async(&others[0], event) == 0);
	/* the function may give a tag back */
	CHECK(tags_join(&pool, &others[1], TAGS_STAY) == TAGS_OK);
	CHECK(tags_get_notified(&hand, give_another, NULL) == TAGS_NO_TAG);
	CHECK(tags_get_notified(&others[1], give_another, NULL) == TAGS_NO_TAG);
	CHECK(tags_clear(&others[0], 0) == TAGS_OK && calls == 2);
	CHECK(tags_get(&hand) == TAGS_OK || tags_cancel(&hand) == TAGS_OK);
	CHECK(tags_stop(&pool) == TAGS_OK && calls == 2);
	CHECK(tags_get_notified(&others[1], note_call, &first) == TAGS_STOPPED && first == 1);
	CHECK(tags_resume(&pool) == TAGS_OK);
	for (int i = 0; i < 2; i++) {
		struct tags_hand *it[] = { &hand, &others[1] };

		for (uint32_t tag = 0; tag < 2; tag++)
			if (tags_holds(it[i], tag) == 1)
				CHECK(tags_clear(it[i], tag) == TAGS_OK);
		tags_cancel(it[i]);
	}
	CHECK(tags_leave(&hand) == TAGS_OK && tags_leave(&giver) == TAGS_OK);
	CHECK(tags_leave(&others[0]) == TAGS_OK && tags_leave(&others[1]) == TAGS_OK);
	close_pool(&pool);
}

/* What a slow function is passed, on the heap of whoever waits, who reads the second one once the wait has ended. */
struct slow {
	int has_begun;
	int has_ended;
};

static void take_time(void *argument)
{
	struct slow *slow = argument;
	struct timespec time = { 0, 20000000 };

	__atomic_store_n(&slow->has_begun, 1, __ATOMIC_SEQ_CST);
	nanosleep(&time, NULL);
	slow->has_ended = 1;
}

static void *give_slowly(void *hand)
{
	CHECK(tags_clear(hand, 0) == TAGS_OK);
	return NULL;
}

/* While the function runs on another thread, the call that ends the wait does not return. */
static void end_beside_the_function(bool by_cancel)
{
	struct tags_pool pool = TAGS_EMPTY;
	struct tags_hand hand = TAGS_EMPTY;
	struct tags_hand other = TAGS_EMPTY;
	struct slow *slow = calloc(1, sizeof(*slow));
	pthread_t id;

	open_pool(&pool, 1, 2);
	CHECK(tags_join(&pool, &hand, 0) == TAGS_OK && tags_join(&pool, &other, 0) == TAGS_OK);
	CHECK(tags_get(&hand) == 0);
	CHECK(slow && tags_get_notified(&other, take_time, slow) == TAGS_NO_TAG);
	CHECK(pthread_create(&id, NULL, give_slowly, &hand) == 0);
	while (!__atomic_load_n(&slow->has_begun, __ATOMIC_SEQ_CST))
		sched_yield();
	if (by_cancel)
		CHECK(tags_cancel(&other) == TAGS_OK);
	else
		CHECK(tags_get_notified(&other, take_time, slow) == 0);
	CHECK(slow->has_ended);
	free(slow);
	pthread_join(id, NULL);
	if (!by_cancel)
		CHECK(tags_clear(&other, 0) == TAGS_OK);
	CHECK(tags_leave(&hand) == TAGS_OK && tags_leave(&other) == TAGS_OK);
	close_pool(&pool);
}

/* Sleeps by a semaphore on the stack until it has a tag. */
static void post(void *semaphore)
{
	sem_post(semaphore);
}

static int32_t get_by_semaphore(struct tags_hand *hand)
{
	sem_t semaphore;
	int32_t tag;

	sem_init(&semaphore, 0, 0);
	while ((tag = tags_get_notified(hand, post, &semaphore)) == TAGS_NO_TAG)
		while (sem_wait(&semaphore) != 0)
			;
	sem_destroy(&semaphore);
	return tag;
}

static void *sleep_by_semaphore(void *argument)
{
	struct thread *self = argument;

	for (long round = 0; round < rounds; round++) {
		int32_t tag = get_by_semaphore(&self->hand);

		check(tag >= 0, "tags_get_notified");
		sched_yield();
		check(tags_clear(&self->hand, (uint32_t)tag) == TAGS_OK, "tags_clear");
	}
	return NULL;
}

static void *sleep_and_give(void *argument)
{
	struct thread *self = argument;

	for (long round = 0; round < rounds; round++) {
		int32_t tag = tags_get_blocking(&self->hand);

		check(tag >= 0, "tags_get_blocking");
		sched_yield();
		check(tags_clear(&self->hand, (uint32_t)tag) >= 0, "tags_give");
	}
	return NULL;
}

/* Each hand gets a tag as often as a thread does, and gives it back when the next hand is looked at. */
static void serve(int event, struct tags_hand *hands)
{
	long left[HANDS];
	long in_all = HANDS * rounds;

	for (int i = 0; i < HANDS; i++)
		left[i] = rounds;
	while (in_all > 0) {
		struct pollfd look = { event, POLLIN, 0 };
		long before = in_all;

		for (int i = 0; i < HANDS; i++) {
			int32_t tag = left[i] > 0 ? tags_get_async(&hands[i], event) : (int32_t)TAGS_NO_TAG;

			if (tag == TAGS_NO_TAG)
				continue;
			check(tag >= 0 && tags_clear(&hands[i], (uint32_t)tag) >= 0, "get_async");
			left[i]--;
			in_all--;
		}
		if (in_all == before)
			check(poll(&look, 1, -1) == 1 && told(event) > 0, "poll");
	}
}

static void run_beside_threads(int event, uint32_t total)
{
	static struct thread threads[2 * THREADS];
	struct tags_hand hands[HANDS] = { TAGS_EMPTY, TAGS_EMPTY, TAGS_EMPTY, TAGS_EMPTY };
	struct tags_pool pool = TAGS_EMPTY;

	open_pool(&pool, total, 2 * THREADS + HANDS);
	for (int i = 0; i < 2 * THREADS; i++)
		CHECK(tags_join(&pool, &threads[i].hand, 0) == TAGS_OK);
	for (int i = 0; i < HANDS; i++)
		CHECK(tags_join(&pool, &hands[i], 0) == TAGS_OK);
	for (int i = 0; i < 2 * THREADS; i++)
		CHECK(pthread_create(&threads[i].id, NULL, i % 2 ? sleep_and_give : sleep_by_semaphore,
				     &threads[i]) == 0);
	serve(event, hands);
	for (int i = 0; i < 2 * THREADS; i++) {
		pthread_join(threads[i].id, NULL);
		CHECK(tags_leave(&threads[i].hand) == TAGS_OK);
	}
	for (int i = 0; i < HANDS; i++)
		CHECK(tags_leave(&hands[i]) == TAGS_OK);
	close_pool(&pool);
}

int main(int argc, char **argv)
{
	int event = eventfd(0, EFD_NONBLOCK);

	if (argc > 1)
		rounds = strtol(argv[1], NULL, 10);
	take_turns(event);
	take_turns_by_function(event);
	end_beside_the_function(true);
	end_beside_the_function(false);
	run_beside_threads(event, 1);
	run_beside_threads(event, 3);
	close(event);
	printf("%" PRIu64 " wrong\n", wrong);
	return wrong != 0;
}
