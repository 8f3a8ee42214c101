/*
 * Functions that notify hands, and make calls themselves: they do not nest, none waits for another, also where
 * they end each other's wait on two threads or three, and one that was put off is not called once its wait has
 * ended, its hand has left or its pool is closed. functions [ROUNDS]
 */
#include <inttypes.h>
#include <pthread.h>
#include <semaphore.h>
#include <stdbool.h>
#include <stdio.h>
#include <stdlib.h>

#include "../tags.h"

#include "checks.h"

enum { MOST = 3 };

/* A pool whose holders have all tags, so that as many hands wait; and one more. */
static struct tags_pool pool = TAGS_EMPTY;
static struct tags_hand holders[MOST], waiting[MOST], extra = TAGS_EMPTY;
static uint32_t count;

/* How often the function of each waiting hand was called, and whether the main thread runs one. */
static int calls[MOST];
static bool is_inside;

static void open_for(uint32_t hands, void (*function)(void *number))
{
	const struct tags_options options = { .total = hands, .hands = 2 * MOST + 1 };

	count = hands;
	CHECK(tags_open(&pool, &options) == TAGS_OK);
	CHECK(tags_join(&pool, &extra, 0) == TAGS_OK);
	for (uint32_t i = 0; i < count; i++) {
		CHECK(tags_join(&pool, &holders[i], 0) == TAGS_OK);
		CHECK(tags_get_exactly(&holders[i], i) == (int32_t)i);
	}
	for (uint32_t i = 0; i < MOST; i++) {
		calls[i] = 0;
		CHECK(tags_join(&pool, &waiting[i], 0) == TAGS_OK);
		if (function)
			CHECK(tags_get_notified(&waiting[i], function, &calls[i]) == TAGS_NO_TAG);
	}
}

static void close_pool(void)
{
	struct tags_sums sums = { 0, 0, 0, 0 };

	for (uint32_t i = 0; i < MOST; i++)
		if (waiting[i].full)
			CHECK(tags_leave(&waiting[i]) == TAGS_OK);
	for (uint32_t i = 0; i < count; i++)
		CHECK(tags_leave(&holders[i]) == TAGS_OK);
	CHECK(tags_leave(&extra) == TAGS_OK && tags_close(&pool, &sums) == TAGS_OK);
	CHECK(sums.got == sums.back && sums.held == 0);
}

/* The number of the hand whose function is passed this. */
static int number_of(const void *argument)
{
	return (int)((const int *)argument - calls);
}

static void begin(void *argument)
{
	*(int *)argument += 1;
	CHECK(!is_inside);
	is_inside = true;
}

static void end(void)
{
	is_inside = false;
}

/* Gets a tag with the extra hand, and gives it back, which tells another hand. */
static void give_inside(void)
{
	const int32_t tag = tags_get(&extra);

	CHECK(tag >= 0 && tags_clear(&extra, (uint32_t)tag) == TAGS_OK);
}

/*
 * On one thread
 */

/* The first one tells the second, which ends the wait of the first and tells the third, which ends its own wait. */
static void tell_the_next(void *argument)
{
	const int own = number_of(argument);

	begin(argument);
	if (own < 2) {
		give_inside();
		CHECK(((int *)argument)[1] == 0);
	}
	CHECK(tags_cancel(&waiting[own == 2 ? 2 : 0]) == (own == 1 ? TAGS_NOT_WAITING : TAGS_OK));
	end();
}

static void call_one_after_another(void)
{
	open_for(1, tell_the_next);
	CHECK(tags_clear(&holders[0], 0) == TAGS_OK);
	CHECK(calls[0] == 1 && calls[1] == 1 && calls[2] == 1);
	CHECK(tags_cancel(&waiting[1]) == TAGS_OK && tags_cancel(&waiting[2]) == TAGS_NOT_WAITING);
	CHECK(tags_pool_waiting(&pool) == 0);
	close_pool();
}

/* The function of the first hand puts that of the second off, whose wait it ends: by a cancel, or a leave. */
static void end_the_next(void *argument)
{
	begin(argument);
	CHECK(number_of(argument) == 0);
	give_inside();
	CHECK(tags_cancel(&waiting[1]) == TAGS_OK);
	give_inside();
	CHECK(tags_leave(&waiting[2]) == TAGS_OK && calls[1] == 0 && calls[2] == 0);
	CHECK(tags_cancel(&waiting[0]) == TAGS_OK);
	end();
}

static void call_nobody_who_has_gone(void)
{
	open_for(1, end_the_next);
	CHECK(tags_clear(&holders[0], 0) == TAGS_OK);
	CHECK(calls[0] == 1 && calls[1] == 0 && calls[2] == 0 && tags_pool_waiting(&pool) == 0);
	close_pool();
}

static void note_call(void *argument)
{
	begin(argument);
	end();
}

/* Puts the second hand off, ends its wait, takes the tag, and lets the hand wait anew, of which nobody tells it. */
static void renew_the_next(void *argument)
{
	begin(argument);
	give_inside();
	CHECK(tags_cancel(&waiting[1]) == TAGS_OK && tags_cancel(&waiting[2]) == TAGS_OK);
	CHECK(tags_get(&extra) == 0);
	CHECK(tags_get_notified(&waiting[1], note_call, &calls[1]) == TAGS_NO_TAG);
	CHECK(tags_cancel(&waiting[0]) == TAGS_OK);
	end();
}

static void call_who_waits_anew_when_told(void)
{
	open_for(1, renew_the_next);
	CHECK(tags_clear(&holders[0], 0) == TAGS_OK);
	CHECK(calls[0] == 1 && calls[1] == 0 && calls[2] == 0 && tags_pool_waiting(&pool) == 1);
	CHECK(tags_clear(&extra, 0) == TAGS_OK && calls[1] == 1);
	CHECK(tags_get_notified(&waiting[1], note_call, &calls[1]) == 0 && tags_clear(&waiting[1], 0) == TAGS_OK);
	close_pool();
}

/* Another pool, of which a hand is told and put off, leaves, and which is closed. */
static void close_another_pool(void *argument)
{
	const struct tags_options options = { .total = 1, .hands = 2 };
	struct tags_pool other = TAGS_EMPTY;
	struct tags_hand holder = TAGS_EMPTY, waiter = TAGS_EMPTY;
	struct tags_sums sums;

	begin(argument);
	CHECK(tags_open(&other, &options) == TAGS_OK && tags_join(&other, &holder, 0) == TAGS_OK);
	CHECK(tags_join(&other, &waiter, 0) == TAGS_OK && tags_get(&holder) == 0);
	CHECK(tags_get_notified(&waiter, note_call, &calls[1]) == TAGS_NO_TAG);
	CHECK(tags_clear(&holder, 0) == TAGS_OK && calls[1] == 0);
	CHECK(tags_leave(&waiter) == TAGS_OK && tags_leave(&holder) == TAGS_OK);
	CHECK(tags_close(&other, &sums) == TAGS_OK);
	end();
}

static void call_nobody_of_a_pool_that_is_closed(void)
{
	open_for(1, NULL);
	CHECK(tags_get_notified(&waiting[0], close_another_pool, &calls[0]) == TAGS_NO_TAG);
	CHECK(tags_clear(&holders[0], 0) == TAGS_OK && calls[0] == 1 && calls[1] == 0);
	CHECK(tags_cancel(&waiting[0]) == TAGS_OK);
	close_pool();
}

/*
 * On several threads
 */

static pthread_barrier_t all_inside;

/* While all of them run, each ends the wait of the next. */
static void cancel_the_next(void *argument)
{
	const int own = number_of(argument);

	pthread_barrier_wait(&all_inside);
	CHECK(tags_cancel(&waiting[((uint32_t)own + 1) % count]) == TAGS_OK);
}

static void *give(void *holder)
{
	const uint32_t tag = (uint32_t)((struct tags_hand *)holder - holders);

	TAGS_MUST(tags_clear(holder, tag));
	return NULL;
}

/* As many threads as hands each tell one. */
static void cancel_each_other(uint32_t hands)
{
	pthread_t threads[MOST];

	open_for(hands, NULL);
	CHECK(pthread_barrier_init(&all_inside, NULL, hands) == 0);
	for (uint32_t i = 0; i < hands; i++)
		CHECK(tags_get_notified(&waiting[i], cancel_the_next, &calls[i]) == TAGS_NO_TAG);
	for (uint32_t i = 0; i < hands; i++)
		CHECK(pthread_create(&threads[i], NULL, give, &holders[i]) == 0);
	for (uint32_t i = 0; i < hands; i++)
		CHECK(pthread_join(threads[i], NULL) == 0);
	for (uint32_t i = 0; i < hands; i++)
		CHECK(tags_cancel(&waiting[i]) == TAGS_NOT_WAITING);
	CHECK(pthread_barrier_destroy(&all_inside) == 0);
	close_pool();
}

static sem_t is_running, may_return;

static void run_until_it_may_return(void *argument)
{
	CHECK(sem_post(&is_running) == 0 && sem_wait(&may_return) == 0);
	*(int *)argument = 2;
}

/* The function of the first hand ends the wait of the second, whose function runs on another thread. */
static void cancel_the_second(void *argument)
{
	*(int *)argument = 1;
	CHECK(tags_cancel(&waiting[1]) == TAGS_OK && calls[1] == 0);
	CHECK(sem_post(&may_return) == 0);
}

/* A wait that was ended inside a function left its own one running: outside, a cancel waits for that. */
static void cancel_what_was_left_running(void)
{
	pthread_t thread;

	open_for(2, NULL);
	CHECK(sem_init(&is_running, 0, 0) == 0 && sem_init(&may_return, 0, 0) == 0);
	CHECK(tags_get_notified(&waiting[1], run_until_it_may_return, &calls[1]) == TAGS_NO_TAG);
	CHECK(pthread_create(&thread, NULL, give, &holders[1]) == 0 && sem_wait(&is_running) == 0);
	CHECK(tags_get(&extra) == 1);
	CHECK(tags_get_notified(&waiting[0], cancel_the_second, &calls[0]) == TAGS_NO_TAG);
	CHECK(tags_clear(&holders[0], 0) == TAGS_OK && calls[0] == 1);
	CHECK(tags_cancel(&waiting[1]) == TAGS_NOT_WAITING && calls[1] == 2);
	CHECK(pthread_join(thread, NULL) == 0);
	CHECK(tags_cancel(&waiting[0]) == TAGS_OK && tags_clear(&extra, 1) == TAGS_OK);
	close_pool();
}

static struct tags_hands shared = TAGS_EMPTY;
static sem_t has_tag;

static void *get_by_shared_hands(void *unused)
{
	const int32_t tag = tags_hands_get_blocking(&shared);

	CHECK(tag >= 0 && sem_post(&has_tag) == 0);
	CHECK(tag >= 0 && tags_hands_clear(&shared, (uint32_t)tag) == TAGS_OK);
	return unused;
}

/* A thread that sleeps is woken at once, also beside hands that threads share. */
static void wait_for_the_sleeper(void *argument)
{
	*(int *)argument += 1;
	CHECK(tags_clear(&holders[1], 1) == TAGS_OK && sem_wait(&has_tag) == 0);
}

static void wake_inside(void)
{
	pthread_t thread;

	open_for(2, NULL);
	CHECK(sem_init(&has_tag, 0, 0) == 0 && tags_hands_open(&pool, &shared, 1) == TAGS_OK);
	CHECK(tags_get_notified(&waiting[0], wait_for_the_sleeper, &calls[0]) == TAGS_NO_TAG);
	CHECK(pthread_create(&thread, NULL, get_by_shared_hands, NULL) == 0);
	while (tags_pool_waiting(&pool) < 2)
		nap(100);
	CHECK(tags_clear(&holders[0], 0) == TAGS_OK && calls[0] == 1);
	CHECK(pthread_join(thread, NULL) == 0 && tags_cancel(&waiting[0]) == TAGS_OK);
	CHECK(tags_hands_close(&shared) == TAGS_OK);
	close_pool();
}

int main(int argc, char **argv)
{
	const long rounds = argc > 1 ? strtol(argv[1], NULL, 10) : 200;

	call_one_after_another();
	call_nobody_who_has_gone();
	call_who_waits_anew_when_told();
	call_nobody_of_a_pool_that_is_closed();
	for (long i = 0; i < rounds; i++) {
		cancel_each_other(2);
		cancel_each_other(3);
	}
	cancel_what_was_left_running();
	wake_inside();
	printf("%" PRIu64 " wrong\n", wrong);
	return wrong != 0;
}
