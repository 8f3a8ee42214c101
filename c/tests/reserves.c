/*
 * Waits for a reserved tag, beside others for an ordinary one: who gives a tag back tells those who wait
 * for one of its set, and nobody else. A hand waits for one set at a time. Waits end by a tag, a deadline, a
 * stop, a cancel and a leave; and threads wait in each way for tags of both sets, where a lost wakeup would
 * leave one asleep for ever. reserves [ROUNDS]
 */
#define _GNU_SOURCE
#include <inttypes.h>
#include <poll.h>
#include <pthread.h>
#include <sched.h>
#include <stdbool.h>
#include <stdio.h>
#include <stdlib.h>
#include <sys/eventfd.h>
#include <time.h>
#include <unistd.h>

#include <tags.h>

#include "checks.h"
#include "sleeps.h"

enum { THREADS = 12 };

static long rounds = 300;
static struct tags_pool pool;
static struct tags_hand hand, other, third;

static void open_pool(uint32_t ordinary, uint32_t reserved, uint32_t hands, uint32_t cache)
{
	const struct tags_options options = {
		.total = ordinary + reserved, .reserved = reserved, .hands = hands, .cache = cache,
	};

	CHECK(tags_open(&pool, &options) == TAGS_OK);
}

static void close_pool(void)
{
	struct tags_sums sums = { 0 };

	CHECK(tags_close(&pool, &sums) == TAGS_OK);
	CHECK(sums.got == sums.back && sums.held == 0);
}

/* Opens a pool with a hand for each of the three handles. */
static void open_for_three(uint32_t ordinary, uint32_t reserved, uint32_t cache)
{
	open_pool(ordinary, reserved, 3, cache);
	CHECK(tags_join(&pool, &hand, TAGS_STAY) == TAGS_OK);
	CHECK(tags_join(&pool, &other, TAGS_STAY) == TAGS_OK);
	CHECK(tags_join(&pool, &third, TAGS_STAY) == TAGS_OK);
}

static void close_for_three(void)
{
	CHECK(tags_pool_waiting(&pool) == 0);
	CHECK(tags_leave(&hand) == TAGS_OK && tags_leave(&other) == TAGS_OK && tags_leave(&third) == TAGS_OK);
	close_pool();
}

/* What was added to the eventfd since it was read last. */
static uint64_t told(int event)
{
	uint64_t count = 0;

	return read(event, &count, sizeof(count)) == sizeof(count) ? count : 0;
}

static void count_call(void *calls)
{
	*(int *)calls += 1;
}

/*
 * Who is told
 */

/* The first hand holds both tags, the reserved one and the ordinary one. It gives one back, in two ways. */
static void tell_one_set(uint32_t tag, int *of_set, int *of_other)
{
	const int before = *of_other;
	uint64_t value;

	*of_set = 0;
	CHECK(tags_clear(&hand, tag) == TAGS_OK && *of_set == 1 && *of_other == before);
	CHECK(tags_get_exactly(&hand, tag) == (int32_t)tag);
	CHECK((tag == 0 ? tags_get_reserved_notified(&third, count_call, of_set) :
			  tags_get_notified(&other, count_call, of_set)) == TAGS_NO_TAG);
	CHECK(tags_read_clear(&hand, tag, &value) == TAGS_OK && *of_set == 2 && *of_other == before);
	CHECK(tags_get_exactly(&hand, tag) == (int32_t)tag);
}

static void tell_by_set(void)
{
	int ordinary = 0, reserved = 0;

	open_for_three(1, 1, 0);
	CHECK(tags_get_reserved_blocking(&hand) == 0 && tags_get_blocking(&hand) == 1);
	CHECK(tags_get_notified(&other, count_call, &ordinary) == TAGS_NO_TAG);
	CHECK(tags_get_reserved_notified(&third, count_call, &reserved) == TAGS_NO_TAG);
	CHECK(tags_waiting(&hand) == 2);
	CHECK(tags_clear(&hand, 0) == TAGS_OK && ordinary == 0 && reserved == 1);
	CHECK(tags_get_reserved_notified(&third, count_call, &reserved) == 0 && tags_waiting(&hand) == 1);
	CHECK(tags_clear(&third, 0) == TAGS_OK && ordinary == 0 && reserved == 1);
	CHECK(tags_clear(&hand, 1) == TAGS_OK && ordinary == 1 && reserved == 1);
	CHECK(tags_get_notified(&other, count_call, &ordinary) == 1);
	CHECK(tags_clear(&other, 1) == TAGS_OK && ordinary == 1);
	close_for_three();
}

/* The second hand waits for the ordinary tag, and the third one for the reserved one. */
static void tell_in_each_way(void)
{
	int ordinary = 0, reserved = 0;

	open_for_three(1, 1, 0);
	CHECK(tags_get_reserved(&hand) == 0 && tags_get(&hand) == 1);
	CHECK(tags_get_notified(&other, count_call, &ordinary) == TAGS_NO_TAG);
	CHECK(tags_get_reserved_notified(&third, count_call, &reserved) == TAGS_NO_TAG);
	tell_one_set(0, &reserved, &ordinary);
	CHECK(tags_cancel(&third) == TAGS_OK);
	CHECK(tags_get_reserved_notified(&third, count_call, &reserved) == TAGS_NO_TAG);
	tell_one_set(1, &ordinary, &reserved);
	CHECK(tags_cancel(&other) == TAGS_OK && tags_cancel(&third) == TAGS_OK);
	CHECK(tags_clear(&hand, 0) == TAGS_OK && tags_clear(&hand, 1) == TAGS_OK);
	close_for_three();
}

/* A hand that is told and gives up, or whose eventfd was closed, passes the tag on to one of its set. */
static void pass_on(int event)
{
	int calls = 0;

	open_for_three(1, 2, 0);
	CHECK(tags_get_reserved(&hand) == 0 && tags_get_reserved(&hand) == 1);
	CHECK(tags_get_reserved_async(&other, event) == TAGS_NO_TAG);
	CHECK(tags_get_reserved_notified(&third, count_call, &calls) == TAGS_NO_TAG);
	CHECK(tags_clear(&hand, 1) == TAGS_OK && told(event) == 1 && calls == 0);
	CHECK(tags_leave(&other) == TAGS_OK && calls == 1);
	CHECK(tags_get_reserved_notified(&third, count_call, &calls) == 1);
	CHECK(tags_join(&pool, &other, TAGS_STAY) == TAGS_OK);
	event = dup(event);
	CHECK(tags_get_reserved_async(&other, event) == TAGS_NO_TAG);
	CHECK(tags_clear(&third, 1) == TAGS_OK && told(event) == 1 && tags_get_reserved(&hand) == 1);
	CHECK(tags_get_reserved_async(&other, event) == TAGS_NO_TAG);
	CHECK(tags_get_reserved_notified(&third, count_call, &calls) == TAGS_NO_TAG);
	close(event);
	CHECK(tags_clear(&hand, 1) == TAGS_OK && calls == 2);
	CHECK(tags_cancel(&other) == TAGS_OK && tags_get_reserved_notified(&third, count_call, &calls) == 1);
	CHECK(tags_clear(&hand, 0) == TAGS_OK && tags_clear(&third, 1) == TAGS_OK);
	close_for_three();
}

/* Hands that threads share tell those who wait for a reserved tag with hands of their own. */
static void tell_by_shared_hands(void)
{
	struct tags_hands hands = TAGS_EMPTY;
	int ordinary = 0, reserved = 0;

	open_pool(1, 1, 3, 0);
	CHECK(tags_hands_open(&pool, &hands, 1) == TAGS_OK);
	CHECK(tags_join(&pool, &other, 0) == TAGS_OK && tags_join(&pool, &third, 0) == TAGS_OK);
	CHECK(tags_hands_get(&hands) == 1 && tags_hands_get_reserved(&hands) == 0);
	CHECK(tags_get_notified(&other, count_call, &ordinary) == TAGS_NO_TAG);
	CHECK(tags_get_reserved_notified(&third, count_call, &reserved) == TAGS_NO_TAG);
	CHECK(tags_hands_clear(&hands, 0) == TAGS_OK && ordinary == 0 && reserved == 1);
	CHECK(tags_hands_clear(&hands, 1) == TAGS_OK && ordinary == 1 && reserved == 1);
	CHECK(tags_cancel(&other) == TAGS_OK && tags_cancel(&third) == TAGS_OK);
	CHECK(tags_hands_close(&hands) == TAGS_OK);
	CHECK(tags_leave(&other) == TAGS_OK && tags_leave(&third) == TAGS_OK);
	close_pool();
}

/* Whoever is to wait for a reserved tag gives back what it keeps; one that is given back tells of those its hand kept. */
static void keep_nothing(void)
{
	int calls = 0, unused = 0;

	open_for_three(1, 1, 4);
	CHECK(tags_get(&hand) == 1 && tags_clear(&hand, 1) == TAGS_OK && tags_get(&other) == TAGS_NO_TAG);
	CHECK(tags_get_reserved(&third) == 0);
	CHECK(tags_get_notified(&other, count_call, &calls) == TAGS_NO_TAG);
	CHECK(tags_get_reserved_notified(&hand, count_call, &unused) == TAGS_NO_TAG && calls == 1);
	CHECK(tags_get_notified(&other, count_call, &calls) == 1);
	CHECK(tags_cancel(&hand) == TAGS_OK && tags_clear(&third, 0) == TAGS_OK);
	CHECK(tags_clear(&other, 1) == TAGS_OK && tags_get_reserved(&other) == 0);
	CHECK(tags_get_notified(&hand, count_call, &calls) == TAGS_NO_TAG && calls == 1);
	CHECK(tags_clear(&other, 0) == TAGS_OK && calls == 2 && unused == 0);
	CHECK(tags_get_notified(&hand, count_call, &calls) == 1 && tags_clear(&hand, 1) == TAGS_OK);
	close_for_three();
}

static uint64_t count_busy(void)
{
	uint64_t busy = 0;

	return tags_pool_busy(&pool, &busy, 1) < 0 ? UINT64_MAX : busy;
}

/*
 * Whoever waits for a reserved tag needs no ordinary one: hands keep what they clear meanwhile, also the hand that
 * waits, until it flushes.
 */
static void keep_beside_a_wait(void)
{
	int calls = 0;

	open_for_three(2, 1, 4);
	CHECK(tags_get_reserved(&third) == 0);
	CHECK(tags_get_reserved_notified(&other, count_call, &calls) == TAGS_NO_TAG);
	CHECK(tags_get(&hand) == 1 && tags_clear(&hand, 1) == TAGS_OK && count_busy() == (1 << 0 | 1 << 1));
	CHECK(tags_get_exactly(&other, 2) == 2 && tags_clear(&other, 2) == TAGS_OK && tags_get(&other) == 2);
	CHECK(tags_clear(&other, 2) == TAGS_OK && count_busy() == (1 << 0 | 1 << 1 | 1 << 2));
	CHECK(tags_flush(&other) == TAGS_OK && tags_flush(&hand) == TAGS_OK && count_busy() == 1);
	CHECK(tags_clear(&third, 0) == TAGS_OK && calls == 1);
	CHECK(tags_get_reserved_notified(&other, count_call, &calls) == 0 && tags_clear(&other, 0) == TAGS_OK);
	close_for_three();
}

/*
 * What is refused, and what ends a wait
 */

static void wait_for_one_set(int event)
{
	const struct timespec past = { 0, 0 };
	int calls = 0;

	open_for_three(1, 1, 0);
	CHECK(tags_get(&other) == 1 && tags_get_reserved(&other) == 0);
	CHECK(tags_get_async(&hand, event) == TAGS_NO_TAG);
	CHECK(tags_get_reserved_async(&hand, event) == TAGS_WAITING);
	CHECK(tags_get_reserved_notified(&hand, count_call, &calls) == TAGS_WAITING);
	CHECK(tags_get_reserved_blocking(&hand) == TAGS_WAITING);
	CHECK(tags_get_reserved_timed(&hand, CLOCK_MONOTONIC, &past) == TAGS_WAITING);
	CHECK(tags_clear(&other, 0) == TAGS_OK && told(event) == 0 && calls == 0);
	/* what is free needs no wait */
	CHECK(tags_get_reserved_async(&hand, event) == 0 && tags_waiting(&hand) == 1);
	CHECK(tags_clear(&other, 1) == TAGS_OK && told(event) == 1 && tags_get_async(&hand, event) == 1);
	CHECK(tags_get_reserved_async(&other, event) == TAGS_NO_TAG);
	CHECK(tags_get_reserved_async(&other, event) == TAGS_NO_TAG && tags_waiting(&hand) == 1);
	CHECK(tags_get_async(&other, event) == TAGS_WAITING && tags_get_blocking(&other) == TAGS_WAITING);
	CHECK(tags_get_notified(&other, count_call, &calls) == TAGS_WAITING);
	CHECK(tags_get_reserved_async(&other, -1) == TAGS_BAD_EVENT && tags_waiting(&hand) == 1);
	CHECK(tags_clear(&hand, 1) == TAGS_OK && told(event) == 0 && tags_get(&other) == 1);
	CHECK(tags_clear(&hand, 0) == TAGS_OK && told(event) == 1);
	CHECK(tags_cancel(&other) == TAGS_OK && tags_cancel(&other) == TAGS_NOT_WAITING);
	CHECK(tags_clear(&other, 1) == TAGS_OK);
	close_for_three();
}

static void end_by_deadline(void)
{
	const clockid_t clocks[] = { CLOCK_MONOTONIC, CLOCK_REALTIME };
	struct timespec end = { 0, 1000000000 };

	open_for_three(1, 1, 0);
	CHECK(tags_get_reserved_timed(&hand, CLOCK_MONOTONIC, &end) == TAGS_BAD_TIME);
	CHECK(tags_get_reserved_timed(&hand, CLOCK_PROCESS_CPUTIME_ID, &end) == TAGS_BAD_TIME);
	end.tv_nsec = 0;
	CHECK(tags_get_reserved_timed(&hand, CLOCK_REALTIME, &end) == 0);
	for (int i = 0; i < 2; i++) {
		end = after(clocks[i], 20);
		CHECK(tags_get_reserved_timed(&other, clocks[i], &end) == TAGS_TIMED_OUT);
		CHECK(tags_waiting(&hand) == 0 && tags_cancel(&other) == TAGS_NOT_WAITING);
		CHECK(tags_get_reserved_timed(&other, clocks[i], &end) == TAGS_TIMED_OUT);
	}
	CHECK(tags_clear(&hand, 0) == TAGS_OK);
	CHECK(tags_get_reserved_timed(&other, CLOCK_MONOTONIC, &end) == 0 && tags_clear(&other, 0) == TAGS_OK);
	close_for_three();
}

static void *sleep_for_reserved(void *it)
{
	return (void *)(intptr_t)tags_get_reserved_blocking(it);
}

static pthread_t start(struct tags_hand *sleeper)
{
	pthread_t id;

	CHECK(pthread_create(&id, NULL, sleep_for_reserved, sleeper) == 0);
	await_asleep(1);
	CHECK(tags_pool_waiting(&pool) == 1);
	return id;
}

static void end_by_others(void)
{
	void *answer = NULL;
	pthread_t id;

	open_for_three(1, 1, 0);
	CHECK(tags_get_reserved(&hand) == 0);
	id = start(&other);
	/* what it does not wait for does not wake it */
	CHECK(tags_get(&hand) == 1 && tags_clear(&hand, 1) == TAGS_OK && tags_pool_waiting(&pool) == 1);
	CHECK(tags_clear(&hand, 0) == TAGS_OK && pthread_join(id, &answer) == 0);
	CHECK((intptr_t)answer == 0 && tags_holds(&other, 0) == 1);
	id = start(&hand);
	CHECK(pthread_cancel(id) == 0 && pthread_join(id, &answer) == 0 && answer == PTHREAD_CANCELED);
	CHECK(tags_pool_waiting(&pool) == 0 && tags_holds(&hand, 0) == 0);
	id = start(&hand);
	CHECK(tags_stop(&pool) == TAGS_OK && pthread_join(id, &answer) == 0);
	CHECK((intptr_t)answer == TAGS_STOPPED);
	CHECK(tags_clear(&other, 0) == TAGS_OK && tags_get_reserved_blocking(&hand) == TAGS_STOPPED);
	CHECK(tags_get_reserved_async(&hand, 0) == TAGS_STOPPED);
	CHECK(tags_get_reserved_notified(&hand, count_call, NULL) == TAGS_STOPPED);
	CHECK(tags_resume(&pool) == TAGS_OK && tags_get_reserved_blocking(&hand) == 0);
	CHECK(tags_clear(&hand, 0) == TAGS_OK);
	close_for_three();
}

/*
 * Threads that wait in each way for tags of both sets
 */

enum way { BLOCKING, TIMED, EVENT, FUNCTION, WAYS };

struct thread {
	pthread_t id;
	struct tags_hand hand;
	unsigned int seed;
	int event;
	uint64_t late;
};

static struct thread threads[THREADS];
/* who has a tag, by tag */
static uint32_t has[8];
static uint32_t reserved_tags;

static void ring(void *event)
{
	const uint64_t one = 1;

	CHECK(write(*(int *)event, &one, sizeof(one)) == sizeof(one));
}

static int32_t wait_by_event(struct thread *self, bool by_function, bool reserves)
{
	struct pollfd look = { self->event, POLLIN, 0 };
	int32_t tag;

	for (;;) {
		if (by_function)
			tag = reserves ? tags_get_reserved_notified(&self->hand, ring, &self->event) :
					 tags_get_notified(&self->hand, ring, &self->event);
		else
			tag = reserves ? tags_get_reserved_async(&self->hand, self->event) :
					 tags_get_async(&self->hand, self->event);
		if (tag != TAGS_NO_TAG)
			return tag;
		CHECK(poll(&look, 1, -1) == 1);
		told(self->event);
	}
}

static int32_t wait_in(struct thread *self, enum way way, bool reserves)
{
	const struct timespec end = after(CLOCK_MONOTONIC, rand_r(&self->seed) % 3);

	switch (way) {
	case BLOCKING:
		return reserves ? tags_get_reserved_blocking(&self->hand) : tags_get_blocking(&self->hand);
	case TIMED:
		return reserves ? tags_get_reserved_timed(&self->hand, CLOCK_MONOTONIC, &end) :
				  tags_get_timed(&self->hand, CLOCK_MONOTONIC, &end);
	default:
		return wait_by_event(self, way == FUNCTION, reserves);
	}
}

static void *run(void *argument)
{
	struct thread *self = argument;

	for (long round = 0; round < rounds; round++) {
		const bool reserves = rand_r(&self->seed) % 2;
		const enum way way = (enum way)((unsigned)rand_r(&self->seed) % WAYS);
		const int32_t tag = wait_in(self, way, reserves);

		self->late += tag == TAGS_TIMED_OUT;
		if (tag == TAGS_TIMED_OUT)
			continue;
		check(tag >= 0 && ((uint32_t)tag < reserved_tags) == reserves, "a wait has a tag of its set");
		check(__atomic_fetch_add(&has[tag], 1, __ATOMIC_SEQ_CST) == 0, "a tag has one holder");
		if (rand_r(&self->seed) % 4 == 0)
			sched_yield();
		__atomic_fetch_sub(&has[tag], 1, __ATOMIC_SEQ_CST);
		check(tags_clear(&self->hand, (uint32_t)tag) == TAGS_OK, "a tag goes back");
	}
	CHECK(tags_flush(&self->hand) == TAGS_OK);
	return NULL;
}

static void crowd(uint32_t ordinary, uint32_t reserved, uint32_t cache)
{
	uint64_t late = 0;

	open_pool(ordinary, reserved, THREADS, cache);
	reserved_tags = reserved;
	for (unsigned int i = 0; i < THREADS; i++) {
		threads[i].seed = i + 1;
		threads[i].late = 0;
		CHECK(tags_join(&pool, &threads[i].hand, 0) == TAGS_OK);
		CHECK(pthread_create(&threads[i].id, NULL, run, &threads[i]) == 0);
	}
	for (int i = 0; i < THREADS; i++) {
		pthread_join(threads[i].id, NULL);
		CHECK(tags_leave(&threads[i].hand) == TAGS_OK);
		late += threads[i].late;
	}
	CHECK(tags_pool_waiting(&pool) == 0);
	close_pool();
	fprintf(stderr, "%" PRIu32 " and %" PRIu32 " tags: %" PRIu64 " waits were too long\n", ordinary, reserved,
		late);
}

int main(int argc, char **argv)
{
	const int event = eventfd(0, EFD_NONBLOCK);

	if (argc > 1)
		rounds = strtol(argv[1], NULL, 10);
	for (int i = 0; i < THREADS; i++)
		threads[i].event = eventfd(0, EFD_NONBLOCK);
	tell_by_set();
	tell_in_each_way();
	pass_on(event);
	tell_by_shared_hands();
	keep_nothing();
	keep_beside_a_wait();
	wait_for_one_set(event);
	end_by_deadline();
	end_by_others();
	crowd(1, 1, 0);
	crowd(2, 3, 0);
	crowd(3, 2, 2);
	printf("%" PRIu64 " wrong\n", wrong);
	return wrong != 0;
}
