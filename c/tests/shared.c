/*
 * Hands that threads share: more threads than hands, threads that come and go, tags that another thread
 * clears, waits beside hands of threads' own, with caches and without, stops, cancels and refusals. No
 * tag has two users, slots keep their values, nobody waits for ever, and the sums are exact.
 * shared [ROUNDS]
 */
#define _GNU_SOURCE
#include <inttypes.h>
#include <pthread.h>
#include <stdbool.h>
#include <stdio.h>
#include <stdlib.h>
#include <time.h>

#include "../tags.h"

#include "sleeps.h"

enum { THREADS = 12, TOTAL = 40, RESERVED = 4 };

static long rounds = 300;
static int checks;
static int wrong;

static void want(const char *what, int64_t found, int64_t wanted)
{
	__atomic_fetch_add(&checks, 1, __ATOMIC_RELAXED);
	if (found == wanted)
		return;
	__atomic_fetch_add(&wrong, 1, __ATOMIC_RELAXED);
	printf("%s: %" PRId64 ", not %" PRId64 "\n", what, found, wanted);
}

#define WANT(what, wanted) want(#what, (int64_t)(what), wanted)

static struct tags_pool pool = TAGS_EMPTY;
static struct tags_hands hands = TAGS_EMPTY;

static void open_pool(uint32_t total, uint32_t reserved, uint32_t count, uint32_t cache)
{
	struct tags_options options = TAGS_OPTIONS_INIT;

	options.total = total;
	options.reserved = reserved;
	options.hands = count;
	options.cache = cache;
	WANT(tags_open(&pool, &options), TAGS_OK);
}

/* Closes the hands and the pool, all of whose tags have to be back. */
static void close_all(void)
{
	struct tags_sums sums = { 0, 0, 0, 1 };

	WANT(tags_hands_close(&hands), TAGS_OK);
	WANT(tags_close(&pool, &sums), TAGS_OK);
	WANT(sums.got - sums.back, 0);
	WANT(sums.held + sums.posted, 0);
}

static void start(pthread_t *thread, void *(*function)(void *argument), void *argument)
{
	if (pthread_create(thread, NULL, function, argument) != 0)
		abort();
}

static void join_all(const pthread_t *threads, int count)
{
	for (int i = 0; i < count; i++)
		WANT(pthread_join(threads[i], NULL), 0);
}

static struct timespec after(clockid_t clock, long milliseconds)
{
	struct timespec time;

	clock_gettime(clock, &time);
	time.tv_nsec += milliseconds * 1000000;
	time.tv_sec += time.tv_nsec / 1000000000;
	time.tv_nsec %= 1000000000;
	return time;
}

/*
 * What each call returns
 */

static void refuse(void)
{
	struct tags_hands empty = TAGS_EMPTY, few = TAGS_EMPTY;
	struct tags_pool closed = TAGS_EMPTY;
	struct timespec past = { 0, 0 }, bad = { 0, 1000000000 };
	uint64_t value = 0;

	WANT(tags_hands_open(NULL, &hands, 1), TAGS_NULL);
	WANT(tags_hands_open(&pool, NULL, 1), TAGS_NULL);
	WANT(tags_hands_open(&closed, &hands, 99), TAGS_BAD_HANDLE);
	open_pool(4, 0, 3, 0);
	WANT(tags_hands_open(&pool, &hands, 65), TAGS_BAD_HAND_COUNT);
	WANT(tags_hands_open(&pool, &hands, 4), TAGS_NO_HAND);
	/* it took none of them */
	WANT(tags_hands_open(&pool, &hands, 3), TAGS_OK);
	WANT(tags_hands_open(&pool, &hands, 99), TAGS_NOT_EMPTY);
	WANT(tags_hands_open(&pool, &few, 0), TAGS_NO_HAND);
	WANT(tags_hands_get(NULL), TAGS_NULL);
	WANT(tags_hands_get(&empty), TAGS_BAD_HANDLE);
	WANT(tags_hands_get_reserved(NULL), TAGS_NULL);
	WANT(tags_hands_get_reserved(&empty), TAGS_BAD_HANDLE);
	WANT(tags_hands_get_reserved(&hands), TAGS_NO_RESERVED);
	WANT(tags_hands_get_blocking(NULL), TAGS_NULL);
	WANT(tags_hands_get_blocking(&empty), TAGS_BAD_HANDLE);
	WANT(tags_hands_get_timed(NULL, CLOCK_MONOTONIC, &past), TAGS_NULL);
	WANT(tags_hands_get_timed(&hands, CLOCK_MONOTONIC, NULL), TAGS_NULL);
	WANT(tags_hands_get_timed(&empty, CLOCK_MONOTONIC, &bad), TAGS_BAD_TIME);
	WANT(tags_hands_get_timed(&hands, 77, &past), TAGS_BAD_TIME);
	WANT(tags_hands_get_timed(&empty, CLOCK_MONOTONIC, &past), TAGS_BAD_HANDLE);
	WANT(tags_hands_clear(NULL, 0), TAGS_NULL);
	WANT(tags_hands_clear(&empty, 9), TAGS_BAD_HANDLE);
	WANT(tags_hands_clear(&hands, 4), TAGS_NO_SUCH_TAG);
	WANT(tags_hands_clear(&hands, 3), TAGS_NOT_HELD);
	WANT(tags_hands_read(&hands, 3, NULL), TAGS_NULL);
	WANT(tags_hands_read(NULL, 3, &value), TAGS_NULL);
	WANT(tags_hands_read(&empty, 9, &value), TAGS_BAD_HANDLE);
	WANT(tags_hands_read(&hands, UINT32_MAX, &value), TAGS_NO_SUCH_TAG);
	WANT(tags_hands_read(&hands, 3, &value), TAGS_NOT_HELD);
	WANT(tags_hands_write(NULL, 3, 7, NULL), TAGS_NULL);
	WANT(tags_hands_write(&empty, 9, 7, NULL), TAGS_BAD_HANDLE);
	WANT(tags_hands_write(&hands, 4, 7, NULL), TAGS_NO_SUCH_TAG);
	WANT(tags_hands_write(&hands, 3, 7, &value), TAGS_NOT_HELD);
	WANT(tags_hands_flush(NULL), TAGS_NULL);
	WANT(tags_hands_flush(&empty), TAGS_BAD_HANDLE);
	WANT(tags_hands_close(NULL), TAGS_NULL);
	WANT(tags_hands_close(&empty), TAGS_BAD_HANDLE);
	close_all();
}

/* One thread, whatever processor it runs on. */
static void use_alone(void)
{
	struct timespec past = { 0, 0 }, soon;
	uint64_t value = 0;
	int32_t tag;

	open_pool(3, 1, 2, 0);
	WANT(tags_hands_open(&pool, &hands, 2), TAGS_OK);
	WANT(tags_hands_get_reserved(&hands), 0);
	WANT(tags_hands_get_reserved(&hands), TAGS_NO_TAG);
	WANT(tags_hands_write(&hands, 0, 70, NULL), TAGS_OK);
	WANT(tags_hands_write(&hands, 0, 71, &value), TAGS_OK);
	WANT(value, 70);
	WANT(tags_hands_read(&hands, 0, &value), TAGS_OK);
	WANT(value, 71);
	tag = tags_hands_get_timed(&hands, CLOCK_REALTIME, &past);
	WANT(tag > 0, 1);
	WANT(tags_hands_get_blocking(&hands), 3 - tag);
	WANT(tags_hands_get(&hands), TAGS_NO_TAG);
	WANT(tags_hands_get_timed(&hands, CLOCK_MONOTONIC, &past), TAGS_TIMED_OUT);
	soon = after(CLOCK_REALTIME, 5);
	WANT(tags_hands_get_timed(&hands, CLOCK_REALTIME, &soon), TAGS_TIMED_OUT);
	WANT(tags_pool_waiting(&pool), 0);
	WANT(tags_hands_close(&hands), TAGS_IN_USE);
	WANT(tags_resize(&pool, 5), TAGS_HANDS_OUT);
	for (uint32_t i = 0; i < 3; i++)
		WANT(tags_hands_clear(&hands, i), TAGS_OK);
	WANT(tags_hands_clear(&hands, 1), TAGS_NOT_HELD);
	close_all();
	open_pool(1, 1, 1, 0);
	WANT(tags_hands_open(&pool, &hands, 0), TAGS_OK);
	WANT(tags_hands_get_blocking(&hands), TAGS_NO_SUCH_TAG);
	close_all();
}

/* Tags of hands that left are theirs who share these hands later, and the other way round. */
static void inherit(void)
{
	struct tags_hand own = TAGS_EMPTY;
	struct tags_sums sums;

	open_pool(8, 0, 2, 0);
	WANT(tags_join(&pool, &own, TAGS_STAY), TAGS_OK);
	for (int32_t i = 0; i < 3; i++)
		WANT(tags_get(&own), i);
	WANT(tags_leave(&own), TAGS_OK);
	WANT(tags_hands_open(&pool, &hands, 2), TAGS_OK);
	WANT(tags_hands_clear(&hands, 2), TAGS_OK);
	WANT(tags_hands_close(&hands), TAGS_IN_USE);
	WANT(tags_hands_clear(&hands, 0), TAGS_OK);
	WANT(tags_hands_clear(&hands, 1), TAGS_OK);
	WANT(tags_hands_close(&hands), TAGS_OK);
	WANT(tags_close(&pool, &sums), TAGS_OK);
	WANT(sums.held, 0);
}

/*
 * Threads
 */

static uint32_t users[TOTAL];
/* a tag that some thread has to clear, beside 1, or 0 */
static uint32_t mailbox[THREADS];

static void begin_use(int32_t tag)
{
	WANT(__atomic_exchange_n(&users[tag], 1, __ATOMIC_RELAXED), 0);
}

static void clear(uint32_t tag)
{
	uint64_t value = 0;

	WANT(tags_hands_read(&hands, tag, &value), TAGS_OK);
	WANT(value, 1000 + tag);
	WANT(__atomic_exchange_n(&users[tag], 0, __ATOMIC_RELAXED), 1);
	WANT(tags_hands_clear(&hands, tag), TAGS_OK);
}

/* Whoever finds a tag in a mailbox clears that, in place of its own. */
static void pass_on(uint32_t number, uint32_t tag)
{
	const uint32_t found = __atomic_exchange_n(&mailbox[number], tag + 1, __ATOMIC_ACQ_REL);

	if (found > 0)
		clear(found - 1);
}

static void *work(void *argument)
{
	unsigned int seed = 1 + *(unsigned int *)argument;

	for (long i = 0; i < rounds; i++) {
		int32_t tag = rand_r(&seed) % 8 == 0 ? tags_hands_get_reserved(&hands) : tags_hands_get(&hands);

		if (tag < 0) {
			WANT(tag, TAGS_NO_TAG);
			continue;
		}
		begin_use(tag);
		WANT(tags_hands_write(&hands, (uint32_t)tag, 1000 + (uint64_t)tag, NULL), TAGS_OK);
		if (rand_r(&seed) % 2)
			pass_on((uint32_t)rand_r(&seed) % THREADS, (uint32_t)tag);
		else
			clear((uint32_t)tag);
	}
	return NULL;
}

/* A thread with a hand of its own, in the same pool. */
static void *work_alone(void *unused)
{
	struct tags_hand own = TAGS_EMPTY;

	WANT(tags_join(&pool, &own, 0), TAGS_OK);
	for (long i = 0; i < rounds; i++) {
		const int32_t tag = tags_get_blocking(&own);

		begin_use(tag);
		__atomic_store_n(&users[tag], 0, __ATOMIC_RELAXED);
		WANT(tags_clear(&own, (uint32_t)tag), TAGS_OK);
	}
	WANT(tags_leave(&own), TAGS_OK);
	return unused;
}

static void share(uint32_t count, uint32_t cache)
{
	static unsigned int numbers[THREADS];
	pthread_t threads[THREADS + 1];

	open_pool(TOTAL, RESERVED, count + 1, cache);
	WANT(tags_hands_open(&pool, &hands, count), TAGS_OK);
	start(&threads[THREADS], work_alone, NULL);
	/* three generations of threads */
	for (unsigned int round = 0; round < 3; round++) {
		for (unsigned int i = 0; i < THREADS; i++) {
			numbers[i] = round * THREADS + i;
			start(&threads[i], work, &numbers[i]);
		}
		join_all(threads, THREADS);
	}
	WANT(pthread_join(threads[THREADS], NULL), 0);
	for (uint32_t i = 0; i < THREADS; i++) {
		if (mailbox[i] > 0)
			clear(mailbox[i] - 1);
		mailbox[i] = 0;
	}
	close_all();
}

/*
 * Waits
 */

static void *sleep_for_tags(void *argument)
{
	for (long i = 0; i < rounds; i++) {
		const struct timespec soon = after(CLOCK_MONOTONIC, i % 3);
		int32_t tag = TAGS_TIMED_OUT;

		if (argument)
			tag = tags_hands_get_timed(&hands, CLOCK_MONOTONIC, &soon);
		if (tag == TAGS_TIMED_OUT)
			tag = tags_hands_get_blocking(&hands);
		if (tag < 0) {
			WANT(tag, 0);
			continue;
		}
		begin_use(tag);
		WANT(tags_hands_write(&hands, (uint32_t)tag, 1000 + (uint64_t)tag, NULL), TAGS_OK);
		if (i % 4 == 0)
			sched_yield();
		clear((uint32_t)tag);
	}
	return NULL;
}

/* Many threads and few tags, beside one with a hand of its own. */
static void wait_together(uint32_t total, uint32_t count, uint32_t cache)
{
	pthread_t threads[THREADS + 1];

	open_pool(total, 0, count + 1, cache);
	WANT(tags_hands_open(&pool, &hands, count), TAGS_OK);
	for (int i = 0; i < THREADS; i++)
		start(&threads[i], sleep_for_tags, i % 2 ? &rounds : NULL);
	start(&threads[THREADS], work_alone, NULL);
	join_all(threads, THREADS + 1);
	WANT(tags_pool_waiting(&pool), 0);
	close_all();
}

/* It ends as it should, or if that is NULL with a tag or by a stop. */
static void *wait_once(void *wanted)
{
	const int32_t answer = tags_hands_get_blocking(&hands);

	if (wanted)
		WANT(answer, *(int32_t *)wanted);
	else
		WANT(answer >= 0 || answer == TAGS_STOPPED, 1);
	if (answer >= 0)
		WANT(tags_hands_clear(&hands, (uint32_t)answer), TAGS_OK);
	return NULL;
}

/* A stop ends all waits, also those for the turn. */
static void stop_all(pthread_t *threads)
{
	int32_t stopped = TAGS_STOPPED;

	for (int i = 0; i < THREADS; i++)
		start(&threads[i], wait_once, &stopped);
	await_asleep(THREADS);
	WANT(tags_pool_waiting(&pool), 1);
	WANT(tags_stop(&pool), TAGS_OK);
	WANT(tags_hands_get_blocking(&hands), TAGS_STOPPED);
	join_all(threads, THREADS);
	WANT(tags_resume(&pool), TAGS_OK);
}

/* So it does though the pool is resumed at once, but for waits that begin later. */
static void stop_and_resume(pthread_t *threads)
{
	for (int i = 0; i < THREADS; i++)
		start(&threads[i], wait_once, NULL);
	await_asleep(THREADS);
	WANT(tags_pool_waiting(&pool), 1);
	WANT(tags_stop(&pool), TAGS_OK);
	WANT(tags_resume(&pool), TAGS_OK);
	WANT(tags_hands_clear(&hands, 0), TAGS_OK);
	join_all(threads, THREADS);
	WANT(tags_hands_get_blocking(&hands), 0);
}

/* A stop ends all waits, and a cancel ends one. */
static void end_waits(void)
{
	pthread_t threads[THREADS];
	int32_t zero = 0;

	open_pool(1, 0, 2, 0);
	WANT(tags_hands_open(&pool, &hands, 2), TAGS_OK);
	WANT(tags_hands_get(&hands), 0);
	stop_all(threads);
	stop_and_resume(threads);
	for (int i = 0; i < THREADS; i++)
		start(&threads[i], wait_once, &zero);
	await_asleep(THREADS);
	WANT(tags_pool_waiting(&pool), 1);
	for (int i = 0; i < THREADS / 2; i++)
		WANT(pthread_cancel(threads[i]), 0);
	for (int i = 0; i < THREADS / 2; i++)
		WANT(pthread_join(threads[i], NULL), 0);
	WANT(tags_hands_clear(&hands, 0), TAGS_OK);
	join_all(threads + THREADS / 2, THREADS - THREADS / 2);
	WANT(tags_pool_waiting(&pool), 0);
	close_all();
}

/* What a hand of these keeps is for those who sleep, whichever hand that is. */
static void wait_for_kept(void)
{
	struct tags_hand own = TAGS_EMPTY;
	int32_t zero = 0;
	pthread_t thread;

	open_pool(1, 0, 3, 1);
	WANT(tags_hands_open(&pool, &hands, 2), TAGS_OK);
	WANT(tags_join(&pool, &own, 0), TAGS_OK);
	for (int i = 0; i < 4; i++) {
		WANT(tags_hands_get_blocking(&hands), 0);
		/* it is kept now, and found whatever hand the next call has */
		WANT(tags_hands_clear(&hands, 0), TAGS_OK);
		start(&thread, wait_once, &zero);
		WANT(pthread_join(thread, NULL), 0);
	}
	WANT(tags_get(&own), TAGS_NO_TAG);
	WANT(tags_hands_flush(&hands), TAGS_OK);
	WANT(tags_get(&own), 0);
	WANT(tags_clear(&own, 0), TAGS_OK);
	WANT(tags_leave(&own), TAGS_OK);
	close_all();
}

static int calls;

/* Called in a call of the shared hands, uses them. */
static void use_in_call(void *unused)
{
	uint64_t value = 0;

	(void)unused;
	calls++;
	WANT(tags_hands_get_reserved(&hands), 0);
	WANT(tags_hands_read(&hands, 0, &value), TAGS_OK);
	WANT(tags_hands_clear(&hands, 0), TAGS_OK);
}

static void notify(void)
{
	struct tags_hand own = TAGS_EMPTY;

	open_pool(2, 1, 2, 0);
	WANT(tags_hands_open(&pool, &hands, 1), TAGS_OK);
	WANT(tags_join(&pool, &own, 0), TAGS_OK);
	WANT(tags_hands_get(&hands), 1);
	WANT(tags_get_notified(&own, use_in_call, NULL), TAGS_NO_TAG);
	WANT(tags_hands_clear(&hands, 1), TAGS_OK);
	WANT(calls, 1);
	WANT(tags_get_notified(&own, use_in_call, NULL), 1);
	WANT(tags_clear(&own, 1), TAGS_OK);
	/* an eventfd that was closed is told in vain */
	WANT(tags_hands_get(&hands), 1);
	WANT(tags_get_async(&own, 1000), TAGS_NO_TAG);
	WANT(tags_hands_clear(&hands, 1), TAGS_OK);
	WANT(tags_leave(&own), TAGS_OK);
	close_all();
}

int main(int argc, char **argv)
{
	static const uint32_t counts[] = { 1, 2, 3, 5 };

	if (argc > 1)
		rounds = atol(argv[1]);
	refuse();
	use_alone();
	inherit();
	notify();
	for (size_t i = 0; i < sizeof(counts) / sizeof(*counts); i++) {
		share(counts[i], 0);
		share(counts[i], 2);
		wait_together(1, counts[i], 0);
		wait_together(3, counts[i], 0);
		wait_together(16, counts[i], 2);
	}
	end_waits();
	wait_for_kept();
	if (wrong)
		return 1;
	printf("%d checks\n", checks);
	return 0;
}
