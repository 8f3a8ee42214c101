/*
 * Waits for a tag: no thread sleeps beside free tags, a wait ends at its
 * deadline, and a tag of which a thread was told that gave up is not lost for the
 * others. A lost wakeup would be a thread that sleeps for ever. waits [ROUNDS]
 */
#define _GNU_SOURCE
#include <inttypes.h>
#include <pthread.h>
#include <sched.h>
#include <stdbool.h>
#include <stdio.h>
#include <stdlib.h>
#include <time.h>
#include <unistd.h>

#include "../tags.h"

#include "sleeps.h"

enum {
	MOST = 64,
	/* in seconds: no thread sleeps as long that is woken */
	AN_HOUR = 3600
};

struct thread {
	pthread_t id;
	struct tags_hand hand;
	int32_t got;
	long limit_us;
	uint64_t gets;
	uint64_t late;
};

static long rounds = 400;
static struct thread threads[MOST];
static uint32_t inside;
static uint32_t wanted_inside;
static bool is_over;
static uint64_t checks;
static uint64_t wrong;

static void check(bool is_well, const char *what)
{
	__atomic_fetch_add(&checks, 1, __ATOMIC_RELAXED);
	if (is_well)
		return;
	__atomic_fetch_add(&wrong, 1, __ATOMIC_RELAXED);
	fprintf(stderr, "wrong: %s\n", what);
}

#define CHECK(what) check(what, #what)

static struct timespec now(int32_t clock)
{
	struct timespec time;

	clock_gettime(clock, &time);
	return time;
}

static struct timespec after(int32_t clock, long us)
{
	struct timespec time = now(clock);

	time.tv_sec += us / 1000000;
	time.tv_nsec += us % 1000000 * 1000;
	if (time.tv_nsec >= 1000000000) {
		time.tv_sec++;
		time.tv_nsec -= 1000000000;
	}
	return time;
}

static long us_since(struct timespec begin)
{
	struct timespec end = now(CLOCK_MONOTONIC);

	return (end.tv_sec - begin.tv_sec) * 1000000 + (end.tv_nsec - begin.tv_nsec) / 1000;
}

static void nap(long us)
{
	struct timespec time = { us / 1000000, us % 1000000 * 1000 };

	nanosleep(&time, NULL);
}

static void open_pool(struct tags_pool *pool, uint32_t total, uint32_t hands)
{
	struct tags_options options = {
		.total = total,
		.hands = hands,
	};

	CHECK(tags_open(pool, &options) == TAGS_OK);
}

static void close_pool(struct tags_pool *pool)
{
	struct tags_sums sums = { 0 };

	CHECK(tags_close(pool, &sums) == TAGS_OK);
	CHECK(sums.got == sums.back && sums.held == 0);
}

/*
 * Free tags
 */

enum way { CLEAR, CLEAR_BATCH, CLEAR_RUN, READ_CLEAR };

static enum way the_way;

static int32_t give(struct tags_hand *hand, enum way way, uint32_t tag)
{
	uint64_t value;

	if (way == CLEAR)
		return tags_clear(hand, tag);
	if (way == CLEAR_BATCH)
		return tags_clear_batch(hand, &tag, 1);
	if (way == CLEAR_RUN)
		return tags_clear_mask(hand, tag, 1);
	return tags_read_clear(hand, tag, &value);
}

/* Gives its tag back once as many threads have one as tags became free. */
static void *wait_for_one(void *argument)
{
	struct thread *self = argument;
	struct timespec end = after(CLOCK_MONOTONIC, AN_HOUR * 1000000L);

	self->got = tags_get_timed(&self->hand, CLOCK_MONOTONIC, &end);
	CHECK(self->got >= 0);
	__atomic_fetch_add(&inside, 1, __ATOMIC_SEQ_CST);
	while (__atomic_load_n(&inside, __ATOMIC_SEQ_CST) < wanted_inside)
		nap(100);
	CHECK(self->got >= 0 && give(&self->hand, the_way, (uint32_t)self->got) >= 0);
	return NULL;
}

/* Of @total tags, all of them held, @cleared are given back: as many of the sleepers get one. */
static void wake_beside_free_tags(uint32_t total, uint32_t sleepers, uint32_t cleared, enum way way)
{
	struct tags_pool pool = TAGS_EMPTY;
	struct tags_hand hand = TAGS_EMPTY;
	uint32_t tags[MOST];

	open_pool(&pool, total, sleepers + 1);
	CHECK(tags_join(&pool, &hand, TAGS_STAY) == TAGS_OK);
	for (uint32_t i = 0; i < total; i++)
		CHECK(tags_get(&hand) == (int32_t)i);
	inside = 0;
	wanted_inside = sleepers < cleared ? sleepers : cleared;
	the_way = way;
	for (uint32_t i = 0; i < sleepers; i++) {
		threads[i].hand = (struct tags_hand)TAGS_EMPTY;
		CHECK(tags_join(&pool, &threads[i].hand, TAGS_STAY) == TAGS_OK);
		CHECK(pthread_create(&threads[i].id, NULL, wait_for_one, &threads[i]) == 0);
	}
	await_asleep(sleepers);
	for (uint32_t i = 0; i < cleared; i++)
		tags[i] = i * (total / cleared);
	if (way == CLEAR_BATCH)
		CHECK(tags_clear_batch(&hand, tags, cleared) >= 0);
	for (uint32_t i = 0; i < cleared && way != CLEAR_BATCH; i++)
		CHECK(give(&hand, way, tags[i]) >= 0);
	for (uint32_t i = 0; i < sleepers; i++) {
		pthread_join(threads[i].id, NULL);
		CHECK(tags_leave(&threads[i].hand) == TAGS_OK);
	}
	for (uint32_t tag = 0; tag < total; tag++)
		if (tags_holds(&hand, tag) == 1)
			CHECK(tags_clear(&hand, tag) == 0);
	CHECK(tags_leave(&hand) == TAGS_OK);
	close_pool(&pool);
}

/*
 * Time limits
 */

static void time_out(struct tags_hand *hand, int32_t clock)
{
	struct timespec begin = now(CLOCK_MONOTONIC);
	struct timespec end = after(clock, 30000);

	CHECK(tags_get_timed(hand, clock, &end) == TAGS_TIMED_OUT);
	CHECK(us_since(begin) >= 29000);
	CHECK(tags_cancel(hand) == TAGS_NOT_WAITING && tags_waiting(hand) == 0);
	begin = now(CLOCK_MONOTONIC);
	CHECK(tags_get_timed(hand, clock, &end) == TAGS_TIMED_OUT);
	end = (struct timespec){ -5, 0 };
	CHECK(tags_get_timed(hand, clock, &end) == TAGS_TIMED_OUT);
}

static void refuse_times(struct tags_hand *hand)
{
	struct tags_hand none = TAGS_EMPTY;
	struct timespec end = { 0, 1000000000 };

	CHECK(tags_get_timed(hand, CLOCK_MONOTONIC, NULL) == TAGS_NULL);
	CHECK(tags_get_timed(NULL, CLOCK_MONOTONIC, &end) == TAGS_NULL);
	CHECK(tags_get_timed(hand, CLOCK_MONOTONIC, &end) == TAGS_BAD_TIME);
	end.tv_nsec = -1;
	CHECK(tags_get_timed(hand, CLOCK_MONOTONIC, &end) == TAGS_BAD_TIME);
	end.tv_nsec = 0;
	CHECK(tags_get_timed(hand, CLOCK_PROCESS_CPUTIME_ID, &end) == TAGS_BAD_TIME);
	CHECK(tags_get_timed(hand, -1, &end) == TAGS_BAD_TIME);
	CHECK(tags_get_timed(&none, CLOCK_REALTIME, &end) == TAGS_BAD_HANDLE);
}

static void ignore(void *unused)
{
	(void)unused;
}

static void keep_to_a_deadline(void)
{
	struct tags_pool pool = TAGS_EMPTY;
	struct tags_hand hand = TAGS_EMPTY;
	struct tags_hand other = TAGS_EMPTY;
	struct timespec past = { 0, 0 };

	open_pool(&pool, 1, 2);
	CHECK(tags_join(&pool, &hand, 0) == TAGS_OK && tags_join(&pool, &other, 0) == TAGS_OK);
	refuse_times(&hand);
	CHECK(tags_get_timed(&hand, CLOCK_MONOTONIC, &past) == 0);
	time_out(&other, CLOCK_MONOTONIC);
	time_out(&other, CLOCK_REALTIME);
	CHECK(tags_get_timed(&other, CLOCK_MONOTONIC, &past) == TAGS_TIMED_OUT);
	CHECK(tags_get_notified(&other, ignore, NULL) == TAGS_NO_TAG);
	past = after(CLOCK_MONOTONIC, 10000000);
	CHECK(tags_get_timed(&other, CLOCK_MONOTONIC, &past) == TAGS_WAITING);
	CHECK(tags_cancel(&other) == TAGS_OK);
	CHECK(tags_clear(&hand, 0) == 0);
	CHECK(tags_get_timed(&other, CLOCK_REALTIME, &past) == 0);
	CHECK(tags_clear(&other, 0) == 0);
	CHECK(tags_leave(&hand) == TAGS_OK && tags_leave(&other) == TAGS_OK);
	close_pool(&pool);
}

static void *come_and_go(void *argument)
{
	struct thread *self = argument;

	while (self->limit_us ? !__atomic_load_n(&is_over, __ATOMIC_SEQ_CST) :
				self->gets < (uint64_t)rounds) {
		struct timespec end = after(CLOCK_MONOTONIC, self->limit_us);
		int32_t tag = self->limit_us ? tags_get_timed(&self->hand, CLOCK_MONOTONIC,
							      &end) :
					       tags_get_blocking(&self->hand);

		self->late += tag == TAGS_TIMED_OUT;
		self->gets += tag >= 0;
		check(tag >= 0 || (tag == TAGS_TIMED_OUT && self->limit_us), "come_and_go");
		sched_yield();
		if (tag >= 0)
			check(tags_clear(&self->hand, (uint32_t)tag) >= 0, "give");
	}
	return NULL;
}

/* Four threads without a limit, on few tags, among twelve that give up soon. */
static void give_up_among_others(uint32_t total)
{
	struct tags_pool pool = TAGS_EMPTY;
	uint64_t late = 0;

	open_pool(&pool, total, 16);
	is_over = false;
	for (int i = 0; i < 16; i++) {
		threads[i] = (struct thread){ .limit_us = i < 4 ? 0 : 20 * i };
		CHECK(tags_join(&pool, &threads[i].hand, 0) == TAGS_OK);
		CHECK(pthread_create(&threads[i].id, NULL, come_and_go, &threads[i]) == 0);
	}
	for (int i = 0; i < 16; i++) {
		__atomic_store_n(&is_over, i >= 4, __ATOMIC_SEQ_CST);
		pthread_join(threads[i].id, NULL);
		CHECK(tags_leave(&threads[i].hand) == TAGS_OK);
		late += threads[i].late;
	}
	close_pool(&pool);
	fprintf(stderr, "%" PRIu32 " tags: %" PRIu64 " waits were too long\n", total, late);
}

int main(int argc, char **argv)
{
	if (argc > 1)
		rounds = strtol(argv[1], NULL, 10);
	for (enum way way = CLEAR; way <= READ_CLEAR; way++) {
		wake_beside_free_tags(64, 1, 7, way);
		wake_beside_free_tags(64, 7, 7, way);
		wake_beside_free_tags(64, 20, 20, way);
		wake_beside_free_tags(64, 20, 3, way);
	}
	keep_to_a_deadline();
	give_up_among_others(1);
	give_up_among_others(3);
	printf("%" PRIu64 " wrong\n", wrong);
	return wrong != 0;
}
