/*
 * The edges of waiting: cancels, stops, leaves, eventfds that the program closes, two
 * event loops, whom a tag tells and in which order, reports and joins at once, and errno.
 * edges [ROUNDS]
 */
#define _GNU_SOURCE
#include <errno.h>
#include <fcntl.h>
#include <inttypes.h>
#include <poll.h>
#include <pthread.h>
#include <stdbool.h>
#include <stdio.h>
#include <stdlib.h>
#include <sys/eventfd.h>
#include <time.h>
#include <unistd.h>

#include "../tags.h"

#include "checks.h"
#include "sleeps.h"

enum { MOST = 8 };

static long rounds = 200;

static struct tags_pool pool;
static struct tags_hand hands[MOST + 1];
static int events[MOST];
/* threads that are about to wait, and what they were returned */
static uint32_t begun;
static int32_t answers[MOST];

/* What was added to the eventfd since it was read last. */
static uint64_t told(int event)
{
	uint64_t count = 0;

	return read(event, &count, sizeof(count)) == sizeof(count) ? count : 0;
}

static void await_waiting(int32_t count)
{
	while (tags_pool_waiting(&pool) != count)
		nap(20);
}

/*
 * Opens a pool of so many tags, all of which hand 0 holds, and lets so many other hands
 * join. With one tag in a word a get takes what it sweeps, so nobody is told twice.
 */
static void set_up(uint32_t total, uint32_t others)
{
	struct tags_options options = {
		.total = total,
		.hands = others + 1,
		.shift = TAGS_ONE_PER_WORD,
	};

	CHECK(tags_open(&pool, &options) == TAGS_OK);
	for (uint32_t i = 0; i <= others; i++)
		CHECK(tags_join(&pool, &hands[i], TAGS_STAY) == TAGS_OK);
	for (uint32_t tag = 0; tag < total; tag++)
		CHECK(tags_get(&hands[0]) == (int32_t)tag);
	for (uint32_t i = 0; i < others && i < MOST; i++)
		events[i] = eventfd(0, EFD_NONBLOCK);
}

static void clear_all(struct tags_hand *hand)
{
	struct tags_sizes sizes;

	CHECK(tags_show(hand, TAGS_ORDINARY, &sizes) == TAGS_OK);
	for (uint32_t tag = 0; tag < sizes.depth; tag++)
		if (tags_holds(hand, tag) == 1)
			CHECK(tags_clear(hand, tag) >= 0);
}

/* Every hand gives back what it holds, and the pool is closed: nothing waits any more. */
static void tear_down(uint32_t others)
{
	struct tags_sums sums;

	for (uint32_t i = 0; i <= others; i++) {
		if (!hands[i].place)
			continue;
		clear_all(&hands[i]);
		CHECK(tags_leave(&hands[i]) == TAGS_OK);
	}
	CHECK(tags_pool_waiting(&pool) == 0);
	CHECK(tags_resize(&pool, 5) == TAGS_OK);
	CHECK(tags_close(&pool, &sums) == TAGS_OK && sums.got == sums.back);
	for (uint32_t i = 0; i < others && i < MOST; i++)
		close(events[i]);
}

/*
 * Cancels
 */

static void *clear_cancelled(void *unused)
{
	pthread_cancel(pthread_self());
	CHECK(tags_clear(&hands[0], 0) >= 0);
	CHECK(tags_get_timed(&hands[0], CLOCK_MONOTONIC, &(struct timespec){ 0, 0 }) >= 0);
	CHECK(tags_clear(&hands[0], 0) >= 0);
	pthread_testcancel();
	return unused;
}

/* No call that gives tags back acts on a cancel, so whoever waits is told. */
static void cancel_a_clear(void)
{
	pthread_t id;
	void *result;

	set_up(1, 1);
	CHECK(tags_get_async(&hands[1], events[0]) == TAGS_NO_TAG);
	CHECK(pthread_create(&id, NULL, clear_cancelled, NULL) == 0);
	CHECK(pthread_join(id, &result) == 0 && result == PTHREAD_CANCELED);
	CHECK(told(events[0]) == 1 && tags_get_async(&hands[1], events[0]) == 0);
	tear_down(1);
}

static void *sleep_on(void *number)
{
	uintptr_t i = (uintptr_t)number;
	struct timespec end;

	clock_gettime(CLOCK_REALTIME, &end);
	end.tv_sec += 600;
	__atomic_fetch_add(&begun, 1, __ATOMIC_SEQ_CST);
	answers[i] = i % 2 ? tags_get_blocking(&hands[i]) :
			     tags_get_timed(&hands[i], CLOCK_REALTIME, &end);
	return number;
}

static void start(pthread_t *id, uintptr_t number)
{
	answers[number] = INT32_MIN;
	CHECK(pthread_create(id, NULL, sleep_on, (void *)number) == 0);
}

/* A cancelled sleeper waits no more, and its hand is as good as new. */
static void cancel_a_sleeper(void)
{
	pthread_t id;
	void *result;

	set_up(1, 2);
	for (uintptr_t i = 1; i <= 2; i++) {
		start(&id, i);
		await_asleep(1);
		CHECK(tags_pool_waiting(&pool) == 1);
		pthread_cancel(id);
		CHECK(pthread_join(id, &result) == 0 && result == PTHREAD_CANCELED);
		CHECK(tags_pool_waiting(&pool) == 0 && tags_waiting(&hands[0]) == 0);
		CHECK(tags_cancel(&hands[i]) == TAGS_NOT_WAITING);
		CHECK(tags_get_async(&hands[i], events[0]) == TAGS_NO_TAG);
		CHECK(tags_cancel(&hands[i]) == TAGS_OK);
	}
	tear_down(2);
}

/* A sleeper is cancelled while it is told of a tag. The other one gets the tag, unless the first has it. */
static void cancel_beside_a_clear(void)
{
	pthread_t ids[2];

	for (long round = 0; round < rounds; round++) {
		set_up(1, 2);
		start(&ids[0], 1);
		await_asleep(1);
		start(&ids[1], 2);
		/* in some rounds the cancel and the clear come while this one begins to wait */
		if (round % 4 < 2)
			await_asleep(2);
		nap(round % 7 * 20);
		if (round % 2)
			pthread_cancel(ids[0]);
		CHECK(tags_clear(&hands[0], 0) >= 0);
		if (round % 2 == 0)
			pthread_cancel(ids[0]);
		pthread_join(ids[0], NULL);
		if (answers[1] != INT32_MIN)
			CHECK(answers[1] == 0 && tags_clear(&hands[1], 0) >= 0);
		pthread_join(ids[1], NULL);
		CHECK(answers[2] == 0);
		tear_down(2);
	}
}

/*
 * Leaves
 */

static void leave_while_waiting(void)
{
	set_up(1, 2);
	CHECK(tags_get_async(&hands[1], events[0]) == TAGS_NO_TAG);
	CHECK(tags_get_async(&hands[2], events[1]) == TAGS_NO_TAG && tags_pool_waiting(&pool) == 2);
	CHECK(tags_leave(&hands[1]) == TAGS_OK && tags_pool_waiting(&pool) == 1);
	CHECK(tags_join(&pool, &hands[1], 0) == TAGS_OK);
	CHECK(tags_cancel(&hands[1]) == TAGS_NOT_WAITING);
	CHECK(tags_get_timed(&hands[1], CLOCK_MONOTONIC, &(struct timespec){ 0, 0 }) == TAGS_TIMED_OUT);
	CHECK(tags_waiting(&hands[0]) == 1);
	/* a hand that was told and leaves passes the tag on */
	CHECK(tags_get_async(&hands[1], events[0]) == TAGS_NO_TAG);
	CHECK(tags_clear(&hands[0], 0) >= 0 && told(events[1]) == 1 && told(events[0]) == 0);
	CHECK(tags_leave(&hands[2]) == TAGS_OK && told(events[0]) == 1);
	CHECK(tags_get_async(&hands[1], events[0]) == 0);
	tear_down(2);
}

/* A file that gets the number of a closed eventfd stays empty. */
static void reuse_a_descriptor(void)
{
	FILE *file = tmpfile();

	CHECK(file != NULL);
	for (int ends = 0; file && ends < 3; ends++) {
		int event = eventfd(0, EFD_NONBLOCK);

		set_up(1, 1);
		CHECK(tags_get_async(&hands[1], event) == TAGS_NO_TAG);
		if (ends == 0)
			CHECK(tags_leave(&hands[1]) == TAGS_OK);
		if (ends == 1)
			CHECK(tags_cancel(&hands[1]) == TAGS_OK);
		if (ends == 2)
			CHECK(tags_get_async(&hands[1], events[0]) == TAGS_NO_TAG);
		close(event);
		CHECK(dup2(fileno(file), event) == event);
		CHECK(tags_clear(&hands[0], 0) >= 0);
		CHECK(lseek(event, 0, SEEK_END) == 0);
		close(event);
		tear_down(1);
	}
	if (file)
		fclose(file);
}

/* A hand whose eventfd was closed can't be told, so the next one is. */
static void pass_over_a_closed_descriptor(void)
{
	set_up(1, 3);
	for (int i = 0; i < 3; i++)
		CHECK(tags_get_async(&hands[i + 1], events[i]) == TAGS_NO_TAG);
	close(events[0]);
	CHECK(tags_clear(&hands[0], 0) >= 0);
	CHECK(told(events[1]) == 1 && told(events[2]) == 0);
	CHECK(tags_cancel(&hands[1]) == TAGS_OK);
	CHECK(tags_get_async(&hands[2], events[1]) == 0);
	CHECK(tags_cancel(&hands[3]) == TAGS_OK);
	tear_down(3);
}

/*
 * Whom a tag tells
 */

static void tell_as_many(void)
{
	const uint32_t tags[] = { 0, 1, 2 };
	int one = eventfd(0, EFD_NONBLOCK);

	set_up(8, MOST);
	for (int i = 1; i <= MOST; i++)
		CHECK(tags_get_async(&hands[i], one) == TAGS_NO_TAG);
	CHECK(tags_clear_batch(&hands[0], tags, 3) >= 0 && told(one) == 3);
	CHECK(tags_clear_mask(&hands[0], 3, 3) >= 0 && told(one) == 2);
	CHECK(tags_clear(&hands[0], 5) >= 0 && told(one) == 1);
	CHECK(tags_clear(&hands[0], 6) >= 0 && tags_clear(&hands[0], 7) >= 0 && told(one) == 2);
	/* the eight who were told, each of whom gets one */
	for (int i = MOST; i >= 1; i--)
		CHECK(tags_get_async(&hands[i], one) >= 0);
	CHECK(told(one) == 0 && tags_pool_waiting(&pool) == 0);
	close(one);
	tear_down(MOST);
}

/* Who has waited longest is told first. A try that finds nothing does not cost a hand its turn. */
static void keep_turns(void)
{
	int32_t tag;

	set_up(2, 4);
	for (int i = 1; i <= 3; i++)
		CHECK(tags_get_async(&hands[i], events[i - 1]) == TAGS_NO_TAG);
	CHECK(tags_get_async(&hands[1], events[0]) == TAGS_NO_TAG);
	CHECK(tags_clear(&hands[0], 0) >= 0 && told(events[0]) == 1);
	CHECK(tags_get(&hands[4]) == 0);
	CHECK(tags_get_async(&hands[1], events[0]) == TAGS_NO_TAG);
	CHECK(tags_clear(&hands[0], 1) >= 0 && told(events[0]) == 1);
	CHECK(tags_clear(&hands[4], 0) >= 0 && told(events[1]) == 1 && told(events[2]) == 0);
	/* who was told and has a tag sees another one free, and tells the next */
	tag = tags_get_async(&hands[1], events[0]);
	CHECK(tag >= 0 && told(events[2]) == 1);
	CHECK(tags_get_async(&hands[2], events[1]) >= 0);
	CHECK(tags_get_async(&hands[3], events[2]) == TAGS_NO_TAG);
	/* a new wait is a new turn */
	CHECK(tags_get_async(&hands[1], events[0]) == TAGS_NO_TAG);
	CHECK(tags_clear(&hands[1], (uint32_t)tag) >= 0 && told(events[2]) == 1 && told(events[0]) == 0);
	/* the hand that was told ends its wait, so the next one is told */
	CHECK(tags_cancel(&hands[3]) == TAGS_OK && told(events[0]) == 1);
	CHECK(tags_get_async(&hands[1], events[0]) == tag);
	tear_down(4);
}

struct loop {
	pthread_t id;
	struct tags_hand *hand;
	int event;
	int32_t tag;
};

/* An event loop with one hand and an eventfd of its own. */
static void *serve(void *argument)
{
	struct loop *self = argument;
	struct pollfd look = { self->event, POLLIN, 0 };

	__atomic_fetch_add(&begun, 1, __ATOMIC_SEQ_CST);
	while ((self->tag = tags_get_async(self->hand, self->event)) == TAGS_NO_TAG) {
		CHECK(poll(&look, 1, -1) == 1);
		told(self->event);
	}
	return NULL;
}

/* Two loops wait, and both tags go back at once. */
static void run_two_loops(void)
{
	struct loop loops[2];

	for (long round = 0; round < rounds; round++) {
		const uint32_t tags[] = { 0, 1 };

		set_up(2, 2);
		for (int i = 0; i < 2; i++) {
			loops[i] = (struct loop){ .hand = &hands[i + 1], .event = events[i] };
			CHECK(pthread_create(&loops[i].id, NULL, serve, &loops[i]) == 0);
		}
		await_waiting(2);
		CHECK(tags_clear_batch(&hands[0], tags, 2) >= 0);
		for (int i = 0; i < 2; i++)
			pthread_join(loops[i].id, NULL);
		CHECK(loops[0].tag + loops[1].tag == 1);
		tear_down(2);
	}
}

/*
 * Stops
 */

static void stop_each_wait(void)
{
	struct timespec past = { 0, 0 };
	pthread_t ids[4];

	set_up(1, 6);
	for (uintptr_t i = 1; i <= 4; i++)
		start(&ids[i - 1], i);
	CHECK(tags_get_async(&hands[5], events[4]) == TAGS_NO_TAG);
	CHECK(tags_get_async(&hands[6], events[4]) == TAGS_NO_TAG);
	await_asleep(4);
	CHECK(tags_pool_waiting(&pool) == 6);
	CHECK(tags_stop(&pool) == TAGS_OK && tags_stop(&pool) == TAGS_OK);
	for (int i = 1; i <= 4; i++) {
		pthread_join(ids[i - 1], NULL);
		CHECK(answers[i] == TAGS_STOPPED);
	}
	CHECK(told(events[4]) == 2 && tags_get_async(&hands[5], events[4]) == TAGS_STOPPED);
	CHECK(tags_cancel(&hands[5]) == TAGS_NOT_WAITING);
	/* hand 6 has not repeated its call */
	CHECK(tags_pool_waiting(&pool) == 1);
	/* tags still go back, and whoever does not wait may take one */
	CHECK(tags_clear(&hands[0], 0) >= 0 && tags_get(&hands[1]) == 0);
	CHECK(tags_clear(&hands[1], 0) >= 0);
	CHECK(tags_get_blocking(&hands[1]) == TAGS_STOPPED);
	CHECK(tags_get_timed(&hands[2], CLOCK_MONOTONIC, &past) == TAGS_STOPPED);
	CHECK(tags_get_async(&hands[3], events[0]) == TAGS_STOPPED && told(events[0]) == 0);
	tear_down(6);
}

static void *stop(void *unused)
{
	nap((long)(rounds % 5) * 10);
	CHECK(tags_stop(&pool) == TAGS_OK);
	return unused;
}

/* However a stop meets those who begin to wait, each wait ends. */
static void stop_among_others(void)
{
	pthread_t ids[4];
	pthread_t stopper;

	for (long round = 0; round < rounds; round++) {
		set_up(1, 3);
		for (uintptr_t i = 1; i <= 2; i++)
			start(&ids[i], i);
		CHECK(pthread_create(&stopper, NULL, stop, NULL) == 0);
		while (tags_get_async(&hands[3], events[0]) == TAGS_NO_TAG) {
			struct pollfd look = { events[0], POLLIN, 0 };

			CHECK(poll(&look, 1, -1) == 1);
			told(events[0]);
		}
		pthread_join(stopper, NULL);
		for (int i = 1; i <= 2; i++) {
			pthread_join(ids[i], NULL);
			CHECK(answers[i] == TAGS_STOPPED);
		}
		tear_down(3);
	}
}

/*
 * The pool's handle, which joins, stops and reports use at once
 */

enum { TAGS = 70, LAST = TAGS - 1 };

static void *come_and_go(void *number)
{
	struct tags_hand *hand = &hands[(uintptr_t)number];

	for (long round = 0; round < rounds; round++) {
		int32_t tag;

		CHECK(tags_join(&pool, hand, 0) == TAGS_OK);
		tag = tags_get(hand);
		CHECK(tag >= 0 && tags_clear(hand, (uint32_t)tag) >= 0);
		CHECK(tags_leave(hand) == TAGS_OK);
	}
	__atomic_fetch_sub(&begun, 1, __ATOMIC_SEQ_CST);
	return number;
}

/* Counts tags in ascending order; a call through the handle works here, as it has no lock. */
static int count_tag(uint32_t tag, void *count)
{
	uint32_t *next = count;

	CHECK(tag < TAGS && tag >= *next);
	*next = tag + 1;
	CHECK(tags_pool_total(&pool) == TAGS);
	return 0;
}

/* The last tag is busy all the while, so it is passed. */
static void report_each(uint32_t others)
{
	uint32_t next = 0;
	int32_t calls = tags_pool_each_busy(&pool, count_tag, &next);

	CHECK(next == TAGS && calls >= 1 && calls <= (int32_t)TAGS);
	if (others == 0)
		CHECK(calls == 1);
}

/* Hand 0 holds the last tag, and up to @others other tags are busy. */
static void report(uint32_t others)
{
	const uint64_t last = UINT64_C(1) << LAST % 64;
	uint64_t bits[LAST / 64 + 1];
	struct tags_sizes sizes;
	int32_t busy = tags_pool_busy(&pool, bits, LAST / 64 + 1);
	int32_t ones = 0;

	report_each(others);
	for (uint32_t tag = 0; tag < (LAST / 64 + 1) * 64; tag++)
		ones += (bits[tag / 64] >> tag % 64 & 1) != 0;
	CHECK(busy == ones && busy >= 1 && (bits[LAST / 64] & last));
	CHECK((bits[LAST / 64] & ~(last | (last - 1))) == 0);
	CHECK(tags_pool_show(&pool, TAGS_ORDINARY, &sizes) == TAGS_OK);
	CHECK(sizes.depth == TAGS && sizes.busy >= 1 && sizes.busy + sizes.cleared <= TAGS);
	CHECK(tags_pool_waiting(&pool) >= 0);
	if (others == 0)
		CHECK(busy == 1 && sizes.busy == 1 && tags_pool_waiting(&pool) == 0);
}

/* Without a hand: while all are out, and while threads join, work and leave. */
static void report_at_any_time(void)
{
	struct tags_hand extra = TAGS_EMPTY;
	uint64_t bits[2];
	pthread_t ids[MOST + 1];

	set_up(TAGS, MOST);
	CHECK(tags_join(&pool, &extra, 0) == TAGS_NO_HAND);
	CHECK(tags_pool_busy(&pool, bits, 2) == TAGS && bits[0] == UINT64_MAX && bits[1] == 63);
	CHECK(tags_get_async(&hands[1], events[0]) == TAGS_NO_TAG);
	CHECK(tags_pool_waiting(&pool) == 1);
	for (uint32_t i = 1; i <= MOST; i++)
		CHECK(tags_leave(&hands[i]) == TAGS_OK);
	for (uint32_t tag = 0; tag < LAST; tag++)
		CHECK(tags_clear(&hands[0], tag) >= 0);
	report(0);
	__atomic_store_n(&begun, MOST, __ATOMIC_SEQ_CST);
	for (uintptr_t i = 1; i <= MOST; i++)
		CHECK(pthread_create(&ids[i], NULL, come_and_go, (void *)i) == 0);
	while (__atomic_load_n(&begun, __ATOMIC_SEQ_CST) > 0)
		report(MOST);
	for (int i = 1; i <= MOST; i++)
		pthread_join(ids[i], NULL);
	report(0);
	tear_down(MOST);
}

/*
 * errno
 */

#define KEEPS(call) (errno = 77, (void)(call), check(errno == 77, "errno of " #call))

/* An eventfd whose count is full refuses to be told, and a closed one too. */
static void keep_errno(void)
{
	struct timespec end;
	const uint64_t full = UINT64_MAX - 1;
	struct tags_sums sums;
	pthread_t id;

	set_up(1, 3);
	CHECK(write(events[0], &full, sizeof(full)) == sizeof(full));
	KEEPS(CHECK(tags_get_async(&hands[1], events[0]) == TAGS_NO_TAG));
	KEEPS(CHECK(tags_get_async(&hands[2], 1000000) == TAGS_NO_TAG));
	start(&id, 3);
	await_asleep(1);
	CHECK(tags_pool_waiting(&pool) == 3);
	KEEPS(CHECK(tags_clear(&hands[0], 0) >= 0));
	pthread_join(id, NULL);
	CHECK(answers[3] == 0);
	KEEPS(CHECK(tags_clear(&hands[3], 0) >= 0));
	CHECK(tags_get(&hands[0]) == 0);
	clock_gettime(CLOCK_MONOTONIC, &end);
	end.tv_nsec += end.tv_nsec < 990000000 ? 9000000 : 0;
	KEEPS(CHECK(tags_get_timed(&hands[3], CLOCK_MONOTONIC, &end) == TAGS_TIMED_OUT));
	KEEPS(CHECK(tags_cancel(&hands[1]) == TAGS_OK));
	KEEPS(CHECK(tags_leave(&hands[2]) == TAGS_OK));
	CHECK(tags_get_async(&hands[1], 1000000) == TAGS_NO_TAG);
	KEEPS(CHECK(tags_stop(&pool) == TAGS_OK));
	KEEPS(CHECK(tags_join(&pool, &hands[2], 0) == TAGS_OK));
	KEEPS(CHECK(tags_resize(&pool, 9) == TAGS_HANDS_OUT));
	KEEPS(CHECK(tags_close(&pool, &sums) == TAGS_HANDS_OUT));
	tear_down(3);
}

/*
 * The address sanitizer does not see that a cancel ends the frames of a thread, and would
 * report them when it gives up the thread's stack for signals.
 */
const char *__asan_default_options(void);

const char *__asan_default_options(void)
{
	return "use_sigaltstack=0";
}

int main(int argc, char **argv)
{
	if (argc > 1)
		rounds = strtol(argv[1], NULL, 10);
	cancel_a_clear();
	cancel_a_sleeper();
	cancel_beside_a_clear();
	leave_while_waiting();
	reuse_a_descriptor();
	pass_over_a_closed_descriptor();
	tell_as_many();
	keep_turns();
	run_two_loops();
	stop_each_wait();
	stop_among_others();
	report_at_any_time();
	keep_errno();
	printf("%" PRIu64 " wrong\n", wrong);
	return wrong != 0;
}
