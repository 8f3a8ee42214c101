/*
 * Whoever a stop ends sees what was written before it, in each wait: the words are plain, so that the
 * thread sanitizer reports where that is not so. The stop comes from a thread, or by a signal.
 * stops [ROUNDS]
 */
#define _GNU_SOURCE
#include <inttypes.h>
#include <poll.h>
#include <pthread.h>
#include <signal.h>
#include <stdbool.h>
#include <stdio.h>
#include <stdlib.h>
#include <sys/eventfd.h>
#include <time.h>
#include <unistd.h>

#include <tags.h>

#include "checks.h"
#include "sleeps.h"

enum wait {
	BLOCKING,
	TIMED,
	EVENT,
	FUNCTION,
	RESERVED,
	RESERVED_TIMED,
	RESERVED_EVENT,
	NEXT,
	NEXT_TIMED,
	NEXT_EVENT,
	NEXT_FUNCTION,
	JOIN,
	JOIN_TIMED,
	WAITS
};

static struct tags_pool pool;
static struct tags_hand holder, hands[WAITS];
static int events[WAITS];
/* why the pool was stopped: plain */
static int reason;
static sigset_t signals;

static void sleep_on(int event)
{
	struct pollfd look = { event, POLLIN, 0 };

	CHECK(poll(&look, 1, -1) == 1);
}

/* No write() and read() of this program order anything. */
static void call(void *event)
{
	uint64_t one = 1;

	CHECK(write(*(int *)event, &one, sizeof(one)) == sizeof(one));
}

static int32_t wait_in(enum wait how)
{
	struct tags_hand *hand = &hands[how];
	struct timespec end;
	int32_t answer;

	clock_gettime(CLOCK_MONOTONIC, &end);
	end.tv_sec += 600;
	switch (how) {
	case BLOCKING:
		return tags_get_blocking(hand);
	case TIMED:
		return tags_get_timed(hand, CLOCK_MONOTONIC, &end);
	case EVENT:
		while ((answer = tags_get_async(hand, events[how])) == TAGS_NO_TAG)
			sleep_on(events[how]);
		return answer;
	case FUNCTION:
		while ((answer = tags_get_notified(hand, call, &events[how])) == TAGS_NO_TAG)
			sleep_on(events[how]);
		return answer;
	case RESERVED:
		return tags_get_reserved_blocking(hand);
	case RESERVED_TIMED:
		return tags_get_reserved_timed(hand, CLOCK_MONOTONIC, &end);
	case RESERVED_EVENT:
		while ((answer = tags_get_reserved_async(hand, events[how])) == TAGS_NO_TAG)
			sleep_on(events[how]);
		return answer;
	case NEXT:
		return tags_next_blocking(hand, 1);
	case NEXT_TIMED:
		return tags_next_timed(hand, 1, CLOCK_MONOTONIC, &end);
	case NEXT_EVENT:
		while ((answer = tags_next_async(hand, 1, events[how])) == TAGS_NO_TAG)
			sleep_on(events[how]);
		return answer;
	case NEXT_FUNCTION:
		while ((answer = tags_next_notified(hand, 1, call, &events[how])) == TAGS_NO_TAG)
			sleep_on(events[how]);
		return answer;
	case JOIN:
		return tags_join_blocking(&pool, hand, 0);
	default:
		return tags_join_timed(&pool, hand, 0, CLOCK_MONOTONIC, &end);
	}
}

static void *run(void *argument)
{
	const enum wait how = *(enum wait *)argument;

	CHECK(wait_in(how) == TAGS_STOPPED);
	CHECK(reason == SIGINT);
	/* the wait of one that begins now is ended at once */
	CHECK(wait_in(how) == TAGS_STOPPED);
	return NULL;
}

static void set_up(void)
{
	const struct tags_options options = { .total = 2, .reserved = 1, .hands = 1 + JOIN, .queues = 2 };

	reason = 0;
	CHECK(tags_open(&pool, &options) == TAGS_OK);
	CHECK(tags_join(&pool, &holder, 0) == TAGS_OK);
	CHECK(tags_get_reserved(&holder) == 0 && tags_get(&holder) == 1);
	for (int i = 0; i < JOIN; i++)
		CHECK(tags_join(&pool, &hands[i], 0) == TAGS_OK);
	for (int i = 0; i < WAITS; i++)
		events[i] = eventfd(0, 0);
}

static void tear_down(void)
{
	struct tags_sums sums;

	CHECK(tags_clear(&holder, 0) == TAGS_OK && tags_clear(&holder, 1) == TAGS_OK);
	tags_leave(&holder);
	for (int i = 0; i < WAITS; i++)
		close(events[i]);
	for (int i = 0; i < JOIN; i++)
		CHECK(tags_leave(&hands[i]) == TAGS_OK);
	CHECK(tags_close(&pool, &sums) == TAGS_OK && sums.got == sums.back);
}

static void stop_now(void)
{
	reason = SIGINT;
	CHECK(tags_stop(&pool) == TAGS_OK);
}

/* Of a program that has blocked these signals in all threads. */
static void *await_signal(void *unused)
{
	int number;

	if (sigwait(&signals, &number) == 0)
		reason = number;
	tags_stop(&pool);
	return unused;
}

static void stop_by_signal(void)
{
	pthread_t id;

	CHECK(pthread_create(&id, NULL, await_signal, NULL) == 0);
	CHECK(kill(getpid(), SIGINT) == 0);
	pthread_join(id, NULL);
}

/* Six threads sleep for tags, two for a hand, and all but these two wait for tags. */
static void await_all(void)
{
	await_asleep(8);
	while (tags_pool_waiting(&pool) != JOIN)
		nap(100);
}

/* The stop comes so long after they began to wait, or while all wait. */
enum { ALL_WAIT = -1 };

static void stop_all(long us, void (*stop)(void))
{
	enum wait hows[WAITS];
	pthread_t ids[WAITS];

	set_up();
	for (int i = 0; i < WAITS; i++) {
		hows[i] = (enum wait)i;
		CHECK(pthread_create(&ids[i], NULL, run, &hows[i]) == 0);
	}
	if (us == ALL_WAIT)
		await_all();
	else
		nap(us);
	stop();
	for (int i = 0; i < WAITS; i++)
		pthread_join(ids[i], NULL);
	tear_down();
}

int main(int argc, char **argv)
{
	const long rounds = argc > 1 ? strtol(argv[1], NULL, 10) : 100;

	sigemptyset(&signals);
	sigaddset(&signals, SIGINT);
	pthread_sigmask(SIG_BLOCK, &signals, NULL);
	stop_all(ALL_WAIT, stop_now);
	for (long round = 0; round < rounds; round++)
		stop_all(round % 7 * 20, stop_now);
	stop_all(ALL_WAIT, stop_by_signal);
	printf("%" PRIu64 " wrong\n", wrong);
	return wrong != 0;
}
