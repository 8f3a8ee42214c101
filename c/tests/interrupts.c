/*
 * What a cancel and a signal do to a thread in each call that sleeps. A cancel ends the thread, whose
 * handlers run in order and on a sound stack, and leaves nothing behind; a signal ends no wait.
 */
#define _GNU_SOURCE
#include <inttypes.h>
#include <pthread.h>
#include <signal.h>
#include <stdbool.h>
#include <stdio.h>
#include <string.h>
#include <time.h>

#include <tags.h>

#include "checks.h"
#include "sleeps.h"

enum wait {
	GET,
	GET_TIMED,
	GET_IN_REAL_TIME,
	RESERVED,
	RESERVED_TIMED,
	RESERVED_IN_REAL_TIME,
	NEXT,
	NEXT_TIMED,
	NEXT_IN_REAL_TIME,
	JOIN,
	JOIN_TIMED,
	JOIN_IN_REAL_TIME,
	DRAIN,
	DRAIN_TIMED,
	DRAIN_IN_REAL_TIME,
	LIST,
	LIST_TIMED,
	LIST_IN_REAL_TIME,
	WAITS
};

static struct tags_pool pool;
/* one holds the only tag; the other one waits, or leaves so that there is one to wait for */
static struct tags_hand holder, waiter, late;
static int32_t tag, answer;
/* the handlers that have run, and the signals that were handled */
static char ran[8];
static int handled;

/* The first of the waits that are for the same. */
static enum wait kind_of(enum wait how)
{
	return how / 3 * 3;
}

static void set_up(enum wait how)
{
	const bool is_reserved = kind_of(how) == RESERVED;
	const struct tags_options options = { .total = 1, .reserved = is_reserved, .hands = 2, .queues = 1 };

	answer = INT32_MIN;
	memset(ran, 0, sizeof(ran));
	CHECK(tags_open(&pool, &options) == TAGS_OK);
	CHECK(tags_join(&pool, &holder, 0) == TAGS_OK && tags_join(&pool, &waiter, 0) == TAGS_OK);
	tag = TAGS_MUST(is_reserved ? tags_get_reserved(&holder) : tags_get(&holder));
}

static void tear_down(void)
{
	struct tags_sums sums;

	CHECK(tags_pool_waiting(&pool) == 0);
	tags_leave(&waiter);
	tags_leave(&holder);
	CHECK(tags_close(&pool, &sums) == TAGS_OK && sums.got == sums.back);
}

/*
 * A wait
 */

static int32_t wait_in(enum wait how)
{
	const clockid_t clocks[] = { CLOCK_MONOTONIC, CLOCK_MONOTONIC, CLOCK_REALTIME };
	const clockid_t clock = clocks[how % 3];
	const uint32_t listed = (uint32_t)tag;
	struct timespec end;

	clock_gettime(clock, &end);
	end.tv_sec += 600;
	switch (kind_of(how)) {
	case GET:
		return how == GET ? tags_get_blocking(&waiter) : tags_get_timed(&waiter, clock, &end);
	case RESERVED:
		return how == RESERVED ? tags_get_reserved_blocking(&waiter) :
					 tags_get_reserved_timed(&waiter, clock, &end);
	case NEXT:
		return how == NEXT ? tags_next_blocking(&waiter, 0) : tags_next_timed(&waiter, 0, clock, &end);
	case JOIN:
		return how == JOIN ? tags_join_blocking(&pool, &late, 0) :
				     tags_join_timed(&pool, &late, 0, clock, &end);
	case DRAIN:
		return how == DRAIN ? tags_drain(&pool) : tags_drain_timed(&pool, clock, &end);
	default:
		return how == LIST ? tags_drain_list(&pool, &listed, 1) :
				     tags_drain_list_timed(&pool, &listed, 1, clock, &end);
	}
}

/* It fails where the stack is misaligned, as numbers like these are kept by aligned instructions. */
static void note(void *letter)
{
	const double numbers[] = { 0.25 * answer, 0.5, 0.125 };
	char text[64];

	CHECK(snprintf(text, sizeof(text), "%.3f %.3f", numbers[1], numbers[2]) == 11);
	ran[strlen(ran)] = *(const char *)letter;
}

static void *run(void *how)
{
	int type;

	pthread_cleanup_push(note, "a");
	pthread_cleanup_push(note, "b");
	answer = wait_in(*(enum wait *)how);
	pthread_cleanup_pop(0);
	pthread_cleanup_pop(0);
	pthread_setcanceltype(PTHREAD_CANCEL_DEFERRED, &type);
	CHECK(type != PTHREAD_CANCEL_ASYNCHRONOUS);
	return NULL;
}

/* Returns once the thread sleeps. It counts as waiting, unless it waits for a hand. */
static pthread_t start(enum wait *how)
{
	pthread_t id;

	CHECK(pthread_create(&id, NULL, run, how) == 0);
	await_asleep(1);
	CHECK(tags_pool_waiting(&pool) == (kind_of(*how) != JOIN));
	return id;
}

/* What the thread waits for is there from now on. */
static void give(enum wait how)
{
	if (kind_of(how) == JOIN)
		CHECK(tags_leave(&waiter) == TAGS_OK);
	else if (kind_of(how) == NEXT)
		CHECK(tags_submit(&holder, (uint32_t)tag) == TAGS_OK);
	else
		CHECK(tags_clear(&holder, (uint32_t)tag) == TAGS_OK);
}

/* Takes back what a wait ended with. */
static void take_back(enum wait how)
{
	if (kind_of(how) == GET || kind_of(how) == RESERVED || kind_of(how) == NEXT)
		CHECK(answer == tag && tags_clear(&waiter, (uint32_t)tag) == TAGS_OK);
	else
		CHECK(answer == TAGS_OK);
	if (kind_of(how) == JOIN) {
		CHECK(tags_leave(&late) == TAGS_OK);
		CHECK(tags_clear(&holder, (uint32_t)tag) == TAGS_OK);
	}
}

/*
 * Cancels
 */

static void cancel(enum wait how)
{
	pthread_t id;
	void *result;

	set_up(how);
	id = start(&how);
	CHECK(pthread_cancel(id) == 0 && pthread_join(id, &result) == 0);
	CHECK(result == PTHREAD_CANCELED && answer == INT32_MIN && strcmp(ran, "ba") == 0);
	CHECK(!late.full && tags_pool_waiting(&pool) == 0);
	/* the same wait is begun anew, and gets what it waits for */
	id = start(&how);
	give(how);
	CHECK(pthread_join(id, &result) == 0 && result == NULL);
	take_back(how);
	tear_down();
}

static void *wait_cancelled(void *how)
{
	pthread_cancel(pthread_self());
	return run(how);
}

/* A thread that was cancelled before it sleeps does not sleep. */
static void cancel_before(enum wait how)
{
	pthread_t id;
	void *result;

	set_up(how);
	CHECK(pthread_create(&id, NULL, wait_cancelled, &how) == 0 && pthread_join(id, &result) == 0);
	CHECK(result == PTHREAD_CANCELED && strcmp(ran, "ba") == 0);
	CHECK(tags_clear(&holder, (uint32_t)tag) == TAGS_OK);
	tear_down();
}

/*
 * Signals
 */

static void handle(int signal)
{
	(void)signal;
	__atomic_add_fetch(&handled, 1, __ATOMIC_SEQ_CST);
}

static void interrupt(enum wait how, int flags)
{
	struct sigaction action;
	pthread_t id;

	memset(&action, 0, sizeof(action));
	action.sa_handler = handle;
	action.sa_flags = flags;
	CHECK(sigaction(SIGUSR1, &action, NULL) == 0);
	set_up(how);
	__atomic_store_n(&handled, 0, __ATOMIC_SEQ_CST);
	id = start(&how);
	for (int i = 1; i <= 3; i++) {
		CHECK(pthread_kill(id, SIGUSR1) == 0);
		while (__atomic_load_n(&handled, __ATOMIC_SEQ_CST) < i)
			nap(1000);
	}
	/* that it does not end, only time shows */
	nap(5000);
	CHECK(answer == INT32_MIN);
	give(how);
	CHECK(pthread_join(id, NULL) == 0);
	take_back(how);
	tear_down();
}

/* The address sanitizer would report the frames that a cancel ended. */
const char *__asan_default_options(void);

const char *__asan_default_options(void)
{
	return "use_sigaltstack=0";
}

int main(void)
{
	for (enum wait how = GET; how < WAITS; how++) {
		cancel(how);
		cancel_before(how);
		interrupt(how, 0);
		interrupt(how, SA_RESTART);
	}
	printf("%" PRIu64 " wrong\n", wrong);
	return wrong != 0;
}
