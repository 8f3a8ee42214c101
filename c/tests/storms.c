/*
 * Cancels, stops, leaves and resizes at random, among threads that wait in each way: no tag
 * has two holders, nobody waits for ever, and the sums balance. storms [SECONDS [SEED]]
 *
 * A round opens a pool, starts threads, cancels some of them in their sleep, each of which
 * a new thread follows on the same hand, and stops the pool.
 */
#define _GNU_SOURCE
#include <errno.h>
#include <inttypes.h>
#include <poll.h>
#include <pthread.h>
#include <sched.h>
#include <stdbool.h>
#include <stdio.h>
#include <stdlib.h>
#include <string.h>
#include <sys/eventfd.h>
#include <sys/syscall.h>
#include <time.h>
#include <unistd.h>

#include "../tags.h"

enum { MOST = 8, TOTAL = 4, AN_HOUR = 3600 };

struct worker {
	pthread_t id;
	struct tags_hand hand;
	int event;
	uint64_t state;
};

static struct tags_pool pool;
static struct worker workers[MOST];
static uint32_t count;
/* who has each tag, from 1; 0 for nobody */
static uint32_t owners[TOTAL];
static uint64_t tags_got;
static uint64_t cancels;

static void fail(const char *what, int64_t number)
{
	fprintf(stderr, "wrong: %s: %" PRId64 "\n", what, number);
	exit(1);
}

static void want(bool is_well, const char *what, int64_t number)
{
	if (!is_well)
		fail(what, number);
}

static uint32_t draw(uint64_t *state, uint32_t bound)
{
	*state = *state * 6364136223846793005u + 1442695040888963407u;
	return (uint32_t)(*state >> 33) % bound;
}

static struct timespec after(int clock, long us)
{
	struct timespec end;

	clock_gettime(clock, &end);
	end.tv_nsec += us % 1000000 * 1000;
	end.tv_sec += us / 1000000 + end.tv_nsec / 1000000000;
	end.tv_nsec %= 1000000000;
	return end;
}

static void nap(long us)
{
	struct timespec time = { us / 1000000, us % 1000000 * 1000 };

	nanosleep(&time, NULL);
}

/* Only here a cancel may act, mostly asleep: the thread holds no tag then. */
static int32_t sleep_for_tag(struct worker *self)
{
	const int clock = draw(&self->state, 2) ? CLOCK_REALTIME : CLOCK_MONOTONIC;
	const bool is_short = draw(&self->state, 3) == 0;
	const struct timespec end = after(clock, is_short ? (long)draw(&self->state, 300) :
							    AN_HOUR * 1000000L);
	const bool is_timed = is_short || draw(&self->state, 2);
	int32_t tag;
	int was;

	pthread_setcancelstate(PTHREAD_CANCEL_ENABLE, &was);
	if (draw(&self->state, 8) == 0)
		pthread_testcancel();
	tag = is_timed ? tags_get_timed(&self->hand, clock, &end) : tags_get_blocking(&self->hand);
	pthread_setcancelstate(was, &was);
	want(is_short || tag != TAGS_TIMED_OUT, "a thread sleeps for an hour", tag);
	return tag;
}

/*
 * glibc 2.36 acts on a cancel that is on its way when the thread disables cancels, once the
 * thread enters a cancellation point. So the system calls below are none. Its signal may
 * interrupt them.
 */
static void await_event(struct worker *self)
{
	struct pollfd look = { self->event, POLLIN, 0 };
	uint64_t unused;
	long told;

	do
		told = syscall(SYS_ppoll, &look, 1, NULL, NULL, 0);
	while (told < 0 && errno == EINTR);
	want(told == 1, "a poll", told);
	want(syscall(SYS_read, self->event, &unused, sizeof(unused)) > 0, "an eventfd", 0);
}

/* Waits as an event loop does, and gives up now and then, by a cancel or by a leave. */
static int32_t listen_for_tag(struct worker *self)
{
	int32_t tag;

	while ((tag = tags_get_async(&self->hand, self->event)) == TAGS_NO_TAG) {
		if (draw(&self->state, 4) == 0) {
			want(tags_cancel(&self->hand) == TAGS_OK, "a cancel", 0);
			return TAGS_NO_TAG;
		}
		if (draw(&self->state, 4) == 0) {
			want(tags_leave(&self->hand) == TAGS_OK, "a leave", 0);
			want(tags_join(&pool, &self->hand, 0) == TAGS_OK, "a join", 0);
			continue;
		}
		await_event(self);
	}
	return tag;
}

static void hold(struct worker *self, uint32_t tag)
{
	const uint32_t me = (uint32_t)(self - workers) + 1;

	want(__atomic_exchange_n(&owners[tag], me, __ATOMIC_SEQ_CST) == 0, "two holders", tag);
	__atomic_fetch_add(&tags_got, 1, __ATOMIC_RELAXED);
	for (volatile uint32_t i = draw(&self->state, 3000); i > 0; i--)
		;
	if (draw(&self->state, 64) == 0)
		sched_yield();
	want(__atomic_exchange_n(&owners[tag], 0, __ATOMIC_SEQ_CST) == me, "lost", tag);
	want(tags_clear(&self->hand, tag) >= 0, "a clear", tag);
}

static void *work(void *argument)
{
	struct worker *self = argument;
	int32_t tag;
	int was;

	pthread_setcancelstate(PTHREAD_CANCEL_DISABLE, &was);
	do {
		tag = draw(&self->state, 3) ? sleep_for_tag(self) : listen_for_tag(self);
		if (tag >= 0)
			hold(self, (uint32_t)tag);
	} while (tag >= 0 || tag == TAGS_TIMED_OUT || tag == TAGS_NO_TAG);
	want(tag == TAGS_STOPPED, "an answer", tag);
	return self;
}

static void start(struct worker *worker)
{
	want(pthread_create(&worker->id, NULL, work, worker) == 0, "a thread", worker - workers);
}

/* Another thread goes on with the hand of one that was cancelled. */
static void cancel(struct worker *worker)
{
	void *result;

	pthread_cancel(worker->id);
	pthread_join(worker->id, &result);
	want(result == PTHREAD_CANCELED, "a cancel", worker - workers);
	cancels++;
	start(worker);
}

static void open_pool(uint64_t *state)
{
	struct tags_options options = TAGS_OPTIONS_INIT;

	count = 2 + draw(state, MOST - 1);
	options.total = 1 + draw(state, TOTAL);
	options.hands = count;
	options.shift = (int32_t)draw(state, 3);
	if (draw(state, 3) == 0) {
		options.cache = 1 + draw(state, 2);
		options.flags = TAGS_KEEP_WHILE_HOLDING;
	}
	want(tags_open(&pool, &options) == TAGS_OK, "an open", 0);
	for (uint32_t i = 0; i < count; i++) {
		want(tags_join(&pool, &workers[i].hand, 0) == TAGS_OK, "a join", i);
		workers[i].state = *state + i;
		start(&workers[i]);
	}
}

static void close_pool(void)
{
	struct tags_sums sums;
	int32_t resized;

	for (uint32_t i = 0; i < count; i++)
		want(tags_leave(&workers[i].hand) == TAGS_OK, "a leave", i);
	want(tags_pool_waiting(&pool) == 0, "waiting", tags_pool_waiting(&pool));
	resized = tags_resize(&pool, 1 + count);
	want(resized == TAGS_OK, "a resize", resized);
	want(tags_close(&pool, &sums) == TAGS_OK, "a close", 0);
	want(sums.got == sums.back, "held", (int64_t)(sums.got - sums.back));
}

static void play_round(uint64_t *state)
{
	open_pool(state);
	for (uint32_t i = draw(state, 12); i > 0; i--) {
		nap((long)draw(state, 500));
		/* the last one is never cancelled, so that all others can be asleep at once */
		cancel(&workers[draw(state, count - 1)]);
	}
	nap((long)draw(state, 500));
	want(tags_stop(&pool) == TAGS_OK, "a stop", 0);
	for (uint32_t i = 0; i < count; i++)
		pthread_join(workers[i].id, NULL);
	close_pool();
}

/*
 * The address sanitizer does not see that a cancel ends the frames of a thread, and would
 * report them when it gives up the thread's stack for signals.
 */
const char *__asan_default_options(void);

const char *__asan_default_options(void)
{
	return "use_sigaltstack=0";
}

int main(int argc, char **argv)
{
	const time_t end = time(NULL) + (argc > 1 ? strtol(argv[1], NULL, 10) : 3);
	uint64_t state = argc > 2 ? strtoull(argv[2], NULL, 10) : 1;

	for (int i = 0; i < MOST; i++)
		workers[i].event = eventfd(0, EFD_NONBLOCK);
	do
		play_round(&state);
	while (time(NULL) < end);
	fprintf(stderr, "%" PRIu64 " gets, %" PRIu64 " cancels\n", tags_got, cancels);
	puts("0 wrong");
	return 0;
}
