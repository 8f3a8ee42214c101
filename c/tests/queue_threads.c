/*
 * Threads that meet in queues: some submit numbered requests, others take them in each way. Each request is taken
 * once, out of its queue; whoever takes several of one submitter sees them in order, and one taker alone sees
 * each. Others yet try to take any tag all the while, and have those alone that were posted for that. A lost
 * wakeup would leave a thread asleep for ever. queue_threads [REQUESTS]
 */
#define _GNU_SOURCE
#include <errno.h>
#include <inttypes.h>
#include <poll.h>
#include <pthread.h>
#include <sched.h>
#include <stdbool.h>
#include <stdio.h>
#include <stdlib.h>
#include <sys/eventfd.h>
#include <time.h>
#include <unistd.h>

#include <tags.h>

#include "checks.h"

enum { MOST = 6, QUEUES = 3, TAGS = 64 };

/* What a run is made of: its threads, and how many tags and queues they share. */
struct run {
	uint32_t submitters;
	uint32_t takers;
	uint32_t finders;
	uint32_t tags;
	uint32_t queues;
	uint32_t cache;
	bool has_stops;
};

struct thread {
	pthread_t id;
	struct tags_hand hand;
	unsigned int seed;
	uint32_t number;
	int event;
	uint64_t taken;
};

static long requests = 30000;
static struct tags_pool pool;
static struct run run;
static struct thread submitters[MOST], takers[MOST], finders[MOST];
/* how often each request of each submitter was taken */
static uint8_t *taken[MOST];
static uint64_t left;
static uint32_t is_over;

/* For a queue, or posted for whoever finds it. */
struct request {
	uint64_t number;
	uint32_t submitter;
	uint32_t queue;
	bool is_posted;
};

/* what each tag is used for: plain, so that the thread sanitizer tells if a queue orders too little */
static struct request slots[TAGS];

static uint64_t as_slot(const struct request *it)
{
	return it->number << 8 | it->submitter << 4 | it->queue;
}

static void check_slot(struct thread *self, uint32_t tag)
{
	uint64_t slot = 0;

	CHECK(tags_read(&self->hand, tag, &slot) == TAGS_OK && slot == as_slot(&slots[tag]));
}

/* The request of a tag was carried out. */
static void finish_request(struct thread *self, uint32_t tag)
{
	const struct request *it = &slots[tag];

	CHECK(__atomic_fetch_add(&taken[it->submitter][it->number], 1, __ATOMIC_RELAXED) == 0);
	self->taken++;
	CHECK(tags_clear(&self->hand, tag) == TAGS_OK);
	__atomic_fetch_sub(&left, 1, __ATOMIC_SEQ_CST);
}

/*
 * Submitters
 */

static void submit(struct thread *self, uint32_t tag, struct request it)
{
	it.queue = (uint32_t)rand_r(&self->seed) % run.queues;
	it.is_posted = false;
	slots[tag] = it;
	CHECK(tags_write(&self->hand, tag, as_slot(&it), NULL) == TAGS_OK);
	CHECK(tags_submit_to(&self->hand, tag, it.queue) == TAGS_OK);
}

static void *run_submitter(void *argument)
{
	struct thread *self = argument;

	errno = EDOM;
	for (long i = 0; i < requests; i++) {
		const struct request it = { (uint64_t)i, self->number, 0, false };
		int32_t tag;

		while ((tag = tags_get_blocking(&self->hand)) == TAGS_STOPPED)
			sched_yield();
		CHECK(tag >= 0 && (uint32_t)tag < run.tags);
		submit(self, (uint32_t)tag, it);
	}
	CHECK(tags_flush(&self->hand) == TAGS_OK && errno == EDOM);
	return NULL;
}

/*
 * Takers, each of one queue
 */

enum way { BLOCKING, TIMED, EVENT, FUNCTION, POLLING, WAYS };

static void ring(void *event)
{
	const uint64_t one = 1;

	CHECK(write(*(int *)event, &one, sizeof(one)) == sizeof(one));
}

static void sleep_on(int event)
{
	struct pollfd look = { event, POLLIN, 0 };
	uint64_t count;

	CHECK(poll(&look, 1, -1) == 1 && read(event, &count, sizeof(count)) == sizeof(count));
}

static int32_t wait_by_event(struct thread *self, uint32_t queue, bool by_function)
{
	int32_t tag;

	for (;;) {
		tag = by_function ? tags_next_notified(&self->hand, queue, ring, &self->event) :
				    tags_next_async(&self->hand, queue, self->event);
		if (tag != TAGS_NO_TAG)
			return tag;
		sleep_on(self->event);
	}
}

static int32_t next_by(struct thread *self, uint32_t queue, enum way way)
{
	struct timespec end;

	switch (way) {
	case BLOCKING:
		return tags_next_blocking(&self->hand, queue);
	case TIMED:
		clock_gettime(CLOCK_MONOTONIC, &end);
		end.tv_nsec = (end.tv_nsec + rand_r(&self->seed) % 300000) % 1000000000;
		return tags_next_timed(&self->hand, queue, CLOCK_MONOTONIC, &end);
	case POLLING:
		return tags_next(&self->hand, queue);
	default:
		return wait_by_event(self, queue, way == FUNCTION);
	}
}

/* Who finds requests submits some of them late. */
static void check_order(const struct request *it, int64_t *last)
{
	if (run.finders > 0)
		return;
	check((int64_t)it->number > last[it->submitter], "requests of one submitter are in order");
	if (run.takers == 1)
		check((int64_t)it->number == last[it->submitter] + 1, "a lone taker has each request");
	last[it->submitter] = (int64_t)it->number;
}

/* Some stops are not the last one. */
static bool is_no_tag(int32_t tag)
{
	return tag == TAGS_NO_TAG || tag == TAGS_TIMED_OUT ||
	       (tag == TAGS_STOPPED && !__atomic_load_n(&is_over, __ATOMIC_SEQ_CST));
}

static void carry_out(struct thread *self, uint32_t tag)
{
	if (run.finders > 0 && rand_r(&self->seed) % 4 > 0) {
		slots[tag].is_posted = true;
		CHECK(tags_post(&self->hand, tag) == TAGS_OK);
	} else {
		finish_request(self, tag);
	}
}

static void *run_taker(void *argument)
{
	struct thread *self = argument;
	const uint32_t queue = self->number % run.queues;
	int64_t last[MOST] = { -1, -1, -1, -1, -1, -1 };
	int32_t tag;

	errno = EDOM;
	do {
		tag = next_by(self, queue, (enum way)((unsigned)rand_r(&self->seed) % WAYS));
		if (tag < 0) {
			sched_yield();
			continue;
		}
		check_slot(self, (uint32_t)tag);
		check(slots[tag].queue == queue && !slots[tag].is_posted, "a request is taken out of its queue");
		check_order(&slots[tag], last);
		carry_out(self, (uint32_t)tag);
	} while (tag >= 0 || is_no_tag(tag));
	CHECK(tag == TAGS_STOPPED && errno == EDOM);
	return NULL;
}

/*
 * Finders, which carry out what they find posted, or submit it again
 */

static void use_found(struct thread *self, uint32_t tag)
{
	check_slot(self, tag);
	check(slots[tag].is_posted, "a tag in a queue is found by nobody else");
	if (rand_r(&self->seed) % 2)
		submit(self, tag, slots[tag]);
	else
		finish_request(self, tag);
}

static void *run_finder(void *argument)
{
	struct thread *self = argument;

	while (!__atomic_load_n(&is_over, __ATOMIC_SEQ_CST)) {
		const uint32_t tag = (uint32_t)rand_r(&self->seed) % run.tags;

		if (rand_r(&self->seed) % 2) {
			if (tags_take(&self->hand, tag) == TAGS_OK)
				use_found(self, tag);
		} else if (tag + 1 < run.tags && tags_take_mask(&self->hand, tag, 3) == TAGS_OK) {
			use_found(self, tag);
			use_found(self, tag + 1);
		}
		if (rand_r(&self->seed) % 16 == 0)
			sched_yield();
	}
	return NULL;
}

/*
 * Runs
 */

static void start(struct thread *threads, uint32_t count, void *(*function)(void *argument))
{
	for (uint32_t i = 0; i < count; i++) {
		threads[i].seed = i + 1 + (unsigned)run.tags;
		threads[i].number = i;
		threads[i].taken = 0;
		CHECK(tags_join(&pool, &threads[i].hand, 0) == TAGS_OK);
		CHECK(pthread_create(&threads[i].id, NULL, function, &threads[i]) == 0);
	}
}

static void finish(struct thread *threads, uint32_t count)
{
	for (uint32_t i = 0; i < count; i++) {
		CHECK(pthread_join(threads[i].id, NULL) == 0);
		CHECK(tags_leave(&threads[i].hand) == TAGS_OK);
	}
}

/* Until all requests were carried out. */
static void stop_at_times(void)
{
	const struct timespec rest = { 0, 100000 };

	while (run.has_stops && __atomic_load_n(&left, __ATOMIC_SEQ_CST) > 0) {
		CHECK(tags_stop(&pool) == TAGS_OK);
		sched_yield();
		CHECK(tags_resume(&pool) == TAGS_OK);
		nanosleep(&rest, NULL);
	}
}

static void check_taken(void)
{
	uint64_t wrongly = 0;

	for (uint32_t i = 0; i < run.submitters; i++)
		for (long number = 0; number < requests; number++)
			wrongly += taken[i][number] != 1;
	check(wrongly == 0, "each request is taken once");
	for (uint32_t queue = 0; queue < run.queues; queue++)
		CHECK(tags_pool_queued(&pool, queue) == 0);
}

static void make_run(const struct run *it)
{
	const struct tags_options options = {
		.total = it->tags, .hands = it->submitters + it->takers + it->finders, .cache = it->cache, .queues = it->queues,
	};
	struct tags_sums sums = { 0 };
	uint64_t found = 0;

	run = *it;
	is_over = 0;
	left = run.submitters * (uint64_t)requests;
	for (uint32_t i = 0; i < run.submitters; i++)
		taken[i] = calloc((size_t)requests, 1);
	CHECK(tags_open(&pool, &options) == TAGS_OK);
	start(takers, run.takers, run_taker);
	start(finders, run.finders, run_finder);
	start(submitters, run.submitters, run_submitter);
	stop_at_times();
	finish(submitters, run.submitters);
	CHECK(tags_drain(&pool) == TAGS_OK);
	__atomic_store_n(&is_over, 1, __ATOMIC_SEQ_CST);
	CHECK(tags_stop(&pool) == TAGS_OK);
	finish(takers, run.takers);
	finish(finders, run.finders);
	check_taken();
	for (uint32_t i = 0; i < run.finders; i++)
		found += finders[i].taken;
	CHECK(tags_pool_waiting(&pool) == 0 && tags_resize(&pool, run.tags + 1) == TAGS_OK);
	CHECK(tags_close(&pool, &sums) == TAGS_OK && sums.got == sums.back);
	for (uint32_t i = 0; i < run.submitters; i++)
		free(taken[i]);
	fprintf(stderr, "%" PRIu32 " submitters, %" PRIu32 " takers, %" PRIu32 " tags: %" PRIu64 " found\n", run.submitters,
		run.takers, run.tags, found);
}

int main(int argc, char **argv)
{
	const struct run runs[] = {
		{ .submitters = 1, .takers = 1, .tags = 3, .queues = 1 },
		{ .submitters = 4, .takers = 1, .tags = 16, .queues = 1 },
		{ .submitters = 1, .takers = 4, .tags = 2, .queues = 1 },
		{ .submitters = 4, .takers = 4, .tags = 5, .queues = 1 },
		{ .submitters = 3, .takers = 6, .tags = 64, .queues = 3, .has_stops = true },
		{ .submitters = 2, .takers = 3, .finders = 2, .tags = 4, .queues = 3 },
		{ .submitters = 3, .takers = 2, .finders = 2, .tags = 64, .queues = 2, .has_stops = true },
	};

	if (argc > 1)
		requests = strtol(argv[1], NULL, 10);
	for (int i = 0; i < MOST; i++)
		takers[i].event = eventfd(0, EFD_NONBLOCK);
	for (size_t i = 0; i < sizeof(runs) / sizeof(*runs); i++)
		make_run(&runs[i]);
	printf("%" PRIu64 " wrong\n", wrong);
	return wrong != 0;
}
