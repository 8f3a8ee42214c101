/*
 * Threads that make random calls on several pools at once: gets, gives of one tag
 * and of several, posts, takes, waits with and without a limit and by an eventfd,
 * leaves and joins. The hands of two pools keep tags, of one of them only while they
 * hold another. A table of the owner of each tag shows a second one. After each round each pool is resized, and at
 * the end its sums are those that the threads counted. fuzz_threads [SECONDS [SEED]]
 */
#define _GNU_SOURCE
#include <errno.h>
#include <inttypes.h>
#include <poll.h>
#include <pthread.h>
#include <stdbool.h>
#include <stdio.h>
#include <stdlib.h>
#include <sys/eventfd.h>
#include <time.h>
#include <unistd.h>

#include "../tags.h"

enum {
	POOLS = 3,
	THREADS = 8,
	/* the most tags of a pool, and those of them that a hand holds at once */
	TAGS = 200,
	MOST = 6,
	RESERVED = 2,
	TURNS = 4000
};

struct pool {
	struct tags_pool pool;
	/* the handle of a pool is in one call at a time */
	pthread_mutex_t lock;
	uint32_t total;
	/* the thread that owns each tag, or 0 */
	uint32_t owner[TAGS];
	/* what belongs to a tag, and is no atomic word */
	uint64_t cell[TAGS];
	uint64_t got;
	uint64_t back;
};

/* A thread's hand of one pool, and what it holds. */
struct part {
	struct tags_hand hand;
	uint32_t held[MOST];
	uint32_t count;
};

struct thread {
	pthread_t id;
	uint32_t number;
	uint64_t state;
	/* the eventfd that its hands name */
	int event;
	struct part part[POOLS];
};

/* how many tags a hand of each pool keeps, and whether only while it holds another */
static const uint32_t cache[POOLS] = { 0, 8, 3 };
static const bool is_careful[POOLS] = { false, false, true };

static struct pool pools[POOLS];
static struct thread threads[THREADS];
static uint64_t calls;
static uint64_t wrong;

static void check(bool is_well, const char *what)
{
	if (is_well)
		return;
	if (__atomic_fetch_add(&wrong, 1, __ATOMIC_RELAXED) < 20)
		fprintf(stderr, "wrong: %s\n", what);
}

#define CHECK(what) check(what, #what)

static uint32_t below(struct thread *self, uint32_t bound)
{
	self->state = self->state * 6364136223846793005u + 1442695040888963407u;
	return (uint32_t)(self->state >> 33) % bound;
}

static uint64_t value_of(const struct thread *self, uint32_t tag)
{
	return (uint64_t)self->number << 32 | tag;
}

/* Records a tag that a call returned, and writes its slot. */
static void own(struct thread *self, uint32_t at, uint32_t tag)
{
	struct part *part = &self->part[at];

	CHECK(tag < pools[at].total);
	CHECK(__atomic_exchange_n(&pools[at].owner[tag], self->number, __ATOMIC_RELAXED) == 0);
	CHECK(tags_write(&part->hand, tag, value_of(self, tag), NULL) == TAGS_OK);
	pools[at].cell[tag] = value_of(self, tag);
	part->held[part->count++] = tag;
}

/* Forgets a held tag, whose slot is as this thread left it. */
static uint32_t disown(struct thread *self, uint32_t at)
{
	struct part *part = &self->part[at];
	uint32_t which = below(self, part->count);
	uint32_t tag = part->held[which];
	uint64_t value = 0;

	part->held[which] = part->held[--part->count];
	CHECK(tags_read(&part->hand, tag, &value) == TAGS_OK && value == value_of(self, tag));
	CHECK(pools[at].cell[tag] == value_of(self, tag));
	pools[at].cell[tag] = 0;
	CHECK(__atomic_exchange_n(&pools[at].owner[tag], 0, __ATOMIC_RELAXED) == self->number);
	return tag;
}

static void count_got(uint32_t at)
{
	__atomic_fetch_add(&pools[at].got, 1, __ATOMIC_RELAXED);
}

static void count_back(uint32_t at, uint32_t tags)
{
	__atomic_fetch_add(&pools[at].back, tags, __ATOMIC_RELAXED);
}

/* Gives up to three tags back, the ordinary ones together. */
static void give_some(struct thread *self, uint32_t at)
{
	struct tags_hand *hand = &self->part[at].hand;
	uint32_t tags[3];
	uint32_t count = 0;

	while (count < 3 && self->part[at].count > 0) {
		tags[count++] = disown(self, at);
		if (tags[count - 1] >= RESERVED)
			continue;
		/* a batch has ordinary tags alone */
		CHECK(tags_clear_batch(hand, tags, count) == TAGS_NO_SUCH_TAG);
		CHECK(tags_clear(hand, tags[--count]) >= 0);
		count_back(at, 1);
	}
	if (count > 0)
		CHECK(tags_clear_batch(hand, tags, count) >= 0);
	count_back(at, count);
}

static void give_back(struct thread *self, uint32_t at)
{
	struct tags_hand *hand = &self->part[at].hand;
	uint32_t way = below(self, 3);
	uint32_t tag;

	if (way == 1) {
		give_some(self, at);
		return;
	}
	tag = disown(self, at);
	if (way == 0)
		CHECK(tags_clear(hand, tag) >= 0);
	else
		CHECK(tags_clear(hand, tag) >= 0);
	CHECK(tags_clear(hand, tag) == TAGS_NOT_HELD);
	count_back(at, 1);
}

/* Before a thread waits without a limit, or is idle, it gives back what it keeps; it need not where hands keep with care. */
static void flush(struct thread *self, uint32_t at)
{
	CHECK(tags_flush(&self->part[at].hand) >= 0);
}

static int32_t get_in_time(struct thread *self, uint32_t at)
{
	struct timespec end;

	clock_gettime(CLOCK_MONOTONIC, &end);
	end.tv_nsec += (long)below(self, 200000);
	end.tv_sec += end.tv_nsec / 1000000000;
	end.tv_nsec %= 1000000000;
	return tags_get_timed(&self->part[at].hand, CLOCK_MONOTONIC, &end);
}

/* Waits by the eventfd, for some milliseconds at most. What an earlier wait left there is no harm. */
static int32_t get_by_event(struct thread *self, uint32_t at)
{
	struct tags_hand *hand = &self->part[at].hand;
	struct pollfd event = { self->event, POLLIN, 0 };
	int32_t tag = tags_get_async(hand, event.fd);
	uint64_t told;

	for (int tries = 0; tag == TAGS_NO_TAG && tries < 3; tries++) {
		CHECK(tags_waiting(hand) > 0);
		if (poll(&event, 1, 1) == 1)
			CHECK(read(event.fd, &told, sizeof(told)) == sizeof(told) || errno == EAGAIN);
		tag = tags_get_async(hand, event.fd);
	}
	if (tag == TAGS_NO_TAG)
		CHECK(tags_cancel(hand) == TAGS_OK);
	CHECK(tags_cancel(hand) == TAGS_NOT_WAITING);
	return tag;
}

/* A thread that waits without a limit holds nothing, of no pool, so that others can go on. */
static bool holds_nothing(const struct thread *self)
{
	for (uint32_t at = 0; at < POOLS; at++)
		if (self->part[at].count > 0)
			return false;
	return true;
}

static void get_one(struct thread *self, uint32_t at)
{
	struct tags_hand *hand = &self->part[at].hand;
	uint32_t way = below(self, 9);
	int32_t tag;

	if (way == 0)
		tag = tags_get_reserved(hand);
	else if (way == 1)
		tag = tags_get_shallow(hand, 1 + below(self, 8));
	else if (way == 2)
		tag = get_in_time(self, at);
	else if (way == 3 && holds_nothing(self)) {
		for (uint32_t other = 0; other < POOLS; other++)
			if (!is_careful[other])
				flush(self, other);
		tag = tags_get_blocking(hand);
	}
	else if (way == 4)
		tag = get_by_event(self, at);
	else
		tag = tags_get(hand);
	CHECK(tag >= 0 || tag == TAGS_NO_TAG || (tag == TAGS_TIMED_OUT && way == 2));
	if (tag < 0)
		return;
	own(self, at, (uint32_t)tag);
	count_got(at);
}

static void take_one(struct thread *self, uint32_t at)
{
	uint32_t tag = below(self, pools[at].total);
	int32_t status = tags_take(&self->part[at].hand, tag);

	CHECK(status == TAGS_OK || status == TAGS_NOT_POSTED);
	if (status == TAGS_OK)
		own(self, at, tag);
}

static void leave_and_join(struct thread *self, uint32_t at)
{
	struct part *part = &self->part[at];

	int32_t tag;

	while (part->count > 0)
		give_back(self, at);
	/* a hand may leave while it waits, and while it keeps tags */
	tag = below(self, 2) ? tags_get_async(&part->hand, self->event) : (int32_t)TAGS_NO_TAG;
	CHECK(tag >= 0 || tag == TAGS_NO_TAG);
	if (tag >= 0) {
		own(self, at, (uint32_t)tag);
		count_got(at);
		give_back(self, at);
	}
	pthread_mutex_lock(&pools[at].lock);
	CHECK(tags_leave(&part->hand) == TAGS_OK);
	CHECK(tags_join(&pools[at].pool, &part->hand, below(self, 2)) == TAGS_OK);
	pthread_mutex_unlock(&pools[at].lock);
}

/* A posted tag could keep those waiting that wait without a limit, so its thread takes one back at once if it can. */
static void post_one(struct thread *self, uint32_t at)
{
	uint32_t tag = disown(self, at);
	int32_t status;

	CHECK(tags_post(&self->part[at].hand, tag) == TAGS_OK);
	status = tags_take(&self->part[at].hand, tag);
	CHECK(status == TAGS_OK || status == TAGS_NOT_POSTED);
	if (status == TAGS_OK)
		own(self, at, tag);
}

static void *run(void *argument)
{
	struct thread *self = argument;

	for (uint32_t turn = 0; turn < TURNS; turn++) {
		uint32_t at = below(self, POOLS);
		uint32_t dice = below(self, 64);
		struct part *part = &self->part[at];

		if (dice == 0)
			leave_and_join(self, at);
		else if (dice < 8 && part->count < MOST)
			take_one(self, at);
		else if (dice < 16 && part->count > 0)
			post_one(self, at);
		else if (dice < 40 && part->count < MOST)
			get_one(self, at);
		else if (part->count > 0)
			give_back(self, at);
	}
	for (uint32_t at = 0; at < POOLS; at++) {
		while (self->part[at].count > 0)
			give_back(self, at);
		if (!is_careful[at])
			flush(self, at);
	}
	__atomic_fetch_add(&calls, TURNS, __ATOMIC_RELAXED);
	return NULL;
}

static void run_round(void)
{
	for (int i = 0; i < THREADS; i++) {
		for (uint32_t at = 0; at < POOLS; at++)
			CHECK(tags_join(&pools[at].pool, &threads[i].part[at].hand, 0) == TAGS_OK);
	}
	for (int i = 0; i < THREADS; i++)
		CHECK(pthread_create(&threads[i].id, NULL, run, &threads[i]) == 0);
	for (int i = 0; i < THREADS; i++) {
		pthread_join(threads[i].id, NULL);
		for (uint32_t at = 0; at < POOLS; at++)
			CHECK(tags_leave(&threads[i].part[at].hand) == TAGS_OK);
	}
}

static void resize(uint32_t at)
{
	struct pool *pool = &pools[at];

	pool->total = RESERVED + 1 + below(&threads[0], at == 0 ? 4 : TAGS - RESERVED - 1);
	CHECK(tags_resize(&pool->pool, pool->total) == TAGS_OK);
	CHECK(tags_pool_waiting(&pool->pool) == 0);
}

int main(int argc, char **argv)
{
	time_t end = time(NULL) + (argc > 1 ? atol(argv[1]) : 5);
	struct tags_options options = { .reserved = RESERVED, .shift = 3, .hands = THREADS };
	struct tags_sums sums;

	for (uint32_t i = 0; i < THREADS; i++) {
		threads[i].number = i + 1;
		threads[i].event = eventfd(0, EFD_NONBLOCK);
		threads[i].state = (argc > 2 ? strtoull(argv[2], NULL, 10) : 1) * 64 + i;
	}
	for (uint32_t at = 0; at < POOLS; at++) {
		pthread_mutex_init(&pools[at].lock, NULL);
		options.total = pools[at].total = 4 + at * 40;
		options.cache = cache[at];
		options.flags = is_careful[at] ? TAGS_KEEP_WHILE_HOLDING : 0;
		CHECK(tags_open(&pools[at].pool, &options) == TAGS_OK);
	}
	do {
		run_round();
		for (uint32_t at = 0; at < POOLS; at++)
			resize(at);
	} while (time(NULL) < end);
	for (uint32_t at = 0; at < POOLS; at++) {
		CHECK(tags_close(&pools[at].pool, &sums) == TAGS_OK);
		/* what was kept and taken again did not go back to the pool */
		CHECK(cache[at] > 0 ? sums.got <= pools[at].got :
				      sums.got == pools[at].got && sums.back == pools[at].back);
		CHECK(sums.got == sums.back && sums.held == 0 && sums.posted == 0);
	}
	for (uint32_t i = 0; i < THREADS; i++)
		close(threads[i].event);
	fprintf(stderr, "%" PRIu64 " turns\n", calls);
	printf("%" PRIu64 " wrong\n", wrong);
	return wrong != 0;
}
