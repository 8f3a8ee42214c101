/*
 * Runs threads that get, post, take and clear at random, and checks that no tag
 * has two holders, a slot has what its holder wrote, and the sums are exact.
 * threads [ROUNDS]
 */
#include <inttypes.h>
#include <pthread.h>
#include <stdbool.h>
#include <stdio.h>
#include <stdlib.h>

#include "../tags.h"

enum {
	THREADS = 8,
	TAGS = 70,
	RESERVED = 6,
	/* the most tags that a thread holds at once */
	MOST = 12
};

struct thread {
	pthread_t id;
	struct tags_hand hand;
	uint32_t number;
	uint32_t seed;
	uint32_t held[MOST];
	uint32_t count;
	uint64_t got;
	uint64_t posted;
	uint64_t taken;
};

static long rounds = 200000;

/* The thread that holds each tag, or 0. Only a second holder would find another number here. */
static uint32_t holder[TAGS];
static uint64_t wrong;

static uint32_t draw(struct thread *self)
{
	self->seed = self->seed * 1664525u + 1013904223u;
	return self->seed >> 8;
}

static void check(bool is_well)
{
	if (!is_well)
		__atomic_fetch_add(&wrong, 1, __ATOMIC_RELAXED);
}

static uint64_t value_of(const struct thread *self, uint32_t tag)
{
	return (uint64_t)self->number << 32 | tag;
}

/* Records a tag that a get or a take returned, and writes its slot. */
static void own(struct thread *self, uint32_t tag)
{
	uint64_t value = 0;

	check(tag < TAGS && __atomic_exchange_n(&holder[tag], self->number, __ATOMIC_RELAXED) == 0);
	check(tags_write(&self->hand, tag, value_of(self, tag), &value) == TAGS_OK);
	self->held[self->count++] = tag;
}

/* Picks a held tag to give up, checks its slot and forgets it. */
static uint32_t disown(struct thread *self)
{
	uint32_t at = draw(self) % self->count;
	uint32_t tag = self->held[at];
	uint64_t value = 0;

	self->held[at] = self->held[--self->count];
	check(tags_read(&self->hand, tag, &value) == TAGS_OK && value == value_of(self, tag));
	check(__atomic_exchange_n(&holder[tag], 0, __ATOMIC_RELAXED) == self->number);
	return tag;
}

static void get(struct thread *self)
{
	int32_t tag = draw(self) % 8 ? tags_get(&self->hand) : tags_get_reserved(&self->hand);

	check(tag >= 0 || tag == TAGS_NO_TAG);
	if (tag < 0)
		return;
	own(self, (uint32_t)tag);
	self->got++;
}

static void get_batch(struct thread *self)
{
	uint64_t won = 0;
	int32_t first = tags_get_batch(&self->hand, 4, &won);

	check(first >= 0 || first == TAGS_NO_TAG);
	for (uint32_t i = 0; first >= 0 && i < 4; i++)
		if (won >> i & 1) {
			own(self, (uint32_t)first + i);
			self->got++;
		}
}

static void take(struct thread *self)
{
	uint32_t tag = draw(self) % TAGS;
	int32_t status = tags_take(&self->hand, tag);

	check(status == TAGS_OK || status == TAGS_NOT_POSTED);
	if (status == TAGS_OK) {
		own(self, tag);
		self->taken++;
	}
}

static void post(struct thread *self)
{
	uint32_t tag = disown(self);

	check(tags_post(&self->hand, tag) == TAGS_OK);
	check(tags_clear(&self->hand, tag) == TAGS_NOT_HELD);
	self->posted++;
}

static void clear(struct thread *self)
{
	uint32_t tag = disown(self);

	check(tags_clear(&self->hand, tag) == 0);
	check(tags_clear(&self->hand, tag) == TAGS_NOT_HELD);
}

static void step(struct thread *self)
{
	uint32_t dice = draw(self) % 32;

	if (dice < 13 && self->count < MOST)
		get(self);
	else if (dice < 14 && self->count + 4 <= MOST)
		get_batch(self);
	else if (dice < 17 && self->count < MOST)
		take(self);
	else if (self->count > 0 && dice < 19)
		post(self);
	else if (self->count > 0)
		clear(self);
}

static void *run(void *argument)
{
	struct thread *self = argument;

	for (long round = 0; round < rounds; round++)
		step(self);
	while (self->count > 0)
		clear(self);
	return NULL;
}

static void run_all(struct thread *threads)
{
	for (int i = 0; i < THREADS; i++)
		check(pthread_create(&threads[i].id, NULL, run, &threads[i]) == 0);
	for (int i = 0; i < THREADS; i++)
		check(pthread_join(threads[i].id, NULL) == 0);
}

static void start(struct thread *thread, uint32_t number, struct tags_pool *pool)
{
	thread->number = number;
	thread->seed = number;
	check(tags_join(pool, &thread->hand, 0) == TAGS_OK);
}

static struct tags_sums close_pool(struct tags_pool *pool, struct thread *threads)
{
	struct tags_sums sums = { 0 };

	for (int i = 0; i < THREADS; i++)
		check(tags_leave(&threads[i].hand) == TAGS_OK);
	check(tags_close(pool, &sums) == TAGS_OK);
	return sums;
}

int main(int argc, char **argv)
{
	static struct thread threads[THREADS];
	struct tags_options options = {
		.total = TAGS,
		.reserved = RESERVED,
		.shift = 3,
		.hands = THREADS,
	};
	struct tags_pool pool = TAGS_EMPTY;
	struct tags_sums sums;
	uint64_t got = 0;
	uint64_t posted = 0;

	if (argc > 1)
		rounds = strtol(argv[1], NULL, 10);
	if (tags_open(&pool, &options) != TAGS_OK)
		return 1;
	for (uint32_t i = 0; i < THREADS; i++)
		start(&threads[i], i + 1, &pool);
	run_all(threads);
	for (int i = 0; i < THREADS; i++) {
		got += threads[i].got;
		posted += threads[i].posted - threads[i].taken;
	}
	sums = close_pool(&pool, threads);
	check(sums.got == got && sums.held == 0 && sums.posted == posted &&
	      sums.back == got - posted);
	printf("%" PRIu64 " wrong\n", wrong);
	return wrong != 0;
}
