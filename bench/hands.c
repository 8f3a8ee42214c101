/*
 * Threads that get and clear tags, each with a hand of its own (own), all with one hand behind a mutex
 * (mutex), or with hands that they share, one for each processor (shared).
 * hands CONTENDER THREADS HELD MILLISECONDS
 *
 * A thread holds so many tags all the while, and clears the oldest and gets another one, again and again;
 * with none it gets a tag and clears it. It prints the nanoseconds of a get and a clear: of processor time, and of
 * the time that passed, over all threads.
 */
#define _GNU_SOURCE
#include <pthread.h>
#include <stdbool.h>
#include <stdio.h>
#include <stdlib.h>
#include <string.h>
#include <time.h>
#include <unistd.h>

#include "../c/tags.h"

enum { MOST = 64, MOST_HELD = 64, TAGS = 4096 };

/* What one thread writes, on cache lines of its own. */
struct thread {
	pthread_t id;
	struct tags_hand hand;
	uint64_t pairs, ns;
	char apart[128];
};

static enum { OWN, MUTEX, SHARED } contender;
static const char *const names[] = { "own", "mutex", "shared" };
static struct thread threads[MOST];
static struct tags_pool pool = TAGS_EMPTY;
static struct tags_hands hands = TAGS_EMPTY;
static struct tags_hand locked = TAGS_EMPTY;
static pthread_mutex_t lock = PTHREAD_MUTEX_INITIALIZER;
static uint32_t held;
static bool is_over;
/* what belongs to a tag, as in a program */
static volatile uint64_t requests[TAGS];

static void expect(bool is_well)
{
	if (!is_well)
		abort();
}

static uint64_t now(clockid_t clock)
{
	struct timespec time;

	clock_gettime(clock, &time);
	return (uint64_t)time.tv_sec * 1000000000 + (uint64_t)time.tv_nsec;
}

static uint32_t get(struct thread *self)
{
	int32_t tag;

	if (contender == OWN) {
		tag = tags_get(&self->hand);
	} else if (contender == MUTEX) {
		pthread_mutex_lock(&lock);
		tag = tags_get(&locked);
		pthread_mutex_unlock(&lock);
	} else {
		tag = tags_hands_get(&hands);
	}
	expect(tag >= 0);
	requests[tag]++;
	return (uint32_t)tag;
}

static void clear(struct thread *self, uint32_t tag)
{
	int32_t status;

	if (contender == OWN) {
		status = tags_clear(&self->hand, tag);
	} else if (contender == MUTEX) {
		pthread_mutex_lock(&lock);
		status = tags_clear(&locked, tag);
		pthread_mutex_unlock(&lock);
	} else {
		status = tags_hands_clear(&hands, tag);
	}
	expect(status == TAGS_OK);
}

static void *run(void *argument)
{
	struct thread *self = argument;
	uint32_t ring[MOST_HELD], at = 0;

	for (uint32_t i = 0; i < held; i++)
		ring[i] = get(self);
	self->ns = now(CLOCK_THREAD_CPUTIME_ID);
	for (; !__atomic_load_n(&is_over, __ATOMIC_RELAXED); self->pairs++) {
		if (held == 0) {
			clear(self, get(self));
			continue;
		}
		clear(self, ring[at]);
		ring[at] = get(self);
		at = at + 1 < held ? at + 1 : 0;
	}
	self->ns = now(CLOCK_THREAD_CPUTIME_ID) - self->ns;
	for (uint32_t i = 0; i < held; i++)
		clear(self, ring[i]);
	return NULL;
}

static void open_all(uint32_t count)
{
	const long processors = sysconf(_SC_NPROCESSORS_ONLN);
	struct tags_options options = TAGS_OPTIONS_INIT;

	options.total = TAGS;
	options.hands = contender == OWN ? count : contender == MUTEX ? 1 : (uint32_t)processors;
	expect(tags_open(&pool, &options) == TAGS_OK);
	for (uint32_t i = 0; contender == OWN && i < count; i++)
		expect(tags_join(&pool, &threads[i].hand, 0) == TAGS_OK);
	if (contender == MUTEX)
		expect(tags_join(&pool, &locked, 0) == TAGS_OK);
	if (contender == SHARED)
		expect(tags_hands_open(&pool, &hands, 0) == TAGS_OK);
}

static void close_all(uint32_t count)
{
	struct tags_sums sums;

	for (uint32_t i = 0; contender == OWN && i < count; i++)
		expect(tags_leave(&threads[i].hand) == TAGS_OK);
	if (contender == MUTEX)
		expect(tags_leave(&locked) == TAGS_OK);
	if (contender == SHARED)
		expect(tags_hands_close(&hands) == TAGS_OK);
	expect(tags_close(&pool, &sums) == TAGS_OK && sums.got == sums.back);
}

int main(int argc, char **argv)
{
	const uint32_t count = argc == 5 ? (uint32_t)atoi(argv[2]) : 0;
	uint64_t pairs = 0, ns = 0, begin;

	held = argc == 5 ? (uint32_t)atoi(argv[3]) : 0;
	if (count == 0 || count > MOST || held > MOST_HELD)
		return 2;
	while (strcmp(argv[1], names[contender]) != 0)
		if (contender++ == SHARED)
			return 2;
	open_all(count);
	begin = now(CLOCK_MONOTONIC);
	for (uint32_t i = 0; i < count; i++)
		expect(pthread_create(&threads[i].id, NULL, run, &threads[i]) == 0);
	usleep((useconds_t)atoi(argv[4]) * 1000);
	__atomic_store_n(&is_over, true, __ATOMIC_RELAXED);
	for (uint32_t i = 0; i < count; i++) {
		expect(pthread_join(threads[i].id, NULL) == 0);
		pairs += threads[i].pairs;
		ns += threads[i].ns;
	}
	begin = now(CLOCK_MONOTONIC) - begin;
	close_all(count);
	printf("%.1f %.1f\n", (double)ns / (double)pairs, (double)begin / (double)pairs);
	return 0;
}
