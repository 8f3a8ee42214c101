/*
 * Threads that wait for few tags: a pool, without caches (tags) or with caches of 8 (cached), beside a
 * list behind a mutex, with a condition variable (list) or a semaphore (semaphore).
 * waits CONTENDER THREADS TAGS MICROSECONDS SECONDS
 *
 * Each thread gets a tag, holds it for some microseconds, and gives it back. 0 is
 * about a microsecond of work; anything else is a sleep. It prints thousands of
 * rounds a second, and for each round the processor time in microseconds and the
 * voluntary switches.
 */
#define _GNU_SOURCE
#include <inttypes.h>
#include <pthread.h>
#include <semaphore.h>
#include <stdbool.h>
#include <stdio.h>
#include <stdlib.h>
#include <string.h>
#include <sys/resource.h>
#include <time.h>
#include <unistd.h>

#include "../c/tags.h"

enum { MOST = 64, MOST_TAGS = 128 };

struct thread {
	pthread_t id;
	struct tags_hand hand;
	uint64_t rounds;
};

static struct {
	pthread_mutex_t lock;
	pthread_cond_t freed;
	sem_t free;
	uint32_t count;
	uint32_t tags[MOST_TAGS];
} list = { .lock = PTHREAD_MUTEX_INITIALIZER, .freed = PTHREAD_COND_INITIALIZER };

static bool has_list, has_semaphore;
static long us;
static bool is_over;

static uint32_t get(struct thread *self)
{
	uint32_t tag;

	if (!has_list) {
		int32_t got = tags_get_blocking(&self->hand);

		if (got < 0)
			abort();
		return (uint32_t)got;
	}
	while (has_semaphore && sem_wait(&list.free) != 0)
		;
	pthread_mutex_lock(&list.lock);
	while (list.count == 0)
		pthread_cond_wait(&list.freed, &list.lock);
	tag = list.tags[--list.count];
	pthread_mutex_unlock(&list.lock);
	return tag;
}

static void give(struct thread *self, uint32_t tag)
{
	if (!has_list) {
		if (tags_clear(&self->hand, tag) < 0)
			abort();
		return;
	}
	pthread_mutex_lock(&list.lock);
	list.tags[list.count++] = tag;
	if (!has_semaphore)
		pthread_cond_signal(&list.freed);
	pthread_mutex_unlock(&list.lock);
	if (has_semaphore)
		sem_post(&list.free);
}

static void hold(void)
{
	struct timespec time = { 0, us * 1000 };

	if (us > 0)
		nanosleep(&time, NULL);
	for (volatile int i = us > 0 ? 0 : 700; i > 0; i--)
		;
}

static void *run(void *argument)
{
	struct thread *self = argument;

	while (!__atomic_load_n(&is_over, __ATOMIC_RELAXED)) {
		uint32_t tag = get(self);

		hold();
		give(self, tag);
		self->rounds++;
	}
	/* Others may wait for a tag that an idle hand keeps: a hand gives those back before it rests. */
	if (!has_list && tags_flush(&self->hand) < 0)
		abort();
	return NULL;
}

int main(int argc, char **argv)
{
	static struct thread threads[MOST];
	struct tags_pool pool = TAGS_EMPTY;
	struct tags_options options = TAGS_OPTIONS_INIT;
	struct rusage used;
	uint64_t rounds = 0;
	double seconds;

	if (argc != 6)
		return 2;
	has_semaphore = strcmp(argv[1], "semaphore") == 0;
	has_list = has_semaphore || strcmp(argv[1], "list") == 0;
	options.cache = strcmp(argv[1], "cached") == 0 ? 8 : 0;
	options.hands = (uint32_t)atoi(argv[2]);
	options.total = (uint32_t)atoi(argv[3]);
	us = atol(argv[4]);
	seconds = atof(argv[5]);
	if (options.hands > MOST || options.total > MOST_TAGS ||
	    tags_open(&pool, &options) != TAGS_OK || sem_init(&list.free, 0, options.total) != 0)
		return 2;
	for (uint32_t i = 0; i < options.total; i++)
		list.tags[list.count++] = i;
	for (uint32_t i = 0; i < options.hands; i++)
		if (tags_join(&pool, &threads[i].hand, 0) != TAGS_OK ||
		    pthread_create(&threads[i].id, NULL, run, &threads[i]) != 0)
			return 1;
	usleep((useconds_t)(seconds * 1e6));
	__atomic_store_n(&is_over, true, __ATOMIC_RELAXED);
	for (uint32_t i = 0; i < options.hands; i++) {
		pthread_join(threads[i].id, NULL);
		rounds += threads[i].rounds;
	}
	getrusage(RUSAGE_SELF, &used);
	printf("%.1f %.2f %.2f\n", (double)rounds / seconds / 1e3,
	       ((double)(used.ru_utime.tv_sec + used.ru_stime.tv_sec) * 1e6 +
		(double)(used.ru_utime.tv_usec + used.ru_stime.tv_usec)) /
		       (double)rounds,
	       (double)used.ru_nvcsw / (double)rounds);
	return 0;
}
