/*
 * How a pair grows: threads that each get a tag, touch its slot and clear it, again and again.
 * pairs CONTENDER TAGS THREADS BUSY MILLISECONDS
 *
 * Each thread keeps to one processor, and BUSY more threads only compute. It prints, in nanoseconds, the processor
 * time of a pair, and the clock's time divided by the pairs of all threads. `pairs` alone prints the contenders. The exit
 * status is 1 if a tag is missing in the end, 2 for arguments that it does not know, and 3 for too many threads.
 */
#define _GNU_SOURCE
#include "pairs.h"

#include <stdio.h>
#include <string.h>

#include "machine.h"

enum { MOST_THREADS = 64, MOST_BUSY = 1024, ROUNDS = 256, BAD_ARGUMENTS = 2, TOO_MANY = 3 };

uint32_t tags, count;
static const struct contender *contender;
static pthread_barrier_t start;

static void *run(void *argument)
{
	struct thread *self = argument;
	int64_t before;

	pin_to(self->index);
	if (contender->enter && !contender->enter(self))
		abort();
	contender->run(self, ROUNDS);
	pthread_barrier_wait(&start);
	self->began = now_by(CLOCK_MONOTONIC);
	before = now_by(CLOCK_THREAD_CPUTIME_ID);
	while (!must_end())
		self->pairs += contender->run(self, ROUNDS);
	self->processor = now_by(CLOCK_THREAD_CPUTIME_ID) - before;
	if (contender->leave && !contender->leave(self))
		abort();
	return NULL;
}

static const struct contender *named(const char *name)
{
	const struct contender *const *it = contenders;

	while (*it && strcmp((*it)->name, name) != 0)
		it++;
	return *it;
}

/* From the first begin of a thread to the end, and what each took of a processor until then. */
static void report(const struct thread *threads, int64_t end)
{
	int64_t began = end, processor = 0;
	uint64_t pairs = 0;

	for (uint32_t i = 0; i < count; i++) {
		began = threads[i].began < began ? threads[i].began : began;
		processor += threads[i].processor;
		pairs += threads[i].pairs;
	}
	printf("%.2f %.2f\n", (double)processor / (double)pairs, (double)(end - began) / (double)pairs);
}

static void measure(uint32_t busy, long milliseconds)
{
	static struct thread threads[MOST_THREADS];
	static pthread_t others[MOST_BUSY];
	int64_t end;

	begin_busy(others, busy);
	for (uint32_t i = 0; i < count; i++) {
		threads[i].index = i;
		if (pthread_create(&threads[i].id, NULL, run, &threads[i]) != 0)
			abort();
	}
	pthread_barrier_wait(&start);
	sleep_for(milliseconds);
	end_all();
	end = now_by(CLOCK_MONOTONIC);
	for (uint32_t i = 0; i < count; i++)
		pthread_join(threads[i].id, NULL);
	join_all(others, busy);
	report(threads, end);
}

static int tell_contenders(void)
{
	for (const struct contender *const *it = contenders; *it; it++)
		puts((*it)->name);
	return 0;
}

int main(int argc, char **argv)
{
	uint32_t busy;

	if (argc == 1)
		return tell_contenders();
	if (argc != 6)
		return BAD_ARGUMENTS;
	contender = named(argv[1]);
	tags = (uint32_t)strtoul(argv[2], NULL, 10);
	count = (uint32_t)strtoul(argv[3], NULL, 10);
	busy = (uint32_t)strtoul(argv[4], NULL, 10);
	if (!contender || count == 0 || count > MOST_THREADS || tags < count || tags > TAGS_MAX_TOTAL || busy > MOST_BUSY)
		return BAD_ARGUMENTS;
	if (!contender->open())
		return TOO_MANY;
	pthread_barrier_init(&start, NULL, count + 1);
	measure(busy, strtol(argv[5], NULL, 10));
	return contender->close() ? 0 : 1;
}
