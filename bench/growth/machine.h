/*
 * Processors, clocks and busy threads, for C and C++. Whoever includes it defines _GNU_SOURCE first.
 */
#ifndef GROWTH_MACHINE_H
#define GROWTH_MACHINE_H
#include <pthread.h>
#include <sched.h>
#include <stdbool.h>
#include <stdint.h>
#include <stdlib.h>
#include <time.h>

/* The nanoseconds that a clock tells. */
static inline int64_t now_by(clockid_t clock)
{
	struct timespec time;

	clock_gettime(clock, &time);
	return (int64_t)time.tv_sec * 1000000000 + time.tv_nsec;
}

static inline void sleep_for(long milliseconds)
{
	struct timespec time = { milliseconds / 1000, milliseconds % 1000 * 1000000 };

	while (nanosleep(&time, &time) != 0)
		;
}

/* Keeps the calling thread on one processor: threads take those that the program has in turn. */
static inline void pin_to(uint32_t turn)
{
	cpu_set_t all, one;
	int processor = -1;

	if (sched_getaffinity(0, sizeof(all), &all) != 0)
		return;
	for (turn %= (uint32_t)CPU_COUNT(&all); processor < 0 || turn-- > 0;)
		do
			processor++;
		while (!CPU_ISSET(processor, &all));
	CPU_ZERO(&one);
	CPU_SET(processor, &one);
	sched_setaffinity(0, sizeof(one), &one);
}

/* Whether threads end now. */
static bool is_over;

static inline bool must_end(void)
{
	return __atomic_load_n(&is_over, __ATOMIC_RELAXED);
}

static inline void end_all(void)
{
	__atomic_store_n(&is_over, true, __ATOMIC_RELAXED);
}

static void *compute(void *turn)
{
	pin_to((uint32_t)(uintptr_t)turn);
	while (!must_end())
		for (uint32_t i = 0; i < 1000; i++)
			__asm__ volatile("");
	return NULL;
}

/* Threads that do nothing but compute until the end, evenly on all processors. */
static inline void begin_busy(pthread_t *threads, uint32_t count)
{
	for (uint32_t i = 0; i < count; i++)
		if (pthread_create(&threads[i], NULL, compute, (void *)(uintptr_t)i) != 0)
			abort();
}

static inline void join_all(const pthread_t *threads, uint32_t count)
{
	for (uint32_t i = 0; i < count; i++)
		pthread_join(threads[i], NULL);
}
#endif
