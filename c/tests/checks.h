/*
 * What the tests share: checks, of which each that fails is told and counted, short sleeps, and deadlines.
 * No check rests on a time: a test that waits for what another thread does looks for that again and again.
 */
#ifndef TESTS_CHECKS_H
#define TESTS_CHECKS_H

#include <stdbool.h>
#include <stdint.h>
#include <stdio.h>
#include <time.h>

/* In milliseconds, for what has to end before: longer than any test may take. */
enum { NEVER = 3600000 };

/* how many checks failed, of all threads */
static uint64_t wrong;

static inline void check(bool is_well, const char *what)
{
	if (is_well)
		return;
	__atomic_fetch_add(&wrong, 1, __ATOMIC_RELAXED);
	fprintf(stderr, "wrong: %s\n", what);
}

#define CHECK(what) check(what, #what)

static inline void nap(long us)
{
	struct timespec time = { us / 1000000, us % 1000000 * 1000 };

	nanosleep(&time, NULL);
}

/* The time by this clock in so many milliseconds. */
static inline struct timespec after(clockid_t clock, long ms)
{
	struct timespec time;

	clock_gettime(clock, &time);
	time.tv_nsec += ms % 1000 * 1000000;
	time.tv_sec += ms / 1000 + time.tv_nsec / 1000000000;
	time.tv_nsec %= 1000000000;
	return time;
}

#endif
