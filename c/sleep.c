/*
 * How a thread sleeps: on a condition variable, until somebody signals that or its limit has passed.
 *
 * Such a wait is a cancellation point by every C library, which calls the thread's handlers with the
 * lock and on a sound stack. A system call of the library's own is none: it could only be cancelled
 * at any instruction, and musl then calls the handlers from wherever that was.
 */
#define _GNU_SOURCE
#include "bell.h"

#include <time.h>

bool tags_library_is_sound(const struct tags_limit *limit)
{
	return (limit->clock == CLOCK_MONOTONIC || limit->clock == CLOCK_REALTIME) &&
	       limit->end->tv_nsec >= 0 && limit->end->tv_nsec < 1000000000;
}

bool tags_library_is_past(const struct tags_limit *limit)
{
	struct timespec now;

	if (!limit->end)
		return false;
	clock_gettime(limit->clock, &now);
	if (now.tv_sec != limit->end->tv_sec)
		return now.tv_sec > limit->end->tv_sec;
	return now.tv_nsec >= limit->end->tv_nsec;
}

void tags_library_make_bed(pthread_cond_t *bed, int32_t clock)
{
	pthread_condattr_t attributes;

	pthread_condattr_init(&attributes);
	pthread_condattr_setclock(&attributes, clock);
	pthread_cond_init(bed, &attributes);
	pthread_condattr_destroy(&attributes);
}

/* Where anything but a wakeup ends it, the caller looks at the clock before it sleeps again. */
bool tags_library_sleep(pthread_cond_t *bed, pthread_mutex_t *lock, const struct tags_limit *limit)
{
	if (!limit->end)
		return pthread_cond_wait(bed, lock) == 0;
	return pthread_cond_timedwait(bed, lock, limit->end) == 0;
}
