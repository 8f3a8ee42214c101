/*
 * What a test sees of the threads that sleep in the library: they wait on condition variables, and
 * these waits and what ends them come through here. A test with this file is linked with --wrap for the
 * three calls below.
 */
#ifndef TESTS_SLEEPS_H
#define TESTS_SLEEPS_H

#include <pthread.h>
#include <stdint.h>
#include <time.h>

#ifdef __cplusplus
extern "C" {
#endif

/* how many threads sleep, how many sleeps have begun, and how often a thread was woken */
static uint32_t asleep, sleeps, woken;
/* how often this thread fell asleep */
static __thread uint32_t own_sleeps;
/* the lock that the thread has which fell asleep last, until it sleeps */
static pthread_mutex_t *sleep_lock;
/* the milliseconds from the begin of the last sleep with a limit to that, if it is by CLOCK_MONOTONIC */
static int64_t sleep_ms;

int __real_pthread_cond_wait(pthread_cond_t *bed, pthread_mutex_t *lock);
int __real_pthread_cond_timedwait(pthread_cond_t *bed, pthread_mutex_t *lock, const struct timespec *end);
int __real_pthread_cond_signal(pthread_cond_t *bed);
int __wrap_pthread_cond_wait(pthread_cond_t *bed, pthread_mutex_t *lock);
int __wrap_pthread_cond_timedwait(pthread_cond_t *bed, pthread_mutex_t *lock, const struct timespec *end);
int __wrap_pthread_cond_signal(pthread_cond_t *bed);

static inline void fall_asleep(pthread_mutex_t *lock)
{
	own_sleeps++;
	__atomic_store_n(&sleep_lock, lock, __ATOMIC_SEQ_CST);
	__atomic_fetch_add(&sleeps, 1, __ATOMIC_SEQ_CST);
	__atomic_fetch_add(&asleep, 1, __ATOMIC_SEQ_CST);
}

static inline void get_up(void *unused)
{
	(void)unused;
	__atomic_fetch_sub(&asleep, 1, __ATOMIC_SEQ_CST);
}

int __wrap_pthread_cond_wait(pthread_cond_t *bed, pthread_mutex_t *lock)
{
	int status;

	fall_asleep(lock);
	pthread_cleanup_push(get_up, NULL);
	status = __real_pthread_cond_wait(bed, lock);
	pthread_cleanup_pop(1);
	return status;
}

static inline int64_t ms_until(const struct timespec *end)
{
	struct timespec now;

	clock_gettime(CLOCK_MONOTONIC, &now);
	return (end->tv_sec - now.tv_sec - 1) * 1000 + (end->tv_nsec - now.tv_nsec + 1000000000) / 1000000;
}

int __wrap_pthread_cond_timedwait(pthread_cond_t *bed, pthread_mutex_t *lock, const struct timespec *end)
{
	int status;

	__atomic_store_n(&sleep_ms, ms_until(end), __ATOMIC_SEQ_CST);
	fall_asleep(lock);
	pthread_cleanup_push(get_up, NULL);
	status = __real_pthread_cond_timedwait(bed, lock, end);
	pthread_cleanup_pop(1);
	return status;
}

int __wrap_pthread_cond_signal(pthread_cond_t *bed)
{
	__atomic_fetch_add(&woken, 1, __ATOMIC_SEQ_CST);
	return __real_pthread_cond_signal(bed);
}

static inline void look_later(void)
{
	const struct timespec time = { 0, 100000 };

	nanosleep(&time, NULL);
}

/* Until the thread that fell asleep last has given up its lock. Nobody wakes it meanwhile. */
static inline void await_last(void)
{
	pthread_mutex_t *lock = __atomic_load_n(&sleep_lock, __ATOMIC_SEQ_CST);

	pthread_mutex_lock(lock);
	pthread_mutex_unlock(lock);
}

/* Until so many threads sleep. */
static inline void await_asleep(uint32_t n)
{
	while (__atomic_load_n(&asleep, __ATOMIC_SEQ_CST) != n)
		look_later();
	await_last();
}

/* Until so many sleeps have begun. */
static inline void await_sleeps(uint32_t n)
{
	while (__atomic_load_n(&sleeps, __ATOMIC_SEQ_CST) < n)
		look_later();
	await_last();
}

#ifdef __cplusplus
}
#endif

#endif
