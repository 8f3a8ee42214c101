/*
 * The kernel and the C library, as the code that is explored calls them.
 */
#ifndef KERNEL_H
#define KERNEL_H

#include "explorer.h"

#include <pthread.h>
#include <time.h>

int *kernel_errno(void);
void *kernel_calloc(size_t count, size_t size);
void *kernel_realloc(void *start, size_t size);
long kernel_syscall(long number, ...);
int kernel_getcpu(void);
int kernel_mutex_init(pthread_mutex_t *mutex, const pthread_mutexattr_t *attributes);
int kernel_mutex_destroy(pthread_mutex_t *mutex);
int kernel_mutex_lock(pthread_mutex_t *mutex);
int kernel_mutex_unlock(pthread_mutex_t *mutex);
int kernel_setcancelstate(int state, int *former);
int kernel_key_create(pthread_key_t *key, void (*end)(void *value));
void *kernel_getspecific(pthread_key_t key);
int kernel_setspecific(pthread_key_t key, const void *value);
int kernel_cond_init(pthread_cond_t *cond, const pthread_condattr_t *attributes);
int kernel_cond_destroy(pthread_cond_t *cond);
int kernel_cond_signal(pthread_cond_t *cond);
int kernel_cond_wait(pthread_cond_t *cond, pthread_mutex_t *mutex);
int kernel_cond_timedwait(pthread_cond_t *cond, pthread_mutex_t *mutex, const struct timespec *end);
int kernel_nanosleep(const struct timespec *time, struct timespec *left);
int kernel_clock_gettime(clockid_t clock, struct timespec *now);
void kernel_push_cleanup(struct cleanup *cleanup);
void kernel_pop_cleanup(struct cleanup *cleanup, int runs);

/* Sleeps at an address. Returns how the sleep has ended: 0 or a number from ALT_CANCEL on. */
int fall_asleep(const void *address, bool has_limit, void *pc);
/* Wakes so many of those that sleep there, the first threads first. Returns how many: all of those that sleep if none is to wake. */
uint32_t wake_some(const void *address, uint32_t most);
/* Cancels the thread that runs. */
void cancel_thread(void) __attribute__((noreturn));

#endif
