/*
 * A lock that is one word, for a short time: it can be tried without a system call, and a thread that
 * waits for it looks a while before it sleeps.
 */
#ifndef TAGS_LOCK_H
#define TAGS_LOCK_H

#include "bell.h"

#include <sys/syscall.h>
#include <unistd.h>

/* Free; locked; locked, while threads may sleep. */
enum { TAGS_FREE, TAGS_LOCKED, TAGS_AWAITED };

/* How often a thread looks before it sleeps. */
#ifndef TAGS_LOOKS
#define TAGS_LOOKS 100
#endif

/* The thread sanitizer, which need not see the steps on the word, is told what they order. */
static inline bool tags_try_lock(uint32_t *word)
{
	if (!tags_replace(word, TAGS_FREE, TAGS_LOCKED))
		return false;
	if (__tsan_acquire)
		__tsan_acquire(word);
	return true;
}

/* Whoever has slept takes the lock as one that is awaited, as others may sleep still. */
static __attribute__((noinline)) void tags_wait_for_lock(uint32_t *word)
{
	int saved = errno;

	for (int i = 0; i < TAGS_LOOKS; i++) {
		if (tags_load(word) == TAGS_FREE && tags_try_lock(word))
			return;
		tags_pause();
	}
	while (tags_swap(word, TAGS_AWAITED) != TAGS_FREE)
		syscall(SYS_futex, word, TAGS_FUTEX_WAIT, TAGS_AWAITED, NULL, NULL, 0);
	if (__tsan_acquire)
		__tsan_acquire(word);
	errno = saved;
}

static inline void tags_lock(uint32_t *word)
{
	if (!tags_try_lock(word))
		tags_wait_for_lock(word);
}

static __attribute__((noinline)) void tags_wake_for_lock(uint32_t *word)
{
	int saved = errno;

	syscall(SYS_futex, word, TAGS_FUTEX_WAKE, 1, NULL, NULL, 0);
	errno = saved;
}

static inline void tags_unlock(uint32_t *word)
{
	if (__tsan_release)
		__tsan_release(word);
	if (tags_swap(word, TAGS_FREE) == TAGS_AWAITED)
		tags_wake_for_lock(word);
}

#endif
