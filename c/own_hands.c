/*
 * Handles that belong to a thread: when it ends, however it does, their hands leave. Each thread
 * has a list of its own, which nobody else touches, so there is no lock. The handles are the library's,
 * since one in a program's memory is often a variable that is gone when its thread ends.
 */
#define _GNU_SOURCE
#include "bell.h"

#include <stdlib.h>
#include <unistd.h>

/* The handle of a thread for hands of the pool in one place. */
struct own {
	struct own *next;
	const struct tags_pool *pool;
	/* in which it was empty: in a forked child the thread has it, too, with a hand of the parent's pool */
	pid_t process;
	struct tags_hand hand;
};

static pthread_once_t once = PTHREAD_ONCE_INIT;
static pthread_key_t key;
static bool has_key;

/* What a thread leaves behind. A function that a leave calls may ask for a handle: that is in a new list. */
static void end_thread(void *first)
{
	const pid_t process = getpid();
	struct own *next;

	for (struct own *it = first; it; it = next) {
		next = it->next;
		if (it->process == process)
			tags_leave(&it->hand);
		free(it);
	}
}

static void make_key(void)
{
	has_key = pthread_key_create(&key, end_thread) == 0;
}

/* An empty handle at the head of the thread's list, or NULL. */
static struct own *add(struct own *first, const struct tags_pool *pool)
{
	struct own *made = calloc(1, sizeof(*made));

	if (!made)
		return NULL;
	made->next = first;
	made->pool = pool;
	if (pthread_setspecific(key, made) == 0)
		return made;
	free(made);
	return NULL;
}

/*
 * Whether the handle is empty, or has a hand of the pool that is open there now. A forked child may open a pool
 * of its own where its parent had one, and the thread's handle for that has a hand of the parent's pool.
 */
static bool is_for(const struct own *it, const struct tags_pool *pool)
{
	if (it->pool != pool)
		return false;
	return !it->hand.place || it->hand.waits == __atomic_load_n(&pool->waits, __ATOMIC_SEQ_CST);
}

/* The thread's handle for hands of a pool, or NULL if it has none yet. */
static struct own *find(const struct tags_pool *pool)
{
	struct own *it = has_key ? pthread_getspecific(key) : NULL;

	while (it && !is_for(it, pool))
		it = it->next;
	return it;
}

void tags_library_flush_own(const struct tags_pool *pool)
{
	struct own *it;

	pthread_once(&once, make_key);
	it = find(pool);
	if (it && it->hand.place)
		tags_flush(&it->hand);
}

struct tags_hand *tags_thread_hand(const struct tags_pool *pool)
{
	int saved = errno;
	struct own *it;

	pthread_once(&once, make_key);
	if (!pool || !has_key)
		return NULL;
	it = find(pool);
	if (!it)
		it = add(pthread_getspecific(key), pool);
	if (it && !it->hand.place)
		it->process = getpid();
	errno = saved;
	return it ? &it->hand : NULL;
}
