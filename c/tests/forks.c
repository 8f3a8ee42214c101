/*
 * Children that are forked beside threads which are in calls of all kinds: each child opens pools of
 * its own, uses them, and closes them, also in the place of its parent's. forks [CHILDREN]
 */
#include <pthread.h>
#include <stdbool.h>
#include <stdio.h>
#include <stdlib.h>
#include <string.h>
#include <sys/wait.h>
#include <unistd.h>

#include "../tags.h"

enum {
	THREADS = 4,
	POOLS = 32,
	/* after which a child that hangs is gone, though its parent may be gone before */
	SECONDS = 600
};

static struct tags_pool pool = TAGS_EMPTY;
/* for the children: at neighbouring addresses, so that each of 16 locks is some pool's */
static struct tags_pool own[POOLS];
/* of which the main thread has a hand of its own */
static struct tags_pool place = TAGS_EMPTY;
static bool is_over;

/* Whether a thread waits for a hand, gets a tag, reports and leaves. */
static bool use(struct tags_pool *which)
{
	struct tags_hand hand = TAGS_EMPTY;
	int32_t tag;

	if (tags_join_blocking(which, &hand, 0) != TAGS_OK)
		return false;
	tag = tags_get_blocking(&hand);
	return tag >= 0 && tags_clear(&hand, (uint32_t)tag) == TAGS_OK && tags_leave(&hand) == TAGS_OK;
}

static bool report(struct tags_pool *which)
{
	struct tags_sizes sizes;

	return tags_pool_waiting(which) >= 0 && tags_pool_total(which) > 0 &&
	       tags_pool_show(which, TAGS_ORDINARY, &sizes) == TAGS_OK;
}

/* Half of the threads do what waits, and the others take the handle's lock again and again. */
static void *work(void *number)
{
	bool (*const does)(struct tags_pool *which) = *(int *)number % 2 ? use : report;

	while (!__atomic_load_n(&is_over, __ATOMIC_RELAXED))
		if (!does(&pool))
			return NULL;
	return &pool;
}

static bool try_pool(struct tags_pool *which)
{
	const struct tags_options options = { .total = 1, .hands = 1 };
	struct tags_sums sums;

	return tags_open(which, &options) == TAGS_OK && use(which) && report(which) &&
	       tags_resize(which, 2) == TAGS_OK && use(which) &&
	       tags_close(which, &sums) == TAGS_OK && sums.got == 2 && sums.back == 2;
}

/*
 * Whether the thread's handle for a pool that was opened in the place of its parent's is for that pool. The parent
 * had a hand of its own there, which holds the only tag.
 */
static bool try_place(void)
{
	const struct tags_options options = { .total = 2, .hands = 1 };
	struct tags_hand *hand;
	struct tags_sums sums;

	memset(&place, 0, sizeof(place));
	if (tags_open(&place, &options) != TAGS_OK)
		return false;
	hand = tags_thread_hand(&place);
	if (!hand || tags_join(&place, hand, 0) != TAGS_OK || tags_thread_hand(&place) != hand)
		return false;
	return tags_holds(hand, 0) == 0 && tags_get_exactly(hand, 0) == 0 &&
	       tags_clear(hand, 0) == TAGS_OK && tags_leave(hand) == TAGS_OK &&
	       tags_thread_hand(&place) == hand && tags_close(&place, &sums) == TAGS_OK;
}

/* What a child exits with. */
static int try_pools(void)
{
	alarm(SECONDS);
	for (int i = 0; i < POOLS; i++)
		if (!try_pool(&own[i]))
			return 1;
	return try_place() ? 0 : 2;
}

/* Whether a child went well. */
static bool fork_one(void)
{
	int status = 0;
	const pid_t child = fork();

	if (child == 0)
		_exit(try_pools());
	return child > 0 && waitpid(child, &status, 0) == child && WIFEXITED(status) &&
	       WEXITSTATUS(status) == 0;
}

/* The main thread has a hand of its own, which holds a tag. */
static bool take_place(void)
{
	const struct tags_options options = { .total = 1, .hands = 1 };
	struct tags_hand *hand = tags_thread_hand(&place);

	return tags_open(&place, &options) == TAGS_OK && hand && tags_join(&place, hand, 0) == TAGS_OK &&
	       tags_get(hand) == 0;
}

/* It still has that hand. */
static bool leave_place(void)
{
	struct tags_hand *hand = tags_thread_hand(&place);
	struct tags_sums sums;

	return hand && tags_clear(hand, 0) == TAGS_OK && tags_leave(hand) == TAGS_OK &&
	       tags_close(&place, &sums) == TAGS_OK;
}

int main(int argc, char **argv)
{
	const struct tags_options options = { .total = 1, .hands = 1 };
	const long children = argc > 1 ? strtol(argv[1], NULL, 10) : 100;
	pthread_t threads[THREADS];
	int numbers[THREADS];
	struct tags_sums sums;
	long wrong = 0;

	wrong += tags_open(&pool, &options) != TAGS_OK;
	wrong += !take_place();
	for (int i = 0; i < THREADS; i++) {
		numbers[i] = i;
		wrong += pthread_create(&threads[i], NULL, work, &numbers[i]) != 0;
	}
	for (long i = 0; i < children && wrong == 0; i++)
		wrong += !fork_one();
	__atomic_store_n(&is_over, true, __ATOMIC_RELAXED);
	for (int i = 0; i < THREADS; i++) {
		void *went_well = NULL;

		wrong += pthread_join(threads[i], &went_well) != 0 || !went_well;
	}
	wrong += !leave_place();
	wrong += tags_close(&pool, &sums) != TAGS_OK;
	printf("%ld children, %ld wrong\n", children, wrong);
	return wrong != 0;
}
