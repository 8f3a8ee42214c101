/*
 * Threads that end with their hands: by a return, by pthread_exit() and by a cancel, while they hold
 * tags, keep some, wait for one by an eventfd, and have hands of two pools. Each pool is closed
 * then, and its sums tell what was held. A pool is closed or resized beside a thread that goes on after its leave,
 * and a thread drains what its own hand keeps.
 */
#include <inttypes.h>
#include <pthread.h>
#include <semaphore.h>
#include <stdbool.h>
#include <stdio.h>
#include <sys/eventfd.h>
#include <time.h>
#include <unistd.h>

#include "../tags.h"

static int checks;
static int wrong;

static void want(const char *what, int64_t found, int64_t wanted)
{
	__atomic_fetch_add(&checks, 1, __ATOMIC_RELAXED);
	if (found == wanted)
		return;
	__atomic_fetch_add(&wrong, 1, __ATOMIC_RELAXED);
	printf("%s: %" PRId64 ", not %" PRId64 "\n", what, found, wanted);
}

#define WANT(what, wanted) want(#what, (int64_t)(what), wanted)

static struct tags_pool pool = TAGS_EMPTY;
static struct tags_pool second = TAGS_EMPTY;

static void open_pool(struct tags_pool *which, uint32_t total, uint32_t hands, uint32_t cache)
{
	const struct tags_options options = { .total = total, .hands = hands, .cache = cache };

	WANT(tags_open(which, &options), TAGS_OK);
}

/* Closes a pool: how many tags its hands held. */
static int64_t close_pool(struct tags_pool *which)
{
	struct tags_sums sums = { 0, 0, 0, 0 };

	WANT(tags_close(which, &sums), TAGS_OK);
	return (int64_t)sums.held;
}

/* Runs this on a thread to its end. */
static void run(void *(*function)(void *argument), void *argument)
{
	pthread_t thread;

	WANT(pthread_create(&thread, NULL, function, argument), 0);
	WANT(pthread_join(thread, NULL), 0);
}

static struct tags_hand *join(struct tags_pool *which)
{
	struct tags_hand *hand = tags_thread_hand(which);

	WANT(hand != NULL, 1);
	WANT(tags_join(which, hand, 0), TAGS_OK);
	return hand;
}

static void *hold_one(void *unused)
{
	(void)unused;
	WANT(tags_get(join(&pool)), 0);
	return NULL;
}

static void exit_holding_one(void)
{
	WANT(tags_get(join(&pool)) >= 0, 1);
	pthread_exit(NULL);
}

static void *hold_one_and_exit(void *unused)
{
	(void)unused;
	exit_holding_one();
	return NULL;
}

/* One thread after another has the only hand, and leaves with it a tag more. */
static void end_by_returns_and_exits(void)
{
	open_pool(&pool, 8, 1, 0);
	run(hold_one, NULL);
	run(hold_one_and_exit, NULL);
	run(hold_one_and_exit, NULL);
	WANT(close_pool(&pool), 3);
}

static sem_t is_holding;

static void *hold_one_and_sleep(void *unused)
{
	hold_one(unused);
	sem_post(&is_holding);
	for (;;)
		pause();
	return NULL;
}

static void end_by_a_cancel(void)
{
	pthread_t thread;

	open_pool(&pool, 1, 1, 0);
	WANT(sem_init(&is_holding, 0, 0), 0);
	WANT(pthread_create(&thread, NULL, hold_one_and_sleep, NULL), 0);
	WANT(sem_wait(&is_holding), 0);
	WANT(pthread_cancel(thread), 0);
	WANT(pthread_join(thread, NULL), 0);
	WANT(close_pool(&pool), 1);
}

static void *keep_and_wait(void *event)
{
	struct tags_hand *hand = join(&pool);
	int32_t tag = tags_get(hand);

	WANT(tags_clear(hand, (uint32_t)tag), TAGS_OK);
	/* the other pool's one tag is another hand's */
	WANT(tags_get_async(join(&second), *(int *)event), TAGS_NO_TAG);
	WANT(tags_pool_waiting(&second), 1);
	return NULL;
}

/* What the thread's hand keeps goes back, and its wait ends. */
static void end_with_kept_tags_and_a_wait(void)
{
	struct tags_hand hand = TAGS_EMPTY;
	struct tags_sizes sizes = { 0, 0, 0, 0, 0 };
	uint64_t told = 0;
	int event = eventfd(0, EFD_NONBLOCK);

	open_pool(&pool, 8, 1, 4);
	open_pool(&second, 1, 2, 0);
	WANT(tags_join(&second, &hand, 0), TAGS_OK);
	WANT(tags_get(&hand), 0);
	run(keep_and_wait, &event);
	WANT(tags_pool_show(&pool, TAGS_ORDINARY, &sizes), TAGS_OK);
	WANT(sizes.busy, 0);
	WANT(tags_pool_waiting(&second), 0);
	WANT(tags_clear(&hand, 0), TAGS_OK);
	WANT(read(event, &told, sizeof(told)), -1);
	close(event);
	WANT(tags_leave(&hand), TAGS_OK);
	WANT(close_pool(&pool), 0);
	WANT(close_pool(&second), 0);
}

static void *ask_twice(void *unused)
{
	struct tags_hand *hand = join(&pool);

	(void)unused;
	WANT(tags_thread_hand(&pool) == hand, 1);
	WANT(tags_thread_hand(&second) == hand, 0);
	/* a hand may leave before, and join again */
	WANT(tags_leave(hand), TAGS_OK);
	WANT(tags_thread_hand(&pool) == hand, 1);
	WANT(tags_join(&pool, hand, 0), TAGS_OK);
	return hand;
}

/* Each thread has one handle for a pool, and each another one. */
static void have_one_for_each_pool(void)
{
	WANT(tags_thread_hand(NULL) == NULL, 1);
	open_pool(&pool, 8, 1, 0);
	run(ask_twice, NULL);
	run(ask_twice, NULL);
	WANT(close_pool(&pool), 0);
}

static void *come_and_go(void *unused)
{
	struct tags_hand *hand = tags_thread_hand(&pool);
	int32_t tag = TAGS_NO_TAG;

	(void)unused;
	if (hand && tags_join_blocking(&pool, hand, 0) == TAGS_OK)
		tag = tags_get_blocking(hand);
	if (tag >= 0)
		TAGS_MUST(tags_clear(hand, (uint32_t)tag));
	return tag >= 0 ? &pool : NULL;
}

/* More threads than hands: each waits for a hand until another one has ended. */
static void end_beside_threads_that_wait_for_a_hand(void)
{
	enum { THREADS = 200, AT_ONCE = 20 };
	pthread_t threads[AT_ONCE];
	void *went_well;

	open_pool(&pool, 2, 3, 0);
	for (int i = 0; i < THREADS; i++) {
		if (i >= AT_ONCE) {
			pthread_join(threads[i % AT_ONCE], &went_well);
			WANT(went_well != NULL, 1);
		}
		WANT(pthread_create(&threads[i % AT_ONCE], NULL, come_and_go, NULL), 0);
	}
	for (int i = 0; i < AT_ONCE; i++)
		pthread_join(threads[i], NULL);
	WANT(close_pool(&pool), 0);
}

/* The one that left last comes back first, with its tag, and one that never joined only then. */
static void come_back_in_turn(void)
{
	struct tags_hand hands[3] = { TAGS_EMPTY, TAGS_EMPTY, TAGS_EMPTY };

	open_pool(&pool, 3, 3, 0);
	for (int i = 0; i < 2; i++) {
		WANT(tags_join(&pool, &hands[i], 0), TAGS_OK);
		WANT(tags_get_exactly(&hands[i], (uint32_t)i), i);
	}
	WANT(tags_leave(&hands[0]), TAGS_OK);
	WANT(tags_leave(&hands[1]), TAGS_OK);
	for (int i = 1; i >= 0; i--) {
		WANT(tags_join(&pool, &hands[i], 0), TAGS_OK);
		WANT(tags_holds(&hands[i], (uint32_t)i), 1);
	}
	WANT(tags_join(&pool, &hands[2], 0), TAGS_OK);
	for (int i = 0; i < 3; i++)
		WANT(tags_leave(&hands[i]), TAGS_OK);
	WANT(close_pool(&pool), 2);
}

/* A drain and a wait for a list that try and do not sleep. */
static void want_drains(int32_t status)
{
	const struct timespec past = { 0, 0 };
	const uint32_t tags[] = { 0, 1 };

	WANT(tags_drain_timed(&pool, CLOCK_MONOTONIC, &past), status);
	WANT(tags_drain_list_timed(&pool, tags, 2, CLOCK_MONOTONIC, &past), status);
}

static void keep_two(struct tags_hand *hand)
{
	WANT(tags_get(hand), 0);
	WANT(tags_get(hand), 1);
	WANT(tags_clear(hand, 0), TAGS_OK);
	WANT(tags_clear(hand, 1), TAGS_OK);
}

/* What the thread's own hand keeps goes back before it drains, and of no other one. */
static void *drain_what_it_keeps(void *unused)
{
	struct tags_hand *own = join(&pool);
	struct tags_hand other = TAGS_EMPTY;

	keep_two(own);
	want_drains(TAGS_OK);
	WANT(tags_leave(own), TAGS_OK);
	want_drains(TAGS_OK);
	WANT(tags_join(&pool, &other, 0), TAGS_OK);
	keep_two(&other);
	want_drains(TAGS_TIMED_OUT);
	WANT(tags_flush(&other), TAGS_OK);
	want_drains(TAGS_OK);
	WANT(tags_leave(&other), TAGS_OK);
	return unused;
}

static void drain_beside_own_hands(void)
{
	open_pool(&pool, 8, 1, 4);
	run(drain_what_it_keeps, NULL);
	WANT(close_pool(&pool), 0);
}

static sem_t has_joined, is_over;

static void *leave_and_run_on(void *unused)
{
	struct tags_hand hand = TAGS_EMPTY;
	int32_t tag;

	WANT(tags_join(&pool, &hand, 0), TAGS_OK);
	WANT(sem_post(&has_joined), 0);
	tag = tags_get(&hand);
	WANT(tags_note(&hand, (uint32_t)tag, 1), TAGS_OK);
	WANT(tags_clear(&hand, (uint32_t)tag), TAGS_OK);
	WANT(tags_leave(&hand), TAGS_OK);
	WANT(sem_wait(&is_over), 0);
	return unused;
}

static int32_t close_or_resize(bool closes)
{
	struct tags_sums sums;

	return closes ? tags_close(&pool, &sums) : tags_resize(&pool, 5);
}

/*
 * A pool is closed or resized as soon as its only hand has left, by nothing else that orders the two: the thread
 * sanitizer is told by the library that what is freed then is used no more.
 */
static void end_as_soon_as_a_hand_has_left(bool closes)
{
	const struct tags_options options = { .total = 4, .hands = 1, .flags = TAGS_NOTES };
	pthread_t thread;
	int32_t status;

	WANT(tags_open(&pool, &options), TAGS_OK);
	WANT(sem_init(&has_joined, 0, 0), 0);
	WANT(sem_init(&is_over, 0, 0), 0);
	WANT(pthread_create(&thread, NULL, leave_and_run_on, NULL), 0);
	WANT(sem_wait(&has_joined), 0);
	do
		status = close_or_resize(closes);
	while (status == TAGS_HANDS_OUT);
	WANT(status, TAGS_OK);
	WANT(sem_post(&is_over), 0);
	WANT(pthread_join(thread, NULL), 0);
	if (!closes)
		WANT(close_pool(&pool), 0);
}

int main(void)
{
	end_by_returns_and_exits();
	end_by_a_cancel();
	end_with_kept_tags_and_a_wait();
	have_one_for_each_pool();
	end_beside_threads_that_wait_for_a_hand();
	come_back_in_turn();
	drain_beside_own_hands();
	end_as_soon_as_a_hand_has_left(false);
	end_as_soon_as_a_hand_has_left(true);
	printf("%d answers, %d wrong\n", checks, wrong);
	return wrong != 0;
}
