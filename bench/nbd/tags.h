/*
 * What c/examples/nbd calls of the library, over two lists of free tags behind a lock,
 * with a condition variable for the threads that wait for one of each; and a ring of
 * submitted tags behind a lock of its own, with a condition variable for the workers.
 * Nothing is checked, the slots are an array, and there are no caches.
 */
#ifndef TAGS_H
#define TAGS_H

#include <pthread.h>
#include <stdint.h>
#include <stdlib.h>
#include <time.h>

enum {
	TAGS_OK = 0,
	TAGS_NO_RESERVED = -2,
	TAGS_NO_TAG = -10,
	TAGS_NOT_EMPTY = -13,
	TAGS_STOPPED = -36,
	TAGS_MAX_TOTAL = 10240,
	TAGS_MAX_HANDS = 64,
	TAGS_MAX_CACHE = 64,
	TAGS_ORDINARY = 0,
	TAGS_RESERVED = 1,
	TAGS_NOTES = 8
};

struct tags_options { uint32_t total, reserved, hands, cache, flags, queues; };
struct tags_sums { uint64_t got, back; };
struct tags_sizes { uint32_t depth, busy; };
struct tags_noted { uint64_t value, since; };

struct list {
	uint32_t depth;
	uint32_t count;
	uint32_t waiting;
	pthread_cond_t freed;
	uint32_t tags[TAGS_MAX_TOTAL];
};

/* In the order in which they came. There is room for every tag, so it is never full. */
struct ring {
	pthread_mutex_t lock;
	pthread_cond_t filled;
	uint32_t first;
	uint32_t count;
	uint32_t waiting;
	uint32_t tags[TAGS_MAX_TOTAL];
};

struct lists {
	pthread_mutex_t lock;
	struct list of[2];
	struct ring submitted;
	uint64_t slots[TAGS_MAX_TOTAL];
	struct tags_noted notes[TAGS_MAX_TOTAL];
	struct tags_sums sums;
	/* how often waits were stopped and resumed: odd while they are stopped; with the locks of all that wait */
	uint32_t stops;
};

struct tags_pool { struct lists *lists; };
struct tags_hand { struct lists *lists; };

static inline int32_t tags_open(struct tags_pool *pool, const struct tags_options *options)
{
	struct lists *lists = calloc(1, sizeof(*lists));

	if (!lists)
		return TAGS_NO_TAG;
	pthread_mutex_init(&lists->lock, NULL);
	pthread_mutex_init(&lists->submitted.lock, NULL);
	pthread_cond_init(&lists->submitted.filled, NULL);
	for (int kind = 0; kind < 2; kind++)
		pthread_cond_init(&lists->of[kind].freed, NULL);
	/* the lowest tag is the first to be got */
	for (uint32_t tag = options->total; tag-- > 0;) {
		struct list *list = &lists->of[tag < options->reserved];

		list->tags[list->count++] = tag;
		list->depth++;
	}
	pool->lists = lists;
	return TAGS_OK;
}

static inline int32_t list_get(struct lists *lists, int kind, int waits)
{
	struct list *list = &lists->of[kind];
	int32_t tag = TAGS_NO_TAG;
	uint32_t stops;

	if (list->depth == 0)
		return TAGS_NO_RESERVED;
	pthread_mutex_lock(&lists->lock);
	stops = lists->stops;
	list->waiting += waits;
	while (waits && list->count == 0 && stops % 2 == 0 && stops == lists->stops)
		pthread_cond_wait(&list->freed, &lists->lock);
	list->waiting -= waits;
	if (waits && (stops % 2 == 1 || stops != lists->stops)) {
		tag = TAGS_STOPPED;
	} else if (list->count > 0) {
		tag = (int32_t)list->tags[--list->count];
		lists->sums.got++;
	}
	pthread_mutex_unlock(&lists->lock);
	return tag;
}

static inline int32_t list_give(struct lists *lists, uint32_t tag)
{
	struct list *list = &lists->of[tag < lists->of[TAGS_RESERVED].depth];

	pthread_mutex_lock(&lists->lock);
	list->tags[list->count++] = tag;
	lists->sums.back++;
	if (list->waiting > 0)
		pthread_cond_signal(&list->freed);
	pthread_mutex_unlock(&lists->lock);
	return TAGS_OK;
}

static inline int32_t ring_push(struct ring *ring, uint32_t tag)
{
	pthread_mutex_lock(&ring->lock);
	ring->tags[(ring->first + ring->count++) % TAGS_MAX_TOTAL] = tag;
	pthread_cond_signal(&ring->filled);
	pthread_mutex_unlock(&ring->lock);
	return TAGS_OK;
}

static inline int32_t ring_pop(struct lists *lists)
{
	struct ring *ring = &lists->submitted;
	int32_t tag = TAGS_STOPPED;
	uint32_t stops;

	pthread_mutex_lock(&ring->lock);
	stops = lists->stops;
	ring->waiting++;
	while (ring->count == 0 && stops % 2 == 0 && stops == lists->stops)
		pthread_cond_wait(&ring->filled, &ring->lock);
	ring->waiting--;
	if (ring->count > 0) {
		tag = (int32_t)ring->tags[ring->first];
		ring->first = (ring->first + 1) % TAGS_MAX_TOTAL;
		ring->count--;
	}
	pthread_mutex_unlock(&ring->lock);
	return tag;
}

static inline int32_t tags_pool_queued(struct tags_pool *pool, uint32_t queue)
{
	struct ring *ring = &pool->lists->submitted;
	int32_t count;

	(void)queue;
	pthread_mutex_lock(&ring->lock);
	count = (int32_t)ring->count;
	pthread_mutex_unlock(&ring->lock);
	return count;
}

/* Stops waits, or resumes them. */
static inline int32_t turn_waits(struct lists *lists)
{
	pthread_mutex_lock(&lists->lock);
	pthread_mutex_lock(&lists->submitted.lock);
	lists->stops++;
	for (int kind = 0; kind < 2; kind++)
		pthread_cond_broadcast(&lists->of[kind].freed);
	pthread_cond_broadcast(&lists->submitted.filled);
	pthread_mutex_unlock(&lists->submitted.lock);
	pthread_mutex_unlock(&lists->lock);
	return TAGS_OK;
}

static inline int32_t tags_join(struct tags_pool *pool, struct tags_hand *hand, uint32_t flags)
{
	(void)flags;
	if (hand->lists)
		return TAGS_NOT_EMPTY;
	hand->lists = pool->lists;
	return TAGS_OK;
}

static inline int32_t tags_leave(struct tags_hand *hand)
{
	hand->lists = NULL;
	return TAGS_OK;
}

static inline int32_t tags_close(struct tags_pool *pool, struct tags_sums *sums)
{
	*sums = pool->lists->sums;
	free(pool->lists);
	return TAGS_OK;
}

static inline int32_t tags_pool_show(struct tags_pool *pool, uint32_t kind, struct tags_sizes *sizes)
{
	struct list *list = &pool->lists->of[kind];

	pthread_mutex_lock(&pool->lists->lock);
	sizes->depth = list->depth;
	sizes->busy = list->depth - list->count;
	pthread_mutex_unlock(&pool->lists->lock);
	return TAGS_OK;
}

static inline int32_t tags_pool_waiting(struct tags_pool *pool)
{
	int32_t waiting;

	pthread_mutex_lock(&pool->lists->lock);
	waiting = (int32_t)(pool->lists->of[TAGS_ORDINARY].waiting + pool->lists->of[TAGS_RESERVED].waiting);
	pthread_mutex_lock(&pool->lists->submitted.lock);
	waiting += (int32_t)pool->lists->submitted.waiting;
	pthread_mutex_unlock(&pool->lists->submitted.lock);
	pthread_mutex_unlock(&pool->lists->lock);
	return waiting;
}

static inline int32_t tags_flush(struct tags_hand *hand)
{
	(void)hand;
	return TAGS_OK;
}

/* Nobody reads it. */
static inline int32_t tags_note(struct tags_hand *hand, uint32_t tag, uint64_t value)
{
	struct tags_noted *note = &hand->lists->notes[tag];
	struct timespec time;

	clock_gettime(CLOCK_MONOTONIC, &time);
	__atomic_store_n(&note->since, (uint64_t)time.tv_sec * 1000000000 + (uint64_t)time.tv_nsec, __ATOMIC_RELAXED);
	__atomic_store_n(&note->value, value, __ATOMIC_RELAXED);
	return TAGS_OK;
}

#define tags_stop(pool) turn_waits((pool)->lists)
#define tags_resume(pool) turn_waits((pool)->lists)
#define tags_get_blocking(hand) list_get((hand)->lists, TAGS_ORDINARY, 1)
#define tags_get_reserved(hand) list_get((hand)->lists, TAGS_RESERVED, 0)
#define tags_get_reserved_blocking(hand) list_get((hand)->lists, TAGS_RESERVED, 1)
#define tags_submit(hand, tag) ring_push(&(hand)->lists->submitted, tag)
#define tags_next_blocking(hand, queue) ((void)(queue), ring_pop((hand)->lists))
#define tags_clear(hand, tag) list_give((hand)->lists, tag)
#define tags_write(hand, tag, value, former) ((hand)->lists->slots[tag] = (value), TAGS_OK)
#define tags_read(hand, tag, value) (*(value) = (hand)->lists->slots[tag], TAGS_OK)
#define tags_take(hand, tag) ((void)(hand), (void)(tag), TAGS_OK)
#define tags_post(hand, tag) ((void)(hand), (void)(tag), TAGS_OK)
/* which tags are busy it does not know */
#define tags_pool_each_noted(pool, function, argument) ((void)(pool), (void)(function), (void)(argument), TAGS_OK)
#define tags_strerror(status) ((void)(status), "refused")

#endif
