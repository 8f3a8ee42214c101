/*
 * Pools and hands: the library's calls, with the bell of the pool. A pool and its
 * hands point to the bell, and each hand has a place in it, by its number. The lock of a pool's handle
 * is one of sixteen static ones, found by the handle's address: in the bell it would go with the pool.
 *
 * Stops are counted: a flag that a resume took back would be gone before a waiter could look. A stopped
 * pool takes no tag for a call that may wait, even while one is free, so that loops of threads end.
 */
#include "bell.h"

#include <stdlib.h>

/*
 * What a call does inside is hidden from the thread sanitizer, if the program brings it: some
 * move a hand by a copy that it would see, and it sees none of the steps that order copies.
 */
__attribute__((weak)) void AnnotateIgnoreReadsBegin(const char *file, int line);
__attribute__((weak)) void AnnotateIgnoreReadsEnd(const char *file, int line);
__attribute__((weak)) void AnnotateIgnoreWritesBegin(const char *file, int line);
__attribute__((weak)) void AnnotateIgnoreWritesEnd(const char *file, int line);

static void begin_hidden(void)
{
	if (!AnnotateIgnoreReadsBegin || !AnnotateIgnoreWritesBegin)
		return;
	AnnotateIgnoreReadsBegin(__FILE__, __LINE__);
	AnnotateIgnoreWritesBegin(__FILE__, __LINE__);
}

static int32_t end_hidden(int32_t status)
{
	if (AnnotateIgnoreReadsEnd && AnnotateIgnoreWritesEnd) {
		AnnotateIgnoreWritesEnd(__FILE__, __LINE__);
		AnnotateIgnoreReadsEnd(__FILE__, __LINE__);
	}
	return status;
}

/*
 * Calls that use a pool's handle at once take turns. The lock is found by the handle's address,
 * and outlives the pool: a report beside tags_close() finds the pool open, or its handle empty.
 * No code of the program's is called with it.
 */
#define FOUR_LOCKS \
	PTHREAD_MUTEX_INITIALIZER, PTHREAD_MUTEX_INITIALIZER, PTHREAD_MUTEX_INITIALIZER, \
		PTHREAD_MUTEX_INITIALIZER

static pthread_mutex_t locks[16] = { FOUR_LOCKS, FOUR_LOCKS, FOUR_LOCKS, FOUR_LOCKS };

static pthread_mutex_t *lock_of(const struct tags_pool *pool)
{
	const uintptr_t at = (uintptr_t)pool / sizeof(*pool);

	return &locks[(at ^ at >> 4 ^ at >> 8) % 16];
}

void tags_library_lock_handle(const struct tags_pool *pool)
{
	pthread_mutex_lock(lock_of(pool));
}

void tags_library_unlock_handle(const struct tags_pool *pool)
{
	pthread_mutex_unlock(lock_of(pool));
}

/* In a forked child the threads that had them locked are gone. */
static void renew_locks(void)
{
	for (size_t i = 0; i < sizeof(locks) / sizeof(*locks); i++)
		pthread_mutex_init(&locks[i], NULL);
}

__attribute__((constructor)) static void watch_forks(void)
{
	pthread_atfork(NULL, NULL, renew_locks);
}

/*
 * The options as the library takes them: there a shift of 0 means one tag per word, -1 the
 * default by the number of hands, and TAGS_SHIFT_AS_KERNEL the kernel's. TAGS_KEEP_WHILE_HOLDING
 * is an argument of its own, and TAGS_NOTES is none of its, nor are the queues.
 */
static struct tags_options asked_for(const struct tags_options *options)
{
	struct tags_options asked = *options;

	if (options->shift == 0)
		asked.shift = -1;
	else if (options->shift == TAGS_ONE_PER_WORD)
		asked.shift = 0;
	asked.flags &= ~(uint32_t)(TAGS_KEEP_WHILE_HOLDING | TAGS_NOTES);
	return asked;
}

/*
 * Notes how many tags a pool has now. No batch is longer than the first word, which is the longest:
 * in a small pool it has fewer tags than bits. A get of a larger batch is cut to it, as how many tags
 * a word has follows from the options.
 */
static void note_total(struct tags_pool *pool, struct bell *bell, uint32_t total)
{
	struct tags_sizes sizes = { 0, 0, 0, 0, 0 };
	uint32_t batch;

	tags_library_pool_show(pool, TAGS_ORDINARY, &sizes);
	bell->depth = total - bell->reserved;
	batch = bell->depth < sizes.bits_per_word ? bell->depth : sizes.bits_per_word;
	/* a program in another language may load it meanwhile */
	tags_store(&bell->waits.batch, batch > 0 ? batch : 1);
}

/* Makes the boards of a pool's notes and its queues, if it has any, and says whether there was the memory. */
static bool make_parts(struct bell *bell, const struct tags_options *options)
{
	if (options->flags & TAGS_NOTES) {
		bell->boards = tags_library_make_boards(options->total);
		if (!bell->boards)
			return false;
	}
	return options->queues == 0 || tags_library_add_queues(bell, options->queues, options->total);
}

/* Makes the bell of a pool, with these parts, or returns NULL. */
static struct bell *make_bell_for(const struct tags_options *options)
{
	struct bell *bell = tags_library_make_bell(options->hands);

	if (!bell || make_parts(bell, options))
		return bell;
	tags_library_free_bell(bell);
	return NULL;
}

/* Gives a pool its bell, or closes it again. */
static int32_t add_bell(struct tags_pool *pool, const struct tags_options *options)
{
	struct bell *bell = make_bell_for(options);
	struct tags_sums unused;

	if (!bell) {
		tags_library_close(pool, &unused);
		return TAGS_NO_MEMORY;
	}
	bell->reserved = options->reserved;
	bell->is_cached = options->cache > 0;
	bell->flags = options->flags & (TAGS_NOTES | TAGS_ROUND_ROBIN);
	note_total(pool, bell, options->total);
	pool->waits = &bell->waits;
	return TAGS_OK;
}

/*
 * Those who wait for a hand are answered before another pool can be opened in the handle. The thread sanitizer has
 * been told that all hands have left, whose calls used what is freed here.
 */
static void remove_bell(struct tags_pool *pool)
{
	struct bell *bell = tags_bell_of(pool->waits);

	pool->waits = NULL;
	tags_library_end_joins(bell, TAGS_BAD_HANDLE);
	tags_library_free_bell(bell);
}

static int32_t open_locked(struct tags_pool *pool, const struct tags_options *options)
{
	const struct tags_options asked = asked_for(options);
	int32_t status;

	/* The library refuses one that is too large. */
	if (!pool->full && asked.flags <= TAGS_ROUND_ROBIN && options->shift < TAGS_SHIFT_AS_KERNEL)
		return TAGS_BAD_SHIFT;
	if (!pool->full && asked.flags <= TAGS_ROUND_ROBIN && options->queues > TAGS_MAX_QUEUES)
		return TAGS_BAD_QUEUE_COUNT;
	status = tags_library_open_cached(pool, &asked, options->cache,
					  (options->flags & TAGS_KEEP_WHILE_HOLDING) != 0);
	return status == TAGS_OK ? add_bell(pool, options) : status;
}

int32_t tags_open(struct tags_pool *pool, const struct tags_options *options)
{
	int saved = errno;
	int32_t status;

	if (!pool || !options)
		return TAGS_NULL;
	tags_library_lock_handle(pool);
	status = open_locked(pool, options);
	tags_library_unlock_handle(pool);
	errno = saved;
	return status;
}

int32_t tags_library_fill_hand(struct tags_pool *pool, struct tags_hand *hand, uint32_t flags)
{
	int32_t status;

	begin_hidden();
	status = end_hidden(tags_library_join(pool, hand, flags));
	if (status != TAGS_OK)
		return status;
	hand->waits = pool->waits;
	hand->place = &tags_bell_of(pool->waits)->places[tags_library_number(hand)];
	hand->flags = tags_bell_of(pool->waits)->flags;
	return status;
}

int32_t tags_join(struct tags_pool *pool, struct tags_hand *hand, uint32_t flags)
{
	int saved = errno;
	int32_t status;

	if (!pool || !hand)
		return TAGS_NULL;
	if (&pool->full == &hand->full)
		return hand->full ? TAGS_NOT_EMPTY : TAGS_BAD_HANDLE;
	TAGS_DETAIL_MARK(hand);
	tags_library_lock_handle(pool);
	status = tags_library_fill_hand(pool, hand, flags);
	tags_library_unlock_handle(pool);
	TAGS_DETAIL_SEES(TAGS_MAX_TOTAL);
	errno = saved;
	return status;
}

int32_t tags_library_empty_hand(struct tags_hand *hand)
{
	hand->waits = NULL;
	hand->place = NULL;
	hand->flags = 0;
	TAGS_DETAIL_SHOWS(TAGS_MAX_TOTAL);
	begin_hidden();
	return end_hidden(tags_library_leave(hand));
}

int32_t tags_library_return_hand(struct tags_hand *hand)
{
	struct bell *bell;
	int saved = errno;
	int32_t status;

	if (!hand->place)
		return TAGS_BAD_HANDLE;
	bell = tags_bell_of(hand->waits);
	tags_library_cancel(hand);
	tags_library_cancel_nexts(hand);
	tags_flush(hand);
	status = tags_library_empty_hand(hand);
	tags_library_tell_first(bell, TAGS_A_HAND);
	errno = saved;
	return status;
}

/* What is made for a number of tags. */
struct parts {
	struct tags_board *boards;
	struct tags_queues *queues;
};

static void free_parts(const struct bell *bell, const struct parts *parts)
{
	tags_library_free_queues(bell, parts->queues);
	free(parts->boards);
}

/* Makes what the pool has of these. Returns whether there was the memory. */
static bool make_parts_anew(const struct bell *bell, uint32_t total, struct parts *parts)
{
	if (bell->boards)
		parts->boards = tags_library_make_boards(total);
	if (bell->queues)
		parts->queues = tags_library_make_queues(bell, total);
	return !bell->boards == !parts->boards && !bell->queues == !parts->queues;
}

static void change_total(struct tags_pool *pool, uint32_t total, const struct parts *parts)
{
	struct bell *bell = tags_bell_of(pool->waits);

	note_total(pool, bell, total);
	free(bell->boards);
	bell->boards = parts->boards;
	tags_library_change_queues(bell, parts->queues, total);
}

/*
 * No tag is held or posted once it is done, so none has a note, or is in a queue. What is freed then was used by
 * hands that have left, and the thread sanitizer is told before that they have.
 */
static int32_t resize_locked(struct tags_pool *pool, uint32_t total)
{
	const struct bell *bell = tags_bell_in(pool);
	struct parts parts = { NULL, NULL };
	int32_t status = TAGS_NO_MEMORY;

	if (!bell)
		return TAGS_BAD_HANDLE;
	if (total > TAGS_MAX_TOTAL || make_parts_anew(bell, total, &parts)) {
		begin_hidden();
		status = end_hidden(tags_library_resize(pool, total));
	}
	TAGS_DETAIL_SEES(TAGS_MAX_TOTAL);
	if (status == TAGS_OK)
		change_total(pool, total, &parts);
	else
		free_parts(bell, &parts);
	return status;
}

int32_t tags_resize(struct tags_pool *pool, uint32_t total)
{
	int saved = errno;
	int32_t status;

	if (!pool)
		return TAGS_NULL;
	tags_library_lock_handle(pool);
	status = resize_locked(pool, total);
	tags_library_unlock_handle(pool);
	errno = saved;
	return status;
}

int32_t tags_library_empty_pool(struct tags_pool *pool, struct tags_sums *sums)
{
	begin_hidden();
	return tags_detail_filled(end_hidden(tags_library_close(pool, sums)), sums, sizeof(*sums));
}

int32_t tags_close(struct tags_pool *pool, struct tags_sums *sums)
{
	int saved = errno;
	int32_t status;

	if (!pool || !sums)
		return TAGS_NULL;
	tags_library_lock_handle(pool);
	status = tags_library_empty_pool(pool, sums);
	TAGS_DETAIL_SEES(TAGS_MAX_TOTAL);
	if (status == TAGS_OK || status == TAGS_HAND_LOST)
		remove_bell(pool);
	tags_library_unlock_handle(pool);
	errno = saved;
	return status;
}

int32_t tags_stop(struct tags_pool *pool)
{
	if (!pool)
		return TAGS_NULL;
	if (!pool->waits || pool->place)
		return TAGS_BAD_HANDLE;
	tags_library_stop(pool->waits);
	return TAGS_OK;
}

int32_t tags_resume(struct tags_pool *pool)
{
	if (!pool)
		return TAGS_NULL;
	if (!pool->waits || pool->place)
		return TAGS_BAD_HANDLE;
	tags_library_resume(pool->waits);
	return TAGS_OK;
}

struct tags_waits *tags_library_waits_of(const struct tags_pool *pool)
{
	struct bell *bell;

	tags_library_lock_handle(pool);
	bell = tags_bell_in(pool);
	tags_library_unlock_handle(pool);
	return bell ? &bell->waits : NULL;
}

bool tags_library_is_crowded(const struct tags_pool *pool)
{
	bool is_crowded;

	tags_library_lock_handle(pool);
	is_crowded = tags_bell_in(pool) && tags_library_has_waiters(tags_bell_in(pool));
	tags_library_unlock_handle(pool);
	return is_crowded;
}

bool tags_library_come_to_gate(const struct tags_pool *pool, struct tags_waiter *it)
{
	tags_library_lock_handle(pool);
	it->bell = tags_bell_in(pool);
	if (it->bell)
		tags_library_come(it);
	tags_library_unlock_handle(pool);
	return it->bell != NULL;
}

bool tags_library_is_stopped(const struct tags_pool *pool)
{
	bool is_stopped;

	tags_library_lock_handle(pool);
	is_stopped = pool->waits && tags_load(&pool->waits->stops) % 2 == 1;
	TAGS_DETAIL_SEES(TAGS_MAX_TOTAL + 1);
	tags_library_unlock_handle(pool);
	return is_stopped;
}
