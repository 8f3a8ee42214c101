/*
 * The kinds of tags that pairs.c measures, in this file a pool without caches and with caches of 8, and two bitmaps of a program's own,
 * one of them with a semaphore too. What belongs to a tag is in an array of the program's own.
 */
#define _GNU_SOURCE
#include "pairs.h"

#include <semaphore.h>

#include "bitmap.h"

volatile uint64_t slots[TAGS_MAX_TOTAL];

uint32_t stride(void)
{
	return tags / count;
}

/* A pool, with a hand for each thread and the default of words. */
uint64_t c_tags_beside_pairs(struct tags_hand *hand, volatile uint64_t *slots, uint64_t rounds);

static struct tags_pool pool = TAGS_EMPTY;

static bool pool_open_with(uint32_t cache)
{
	struct tags_options options = TAGS_OPTIONS_INIT;

	options.total = tags;
	options.hands = count;
	options.cache = cache;
	return tags_open(&pool, &options) == TAGS_OK;
}

static bool pool_open(void)
{
	return pool_open_with(0);
}

static bool cache_open(void)
{
	return pool_open_with(8);
}

static bool pool_enter(struct thread *self)
{
	return tags_join(&pool, &self->user.hand, 0) == TAGS_OK;
}

static uint64_t pool_run(struct thread *self, uint64_t rounds)
{
	return c_tags_beside_pairs(&self->user.hand, slots, rounds);
}

static bool pool_leave(struct thread *self)
{
	return tags_leave(&self->user.hand) == TAGS_OK;
}

static bool pool_close(void)
{
	struct tags_sums sums;

	return tags_close(&pool, &sums) == TAGS_OK && sums.got == sums.back;
}

/* A bitmap whose words have lines of their own, and a hint for each thread. */
static struct bitmap bitmap;

static int32_t lines_get(struct bitmap_user *user)
{
	return bitmap_get(&bitmap, ON_OWN_LINES, &user->hint);
}

static void lines_clear(struct bitmap_user *user, uint32_t tag)
{
	user->hint = tag >> bitmap.shift;
	bitmap_clear(&bitmap, ON_OWN_LINES, tag);
}

#define LOOPS lines
#define USER struct bitmap_user
#define GET lines_get
#define CLEAR lines_clear
#define TOUCH(user, slots, tag, value) touch_beside(slots, tag, value)
#include "../kernel/loops.h"

static bool lines_open(void)
{
	return bitmap_open(&bitmap, ON_OWN_LINES, bitmap_shift_of(tags), tags);
}

static bool lines_enter(struct thread *self)
{
	self->user.bitmap.hint = self->index * stride() >> bitmap.shift;
	return true;
}

static uint64_t lines_run(struct thread *self, uint64_t rounds)
{
	return lines_pairs(&self->user.bitmap, slots, rounds);
}

static bool lines_close(void)
{
	return bitmap_close(&bitmap, ON_OWN_LINES, tags);
}

/* The plainest one: words side by side, and one hint for all, which goes on to the next word at each get. */
static _Alignas(128) uint32_t next_word;

static int32_t plain_get(struct bitmap_user *user)
{
	uint32_t word = __atomic_load_n(&next_word, __ATOMIC_RELAXED);
	const int32_t tag = bitmap_get(&bitmap, SIDE_BY_SIDE, &word);

	(void)user;
	__atomic_store_n(&next_word, word + 1 < bitmap.count ? word + 1 : 0, __ATOMIC_RELAXED);
	return tag;
}

#define LOOPS plain
#define USER struct bitmap_user
#define GET plain_get
#define CLEAR(user, tag) bitmap_clear(&bitmap, SIDE_BY_SIDE, tag)
#define TOUCH(user, slots, tag, value) touch_beside(slots, tag, value)
#include "../kernel/loops.h"

static bool plain_open(void)
{
	return bitmap_open(&bitmap, SIDE_BY_SIDE, 6, tags);
}

static uint64_t plain_run(struct thread *self, uint64_t rounds)
{
	return plain_pairs(&self->user.bitmap, slots, rounds);
}

static bool plain_close(void)
{
	return bitmap_close(&bitmap, SIDE_BY_SIDE, tags);
}

/* The first bitmap, with a semaphore that counts its free tags: a get sleeps while there are none. */
static _Alignas(128) sem_t free_tags;

static int32_t counted_get(struct bitmap_user *user)
{
	int32_t tag;

	while (sem_wait(&free_tags) != 0)
		;
	do
		tag = lines_get(user);
	while (tag < 0);
	return tag;
}

static void counted_clear(struct bitmap_user *user, uint32_t tag)
{
	lines_clear(user, tag);
	sem_post(&free_tags);
}

#define LOOPS counted
#define USER struct bitmap_user
#define GET counted_get
#define CLEAR counted_clear
#define TOUCH(user, slots, tag, value) touch_beside(slots, tag, value)
#include "../kernel/loops.h"

static bool counted_open(void)
{
	return lines_open() && sem_init(&free_tags, 0, tags) == 0;
}

static uint64_t counted_run(struct thread *self, uint64_t rounds)
{
	return counted_pairs(&self->user.bitmap, slots, rounds);
}

static bool counted_close(void)
{
	int value = 0;

	return sem_getvalue(&free_tags, &value) == 0 && value == (int)tags && lines_close();
}

static const struct contender in_pool = { "pool", pool_open, pool_enter, pool_run, pool_leave, pool_close };
static const struct contender in_caches = { "cache", cache_open, pool_enter, pool_run, pool_leave, pool_close };
static const struct contender on_lines = { "bitmap", lines_open, lines_enter, lines_run, NULL, lines_close };
static const struct contender side_by_side = { "plain", plain_open, NULL, plain_run, NULL, plain_close };
static const struct contender counted = { "semaphore", counted_open, lines_enter, counted_run, NULL, counted_close };

const struct contender *const contenders[] = {
#ifdef KERNEL
	&kernel,
#endif
	&in_pool,
	&in_caches,
	&on_lines,
	&side_by_side,
	&counted,
#ifdef MEMPOOL
	&mempool,
#endif
	NULL,
};
