/*
 * Reports through a pool's handle at any time: beside resizes, beside joins and leaves, and
 * while the pool is closed and opened again.
 * reports [ROUNDS]
 */
#include <inttypes.h>
#include <pthread.h>
#include <stdbool.h>
#include <stdio.h>
#include <stdlib.h>

#include "../tags.h"

#include "checks.h"

enum { SMALL = 64, LARGE = TAGS_MAX_TOTAL, MONITORS = 2, WORDS = LARGE / 64 };

static long rounds = 1000;

static struct tags_pool pool;
static bool is_over;

/* Whether a call was refused because the pool is closed just now. */
static bool is_closed(int32_t status)
{
	return status == TAGS_BAD_HANDLE;
}

static int count_tag(uint32_t tag, void *count)
{
	CHECK(tag < LARGE);
	++*(int32_t *)count;
	return 0;
}

static void look_at_each(bool may_be_closed)
{
	int32_t count = 0;
	int32_t calls = tags_pool_each_busy(&pool, count_tag, &count);

	if (calls >= 0)
		CHECK(calls == count && count <= 1);
	else
		CHECK(may_be_closed && is_closed(calls) && count == 0);
}

static void look(bool may_be_closed)
{
	static const uint32_t hands = 1;
	uint64_t bits[WORDS];
	struct tags_sizes sizes = { 0, 0, 0, 0, 0 };
	int32_t busy = tags_pool_busy(&pool, bits, WORDS);
	int32_t status = tags_pool_show(&pool, TAGS_ORDINARY, &sizes);

	CHECK(busy >= 0 ? (uint32_t)busy <= hands : may_be_closed && is_closed(busy));
	if (status == TAGS_OK)
		CHECK((sizes.depth == SMALL || sizes.depth == LARGE) && sizes.busy <= hands);
	else
		CHECK(may_be_closed && is_closed(status));
	status = tags_pool_waiting(&pool);
	CHECK(status >= 0 || (may_be_closed && is_closed(status)));
	look_at_each(may_be_closed);
}

static void *watch(void *may_be_closed)
{
	while (!__atomic_load_n(&is_over, __ATOMIC_SEQ_CST))
		look(may_be_closed != NULL);
	return NULL;
}

static void open_pool(void)
{
	const struct tags_options options = { .total = SMALL, .hands = 4 };

	CHECK(tags_open(&pool, &options) == TAGS_OK);
}

static void close_pool(void)
{
	struct tags_sums sums;

	CHECK(tags_close(&pool, &sums) == TAGS_OK && sums.got == sums.back);
}

/* One tag at a time is busy. */
static void use_one_tag(void)
{
	struct tags_hand hand = TAGS_EMPTY;
	int32_t tag;

	CHECK(tags_join(&pool, &hand, 0) == TAGS_OK);
	tag = tags_get(&hand);
	CHECK(tag >= 0 && tags_clear(&hand, (uint32_t)tag) >= 0);
	CHECK(tags_leave(&hand) == TAGS_OK);
}

static void resize_again_and_again(void)
{
	for (long i = 0; i < rounds; i++) {
		use_one_tag();
		CHECK(tags_resize(&pool, i % 2 ? SMALL : LARGE) == TAGS_OK);
	}
}

static void close_again_and_again(void)
{
	for (long i = 0; i < rounds; i++) {
		close_pool();
		open_pool();
		use_one_tag();
	}
}

/* Does some work beside threads that look at the pool all the while. */
static void watched(void (*work)(void), bool may_be_closed)
{
	static bool yes = true;
	pthread_t ids[MONITORS];

	__atomic_store_n(&is_over, false, __ATOMIC_SEQ_CST);
	for (int i = 0; i < MONITORS; i++)
		CHECK(pthread_create(&ids[i], NULL, watch, may_be_closed ? &yes : NULL) == 0);
	work();
	__atomic_store_n(&is_over, true, __ATOMIC_SEQ_CST);
	for (int i = 0; i < MONITORS; i++)
		pthread_join(ids[i], NULL);
}

int main(int argc, char **argv)
{
	if (argc > 1)
		rounds = strtol(argv[1], NULL, 10);
	open_pool();
	watched(close_again_and_again, true);
	watched(resize_again_and_again, false);
	close_pool();
	printf("%" PRIu64 " wrong\n", wrong);
	return wrong != 0;
}
