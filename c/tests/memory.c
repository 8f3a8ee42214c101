/*
 * Refuses each allocation in turn: the call reports it, its handle and errno stay as
 * they were, and no memory leaks. Built with --wrap for malloc, calloc, realloc and free.
 */
#include <errno.h>
#include <stdio.h>
#include <stdlib.h>

#include "../tags.h"

static int wrong;

/* Allocations until one is refused, and blocks that are not freed yet. */
static long left = -1;
static long kept;

void *__real_malloc(size_t size);
void *__real_calloc(size_t count, size_t size);
void *__real_realloc(void *old, size_t size);
void __real_free(void *old);
void *__wrap_malloc(size_t size);
void *__wrap_calloc(size_t count, size_t size);
void *__wrap_realloc(void *old, size_t size);
void __wrap_free(void *old);

static int is_refused(void)
{
	if (left <= 0 || --left > 0)
		return 0;
	errno = ENOMEM;
	return 1;
}

void *__wrap_malloc(size_t size)
{
	void *new = is_refused() ? NULL : __real_malloc(size);

	kept += new != NULL;
	return new;
}

void *__wrap_calloc(size_t count, size_t size)
{
	void *new = is_refused() ? NULL : __real_calloc(count, size);

	kept += new != NULL;
	return new;
}

void *__wrap_realloc(void *old, size_t size)
{
	void *new = is_refused() ? NULL : __real_realloc(old, size);

	kept += !old && new;
	return new;
}

void __wrap_free(void *old)
{
	kept -= old != NULL;
	__real_free(old);
}

static void check(const char *what, int is_well)
{
	if (is_well)
		return;
	wrong++;
	printf("wrong: %s\n", what);
}

/* Opens a pool while the allocation with this number is refused. */
static int32_t open_refused(struct tags_pool *pool, uint32_t queues, long number)
{
	struct tags_options options = {
		.total = 100,
		.reserved = 10,
		.hands = 3,
		.flags = TAGS_NOTES,
		.queues = queues,
	};
	int32_t status;

	left = number;
	errno = 0;
	status = tags_open(pool, &options);
	left = -1;
	check("an open changes errno", errno == 0);
	return status;
}

static int32_t join_refused(struct tags_pool *pool, struct tags_hand *hand, long number)
{
	int32_t status;

	left = number;
	errno = 0;
	status = tags_join(pool, hand, 0);
	left = -1;
	check("a join changes errno", errno == 0);
	return status;
}

/* Shows that three hands can still join a pool after some joins were refused. */
static void fill(struct tags_pool *pool)
{
	struct tags_hand hands[3] = { TAGS_EMPTY, TAGS_EMPTY, TAGS_EMPTY };

	for (int i = 0; i < 3; i++)
		check("a hand was lost", tags_join(pool, &hands[i], 0) == TAGS_OK);
	for (int i = 0; i < 3; i++)
		check("a hand cannot leave", tags_leave(&hands[i]) == TAGS_OK);
}

/* A hand has notes of each of its tags, also after the pool has grown. */
static void note_all(struct tags_pool *pool)
{
	struct tags_hand hand = TAGS_EMPTY;
	int32_t tag;

	check("no hand can note", tags_join(pool, &hand, 0) == TAGS_OK);
	while ((tag = tags_get(&hand)) >= 0)
		check("a note is refused", tags_note(&hand, (uint32_t)tag, 7) == TAGS_OK);
	for (uint32_t other = 0; other < 300; other++)
		if (tags_holds(&hand, other) == 1)
			check("a noted tag is lost", tags_clear(&hand, other) == TAGS_OK);
	check("the one who noted stays", tags_leave(&hand) == TAGS_OK);
}

/* Each tag goes through each queue, also after the pool has grown. */
static void submit_all(struct tags_pool *pool)
{
	struct tags_hand hand = TAGS_EMPTY;
	long before;
	int32_t tag;

	check("no hand can submit", tags_join(pool, &hand, 0) == TAGS_OK);
	before = kept;
	for (uint32_t queue = 0; queue < 2; queue++) {
		while ((tag = tags_get(&hand)) >= 0)
			check("a submit is refused", tags_submit_to(&hand, (uint32_t)tag, queue) == TAGS_OK);
		while ((tag = tags_next(&hand, queue)) >= 0)
			check("a queued tag is lost", tags_clear(&hand, (uint32_t)tag) == TAGS_OK);
	}
	check("a queue is not empty", tag == TAGS_NO_TAG && tags_pool_queued(pool, 0) == 0);
	check("a call on a queue takes memory", kept == before);
	check("the one who submitted stays", tags_leave(&hand) == TAGS_OK);
}

static void refuse_joins(struct tags_pool *pool)
{
	struct tags_hand hand = TAGS_EMPTY;
	long number = 1;
	long before = kept;

	while (join_refused(pool, &hand, number) == TAGS_NO_MEMORY) {
		check("a refused hand is kept", hand.full == 0 && kept == before);
		number++;
	}
	check("a join takes no memory", number > 1);
	check("the hand is of use", tags_get(&hand) >= 0);
	check("the hand cannot leave", tags_leave(&hand) == TAGS_OK && kept == before);
}

static int32_t share_refused(struct tags_pool *pool, struct tags_hands *hands, long number)
{
	int32_t status;

	left = number;
	errno = 0;
	status = tags_hands_open(pool, hands, 2);
	left = -1;
	check("hands that are shared change errno", errno == 0);
	return status;
}

static void refuse_shares(struct tags_pool *pool)
{
	struct tags_hands hands = TAGS_EMPTY;
	long number = 1;
	long before = kept;

	while (share_refused(pool, &hands, number) == TAGS_NO_MEMORY) {
		check("refused hands are kept", hands.full == 0 && kept == before);
		number++;
	}
	check("shared hands take no memory", number > 4);
	check("the hands are of use", tags_hands_clear(&hands, (uint32_t)tags_hands_get(&hands)) == TAGS_OK);
	check("the tag of a hand that left is lost", tags_hands_close(&hands) == TAGS_IN_USE);
	for (uint32_t tag = 0; tag < hands.total; tag++)
		if (tags_hands_clear(&hands, tag) == TAGS_OK)
			check("it is another one", tags_hands_clear(&hands, tag) == TAGS_NOT_HELD);
	check("the hands cannot be closed", tags_hands_close(&hands) == TAGS_OK && kept == before);
}

static int32_t resize_refused(struct tags_pool *pool, uint32_t total, long number)
{
	int32_t status;

	left = number;
	errno = 0;
	status = tags_resize(pool, total);
	left = -1;
	check("a resize changes errno", errno == 0);
	return status;
}

static uint32_t ordinary_tags(struct tags_pool *pool)
{
	struct tags_hand hand = TAGS_EMPTY;
	struct tags_sizes sizes = { 0 };

	check("no hand can look", tags_join(pool, &hand, 0) == TAGS_OK);
	check("a hand cannot look", tags_show(&hand, TAGS_ORDINARY, &sizes) == TAGS_OK);
	check("the one who looked stays", tags_leave(&hand) == TAGS_OK);
	return sizes.depth;
}

static void refuse_resizes(struct tags_pool *pool)
{
	long number = 1;
	long before = kept;

	while (resize_refused(pool, 300, number) == TAGS_NO_MEMORY) {
		check("memory of a refused resize is kept", kept == before);
		check("a refused resize changes the pool", ordinary_tags(pool) == 90);
		number++;
	}
	check("a resize takes no memory", number > 1);
	check("a resize keeps the old tags", kept == before && ordinary_tags(pool) == 290);
}

/* Returns how many allocations a pool with so many queues takes. */
static long open_at_last(struct tags_pool *pool, uint32_t queues)
{
	long number = 1;

	while (open_refused(pool, queues, number) == TAGS_NO_MEMORY) {
		check("a refused pool is kept", pool->full == 0 && kept == 0);
		number++;
	}
	check("a pool takes no memory", number > 10);
	return number - 1;
}

static void close_pool(struct tags_pool *pool)
{
	struct tags_sums sums;

	check("the pool cannot be closed", tags_close(pool, &sums) == TAGS_OK && sums.held == 0);
	check("memory is kept", kept == 0);
}

int main(void)
{
	struct tags_pool pool = TAGS_EMPTY;
	long without = open_at_last(&pool, 0), with;

	note_all(&pool);
	refuse_resizes(&pool);
	note_all(&pool);
	refuse_joins(&pool);
	refuse_shares(&pool);
	fill(&pool);
	close_pool(&pool);
	with = open_at_last(&pool, 2);
	check("queues take no memory", with > without + 20);
	submit_all(&pool);
	refuse_resizes(&pool);
	submit_all(&pool);
	fill(&pool);
	close_pool(&pool);
	printf("%ld allocations of a pool, %ld of one with queues, %d wrong\n", without, with, wrong);
	return wrong != 0;
}
