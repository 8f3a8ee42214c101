/*
 * Provokes each refusal, checks its number, and that a refused call changes
 * nothing. TAGS_NO_MEMORY is in memory.c. The README says why no caller sees the
 * other three: TAGS_SPENT, TAGS_NO_ROOM and TAGS_HAND_LOST.
 */
#include <stdio.h>
#include <string.h>
#include <time.h>

#include "../tags.h"

static int wanted;
static int wrong;

static void want(const char *call, int32_t found, int32_t status)
{
	wanted++;
	if (found == status)
		return;
	wrong++;
	printf("%s: %d (%s), not %d\n", call, (int)found, tags_strerror(found), (int)status);
}

#define WANT(call, status) want(#call, call, status)

/* Two reserved tags, then ten ordinary ones in words of four, for two hands. */
static const struct tags_options twelve = {
	.total = 12,
	.reserved = 2,
	.shift = 2,
	.min_shallow = 3,
	.hands = 2,
};

static struct tags_pool *as_pool(struct tags_hand *hand)
{
	return (struct tags_pool *)(void *)hand;
}

static struct tags_hand *as_hand(struct tags_pool *pool)
{
	return (struct tags_hand *)(void *)pool;
}

/* Is called for no tag. */
static int never(uint32_t tag, void *unused)
{
	(void)unused;
	want("a tag that is passed", (int32_t)tag, -1);
	return 0;
}

/* Is not called: nobody is told here. */
static int never_noted(uint32_t tag, const struct tags_noted *note, void *unused)
{
	(void)note;
	return never(tag, unused);
}

static void never_call(void *unused)
{
	(void)unused;
	want("a call", 1, 0);
}

/* Passes NULL for each pointer in turn. */
static void refuse_null(struct tags_pool *pool, struct tags_hand *hand)
{
	const uint32_t tag = 2;
	uint64_t value = 5;
	uint32_t many = 5;

	WANT(tags_open(NULL, &twelve), -28);
	WANT(tags_open(pool, NULL), -28);
	WANT(tags_join(NULL, hand, 0), -28);
	WANT(tags_join(pool, NULL, 0), -28);
	WANT(tags_leave(NULL), -28);
	WANT(tags_resize(NULL, 12), -28);
	WANT(tags_close(pool, NULL), -28);
	WANT(tags_get(NULL), -28);
	WANT(tags_get_reserved(NULL), -28);
	WANT(tags_get_shallow(NULL, 3), -28);
	WANT(tags_get_exactly(NULL, 2), -28);
	WANT(tags_get_batch(NULL, 1, &value), -28);
	WANT(tags_get_batch(hand, 1, NULL), -28);
	WANT(tags_get_many(NULL, &many, 1), -28);
	WANT(tags_get_many(hand, NULL, 0), -28);
	WANT(tags_clear(NULL, 2), -28);
	WANT(tags_clear_batch(hand, NULL, 0), -28);
	WANT(tags_read(hand, 2, NULL), -28);
	WANT(tags_write(NULL, 2, 1, &value), -28);
	WANT(tags_note(NULL, 2, 1), -28);
	WANT(tags_post(NULL, 2), -28);
	WANT(tags_take(NULL, 2), -28);
	WANT(tags_post_mask(NULL, 2, 1), -28);
	WANT(tags_take_mask(NULL, 2, 1), -28);
	WANT(tags_holds(NULL, 2), -28);
	WANT(tags_busy(hand, NULL, 1), -28);
	WANT(tags_show(hand, TAGS_ORDINARY, NULL), -28);
	WANT(tags_waiting(NULL), -28);
	WANT(tags_pool_busy(NULL, &value, 1), -28);
	WANT(tags_pool_busy(pool, NULL, 1), -28);
	WANT(tags_pool_each_busy(NULL, never, NULL), -28);
	WANT(tags_pool_each_busy(pool, NULL, &value), -28);
	WANT(tags_pool_each_noted(NULL, never_noted, NULL), -28);
	WANT(tags_pool_each_noted(pool, NULL, &value), -28);
	WANT(tags_pool_show(pool, TAGS_ORDINARY, NULL), -28);
	WANT(tags_pool_waiting(NULL), -28);
	WANT(tags_pool_total(NULL), -28);
	WANT(tags_pool_batch(NULL), -28);
	WANT(tags_get_blocking(NULL), -28);
	WANT(tags_clear_batch(NULL, &tag, 1), -28);
	WANT(tags_clear_mask(NULL, 2, 1), -28);
	WANT(tags_flush(NULL), -28);
	WANT(tags_get_write(NULL, 1), -28);
	WANT(tags_read_clear(NULL, 2, &value), -28);
	WANT(tags_read_clear(hand, 2, NULL), -28);
	WANT(tags_get_async(NULL, 0), -28);
	WANT(tags_get_notified(NULL, never_call, NULL), -28);
	WANT(tags_get_notified(hand, NULL, &value), -28);
	WANT(tags_get_reserved_blocking(NULL), -28);
	WANT(tags_get_reserved_timed(hand, CLOCK_MONOTONIC, NULL), -28);
	WANT(tags_get_reserved_async(NULL, 0), -28);
	WANT(tags_get_reserved_notified(NULL, never_call, NULL), -28);
	WANT(tags_get_reserved_notified(hand, NULL, &value), -28);
	WANT(tags_cancel(NULL), -28);
	WANT(tags_stop(NULL), -28);
}

/* The same of calls on queues. The pool has none. */
static void refuse_null_for_queues(struct tags_hand *hand)
{
	const struct timespec past = { 0, 0 };

	WANT(tags_submit(NULL, 2), -28);
	WANT(tags_submit_to(NULL, 2, 0), -28);
	WANT(tags_next(NULL, 0), -28);
	WANT(tags_next_blocking(NULL, 0), -28);
	WANT(tags_next_timed(NULL, 0, CLOCK_MONOTONIC, &past), -28);
	WANT(tags_next_timed(hand, 0, CLOCK_MONOTONIC, NULL), -28);
	WANT(tags_next_async(NULL, 0, 0), -28);
	WANT(tags_next_notified(NULL, 0, never_call, NULL), -28);
	WANT(tags_next_notified(hand, 0, NULL, hand), -28);
	WANT(tags_cancel_next(NULL, 0), -28);
	WANT(tags_pool_queued(NULL, 0), -28);
}

/* Makes each call on a queue, which is refused for the hand or for the queue. */
static void refuse_queue(struct tags_hand *hand, uint32_t queue, int32_t status)
{
	const struct timespec past = { 0, 0 };
	const struct timespec unsound = { 0, -1 };

	WANT(tags_submit_to(hand, 2, queue), status);
	WANT(tags_submit_to(hand, UINT32_MAX, queue), status);
	WANT(tags_next(hand, queue), status);
	WANT(tags_next_blocking(hand, queue), status);
	WANT(tags_next_timed(hand, queue, CLOCK_MONOTONIC, &past), status);
	WANT(tags_next_timed(hand, queue, CLOCK_MONOTONIC, &unsound), -32);
	WANT(tags_next_timed(hand, queue, -1, &past), -32);
	WANT(tags_next_async(hand, queue, 0), status);
	WANT(tags_next_async(hand, queue, -1), status);
	WANT(tags_next_notified(hand, queue, never_call, NULL), status);
	WANT(tags_cancel_next(hand, queue), status);
}

static void refuse_options(void)
{
	struct tags_pool pool = TAGS_EMPTY;
	struct tags_options options = twelve;

	options.total = TAGS_MAX_TOTAL + 1;
	WANT(tags_open(&pool, &options), -22);
	options.total = UINT32_MAX;
	WANT(tags_open(&pool, &options), -22);
	options = twelve;
	options.reserved = 13;
	WANT(tags_open(&pool, &options), -23);
	options = twelve;
	options.shift = 7;
	WANT(tags_open(&pool, &options), -24);
	options.shift = INT32_MAX;
	WANT(tags_open(&pool, &options), -24);
	options.shift = -3;
	WANT(tags_open(&pool, &options), -34);
	options.shift = INT32_MIN;
	options.total = UINT32_MAX;
	WANT(tags_open(&pool, &options), -34);
	options.flags = TAGS_NOTES;
	WANT(tags_open(&pool, &options), -34);
	options.flags = 16;
	WANT(tags_open(&pool, &options), -18);
	options.flags = TAGS_KEEP_WHILE_HOLDING;
	options.cache = TAGS_MAX_CACHE + 1;
	WANT(tags_open(&pool, &options), -34);
	options.shift = 2;
	WANT(tags_open(&pool, &options), -35);
	options = twelve;
	options.cache = UINT32_MAX;
	WANT(tags_open(&pool, &options), -35);
	options = twelve;
	options.flags = 2;
	WANT(tags_open(&pool, &options), -18);
	options = twelve;
	options.hands = 0;
	WANT(tags_open(&pool, &options), -25);
	options.hands = TAGS_MAX_HANDS + 1;
	WANT(tags_open(&pool, &options), -25);
	options = twelve;
	options.flags = 16 | TAGS_NOTES;
	WANT(tags_open(&pool, &options), -18);
	options.queues = TAGS_MAX_QUEUES + 1;
	WANT(tags_open(&pool, &options), -18);
	options.flags = TAGS_NOTES;
	WANT(tags_open(&pool, &options), -38);
	options.shift = -3;
	WANT(tags_open(&pool, &options), -34);
	options = twelve;
	options.queues = UINT32_MAX;
	options.cache = UINT32_MAX;
	options.total = UINT32_MAX;
	WANT(tags_open(&pool, &options), -38);
	WANT(pool.full == 0 && pool.object == NULL, 1);
}

/* Makes each call through a handle that is empty, or of a pool. */
static void refuse_handle(struct tags_hand *hand)
{
	struct tags_sizes sizes;
	const uint32_t tag = 2;
	uint64_t value = 5;
	uint32_t many = 5;

	WANT(tags_get(hand), -12);
	WANT(tags_get_reserved(hand), -12);
	WANT(tags_get_shallow(hand, 3), -12);
	WANT(tags_get_exactly(hand, 3), -12);
	WANT(tags_get_batch(hand, 1, &value), -12);
	WANT(tags_get_many(hand, &many, 1), -12);
	WANT(tags_clear(hand, tag), -12);
	WANT(tags_get_write(hand, 1), -12);
	WANT(tags_read_clear(hand, tag, &value), -12);
	WANT(tags_clear_batch(hand, &tag, 1), -12);
	WANT(tags_clear_mask(hand, tag, 1), -12);
	WANT(tags_flush(hand), -12);
	WANT(tags_read(hand, tag, &value), -12);
	WANT(tags_write(hand, tag, 1, &value), -12);
	WANT(tags_post(hand, tag), -12);
	WANT(tags_take(hand, tag), -12);
	WANT(tags_post_mask(hand, tag, 0), -12);
	WANT(tags_take_mask(hand, tag, 0), -12);
	WANT(tags_holds(hand, tag), -12);
	WANT(tags_busy(hand, &value, 1), -12);
	WANT(tags_show(hand, TAGS_ORDINARY, &sizes), -12);
	WANT(tags_waiting(hand), -12);
	WANT(tags_leave(hand), -12);
	WANT(value == 5, 1);
}

/* An empty handle, or that of a hand, is no pool to report of. */
static void refuse_reports(struct tags_pool *pool)
{
	struct tags_sizes sizes = { .depth = 5 };
	uint64_t bits = 5;

	WANT(tags_pool_busy(pool, &bits, 1), -12);
	WANT(tags_pool_each_busy(pool, never, NULL), -12);
	WANT(tags_pool_each_noted(pool, never_noted, NULL), -12);
	WANT(tags_pool_show(pool, TAGS_ORDINARY, &sizes), -12);
	WANT(tags_pool_waiting(pool), -12);
	WANT(tags_pool_total(pool), -12);
	WANT(tags_pool_batch(pool), -12);
	WANT(tags_pool_queued(pool, 0), -12);
	WANT(bits == 5 && sizes.depth == 5, 1);
}

static void refuse_handles(struct tags_pool *pool, struct tags_hand *hand)
{
	struct tags_pool none = TAGS_EMPTY;
	struct tags_hand idle = TAGS_EMPTY;
	struct tags_sums sums;

	refuse_handle(&idle);
	refuse_handle(as_hand(pool));
	WANT(tags_get_blocking(&idle), -12);
	WANT(tags_get_blocking(as_hand(pool)), -12);
	WANT(tags_get_async(&idle, -1), -12);
	WANT(tags_get_async(as_hand(pool), 0), -12);
	WANT(tags_get_async(hand, -1), -33);
	WANT(tags_get_notified(&idle, never_call, NULL), -12);
	WANT(tags_get_notified(as_hand(pool), never_call, NULL), -12);
	WANT(tags_get_reserved_blocking(&idle), -12);
	WANT(tags_get_reserved_blocking(as_hand(pool)), -12);
	WANT(tags_get_reserved_async(&idle, -1), -12);
	WANT(tags_get_reserved_async(as_hand(pool), 0), -12);
	WANT(tags_get_reserved_async(hand, -1), -33);
	WANT(tags_get_reserved_notified(&idle, never_call, NULL), -12);
	WANT(tags_get_reserved_notified(as_hand(pool), never_call, NULL), -12);
	refuse_queue(&idle, 0, -12);
	refuse_queue(as_hand(pool), 0, -12);
	WANT(tags_submit(&idle, 2), -12);
	WANT(tags_cancel(&idle), -12);
	WANT(tags_cancel(as_hand(pool)), -12);
	WANT(tags_cancel(hand), -9);
	WANT(tags_stop(&none), -12);
	WANT(tags_stop(as_pool(hand)), -12);
	refuse_reports(&none);
	refuse_reports(as_pool(hand));
	WANT(tags_open(pool, &twelve), -13);
	WANT(tags_open(as_pool(hand), &twelve), -13);
	WANT(tags_join(pool, hand, 0), -13);
	WANT(tags_join(&none, &idle, 0), -12);
	WANT(tags_join(as_pool(hand), &idle, 0), -12);
	WANT(tags_join(&none, as_hand(&none), 0), -12);
	WANT(tags_join(pool, as_hand(pool), 0), -13);
	WANT(tags_join(pool, &idle, 2), -18);
	WANT(tags_join(pool, &idle, 0), -14);
	WANT(tags_resize(&none, 12), -12);
	WANT(tags_resize(as_pool(hand), 12), -12);
	WANT(tags_resize(pool, TAGS_MAX_TOTAL + 1), -22);
	WANT(tags_resize(pool, UINT32_MAX), -22);
	WANT(tags_resize(pool, 1), -23);
	WANT(tags_resize(pool, 12), -15);
	WANT(tags_close(&none, &sums), -12);
	WANT(tags_close(as_pool(hand), &sums), -12);
	WANT(tags_close(pool, &sums), -15);
}

/* Passes tags that are out of range, not held, or not posted. */
static void refuse_tags(struct tags_hand *hand, struct tags_hand *other)
{
	static const uint32_t numbers[] = { 12, 13, 10240, 1u << 31, UINT32_MAX };
	uint64_t value = 5;

	for (size_t i = 0; i < sizeof(numbers) / sizeof(*numbers); i++) {
		WANT(tags_get_exactly(hand, numbers[i]), -1);
		WANT(tags_clear(hand, numbers[i]), -1);
		WANT(tags_read_clear(hand, numbers[i], &value), -1);
		WANT(tags_read(hand, numbers[i], &value), -1);
		WANT(tags_write(hand, numbers[i], 1, &value), -1);
		WANT(tags_note(hand, numbers[i], 1), -37);
		WANT(tags_post(hand, numbers[i]), -1);
		WANT(tags_take(hand, numbers[i]), -1);
		WANT(tags_holds(hand, numbers[i]), -1);
	}
	WANT(tags_get(other), 2);
	WANT(tags_get_exactly(hand, 2), -10);
	WANT(tags_get_exactly(other, 2), -10);
	WANT(tags_clear(hand, 2), -3);
	WANT(tags_read_clear(hand, 2, &value), -3);
	WANT(tags_read(hand, 2, &value), -3);
	WANT(tags_write(hand, 2, 1, &value), -3);
	WANT(tags_note(hand, 2, 1), -37);
	WANT(tags_post(hand, 2), -3);
	WANT(tags_take(hand, 2), -4);
	WANT(tags_holds(hand, 2), 0);
	WANT(tags_clear(other, 2), 0);
	WANT(tags_clear(other, 2), -3);
	WANT(value == 5, 1);
}

static void refuse_counts(struct tags_hand *hand)
{
	uint32_t list[TAGS_MAX_BATCH + 1] = { 2, 3, 2 };
	uint64_t won;

	WANT(tags_get_batch(hand, 0, &won), -5);
	WANT(tags_get_shallow(hand, 0), -6);
	WANT(tags_get_shallow(hand, 2), -6);
	WANT(tags_get_batch(hand, 2, &won), 2);
	WANT(tags_clear_batch(hand, list, 0), -5);
	WANT(tags_clear_batch(hand, list, TAGS_MAX_BATCH + 1), -5);
	WANT(tags_clear_batch(hand, list, SIZE_MAX / 4), -5);
	WANT(tags_clear_batch(hand, list, 3), -3);
	list[1] = 1;
	WANT(tags_clear_batch(hand, list, 2), -1);
	WANT(tags_clear_mask(hand, 2, 0), -5);
	WANT(tags_clear_mask(hand, 1, 3), -1);
	WANT(tags_clear_mask(hand, 2, UINT64_MAX), -1);
	WANT(tags_clear_mask(hand, UINT32_MAX, UINT64_MAX), -1);
	WANT(tags_clear_mask(hand, 2, 7), -3);
	WANT(tags_clear_mask(hand, 0, 4), 0);
	list[0] = 3;
	WANT(tags_clear_batch(hand, list, 1), 0);
}

static void refuse_pool_sizes(struct tags_pool *pool)
{
	struct tags_sizes sizes = { .depth = 5 };
	uint64_t bits = 5;

	WANT(tags_pool_busy(pool, &bits, 0), -17);
	WANT(bits == 5, 1);
	WANT(tags_pool_busy(pool, &bits, 1), 0);
	WANT(tags_pool_each_busy(pool, never, NULL), 0);
	WANT(tags_pool_each_noted(pool, never_noted, NULL), -37);
	WANT(tags_pool_show(pool, 2, &sizes), -16);
	WANT(tags_pool_show(pool, UINT32_MAX, &sizes), -16);
	WANT(sizes.depth == 5, 1);
}

static void refuse_sizes(struct tags_hand *hand)
{
	struct tags_sizes sizes = { .depth = 5 };
	uint64_t bits = 5;

	WANT(tags_busy(hand, &bits, 0), -17);
	WANT(bits == 5, 1);
	WANT(tags_busy(hand, &bits, 1), 0);
	WANT(tags_show(hand, 2, &sizes), -16);
	WANT(tags_show(hand, UINT32_MAX, &sizes), -16);
	WANT(sizes.depth == 5, 1);
}

static void use_up(struct tags_hand *hand)
{
	int32_t tag;

	while ((tag = tags_get_reserved(hand)) >= 0)
		;
	WANT(tag, -10);
	while ((tag = tags_get(hand)) >= 0)
		;
	WANT(tag, -10);
	WANT(tags_get_notified(hand, never_call, NULL), -10);
	WANT(tags_get_blocking(hand), -8);
	WANT(tags_get_reserved_blocking(hand), -8);
	WANT(tags_get_reserved_notified(hand, never_call, NULL), -8);
	WANT(tags_cancel(hand), 0);
	WANT(tags_cancel(hand), -9);
	WANT(tags_get_reserved_notified(hand, never_call, NULL), -10);
	WANT(tags_get_reserved_blocking(hand), -8);
	WANT(tags_get_notified(hand, never_call, NULL), -8);
	WANT(tags_cancel(hand), 0);
	WANT(tags_cancel(hand), -9);
}

/* Uses a pool without reserved tags, and one without ordinary ones. */
static void refuse_kinds(void)
{
	struct tags_options options = { .total = 4, .hands = 1 };
	struct tags_pool pool = TAGS_EMPTY;
	struct tags_hand hand = TAGS_EMPTY;
	struct tags_sums sums;

	WANT(tags_open(&pool, &options), 0);
	WANT(tags_join(&pool, &hand, 0), 0);
	WANT(tags_get_reserved(&hand), -2);
	WANT(tags_get_reserved_blocking(&hand), -2);
	WANT(tags_get_reserved_notified(&hand, never_call, NULL), -2);
	WANT(tags_cancel(&hand), -9);
	WANT(tags_leave(&hand), 0);
	WANT(tags_close(&pool, &sums), 0);
	options.reserved = 4;
	WANT(tags_open(&pool, &options), 0);
	WANT(tags_join(&pool, &hand, 0), 0);
	WANT(tags_get(&hand), -10);
	WANT(tags_get_blocking(&hand), -1);
	WANT(tags_get_notified(&hand, never_call, NULL), -1);
	WANT(tags_leave(&hand), 0);
	WANT(tags_close(&pool, &sums), 0);
}

/* Shows that a hand leaves to its own pool while another pool is open. */
static void part_two_pools(void)
{
	struct tags_pool pools[2] = { TAGS_EMPTY, TAGS_EMPTY };
	struct tags_hand hand = TAGS_EMPTY;
	struct tags_sums sums;

	WANT(tags_open(&pools[0], &twelve), 0);
	WANT(tags_open(&pools[1], &twelve), 0);
	WANT(tags_join(&pools[0], &hand, TAGS_STAY), 0);
	WANT(tags_get(&hand), 2);
	WANT(tags_close(&pools[1], &sums), 0);
	WANT(tags_close(&pools[0], &sums), -15);
	WANT(tags_leave(&hand), 0);
	WANT(tags_close(&pools[0], &sums), 0);
	WANT(sums.got == 1 && sums.held == 1, 1);
}

/* Hands out all hands of a pool twice, and takes them back one after another: first each in its own part of the tags. */
static void part_with_all_hands(uint32_t total, uint32_t hands)
{
	const struct tags_options options = {
		.total = total,
		.hands = hands,
		.flags = TAGS_ROUND_ROBIN,
	};
	struct tags_pool pool = TAGS_EMPTY;
	struct tags_hand spare = TAGS_EMPTY;
	struct tags_hand hand[4] = { TAGS_EMPTY, TAGS_EMPTY, TAGS_EMPTY, TAGS_EMPTY };
	struct tags_sums sums;

	WANT(tags_open(&pool, &options), 0);
	for (uint32_t flags = 0; flags <= TAGS_STAY; flags++) {
		for (uint32_t i = 0; i < hands; i++) {
			int32_t first = (int32_t)(i * total / hands);

			WANT(tags_join(&pool, &hand[i], flags), 0);
			if (flags == TAGS_STAY)
				continue;
			WANT(tags_get(&hand[i]), first);
			WANT(tags_clear(&hand[i], (uint32_t)first), 0);
		}
		WANT(tags_join(&pool, &spare, flags), -14);
		for (uint32_t i = 0; i < hands; i++) {
			WANT(tags_resize(&pool, total), -15);
			WANT(tags_close(&pool, &sums), -15);
			WANT(tags_leave(&hand[i]), 0);
		}
	}
	WANT(tags_close(&pool, &sums), 0);
	WANT(sums.got == hands && sums.back == hands, 1);
}

/* Shows that refused calls leave a hand that left where the next join finds it. */
static void keep_hands_that_left(void)
{
	struct tags_pool pool = TAGS_EMPTY;
	struct tags_hand hand = TAGS_EMPTY;
	struct tags_hand other = TAGS_EMPTY;
	struct tags_sums sums;

	WANT(tags_open(&pool, &twelve), 0);
	WANT(tags_join(&pool, &hand, 0), 0);
	WANT(tags_join(&pool, &other, 0), 0);
	WANT(tags_leave(&hand), 0);
	WANT(tags_join(&pool, &hand, 2), -18);
	WANT(tags_join(&pool, &other, 0), -13);
	WANT(tags_resize(&pool, TAGS_MAX_TOTAL + 1), -22);
	WANT(tags_resize(&pool, 1), -23);
	WANT(tags_resize(&pool, 20), -15);
	WANT(tags_close(&pool, &sums), -15);
	WANT(tags_join(&pool, &hand, 0), 0);
	WANT(tags_get(&hand), 2);
	WANT(tags_leave(&hand), 0);
	WANT(tags_leave(&other), 0);
	WANT(tags_resize(&pool, 20), -29);
	WANT(tags_join(&pool, &hand, 0), 0);
	WANT(tags_join(&pool, &other, 0), 0);
	WANT(tags_leave(&hand), 0);
	WANT(tags_leave(&other), 0);
	WANT(tags_close(&pool, &sums), 0);
	WANT(sums.got == 1 && sums.held == 1, 1);
}

/* A hand that joins to stay goes on where it left off, and otherwise begins in its own part again. */
static void stay_or_begin_again(void)
{
	const struct tags_options options = { .total = 64, .shift = 2, .hands = 2 };
	struct tags_pool pool = TAGS_EMPTY;
	struct tags_hand hand = TAGS_EMPTY;
	struct tags_hand other = TAGS_EMPTY;
	struct tags_sums sums;

	WANT(tags_open(&pool, &options), 0);
	WANT(tags_join(&pool, &hand, 0), 0);
	WANT(tags_join(&pool, &other, 0), 0);
	for (int32_t tag = 32; tag < 37; tag++)
		WANT(tags_get(&other), tag);
	for (uint32_t tag = 32; tag < 37; tag++)
		WANT(tags_clear(&other, tag), 0);
	WANT(tags_leave(&other), 0);
	WANT(tags_join(&pool, &other, TAGS_STAY), 0);
	WANT(tags_get(&other), 37);
	WANT(tags_leave(&other), 0);
	WANT(tags_join(&pool, &other, 0), 0);
	WANT(tags_get(&other), 32);
	WANT(tags_leave(&other), 0);
	WANT(tags_leave(&hand), 0);
	WANT(tags_close(&pool, &sums), 0);
	WANT(sums.got == 7 && sums.back == 5 && sums.held == 2, 1);
}

/* What a resize needs: no hand out, and no tag in use. A wait ends with a leave. */
static void refuse_resizes(void)
{
	struct tags_pool pool = TAGS_EMPTY;
	struct tags_hand hand = TAGS_EMPTY;
	struct tags_sizes sizes;
	struct tags_sums sums;

	WANT(tags_open(&pool, &twelve), 0);
	WANT(tags_join(&pool, &hand, TAGS_STAY), 0);
	WANT(tags_get_reserved(&hand), 0);
	WANT(tags_resize(&pool, 20), -15);
	WANT(tags_leave(&hand), 0);
	WANT(tags_resize(&pool, TAGS_MAX_TOTAL + 1), -22);
	WANT(tags_resize(&pool, 20), -29);
	WANT(tags_join(&pool, &hand, TAGS_STAY), 0);
	WANT(tags_post(&hand, 0), 0);
	WANT(tags_leave(&hand), 0);
	WANT(tags_resize(&pool, 20), -29);
	WANT(tags_join(&pool, &hand, TAGS_STAY), 0);
	WANT(tags_take(&hand, 0), 0);
	WANT(tags_clear(&hand, 0), 0);
	WANT(tags_leave(&hand), 0);
	WANT(tags_resize(&pool, 2), 0);
	WANT(tags_resize(&pool, 20), 0);
	WANT(tags_join(&pool, &hand, TAGS_STAY), 0);
	WANT(tags_show(&hand, TAGS_ORDINARY, &sizes), 0);
	WANT(sizes.depth == 18 && sizes.bits_per_word == 4, 1);
	WANT(tags_get(&hand), 2);
	WANT(tags_clear(&hand, 2), 0);
	WANT(tags_leave(&hand), 0);
	WANT(tags_close(&pool, &sums), 0);
	WANT(sums.got == 2 && sums.back == 2, 1);
}

/* A tag that a hand keeps is held by no caller, and no other hand gets it. */
static void refuse_kept(void)
{
	struct tags_options options = twelve;
	struct tags_pool pool = TAGS_EMPTY;
	struct tags_hand hand = TAGS_EMPTY;
	struct tags_hand other = TAGS_EMPTY;
	struct tags_sums sums;
	const uint32_t two = 2;
	uint64_t value = 5;

	options.cache = 4;
	WANT(tags_open(&pool, &options), 0);
	WANT(tags_join(&pool, &hand, TAGS_STAY), 0);
	WANT(tags_join(&pool, &other, TAGS_STAY), 0);
	WANT(tags_get(&hand), 2);
	WANT(tags_write(&hand, 2, 7, NULL), 0);
	WANT(tags_clear(&hand, 2), 0);
	WANT(tags_clear(&hand, 2), -3);
	WANT(tags_clear_batch(&hand, &two, 1), -3);
	WANT(tags_clear_mask(&hand, 2, 1), -3);
	WANT(tags_read(&hand, 2, &value), -3);
	WANT(tags_read_clear(&hand, 2, &value), -3);
	WANT(tags_write(&hand, 2, 1, &value), -3);
	WANT(tags_post(&hand, 2), -3);
	WANT(tags_take(&other, 2), -4);
	WANT(tags_holds(&hand, 2), 0);
	WANT(value == 5, 1);
	WANT(tags_busy(&other, &value, 1), 1);
	WANT(value == 4, 1);
	WANT(tags_get(&other), 3);
	WANT(tags_get(&hand), 2);
	WANT(tags_read(&hand, 2, &value), 0);
	WANT(value == 7, 1);
	WANT(tags_clear(&hand, 2), 0);
	WANT(tags_flush(&hand), 0);
	WANT(tags_flush(&hand), 0);
	WANT(tags_clear(&other, 3), 0);
	WANT(tags_busy(&hand, &value, 1), 1);
	WANT(tags_leave(&hand), 0);
	WANT(tags_leave(&other), 0);
	WANT(tags_resize(&pool, 12), 0);
	WANT(tags_close(&pool, &sums), 0);
	WANT(sums.got == 2 && sums.back == 2 && sums.held == 0, 1);
}

/* What a pool with two queues refuses. */
static void refuse_queues(void)
{
	struct tags_options options = twelve;
	struct tags_pool pool = TAGS_EMPTY;
	struct tags_hand hand = TAGS_EMPTY;
	struct tags_hand other = TAGS_EMPTY;
	struct tags_hands hands = TAGS_EMPTY;
	struct tags_sums sums;

	options.queues = 2;
	WANT(tags_open(&pool, &options), 0);
	WANT(tags_hands_open(&pool, &hands, TAGS_MAX_HANDS + 1), -25);
	WANT(tags_hands_open(&pool, &hands, 0), -38);
	WANT(tags_join(&pool, &hand, TAGS_STAY), 0);
	WANT(tags_join(&pool, &other, TAGS_STAY), 0);
	WANT(tags_hands_open(&pool, &hands, 1), -38);
	refuse_queue(&hand, 2, -39);
	refuse_queue(&hand, UINT32_MAX, -39);
	WANT(tags_pool_queued(&pool, 2), -39);
	WANT(tags_pool_queued(&pool, UINT32_MAX), -39);
	for (uint32_t queue = 0; queue < 2; queue++) {
		WANT(tags_next(&hand, queue), -10);
		WANT(tags_next_timed(&hand, queue, CLOCK_REALTIME, &(struct timespec){ 0, 0 }), -31);
		WANT(tags_next_async(&hand, queue, -1), -33);
		WANT(tags_cancel_next(&hand, queue), -9);
		WANT(tags_next_notified(&hand, queue, never_call, NULL), -10);
		WANT(tags_next_blocking(&hand, queue), -8);
		WANT(tags_next_timed(&hand, queue, CLOCK_REALTIME, &(struct timespec){ 0, 0 }), -8);
		WANT(tags_next_async(&hand, queue, -1), -33);
		WANT(tags_cancel_next(&hand, queue), 0);
		WANT(tags_cancel_next(&hand, queue), -9);
		WANT(tags_submit_to(&hand, 12, queue), -1);
		WANT(tags_submit_to(&hand, UINT32_MAX, queue), -1);
		WANT(tags_submit_to(&hand, 2, queue), -3);
		WANT(tags_get_exactly(&other, 2), 2);
		WANT(tags_submit_to(&hand, 2, queue), -3);
		WANT(tags_submit_to(&other, 2, queue), 0);
		WANT(tags_submit_to(&other, 2, queue), -3);
		WANT(tags_take(&hand, 2), -4);
		WANT(tags_take_mask(&hand, 2, 1), -4);
		WANT(tags_clear(&other, 2), -3);
		WANT(tags_pool_queued(&pool, queue), 1);
		WANT(tags_next(&hand, 1 - queue), -10);
		WANT(tags_next(&hand, queue), 2);
		WANT(tags_clear(&hand, 2), 0);
	}
	WANT(tags_stop(&pool), 0);
	WANT(tags_next_blocking(&hand, 0), -36);
	WANT(tags_next_async(&hand, 1, 0), -36);
	WANT(tags_next(&hand, 0), -10);
	WANT(tags_get_reserved(&hand), 0);
	WANT(tags_submit(&hand, 0), 0);
	WANT(tags_leave(&hand), 0);
	WANT(tags_leave(&other), 0);
	WANT(tags_resize(&pool, 13), -29);
	WANT(tags_close(&pool, &sums), 0);
	WANT(sums.got == 3 && sums.back == 2 && sums.held == 0 && sums.posted == 1, 1);
}

static int is_left_out(int32_t status)
{
	return status == -11 || status == -26 || status == -27 || status == -30;
}

static void name_statuses(void)
{
	const char *none = tags_strerror(TAGS_NO_SUCH_QUEUE - 1);

	for (int32_t status = TAGS_NO_SUCH_QUEUE; status < 0; status++)
		for (int32_t other = status + 1; other <= 0; other++)
			WANT(strcmp(tags_strerror(status), tags_strerror(other)) == 0,
			     is_left_out(status) && is_left_out(other));
	WANT(strcmp(none, tags_strerror(-26)), 0);
	WANT(strcmp(tags_strerror(7), tags_strerror(TAGS_OK)), 0);
	WANT(strcmp(tags_strerror(INT32_MIN), none), 0);
}

int main(void)
{
	struct tags_pool pool = TAGS_EMPTY;
	struct tags_hand hand = TAGS_EMPTY;
	struct tags_hand other = TAGS_EMPTY;
	struct tags_sums sums;

	refuse_options();
	WANT(tags_open(&pool, &twelve), 0);
	WANT(tags_join(&pool, &hand, TAGS_STAY), 0);
	WANT(tags_join(&pool, &other, TAGS_STAY), 0);
	refuse_null(&pool, &hand);
	refuse_null_for_queues(&hand);
	refuse_queue(&hand, 0, -39);
	WANT(tags_submit(&hand, 2), -39);
	WANT(tags_pool_queued(&pool, 0), -39);
	refuse_handles(&pool, &hand);
	refuse_tags(&hand, &other);
	refuse_counts(&hand);
	refuse_sizes(&hand);
	refuse_pool_sizes(&pool);
	use_up(&hand);
	WANT(tags_leave(&hand), 0);
	WANT(tags_leave(&other), 0);
	WANT(tags_close(&pool, &sums), 0);
	WANT(sums.got == 15 && sums.back == 3 && sums.held == 12 && sums.posted == 0, 1);
	WANT(tags_close(&pool, &sums), -12);
	refuse_kinds();
	part_two_pools();
	for (uint32_t hands = 1; hands <= 4; hands++)
		for (uint32_t total = hands; total <= 64; total++)
			part_with_all_hands(total, hands);
	keep_hands_that_left();
	stay_or_begin_again();
	refuse_resizes();
	refuse_kept();
	refuse_queues();
	name_statuses();
	printf("%d answers, %d wrong\n", wanted, wrong);
	return wrong != 0;
}
