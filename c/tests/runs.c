/*
 * Batch gets, with answers worked out on paper: how many tags one can return where the only word is
 * short, also after a resize; and which runs are found in words of which some tags are held.
 */
#include <inttypes.h>
#include <stdio.h>

#include "../tags.h"

static int checks;
static int wrong;

static void want(const char *what, int64_t found, int64_t wanted)
{
	checks++;
	if (found == wanted)
		return;
	wrong++;
	printf("%s: %" PRId64 ", not %" PRId64 "\n", what, found, wanted);
}

#define WANT(what, wanted) want(#what, (int64_t)(what), wanted)

static struct tags_pool pool = TAGS_EMPTY;
static struct tags_hand hand = TAGS_EMPTY;

static void open_pool(uint32_t total, int32_t shift)
{
	const struct tags_options options = { .total = total, .shift = shift, .hands = 2 };

	WANT(tags_open(&pool, &options), TAGS_OK);
	WANT(tags_join(&pool, &hand, TAGS_STAY), TAGS_OK);
}

static void close_pool(void)
{
	struct tags_sums sums;

	WANT(tags_leave(&hand), TAGS_OK);
	WANT(tags_close(&pool, &sums), TAGS_OK);
}

/* A batch of as many tags as the pool says, and of one more, returns that many. */
static void get_most(int32_t most)
{
	uint64_t won = 0;

	WANT(tags_pool_batch(&pool), most);
	for (int32_t n = most; n <= most + 1; n++) {
		WANT(tags_get_batch(&hand, (uint32_t)n, &won), 0);
		WANT(won, (int64_t)(most < 64 ? (UINT64_C(1) << most) - 1 : UINT64_MAX));
		WANT(tags_clear_mask(&hand, 0, won), TAGS_OK);
	}
}

static void resize_to(uint32_t total)
{
	WANT(tags_leave(&hand), TAGS_OK);
	WANT(tags_resize(&pool, total), TAGS_OK);
	WANT(tags_join(&pool, &hand, TAGS_STAY), TAGS_OK);
}

static void fill_short_words(void)
{
	open_pool(40, 6);
	get_most(40);
	close_pool();
	open_pool(3, 0);
	get_most(3);
	close_pool();
	open_pool(256, 0);
	get_most(64);
	resize_to(60);
	get_most(60);
	resize_to(100);
	get_most(64);
	close_pool();
}

/* Of the second word, which is short, a batch has to ask for what it has. */
static void get_from_a_short_last_word(void)
{
	uint64_t won = 0;

	open_pool(100, 6);
	WANT(tags_pool_batch(&pool), 64);
	WANT(tags_get_batch(&hand, 64, &won), 0);
	WANT(tags_get_batch(&hand, 37, &won), TAGS_NO_TAG);
	WANT(tags_get_batch(&hand, 36, &won), 64);
	WANT(won, (INT64_C(1) << 36) - 1);
	close_pool();
}

/* Holds all of 64 tags in words of eight, then gives back those of a pattern that repeats in each word. */
static void give_back(uint64_t pattern)
{
	open_pool(64, 3);
	for (int32_t tag = 0; tag < 64; tag++)
		WANT(tags_get(&hand), tag);
	for (uint32_t first = 0; first < 64; first += 8)
		WANT(tags_clear_mask(&hand, first, pattern), TAGS_OK);
}

/* The first tag of each word is held, so seven fit; the hand starts in the word of its last clear. */
static void get_behind_a_held_tag(void)
{
	uint64_t won = 0;

	give_back(0xfe);
	WANT(tags_get_batch(&hand, 8, &won), TAGS_NO_TAG);
	WANT(tags_get_batch(&hand, 7, &won), 57);
	WANT(won, 0x7f);
	close_pool();
}

/* Every other tag is held: a run has all seven places, and the hand wins those that are free. */
static void get_between_held_tags(void)
{
	uint64_t won = 0;

	give_back(0xaa);
	WANT(tags_get_batch(&hand, 8, &won), TAGS_NO_TAG);
	WANT(tags_get_batch(&hand, 7, &won), 57);
	WANT(won, 0x55);
	close_pool();
}

/* Eight tags are free, and no two places from any of them on: there is no batch, and all the same a tag. */
static void get_from_ends_of_words(void)
{
	uint64_t won = 0;

	give_back(0x80);
	WANT(tags_get_batch(&hand, 2, &won), TAGS_NO_TAG);
	WANT(tags_get_batch(&hand, 1, &won), 63);
	WANT(tags_get(&hand), 7);
	close_pool();
}

int main(void)
{
	fill_short_words();
	get_from_a_short_last_word();
	get_behind_a_held_tag();
	get_between_held_tags();
	get_from_ends_of_words();
	printf("%d answers, %d wrong\n", checks, wrong);
	return wrong != 0;
}
