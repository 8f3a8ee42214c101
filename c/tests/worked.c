/*
 * Runs with answers worked out on paper: one through all calls, a pool that goes
 * on with more tags, options left at 0, words of one tag, and round robin. The
 * model of fuzz.c has no part in them.
 */
#include <stdio.h>
#include <time.h>

#include "../tags.h"

static int checks;
static int wrong;

static void want(const char *what, int64_t found, int64_t wanted)
{
	checks++;
	if (found == wanted)
		return;
	wrong++;
	printf("%s: %lld, not %lld\n", what, (long long)found, (long long)wanted);
}

#define WANT(what, wanted) want(#what, (int64_t)(what), wanted)

/* Two reserved tags, then ten ordinary ones in words of four, for two hands. */
static const struct tags_options twelve = {
	.total = 12,
	.reserved = 2,
	.shift = 2,
	.min_shallow = 3,
	.hands = 2,
};

/* Sets the bit of a tag, after those of all tags before it. */
static int note(uint32_t tag, void *bits)
{
	uint64_t *into = bits;

	WANT(*into >> tag, 0);
	*into |= UINT64_C(1) << tag;
	return 0;
}

/* Adds up the tags, and of those with a note the notes, a thousand times. */
static int add_up(uint32_t tag, const struct tags_noted *note, void *sum)
{
	*(uint64_t *)sum += tag + (note ? 1000 * note->value : 0);
	WANT(!note || note->since > 0, 1);
	return 0;
}

static void count_call(void *calls)
{
	++*(uint64_t *)calls;
}

static int stop_at(uint32_t tag, void *found)
{
	*(uint64_t *)found = tag;
	return -1;
}

/* Tags pass from hand to hand, one hand waits, and all sums are told. */
static void run_through_all_calls(void)
{
	const uint32_t pair[] = { 3, 4 };
	uint32_t nine[9];
	struct tags_pool pool = TAGS_EMPTY;
	struct tags_hand hand = TAGS_EMPTY;
	struct tags_hand other = TAGS_EMPTY;
	struct tags_sizes sizes;
	struct tags_sums sums;
	uint64_t value = 5;
	uint64_t won = 0;
	uint64_t bits = 0;

	WANT(tags_open(&pool, &twelve), TAGS_OK);
	WANT(tags_join(&pool, &hand, TAGS_STAY), TAGS_OK);
	WANT(tags_join(&pool, &other, TAGS_STAY), TAGS_OK);
	WANT(tags_get_exactly(&hand, 5), 5);
	WANT(tags_get_exactly(&other, 5), TAGS_NO_TAG);
	WANT(tags_clear(&hand, 5), TAGS_OK);
	WANT(tags_get_exactly(&other, 5), 5);
	WANT(tags_clear(&other, 5), TAGS_OK);
	WANT(tags_get(&hand), 2);
	WANT(tags_write(&hand, 2, 70, &value), TAGS_OK);
	WANT(value, 0);
	WANT(tags_write(&hand, 2, 70, NULL), TAGS_OK);
	WANT(tags_holds(&hand, 2), 1);
	WANT(tags_post(&hand, 2), TAGS_OK);
	WANT(tags_take(&other, 2), TAGS_OK);
	WANT(tags_read(&other, 2, &value), TAGS_OK);
	WANT(value, 70);
	WANT(tags_get_reserved(&hand), 0);
	WANT(tags_get_batch(&hand, 3, &won), 3);
	WANT(won, 7);
	WANT(tags_get_shallow(&other, 2), TAGS_TOO_SHALLOW);
	WANT(tags_waiting(&other), 0);
	WANT(tags_clear_batch(&hand, pair, 2), 0);
	WANT(tags_get_batch(&hand, 3, &won), 3);
	WANT(won, 3);
	WANT(tags_clear_mask(&hand, 3, 1), 0);
	WANT(tags_clear_mask(&hand, 3, 2), 0);
	WANT(tags_read_clear(&other, 2, &value), 0);
	WANT(value, 70);
	WANT(tags_busy(&hand, &bits, 1), 2);
	WANT(bits, 33);
	WANT(tags_show(&hand, TAGS_RESERVED, &sizes), TAGS_OK);
	WANT(sizes.depth, 2);
	WANT(sizes.busy, 1);
	WANT(tags_pool_busy(&pool, &bits, 1), 2);
	WANT(bits, 33);
	bits = 0;
	WANT(tags_pool_each_busy(&pool, note, &bits), 2);
	WANT(bits, 33);
	WANT(tags_pool_each_busy(&pool, stop_at, &bits), 1);
	WANT(bits, 0);
	WANT(tags_pool_show(&pool, TAGS_ORDINARY, &sizes), TAGS_OK);
	WANT(tags_pool_batch(&pool), (int32_t)sizes.bits_per_word);
	WANT(tags_pool_total(&pool), 12);
	WANT(sizes.depth, 10);
	WANT(sizes.busy, 1);
	WANT(sizes.cleared, 1);
	WANT(sizes.words, 3);
	WANT(tags_get_many(&other, nine, 9), TAGS_OK);
	WANT(tags_get_many(&other, nine, 1), TAGS_NO_TAG);
	WANT(tags_get_notified(&other, count_call, &value), TAGS_NO_TAG);
	WANT(tags_waiting(&hand), 1);
	value = 0;
	WANT(tags_clear(&hand, 5), 0);
	WANT(value, 1);
	WANT(tags_pool_waiting(&pool), 1);
	WANT(tags_get_notified(&other, count_call, &value), 5);
	WANT(tags_pool_waiting(&pool), 0);
	WANT(tags_cancel(&other), TAGS_NOT_WAITING);
	WANT(tags_get_reserved_blocking(&other), 1);
	WANT(tags_get_reserved_notified(&other, count_call, &value), TAGS_NO_TAG);
	WANT(tags_get_notified(&other, count_call, &value), TAGS_WAITING);
	value = 0;
	WANT(tags_clear(&other, 1), 0);
	WANT(value, 1);
	WANT(tags_get_reserved_notified(&other, count_call, &value), 1);
	WANT(tags_clear(&other, 1), 0);
	WANT(tags_leave(&hand), TAGS_OK);
	WANT(tags_close(&pool, &sums), TAGS_HANDS_OUT);
	WANT(tags_leave(&other), TAGS_OK);
	WANT(tags_close(&pool, &sums), TAGS_OK);
	WANT(sums.got, 21);
	WANT(sums.back, 10);
	WANT(sums.held, 11);
	WANT(sums.posted, 0);
	WANT(tags_close(&pool, &sums), TAGS_BAD_HANDLE);
}

/* A pool is resized once its hands have left and nothing is held. */
static void go_on_with_more_tags(void)
{
	struct tags_pool pool = TAGS_EMPTY;
	struct tags_hand hand = TAGS_EMPTY;
	struct tags_sums sums;
	uint64_t value = 0;

	WANT(tags_open(&pool, &twelve), TAGS_OK);
	WANT(tags_join(&pool, &hand, TAGS_STAY), TAGS_OK);
	WANT(tags_get(&hand), 2);
	WANT(tags_resize(&pool, 20), TAGS_HANDS_OUT);
	WANT(tags_leave(&hand), TAGS_OK);
	WANT(tags_resize(&pool, 20), TAGS_IN_USE);
	WANT(tags_join(&pool, &hand, TAGS_STAY), TAGS_OK);
	WANT(tags_clear(&hand, 2), 0);
	WANT(tags_leave(&hand), TAGS_OK);
	WANT(tags_resize(&pool, 1), TAGS_RESERVED_TOO_LARGE);
	WANT(tags_resize(&pool, 20), TAGS_OK);
	WANT(tags_join(&pool, &hand, TAGS_STAY), TAGS_OK);
	WANT(tags_read(&hand, 19, &value), TAGS_NOT_HELD);
	WANT(tags_read(&hand, 20, &value), TAGS_NO_SUCH_TAG);
	WANT(tags_leave(&hand), TAGS_OK);
	WANT(tags_close(&pool, &sums), TAGS_OK);
	WANT(sums.got, 1);
	WANT(sums.back, 1);
	WANT(sums.held, 0);
	WANT(sums.posted, 0);
}

/* Opens a pool, and checks how many tags each word has. */
static void count_bits(const struct tags_options *options, uint32_t bits)
{
	struct tags_pool pool = TAGS_EMPTY;
	struct tags_hand hand = TAGS_EMPTY;
	struct tags_sizes sizes = { 0 };
	struct tags_sums sums;

	WANT(tags_open(&pool, options), TAGS_OK);
	WANT(tags_join(&pool, &hand, TAGS_STAY), TAGS_OK);
	WANT(tags_show(&hand, TAGS_ORDINARY, &sizes), TAGS_OK);
	WANT(sizes.bits_per_word, bits);
	WANT(tags_leave(&hand), TAGS_OK);
	WANT(tags_close(&pool, &sums), TAGS_OK);
}

/* By default there are as many whole words as hands, and at least four; or four, as in the kernel. */
static void choose_words_by_hands(void)
{
	static const struct {
		uint32_t total, hands, bits, bits_as_kernel;
	} rows[] = {
		{ 1024, 1, 64, 64 }, { 1024, 4, 64, 64 }, { 1024, 16, 64, 64 }, { 1024, 17, 32, 64 },
		{ 1024, 64, 16, 64 }, { 1023, 64, 8, 64 }, { 128, 1, 32, 32 }, { 128, 5, 16, 32 },
		{ 64, 64, 1, 16 }, { 63, 64, 1, 8 }, { 4, 64, 1, 1 }, { 3, 64, 64, 64 },
		{ 0, 64, 64, 64 }, { 3, 1, 64, 64 },
	};
	struct tags_options options = TAGS_OPTIONS_INIT;

	for (size_t i = 0; i < sizeof(rows) / sizeof(*rows); i++) {
		options.total = rows[i].total;
		options.hands = rows[i].hands;
		options.shift = 0;
		count_bits(&options, rows[i].bits);
		options.shift = TAGS_SHIFT_AS_KERNEL;
		count_bits(&options, rows[i].bits_as_kernel);
	}
}

/* Each set has the words for its own depth, and keeps their size when it is resized. */
static void keep_words(void)
{
	struct tags_options options = TAGS_OPTIONS_INIT;
	struct tags_pool pool = TAGS_EMPTY;
	struct tags_sizes sizes = { 0 };
	struct tags_sums sums;

	options.total = 1024 + 32;
	options.reserved = 32;
	options.hands = 16;
	WANT(tags_open(&pool, &options), TAGS_OK);
	WANT(tags_pool_show(&pool, TAGS_ORDINARY, &sizes), TAGS_OK);
	WANT(sizes.bits_per_word, 64);
	WANT(tags_pool_show(&pool, TAGS_RESERVED, &sizes), TAGS_OK);
	WANT(sizes.bits_per_word, 2);
	WANT(tags_resize(&pool, 32 + 128), TAGS_OK);
	WANT(tags_pool_show(&pool, TAGS_ORDINARY, &sizes), TAGS_OK);
	WANT(sizes.bits_per_word, 64);
	WANT(tags_pool_batch(&pool), 64);
	WANT(tags_close(&pool, &sums), TAGS_OK);
}

/* A shift of 0 is the rule, and words of one tag have a name. */
static void choose_words(void)
{
	struct tags_options options = TAGS_OPTIONS_INIT;

	options.total = 128;
	options.hands = 1;
	count_bits(&options, 32);
	options.shift = 3;
	count_bits(&options, 8);
	options.shift = TAGS_ONE_PER_WORD;
	count_bits(&options, 1);
	options.flags = TAGS_ROUND_ROBIN;
	count_bits(&options, 1);
}

/* Six tags in words of two, each given back at once: the last one is passed over until tag 4 is not free again. */
static void go_round(void)
{
	const struct tags_options options = {
		.total = 6,
		.shift = 1,
		.hands = 1,
		.flags = TAGS_ROUND_ROBIN,
	};
	const int32_t wanted[] = { 0, 1, 2, 3, 4, 0, 1, 2, 3, 5 };
	struct tags_pool pool = TAGS_EMPTY;
	struct tags_hand hand = TAGS_EMPTY;
	struct tags_sums sums;

	WANT(tags_open(&pool, &options), TAGS_OK);
	WANT(tags_join(&pool, &hand, TAGS_STAY), TAGS_OK);
	for (int i = 0; i < 10; i++) {
		WANT(tags_get(&hand), wanted[i]);
		WANT(tags_clear(&hand, (uint32_t)wanted[i]), 0);
	}
	WANT(tags_leave(&hand), TAGS_OK);
	WANT(tags_close(&pool, &sums), TAGS_OK);
}

/* The forms of a get by a hand of its own, which find a tag of this set. */
static int32_t get_by_form(struct tags_hand *hand, int form)
{
	const struct timespec past = { 0, 0 };
	uint64_t value = 0;
	uint32_t tags[2];
	int32_t status;

	switch (form) {
	case 0:
		return tags_get(hand);
	case 1:
		return tags_get_write(hand, 5);
	case 2:
		return tags_get_blocking(hand);
	case 3:
		return tags_get_timed(hand, CLOCK_MONOTONIC, &past);
	case 4:
		return tags_get_async(hand, 0);
	case 5:
		return tags_get_notified(hand, count_call, &value);
	case 6:
		return tags_get_shallow(hand, 3);
	case 7:
		status = tags_get_many(hand, tags, 1);
		return status == TAGS_OK ? (int32_t)tags[0] : status;
	case 8:
		return tags_get_reserved(hand);
	case 9:
		return tags_get_reserved_blocking(hand);
	case 10:
		return tags_get_reserved_timed(hand, CLOCK_MONOTONIC, &past);
	case 11:
		return tags_get_reserved_async(hand, 0);
	default:
		return tags_get_reserved_notified(hand, count_call, &value);
	}
}

enum { FORMS = 13, FIRST_RESERVED_FORM = 8 };

/* Three reserved tags, then three ordinary ones, in words of two. */
static const struct tags_options two_of_three = {
	.total = 6,
	.reserved = 3,
	.shift = 1,
	.hands = 1,
	.flags = TAGS_ROUND_ROBIN,
};

/* All tags are held but the first of each set, which the hand won last and gave back: the next get starts after it. */
static void hold_all_but_the_first(struct tags_hand *hand)
{
	for (int32_t tag = 0; tag < 3; tag++) {
		WANT(tags_get_reserved(hand), tag);
		WANT(tags_get(hand), tag + 3);
	}
	for (int i = 0; i < 2; i++) {
		WANT(tags_clear(hand, 0), TAGS_OK);
		WANT(tags_clear(hand, 3), TAGS_OK);
		if (i == 0) {
			WANT(tags_get_reserved(hand), 0);
			WANT(tags_get(hand), 3);
		}
	}
}

/* No get by one hand alone answers that there is no tag beside a free one. */
static void find_what_is_before_the_start(void)
{
	for (int form = 0; form < FORMS; form++) {
		const int32_t tag = form < FIRST_RESERVED_FORM ? 3 : 0;
		struct tags_pool pool = TAGS_EMPTY;
		struct tags_hand hand = TAGS_EMPTY;
		struct tags_sums sums;

		WANT(tags_open(&pool, &two_of_three), TAGS_OK);
		WANT(tags_join(&pool, &hand, TAGS_STAY), TAGS_OK);
		hold_all_but_the_first(&hand);
		WANT(get_by_form(&hand, form), tag);
		WANT(tags_get(&hand), tag == 3 ? TAGS_NO_TAG : 3);
		WANT(tags_leave(&hand), TAGS_OK);
		WANT(tags_close(&pool, &sums), TAGS_OK);
	}
}

/* The same of shared hands, by which a tag is held only once it was got through them. */
static void find_it_by_shared_hands(void)
{
	struct tags_pool pool = TAGS_EMPTY;
	struct tags_hands hands = TAGS_EMPTY;
	struct tags_sums sums;

	WANT(tags_open(&pool, &two_of_three), TAGS_OK);
	WANT(tags_hands_open(&pool, &hands, 1), TAGS_OK);
	for (int32_t tag = 0; tag < 3; tag++) {
		WANT(tags_hands_get_reserved(&hands), tag);
		WANT(tags_hands_get(&hands), tag + 3);
	}
	for (uint32_t tag = 0; tag <= 3; tag += 3)
		WANT(tags_hands_clear(&hands, tag), TAGS_OK);
	WANT(tags_hands_get_reserved(&hands), 0);
	WANT(tags_hands_get(&hands), 3);
	for (uint32_t tag = 0; tag <= 3; tag += 3)
		WANT(tags_hands_clear(&hands, tag), TAGS_OK);
	WANT(tags_hands_get_reserved(&hands), 0);
	WANT(tags_hands_get(&hands), 3);
	for (uint32_t tag = 0; tag < 6; tag++)
		WANT(tags_hands_clear(&hands, tag), TAGS_OK);
	WANT(tags_hands_close(&hands), TAGS_OK);
	WANT(tags_close(&pool, &sums), TAGS_OK);
}

/* Several tags at once, some of which are set aside before the start of the search: all, or none of them. */
static void find_many_before_the_start(void)
{
	struct tags_options options = two_of_three;
	struct tags_pool pool = TAGS_EMPTY;
	struct tags_hand hand = TAGS_EMPTY;
	struct tags_sums sums;
	uint32_t tags[9];

	options.total = 3 + 8;
	options.shift = 2;
	WANT(tags_open(&pool, &options), TAGS_OK);
	WANT(tags_join(&pool, &hand, TAGS_STAY), TAGS_OK);
	WANT(tags_get_many(&hand, tags, 8), TAGS_OK);
	WANT(tags_clear(&hand, 4), TAGS_OK);
	WANT(tags_get(&hand), 4);
	for (uint32_t tag = 3; tag < 6; tag++)
		WANT(tags_clear(&hand, tag), TAGS_OK);
	WANT(tags_get_many(&hand, tags, 4), TAGS_NO_TAG);
	WANT(tags_get_many(&hand, tags, 3), TAGS_OK);
	WANT(tags[0] + tags[1] + tags[2], 3 + 4 + 5);
	WANT(tags_leave(&hand), TAGS_OK);
	WANT(tags_close(&pool, &sums), TAGS_OK);
	WANT(sums.held, 8);
}

/* Ten ordinary tags in words of four from tag 2, of which the hand keeps two. */
static void keep_some(void)
{
	struct tags_options options = twelve;
	struct tags_pool pool = TAGS_EMPTY;
	struct tags_hand hand = TAGS_EMPTY;
	struct tags_sums sums;
	uint64_t busy = 0;
	uint64_t won = 0;

	options.cache = 2;
	WANT(tags_open(&pool, &options), TAGS_OK);
	WANT(tags_join(&pool, &hand, TAGS_STAY), TAGS_OK);
	for (int32_t tag = 2; tag < 6; tag++)
		WANT(tags_get(&hand), tag);
	WANT(tags_clear(&hand, 4), 0);
	WANT(tags_clear(&hand, 3), 0);
	WANT(tags_busy(&hand, &busy, 1), 4);
	/* the least of the kept ones comes first */
	WANT(tags_get(&hand), 3);
	WANT(tags_clear(&hand, 3), 0);
	/* there is no place for a third: the two go back, and it is kept instead */
	WANT(tags_clear(&hand, 2), 0);
	WANT(tags_busy(&hand, &busy, 1), 2);
	WANT((int32_t)busy, 1 << 2 | 1 << 5);
	/* a batch takes no kept tag */
	WANT(tags_get_batch(&hand, 2, &won), 3);
	WANT((int32_t)won, 3);
	WANT(tags_clear_mask(&hand, 3, won), 0);
	WANT(tags_get(&hand), 2);
	WANT(tags_clear(&hand, 2), 0);
	WANT(tags_clear(&hand, 5), 0);
	/* both are kept; a hand that leaves keeps none */
	WANT(tags_leave(&hand), TAGS_OK);
	WANT(tags_resize(&pool, 20), TAGS_OK);
	WANT(tags_join(&pool, &hand, TAGS_STAY), TAGS_OK);
	WANT(tags_busy(&hand, &busy, 1), 0);
	WANT(tags_leave(&hand), TAGS_OK);
	WANT(tags_close(&pool, &sums), TAGS_OK);
	/* four gets and a batch of two; what was kept and taken again is not counted */
	WANT((int32_t)sums.got, 6);
	WANT((int32_t)sums.back, 6);
}

/* Tags 2 to 4 are busy, and have one note at most: it ends when its tag goes back, and passes on with it. */
static void note_one(void)
{
	struct tags_options options = twelve;
	struct tags_pool pool = TAGS_EMPTY;
	struct tags_hand hand = TAGS_EMPTY;
	struct tags_hand other = TAGS_EMPTY;
	struct tags_sums sums;
	uint64_t sum = 0;

	options.flags = TAGS_NOTES;
	WANT(tags_open(&pool, &options), TAGS_OK);
	WANT(tags_join(&pool, &hand, TAGS_STAY), TAGS_OK);
	WANT(tags_join(&pool, &other, TAGS_STAY), TAGS_OK);
	for (int32_t tag = 2; tag < 5; tag++)
		WANT(tags_get(&hand), tag);
	WANT(tags_note(&hand, 3, 50), TAGS_OK);
	WANT(tags_note(&hand, 3, 60), TAGS_OK);
	WANT(tags_note(&other, 4, 70), TAGS_NOT_HELD);
	WANT(tags_pool_each_noted(&pool, add_up, &sum), 3);
	WANT(sum, 60009);
	WANT(tags_post(&hand, 3), TAGS_OK);
	WANT(tags_take(&other, 3), TAGS_OK);
	WANT(tags_clear(&hand, 3), TAGS_NOT_HELD);
	sum = 0;
	WANT(tags_pool_each_noted(&pool, add_up, &sum), 3);
	WANT(sum, 60009);
	WANT(tags_clear(&other, 3), TAGS_OK);
	WANT(tags_get_exactly(&hand, 3), 3);
	sum = 0;
	WANT(tags_pool_each_noted(&pool, add_up, &sum), 3);
	WANT(sum, 9);
	WANT(tags_leave(&hand), TAGS_OK);
	WANT(tags_leave(&other), TAGS_OK);
	WANT(tags_close(&pool, &sums), TAGS_OK);
	WANT(sums.held, 3);
}

int main(void)
{
	run_through_all_calls();
	note_one();
	go_on_with_more_tags();
	choose_words();
	choose_words_by_hands();
	keep_words();
	go_round();
	find_what_is_before_the_start();
	find_it_by_shared_hands();
	find_many_before_the_start();
	keep_some();
	printf("%d answers, %d wrong\n", checks, wrong);
	return wrong != 0;
}
