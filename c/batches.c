/*
 * Several tags posted or taken by one call: all of them or none. What a hand holds its own calls
 * alone change; so once it was found to hold all of them, none of the posts can be refused. Which
 * tags are posted others change, too; so a take that is refused posts again what it took before.
 * The posts of a call are quiet, as what a hand has to see to is seen to once.
 *
 * Takes go in ascending order. So of several that overlap one gets its tags, if these were posted
 * and nothing else takes any: each that is refused was refused for one that took a higher tag.
 */
#include "bell.h"

/* Returns the lowest tag of a mask, and leaves it out. */
static uint32_t next_of(uint32_t first, uint64_t *mask)
{
	const uint32_t tag = first + (uint32_t)__builtin_ctzll(*mask);

	*mask &= *mask - 1;
	return tag;
}

/* Whether the handle and the numbers are good: if the highest tag exists, all do. */
static int32_t check_mask(struct tags_hand *hand, uint32_t first, uint64_t mask)
{
	/* beyond all pools, where no number wraps around */
	const uint32_t from = first < TAGS_MAX_TOTAL ? first : TAGS_MAX_TOTAL;
	const uint32_t highest = mask == 0 ? 0 : 63 - (uint32_t)__builtin_clzll(mask);
	const int32_t answer = tags_library_holds(hand, from + highest);

	if (answer == TAGS_BAD_HANDLE)
		return answer;
	if (mask == 0)
		return TAGS_BAD_COUNT;
	return answer < 0 ? answer : (int32_t)TAGS_OK;
}

static bool holds_all(struct tags_hand *hand, uint32_t first, uint64_t mask)
{
	while (mask != 0)
		if (tags_library_holds(hand, next_of(first, &mask)) != 1)
			return false;
	return true;
}

/* All of these tags are held. */
static void post_all(struct tags_hand *hand, uint32_t first, uint64_t mask)
{
	while (mask != 0)
		tags_library_post_quietly(hand, next_of(first, &mask));
}

/* A post may have given kept tags back, and what the hand still keeps goes back if anybody waits. */
static int32_t see_to_kept(struct tags_hand *hand)
{
	struct tags_told told = { 0, 0 };

	if (!tags_bell_of(hand->waits)->is_cached)
		return TAGS_OK;
	tags_library_see_to(hand, 0, &told);
	return tags_library_ring(hand, TAGS_OK + TAGS_DETAIL_TOLD, told);
}

int32_t tags_library_post_mask(struct tags_hand *hand, uint32_t first, uint64_t mask)
{
	const int32_t status = check_mask(hand, first, mask);

	if (status != TAGS_OK)
		return status;
	if (!holds_all(hand, first, mask))
		return TAGS_NOT_HELD;
	post_all(hand, first, mask);
	return see_to_kept(hand);
}

static int32_t take(struct tags_hand *hand, uint32_t tag)
{
	return tags_detail_has_queues(hand) ? tags_library_take_unqueued(hand, tag) : tags_library_take(hand, tag);
}

/*
 * To post again a tag just taken gives no kept tags back, so nothing is to be seen to: a take does not
 * make it one that the hand got, and only the last of those does that.
 */
int32_t tags_library_take_mask(struct tags_hand *hand, uint32_t first, uint64_t mask)
{
	int32_t status = check_mask(hand, first, mask);
	uint64_t left = mask;

	while (status == TAGS_OK && left != 0) {
		const uint64_t before = left;

		status = take(hand, next_of(first, &left));
		if (status != TAGS_OK)
			post_all(hand, first, mask & ~before);
	}
	return status;
}
