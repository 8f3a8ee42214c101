/* The model of caches: which tags a hand keeps for its next gets, in a window of 64 numbers. */
#include "model.h"

static uint64_t bit_of(const struct member *member, uint32_t tag)
{
	return tag - member->window < 64 ? (uint64_t)1 << (tag - member->window) : 0;
}

/* Moves the window to the tag, unless it is there or anything is kept. */
static void aim(struct member *member, uint32_t tag)
{
	if (member->kept || bit_of(member, tag))
		return;
	member->window = tag / 64 * 64;
	member->lent = 0;
}

int32_t model_reuse(struct model *hand)
{
	struct member *member = member_of(hand);
	uint64_t least = member->kept & -member->kept;

	if (!least)
		return NOWHERE;
	member->kept -= least;
	member->lent |= least;
	return (int32_t)(member->window + (uint32_t)__builtin_ctzll(least));
}

bool model_reuse_one(struct model *hand, uint32_t tag)
{
	struct member *member = member_of(hand);
	uint64_t bit = member->kept & bit_of(member, tag);

	member->kept -= bit;
	member->lent |= bit;
	return bit != 0;
}

void model_lend(struct model *hand, uint32_t tag)
{
	aim(member_of(hand), tag);
	member_of(hand)->lent |= bit_of(member_of(hand), tag);
}

/* Of the tags that the hand is known to hold, those that are not in the list. */
static uint64_t lent_without(const struct member *member, const uint32_t *tags, size_t n)
{
	uint64_t lent = member->lent;

	for (size_t i = 0; i < n; i++)
		lent &= ~bit_of(member, tags[i]);
	return lent;
}

static bool are_last(const struct model *hand, const uint32_t *tags, size_t n)
{
	return hand->pool->is_careful && lent_without(member_of(hand), tags, n) == 0;
}

static bool has_place(const struct model *hand, uint32_t tag)
{
	const struct member *member = member_of(hand);

	return bit_of(member, tag) &&
	       (uint32_t)__builtin_popcountll(member->kept) < hand->pool->cache;
}

bool model_keep(struct model *hand, uint32_t tag)
{
	struct member *member = member_of(hand);

	if (!hand->pool->is_careful && !(member->lent & bit_of(member, tag)))
		aim(member, tag);
	if (are_last(hand, &tag, 1))
		return false;
	if (!has_place(hand, tag)) {
		if (hand->pool->cache == 0 || (hand->pool->is_careful && !bit_of(member, tag)))
			return false;
		model_flush(hand);
		if (!hand->pool->is_careful)
			aim(member, tag);
	}
	member->lent = lent_without(member, &tag, 1);
	member->kept |= bit_of(member, tag);
	return true;
}

void model_release(struct model *hand, const uint32_t *tags, size_t n)
{
	struct member *member = member_of(hand);

	if (are_last(hand, tags, n))
		model_flush(hand);
	member->lent = lent_without(member, tags, n);
}

void model_release_posted(struct model *hand, uint32_t tag)
{
	if (member_of(hand)->lent & bit_of(member_of(hand), tag))
		model_release(hand, &tag, 1);
}
