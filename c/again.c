/*
 * Gets under round robin that found no tag, made once more. The proved search begins after the tag that the hand
 * won last, and of its first word it tries no tag before that. One that finds none moves the start to the first
 * tag, so the next one tries all.
 */
#include "bell.h"

/* Without round robin each of these is called only with the flag. */
int32_t tags_library_end_get(struct tags_hand *hand, int32_t answer, struct tags_told told)
{
	if (!tags_detail_wraps(hand))
		return tags_library_ring(hand, answer, told);
	answer = tags_detail_got(hand, answer, &told);
	if (answer != TAGS_NO_TAG)
		return answer;
	answer = tags_library_get(hand, &told);
	return tags_detail_got(hand, answer, &told);
}

int32_t tags_library_end_get_reserved(struct tags_hand *hand, int32_t answer, struct tags_told told)
{
	if (!tags_detail_wraps(hand))
		return tags_library_ring(hand, answer, told);
	answer = tags_detail_got(hand, answer, &told);
	if (answer != TAGS_NO_TAG)
		return answer;
	answer = tags_library_get_reserved(hand, &told);
	return tags_detail_got(hand, answer, &told);
}

int32_t tags_library_end_get_write(struct tags_hand *hand, uint64_t value, int32_t answer,
				   struct tags_told told)
{
	if (!tags_detail_wraps(hand))
		return tags_library_ring(hand, answer, told);
	answer = tags_detail_got(hand, answer, &told);
	if (answer != TAGS_NO_TAG)
		return answer;
	answer = tags_library_get_write(hand, value, &told);
	return tags_detail_got(hand, answer, &told);
}

/* A shallow get wraps in its first word also under round robin, and takes no kept tag. This one has the whole depth. */
static int32_t get_past_kept(struct tags_hand *hand)
{
	TAGS_DETAIL_TO_FILL(told);

	return tags_detail_got(hand, tags_library_get_shallow(hand, UINT32_MAX, &told), &told);
}

static void give_back(struct tags_hand *hand, const uint32_t *tags, size_t count)
{
	TAGS_DETAIL_TO_FILL(told);

	while (count > 0) {
		const size_t some = count < TAGS_MAX_BATCH ? count : TAGS_MAX_BATCH;

		tags_detail_gave(hand, tags_library_clear_batch(hand, tags, some, &told), &told);
		tags += some;
		count -= some;
	}
}

int32_t tags_library_get_many_again(struct tags_hand *hand, uint32_t *tags, size_t count)
{
	for (size_t i = 0; i < count; i++) {
		const int32_t tag = get_past_kept(hand);

		if (tag < 0) {
			give_back(hand, tags, i);
			return tag;
		}
		tags[i] = (uint32_t)tag;
	}
	return TAGS_OK;
}
