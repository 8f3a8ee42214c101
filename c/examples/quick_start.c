/* One thread takes a tag, uses its slot, and gives the tag back. */
#include <stdio.h>
#include <tags.h>

static int give_up(const char *call, int32_t status)
{
	fprintf(stderr, "%s: %s\n", call, tags_strerror(status));
	return 1;
}

static int use_tag(struct tags_hand *hand)
{
	uint64_t value = 0;
	int32_t tag = tags_get(hand);

	if (tag < 0)
		return give_up("tags_get", tag);
	tags_write(hand, (uint32_t)tag, 70, &value);
	tags_read(hand, (uint32_t)tag, &value);
	printf("tag %d has %d\n", (int)tag, (int)value);
	TAGS_MUST(tags_clear(hand, (uint32_t)tag));
	return 0;
}

int main(void)
{
	struct tags_options options = {
		.total = 16,
		.reserved = 2,
		.hands = 2,
	};
	struct tags_pool pool = TAGS_EMPTY;
	struct tags_hand hand = TAGS_EMPTY;
	struct tags_sums sums;
	int32_t status = tags_open(&pool, &options);

	if (status != TAGS_OK)
		return give_up("tags_open", status);
	status = tags_join(&pool, &hand, 0);
	if (status != TAGS_OK)
		return give_up("tags_join", status);
	if (use_tag(&hand) != 0)
		return 1;
	tags_leave(&hand);
	status = tags_close(&pool, &sums);
	if (status != TAGS_OK)
		return give_up("tags_close", status);
	printf("got %d, back %d\n", (int)sums.got, (int)sums.back);
	return 0;
}
