// tags.h compiles as C++, with the warnings on that C++ programs use: its initializers and its calls.
#include "../tags.h"

int main()
{
	tags_options options = TAGS_OPTIONS_INIT;
	tags_pool pool = TAGS_EMPTY;
	tags_hand hand = TAGS_EMPTY;
	tags_sums sums = {};
	const uint32_t tags[] = { 0, 1 };
	uint64_t won = 0;

	options.total = 2;
	options.hands = 1;
	if (tags_open(&pool, &options) != TAGS_OK || tags_join(&pool, &hand, TAGS_STAY) != TAGS_OK)
		return 1;
	if (tags_get_blocking(&hand) != 0 || tags_get_async(&hand, 0) != 1 || tags_take(&hand, 1) == TAGS_OK)
		return 1;
	if (tags_write(&hand, 0, 1, nullptr) != TAGS_OK || tags_clear_batch(&hand, tags, 2) < 0)
		return 1;
	if (tags_get_batch(&hand, 2, &won) != 0 || tags_clear_mask(&hand, 0, won) < 0)
		return 1;
	return tags_stop(&pool) || tags_leave(&hand) || tags_close(&pool, &sums);
}
