// tags.h in a program in C++17, which has no designated initializers: it sets the members that it needs, so that a new
// member costs it no change.
#include <tags.h>

#include <cstdio>

int main()
{
	tags_options options {};
	tags_pool pool = TAGS_EMPTY;
	tags_hand hand = TAGS_EMPTY;
	tags_sums sums;

	options.total = 16;
	options.reserved = 2;
	options.hands = 2;
	if (tags_open(&pool, &options) != TAGS_OK || tags_join(&pool, &hand, 0) != TAGS_OK)
		return 1;
	int32_t tag = tags_get(&hand);
	if (tag < 0 || tags_clear(&hand, static_cast<uint32_t>(tag)) < 0)
		return 2;
	if (tags_leave(&hand) != TAGS_OK || tags_close(&pool, &sums) != TAGS_OK)
		return 3;
	std::puts(tags_strerror(TAGS_OK));
	return 0;
}
