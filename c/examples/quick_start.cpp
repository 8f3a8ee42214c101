// One thread takes a tag, uses its slot, and gives the tag back.
#include <cstdio>
#include <tags.hpp>

static void use_tag(tags::hand &hand)
{
	if (std::optional<tags::tag> tag = hand.get()) {
		tag->write(70);
		std::printf("tag %u has %d\n", tag->number(), static_cast<int>(tag->read()));
	} // here the tag goes back
}

int main()
{
	try {
		tags::options options;
		options.total = 16;
		options.reserved = 2;
		options.hands = 2;
		tags::pool pool(options);
		tags::hand hand = pool.join();
		use_tag(hand);
		hand.leave();
		const tags::totals totals = pool.close();
		std::printf("got %d, back %d\n", static_cast<int>(totals.got),
			    static_cast<int>(totals.back));
	} catch (const tags::error &error) {
		std::fprintf(stderr, "%s\n", error.what());
		return 1;
	}
	return 0;
}
