#include "queue.hpp"

#include <vector>

unsigned depth_of(tags::hand &hand, unsigned most)
{
	std::vector<tags::tag> held;
	while (held.size() < most) {
		std::optional<tags::tag> tag = hand.get();
		if (!tag)
			break;
		held.push_back(std::move(*tag));
	}
	return static_cast<unsigned>(held.size());
}
