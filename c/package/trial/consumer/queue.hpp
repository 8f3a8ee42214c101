// A library over tags, of several files, whose header has those of tags.
#ifndef QUEUE_HPP
#define QUEUE_HPP

#include <tags.hpp>

// How many of so many tags are got, one after another.
[[gnu::visibility("default")]] unsigned depth_of(tags::hand &hand, unsigned most);
// Whether four threads get and give back tags of a pool, and the totals balance.
[[gnu::visibility("default")]] bool run_threads();

#endif
