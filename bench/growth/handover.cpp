// Requests that one thread hands to another: it gets a tag for each, writes the request, posts the tag and sends its number; the other
// thread takes the tag, reads the request and clears the tag. Each sleeps if there is nothing to do.
// handover CONTENDER TAGS BUSY MILLISECONDS
//
// Each thread has a processor of its own, and BUSY more threads only compute. It prints, in nanoseconds, the processor time of a request,
// of both threads, and the clock's time divided by the requests. `handover` alone prints the contenders. The exit status is 1 if a tag is
// missing in the end, and 2 for arguments that it does not know.
#ifndef _GNU_SOURCE
#define _GNU_SOURCE
#endif
#include <condition_variable>
#include <cstdio>
#include <cstring>
#include <mutex>
#include <semaphore>
#include <thread>
#include <vector>

#include "../../c/tags.h"
#include "bitmap.h"
#include "machine.h"

namespace {

constexpr std::uint32_t most_tags = 64, most_busy = 1024, in_batch = 8;

// Tags side by side: the first, and a mask of them.
struct some {
	std::int32_t first;
	std::uint64_t mask;
};

constexpr some last{-1, 0};

// The way of the numbers. It has room for all tags, so only the taker waits.
class way {
	std::vector<some> cells{2 * most_tags};
	std::size_t sent = 0, come = 0;
	std::counting_semaphore<2 * most_tags> full{0};

public:
	void send(some it)
	{
		cells[sent++ % cells.size()] = it;
		full.release();
	}

	// Before a sleep it says that the thread rests.
	template <typename Tags> some receive(Tags &tags)
	{
		if (!full.try_acquire()) {
			tags.rest();
			full.acquire();
		}
		return cells[come++ % cells.size()];
	}
};

// The requests, each where its tag says.
struct alignas(64) request {
	std::uint64_t written;
};
request requests[most_tags];

// A pool, whose hands keep so many tags, tag by tag.
class pool {
	tags_pool all = TAGS_EMPTY;

protected:
	tags_hand giver = TAGS_EMPTY, taker = TAGS_EMPTY;

public:
	explicit pool(std::uint32_t tags, std::uint32_t cache = 0)
	{
		tags_options options = TAGS_OPTIONS_INIT;

		options.total = tags;
		options.hands = 2;
		options.cache = cache;
		TAGS_MUST(tags_open(&all, &options));
		TAGS_MUST(tags_join(&all, &giver, 0));
		TAGS_MUST(tags_join(&all, &taker, 0));
	}

	some get() { return {TAGS_MUST(tags_get_blocking(&giver)), 1}; }
	void post(some it) { TAGS_MUST(tags_post(&giver, static_cast<std::uint32_t>(it.first))); }
	void take(some it) { TAGS_MUST(tags_take(&taker, static_cast<std::uint32_t>(it.first))); }
	void clear(some it) { TAGS_MUST(tags_clear(&taker, static_cast<std::uint32_t>(it.first))); }
	// The giver may wait for a tag that the taker keeps.
	void rest() { TAGS_MUST(tags_flush(&taker)); }

	bool close()
	{
		tags_sums sums;

		TAGS_MUST(tags_leave(&giver));
		TAGS_MUST(tags_leave(&taker));
		TAGS_MUST(tags_close(&all, &sums));
		return sums.got == sums.back;
	}
};

struct cached_pool : pool {
	explicit cached_pool(std::uint32_t tags) : pool(tags, 8) {}
};

// Several tags at once, by their masks.
struct batches : pool {
	using pool::pool;

	some get()
	{
		some it{0, 0};

		it.first = tags_get_batch(&giver, in_batch, &it.mask);
		return it.first >= 0 ? it : pool::get();
	}
	void post(some it) { TAGS_MUST(tags_post_mask(&giver, static_cast<std::uint32_t>(it.first), it.mask)); }
	void take(some it) { TAGS_MUST(tags_take_mask(&taker, static_cast<std::uint32_t>(it.first), it.mask)); }
	void clear(some it) { TAGS_MUST(tags_clear_mask(&taker, static_cast<std::uint32_t>(it.first), it.mask)); }
};

// A bitmap whose free tags a semaphore counts.
class counted {
	bitmap all{};
	std::uint32_t tags, hint = 0;
	std::counting_semaphore<most_tags> free_tags;

public:
	explicit counted(std::uint32_t all_tags) : tags(all_tags), free_tags(all_tags)
	{
		if (!bitmap_open(&all, ON_OWN_LINES, bitmap_shift_of(tags), tags))
			std::abort();
	}

	some get()
	{
		std::int32_t tag;

		free_tags.acquire();
		do
			tag = bitmap_get(&all, ON_OWN_LINES, &hint);
		while (tag < 0);
		return {tag, 1};
	}
	void post(some) {}
	void take(some) {}
	void clear(some it)
	{
		bitmap_clear(&all, ON_OWN_LINES, static_cast<std::uint32_t>(it.first));
		free_tags.release();
	}
	void rest() {}
	bool close() { return bitmap_close(&all, ON_OWN_LINES, tags); }
};

// A list behind a mutex, with a condition variable.
class listed {
	std::mutex lock;
	std::condition_variable freed;
	std::vector<std::int32_t> free_tags;
	std::size_t tags;

public:
	explicit listed(std::uint32_t all_tags) : tags(all_tags)
	{
		for (std::uint32_t tag = 0; tag < all_tags; tag++)
			free_tags.push_back(static_cast<std::int32_t>(tag));
	}

	some get()
	{
		std::unique_lock<std::mutex> held(lock);

		freed.wait(held, [this] { return !free_tags.empty(); });
		const std::int32_t tag = free_tags.back();
		free_tags.pop_back();
		return {tag, 1};
	}
	void post(some) {}
	void take(some) {}
	void clear(some it)
	{
		{
			const std::lock_guard<std::mutex> held(lock);

			free_tags.push_back(it.first);
		}
		freed.notify_one();
	}
	void rest() {}
	bool close() const { return free_tags.size() == tags; }
};

template <typename Body> void for_each_of(some it, Body body)
{
	for (std::uint64_t rest = it.mask; rest; rest &= rest - 1)
		body(requests[it.first + __builtin_ctzll(rest)]);
}

template <typename Tags> void give(Tags &tags, way &to)
{
	for (std::uint64_t number = 0; !must_end(); number++) {
		const some it = tags.get();

		for_each_of(it, [=](request &at) { at.written = number; });
		tags.post(it);
		to.send(it);
	}
	to.send(last);
}

template <typename Tags> std::uint64_t take(Tags &tags, way &from)
{
	std::uint64_t come = 0;
	volatile std::uint64_t read = 0;

	for (;;) {
		const some it = from.receive(tags);

		if (it.mask == 0)
			return come;
		tags.take(it);
		for_each_of(it, [&](request &at) { read = at.written, come++; });
		tags.clear(it);
	}
}

// Carries a body out on a processor. Returns what it took of it.
template <typename Body> std::int64_t processor_time(std::uint32_t processor, Body body)
{
	pin_to(processor);
	body();
	return now_by(CLOCK_THREAD_CPUTIME_ID);
}

template <typename Tags> int measure(std::uint32_t count, std::uint32_t busy, long milliseconds)
{
	static pthread_t others[most_busy];
	Tags tags(count);
	way numbers;
	std::int64_t giver = 0, taker = 0;
	std::uint64_t come = 0;

	begin_busy(others, busy);
	const std::int64_t began = now_by(CLOCK_MONOTONIC);
	std::thread gives([&] { giver = processor_time(0, [&] { give(tags, numbers); }); });
	std::thread takes([&] { taker = processor_time(1, [&] { come = take(tags, numbers); }); });
	sleep_for(milliseconds);
	end_all();
	const std::int64_t end = now_by(CLOCK_MONOTONIC);
	gives.join();
	takes.join();
	join_all(others, busy);
	std::printf("%.2f %.2f\n", static_cast<double>(giver + taker) / static_cast<double>(come),
		    static_cast<double>(end - began) / static_cast<double>(come));
	return tags.close() ? 0 : 1;
}

using measure_fn = int(std::uint32_t, std::uint32_t, long);
struct contender {
	const char *name;
	measure_fn *measure;
};
constexpr contender contenders[] = {{"pool", measure<pool>},
				    {"cache", measure<cached_pool>},
				    {"batches", measure<batches>},
				    {"semaphore", measure<counted>},
				    {"list", measure<listed>}};

}

int main(int argc, char **argv)
{
	if (argc == 1)
		for (const contender &it : contenders)
			std::puts(it.name);
	if (argc != 5)
		return argc == 1 ? 0 : 2;
	const unsigned long tags = std::strtoul(argv[2], nullptr, 10), busy = std::strtoul(argv[3], nullptr, 10);
	for (const contender &it : contenders)
		if (std::strcmp(it.name, argv[1]) == 0 && tags > 0 && tags <= most_tags && busy <= most_busy)
			return it.measure(static_cast<std::uint32_t>(tags), static_cast<std::uint32_t>(busy), std::strtol(argv[4], nullptr, 10));
	return 2;
}
