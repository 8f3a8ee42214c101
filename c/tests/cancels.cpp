// A thread that is cancelled by pthread_cancel() while it sleeps for a tag, free or submitted, unwinds: its tags go
// back, its hand leaves, and what it was told goes to another thread. That needs exceptions.
#include "check.hpp"
#include "sleeps.h"

#include <chrono>
#include <pthread.h>
#include <thread>

using namespace std::chrono_literals;

enum way {
	BLOCKING,
	BLOCKING_WITH_CODE,
	FOR,
	UNTIL,
	UNTIL_BY_ANOTHER_CLOCK,
	NEXT,
	NEXT_WITH_CODE,
	NEXT_FOR,
	NEXT_UNTIL,
	WAYS
};

struct other_clock : std::chrono::steady_clock {
	using time_point = std::chrono::time_point<other_clock>;
	static time_point now() noexcept
	{
		return time_point(std::chrono::steady_clock::now().time_since_epoch());
	}
};

struct sleeper {
	tags::pool &pool;
	way how;
	std::atomic<bool> is_asleep{false};
	// How many destructors ran, and whether the cancel was seen as an exception on its way.
	std::atomic<int> ended{0};
	std::atomic<bool> is_seen{false};
};

struct local {
	sleeper &of;
	~local() { of.ended++; }
};

static void get(tags::hand &hand, way how)
{
	std::error_code failure;
	tags::tag tag;
	std::optional<tags::tag> found;
	switch (how) {
	case BLOCKING:
		tag = hand.get_blocking();
		break;
	case BLOCKING_WITH_CODE:
		tag = hand.get_blocking(failure);
		break;
	case FOR:
		found = hand.try_get_for(1h);
		break;
	case UNTIL:
		found = hand.try_get_until(std::chrono::system_clock::now() + 1h);
		break;
	case UNTIL_BY_ANOTHER_CLOCK:
		found = hand.try_get_until(other_clock::now() + 1h, failure);
		break;
	case NEXT:
		tag = hand.next_blocking(0);
		break;
	case NEXT_WITH_CODE:
		tag = hand.next_blocking(0, failure);
		break;
	case NEXT_FOR:
		found = hand.try_next_for(0, 1h);
		break;
	default:
		found = hand.try_next_until(0, other_clock::now() + 1h, failure);
		break;
	}
}

// It holds the only ordinary tag but one, and sleeps for another, or in a queue.
static void *sleep_for_tag(void *argument)
{
	sleeper &self = *static_cast<sleeper *>(argument);
	const local first{self};
	tags::hand hand = self.pool.join();
	const tags::tag held = *hand.get();
	try {
		const local second{self};
		self.is_asleep = true;
		get(hand, self.how);
	} catch (...) {
		self.is_seen = true;
		throw;
	}
	return nullptr;
}

static void a_cancelled_sleeper(way how)
{
	tags::options options = sized(2, 3);
	options.queues = 1;
	tags::pool pool(options);
	tags::hand hand = pool.join();
	tags::hand other = pool.join();
	tags::tag tag = *hand.get();
	sleeper self{pool, how};
	pthread_t thread;
	CHECK(pthread_create(&thread, nullptr, sleep_for_tag, &self) == 0);
	await_asleep(1);
	CHECK(hand.show(tags::kind::ordinary).busy == 2);
	CHECK(pthread_cancel(thread) == 0);
	void *result = nullptr;
	pthread_join(thread, &result);
	CHECK(result == PTHREAD_CANCELED && self.ended == 2 && self.is_seen);
	CHECK(hand.show(tags::kind::ordinary).busy == 1 && hand.waiting() == 0);
	tag.clear();
	CHECK(other.get_batch(2) && pool.join());
	hand.leave();
	other.leave();
	const tags::totals sums = pool.close();
	CHECK(sums.got == sums.back && sums.held == 0);
}

// Cancels race with clears: whoever is told and cancelled passes it on, so the other sleeper always
// gets the tag.
static void cancels_beside_clears()
{
	for (int round = 0; round < 300; round++) {
		tags::pool pool(sized(2, 3));
		tags::hand hand = pool.join();
		tags::tag tags[] = {*hand.get(), *hand.get()};
		tags[1].clear();
		sleeper self{pool, BLOCKING};
		pthread_t cancelled;
		CHECK(pthread_create(&cancelled, nullptr, sleep_for_tag, &self) == 0);
		while (!self.is_asleep)
			std::this_thread::yield();
		std::thread waiting([&pool] {
			tags::hand own = pool.join();
			const tags::tag got = own.get_blocking();
			CHECK(got);
		});
		if (round % 2 == 0)
			await_asleep(2);
		pthread_cancel(cancelled);
		tags[0].clear();
		pthread_join(cancelled, nullptr);
		waiting.join();
	}
}

int main()
{
	for (int how = 0; how < WAYS; how++)
		a_cancelled_sleeper(static_cast<way>(how));
	cancels_beside_clears();
	return report();
}
