// Waits for a hand, for all tags of a pool and for those of a list, without a limit and with one, and a stop and a resume.
#include "check.hpp"
#include "sleeps.h"

#include <chrono>
#include <thread>
#include <vector>

using namespace std::chrono_literals;
using tags::errc;

static std::error_code ec;

// A clock of which nothing is known.
struct slow_clock {
	using duration = std::chrono::milliseconds;
	using rep = duration::rep;
	using period = duration::period;
	using time_point = std::chrono::time_point<slow_clock>;
	static constexpr bool is_steady = false;
	static time_point now()
	{
		return time_point(std::chrono::duration_cast<duration>(
			std::chrono::steady_clock::now().time_since_epoch() / 2));
	}
};

static void more_threads_than_hands()
{
	tags::pool pool(sized(8, 2), ec);
	std::atomic<int> inside{0};
	std::vector<std::thread> threads;
	for (int i = 0; i < 6; i++) {
		threads.emplace_back([&, i] {
			std::error_code own;
			for (int round = 0; round < 200; round++) {
				std::optional<tags::hand> hand;
				if (i % 2 == 0)
					hand = pool.join_blocking(own);
				else
					hand = pool.try_join_for(10min, own);
				CHECK(!own && hand && *hand && ++inside <= 2);
				const tags::tag tag = hand->get_blocking(own);
				CHECK(tag && !own);
				inside--;
			}
		});
	}
	for (std::thread &thread : threads)
		thread.join();
	CHECK(pool.close(ec).back == 1200 && !ec);
}

static void joins_give_up()
{
	tags::pool pool(sized(8, 1), ec);
	std::optional<tags::hand> hand = pool.try_join_for(0s, ec);
	CHECK(hand && !ec);
	CHECK(!pool.try_join_for(0s, ec) && !ec);
	CHECK(!pool.try_join_for(2ms, ec) && !ec);
	CHECK(!pool.try_join_until(std::chrono::steady_clock::now() + 2ms, ec) && !ec);
	CHECK(!pool.try_join_until(std::chrono::system_clock::now() - 1h, ec) && !ec);
	CHECK(!pool.try_join_until(slow_clock::now() + 2ms, ec) && !ec);
	pool.stop(ec);
	REFUSED(errc::stopped, pool.join_blocking(CODE));
	REFUSED(errc::stopped, pool.try_join_for(1h, CODE));
	hand.reset();
	// A stop is for those who would have to wait, and a resume ends it.
	tags::hand other = pool.join_blocking(ec);
	CHECK(other && !ec);
	REFUSED(errc::stopped, other.get_blocking(CODE));
	pool.resume(ec);
	CHECK(!ec && other.get_blocking(ec) && !ec);
}

static void drains()
{
	tags::pool pool(sized(8, 1, 1), ec);
	pool.drain(ec);
	CHECK(!ec && pool.try_drain_for(0s, ec) && !ec);
	tags::hand hand = pool.join(ec);
	tags::tag tag = *hand.get(ec);
	CHECK(!pool.try_drain_for(2ms, ec) && !ec);
	CHECK(!pool.try_drain_until(std::chrono::system_clock::now() + 2ms, ec) && !ec);
	CHECK(!pool.try_drain_until(slow_clock::now(), ec) && !ec);
	std::thread thread([&pool] {
		std::error_code own;
		pool.drain(own);
		CHECK(!own && pool.show(tags::kind::ordinary, own).busy == 0);
	});
	await_asleep(1);
	tag.clear();
	thread.join();
	hand.leave(ec);
	pool.resize(4, ec);
	CHECK(!ec);
}

static void drains_of_lists()
{
	tags::pool pool(sized(8, 1, 1), ec);
	tags::hand hand = pool.join(ec);
	tags::tag ends = *hand.get(ec), stays = *hand.get(ec);
	const std::uint32_t both[] = {ends.number(), stays.number()}, none[] = {0, 8};
	CHECK(!pool.try_drain_list_for(both, 2, 2ms, ec) && !ec);
	CHECK(!pool.try_drain_list_until(both, 1, std::chrono::system_clock::now() + 2ms, ec) && !ec);
	CHECK(!pool.try_drain_list_until(both, 1, slow_clock::now(), ec) && !ec);
	CHECK(pool.try_drain_list_for(none, 1, 0s, ec) && !ec);
	REFUSED(errc::no_such_tag, pool.drain_list(none, 2, CODE));
	REFUSED(errc::bad_handle, pool.drain_list(nullptr, 1, CODE));
	REFUSED(errc::no_such_tag, pool.try_drain_list_for(none, 2, 1ms, CODE));
	std::atomic<bool> is_over{false};
	std::thread thread([&] {
		std::error_code own;
		pool.drain_list(both, 1, own);
		is_over = true;
		CHECK(!own);
	});
	await_asleep(1);
	CHECK(!is_over);
	ends.clear();
	thread.join();
	CHECK(pool.show(tags::kind::ordinary, ec).busy == 1);
}

static void refusals()
{
	tags::pool pool;
	const std::uint32_t number = 0;
	REFUSED(errc::bad_handle, pool.join_blocking(CODE));
	REFUSED(errc::bad_handle, pool.try_join_for(1ms, CODE));
	REFUSED(errc::bad_handle, pool.try_join_until(std::chrono::steady_clock::now(), CODE));
	REFUSED(errc::bad_handle, pool.drain(CODE));
	REFUSED(errc::bad_handle, pool.try_drain_for(1ms, CODE));
	REFUSED(errc::bad_handle, pool.try_drain_until(std::chrono::system_clock::now(), CODE));
	REFUSED(errc::bad_handle, pool.drain_list(&number, 1, CODE));
	REFUSED(errc::bad_handle, pool.try_drain_list_for(&number, 1, 1ms, CODE));
	REFUSED(errc::bad_handle,
		pool.try_drain_list_until(&number, 1, std::chrono::system_clock::now(), CODE));
	REFUSED(errc::bad_handle, pool.resume(CODE));
}

int main()
{
	more_threads_than_hands();
	joins_give_up();
	drains();
	drains_of_lists();
	refusals();
	return report();
}
