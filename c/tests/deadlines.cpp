// Waits with a limit: by each clock of std::chrono and by others, of any length and of any type of
// duration; and one that has passed is one try.
#include "check.hpp"
#include "sleeps.h"

#include <chrono>
#include <filesystem>
#include <limits>
#include <ratio>
#include <thread>

using std::chrono::duration;
using std::chrono::duration_cast;
using std::chrono::hours;
using std::chrono::steady_clock;
using std::chrono::system_clock;
using std::chrono::time_point;
using std::chrono::time_point_cast;
using namespace std::chrono_literals;

static std::error_code ec;

// Its epoch may lie in the future.
using file_clock = std::filesystem::file_time_type::clock;

// A clock that goes ten times as fast as the steady one, and began long before its epoch.
struct fast_clock {
	using duration = std::chrono::nanoseconds;
	using rep = duration::rep;
	using period = duration::period;
	using time_point = std::chrono::time_point<fast_clock>;
	static constexpr bool is_steady = true;
	static time_point now() noexcept
	{
		return time_point(10 * steady_clock::now().time_since_epoch() -
				  hours(24 * 365 * 100));
	}
};

// A clock that goes half as fast as the steady one.
struct slow_clock {
	using duration = std::chrono::microseconds;
	using rep = duration::rep;
	using period = duration::period;
	using time_point = std::chrono::time_point<slow_clock>;
	static constexpr bool is_steady = true;
	static time_point now() noexcept
	{
		return time_point(duration_cast<duration>(steady_clock::now().time_since_epoch()) /
				  2);
	}
};

// A pool of one tag, which is held.
struct held {
	tags::pool pool{sized(1, 2), ec};
	tags::hand holder = pool.join(ec);
	tags::tag tag = *holder.get(ec);
	tags::hand hand = pool.join(ec);
};

// However late the thread is: it sleeps no longer than up to this limit, and until that has passed.
template <class Time>
static void lasts(held &it, Time time, std::chrono::milliseconds least, std::int64_t most)
{
	const auto begin = steady_clock::now();
	sleep_ms = 0;
	CHECK(!it.hand.try_get_for(time, ec) && !ec);
	CHECK(steady_clock::now() - begin >= least && sleep_ms <= most);
}

static void times_up()
{
	held it;
	lasts(it, 20ms, 20ms, 20);
	lasts(it, 0.02s, 20ms, 20);
	lasts(it, duration<int, std::ratio<1, 60>>(2), 33ms, 33);
	lasts(it, duration<short, std::milli>(20), 20ms, 20);
	lasts(it, duration<unsigned, std::milli>(20), 20ms, 20);
	lasts(it, duration<float>(0.02F), 19ms, 20);
	lasts(it, duration<std::int64_t, std::pico>(20'000'000'000), 20ms, 20);
	lasts(it, duration<long double, std::ratio<3600>>(20e-3L / 3600), 19ms, 20);
}

// One try, without a sleep.
template <class Get>
static void passes(held &it, Get get)
{
	const std::uint32_t before = sleeps;
	CHECK(!get(it.hand) && !ec && sleeps == before);
}

template <class Time>
static void passes_for(held &it, Time time)
{
	passes(it, [&](tags::hand &hand) { return hand.try_get_for(time, ec); });
}

static void no_time()
{
	held it;
	const double nan = std::numeric_limits<double>::quiet_NaN();
	passes_for(it, 0ns);
	passes_for(it, -1ns);
	passes_for(it, hours::min());
	passes_for(it, std::chrono::nanoseconds::min());
	passes_for(it, duration<double>(nan));
	passes_for(it, duration<double>(-std::numeric_limits<double>::infinity()));
	passes_for(it, duration<std::int64_t, std::atto>::min());
	it.tag.clear();
	const std::optional<tags::tag> found = it.hand.try_get_for(-1h, ec);
	CHECK(found && !ec);
}

template <class Deadline>
static void passes_until(held &it, Deadline deadline)
{
	passes(it, [&](tags::hand &hand) { return hand.try_get_until(deadline, ec); });
}

template <class Clock>
static void past_deadlines()
{
	held it;
	passes_until(it, Clock::now());
	passes_until(it, Clock::now() - 1h);
	passes_until(it, Clock::time_point::min());
	passes_until(it, time_point<Clock, hours>::min());
	passes_until(it, time_point<Clock, duration<double>>::min());
	it.tag.clear();
	const std::optional<tags::tag> found = it.hand.try_get_until(Clock::now() - 1s, ec);
	CHECK(found && !ec);
}

template <class Clock>
static void deadlines()
{
	past_deadlines<Clock>();
	held it;
	for (int i = 0; i < 3; i++) {
		const auto deadline = Clock::now() + 20ms;
		CHECK(!it.hand.try_get_until(deadline, ec) && !ec);
		CHECK(Clock::now() >= deadline);
	}
	const auto coarse = time_point_cast<duration<double>>(Clock::now() + 5ms);
	CHECK(!it.hand.try_get_until(coarse, ec) && !ec);
}

// They sleep until the tag is given back. If a time overflowed on its way, it would have passed.
template <class Get>
static void is_woken(Get get)
{
	held it;
	std::thread giver([&] {
		await_asleep(1);
		it.tag.clear();
	});
	const std::optional<tags::tag> found = get(it.hand);
	CHECK(found && !ec);
	giver.join();
}

// The forms for a reserved tag, beside an ordinary one that is free.
static void reserved_tags()
{
	tags::pool pool(sized(2, 2, 1), ec);
	tags::hand holder = pool.join(ec);
	tags::tag tag = *holder.get_reserved(ec);
	tags::hand hand = pool.join(ec);
	const auto begin = steady_clock::now();
	CHECK(!hand.try_get_reserved_for(20ms, ec) && !ec);
	CHECK(!hand.try_get_reserved_until(steady_clock::now() + 20ms, ec) && !ec);
	CHECK(!hand.try_get_reserved_until(std::chrono::system_clock::now() + 20ms, ec) && !ec);
	CHECK(steady_clock::now() - begin >= 50ms);
	std::thread giver([&] {
		await_asleep(1);
		tag.clear();
	});
	const std::optional<tags::tag> found = hand.try_get_reserved_for(hours::max(), ec);
	CHECK(found && !ec && found->number() == 0);
	giver.join();
}

// The forms for a submitted tag, with times that overflow and a clock of which nothing is known.
static void submitted_tags()
{
	tags::options options = sized(2, 2);
	options.queues = 1;
	tags::pool pool(options, ec);
	tags::hand submitter = pool.join(ec);
	tags::hand hand = pool.join(ec);
	const auto begin = steady_clock::now();
	CHECK(!hand.try_next_for(0, 0s, ec) && !ec && !hand.try_next_for(0, -1h, ec) && !ec);
	CHECK(!hand.try_next_for(0, 10ms, ec) && !ec);
	CHECK(!hand.try_next_until(0, slow_clock::now() + 10ms, ec) && !ec);
	CHECK(steady_clock::now() - begin >= 20ms);
	for (int i = 0; i < 2; i++) {
		tags::tag tag = *submitter.get(ec);
		std::thread giver([&tag] {
			std::error_code own;
			await_asleep(1);
			tag.submit(own);
			CHECK(!own);
		});
		const std::optional<tags::tag> found =
			i == 0 ? hand.try_next_for(0, hours::max(), ec)
			       : hand.try_next_until(0, slow_clock::time_point::max(), ec);
		CHECK(found && !ec);
		giver.join();
	}
}

template <class Time>
static void is_long(Time time)
{
	is_woken([&](tags::hand &hand) { return hand.try_get_for(time, ec); });
}

template <class Clock>
static void distant_deadlines()
{
	is_woken([](tags::hand &hand) { return hand.try_get_until(Clock::now() + 1h, ec); });
	is_woken([](tags::hand &hand) { return hand.try_get_until(Clock::time_point::max(), ec); });
	is_woken([](tags::hand &hand) {
		return hand.try_get_until(time_point<Clock, hours>::max(), ec);
	});
	is_woken([](tags::hand &hand) {
		return hand.try_get_until(time_point<Clock, duration<double>>::max(), ec);
	});
}

static void long_times()
{
	is_long(1h);
	is_long(std::chrono::nanoseconds::max());
	is_long(hours::max());
	is_long(duration<std::int64_t, std::ratio<1, 60>>::max());
	is_long(duration<std::int64_t, std::ratio<1, 3>>(27'000'000'000));
	is_long(duration<std::int64_t, std::peta>::max());
	is_long(duration<std::uint64_t, std::milli>::max());
	is_long(duration<double>(std::numeric_limits<double>::infinity()));
	is_long(duration<double>::max());
	is_long(duration<double>(9e9));
	distant_deadlines<steady_clock>();
	distant_deadlines<system_clock>();
	distant_deadlines<fast_clock>();
	distant_deadlines<slow_clock>();
	distant_deadlines<file_clock>();
}

// What is computed of times: exact near 0, and cut where 64 bits end.
static void nanoseconds_of()
{
	using tags::detail::difference;
	using tags::detail::longest;
	using tags::detail::moment;
	constexpr std::int64_t most = std::numeric_limits<std::int64_t>::max();
	CHECK(tags::detail::nanoseconds(1s) == 1'000'000'000 &&
	      tags::detail::nanoseconds(-1ms) == -1'000'000);
	CHECK(tags::detail::nanoseconds(duration<std::int64_t, std::ratio<1, 3>>(2)) ==
	      666'666'666);
	CHECK(tags::detail::nanoseconds(duration<std::int64_t, std::atto>(-1'999'999'999)) == -1);
	CHECK(tags::detail::nanoseconds(std::chrono::nanoseconds(longest - 1025)) ==
	      longest - 1025);
	CHECK(tags::detail::nanoseconds(hours::max()) == longest &&
	      tags::detail::nanoseconds(hours::min()) == -longest);
	CHECK(tags::detail::nanoseconds(duration<std::int64_t, std::ratio<1, 60>>(
		      longest / 1'000'000'000 * 60 - 1)) == longest - 16'666'667);
	CHECK(difference(1, 5) == 4 && difference(-longest, longest) == longest &&
	      difference(longest, -longest) == -longest);
	CHECK(moment(-1).tv_sec == 0 && moment(-1).tv_nsec == 0 &&
	      moment(1'000'000'001).tv_sec == 1 && moment(1'000'000'001).tv_nsec == 1);
	CHECK(longest < most);
}

int main()
{
	nanoseconds_of();
	times_up();
	reserved_tags();
	submitted_tags();
	no_time();
	deadlines<steady_clock>();
	deadlines<system_clock>();
	deadlines<fast_clock>();
	deadlines<slow_clock>();
	deadlines<file_clock>();
	long_times();
	return report();
}
