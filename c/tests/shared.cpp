// Hands that threads share: more threads than hands, tags that another thread gives back, adopts and
// uses with what lies beside them, waits, and refusals. No tag has two users, and the totals are exact.
// shared [ROUNDS]
#include "check.hpp"

#include <chrono>
#include <cstdlib>
#include <mutex>
#include <thread>
#include <vector>

using namespace std::chrono_literals;
using tags::errc;

enum { THREADS = 10, TOTAL = 24 };

static long rounds = 300;

// What lies beside a tag. It is no atomic: only one thread may use it.
struct beside {
	std::uint64_t stamp = 0;
};

static tags::pool open(std::uint32_t total, std::uint32_t hands, std::uint32_t reserved = 0)
{
	std::error_code failure;
	tags::pool made(sized(total, hands, reserved), failure);
	CHECK(!failure);
	return made;
}

static void close(tags::pool &pool, std::uint64_t got)
{
	std::error_code failure;
	const tags::totals totals = pool.close(failure);
	CHECK(!failure && totals.got == totals.back && totals.held + totals.posted == 0);
	CHECK(got == 0 || totals.got == got);
}

static void refuse()
{
	tags::pool pool = open(4, 3), none;
	tags::shared_hands hands, empty;
	tags::shared_tag no_tag;
	std::error_code failure;
	REFUSED(errc::bad_handle, none.share(1, CODE));
	REFUSED(errc::bad_hand_count, pool.share(65, CODE));
	REFUSED(errc::no_hand, pool.share(4, CODE));
	hands = pool.share(3, failure);
	CHECK(!failure && hands && hands.count() == 3 && empty.count() == 0 && !empty);
	REFUSED(errc::no_hand, pool.share(0, CODE));
	REFUSED(errc::bad_handle, empty.get(CODE));
	REFUSED(errc::bad_handle, empty.get_reserved(CODE));
	REFUSED(errc::bad_handle, empty.get_blocking(CODE));
	REFUSED(errc::bad_handle, empty.try_get_for(1ms, CODE));
	REFUSED(errc::bad_handle, empty.try_get_until(std::chrono::steady_clock::now(), CODE));
	REFUSED(errc::bad_handle, empty.adopt(0, CODE));
	REFUSED(errc::bad_handle, empty.flush(CODE));
	REFUSED(errc::bad_handle, empty.close(CODE));
	REFUSED(errc::no_reserved, hands.get_reserved(CODE));
	REFUSED(errc::no_such_tag, hands.adopt(4, CODE));
	REFUSED(errc::not_held, hands.adopt(3, CODE));
	REFUSED(errc::bad_handle, no_tag.read(CODE));
	REFUSED(errc::bad_handle, no_tag.write(7, CODE));
	REFUSED(errc::bad_handle, no_tag.note(7, CODE));
	CHECK(empty.native_handle() == nullptr && hands.native_handle() != nullptr);
	hands.close(failure);
	CHECK(!failure && !hands);
	close(pool, 0);
}

static void use_alone()
{
	std::error_code failure;
	tags::pool pool = open(3, 3, 1);
	tags::shared_hands hands = pool.share(2, failure);
	std::optional<tags::shared_tag> first = hands.get_reserved(failure);
	CHECK(first && first->number() == 0 && first->write(70, failure) == 0);
	CHECK(first->read(failure) == 70 && !hands.get_reserved(failure) && !failure);
	REFUSED(errc::no_notes, first->note(70, CODE));
	tags::shared_tag second = hands.get_blocking(failure);
	std::optional<tags::shared_tag> third = hands.try_get_for(0ns, failure);
	CHECK(second && third && !hands.get(failure) && !hands.try_get_for(2ms, failure));
	CHECK(!hands.try_get_until(std::chrono::system_clock::now() + 2ms, failure) && !failure);
	REFUSED(errc::in_use, hands.close(CODE));
	// the tags stay with the hands, which move
	tags::shared_hands moved(std::move(hands));
	second = std::move(*third);
	CHECK(moved.get(failure) && !failure);
	const std::uint32_t number = first->release();
	CHECK(number == 0 && !*first);
	first.reset();
	tags::shared_tag adopted = moved.adopt(number, failure);
	CHECK(adopted && adopted.read(failure) == 70 && !failure);
	REFUSED(errc::not_held, moved.adopt(number, CODE));
	REFUSED(errc::not_held, moved.adopt(second.number(), CODE));
	adopted.clear();
	adopted.clear();
	second = tags::shared_tag();
	moved = tags::shared_hands();
	close(pool, 4);
}

// Tags that a hand held when it left are released ones of whoever shares it later.
static void inherit()
{
	std::error_code failure;
	tags::pool pool = open(4, 1);
	tags::hand hand = pool.join(failure);
	const std::uint32_t number = hand.get_blocking(failure).release();
	hand.leave(failure);
	tags::shared_hands hands = pool.share(0, failure);
	REFUSED(errc::in_use, hands.close(CODE));
	CHECK(hands.adopt(number, failure).number() == number && !failure);
	hands.close(failure);
	CHECK(!failure);
	close(pool, 1);
}

struct meeting {
	tags::shared_hands &hands;
	tags::values<beside> &values;
	std::mutex lock;
	std::vector<tags::shared_tag> left;
	std::vector<std::uint32_t> released;
};

static void use(meeting &all, tags::shared_tag &tag, std::uint64_t stamp)
{
	std::error_code failure;
	all.values[tag].stamp = stamp;
	tag.write(stamp, failure);
	std::this_thread::yield();
	CHECK(all.values[tag].stamp == stamp && tag.read(failure) == stamp && !failure);
	CHECK(all.values.at(tag, failure) != nullptr);
}

// Leaves a tag for others, and takes up one that was left.
static tags::shared_tag exchange(meeting &all, tags::shared_tag tag, bool by_number)
{
	std::error_code failure;
	const std::lock_guard<std::mutex> held(all.lock);
	if (by_number) {
		all.released.push_back(tag.release());
		const std::uint32_t found = all.released.front();
		all.released.erase(all.released.begin());
		return all.hands.adopt(found, failure);
	}
	all.left.push_back(std::move(tag));
	tags::shared_tag found = std::move(all.left.front());
	all.left.erase(all.left.begin());
	return found;
}

static void work(meeting &all, std::uint64_t number)
{
	std::error_code failure;
	for (long i = 0; i < rounds; i++) {
		std::optional<tags::shared_tag> tag =
			i % 3 == 0 ? all.hands.get_blocking(failure) : all.hands.try_get_for(1h, failure);
		CHECK(tag && *tag && !failure);
		use(all, *tag, number << 32 | static_cast<std::uint64_t>(i));
		tags::shared_tag other = exchange(all, std::move(*tag), i % 2 == 0);
		use(all, other, number << 32 | static_cast<std::uint64_t>(i));
	}
}

static void share(std::uint32_t total, std::uint32_t count)
{
	std::error_code failure;
	tags::pool pool = open(total, count);
	tags::shared_hands hands = pool.share(count, failure);
	tags::values<beside> values(pool, failure);
	meeting all{hands, values, {}, {}, {}};
	std::vector<std::thread> threads;
	for (std::uint64_t i = 0; i < THREADS; i++)
		threads.emplace_back([&all, i] { work(all, i); });
	for (std::thread &it : threads)
		it.join();
	CHECK(all.left.empty() && all.released.empty());
	hands.close(failure);
	CHECK(!failure);
	close(pool, THREADS * static_cast<std::uint64_t>(rounds));
}

int main(int argc, char **argv)
{
	if (argc > 1)
		rounds = std::atol(argv[1]);
	refuse();
	use_alone();
	inherit();
	for (std::uint32_t count : {1U, 2U, 4U}) {
		share(1, count);
		share(5, count);
		share(TOTAL, count);
	}
	return report();
}
