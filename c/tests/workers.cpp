// Eight threads share a pool of few tags: they get them in every way, pass them on, let them go and
// adopt them, join and leave, while it is resized between rounds. No tag has two users, values and
// slots are those of their tags, and the totals are exact. workers [ROUNDS]
#include "check.hpp"

#include <chrono>
#include <cstdlib>
#include <mutex>
#include <random>
#include <thread>
#include <vector>

using namespace std::chrono_literals;

enum { THREADS = 8, MOST = 6 };

// What lies beside a tag. It is no atomic: only one thread may use it.
struct beside {
	std::uint64_t uses = 0;
	std::uint64_t stamp = 0;
};

struct shared {
	tags::pool &pool;
	tags::values<beside> &values;
	long rounds;
	std::mutex lock;
	std::vector<std::uint32_t> posted;
	std::atomic<std::uint64_t> uses{0};
};

static void use(shared &all, tags::tag &tag, std::uint64_t stamp)
{
	std::error_code failure;
	beside &value = all.values[tag];
	value.uses++;
	value.stamp = stamp;
	tag.write(stamp, failure);
	std::this_thread::yield();
	CHECK(value.stamp == stamp && tag.read(failure) == stamp && !failure);
	all.uses++;
}

static std::optional<tags::tag> get(tags::hand &hand, std::uint32_t way)
{
	std::error_code failure;
	std::optional<tags::tag> found;
	switch (way) {
	case 0:
		found = hand.get(failure);
		break;
	case 1:
		found = hand.get_blocking(failure);
		break;
	case 2:
		found = hand.try_get_for(1h, failure);
		CHECK(found);
		break;
	case 3:
		found = hand.try_get_until(std::chrono::system_clock::now() + 50us, failure);
		break;
	case 4:
		found = hand.get_shallow(2, failure);
		break;
	default:
		if (std::optional<tags::batch> batch = hand.get_batch(1, failure))
			found = batch->pop();
		break;
	}
	CHECK(!failure);
	return found;
}

// Does something with a tag: its end gives it back.
static void dispose(shared &all, tags::hand &hand, tags::tag tag, std::uint32_t way)
{
	std::error_code failure;
	if (way == 0) {
		const std::lock_guard<std::mutex> locked(all.lock);
		all.posted.push_back(tag.post(failure));
	} else if (way == 1) {
		const std::uint32_t number = tag.release();
		tag = hand.adopt(number, failure);
		CHECK(tag);
	} else if (way == 2) {
		const std::uint32_t number = tag.release();
		hand.clear_batch(&number, 1, failure);
	} else if (way == 3) {
		tag.read_clear(failure);
	}
	CHECK(!failure);
}

static std::optional<std::uint32_t> next_posted(shared &all)
{
	const std::lock_guard<std::mutex> locked(all.lock);
	if (all.posted.empty())
		return std::nullopt;
	const std::uint32_t number = all.posted.back();
	all.posted.pop_back();
	return number;
}

// Whoever sleeps while tags are posted would wait for ever if all others slept too, so each thread
// takes them first.
static void take_posted(shared &all, tags::hand &hand)
{
	std::error_code failure;
	while (const std::optional<std::uint32_t> number = next_posted(all)) {
		tags::tag tag = hand.take(*number, failure);
		CHECK(tag && !failure);
		use(all, tag, *number);
	}
}

static void work(shared &all, std::uint32_t self)
{
	std::error_code failure;
	std::minstd_rand random(self + 1);
	tags::hand hand = all.pool.join(failure);
	CHECK(hand);
	for (long round = 0; round < all.rounds; round++) {
		// Posts are taken before anybody sleeps, but others may post after that: so only
		// the even threads post, and never sleep.
		const bool posts = self % 2 == 0;
		const std::uint32_t ways[] = {0, 3, 4, 5, 1, 2};
		take_posted(all, hand);
		std::optional<tags::tag> tag = get(hand, ways[random() % (posts ? 4 : 6)]);
		if (tag) {
			use(all, *tag, self * 1000000ULL + static_cast<std::uint64_t>(round));
			dispose(all, hand, std::move(*tag),
				static_cast<std::uint32_t>(random() % 5) + (posts ? 0 : 1));
		}
		if (random() % 64 == 0) {
			hand.leave(failure);
			hand = all.pool.join(failure);
			CHECK(hand && !failure);
		}
	}
	if (self % 2 == 0)
		take_posted(all, hand);
}

static void run(tags::options options, long rounds)
{
	std::error_code failure;
	tags::pool pool(options, failure);
	tags::values<beside> values(pool, failure);
	std::uint64_t uses = 0;
	for (const std::uint32_t total : {3U, 6U, 2U}) {
		pool.resize(total, failure);
		CHECK(!failure);
		values = tags::values<beside>(pool, failure);
		shared all{pool, values, rounds, {}, {}, {}};
		std::vector<std::thread> threads;
		for (std::uint32_t i = 0; i < THREADS; i++)
			threads.emplace_back([&all, i] { work(all, i); });
		for (std::thread &thread : threads)
			thread.join();
		tags::hand hand = pool.join(failure);
		take_posted(all, hand);
		std::uint64_t counted = 0;
		std::vector<tags::tag> held;
		while (std::optional<tags::tag> tag = hand.get(failure)) {
			counted += values[*tag].uses;
			held.push_back(std::move(*tag));
		}
		CHECK(held.size() == total && counted == all.uses);
		uses += all.uses;
	}
	const tags::totals sums = pool.close(failure);
	CHECK(!failure && sums.got == sums.back && sums.held == 0 && sums.posted == 0 && uses > 0);
}

int main(int count, char **words)
{
	const long rounds = count > 1 ? std::atol(words[1]) : 300;
	run(sized(MOST, THREADS), rounds);
	tags::options options = sized(MOST, THREADS);
	options.shift = 1;
	options.cache = 2;
	options.keep_while_holding = true;
	run(options, rounds);
	return report();
}
