// Values beside tags: each is made and destroyed once, whatever fails meanwhile; it stays when its
// tag goes back, and it has one user.
#include "check.hpp"

#include <memory>
#include <mutex>
#include <thread>
#include <vector>

using tags::errc;

static std::error_code failure;
static int made;
static int destroyed;

// It can be neither copied nor moved.
struct fixed {
	explicit fixed(std::uint32_t of) : number(of) { made++; }
	fixed(const fixed &) = delete;
	fixed &operator=(const fixed &) = delete;
	~fixed() { destroyed++; }
	std::uint32_t number;
	std::mutex lock;
};

struct alignas(256) aligned {
	std::uint64_t words[32];
};

static fixed of_number(std::uint32_t number) { return fixed(number); }

static void each_value_lives_once()
{
	tags::pool pool(sized(16, 1, 2), failure);
	{
		tags::values<fixed> values(pool, of_number, failure);
		CHECK(!failure && made == 16 && destroyed == 0 && values.size() == 16);
		tags::hand hand = pool.join(failure);
		std::vector<tags::tag> held;
		while (std::optional<tags::tag> tag = hand.get(failure))
			held.push_back(std::move(*tag));
		CHECK(held.size() == 14);
		for (const tags::tag &tag : held)
			CHECK(values[tag].number == tag.number() &&
			      values.at(tag, failure) == &values[tag] && !failure);
		tags::values<fixed> moved(std::move(values));
		CHECK(values.size() == 0 && moved.size() == 16 &&
		      values.at(held[0], failure) == nullptr && failure == errc::no_such_tag);
		values = std::move(moved);
		CHECK(values.size() == 16 && made == 16 && destroyed == 0);
	}
	CHECK(made == 16 && destroyed == 16);
}

static void they_have_their_alignment()
{
	tags::pool pool(sized(5, 1), failure);
	const tags::values<aligned> values(pool, failure);
	tags::hand hand = pool.join(failure);
	const tags::tag tag = *hand.get(failure);
	CHECK(reinterpret_cast<std::uintptr_t>(&values[tag]) % 256 == 0 &&
	      values[tag].words[31] == 0);
}

static void a_value_stays_and_passes_on()
{
	tags::pool pool(sized(1, 2), failure);
	const tags::values<std::vector<int>> values(pool, failure);
	tags::hand one = pool.join(failure);
	tags::hand other = pool.join(failure);
	tags::tag tag = *one.get(failure);
	values[tag].assign(1000, 7);
	tag.clear();
	tag = *one.get(failure);
	CHECK(values[tag].size() == 1000);
	values[tag].push_back(8);
	tag = other.take(tag.post(failure), failure);
	CHECK(values[tag].back() == 8);
}

static void values_pass_with_a_batch()
{
	tags::pool pool(sized(64, 2), failure);
	const tags::values<std::vector<int>> values(pool, failure);
	tags::hand one = pool.join_in_place(failure);
	tags::hand other = pool.join_in_place(failure);
	tags::batch batch = *one.get_batch(3, failure);
	for (const std::uint32_t number : batch)
		values.at(batch, number, failure)->assign(number + 1, 7);
	const tags::numbers posted = batch.post(failure);
	CHECK(!failure && values.at(batch, 0, failure) == nullptr && failure == errc::no_such_tag);
	batch = other.take_batch(posted, failure);
	for (const std::uint32_t number : posted)
		CHECK(values.at(batch, number, failure)->size() == number + 1);
	CHECK(!failure && posted.size() == 3);
}

static void tags_of_other_pools_are_refused()
{
	tags::pool pool(sized(4, 1), failure);
	tags::pool another(sized(4, 1), failure);
	tags::values<int> values(
		pool, [](std::uint32_t number) { return 10 * static_cast<int>(number); }, failure);
	tags::hand hand = pool.join(failure);
	tags::hand stranger = another.join(failure);
	tags::tag good = *hand.get(failure);
	const tags::tag bad = *stranger.get(failure);
	CHECK(*values.at(good, failure) == 0 && !failure);
	CHECK(values.at(bad, failure) == nullptr && failure == errc::no_such_tag);
	CHECK(values.at(tags::tag(), failure) == nullptr && failure == errc::no_such_tag);
	const tags::pool none;
	const tags::values<int> empty(none, failure);
	CHECK(failure == errc::bad_handle && empty.size() == 0 &&
	      empty.at(good, failure) == nullptr);
	values.resize(another, failure);
	CHECK(failure == errc::no_such_tag && values.size() == 4);
	values.resize(none, failure);
	CHECK(failure == errc::bad_handle && values.size() == 4);
#ifdef __cpp_exceptions
	CHECK(values.at(good) == 0);
	REFUSED(errc::no_such_tag, values.at(bad, CODE));
	REFUSED(errc::no_such_tag, values.at(tags::tag(), CODE));
	REFUSED(errc::bad_handle, tags::values<int>(none, CODE));
	REFUSED(errc::no_such_tag, values.resize(another, CODE));
#endif
}

static void reserved_values_stay_over_a_resize()
{
	tags::pool pool(sized(4, 1, 2), failure);
	const auto make = [](std::uint32_t number) {
		return std::make_unique<std::uint32_t>(number);
	};
	const auto make_others = [](std::uint32_t number) {
		return std::make_unique<std::uint32_t>(100 + number);
	};
	tags::values<std::unique_ptr<std::uint32_t>> values(pool, make, failure);
	for (const std::uint32_t total : {7U, 2U, 70U, 3U}) {
		pool.resize(total, failure);
		CHECK(!failure);
		values.resize(pool, make_others, failure);
		CHECK(!failure && values.size() == total);
		tags::hand hand = pool.join(failure);
		const tags::tag reserved[] = {std::move(*hand.get_reserved(failure)),
					      std::move(*hand.get_reserved(failure))};
		CHECK(*values[reserved[0]] == 0 && *values[reserved[1]] == 1);
		std::vector<tags::tag> held;
		while (std::optional<tags::tag> tag = hand.get(failure)) {
			CHECK(*values[*tag] == 100 + tag->number());
			held.push_back(std::move(*tag));
		}
		CHECK(held.size() == total - 2);
	}
}

#ifdef __cpp_exceptions
static void a_value_that_can_not_be_made()
{
	tags::pool pool(sized(16, 1, 2), failure);
	made = destroyed = 0;
	const auto fails = [](std::uint32_t number) {
		if (number == 9)
			throw 9;
		return fixed(number);
	};
	try {
		const tags::values<fixed> values(pool, fails);
		CHECK(false);
	} catch (int) {
		CHECK(made == 9 && destroyed == 9);
	}
	tags::values<std::shared_ptr<int>> values(
		pool, [](std::uint32_t) { return std::make_shared<int>(5); });
	pool.resize(32);
	try {
		values.resize(pool, [](std::uint32_t number) {
			if (number == 30)
				throw 30;
			return std::make_shared<int>(6);
		});
		CHECK(false);
	} catch (int) {
		CHECK(values.size() == 16);
	}
	values.resize(pool);
	tags::hand hand = pool.join();
	const tags::tag tag = *hand.get();
	const tags::tag reserved = *hand.get_reserved();
	CHECK(values.at(tag) == nullptr && *values.at(reserved) == 5);
}
#endif

// A pool may be opened where another was closed, which has other tags.
static void a_later_pool_in_the_same_place()
{
	tags::pool pool(sized(8, 1), failure);
	const tags::values<int> values(pool, failure);
	for (int i = 0; i < 8; i++) {
		CHECK(pool.close(failure).got == (i > 0) && !failure);
		pool = tags::pool(sized(8, 1), failure);
		tags::hand hand = pool.join(failure);
		const tags::tag tag = *hand.get(failure);
		CHECK(values.at(tag, failure) == nullptr && failure == errc::no_such_tag);
	}
}

// The tags of a batch have values by their numbers.
static void values_of_a_batch()
{
	tags::pool pool(sized(64, 1, 1), failure);
	tags::pool other(sized(64, 1, 1), failure);
	const tags::values<std::uint32_t> values(
		pool, [](std::uint32_t number) { return number; }, failure);
	const tags::values<std::uint32_t> others(other, failure);
	tags::hand hand = pool.join(failure);
	tags::batch batch = *hand.get_batch(4, failure);
	for (const std::uint32_t number : batch) {
		CHECK(batch.has(number));
		CHECK(values.at(batch, number, failure) && *values.at(batch, number, failure) == number);
		REFUSED(errc::no_such_tag, others.at(batch, number, CODE));
	}
	const std::uint32_t first = batch.pop()->number();
	CHECK(batch.size() == 3 && !batch.has(first) && !batch.has(0) && !batch.has(UINT32_MAX));
	REFUSED(errc::no_such_tag, values.at(batch, first, CODE));
	batch.clear();
	REFUSED(errc::no_such_tag, values.at(batch, first + 1, CODE));
}

// Of a pool that was resized alone the tags below size() have values, and no others.
static void a_resize_of_the_pool_alone()
{
	tags::pool pool(sized(4, 1), failure);
	tags::values<long> values(pool, failure);
	pool.resize(4096, failure);
	tags::hand hand = pool.join(failure);
	std::vector<tags::tag> held;
	while (std::optional<tags::tag> tag = hand.get(failure))
		held.push_back(std::move(*tag));
	CHECK(!failure && held.size() == 4096 && values.size() == 4);
	for (const tags::tag &tag : held) {
		const long *const value = values.at(tag, failure);
		CHECK(tag.number() < 4 ? value == &values[tag] && !failure :
					 value == nullptr && failure == errc::no_such_tag);
	}
	values.resize(pool, failure);
	CHECK(!failure && values.size() == 4096 && values.at(held.back(), failure) != nullptr);
}

// No value has two users, and each sees what the one before has done.
static void threads_share_values()
{
	constexpr int rounds = 3000;
	tags::pool pool(sized(3, 4), failure);
	const tags::values<std::uint64_t> values(pool, failure);
	std::vector<std::thread> threads;
	for (int i = 0; i < 4; i++) {
		threads.emplace_back([&] {
			std::error_code own;
			tags::hand hand = pool.join(own);
			for (int round = 0; round < rounds; round++) {
				const tags::tag tag = hand.get_blocking(own);
				values[tag]++;
			}
		});
	}
	for (std::thread &thread : threads)
		thread.join();
	std::uint64_t sum = 0;
	tags::hand hand = pool.join(failure);
	std::vector<tags::tag> held;
	while (std::optional<tags::tag> tag = hand.get(failure)) {
		sum += values[*tag];
		held.push_back(std::move(*tag));
	}
	CHECK(sum == 4 * rounds && held.size() == 3);
}

int main()
{
	each_value_lives_once();
	they_have_their_alignment();
	a_value_stays_and_passes_on();
	values_pass_with_a_batch();
	tags_of_other_pools_are_refused();
	reserved_values_stay_over_a_resize();
	a_later_pool_in_the_same_place();
	a_resize_of_the_pool_alone();
	values_of_a_batch();
#ifdef __cpp_exceptions
	a_value_that_can_not_be_made();
#endif
	threads_share_values();
	return report();
}
