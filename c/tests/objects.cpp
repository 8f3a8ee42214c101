// The objects of tags.hpp give back what they hold: at their ends, when they are assigned to, and
// after moves. It compiles without exceptions too.
#include "check.hpp"

#include <array>
#include <chrono>
#include <map>
#include <memory>
#include <thread>
#include <vector>

using tags::errc;

static_assert(std::is_nothrow_move_constructible_v<tags::tag> &&
	      std::is_nothrow_move_assignable_v<tags::tag>);
static_assert(std::is_nothrow_move_constructible_v<tags::batch> &&
	      std::is_nothrow_move_assignable_v<tags::batch>);
static_assert(std::is_nothrow_move_constructible_v<tags::hand> &&
	      std::is_nothrow_move_assignable_v<tags::hand>);
static_assert(std::is_nothrow_move_constructible_v<tags::pool> &&
	      std::is_nothrow_move_assignable_v<tags::pool>);
static_assert(!std::is_copy_constructible_v<tags::tag> && !std::is_copy_assignable_v<tags::tag>);
static_assert(!std::is_copy_constructible_v<tags::batch> &&
	      !std::is_copy_assignable_v<tags::batch>);
static_assert(!std::is_copy_constructible_v<tags::hand> && !std::is_copy_assignable_v<tags::hand>);
static_assert(!std::is_copy_constructible_v<tags::pool> && !std::is_copy_assignable_v<tags::pool>);
static_assert(!std::is_convertible_v<tags::tag, bool> &&
	      std::is_nothrow_destructible_v<tags::hand>);
static_assert(sizeof(tags::hand) == sizeof(void *) && sizeof(tags::tag) == 2 * sizeof(void *));

static std::error_code ec;

// How many tags are busy.
static std::uint32_t busy(tags::hand &hand)
{
	std::uint64_t bits[2] = {};
	return hand.busy(bits, 2, ec);
}

static tags::tag get(tags::hand &hand)
{
	std::optional<tags::tag> found = hand.get(ec);
	CHECK(!ec && found);
	return found ? std::move(*found) : tags::tag();
}

static tags::batch get_batch(tags::hand &hand, std::uint32_t n)
{
	std::optional<tags::batch> found = hand.get_batch(n, ec);
	CHECK(!ec && found && found->size() == n);
	return found ? std::move(*found) : tags::batch();
}

static void each_end_gives_tags_back()
{
	tags::pool pool(sized(16, 1, 2), ec);
	tags::hand hand = pool.join(ec);
	std::uint64_t bits = 0;

	CHECK(pool && hand && pool.total() == 16 && pool.reserved() == 2);
	{
		const tags::tag first = get(hand);
		const std::optional<tags::tag> reserved = hand.get_reserved(ec);
		const std::optional<tags::batch> batch = hand.get_batch(2, ec);
		const std::optional<tags::tag> shallow = hand.get_shallow(14, ec);
		CHECK(first.number() == 2 && reserved->number() == 0 && batch->size() == 2);
		CHECK(shallow && hand.busy(&bits, 1, ec) == 5 && bits == 0x3d);
	}
	CHECK(busy(hand) == 0);
	CHECK(hand.show(tags::kind::ordinary, ec).depth == 14 &&
	      hand.show(tags::kind::reserved, ec).depth == 2);
	CHECK(hand.waiting(ec) == 0 && !ec);
	hand.leave(ec);
	const tags::totals sums = pool.close(ec);
	CHECK(!ec && !pool && !hand && sums.got == 5 && sums.back == 5 && sums.held == 0 &&
	      sums.posted == 0);
}

static void tags_move()
{
	tags::pool pool(sized(16, 2), ec);
	tags::hand hand = pool.join(ec);
	tags::tag one = get(hand);
	tags::tag other = get(hand);
	const std::uint32_t number = one.number();

	tags::tag moved(std::move(one));
	CHECK(moved && !one && moved.number() == number && busy(hand) == 2);
	other = std::move(moved);
	CHECK(other && !moved && other.number() == number && busy(hand) == 1);
	tags::tag &itself = other;
	other = std::move(itself);
	CHECK(other && busy(hand) == 1);
	other = tags::tag();
	CHECK(!other && busy(hand) == 0);

	std::vector<tags::tag> many;
	std::map<std::uint32_t, tags::tag> by_number;
	for (int i = 0; i < 8; i++)
		many.push_back(get(hand));
	for (tags::tag &it : many) {
		const std::uint32_t key = it.number();
		by_number.emplace(key, std::move(it));
	}
	many.clear();
	CHECK(by_number.size() == 8 && busy(hand) == 8);
	by_number.erase(3);
	CHECK(busy(hand) == 7);
	by_number.clear();
	CHECK(busy(hand) == 0);

	tags::tag again = get(hand);
	again.clear();
	again.clear();
	CHECK(!again && busy(hand) == 0);
}

static void hands_move_while_their_tags_are_out()
{
	tags::pool pool(sized(4, 2), ec);
	std::vector<tags::hand> hands;
	hands.push_back(pool.join(ec));
	tags::tag first = get(hands[0]);
	// The vector moves the first hand elsewhere.
	hands.push_back(pool.join(ec));
	first.write(7, ec);
	CHECK(!ec && first.read(ec) == 7 && busy(hands[0]) == 1);
	tags::hand hand = std::move(hands[0]);
	CHECK(!hands[0] && hand.holds(first.number(), ec) && !ec);
	first.clear();
	CHECK(busy(hand) == 0);
	hands.clear();
	tags::hand &itself = hand;
	hand = std::move(itself);
	CHECK(hand);
	hand = tags::hand();
	CHECK(!hand && pool.close(ec).got == 1 && !ec);
}

static void a_hand_goes_to_another_thread()
{
	tags::pool pool(sized(4, 1), ec);
	tags::hand hand = pool.join(ec);
	tags::tag tag = get(hand);
	tag.write(9, ec);
	std::thread([hand = std::move(hand), tag = std::move(tag)]() mutable {
		std::error_code own;
		CHECK(tag.read(own) == 9 && !own);
		tag.clear();
		hand.leave(own);
		CHECK(!own);
	}).join();
	CHECK(pool.close(ec).back == 1);
}

static void a_pool_lives_until_its_hands_end()
{
	tags::hand hand;
	{
		tags::pool pool(sized(4, 1), ec);
		tags::pool moved(std::move(pool));
		CHECK(!pool && pool.total() == 0 && pool.reserved() == 0 && moved);
		CHECK(pool.batch_limit() == 0 && moved.batch_limit() == 1);
		pool = std::move(moved);
		tags::pool &itself = pool;
		pool = std::move(itself);
		hand = pool.join(ec);
	}
	tags::tag tag = get(hand);
	CHECK(tag.number() == 0);
}

static void released_tags_are_adopted()
{
	tags::pool pool(sized(70, 2), ec);
	tags::hand hand = pool.join_in_place(ec);
	std::optional<tags::batch> batch = hand.get_batch(16, ec);
	std::vector<std::uint32_t> numbers;

	CHECK(batch && batch->size() == 16);
	while (std::optional<tags::tag> tag = batch->pop())
		numbers.push_back(tag->release());
	CHECK(!*batch && numbers.size() == 16 && busy(hand) == 16);
	tags::tag tag = hand.adopt(numbers[3], ec);
	CHECK(tag && !ec);
	CHECK(!hand.adopt(numbers[3], ec) && ec == errc::not_held);
	tag.clear();
	CHECK(!hand.adopt(numbers[3], ec) && ec == errc::not_held);
	hand.clear_batch(numbers.data(), 3, ec);
	CHECK(!ec && busy(hand) == 12);
	hand.clear_batch(numbers.data(), 3, ec);
	CHECK(ec == errc::not_held && busy(hand) == 12);

	// The hand holds them still when it joins again.
	tag = get(hand);
	hand.leave(ec);
	CHECK(ec == errc::in_use && hand);
	tag.clear();
	hand.leave(ec);
	CHECK(!ec && !hand);
	pool.resize(64, ec);
	CHECK(ec == errc::in_use);
	hand = pool.join_in_place(ec);
	for (std::size_t i = 4; i < numbers.size(); i++) {
		tags::tag found = hand.adopt(numbers[i], ec);
		CHECK(found && !ec);
		if (i % 2 == 0)
			static_cast<void>(found.release());
	}
	CHECK(busy(hand) == 6);
	hand = tags::hand();
	const tags::totals sums = pool.close(ec);
	CHECK(sums.got == 17 && sums.back == 11 && sums.held == 6);
	tags::tag none;
	static_cast<void>(none.release());
	CHECK(!none);
}

static void batches()
{
	tags::options options = sized(64, 1);
	options.shift = 6;
	tags::pool pool(options, ec);
	tags::hand hand = pool.join(ec);
	std::optional<tags::batch> found = hand.get_batch(5, ec);
	CHECK(found && *found && found->size() == 5);
	std::uint32_t next = 0;
	for (const std::uint32_t number : *found)
		CHECK(number == next++);
	CHECK(next == 5);
	tags::batch::iterator at = found->begin();
	CHECK(*at++ == 0 && *at == 1 && at != found->begin() && ++at != found->end());

	tags::batch moved(std::move(*found));
	CHECK(!*found && moved.size() == 5);
	std::optional<tags::tag> first = moved.pop();
	CHECK(first && first->number() == 0 && moved.size() == 4);
	std::optional<tags::batch> other = hand.get_batch(2, ec);
	CHECK(other && busy(hand) == 7);
	*other = std::move(moved);
	CHECK(other->size() == 4 && !moved && !moved.pop() && busy(hand) == 5);
	tags::batch &itself = *other;
	*other = std::move(itself);
	other->clear();
	other->clear();
	CHECK(busy(hand) == 1 && other->begin() == other->end());
	first.reset();
	*other = get_batch(hand, 4);
	CHECK(!other->extract(4) && !other->extract(0xffffffff) && busy(hand) == 4);
	CHECK(other->extract(2)->number() == 2 && other->size() == 3);
	CHECK(busy(hand) == 3);
	CHECK(!other->extract(2) && !other->has(2) && other->extract(3) && other->size() == 2);
	other->clear();
	CHECK(!other->extract(0) && busy(hand) == 0);
	tags::batch all = std::move(*hand.get_batch(64, ec));
	CHECK(all.size() == 64 && !hand.get_batch(1, ec) && !ec && !hand.get(ec) && !ec);
}

static void several_tags_or_none()
{
	tags::options options = sized(12, 2);
	options.shift = 2;
	tags::pool pool(options, ec);
	tags::hand hand = pool.join_in_place(ec);
	tags::hand other = pool.join_in_place(ec);
	std::optional<std::array<tags::tag, 5>> five = hand.get_many<5>(ec);
	CHECK(five && !ec && busy(hand) == 5);
	for (std::uint32_t i = 0; i < 5; i++)
		CHECK((*five)[i].number() == i && hand.holds(i, ec));
	(*five)[2].clear();
	CHECK(!other.get_many<9>(ec) && !ec && busy(other) == 4);
	std::uint32_t numbers[8] = {};
	CHECK(other.get_many(numbers, 0, ec) && !ec);
	CHECK(other.get_many(nullptr, 0, ec) && !ec);
	CHECK(other.get_many(numbers, 8, ec) && !ec && busy(other) == 12);
	CHECK(!hand.get_many<1>(ec) && !ec && !hand.get_many(numbers, 1, ec) && !ec);
	// Those that a get fills in are released.
	const std::uint32_t last = numbers[7];
	CHECK(!hand.adopt(last, ec) && ec == errc::not_held);
	CHECK(other.adopt(last, ec) && !ec);
	other.clear_batch(numbers, 7, ec);
	CHECK(!ec && busy(other) == 4);
	five.reset();
	CHECK(busy(other) == 0);
}

static void tags_pass_from_hand_to_hand()
{
	tags::pool pool(sized(4, 2), ec);
	tags::hand one = pool.join(ec);
	tags::hand other = pool.join(ec);
	std::optional<tags::tag> tag = one.get_write(70, ec);
	CHECK(tag && tag->read(ec) == 70 && tag->write(71, ec) == 70 && !ec);
	const std::uint32_t number = tag->post(ec);
	CHECK(!*tag && !ec && !one.holds(number, ec) && !ec);
	tags::tag taken = other.take(number, ec);
	CHECK(taken && taken.number() == number && taken.read_clear(ec) == 71 && !ec && !taken);
	CHECK(!other.take(number, ec) && ec == errc::not_posted);
	CHECK(busy(one) == 0);
}

static void batches_pass_from_hand_to_hand()
{
	tags::options options = sized(64, 2);
	options.shift = 6;
	tags::pool pool(options, ec);
	tags::hand one = pool.join_in_place(ec);
	tags::hand other = pool.join_in_place(ec);
	tags::batch batch = get_batch(one, 4);
	for (const std::uint32_t number : batch)
		batch.write(number, 10 * number, ec);
	CHECK(!ec && batch.write(2, 21, ec) == 20 && batch.read(2, ec) == 21 && !ec);
	const std::optional<tags::tag> first = batch.pop();
	const tags::numbers posted = batch.post(ec);
	CHECK(!ec && !batch && batch.begin() == batch.end() && batch.size() == 0);
	CHECK(posted && posted.size() == 3 && *posted.begin() == 1 && posted.has(3));
	CHECK(!posted.has(0) && !posted.has(4) && !one.holds(1, ec) && !ec);

	tags::batch taken = other.take_batch(posted, ec);
	CHECK(!ec && taken.size() == 3 && *taken.begin() == 1);
	CHECK(taken.read(1, ec) == 10 && taken.read(2, ec) == 21 && taken.read(3, ec) == 30 && !ec);
	CHECK(!one.take_batch(posted, ec) && ec == errc::not_posted);
	const tags::batch moved(std::move(taken));
	CHECK(!taken && !taken.post(ec) && ec == errc::bad_handle && busy(one) == 4);
	CHECK(moved.size() == 3 && other.holds(3, ec) && !ec);
}

// Tags of several batches and of several words are taken as one, or each alone.
static void batches_are_made_of_numbers()
{
	tags::pool pool(sized(70, 2, 2), ec);
	tags::hand one = pool.join_in_place(ec);
	tags::hand other = pool.join_in_place(ec);
	const tags::numbers low = get_batch(one, 2).post(ec);
	const tags::numbers high = get_batch(one, 16).post(ec);
	CHECK(!ec && low.first == 2 && low.mask == 3 && *high.begin() == 18);
	CHECK(other.take(18, ec).number() == 18 && !ec);
	CHECK(!other.take_batch(high, ec) && ec == errc::not_posted && busy(one) == 17);
	{
		const tags::batch both = other.take_batch({2, low.mask | 0xfffe0000}, ec);
		CHECK(!ec && both.size() == 17 && both.has(2) && both.has(19) && both.has(33));
	}
	CHECK(busy(one) == 0 && tags::numbers().size() == 0 && !tags::numbers());
}

// Nothing but the tags orders what the threads do to what lies beside them.
static void batches_order_what_lies_beside_them()
{
	tags::pool pool(sized(4, 2), ec);
	tags::hand hand = pool.join(ec);
	tags::hand other = pool.join(ec);
	std::uint32_t beside[4] = {};
	const tags::numbers all{0, 15};
	for (std::uint32_t number = 0; number < 4; number++)
		static_cast<void>(get(hand).release());
	std::thread taker([&] {
		std::error_code own;
		tags::batch taken;
		while (!taken)
			taken = other.take_batch(all, own);
		for (const std::uint32_t number : taken)
			CHECK(beside[number] == number + 1);
	});
	for (std::uint32_t &it : beside)
		it = static_cast<std::uint32_t>(&it - beside) + 1;
	for (const std::uint32_t number : all)
		CHECK(hand.adopt(number, ec).post(ec) == number && !ec);
	taker.join();
	CHECK(busy(hand) == 0);
}

static void caches()
{
	tags::options options = sized(1, 2);
	options.cache = 8;
	tags::pool pool(options, ec);
	tags::hand one = pool.join(ec);
	tags::hand other = pool.join(ec);
	get(one).clear();
	CHECK(!other.get(ec) && !ec && busy(other) == 1);
	one.flush(ec);
	get(other).clear();
	// A kept tag is no hindrance for a hand that ends.
	other = tags::hand();
	CHECK(busy(one) == 0);
	options.keep_while_holding = true;
	tags::pool keeping(options, ec);
	tags::hand first = keeping.join(ec);
	tags::hand second = keeping.join(ec);
	get(first).clear();
	get(second).clear();
}

static void count_call(void *calls)
{
	++*static_cast<int *>(calls);
}

static void waits_by_other_means()
{
	tags::pool pool(sized(1, 2), ec);
	tags::hand one = pool.join(ec);
	tags::hand other = pool.join(ec);
	tags::tag tag = get(one);
	int calls = 0;
	CHECK(!other.get_notified(count_call, &calls, ec) && !ec);
	CHECK(one.waiting(ec) == 1 && !ec && pool.waiting(ec) == 1 && !ec);
	tag.clear();
	CHECK(calls == 1);
	tag = *other.get_notified(count_call, &calls, ec);
	CHECK(!ec && tag && pool.waiting(ec) == 0);
	// A wait ends with the hand.
	CHECK(!one.get_notified(count_call, &calls, ec) && !ec);
	one.leave(ec);
	CHECK(!ec && pool.waiting(ec) == 0);
	tag.clear();
	CHECK(calls == 1);
}

// Ends an object, by a function that is called in a call of the object.
template <class T>
static void end_it(void *object)
{
	static_cast<std::unique_ptr<T> *>(object)->reset();
}

// A pool in which each tag is taken by the first hand, and the second one waits for what ends an object.
struct ending {
	tags::pool pool;
	tags::hand hand = pool.join(ec);
	tags::hand other = pool.join(ec);

	explicit ending(const tags::options &options) : pool(options, ec) {}

	template <class T>
	void wait_to_end(std::unique_ptr<T> &object)
	{
		CHECK(!other.get_notified(end_it<T>, &object, ec) && !ec);
	}

	// Whoever was told has the tag that went back.
	void check_end(bool is_over)
	{
		CHECK(is_over && other.get_notified(end_it<int>, nullptr, ec) && !ec);
	}
};

// Whoever is told that a tag went back may end the object that it was of. Who looks whether that is touched
// then is the address sanitizer.
static void a_function_ends_the_object()
{
	ending it(sized(1, 2));
	auto tag = std::make_unique<tags::tag>(get(it.hand));
	it.wait_to_end(tag);
	tag->clear();
	it.check_end(!tag);
	tag = std::make_unique<tags::tag>(get(it.hand));
	it.wait_to_end(tag);
	tag->read_clear(ec);
	it.check_end(!ec && !tag);
	tag = std::make_unique<tags::tag>(get(it.hand));
	it.wait_to_end(tag);
	*tag = tags::tag();
	it.check_end(!tag);
	auto batch = std::make_unique<tags::batch>(*it.hand.get_batch(1, ec));
	it.wait_to_end(batch);
	batch->clear();
	it.check_end(!batch);
	batch = std::make_unique<tags::batch>(*it.hand.get_batch(1, ec));
	it.wait_to_end(batch);
	*batch = tags::batch();
	it.check_end(!batch);
	const std::vector<std::uint32_t> list{get(it.hand).release()};
	auto sent = std::make_unique<std::vector<std::uint32_t>>(list);
	it.wait_to_end(sent);
	it.hand.clear_batch(sent->data(), sent->size(), ec);
	it.check_end(!ec && !sent);
}

// A hand that keeps a tag gives it back when it posts another one while somebody waits.
static void a_function_ends_what_is_posted()
{
	tags::options options = sized(3, 2);
	options.cache = 1;
	ending it(options);
	auto batch = std::make_unique<tags::batch>(*it.hand.get_batch(2, ec));
	get(it.hand).clear();
	it.wait_to_end(batch);
	CHECK(batch->post(ec).size() == 2 && !ec && !batch);
	options.total = 2;
	ending also(options);
	auto tag = std::make_unique<tags::tag>(get(also.hand));
	get(also.hand).clear();
	also.wait_to_end(tag);
	const std::uint32_t number = tag->number();
	CHECK(tag->post(ec) == number && !ec && !tag);
}

// Of hands that threads have as thread-local variables none stays out.
static void hands_of_threads()
{
	tags::pool pool(sized(4, 1), ec);
	for (int i = 0; i < 3; i++) {
		std::thread([&pool] {
			static thread_local tags::hand hand;
			std::error_code code;
			hand = pool.join(code);
			CHECK(!code && get(hand));
		}).join();
	}
	CHECK(pool.close(ec).back == 3 && !ec);
}

static void resizes()
{
	tags::pool pool(sized(16, 1, 2), ec);
	tags::hand hand = pool.join(ec);
	const std::uint32_t reserved = hand.get_reserved(ec)->release();
	{
		tags::tag tag = hand.adopt(reserved, ec);
		tag.write(5, ec);
	}
	get(hand).clear();
	pool.resize(32, ec);
	CHECK(ec == errc::hands_out);
	hand.leave(ec);
	pool.resize(32, ec);
	CHECK(!ec && pool.total() == 32 && pool.reserved() == 2);
	hand = pool.join(ec);
	CHECK(hand.show(tags::kind::ordinary, ec).depth == 30);
	hand.leave(ec);
	const tags::totals sums = pool.close(ec);
	CHECK(sums.got == 2 && sums.back == 2);
}

// A pool tells the same as a hand, while all hands are out.
static void a_pool_reports_without_a_hand()
{
	tags::pool pool(sized(70, 1, 2), ec);
	tags::hand hand = pool.join(ec);
	const tags::tag reserved = *hand.get_reserved(ec);
	const tags::tag tag = get(hand);
	std::uint64_t found[2] = {7, 7};
	std::uint64_t wanted[2] = {};
	CHECK(pool.busy(found, 2, ec) == 2 && !ec && hand.busy(wanted, 2, ec) == 2);
	CHECK(found[0] == wanted[0] && found[1] == wanted[1]);
	const tags::sizes sizes = pool.show(tags::kind::ordinary, ec);
	CHECK(!ec && sizes.depth == 68 && sizes.busy == 1 && sizes.bits_per_word == 16);
	CHECK(pool.show(tags::kind::reserved, ec).busy == 1 && pool.batch_limit() == 16);
	CHECK(pool.waiting(ec) == 0 && !ec && hand.waiting(ec) == 0 && !ec);
}

// A look at each busy tag, beside which the pool may be used.
static void a_pool_passes_each_busy_tag()
{
	tags::pool pool(sized(70, 1, 1), ec);
	std::vector<std::uint32_t> passed;
	auto note = [&](std::uint32_t number) { passed.push_back(number); };
	CHECK(pool.each_busy(note, ec) == 0 && !ec && passed.empty());
	tags::hand hand = pool.join_in_place(ec);
	std::vector<tags::tag> held;
	for (int i = 0; i < 69; i++)
		held.push_back(get(hand));
	const tags::tag reserved = *hand.get_reserved(ec);
	held.erase(held.begin() + 1, held.begin() + 64);
	const std::vector<std::uint32_t> wanted = {0, 1, 65, 66, 67, 68, 69};
	CHECK(pool.each_busy(note, ec) == 7 && !ec && passed == wanted);
	auto stops = [&](std::uint32_t number) { return number < 65; };
	CHECK(pool.each_busy(stops, ec) == 3 && !ec);
	auto gives_back = [&](std::uint32_t) {
		held.clear();
		return pool.show(tags::kind::ordinary, ec).busy == 0 && pool.total() == 70;
	};
	CHECK(pool.each_busy(gives_back, ec) == 7 && pool.each_busy(note, ec) == 1 && !ec);
}

// The notes of tags, alone and in batches, until they go back; a posted tag keeps its own.
static void a_pool_passes_each_note()
{
	tags::options options = sized(200, 3, 1);
	options.notes = true;
	tags::pool pool(options, ec);
	std::vector<std::uint64_t> passed;
	const auto before = std::chrono::steady_clock::now();
	auto take = [&](std::uint32_t number, const std::optional<tags::noted> &note) {
		passed.push_back(note ? note->value : 1000 + number);
		CHECK(!note || (note->since >= before && note->since <= std::chrono::steady_clock::now()));
	};
	tags::hand hand = pool.join_in_place(ec);
	tags::hand other = pool.join_in_place(ec);
	CHECK(pool.each_noted(take, ec) == 0 && !ec && passed.empty());
	tags::tag reserved = *hand.get_reserved(ec);
	reserved.note(70, ec);
	tags::batch batch = *hand.get_batch(3, ec);
	batch.note(2, 71, ec);
	CHECK(!ec && pool.each_noted(take, ec) == 4 && !ec);
	CHECK(passed == std::vector<std::uint64_t>({70, 1001, 71, 1003}));
	passed.clear();
	reserved.note(72, ec);
	tags::tag second = *batch.extract(2);
	batch.clear();
	CHECK(pool.each_noted(take, ec) == 2 && passed == std::vector<std::uint64_t>({72, 71}));
	passed.clear();
	const std::uint32_t number = second.post(ec);
	CHECK(pool.each_noted(take, ec) == 2 && passed == std::vector<std::uint64_t>({72, 71}));
	passed.clear();
	tags::tag taken = other.take(number, ec);
	reserved.read_clear(ec);
	CHECK(pool.each_noted(take, ec) == 1 && passed == std::vector<std::uint64_t>({71}));
	taken.clear();
	CHECK(pool.each_noted(take, ec) == 0 && !ec);
	std::vector<tags::tag> held;
	for (int i = 0; i < 199; i++) {
		held.push_back(get(hand));
		held.back().note(held.back().number(), ec);
	}
	passed.clear();
	CHECK(pool.each_noted(take, ec) == 199 && passed.front() == 1 && passed.back() == 199);
	auto stops = [](std::uint32_t at, const auto &note) { return note->value == at && at < 100; };
	CHECK(pool.each_noted(stops, ec) == 100 && !ec);
	auto gives_back = [&](std::uint32_t, const auto &) { held.clear(); };
	CHECK(pool.each_noted(gives_back, ec) == 64 && pool.each_noted(take, ec) == 0 && !ec);
	tags::shared_hands hands = pool.share(1, ec);
	tags::shared_tag shared = *hands.get(ec);
	shared.note(80, ec);
	passed.clear();
	CHECK(!ec && pool.each_noted(take, ec) == 1 && passed == std::vector<std::uint64_t>({80}));
}

static void options_are_passed_on()
{
	tags::options options = sized(6, 1);
	options.round_robin = true;
	options.shift = 1;
	tags::pool pool(options, ec);
	tags::hand hand = pool.join(ec);
	const std::uint32_t wanted[] = {0, 1, 2, 3, 4, 0, 1, 2, 3, 5};
	for (const std::uint32_t number : wanted)
		CHECK(get(hand).number() == number);
	CHECK(!hand.get_batch(2, ec) && !ec);
	options = sized(3, 1);
	options.shift = 0;
	tags::pool alone(options, ec);
	CHECK(alone.join(ec).show(tags::kind::ordinary, ec).bits_per_word == 1 && !ec);
	tags::options many = sized(1024, 64);
	CHECK(tags::pool(many, ec).batch_limit() == 16 && !ec);
	many.shift_as_kernel = true;
	CHECK(tags::pool(many, ec).batch_limit() == 64 && !ec);
	many.shift = 3;
	CHECK(tags::pool(many, ec).batch_limit() == 8 && !ec);
	options.shift = 2;
	options.min_shallow = 2;
	tags::pool shallow(options, ec);
	tags::hand low = shallow.join(ec);
	CHECK(!low.get_shallow(1, ec) && ec == errc::too_shallow && low.get_shallow(2, ec) && !ec);
}

static void native_handles()
{
	tags::pool pool(sized(4, 1), ec);
	tags::hand hand = pool.join(ec);
	const std::int32_t tag = tags_get(hand.native_handle());
	CHECK(tag == 0 && tags_clear(hand.native_handle(), 0) == 0);
	CHECK(tags_stop(pool.native_handle()) == TAGS_OK);
	CHECK(tags::hand().native_handle() == nullptr && tags::pool().native_handle() == nullptr);
}

int main()
{
	each_end_gives_tags_back();
	tags_move();
	hands_move_while_their_tags_are_out();
	a_hand_goes_to_another_thread();
	a_pool_lives_until_its_hands_end();
	released_tags_are_adopted();
	batches();
	several_tags_or_none();
	tags_pass_from_hand_to_hand();
	batches_pass_from_hand_to_hand();
	batches_are_made_of_numbers();
	batches_order_what_lies_beside_them();
	caches();
	waits_by_other_means();
	hands_of_threads();
	a_function_ends_the_object();
	a_function_ends_what_is_posted();
	resizes();
	a_pool_reports_without_a_hand();
	a_pool_passes_each_busy_tag();
	a_pool_passes_each_note();
	options_are_passed_on();
	native_handles();
	return report();
}
