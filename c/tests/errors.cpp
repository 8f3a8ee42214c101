// Each refusal of tags.hpp has its reason, in both forms of its call, and changes nothing; and what
// an error is to a program.
#include "check.hpp"
#include "sleeps.h"

#include <chrono>
#include <limits>
#include <thread>

using tags::errc;
using namespace std::chrono_literals;

static_assert(std::is_error_code_enum_v<errc> && !std::is_error_condition_enum_v<errc>);
static_assert(std::is_base_of_v<std::system_error, tags::error>);

static std::error_code ec;

static void errors_have_texts()
{
	CHECK(std::string(tags::category().name()) == "tags");
	for (std::int32_t status = TAGS_NO_SUCH_QUEUE; status < 0; status++) {
		const std::error_code code = static_cast<errc>(status);
		CHECK(code && code.value() == status && code.category() == tags::category());
		CHECK(code.message() == tags_strerror(status));
	}
	const std::error_code code = errc::no_hand;
	CHECK(code.message() == "all hands of the pool are out" && code == errc::no_hand &&
	      code != errc::in_use);
	CHECK(code.message() == tags::make_error_code(errc::no_hand).message());
	CHECK(std::error_code(errc::no_memory) == std::errc::not_enough_memory);
	CHECK(std::error_code(errc::stopped) == std::errc::operation_canceled);
	CHECK(std::error_code(errc::no_tag) != std::errc::operation_canceled);
	CHECK(tags::category().message(0) == "done" &&
	      tags::category().message(-99) == tags_strerror(-99));
	const tags::error thrown(errc::not_held);
	CHECK(thrown.code() == errc::not_held &&
	      std::string(thrown.what()) == tags_strerror(TAGS_NOT_HELD));
}

static void pools_that_do_not_open()
{
	const auto opened = [](const tags::options &options) {
		return refusal([&](auto &...code) {
			tags::pool pool(options, code...);
			CHECK(!pool);
		});
	};
	tags::options options = sized(4, 1);
	CHECK(opened(sized(10241, 1)) == errc::total_too_large);
	CHECK(opened(sized(4, 1, 5)) == errc::reserved_too_large);
	CHECK(opened(sized(4, 0)) == errc::bad_hand_count &&
	      opened(sized(4, 65)) == errc::bad_hand_count);
	for (const std::uint32_t shift : {7U, 31U, 32U, 0x80000000U, 0xffffffffU}) {
		options.shift = shift;
		CHECK(opened(options) == errc::shift_too_large);
	}
	options = sized(4, 1);
	options.cache = 65;
	CHECK(opened(options) == errc::cache_too_large);
	options = sized(4, 1);
	options.queues = 65;
	CHECK(opened(options) == errc::bad_queue_count);
	CHECK(opened(tags::options()) == errc::bad_hand_count);
}

static void ignore(void *) {}

// Of each call on an object that is empty.
static void empty_objects()
{
	tags::pool pool;
	tags::hand hand;
	tags::tag tag;
	tags::batch batch;
	std::uint64_t bits = 0;
	const std::uint32_t number = 0;
	std::uint32_t filled = 0;
	const auto soon = std::chrono::steady_clock::now() + 1ms;

	REFUSED(errc::bad_handle, pool.join(CODE));
	REFUSED(errc::bad_handle, pool.join_in_place(CODE));
	REFUSED(errc::bad_handle, pool.resize(4, CODE));
	REFUSED(errc::bad_handle, pool.stop(CODE));
	REFUSED(errc::bad_handle, pool.busy(&bits, 1, CODE));
	REFUSED(errc::bad_handle, pool.each_busy([](std::uint32_t) { CHECK(false); }, CODE));
	REFUSED(errc::bad_handle, pool.each_noted([](std::uint32_t, const auto &) { CHECK(false); }, CODE));
	REFUSED(errc::bad_handle, pool.show(tags::kind::ordinary, CODE));
	REFUSED(errc::bad_handle, pool.waiting(CODE));
	REFUSED(errc::bad_handle, pool.queued(0, CODE));
	REFUSED(errc::bad_handle, pool.close(CODE));
	REFUSED(errc::bad_handle, hand.leave(CODE));
	REFUSED(errc::bad_handle, hand.get(CODE));
	REFUSED(errc::bad_handle, hand.get_write(1, CODE));
	REFUSED(errc::bad_handle, hand.get_reserved(CODE));
	REFUSED(errc::bad_handle, hand.get_shallow(1, CODE));
	REFUSED(errc::bad_handle, hand.get_exactly(1, CODE));
	REFUSED(errc::bad_handle, hand.get_batch(1, CODE));
	REFUSED(errc::bad_handle, hand.get_many<1>(CODE));
	REFUSED(errc::bad_handle, hand.get_many(&filled, 1, CODE));
	REFUSED(errc::bad_handle, hand.get_many(nullptr, 0, CODE));
	REFUSED(errc::bad_handle, hand.get_blocking(CODE));
	REFUSED(errc::bad_handle, hand.try_get_for(1ms, CODE));
	REFUSED(errc::bad_handle, hand.try_get_until(soon, CODE));
	REFUSED(errc::bad_handle, hand.get_async(0, CODE));
	REFUSED(errc::bad_handle, hand.cancel(CODE));
	REFUSED(errc::bad_handle, hand.get_notified(ignore, nullptr, CODE));
	REFUSED(errc::bad_handle, hand.get_reserved_blocking(CODE));
	REFUSED(errc::bad_handle, hand.try_get_reserved_for(1ms, CODE));
	REFUSED(errc::bad_handle, hand.try_get_reserved_until(soon, CODE));
	REFUSED(errc::bad_handle, hand.get_reserved_async(0, CODE));
	REFUSED(errc::bad_handle, hand.get_reserved_notified(ignore, nullptr, CODE));
	REFUSED(errc::bad_handle, hand.next(0, CODE));
	REFUSED(errc::bad_handle, hand.next_blocking(0, CODE));
	REFUSED(errc::bad_handle, hand.try_next_for(0, 1ms, CODE));
	REFUSED(errc::bad_handle, hand.try_next_until(0, soon, CODE));
	REFUSED(errc::bad_handle, hand.next_async(0, 0, CODE));
	REFUSED(errc::bad_handle, hand.next_notified(0, ignore, nullptr, CODE));
	REFUSED(errc::bad_handle, hand.cancel_next(0, CODE));
	REFUSED(errc::bad_handle, hand.take(0, CODE));
	REFUSED(errc::bad_handle, hand.take_batch({0, 1}, CODE));
	REFUSED(errc::bad_handle, batch.read(0, CODE));
	REFUSED(errc::bad_handle, batch.write(0, 1, CODE));
	REFUSED(errc::bad_handle, batch.note(0, 1, CODE));
	REFUSED(errc::bad_handle, batch.post(CODE));
	REFUSED(errc::bad_handle, batch.submit(CODE));
	REFUSED(errc::bad_handle, hand.adopt(0, CODE));
	REFUSED(errc::bad_handle, hand.clear_batch(&number, 1, CODE));
	REFUSED(errc::bad_handle, hand.holds(0, CODE));
	REFUSED(errc::bad_handle, hand.flush(CODE));
	REFUSED(errc::bad_handle, hand.busy(&bits, 1, CODE));
	REFUSED(errc::bad_handle, hand.show(tags::kind::ordinary, CODE));
	REFUSED(errc::bad_handle, hand.waiting(CODE));
	REFUSED(errc::bad_handle, tag.read(CODE));
	REFUSED(errc::bad_handle, tag.write(1, CODE));
	REFUSED(errc::bad_handle, tag.note(1, CODE));
	REFUSED(errc::bad_handle, tag.read_clear(CODE));
	REFUSED(errc::bad_handle, tag.post(CODE));
	REFUSED(errc::bad_handle, tag.submit(CODE));
	CHECK(!tags::batch().pop() && tags::batch().size() == 0);
}

static void hands_and_pools()
{
	tags::pool pool(sized(4, 1, 1), ec);
	tags::hand hand = pool.join(ec);
	REFUSED(errc::no_hand, pool.join(CODE));
	REFUSED(errc::no_hand, pool.join_in_place(CODE));
	REFUSED(errc::hands_out, pool.resize(8, CODE));
	REFUSED(errc::hands_out, pool.close(CODE));
	tags::tag tag = *hand.get(ec);
	REFUSED(errc::in_use, hand.leave(CODE));
	CHECK(tag && hand.holds(tag.number(), ec));
	const std::uint32_t posted = tag.post(ec);
	hand.leave(ec);
	REFUSED(errc::in_use, pool.resize(8, CODE));
	REFUSED(errc::reserved_too_large, pool.resize(0, CODE));
	REFUSED(errc::total_too_large, pool.resize(10241, CODE));
	hand = pool.join(ec);
	hand.take(posted, ec).clear();
	hand.leave(ec);
	CHECK(!ec && pool.total() == 4);
	tags::batch batch;
	hand = pool.join(ec);
	batch = *hand.get_batch(1, ec);
	REFUSED(errc::in_use, hand.leave(CODE));
	batch.clear();
}

static void gets()
{
	tags::options options = sized(12, 2);
	options.shift = 2;
	options.min_shallow = 3;
	tags::pool pool(options, ec);
	tags::hand hand = pool.join(ec);
	REFUSED(errc::no_reserved, hand.get_reserved(CODE));
	REFUSED(errc::no_reserved, hand.get_reserved_blocking(CODE));
	REFUSED(errc::no_reserved, hand.try_get_reserved_for(1h, CODE));
	REFUSED(errc::no_reserved, hand.get_reserved_async(0, CODE));
	REFUSED(errc::too_shallow, hand.get_shallow(0, CODE));
	REFUSED(errc::too_shallow, hand.get_shallow(2, CODE));
	REFUSED(errc::bad_count, hand.get_batch(0, CODE));
	REFUSED(errc::bad_count, hand.get_many<13>(CODE));
	std::uint32_t number = 77;
	REFUSED(errc::bad_count, hand.get_many(&number, 13, CODE));
	REFUSED(errc::bad_count, hand.get_many(nullptr, 1, CODE));
	CHECK(number == 77);
	REFUSED(errc::no_such_tag, hand.get_exactly(12, CODE));
	CHECK(hand.show(tags::kind::ordinary, ec).busy == 0);
	tags::pool reserved(sized(2, 1, 2), ec);
	hand = reserved.join(ec);
	const tags::tag one = *hand.get_reserved(ec);
	const tags::tag other = *hand.get_reserved(ec);
	// None is free, which is no error.
	CHECK(refusal([&](auto &...code) { CHECK(!hand.get_reserved(code...)); }) ==
	      std::error_code());
	CHECK(refusal([&](auto &...code) { CHECK(!hand.get_exactly(1, code...)); }) ==
	      std::error_code());
	CHECK(refusal([&](auto &...code) { CHECK(!hand.get(code...)); }) == std::error_code());
	CHECK(refusal([&](auto &...code) { CHECK(!hand.get_write(1, code...)); }) ==
	      std::error_code());
	CHECK(refusal([&](auto &...code) { CHECK(!hand.get_batch(1, code...)); }) ==
	      std::error_code());
	CHECK(refusal([&](auto &...code) { CHECK(!hand.get_shallow(1, code...)); }) ==
	      std::error_code());
	REFUSED(errc::no_such_tag, hand.get_blocking(CODE));
	REFUSED(errc::no_such_tag, hand.try_get_for(1h, CODE));
	REFUSED(errc::no_such_tag, hand.get_async(0, CODE));
}

static void tags_of_others()
{
	tags::pool pool(sized(8, 2, 2), ec);
	tags::hand one = pool.join(ec);
	tags::hand other = pool.join(ec);
	const tags::tag tag = *one.get(ec);
	const std::uint32_t number = tag.number();
	REFUSED(errc::no_such_tag, one.take(8, CODE));
	REFUSED(errc::not_posted, other.take(number, CODE));
	REFUSED(errc::no_such_tag, one.adopt(8, CODE));
	REFUSED(errc::no_such_tag, one.adopt(0xffffffff, CODE));
	REFUSED(errc::not_held, one.adopt(number, CODE));
	REFUSED(errc::not_held, other.adopt(number, CODE));
	REFUSED(errc::no_such_tag, one.holds(8, CODE));
	CHECK(one.holds(number, ec) && !other.holds(number, ec) && !ec);
	std::uint64_t bits = 0;
	REFUSED(errc::too_small, one.busy(&bits, 0, CODE));
	REFUSED(errc::too_small, one.busy(nullptr, 1, CODE));
}

static void batches_of_numbers()
{
	tags::pool pool(sized(128, 2, 2), ec);
	tags::hand hand = pool.join_in_place(ec);
	std::uint32_t many[65] = {};
	for (std::uint32_t &number : many)
		number = hand.get(ec)->release();
	const tags::tag kept = *hand.get(ec);
	const std::uint32_t reserved = hand.get_reserved(ec)->release();
	const std::uint32_t twice[] = {many[0], many[1], many[0]};
	const std::uint32_t with_object[] = {many[0], kept.number()};
	const std::uint32_t with_reserved[] = {many[0], reserved};
	const std::uint32_t beyond[] = {many[0], kept.number(), 128};
	REFUSED(errc::bad_count, hand.clear_batch(many, 0, CODE));
	REFUSED(errc::bad_count, hand.clear_batch(many, 65, CODE));
	REFUSED(errc::bad_count, hand.clear_batch(nullptr, 1, CODE));
	REFUSED(errc::not_held, hand.clear_batch(twice, 3, CODE));
	REFUSED(errc::not_held, hand.clear_batch(with_object, 2, CODE));
	REFUSED(errc::no_such_tag, hand.clear_batch(with_reserved, 2, CODE));
	REFUSED(errc::no_such_tag, hand.clear_batch(beyond, 3, CODE));
	std::uint64_t bits[2] = {};
	CHECK(hand.busy(bits, 2, ec) == 67);
	hand.clear_batch(many, 64, ec);
	CHECK(!ec && hand.busy(bits, 2, ec) == 3);
	tags::tag last = hand.adopt(many[64], ec);
	CHECK(last && hand.adopt(reserved, ec) && !ec);
}

// Each takes or posts nothing.
static void batches_that_pass()
{
	tags::pool pool(sized(12, 2, 2), ec);
	tags::hand hand = pool.join_in_place(ec);
	tags::hand other = pool.join_in_place(ec);
	tags::batch batch = *hand.get_batch(2, ec);
	CHECK(batch.size() == 2 && batch.has(2) && batch.has(3));
	REFUSED(errc::no_such_tag, batch.read(4, CODE));
	REFUSED(errc::no_such_tag, batch.write(1, 7, CODE));
	REFUSED(errc::no_such_tag, batch.note(1, 7, CODE));
	REFUSED(errc::no_notes, batch.note(2, 7, CODE));
	REFUSED(errc::no_notes, pool.each_noted([](std::uint32_t, const auto &) { CHECK(false); }, CODE));
	REFUSED(errc::not_posted, other.take_batch({2, 3}, CODE));
	tags::batch moved = std::move(batch);
	REFUSED(errc::bad_handle, batch.post(CODE));
	REFUSED(errc::bad_handle, batch.read(2, CODE));
	const tags::numbers posted = moved.post(ec);
	const std::uint32_t reserved = hand.get_reserved(ec)->post(ec);
	CHECK(!ec && reserved == 0);
	REFUSED(errc::bad_count, other.take_batch({}, CODE));
	REFUSED(errc::bad_count, other.take_batch({2, 0}, CODE));
	REFUSED(errc::no_such_tag, other.take_batch({0, 13}, CODE));
	REFUSED(errc::no_such_tag, other.take_batch({2, 0x403}, CODE));
	REFUSED(errc::no_such_tag, other.take_batch({0xffffffff, 3}, CODE));
	REFUSED(errc::no_such_tag, other.take_batch({0xffffffff, 16}, CODE));
	REFUSED(errc::not_posted, other.take_batch({2, 7}, CODE));
	CHECK(!other.holds(2, ec) && !other.holds(3, ec));
	const tags::batch taken = other.take_batch(posted, ec);
	CHECK(!ec && taken.size() == 2 && other.take(reserved, ec) && !ec);
}

static void waits()
{
	tags::pool pool(sized(1, 2), ec);
	tags::hand one = pool.join(ec);
	tags::hand other = pool.join(ec);
	const tags::tag tag = *one.get(ec);
	REFUSED(errc::bad_event, other.get_async(-1, CODE));
	REFUSED(errc::not_waiting, other.cancel(CODE));
	REFUSED(errc::bad_handle, other.get_notified(nullptr, nullptr, CODE));
	CHECK(!other.get_notified(ignore, nullptr, ec) && !ec);
	REFUSED(errc::waiting, other.get_blocking(CODE));
	REFUSED(errc::waiting, other.try_get_for(1h, CODE));
	other.cancel(ec);
	CHECK(!other.get_async(0, ec) && !ec);
	REFUSED(errc::waiting, other.get_blocking(CODE));
	other.cancel(ec);
	CHECK(!ec);
	REFUSED(errc::not_waiting, other.cancel(CODE));
	CHECK(!other.get_async(0, ec) && !ec);
	other = tags::hand();
	other = pool.join(ec);
	pool.stop(ec);
	CHECK(!ec);
	REFUSED(errc::stopped, other.get_blocking(CODE));
	REFUSED(errc::stopped, other.try_get_for(1h, CODE));
	REFUSED(errc::stopped, other.try_get_until(std::chrono::system_clock::now(), CODE));
	REFUSED(errc::stopped, other.get_async(0, CODE));
	CHECK(!other.get(ec) && !ec);
}

// A hand waits for a tag of one set at a time, but gets those that are free.
static void waits_for_one_set()
{
	tags::pool pool(sized(2, 2, 1), ec);
	tags::hand one = pool.join(ec);
	tags::hand other = pool.join(ec);
	const tags::tag reserved = one.get_reserved_blocking(ec);
	tags::tag tag = one.get_blocking(ec);
	CHECK(!ec && reserved.number() == 0 && tag.number() == 1);
	REFUSED(errc::bad_event, other.get_reserved_async(-1, CODE));
	REFUSED(errc::bad_handle, other.get_reserved_notified(nullptr, nullptr, CODE));
	CHECK(!other.get_reserved_notified(ignore, nullptr, ec) && !ec);
	REFUSED(errc::waiting, other.get_async(0, CODE));
	REFUSED(errc::waiting, other.get_notified(ignore, nullptr, CODE));
	REFUSED(errc::waiting, other.get_blocking(CODE));
	REFUSED(errc::waiting, other.get_reserved_blocking(CODE));
	REFUSED(errc::waiting, other.try_get_reserved_for(1h, CODE));
	tag.clear();
	tag = *other.get_notified(ignore, nullptr, ec);
	CHECK(!ec && pool.waiting(ec) == 1);
	other.cancel(ec);
	CHECK(!ec && !other.get_async(0, ec) && !ec);
	REFUSED(errc::waiting, other.get_reserved_async(0, CODE));
	other.cancel(ec);
	CHECK(!ec);
	pool.stop(ec);
	REFUSED(errc::stopped, other.get_reserved_blocking(CODE));
	REFUSED(errc::stopped, other.try_get_reserved_until(std::chrono::system_clock::now(), CODE));
	REFUSED(errc::stopped, other.get_reserved_async(0, CODE));
}

static void a_stop_ends_waits()
{
	tags::pool pool(sized(1, 3), ec);
	tags::hand holder = pool.join(ec);
	const tags::tag tag = *holder.get(ec);
	tags::hand hands[] = {pool.join(ec), pool.join(ec)};
	std::thread blocked([&] { REFUSED(errc::stopped, hands[0].get_blocking(CODE)); });
	std::thread timed([&] { REFUSED(errc::stopped, hands[1].try_get_for(1h, CODE)); });
	await_asleep(2);
	pool.stop(ec);
	blocked.join();
	timed.join();
}

int main()
{
	errors_have_texts();
	pools_that_do_not_open();
	empty_objects();
	hands_and_pools();
	gets();
	tags_of_others();
	batches_of_numbers();
	batches_that_pass();
	waits();
	waits_for_one_set();
	a_stop_ends_waits();
	return report();
}
