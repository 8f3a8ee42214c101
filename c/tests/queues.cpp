// Queues of submitted tags: their order, with slots and values; whose a tag is before and after; each way to wait, and
// what ends a wait; each refusal; and threads that hand requests over. (For the library see queues.c.) queues [ROUNDS]
#include "check.hpp"
#include "sleeps.h"

#include <chrono>
#include <cstdlib>
#include <memory>
#include <sys/eventfd.h>
#include <thread>
#include <unistd.h>
#include <vector>

using namespace std::chrono_literals;
using tags::errc;

static std::error_code failure;

static tags::options queued(std::uint32_t total, std::uint32_t hands, std::uint32_t queues, std::uint32_t reserved = 0)
{
	tags::options made = sized(total, hands, reserved);
	made.queues = queues;
	return made;
}

// Gets a tag, writes this to its slot, and submits it. Returns its number.
static std::uint32_t send(tags::hand &hand, std::uint32_t queue, std::uint64_t value)
{
	tags::tag tag = *hand.get_write(value, failure);
	const std::uint32_t number = tag.submit(queue, failure);
	CHECK(!failure && !tag && !hand.holds(number, failure));
	return number;
}

// The value of the next tag of a queue, which goes back; 0 if there is none.
static std::uint64_t receive(tags::hand &hand, std::uint32_t queue)
{
	std::optional<tags::tag> tag = hand.next(queue, failure);
	CHECK(!failure);
	return tag ? tag->read_clear(failure) : 0;
}

static void tags_leave_in_order()
{
	tags::pool pool(queued(8, 2, 2), failure);
	tags::hand one = pool.join(failure);
	tags::hand other = pool.join(failure);
	CHECK(!one.next(0, failure) && !failure && pool.queued(0, failure) == 0);
	for (std::uint64_t lap = 0; lap < 20; lap++) {
		for (std::uint64_t i = 1; i <= 6; i++)
			send(i % 2 == 0 ? one : other, i == 6 ? 1 : 0, 10 * lap + i);
		CHECK(pool.queued(0, failure) == 5 && pool.queued(1, failure) == 1 && !failure);
		CHECK(receive(other, 1) == 10 * lap + 6);
		for (std::uint64_t i = 1; i <= 5; i++)
			CHECK(receive(i % 3 == 0 ? other : one, 0) == 10 * lap + i);
		CHECK(receive(one, 0) == 0 && receive(one, 1) == 0);
	}
}

static void a_tag_is_its_holders()
{
	tags::pool pool(queued(4, 2, 1, 1), failure);
	tags::hand one = pool.join(failure);
	tags::hand other = pool.join(failure);
	tags::tag tag = *one.get_reserved(failure);
	const std::uint32_t number = tag.number();
	CHECK(tag.submit(failure) == number && !failure && !tag);
	CHECK(!one.holds(number, failure) && pool.show(tags::kind::reserved, failure).busy == 1);
	REFUSED(errc::not_posted, other.take(number, CODE));
	REFUSED(errc::not_held, one.adopt(number, CODE));
	one.leave(failure);
	CHECK(!failure);
	tags::tag taken = *other.next(0, failure);
	CHECK(!failure && taken.number() == number && other.holds(number, failure) && pool.queued(0, failure) == 0);
	REFUSED(errc::in_use, other.leave(CODE));
	// It can be let go, posted and submitted again, as any tag.
	taken = other.adopt(taken.release(), failure);
	taken = other.take(taken.post(failure), failure);
	taken.submit(failure);
	CHECK(!failure && other.next(0, failure)->number() == number);
	CHECK(pool.show(tags::kind::reserved, failure).busy == 0);
	one = pool.join(failure);
	REFUSED(errc::not_posted, one.take(number, CODE));
}

static void what_is_left_in_a_queue()
{
	tags::pool pool(queued(4, 1, 1), failure);
	tags::hand hand = pool.join(failure);
	send(hand, 0, 7);
	hand.leave(failure);
	REFUSED(errc::in_use, pool.resize(8, CODE));
	hand = pool.join(failure);
	CHECK(receive(hand, 0) == 7);
	send(hand, 0, 8);
	hand.leave(failure);
	const tags::totals sums = pool.close(failure);
	CHECK(!failure && sums.got == 2 && sums.back == 1 && sums.posted == 1 && sums.held == 0);
}

static void batches()
{
	tags::pool pool(queued(64, 2, 2), failure);
	tags::hand one = pool.join_in_place(failure);
	tags::hand other = pool.join_in_place(failure);
	tags::batch batch = *one.get_batch(4, failure);
	for (const std::uint32_t number : batch)
		batch.write(number, 100 + number, failure);
	CHECK(batch.extract(1));
	REFUSED(errc::no_such_queue, batch.submit(2, CODE));
	CHECK(batch.size() == 3 && one.holds(3, failure) && pool.queued(0, failure) == 0);
	const tags::numbers sent = batch.submit(1, failure);
	CHECK(!failure && !batch && sent.size() == 3 && sent.has(0) && !sent.has(1) && pool.queued(1, failure) == 3);
	for (const std::uint32_t number : sent)
		CHECK(receive(other, 1) == 100 + number);
	REFUSED(errc::bad_handle, batch.submit(CODE));
	batch = *one.get_batch(1, failure);
	batch.submit(failure);
	CHECK(!failure && other.next(0, failure)->number() == 0);
	CHECK(pool.show(tags::kind::ordinary, failure).busy == 0);
}

static void values_pass_with_their_tags()
{
	tags::pool pool(queued(8, 2, 1), failure);
	const tags::values<std::vector<int>> values(pool, failure);
	tags::hand one = pool.join(failure);
	tags::hand other = pool.join(failure);
	for (int i = 1; i <= 4; i++) {
		tags::tag tag = *one.get(failure);
		values[tag].assign(static_cast<std::size_t>(i), i);
		tag.submit(failure);
		CHECK(!failure && values.at(tag, failure) == nullptr && failure == errc::no_such_tag);
	}
	for (int i = 1; i <= 4; i++) {
		const tags::tag tag = other.next_blocking(0, failure);
		CHECK(!failure && values[tag] == std::vector<int>(static_cast<std::size_t>(i), i));
		CHECK(values.at(tag, failure) == &values[tag] && !failure);
	}
}

static void ignore(void *) {}

static void refusals()
{
	tags::pool pool(queued(4, 2, 2), failure);
	tags::hand hand = pool.join(failure);
	const auto soon = std::chrono::steady_clock::now() + 1ms;
	tags::tag tag = *hand.get_write(9, failure);
	REFUSED(errc::no_such_queue, tag.submit(2, CODE));
	CHECK(tag && tag.read(failure) == 9 && hand.holds(tag.number(), failure) && pool.queued(1, failure) == 0);
	REFUSED(errc::no_such_queue, hand.next(2, CODE));
	REFUSED(errc::no_such_queue, hand.next_blocking(2, CODE));
	REFUSED(errc::no_such_queue, hand.try_next_for(2, 1ms, CODE));
	REFUSED(errc::no_such_queue, hand.try_next_until(2, soon, CODE));
	REFUSED(errc::no_such_queue, hand.next_async(2, 0, CODE));
	REFUSED(errc::no_such_queue, hand.next_notified(2, ignore, nullptr, CODE));
	REFUSED(errc::no_such_queue, hand.cancel_next(2, CODE));
	REFUSED(errc::no_such_queue, pool.queued(2, CODE));
	REFUSED(errc::bad_event, hand.next_async(0, -1, CODE));
	REFUSED(errc::bad_handle, hand.next_notified(0, nullptr, nullptr, CODE));
	REFUSED(errc::not_waiting, hand.cancel_next(0, CODE));
	REFUSED(errc::bad_queue_count, pool.share(1, CODE));
	// That there is none is no error.
	REFUSED(std::error_code(), hand.next(1, CODE));
	REFUSED(std::error_code(), hand.try_next_for(1, 0ms, CODE));
	tags::tag moved = std::move(tag);
	REFUSED(errc::bad_handle, tag.submit(1, CODE));
	moved.submit(1, failure);
	CHECK(!failure && receive(hand, 1) == 9);
	tags::pool without(sized(4, 1), failure);
	hand = without.join(failure);
	tag = *hand.get(failure);
	REFUSED(errc::no_such_queue, tag.submit(CODE));
	REFUSED(errc::no_such_queue, hand.next(0, CODE));
	REFUSED(errc::no_such_queue, without.queued(0, CODE));
	CHECK(tag);
}

static void limits_in_time()
{
	tags::pool pool(queued(4, 2, 1), failure);
	tags::hand hand = pool.join(failure);
	const auto begin = std::chrono::steady_clock::now();
	CHECK(!hand.try_next_for(0, 20ms, failure) && !failure);
	CHECK(!hand.try_next_until(0, std::chrono::steady_clock::now() + 20ms, failure) && !failure);
	CHECK(!hand.try_next_until(0, std::chrono::system_clock::now() - 1h, failure) && !failure);
	CHECK(std::chrono::steady_clock::now() - begin >= 40ms);
	for (int i = 0; i < 3; i++) {
		tags::hand submitter = pool.join(failure);
		std::thread thread([&submitter] {
			await_asleep(1);
			std::error_code own;
			tags::tag tag = *submitter.get_write(5, own);
			tag.submit(own);
			CHECK(!own);
		});
		std::optional<tags::tag> tag;
		if (i == 0)
			tag = hand.next_blocking(0, failure);
		else if (i == 1)
			tag = hand.try_next_for(0, 1h, failure);
		else
			tag = hand.try_next_until(0, std::chrono::system_clock::now() + 1h, failure);
		CHECK(!failure && tag && tag->read_clear(failure) == 5);
		thread.join();
	}
}

static void count_call(void *calls) { *static_cast<int *>(calls) += 1; }

static std::uint64_t told(int event)
{
	std::uint64_t count = 0;
	return read(event, &count, sizeof(count)) == sizeof(count) ? count : 0;
}

// A hand waits in two queues, and for a free tag, at once.
static void hands_are_notified()
{
	tags::pool pool(queued(2, 2, 2), failure);
	tags::hand one = pool.join(failure);
	tags::hand other = pool.join(failure);
	const int event = eventfd(0, EFD_NONBLOCK);
	int calls = 0, free_tags = 0;
	tags::tag held[] = {*one.get_write(1, failure), *one.get_write(2, failure)};
	CHECK(!other.next_async(0, event, failure) && !failure);
	CHECK(!other.next_notified(1, count_call, &calls, failure) && !failure);
	CHECK(!other.get_notified(count_call, &free_tags, failure) && !failure && pool.waiting(failure) == 3);
	REFUSED(errc::waiting, other.next_blocking(0, CODE));
	REFUSED(errc::waiting, other.try_next_for(1, 1h, CODE));
	held[0].submit(failure);
	CHECK(told(event) == 1 && calls == 0);
	held[1].submit(1, failure);
	CHECK(told(event) == 0 && calls == 1 && free_tags == 0);
	CHECK(other.next_async(0, event, failure)->read_clear(failure) == 1 && free_tags == 1);
	CHECK(other.next_notified(1, count_call, &calls, failure)->read(failure) == 2 && !failure);
	other.cancel(failure);
	CHECK(!failure && pool.waiting(failure) == 0);
	CHECK(!other.next_async(0, event, failure) && !failure);
	other.cancel_next(0, failure);
	CHECK(!failure && pool.waiting(failure) == 0);
	CHECK(!other.next_notified(1, count_call, &calls, failure) && !failure);
	other.leave(failure);
	CHECK(!failure && pool.waiting(failure) == 0);
	send(one, 1, 3);
	CHECK(calls == 1 && told(event) == 0 && receive(one, 1) == 3);
	close(event);
}

template <class T>
static void end_it(void *object)
{
	static_cast<std::unique_ptr<T> *>(object)->reset();
}

// Whoever is told of a tag may end the object that it was of, also amid a batch. Who looks whether that is
// touched then is the address sanitizer.
static void a_function_ends_the_object()
{
	tags::pool pool(queued(64, 2, 1), failure);
	tags::hand hand = pool.join_in_place(failure);
	tags::hand other = pool.join(failure);
	auto tag = std::make_unique<tags::tag>(*hand.get(failure));
	CHECK(!other.next_notified(0, end_it<tags::tag>, &tag, failure) && !failure);
	tag->submit(failure);
	CHECK(!failure && !tag && other.next_notified(0, ignore, nullptr, failure) && !failure);
	auto batch = std::make_unique<tags::batch>(*hand.get_batch(3, failure));
	CHECK(!other.next_notified(0, end_it<tags::batch>, &batch, failure) && !failure);
	CHECK(batch->submit(failure).size() == 3 && !failure && !batch && pool.queued(0, failure) == 3);
	for (int i = 0; i < 3; i++)
		CHECK(other.next_notified(0, ignore, nullptr, failure) && !failure);
	CHECK(pool.show(tags::kind::ordinary, failure).busy == 0);
}

// What was submitted before a stop is still taken.
static void a_stop_ends_waits()
{
	tags::pool pool(queued(4, 4, 1), failure);
	tags::hand hand = pool.join(failure);
	tags::hand hands[] = {pool.join(failure), pool.join(failure), pool.join(failure)};
	int calls = 0;
	CHECK(!hands[2].next_notified(0, count_call, &calls, failure) && !failure);
	std::thread blocked([&] { REFUSED(errc::stopped, hands[0].next_blocking(0, CODE)); });
	std::thread timed([&] { REFUSED(errc::stopped, hands[1].try_next_for(0, 1h, CODE)); });
	await_asleep(2);
	pool.stop(failure);
	blocked.join();
	timed.join();
	CHECK(calls == 1);
	REFUSED(errc::stopped, hands[2].next_notified(0, count_call, &calls, CODE));
	for (std::uint64_t i = 1; i <= 3; i++)
		send(hand, 0, i);
	CHECK(hand.next_blocking(0, failure).read_clear(failure) == 1 && !failure);
	CHECK(hand.try_next_for(0, 1h, failure)->read_clear(failure) == 2 && !failure);
	CHECK(hand.next_async(0, 0, failure)->read_clear(failure) == 3 && !failure);
	REFUSED(errc::stopped, hand.next_blocking(0, CODE));
	pool.resume(failure);
	CHECK(!hand.try_next_for(0, 1ms, failure) && !failure);
}

#ifdef __cpp_exceptions
// What was taken goes back, and what was not submitted too.
static void exceptions_lose_nothing()
{
	tags::pool pool(queued(4, 1, 1));
	tags::hand hand = pool.join();
	hand.get_blocking().submit();
	for (int i = 0; i < 2; i++) {
		int caught = 0;
		try {
			tags::tag tag = i == 0 ? hand.next_blocking(0) : hand.get_blocking();
			if (i == 0)
				throw 1;
			tag.submit(7);
		} catch (int) {
			caught = 1;
		} catch (const tags::error &error) {
			caught = error.code() == errc::no_such_queue ? 2 : 0;
		}
		CHECK(caught == i + 1 && pool.show(tags::kind::ordinary).busy == 0 && pool.queued(0) == 0);
	}
	hand.leave();
	const tags::totals sums = pool.close();
	CHECK(sums.got == sums.back && sums.held == 0 && sums.posted == 0);
}
#endif

// What lies beside a tag. It is no atomic: only one thread may use it.
struct request {
	std::uint32_t by = 0;
	std::uint64_t turn = 0;
};

struct shared {
	tags::pool &pool;
	const tags::values<request> &values;
	long rounds;
	std::atomic<std::uint64_t> taken{0};
};

enum { SUBMITTERS = 3, TAKERS = 3 };

static void submit_all(shared &all, std::uint32_t self)
{
	std::error_code own;
	tags::hand hand = all.pool.join(own);
	for (long round = 1; round <= all.rounds; round++) {
		tags::tag tag = hand.get_blocking(own);
		CHECK(!own && tag);
		all.values[tag] = {self, static_cast<std::uint64_t>(round)};
		tag.write(self, own);
		tag.submit(1, own);
		CHECK(!own);
	}
}

// A thread sees the requests of each submitter in their order.
static void take_all(shared &all, std::uint32_t self)
{
	std::error_code own;
	std::uint64_t last[SUBMITTERS] = {};
	tags::hand hand = all.pool.join(own);
	while (!own) {
		std::optional<tags::tag> tag;
		if (self == 0)
			tag = hand.try_next_for(1, 50us, own);
		else
			tag = hand.next_blocking(1, own);
		if (!tag || !*tag)
			continue;
		const request &it = all.values[*tag];
		CHECK(it.turn > last[it.by] && tag->read(own) == it.by && !own);
		last[it.by] = it.turn;
		all.taken++;
	}
	CHECK(own == errc::stopped);
}

static void threads_hand_requests_over(long rounds)
{
	tags::pool pool(queued(4, SUBMITTERS + TAKERS, 2), failure);
	const tags::values<request> values(pool, failure);
	shared all{pool, values, rounds, {}};
	std::vector<std::thread> submitters, takers;
	for (std::uint32_t i = 0; i < SUBMITTERS; i++)
		submitters.emplace_back([&all, i] { submit_all(all, i); });
	for (std::uint32_t i = 0; i < TAKERS; i++)
		takers.emplace_back([&all, i] { take_all(all, i); });
	for (std::thread &it : submitters)
		it.join();
	pool.stop(failure);
	for (std::thread &it : takers)
		it.join();
	CHECK(all.taken == static_cast<std::uint64_t>(SUBMITTERS * rounds));
	const tags::totals sums = pool.close(failure);
	CHECK(!failure && sums.got == sums.back && sums.posted == 0 && sums.held == 0);
}

int main(int count, char **words)
{
	tags_leave_in_order();
	a_tag_is_its_holders();
	what_is_left_in_a_queue();
	batches();
	values_pass_with_their_tags();
	refusals();
	limits_in_time();
	hands_are_notified();
	a_function_ends_the_object();
	a_stop_ends_waits();
#ifdef __cpp_exceptions
	exceptions_lose_nothing();
#endif
	threads_hand_requests_over(count > 1 ? std::atol(words[1]) : 3000);
	return report();
}
