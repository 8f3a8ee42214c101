// Coroutines that wait for tags with a listener: in turn, beside threads that sleep, destroyed
// while they wait and while they are to be resumed, refused, stopped. It needs C++20, and compiles
// without exceptions too.
#include "check.hpp"

#ifdef __cpp_impl_coroutine
#include "../tags_async.hpp"

#include <deque>
#include <exception>
#include <memory>
#include <poll.h>
#include <sys/eventfd.h>
#include <thread>
#include <unistd.h>
#include <vector>

using tags::errc;

static std::error_code failure;

// A coroutine that begins at once, and whose end destroys it where it stands.
class task {
public:
	struct promise_type {
		task get_return_object() { return task(handle::from_promise(*this)); }
		std::suspend_never initial_suspend() noexcept { return {}; }
		std::suspend_always final_suspend() noexcept { return {}; }
		void return_void() noexcept {}
#ifdef __cpp_exceptions
		void unhandled_exception() { throw; }
#else
		void unhandled_exception() noexcept {}
#endif
	};

	task(task &&other) noexcept : handle_(std::exchange(other.handle_, nullptr)) {}
	task &operator=(task &&other) noexcept
	{
		std::swap(handle_, other.handle_);
		return *this;
	}
	~task()
	{
		if (handle_)
			handle_.destroy();
	}
	bool is_done() const { return handle_.done(); }

private:
	using handle = std::coroutine_handle<promise_type>;
	explicit task(handle of) : handle_(of) {}
	handle handle_;
};

// An eventfd that is closed at the end.
struct event {
	int descriptor = eventfd(0, EFD_NONBLOCK);
	event() = default;
	event(const event &) = delete;
	event &operator=(const event &) = delete;
	~event() { close(descriptor); }

	bool take() const
	{
		std::uint64_t told = 0;
		return read(descriptor, &told, sizeof(told)) == sizeof(told);
	}

	void wait() const
	{
		pollfd look = {descriptor, POLLIN, 0};
		CHECK(poll(&look, 1, -1) == 1);
		CHECK(take());
	}
};

static task get(tags::listener &listener, std::vector<tags::tag> &into, std::error_code &code)
{
	tags::tag tag = co_await listener.get(code);
	if (tag)
		into.push_back(std::move(tag));
}

static task get(tags::listener &listener, std::vector<tags::tag> &into)
{
	std::error_code code;
	tags::tag tag = co_await listener.get(code);
	CHECK(!code && tag);
	into.push_back(std::move(tag));
}

// A pool of one tag, which is held, and a listener by another hand.
struct setting {
	tags::pool pool;
	tags::hand holder = pool.join(failure);
	tags::tag tag = *holder.get(failure);
	tags::hand hand = pool.join(failure);
	event told;
	tags::listener listener{hand, told.descriptor};
	std::vector<tags::tag> got;

	explicit setting(std::uint32_t hands = 2) : pool(sized(1, hands), failure) {}
};

static void a_free_tag_suspends_nobody()
{
	setting it;
	it.tag.clear();
	const task first = get(it.listener, it.got);
	CHECK(first.is_done() && it.got.size() == 1 && !it.told.take());
}

static void coroutines_are_resumed_in_turn()
{
	setting it;
	std::deque<task> tasks;
	for (int i = 0; i < 4; i++)
		tasks.push_back(get(it.listener, it.got));
	it.listener.resume();
	CHECK(it.got.empty() && !it.told.take());
	for (std::size_t i = 0; i < tasks.size(); i++) {
		(i == 0 ? it.tag : it.got[i - 1]).clear();
		CHECK(it.told.take());
		CHECK(!tasks[i].is_done());
		it.listener.resume();
		CHECK(tasks[i].is_done() && it.got.size() == i + 1);
		// One that asks while others wait gets none before them.
		if (i == 0) {
			it.got[0].clear();
			tasks.push_back(get(it.listener, it.got));
			CHECK(!tasks.back().is_done() && !tasks[1].is_done());
			CHECK(it.told.take());
			it.listener.resume();
			CHECK(tasks[1].is_done());
			i++;
		}
	}
	it.listener.resume();
	it.got.clear();
	CHECK(!it.told.take() && it.hand.waiting(failure) == 0);
}

static void several_tags_resume_several()
{
	tags::pool pool(sized(3, 2), failure);
	tags::hand holder = pool.join(failure);
	tags::hand hand = pool.join(failure);
	tags::batch batch = *holder.get_batch(1, failure);
	std::vector<tags::tag> held;
	while (std::optional<tags::tag> tag = holder.get(failure))
		held.push_back(std::move(*tag));
	const event told;
	tags::listener listener(hand, told.descriptor);
	std::vector<tags::tag> got;
	std::deque<task> tasks;
	for (int i = 0; i < 4; i++)
		tasks.push_back(get(listener, got));
	held.clear();
	batch.clear();
	CHECK(told.take());
	listener.resume();
	CHECK(got.size() == 3 && !tasks.back().is_done());
	got.pop_back();
	CHECK(told.take());
	listener.resume();
	CHECK(tasks.back().is_done());
}

static void the_last_that_is_destroyed_cancels()
{
	setting it(3);
	{
		const task first = get(it.listener, it.got);
		{
			const task second = get(it.listener, it.got);
		}
		CHECK(it.hand.waiting(failure) == 1);
	}
	CHECK(it.hand.waiting(failure) == 0);
	it.tag.clear();
	CHECK(!it.told.take());

	// One that was told of a tag passes it on.
	it.tag = *it.holder.get(failure);
	tags::hand other = it.pool.join(failure);
	const event another;
	tags::listener next(other, another.descriptor);
	{
		const task first = get(it.listener, it.got);
		const task second = get(next, it.got);
		it.tag.clear();
		CHECK(it.told.take() && !another.take());
	}
	{
		it.tag = *it.holder.get(failure);
		const task second = get(it.listener, it.got);
		const task third = get(next, it.got);
		it.tag.clear();
		CHECK(it.told.take() && !another.take());
		{
			setting unrelated;
		}
		it.listener.resume();
		CHECK(second.is_done() && !third.is_done());
		it.got.clear();
		CHECK(another.take());
	}
}

static void who_was_told_and_is_destroyed_passes_it_on()
{
	setting it(3);
	tags::hand other = it.pool.join(failure);
	const event another;
	tags::listener next(other, another.descriptor);
	auto first = std::make_unique<task>(get(it.listener, it.got));
	const task second = get(next, it.got);
	it.tag.clear();
	CHECK(it.told.take() && !another.take());
	first.reset();
	CHECK(another.take());
	next.resume();
	CHECK(second.is_done() && it.got.size() == 1);
	it.got.clear();
}

// When it goes on, it destroys the next one, which has been given a tag already.
static task destroys(tags::listener &listener, std::unique_ptr<task> &victim,
		     std::vector<tags::tag> &into)
{
	std::error_code code;
	tags::tag tag = co_await listener.get(code);
	victim.reset();
	into.push_back(std::move(tag));
}

static void a_coroutine_destroys_another()
{
	tags::pool pool(sized(2, 2), failure);
	tags::hand holder = pool.join(failure);
	tags::hand hand = pool.join(failure);
	tags::tag held[] = {*holder.get(failure), *holder.get(failure)};
	const event told;
	tags::listener listener(hand, told.descriptor);
	std::vector<tags::tag> got;
	std::unique_ptr<task> victim;
	const task first = destroys(listener, victim, got);
	victim = std::make_unique<task>(get(listener, got));
	held[0].clear();
	held[1].clear();
	listener.resume();
	CHECK(first.is_done() && !victim && got.size() == 1);
	// The tag of the one that was destroyed went back.
	CHECK(hand.show(tags::kind::ordinary, failure).busy == 1);
}

static void ignore(void *) {}

static void refusals()
{
	setting it(3);
	std::error_code code;
	tags::hand none;
	tags::listener empty(none, it.told.descriptor);
	const task no_hand = get(empty, it.got, code);
	CHECK(no_hand.is_done() && code == errc::bad_handle);
	tags::hand other = it.pool.join(failure);
	{
		tags::listener closed(other, -1);
		const task no_event = get(closed, it.got, code);
		CHECK(no_event.is_done() && code == errc::bad_event);
		REFUSED(errc::waiting, other.get_async(it.told.descriptor, CODE));
		REFUSED(errc::waiting, other.cancel(CODE));
		REFUSED(errc::waiting, other.leave(CODE));
	}
	const task waiting = get(it.listener, it.got);
	REFUSED(errc::waiting, it.hand.get_blocking(CODE));
	REFUSED(errc::waiting, it.hand.get_notified(ignore, nullptr, CODE));
	it.tag.clear();
	it.listener.resume();
	CHECK(it.got.size() == 1);
	// A clear code is left clear, and one of before is cleared.
	it.got.clear();
	const task found = get(it.listener, it.got, code);
	CHECK(found.is_done() && !code);
}

// A hand waits for one listener: what becomes of another one does not matter to it.
static void a_second_listener_is_refused()
{
	setting it;
	std::error_code code;
	event other;
	{
		const task first = get(it.listener, it.got);
		{
			tags::listener second(it.hand, other.descriptor);
			task refused = get(second, it.got, code);
			CHECK(refused.is_done() && code == errc::waiting);
			second.resume();
		}
		it.tag.clear();
		CHECK(it.told.take() && !other.take());
		it.listener.resume();
		CHECK(first.is_done() && it.got.size() == 1);
	}
	it.got.clear();
	REFUSED(errc::waiting, it.hand.get_async(other.descriptor, CODE));
	// One after the other is as good as one, and a wait without a listener is in its way, too.
	tags::tag tag = *it.hand.get(failure);
	tags::hand third = std::move(it.holder);
	{
		tags::listener before(third, other.descriptor);
		CHECK(!before.is_refused() && !it.listener.is_refused());
	}
	CHECK(!third.get_async(other.descriptor, failure) && !failure);
	// It waits on after a call that is refused for what it was given.
	REFUSED(errc::bad_event, third.get_async(-1, CODE));
	REFUSED(errc::bad_handle, third.get_notified(nullptr, nullptr, CODE));
	tags::listener beside(third, it.told.descriptor);
	CHECK(beside.is_refused());
	third.cancel(failure);
	tags::listener after(third, other.descriptor);
	CHECK(!failure && !after.is_refused());
	const task last = get(after, it.got);
	tag.clear();
	CHECK(other.take());
	after.resume();
	CHECK(last.is_done() && it.got.size() == 1);
	it.got.clear();
}

template <class Time>
static task get_for(tags::listener &listener, Time time, int &ended, std::error_code &code)
{
	const tags::tag tag = co_await listener.get_for(time, code);
	ended = tag ? 1 : 2;
}

// One whose time is up goes on without a tag, and the others wait on.
static void a_limit_in_time()
{
	using std::chrono::hours;
	using std::chrono::milliseconds;
	setting it;
	std::error_code codes[4];
	int ended[4] = {};
	CHECK(it.listener.timeout() == -1);
	const task late = get_for(it.listener, milliseconds(0), ended[0], codes[0]);
	CHECK(late.is_done() && ended[0] == 2 && !codes[0]);
	CHECK(it.hand.waiting(failure) == 0);
	const task soon = get_for(it.listener, milliseconds(5), ended[1], codes[1]);
	const auto begin = std::chrono::steady_clock::now();
	const task first = get_for(it.listener, hours(1), ended[2], codes[2]);
	const task second = get_for(it.listener, hours::max(), ended[3], codes[3]);
	const int left = it.listener.timeout();
	CHECK(soon.is_done() || (left >= 0 && left <= 5));
	while (!soon.is_done()) {
		pollfd look = {it.told.descriptor, POLLIN, 0};
		CHECK(poll(&look, 1, it.listener.timeout()) == 0);
		it.listener.resume();
	}
	CHECK(ended[1] == 2 && !codes[1] && !first.is_done() && !second.is_done());
	const milliseconds hour(it.listener.timeout());
	CHECK(hour <= hours(1) && hour + (std::chrono::steady_clock::now() - begin) >= hours(1));
	it.tag.clear();
	CHECK(it.told.take());
	it.listener.resume();
	it.told.take();
	it.listener.resume();
	CHECK(ended[2] == 1 && ended[3] == 1 && it.listener.timeout() == -1);
	CHECK(it.hand.waiting(failure) == 0);
	const tags::tag tag = *it.hand.get(failure);
	const auto passed = std::chrono::steady_clock::now() - hours(1);
	const task past = [](tags::listener &listener, std::chrono::steady_clock::time_point end,
			     int &how, std::error_code &code) -> task {
		how = co_await listener.get_until(end, code) ? 1 : 2;
	}(it.listener, passed, ended[0], codes[0]);
	CHECK(past.is_done() && ended[0] == 2 && !codes[0]);
}

#ifdef __cpp_lib_jthread
static task get_unless(tags::listener &listener, std::stop_token token, int &ended,
		       std::error_code &code)
{
	const tags::tag tag = co_await listener.get(token, code);
	ended = tag ? 1 : 2;
}

// A stop may be requested on any thread; the coroutine goes on where resume() is called.
static void a_cancel_by_a_token()
{
	setting it;
	std::error_code codes[3];
	int ended[3] = {};
	// Of one in the frame g++ warns, within its own header.
	const auto source = std::make_unique<std::stop_source>();
	const auto other = std::make_unique<std::stop_source>();
	const task first = get_unless(it.listener, source->get_token(), ended[0], codes[0]);
	const task second = get_unless(it.listener, other->get_token(), ended[1], codes[1]);
	CHECK(it.listener.timeout() == -1);
	std::thread thread([&source] { source->request_stop(); });
	it.told.wait();
	thread.join();
	CHECK(!first.is_done());
	it.listener.resume();
	CHECK(ended[0] == 2 && !codes[0] && !second.is_done());
	const task late = get_unless(it.listener, source->get_token(), ended[2], codes[2]);
	CHECK(late.is_done() && ended[2] == 2 && !codes[2]);
	it.tag.clear();
	it.told.wait();
	it.listener.resume();
	CHECK(ended[1] == 1 && !codes[1] && it.hand.waiting(failure) == 0);
	other->request_stop();
	CHECK(!it.told.take());
}
#endif

// A hand with its listener, for coroutines of which one ends both.
struct client {
	tags::hand hand;
	tags::listener listener;

	client(tags::hand of, int descriptor) : hand(std::move(of)), listener(hand, descriptor) {}
};

// Two tags, which are held, and a client. Who looks whether any of it is touched after its end is the
// address sanitizer.
struct client_setting {
	tags::pool pool{sized(2, 2), failure};
	tags::hand holder = pool.join(failure);
	tags::batch held = *holder.get_batch(2, failure);
	event told;
	std::unique_ptr<client> one =
		std::make_unique<client>(pool.join(failure), told.descriptor);

	// Both tags become free, and the coroutines that wait are resumed.
	void resume()
	{
		tags::listener &listener = one->listener;
		held.clear();
		listener.resume();
	}

	void check_end()
	{
		CHECK(!one && pool.waiting(failure) == 0);
		CHECK(pool.show(tags::kind::ordinary, failure).busy == 0);
		CHECK(pool.join(failure) && !failure);
	}
};

static task end_client(std::unique_ptr<client> &one)
{
	std::error_code code;
	tags::tag tag = co_await one->listener.get(code);
	CHECK(tag && !code);
	tag.clear();
	one.reset();
}

static void a_coroutine_ends_the_client()
{
	client_setting it;
	const task last = end_client(it.one);
	CHECK(!last.is_done());
	it.resume();
	CHECK(last.is_done());
	it.check_end();
}

// One for which there is a tag, too, is destroyed before the client.
static void a_coroutine_ends_another_and_the_client()
{
	client_setting it;
	std::optional<task> other;
	const task first = [](std::unique_ptr<client> &one, std::optional<task> &also) -> task {
		std::error_code code;
		tags::tag tag = co_await one->listener.get(code);
		tag.clear();
		also.reset();
		one.reset();
	}(it.one, other);
	other.emplace(end_client(it.one));
	it.resume();
	CHECK(first.is_done() && !other);
	it.check_end();
}

// The one that is resumed first resumes the other one itself.
static void a_client_ends_in_a_call_within_a_call()
{
	client_setting it;
	const task first = [](tags::listener &listener) -> task {
		std::error_code code;
		(co_await listener.get(code)).clear();
		listener.resume();
	}(it.one->listener);
	const task last = end_client(it.one);
	it.resume();
	CHECK(first.is_done() && last.is_done());
	it.check_end();
}

#ifdef __cpp_exceptions
// The first one lets an exception out, so the second one is resumed by the next call, and ends the client
// and lets one out, too.
static void a_client_ends_by_exceptions()
{
	client_setting it;
	const auto fail = [](std::unique_ptr<client> &one, bool is_last) -> task {
		std::error_code code;
		(co_await one->listener.get(code)).clear();
		if (is_last)
			one.reset();
		throw code;
	};
	const task first = fail(it.one, false);
	const task last = fail(it.one, true);
	const auto throws = [](auto call) {
		try {
			call();
			return false;
		} catch (const std::error_code &) {
			return true;
		}
	};
	CHECK(it.one->listener.timeout() == -1);
	CHECK(throws([&] { it.resume(); }));
	CHECK(it.one && first.is_done() && !last.is_done() && it.one->listener.timeout() == 0);
	CHECK(throws([&] { it.one->listener.resume(); }));
	it.check_end();
}
#endif

static void a_stop_ends_all_waits()
{
	setting it;
	std::error_code codes[3];
	std::deque<task> tasks;
	for (std::error_code &code : codes)
		tasks.push_back(get(it.listener, it.got, code));
	it.pool.stop(failure);
	CHECK(it.told.take());
	it.listener.resume();
	for (const std::error_code &code : codes)
		CHECK(code == errc::stopped);
	for (const task &it_is : tasks)
		CHECK(it_is.is_done());
	const task late = get(it.listener, it.got, codes[0]);
	CHECK(late.is_done() && codes[0] == errc::stopped);
}

static void a_stop_that_is_resumed_ends_all_waits_that_began_before()
{
	setting it;
	std::error_code codes[2], later;
	const task first = get(it.listener, it.got, codes[0]);
	const task second = get(it.listener, it.got, codes[1]);
	it.pool.stop(failure);
	it.pool.resume(failure);
	const task after = get(it.listener, it.got, later);
	CHECK(it.told.take());
	it.listener.resume();
	CHECK(first.is_done() && codes[0] == errc::stopped);
	CHECK(second.is_done() && codes[1] == errc::stopped);
	CHECK(!after.is_done() && it.hand.waiting(failure) == 1);
	it.tag.clear();
	it.told.wait();
	it.listener.resume();
	CHECK(after.is_done() && !later);
}

// The first of those that wait is destroyed, so that the hand's wait is older than that of the next one.
static void a_stop_ends_no_wait_that_began_later()
{
	setting it;
	std::error_code codes[2];
	std::deque<task> first;
	first.push_back(get(it.listener, it.got, codes[0]));
	it.pool.stop(failure);
	it.pool.resume(failure);
	const task second = get(it.listener, it.got, codes[1]);
	first.clear();
	it.listener.resume();
	CHECK(!second.is_done() && it.hand.waiting(failure) == 1);
	it.tag.clear();
	it.listener.resume();
	CHECK(second.is_done() && !codes[1]);
}

#ifdef __cpp_exceptions
static task must_get(tags::listener &listener, int &caught, bool passes_on)
{
	try {
		const tags::tag tag = co_await listener.get();
		CHECK(tag);
	} catch (const tags::error &error) {
		CHECK(error.code() == errc::stopped);
		caught++;
		if (passes_on)
			throw;
	}
}

static void refusals_are_thrown()
{
	setting it;
	int caught = 0;
	{
		const task good = must_get(it.listener, caught, false);
		it.tag.clear();
		it.listener.resume();
		CHECK(good.is_done() && caught == 0);
	}
	it.tag = *it.holder.get();
	const task first = must_get(it.listener, caught, true);
	const task second = must_get(it.listener, caught, false);
	it.pool.stop();
	try {
		it.listener.resume();
		CHECK(false);
	} catch (const tags::error &error) {
		CHECK(error.code() == errc::stopped && caught == 1);
	}
	it.listener.resume();
	CHECK(caught == 2 && second.is_done());
}
#endif

static task submit(tags::listener &listener, int requests, int &left)
{
	std::error_code code;
	for (int i = 0; i < requests; i++) {
		const tags::tag tag = co_await listener.get(code);
		CHECK(tag && !code);
	}
	left--;
}

// An event loop with two hands, each with many coroutines, beside threads that sleep.
static void loops_beside_threads()
{
	constexpr int requests = 500;
	tags::pool pool(sized(2, 4), failure);
	tags::hand hands[] = {pool.join(failure), pool.join(failure)};
	const event told;
	tags::listener listeners[] = {{hands[0], told.descriptor}, {hands[1], told.descriptor}};
	std::vector<std::thread> threads;
	for (int i = 0; i < 2; i++) {
		threads.emplace_back([&pool] {
			std::error_code own;
			tags::hand hand = pool.join(own);
			for (int round = 0; round < 8 * requests; round++) {
				const tags::tag tag = hand.get_blocking(own);
				CHECK(tag);
				if (round % 16 == 0)
					std::this_thread::yield();
			}
		});
	}
	int left = 20;
	std::deque<task> tasks;
	for (int i = 0; i < 20; i++)
		tasks.push_back(submit(listeners[i % 2], requests, left));
	while (left > 0) {
		told.wait();
		for (tags::listener &listener : listeners)
			listener.resume();
	}
	for (std::thread &thread : threads)
		thread.join();
	tasks.clear();
}

static task hold_two(tags::listener &listener, int &rounds)
{
	std::error_code code;
	while (rounds-- > 0) {
		const tags::tag first = co_await listener.get(code);
		const tags::tag second = co_await listener.get(code);
		CHECK(first && second && first.number() != second.number());
	}
}

static void a_coroutine_holds_two()
{
	tags::pool pool(sized(2, 1), failure);
	tags::hand hand = pool.join(failure);
	const event told;
	tags::listener listener(hand, told.descriptor);
	int rounds = 100;
	const task one = hold_two(listener, rounds);
	CHECK(one.is_done() && rounds < 0);
}

int main()
{
	a_free_tag_suspends_nobody();
	coroutines_are_resumed_in_turn();
	several_tags_resume_several();
	the_last_that_is_destroyed_cancels();
	who_was_told_and_is_destroyed_passes_it_on();
	a_coroutine_destroys_another();
	refusals();
	a_second_listener_is_refused();
	a_limit_in_time();
#ifdef __cpp_lib_jthread
	a_cancel_by_a_token();
#endif
	a_coroutine_ends_the_client();
	a_coroutine_ends_another_and_the_client();
	a_client_ends_in_a_call_within_a_call();
#ifdef __cpp_exceptions
	a_client_ends_by_exceptions();
#endif
	a_stop_ends_all_waits();
	a_stop_that_is_resumed_ends_all_waits_that_began_before();
	a_stop_ends_no_wait_that_began_later();
#ifdef __cpp_exceptions
	refusals_are_thrown();
#endif
	loops_beside_threads();
	a_coroutine_holds_two();
	return report();
}
#else
int main()
{
	std::puts("this compiler has no coroutines in this version of C++");
	return 0;
}
#endif
