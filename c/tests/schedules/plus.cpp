// Programs in C++, over tags.hpp: threads with values beside their tags, coroutines of a listener,
// and the owners of a pool. They are built without exceptions, as what a throw keeps is not part of
// a state.
#include "tags_async.hpp"

#include "programs.h"
#include "scenario.h"

#include <coroutine>
#include <new>
#include <utility>

/*
 * What C++ allocates is part of the state, too.
 */

void *operator new(std::size_t size)
{
	return take_memory(size);
}

void *operator new(std::size_t size, const std::nothrow_t &) noexcept
{
	return take_memory(size);
}

void *operator new(std::size_t size, std::align_val_t, const std::nothrow_t &) noexcept
{
	return take_memory(size);
}

void operator delete(void *start) noexcept
{
	give_memory(start);
}

void operator delete(void *start, std::size_t) noexcept
{
	give_memory(start);
}

void operator delete(void *start, std::align_val_t) noexcept
{
	give_memory(start);
}

namespace {

struct stage {
	tags::pool pool;
	tags::hand hands[MAX_THREADS + 1];
	tags::values<std::uint64_t> values;
};

stage *plus;

/// A coroutine that begins at once. Destroying the object ends it where it stands.
class task {
public:
	struct promise_type {
		task get_return_object() { return task(handle::from_promise(*this)); }
		std::suspend_never initial_suspend() noexcept { return {}; }
		std::suspend_always final_suspend() noexcept { return {}; }
		void return_void() noexcept {}
		void unhandled_exception() noexcept {}
	};

	task(const task &) = delete;
	task &operator=(const task &) = delete;
	~task() { handle_.destroy(); }

	bool is_done() const { return handle_.done(); }

private:
	using handle = std::coroutine_handle<promise_type>;
	explicit task(handle of) : handle_(of) {}
	handle handle_;
};

/// Ends a wait: changes the tag's value, which no other thread may touch meanwhile, and gives the
/// tag back. Returns false if there is none, or if it is held for ever.
bool use(int me, tags::tag &tag, const std::error_code &code)
{
	if (!tag) {
		may_be_stopped(code == tags::errc::stopped ? TAGS_STOPPED : TAGS_NULL);
		return false;
	}
	const std::int32_t number = static_cast<std::int32_t>(tag.number());
	take_tag(me, number);
	plus->values[tag]++;
	if (holds_for_ever()) {
		static_cast<void>(tag.release());
		return false;
	}
	drop_tag(number);
	tag.clear();
	return true;
}

task wait_once(int me, tags::listener &listener)
{
	std::error_code code;
	tags::tag tag = co_await listener.get(code);
	use(me, tag, code);
}

/// Two coroutines of one listener, and a loop that resumes them until the second one is done, or
/// gives up.
void run_loop(int me, bool may_give_up)
{
	tags::listener listener(plus->hands[me], me);
	const task first = wait_once(me, listener);
	const task second = wait_once(me, listener);

	while (!first.is_done() || !second.is_done()) {
		if (may_give_up && choose(2))
			break;
		wait_event(me);
		listener.resume();
	}
}

void run_event_loop(int me, bool may_give_up)
{
	open_event(me);
	run_loop(me, may_give_up);
	close_event(me);
}

} // namespace

void plus_open(void)
{
	std::error_code code;
	tags::options options;

	options.total = scenario->tags;
	options.hands = world->threads + 1;
	plus = ::new (take_own(sizeof(stage))) stage;
	plus->pool = tags::pool(options, code);
	for (std::uint32_t i = 0; i <= world->threads; i++) {
		plus->hands[i] = plus->pool.join(code);
		hands[i] = plus->hands[i].native_handle();
	}
	for (std::uint32_t i = 0; i < scenario->taken; i++)
		static_cast<void>(plus->hands[world->threads].get(code)->release());
	plus->values = tags::values<std::uint64_t>(plus->pool, code);
	pool = plus->pool.native_handle();
}

void plus_close(void)
{
	plus->~stage();
}

void plus_sleeper(int me)
{
	for (int round = 0; goes_on(me, round); round++) {
		std::error_code code;
		tags::tag tag = plus->hands[me].get_blocking(code);

		if (!use(me, tag, code))
			return;
	}
}

void plus_loop(int me)
{
	run_event_loop(me, false);
}

void plus_quitter(int me)
{
	run_event_loop(me, true);
}

void plus_leaver(int me)
{
	plus->hands[me] = tags::hand();
}

// The pool lives on until the last hand has left.
void plus_closer(int me)
{
	plus->hands[world->threads] = tags::hand();
	plus->pool = tags::pool();
	plus_leaver(me);
}

void plus_joiner(int me)
{
	std::error_code code;

	plus_leaver(me);
	plus->hands[me] = plus->pool.join(code);
	plus_closer(me);
}

void plus_stopper(int)
{
	std::error_code code;

	look_before_stop();
	plus->pool.stop(code);
}

void plus_resumer(int me)
{
	std::error_code code;

	plus_stopper(me);
	plus->pool.resume(code);
}
