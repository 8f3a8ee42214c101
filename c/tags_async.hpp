/*
 * tags_async.hpp - coroutines over tags.hpp, which wait for tags in an event loop: tags::listener
 *
 * It takes a compiler and a library with coroutines, as of C++20; with std::jthread's
 * std::stop_token a wait ends by a request as well.
 *
 * A hand has one listener at most: it has one place in the bell, with one turn and one eventfd.
 */
#ifndef TAGS_ASYNC_HPP
#define TAGS_ASYNC_HPP

#if !defined __cpp_impl_coroutine || !__has_include(<coroutine>)
#error "tags_async.hpp needs coroutines: compile with -std=c++20"
#else

#include "tags.hpp"

#include <climits>
#include <coroutine>
#include <unistd.h>
#if __has_include(<stop_token>)
#include <stop_token>
#endif

#ifdef __cpp_exceptions
#define TAGS_THROWS 1
#endif

namespace tags {

namespace detail {

#ifdef __cpp_lib_jthread
using stop_token = std::stop_token;

/// Has the event loop look, on whichever thread a stop is requested.
struct notifier {
	int eventfd;

	void operator()() const noexcept
	{
		const std::uint64_t one = 1;
		[[maybe_unused]] const auto written = ::write(eventfd, &one, sizeof(one));
	}
};

using stop_callback = std::stop_callback<notifier>;
#else
struct stop_token {
	bool stop_requested() const noexcept { return false; }
};
#endif

/// When a coroutine waits no longer.
struct limit {
	/// By std::chrono::steady_clock; the longest is never.
	std::int64_t deadline = longest;
	stop_token token = {};

	static std::int64_t now() noexcept
	{
		return nanoseconds(std::chrono::steady_clock::now().time_since_epoch());
	}

	static std::int64_t after(std::int64_t time) noexcept
	{
		const std::int64_t from = now();
		return time < longest - from ? from + time : longest;
	}

	bool is_over() const noexcept
	{
		return token.stop_requested() || (deadline != longest && now() >= deadline);
	}
};

} // namespace detail

/// The coroutines that wait for tags of one hand, in the order in which their waits began:
/// co_await listener.get() is a tag. It asks this of the program's event loop: when the eventfd
/// that the listener was made with is readable, read it and call resume(), soon, on each listener
/// that was made with it. The eventfd stays the program's, which makes it non-blocking and closes
/// it after the listener.
///
/// A hand waits for one listener at a time, since it has one place among those who wait: while it
/// has a listener, or waits by hand::get_async() or hand::get_notified(), each get() of another one
/// is refused with waiting. Make a listener for each hand; several may share an eventfd.
///
/// A listener is used by one thread at a time, as its hand is, and coroutines are resumed on the
/// thread that calls resume(). A coroutine that is destroyed while it waits waits no more: if it
/// was to be resumed with a tag, the tag goes back, and if none is left that waits, the hand's wait
/// is cancelled. The destructor of a listener for which a coroutine waits calls std::terminate();
/// so stop the pool and call resume(), or destroy the coroutines, before. A coroutine that was
/// resumed may destroy it, as the last one of a client that owns it does.
class listener {
	/// A call of resume(), which learns whether a coroutine has ended the listener. One may be
	/// made in another.
	class visit {
	public:
		// In line, g++ takes it for a pointer that outlives what it points to.
		[[gnu::noinline]] explicit visit(listener *of) noexcept
			: of_(of), outer_(std::exchange(of->visit_, this))
		{}
		visit(const visit &) = delete;
		visit &operator=(const visit &) = delete;

		~visit()
		{
			if (of_ != nullptr)
				of_->visit_ = outer_;
		}

		bool has_listener() const noexcept { return of_ != nullptr; }

		/// Tells this call and those around it.
		void tell_end() noexcept
		{
			for (visit *it = this; it != nullptr; it = it->outer_)
				it->of_ = nullptr;
		}

	private:
		listener *of_;
		visit *outer_;
	};

	/// A place in one of the two lists, or a list, which is a ring.
	struct link {
		link *next = this;
		link *previous = this;

		link() noexcept = default;
		link(const link &) = delete;
		link &operator=(const link &) = delete;

		bool is_alone() const noexcept { return next == this; }

		void put_before(link &other) noexcept
		{
			next = &other;
			previous = other.previous;
			previous->next = this;
			other.previous = this;
		}

		void take_out() noexcept
		{
			next->previous = previous;
			previous->next = next;
			next = previous = this;
		}
	};

public:
	/// A coroutine's wait.
	class waiter : link {
	public:
		waiter(const waiter &) = delete;
		waiter &operator=(const waiter &) = delete;

		/// Tries, unless others wait already.
		bool await_ready() noexcept
		{
			stops_ = listener_->count_stops();
			if (listener_->waiting_.is_alone())
				set(listener_->try_or_wait(*this));
			if (answer_ == TAGS_NO_TAG && limit_.is_over()) {
				answer_ = TAGS_TIMED_OUT;
				listener_->end_wait();
			}
			return answer_ != TAGS_NO_TAG;
		}

		void await_suspend(std::coroutine_handle<> coroutine)
		{
			coroutine_ = coroutine;
			put_before(listener_->waiting_);
#ifdef __cpp_lib_jthread
			if (limit_.token.stop_possible())
				callback_.emplace(limit_.token,
						  detail::notifier{listener_->eventfd_});
#endif
		}

	protected:
		waiter(listener *from, detail::limit limit) noexcept
			: listener_(from), limit_(std::move(limit))
		{}

		/// What the wait is told as: that it was limited is no error.
		std::int32_t status() const noexcept
		{
			return answer_ == TAGS_TIMED_OUT ? TAGS_OK : answer_;
		}

		~waiter()
		{
			const bool is_listed = !is_alone();
			take_out();
			if (is_listed && answer_ == TAGS_NO_TAG)
				listener_->end_wait();
		}

		std::int32_t answer_ = TAGS_NO_TAG;
		tag tag_;

	private:
		friend class listener;

		void set(std::int32_t answer) noexcept
		{
			answer_ = answer;
			if (answer >= 0)
				tag_ = tag(listener_->hand_, static_cast<std::uint32_t>(answer));
		}

		listener *listener_;
		/// The pool's count of stops when the wait began.
		std::uint32_t stops_ = 0;
		detail::limit limit_;
		std::coroutine_handle<> coroutine_;
#ifdef __cpp_lib_jthread
		std::optional<detail::stop_callback> callback_;
#endif
	};

#ifdef TAGS_THROWS
	/// What get() returns, to be awaited at once.
	class [[nodiscard]] awaiter final : public waiter {
	public:
		tag await_resume()
		{
			detail::check(status());
			return std::move(tag_);
		}

	private:
		friend class listener;

		awaiter(listener *from, detail::limit limit) noexcept
			: waiter(from, std::move(limit))
		{}
	};
#endif

	/// What get() with a code returns, to be awaited at once.
	class [[nodiscard]] awaiter_with_code final : public waiter {
	public:
		tag await_resume() noexcept
		{
			detail::note(status(), code_);
			return std::move(tag_);
		}

	private:
		friend class listener;

		awaiter_with_code(listener *from, detail::limit limit, std::error_code &ec) noexcept
			: waiter(from, std::move(limit)), code_(ec)
		{}

		std::error_code &code_;
	};

	/// The coroutines wait with this hand, and the eventfd is notified. If the hand has a
	/// listener already, or waits by hand::get_async() or hand::get_notified(), each get() is
	/// refused with waiting.
	listener(hand &with, int eventfd) noexcept
		: hand_(with.state_), eventfd_(eventfd),
		  is_second_(hand_ != nullptr && (hand_->has_listener || hand_->is_async))
	{
		if (hand_ == nullptr || is_second_)
			return;
		hand_->has_listener = true;
	}

	listener(const listener &) = delete;
	listener &operator=(const listener &) = delete;

	/// Whether each get() is refused with waiting, because the hand waited for another listener,
	/// or by hand::get_async() or hand::get_notified(), when this one was made.
	bool is_refused() const noexcept { return is_second_; }

	~listener()
	{
		if (!waiting_.is_alone() || !ready_.is_alone())
			detail::give_up("a listener was destroyed while a coroutine waits");
		if (visit_ != nullptr)
			visit_->tell_end();
		if (hand_ == nullptr || is_second_)
			return;
		hand_->has_listener = false;
	}

#ifdef TAGS_THROWS
	/// Takes a free ordinary tag when it is awaited, and suspends the coroutine while there is
	/// none or others wait already.
	///
	/// Errors: as of hand::get_async(), except waiting: if the hand had another listener, or
	/// waited by get_async() or get_notified(), when this one was made.
	///
	/// With a std::stop_token the tag is empty if a stop was requested, on whichever thread,
	/// before there was one: the request notifies the eventfd, and the coroutine goes on by the
	/// next resume().
	awaiter get(detail::stop_token token = {}) noexcept
	{
		return {this, {detail::longest, std::move(token)}};
	}

	/// The same, for at most this long by std::chrono::steady_clock: the tag is empty if the time
	/// is up or a stop was requested. The coroutine goes on by the first resume() after that, so
	/// wait for events no longer than timeout().
	///
	/// Errors: as of get().
	template <class Rep, class Period>
	awaiter get_for(const std::chrono::duration<Rep, Period> &time,
			detail::stop_token token = {}) noexcept
	{
		const std::int64_t end = detail::limit::after(detail::nanoseconds(time));
		return {this, {end, std::move(token)}};
	}

	/// The same, until this moment.
	///
	/// Errors: as of get().
	awaiter get_until(std::chrono::steady_clock::time_point deadline,
			  detail::stop_token token = {}) noexcept
	{
		return {this, {detail::nanoseconds(deadline.time_since_epoch()), std::move(token)}};
	}
#endif

	/// The same: ec is set to the error or cleared, and the tag is empty if there is an error.
	/// ec has to live until the coroutine goes on.
	awaiter_with_code get(std::error_code &ec) noexcept { return {this, {}, ec}; }

	awaiter_with_code get(detail::stop_token token, std::error_code &ec) noexcept
	{
		return {this, {detail::longest, std::move(token)}, ec};
	}

	template <class Rep, class Period>
	awaiter_with_code get_for(const std::chrono::duration<Rep, Period> &time,
				  std::error_code &ec) noexcept
	{
		return get_for(time, {}, ec);
	}

	template <class Rep, class Period>
	awaiter_with_code get_for(const std::chrono::duration<Rep, Period> &time,
				  detail::stop_token token, std::error_code &ec) noexcept
	{
		const std::int64_t end = detail::limit::after(detail::nanoseconds(time));
		return {this, {end, std::move(token)}, ec};
	}

	awaiter_with_code get_until(std::chrono::steady_clock::time_point deadline,
				    std::error_code &ec) noexcept
	{
		return get_until(deadline, {}, ec);
	}

	awaiter_with_code get_until(std::chrono::steady_clock::time_point deadline,
				    detail::stop_token token, std::error_code &ec) noexcept
	{
		const std::int64_t end = detail::nanoseconds(deadline.time_since_epoch());
		return {this, {end, std::move(token)}, ec};
	}

	/// For poll() and its like: how many milliseconds, rounded up, until resume() has to be called
	/// for a coroutine whose time is up, 0 if an exception left some to be resumed; -1 if none has
	/// a limit in time.
	int timeout() const noexcept
	{
		if (!ready_.is_alone())
			return 0;
		std::int64_t first = detail::longest;
		for (const link *at = waiting_.next; at != &waiting_; at = at->next) {
			const std::int64_t end = static_cast<const waiter *>(at)->limit_.deadline;
			first = end < first ? end : first;
		}
		if (first == detail::longest)
			return -1;
		constexpr std::int64_t millisecond = 1000000;
		const std::int64_t left = detail::difference(detail::limit::now(), first);
		if (left <= 0)
			return 0;
		const std::int64_t rounded = (left + millisecond - 1) / millisecond;
		return rounded < INT_MAX ? static_cast<int>(rounded) : INT_MAX;
	}

	/// Resumes the coroutines for which there is a tag or an error, in the order of their waits,
	/// and then those whose limit has passed. If one of them lets an exception out, it comes out
	/// here: call this again for the others. One of them may end the listener, if no other waits.
	void resume()
	{
		// All of them are taken out first, so that whatever a coroutine does, the hand
		// waits if and only if one of the others still does.
		while (!waiting_.is_alone()) {
			waiter &first = static_cast<waiter &>(*waiting_.next);
			const std::int32_t answer = try_again(first);
			if (answer == TAGS_NO_TAG)
				break;
			first.set(answer);
			first.take_out();
			first.put_before(ready_);
		}
		end_limited();
		visit own(this);
		while (own.has_listener() && !ready_.is_alone()) {
			waiter &first = static_cast<waiter &>(*ready_.next);
			first.take_out();
			first.coroutine_.resume();
		}
	}

private:
	std::uint32_t count_stops() const noexcept
	{
		return hand_ != nullptr ? tags_detail_stops(detail::raw(hand_)) : 0;
	}

	bool is_stopped(const waiter &it) const noexcept
	{
		const std::uint32_t stops = count_stops();
		return stops % 2 == 1 || stops != it.stops_;
	}

	/// Tries for the first that waits. If a stop has ended the hand's wait and not its own, as
	/// that began after a resume, the hand begins another one.
	std::int32_t try_or_wait(const waiter &first) noexcept
	{
		std::int32_t answer;
		do
			answer = is_second_ ? TAGS_WAITING : tags_get_async(detail::raw(hand_), eventfd_);
		while (answer == TAGS_STOPPED && !is_stopped(first));
		return answer;
	}

	/// The same, if the hand may have begun another wait since a stop that ends the first one's.
	std::int32_t try_again(const waiter &first) noexcept
	{
		if (!is_stopped(first))
			return try_or_wait(first);
		tags_cancel(detail::raw(hand_));
		return TAGS_STOPPED;
	}

	/// Takes out those whose limit has passed.
	void end_limited() noexcept
	{
		bool is_any = false;
		for (link *at = waiting_.next; at != &waiting_;) {
			waiter &it = static_cast<waiter &>(*at);
			at = at->next;
			if (!it.limit_.is_over())
				continue;
			it.set(TAGS_TIMED_OUT);
			it.take_out();
			it.put_before(ready_);
			is_any = true;
		}
		if (is_any)
			end_wait();
	}

	/// After a waiter was taken out.
	void end_wait() noexcept
	{
		if (waiting_.is_alone())
			tags_cancel(detail::raw(hand_));
	}

	detail::joined *hand_;
	int eventfd_;
	/// Whether the hand waited for another when this one was made.
	bool is_second_;
	link waiting_;
	/// Those that have an answer and were not resumed yet.
	link ready_;
	/// The innermost call of resume() that resumes coroutines.
	visit *visit_ = nullptr;
};

} // namespace tags

#undef TAGS_THROWS

#endif
#endif
