/*
 * tags.hpp - tags.h for C++17: a pool of tags that threads share without a lock
 *
 * A tag is a small number with a slot of 64 bits for whoever holds it. A tags::pool has the
 * tags. Each thread takes them through a tags::hand of its own, as objects of type tags::tag,
 * whose destructor gives them back:
 *
 *	tags::pool pool(tags::options{16, 2});
 *	tags::hand hand = pool.join();
 *	if (std::optional<tags::tag> tag = hand.get())
 *		tag->write(70);
 *
 * This header is the whole C++ part, but for coroutines, which wait by tags_async.hpp: inline
 * functions over the calls of tags.h, which says what the library proves. A get and the
 * destructor of its tag make the two calls that a program in C makes, and no others.
 *
 * Errors
 *   A refused call changes nothing. Its reason is a tags::errc, of a category whose texts are
 *   those of tags_strerror(). Each call that can be refused has two forms. One throws
 *   tags::error, a std::system_error. The other takes a std::error_code as its last argument,
 *   sets it to the reason or clears it, and throws nothing; if refused it returns an empty
 *   object or 0. Without exceptions (-fno-exceptions) only the second one exists. That no tag
 *   was found is no error: it is an empty std::optional.
 *   Any call on an empty object (one that was moved from, say) is refused with bad_handle,
 *   unless it says otherwise.
 *
 * Lifetimes
 *   Pools, hands, tags and batches can be moved, and not copied. A hand can be moved while its
 *   tags are out. The destructor of a hand returns it to its pool, with the tags that were
 *   released: it still holds those when it joins again. So that no tag is lost unnoticed, the
 *   destructor of a hand that still has tag, batch or listener objects calls
 *   std::terminate(), after a line on stderr; leave() refuses instead. Shared hands may not
 *   even have tags that were released; close() refuses. If a pool is destroyed
 *   before its hands it stays open until the last of them is. Only close() returns the totals:
 *   a pool that was not closed is closed by its destructor, with any tags that are still
 *   released or posted.
 *
 * Threads
 *   Any thread may call any function of a pool at any time, except that nobody else may use a
 *   pool that is moved, closed or destroyed. So it is with tags::shared_hands, for more threads
 *   than hands; and a tags::shared_tag, which they get, may pass to another thread alone. A
 *   hand, with its tags, batches and listeners, is used by one thread at a time. It may pass to
 *   another thread if a mutex, the start of a thread or the like orders the two.
 *
 * Cancellation
 *   What sleeps is a cancellation point while it does: get_blocking(), get_reserved_blocking(),
 *   next_blocking(), join_blocking(), drain(), drain_list() and the forms of them that begin with
 *   try. None of those that sleep is noexcept. With glibc
 *   pthread_cancel() unwinds the stack: destructors run, so the thread's tags go back and its
 *   hand leaves. Code that is compiled without exceptions runs no destructors then: the tags
 *   stay held, and the hand out. Cancel no thread there; pool::stop() ends its wait.
 */
#ifndef TAGS_HPP
#define TAGS_HPP

#if __cplusplus < 201703L
#error "tags.hpp needs C++17 or newer: compile with -std=c++17"
#else

#include "tags.h"

#include <array>
#include <atomic>
#include <cassert>
#include <chrono>
#include <cstddef>
#include <cstdint>
#include <cstdio>
#include <ctime>
#include <exception>
#include <memory>
#include <new>
#include <optional>
#include <string>
#include <system_error>
#include <type_traits>
#include <utility>

#ifdef __cpp_exceptions
#define TAGS_THROWS 1
#endif

/* One category and one type of exception in all shared objects of a program. */
#define TAGS_VISIBLE [[gnu::visibility("default")]]

namespace tags {

/*
 * Errors
 */

/// Why a call was refused: the statuses of tags.h, which describes each.
enum class errc : std::int32_t {
	no_such_tag = TAGS_NO_SUCH_TAG,
	no_reserved = TAGS_NO_RESERVED,
	not_held = TAGS_NOT_HELD,
	not_posted = TAGS_NOT_POSTED,
	bad_count = TAGS_BAD_COUNT,
	too_shallow = TAGS_TOO_SHALLOW,
	spent = TAGS_SPENT,
	waiting = TAGS_WAITING,
	not_waiting = TAGS_NOT_WAITING,
	no_tag = TAGS_NO_TAG,
	bad_handle = TAGS_BAD_HANDLE,
	not_empty = TAGS_NOT_EMPTY,
	no_hand = TAGS_NO_HAND,
	hands_out = TAGS_HANDS_OUT,
	bad_kind = TAGS_BAD_KIND,
	too_small = TAGS_TOO_SMALL,
	bad_flag = TAGS_BAD_FLAG,
	no_room = TAGS_NO_ROOM,
	hand_lost = TAGS_HAND_LOST,
	no_memory = TAGS_NO_MEMORY,
	total_too_large = TAGS_TOTAL_TOO_LARGE,
	reserved_too_large = TAGS_RESERVED_TOO_LARGE,
	shift_too_large = TAGS_SHIFT_TOO_LARGE,
	bad_hand_count = TAGS_BAD_HAND_COUNT,
	null = TAGS_NULL,
	in_use = TAGS_IN_USE,
	timed_out = TAGS_TIMED_OUT,
	bad_time = TAGS_BAD_TIME,
	bad_event = TAGS_BAD_EVENT,
	bad_shift = TAGS_BAD_SHIFT,
	cache_too_large = TAGS_CACHE_TOO_LARGE,
	stopped = TAGS_STOPPED,
	no_notes = TAGS_NO_NOTES,
	bad_queue_count = TAGS_BAD_QUEUE_COUNT,
	no_such_queue = TAGS_NO_SUCH_QUEUE
};

} // namespace tags

template <>
struct std::is_error_code_enum<tags::errc> : std::true_type {};

namespace tags {

namespace detail {

class TAGS_VISIBLE category final : public std::error_category {
public:
	const char *name() const noexcept override { return "tags"; }

	std::string message(int code) const override { return tags_strerror(code); }

	std::error_condition default_error_condition(int code) const noexcept override
	{
		switch (code) {
		case TAGS_NO_MEMORY:
			return std::errc::not_enough_memory;
		case TAGS_STOPPED:
			return std::errc::operation_canceled;
		default:
			return std::error_condition(code, *this);
		}
	}
};

} // namespace detail

/// The category of errc. Its texts are those of tags_strerror(). Its no_memory is equivalent to
/// std::errc::not_enough_memory, and its stopped to std::errc::operation_canceled.
TAGS_VISIBLE inline const std::error_category &category() noexcept
{
	// It is never destroyed, since other destructors at the end of the program may need it.
	alignas(detail::category) static unsigned char room[sizeof(detail::category)];
	static const std::error_category *const made = ::new (room) detail::category;
	return *made;
}

/// For std::error_code: an errc converts to one.
inline std::error_code make_error_code(errc code) noexcept
{
	return {static_cast<int>(code), category()};
}

/// What a refused call throws. Its what() is the text of the errc, which is its code().
class TAGS_VISIBLE error : public std::system_error {
public:
	explicit error(errc code) : std::system_error(make_error_code(code)) {}
};

namespace detail {

/// The reason that a status names. The only pointer here that is passed on and can be NULL is that
/// of an empty object.
inline errc reason(std::int32_t status) noexcept
{
	return static_cast<errc>(status == TAGS_NULL ? TAGS_BAD_HANDLE : status);
}

[[gnu::cold, gnu::noinline]] inline void set(std::error_code &ec, std::int32_t status) noexcept
{
	if (status < 0)
		ec = reason(status);
	else
		ec.clear();
}

/// Sets the code to the reason if the status is negative, and clears it otherwise.
inline void note(std::int32_t status, std::error_code &ec) noexcept
{
	if (status < 0 || ec)
		set(ec, status);
}

#ifdef TAGS_THROWS
[[noreturn, gnu::cold, gnu::noinline]] inline void fail(std::int32_t status)
{
	throw error(reason(status));
}

inline void check(std::int32_t status)
{
	if (status < 0)
		fail(status);
}
#endif

/// For what the comments below forbid.
[[noreturn, gnu::cold, gnu::noinline]] inline void give_up(const char *what) noexcept
{
	std::fprintf(stderr, "tags.hpp: %s\n", what);
	std::terminate();
}

/// Of a call that is only refused if a tag was given back behind its object's back.
inline void expect(std::int32_t status) noexcept
{
	if (status < 0)
		give_up("a tag was given back by other means than its object");
}

/// A number that no other pool of the program has; pools may follow each other at one address.
TAGS_VISIBLE inline std::uint64_t next_pool() noexcept
{
	static std::atomic<std::uint64_t> last{0};
	return last.fetch_add(1, std::memory_order_relaxed) + 1;
}

/// What a pool shares with its hands. It lives until the pool and all its hands are gone.
struct opened {
	tags_pool handle = TAGS_EMPTY;
	std::uint32_t reserved = 0;
	const std::uint64_t number = next_pool();
	std::atomic<std::uint32_t> owners{1};

	void hold() noexcept { owners.fetch_add(1, std::memory_order_relaxed); }

	void drop() noexcept
	{
		if (owners.fetch_sub(1, std::memory_order_acq_rel) > 1)
			return;
		// All hands have left, so this closes the pool, unless it was closed before.
		tags_sums unused;
		[[maybe_unused]] const std::int32_t status = tags_close(&handle, &unused);
		delete this;
	}
};

/// A hand that has joined. Its tags point to it, so it stays where it is when the hand is moved.
struct joined {
	static constexpr std::size_t words = TAGS_MAX_TOTAL / 64;

	tags_hand handle = TAGS_EMPTY;
	opened *pool = nullptr;
	/// Whether there is a listener that points to it.
	bool has_listener = false;
	/// Whether it waits by hand::get_async() or hand::get_notified(), or by their forms for a
	/// reserved tag; and whether it is one of the latter.
	bool is_async = false;
	bool is_reserving = false;
	/// A bit for each tag that the hand holds and for which there is no object.
	std::uint64_t loose[words] = {};

	/// Of the tags of these bits, leaves the bits of those that the hand holds. Returns whether
	/// any is left.
	bool keep_held(std::uint64_t (&bits)[words]) noexcept
	{
		bool is_any = false;
		for (std::uint32_t first = 0; first < TAGS_MAX_TOTAL; first += 64) {
			std::uint64_t &word = bits[first / 64];
			std::uint64_t left = word;
			for (std::uint32_t at = first; left != 0; at++, left >>= 1) {
				if ((left & 1) != 0 && tags_holds(&handle, at) != 1)
					word &= ~(std::uint64_t{1} << at % 64);
			}
			is_any |= word != 0;
		}
		return is_any;
	}

	/// Notes which tags the hand has held since it left before.
	void find_loose() noexcept
	{
		if (tags_busy(&handle, loose, words) > 0)
			keep_held(loose);
	}

	/// Whether there is an object for a tag that the hand holds.
	bool has_objects() noexcept
	{
		std::uint64_t bits[words];
		if (tags_busy(&handle, bits, words) <= 0)
			return false;
		for (std::size_t i = 0; i < words; i++)
			bits[i] &= ~loose[i];
		return keep_held(bits);
	}

	bool is_loose(std::uint32_t tag) const noexcept
	{
		return tag < TAGS_MAX_TOTAL && (loose[tag / 64] >> tag % 64 & 1) != 0;
	}

	void let_go(std::uint32_t tag) noexcept { loose[tag / 64] |= std::uint64_t{1} << tag % 64; }

	void tie(std::uint32_t tag) noexcept { loose[tag / 64] &= ~(std::uint64_t{1} << tag % 64); }

	void leave() noexcept
	{
		tags_leave(&handle);
		pool->drop();
		delete this;
	}
};

inline tags_hand *raw(joined *hand) noexcept { return hand != nullptr ? &hand->handle : nullptr; }

/// Hands that threads share. Their tags point to it, so it stays where it is when the object is moved.
struct shared {
	static constexpr std::size_t words = TAGS_MAX_TOTAL / 64;

	tags_hands handle = TAGS_EMPTY;
	opened *pool = nullptr;
	/// A bit for each tag that the hands hold and for which there is no object.
	std::atomic<std::uint64_t> loose[words] = {};

	static std::uint64_t bit_of(std::uint32_t tag) noexcept
	{
		return std::uint64_t{1} << tag % 64;
	}

	/// Notes which tags the hands have held since they left before: those whose slots they can read.
	void find_loose() noexcept
	{
		std::uint64_t unused = 0;
		for (std::uint32_t tag = 0; tag < handle.total; tag++) {
			if (tags_hands_read(&handle, tag, &unused) == TAGS_OK)
				let_go(tag);
		}
	}

	void let_go(std::uint32_t tag) noexcept { loose[tag / 64].fetch_or(bit_of(tag)); }

	/// Returns whether there was no object: of several threads one gets the tag.
	bool tie(std::uint32_t tag) noexcept
	{
		return (loose[tag / 64].fetch_and(~bit_of(tag)) & bit_of(tag)) != 0;
	}

	std::int32_t close() noexcept
	{
		const std::int32_t status = tags_hands_close(&handle);
		if (status == TAGS_IN_USE)
			return status;
		pool->drop();
		delete this;
		return status;
	}
};

inline tags_hands *raw(shared *hands) noexcept
{
	return hands != nullptr ? &hands->handle : nullptr;
}

/// Calls a look at a busy tag, and returns whether it goes on. What returns nothing does. A number would
/// be 0 for that in C.
template <class Look, class... Found>
bool goes_on(Look &look, const Found &...found)
{
	using result = std::invoke_result_t<Look &, const Found &...>;
	static_assert(std::is_void_v<result> || std::is_same_v<result, bool>,
		      "a look at a busy tag returns bool, true to go on, or nothing");
	if constexpr (std::is_void_v<result>) {
		look(found...);
		return true;
	} else {
		return look(found...);
	}
}

/// Which tags of a pool are busy: what tags_pool_busy() answered, and a bit for each. A look at them
/// may throw, so it is called here and not by the library.
struct busy_bits {
	static constexpr std::size_t words = TAGS_MAX_TOTAL / 64;

	explicit busy_bits(tags_pool *pool) noexcept : answer(tags_pool_busy(pool, bits, words)) {}

	/// Calls it for each tag, until it returns false. Returns how many times.
	template <class Look>
	std::uint32_t each(Look &look) const
	{
		std::uint32_t calls = 0;
		if (answer < 0)
			return calls;
		for (std::uint32_t first = 0; first < TAGS_MAX_TOTAL; first += 64) {
			for (std::uint64_t left = bits[first / 64]; left != 0; left &= left - 1) {
				const int at = __builtin_ctzll(left);
				calls++;
				if (!goes_on(look, first + static_cast<std::uint32_t>(at)))
					return calls;
			}
		}
		return calls;
	}

	std::uint64_t bits[words];
	std::int32_t answer;
};

/*
 * Times, in nanoseconds. None is longer than the longest, 285 years.
 */
constexpr std::int64_t second = 1000000000;
constexpr std::int64_t longest = 9000000000 * second;

/// A duration, rounded towards 0, or the longest one on its side of 0. NaN is 0.
template <class Rep, class Period>
std::int64_t nanoseconds(const std::chrono::duration<Rep, Period> &time) noexcept
{
	using std::chrono::duration_cast;
	constexpr double period = static_cast<double>(second) * static_cast<double>(Period::num) /
				  static_cast<double>(Period::den);
	const double about = static_cast<double>(time.count()) * period;
	if (about >= static_cast<double>(longest))
		return longest;
	if (about <= -static_cast<double>(longest))
		return -longest;
	if (!(about > 0 || about < 0))
		return 0;
	// Seconds first: a cast of the whole could overflow on its way, as by a period of 1/60
	// seconds.
	const auto whole = duration_cast<std::chrono::seconds>(time);
	const auto rest = duration_cast<std::chrono::nanoseconds>(time - whole);
	return whole.count() * second + rest.count();
}

/// The time from one moment to another.
inline std::int64_t difference(std::int64_t from, std::int64_t to) noexcept
{
	std::int64_t time = 0;
	if (__builtin_sub_overflow(to, from, &time))
		return to > from ? longest : -longest;
	return time;
}

/// A moment of a clock of tags_get_timed(). What precedes its epoch has passed.
inline std::timespec moment(std::int64_t since_epoch) noexcept
{
	std::timespec time = {};
	if (since_epoch > 0) {
		time.tv_sec = since_epoch / second;
		time.tv_nsec = since_epoch % second;
	}
	return time;
}

/// Tries once, and looks at the clock only if that is in vain. `wait(clock, deadline)` is a call of
/// tags.h with a deadline.
template <class Wait>
std::int32_t wait_for(const Wait &wait, std::int64_t time)
{
	const std::int32_t answer = wait(CLOCK_MONOTONIC, moment(0));
	if (answer != TAGS_TIMED_OUT || time <= 0)
		return answer;
	const std::int64_t now = nanoseconds(std::chrono::steady_clock::now().time_since_epoch());
	return wait(CLOCK_MONOTONIC, moment(time < longest - now ? now + time : longest));
}

template <class Wait, class Clock, class Duration>
std::int32_t wait_until(const Wait &wait, const std::chrono::time_point<Clock, Duration> &deadline)
{
	const std::int64_t end = nanoseconds(deadline.time_since_epoch());
	if constexpr (std::is_same_v<Clock, std::chrono::steady_clock>) {
		return wait(CLOCK_MONOTONIC, moment(end));
	} else if constexpr (std::is_same_v<Clock, std::chrono::system_clock>) {
		return wait(CLOCK_REALTIME, moment(end));
	} else {
		// Nothing is known of how fast another clock goes, so it is looked at again.
		for (;;) {
			const std::int64_t left =
				difference(nanoseconds(Clock::now().time_since_epoch()), end);
			const std::int32_t answer = wait_for(wait, left);
			if (answer != TAGS_TIMED_OUT || left <= 0)
				return answer;
		}
	}
}

/// Waits for a tag with this hand.
struct for_tag {
	joined *hand;

	std::int32_t operator()(std::int32_t clock, const std::timespec &deadline) const
	{
		return tags_get_timed(raw(hand), clock, &deadline);
	}
};

/// Waits for a reserved tag with this hand.
struct for_reserved_tag {
	joined *hand;

	std::int32_t operator()(std::int32_t clock, const std::timespec &deadline) const
	{
		return tags_get_reserved_timed(raw(hand), clock, &deadline);
	}
};

/// Waits for the next tag of a queue with this hand.
struct for_next_tag {
	joined *hand;
	std::uint32_t queue;

	std::int32_t operator()(std::int32_t clock, const std::timespec &deadline) const
	{
		return tags_next_timed(raw(hand), queue, clock, &deadline);
	}
};

/// Waits for a tag with shared hands.
struct for_shared_tag {
	shared *hands;

	std::int32_t operator()(std::int32_t clock, const std::timespec &deadline) const
	{
		return tags_hands_get_timed(raw(hands), clock, &deadline);
	}
};

/// Waits for a hand of a pool.
struct for_hand {
	tags_pool *from;
	tags_hand *into;

	std::int32_t operator()(std::int32_t clock, const std::timespec &deadline) const
	{
		return tags_join_timed(from, into, 0, clock, &deadline);
	}
};

/*
 * The ways to join.
 */
struct join_now {
	std::uint32_t flags;

	std::int32_t operator()(tags_pool *from, tags_hand *into) const noexcept
	{
		return tags_join(from, into, flags);
	}
};

struct join_asleep {
	std::int32_t operator()(tags_pool *from, tags_hand *into) const
	{
		return tags_join_blocking(from, into, 0);
	}
};

template <class Time>
struct join_for {
	Time time;

	std::int32_t operator()(tags_pool *from, tags_hand *into) const
	{
		return wait_for(for_hand{from, into}, nanoseconds(time));
	}
};

template <class Moment>
struct join_until {
	Moment deadline;

	std::int32_t operator()(tags_pool *from, tags_hand *into) const
	{
		return wait_until(for_hand{from, into}, deadline);
	}
};

/// Waits until all tags of a pool are back.
struct for_all_tags {
	tags_pool *pool;

	std::int32_t operator()(std::int32_t clock, const std::timespec &deadline) const
	{
		return tags_drain_timed(pool, clock, &deadline);
	}
};

/// Waits until each tag of a list has been back.
struct for_listed {
	tags_pool *pool;
	const std::uint32_t *numbers;
	std::size_t count;

	std::int32_t operator()(std::int32_t clock, const std::timespec &deadline) const
	{
		return tags_drain_list_timed(pool, numbers, count, clock, &deadline);
	}
};

} // namespace detail

/*
 * Options and reports
 */

/// The options of a pool. Set at least total and hands: options{16, 2} has 16 tags and 2 hands.
struct options {
	/// Number of tags, including the reserved ones, at most 10,240.
	std::uint32_t total = 0;
	/// Number of hands, 1 to 64.
	std::uint32_t hands = 0;
	/// How many of the tags are reserved for get_reserved(): tags 0 to reserved - 1.
	std::uint32_t reserved = 0;
	/// Binary logarithm of the tags per word, at most 6. By default the largest with which the
	/// set still has as many whole words as hands, and at least 4; 0 for fewer tags than hands,
	/// and 6 for fewer than 4 tags.
	std::optional<std::uint32_t> shift = std::nullopt;
	/// The least depth that get_shallow() accepts; 0 accepts any from 1.
	std::uint32_t min_shallow = 0;
	/// Whether a get starts after the tag that the hand won last, so that a tag is reused late.
	bool round_robin = false;
	/// How many of the tags that it gives back each hand may keep for its next gets, at most
	/// 64; 0 for none. No other hand finds a kept tag until this one gives it back: see
	/// hand::flush().
	std::uint32_t cache = 0;
	/// Whether a hand keeps tags only while it holds another one that it got. Then it never
	/// has to flush. Which count: see TAGS_KEEP_WHILE_HOLDING.
	bool keep_while_holding = false;
	/// Whether the default shift is the kernel's, which asks for 4 whole words whatever the
	/// number of hands: see TAGS_SHIFT_AS_KERNEL. With a shift it changes nothing.
	bool shift_as_kernel = false;
	/// Whether tags have notes: see tag::note().
	bool notes = false;
	/// How many queues of submitted tags there are, at most 64; 0 for none: see tag::submit().
	std::uint32_t queues = 0;

	/// The same for tags_open().
	tags_options native() const noexcept
	{
		tags_options made = TAGS_OPTIONS_INIT;
		made.total = total;
		made.reserved = reserved;
		if (shift == 0U)
			made.shift = TAGS_ONE_PER_WORD;
		else if (shift)
			made.shift = *shift < 32 ? static_cast<std::int32_t>(*shift) : 32;
		else if (shift_as_kernel)
			made.shift = TAGS_SHIFT_AS_KERNEL;
		made.min_shallow = min_shallow;
		made.hands = hands;
		made.cache = cache;
		made.queues = queues;
		if (round_robin)
			made.flags |= TAGS_ROUND_ROBIN;
		if (keep_while_holding)
			made.flags |= TAGS_KEEP_WHILE_HOLDING;
		if (notes)
			made.flags |= TAGS_NOTES;
		return made;
	}
};

/// One of the two sets of a pool's tags.
enum class kind : std::uint32_t {
	/// the tags that hand::get() takes
	ordinary = TAGS_ORDINARY,
	/// the tags that hand::get_reserved() takes
	reserved = TAGS_RESERVED
};

/// Sums over all hands of a pool: got == back + held + posted.
using totals = ::tags_sums;
/// The sizes of a set of tags.
using sizes = ::tags_sizes;

/// The note of a tag, as pool::each_noted() passes it.
struct noted {
	/// what note() was given
	std::uint64_t value = 0;
	/// when that was, by CLOCK_MONOTONIC, which is the clock of std::chrono::steady_clock
	std::chrono::steady_clock::time_point since;
};

namespace detail {

/// The busy tags of a pool with their notes, some at a time: the first of them, and then the next ones. A
/// look at them may throw, so it is called here and not by the library.
struct noted_tags {
	static constexpr std::int32_t room = 64;

	explicit noted_tags(tags_pool *pool) noexcept : of(pool) { find(0); }

	/// Calls it for each tag, until it returns false. Returns how many times.
	template <class Look>
	std::uint32_t each(Look &look)
	{
		std::uint32_t calls = 0;
		for (std::int32_t i = 0; i < answer; i++) {
			const tags_found &it = found[i];
			calls++;
			if (!goes_on(look, it.tag, note_of(it)))
				break;
			if (i + 1 == room) {
				find(it.tag + 1);
				i = -1;
			}
		}
		return calls;
	}

	tags_pool *of;
	tags_found found[room];
	/// How many were found, or why none can be.
	std::int32_t answer = 0;

private:
	void find(std::uint32_t from) noexcept
	{
		answer = of == nullptr ? static_cast<std::int32_t>(TAGS_BAD_HANDLE)
				       : tags_library_find_noted(of, from, found, room);
	}

	static std::optional<noted> note_of(const tags_found &it)
	{
		using clock = std::chrono::steady_clock;
		if (it.has_note == 0)
			return std::nullopt;
		const std::chrono::nanoseconds since(static_cast<std::int64_t>(it.note.since));
		return noted{it.note.value,
			     clock::time_point(std::chrono::duration_cast<clock::duration>(since))};
	}
};

} // namespace detail

/*
 * Tags
 */

/// A tag that a hand holds, or empty. Its destructor gives the tag back. Destroy it before its
/// hand.
class [[nodiscard]] tag {
public:
	tag() noexcept = default;

	tag(tag &&other) noexcept
		: hand_(std::exchange(other.hand_, nullptr)), number_(other.number_)
	{}

	/// Gives the tag that this object had back, if it had one.
	tag &operator=(tag &&other) noexcept
	{
		tag taken(std::move(other));
		std::swap(hand_, taken.hand_);
		std::swap(number_, taken.number_);
		return *this;
	}

	~tag()
	{
		if (hand_ != nullptr)
			detail::expect(tags_clear(&hand_->handle, number_));
	}

	/// Whether there is a tag.
	explicit operator bool() const noexcept { return hand_ != nullptr; }

	/// The number of the tag, below the pool's total. That of an empty object is unspecified.
	std::uint32_t number() const noexcept { return number_; }

	/// Gives the tag back now, if there is one. Whoever waits for a tag is told.
	void clear() noexcept
	{
		if (hand_ != nullptr)
			detail::expect(tags_clear(&std::exchange(hand_, nullptr)->handle, number_));
	}

	/// Lets go of the tag without giving it back, and returns its number. The hand still holds
	/// it: hand::adopt() makes an object for the number again, as when it comes back with a
	/// completion. An empty object stays so, and its number is unspecified.
	[[nodiscard]] std::uint32_t release() noexcept
	{
		if (hand_ != nullptr)
			std::exchange(hand_, nullptr)->let_go(number_);
		return number_;
	}

#ifdef TAGS_THROWS
	/// The value of the tag's slot. After a get it is unspecified until it is written; after a
	/// take it is what the tag was posted with.
	///
	/// Errors: bad_handle.
	std::uint64_t read() const
	{
		std::uint64_t value = 0;
		detail::check(tags_read(detail::raw(hand_), number_, &value));
		return value;
	}

	/// Writes the tag's slot, as with a number, or a pointer cast to std::uintptr_t. Returns
	/// the former value.
	///
	/// Errors: bad_handle.
	std::uint64_t write(std::uint64_t value)
	{
		std::uint64_t former = 0;
		detail::check(tags_write(detail::raw(hand_), number_, value, &former));
		return former;
	}

	/// Publishes the tag's note, which anybody may read by pool::each_noted() while others run,
	/// with the time. It takes the place of the one before, stays with the tag while that is
	/// posted and taken, and ends just before the tag goes back.
	///
	/// Errors: bad_handle; no_notes if the pool was opened without options::notes.
	void note(std::uint64_t value)
	{
		detail::check(tags_note(detail::raw(hand_), number_, value));
	}

	/// Reads the tag's slot and gives the tag back, in one call. The object is empty then.
	///
	/// Errors: bad_handle.
	std::uint64_t read_clear()
	{
		std::uint64_t value = 0;
		detail::check(try_read_clear(value));
		return value;
	}

	/// Offers the tag, with its slot and what lies beside it, to all hands of the pool, and
	/// returns its number: the first hand that takes it gets it. The object is empty then, so
	/// take a reference to the value beside it before: until the number is passed on nobody
	/// takes the tag, and the value is this thread's.
	///
	/// Errors: bad_handle.
	std::uint32_t post()
	{
		const std::uint32_t number = number_;
		detail::check(try_post());
		return number;
	}

	/// Puts the tag, with its slot and what lies beside it, at the end of a queue, which always
	/// has room, and returns its number. Whoever waits in that queue is told; hand::next() or its
	/// like takes the tag, first come, first served. The object is empty then, and the value
	/// beside the tag is no longer this thread's.
	///
	/// Errors: bad_handle, no_such_queue.
	std::uint32_t submit(std::uint32_t queue = 0)
	{
		const std::uint32_t number = number_;
		detail::check(try_submit(queue));
		return number;
	}
#endif

	std::uint64_t read(std::error_code &ec) const noexcept
	{
		std::uint64_t value = 0;
		detail::note(tags_read(detail::raw(hand_), number_, &value), ec);
		return value;
	}

	std::uint64_t write(std::uint64_t value, std::error_code &ec) noexcept
	{
		std::uint64_t former = 0;
		detail::note(tags_write(detail::raw(hand_), number_, value, &former), ec);
		return former;
	}

	void note(std::uint64_t value, std::error_code &ec) noexcept
	{
		detail::note(tags_note(detail::raw(hand_), number_, value), ec);
	}

	std::uint64_t read_clear(std::error_code &ec) noexcept
	{
		std::uint64_t value = 0;
		detail::note(try_read_clear(value), ec);
		return value;
	}

	std::uint32_t post(std::error_code &ec) noexcept
	{
		const std::uint32_t number = number_;
		const std::int32_t status = try_post();
		detail::note(status, ec);
		return status < 0 ? 0 : number;
	}

	std::uint32_t submit(std::error_code &ec) noexcept { return submit(0, ec); }

	std::uint32_t submit(std::uint32_t queue, std::error_code &ec) noexcept
	{
		const std::uint32_t number = number_;
		const std::int32_t status = try_submit(queue);
		detail::note(status, ec);
		return status < 0 ? 0 : number;
	}

private:
	friend class hand;
	friend class batch;
	friend class listener;
	template <class T>
	friend class values;

	tag(detail::joined *hand, std::uint32_t number) noexcept : hand_(hand), number_(number) {}

	/// Makes a call that takes the tag away unless it is refused. Whoever is told of it may be a
	/// function of the program's that ends this object: so that is empty by then, and only after
	/// a refusal, of which nobody is told, is it touched again.
	template <class Call>
	std::int32_t give(const Call &call) noexcept
	{
		detail::joined *const hand = std::exchange(hand_, nullptr);
		const std::int32_t status = call(detail::raw(hand), number_);
		if (status < 0)
			hand_ = hand;
		return status;
	}

	std::int32_t try_read_clear(std::uint64_t &value) noexcept
	{
		return give([&value](tags_hand *hand, std::uint32_t number) {
			return tags_read_clear(hand, number, &value);
		});
	}

	std::int32_t try_post() noexcept
	{
		return give([](tags_hand *hand, std::uint32_t number) {
			return tags_post(hand, number);
		});
	}

	std::int32_t try_submit(std::uint32_t queue) noexcept
	{
		return give([queue](tags_hand *hand, std::uint32_t number) {
			return tags_submit_to(hand, number, queue);
		});
	}

	detail::joined *hand_ = nullptr;
	std::uint32_t number_ = 0;
};

/// The numbers of several tags, a range in ascending order: what batch::post() returns and
/// hand::take_batch() takes. It holds no tag, so it can be copied, sent and made of two numbers.
struct numbers {
	/// Goes over the numbers.
	class iterator {
	public:
		using iterator_category = std::input_iterator_tag;
		using value_type = std::uint32_t;
		using difference_type = std::ptrdiff_t;
		using pointer = const std::uint32_t *;
		using reference = std::uint32_t;

		std::uint32_t operator*() const noexcept
		{
			return first_ + static_cast<std::uint32_t>(__builtin_ctzll(left_));
		}

		iterator &operator++() noexcept
		{
			left_ &= left_ - 1;
			return *this;
		}

		iterator operator++(int) noexcept
		{
			const iterator before = *this;
			left_ &= left_ - 1;
			return before;
		}

		friend bool operator==(iterator one, iterator other) noexcept
		{
			return one.left_ == other.left_;
		}

		friend bool operator!=(iterator one, iterator other) noexcept
		{
			return one.left_ != other.left_;
		}

	private:
		friend struct numbers;

		iterator(std::uint32_t first, std::uint64_t left) noexcept
			: first_(first), left_(left)
		{}

		std::uint32_t first_;
		std::uint64_t left_;
	};

	/// The tag of bit 0, whether or not it is one of them.
	std::uint32_t first = 0;
	/// Bit i is 1 if the tag first + i is one of them.
	std::uint64_t mask = 0;

	/// Whether there is any number.
	explicit operator bool() const noexcept { return mask != 0; }

	iterator begin() const noexcept { return {first, mask}; }
	iterator end() const noexcept { return {first, 0}; }

	/// How many numbers there are, at most 64.
	std::size_t size() const noexcept
	{
		return static_cast<std::size_t>(__builtin_popcountll(mask));
	}

	/// Whether this is one of them.
	bool has(std::uint32_t number) const noexcept
	{
		return number - first < 64 && (mask >> (number - first) & 1) != 0;
	}
};

/// Ordinary tags that a hand holds, or empty: a range of their numbers, in ascending order. Its
/// destructor gives all of them back in one step for each word, and get_batch() wins those of one
/// word. Destroy it before its hand.
class [[nodiscard]] batch {
public:
	/// Goes over the numbers of a batch.
	using iterator = numbers::iterator;

	batch() noexcept = default;

	batch(batch &&other) noexcept
		: hand_(other.hand_), numbers_(std::exchange(other.numbers_, {}))
	{}

	/// Gives the tags that this object had back, if it had any.
	batch &operator=(batch &&other) noexcept
	{
		batch taken(std::move(other));
		std::swap(hand_, taken.hand_);
		std::swap(numbers_, taken.numbers_);
		return *this;
	}

	~batch() { clear(); }

	/// Whether there is any tag.
	explicit operator bool() const noexcept { return static_cast<bool>(numbers_); }

	iterator begin() const noexcept { return numbers_.begin(); }
	iterator end() const noexcept { return numbers_.end(); }

	/// How many tags there are.
	std::size_t size() const noexcept { return numbers_.size(); }

	/// Whether the tag with this number is one of them.
	bool has(std::uint32_t number) const noexcept { return numbers_.has(number); }

	/// Gives all tags back now. Whoever waits for a tag is told.
	void clear() noexcept
	{
		const numbers gone = std::exchange(numbers_, {});
		if (gone)
			detail::expect(tags_clear_mask(&hand_->handle, gone.first, gone.mask));
	}

	/// Splits the first tag off, which is given back on its own. No tag: the batch is empty.
	[[nodiscard]] std::optional<tag> pop() noexcept
	{
		if (!numbers_)
			return std::nullopt;
		return extract(*begin());
	}

	/// Splits the tag with this number off, which is given back on its own, as when its request
	/// ends before the others. No tag: the batch does not have it.
	[[nodiscard]] std::optional<tag> extract(std::uint32_t number) noexcept
	{
		if (!has(number))
			return std::nullopt;
		numbers_.mask &= ~(std::uint64_t{1} << (number - numbers_.first));
		return tag(hand_, number);
	}

#ifdef TAGS_THROWS
	/// The value of the slot of one of the tags, as tag::read() returns it.
	///
	/// Errors: bad_handle; no_such_tag if the batch does not have it.
	std::uint64_t read(std::uint32_t number) const
	{
		std::uint64_t value = 0;
		detail::check(try_read(number, value));
		return value;
	}

	/// Writes the slot of one of the tags, and returns the former value.
	///
	/// Errors: bad_handle; no_such_tag if the batch does not have it.
	std::uint64_t write(std::uint32_t number, std::uint64_t value)
	{
		std::uint64_t former = 0;
		detail::check(try_write(number, value, former));
		return former;
	}

	/// Publishes the note of one of the tags, as tag::note() does.
	///
	/// Errors: bad_handle, no_notes; no_such_tag if the batch does not have it.
	void note(std::uint32_t number, std::uint64_t value) { detail::check(try_note(number, value)); }

	/// Offers all tags, with their slots and what lies beside them, to all hands of the pool, and
	/// returns their numbers, for hand::take_batch(); each can be taken alone, too. The object is
	/// empty then.
	///
	/// Errors: bad_handle.
	numbers post()
	{
		numbers posted;
		detail::check(try_post(posted));
		return posted;
	}

	/// Puts all tags at the end of a queue, one after the other in ascending order, and returns
	/// their numbers. Others may submit tags between them, and take each as soon as it is there.
	/// The object is empty then.
	///
	/// Errors, by which no tag is submitted: bad_handle, no_such_queue.
	numbers submit(std::uint32_t queue = 0)
	{
		numbers submitted;
		detail::check(try_submit(queue, submitted));
		return submitted;
	}
#endif

	std::uint64_t read(std::uint32_t number, std::error_code &ec) const noexcept
	{
		std::uint64_t value = 0;
		detail::note(try_read(number, value), ec);
		return value;
	}

	std::uint64_t write(std::uint32_t number, std::uint64_t value, std::error_code &ec) noexcept
	{
		std::uint64_t former = 0;
		detail::note(try_write(number, value, former), ec);
		return former;
	}

	void note(std::uint32_t number, std::uint64_t value, std::error_code &ec) noexcept
	{
		detail::note(try_note(number, value), ec);
	}

	numbers post(std::error_code &ec) noexcept
	{
		numbers posted;
		detail::note(try_post(posted), ec);
		return posted;
	}

	numbers submit(std::error_code &ec) noexcept { return submit(0, ec); }

	numbers submit(std::uint32_t queue, std::error_code &ec) noexcept
	{
		numbers submitted;
		detail::note(try_submit(queue, submitted), ec);
		return submitted;
	}

private:
	friend class hand;
	template <class T>
	friend class values;

	batch(detail::joined *hand, const numbers &held) noexcept : hand_(hand), numbers_(held) {}

	/// Why the slot of this tag can't be used, if it can't.
	std::int32_t find(std::uint32_t number) const noexcept
	{
		if (!numbers_)
			return TAGS_BAD_HANDLE;
		return has(number) ? TAGS_OK : TAGS_NO_SUCH_TAG;
	}

	std::int32_t try_read(std::uint32_t number, std::uint64_t &value) const noexcept
	{
		const std::int32_t status = find(number);
		return status < 0 ? status : tags_read(&hand_->handle, number, &value);
	}

	std::int32_t try_write(std::uint32_t number, std::uint64_t value,
			       std::uint64_t &former) noexcept
	{
		const std::int32_t status = find(number);
		return status < 0 ? status : tags_write(&hand_->handle, number, value, &former);
	}

	std::int32_t try_note(std::uint32_t number, std::uint64_t value) noexcept
	{
		const std::int32_t status = find(number);
		return status < 0 ? status : tags_note(&hand_->handle, number, value);
	}

	/// As tag::give() does it: the object is empty while others are told.
	std::int32_t try_post(numbers &posted) noexcept
	{
		if (!numbers_)
			return TAGS_BAD_HANDLE;
		posted = std::exchange(numbers_, {});
		const std::int32_t status =
			tags_post_mask(&hand_->handle, posted.first, posted.mask);
		if (status < 0)
			numbers_ = std::exchange(posted, {});
		return status;
	}

	/// Only the first can be refused for the queue's sake, of which nobody is told. The object is
	/// empty while others are.
	std::int32_t try_submit(std::uint32_t queue, numbers &submitted) noexcept
	{
		if (!numbers_)
			return TAGS_BAD_HANDLE;
		tags_hand *const hand = &hand_->handle;
		submitted = std::exchange(numbers_, {});
		const std::int32_t status = tags_submit_to(hand, *submitted.begin(), queue);
		if (status < 0) {
			numbers_ = std::exchange(submitted, {});
			return status;
		}
		for (auto next = ++submitted.begin(); next != submitted.end(); ++next)
			detail::expect(tags_submit_to(hand, *next, queue));
		return TAGS_OK;
	}

	detail::joined *hand_ = nullptr;
	numbers numbers_;
};

/*
 * Hands
 */

/// What a thread takes tags through, or empty. pool::join() makes one, and its destructor returns
/// it to its pool. Tags that were released stay with it, and what it keeps in a cache goes back.
class hand {
public:
	hand() noexcept = default;

	hand(hand &&other) noexcept : state_(std::exchange(other.state_, nullptr)) {}

	/// Returns the hand that this object had to its pool, as the destructor does.
	hand &operator=(hand &&other) noexcept
	{
		hand taken(std::move(other));
		std::swap(state_, taken.state_);
		return *this;
	}

	/// Calls std::terminate() if there still is a tag, batch or listener of the hand. To see
	/// that, it looks at each busy tag of the pool. A wait by get_async() or get_notified()
	/// ends, and so do those in queues.
	~hand() { end(); }

	/// Whether it has joined.
	explicit operator bool() const noexcept { return state_ != nullptr; }

	/// For the calls of tags.h: NULL if it is empty. Give back by them no tag that has an
	/// object, and give back by them what you get by them, before the hand leaves.
	tags_hand *native_handle() noexcept { return detail::raw(state_); }

#ifdef TAGS_THROWS
	/// Returns the hand to its pool, as the destructor does. The object is empty then.
	///
	/// Errors: bad_handle; in_use if there still is a tag or batch of the hand; waiting if
	/// there is a listener.
	void leave() { detail::check(try_leave()); }

	/// Takes a free ordinary tag. No tag: each was found taken at some moment of the call, not
	/// all at one moment. If the hand keeps tags, it gets the lowest of those.
	///
	/// Errors: bad_handle, spent.
	[[nodiscard]] std::optional<tag> get()
	{
		detail::joined *const state = state_;
		return found(state, tags_get(detail::raw(state)));
	}

	/// Takes a free ordinary tag and writes its slot, in one call. No tag: as from get().
	///
	/// Errors: bad_handle, spent.
	[[nodiscard]] std::optional<tag> get_write(std::uint64_t value)
	{
		return found(state_, tags_get_write(raw(), value));
	}

	/// Takes a free reserved tag. No tag: as from get(), of the reserved ones.
	///
	/// Errors: bad_handle, no_reserved, spent.
	[[nodiscard]] std::optional<tag> get_reserved()
	{
		return found(state_, tags_get_reserved(raw()));
	}

	/// Takes a free ordinary tag out of a part of them, for requests of low priority: depth is
	/// how many of the ordinary tags calls with this depth may use, at least 1. Each word has a
	/// share of the depth in proportion to its tags, which can be 0. No tag: as from get(), of
	/// that part.
	///
	/// Errors: bad_handle, too_shallow, spent.
	[[nodiscard]] std::optional<tag> get_shallow(std::uint32_t depth)
	{
		return found(state_, tags_get_shallow(raw(), depth));
	}

	/// Takes this tag, ordinary or reserved, if it is free, and no other, by a bounded number of
	/// steps. One that this hand keeps is free for it. No tag: it was found taken at some moment
	/// of the call.
	///
	/// Errors: bad_handle, no_such_tag, spent.
	[[nodiscard]] std::optional<tag> get_exactly(std::uint32_t number)
	{
		return found(state_, tags_get_exactly(raw(), number));
	}

	/// Takes up to n ordinary tags out of a run of n; if no word has as many, out of the most
	/// that one has: see pool::batch_limit(). The run begins at the first free tag of a word, and
	/// has to end in that word. The batch can be smaller than n, even while more tags are free.
	/// No batch: each word had no room for such a run at some moment of the call, which does not
	/// mean that all tags are taken: ask for fewer, or call get(). In a pool with round_robin
	/// there is never one.
	///
	/// Errors: bad_handle, spent; bad_count for an n of 0.
	[[nodiscard]] std::optional<batch> get_batch(std::uint32_t n)
	{
		std::uint64_t won = 0;
		const std::int32_t first = tags_get_batch(raw(), n, &won);
		if (first < 0 && first != TAGS_NO_TAG)
			detail::fail(first);
		return won_batch(first, won);
	}

	/// Takes N free ordinary tags, from any words, or none of them, for what can do nothing with
	/// fewer. It takes no kept tag. No tags: a get found none before there were N, so those taken
	/// before it went back, and whoever waits was told. Of several such calls at once each may
	/// find too few, though one alone would have found enough.
	///
	/// Errors: bad_handle, spent; bad_count for more than all ordinary tags.
	template <std::size_t N>
	[[nodiscard]] std::optional<std::array<tag, N>> get_many()
	{
		static_assert(N > 0, "a get of no tags");
		std::array<std::uint32_t, N> numbers = {};
		const std::int32_t answer = tags_get_many(raw(), numbers.data(), N);
		if (answer < 0 && answer != TAGS_NO_TAG)
			detail::fail(answer);
		return won_many(answer, numbers, std::make_index_sequence<N>());
	}

	/// The same of as many tags as there are places for their numbers, which are released: adopt()
	/// makes an object of each, and clear_batch() gives them back. Returns whether it took them;
	/// if not, the numbers mean nothing.
	///
	/// Errors, by which no number is written: bad_handle, spent; bad_count for more than all ordinary
	/// tags, or a null pointer.
	[[nodiscard]] bool get_many(std::uint32_t *numbers, std::size_t count)
	{
		const std::int32_t answer = try_get_released(numbers, count);
		if (answer < 0 && answer != TAGS_NO_TAG)
			detail::fail(answer);
		return answer == TAGS_OK;
	}

	/// Takes a free ordinary tag, and sleeps while there is none. Don't sleep while this thread
	/// holds the tags that others wait for, nor while it keeps them. While it sleeps it is a
	/// cancellation point.
	///
	/// Errors: bad_handle, spent, stopped; no_such_tag if the pool has no ordinary tag; waiting
	/// if it would have to sleep and the hand waits already, by get_async(), get_notified() or a
	/// listener.
	tag get_blocking()
	{
		const std::int32_t answer = tags_get_blocking(raw());
		detail::check(answer);
		return tag(state_, static_cast<std::uint32_t>(answer));
	}

	/// Takes a free ordinary tag, and sleeps at most this long while there is none, by
	/// std::chrono::steady_clock. No tag: the time is up. With a time of 0 or less, or NaN, it
	/// tries once. No time is too long. While it sleeps it is a cancellation point.
	///
	/// Errors: as of get_blocking().
	template <class Rep, class Period>
	[[nodiscard]] std::optional<tag> try_get_for(const std::chrono::duration<Rep, Period> &time)
	{
		return found_in_time(state_, detail::wait_for(detail::for_tag{state_},
							      detail::nanoseconds(time)));
	}

	/// Takes a free ordinary tag, and sleeps until this moment while there is none. No tag: the
	/// moment has come. If it has passed already, the call tries once. If
	/// std::chrono::system_clock is set meanwhile, the sleep follows it. Any clock but that and
	/// steady_clock is looked at again after the time that was left. While it sleeps it is a
	/// cancellation point.
	///
	/// Errors: as of get_blocking().
	template <class Clock, class Duration>
	[[nodiscard]] std::optional<tag>
	try_get_until(const std::chrono::time_point<Clock, Duration> &deadline)
	{
		return found_in_time(state_, detail::wait_until(detail::for_tag{state_}, deadline));
	}

	/// Takes a free ordinary tag, or has an eventfd of the program's notified of when to try
	/// again. No tag: the hand now waits. Each tag that becomes free adds 1 to the eventfd of
	/// the hand that has waited longest. When the eventfd is readable, read it and repeat the
	/// call, soon, for each hand that waits for it, until it returns a tag or is refused; or
	/// end the wait by cancel(); the hand's destructor ends it, too. Afterwards nothing is
	/// written to the eventfd. Make it non-blocking. A listener does all this for coroutines.
	///
	/// Errors, after which the hand does not wait: bad_handle, spent, stopped; no_such_tag if the
	/// pool has no ordinary tag. Errors that change nothing: bad_event for a descriptor below 0;
	/// waiting if the hand has a listener, or would have to wait and waits for a reserved tag.
	[[nodiscard]] std::optional<tag> get_async(int eventfd)
	{
		return found(state_, async(eventfd));
	}

	/// The same with a function of the program's in place of the eventfd: it is called with the
	/// argument, once, when to try again. That is done in the call that gives a tag back, or in
	/// pool::stop(), on whatever thread makes it. So let it return soon, throw nothing, and use
	/// any hand but this one: have another thread, or a later call, repeat this one. Afterwards,
	/// and once the wait has ended, the function that was named before neither runs nor is called:
	/// until then that call waits. Functions do not nest, and none waits for another: see
	/// tags_get_notified().
	///
	/// Errors: as of get_async(), except bad_event; bad_handle, by which nothing changes, for a null
	/// function, too.
	[[nodiscard]] std::optional<tag> get_notified(void (*function)(void *argument), void *argument)
	{
		return found(state_, notified(function, argument));
	}

	/// Takes a free reserved tag, and sleeps while there is none, as get_blocking() does for an
	/// ordinary one. What the hand keeps it gives back first.
	///
	/// Errors: as of get_blocking(), except no_such_tag; no_reserved if the pool has no reserved tag.
	tag get_reserved_blocking()
	{
		const std::int32_t answer = tags_get_reserved_blocking(raw());
		detail::check(answer);
		return tag(state_, static_cast<std::uint32_t>(answer));
	}

	/// The same, for at most this long, as try_get_for(). No tag: the time is up.
	///
	/// Errors: as of get_reserved_blocking().
	template <class Rep, class Period>
	[[nodiscard]] std::optional<tag>
	try_get_reserved_for(const std::chrono::duration<Rep, Period> &time)
	{
		return found_in_time(state_, detail::wait_for(detail::for_reserved_tag{state_},
							      detail::nanoseconds(time)));
	}

	/// The same, until this moment of any clock, as try_get_until(). No tag: it has come.
	///
	/// Errors: as of get_reserved_blocking().
	template <class Clock, class Duration>
	[[nodiscard]] std::optional<tag>
	try_get_reserved_until(const std::chrono::time_point<Clock, Duration> &deadline)
	{
		return found_in_time(
			state_, detail::wait_until(detail::for_reserved_tag{state_}, deadline));
	}

	/// Takes a free reserved tag, or has an eventfd notified of when to try again, as get_async()
	/// does for an ordinary one. A hand waits for a tag of one set at a time: while it waits for an
	/// ordinary one, this call waits for none, and get_async() for none while it waits for a
	/// reserved one.
	///
	/// Errors: as of get_async(), except no_such_tag; no_reserved if the pool has no reserved tag;
	/// waiting, which changes nothing, if it would have to wait and the hand waits for an ordinary
	/// tag.
	[[nodiscard]] std::optional<tag> get_reserved_async(int eventfd)
	{
		return found(state_, reserved_async(eventfd));
	}

	/// The same with a function of the program's in place of the eventfd, as get_notified().
	///
	/// Errors: as of get_reserved_async(), except bad_event; bad_handle, by which nothing changes,
	/// for a null function, too.
	[[nodiscard]] std::optional<tag> get_reserved_notified(void (*function)(void *argument),
							       void *argument)
	{
		return found(state_, reserved_notified(function, argument));
	}

	/// Ends a wait that get_async() or get_notified() began, or one of their forms for a reserved
	/// tag. If the hand was notified of a tag, and a tag is free, another hand that waits is told
	/// of it.
	///
	/// Errors: bad_handle, not_waiting; waiting if the hand has a listener.
	void cancel() { detail::check(try_cancel()); }

	/// Takes the next tag of a queue, with its slot: the one whose submit came first. Whatever was
	/// written before the submit is seen after this call. No tag: the call found none. While
	/// others submit and take tags at once, there may have been one at each moment.
	///
	/// Errors: bad_handle, no_such_queue; spent if the hand has taken 2^48 tags out of the queue
	/// since the pool was opened or resized.
	[[nodiscard]] std::optional<tag> next(std::uint32_t queue)
	{
		return found(state_, tags_next(raw(), queue));
	}

	/// Takes the next tag of a queue, and sleeps while there is none. What the hand keeps it gives
	/// back first. After pool::stop() it still returns what is queued. While it sleeps it is a
	/// cancellation point.
	///
	/// Errors: bad_handle, no_such_queue, spent; no_such_tag if the pool has no tag at all; where
	/// it would have to sleep, stopped, or waiting if the hand waits in this queue already, by
	/// next_async() or next_notified().
	tag next_blocking(std::uint32_t queue)
	{
		const std::int32_t answer = tags_next_blocking(raw(), queue);
		detail::check(answer);
		return tag(state_, static_cast<std::uint32_t>(answer));
	}

	/// The same, for at most this long, as try_get_for(). No tag: the time is up.
	///
	/// Errors: as of next_blocking().
	template <class Rep, class Period>
	[[nodiscard]] std::optional<tag>
	try_next_for(std::uint32_t queue, const std::chrono::duration<Rep, Period> &time)
	{
		return found_in_time(state_, detail::wait_for(detail::for_next_tag{state_, queue},
							      detail::nanoseconds(time)));
	}

	/// The same, until this moment of any clock, as try_get_until(). No tag: it has come.
	///
	/// Errors: as of next_blocking().
	template <class Clock, class Duration>
	[[nodiscard]] std::optional<tag>
	try_next_until(std::uint32_t queue,
		       const std::chrono::time_point<Clock, Duration> &deadline)
	{
		return found_in_time(
			state_, detail::wait_until(detail::for_next_tag{state_, queue}, deadline));
	}

	/// Takes the next tag of a queue, or has an eventfd notified of when to try again, as
	/// get_async() does of a free one. No tag: the hand now waits in this queue. Each submit adds 1
	/// to the eventfd of the hand that has waited longest there. A hand may wait in several queues
	/// at once, and for a free tag, also by a listener. cancel_next() ends the wait.
	///
	/// Errors that change nothing: bad_handle, no_such_queue; bad_event for a descriptor below 0.
	/// Errors after which the hand does not wait in this queue: stopped where it would have to,
	/// spent; no_such_tag if the pool has no tag at all.
	[[nodiscard]] std::optional<tag> next_async(std::uint32_t queue, int eventfd)
	{
		return found(state_, tags_next_async(raw(), queue, eventfd));
	}

	/// The same with a function of the program's in place of the eventfd, as get_notified(): it is
	/// called once, in the call that submits a tag, or in pool::stop().
	///
	/// Errors: as of next_async(), except bad_event; bad_handle, by which nothing changes, for a
	/// null function, too.
	[[nodiscard]] std::optional<tag>
	next_notified(std::uint32_t queue, void (*function)(void *argument), void *argument)
	{
		return found(state_, tags_next_notified(raw(), queue, function, argument));
	}

	/// Ends a wait in a queue that next_async() or next_notified() began. If the hand was notified
	/// of a tag, and one is queued, another hand that waits in this queue is told of it.
	///
	/// Errors: bad_handle, no_such_queue, not_waiting.
	void cancel_next(std::uint32_t queue) { detail::check(tags_cancel_next(raw(), queue)); }

	/// Takes a tag that a hand of this pool has posted, with its slot. Whatever was written
	/// before the post is seen after this call.
	///
	/// Errors: bad_handle, no_such_tag; not_posted if the tag is not posted, or is in a queue, or
	/// another hand took it first.
	tag take(std::uint32_t number)
	{
		detail::check(tags_take(raw(), number));
		return tag(state_, number);
	}

	/// Takes ordinary tags that hands of this pool have posted, together or each alone: all of
	/// them or none. Whatever was written before the posts is seen after this call. If one is not
	/// posted, those taken before it are posted again; another hand may have found one of them
	/// not posted meanwhile.
	///
	/// Errors: bad_handle; bad_count if there is no number; no_such_tag if one is out of range or
	/// reserved; not_posted if one is not posted, or another hand took it first.
	batch take_batch(const numbers &posted)
	{
		detail::check(try_take_batch(posted));
		return batch(state_, posted);
	}

	/// Makes an object for a tag that was released: this hand holds it, and it has no object.
	/// That includes the tags that the hand held when it left before.
	///
	/// Errors: bad_handle, no_such_tag; not_held for any other number of the pool.
	tag adopt(std::uint32_t number)
	{
		detail::check(try_adopt(number));
		return tag(state_, number);
	}

	/// Gives back ordinary tags that were released, 1 to 64 at once, each named once.
	/// Consecutive ones of the list that belong to one word are given back in one step.
	///
	/// Errors, by which no tag is given back: bad_handle, bad_count, no_such_tag; not_held if
	/// one is not held, has an object, or is named twice.
	void clear_batch(const std::uint32_t *numbers, std::size_t count)
	{
		detail::check(try_clear_batch(numbers, count));
	}

	/// Whether this hand holds the tag.
	///
	/// Errors: bad_handle, no_such_tag.
	bool holds(std::uint32_t number)
	{
		const std::int32_t answer = tags_holds(raw(), number);
		detail::check(answer);
		return answer == 1;
	}

	/// Gives all kept tags back, and tells those who wait. Call it before a thread whose hand
	/// keeps tags goes idle or sleeps elsewhere. In a pool without a cache it does nothing.
	///
	/// Errors: bad_handle.
	void flush() { detail::check(tags_flush(raw())); }

	/// Reports which tags of both sets are busy, that is held, kept or posted, and returns how
	/// many: bit t % 64 of into[t / 64] becomes 1 if tag t is busy, every other bit 0. While
	/// other threads work this need not be true of any one moment. There are to be at least a
	/// 64th as many words as tags.
	///
	/// Errors: bad_handle, too_small.
	std::uint32_t busy(std::uint64_t *into, std::size_t words)
	{
		const std::int32_t answer = try_busy(into, words);
		detail::check(answer);
		return static_cast<std::uint32_t>(answer);
	}

	/// Reports the sizes of a set of tags, and how many of them are busy.
	///
	/// Errors: bad_handle.
	sizes show(kind of)
	{
		sizes made = {};
		detail::check(tags_show(raw(), static_cast<std::uint32_t>(of), &made));
		return made;
	}

	/// How many wait in the pool: for a tag, with those that were told and have not tried again
	/// yet, or asleep until all tags are back. A hand counts once for each queue that it waits in.
	///
	/// Errors: bad_handle.
	std::uint32_t waiting()
	{
		const std::int32_t answer = tags_waiting(raw());
		detail::check(answer);
		return static_cast<std::uint32_t>(answer);
	}
#endif

	void leave(std::error_code &ec) noexcept { detail::note(try_leave(), ec); }

	[[nodiscard]] std::optional<tag> get(std::error_code &ec) noexcept
	{
		detail::joined *const state = state_;
		return found(state, tags_get(detail::raw(state)), ec);
	}

	[[nodiscard]] std::optional<tag> get_write(std::uint64_t value,
						   std::error_code &ec) noexcept
	{
		return found(state_, tags_get_write(raw(), value), ec);
	}

	[[nodiscard]] std::optional<tag> get_reserved(std::error_code &ec) noexcept
	{
		return found(state_, tags_get_reserved(raw()), ec);
	}

	[[nodiscard]] std::optional<tag> get_shallow(std::uint32_t depth,
						     std::error_code &ec) noexcept
	{
		return found(state_, tags_get_shallow(raw(), depth), ec);
	}

	[[nodiscard]] std::optional<tag> get_exactly(std::uint32_t number,
						     std::error_code &ec) noexcept
	{
		return found(state_, tags_get_exactly(raw(), number), ec);
	}

	[[nodiscard]] std::optional<batch> get_batch(std::uint32_t n, std::error_code &ec) noexcept
	{
		std::uint64_t won = 0;
		const std::int32_t first = tags_get_batch(raw(), n, &won);
		detail::note(first == TAGS_NO_TAG ? TAGS_OK : first, ec);
		return won_batch(first, won);
	}

	template <std::size_t N>
	[[nodiscard]] std::optional<std::array<tag, N>> get_many(std::error_code &ec) noexcept
	{
		static_assert(N > 0, "a get of no tags");
		std::array<std::uint32_t, N> numbers = {};
		const std::int32_t answer = tags_get_many(raw(), numbers.data(), N);
		detail::note(answer == TAGS_NO_TAG ? TAGS_OK : answer, ec);
		return won_many(answer, numbers, std::make_index_sequence<N>());
	}

	[[nodiscard]] bool get_many(std::uint32_t *numbers, std::size_t count,
				    std::error_code &ec) noexcept
	{
		const std::int32_t answer = try_get_released(numbers, count);
		detail::note(answer == TAGS_NO_TAG ? TAGS_OK : answer, ec);
		return answer == TAGS_OK;
	}

	// The forms that sleep are not noexcept: a thread that is cancelled in them unwinds.

	tag get_blocking(std::error_code &ec) { return owned(tags_get_blocking(raw()), ec); }

	template <class Rep, class Period>
	[[nodiscard]] std::optional<tag> try_get_for(const std::chrono::duration<Rep, Period> &time,
						     std::error_code &ec)
	{
		return found_in_time(
			state_, detail::wait_for(detail::for_tag{state_}, detail::nanoseconds(time)), ec);
	}

	template <class Clock, class Duration>
	[[nodiscard]] std::optional<tag>
	try_get_until(const std::chrono::time_point<Clock, Duration> &deadline, std::error_code &ec)
	{
		return found_in_time(state_, detail::wait_until(detail::for_tag{state_}, deadline), ec);
	}

	[[nodiscard]] std::optional<tag> get_async(int eventfd, std::error_code &ec) noexcept
	{
		return found(state_, async(eventfd), ec);
	}

	[[nodiscard]] std::optional<tag> get_notified(void (*function)(void *argument), void *argument,
						      std::error_code &ec) noexcept
	{
		return found(state_, notified(function, argument), ec);
	}

	tag get_reserved_blocking(std::error_code &ec)
	{
		return owned(tags_get_reserved_blocking(raw()), ec);
	}

	template <class Rep, class Period>
	[[nodiscard]] std::optional<tag>
	try_get_reserved_for(const std::chrono::duration<Rep, Period> &time, std::error_code &ec)
	{
		return found_in_time(state_,
				     detail::wait_for(detail::for_reserved_tag{state_},
						      detail::nanoseconds(time)),
				     ec);
	}

	template <class Clock, class Duration>
	[[nodiscard]] std::optional<tag>
	try_get_reserved_until(const std::chrono::time_point<Clock, Duration> &deadline,
			       std::error_code &ec)
	{
		return found_in_time(
			state_, detail::wait_until(detail::for_reserved_tag{state_}, deadline), ec);
	}

	[[nodiscard]] std::optional<tag> get_reserved_async(int eventfd, std::error_code &ec) noexcept
	{
		return found(state_, reserved_async(eventfd), ec);
	}

	[[nodiscard]] std::optional<tag> get_reserved_notified(void (*function)(void *argument),
							       void *argument,
							       std::error_code &ec) noexcept
	{
		return found(state_, reserved_notified(function, argument), ec);
	}

	void cancel(std::error_code &ec) noexcept { detail::note(try_cancel(), ec); }

	[[nodiscard]] std::optional<tag> next(std::uint32_t queue, std::error_code &ec) noexcept
	{
		return found(state_, tags_next(raw(), queue), ec);
	}

	tag next_blocking(std::uint32_t queue, std::error_code &ec)
	{
		return owned(tags_next_blocking(raw(), queue), ec);
	}

	template <class Rep, class Period>
	[[nodiscard]] std::optional<tag>
	try_next_for(std::uint32_t queue, const std::chrono::duration<Rep, Period> &time,
		     std::error_code &ec)
	{
		return found_in_time(state_,
				     detail::wait_for(detail::for_next_tag{state_, queue},
						      detail::nanoseconds(time)),
				     ec);
	}

	template <class Clock, class Duration>
	[[nodiscard]] std::optional<tag>
	try_next_until(std::uint32_t queue, const std::chrono::time_point<Clock, Duration> &deadline,
		       std::error_code &ec)
	{
		return found_in_time(
			state_, detail::wait_until(detail::for_next_tag{state_, queue}, deadline), ec);
	}

	[[nodiscard]] std::optional<tag> next_async(std::uint32_t queue, int eventfd,
						    std::error_code &ec) noexcept
	{
		return found(state_, tags_next_async(raw(), queue, eventfd), ec);
	}

	[[nodiscard]] std::optional<tag> next_notified(std::uint32_t queue,
						       void (*function)(void *argument),
						       void *argument, std::error_code &ec) noexcept
	{
		return found(state_, tags_next_notified(raw(), queue, function, argument), ec);
	}

	void cancel_next(std::uint32_t queue, std::error_code &ec) noexcept
	{
		detail::note(tags_cancel_next(raw(), queue), ec);
	}

	tag take(std::uint32_t number, std::error_code &ec) noexcept
	{
		const std::int32_t status = tags_take(raw(), number);
		detail::note(status, ec);
		return status < 0 ? tag() : tag(state_, number);
	}

	batch take_batch(const numbers &posted, std::error_code &ec) noexcept
	{
		const std::int32_t status = try_take_batch(posted);
		detail::note(status, ec);
		return status < 0 ? batch() : batch(state_, posted);
	}

	tag adopt(std::uint32_t number, std::error_code &ec) noexcept
	{
		const std::int32_t status = try_adopt(number);
		detail::note(status, ec);
		return status < 0 ? tag() : tag(state_, number);
	}

	void clear_batch(const std::uint32_t *numbers, std::size_t count,
			 std::error_code &ec) noexcept
	{
		detail::note(try_clear_batch(numbers, count), ec);
	}

	bool holds(std::uint32_t number, std::error_code &ec) noexcept
	{
		const std::int32_t answer = tags_holds(raw(), number);
		detail::note(answer, ec);
		return answer == 1;
	}

	void flush(std::error_code &ec) noexcept { detail::note(tags_flush(raw()), ec); }

	std::uint32_t busy(std::uint64_t *into, std::size_t words, std::error_code &ec) noexcept
	{
		const std::int32_t answer = try_busy(into, words);
		detail::note(answer, ec);
		return answer < 0 ? 0 : static_cast<std::uint32_t>(answer);
	}

	sizes show(kind of, std::error_code &ec) noexcept
	{
		sizes made = {};
		detail::note(tags_show(raw(), static_cast<std::uint32_t>(of), &made), ec);
		return made;
	}

	std::uint32_t waiting(std::error_code &ec) noexcept
	{
		const std::int32_t answer = tags_waiting(raw());
		detail::note(answer, ec);
		return answer < 0 ? 0 : static_cast<std::uint32_t>(answer);
	}

private:
	friend class pool;
	friend class listener;

	explicit hand(detail::joined *state) noexcept : state_(state) {}

	tags_hand *raw() const noexcept { return detail::raw(state_); }

	void end() noexcept
	{
		if (state_ == nullptr)
			return;
		if (state_->has_listener)
			detail::give_up("a hand was destroyed before its listener");
		if (state_->has_objects())
			detail::give_up("a hand was destroyed before its tags");
		std::exchange(state_, nullptr)->leave();
	}

	std::int32_t try_leave() noexcept
	{
		if (state_ == nullptr)
			return TAGS_BAD_HANDLE;
		if (state_->has_listener)
			return TAGS_WAITING;
		if (state_->has_objects())
			return TAGS_IN_USE;
		std::exchange(state_, nullptr)->leave();
		return TAGS_OK;
	}

	/// Why the hand can't begin a wait of its own, if it can't.
	std::int32_t can_listen() const noexcept
	{
		if (state_ == nullptr)
			return TAGS_BAD_HANDLE;
		return state_->has_listener ? TAGS_WAITING : TAGS_OK;
	}

	/// Notes whether the hand waits for a tag of this set after this call. A refusal of what the
	/// call was given changes nothing, nor does a call for this set while it waits for the other.
	std::int32_t noted(std::int32_t answer, bool reserving) noexcept
	{
		const bool is_of_other = state_->is_async && state_->is_reserving != reserving;
		if (answer == TAGS_NULL || answer == TAGS_BAD_EVENT || is_of_other)
			return answer;
		state_->is_async = answer == TAGS_NO_TAG;
		state_->is_reserving = reserving;
		return answer;
	}

	std::int32_t async(int eventfd) noexcept
	{
		const std::int32_t status = can_listen();
		return status < 0 ? status : noted(tags_get_async(raw(), eventfd), false);
	}

	std::int32_t reserved_async(int eventfd) noexcept
	{
		const std::int32_t status = can_listen();
		return status < 0 ? status : noted(tags_get_reserved_async(raw(), eventfd), true);
	}

	std::int32_t notified(void (*function)(void *argument), void *argument) noexcept
	{
		const std::int32_t status = can_listen();
		return status < 0 ? status :
				    noted(tags_get_notified(raw(), function, argument), false);
	}

	std::int32_t reserved_notified(void (*function)(void *argument), void *argument) noexcept
	{
		const std::int32_t status = can_listen();
		return status < 0 ? status :
				    noted(tags_get_reserved_notified(raw(), function, argument), true);
	}

	std::int32_t try_cancel() noexcept
	{
		if (state_ == nullptr)
			return TAGS_BAD_HANDLE;
		if (state_->has_listener)
			return TAGS_WAITING;
		state_->is_async = false;
		return tags_cancel(raw());
	}

	std::int32_t try_adopt(std::uint32_t number) noexcept
	{
		const std::int32_t answer = tags_holds(raw(), number);
		if (answer < 0)
			return answer;
		if (answer == 0 || !state_->is_loose(number))
			return TAGS_NOT_HELD;
		state_->tie(number);
		return TAGS_OK;
	}

	/// A batch has no reserved tags, which do not go back together.
	std::int32_t try_take_batch(const numbers &posted) noexcept
	{
		if (state_ != nullptr && posted && *posted.begin() < state_->pool->reserved)
			return TAGS_NO_SUCH_TAG;
		return tags_take_mask(raw(), posted.first, posted.mask);
	}

	std::int32_t try_clear_batch(const std::uint32_t *numbers, std::size_t count) noexcept
	{
		if (state_ == nullptr)
			return TAGS_BAD_HANDLE;
		if (numbers == nullptr || count == 0 || count > TAGS_MAX_BATCH)
			return TAGS_BAD_COUNT;
		// The library looks for the other causes; what it does not know is which tags have
		// objects.
		bool are_loose = true;
		for (std::size_t i = 0; i < count; i++) {
			const std::int32_t answer = tags_holds(raw(), numbers[i]);
			if (answer < 0 || numbers[i] < state_->pool->reserved)
				return TAGS_NO_SUCH_TAG;
			are_loose &= answer == 1 && state_->is_loose(numbers[i]);
		}
		if (!are_loose)
			return TAGS_NOT_HELD;
		// Whoever is told may be a function that ends the list.
		for (std::size_t i = 0; i < count; i++)
			state_->tie(numbers[i]);
		const std::int32_t answer = tags_clear_batch(raw(), numbers, count);
		for (std::size_t i = 0; answer < 0 && i < count; i++)
			state_->let_go(numbers[i]);
		return answer;
	}

	std::int32_t try_busy(std::uint64_t *into, std::size_t words) noexcept
	{
		if (state_ != nullptr && into == nullptr)
			return TAGS_TOO_SMALL;
		return tags_busy(raw(), into, words);
	}

	std::optional<batch> won_batch(std::int32_t first, std::uint64_t won) const noexcept
	{
		if (first < 0)
			return std::nullopt;
		return batch(state_, {static_cast<std::uint32_t>(first), won});
	}

	template <std::size_t N, std::size_t... I>
	std::optional<std::array<tag, N>> won_many(std::int32_t answer,
						   const std::array<std::uint32_t, N> &numbers,
						   std::index_sequence<I...>) const noexcept
	{
		if (answer != TAGS_OK)
			return std::nullopt;
		return std::array<tag, N>{{tag(state_, numbers[I])...}};
	}

	std::int32_t try_get_released(std::uint32_t *numbers, std::size_t count) noexcept
	{
		if (state_ != nullptr && numbers == nullptr)
			return count == 0 ? TAGS_OK : TAGS_BAD_COUNT;
		const std::int32_t answer = tags_get_many(raw(), numbers, count);
		for (std::size_t i = 0; answer == TAGS_OK && i < count; i++)
			state_->let_go(numbers[i]);
		return answer;
	}

	static std::optional<tag> found(detail::joined *state, std::int32_t answer,
					std::error_code &ec) noexcept
	{
		detail::note(answer == TAGS_NO_TAG ? TAGS_OK : answer, ec);
		if (answer < 0)
			return std::nullopt;
		return tag(state, static_cast<std::uint32_t>(answer));
	}

	static std::optional<tag> found_in_time(detail::joined *state, std::int32_t answer,
						std::error_code &ec) noexcept
	{
		return found(state, answer == TAGS_TIMED_OUT ? TAGS_NO_TAG : answer, ec);
	}

	tag owned(std::int32_t answer, std::error_code &ec) const noexcept
	{
		detail::note(answer, ec);
		return answer < 0 ? tag() : tag(state_, static_cast<std::uint32_t>(answer));
	}

#ifdef TAGS_THROWS
	static std::optional<tag> found(detail::joined *state, std::int32_t answer)
	{
		if (answer >= 0)
			return tag(state, static_cast<std::uint32_t>(answer));
		if (answer != TAGS_NO_TAG)
			detail::fail(answer);
		return std::nullopt;
	}

	static std::optional<tag> found_in_time(detail::joined *state, std::int32_t answer)
	{
		return found(state, answer == TAGS_TIMED_OUT ? TAGS_NO_TAG : answer);
	}
#endif

	detail::joined *state_ = nullptr;
};

/*
 * Hands that threads share
 */

/// A tag that shared hands hold, or empty. Its destructor gives the tag back, on whichever thread that
/// is. Destroy it before its hands.
class [[nodiscard]] shared_tag {
public:
	shared_tag() noexcept = default;

	shared_tag(shared_tag &&other) noexcept
		: hands_(std::exchange(other.hands_, nullptr)), number_(other.number_)
	{}

	/// Gives the tag that this object had back, if it had one.
	shared_tag &operator=(shared_tag &&other) noexcept
	{
		shared_tag taken(std::move(other));
		std::swap(hands_, taken.hands_);
		std::swap(number_, taken.number_);
		return *this;
	}

	~shared_tag() { clear(); }

	/// Whether there is a tag.
	explicit operator bool() const noexcept { return hands_ != nullptr; }

	/// The number of the tag, below the pool's total. That of an empty object is unspecified.
	std::uint32_t number() const noexcept { return number_; }

	/// Gives the tag back now, if there is one. Whoever waits for a tag is told.
	void clear() noexcept
	{
		if (hands_ == nullptr)
			return;
		detail::shared *const hands = std::exchange(hands_, nullptr);
		detail::expect(tags_hands_clear(&hands->handle, number_));
	}

	/// Lets go of the tag without giving it back, and returns its number, for
	/// shared_hands::adopt() on any thread. An empty object stays so, and its number is
	/// unspecified.
	[[nodiscard]] std::uint32_t release() noexcept
	{
		if (hands_ != nullptr)
			std::exchange(hands_, nullptr)->let_go(number_);
		return number_;
	}

#ifdef TAGS_THROWS
	/// The value of the tag's slot. After a get it is unspecified until it is written.
	///
	/// Errors: bad_handle.
	std::uint64_t read() const
	{
		std::uint64_t value = 0;
		detail::check(tags_hands_read(detail::raw(hands_), number_, &value));
		return value;
	}

	/// Writes the tag's slot, and returns the former value.
	///
	/// Errors: bad_handle.
	std::uint64_t write(std::uint64_t value)
	{
		std::uint64_t former = 0;
		detail::check(tags_hands_write(detail::raw(hands_), number_, value, &former));
		return former;
	}

	/// Publishes the tag's note, as tag::note() does.
	///
	/// Errors: bad_handle, no_notes.
	void note(std::uint64_t value)
	{
		detail::check(tags_hands_note(detail::raw(hands_), number_, value));
	}
#endif

	std::uint64_t read(std::error_code &ec) const noexcept
	{
		std::uint64_t value = 0;
		detail::note(tags_hands_read(detail::raw(hands_), number_, &value), ec);
		return value;
	}

	std::uint64_t write(std::uint64_t value, std::error_code &ec) noexcept
	{
		std::uint64_t former = 0;
		detail::note(tags_hands_write(detail::raw(hands_), number_, value, &former), ec);
		return former;
	}

	void note(std::uint64_t value, std::error_code &ec) noexcept
	{
		detail::note(tags_hands_note(detail::raw(hands_), number_, value), ec);
	}

private:
	friend class shared_hands;
	template <class T>
	friend class values;

	shared_tag(detail::shared *hands, std::uint32_t number) noexcept
		: hands_(hands), number_(number)
	{}

	detail::shared *hands_ = nullptr;
	std::uint32_t number_ = 0;
};

/// Hands that any number of threads share, or empty, for more threads than hands, or threads that come
/// and go. pool::share() makes them. Any thread may make each call, at any time but while the object
/// is moved or destroyed: it takes the hand of the processor that it runs on, or the next one that no
/// other call has. A thread with a hand of its own is faster.
class shared_hands {
public:
	shared_hands() noexcept = default;

	shared_hands(shared_hands &&other) noexcept : state_(std::exchange(other.state_, nullptr)) {}

	/// Returns the hands that this object had to their pool, as the destructor does.
	shared_hands &operator=(shared_hands &&other) noexcept
	{
		shared_hands taken(std::move(other));
		std::swap(state_, taken.state_);
		return *this;
	}

	/// Calls std::terminate() if one of the hands still holds a tag.
	~shared_hands()
	{
		if (state_ != nullptr && try_close() == TAGS_IN_USE)
			detail::give_up("shared hands were destroyed before their tags");
	}

	/// Whether there are hands.
	explicit operator bool() const noexcept { return state_ != nullptr; }

	/// How many hands there are; 0 if it is empty.
	std::uint32_t count() const noexcept { return state_ != nullptr ? state_->handle.count : 0; }

	/// For the calls of tags.h: NULL if it is empty. Give back by them no tag that has an object,
	/// and give back by them what you get by them.
	tags_hands *native_handle() noexcept { return raw(); }

#ifdef TAGS_THROWS
	/// Returns the hands to their pool, as the destructor does. The object is empty then.
	///
	/// Errors: bad_handle; in_use if one of them still holds a tag.
	void close() { detail::check(try_close()); }

	/// Takes a free ordinary tag. No tag: as from hand::get().
	///
	/// Errors: bad_handle, spent.
	[[nodiscard]] std::optional<shared_tag> get() { return found(tags_hands_get(raw())); }

	/// Takes a free reserved tag. No tag: as from hand::get(), of the reserved ones.
	///
	/// Errors: bad_handle, no_reserved, spent.
	[[nodiscard]] std::optional<shared_tag> get_reserved()
	{
		return found(tags_hands_get_reserved(raw()));
	}

	/// Takes a free ordinary tag, and sleeps while there is none. Other threads may use all hands
	/// meanwhile. While it sleeps it is a cancellation point.
	///
	/// Errors: bad_handle, spent, stopped; no_such_tag if the pool has no ordinary tag.
	shared_tag get_blocking()
	{
		const std::int32_t answer = tags_hands_get_blocking(raw());
		detail::check(answer);
		return shared_tag(state_, static_cast<std::uint32_t>(answer));
	}

	/// The same, for at most this long, as hand::try_get_for(). No tag: the time is up.
	///
	/// Errors: as of get_blocking().
	template <class Rep, class Period>
	[[nodiscard]] std::optional<shared_tag>
	try_get_for(const std::chrono::duration<Rep, Period> &time)
	{
		return found_in_time(detail::wait_for(detail::for_shared_tag{state_},
						      detail::nanoseconds(time)));
	}

	/// The same, until this moment of any clock, as hand::try_get_until().
	///
	/// Errors: as of get_blocking().
	template <class Clock, class Duration>
	[[nodiscard]] std::optional<shared_tag>
	try_get_until(const std::chrono::time_point<Clock, Duration> &deadline)
	{
		return found_in_time(detail::wait_until(detail::for_shared_tag{state_}, deadline));
	}

	/// Makes an object for a tag that was released: one of these hands holds it, and it has no
	/// object. That includes the tags that the hands held when they left before.
	///
	/// Errors: bad_handle, no_such_tag; not_held for any other number of the pool.
	shared_tag adopt(std::uint32_t number)
	{
		detail::check(try_adopt(number));
		return shared_tag(state_, number);
	}

	/// Gives back what the hands keep, as hand::flush() does with each of them.
	///
	/// Errors: bad_handle.
	void flush() { detail::check(tags_hands_flush(raw())); }
#endif

	void close(std::error_code &ec) noexcept { detail::note(try_close(), ec); }

	[[nodiscard]] std::optional<shared_tag> get(std::error_code &ec) noexcept
	{
		return found(tags_hands_get(raw()), ec);
	}

	[[nodiscard]] std::optional<shared_tag> get_reserved(std::error_code &ec) noexcept
	{
		return found(tags_hands_get_reserved(raw()), ec);
	}

	// The forms that sleep are not noexcept, as those of a hand.

	shared_tag get_blocking(std::error_code &ec)
	{
		const std::int32_t answer = tags_hands_get_blocking(raw());
		detail::note(answer, ec);
		return answer < 0 ? shared_tag() :
				    shared_tag(state_, static_cast<std::uint32_t>(answer));
	}

	template <class Rep, class Period>
	[[nodiscard]] std::optional<shared_tag>
	try_get_for(const std::chrono::duration<Rep, Period> &time, std::error_code &ec)
	{
		return found_in_time(detail::wait_for(detail::for_shared_tag{state_},
						      detail::nanoseconds(time)),
				     ec);
	}

	template <class Clock, class Duration>
	[[nodiscard]] std::optional<shared_tag>
	try_get_until(const std::chrono::time_point<Clock, Duration> &deadline, std::error_code &ec)
	{
		return found_in_time(detail::wait_until(detail::for_shared_tag{state_}, deadline), ec);
	}

	shared_tag adopt(std::uint32_t number, std::error_code &ec) noexcept
	{
		const std::int32_t status = try_adopt(number);
		detail::note(status, ec);
		return status < 0 ? shared_tag() : shared_tag(state_, number);
	}

	void flush(std::error_code &ec) noexcept { detail::note(tags_hands_flush(raw()), ec); }

private:
	friend class pool;

	explicit shared_hands(detail::shared *state) noexcept : state_(state) {}

	tags_hands *raw() const noexcept { return detail::raw(state_); }

	std::int32_t try_close() noexcept
	{
		if (state_ == nullptr)
			return TAGS_BAD_HANDLE;
		const std::int32_t status = state_->close();
		if (status != TAGS_IN_USE)
			state_ = nullptr;
		return status;
	}

	std::int32_t try_adopt(std::uint32_t number) noexcept
	{
		if (state_ == nullptr)
			return TAGS_BAD_HANDLE;
		if (number >= state_->handle.total)
			return TAGS_NO_SUCH_TAG;
		return state_->tie(number) ? TAGS_OK : TAGS_NOT_HELD;
	}

	std::optional<shared_tag> found(std::int32_t answer, std::error_code &ec) const noexcept
	{
		detail::note(answer == TAGS_NO_TAG ? TAGS_OK : answer, ec);
		if (answer < 0)
			return std::nullopt;
		return shared_tag(state_, static_cast<std::uint32_t>(answer));
	}

	std::optional<shared_tag> found_in_time(std::int32_t answer, std::error_code &ec) const noexcept
	{
		return found(answer == TAGS_TIMED_OUT ? TAGS_NO_TAG : answer, ec);
	}

#ifdef TAGS_THROWS
	std::optional<shared_tag> found(std::int32_t answer) const
	{
		if (answer >= 0)
			return shared_tag(state_, static_cast<std::uint32_t>(answer));
		if (answer != TAGS_NO_TAG)
			detail::fail(answer);
		return std::nullopt;
	}

	std::optional<shared_tag> found_in_time(std::int32_t answer) const
	{
		return found(answer == TAGS_TIMED_OUT ? TAGS_NO_TAG : answer);
	}
#endif

	detail::shared *state_ = nullptr;
};

/*
 * Pools
 */

/// The tags that threads share, or empty. If it is destroyed before its hands it stays open until
/// the last of them is.
class pool {
public:
	pool() noexcept = default;

	pool(pool &&other) noexcept : shared_(std::exchange(other.shared_, nullptr)) {}

	pool &operator=(pool &&other) noexcept
	{
		pool taken(std::move(other));
		std::swap(shared_, taken.shared_);
		return *this;
	}

	~pool() { end(); }

	/// Whether it is open.
	explicit operator bool() const noexcept { return shared_ != nullptr; }

	/// Number of tags, including the reserved ones; 0 if it is empty.
	std::uint32_t total() const noexcept { return counted(tags_pool_total(raw())); }

	/// Number of reserved tags: 0 to reserved() - 1; 0 if it is empty.
	std::uint32_t reserved() const noexcept
	{
		return shared_ != nullptr ? shared_->reserved : 0;
	}

	/// The most tags that one hand::get_batch() returns: as many as the longest word has, which
	/// in a pool with fewer ordinary tags than a word has bits are all of these; 0 if it is empty.
	std::uint32_t batch_limit() const noexcept { return counted(tags_pool_batch(raw())); }

	/// For the calls of tags.h: NULL if it is empty. Do not close it by them.
	tags_pool *native_handle() noexcept { return raw(); }

#ifdef TAGS_THROWS
	/// Opens a pool. All tags are free, and all slots are 0.
	///
	/// Errors: bad_queue_count, cache_too_large, total_too_large, reserved_too_large,
	/// shift_too_large, bad_hand_count, no_memory.
	explicit pool(const options &asked) { detail::check(open(asked)); }

	/// Returns a hand for one thread. Its gets start in its own part of the tags, which reduces
	/// contention.
	///
	/// Errors: bad_handle, no_memory; no_hand if all hands are out.
	[[nodiscard]] hand join() { return joined_by(0); }

	/// The same, but the hand's next get starts where its last one left off, or at tag 0.
	[[nodiscard]] hand join_in_place() { return joined_by(TAGS_STAY); }

	/// Returns a hand for one thread, and sleeps while all hands are out. Those who sleep get the
	/// hands that leave in turn. Don't sleep while this thread has a hand that others wait for.
	/// While it sleeps it is a cancellation point.
	///
	/// Errors: bad_handle, no_memory; stopped if it would have to sleep in a pool that was
	/// stopped.
	[[nodiscard]] hand join_blocking()
	{
		hand made;
		detail::check(try_join_by(made, detail::join_asleep{}));
		return made;
	}

	/// The same, for at most this long, by std::chrono::steady_clock. No hand: the time is up.
	///
	/// Errors: as of join_blocking().
	template <class Rep, class Period>
	[[nodiscard]] std::optional<hand> try_join_for(const std::chrono::duration<Rep, Period> &time)
	{
		hand made;
		const detail::join_for<std::chrono::duration<Rep, Period>> join{time};
		const std::int32_t status = try_join_by(made, join);
		return joined_in_time(std::move(made), status);
	}

	/// The same, until this moment of any clock, as of hand::try_get_until().
	///
	/// Errors: as of join_blocking().
	template <class Clock, class Duration>
	[[nodiscard]] std::optional<hand>
	try_join_until(const std::chrono::time_point<Clock, Duration> &deadline)
	{
		hand made;
		const detail::join_until<std::chrono::time_point<Clock, Duration>> join{deadline};
		const std::int32_t status = try_join_by(made, join);
		return joined_in_time(std::move(made), status);
	}

	/// Returns so many hands that any number of threads share; 0 for one for each processor, or for
	/// all that are vacant if these are fewer. Threads may join with hands of their own, too. The
	/// pool has to have no queues, which these hands don't use.
	///
	/// Errors: bad_handle, bad_hand_count, no_memory; bad_queue_count if the pool has queues;
	/// no_hand if fewer are vacant, or none.
	[[nodiscard]] shared_hands share(std::uint32_t count = 0)
	{
		shared_hands made;
		detail::check(try_share(made, count));
		return made;
	}

	/// Sleeps until all tags are back: none of either set is held, posted, or kept in a cache.
	/// For a shutdown and before a resize, when threads get no more tags; see tags_drain(). A hand
	/// that makes no more clears, such as one of this thread, has to flush() before. While it sleeps
	/// it is a cancellation point.
	///
	/// Errors: bad_handle.
	void drain() { detail::check(tags_drain(raw())); }

	/// The same, for at most this long. Returns whether all tags are back.
	///
	/// Errors: bad_handle.
	template <class Rep, class Period>
	[[nodiscard]] bool try_drain_for(const std::chrono::duration<Rep, Period> &time)
	{
		return in_time(detail::wait_for(detail::for_all_tags{raw()},
						detail::nanoseconds(time)));
	}

	/// The same, until this moment of any clock. Returns whether all tags are back.
	///
	/// Errors: bad_handle.
	template <class Clock, class Duration>
	[[nodiscard]] bool
	try_drain_until(const std::chrono::time_point<Clock, Duration> &deadline)
	{
		return in_time(detail::wait_until(detail::for_all_tags{raw()}, deadline));
	}

	/// Sleeps until each tag of a list of any length, of either set and in any order, was found
	/// free at some moment of the call, though not all of them at one moment. For the end of a
	/// connection of a server, while others go on; see tags_drain_list(). While it sleeps it is
	/// a cancellation point.
	///
	/// Errors: bad_handle, also for a count without a list; no_such_tag.
	void drain_list(const std::uint32_t *numbers, std::size_t count)
	{
		detail::check(tags_drain_list(raw(), numbers, count));
	}

	/// The same, for at most this long. Returns whether each tag has been back.
	///
	/// Errors: as of drain_list().
	template <class Rep, class Period>
	[[nodiscard]] bool try_drain_list_for(const std::uint32_t *numbers, std::size_t count,
					      const std::chrono::duration<Rep, Period> &time)
	{
		return in_time(detail::wait_for(detail::for_listed{raw(), numbers, count},
						detail::nanoseconds(time)));
	}

	/// The same, until this moment of any clock. Returns whether each tag has been back.
	///
	/// Errors: as of drain_list().
	template <class Clock, class Duration>
	[[nodiscard]] bool
	try_drain_list_until(const std::uint32_t *numbers, std::size_t count,
			     const std::chrono::time_point<Clock, Duration> &deadline)
	{
		return in_time(detail::wait_until(detail::for_listed{raw(), numbers, count}, deadline));
	}

	/// Changes the number of tags to this, as many of them reserved as before, once all hands
	/// have left. The ordinary tags are new, with slots of 0; the reserved tags and the totals
	/// stay.
	///
	/// Errors: bad_handle, total_too_large, hands_out, no_memory; reserved_too_large if it is
	/// below the number of reserved tags; in_use if a tag is still held or posted.
	void resize(std::uint32_t total) { detail::check(try_resize(total)); }

	/// Ends every wait for a tag or a hand, now and from now on, as for a shutdown. Who waits is
	/// woken, and refused with stopped; so is who begins to wait, even while a tag is free. Only
	/// what is queued is still returned by the waits for it. A call that was waiting may still
	/// return a tag or a hand. All other calls work as before.
	///
	/// Errors: bad_handle.
	void stop() { detail::check(try_stop()); }

	/// Lets waits begin again after stop(). A wait that began before the stop ends, also if this
	/// call follows at once.
	///
	/// Errors: bad_handle.
	void resume() { detail::check(tags_resume(raw())); }

	/// Reports which tags of both sets are busy, as hand::busy() does, but without a hand: at
	/// any time, also while all hands are out or another thread resizes the pool.
	///
	/// Errors: bad_handle, too_small.
	std::uint32_t busy(std::uint64_t *into, std::size_t words) const
	{
		const std::int32_t answer = try_busy(into, words);
		detail::check(answer);
		return static_cast<std::uint32_t>(answer);
	}

	/// Calls look(number) for each busy tag of both sets, in ascending order, and returns how many
	/// times: for example to find requests that take too long. A look returns true to go on and
	/// false to be the last, or nothing, and may make any call. This needs no hand, works at any
	/// time, as busy() does, and allocates nothing.
	///
	/// A tag that is busy from the beginning of this call until the first look is passed, once.
	/// While other threads work, a tag that has gone back may be passed too, and any tag may go
	/// back, and have another user, while look() runs. A kept tag is passed, and has no user. So
	/// look only at what the program makes atomic, such as an array of std::atomic with the number
	/// as the index, or let holders publish notes, for each_noted(); a slot and a value are for
	/// whoever holds the tag.
	///
	/// Errors: bad_handle; and what look throws.
	template <class Look>
	std::uint32_t each_busy(Look look) const
	{
		const detail::busy_bits found(raw());
		detail::check(found.answer);
		return found.each(look);
	}

	/// Calls look(number, note) for each busy tag, as each_busy() does, of a pool with
	/// options::notes. The note is an std::optional<noted>: what the tag's user published by
	/// note(), or nothing, as of a tag that has just been got, or is kept.
	///
	/// It was that of the tag's user at one moment of this call: never that of one who had given
	/// the tag back before, nor the value of one note and the time of another. A tag that has a
	/// note all the while is passed with one. This call finds some tags, with their notes, and
	/// passes these before it looks for the next ones.
	///
	/// Errors: bad_handle, no_notes; and what look throws.
	template <class Look>
	std::uint32_t each_noted(Look look) const
	{
		detail::noted_tags found(raw());
		detail::check(found.answer);
		return found.each(look);
	}

	/// Reports the sizes of a set of tags, and how many of them are busy, without a hand.
	///
	/// Errors: bad_handle.
	sizes show(kind of) const
	{
		sizes made = {};
		detail::check(tags_pool_show(raw(), static_cast<std::uint32_t>(of), &made));
		return made;
	}

	/// How many wait, as hand::waiting() tells, without a hand.
	///
	/// Errors: bad_handle.
	std::uint32_t waiting() const
	{
		const std::int32_t answer = tags_pool_waiting(raw());
		detail::check(answer);
		return counted(answer);
	}

	/// How many tags are in a queue, at any time and without a hand. A tag counts from the middle of
	/// the call that submits it to that of the call that takes it.
	///
	/// Errors: bad_handle, no_such_queue.
	std::uint32_t queued(std::uint32_t queue) const
	{
		const std::int32_t answer = tags_pool_queued(raw(), queue);
		detail::check(answer);
		return counted(answer);
	}

	/// Closes the pool once all hands have left, and returns its totals: how many tags were
	/// got and went back, and how many are held by hands that left, or posted. The object is
	/// empty then.
	///
	/// Errors: bad_handle, hands_out.
	totals close()
	{
		totals sums = {};
		detail::check(try_close(sums));
		return sums;
	}
#endif

	pool(const options &asked, std::error_code &ec) noexcept { detail::note(open(asked), ec); }

	[[nodiscard]] hand join(std::error_code &ec) noexcept
	{
		hand made;
		detail::note(try_join(made, 0), ec);
		return made;
	}

	[[nodiscard]] hand join_in_place(std::error_code &ec) noexcept
	{
		hand made;
		detail::note(try_join(made, TAGS_STAY), ec);
		return made;
	}

	[[nodiscard]] shared_hands share(std::uint32_t count, std::error_code &ec) noexcept
	{
		shared_hands made;
		detail::note(try_share(made, count), ec);
		return made;
	}

	// The forms that sleep are not noexcept, as those of a hand.

	[[nodiscard]] hand join_blocking(std::error_code &ec)
	{
		hand made;
		detail::note(try_join_by(made, detail::join_asleep{}), ec);
		return made;
	}

	template <class Rep, class Period>
	[[nodiscard]] std::optional<hand> try_join_for(const std::chrono::duration<Rep, Period> &time,
						       std::error_code &ec)
	{
		hand made;
		const detail::join_for<std::chrono::duration<Rep, Period>> join{time};
		const std::int32_t status = try_join_by(made, join);
		return joined_in_time(std::move(made), status, ec);
	}

	template <class Clock, class Duration>
	[[nodiscard]] std::optional<hand>
	try_join_until(const std::chrono::time_point<Clock, Duration> &deadline, std::error_code &ec)
	{
		hand made;
		const detail::join_until<std::chrono::time_point<Clock, Duration>> join{deadline};
		const std::int32_t status = try_join_by(made, join);
		return joined_in_time(std::move(made), status, ec);
	}

	void drain(std::error_code &ec) { detail::note(tags_drain(raw()), ec); }

	template <class Rep, class Period>
	[[nodiscard]] bool try_drain_for(const std::chrono::duration<Rep, Period> &time,
					 std::error_code &ec)
	{
		return in_time(detail::wait_for(detail::for_all_tags{raw()},
						detail::nanoseconds(time)),
			       ec);
	}

	template <class Clock, class Duration>
	[[nodiscard]] bool
	try_drain_until(const std::chrono::time_point<Clock, Duration> &deadline, std::error_code &ec)
	{
		return in_time(detail::wait_until(detail::for_all_tags{raw()}, deadline), ec);
	}

	void drain_list(const std::uint32_t *numbers, std::size_t count, std::error_code &ec)
	{
		detail::note(tags_drain_list(raw(), numbers, count), ec);
	}

	template <class Rep, class Period>
	[[nodiscard]] bool try_drain_list_for(const std::uint32_t *numbers, std::size_t count,
					      const std::chrono::duration<Rep, Period> &time,
					      std::error_code &ec)
	{
		return in_time(detail::wait_for(detail::for_listed{raw(), numbers, count},
						detail::nanoseconds(time)),
			       ec);
	}

	template <class Clock, class Duration>
	[[nodiscard]] bool
	try_drain_list_until(const std::uint32_t *numbers, std::size_t count,
			     const std::chrono::time_point<Clock, Duration> &deadline,
			     std::error_code &ec)
	{
		return in_time(detail::wait_until(detail::for_listed{raw(), numbers, count}, deadline),
			       ec);
	}

	void resize(std::uint32_t total, std::error_code &ec) noexcept
	{
		detail::note(try_resize(total), ec);
	}

	void resume(std::error_code &ec) noexcept { detail::note(tags_resume(raw()), ec); }

	void stop(std::error_code &ec) noexcept { detail::note(try_stop(), ec); }

	std::uint32_t busy(std::uint64_t *into, std::size_t words,
			   std::error_code &ec) const noexcept
	{
		const std::int32_t answer = try_busy(into, words);
		detail::note(answer, ec);
		return counted(answer);
	}

	/// Throws nothing but what look throws. Then ec is set already.
	template <class Look>
	std::uint32_t each_busy(Look look, std::error_code &ec) const
	{
		const detail::busy_bits found(raw());
		detail::note(found.answer, ec);
		return found.each(look);
	}

	/// Throws nothing but what look throws. Then ec is set already.
	template <class Look>
	std::uint32_t each_noted(Look look, std::error_code &ec) const
	{
		detail::noted_tags found(raw());
		detail::note(found.answer, ec);
		return found.each(look);
	}

	sizes show(kind of, std::error_code &ec) const noexcept
	{
		sizes made = {};
		detail::note(tags_pool_show(raw(), static_cast<std::uint32_t>(of), &made), ec);
		return made;
	}

	std::uint32_t waiting(std::error_code &ec) const noexcept
	{
		const std::int32_t answer = tags_pool_waiting(raw());
		detail::note(answer, ec);
		return counted(answer);
	}

	std::uint32_t queued(std::uint32_t queue, std::error_code &ec) const noexcept
	{
		const std::int32_t answer = tags_pool_queued(raw(), queue);
		detail::note(answer, ec);
		return counted(answer);
	}

	totals close(std::error_code &ec) noexcept
	{
		totals sums = {};
		detail::note(try_close(sums), ec);
		return sums;
	}

private:
	template <class T>
	friend class values;

#ifdef TAGS_THROWS
	hand joined_by(std::uint32_t flags)
	{
		hand made;
		detail::check(try_join(made, flags));
		return made;
	}
#endif

	std::int32_t open(const options &asked) noexcept
	{
		const tags_options native = asked.native();
		std::unique_ptr<detail::opened> made(new (std::nothrow) detail::opened);
		if (!made)
			return TAGS_NO_MEMORY;
		const std::int32_t status = tags_open(&made->handle, &native);
		if (status != TAGS_OK)
			return status;
		made->reserved = asked.reserved;
		shared_ = made.release();
		return TAGS_OK;
	}

	std::int32_t try_join(hand &made, std::uint32_t flags) noexcept
	{
		return try_join_by(made, detail::join_now{flags});
	}

	/// Joins by a call of tags.h. A thread that is cancelled in it unwinds.
	template <class Join>
	std::int32_t try_join_by(hand &made, const Join &join)
	{
		if (shared_ == nullptr)
			return TAGS_BAD_HANDLE;
		std::unique_ptr<detail::joined> state(new (std::nothrow) detail::joined);
		if (!state)
			return TAGS_NO_MEMORY;
		const std::int32_t status = join(&shared_->handle, &state->handle);
		if (status != TAGS_OK)
			return status;
		shared_->hold();
		state->pool = shared_;
		state->find_loose();
		made = hand(state.release());
		return TAGS_OK;
	}

	std::int32_t try_share(shared_hands &made, std::uint32_t count) noexcept
	{
		if (shared_ == nullptr)
			return TAGS_BAD_HANDLE;
		std::unique_ptr<detail::shared> state(new (std::nothrow) detail::shared);
		if (!state)
			return TAGS_NO_MEMORY;
		const std::int32_t status = tags_hands_open(&shared_->handle, &state->handle, count);
		if (status != TAGS_OK)
			return status;
		shared_->hold();
		state->pool = shared_;
		state->find_loose();
		made = shared_hands(state.release());
		return TAGS_OK;
	}

	static std::optional<hand> joined_in_time(hand made, std::int32_t status,
						  std::error_code &ec) noexcept
	{
		if (!in_time(status, ec))
			return std::nullopt;
		return std::optional<hand>(std::move(made));
	}

	/// Whether a wait has ended as it should. That it took too long is no error.
	static bool in_time(std::int32_t status, std::error_code &ec) noexcept
	{
		detail::note(status == TAGS_TIMED_OUT ? TAGS_OK : status, ec);
		return status >= 0;
	}

#ifdef TAGS_THROWS
	static std::optional<hand> joined_in_time(hand made, std::int32_t status)
	{
		if (!in_time(status))
			return std::nullopt;
		return std::optional<hand>(std::move(made));
	}

	static bool in_time(std::int32_t status)
	{
		if (status != TAGS_TIMED_OUT)
			detail::check(status);
		return status >= 0;
	}
#endif

	std::int32_t try_resize(std::uint32_t total) noexcept
	{
		return tags_resize(raw(), total);
	}

	std::int32_t try_stop() noexcept
	{
		return tags_stop(raw());
	}

	std::int32_t try_busy(std::uint64_t *into, std::size_t words) const noexcept
	{
		if (shared_ != nullptr && into == nullptr)
			return TAGS_TOO_SMALL;
		return tags_pool_busy(raw(), into, words);
	}

	std::int32_t try_close(totals &sums) noexcept
	{
		const std::int32_t status = tags_close(raw(), &sums);
		if (status == TAGS_OK)
			end();
		return status;
	}

	tags_pool *raw() const noexcept
	{
		return shared_ != nullptr ? &shared_->handle : nullptr;
	}

	/// What a call returned, or 0 of an empty pool.
	static std::uint32_t counted(std::int32_t answer) noexcept
	{
		return answer < 0 ? 0 : static_cast<std::uint32_t>(answer);
	}

	void end() noexcept
	{
		if (shared_ != nullptr)
			std::exchange(shared_, nullptr)->drop();
	}

	detail::opened *shared_ = nullptr;
};

/*
 * A value beside each tag
 */

/// A value of type T beside each tag of a pool, such as a buffer or a request, for whoever holds
/// the tag. It stays when its tag goes back, and passes with a tag that is posted. Any thread may
/// look up the value of a tag that it holds, and no lock is taken: the library gives a tag to one
/// hand at a time, and what its former holder wrote is seen by the next one.
template <class T>
class values {
public:
	values() noexcept = default;
	values(values &&other) noexcept { swap(other); }

	values &operator=(values &&other) noexcept
	{
		values(std::move(other)).swap(*this);
		return *this;
	}

	~values()
	{
		while (to_ > from_)
			values_[--to_].~T();
		::operator delete(static_cast<void *>(values_), std::align_val_t(alignof(T)));
	}

#ifdef TAGS_THROWS
	/// Makes a value T() for each tag of the pool.
	///
	/// Errors: bad_handle if the pool is empty, no_memory.
	explicit values(const pool &of) : values(of, &none) {}

	/// Makes a value for each tag of the pool, which make returns for the tag's number. T need
	/// not be movable.
	///
	/// Errors: bad_handle if the pool is empty, no_memory; and what make throws.
	template <class Make>
	values(const pool &of, Make make)
	{
		detail::check(fill(of, 0, make));
	}

	/// The value beside a tag. Everything is checked, always.
	///
	/// Errors: no_such_tag if the tag is empty, one of another pool, or not below size(), as
	/// after pool::resize() without resize().
	T &at(const tag &held) const { return checked(held); }
	T &at(const shared_tag &held) const { return checked(held); }

	/// The value beside one of the tags of a batch.
	///
	/// Errors: no_such_tag as for a tag, or if the batch does not have it.
	T &at(const batch &held, std::uint32_t number) const
	{
		if (!has(held, number))
			detail::fail(TAGS_NO_SUCH_TAG);
		return values_[number];
	}

	/// After pool::resize(): makes new values for the ordinary tags. The reserved tags keep
	/// theirs. If this fails all values are as before.
	///
	/// Errors: bad_handle if the pool is empty, no_memory; no_such_tag for another pool than
	/// before; and what make throws.
	void resize(const pool &of) { resize(of, &none); }

	template <class Make, class = std::enable_if_t<std::is_invocable_v<Make &, std::uint32_t>>>
	void resize(const pool &of, Make make)
	{
		detail::check(refill(of, make));
	}
#endif

	// These throw nothing but what make throws.

	values(const pool &of, std::error_code &ec) : values(of, &none, ec) {}

	template <class Make>
	values(const pool &of, Make make, std::error_code &ec)
	{
		detail::note(fill(of, 0, make), ec);
	}

	/// NULL if it is refused.
	T *at(const tag &held, std::error_code &ec) const noexcept { return noted(held, ec); }
	T *at(const shared_tag &held, std::error_code &ec) const noexcept { return noted(held, ec); }

	T *at(const batch &held, std::uint32_t number, std::error_code &ec) const noexcept
	{
		const bool is_here = has(held, number);
		detail::note(is_here ? TAGS_OK : TAGS_NO_SUCH_TAG, ec);
		return is_here ? &values_[number] : nullptr;
	}

	void resize(const pool &of, std::error_code &ec) { resize(of, &none, ec); }

	template <class Make>
	void resize(const pool &of, Make make, std::error_code &ec)
	{
		detail::note(refill(of, make), ec);
	}

	/// The value beside a tag. It has to be a tag of the pool that the values were made for, and
	/// below size(): anything else is undefined behaviour, unless assert() is compiled in, which
	/// then ends the program. at() checks the same without it.
	T &operator[](const tag &held) const noexcept
	{
		assert(has(held));
		return values_[held.number_];
	}

	T &operator[](const shared_tag &held) const noexcept
	{
		assert(has(held));
		return values_[held.number_];
	}

	/// How many values there are: the pool's total when they were made or resized.
	std::size_t size() const noexcept { return to_; }

	void swap(values &other) noexcept
	{
		std::swap(pool_, other.pool_);
		std::swap(values_, other.values_);
		std::swap(from_, other.from_);
		std::swap(to_, other.to_);
	}

private:
	static T none(std::uint32_t) { return T(); }

	bool has(const tag &held) const noexcept
	{
		return held.hand_ != nullptr && held.hand_->pool->number == pool_ &&
		       held.number_ < to_;
	}

	bool has(const shared_tag &held) const noexcept
	{
		return held.hands_ != nullptr && held.hands_->pool->number == pool_ &&
		       held.number_ < to_;
	}

	template <class Tag>
	T *noted(const Tag &held, std::error_code &ec) const noexcept
	{
		const bool is_here = has(held);
		detail::note(is_here ? TAGS_OK : TAGS_NO_SUCH_TAG, ec);
		return is_here ? &values_[held.number_] : nullptr;
	}

#ifdef TAGS_THROWS
	template <class Tag>
	T &checked(const Tag &held) const
	{
		if (!has(held))
			detail::fail(TAGS_NO_SUCH_TAG);
		return values_[held.number_];
	}
#endif

	bool has(const batch &held, std::uint32_t number) const noexcept
	{
		return held.has(number) && held.hand_->pool->number == pool_ && number < to_;
	}

	/// Makes the values from this tag on.
	template <class Make>
	std::int32_t fill(const pool &of, std::uint32_t from, Make &make)
	{
		if (of.shared_ == nullptr)
			return TAGS_BAD_HANDLE;
		const std::uint32_t total = of.total();
		const std::align_val_t alignment{alignof(T)};
		values made;
		made.values_ = static_cast<T *>(
			::operator new(total * sizeof(T), alignment, std::nothrow));
		if (made.values_ == nullptr)
			return TAGS_NO_MEMORY;
		made.pool_ = of.shared_->number;
		made.from_ = from;
		for (made.to_ = from; made.to_ < total; made.to_++)
			::new (static_cast<void *>(made.values_ + made.to_)) T(make(made.to_));
		swap(made);
		return TAGS_OK;
	}

	template <class Make>
	std::int32_t refill(const pool &of, Make &make)
	{
		static_assert(std::is_nothrow_move_constructible_v<T>,
			      "the values of reserved tags are moved: make a new object instead");
		if (of.shared_ != nullptr && of.shared_->number != pool_)
			return TAGS_NO_SUCH_TAG;
		values made;
		const std::int32_t status = made.fill(of, of.reserved(), make);
		if (status != TAGS_OK)
			return status;
		while (made.from_ > 0) {
			made.from_--;
			::new (static_cast<void *>(made.values_ + made.from_))
				T(std::move(values_[made.from_]));
		}
		swap(made);
		return TAGS_OK;
	}

	/// The number of the pool, which tells its tags from others.
	std::uint64_t pool_ = 0;
	T *values_ = nullptr;
	/// Those that have been made: all, except while they are made.
	std::uint32_t from_ = 0;
	std::uint32_t to_ = 0;
};

} // namespace tags

#undef TAGS_VISIBLE
#undef TAGS_THROWS

#endif
#endif
