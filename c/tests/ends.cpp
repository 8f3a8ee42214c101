// What ends the program, and says why: a hand that is destroyed before what belongs to it. Each is
// tried in a process of its own, which ends by std::terminate().
#include "check.hpp"

#include <cstdlib>
#include <cstring>
#include <sys/wait.h>
#include <unistd.h>

#ifdef __cpp_impl_coroutine
#include "../tags_async.hpp"
#endif

static std::error_code ec;

enum { TERMINATED = 42 };

[[noreturn]] static void terminated() { std::_Exit(TERMINATED); }

// Runs this in a process of its own: whether it terminates there, with this line on stderr.
template <class Run>
static bool terminates(const char *line, Run run)
{
	int ends[2];
	if (pipe(ends) != 0)
		return false;
	const pid_t child = fork();
	if (child == 0) {
		dup2(ends[1], STDERR_FILENO);
		std::set_terminate(terminated);
		run();
		std::_Exit(0);
	}
	close(ends[1]);
	std::string said(200, '\0');
	const ssize_t length = read(ends[0], said.data(), said.size());
	said.resize(length > 0 ? static_cast<std::size_t>(length) : 0);
	close(ends[0]);
	int status = 0;
	waitpid(child, &status, 0);
	return WIFEXITED(status) && WEXITSTATUS(status) == TERMINATED &&
	       said == std::string("tags.hpp: ") + line + "\n";
}

static void shared_hands_before_their_tag()
{
	const char *const line = "shared hands were destroyed before their tags";
	CHECK(terminates(line, [] {
		tags::pool pool(sized(4, 2), ec);
		tags::shared_tag tag;
		tags::shared_hands hands = pool.share(2, ec);
		tag = *hands.get(ec);
	}));
	CHECK(terminates(line, [] {
		tags::pool pool(sized(4, 2), ec);
		tags::shared_hands hands = pool.share(1, ec);
		if (hands.get(ec)->release() < 4)
			hands = pool.share(1, ec);
	}));
}

static void a_hand_before_its_tag()
{
	const char *const line = "a hand was destroyed before its tags";
	CHECK(terminates(line, [] {
		tags::pool pool(sized(4, 1), ec);
		tags::tag tag;
		tags::hand hand = pool.join(ec);
		tag = *hand.get(ec);
	}));
	CHECK(terminates(line, [] {
		tags::pool pool(sized(128, 2, 2), ec);
		tags::hand other = pool.join(ec);
		const tags::tag first = *other.get(ec);
		tags::tag reserved;
		tags::hand hand = pool.join(ec);
		reserved = *hand.get_reserved(ec);
		hand = tags::hand();
	}));
	CHECK(terminates(line, [] {
		tags::pool pool(sized(64, 1), ec);
		tags::batch batch;
		tags::hand hand = pool.join(ec);
		batch = *hand.get_batch(3, ec);
	}));
	// A tag with an object beside one that was released.
	CHECK(terminates(line, [] {
		tags::pool pool(sized(64, 1), ec);
		tags::tag tag;
		tags::hand hand = pool.join(ec);
		static_cast<void>(hand.get(ec)->release());
		tag = *hand.get(ec);
	}));
}

static void a_tag_given_back_behind_its_object()
{
	CHECK(terminates("a tag was given back by other means than its object", [] {
		tags::pool pool(sized(4, 1), ec);
		tags::hand hand = pool.join(ec);
		const tags::tag tag = *hand.get(ec);
		[[maybe_unused]] const std::int32_t status =
			tags_clear(hand.native_handle(), tag.number());
	}));
}

#ifdef __cpp_impl_coroutine
struct task {
	struct promise_type {
		task get_return_object() { return {}; }
		std::suspend_never initial_suspend() noexcept { return {}; }
		std::suspend_never final_suspend() noexcept { return {}; }
		void return_void() noexcept {}
		void unhandled_exception() noexcept {}
	};
};

static task wait_for_tag(tags::listener &listener)
{
	const tags::tag tag = co_await listener.get(ec);
}

static void listeners()
{
	CHECK(terminates("a hand was destroyed before its listener", [] {
		tags::pool pool(sized(4, 1), ec);
		std::optional<tags::listener> listener;
		tags::hand hand = pool.join(ec);
		listener.emplace(hand, 0);
	}));
	CHECK(terminates("a listener was destroyed while a coroutine waits", [] {
		tags::pool pool(sized(1, 1), ec);
		tags::hand hand = pool.join(ec);
		const tags::tag tag = *hand.get(ec);
		tags::listener listener(hand, 0);
		wait_for_tag(listener);
	}));
}
#endif

// What has to end in no such way.
static void orderly_ends()
{
	CHECK(!terminates("", [] {
		tags::options options = sized(64, 2);
		options.cache = 8;
		tags::pool pool(options, ec);
		tags::hand other = pool.join(ec);
		const tags::tag first = *other.get(ec);
		tags::hand hand = pool.join(ec);
		hand.get(ec)->clear();
		static_cast<void>(hand.get(ec)->release());
		static_cast<void>(hand.get(ec)->post(ec));
	}));
}

int main()
{
	a_hand_before_its_tag();
	shared_hands_before_their_tag();
	a_tag_given_back_behind_its_object();
#ifdef __cpp_impl_coroutine
	listeners();
#endif
	orderly_ends();
	return report();
}
