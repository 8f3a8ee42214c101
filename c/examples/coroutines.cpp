// One thread that never sleeps for a tag alone, in C++20: four streams of requests are coroutines
// that await tags, three for all of them, and the completions of their requests. Under poll() the
// thread waits for "a tag or a completion". A device in a second thread sends the tags of completed
// requests back by a pipe, as a ring of completions would come.
#include <coroutine>
#include <cstdint>
#include <cstdio>
#include <cstdlib>
#include <exception>
#include <poll.h>
#include <sys/eventfd.h>
#include <tags_async.hpp>
#include <thread>
#include <unistd.h>

constexpr int streams = 4;
constexpr int depth = 3;
constexpr int requests = 5000;

// A coroutine that begins at once, and that nobody awaits.
struct task {
	struct promise_type {
		task get_return_object() { return {}; }
		std::suspend_never initial_suspend() noexcept { return {}; }
		std::suspend_never final_suspend() noexcept { return {}; }
		void return_void() {}
		void unhandled_exception() { std::terminate(); }
	};
};

static void must(bool is_well, const char *what)
{
	if (!is_well) {
		std::perror(what);
		std::exit(1);
	}
}

// What goes to the device and comes back: the tag of a request, and who awaits it.
struct message {
	std::uint32_t tag;
	void *coroutine;
};

class device {
public:
	device()
	{
		must(pipe(to_device_) == 0 && pipe(to_loop_) == 0, "pipe");
		thread_ = std::thread([this] {
			message next;
			while (read(to_device_[0], &next, sizeof(next)) == sizeof(next))
				send(to_loop_[1], next);
		});
	}

	~device()
	{
		close(to_device_[1]);
		thread_.join();
	}

	// Carries out the request of a tag, when it is awaited.
	auto carry_out(const tags::tag &tag)
	{
		struct awaiter {
			int device;
			std::uint32_t tag;
			bool await_ready() { return false; }
			void await_suspend(std::coroutine_handle<> self)
			{
				send(device, {tag, self.address()});
			}
			void await_resume() {}
		};
		return awaiter{to_device_[1], tag.number()};
	}

	// Readable when a request has completed.
	int descriptor() const { return to_loop_[0]; }

	// Resumes whoever awaits the next request that has completed.
	void complete()
	{
		message next;
		must(read(to_loop_[0], &next, sizeof(next)) == sizeof(next), "read");
		std::coroutine_handle<>::from_address(next.coroutine).resume();
	}

private:
	static void send(int to, const message &it)
	{
		must(write(to, &it, sizeof(it)) == sizeof(it), "write");
	}

	int to_device_[2];
	int to_loop_[2];
	std::thread thread_;
};

static task submit(tags::listener &listener, device &to, int &completed)
{
	while (completed < requests) {
		const tags::tag tag = co_await listener.get();
		co_await to.carry_out(tag);
		completed++;
	} // here the tag goes back
}

int main()
{
	tags::pool pool(tags::options{depth, 1});
	int completed[streams] = {};
	const int event = eventfd(0, EFD_NONBLOCK);
	{
		tags::hand hand = pool.join();
		tags::listener listener(hand, event);
		device to;
		pollfd looks[] = {{event, POLLIN, 0}, {to.descriptor(), POLLIN, 0}};
		for (int &stream : completed)
			submit(listener, to, stream);
		for (int left = streams * requests; left > 0;) {
			must(poll(looks, 2, -1) > 0, "poll");
			std::uint64_t told = 0;
			if (looks[0].revents != 0 &&
			    read(event, &told, sizeof(told)) == sizeof(told))
				listener.resume();
			if (looks[1].revents != 0) {
				to.complete();
				left--;
			}
		}
	}
	close(event);
	for (int i = 0; i < streams; i++)
		std::printf("stream %d: %d requests\n", i, completed[i]);
	const tags::totals totals = pool.close();
	std::printf("got=%ju\nback=%ju\n", std::uintmax_t{totals.got}, std::uintmax_t{totals.back});
	return 0;
}
