// An I/O queue of eight threads. Five submit requests: each takes a tag, and waits while none is
// free, fills in the request that lies beside the tag, posts the tag and sends its number to the
// device. Three complete: each takes the next tag from the device, carries its request out and
// gives the tag back, which may wake a submitter.
#include <atomic>
#include <condition_variable>
#include <cstdint>
#include <cstdio>
#include <deque>
#include <functional>
#include <mutex>
#include <optional>
#include <tags.hpp>
#include <thread>
#include <vector>

constexpr std::uint32_t submitters = 5;
constexpr std::uint32_t completers = 3;
constexpr std::uint32_t requests = 60000;
constexpr std::uint32_t depth = 16;

// What lies beside a tag while its request is in flight.
struct request {
	std::uint32_t number = 0;
	std::uint64_t bytes = 0;
};

using request_of = tags::values<request>;

// Tags on their way to the completers.
class device {
public:
	void push(std::uint32_t tag)
	{
		{
			const std::lock_guard<std::mutex> locked(lock_);
			tags_.push_back(tag);
		}
		filled_.notify_one();
	}

	// Waits for the next tag. There is none once the device is closed and empty.
	std::optional<std::uint32_t> pop()
	{
		std::unique_lock<std::mutex> locked(lock_);
		filled_.wait(locked, [this] { return !tags_.empty() || is_closed_; });
		if (tags_.empty())
			return std::nullopt;
		const std::uint32_t tag = tags_.front();
		tags_.pop_front();
		return tag;
	}

	void close()
	{
		{
			const std::lock_guard<std::mutex> locked(lock_);
			is_closed_ = true;
		}
		filled_.notify_all();
	}

private:
	std::mutex lock_;
	std::condition_variable filled_;
	std::deque<std::uint32_t> tags_;
	bool is_closed_ = false;
};

struct queue {
	tags::pool pool{tags::options{depth, submitters + completers}};
	request_of values{pool};
	device sent;
	// How often each request was carried out, and the bytes of all.
	std::vector<std::atomic<int>> done = std::vector<std::atomic<int>>(requests);
	std::atomic<std::uint64_t> bytes{0};
};

static void submit(queue &all, std::uint32_t first)
{
	tags::hand hand = all.pool.join();
	for (std::uint32_t number = first; number < requests; number += submitters) {
		tags::tag tag = hand.get_blocking();
		all.values[tag] = {number, 512 * (1 + number % 8)};
		all.sent.push(tag.post());
	}
}

static void complete(queue &all)
{
	tags::hand hand = all.pool.join();
	while (const std::optional<std::uint32_t> number = all.sent.pop()) {
		const tags::tag tag = hand.take(*number);
		const request &carried = all.values[tag];
		all.done[carried.number]++;
		all.bytes += carried.bytes;
	} // here the tag goes back
}

static void run(queue &all)
{
	std::vector<std::thread> submitting;
	std::vector<std::thread> completing;
	for (std::uint32_t i = 0; i < submitters; i++)
		submitting.emplace_back(submit, std::ref(all), i);
	for (std::uint32_t i = 0; i < completers; i++)
		completing.emplace_back(complete, std::ref(all));
	for (std::thread &thread : submitting)
		thread.join();
	all.sent.close();
	for (std::thread &thread : completing)
		thread.join();
}

static void report(const queue &all, const tags::totals &totals)
{
	int once = 0;
	for (const std::atomic<int> &times : all.done)
		once += times == 1;
	std::printf("requests=%d\nbytes=%ju\n", once, std::uintmax_t{all.bytes});
	std::printf("got=%ju\nback=%ju\n", std::uintmax_t{totals.got}, std::uintmax_t{totals.back});
	std::printf("held=%ju\nposted=%ju\n", std::uintmax_t{totals.held},
		    std::uintmax_t{totals.posted});
}

int main()
{
	try {
		queue all;
		run(all);
		report(all, all.pool.close());
	} catch (const tags::error &error) {
		std::fprintf(stderr, "%s\n", error.what());
		return 1;
	}
	return 0;
}
