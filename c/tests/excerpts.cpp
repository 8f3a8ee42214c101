// The excerpts of docs/USING_CPP.md that are in no example.
#include "check.hpp"

#include <atomic>
#include <chrono>
#include <map>
#include <poll.h>
#include <sys/eventfd.h>
#include <thread>
#include <unistd.h>
#include <vector>

using namespace std::chrono_literals;

static tags::pool opened(std::uint32_t total, std::uint32_t hands)
{
	return tags::pool(tags::options{total, hands});
}

// A program without exceptions.
static bool serve(tags::pool &pool)
{
	std::error_code ec;
	tags::hand hand = pool.join(ec);
	if (ec) {
		std::fprintf(stderr, "join: %s\n", ec.message().c_str());
		return false;
	}
	std::optional<tags::tag> tag = hand.get(ec);
	if (tag)
		tag->write(70, ec);
	return !ec;
}

static void a_misuse()
{
	tags::pool pool = opened(4, 1);
	tags::hand hand = pool.join();
	try {
		const tags::hand another = pool.join();
	} catch (const tags::error &error) {
		CHECK(error.code() == tags::errc::no_hand);
		CHECK(std::string(error.what()) == "all hands of the pool are out");
		return;
	}
	CHECK(false);
}

static void many_threads()
{
	tags::pool pool = opened(8, 4);
	std::vector<std::thread> threads;
	std::optional<tags::shared_tag> tag;
	tags::shared_hands hands = pool.share();
	for (int i = 0; i < 16; i++)
		threads.emplace_back([&hands] {
			const tags::shared_tag own = hands.get_blocking();
		}); // there the tag goes back
	tag = hands.get_blocking();
	threads.emplace_back([moved = std::move(*tag)] { CHECK(moved); });
	for (std::thread &it : threads)
		it.join();
	threads.clear();
}

static void a_limit()
{
	tags::pool pool = opened(1, 2);
	tags::hand holder = pool.join();
	const tags::tag held = holder.get_blocking();
	tags::hand hand = pool.join();
	bool is_late = false;
	std::optional<tags::tag> tag = hand.try_get_for(5ms);
	if (!tag)
		is_late = true;
	CHECK(is_late);
}

static void a_reserved_tag()
{
	tags::options options;
	options.total = 2;
	options.reserved = 1;
	options.hands = 2;
	tags::pool pool(options);
	tags::hand hand = pool.join();
	std::optional<tags::tag> reserved = hand.try_get_reserved_for(5ms);
	CHECK(reserved && reserved->number() == 0);
	tags::hand other = pool.join();
	CHECK(!other.try_get_reserved_for(5ms));
}

static void in_flight()
{
	tags::pool pool = opened(16, 1);
	tags::hand hand = pool.join();
	std::vector<std::uint32_t> sent;
	const auto submit = [&](std::uint32_t number) { sent.push_back(number); };

	tags::tag tag = hand.get_blocking();
	submit(tag.release());
	for (const std::uint32_t number : sent) {
		tags::tag completed = hand.adopt(number);
		CHECK(completed.number() == number);
	} // here the tag goes back
	sent.clear();

	for (int i = 0; i < 8; i++)
		submit(hand.get_blocking().release());
	hand.clear_batch(sent.data(), sent.size());
	CHECK(hand.show(tags::kind::ordinary).busy == 0);
}

static void several_at_once()
{
	tags::pool pool = opened(64, 1);
	tags::hand hand = pool.join();
	std::uint32_t sum = 0;
	if (std::optional<tags::batch> batch = hand.get_batch(8)) {
		for (const std::uint32_t number : *batch)
			sum += number;
		std::optional<tags::tag> first = batch->pop();
	} // here the first tag goes back, and then the others in one step
	CHECK(sum == 28 && hand.show(tags::kind::ordinary).busy == 0);
	const std::optional<tags::batch> most = hand.get_batch(64);
	CHECK(most && most->size() == pool.batch_limit());
}

static void all_or_none()
{
	tags::pool pool = opened(64, 1);
	tags::hand hand = pool.join();
	std::uint32_t sum = 0;
	if (std::optional<std::array<tags::tag, 3>> parts = hand.get_many<3>())
		for (const tags::tag &part : *parts)
			sum += part.number();
	CHECK(sum == 3 && hand.show(tags::kind::ordinary).busy == 0);
}

static void passed_together()
{
	tags::pool pool = opened(64, 2);
	tags::hand submitter = pool.join();
	tags::hand completer = pool.join();
	std::uint64_t sum = 0;
	tags::batch batch = *submitter.get_batch(8);
	for (const std::uint32_t number : batch)
		batch.write(number, 100 + number);
	const tags::numbers sent = batch.post();

	const tags::batch taken = completer.take_batch(sent);
	for (const std::uint32_t number : taken)
		sum += taken.read(number);
	CHECK(sum == 828 && !batch && completer.holds(7));
}

static void submit_all(tags::hand &hand, std::uint64_t &count, tags::values<std::uint64_t> &sectors)
{
	for (std::uint64_t sector = 8; sector < 800; sector += 8) {
		tags::tag tag = hand.get_blocking();
		sectors[tag] = sector;
		tag.submit();
		count++;
	}
}

// Until the pool is stopped and all that was submitted is carried out.
static std::uint64_t carry_out_all(tags::hand &hand, const tags::values<std::uint64_t> &sectors)
{
	std::uint64_t count = 0, last = 0;
	std::error_code ec;
	while (tags::tag tag = hand.next_blocking(0, ec)) {
		CHECK(sectors[tag] > last);
		last = sectors[tag];
		count++;
	} // here the tag goes back
	CHECK(ec == tags::errc::stopped);
	return count;
}

static void submitted()
{
	tags::options options{16, 2};
	options.queues = 1;
	tags::pool pool(options);
	tags::values<std::uint64_t> sectors(pool);
	std::uint64_t made = 0, carried = 0;
	tags::hand hand = pool.join();
	std::thread carrier([&] {
		tags::hand own = pool.join();
		carried = carry_out_all(own, sectors);
	});
	submit_all(hand, made, sectors);
	pool.stop();
	carrier.join();
	CHECK(made == 99 && carried == made && pool.queued(0) == 0);
}

static int event_loop()
{
	tags::pool pool = opened(1, 2);
	tags::hand holder = pool.join();
	tags::tag held = holder.get_blocking();
	tags::hand hand = pool.join();
	const int event = eventfd(0, EFD_NONBLOCK);
	std::thread giver([&held] { held.clear(); });
	pollfd looks[] = {{event, POLLIN, 0}};

	std::optional<tags::tag> tag = hand.get_async(event);
	while (!tag) {
		poll(looks, 1, -1);
		std::uint64_t told = 0;
		if (read(event, &told, sizeof(told)) == sizeof(told))
			tag = hand.get_async(event);
	}
	giver.join();
	close(event);
	return static_cast<int>(tag->number());
}

static void resized()
{
	tags::options options;
	options.total = 4;
	options.hands = 2;
	options.reserved = 1;
	tags::pool pool(options);
	tags::values<std::vector<char>> buffers(pool);
	tags::hand hand = pool.join();

	hand.leave();
	pool.resize(16);
	buffers.resize(pool);
	hand = pool.join();
	CHECK(hand.show(tags::kind::ordinary).depth == 15 && buffers.size() == 16);
}

static void cached()
{
	tags::options options;
	options.total = 64;
	options.hands = 4;
	options.cache = 8;
	tags::pool pool(options);
	tags::hand hand = pool.join();
	hand.get_blocking().clear();
	CHECK(hand.show(tags::kind::ordinary).busy == 1);
	hand.flush();
	CHECK(hand.show(tags::kind::ordinary).busy == 0);
}

// When the request of each tag began, in ms, or 0.
static std::atomic<std::int64_t> begun[4];

static void watched()
{
	tags::pool pool = opened(4, 1);
	tags::hand hand = pool.join_in_place();
	const tags::tag early = hand.get_blocking();
	const tags::tag recent = hand.get_blocking();
	const tags::tag idle = hand.get_blocking();
	begun[early.number()] = 10000;
	begun[recent.number()] = 30000;
	begun[3] = 10000;
	const std::int64_t now = 40000;
	std::vector<std::uint32_t> late;
	pool.each_busy([&](std::uint32_t number) {
		const std::int64_t since = begun[number].load(std::memory_order_relaxed);
		if (since != 0 && now - since >= 30000)
			late.push_back(number);
	});
	CHECK(late == std::vector<std::uint32_t>{early.number()} && idle.number() == 2);
}

static void noted()
{
	using clock = std::chrono::steady_clock;
	tags::options options{4, 1};
	options.notes = true;
	tags::pool pool(options);
	tags::hand hand = pool.join_in_place();
	const std::uint64_t sector = 2048;
	tags::tag tag = hand.get_blocking();
	tag.note(sector);
	std::map<std::uint64_t, clock::duration> ages;
	pool.each_noted([&](std::uint32_t, const std::optional<tags::noted> &note) {
		if (note)
			ages[note->value] = clock::now() - note->since;
	});
	CHECK(ages.size() == 1 && ages.count(sector) == 1 && ages[sector] >= clock::duration::zero());
}

// What a function throws passes through.
static void interrupted()
{
	tags::pool pool = opened(4, 1);
	tags::hand hand = pool.join_in_place();
	const tags::tag first = hand.get_blocking();
	const tags::tag second = hand.get_blocking();
	std::error_code ec = tags::errc::in_use;
	auto throws = [](std::uint32_t number) -> bool { throw number; };
	for (int i = 0; i < 2; i++) {
		std::uint32_t thrown = 4;
		try {
			if (i == 0)
				pool.each_busy(throws);
			else
				pool.each_busy(throws, ec);
		} catch (std::uint32_t number) {
			thrown = number;
		}
		CHECK(thrown == first.number());
	}
	CHECK(!ec && pool.each_busy([](std::uint32_t) { return true; }) == 2 && second);
}

int main()
{
	tags::pool pool = opened(4, 1);
	CHECK(serve(pool));
	a_misuse();
	a_limit();
	a_reserved_tag();
	many_threads();
	in_flight();
	several_at_once();
	all_or_none();
	passed_together();
	submitted();
	CHECK(event_loop() == 0);
	resized();
	cached();
	watched();
	noted();
	interrupted();
	return report();
}
