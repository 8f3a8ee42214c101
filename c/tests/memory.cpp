// If an allocation of tags.hpp fails, the call says so, changes nothing and leaks nothing. (For
// those of the library see memory.c.)
#include "check.hpp"

#include <cstdlib>
#include <new>

using tags::errc;

static std::error_code failure;
// How many more allocations go well.
static int left = 1000;
static int allocated;

static void *allocate(std::size_t size, std::size_t alignment)
{
	if (left-- <= 0)
		return nullptr;
	allocated++;
	return std::aligned_alloc(alignment, (size + alignment - 1) / alignment * alignment);
}

static void release(void *memory)
{
	allocated -= memory != nullptr;
	std::free(memory);
}

// Those of the program itself do not fail.
void *operator new(std::size_t size)
{
	void *const memory = std::malloc(size);
	if (memory == nullptr)
		std::abort();
	allocated++;
	return memory;
}

void *operator new(std::size_t size, const std::nothrow_t &) noexcept
{
	return allocate(size, alignof(std::max_align_t));
}

void *operator new(std::size_t size, std::align_val_t alignment, const std::nothrow_t &) noexcept
{
	return allocate(size, static_cast<std::size_t>(alignment));
}

void operator delete(void *memory) noexcept { release(memory); }

void operator delete(void *memory, std::size_t) noexcept { release(memory); }

void operator delete(void *memory, std::align_val_t) noexcept { release(memory); }

template <class Call>
static std::error_code without_memory(Call call)
{
	std::error_code code;
	left = 0;
	call(code);
	left = 1000;
	return code;
}

int main()
{
	{
		tags::pool pool;
		CHECK(without_memory([&](std::error_code &code) {
			      pool = tags::pool(sized(8, 2), code);
		      }) == errc::no_memory);
		CHECK(!pool && allocated == 0);
		pool = tags::pool(sized(8, 1, 1), failure);
		tags::hand hand;
		CHECK(without_memory([&](std::error_code &code) { hand = pool.join(code); }) ==
		      errc::no_memory);
		CHECK(!hand && pool);
		tags::shared_hands hands;
		CHECK(without_memory([&](std::error_code &code) { hands = pool.share(1, code); }) ==
		      errc::no_memory);
		CHECK(!hands && pool);
		tags::values<int> values;
		CHECK(without_memory([&](std::error_code &code) {
			      values = tags::values<int>(pool, code);
		      }) == errc::no_memory);
		CHECK(values.size() == 0);
		values = tags::values<int>(
			pool, [](std::uint32_t number) { return static_cast<int>(number); },
			failure);
		CHECK(!failure && values.size() == 8);
		CHECK(without_memory([&](std::error_code &code) { values.resize(pool, code); }) ==
		      errc::no_memory);
		hand = pool.join(failure);
		CHECK(values.size() == 8 && values[*hand.get(failure)] == 1);
		hand.leave(failure);
		tags::options options = sized(8, 1);
		options.queues = 2;
		pool = tags::pool(options, failure);
		hand = pool.join(failure);
		// What a queue takes is there from the beginning.
		CHECK(without_memory([&](std::error_code &code) {
			      hand.get(code)->submit(1, code);
			      const tags::tag tag = hand.next_blocking(1, code);
			      CHECK(tag && !hand.next_async(0, 0, code) && pool.queued(1, code) == 0);
		      }) == std::error_code());
	}
	CHECK(allocated == 0);
	return report();
}
