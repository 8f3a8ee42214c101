// Queues of free tags by C++ libraries without locks, as queues.rs calls them: each knows `open`, `enter`, `leave`, `get`, `clear`
// and `close`.
#include <boost/lockfree/queue.hpp>
#include <concurrentqueue/concurrentqueue.h>
#include <cstdint>

namespace {

// boost::lockfree::queue, whose nodes are made as it opens and never given back.
class Boost {
public:
	struct User {
		Boost *tags;
	};

	explicit Boost(uint32_t depth) : free_(depth)
	{
		for (uint32_t tag = 0; tag < depth; tag++)
			free_.bounded_push(tag);
	}
	User *enter() { return new User{this}; }
	static int32_t get(User &user)
	{
		uint32_t tag;

		return user.tags->free_.pop(tag) ? static_cast<int32_t>(tag) : -1;
	}
	static void clear(User &user, uint32_t tag) { user.tags->free_.bounded_push(tag); }

private:
	boost::lockfree::queue<uint32_t> free_;
};

// moodycamel::ConcurrentQueue, which has a queue for each thread that gives tags back; each thread has the tokens for which it
// is fast. What a thread gave back it finds last of all, or another thread does.
class Moodycamel {
public:
	struct User {
		explicit User(Moodycamel *tags) : tags(tags), producer(tags->free_), consumer(tags->free_) {}
		Moodycamel *tags;
		moodycamel::ProducerToken producer;
		moodycamel::ConsumerToken consumer;
	};

	explicit Moodycamel(uint32_t depth) : free_(depth)
	{
		for (uint32_t tag = 0; tag < depth; tag++)
			free_.enqueue(tag);
	}
	User *enter() { return new User{this}; }
	static int32_t get(User &user)
	{
		uint32_t tag;

		return user.tags->free_.try_dequeue(user.consumer, tag) ? static_cast<int32_t>(tag) : -1;
	}
	static void clear(User &user, uint32_t tag) { user.tags->free_.enqueue(user.producer, tag); }

private:
	moodycamel::ConcurrentQueue<uint32_t> free_;
};

} // namespace

#define CALLS(prefix, Type)                                                                             \
	extern "C" void *prefix##_open(uint32_t depth) { return new Type(depth); }                          \
	extern "C" void *prefix##_enter(void *tags) { return static_cast<Type *>(tags)->enter(); }          \
	extern "C" void prefix##_leave(void *user) { delete static_cast<Type::User *>(user); }              \
	extern "C" int32_t prefix##_get(void *user) { return Type::get(*static_cast<Type::User *>(user)); } \
	extern "C" void prefix##_clear(void *user, uint32_t tag)                                            \
	{                                                                                                   \
		Type::clear(*static_cast<Type::User *>(user), tag);                                             \
	}                                                                                                   \
	extern "C" void prefix##_close(void *tags) { delete static_cast<Type *>(tags); }

CALLS(boost_tags, Boost)
CALLS(moodycamel_tags, Moodycamel)
