// What the tests of tags.hpp share: checks that are counted, and refusals in both forms of a call.
#ifndef TAGS_CHECK_HPP
#define TAGS_CHECK_HPP

#include "../tags.hpp"

#include <atomic>
#include <cstdio>
#include <string>

inline std::atomic<int> checks{0};
inline std::atomic<int> wrong{0};

inline void check(bool is_well, const char *what, const char *file, int line)
{
	checks++;
	if (is_well)
		return;
	wrong++;
	std::printf("%s:%d: wrong: %s\n", file, line, what);
}

#define CHECK(what) check(static_cast<bool>(what), #what, __FILE__, __LINE__)

// Why a call is refused, in each form: it takes no code, or one that it passes on.
template <class Call>
std::error_code refusal(Call call)
{
	std::error_code ec = std::make_error_code(std::errc::io_error);
	call(ec);
#ifdef __cpp_exceptions
	try {
		call();
		CHECK(!ec);
	} catch (const tags::error &thrown) {
		CHECK(thrown.code() == ec && thrown.what() == ec.message());
	}
#endif
	return ec;
}

// `why` is the error of a call in both forms. CODE stands for the argument of the second.
#define REFUSED(why, call) CHECK(refusal([&](auto &...also) { static_cast<void>(call); }) == (why))
#define CODE also...

inline tags::options sized(std::uint32_t total, std::uint32_t hands, std::uint32_t reserved = 0)
{
	tags::options made;
	made.total = total;
	made.hands = hands;
	made.reserved = reserved;
	return made;
}

inline int report()
{
	std::printf("%d checks, %d wrong\n", checks.load(), wrong.load());
	return wrong == 0 ? 0 : 1;
}

#endif
