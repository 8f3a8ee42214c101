#include <queue.hpp>

#include <cstdio>

int main()
{
	tags::pool pool(tags::options{8, 1});
	tags::hand hand = pool.join();
	if (!run_threads() || depth_of(hand, 9) != 8)
		return 1;
	std::puts("done");
	return 0;
}
