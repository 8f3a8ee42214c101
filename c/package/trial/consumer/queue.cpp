#include "queue.hpp"

#include <thread>
#include <vector>

bool run_threads()
{
	tags::pool pool(tags::options{32, 4});
	tags::values<long> used(pool);
	std::vector<std::thread> threads;
	for (int i = 0; i < 4; i++)
		threads.emplace_back([&] {
			tags::hand hand = pool.join();
			for (int round = 0; round < 1000; round++)
				used[hand.get_blocking()]++;
		});
	for (std::thread &thread : threads)
		thread.join();
	const tags::totals totals = pool.close();
	return totals.got == 4000 && totals.back == 4000;
}
