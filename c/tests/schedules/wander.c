/*
 * Schedules at random, for scenarios that are too large for a full search.
 */
#include "engine.h"

/* A schedule has at most so many steps, and so many of its first ones may change priorities. */
enum { LONGEST = 4000, CHANGES = 3, CHANGING = 200 };

static uint64_t random_state;

static uint32_t random_below(uint32_t n)
{
	random_state ^= random_state << 13;
	random_state ^= random_state >> 7;
	random_state ^= random_state << 17;
	return (uint32_t)((random_state >> 20) % n);
}

/* Priorities of the threads, and the steps at which that of the first one falls below all others. */
struct order {
	uint32_t priority[MAX_THREADS];
	uint32_t changes[CHANGES];
};

static struct order random_order(void)
{
	struct order order;

	for (int i = 0; i < MAX_THREADS; i++)
		order.priority[i] = CHANGES + random_below(1000);
	for (int i = 0; i < CHANGES; i++)
		order.changes[i] = random_below(CHANGING);
	return order;
}

/* The thread with the highest priority makes any of its steps. */
static int obey(struct order *order, const struct choice *choices, int n, size_t step)
{
	int at = 0;

	for (int i = 0; i < n; i++)
		if (order->priority[choices[i].thread] > order->priority[choices[at].thread])
			at = i;
	for (int i = 0; i < n; i++)
		if (choices[i].thread == choices[at].thread && random_below(3) == 0)
			at = i;
	for (uint32_t i = 0; i < CHANGES; i++)
		if (order->changes[i] == step)
			order->priority[choices[at].thread] = i;
	return at;
}

/* A choice of the scenario is mostly the first one, with which it goes on. */
static int pick(struct order *order, const struct choice *choices, int n, size_t step)
{
	if (is_own(&world->thread[choices[0].thread]) && random_below(8) > 0)
		return 0;
	return order ? obey(order, choices, n, step) : (int)random_below((uint32_t)n);
}

/* Runs one schedule, and returns how many steps it has. */
static size_t run_schedule(struct order *order, struct choice *path)
{
	struct choice choices[MAX_CHOICES];
	size_t length = 0;

	restore_state(first_state);
	while (length < LONGEST) {
		int n = all_choices(choices);

		if (look_ahead(choices, n) || is_faulty)
			break;
		path[length] = choices[pick(order, choices, n, length)];
		make_step(path[length++]);
		totals.steps++;
		look();
		if (is_faulty)
			break;
	}
	return length;
}

/*
 * In half of the schedules any thread makes each step; in the others the threads obey priorities
 * that change at a few steps, which finds errors that take few preemptions (PCT).
 */
enum outcome wander(uint64_t runs, uint64_t seed, bool shows)
{
	static struct choice path[LONGEST];
	const double end = seconds() + most_seconds;

	random_state = seed * 2654435761u + 1;
	for (uint64_t i = 0; i < runs && seconds() < end; i++) {
		struct order order = random_order();
		size_t length = run_schedule(i % 2 ? &order : NULL, path);

		if (is_faulty) {
			report_fault(path, length);
			return FAULTY;
		}
		if (shows)
			print_schedule(path, length);
	}
	return EXPLORED;
}
