/*
 * Which steps may come next, and what is checked after each.
 */
#include "engine.h"
#include "scenario.h"

int most_preemptions = -1;

static bool can_go_on(const struct thread *thread)
{
	const void *address = (const void *)thread->address;

	if (thread->is_done)
		return false;
	switch (thread->kind) {
	case OP_LOCK:
		return *(const int *)address == 0;
	case OP_ASLEEP:
	case OP_YIELD:
		return thread->is_woken;
	case OP_POLL:
		return ((const struct event *)address)->count > 0;
	case OP_JOIN:
		return ((const struct thread *)address)->is_done;
	default:
		return true;
	}
}

/* Such a step need not be tried in another order. */
bool is_own(const struct thread *thread)
{
	return can_go_on(thread) &&
	       (thread->kind == OP_LOCAL || thread->kind == OP_JOIN || thread->kind == OP_ASLEEP);
}

/* The ways in which a sleep may end though nobody woke the thread. */
static int ends_of_sleep(uint8_t i, struct choice *choices)
{
	const struct thread *thread = &world->thread[i];
	int n = 0;

	if (thread->kind != OP_ASLEEP || thread->is_woken)
		return 0;
	if (thread->has_limit)
		choices[n++] = (struct choice){ i, ALT_TIMEOUT };
	if (thread->signals > 0) {
		choices[n++] = (struct choice){ i, ALT_SIGNAL };
		choices[n++] = (struct choice){ i, ALT_SPURIOUS };
	}
	return n;
}

static int choices_of(uint8_t i, struct choice *choices)
{
	const struct thread *thread = &world->thread[i];
	int n = 0;

	if (thread->is_done)
		return 0;
	if (can_go_on(thread))
		for (uint8_t k = 0; k < thread->choices; k++)
			choices[n++] = (struct choice){ i, k };
	n += ends_of_sleep(i, choices + n);
	if (thread->is_cancellable && thread->may_be_cancelled)
		choices[n++] = (struct choice){ i, ALT_CANCEL };
	return n;
}

bool is_quiet(const struct choice *choices, int n)
{
	for (int i = 0; i < n; i++)
		if (choices[i].alternative < ALT_CANCEL || world->thread[choices[i].thread].kind != OP_ASLEEP)
			return false;
	return n > 0;
}

/* Whether the thread that ran last could go on. */
static bool last_can_go_on(void)
{
	return world->last < MAX_THREADS && can_go_on(&world->thread[world->last]);
}

int all_choices(struct choice *choices)
{
	bool is_bound = most_preemptions >= 0 && world->preempted >= most_preemptions && last_can_go_on();
	int n = 0;

	for (uint8_t i = 0; i < world->threads; i++)
		if (is_own(&world->thread[i]))
			return choices_of(i, choices);
	for (uint8_t i = 0; i < world->threads; i++)
		if (!is_bound || i == world->last)
			n += choices_of(i, choices + n);
	return n;
}

void make_step(struct choice choice)
{
	if (most_preemptions >= 0 && !is_own(&world->thread[choice.thread])) {
		world->preempted += world->last != choice.thread && last_can_go_on();
		world->last = choice.thread;
	}
	run_thread(choice.thread, choice.alternative);
}

/* Whether two accesses touch the same memory, one changes it, and not both are atomic steps. */
static bool are_a_race(const struct thread *a, const struct thread *b)
{
	bool is_plain = a->kind == OP_READ || a->kind == OP_WRITE || b->kind == OP_READ || b->kind == OP_WRITE;
	bool changes = (a->kind != OP_READ && a->kind != OP_LOAD) || (b->kind != OP_READ && b->kind != OP_LOAD);

	if (a->is_done || b->is_done || a->kind > OP_WRITE || b->kind > OP_WRITE)
		return false;
	return is_plain && changes && a->address < b->address + b->size && b->address < a->address + a->size;
}

/* Two threads that are about to make a race could make it at once. */
static void look_for_races(void)
{
	for (uint32_t i = 0; i < world->threads; i++)
		for (uint32_t k = i + 1; k < world->threads; k++)
			if (are_a_race(&world->thread[i], &world->thread[k]))
				fault("threads %u and %u race for %s", i, k,
				      name_of(world->thread[i].address));
}

void look(void)
{
	if (is_faulty)
		return;
	if (finds_races)
		look_for_races();
	check_state();
}

bool look_ahead(const struct choice *choices, int n)
{
	if (is_quiet(choices, n))
		check_quiet();
	if (n == 0) {
		totals.ends++;
		check_end();
	}
	return n == 0;
}
