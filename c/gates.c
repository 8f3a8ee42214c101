/*
 * Gates, where threads wait for a hand of a pool (joins.c), or for its tags to be back: for all of
 * them, or for those of a list (drains.c).
 *
 * Who waits is in a queue, in the order in which the waits began, and looks before it sleeps. Whoever
 * gives something back tells the first one that waits for that and was not told yet; so it looks
 * again. If it finds nothing, as another thread was faster, it sleeps on at its turn. If it was told
 * and has no use for that, it tells the next one. So while somebody sleeps who was not told, as many
 * are on their way as there are vacant hands. Whoever comes then need not look: it sleeps behind them.
 * A thread that tried first would mostly have its hand again before the one that was woken runs.
 * Lists have no turns: whoever waits for one looks by itself, and all of them are told.
 *
 * Who waits counts itself, then looks. Who gives something back does so, and then loads the count.
 * All four are sequentially consistent, so either the look finds what came back, or the load finds
 * who waits.
 *
 * Gates are in no pool: a hand that has left must not touch its pool, which may be closed by then.
 * Whoever waits for a hand comes to the gate with the lock of the pool's handle, as long as the pool
 * is open; and a close ends all waits there with that lock. So nobody waits at the gate of a pool
 * that is gone, though another one may be open in its handle. A hand that left just before may tell
 * one that waits for a hand of a later pool at the same address, which finds none.
 */
#define _GNU_SOURCE
#include "bell.h"

/* One that several pools may share. */
struct gate {
	pthread_mutex_t lock;
	uint32_t waiters;
	struct tags_waiter *first;
};

#define GATE { PTHREAD_MUTEX_INITIALIZER, 0, NULL }
#define FOUR_GATES GATE, GATE, GATE, GATE

static struct gate gates[16] = { FOUR_GATES, FOUR_GATES, FOUR_GATES, FOUR_GATES };

static struct gate *gate_of(const struct bell *bell)
{
	const uintptr_t at = (uintptr_t)bell / 64;

	return &gates[(at ^ at >> 4 ^ at >> 8) % 16];
}

/* In a forked child the threads that wait or have a lock are gone. */
static void renew_gates(void)
{
	for (size_t i = 0; i < sizeof(gates) / sizeof(*gates); i++) {
		pthread_mutex_init(&gates[i].lock, NULL);
		tags_store(&gates[i].waiters, 0);
		gates[i].first = NULL;
	}
}

__attribute__((constructor)) static void watch_forks(void)
{
	pthread_atfork(NULL, NULL, renew_gates);
}

/*
 * The queue, with the gate's lock
 */

static void enter(struct gate *gate, struct tags_waiter *it)
{
	struct tags_waiter **last = &gate->first;

	while (*last)
		last = &(*last)->next;
	*last = it;
	tags_add(&gate->waiters, 1);
}

static bool waits_for(const struct tags_waiter *it, const struct bell *bell, enum tags_awaited what)
{
	return it->bell == bell && it->what == what;
}

static bool can_be_told(const struct tags_waiter *it)
{
	return !it->is_told && it->end == TAGS_OK;
}

static void tell(struct tags_waiter *it)
{
	it->is_told = true;
	pthread_cond_signal(&it->bed);
}

static void tell_first(const struct gate *gate, const struct bell *bell, enum tags_awaited what)
{
	struct tags_waiter *it = gate->first;

	while (it && !(waits_for(it, bell, what) && can_be_told(it)))
		it = it->next;
	if (it)
		tell(it);
}

/* Leaves out of a waiter's list what is free, and returns whether any tag is left. */
static bool leave_out(struct tags_waiter *it, const struct tags_set *busy)
{
	uint64_t any = 0;

	for (size_t i = 0; i < it->left->length; i++)
		any |= it->left->words[i] &= busy->words[i];
	return any != 0;
}

static void tell_lists(const struct gate *gate, const struct bell *bell, const struct tags_set *busy)
{
	for (struct tags_waiter *it = gate->first; it; it = it->next) {
		if (!waits_for(it, bell, TAGS_LISTED_BACK))
			continue;
		leave_out(it, busy);
		tell(it);
	}
}

/* Whether somebody sleeps for the same. */
static bool has_sleeper(const struct gate *gate, const struct tags_waiter *comer)
{
	if (comer->what == TAGS_LISTED_BACK)
		return false;
	for (const struct tags_waiter *it = gate->first; it; it = it->next)
		if (waits_for(it, comer->bell, comer->what) && it->is_asleep && can_be_told(it))
			return true;
	return false;
}

/* Drains that sleep rely on the first one, so the next one takes its place. */
static void leave(struct gate *gate, struct tags_waiter *it)
{
	struct tags_waiter **at = &gate->first;

	while (*at != it)
		at = &(*at)->next;
	*at = it->next;
	tags_subtract(&gate->waiters, 1);
	if (it->what == TAGS_ALL_BACK)
		tags_library_disarm(it->bell);
	if (it->what == TAGS_ALL_BACK || (it->what != TAGS_LISTED_BACK && it->is_told))
		tell_first(gate, it->bell, it->what);
	pthread_mutex_unlock(&gate->lock);
	pthread_cond_destroy(&it->bed);
}

/* What is left of the wait of a thread that was cancelled in its sleep. */
static void abandon(void *argument)
{
	struct tags_waiter *it = argument;

	leave(gate_of(it->bell), it);
}

bool tags_library_has_waiters(const struct bell *bell)
{
	return tags_load(&gate_of(bell)->waiters) > 0;
}

void tags_library_tell_first(const struct bell *bell, enum tags_awaited what)
{
	struct gate *gate = gate_of(bell);

	if (!tags_library_has_waiters(bell))
		return;
	pthread_mutex_lock(&gate->lock);
	tell_first(gate, bell, what);
	pthread_mutex_unlock(&gate->lock);
}

/* With the lock, as a wait that begins later may be for a tag that this look finds free. */
void tags_library_look_for_lists(struct tags_hand *hand)
{
	const struct bell *bell = tags_bell_of(hand->waits);
	struct gate *gate = gate_of(bell);
	struct tags_set busy;
	int32_t found;

	pthread_mutex_lock(&gate->lock);
	found = tags_library_busy(hand, busy.words, TAGS_SET_WORDS);
	if (tags_detail_filled(found, busy.words, sizeof(busy.words)) >= 0)
		tell_lists(gate, bell, &busy);
	pthread_mutex_unlock(&gate->lock);
}

bool tags_library_leave_out(struct tags_waiter *it, const struct tags_set *busy)
{
	struct gate *gate = gate_of(it->bell);
	bool is_any_left;

	pthread_mutex_lock(&gate->lock);
	is_any_left = leave_out(it, busy);
	pthread_mutex_unlock(&gate->lock);
	return is_any_left;
}

void tags_library_end_joins(const struct bell *bell, int32_t status)
{
	struct gate *gate = gate_of(bell);

	if (!tags_library_has_waiters(bell))
		return;
	pthread_mutex_lock(&gate->lock);
	for (struct tags_waiter *it = gate->first; it; it = it->next) {
		if (!waits_for(it, bell, TAGS_A_HAND) || it->end != TAGS_OK)
			continue;
		it->end = status;
		pthread_cond_signal(&it->bed);
	}
	pthread_mutex_unlock(&gate->lock);
}

/*
 * A wait
 */

/* Gives the lock up for the look. Whoever is told amid that looks again. */
static int32_t look_again(struct gate *gate, struct tags_waiter *it)
{
	int32_t status;

	it->is_told = false;
	pthread_mutex_unlock(&gate->lock);
	status = it->look(it);
	pthread_mutex_lock(&gate->lock);
	return status;
}

/* Until it was told, or its wait was ended, or until the limit. */
static void sleep_at(struct gate *gate, struct tags_waiter *it)
{
	it->is_asleep = true;
	pthread_cleanup_push(abandon, it);
	while (can_be_told(it) && tags_library_sleep(&it->bed, &gate->lock, it->limit))
		;
	pthread_cleanup_pop(0);
	it->is_asleep = false;
}

/* Looks again and again, and once more after the limit. */
static int32_t look_until(struct gate *gate, struct tags_waiter *it)
{
	while (it->end == TAGS_OK) {
		const int32_t status = look_again(gate, it);

		if (status != TAGS_NOT_YET)
			return status;
		if (tags_library_is_past(it->limit))
			return TAGS_TIMED_OUT;
		sleep_at(gate, it);
	}
	return it->end;
}

/* Whether what it was told of may still be there. */
static bool was_refused(int32_t status)
{
	return status != TAGS_OK && status != TAGS_TIMED_OUT && status != TAGS_STOPPED;
}

void tags_library_come(struct tags_waiter *it)
{
	struct gate *gate = gate_of(it->bell);

	tags_library_make_bed(&it->bed, it->limit->clock);
	pthread_mutex_lock(&gate->lock);
	enter(gate, it);
	pthread_mutex_unlock(&gate->lock);
}

int32_t tags_library_wait_at_gate(struct tags_waiter *it)
{
	struct gate *gate = gate_of(it->bell);
	int saved = errno;
	int32_t status;

	pthread_mutex_lock(&gate->lock);
	if (has_sleeper(gate, it) && !tags_library_is_past(it->limit))
		sleep_at(gate, it);
	status = look_until(gate, it);
	it->is_told |= was_refused(status);
	leave(gate, it);
	errno = saved;
	return status;
}
