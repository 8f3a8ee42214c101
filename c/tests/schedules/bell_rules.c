/*
 * What must hold inside c/bell.c and c/queues.c: the only file of the explorer that knows how they are made, but for
 * futures.c and behind.c, which stand for another language.
 */
#include "behind.h"

#include "queues.h"
#include "programs.h"
#include "shared.h"

#include <stdio.h>

/* That of the pool that is open now: another one may be opened in the handle. */
static struct bell *bell;

static bool find_bell(void)
{
	bell = pool && !is_freed(pool) && pool->waits ? tags_bell_of(pool->waits) : NULL;
	return bell && !is_freed(bell);
}

static bool is_locked_by(const pthread_mutex_t *lock, int thread)
{
	return *(const int *)(const void *)lock == thread + 1;
}

static bool has_lock_of(const struct lender *lender, int thread)
{
	return is_locked_by(&lender->lock, thread) || is_locked_by(&lender->queue.lock, thread);
}

static bool has_lock_in(const struct bell *it, int thread)
{
	for (uint32_t i = 0; i < it->hands; i++)
		if (is_locked_by(&it->places[i].lock, thread))
			return true;
	return is_locked_by(&it->lock, thread);
}

bool has_lock(int thread)
{
	if (!find_bell())
		return false;
	for (int i = 0; i < MAX_THREADS; i++)
		if (lenders[i] && has_lock_of(lenders[i], thread))
			return true;
	for (uint32_t i = 0; i < bell->waits.queues; i++)
		if (has_lock_in(bell->queue_bells[i], thread))
			return true;
	return has_lock_in(bell, thread);
}

/*
 * In each state
 */

/* The hands that are listed in the library for a set, where the model tells them. */
static uint64_t listed_for(uint32_t kind)
{
	if (!map_listed || !pool->object)
		return 0;
	return map_listed(pool->object, kind, false) | map_listed(pool->object, kind, true);
}

static uint64_t listed(void)
{
	return listed_for(TAGS_ORDINARY) | listed_for(TAGS_RESERVED);
}

/* A wait keeps its turn from its first round to its end. */
static void check_turns(void)
{
	for (uint32_t i = 0; map_turn && pool->object && i < bell->hands; i++) {
		const struct tags_place *place = &bell->places[i];
		const uint64_t turn = place->is_waiting ? map_turn(pool->object, place->kind, i) : 0;

		if (turn && world->notes.turn[i] && turn != world->notes.turn[i])
			fault("the waiter in place %u lost its turn", i);
		world->notes.turn[i] = turn;
	}
}

/* Who drains the pool, beside the places in a set of those who wait. */
static uint64_t bit_of_drain(uint32_t thread)
{
	return UINT64_C(1) << (32 + thread);
}

/* Forgets the waits that have ended of those that a thread found after a clear. */
static void forget_ended(void)
{
	uint64_t go_on = listed();

	for (uint32_t i = 0; i < bell->hands; i++)
		go_on |= (uint64_t)bell->places[i].is_waiting << i;
	for (uint32_t i = 0; i < world->threads; i++)
		go_on |= world->thread[i].is_done ? 0 : bit_of_drain(i);
	for (uint32_t k = 0; k < world->threads; k++)
		world->notes.listed[k] &= go_on;
}

/* Whoever takes a tag out of a list has a token, and that is free only once a tag is there. */
static void check_tickets(void)
{
	for (uint32_t i = 0; bell->queues && i < bell->waits.queues; i++)
		if (bell->queues->each[i].head > bell->queues->each[i].tail)
			fault("a thread takes a tag out of queue %u, and none was put there", i);
}

/* The sleepers of a set that were told and are not up yet, where the model tells them. */
static uint32_t count_coming(const struct tags_pool *in, uint32_t kind)
{
	return map_coming && in->object ? (uint32_t)__builtin_popcountll(map_coming(in->object, kind)) : 0;
}

/*
 * No more are coming than there are tags. Calls that look at the same time may each tell as many: those of threads that are
 * not coming themselves.
 */
static void check_coming(const struct tags_pool *in, uint32_t kind, uint32_t tags)
{
	const uint32_t coming = count_coming(in, kind);

	if (coming > tags * (world->threads - coming))
		fault("%u sleepers were told of %u tags, and are not up", coming, tags);
}

static void check_each_coming(void)
{
	check_coming(pool, TAGS_ORDINARY, bell->depth);
	check_coming(pool, TAGS_RESERVED, bell->reserved);
	for (uint32_t i = 0; bell->queues && i < bell->waits.queues; i++)
		check_coming(&bell->queues->each[i].pool, TAGS_ORDINARY, bell->queue_bells[i]->depth);
}

void check_bell(void)
{
	uint32_t waiters;

	if (!find_bell())
		return;
	check_turns();
	check_tickets();
	check_each_coming();
	forget_ended();
	if (!is_locked_by(&bell->lock, -1))
		return;
	waiters = (uint32_t)__builtin_popcountll(listed());
	if (bell->waiting < waiters || bell->waiting > 2 * world->threads)
		fault("%u are listed, and %u are counted", waiters, bell->waiting);
	if (bell->waits.watchers > 3 * world->threads + 1)
		fault("%u watchers are counted", bell->waits.watchers);
}

/*
 * Where no thread can go on
 */

/* A hand of the scenario, or NULL if it has left. In C++ it is freed then. */
static struct tags_hand *hand_at(uint32_t i)
{
	return hands[i] && !is_freed(hands[i]) && hands[i]->place ? hands[i] : NULL;
}

static bool has_notice(const struct tags_place *place)
{
	return place->notice.descriptor >= 0 || place->notice.function;
}

/*
 * Whether a hand is listed for the set that it waits for, where the library is not the model, which tells that of ordinary
 * tags alone. For a reserved one it is listed if it waits and was not told. Whoever tells a listener takes its notice, so
 * one without a notice was told, unless its thread sleeps; a token beside a notice is left over.
 */
static bool is_in_berth(struct tags_hand *hand, const struct tags_place *place)
{
	if (place->kind == TAGS_RESERVED)
		return place->is_waiting && (has_notice(place) || (place->bed && !place->is_woken));
	return tags_library_is_told(hand, 0) == 0;
}

/* The same as a sleeper or as a listener, which only the model tells: otherwise whoever has a notice is a listener. */
static bool is_listed_as(const struct tags_pool *in, struct tags_hand *hand, const struct tags_place *place, bool listens)
{
	if (map_listed)
		return map_listed(in->object, place->kind, listens) >> place->number & 1;
	return is_in_berth(hand, place) && has_notice(place) == listens;
}

/* Whether a hand of the scenario is listed so. No thread is in a call of it. */
static bool is_listed(uint32_t i, bool listens)
{
	return hand_at(i) && is_listed_as(pool, hand_at(i), hand_at(i)->place, listens);
}

/* Whether a thread sleeps in the place of a hand that is listed. */
static bool is_listed_sleeper(const struct thread *thread)
{
	for (uint32_t i = 0; i <= world->threads; i++)
		if (hand_at(i) && thread->address - (uintptr_t)hand_at(i)->place < sizeof(struct tags_place))
			return is_listed(i, false);
	return false;
}

struct tags_hand *shared_hand(uint32_t number)
{
	return &shared_hands->shared->hands[number].hand;
}

/* Whether a thread sleeps beside a shared hand that is listed, and whose function would wake it. */
static bool is_listed_sharer(const struct thread *thread)
{
	for (uint32_t i = 0; i < scenario->shared; i++)
		if (is_listed(i, true) && thread->address - (uintptr_t)hands[i]->place->notice.argument < 512)
			return true;
	return false;
}

static void check_sleeper(uint32_t i)
{
	const struct thread *thread = &world->thread[i];

	if (is_asleep(thread) && thread->kind == OP_ASLEEP && !is_at_gate(thread) && !is_listed_sleeper(thread) &&
	    !is_listed_sharer(thread) && !waits_in_queues(i))
		fault("thread %u sleeps though it was told", i);
	/* whoever was listed when a hand looked after a clear does not wait beside what it keeps */
	if (map_keeps && world->notes.listed[i] && map_keeps(hands[i]->object))
		fault("thread %u saw a waiter after its last clear, and keeps a tag", i);
}

/* Whether a hand's thread has ended, and no future of another thread waits behind the hand. */
static bool is_over(uint32_t i)
{
	return i >= scenario->shared && i < world->threads && world->thread[i].is_done && futures_behind(i) == 0;
}

/* The futures that wait beside the first one of their hand. */
static uint32_t count_beside(void)
{
	uint32_t n = 0;

	for (uint32_t i = 0; i < world->threads; i++)
		n += futures_behind(i) > 1 ? futures_behind(i) - 1 : 0;
	return n;
}

/* A stop ends each wait that began before it. */
static void check_stops(const struct bell *it)
{
	for (uint32_t i = 0; i < it->hands; i++)
		if (it->places[i].is_waiting && it->places[i].stops != it->waits.stops)
			fault("the hand in place %u waits on, and a stop has ended its wait", i);
}

/* Returns how many hands are listed as listeners for a set. Each of them can be notified, unless its thread broke that. */
static uint32_t count_listeners(uint32_t kind)
{
	uint32_t n = 0;

	for (uint32_t i = 0; i <= world->threads; i++) {
		if (!is_listed(i, true) || hand_at(i)->place->kind != kind || is_over(i))
			continue;
		n++;
		if (!hands[i]->place->is_waiting || !has_notice(hands[i]->place))
			fault("hand %u waits for a notice that nobody would give", i);
	}
	return n;
}

static uint32_t count_sleepers(void)
{
	uint32_t n = 0;

	for (uint32_t i = 0; i <= world->threads; i++)
		n += is_listed(i, false);
	return n;
}

static bool breaks(uint32_t thread)
{
	return scenario->program[thread] == breaker || scenario->program[thread] == reserved_breaker;
}

/* Those who wait for an eventfd that was closed, and have not learned that they were told. */
static uint32_t count_broken(void)
{
	uint32_t n = 0;

	for (uint32_t i = 0; i < world->threads; i++)
		n += world->thread[i].is_done && breaks(i) && hand_at(i) && hands[i]->place->is_waiting;
	return n;
}

/* Nobody is listed who waits for no tag of the set. */
static void check_sets(void)
{
	for (uint32_t i = 0; i < bell->hands; i++)
		for (uint32_t kind = 0; kind < SETS; kind++)
			if (listed_for(kind) >> i & 1 && (!bell->places[i].is_waiting || bell->places[i].kind != kind))
				fault("the hand in place %u is listed for set %u, and does not wait for that", i, kind);
}

/* While a hand waits it keeps no tag; and while a thread sleeps beside shared hands, none of these does. */
static void check_kept(void)
{
	for (uint32_t i = 0; i < world->threads; i++)
		if (map_keeps && hand_at(i) && (hands[i]->place->is_waiting || waits_in_queues(i)) && map_keeps(hands[i]->object))
			fault("hand %u waits, and keeps a tag", i);
	for (uint32_t i = 0; i < world->threads; i++)
		for (uint32_t k = 0; map_keeps && is_asleep(&world->thread[i]) && borrows(i) && k < scenario->shared; k++)
			if (map_keeps(hands[k]->object))
				fault("thread %u sleeps beside a tag that shared hand %u keeps", i, k);
}

/* No sleeper was told that does not come, for which others would be left out. */
static void check_none_coming(const struct tags_pool *in, uint32_t kind)
{
	if (count_coming(in, kind) > 0)
		fault("%u sleepers were told, and nobody is on the way", count_coming(in, kind));
}

/* Beside caches those who wait for tags to be back are watchers as long as they wait. */
static uint32_t count_beside_caches(uint32_t drains, uint32_t lists)
{
	return bell->is_cached ? drains + lists : 0;
}

void check_quiet_bell(uint32_t asleep, uint32_t drains, uint32_t lists)
{
	const uint32_t is_armed = drains > 0;
	uint32_t waiting, watchers, in_berths;

	find_bell();
	waiting = asleep + count_broken() + drains + lists;
	watchers = is_armed + lists + count_beside_caches(drains, lists);
	in_berths = count_sleepers() + count_beside();
	for (uint32_t kind = 0; kind < SETS; kind++) {
		in_berths += count_listeners(kind);
		check_none_coming(pool, kind);
	}
	check_sets();
	for (uint32_t i = 0; i < world->threads; i++)
		check_sleeper(i);
	check_kept();
	if (asleep > 0 && bell->waits.stops % 2)
		fault("%u wait though the pool was stopped", asleep);
	check_stops(bell);
	if (waiting != bell->waiting)
		fault("%u wait, not %u", waiting, bell->waiting);
	if (watchers != bell->waits.watchers)
		fault("%u are watchers, not %u", watchers, bell->waits.watchers);
	if (asleep != in_berths)
		fault("%u wait, and %u are listed", asleep, in_berths);
}

/*
 * Queues: each has a bell of its own, and a pool of tokens
 */

/* Each place has a thread or a notice that a call which tells it finds. Returns how many are listed. */
static uint32_t check_listed(const struct tags_queue *queue, const struct bell *it)
{
	uint32_t n = 0;

	for (uint32_t i = 0; i < it->hands; i++) {
		const bool sleeps = is_listed_as(&queue->pool, &queue->hands[i], &it->places[i], false);
		const bool listens = is_listed_as(&queue->pool, &queue->hands[i], &it->places[i], true);

		n += sleeps + listens;
		if ((sleeps && (!it->places[i].bed || it->places[i].is_woken)) || (listens && !has_notice(&it->places[i])))
			fault("hand %u waits in a queue, and nobody would tell it", i);
		if (it->places[i].is_waiting != (sleeps || listens))
			fault("hand %u waits in a queue though it was told", i);
	}
	return n;
}

static uint64_t busy_tokens(struct tags_queue *queue)
{
	uint64_t busy[1] = { 0 };

	if (tags_library_pool_busy(&queue->pool, busy, 1) < 0)
		fault("a report was refused");
	return busy[0];
}

/* Each tag that is not in the queue has a token of its own, and each other token is free. */
static void check_tokens(struct tags_queue *queue, uint32_t number)
{
	uint64_t taken = 0;

	for (uint32_t tag = 0; tag < scenario->tags; tag++) {
		const uint64_t bit = is_submitted(tag, number) ? 0 : UINT64_C(1) << queue->tokens[tag];

		if (taken & bit)
			fault("two tags have token %u", queue->tokens[tag]);
		taken |= bit;
	}
	if (taken != busy_tokens(queue))
		fault("tokens %lx are taken, and tags have %lx", (unsigned long)busy_tokens(queue), (unsigned long)taken);
}

/* A tag is marked while it is in a queue. */
static void check_marks(void)
{
	for (uint32_t tag = 0; tag < scenario->tags; tag++) {
		bool is_queued = false;

		for (uint32_t queue = 0; queue < scenario->queues; queue++)
			is_queued |= is_submitted(tag, queue);
		if (bell->queues->marks[tag] != is_queued)
			fault("tag %u is %sin a queue, and it is %smarked", tag, is_queued ? "" : "not ", is_queued ? "not " : "");
	}
}

void check_quiet_queue(uint32_t number, uint32_t asleep)
{
	const struct bell *it;

	find_bell();
	it = bell->queue_bells[number];
	if (it->waiting != asleep || check_listed(&bell->queues->each[number], it) != asleep)
		fault("%u wait in queue %u, not %u", asleep, number, it->waiting);
	check_none_coming(&bell->queues->each[number].pool, TAGS_ORDINARY);
	if (it->waits.stops % 2 != bell->waits.stops % 2)
		fault("queue %u is %sstopped, unlike the pool", number, it->waits.stops % 2 ? "" : "not ");
	if (asleep > 0 && it->waits.stops % 2)
		fault("%u wait in queue %u though the pool was stopped", asleep, number);
	check_stops(it);
	check_tokens(&bell->queues->each[number], number);
	check_marks();
}

/*
 * Gates of gates.c, of which a pool uses one, and shared hands another one
 */
extern struct {
	pthread_mutex_t lock;
	uint32_t waiters;
	struct tags_waiter *first;
} gates[16];

bool is_at_gate(const struct thread *thread)
{
	for (size_t i = 0; i < sizeof(gates) / sizeof(*gates); i++)
		for (const struct tags_waiter *it = gates[i].first; it; it = it->next)
			if (thread->address == (uintptr_t)&it->bed)
				return is_asleep(thread) && thread->kind == OP_ASLEEP;
	return false;
}

/* The hands of the scenario that are out. */
static uint32_t count_hands(void)
{
	uint32_t n = 0;

	for (uint32_t i = 0; i <= world->threads; i++)
		n += hand_at(i) != NULL;
	for (uint32_t i = 0; i < world->threads; i++)
		n += second_hands[i] && second_hands[i]->place;
	return n;
}

/* Whoever has the turn of shared hands sleeps beside one, and the others at the gate. */
static void check_turn(uint32_t sharers)
{
	uint32_t n = 0;

	for (uint32_t i = 0; i < world->threads; i++)
		n += is_asleep(&world->thread[i]) && is_listed_sharer(&world->thread[i]);
	if (shared_hands->shared->has_turn != n || (sharers > 0 && n == 0))
		fault("%u have the turn, %u wait for it, and it is %staken", n, sharers,
		      shared_hands->shared->has_turn ? "" : "not ");
}

/* Whoever waits for the tags of a list has left out what is free. */
static void check_left(void)
{
	uint64_t busy[1] = { 0 };

	if (tags_pool_busy(pool, busy, 1) < 0)
		fault("a report was refused");
	for (size_t i = 0; i < sizeof(gates) / sizeof(*gates); i++)
		for (const struct tags_waiter *it = gates[i].first; it; it = it->next)
			if (it->left && it->left->words[0] & ~busy[0])
				fault("a wait for %lx goes on, and %lx are busy", (unsigned long)it->left->words[0],
				      (unsigned long)busy[0]);
}

/* Each hand is to look for those who wait for the tags of lists, once it gives tags back. */
static void check_lookers(uint32_t lists)
{
	for (uint32_t i = 0; lists > 0 && i <= world->threads; i++)
		if (hand_at(i) && hand_at(i)->place->looks == bell->looks)
			fault("hand %u would not look for %u that wait for tags of lists", i, lists);
}

void check_quiet_gate(uint32_t hirers, uint32_t drains, uint32_t lists, uint32_t sharers)
{
	uint32_t waiters = 0;

	find_bell();
	for (size_t i = 0; i < sizeof(gates) / sizeof(*gates); i++)
		waiters += gates[i].waiters;
	if (waiters != hirers + drains + lists + sharers)
		fault("%u wait at the gates, not %u", hirers + drains + lists + sharers, waiters);
	if (scenario->shared)
		check_turn(sharers);
	check_left();
	check_lookers(lists);
	if (bell->is_armed != (drains > 0))
		fault("%u drain the pool, and one of them is %sto be told", drains, bell->is_armed ? "" : "not ");
	if (hirers > 0 && count_hands() < bell->hands)
		fault("%u wait for a hand beside one that is vacant", hirers);
	if (hirers > 0 && bell->waits.stops % 2)
		fault("%u wait for a hand though the pool was stopped", hirers);
}

static bool is_idle(const struct tags_place *place)
{
	return !has_notice(place) && !place->running && !place->is_waiting && !place->bed;
}

static void check_left_bell(const struct bell *it)
{
	for (uint32_t i = 0; i < it->hands; i++)
		if (!is_idle(&it->places[i]))
			fault("the last hand in place %u left a wait there", i);
	if (it->waiting || it->waits.watchers || it->is_armed)
		fault("somebody waits after the last leave");
}

/* After the last leave. */
void check_closed_bell(void)
{
	find_bell();
	check_left_bell(bell);
	for (uint32_t i = 0; i < bell->waits.queues; i++)
		check_left_bell(bell->queue_bells[i]);
	if (listed())
		fault("somebody is listed after the last leave");
}

/* Whether it is the word of a hand by which others use the tokens of a queue. */
static bool is_of_queue(const volatile void *address)
{
	for (uint32_t i = 0; find_bell() && i < bell->waits.queues; i++)
		for (uint32_t k = 0; k < bell->hands; k++)
			if (address == &bell->queues->each[i].hands[k].in_call)
				return true;
	return false;
}

bool is_of_hand(const volatile void *address)
{
	for (uint32_t i = 0; i <= world->threads; i++)
		if (hands[i] && address == &hands[i]->in_call)
			return true;
	return is_of_queue(address);
}

/* Of a thread that has ended. One whose eventfd was closed in its wait never learns of a tag. */
void check_idle_place(uint32_t thread)
{
	if (!hand_at(thread) || breaks(thread) || thread < scenario->shared ||
	    futures_behind(thread) > 0)
		return;
	if (!is_idle(hands[thread]->place) || is_listed(thread, false) || is_listed(thread, true))
		fault("thread %u has ended, and its place is not idle", thread);
	for (uint32_t i = 0; find_bell() && i < bell->waits.queues; i++)
		if (!is_idle(&bell->queue_bells[i]->places[hands[thread]->place->number]))
			fault("thread %u has ended, and its place in queue %u is not idle", thread, i);
}

/*
 * Caches: a hand that finds somebody waiting after a clear keeps nothing until its next clear
 */

/* Those who wait at the gate for sure. The explorer's own look is no access of the program. */
static uint64_t find_drains(void)
{
	uint64_t found = 0;

	for (uint32_t i = 0; i < world->threads; i++)
		if (drains(i) && is_at_gate(&world->thread[i]))
			found |= bit_of_drain(i);
	return found;
}

/* A clear looks for those who wait for an ordinary tag, and then for watchers. */
void before_load(const volatile void *address)
{
	if (current < 0 || !find_bell() || !world->notes.clears[current])
		return;
	if (map_waiters && address == map_waiters(pool->object))
		world->notes.listed[current] = listed_for(TAGS_ORDINARY);
	if (address == &bell->waits.watchers && bell->waits.watchers > 0)
		world->notes.listed[current] |= find_drains();
}

/*
 * Names
 */

static const struct {
	size_t at;
	const char *name;
} words[] = {
	{ offsetof(struct bell, waits.watchers), "watchers" },
	{ offsetof(struct bell, waits.stops), "stops" },
	{ offsetof(struct bell, is_armed), "is_armed" },
	{ offsetof(struct bell, looks), "looks" },
	{ offsetof(struct bell, waiting), "waiting" },
	{ offsetof(struct bell, lock), "the lock" },
}, fields[] = {
	{ offsetof(struct tags_place, lock), "lock" },
	{ offsetof(struct tags_place, bed), "bed" },
	{ offsetof(struct tags_place, beds[0]), "beds[0]" },
	{ offsetof(struct tags_place, beds[1]), "beds[1]" },
	{ offsetof(struct tags_place, is_woken), "is_woken" },
	{ offsetof(struct tags_place, running), "running" },
	{ offsetof(struct tags_place, notice.descriptor), "descriptor" },
	{ offsetof(struct tags_place, notice.function), "function" },
	{ offsetof(struct tags_place, notice.argument), "argument" },
	{ offsetof(struct tags_place, notice.is_lasting), "is_lasting" },
	{ offsetof(struct tags_place, is_waiting), "is_waiting" },
	{ offsetof(struct tags_place, kind), "the set that it waits for" },
	{ offsetof(struct tags_place, stops), "the stops of its wait" },
	{ offsetof(struct tags_place, looks), "looks" },
};

/* The bytes of a tag's note: notes.c. */
enum { BOARD = 40 };

/* The locks of handles of pools.c. */
extern pthread_mutex_t locks[16];

static const char *name_of_variable(uintptr_t address)
{
	if (address - (uintptr_t)locks < sizeof(locks))
		return "the handle's lock";
	if (address - (uintptr_t)gates < sizeof(gates))
		return (address - (uintptr_t)gates) % sizeof(*gates) ? "the gate's waiters" : "the gate's lock";
	return NULL;
}

static const char *name_in_place(size_t at)
{
	static char text[64];
	const char *name = "field";

	for (size_t i = 0; i < sizeof(fields) / sizeof(*fields); i++)
		if (fields[i].at == at % sizeof(struct tags_place))
			name = fields[i].name;
	snprintf(text, sizeof(text), "places[%zu].%s", at / sizeof(struct tags_place), name);
	return text;
}

/* Of a word in a bell, or NULL. */
static const char *name_in_bell(const struct bell *it, uintptr_t address)
{
	const size_t at = address - (uintptr_t)it, places = offsetof(struct bell, places);

	for (size_t i = 0; i < sizeof(words) / sizeof(*words); i++)
		if (words[i].at == at)
			return words[i].name;
	return at >= places && at < places + it->hands * sizeof(struct tags_place) ? name_in_place(at - places) : NULL;
}

/* What a word of a queue is, or NULL. */
static const char *name_in_queue(const struct tags_queue *queue, uintptr_t address)
{
	static char text[64];

	if (address == (uintptr_t)&queue->tail || address == (uintptr_t)&queue->head)
		return address == (uintptr_t)&queue->tail ? "the tail" : "the head";
	if (address - (uintptr_t)queue->places <= queue->mask * sizeof(*queue->places)) {
		snprintf(text, sizeof(text), "place %zu", (address - (uintptr_t)queue->places) / sizeof(*queue->places));
		return text;
	}
	if (address - (uintptr_t)queue->tokens >= scenario->tags * sizeof(*queue->tokens))
		return NULL;
	snprintf(text, sizeof(text), "the token of tag %zu", (address - (uintptr_t)queue->tokens) / sizeof(*queue->tokens));
	return text;
}

static const char *name_in_queues(uintptr_t address)
{
	static char text[96];

	const size_t mark = bell->queues ? address - (uintptr_t)bell->queues->marks : 0;

	if (bell->queues && mark < scenario->tags * sizeof(*bell->queues->marks)) {
		snprintf(text, sizeof(text), "the mark of tag %zu", mark / sizeof(*bell->queues->marks));
		return text;
	}
	for (uint32_t i = 0; bell->queues && i < bell->waits.queues; i++) {
		const char *name = name_in_bell(bell->queue_bells[i], address);

		if (!name)
			name = name_in_queue(&bell->queues->each[i], address);
		if (name) {
			snprintf(text, sizeof(text), "queue %u: %s", i, name);
			return text;
		}
	}
	return NULL;
}

static const char *name_of_board(uintptr_t address)
{
	static char text[64];
	const size_t at = address - (uintptr_t)bell->boards;

	if (!bell->boards || at >= scenario->tags * BOARD)
		return NULL;
	snprintf(text, sizeof(text), "notes[%zu]+%zu", at / BOARD, at % BOARD);
	return text;
}

const char *name_of(uintptr_t address)
{
	static char text[64];
	const char *name = name_of_variable(address);

	if (name)
		return name;
	if (!is_in_heap((const void *)address))
		return "what is on a stack";
	if (find_bell() && (name = name_in_bell(bell, address)))
		return name;
	if (find_bell() && ((name = name_in_queues(address)) || (name = name_of_board(address))))
		return name;
	snprintf(text, sizeof(text), "bell%+ld", (long)(address - (uintptr_t)bell));
	return text;
}
