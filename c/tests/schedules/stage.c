/*
 * The pool of a scenario, and what the programs of its threads share.
 */
#include "tags.h"

#include "programs.h"
#include "scenario.h"

#include <errno.h>

struct tags_pool *pool;
struct tags_hand *hands[MAX_THREADS + 1];
struct tags_hand *second_hands[MAX_THREADS];
struct tags_hands *shared_hands;
uint32_t own_allocations;

bool has_program(void (*program)(int me))
{
	for (int i = 0; i < MAX_THREADS; i++)
		if (scenario->program[i] == program)
			return true;
	return false;
}

/*
 * Making it
 */

void *take_own(size_t size)
{
	own_allocations++;
	return take_memory(size);
}

static uint32_t count_hands(void)
{
	return scenario->hands ? scenario->hands : world->threads + 1;
}

void open_pool(void)
{
	struct tags_options options = TAGS_OPTIONS_INIT;

	options.total = scenario->former_tags ? scenario->former_tags : scenario->tags;
	options.reserved = scenario->reserved;
	options.queues = scenario->queues;
	options.hands = count_hands();
	options.cache = scenario->cache;
	options.flags = scenario->flags;
	options.shift = scenario->shift ? scenario->shift : TAGS_MAX_SHIFT;
	EXPECT(TAGS_OK, tags_open(pool, &options));
	if (scenario->former_tags)
		EXPECT(TAGS_OK, tags_resize(pool, scenario->tags));
}

static void share_some(void)
{
	shared_hands = take_own(sizeof(*shared_hands));
	EXPECT(TAGS_OK, tags_hands_open(pool, shared_hands, scenario->shared));
	for (uint32_t i = 0; i < scenario->shared; i++)
		hands[i] = shared_hand(i);
}

static void join_all(void)
{
	if (scenario->shared)
		share_some();
	for (uint32_t i = scenario->shared; i <= world->threads; i++) {
		hands[i] = take_own(sizeof(*hands[i]));
		if (i < count_hands())
			EXPECT(TAGS_OK, tags_join(pool, hands[i], TAGS_STAY));
		if (i < world->threads && (hires(i) || nests(i)))
			second_hands[i] = take_own(sizeof(*second_hands[i]));
	}
}

/* An extra hand takes tags for ever: of two words of one tag the second one. */
static void take_some(void)
{
	struct tags_hand *last = hands[world->threads];

	for (uint32_t i = 0; i < scenario->taken; i++)
		if (tags_get(last) < 0)
			fault("there is no tag to take");
	if (scenario->taken == 1 && scenario->shift == TAGS_ONE_PER_WORD) {
		EXPECT(1, tags_get(last));
		EXPECT(0, tags_clear(last, 0));
	}
}

void set_up(void)
{
	while (world->threads < MAX_THREADS && scenario->program[world->threads])
		world->threads++;
	for (uint32_t i = 0; i < world->threads; i++) {
		world->thread[i].may_be_cancelled = scenario->cancels >> i & 1;
		world->thread[i].signals = scenario->signals;
	}
	if (scenario->open) {
		scenario->open();
	} else {
		pool = take_own(sizeof(*pool));
		open_pool();
		join_all();
		take_some();
	}
	make_futures();
	make_nests();
}

/* In C++ the pool goes with its last owner. */
bool is_closed(void)
{
	return world->notes.is_closed || is_freed(pool);
}

/*
 * Tags
 */

void take_tag(int me, int32_t tag)
{
	if (tag < 0 || (uint32_t)tag >= scenario->tags) {
		fault("thread %d got %d", me, (int)tag);
		return;
	}
	if (world->notes.holder[tag])
		fault("tag %d has two holders, %d and %d", (int)tag, world->notes.holder[tag] - 1, me);
	world->notes.holder[tag] = (uint8_t)(me + 1);
	tell_step("got tag %d", (int)tag);
}

void drop_tag(int32_t tag)
{
	world->notes.holder[tag] = 0;
}

void clear_tag(int me, int32_t tag)
{
	world->notes.clears[me] = scenario->cache > 0;
	drop_tag(tag);
	EXPECT(TAGS_OK, tags_clear(hands[me], (uint32_t)tag));
	world->notes.clears[me] = false;
}

bool holds_for_ever(void)
{
	return scenario->forever && choose(2);
}

bool goes_on(int me, int round)
{
	world->notes.stopped &= ~(UINT32_C(1) << me);
	return round < scenario->rounds[me] && round < most_rounds && (round == 0 || choose(2) == 0);
}

void may_be_stopped(int32_t answer)
{
	if (answer != TAGS_STOPPED || !has_stop())
		fault("a wait returned %d", (int)answer);
}

bool use_tag(int me, int32_t tag)
{
	if (tag == TAGS_SPENT && scenario->limited)
		return false;
	if (tag < 0) {
		may_be_stopped(tag);
		return false;
	}
	take_tag(me, tag);
	if (holds_for_ever())
		return false;
	clear_tag(me, tag);
	return true;
}

void end_program(int me)
{
	if (scenario->cache && scenario->forever && choose(2))
		return;
	if (scenario->cache)
		EXPECT(TAGS_OK, tags_flush(hands[me]));
}

/*
 * Eventfds
 */

void open_event(int event)
{
	world->event[event] = (struct event){ .is_open = true };
}

void close_event(int event)
{
	pause_before(OP_EVENT_CLOSE, &world->event[event], sizeof(struct event), 1, PC);
	tell_step("closes eventfd %d", event);
	world->event[event] = (struct event){ 0 };
}

bool break_event(int event)
{
	bool was_notified;

	pause_before(OP_EVENT_CLOSE, &world->event[event], sizeof(struct event), 1, PC);
	tell_step("breaks eventfd %d", event);
	was_notified = world->event[event].count > 0;
	world->event[event] = (struct event){ .is_broken = true };
	return was_notified;
}

void wait_event(int event)
{
	pause_before(OP_POLL, &world->event[event], sizeof(struct event), 1, PC);
	tell_step("reads eventfd %d", event);
	world->event[event].count = 0;
}

/* No thread has a handle of the library's own: own_hands.c is not explored. */
void tags_library_flush_own(const struct tags_pool *unused);

void tags_library_flush_own(const struct tags_pool *unused)
{
	(void)unused;
}
