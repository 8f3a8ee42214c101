/*
 * What must hold, told by public calls of tags.h alone.
 */
#include "tags.h"

#include "programs.h"
#include "scenario.h"

#include <errno.h>

void check_state(void)
{
	if (!is_closed())
		check_bell();
}

static uint64_t find_busy(void)
{
	uint64_t busy[1] = { 0 };

	if (tags_pool_busy(pool, busy, 1) < 0)
		fault("a report was refused");
	return busy[0];
}

/* Tags of a set that are free. */
static uint32_t count_free(enum tags_kind kind)
{
	const uint64_t reserved = (UINT64_C(1) << scenario->reserved) - 1;

	if (kind == TAGS_RESERVED)
		return scenario->reserved - (uint32_t)__builtin_popcountll(find_busy() & reserved);
	return scenario->tags - scenario->reserved - (uint32_t)__builtin_popcountll(find_busy() & ~reserved);
}

bool is_asleep(const struct thread *thread)
{
	return !thread->is_done && (thread->kind == OP_ASLEEP || thread->kind == OP_POLL);
}

/* Waits for what another thread was to hand over: no wait for a tag. */
static bool waits_for_a_thread(uint32_t i)
{
	return world->thread[i].kind == OP_POLL &&
	       (scenario->program[i] == taker || scenario->program[i] == mask_taker ||
		scenario->program[i] == shared_taker || scenario->program[i] == posted_submitter);
}

void note_stop(void)
{
	for (uint32_t i = 0; i < world->threads; i++)
		if (is_asleep(&world->thread[i]) && !waits_for_a_thread(i) && !drains(i))
			world->notes.stopped |= UINT32_C(1) << i;
	note_queued_before_stop();
}

static void check_stopped(void)
{
	for (uint32_t i = 0; i < world->threads; i++)
		if (is_asleep(&world->thread[i]) && world->notes.stopped >> i & 1)
			fault("thread %u waits on, and a stop has ended its wait", i);
}

static uint32_t count_at_gate(bool (*does)(uint32_t thread))
{
	uint32_t n = 0;

	for (uint32_t i = 0; i < world->threads; i++)
		n += is_at_gate(&world->thread[i]) && does(i);
	return n;
}

static bool waits_for_tag(uint32_t i)
{
	const uint8_t queues = waits_in_queues(i);

	return (!queues || queues & FOR_A_TAG) && !waits_for_a_thread(i) && !is_at_gate(&world->thread[i]);
}

/* Those who wait for a tag of this set. */
static uint32_t count_asleep(enum tags_kind kind)
{
	uint32_t n = 0;

	for (uint32_t i = 0; i < world->threads; i++)
		n += is_asleep(&world->thread[i]) && (world->notes.reserving >> i & 1) == (kind == TAGS_RESERVED) &&
		     waits_for_tag(i);
	return n;
}

static uint32_t count_in_queue(uint32_t queue)
{
	uint32_t n = 0;

	for (uint32_t i = 0; i < world->threads; i++)
		n += is_asleep(&world->thread[i]) && (waits_in_queues(i) >> queue & 1);
	return n;
}

/* Nobody waits in a queue beside a tag that was submitted there. */
static void check_queues(void)
{
	for (uint32_t queue = 0; queue < scenario->queues; queue++) {
		const uint32_t waiting = count_in_queue(queue);
		const int32_t queued = tags_pool_queued(pool, queue);

		if (waiting > 0 && count_queued(queue) > 0)
			fault("%u wait in queue %u beside a tag", waiting, queue);
		if (queued != (int32_t)count_queued(queue))
			fault("%u tags are in queue %u, not %d", count_queued(queue), queue, (int)queued);
		check_quiet_queue(queue, waiting);
	}
}

/* Nobody waits for tags that are all free. */
static void check_lists(void)
{
	for (uint32_t i = 0; i < world->threads; i++)
		if (awaits(i) && is_at_gate(&world->thread[i]) && !(find_busy() & awaits(i)))
			fault("thread %u waits for tags of a list though they are back", i);
}

static void check_locks(void)
{
	for (uint32_t i = 0; i < world->threads; i++) {
		if (!world->thread[i].is_done && world->thread[i].kind == OP_LOCK)
			fault("thread %u waits for a lock for ever", i);
		if (!world->thread[i].is_done && world->thread[i].kind == OP_YIELD)
			fault("thread %u looks for ever for what nobody is about to do", i);
	}
}

/* No thread can go on unless a deadline passes, a signal comes or a thread is cancelled. */
void check_quiet(void)
{
	uint32_t asleep = count_asleep(TAGS_ORDINARY), reserving = count_asleep(TAGS_RESERVED);
	uint32_t draining = count_at_gate(drains_all);
	uint32_t listing = count_at_gate(drains_list);

	check_locks();
	if (is_closed()) {
		if (asleep + reserving > 0)
			fault("%u wait though the pool was closed", asleep + reserving);
		return;
	}
	if (asleep > 0 && count_free(TAGS_ORDINARY) > 0)
		fault("%u wait beside a free tag", asleep);
	if (reserving > 0 && count_free(TAGS_RESERVED) > 0)
		fault("%u wait beside a free reserved tag", reserving);
	if (draining + listing > 0 && !find_busy())
		fault("%u wait for tags though all are back", draining + listing);
	check_lists();
	check_queues();
	check_stopped();
	check_quiet_bell(asleep + reserving, draining, listing);
	check_quiet_gate(count_at_gate(hires), draining, listing, count_at_gate(borrows));
}

/* They are not closed before the tags are back that their threads hold. */
static void close_shared(void)
{
	bool holds_any = false;

	for (uint32_t tag = 0; tag < scenario->tags; tag++) {
		const uint8_t holder = world->notes.holder[tag];

		if (holder == 0 || !borrows(holder - 1U))
			continue;
		if (!holds_any)
			EXPECT(TAGS_IN_USE, tags_hands_close(shared_hands));
		holds_any = true;
		world->notes.holder[tag] = 0;
		EXPECT(TAGS_OK, tags_hands_clear(shared_hands, tag));
	}
	EXPECT(TAGS_OK, tags_hands_close(shared_hands));
}

/* All hands leave, and the pool is closed. */
static void close_pool(void)
{
	struct tags_sums sums;
	uint64_t held = scenario->taken;

	if (scenario->shared)
		close_shared();
	for (uint32_t i = scenario->shared; i <= world->threads; i++)
		if (hands[i]->full)
			EXPECT(TAGS_OK, tags_leave(hands[i]));
	for (uint32_t i = 0; i < world->threads; i++)
		if (second_hands[i] && second_hands[i]->full)
			EXPECT(TAGS_OK, tags_leave(second_hands[i]));
	check_closed_bell();
	for (int i = 0; i < MAX_TAGS; i++)
		held += world->notes.holder[i] != 0;
	EXPECT(0, tags_pool_waiting(pool));
	EXPECT(TAGS_OK, tags_close(pool, &sums));
	if (sums.got != sums.back + sums.held + sums.posted || sums.held != held)
		fault("the sums don't balance: %lu got, %lu back, %lu held, not %lu", (unsigned long)sums.got,
		      (unsigned long)sums.back, (unsigned long)sums.held, (unsigned long)held);
	world->notes.is_closed = true;
}

static void check_memory(void)
{
	if (count_allocations() > own_allocations)
		fault("%u allocations were not freed", count_allocations() - own_allocations);
}

void check_end(void)
{
	uint32_t done = 0;

	check_quiet();
	for (uint32_t i = 0; i < world->threads; i++) {
		done += world->thread[i].is_done;
		if (world->thread[i].is_done && !is_closed() && !scenario->close)
			check_idle_place(i);
	}
	if (done < world->threads)
		return;
	if (scenario->close)
		scenario->close();
	else if (!is_closed())
		close_pool();
	check_memory();
}
