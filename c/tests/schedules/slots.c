/*
 * Programs that write slots, post tags and take them, and that use reserved tags.
 */
#include "tags.h"

#include "programs.h"
#include "scenario.h"

#include <errno.h>

/* The event by which a poster tells a taker that it has posted the tag in notes.handed. */
enum { HANDED = MAX_EVENTS - 1 };

/* What thread i writes in a slot. */
static uint64_t value_of(int me)
{
	return 0x1000 + (uint64_t)me;
}

static void hand_over(int me, int32_t tag)
{
	EXPECT(TAGS_OK, tags_post(hands[me], (uint32_t)tag));
	EXPECT(TAGS_NOT_HELD, tags_post(hands[me], (uint32_t)tag));
	pause_before(OP_EVENT_WRITE, &world->event[HANDED], sizeof(struct event), 1, PC);
	tell_step("hands tag %d over", (int)tag);
	world->notes.handed = (uint32_t)tag;
	world->event[HANDED].count++;
}

/* Gets a second tag if there is one, and gives it back: with a cache it may keep that. */
static void use_another(int me)
{
	int32_t other = CALL(tags_get(hands[me]));

	if (other == TAGS_NO_TAG)
		return;
	take_tag(me, other);
	clear_tag(me, other);
}

/* Gets a tag, writes its slot, and posts it for a taker. */
void poster(int me)
{
	uint64_t former;
	int32_t tag = CALL(tags_get_blocking(hands[me]));

	take_tag(me, tag);
	use_another(me);
	EXPECT(TAGS_OK, tags_write(hands[me], (uint32_t)tag, value_of(me), &former));
	drop_tag(tag);
	hand_over(me, tag);
	end_program(me);
}

/* Gives a tag back, which it may keep, and posts another one for nobody. */
void keeper(int me)
{
	int32_t tag = CALL(tags_get(hands[me]));
	int32_t other;

	if (tag < 0)
		return;
	take_tag(me, tag);
	other = CALL(tags_get(hands[me]));
	if (other >= 0)
		take_tag(me, other);
	clear_tag(me, tag);
	if (other < 0)
		return;
	drop_tag(other);
	EXPECT(TAGS_OK, tags_post(hands[me], (uint32_t)other));
}

/* Takes what was posted, which has its slot, and gives it back. */
void taker(int me)
{
	uint64_t value = 0;
	uint32_t tag;

	wait_event(HANDED);
	tag = world->notes.handed;
	EXPECT(TAGS_OK, tags_take(hands[me], tag));
	EXPECT(TAGS_NOT_POSTED, tags_take(hands[me], tag));
	take_tag(me, (int32_t)tag);
	if (holds_for_ever())
		return;
	drop_tag((int32_t)tag);
	EXPECT(TAGS_OK, tags_read_clear(hands[me], tag, &value));
	if (value != value_of(0))
		fault("the slot of tag %u has %lx", tag, (unsigned long)value);
	end_program(me);
}

/*
 * Takes two of the three posted tags, and posts them again. Any two threads want one in common; so
 * some may be refused, and then hold nothing, but not all.
 */
static void take_two(int me)
{
	const uint64_t mask = 7 & ~(UINT64_C(1) << me);
	const int32_t answer = CALL(tags_take_mask(hands[me], 0, mask));

	for (uint32_t tag = 0; tag < 3; tag++) {
		uint64_t value = 0;

		EXPECT(answer == TAGS_OK && (mask >> tag & 1), tags_holds(hands[me], tag));
		if (answer != TAGS_OK || !(mask >> tag & 1))
			continue;
		take_tag(me, (int32_t)tag);
		EXPECT(TAGS_OK, tags_read(hands[me], tag, &value));
		if (value != value_of((int)tag))
			fault("the slot of tag %u has %lx", tag, (unsigned long)value);
	}
	if (answer == TAGS_OK) {
		for (int32_t tag = 0; tag < 3; tag++)
			if (mask >> tag & 1)
				drop_tag(tag);
		EXPECT(TAGS_OK, tags_post_mask(hands[me], 0, mask));
	} else if (answer != TAGS_NOT_POSTED || ++world->notes.refused == world->threads) {
		fault("each take was refused, or one for another reason");
	}
	end_program(me);
}

/* Posts three tags, tells the other threads, and takes two of them itself. */
void mask_poster(int me)
{
	for (int i = 0; i < 3; i++) {
		const int32_t tag = CALL(tags_get(hands[me]));

		EXPECT(TAGS_OK, tags_write(hands[me], (uint32_t)tag, value_of(tag), NULL));
	}
	EXPECT(TAGS_OK, tags_post_mask(hands[me], 0, 7));
	for (int other = 1; other < (int)world->threads; other++) {
		pause_before(OP_EVENT_WRITE, &world->event[HANDED - other], sizeof(struct event), 1, PC);
		world->event[HANDED - other].count++;
	}
	take_two(me);
}

void mask_taker(int me)
{
	wait_event(HANDED - me);
	take_two(me);
}

/* Gives tags 1 and 2 back, which it has taken, or holds them for ever. */
static void give_two(int me)
{
	take_tag(me, 1);
	take_tag(me, 2);
	if (holds_for_ever())
		return;
	clear_tag(me, 1);
	clear_tag(me, 2);
	end_program(me);
}

/*
 * Gets three tags, keeps one of them, and posts by a mask the two others, or one, beside which it holds
 * the other. Then it would take both, which is refused unless both are posted.
 */
void mask_keeper(int me)
{
	uint64_t posted;

	for (int32_t tag = 0; tag < 3; tag++) {
		const int32_t got = CALL(tags_get(hands[me]));

		if (got == TAGS_NO_TAG)
			return;
		take_tag(me, got);
	}
	clear_tag(me, 0);
	posted = choose(2) ? 2 : 6;
	for (int32_t tag = 1; tag < 3; tag++)
		drop_tag(tag);
	EXPECT(TAGS_OK, tags_post_mask(hands[me], 0, posted));
	EXPECT(posted == 6 ? TAGS_OK : TAGS_NOT_POSTED, tags_take_mask(hands[me], 0, 6));
	if (posted == 2)
		EXPECT(TAGS_OK, tags_take(hands[me], 1));
	give_two(me);
}

/* Takes reserved tags, which nobody waits for, and never waits. */
void reserver(int me)
{
	for (int round = 0; goes_on(me, round); round++) {
		int32_t tag = CALL(tags_get_reserved(hands[me]));

		if (tag == TAGS_NO_TAG)
			continue;
		if (tag >= (int32_t)scenario->reserved)
			fault("tag %d is not reserved", (int)tag);
		if (!use_tag(me, tag))
			return;
	}
	end_program(me);
}

/* Takes the reserved tags that it finds, and gives them back one after the other. */
void all_reserver(int me)
{
	uint64_t held = 0;

	for (uint32_t i = 0; i < scenario->reserved; i++) {
		const int32_t tag = CALL(tags_get_reserved(hands[me]));

		if (tag == TAGS_NO_TAG)
			break;
		take_tag(me, tag);
		held |= UINT64_C(1) << tag;
	}
	for (; held && !holds_for_ever(); held &= held - 1)
		clear_tag(me, __builtin_ctzll(held));
	end_program(me);
}
