/*
 * Notes: two words beside each tag, a value and the time, that its holder publishes and anybody may read.
 *
 * Only the holder of a tag writes its board, and ends the note before the tag goes back. So whoever finds
 * a note finds one of the tag's user at that moment, and the next holder begins without any. A call that
 * gives tags back and is refused must leave their notes. So the notes end only if it will not be
 * refused, which can be told before: what a hand holds its own calls alone change.
 *
 * A board has two places, and a note is written to the one where the last note is not. Then the count of
 * notes tells of it. So a reader has a note that is whole if the count is the same afterwards: a place is
 * written again only after the count has risen. It never waits for a holder that was interrupted while
 * it wrote; it reads again if another note was published meanwhile, and then has that. A lock would stop
 * holders, and with one place a reader would find nothing there while its holder writes.
 *
 * A pool has notes only if it is opened with them, as to publish one takes three stores and a look at the clock.
 * A report passes some of them without a lock and looks for the next ones, so its function may be slow.
 *
 * All steps are sequentially consistent, as are those of the library by which tags are given back and got.
 */
#define _GNU_SOURCE
#include "bell.h"

#include <stdlib.h>
#include <time.h>

struct tags_board {
	/* twice the number of notes that were published, and 1 more while the last one is there */
	uint64_t state;
	/* note i is in place i % 2 */
	struct tags_noted places[2];
};

struct tags_board *tags_library_make_boards(uint32_t tags)
{
	/* calloc(0) may return NULL, which would be no refusal */
	return calloc(tags > 0 ? tags : 1, sizeof(struct tags_board));
}

/*
 * A board. The first two are for the holder of its tag.
 */

static void publish(struct tags_board *board, const struct tags_noted *note)
{
	const uint64_t number = tags_load_wide(&board->state) / 2 + 1;
	struct tags_noted *place = &board->places[number % 2];

	tags_store_wide(&place->value, note->value);
	tags_store_wide(&place->since, note->since);
	tags_store_wide(&board->state, 2 * number + 1);
}

static void end_note(struct tags_board *board)
{
	const uint64_t state = tags_load_wide(&board->state);

	if (state % 2 == 1)
		tags_store_wide(&board->state, state - 1);
}

/* Returns whether there was a note. */
static bool find_note(const struct tags_board *board, struct tags_noted *note)
{
	uint64_t state, after = tags_load_wide(&board->state);

	do {
		const struct tags_noted *place = &board->places[after / 2 % 2];

		state = after;
		note->value = tags_load_wide(&place->value);
		note->since = tags_load_wide(&place->since);
		after = tags_load_wide(&board->state);
	} while (after / 2 != state / 2);
	return state % 2 == 1;
}

/*
 * Calls of hands
 */

static struct tags_board *board_of(const struct tags_hand *hand, uint32_t tag)
{
	return &tags_bell_of(hand->waits)->boards[tag];
}

static uint64_t now(void)
{
	struct timespec time;

	clock_gettime(CLOCK_MONOTONIC, &time);
	return (uint64_t)time.tv_sec * 1000000000 + (uint64_t)time.tv_nsec;
}

int32_t tags_library_note(struct tags_hand *hand, uint32_t tag, uint64_t value)
{
	struct tags_noted note = { value, 0 };
	int32_t holds;

	if (!hand->place)
		return TAGS_BAD_HANDLE;
	if (!tags_detail_has_notes(hand))
		return TAGS_NO_NOTES;
	holds = tags_library_holds(hand, tag);
	if (holds != 1)
		return holds < 0 ? holds : (int32_t)TAGS_NOT_HELD;
	note.since = now();
	TAGS_DETAIL_SHOWS(tag);
	publish(board_of(hand, tag), &note);
	return TAGS_OK;
}

/* A program that was compiled with an earlier header of this version also calls these under round robin. */
void tags_library_withdraw(struct tags_hand *hand, uint32_t tag)
{
	if (tags_detail_has_notes(hand) && tags_library_holds(hand, tag) == 1)
		end_note(board_of(hand, tag));
}

/* Whether the hand may give back each tag of a list, among which none stands twice. */
static bool may_clear(struct tags_hand *hand, const uint32_t *tags, size_t count)
{
	const uint32_t reserved = tags_bell_of(hand->waits)->reserved;
	uint64_t seen[TAGS_SET_WORDS] = { 0 };

	for (size_t i = 0; i < count; i++) {
		const uint64_t bit = UINT64_C(1) << tags[i] % 64;

		if (tags[i] < reserved || tags_library_holds(hand, tags[i]) != 1 || (seen[tags[i] / 64] & bit))
			return false;
		seen[tags[i] / 64] |= bit;
	}
	return true;
}

void tags_library_withdraw_all(struct tags_hand *hand, const uint32_t *tags, size_t count)
{
	if (!tags_detail_has_notes(hand) || count > TAGS_MAX_BATCH || !may_clear(hand, tags, count))
		return;
	for (size_t i = 0; i < count; i++)
		end_note(board_of(hand, tags[i]));
}

/* A tag past all others stands for each number that would wrap around. */
void tags_library_withdraw_mask(struct tags_hand *hand, uint32_t first, uint64_t mask)
{
	const uint32_t from = first < TAGS_MAX_TOTAL ? first : TAGS_MAX_TOTAL;
	uint32_t tags[64];
	size_t count = 0;

	for (; mask; mask &= mask - 1)
		tags[count++] = from + (uint32_t)__builtin_ctzll(mask);
	tags_library_withdraw_all(hand, tags, count);
}

/*
 * The report
 */

/* How many tags one look finds at most. */
#ifndef TAGS_AT_ONCE
#define TAGS_AT_ONCE 256
#endif

static void note_found(struct tags_found *found, const struct tags_board *boards, uint32_t tag)
{
	found->tag = tag;
	found->has_note = find_note(&boards[tag], &found->note);
	if (found->has_note)
		TAGS_DETAIL_SEES(tag);
}

/* The first tag of a set from @tag on, or TAGS_MAX_TOTAL. */
static uint32_t next_in(const struct tags_set *set, uint32_t tag)
{
	for (; tag < TAGS_MAX_TOTAL; tag = (tag / 64 + 1) * 64) {
		const uint64_t left = set->words[tag / 64] >> tag % 64;

		if (left)
			return tag + (uint32_t)__builtin_ctzll(left);
	}
	return TAGS_MAX_TOTAL;
}

/* With the handle's lock. */
static int32_t find_locked(struct tags_pool *pool, uint32_t from, struct tags_found *found, int32_t room)
{
	const struct bell *bell = tags_bell_in(pool);
	struct tags_set busy = { TAGS_SET_WORDS, { 0 } };
	int32_t answer, count = 0;

	if (!bell)
		return TAGS_BAD_HANDLE;
	if (!bell->boards)
		return TAGS_NO_NOTES;
	answer = tags_library_pool_busy(pool, busy.words, TAGS_SET_WORDS);
	if (tags_detail_filled(answer, busy.words, sizeof(busy.words)) < 0)
		return answer;
	for (uint32_t tag = next_in(&busy, from); tag < TAGS_MAX_TOTAL && count < room; tag = next_in(&busy, tag + 1))
		note_found(&found[count++], bell->boards, tag);
	return count;
}

int32_t tags_library_find_noted(struct tags_pool *pool, uint32_t from, struct tags_found *found, int32_t room)
{
	int32_t answer;

	tags_library_lock_handle(pool);
	answer = find_locked(pool, from, found, room);
	tags_library_unlock_handle(pool);
	return tags_detail_filled(answer, found, (size_t)room * sizeof(*found));
}

/* The function is called without the lock, so each look may find the pool changed, or closed. */
int32_t tags_pool_each_noted(struct tags_pool *pool,
			     int (*function)(uint32_t tag, const struct tags_noted *note,
					     void *argument),
			     void *argument)
{
	struct tags_found found[TAGS_AT_ONCE];
	int32_t calls = 0, count;
	uint32_t from = 0;

	if (!pool || !function)
		return TAGS_NULL;
	do {
		count = tags_library_find_noted(pool, from, found, TAGS_AT_ONCE);
		if (count < 0)
			return calls > 0 ? calls : count;
		for (const struct tags_found *it = found; it < found + count; it++) {
			calls++;
			if (function(it->tag, it->has_note ? &it->note : NULL, argument))
				return calls;
			from = it->tag + 1;
		}
	} while (count == TAGS_AT_ONCE);
	return calls;
}
