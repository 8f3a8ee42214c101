/*
 * Hands that threads share: each is behind a lock, and a call takes the hand of the processor that it
 * runs on, or the next one that no other call has. So threads that run at once seldom meet at a lock,
 * however many threads there are.
 *
 * What a hand holds only that hand may clear. So beside each tag is noted which hand got it. Only
 * whoever has the tag writes that, and whoever is to clear the tag was told of it afterwards.
 *
 * With a lock nobody waits for a tag, and nobody who does is woken, which may call a function of the
 * program's: waits are in shared_waits.c, and those whom a call told are woken after it.
 */
#define _GNU_SOURCE
#include "lock.h"
#include "shared.h"

#include <sched.h>

/*
 * The hand of a call
 */

/*
 * A processor's number is mostly below the count, and a division takes as long as a step on a word. It
 * is no number, and errno changes, where the system does not tell it.
 */
static uint32_t own_place(uint32_t count)
{
	int saved = errno;
	const uint32_t processor = (uint32_t)sched_getcpu();

	errno = saved;
	return processor < count ? processor : processor % count;
}

struct tags_locked *tags_library_enter(const struct tags_hands *hands)
{
	const uint32_t own = own_place(hands->count);
	uint32_t at = own;

	do {
		if (tags_try_lock(&hands->shared->hands[at].lock))
			return &hands->shared->hands[at];
		at = at + 1 < hands->count ? at + 1 : 0;
	} while (at != own);
	tags_lock(&hands->shared->hands[own].lock);
	return &hands->shared->hands[own];
}

void tags_library_wake_others(const struct tags_hands *hands, struct tags_told *due)
{
	int saved = errno;

	while (!tags_library_wake(hands->waits, due)) {
		struct tags_locked *at = tags_library_enter(hands);

		tags_library_tell_others(&at->hand, due);
		tags_unlock(&at->lock);
	}
	errno = saved;
}

static void leave(const struct tags_hands *hands, struct tags_locked *at, struct tags_told *due)
{
	tags_unlock(&at->lock);
	if (tags_is_anybody_told(due))
		tags_library_wake_others(hands, due);
}

/* What a call answers that gives tags back, at its end. */
static int32_t end_give(const struct tags_hands *hands, struct tags_locked *at, int32_t answer,
			const struct tags_told *told)
{
	struct tags_told due = { 0, 0 };

	if (tags_detail_is_due(&at->hand, answer))
		answer = tags_library_hear(&at->hand, answer, told, &due);
	leave(hands, at, &due);
	return answer;
}

/* Mostly the same hand got the tag before. */
int32_t tags_library_note_holder(const struct tags_hands *hands, const struct tags_locked *at,
				 int32_t tag)
{
	const uint8_t number = (uint8_t)(at - hands->shared->hands);

	if (tag >= 0 && __atomic_load_n(&hands->holders[tag], __ATOMIC_SEQ_CST) != number)
		__atomic_store_n(&hands->holders[tag], number, __ATOMIC_SEQ_CST);
	return tag;
}

/* Takes the lock of the hand that holds a tag, if any of these does. */
static struct tags_locked *enter_holder(const struct tags_hands *hands, uint32_t tag)
{
	struct tags_locked *at = tags_holder_of(hands, tag);

	tags_lock(&at->lock);
	return at;
}

/* A get from the hand of a call. Adds those whom it told to @due. */
static int32_t get_from(struct tags_locked *at, enum tags_kind kind, struct tags_told *due)
{
	TAGS_DETAIL_TO_FILL(told);
	const int32_t answer = kind == TAGS_RESERVED ? tags_library_get_reserved(&at->hand, &told) :
						       tags_library_get(&at->hand, &told);

	return tags_detail_is_told(answer) ? tags_library_hear(&at->hand, answer, &told, due) : answer;
}

static int32_t get(const struct tags_hands *hands, enum tags_kind kind)
{
	struct tags_told due = { 0, 0 };
	struct tags_locked *at;
	int32_t tag;

	if (!hands)
		return TAGS_NULL;
	if (!hands->full)
		return TAGS_BAD_HANDLE;
	at = tags_library_enter(hands);
	tag = get_from(at, kind, &due);
	if (tags_detail_is_to_wrap(&at->hand, tag))
		tag = get_from(at, kind, &due);
	tags_library_note_holder(hands, at, tags_detail_won(tag));
	leave(hands, at, &due);
	return tag;
}

/*
 * Calls
 */

int32_t tags_hands_get(struct tags_hands *hands)
{
	return get(hands, TAGS_ORDINARY);
}

int32_t tags_hands_get_reserved(struct tags_hands *hands)
{
	return get(hands, TAGS_RESERVED);
}

/* Why a call for a tag is refused, if it is for what it was given. */
static int32_t check(const struct tags_hands *hands, uint32_t tag)
{
	if (!hands)
		return TAGS_NULL;
	if (!hands->full)
		return TAGS_BAD_HANDLE;
	return tag < hands->total ? TAGS_OK : TAGS_NO_SUCH_TAG;
}

int32_t tags_hands_clear(struct tags_hands *hands, uint32_t tag)
{
	const int32_t status = check(hands, tag);
	struct tags_locked *at;
	TAGS_DETAIL_TO_FILL(told);

	if (status != TAGS_OK)
		return status;
	at = enter_holder(hands, tag);
	if (tags_detail_has_notes(&at->hand))
		tags_library_withdraw(&at->hand, tag);
	tags_detail_lost(tag);
	return end_give(hands, at, tags_library_clear(&at->hand, tag, &told), &told);
}

int32_t tags_hands_read(struct tags_hands *hands, uint32_t tag, uint64_t *value)
{
	int32_t status = check(hands, tag);
	struct tags_locked *at;

	if (status != TAGS_OK || !value)
		return value ? status : (int32_t)TAGS_NULL;
	at = enter_holder(hands, tag);
	status = tags_library_read(&at->hand, tag, value);
	tags_unlock(&at->lock);
	return tags_detail_filled(status, value, sizeof(*value));
}

int32_t tags_hands_write(struct tags_hands *hands, uint32_t tag, uint64_t value, uint64_t *former)
{
	int32_t status = check(hands, tag);
	struct tags_locked *at;
	uint64_t unused;

	if (status != TAGS_OK)
		return status;
	if (!former)
		former = &unused;
	at = enter_holder(hands, tag);
	status = tags_library_write(&at->hand, tag, value, former);
	tags_unlock(&at->lock);
	return tags_detail_filled(status, former, sizeof(*former));
}

int32_t tags_hands_note(struct tags_hands *hands, uint32_t tag, uint64_t value)
{
	int32_t status = check(hands, tag);
	struct tags_locked *at;

	if (status == TAGS_NO_SUCH_TAG && !tags_bell_of(hands->waits)->boards)
		return TAGS_NO_NOTES;
	if (status != TAGS_OK)
		return status;
	at = enter_holder(hands, tag);
	status = tags_library_note(&at->hand, tag, value);
	tags_unlock(&at->lock);
	return status;
}

void tags_library_flush_all(const struct tags_hands *hands)
{
	for (uint32_t i = 0; i < hands->count; i++) {
		struct tags_locked *at = &hands->shared->hands[i];
		TAGS_DETAIL_TO_FILL(told);

		tags_lock(&at->lock);
		end_give(hands, at, tags_library_flush(&at->hand, &told), &told);
	}
}

int32_t tags_hands_flush(struct tags_hands *hands)
{
	if (!hands)
		return TAGS_NULL;
	if (!hands->full)
		return TAGS_BAD_HANDLE;
	tags_library_flush_all(hands);
	return TAGS_OK;
}
