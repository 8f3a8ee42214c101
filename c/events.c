/*
 * Waits that need no thread: rounds of the library, one for each call. Between two calls the hand is
 * listed as a listener, or was told, with an eventfd that is notified or a function that is called
 * then. How it is told is in bell.c.
 *
 * Each hand may name an eventfd of its own: with one for the pool two loops slept beside a free tag, since one of
 * them read what was meant for both. A hand waits for a tag of one set at a time, as it has one place, with one
 * token and one notice.
 *
 * Those whom a call tells are woken at once, before it may wait for a function that runs. A hand
 * behind a lock wakes them after it has left that: they are added to @due, if that is not NULL.
 */
#define _GNU_SOURCE
#include "bell.h"

/* Sets how the hand is notified. A function that was put off is not called. */
static void set_notice(struct tags_hand *hand, const struct tags_notice *notice)
{
	struct bell *bell = tags_bell_of(hand->waits);

	pthread_mutex_lock(&bell->lock);
	hand->place->notice = *notice;
	hand->place->is_due = false;
	pthread_mutex_unlock(&bell->lock);
}

/* Afterwards nobody notifies the hand, and no function runs that does, unless the hand is behind a lock. */
static void forget_notice(struct tags_hand *hand, bool is_behind_lock)
{
	set_notice(hand, &TAGS_NO_NOTICE);
	if (!is_behind_lock)
		tags_library_outwait(hand->place);
}

/* Makes a round of a hand that has a notice. With any answer but TAGS_NO_TAG it has none afterwards. */
static int32_t make_round(struct tags_hand *hand, int32_t why, struct tags_told *due)
{
	struct tags_told own = { 0, 0 };
	const int32_t tag = tags_library_go_on(hand, true, why, due ? due : &own);

	tags_library_wake_told(hand, &own);
	if (tag != TAGS_NO_TAG)
		forget_notice(hand, due != NULL);
	return tag;
}

/* Whoever tells the hand finds the notice. A stop does, too, or the hand finds the stop. */
int32_t tags_library_listen(struct tags_hand *hand, enum tags_kind kind,
			    const struct tags_notice *notice, struct tags_told *due)
{
	tags_begin_wait(hand, kind);
	if (hand->place->is_waiting)
		forget_notice(hand, due != NULL);
	set_notice(hand, notice);
	return make_round(hand, tags_is_ended(hand) ? TAGS_STOPPED : TAGS_OK, due);
}

/* A tag that is free saves the wait. A hand that waits for one of the other set can't wait for this one, too. */
static int32_t get_or_wait(struct tags_hand *hand, enum tags_kind kind,
			   const struct tags_notice *notice)
{
	const bool waits = hand->place->is_waiting;
	int32_t tag;

	if (waits && hand->place->kind == kind)
		return tags_library_listen(hand, kind, notice, NULL);
	if (tags_detail_is_stopped(hand))
		return TAGS_STOPPED;
	tag = tags_library_get_of(hand, kind);
	if (tag != TAGS_NO_TAG)
		return tag;
	return waits ? (int32_t)TAGS_WAITING : tags_library_listen(hand, kind, notice, NULL);
}

static bool cancel(struct tags_hand *hand, struct tags_told *due)
{
	if (!hand->place->is_waiting)
		return false;
	make_round(hand, TAGS_STOPPED, due);
	return true;
}

/*
 * Eventfds and functions
 */

static int32_t get_async(struct tags_hand *hand, enum tags_kind kind, int descriptor)
{
	const struct tags_notice notice = { descriptor, NULL, NULL, false, false };

	if (!hand->place)
		return TAGS_BAD_HANDLE;
	return descriptor < 0 ? (int32_t)TAGS_BAD_EVENT : get_or_wait(hand, kind, &notice);
}

static int32_t get_notified(struct tags_hand *hand, enum tags_kind kind,
			    void (*function)(void *argument), void *argument)
{
	const struct tags_notice notice = { -1, function, argument, false, false };

	return hand->place ? get_or_wait(hand, kind, &notice) : (int32_t)TAGS_BAD_HANDLE;
}

int32_t tags_library_get_async(struct tags_hand *hand, int descriptor)
{
	return get_async(hand, TAGS_ORDINARY, descriptor);
}

int32_t tags_library_get_notified(struct tags_hand *hand, void (*function)(void *argument),
				  void *argument)
{
	return get_notified(hand, TAGS_ORDINARY, function, argument);
}

int32_t tags_library_get_reserved_async(struct tags_hand *hand, int descriptor)
{
	return get_async(hand, TAGS_RESERVED, descriptor);
}

int32_t tags_library_get_reserved_notified(struct tags_hand *hand,
					   void (*function)(void *argument), void *argument)
{
	return get_notified(hand, TAGS_RESERVED, function, argument);
}

/* A wait that was ended inside a function may have left its own one running. */
bool tags_library_cancel(struct tags_hand *hand)
{
	const bool is_ended = cancel(hand, NULL);

	if (!is_ended)
		tags_library_outwait(hand->place);
	return is_ended;
}

int32_t tags_library_cancel_wait(struct tags_hand *hand)
{
	if (!hand->place)
		return TAGS_BAD_HANDLE;
	return tags_library_cancel(hand) ? TAGS_OK : TAGS_NOT_WAITING;
}

/*
 * Futures of another language
 */

int32_t tags_library_poll(struct tags_hand *hand, void (*function)(void *argument), void *argument,
			  struct tags_told *due)
{
	const struct tags_notice notice = { -1, function, argument, true, false };

	return tags_library_listen(hand, TAGS_ORDINARY, &notice, due);
}

void tags_library_end_poll(struct tags_hand *hand, struct tags_told *due)
{
	cancel(hand, due);
}
