/*
 * The bell of a pool: it wakes those who wait for a tag when they are told of one.
 *
 * Hands wait as sleepers, threads in tags_get_blocking() or tags_get_timed(), or as listeners, which
 * are notified. Each has a berth in the library, a word beside those of the tags by which it is
 * listed and told, and a bit in the word of all who wait. The steps on these and on the tags are one
 * history, of which crates/tag_bell proves that nobody sleeps beside a free tag unless somebody is on
 * the way to it. A wait goes by rounds, and each of them is a call of the library: it lists the hand
 * and tries each tag, and answers whether the wait is over. If it is, the hand is not listed, and has
 * seen to all tags. Who makes tags free sees to them: it looks whether anybody waits, and tells as
 * many sleepers and as many listeners as there are tags for, those who have waited longest first; but
 * no more sleepers than make, with those that were told and have not begun another round, as many as
 * the set has tags. All this is of one set of tags: who waits for a reserved tag has a berth for that
 * set, and is told by those who make reserved tags free, and by nobody else.
 *
 * What is C and not proved is that whoever was told makes another round. Each hand has a place, with
 * a token, which is given to wake it, and which ends its sleep, or lets none begin. So no order is
 * needed between the library's answer and the sleep, and a sleep that ends for no reason is one
 * round more. A listener has a notice in its place, which one of those who tell it takes.
 *
 * A call of the library that makes tags free sees to them itself, and answers whom it told. C wakes
 * them. It also looks for watchers, of whom the library does not know: they wait for tags to be back
 * (drains.c). They are counted before they look, and who gives tags back loads the count afterwards.
 * Both are sequentially consistent, as are the steps of the library, so if the count is 0, whoever
 * watches later finds the tags back.
 *
 * Coroutines and futures, of which a hand may have any number, wait behind their hand, in a queue of
 * their own language: while one of them waits, the hand is listed, or was told and one of them is
 * about to try.
 */
#define _GNU_SOURCE
#include "bell.h"

#include <stdlib.h>
#include <sys/syscall.h>
#include <time.h>
#include <unistd.h>

char tags_library_order[TAGS_MAX_TOTAL + 2];

static void make_place(struct tags_place *place)
{
	place->notice = TAGS_NO_NOTICE;
	pthread_mutex_init(&place->lock, NULL);
	tags_library_make_bed(&place->beds[0], CLOCK_MONOTONIC);
	tags_library_make_bed(&place->beds[1], CLOCK_REALTIME);
}

static void free_place(struct tags_place *place)
{
	pthread_cond_destroy(&place->beds[1]);
	pthread_cond_destroy(&place->beds[0]);
	pthread_mutex_destroy(&place->lock);
}

struct bell *tags_library_make_bell(uint32_t hands)
{
	struct bell *bell = calloc(1, sizeof(struct bell) + hands * sizeof(struct tags_place));

	if (!bell)
		return NULL;
	pthread_mutex_init(&bell->lock, NULL);
	bell->uses = 1;
	bell->hands = hands;
	for (uint32_t i = 0; i < hands; i++) {
		bell->places[i].number = i;
		make_place(&bell->places[i]);
	}
	return bell;
}

void tags_library_let_go_of_bell(struct bell *bell)
{
	bool is_needed;

	pthread_mutex_lock(&bell->lock);
	is_needed = --bell->uses > 0;
	pthread_mutex_unlock(&bell->lock);
	if (is_needed)
		return;
	for (uint32_t i = 0; i < bell->hands; i++)
		free_place(&bell->places[i]);
	pthread_mutex_destroy(&bell->lock);
	free(bell);
}

void tags_library_free_bell(struct bell *bell)
{
	tags_library_remove_queues(bell);
	free(bell->boards);
	tags_library_let_go_of_bell(bell);
}

/*
 * Hands that wait
 */

static void add(struct tags_told *due, const struct tags_told *told)
{
	due->sleepers |= told->sleepers;
	due->listeners |= told->listeners;
}

/* A thread that waits for a reserved tag makes no clear meanwhile, by which others would learn of what it keeps. */
int32_t tags_library_get_of(struct tags_hand *hand, enum tags_kind kind)
{
	int32_t tag;

	if (kind == TAGS_ORDINARY)
		return tags_get(hand);
	tag = tags_get_reserved(hand);
	if (tag == TAGS_NO_TAG)
		tags_flush(hand);
	return tag;
}

/* Makes a round by the library, for a tag of the set that the hand waits for. */
static int32_t make_round(struct tags_hand *hand, bool listens, int32_t why, struct tags_told *told)
{
	const bool again = hand->place->is_waiting;

	if (hand->place->kind == TAGS_RESERVED)
		return listens ? tags_library_listen_on_reserved(hand, why, again, told) :
				 tags_library_wait_on_reserved(hand, why, again, told);
	return listens ? tags_library_listen_on(hand, why, again, told) :
			 tags_library_wait_on(hand, why, again, told);
}

int32_t tags_library_go_on(struct tags_hand *hand, bool listens, int32_t why, struct tags_told *due)
{
	struct tags_place *place = hand->place;
	struct tags_told told = { 0, 0 };
	int32_t tag;

	if (!place->is_waiting)
		tags_add(&tags_bell_of(hand->waits)->waiting, 1);
	tag = make_round(hand, listens, why, &told);
	place->is_waiting = tag == TAGS_NO_TAG;
	if (!place->is_waiting)
		tags_subtract(&tags_bell_of(hand->waits)->waiting, 1);
	/* its sweeps may have freed others: drains.c */
	if (tag >= 0)
		tags_library_see_to_lists(hand);
	add(due, &told);
	return tags_detail_won(tag);
}

/* Gives a place its token. A thread that sleeps there is woken without the lock, which it would wait for. */
static void wake_sleeper(struct tags_place *place)
{
	pthread_cond_t *bed;

	pthread_mutex_lock(&place->lock);
	bed = place->is_woken ? NULL : place->bed;
	place->is_woken = true;
	pthread_mutex_unlock(&place->lock);
	if (bed)
		pthread_cond_signal(bed);
}

/*
 * The number that an eventfd takes is added to its count. If that is full, it has been
 * told. Returns whether it could be told: one that was closed can't. This is no
 * cancellation point, as write() would be.
 */
static bool notify(int descriptor)
{
	const uint64_t one = 1;

	return syscall(SYS_write, descriptor, &one, sizeof(one)) == sizeof(one) ||
	       errno == EAGAIN || errno == EINTR;
}

/*
 * Notifies the hand in a place, once, unless its wait has ended. An eventfd is written with the
 * lock: once the wait has ended, the program may close it. Returns whether the hand knows.
 */
static bool notify_listener(struct bell *bell, struct tags_place *place)
{
	struct tags_notice notice = TAGS_NO_NOTICE;
	bool knows = true;

	pthread_mutex_lock(&bell->lock);
	if (!tags_library_put_off(bell, place))
		notice = tags_library_take_notice(place);
	if (notice.descriptor >= 0)
		knows = notify(notice.descriptor);
	if (notice.is_own)
		notice.function(notice.argument);
	pthread_mutex_unlock(&bell->lock);
	if (notice.function && !notice.is_own)
		tags_library_run(place, &notice);
	return knows;
}

/*
 * Who tells
 */

/* Of what the library answered: adds those whom it told to @due, and returns it without the flag. */
static int32_t take_told(int32_t answer, const struct tags_told *told, struct tags_told *due)
{
	if (!tags_detail_is_told(answer))
		return answer;
	add(due, told);
	return answer - TAGS_DETAIL_TOLD;
}

/* A hand with a cache first gives back what it keeps, which is busy to a watcher. */
static void see_to_watchers(struct tags_hand *hand, struct tags_told *due)
{
	TAGS_DETAIL_TO_FILL(told);

	if (tags_load(&hand->waits->watchers) == 0)
		return;
	take_told(tags_library_flush(hand, &told), &told, due);
	tags_library_tags_are_back(hand);
}

/* A call that was refused without the flag made no tag free. */
int32_t tags_library_hear(struct tags_hand *hand, int32_t answer, const struct tags_told *told,
			  struct tags_told *due)
{
	if (answer < 0)
		return answer;
	answer = take_told(answer, told, due);
	see_to_watchers(hand, due);
	return answer;
}

bool tags_library_wake(struct tags_waits *waits, const struct tags_told *due)
{
	struct bell *bell = tags_bell_of(waits);
	bool all_know = true;
	uint64_t left;

	for (left = due->sleepers; left; left &= left - 1)
		wake_sleeper(&bell->places[__builtin_ctzll(left)]);
	for (left = due->listeners; left; left &= left - 1)
		all_know &= notify_listener(bell, &bell->places[__builtin_ctzll(left)]);
	return all_know;
}

/* Whoever could not be notified may have waited for a tag of either set. */
void tags_library_tell_others(struct tags_hand *hand, struct tags_told *due)
{
	struct tags_told told = { 0, 0 };

	tags_library_see_to(hand, 1, due);
	tags_library_see_to_reserved(hand, 1, &told);
	add(due, &told);
	see_to_watchers(hand, due);
}

void tags_library_wake_told(struct tags_hand *hand, struct tags_told *due)
{
	int saved = errno;

	while (!tags_library_wake(hand->waits, due))
		tags_library_tell_others(hand, due);
	errno = saved;
}

int32_t tags_library_ring(struct tags_hand *hand, int32_t answer, struct tags_told told)
{
	struct tags_told due = { 0, 0 };

	answer = tags_library_hear(hand, answer, &told, &due);
	if (tags_is_anybody_told(&due))
		tags_library_wake_told(hand, &due);
	return answer;
}

/*
 * Stops
 */

/*
 * The count of stops is odd while waits are stopped. Whoever loads it sees what was done before. With the
 * lock, those of the queues change as well, so that a stop and a resume at once leave all of them alike.
 */
static void set_stopped(struct bell *bell, uint32_t is_stopped)
{
	TAGS_DETAIL_SHOWS(TAGS_MAX_TOTAL + 1);
	pthread_mutex_lock(&bell->lock);
	if (tags_load(&bell->waits.stops) % 2 != is_stopped)
		tags_add(&bell->waits.stops, 1);
	for (uint32_t i = 0; i < bell->waits.queues; i++)
		set_stopped(bell->queue_bells[i], is_stopped);
	pthread_mutex_unlock(&bell->lock);
}

static void wake_all(struct bell *bell)
{
	for (uint32_t i = 0; i < bell->hands; i++) {
		wake_sleeper(&bell->places[i]);
		notify_listener(bell, &bell->places[i]);
	}
	for (uint32_t i = 0; i < bell->waits.queues; i++)
		wake_all(bell->queue_bells[i]);
}

void tags_library_stop(struct tags_waits *waits)
{
	struct bell *bell = tags_bell_of(waits);
	int saved = errno;

	set_stopped(bell, true);
	wake_all(bell);
	tags_library_end_joins(bell, TAGS_STOPPED);
	errno = saved;
}

void tags_library_resume(struct tags_waits *waits)
{
	set_stopped(tags_bell_of(waits), false);
}
