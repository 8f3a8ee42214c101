/*
 * What the C files of the library share, beside tags.h: the bell of a pool, which
 * wakes those who wait for a tag when they are told of one. How is in bell.c.
 */
#ifndef TAGS_BELL_H
#define TAGS_BELL_H

#define TAGS_LIBRARY
#include "tags.h"

#include <errno.h>
#include <pthread.h>
#include <stdbool.h>
#include <stddef.h>
#include <time.h>

/* Of <linux/futex.h>, which some C libraries don't find: its operations on memory that no other process has. */
enum { TAGS_FUTEX_WAIT = 0 | 128, TAGS_FUTEX_WAKE = 1 | 128 };

/* When a wait ends, by CLOCK_MONOTONIC or CLOCK_REALTIME: never if @end is NULL. */
struct tags_limit {
	int32_t clock;
	const struct timespec *end;
};
#define TAGS_NO_LIMIT ((const struct tags_limit){ CLOCK_MONOTONIC, NULL })

/* How to notify a hand: by an eventfd, or by a function; -1 and NULL if not at all. */
struct tags_notice {
	int32_t descriptor;
	void (*function)(void *argument);
	void *argument;
	/* @argument outlives the wait, so whoever ends that does not wait until the function has returned */
	bool is_lasting;
	/* the library's own function, which is short: it is called with the lock, as an eventfd is written */
	bool is_own;
};
#define TAGS_NO_NOTICE (struct tags_notice){ -1, NULL, NULL, false, false }

/* What a look answers while what a thread waits for is not there. */
enum { TAGS_NOT_YET = 1 };

enum tags_awaited { TAGS_A_HAND, TAGS_ALL_BACK, TAGS_LISTED_BACK, TAGS_A_TURN };

/* A set of tags: bit t % 64 of words[t / 64] is 1 if it has tag t. From word @length on it has none. */
enum { TAGS_SET_WORDS = TAGS_MAX_TOTAL / 64 };
struct tags_set {
	size_t length;
	uint64_t words[TAGS_SET_WORDS];
};

/* Who waits at the gate of a pool, or for a turn at that of shared hands: gates.c. */
struct tags_waiter {
	/* which pool's, by where its bell is; for what; and what ends the wait, unless it answers TAGS_NOT_YET */
	struct bell *bell;
	enum tags_awaited what;
	int32_t (*look)(struct tags_waiter *it);
	const struct tags_limit *limit;
	/* of its look: for a hand; for tags, with the nanoseconds that it rests before the next one */
	struct tags_pool *pool;
	struct tags_hand *hand;
	uint32_t flags;
	int32_t rest;
	/* with the gate's lock: those of its list that were busy at each look, or NULL for all tags */
	struct tags_set *left;
	/* with the gate's lock: it is to look again; it has looked, and sleeps; what ended its wait, or TAGS_OK */
	bool is_told;
	bool is_asleep;
	int32_t end;
	pthread_cond_t bed;
	struct tags_waiter *next;
};

/* The place of a hand in the bell. */
struct tags_place {
	/* the hand's number, below that of the bell's places */
	uint32_t number;
	/* on which of the beds its thread sleeps, or NULL: there is one for each clock */
	pthread_mutex_t lock;
	pthread_cond_t *bed;
	pthread_cond_t beds[2];
	/* with the lock, the token: whoever wakes the hand gives it, and the end of its sleep takes it */
	bool is_woken;
	/* how many functions of its notices run: more than 1 only if the wait of one was ended inside a function */
	uint32_t running;
	/* with the bell's lock */
	struct tags_notice notice;
	/* likewise: a thread that runs another function has the place in its list; and is to call the notice's function */
	bool is_put_off;
	bool is_due;
	/* the next place in that list */
	struct tags_place *next;
	/* for the hand alone: its wait goes on, so that it has a turn; and the set that it waits for a tag of */
	bool is_waiting;
	enum tags_kind kind;
	/* likewise: the pool's count of stops when its wait began, and its count of looks when the hand looked last */
	uint32_t stops;
	uint32_t looks;
};

/* A hand behind a lock: shared.h. */
struct tags_locked;

/* Where a tag's note is: notes.c. */
struct tags_board;

/* Queues of submitted tags, and one of them: queues.c. */
struct tags_queues;
struct tags_queue;

struct bell {
	/* keeps @waits, which each clear loads, out of a cache line of what malloc() put before */
	char apart[64];
	struct tags_waits waits;
	/* 1 if a call that gives tags back is to tell one of those who wait for all of them: drains.c */
	uint32_t is_armed;
	/* how often those who wait for the tags of a list have looked, since after each look each hand looks once */
	uint32_t looks;
	/* the ordinary tags, the reserved ones, and whether hands keep tags */
	uint32_t depth;
	uint32_t reserved;
	bool is_cached;
	/* of the pool's flags those that each hand has */
	uint32_t flags;
	/* one for each tag, or NULL in a pool without notes */
	struct tags_board *boards;
	/* the pool's queues, which a resize makes anew, and the bells of those who wait in them, which stay */
	struct tags_queues *queues;
	struct bell **queue_bells;
	/* of the notices, of the count of stops, and of the next word */
	pthread_mutex_t lock;
	/* what needs the bell: its pool, and each place that is put off */
	uint32_t uses;
	/* how many wait, for reports alone: as it changes with each wait, it is away from @waits */
	uint32_t waiting;
	/* one for each hand that the pool can give out, by the hand's number */
	uint32_t hands;
	struct tags_place places[];
};

static inline uint32_t tags_load(const uint32_t *word)
{
	return __atomic_load_n(word, __ATOMIC_SEQ_CST);
}

static inline void tags_store(uint32_t *word, uint32_t number)
{
	__atomic_store_n(word, number, __ATOMIC_SEQ_CST);
}

static inline uint64_t tags_load_wide(const uint64_t *word)
{
	return __atomic_load_n(word, __ATOMIC_SEQ_CST);
}

static inline void tags_store_wide(uint64_t *word, uint64_t number)
{
	__atomic_store_n(word, number, __ATOMIC_SEQ_CST);
}

static inline void tags_add(uint32_t *word, uint32_t number)
{
	__atomic_fetch_add(word, number, __ATOMIC_SEQ_CST);
}

static inline void tags_subtract(uint32_t *word, uint32_t number)
{
	__atomic_fetch_sub(word, number, __ATOMIC_SEQ_CST);
}

static inline uint32_t tags_swap(uint32_t *word, uint32_t number)
{
	return __atomic_exchange_n(word, number, __ATOMIC_SEQ_CST);
}

/* Changes a word that is @from. Returns whether it was. */
static inline bool tags_replace(uint32_t *word, uint32_t from, uint32_t to)
{
	return __atomic_compare_exchange_n(word, &from, to, false, __ATOMIC_SEQ_CST, __ATOMIC_SEQ_CST);
}

/* A thread that looks at a word again and again gives way to one that shares its core. */
static inline void tags_pause(void)
{
#ifdef __x86_64__
	__builtin_ia32_pause();
#elif defined __aarch64__
	__asm__ volatile("yield");
#endif
}

static inline bool tags_is_anybody_told(const struct tags_told *told)
{
	return (told->sleepers | told->listeners) != 0;
}

static inline struct bell *tags_bell_of(struct tags_waits *waits)
{
	return (struct bell *)(void *)((char *)waits - offsetof(struct bell, waits));
}

/* With the handle's lock: the bell of the pool that is open in it, or NULL. */
static inline struct bell *tags_bell_in(const struct tags_pool *pool)
{
	return pool->waits && !pool->place ? tags_bell_of(pool->waits) : NULL;
}

/* A hand is about to wait: from now on a stop ends its wait. One that waits already began before. */
static inline void tags_begin_wait(struct tags_hand *hand, enum tags_kind kind)
{
	if (hand->place->is_waiting)
		return;
	hand->place->kind = kind;
	hand->place->stops = tags_load(&hand->waits->stops);
}

/* Whether a stop has ended the hand's wait, also if waits were resumed since. */
static inline bool tags_is_ended(const struct tags_hand *hand)
{
	const uint32_t stops = tags_load(&hand->waits->stops);

	TAGS_DETAIL_SEES(TAGS_MAX_TOTAL + 1);
	return stops % 2 == 1 || stops != hand->place->stops;
}

/* What no program and no other language calls. */
#pragma GCC visibility push(hidden)

/*
 * The waits of hands, by the library. A round of a wait, as a sleeper or as a listener, lists the
 * hand, with the next turn or @again with the one that it had, and tries each tag. It returns a
 * tag; TAGS_NO_TAG if the hand may sleep, or waits to be notified; or, if @why is not TAGS_OK, that:
 * the wait is over then. With any answer but TAGS_NO_TAG the hand is not listed, and has seen to all
 * tags. Whoever makes tags free sees to them. Each call fills in whom it told, who are to be woken.
 * All this is of one set of tags: a hand has a berth for each, and the first three calls are of the
 * ordinary ones.
 */
int32_t tags_library_wait_on(struct tags_hand *hand, int32_t why, uint32_t again,
			     struct tags_told *told);
int32_t tags_library_listen_on(struct tags_hand *hand, int32_t why, uint32_t again,
			       struct tags_told *told);
int32_t tags_library_see_to(struct tags_hand *hand, uint32_t freed, struct tags_told *told);
int32_t tags_library_wait_on_reserved(struct tags_hand *hand, int32_t why, uint32_t again,
				      struct tags_told *told);
int32_t tags_library_listen_on_reserved(struct tags_hand *hand, int32_t why, uint32_t again,
					struct tags_told *told);
int32_t tags_library_see_to_reserved(struct tags_hand *hand, uint32_t freed,
				     struct tags_told *told);
/* A post that sees to nothing, which is left to its caller. */
int32_t tags_library_post_quietly(struct tags_hand *hand, uint32_t tag);

/* Whether a clock and a time are what they may be, and whether the time has passed. */
bool tags_library_is_sound(const struct tags_limit *limit);
bool tags_library_is_past(const struct tags_limit *limit);
/* Makes what a thread sleeps on with limits by this clock. */
void tags_library_make_bed(pthread_cond_t *bed, int32_t clock);
/* Sleeps until a signal or the limit, without the lock. Returns whether the sleep may go on. A cancel has the lock again. */
bool tags_library_sleep(pthread_cond_t *bed, pthread_mutex_t *lock, const struct tags_limit *limit);

/* Makes a bell for this many hands, or returns NULL. */
struct bell *tags_library_make_bell(uint32_t hands);
/* At the end of its pool: frees its queues, and lets go of it. The latter frees it once nothing else needs it. */
void tags_library_free_bell(struct bell *bell);
void tags_library_let_go_of_bell(struct bell *bell);

/* A get from a set, before the hand waits for a tag of that. */
int32_t tags_library_get_of(struct tags_hand *hand, enum tags_kind kind);
/*
 * Makes a round of a hand's wait, or if @why is not TAGS_OK ends it, and returns what the library
 * answers. Adds those whom it tells to @due.
 */
int32_t tags_library_go_on(struct tags_hand *hand, bool listens, int32_t why,
			   struct tags_told *due);
/* Wakes those whom the hand told; and if one of them can't be notified, tells others in its place. */
void tags_library_wake_told(struct tags_hand *hand, struct tags_told *due);
/* Fills in others of both sets that are told, in place of one that can't be notified. */
void tags_library_tell_others(struct tags_hand *hand, struct tags_told *due);
/* Ends a wait by an eventfd or a function. Returns whether there was one. */
bool tags_library_cancel(struct tags_hand *hand);
/*
 * Makes a round of a hand behind a lock, which waits, or is to wait, for a tag of this set and to be
 * notified so. Adds those whom it tells to @due.
 */
int32_t tags_library_listen(struct tags_hand *hand, enum tags_kind kind,
			    const struct tags_notice *notice, struct tags_told *due);

/* Makes boards without notes for so many tags, or returns NULL. */
struct tags_board *tags_library_make_boards(uint32_t tags);

/* After a get from this set that found no tag: sleeps until the hand has one, or the wait ends. */
int32_t tags_library_wait_for(struct tags_hand *hand, enum tags_kind kind,
			      const struct tags_limit *limit);

/*
 * Gives a pool so many queues for this many tags, and says whether there was the memory; and frees what was made of
 * them. The next three make other queues for as many tags, or return NULL; free them; and put them in place.
 */
bool tags_library_add_queues(struct bell *bell, uint32_t count, uint32_t total);
void tags_library_remove_queues(struct bell *bell);
struct tags_queues *tags_library_make_queues(const struct bell *bell, uint32_t total);
void tags_library_free_queues(const struct bell *bell, struct tags_queues *queues);
void tags_library_change_queues(struct bell *bell, struct tags_queues *queues, uint32_t total);
/* Of a hand with a token of a queue: takes the next tag out of that, and gives it the token. */
int32_t tags_library_take_next(struct tags_hand *hand, struct tags_queue *queue, uint32_t token);
/* Ends all waits of a hand in queues. */
void tags_library_cancel_nexts(const struct tags_hand *hand);

/* Of a pool whose handle nobody else uses now: fills a hand in with its place; empties it; closes the pool. */
int32_t tags_library_fill_hand(struct tags_pool *pool, struct tags_hand *hand, uint32_t flags);
int32_t tags_library_empty_hand(struct tags_hand *hand);
int32_t tags_library_empty_pool(struct tags_pool *pool, struct tags_sums *sums);

/* Gives back what the calling thread's own hand of a pool keeps: tags_thread_hand(). */
void tags_library_flush_own(const struct tags_pool *pool);

/*
 * With the bell's lock: puts the function of a place off if this thread runs another one, and says whether it did; and
 * takes the notice out of a place, whose function runs from then on.
 */
bool tags_library_put_off(struct bell *bell, struct tags_place *place);
struct tags_notice tags_library_take_notice(struct tags_place *place);
/* Calls the function of a notice, and then those that were put off meanwhile. */
void tags_library_run(struct tags_place *place, const struct tags_notice *notice);
/* Sleeps until no function runs that notifies the hand in a place, unless this thread runs one. */
void tags_library_outwait(const struct tags_place *place);

/* Calls that use a pool's handle at once take turns. */
void tags_library_lock_handle(const struct tags_pool *pool);
void tags_library_unlock_handle(const struct tags_pool *pool);
/* Of a pool's handle, with its lock: its bell, or NULL if it has none, and whether waits are stopped. */
struct tags_waits *tags_library_waits_of(const struct tags_pool *pool);
bool tags_library_is_stopped(const struct tags_pool *pool);
/* Whether anybody is at the gate of the pool that is open in a handle. Other pools may share that. */
bool tags_library_is_crowded(const struct tags_pool *pool);
/* Comes to the gate of the pool that is open in a handle, which a close ends. Returns whether there is one. */
bool tags_library_come_to_gate(const struct tags_pool *pool, struct tags_waiter *it);

/* Whether anybody is at a pool's gate. */
bool tags_library_has_waiters(const struct bell *bell);
/*
 * Comes to the gate of @it->bell; waits there, and leaves it. The latter returns what a look or a
 * stop or a close answered, or TAGS_TIMED_OUT.
 */
void tags_library_come(struct tags_waiter *it);
int32_t tags_library_wait_at_gate(struct tags_waiter *it);
/* Tells the first one that waits there for this and was not told yet. The pool may be closed by then. */
void tags_library_tell_first(const struct bell *bell, enum tags_awaited what);
/* Ends all waits there for a hand. */
void tags_library_end_joins(const struct bell *bell, int32_t status);
/* Of a waiter's list: leaves those out that are free. Returns whether any is left. */
bool tags_library_leave_out(struct tags_waiter *it, const struct tags_set *busy);
/* Looks with this hand for all who wait for the tags of lists, and tells them. */
void tags_library_look_for_lists(struct tags_hand *hand);
/* The hand gave tags back: those who wait for that are told, if they are to be. */
void tags_library_tags_are_back(struct tags_hand *hand);
/* Looks for those who wait for the tags of lists, once after each look of theirs. */
void tags_library_see_to_lists(struct tags_hand *hand);
/* The drain that was to be told is not any more. Returns whether there was one. */
bool tags_library_disarm(struct bell *bell);

/* Of hands that threads share: the lock of one of them is taken, that of this processor if no call has it. */
struct tags_locked *tags_library_enter(const struct tags_hands *hands);
/* Wakes those whom a call told, without a lock; and if one of them can't be notified, tells others. */
void tags_library_wake_others(const struct tags_hands *hands, struct tags_told *due);
/* With its lock, notes that a hand got a tag, if it did. Returns what it was given. */
int32_t tags_library_note_holder(const struct tags_hands *hands, const struct tags_locked *at,
				 int32_t tag);
/* Gives back what the hands keep. */
void tags_library_flush_all(const struct tags_hands *hands);

#pragma GCC visibility pop

#pragma GCC visibility push(default)

/*
 * tags_library_ring() in two parts, for hands behind a lock with which nobody may be woken: adds
 * those who were told to @due, looks for watchers, and returns the answer without the flag; and
 * wakes them. The latter returns whether all could be notified. If not, others of both sets are to
 * be told.
 */
int32_t tags_library_hear(struct tags_hand *hand, int32_t answer, const struct tags_told *told,
			  struct tags_told *due);
bool tags_library_wake(struct tags_waits *waits, const struct tags_told *due);
/* How many wait, as tags_waiting() tells. */
uint32_t tags_library_count_waiting(struct tags_waits *waits);
/* Ends all waits, and lets no other begin; lets them begin again. */
void tags_library_stop(struct tags_waits *waits);
void tags_library_resume(struct tags_waits *waits);

/* The number of a hand, below that of the pool's hands. */
int32_t tags_library_number(struct tags_hand *hand);
/*
 * The waits of another language's futures, which wait behind their hand. As tags_library_get_notified()
 * and tags_library_cancel_wait(), for a hand behind a lock: those whom they tell are added to @due, and
 * they do not wait for a function that runs. It may run after the wait has ended, so @argument
 * has to last as long as the pool's hands.
 */
int32_t tags_library_poll(struct tags_hand *hand, void (*function)(void *argument), void *argument,
			  struct tags_told *due);
void tags_library_end_poll(struct tags_hand *hand, struct tags_told *due);

#pragma GCC visibility pop

#endif
