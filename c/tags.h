/*
 * tags.h - a pool of tags that threads share without a lock
 *
 * A tag is a small number with a slot of 64 bits for the hand that holds it. It is free, held by
 * one hand, or posted: offered, with its slot, to the first hand that takes it. A thread makes its
 * calls with a hand; a pool has 1 to 64 of them. The first tags of a pool can be reserved: only
 * tags_get_reserved() and its like take them. All other tags are ordinary.
 *
 * Proved under every schedule of the threads: no tag and no slot ever has two holders, no call
 * changes what another hand holds, and the sums of tags_close() balance; and of hands that wait,
 * that none does so beside a free tag unless some hand is on the way to it. The code in C, which
 * wakes them, is explored under every schedule of a few threads, and tested.
 *
 * Threads
 *   A hand is in one call at a time. It may move to another thread, if a mutex, pthread_join() or
 *   the like orders the two. A program that is compiled with the macro TAGS_CHECKED_HANDS prints a
 *   sentence and ends if a call finds its hand in another call; the thread sanitizer reports that
 *   without the macro.
 *   Hands that threads share may be in any number of calls at once: see tags_hands_open().
 *   The handle of a pool may be in any number of calls at once, which take turns where they use it;
 *   but run tags_stop(), tags_resume(), tags_drain(), tags_drain_list() and the timed forms of the
 *   latter two beside neither tags_open() nor tags_close(). A call beside tags_close() finds the
 *   pool open, or its handle empty; the handle's memory has to stay until it has returned. Different
 *   handles of one pool may be used at once, on any threads.
 *   Only tags_get_blocking(), tags_get_reserved_blocking(), tags_next_blocking(),
 *   tags_hands_get_blocking(), tags_join_blocking(), tags_drain(), tags_drain_list() and their timed
 *   forms sleep until they get what they wait for. While they sleep, and only then, they are
 *   cancellation points.
 *   Any other call waits for a lock at most, while another one uses a pool's handle, or begins,
 *   ends or notifies a wait by an eventfd, a function or a future of another language; or while
 *   another one is about to put a tag into the same queue, or to take one out. No signal
 *   ends a wait. Make no call in a signal handler, nor in a thread with the cancellation type
 *   PTHREAD_CANCEL_ASYNCHRONOUS. The forked child of a process with threads may open pools of its
 *   own, but must make no call on a pool from before the fork. Each call preserves errno. Only
 *   tags_open(), tags_resize(), tags_thread_hand(), tags_hands_open() and the calls that join
 *   allocate memory.
 *
 * Waiting
 *   A thread sleeps in tags_get_blocking() or tags_get_timed() until it gets a tag. An event loop
 *   is notified by an eventfd, see tags_get_async(), and a program that sleeps by means of its own
 *   by a function, see tags_get_notified(). Each of these has a form that waits for a reserved tag,
 *   such as tags_get_reserved_blocking(), and one that waits for a submitted tag, such as
 *   tags_next_blocking(). No hand waits beside a free tag of its set unless some thread is about to
 *   look at it. A thread must not sleep for a tag while it holds those that others wait for, nor be
 *   idle while it keeps them (see Caches). tags_stop() ends all waits.
 *
 * Caches
 *   In a pool with a cache each hand keeps some of the ordinary tags that it gives back, and its
 *   next gets return those, the lowest first. Neither call makes an atomic read-modify-write then.
 *   A kept tag has no user: any use of it is refused with TAGS_NOT_HELD. But it is busy, and no
 *   other hand can get it. A clear that finds a hand waiting gives all kept tags back with its own
 *   tag, and one that finds no room for its tag gives back those kept before. A hand that is to
 *   wait for a reserved or a submitted tag gives them back first. A hand that makes no more clears
 *   keeps its tags: so call tags_flush() before a thread goes idle, or sleeps elsewhere, or set
 *   TAGS_KEEP_WHILE_HOLDING. If threads wait for tags, set that flag, or give the pool at least 8
 *   ordinary tags more than all its hands together may keep.
 *
 * Memory
 *   A tag orders what its holders do. The hand that next gets or takes a tag sees all that the
 *   former holder wrote before it gave the tag back or posted it: to the slot, or to memory of the
 *   program, such as an array indexed by the tag.
 *
 * Arguments
 *   Each pointer must be NULL or point to an object of its type that overlaps no other argument.
 *   Do not copy a handle: the copy would be a second owner. If you keep to this, no argument leads
 *   to undefined behaviour: what can't be done is refused with a negative status, and a refused
 *   call changes nothing. NULL is refused first, with TAGS_NULL, and then a handle that is empty
 *   or of the other kind, with TAGS_BAD_HANDLE. What each call returns is said below, but for
 *   these two; and, where a call says nothing else, its arguments are
 *   @pool: the pool,
 *   @hand: the hand that makes the call,
 *   @hands: hands that threads share,
 *   @tag: a tag that the hand holds, or one of those hands,
 *   @queue: the number of a queue, below that of the pool's queues,
 *   @clock: CLOCK_MONOTONIC or CLOCK_REALTIME,
 *   @deadline: when to give up, by that clock; if that has passed, the call tries and does not sleep.
 *
 * Numbers
 *   A pool has at most 10,240 tags. In its life a hand may take up to 2^48 ordinary and 2^48
 *   reserved tags, and as many out of each queue between two resizes.
 */
#ifndef TAGS_H
#define TAGS_H

#include <stddef.h>
#include <stdint.h>

#ifdef __cplusplus
extern "C" {
#endif

/* The exports stay visible where a project hides what it doesn't name. */
#ifdef __GNUC__
#pragma GCC visibility push(default)
#endif

/** the version of this header */
#define TAGS_VERSION_MAJOR 0
#define TAGS_VERSION_MINOR 3

/* How calls are declared: inline, inline with a result that must not be ignored, or with such a result alone. */
#ifdef __GNUC__
#define TAGS_DETAIL_ANSWER __attribute__((warn_unused_result))
#else
#define TAGS_DETAIL_ANSWER
#endif
#ifndef TAGS_DETAIL_CALL
#define TAGS_DETAIL_CALL static inline
#define TAGS_DETAIL_CHECKED static inline TAGS_DETAIL_ANSWER
#endif

struct timespec;

/** enum tags_status - what a call returns if it has neither a tag nor a count to return */
enum tags_status {
	TAGS_OK = 0, /**< done */
	TAGS_NO_SUCH_TAG = -1, /**< the tag is out of range, or reserved where the call needs an
		ordinary tag; or the pool has no ordinary tag to wait for */
	TAGS_NO_RESERVED = -2, /**< the pool was opened without reserved tags */
	TAGS_NOT_HELD = -3, /**< this hand does not hold the tag */
	TAGS_NOT_POSTED = -4, /**< the tag is not posted, or it is in a queue, or another hand took it
		first */
	TAGS_BAD_COUNT = -5, /**< a batch of 0 tags, a list of 0 tags or of more than TAGS_MAX_BATCH to
		be given back, an empty mask, or more tags at once than are ordinary */
	TAGS_TOO_SHALLOW = -6, /**< a depth of 0, or one below the pool's min_shallow */
	TAGS_SPENT = -7, /**< the call could take the hand past its limit, 2^48 ordinary and 2^48
		reserved tags */
	TAGS_WAITING = -8, /**< the hand waits already, by an eventfd or a function, and can't wait
		for another tag meanwhile */
	TAGS_NOT_WAITING = -9, /**< the hand does not wait */
	TAGS_NO_TAG = -10, /**< each tag checked was taken at some moment of the call; or no word
		had a run for the batch; or no tag was found in the queue */
	TAGS_BAD_HANDLE = -12, /**< the handle is empty, or a hand stands in place of a pool or a
		pool of a hand */
	TAGS_NOT_EMPTY = -13, /**< the handle to be filled is not empty */
	TAGS_NO_HAND = -14, /**< all hands of the pool are out: they have joined, and not left */
	TAGS_HANDS_OUT = -15, /**< some hands of the pool are out: they have joined, and not left */
	TAGS_BAD_KIND = -16, /**< neither TAGS_ORDINARY nor TAGS_RESERVED */
	TAGS_TOO_SMALL = -17, /**< an array with fewer bits than the pool has tags */
	TAGS_BAD_FLAG = -18, /**< an unknown flag */
	TAGS_NO_ROOM = -19, /**< no room for the hand that leaves; this should never happen */
	TAGS_HAND_LOST = -20, /**< a hand was missing when the pool was closed or resized; this
		should never happen */
	TAGS_NO_MEMORY = -21, /**< out of memory */
	TAGS_TOTAL_TOO_LARGE = -22, /**< more than TAGS_MAX_TOTAL tags */
	TAGS_RESERVED_TOO_LARGE = -23, /**< more reserved tags than tags */
	TAGS_SHIFT_TOO_LARGE = -24, /**< a shift above TAGS_MAX_SHIFT */
	TAGS_BAD_HAND_COUNT = -25, /**< 0 hands, or more than TAGS_MAX_HANDS */
	TAGS_NULL = -28, /**< a pointer is NULL */
	TAGS_IN_USE = -29, /**< tags of the pool are held or posted */
	TAGS_TIMED_OUT = -31, /**< the deadline passed before the call got what it waits for */
	TAGS_BAD_TIME = -32, /**< an unknown clock, or nanoseconds outside 0 to 999,999,999 */
	TAGS_BAD_EVENT = -33, /**< a descriptor below 0 */
	TAGS_BAD_SHIFT = -34, /**< a shift below 0 that has no name */
	TAGS_CACHE_TOO_LARGE = -35, /**< a cache of more than TAGS_MAX_CACHE tags */
	TAGS_STOPPED = -36, /**< tags_stop() ended all waits */
	TAGS_NO_NOTES = -37, /**< the pool was opened without TAGS_NOTES */
	TAGS_BAD_QUEUE_COUNT = -38, /**< more than TAGS_MAX_QUEUES queues, or shared hands of a pool
		with queues */
	TAGS_NO_SUCH_QUEUE = -39 /**< the pool has no queue of this number */
};

enum {
	TAGS_MAX_TOTAL = 10240, /**< the most tags in a pool */
	TAGS_MAX_SHIFT = 6, /**< the largest shift: 64 tags in a word */
	TAGS_MAX_HANDS = 64, /**< the most hands in a pool */
	TAGS_MAX_BATCH = 64, /**< the most tags in one tags_clear_batch() */
	TAGS_MAX_CACHE = 64, /**< the most tags that a hand keeps */
	TAGS_MAX_QUEUES = 64 /**< the most queues in a pool */
};

/** struct tags_pool - a handle for a pool, empty if all its bytes are 0; its members are the library's */
struct tags_pool {
	uint64_t full;
	void *object;
	struct tags_waits *waits;
	/* of a hand: the members of both kinds are the same */
	struct tags_place *place;
	uint32_t in_call;
	uint32_t flags;
};

/** struct tags_hand - a handle for a hand, empty if all its bytes are 0; its members are the library's */
struct tags_hand {
	uint64_t full;
	void *object;
	struct tags_waits *waits;
	struct tags_place *place;
	/* 1 in a call that was compiled with TAGS_CHECKED_HANDS */
	uint32_t in_call;
	/* TAGS_NOTES and TAGS_ROUND_ROBIN, if its pool has them; under the thread sanitizer each call
	   writes this, as it is */
	uint32_t flags;
};

#ifdef __cplusplus
#define TAGS_EMPTY {}
#else
/** initializer of an empty handle */
#define TAGS_EMPTY { 0, 0, 0, 0, 0, 0 }
#endif

/** struct tags_hands - a handle for shared hands, empty if all its bytes are 0; its members are the library's */
struct tags_hands {
	uint64_t full;
	struct tags_shared *shared;
	struct tags_waits *waits;
	/* which of the hands got each tag last */
	uint8_t *holders;
	uint32_t count;
	uint32_t total;
};

/**
 * The result of @call, where a refusal can only be a mistake of the program, such as a clear of a
 * tag that was cleared before. If the call is refused, this prints it and the reason, and aborts.
 */
#define TAGS_MUST(call) tags_detail_must((call), #call)

/** initializer of options: no tags and no hands, and the defaults for the rest */
#define TAGS_OPTIONS_INIT { 0, 0, 0, 0, 0, 0, 0, 0 }

/** a shift of struct tags_options: words of one tag each */
#define TAGS_ONE_PER_WORD (-1)

/** a shift of struct tags_options: words of the kernel's size, whatever the number of hands */
#define TAGS_SHIFT_AS_KERNEL (-2)

/** enum tags_option_flags - @flags of struct tags_options */
enum tags_option_flags {
	TAGS_ROUND_ROBIN = 1, /**< A get starts after the tag that the hand won last. So a tag is
		reused late, though not as late as possible: a tag that was given back is free
		again once its word has no free tag left. A get after the last tag but one starts
		at the first tag, so the last tag is mostly won when all others of its word are
		taken. A get that finds none from its start on tries all tags once more. */
	TAGS_KEEP_WHILE_HOLDING = 4, /**< A hand keeps tags in its cache only while it holds another
		one that it got: clearing or posting the last of those gives all kept tags back. Of
		the tags among the same 64 numbers those count that it got by tags_get(),
		tags_get_write() or a wait for an ordinary tag; reserved, shallow and exact gets,
		batches, tags_get_many() and takes don't count. */
	TAGS_NOTES = 8 /**< Tags have notes, see tags_note(). The pool takes 40 bytes more for each
		tag, and a call that gives a tag back first looks whether that has one. */
};

/** struct tags_options - the options of tags_open(); all but @total and @hands may stay 0 */
struct tags_options {
	uint32_t total; /**< number of tags, including the reserved ones, at most TAGS_MAX_TOTAL */
	uint32_t reserved; /**< how many of them are reserved: tags 0 to @reserved - 1 */
	int32_t shift; /**< log2(tags per word), 1 to TAGS_MAX_SHIFT, or TAGS_ONE_PER_WORD. 0
		chooses the largest with which the set still has as many whole words as the pool
		has hands, and at least 4, so that threads seldom share a word: one tag per word
		if there are fewer tags than hands, and TAGS_MAX_SHIFT for fewer than 4 tags.
		TAGS_SHIFT_AS_KERNEL chooses as if there were 4 hands. It differs with less than
		64 tags for each of more than 4 hands: words are larger then, and so are the
		batches that tags_pool_batch() tells of. A thread that always holds 32 tags takes
		and gives back one in 32 ns with 64 tags per word, and in 46 with 16. */
	uint32_t min_shallow; /**< the least depth of tags_get_shallow(); 0 accepts any from 1 */
	uint32_t hands; /**< number of hands, 1 to TAGS_MAX_HANDS */
	uint32_t flags; /**< 0, or any of enum tags_option_flags */
	uint32_t cache; /**< how many tags each hand may keep, at most TAGS_MAX_CACHE; 0 for
		no cache */
	uint32_t queues; /**< how many queues of submitted tags the pool has, at most
		TAGS_MAX_QUEUES; 0 for none. See tags_submit(). */
};

/** enum tags_join_flags - flags of tags_join() */
enum tags_join_flags {
	TAGS_STAY = 1 /**< the hand's next get starts where its last one left off; a new hand starts
		at the first tag */
};

/** enum tags_kind - one of the two sets of a pool's tags */
enum tags_kind {
	TAGS_ORDINARY = 0, /**< those that tags_get() takes */
	TAGS_RESERVED = 1 /**< those that tags_get_reserved() and its like take */
};

/** struct tags_sizes - what tags_show() reports of a set */
struct tags_sizes {
	uint32_t depth; /**< number of tags in the set */
	uint32_t busy; /**< tags found held, kept or posted */
	uint32_t cleared; /**< tags found given back but not yet swept for reuse */
	uint32_t bits_per_word; /**< tags per word; the last word can have fewer */
	uint32_t words; /**< number of words of the set */
};

/** struct tags_noted - the note of a tag, as tags_pool_each_noted() passes it */
struct tags_noted {
	uint64_t value; /**< what tags_note() was given */
	uint64_t since; /**< when that was, in nanoseconds of CLOCK_MONOTONIC */
};

/**
 * struct tags_sums - sums over all hands of a pool: got == back + held + posted
 *
 * A kept tag that its hand gets again is not counted, as it never went back to the pool.
 */
struct tags_sums {
	uint64_t got; /**< tags taken from the pool */
	uint64_t back; /**< tags given back to it */
	uint64_t held; /**< tags that a hand still holds */
	uint64_t posted; /**< tags that are still posted */
};

/*
 * Pools and hands
 */

/**
 * tags_open() - fill an empty handle with a new pool
 * @pool: an empty handle
 * @options: the options of the pool
 *
 * All tags are free and all slots are 0. The pool allocates its memory here: about 8.3 kB, 80
 * bytes for each tag, 128 for each word, and for each hand 2.0 kB and 8 bytes for each word.
 * tags_join() allocates 576 bytes more. Each queue takes as much as a pool whose hands have all
 * joined, and up to 24 bytes more for each tag.
 *
 * Return: TAGS_OK. Otherwise the first of TAGS_NOT_EMPTY, TAGS_BAD_FLAG, TAGS_BAD_SHIFT,
 * TAGS_BAD_QUEUE_COUNT, TAGS_CACHE_TOO_LARGE, TAGS_TOTAL_TOO_LARGE, TAGS_RESERVED_TOO_LARGE,
 * TAGS_SHIFT_TOO_LARGE, TAGS_BAD_HAND_COUNT and TAGS_NO_MEMORY that applies.
 */
TAGS_DETAIL_ANSWER int32_t tags_open(struct tags_pool *pool, const struct tags_options *options);

/**
 * tags_join() - fill an empty handle with a hand of a pool
 * @hand: an empty handle
 * @flags: 0, or TAGS_STAY
 *
 * A hand that left and joins again still holds its tags. Its gets start in a part of the tags of
 * its own, so that threads seldom meet on one word; with TAGS_STAY where its last get left off.
 *
 * The hand that left last joins first, and one that never joined only if none has left: so a hand
 * comes back as the same one if no other leaves or joins between. Tags of a hand that left are found
 * by tags_holds() once it has joined, and cleared by that hand; or by any of shared hands that are
 * all hands of the pool.
 *
 * Return: TAGS_OK. Otherwise the first of TAGS_NOT_EMPTY, TAGS_BAD_HANDLE (of @pool),
 * TAGS_BAD_FLAG and TAGS_NO_HAND that applies, or TAGS_NO_MEMORY.
 */
TAGS_DETAIL_ANSWER int32_t tags_join(struct tags_pool *pool, struct tags_hand *hand,
				     uint32_t flags);

/**
 * tags_join_blocking() - fill an empty handle with a hand of a pool, and sleep while there is none
 * @hand: an empty handle
 * @flags: 0, or TAGS_STAY
 *
 * As tags_join(), but while all hands are out it sleeps until one leaves. Each hand that leaves
 * wakes the thread that has waited longest, and a call that finds others waiting queues behind
 * them. (A tags_join() at that moment may be faster; then the woken thread sleeps on, and keeps
 * its turn.) A thread must not sleep for a hand while it has one that others wait for. A
 * tags_close() ends the sleep with TAGS_BAD_HANDLE, even if another pool is opened in the same
 * handle at once.
 *
 * Return: TAGS_OK, or TAGS_STOPPED if it would have to sleep and the pool was stopped. Otherwise
 * what tags_join() returns, except TAGS_NO_HAND.
 */
TAGS_DETAIL_ANSWER int32_t tags_join_blocking(struct tags_pool *pool, struct tags_hand *hand,
					      uint32_t flags);

/**
 * tags_join_timed() - fill an empty handle with a hand of a pool, and sleep until a deadline while there is none
 * @hand: an empty handle
 * @flags: 0, or TAGS_STAY
 *
 * As tags_join_blocking(), but it gives up at the deadline.
 *
 * Return: TAGS_OK. Otherwise TAGS_BAD_TIME, which is checked before the handle; TAGS_TIMED_OUT; or
 * what tags_join_blocking() returns.
 */
TAGS_DETAIL_ANSWER int32_t tags_join_timed(struct tags_pool *pool, struct tags_hand *hand,
					   uint32_t flags, int32_t clock,
					   const struct timespec *deadline);

/**
 * tags_thread_hand() - give the calling thread a handle of its own for hands of a pool
 * @pool: the pool, which need not be open yet
 *
 * The library owns the handle's memory. The handle is empty at first; fill it by tags_join() or
 * the like. A thread that asks again for this pool gets the same handle. When the thread ends, by
 * a return, by pthread_exit() or by a cancel, its hand leaves, as by tags_leave(), and the handle
 * is freed. So once its threads are joined by pthread_join() the pool can be closed.
 *
 * Threads: only the thread that the handle belongs to may use it. The main thread's hand leaves
 * only if that thread ends before the program, by pthread_exit().
 *
 * Return: the handle, or NULL if @pool is NULL or there is no memory.
 */
TAGS_DETAIL_ANSWER struct tags_hand *tags_thread_hand(const struct tags_pool *pool);

/**
 * tags_leave() - return a hand to its pool, and empty its handle
 *
 * The hand still holds its tags, and the next thread that joins as this hand can use them. The tags
 * that it keeps go back. A wait by an eventfd or a function ends, as by tags_cancel() and
 * tags_cancel_next(). One of the threads that sleep for a hand is woken.
 *
 * Return: TAGS_OK. TAGS_NO_ROOM should never happen.
 */
TAGS_DETAIL_CALL int32_t tags_leave(struct tags_hand *hand);

/**
 * tags_resize() - change the number of ordinary tags
 * @pool: the pool, all of whose hands have left
 * @total: the new number of tags, including the reserved ones, at most TAGS_MAX_TOTAL
 *
 * The ordinary tags are new: all are free, and their slots are 0. The reserved tags keep their
 * slots, the words their size, the hands their counts and the pool its options, so tags_close()
 * returns the sums over the whole life of the pool. Afterwards the threads join again. A pool with
 * notes or queues makes those for its new tags first, so it may answer TAGS_NO_MEMORY where another
 * refusal applies, too.
 *
 * Threads: another call that uses the pool's handle waits until this one has returned, except
 * tags_stop() and tags_resume(), which run beside it.
 *
 * Return: TAGS_OK. Otherwise the first of TAGS_BAD_HANDLE, TAGS_TOTAL_TOO_LARGE,
 * TAGS_RESERVED_TOO_LARGE (@total is below the number of reserved tags), TAGS_HANDS_OUT,
 * TAGS_IN_USE (a tag of either kind is held by a hand that left, or posted) and TAGS_NO_MEMORY
 * that applies. TAGS_HAND_LOST should never happen.
 */
TAGS_DETAIL_ANSWER int32_t tags_resize(struct tags_pool *pool, uint32_t total);

/**
 * tags_stop() - end every wait for a tag or a hand, now and from now on
 *
 * For a shutdown. Threads that sleep for a tag or a hand wake up, and hands that wait by an eventfd
 * or a function are notified. From now on tags_get_blocking(), tags_get_timed(), tags_get_async(),
 * tags_get_notified() and their forms for a reserved tag return TAGS_STOPPED, even while a tag is
 * free; but those for a submitted tag, tags_join_blocking() and tags_join_timed() where they would
 * have to sleep or wait, so that what was submitted can still be carried out. A call that
 * was waiting may still return a tag or a hand. All other calls work as before, so that threads can
 * give tags back and let hands leave. A pool stays stopped, even over a tags_resize(), until
 * tags_resume(). A thread that gets TAGS_STOPPED sees all that this thread wrote before this call.
 *
 * Have a signal handler write an eventfd, or a thread wait for the signal by sigwait(), and make
 * this call in the thread that learns of the signal.
 *
 * Threads: it may run beside any call that uses the pool's handle, except tags_open() and
 * tags_close().
 *
 * Return: TAGS_OK.
 */
int32_t tags_stop(struct tags_pool *pool);

/**
 * tags_resume() - let waits begin again, after tags_stop()
 *
 * A wait that began before the stop ends, with a tag or with TAGS_STOPPED, even if this call
 * follows at once.
 *
 * Threads: as tags_stop().
 *
 * Return: TAGS_OK.
 */
int32_t tags_resume(struct tags_pool *pool);

/**
 * tags_drain() - sleep until all tags of a pool are back
 *
 * For a shutdown, and before a tags_resize(): until no tag of either set is held, posted, or kept
 * in a cache. Have the threads get no more tags; tags_stop() ends their waits for one, but not
 * this call. What the thread's own hand keeps, see tags_thread_hand(), goes back at once. Any other
 * hand gives back what it keeps with its next clear, by tags_flush() or when it leaves, and keeps
 * none while this call waits. So flush each hand that makes no more clears, also others that this
 * thread uses, and shared ones by tags_hands_flush(): or this call waits for ever. If threads still
 * get tags, the tags need not all have been back at any one moment. After this call the thread sees
 * all that was done with a tag before it went back.
 *
 * Gets and clears beside it are as fast as without it; but caches keep nothing, so with them the two
 * take about twice the time of a pool without. It may return up to a millisecond later than the last
 * tag is back.
 *
 * Threads: as tags_stop().
 *
 * Return: TAGS_OK.
 */
TAGS_DETAIL_ANSWER int32_t tags_drain(struct tags_pool *pool);

/**
 * tags_drain_timed() - sleep until all tags of a pool are back, or until a deadline
 *
 * As tags_drain(), but it gives up at the deadline.
 *
 * Threads: as tags_stop().
 *
 * Return: TAGS_OK. Otherwise TAGS_BAD_TIME, which is checked before the handle, or TAGS_TIMED_OUT.
 */
TAGS_DETAIL_ANSWER int32_t tags_drain_timed(struct tags_pool *pool, int32_t clock,
					    const struct timespec *deadline);

/**
 * tags_drain_list() - sleep until each tag of a list has been back
 * @tags: the tags, of either set, in any order
 * @count: how many tags the list has, any number; @tags may be NULL if it is 0
 *
 * For the end of a part of the work, such as a connection of a server, while the rest goes on:
 * until each of these tags was found free at some moment of the call, though not all of them at one
 * moment. A tag that others get after it was found is not waited for again; so the program has to
 * begin no request of that connection any more. What is held, posted or kept in a cache is not
 * free. Caches, a stop, and what the thread sees afterwards are as with tags_drain(). A tag that a
 * tags_resize() takes away counts as free. As the call does not know what the calling thread holds,
 * it waits for such a tag too, which may be for ever.
 *
 * This call looks at the pool at first, and then at most once in a millisecond; and after each of
 * its looks each hand does so once, as soon as it gives tags back. So a tag is found if it is the
 * first that its hand gives back, though others get it again at once. One that is got again between
 * two looks is busy to the second one, and has to be found by a later one. Gets and clears beside
 * this call take little more time than beside tags_drain().
 *
 * Threads: as tags_stop().
 *
 * Return: TAGS_OK. Otherwise TAGS_NO_SUCH_TAG.
 */
TAGS_DETAIL_ANSWER int32_t tags_drain_list(struct tags_pool *pool, const uint32_t *tags,
					   size_t count);

/**
 * tags_drain_list_timed() - sleep until each tag of a list has been back, or until a deadline
 * @tags: the tags, of either set, in any order
 * @count: how many tags the list has, any number; @tags may be NULL if it is 0
 *
 * As tags_drain_list(), but it gives up at the deadline.
 *
 * Threads: as tags_stop().
 *
 * Return: TAGS_OK. Otherwise TAGS_BAD_TIME, which is checked before the handle, TAGS_NO_SUCH_TAG or
 * TAGS_TIMED_OUT.
 */
TAGS_DETAIL_ANSWER int32_t tags_drain_list_timed(struct tags_pool *pool, const uint32_t *tags,
						 size_t count, int32_t clock,
						 const struct timespec *deadline);

/**
 * tags_close() - close a pool whose hands have all left, and empty its handle
 * @sums: filled in with the sums over all hands
 *
 * Return: TAGS_OK. Otherwise TAGS_HANDS_OUT. TAGS_HAND_LOST should never happen.
 */
TAGS_DETAIL_ANSWER int32_t tags_close(struct tags_pool *pool, struct tags_sums *sums);

/*
 * Taking tags
 */

/**
 * tags_get() - take a free ordinary tag
 *
 * The value of the tag's slot is unspecified: write it before you read it.
 *
 * Return: the tag. TAGS_NO_TAG means that each tag was found taken at some moment of the call, not
 * that all were taken at one moment. Otherwise TAGS_SPENT.
 */
TAGS_DETAIL_CHECKED int32_t tags_get(struct tags_hand *hand);

/**
 * tags_get_reserved() - take a free reserved tag
 *
 * Return: the tag, or TAGS_NO_TAG as from tags_get(). Otherwise TAGS_NO_RESERVED or TAGS_SPENT.
 */
TAGS_DETAIL_CHECKED int32_t tags_get_reserved(struct tags_hand *hand);

/**
 * tags_get_shallow() - take a free ordinary tag out of a part of them
 * @depth: how many of the ordinary tags calls with this depth may use, at least 1
 *
 * For low-priority requests, which leave the other tags to tags_get(). Each word has a share of
 * the depth in proportion to its tags; a share can be 0. The call takes no kept tag.
 *
 * Return: the tag, or TAGS_NO_TAG as from tags_get(), for the tags of that part. Otherwise
 * TAGS_TOO_SHALLOW or TAGS_SPENT.
 */
TAGS_DETAIL_CHECKED int32_t tags_get_shallow(struct tags_hand *hand, uint32_t depth);

/**
 * tags_get_exactly() - take one given tag, if it is free
 * @tag: the tag, ordinary or reserved
 *
 * For a tag with a fixed use, or one that a request had before a restart. The call makes a bounded
 * number of steps. A tag that this hand keeps is free for it, one that another hand keeps is not.
 *
 * Return: the tag. TAGS_NO_TAG means that it was found taken at some moment of the call. Otherwise
 * TAGS_NO_SUCH_TAG or TAGS_SPENT.
 */
TAGS_DETAIL_CHECKED int32_t tags_get_exactly(struct tags_hand *hand, uint32_t tag);

/**
 * tags_get_batch() - take up to @n ordinary tags out of a run of @n
 * @n: how many tags, at least 1; more than the longest word has, see tags_pool_batch(), asks for as many as that
 * @won: filled in with the mask of the tags won, if any
 *
 * If the call returns the tag t, bit i of the mask is 1 if the hand won the tag t + i. The run
 * begins at the first free tag of a word, and has to end in that word: a word whose first free tag
 * has fewer than @n places from there on, taken or free, is passed over. So TAGS_NO_TAG does not
 * mean that all tags are taken. Then ask for fewer, or call tags_get(). The batch can be smaller
 * than @n, even while more tags are free, and bit 0 can be 0: another thread may have taken the
 * first tag of the run. The call takes no kept tag. With TAGS_ROUND_ROBIN it always returns
 * TAGS_NO_TAG.
 *
 * Return: the first tag of the run. Otherwise TAGS_NO_TAG if each word had no room for such a run
 * at some moment of the call; TAGS_BAD_COUNT if @n is 0, or TAGS_SPENT.
 */
TAGS_DETAIL_CHECKED int32_t tags_get_batch(struct tags_hand *hand, uint32_t n, uint64_t *won);

/**
 * tags_get_many() - take several ordinary tags, from any words, or none of them
 * @tags: filled in with the tags; if the call returns TAGS_NO_TAG, it may have written anything there
 * @count: how many tags, at most as many as the pool has ordinary ones; 0 takes none and succeeds
 *
 * This is for what needs several tags at once and can do nothing with fewer. The call takes one
 * after another as tags_get() does, but no kept tag. If it finds no further one it gives back those
 * that it has taken, and tells waiting hands of them. Until then other hands lack these: of several
 * such calls at once each may return TAGS_NO_TAG, though one alone would have found enough. The
 * tags may go back one by one, or by tags_clear_batch(), in any order.
 *
 * Return: TAGS_OK. Otherwise TAGS_NO_TAG if a get found none before there were enough; TAGS_BAD_COUNT
 * if @count is above the number of ordinary tags, or TAGS_SPENT.
 */
TAGS_DETAIL_CHECKED int32_t tags_get_many(struct tags_hand *hand, uint32_t *tags, size_t count);

/*
 * Giving tags back
 */

/**
 * tags_clear() - give a held tag back
 *
 * If a hand waits for a tag of the same set, this call tells it. A hand with a cache may keep the
 * tag: see Caches in tags(3). A refusal is a mistake of the program, most often a request that
 * completed twice, so the compiler warns if the program ignores the result: see TAGS_MUST().
 *
 * Return: TAGS_OK. Otherwise TAGS_NO_SUCH_TAG or TAGS_NOT_HELD.
 */
TAGS_DETAIL_CHECKED int32_t tags_clear(struct tags_hand *hand, uint32_t tag);

/**
 * tags_clear_batch() - give several ordinary tags back
 * @tags: the tags, each of them once, from one batch or not
 * @count: how many tags the list has, 1 to TAGS_MAX_BATCH
 *
 * Consecutive tags of the list that belong to one word are given back in one step.
 *
 * Return: TAGS_OK. Otherwise the first of TAGS_BAD_HANDLE, TAGS_BAD_COUNT (the list has no tag, or
 * too many), TAGS_NO_SUCH_TAG and TAGS_NOT_HELD that applies to any tag of the list.
 */
TAGS_DETAIL_CHECKED int32_t tags_clear_batch(struct tags_hand *hand, const uint32_t *tags,
					     size_t count);

/**
 * tags_clear_mask() - give the ordinary tags of a mask back
 * @first: the tag of bit 0, as tags_get_batch() returned it
 * @mask: bit i is 1 if the tag @first + i is given back
 *
 * Like tags_clear_batch() with these tags in ascending order, but one test and one step handle all
 * tags of a word. The mask may name any tags, from one batch or not. Tag @first need not be among
 * them, and may be reserved then.
 *
 * Return: TAGS_OK. Otherwise the first of TAGS_BAD_HANDLE, TAGS_BAD_COUNT for an empty mask,
 * TAGS_NO_SUCH_TAG and TAGS_NOT_HELD that applies to any tag of the mask.
 */
TAGS_DETAIL_CHECKED int32_t tags_clear_mask(struct tags_hand *hand, uint32_t first, uint64_t mask);

/**
 * tags_flush() - give all kept tags back
 *
 * It tells waiting hands. The tags that the hand holds stay held. The pool need not have a cache.
 *
 * Return: TAGS_OK.
 */
TAGS_DETAIL_CALL int32_t tags_flush(struct tags_hand *hand);

/*
 * Slots, and passing tags from hand to hand
 */

/**
 * tags_get_write() - take a free ordinary tag and write its slot
 * @value: a number, or a pointer cast to uintptr_t
 *
 * Return: as tags_get().
 */
TAGS_DETAIL_CHECKED int32_t tags_get_write(struct tags_hand *hand, uint64_t value);

/**
 * tags_read_clear() - read the slot of a held tag and give the tag back
 * @value: filled in with the value
 *
 * Return: as tags_clear().
 */
TAGS_DETAIL_CHECKED int32_t tags_read_clear(struct tags_hand *hand, uint32_t tag, uint64_t *value);

/**
 * tags_read() - read the slot of a held tag
 * @value: filled in with the value
 *
 * Return: TAGS_OK. Otherwise TAGS_NO_SUCH_TAG or TAGS_NOT_HELD.
 */
TAGS_DETAIL_CALL int32_t tags_read(struct tags_hand *hand, uint32_t tag, uint64_t *value);

/**
 * tags_write() - write the slot of a held tag
 * @value: a number, or a pointer cast to uintptr_t
 * @former: NULL, or filled in with the former value
 *
 * Return: TAGS_OK. Otherwise TAGS_NO_SUCH_TAG or TAGS_NOT_HELD.
 */
TAGS_DETAIL_CALL int32_t tags_write(struct tags_hand *hand, uint32_t tag, uint64_t value,
				    uint64_t *former);

/**
 * tags_post() - offer a held tag, with its slot, to all hands of the pool
 *
 * The tag is posted until some hand of the pool takes it.
 *
 * Return: TAGS_OK. Otherwise TAGS_NO_SUCH_TAG or TAGS_NOT_HELD.
 */
TAGS_DETAIL_CHECKED int32_t tags_post(struct tags_hand *hand, uint32_t tag);

/**
 * tags_take() - take a posted tag, with its slot
 * @tag: a posted tag, which is in no queue
 *
 * Return: TAGS_OK. Otherwise TAGS_NO_SUCH_TAG or TAGS_NOT_POSTED.
 */
TAGS_DETAIL_CHECKED int32_t tags_take(struct tags_hand *hand, uint32_t tag);

/**
 * tags_post_mask() - offer the held tags of a mask, with their slots, to all hands of the pool
 * @first: the tag of bit 0, as tags_get_batch() returned it
 * @mask: bit i is 1 if the tag @first + i is posted
 *
 * It posts all of them or none, like tags_post() of each from the lowest on: another hand may take
 * the first one, by tags_take() or tags_take_mask(), before the last one is posted. The mask may
 * name tags of either set, from one batch or not. Tag @first need not be among them.
 *
 * Return: TAGS_OK. Otherwise the first of TAGS_BAD_HANDLE, TAGS_BAD_COUNT for an empty mask,
 * TAGS_NO_SUCH_TAG for a tag out of range, and TAGS_NOT_HELD that applies to any tag of the mask.
 */
TAGS_DETAIL_CHECKED int32_t tags_post_mask(struct tags_hand *hand, uint32_t first, uint64_t mask);

/**
 * tags_take_mask() - take the posted tags of a mask, with their slots
 * @first: the tag of bit 0
 * @mask: bit i is 1 if the tag @first + i is taken
 *
 * It takes all of them or none, one after another from the lowest on. If one is not posted, it
 * posts those that it took before again, so the hand holds no more than before; but meanwhile
 * another hand may have found one of these not posted. If several hands take overlapping masks of
 * posted tags at once, one of the hands gets all of its tags. The mask may name tags that were
 * posted by different calls and hands, each alone or with others.
 *
 * Return: TAGS_OK. Otherwise the first of TAGS_BAD_HANDLE, TAGS_BAD_COUNT for an empty mask,
 * TAGS_NO_SUCH_TAG for a tag out of range, and TAGS_NOT_POSTED that applies to any tag of the mask.
 */
TAGS_DETAIL_CHECKED int32_t tags_take_mask(struct tags_hand *hand, uint32_t first, uint64_t mask);

/**
 * tags_note() - publish the note of a held tag, which anybody may read
 * @value: a number, or a pointer cast to uintptr_t
 *
 * For reports while others run, in a pool that was opened with TAGS_NOTES: what the tag is used
 * for. The call notes the time with it. The note takes the place of the one that the tag had, and
 * stays with the tag while that is posted and taken, and while its hand has left. It ends just
 * before the tag goes back, also where that is kept in a cache: whoever gets the tag then has
 * none until this call. tags_pool_each_noted() passes notes to whoever asks.
 *
 * Return: TAGS_OK. Otherwise the first of TAGS_BAD_HANDLE, TAGS_NO_NOTES, TAGS_NO_SUCH_TAG and
 * TAGS_NOT_HELD that applies.
 */
TAGS_DETAIL_CALL int32_t tags_note(struct tags_hand *hand, uint32_t tag, uint64_t value);

/**
 * tags_holds() - whether a hand holds a tag
 * @tag: any tag of the pool
 *
 * Return: 1 or 0. Otherwise TAGS_NO_SUCH_TAG.
 */
TAGS_DETAIL_CHECKED int32_t tags_holds(struct tags_hand *hand, uint32_t tag);

/*
 * Reports. Each call loads one word after another, so while other threads work, its result need
 * not be true of any one moment.
 */

/**
 * tags_busy() - report which tags of both sets are busy, that is held, kept or posted
 * @into: bit t % 64 of into[t / 64] becomes 1 if tag t is busy, every other bit 0
 * @words: length of @into, at least a 64th of the pool's tags, rounded up
 *
 * Return: how many tags are busy. Otherwise TAGS_TOO_SMALL.
 */
TAGS_DETAIL_CALL int32_t tags_busy(struct tags_hand *hand, uint64_t *into, size_t words);

/**
 * tags_show() - report the sizes of a set of tags
 * @kind: TAGS_ORDINARY or TAGS_RESERVED
 * @sizes: filled in
 *
 * Return: TAGS_OK. Otherwise TAGS_BAD_KIND.
 */
TAGS_DETAIL_CALL int32_t tags_show(struct tags_hand *hand, uint32_t kind, struct tags_sizes *sizes);

/**
 * tags_waiting() - how many wait in the hand's pool
 *
 * That is the number of hands that wait for a tag, including those that were told and have not
 * tried again yet. A hand with futures of another language counts once for each of them that
 * waits, and one that waits in queues once for each of those. Threads that sleep until tags are back
 * count too.
 *
 * Return: the number.
 */
TAGS_DETAIL_CALL int32_t tags_waiting(struct tags_hand *hand);

/*
 * The same reports without a hand, at any time, also while all hands are out and beside tags_resize() and
 * tags_close(). Only the limits that each call states are proved of these reports; that they are
 * right is tested.
 */

/**
 * tags_pool_busy() - report which tags of a pool are busy, without a hand
 * @into: bit t % 64 of into[t / 64] becomes 1 if tag t is busy, every other bit 0
 * @words: length of @into, at least a 64th of the pool's tags, rounded up
 *
 * Return: how many tags are busy, which is how many bits are 1. Otherwise TAGS_TOO_SMALL.
 */
int32_t tags_pool_busy(struct tags_pool *pool, uint64_t *into, size_t words);

/**
 * tags_pool_each_busy() - call a function for each busy tag of a pool, without a hand
 * @function: called with a tag and @argument; it returns 0 to go on, and anything else to stop
 * @argument: what the function gets, which may be NULL
 *
 * Use it to find requests that take too long, for example. It looks at all tags first, as
 * tags_pool_busy() does. Then it calls the function for each tag that it found busy, in ascending
 * order, on this thread and without a lock, so that the function may make any call. It allocates
 * no memory. errno is as the function leaves it.
 *
 * A tag that is busy from the beginning of this call until the function's first is passed, once.
 * While other threads work, a tag that has gone back may be passed too, and any tag may go back,
 * and have another user, while the function runs. A kept tag is passed, and has no user. So let
 * the function look only at what the program makes atomic, such as an array of atomic words with
 * the tag as the index, which holders set and reset; or let holders publish notes, which
 * tags_pool_each_noted() passes. Only the holder of a tag may use its slot.
 *
 * Return: how many times the function was called.
 */
int32_t tags_pool_each_busy(struct tags_pool *pool, int (*function)(uint32_t tag, void *argument),
			    void *argument);

/**
 * tags_pool_each_noted() - call a function for each busy tag of a pool, with its note, without a hand
 * @function: called with a tag, its note or NULL, and @argument; it returns 0 to go on, and
 * anything else to stop
 * @argument: what the function gets, which may be NULL
 *
 * As tags_pool_each_busy(), for a pool that was opened with TAGS_NOTES. The call looks at as many
 * busy tags as it has room for, up to 256, and at their notes, passes these, and looks for the
 * next ones; so a tag that is busy all the while is passed, once. A note lasts as long as the
 * function runs, as it is a copy.
 *
 * A note was that of the tag's user at one moment of this call. No tag is passed with a note of
 * somebody who had given it back before the look, nor with the value of one note and the time of
 * another. A tag that has a note all the while is passed with one: with that one, unless it is
 * replaced meanwhile. A tag that is passed without a note has just been got, is just going back,
 * or is kept, or its user published none. The function sees what was written before the note was
 * published; but as the tag may have gone back since, it may look only at what the next user does
 * not change, unless that is atomic.
 *
 * Threads: a pool that is closed meanwhile ends the call; that is refused with TAGS_BAD_HANDLE only
 * if no tag was passed before.
 *
 * Return: how many times the function was called. Otherwise TAGS_NO_NOTES.
 */
int32_t tags_pool_each_noted(struct tags_pool *pool,
			     int (*function)(uint32_t tag, const struct tags_noted *note,
					     void *argument),
			     void *argument);

/**
 * tags_pool_show() - report the sizes of a set of tags of a pool, without a hand
 * @kind: TAGS_ORDINARY or TAGS_RESERVED
 * @sizes: filled in; @busy and @cleared are together at most @depth
 *
 * Return: TAGS_OK. Otherwise TAGS_BAD_KIND.
 */
int32_t tags_pool_show(struct tags_pool *pool, uint32_t kind, struct tags_sizes *sizes);

/**
 * tags_pool_waiting() - how many wait in a pool, without a hand
 *
 * Return: the number, as from tags_waiting().
 */
int32_t tags_pool_waiting(struct tags_pool *pool);

/**
 * tags_pool_total() - how many tags a pool has
 *
 * Return: the number of tags, with the reserved ones.
 */
int32_t tags_pool_total(struct tags_pool *pool);

/**
 * tags_pool_batch() - the most tags that one tags_get_batch() of a pool returns
 *
 * That is the number of tags of the longest word: the tags per word, or all ordinary tags of a
 * pool that has fewer. A tags_resize() of such a pool changes it.
 *
 * Return: the number, 1 to 64.
 */
int32_t tags_pool_batch(struct tags_pool *pool);

/*
 * Waiting for a tag, an ordinary or a reserved one. A call that makes tags free tells hands that
 * wait for a tag of that set, as many as it freed tags: for each tag one of the threads that
 * sleep, and one of the hands that are notified by an eventfd or a function, each time the one
 * that has waited longest. (It wakes no more threads than make, with those that were told and have
 * not tried since, as many as the set has tags: each of those tries after the tag became free.) A
 * hand that was told, and then has a tag or gives up, also by a deadline, a cancel or
 * tags_cancel(), tells another one if it sees a free tag of that set. A hand waits for a tag of one
 * set at a time. c/README.md says what of this is proved, and what is only explored and tested.
 */

/**
 * tags_get_blocking() - take a free ordinary tag, and sleep while there is none
 *
 * A thread that is cancelled in its sleep has got no tag, and its hand waits no more. The hand is
 * still joined, and any thread may use it or let it leave.
 *
 * Return: the tag. Otherwise TAGS_SPENT, TAGS_NO_SUCH_TAG if the pool has no ordinary tag,
 * TAGS_WAITING if the hand would have to wait but waits already, by an eventfd or a function, or
 * TAGS_STOPPED.
 */
TAGS_DETAIL_CHECKED int32_t tags_get_blocking(struct tags_hand *hand);

/**
 * tags_get_timed() - take a free ordinary tag, and sleep until a deadline while there is none
 *
 * As tags_get_blocking(), but it gives up at the deadline. A hand that timed out waits no more.
 *
 * Return: the tag. Otherwise TAGS_BAD_TIME, which is checked before the handle; TAGS_TIMED_OUT; or
 * what tags_get_blocking() returns.
 */
TAGS_DETAIL_CHECKED int32_t tags_get_timed(struct tags_hand *hand, int32_t clock,
					   const struct timespec *deadline);

/**
 * tags_get_async() - take a free ordinary tag, or be notified by an eventfd when to try again
 * @descriptor: the eventfd, which still belongs to the program; several hands may name one
 *
 * TAGS_NO_TAG means that the hand now waits. It is notified by adding 1 to its eventfd, one hand
 * for each tag that becomes free. When the eventfd is readable, read it, and repeat this call for
 * each hand that waits for it, until it returns something else; or end the wait by tags_cancel()
 * or tags_leave(). Another hand may have got the tag first, so that it returns TAGS_NO_TAG again;
 * that does not cost the hand its turn. The repeated call may name another eventfd. A hand that
 * was notified is not notified again before it repeats the call, and until then no other hand is
 * notified of that tag: so repeat it soon, or cancel.
 *
 * Once the wait has ended, the library writes nothing to the eventfd, so the program may close it.
 * Make it non-blocking, so that no thread that gives a tag back can block on it. If the program
 * closed it while the hand waits, the next hand is notified instead. But if another file has its
 * number by then, that file gets the 8 bytes: so end the wait before you close an eventfd.
 *
 * Return: the tag, or TAGS_NO_TAG. Otherwise TAGS_BAD_EVENT, TAGS_STOPPED, TAGS_SPENT, or
 * TAGS_NO_SUCH_TAG if the pool has no ordinary tag; then the hand does not wait. TAGS_BAD_EVENT
 * changes nothing: a hand that waited still waits. So does one that waits for a reserved tag,
 * whatever the call returns: that is TAGS_WAITING where it would have to wait.
 */
TAGS_DETAIL_CHECKED int32_t tags_get_async(struct tags_hand *hand, int descriptor);

/**
 * tags_get_notified() - take a free ordinary tag, or have a function called when to try again
 * @function: called with @argument, once, when a tag is free for the hand
 * @argument: what the function gets, which may be NULL
 *
 * For a program that sleeps by means of its own, such as a semaphore or the queue of a scheduler:
 * as tags_get_async(), with a call of the function in place of the eventfd. Once it was called,
 * repeat this call soon, until it returns something else; or end the wait by tags_cancel() or
 * tags_leave(). The repeated call may name another function, or be tags_get_async().
 *
 * The call that makes a tag free, which may be a get, calls the function, and so does tags_stop():
 * on the thread that makes that call, and without a lock. So let it return soon. It may use any
 * hand that is in no call, except @hand: have another thread, or a later call, try again.
 *
 * Functions do not nest, and none waits for another: those that a call inside one tells are called
 * once it has returned, and a wait that is ended inside one may leave its own function running, or
 * about to run, for the last time. A later tags_cancel() or tags_leave(), outside, waits for that.
 *
 * Otherwise, once the wait has ended, or this call was repeated, the function that was named before
 * neither runs nor will be called, so @argument may be freed. To ensure this, these calls wait until
 * a function that already runs on another thread has returned: hold no lock that it takes.
 *
 * Return: the tag, or TAGS_NO_TAG. Otherwise TAGS_STOPPED, TAGS_SPENT, or TAGS_NO_SUCH_TAG if the
 * pool has no ordinary tag; then the hand does not wait. One that waits for a reserved tag still
 * waits, whatever the call returns: that is TAGS_WAITING where it would have to wait.
 */
TAGS_DETAIL_CHECKED int32_t tags_get_notified(struct tags_hand *hand,
					      void (*function)(void *argument), void *argument);

/**
 * tags_get_reserved_blocking() - take a free reserved tag, and sleep while there is none
 *
 * As tags_get_blocking(), for a reserved tag. A reserved tag that becomes free wakes only those who
 * wait for one, and an ordinary tag wakes none of them. If no reserved tag is free, the hand gives
 * back the tags that it keeps before it sleeps.
 *
 * Return: the tag. Otherwise TAGS_STOPPED, TAGS_NO_RESERVED, TAGS_SPENT, or TAGS_WAITING if the hand
 * would have to wait but waits already, by an eventfd or a function.
 */
TAGS_DETAIL_CHECKED int32_t tags_get_reserved_blocking(struct tags_hand *hand);

/**
 * tags_get_reserved_timed() - take a free reserved tag, and sleep until a deadline while there is none
 *
 * As tags_get_reserved_blocking(), but it gives up at the deadline.
 *
 * Return: the tag. Otherwise TAGS_BAD_TIME, which is checked before the handle; TAGS_TIMED_OUT; or
 * what tags_get_reserved_blocking() returns.
 */
TAGS_DETAIL_CHECKED int32_t tags_get_reserved_timed(struct tags_hand *hand, int32_t clock,
						    const struct timespec *deadline);

/**
 * tags_get_reserved_async() - take a free reserved tag, or be notified by an eventfd when to try again
 * @descriptor: the eventfd, which still belongs to the program; several hands may name one
 *
 * As tags_get_async(), for a reserved tag. While it waits, the hand may get and clear tags of either
 * set, but it can't wait for an ordinary one: end this wait first, by tags_cancel(). If no reserved
 * tag is free, the hand gives back the tags that it keeps. It may keep those that it clears while it
 * waits: flush it before the thread goes idle, as always.
 *
 * Return: the tag, or TAGS_NO_TAG. Otherwise TAGS_BAD_EVENT, TAGS_STOPPED, TAGS_NO_RESERVED or
 * TAGS_SPENT; then the hand does not wait. TAGS_BAD_EVENT changes nothing: a hand that waited still
 * waits. So does one that waits for an ordinary tag, whatever the call returns: that is TAGS_WAITING
 * where it would have to wait.
 */
TAGS_DETAIL_CHECKED int32_t tags_get_reserved_async(struct tags_hand *hand, int descriptor);

/**
 * tags_get_reserved_notified() - take a free reserved tag, or have a function called when to try again
 * @function: called with @argument, once, when a reserved tag is free for the hand
 * @argument: what the function gets, which may be NULL
 *
 * As tags_get_notified(), for a reserved tag; and as tags_get_reserved_async().
 *
 * Return: the tag, or TAGS_NO_TAG. Otherwise TAGS_STOPPED, TAGS_NO_RESERVED or TAGS_SPENT; then the
 * hand does not wait. One that waits for an ordinary tag still waits, whatever the call returns: that
 * is TAGS_WAITING where it would have to wait.
 */
TAGS_DETAIL_CHECKED int32_t tags_get_reserved_notified(struct tags_hand *hand,
						       void (*function)(void *argument),
						       void *argument);

/**
 * tags_cancel() - end a wait that tags_get_async(), tags_get_notified() or their forms for a reserved tag began
 *
 * Return: TAGS_OK. Otherwise TAGS_NOT_WAITING.
 */
TAGS_DETAIL_CALL int32_t tags_cancel(struct tags_hand *hand);

/*
 * Queues of submitted tags, for programs in which some threads submit requests and others carry
 * them out. A hand submits a tag that it holds, with its slot; and some hand takes the next one out
 * of that queue, first come, first served. A pool has as many queues as its options say, 0 to
 * @queues - 1; each has room for all tags of the pool, ordinary and reserved ones.
 *
 * A submitted tag is posted: reports count it as busy, tags_drain() waits for it, its note stays
 * with it, and tags_close() counts it as posted. But it is in its queue alone, and only tags_next()
 * or its like takes it: tags_take() of it is refused.
 *
 * If a submit returned before another one to the same queue began, its tag is taken first. No hand
 * waits beside a queued tag unless some thread is about to look at it: each submit tells one of the
 * threads that sleep for the queue, and one of the hands that are notified, each time the one that
 * has waited longest. In its queues a hand waits apart from its wait for a free tag: it may wait for
 * one and in several queues at once. It gives back the tags that it keeps before it waits. If all
 * tags are queued while everybody waits for a free one, nobody goes on: so let threads that take
 * requests out wait for no free tag, or for a reserved one.
 *
 * These calls are put together, in C, from the proved calls of a pool and a list of tags: c/README.md
 * says how that is checked.
 */

/**
 * tags_submit() - put a held tag, with its slot, at the end of queue 0
 *
 * As tags_submit_to() for queue 0.
 *
 * Return: as tags_submit_to().
 */
TAGS_DETAIL_CHECKED int32_t tags_submit(struct tags_hand *hand, uint32_t tag);

/**
 * tags_submit_to() - put a held tag, with its slot, at the end of a queue
 *
 * The queue always has room. The tag is in it until some hand takes it, by tags_next() or its like.
 *
 * Return: TAGS_OK. Otherwise the first of TAGS_BAD_HANDLE, TAGS_NO_SUCH_QUEUE, TAGS_NO_SUCH_TAG and
 * TAGS_NOT_HELD that applies.
 */
TAGS_DETAIL_CHECKED int32_t tags_submit_to(struct tags_hand *hand, uint32_t tag, uint32_t queue);

/**
 * tags_next() - take the next tag of a queue, with its slot
 *
 * Return: the tag. TAGS_NO_TAG means that the call found none: while others submit and take tags at
 * once, there may have been one at each moment. Otherwise the first of TAGS_BAD_HANDLE and
 * TAGS_NO_SUCH_QUEUE that applies; or TAGS_SPENT, if the hand has taken 2^48 tags out of this queue
 * since the pool was opened or resized.
 */
TAGS_DETAIL_CHECKED int32_t tags_next(struct tags_hand *hand, uint32_t queue);

/**
 * tags_next_blocking() - take the next tag of a queue, and sleep while there is none
 *
 * A thread that is cancelled in its sleep has got no tag, and its hand waits no more in the queue.
 *
 * Return: the tag. Otherwise TAGS_STOPPED if it would have to sleep and the pool was stopped;
 * TAGS_WAITING if it would have to sleep, but the hand waits in this queue already, by an eventfd or
 * a function; TAGS_NO_SUCH_TAG if the pool has no tag at all; or what tags_next() returns, except
 * TAGS_NO_TAG.
 */
TAGS_DETAIL_CHECKED int32_t tags_next_blocking(struct tags_hand *hand, uint32_t queue);

/**
 * tags_next_timed() - take the next tag of a queue, and sleep until a deadline while there is none
 *
 * As tags_next_blocking(), but it gives up at the deadline.
 *
 * Return: the tag. Otherwise TAGS_BAD_TIME, which is checked before the handle; TAGS_TIMED_OUT; or
 * what tags_next_blocking() returns.
 */
TAGS_DETAIL_CHECKED int32_t tags_next_timed(struct tags_hand *hand, uint32_t queue, int32_t clock,
					    const struct timespec *deadline);

/**
 * tags_next_async() - take the next tag of a queue, or be notified by an eventfd when to try again
 * @descriptor: the eventfd, which still belongs to the program; several hands and queues may name one
 *
 * As tags_get_async(), with a queued tag for a free one: TAGS_NO_TAG means that the hand now waits in
 * this queue. Repeat the call, for the same queue, when the eventfd is readable, or end the wait by
 * tags_cancel_next() or tags_leave().
 *
 * Return: the tag, or TAGS_NO_TAG. Otherwise the first of TAGS_BAD_HANDLE, TAGS_NO_SUCH_QUEUE and
 * TAGS_BAD_EVENT that applies, which change nothing; or TAGS_STOPPED where it would have to wait,
 * TAGS_SPENT, or TAGS_NO_SUCH_TAG if the pool has no tag at all; then the hand does not wait in this
 * queue.
 */
TAGS_DETAIL_CHECKED int32_t tags_next_async(struct tags_hand *hand, uint32_t queue, int descriptor);

/**
 * tags_next_notified() - take the next tag of a queue, or have a function called when to try again
 * @function: called with @argument, once, when a tag is queued for the hand
 * @argument: what the function gets, which may be NULL
 *
 * As tags_get_notified(), with a queued tag for a free one; and as tags_next_async(). The function may
 * run in a call that submits a tag.
 *
 * Return: as tags_next_async(), except TAGS_BAD_EVENT.
 */
TAGS_DETAIL_CHECKED int32_t tags_next_notified(struct tags_hand *hand, uint32_t queue,
					       void (*function)(void *argument), void *argument);

/**
 * tags_cancel_next() - end a wait in a queue that tags_next_async() or tags_next_notified() began
 *
 * Return: TAGS_OK. Otherwise the first of TAGS_BAD_HANDLE, TAGS_NO_SUCH_QUEUE and TAGS_NOT_WAITING
 * that applies.
 */
TAGS_DETAIL_CALL int32_t tags_cancel_next(struct tags_hand *hand, uint32_t queue);

/**
 * tags_pool_queued() - how many tags are in a queue of a pool, without a hand
 *
 * As the reports above, at any time. A tag counts from the middle of the call that submits it to that
 * of the call that takes it.
 *
 * Return: the number. Otherwise TAGS_NO_SUCH_QUEUE.
 */
int32_t tags_pool_queued(struct tags_pool *pool, uint32_t queue);

/*
 * Hands that threads share, for a program with more threads than hands, or with threads that come
 * and go. Each is behind a lock. A call takes the hand of the processor that it runs on, or the next
 * one that no other call has, and only while all are in calls it waits for one. So it is nearly as
 * fast with any number of threads as with one, but slower than with a hand of the thread's own.
 *
 * Any thread may make each of these calls, at any time but beside tags_hands_open() and
 * tags_hands_close(). The hands hold their tags together, so a tag may be cleared by another thread
 * than the one that got it: by any that was told of it. To these calls all threads are one holder,
 * so a tag that is cleared twice is refused only while no other thread has got it.
 */

/**
 * tags_hands_open() - fill an empty handle with hands that threads share
 * @hands: an empty handle
 * @count: how many hands of the pool it takes, at most TAGS_MAX_HANDS; 0 for one for each
 * processor, or for all that are free if these are fewer
 *
 * One for each processor is the fastest; with fewer, calls meet more often. Other threads may join
 * the pool with hands of their own, and take part as before. A hand that held tags when it left
 * still holds them, and these calls can clear them. The handle allocates 128 bytes for each hand
 * and one for each tag, besides what tags_join() does. These calls use no queues, so the pool has
 * to have none.
 *
 * Threads: as tags_join() for the pool's handle.
 *
 * Return: TAGS_OK. Otherwise the first of TAGS_NOT_EMPTY, TAGS_BAD_HANDLE (of @pool),
 * TAGS_BAD_HAND_COUNT (more than TAGS_MAX_HANDS), TAGS_BAD_QUEUE_COUNT (the pool has queues) and
 * TAGS_NO_HAND (fewer are free, or none) that applies, or TAGS_NO_MEMORY.
 */
TAGS_DETAIL_ANSWER int32_t tags_hands_open(struct tags_pool *pool, struct tags_hands *hands,
					   uint32_t count);

/**
 * tags_hands_get() - take a free ordinary tag
 *
 * As tags_get(), of which it is one by one of the hands.
 *
 * Return: as tags_get().
 */
TAGS_DETAIL_ANSWER int32_t tags_hands_get(struct tags_hands *hands);

/**
 * tags_hands_get_reserved() - take a free reserved tag
 *
 * Return: as tags_get_reserved().
 */
TAGS_DETAIL_ANSWER int32_t tags_hands_get_reserved(struct tags_hands *hands);

/**
 * tags_hands_get_blocking() - take a free ordinary tag, and sleep while there is none
 *
 * Other calls may use all hands meanwhile. Of the threads that sleep here with the same handle, one at
 * a time counts as waiting in the pool; the others queue for its turn, and tags_waiting() does not
 * count them. These calls keep no tag in a cache while a thread sleeps.
 *
 * Return: the tag. Otherwise TAGS_SPENT, TAGS_NO_SUCH_TAG if the pool has no ordinary tag, or
 * TAGS_STOPPED.
 */
TAGS_DETAIL_ANSWER int32_t tags_hands_get_blocking(struct tags_hands *hands);

/**
 * tags_hands_get_timed() - take a free ordinary tag, and sleep until a deadline while there is none
 *
 * As tags_hands_get_blocking(), but it gives up at the deadline.
 *
 * Return: the tag. Otherwise TAGS_BAD_TIME, which is checked before the handle; TAGS_TIMED_OUT; or
 * what tags_hands_get_blocking() returns.
 */
TAGS_DETAIL_ANSWER int32_t tags_hands_get_timed(struct tags_hands *hands, int32_t clock,
						const struct timespec *deadline);

/**
 * tags_hands_clear() - give a held tag back
 *
 * It takes the lock of the hand that holds the tag, and sleeps while another call has that, which
 * is a short time. Otherwise as tags_clear().
 *
 * Return: TAGS_OK. Otherwise TAGS_NO_SUCH_TAG, or TAGS_NOT_HELD if none of these hands holds it.
 */
TAGS_DETAIL_ANSWER int32_t tags_hands_clear(struct tags_hands *hands, uint32_t tag);

/**
 * tags_hands_read() - read the slot of a held tag
 * @value: filled in with the value
 *
 * Return: TAGS_OK. Otherwise TAGS_NO_SUCH_TAG or TAGS_NOT_HELD.
 */
int32_t tags_hands_read(struct tags_hands *hands, uint32_t tag, uint64_t *value);

/**
 * tags_hands_write() - write the slot of a held tag
 * @value: a number, or a pointer cast to uintptr_t
 * @former: NULL, or filled in with the former value
 *
 * Return: TAGS_OK. Otherwise TAGS_NO_SUCH_TAG or TAGS_NOT_HELD.
 */
int32_t tags_hands_write(struct tags_hands *hands, uint32_t tag, uint64_t value, uint64_t *former);

/**
 * tags_hands_note() - publish the note of a held tag, which anybody may read
 * @value: a number, or a pointer cast to uintptr_t
 *
 * As tags_note().
 *
 * Return: TAGS_OK. Otherwise the first of TAGS_BAD_HANDLE, TAGS_NO_NOTES, TAGS_NO_SUCH_TAG and
 * TAGS_NOT_HELD that applies.
 */
int32_t tags_hands_note(struct tags_hands *hands, uint32_t tag, uint64_t value);

/**
 * tags_hands_flush() - give back all tags that the hands keep
 *
 * As tags_flush() with each of them. Call it in a pool with a cache, while nobody makes calls with
 * the hands and threads with hands of their own wait for tags, or before tags_drain().
 *
 * Return: TAGS_OK.
 */
int32_t tags_hands_flush(struct tags_hands *hands);

/**
 * tags_hands_close() - return all hands to their pool, and empty their handle
 *
 * Threads: no other thread may be in a call with @hands.
 *
 * Return: TAGS_OK. Otherwise TAGS_IN_USE if one of the hands holds a tag. TAGS_NO_ROOM should never
 * happen.
 */
TAGS_DETAIL_ANSWER int32_t tags_hands_close(struct tags_hands *hands);

/*
 * Statuses
 */

/**
 * tags_strerror() - describe a status
 * @status: what a call returned
 *
 * Return: a static string: "done" for 0 and every positive number, and "there is no such status"
 * for a negative number that is none.
 */
const char *tags_strerror(int32_t status);

#include "tags_detail.h"

#ifdef __GNUC__
#pragma GCC visibility pop
#endif

#ifdef __cplusplus
}
#endif

#endif
