/*
 * tags_detail.h - the inline parts of tags.h, which includes it. It is private to the library.
 *
 * Each call checks its pointers and then calls an export, which takes references and so must never be
 * passed NULL. Where a compiler sees that a pointer is not NULL nothing of the check is left.
 */
#ifndef TAGS_DETAIL_H
#define TAGS_DETAIL_H

#ifndef TAGS_H
#error "include tags.h"
#endif

/* A cast, as compilers for C++ want it. */
#ifdef __cplusplus
#define TAGS_DETAIL_AS(type, value) static_cast<type>(value)
#else
#define TAGS_DETAIL_AS(type, value) ((type)(value))
#endif

/* What a pool and its hands know of waiters. */
struct tags_waits {
	/* those for whom a call that gives tags back does more than the library: 0 if there are none */
	uint32_t watchers;
	/* how often waits were stopped or resumed: odd while they are stopped */
	uint32_t stops;
	/* the most tags that tags_get_batch() returns; only a resize changes it */
	uint32_t batch;
	/* how many queues the pool has */
	uint32_t queues;
};

/* Hands that a call told of tags: bit i is 1 for the hand in place i. Proved in crates/tag_c. */
struct tags_told {
	uint64_t sleepers;
	uint64_t listeners;
};

/* What an export adds to its answer, be it a refusal, if it filled in whom it told. */
#define TAGS_DETAIL_TOLD (INT32_C(1) << 30)

/* A tag that was found busy, and its note, if it has one. */
struct tags_found {
	uint32_t tag;
	uint32_t has_note;
	struct tags_noted note;
};

/*
 * The exports of the library. They do not check for NULL, as the calls below do; that costs nothing
 * if the compiler sees that a pointer is not NULL. Those that make tags free see to them: they look
 * whether anybody waits for one, and tell. They fill in @told, and add TAGS_DETAIL_TOLD to their
 * answer: a get if it made tags of its set free that it did not take, even if it told nobody of
 * them, and the others if they told anybody. Otherwise @told keeps what it had. A flush returns how
 * many tags it gave back.
 */
int32_t tags_library_open_cached(struct tags_pool *pool, const struct tags_options *options,
				 uint32_t cache, uint32_t keeping);
int32_t tags_library_join(struct tags_pool *pool, struct tags_hand *hand, uint32_t flags);
int32_t tags_library_leave(struct tags_hand *hand);
int32_t tags_library_resize(struct tags_pool *pool, uint32_t total);
int32_t tags_library_close(struct tags_pool *pool, struct tags_sums *sums);
int32_t tags_library_get(struct tags_hand *hand, struct tags_told *told);
int32_t tags_library_get_reserved(struct tags_hand *hand, struct tags_told *told);
int32_t tags_library_get_shallow(struct tags_hand *hand, uint32_t depth,
				 struct tags_told *told);
int32_t tags_library_get_exactly(struct tags_hand *hand, uint32_t tag, struct tags_told *told);
int32_t tags_library_get_batch(struct tags_hand *hand, uint32_t n, uint64_t *won,
			       struct tags_told *told);
int32_t tags_library_get_many(struct tags_hand *hand, uint32_t *tags, size_t count,
			      struct tags_told *told);
int32_t tags_library_clear(struct tags_hand *hand, uint32_t tag, struct tags_told *told);
int32_t tags_library_clear_batch(struct tags_hand *hand, const uint32_t *tags, size_t count,
				 struct tags_told *told);
int32_t tags_library_clear_mask(struct tags_hand *hand, uint32_t first, uint64_t mask,
				struct tags_told *told);
int32_t tags_library_flush(struct tags_hand *hand, struct tags_told *told);
int32_t tags_library_get_write(struct tags_hand *hand, uint64_t value, struct tags_told *told);
int32_t tags_library_read_clear(struct tags_hand *hand, uint32_t tag, uint64_t *value,
				struct tags_told *told);
int32_t tags_library_read(struct tags_hand *hand, uint32_t tag, uint64_t *value);
int32_t tags_library_write(struct tags_hand *hand, uint32_t tag, uint64_t value, uint64_t *former);
int32_t tags_library_post(struct tags_hand *hand, uint32_t tag, struct tags_told *told);
int32_t tags_library_take(struct tags_hand *hand, uint32_t tag);
int32_t tags_library_holds(struct tags_hand *hand, uint32_t tag);
int32_t tags_library_busy(struct tags_hand *hand, uint64_t *into, size_t words);
int32_t tags_library_show(struct tags_hand *hand, uint32_t kind, struct tags_sizes *sizes);
int32_t tags_library_pool_busy(struct tags_pool *pool, uint64_t *into, size_t words);
int32_t tags_library_pool_show(struct tags_pool *pool, uint32_t kind, struct tags_sizes *sizes);

/*
 * What the calls below use of the C files. The first one ends a call of the library that made tags
 * free: it wakes those who were told, and looks for watchers, to whom it gives what this hand keeps.
 * It returns the answer without the flag. @told is passed as it is, so that no call keeps its address.
 */
int32_t tags_library_ring(struct tags_hand *hand, int32_t answer, struct tags_told told);
/*
 * What a get answers, at its end: as tags_library_ring(), and under round robin one that found no tag is made once
 * more, from the first tag on. The last one is of a hand of which that is known.
 */
int32_t tags_library_end_get(struct tags_hand *hand, int32_t answer, struct tags_told told);
int32_t tags_library_end_get_reserved(struct tags_hand *hand, int32_t answer,
				      struct tags_told told);
int32_t tags_library_end_get_write(struct tags_hand *hand, uint64_t value, int32_t answer,
				   struct tags_told told);
int32_t tags_library_get_many_again(struct tags_hand *hand, uint32_t *tags, size_t count);
int32_t tags_library_wait(struct tags_hand *hand);
int32_t tags_library_get_timed(struct tags_hand *hand, int32_t clock,
			       const struct timespec *deadline);
int32_t tags_library_get_async(struct tags_hand *hand, int descriptor);
int32_t tags_library_get_notified(struct tags_hand *hand, void (*function)(void *argument),
				  void *argument);
int32_t tags_library_get_reserved_blocking(struct tags_hand *hand);
int32_t tags_library_get_reserved_timed(struct tags_hand *hand, int32_t clock,
					const struct timespec *deadline);
int32_t tags_library_get_reserved_async(struct tags_hand *hand, int descriptor);
int32_t tags_library_get_reserved_notified(struct tags_hand *hand,
					   void (*function)(void *argument), void *argument);
int32_t tags_library_cancel_wait(struct tags_hand *hand);
int32_t tags_library_waiting(const struct tags_hand *hand);
int32_t tags_library_return_hand(struct tags_hand *hand);
/*
 * Of a hand in a pool with notes, before a call that gives tags back: ends the notes of these tags, unless that
 * call will be refused.
 */
void tags_library_withdraw(struct tags_hand *hand, uint32_t tag);
void tags_library_withdraw_all(struct tags_hand *hand, const uint32_t *tags, size_t count);
void tags_library_withdraw_mask(struct tags_hand *hand, uint32_t first, uint64_t mask);
int32_t tags_library_note(struct tags_hand *hand, uint32_t tag, uint64_t value);
/* Finds the busy tags of a pool from @from on, as many as there is room for. Returns how many, or a refusal. */
int32_t tags_library_find_noted(struct tags_pool *pool, uint32_t from, struct tags_found *found,
				int32_t room);
/* The calls on queues, as below. */
int32_t tags_library_submit(struct tags_hand *hand, uint32_t tag, uint32_t queue);
int32_t tags_library_next(struct tags_hand *hand, uint32_t queue);
int32_t tags_library_next_blocking(struct tags_hand *hand, uint32_t queue);
int32_t tags_library_next_timed(struct tags_hand *hand, uint32_t queue, int32_t clock,
				const struct timespec *deadline);
int32_t tags_library_next_async(struct tags_hand *hand, uint32_t queue, int descriptor);
int32_t tags_library_next_notified(struct tags_hand *hand, uint32_t queue,
				   void (*function)(void *argument), void *argument);
int32_t tags_library_cancel_next(struct tags_hand *hand, uint32_t queue);
/* In a pool with queues: takes a posted tag, unless it is in one of them. */
int32_t tags_library_take_unqueued(struct tags_hand *hand, uint32_t tag);
int32_t tags_library_post_mask(struct tags_hand *hand, uint32_t first, uint64_t mask);
int32_t tags_library_take_mask(struct tags_hand *hand, uint32_t first, uint64_t mask);
/* End the program: a hand is in two calls, or a call of TAGS_MUST() was refused. */
void tags_library_end_shared(void);
void tags_library_end_refused(int32_t status, const char *call);

/*
 * The thread sanitizer can't see the atomic steps of the library, which is not built with
 * it. So in a program that is, each call reports them: giving a tag away is a release, and
 * getting it an acquire, both on one address for each tag. The symbols of these calls in
 * the library report them if the program brings the sanitizer's functions.
 */
#if defined __SANITIZE_THREAD__
#define TAGS_DETAIL_SANITIZED 1
#elif defined __has_feature
#if __has_feature(thread_sanitizer)
#define TAGS_DETAIL_SANITIZED 1
#endif
#endif

#if defined TAGS_DETAIL_SANITIZED || defined TAGS_LIBRARY
/* an address for each tag, one for hands, and one for stops */
extern char tags_library_order[TAGS_MAX_TOTAL + 2];
#ifdef TAGS_LIBRARY
__attribute__((weak)) void __tsan_acquire(void *address);
__attribute__((weak)) void __tsan_release(void *address);
#define TAGS_DETAIL_SEES(at) (__tsan_acquire ? __tsan_acquire(&tags_library_order[at]) : (void)0)
#define TAGS_DETAIL_SHOWS(at) (__tsan_release ? __tsan_release(&tags_library_order[at]) : (void)0)
#else
void __tsan_acquire(void *address);
void __tsan_release(void *address);
#define TAGS_DETAIL_SEES(at) __tsan_acquire(&tags_library_order[at])
#define TAGS_DETAIL_SHOWS(at) __tsan_release(&tags_library_order[at])
#endif
#else
#define TAGS_DETAIL_SEES(at) ((void)0)
#define TAGS_DETAIL_SHOWS(at) ((void)0)
#endif

/*
 * The memory sanitizer can't see what the library fills in either, so each call that was not
 * refused reports what it filled in.
 */
#if defined __has_feature
#if __has_feature(memory_sanitizer)
#define TAGS_DETAIL_MEMORY_SANITIZED 1
#endif
#endif

#ifdef TAGS_LIBRARY
__attribute__((weak)) void __msan_unpoison(const volatile void *start, size_t size);
#define TAGS_DETAIL_FILLED(start, size) (__msan_unpoison ? __msan_unpoison(start, size) : (void)0)
#elif defined TAGS_DETAIL_MEMORY_SANITIZED
void __msan_unpoison(const volatile void *start, size_t size);
#define TAGS_DETAIL_FILLED(start, size) __msan_unpoison(start, size)
#else
#define TAGS_DETAIL_FILLED(start, size) ((void)(start), (void)(size))
#endif

/*
 * Declares whom the library tells, which needs no value before: if it is not filled in, nobody looks at
 * it. But the memory sanitizer can't see that.
 */
#ifdef TAGS_DETAIL_MEMORY_SANITIZED
#define TAGS_DETAIL_TO_FILL(told) struct tags_told told = { 0, 0 }
#else
#define TAGS_DETAIL_TO_FILL(told) struct tags_told told
#endif

/*
 * A hand is in one call at a time. Under the thread sanitizer each call writes a field of its hand,
 * as it is, so that it reports two threads on one hand, with both stacks. In a program that is
 * compiled with TAGS_CHECKED_HANDS, a call that finds its hand in another one ends the program.
 */
#ifdef TAGS_LIBRARY
__attribute__((weak)) void __tsan_write4(void *address);
#define TAGS_DETAIL_MARK(hand) (__tsan_write4 ? __tsan_write4(&(hand)->flags) : (void)0)
#elif defined TAGS_DETAIL_SANITIZED
static inline void tags_detail_mark(struct tags_hand *hand)
{
	volatile uint32_t *flags = &hand->flags;

	*flags = *flags;
}
#define TAGS_DETAIL_MARK(hand) tags_detail_mark(hand)
#else
#define TAGS_DETAIL_MARK(hand) ((void)0)
#endif

/* Begins a call, and returns its hand: there is none if that is NULL. */
static inline struct tags_hand *tags_detail_begin(struct tags_hand *hand)
{
	if (!hand)
		return hand;
	TAGS_DETAIL_MARK(hand);
#ifdef TAGS_CHECKED_HANDS
	if (__atomic_exchange_n(&hand->in_call, 1, __ATOMIC_RELAXED))
		tags_library_end_shared();
#endif
	return hand;
}

static inline int32_t tags_detail_end(struct tags_hand *hand, int32_t status)
{
#ifdef TAGS_CHECKED_HANDS
	__atomic_store_n(&hand->in_call, 0, __ATOMIC_RELAXED);
#else
	(void)hand;
#endif
	return status;
}

static inline int32_t tags_detail_filled(int32_t status, const void *start, size_t size)
{
	if (status >= 0)
		TAGS_DETAIL_FILLED(start, size);
	return status;
}

/* The same at the end of a call. */
static inline int32_t tags_detail_reported(struct tags_hand *hand, int32_t status, const void *start,
				       size_t size)
{
	return tags_detail_end(hand, tags_detail_filled(status, start, size));
}

static inline int32_t tags_detail_won(int32_t tag)
{
	if (tag >= 0)
		TAGS_DETAIL_SEES(tag);
	return tag;
}

/* After a take of these tags. */
static inline int32_t tags_detail_won_mask(int32_t status, uint32_t first, uint64_t mask)
{
#if defined TAGS_DETAIL_SANITIZED || defined TAGS_LIBRARY
	for (uint32_t i = 0; status >= 0 && i < 64; i++)
		if (mask >> i & 1)
			TAGS_DETAIL_SEES(first + i);
#else
	(void)first;
	(void)mask;
#endif
	return status;
}

static inline void tags_detail_lost(uint32_t tag)
{
	if (tag < TAGS_MAX_TOTAL)
		TAGS_DETAIL_SHOWS(tag);
}

static inline void tags_detail_lost_all(const uint32_t *tags, size_t count)
{
#if defined TAGS_DETAIL_SANITIZED || defined TAGS_LIBRARY
	for (size_t i = 0; count <= TAGS_MAX_BATCH && i < count; i++)
		tags_detail_lost(tags[i]);
#else
	(void)tags;
	(void)count;
#endif
}

static inline void tags_detail_lost_mask(uint32_t first, uint64_t mask)
{
#if defined TAGS_DETAIL_SANITIZED || defined TAGS_LIBRARY
	for (uint32_t i = 0; first < TAGS_MAX_TOTAL && i < 64; i++)
		if (mask >> i & 1)
			tags_detail_lost(first + i);
#else
	(void)first;
	(void)mask;
#endif
}

/*
 * After a call of the library that made tags free. Mostly nobody is to be woken, which each of these
 * finds without a call.
 */

static inline int tags_detail_is_told(int32_t answer)
{
	return answer >= TAGS_DETAIL_TOLD / 2;
}

/*
 * Whether a call that gives tags back goes on out of line: it was refused or told somebody, or there
 * are watchers. The load is sequentially consistent, as is each step of the library on its tags.
 */
static inline int tags_detail_is_due(const struct tags_hand *hand, int32_t answer)
{
	return TAGS_DETAIL_AS(uint32_t, answer) >= TAGS_DETAIL_TOLD / 2 ||
	       __atomic_load_n(&hand->waits->watchers, __ATOMIC_SEQ_CST) > 0;
}

/* Whether a get answers a tag, and has told nobody. Otherwise, whether it goes on out of line. */
static inline int tags_detail_is_plain(int32_t answer)
{
	return TAGS_DETAIL_AS(uint32_t, answer) < TAGS_DETAIL_TOLD / 2;
}

/*
 * Whether a get that found no tag is made again. Under round robin it tries no tag of its first word before
 * the start; but one that found none has moved the start to the first tag.
 */
static inline int tags_detail_wraps(const struct tags_hand *hand)
{
	return (hand->flags & TAGS_ROUND_ROBIN) != 0;
}

static inline int tags_detail_is_to_wrap(const struct tags_hand *hand, int32_t tag)
{
	return tag == TAGS_NO_TAG && tags_detail_wraps(hand);
}

static inline int tags_detail_goes_on(const struct tags_hand *hand, int32_t answer)
{
	return tags_detail_is_told(answer) || tags_detail_wraps(hand);
}

/* What a get answers. Its sweeps may have made tags free. */
static inline int32_t tags_detail_got(struct tags_hand *hand, int32_t answer,
				      const struct tags_told *told)
{
	return tags_detail_is_told(answer) ? tags_library_ring(hand, answer, *told) : answer;
}

/* What a call answers that gives tags back. */
static inline int32_t tags_detail_gave(struct tags_hand *hand, int32_t answer,
				       const struct tags_told *told)
{
	return tags_detail_is_due(hand, answer) ? tags_library_ring(hand, answer, *told) : answer;
}

static inline int32_t tags_detail_must(int32_t status, const char *call)
{
	if (status < 0)
		tags_library_end_refused(status, call);
	return status;
}

/* Whether the hand's pool has notes. */
static inline int tags_detail_has_notes(const struct tags_hand *hand)
{
	return (hand->flags & TAGS_NOTES) != 0;
}

/* An empty handle has none. */
static inline int tags_detail_has_queues(const struct tags_hand *hand)
{
	return hand->waits && hand->waits->queues > 0;
}

/* The count of stops of the hand's pool. */
static inline uint32_t tags_detail_stops(const struct tags_hand *hand)
{
	uint32_t stops = 0;

	if (hand->place)
		stops = __atomic_load_n(&hand->waits->stops, __ATOMIC_SEQ_CST);
	TAGS_DETAIL_SEES(TAGS_MAX_TOTAL + 1);
	return stops;
}

/* Whether the waits of the hand's pool are stopped. */
static inline int tags_detail_is_stopped(const struct tags_hand *hand)
{
	return tags_detail_stops(hand) % 2 == 1;
}

/*
 * The inline calls, in the order of tags.h
 */

TAGS_DETAIL_CALL int32_t tags_leave(struct tags_hand *hand)
{
	if (!tags_detail_begin(hand))
		return TAGS_NULL;
	return tags_detail_end(hand, tags_library_return_hand(hand));
}

TAGS_DETAIL_CALL int32_t tags_get(struct tags_hand *hand)
{
	TAGS_DETAIL_TO_FILL(told);
	int32_t tag;

	if (!tags_detail_begin(hand))
		return TAGS_NULL;
	tag = tags_library_get(hand, &told);
	if (!tags_detail_is_plain(tag) && tags_detail_goes_on(hand, tag))
		tag = tags_library_end_get(hand, tag, told);
	return tags_detail_end(hand, tags_detail_won(tag));
}

TAGS_DETAIL_CALL int32_t tags_get_reserved(struct tags_hand *hand)
{
	TAGS_DETAIL_TO_FILL(told);
	int32_t tag;

	if (!tags_detail_begin(hand))
		return TAGS_NULL;
	tag = tags_library_get_reserved(hand, &told);
	if (!tags_detail_is_plain(tag) && tags_detail_goes_on(hand, tag))
		tag = tags_library_end_get_reserved(hand, tag, told);
	return tags_detail_end(hand, tags_detail_won(tag));
}

TAGS_DETAIL_CALL int32_t tags_get_shallow(struct tags_hand *hand, uint32_t depth)
{
	TAGS_DETAIL_TO_FILL(told);
	int32_t tag;

	if (!tags_detail_begin(hand))
		return TAGS_NULL;
	tag = tags_detail_got(hand, tags_library_get_shallow(hand, depth, &told), &told);
	return tags_detail_end(hand, tags_detail_won(tag));
}

TAGS_DETAIL_CALL int32_t tags_get_exactly(struct tags_hand *hand, uint32_t tag)
{
	TAGS_DETAIL_TO_FILL(told);
	int32_t won;

	if (!tags_detail_begin(hand))
		return TAGS_NULL;
	won = tags_detail_got(hand, tags_library_get_exactly(hand, tag, &told), &told);
	return tags_detail_end(hand, tags_detail_won(won));
}

TAGS_DETAIL_CALL int32_t tags_get_batch(struct tags_hand *hand, uint32_t n, uint64_t *won)
{
	TAGS_DETAIL_TO_FILL(told);
	int32_t first;

	if (!won || !tags_detail_begin(hand))
		return TAGS_NULL;
	if (hand->waits && n > hand->waits->batch)
		n = hand->waits->batch;
	first = tags_detail_got(hand, tags_library_get_batch(hand, n, won, &told), &told);
	tags_detail_filled(first, won, sizeof(*won));
#if defined TAGS_DETAIL_SANITIZED || defined TAGS_LIBRARY
	for (int32_t i = 0; first >= 0 && i < 64; i++)
		if (*won >> i & 1)
			tags_detail_won(first + i);
#endif
	return tags_detail_end(hand, first);
}

TAGS_DETAIL_CALL int32_t tags_get_many(struct tags_hand *hand, uint32_t *tags, size_t count)
{
	TAGS_DETAIL_TO_FILL(told);
	int32_t status;

	if (!tags || !tags_detail_begin(hand))
		return TAGS_NULL;
	status = tags_detail_got(hand, tags_library_get_many(hand, tags, count, &told), &told);
	if (tags_detail_is_to_wrap(hand, status))
		status = tags_library_get_many_again(hand, tags, count);
	tags_detail_filled(status, tags, count * sizeof(*tags));
#if defined TAGS_DETAIL_SANITIZED || defined TAGS_LIBRARY
	for (size_t i = 0; status >= 0 && i < count; i++)
		TAGS_DETAIL_SEES(tags[i]);
#endif
	return tags_detail_end(hand, status);
}

TAGS_DETAIL_CALL int32_t tags_clear(struct tags_hand *hand, uint32_t tag)
{
	TAGS_DETAIL_TO_FILL(told);
	int32_t answer;

	if (!tags_detail_begin(hand))
		return TAGS_NULL;
	if (tags_detail_has_notes(hand))
		tags_library_withdraw(hand, tag);
	tags_detail_lost(tag);
	answer = tags_library_clear(hand, tag, &told);
	return tags_detail_end(hand, tags_detail_gave(hand, answer, &told));
}

TAGS_DETAIL_CALL int32_t tags_clear_batch(struct tags_hand *hand, const uint32_t *tags,
					  size_t count)
{
	TAGS_DETAIL_TO_FILL(told);
	int32_t answer;

	if (!tags || !tags_detail_begin(hand))
		return TAGS_NULL;
	if (tags_detail_has_notes(hand))
		tags_library_withdraw_all(hand, tags, count);
	tags_detail_lost_all(tags, count);
	answer = tags_library_clear_batch(hand, tags, count, &told);
	return tags_detail_end(hand, tags_detail_gave(hand, answer, &told));
}

TAGS_DETAIL_CALL int32_t tags_clear_mask(struct tags_hand *hand, uint32_t first, uint64_t mask)
{
	TAGS_DETAIL_TO_FILL(told);
	int32_t answer;

	if (!tags_detail_begin(hand))
		return TAGS_NULL;
	if (tags_detail_has_notes(hand))
		tags_library_withdraw_mask(hand, first, mask);
	tags_detail_lost_mask(first, mask);
	answer = tags_library_clear_mask(hand, first, mask, &told);
	return tags_detail_end(hand, tags_detail_gave(hand, answer, &told));
}

TAGS_DETAIL_CALL int32_t tags_flush(struct tags_hand *hand)
{
	TAGS_DETAIL_TO_FILL(told);
	int32_t freed;

	if (!tags_detail_begin(hand))
		return TAGS_NULL;
	freed = tags_detail_gave(hand, tags_library_flush(hand, &told), &told);
	if (freed > 0)
		freed = TAGS_OK;
	return tags_detail_end(hand, freed);
}

TAGS_DETAIL_CALL int32_t tags_get_write(struct tags_hand *hand, uint64_t value)
{
	TAGS_DETAIL_TO_FILL(told);
	int32_t tag;

	if (!tags_detail_begin(hand))
		return TAGS_NULL;
	tag = tags_library_get_write(hand, value, &told);
	if (!tags_detail_is_plain(tag) && tags_detail_goes_on(hand, tag))
		tag = tags_library_end_get_write(hand, value, tag, told);
	return tags_detail_end(hand, tags_detail_won(tag));
}

TAGS_DETAIL_CALL int32_t tags_read_clear(struct tags_hand *hand, uint32_t tag, uint64_t *value)
{
	TAGS_DETAIL_TO_FILL(told);
	int32_t answer;

	if (!value || !tags_detail_begin(hand))
		return TAGS_NULL;
	if (tags_detail_has_notes(hand))
		tags_library_withdraw(hand, tag);
	tags_detail_lost(tag);
	answer = tags_library_read_clear(hand, tag, value, &told);
	return tags_detail_reported(hand, tags_detail_gave(hand, answer, &told), value, sizeof(*value));
}

TAGS_DETAIL_CALL int32_t tags_read(struct tags_hand *hand, uint32_t tag, uint64_t *value)
{
	if (!value || !tags_detail_begin(hand))
		return TAGS_NULL;
	return tags_detail_reported(hand, tags_library_read(hand, tag, value), value, sizeof(*value));
}

TAGS_DETAIL_CALL int32_t tags_write(struct tags_hand *hand, uint32_t tag, uint64_t value,
				    uint64_t *former)
{
	uint64_t unused;

	if (!tags_detail_begin(hand))
		return TAGS_NULL;
	if (!former)
		former = &unused;
	return tags_detail_reported(hand, tags_library_write(hand, tag, value, former), former,
				sizeof(*former));
}

TAGS_DETAIL_CALL int32_t tags_post(struct tags_hand *hand, uint32_t tag)
{
	TAGS_DETAIL_TO_FILL(told);
	int32_t answer;

	if (!tags_detail_begin(hand))
		return TAGS_NULL;
	tags_detail_lost(tag);
	answer = tags_library_post(hand, tag, &told);
	return tags_detail_end(hand, tags_detail_gave(hand, answer, &told));
}

TAGS_DETAIL_CALL int32_t tags_take(struct tags_hand *hand, uint32_t tag)
{
	int32_t status;

	if (!tags_detail_begin(hand))
		return TAGS_NULL;
	status = tags_detail_has_queues(hand) ? tags_library_take_unqueued(hand, tag) :
						tags_library_take(hand, tag);
	if (status == TAGS_OK && tag < TAGS_MAX_TOTAL)
		TAGS_DETAIL_SEES(tag);
	return tags_detail_end(hand, status);
}

TAGS_DETAIL_CALL int32_t tags_post_mask(struct tags_hand *hand, uint32_t first, uint64_t mask)
{
	if (!tags_detail_begin(hand))
		return TAGS_NULL;
	tags_detail_lost_mask(first, mask);
	return tags_detail_end(hand, tags_library_post_mask(hand, first, mask));
}

TAGS_DETAIL_CALL int32_t tags_take_mask(struct tags_hand *hand, uint32_t first, uint64_t mask)
{
	if (!tags_detail_begin(hand))
		return TAGS_NULL;
	return tags_detail_end(hand, tags_detail_won_mask(tags_library_take_mask(hand, first, mask),
							  first, mask));
}

TAGS_DETAIL_CALL int32_t tags_note(struct tags_hand *hand, uint32_t tag, uint64_t value)
{
	if (!tags_detail_begin(hand))
		return TAGS_NULL;
	return tags_detail_end(hand, tags_library_note(hand, tag, value));
}

TAGS_DETAIL_CALL int32_t tags_holds(struct tags_hand *hand, uint32_t tag)
{
	if (!tags_detail_begin(hand))
		return TAGS_NULL;
	return tags_detail_end(hand, tags_library_holds(hand, tag));
}

TAGS_DETAIL_CALL int32_t tags_busy(struct tags_hand *hand, uint64_t *into, size_t words)
{
	if (!into || !tags_detail_begin(hand))
		return TAGS_NULL;
	return tags_detail_reported(hand, tags_library_busy(hand, into, words), into,
				words * sizeof(*into));
}

TAGS_DETAIL_CALL int32_t tags_show(struct tags_hand *hand, uint32_t kind, struct tags_sizes *sizes)
{
	if (!sizes || !tags_detail_begin(hand))
		return TAGS_NULL;
	return tags_detail_reported(hand, tags_library_show(hand, kind, sizes), sizes, sizeof(*sizes));
}

TAGS_DETAIL_CALL int32_t tags_waiting(struct tags_hand *hand)
{
	if (!tags_detail_begin(hand))
		return TAGS_NULL;
	return tags_detail_end(hand, tags_library_waiting(hand));
}

TAGS_DETAIL_CALL int32_t tags_get_blocking(struct tags_hand *hand)
{
	int32_t tag;

	if (!hand)
		return TAGS_NULL;
	if (tags_detail_is_stopped(hand))
		return TAGS_STOPPED;
	tag = tags_get(hand);
	if (tag != TAGS_NO_TAG)
		return tag;
	tags_detail_begin(hand);
	return tags_detail_end(hand, tags_library_wait(hand));
}

TAGS_DETAIL_CALL int32_t tags_get_timed(struct tags_hand *hand, int32_t clock,
					   const struct timespec *deadline)
{
	if (!deadline || !tags_detail_begin(hand))
		return TAGS_NULL;
	return tags_detail_end(hand, tags_library_get_timed(hand, clock, deadline));
}

TAGS_DETAIL_CALL int32_t tags_get_async(struct tags_hand *hand, int descriptor)
{
	if (!tags_detail_begin(hand))
		return TAGS_NULL;
	return tags_detail_end(hand, tags_library_get_async(hand, descriptor));
}

TAGS_DETAIL_CALL int32_t tags_get_notified(struct tags_hand *hand,
					      void (*function)(void *argument), void *argument)
{
	if (!function || !tags_detail_begin(hand))
		return TAGS_NULL;
	return tags_detail_end(hand, tags_library_get_notified(hand, function, argument));
}

TAGS_DETAIL_CALL int32_t tags_get_reserved_blocking(struct tags_hand *hand)
{
	if (!tags_detail_begin(hand))
		return TAGS_NULL;
	return tags_detail_end(hand, tags_library_get_reserved_blocking(hand));
}

TAGS_DETAIL_CALL int32_t tags_get_reserved_timed(struct tags_hand *hand, int32_t clock,
						 const struct timespec *deadline)
{
	if (!deadline || !tags_detail_begin(hand))
		return TAGS_NULL;
	return tags_detail_end(hand, tags_library_get_reserved_timed(hand, clock, deadline));
}

TAGS_DETAIL_CALL int32_t tags_get_reserved_async(struct tags_hand *hand, int descriptor)
{
	if (!tags_detail_begin(hand))
		return TAGS_NULL;
	return tags_detail_end(hand, tags_library_get_reserved_async(hand, descriptor));
}

TAGS_DETAIL_CALL int32_t tags_get_reserved_notified(struct tags_hand *hand,
						    void (*function)(void *argument),
						    void *argument)
{
	if (!function || !tags_detail_begin(hand))
		return TAGS_NULL;
	return tags_detail_end(hand,
			       tags_library_get_reserved_notified(hand, function, argument));
}

TAGS_DETAIL_CALL int32_t tags_cancel(struct tags_hand *hand)
{
	if (!tags_detail_begin(hand))
		return TAGS_NULL;
	return tags_detail_end(hand, tags_library_cancel_wait(hand));
}

TAGS_DETAIL_CALL int32_t tags_submit_to(struct tags_hand *hand, uint32_t tag, uint32_t queue)
{
	if (!tags_detail_begin(hand))
		return TAGS_NULL;
	tags_detail_lost(tag);
	return tags_detail_end(hand, tags_library_submit(hand, tag, queue));
}

TAGS_DETAIL_CALL int32_t tags_submit(struct tags_hand *hand, uint32_t tag)
{
	return tags_submit_to(hand, tag, 0);
}

TAGS_DETAIL_CALL int32_t tags_next(struct tags_hand *hand, uint32_t queue)
{
	if (!tags_detail_begin(hand))
		return TAGS_NULL;
	return tags_detail_end(hand, tags_detail_won(tags_library_next(hand, queue)));
}

TAGS_DETAIL_CALL int32_t tags_next_blocking(struct tags_hand *hand, uint32_t queue)
{
	if (!tags_detail_begin(hand))
		return TAGS_NULL;
	return tags_detail_end(hand, tags_detail_won(tags_library_next_blocking(hand, queue)));
}

TAGS_DETAIL_CALL int32_t tags_next_timed(struct tags_hand *hand, uint32_t queue, int32_t clock,
					 const struct timespec *deadline)
{
	if (!deadline || !tags_detail_begin(hand))
		return TAGS_NULL;
	return tags_detail_end(hand, tags_detail_won(tags_library_next_timed(hand, queue, clock,
									      deadline)));
}

TAGS_DETAIL_CALL int32_t tags_next_async(struct tags_hand *hand, uint32_t queue, int descriptor)
{
	if (!tags_detail_begin(hand))
		return TAGS_NULL;
	return tags_detail_end(hand,
			       tags_detail_won(tags_library_next_async(hand, queue, descriptor)));
}

TAGS_DETAIL_CALL int32_t tags_next_notified(struct tags_hand *hand, uint32_t queue,
					    void (*function)(void *argument), void *argument)
{
	if (!function || !tags_detail_begin(hand))
		return TAGS_NULL;
	return tags_detail_end(hand, tags_detail_won(tags_library_next_notified(hand, queue,
										 function,
										 argument)));
}

TAGS_DETAIL_CALL int32_t tags_cancel_next(struct tags_hand *hand, uint32_t queue)
{
	if (!tags_detail_begin(hand))
		return TAGS_NULL;
	return tags_detail_end(hand, tags_library_cancel_next(hand, queue));
}

#endif
