/*
 * Makes random calls with random arguments, through several handles of several
 * pools, and compares what each call returns and fills in with the model. Of the
 * calls that sleep it makes those that the model says return at once.
 * fuzz [CALLS [SEED]]
 */
#define _GNU_SOURCE
#include <inttypes.h>
#include <stdio.h>
#include <stdlib.h>
#include <string.h>
#include <sys/eventfd.h>
#include <time.h>
#include <unistd.h>

#include "model.h"

enum {
	HANDLES = 12,
	/* length of an array for the busy tags, with room beyond what a call may write */
	WORDS = TAGS_MAX_TOTAL / 64 + 4
};

/* A handle of either kind, which calls fill in. */
union handle {
	struct tags_pool pool;
	struct tags_hand hand;
};

static union handle handles[HANDLES];
static struct model models[HANDLES];
/* the eventfds of each pool, by the handle of the pool; and how often its function was called with each argument */
static int events[HANDLES][EVENTS];
static uint64_t told[HANDLES][ARGUMENTS];

static uint64_t state = 1;
static uint64_t calls;
static uint64_t refused;

static uint32_t draw(void)
{
	state = state * 6364136223846793005u + 1442695040888963407u;
	return (uint32_t)(state >> 33);
}

static uint32_t below(uint32_t bound)
{
	return draw() % bound;
}

/* True once in @times calls, on average. */
static bool seldom(uint32_t times)
{
	return below(times) == 0;
}

static void fail(const char *call, const char *what, int64_t found, int64_t wanted)
{
	fprintf(stderr, "call %" PRIu64 ", %s: %s %" PRId64 ", not %" PRId64 "\n", calls, call,
		what, found, wanted);
	exit(1);
}

static void compare(const char *call, int32_t found, int32_t wanted)
{
	if (found != wanted)
		fail(call, "answered", found, wanted);
	calls++;
	refused += wanted < 0;
}

static void compare_filled(const char *call, const void *found, const void *wanted, size_t size)
{
	if (memcmp(found, wanted, size) != 0)
		fail(call, "what it filled in is", 0, 1);
}

/*
 * Arguments
 */

static uint32_t any_handle(void)
{
	return below(HANDLES);
}

/* Picks a handle, most often that of a hand. */
static uint32_t hand_handle(void)
{
	uint32_t at = any_handle();

	for (int i = 0; i < 8 && !is_hand(&models[at]) && !seldom(20); i++)
		at = any_handle();
	return at;
}

/* Picks a handle, most often that of a pool. */
static uint32_t pool_handle(void)
{
	uint32_t at = any_handle();

	for (int i = 0; i < 12 && !(models[at].pool && !is_hand(&models[at])); i++)
		at = any_handle();
	return at;
}

/* Picks a handle, most often an empty one. */
static uint32_t empty_handle(void)
{
	uint32_t at = any_handle();

	for (int i = 0; i < 12 && models[at].pool; i++)
		at = any_handle();
	return at;
}

static uint32_t count_pools(void)
{
	uint32_t count = 0;

	for (uint32_t at = 0; at < HANDLES; at++)
		count += models[at].pool && !is_hand(&models[at]);
	return count;
}

static uint32_t odd_number(void)
{
	static const uint32_t odd[] = {
		0, 1, 63, 64, 65, 10239, 10240, INT32_MAX, 1u << 31, UINT32_MAX,
	};

	return odd[below(sizeof(odd) / sizeof(*odd))];
}

static uint32_t total_behind(uint32_t at)
{
	const struct pool *pool = models[at].pool;

	return pool ? pool->set[0].depth + pool->set[1].depth : 8;
}

/* Picks a number, most often a tag of the pool, and often one that the hand holds. */
static uint32_t any_tag(uint32_t at)
{
	uint32_t total = total_behind(at) + 2;
	uint32_t tag = below(total);

	if (seldom(50))
		return odd_number();
	for (uint32_t i = 0; i < 60 && !seldom(40); i++) {
		if (model_holds(&models[at], tag) == 1)
			break;
		tag = (tag + 1) % total;
	}
	return tag;
}

static uint32_t any_total(void)
{
	if (seldom(40))
		return below(TAGS_MAX_TOTAL + 2);
	return seldom(2) ? below(12) : below(150);
}

static struct tags_options any_options(void)
{
	struct tags_options options = {
		.total = any_total(),
		.shift = (int32_t)below(10) - 2,
		.hands = 1 + below(HANDLES),
	};

	options.reserved = seldom(2) ? 0 : below(options.total / 3 + 2);
	if (seldom(3))
		options.shift = seldom(5) ? INT32_MIN : 0;
	else if (seldom(6))
		options.shift = TAGS_ONE_PER_WORD;
	if (seldom(3))
		options.min_shallow = below(options.total + 2);
	if (seldom(4))
		options.flags = seldom(8) ? odd_number() : TAGS_ROUND_ROBIN;
	if (seldom(2))
		options.cache = seldom(30) ? odd_number() : below(seldom(2) ? 4 : TAGS_MAX_CACHE + 1);
	if (seldom(3))
		options.flags |= TAGS_KEEP_WHILE_HOLDING;
	if (seldom(2))
		options.flags |= TAGS_NOTES;
	if (seldom(30))
		options.hands = odd_number();
	if (seldom(60))
		options.total = odd_number();
	return options;
}

/*
 * Eventfds, and a function
 */

static void note_call(void *argument)
{
	++*(uint64_t *)argument;
}

/* The handle of the pool that a hand belongs to; that of the hand if it has none. */
static uint32_t pool_of(uint32_t at)
{
	for (uint32_t pool = 0; pool < HANDLES; pool++)
		if (models[at].pool && models[pool].pool == models[at].pool && !is_hand(&models[pool]))
			return pool;
	return at;
}

/* What was added to the eventfds of a pool since they were read last is what the model says, and so are the calls. */
static void compare_events(uint32_t pool)
{
	for (uint32_t i = 0; i < EVENTS; i++) {
		uint64_t *wanted = &models[pool].pool->told[i];
		uint64_t found = 0;

		if (read(events[pool][i], &found, sizeof(found)) < 0)
			found = 0;
		compare_filled("the eventfd", &found, wanted, sizeof(found));
		*wanted = 0;
	}
	compare_filled("the function", told[pool], &models[pool].pool->told[EVENTS], sizeof(told[pool]));
	memset(told[pool], 0, sizeof(told[pool]));
	memset(&models[pool].pool->told[EVENTS], 0, sizeof(told[pool]));
}

/*
 * Pools and hands
 */

static void leave(uint32_t at)
{
	if (is_hand(&models[at])) {
		model_cancel(&models[at]);
		model_flush_and_tell(&models[at]);
	}
	compare("leave", tags_leave(&handles[at].hand), model_leave(&models[at]));
}

static void try_open(void)
{
	uint32_t at = seldom(20) ? any_handle() : empty_handle();
	struct tags_options options = any_options();

	if (count_pools() >= 3 && !seldom(60))
		return;
	compare("open", tags_open(&handles[at].pool, &options), model_open(&models[at], &options));
}

static void try_join(void)
{
	uint32_t pool = pool_handle();
	uint32_t hand = seldom(20) ? any_handle() : empty_handle();
	uint32_t flags = seldom(20) ? odd_number() : below(2);

	compare("join", tags_join(&handles[pool].pool, &handles[hand].hand, flags),
		model_join(&models[pool], &models[hand], flags));
}

static void try_leave(void)
{
	uint32_t at = any_handle();

	if (seldom(12))
		leave(at);
}

static void close_one(uint32_t at)
{
	struct tags_sums found = { 0 };
	struct tags_sums wanted = { 0 };

	if (models[at].pool && !is_hand(&models[at]))
		compare_events(at);
	compare("close", tags_close(&handles[at].pool, &found), model_close(&models[at], &wanted));
	compare_filled("close", &found, &wanted, sizeof(found));
}

static void try_close(void)
{
	if (seldom(3))
		close_one(seldom(4) ? any_handle() : pool_handle());
}

/*
 * Gets and clears
 */

static void try_get(void)
{
	uint32_t at = hand_handle();

	compare("get", tags_get(&handles[at].hand),
		model_get_and_tell(&models[at], TAGS_ORDINARY));
}

static void try_get_reserved(void)
{
	uint32_t at = hand_handle();

	compare("get_reserved", tags_get_reserved(&handles[at].hand),
		model_get_and_tell(&models[at], TAGS_RESERVED));
}

static void try_get_shallow(void)
{
	uint32_t at = hand_handle();
	uint32_t depth = seldom(20) ? odd_number() : below(total_behind(at) + 2);

	compare("get_shallow", tags_get_shallow(&handles[at].hand, depth),
		model_swept(&models[at], model_get_shallow(&models[at], depth)));
}

static void try_get_exactly(void)
{
	uint32_t at = hand_handle();
	uint32_t tag = seldom(2) ? any_tag(at) : below(total_behind(at) + 2);

	compare("get_exactly", tags_get_exactly(&handles[at].hand, tag),
		model_swept_for(&models[at], model_get_exactly(&models[at], tag), tag));
}

static void try_get_batch(void)
{
	uint32_t at = hand_handle();
	uint32_t n = seldom(20) ? odd_number() : below(20);
	uint64_t found = 5;
	uint64_t wanted = 5;
	int32_t first = model_get_batch(&models[at], n, &wanted);

	compare("get_batch", tags_get_batch(&handles[at].hand, n, &found),
		model_swept(&models[at], first));
	compare_filled("get_batch", &found, &wanted, sizeof(found));
}

static void try_get_many(void)
{
	static uint32_t found[TAGS_MAX_TOTAL];
	static uint32_t wanted[TAGS_MAX_TOTAL];
	uint32_t at = hand_handle();
	/* more than all ordinary tags are refused before anything is filled in */
	size_t n = seldom(20) ? odd_number() : below(12);
	int32_t status = model_get_many_and_tell(&models[at], wanted, n);

	compare("get_many", tags_get_many(&handles[at].hand, found, n), status);
	if (status == TAGS_OK)
		compare_filled("get_many", found, wanted, n * sizeof(*found));
}

static void try_clear(void)
{
	uint32_t at = hand_handle();
	uint32_t tag = any_tag(at);

	compare("clear", tags_clear(&handles[at].hand, tag),
		model_cleared(&models[at], model_clear(&models[at], tag), tag));
}

static void try_flush(void)
{
	uint32_t at = hand_handle();

	if (seldom(3))
		compare("flush", tags_flush(&handles[at].hand), model_flush_and_tell(&models[at]));
}

static void try_read_clear(void)
{
	uint32_t at = hand_handle();
	uint32_t tag = any_tag(at);
	uint64_t found = 5;
	uint64_t wanted = 5;

	compare("read_clear", tags_read_clear(&handles[at].hand, tag, &found),
		model_cleared(&models[at], model_read_clear(&models[at], tag, &wanted), tag));
	compare_filled("read_clear", &found, &wanted, sizeof(found));
}

static void try_get_write(void)
{
	uint32_t at = hand_handle();
	uint64_t value = (uint64_t)draw() << 32 | draw();

	compare("get_write", tags_get_write(&handles[at].hand, value),
		model_get_write(&models[at], value));
}

/* Lists some of the tags that the hand holds. */
static size_t list_held(uint32_t at, uint32_t *tags, size_t most)
{
	uint32_t total = total_behind(at);
	size_t n = 0;

	for (uint32_t tag = total ? below(total) : 0; tag < total && n < most; tag++)
		if (model_holds(&models[at], tag) == 1 && !seldom(6))
			tags[n++] = tag;
	return n;
}

static void try_clear_batch(void)
{
	uint32_t tags[TAGS_MAX_BATCH] = { 0 };
	uint32_t at = hand_handle();
	size_t n = list_held(at, tags, below(TAGS_MAX_BATCH + 1));

	if (n > 0 && seldom(8))
		tags[below((uint32_t)n)] = any_tag(at);
	if (n > 1 && seldom(8))
		tags[n - 1] = tags[0];
	/* a longer list is refused before it is read */
	if (seldom(20))
		n = seldom(2) ? TAGS_MAX_BATCH + 1 : SIZE_MAX / 8;
	compare("clear_batch", tags_clear_batch(&handles[at].hand, tags, n),
		model_gave(&models[at], model_clear_batch(&models[at], tags, n)));
}

/* A mask of some of the tags that the hand holds, and now and then of one that it may not hold. */
static uint64_t mask_held(uint32_t at, uint32_t first)
{
	uint64_t mask = 0;

	for (uint32_t bit = 0; bit < 64; bit++)
		if (model_holds(&models[at], first + bit) == 1 && !seldom(6))
			mask |= UINT64_C(1) << bit;
	if (seldom(8))
		mask |= UINT64_C(1) << below(64);
	return mask;
}

static void try_clear_mask(void)
{
	uint32_t at = hand_handle();
	uint32_t first = any_tag(at);
	uint64_t mask = mask_held(at, first);

	compare("clear_mask", tags_clear_mask(&handles[at].hand, first, mask),
		model_gave(&models[at], model_clear_mask(&models[at], first, mask)));
}

/*
 * Slots
 */

static void try_read(void)
{
	uint32_t at = hand_handle();
	uint32_t tag = any_tag(at);
	uint64_t found = 5;
	uint64_t wanted = 5;

	compare("read", tags_read(&handles[at].hand, tag, &found),
		model_read(&models[at], tag, &wanted));
	compare_filled("read", &found, &wanted, sizeof(found));
}

static void try_write(void)
{
	uint32_t at = hand_handle();
	uint32_t tag = any_tag(at);
	uint64_t value = (uint64_t)draw() << 32 | draw();
	uint64_t found = 5;
	uint64_t wanted = 5;

	compare("write", tags_write(&handles[at].hand, tag, value, &found),
		model_write(&models[at], tag, value, &wanted));
	compare_filled("write", &found, &wanted, sizeof(found));
}

static void try_note(void)
{
	uint32_t at = hand_handle();
	uint32_t tag = any_tag(at);
	uint64_t value = (uint64_t)draw() << 32 | draw();

	compare("note", tags_note(&handles[at].hand, tag, value), model_note(&models[at], tag, value));
}

static void try_post(void)
{
	uint32_t at = hand_handle();
	uint32_t tag = any_tag(at);

	compare("post", tags_post(&handles[at].hand, tag),
		model_gave(&models[at], model_post(&models[at], tag)));
}

static void try_take(void)
{
	uint32_t at = hand_handle();
	uint32_t tag = below(total_behind(at) + 2);

	if (seldom(50))
		tag = odd_number();
	compare("take", tags_take(&handles[at].hand, tag), model_take(&models[at], tag));
}

static void try_post_mask(void)
{
	uint32_t at = hand_handle();
	uint32_t first = any_tag(at);
	uint64_t mask = mask_held(at, first);

	compare("post_mask", tags_post_mask(&handles[at].hand, first, mask),
		model_gave(&models[at], model_post_mask(&models[at], first, mask)));
}

/* A mask of some of the posted tags, and now and then of one that may not be posted. */
static uint64_t mask_posted(uint32_t at, uint32_t first)
{
	uint64_t mask = 0;

	for (uint32_t bit = 0; is_hand(&models[at]) && bit < 64; bit++)
		if (first < total_behind(at) && first + bit < total_behind(at) &&
		    is_posted(&models[at], first + bit) && !seldom(6))
			mask |= UINT64_C(1) << bit;
	if (seldom(4))
		mask |= UINT64_C(1) << below(64);
	return mask;
}

static void try_take_mask(void)
{
	uint32_t at = hand_handle();
	uint32_t first = seldom(50) ? odd_number() : below(total_behind(at) + 2);
	uint64_t mask = mask_posted(at, first);

	compare("take_mask", tags_take_mask(&handles[at].hand, first, mask),
		model_take_mask(&models[at], first, mask));
}

static void try_holds(void)
{
	uint32_t at = hand_handle();
	uint32_t tag = any_tag(at);

	compare("holds", tags_holds(&handles[at].hand, tag), model_holds(&models[at], tag));
}

/*
 * Waits and reports
 */

/* Which set a wait is for. */
static enum tags_kind any_kind(void)
{
	return seldom(3) ? TAGS_RESERVED : TAGS_ORDINARY;
}

static void try_get_timed(void)
{
	static const int clocks[] = { CLOCK_MONOTONIC, CLOCK_REALTIME };
	uint32_t at = hand_handle();
	struct timespec end = { 0, (long)below(1000000000) };
	int clock = clocks[below(2)];
	const enum tags_kind kind = any_kind();
	bool is_sound = true;
	int32_t tag;

	if (seldom(12)) {
		is_sound = false;
		if (seldom(2))
			clock = CLOCK_PROCESS_CPUTIME_ID;
		else
			end.tv_nsec = seldom(2) ? -1 : 1000000000;
	}
	tag = kind == TAGS_RESERVED ? tags_get_reserved_timed(&handles[at].hand, clock, &end) :
				      tags_get_timed(&handles[at].hand, clock, &end);
	compare("get_timed", tag,
		is_sound ? model_wait(&models[at], kind, true) : (int32_t)TAGS_BAD_TIME);
}

/* Whether a thread that waits for a tag of a set might sleep, here for ever. */
static bool might_sleep(uint32_t at, enum tags_kind kind)
{
	const struct set *set;

	if (!is_hand(&models[at]) || member_of(&models[at])->bell != IDLE ||
	    models[at].pool->is_stopped)
		return false;
	set = &models[at].pool->set[kind];
	for (uint32_t tag = 0; tag < set->depth; tag++)
		if (set->place[tag] == FREE || set->place[tag] == ASIDE)
			return false;
	return set->depth > 0;
}

static void try_get_blocking(void)
{
	uint32_t at = hand_handle();
	const enum tags_kind kind = any_kind();

	if (might_sleep(at, kind))
		return;
	if (kind == TAGS_RESERVED)
		compare("get_reserved_blocking", tags_get_reserved_blocking(&handles[at].hand),
			model_wait(&models[at], kind, false));
	else
		compare("get_blocking", tags_get_blocking(&handles[at].hand),
			model_wait(&models[at], kind, false));
}

static void try_get_async(void)
{
	uint32_t at = hand_handle();
	int32_t event = seldom(20) ? -1 - (int32_t)below(3) : (int32_t)below(EVENTS);
	const int descriptor = event < 0 ? event : events[pool_of(at)][event];
	const enum tags_kind kind = any_kind();

	if (kind == TAGS_RESERVED)
		compare("get_reserved_async", tags_get_reserved_async(&handles[at].hand, descriptor),
			model_get_async(&models[at], kind, event));
	else
		compare("get_async", tags_get_async(&handles[at].hand, descriptor),
			model_get_async(&models[at], kind, event));
}

static void try_get_notified(void)
{
	uint32_t at = hand_handle();
	uint32_t i = below(ARGUMENTS);
	uint64_t *argument = &told[pool_of(at)][i];
	const int32_t event = EVENTS + (int32_t)i;
	const enum tags_kind kind = any_kind();

	if (kind == TAGS_RESERVED)
		compare("get_reserved_notified",
			tags_get_reserved_notified(&handles[at].hand, note_call, argument),
			model_get_async(&models[at], kind, event));
	else
		compare("get_notified", tags_get_notified(&handles[at].hand, note_call, argument),
			model_get_async(&models[at], kind, event));
}

static void try_cancel(void)
{
	uint32_t at = hand_handle();

	compare("cancel", tags_cancel(&handles[at].hand), model_cancel(&models[at]));
}

static void try_stop(void)
{
	uint32_t at = seldom(4) ? any_handle() : pool_handle();

	if (seldom(400))
		compare("stop", tags_stop(&handles[at].pool), model_stop(&models[at]));
}

static void try_events(void)
{
	uint32_t at = pool_handle();

	if (models[at].pool && !is_hand(&models[at]))
		compare_events(at);
}

static void try_busy(void)
{
	uint64_t found[WORDS];
	uint64_t wanted[WORDS];
	uint32_t at = hand_handle();
	size_t words = below((total_behind(at) + 63) / 64 + 3);

	memset(found, 0x5a, sizeof(found));
	memset(wanted, 0x5a, sizeof(wanted));
	compare("busy", tags_busy(&handles[at].hand, found, words),
		model_busy(&models[at], wanted, words));
	compare_filled("busy", found, wanted, sizeof(found));
}

static void try_show(void)
{
	uint32_t at = hand_handle();
	uint32_t kind = seldom(10) ? odd_number() : below(2);
	struct tags_sizes found = { .depth = 5 };
	struct tags_sizes wanted = { .depth = 5 };

	compare("show", tags_show(&handles[at].hand, kind, &found),
		model_show(&models[at], kind, &wanted));
	compare_filled("show", &found, &wanted, sizeof(found));
}

static void try_waiting(void)
{
	uint32_t at = hand_handle();

	compare("waiting", tags_waiting(&handles[at].hand), model_waiting(&models[at]));
}

/* What the function of a call is passed, and after how many tags it stops. */
struct passed {
	uint64_t bits[WORDS];
	int32_t left;
};

static int note_tag(uint32_t tag, void *passed)
{
	struct passed *into = passed;

	into->bits[tag / 64] |= UINT64_C(1) << tag % 64;
	return --into->left == 0;
}

/* The lowest bits of those, this many. */
static void keep_lowest(uint64_t *bits, int32_t most)
{
	for (uint32_t i = 0; i < WORDS * 64; i++)
		if (bits[i / 64] >> i % 64 & 1 && most-- <= 0)
			bits[i / 64] &= ~(UINT64_C(1) << i % 64);
}

static void try_each_busy(uint32_t at)
{
	const int32_t most = seldom(2) ? 1 + (int32_t)below(8) : INT32_MAX;
	struct passed passed = { .left = most };
	uint64_t wanted[WORDS] = { 0 };
	int32_t busy = model_pool_busy(&models[at], wanted, WORDS);

	keep_lowest(wanted, most);
	compare("pool_each_busy", tags_pool_each_busy(&handles[at].pool, note_tag, &passed),
		busy < most ? busy : most);
	compare_filled("pool_each_busy", passed.bits, wanted, sizeof(wanted));
}

/* The notes that are passed. */
struct noted {
	struct passed passed;
	uint64_t has_note[WORDS];
	uint64_t note[TAGS_MAX_TOTAL];
};

static uint64_t now(void)
{
	struct timespec time;

	clock_gettime(CLOCK_MONOTONIC, &time);
	return (uint64_t)time.tv_sec * 1000000000 + (uint64_t)time.tv_nsec;
}

static int take_note(uint32_t tag, const struct tags_noted *note, void *noted)
{
	struct noted *into = noted;

	if (note && note->since > now())
		fail("pool_each_noted", "the time is", (int64_t)note->since, (int64_t)now());
	if (note) {
		into->has_note[tag / 64] |= UINT64_C(1) << tag % 64;
		into->note[tag] = note->value;
	}
	return note_tag(tag, &into->passed);
}

/* What the model has of each tag that is passed. */
static void take_notes_of(const struct model *pool, struct noted *noted)
{
	for (uint32_t tag = 0; tag < TAGS_MAX_TOTAL; tag++) {
		const struct set *set;

		if (!(noted->passed.bits[tag / 64] >> tag % 64 & 1))
			continue;
		set = set_of(pool, tag);
		if (set->has_note[tag - set->first]) {
			noted->has_note[tag / 64] |= UINT64_C(1) << tag % 64;
			noted->note[tag] = set->note[tag - set->first];
		}
	}
}

static void try_each_noted(uint32_t at)
{
	static struct noted found, wanted;
	const int32_t most = seldom(2) ? 1 + (int32_t)below(8) : INT32_MAX;
	int32_t busy;

	memset(&found, 0, sizeof(found));
	memset(&wanted, 0, sizeof(wanted));
	found.passed.left = most;
	busy = model_pool_busy(&models[at], wanted.passed.bits, WORDS);
	if (busy >= 0 && !models[at].pool->has_notes)
		busy = TAGS_NO_NOTES;
	if (busy < 0)
		memset(&wanted, 0, sizeof(wanted));
	keep_lowest(wanted.passed.bits, most);
	if (busy >= 0)
		take_notes_of(&models[at], &wanted);
	compare("pool_each_noted", tags_pool_each_noted(&handles[at].pool, take_note, &found),
		busy < most ? busy : most);
	compare_filled("pool_each_noted", found.passed.bits, wanted.passed.bits, sizeof(found.passed.bits));
	compare_filled("pool_each_noted", found.has_note, wanted.has_note, sizeof(found.has_note));
	compare_filled("pool_each_noted", found.note, wanted.note, sizeof(found.note));
}

static void try_pool_busy(void)
{
	uint64_t found[WORDS];
	uint64_t wanted[WORDS];
	uint32_t at = seldom(10) ? any_handle() : pool_handle();
	size_t words = below((total_behind(at) + 63) / 64 + 3);

	memset(found, 0x5a, sizeof(found));
	memset(wanted, 0x5a, sizeof(wanted));
	compare("pool_busy", tags_pool_busy(&handles[at].pool, found, words),
		model_pool_busy(&models[at], wanted, words));
	compare_filled("pool_busy", found, wanted, sizeof(found));
	try_each_busy(at);
	try_each_noted(at);
}

static void try_pool_show(void)
{
	uint32_t at = seldom(10) ? any_handle() : pool_handle();
	uint32_t kind = seldom(10) ? odd_number() : below(2);
	struct tags_sizes found = { .depth = 5 };
	struct tags_sizes wanted = { .depth = 5 };

	compare("pool_show", tags_pool_show(&handles[at].pool, kind, &found),
		model_pool_show(&models[at], kind, &wanted));
	compare_filled("pool_show", &found, &wanted, sizeof(found));
}

static void try_pool_waiting(void)
{
	uint32_t at = seldom(10) ? any_handle() : pool_handle();

	compare("pool_waiting", tags_pool_waiting(&handles[at].pool),
		model_pool_waiting(&models[at]));
}

/*
 * Resizes
 */

/* The hand ends its wait, and gives back what it holds and what is posted. */
static void empty_hand(uint32_t at)
{
	uint32_t total = total_behind(at);

	compare("cancel", tags_cancel(&handles[at].hand), model_cancel(&models[at]));
	for (uint32_t tag = 0; tag < total; tag++) {
		if (is_posted(&models[at], tag))
			compare("take", tags_take(&handles[at].hand, tag),
				model_take(&models[at], tag));
		if (model_holds(&models[at], tag) == 1)
			compare("clear", tags_clear(&handles[at].hand, tag),
				model_cleared(&models[at], model_clear(&models[at], tag), tag));
	}
}

/* All hands for which there are handles are emptied, and leave. */
static void gather_hands(uint32_t pool)
{
	for (uint32_t at = 0; at < HANDLES; at++)
		if (!models[at].pool)
			compare("join", tags_join(&handles[pool].pool, &handles[at].hand, TAGS_STAY),
				model_join(&models[pool], &models[at], TAGS_STAY));
	for (uint32_t at = 0; at < HANDLES; at++)
		if (models[at].pool == models[pool].pool && is_hand(&models[at])) {
			if (!seldom(30))
				empty_hand(at);
			if (!seldom(30))
				leave(at);
		}
}

static void try_resize(void)
{
	uint32_t at = seldom(20) ? any_handle() : pool_handle();
	uint32_t total = seldom(20) ? odd_number() : any_total();

	if (!seldom(40))
		return;
	if (models[at].pool && !is_hand(&models[at]) && !seldom(4))
		gather_hands(at);
	compare("resize", tags_resize(&handles[at].pool, total), model_resize(&models[at], total));
}

/* Each call, and its weight among the calls. */
static const struct {
	void (*make)(void);
	uint32_t turns;
} tries[] = {
	{ try_open, 2 }, { try_join, 2 }, { try_leave, 1 },
	{ try_close, 1 }, { try_get, 4 }, { try_get_reserved, 1 },
	{ try_get_shallow, 1 }, { try_get_batch, 1 }, { try_clear, 5 },
	{ try_get_exactly, 1 }, { try_get_many, 1 },
	{ try_clear_batch, 1 }, { try_read, 1 }, { try_write, 1 },
	{ try_post, 1 }, { try_take, 3 }, { try_holds, 1 },
	{ try_get_notified, 3 }, { try_busy, 1 }, { try_show, 1 },
	{ try_waiting, 1 }, { try_resize, 1 }, { try_read_clear, 1 },
	{ try_get_write, 1 }, { try_stop, 1 }, { try_get_timed, 2 },
	{ try_get_blocking, 2 }, { try_get_async, 6 }, { try_cancel, 1 },
	{ try_events, 1 }, { try_clear_mask, 1 }, { try_flush, 1 },
	{ try_pool_busy, 1 }, { try_pool_show, 1 }, { try_pool_waiting, 1 },
	{ try_post_mask, 1 }, { try_take_mask, 1 }, { try_note, 3 },
};

static void try_any(void)
{
	uint32_t turn = below(60);
	size_t at = 0;

	while (turn >= tries[at].turns)
		turn -= tries[at++].turns;
	tries[at].make();
}

/* Lets all hands leave, closes each pool and compares its sums with those of the model. */
static void close_all(void)
{
	for (uint32_t at = 0; at < HANDLES; at++)
		leave(at);
	for (uint32_t at = 0; at < HANDLES; at++)
		close_one(at);
}

int main(int argc, char **argv)
{
	uint64_t most = argc > 1 ? strtoull(argv[1], NULL, 10) : 3000000;

	if (argc > 2)
		state = strtoull(argv[2], NULL, 10);
	for (uint32_t i = 0; i < HANDLES * EVENTS; i++)
		events[i / EVENTS][i % EVENTS] = eventfd(0, EFD_NONBLOCK);
	while (calls < most)
		try_any();
	close_all();
	for (uint32_t i = 0; i < HANDLES * EVENTS; i++)
		close(events[i / EVENTS][i % EVENTS]);
	printf("%" PRIu64 " calls as the model says\n", calls);
	fprintf(stderr, "%" PRIu64 " of them refused\n", refused);
	return 0;
}
