/*
 * A model of the proved library: the calls that c/tags.h declares, with the library's atomic steps
 * where another thread can see them. docs/DESIGN.md and the crates tag_core, tag_search, tag_bell,
 * wake_book and tag_cache say what they are.
 *
 *  a get    passes over its first word, which is any, as with any hint, and as long as it finds
 *           nothing sweeps that word and passes again, up to four times; then it visits the other
 *           words once each. A pass is a load, and a claim for each clear bit until one is won. A
 *           sweep is a load of the cleared set, a swap of it, and a subtraction from the word; that
 *           of a plain get in its first word keeps the least tag and subtracts the others, if any
 *  a clear  sets the tag aside in one step; with a cache it keeps the tag, which is none. Then it looks at all who wait for a
 *           tag of its set, and if anybody does, tells; so does each call that gives tags back, and a get that left tags free
 *  a round  of a new wait takes a turn, joins all who wait and lists the hand in its berth, by a step
 *           each; another one looks at the hand's berth and lists it there again with its turn. Then
 *           it gets. If it wins a tag or the wait is over, the hand gets up from its berth and then
 *           leaves all who wait, and sees to all tags: if it finds that somebody waits, it looks at
 *           each word and at its cleared set until a tag is free, and then tells
 *  telling  a look at all who wait, and if anybody does, one at the berth of each. Then those found
 *           listed are told by a step each, first the sleepers and then the listeners, in the order
 *           of their turns, until as many of each kind are told as tags became free, one at least;
 *           but no more sleepers than make, with those found told, as many as the set has tags. One
 *           whose berth has changed meanwhile is passed over. With a cache all kept tags go back
 *           after a first look at all who wait, before the second one
 *
 *  a post   is one step, after which the hand has the tag no more; with a cache it then looks and tells as a clear does. So
 *           is a take, which finds the hand that posted the tag, or none
 *
 * The two sets of tags are made alike, each with words, berths and turns of its own. What is kept is
 * ordinary.
 *
 * Slots are what their holder alone sees. Left out: round robin, the wait groups that no call of C enters, the limits of a hand's
 * life. Reports through a hand. Joins, reports, resizes and closes are not atomic: each checks that it has the pool's
 * handle for itself, as the library needs.
 */
#include "bell.h"

#include "programs.h"
#include "scenario.h"

#include <string.h>

enum { WORDS = 4, HANDS = 2 * MAX_THREADS - 1, SLOTS = 4 };

/* A hand's berth: where it stands in bits 0 and 1, as which waiter in bit 2, and with which turn above. */
enum standing { UP, LISTED, TOLD };
enum waiter { SLEEPER = 0, LISTENER = 4 };

struct member {
	struct map *map;
	/* by tag; kept ones are not held, nor are posted ones */
	uint64_t held;
	uint64_t kept;
	uint64_t posted;
	/* of the held ones those that it got, and did not take */
	uint64_t lent;
	/* what its latest sweep freed */
	uint64_t swept;
	uint32_t number;
	bool is_out;
	/* from its first round to its last one */
	bool is_waiting;
	enum tags_kind waits_for;
	bool is_spent;
	/* a get, a clear or a round goes on: two at once are a fault */
	bool is_in_call;
};

struct set {
	uint64_t word[WORDS];
	uint64_t aside[WORDS];
	/* its first tag, and how many it has */
	uint32_t first, depth;
	uint32_t words, width;
	/* all who wait, how many turns were taken, and the berth of each hand */
	uint64_t waiters;
	uint64_t clock;
	uint64_t berth[HANDS];
};

struct map {
	struct set set[SETS];
	bool is_one_per_word;
	uint32_t cache;
	bool keeps_while_holding;
	/* the handle is in use */
	bool is_in_call;
	uint32_t hands;
	uint64_t got, back;
	uint64_t slot[SLOTS];
	struct member member[HANDS];
};

static void stop(const volatile void *address, const char *what)
{
	pause_before(OP_LIBRARY, address, sizeof(uint64_t), 1, PC);
	tell_step("map: %s", what);
}

static struct map *map_of(const struct tags_pool *pool)
{
	return pool->object;
}

static struct member *member_of(const struct tags_hand *hand)
{
	return hand->object;
}

static uint32_t count(uint64_t tags)
{
	return (uint32_t)__builtin_popcountll(tags);
}

/* The first step that uses the handle, and the end of its use. Two at once are a fault. */
static void use_handle(struct map *map, const char *what)
{
	stop(map, what);
	if (map->is_in_call)
		fault("two calls use the pool's handle at once");
	map->is_in_call = true;
	stop(map, what);
	map->is_in_call = false;
}

static uint32_t total_of(const struct map *map)
{
	return map->set[TAGS_ORDINARY].first + map->set[TAGS_ORDINARY].depth;
}

static struct set *set_of(struct map *map, uint32_t tag)
{
	return &map->set[tag < map->set[TAGS_ORDINARY].first ? TAGS_RESERVED : TAGS_ORDINARY];
}

/* Places of a word as a mask of all tags; and the other way round. */
static uint64_t tags_of(const struct set *set, uint32_t word, uint64_t bits)
{
	return bits << (set->first + word * set->width);
}

static uint64_t bits_in(const struct set *set, uint32_t word, uint64_t tags)
{
	return tags >> (set->first + word * set->width);
}

static int32_t tag_at(const struct set *set, uint32_t word, int place)
{
	return (int32_t)(set->first + word * set->width) + place;
}

static uint64_t bits_of(const struct set *set, uint32_t word)
{
	uint32_t first = word * set->width;
	uint32_t n = set->depth - first < set->width ? set->depth - first : set->width;

	return n == 64 ? ~UINT64_C(0) : (UINT64_C(1) << n) - 1;
}

/*
 * Pools and hands
 */

/* All tags are free. */
static void make_set(struct map *map, enum tags_kind kind, uint32_t first, uint32_t depth)
{
	struct set *set = &map->set[kind];

	set->first = first;
	set->depth = depth;
	set->width = map->is_one_per_word ? 1 : depth;
	set->words = map->is_one_per_word ? depth : depth > 0;
	memset(set->word, 0, sizeof(set->word));
	memset(set->aside, 0, sizeof(set->aside));
}

int32_t tags_library_open_cached(struct tags_pool *pool, const struct tags_options *options,
				 uint32_t cache, uint32_t keeping)
{
	struct map *map = take_memory(sizeof(*map));

	map->is_one_per_word = options->shift == 0;
	make_set(map, TAGS_RESERVED, 0, options->reserved);
	make_set(map, TAGS_ORDINARY, options->reserved, options->total - options->reserved);
	map->cache = cache;
	map->keeps_while_holding = keeping != 0;
	map->hands = options->hands;
	for (uint32_t i = 0; i < map->hands; i++)
		map->member[i] = (struct member){ .map = map, .number = i };
	pool->full = 1;
	pool->object = map;
	return TAGS_OK;
}

static bool is_any_out(const struct map *map)
{
	for (uint32_t i = 0; i < map->hands; i++)
		if (map->member[i].is_out)
			return true;
	return false;
}

int32_t tags_library_resize(struct tags_pool *pool, uint32_t total)
{
	struct map *map = map_of(pool);

	use_handle(map, "resize");
	if (is_any_out(map))
		return TAGS_HANDS_OUT;
	make_set(map, TAGS_ORDINARY, map->set[TAGS_ORDINARY].first, total - map->set[TAGS_ORDINARY].first);
	return TAGS_OK;
}

int32_t tags_library_join(struct tags_pool *pool, struct tags_hand *hand, uint32_t flags)
{
	struct map *map = map_of(pool);

	(void)flags;
	if (!map)
		return TAGS_BAD_HANDLE;
	use_handle(map, "join");
	for (uint32_t i = 0; i < map->hands; i++) {
		if (map->member[i].is_out)
			continue;
		map->member[i].is_out = true;
		hand->full = 1;
		hand->object = &map->member[i];
		return TAGS_OK;
	}
	return TAGS_NO_HAND;
}

/* The last step of a leave is the one by which a close finds the hand. */
int32_t tags_library_leave(struct tags_hand *hand)
{
	struct member *member = member_of(hand);

	stop(member, "leave");
	if (member->kept)
		fault("a hand leaves that keeps tags");
	if (member->is_waiting)
		fault("a hand leaves that waits");
	memset(hand, 0, sizeof(*hand));
	member->is_out = false;
	return TAGS_OK;
}

int32_t tags_library_close(struct tags_pool *pool, struct tags_sums *sums)
{
	struct map *map = map_of(pool);

	use_handle(map, "close");
	memset(sums, 0, sizeof(*sums));
	if (is_any_out(map))
		return TAGS_HANDS_OUT;
	for (uint32_t i = 0; i < map->hands; i++) {
		sums->held += count(map->member[i].held);
		sums->posted += count(map->member[i].posted);
	}
	sums->got = map->got;
	sums->back = map->back;
	pool->full = 0;
	pool->object = NULL;
	give_memory(map);
	return TAGS_OK;
}

/*
 * Those who wait: the steps of tag_core
 */

static uint64_t berth_of(enum standing standing, enum waiter waiter, uint64_t turn)
{
	return turn * 8 + waiter + standing;
}

static bool is_as(uint64_t berth, enum standing standing, enum waiter waiter)
{
	return berth % 8 == berth_of(standing, waiter, 0);
}

/* The hands whose berths are so. */
static uint64_t find(const struct set *set, enum standing standing, enum waiter waiter)
{
	uint64_t found = 0;

	for (uint32_t i = 0; i < HANDS; i++)
		found |= (uint64_t)is_as(set->berth[i], standing, waiter) << i;
	return found;
}

uint64_t map_listed(const void *object, uint32_t kind, bool listens)
{
	return find(&((const struct map *)object)->set[kind], LISTED, listens ? LISTENER : SLEEPER);
}

uint64_t map_coming(const void *object, uint32_t kind)
{
	return find(&((const struct map *)object)->set[kind], TOLD, SLEEPER);
}

const void *map_waiters(const void *object)
{
	return &((const struct map *)object)->set[TAGS_ORDINARY].waiters;
}

uint64_t map_turn(const void *object, uint32_t kind, uint32_t number)
{
	const uint64_t berth = ((const struct map *)object)->set[kind].berth[number];

	return berth == UP ? 0 : berth / 8 + 1;
}

static uint64_t bit_of(const struct member *member)
{
	return UINT64_C(1) << member->number;
}

static void join_waiters(const struct member *member, struct set *set)
{
	stop(&set->waiters, "joins all who wait");
	set->waiters |= bit_of(member);
}

static void leave_waiters(const struct member *member, struct set *set)
{
	stop(&set->waiters, "leaves all who wait");
	set->waiters &= ~bit_of(member);
}

static uint64_t look_at_waiters(const struct set *set)
{
	stop(&set->waiters, "looks at all who wait");
	before_load(&set->waiters);
	tell_step("map:   they are %lx", (unsigned long)set->waiters);
	return set->waiters;
}

static uint64_t take_turn(struct set *set)
{
	stop(&set->clock, "takes a turn");
	return set->clock++;
}

static void enlist(const struct member *member, struct set *set, enum waiter waiter, uint64_t turn)
{
	uint64_t *berth = &set->berth[member->number];

	stop(berth, waiter == SLEEPER ? "lists itself as a sleeper" : "lists itself as a listener");
	*berth = berth_of(LISTED, waiter, turn);
}

static uint64_t look_at_berth(const struct set *set, uint32_t number)
{
	stop(&set->berth[number], "looks at a berth");
	tell_step("map:   that of hand %u is %lx", number, (unsigned long)set->berth[number]);
	return set->berth[number];
}

/* Tells a hand that is listed as this waiter with this turn. Returns whether it was. */
static bool tell(struct set *set, uint32_t number, enum waiter waiter, uint64_t turn)
{
	uint64_t *berth = &set->berth[number];
	bool is_listed;

	stop(berth, "tells");
	is_listed = *berth == berth_of(LISTED, waiter, turn);
	if (is_listed)
		*berth = berth_of(TOLD, waiter, turn);
	tell_step("map:   hand %u %s", number, is_listed ? "is told" : "is not listed so any more");
	return is_listed;
}

static void get_up(const struct member *member, struct set *set)
{
	stop(&set->berth[member->number], "gets up");
	set->berth[member->number] = UP;
}

/* One that waits keeps its turn. */
static void list_self(const struct member *member, struct set *set, enum waiter waiter, bool again)
{
	const uint64_t berth = again ? look_at_berth(set, member->number) : UP;
	uint64_t turn = berth / 8;

	if (berth == UP) {
		turn = take_turn(set);
		join_waiters(member, set);
	}
	enlist(member, set, waiter, turn);
}

/* As which waiter it is listed makes no difference. */
int32_t tags_library_is_told(struct tags_hand *hand, uint32_t listens)
{
	const struct member *member = member_of(hand);

	(void)listens;
	return look_at_berth(&member->map->set[TAGS_ORDINARY], member->number) % 4 != LISTED;
}

int32_t tags_library_number(struct tags_hand *hand)
{
	return (int32_t)member_of(hand)->number;
}

/*
 * What a hand keeps
 */

uint64_t map_keeps(const void *object)
{
	return object ? ((const struct member *)object)->kept : 0;
}

/* Gives ordinary tags back by one step for each word. */
static void give(struct member *member, uint64_t tags)
{
	struct set *set = &member->map->set[TAGS_ORDINARY];

	for (uint32_t word = 0; word < set->words; word++) {
		uint64_t bits = bits_in(set, word, tags) & bits_of(set, word);

		if (!bits)
			continue;
		stop(&set->word[word], "gives tags back");
		set->word[word] &= ~bits;
	}
	member->map->back += count(tags);
}

static void flush(struct member *member)
{
	uint64_t kept = member->kept;

	member->kept = 0;
	if (kept)
		give(member, kept);
}

/*
 * Telling them: what tag_bell does by these steps
 */

/* What was found at the berths of those who wait: who is listed, with which turns, and how many sleepers were told. */
struct found {
	uint64_t sleepers, listeners;
	uint64_t turns[HANDS];
	uint32_t coming;
};

/* Adds what it finds at the berths of these to those that were found coming before. */
static struct found look_at_each(const struct set *set, uint64_t waiters, uint32_t coming)
{
	struct found found = { .coming = coming };

	for (uint32_t i = 0; i < HANDS; i++) {
		const uint64_t berth = waiters >> i & 1 ? look_at_berth(set, i) : UP;

		found.sleepers |= (uint64_t)is_as(berth, LISTED, SLEEPER) << i;
		found.listeners |= (uint64_t)is_as(berth, LISTED, LISTENER) << i;
		found.turns[i] = berth / 8;
		found.coming += is_as(berth, TOLD, SLEEPER);
	}
	return found;
}

/* The one of these that has the lowest turn. */
static uint32_t earliest(uint64_t hands, const uint64_t *turns)
{
	uint32_t first = (uint32_t)__builtin_ctzll(hands);

	for (uint32_t i = 0; i < HANDS; i++)
		if (hands >> i & 1 && turns[i] < turns[first])
			first = i;
	return first;
}

/* Tells so many of those that were found listed as this waiter. Returns those told. */
static uint64_t tell_in_turn(struct set *set, enum waiter waiter, uint32_t most, uint64_t listed, const uint64_t *turns)
{
	uint64_t told = 0;

	while (listed && count(told) < most) {
		const uint32_t number = earliest(listed, turns);

		listed &= ~(UINT64_C(1) << number);
		if (tell(set, number, waiter, turns[number]))
			told |= UINT64_C(1) << number;
	}
	return told;
}

static bool has_nobody_to_tell(const struct set *set, const struct found *found)
{
	return !found->listeners && (!found->sleepers || found->coming >= set->depth);
}

/* No more than come, with those that were told before, to as many tags as there are. */
static uint64_t tell_sleepers(struct set *set, uint32_t most, const struct found *found)
{
	if (found->coming >= set->depth)
		return 0;
	if (most > set->depth - found->coming)
		most = set->depth - found->coming;
	return tell_in_turn(set, SLEEPER, most, found->sleepers, found->turns);
}

static const struct tags_told NOBODY = { 0, 0 };

static struct tags_told see_to(struct set *set, uint32_t freed)
{
	const uint64_t waiters = look_at_waiters(set);
	const uint32_t most = freed > 0 ? freed : 1;
	struct tags_told told;
	struct found found;

	if (!waiters)
		return NOBODY;
	found = look_at_each(set, waiters, 0);
	if (has_nobody_to_tell(set, &found))
		return NOBODY;
	/* the library notes no turns before */
	found = look_at_each(set, found.sleepers | found.listeners, found.coming);
	told.sleepers = tell_sleepers(set, most, &found);
	told.listeners = tell_in_turn(set, LISTENER, most, found.listeners, found.turns);
	return told;
}

/* Of ordinary tags, and of those that the hand keeps: all of these go back if anybody waits for one. */
static struct tags_told see_with_kept(struct member *member, uint32_t freed)
{
	struct set *set = &member->map->set[TAGS_ORDINARY];
	const uint32_t kept = count(member->kept);

	if (!look_at_waiters(set))
		return NOBODY;
	flush(member);
	return see_to(set, freed > kept ? freed : kept);
}

/* What is kept is ordinary, and is seen to as well. */
static struct tags_told see_to_kind(struct member *member, enum tags_kind kind, uint32_t freed)
{
	struct map *map = member->map;
	struct tags_told told, more;

	if (map->cache == 0)
		return look_at_waiters(&map->set[kind]) ? see_to(&map->set[kind], freed) : NOBODY;
	if (kind == TAGS_ORDINARY)
		return see_with_kept(member, freed);
	told = see_to(&map->set[TAGS_RESERVED], freed);
	more = see_with_kept(member, 0);
	return (struct tags_told){ told.sleepers | more.sleepers, told.listeners | more.listeners };
}

int32_t tags_library_see_to(struct tags_hand *hand, uint32_t freed, struct tags_told *told)
{
	struct member *member = member_of(hand);

	*told = member->map->cache > 0 ? see_with_kept(member, freed) : see_to(&member->map->set[TAGS_ORDINARY], freed);
	return 0;
}

int32_t tags_library_see_to_reserved(struct tags_hand *hand, uint32_t freed, struct tags_told *told)
{
	*told = see_to(&member_of(hand)->map->set[TAGS_RESERVED], freed);
	return 0;
}

static bool is_any_free(const struct set *set, uint32_t word)
{
	uint64_t taken, aside;

	stop(&set->word[word], "looks for a free tag");
	taken = set->word[word];
	stop(&set->aside[word], "looks for one in the cleared set");
	aside = set->aside[word];
	return aside != 0 || (taken & bits_of(set, word)) != bits_of(set, word);
}

static struct tags_told see_to_all(struct set *set)
{
	if (look_at_waiters(set))
		for (uint32_t word = 0; word < set->words; word++)
			if (is_any_free(set, word))
				return see_to(set, 1);
	return NOBODY;
}

/*
 * What calls answer that make tags free
 */

/* Whoever looks at it though the answer has no flag wakes hands that are not there. */
static void spoil(struct tags_told *told)
{
	*told = (struct tags_told){ ~UINT64_C(0), ~UINT64_C(0) };
}

/* After a get: the flag tells that it left tags free. */
static int32_t look_after(struct member *member, enum tags_kind kind, uint64_t left, int32_t answer, struct tags_told *told)
{
	if (left == 0)
		return answer;
	*told = see_to_kind(member, kind, (uint32_t)left);
	return answer + TAGS_DETAIL_TOLD;
}

/* After a call that gave so many tags back: the flag tells that anybody was told. */
static int32_t tell_of(struct member *member, enum tags_kind kind, uint32_t freed, int32_t answer, struct tags_told *told)
{
	const struct tags_told whom = see_to_kind(member, kind, freed);

	if (!whom.sleepers && !whom.listeners)
		return answer;
	*told = whom;
	return answer + TAGS_DETAIL_TOLD;
}

/*
 * Gets
 */

/* One pass over these bits of a word: claims clear ones until one is won. Returns its place or -1. */
static int pass(struct set *set, uint32_t word, uint64_t bits)
{
	uint64_t found;

	stop(&set->word[word], "looks at a word");
	found = set->word[word];
	tell_step("map:   it is %lx", (unsigned long)found);
	for (int place = 0; bits >> place & 1; place++) {
		if (found >> place & 1)
			continue;
		stop(&set->word[word], "claims a bit");
		found = set->word[word];
		set->word[word] |= UINT64_C(1) << place;
		if (!(found >> place & 1))
			return place;
	}
	return -1;
}

/* Takes all that is set aside in a word. */
static uint64_t take_aside(struct set *set, uint32_t word)
{
	uint64_t mask;

	stop(&set->aside[word], "looks at a cleared set");
	if (!set->aside[word])
		return 0;
	stop(&set->aside[word], "sweeps: swaps a cleared set");
	mask = set->aside[word];
	set->aside[word] = 0;
	return mask;
}

/* Frees what was taken in a sweep. */
static void spill(struct member *member, struct set *set, uint32_t word, uint64_t mask, uint64_t *left)
{
	if (!mask)
		return;
	stop(&set->word[word], "sweeps: subtracts from a word");
	set->word[word] &= ~mask;
	member->swept = tags_of(set, word, mask);
	*left += count(mask);
}

static void sweep(struct member *member, struct set *set, uint32_t word, uint64_t *left)
{
	spill(member, set, word, take_aside(set, word), left);
}

/* Returns the place of the tag that it keeps, or -1. */
static int sweep_keeping(struct member *member, struct set *set, uint32_t word, uint64_t *left)
{
	uint64_t mask = take_aside(set, word);

	if (!mask)
		return -1;
	tell_step("map:   keeps the least of %lx", (unsigned long)mask);
	spill(member, set, word, mask & (mask - 1), left);
	return __builtin_ctzll(mask);
}

/* A sweep of a full word, as part of a get in one step. */
static void sweep_whole(struct member *member, struct set *set, uint32_t word, uint64_t *left)
{
	if (set->word[word] != bits_of(set, word) || !set->aside[word])
		return;
	*left += count(set->aside[word]);
	member->swept = tags_of(set, word, set->aside[word]);
	set->word[word] &= ~set->aside[word];
	set->aside[word] = 0;
}

/* A get in one step, for scenarios that are too large otherwise. */
static int32_t get_whole(struct member *member, struct set *set, uint64_t *left)
{
	stop(set->word, "gets in one step");
	for (uint32_t word = 0; word < set->words; word++) {
		sweep_whole(member, set, word, left);
		if (set->word[word] != bits_of(set, word)) {
			int place = __builtin_ctzll(~set->word[word]);

			set->word[word] |= UINT64_C(1) << place;
			return tag_at(set, word, place);
		}
	}
	return TAGS_NO_TAG;
}

/* The part of a word's bits that a get of this depth may use. */
static uint64_t share_of(const struct set *set, uint32_t word, uint32_t depth)
{
	uint32_t first = word * set->width;
	uint32_t end = first + count(bits_of(set, word));
	uint32_t limit = depth * end / set->depth - depth * first / set->depth;

	return bits_of(set, word) & ((UINT64_C(1) << limit) - 1);
}

/* Sweeps a word, and finds a tag among these bits if it keeps one or wins one afterwards. Returns its place or -1. */
static int retry(struct member *member, struct set *set, uint32_t word, uint64_t bits, bool is_keeping,
		 uint64_t *left)
{
	int kept = -1;

	if (is_keeping)
		kept = sweep_keeping(member, set, word, left);
	else
		sweep(member, set, word, left);
	return kept >= 0 ? kept : pass(set, word, bits);
}

/* Visits the words from this one on, which is the one of the hint and has more turns. */
static int32_t search(struct member *member, struct set *set, uint32_t first, uint32_t depth, bool is_plain,
		      uint64_t *left)
{
	for (uint32_t i = 0; i < set->words; i++) {
		uint32_t word = (first + i) % set->words;
		uint64_t bits = share_of(set, word, depth);
		int turns = i == 0 && scenario->turns ? scenario->turns : 1;
		int place = pass(set, word, bits);

		for (; place < 0 && turns > 0; turns--)
			place = retry(member, set, word, bits, is_plain && i == 0, left);
		if (place >= 0)
			return tag_at(set, word, place);
	}
	return TAGS_NO_TAG;
}

/* What was won of the latest sweep comes off what all sweeps freed. */
static void win(struct member *member, uint64_t tags, uint64_t *left)
{
	uint64_t own = count(member->swept & tags);

	*left = *left > own ? *left - own : 0;
	member->swept = 0;
	member->held |= tags;
	member->lent |= tags;
	member->map->got += count(tags);
	tell_step("map:   won %lx, left free %lu", (unsigned long)tags, (unsigned long)*left);
}

/* What a hand got is what decides. */
static bool is_spent(struct member *member)
{
	if (scenario->limited && member->number == 0 && !member->is_spent)
		member->is_spent = choose(2);
	return member->is_spent;
}

/* A hint may be in any word. */
static int32_t search_all(struct member *member, struct set *set, uint64_t *left)
{
	int first = set->words > 1 ? choose((int)set->words) : 0;

	return search(member, set, (uint32_t)first, set->depth, true, left);
}

static int32_t get_kept(struct member *member)
{
	int32_t tag = __builtin_ctzll(member->kept);

	member->kept &= member->kept - 1;
	member->held |= UINT64_C(1) << tag;
	member->lent |= UINT64_C(1) << tag;
	return tag;
}

static int32_t get(struct member *member, enum tags_kind kind, uint64_t *left)
{
	struct set *set = &member->map->set[kind];
	int32_t tag;

	*left = 0;
	if (member->kept && kind == TAGS_ORDINARY)
		return get_kept(member);
	tag = scenario->whole ? get_whole(member, set, left) : search_all(member, set, left);
	win(member, tag < 0 ? 0 : UINT64_C(1) << tag, left);
	return tag;
}

static struct member *begin(struct member *member)
{
	if (member->is_in_call)
		fault("hand %u is in two calls at once", member->number);
	member->is_in_call = true;
	return member;
}

static int32_t get_alone(struct tags_hand *hand, enum tags_kind kind, struct tags_told *told)
{
	struct member *member = begin(member_of(hand));
	int32_t tag = TAGS_SPENT;
	uint64_t left = 0;

	spoil(told);
	if (!is_spent(member))
		tag = get(member, kind, &left);
	tag = look_after(member, kind, left, tag, told);
	member->is_in_call = false;
	return tag;
}

int32_t tags_library_get(struct tags_hand *hand, struct tags_told *told)
{
	return get_alone(hand, TAGS_ORDINARY, told);
}

int32_t tags_library_get_reserved(struct tags_hand *hand, struct tags_told *told)
{
	if (member_of(hand)->map->set[TAGS_RESERVED].depth == 0)
		return TAGS_NO_RESERVED;
	return get_alone(hand, TAGS_RESERVED, told);
}

/* In one step. */
int32_t tags_library_get_exactly(struct tags_hand *hand, uint32_t tag, struct tags_told *told)
{
	struct member *member = member_of(hand);
	struct set *set = set_of(member->map, tag);
	uint32_t word = (tag - set->first) / set->width;
	uint64_t bit = UINT64_C(1) << ((tag - set->first) % set->width);
	uint64_t left = 0;

	spoil(told);
	stop(&set->word[word], "gets a tag that is named");
	if (set->word[word] & bit)
		return TAGS_NO_TAG;
	set->word[word] |= bit;
	win(member, UINT64_C(1) << tag, &left);
	return (int32_t)tag;
}

int32_t tags_library_get_shallow(struct tags_hand *hand, uint32_t depth, struct tags_told *told)
{
	struct member *member = member_of(hand);
	uint64_t left = 0;
	int32_t tag;

	spoil(told);
	tag = search(member, &member->map->set[TAGS_ORDINARY], 0, depth, false, &left);
	win(member, tag < 0 ? 0 : UINT64_C(1) << tag, &left);
	return look_after(member, TAGS_ORDINARY, left, tag, told);
}

/* Claims the run of places that begins at the first free one. Returns what was won of it. */
static uint64_t claim_run(struct set *set, uint32_t word, uint64_t run, int *place)
{
	uint64_t found;

	stop(&set->word[word], "looks at a word for a run");
	found = set->word[word] | ~bits_of(set, word);
	if (!~found)
		return 0;
	*place = __builtin_ctzll(~found);
	run <<= *place;
	if ((run & bits_of(set, word)) != run)
		return 0;
	stop(&set->word[word], "claims a run");
	found = set->word[word];
	set->word[word] |= run;
	return run & ~found;
}

/* Returns the first tag of what it won. */
static int32_t get_run(struct member *member, uint32_t n, uint64_t *won, uint64_t *left)
{
	struct set *set = &member->map->set[TAGS_ORDINARY];
	int place = 0;

	for (uint32_t word = 0; word < set->words; word++) {
		uint64_t tags;

		sweep(member, set, word, left);
		tags = claim_run(set, word, (UINT64_C(1) << n) - 1, &place);
		if (!tags)
			continue;
		*won = tags >> place;
		win(member, tags_of(set, word, tags), left);
		return tag_at(set, word, place);
	}
	win(member, 0, left);
	return TAGS_NO_TAG;
}

int32_t tags_library_get_batch(struct tags_hand *hand, uint32_t n, uint64_t *won, struct tags_told *told)
{
	uint64_t left = 0;
	int32_t first;

	spoil(told);
	first = get_run(member_of(hand), n, won, &left);
	return look_after(member_of(hand), TAGS_ORDINARY, left, first, told);
}

/*
 * Gives
 */

static void set_aside(struct member *member, uint32_t tag)
{
	struct set *set = set_of(member->map, tag);
	uint32_t word = (tag - set->first) / set->width;

	stop(&set->aside[word], "sets a tag aside");
	set->aside[word] |= UINT64_C(1) << ((tag - set->first) % set->width);
	member->map->back++;
}

static bool is_ordinary(const struct map *map, uint32_t tag)
{
	return tag >= map->set[TAGS_ORDINARY].first;
}

/* Whether a hand that gives these tags up has no ordinary one left, for which it would keep others. */
static bool are_last(const struct member *member, uint64_t tags)
{
	const uint64_t ordinary = ~UINT64_C(0) << member->map->set[TAGS_ORDINARY].first;

	return member->map->keeps_while_holding && !(member->lent & ordinary & ~tags);
}

/* The hand gives these tags up. All kept ones go back with the last. */
static void release(struct member *member, uint64_t tags)
{
	if (are_last(member, tags))
		flush(member);
	member->held &= ~tags;
	member->lent &= ~tags;
}

/* Keeps the tag of this bit if it may be kept. Otherwise all kept tags go back. */
static bool keep(struct member *member, uint64_t bit)
{
	const bool may_keep = !are_last(member, bit);

	if (!may_keep || count(member->kept) == member->map->cache)
		flush(member);
	if (may_keep)
		member->kept |= bit;
	return may_keep;
}

static enum tags_kind kind_of(const struct map *map, uint32_t tag)
{
	return is_ordinary(map, tag) ? TAGS_ORDINARY : TAGS_RESERVED;
}

int32_t tags_library_clear(struct tags_hand *hand, uint32_t tag, struct tags_told *told)
{
	struct member *member = member_of(hand);
	uint64_t bit = UINT64_C(1) << tag;
	int32_t answer;
	bool is_kept;

	spoil(told);
	if (tag >= total_of(member->map))
		return TAGS_NO_SUCH_TAG;
	if (!(member->held & bit))
		return TAGS_NOT_HELD;
	begin(member);
	is_kept = member->map->cache > 0 && is_ordinary(member->map, tag) && keep(member, bit);
	member->held &= ~bit;
	member->lent &= ~bit;
	if (!is_kept)
		set_aside(member, tag);
	answer = tell_of(member, kind_of(member->map, tag), 1, TAGS_OK, told);
	member->is_in_call = false;
	return answer;
}

/* No other thread sees this. */
int32_t tags_library_holds(struct tags_hand *hand, uint32_t tag)
{
	if (tag >= total_of(member_of(hand)->map))
		return TAGS_NO_SUCH_TAG;
	return (member_of(hand)->held >> tag & 1) != 0;
}

int32_t tags_library_clear_mask(struct tags_hand *hand, uint32_t first, uint64_t mask, struct tags_told *told)
{
	struct member *member = member_of(hand);
	uint64_t tags = mask << first;

	spoil(told);
	if (!mask)
		return TAGS_BAD_COUNT;
	if ((member->held & tags) != tags)
		return TAGS_NOT_HELD;
	release(member, tags);
	give(member, tags);
	return tell_of(member, TAGS_ORDINARY, count(tags), TAGS_OK, told);
}

int32_t tags_library_clear_batch(struct tags_hand *hand, const uint32_t *tags, size_t count_, struct tags_told *told)
{
	uint64_t mask = 0;

	for (size_t i = 0; i < count_; i++)
		mask |= UINT64_C(1) << tags[i];
	return tags_library_clear_mask(hand, 0, mask, told);
}

int32_t tags_library_post_quietly(struct tags_hand *hand, uint32_t tag)
{
	struct member *member = member_of(hand);
	uint64_t bit = UINT64_C(1) << tag;

	if (!(member->held & bit))
		return TAGS_NOT_HELD;
	if (member->lent & bit)
		release(member, bit);
	stop(member, "posts a tag");
	member->held &= ~bit;
	member->posted |= bit;
	return TAGS_OK;
}

/* A post makes no tag free, but what a hand keeps is seen to. */
int32_t tags_library_post(struct tags_hand *hand, uint32_t tag, struct tags_told *told)
{
	struct member *member = member_of(hand);
	const int32_t status = tags_library_post_quietly(hand, tag);

	spoil(told);
	if (status != TAGS_OK || member->map->cache == 0)
		return status;
	return tell_of(member, TAGS_ORDINARY, 0, status, told);
}

int32_t tags_library_take(struct tags_hand *hand, uint32_t tag)
{
	struct member *member = member_of(hand);
	struct map *map = member->map;
	uint64_t bit = UINT64_C(1) << tag;

	if (tag >= total_of(map))
		return TAGS_NO_SUCH_TAG;
	stop(map->slot, "takes a posted tag");
	for (struct member *from = map->member; from < map->member + map->hands; from++) {
		if (!(from->posted & bit))
			continue;
		from->posted &= ~bit;
		member->held |= bit;
		return TAGS_OK;
	}
	return TAGS_NOT_POSTED;
}

/* Where the tag's slot is, or NULL if the hand does not hold the tag. */
static uint64_t *slot_of(const struct tags_hand *hand, uint32_t tag)
{
	struct member *member = member_of(hand);

	if (tag >= SLOTS)
		fault("the model has no slot for tag %u", tag);
	return member->held >> tag & 1 ? &member->map->slot[tag] : NULL;
}

int32_t tags_library_write(struct tags_hand *hand, uint32_t tag, uint64_t value, uint64_t *former)
{
	uint64_t *slot = slot_of(hand, tag);

	if (!slot)
		return TAGS_NOT_HELD;
	if (former)
		*former = *slot;
	*slot = value;
	return TAGS_OK;
}

int32_t tags_library_read(struct tags_hand *hand, uint32_t tag, uint64_t *value)
{
	const uint64_t *slot = slot_of(hand, tag);

	if (!slot)
		return TAGS_NOT_HELD;
	*value = *slot;
	return TAGS_OK;
}

int32_t tags_library_flush(struct tags_hand *hand, struct tags_told *told)
{
	struct member *member = member_of(hand);
	const uint32_t kept = count(member->kept);

	spoil(told);
	if (member->map->cache == 0)
		return 0;
	flush(member);
	return tell_of(member, TAGS_ORDINARY, kept, (int32_t)kept, told);
}

/*
 * Rounds
 */

static int32_t end_wait(struct member *member, struct set *set, int32_t answer, struct tags_told *told)
{
	get_up(member, set);
	leave_waiters(member, set);
	*told = see_to_all(set);
	member->is_waiting = false;
	return answer;
}

/* The hand of a new wait has just made a get, so its life is not used up. Any hand of the model can wait at once. */
static int32_t make_round(struct tags_hand *hand, enum tags_kind kind, enum waiter waiter, int32_t why, bool again,
			  struct tags_told *told)
{
	struct member *member = member_of(hand);
	struct set *set = &member->map->set[kind];
	uint64_t left;
	int32_t tag;

	*told = NOBODY;
	if (again != member->is_waiting)
		fault(again ? "a wait goes on that did not begin" : "a wait begins anew");
	if (again && member->waits_for != kind)
		fault("a wait goes on in the other set");
	member->waits_for = kind;
	if (set->depth == 0)
		why = kind == TAGS_RESERVED ? TAGS_NO_RESERVED : TAGS_NO_SUCH_TAG;
	if (why == TAGS_OK && again && is_spent(member))
		why = TAGS_SPENT;
	if (why != TAGS_OK)
		return end_wait(member, set, why, told);
	if (member->kept && kind == TAGS_ORDINARY)
		return end_wait(member, set, get_kept(member), told);
	member->is_waiting = true;
	list_self(member, set, waiter, again);
	tag = get(member, kind, &left);
	return tag == TAGS_NO_TAG ? tag : end_wait(member, set, tag, told);
}

static int32_t make_round_alone(struct tags_hand *hand, enum tags_kind kind, enum waiter waiter, int32_t why, bool again,
				struct tags_told *told)
{
	struct member *member = begin(member_of(hand));
	const int32_t answer = make_round(hand, kind, waiter, why, again, told);

	member->is_in_call = false;
	return answer;
}

int32_t tags_library_wait_on(struct tags_hand *hand, int32_t why, uint32_t again, struct tags_told *told)
{
	return make_round_alone(hand, TAGS_ORDINARY, SLEEPER, why, again, told);
}

int32_t tags_library_listen_on(struct tags_hand *hand, int32_t why, uint32_t again, struct tags_told *told)
{
	return make_round_alone(hand, TAGS_ORDINARY, LISTENER, why, again, told);
}

int32_t tags_library_wait_on_reserved(struct tags_hand *hand, int32_t why, uint32_t again, struct tags_told *told)
{
	return make_round_alone(hand, TAGS_RESERVED, SLEEPER, why, again, told);
}

int32_t tags_library_listen_on_reserved(struct tags_hand *hand, int32_t why, uint32_t again, struct tags_told *told)
{
	return make_round_alone(hand, TAGS_RESERVED, LISTENER, why, again, told);
}

/*
 * Reports
 */

static uint64_t find_busy(const struct set *set, uint32_t word)
{
	return set->word[word] & ~set->aside[word] & bits_of(set, word);
}

static int32_t report_busy(const struct map *map, uint64_t *into, size_t words)
{
	memset(into, 0, words * sizeof(*into));
	for (const struct set *set = map->set; set < map->set + SETS; set++)
		for (uint32_t word = 0; word < set->words; word++)
			*into |= tags_of(set, word, find_busy(set, word));
	return (int32_t)count(*into);
}

int32_t tags_library_pool_busy(struct tags_pool *pool, uint64_t *into, size_t words)
{
	struct map *map = map_of(pool);

	if (!map)
		return TAGS_BAD_HANDLE;
	use_handle(map, "report");
	return report_busy(map, into, words);
}

int32_t tags_library_busy(struct tags_hand *hand, uint64_t *into, size_t words)
{
	const struct map *map = member_of(hand)->map;

	stop(map, "reports by a hand");
	return report_busy(map, into, words);
}

int32_t tags_library_pool_show(struct tags_pool *pool, uint32_t kind, struct tags_sizes *sizes)
{
	struct map *map = map_of(pool);

	memset(sizes, 0, sizeof(*sizes));
	if (!map)
		return TAGS_BAD_HANDLE;
	use_handle(map, "report");
	sizes->bits_per_word = map->set[kind].width;
	for (uint32_t word = 0; word < map->set[kind].words; word++)
		sizes->busy += count(find_busy(&map->set[kind], word));
	return TAGS_OK;
}

/*
 * What the model lacks: no scenario over it makes these calls
 */
#define LACKS(call, ...) \
	int32_t call(__VA_ARGS__) \
	{ \
		fault("the model has no " #call); \
		return TAGS_NULL; \
	}

#pragma GCC diagnostic ignored "-Wunused-parameter"
#include "lacks.h"
