/*
 * What the calls return while one thread makes them all. A pool is a list that
 * says where each tag is. It follows the rules that docs/DESIGN.md describes.
 */
#ifndef MODEL_H
#define MODEL_H

#include <stdbool.h>
#include "../tags.h"

enum place {
	FREE,
	/** given back, and not yet swept for reuse */
	ASIDE,
	HELD,
	POSTED
};

/* whether a hand waits to be notified, or has been told of a tag */
enum bell { IDLE, LISTED, TOLD };

enum {
	/* eventfds of a pool, and arguments of its function */
	EVENTS = 3,
	ARGUMENTS = 3,
	NOBODY = -1,
	NOWHERE = -1
};

/* Ordinary or reserved tags. */
struct set {
	/* the pool's number of its first tag */
	uint32_t first;
	uint32_t depth;
	uint32_t shift;
	bool round_robin;
	enum place place[TAGS_MAX_TOTAL];
	/* the hand that holds the tag, while it is held */
	int holder[TAGS_MAX_TOTAL];
	uint64_t slot[TAGS_MAX_TOTAL];
	/* the note of the tag's user, if it has one */
	bool has_note[TAGS_MAX_TOTAL];
	uint64_t note[TAGS_MAX_TOTAL];
	/* how many tags the sweeps of this call made free; those of the latest sweep, and the first of its word */
	uint32_t freed;
	uint64_t swept;
	uint32_t swept_from;
};

/* The state of a hand, whether a thread has it or not. */
struct member {
	/* where its next get begins, by enum tags_kind */
	uint32_t hint[2];
	/* the first tag of its cache's window, and which tags there are kept, or known to be held */
	uint32_t window;
	uint64_t kept;
	uint64_t lent;
	enum bell bell;
	/* the set that it waits for */
	enum tags_kind kind;
	/* 0, or when its wait began, and the eventfd or argument that it named last; whether that was told since */
	uint64_t turn;
	uint32_t event;
	bool is_notified;
};

struct pool {
	/* by enum tags_kind */
	struct set set[2];
	/* the least depth of a shallow get */
	uint32_t least;
	uint32_t hands;
	/* how many tags a hand may keep, and whether only while it holds another one */
	uint32_t cache;
	bool is_careful;
	bool has_notes;
	struct member member[TAGS_MAX_HANDS];
	/* hands that no thread has, or NOBODY; the last one goes out first */
	int berth[TAGS_MAX_HANDS];
	struct tags_sums sums;
	/* how many ordinary tags went back by a call that has not seen to them yet */
	uint32_t given;
	bool is_stopped;
	/* the waits that have begun, and how often each eventfd and each argument was notified */
	uint64_t turns;
	uint64_t told[EVENTS + ARGUMENTS];
};

/* What is behind a handle: nothing, a pool, or a hand of a pool. */
struct model {
	struct pool *pool;
	int number;
};

enum { THE_POOL = -1 };

static inline uint32_t least_of(uint32_t a, uint32_t b)
{
	return a < b ? a : b;
}

static inline bool is_hand(const struct model *handle)
{
	return handle->pool && handle->number != THE_POOL;
}

static inline struct member *member_of(const struct model *hand)
{
	return &hand->pool->member[hand->number];
}

static inline uint32_t total_of(const struct model *hand)
{
	return hand->pool->set[TAGS_RESERVED].depth + hand->pool->set[TAGS_ORDINARY].depth;
}

static inline enum tags_kind kind_of(const struct model *hand, uint32_t tag)
{
	return tag < hand->pool->set[TAGS_RESERVED].depth ? TAGS_RESERVED : TAGS_ORDINARY;
}

static inline struct set *set_of(const struct model *hand, uint32_t tag)
{
	return &hand->pool->set[kind_of(hand, tag)];
}

static inline uint32_t words_of(const struct set *set)
{
	return (set->depth + (1u << set->shift) - 1) >> set->shift;
}

/* Whether the hand keeps the tag in its cache, so that its user does not hold it. */
static inline bool is_kept(const struct model *hand, uint32_t tag)
{
	const struct member *member = member_of(hand);

	return tag - member->window < 64 && member->kept >> (tag - member->window) & 1;
}

static inline bool is_posted(const struct model *hand, uint32_t tag)
{
	const struct set *set = set_of(hand, tag);

	return set->place[tag - set->first] == POSTED;
}

int32_t model_open(struct model *handle, const struct tags_options *options);
int32_t model_join(struct model *handle, struct model *hand, uint32_t flags);
int32_t model_leave(struct model *hand);
int32_t model_resize(struct model *handle, uint32_t total);
int32_t model_close(struct model *handle, struct tags_sums *sums);

/* One search, which tells nobody. */
int32_t model_get(struct model *hand);
int32_t model_get_reserved(struct model *hand);
int32_t model_get_shallow(struct model *hand, uint32_t depth);
int32_t model_get_exactly(struct model *hand, uint32_t tag);
int32_t model_get_batch(struct model *hand, uint32_t n, uint64_t *won);
/* @left becomes how many tags it left free or gave back. */
int32_t model_get_many(struct model *hand, uint32_t *tags, size_t n, uint32_t *left);
int32_t model_clear(struct model *hand, uint32_t tag);
int32_t model_clear_batch(struct model *hand, const uint32_t *tags, size_t count);

int32_t model_clear_mask(struct model *hand, uint32_t first, uint64_t mask);

int32_t model_flush(struct model *hand);
/* Takes the least tag that the hand keeps, or returns NOWHERE. */
int32_t model_reuse(struct model *hand);
/* Takes this tag if the hand keeps it, and returns whether it did. */
bool model_reuse_one(struct model *hand, uint32_t tag);
/* Notes that the hand won a tag, if it is in the window: nothing else is kept, so the window moves there. */
void model_lend(struct model *hand, uint32_t tag);
/* Keeps a tag that is cleared, if it may be kept. */
bool model_keep(struct model *hand, uint32_t tag);
/*
 * Notes that the hand holds the tags of a list no more. All kept tags go back first if none may
 * be kept any more.
 */
void model_release(struct model *hand, const uint32_t *tags, size_t n);
void model_release_posted(struct model *hand, uint32_t tag);
int32_t model_get_write(struct model *hand, uint64_t value);
int32_t model_read_clear(struct model *hand, uint32_t tag, uint64_t *value);

int32_t model_read(struct model *hand, uint32_t tag, uint64_t *value);
int32_t model_write(struct model *hand, uint32_t tag, uint64_t value, uint64_t *former);
int32_t model_note(struct model *hand, uint32_t tag, uint64_t value);
int32_t model_post(struct model *hand, uint32_t tag);
int32_t model_take(struct model *hand, uint32_t tag);
int32_t model_post_mask(struct model *hand, uint32_t first, uint64_t mask);
int32_t model_take_mask(struct model *hand, uint32_t first, uint64_t mask);
int32_t model_holds(struct model *hand, uint32_t tag);

int32_t model_busy(struct model *hand, uint64_t *into, size_t words);
int32_t model_show(struct model *hand, uint32_t kind, struct tags_sizes *sizes);
int32_t model_waiting(struct model *hand);
int32_t model_pool_busy(struct model *pool, uint64_t *into, size_t words);
int32_t model_pool_show(struct model *pool, uint32_t kind, struct tags_sizes *sizes);
int32_t model_pool_waiting(struct model *pool);

/* Frees ordinary tags of the hand, at once. */
void model_give_back(struct model *hand, const uint32_t *tags, size_t n);
/* How many tags of a set the sweeps of the latest get made free, without those of the last sweep that the hand has. */
uint32_t model_left(struct model *hand, enum tags_kind kind);
/* After gets that left so many ordinary tags free, which are told of. Returns @answer. */
int32_t model_left_free(struct model *hand, int32_t answer, uint32_t left);
/* After a get of an ordinary tag: those that it made free are told of, without those of the latest sweep that it won. Returns @answer. */
int32_t model_swept(struct model *hand, int32_t answer);
/* The same of a get from the set that @tag is of. */
int32_t model_swept_for(struct model *hand, int32_t answer, uint32_t tag);
/* After a call that gave ordinary tags back, or kept them, those who wait are told, unless it was refused. Returns @answer. */
int32_t model_gave(struct model *hand, int32_t answer);
/* The same after a clear of a tag, of whichever set it is. */
int32_t model_cleared(struct model *hand, int32_t answer, uint32_t tag);
/* A flush, which tells those who wait. */
int32_t model_flush_and_tell(struct model *hand);
/* Gets of one tag of a set, and of several, made twice under round robin if they found none. They tell who waits. */
int32_t model_get_and_tell(struct model *hand, enum tags_kind kind);
int32_t model_get_many_and_tell(struct model *hand, uint32_t *tags, size_t n);
/* A wait for a tag of a set. An @event from EVENTS on is an argument of the function. */
int32_t model_get_async(struct model *hand, enum tags_kind kind, int32_t event);
int32_t model_cancel(struct model *hand);
int32_t model_stop(struct model *handle);
/* What a get returns that would have to wait if it found no tag, and whose time is up then or has no end. */
int32_t model_wait(struct model *hand, enum tags_kind kind, bool is_late);

#endif
